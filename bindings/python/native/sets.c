/* Parameter sets: put together, sent, received and recoded. */
#include "native.h"
#include <float.h>

/* ---- Parameter sets --------------------------------------------------------------------------- */

/* The values of a set as the library takes them. */
typedef struct {
    mysql_session_parameter *values, few[16];
    In *bytes, few_bytes[16];
    size_t count, byte_count;
    uint8_t *joined, few_joined[512];
    size_t len;
} Set;

static int number_in(PyObject *it, int bits, uint64_t *number)
{
    uint8_t byte;
    uint16_t half;
    uint32_t word;
    switch (bits) {
    case 8: return to_u8(it, &byte) ? (*number = byte, 0) : -1;
    case 16: return to_u16(it, &half) ? (*number = half, 0) : -1;
    default: return to_u32(it, &word) ? (*number = word, 0) : -1;
    }
}

/* The numbers of DateFields or TimeFields, which are checked for their bits. */
static int fields_in(PyObject *it, const int *bits, Py_ssize_t count, uint64_t *numbers)
{
    for (Py_ssize_t i = 0; i < count; i++) {
        PyObject *field = PyTuple_GetItem(it, i);
        if (!field)
            return -1;
        Py_INCREF(field);
        int wrong;
        if (bits[i] == 1) {
            uint32_t truth;
            wrong = !to_u32(field, &truth);
            if (!wrong && truth > 1) {
                PyErr_Format(PyExc_OverflowError, "%S is no number of 1 bits without a sign", field);
                wrong = 1;
            }
            numbers[i] = truth;
        } else {
            wrong = number_in(field, bits[i], &numbers[i]);
        }
        Py_DECREF(field);
        if (wrong)
            return -1;
    }
    return 0;
}

static int attribute_in(PyObject *it, const char *name, int64_t *number)
{
    PyObject *found = PyObject_GetAttrString(it, name);
    *number = found ? PyLong_AsLongLong(found) : -1;
    Py_XDECREF(found);
    return PyErr_Occurred() ? -1 : 0;
}

static int int_in(PyObject *it, mysql_session_parameter *value)
{
    int overflow = 0;
    long long number = PyLong_AsLongLongAndOverflow(it, &overflow);
    if (!overflow) {
        value->kind = MYSQL_SESSION_INT;
        value->int_value = number;
        return number == -1 && PyErr_Occurred() ? -1 : 0;
    }
    unsigned long long large = overflow > 0 ? PyLong_AsUnsignedLongLong(it) : 0;
    if (overflow < 0 || (large == (unsigned long long)-1 && PyErr_Occurred())) {
        PyErr_Clear();
        PyErr_Format(PyExc_OverflowError, "%S is no number of 64 bits", it);
        return -1;
    }
    value->kind = MYSQL_SESSION_UINT;
    value->uint_value = large;
    return 0;
}

/* A float, as a double, or as one of 32 bits where its column has those. */
static int float_in(PyObject *it, bool is_narrow, mysql_session_parameter *value)
{
    double number = PyFloat_AsDouble(it);
    if (number == -1 && PyErr_Occurred())
        return -1;
    if (!is_narrow) {
        value->kind = MYSQL_SESSION_DOUBLE;
        memcpy(&value->uint_value, &number, sizeof number);
        return 0;
    }
    if ((number > FLT_MAX && number <= DBL_MAX) || (number < -FLT_MAX && number >= -DBL_MAX)) {
        PyErr_Format(PyExc_OverflowError, "%S is no float of 32 bits", it);
        return -1;
    }
    float narrow = (float)number;
    uint32_t bits;
    memcpy(&bits, &narrow, sizeof bits);
    value->kind = MYSQL_SESSION_FLOAT;
    value->uint_value = bits;
    return 0;
}

/* Refuses a datetime or a time with a zone, which no parameter has. */
static int no_zone(PyObject *it)
{
    PyObject *zone = PyObject_GetAttrString(it, "tzinfo");
    bool has_zone = zone && zone != Py_None;
    if (has_zone)
        PyErr_Format(PyExc_ValueError, "a parameter has no time zone: convert %R to a naive one", it);
    Py_XDECREF(zone);
    return zone && !has_zone ? 0 : -1;
}

static int date_in(PyObject *it, bool has_time, mysql_session_parameter *value)
{
    static const char *const NAMES[] = {"year",   "month",  "day",        "hour",
                                        "minute", "second", "microsecond"};
    int64_t fields[7] = {0};
    if (has_time && no_zone(it))
        return -1;
    for (int i = 0; i < (has_time ? 7 : 3); i++)
        if (attribute_in(it, NAMES[i], &fields[i]))
            return -1;
    value->kind = MYSQL_SESSION_DATE;
    value->year = (uint16_t)fields[0];
    value->month = (uint8_t)fields[1];
    value->day = (uint8_t)fields[2];
    value->hour = (uint8_t)fields[3];
    value->minute = (uint8_t)fields[4];
    value->second = (uint8_t)fields[5];
    value->micros = (uint32_t)fields[6];
    return 0;
}

static int duration_in(PyObject *it, mysql_session_parameter *value)
{
    int64_t days, seconds, micros;
    if (attribute_in(it, "days", &days) || attribute_in(it, "seconds", &seconds) ||
        attribute_in(it, "microseconds", &micros))
        return -1;
    int64_t whole = days * 86400 + seconds;
    value->kind = MYSQL_SESSION_TIME;
    value->negative = days < 0;
    if (days < 0) {
        whole = -whole;
        if (micros) {
            whole -= 1;
            micros = 1000000 - micros;
        }
    }
    value->days = (uint32_t)(whole / 86400);
    value->hour = (uint8_t)(whole % 86400 / 3600);
    value->minute = (uint8_t)(whole % 3600 / 60);
    value->second = (uint8_t)(whole % 60);
    value->micros = (uint32_t)micros;
    return 0;
}

/* A time of day, as a duration since midnight. */
static int time_in(PyObject *it, mysql_session_parameter *value)
{
    int64_t hour, minute, second, micros;
    if (no_zone(it) || attribute_in(it, "hour", &hour) || attribute_in(it, "minute", &minute) ||
        attribute_in(it, "second", &second) || attribute_in(it, "microsecond", &micros))
        return -1;
    value->kind = MYSQL_SESSION_TIME;
    value->hour = (uint8_t)hour;
    value->minute = (uint8_t)minute;
    value->second = (uint8_t)second;
    value->micros = (uint32_t)micros;
    return 0;
}

static int date_fields_in(PyObject *it, mysql_session_parameter *value)
{
    static const int BITS[] = {16, 8, 8, 8, 8, 8, 32};
    uint64_t fields[7];
    if (fields_in(it, BITS, 7, fields))
        return -1;
    value->kind = MYSQL_SESSION_DATE;
    value->year = (uint16_t)fields[0];
    value->month = (uint8_t)fields[1];
    value->day = (uint8_t)fields[2];
    value->hour = (uint8_t)fields[3];
    value->minute = (uint8_t)fields[4];
    value->second = (uint8_t)fields[5];
    value->micros = (uint32_t)fields[6];
    return 0;
}

static int time_fields_in(PyObject *it, mysql_session_parameter *value)
{
    static const int BITS[] = {1, 32, 8, 8, 8, 32};
    uint64_t fields[6];
    if (fields_in(it, BITS, 6, fields))
        return -1;
    value->kind = MYSQL_SESSION_TIME;
    value->negative = fields[0];
    value->days = (uint32_t)fields[1];
    value->hour = (uint8_t)fields[2];
    value->minute = (uint8_t)fields[3];
    value->second = (uint8_t)fields[4];
    value->micros = (uint32_t)fields[5];
    return 0;
}

static int bytes_in(PyObject *it, Set *set, mysql_session_parameter *value)
{
    In *in = &set->bytes[set->byte_count];
    memset(in, 0, sizeof *in);
    if (!in_of_text(it, in))
        return -1;
    set->byte_count++;
    value->kind = MYSQL_SESSION_BYTES;
    value->start = set->len;
    value->len = in->len;
    set->len += in->len;
    return 0;
}

static int is_a(PyObject *it, PyObject *class)
{
    return (PyObject *)Py_TYPE(it) == class ? 1 : PyObject_IsInstance(it, class);
}

/* What goes as the text that str makes of it. */
static int text_in(PyObject *it, Set *set, mysql_session_parameter *value)
{
    PyObject *text = PyObject_Str(it);
    int wrong = text ? bytes_in(text, set, value) : -1;
    Py_XDECREF(text);
    return wrong;
}

static int decimal_in(PyObject *it, Set *set, mysql_session_parameter *value)
{
    PyObject *finite = PyObject_CallMethod(it, "is_finite", NULL);
    int is = finite ? PyObject_IsTrue(finite) : -1;
    Py_XDECREF(finite);
    if (!is)
        PyErr_Format(PyExc_ValueError, "%R is no number that a server has", it);
    return is > 0 ? text_in(it, set, value) : -1;
}

/* There is no UUID before its module is imported, which isn't done here. */
static int is_uuid(PyObject *it)
{
    PyObject *module = PyDict_GetItemString(PyImport_GetModuleDict(), "uuid");
    PyObject *class = module ? PyObject_GetAttrString(module, "UUID") : NULL;
    if (!class) {
        PyErr_Clear();
        return 0;
    }
    int is = is_a(it, class);
    Py_DECREF(class);
    return is;
}

/* Puts a value into its place of the array. */
static int value_in(State *state, PyObject *it, bool is_narrow, Set *set,
                    mysql_session_parameter *value)
{
    int is;
    if (it == Py_None)
        return 0;
    if (PyLong_Check(it))
        return int_in(it, value);
    if (PyFloat_Check(it))
        return float_in(it, is_narrow, value);
    if (PyUnicode_Check(it) || PyBytes_Check(it) || PyByteArray_Check(it) || PyMemoryView_Check(it))
        return bytes_in(it, set, value);
    if ((is = is_a(it, state->datetime)))
        return is < 0 ? -1 : date_in(it, true, value);
    if ((is = is_a(it, state->date)))
        return is < 0 ? -1 : date_in(it, false, value);
    if ((is = is_a(it, state->timedelta)))
        return is < 0 ? -1 : duration_in(it, value);
    if (PyTuple_Check(it) && (is = is_a(it, state->date_fields)))
        return is < 0 ? -1 : date_fields_in(it, value);
    if (PyTuple_Check(it) && (is = is_a(it, state->time_fields)))
        return is < 0 ? -1 : time_fields_in(it, value);
    if ((is = is_a(it, state->decimal)))
        return is < 0 ? -1 : decimal_in(it, set, value);
    if ((is = is_a(it, state->time)))
        return is < 0 ? -1 : time_in(it, value);
    if ((is = is_uuid(it)))
        return is < 0 ? -1 : text_in(it, set, value);
    PyObject *name = PyObject_GetAttrString((PyObject *)Py_TYPE(it), "__name__");
    if (name)
        PyErr_Format(PyExc_TypeError, "a parameter can't be of the type %S", name);
    Py_XDECREF(name);
    return -1;
}

static void set_end(Set *set)
{
    for (size_t i = 0; i < set->byte_count; i++)
        in_end(&set->bytes[i]);
    if (set->values != set->few)
        PyMem_Free(set->values);
    if (set->bytes != set->few_bytes)
        PyMem_Free(set->bytes);
    if (set->joined != set->few_joined)
        PyMem_Free(set->joined);
}

/* The set of a tuple's values; `set_end` ends it also where this fails. */
static int set_of(State *state, PyObject *values, const Narrow *narrow, Set *set)
{
    size_t count = (size_t)PyTuple_Size(values);
    set->values = set->few;
    set->bytes = set->few_bytes;
    set->joined = set->few_joined;
    set->count = count;
    set->byte_count = set->len = 0;
    if (count > 16) {
        if (count > PY_SSIZE_T_MAX / sizeof *set->values ||
            !(set->values = PyMem_Malloc(count * sizeof *set->values)) ||
            !(set->bytes = PyMem_Malloc(count * sizeof *set->bytes))) {
            PyErr_NoMemory();
            return -1;
        }
    }
    memset(set->values, 0, count * sizeof *set->values);
    for (size_t i = 0; i < count; i++) {
        bool is_narrow = narrow && i < narrow->count && narrow->columns[i];
        if (value_in(state, PyTuple_GetItem(values, (Py_ssize_t)i), is_narrow, set, &set->values[i]))
            return -1;
    }
    if (set->byte_count == 1 || !set->len)
        return 0;
    if (set->len > sizeof set->few_joined && !(set->joined = PyMem_Malloc(set->len))) {
        PyErr_NoMemory();
        return -1;
    }
    size_t at = 0;
    for (size_t i = 0; i < set->byte_count; i++) {
        memcpy(set->joined + at, set->bytes[i].at, set->bytes[i].len);
        at += set->bytes[i].len;
    }
    return 0;
}

/* Puts a set behind the others of `sets`. */
static int add_tuple(State *state, Object *sets, PyObject *values, const Narrow *narrow)
{
    Set set;
    int wrong = set_of(state, values, narrow, &set);
    if (!wrong && !(wrong = begin(sets))) {
        const uint8_t *at = set.byte_count == 1 ? set.bytes[0].at : set.joined;
        uint32_t code = mysql_session_sets_add(&sets->held->handles[0], set.values, set.count, at,
                                               set.len);
        sets->busy = false;
        if (code) {
            fail(state, code);
            wrong = -1;
        }
    }
    set_end(&set);
    return wrong;
}

/* Whether values are of a class that gives no order to placeholders: a text, a mapping, Python's own
 * sets. Less than 0 is an error. */
static int has_no_order(State *state, PyObject *values)
{
    if (PyList_Check(values))
        return 0;
    if (PyUnicode_Check(values) || PyBytes_Check(values) || PyByteArray_Check(values) ||
        PyMemoryView_Check(values) || PyDict_Check(values))
        return 1;
    int is = PyObject_IsInstance(values, state->mapping);
    return is ? is : PyObject_IsInstance(values, state->unordered);
}

/* A set as a tuple of its values. */
static PyObject *tuple_of(State *state, PyObject *values)
{
    if (PyTuple_Check(values)) {
        Py_INCREF(values);
        return values;
    }
    int is = has_no_order(state, values);
    if (is > 0)
        PyErr_SetString(PyExc_TypeError,
                        "a set is a sequence of values in the order of the placeholders");
    return is ? NULL : PySequence_Tuple(values);
}

int sets_add_values(State *state, Object *sets, PyObject *values, const Narrow *narrow)
{
    PyObject *tuple = tuple_of(state, values);
    int wrong = tuple ? add_tuple(state, sets, tuple, narrow) : -1;
    Py_XDECREF(tuple);
    return wrong;
}

PyObject *sets_new(PyObject *module, PyObject *none)
{
    (void)none;
    Object *self = new_object(module, SETS);
    uint32_t code = self ? mysql_session_sets_new(&self->held->handles[0]) : 0;
    if (code) {
        fail(self->state, code);
        Py_CLEAR(self);
    }
    return (PyObject *)self;
}

static PyObject *sets_add(PyObject *it, PyObject *values)
{
    Object *self = (Object *)it;
    if (check(self) || sets_add_values(self->state, self, values, NULL))
        return NULL;
    Py_RETURN_NONE;
}

static PyObject *sets_extend(PyObject *it, PyObject *sets)
{
    Object *self = (Object *)it;
    PyObject *iterator = check(self) ? NULL : PyObject_GetIter(sets), *values;
    if (!iterator)
        return NULL;
    while ((values = PyIter_Next(iterator))) {
        int wrong = sets_add_values(self->state, self, values, NULL);
        Py_DECREF(values);
        if (wrong)
            break;
    }
    Py_DECREF(iterator);
    if (PyErr_Occurred())
        return NULL;
    Py_RETURN_NONE;
}

static PyObject *sets_clear(PyObject *it, PyObject *none)
{
    (void)none;
    Object *self = (Object *)it;
    if (begin(self))
        return NULL;
    uint32_t code = mysql_session_sets_clear(&self->held->handles[0]);
    self->busy = false;
    if (code)
        return fail(self->state, code);
    Py_RETURN_NONE;
}

static PyObject *sets_count(PyObject *it, PyObject *none)
{
    (void)none;
    Object *self = (Object *)it;
    size_t count = 0;
    if (begin(self))
        return NULL;
    uint32_t code = mysql_session_sets_count(&self->held->handles[0], &count);
    self->busy = false;
    return code ? fail(self->state, code) : PyLong_FromSize_t(count);
}

static PyMethodDef sets_methods[] = {OBJECT_METHODS,
                                     {"add", sets_add, METH_O, NULL},
                                     {"extend", sets_extend, METH_O, NULL},
                                     {"clear", sets_clear, METH_NOARGS, NULL},
                                     {"count", sets_count, METH_NOARGS, NULL},
                                     {NULL, NULL, 0, NULL}};
static PyType_Slot sets_slots[] = {{Py_tp_new, refuse_new},
                                   {Py_tp_dealloc, object_dealloc},
                                   {Py_tp_methods, sets_methods},
                                   {0, NULL}};
PyType_Spec sets_spec = {"mysql_session._native.Sets", sizeof(Object), 0, Py_TPFLAGS_DEFAULT,
                         sets_slots};

/* ---- Sending ---------------------------------------------------------------------------------- */

/* Begins a call on sets that are handed over as an argument. */
static Object *sets_in(State *state, PyObject *it)
{
    if (Py_TYPE(it) != state->types[SETS]) {
        PyErr_SetString(PyExc_TypeError, "sets of the extension are wanted");
        return NULL;
    }
    return begin((Object *)it) ? NULL : (Object *)it;
}

static PyObject *written(State *state, mysql_session_handle *out)
{
    const uint8_t *at = NULL;
    size_t len = 0;
    uint32_t code = mysql_session_bytes_data(out, &at, &len);
    return code ? fail(state, code) : bytes_of(at, len);
}

PyObject *send_sets(PyObject *module, PyObject *args)
{
    State *state = state_of(module);
    PyObject *given, *made = NULL;
    In query = {0};
    uint32_t road, statement, flags;
    size_t limit, count = 0;
    if (needs_setup(state) ||
        !PyArg_ParseTuple(args, "OO&O&O&O&O&", &given, to_text, &query, to_u32, &road, to_u32,
                          &statement, to_size, &limit, to_u32, &flags))
        return NULL;
    Object *sets = sets_in(state, given);
    if (sets) {
        mysql_session_handle out = MYSQL_SESSION_NOTHING;
        mysql_session_place place = {0};
        mysql_session_handle *at = &sets->held->handles[0];
        uint32_t code = mysql_session_bytes_new(&out);
        mysql_session_sets_count(at, &count);
        if (!code && count >= 1024) {
            Py_BEGIN_ALLOW_THREADS
            code = mysql_session_send(at, query.at, query.len, road, statement, limit, flags, &out,
                                      &place);
            Py_END_ALLOW_THREADS
        } else if (!code) {
            code = mysql_session_send(at, query.at, query.len, road, statement, limit, flags, &out,
                                      &place);
        }
        sets->busy = false;
        made = code ? fail_place(state, code, &place) : written(state, &out);
        mysql_session_free(&out);
    }
    in_end(&query);
    return made;
}

PyObject *execution_put(PyObject *module, PyObject *args)
{
    State *state = state_of(module);
    PyObject *given;
    uint32_t statement;
    if (needs_setup(state) || !PyArg_ParseTuple(args, "OO&", &given, to_u32, &statement))
        return NULL;
    Object *sets = sets_in(state, given);
    if (!sets)
        return NULL;
    mysql_session_handle out = MYSQL_SESSION_NOTHING;
    uint32_t code = mysql_session_bytes_new(&out);
    if (!code)
        code = mysql_session_execution_put(&sets->held->handles[0], 0, statement, &out);
    sets->busy = false;
    PyObject *made = code ? fail(state, code) : written(state, &out);
    mysql_session_free(&out);
    return made;
}

PyObject *digest(PyObject *module, PyObject *args)
{
    State *state = state_of(module);
    In text = {0};
    uint32_t flags;
    if (needs_setup(state) || !PyArg_ParseTuple(args, "O&O&", to_text, &text, to_u32, &flags))
        return NULL;
    mysql_session_handle out = MYSQL_SESSION_NOTHING;
    uint32_t code = mysql_session_bytes_new(&out);
    if (!code)
        code = mysql_session_digest(text.at, text.len, flags, &out);
    PyObject *made = code ? fail(state, code) : written(state, &out);
    mysql_session_free(&out);
    in_end(&text);
    return made;
}

PyObject *bind_text(PyObject *module, PyObject *args)
{
    State *state = state_of(module);
    PyObject *given, *made = NULL;
    In query = {0};
    uint32_t flags;
    if (needs_setup(state) ||
        !PyArg_ParseTuple(args, "OO&O&", &given, to_text, &query, to_u32, &flags))
        return NULL;
    Object *sets = sets_in(state, given);
    if (sets) {
        mysql_session_handle out = MYSQL_SESSION_NOTHING;
        mysql_session_place place = {0};
        uint32_t code = mysql_session_bytes_new(&out);
        if (!code)
            code = mysql_session_bind_text(&sets->held->handles[0], 0, query.at, query.len, flags,
                                           &out, &place);
        sets->busy = false;
        made = code ? fail_place(state, code, &place) : written(state, &out);
        mysql_session_free(&out);
    }
    in_end(&query);
    return made;
}

PyObject *value_text(PyObject *module, PyObject *args)
{
    State *state = state_of(module);
    PyObject *given;
    uint32_t flags;
    if (needs_setup(state) || !PyArg_ParseTuple(args, "OO&", &given, to_u32, &flags))
        return NULL;
    Object *sets = sets_in(state, given);
    if (!sets)
        return NULL;
    mysql_session_handle out = MYSQL_SESSION_NOTHING;
    uint32_t code = mysql_session_bytes_new(&out);
    if (!code)
        code = mysql_session_value_text(&sets->held->handles[0], 0, 0, flags, &out);
    sets->busy = false;
    PyObject *made = code ? fail(state, code) : written(state, &out);
    mysql_session_free(&out);
    return made;
}

/* ---- Receivers -------------------------------------------------------------------------------- */

/* Of the sets that the library lists, `given` were given, and `before` of them by calls before the
 * last one. */
typedef struct {
    OBJECT_HEAD
    size_t given_sets, before;
} Receiver;

PyObject *receiver_new(PyObject *module, PyObject *args)
{
    State *state = state_of(module);
    In query = {0};
    uint32_t statement, flags;
    size_t limit;
    if (needs_setup(state) || !PyArg_ParseTuple(args, "O&O&O&O&", to_text, &query, to_u32, &statement,
                                                to_size, &limit, to_u32, &flags))
        return NULL;
    Object *self = new_object(module, RECEIVER);
    uint32_t code = self ? mysql_session_receiver_new(&self->held->handles[0], query.at, query.len,
                                                      statement, limit, flags)
                         : 0;
    in_end(&query);
    if (code) {
        fail(state, code);
        Py_CLEAR(self);
    }
    return (PyObject *)self;
}

static PyObject *receiver_feed(PyObject *it, PyObject *given)
{
    Receiver *self = (Receiver *)it;
    In piece = {0};
    if (!to_piece(given, &piece))
        return NULL;
    if (begin((Object *)self)) {
        in_end(&piece);
        return NULL;
    }
    mysql_session_handle *handle = &self->held->handles[0];
    size_t count = 0;
    uint32_t code = mysql_session_receiver_sets(handle, &count);
    if (!code && self->given_sets && self->given_sets == count &&
        !(code = mysql_session_receiver_clear(handle)))
        self->given_sets = 0;
    if (!code && piece.len >= LET_GO) {
        Py_BEGIN_ALLOW_THREADS
        code = mysql_session_receiver_feed(handle, piece.at, piece.len);
        Py_END_ALLOW_THREADS
    } else if (!code) {
        code = mysql_session_receiver_feed(handle, piece.at, piece.len);
    }
    self->busy = false;
    in_end(&piece);
    if (code)
        return fail(self->state, code);
    Py_RETURN_NONE;
}

static PyObject *content_of(const mysql_session_content *content)
{
    switch (content->kind) {
    case MYSQL_SESSION_NULL: Py_RETURN_NONE;
    case MYSQL_SESSION_INT: return PyLong_FromLongLong(content->int_value);
    case MYSQL_SESSION_UINT: return PyLong_FromUnsignedLongLong(content->uint_value);
    default: return bytes_of(content->bytes, content->len);
    }
}

static PyObject *received_set(Receiver *self, size_t number)
{
    mysql_session_handle *handle = &self->held->handles[0];
    size_t width = 0;
    uint32_t code = mysql_session_receiver_width(handle, number, &width);
    PyObject *set = code ? fail(self->state, code) : PyTuple_New((Py_ssize_t)width);
    for (size_t i = 0; set && i < width; i++) {
        mysql_session_content content;
        memset(&content, 0, sizeof content);
        code = mysql_session_receiver_content(handle, number, i, &content);
        PyObject *value = code ? fail(self->state, code) : content_of(&content);
        if (value)
            PyTuple_SetItem(set, (Py_ssize_t)i, value);
        else
            Py_CLEAR(set);
    }
    return set;
}

static PyObject *receiver_take(PyObject *it, PyObject *none)
{
    (void)none;
    Receiver *self = (Receiver *)it;
    size_t count = 0;
    if (begin((Object *)self))
        return NULL;
    uint32_t code = mysql_session_receiver_sets(&self->held->handles[0], &count);
    size_t first = self->given_sets;
    PyObject *list = code ? fail(self->state, code)
                          : PyList_New((Py_ssize_t)(count > first ? count - first : 0));
    for (size_t i = first; list && i < count; i++) {
        PyObject *set = i % 4096 == 4095 && PyErr_CheckSignals() ? NULL : received_set(self, i);
        if (set)
            PyList_SetItem(list, (Py_ssize_t)(i - first), set);
        else
            Py_CLEAR(list);
    }
    if (list && PyErr_CheckSignals())
        Py_CLEAR(list);
    if (list) {
        self->before = first;
        self->given_sets = count;
        self->fresh = FRESH;
    }
    self->busy = false;
    return list;
}

/* Where an interrupt came behind `take`, the next call gives the same. */
static PyObject *receiver_ungive(PyObject *it, PyObject *none)
{
    (void)none;
    Receiver *self = (Receiver *)it;
    if (take_fresh((Object *)self, FRESH))
        self->given_sets = self->before;
    Py_RETURN_NONE;
}

static PyObject *receiver_end(PyObject *it, PyObject *none)
{
    (void)none;
    Receiver *self = (Receiver *)it;
    mysql_session_end end = {0};
    if (begin((Object *)self))
        return NULL;
    uint32_t code = mysql_session_receiver_end(&self->held->handles[0], &end);
    self->busy = false;
    return code ? fail(self->state, code)
                : Py_BuildValue("(IIK)", (unsigned)end.kind, (unsigned)end.fault,
                                (unsigned long long)end.payload);
}

static PyMethodDef receiver_methods[] = {OBJECT_METHODS,
                                         {"feed", receiver_feed, METH_O, NULL},
                                         {"take", receiver_take, METH_NOARGS, NULL},
                                         {"ungive", receiver_ungive, METH_NOARGS, NULL},
                                         {"end", receiver_end, METH_NOARGS, NULL},
                                         {NULL, NULL, 0, NULL}};
static PyType_Slot receiver_slots[] = {{Py_tp_new, refuse_new},
                                       {Py_tp_dealloc, object_dealloc},
                                       {Py_tp_methods, receiver_methods},
                                       {0, NULL}};
PyType_Spec receiver_spec = {"mysql_session._native.Receiver", sizeof(Receiver), 0,
                             Py_TPFLAGS_DEFAULT, receiver_slots};

/* ---- Recoding --------------------------------------------------------------------------------- */

/* A recoder's handles are itself and what it wrote. */
PyObject *recoder_new(PyObject *module, PyObject *args)
{
    State *state = state_of(module);
    In query = {0};
    uint32_t statement, flags;
    size_t limit;
    if (needs_setup(state) || !PyArg_ParseTuple(args, "O&O&O&O&", to_text, &query, to_u32, &statement,
                                                to_size, &limit, to_u32, &flags))
        return NULL;
    Object *self = new_object(module, RECODER);
    if (self && out_new(self, 1))
        Py_CLEAR(self);
    uint32_t code = self ? mysql_session_recoder_new(&self->held->handles[0], query.at, query.len,
                                                     statement, limit, flags)
                         : 0;
    in_end(&query);
    if (code) {
        fail(state, code);
        Py_CLEAR(self);
    }
    return (PyObject *)self;
}

static PyObject *recoder_feed(PyObject *it, PyObject *given)
{
    Object *self = (Object *)it;
    In piece = {0};
    if (check_fresh(self) || !to_piece(given, &piece))
        return NULL;
    if (begin(self)) {
        in_end(&piece);
        return NULL;
    }
    mysql_session_handle *handle = &self->held->handles[0], *out = to_write(self, 1);
    mysql_session_stop stop = {0};
    uint32_t code;
    if (piece.len >= LET_GO) {
        Py_BEGIN_ALLOW_THREADS
        code = mysql_session_recoder_feed(handle, piece.at, piece.len, out, &stop);
        Py_END_ALLOW_THREADS
    } else {
        code = mysql_session_recoder_feed(handle, piece.at, piece.len, out, &stop);
    }
    in_end(&piece);
    PyObject *made = code ? fail_stop(self->state, code, &stop) : out_take(self, 1, FRESH_BYTES);
    self->busy = false;
    return made;
}

static PyObject *recoder_end(PyObject *it, PyObject *none)
{
    (void)none;
    Object *self = (Object *)it;
    if (begin(self))
        return NULL;
    mysql_session_stop stop = {0};
    mysql_session_handle *out = to_write(self, 1);
    uint32_t code = mysql_session_recoder_end(&self->held->handles[0], out, &stop);
    PyObject *made = code ? fail_stop(self->state, code, &stop) : out_take(self, 1, FRESH_BYTES);
    self->busy = false;
    return made;
}

static PyObject *recoder_rest(PyObject *it, PyObject *none)
{
    (void)none;
    Object *self = (Object *)it;
    if (begin(self))
        return NULL;
    PyObject *made = out_take(self, 1, FRESH_BYTES);
    self->busy = false;
    return made;
}

static PyObject *recoder_ungive(PyObject *it, PyObject *none)
{
    (void)none;
    Object *self = (Object *)it;
    if (take_fresh(self, FRESH_BYTES))
        self->given[1] = false;
    Py_RETURN_NONE;
}

static PyMethodDef recoder_methods[] = {OBJECT_METHODS,
                                        {"feed", recoder_feed, METH_O, NULL},
                                        {"end", recoder_end, METH_NOARGS, NULL},
                                        {"rest", recoder_rest, METH_NOARGS, NULL},
                                        {"ungive", recoder_ungive, METH_NOARGS, NULL},
                                        {NULL, NULL, 0, NULL}};
static PyType_Slot recoder_slots[] = {{Py_tp_new, refuse_new},
                                      {Py_tp_dealloc, object_dealloc},
                                      {Py_tp_methods, recoder_methods},
                                      {0, NULL}};
PyType_Spec recoder_spec = {"mysql_session._native.Recoder", sizeof(Object), 0, Py_TPFLAGS_DEFAULT,
                            recoder_slots};
