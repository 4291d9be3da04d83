/* Cells as values of Python's types. What is common is made here. All else is read by the Python
 * module's readers, which know each form and refuse what is no value. */
#include "native.h"

/* ---- Plans ------------------------------------------------------------------------------------ */

/* The number of the collation of what is no text. */
enum { BINARY_COLLATION = 63 };

static enum how how_of(uint8_t type, uint16_t charset)
{
    switch (type) {
    case MYSQL_SESSION_TYPE_TINY:
    case MYSQL_SESSION_TYPE_SHORT:
    case MYSQL_SESSION_TYPE_LONG:
    case MYSQL_SESSION_TYPE_LONGLONG:
    case MYSQL_SESSION_TYPE_INT24:
    case MYSQL_SESSION_TYPE_YEAR: return AS_INT;
    case MYSQL_SESSION_TYPE_FLOAT:
    case MYSQL_SESSION_TYPE_DOUBLE: return AS_FLOAT;
    case MYSQL_SESSION_TYPE_DECIMAL:
    case MYSQL_SESSION_TYPE_NEWDECIMAL: return AS_DECIMAL;
    case MYSQL_SESSION_TYPE_DATE:
    case MYSQL_SESSION_TYPE_NEWDATE: return AS_DATE;
    case MYSQL_SESSION_TYPE_TIMESTAMP:
    case MYSQL_SESSION_TYPE_DATETIME:
    case MYSQL_SESSION_TYPE_TIMESTAMP2:
    case MYSQL_SESSION_TYPE_DATETIME2: return AS_DATETIME;
    case MYSQL_SESSION_TYPE_TIME:
    case MYSQL_SESSION_TYPE_TIME2: return AS_TIME;
    case MYSQL_SESSION_TYPE_BIT:
    case MYSQL_SESSION_TYPE_GEOMETRY:
    case MYSQL_SESSION_TYPE_VECTOR: return AS_BYTES;
    case MYSQL_SESSION_TYPE_JSON: return AS_TEXT;
    default: return charset == BINARY_COLLATION ? AS_BYTES : AS_CODEC;
    }
}

void plan_column(const mysql_session_column *column, Plan *plan)
{
    memset(plan, 0, sizeof *plan);
    plan->type = column->type;
    plan->flags = column->flags;
    plan->charset = column->charset;
}

/* The name of the codec of a collation, or NULL where it is UTF-8. */
static const char *codec_of(State *state, uint16_t charset)
{
    PyObject *number = PyLong_FromLong(charset);
    PyObject *name = number && PyDict_Check(state->codecs)
                         ? PyDict_GetItemWithError(state->codecs, number)
                         : NULL;
    Py_XDECREF(number);
    PyErr_Clear();
    return name && PyBytes_Check(name) ? PyBytes_AsString(name) : NULL;
}

void plan(State *state, const Values *values, Plan *plans, size_t width)
{
    for (size_t i = 0; i < width; i++) {
        Plan *it = &plans[i];
        enum how how = how_of(it->type, it->charset);
        it->codec = how == AS_CODEC ? codec_of(state, it->charset) : NULL;
        it->how = (uint8_t)(how == AS_CODEC && !it->codec ? AS_TEXT : how);
        it->converter = values ? values->converters[it->type] : NULL;
    }
}

/* ---- The user's converters -------------------------------------------------------------------- */

PyObject *values_new(PyObject *module, PyObject *converters)
{
    State *state = state_of(module);
    PyObject *key, *converter;
    Py_ssize_t at = 0;
    if (needs_setup(state))
        return NULL;
    if (!PyDict_Check(converters)) {
        PyErr_SetString(PyExc_TypeError, "a dict is wanted");
        return NULL;
    }
    Values *made = (Values *)PyType_GenericAlloc(state->types[VALUES], 0);
    while (made && PyDict_Next(converters, &at, &key, &converter)) {
        uint8_t type;
        if (PyCallable_Check(converter) && PyLong_CheckExact(key) && to_u8(key, &type)) {
            Py_INCREF(converter);
            Py_XDECREF(made->converters[type]);
            made->converters[type] = converter;
        } else {
            if (!PyErr_Occurred())
                PyErr_SetString(PyExc_TypeError, "a callable is wanted for each type");
            Py_CLEAR(made);
        }
    }
    return (PyObject *)made;
}

int values_in(State *state, PyObject *it, Values **values)
{
    if (Py_TYPE(it) != state->types[VALUES]) {
        PyErr_SetString(PyExc_TypeError, "converters of the extension are wanted");
        return -1;
    }
    *values = (Values *)it;
    return 0;
}

static int values_traverse(PyObject *it, visitproc visit, void *arg)
{
    for (int i = 0; i < 256; i++)
        Py_VISIT(((Values *)it)->converters[i]);
    return visit_type(it, visit, arg);
}

static int values_clear(PyObject *it)
{
    for (int i = 0; i < 256; i++)
        Py_CLEAR(((Values *)it)->converters[i]);
    return 0;
}

static void values_dealloc(PyObject *it)
{
    PyTypeObject *type = Py_TYPE(it);
    PyObject_GC_UnTrack(it);
    values_clear(it);
    ((freefunc)PyType_GetSlot(type, Py_tp_free))(it);
    Py_DECREF(type);
}

static PyType_Slot values_slots[] = {{Py_tp_new, refuse_new},
                                     {Py_tp_dealloc, values_dealloc},
                                     {Py_tp_traverse, values_traverse},
                                     {Py_tp_clear, values_clear},
                                     {0, NULL}};
PyType_Spec values_spec = {"mysql_session._native.Values", sizeof(Values), 0,
                           Py_TPFLAGS_DEFAULT | Py_TPFLAGS_HAVE_GC, values_slots};

/* ---- Numbers ---------------------------------------------------------------------------------- */

bool whole_of(const uint8_t *at, size_t len, bool *is_negative, uint64_t *magnitude)
{
    size_t i = len && (at[0] == '-' || at[0] == '+');
    uint64_t sum = 0;
    if (len - i < 1 || len - i > 20)
        return false;
    *is_negative = at[0] == '-';
    for (; i < len; i++) {
        unsigned digit = (unsigned)at[i] - '0';
        if (digit > 9 || sum > UINT64_MAX / 10 || (sum == UINT64_MAX / 10 && digit > UINT64_MAX % 10))
            return false;
        sum = sum * 10 + digit;
    }
    *magnitude = sum;
    return true;
}

bool real_of(const uint8_t *at, size_t len, double *number)
{
    char text[64];
    if (!len || len >= sizeof text)
        return false;
    for (size_t i = 0; i < len; i++) {
        bool is_plain = (at[i] >= '0' && at[i] <= '9') || at[i] == '.' || at[i] == '-' ||
                        at[i] == '+' || at[i] == 'e' || at[i] == 'E';
        if (!is_plain)
            return false;
        text[i] = (char)at[i];
    }
    text[len] = 0;
    *number = PyOS_string_to_double(text, NULL, PyExc_OverflowError);
    if (*number == -1.0 && PyErr_Occurred()) {
        if (PyErr_ExceptionMatches(PyExc_ValueError))
            PyErr_Clear();
        return false;
    }
    return true;
}

static double float_of(uint64_t bits)
{
    float number;
    uint32_t word = (uint32_t)bits;
    memcpy(&number, &word, sizeof number);
    return number;
}

static double double_of(uint64_t bits)
{
    double number;
    memcpy(&number, &bits, sizeof number);
    return number;
}

/* Digits of a text as a number. */
static bool digits(const uint8_t *at, size_t len, uint32_t *number)
{
    uint32_t sum = 0;
    for (size_t i = 0; i < len; i++) {
        unsigned digit = (unsigned)at[i] - '0';
        if (digit > 9)
            return false;
        sum = sum * 10 + digit;
    }
    *number = sum;
    return true;
}

/* ---- Dates and durations ----------------------------------------------------------------------- */

typedef struct {
    uint32_t year, month, day, hour, minute, second, micros;
} Date;

typedef struct {
    bool is_negative;
    uint32_t days, hours, minutes, seconds, micros;
} Duration;

static PyObject *call_numbers(PyObject *callable, const uint32_t *numbers, int count)
{
    PyObject *arguments = PyTuple_New(count);
    for (int i = 0; arguments && i < count; i++) {
        PyObject *number = PyLong_FromUnsignedLong(numbers[i]);
        if (number)
            PyTuple_SetItem(arguments, i, number);
        else
            Py_CLEAR(arguments);
    }
    PyObject *made = arguments ? PyObject_Call(callable, arguments, NULL) : NULL;
    Py_XDECREF(arguments);
    return made;
}

static PyObject *date_fields(State *state, const Date *date)
{
    const uint32_t numbers[] = {date->year,   date->month,  date->day,   date->hour,
                                date->minute, date->second, date->micros};
    return call_numbers(state->date_fields, numbers, 7);
}

static PyObject *time_fields(State *state, const Duration *it)
{
    return PyObject_CallFunction(state->time_fields, "OIIIII", it->is_negative ? Py_True : Py_False,
                                 it->days, it->hours, it->minutes, it->seconds, it->micros);
}

/* Whether `datetime` has such a date. */
static bool is_date(const Date *it)
{
    static const uint8_t DAYS[] = {31, 28, 31, 30, 31, 30, 31, 31, 30, 31, 30, 31};
    if (it->year < 1 || it->year > 9999 || it->month < 1 || it->month > 12 || it->day < 1)
        return false;
    bool is_leap = it->year % 4 == 0 && (it->year % 100 != 0 || it->year % 400 == 0);
    uint32_t last = DAYS[it->month - 1] + (uint32_t)(it->month == 2 && is_leap);
    return it->day <= last && it->hour < 24 && it->minute < 60 && it->second < 60 &&
           it->micros < 1000000;
}

static PyObject *made_date(State *state, const Date *it)
{
    uint32_t key = it->year << 9 | it->month << 5 | it->day;
    uint32_t slot = (it->year * 372 + it->month * 31 + it->day) % DATES;
    PyObject *made = state->dates[slot];
    if (made && state->date_keys[slot] == key) {
        Py_INCREF(made);
        return made;
    }
    const uint32_t numbers[] = {it->year, it->month, it->day};
    made = call_numbers(state->date, numbers, 3);
    if (made) {
        PyObject *before = state->dates[slot];
        Py_INCREF(made);
        state->dates[slot] = made;
        state->date_keys[slot] = key;
        Py_XDECREF(before);
    }
    return made;
}

static PyObject *made_datetime(State *state, const Date *it)
{
    const uint32_t numbers[] = {it->year,   it->month,  it->day,   it->hour,
                                it->minute, it->second, it->micros};
    return call_numbers(state->datetime, numbers, it->micros ? 7 : 6);
}

static bool has_no_time(const Date *it)
{
    return !it->hour && !it->minute && !it->second && !it->micros;
}

static Date date_in(const mysql_session_value *value)
{
    return (Date){value->year,   value->month,  value->day,   value->hour,
                  value->minute, value->second, value->micros};
}

/* A cell of a date: of a column of dates without a time a date. */
static PyObject *date_cell(State *state, uint8_t type, const mysql_session_value *value)
{
    Date date = date_in(value);
    if (!is_date(&date))
        return date_fields(state, &date);
    if (type == MYSQL_SESSION_TYPE_DATE && has_no_time(&date))
        return made_date(state, &date);
    return made_datetime(state, &date);
}

static PyObject *made_duration(State *state, const Duration *it)
{
    long sign = it->is_negative ? -1 : 1;
    long seconds = (long)it->hours * 3600 + (long)it->minutes * 60 + (long)it->seconds;
    return PyObject_CallFunction(state->timedelta, "lll", sign * (long)it->days, sign * seconds,
                                 sign * (long)it->micros);
}

/* A cell of a duration: timedelta where there is one with the same fields. */
static PyObject *time_cell(State *state, const mysql_session_value *value)
{
    Duration it = {value->negative, value->days,   value->hour,
                   value->minute,   value->second, value->micros};
    bool has_rest = it.hours || it.minutes || it.seconds || it.micros;
    bool fits = it.hours < 24 && it.minutes < 60 && it.seconds < 60 && it.micros < 1000000 &&
                (it.days < 999999999 || (it.days == 999999999 && !(it.is_negative && has_rest))) &&
                !(it.is_negative && !it.days && !has_rest);
    return fits ? made_duration(state, &it) : time_fields(state, &it);
}

/* Reads a fraction of a second: a point and up to six digits, or nothing. */
static bool fraction(const uint8_t *at, size_t len, uint32_t *micros)
{
    *micros = 0;
    if (!len)
        return true;
    if (at[0] != '.' || len < 2 || len > 7 || !digits(at + 1, len - 1, micros))
        return false;
    for (; len < 7; len++)
        *micros *= 10;
    return true;
}

static bool date_of_text(const uint8_t *at, size_t len, Date *it)
{
    memset(it, 0, sizeof *it);
    if (len < 10 || !digits(at, 4, &it->year) || at[4] != '-' || !digits(at + 5, 2, &it->month) ||
        at[7] != '-' || !digits(at + 8, 2, &it->day))
        return false;
    if (len == 10)
        return is_date(it);
    return len >= 19 && at[10] == ' ' && digits(at + 11, 2, &it->hour) && at[13] == ':' &&
           digits(at + 14, 2, &it->minute) && at[16] == ':' && digits(at + 17, 2, &it->second) &&
           fraction(at + 19, len - 19, &it->micros) && is_date(it);
}

static bool time_of_text(const uint8_t *at, size_t len, Duration *it)
{
    uint32_t hours;
    it->is_negative = len && at[0] == '-';
    size_t i = it->is_negative;
    const uint8_t *colon = len > i ? memchr(at + i, ':', len - i) : NULL;
    if (!colon)
        return false;
    size_t width = (size_t)(colon - at) - i, left = len - (size_t)(colon - at);
    if (width < 2 || width > 9 || left < 6 || !digits(at + i, width, &hours) ||
        !digits(colon + 1, 2, &it->minutes) || colon[3] != ':' || !digits(colon + 4, 2, &it->seconds) ||
        !fraction(colon + 6, left - 6, &it->micros))
        return false;
    it->days = hours / 24;
    it->hours = hours % 24;
    return true;
}

/* ---- Cells ------------------------------------------------------------------------------------ */

PyObject *cell_of(State *state, uint8_t type, const mysql_session_value *value)
{
    switch (value->kind) {
    case MYSQL_SESSION_NULL: Py_RETURN_NONE;
    case MYSQL_SESSION_INT: return PyLong_FromLongLong(value->int_value);
    case MYSQL_SESSION_UINT: return PyLong_FromUnsignedLongLong(value->uint_value);
    case MYSQL_SESSION_FLOAT: return PyFloat_FromDouble(float_of(value->uint_value));
    case MYSQL_SESSION_DOUBLE: return PyFloat_FromDouble(double_of(value->uint_value));
    case MYSQL_SESSION_DATE: return date_cell(state, type, value);
    case MYSQL_SESSION_TIME: return time_cell(state, value);
    default: return bytes_of(value->bytes, value->len);
    }
}

/* Bytes of a cell as a value, where they have its common form. NULL without an error: the reader of
 * the Python module knows. */
static PyObject *common(State *state, enum how how, const char *codec, const uint8_t *at, size_t len)
{
    switch (how) {
    case AS_INT: {
        bool is_negative;
        uint64_t magnitude;
        if (!whole_of(at, len, &is_negative, &magnitude))
            return NULL;
        if (!is_negative)
            return magnitude > INT64_MAX ? PyLong_FromUnsignedLongLong(magnitude)
                                         : PyLong_FromLongLong((int64_t)magnitude);
        return magnitude > INT64_MAX ? NULL : PyLong_FromLongLong(-(int64_t)magnitude);
    }
    case AS_FLOAT: {
        double number;
        return real_of(at, len, &number) ? PyFloat_FromDouble(number) : NULL;
    }
    case AS_TEXT: return PyUnicode_DecodeUTF8(len ? (const char *)at : "", (Py_ssize_t)len, NULL);
    case AS_CODEC:
        return PyUnicode_Decode(len ? (const char *)at : "", (Py_ssize_t)len, codec, NULL);
    case AS_DECIMAL: {
        for (size_t i = 0; i < len; i++)
            if (!((at[i] >= '0' && at[i] <= '9') || at[i] == '.' || at[i] == '-'))
                return NULL;
        PyObject *text = PyUnicode_FromStringAndSize(len ? (const char *)at : "", (Py_ssize_t)len);
        PyObject *made = text ? PyObject_CallFunctionObjArgs(state->decimal, text, NULL) : NULL;
        Py_XDECREF(text);
        return made;
    }
    case AS_DATE: {
        Date date;
        return date_of_text(at, len, &date) && has_no_time(&date) ? made_date(state, &date) : NULL;
    }
    case AS_DATETIME: {
        Date date;
        return date_of_text(at, len, &date) ? made_datetime(state, &date) : NULL;
    }
    case AS_TIME: {
        Duration duration;
        return time_of_text(at, len, &duration) ? made_duration(state, &duration) : NULL;
    }
    default: return bytes_of(at, len);
    }
}

static PyObject *call(PyObject *callable, PyObject *cell)
{
    PyObject *made = cell ? PyObject_CallFunctionObjArgs(callable, cell, NULL) : NULL;
    Py_XDECREF(cell);
    return made;
}

PyObject *value_of(State *state, const Plan *plan, const mysql_session_value *value)
{
    PyObject *made;
    if (value->kind == MYSQL_SESSION_NULL)
        Py_RETURN_NONE;
    if (plan->converter)
        return call(plan->converter, cell_of(state, plan->type, value));
    switch (value->kind) {
    case MYSQL_SESSION_BYTES:
        made = common(state, plan->how, plan->codec, value->bytes, value->len);
        if (made || PyErr_Occurred())
            return made;
        break;
    case MYSQL_SESSION_INT:
    case MYSQL_SESSION_UINT:
        if (plan->how == AS_INT)
            return cell_of(state, plan->type, value);
        break;
    case MYSQL_SESSION_FLOAT:
    case MYSQL_SESSION_DOUBLE:
        if (plan->how == AS_FLOAT)
            return cell_of(state, plan->type, value);
        break;
    case MYSQL_SESSION_DATE: {
        Date date = date_in(value);
        if (plan->how == AS_DATETIME && is_date(&date))
            return made_datetime(state, &date);
        if (plan->how == AS_DATE && is_date(&date) && has_no_time(&date))
            return made_date(state, &date);
        break;
    }
    case MYSQL_SESSION_TIME:
        if (plan->how == AS_TIME)
            return time_cell(state, value);
        break;
    }
    return call(state->readers[plan->how], cell_of(state, plan->type, value));
}

static void row_error(State *state, PyObject *name, size_t row, bool is_null)
{
    PyErr_Clear();
    PyObject *error =
        PyObject_CallFunction(state->row_error, "sOn",
                              is_null ? "it is NULL" : "it holds no value of the type wanted", name,
                              (Py_ssize_t)row);
    if (error)
        PyErr_SetObject((PyObject *)Py_TYPE(error), error);
    Py_XDECREF(error);
}

static bool is_no_value(void)
{
    return PyErr_ExceptionMatches(PyExc_ValueError) || PyErr_ExceptionMatches(PyExc_ArithmeticError);
}

bool is_row_error(const Plan *plan)
{
    return !plan->converter && is_no_value();
}

/* The name of a column, by which an error tells it. */
static PyObject *name_of(const Shown *shown, Py_ssize_t place)
{
    PyObject *name = shown->names ? PyList_GetItem(shown->names, place) : NULL;
    if (!name || name != Py_None) {
        Py_XINCREF(name);
        return name;
    }
    PyObject *column = PyTuple_GetItem(shown->columns, place);
    PyObject *raw = column ? PyObject_GetAttrString(column, "name") : NULL;
    name = raw ? PyUnicode_FromEncodedObject(raw, "utf-8", "surrogateescape") : NULL;
    Py_XDECREF(raw);
    if (name) {
        Py_INCREF(name);
        PyList_SetItem(shown->names, place, name);
    }
    return name;
}

void tell_row_error(State *state, const Plan *plan, const Shown *shown, size_t place, size_t row,
                    bool is_null)
{
    if (!is_row_error(plan))
        return;
    PyErr_Clear();
    PyObject *name = name_of(shown, (Py_ssize_t)place);
    if (name)
        row_error(state, name, row, is_null);
    Py_XDECREF(name);
}

int shown_set(Shown *shown, PyObject *columns)
{
    Py_ssize_t width = columns ? PyTuple_Size(columns) : 0;
    PyObject *names = columns ? PyList_New(width) : NULL;
    shown_clear(shown);
    if (!names) {
        Py_XDECREF(columns);
        return -1;
    }
    for (Py_ssize_t i = 0; i < width; i++) {
        Py_INCREF(Py_None);
        PyList_SetItem(names, i, Py_None);
    }
    shown->columns = columns;
    shown->names = names;
    return 0;
}

void shown_clear(Shown *shown)
{
    Py_CLEAR(shown->columns);
    Py_CLEAR(shown->names);
}

/* ---- Rows of cells, as values of types that are asked for ---------------------------------------- */

/* Cells may be read by the reader alone, or not at all. */
enum { BY_READER = HOWS, AS_IT_IS };

/* How a place of rows is read: its number, how, a codec's name or None, the Python module's reader,
 * and whether NULL stays None. */
typedef struct {
    size_t place;
    enum how how;
    const char *codec;
    PyObject *reader;
    bool is_optional;
} Reading;

static int reading_of(PyObject *it, Reading *reading)
{
    PyObject *codec;
    Py_ssize_t place;
    int how;
    if (!PyTuple_Check(it)) {
        PyErr_SetString(PyExc_TypeError, "a reading is a tuple");
        return -1;
    }
    if (!PyArg_ParseTuple(it, "niOOO&", &place, &how, &codec, &reading->reader, to_bool,
                          &reading->is_optional))
        return -1;
    if (place < 0 || how < 0 || how > AS_IT_IS) {
        PyErr_SetString(PyExc_ValueError, "there is no such reading");
        return -1;
    }
    reading->place = (size_t)place;
    reading->how = (enum how)how;
    reading->codec = PyBytes_Check(codec) ? PyBytes_AsString(codec) : NULL;
    if (reading->how == AS_CODEC && !reading->codec)
        reading->how = AS_TEXT;
    return 0;
}

static PyObject *read_cell(State *state, const Reading *reading, PyObject *cell)
{
    if (reading->how == (enum how)AS_IT_IS || (cell == Py_None && reading->is_optional)) {
        Py_INCREF(cell);
        return cell;
    }
    PyObject *made = NULL;
    if (Py_TYPE(cell) == &PyBytes_Type && reading->how < HOWS) {
        char *at;
        Py_ssize_t len;
        if (PyBytes_AsStringAndSize(cell, &at, &len))
            return NULL;
        made = common(state, reading->how, reading->codec, (const uint8_t *)at, (size_t)len);
    } else if (Py_TYPE(cell) == &PyLong_Type && reading->how == AS_INT) {
        Py_INCREF(cell);
        made = cell;
    }
    if (made || PyErr_Occurred())
        return made;
    return PyObject_CallFunctionObjArgs(reading->reader, cell, NULL);
}

/* The values of a row as a tuple. */
static PyObject *read_row(State *state, const Reading *readings, size_t count, size_t width,
                          PyObject *given, PyObject *names, size_t number)
{
    PyObject *row = PyTuple_Check(given) ? (Py_INCREF(given), given) : PySequence_Tuple(given);
    PyObject *made = row ? PyTuple_New((Py_ssize_t)count) : NULL;
    if (made && (size_t)PyTuple_Size(row) != width) {
        PyObject *why = PyUnicode_FromFormat("it has %zd cells, and there are %zu columns",
                                             PyTuple_Size(row), width);
        PyObject *error = why ? PyObject_CallFunction(state->row_error, "OOn", why, Py_None,
                                                      (Py_ssize_t)number)
                              : NULL;
        if (error)
            PyErr_SetObject((PyObject *)Py_TYPE(error), error);
        Py_XDECREF(why);
        Py_XDECREF(error);
        Py_CLEAR(made);
    }
    for (size_t i = 0; made && i < count; i++) {
        size_t place = readings[i].place;
        PyObject *cell = PyTuple_GetItem(row, (Py_ssize_t)place);
        PyObject *value = cell ? read_cell(state, &readings[i], cell) : NULL;
        if (value) {
            PyTuple_SetItem(made, (Py_ssize_t)i, value);
            continue;
        }
        if (cell && is_no_value()) {
            PyObject *name = PySequence_GetItem(names, (Py_ssize_t)place);
            if (name)
                row_error(state, name, number, cell == Py_None);
            Py_XDECREF(name);
        }
        Py_CLEAR(made);
    }
    Py_XDECREF(row);
    return made;
}

/* A dict of values by their keys; a class makes a record of it. */
static PyObject *record_of(State *state, PyObject *keys, PyObject *values, PyObject *class)
{
    PyObject *dict = PyDict_New();
    Py_ssize_t count = PyTuple_Size(values);
    for (Py_ssize_t i = 0; dict && i < count; i++)
        if (PyDict_SetItem(dict, PyTuple_GetItem(keys, i), PyTuple_GetItem(values, i)))
            Py_CLEAR(dict);
    if (!dict || class == Py_None)
        return dict;
    PyObject *made = PyObject_Call(class, state->none_given, dict);
    Py_DECREF(dict);
    return made;
}

/* Rows as tuples, where there are no keys, as dicts by them, or as records of a class. */
PyObject *rows_of(PyObject *module, PyObject *args)
{
    State *state = state_of(module);
    PyObject *rows, *names, *given, *keys, *class;
    Py_ssize_t width;
    if (needs_setup(state) || !PyArg_ParseTuple(args, "OnOO!OO", &rows, &width, &names,
                                                &PyTuple_Type, &given, &keys, &class))
        return NULL;
    size_t count = (size_t)PyTuple_Size(given), number = 0;
    if (keys != Py_None && (!PyTuple_Check(keys) || (size_t)PyTuple_Size(keys) != count)) {
        PyErr_SetString(PyExc_TypeError, "a key is wanted for each place");
        return NULL;
    }
    Reading *readings = PyMem_Malloc((count ? count : 1) * sizeof *readings);
    if (!readings)
        return PyErr_NoMemory();
    for (size_t i = 0; i < count; i++)
        if (reading_of(PyTuple_GetItem(given, (Py_ssize_t)i), &readings[i])) {
            PyMem_Free(readings);
            return NULL;
        }
    PyObject *list = PyList_New(0), *iterator = list ? PyObject_GetIter(rows) : NULL, *row;
    if (!iterator)
        Py_CLEAR(list);
    while (list && (row = PyIter_Next(iterator))) {
        PyObject *made = read_row(state, readings, count, (size_t)width, row, names, number);
        Py_DECREF(row);
        if (made && keys != Py_None) {
            PyObject *values = made;
            made = record_of(state, keys, values, class);
            Py_DECREF(values);
        }
        if (!made || PyList_Append(list, made) ||
            (++number % 4096 == 0 && PyErr_CheckSignals()))
            Py_CLEAR(list);
        Py_XDECREF(made);
    }
    if (PyErr_Occurred())
        Py_CLEAR(list);
    Py_XDECREF(iterator);
    PyMem_Free(readings);
    return list;
}

/* ---- Columns ---------------------------------------------------------------------------------- */

PyObject *column_of(State *state, const mysql_session_column *it)
{
    return PyObject_CallFunction(
        state->column, "NBHHIBNNNN", bytes_of(it->name, it->name_len), it->type, it->flags,
        it->charset, (unsigned)it->length, it->decimals, bytes_of(it->schema, it->schema_len),
        bytes_of(it->table, it->table_len), bytes_of(it->org_table, it->org_table_len),
        bytes_of(it->org_name, it->org_name_len));
}
