/* Replies of a server, read and written. */
#include "native.h"

/* ---- Replies read ----------------------------------------------------------------------------- */

/* In which form rows are given: as cells, as values, or as columns. */
enum form { CELLS, ROW_VALUES, COLUMNS, FORMS };

/* What the library lists stays listed until `reply_take` lists what came since. So results that a
 * call couldn't give are shown anew by the next one. `waiting` has those that were shown and not
 * given, since others had to be listed in their place. */
typedef struct {
    OBJECT_HEAD
    bool is_ended, is_listed; /* the listed results weren't given */
    mysql_session_end end;
    PyObject *waiting, *last;
    /* The columns of the rows that went on behind the last listing, and those rows' plans. */
    bool goes_on, tail;
    Shown shown;
    Plan *plans;
    size_t width, plan_room;
} Reply;

static mysql_session_handle *reply_handle(Reply *self)
{
    return &self->held->handles[0];
}

PyObject *reply_new(PyObject *module, PyObject *args)
{
    State *state = state_of(module);
    uint32_t kind, capabilities;
    uint8_t first;
    size_t limit;
    if (needs_setup(state) || !PyArg_ParseTuple(args, "O&O&O&O&", to_u32, &kind, to_u32,
                                                &capabilities, to_u8, &first, to_size, &limit))
        return NULL;
    Object *self = new_object(module, REPLY);
    uint32_t code =
        self ? mysql_session_reply_new(&self->held->handles[0], kind, capabilities, first, limit) : 0;
    if (code) {
        fail(state, code);
        Py_CLEAR(self);
    }
    return (PyObject *)self;
}

static PyObject *reply_feed(PyObject *it, PyObject *given)
{
    Reply *self = (Reply *)it;
    In piece = {0};
    if (!to_piece(given, &piece))
        return NULL;
    if (begin((Object *)self)) {
        in_end(&piece);
        return NULL;
    }
    uint32_t code;
    if (piece.len >= LET_GO) {
        Py_BEGIN_ALLOW_THREADS
        code = mysql_session_reply_feed(reply_handle(self), piece.at, piece.len);
        Py_END_ALLOW_THREADS
    } else {
        code = mysql_session_reply_feed(reply_handle(self), piece.at, piece.len);
    }
    self->busy = false;
    in_end(&piece);
    if (code)
        return fail(self->state, code);
    Py_RETURN_NONE;
}

static PyObject *shown_columns(Reply *self, size_t number, size_t count, bool are_params, Plan *plans)
{
    PyObject *columns = PyTuple_New((Py_ssize_t)count);
    for (size_t i = 0; columns && i < count; i++) {
        mysql_session_column column;
        memset(&column, 0, sizeof column);
        uint32_t code = are_params ? mysql_session_reply_param(reply_handle(self), number, i, &column)
                                   : mysql_session_reply_column(reply_handle(self), number, i, &column);
        PyObject *made = code ? fail(self->state, code) : column_of(self->state, &column);
        if (!made) {
            Py_CLEAR(columns);
            break;
        }
        PyTuple_SetItem(columns, (Py_ssize_t)i, made);
        if (plans)
            plan_column(&column, &plans[i]);
    }
    return columns;
}

static PyObject *shown_states(Reply *self, size_t number, size_t count)
{
    PyObject *states = PyTuple_New((Py_ssize_t)count);
    size_t position = 0;
    for (size_t i = 0; states && i < count; i++) {
        uint8_t type = 0;
        const uint8_t *at = NULL;
        size_t len = 0;
        uint32_t code =
            mysql_session_reply_state(reply_handle(self), number, &position, &type, &at, &len);
        PyObject *made = code ? fail(self->state, code)
                              : PyObject_CallFunction(self->state->state_change, "BN", type,
                                                      bytes_of(at, len));
        if (made)
            PyTuple_SetItem(states, (Py_ssize_t)i, made);
        else
            Py_CLEAR(states);
    }
    return states;
}

/* Has the columns of a result at hand: those that are known where its rows go on. */
static int know_columns(Reply *self, size_t number, size_t width)
{
    if (number == 0 && self->goes_on && self->shown.columns && self->width == width)
        return 0;
    self->goes_on = false;
    self->width = 0;
    shown_clear(&self->shown);
    if (width > self->plan_room) {
        Plan *plans = PyMem_Realloc(self->plans, width * sizeof *plans);
        if (!plans) {
            PyErr_NoMemory();
            return -1;
        }
        self->plans = plans;
        self->plan_room = width;
    }
    if (shown_set(&self->shown, shown_columns(self, number, width, false, self->plans)))
        return -1;
    self->width = width;
    return 0;
}

static PyObject *reply_row(Reply *self, size_t number, size_t row, enum form form, size_t count)
{
    PyObject *tuple = PyTuple_New((Py_ssize_t)self->width);
    mysql_session_value value;
    memset(&value, 0, sizeof value);
    for (size_t i = 0; tuple && i < self->width; i++) {
        uint32_t code = mysql_session_reply_cell(reply_handle(self), number, row, i, &value);
        PyObject *cell = code           ? fail(self->state, code)
                         : form == CELLS ? cell_of(self->state, self->plans[i].type, &value)
                                         : value_of(self->state, &self->plans[i], &value);
        if (cell) {
            PyTuple_SetItem(tuple, (Py_ssize_t)i, cell);
            continue;
        }
        if (!code && form != CELLS)
            tell_row_error(self->state, &self->plans[i], &self->shown, i, count,
                           value.kind == MYSQL_SESSION_NULL);
        Py_CLEAR(tuple);
    }
    return tuple;
}

/* The rows of a result as a list of tuples. */
static PyObject *reply_rows(Reply *self, size_t number, size_t count, enum form form)
{
    PyObject *rows = PyList_New((Py_ssize_t)count);
    for (size_t i = 0; rows && i < count; i++) {
        PyObject *row =
            i % 4096 == 4095 && PyErr_CheckSignals() ? NULL : reply_row(self, number, i, form, i);
        if (row)
            PyList_SetItem(rows, (Py_ssize_t)i, row);
        else
            Py_CLEAR(rows);
    }
    return rows;
}

/* The same as columns. */
static PyObject *reply_table(Reply *self, size_t number, size_t count)
{
    Table table;
    mysql_session_value value;
    memset(&value, 0, sizeof value);
    if (table_begin(self->state, &table, self->plans, self->width))
        return NULL;
    bool wrong = false;
    for (size_t row = 0; !wrong && row < count; row++) {
        wrong = (row % 4096 == 4095 && PyErr_CheckSignals()) || table_widen(&table, count);
        for (size_t i = 0; !wrong && i < self->width; i++) {
            uint32_t code = mysql_session_reply_cell(reply_handle(self), number, row, i, &value);
            if (code)
                fail(self->state, code);
            else if (table_put(self->state, &table, self->plans, i, &value))
                tell_row_error(self->state, &self->plans[i], &self->shown, i, row,
                               value.kind == MYSQL_SESSION_NULL);
            else
                continue;
            wrong = true;
        }
        table.count += !wrong;
    }
    PyObject *made = wrong ? NULL : table_arrays(self->state, &table);
    table_clear(&table);
    return made;
}

static PyObject *shown_rows(Reply *self, size_t number, const mysql_session_result *r, enum form form,
                            const Values *values)
{
    State *state = self->state;
    if (know_columns(self, number, r->columns))
        return NULL;
    plan(state, values, self->plans, self->width);
    PyObject *columns = self->shown.columns;
    Py_INCREF(columns);
    PyObject *rows = form == COLUMNS ? reply_table(self, number, r->rows)
                                     : reply_rows(self, number, r->rows, form);
    PyObject *made = NULL;
    if (rows && form == COLUMNS)
        made = PyObject_CallFunction(state->table, "OnOOHHNN", columns, (Py_ssize_t)r->rows, rows,
                                     r->ended ? Py_True : Py_False, r->status, r->warnings,
                                     bytes_of(r->text, r->len),
                                     shown_states(self, number, r->states));
    else if (rows)
        made = PyObject_CallFunction(form == CELLS ? state->rows : state->value_rows, "OOOHHNN",
                                     columns, rows, r->ended ? Py_True : Py_False, r->status,
                                     r->warnings, bytes_of(r->text, r->len),
                                     shown_states(self, number, r->states));
    Py_XDECREF(rows);
    Py_DECREF(columns);
    return made;
}

static PyObject *shown_result(Reply *self, size_t number, enum form form, const Values *values)
{
    State *state = self->state;
    mysql_session_result r;
    memset(&r, 0, sizeof r);
    uint32_t code = mysql_session_reply_result(reply_handle(self), number, &r);
    if (code)
        return fail(state, code);
    self->tail = r.kind == MYSQL_SESSION_RESULT_ROWS && !r.ended;
    switch (r.kind) {
    case MYSQL_SESSION_RESULT_ROWS: return shown_rows(self, number, &r, form, values);
    case MYSQL_SESSION_RESULT_PREPARED:
        return PyObject_CallFunction(state->prepared, "IHNN", (unsigned)r.statement, r.warnings,
                                     shown_columns(self, number, r.params, true, NULL),
                                     shown_columns(self, number, r.columns, false, NULL));
    case MYSQL_SESSION_RESULT_ERROR:
        return PyObject_CallFunction(state->server_error, "HNN", r.error_code,
                                     bytes_of(r.state, r.state_len), bytes_of(r.text, r.len));
    case MYSQL_SESSION_RESULT_RAW_ROWS:
        return PyObject_CallFunction(state->raw_rows, "nOHH", (Py_ssize_t)r.rows,
                                     r.ended ? Py_True : Py_False, r.status, r.warnings);
    case MYSQL_SESSION_RESULT_FILE:
        return PyObject_CallFunction(state->file, "N", bytes_of(r.text, r.len));
    default:
        return PyObject_CallFunction(state->ok, "KKHHNN", (unsigned long long)r.affected_rows,
                                     (unsigned long long)r.last_insert_id, r.status, r.warnings,
                                     bytes_of(r.text, r.len), shown_states(self, number, r.states));
    }
}

/* The listed results. */
static PyObject *shown(Reply *self, enum form form, const Values *values)
{
    size_t count = 0;
    bool tail = self->goes_on;
    uint32_t code = mysql_session_reply_results(reply_handle(self), &count);
    PyObject *list = code ? fail(self->state, code) : PyList_New((Py_ssize_t)count);
    for (size_t i = 0; list && i < count; i++) {
        PyObject *result = shown_result(self, i, form, values);
        if (result)
            PyList_SetItem(list, (Py_ssize_t)i, result);
        else
            Py_CLEAR(list);
    }
    if (list && !count)
        self->tail = tail;
    return list;
}

/* Has the listed results, which weren't given, wait, so that others can be listed. */
static int set_aside(Reply *self, enum form form, const Values *values)
{
    if (!self->is_listed)
        return 0;
    PyObject *list = shown(self, form, values);
    PyObject *all = list && self->waiting ? PySequence_Concat(self->waiting, list) : list;
    if (!all) {
        Py_XDECREF(list);
        return -1;
    }
    if (self->waiting)
        Py_DECREF(list);
    Py_XDECREF(self->waiting);
    self->waiting = all;
    self->is_listed = false;
    return 0;
}

/* The listing goes. Of rows that go on behind it the columns stay known. */
static void listed_anew(Reply *self)
{
    self->goes_on = self->tail;
    self->is_listed = true;
}

static PyObject *take(Reply *self, enum form form, const Values *values)
{
    PyObject *last = self->last;
    self->last = NULL;
    Py_XDECREF(last);
    if (!self->is_ended) {
        if (set_aside(self, form, values))
            return NULL;
        uint32_t code = mysql_session_reply_take(reply_handle(self));
        if (code)
            return fail(self->state, code);
        listed_anew(self);
    } else {
        size_t count;
        uint32_t code = mysql_session_reply_results(reply_handle(self), &count);
        if (code)
            return fail(self->state, code);
    }
    PyObject *list = self->is_listed ? shown(self, form, values) : PyList_New(0);
    if (list && self->waiting) {
        PyObject *all = PySequence_Concat(self->waiting, list);
        Py_DECREF(list);
        list = all;
    }
    /* A signal that came meanwhile is told before anything counts as given. */
    if (list && PyErr_CheckSignals())
        Py_CLEAR(list);
    if (list) {
        self->fresh = self->is_listed ? FRESH : FRESH_COPY;
        self->is_listed = false;
        self->last = self->waiting;
        self->waiting = NULL;
    }
    return list;
}

static PyObject *reply_take(PyObject *it, PyObject *args)
{
    Reply *self = (Reply *)it;
    PyObject *given;
    int form;
    Values *values = NULL;
    if (check_fresh((Object *)self) || !PyArg_ParseTuple(args, "iO", &form, &given))
        return NULL;
    if (form < 0 || form >= FORMS) {
        PyErr_SetString(PyExc_ValueError, "there is no such form");
        return NULL;
    }
    if (given != Py_None && values_in(self->state, given, &values))
        return NULL;
    if (begin((Object *)self))
        return NULL;
    PyObject *list = take(self, (enum form)form, values);
    self->busy = false;
    return list;
}

static PyObject *reply_ungive(PyObject *it, PyObject *none)
{
    (void)none;
    Reply *self = (Reply *)it;
    bool was_listed = take_fresh((Object *)self, FRESH);
    if (was_listed || take_fresh((Object *)self, FRESH_COPY)) {
        self->is_listed = was_listed;
        self->waiting = self->last;
        self->last = NULL;
    }
    Py_RETURN_NONE;
}

static PyObject *reply_end(PyObject *it, PyObject *none)
{
    (void)none;
    Reply *self = (Reply *)it;
    if (begin((Object *)self))
        return NULL;
    PyObject *made = NULL;
    if (self->is_ended || !set_aside(self, CELLS, NULL)) {
        bool was_ended = self->is_ended;
        uint32_t code = mysql_session_reply_end(reply_handle(self), &self->end);
        if (code) {
            fail(self->state, code);
        } else {
            if (!was_ended)
                listed_anew(self);
            self->is_ended = true;
            made = Py_BuildValue("(IIK)", (unsigned)self->end.kind, (unsigned)self->end.fault,
                                 (unsigned long long)self->end.payload);
        }
    }
    self->busy = false;
    return made;
}

static int reply_clear(PyObject *it)
{
    Reply *self = (Reply *)it;
    Py_CLEAR(self->waiting);
    Py_CLEAR(self->last);
    shown_clear(&self->shown);
    self->goes_on = false;
    self->width = 0;
    return 0;
}

static PyObject *reply_close(PyObject *it, PyObject *none)
{
    PyObject *done = object_close(it, none);
    if (done)
        reply_clear(it);
    return done;
}

static int reply_traverse(PyObject *it, visitproc visit, void *arg)
{
    Reply *self = (Reply *)it;
    Py_VISIT(self->module);
    Py_VISIT(self->waiting);
    Py_VISIT(self->last);
    Py_VISIT(self->shown.columns);
    Py_VISIT(self->shown.names);
    return visit_type(it, visit, arg);
}

static void reply_dealloc(PyObject *it)
{
    PyObject_GC_UnTrack(it);
    reply_clear(it);
    PyMem_Free(((Reply *)it)->plans);
    object_dealloc(it);
}

static PyMethodDef reply_methods[] = {{"close", reply_close, METH_NOARGS, NULL},
                                      {"check", object_check, METH_NOARGS, NULL},
                                      {"is_open", object_is_open, METH_NOARGS, NULL},
                                      {"feed", reply_feed, METH_O, NULL},
                                      {"take", reply_take, METH_VARARGS, NULL},
                                      {"ungive", reply_ungive, METH_NOARGS, NULL},
                                      {"end", reply_end, METH_NOARGS, NULL},
                                      {NULL, NULL, 0, NULL}};
static PyType_Slot reply_slots[] = {{Py_tp_new, refuse_new},
                                    {Py_tp_dealloc, reply_dealloc},
                                    {Py_tp_traverse, reply_traverse},
                                    {Py_tp_clear, reply_clear},
                                    {Py_tp_methods, reply_methods},
                                    {0, NULL}};
PyType_Spec reply_spec = {"mysql_session._native.Reply", sizeof(Reply), 0,
                          Py_TPFLAGS_DEFAULT | Py_TPFLAGS_HAVE_GC, reply_slots};

/* ---- Replies written -------------------------------------------------------------------------- */

/* A writer's handles are itself, what it wrote, and the row that it writes. */
typedef struct {
    OBJECT_HEAD
    uint32_t kind;
    Object *row;
    Narrow narrow;
} Writer;

PyObject *writer_new(PyObject *module, PyObject *args)
{
    State *state = state_of(module);
    uint32_t kind, capabilities;
    uint8_t first;
    size_t limit;
    if (needs_setup(state) || !PyArg_ParseTuple(args, "O&O&O&O&", to_u32, &kind, to_u32,
                                                &capabilities, to_u8, &first, to_size, &limit))
        return NULL;
    Writer *self = (Writer *)new_object(module, WRITER);
    if (!self)
        return NULL;
    self->kind = kind;
    self->row = (Object *)sets_new(module, NULL);
    uint32_t code = 0;
    if (self->row && !out_new((Object *)self, 1))
        code = mysql_session_writer_new(&self->held->handles[0], kind, capabilities, first, limit);
    if (code)
        fail(state, code);
    if (PyErr_Occurred())
        Py_CLEAR(self);
    return (PyObject *)self;
}

/* Ends a call that appends to what the writer wrote. */
static PyObject *wrote(Writer *self, uint32_t code, const mysql_session_spot *spot)
{
    PyObject *made =
        code ? fail_spot(self->state, code, spot) : out_take((Object *)self, 1, FRESH_BYTES);
    self->busy = false;
    return made;
}

static PyObject *writer_ok(PyObject *it, PyObject *args)
{
    Writer *self = (Writer *)it;
    uint64_t affected, last;
    uint16_t status, warnings;
    In info = {0};
    bool more;
    if (check_fresh((Object *)self) ||
        !PyArg_ParseTuple(args, "O&O&O&O&O&O&", to_u64, &affected, to_u64, &last, to_u16, &status,
                          to_u16, &warnings, to_bool, &more, to_text, &info))
        return NULL;
    if (begin((Object *)self)) {
        in_end(&info);
        return NULL;
    }
    mysql_session_spot spot = {0};
    mysql_session_handle *out = to_write((Object *)self, 1);
    uint32_t code = mysql_session_writer_ok(&self->held->handles[0], affected, last, status, warnings,
                                            info.at, info.len, more, out, &spot);
    in_end(&info);
    return wrote(self, code, &spot);
}

static PyObject *writer_error(PyObject *it, PyObject *args)
{
    Writer *self = (Writer *)it;
    uint16_t number;
    In state = {0}, message = {0};
    if (check_fresh((Object *)self) ||
        !PyArg_ParseTuple(args, "O&O&O&", to_u16, &number, to_text, &state, to_text, &message))
        return NULL;
    PyObject *made = NULL;
    if (!begin((Object *)self)) {
        mysql_session_spot spot = {0};
        mysql_session_handle *out = to_write((Object *)self, 1);
        uint32_t code =
            mysql_session_writer_error(&self->held->handles[0], number, state.at, state.len,
                                       message.at, message.len, out, &spot);
        made = wrote(self, code, &spot);
    }
    in_end(&state);
    in_end(&message);
    return made;
}

/* Gives columns for what is begun next: tuples of a type, a name, flags, a charset, a length and
 * decimals, which were checked. */
static int give_columns(Writer *self, PyObject *columns)
{
    mysql_session_handle *handle = &self->held->handles[0];
    mysql_session_spot spot = {0};
    /* What an earlier call gave that failed is used up by a result that this kind never has. */
    if (self->kind == MYSQL_SESSION_REPLY_TO_PREPARE)
        mysql_session_writer_rows(handle, to_write((Object *)self, 1), &spot);
    else
        mysql_session_writer_prepared(handle, 0, 0, 0, to_write((Object *)self, 1), &spot);
    for (Py_ssize_t i = 0; i < PyTuple_Size(columns); i++) {
        uint8_t type, decimals;
        uint16_t flags, charset;
        uint32_t length;
        In name = {0};
        PyObject *it = PyTuple_GetItem(columns, i);
        if (!it || !PyTuple_Check(it) ||
            !PyArg_ParseTuple(it, "O&O&O&O&O&O&", to_u8, &type, to_u16, &flags, to_u16, &charset,
                              to_u32, &length, to_u8, &decimals, to_text, &name)) {
            if (!PyErr_Occurred())
                PyErr_SetString(PyExc_TypeError, "a column is wanted");
            return -1;
        }
        uint32_t code = mysql_session_writer_column(handle, type, name.at, name.len, flags, charset,
                                                    length, decimals);
        in_end(&name);
        if (code) {
            fail(self->state, code);
            return -1;
        }
    }
    return 0;
}

/* Which of the columns, that were given, have floats of 32 bits. */
static int narrow_of(PyObject *columns, Narrow *narrow)
{
    narrow->count = (size_t)PyTuple_Size(columns);
    narrow->columns = PyMem_Malloc(narrow->count + 1);
    if (!narrow->columns) {
        PyErr_NoMemory();
        return -1;
    }
    for (size_t i = 0; i < narrow->count; i++) {
        PyObject *type = PyTuple_GetItem(PyTuple_GetItem(columns, (Py_ssize_t)i), 0);
        narrow->columns[i] = PyLong_AsLongLong(type) == MYSQL_SESSION_TYPE_FLOAT;
    }
    return 0;
}

static PyObject *writer_rows(PyObject *it, PyObject *columns)
{
    Writer *self = (Writer *)it;
    if (check_fresh((Object *)self))
        return NULL;
    if (!PyTuple_Check(columns)) {
        PyErr_SetString(PyExc_TypeError, "a tuple is wanted");
        return NULL;
    }
    if (begin((Object *)self))
        return NULL;
    Narrow narrow;
    if (give_columns(self, columns) || narrow_of(columns, &narrow)) {
        self->busy = false;
        return NULL;
    }
    mysql_session_spot spot = {0};
    uint32_t code =
        mysql_session_writer_rows(&self->held->handles[0], to_write((Object *)self, 1), &spot);
    /* Of rows that were refused nothing is begun. */
    PyMem_Free(code ? narrow.columns : self->narrow.columns);
    if (!code)
        self->narrow = narrow;
    return wrote(self, code, &spot);
}

static PyObject *writer_prepared(PyObject *it, PyObject *args)
{
    Writer *self = (Writer *)it;
    uint32_t statement;
    size_t params;
    uint16_t warnings;
    PyObject *columns;
    if (check_fresh((Object *)self) ||
        !PyArg_ParseTuple(args, "O&O&O&O!", to_u32, &statement, to_size, &params, to_u16, &warnings,
                          &PyTuple_Type, &columns) ||
        begin((Object *)self))
        return NULL;
    if (give_columns(self, columns)) {
        self->busy = false;
        return NULL;
    }
    mysql_session_spot spot = {0};
    uint32_t code = mysql_session_writer_prepared(&self->held->handles[0], statement, params,
                                                  warnings, to_write((Object *)self, 1), &spot);
    return wrote(self, code, &spot);
}

static PyObject *writer_row(PyObject *it, PyObject *values)
{
    Writer *self = (Writer *)it;
    if (begin((Object *)self))
        return NULL;
    mysql_session_handle *row = &self->row->held->handles[0];
    uint32_t code = mysql_session_sets_clear(row);
    if (code || sets_add_values(self->state, self->row, values, &self->narrow)) {
        if (code)
            fail(self->state, code);
        self->busy = false;
        return NULL;
    }
    mysql_session_spot spot = {0};
    code = mysql_session_writer_row(&self->held->handles[0], row, 0, to_write((Object *)self, 1),
                                    &spot);
    return wrote(self, code, &spot);
}

static PyObject *writer_end_rows(PyObject *it, PyObject *args)
{
    Writer *self = (Writer *)it;
    uint16_t status, warnings;
    bool more;
    if (check_fresh((Object *)self) ||
        !PyArg_ParseTuple(args, "O&O&O&", to_u16, &status, to_u16, &warnings, to_bool, &more) ||
        begin((Object *)self))
        return NULL;
    mysql_session_spot spot = {0};
    uint32_t code = mysql_session_writer_end_rows(&self->held->handles[0], status, warnings, more,
                                                  to_write((Object *)self, 1), &spot);
    return wrote(self, code, &spot);
}

static PyObject *writer_end(PyObject *it, PyObject *none)
{
    (void)none;
    Writer *self = (Writer *)it;
    if (begin((Object *)self))
        return NULL;
    mysql_session_spot spot = {0};
    uint32_t code = mysql_session_writer_end(&self->held->handles[0], &spot);
    self->busy = false;
    if (code)
        return fail_spot(self->state, code, &spot);
    Py_RETURN_NONE;
}

static PyObject *writer_rest(PyObject *it, PyObject *none)
{
    (void)none;
    Writer *self = (Writer *)it;
    if (begin((Object *)self))
        return NULL;
    PyObject *made = out_take((Object *)self, 1, FRESH_BYTES);
    self->busy = false;
    return made;
}

static PyObject *writer_ungive(PyObject *it, PyObject *none)
{
    (void)none;
    Object *self = (Object *)it;
    if (take_fresh(self, FRESH_BYTES))
        self->given[1] = false;
    Py_RETURN_NONE;
}

static void writer_dealloc(PyObject *it)
{
    Py_CLEAR(((Writer *)it)->row);
    PyMem_Free(((Writer *)it)->narrow.columns);
    object_dealloc(it);
}

static PyObject *writer_close(PyObject *it, PyObject *none)
{
    PyObject *done = object_close(it, none);
    PyObject *row = done ? object_close((PyObject *)((Writer *)it)->row, NULL) : NULL;
    Py_XDECREF(done);
    return row;
}

static PyMethodDef writer_methods[] = {{"close", writer_close, METH_NOARGS, NULL},
                                       {"check", object_check, METH_NOARGS, NULL},
                                       {"is_open", object_is_open, METH_NOARGS, NULL},
                                       {"ok", writer_ok, METH_VARARGS, NULL},
                                       {"error", writer_error, METH_VARARGS, NULL},
                                       {"rows", writer_rows, METH_O, NULL},
                                       {"row", writer_row, METH_O, NULL},
                                       {"end_rows", writer_end_rows, METH_VARARGS, NULL},
                                       {"prepared", writer_prepared, METH_VARARGS, NULL},
                                       {"end", writer_end, METH_NOARGS, NULL},
                                       {"rest", writer_rest, METH_NOARGS, NULL},
                                       {"ungive", writer_ungive, METH_NOARGS, NULL},
                                       {NULL, NULL, 0, NULL}};
static PyType_Slot writer_slots[] = {{Py_tp_new, refuse_new},
                                     {Py_tp_dealloc, writer_dealloc},
                                     {Py_tp_methods, writer_methods},
                                     {0, NULL}};
PyType_Spec writer_spec = {"mysql_session._native.Writer", sizeof(Writer), 0, Py_TPFLAGS_DEFAULT,
                           writer_slots};
