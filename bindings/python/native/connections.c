/* Whole connections: fed, put on, and how they stand. */
#include "connections.h"

/* ---- Connections ------------------------------------------------------------------------------ */

static PyObject *made_connection(PyObject *module, Connection *self, uint32_t code)
{
    if (self && code)
        fail(state_of(module), code);
    if (PyErr_Occurred())
        Py_CLEAR(self);
    return (PyObject *)self;
}

static Connection *new_connection(PyObject *module)
{
    Connection *self = (Connection *)new_object(module, CONNECTION);
    if (self && (out_new((Object *)self, 0) || out_new((Object *)self, 1) ||
                 !(self->texts = PyDict_New()) || !(self->kept_columns = PyDict_New())))
        Py_CLEAR(self);
    return self;
}

PyObject *connection_new(PyObject *module, PyObject *args)
{
    size_t client, server, held;
    if (!PyArg_ParseTuple(args, "O&O&O&", to_size, &client, to_size, &server, to_size, &held))
        return NULL;
    Connection *self = new_connection(module);
    return made_connection(module, self,
                           self ? mysql_session_connection_new(at(self), client, server, held) : 0);
}

PyObject *connection_after_login(PyObject *module, PyObject *args)
{
    uint32_t capabilities, mariadb;
    size_t client, server, held;
    if (!PyArg_ParseTuple(args, "O&O&O&O&O&", to_u32, &capabilities, to_u32, &mariadb, to_size,
                          &client, to_size, &server, to_size, &held))
        return NULL;
    Connection *self = new_connection(module);
    if (self)
        self->is_greeted = true;
    return made_connection(module, self,
                           self ? mysql_session_connection_after_login(at(self), capabilities, mariadb,
                                                                       client, server, held)
                                : 0);
}

/* Raises the fault that was answered; always NULL. */
PyObject *connection_fail(Connection *self, uint32_t code)
{
    mysql_session_standing standing;
    memset(&standing, 0, sizeof standing);
    if (mysql_session_connection_standing(at(self), &standing) || standing.fault != code)
        return fail(self->state, code);
    PyObject *error =
        PyObject_CallFunction(self->state->fault, "IIK", (unsigned)code,
                              (unsigned)standing.fault_side, (unsigned long long)standing.fault_byte);
    if (error)
        PyErr_SetObject((PyObject *)Py_TYPE(error), error);
    Py_XDECREF(error);
    return NULL;
}

/* ---- What is fed and put ----------------------------------------------------------------------- */

static int to_side(PyObject *it, void *side)
{
    uint32_t found;
    if (!to_u32(it, &found))
        return 0;
    if (found > MYSQL_SESSION_SERVER) {
        PyErr_SetString(PyExc_ValueError, "there is no such side");
        return 0;
    }
    *(uint32_t *)side = found;
    return 1;
}

static PyObject *connection_feed(PyObject *it, PyObject *args)
{
    Connection *self = (Connection *)it;
    uint32_t side;
    In piece = {0};
    if (!PyArg_ParseTuple(args, "O&O&", to_side, &side, to_piece, &piece))
        return NULL;
    if (begin((Object *)self)) {
        in_end(&piece);
        return NULL;
    }
    if (connection_keep_lent(self)) {
        self->busy = false;
        in_end(&piece);
        return NULL;
    }
    uint32_t code;
    if (piece.len >= LET_GO) {
        Py_BEGIN_ALLOW_THREADS
        code = mysql_session_connection_feed(at(self), side, piece.at, piece.len);
        Py_END_ALLOW_THREADS
    } else {
        code = mysql_session_connection_feed(at(self), side, piece.at, piece.len);
    }
    self->busy = false;
    in_end(&piece);
    if (code)
        return fail(self->state, code);
    Py_RETURN_NONE;
}

static enum fresh fresh_of(uint32_t side)
{
    return side ? FRESH_BYTES_2 : FRESH_BYTES;
}

/* Nothing is put before an event that precedes it is told. */
static bool has_untold(const Connection *self)
{
    return connection_untold(self) != MYSQL_SESSION_EVENT_NONE;
}

/* What a call that put something gives: where that fails, the bytes weren't given. */
static PyObject *put_end(Connection *self, uint32_t side, PyObject *made)
{
    if (made && PyErr_CheckSignals())
        Py_CLEAR(made);
    if (!made)
        self->given[side] = false;
    return made;
}

static PyObject *put(Connection *self, uint32_t side, const In *payload)
{
    if (has_untold(self))
        return fail(self->state, MYSQL_SESSION_CONNECTION_NOT_ITS_TURN);
    if (!self->is_greeted && connection_greet(self, payload->at, payload->len))
        return NULL;
    mysql_session_event shown;
    memset(&shown, 0, sizeof shown);
    mysql_session_handle *out = to_write((Object *)self, (int)side);
    uint32_t code =
        mysql_session_connection_put(at(self), side, payload->at, payload->len, out, &shown);
    if (code)
        return fail(self->state, code);
    self->is_greeted = true;
    connection_note(self, &shown);
    PyObject *event = connection_event(self, &shown);
    PyObject *packets = event ? out_take((Object *)self, (int)side, fresh_of(side)) : NULL;
    PyObject *made = packets ? PyObject_CallFunctionObjArgs(self->state->put, packets, event, NULL)
                             : NULL;
    Py_XDECREF(event);
    Py_XDECREF(packets);
    return put_end(self, side, made);
}

static PyObject *connection_put(PyObject *it, PyObject *args)
{
    Connection *self = (Connection *)it;
    uint32_t side;
    In payload = {0};
    if (check_fresh((Object *)self) ||
        !PyArg_ParseTuple(args, "O&O&", to_side, &side, to_piece, &payload))
        return NULL;
    PyObject *made = NULL;
    if (!begin((Object *)self)) {
        made = put(self, side, &payload);
        self->busy = false;
    }
    in_end(&payload);
    return made;
}

/* What was put of packets. */
static PyObject *put_of(Connection *self, uint32_t side, const In *packets, size_t used,
                        uint32_t code)
{
    if (!has_untold(self)) {
        connection_note_packets(self, side, packets->at, used);
        /* Of a row that was lent nothing is shown any more. */
        if (self->is_lent)
            self->shows_row = self->is_lent = self->has_cells = false;
    }
    if (code && !used)
        return fail(self->state, code);
    PyObject *taken = out_take((Object *)self, (int)side, fresh_of(side));
    PyObject *made = taken ? Py_BuildValue("(Nn)", taken, (Py_ssize_t)used) : NULL;
    return put_end(self, side, made);
}

static PyObject *put_packets(Connection *self, uint32_t side, const In *packets)
{
    size_t used = 0;
    uint32_t code = 0;
    mysql_session_handle *out = to_write((Object *)self, (int)side);
    if (!has_untold(self))
        code = mysql_session_connection_put_packets(at(self), side, packets->at, packets->len, out,
                                                    &used);
    return put_of(self, side, packets, used, code);
}

static PyObject *connection_put_packets(PyObject *it, PyObject *args)
{
    Connection *self = (Connection *)it;
    uint32_t side;
    In packets = {0};
    if (check_fresh((Object *)self) ||
        !PyArg_ParseTuple(args, "O&O&", to_side, &side, to_piece, &packets))
        return NULL;
    PyObject *made = NULL;
    if (!begin((Object *)self)) {
        made = put_packets(self, side, &packets);
        self->busy = false;
    }
    in_end(&packets);
    return made;
}

static PyObject *put_sets(Connection *self, uint32_t statement, size_t places, const In *packets)
{
    size_t used = 0;
    uint32_t code = 0;
    mysql_session_handle *out = to_write((Object *)self, MYSQL_SESSION_CLIENT);
    if (!has_untold(self))
        code = mysql_session_connection_put_sets(at(self), statement, places, packets->at,
                                                 packets->len, out, &used);
    return put_of(self, MYSQL_SESSION_CLIENT, packets, used, code);
}

static PyObject *connection_put_sets(PyObject *it, PyObject *args)
{
    Connection *self = (Connection *)it;
    uint32_t statement;
    size_t places;
    In packets = {0};
    if (check_fresh((Object *)self) ||
        !PyArg_ParseTuple(args, "O&O&O&", to_u32, &statement, to_size, &places, to_piece, &packets))
        return NULL;
    PyObject *made = NULL;
    if (!begin((Object *)self)) {
        made = put_sets(self, statement, places, &packets);
        self->busy = false;
    }
    in_end(&packets);
    return made;
}

static PyObject *connection_unsent(PyObject *it, PyObject *side)
{
    Connection *self = (Connection *)it;
    uint32_t of;
    if (check_fresh((Object *)self) || !to_side(side, &of) || begin((Object *)self))
        return NULL;
    PyObject *made = out_take((Object *)self, (int)of, fresh_of(of));
    self->busy = false;
    return made;
}

/* ---- How a connection stands ------------------------------------------------------------------- */

static PyObject *connection_line(PyObject *it, PyObject *given)
{
    Connection *self = (Connection *)it;
    const uint8_t *text = NULL;
    size_t len = 0;
    int secrets = 0, texts = 0;
    if (!PyArg_ParseTuple(given, "pp", &secrets, &texts) || begin((Object *)self))
        return NULL;
    uint32_t code = texts ? mysql_session_connection_line_with_texts(at(self), secrets, &text, &len)
                    : secrets ? mysql_session_connection_line_with_secrets(at(self), &text, &len)
                              : mysql_session_connection_line(at(self), &text, &len);
    PyObject *made = code ? fail(self->state, code)
                          : PyUnicode_DecodeUTF8(len ? (const char *)text : "", (Py_ssize_t)len, NULL);
    self->busy = false;
    return made;
}

static PyObject *connection_columns(PyObject *it, PyObject *none)
{
    (void)none;
    Connection *self = (Connection *)it;
    if (begin((Object *)self))
        return NULL;
    if (self->shows_row) {
        PyObject *columns = connection_know_columns(self) ? NULL : self->shown.columns;
        Py_XINCREF(columns);
        self->busy = false;
        return columns;
    }
    PyObject *list = PyList_New(0);
    for (size_t i = 0; list; i++) {
        mysql_session_column column;
        memset(&column, 0, sizeof column);
        uint32_t code = mysql_session_connection_column(at(self), i, &column);
        if (code == MYSQL_SESSION_OUT_OF_RANGE)
            break;
        PyObject *made = code ? fail(self->state, code) : column_of(self->state, &column);
        if (!made || PyList_Append(list, made))
            Py_CLEAR(list);
        Py_XDECREF(made);
    }
    PyObject *columns = list ? PyList_AsTuple(list) : NULL;
    Py_XDECREF(list);
    self->busy = false;
    return columns;
}

static PyObject *connection_statement(PyObject *it, PyObject *number)
{
    Connection *self = (Connection *)it;
    uint32_t id;
    const uint8_t *text = NULL;
    size_t len = 0;
    uint16_t params = 0;
    if (!to_u32(number, &id) || begin((Object *)self))
        return NULL;
    PyObject *made;
    uint32_t code = mysql_session_connection_statement(at(self), id, &text, &len, &params);
    if (code == MYSQL_SESSION_OUT_OF_RANGE)
        made = (Py_INCREF(Py_None), Py_None);
    else if (code)
        made = fail(self->state, code);
    else
        made = PyObject_CallFunction(self->state->statement, "NH",
                                     connection_text(self, id, text, len), params);
    self->busy = false;
    return made;
}

static PyObject *connection_rest(PyObject *it, PyObject *side)
{
    Connection *self = (Connection *)it;
    uint32_t of;
    const uint8_t *data = NULL;
    size_t len = 0;
    if (!to_side(side, &of) || begin((Object *)self))
        return NULL;
    uint32_t code = mysql_session_connection_rest(at(self), of, &data, &len);
    PyObject *made = code ? fail(self->state, code) : bytes_of(data, len);
    self->busy = false;
    return made;
}

/* The phase in which an event comes. Last words come in any, and the connection is over then. */
static uint32_t phase_of(uint32_t kind)
{
    switch (kind) {
    case MYSQL_SESSION_EVENT_REJECTED:
    case MYSQL_SESSION_EVENT_GREETING: return MYSQL_SESSION_PHASE_GREETING;
    case MYSQL_SESSION_EVENT_SECURE_REQUEST:
    case MYSQL_SESSION_EVENT_LOGIN:
    case MYSQL_SESSION_EVENT_CUT_OFF_LOGIN: return MYSQL_SESSION_PHASE_RESPONSE;
    case MYSQL_SESSION_EVENT_ANSWER: return MYSQL_SESSION_PHASE_ANSWER;
    case MYSQL_SESSION_EVENT_FILE_DATA: return MYSQL_SESSION_PHASE_FILE_DATA;
    case MYSQL_SESSION_EVENT_FAREWELL: return MYSQL_SESSION_PHASE_OVER;
    }
    return kind >= MYSQL_SESSION_EVENT_QUIT ? MYSQL_SESSION_PHASE_COMMAND
           : kind >= MYSQL_SESSION_EVENT_OK ? MYSQL_SESSION_PHASE_REPLY
                                            : MYSQL_SESSION_PHASE_AUTHENTICATION;
}

/* An event that isn't told yet stands as one that comes next. */
static void stand_before(uint32_t untold, mysql_session_standing *s)
{
    uint32_t phase = phase_of(untold);
    if (untold == MYSQL_SESSION_EVENT_NONE || phase == MYSQL_SESSION_PHASE_OVER)
        return;
    bool is_client = phase == MYSQL_SESSION_PHASE_RESPONSE || phase == MYSQL_SESSION_PHASE_ANSWER ||
                     phase == MYSQL_SESSION_PHASE_COMMAND || phase == MYSQL_SESSION_PHASE_FILE_DATA;
    s->phase = phase;
    s->turn = is_client ? MYSQL_SESSION_CLIENT : MYSQL_SESSION_SERVER;
    s->reason = 0;
}

static PyObject *connection_standing(PyObject *it, PyObject *none)
{
    (void)none;
    Connection *self = (Connection *)it;
    mysql_session_standing s;
    memset(&s, 0, sizeof s);
    if (check((Object *)self))
        return NULL;
    uint32_t code = mysql_session_connection_standing(at(self), &s);
    stand_before(connection_untold(self), &s);
    return code ? fail(self->state, code)
                : Py_BuildValue("(IIIIIIIKnnn)", (unsigned)s.turn, (unsigned)s.phase,
                                (unsigned)s.reason, (unsigned)s.capabilities,
                                (unsigned)s.mariadb_capabilities, (unsigned)s.fault,
                                (unsigned)s.fault_side, (unsigned long long)s.fault_byte,
                                (Py_ssize_t)s.client_room, (Py_ssize_t)s.server_room,
                                (Py_ssize_t)s.held);
}

static PyObject *connection_known(PyObject *it, PyObject *none)
{
    (void)none;
    Connection *self = (Connection *)it;
    if (check((Object *)self))
        return NULL;
    mysql_session_known known = MYSQL_SESSION_NOTHING_KNOWN;
    mysql_session_connection_known(at(self), &known);
    return of_known(&known);
}

static PyObject *connection_close_side(PyObject *it, PyObject *side)
{
    Connection *self = (Connection *)it;
    uint32_t of;
    if (!to_side(side, &of) || begin((Object *)self))
        return NULL;
    if (connection_keep_lent(self)) {
        self->busy = false;
        return NULL;
    }
    uint32_t code = mysql_session_connection_close(at(self), of);
    self->busy = false;
    if (code)
        return fail(self->state, code);
    Py_RETURN_NONE;
}

static PyObject *connection_finish(PyObject *it, PyObject *none)
{
    (void)none;
    Connection *self = (Connection *)it;
    mysql_session_connection_end end;
    memset(&end, 0, sizeof end);
    if (begin((Object *)self))
        return NULL;
    PyObject *made = NULL;
    if (!connection_set_aside(self)) {
        uint32_t code = mysql_session_connection_finish(at(self), &end);
        if (has_untold(self))
            end.kind = MYSQL_SESSION_CONNECTION_UNREAD;
        self->is_planned = false;
        self->shows_row = self->is_lent = self->has_cells = false;
        made = code ? fail(self->state, code)
                    : Py_BuildValue("(IIIIK)", (unsigned)end.kind, (unsigned)end.reason,
                                    (unsigned)end.side, (unsigned)end.fault,
                                    (unsigned long long)end.byte);
    }
    self->busy = false;
    return made;
}

/* ---- The type --------------------------------------------------------------------------------- */

static int connection_clear(PyObject *it)
{
    Connection *self = (Connection *)it;
    self->is_taken = false;
    self->is_planned = false;
    self->shows_row = self->is_lent = self->has_cells = false;
    connection_drop_table(self);
    Py_CLEAR(self->scramble);
    Py_CLEAR(self->copied);
    Py_CLEAR(self->last);
    Py_CLEAR(self->kept);
    Py_CLEAR(self->planned_for);
    shown_clear(&self->shown);
    return 0;
}

static PyObject *connection_close(PyObject *it, PyObject *none)
{
    PyObject *done = object_close(it, none);
    if (done) {
        connection_clear(it);
        connection_forget((Connection *)it);
    }
    return done;
}

static int connection_traverse(PyObject *it, visitproc visit, void *arg)
{
    Connection *self = (Connection *)it;
    Py_VISIT(self->module);
    Py_VISIT(self->copied);
    Py_VISIT(self->last);
    Py_VISIT(self->kept);
    Py_VISIT(self->planned_for);
    Py_VISIT(self->shown.columns);
    Py_VISIT(self->shown.names);
    Py_VISIT(self->table_columns);
    int stopped = table_traverse(&self->table, visit, arg);
    return stopped ? stopped : visit_type(it, visit, arg);
}

static void connection_dealloc(PyObject *it)
{
    PyObject_GC_UnTrack(it);
    connection_clear(it);
    Py_CLEAR(((Connection *)it)->texts);
    Py_CLEAR(((Connection *)it)->kept_columns);
    PyMem_Free(((Connection *)it)->plans);
    PyMem_Free(((Connection *)it)->cells);
    object_dealloc(it);
}

/* ---- Iterators -------------------------------------------------------------------------------- */

typedef struct {
    PyObject_HEAD
    Connection *connection;
    bool is_done;
} Events;

static PyObject *connection_events(PyObject *it, PyObject *none)
{
    (void)none;
    Connection *connection = (Connection *)it;
    if (check((Object *)connection))
        return NULL;
    Events *self = (Events *)PyType_GenericAlloc(connection->state->types[EVENTS], 0);
    if (self) {
        Py_INCREF(it);
        self->connection = connection;
    }
    return (PyObject *)self;
}

static PyObject *events_next(PyObject *it)
{
    Events *self = (Events *)it;
    if (self->is_done || !self->connection)
        return NULL;
    PyObject *made = connection_next((PyObject *)self->connection, NULL);
    if (made == Py_None) {
        self->is_done = true;
        Py_CLEAR(made);
    }
    return made;
}

static PyObject *itself(PyObject *it)
{
    Py_INCREF(it);
    return it;
}

static int events_traverse(PyObject *it, visitproc visit, void *arg)
{
    Py_VISIT(((Events *)it)->connection);
    return visit_type(it, visit, arg);
}

static int events_clear(PyObject *it)
{
    Py_CLEAR(((Events *)it)->connection);
    return 0;
}

static void events_dealloc(PyObject *it)
{
    PyTypeObject *type = Py_TYPE(it);
    PyObject_GC_UnTrack(it);
    events_clear(it);
    ((freefunc)PyType_GetSlot(type, Py_tp_free))(it);
    Py_DECREF(type);
}

static PyType_Slot events_slots[] = {{Py_tp_new, refuse_new},
                                     {Py_tp_dealloc, events_dealloc},
                                     {Py_tp_traverse, events_traverse},
                                     {Py_tp_clear, events_clear},
                                     {Py_tp_iter, itself},
                                     {Py_tp_iternext, events_next},
                                     {0, NULL}};
PyType_Spec events_spec = {"mysql_session._native.Events", sizeof(Events), 0,
                           Py_TPFLAGS_DEFAULT | Py_TPFLAGS_HAVE_GC, events_slots};

static PyMethodDef connection_methods[] = {
    {"close", connection_close, METH_NOARGS, NULL},
    {"check", object_check, METH_NOARGS, NULL},
    {"is_open", object_is_open, METH_NOARGS, NULL},
    {"feed", connection_feed, METH_VARARGS, NULL},
    {"next", connection_next, METH_NOARGS, NULL},
    {"events", connection_events, METH_NOARGS, NULL},
    {"rows", connection_rows, METH_VARARGS, NULL},
    {"table", connection_table, METH_VARARGS, NULL},
    {"keep", connection_keep, METH_VARARGS, NULL},
    {"ungive", connection_ungive, METH_NOARGS, NULL},
    {"put", connection_put, METH_VARARGS, NULL},
    {"put_packets", connection_put_packets, METH_VARARGS, NULL},
    {"put_sets", connection_put_sets, METH_VARARGS, NULL},
    {"unsent", connection_unsent, METH_O, NULL},
    {"line", connection_line, METH_VARARGS, NULL},
    {"columns", connection_columns, METH_NOARGS, NULL},
    {"statement", connection_statement, METH_O, NULL},
    {"rest", connection_rest, METH_O, NULL},
    {"standing", connection_standing, METH_NOARGS, NULL},
    {"known", connection_known, METH_NOARGS, NULL},
    {"close_side", connection_close_side, METH_O, NULL},
    {"finish", connection_finish, METH_NOARGS, NULL},
    {NULL, NULL, 0, NULL}};
static PyType_Slot connection_slots[] = {{Py_tp_new, refuse_new},
                                         {Py_tp_dealloc, connection_dealloc},
                                         {Py_tp_traverse, connection_traverse},
                                         {Py_tp_clear, connection_clear},
                                         {Py_tp_methods, connection_methods},
                                         {0, NULL}};
PyType_Spec connection_spec = {"mysql_session._native.Connection", sizeof(Connection), 0,
                               Py_TPFLAGS_DEFAULT | Py_TPFLAGS_HAVE_GC, connection_slots};
