/* A connection's events, as objects of the Python module's classes. */
#include "connections.h"

/* ---- Kinds of events -------------------------------------------------------------------------- */

/* What a field of an event is. */
enum field {
    END, ERROR_CODE, SQL_STATE, TEXT, DATA, USER, DATABASE, PLUGIN, AFFECTED, LAST_ID, STATUS,
    WARNINGS, CAPABILITIES, MARIADB, CHARSET, NUMBER, STATEMENT, STATEMENT_TEXT, COLUMN_COUNT,
    ROW_COUNT, PARAMS, FOLLOWS, FLAGS, CURSOR, NAMELESS_FLAGS, POSITION, ATTRIBUTES, COLUMN, DEFAULT,
    CELL_VALUES, EXECUTION_VALUES, BULK_ROWS, UNCLEAR, FIRST_UNCLEAR, UNCLEAR_CELLS, SCRAMBLE,
    COMMAND, COMMAND_FIELDS
};

#define ERROR_FIELDS {ERROR_CODE, SQL_STATE, TEXT}
#define OK_FIELDS {AFFECTED, LAST_ID, STATUS, WARNINGS, TEXT, DATA}
#define REQUEST_FIELDS {CAPABILITIES, MARIADB, CHARSET, NUMBER}

/* The fields of each kind that has a class of its own, in the order of the class. Kind 0 stands for
 * all other commands. */
static const struct {
    uint16_t kind;
    uint8_t fields[EVENT_FIELDS + 1];
} EVENT_LAYOUTS[] = {
    {0, {COMMAND, COMMAND_FIELDS}},
    {MYSQL_SESSION_EVENT_REJECTED, ERROR_FIELDS},
    {MYSQL_SESSION_EVENT_GREETING,
     {TEXT, NUMBER, CAPABILITIES, MARIADB, STATUS, CHARSET, PLUGIN, SCRAMBLE}},
    {MYSQL_SESSION_EVENT_SECURE_REQUEST, REQUEST_FIELDS},
    {MYSQL_SESSION_EVENT_LOGIN,
     {CAPABILITIES, MARIADB, CHARSET, NUMBER, USER, DATABASE, PLUGIN, DATA, ATTRIBUTES}},
    {MYSQL_SESSION_EVENT_CUT_OFF_LOGIN, REQUEST_FIELDS},
    {MYSQL_SESSION_EVENT_ACCEPTED, OK_FIELDS},
    {MYSQL_SESSION_EVENT_DENIED, ERROR_FIELDS},
    {MYSQL_SESSION_EVENT_AUTH_SWITCH, {PLUGIN, DATA}},
    {MYSQL_SESSION_EVENT_OLD_AUTH_SWITCH, {END}},
    {MYSQL_SESSION_EVENT_AUTH_MORE, {DATA}},
    {MYSQL_SESSION_EVENT_NEXT_FACTOR, {PLUGIN, DATA}},
    {MYSQL_SESSION_EVENT_PLUGIN_DATA, {DATA}},
    {MYSQL_SESSION_EVENT_ANSWER, {DATA}},
    {MYSQL_SESSION_EVENT_OK, OK_FIELDS},
    {MYSQL_SESSION_EVENT_ERROR, ERROR_FIELDS},
    {MYSQL_SESSION_EVENT_PROGRESS, {ROW_COUNT, COLUMN_COUNT, NUMBER, TEXT}},
    {MYSQL_SESSION_EVENT_COLUMN_COUNT, {COLUMN_COUNT, FOLLOWS}},
    {MYSQL_SESSION_EVENT_COLUMN, {COLUMN}},
    {MYSQL_SESSION_EVENT_FIELD, {COLUMN, DEFAULT}},
    {MYSQL_SESSION_EVENT_COLUMNS_END, OK_FIELDS},
    {MYSQL_SESSION_EVENT_ROW, {CELL_VALUES}},
    {MYSQL_SESSION_EVENT_RAW_ROW, {DATA}},
    {MYSQL_SESSION_EVENT_ROWS_END, OK_FIELDS},
    {MYSQL_SESSION_EVENT_FILE_REQUEST, {TEXT}},
    {MYSQL_SESSION_EVENT_PREPARED, {STATEMENT, PARAMS, COLUMN_COUNT, WARNINGS, FOLLOWS}},
    {MYSQL_SESSION_EVENT_LINE, {TEXT}},
    {MYSQL_SESSION_EVENT_FILE_DATA, {DATA}},
    {MYSQL_SESSION_EVENT_FAREWELL, ERROR_FIELDS},
    {MYSQL_SESSION_EVENT_QUIT, {END}},
    {MYSQL_SESSION_EVENT_INIT_DB, {TEXT}},
    {MYSQL_SESSION_EVENT_QUERY, {TEXT, ATTRIBUTES}},
    {MYSQL_SESSION_EVENT_CHANGE_USER, {USER, DATABASE, PLUGIN, DATA, CHARSET, ATTRIBUTES}},
    {MYSQL_SESSION_EVENT_PREPARE, {TEXT}},
    {MYSQL_SESSION_EVENT_EXECUTE,
     {STATEMENT, STATEMENT_TEXT, EXECUTION_VALUES, ATTRIBUTES, CURSOR, NAMELESS_FLAGS, NUMBER, DATA,
      UNCLEAR, UNCLEAR_CELLS}},
    {MYSQL_SESSION_EVENT_LONG_DATA, {STATEMENT, NUMBER, DATA}},
    {MYSQL_SESSION_EVENT_CLOSE, {STATEMENT}},
    {MYSQL_SESSION_EVENT_RESET_STATEMENT, {STATEMENT}},
    {MYSQL_SESSION_EVENT_FETCH, {STATEMENT, ROW_COUNT}},
    {MYSQL_SESSION_EVENT_BULK_EXECUTE,
     {STATEMENT, STATEMENT_TEXT, BULK_ROWS, DATA, FIRST_UNCLEAR, UNCLEAR_CELLS}},
    {MYSQL_SESSION_EVENT_OTHER, {DATA}},
};

/* The fields of commands without a class of their own, by their names. */
static const struct {
    uint16_t kind;
    struct {
        const char *name;
        uint8_t field;
    } fields[4];
} COMMAND_LAYOUTS[] = {
    {MYSQL_SESSION_EVENT_FIELD_LIST, {{"table", TEXT}, {"pattern", DATA}}},
    {MYSQL_SESSION_EVENT_CREATE_DB, {{"schema", TEXT}}},
    {MYSQL_SESSION_EVENT_DROP_DB, {{"schema", TEXT}}},
    {MYSQL_SESSION_EVENT_REFRESH, {{"flags", NUMBER}}},
    {MYSQL_SESSION_EVENT_SHUTDOWN, {{"level", NUMBER}}},
    {MYSQL_SESSION_EVENT_PROCESS_KILL, {{"connection", NUMBER}}},
    {MYSQL_SESSION_EVENT_BINLOG_DUMP,
     {{"server", NUMBER}, {"position", POSITION}, {"flags", FLAGS}, {"file", TEXT}}},
    {MYSQL_SESSION_EVENT_TABLE_DUMP, {{"database", DATABASE}, {"table", TEXT}}},
    {MYSQL_SESSION_EVENT_REGISTER_REPLICA, {{"server", NUMBER}, {"host", TEXT}, {"user", USER}}},
    {MYSQL_SESSION_EVENT_SET_OPTION, {{"option", NUMBER}}},
    {MYSQL_SESSION_EVENT_BINLOG_DUMP_GTID,
     {{"server", NUMBER}, {"position", POSITION}, {"flags", FLAGS}, {"file", TEXT}}},
    {MYSQL_SESSION_EVENT_CLONE, {{"arguments", DATA}}},
};

static int set_up_class(State *state, PyObject *given, uint16_t kind, const uint8_t *fields)
{
    PyObject *class, *names;
    if (!given || !PyTuple_Check(given) ||
        !PyArg_ParseTuple(given, "O!O!", &PyType_Type, &class, &PyTuple_Type, &names)) {
        if (!PyErr_Occurred())
            PyErr_Format(PyExc_KeyError, "the kind of events %d", (int)kind);
        return -1;
    }
    int count = 0;
    while (count < EVENT_FIELDS && fields[count] != END)
        count++;
    if (PyTuple_Size(names) != count || !(PyType_GetFlags((PyTypeObject *)class) & Py_TPFLAGS_HEAPTYPE)) {
        PyErr_Format(PyExc_TypeError, "the kind of events %d has other fields", (int)kind);
        return -1;
    }
    EventClass *it = &state->event_classes[state->event_count];
    memset(it, 0, sizeof *it);
    for (int i = 0; i < count; i++) {
        PyObject *name = PyTuple_GetItem(names, i);
        if (!name || !PyUnicode_Check(name))
            return -1;
        Py_INCREF(name);
        PyUnicode_InternInPlace(&name);
        it->names[i] = name;
        it->count = i + 1;
    }
    Py_INCREF(class);
    it->class = class;
    it->make = (newfunc)PyType_GetSlot((PyTypeObject *)class, Py_tp_new);
    it->fields = fields;
    state->event_count++;
    state->events[kind] = it;
    return it->make ? 0 : -1;
}

int set_up_events(State *state, PyObject *classes)
{
    for (size_t i = 0; i < sizeof EVENT_LAYOUTS / sizeof EVENT_LAYOUTS[0]; i++) {
        uint16_t kind = EVENT_LAYOUTS[i].kind;
        PyObject *number = PyLong_FromLong(kind);
        PyObject *given = number ? PyDict_GetItemWithError(classes, number) : NULL;
        Py_XDECREF(number);
        if (state->event_count == 64 || set_up_class(state, given, kind, EVENT_LAYOUTS[i].fields))
            return -1;
    }
    return 0;
}

/* ---- Events ----------------------------------------------------------------------------------- */

PyObject *connection_cells(Connection *self, size_t width)
{
    PyObject *cells = PyTuple_New((Py_ssize_t)width);
    mysql_session_value value;
    memset(&value, 0, sizeof value);
    for (size_t i = 0; cells && i < width; i++) {
        uint32_t code = 0;
        if (self->has_cells)
            value = self->cells[i];
        else
            code = mysql_session_connection_value(at(self), 0, i, &value);
        mysql_session_column column;
        column.type = 0;
        if (!code && value.kind == MYSQL_SESSION_DATE) {
            memset(&column, 0, sizeof column);
            code = mysql_session_connection_column(at(self), i, &column);
        }
        PyObject *cell = code ? fail(self->state, code) : cell_of(self->state, column.type, &value);
        if (cell)
            PyTuple_SetItem(cells, (Py_ssize_t)i, cell);
        else
            Py_CLEAR(cells);
    }
    return cells;
}

static PyObject *execution_row(Connection *self, size_t row, size_t count)
{
    State *state = self->state;
    PyObject *values = PyTuple_New((Py_ssize_t)count);
    mysql_session_value value;
    memset(&value, 0, sizeof value);
    for (size_t i = 0; values && i < count; i++) {
        uint32_t code = mysql_session_connection_value(at(self), row, i, &value);
        PyObject *made = code                                      ? fail(state, code)
                         : value.kind == MYSQL_SESSION_DEFAULT ? (Py_INCREF(state->bulk_default),
                                                                  state->bulk_default)
                         : value.kind == MYSQL_SESSION_IGNORE  ? (Py_INCREF(state->bulk_ignore),
                                                                 state->bulk_ignore)
                                                               : cell_of(state, 0, &value);
        if (made)
            PyTuple_SetItem(values, (Py_ssize_t)i, made);
        else
            Py_CLEAR(values);
    }
    return values;
}

static PyObject *bulk_rows(Connection *self, size_t count, size_t width)
{
    PyObject *rows = PyTuple_New((Py_ssize_t)count);
    for (size_t i = 0; rows && i < count; i++) {
        PyObject *row = execution_row(self, i, width);
        if (row)
            PyTuple_SetItem(rows, (Py_ssize_t)i, row);
        else
            Py_CLEAR(rows);
    }
    return rows;
}

/* Whether servers read a value of an execution each their way: 1 or 0, else an error. */
static int is_unclear(Connection *self, size_t row, size_t place)
{
    bool unclear = false;
    const uint8_t *cells = NULL;
    size_t len = 0;
    uint32_t code = mysql_session_connection_unclear(at(self), row, place, &unclear, &cells, &len);
    if (code)
        fail(self->state, code);
    return code ? -1 : unclear;
}

/* The places of an execution's unclear values; those of attributes are behind its parameters. */
static PyObject *unclear_places(Connection *self, const mysql_session_event *e)
{
    PyObject *list = NULL;
    for (size_t i = 0; i < e->params + e->attributes; i++) {
        int is = is_unclear(self, 0, i);
        PyObject *place = is > 0 ? PyLong_FromSize_t(i) : NULL;
        if (place && !list)
            list = PyList_New(0);
        int wrong = is < 0 || (is && (!place || !list || PyList_Append(list, place)));
        Py_XDECREF(place);
        if (wrong) {
            Py_XDECREF(list);
            return NULL;
        }
    }
    if (!list) {
        Py_INCREF(self->state->none_given);
        return self->state->none_given;
    }
    PyObject *places = PyList_AsTuple(list);
    Py_DECREF(list);
    return places;
}

/* The row and the place of a bulk execution's first unclear value, behind which each is unclear, or
 * None. */
static PyObject *first_unclear(Connection *self, const mysql_session_event *e)
{
    size_t low = 0, end = e->rows * e->params, high = end;
    while (low < high) {
        size_t middle = low + (high - low) / 2;
        int is = is_unclear(self, middle / e->params, middle % e->params);
        if (is < 0)
            return NULL;
        if (is)
            high = middle;
        else
            low = middle + 1;
    }
    if (low == end)
        Py_RETURN_NONE;
    return Py_BuildValue("(nn)", (Py_ssize_t)(low / e->params), (Py_ssize_t)(low % e->params));
}

/* The bytes of an execution from its first unclear cell on. */
static PyObject *unclear_cells(Connection *self)
{
    bool unclear = false;
    const uint8_t *cells = NULL;
    size_t len = 0;
    uint32_t code = mysql_session_connection_unclear(at(self), 0, 0, &unclear, &cells, &len);
    return code ? fail(self->state, code) : bytes_of(cells, len);
}

static PyObject *attributes(Connection *self, size_t count)
{
    PyObject *found = PyTuple_New((Py_ssize_t)count);
    mysql_session_value value;
    memset(&value, 0, sizeof value);
    for (size_t i = 0; found && i < count; i++) {
        const uint8_t *name = NULL;
        size_t len = 0;
        uint32_t code = mysql_session_connection_attribute(at(self), i, &name, &len, &value);
        PyObject *made = code ? fail(self->state, code)
                              : Py_BuildValue("(NN)", bytes_of(name, len),
                                              cell_of(self->state, 0, &value));
        if (made)
            PyTuple_SetItem(found, (Py_ssize_t)i, made);
        else
            Py_CLEAR(found);
    }
    return found;
}

static PyObject *shown_column(Connection *self)
{
    mysql_session_column column;
    memset(&column, 0, sizeof column);
    uint32_t code = mysql_session_connection_column(at(self), 0, &column);
    return code ? fail(self->state, code) : column_of(self->state, &column);
}

static PyObject *command_fields(Connection *self, const mysql_session_event *e);

static PyObject *field_of(Connection *self, const mysql_session_event *e, enum field field)
{
    switch (field) {
    case ERROR_CODE: return PyLong_FromLong(e->error_code);
    case SQL_STATE: return bytes_of(e->state, e->state_len);
    case TEXT: return bytes_of(e->text, e->len);
    case DATA: return bytes_of(e->data, e->data_len);
    case USER: return bytes_of(e->user, e->user_len);
    case DATABASE: return bytes_of(e->database, e->database_len);
    case PLUGIN: return bytes_of(e->plugin, e->plugin_len);
    case AFFECTED: return PyLong_FromUnsignedLongLong(e->affected_rows);
    case LAST_ID: return PyLong_FromUnsignedLongLong(e->last_insert_id);
    case STATUS: return PyLong_FromLong(e->status);
    case WARNINGS: return PyLong_FromLong(e->warnings);
    case CAPABILITIES: return PyLong_FromUnsignedLong(e->capabilities);
    case MARIADB: return PyLong_FromUnsignedLong(e->mariadb_capabilities);
    case CHARSET: return PyLong_FromLong(e->charset);
    case NUMBER: return PyLong_FromUnsignedLong(e->number);
    case STATEMENT: return PyLong_FromUnsignedLong(e->statement);
    case STATEMENT_TEXT: return connection_text(self, e->statement, e->text, e->len);
    case COLUMN_COUNT: return PyLong_FromSize_t(e->columns);
    case ROW_COUNT: return PyLong_FromSize_t(e->rows);
    case PARAMS: return PyLong_FromSize_t(e->params);
    case FOLLOWS: return PyBool_FromLong(e->follows);
    case FLAGS: return PyLong_FromUnsignedLong(e->flags);
    case CURSOR: return PyLong_FromUnsignedLong(e->flags & 7);
    case NAMELESS_FLAGS: return PyLong_FromUnsignedLong(e->flags & ~(uint32_t)7);
    case POSITION: return PyLong_FromUnsignedLongLong(e->position);
    case ATTRIBUTES: return attributes(self, e->attributes);
    case COLUMN: return shown_column(self);
    case DEFAULT:
        if (e->flags)
            return bytes_of(e->data, e->data_len);
        Py_RETURN_NONE;
    case CELL_VALUES: return connection_cells(self, e->columns);
    case EXECUTION_VALUES: return execution_row(self, 0, e->params);
    case BULK_ROWS: return bulk_rows(self, e->rows, e->params);
    case UNCLEAR: return unclear_places(self, e);
    case FIRST_UNCLEAR: return first_unclear(self, e);
    case UNCLEAR_CELLS: return unclear_cells(self);
    case SCRAMBLE:
        if (!self->scramble)
            return bytes_of(NULL, 0);
        Py_INCREF(self->scramble);
        return self->scramble;
    case COMMAND: return PyLong_FromLong(e->kind & 0xFF);
    case COMMAND_FIELDS: return command_fields(self, e);
    default: Py_RETURN_NONE;
    }
}

static PyObject *command_fields(Connection *self, const mysql_session_event *e)
{
    PyObject *fields = PyDict_New();
    for (size_t i = 0; i < sizeof COMMAND_LAYOUTS / sizeof COMMAND_LAYOUTS[0]; i++)
        for (int j = 0; COMMAND_LAYOUTS[i].kind == e->kind && j < 4; j++) {
            const char *name = COMMAND_LAYOUTS[i].fields[j].name;
            if (!fields || !name)
                return fields;
            PyObject *value = field_of(self, e, (enum field)COMMAND_LAYOUTS[i].fields[j].field);
            if (!value || PyDict_SetItemString(fields, name, value))
                Py_CLEAR(fields);
            Py_XDECREF(value);
        }
    return fields;
}

/* An event of a class, with these fields or those that are shown. A frozen dataclass is filled as
 * its own __init__ fills it, by the setter of object. */
static PyObject *event_of_class(Connection *self, const EventClass *class,
                                const mysql_session_event *e, PyObject *field)
{
    PyObject *event = class->make((PyTypeObject *)class->class, self->state->none_given, NULL);
    for (int i = 0; event && i < class->count; i++) {
        PyObject *value = field ? (Py_INCREF(field), field)
                                : field_of(self, e, (enum field)class->fields[i]);
        if (!value || PyObject_GenericSetAttr(event, class->names[i], value))
            Py_CLEAR(event);
        Py_XDECREF(value);
    }
    return event;
}

PyObject *connection_event(Connection *self, const mysql_session_event *e)
{
    const EventClass *class = e->kind < EVENT_KINDS ? self->state->events[e->kind] : NULL;
    return event_of_class(self, class ? class : self->state->events[0], e, NULL);
}

static PyObject *row_event(Connection *self, PyObject *cells)
{
    return event_of_class(self, self->state->events[MYSQL_SESSION_EVENT_ROW], NULL, cells);
}

int connection_greet(Connection *self, const uint8_t *payload, size_t len)
{
    mysql_session_greeting greeting;
    memset(&greeting, 0, sizeof greeting);
    if (mysql_session_greeting_read(payload, len, &greeting))
        return 0;
    PyObject *first = bytes_of(greeting.scramble_1, greeting.scramble_1_len);
    PyObject *second = bytes_of(greeting.scramble_2, greeting.scramble_2_len);
    PyObject *both = first && second ? PySequence_Concat(first, second) : NULL;
    Py_XDECREF(first);
    Py_XDECREF(second);
    if (!both)
        return -1;
    Py_XDECREF(self->scramble);
    self->scramble = both;
    return 0;
}

/* The event of a greeting doesn't show the scramble, so it is read of the payload that is due: once,
 * as that stands whole. */
static int look_at_greeting(Connection *self)
{
    const uint8_t *rest = NULL;
    size_t len = 0, end = 0, size = LONGEST_PACKET;
    if (mysql_session_connection_rest(at(self), MYSQL_SESSION_SERVER, &rest, &len))
        return 0;
    for (; size == LONGEST_PACKET; end += 4 + size) {
        if (len - end < 4 || (size = packet_size(rest + end)) > len - end - 4)
            return 0;
    }
    /* A greeting of several packets is that of no server: its scramble isn't read. */
    if (size == end - 4 && connection_greet(self, rest + 4, size))
        return -1;
    self->is_greeted = true;
    return 0;
}

int connection_show(Connection *self, bool lent)
{
    if (self->is_taken)
        return 1;
    if (!self->is_greeted && look_at_greeting(self))
        return -1;
    /* An array of no cells, which has an address. */
    mysql_session_value none;
    self->shows_row = self->is_lent = self->has_cells = false;
    uint32_t code =
        lent ? mysql_session_connection_next_lent(at(self), self->cells ? self->cells : &none,
                                                  self->cell_room, &self->event)
             : mysql_session_connection_next(at(self), &self->event);
    if (code) {
        connection_fail(self, code);
        return -1;
    }
    if (self->event.kind == MYSQL_SESSION_EVENT_NONE)
        return 0;
    self->is_taken = true;
    self->is_greeted = true;
    connection_note(self, &self->event);
    self->is_lent = lent && self->shows_row;
    self->has_cells = self->is_lent && self->row_width <= self->cell_room;
    return 1;
}

int connection_keep_lent(Connection *self)
{
    if (!self->is_lent)
        return 0;
    if (connection_know_columns(self) || connection_set_aside(self))
        return -1;
    self->is_lent = self->has_cells = false;
    return 0;
}

/* Copies an event that wasn't given, before the library shows another. */
int connection_set_aside(Connection *self)
{
    if (!self->is_taken)
        return 0;
    self->copied = connection_event(self, &self->event);
    if (!self->copied)
        return -1;
    self->is_taken = false;
    return 0;
}

uint32_t connection_untold(const Connection *self)
{
    if (self->has_table ||
        (self->kept && (!PyList_Check(self->kept) || self->kept_at < PyList_Size(self->kept))))
        return MYSQL_SESSION_EVENT_ROW;
    /* No other event is shown before a copied one is told. */
    return self->is_taken || self->copied ? self->event.kind : MYSQL_SESSION_EVENT_NONE;
}

/* Has what a failed call read stand as rows, or as a table. */
int connection_settle(Connection *self, bool as_rows)
{
    if (self->has_table) {
        PyObject *made = connection_finished_table(self);
        if (!made)
            return -1;
        self->kept = made;
        connection_drop_table(self);
    }
    if (as_rows && self->kept && !PyList_Check(self->kept)) {
        PyObject *rows = PyObject_CallMethod(self->kept, "tuples", NULL);
        if (!rows || !PyList_Check(rows)) {
            Py_XDECREF(rows);
            return -1;
        }
        Py_DECREF(self->kept);
        self->kept = rows;
        self->kept_at = 0;
    }
    return 0;
}

/* The next event, or None. */
static PyObject *next_event(Connection *self)
{
    PyObject *made, *last = self->last;
    self->last = NULL;
    Py_XDECREF(last);
    if (connection_settle(self, true))
        return NULL;
    if (self->kept && self->kept_at < PyList_Size(self->kept)) {
        PyObject *row = PyList_GetItem(self->kept, self->kept_at);
        Py_INCREF(row);
        made = row_event(self, row);
        Py_DECREF(row);
        if (made) {
            self->kept_at++;
            self->fresh = FRESH_KEPT;
        }
        return made;
    }
    Py_CLEAR(self->kept);
    if (self->copied) {
        made = self->copied;
        self->copied = NULL;
        Py_INCREF(made);
        self->last = made;
        self->fresh = FRESH_COPY;
        return made;
    }
    int is = connection_show(self, false);
    if (is <= 0) {
        if (is < 0)
            return NULL;
        Py_RETURN_NONE;
    }
    made = connection_event(self, &self->event);
    /* A signal that came meanwhile is told before the event counts as given. */
    if (made && PyErr_CheckSignals())
        Py_CLEAR(made);
    if (made) {
        self->is_taken = false;
        self->fresh = FRESH;
    }
    return made;
}

PyObject *connection_next(PyObject *it, PyObject *none)
{
    (void)none;
    Connection *self = (Connection *)it;
    if (begin((Object *)self))
        return NULL;
    PyObject *made = next_event(self);
    self->busy = false;
    return made;
}

PyObject *connection_ungive(PyObject *it, PyObject *none)
{
    (void)none;
    Connection *self = (Connection *)it;
    Object *object = (Object *)self;
    if (take_fresh(object, FRESH))
        self->is_taken = true;
    else if (take_fresh(object, FRESH_COPY)) {
        self->copied = self->last;
        self->last = NULL;
    } else if (take_fresh(object, FRESH_KEPT))
        self->kept_at--;
    else if (take_fresh(object, FRESH_BYTES))
        self->given[0] = false;
    else if (take_fresh(object, FRESH_BYTES_2))
        self->given[1] = false;
    Py_RETURN_NONE;
}
