/* What a connection knows of rows and statements, so that what a peer sends once is copied once: the
 * columns of the rows that stand, and by a statement's id its text and the columns that it last had. */
#include "connections.h"

/* Commands by their numbers, also where they are laid out as none: the library follows them so. */
enum {
    CHANGE_USER = 0x11, PREPARE = 0x16, EXECUTE = 0x17, CLOSE = 0x19, FETCH = 0x1C,
    RESET_CONNECTION = 0x1F, BULK_EXECUTE = 0xFA, UNKNOWN = 0x100
};

/* ---- By ids ------------------------------------------------------------------------------------ */

static void forget_in(PyObject *dict, uint32_t statement)
{
    PyObject *id = PyLong_FromUnsignedLong(statement);
    if (!id || (PyDict_GetItemWithError(dict, id) && PyDict_DelItem(dict, id)))
        PyDict_Clear(dict);
    Py_XDECREF(id);
    PyErr_Clear();
}

void connection_forget(Connection *self)
{
    PyDict_Clear(self->texts);
    PyDict_Clear(self->kept_columns);
    self->command = UNKNOWN;
    self->is_of_statement = self->knows_last = self->awaits_prepared = false;
}

static void forget_statement(Connection *self, uint32_t statement)
{
    forget_in(self->texts, statement);
    forget_in(self->kept_columns, statement);
    if (self->last_prepared == statement)
        self->knows_last = false;
}

/* The id that one stands for: whether it is known. */
static bool resolve(const Connection *self, uint32_t *id)
{
    bool is_last = *id == UINT32_MAX;
    if (is_last)
        *id = self->last_prepared;
    return !is_last || self->knows_last;
}

PyObject *connection_text(Connection *self, uint32_t statement, const uint8_t *at, size_t len)
{
    if (len < 256 || !resolve(self, &statement))
        return bytes_of(at, len);
    PyObject *id = PyLong_FromUnsignedLong(statement);
    PyObject *text = id ? PyDict_GetItemWithError(self->texts, id) : NULL;
    if (text && (size_t)PyBytes_Size(text) == len) {
        Py_INCREF(text);
    } else if (id && !PyErr_Occurred()) {
        text = bytes_of(at, len);
        if (text && PyDict_SetItem(self->texts, id, text))
            Py_CLEAR(text);
    }
    Py_XDECREF(id);
    return text;
}

/* ---- Columns ----------------------------------------------------------------------------------- */

/* Takes the columns that are kept of a statement: 1 where there are such, 0 or an error. */
static int take_kept(Connection *self, PyObject *id)
{
    PyObject *kept = PyDict_GetItemWithError(self->kept_columns, id);
    if (!kept)
        return PyErr_Occurred() ? -1 : 0;
    PyObject *columns = PyTuple_GetItem(kept, 0), *names = PyTuple_GetItem(kept, 1);
    if (!columns || !names)
        return -1;
    if ((size_t)PyTuple_Size(columns) != self->row_width)
        return 0;
    Py_INCREF(columns);
    Py_INCREF(names);
    self->shown.columns = columns;
    self->shown.names = names;
    return 1;
}

static int copy_columns(Connection *self)
{
    PyObject *columns = PyTuple_New((Py_ssize_t)self->row_width);
    for (size_t i = 0; columns && i < self->row_width; i++) {
        mysql_session_column column;
        memset(&column, 0, sizeof column);
        uint32_t code = mysql_session_connection_column(at(self), i, &column);
        PyObject *made = code ? fail(self->state, code) : column_of(self->state, &column);
        if (made)
            PyTuple_SetItem(columns, (Py_ssize_t)i, made);
        else
            Py_CLEAR(columns);
    }
    return shown_set(&self->shown, columns);
}

/* The same for rows of a statement that came without columns: those that it had are kept. */
static int keep_columns(Connection *self, PyObject *id)
{
    int is = take_kept(self, id);
    if (is)
        return is > 0 ? 0 : -1;
    if (copy_columns(self))
        return -1;
    PyObject *kept = PyTuple_Pack(2, self->shown.columns, self->shown.names);
    int wrong = kept ? PyDict_SetItem(self->kept_columns, id, kept) : -1;
    Py_XDECREF(kept);
    if (wrong)
        shown_clear(&self->shown);
    return wrong;
}

int connection_know_columns(Connection *self)
{
    if (self->shown.columns)
        return 0;
    if (!self->is_of_statement)
        return copy_columns(self);
    PyObject *id = PyLong_FromUnsignedLong(self->statement);
    int wrong = id ? keep_columns(self, id) : -1;
    Py_XDECREF(id);
    return wrong;
}

/* ---- Events ------------------------------------------------------------------------------------ */

static uint32_t number_at(const uint8_t *at)
{
    return at[0] | (uint32_t)at[1] << 8 | (uint32_t)at[2] << 16 | (uint32_t)at[3] << 24;
}

static void note_close(Connection *self, uint32_t statement)
{
    if (resolve(self, &statement))
        forget_statement(self, statement);
    else
        connection_forget(self);
}

static void note_command(Connection *self, const mysql_session_event *e)
{
    bool is_other = e->kind == MYSQL_SESSION_EVENT_OTHER;
    bool has_id = !is_other || e->data_len >= 5;
    uint32_t id = !is_other ? e->statement : has_id ? number_at(e->data + 1) : 0;
    self->command = is_other ? (e->data_len ? e->data[0] : 0) : e->kind & 0xFF;
    self->is_of_statement = self->awaits_prepared = false;
    switch (self->command) {
    case CHANGE_USER:
        connection_forget(self);
        break;
    case PREPARE:
        self->knows_last = false;
        self->awaits_prepared = true;
        break;
    case EXECUTE:
    case BULK_EXECUTE:
    case FETCH:
        self->is_of_statement = has_id && resolve(self, &id);
        self->statement = id;
        if (has_id && !self->is_of_statement)
            PyDict_Clear(self->kept_columns);
        break;
    case CLOSE:
        if (has_id)
            note_close(self, id);
        break;
    }
}

static void note_prepared(Connection *self, uint32_t statement)
{
    forget_statement(self, statement);
    self->awaits_prepared = false;
    self->knows_last = true;
    self->last_prepared = statement;
}

/* Columns come of the statement that is executed, in the place of those that it had. */
static void note_columns(Connection *self)
{
    if (self->is_of_statement)
        forget_in(self->kept_columns, self->statement);
    self->is_of_statement = false;
}

void connection_note(Connection *self, const mysql_session_event *e)
{
    self->shows_row = e->kind == MYSQL_SESSION_EVENT_ROW;
    self->is_lent = self->has_cells = false;
    self->row_width = e->columns;
    if (self->shows_row || e->kind == MYSQL_SESSION_EVENT_PROGRESS)
        return;
    self->is_planned = false;
    shown_clear(&self->shown);
    switch (e->kind) {
    case MYSQL_SESSION_EVENT_PREPARED: note_prepared(self, e->statement); break;
    case MYSQL_SESSION_EVENT_COLUMN: note_columns(self); break;
    case MYSQL_SESSION_EVENT_ACCEPTED: connection_forget(self); break;
    case MYSQL_SESSION_EVENT_OK:
        if (self->command == RESET_CONNECTION)
            connection_forget(self);
        break;
    default:
        if (e->kind >= MYSQL_SESSION_EVENT_QUIT)
            note_command(self, e);
    }
}

/* ---- Packets that were put --------------------------------------------------------------------- */

/* The first payload of a reply that is no report of a progress: how much stands of its first packet,
 * 0 where there is none. */
static size_t first_payload(const uint8_t *at, size_t len, const uint8_t **payload)
{
    bool goes_on = false;
    while (len >= 4) {
        size_t size = packet_size(at), has = size < len - 4 ? size : len - 4;
        bool is_report = has >= 3 && at[4] == 0xFF && at[5] == 0xFF && at[6] == 0xFF;
        if (!goes_on && !is_report) {
            *payload = at + 4;
            return has;
        }
        goes_on = size == LONGEST_PACKET;
        at += 4 + has;
        len -= 4 + has;
    }
    return 0;
}

/* What a server's reply begins with, where that changes what is known. */
static void note_reply(Connection *self, const uint8_t *at, size_t len)
{
    const uint8_t *payload = NULL;
    size_t size = first_payload(at, len, &payload);
    bool is_ok = size && payload[0] == 0;
    if (self->command == RESET_CONNECTION && is_ok)
        connection_forget(self);
    else if (self->awaits_prepared && is_ok && size >= 5)
        note_prepared(self, number_at(payload + 1));
}

void connection_note_packets(Connection *self, uint32_t side, const uint8_t *at, size_t len)
{
    if (!len)
        return;
    self->is_planned = false;
    shown_clear(&self->shown);
    /* What a client's packets say isn't told. A server's are the reply to the command that was. */
    if (side == MYSQL_SESSION_CLIENT || self->command == UNKNOWN)
        connection_forget(self);
    else if (self->command == EXECUTE || self->command == BULK_EXECUTE)
        note_columns(self);
    else
        note_reply(self, at, len);
}
