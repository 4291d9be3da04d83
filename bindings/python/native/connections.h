/* What the parts of a connection share: its events, its rows, and what is fed and put. */
#ifndef MYSQL_SESSION_CONNECTIONS_H
#define MYSQL_SESSION_CONNECTIONS_H

#include "native.h"

/* The library's event stays shown until another one is. `is_taken` says that it wasn't given.
 * `copied` is such an event, whose place in the library another one took. `kept` are rows or a table
 * that a failed call had read; they come before both. So does `table`, which grows. */
typedef struct {
    OBJECT_HEAD
    mysql_session_event event;
    bool is_taken, is_planned, has_table, is_greeted;
    /* Whether the library shows a row, and of how many cells; whether it lends that row, so that the
     * next piece ends it; and whether `cells` are those of that row. */
    bool shows_row, is_lent, has_cells;
    size_t row_width;
    mysql_session_value *cells;
    size_t cell_room;
    /* The number of the command that was told last. Of an execution or a fetch, up to the first
     * column that comes, its statement. The statement that was prepared last, where it is known, and
     * whether one is to be. */
    uint16_t command;
    bool is_of_statement, knows_last, awaits_prepared;
    uint32_t statement, last_prepared;
    /* Both parts of the greeting's scramble, once it stands whole. */
    PyObject *scramble;
    PyObject *copied, *last, *kept;
    Py_ssize_t kept_at;
    Table table;
    PyObject *table_columns;
    /* How the cells of the rows that stand become values, by `planned_for`. */
    Plan *plans;
    size_t width, plan_room;
    PyObject *planned_for;
    /* The columns of these rows, once they are asked for. */
    Shown shown;
    /* By ids of statements: texts, and the columns that each statement last had with their names. */
    PyObject *texts, *kept_columns;
} Connection;

/* A packet of this size goes on in the next one. */
enum { LONGEST_PACKET = 0xFFFFFF };

/* The size that a packet's header tells. */
static inline size_t packet_size(const uint8_t *header)
{
    return header[0] | (size_t)header[1] << 8 | (size_t)header[2] << 16;
}

/* A connection's handles 0 and 1 are the bytes that were put of each side. */
static inline mysql_session_connection *at(Connection *self)
{
    return &self->held->connection;
}

/* Raises the fault that was answered; always NULL. */
PyObject *connection_fail(Connection *self, uint32_t code);

/* ---- Events ----------------------------------------------------------------------------------- */

/* What is known of rows and statements goes where an event changes it. */
void connection_note(Connection *self, const mysql_session_event *e);
/* The same where packets of a side were put, which have no events. */
void connection_note_packets(Connection *self, uint32_t side, const uint8_t *at, size_t len);
/* All that is known of statements goes. */
void connection_forget(Connection *self);
/* The text of a statement. A long one is copied once, and known by the statement's id until that
 * stands for another. */
PyObject *connection_text(Connection *self, uint32_t statement, const uint8_t *at, size_t len);
/* Has the columns of the row that is shown at hand. They are copied once, those that a statement had
 * before for all of its rows. */
int connection_know_columns(Connection *self);
PyObject *connection_event(Connection *self, const mysql_session_event *e);
/* Keeps the scramble of a payload, where that is a greeting. */
int connection_greet(Connection *self, const uint8_t *payload, size_t len);
/* The cells of the row that is shown, as a tuple. */
PyObject *connection_cells(Connection *self, size_t width);
/* Has the next event shown: 1 where there is one, 0 where there is none, else an error. A row may be
 * lent. */
int connection_show(Connection *self, bool lent);
/* Before more bytes come, what a row that is lent is still asked for is copied. */
int connection_keep_lent(Connection *self);
/* Copies an event that wasn't given, before the library shows another. */
int connection_set_aside(Connection *self);
/* The kind of the event that was read and isn't told yet, or MYSQL_SESSION_EVENT_NONE. */
uint32_t connection_untold(const Connection *self);
/* Has what a failed call read stand as rows, or as a table. */
int connection_settle(Connection *self, bool as_rows);
PyObject *connection_next(PyObject *it, PyObject *none);
PyObject *connection_ungive(PyObject *it, PyObject *none);

/* ---- Rows ------------------------------------------------------------------------------------- */

PyObject *connection_finished_table(Connection *self);
void connection_drop_table(Connection *self);
PyObject *connection_rows(PyObject *it, PyObject *args);
PyObject *connection_table(PyObject *it, PyObject *args);
PyObject *connection_keep(PyObject *it, PyObject *args);

#endif
