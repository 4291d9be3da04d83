/* What the parts of the extension share. Each part is a file of its own, by CPython's limited
 * interface of 3.8: one file that is compiled serves that version and all later ones.
 *
 * Nothing here is static but what never changes: an interpreter's objects are in its State. All of
 * it is called with the interpreter's lock held, but for the library's reading of large pieces. */
#ifndef MYSQL_SESSION_NATIVE_H
#define MYSQL_SESSION_NATIVE_H

#define Py_LIMITED_API 0x03080000
#define PY_SSIZE_T_CLEAN
#include <Python.h>
#include <stdbool.h>
#include <stddef.h>
#include <stdint.h>
#include <string.h>
#include "mysql_session.h"

/* ---- What an interpreter has ------------------------------------------------------------------ */

/* How the cells of a column become values. */
enum how {
    AS_BYTES, AS_TEXT, AS_CODEC, AS_INT, AS_FLOAT, AS_DECIMAL, AS_DATE, AS_DATETIME, AS_TIME, HOWS
};

enum { DATES = 1024, EVENT_KINDS = 0x201, EVENT_FIELDS = 10 };

/* A class of events: its fields by their names, and what each is of the library's struct. */
typedef struct {
    PyObject *class;
    newfunc make;
    const uint8_t *fields;
    int count;
    PyObject *names[EVENT_FIELDS];
} EventClass;

/* The types of the module's own objects. */
enum kind { RECEIVER, SETS, RECODER, REPLY, WRITER, PACKETS, CONNECTION, EVENTS, VALUES, KINDS };

typedef struct {
    PyTypeObject *types[KINDS];
    /* What `setup` hands over: classes and functions of the Python module. */
    PyObject *refused, *fault, *row_error;
    PyObject *column, *state_change, *ok, *rows, *prepared, *server_error, *file, *raw_rows;
    PyObject *value_rows, *table, *column_values;
    PyObject *date_fields, *time_fields, *bulk_default, *bulk_ignore;
    PyObject *statement, *put;
    PyObject *readers[HOWS];
    PyObject *codecs;
    EventClass event_classes[64];
    int event_count;
    const EventClass *events[EVENT_KINDS];
    /* Types of Python's library. */
    PyObject *decimal, *date, *datetime, *time, *timedelta, *mapping, *unordered;
    PyObject *none_given, *no_bytes, *room_key;
    /* Dates come again in a table: the last one of each slot is kept, and found by its number. */
    PyObject *dates[DATES];
    uint32_t date_keys[DATES];
    bool is_set_up;
} State;

State *state_of(PyObject *module);

/* ---- Objects ---------------------------------------------------------------------------------- */

enum { HANDLES = 3 };

/* What an object has of the library. It outlives the object where that is collected in another
 * thread: its own thread frees it then. */
typedef struct Held {
    mysql_session_handle handles[HANDLES];
    mysql_session_connection connection;
    struct Held *next;
} Held;

/* What the last call gave, as far as `ungive` can take it back. */
enum fresh { NOTHING_FRESH, FRESH, FRESH_COPY, FRESH_KEPT, FRESH_BYTES, FRESH_BYTES_2 };

#define OBJECT_HEAD                                                                                \
    PyObject_HEAD State *state;                                                                    \
    PyObject *module, *room;                                                                       \
    Held *held;                                                                                    \
    bool busy;                                                                                     \
    uint8_t fresh;                                                                                 \
    bool given[HANDLES];

typedef struct {
    OBJECT_HEAD
} Object;

/* Makes an object of this type that stands for nothing yet. */
Object *new_object(PyObject *module, enum kind kind);
/* Frees what an object has of the library, or leaves it to the object's own thread. */
void drop_held(Object *self);
void object_dealloc(PyObject *it);
PyObject *refuse_new(PyTypeObject *type, PyObject *args, PyObject *kwargs);
/* Begins a call on an object: refuses one in another thread, and one within another. */
int begin(Object *self);
/* Whether a call may be made, without beginning one. */
int check(Object *self);
/* The same at the head of a call that reads its arguments first: what the one before gave is given,
 * also where these are wrong. */
int check_fresh(Object *self);
/* Whether the last call gave such a thing, which is taken back then: once, and by its own thread. */
bool take_fresh(Object *self, enum fresh fresh);
PyObject *object_close(PyObject *it, PyObject *none);
PyObject *object_check(PyObject *it, PyObject *none);
PyObject *object_is_open(PyObject *it, PyObject *none);
/* On versions from 3.9 on an object visits its type. */
int visit_type(PyObject *it, visitproc visit, void *arg);
int needs_setup(State *state);

#define OBJECT_METHODS                                                                             \
    {"close", object_close, METH_NOARGS, NULL}, {"check", object_check, METH_NOARGS, NULL},        \
    {                                                                                              \
        "is_open", object_is_open, METH_NOARGS, NULL                                               \
    }

/* ---- Errors ----------------------------------------------------------------------------------- */

/* Raises by a code of the library; always NULL. */
PyObject *fail(State *state, uint32_t code);
/* The same with where: the fields of a dict, which is used up, and may be NULL. */
PyObject *fail_at(State *state, uint32_t code, PyObject *where);
PyObject *fail_place(State *state, uint32_t code, const mysql_session_place *place);
PyObject *fail_stop(State *state, uint32_t code, const mysql_session_stop *stop);
PyObject *fail_spot(State *state, uint32_t code, const mysql_session_spot *spot);

/* ---- Arguments -------------------------------------------------------------------------------- */

/* Bytes that a call reads: `held` holds them until `in_end`. */
typedef struct {
    PyObject *held;
    const uint8_t *at;
    size_t len;
} In;

/* Converters for PyArg_ParseTuple by O&. */
int to_u8(PyObject *it, void *number);
int to_u16(PyObject *it, void *number);
int to_u32(PyObject *it, void *number);
int to_u64(PyObject *it, void *number);
int to_size(PyObject *it, void *number);
int to_bool(PyObject *it, void *truth);
int to_text(PyObject *it, void *in);
int to_piece(PyObject *it, void *in);
void in_end(In *in);
int in_of_text(PyObject *it, In *in);

/* A piece of this length is read with the lock let go. */
enum { LET_GO = 1 << 17 };

/* What is known of a session, by the fields of the struct. */
PyObject *of_known(const mysql_session_known *known);

/* ---- Bytes that the library wrote ------------------------------------------------------------- */

int out_new(Object *self, int number);
/* The bytes of an object, without those that were given. */
mysql_session_handle *to_write(Object *self, int number);
/* The bytes that were appended since they were given last. */
PyObject *out_take(Object *self, int number, enum fresh fresh);
PyObject *bytes_of(const uint8_t *at, size_t len);

/* ---- Values ----------------------------------------------------------------------------------- */

typedef struct {
    uint8_t type, how;
    uint16_t flags, charset;
    PyObject *converter; /* of the `values`, which hold it */
    const char *codec;   /* of the state's codecs, which hold it */
} Plan;

typedef struct {
    PyObject_HEAD
    PyObject *converters[256];
} Values;

/* How cells of columns become values: by the columns' types, and by the converters of `values`. */
void plan(State *state, const Values *values, Plan *plans, size_t width);
void plan_column(const mysql_session_column *column, Plan *plan);
int values_in(State *state, PyObject *it, Values **values);
/* A cell as rows have them: bytes of a text, or the value. */
PyObject *cell_of(State *state, uint8_t type, const mysql_session_value *value);
/* A cell as a value of its column's type. */
PyObject *value_of(State *state, const Plan *plan, const mysql_session_value *value);
/* A tuple of columns, and a list of their names as errors tell them, None where none has told it.
 * Each is made once, however often a peer has them told. */
typedef struct {
    PyObject *columns, *names;
} Shown;

/* Takes columns over, in the place of those before; they may be NULL by an error. */
int shown_set(Shown *shown, PyObject *columns);
void shown_clear(Shown *shown);
/* Whether an error says that a cell is no value of its column's type. */
bool is_row_error(const Plan *plan);
/* In its place: a RowError. */
void tell_row_error(State *state, const Plan *plan, const Shown *shown, size_t place, size_t row,
                    bool is_null);
PyObject *column_of(State *state, const mysql_session_column *column);
PyObject *values_new(PyObject *module, PyObject *converters);
PyObject *rows_of(PyObject *module, PyObject *args);
/* The number that digits behind an optional sign are, where its magnitude fits; else false. */
bool whole_of(const uint8_t *at, size_t len, bool *is_negative, uint64_t *magnitude);
/* The number that plain digits of a float are. Else false, or an error: where it is too large, that
 * of an overflow. */
bool real_of(const uint8_t *at, size_t len, double *number);

/* ---- Tables ----------------------------------------------------------------------------------- */

typedef struct {
    PyObject *store, *nulls; /* a bytearray or a list, and a bytearray */
    char form;               /* q, Q, d, or 0 of a list */
} Array;

typedef struct {
    Array *arrays;
    size_t width, count, room;
} Table;

int table_begin(State *state, Table *table, const Plan *plans, size_t width);
/* Makes room for one more row, and at first for so many. */
int table_widen(Table *table, size_t rows);
/* Puts a cell of the row that comes next; the row counts by `count++` alone. */
int table_put(State *state, Table *table, const Plan *plans, size_t place,
              const mysql_session_value *value);
/* Takes back what was put of a row that doesn't count. */
void table_cut(Table *table);
/* The columns as a tuple of ColumnValues. The table stays as it is. */
PyObject *table_arrays(State *state, Table *table);
void table_clear(Table *table);
int table_traverse(Table *table, visitproc visit, void *arg);

/* Which of so many columns have floats of 32 bits. */
typedef struct {
    bool *columns;
    size_t count;
} Narrow;

/* ---- The parts -------------------------------------------------------------------------------- */

extern PyType_Spec receiver_spec, sets_spec, recoder_spec, reply_spec, writer_spec, packets_spec,
    connection_spec, events_spec, values_spec;

PyObject *receiver_new(PyObject *module, PyObject *args);
PyObject *sets_new(PyObject *module, PyObject *none);
PyObject *recoder_new(PyObject *module, PyObject *args);
PyObject *reply_new(PyObject *module, PyObject *args);
PyObject *writer_new(PyObject *module, PyObject *args);
PyObject *packets_new(PyObject *module, PyObject *args);
PyObject *connection_new(PyObject *module, PyObject *args);
PyObject *connection_after_login(PyObject *module, PyObject *args);
PyObject *send_sets(PyObject *module, PyObject *args);
PyObject *bind_text(PyObject *module, PyObject *args);
PyObject *value_text(PyObject *module, PyObject *args);
PyObject *execution_put(PyObject *module, PyObject *args);
PyObject *digest(PyObject *module, PyObject *args);
int sets_add_values(State *state, Object *sets, PyObject *values, const Narrow *narrow);
int set_up_events(State *state, PyObject *classes);

#endif
