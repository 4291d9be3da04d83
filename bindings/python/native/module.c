/* The module: its state, what the Python module hands over, and calls that need no object. */
#include <stdio.h>
#include "native.h"

State *state_of(PyObject *module)
{
    return PyModule_GetState(module);
}

/* What the Python module hands over by `setup`, by its name. */
#define HANDED(name) {#name, offsetof(State, name)}
static const struct {
    const char *name;
    size_t offset;
} HANDED_OVER[] = {
    HANDED(refused),     HANDED(fault),        HANDED(row_error),   HANDED(column),
    HANDED(state_change), HANDED(ok),          HANDED(rows),        HANDED(prepared),
    HANDED(server_error), HANDED(file),        HANDED(value_rows),  HANDED(table),
    HANDED(column_values), HANDED(date_fields), HANDED(time_fields), HANDED(bulk_default),
    HANDED(bulk_ignore), HANDED(statement),    HANDED(put),         HANDED(codecs),
    HANDED(raw_rows),
};

static PyObject **slot_of(State *state, size_t number)
{
    return (PyObject **)((char *)state + HANDED_OVER[number].offset);
}

enum { HANDED_COUNT = sizeof HANDED_OVER / sizeof HANDED_OVER[0] };

int needs_setup(State *state)
{
    if (state && state->is_set_up)
        return 0;
    PyErr_SetString(PyExc_RuntimeError, "the extension is used by the module mysql_session alone");
    return -1;
}

static PyObject *setup(PyObject *module, PyObject *handed)
{
    State *state = state_of(module);
    if (state->is_set_up) {
        PyErr_SetString(PyExc_RuntimeError, "the extension is set up once");
        return NULL;
    }
    if (!PyDict_Check(handed)) {
        PyErr_SetString(PyExc_TypeError, "a dict is wanted");
        return NULL;
    }
    for (size_t i = 0; i < HANDED_COUNT; i++) {
        PyObject *found = PyDict_GetItemString(handed, HANDED_OVER[i].name);
        if (!found)
            return PyErr_Format(PyExc_KeyError, "%s", HANDED_OVER[i].name);
        Py_INCREF(found);
        Py_XDECREF(*slot_of(state, i));
        *slot_of(state, i) = found;
    }
    /* Names of codecs are read where they lie, so nobody else may change these. */
    PyObject *codecs = PyDict_Check(state->codecs) ? PyDict_Copy(state->codecs) : NULL;
    if (!codecs)
        return PyErr_Occurred() ? NULL : PyErr_Format(PyExc_TypeError, "codecs");
    Py_DECREF(state->codecs);
    state->codecs = codecs;
    PyObject *readers = PyDict_GetItemString(handed, "readers");
    for (int how = 0; how < HOWS; how++) {
        PyObject *reader = readers ? PySequence_GetItem(readers, how) : NULL;
        if (!reader)
            return PyErr_Occurred() ? NULL : PyErr_Format(PyExc_KeyError, "readers");
        Py_XDECREF(state->readers[how]);
        state->readers[how] = reader;
    }
    PyObject *events = PyDict_GetItemString(handed, "events");
    if (!events || !PyDict_Check(events))
        return PyErr_Format(PyExc_KeyError, "events");
    if (set_up_events(state, events))
        return NULL;
    state->is_set_up = true;
    Py_RETURN_NONE;
}

/* ---- Numbers and texts ------------------------------------------------------------------------ */

static PyObject *abi(PyObject *module, PyObject *none)
{
    (void)module, (void)none;
    return PyLong_FromUnsignedLong(mysql_session_abi());
}

static PyObject *build(PyObject *module, PyObject *none)
{
    (void)module, (void)none;
    return PyLong_FromUnsignedLong(mysql_session_build());
}

static PyObject *version(PyObject *module, PyObject *none)
{
    (void)module, (void)none;
    const uint8_t *text = NULL;
    size_t len = 0;
    mysql_session_version(&text, &len);
    return PyUnicode_FromStringAndSize((const char *)text, (Py_ssize_t)len);
}

static PyObject *code_text(PyObject *module, PyObject *it)
{
    (void)module;
    uint32_t code;
    const uint8_t *text = NULL;
    size_t len = 0;
    if (!to_u32(it, &code))
        return NULL;
    mysql_session_code_text(code, &text, &len);
    return PyUnicode_FromStringAndSize((const char *)text, (Py_ssize_t)len);
}

static PyObject *mode_of_status(PyObject *module, PyObject *it)
{
    (void)module;
    uint16_t status;
    return to_u16(it, &status) ? PyLong_FromUnsignedLong(mysql_session_mode_of_status(status)) : NULL;
}

static PyObject *mode_of_sql_mode(PyObject *module, PyObject *it)
{
    (void)module;
    In text = {0};
    if (!in_of_text(it, &text))
        return NULL;
    uint32_t flags = mysql_session_mode_of_sql_mode(text.at, text.len);
    in_end(&text);
    return PyLong_FromUnsignedLong(flags);
}

/* What is known of a session goes in and comes out as the fields of the struct. */
PyObject *of_known(const mysql_session_known *known)
{
    return Py_BuildValue("(IOO)", (unsigned)known->flags, known->set_known ? Py_True : Py_False,
                         known->counts ? Py_True : Py_False);
}

static PyObject *known_behind_text(PyObject *module, PyObject *args)
{
    (void)module;
    mysql_session_known known = MYSQL_SESSION_NOTHING_KNOWN;
    In text = {0};
    if (!PyArg_ParseTuple(args, "O&O&O&O&", to_u32, &known.flags, to_bool, &known.set_known,
                          to_bool, &known.counts, to_text, &text))
        return NULL;
    mysql_session_known_behind_text(&known, text.at, text.len);
    in_end(&text);
    return of_known(&known);
}

static PyObject *known_behind_ok(PyObject *module, PyObject *args)
{
    (void)module;
    mysql_session_known known = MYSQL_SESSION_NOTHING_KNOWN;
    uint16_t status;
    In changes = {0};
    if (!PyArg_ParseTuple(args, "O&O&O&O&O&", to_u32, &known.flags, to_bool, &known.set_known,
                          to_bool, &known.counts, to_u16, &status, to_piece, &changes))
        return NULL;
    mysql_session_known_behind_ok(&known, status, changes.at, changes.len);
    in_end(&changes);
    return of_known(&known);
}

static PyObject *is_safe_to_quote(PyObject *module, PyObject *it)
{
    (void)module;
    uint16_t collation;
    return to_u16(it, &collation) ? PyBool_FromLong((long)mysql_session_is_safe_to_quote(collation))
                                  : NULL;
}

static PyObject *place_count(PyObject *module, PyObject *args)
{
    In text = {0};
    uint32_t flags;
    size_t count = 0;
    if (!PyArg_ParseTuple(args, "O&O&", in_of_text, &text, to_u32, &flags))
        return NULL;
    uint32_t code = mysql_session_place_count(text.at, text.len, flags, &count);
    in_end(&text);
    return code ? fail(PyModule_GetState(module), code) : PyLong_FromSize_t(count);
}

/* ---- Payloads that are written and read at once ------------------------------------------------ */

/* What a call that appends to bytes of its own wrote. */
typedef struct {
    mysql_session_handle at;
} Written;

static PyObject *written_end(State *state, Written *out, uint32_t code)
{
    PyObject *made = NULL;
    const uint8_t *at = NULL;
    size_t len = 0;
    if (!code)
        code = mysql_session_bytes_data(&out->at, &at, &len);
    if (code)
        fail(state, code);
    else
        made = bytes_of(at, len);
    mysql_session_free(&out->at);
    return made;
}

static PyObject *packet_put(PyObject *module, PyObject *args)
{
    State *state = state_of(module);
    In payload = {0};
    uint8_t number;
    size_t limit;
    if (needs_setup(state) ||
        !PyArg_ParseTuple(args, "O&O&O&", to_piece, &payload, to_u8, &number, to_size, &limit))
        return NULL;
    Written out = {MYSQL_SESSION_NOTHING};
    uint32_t code = mysql_session_bytes_new(&out.at);
    if (!code)
        code = mysql_session_packet_put(&out.at, payload.at, payload.len, &number, limit);
    in_end(&payload);
    PyObject *packet = written_end(state, &out, code);
    return packet ? Py_BuildValue("(NB)", packet, number) : NULL;
}

static PyObject *greeting_read(PyObject *module, PyObject *it)
{
    State *state = state_of(module);
    In payload = {0};
    if (needs_setup(state) || !to_piece(it, &payload))
        return NULL;
    mysql_session_greeting g;
    memset(&g, 0, sizeof g);
    uint32_t code = mysql_session_greeting_read(payload.at, payload.len, &g);
    PyObject *made = NULL;
    if (code)
        fail(state, code);
    else
        made = Py_BuildValue("(INIIHBNNNB)", (unsigned)g.connection,
                             bytes_of(g.version, g.version_len), (unsigned)g.capabilities,
                             (unsigned)g.mariadb_capabilities, g.status, g.collation,
                             bytes_of(g.scramble_1, g.scramble_1_len),
                             bytes_of(g.scramble_2, g.scramble_2_len),
                             bytes_of(g.plugin, g.plugin_len), g.protocol);
    in_end(&payload);
    return made;
}

static PyObject *login_read(PyObject *module, PyObject *it)
{
    State *state = state_of(module);
    In payload = {0};
    if (needs_setup(state) || !to_piece(it, &payload))
        return NULL;
    mysql_session_login g;
    memset(&g, 0, sizeof g);
    uint32_t code = mysql_session_login_read(payload.at, payload.len, &g);
    PyObject *made = NULL;
    if (code)
        fail(state, code);
    else
        made = Py_BuildValue("(NNNNIIB)", bytes_of(g.user, g.user_len),
                             bytes_of(g.response, g.response_len),
                             bytes_of(g.database, g.database_len), bytes_of(g.plugin, g.plugin_len),
                             (unsigned)g.capabilities, (unsigned)g.mariadb_capabilities, g.collation);
    in_end(&payload);
    return made;
}

static PyObject *greeting_put(PyObject *module, PyObject *args)
{
    State *state = state_of(module);
    uint32_t connection, capabilities, mariadb;
    uint8_t collation;
    uint16_t status;
    In t[4] = {{0}};
    if (needs_setup(state) ||
        !PyArg_ParseTuple(args, "O&O&O&O&O&O&O&O&O&", to_u32, &connection, to_u32, &capabilities,
                          to_u32, &mariadb, to_u8, &collation, to_u16, &status, to_text, &t[0],
                          to_text, &t[1], to_text, &t[2], to_text, &t[3]))
        return NULL;
    Written out = {MYSQL_SESSION_NOTHING};
    uint32_t code = mysql_session_bytes_new(&out.at);
    if (!code)
        code = mysql_session_greeting_put(&out.at, connection, capabilities, mariadb, collation,
                                          status, t[0].at, t[0].len, t[1].at, t[1].len, t[2].at,
                                          t[2].len, t[3].at, t[3].len);
    for (int i = 0; i < 4; i++)
        in_end(&t[i]);
    return written_end(state, &out, code);
}

static PyObject *login_put(PyObject *module, PyObject *args)
{
    State *state = state_of(module);
    uint32_t capabilities, mariadb, longest;
    In t[4] = {{0}};
    if (needs_setup(state) ||
        !PyArg_ParseTuple(args, "O&O&O&O&O&O&O&", to_u32, &capabilities, to_u32, &mariadb, to_u32,
                          &longest, to_text, &t[0], to_piece, &t[1], to_text, &t[2], to_text, &t[3]))
        return NULL;
    Written out = {MYSQL_SESSION_NOTHING};
    uint32_t code = mysql_session_bytes_new(&out.at);
    if (!code)
        code = mysql_session_login_put(&out.at, capabilities, mariadb, longest, t[0].at, t[0].len,
                                       t[1].at, t[1].len, t[2].at, t[2].len, t[3].at, t[3].len);
    for (int i = 0; i < 4; i++)
        in_end(&t[i]);
    return written_end(state, &out, code);
}

static PyObject *register_replica_put(PyObject *module, PyObject *args)
{
    State *state = state_of(module);
    uint32_t server;
    uint16_t port;
    In t[3] = {{0}};
    if (needs_setup(state) ||
        !PyArg_ParseTuple(args, "O&O&O&O&O&", to_u32, &server, to_text, &t[0], to_text, &t[1],
                          to_text, &t[2], to_u16, &port))
        return NULL;
    Written out = {MYSQL_SESSION_NOTHING};
    uint32_t code = mysql_session_bytes_new(&out.at);
    if (!code)
        code = mysql_session_register_replica_put(&out.at, server, t[0].at, t[0].len, t[1].at,
                                                  t[1].len, t[2].at, t[2].len, port);
    for (int i = 0; i < 3; i++)
        in_end(&t[i]);
    return written_end(state, &out, code);
}

static PyObject *binlog_dump_put(PyObject *module, PyObject *args)
{
    State *state = state_of(module);
    uint32_t server, position;
    uint16_t flags;
    In file = {0};
    if (needs_setup(state) || !PyArg_ParseTuple(args, "O&O&O&O&", to_u32, &server, to_u32, &position,
                                                to_u16, &flags, to_text, &file))
        return NULL;
    Written out = {MYSQL_SESSION_NOTHING};
    uint32_t code = mysql_session_bytes_new(&out.at);
    if (!code)
        code = mysql_session_binlog_dump_put(&out.at, server, position, flags, file.at, file.len);
    in_end(&file);
    return written_end(state, &out, code);
}

static PyObject *binlog_dump_gtid_put(PyObject *module, PyObject *args)
{
    State *state = state_of(module);
    uint32_t server;
    uint64_t position;
    uint16_t flags;
    In file = {0}, gtids = {0};
    if (needs_setup(state) ||
        !PyArg_ParseTuple(args, "O&O&O&O&O&", to_u32, &server, to_u64, &position, to_u16, &flags,
                          to_text, &file, to_text, &gtids))
        return NULL;
    Written out = {MYSQL_SESSION_NOTHING};
    uint32_t code = mysql_session_bytes_new(&out.at);
    if (!code)
        code = mysql_session_binlog_dump_gtid_put(&out.at, server, position, flags, file.at,
                                                  file.len, gtids.at, gtids.len);
    in_end(&file);
    in_end(&gtids);
    return written_end(state, &out, code);
}

/* ---- The module ------------------------------------------------------------------------------- */

static PyMethodDef methods[] = {
    {"setup", setup, METH_O, NULL},
    {"abi", abi, METH_NOARGS, NULL},
    {"build", build, METH_NOARGS, NULL},
    {"version", version, METH_NOARGS, NULL},
    {"code_text", code_text, METH_O, NULL},
    {"mode_of_status", mode_of_status, METH_O, NULL},
    {"mode_of_sql_mode", mode_of_sql_mode, METH_O, NULL},
    {"known_behind_text", known_behind_text, METH_VARARGS, NULL},
    {"known_behind_ok", known_behind_ok, METH_VARARGS, NULL},
    {"is_safe_to_quote", is_safe_to_quote, METH_O, NULL},
    {"place_count", place_count, METH_VARARGS, NULL},
    {"packet_put", packet_put, METH_VARARGS, NULL},
    {"greeting_read", greeting_read, METH_O, NULL},
    {"greeting_put", greeting_put, METH_VARARGS, NULL},
    {"login_read", login_read, METH_O, NULL},
    {"login_put", login_put, METH_VARARGS, NULL},
    {"register_replica_put", register_replica_put, METH_VARARGS, NULL},
    {"binlog_dump_put", binlog_dump_put, METH_VARARGS, NULL},
    {"binlog_dump_gtid_put", binlog_dump_gtid_put, METH_VARARGS, NULL},
    {"values", values_new, METH_O, NULL},
    {"rows_of", rows_of, METH_VARARGS, NULL},
    {"receiver", receiver_new, METH_VARARGS, NULL},
    {"sets", sets_new, METH_NOARGS, NULL},
    {"recoder", recoder_new, METH_VARARGS, NULL},
    {"reply", reply_new, METH_VARARGS, NULL},
    {"writer", writer_new, METH_VARARGS, NULL},
    {"packets", packets_new, METH_VARARGS, NULL},
    {"connection", connection_new, METH_VARARGS, NULL},
    {"connection_after_login", connection_after_login, METH_VARARGS, NULL},
    {"send", send_sets, METH_VARARGS, NULL},
    {"execution_put", execution_put, METH_VARARGS, NULL},
    {"bind_text", bind_text, METH_VARARGS, NULL},
    {"digest", digest, METH_VARARGS, NULL},
    {"value_text", value_text, METH_VARARGS, NULL},
    {NULL, NULL, 0, NULL}};

static PyObject *attribute(const char *module, const char *name)
{
    PyObject *imported = PyImport_ImportModule(module);
    PyObject *found = imported ? PyObject_GetAttrString(imported, name) : NULL;
    Py_XDECREF(imported);
    return found;
}

static int module_exec(PyObject *module)
{
    static PyType_Spec *const SPECS[KINDS] = {
        [RECEIVER] = &receiver_spec, [SETS] = &sets_spec,     [RECODER] = &recoder_spec,
        [REPLY] = &reply_spec,       [WRITER] = &writer_spec, [PACKETS] = &packets_spec,
        [CONNECTION] = &connection_spec, [EVENTS] = &events_spec, [VALUES] = &values_spec};
    State *state = state_of(module);
    if (mysql_session_abi() != MYSQL_SESSION_ABI) {
        PyErr_SetString(PyExc_ImportError, "the library has another interface than the header");
        return -1;
    }
    for (int kind = 0; kind < KINDS; kind++)
        if (!(state->types[kind] = (PyTypeObject *)PyType_FromSpec(SPECS[kind])))
            return -1;
    if (!(state->decimal = attribute("decimal", "Decimal")) ||
        !(state->date = attribute("datetime", "date")) ||
        !(state->datetime = attribute("datetime", "datetime")) ||
        !(state->time = attribute("datetime", "time")) ||
        !(state->timedelta = attribute("datetime", "timedelta")) ||
        !(state->mapping = attribute("collections.abc", "Mapping")) ||
        !(state->unordered = attribute("collections.abc", "Set")) ||
        !(state->none_given = PyTuple_New(0)) || !(state->no_bytes = bytes_of(NULL, 0)) ||
        !(state->room_key = PyUnicode_InternFromString("mysql_session room")))
        return -1;
    return 0;
}

static int module_traverse(PyObject *module, visitproc visit, void *arg)
{
    State *state = state_of(module);
    if (!state)
        return 0;
    for (int kind = 0; kind < KINDS; kind++)
        Py_VISIT(state->types[kind]);
    for (size_t i = 0; i < HANDED_COUNT; i++)
        Py_VISIT(*slot_of(state, i));
    for (int how = 0; how < HOWS; how++)
        Py_VISIT(state->readers[how]);
    for (int i = 0; i < state->event_count; i++)
        Py_VISIT(state->event_classes[i].class);
    Py_VISIT(state->decimal);
    Py_VISIT(state->date);
    Py_VISIT(state->datetime);
    Py_VISIT(state->time);
    Py_VISIT(state->timedelta);
    Py_VISIT(state->mapping);
    Py_VISIT(state->unordered);
    return 0;
}

static int module_clear(PyObject *module)
{
    State *state = state_of(module);
    if (!state)
        return 0;
    state->is_set_up = false;
    for (int kind = 0; kind < KINDS; kind++)
        Py_CLEAR(state->types[kind]);
    for (size_t i = 0; i < HANDED_COUNT; i++)
        Py_CLEAR(*slot_of(state, i));
    for (int how = 0; how < HOWS; how++)
        Py_CLEAR(state->readers[how]);
    memset(state->events, 0, sizeof state->events);
    while (state->event_count) {
        EventClass *class = &state->event_classes[--state->event_count];
        Py_CLEAR(class->class);
        for (int i = 0; i < class->count; i++)
            Py_CLEAR(class->names[i]);
    }
    for (int i = 0; i < DATES; i++)
        Py_CLEAR(state->dates[i]);
    Py_CLEAR(state->decimal);
    Py_CLEAR(state->date);
    Py_CLEAR(state->datetime);
    Py_CLEAR(state->time);
    Py_CLEAR(state->timedelta);
    Py_CLEAR(state->mapping);
    Py_CLEAR(state->unordered);
    Py_CLEAR(state->none_given);
    Py_CLEAR(state->no_bytes);
    Py_CLEAR(state->room_key);
    return 0;
}

static void module_free(void *module)
{
    module_clear(module);
}

/* Slots that 3.12 (3: several interpreters, 2: each with a lock of its own) and 3.13 (4: the lock,
 * 0: it is used) brought. An older version refuses a slot that it doesn't know, so the list is cut
 * off by the version that runs. */
static PyModuleDef_Slot slots[] = {
    {Py_mod_exec, module_exec}, {3, (void *)2}, {4, (void *)0}, {0, NULL}};

static struct PyModuleDef definition = {PyModuleDef_HEAD_INIT,
                                        .m_name = "_native",
                                        .m_size = sizeof(State),
                                        .m_methods = methods,
                                        .m_slots = slots,
                                        .m_traverse = module_traverse,
                                        .m_clear = module_clear,
                                        .m_free = module_free};

/* The one name that the file shows; 3.8's header doesn't say so by itself. */
__attribute__((visibility("default"))) PyMODINIT_FUNC PyInit__native(void);
PyMODINIT_FUNC PyInit__native(void)
{
    int minor = 0;
    if (sscanf(Py_GetVersion(), "3.%d", &minor) == 1) {
        if (minor < 12)
            slots[1].slot = 0;
        else if (minor < 13)
            slots[2].slot = 0;
    }
    return PyModuleDef_Init(&definition);
}
