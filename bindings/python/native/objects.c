/* Objects of the library, the threads that they stay in, their errors, and what goes in and out. */
#include "native.h"

/* ---- Threads ---------------------------------------------------------------------------------- */

/* What a thread has: that of its objects which were collected in another one. A capsule holds it,
 * in the thread's own dict, and each object of the thread holds the capsule. */
typedef struct {
    Held *left;
} Room;

static const char ROOM[] = "mysql_session room of a thread";

static void held_free(Held *held)
{
    for (int i = 0; i < HANDLES; i++)
        mysql_session_free(&held->handles[i]);
    mysql_session_connection_free(&held->connection);
    PyMem_Free(held);
}

static void room_free(PyObject *capsule)
{
    /* Its thread has ended, or its last object goes: what others left is freed by nobody else. */
    PyMem_Free(PyCapsule_GetPointer(capsule, ROOM));
}

/* The room of the thread that runs, or NULL without an error where it has none. */
static PyObject *room_here(State *state)
{
    PyObject *dict = PyThreadState_GetDict();
    return dict && state->room_key ? PyDict_GetItemWithError(dict, state->room_key) : NULL;
}

/* The same, which is made where there is none. */
static PyObject *room_made(State *state)
{
    PyObject *found = room_here(state), *dict = PyThreadState_GetDict();
    if (found || PyErr_Occurred()) {
        Py_XINCREF(found);
        return found;
    }
    if (!dict) {
        PyErr_SetString(PyExc_RuntimeError, "the thread has no state of Python's");
        return NULL;
    }
    Room *room = PyMem_Malloc(sizeof *room);
    if (!room)
        return PyErr_NoMemory();
    room->left = NULL;
    found = PyCapsule_New(room, ROOM, room_free);
    if (!found) {
        PyMem_Free(room);
        return NULL;
    }
    if (PyDict_SetItem(dict, state->room_key, found))
        Py_CLEAR(found);
    return found;
}

/* ---- Objects ---------------------------------------------------------------------------------- */

Object *new_object(PyObject *module, enum kind kind)
{
    State *state = state_of(module);
    if (needs_setup(state))
        return NULL;
    PyObject *room = room_made(state);
    if (!room)
        return NULL;
    Room *own = PyCapsule_GetPointer(room, ROOM);
    while (own && own->left) {
        Held *held = own->left;
        own->left = held->next;
        held_free(held);
    }
    Held *held = PyMem_Malloc(sizeof *held);
    Object *self = held ? (Object *)PyType_GenericAlloc(state->types[kind], 0) : NULL;
    if (!self) {
        if (!held)
            PyErr_NoMemory();
        PyMem_Free(held);
        Py_DECREF(room);
        return NULL;
    }
    memset(held, 0, sizeof *held);
    self->held = held;
    self->state = state;
    Py_INCREF(module);
    self->module = module;
    self->room = room;
    return self;
}

void drop_held(Object *self)
{
    Held *held = self->held;
    if (!held)
        return;
    self->held = NULL;
    PyObject *kind, *error, *traceback;
    PyErr_Fetch(&kind, &error, &traceback);
    Room *room = PyCapsule_GetPointer(self->room, ROOM);
    if (!room || room_here(self->state) == self->room) {
        held_free(held);
    } else {
        held->next = room->left;
        room->left = held;
    }
    PyErr_Restore(kind, error, traceback);
}

void object_dealloc(PyObject *it)
{
    Object *self = (Object *)it;
    PyTypeObject *type = Py_TYPE(it);
    drop_held(self);
    Py_CLEAR(self->room);
    Py_CLEAR(self->module);
    ((freefunc)PyType_GetSlot(type, Py_tp_free))(it);
    Py_DECREF(type);
}

PyObject *refuse_new(PyTypeObject *type, PyObject *args, PyObject *kwargs)
{
    (void)type, (void)args, (void)kwargs;
    PyErr_SetString(PyExc_TypeError, "objects of mysql_session's extension are made by its calls");
    return NULL;
}

int check(Object *self)
{
    if (needs_setup(self->state))
        return -1; /* the interpreter ends */
    if (room_here(self->state) != self->room) {
        if (!PyErr_Occurred())
            PyErr_SetString(PyExc_RuntimeError,
                            "an object of mysql_session stays in the thread that made it");
        return -1;
    }
    if (self->busy) {
        PyErr_SetString(PyExc_RuntimeError,
                        "an object of mysql_session does one call at a time, also where a signal's "
                        "handler or a finalizer makes the other one");
        return -1;
    }
    return 0;
}

int check_fresh(Object *self)
{
    if (check(self))
        return -1;
    self->fresh = NOTHING_FRESH;
    return 0;
}

int begin(Object *self)
{
    if (check_fresh(self))
        return -1;
    self->busy = true;
    return 0;
}

bool take_fresh(Object *self, enum fresh fresh)
{
    if (check(self)) {
        PyErr_Clear();
        return false;
    }
    bool is = self->fresh == fresh;
    if (is)
        self->fresh = NOTHING_FRESH;
    return is;
}

PyObject *object_check(PyObject *it, PyObject *none)
{
    (void)none;
    if (check((Object *)it))
        return NULL;
    Py_RETURN_NONE;
}

PyObject *object_close(PyObject *it, PyObject *none)
{
    (void)none;
    Object *self = (Object *)it;
    if (begin(self))
        return NULL;
    for (int i = 0; i < HANDLES; i++)
        mysql_session_free(&self->held->handles[i]);
    mysql_session_connection_free(&self->held->connection);
    self->busy = false;
    Py_RETURN_NONE;
}

PyObject *object_is_open(PyObject *it, PyObject *none)
{
    (void)none;
    const Held *held = ((Object *)it)->held;
    return PyBool_FromLong(held && (held->handles[0].at || held->connection.at));
}

int visit_type(PyObject *it, visitproc visit, void *arg)
{
    /* Up to 3.8 the collector doesn't count an object's reference to its type (bpo-40217). */
    const char *version = Py_GetVersion();
    if (version[0] == '3' && version[1] == '.' && version[2] == '8' && version[3] == '.')
        return 0;
    Py_VISIT(Py_TYPE(it));
    return 0;
}

/* ---- Errors ----------------------------------------------------------------------------------- */

PyObject *fail_at(State *state, uint32_t code, PyObject *where)
{
    if (!where && PyErr_Occurred())
        return NULL;
    PyObject *error = PyObject_CallFunction(state->refused, "IO", (unsigned)code,
                                            where ? where : Py_None);
    Py_XDECREF(where);
    if (error)
        PyErr_SetObject((PyObject *)Py_TYPE(error), error);
    Py_XDECREF(error);
    return NULL;
}

PyObject *fail(State *state, uint32_t code)
{
    return fail_at(state, code, NULL);
}

PyObject *fail_place(State *state, uint32_t code, const mysql_session_place *place)
{
    return fail_at(state, code,
                   Py_BuildValue("{s:n,s:n}", "set", (Py_ssize_t)place->set, "place",
                                 (Py_ssize_t)place->place));
}

PyObject *fail_stop(State *state, uint32_t code, const mysql_session_stop *stop)
{
    return fail_at(state, code,
                   Py_BuildValue("{s:I,s:K,s:n}", "end", (unsigned)stop->end, "payload",
                                 (unsigned long long)stop->payload, "set", (Py_ssize_t)stop->set));
}

PyObject *fail_spot(State *state, uint32_t code, const mysql_session_spot *spot)
{
    return fail_at(state, code,
                   Py_BuildValue("{s:n,s:n,s:n,s:K}", "result", (Py_ssize_t)spot->result, "row",
                                 (Py_ssize_t)spot->row, "place", (Py_ssize_t)spot->place, "payload",
                                 (unsigned long long)spot->payload));
}

/* ---- Arguments -------------------------------------------------------------------------------- */

/* A number of so many bits without a sign. */
static int number_of(PyObject *it, int bits, uint64_t *number)
{
    if (!PyLong_Check(it)) {
        PyErr_Format(PyExc_TypeError,
                     "a number is wanted, or a name of a number as Road.TEXT, not %R", it);
        return 0;
    }
    unsigned long long found = PyLong_AsUnsignedLongLong(it);
    bool is_wrong = found == (unsigned long long)-1 && PyErr_Occurred();
    if (is_wrong && !PyErr_ExceptionMatches(PyExc_OverflowError))
        return 0;
    if (is_wrong || (bits < 64 && found >> bits)) {
        PyErr_Clear();
        PyErr_Format(PyExc_OverflowError, "%S is no number of %d bits without a sign", it, bits);
        return 0;
    }
    *number = found;
    return 1;
}

int to_u8(PyObject *it, void *number)
{
    uint64_t found;
    if (!number_of(it, 8, &found))
        return 0;
    *(uint8_t *)number = (uint8_t)found;
    return 1;
}

int to_u16(PyObject *it, void *number)
{
    uint64_t found;
    if (!number_of(it, 16, &found))
        return 0;
    *(uint16_t *)number = (uint16_t)found;
    return 1;
}

int to_u32(PyObject *it, void *number)
{
    uint64_t found;
    if (!number_of(it, 32, &found))
        return 0;
    *(uint32_t *)number = (uint32_t)found;
    return 1;
}

int to_u64(PyObject *it, void *number)
{
    return number_of(it, 64, number);
}

int to_size(PyObject *it, void *number)
{
    uint64_t found;
    if (!number_of(it, 8 * (int)sizeof(size_t), &found))
        return 0;
    *(size_t *)number = (size_t)found;
    return 1;
}

int to_bool(PyObject *it, void *truth)
{
    int found = PyObject_IsTrue(it);
    if (found < 0)
        return 0;
    *(bool *)truth = found;
    return 1;
}

void in_end(In *in)
{
    Py_CLEAR(in->held);
}

/* The bytes of an object of the type bytes, or of a class of it. They never change. */
static int in_of_bytes(PyObject *bytes, In *in)
{
    char *at;
    Py_ssize_t len;
    if (!bytes)
        return 0;
    if (PyBytes_AsStringAndSize(bytes, &at, &len)) {
        Py_DECREF(bytes);
        return 0;
    }
    in->held = bytes;
    in->at = (const uint8_t *)at;
    in->len = (size_t)len;
    return 1;
}

/* Bytes lie where they are. All else is copied, since another thread may write to it, also where a
 * view of it is said to be read only. */
static int in_of_buffer(PyObject *it, In *in)
{
    if (PyBytes_Check(it)) {
        Py_INCREF(it);
        return in_of_bytes(it, in);
    }
    PyObject *view = PyMemoryView_FromObject(it);
    PyObject *copy = view ? PyBytes_FromObject(view) : NULL;
    Py_XDECREF(view);
    return in_of_bytes(copy, in);
}

int in_of_text(PyObject *it, In *in)
{
    return PyUnicode_Check(it) ? in_of_bytes(PyUnicode_AsUTF8String(it), in) : in_of_buffer(it, in);
}

int to_text(PyObject *it, void *in)
{
    if (!it) {
        in_end(in);
        return 1;
    }
    return in_of_text(it, in) ? Py_CLEANUP_SUPPORTED : 0;
}

int to_piece(PyObject *it, void *in)
{
    if (!it) {
        in_end(in);
        return 1;
    }
    if (PyUnicode_Check(it)) {
        PyErr_SetString(PyExc_TypeError, "bytes are wanted, not a str");
        return 0;
    }
    return in_of_buffer(it, in) ? Py_CLEANUP_SUPPORTED : 0;
}

/* ---- Bytes that the library wrote ------------------------------------------------------------- */

PyObject *bytes_of(const uint8_t *at, size_t len)
{
    /* A pointer to no bytes isn't read. */
    return PyBytes_FromStringAndSize(len ? (const char *)at : "", (Py_ssize_t)len);
}

int out_new(Object *self, int number)
{
    uint32_t code = mysql_session_bytes_new(&self->held->handles[number]);
    if (code)
        fail(self->state, code);
    return code ? -1 : 0;
}

mysql_session_handle *to_write(Object *self, int number)
{
    mysql_session_handle *out = &self->held->handles[number];
    if (self->given[number]) {
        mysql_session_bytes_clear(out);
        self->given[number] = false;
    }
    return out;
}

PyObject *out_take(Object *self, int number, enum fresh fresh)
{
    const uint8_t *at = NULL;
    size_t len = 0;
    uint32_t code = mysql_session_bytes_data(&self->held->handles[number], &at, &len);
    if (code)
        return fail(self->state, code);
    if (self->given[number])
        return bytes_of(NULL, 0);
    PyObject *taken = bytes_of(at, len);
    if (taken) {
        self->given[number] = true;
        self->fresh = (uint8_t)fresh;
    }
    return taken;
}
