/* A stream that is cut into payloads. */
#include "native.h"

/* Pieces that weren't read, from `first` on, of which the first is read up to `at`. */
typedef struct {
    OBJECT_HEAD
    PyObject *pieces;
    Py_ssize_t first;
    size_t at, limit;
    bool is_whole; /* a payload stands whole, and wasn't given */
} Packets;

static mysql_session_handle *packets_handle(Packets *self)
{
    return &self->held->handles[0];
}

PyObject *packets_new(PyObject *module, PyObject *args)
{
    State *state = state_of(module);
    uint8_t first;
    size_t limit;
    if (needs_setup(state) || !PyArg_ParseTuple(args, "O&O&", to_u8, &first, to_size, &limit))
        return NULL;
    Packets *self = (Packets *)new_object(module, PACKETS);
    if (!self)
        return NULL;
    self->limit = limit;
    self->pieces = PyList_New(0);
    uint32_t code = self->pieces ? mysql_session_packets_new(packets_handle(self), first, limit) : 0;
    if (code)
        fail(state, code);
    if (PyErr_Occurred())
        Py_CLEAR(self);
    return (PyObject *)self;
}

static PyObject *packets_feed(PyObject *it, PyObject *given)
{
    Packets *self = (Packets *)it;
    In piece = {0};
    if (!to_piece(given, &piece))
        return NULL;
    bool wrong = begin((Object *)self);
    if (!wrong) {
        if (!packets_handle(self)->at) {
            fail(self->state, MYSQL_SESSION_EMPTY_HANDLE);
            wrong = true;
        } else {
            wrong = piece.len && PyList_Append(self->pieces, piece.held);
        }
        self->busy = false;
    }
    in_end(&piece);
    if (wrong)
        return NULL;
    Py_RETURN_NONE;
}

/* Lets go of the pieces that were read, once they are as many as the others. */
static int let_go(Packets *self)
{
    Py_ssize_t count = PyList_Size(self->pieces);
    if (!self->first || (self->first < count && self->first * 2 < count))
        return 0;
    if (PyList_SetSlice(self->pieces, 0, self->first, NULL))
        return -1;
    self->first = 0;
    return 0;
}

/* Has the library read on to the end of the next packet, or of the pieces. */
static int read_on(Packets *self)
{
    do {
        PyObject *piece =
            self->first < PyList_Size(self->pieces) ? PyList_GetItem(self->pieces, self->first) : NULL;
        char *at = "";
        Py_ssize_t len = 0;
        size_t used = 0;
        bool is_whole = false;
        if (piece && PyBytes_AsStringAndSize(piece, &at, &len))
            return -1;
        size_t start = self->at, left = (size_t)len - start;
        uint32_t code;
        Py_XINCREF(piece);
        if (left >= LET_GO) {
            Py_BEGIN_ALLOW_THREADS
            code = mysql_session_packets_feed(packets_handle(self), (const uint8_t *)at + start, left,
                                              &used, &is_whole);
            Py_END_ALLOW_THREADS
        } else {
            code = mysql_session_packets_feed(packets_handle(self), (const uint8_t *)at + start, left,
                                              &used, &is_whole);
        }
        Py_XDECREF(piece);
        if (code) {
            fail(self->state, code);
            return -1;
        }
        self->at += used;
        self->is_whole = is_whole;
        if (piece && self->at == (size_t)len) {
            Py_INCREF(self->state->no_bytes);
            PyList_SetItem(self->pieces, self->first++, self->state->no_bytes);
            self->at = 0;
        }
        if (let_go(self))
            return -1;
    } while (!self->is_whole && self->first < PyList_Size(self->pieces));
    return 0;
}

static PyObject *packets_payload(PyObject *it, PyObject *none)
{
    (void)none;
    Packets *self = (Packets *)it;
    PyObject *made = NULL;
    if (begin((Object *)self))
        return NULL;
    if (self->is_whole || !read_on(self)) {
        const uint8_t *at = NULL;
        size_t len = 0;
        uint32_t code =
            self->is_whole ? mysql_session_packets_payload(packets_handle(self), &at, &len) : 0;
        if (code)
            fail(self->state, code);
        else if (!self->is_whole)
            made = (Py_INCREF(Py_None), Py_None);
        else
            made = bytes_of(at, len);
        if (made && PyErr_CheckSignals())
            Py_CLEAR(made);
        if (made && self->is_whole) {
            self->is_whole = false;
            self->fresh = FRESH;
        }
    }
    self->busy = false;
    return made;
}

static PyObject *packets_ungive(PyObject *it, PyObject *none)
{
    (void)none;
    Packets *self = (Packets *)it;
    if (take_fresh((Object *)self, FRESH))
        self->is_whole = true;
    Py_RETURN_NONE;
}

static PyObject *packets_restart(PyObject *it, PyObject *number)
{
    Packets *self = (Packets *)it;
    uint8_t first;
    if (!to_u8(number, &first) || begin((Object *)self))
        return NULL;
    uint32_t code = self->is_whole ? (uint32_t)MYSQL_SESSION_UNFINISHED
                                   : mysql_session_packets_restart(packets_handle(self));
    /* The library restarts at 0 alone; between packets a new reader differs in nothing else. */
    if (!code && first)
        code = mysql_session_packets_new(packets_handle(self), first, self->limit);
    self->busy = false;
    if (code)
        return fail(self->state, code);
    Py_RETURN_NONE;
}

static PyObject *packets_close(PyObject *it, PyObject *none)
{
    Packets *self = (Packets *)it;
    PyObject *done = object_close(it, none);
    if (!done)
        return NULL;
    self->first = 0;
    self->at = 0;
    self->is_whole = false;
    if (PyList_SetSlice(self->pieces, 0, PyList_Size(self->pieces), NULL))
        Py_CLEAR(done);
    return done;
}

static void packets_dealloc(PyObject *it)
{
    Py_CLEAR(((Packets *)it)->pieces);
    object_dealloc(it);
}

static PyMethodDef packets_methods[] = {{"close", packets_close, METH_NOARGS, NULL},
                                        {"check", object_check, METH_NOARGS, NULL},
                                        {"is_open", object_is_open, METH_NOARGS, NULL},
                                        {"feed", packets_feed, METH_O, NULL},
                                        {"payload", packets_payload, METH_NOARGS, NULL},
                                        {"ungive", packets_ungive, METH_NOARGS, NULL},
                                        {"restart", packets_restart, METH_O, NULL},
                                        {NULL, NULL, 0, NULL}};
static PyType_Slot packets_slots[] = {{Py_tp_new, refuse_new},
                                      {Py_tp_dealloc, packets_dealloc},
                                      {Py_tp_methods, packets_methods},
                                      {0, NULL}};
PyType_Spec packets_spec = {"mysql_session._native.Packets", sizeof(Packets), 0, Py_TPFLAGS_DEFAULT,
                            packets_slots};
