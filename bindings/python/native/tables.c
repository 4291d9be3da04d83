/* Rows as columns: arrays of numbers that grow, and lists of all else. */
#include "native.h"

static char form_of(const Plan *plan)
{
    if (plan->converter)
        return 0;
    if (plan->how == AS_FLOAT)
        return 'd';
    if (plan->how != AS_INT)
        return 0;
    /* Of a column without a sign the numbers of the largest type alone don't fit. */
    return plan->type == MYSQL_SESSION_TYPE_LONGLONG && plan->flags & 32 ? 'Q' : 'q';
}

int table_begin(State *state, Table *table, const Plan *plans, size_t width)
{
    (void)state;
    memset(table, 0, sizeof *table);
    table->arrays = PyMem_Malloc((width ? width : 1) * sizeof *table->arrays);
    if (!table->arrays) {
        PyErr_NoMemory();
        return -1;
    }
    memset(table->arrays, 0, (width ? width : 1) * sizeof *table->arrays);
    table->width = width;
    for (size_t i = 0; i < width; i++) {
        Array *array = &table->arrays[i];
        array->form = form_of(&plans[i]);
        array->store = array->form ? PyByteArray_FromStringAndSize("", 0) : PyList_New(0);
        array->nulls = array->store ? PyByteArray_FromStringAndSize("", 0) : NULL;
        if (!array->nulls) {
            table_clear(table);
            return -1;
        }
    }
    return 0;
}

int table_widen(Table *table, size_t rows)
{
    if (table->count < table->room)
        return 0;
    /* Of many columns a few rows are a lot. */
    size_t room = table->room ? 2 * table->room : rows ? rows : 4;
    for (size_t i = 0; i < table->width; i++) {
        Array *array = &table->arrays[i];
        if ((array->form && PyByteArray_Resize(array->store, (Py_ssize_t)(8 * room))) ||
            PyByteArray_Resize(array->nulls, (Py_ssize_t)room))
            return -1;
    }
    table->room = room;
    return 0;
}

/* Refuses a cell that is no number of its column's form, as the Python module's reader does. */
static int no_number(void)
{
    PyErr_SetString(PyExc_ValueError, "no number of the column's array");
    return -1;
}

static int whole_in(const Array *array, const mysql_session_value *value, uint64_t *bits)
{
    bool is_negative = false;
    uint64_t magnitude = 0;
    switch (value->kind) {
    case MYSQL_SESSION_NULL: break;
    case MYSQL_SESSION_INT:
        is_negative = value->int_value < 0;
        magnitude = is_negative ? -(uint64_t)value->int_value : (uint64_t)value->int_value;
        break;
    case MYSQL_SESSION_UINT: magnitude = value->uint_value; break;
    case MYSQL_SESSION_BYTES:
        if (!whole_of(value->bytes, value->len, &is_negative, &magnitude))
            return no_number();
        break;
    default: return no_number();
    }
    uint64_t most = array->form == 'Q' ? (is_negative ? 0 : UINT64_MAX)
                                       : (uint64_t)INT64_MAX + (is_negative ? 1 : 0);
    if (magnitude > most)
        return no_number();
    *bits = is_negative ? -magnitude : magnitude;
    return 0;
}

static int real_in(State *state, const Plan *plan, const mysql_session_value *value, uint64_t *bits)
{
    double number = 0;
    if (value->kind == MYSQL_SESSION_DOUBLE) {
        *bits = value->uint_value;
        return 0;
    }
    if (value->kind == MYSQL_SESSION_NULL ||
        (value->kind == MYSQL_SESSION_BYTES && real_of(value->bytes, value->len, &number))) {
        memcpy(bits, &number, sizeof number);
        return 0;
    }
    PyObject *made = PyErr_Occurred() ? NULL : value_of(state, plan, value);
    if (!made)
        return -1;
    number = PyFloat_AsDouble(made);
    Py_DECREF(made);
    if (number == -1.0 && PyErr_Occurred())
        return -1;
    memcpy(bits, &number, sizeof number);
    return 0;
}

int table_put(State *state, Table *table, const Plan *plans, size_t place,
              const mysql_session_value *value)
{
    Array *array = &table->arrays[place];
    if (array->form) {
        uint64_t bits = 0;
        if (array->form == 'd' ? real_in(state, &plans[place], value, &bits)
                               : whole_in(array, value, &bits))
            return -1;
        char *at = PyByteArray_AsString(array->store);
        memcpy(at + 8 * table->count, &bits, 8);
    } else {
        PyObject *made = value_of(state, &plans[place], value);
        int put = made ? PyList_Append(array->store, made) : -1;
        Py_XDECREF(made);
        if (put)
            return -1;
    }
    PyByteArray_AsString(array->nulls)[table->count] = value->kind == MYSQL_SESSION_NULL;
    return 0;
}

void table_cut(Table *table)
{
    PyObject *kind, *error, *traceback;
    PyErr_Fetch(&kind, &error, &traceback);
    for (size_t i = 0; i < table->width; i++) {
        Array *array = &table->arrays[i];
        Py_ssize_t count = (Py_ssize_t)table->count;
        if (!array->form && PyList_Size(array->store) > count &&
            PyList_SetSlice(array->store, count, PyList_Size(array->store), NULL))
            PyErr_Clear();
    }
    PyErr_Restore(kind, error, traceback);
}

/* A view of a bytearray's first bytes, as numbers of this form. */
static PyObject *view_of(PyObject *store, size_t bytes, const char *form)
{
    if (PyByteArray_Resize(store, (Py_ssize_t)bytes))
        return NULL;
    PyObject *view = PyMemoryView_FromObject(store);
    PyObject *cast = view ? PyObject_CallMethod(view, "cast", "s", form) : NULL;
    Py_XDECREF(view);
    return cast;
}

PyObject *table_arrays(State *state, Table *table)
{
    PyObject *made = PyTuple_New((Py_ssize_t)table->width);
    /* From here on the bytearrays are as long as their rows are many. */
    table->room = table->count;
    for (size_t i = 0; made && i < table->width; i++) {
        Array *array = &table->arrays[i];
        const char form[] = {array->form, 0};
        PyObject *values = array->form ? view_of(array->store, 8 * table->count, form)
                                       : (Py_INCREF(array->store), array->store);
        PyObject *nulls = values ? view_of(array->nulls, table->count, "?") : NULL;
        PyObject *column = nulls ? PyObject_CallFunctionObjArgs(state->column_values, values, nulls,
                                                                NULL)
                                 : NULL;
        Py_XDECREF(values);
        Py_XDECREF(nulls);
        if (column)
            PyTuple_SetItem(made, (Py_ssize_t)i, column);
        else
            Py_CLEAR(made);
    }
    return made;
}

void table_clear(Table *table)
{
    Array *arrays = table->arrays;
    size_t width = table->width;
    memset(table, 0, sizeof *table);
    for (size_t i = 0; arrays && i < width; i++) {
        Py_XDECREF(arrays[i].store);
        Py_XDECREF(arrays[i].nulls);
    }
    PyMem_Free(arrays);
}

int table_traverse(Table *table, visitproc visit, void *arg)
{
    /* Lists alone: the bytearrays are written to by their places, so nobody else may find them. */
    for (size_t i = 0; table->arrays && i < table->width; i++)
        if (!table->arrays[i].form)
            Py_VISIT(table->arrays[i].store);
    return 0;
}
