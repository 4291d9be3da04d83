/* A connection's rows: as values, and as columns. */
#include "connections.h"

/* ---- Rows ------------------------------------------------------------------------------------- */

PyObject *connection_finished_table(Connection *self)
{
    PyObject *arrays = table_arrays(self->state, &self->table);
    PyObject *made =
        arrays ? PyObject_CallFunction(self->state->table, "OnOOiiO()", self->table_columns,
                                       (Py_ssize_t)self->table.count, arrays, Py_False, 0, 0,
                                       self->state->no_bytes)
               : NULL;
    Py_XDECREF(arrays);
    return made;
}

void connection_drop_table(Connection *self)
{
    self->has_table = false;
    table_clear(&self->table);
    Py_CLEAR(self->table_columns);
}

/* Knows how the cells of the row that is shown become values. */
static int know_plans(Connection *self, Values *values)
{
    if (self->is_planned && self->planned_for == (PyObject *)values)
        return 0;
    if (!self->is_planned) {
        size_t width = self->event.columns;
        if (width > self->plan_room) {
            Plan *plans = PyMem_Realloc(self->plans, width * sizeof *plans);
            if (!plans) {
                PyErr_NoMemory();
                return -1;
            }
            self->plans = plans;
            self->plan_room = width;
        }
        self->width = width;
        for (size_t i = 0; i < width; i++) {
            mysql_session_column column;
            memset(&column, 0, sizeof column);
            uint32_t code = mysql_session_connection_column(at(self), i, &column);
            if (code) {
                fail(self->state, code);
                return -1;
            }
            plan_column(&column, &self->plans[i]);
        }
    }
    PyObject *before = self->planned_for;
    Py_INCREF(values);
    self->planned_for = (PyObject *)values;
    plan(self->state, values, self->plans, self->width);
    self->is_planned = true;
    Py_XDECREF(before);
    return 0;
}

/* Has the cells of the row that is shown at hand. Where there was no room for them, they are shown one
 * by one, and those of the next row by one call. */
static int know_cells(Connection *self)
{
    size_t width = self->event.columns;
    if (self->has_cells)
        return 0;
    if (width > self->cell_room) {
        mysql_session_value *cells = PyMem_Realloc(self->cells, width * sizeof *cells);
        if (!cells) {
            PyErr_NoMemory();
            return -1;
        }
        memset(cells, 0, width * sizeof *cells);
        self->cells = cells;
        self->cell_room = width;
    }
    for (size_t i = 0; i < width; i++) {
        uint32_t code = mysql_session_connection_value(at(self), 0, i, &self->cells[i]);
        if (code) {
            fail(self->state, code);
            return -1;
        }
    }
    self->has_cells = true;
    return 0;
}

/* Tells a cell of the row that is shown which is no value of its column's type. */
static void tell_cell(Connection *self, size_t place, size_t number)
{
    PyObject *kind, *error, *traceback;
    if (!is_row_error(&self->plans[place]))
        return;
    PyErr_Fetch(&kind, &error, &traceback);
    if (connection_know_columns(self)) {
        Py_XDECREF(kind);
        Py_XDECREF(error);
        Py_XDECREF(traceback);
        return;
    }
    PyErr_Restore(kind, error, traceback);
    tell_row_error(self->state, &self->plans[place], &self->shown, place, number, false);
}

static PyObject *value_row(Connection *self, size_t number)
{
    PyObject *row = know_cells(self) ? NULL : PyTuple_New((Py_ssize_t)self->width);
    for (size_t i = 0; row && i < self->width; i++) {
        PyObject *made = value_of(self->state, &self->plans[i], &self->cells[i]);
        if (made) {
            PyTuple_SetItem(row, (Py_ssize_t)i, made);
            continue;
        }
        tell_cell(self, i, number);
        Py_CLEAR(row);
    }
    return row;
}

/* Whether the next event is a row: 1 or 0, else an error. */
static int shows_row(Connection *self)
{
    int is = self->copied ? 0 : connection_show(self, true);
    return is <= 0 ? is : self->event.kind == MYSQL_SESSION_EVENT_ROW;
}

/* Puts the rows that stand into a list, up to the next other event. */
static int rows_into(Connection *self, PyObject *list, Values *values)
{
    if (connection_settle(self, true))
        return -1;
    if (self->kept) {
        PyObject *kept = PyList_GetSlice(self->kept, self->kept_at, PyList_Size(self->kept));
        if (!kept)
            return -1;
        int wrong = PyList_SetSlice(list, PyList_Size(list), PyList_Size(list), kept);
        bool has_some = PyList_Size(kept) > 0;
        Py_DECREF(kept);
        if (wrong)
            return -1;
        Py_CLEAR(self->kept);
        if (has_some)
            return 0;
    }
    for (size_t number = 0;; number++) {
        int is = shows_row(self);
        if (is < 0 && number) {
            PyErr_Clear(); /* the next call tells it */
            return 0;
        }
        if (is <= 0)
            return is;
        if (number % 4096 == 4095 && PyErr_CheckSignals())
            return -1;
        if (values && know_plans(self, values))
            return -1;
        PyObject *row = values            ? value_row(self, number)
                        : know_cells(self) ? NULL
                                           : connection_cells(self, self->event.columns);
        int wrong = row ? PyList_Append(list, row) : -1;
        Py_XDECREF(row);
        if (wrong)
            return -1;
        self->is_taken = false;
    }
}

PyObject *connection_rows(PyObject *it, PyObject *args)
{
    Connection *self = (Connection *)it;
    PyObject *list, *given;
    Values *values = NULL;
    if (!PyArg_ParseTuple(args, "O!O", &PyList_Type, &list, &given) ||
        (given != Py_None && values_in(self->state, given, &values)) || begin((Object *)self))
        return NULL;
    int wrong = at(self)->at ? rows_into(self, list, values)
                             : (fail(self->state, MYSQL_SESSION_EMPTY_HANDLE), -1);
    self->busy = false;
    if (wrong)
        return NULL;
    Py_RETURN_NONE;
}

/* Puts the rows that stand into a table, which goes on where it was. */
static int grow_table(Connection *self, Values *values)
{
    for (size_t number = 0;; number++) {
        int is = shows_row(self);
        if (is < 0 && number) {
            PyErr_Clear();
            return 0;
        }
        if (is <= 0)
            return is;
        if ((number % 4096 == 4095 && PyErr_CheckSignals()) || know_plans(self, values))
            return -1;
        if (!self->has_table) {
            if (connection_know_columns(self) ||
                table_begin(self->state, &self->table, self->plans, self->width))
                return -1;
            Py_INCREF(self->shown.columns);
            self->table_columns = self->shown.columns;
            self->has_table = true;
        }
        if (table_widen(&self->table, 0) || know_cells(self))
            return -1;
        for (size_t i = 0; i < self->width; i++) {
            if (table_put(self->state, &self->table, self->plans, i, &self->cells[i])) {
                tell_cell(self, i, number);
                return -1;
            }
        }
        self->table.count++;
        self->is_taken = false;
    }
}

static int table_into(Connection *self, PyObject *list, Values *values)
{
    if (connection_settle(self, false))
        return -1;
    if (self->kept && PyList_Check(self->kept)) {
        if (self->kept_at < PyList_Size(self->kept)) {
            PyErr_SetString(PyExc_RuntimeError,
                            "rows wait that a failed call had read: `take_rows` gives them");
            return -1;
        }
        Py_CLEAR(self->kept);
    }
    if (!self->kept) {
        int wrong = grow_table(self, values);
        if (wrong) {
            if (!self->has_table)
                return -1;
            table_cut(&self->table);
            if (!self->table.count)
                connection_drop_table(self);
            return -1;
        }
        if (!self->has_table)
            return 0;
        self->kept = connection_finished_table(self);
        if (!self->kept)
            return -1;
        connection_drop_table(self);
    }
    if (PyList_Append(list, self->kept))
        return -1;
    Py_CLEAR(self->kept);
    return 0;
}

PyObject *connection_table(PyObject *it, PyObject *args)
{
    Connection *self = (Connection *)it;
    PyObject *list, *given;
    Values *values = NULL;
    if (!PyArg_ParseTuple(args, "O!O", &PyList_Type, &list, &given) ||
        values_in(self->state, given, &values) || begin((Object *)self))
        return NULL;
    int wrong = at(self)->at ? table_into(self, list, values)
                             : (fail(self->state, MYSQL_SESSION_EMPTY_HANDLE), -1);
    self->busy = false;
    if (wrong)
        return NULL;
    Py_RETURN_NONE;
}

/* Keeps what a call put into a list and couldn't give: rows, or one table. */
PyObject *connection_keep(PyObject *it, PyObject *args)
{
    Connection *self = (Connection *)it;
    PyObject *list;
    int is_table;
    if (!PyArg_ParseTuple(args, "O!i", &PyList_Type, &list, &is_table))
        return NULL;
    if (check((Object *)self)) {
        PyErr_Clear();
    } else if (!self->kept && PyList_Size(list) > 0) {
        PyObject *kept = is_table ? PyList_GetItem(list, 0) : list;
        Py_INCREF(kept);
        self->kept = kept;
        self->kept_at = 0;
    }
    Py_RETURN_NONE;
}
