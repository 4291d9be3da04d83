//! The values of an event: those of executions, the cells of rows, attributes.
//!
//! All that is shown borrows from the connection, as the event does.

use crate::codes::{certain, in_range};
use crate::connection::ConnectionHandle;
use crate::conversions::{cell_as, row_as, FromRow, FromValue, RowError};
use crate::iter::{goes_over, Iter};
use crate::raw;
use crate::readable::Readable;
use crate::results::{name_of, place_of, Column};
use crate::values::Value;
use std::fmt;

/// A value of the current event, by its row and its position.
fn value_of(handle: &ConnectionHandle, row: usize, place: usize) -> Option<raw::Value> {
    let mut shown = raw::Value::default();
    // SAFETY: "Handles": by `ConnectionHandle::get`; "Results go out": a local.
    let code = unsafe { raw::mysql_session_connection_value(handle.get(), row, place, &mut shown) };
    in_range(code).then_some(shown)
}

/// Whether servers read a value of the current event each their way, and the bytes of the command from
/// the first such cell on.
fn unclear_at(handle: &ConnectionHandle, row: usize, place: usize) -> (bool, &[u8]) {
    let (mut unclear, mut cells) = (false, raw::Text::default());
    // SAFETY: "Handles": by `ConnectionHandle::get`; "Results go out": locals.
    let code = unsafe {
        raw::mysql_session_connection_unclear(
            handle.get(),
            row,
            place,
            &mut unclear,
            &mut cells.at,
            &mut cells.len,
        )
    };
    if !in_range(code) {
        return (false, &[]);
    }
    // SAFETY: the bytes are "good until the next call on it" that takes its `&mut`.
    (unclear, unsafe { cells.bytes() })
}

/// A column of the current event, by its number.
pub(crate) fn column_of(handle: &ConnectionHandle, number: usize) -> Option<Column<'_>> {
    let mut shown = raw::Column::default();
    // SAFETY: "Handles": by `ConnectionHandle::get`; "Results go out": a local.
    let code = unsafe { raw::mysql_session_connection_column(handle.get(), number, &mut shown) };
    // SAFETY: the texts are "good until the next call on it" that takes its `&mut`.
    in_range(code).then(|| unsafe { Column::of(&shown) })
}

/// What the parameters of an execution hold.
#[derive(Clone, Copy)]
pub struct Values<'a> {
    pub(crate) handle: &'a ConnectionHandle,
    pub(crate) len: usize,
}

impl<'a> Values<'a> {
    /// How many there are.
    pub fn len(&self) -> usize {
        self.len
    }

    /// Whether there are none.
    pub fn is_empty(&self) -> bool {
        self.len == 0
    }

    /// The value at a position, from 0.
    pub fn get(&self, place: usize) -> Option<Value<'a>> {
        // SAFETY: the bytes are "good until the next call on it" that takes its `&mut`.
        value_of(self.handle, 0, place).map(|shown| unsafe { Value::of(shown) })
    }

    /// Whether servers read the value of this number each their way, from 0; behind the values are
    /// the attributes. None of a client library's is so: each server may execute another value.
    pub fn is_unclear(&self, place: usize) -> bool {
        unclear_at(self.handle, 0, place).0
    }

    /// The bytes of the command from the first such cell on; of long data alone there are none.
    pub fn unclear_cells(&self) -> &'a [u8] {
        unclear_at(self.handle, 0, 0).1
    }

    /// The values.
    pub fn iter(&self) -> Iter<Values<'a>, Value<'a>> {
        Iter::new(*self, self.len, |values, place| {
            values.get(place).expect("each place has a value")
        })
    }
}

goes_over!(Values, Value<'a>);

impl fmt::Debug for Values<'_> {
    fn fmt(&self, formatter: &mut fmt::Formatter<'_>) -> fmt::Result {
        formatter.debug_list().entries(self.iter()).finish()
    }
}

/// A row of a reply.
#[derive(Clone, Copy)]
pub struct EventRow<'a> {
    pub(crate) handle: &'a ConnectionHandle,
    pub(crate) len: usize,
    /// The first cells, where they were shown with the row.
    pub(crate) cells: &'a [raw::Value],
}

impl<'a> EventRow<'a> {
    /// How many cells there are.
    #[inline]
    pub fn len(&self) -> usize {
        self.len
    }

    /// Whether there are none.
    pub fn is_empty(&self) -> bool {
        self.len == 0
    }

    /// What the cell of a number holds, from 0: bytes by text, values in binary.
    #[inline]
    pub fn cell(&self, number: usize) -> Option<Value<'a>> {
        let shown = match self.cells.get(number) {
            Some(cell) => *cell,
            None => value_of(self.handle, 0, number)?,
        };
        // SAFETY: the bytes are "good until the next call on it" that takes its `&mut`.
        Some(unsafe { Value::of(shown) })
    }

    /// The value in the cell of a number, from 0, as a type of Rust.
    ///
    /// # Errors
    /// [`RowError::NoColumn`]; [`RowError::OtherType`] where the value doesn't convert.
    pub fn get<T: FromValue<'a>>(&self, number: usize) -> Result<T, RowError> {
        cell_as(self.cell(number), number, self.len, |_| self.name(number))
    }

    /// The value in the first column of a name, as a type of Rust. Each call looks through the names.
    ///
    /// # Errors
    /// [`RowError::NoName`]; [`RowError::OtherType`] where the value doesn't convert.
    pub fn get_named<T: FromValue<'a>>(&self, name: impl AsRef<[u8]>) -> Result<T, RowError> {
        self.get(place_of(self.columns(), name.as_ref())?)
    }

    /// The value in the cell of a number, as its column's type says. It is the same for a reply to a
    /// query and to an execution. [`ColumnType::value`](crate::ColumnType::value) has the types.
    pub fn value(&self, number: usize) -> Option<Value<'a>> {
        let cell = self.cell(number)?;
        Some(self.column(number)?.column_type.value(cell))
    }

    /// The values of all cells, as [`EventRow::value`] has them.
    pub fn values(&self) -> Iter<EventRow<'a>, Value<'a>> {
        Iter::new(*self, self.len, |row, number| {
            row.value(number).expect("each cell has a value")
        })
    }

    /// The whole row as a tuple, or another type that rows convert to.
    ///
    /// # Errors
    /// [`RowError::OtherWidth`], then [`RowError::OtherType`] of the first cell that doesn't
    /// convert.
    pub fn into_tuple<T: FromRow<'a>>(self) -> Result<T, RowError> {
        row_as(
            |number| self.cell(number),
            self.len,
            |number| self.name(number),
        )
    }

    /// The columns of the cells.
    pub fn columns(&self) -> Iter<EventRow<'a>, Column<'a>> {
        Iter::new(*self, self.len, |row, number| {
            row.column(number).expect("each cell has a column")
        })
    }

    /// The number of the first column of this name, from 0.
    pub fn column_named(&self, name: impl AsRef<[u8]>) -> Option<usize> {
        self.columns()
            .position(|column| column.name == name.as_ref())
    }

    /// The name of a column, as an error tells it.
    fn name(&self, number: usize) -> String {
        name_of(self.column(number))
    }

    /// The column of a cell.
    pub fn column(&self, number: usize) -> Option<Column<'a>> {
        column_of(self.handle, number)
    }

    /// The cells.
    pub fn iter(&self) -> Iter<EventRow<'a>, Value<'a>> {
        Iter::new(*self, self.len, |row, number| {
            row.cell(number).expect("each cell has a value")
        })
    }
}

goes_over!(EventRow, Value<'a>);

impl fmt::Debug for EventRow<'_> {
    fn fmt(&self, formatter: &mut fmt::Formatter<'_>) -> fmt::Result {
        formatter.debug_list().entries(self.iter()).finish()
    }
}

/// What a parameter holds in a row of a bulk execution.
#[derive(Clone, Copy, Debug, PartialEq)]
pub enum BulkValue<'a> {
    /// A value, or NULL.
    Value(Value<'a>),
    /// The default of the column.
    Default,
    /// Nothing: the column stays as it is.
    Ignore,
}

/// The rows of a bulk execution.
#[derive(Clone, Copy)]
pub struct BulkRows<'a> {
    pub(crate) handle: &'a ConnectionHandle,
    pub(crate) len: usize,
    pub(crate) width: usize,
}

impl<'a> BulkRows<'a> {
    /// How many there are.
    pub fn len(&self) -> usize {
        self.len
    }

    /// Whether there are none.
    pub fn is_empty(&self) -> bool {
        self.len == 0
    }

    /// The row of a number, from 0.
    pub fn row(&self, number: usize) -> Option<BulkRow<'a>> {
        (number < self.len).then_some(BulkRow {
            handle: self.handle,
            row: number,
            width: self.width,
        })
    }

    /// The bytes of the command from the first cell on that servers read each their way.
    pub fn unclear_cells(&self) -> &'a [u8] {
        unclear_at(self.handle, 0, 0).1
    }

    /// The rows.
    pub fn iter(&self) -> Iter<BulkRows<'a>, BulkRow<'a>> {
        Iter::new(*self, self.len, |rows, row| BulkRow {
            handle: rows.handle,
            row,
            width: rows.width,
        })
    }
}

goes_over!(BulkRows, BulkRow<'a>);

impl fmt::Debug for BulkRows<'_> {
    fn fmt(&self, formatter: &mut fmt::Formatter<'_>) -> fmt::Result {
        formatter.debug_list().entries(self.iter()).finish()
    }
}

/// A row of a bulk execution.
#[derive(Clone, Copy)]
pub struct BulkRow<'a> {
    handle: &'a ConnectionHandle,
    row: usize,
    width: usize,
}

impl<'a> BulkRow<'a> {
    /// How many values there are.
    pub fn len(&self) -> usize {
        self.width
    }

    /// Whether there are none.
    pub fn is_empty(&self) -> bool {
        self.width == 0
    }

    /// What the parameter at a position holds, from 0.
    pub fn get(&self, place: usize) -> Option<BulkValue<'a>> {
        let shown = value_of(self.handle, self.row, place)?;
        Some(match shown.kind {
            8 => BulkValue::Default,
            9 => BulkValue::Ignore,
            // SAFETY: the bytes are "good until the next call on it" that takes its `&mut`.
            _ => BulkValue::Value(unsafe { Value::of(shown) }),
        })
    }

    /// Whether servers read the value of this number each their way, from 0. None of a client
    /// library's is so: each server may execute another value.
    pub fn is_unclear(&self, place: usize) -> bool {
        unclear_at(self.handle, self.row, place).0
    }

    /// What the parameters hold.
    pub fn iter(&self) -> Iter<BulkRow<'a>, BulkValue<'a>> {
        Iter::new(*self, self.width, |row, place| {
            row.get(place).expect("each place has a value")
        })
    }
}

goes_over!(BulkRow, BulkValue<'a>);

impl fmt::Debug for BulkRow<'_> {
    fn fmt(&self, formatter: &mut fmt::Formatter<'_>) -> fmt::Result {
        formatter.debug_list().entries(self.iter()).finish()
    }
}

/// The attributes of a login, of a query or of an execution: names and values, in their order. Two
/// may have one name. The values of a login's are bytes.
#[derive(Clone, Copy)]
pub struct Attributes<'a> {
    pub(crate) handle: &'a ConnectionHandle,
    pub(crate) len: usize,
}

impl<'a> Attributes<'a> {
    /// How many there are.
    pub fn len(&self) -> usize {
        self.len
    }

    /// Whether there are none.
    pub fn is_empty(&self) -> bool {
        self.len == 0
    }

    /// The value of the first attribute of a name.
    pub fn named(&self, name: impl AsRef<[u8]>) -> Option<Value<'a>> {
        let mut attributes = self.iter();
        let found = attributes.find(|(found, _)| *found == name.as_ref());
        found.map(|(_, value)| value)
    }

    /// The attributes.
    pub fn iter(&self) -> Iter<Attributes<'a>, (&'a [u8], Value<'a>)> {
        Iter::new(*self, self.len, |attributes, number| {
            attribute_of(attributes.handle, number)
        })
    }
}

goes_over!(Attributes, (&'a [u8], Value<'a>));

/// The attribute of a number below that of the attributes.
fn attribute_of(handle: &ConnectionHandle, number: usize) -> (&[u8], Value<'_>) {
    let (mut name, mut shown) = (raw::Text::default(), raw::Value::default());
    // SAFETY: "Handles": by `ConnectionHandle::get`; "Results go out": different locals and fields.
    certain(unsafe {
        raw::mysql_session_connection_attribute(
            handle.get(),
            number,
            &mut name.at,
            &mut name.len,
            &mut shown,
        )
    });
    // SAFETY: the bytes are "good until the next call on it" that takes its `&mut`.
    unsafe { (name.bytes(), Value::of(shown)) }
}

impl fmt::Debug for Attributes<'_> {
    fn fmt(&self, formatter: &mut fmt::Formatter<'_>) -> fmt::Result {
        let shown = self.iter().map(|(name, value)| (Readable(name), value));
        formatter.debug_map().entries(shown).finish()
    }
}
