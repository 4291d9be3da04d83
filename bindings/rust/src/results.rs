//! Results of a reply: OK packets, rows, prepared statements, errors, requests for files.
//!
//! All that is shown of a result borrows from the reader that has it. Its bytes stay as they are
//! while results, states, cells and columns are looked at. Any other call takes the reader's
//! `&mut self` or the reader itself, and so ends the borrow.

use crate::codes::{answer, certain, in_range, Code, Error};
use crate::conversions::{cell_as, row_as, FromRow, FromValue, RowError};
use crate::handle::Handle;
use crate::iter::{goes_over, Iter};
use crate::raw;
use crate::readable::{debug_with_texts, Readable};
use crate::values::Value;
use std::borrow::Cow;
use std::error;
use std::fmt;
use std::iter::FusedIterator;

/// SERVER_MORE_RESULTS_EXISTS: the bit of a status by which another result follows.
const MORE_RESULTS: u16 = 8;

/// An OK packet, as far as it is read and written.
#[derive(Clone, Copy, Default, PartialEq, Eq, Hash)]
pub struct OkPacket<'a> {
    /// How many rows were changed.
    pub affected_rows: u64,
    /// The number that was generated for a row.
    pub last_insert_id: u64,
    /// The server's status, in bits.
    pub status: u16,
    /// How many warnings there are.
    pub warnings: u16,
    /// What the server tells about it.
    pub info: &'a [u8],
    /// The changes of the session's state, as the packet has them. None are written.
    pub state_changes: &'a [u8],
}

debug_with_texts!(OkPacket: affected_rows, last_insert_id, status, warnings; info, state_changes);

/// An error of the server. Its text is as the server's own clients print it:
///
/// ```
/// use mysql_session::ErrorPacket;
///
/// let error = ErrorPacket { code: 1064, state: Some(*b"42000"), message: b"a bad query" };
/// assert_eq!(error.to_string(), "error 1064 (42000): a bad query");
/// ```
#[derive(Clone, Copy, Default, PartialEq, Eq, Hash)]
pub struct ErrorPacket<'a> {
    /// The error's number.
    pub code: u16,
    /// The SQL state, or none.
    pub state: Option<[u8; 5]>,
    /// The message.
    pub message: &'a [u8],
}

impl fmt::Display for ErrorPacket<'_> {
    fn fmt(&self, formatter: &mut fmt::Formatter<'_>) -> fmt::Result {
        write!(formatter, "error {}", self.code)?;
        if let Some(state) = &self.state {
            write!(formatter, " ({})", state.escape_ascii())?;
        }
        write!(formatter, ": {}", String::from_utf8_lossy(self.message))
    }
}

impl error::Error for ErrorPacket<'_> {}

impl fmt::Debug for ErrorPacket<'_> {
    fn fmt(&self, formatter: &mut fmt::Formatter<'_>) -> fmt::Result {
        let state = self.state.as_ref().map(|state| Readable(state));
        formatter
            .debug_struct("ErrorPacket")
            .field("code", &self.code)
            .field("state", &state)
            .field("message", &Readable(self.message))
            .finish()
    }
}

/// A result of a reply.
#[derive(Clone, Copy)]
pub enum ReplyResult<'a> {
    /// An OK packet.
    Ok(Done<'a>),
    /// Rows.
    Rows(Rows<'a>),
    /// A prepared statement, which ends the reply.
    Prepared(Prepared<'a>),
    /// An error, which ends the reply.
    Error(ErrorPacket<'a>),
    /// The server wants the file of this name, and ends the reply.
    File(&'a [u8]),
    /// Rows whose columns the server left out, by MySQL's optional metadata.
    RawRows(RawRows<'a>),
}

/// Rows whose columns aren't known. Their bytes aren't shown.
#[derive(Clone, Copy, Debug)]
pub struct RawRows<'a> {
    /// How many there are.
    pub count: usize,
    /// What the packet tells that ended them, where it came.
    pub end: Option<Done<'a>>,
}

impl fmt::Debug for ReplyResult<'_> {
    fn fmt(&self, formatter: &mut fmt::Formatter<'_>) -> fmt::Result {
        match self {
            ReplyResult::Ok(done) => formatter.debug_tuple("Ok").field(done).finish(),
            ReplyResult::Rows(rows) => formatter.debug_tuple("Rows").field(rows).finish(),
            ReplyResult::Prepared(it) => formatter.debug_tuple("Prepared").field(it).finish(),
            ReplyResult::Error(error) => formatter.debug_tuple("Error").field(error).finish(),
            ReplyResult::File(name) => formatter
                .debug_tuple("File")
                .field(&Readable(name))
                .finish(),
            ReplyResult::RawRows(rows) => formatter.debug_tuple("RawRows").field(rows).finish(),
        }
    }
}

impl<'a> ReplyResult<'a> {
    /// Whether the reply ends with this result: so a client that waits for the server knows when to
    /// stop.
    pub fn is_last(&self) -> bool {
        match self {
            ReplyResult::Ok(done) => !done.has_more(),
            ReplyResult::Rows(rows) => rows.end().is_some_and(|done| !done.has_more()),
            ReplyResult::RawRows(rows) => rows.end.is_some_and(|done| !done.has_more()),
            ReplyResult::Prepared(_) | ReplyResult::Error(_) | ReplyResult::File(_) => true,
        }
    }
}

/// The results that a reader or an ended reply has.
pub(crate) fn results_of(handle: &Handle) -> Result<Vec<ReplyResult<'_>>, Error> {
    let mut count = 0;
    // SAFETY: "Handles": by `Handle::get`; "Results go out": a local.
    certain(unsafe { raw::mysql_session_reply_results(handle.get(), &mut count) });
    (0..count)
        .map(|number| result_of(Number { handle, number }))
        .collect()
}

/// The result of a number below that of the results.
fn result_of(of: Number<'_>) -> Result<ReplyResult<'_>, Error> {
    let mut shown = raw::ReplyResult::default();
    // SAFETY: "Handles": by `Handle::get`; "Results go out": a local.
    answer(unsafe { raw::mysql_session_reply_result(of.handle.get(), of.number, &mut shown) })?;
    // SAFETY: "Its texts are good until the next call on the handle other than" those that look at
    // results, and a shared reader has no others.
    let (text, state_changes) = unsafe { (shown.text.bytes(), shown.changes.bytes()) };
    let packet = OkPacket {
        affected_rows: shown.affected_rows,
        last_insert_id: shown.last_insert_id,
        status: shown.status,
        warnings: shown.warnings,
        info: text,
        state_changes,
    };
    Ok(match shown.kind {
        0 => ReplyResult::Ok(Done { of, packet }),
        1 => ReplyResult::Rows(rows(of, &shown, packet)),
        2 => ReplyResult::Prepared(prepared(of, &shown)),
        3 => ReplyResult::Error(error_packet(&shown, text)),
        4 => ReplyResult::File(text),
        5 => ReplyResult::RawRows(RawRows {
            count: shown.rows,
            end: shown.ended.then_some(Done { of, packet }),
        }),
        kind => panic!("the header has no kind {kind} of a result"),
    })
}

fn error_packet<'a>(shown: &raw::ReplyResult, message: &'a [u8]) -> ErrorPacket<'a> {
    let state = (shown.state_len != 0).then_some(shown.state);
    ErrorPacket {
        code: shown.error_code,
        state,
        message,
    }
}

fn rows<'a>(of: Number<'a>, shown: &raw::ReplyResult, packet: OkPacket<'a>) -> Rows<'a> {
    Rows {
        of,
        columns: shown.columns,
        rows: shown.rows,
        end: shown.ended.then_some(Done { of, packet }),
    }
}

fn prepared<'a>(of: Number<'a>, shown: &raw::ReplyResult) -> Prepared<'a> {
    Prepared {
        of,
        statement: shown.statement,
        warnings: shown.warnings,
        params: shown.params,
        columns: shown.columns,
    }
}

/// A result, by the handle that has it and its number.
#[derive(Clone, Copy)]
struct Number<'a> {
    handle: &'a Handle,
    number: usize,
}

impl fmt::Debug for Number<'_> {
    fn fmt(&self, formatter: &mut fmt::Formatter<'_>) -> fmt::Result {
        self.number.fmt(formatter)
    }
}

/// An OK packet that was read, or the packet that ended rows.
#[derive(Clone, Copy, Debug)]
pub struct Done<'a> {
    of: Number<'a>,
    /// What the packet says.
    pub packet: OkPacket<'a>,
}

/// A change of the session's state that a server tells of.
#[derive(Clone, Copy, PartialEq, Eq, Hash)]
pub struct SessionState<'a> {
    /// The number of the protocol's type of Session State Information, as 0 for a system variable.
    pub kind: u8,
    /// The bytes that this type has.
    pub data: &'a [u8],
}

debug_with_texts!(SessionState: kind; data);

impl<'a> Done<'a> {
    /// Whether another result follows.
    pub fn has_more(&self) -> bool {
        self.packet.status & MORE_RESULTS != 0
    }

    /// The changes of the session's state that the packet tells of, in their order. Each is read as
    /// it is asked for, so that all of them take one pass over the packet.
    ///
    /// ```
    /// use mysql_session::{capability, ReplyKind, ReplyReader, ReplyResult, SessionState};
    ///
    /// # fn main() -> Result<(), mysql_session::Error> {
    /// let capabilities = capability::CLIENT_PROTOCOL_41 | capability::CLIENT_SESSION_TRACK;
    /// let mut reader = ReplyReader::new(ReplyKind::Query, capabilities, 1, 1 << 24)?;
    /// reader.feed(b"\x10\0\0\x01\0\0\0\x02\x40\0\0\x02hi\x05\x01\x03\x02db")?;
    /// let results = reader.take()?;
    /// let [ReplyResult::Ok(done)] = &results[..] else {
    ///     panic!("an OK packet is the only result");
    /// };
    /// let states = done.states().collect::<Result<Vec<_>, _>>()?;
    /// assert_eq!(states, [SessionState { kind: 1, data: b"\x02db" }]);
    /// # Ok(())
    /// # }
    /// ```
    ///
    /// They can't outlive a call that may free the packet:
    ///
    /// ```compile_fail,E0499
    /// # use mysql_session::{ReplyKind, ReplyReader, ReplyResult};
    /// # let mut reader = ReplyReader::new(ReplyKind::Query, 512, 1, 1 << 24).unwrap();
    /// let ReplyResult::Ok(done) = reader.take().unwrap()[0] else { return };
    /// let mut states = done.states();
    /// reader.take();
    /// states.next();
    /// ```
    ///
    /// # Errors
    /// [`Code::BAD_PACKET`] in the place of the first that can't be read, and none behind it.
    pub fn states(&self) -> SessionStates<'a> {
        SessionStates {
            of: Some(self.of),
            position: 0,
        }
    }
}

/// The changes of the session's state that an OK packet tells of, as [`Done::states`] gives them.
#[derive(Clone, Debug)]
pub struct SessionStates<'a> {
    /// The result; none behind the last change and behind an error.
    of: Option<Number<'a>>,
    /// Where the next change begins, as the library tells.
    position: usize,
}

impl<'a> Iterator for SessionStates<'a> {
    type Item = Result<SessionState<'a>, Error>;

    fn next(&mut self) -> Option<Self::Item> {
        let Number { handle, number } = self.of?;
        let (mut kind, mut data) = (0, raw::Text::default());
        // SAFETY: "Handles": by `Handle::get`; "Results go out": a field of this object, and
        // different locals and fields of these.
        let code = answer(unsafe {
            raw::mysql_session_reply_state(
                handle.get(),
                number,
                &mut self.position,
                &mut kind,
                &mut data.at,
                &mut data.len,
            )
        });
        if let Err(code) = code {
            self.of = None;
            return (code != Code::OUT_OF_RANGE).then(|| Err(code.into()));
        }
        // SAFETY: the bytes "are good as a result's text is".
        let data = unsafe { data.bytes() };
        Some(Ok(SessionState { kind, data }))
    }
}

impl FusedIterator for SessionStates<'_> {}

/// A result set's rows, as far as they came and weren't taken before.
#[derive(Clone, Copy, Debug)]
pub struct Rows<'a> {
    of: Number<'a>,
    columns: usize,
    rows: usize,
    end: Option<Done<'a>>,
}

impl<'a> Rows<'a> {
    /// The packet that ended the rows; none where they go on, or where an error ended them.
    pub fn end(&self) -> Option<Done<'a>> {
        self.end
    }

    /// How many rows there are.
    pub fn len(&self) -> usize {
        self.rows
    }

    /// Whether there are no rows.
    pub fn is_empty(&self) -> bool {
        self.rows == 0
    }

    /// The row of a number, from 0; none where there is no such row.
    pub fn row(&self, number: usize) -> Option<Row<'a>> {
        (number < self.rows).then_some(Row {
            of: self.of,
            columns: self.columns,
            number,
        })
    }

    /// The rows.
    pub fn iter(&self) -> Iter<Rows<'a>, Row<'a>> {
        Iter::new(*self, self.rows, |rows, number| Row {
            of: rows.of,
            columns: rows.columns,
            number,
        })
    }

    /// The columns.
    pub fn columns(&self) -> Iter<Rows<'a>, Column<'a>> {
        Iter::new(*self, self.columns, |rows, column| {
            shown_column(rows.of, column, raw::mysql_session_reply_column)
        })
    }

    /// The number of the first column of this name, from 0.
    pub fn column_named(&self, name: impl AsRef<[u8]>) -> Option<usize> {
        self.columns()
            .position(|column| column.name == name.as_ref())
    }
}

goes_over!(Rows, Row<'a>);

/// A row of a result set.
#[derive(Clone, Copy)]
pub struct Row<'a> {
    of: Number<'a>,
    columns: usize,
    number: usize,
}

impl<'a> Row<'a> {
    /// How many cells the row has: as many as the result set has columns.
    pub fn len(&self) -> usize {
        self.columns
    }

    /// Whether the row has no cells.
    pub fn is_empty(&self) -> bool {
        self.columns == 0
    }

    /// The value in a cell, by its column's number from 0; none where there is no such column.
    ///
    /// In the reply to a query each is NULL or bytes, in that to an execution it has its type.
    pub fn cell(&self, column: usize) -> Option<Value<'a>> {
        let mut shown = raw::Value::default();
        let Number { handle, number } = self.of;
        // SAFETY: "Handles": by `Handle::get`; "Results go out": a local.
        let found = in_range(unsafe {
            raw::mysql_session_reply_cell(handle.get(), number, self.number, column, &mut shown)
        });
        // SAFETY: its bytes "are good as a result's text is".
        found.then(|| unsafe { Value::of(shown) })
    }

    /// The value in a cell, by its column's number from 0, as a type of Rust.
    ///
    /// # Errors
    /// [`RowError::NoColumn`]; [`RowError::OtherType`] where the value doesn't convert.
    pub fn get<T: FromValue<'a>>(&self, column: usize) -> Result<T, RowError> {
        cell_as(self.cell(column), column, self.columns, |_| {
            self.name(column)
        })
    }

    /// The value in the first column of a name, as a type of Rust. Each call looks through the names:
    /// of many rows take the number once, by [`Rows::column_named`].
    ///
    /// # Errors
    /// [`RowError::NoName`]; [`RowError::OtherType`] where the value doesn't convert.
    pub fn get_named<T: FromValue<'a>>(&self, name: impl AsRef<[u8]>) -> Result<T, RowError> {
        self.get(place_of(self.columns(), name.as_ref())?)
    }

    /// The value in a cell, as its column's type says. It is the same for a reply to a query and to an
    /// execution. [`ColumnType::value`] has the types.
    pub fn value(&self, column: usize) -> Option<Value<'a>> {
        let cell = self.cell(column)?;
        Some(self.column(column)?.column_type.value(cell))
    }

    /// The values of all cells, as [`Row::value`] has them.
    pub fn values(&self) -> Iter<Row<'a>, Value<'a>> {
        Iter::new(*self, self.columns, |row, column| {
            row.value(column)
                .expect("a column below the number of columns has a cell")
        })
    }

    /// The column of a cell.
    pub fn column(&self, column: usize) -> Option<Column<'a>> {
        let show = raw::mysql_session_reply_column;
        (column < self.columns).then(|| shown_column(self.of, column, show))
    }

    /// The columns of the cells.
    pub fn columns(&self) -> Iter<Row<'a>, Column<'a>> {
        Iter::new(*self, self.columns, |row, column| {
            shown_column(row.of, column, raw::mysql_session_reply_column)
        })
    }

    /// The name of a column, as an error tells it.
    fn name(&self, column: usize) -> String {
        name_of(self.column(column))
    }

    /// The whole row as a tuple, or another type that rows convert to.
    ///
    /// ```
    /// use mysql_session::{ReplyKind, ReplyReader, ReplyResult, RowError};
    ///
    /// # fn main() -> Result<(), Box<dyn std::error::Error>> {
    /// # use mysql_session::{capability, Bytes, ColumnType, ParameterSets, ReplyWriter};
    /// # let capabilities = capability::CLIENT_PROTOCOL_41;
    /// # let (mut sets, mut bytes) = (ParameterSets::new()?, Bytes::new()?);
    /// # sets.add(&[7.into(), "tea".into()])?;
    /// # sets.add(&[8.into(), None::<&str>.into()])?;
    /// # let mut writer = ReplyWriter::new(ReplyKind::Query, capabilities, 1, 1 << 24)?;
    /// # for name in [b"id", b"no"] {
    /// #     writer.column(name, ColumnType { kind: 253, charset: 45, ..ColumnType::default() })?;
    /// # }
    /// # writer.rows(&mut bytes)?;
    /// # writer.row(&sets, 0, &mut bytes)?;
    /// # writer.row(&sets, 1, &mut bytes)?;
    /// # writer.end_rows(0, 0, false, &mut bytes)?;
    /// let mut reader = ReplyReader::new(ReplyKind::Query, capabilities, 1, 1 << 24)?;
    /// reader.feed(&bytes)?;
    /// for result in reader.take()? {
    ///     let ReplyResult::Rows(rows) = result else { continue };
    ///     let found = rows.iter().map(|row| row.into_tuple::<(u32, Option<&str>)>());
    ///     let found = found.collect::<Result<Vec<_>, RowError>>()?;
    ///     assert_eq!(found, [(7, Some("tea")), (8, None)]);
    /// }
    /// # Ok(())
    /// # }
    /// ```
    ///
    /// # Errors
    /// [`RowError::OtherWidth`], then [`RowError::OtherType`] of the first cell that doesn't
    /// convert.
    pub fn into_tuple<T: FromRow<'a>>(self) -> Result<T, RowError> {
        row_as(
            |column| self.cell(column),
            self.columns,
            |column| self.name(column),
        )
    }

    /// The cells, column by column.
    pub fn iter(&self) -> Iter<Row<'a>, Value<'a>> {
        Iter::new(*self, self.columns, |row, column| {
            row.cell(column)
                .expect("a column below the number of columns has a cell")
        })
    }
}

goes_over!(Row, Value<'a>);

/// The name of a column, as an error tells it.
pub(crate) fn name_of(column: Option<Column<'_>>) -> String {
    column.map_or_else(String::new, |column| column.name_text().into_owned())
}

/// The number of the first column of a name.
pub(crate) fn place_of<'a>(
    mut columns: impl Iterator<Item = Column<'a>>,
    name: &[u8],
) -> Result<usize, RowError> {
    let found = columns.position(|column| column.name == name);
    found.ok_or_else(|| RowError::NoName {
        name: String::from_utf8_lossy(name).into_owned(),
    })
}

impl fmt::Debug for Row<'_> {
    fn fmt(&self, formatter: &mut fmt::Formatter<'_>) -> fmt::Result {
        formatter.debug_list().entries(self.iter()).finish()
    }
}

/// A prepared statement.
#[derive(Clone, Copy, Debug)]
pub struct Prepared<'a> {
    of: Number<'a>,
    /// The statement's id.
    pub statement: u32,
    /// How many warnings there are.
    pub warnings: u16,
    params: usize,
    columns: usize,
}

impl<'a> Prepared<'a> {
    /// The parameters.
    pub fn params(&self) -> Iter<Prepared<'a>, Column<'a>> {
        Iter::new(*self, self.params, |prepared, param| {
            shown_column(prepared.of, param, raw::mysql_session_reply_param)
        })
    }

    /// The columns of the rows that the statement gives.
    pub fn columns(&self) -> Iter<Prepared<'a>, Column<'a>> {
        Iter::new(*self, self.columns, |prepared, column| {
            shown_column(prepared.of, column, raw::mysql_session_reply_column)
        })
    }
}

/// What cells a column has.
#[derive(Clone, Copy, Debug, Default, PartialEq, Eq, Hash)]
pub struct ColumnType {
    /// The number of the protocol's column type, as [`column_type`](crate::column_type) has them.
    pub kind: u8,
    /// The bits of the protocol's Column Definition Flags.
    pub flags: u16,
    /// The number of the collation.
    pub charset: u16,
    /// The most bytes of a cell.
    pub length: u32,
    /// How many digits are behind the point.
    pub decimals: u8,
}

/// A column of a result set, or a parameter of a prepared statement.
#[derive(Clone, Copy, Default, PartialEq, Eq, Hash)]
pub struct Column<'a> {
    /// What cells it has.
    pub column_type: ColumnType,
    /// The schema.
    pub schema: &'a [u8],
    /// The table, as the query names it.
    pub table: &'a [u8],
    /// The table, as the schema names it.
    pub org_table: &'a [u8],
    /// The column, as the query names it.
    pub name: &'a [u8],
    /// The column, as the table names it.
    pub org_name: &'a [u8],
}

debug_with_texts!(Column: column_type; schema, table, org_table, name, org_name);

/// A call of the library that shows a column: by handle, result and column.
type ShowsColumn = unsafe extern "C" fn(*mut raw::Handle, usize, usize, *mut raw::Column) -> u32;

/// The column, or the parameter, of a number below that of the columns.
fn shown_column(of: Number<'_>, column: usize, show: ShowsColumn) -> Column<'_> {
    let mut shown = raw::Column::default();
    // SAFETY: "Handles": by `Handle::get`; "Results go out": a local.
    certain(unsafe { show(of.handle.get(), of.number, column, &mut shown) });
    // SAFETY: "its texts are good as a result's text is".
    unsafe { Column::of(&shown) }
}

impl<'a> Column<'a> {
    /// The name as a text: bytes that aren't UTF-8 are replaced.
    pub fn name_text(&self) -> Cow<'a, str> {
        String::from_utf8_lossy(self.name)
    }

    /// What the library showed.
    ///
    /// # Safety
    /// The library wrote the fields, and the texts stay as they are for `'a`.
    pub(crate) unsafe fn of(shown: &raw::Column) -> Column<'a> {
        // SAFETY: by this call's condition.
        unsafe {
            Column {
                column_type: ColumnType {
                    kind: shown.kind,
                    flags: shown.flags,
                    charset: shown.charset,
                    length: shown.length,
                    decimals: shown.decimals,
                },
                schema: shown.schema.bytes(),
                table: shown.table.bytes(),
                org_table: shown.org_table.bytes(),
                name: shown.name.bytes(),
                org_name: shown.org_name.bytes(),
            }
        }
    }
}
