//! Replies written: a server's side.

use crate::bytes::Bytes;
use crate::codes::{answer, At, Code, Error};
use crate::handle::Handle;
use crate::raw;
use crate::reply::ReplyKind;
use crate::results::{ColumnType, ErrorPacket, OkPacket};
use crate::sets::ParameterSets;

/// Writes the reply to one command, result by result, for a server's side.
///
/// Each call appends the packets of what it is given to `out`, or nothing: then its error says why,
/// and where. `more` says whether another result follows.
///
/// ```
/// use mysql_session::{
///     capability, column_type, Bytes, ColumnType, ParameterSets, ReplyKind, ReplyWriter,
/// };
///
/// # fn main() -> Result<(), mysql_session::Error> {
/// let mut rows = ParameterSets::new()?;
/// rows.add(&[1.into(), "tea".into()])?;
/// rows.add(&[2.into(), None::<&str>.into()])?;
///
/// let capabilities = capability::CLIENT_PROTOCOL_41;
/// let mut out = Bytes::new()?;
/// let mut writer = ReplyWriter::new(ReplyKind::Query, capabilities, 1, 1 << 24)?;
/// let number = ColumnType { kind: column_type::LONG, charset: 63, ..ColumnType::default() };
/// let text = ColumnType { kind: column_type::VAR_STRING, charset: 45, ..ColumnType::default() };
/// writer.column(b"number", number)?;
/// writer.column(b"name", text)?;
/// writer.rows(&mut out)?;
/// for row in 0..rows.len() {
///     writer.row(&rows, row, &mut out)?;
/// }
/// writer.end_rows(2, 0, false, &mut out)?;
/// writer.end()?;
/// # Ok(())
/// # }
/// ```
#[derive(Debug)]
pub struct ReplyWriter {
    handle: Handle,
}

impl ReplyWriter {
    /// A writer of the reply to a command of this kind, for a client with these capabilities. The
    /// reply's first chunk has the number `first`, mostly 1; a payload has at most `limit` bytes.
    ///
    /// # Errors
    /// [`Code::MEMORY`].
    pub fn new(
        kind: ReplyKind,
        capabilities: u32,
        first: u8,
        limit: usize,
    ) -> Result<ReplyWriter, Error> {
        // SAFETY: "Handles": a handle that is being made.
        let handle = Handle::made(|handle| unsafe {
            raw::mysql_session_writer_new(handle, kind as u32, capabilities, first, limit)
        })?;
        Ok(ReplyWriter { handle })
    }

    /// An OK packet. The bit SERVER_MORE_RESULTS_EXISTS of its status is set by `more`.
    ///
    /// # Errors
    /// One of `WRITE_..` with its position, [`Code::MEMORY`].
    pub fn ok(&mut self, packet: &OkPacket<'_>, more: bool, out: &mut Bytes) -> Result<(), Error> {
        let OkPacket {
            affected_rows,
            last_insert_id,
            status,
            warnings,
            info,
            state_changes: _,
        } = *packet;
        // SAFETY: "Handles" and "Results go out": by `write`; "Bytes go in": the text is a slice.
        self.write(out, |handle, out, spot| unsafe {
            raw::mysql_session_writer_ok(
                handle,
                affected_rows,
                last_insert_id,
                status,
                warnings,
                info.as_ptr(),
                info.len(),
                more,
                out,
                spot,
            )
        })
    }

    /// An error, which ends the reply.
    ///
    /// # Errors
    /// One of `WRITE_..` with its position, [`Code::MEMORY`].
    pub fn error(&mut self, error: &ErrorPacket<'_>, out: &mut Bytes) -> Result<(), Error> {
        let ErrorPacket {
            code,
            state,
            message,
        } = *error;
        let state = state.as_ref().map_or(&[][..], |state| &state[..]);
        // SAFETY: as in `ok`.
        self.write(out, |handle, out, spot| unsafe {
            raw::mysql_session_writer_error(
                handle,
                code,
                state.as_ptr(),
                state.len(),
                message.as_ptr(),
                message.len(),
                out,
                spot,
            )
        })
    }

    /// One more column for the next [`ReplyWriter::rows`] or [`ReplyWriter::prepared`], which uses
    /// the columns up, also where it is refused for another cause than [`Code::OUT_OF_RANGE`].
    ///
    /// # Errors
    /// [`Code::NO_SUCH_KIND`] of a column type, [`Code::MEMORY`].
    pub fn column(&mut self, name: &[u8], column_type: ColumnType) -> Result<(), Error> {
        let ColumnType {
            kind,
            flags,
            charset,
            length,
            decimals,
        } = column_type;
        // SAFETY: "Handles": by `Handle::get`; "Bytes go in": the name is a slice.
        Ok(answer(unsafe {
            raw::mysql_session_writer_column(
                self.handle.get(),
                kind,
                name.as_ptr(),
                name.len(),
                flags,
                charset,
                length,
                decimals,
            )
        })?)
    }

    /// Begins rows under the columns that were given.
    ///
    /// # Errors
    /// One of `WRITE_..` with its position, [`Code::MEMORY`].
    pub fn rows(&mut self, out: &mut Bytes) -> Result<(), Error> {
        // SAFETY: by `write`.
        self.write(out, |handle, out, spot| unsafe {
            raw::mysql_session_writer_rows(handle, out, spot)
        })
    }

    /// The next row: the values of a set, by its number from 0.
    ///
    /// # Errors
    /// [`Code::OUT_OF_RANGE`] where there is no such set, one of `WRITE_..` with its position,
    /// [`Code::MEMORY`].
    pub fn row(&mut self, sets: &ParameterSets, set: usize, out: &mut Bytes) -> Result<(), Error> {
        // SAFETY: by `write`, and the sets' handle is a third one.
        self.write(out, |handle, out, spot| unsafe {
            raw::mysql_session_writer_row(handle, sets.looking(), set, out, spot)
        })
    }

    /// Ends the rows. The bit SERVER_MORE_RESULTS_EXISTS of the status is set by `more`.
    ///
    /// # Errors
    /// One of `WRITE_..` with its position, [`Code::MEMORY`].
    pub fn end_rows(
        &mut self,
        status: u16,
        warnings: u16,
        more: bool,
        out: &mut Bytes,
    ) -> Result<(), Error> {
        // SAFETY: by `write`.
        self.write(out, |handle, out, spot| unsafe {
            raw::mysql_session_writer_end_rows(handle, status, warnings, more, out, spot)
        })
    }

    /// A prepared statement: the first `params` of the columns that were given are its parameters.
    ///
    /// # Errors
    /// [`Code::OUT_OF_RANGE`] where there are fewer, one of `WRITE_..` with its position,
    /// [`Code::MEMORY`].
    pub fn prepared(
        &mut self,
        statement: u32,
        params: usize,
        warnings: u16,
        out: &mut Bytes,
    ) -> Result<(), Error> {
        // SAFETY: by `write`.
        self.write(out, |handle, out, spot| unsafe {
            raw::mysql_session_writer_prepared(handle, statement, params, warnings, out, spot)
        })
    }

    /// Ends the reply, where it is whole.
    ///
    /// # Errors
    /// [`Code::WRITE_NO_RESULTS`], [`Code::WRITE_NOT_ENDED`].
    pub fn end(self) -> Result<(), Error> {
        let mut spot = raw::Spot::default();
        // SAFETY: "Handles": by `Handle::get`; "Results go out": a local.
        let code = unsafe { raw::mysql_session_writer_end(self.handle.get(), &mut spot) };
        answer(code).map_err(|code| refusal(code, spot))
    }

    /// Makes a call that appends to `out`. It has the writer's handle, that of `out`, which is
    /// another one, and a local for where it is refused.
    fn write(
        &mut self,
        out: &mut Bytes,
        call: impl FnOnce(*mut raw::Handle, *mut raw::Handle, *mut raw::Spot) -> u32,
    ) -> Result<(), Error> {
        let mut spot = raw::Spot::default();
        let code = call(self.handle.get(), out.changing(), &mut spot);
        answer(code).map_err(|code| refusal(code, spot))
    }
}

/// A refusal with the numbers that its code has.
fn refusal(code: Code, spot: raw::Spot) -> Error {
    let raw::Spot {
        result,
        row,
        place,
        payload,
    } = spot;
    let at = match code {
        Code::WRITE_CELL_COUNT => Some(At::Row { result, row }),
        Code::WRITE_NO_FORM => Some(At::Cell { result, row, place }),
        Code::WRITE_PACKET_TOO_LARGE => Some(At::Payload(payload)),
        Code::WRITE_AFTER_END
        | Code::WRITE_NOT_ENDED
        | Code::WRITE_NOT_BEGUN
        | Code::WRITE_WRONG_KIND
        | Code::WRITE_NO_COLUMNS
        | Code::WRITE_TOO_MANY_COLUMNS
        | Code::WRITE_STATUS
        | Code::WRITE_READS_AS_REPORT => Some(At::Result(result)),
        _ => None,
    };
    Error::new(code, at)
}
