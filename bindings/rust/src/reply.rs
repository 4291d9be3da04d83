//! Replies of a server, read as they come.

use crate::codes::{certain, End, Error, Fault};
use crate::handle::Handle;
use crate::raw;
use crate::results::{results_of, ReplyResult};

/// To which command a reply answers.
#[derive(Clone, Copy, Debug, PartialEq, Eq, Hash)]
pub enum ReplyKind {
    /// A text query, or a command that is answered as one.
    Query = 0,
    /// An execution of a prepared statement.
    Execute = 1,
    /// A prepare.
    Prepare = 2,
}

/// Reads a server's reply to one command, fed in any pieces.
///
/// [`ReplyReader::take`] takes the results so far, and shows them:
///
/// ```
/// use mysql_session::{capability, End, ReplyKind, ReplyReader, ReplyResult, Value};
///
/// # fn main() -> Result<(), mysql_session::Error> {
/// let reply = b"\x01\0\0\x01\x01\
///     \x17\0\0\x02\x03def\0\0\0\x01n\0\x0c\x3f\0\x0b\0\0\0\x03\0\0\0\0\0\
///     \x05\0\0\x03\xfe\0\0\x02\0\
///     \x02\0\0\x04\x017\
///     \x05\0\0\x05\xfe\0\0\x02\0";
/// let capabilities = capability::CLIENT_PROTOCOL_41;
/// let mut reader = ReplyReader::new(ReplyKind::Query, capabilities, 1, 1 << 24)?;
/// for piece in reply.chunks(3) {
///     reader.feed(piece)?;
/// }
/// for result in reader.take()? {
///     let ReplyResult::Rows(rows) = result else {
///         panic!("a reply with rows has another result");
///     };
///     assert_eq!(rows.columns().next().map(|column| column.name), Some(&b"n"[..]));
///     for row in rows.iter() {
///         assert_eq!(row.cell(0), Some(Value::Bytes(b"7")));
///     }
/// }
/// assert_eq!(reader.end().end(), End::Whole);
/// # Ok(())
/// # }
/// ```
///
/// What is shown can't outlive a call that may move it:
///
/// ```compile_fail,E0499
/// # use mysql_session::{ReplyKind, ReplyReader};
/// # let mut reader = ReplyReader::new(ReplyKind::Query, 512, 1, 1 << 24).unwrap();
/// let results = reader.take();
/// reader.take();
/// drop(results);
/// ```
#[derive(Debug)]
pub struct ReplyReader {
    handle: Handle,
}

impl ReplyReader {
    /// A reader of the reply to a command of this kind. `first` is the number of its first chunk:
    /// the one after the command's last packet, mostly 1. The capabilities are those that client
    /// and server agreed on. A payload has at most `limit` bytes.
    ///
    /// # Errors
    /// [`Code::MEMORY`](crate::Code::MEMORY).
    pub fn new(
        kind: ReplyKind,
        capabilities: u32,
        first: u8,
        limit: usize,
    ) -> Result<ReplyReader, Error> {
        // SAFETY: "Handles": a handle that is being made.
        let handle = Handle::made(|handle| unsafe {
            raw::mysql_session_reply_new(handle, kind as u32, capabilities, first, limit)
        })?;
        Ok(ReplyReader { handle })
    }

    /// Reads the next bytes, of any length.
    ///
    /// # Errors
    /// The first fault of the reply; from then on each feed answers it, and changes nothing. The
    /// results before it stay.
    pub fn feed(&mut self, piece: &[u8]) -> Result<(), Fault> {
        // SAFETY: "Handles": by `Handle::get`; "Bytes go in": the piece is a slice.
        Fault::of(unsafe {
            raw::mysql_session_reply_feed(self.handle.get(), piece.as_ptr(), piece.len())
        })
    }

    /// Takes the results so far, and shows them: those that are whole, and of a result set that
    /// goes on its rows so far. Those that were taken before are freed.
    ///
    /// # Errors
    /// [`Code::MEMORY`](crate::Code::MEMORY); [`ReplyReader::taken`] shows what was taken then.
    pub fn take(&mut self) -> Result<Vec<ReplyResult<'_>>, Error> {
        // SAFETY: "Handles": by `Handle::get`. No result is left that borrows from the reader.
        certain(unsafe { raw::mysql_session_reply_take(self.handle.get()) });
        results_of(&self.handle)
    }

    /// The results that were taken last, shown again.
    ///
    /// # Errors
    /// [`Code::MEMORY`](crate::Code::MEMORY).
    pub fn taken(&self) -> Result<Vec<ReplyResult<'_>>, Error> {
        results_of(&self.handle)
    }

    /// Ends the reply.
    pub fn end(self) -> Reply {
        let mut end = raw::End::default();
        // SAFETY: "Handles": by `Handle::get`; "Results go out": a local.
        certain(unsafe { raw::mysql_session_reply_end(self.handle.get(), &mut end) });
        Reply {
            handle: self.handle,
            end: End::of(end.kind, end.payload, end.fault),
        }
    }
}

/// What was read of a reply at its end.
#[derive(Debug)]
pub struct Reply {
    handle: Handle,
    end: End,
}

impl Reply {
    /// How the reply ends: whole, unfinished or with a fault.
    pub fn end(&self) -> End {
        self.end
    }

    /// The results that weren't taken before.
    ///
    /// # Errors
    /// [`Code::MEMORY`](crate::Code::MEMORY).
    pub fn results(&self) -> Result<Vec<ReplyResult<'_>>, Error> {
        results_of(&self.handle)
    }
}
