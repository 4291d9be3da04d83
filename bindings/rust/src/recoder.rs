//! Streams of commands recoded as executions.

use crate::bytes::Bytes;
use crate::codes::{answer, At, Code, End, Error};
use crate::handle::Handle;
use crate::modes::{Mode, Spelling};
use crate::raw;

/// Recodes a stream of commands about one query as it comes: as one prepare, and an execution for
/// each set. Streams that carry the same sets become the same bytes.
///
/// ```
/// use mysql_session::{Bytes, Recoder};
///
/// # fn main() -> Result<(), mysql_session::Error> {
/// let mut recoder = Recoder::new(b"SELECT ?", 1, 1 << 24)?;
/// let mut out = Bytes::new()?;
/// for byte in b"\x09\0\0\0\x03SELECT 7" {
///     recoder.feed(&[*byte], &mut out)?;
/// }
/// recoder.end(&mut out)?;
/// assert_eq!(&out[..13], b"\x09\0\0\0\x16SELECT ?");
/// assert_eq!(out[17], 0x17);
/// # Ok(())
/// # }
/// ```
#[derive(Debug)]
pub struct Recoder {
    handle: Handle,
}

impl Recoder {
    /// A recoder of a stream of commands about this query, whose statement was given this id. The
    /// limit is the `max_allowed_packet` of the receiving side, at least 4.
    ///
    /// Texts are read as a server in the default mode reads them, without introducers:
    /// [`Recoder::new_in`] takes the mode and the spelling.
    ///
    /// # Errors
    /// [`Code::LIMIT_TOO_SMALL`], [`Code::MIXED`], [`Code::REFUSED_TOO_MANY_PLACES`],
    /// [`Code::REFUSED_PREPARE_TOO_LARGE`], [`Code::MEMORY`].
    pub fn new(query: &[u8], statement: u32, limit: usize) -> Result<Recoder, Error> {
        Recoder::new_in(query, statement, limit, Mode::default(), Spelling::Quoted)
    }

    /// A recoder of a stream that was sent to a server in this mode, else as [`Recoder::new`] makes
    /// it. What it writes carries no texts with values: it is for a server in any mode in which the
    /// query's own text is the same.
    ///
    /// # Errors
    /// Those of [`Recoder::new`].
    pub fn new_in(
        query: &[u8],
        statement: u32,
        limit: usize,
        mode: Mode,
        spelling: Spelling,
    ) -> Result<Recoder, Error> {
        // SAFETY: "Handles": a handle that is being made; "Bytes go in": the query is a slice.
        let handle = Handle::made(|handle| unsafe {
            raw::mysql_session_recoder_new(
                handle,
                query.as_ptr(),
                query.len(),
                statement,
                limit,
                mode.flags_with(spelling),
            )
        })?;
        Ok(Recoder { handle })
    }

    /// Takes the next piece, and appends to `out` the executions of the sets that are whole with
    /// it, before the first of all the prepare.
    ///
    /// # Errors
    /// A fault of a payload, [`Code::REFUSED_PACKET_TOO_LARGE`] of a set, [`Code::MEMORY`]; from
    /// then on each call answers it, and changes nothing. Nothing is appended then.
    pub fn feed(&mut self, piece: &[u8], out: &mut Bytes) -> Result<(), Error> {
        let mut stop = raw::Stop::default();
        // SAFETY: "Handles": by `Handle::get`, two different ones; "Bytes go in": the piece is a
        // slice; "Results go out": a local.
        let code = unsafe {
            raw::mysql_session_recoder_feed(
                self.handle.get(),
                piece.as_ptr(),
                piece.len(),
                out.changing(),
                &mut stop,
            )
        };
        answer(code).map_err(|code| stopped(code, stop))
    }

    /// Ends the stream: where it carried no set the prepare is appended to `out`.
    ///
    /// # Errors
    /// [`Code::UNFINISHED`] with the stream's end, what a feed refused, [`Code::MEMORY`]. Nothing
    /// is appended then.
    pub fn end(self, out: &mut Bytes) -> Result<(), Error> {
        let mut stop = raw::Stop::default();
        // SAFETY: as in `feed`.
        let code =
            unsafe { raw::mysql_session_recoder_end(self.handle.get(), out.changing(), &mut stop) };
        answer(code).map_err(|code| stopped(code, stop))
    }
}

/// Recodes a whole stream of commands about one query.
///
/// # Errors
/// Those of [`Recoder::new`], [`Recoder::feed`] and [`Recoder::end`].
///
/// ```
/// use mysql_session::{recode, At, Code, End};
///
/// # fn main() -> Result<(), mysql_session::Error> {
/// let recoded = recode(b"SELECT ?", 1, 1 << 24, b"\x09\0\0\0\x03SELECT 7")?;
/// assert_eq!(recode(b"SELECT ?", 1, 1 << 24, &recoded)?.as_slice(), recoded.as_slice());
///
/// let error = recode(b"SELECT ?", 1, 1 << 24, b"\x09\0\0\0\x03SEL").unwrap_err();
/// assert_eq!(error.code(), Code::UNFINISHED);
/// assert_eq!(error.at(), Some(At::End(End::UnfinishedPacket)));
/// # Ok(())
/// # }
/// ```
pub fn recode(query: &[u8], statement: u32, limit: usize, stream: &[u8]) -> Result<Bytes, Error> {
    let (mode, spelling) = (Mode::default(), Spelling::Quoted);
    recode_in(query, statement, limit, mode, spelling, stream)
}

/// Recodes a whole stream of commands about one query, which was sent to a server in this mode.
///
/// # Errors
/// Those of [`Recoder::new_in`], [`Recoder::feed`] and [`Recoder::end`].
pub fn recode_in(
    query: &[u8],
    statement: u32,
    limit: usize,
    mode: Mode,
    spelling: Spelling,
    stream: &[u8],
) -> Result<Bytes, Error> {
    let mut out = Bytes::new()?;
    let mut recoder = Recoder::new_in(query, statement, limit, mode, spelling)?;
    recoder.feed(stream, &mut out)?;
    recoder.end(&mut out)?;
    Ok(out)
}

/// Why recoding stopped, with what the code has of where.
fn stopped(code: Code, stop: raw::Stop) -> Error {
    let at = match code {
        Code::UNFINISHED => Some(At::End(End::of(stop.end, stop.payload, stop.fault))),
        Code::REFUSED_PACKET_TOO_LARGE => Some(At::Set(stop.set)),
        _ if code.is_stream_fault() => Some(At::Payload(stop.payload)),
        _ => None,
    };
    Error::new(code, at)
}
