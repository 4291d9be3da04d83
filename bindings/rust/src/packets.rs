//! Packets: a stream cut into payloads, and payloads framed.

use crate::bytes::Bytes;
use crate::codes::{answer, certain, Error, Fault};
use crate::handle::Handle;
use crate::raw;
use std::iter::FusedIterator;

/// Cuts a stream into the payloads of its packets, fed in any pieces.
///
/// ```
/// use mysql_session::PacketReader;
///
/// # fn main() -> Result<(), mysql_session::Error> {
/// let mut reader = PacketReader::new(0, 1 << 24)?;
/// let mut payloads = Vec::new();
/// for piece in b"\x01\0\0\0\x0e\x09\0\0\0\x03SELECT 1".chunks(6) {
///     let mut rest = piece;
///     while let Some(payload) = reader.advance(&mut rest)? {
///         payloads.push(payload.to_vec());
///         // Each command is numbered from 0.
///         reader.restart()?;
///     }
/// }
/// assert_eq!(payloads, [&b"\x0e"[..], b"\x03SELECT 1"]);
/// # Ok(())
/// # }
/// ```
#[derive(Debug)]
pub struct PacketReader {
    handle: Handle,
}

impl PacketReader {
    /// A reader of packets, of which the first chunk has the number `first`. A payload has at most
    /// `limit` bytes.
    ///
    /// # Errors
    /// [`Code::MEMORY`](crate::Code::MEMORY).
    pub fn new(first: u8, limit: usize) -> Result<PacketReader, Error> {
        // SAFETY: "Handles": a handle that is being made.
        let handle =
            Handle::made(|handle| unsafe { raw::mysql_session_packets_new(handle, first, limit) })?;
        Ok(PacketReader { handle })
    }

    /// Reads on to the end of the next packet, and takes what it read from the piece. The answer is
    /// the payload, or none where the packet isn't whole: then all of the piece was read.
    ///
    /// # Errors
    /// [`Code::FAULT_TOO_LARGE`](crate::Code::FAULT_TOO_LARGE),
    /// [`Code::FAULT_OUT_OF_SYNC`](crate::Code::FAULT_OUT_OF_SYNC),
    /// [`Code::MEMORY`](crate::Code::MEMORY), each from then on; the piece stays as it was.
    pub fn advance(&mut self, piece: &mut &[u8]) -> Result<Option<&[u8]>, Fault> {
        let (mut used, mut whole) = (0, false);
        // SAFETY: "Handles": by `Handle::get`; "Bytes go in": the piece is a slice; "Results go
        // out": two locals.
        Fault::of(unsafe {
            raw::mysql_session_packets_feed(
                self.handle.get(),
                piece.as_ptr(),
                piece.len(),
                &mut used,
                &mut whole,
            )
        })?;
        *piece = &piece[used..];
        Ok(if whole { Some(self.payload()) } else { None })
    }

    /// The payloads of the packets that end in this piece, as copies. [`PacketReader::advance`] gives
    /// them one by one without copying. Their numbers go on from one another.
    ///
    /// ```
    /// use mysql_session::{Fault, PacketReader};
    ///
    /// # fn main() -> Result<(), Box<dyn std::error::Error>> {
    /// let mut reader = PacketReader::new(0, 1 << 24)?;
    /// let stream = b"\x01\0\0\0a\x02\0\0\x01bc\x01\0";
    /// let payloads = reader.payloads(stream).collect::<Result<Vec<_>, Fault>>()?;
    /// assert_eq!(payloads, [b"a".to_vec(), b"bc".to_vec()]);
    /// # Ok(())
    /// # }
    /// ```
    ///
    /// # Errors
    /// What [`PacketReader::advance`] answers, and nothing behind it.
    pub fn payloads<'a>(&'a mut self, piece: &'a [u8]) -> Payloads<'a> {
        Payloads {
            reader: self,
            rest: piece,
            is_done: false,
        }
    }

    /// The payload that is whole.
    fn payload(&mut self) -> &[u8] {
        let mut text = raw::Text::default();
        // SAFETY: "Handles": by `Handle::get`; "Results go out": fields of one local.
        certain(unsafe {
            raw::mysql_session_packets_payload(self.handle.get(), &mut text.at, &mut text.len)
        });
        // SAFETY: "good until the next call on the handle other than this one", for which the
        // payload has to be let go of: each takes `&mut self`.
        unsafe { text.bytes() }
    }

    /// The next packet's first chunk has the number 0, as that of each command has.
    ///
    /// # Errors
    /// [`Code::UNFINISHED`](crate::Code::UNFINISHED) where bytes of a packet that isn't whole came.
    pub fn restart(&mut self) -> Result<(), Error> {
        // SAFETY: "Handles": by `Handle::get`.
        Ok(answer(unsafe {
            raw::mysql_session_packets_restart(self.handle.get())
        })?)
    }
}

/// The payloads of a piece, as [`PacketReader::payloads`] gives them.
#[derive(Debug)]
pub struct Payloads<'a> {
    reader: &'a mut PacketReader,
    rest: &'a [u8],
    /// Whether the piece was read to its end, or a fault was found.
    is_done: bool,
}

impl<'a> Payloads<'a> {
    /// What of the piece isn't read yet.
    pub fn rest(&self) -> &'a [u8] {
        self.rest
    }
}

impl Iterator for Payloads<'_> {
    type Item = Result<Vec<u8>, Fault>;

    fn next(&mut self) -> Option<Self::Item> {
        if self.is_done {
            return None;
        }
        let payload = self.reader.advance(&mut self.rest);
        self.is_done = !matches!(payload, Ok(Some(_)));
        payload.map(|found| found.map(<[u8]>::to_vec)).transpose()
    }
}

impl FusedIterator for Payloads<'_> {}

/// Appends a payload to `out`, framed: behind a header of four bytes, with this number. One of
/// 16777215 bytes or more takes more chunks. The number is the next packet's then.
///
/// # Errors
/// [`Code::FAULT_TOO_LARGE`](crate::Code::FAULT_TOO_LARGE) where the payload has more than `limit`
/// bytes, [`Code::MEMORY`](crate::Code::MEMORY); nothing is appended then, and the number stays.
pub fn put_packet(
    payload: &[u8],
    number: &mut u8,
    limit: usize,
    out: &mut Bytes,
) -> Result<(), Error> {
    // SAFETY: "Handles": by `Handle::get`; "Bytes go in": the payload is a slice; "Results go out":
    // the number is the caller's alone.
    Ok(answer(unsafe {
        raw::mysql_session_packet_put(
            out.changing(),
            payload.as_ptr(),
            payload.len(),
            number,
            limit,
        )
    })?)
}
