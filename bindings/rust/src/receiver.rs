//! Streams of commands about one query, read back.

use crate::codes::{certain, in_range, End, Error, Fault};
use crate::handle::Handle;
use crate::iter::{goes_over, Iter};
use crate::modes::{Mode, Spelling};
use crate::raw;
use crate::values::Content;
use std::fmt;

/// Reads a stream of commands about one query, fed in any pieces.
///
/// The sets that were read stay until they are let go by [`Receiver::clear`]; what is shown of them
/// borrows from the receiver.
///
/// ```
/// use mysql_session::{Content, End, Receiver};
///
/// # fn main() -> Result<(), mysql_session::Error> {
/// let mut receiver = Receiver::new(b"SELECT ?", 1, 1 << 24)?;
/// for byte in b"\x09\0\0\0\x03SELECT 7" {
///     receiver.feed(&[*byte])?;
/// }
/// let set = receiver.sets().next().expect("one set was read");
/// assert_eq!(set.content(0), Some(Content::Int(7)));
/// assert_eq!(receiver.end().end(), End::Whole);
/// # Ok(())
/// # }
/// ```
///
/// What is shown can't outlive a call that may move it:
///
/// ```compile_fail,E0502
/// # let mut receiver = mysql_session::Receiver::new(b"SELECT ?", 1, 1 << 24).unwrap();
/// let set = receiver.sets().next();
/// receiver.clear();
/// drop(set);
/// ```
///
/// and a receiver stays in the thread that made it:
///
/// ```compile_fail,E0277
/// # let receiver = mysql_session::Receiver::new(b"SELECT ?", 1, 1 << 24).unwrap();
/// std::thread::spawn(move || receiver.end());
/// ```
pub struct Receiver {
    handle: Handle,
}

impl<'a> IntoIterator for &'a Receiver {
    type Item = Set<'a>;
    type IntoIter = Iter<&'a Receiver, Set<'a>>;

    fn into_iter(self) -> Self::IntoIter {
        self.sets()
    }
}

impl fmt::Debug for Receiver {
    fn fmt(&self, formatter: &mut fmt::Formatter<'_>) -> fmt::Result {
        formatter
            .debug_struct("Receiver")
            .field("sets", &self.sets())
            .finish_non_exhaustive()
    }
}

impl Receiver {
    /// A receiver of a stream of commands about this query, whose statement was given this id.
    ///
    /// The limit is the `max_allowed_packet` of the side that the stream goes to, at least 4. A
    /// payload has at most that many bytes.
    ///
    /// Texts are read as a server in the default mode reads them, without introducers:
    /// [`Receiver::new_in`] takes the mode and the spelling.
    ///
    /// # Errors
    /// [`Code::LIMIT_TOO_SMALL`](crate::Code::LIMIT_TOO_SMALL),
    /// [`Code::MIXED`](crate::Code::MIXED), [`Code::MEMORY`](crate::Code::MEMORY).
    pub fn new(query: &[u8], statement: u32, limit: usize) -> Result<Receiver, Error> {
        Receiver::new_in(query, statement, limit, Mode::default(), Spelling::Quoted)
    }

    /// A receiver of a stream of commands about this query, which were sent to a server in this
    /// mode. For one in another mode texts, and the query's placeholders, may be others than this
    /// receiver reads. By [`Spelling::Hexadecimal`] it reads literals behind `_utf8mb4` and `_binary`
    /// too.
    ///
    /// # Errors
    /// Those of [`Receiver::new`].
    ///
    /// ```
    /// use mysql_session::{Content, Mode, Receiver, Spelling};
    ///
    /// # fn main() -> Result<(), mysql_session::Error> {
    /// let mode = Mode { no_backslash_escapes: true, ..Mode::default() };
    /// let mut receiver = Receiver::new_in(b"SELECT ?", 1, 1 << 24, mode, Spelling::Quoted)?;
    /// receiver.feed(b"\x0b\0\0\0\x03SELECT '\\'")?;
    /// let set = receiver.sets().next().expect("one set was read");
    /// assert_eq!(set.content(0), Some(Content::Bytes(b"\\")));
    /// # Ok(())
    /// # }
    /// ```
    pub fn new_in(
        query: &[u8],
        statement: u32,
        limit: usize,
        mode: Mode,
        spelling: Spelling,
    ) -> Result<Receiver, Error> {
        // SAFETY: "Handles": a handle that is being made; "Bytes go in": the query is a slice.
        let handle = Handle::made(|handle| unsafe {
            raw::mysql_session_receiver_new(
                handle,
                query.as_ptr(),
                query.len(),
                statement,
                limit,
                mode.flags_with(spelling),
            )
        })?;
        Ok(Receiver { handle })
    }

    /// Takes the next piece of the stream, of any length.
    ///
    /// # Errors
    /// The first fault of the stream; from then on each feed answers it, and changes nothing. The
    /// sets before it stay.
    pub fn feed(&mut self, piece: &[u8]) -> Result<(), Fault> {
        // SAFETY: "Handles": by `Handle::get`; "Bytes go in": the piece is a slice.
        Fault::of(unsafe {
            raw::mysql_session_receiver_feed(self.handle.get(), piece.as_ptr(), piece.len())
        })
    }

    /// The sets that were read and not let go. `for set in &receiver` goes over them too.
    pub fn sets(&self) -> Iter<&Receiver, Set<'_>> {
        Iter::new(self, sets_in(&self.handle), |receiver, number| {
            Set::of(&receiver.handle, number)
        })
    }

    /// Lets go of the sets that were read.
    pub fn clear(&mut self) {
        // SAFETY: "Handles": by `Handle::get`. No set is left that borrows from the receiver.
        certain(unsafe { raw::mysql_session_receiver_clear(self.handle.get()) });
    }

    /// Ends the stream.
    pub fn end(self) -> Audit {
        let mut end = raw::End::default();
        // SAFETY: "Handles": by `Handle::get`; "Results go out": a local.
        certain(unsafe { raw::mysql_session_receiver_end(self.handle.get(), &mut end) });
        Audit {
            handle: self.handle,
            end: End::of(end.kind, end.payload, end.fault),
        }
    }
}

/// What a receiver says of its stream at the end.
pub struct Audit {
    handle: Handle,
    end: End,
}

impl Audit {
    /// How the stream ends.
    pub fn end(&self) -> End {
        self.end
    }

    /// The sets that were read and not let go before.
    pub fn sets(&self) -> Iter<&Audit, Set<'_>> {
        Iter::new(self, sets_in(&self.handle), |audit, number| {
            Set::of(&audit.handle, number)
        })
    }
}

impl<'a> IntoIterator for &'a Audit {
    type Item = Set<'a>;
    type IntoIter = Iter<&'a Audit, Set<'a>>;

    fn into_iter(self) -> Self::IntoIter {
        self.sets()
    }
}

impl fmt::Debug for Audit {
    fn fmt(&self, formatter: &mut fmt::Formatter<'_>) -> fmt::Result {
        formatter
            .debug_struct("Audit")
            .field("end", &self.end)
            .field("sets", &self.sets())
            .finish()
    }
}

/// How many sets a receiver or an audit has.
fn sets_in(handle: &Handle) -> usize {
    let mut count = 0;
    // SAFETY: "Handles": by `Handle::get`; "Results go out": a local.
    certain(unsafe { raw::mysql_session_receiver_sets(handle.get(), &mut count) });
    count
}

/// A set that was read: a content for each place of the query.
#[derive(Clone, Copy)]
pub struct Set<'a> {
    handle: &'a Handle,
    number: usize,
    width: usize,
}

impl<'a> Set<'a> {
    /// The set of a number below that of the sets.
    fn of(handle: &'a Handle, number: usize) -> Set<'a> {
        let mut width = 0;
        // SAFETY: "Handles": by `Handle::get`; "Results go out": a local.
        certain(unsafe { raw::mysql_session_receiver_width(handle.get(), number, &mut width) });
        Set {
            handle,
            number,
            width,
        }
    }

    /// How many contents the set has.
    pub fn len(&self) -> usize {
        self.width
    }

    /// Whether the set has no content, as those of a query without placeholders.
    pub fn is_empty(&self) -> bool {
        self.width == 0
    }

    /// The content at a position, from 0; none where there is no such position.
    pub fn content(&self, place: usize) -> Option<Content<'a>> {
        let mut shown = raw::Content::default();
        // SAFETY: "Handles": by `Handle::get`; "Results go out": a local.
        let found = in_range(unsafe {
            raw::mysql_session_receiver_content(self.handle.get(), self.number, place, &mut shown)
        });
        // SAFETY: the bytes are "good until the next call on the handle other than
        // mysql_session_receiver_sets, _width and _content", which takes the receiver's `&mut self`
        // or the receiver itself, and so ends 'a.
        found.then(|| unsafe { Content::of(shown) })
    }

    /// The contents, in their order.
    pub fn iter(&self) -> Iter<Set<'a>, Content<'a>> {
        Iter::new(*self, self.width, |set, place| {
            set.content(place)
                .expect("a place below the width has a content")
        })
    }
}

goes_over!(Set, Content<'a>);

impl fmt::Debug for Set<'_> {
    fn fmt(&self, formatter: &mut fmt::Formatter<'_>) -> fmt::Result {
        formatter.debug_list().entries(self.iter()).finish()
    }
}
