//! Digests of statements: texts with the values taken out.

use crate::bytes::Bytes;
use crate::codes::{answer, Error};
use crate::modes::Mode;
use crate::raw;

/// Appends to `out` the digest of a statement: its text with the values taken out.
///
/// Statements that differ in their values alone have one digest. So it serves to count them, and to
/// show one whose values are a secret. It has no byte of the inside of a string.
///
/// Strings, numbers, placeholders, NULL, TRUE and FALSE are `?`, and a number's sign goes with it.
/// Values between commas are `?, ...`. Alone in parentheses they are `(...)`, one value `(?)`, and
/// such rows between commas `(...) /* , ... */`. Comments and blanks are one space, as there is
/// between all else. Words are in lower case. Where servers begin to read the text differently the
/// digest ends with `/* ... */`. It has at most three times the bytes of the text and ten.
///
/// The text is one for a server whose SQL mode has neither NO_BACKSLASH_ESCAPES nor ANSI_QUOTES.
/// For a server in another mode [`digest_in`] takes the mode: a string may end elsewhere there.
///
/// # Errors
/// [`Code::MEMORY`](crate::Code::MEMORY); nothing is appended then.
///
/// (MySQL Reference Manual, "Performance Schema Statement Digests and Sampling".)
///
/// ```
/// use mysql_session::{digest, Bytes};
///
/// # fn main() -> Result<(), mysql_session::Error> {
/// let mut out = Bytes::new()?;
/// digest(b"SELECT name FROM goods WHERE id=5 AND kind IN ('tea', 'salt')", &mut out)?;
/// let wanted = "select name from goods where id = ? and kind in (...)";
/// assert_eq!(out.as_slice(), wanted.as_bytes());
/// # Ok(())
/// # }
/// ```
pub fn digest(text: &[u8], out: &mut Bytes) -> Result<(), Error> {
    digest_in(text, Mode::default(), out)
}

/// Appends the digest that [`digest`] appends, of a text for a server in this mode.
///
/// # Errors
/// Those of [`digest`].
pub fn digest_in(text: &[u8], mode: Mode, out: &mut Bytes) -> Result<(), Error> {
    // SAFETY: "Bytes go in": the text is a slice. "Handles": `out` is changed by this call alone.
    let code = unsafe {
        raw::mysql_session_digest(text.as_ptr(), text.len(), mode.flags(), out.changing())
    };
    Ok(answer(code)?)
}
