//! Bytes that the library wrote.

use crate::codes::{certain, Error};
use crate::handle::Handle;
use crate::raw;
use crate::readable::Readable;
use std::fmt;
use std::ops::Deref;

/// Bytes that the library writes to: each call that sends, recodes or writes appends to them, or
/// leaves them as they are.
///
/// ```
/// use mysql_session::{put_packet, Bytes};
///
/// # fn main() -> Result<(), mysql_session::Error> {
/// let mut out = Bytes::new()?;
/// let mut number = 0;
/// put_packet(b"\x0e", &mut number, 1 << 24, &mut out)?;
/// assert_eq!(out.as_slice(), [1, 0, 0, 0, 0x0e]);
/// out.clear();
/// assert!(out.is_empty());
/// # Ok(())
/// # }
/// ```
pub struct Bytes {
    handle: Handle,
}

impl Bytes {
    /// No bytes.
    ///
    /// # Errors
    /// [`Code::MEMORY`](crate::Code::MEMORY).
    pub fn new() -> Result<Bytes, Error> {
        // SAFETY: "Handles": the address is that of a handle that is being made.
        let handle = Handle::made(|handle| unsafe { raw::mysql_session_bytes_new(handle) })?;
        Ok(Bytes { handle })
    }

    /// The bytes.
    pub fn as_slice(&self) -> &[u8] {
        let mut text = raw::Text::default();
        // SAFETY: "Handles": by `Handle::get`; "Results go out": fields of one local.
        certain(unsafe {
            raw::mysql_session_bytes_data(self.handle.get(), &mut text.at, &mut text.len)
        });
        // SAFETY: the bytes are "good until the next call on" the handle other than this one. Each
        // other one takes a `&mut self`, so that no such slice is left then.
        unsafe { text.bytes() }
    }

    /// Empties the bytes.
    pub fn clear(&mut self) {
        // SAFETY: "Handles": by `Handle::get`.
        certain(unsafe { raw::mysql_session_bytes_clear(self.changing()) });
    }

    /// The handle's address for a call that may change the bytes.
    pub(crate) fn changing(&mut self) -> *mut raw::Handle {
        self.handle.get()
    }
}

impl Deref for Bytes {
    type Target = [u8];

    fn deref(&self) -> &[u8] {
        self.as_slice()
    }
}

impl AsRef<[u8]> for Bytes {
    fn as_ref(&self) -> &[u8] {
        self.as_slice()
    }
}

impl fmt::Debug for Bytes {
    fn fmt(&self, formatter: &mut fmt::Formatter<'_>) -> fmt::Result {
        formatter
            .debug_tuple("Bytes")
            .field(&Readable(self.as_slice()))
            .finish()
    }
}
