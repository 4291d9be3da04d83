//! Bytes in what `Debug` prints: as a text where they are UTF-8, else as a string of bytes. Of what
//! may be a password there is the length alone.

use std::fmt;

/// Bytes that `Debug` prints so.
pub(crate) struct Readable<'a>(pub(crate) &'a [u8]);

impl fmt::Debug for Readable<'_> {
    fn fmt(&self, formatter: &mut fmt::Formatter<'_>) -> fmt::Result {
        match std::str::from_utf8(self.0) {
            Ok(text) => fmt::Debug::fmt(text, formatter),
            Err(_) => write!(formatter, "b\"{}\"", self.0.escape_ascii()),
        }
    }
}

/// Bytes of which `Debug` prints the length alone: an answer to a server may be a password.
pub(crate) struct Secret<'a>(pub(crate) &'a [u8]);

impl fmt::Debug for Secret<'_> {
    fn fmt(&self, formatter: &mut fmt::Formatter<'_>) -> fmt::Result {
        match self.0.len() {
            1 => write!(formatter, "<1 byte>"),
            len => write!(formatter, "<{len} bytes>"),
        }
    }
}

/// `Debug` of a struct whose fields behind the semicolon are bytes. Those behind a second one are
/// secrets.
macro_rules! debug_with_texts {
    ($name:ident: $($field:ident),*; $($text:ident),* $(; $($secret:ident),*)?) => {
        impl std::fmt::Debug for $name<'_> {
            fn fmt(&self, formatter: &mut std::fmt::Formatter<'_>) -> std::fmt::Result {
                formatter
                    .debug_struct(stringify!($name))
                    $(.field(stringify!($field), &self.$field))*
                    $(.field(stringify!($text), &crate::readable::Readable(self.$text)))*
                    $($(.field(stringify!($secret), &crate::readable::Secret(self.$secret)))*)?
                    .finish()
            }
        }
    };
}

pub(crate) use debug_with_texts;
