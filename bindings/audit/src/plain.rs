//! A greeting without TLS and compression, so that what follows it can be read.

use mysql_session::{capability, Error, Greeting};

/// By what the bytes behind a login can't be read.
pub const HIDDEN: u32 = capability::CLIENT_COMPRESS
    | capability::CLIENT_SSL
    | capability::CLIENT_ZSTD_COMPRESSION_ALGORITHM;

/// Clears the bits of the hidden capabilities in a greeting, but of those that are shown sets them.
/// Their lower half stands behind the version, the connection's id and the first scramble, the upper
/// one behind collation and status.
pub fn hide(greeting: &mut [u8], shown: u32) -> Result<(), Error> {
    let version = Greeting::read(greeting)?.version.len();
    let lower = 1 + version + 1 + 4 + 8 + 1;
    let upper = lower + 2 + 1 + 2;
    let bits = HIDDEN.to_le_bytes().into_iter().zip(shown.to_le_bytes());
    for (at, (hidden, shown)) in [lower, lower + 1, upper, upper + 1].into_iter().zip(bits) {
        if let Some(byte) = greeting.get_mut(at) {
            *byte = *byte & !hidden | shown;
        }
    }
    Ok(())
}
