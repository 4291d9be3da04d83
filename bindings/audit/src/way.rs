//! Bytes of a side that wait for the other.

use crate::choosing::Lines;
use crate::shared::{Settings, Shared};
use std::io::{self, ErrorKind};
use std::time::Instant;

/// What a loop lends to the connection that goes on.
pub struct Means<'a> {
    pub shared: &'a Shared,
    pub settings: &'a Settings,
    pub lines: &'a Lines,
    pub piece: &'a mut [u8],
    pub spare: &'a mut Vec<Vec<u8>>,
    pub now: Instant,
}

/// The bytes of a side that came and aren't both passed on and read. It has no memory while there
/// are none.
#[derive(Default)]
pub struct Way {
    pub bytes: Vec<u8>,
    pub passed: usize,
    pub fed: usize,
    pub ended: bool,
    /// Whether the other side was told of the end.
    pub shut: bool,
}

pub fn is_not_yet(error: &io::Error) -> bool {
    matches!(error.kind(), ErrorKind::WouldBlock | ErrorKind::Interrupted)
}

/// Keeps a buffer that no connection needs.
pub fn keep(spare: &mut Vec<Vec<u8>>, mut buffer: Vec<u8>) {
    if spare.len() < 64 && buffer.capacity() <= 1 << 17 {
        buffer.clear();
        spare.push(buffer);
    }
}
