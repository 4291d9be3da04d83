//! Payloads that are longer than what is read. In the place of a command its front is read, and in
//! the place of a row as many NULLs as it has values. The reading goes on behind it.

use crate::audit::{Audit, Follows, COM_STMT_BULK_EXECUTE, COM_STMT_EXECUTE};
use crate::choosing::Lines;
use mysql_session::{capability, Phase, Side};
use std::mem;

const HEADER: usize = 4;
/// A packet of so many bytes is followed by another one of the same payload.
const CHUNK: usize = 0xff_ffff;
/// So much of a command is read in its place.
const FRONT: usize = 1 << 16;
/// An execution in bulk, or a command with many attributes, is read as a list of many times its size. A
/// longer one is told up to its front.
const LISTED: usize = 1 << 18;
/// More attributes than these are many.
const MANY: u64 = 1 << 12;
const COM_QUERY: u8 = 0x03;

/// Both streams, packet by packet.
pub struct Skipping {
    longest: usize,
    streams: [Stream; 2],
    /// How many packets of this command and its reply weren't read. Those behind them have lower
    /// numbers for the reader by as many.
    shift: u8,
}

#[derive(Default)]
struct Stream {
    /// The front of a header that isn't whole.
    header: Vec<u8>,
    /// How many bytes of a packet are to come.
    left: usize,
    /// Whether another packet of the payload follows it.
    goes_on: bool,
    long: Option<Long>,
}

/// A payload that is too long, or may become so. It is kept until that is known.
struct Long {
    number: u8,
    packets: u8,
    length: usize,
    /// Its packets, or the front of the first one.
    bytes: Vec<u8>,
    /// What is read in place of a row.
    row: Option<Vec<u8>>,
    is_skipped: bool,
}

fn header_of(length: usize, number: u8) -> [u8; HEADER] {
    let [low, middle, high, ..] = length.to_le_bytes();
    [low, middle, high, number]
}

/// Whether a command is read as a list of many times its size. Of one whose front isn't there that isn't
/// known.
fn is_list(front: &[u8], has_attributes: bool) -> Option<bool> {
    let count = match *front {
        [COM_STMT_BULK_EXECUTE, ..] => return Some(true),
        [COM_QUERY, ref behind @ ..] if has_attributes => behind,
        [COM_STMT_EXECUTE, ref behind @ ..] if has_attributes => behind.get(9..)?,
        [] => return None,
        _ => return Some(false),
    };
    Some(match *count {
        [] | [0xfc] | [0xfc, _] => return None,
        [0xfc, low, high, ..] => u64::from(u16::from_le_bytes([low, high])) > MANY,
        [first, ..] => first > 0xfc,
    })
}

fn length_in(header: &[u8]) -> usize {
    usize::from(header[0]) | usize::from(header[1]) << 8 | usize::from(header[2]) << 16
}

impl Skipping {
    pub fn new(longest: usize) -> Skipping {
        Skipping {
            longest,
            streams: Default::default(),
            shift: 0,
        }
    }

    /// How many bytes it keeps.
    pub fn held(&self) -> usize {
        let longs = self.streams.iter().filter_map(|it| it.long.as_ref());
        longs.map(|long| long.bytes.capacity()).sum()
    }

    /// The front of a header of a side that isn't whole.
    pub fn header(&self, side: Side) -> &[u8] {
        &self.streams[side as usize].header
    }

    /// Has bytes of a side read, and says how many were taken.
    pub fn feed(&mut self, audit: &mut Audit<Lines>, side: Side, bytes: &[u8]) -> usize {
        if audit.follows != Follows::Reads {
            let stream = mem::take(&mut self.streams[side as usize]);
            audit.teller.take_bytes(side, stream.header.len());
            return audit.feed(side, bytes);
        }
        let stream = &mut self.streams[side as usize];
        if let (Some(long), 1..) = (&mut stream.long, stream.left) {
            let count = bytes.len().min(stream.left);
            long.take(&bytes[..count], self.longest);
            stream.left -= count;
            self.end_long(audit, side);
            return count;
        }
        let most = bytes.len().min(audit.connection.room(side));
        let longest = longest_plain(side, self.longest);
        let (count, left, goes_on) = stream.plain(&bytes[..most], longest, self.shift);
        if count > 0 {
            (stream.left, stream.goes_on) = (left, goes_on);
            return audit.feed_within(side, &bytes[..count]);
        }
        if stream.left > 0 {
            // There is no room.
            return audit.feed(side, bytes);
        }
        self.take_header(audit, side, bytes)
    }

    /// Notes that a side's stream ends.
    pub fn close(&mut self, audit: &mut Audit<Lines>, side: Side) {
        let stream = mem::take(&mut self.streams[side as usize]);
        audit.feed(side, &stream.header);
    }

    /// Takes bytes of a header, which may begin a payload that is too long.
    fn take_header(&mut self, audit: &mut Audit<Lines>, side: Side, bytes: &[u8]) -> usize {
        let stream = &mut self.streams[side as usize];
        let count = bytes.len().min(HEADER - stream.header.len());
        let header = [&stream.header, &bytes[..count]].concat();
        let &[low, middle, high, number] = &header[..] else {
            stream.header = header;
            return count;
        };
        let length = length_in(&[low, middle, high]);
        let begins = !stream.goes_on;
        if begins && audit.connection.phase() == Phase::Command {
            self.shift = 0;
        }
        let is_command = side == Side::Client && audit.connection.phase() == Phase::Command;
        let is_plain = || is_list(&bytes[count..], has_attributes(audit)) == Some(false);
        let is_listed = is_command && length > LISTED && !is_plain();
        let may_be_long = begins && (length > self.longest || length == CHUNK || is_listed);
        let is_over = audit.ended.contains(&side.other());
        let is_due = audit.connection.turn() == Some(side);
        if begins && !is_due && !is_over && (self.shift != 0 || may_be_long) {
            // It waits for its turn.
            return 0;
        }
        if may_be_long && is_due {
            stream.long = Long::of(audit, side, number.wrapping_sub(self.shift));
        }
        match &mut stream.long {
            Some(long) => long.begin(length, self.longest),
            None if audit.connection.room(side) < HEADER => {
                if !audit.is_stuck(side) {
                    return 0;
                }
                audit.give_up_stuck();
                return audit.feed(side, bytes);
            }
            None => {
                audit.feed(side, &header_of(length, number.wrapping_sub(self.shift)));
            }
        }
        let stream = &mut self.streams[side as usize];
        stream.header.clear();
        (stream.left, stream.goes_on) = (length, length == CHUNK);
        self.end_long(audit, side);
        count
    }

    /// Has a payload be read that is whole, or what stands for it.
    fn end_long(&mut self, audit: &mut Audit<Lines>, side: Side) {
        let stream = &mut self.streams[side as usize];
        if stream.left > 0 || stream.goes_on {
            return;
        }
        let Some(mut long) = stream.long.take() else {
            return;
        };
        let front = &long.bytes[HEADER..];
        let is_listed = side == Side::Client
            && audit.connection.phase() == Phase::Command
            && long.length > LISTED
            && is_list(front, has_attributes(audit)) == Some(true);
        if !long.is_skipped && !is_listed {
            let taken = audit.feed(side, &long.bytes);
            return end_taken(audit, taken, long.bytes.len());
        }
        if is_listed {
            long.bytes.truncate(HEADER + FRONT.min(self.longest));
        }
        self.shift = self.shift.wrapping_add(long.packets - 1);
        let front = long.row.as_deref().unwrap_or(&long.bytes[HEADER..]);
        let packet = [&header_of(front.len(), long.number), front].concat();
        let whole = long.length + HEADER * usize::from(long.packets);
        audit
            .teller
            .skip(long.length, long.length - front.len().min(long.length));
        let taken = audit.feed(side, &packet);
        end_taken(audit, taken, packet.len());
        audit.pass_by(side, whole - packet.len().min(whole));
        audit.teller.end_skip(side);
    }
}

/// A longer payload of a side may be one that is skipped.
fn longest_plain(side: Side, longest: usize) -> usize {
    match side {
        Side::Client => longest.min(LISTED),
        Side::Server => longest,
    }
}

fn has_attributes(audit: &Audit<Lines>) -> bool {
    audit.connection.capabilities().protocol & capability::CLIENT_QUERY_ATTRIBUTES != 0
}

/// A payload goes in as a whole. Behind a part of it nothing can be read.
fn end_taken(audit: &mut Audit<Lines>, taken: usize, length: usize) {
    if taken < length && audit.follows == Follows::Reads {
        audit.give_up(&"there is no room for a payload");
    }
}

impl Stream {
    /// How many of these bytes can be read as they are, and how the stream stands behind them.
    fn plain(&self, bytes: &[u8], longest: usize, shift: u8) -> (usize, usize, bool) {
        let (mut end, mut goes_on) = (self.left, self.goes_on);
        if self.long.is_some() || !self.header.is_empty() {
            return (0, end, goes_on);
        }
        while shift == 0 && end + HEADER <= bytes.len() {
            let length = length_in(&bytes[end..]);
            if !goes_on && (length > longest || length == CHUNK) {
                break;
            }
            end += HEADER + length;
            goes_on = length == CHUNK;
        }
        let count = end.min(bytes.len());
        (count, end - count, goes_on)
    }
}

impl Long {
    /// A payload in whose place another can be read: a command, bytes of a file, or a row.
    fn of(audit: &Audit<Lines>, side: Side, number: u8) -> Option<Long> {
        let row = match audit.connection.phase() {
            Phase::Command | Phase::FileData if side == Side::Client => None,
            Phase::Reply => Some(audit.teller.row_of_nulls()?),
            _ => return None,
        };
        Some(Long {
            number,
            packets: 0,
            length: 0,
            bytes: Vec::new(),
            row,
            is_skipped: false,
        })
    }

    /// Takes a header.
    fn begin(&mut self, length: usize, longest: usize) {
        let header = header_of(length, self.number.wrapping_add(self.packets));
        self.packets = self.packets.wrapping_add(1);
        self.length += length;
        self.is_skipped |= self.length > longest;
        if self.bytes.is_empty() || !self.is_skipped {
            self.bytes.extend_from_slice(&header);
        } else {
            self.bytes.truncate(HEADER + FRONT.min(longest));
            self.bytes.shrink_to_fit();
        }
    }

    /// Takes bytes of a packet.
    fn take(&mut self, bytes: &[u8], longest: usize) {
        let room = match self.is_skipped {
            true => (HEADER + FRONT.min(longest)).saturating_sub(self.bytes.len()),
            false => bytes.len(),
        };
        self.bytes
            .extend_from_slice(&bytes[..bytes.len().min(room)]);
    }
}

impl Audit<Lines> {
    /// Notes that bytes of a side came which aren't read.
    fn pass_by(&mut self, side: Side, count: usize) {
        self.teller.take_bytes(side, count);
        self.before[side as usize] += count as u64;
    }
}
