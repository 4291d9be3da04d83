//! What a replica sends.

use crate::bytes::Bytes;
use crate::codes::{answer, Error};
use crate::raw;
use crate::readable::{debug_with_texts, Readable};
use std::collections::BTreeMap;
use std::fmt;

/// BINLOG_DUMP_NON_BLOCK: the server ends the log by an EOF packet where it has no more events, in
/// place of waiting for them.
pub const BINLOG_DUMP_NON_BLOCK: u16 = 1;

/// COM_REGISTER_SLAVE: a replica makes itself known.
#[derive(Clone, Copy, Default, PartialEq, Eq, Hash)]
pub struct RegisterReplica<'a> {
    /// The replica's server id.
    pub server: u32,
    /// Its host, as it is shown among the replicas.
    pub host: &'a [u8],
    /// Its user, likewise.
    pub user: &'a [u8],
    /// Its password, likewise.
    pub password: &'a [u8],
    /// Its port, likewise.
    pub port: u16,
}

/// All but the password.
impl fmt::Debug for RegisterReplica<'_> {
    fn fmt(&self, formatter: &mut fmt::Formatter<'_>) -> fmt::Result {
        formatter
            .debug_struct("RegisterReplica")
            .field("server", &self.server)
            .field("host", &Readable(self.host))
            .field("user", &Readable(self.user))
            .field("port", &self.port)
            .finish_non_exhaustive()
    }
}

impl RegisterReplica<'_> {
    /// Appends the command's payload to `out`, its first byte included.
    ///
    /// # Errors
    /// [`Code::BAD_PACKET`](crate::Code::BAD_PACKET) where a text has more than 255 bytes,
    /// [`Code::MEMORY`](crate::Code::MEMORY); nothing is appended then.
    pub fn put(&self, out: &mut Bytes) -> Result<(), Error> {
        // SAFETY: "Handles": by `Handle::get`; "Bytes go in": all are slices.
        Ok(answer(unsafe {
            raw::mysql_session_register_replica_put(
                out.changing(),
                self.server,
                self.host.as_ptr(),
                self.host.len(),
                self.user.as_ptr(),
                self.user.len(),
                self.password.as_ptr(),
                self.password.len(),
                self.port,
            )
        })?)
    }
}

/// COM_BINLOG_DUMP: a replica asks for the binary log from a position on.
///
/// ```
/// use mysql_session::{BinlogDump, Bytes, BINLOG_DUMP_NON_BLOCK};
///
/// # fn main() -> Result<(), mysql_session::Error> {
/// let dump = BinlogDump {
///     server: 9,
///     position: 4,
///     flags: BINLOG_DUMP_NON_BLOCK,
///     file: b"log.000001",
/// };
/// let mut out = Bytes::new()?;
/// dump.put(&mut out)?;
/// assert_eq!(out.as_slice(), b"\x12\x04\0\0\0\x01\0\x09\0\0\0log.000001");
/// # Ok(())
/// # }
/// ```
#[derive(Clone, Copy, Default, PartialEq, Eq, Hash)]
pub struct BinlogDump<'a> {
    /// The replica's server id.
    pub server: u32,
    /// The position in the file, at least 4.
    pub position: u32,
    /// 0, or [`BINLOG_DUMP_NON_BLOCK`].
    pub flags: u16,
    /// The file's name; none means the first file.
    pub file: &'a [u8],
}

debug_with_texts!(BinlogDump: server, position, flags; file);

impl BinlogDump<'_> {
    /// Appends the command's payload to `out`, its first byte included.
    ///
    /// # Errors
    /// [`Code::MEMORY`](crate::Code::MEMORY); nothing is appended then.
    pub fn put(&self, out: &mut Bytes) -> Result<(), Error> {
        // SAFETY: "Handles": by `Handle::get`; "Bytes go in": the name is a slice.
        Ok(answer(unsafe {
            raw::mysql_session_binlog_dump_put(
                out.changing(),
                self.server,
                self.position,
                self.flags,
                self.file.as_ptr(),
                self.file.len(),
            )
        })?)
    }
}

/// COM_BINLOG_DUMP_GTID: the same by MySQL's global transaction identifiers. (A MariaDB takes a
/// position by `@slave_connect_state`, and [`BinlogDump`].)
#[derive(Clone, Copy, Default, PartialEq, Eq, Hash)]
pub struct BinlogDumpGtid<'a> {
    /// The replica's server id.
    pub server: u32,
    /// The position in the file, at least 4.
    pub position: u64,
    /// 0, or [`BINLOG_DUMP_NON_BLOCK`]; BINLOG_THROUGH_GTID is put as there are sets.
    pub flags: u16,
    /// The file's name; none means the first file.
    pub file: &'a [u8],
    /// The transactions that the replica has, as a server prints them in `@@gtid_executed`:
    /// `3e11fa47-71ca-11e1-9e33-c80aa9429562:1-5:tag:1-3`. Blanks, empty parts, tags in capitals and
    /// intervals in any order are taken too (MySQL Reference Manual, "GTID Sets").
    pub gtids: &'a [u8],
}

debug_with_texts!(BinlogDumpGtid: server, position, flags; file, gtids);

impl BinlogDumpGtid<'_> {
    /// Appends the command's payload to `out`, its first byte included.
    ///
    /// # Errors
    /// [`Code::BAD_PACKET`](crate::Code::BAD_PACKET) where the identifiers aren't such a text,
    /// [`Code::MEMORY`](crate::Code::MEMORY); nothing is appended then.
    pub fn put(&self, out: &mut Bytes) -> Result<(), Error> {
        // A text that is none is refused by the library.
        let sets = gtid_sets(self.gtids).map(String::into_bytes);
        let gtids = sets.as_deref().unwrap_or(self.gtids);
        // SAFETY: "Handles": by `Handle::get`; "Bytes go in": both are slices.
        Ok(answer(unsafe {
            raw::mysql_session_binlog_dump_gtid_put(
                out.changing(),
                self.server,
                self.position,
                self.flags,
                self.file.as_ptr(),
                self.file.len(),
                gtids.as_ptr(),
                gtids.len(),
            )
        })?)
    }
}

/// The intervals of each set, by its source and its tag, which is empty where there is none.
type Sets = BTreeMap<(String, String), Vec<(u64, u64)>>;

/// Sets of identifiers as the library takes them: each with one tag or none, and with its intervals in
/// order. None of a text that is no such sets.
fn gtid_sets(gtids: &[u8]) -> Option<String> {
    let text = std::str::from_utf8(gtids).ok()?.to_ascii_lowercase();
    let mut sets = Sets::new();
    for part in text.split(',') {
        add_part(part, &mut sets)?;
    }
    let mut written: Vec<String> = Vec::new();
    for ((source, tag), intervals) in sets {
        let tag = if tag.is_empty() { tag } else { tag + ":" };
        let intervals: Vec<String> = merged(intervals)
            .iter()
            .map(|(first, last)| format!("{first}-{last}"))
            .collect();
        written.push(format!("{source}:{tag}{}", intervals.join(":")));
    }
    Some(written.join(","))
}

/// Adds a part between commas: a source, and tags and intervals behind colons. An empty part adds
/// nothing.
fn add_part(part: &str, sets: &mut Sets) -> Option<()> {
    let mut fields = part.split(':').map(str::trim_ascii);
    let name = fields.next()?;
    if name.is_empty() {
        return fields.next().is_none().then_some(());
    }
    let source = source_of(name)?;
    let mut tag = String::new();
    for field in fields {
        if is_tag(field) {
            tag = field.to_string();
            continue;
        }
        let interval = interval_of(field)?;
        let key = (source.clone(), tag.clone());
        sets.entry(key).or_default().push(interval);
    }
    Some(())
}

/// A UUID with its hyphens, which may be missing.
fn source_of(name: &str) -> Option<String> {
    let digits: String = name.chars().filter(|letter| *letter != '-').collect();
    let is_uuid = digits.len() == 32 && digits.bytes().all(|digit| digit.is_ascii_hexdigit());
    is_uuid.then(|| {
        let parts = [0..8, 8..12, 12..16, 16..20, 20..32].map(|part| &digits[part]);
        parts.join("-")
    })
}

/// Whether a field is a tag: at most 32 letters, digits and underscores, of which no digit is first.
fn is_tag(field: &str) -> bool {
    let is_of_tags = |letter: u8| letter.is_ascii_alphanumeric() || letter == b'_';
    field.len() <= 32
        && field.bytes().all(is_of_tags)
        && field
            .bytes()
            .next()
            .is_some_and(|first| !first.is_ascii_digit())
}

/// One number, or two around a hyphen.
fn interval_of(field: &str) -> Option<(u64, u64)> {
    let number = |digits: &str| {
        let digits = digits.trim_ascii();
        let is_number = digits.bytes().all(|digit| digit.is_ascii_digit());
        is_number.then(|| digits.parse().ok()).flatten()
    };
    match field.split_once('-') {
        Some((first, last)) => Some((number(first)?, number(last)?)),
        None => number(field).map(|both| (both, both)),
    }
}

/// Intervals in order, of which none touches another.
fn merged(mut intervals: Vec<(u64, u64)>) -> Vec<(u64, u64)> {
    intervals.sort_unstable();
    let mut merged: Vec<(u64, u64)> = Vec::new();
    for (first, last) in intervals {
        match merged.last_mut() {
            Some(before) if first <= before.1.saturating_add(1) => before.1 = before.1.max(last),
            _ => merged.push((first, last)),
        }
    }
    merged
}

#[cfg(test)]
mod tests {
    use super::gtid_sets;

    #[test]
    fn gtids_are_read_as_a_server_prints_and_takes_them() {
        let rows = [
            ("", Some("")),
            (" ,", Some("")),
            ("@", Some("")),
            ("@:1-5,", Some("@:1-5")),
            (" @ : 1 - 5 ", Some("@:1-5")),
            ("@:TAG:1", Some("@:tag:1-1")),
            ("@:1-22069:mytag:1-3", Some("@:1-22069,@:mytag:1-3")),
            ("@:mytag:1-3:5:other:7", Some("@:mytag:1-3:5-5,@:other:7-7")),
            ("@:tag:tag2:1", Some("@:tag2:1-1")),
            ("@:3:1:1-2", Some("@:1-3")),
            ("@:1,\n@:3", Some("@:1-1:3-3")),
            ("@:", None),
            ("@::1", None),
            ("@:t ag:1", None),
            ("@:1a:1", None),
            ("@:+1", None),
            ("@:1 2", None),
            (":1", None),
            ("no such text", None),
        ];
        let source = "3e11fa47-71ca-11e1-9e33-c80aa9429562";
        for (text, wanted) in rows {
            let found = gtid_sets(text.replace('@', &source.to_uppercase()).as_bytes());
            assert_eq!(
                found,
                wanted.map(|sets| sets.replace('@', source)),
                "{text}"
            );
        }
    }
}
