//! MySQL and MariaDB connections, and parameter sets of queries, as bytes and back. This is safe
//! Rust over the library for C of this repository, which is compiled from proved code.
//!
//! - [`Receiver`] reads a stream of commands about one query, and shows its parameter sets;
//!   [`Recoder`] and [`recode`] make one form of it.
//! - [`send`] appends [`ParameterSets`] as commands to [`Bytes`], by text, by execution or in bulk.
//!   [`executions`] has those of a statement that was prepared before, [`put_execution`] one with
//!   floats; [`Connection::put_sets`] puts them where the server counted as many parameters. And [`bind_text`] puts one set into the query's text. [`digest`] takes the values out of
//!   a text.
//! - [`Mode`] is how a server reads a text, and [`Spelling`] how byte strings are written in one:
//!   calls whose names end with `_in` take them. [`SessionMode`] is what is known of a session.
//! - [`ReplyReader`] reads a server's reply; [`ReplyWriter`] writes one.
//! - [`Connection`] reads a whole connection, and tells each payload of either side as an
//!   [`Event`]. A client and a server put theirs on it; [`command`] makes payloads of commands.
//! - [`FromValue`] and [`FromRow`] make types of Rust, and tuples, of cells and rows.
//! - [`capability`], [`status`], [`column_type`], [`column_flag`], [`cursor`], [`session_state`]
//!   and [`collation`] have numbers of the protocol by their names.
//! - [`PacketReader`] cuts a stream into payloads, and [`put_packet`] frames them.
//! - [`Greeting`] and [`Login`], [`RegisterReplica`], [`BinlogDump`] and [`BinlogDumpGtid`] are
//!   payloads of a connection's beginning and of a replica.
//!
//! No call opens a socket, and none waits: bytes come in as slices, and go out as [`Bytes`].
//!
//! Each object of the library goes with the value that owns it. What is shown of it, a set's bytes
//! or a row's cells, borrows from that value, and nothing is copied. A value stays in the thread
//! that made it, but for a [`Connection`], which may move between threads; values in different
//! threads share nothing.
//!
//! Texts of values ([`Road::Text`], [`bind_text`], [`value_text`]) are safe for a server whose SQL
//! mode has neither NO_BACKSLASH_ESCAPES nor ANSI_QUOTES. The connection is in UTF-8 or another
//! character set that is safe to quote ([`is_safe_to_quote`]). For any other a value may end its
//! literal. For a server in another mode there are [`send_in`], [`bind_text_in`] and
//! [`value_text_in`]. [`Spelling::Hexadecimal`] is safe in each character set that a client may
//! have, and executions at each server.
//!
//! A call that isn't done answers an [`Error`], and a stream that can't be read on a [`Fault`].
//! Each has a [`Code`], which the library has a text for. A call panics only where the linked
//! library isn't the one that this crate declares.
#![deny(missing_docs)]
#![deny(unsafe_op_in_unsafe_fn)]
#![warn(clippy::all, clippy::undocumented_unsafe_blocks)]

mod bytes;
pub mod capability;
mod codes;
pub mod collation;
pub mod column_flag;
pub mod column_type;
pub mod command;
mod connection;
mod conversions;
pub mod cursor;
mod digests;
mod event_values;
mod events;
mod handle;
mod iter;
mod login;
mod modes;
mod names;
mod packets;
mod phase;
mod raw;
mod readable;
mod receiver;
mod recoder;
mod replication;
mod reply;
mod results;
mod sending;
pub mod session_state;
mod sets;
pub mod status;
mod texts;
mod typed;
mod values;
mod writer;

pub use bytes::Bytes;
pub use codes::{At, Code, End, Error, Fault};
pub use connection::{Connection, ConnectionEnd, ConnectionFault, Side, Statement};
pub use conversions::{FromRow, FromValue, RowError};
pub use digests::{digest, digest_in};
pub use event_values::{Attributes, BulkRow, BulkRows, BulkValue, EventRow, Values};
pub use events::{ClientChange, ClientLogin, ClientRequest, Event, OtherCommand, ServerGreeting};
pub use iter::Iter;
pub use login::{Greeting, Login};
pub use modes::{is_safe_to_quote, Mode, SessionMode, Spelling, ASK_SESSION_MODE};
pub use names::{NameError, NamedQuery};
pub use packets::{put_packet, PacketReader, Payloads};
pub use phase::{Capabilities, Limits, Phase, Reason};
pub use receiver::{Audit, Receiver, Set};
pub use recoder::{recode, recode_in, Recoder};
pub use replication::{BinlogDump, BinlogDumpGtid, RegisterReplica, BINLOG_DUMP_NON_BLOCK};
pub use reply::{Reply, ReplyKind, ReplyReader};
pub use results::{
    Column, ColumnType, Done, ErrorPacket, OkPacket, Prepared, RawRows, ReplyResult, Row, Rows,
    SessionState, SessionStates,
};
pub use sending::{
    bind_text, bind_text_in, bulk_executions, executions, executions_in, place_count,
    put_execution, send, send_in, value_text, value_text_in, Road,
};
pub use sets::ParameterSets;
pub use values::{Content, Date, Time, Value};
pub use writer::ReplyWriter;

/// The version of this crate and of the library.
pub const VERSION: &str = env!("CARGO_PKG_VERSION");

/// Whether the library that this crate links was proved before it was compiled: `proved`,
/// `unproved`, or `unknown` where the library's folder doesn't say.
///
/// ```
/// assert!(["proved", "unproved", "unknown"].contains(&mysql_session::BUILD));
/// ```
pub const BUILD: &str = env!("MYSQL_SESSION_BUILD");

/// Whether the library says of itself that it was proved before it was compiled.
///
/// ```
/// use mysql_session::{is_proved, BUILD};
///
/// assert!(BUILD == "unknown" || is_proved() == (BUILD == "proved"));
/// ```
pub fn is_proved() -> bool {
    // SAFETY: the call has no condition.
    unsafe { raw::mysql_session_build() == 1 }
}

/// The version that the library says it has: that of this crate.
///
/// ```
/// assert_eq!(mysql_session::library_version(), mysql_session::VERSION);
/// ```
pub fn library_version() -> &'static str {
    let mut text = raw::Text::default();
    // SAFETY: "Results go out": both pointers are those of fields of one local.
    unsafe { raw::mysql_session_version(&mut text.at, &mut text.len) };
    // SAFETY: "It is good as long as the program runs."
    let bytes = unsafe { text.bytes::<'static>() };
    std::str::from_utf8(bytes).expect("a version is in ASCII")
}
