//! Bits of a server's status, as greetings and OK and EOF packets have it (MySQL: Client/Server
//! Protocol, "Status Flags").

/// A transaction is open.
pub const SERVER_STATUS_IN_TRANS: u16 = 1;
/// Each statement is committed as it ends.
pub const SERVER_STATUS_AUTOCOMMIT: u16 = 1 << 1;
/// Another result follows.
pub const SERVER_MORE_RESULTS_EXISTS: u16 = 1 << 3;
/// No good index was used.
pub const SERVER_STATUS_NO_GOOD_INDEX_USED: u16 = 1 << 4;
/// No index was used.
pub const SERVER_STATUS_NO_INDEX_USED: u16 = 1 << 5;
/// A cursor is open: rows are fetched.
pub const SERVER_STATUS_CURSOR_EXISTS: u16 = 1 << 6;
/// The cursor has no more rows.
pub const SERVER_STATUS_LAST_ROW_SENT: u16 = 1 << 7;
/// A database was dropped.
pub const SERVER_STATUS_DB_DROPPED: u16 = 1 << 8;
/// The server's SQL mode has NO_BACKSLASH_ESCAPES.
pub const SERVER_STATUS_NO_BACKSLASH_ESCAPES: u16 = 1 << 9;
/// A statement's columns are others than before.
pub const SERVER_STATUS_METADATA_CHANGED: u16 = 1 << 10;
/// The query took longer than the server's limit for slow ones.
pub const SERVER_QUERY_WAS_SLOW: u16 = 1 << 11;
/// The rows are what a procedure put out.
pub const SERVER_PS_OUT_PARAMS: u16 = 1 << 12;
/// The open transaction only reads.
pub const SERVER_STATUS_IN_TRANS_READONLY: u16 = 1 << 13;
/// The packet tells of changes of the session's state.
pub const SERVER_SESSION_STATE_CHANGED: u16 = 1 << 14;
/// The SQL mode has ANSI_QUOTES, which MariaDB alone tells.
pub const SERVER_STATUS_ANSI_QUOTES: u16 = 1 << 15;
