//! Flags of a column (MySQL: Client/Server Protocol, "Column Definition Flags").

/// It doesn't take NULL.
pub const NOT_NULL_FLAG: u16 = 1;
/// It is of the primary key.
pub const PRI_KEY_FLAG: u16 = 1 << 1;
/// It is of a key in which each value comes once.
pub const UNIQUE_KEY_FLAG: u16 = 1 << 2;
/// It is of a key in which values may come again.
pub const MULTIPLE_KEY_FLAG: u16 = 1 << 3;
/// Its type is one of BLOB or TEXT.
pub const BLOB_FLAG: u16 = 1 << 4;
/// Its numbers have no sign.
pub const UNSIGNED_FLAG: u16 = 1 << 5;
/// Its numbers have zeros before them.
pub const ZEROFILL_FLAG: u16 = 1 << 6;
/// Its texts are compared byte by byte.
pub const BINARY_FLAG: u16 = 1 << 7;
/// It holds one word of a list.
pub const ENUM_FLAG: u16 = 1 << 8;
/// The server numbers its rows.
pub const AUTO_INCREMENT_FLAG: u16 = 1 << 9;
/// Its type is TIMESTAMP.
pub const TIMESTAMP_FLAG: u16 = 1 << 10;
/// It holds some words of a list.
pub const SET_FLAG: u16 = 1 << 11;
/// It has no default.
pub const NO_DEFAULT_VALUE_FLAG: u16 = 1 << 12;
/// An update sets it to the time.
pub const ON_UPDATE_NOW_FLAG: u16 = 1 << 13;
/// It is of some key.
pub const PART_KEY_FLAG: u16 = 1 << 14;
/// It is a number.
pub const NUM_FLAG: u16 = 1 << 15;
