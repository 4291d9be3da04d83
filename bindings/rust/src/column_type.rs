//! Numbers of the types of columns, as the protocol names them (MySQL: Client/Server Protocol, "Field
//! Types"): a [`ColumnType`](crate::ColumnType) has one as its kind.
//!
//! Bytes and texts have the same numbers: those with the collation 63 are bytes.

/// A number with a point, as old servers have it.
pub const DECIMAL: u8 = 0;
/// A whole number of 8 bits.
pub const TINY: u8 = 1;
/// A whole number of 16 bits.
pub const SHORT: u8 = 2;
/// A whole number of 32 bits.
pub const LONG: u8 = 3;
/// A float of 32 bits.
pub const FLOAT: u8 = 4;
/// A float of 64 bits.
pub const DOUBLE: u8 = 5;
/// NULL.
pub const NULL: u8 = 6;
/// A moment, with a time of day.
pub const TIMESTAMP: u8 = 7;
/// A whole number of 64 bits.
pub const LONGLONG: u8 = 8;
/// A whole number of 24 bits.
pub const INT24: u8 = 9;
/// A date.
pub const DATE: u8 = 10;
/// A duration.
pub const TIME: u8 = 11;
/// A date with a time of day.
pub const DATETIME: u8 = 12;
/// A year.
pub const YEAR: u8 = 13;
/// A date, within a server.
pub const NEWDATE: u8 = 14;
/// A text, within a server.
pub const VARCHAR: u8 = 15;
/// Bits.
pub const BIT: u8 = 16;
/// A moment, within a server.
pub const TIMESTAMP2: u8 = 17;
/// A date with a time of day, within a server.
pub const DATETIME2: u8 = 18;
/// A duration, within a server.
pub const TIME2: u8 = 19;
/// An array, within a server.
pub const TYPED_ARRAY: u8 = 20;
/// A vector of floats.
pub const VECTOR: u8 = 242;
/// No type that the server knows.
pub const UNKNOWN: u8 = 243;
/// A document of JSON.
pub const JSON: u8 = 245;
/// A number with a point.
pub const NEWDECIMAL: u8 = 246;
/// One word of a list.
pub const ENUM: u8 = 247;
/// Some words of a list.
pub const SET: u8 = 248;
/// Bytes or a text of up to 255 bytes.
pub const TINY_BLOB: u8 = 249;
/// Bytes or a text of up to 2^24 bytes.
pub const MEDIUM_BLOB: u8 = 250;
/// Bytes or a text of up to 2^32 bytes.
pub const LONG_BLOB: u8 = 251;
/// Bytes or a text of any length.
pub const BLOB: u8 = 252;
/// A text, or bytes, each with its length.
pub const VAR_STRING: u8 = 253;
/// A text, or bytes, of a length that is the same in all rows.
pub const STRING: u8 = 254;
/// A geometry.
pub const GEOMETRY: u8 = 255;
