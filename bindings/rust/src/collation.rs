//! Some collations by their ids (MySQL Reference Manual and MariaDB, "Supported Character Sets and
//! Collations"). A server lists all that it has in `information_schema.COLLATIONS`.

/// The old default.
pub const LATIN1_SWEDISH_CI: u16 = 8;
/// ASCII.
pub const ASCII_GENERAL_CI: u16 = 11;
/// UTF-8 up to three bytes a character.
pub const UTF8MB3_GENERAL_CI: u16 = 33;
/// UTF-8, as MariaDB compares it by default.
pub const UTF8MB4_GENERAL_CI: u16 = 45;
/// UTF-8, byte by byte.
pub const UTF8MB4_BIN: u16 = 46;
/// Bytes: no text.
pub const BINARY: u16 = 63;
/// UTF-8 up to three bytes a character, byte by byte.
pub const UTF8MB3_BIN: u16 = 83;
/// UTF-8, as Unicode compares it.
pub const UTF8MB4_UNICODE_CI: u16 = 224;
/// UTF-8, as MySQL 8 compares it by default.
pub const UTF8MB4_0900_AI_CI: u16 = 255;
