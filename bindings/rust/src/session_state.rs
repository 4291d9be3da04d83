//! What of a session changed, as OK packets tell it (MySQL: Client/Server Protocol, "OK_Packet",
//! 'Session State Information'): the kinds of a [`SessionState`](crate::SessionState).

/// A variable has another value.
pub const SESSION_TRACK_SYSTEM_VARIABLES: u8 = 0;
/// Another database is the default.
pub const SESSION_TRACK_SCHEMA: u8 = 1;
/// Whether anything of the state changed.
pub const SESSION_TRACK_STATE_CHANGE: u8 = 2;
/// Global transaction identifiers.
pub const SESSION_TRACK_GTIDS: u8 = 3;
/// How the next transaction begins.
pub const SESSION_TRACK_TRANSACTION_CHARACTERISTICS: u8 = 4;
/// The state of the transaction.
pub const SESSION_TRACK_TRANSACTION_STATE: u8 = 5;
