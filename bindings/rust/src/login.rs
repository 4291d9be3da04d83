//! Logging in: what a server greets with, and what a client answers.

use crate::bytes::Bytes;
use crate::codes::{answer, Error};
use crate::handle::check_interface;
use crate::raw;
use crate::readable::debug_with_texts;

/// What a server greets a client with: the payload of its first packet.
///
/// ```
/// use mysql_session::{capability, Bytes, Greeting};
///
/// # fn main() -> Result<(), mysql_session::Error> {
/// let greeting = Greeting {
///     connection: 7,
///     capabilities: capability::CLIENT_PROTOCOL_41 | capability::CLIENT_SECURE_CONNECTION
///         | capability::CLIENT_PLUGIN_AUTH,
///     version: b"8.0.0-tests",
///     scramble_1: b"abcdefgh",
///     scramble_2: b"ijklmnopqrst",
///     plugin: b"mysql_native_password",
///     ..Greeting::default()
/// };
/// let mut out = Bytes::new()?;
/// greeting.put(&mut out)?;
/// let read = Greeting::read(&out)?;
/// assert_eq!(read.version, b"8.0.0-tests");
/// assert_eq!(read.connection, 7);
/// # Ok(())
/// # }
/// ```
#[derive(Clone, Copy, Default, PartialEq, Eq, Hash)]
pub struct Greeting<'a> {
    /// The protocol's version, which is 10 in each greeting that is put.
    pub protocol: u8,
    /// The number of the server's collation.
    pub collation: u8,
    /// The server's status, in bits.
    pub status: u16,
    /// The connection's id.
    pub connection: u32,
    /// The server's capabilities. CLIENT_SECURE_CONNECTION is always put, CLIENT_PLUGIN_AUTH as the
    /// plugin has a length.
    pub capabilities: u32,
    /// MariaDB's own, which clients look at where [`CLIENT_LONG_PASSWORD`] isn't set.
    ///
    /// [`CLIENT_LONG_PASSWORD`]: crate::capability::CLIENT_LONG_PASSWORD
    pub mariadb_capabilities: u32,
    /// The server's version.
    pub version: &'a [u8],
    /// The first eight bytes that a password is scrambled with.
    pub scramble_1: &'a [u8],
    /// The other twelve, without the zero behind them.
    pub scramble_2: &'a [u8],
    /// The plugin that the server asks for.
    pub plugin: &'a [u8],
}

debug_with_texts!(Greeting: protocol, collation, status, connection, capabilities,
    mariadb_capabilities; version, scramble_1, scramble_2, plugin);

impl<'a> Greeting<'a> {
    /// Reads the payload of a server's first packet.
    ///
    /// # Errors
    /// [`Code::BAD_PACKET`](crate::Code::BAD_PACKET).
    pub fn read(payload: &'a [u8]) -> Result<Greeting<'a>, Error> {
        check_interface();
        let mut shown = raw::Greeting::default();
        // SAFETY: "Bytes go in": the payload is a slice; "Results go out": a local.
        answer(unsafe {
            raw::mysql_session_greeting_read(payload.as_ptr(), payload.len(), &mut shown)
        })?;
        // SAFETY: "The texts lie in the payload that was read", which is borrowed for 'a.
        Ok(unsafe {
            Greeting {
                protocol: shown.protocol,
                collation: shown.collation,
                status: shown.status,
                connection: shown.connection,
                capabilities: shown.capabilities,
                mariadb_capabilities: shown.mariadb_capabilities,
                version: shown.version.bytes(),
                scramble_1: shown.scramble_1.bytes(),
                scramble_2: shown.scramble_2.bytes(),
                plugin: shown.plugin.bytes(),
            }
        })
    }

    /// Appends the payload of such a packet to `out`, by version 10 of the protocol.
    ///
    /// # Errors
    /// [`Code::BAD_PACKET`](crate::Code::BAD_PACKET) where the scrambles aren't of 8 and 12 bytes,
    /// or the version or the plugin has a zero byte, [`Code::MEMORY`](crate::Code::MEMORY); nothing
    /// is appended then.
    pub fn put(&self, out: &mut Bytes) -> Result<(), Error> {
        // SAFETY: "Handles": by `Handle::get`; "Bytes go in": all are slices.
        Ok(answer(unsafe {
            raw::mysql_session_greeting_put(
                out.changing(),
                self.connection,
                self.capabilities,
                self.mariadb_capabilities,
                self.collation,
                self.status,
                self.version.as_ptr(),
                self.version.len(),
                self.scramble_1.as_ptr(),
                self.scramble_1.len(),
                self.scramble_2.as_ptr(),
                self.scramble_2.len(),
                self.plugin.as_ptr(),
                self.plugin.len(),
            )
        })?)
    }
}

/// What a client answers to the greeting: who logs in.
///
/// ```
/// use mysql_session::{capability, Bytes, Login};
///
/// # fn main() -> Result<(), mysql_session::Error> {
/// let login = Login {
///     capabilities: capability::CLIENT_PROTOCOL_41 | capability::CLIENT_SECURE_CONNECTION,
///     user: b"replica",
///     plugin: b"mysql_native_password",
///     ..Login::default()
/// };
/// let mut out = Bytes::new()?;
/// login.put(1 << 24, &mut out)?;
/// assert_eq!(Login::read(&out)?.user, b"replica");
/// # Ok(())
/// # }
/// ```
#[derive(Clone, Copy, Default, PartialEq, Eq, Hash)]
pub struct Login<'a> {
    /// The number of the client's collation, which is 45 (utf8mb4_general_ci) in each login that is
    /// put.
    pub collation: u8,
    /// The client's capabilities. CLIENT_CONNECT_WITH_DB and CLIENT_PLUGIN_AUTH are put as the
    /// database and the plugin have a length, CLIENT_CONNECT_ATTRS is not.
    pub capabilities: u32,
    /// MariaDB's own, which such a server looks at where [`CLIENT_LONG_PASSWORD`] isn't set.
    ///
    /// [`CLIENT_LONG_PASSWORD`]: crate::capability::CLIENT_LONG_PASSWORD
    pub mariadb_capabilities: u32,
    /// The user's name.
    pub user: &'a [u8],
    /// The scrambled password, or none.
    pub response: &'a [u8],
    /// The database, or none.
    pub database: &'a [u8],
    /// The plugin that scrambled the password, or none.
    pub plugin: &'a [u8],
}

debug_with_texts!(
    Login: collation, capabilities, mariadb_capabilities; user, database, plugin; response
);

impl<'a> Login<'a> {
    /// Reads the payload of a client's answer.
    ///
    /// # Errors
    /// [`Code::BAD_PACKET`](crate::Code::BAD_PACKET), [`Code::MEMORY`](crate::Code::MEMORY).
    pub fn read(payload: &'a [u8]) -> Result<Login<'a>, Error> {
        check_interface();
        let mut shown = raw::Login::default();
        // SAFETY: "Bytes go in": the payload is a slice; "Results go out": a local.
        answer(unsafe {
            raw::mysql_session_login_read(payload.as_ptr(), payload.len(), &mut shown)
        })?;
        // SAFETY: "The texts lie in the payload that was read", which is borrowed for 'a, or are
        // the library's own.
        Ok(unsafe {
            Login {
                collation: shown.collation,
                capabilities: shown.capabilities,
                mariadb_capabilities: shown.mariadb_capabilities,
                user: shown.user.bytes(),
                response: shown.response.bytes(),
                database: shown.database.bytes(),
                plugin: shown.plugin.bytes(),
            }
        })
    }

    /// Appends the payload of such an answer to `out`, of a client that takes packets of at most
    /// this many bytes.
    ///
    /// # Errors
    /// [`Code::BAD_PACKET`](crate::Code::BAD_PACKET) where a text can't be written whole: one with
    /// a zero byte, or a response that is too long for the capabilities;
    /// [`Code::MEMORY`](crate::Code::MEMORY). Nothing is appended then.
    pub fn put(&self, max_packet_size: u32, out: &mut Bytes) -> Result<(), Error> {
        // SAFETY: "Handles": by `Handle::get`; "Bytes go in": all are slices.
        Ok(answer(unsafe {
            raw::mysql_session_login_put(
                out.changing(),
                self.capabilities,
                self.mariadb_capabilities,
                max_packet_size,
                self.user.as_ptr(),
                self.user.len(),
                self.response.as_ptr(),
                self.response.len(),
                self.database.as_ptr(),
                self.database.len(),
                self.plugin.as_ptr(),
                self.plugin.len(),
            )
        })?)
    }
}
