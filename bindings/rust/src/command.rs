//! Payloads of commands, as [`Connection::put`](crate::Connection::put) takes them.
//!
//! Each is laid out as MySQL's "Command Phase" and MariaDB's "Client/Server Protocol" have it.
//! Executions are none of them: [`executions`](crate::executions) has those of parameter sets, and
//! [`Connection::put_packets`](crate::Connection::put_packets) puts them.

use crate::capability;
use crate::codes::{Code, Error};
use crate::login::Login;

/// COM_QUIT: the client ends the connection. It has no reply.
///
/// ```
/// assert_eq!(mysql_session::command::quit(), [1]);
/// ```
pub fn quit() -> Vec<u8> {
    vec![0x01]
}

/// COM_INIT_DB: another schema by default.
pub fn init_db(schema: &[u8]) -> Vec<u8> {
    numbered(0x02, &[schema])
}

/// COM_QUERY: a query, on a connection where [`CLIENT_QUERY_ATTRIBUTES`] isn't in force.
///
/// ```
/// assert_eq!(mysql_session::command::query(b"SELECT 1"), b"\x03SELECT 1");
/// ```
///
/// [`CLIENT_QUERY_ATTRIBUTES`]: crate::capability::CLIENT_QUERY_ATTRIBUTES
pub fn query(text: &[u8]) -> Vec<u8> {
    numbered(0x03, &[text])
}

/// COM_QUERY: a query without attributes, on a connection where [`CLIENT_QUERY_ATTRIBUTES`] is in
/// force: it says that it has none.
///
/// ```
/// let payload = mysql_session::command::query_without_attributes(b"SELECT 1");
/// assert_eq!(payload, b"\x03\0\x01SELECT 1");
/// ```
///
/// [`CLIENT_QUERY_ATTRIBUTES`]: crate::capability::CLIENT_QUERY_ATTRIBUTES
pub fn query_without_attributes(text: &[u8]) -> Vec<u8> {
    numbered(0x03, &[&[0, 1], text])
}

/// COM_STATISTICS: a line about the server.
pub fn statistics() -> Vec<u8> {
    vec![0x09]
}

/// COM_PROCESS_KILL: another connection ends, by its id.
pub fn process_kill(connection: u32) -> Vec<u8> {
    numbered(0x0c, &[&connection.to_le_bytes()])
}

/// COM_PING: whether the server is there.
pub fn ping() -> Vec<u8> {
    vec![0x0e]
}

/// COM_CHANGE_USER: another user logs in, by the capabilities that are in force: those are the
/// login's.
///
/// ```
/// use mysql_session::{capability, command, Login};
///
/// # fn main() -> Result<(), mysql_session::Error> {
/// let payload = command::change_user(&Login {
///     collation: 45,
///     capabilities: capability::CLIENT_SECURE_CONNECTION,
///     user: b"ann",
///     database: b"shop",
///     ..Login::default()
/// })?;
/// assert_eq!(payload, b"\x11ann\0\0shop\0\x2d\0");
/// # Ok(())
/// # }
/// ```
///
/// # Errors
/// [`Code::BAD_PACKET`] where a text can't be written whole: one with a zero byte, or a response
/// that is too long.
pub fn change_user(login: &Login<'_>) -> Result<Vec<u8>, Error> {
    let has = |capability: u32| login.capabilities & capability != 0;
    let mut payload = vec![0x11];
    put_text(login.user, &mut payload)?;
    if has(capability::CLIENT_SECURE_CONNECTION) {
        let length = u8::try_from(login.response.len()).map_err(|_| Code::BAD_PACKET)?;
        payload.push(length);
        payload.extend_from_slice(login.response);
    } else {
        put_text(login.response, &mut payload)?;
    }
    put_text(login.database, &mut payload)?;
    payload.extend([login.collation, 0]);
    if has(capability::CLIENT_PLUGIN_AUTH) {
        put_text(login.plugin, &mut payload)?;
    }
    if has(capability::CLIENT_CONNECT_ATTRS) {
        payload.push(0);
    }
    Ok(payload)
}

/// COM_STMT_PREPARE: a statement is prepared.
pub fn prepare(text: &[u8]) -> Vec<u8> {
    numbered(0x16, &[text])
}

/// COM_STMT_SEND_LONG_DATA: a piece of the parameter at a position, from 0, for the next execution.
/// It has no reply.
pub fn long_data(statement: u32, place: u16, data: &[u8]) -> Vec<u8> {
    numbered(
        0x18,
        &[&statement.to_le_bytes(), &place.to_le_bytes(), data],
    )
}

/// COM_STMT_CLOSE: a statement goes. It has no reply.
///
/// ```
/// assert_eq!(mysql_session::command::close(7), [0x19, 7, 0, 0, 0]);
/// ```
pub fn close(statement: u32) -> Vec<u8> {
    numbered(0x19, &[&statement.to_le_bytes()])
}

/// COM_STMT_RESET: a statement's long data and its cursor go.
pub fn reset_statement(statement: u32) -> Vec<u8> {
    numbered(0x1a, &[&statement.to_le_bytes()])
}

/// COM_SET_OPTION: from then on a query may be several ones, by 0, or may not, by 1.
pub fn set_option(option: u16) -> Vec<u8> {
    numbered(0x1b, &[&option.to_le_bytes()])
}

/// COM_STMT_FETCH: so many rows of an open cursor.
pub fn fetch(statement: u32, rows: u32) -> Vec<u8> {
    numbered(0x1c, &[&statement.to_le_bytes(), &rows.to_le_bytes()])
}

/// COM_RESET_CONNECTION: the session begins anew.
pub fn reset_connection() -> Vec<u8> {
    vec![0x1f]
}

/// The command of a number with these parts behind it.
fn numbered(number: u8, parts: &[&[u8]]) -> Vec<u8> {
    [&[number][..], &parts.concat()].concat()
}

/// Puts a text, which a zero byte ends.
fn put_text(text: &[u8], out: &mut Vec<u8>) -> Result<(), Error> {
    if text.contains(&0) {
        return Err(Code::BAD_PACKET.into());
    }
    out.extend_from_slice(text);
    out.push(0);
    Ok(())
}
