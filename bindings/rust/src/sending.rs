//! Parameter sets sent.

use crate::bytes::Bytes;
use crate::codes::{answer, At, Code, Error};
use crate::modes::{Mode, Spelling};
use crate::raw;
use crate::sets::ParameterSets;

/// By which commands parameter sets are sent.
#[derive(Clone, Copy, Debug, PartialEq, Eq, Hash)]
pub enum Road {
    /// A text query for each set, in which values are literals.
    ///
    /// Safe for a server in the mode that the call takes, or in the default mode if it takes none.
    /// The connection is in UTF-8 or another character set that is safe to quote
    /// ([`is_safe_to_quote`](crate::is_safe_to_quote)). For any other a value may end its literal.
    Text = 0,
    /// One prepare, and an execution for each set. Safe for any server.
    Execute = 1,
    /// One prepare, and the fewest of MariaDB's bulk executions. Safe for any MariaDB server.
    Bulk = 2,
}

/// How many placeholders a query has, for a server in this mode.
///
/// [`Connection::put_sets`](crate::Connection::put_sets) compares it with the server's number of
/// parameters. Who sends sets without a `Connection` compares them before what follows the prepare
/// is sent. A server runs an execution of another number of values too, with other values
/// than were meant.
///
/// ```
/// use mysql_session::{place_count, Mode};
///
/// # fn main() -> Result<(), mysql_session::Error> {
/// assert_eq!(place_count(b"SELECT ?, '?' /* ? */", Mode::default())?, 1);
/// # Ok(())
/// # }
/// ```
///
/// # Errors
/// [`Code::MIXED`] where both names and question marks are placeholders, or [`Code::MEMORY`].
pub fn place_count(query: &[u8], mode: Mode) -> Result<usize, Error> {
    let mut count = 0;
    let flags = mode.flags_with(Spelling::Quoted);
    // SAFETY: "Bytes go in": the query is a slice; "Results go out": a local.
    let code =
        unsafe { raw::mysql_session_place_count(query.as_ptr(), query.len(), flags, &mut count) };
    answer(code)?;
    Ok(count)
}

/// Appends to `out` the commands that carry the sets, as framed packets.
///
/// A [`Receiver`](crate::Receiver) of the same query, id and limit reads the sets back. Values of a
/// set that wasn't ended aren't sent. The query's placeholders are question marks: sets have no
/// names, so that a query with `:name` refuses them by [`Code::REFUSED_PARAMS`].
///
/// By [`Road::Text`] values are literals in the query's text. **Safe for** a server whose SQL mode
/// has neither NO_BACKSLASH_ESCAPES nor ANSI_QUOTES. The connection is in UTF-8 or another
/// character set that is safe to quote ([`is_safe_to_quote`](crate::is_safe_to_quote)). For a
/// server in another mode a value may end its literal, and what follows the quote is read as SQL.
/// So [`send_in`] takes the mode. By the other methods it is safe for any server.
///
/// The limit is the `max_allowed_packet` of the receiving side, at least 4; a payload has at most
/// `limit - 4` bytes.
///
/// # Errors
/// [`Code::LIMIT_TOO_SMALL`], [`Code::MIXED`], [`Code::MEMORY`], or one of `REFUSED_..` with the
/// set and the placeholder. Nothing is appended then.
///
/// ```
/// use mysql_session::{send, Bytes, ParameterSets, Receiver, Road};
///
/// # fn main() -> Result<(), mysql_session::Error> {
/// let query = b"INSERT INTO t VALUES (?, ?)";
/// let mut sets = ParameterSets::new()?;
/// sets.add(&[(-7).into(), "it's".into()])?;
///
/// let mut out = Bytes::new()?;
/// send(&sets, query, Road::Text, 1, 1 << 24, &mut out)?;
/// assert_eq!(&out[5..], b"INSERT INTO t VALUES (-7, 'it\\'s')");
///
/// send(&sets, query, Road::Execute, 1, 1 << 24, &mut out)?;
/// let mut receiver = Receiver::new(query, 1, 1 << 24)?;
/// receiver.feed(&out)?;
/// assert_eq!(receiver.sets().len(), 2);
/// # Ok(())
/// # }
/// ```
pub fn send(
    sets: &ParameterSets,
    query: &[u8],
    road: Road,
    statement: u32,
    limit: usize,
    out: &mut Bytes,
) -> Result<(), Error> {
    let (mode, spelling) = (Mode::default(), Spelling::Quoted);
    send_in(sets, query, road, statement, limit, mode, spelling, out)
}

/// Appends the commands that [`send`] appends, for a server in this mode and with byte strings
/// spelled so. A receiver in this mode reads the sets back.
///
/// By [`Road::Text`] it is **safe for** a server in this mode. By [`Spelling::Quoted`] the
/// connection is in UTF-8 or another character set that is safe to quote
/// ([`is_safe_to_quote`](crate::is_safe_to_quote)). By [`Spelling::Hexadecimal`] it is in any
/// character set in which bytes below 80 that follow one another are themselves. For a server in
/// another mode a value may end its literal. By the other methods it is safe for any server, and
/// the mode says which bytes of the query's own text are placeholders.
///
/// # Errors
/// Those of [`send`].
///
/// ```
/// use mysql_session::{send_in, Bytes, Mode, ParameterSets, Road, Spelling};
///
/// # fn main() -> Result<(), mysql_session::Error> {
/// let mut sets = ParameterSets::new()?;
/// sets.add(&["it's".into()])?;
///
/// let mode = Mode { no_backslash_escapes: true, ..Mode::default() };
/// let mut out = Bytes::new()?;
/// send_in(&sets, b"SELECT ?", Road::Text, 1, 1 << 24, mode, Spelling::Quoted, &mut out)?;
/// assert_eq!(&out[5..], b"SELECT 'it''s'");
/// out.clear();
/// send_in(&sets, b"SELECT ?", Road::Text, 1, 1 << 24, mode, Spelling::Hexadecimal, &mut out)?;
/// assert_eq!(&out[5..], b"SELECT _utf8mb4 0x69742773");
/// # Ok(())
/// # }
/// ```
#[allow(clippy::too_many_arguments)] // those of the library's call
pub fn send_in(
    sets: &ParameterSets,
    query: &[u8],
    road: Road,
    statement: u32,
    limit: usize,
    mode: Mode,
    spelling: Spelling,
    out: &mut Bytes,
) -> Result<(), Error> {
    let mut place = raw::Place::default();
    // SAFETY: "Handles": by `Handle::get`, and the handles are different ones as objects of two
    // kinds own them; "Bytes go in": the query is a slice; "Results go out": a local.
    let code = unsafe {
        raw::mysql_session_send(
            sets.looking(),
            query.as_ptr(),
            query.len(),
            road as u32,
            statement,
            limit,
            mode.flags_with(spelling),
            out.changing(),
            &mut place,
        )
    };
    answer(code).map_err(|code| refusal(code, place))
}

/// The packets that execute a prepared statement with each of these sets, as
/// [`Connection::put_sets`](crate::Connection::put_sets) takes them. They are those of
/// [`send`] by [`Road::Execute`], without the prepare before them. The statement's id is that
/// of the server's reply to the prepare. Who has no `Connection` compares the number of parameters
/// in that reply with [`place_count`] first.
///
/// They are laid out for a connection where [`CLIENT_QUERY_ATTRIBUTES`] isn't in force. The server
/// is in any mode that reads the query's placeholders as the default mode does; else there is
/// [`executions_in`].
///
/// ```
/// use mysql_session::{executions, ParameterSets};
///
/// # fn main() -> Result<(), mysql_session::Error> {
/// let mut sets = ParameterSets::new()?;
/// sets.add(&[7.into()])?;
/// let packets = executions(&sets, b"SELECT ?", 9, 1 << 24)?;
/// assert_eq!(packets[4..9], [0x17, 9, 0, 0, 0]);
/// # Ok(())
/// # }
/// ```
///
/// [`CLIENT_QUERY_ATTRIBUTES`]: crate::capability::CLIENT_QUERY_ATTRIBUTES
///
/// # Errors
/// Those of [`send`].
pub fn executions(
    sets: &ParameterSets,
    query: &[u8],
    statement: u32,
    limit: usize,
) -> Result<Vec<u8>, Error> {
    executions_in(sets, query, statement, limit, Mode::default())
}

/// The packets of [`executions`] for a server in this mode, which tells only which placeholders the
/// query has.
///
/// ```
/// use mysql_session::{executions, executions_in, Mode, ParameterSets};
///
/// # fn main() -> Result<(), mysql_session::Error> {
/// let mut sets = ParameterSets::new()?;
/// sets.add(&[7.into()])?;
/// // In ANSI_QUOTES these are quotes of a name, in which a backslash is a byte like any other.
/// let query = br#"SELECT "a\", ?"#;
/// let mode = Mode { ansi_quotes: true, ..Mode::default() };
/// assert!(executions_in(&sets, query, 9, 1 << 24, mode).is_ok());
/// assert!(executions(&sets, query, 9, 1 << 24).is_err());
/// # Ok(())
/// # }
/// ```
///
/// # Errors
/// Those of [`send_in`].
pub fn executions_in(
    sets: &ParameterSets,
    query: &[u8],
    statement: u32,
    limit: usize,
    mode: Mode,
) -> Result<Vec<u8>, Error> {
    behind_prepare(sets, query, Road::Execute, statement, limit, mode)
}

/// The packets that execute a prepared statement with all of these sets by the fewest of MariaDB's
/// bulk executions: what [`executions`] is by [`Road::Bulk`].
///
/// They are for a connection where [`MARIADB_CLIENT_STMT_BULK_OPERATIONS`] is in force.
///
/// [`MARIADB_CLIENT_STMT_BULK_OPERATIONS`]: crate::capability::MARIADB_CLIENT_STMT_BULK_OPERATIONS
///
/// # Errors
/// Those of [`send`].
pub fn bulk_executions(
    sets: &ParameterSets,
    query: &[u8],
    statement: u32,
    limit: usize,
) -> Result<Vec<u8>, Error> {
    behind_prepare(sets, query, Road::Bulk, statement, limit, Mode::default())
}

/// Appends to `out` the payload of an execution of a prepared statement with the values of one set,
/// by its number from 0. Framed by [`put_packet`](crate::put_packet) it goes by
/// [`Connection::put_sets`](crate::Connection::put_sets), whose number of placeholders is that of the
/// set's values.
///
/// Each value has its own type. Floats are among them, which [`send`] refuses. The
/// payload is laid out for a connection where
/// [`CLIENT_QUERY_ATTRIBUTES`](crate::capability::CLIENT_QUERY_ATTRIBUTES) isn't in force. Safe for
/// any server.
///
/// ```
/// use mysql_session::{put_execution, Bytes, ParameterSets};
///
/// # fn main() -> Result<(), mysql_session::Error> {
/// let mut sets = ParameterSets::new()?;
/// sets.add(&[1.5.into(), "tea".into()])?;
/// let mut payload = Bytes::new()?;
/// put_execution(&sets, 0, 9, &mut payload)?;
/// assert_eq!(payload.as_slice()[..5], [0x17, 9, 0, 0, 0]);
/// assert_eq!(payload.as_slice()[16..24], 1.5f64.to_le_bytes());
/// # Ok(())
/// # }
/// ```
///
/// # Errors
/// [`Code::OUT_OF_RANGE`] where there is no such set, [`Code::REFUSED_TOO_MANY_PLACES`],
/// [`Code::MEMORY`]; nothing is appended then.
pub fn put_execution(
    sets: &ParameterSets,
    set: usize,
    statement: u32,
    out: &mut Bytes,
) -> Result<(), Error> {
    // SAFETY: as in `send_in`.
    let code =
        unsafe { raw::mysql_session_execution_put(sets.looking(), set, statement, out.changing()) };
    Ok(answer(code)?)
}

/// What is sent by one method behind its prepare.
fn behind_prepare(
    sets: &ParameterSets,
    query: &[u8],
    road: Road,
    statement: u32,
    limit: usize,
    mode: Mode,
) -> Result<Vec<u8>, Error> {
    let mut out = Bytes::new()?;
    let spelling = Spelling::Quoted;
    send_in(
        sets, query, road, statement, limit, mode, spelling, &mut out,
    )?;
    Ok(behind_payload(&out).to_vec())
}

/// What follows the packets of the first payload.
fn behind_payload(mut packets: &[u8]) -> &[u8] {
    while let Some(([low, middle, high, _], rest)) = packets.split_first_chunk() {
        let length = u32::from_le_bytes([*low, *middle, *high, 0]) as usize;
        packets = &rest[length..];
        // A packet of the greatest length goes on in the next one.
        if length < 0xff_ffff {
            break;
        }
    }
    packets
}

/// Appends to `out` the text of one set, by its number from 0: the query with a literal in the
/// place of each placeholder. It is what a text query has behind its first byte.
///
/// **Safe for** a server whose SQL mode has neither NO_BACKSLASH_ESCAPES nor ANSI_QUOTES. The
/// connection is in UTF-8 or another character set that is safe to quote
/// ([`is_safe_to_quote`](crate::is_safe_to_quote)). For a server in another mode a value may end
/// its literal, and what follows the quote is read as SQL. So [`bind_text_in`] takes the mode.
///
/// # Errors
/// [`Code::OUT_OF_RANGE`] where there is no such set, [`Code::MIXED`], [`Code::MEMORY`],
/// [`Code::REFUSED_NOT_ALONE`], [`Code::REFUSED_PARAMS`], [`Code::REFUSED_WRONG_COUNT`] or
/// [`Code::REFUSED_FLOAT`]. Nothing is appended then.
///
/// ```
/// use mysql_session::{bind_text, Bytes, ParameterSets};
///
/// # fn main() -> Result<(), mysql_session::Error> {
/// let mut sets = ParameterSets::new()?;
/// sets.add(&[5.into(), None::<&str>.into()])?;
/// let mut out = Bytes::new()?;
/// bind_text(&sets, 0, b"SELECT ?, ?", &mut out)?;
/// assert_eq!(out.as_slice(), b"SELECT 5, NULL");
/// # Ok(())
/// # }
/// ```
pub fn bind_text(
    sets: &ParameterSets,
    set: usize,
    query: &[u8],
    out: &mut Bytes,
) -> Result<(), Error> {
    bind_text_in(sets, set, query, Mode::default(), Spelling::Quoted, out)
}

/// Appends the text that [`bind_text`] appends, for a server in this mode and with byte strings
/// spelled so.
///
/// **Safe for** a server in this mode. By [`Spelling::Quoted`] the connection is in UTF-8 or
/// another character set that is safe to quote ([`is_safe_to_quote`](crate::is_safe_to_quote)). By
/// [`Spelling::Hexadecimal`] it is in any character set in which bytes below 80 that follow one
/// another are themselves. For a server in another mode a value may end its literal.
///
/// # Errors
/// Those of [`bind_text`].
pub fn bind_text_in(
    sets: &ParameterSets,
    set: usize,
    query: &[u8],
    mode: Mode,
    spelling: Spelling,
    out: &mut Bytes,
) -> Result<(), Error> {
    let mut place = raw::Place::default();
    // SAFETY: as in `send_in`.
    let code = unsafe {
        raw::mysql_session_bind_text(
            sets.looking(),
            set,
            query.as_ptr(),
            query.len(),
            mode.flags_with(spelling),
            out.changing(),
            &mut place,
        )
    };
    answer(code).map_err(|code| refusal(code, place))
}

/// Appends to `out` the literal of one value, by the numbers of its set and its position, from 0.
///
/// **Safe for** the servers that [`bind_text`] is safe for: [`value_text_in`] takes the mode.
///
/// # Errors
/// [`Code::OUT_OF_RANGE`], [`Code::MEMORY`]; nothing is appended then.
pub fn value_text(
    sets: &ParameterSets,
    set: usize,
    place: usize,
    out: &mut Bytes,
) -> Result<(), Error> {
    value_text_in(sets, set, place, Mode::default(), Spelling::Quoted, out)
}

/// Appends the literal that [`value_text`] appends, for a server in this mode and with byte strings
/// spelled so.
///
/// **Safe for** the servers that [`bind_text_in`] is safe for by the same mode and spelling.
///
/// # Errors
/// Those of [`value_text`].
pub fn value_text_in(
    sets: &ParameterSets,
    set: usize,
    place: usize,
    mode: Mode,
    spelling: Spelling,
    out: &mut Bytes,
) -> Result<(), Error> {
    let flags = mode.flags_with(spelling);
    // SAFETY: as in `send_in`.
    let code =
        unsafe { raw::mysql_session_value_text(sets.looking(), set, place, flags, out.changing()) };
    Ok(answer(code)?)
}

/// A refusal with the numbers that its code has.
fn refusal(code: Code, raw::Place { set, place }: raw::Place) -> Error {
    let at = match code {
        Code::REFUSED_NOT_ALONE => Some(At::Place(place)),
        Code::REFUSED_PARAMS
        | Code::REFUSED_WRONG_COUNT
        | Code::REFUSED_PACKET_TOO_LARGE
        | Code::REFUSED_ROW_TOO_LARGE => Some(At::Set(set)),
        Code::REFUSED_FLOAT | Code::REFUSED_MIXED_KINDS => Some(At::Value { set, place }),
        _ => None,
    };
    Error::new(code, at)
}
