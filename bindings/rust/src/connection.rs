//! A whole connection, read as events and put.

use crate::bytes::Bytes;
use crate::codes::{answer, certain, in_range, shown_code, At, Code, Error};
use crate::events::Event;
use crate::handle::check_interface;
use crate::login::Greeting;
use crate::modes::{Mode, SessionMode, Spelling};
use crate::phase::{Capabilities, Limits, Phase, Reason};
use crate::raw;
use crate::readable::debug_with_texts;
use std::cell::UnsafeCell;
use std::error;
use std::fmt;
use std::ptr::null_mut;

/// A packet of this size goes on in the next one.
const LONGEST_PACKET: usize = 0xff_ffff;

/// Both parts of the scramble of a payload, where that is a greeting.
fn scramble_of(payload: &[u8]) -> Vec<u8> {
    match Greeting::read(payload) {
        Ok(greeting) => [greeting.scramble_1, greeting.scramble_2].concat(),
        Err(_) => Vec::new(),
    }
}

/// A side of a connection.
#[derive(Clone, Copy, Debug, PartialEq, Eq, Hash)]
pub enum Side {
    /// The client.
    Client = 0,
    /// The server.
    Server = 1,
}

impl Side {
    /// The other side.
    pub fn other(self) -> Side {
        match self {
            Side::Client => Side::Server,
            Side::Server => Side::Client,
        }
    }

    fn of(number: u32) -> Side {
        match number {
            0 => Side::Client,
            1 => Side::Server,
            _ => panic!("the header has no side {number}"),
        }
    }
}

impl fmt::Display for Side {
    fn fmt(&self, formatter: &mut fmt::Formatter<'_>) -> fmt::Result {
        formatter.write_str(match self {
            Side::Client => "client",
            Side::Server => "server",
        })
    }
}

/// Why a connection can't be read further, and where.
#[derive(Clone, Copy, Debug, PartialEq, Eq, Hash)]
pub struct ConnectionFault {
    code: Code,
    side: Side,
    byte: u64,
}

impl ConnectionFault {
    /// What is wrong: one of [`Code`]'s CONNECTION_.. or REPLY_BAD_.., or [`Code::MEMORY`].
    pub fn code(&self) -> Code {
        self.code
    }

    /// Whose packet it is.
    pub fn side(&self) -> Side {
        self.side
    }

    /// The byte of that side's stream with which the packet begins, from 0.
    pub fn byte(&self) -> u64 {
        self.byte
    }
}

impl fmt::Display for ConnectionFault {
    fn fmt(&self, formatter: &mut fmt::Formatter<'_>) -> fmt::Result {
        write!(
            formatter,
            "{}, byte {}: {}",
            self.side, self.byte, self.code
        )
    }
}

impl error::Error for ConnectionFault {}

impl From<ConnectionFault> for Error {
    fn from(fault: ConnectionFault) -> Error {
        fault.code.into()
    }
}

/// The state of a connection once both of its streams have ended.
#[derive(Clone, Copy, Debug, PartialEq, Eq, Hash)]
pub enum ConnectionEnd {
    /// It is over: what follows isn't read here.
    Over(Reason),
    /// A command was due, and all bytes were read.
    Whole,
    /// A payload of this side comes next, and isn't whole.
    Unfinished(Side),
    /// It has a fault.
    Fault(ConnectionFault),
    /// [`Connection::next_event`] still has an answer.
    Unread,
}

/// A prepared statement of a connection.
#[derive(Clone, Copy, PartialEq, Eq, Hash)]
pub struct Statement<'a> {
    /// The text by which it was prepared.
    pub text: &'a [u8],
    /// How many parameters it has.
    pub parameters: u16,
}

debug_with_texts!(Statement: parameters; text);

/// A connection's handle.
///
/// Each call of the library takes the connection out of it and puts it back, also one that only
/// looks at it. So a shared handle is one that changes, and it isn't `Sync`.
pub(crate) struct ConnectionHandle(UnsafeCell<raw::Connection>);

// SAFETY: the header: "it may be handed to another thread between two calls". All that the
// connection holds is its own, and comes of the C library's heap.
unsafe impl Send for ConnectionHandle {}

impl ConnectionHandle {
    /// A handle of the connection that `make` makes it refer to.
    fn made(make: impl FnOnce(*mut raw::Connection) -> u32) -> Result<ConnectionHandle, Code> {
        check_interface();
        let handle = ConnectionHandle(UnsafeCell::new(raw::Connection { at: null_mut() }));
        answer(make(handle.get()))?;
        Ok(handle)
    }

    /// The handle's address, for a call of the library alone: no other code writes to it, and there
    /// is no copy of it.
    pub(crate) fn get(&self) -> *mut raw::Connection {
        self.0.get()
    }
}

impl Drop for ConnectionHandle {
    fn drop(&mut self) {
        // SAFETY: "Handles": by `get`. No view of the connection is left: they borrow from its
        // owner.
        unsafe { raw::mysql_session_connection_free(self.get()) };
    }
}

/// Reads a whole connection. It is fed the bytes of both sides, in any pieces and order, and tells
/// each payload as one event.
///
/// In each state one side's payload comes next. What comes of the other waits until its turn, so
/// the events don't depend on how the bytes arrive. The next payload may also be put: so the same
/// connection is a client's, a server's, or that of a proxy between them.
///
/// ```
/// use mysql_session::{Connection, ConnectionEnd, Event, Limits, Side};
///
/// # fn main() -> Result<(), Box<dyn std::error::Error>> {
/// let mut connection = Connection::new(Limits::default())?;
/// connection.feed(Side::Server, b"\x17\0\0\0\xff\x10\x04Too many connections")?;
/// while let Some(event) = connection.next_event()? {
///     let Event::Rejected(error) = event else {
///         panic!("the server says something else");
///     };
///     assert_eq!((error.code, error.message), (1040, &b"Too many connections"[..]));
/// }
/// assert!(matches!(connection.finish(), ConnectionEnd::Over(_)));
/// # Ok(())
/// # }
/// ```
///
/// An event can't outlive a call that may change it:
///
/// ```compile_fail,E0499
/// # use mysql_session::{Connection, Limits};
/// # let mut connection = Connection::new(Limits::default()).unwrap();
/// let event = connection.next_event();
/// connection.next_event();
/// drop(event);
/// ```
pub struct Connection {
    handle: ConnectionHandle,
    /// The event that was told last, or one of kind 0.
    shown: Shown,
    /// Where the cells of rows that are lent are shown.
    cells: Cells,
    /// Both parts of the greeting's scramble, which the library's event doesn't show.
    scramble: Vec<u8>,
    /// Whether the first payload came.
    is_greeted: bool,
}

/// An event as the library shows it. Its pointers are good as long as the connection doesn't
/// change.
struct Shown(raw::Event);

// SAFETY: the pointers are to what the connection holds, with which they are kept.
unsafe impl Send for Shown {}

/// Structs for cells, and how many of them show those of the row that was told last.
struct Cells {
    structs: Vec<raw::Value>,
    shown: usize,
}

// SAFETY: the pointers are to what the connection holds, with which they are kept.
unsafe impl Send for Cells {}

/// The kind of a row.
const ROW: u32 = 27;

/// Its phase, its turn, how much it holds, its fault, and the event that was told last.
impl fmt::Debug for Connection {
    fn fmt(&self, formatter: &mut fmt::Formatter<'_>) -> fmt::Result {
        formatter
            .debug_struct("Connection")
            .field("phase", &self.phase())
            .field("turn", &self.turn())
            .field("held", &self.held())
            .field("fault", &self.fault())
            .field("event", &self.event())
            .finish_non_exhaustive()
    }
}

impl Connection {
    /// A connection of which no byte came.
    ///
    /// # Errors
    /// [`Code::MEMORY`].
    pub fn new(limits: Limits) -> Result<Connection, Error> {
        let Limits {
            client,
            server,
            held,
        } = limits;
        // SAFETY: "Handles": a handle that is being made.
        let handle = ConnectionHandle::made(|connection| unsafe {
            raw::mysql_session_connection_new(connection, client, server, held)
        })?;
        Ok(Connection::of(handle, false))
    }

    /// A connection behind a login that was made elsewhere, as by TLS or by a pool. A command
    /// comes next, and these capabilities are in force, which both sides have.
    ///
    /// ```
    /// use mysql_session::{capability, Capabilities, Connection, Limits, Phase};
    ///
    /// # fn main() -> Result<(), mysql_session::Error> {
    /// let capabilities = Capabilities {
    ///     protocol: capability::CLIENT_PROTOCOL_41 | capability::CLIENT_DEPRECATE_EOF,
    ///     mariadb: 0,
    /// };
    /// let connection = Connection::after_login(Limits::default(), capabilities)?;
    /// assert_eq!(connection.phase(), Phase::Command);
    /// # Ok(())
    /// # }
    /// ```
    ///
    /// # Errors
    /// [`Code::MEMORY`].
    pub fn after_login(limits: Limits, capabilities: Capabilities) -> Result<Connection, Error> {
        let Limits {
            client,
            server,
            held,
        } = limits;
        let Capabilities { protocol, mariadb } = capabilities;
        // SAFETY: "Handles": a handle that is being made.
        let handle = ConnectionHandle::made(|connection| unsafe {
            raw::mysql_session_connection_after_login(
                connection, protocol, mariadb, client, server, held,
            )
        })?;
        Ok(Connection::of(handle, true))
    }

    fn of(handle: ConnectionHandle, is_greeted: bool) -> Connection {
        Connection {
            handle,
            shown: Shown(raw::Event::default()),
            cells: Cells {
                structs: Vec::new(),
                shown: 0,
            },
            scramble: Vec::new(),
            is_greeted,
        }
    }

    /// Takes a piece of a side's stream, whole; nothing of it is read yet. A piece has at most
    /// [`Connection::room`] bytes. Behind a fault bytes are taken too, and never read.
    ///
    /// # Errors
    /// [`Code::CONNECTION_CLOSED`], [`Code::CONNECTION_HELD`] or [`Code::MEMORY`]. Nothing of the
    /// piece is taken then. [`Code::CONNECTION_HELD`] says that more of the side would wait unread
    /// than its longest payload takes. Take events first, or feed the side whose turn it is.
    pub fn feed(&mut self, side: Side, piece: &[u8]) -> Result<(), Error> {
        self.forget();
        // SAFETY: "Handles": by `ConnectionHandle::get`; "Bytes go in": the piece is a slice.
        answer(unsafe {
            raw::mysql_session_connection_feed(
                self.handle.get(),
                side as u32,
                piece.as_ptr(),
                piece.len(),
            )
        })?;
        Ok(())
    }

    /// The next event; none where the next payload isn't there whole, or the connection is
    /// over.
    ///
    /// # Errors
    /// The fault of the first packet; each further call answers it too. The events before it
    /// remain.
    #[inline]
    pub fn next_event(&mut self) -> Result<Option<Event<'_>>, ConnectionFault> {
        self.begin_next();
        // SAFETY: "Handles": by `ConnectionHandle::get`; "Results go out": a field of this object.
        let code =
            unsafe { raw::mysql_session_connection_next(self.handle.get(), &mut self.shown.0) };
        self.told(code)
    }

    /// The next event, as [`Connection::next_event`] tells it, but a row stays where it lies, and its
    /// cells are shown by the same call.
    ///
    /// Nothing of it is copied, and memory is asked for at the first row of a result alone. A row of
    /// more than one packet is copied. [`Connection::line`] tells of a row up to the next
    /// [`Connection::feed`] or [`Connection::close`].
    ///
    /// ```
    /// use mysql_session::{command, Bytes, Capabilities, Connection, Event, Limits, Side};
    ///
    /// # fn main() -> Result<(), Box<dyn std::error::Error>> {
    /// let capabilities = Capabilities { protocol: 1 << 9 | 1 << 24, mariadb: 0 };
    /// let mut connection = Connection::after_login(Limits::default(), capabilities)?;
    /// connection.put(Side::Client, &command::query(b"SELECT 1"), &mut Bytes::new()?)?;
    /// let column = b"\x17\0\0\x02\x03def\0\0\0\x011\0\x0c\x3f\0\x01\0\0\0\x08\x81\0\0\0\0";
    /// connection.feed(Side::Server, b"\x01\0\0\x01\x01")?;
    /// connection.feed(Side::Server, column)?;
    /// connection.feed(Side::Server, b"\x02\0\0\x03\x011\x07\0\0\x04\xfe\0\0\x02\0\0\0")?;
    /// let mut sum = 0;
    /// while let Some(event) = connection.next_event_lent()? {
    ///     if let Event::Row(row) = event {
    ///         sum += row.get::<i64>(0)?;
    ///     }
    /// }
    /// assert_eq!(sum, 1);
    /// # Ok(())
    /// # }
    /// ```
    ///
    /// # Errors
    /// Those of [`Connection::next_event`].
    #[inline]
    pub fn next_event_lent(&mut self) -> Result<Option<Event<'_>>, ConnectionFault> {
        self.begin_next();
        let room = self.cells.structs.len();
        // SAFETY: "Handles": by `ConnectionHandle::get`; "Results go out": two fields of this object,
        // of which the first has so many structs.
        let code = unsafe {
            raw::mysql_session_connection_next_lent(
                self.handle.get(),
                self.cells.structs.as_mut_ptr(),
                room,
                &mut self.shown.0,
            )
        };
        if code == 0 && self.shown.0.kind == ROW {
            self.cells.shown = room.min(self.shown.0.columns);
            self.make_room(self.shown.0.columns);
        }
        self.told(code)
    }

    /// The event that was told is forgotten, and a greeting that comes next is looked at.
    #[inline]
    fn begin_next(&mut self) {
        self.forget();
        if !self.is_greeted {
            self.look_at_greeting();
        }
    }

    /// The next rows have room for so many cells. Where memory is refused they are shown one by one.
    fn make_room(&mut self, width: usize) {
        let cells = &mut self.cells.structs;
        let more = width.saturating_sub(cells.len());
        if more > 0 && cells.try_reserve(more).is_ok() {
            cells.resize(width, raw::Value::default());
        }
    }

    /// The event that a call told, or its fault.
    #[inline]
    fn told(&mut self, code: u32) -> Result<Option<Event<'_>>, ConnectionFault> {
        if let Err(code) = answer(code) {
            self.forget();
            return Err(self.fault_of(code));
        }
        Ok(self.event())
    }

    /// Puts a payload of the side whose turn it is: appends its packets to `out`, and goes on
    /// behind it as if they had come. The answer is the event that it says.
    ///
    /// A client puts what it asks and feeds what the server sends, and a server does the reverse. A
    /// third connection that is fed both streams tells the same events, in any pieces. A server's
    /// last words, which answer nothing, can't be put so.
    ///
    /// No command is refused for its layout. One that is laid out as none, as an execution of a
    /// statement that isn't known, is put, and the answer is [`Event::Other`]. A server answers it
    /// by an error.
    ///
    /// ```
    /// use mysql_session::{command, Bytes, Capabilities, Connection, Event, Limits, Side};
    ///
    /// # fn main() -> Result<(), Box<dyn std::error::Error>> {
    /// let capabilities = Capabilities { protocol: 1 << 9, mariadb: 0 };
    /// let mut connection = Connection::after_login(Limits::default(), capabilities)?;
    /// let mut out = Bytes::new()?;
    /// let event = connection.put(Side::Client, &command::ping(), &mut out)?;
    /// assert!(matches!(event, Event::Ping));
    /// assert_eq!(out.as_slice(), [1, 0, 0, 0, 0x0e]);
    ///
    /// // .. `out` is written to the server, and what it answers is read.
    /// connection.feed(Side::Server, b"\x07\0\0\x01\0\0\0\x02\0\0\0")?;
    /// assert!(matches!(connection.next_event()?, Some(Event::Ok(_))));
    /// # Ok(())
    /// # }
    /// ```
    ///
    /// # Errors
    /// The first that holds:
    ///
    /// - [`Code::CONNECTION_NOT_ITS_TURN`]: a payload of the side isn't due, bytes of it wait
    ///   unread, its stream has ended, or the connection has failed;
    /// - [`Code::CONNECTION_TOO_LARGE`];
    /// - the fault of a payload that can't be read here;
    /// - [`Code::CONNECTION_KEPT`];
    /// - [`Code::MEMORY`].
    ///
    /// The connection and `out` are as they were then, but that [`Connection::event`] shows none.
    pub fn put(&mut self, side: Side, payload: &[u8], out: &mut Bytes) -> Result<Event<'_>, Error> {
        self.forget();
        if !self.is_greeted {
            self.scramble = scramble_of(payload);
        }
        // SAFETY: "Handles": by `ConnectionHandle::get` and `Handle::get`, which are different ones
        // of objects of two kinds; "Bytes go in": the payload is a slice, and none of `out`, which
        // is borrowed to be changed; "Results go out": a field of this object.
        let code = unsafe {
            raw::mysql_session_connection_put(
                self.handle.get(),
                side as u32,
                payload.as_ptr(),
                payload.len(),
                out.changing(),
                &mut self.shown.0,
            )
        };
        if let Err(code) = answer(code) {
            self.forget();
            return Err(code.into());
        }
        self.is_greeted = true;
        Ok(self.event().expect("what was put is an event"))
    }

    /// Puts framed packets of a side, one after another while it is its turn, as
    /// [`send`](crate::send) and a [`ReplyWriter`](crate::ReplyWriter) make them. They get the next
    /// numbers. The answer is how many bytes of them were taken: all, or those before the first
    /// packet whose turn hasn't come. A packet that is cut off at the end is left. No event is shown
    /// of what was put.
    ///
    /// So nothing tells of a command that is laid out as none, which [`Connection::put`] answers as
    /// [`Event::Other`]. Such are executions of a statement that [`Connection::statement`] doesn't
    /// know, and those for other capabilities than are in force. No count is compared here:
    /// executions of a query's sets go by [`Connection::put_sets`].
    ///
    /// A whole reply is one call:
    ///
    /// ```
    /// use mysql_session::{command, put_packet, Bytes, Capabilities, Connection, Limits, Side};
    ///
    /// # fn main() -> Result<(), Box<dyn std::error::Error>> {
    /// let capabilities = Capabilities { protocol: 1 << 9, mariadb: 0 };
    /// let mut connection = Connection::after_login(Limits::default(), capabilities)?;
    /// let (mut packets, mut number) = (Bytes::new()?, 0);
    /// put_packet(&command::ping(), &mut number, 1 << 24, &mut packets)?;
    /// put_packet(&command::ping(), &mut number, 1 << 24, &mut packets)?;
    /// let mut out = Bytes::new()?;
    /// let used = connection.put_packets(Side::Client, &packets, &mut out)?;
    /// assert_eq!(out.as_slice(), &packets[..used]);
    /// // The second is due once the reply to the first has come.
    /// assert_eq!(connection.put_packets(Side::Client, &packets[used..], &mut out)?, 0);
    /// # Ok(())
    /// # }
    /// ```
    ///
    /// # Errors
    /// Of the first payload that isn't put at its turn, with the [`At::Byte`] of the packets at
    /// which it begins. What was put before it stays.
    ///
    /// - [`Code::CONNECTION_TOO_LARGE`];
    /// - [`Code::CONNECTION_OUT_OF_SYNC`]: it has more packets, whose numbers don't go on from one
    ///   another;
    /// - the fault of a payload that can't be read here;
    /// - [`Code::CONNECTION_KEPT`];
    /// - [`Code::MEMORY`].
    pub fn put_packets(
        &mut self,
        side: Side,
        packets: &[u8],
        out: &mut Bytes,
    ) -> Result<usize, Error> {
        self.forget();
        let mut used = 0;
        // SAFETY: as in `put`; "Results go out": a local.
        let code = unsafe {
            raw::mysql_session_connection_put_packets(
                self.handle.get(),
                side as u32,
                packets.as_ptr(),
                packets.len(),
                out.changing(),
                &mut used,
            )
        };
        match answer(code) {
            Ok(()) => Ok(used),
            Err(code) => Err(Error::new(code, Some(At::Byte(used)))),
        }
    }

    /// Puts packets of a query's sets for the statement of this id, if the server counted as many
    /// parameters as the query has placeholders. The packets are those of
    /// [`executions`](crate::executions) or [`bulk_executions`](crate::bulk_executions), and the
    /// number of placeholders is [`place_count`](crate::place_count)'s.
    ///
    /// The bytes of an execution don't tell how many values it has. A server that counted another
    /// number runs it with other values than were meant. So sets go by this call, and not by
    /// [`Connection::put_packets`]. The answer is how many bytes of the packets were taken. An
    /// execution with its long data is one call, and the next one waits for the reply.
    ///
    /// ```
    /// use mysql_session::{
    ///     column_type, command, executions, place_count, Bytes, Capabilities, Code, ColumnType,
    ///     Connection, Limits, Mode, ParameterSets, ReplyKind, ReplyWriter, Side,
    /// };
    ///
    /// # fn main() -> Result<(), Box<dyn std::error::Error>> {
    /// let capabilities = Capabilities { protocol: 1 << 9, mariadb: 0 };
    /// let mut connection = Connection::after_login(Limits::default(), capabilities)?;
    /// let query = b"DELETE FROM t WHERE id = ? /*!80000 AND k = ? */";
    /// let mut out = Bytes::new()?;
    /// connection.put(Side::Client, &command::prepare(query), &mut out)?;
    /// // A MariaDB answers: statement 9 has one parameter.
    /// # let mut answer = Bytes::new()?;
    /// # let mut writer = ReplyWriter::new(ReplyKind::Prepare, capabilities.protocol, 1, 1 << 24)?;
    /// # let kind = column_type::VAR_STRING;
    /// # let text = ColumnType { kind, flags: 0, charset: 63, length: 0, decimals: 0 };
    /// # writer.column(b"?", text)?;
    /// # writer.prepared(9, 1, 0, &mut answer)?;
    /// connection.feed(Side::Server, &answer)?;
    /// while connection.next_event()?.is_some() {}
    ///
    /// let mut sets = ParameterSets::new()?;
    /// sets.add(&[5.into(), 7.into()])?;
    /// let packets = executions(&sets, query, 9, 1 << 24)?;
    /// let places = place_count(query, Mode::default())?;
    /// let error = connection.put_sets(9, places, &packets, &mut out).unwrap_err();
    /// assert_eq!(error.code(), Code::CONNECTION_WRONG_COUNT);
    /// # Ok(())
    /// # }
    /// ```
    ///
    /// # Errors
    /// The first that holds. Of the first two nothing has changed.
    ///
    /// - [`Code::CONNECTION_UNKNOWN_STATEMENT`]: the server's answer to its prepare hasn't come, or
    ///   it is closed;
    /// - [`Code::CONNECTION_WRONG_COUNT`];
    /// - those of [`Connection::put_packets`].
    pub fn put_sets(
        &mut self,
        statement: u32,
        places: usize,
        packets: &[u8],
        out: &mut Bytes,
    ) -> Result<usize, Error> {
        self.forget();
        let mut used = 0;
        // SAFETY: as in `put_packets`.
        let code = unsafe {
            raw::mysql_session_connection_put_sets(
                self.handle.get(),
                statement,
                places,
                packets.as_ptr(),
                packets.len(),
                out.changing(),
                &mut used,
            )
        };
        match answer(code) {
            Ok(()) => Ok(used),
            Err(code @ (Code::CONNECTION_UNKNOWN_STATEMENT | Code::CONNECTION_WRONG_COUNT)) => {
                Err(code.into())
            }
            Err(code) => Err(Error::new(code, Some(At::Byte(used)))),
        }
    }

    /// The event that was told or put last, again, until the connection changes.
    #[inline]
    pub fn event(&self) -> Option<Event<'_>> {
        let cells = &self.cells.structs[..self.cells.shown];
        // SAFETY: the library wrote the fields; the texts are "good until the next call on it" that
        // takes its `&mut self`, which forgets the event. So are those of the cells.
        (self.shown.0.kind != 0)
            .then(|| unsafe { Event::of(&self.handle, &self.shown.0, cells, &self.scramble) })
    }

    /// The changes of the session's state of the event that was told or put last, as its OK packet
    /// has them. Of each there are the number of its type, and its data behind their length. No
    /// bytes where the event is no OK packet or has none (MySQL: Client/Server Protocol, "Session
    /// State Information").
    ///
    /// ```
    /// use mysql_session::{capability, command, Bytes, Capabilities, Connection, Limits, Side};
    ///
    /// # fn main() -> Result<(), Box<dyn std::error::Error>> {
    /// let protocol = capability::CLIENT_PROTOCOL_41 | capability::CLIENT_SESSION_TRACK;
    /// let capabilities = Capabilities { protocol, mariadb: 0 };
    /// let mut connection = Connection::after_login(Limits::default(), capabilities)?;
    /// connection.put(Side::Client, &command::query(b"USE db"), &mut Bytes::new()?)?;
    /// connection.feed(Side::Server, b"\x10\0\0\x01\0\0\0\x02\x40\0\0\x02hi\x05\x01\x03\x02db")?;
    /// connection.next_event()?;
    /// assert_eq!(connection.state_changes(), b"\x01\x03\x02db");
    /// # Ok(())
    /// # }
    /// ```
    pub fn state_changes(&self) -> &[u8] {
        match self.event() {
            Some(
                Event::Accepted(packet)
                | Event::Ok(packet)
                | Event::ColumnsEnd(packet)
                | Event::RowsEnd(packet),
            ) => packet.state_changes,
            _ => &[],
        }
    }

    /// The event that was told or put last as a line of text, without its end: whose it is, its
    /// name, its fields. Behind [`Connection::finish`] it is the state of the connection, as
    /// `end Whole`.
    ///
    /// Of data of an authentication, but for a greeting's scramble, it has the length, as
    /// `(20 bytes)`. So it has of a replica's password. The texts of statements are as they were
    /// sent, with passwords in them.
    ///
    /// # Errors
    /// [`Code::OUT_OF_RANGE`] where no event was told; [`Code::MEMORY`].
    pub fn line(&self) -> Result<&str, Error> {
        self.line_by(|it, text| {
            let (at, len) = (&mut text.at, &mut text.len);
            // SAFETY: as `line_by` says of its call.
            unsafe { raw::mysql_session_connection_line(it, at, len) }
        })
    }

    /// The line that [`Connection::line`] gives, with all bytes: those of passwords and their
    /// scrambles too.
    ///
    /// # Errors
    /// [`Code::OUT_OF_RANGE`] where no event was told; [`Code::MEMORY`].
    pub fn line_with_secrets(&self) -> Result<&str, Error> {
        self.line_by(|it, text| {
            let (at, len) = (&mut text.at, &mut text.len);
            // SAFETY: as `line_by` says of its call.
            unsafe { raw::mysql_session_connection_line_with_secrets(it, at, len) }
        })
    }

    /// The line that [`Connection::line`] gives, for people; with `secrets` all bytes are there.
    ///
    /// Bytes that are UTF-8 are in double quotes. The escapes are `\"`, `\\`, `\n`, `\r` and `\t`,
    /// and `\x` with two digits for other control characters of ASCII. Other bytes are in
    /// hexadecimal, and so are texts with a character from U+0080 to U+009F. So the line has no
    /// control character. NULL is `NULL`, and dates and times are as the server's own client shows
    /// them.
    ///
    /// # Errors
    /// [`Code::OUT_OF_RANGE`] where no event was told; [`Code::MEMORY`].
    pub fn line_with_texts(&self, secrets: bool) -> Result<&str, Error> {
        self.line_by(|it, text| {
            let (at, len) = (&mut text.at, &mut text.len);
            // SAFETY: as `line_by` says of its call.
            unsafe { raw::mysql_session_connection_line_with_texts(it, secrets, at, len) }
        })
    }

    /// The line that one of the three calls shows of this connection.
    fn line_by(
        &self,
        call: impl FnOnce(*mut raw::Connection, &mut raw::Text) -> u32,
    ) -> Result<&str, Error> {
        let mut text = raw::Text::default();
        // "Handles": by `ConnectionHandle::get`; "Results go out": fields of one local.
        answer(call(self.handle.get(), &mut text))?;
        // SAFETY: the bytes are "good until the next call on it" that takes its `&mut self`.
        let bytes = unsafe { text.bytes() };
        Ok(std::str::from_utf8(bytes).expect("a line is UTF-8"))
    }

    /// How many bytes of a side [`Connection::feed`] takes now. If it is 0, take events, or feed
    /// the side whose turn it is. Ask so before a stream is read into as many bytes, since a read
    /// of none looks like the stream's end.
    pub fn room(&self, side: Side) -> usize {
        let standing = self.standing();
        match side {
            Side::Client => standing.client_room,
            Side::Server => standing.server_room,
        }
    }

    /// How many bytes are held: the unread ones of both sides, and what is kept of statements,
    /// columns and long data.
    pub fn held(&self) -> usize {
        self.standing().held
    }

    /// Whose turn it is: nobody's where the connection is over, or has failed.
    pub fn turn(&self) -> Option<Side> {
        let turn = self.standing().turn;
        (turn < 2).then(|| Side::of(turn))
    }

    /// What comes next.
    pub fn phase(&self) -> Phase {
        let standing = self.standing();
        match standing.phase {
            0 => Phase::Greeting,
            1 => Phase::Response,
            2 => Phase::Authentication,
            3 => Phase::Answer,
            4 => Phase::Command,
            5 => Phase::Reply,
            6 => Phase::FileData,
            7 => Phase::Over(Reason::of(standing.reason)),
            phase => panic!("the header has no phase {phase}"),
        }
    }

    /// The capabilities in force: those that both sides have.
    pub fn capabilities(&self) -> Capabilities {
        let standing = self.standing();
        Capabilities {
            protocol: standing.capabilities,
            mariadb: standing.mariadb_capabilities,
        }
    }

    /// What is known of the session's SQL mode and character set, by all that was said so far.
    ///
    /// Behind a login, a change of user and a reset of the connection that is nothing: ask by
    /// [`ASK_SESSION_MODE`](crate::ASK_SESSION_MODE).
    ///
    /// (MySQL Reference Manual, "Server SQL Modes", "Server Tracking of Client Session State".)
    pub fn session_mode(&self) -> SessionMode {
        let mut known = raw::Known::from(SessionMode::default());
        // SAFETY: "Handles": by `ConnectionHandle::get`; "Results go out": a local.
        unsafe { raw::mysql_session_connection_known(self.handle.get(), &mut known) };
        known.into()
    }

    /// The session's SQL mode, where it is known: that of [`Connection::session_mode`].
    pub fn mode(&self) -> Option<Mode> {
        self.session_mode().mode
    }

    /// How byte strings are spelled in a text for the session: [`SessionMode::spelling`].
    pub fn spelling(&self) -> Spelling {
        self.session_mode().spelling()
    }

    /// The fault that was found.
    pub fn fault(&self) -> Option<ConnectionFault> {
        let standing = self.standing();
        (standing.fault != 0).then(|| ConnectionFault {
            code: shown_code(standing.fault),
            side: Side::of(standing.fault_side),
            byte: standing.fault_byte,
        })
    }

    /// The prepared statement that this id of a command refers to: 0xffffffff for that which was
    /// prepared last.
    pub fn statement(&self, id: u32) -> Option<Statement<'_>> {
        let (mut text, mut parameters) = (raw::Text::default(), 0);
        // SAFETY: "Handles": by `ConnectionHandle::get`; "Results go out": different locals and
        // fields of one.
        let code = unsafe {
            raw::mysql_session_connection_statement(
                self.handle.get(),
                id,
                &mut text.at,
                &mut text.len,
                &mut parameters,
            )
        };
        in_range(code).then(|| Statement {
            // SAFETY: the bytes are "good until the next call on it" that takes its `&mut self`.
            text: unsafe { text.bytes() },
            parameters,
        })
    }

    /// What of a side's stream is unread. Where the connection is over, it follows in its own
    /// form: TLS, compressed packets, a dump.
    pub fn rest(&self, side: Side) -> &[u8] {
        let mut data = raw::Text::default();
        // SAFETY: "Handles": by `ConnectionHandle::get`; "Results go out": fields of one local.
        certain(unsafe {
            raw::mysql_session_connection_rest(
                self.handle.get(),
                side as u32,
                &mut data.at,
                &mut data.len,
            )
        });
        // SAFETY: the bytes are "good until the next call on it" that takes its `&mut self`.
        unsafe { data.bytes() }
    }

    /// Ends a side's stream: no more comes of it. Behind the client's end the server may say last
    /// words.
    pub fn close(&mut self, side: Side) {
        self.forget();
        // SAFETY: "Handles": by `ConnectionHandle::get`.
        certain(unsafe { raw::mysql_session_connection_close(self.handle.get(), side as u32) });
    }

    /// Ends both streams, and says in which state the connection is. Take all events before.
    pub fn finish(&mut self) -> ConnectionEnd {
        self.forget();
        let mut end = raw::ConnectionEnd::default();
        // SAFETY: "Handles": by `ConnectionHandle::get`; "Results go out": a local.
        certain(unsafe { raw::mysql_session_connection_finish(self.handle.get(), &mut end) });
        match end.kind {
            0 => ConnectionEnd::Over(Reason::of(end.reason)),
            1 => ConnectionEnd::Whole,
            2 => ConnectionEnd::Unfinished(Side::of(end.side)),
            3 => ConnectionEnd::Fault(ConnectionFault {
                code: shown_code(end.fault),
                side: Side::of(end.side),
                byte: end.byte,
            }),
            4 => ConnectionEnd::Unread,
            kind => panic!("the header has no kind {kind} of a connection's end"),
        }
    }

    /// Reads the scramble of the next greeting, once all of it came.
    fn look_at_greeting(&mut self) {
        let unread = self.rest(Side::Server);
        let Some(([low, middle, high, _], behind)) = unread.split_first_chunk() else {
            return;
        };
        let length = u32::from_le_bytes([*low, *middle, *high, 0]) as usize;
        if let Some(payload) = behind.get(..length) {
            self.scramble = match length {
                // A greeting of several packets is that of no server.
                LONGEST_PACKET => Vec::new(),
                _ => scramble_of(payload),
            };
            self.is_greeted = true;
        }
    }

    /// The event that was told last is shown no more.
    #[inline]
    fn forget(&mut self) {
        self.shown.0 = raw::Event::default();
        self.cells.shown = 0;
    }

    /// The state of the connection.
    fn standing(&self) -> raw::Standing {
        let mut standing = raw::Standing::default();
        // SAFETY: "Handles": by `ConnectionHandle::get`; "Results go out": a local.
        certain(unsafe {
            raw::mysql_session_connection_standing(self.handle.get(), &mut standing)
        });
        standing
    }

    /// The fault of this code, with its side and its position.
    fn fault_of(&self, code: Code) -> ConnectionFault {
        let standing = self.standing();
        ConnectionFault {
            code,
            side: Side::of(standing.fault_side),
            byte: standing.fault_byte,
        }
    }
}
