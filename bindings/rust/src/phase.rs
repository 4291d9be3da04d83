//! What a connection is read by, and what comes next on it.

#[cfg(doc)]
use crate::Code;

/// How much of a connection is held at most, in bytes.
#[derive(Clone, Copy, Debug, PartialEq, Eq, Hash)]
pub struct Limits {
    /// The longest payload of the client.
    pub client: usize,
    /// The longest payload of the server.
    pub server: usize,
    /// All that is held. Of each side as much waits unread as its longest payload takes with its
    /// headers. What this leaves beside both is for what is kept of statements, columns and long
    /// data. Where nothing is left, no statement is prepared and no column is read:
    /// [`Code::CONNECTION_KEPT`].
    ///
    /// It counts payloads, not memory. `docs/COSTS.md` has how much memory was measured for each
    /// byte that is counted, and for each byte of an event.
    pub held: usize,
}

impl Limits {
    /// Payloads of at most so many bytes of either side, and four times as much in all.
    ///
    /// ```
    /// use mysql_session::Limits;
    ///
    /// assert_eq!(Limits::of(1 << 24), Limits::default());
    /// ```
    pub fn of(longest: usize) -> Limits {
        Limits {
            client: longest,
            server: longest,
            held: longest.saturating_mul(4),
        }
    }
}

impl Default for Limits {
    /// Payloads of 2^24 bytes of either side, and 2^26 in all.
    fn default() -> Limits {
        Limits::of(1 << 24)
    }
}

/// Capabilities, in bits, as [`capability`](crate::capability) has them.
#[derive(Clone, Copy, Debug, Default, PartialEq, Eq, Hash)]
pub struct Capabilities {
    /// Those of the protocol.
    pub protocol: u32,
    /// MariaDB's own.
    pub mariadb: u32,
}

/// What comes next on a connection.
#[derive(Clone, Copy, Debug, PartialEq, Eq, Hash)]
pub enum Phase {
    /// The server's first payload.
    Greeting,
    /// The client's answer to it.
    Response,
    /// A payload of the server's by which a user is logged in or changed.
    Authentication,
    /// The client's answer to such a one.
    Answer,
    /// A command.
    Command,
    /// A payload of a reply.
    Reply,
    /// Bytes of a file of the client's.
    FileData,
    /// Nothing: what follows isn't read here.
    Over(Reason),
}

/// Why a connection is over: what follows isn't read here.
#[derive(Clone, Copy, Debug, PartialEq, Eq, Hash)]
pub enum Reason {
    /// The server refused the connection in place of a greeting.
    Rejected,
    /// TLS follows.
    Secure,
    /// The login was denied.
    Denied,
    /// Compressed packets follow.
    Compressed,
    /// The client quit.
    Quit,
    /// A binary log or a table's bytes follow.
    Dump,
    /// A server's data follow.
    Clone,
    /// The server said an error that answers nothing.
    Farewell,
}

impl Reason {
    pub(crate) fn of(number: u32) -> Reason {
        match number {
            0 => Reason::Rejected,
            1 => Reason::Secure,
            2 => Reason::Denied,
            3 => Reason::Compressed,
            4 => Reason::Quit,
            5 => Reason::Dump,
            6 => Reason::Clone,
            7 => Reason::Farewell,
            _ => panic!("the header has no reason {number}"),
        }
    }
}
