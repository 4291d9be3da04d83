//! The audit of a connection: what both sides say becomes lines. There is one for each command
//! whose reply is whole, for each login, and for the connection's end.

use crate::commands::Telling;
use crate::lines::Sink;
use crate::recording::{Hidden, Recording};
use crate::secrecy::has_clear_password;
use crate::teller::{Origin, Teller};
use mysql_session::capability::CLIENT_LONG_PASSWORD;
use mysql_session::{Connection, ConnectionEnd, Error, Event, Limits, Phase, Reason, Side};
use std::fmt::Display;

/// What is done with a connection that can't be read any further.
#[derive(Clone, Copy, PartialEq)]
pub enum OnFault {
    Pass,
    Cut,
}

/// How far a connection is followed.
#[derive(Clone, Copy, PartialEq)]
pub enum Follows {
    Reads,
    /// Nothing more is read; what comes is passed on.
    Passes,
    /// Nothing more is passed on either.
    Cuts,
}

/// The error by which MySQL answers a client that leaves without a word.
const READ_ERROR: u16 = 1158;
pub const COM_STMT_EXECUTE: u8 = 0x17;
pub const COM_STMT_BULK_EXECUTE: u8 = 0xfa;
const COM_STMT_SEND_LONG_DATA: u8 = 0x18;
const COM_STMT_CLOSE: u8 = 0x19;
/// The error of clients whose plugin needs TLS.
const NEEDS_TLS: u16 = 2061;
/// The bytes of an execution up to its statement's number.
pub const EXECUTION: usize = 5;
/// The limits of a connection of which nothing is read.
const NOTHING: Limits = Limits {
    client: 0,
    server: 0,
    held: 0,
};

/// Whether MySQL answers a command of which no answer is awaited: a close of a statement, or long data
/// for it, that are cut off. Replies would be told of the commands behind theirs.
fn is_cut_off(event: &Event) -> bool {
    match event {
        Event::Other([COM_STMT_SEND_LONG_DATA, rest @ ..]) => rest.len() < 6,
        Event::Other([COM_STMT_CLOSE, rest @ ..]) => rest.len() < 4,
        _ => false,
    }
}

/// A connection that is read.
pub struct Audit<S> {
    pub connection: Connection,
    pub teller: Teller<S>,
    on_fault: OnFault,
    pub follows: Follows,
    /// The sides whose streams have ended, in that order.
    pub ended: Vec<Side>,
    /// How many bytes of each side came before the first that `connection` read.
    pub before: [u64; 2],
    /// Whether there was something that can't be read.
    pub gave_up: bool,
    /// Whether the client left without a word, which the server answered.
    has_left: bool,
    /// Whether the server greeted as MariaDB does.
    is_mariadb: bool,
    /// Whether commands pass before they are read.
    pub passes_first: bool,
    /// Whether the client has TLS and the server's side has none.
    pub guards: bool,
    /// Whether what can't be read doesn't pass, whatever was chosen: it may be a login without the TLS
    /// that is wanted, or a password that would go in clear.
    pub insists: bool,
    /// The code and the words by which the client is to be refused.
    pub refusal: Option<(u16, String)>,
    /// Where what is read is recorded.
    pub recording: Option<Box<Recording>>,
}

impl<S: Sink> Audit<S> {
    pub fn new(
        origin: Origin,
        telling: Telling,
        limits: Limits,
        on_fault: OnFault,
        sink: S,
    ) -> Result<Audit<S>, Error> {
        Ok(Audit {
            connection: Connection::new(limits)?,
            teller: Teller::new(origin, telling, sink),
            on_fault,
            follows: Follows::Reads,
            ended: Vec::new(),
            before: [0; 2],
            gave_up: false,
            has_left: false,
            is_mariadb: false,
            passes_first: false,
            guards: false,
            insists: false,
            refusal: None,
            recording: None,
        })
    }

    pub fn change(&mut self, on_fault: OnFault) {
        self.on_fault = on_fault;
    }

    /// Takes bytes of a side, as many as there is room for, and tells what they say. None are taken
    /// of a connection that was cut.
    pub fn feed(&mut self, side: Side, bytes: &[u8]) -> usize {
        let room = self.connection.room(side);
        if self.follows == Follows::Reads && room == 0 && self.is_stuck(side) {
            self.give_up_stuck();
        }
        match self.follows {
            Follows::Reads => {}
            Follows::Passes => {
                self.teller.take_bytes(side, bytes.len());
                return bytes.len();
            }
            Follows::Cuts => return 0,
        }
        self.feed_within(side, &bytes[..bytes.len().min(room)])
    }

    /// Takes bytes of a side for which there is room, and tells what they say.
    pub fn feed_within(&mut self, side: Side, bytes: &[u8]) -> usize {
        match self.connection.feed(side, bytes) {
            Ok(()) => {
                self.teller.take_bytes(side, bytes.len());
                if let Some(recording) = &mut self.recording {
                    recording.take(side, bytes);
                }
                self.read();
            }
            Err(error) => self.give_up(&error),
        }
        bytes.len()
    }

    /// Whether a side waits for the other one's turn, which comes no more.
    pub fn is_stuck(&self, side: Side) -> bool {
        let is_due = self.connection.turn() == Some(side);
        !is_due && self.ended.contains(&side.other())
    }

    pub fn give_up_stuck(&mut self) {
        self.give_up(&"the other side has ended before its turn was over");
    }

    /// Notes that a side's stream has ended.
    pub fn close(&mut self, side: Side) {
        self.ended.push(side);
        self.connection.close(side);
        if self.follows == Follows::Reads {
            self.read();
        }
    }

    /// Tells the connection's end, where this of the client passed and wasn't read.
    pub fn end(&mut self, unread: &[u8]) {
        self.finish_command(false);
        self.tell_unanswered(unread);
        if self.is_cut() {
            return self.teller.end(&"proxy", "unread");
        }
        let (by, how) = match self.connection.finish() {
            _ if self.gave_up => (None, "unread"),
            ConnectionEnd::Over(Reason::Quit) => (Some(Side::Client), "quit"),
            ConnectionEnd::Over(Reason::Rejected) => (Some(Side::Server), "rejected"),
            ConnectionEnd::Over(Reason::Denied) => (Some(Side::Server), "denied"),
            ConnectionEnd::Over(Reason::Farewell) if self.has_left => {
                (Some(Side::Client), "without quit")
            }
            ConnectionEnd::Over(Reason::Farewell) => (Some(Side::Server), "farewell"),
            ConnectionEnd::Whole => (None, "without quit"),
            ConnectionEnd::Unfinished(_) => (None, "unfinished"),
            _ => (None, "unread"),
        };
        if let Some(by) = by.or(self.ended.first().copied()) {
            self.teller.end(&by, how);
        }
    }

    /// Tells the events that stand whole, and records them.
    fn read(&mut self) {
        self.read_events();
        let written = self.recording.as_mut().map_or(Ok(()), |it| it.write());
        if let Err(why) = written {
            self.recording = None;
            self.cut(&format_args!("it can't be recorded: {why}"));
        }
    }

    /// Notes that an event was read.
    fn record(&mut self, hidden: Hidden) {
        if let Some(recording) = &mut self.recording {
            let connection = &self.connection;
            let unread = [Side::Client, Side::Server].map(|side| connection.rest(side).len());
            recording.pass(unread, &hidden);
        }
    }

    fn read_events(&mut self) {
        while self.read_event() {
            match self.connection.phase() {
                Phase::Command => self.finish_command(true),
                Phase::Over(reason) => return self.pass_over(reason),
                _ => {}
            }
        }
        let waits = self.follows == Follows::Reads && self.ended.contains(&Side::Server);
        if waits && self.connection.turn() == Some(Side::Server) {
            // It doesn't come any more, and nothing behind it can be read.
            self.follows = Follows::Passes;
        }
    }

    /// Tells the next event. Says whether there was one, and more can be read.
    fn read_event(&mut self) -> bool {
        if self.connection.phase() == Phase::Command {
            // The mode in which the server reads the text that may come next.
            let known = self.connection.mode();
            self.teller.telling.mode = known.unwrap_or(self.teller.mode_by_status);
        }
        let has_left = self.ended.first() == Some(&Side::Client);
        let most = self.teller.telling.most;
        let mut hidden = Hidden::Nothing;
        let is_read = match self.connection.next_event_lent() {
            Ok(None) => false,
            Ok(Some(event)) if self.guards && has_clear_password(&event) => {
                if let Event::Login(login) = &event {
                    self.teller.name(login.user, login.database);
                }
                self.refuse_clear_password();
                false
            }
            Ok(Some(event)) if !self.is_mariadb && is_cut_off(&event) => {
                self.give_up(&"MySQL answers a command that is cut off");
                false
            }
            Ok(Some(Event::Other(payload @ [COM_STMT_EXECUTE | COM_STMT_BULK_EXECUTE, ..]))) => {
                // As much as is told.
                let front = payload[..payload.len().min(most.saturating_add(EXECUTION))].to_vec();
                self.take_unread_execution(&front);
                true
            }
            // It is no error of the server.
            Ok(Some(Event::Farewell(error))) if error.code == READ_ERROR && has_left => {
                self.has_left = true;
                true
            }
            Ok(Some(event)) => {
                if let Event::Greeting(greeting) = &event {
                    let bits = greeting.capabilities.protocol;
                    self.is_mariadb = bits & CLIENT_LONG_PASSWORD == 0;
                }
                hidden = Hidden::of(&event);
                self.teller.take(&event);
                true
            }
            Err(fault) => {
                let (side, code) = (fault.side(), fault.code());
                let byte = self.before[side as usize] + fault.byte();
                self.give_up(&format_args!("{side}, byte {byte}: {code}"));
                false
            }
        };
        if is_read {
            self.record(hidden);
        }
        is_read
    }

    /// Tells the command that ran, if one did, with how many bytes of both sides were read.
    pub fn finish_command(&mut self, whole: bool) {
        if self.teller.is_running() {
            let unread = [Side::Client, Side::Server].map(|side| self.connection.rest(side).len());
            self.teller.finish_command(whole, unread);
        }
    }

    /// What comes behind the last event isn't read.
    fn pass_over(&mut self, reason: Reason) {
        self.finish_command(true);
        match reason {
            Reason::Secure => self.give_up(&"TLS begins"),
            Reason::Compressed => self.give_up(&"compression begins"),
            Reason::Dump => self.give_up(&"the binary log is sent"),
            Reason::Clone => self.give_up(&"a clone is sent"),
            _ => self.follows = Follows::Passes,
        }
    }

    /// Reads no more of the connection, which is told.
    pub fn give_up(&mut self, why: &dyn Display) {
        let (kind, follows) = match self.on_fault {
            OnFault::Pass if !self.insists => ("unread", Follows::Passes),
            _ => ("cut", Follows::Cuts),
        };
        self.follows = follows;
        self.gave_up = true;
        if let Some(mut recording) = self.recording.take() {
            // It ends where the reading does.
            let _ = recording.write();
        }
        self.finish_command(false);
        if follows == Follows::Cuts {
            // It ends at once, and what waits is told then.
            return self.teller.tell_unread(kind, why);
        }
        self.tell_unanswered(&[]);
        self.teller.tell_unread(kind, why);
        // What is held of it goes.
        if let Ok(empty) = Connection::new(NOTHING) {
            self.connection = empty;
        }
    }

    /// Ends the connection, whatever is done with others that can't be read.
    pub fn cut(&mut self, why: &dyn Display) {
        if !self.is_cut() {
            self.on_fault = OnFault::Cut;
            self.give_up(why);
        }
    }

    /// Ends the connection before a password goes in clear.
    fn refuse_clear_password(&mut self) {
        let why = "a password would go in clear, since the server's side has no TLS";
        self.refusal = Some((NEEDS_TLS, why.to_string()));
        self.cut(&why);
    }

    pub fn is_cut(&self) -> bool {
        self.follows == Follows::Cuts
    }
}
