//! A client over a socket and a connection: what it puts is written, what comes is read.

use crate::passwords::Secret;
use mysql_session::{
    bind_text_in, capability, command, Bytes, Capabilities, Connection, Event, Limits, Login, Mode,
    ParameterSets, ServerGreeting, SessionMode, Side, ASK_SESSION_MODE,
};
use std::error::Error;
use std::io::{self, Read, Write};
use std::net::TcpStream;

/// Why an example stops.
pub type Failure = Box<dyn Error + Send + Sync>;

/// The longest payload of either side: the largest `max_allowed_packet` of a server.
pub const LIMIT: usize = 1 << 30;

/// How much is held of a connection in all.
const HELD: usize = 4 * LIMIT;

/// What is answered first where the server names a plugin that isn't known here.
const NATIVE: &[u8] = b"mysql_native_password";

/// What a server of caching_sha2_password says where it wants the password itself.
const FULL: &[u8] = b"\x04";

/// What takes a connection to where it isn't read.
const HIDDEN: u32 = capability::CLIENT_COMPRESS
    | capability::CLIENT_SSL
    | capability::CLIENT_ZSTD_COMPRESSION_ALGORITHM;

/// Who logs in.
pub struct Account<'a> {
    pub user: &'a [u8],
    /// The password, or none of an empty one.
    pub password: Option<Secret>,
    /// The database, or no bytes.
    pub database: &'a [u8],
    /// What the client has.
    pub capabilities: Capabilities,
}

/// A client that is logged in.
pub struct Client {
    stream: TcpStream,
    connection: Connection,
    /// What was put, and isn't written yet.
    out: Bytes,
    /// Whether the greeting was a MariaDB's.
    is_mariadb: bool,
}

impl Client {
    /// Connects and logs in.
    pub fn connect(address: &str, account: &Account<'_>) -> Result<Client, Failure> {
        let limits = Limits {
            client: LIMIT,
            server: LIMIT,
            held: HELD,
        };
        let mut client = Client {
            stream: TcpStream::connect(address)?,
            connection: Connection::new(limits)?,
            out: Bytes::new()?,
            is_mariadb: false,
        };
        client.stream.set_nodelay(true)?;
        client.log_in(account)?;
        client.ask_session_mode()?;
        Ok(client)
    }

    /// Asks the server for the session's SQL mode and character set, if it can tell them. A status
    /// isn't enough: behind a procedure that set the mode a MariaDB tells by it a mode that it isn't in.
    fn ask_session_mode(&mut self) -> Result<(), Failure> {
        if self.connection.capabilities().protocol & capability::CLIENT_SESSION_TRACK == 0 {
            return Ok(());
        }
        self.query(ASK_SESSION_MODE)?;
        while self.awaits_reply() {
            self.next()?;
        }
        Ok(())
    }

    /// A query with the values of a set in it, written for the session's mode and character set. The
    /// server is asked where either isn't known. If it doesn't tell them, or quotes aren't safe in the
    /// set, values are in hexadecimal, which each mode and set reads alike.
    ///
    /// By the mode a backslash in the query ends a string or not. If the mode isn't known no text
    /// of such a query is made: it has to be executed.
    pub fn text(
        &mut self,
        query: &[u8],
        sets: &ParameterSets,
        set: usize,
    ) -> Result<Bytes, Failure> {
        let session = self.session_mode()?;
        if session.mode.is_none() && query.contains(&b'\\') {
            return Err("the mode isn't known, and the query has a backslash".into());
        }
        let (mode, spelling) = (session.mode.unwrap_or_default(), session.spelling());
        let mut text = Bytes::new()?;
        bind_text_in(sets, set, query, mode, spelling, &mut text)?;
        Ok(text)
    }

    /// Whether it is the server's turn, which replies.
    pub fn awaits_reply(&self) -> bool {
        self.connection.turn() == Some(Side::Server)
    }

    /// Whether the server is a MariaDB: its greeting lacks the bit that MySQL always has.
    pub fn is_mariadb(&self) -> bool {
        self.is_mariadb
    }

    /// Whether queries and executions have attributes.
    pub fn has_attributes(&self) -> bool {
        self.connection.capabilities().protocol & capability::CLIENT_QUERY_ATTRIBUTES != 0
    }

    /// Sends a query.
    pub fn query(&mut self, text: &[u8]) -> Result<(), Failure> {
        let payload = match self.has_attributes() {
            true => command::query_without_attributes(text),
            false => command::query(text),
        };
        self.send(&payload)
    }

    /// Sends a payload.
    pub fn send(&mut self, payload: &[u8]) -> Result<(), Failure> {
        self.goes_on()?;
        self.connection.put(Side::Client, payload, &mut self.out)?;
        self.write()
    }

    /// Sends the executions of a statement up to the first that has a reply. The answer is how many of
    /// their bytes went. It fails where the server counted another number of parameters than the
    /// query has placeholders: the server would run them with other values.
    pub fn send_sets(
        &mut self,
        statement: u32,
        places: usize,
        packets: &[u8],
    ) -> Result<usize, Failure> {
        self.goes_on()?;
        let used = self
            .connection
            .put_sets(statement, places, packets, &mut self.out)?;
        self.write()?;
        Ok(used)
    }

    /// How many parameters the server counted of a statement.
    #[allow(dead_code)] // not in each example
    pub fn parameters(&self, statement: u32) -> Option<usize> {
        let found = self.connection.statement(statement)?;
        Some(usize::from(found.parameters))
    }

    /// The next event of the server's, which may have to be waited for.
    pub fn next(&mut self) -> Result<Event<'_>, Failure> {
        while self.connection.next_event()?.is_none() {
            self.receive()?;
        }
        Ok(self.connection.event().expect("an event was told"))
    }

    /// The socket, and the server's bytes behind the last event: what goes on in its own form.
    pub fn into_stream(self) -> (TcpStream, Vec<u8>) {
        let unread = self.connection.rest(Side::Server).to_vec();
        (self.stream, unread)
    }

    /// The session's SQL mode, for which the server is asked if it isn't known.
    pub fn mode(&mut self) -> Result<Option<Mode>, Failure> {
        Ok(self.session_mode()?.mode)
    }

    /// What is known of the session, for which the server is asked where the mode or the character
    /// set isn't known.
    fn session_mode(&mut self) -> Result<SessionMode, Failure> {
        let session = self.connection.session_mode();
        if session.mode.is_none() || session.is_safe_set.is_none() {
            self.ask_session_mode()?;
        }
        Ok(self.connection.session_mode())
    }

    /// Fails where the connection is over, as behind the server's last words: nothing is put then.
    fn goes_on(&self) -> Result<(), Failure> {
        match self.connection.turn() {
            Some(_) => Ok(()),
            None => Err("the connection is over".into()),
        }
    }

    /// Writes what was put.
    fn write(&mut self) -> Result<(), Failure> {
        self.stream.write_all(&self.out)?;
        self.out.clear();
        Ok(())
    }

    /// Reads what comes next, as far as there is room for it.
    fn receive(&mut self) -> Result<(), Failure> {
        let mut piece = [0; 1 << 14];
        let room = self.connection.room(Side::Server).min(piece.len());
        let count = self.stream.read(&mut piece[..room])?;
        if count == 0 {
            return Err(io::Error::from(io::ErrorKind::UnexpectedEof).into());
        }
        Ok(self.connection.feed(Side::Server, &piece[..count])?)
    }

    /// Answers the greeting, and what the server asks for behind it.
    fn log_in(&mut self, account: &Account<'_>) -> Result<(), Failure> {
        let (login, capabilities) = match self.next()? {
            Event::Greeting(greeting) => {
                (login(account, &greeting)?, greeting.capabilities.protocol)
            }
            Event::Rejected(error) => return Err(error.to_string().into()),
            event => return Err(format!("the server doesn't greet: {event:?}").into()),
        };
        self.is_mariadb = capabilities & capability::CLIENT_LONG_PASSWORD == 0;
        self.send(&login)?;
        self.authenticate(account)
    }

    /// Answers what the server asks for behind the login.
    fn authenticate(&mut self, account: &Account<'_>) -> Result<(), Failure> {
        loop {
            let response = match self.next()? {
                Event::Accepted(_) => return Ok(()),
                Event::Denied(error) => return Err(error.to_string().into()),
                Event::AuthSwitch { plugin, data } => {
                    // A nonce ends with a zero.
                    let nonce = data.strip_suffix(b"\0").unwrap_or(data);
                    response(account, plugin, nonce).ok_or_else(|| {
                        format!("the server asks for {}", String::from_utf8_lossy(plugin))
                    })?
                }
                Event::AuthMore(FULL) => {
                    return Err(
                        "the server wants the password itself, over TLS or by its key".into(),
                    )
                }
                // The server has the password's digest: its OK packet follows.
                Event::AuthMore(_) => continue,
                event => return Err(format!("the server asks for more: {event:?}").into()),
            };
            self.send(&response)?;
        }
    }
}

/// The payload that answers a greeting.
fn login(account: &Account<'_>, greeting: &ServerGreeting<'_>) -> Result<Bytes, Failure> {
    let nonce = greeting.scramble;
    let (plugin, response) = match response(account, greeting.plugin, nonce) {
        Some(response) => (greeting.plugin, response),
        None => (NATIVE, response(account, NATIVE, nonce).unwrap_or_default()),
    };
    let mut payload = Bytes::new()?;
    Login {
        capabilities: account.capabilities.protocol & greeting.capabilities.protocol & !HIDDEN,
        mariadb_capabilities: account.capabilities.mariadb & greeting.capabilities.mariadb,
        user: account.user,
        response: &response,
        database: account.database,
        plugin,
        ..Login::default()
    }
    .put(LIMIT as u32, &mut payload)?;
    Ok(payload)
}

/// What a client answers to a nonce by a plugin: nothing where the password is empty, and none where the
/// plugin isn't known here.
fn response(account: &Account<'_>, plugin: &[u8], nonce: &[u8]) -> Option<Vec<u8>> {
    match &account.password {
        Some(password) => password.answer(plugin, nonce),
        None => Some(Vec::new()),
    }
}
