//! What the events of a connection become: a line for each command whose reply is whole.

use crate::commands::{asked, text_of, Telling};
use crate::lines::{Answer, Format, Heading, Outcome, Sink, Told};
use crate::tables::Names;
use mysql_session::{status, ErrorPacket, Event, Mode, OkPacket, Side};
use std::fmt::Display;
use std::mem;
use std::sync::Arc;
use std::time::{Duration, Instant};

const COM_CHANGE_USER: u8 = 0x11;
/// As many results of a reply are told, and how many more there are.
const MOST_RESULTS: usize = 1000;

/// A command, or a login, whose reply isn't whole.
struct Running {
    told: Told,
    began: Instant,
    /// When the first byte of the reply came.
    first: Option<Instant>,
    outcomes: Vec<Outcome>,
    /// The rows of a result that hasn't ended.
    rows: Option<u64>,
    /// How many columns it has, and how many of them are to come.
    columns: [u16; 2],
    /// Whether its values are laid out as those of an execution.
    is_binary: bool,
    /// Whether its rows are fetched from a cursor.
    has_cursor: bool,
    /// What the connection's user and database are where the server agrees.
    becomes: Option<(Option<Vec<u8>>, Vec<u8>)>,
}

/// The connection that lines are about.
pub struct Origin {
    pub number: u64,
    /// The client's address, where it is told.
    pub client: Option<Box<str>>,
}

/// A name of a login as servers read it.
fn without_quotes(user: &[u8]) -> &[u8] {
    match user {
        [b'\'', name @ .., b'\''] => name,
        name => name,
    }
}

/// Tells the events of a connection.
pub struct Teller<S> {
    origin: Origin,
    format: Format,
    pub telling: Telling,
    /// The names that filters and alerts ask for.
    pub names: Arc<Names>,
    sink: S,
    user: Vec<u8>,
    database: Vec<u8>,
    /// The address of the balancer that handed the connection on.
    balancer: Option<Box<str>>,
    /// The server's number of the connection.
    thread: u32,
    running: Option<Running>,
    /// How many bytes the payload has whose front is read next.
    length: Option<usize>,
    /// Whether the server said that a transaction is open.
    pub in_transaction: bool,
    /// The session's mode, as far as the server's status has it. Where nothing else is known texts are
    /// masked and digested by it.
    pub mode_by_status: Mode,
    pub commands: u64,
    /// How many bytes of each side came.
    pub came: [u64; 2],
    /// How many of them were told.
    told: [u64; 2],
    began: Instant,
    /// When the bytes came that are read, where that is known.
    pub came_at: Option<Instant>,
    /// How each side is secured, where it is.
    pub tls: [Option<String>; 2],
}

impl<S: Sink> Teller<S> {
    pub fn new(origin: Origin, telling: Telling, sink: S) -> Teller<S> {
        Teller {
            origin,
            format: telling.format,
            telling,
            names: Arc::default(),
            sink,
            user: Vec::new(),
            database: Vec::new(),
            balancer: None,
            thread: 0,
            running: None,
            length: None,
            in_transaction: false,
            mode_by_status: Mode::default(),
            commands: 0,
            came: [0; 2],
            told: [0; 2],
            began: Instant::now(),
            came_at: None,
            tls: [None, None],
        }
    }

    /// Tells a command of which it isn't known what came of it.
    pub fn tell_unanswered(&mut self, told: Told) {
        self.begin(told);
        self.finish_command(false, [0; 2]);
    }

    /// Takes the names of a login. Servers drop quotes around the user there, and nowhere else.
    pub fn name(&mut self, user: &[u8], database: &[u8]) {
        (self.user, self.database) = (without_quotes(user).to_vec(), database.to_vec());
    }

    /// The time by which commands and replies are measured.
    fn now(&self) -> Instant {
        self.came_at.unwrap_or_else(Instant::now)
    }

    /// Takes what a balancer says of the client's address.
    pub fn come_by(&mut self, client: Box<str>, balancer: Box<str>) {
        self.origin.client = Some(client);
        self.balancer = Some(balancer);
    }

    /// Whether a command's, or a login's, reply isn't whole.
    pub fn is_running(&self) -> bool {
        self.running.is_some()
    }

    /// Notes that bytes of a side came.
    pub fn take_bytes(&mut self, side: Side, count: usize) {
        self.came[side as usize] += count as u64;
        let came_at = self.came_at;
        if let (Side::Server, Some(running)) = (side, &mut self.running) {
            let now = || came_at.unwrap_or_else(Instant::now);
            running.first.get_or_insert_with(now);
        }
    }

    pub fn take(&mut self, event: &Event) {
        match event {
            Event::Greeting(greeting) => self.thread = greeting.connection,
            Event::Login(login) => {
                self.begin_login();
                // One that is refused is told by this name, too.
                self.name(login.user, login.database);
            }
            Event::ChangeUser(change) => {
                let to = self.format.text(change.user);
                self.begin(Told::new("change user").with("to", to));
                self.will_become(Some(change.user), change.database);
            }
            Event::InitDb(database) => {
                self.begin(Told::new("init db").with_text(self.format.text(database)));
                self.will_become(None, database);
            }
            Event::Rejected(error) => self.tell_error("refused", error),
            Event::Farewell(error) => self.tell_error("farewell", error),
            event => match asked(self.telling, event) {
                Some(mut told) => {
                    told.named = self.names.within(text_of(event));
                    self.telling.has_secrets |= told.is_secret && told.kind == "prepare";
                    self.begin(told);
                    if let Some(running) = &mut self.running {
                        running.is_binary = is_execution(event);
                    }
                    if let Event::Other([COM_CHANGE_USER, asked @ ..]) = event {
                        let (user, database) = user_and_database(asked);
                        self.will_become(Some(user), database);
                    }
                }
                None => self.take_reply(event),
            },
        }
    }

    fn begin_login(&mut self) {
        let mut told = Told::new("login").with("thread", self.thread);
        let [client, server] = &self.tls;
        for (name, what) in [("tls", client), ("tls_server", server)] {
            if let Some(what) = what {
                told = told.with(name, self.format.text(what.as_bytes()));
            }
        }
        self.begin(match &self.balancer {
            Some(balancer) => told.with("balancer", self.format.text(balancer.as_bytes())),
            None => told,
        });
    }

    /// Takes what a server answers, or the bytes of a file that it asked for.
    fn take_reply(&mut self, event: &Event) {
        let came_at = self.came_at;
        let Some(running) = &mut self.running else {
            return;
        };
        let now = || came_at.unwrap_or_else(Instant::now);
        running.first.get_or_insert_with(now);
        if let Event::Accepted(ok) | Event::Ok(ok) | Event::RowsEnd(ok) = event {
            self.in_transaction = ok.status & status::SERVER_STATUS_IN_TRANS != 0;
            self.mode_by_status = Mode::of(ok.status);
        }
        match event {
            Event::ColumnCount {
                count,
                columns_follow,
            } => {
                running.rows = Some(0);
                running.columns = [*count, u16::from(*columns_follow) * count];
            }
            Event::ColumnsEnd(ok) => running.note_cursor(ok),
            Event::Column(_) => running.columns[1] = running.columns[1].saturating_sub(1),
            Event::Row(_) | Event::RawRow(_) | Event::Field { .. } => {
                *running.rows.get_or_insert(0) += 1;
            }
            Event::RowsEnd(ok) => running.take_end(ok),
            Event::FileData(data) => {
                if let Some(Outcome::File { bytes, .. }) = running.outcomes.last_mut() {
                    *bytes += data.len() as u64;
                }
            }
            event => {
                if let Some(outcome) = Outcome::of(event) {
                    // An error may stand in a row's place.
                    running.end_rows();
                    running.push(outcome);
                }
            }
        }
    }

    /// A row without values, in the place of one that isn't read. None where none is due, or its
    /// form isn't known.
    pub fn row_of_nulls(&self) -> Option<Vec<u8>> {
        let running = self.running.as_ref()?;
        let ([columns, 0], Some(_)) = (running.columns, running.rows) else {
            return None;
        };
        let columns = usize::from(columns);
        if !running.is_binary {
            return Some(vec![0xfb; columns]);
        }
        // Two bits of the bitmap stand before the columns.
        let bits = vec![0xff; (columns + 2).div_ceil(8)];
        Some([vec![0], bits].concat())
    }

    /// Notes that the next payload stands for one of so many bytes, of which so many are left out.
    pub fn skip(&mut self, length: usize, left_out: usize) {
        self.length = Some(length);
        let outcome = self.running.as_mut().and_then(|it| it.outcomes.last_mut());
        if let Some(Outcome::File { bytes, .. }) = outcome {
            *bytes += left_out as u64;
        }
    }

    /// Tells of a payload that was skipped, where no line of a command does.
    pub fn end_skip(&mut self, side: Side) {
        if let Some(length) = self.length.take() {
            let by = self.format.text(side.to_string().as_bytes());
            let told = Told::new("skipped").with("by", by).with("length", length);
            self.tell(&told, None);
        }
    }

    /// Tells an error that answers nothing that was asked.
    fn tell_error(&mut self, kind: &'static str, error: &ErrorPacket) {
        self.finish_command(false, [0; 2]);
        let answer = Answer {
            outcomes: &[Outcome::error(error)],
            took: Duration::ZERO,
            first: None,
            traffic: self.take_untold([0; 2]),
            whole: true,
        };
        self.tell(&Told::new(kind), Some(&answer));
    }

    fn begin(&mut self, told: Told) {
        let told = match self.length.take() {
            Some(length) => told.with("length", length),
            None => told,
        };
        self.commands += u64::from(told.kind != "login");
        self.running = Some(Running {
            told,
            began: self.now(),
            first: None,
            outcomes: Vec::new(),
            rows: None,
            columns: [0; 2],
            is_binary: false,
            has_cursor: false,
            becomes: None,
        });
    }

    /// Takes an execution that is laid out as none.
    pub fn begin_execution(&mut self, told: Told) {
        self.begin(told);
        if let Some(running) = &mut self.running {
            running.is_binary = true;
        }
    }

    fn will_become(&mut self, user: Option<&[u8]>, database: &[u8]) {
        if let Some(running) = &mut self.running {
            running.becomes = Some((user.map(<[u8]>::to_vec), database.to_vec()));
        }
    }

    /// How many bytes of each side were read and aren't told, where so many aren't read.
    fn take_untold(&mut self, unread: [usize; 2]) -> [u64; 2] {
        [0, 1].map(|side| {
            let read = self.came[side].saturating_sub(unread[side] as u64);
            read.saturating_sub(mem::replace(&mut self.told[side], read))
        })
    }

    /// Tells the command that ran, if one did, with its reply or what came of it. Of each side so
    /// many bytes aren't read.
    pub fn finish_command(&mut self, whole: bool, unread: [usize; 2]) {
        let Some(mut running) = self.running.take() else {
            return;
        };
        running.end_rows();
        if let (Some(Outcome::Done { .. }), Some((user, database))) =
            (running.outcomes.last(), running.becomes.take())
        {
            self.user = user.unwrap_or_else(|| mem::take(&mut self.user));
            self.database = database;
        }
        if running.told.is_secret {
            running.outcomes.iter_mut().for_each(Outcome::hide_message);
        }
        let answer = Answer {
            outcomes: &running.outcomes,
            took: self.now().saturating_duration_since(running.began),
            first: running
                .first
                .map(|first| first.saturating_duration_since(running.began)),
            traffic: self.take_untold(unread),
            whole,
        };
        self.tell(&running.told, Some(&answer));
    }

    fn tell(&mut self, told: &Told, answer: Option<&Answer>) {
        let heading = Heading {
            connection: self.origin.number,
            sample: 1,
            client: self.origin.client.as_deref(),
            user: &self.user,
            database: &self.database,
        };
        self.sink.tell(self.format, &heading, told, answer);
    }

    pub fn tell_unread(&mut self, kind: &'static str, why: &dyn Display) {
        self.finish_command(false, [0; 2]);
        let why = self.format.text(why.to_string().as_bytes());
        self.tell(&Told::new(kind).with_text(why), None);
    }

    pub fn end(&mut self, by: &dyn Display, how: &str) {
        let seconds = format!("{:.6}", self.began.elapsed().as_secs_f64());
        let mut told = Told::new("end")
            .with("by", self.format.text(by.to_string().as_bytes()))
            .with("commands", self.commands)
            .with("seconds", seconds);
        if self.origin.client.is_some() {
            let [client, server] = self.came;
            told = told.with("traffic", format!("[{client},{server}]"));
            if self.in_transaction {
                told = told.with("transaction", true);
            }
        }
        self.tell(&told.with_text(self.format.text(how.as_bytes())), None);
    }
}

/// The user and the database of a change of user that is laid out as none, as far as they go: some
/// servers take one whose character set is cut off.
fn user_and_database(asked: &[u8]) -> (&[u8], &[u8]) {
    let text = |bytes| {
        <[u8]>::split(bytes, |byte| *byte == 0)
            .next()
            .unwrap_or_default()
    };
    let user = text(asked);
    let answer = asked.get(user.len() + 1..).and_then(<[u8]>::split_first);
    let database = answer.and_then(|(length, rest)| rest.get(usize::from(*length)..));
    (user, database.map_or(&[], text))
}

/// Whether it is an execution, also one that can't be read.
fn is_execution(event: &Event) -> bool {
    match event {
        Event::Execute { .. } | Event::BulkExecute { .. } => true,
        Event::Other(payload) => matches!(payload.first(), Some(0x17 | 0xfa)),
        _ => false,
    }
}

impl Running {
    fn end_rows(&mut self) {
        self.end_rows_with(0);
    }

    fn end_rows_with(&mut self, warnings: u16) {
        let opens = mem::take(&mut self.has_cursor) && self.told.kind == "execute";
        let outcome = |rows| match (rows, opens) {
            (0, true) => Outcome::Cursor,
            _ => Outcome::Rows { rows, warnings },
        };
        if let Some(rows) = self.rows.take() {
            self.push(outcome(rows));
        }
    }

    /// Takes a result. An error, which ends a reply, is always told.
    fn push(&mut self, outcome: Outcome) {
        let is_error = matches!(outcome, Outcome::Error { .. });
        let has_room = self.outcomes.len() < MOST_RESULTS || is_error;
        match self.outcomes.last_mut() {
            Some(Outcome::More(number)) if !is_error => *number += 1,
            _ if has_room => self.outcomes.push(outcome),
            _ => self.outcomes.push(Outcome::More(1)),
        }
    }

    /// Notes whether rows are fetched from a cursor.
    fn note_cursor(&mut self, ok: &OkPacket) {
        self.has_cursor |= ok.status & status::SERVER_STATUS_CURSOR_EXISTS != 0;
    }

    /// Takes the packet that ends rows. Some commands are answered by it alone.
    fn take_end(&mut self, ok: &OkPacket) {
        self.note_cursor(ok);
        match self.rows {
            None if self.told.kind != "fetch" => self.push(Outcome::done(ok)),
            _ => {
                self.rows.get_or_insert(0);
                self.end_rows_with(ok.warnings);
            }
        }
    }
}
