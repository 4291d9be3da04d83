//! A recorded connection as a list of commands with their replies.

use crate::client::Failure;
use crate::execution::execution;
use crate::reply::Reply;
use mysql_session::{capability, command, Capabilities, Connection, Event, Limits, Side};

/// A command, and what the server replied to it when it was recorded.
pub struct Command {
    /// Its name, and its text as far as it fits a line.
    pub title: String,
    /// Its number in the protocol.
    pub number: u8,
    /// Its payload, as it was recorded.
    pub payload: Vec<u8>,
    /// What it is without attributes, where they were in force.
    pub plain: Option<Vec<u8>>,
    /// The statement that it is about.
    pub statement: Option<u32>,
    /// How many values an execution has, or each row of a bulk one.
    pub values: Option<usize>,
    /// The payloads of the file that the client sent.
    pub file: Vec<Vec<u8>>,
    pub reply: Reply,
}

/// A recorded connection.
#[derive(Default)]
pub struct Recording {
    /// What was in force.
    pub capabilities: Capabilities,
    /// The database that it named.
    pub database: Vec<u8>,
    pub commands: Vec<Command>,
    /// How it ends, as the line of its end has it.
    pub end: String,
    /// Statements and parameters for which long data waits.
    waiting: Vec<(u32, u16)>,
}

impl Recording {
    /// Reads both streams of a connection, as far as they can be read.
    pub fn read(client: &[u8], server: &[u8]) -> Result<Recording, Failure> {
        let mut connection = Connection::new(Limits {
            client: client.len(),
            server: server.len(),
            held: 4 * (client.len() + server.len()) + (1 << 20),
        })?;
        connection.feed(Side::Client, client)?;
        connection.feed(Side::Server, server)?;
        let (mut recording, mut payloads) = (Recording::default(), Payloads(client));
        // Behind a fault there is no event, and the end tells it.
        while matches!(connection.next_event(), Ok(Some(_))) {
            let event = connection.event().ok_or("an event was told")?;
            recording.capabilities = connection.capabilities();
            match event.side() {
                Side::Client => {
                    let payload = payloads.next().ok_or("an event has a payload")?;
                    recording.add_said(&event, payload, connection.line()?);
                }
                Side::Server => recording.add_replied(&event),
            }
        }
        connection.finish();
        recording.end = connection.line()?.trim_start_matches("end ").to_string();
        Ok(recording)
    }

    /// Takes what the client said.
    fn add_said(&mut self, event: &Event<'_>, payload: Vec<u8>, line: &str) {
        match event {
            Event::Login(login) => self.database = login.database.to_vec(),
            Event::SecureRequest(_) | Event::CutOffLogin(_) | Event::Answer(_) => (),
            Event::FileData(_) => {
                if let Some(asked) = self.commands.last_mut() {
                    asked.file.push(payload);
                }
            }
            command => {
                let (plain, statement) = (self.plain(command), statement_of(&payload));
                self.commands.push(Command {
                    title: title_of(command, line),
                    number: payload.first().copied().unwrap_or(0),
                    payload,
                    plain,
                    statement,
                    values: values_in(command),
                    file: Vec::new(),
                    reply: Reply::default(),
                });
                self.note_long_data(command, statement);
            }
        }
    }

    /// A command without its attributes, where they were in force.
    fn plain(&self, event: &Event<'_>) -> Option<Vec<u8>> {
        if self.capabilities.protocol & capability::CLIENT_QUERY_ATTRIBUTES == 0 {
            return None;
        }
        match event {
            Event::Query { text, .. } => Some(command::query(text)),
            Event::Execute {
                statement,
                values,
                cursor,
                ..
            } => {
                let values: Vec<_> = values.iter().collect();
                let waits = |place| self.waiting.contains(&(*statement, place as u16));
                Some(execution(*statement, *cursor, &values, waits))
            }
            _ => None,
        }
    }

    /// Notes for which parameters long data waits, behind a command about this statement.
    fn note_long_data(&mut self, event: &Event<'_>, statement: Option<u32>) {
        match event {
            Event::LongData {
                statement, place, ..
            } => self.waiting.push((*statement, *place)),
            _ => self.waiting.retain(|(id, _)| Some(*id) != statement),
        }
    }

    /// Takes what the server replied.
    fn add_replied(&mut self, event: &Event<'_>) {
        if let Some(asked) = self.commands.last_mut() {
            asked.reply.add(event);
        }
    }
}

/// How many values an execution has, or each row of a bulk one.
fn values_in(event: &Event<'_>) -> Option<usize> {
    match event {
        Event::Execute { values, .. } => Some(values.len()),
        Event::BulkExecute { rows, .. } => rows.row(0).map(|row| row.len()),
        _ => None,
    }
}

/// The statement that a command is about. COM_STMT_EXECUTE, _SEND_LONG_DATA, _CLOSE, _RESET, _FETCH
/// and _BULK_EXECUTE have its id behind their number, also if the rest is laid out otherwise.
fn statement_of(payload: &[u8]) -> Option<u32> {
    match payload {
        [0x17..=0x1a | 0x1c | 0xfa, a, b, c, d, ..] => Some(u32::from_le_bytes([*a, *b, *c, *d])),
        _ => None,
    }
}

/// A command's name, which is the second word of its line, and the beginning of its text.
fn title_of(event: &Event<'_>, line: &str) -> String {
    let name = line.split(' ').nth(1).unwrap_or_default();
    let text = match event {
        Event::Query { text, .. }
        | Event::Prepare { text }
        | Event::Execute { text, .. }
        | Event::BulkExecute { text, .. }
        | Event::InitDb(text) => String::from_utf8_lossy(text),
        _ => return name.to_string(),
    };
    let words = text.split_whitespace().collect::<Vec<_>>().join(" ");
    match words.char_indices().nth(60) {
        Some((end, _)) => format!("{name} {}..", &words[..end]),
        None => format!("{name} {words}"),
    }
}

/// The payloads of a stream's packets, as far as they are whole.
struct Payloads<'a>(&'a [u8]);

impl Iterator for Payloads<'_> {
    type Item = Vec<u8>;

    fn next(&mut self) -> Option<Vec<u8>> {
        let mut payload = Vec::new();
        loop {
            let ([low, middle, high, _], rest) = self.0.split_first_chunk()?;
            let length = u32::from_le_bytes([*low, *middle, *high, 0]) as usize;
            let (chunk, rest) = rest.split_at_checked(length)?;
            payload.extend_from_slice(chunk);
            self.0 = rest;
            if length < 0xff_ffff {
                return Some(payload);
            }
        }
    }
}
