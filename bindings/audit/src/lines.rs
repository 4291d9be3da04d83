//! What a line of the audit has in it, and how it is written: for people, or as JSON.
//!
//! What peers sent may hold anything. For people control characters are written as escapes, so that
//! no text moves a terminal's cursor, and bytes that aren't UTF-8 by their digits. In JSON a text
//! that isn't UTF-8 is an object with its digits: `{"hex":"ff00"}`.

use crate::commands::HIDDEN;
use crate::texts::{date_digits, push_json, push_now, push_number, push_quoted, push_readable};
use crate::texts::{push_seconds, time_digits};
use mysql_session::{BulkValue, ErrorPacket, Event, OkPacket, Value};
use std::fmt::{Display, Write};
use std::time::Duration;

/// How lines are written.
#[derive(Clone, Copy, PartialEq)]
pub enum Format {
    Text,
    Json,
}

/// What is told of a connection, with its texts and values written in the format.
pub struct Told {
    pub kind: &'static str,
    /// Names and what they have: numbers, names of users.
    pub fields: Vec<(&'static str, String)>,
    pub text: Option<String>,
    pub values: Option<String>,
    /// The text's digest, where digests are told.
    pub digest: Option<Vec<u8>>,
    /// The tables that it names, where they are told.
    pub tables: Option<Vec<String>>,
    /// Which of the names that are asked for its text has.
    pub named: Vec<String>,
    /// Whether it has a secret that isn't told. Nor is what the server says of it then.
    pub is_secret: bool,
    /// Whether its texts and values are told up to some length alone.
    pub is_short: bool,
}

/// A result in a server's reply.
pub enum Outcome {
    Rows {
        rows: u64,
        warnings: u16,
    },
    /// Rows are to be fetched.
    Cursor,
    Done {
        affected: u64,
        insert_id: u64,
        warnings: u16,
    },
    Error {
        code: u16,
        state: Option<[u8; 5]>,
        message: Vec<u8>,
    },
    Prepared {
        statement: u32,
        parameters: u16,
        columns: u16,
    },
    File {
        name: Vec<u8>,
        bytes: u64,
    },
    Line(Vec<u8>),
    /// So many more results.
    More(u64),
}

/// The connection that a line is about.
#[derive(Clone, Copy)]
pub struct Heading<'a> {
    pub connection: u64,
    /// Of how many commands this one is told.
    pub sample: u32,
    /// The client's address. Where there is none, nor is told when a reply began, and its bytes.
    pub client: Option<&'a str>,
    pub user: &'a [u8],
    pub database: &'a [u8],
}

/// How a command was answered, and how long that took.
pub struct Answer<'a> {
    pub outcomes: &'a [Outcome],
    pub took: Duration,
    /// How long it took to the reply's first byte.
    pub first: Option<Duration>,
    /// How many bytes of the client and of the server it took.
    pub traffic: [u64; 2],
    pub whole: bool,
}

/// What takes the lines of connections.
pub trait Sink {
    fn tell(&mut self, format: Format, heading: &Heading, told: &Told, answer: Option<&Answer>);
}

impl Told {
    pub fn new(kind: &'static str) -> Told {
        Told {
            kind,
            fields: Vec::new(),
            text: None,
            values: None,
            digest: None,
            tables: None,
            named: Vec::new(),
            is_secret: false,
            is_short: false,
        }
    }

    pub fn with(mut self, name: &'static str, what: impl ToString) -> Told {
        self.fields.push((name, what.to_string()));
        self
    }

    pub fn with_text(mut self, text: String) -> Told {
        self.text = Some(text);
        self
    }

    pub fn with_values(mut self, values: String) -> Told {
        self.values = Some(values);
        self
    }
}

impl Outcome {
    /// The result that an event is by itself.
    pub fn of(event: &Event) -> Option<Outcome> {
        Some(match event {
            Event::Accepted(ok) | Event::Ok(ok) => Outcome::done(ok),
            Event::Denied(error) | Event::Error(error) => Outcome::error(error),
            Event::Prepared {
                statement,
                parameters,
                columns,
                ..
            } => Outcome::Prepared {
                statement: *statement,
                parameters: *parameters,
                columns: *columns,
            },
            Event::FileRequest(name) => Outcome::File {
                name: name.to_vec(),
                bytes: 0,
            },
            Event::Line(text) => Outcome::Line(text.to_vec()),
            _ => return None,
        })
    }

    pub fn done(ok: &OkPacket) -> Outcome {
        Outcome::Done {
            affected: ok.affected_rows,
            insert_id: ok.last_insert_id,
            warnings: ok.warnings,
        }
    }

    /// Hides the message of an error, which may have a part of the text or of a value.
    pub fn hide_message(&mut self) {
        if let Outcome::Error { message, .. } = self {
            *message = HIDDEN.to_vec();
        }
    }

    pub fn error(error: &ErrorPacket) -> Outcome {
        Outcome::Error {
            code: error.code,
            state: error.state,
            message: error.message.to_vec(),
        }
    }
}

impl Format {
    /// Writes a line, without its end.
    pub fn line(self, line: &mut String, heading: &Heading, told: &Told, answer: Option<&Answer>) {
        match self {
            Format::Text => text_line(line, heading, told, answer),
            Format::Json => json_line(line, heading, told, answer),
        }
    }

    /// Adds a name with a text to a line.
    pub fn add(self, line: &mut String, name: &str, text: &str) {
        match self {
            Format::Text => {
                let _ = write!(line, " {name}=");
                push_quoted(line, text.as_bytes());
            }
            Format::Json => {
                line.pop();
                json_field(line, name, text.as_bytes());
                line.push('}');
            }
        }
    }

    /// Names of tables.
    fn tables(self, line: &mut String, tables: &[String]) {
        let write = |line: &mut String, table: &String| match self {
            Format::Text => push_quoted(line, table.as_bytes()),
            Format::Json => push_json(line, table.as_bytes()),
        };
        self.list(line, usize::MAX, tables.iter(), write);
    }

    /// A text of a peer.
    pub fn text(self, bytes: &[u8]) -> String {
        let mut text = String::with_capacity(bytes.len() + 2);
        match self {
            Format::Text => push_readable(&mut text, bytes),
            Format::Json => push_json(&mut text, bytes),
        }
        text
    }

    /// Writes a value that a client sent.
    pub fn value(self, text: &mut String, value: Value) {
        match value {
            Value::Null if self == Format::Json => text.push_str("null"),
            Value::Null => text.push_str("NULL"),
            Value::Int(number) => {
                if number < 0 {
                    text.push('-');
                }
                push_number(text, number.unsigned_abs());
            }
            Value::UInt(number) => push_number(text, number),
            Value::Float(number) => {
                self.digits(text, !number.is_finite(), format_args!("{number:?}"))
            }
            Value::Double(number) => {
                self.digits(text, !number.is_finite(), format_args!("{number:?}"))
            }
            Value::Bytes(bytes) if self == Format::Json => push_json(text, bytes),
            Value::Bytes(bytes) => push_quoted(text, bytes),
            Value::Date(date) => self.digits(text, true, date_digits(date)),
            Value::Time(time) => self.digits(text, true, time_digits(time)),
        }
    }

    /// Writes a value of a bulk execution.
    pub fn bulk_value(self, text: &mut String, value: BulkValue) {
        text.push_str(match (value, self) {
            (BulkValue::Value(value), _) => return self.value(text, value),
            (BulkValue::Default, Format::Text) => "DEFAULT",
            (BulkValue::Ignore, Format::Text) => "IGNORE",
            (BulkValue::Default, Format::Json) => r#"{"indicator":"default"}"#,
            (BulkValue::Ignore, Format::Json) => r#"{"indicator":"ignore"}"#,
        });
    }

    /// A value that servers read each their way.
    pub fn unclear(self) -> &'static str {
        match self {
            Format::Text => "?",
            Format::Json => r#"{"unclear":true}"#,
        }
    }

    /// Writes a list, each item by `write`, up to the item with which it gets so long. Says whether that
    /// is all of it.
    pub fn list<T>(
        self,
        text: &mut String,
        most: usize,
        items: impl Iterator<Item = T>,
        mut write: impl FnMut(&mut String, T),
    ) -> bool {
        let between = if self == Format::Json { "," } else { ", " };
        let most = most.saturating_add(text.len());
        text.push('[');
        for (number, item) in items.enumerate() {
            if text.len() > most {
                break;
            }
            text.push_str(if number > 0 { between } else { "" });
            write(text, item);
        }
        let is_whole = text.len() <= most;
        text.push(']');
        is_whole
    }

    /// Writes digits of a date or a duration, or a float. JSON has no float that isn't finite.
    fn digits(self, text: &mut String, in_quotes: bool, digits: impl Display) {
        let _ = match self {
            Format::Json if in_quotes => write!(text, "\"{digits}\""),
            _ => write!(text, "{digits}"),
        };
    }
}

fn text_line(line: &mut String, heading: &Heading, told: &Told, answer: Option<&Answer>) {
    push_now(line);
    let _ = write!(line, " #{} ", heading.connection);
    if let Some(client) = heading.client {
        let _ = write!(line, "{client} ");
    }
    push_readable(line, heading.user);
    line.push('@');
    push_readable(line, heading.database);
    let _ = write!(line, " {}", told.kind);
    for (name, what) in &told.fields {
        let _ = write!(line, " {name}={what}");
    }
    if let Some(digest) = &told.digest {
        line.push_str(" digest=");
        push_quoted(line, digest);
    }
    if let Some(tables) = &told.tables {
        line.push_str(" tables=");
        Format::Text.tables(line, tables);
    }
    for (before, what) in [(": ", &told.text), (" ", &told.values)] {
        if let Some(what) = what {
            line.push_str(before);
            line.push_str(what);
        }
    }
    line.push_str(if told.is_short { " .." } else { "" });
    if let Some(answer) = answer {
        text_answer(line, heading, answer);
    }
}

fn text_answer(line: &mut String, heading: &Heading, answer: &Answer) {
    line.push_str(" -> ");
    for (number, outcome) in answer.outcomes.iter().enumerate() {
        line.push_str(if number > 0 { "; " } else { "" });
        text_outcome(line, outcome);
    }
    if !answer.whole {
        line.push_str(if answer.outcomes.is_empty() { "" } else { "; " });
        line.push_str("no whole reply");
    }
    line.push_str(" (");
    push_seconds(line, answer.took);
    line.push_str(" s");
    if heading.client.is_some() {
        if let Some(first) = answer.first {
            line.push_str(", first ");
            push_seconds(line, first);
            line.push_str(" s");
        }
        let [client, server] = answer.traffic;
        let _ = write!(line, ", {client} + {server} bytes");
    }
    if heading.sample > 1 {
        let _ = write!(line, ", one of {}", heading.sample);
    }
    line.push(')');
}

fn text_outcome(line: &mut String, outcome: &Outcome) {
    match outcome {
        Outcome::Rows { rows, warnings } => {
            line.push_str(&counted(*rows, "row"));
            push_warnings(line, *warnings);
        }
        Outcome::Cursor => line.push_str("a cursor"),
        Outcome::Done {
            affected,
            insert_id,
            warnings,
        } => {
            let _ = match affected {
                0 => write!(line, "OK"),
                _ => write!(line, "{} affected", counted(*affected, "row")),
            };
            if *insert_id > 0 {
                let _ = write!(line, ", id {insert_id}");
            }
            push_warnings(line, *warnings);
        }
        Outcome::Error {
            code,
            state,
            message,
        } => text_error(line, *code, state.as_ref(), message),
        Outcome::Prepared {
            statement,
            parameters,
            columns,
        } => {
            let _ = write!(
                line,
                "statement={statement} parameters={parameters} columns={columns}"
            );
        }
        Outcome::File { name, bytes } => {
            line.push_str("file ");
            push_quoted(line, name);
            let _ = write!(line, " of {}", counted(*bytes, "byte"));
        }
        Outcome::Line(text) => push_readable(line, text),
        Outcome::More(number) => {
            let _ = write!(line, "{number} more");
        }
    }
}

fn text_error(line: &mut String, code: u16, state: Option<&[u8; 5]>, message: &[u8]) {
    let _ = write!(line, "error {code}");
    if let Some(state) = state {
        line.push_str(" (");
        push_readable(line, state);
        line.push(')');
    }
    line.push_str(": ");
    push_readable(line, message);
}

fn push_warnings(line: &mut String, number: u16) {
    if number > 0 {
        line.push_str(", ");
        line.push_str(&counted(u64::from(number), "warning"));
    }
}

/// A number of things, with their name in the plural where there isn't one.
fn counted(number: u64, name: &str) -> String {
    let end = if number == 1 { "" } else { "s" };
    format!("{number} {name}{end}")
}

fn json_line(line: &mut String, heading: &Heading, told: &Told, answer: Option<&Answer>) {
    line.push_str(r#"{"time":""#);
    push_now(line);
    line.push('"');
    json_number(line, "connection", heading.connection);
    if let Some(client) = heading.client {
        json_field(line, "client", client.as_bytes());
    }
    json_field(line, "user", heading.user);
    json_field(line, "database", heading.database);
    json_field(line, "kind", told.kind.as_bytes());
    if let Some(digest) = &told.digest {
        json_field(line, "digest", digest);
    }
    if let Some(tables) = &told.tables {
        json_name(line, "tables");
        Format::Json.tables(line, tables);
    }
    let texts = told.text.iter().map(|text| ("text", text));
    let values = told.values.iter().map(|values| ("values", values));
    let fields = told.fields.iter().map(|(name, what)| (*name, what));
    for (name, what) in fields.chain(texts).chain(values) {
        json_name(line, name);
        line.push_str(what);
    }
    if told.is_short {
        line.push_str(",\"short\":true");
    }
    if let Some(answer) = answer {
        json_answer(line, heading, answer);
    }
    line.push('}');
}

/// Writes a field's name behind another field.
fn json_name(line: &mut String, name: &str) {
    line.push_str(",\"");
    line.push_str(name);
    line.push_str("\":");
}

fn json_field(line: &mut String, name: &str, bytes: &[u8]) {
    json_name(line, name);
    push_json(line, bytes);
}

fn json_number(line: &mut String, name: &str, number: u64) {
    json_name(line, name);
    push_number(line, number);
}

fn json_answer(line: &mut String, heading: &Heading, answer: &Answer) {
    json_name(line, "results");
    Format::Json.list(line, usize::MAX, answer.outcomes.iter(), json_outcome);
    json_name(line, "whole");
    line.push_str(if answer.whole { "true" } else { "false" });
    json_name(line, "seconds");
    push_seconds(line, answer.took);
    if heading.client.is_some() {
        if let Some(first) = answer.first {
            json_name(line, "first");
            push_seconds(line, first);
        }
        json_name(line, "traffic");
        Format::Json.list(line, usize::MAX, answer.traffic.into_iter(), push_number);
    }
    if heading.sample > 1 {
        json_number(line, "sample", u64::from(heading.sample));
    }
}

/// Writes an object of numbers by their names.
fn json_numbers(line: &mut String, numbers: &[(&str, u64)]) {
    for (at, (name, number)) in numbers.iter().enumerate() {
        line.push_str(if at == 0 { "{\"" } else { ",\"" });
        line.push_str(name);
        line.push_str("\":");
        push_number(line, *number);
    }
    line.push('}');
}

fn json_outcome(line: &mut String, outcome: &Outcome) {
    match outcome {
        Outcome::Cursor => line.push_str("{\"cursor\":true}"),
        Outcome::Rows { rows, warnings: 0 } => json_numbers(line, &[("rows", *rows)]),
        Outcome::Rows { rows, warnings } => {
            json_numbers(line, &[("rows", *rows), ("warnings", u64::from(*warnings))]);
        }
        Outcome::Done {
            affected,
            insert_id,
            warnings,
        } => {
            let numbers = [
                ("affected", *affected),
                ("insert_id", *insert_id),
                ("warnings", u64::from(*warnings)),
            ];
            json_numbers(line, &numbers);
        }
        Outcome::Error {
            code,
            state,
            message,
        } => json_error(line, *code, state.as_ref(), message),
        Outcome::Prepared {
            statement,
            parameters,
            columns,
        } => {
            let numbers = [
                ("statement", u64::from(*statement)),
                ("parameters", u64::from(*parameters)),
                ("columns", u64::from(*columns)),
            ];
            json_numbers(line, &numbers);
        }
        Outcome::File { name, bytes } => {
            line.push_str(r#"{"file":"#);
            push_json(line, name);
            json_number(line, "bytes", *bytes);
            line.push('}');
        }
        Outcome::Line(text) => {
            line.push_str(r#"{"line":"#);
            push_json(line, text);
            line.push('}');
        }
        Outcome::More(number) => json_numbers(line, &[("more", *number)]),
    }
}

fn json_error(line: &mut String, code: u16, state: Option<&[u8; 5]>, message: &[u8]) {
    let _ = write!(line, r#"{{"error":{code}"#);
    match state {
        Some(state) => json_field(line, "state", state),
        None => line.push_str(r#","state":null"#),
    }
    json_field(line, "message", message);
    line.push('}');
}
