//! What clients ask for, as it is told.

use crate::lines::{Format, Told};
use crate::masking::{masked, may_have_secrets};
use crate::tables::tables_in;
use crate::texts::{digest_of, front_of};
use mysql_session::{Attributes, BulkRow, BulkValue, Event, Mode, OtherCommand, Value};

/// What is told for a secret that isn't part of a text.
pub const HIDDEN: &[u8] = b"*****";

const COM_CHANGE_USER: u8 = 0x11;
const COM_STMT_EXECUTE: u8 = 0x17;
const COM_STMT_SEND_LONG_DATA: u8 = 0x18;
const COM_STMT_BULK_EXECUTE: u8 = 0xfa;

/// How it is told what clients ask for.
#[derive(Clone, Copy)]
pub struct Telling {
    pub format: Format,
    /// Whether passwords are told, too.
    pub secrets: bool,
    /// Whether digests of statements are told.
    pub digests: bool,
    /// Whether the tables that a text names are told.
    pub tables: bool,
    /// Whether digests are told in place of texts and values.
    pub redacts: bool,
    /// How many bytes of a text, and of what values are written as, are told.
    pub most: usize,
    /// The mode in which the server reads the session's texts.
    pub mode: Mode,
    /// Whether a statement was prepared whose values are secrets.
    pub has_secrets: bool,
}

impl Telling {
    /// A command about a statement's text, as it may be told.
    pub fn about(self, kind: &'static str, text: &[u8]) -> Told {
        let mut told = Told::new(kind);
        let front = front_of(text, self.most);
        told.is_short = front.len() < text.len();
        if self.secrets && !self.redacts {
            return self.with_shown(told, front);
        }
        let masked = masked(front, !self.mode.no_backslash_escapes);
        // What isn't told may have a secret, too.
        told.is_secret = masked.is_secret || told.is_short && may_have_secrets(text);
        self.with_shown(told, &masked.text)
    }

    /// A text as it may be told, and the digest of that.
    fn with_shown(self, mut told: Told, text: &[u8]) -> Told {
        if self.digests || self.redacts {
            told.digest = digest_of(text, self.mode);
        }
        if self.tables {
            told.tables = Some(tables_in(text, self.mode));
        }
        if self.redacts {
            // A server's message may have a part of the text.
            told.is_secret = true;
            return told;
        }
        told.with_text(self.format.text(text))
    }

    /// Values of an execution, where they are told, each by `write`.
    fn with_values<T>(
        self,
        mut told: Told,
        values: impl Iterator<Item = T>,
        write: impl FnMut(&mut String, T),
    ) -> Told {
        if self.redacts {
            return told;
        }
        let mut list = String::new();
        told.is_short |= !self.format.list(&mut list, self.most, values, write);
        told.with_values(list)
    }

    /// Writes a value, no more of it than is told.
    fn value(self, list: &mut String, value: Value) {
        let value = match value {
            Value::Bytes(bytes) => Value::Bytes(front_of(bytes, self.most)),
            value => value,
        };
        self.format.value(list, value);
    }

    /// Writes a value of a bulk execution.
    fn bulk_value(self, list: &mut String, value: BulkValue) {
        match value {
            BulkValue::Value(value) => self.value(list, value),
            value => self.format.bulk_value(list, value),
        }
    }

    /// Cells that servers read each their way, from the first one on.
    pub fn with_unclear(self, told: Told, cells: &[u8]) -> Told {
        self.with_bytes(told, "unclear", cells)
    }

    /// Bytes of an execution, where it has some.
    fn with_bytes(self, mut told: Told, name: &'static str, bytes: &[u8]) -> Told {
        let front = &bytes[..bytes.len().min(self.most)];
        told.is_short |= front.len() < bytes.len();
        match (front, told.is_secret) {
            ([], _) => told,
            (_, true) => told.with(name, self.format.text(HIDDEN)),
            _ => told.with(name, self.format.text(front)),
        }
    }

    /// Attributes, of which some are read by servers each their way.
    fn with_attributes(
        self,
        mut told: Told,
        attributes: &Attributes,
        is_unclear: impl Fn(usize) -> bool,
    ) -> Told {
        if attributes.is_empty() || self.redacts {
            return told;
        }
        let (format, mut list) = (self.format, String::new());
        let is_whole = format.list(
            &mut list,
            self.most,
            (0..).zip(attributes.iter()),
            |list, (number, (name, value))| {
                let pair = [Some(name.into()), (!is_unclear(number)).then_some(value)];
                format.list(
                    list,
                    usize::MAX,
                    pair.into_iter(),
                    |list, value| match value {
                        Some(value) => self.value(list, value),
                        None => list.push_str(format.unclear()),
                    },
                );
            },
        );
        told.is_short |= !is_whole;
        told.with("attributes", list)
    }

    /// A payload that is laid out as no command. It may be an answer of an authentication, or have
    /// secret values, of which the length alone is told.
    fn unknown(self, payload: &[u8]) -> Told {
        let is_hidden = match payload.first() {
            Some(&COM_CHANGE_USER) => true,
            Some(&(COM_STMT_EXECUTE | COM_STMT_SEND_LONG_DATA | COM_STMT_BULK_EXECUTE)) => {
                self.has_secrets
            }
            _ => false,
        };
        if self.redacts || is_hidden && !self.secrets {
            return Told::new("unknown").with("bytes", payload.len());
        }
        let without = Telling {
            digests: false,
            tables: false,
            ..self
        };
        without.about("unknown", payload)
    }
}

/// What a client asks for. None, if the event is something else, or asks for nothing: what long
/// data bring is told with their execution.
pub fn asked(telling: Telling, event: &Event) -> Option<Told> {
    let format = telling.format;
    let told = match event {
        Event::CutOffLogin(_) => Told::new("login"),
        Event::Query { text, attributes } => {
            let told = telling.about("query", text);
            telling.with_attributes(told, attributes, |_| false)
        }
        Event::Prepare { text } => telling.about("prepare", text),
        Event::Execute {
            statement,
            text,
            values,
            attributes,
            nameless_flags,
            iterations,
            rest,
            ..
        } => {
            let told = telling.about("execute", text).with("statement", statement);
            let is_secret = told.is_secret;
            let write = |list: &mut String, (place, value)| {
                if is_secret {
                    format.value(list, HIDDEN.into());
                } else if values.is_unclear(place) {
                    list.push_str(format.unclear());
                } else {
                    telling.value(list, value);
                }
            };
            let mut told = telling.with_values(told, (0..).zip(values.iter()), write);
            if *nameless_flags != 0 {
                told = told.with("flags", nameless_flags);
            }
            if *iterations != 1 {
                told = told.with("iterations", iterations);
            }
            let told = telling.with_attributes(told, attributes, |number| {
                values.is_unclear(values.len() + number)
            });
            let told = telling.with_bytes(told, "rest", rest);
            telling.with_unclear(told, values.unclear_cells())
        }
        Event::BulkExecute {
            statement,
            text,
            rows,
            rest,
        } => {
            let told = telling
                .about("bulk execute", text)
                .with("statement", statement);
            let is_secret = told.is_secret;
            let write = |list: &mut String, row: BulkRow| {
                let values = (0..).zip(row.iter());
                format.list(list, usize::MAX, values, |list, (place, value)| {
                    if is_secret {
                        format.value(list, HIDDEN.into());
                    } else if row.is_unclear(place) {
                        list.push_str(format.unclear());
                    } else {
                        telling.bulk_value(list, value);
                    }
                });
            };
            let told = telling.with_values(told, rows.iter(), write);
            let told = telling.with_bytes(told, "rest", rest);
            telling.with_unclear(told, rows.unclear_cells())
        }
        Event::Fetch { statement, rows } => Told::new("fetch")
            .with("statement", statement)
            .with("rows", rows),
        Event::ResetStatement { statement } => Told::new("reset").with("statement", statement),
        Event::Ping => Told::new("ping"),
        Event::ResetConnection => Told::new("reset connection"),
        Event::Command(command) => other(format, command),
        Event::Other(payload) => telling.unknown(payload),
        _ => return None,
    };
    Some(told)
}

/// The text that an event is about, whatever is told of it.
pub fn text_of<'a>(event: &Event<'a>) -> &'a [u8] {
    match event {
        Event::Query { text, .. }
        | Event::Prepare { text }
        | Event::Execute { text, .. }
        | Event::BulkExecute { text, .. } => text,
        Event::Other(payload) => payload,
        _ => b"",
    }
}

/// A command that has no event of its own.
fn other(format: Format, command: &OtherCommand) -> Told {
    let kind = match command.number {
        0x04 => "field list",
        0x05 => "create db",
        0x06 => "drop db",
        0x07 => "refresh",
        0x08 => "shutdown",
        0x09 => "statistics",
        0x0a => "process info",
        0x0c => "process kill",
        0x0d => "debug",
        0x12 | 0x1e => "binlog dump",
        0x13 => "table dump",
        0x15 => "register replica",
        0x1b => "set option",
        0x20 => "clone",
        _ => "command",
    };
    let told = Told::new(kind).with("number", command.value);
    match command.text {
        [] => told,
        text => told.with_text(format.text(text)),
    }
}
