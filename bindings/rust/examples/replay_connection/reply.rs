//! What a server replies to a command, in few words.

use mysql_session::{ErrorPacket, Event};
use std::fmt;

/// A reply: its results, as far as they came.
#[derive(Debug, Default)]
pub struct Reply {
    /// Each result in few words, by which replies are compared.
    results: Vec<String>,
    /// How many rows of a result came that isn't ended.
    rows: Option<u64>,
    /// What the server says about an error.
    message: String,
    /// The statement that was prepared.
    pub prepared: Option<u32>,
    /// Whether the server wants a file of the client's.
    pub wants_file: bool,
}

impl Reply {
    /// Takes an event of the server's.
    pub fn add(&mut self, event: &Event<'_>) {
        self.wants_file = matches!(event, Event::FileRequest(_));
        match event {
            Event::ColumnCount { .. } => self.rows = Some(0),
            Event::Row(_) | Event::RawRow(_) | Event::Field { .. } => {
                self.rows = Some(self.rows.unwrap_or(0) + 1);
            }
            Event::RowsEnd(_) => {
                let rows = self.rows.take().unwrap_or(0);
                self.results.push(counted(rows));
            }
            Event::Ok(packet) => {
                let rows = packet.affected_rows;
                self.results
                    .push(format!("OK with {} affected", counted(rows)));
            }
            Event::Prepared {
                statement,
                parameters,
                columns,
                ..
            } => {
                self.prepared = Some(*statement);
                self.results.push(format!(
                    "a statement of {parameters} parameters and {columns} columns"
                ));
            }
            Event::Error(error) => self.end("error", error),
            Event::Farewell(error) => self.end("last words", error),
            Event::FileRequest(_) => self.results.push("a file is asked for".to_string()),
            Event::Line(_) => self.results.push("a line".to_string()),
            _ => (),
        }
    }

    /// Takes an error, which ends the reply.
    fn end(&mut self, what: &str, error: &ErrorPacket<'_>) {
        let behind = self
            .rows
            .take()
            .map_or(String::new(), |rows| format!(" behind {}", counted(rows)));
        self.results.push(format!("{what} {}{behind}", error.code));
        self.message = String::from_utf8_lossy(error.message).into_owned();
    }

    /// Whether another reply has the same results.
    pub fn is_like(&self, other: &Reply) -> bool {
        (&self.results, self.rows) == (&other.results, other.rows)
    }
}

impl fmt::Display for Reply {
    fn fmt(&self, formatter: &mut fmt::Formatter<'_>) -> fmt::Result {
        let mut results = self.results.clone();
        results.extend(self.rows.map(|rows| counted(rows) + " without an end"));
        match results.is_empty() {
            true => formatter.write_str("nothing")?,
            false => formatter.write_str(&results.join(", "))?,
        }
        match self.message.is_empty() {
            true => Ok(()),
            false => write!(formatter, " ({})", self.message),
        }
    }
}

/// So many rows.
fn counted(rows: u64) -> String {
    let end = if rows == 1 { "" } else { "s" };
    format!("{rows} row{end}")
}
