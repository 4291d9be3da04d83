//! Commands of which less is known than of others. Some went on and their turn didn't come, since the
//! connection ended before: each has its line, be it that nothing is known of what came of it. And
//! some are executions that are laid out as none.

use crate::audit::{Audit, COM_STMT_BULK_EXECUTE, COM_STMT_EXECUTE, EXECUTION};
use crate::lines::{Sink, Told};
use mysql_session::{Connection, Event, Limits, Phase, Reason, Side};

const HEADER: usize = 4;
/// A packet of so many bytes is followed by another one of the same payload.
const CHUNK: usize = 0xff_ffff;

/// The commands in these bytes, each with its headers. What has another number is no command, but an
/// answer, or a piece of a file.
fn commands_in(mut bytes: &[u8]) -> Vec<&[u8]> {
    let mut commands = Vec::new();
    while let Some(length) = length_of(bytes) {
        let (command, rest) = bytes.split_at(length);
        if command[HEADER - 1] == 0 {
            commands.push(command);
        }
        bytes = rest;
    }
    commands
}

/// How many bytes a payload takes with its headers, where it is whole.
fn length_of(bytes: &[u8]) -> Option<usize> {
    let mut end = 0;
    loop {
        let &[low, middle, high, _] = bytes.get(end..end + HEADER)? else {
            return None;
        };
        let length = u32::from_le_bytes([low, middle, high, 0]) as usize;
        end += HEADER + length;
        if length != CHUNK {
            return (end <= bytes.len()).then_some(end);
        }
    }
}

impl<S: Sink> Audit<S> {
    /// Tells the commands that wait for their turn, where they were passed on. Behind those that the
    /// connection has come these bytes.
    pub fn tell_unanswered(&mut self, unread: &[u8]) {
        let is_over =
            matches!(self.connection.phase(), Phase::Over(reason) if reason != Reason::Farewell);
        if !self.passes_first || is_over {
            return;
        }
        let waiting = [self.connection.rest(Side::Client), unread].concat();
        for command in commands_in(&waiting) {
            match self.execution_of(&command[HEADER..]) {
                Some(told) => self.teller.tell_unanswered(told),
                None => self.tell_by_itself(command),
            }
        }
    }

    /// Takes an execution that is laid out as none, which servers may run. Its statement is told where
    /// that is known, and all behind that as unclear.
    pub fn take_unread_execution(&mut self, payload: &[u8]) {
        match self.execution_of(payload) {
            Some(told) => {
                let behind = &payload[EXECUTION..];
                let told = self.teller.telling.with_unclear(told, behind);
                self.teller.begin_execution(told);
            }
            None => self.teller.take(&Event::Other(payload)),
        }
    }

    /// An execution, of which the statement is known. Its values aren't told.
    fn execution_of(&self, payload: &[u8]) -> Option<Told> {
        let (kind, id) = match payload.get(..EXECUTION)? {
            &[COM_STMT_EXECUTE, a, b, c, d] => ("execute", [a, b, c, d]),
            &[COM_STMT_BULK_EXECUTE, a, b, c, d] => ("bulk execute", [a, b, c, d]),
            _ => return None,
        };
        let id = u32::from_le_bytes(id);
        let statement = self.connection.statement(id)?;
        let mut told = self.teller.telling.about(kind, statement.text);
        told.named = self.teller.names.within(statement.text);
        Some(told.with("statement", id))
    }

    /// Tells a command that is read by itself.
    fn tell_by_itself(&mut self, command: &[u8]) {
        let limits = Limits::of(command.len());
        let alone = Connection::after_login(limits, self.connection.capabilities());
        let Ok(mut alone) = alone else {
            return;
        };
        if alone.feed(Side::Client, command).is_err() {
            return;
        }
        if let Ok(Some(event)) = alone.next_event() {
            self.teller.take(&event);
            self.teller.finish_command(false, [0; 2]);
        }
    }
}

#[cfg(test)]
mod tests {
    use super::commands_in;

    #[test]
    fn commands_are_found() {
        let (query, ping) = (b"\x02\0\0\0\x03x".as_slice(), b"\x01\0\0\0\x0e".as_slice());
        assert_eq!(vec![query, ping], commands_in(&[query, ping].concat()));
        // A half one didn't reach the server whole.
        assert_eq!(vec![ping], commands_in(&[ping, &query[..5]].concat()));
        // A piece of a file is no command.
        let piece = b"\x01\0\0\x03\x0e".as_slice();
        assert_eq!(vec![ping], commands_in(&[piece, ping].concat()));
        let long = [
            b"\xff\xff\xff\0".as_slice(),
            &[0; 0xff_ffff],
            b"\x01\0\0\x01\0",
        ]
        .concat();
        assert_eq!(vec![&long[..], ping], commands_in(&[&long, ping].concat()));
    }
}
