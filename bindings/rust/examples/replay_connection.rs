//! Puts the commands of a recorded connection on a live one to another server. It prints where the
//! replies differ: in errors, in counts of rows, in statements.
//!
//! ```text
//! replay_connection CLIENT SERVER ADDRESS USER [--database NAME]
//! ```
//!
//! CLIENT and SERVER are files with all bytes that the two sides sent, from the server's greeting
//! on. The user logs in with the capabilities that were in force and that this server offers. The
//! user takes the database that the recorded client named, or another one. The password is that of
//! MYSQL_PASSWORD or MYSQL_PASSWORD_SHA1, as blocking_client has it.
//!
//! - Commands are put one by one, each behind the whole reply to the one before it. A statement
//!   gets the id that this server gave it. Bytes of files are those of the recording. Where this
//!   server has no query attributes, they are left out.
//! - A change of user is left out, as its password isn't known. So are commands that end servers
//!   and connections, and those by which a server sends its binary log, a table or itself.
//! - Texts are put as they are. A server in another SQL mode, or with another character set than
//!   utf8mb4, reads them in its way.
//!
//! The status is 0 where all replies are alike, 1 where some differ, and 2 where the replay failed.

#[path = "blocking_client/client.rs"]
#[allow(dead_code)] // what makes commands: here they are recorded
mod client;
#[path = "replay_connection/execution.rs"]
mod execution;
#[path = "blocking_client/passwords.rs"]
mod passwords;
#[path = "replay_connection/recording.rs"]
mod recording;
#[path = "replay_connection/reply.rs"]
mod reply;

use client::{Account, Client, Failure};
use passwords::Secret;
use recording::{Command, Recording};
use reply::Reply;
use std::collections::HashMap;
use std::env;
use std::fs;
use std::process::ExitCode;

const USAGE: &str = "usage: replay_connection CLIENT SERVER ADDRESS USER [--database NAME]";

/// The id that refers to the statement that was prepared last, at a MariaDB.
const LAST: u32 = u32::MAX;

/// No server gives a statement this id.
const NOBODYS: u32 = 0;

const PREPARE: u8 = 0x16;
const CLOSE: u8 = 0x19;

/// What isn't put: COM_SHUTDOWN, COM_PROCESS_KILL, COM_CHANGE_USER, COM_BINLOG_DUMP,
/// COM_TABLE_DUMP, COM_REGISTER_SLAVE, COM_BINLOG_DUMP_GTID, COM_CLONE.
const LEFT_OUT: [u8; 8] = [0x08, 0x0c, 0x11, 0x12, 0x13, 0x15, 0x1e, 0x20];

fn main() -> ExitCode {
    let words: Vec<String> = env::args().skip(1).collect();
    let words: Vec<&str> = words.iter().map(String::as_str).collect();
    let (files, server, database) = match words[..] {
        [client, server, address, user] => ([client, server], [address, user], None),
        [client, server, address, user, "--database", name] => {
            ([client, server], [address, user], Some(name))
        }
        _ => {
            eprintln!("{USAGE}");
            return ExitCode::from(2);
        }
    };
    match run(files, server, database) {
        Ok(true) => ExitCode::SUCCESS,
        Ok(false) => ExitCode::FAILURE,
        Err(failure) => {
            eprintln!("{failure}");
            ExitCode::from(2)
        }
    }
}

/// Reads the recording, logs in and replays it. The answer is whether all replies are alike.
fn run(
    [client, server]: [&str; 2],
    [address, user]: [&str; 2],
    database: Option<&str>,
) -> Result<bool, Failure> {
    let read = |file: &str| fs::read(file).map_err(|error| format!("{file}: {error}"));
    let recording = Recording::read(&read(client)?, &read(server)?)?;
    if recording.commands.is_empty() {
        println!("no command was recorded: {}", recording.end);
        return Ok(true);
    }
    let account = Account {
        user: user.as_bytes(),
        password: Secret::of_environment()?,
        database: database.map_or(&recording.database, |name| name.as_bytes()),
        capabilities: recording.capabilities,
    };
    let mut replay = Replay::new(Client::connect(address, &account)?);
    for (number, command) in (1..).zip(&recording.commands) {
        let title = &command.title;
        let failed = |failure| format!("command {number}, {title}: {failure}");
        replay.print(number, command).map_err(failed)?;
    }
    println!(
        "{}, and the recording ends: {}",
        replay.summary(),
        recording.end
    );
    Ok(replay.differ == 0)
}

/// A live connection on which recorded commands are put.
struct Replay {
    client: Client,
    /// The ids that statements have here, by those that they had when they were recorded.
    statements: HashMap<u32, u32>,
    put: u64,
    differ: u64,
    left_out: u64,
}

impl Replay {
    fn new(client: Client) -> Replay {
        Replay {
            client,
            statements: HashMap::new(),
            put: 0,
            differ: 0,
            left_out: 0,
        }
    }

    fn summary(&self) -> String {
        let Replay {
            put,
            differ,
            left_out,
            ..
        } = self;
        format!("{put} commands put, {differ} replies differ, {left_out} left out")
    }

    /// Puts a command, and prints what is another one of its reply.
    fn print(&mut self, number: u64, command: &Command) -> Result<(), Failure> {
        let Some(payload) = self.payload_of(command) else {
            println!("command {number}, {}: left out", command.title);
            self.left_out += 1;
            return Ok(());
        };
        if let Some(counted) = self.other_count(command, &payload) {
            println!(
                "command {number}, {}: left out, this server counted {counted} parameters",
                command.title
            );
            self.left_out += 1;
            return Ok(());
        }
        self.put += 1;
        self.client.send(&payload)?;
        let reply = self.reply_to(command)?;
        self.note_statement(command, &reply);
        if !reply.is_like(&command.reply) {
            self.differ += 1;
            println!("command {number}, {}:", command.title);
            println!("    recorded: {}", command.reply);
            println!("    here: {reply}");
        }
        Ok(())
    }

    /// The payload by which a command is put here; none where it isn't.
    fn payload_of(&self, command: &Command) -> Option<Vec<u8>> {
        if LEFT_OUT.contains(&command.number) {
            return None;
        }
        let mut payload = match (&command.plain, self.client.has_attributes()) {
            (Some(plain), false) => plain.clone(),
            _ => command.payload.clone(),
        };
        if let (Some(id), Some(place)) = (command.statement, payload.get_mut(1..5)) {
            let id = self.statements.get(&id).copied().unwrap_or(NOBODYS);
            place.copy_from_slice(&id.to_le_bytes());
        }
        Some(payload)
    }

    /// The number of parameters that this server counted, where an execution has another number of
    /// values. It would run it with other values than were recorded.
    fn other_count(&self, command: &Command, payload: &[u8]) -> Option<usize> {
        let values = command.values?;
        let id = u32::from_le_bytes(payload.get(1..5)?.try_into().ok()?);
        let counted = self.client.parameters(id)?;
        (counted != values).then_some(counted)
    }

    /// Reads the reply to a command, and sends the file that the server wants.
    fn reply_to(&mut self, command: &Command) -> Result<Reply, Failure> {
        let mut reply = Reply::default();
        while self.client.awaits_reply() {
            reply.add(&self.client.next()?);
            if reply.wants_file {
                self.send_file(command)?;
            }
        }
        Ok(reply)
    }

    /// Sends the recorded file, up to the payload without bytes that ends it.
    fn send_file(&mut self, command: &Command) -> Result<(), Failure> {
        for payload in command.file.iter().filter(|payload| !payload.is_empty()) {
            self.client.send(payload)?;
        }
        self.client.send(b"")
    }

    /// Notes which id a statement has here, and which is the one that was prepared last.
    fn note_statement(&mut self, command: &Command, reply: &Reply) {
        match command.number {
            PREPARE => {
                let id = reply.prepared.unwrap_or(NOBODYS);
                self.statements.insert(LAST, id);
                self.statements
                    .extend(command.reply.prepared.map(|recorded| (recorded, id)));
            }
            CLOSE => {
                let id = command.statement.and_then(|it| self.statements.remove(&it));
                self.statements.retain(|_, known| Some(*known) != id);
            }
            _ => (),
        }
    }
}
