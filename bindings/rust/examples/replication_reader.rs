//! Reads a server's binary log, as a replica does, and prints the header of each event:
//!
//! ```text
//! replication_reader ADDRESS USER WHERE [--events N]
//! ```
//!
//! WHERE says from where the log is read:
//!
//! - `--first`: from its first file on;
//! - `--file NAME --position N`: from a position in a file on;
//! - `--gtid GTIDS`: behind the transactions of these global identifiers. At a MySQL they are those
//!   that its `@@gtid_executed` tells, as `3e11fa47-71ca-11e1-9e33-c80aa9429562:1-5:tag:1-3`. At a
//!   MariaDB they are a position, as `0-1-42`.
//!
//! It is read to its end, or until N events were printed. Of each event the header is read: what its
//! body says is not. The user logs in as blocking_client has it, by MYSQL_PASSWORD or
//! MYSQL_PASSWORD_SHA1.

#[path = "blocking_client/client.rs"]
#[allow(dead_code)] // its queries of one text: here they have values
mod client;
#[allow(dead_code)] // what writes a packet: the client does
mod common;
#[path = "blocking_client/passwords.rs"]
mod passwords;

use client::{Account, Client, LIMIT};
use common::{Failure, Unread};
use mysql_session::{
    capability, BinlogDump, BinlogDumpGtid, Bytes, Capabilities, Event, PacketReader,
    ParameterSets, RegisterReplica, Value, BINLOG_DUMP_NON_BLOCK,
};
use passwords::Secret;
use std::env;
use std::io::{self, Write};
use std::process::ExitCode;

const USAGE: &str = "replication_reader ADDRESS USER \
    (--first | --file NAME --position N | --gtid GTIDS) [--events N]";

const CAPABILITIES: Capabilities = Capabilities {
    protocol: capability::CLIENT_LONG_PASSWORD
        | capability::CLIENT_PROTOCOL_41
        | capability::CLIENT_TRANSACTIONS
        | capability::CLIENT_SECURE_CONNECTION
        | capability::CLIENT_PLUGIN_AUTH
        | capability::CLIENT_SESSION_TRACK,
    mariadb: 0,
};

/// How many bytes an event's header has.
const HEADER: usize = 19;

/// From where the log is read.
enum Start {
    /// From a position in a file; the file without a name is the first one.
    File(String, u32),
    /// Behind the transactions of these global identifiers.
    Gtid(String),
}

/// What is asked for.
struct Request {
    address: String,
    user: String,
    start: Start,
    events: Option<u64>,
}

fn main() -> ExitCode {
    let words: Vec<String> = env::args().skip(1).collect();
    let Some(request) = request_of(&words) else {
        eprintln!("usage: {USAGE}");
        return ExitCode::from(2);
    };
    match read_log(&request) {
        Ok(()) => ExitCode::SUCCESS,
        Err(failure) => {
            eprintln!("{failure}");
            ExitCode::FAILURE
        }
    }
}

/// The request that the words are, if they are one.
fn request_of(words: &[String]) -> Option<Request> {
    let [address, user, options @ ..] = words else {
        return None;
    };
    let options: Vec<&str> = options.iter().map(String::as_str).collect();
    let (start, events) = match options[..] {
        ["--first", ref rest @ ..] => (Start::File(String::new(), 4), rest),
        ["--gtid", gtids, ref rest @ ..] => (Start::Gtid(gtids.into()), rest),
        ["--file", name, "--position", position, ref rest @ ..] => {
            (Start::File(name.into(), position.parse().ok()?), rest)
        }
        _ => return None,
    };
    let events = match events {
        [] => None,
        ["--events", count] => Some(count.parse().ok()?),
        _ => return None,
    };
    Some(Request {
        address: address.clone(),
        user: user.clone(),
        start,
        events,
    })
}

/// Logs in, registers as a replica, and prints the log's events and how many they are.
fn read_log(request: &Request) -> Result<(), Failure> {
    let account = Account {
        user: request.user.as_bytes(),
        password: Secret::of_environment()?,
        database: b"",
        capabilities: CAPABILITIES,
    };
    let mut client = Client::connect(&request.address, &account)?;
    let is_mariadb = client.is_mariadb();
    set_up(&mut client, is_mariadb)?;
    let server = std::process::id();
    let mut payload = Bytes::new()?;
    RegisterReplica {
        server,
        ..RegisterReplica::default()
    }
    .put(&mut payload)?;
    client.send(&payload)?;
    read_reply(&mut client)?;
    payload.clear();
    match &request.start {
        Start::Gtid(gtids) if is_mariadb => {
            let state = b"SET @slave_connect_state = ?";
            set(&mut client, state, &[gtids.into()])?;
            put_dump(server, "", 4, &mut payload)?;
        }
        Start::Gtid(gtids) => BinlogDumpGtid {
            server,
            position: 4,
            flags: BINLOG_DUMP_NON_BLOCK,
            file: b"",
            gtids: gtids.as_bytes(),
        }
        .put(&mut payload)?,
        Start::File(file, position) => put_dump(server, file, *position, &mut payload)?,
    }
    client.send(&payload)?;
    let mut out = io::stdout().lock();
    let events = print_events(client, request.events, &mut out)?;
    Ok(writeln!(out, "{events} events")?)
}

/// The request for the log from a position in a file on.
fn put_dump(server: u32, file: &str, position: u32, out: &mut Bytes) -> Result<(), Failure> {
    Ok(BinlogDump {
        server,
        position,
        flags: BINLOG_DUMP_NON_BLOCK,
        file: file.as_bytes(),
    }
    .put(out)?)
}

/// Tells the server that a replica can read checksums, and a MariaDB's own events. The variable of
/// checksums has a new name from MySQL 8.0.26 on.
fn set_up(client: &mut Client, is_mariadb: bool) -> Result<(), Failure> {
    let checksum = b"SET @master_binlog_checksum = @@global.binlog_checksum";
    set(client, checksum, &[])?;
    if is_mariadb {
        return set(client, b"SET @mariadb_slave_capability = ?", &[4.into()]);
    }
    let checksum = b"SET @source_binlog_checksum = @@global.binlog_checksum";
    set(client, checksum, &[])
}

/// Sets a variable by a query with these values, which is written for the session's mode.
fn set(client: &mut Client, query: &[u8], values: &[Value<'_>]) -> Result<(), Failure> {
    let mut sets = ParameterSets::new()?;
    sets.add(values)?;
    let text = client.text(query, &sets, 0)?;
    client.query(&text)?;
    read_reply(client)
}

/// Reads the reply to a command to its end.
fn read_reply(client: &mut Client) -> Result<(), Failure> {
    while client.awaits_reply() {
        if let Event::Error(error) | Event::Farewell(error) = client.next()? {
            return Err(error.to_string().into());
        }
    }
    Ok(())
}

/// Prints the headers of the log's events, or of the first ones. The answer is how many they are. The
/// connection tells the first of them, and is over then: the others are packets that are cut out of
/// the stream.
fn print_events(
    mut client: Client,
    most: Option<u64>,
    out: &mut dyn Write,
) -> Result<u64, Failure> {
    let mut payload = match client.next()? {
        Event::Error(error) | Event::Farewell(error) => return Err(error.to_string().into()),
        Event::Line(payload) => payload.to_vec(),
        event => return Err(format!("the server answers {}", event.name()).into()),
    };
    let (mut stream, unread) = client.into_stream();
    let (mut unread, mut reader) = (Unread(unread), PacketReader::new(2, LIMIT)?);
    let mut events = 0;
    while most.is_none_or(|most| events < most) {
        check_no_error(&payload)?;
        match &payload[..] {
            [0, event @ ..] => writeln!(out, "{}", header_line(event)?)?,
            [0xfe, ..] => break,
            _ => return Err("the server sends a packet that is no event".into()),
        }
        events += 1;
        if most != Some(events) {
            payload = unread.packet(&mut stream, &mut reader)?;
        }
    }
    Ok(events)
}

/// The error that an error packet tells, whose message may follow a state.
fn check_no_error(payload: &[u8]) -> Result<(), Failure> {
    let [0xff, low, high, text @ ..] = payload else {
        return Ok(());
    };
    let message = match text {
        [b'#', _, _, _, _, _, message @ ..] => message,
        _ => text,
    };
    let code = u16::from_le_bytes([*low, *high]);
    Err(format!("error {code}: {}", String::from_utf8_lossy(message)).into())
}

/// An event's header as a line.
fn header_line(event: &[u8]) -> Result<String, Failure> {
    let header: &[u8; HEADER] = event
        .first_chunk()
        .ok_or("an event is shorter than its header")?;
    let number = |at: usize| {
        u32::from_le_bytes([header[at], header[at + 1], header[at + 2], header[at + 3]])
    };
    let kind = header[4];
    Ok(format!(
        "{}: time {}, type {kind}, server {}, size {}, next position {}, flags {}",
        type_name(kind),
        number(0),
        number(5),
        number(9),
        number(13),
        u16::from_le_bytes([header[17], header[18]]),
    ))
}

/// The name of an event's type, as MySQL or MariaDB has it.
fn type_name(kind: u8) -> &'static str {
    match kind {
        2 => "QUERY_EVENT",
        3 => "STOP_EVENT",
        4 => "ROTATE_EVENT",
        5 => "INTVAR_EVENT",
        13 => "RAND_EVENT",
        14 => "USER_VAR_EVENT",
        15 => "FORMAT_DESCRIPTION_EVENT",
        16 => "XID_EVENT",
        19 => "TABLE_MAP_EVENT",
        23 => "WRITE_ROWS_EVENT_V1",
        24 => "UPDATE_ROWS_EVENT_V1",
        25 => "DELETE_ROWS_EVENT_V1",
        26 => "INCIDENT_EVENT",
        27 => "HEARTBEAT_EVENT",
        30 => "WRITE_ROWS_EVENT",
        31 => "UPDATE_ROWS_EVENT",
        32 => "DELETE_ROWS_EVENT",
        33 => "GTID_LOG_EVENT (MySQL)",
        34 => "ANONYMOUS_GTID_LOG_EVENT",
        35 => "PREVIOUS_GTIDS_LOG_EVENT",
        36 => "TRANSACTION_CONTEXT_EVENT",
        37 => "VIEW_CHANGE_EVENT",
        38 => "XA_PREPARE_LOG_EVENT",
        39 => "PARTIAL_UPDATE_ROWS_EVENT",
        40 => "TRANSACTION_PAYLOAD_EVENT",
        41 => "HEARTBEAT_LOG_EVENT_V2",
        42 => "GTID_TAGGED_LOG_EVENT",
        160 => "ANNOTATE_ROWS_EVENT",
        161 => "BINLOG_CHECKPOINT_EVENT",
        162 => "GTID_EVENT (MariaDB)",
        163 => "GTID_LIST_EVENT",
        164 => "START_ENCRYPTION_EVENT",
        165 => "QUERY_COMPRESSED_EVENT",
        _ => "another event",
    }
}
