//! Payloads that are put on a connection: a client, a server and an auditor between them agree.

mod commands;
mod refusals;
mod said;

use mysql_session::{
    bulk_executions, command, executions, put_packet, Bytes, Capabilities, Connection,
    ConnectionEnd, Error, Event, ParameterSets, Phase, Reason, ReplyKind, Side, Value,
};
use said::{
    error, greeting, login, prepared, rows, Payloads, CAPABILITIES, INSERT, LIMIT, LIMITS, OK,
};
use std::collections::VecDeque;
use std::fs;
use std::path::{Path, PathBuf};

/// Numbers that look like random ones.
struct Random(u64);

impl Random {
    fn below(&mut self, bound: usize) -> usize {
        self.0 = self
            .0
            .wrapping_mul(6364136223846793005)
            .wrapping_add(1442695040888963407);
        ((self.0 >> 33) as usize) % bound
    }
}

/// Who has a connection: a client or a server, which puts its payloads, or an auditor.
struct Party {
    connection: Connection,
    lines: Vec<String>,
}

impl Party {
    fn new(connection: Connection) -> Party {
        Party {
            connection,
            lines: Vec::new(),
        }
    }

    /// Reads a piece of a stream, and notes the lines of the events that are there.
    fn read(&mut self, side: Side, piece: &[u8]) {
        self.connection.feed(side, piece).expect("there is room");
        while let Some(event) = self.connection.next_event().expect("no fault was put") {
            assert!(!event.name().is_empty());
            self.note();
        }
    }

    /// Notes the line of the event that was told last.
    fn note(&mut self) {
        let line = self
            .connection
            .line_with_secrets()
            .expect("memory isn't short");
        self.lines.push(line.to_string());
    }

    /// The state of the connection.
    fn standing(&self) -> (Option<Side>, Phase, Capabilities) {
        let connection = &self.connection;
        let capabilities = connection.capabilities();
        (connection.turn(), connection.phase(), capabilities)
    }
}

/// A client, a server and an auditor between them.
struct Three {
    client: Party,
    server: Party,
    auditor: Party,
    /// What the auditor wasn't fed yet, of either side.
    passing: [VecDeque<u8>; 2],
    random: Random,
}

impl Three {
    fn new(begin: impl Fn() -> Result<Connection, Error>) -> Three {
        let party = || Party::new(begin().expect("memory isn't short"));
        Three {
            client: party(),
            server: party(),
            auditor: party(),
            passing: Default::default(),
            random: Random(7),
        }
    }

    fn party(&mut self, side: Side) -> &mut Party {
        match side {
            Side::Client => &mut self.client,
            Side::Server => &mut self.server,
        }
    }

    /// Puts a payload of a side, and has the two others read it.
    fn put(&mut self, side: Side, payload: &[u8]) -> Result<(), Error> {
        let mut out = Bytes::new()?;
        let party = self.party(side);
        let event = party.connection.put(side, payload, &mut out)?;
        assert_eq!(event.side(), side);
        party.note();
        self.pass(side, &out);
        self.agree();
        Ok(())
    }

    /// Puts packets of a side, as far as it is its turn, and has the two others read them. Who puts
    /// them notes the lines that the other side reads.
    fn put_packets(&mut self, side: Side, packets: &[u8]) -> Result<usize, Error> {
        let mut out = Bytes::new()?;
        let party = self.party(side);
        let used = party.connection.put_packets(side, packets, &mut out)?;
        let read = self.party(side.other()).lines.len();
        self.pass(side, &out);
        let lines = self.party(side.other()).lines[read..].to_vec();
        self.party(side).lines.extend(lines);
        self.agree();
        Ok(used)
    }

    /// Has the other side read bytes in random pieces, and the auditor's streams grow by them.
    fn pass(&mut self, side: Side, bytes: &[u8]) {
        let mut rest = bytes;
        while !rest.is_empty() {
            let most = 1 + self.random.below(rest.len());
            let (piece, left) = rest.split_at(most);
            self.party(side.other()).read(side, piece);
            rest = left;
        }
        self.passing[side as usize].extend(bytes);
    }

    /// Has the auditor read some of what passed. The two others have the same events and are
    /// alike, and its events are a prefix of theirs.
    fn agree(&mut self) {
        assert!(self.client.lines == self.server.lines);
        assert_eq!(self.client.standing(), self.server.standing());
        for side in [Side::Client, Side::Server] {
            let passing = &mut self.passing[side as usize];
            let count = self.random.below(passing.len() + 1);
            let piece: Vec<u8> = passing.drain(..count).collect();
            self.auditor.read(side, &piece);
        }
        assert!(self.client.lines.starts_with(&self.auditor.lines));
    }

    /// Has the auditor read all: then all three have the same events, which are these lines.
    fn end(mut self) -> (ConnectionEnd, Vec<String>) {
        for side in [Side::Server, Side::Client] {
            let piece: Vec<u8> = self.passing[side as usize].drain(..).collect();
            self.auditor.read(side, &piece);
        }
        assert!(self.auditor.lines == self.client.lines);
        assert_eq!(self.auditor.standing(), self.client.standing());
        let (lines, mut three) = (self.auditor.lines, [self.client, self.server]);
        let end = self.auditor.connection.finish();
        for party in &mut three {
            assert_eq!(party.connection.finish(), end);
        }
        (end, lines)
    }
}

/// The words of lines that name whose they are and what.
fn names(lines: &[String]) -> Vec<String> {
    let front = |line: &String| line.split(' ').take(2).collect::<Vec<_>>().join(" ");
    lines.iter().map(front).collect()
}

#[test]
fn a_greeting_that_is_put_shows_its_scramble_at_both_ends() -> Result<(), Error> {
    let (mut server, mut client) = (Connection::new(LIMITS)?, Connection::new(LIMITS)?);
    let mut out = Bytes::new()?;
    let Event::Greeting(put) = server.put(Side::Server, &greeting(), &mut out)? else {
        panic!("a greeting was put");
    };
    assert_eq!(put.scramble, b"abcdefghijklmnopqrst");
    for (number, byte) in out.iter().enumerate() {
        client.feed(Side::Server, &[*byte])?;
        let scramble = match client.next_event()? {
            Some(Event::Greeting(read)) => Some(read.scramble.to_vec()),
            _ => None,
        };
        let whole = (number + 1 == out.len()).then(|| b"abcdefghijklmnopqrst".to_vec());
        assert_eq!(scramble, whole, "byte {number}");
    }
    Ok(())
}

#[test]
fn a_client_a_server_and_an_auditor_agree() -> Result<(), Error> {
    let mut three = Three::new(|| Connection::new(LIMITS));
    three.put(Side::Server, &greeting())?;
    three.put(Side::Client, &login())?;
    three.put(Side::Server, OK)?;
    assert_eq!(
        three.client.standing(),
        (Some(Side::Client), Phase::Command, CAPABILITIES)
    );

    three.put(Side::Client, &command::query(b"SELECT * FROM goods"))?;
    let reply = rows(
        ReplyKind::Query,
        &[[7.into(), "tea".into()], [8.into(), Value::Null]],
    )?;
    assert_eq!(three.put_packets(Side::Server, &reply)?, reply.len());

    three.put(Side::Client, &command::prepare(INSERT))?;
    let reply = prepared(7, 2)?;
    assert_eq!(three.put_packets(Side::Server, &reply)?, reply.len());
    let mut sets = ParameterSets::new()?;
    sets.add(&[1.into(), "tea".into()])?;
    sets.add(&[2.into(), None::<&str>.into()])?;
    let packets = executions(&sets, INSERT, 7, LIMIT)?;
    let mut left = &packets[..];
    while !left.is_empty() {
        let used = three.put_packets(Side::Client, left)?;
        assert!(0 < used);
        left = &left[used..];
        three.put(Side::Server, OK)?;
    }
    let packets = bulk_executions(&sets, INSERT, 7, LIMIT)?;
    assert_eq!(three.put_packets(Side::Client, &packets)?, packets.len());
    three.put(Side::Server, OK)?;

    three.put(Side::Client, &command::long_data(7, 1, b"long "))?;
    three.put(Side::Client, &command::long_data(7, 1, b"data"))?;
    three.put(Side::Client, &command::reset_statement(7))?;
    three.put_packets(Side::Server, &error(1146)?)?;
    three.put(Side::Client, &command::close(7))?;
    three.put(Side::Client, &command::statistics())?;
    three.put(Side::Server, b"Uptime: 7")?;
    three.put(Side::Client, &command::quit())?;

    let (end, lines) = three.end();
    assert_eq!(end, ConnectionEnd::Over(Reason::Quit));
    assert_eq!(names(&lines), SCRIPT);
    assert!(lines[16].ends_with("parameters=((i 1) (b x746561)) attributes=()"));
    Ok(())
}

/// What the three of the script say.
const SCRIPT: [&str; 30] = [
    "server Greeting",
    "client Login",
    "server Accepted",
    "client Query",
    "server ColumnCount",
    "server Column",
    "server Column",
    "server ColumnsEnd",
    "server Row",
    "server Row",
    "server RowsEnd",
    "client Prepare",
    "server Prepared",
    "server Column",
    "server Column",
    "server ColumnsEnd",
    "client Execute",
    "server Ok",
    "client Execute",
    "server Ok",
    "client BulkExecute",
    "server Ok",
    "client LongData",
    "client LongData",
    "client ResetStatement",
    "server Error",
    "client Close",
    "client Statistics",
    "server Line",
    "client Quit",
];

fn folder() -> PathBuf {
    Path::new(env!("CARGO_MANIFEST_DIR")).join("../../crates/connection_conformance/data")
}

fn read(name: &str, kind: &str) -> Vec<u8> {
    let path = folder().join(format!("{name}.{kind}"));
    fs::read(&path).unwrap_or_else(|error| panic!("{}: {error}", path.display()))
}

#[test]
fn recordings_are_said_again() {
    let files = fs::read_dir(folder()).expect("there are recordings");
    let (mut whole, mut all) = (0, 0);
    for file in files {
        let file = file.expect("the folder can be read").file_name();
        let name = file.to_str().expect("a name is in ASCII");
        let Some(name) = name.strip_suffix(".client") else {
            continue;
        };
        let (client, server) = (read(name, "client"), read(name, "server"));
        let (mut client, mut server) = (Payloads(&client), Payloads(&server));
        let mut three = Three::new(|| Connection::new(LIMITS));
        // Numbers of packets that aren't those that are due, and payloads that aren't read, have no
        // place here.
        while let Some(side) = three.client.connection.turn() {
            let payload = match side {
                Side::Client => client.next(),
                Side::Server => server.next(),
            };
            let Some(payload) = payload else { break };
            if three.put(side, &payload).is_err() {
                break;
            }
        }
        let (_, found) = three.end();
        let lines = String::from_utf8(read(name, "events")).expect("lines are in ASCII");
        let lines: Vec<&str> = lines.lines().filter(|it| !it.starts_with("end ")).collect();
        all += 1;
        whole += usize::from(found == lines);
        let front = found.len().min(lines.len());
        assert_eq!(found[..front], lines[..front], "{name}");
    }
    assert!(all > 60 && whole + 5 > all, "{whole} of {all} recordings");
}

#[test]
fn a_large_payload_takes_more_packets() -> Result<(), Error> {
    let mut three = Three::new(|| Connection::after_login(LIMITS, CAPABILITIES));
    let text = vec![b'x'; (1 << 24) + 7];
    three.put(Side::Client, &command::query(&text))?;
    three.put_packets(Side::Server, &error(1146)?)?;
    let mut packets = Bytes::new()?;
    put_packet(&command::query(&text), &mut 7, 1 << 25, &mut packets)?;
    assert_eq!(three.put_packets(Side::Client, &packets)?, packets.len());
    let (end, lines) = three.end();
    assert_eq!(end, ConnectionEnd::Unfinished(Side::Server));
    assert_eq!(
        names(&lines),
        ["client Query", "server Error", "client Query"]
    );
    Ok(())
}
