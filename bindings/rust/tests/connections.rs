//! Whole connections: the recorded ones are read to the lines beside them, however their
//! bytes come.

use mysql_session::{
    Capabilities, Code, Connection, ConnectionEnd, ConnectionFault, Event, Greeting, Limits, Phase,
    Reason, Side, Value,
};
use std::fs;
use std::path::{Path, PathBuf};

const LIMITS: Limits = Limits {
    client: 1 << 26,
    server: 1 << 26,
    held: 1 << 30,
};

/// A recorded connection.
struct Recording {
    name: String,
    client: Vec<u8>,
    server: Vec<u8>,
    lines: Vec<String>,
}

fn folder() -> PathBuf {
    Path::new(env!("CARGO_MANIFEST_DIR")).join("../../crates/connection_conformance/data")
}

fn read(name: &str, kind: &str) -> Vec<u8> {
    let path = folder().join(format!("{name}.{kind}"));
    fs::read(&path).unwrap_or_else(|error| panic!("{}: {error}", path.display()))
}

fn recording(name: &str) -> Recording {
    let lines = String::from_utf8(read(name, "events")).expect("lines are in ASCII");
    Recording {
        name: name.to_string(),
        client: read(name, "client"),
        server: read(name, "server"),
        lines: lines.lines().map(str::to_string).collect(),
    }
}

fn recordings() -> Vec<Recording> {
    let files = fs::read_dir(folder()).expect("there are recordings");
    let mut names: Vec<String> = files
        .filter_map(|file| file.ok()?.file_name().into_string().ok())
        .filter_map(|name| name.strip_suffix(".client").map(str::to_string))
        .collect();
    names.sort();
    assert!(names.len() > 60, "there are {} recordings", names.len());
    names.iter().map(|name| recording(name)).collect()
}

/// A line in which data of an authentication, and a replica's password, are a length.
fn without_secrets(line: &str) -> String {
    let name = line.split(' ').nth(1).expect("a line has a name");
    let field = match name {
        "Login" | "ChangeUser" => " answer=x",
        "RegisterSlave" => " password=x",
        "AuthAnswer" | "AuthSwitch" | "AuthMore" | "NextFactor" | "PluginData" => " data=x",
        // What begins as a change of user or a registration, and is laid out as none.
        "Other" if line.contains(" byte=17 ") || line.contains(" byte=21 ") => " data=x",
        _ => return line.to_string(),
    };
    let Some((front, behind)) = line.split_once(field) else {
        return line.to_string();
    };
    let len = behind.find(' ').unwrap_or(behind.len());
    let field = field.trim_end_matches('x');
    format!("{front}{field}({} bytes){}", len / 2, &behind[len..])
}

/// Takes the events that are there, and their lines. Each event is printed whole, so that all that it
/// shows is read.
fn take_lines(connection: &mut Connection, lines: &mut Vec<String>) -> Result<(), ConnectionFault> {
    while let Some(event) = connection.next_event()? {
        assert!(!format!("{event:?}").is_empty());
        let (side, name) = (event.side(), event.name());
        let hidden = connection.line().expect("memory isn't short");
        let line = connection
            .line_with_secrets()
            .expect("memory isn't short")
            .to_string();
        assert_eq!(hidden, without_secrets(&line));
        assert!(line.starts_with(&format!("{side} ")), "{line} is of {side}");
        // Events of COM_.. and others that have no variant of their own have other names in lines.
        if name != "Command" && name != "Line" {
            let word = line.split(' ').nth(1).expect("a line has a name");
            assert!(!word.is_empty());
        }
        lines.push(line);
    }
    Ok(())
}

/// Numbers that look like random ones.
struct Random(u64);

impl Random {
    fn below(&mut self, bound: usize) -> usize {
        self.0 = self
            .0
            .wrapping_mul(6364136223846793005)
            .wrapping_add(1442695040888963407);
        ((self.0 >> 33) as usize) % bound
    }
}

/// The lines of a connection whose pieces come as `next` says: a side, and how many bytes of it.
fn lines_of(
    client: &[u8],
    server: &[u8],
    mut next: impl FnMut(&[u8], &[u8]) -> (Side, usize),
) -> Vec<String> {
    let mut connection = Connection::new(LIMITS).expect("memory isn't short");
    let (mut client, mut server) = (client, server);
    let mut lines = Vec::new();
    let mut read = || -> Result<(), ConnectionFault> {
        while !client.is_empty() || !server.is_empty() {
            let (side, count) = next(client, server);
            let stream = match side {
                Side::Client => &mut client,
                Side::Server => &mut server,
            };
            let (piece, rest) = stream.split_at(count.min(stream.len()));
            *stream = rest;
            connection.feed(side, piece).expect("there is room");
            take_lines(&mut connection, &mut lines)?;
        }
        connection.close(Side::Client);
        connection.close(Side::Server);
        take_lines(&mut connection, &mut lines)
    };
    let fault = read().err();
    assert_eq!(fault, connection.fault());
    let end = connection.finish();
    assert_eq!(
        matches!(end, ConnectionEnd::Fault(_)),
        end_is_fault(&connection)
    );
    lines.push(connection.line().expect("memory isn't short").to_string());
    lines
}

fn end_is_fault(connection: &Connection) -> bool {
    let line = connection.line().expect("memory isn't short");
    line.starts_with("end Fault ")
}

#[test]
fn recordings_are_read_in_one_piece_by_either_side_first() {
    for it in recordings() {
        for first in [Side::Client, Side::Server] {
            let found = lines_of(&it.client, &it.server, |client, server| {
                let left = match first {
                    Side::Client => client,
                    Side::Server => server,
                };
                match left.is_empty() {
                    true => (first.other(), usize::MAX),
                    false => (first, usize::MAX),
                }
            });
            assert_eq!(found, it.lines, "{}", it.name);
        }
    }
}

#[test]
fn recordings_are_read_byte_by_byte() {
    for it in recordings() {
        if it.client.len() + it.server.len() > 100_000 {
            continue;
        }
        let mut random = Random(7);
        let found = lines_of(&it.client, &it.server, |client, _| {
            match client.is_empty() || random.below(2) == 0 {
                true => (Side::Server, 1),
                false => (Side::Client, 1),
            }
        });
        assert_eq!(found, it.lines, "{}", it.name);
    }
}

#[test]
fn recordings_are_read_in_random_pieces() {
    for it in recordings() {
        let mut random = Random(it.client.len() as u64);
        let most = 1 + (it.client.len() + it.server.len()) / 20;
        let found = lines_of(&it.client, &it.server, |_, _| {
            let side = [Side::Client, Side::Server][random.below(2)];
            (side, random.below(most))
        });
        assert_eq!(found, it.lines, "{}", it.name);
    }
}

#[test]
fn changed_bytes_are_read_or_refused() {
    let mut random = Random(62);
    for it in recordings() {
        if it.client.len() + it.server.len() > 20_000 {
            continue;
        }
        for _ in 0..20 {
            let (mut client, mut server) = (it.client.clone(), it.server.clone());
            let changed = match client.is_empty() || random.below(2) == 0 {
                true => &mut server,
                false => &mut client,
            };
            if changed.is_empty() {
                continue;
            }
            let at = random.below(changed.len());
            changed[at] ^= 1 << random.below(8);
            let whole = |client: &[u8], _: &[u8]| match client.is_empty() {
                true => (Side::Server, usize::MAX),
                false => (Side::Client, usize::MAX),
            };
            let found = lines_of(&client, &server, whole);
            assert!(found.last().is_some_and(|line| line.starts_with("end ")));
        }
    }
}

/// What is printed of the answer to a call for the next event.
fn told(
    answer: Result<Option<Event<'_>>, ConnectionFault>,
) -> Result<Option<String>, ConnectionFault> {
    Ok(answer?.map(|event| format!("{event:?}")))
}

#[test]
fn rows_that_are_lent_are_those_that_are_copied() {
    for it in recordings() {
        let new = || Connection::new(LIMITS).expect("memory isn't short");
        let (mut copying, mut lending) = (new(), new());
        for connection in [&mut copying, &mut lending] {
            let room = connection.feed(Side::Client, &it.client);
            room.expect("there is room");
        }
        for piece in it.server.chunks(1000) {
            for connection in [&mut copying, &mut lending] {
                let room = connection.feed(Side::Server, piece);
                room.expect("there is room");
            }
            loop {
                let wanted = told(copying.next_event());
                assert_eq!(told(lending.next_event_lent()), wanted, "{}", it.name);
                assert_eq!(told(Ok(lending.event())), told(Ok(copying.event())));
                assert_eq!(lending.line_with_secrets(), copying.line_with_secrets());
                if !matches!(wanted, Ok(Some(_))) {
                    break;
                }
            }
        }
    }
}

/// The line with texts, without secrets and with them, of what comes of these sides behind a login.
fn line_for_people(client: &[u8], server: &[u8]) -> String {
    let capabilities = Capabilities {
        protocol: 0x200,
        ..Capabilities::default()
    };
    let mut connection = Connection::after_login(LIMITS, capabilities).expect("memory isn't short");
    connection
        .feed(Side::Client, client)
        .expect("there is room");
    connection
        .feed(Side::Server, server)
        .expect("there is room");
    let mut last = String::new();
    while let Ok(Some(_)) = connection.next_event() {
        let line = connection.line_with_texts(false);
        assert_eq!(line, connection.line_with_texts(true));
        last = line.expect("memory isn't short").to_string();
    }
    last
}

#[test]
fn lines_with_texts_are_for_people() {
    let query = b"\x0a\0\0\0\x03DO '\"\n\x1b\xc3\xa9";
    assert_eq!(
        line_for_people(query, b""),
        r#"client Query attributes=() text="DO '\"\n\x1bé""#
    );
    let no_text = b"\x04\0\0\0\x03DO\xff";
    assert_eq!(
        line_for_people(no_text, b""),
        "client Query attributes=() text=x444fff"
    );
    // U+009B begins a sequence for a terminal.
    let wide = b"\x05\0\0\0\x03DO\xc2\x9b";
    assert_eq!(
        line_for_people(wide, b""),
        "client Query attributes=() text=x444fc29b"
    );
}

#[test]
fn values_with_texts_are_as_the_servers_own_client_shows_them() {
    let client = b"\x09\0\0\0\x16SELECT 1\x0a\0\0\0\x17\x01\0\0\0\0\x01\0\0\0";
    let mut server = b"\x0c\0\0\x01\0\x01\0\0\0\0\0\0\0\0\0\0".to_vec();
    // VARCHAR, TIME, DATETIME and DATE. MySQL: "Column Definition", "Binary Protocol Value".
    server.extend(b"\x01\0\0\x01\x04");
    for (number, kind) in [(2, 0xfd), (3, 0x0b), (4, 0x0c), (5, 0x0a)] {
        server.extend([0x17, 0, 0, number]);
        server.extend(b"\x03def\0\0\0\x01a\0\x0c\x3f\0\0\0\0\0");
        server.extend([kind, 0, 0, 0, 0, 0]);
    }
    server.extend(b"\x05\0\0\x06\xfe\0\0\x02\0");
    server.extend(b"\x0d\0\0\x07\0\x04\x08\x01\0\0\0\0\x01\x02\x03\0\0");
    assert_eq!(
        line_for_people(client, &server),
        r#"server Row cells=(NULL "-01:02:03" "0000-00-00 00:00:00" "0000-00-00")"#
    );
}

#[test]
fn an_execution_has_the_text_and_the_values() {
    let it = recording("php-execute");
    let mut connection = Connection::new(LIMITS).expect("memory isn't short");
    connection
        .feed(Side::Client, &it.client)
        .expect("there is room");
    connection
        .feed(Side::Server, &it.server)
        .expect("there is room");
    let (mut executions, mut rows) = (0, 0);
    while let Some(event) = connection.next_event().expect("the recording has no fault") {
        match event {
            Event::Execute {
                statement,
                text,
                values,
                ..
            } => {
                let places = text.iter().filter(|byte| **byte == b'?').count();
                assert_eq!(values.len(), places, "{}", String::from_utf8_lossy(text));
                assert_eq!(values.iter().count(), places);
                assert_eq!(values.get(places), None);
                executions += 1;
                let known = connection.statement(statement).expect("it was prepared");
                assert_eq!(usize::from(known.parameters), places);
            }
            Event::Row(row) => {
                assert_eq!(row.iter().count(), row.len());
                assert!(row.column(row.len()).is_none());
                rows += 1;
            }
            _ => (),
        }
    }
    assert!(
        executions > 0 && rows > 0,
        "{executions} executions, {rows} rows"
    );
}

#[test]
fn a_login_and_a_greeting_are_shown() {
    let it = recording("php-execute");
    let mut connection = Connection::new(LIMITS).expect("memory isn't short");
    assert_eq!(
        (connection.turn(), connection.phase()),
        (Some(Side::Server), Phase::Greeting)
    );
    connection
        .feed(Side::Server, &it.server)
        .expect("there is room");
    let Some(Event::Greeting(greeting)) = connection.next_event().expect("it has no fault") else {
        panic!("a server greets first");
    };
    assert!(!greeting.version.is_empty() && !greeting.plugin.is_empty());
    let length = it.server[0] as usize;
    let read = Greeting::read(&it.server[4..][..length]).expect("it is a greeting");
    let both = [read.scramble_1, read.scramble_2].concat();
    assert_eq!((greeting.scramble, both.len()), (&both[..], 20));
    assert_eq!(
        (connection.turn(), connection.phase()),
        (Some(Side::Client), Phase::Response)
    );
    connection
        .feed(Side::Client, &it.client)
        .expect("there is room");
    let Some(Event::Login(login)) = connection.next_event().expect("it has no fault") else {
        panic!("a client logs in");
    };
    assert!(!login.user.is_empty());
    for (name, value) in login.attributes.iter() {
        assert!(!name.is_empty() && matches!(value, Value::Bytes(_)));
    }
    assert!(matches!(connection.event(), Some(Event::Login(_))));
    connection.close(Side::Client);
    assert!(connection.event().is_none());
}

/// A recorded login with these bits of capabilities as well, and with these bytes for MariaDB's own.
/// The answer has what it offers, what is in force behind it, and what `Debug` prints.
fn login_with(bits: u8, own: [u8; 4]) -> (Capabilities, Capabilities, String) {
    let it = recording("php-execute");
    let mut client = it.client.clone();
    // Behind a header of four bytes: capabilities, the longest packet, a collation, 19 bytes.
    client[4] = client[4] & !1 | bits;
    client[32..36].copy_from_slice(&own);
    let mut connection = Connection::new(LIMITS).expect("memory isn't short");
    connection
        .feed(Side::Server, &it.server)
        .expect("there is room");
    connection.next_event().expect("it has no fault");
    connection.feed(Side::Client, &client).expect("it has room");
    let Some(event @ Event::Login(login)) = connection.next_event().expect("it has no fault")
    else {
        panic!("a client logs in");
    };
    assert!(!login.response.is_empty());
    let (offered, shown) = (login.request.capabilities, format!("{event:?}"));
    (offered, connection.capabilities(), shown)
}

#[test]
fn a_login_of_mysql_has_no_capabilities_of_mariadb() {
    let (offered, agreed, _) = login_with(1, [0x3f, 0, 0, 0]);
    assert_eq!((offered.protocol & 1, offered.mariadb), (1, 0));
    assert_eq!(agreed.mariadb, 0);
    let (offered, _, _) = login_with(0, [0x3f, 0, 0, 0]);
    assert_eq!((offered.protocol & 1, offered.mariadb), (0, 0x3f));
}

#[test]
fn the_answer_of_a_login_is_printed_as_its_length() {
    let (_, _, shown) = login_with(1, [0; 4]);
    assert!(shown.contains("response: <20 bytes>"), "{shown}");
}

#[test]
fn a_side_that_runs_ahead_is_held() {
    let limits = Limits {
        client: 10,
        server: 10,
        held: 100,
    };
    let mut connection = Connection::new(limits).expect("memory isn't short");
    assert_eq!(connection.room(Side::Client), 14);
    connection
        .feed(Side::Client, &[0; 14])
        .expect("there is room");
    let refused = connection
        .feed(Side::Client, &[0])
        .expect_err("there is none");
    assert_eq!(refused.code(), Code::CONNECTION_HELD);
    assert_eq!((connection.room(Side::Client), connection.held()), (0, 14));
    assert_eq!(connection.rest(Side::Client), [0; 14]);
    connection.close(Side::Server);
    let refused = connection
        .feed(Side::Server, &[0])
        .expect_err("it is closed");
    assert_eq!(refused.code(), Code::CONNECTION_CLOSED);
}

#[test]
fn a_fault_has_a_side_and_a_byte() {
    let mut connection = Connection::new(LIMITS).expect("memory isn't short");
    connection
        .feed(Side::Server, b"\x01\0\0\x07\x0a")
        .expect("there is room");
    let fault = connection
        .next_event()
        .expect_err("the number is another one");
    assert_eq!(fault.code(), Code::CONNECTION_OUT_OF_SYNC);
    assert_eq!((fault.side(), fault.byte()), (Side::Server, 0));
    assert_eq!(connection.fault(), Some(fault));
    assert!(fault
        .to_string()
        .starts_with("server, byte 0: connection: "));
    assert_eq!(connection.finish(), ConnectionEnd::Fault(fault));
    assert_eq!(connection.line(), Ok("end Fault server 0 OutOfSync"));
}

#[test]
fn a_connection_may_move_between_threads() {
    let it = recording("php-execute");
    let mut connection = Connection::new(LIMITS).expect("memory isn't short");
    connection
        .feed(Side::Server, &it.server)
        .expect("there is room");
    let mut connection = std::thread::spawn(move || {
        connection
            .feed(Side::Client, &it.client)
            .expect("there is room");
        connection
    })
    .join()
    .expect("the thread ends");
    let mut lines = Vec::new();
    take_lines(&mut connection, &mut lines).expect("it has no fault");
    assert_eq!(connection.phase(), Phase::Over(Reason::Quit));
}
