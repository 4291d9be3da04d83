//! Conversations, which are rows of payloads and of the events that they are. The head of each file
//! says how they are written.

use mysql_session::{
    Bytes, Capabilities, Connection, ConnectionFault, Error, Limits, Mode, Side, Spelling,
};
use std::collections::HashMap;
use std::fs;
use std::path::{Path, PathBuf};

const LONGEST_CHUNK: usize = 0xff_ffff;
/// Streams above this aren't read byte by byte.
const SHORT: usize = 5000;
const LIMITS: Limits = Limits {
    client: 16777216,
    server: 16777216,
    held: 134217728,
};

/// The line of an event that has to come; of one that waited it isn't said whose it is.
struct Wanted {
    side: Option<Side>,
    text: String,
}

enum Kind {
    Feed(Side, Vec<u8>),
    Held(usize),
    Mode(Option<Mode>),
    Spelling(Spelling),
    Turn(Option<Side>),
    Close(Side),
    End(String),
}

/// A row, and the events that have to come by it.
struct Step {
    place: String,
    kind: Kind,
    wanted: Vec<Wanted>,
}

#[derive(Default)]
struct Conversation {
    in_force: Option<Capabilities>,
    limits: Option<Limits>,
    steps: Vec<Step>,
    number: u8,
}

// ---- Rows --------------------------------------------------------------------------------------

fn side_of(word: &str) -> Option<Side> {
    match word {
        "client" | "command" => Some(Side::Client),
        "server" => Some(Side::Server),
        _ => None,
    }
}

/// The mode that a word names, where it is known.
fn mode_of(word: &str) -> Option<Mode> {
    (word != "unknown").then_some(Mode {
        no_backslash_escapes: matches!(word, "NO_BACKSLASH_ESCAPES" | "both"),
        ansi_quotes: matches!(word, "ANSI_QUOTES" | "both"),
    })
}

/// The spelling that a word names.
fn spelling_of(word: &str) -> Spelling {
    match word {
        "quoted" => Spelling::Quoted,
        "hexadecimal" => Spelling::Hexadecimal,
        word => panic!("no spelling: {word}"),
    }
}

type Names = HashMap<String, Vec<u8>>;

fn word_bytes(word: &str, names: &Names) -> Vec<u8> {
    if let Some(bytes) = names.get(word) {
        return bytes.clone();
    }
    let pair = |at: usize| u8::from_str_radix(&word[2 * at..2 * at + 2], 16);
    let bytes: Result<Vec<u8>, _> = (0..word.len() / 2).map(pair).collect();
    assert!(word.len() % 2 == 0, "{word} isn't bytes");
    bytes.unwrap_or_else(|error| panic!("{word} isn't bytes: {error}"))
}

/// The bytes that a field spells: words, `N * DIGITS`, and texts in quotes.
fn bytes_of(field: &str, names: &Names) -> Vec<u8> {
    let mut bytes = Vec::new();
    for (number, part) in field.split('"').enumerate() {
        if number % 2 == 1 {
            bytes.extend_from_slice(part.as_bytes());
            continue;
        }
        let words: Vec<&str> = part.split_whitespace().collect();
        let mut times = 1;
        for (at, word) in words.iter().enumerate() {
            if words.get(at + 1) == Some(&"*") {
                times = word.parse().expect("a number stands before a star");
            } else if *word != "*" {
                bytes.extend(word_bytes(word, names).repeat(times));
                times = 1;
            }
        }
    }
    bytes
}

/// A payload's packets, and the number that goes on behind them.
fn packets_of(payload: &[u8], mut number: u8) -> (Vec<u8>, u8) {
    let (mut packets, mut left) = (Vec::new(), payload);
    loop {
        let (chunk, rest) = left.split_at(left.len().min(LONGEST_CHUNK));
        packets.extend_from_slice(&(chunk.len() as u32).to_le_bytes()[..3]);
        packets.push(number);
        packets.extend_from_slice(chunk);
        number = number.wrapping_add(1);
        left = rest;
        if chunk.len() < LONGEST_CHUNK {
            return (packets, number);
        }
    }
}

impl Conversation {
    fn payload(&mut self, words: &[&str], payload: &[u8]) -> Kind {
        if words[0] == "command" {
            self.number = 0;
        }
        if let Some(number) = words.get(1) {
            self.number = number[1..].parse().expect("a number stands behind @");
        }
        let packets;
        (packets, self.number) = packets_of(payload, self.number);
        Kind::Feed(side_of(words[0]).expect("the row is known"), packets)
    }

    fn take(&mut self, place: String, line: &str, names: &Names) {
        let fields: Vec<&str> = line.split('|').map(str::trim).collect();
        let words: Vec<&str> = fields[0].split_whitespace().collect();
        let number = |at: usize| fields[at].parse::<usize>().expect("it is a number");
        let bits = |at: usize| u32::from_str_radix(fields[at], 16).expect("it is hexadecimal");
        let kind = match words[0] {
            "at" => return,
            "in" => {
                self.in_force = Some(Capabilities {
                    protocol: bits(1),
                    mariadb: bits(2),
                });
                return;
            }
            "limits" => {
                self.limits = Some(Limits {
                    client: number(1),
                    server: number(2),
                    held: number(3),
                });
                return;
            }
            "event" => {
                let text = fields[1].to_string();
                let step = self.steps.last_mut().expect("an event follows a step");
                step.wanted.push(Wanted { side: None, text });
                return;
            }
            "held" => Kind::Held(number(1)),
            "mode" => Kind::Mode(mode_of(fields[1])),
            "spelling" => Kind::Spelling(spelling_of(fields[1])),
            "turn" => Kind::Turn(side_of(fields[1])),
            "close" => Kind::Close(side_of(fields[1]).expect("it names a side")),
            "end" => Kind::End(format!("end {}", fields[1])),
            "bytes" => Kind::Feed(
                side_of(words[1]).expect("it names a side"),
                bytes_of(fields[1], names),
            ),
            _ => self.payload(&words, &bytes_of(fields[1], names)),
        };
        let mut wanted = Vec::new();
        if let ("command" | "client" | "server", Some(text)) = (words[0], fields.get(2)) {
            if !text.is_empty() {
                wanted.push(Wanted {
                    side: side_of(words[0]),
                    text: text.to_string(),
                });
            }
        }
        self.steps.push(Step {
            place,
            kind,
            wanted,
        });
    }

    fn connection(&self) -> Connection {
        let limits = self.limits.unwrap_or(LIMITS);
        let made = match self.in_force {
            Some(capabilities) => Connection::after_login(limits, capabilities),
            None => Connection::new(limits),
        };
        made.expect("memory isn't short")
    }

    /// The bytes of a side.
    fn stream(&self, of: Side) -> Vec<u8> {
        let mut stream = Vec::new();
        for step in &self.steps {
            if let Kind::Feed(side, bytes) = &step.kind {
                if *side == of {
                    stream.extend_from_slice(bytes);
                }
            }
        }
        stream
    }

    /// Whether what comes depends on which bytes come first.
    fn depends_on_order(&self) -> bool {
        let is_close = |step: &Step| matches!(step.kind, Kind::Close(_));
        let behind = self.steps.iter().skip_while(|step| !is_close(step));
        let mut fed_behind = behind.filter(|step| matches!(step.kind, Kind::Feed(..)));
        self.limits.is_some() || fed_behind.next().is_some()
    }
}

fn conversations_of(path: &Path) -> Vec<Conversation> {
    let text = fs::read_to_string(path).expect("the file is a text");
    let (mut names, mut all) = (Names::new(), Vec::new());
    for (row, line) in text.lines().enumerate() {
        let place = format!("{}:{}", path.display(), row + 1);
        let second = line.split_whitespace().nth(1);
        if line.trim().is_empty() || line.starts_with('#') {
            continue;
        } else if second == Some("=") {
            let (name, bytes) = line.split_once('=').expect("it has one");
            let bytes = bytes_of(bytes, &names);
            names.insert(name.trim().to_string(), bytes);
        } else if line.starts_with("conversation ") {
            all.push(Conversation::default());
        } else {
            let last = all.last_mut().expect("a conversation begins by its title");
            last.take(place, line, &names);
        }
    }
    all
}

fn conversations() -> Vec<Conversation> {
    let folder =
        Path::new(env!("CARGO_MANIFEST_DIR")).join("../../crates/connection_conformance/data");
    let files = fs::read_dir(folder).expect("there are conversations");
    let mut paths: Vec<PathBuf> = files
        .map(|file| file.expect("it is there").path())
        .collect();
    paths.retain(|path| path.extension().is_some_and(|it| it == "conversations"));
    paths.sort();
    let all: Vec<Conversation> = paths.iter().flat_map(|it| conversations_of(it)).collect();
    assert!(all.len() > 30, "there are {} conversations", all.len());
    all
}

// ---- Readings ----------------------------------------------------------------------------------

impl Wanted {
    fn assert_is(&self, line: &str, place: &str) {
        let (side, said) = line.split_once(' ').expect("a line has a side");
        let is_side = self.side.is_none() || self.side == side_of(side);
        let is_said = match self.text.strip_suffix(" ..") {
            Some(front) => format!("{said} ").starts_with(&format!("{front} ")),
            None => said == self.text,
        };
        assert!(
            is_side && is_said,
            "{place}: wanted {}, came {line}",
            self.text
        );
    }
}

/// The lines of the events that are there, whose names are those of the events.
fn take_lines(connection: &mut Connection, lines: &mut Vec<String>) -> Result<(), ConnectionFault> {
    while let Some(event) = connection.next_event()? {
        let (side, name) = (event.side(), event.name());
        let line = connection
            .line_with_secrets()
            .expect("memory isn't short")
            .to_string();
        let mut words = line.split(' ');
        assert_eq!(side_of(words.next().unwrap_or("")), Some(side), "{line}");
        let word = words.next().unwrap_or("");
        let is_name = match name {
            // COM_.. without a variant of their own have names of their own in lines.
            "Command" => true,
            "Answer" => word == "AuthAnswer",
            "OldAuthSwitch" => word == "AuthSwitch",
            "CutOffLogin" => word == "Login",
            "Field" => word == "Column",
            _ => word == name,
        };
        assert!(is_name, "{name} has the line {line}");
        lines.push(line);
    }
    Ok(())
}

/// Feeds bytes, at most so many at once and as many as there is room for; the lines that come.
fn feed(
    connection: &mut Connection,
    side: Side,
    bytes: &[u8],
    most: usize,
    lines: &mut Vec<String>,
) -> Result<(), ConnectionFault> {
    let mut left = bytes;
    while !left.is_empty() {
        let count = left.len().min(most).min(connection.room(side));
        assert!(count > 0, "there is no room for {} bytes", left.len());
        let (piece, rest) = left.split_at(count);
        connection.feed(side, piece).expect("there is room");
        left = rest;
        take_lines(connection, lines)?;
    }
    Ok(())
}

/// Reads step by step: each gives its lines and no others.
fn read_steps(it: &Conversation, most: usize) {
    let mut connection = it.connection();
    let mut failed = false;
    for step in &it.steps {
        let (place, mut lines) = (&step.place, Vec::new());
        match &step.kind {
            Kind::Feed(side, bytes) if !failed => {
                failed = feed(&mut connection, *side, bytes, most, &mut lines).is_err();
            }
            Kind::Close(side) => {
                connection.close(*side);
                failed |= take_lines(&mut connection, &mut lines).is_err();
            }
            Kind::Held(held) => assert_eq!(connection.held(), *held, "{place}"),
            Kind::Mode(mode) => assert_eq!(connection.mode(), *mode, "{place}"),
            Kind::Spelling(spelling) => assert_eq!(connection.spelling(), *spelling, "{place}"),
            Kind::Turn(turn) => assert_eq!(connection.turn(), *turn, "{place}"),
            Kind::End(end) => assert_eq!(finish(&mut connection, &mut lines), *end, "{place}"),
            Kind::Feed(..) => (),
        }
        assert_eq!(lines.len(), step.wanted.len(), "{place}: {lines:?} came");
        for (wanted, line) in step.wanted.iter().zip(&lines) {
            wanted.assert_is(line, place);
        }
    }
}

/// Both streams end; the state of the connection then.
fn finish(connection: &mut Connection, lines: &mut Vec<String>) -> String {
    connection.close(Side::Client);
    connection.close(Side::Server);
    let fault = take_lines(connection, lines).err();
    assert_eq!(fault, connection.fault());
    connection.finish();
    connection.line().expect("memory isn't short").to_string()
}

/// Reads both streams by turns, at most so many bytes of each at once.
fn read_streams(it: &Conversation, first: Side, most: usize) {
    let (mut connection, mut lines) = (it.connection(), Vec::new());
    let streams = [it.stream(first), it.stream(first.other())];
    let (mut at, mut failed) = ([0, 0], false);
    while !failed && (at[0] < streams[0].len() || at[1] < streams[1].len()) {
        for (turn, side) in [first, first.other()].into_iter().enumerate() {
            let left = &streams[turn][at[turn]..];
            let piece = &left[..left.len().min(most).min(connection.room(side))];
            at[turn] += piece.len();
            failed = failed || feed(&mut connection, side, piece, most, &mut lines).is_err();
        }
    }
    let end = finish(&mut connection, &mut lines);
    let place = &it.steps[it.steps.len() - 1].place;
    assert!(matches!(&it.steps[it.steps.len() - 1].kind, Kind::End(wanted) if *wanted == end));
    let wanted: Vec<&Wanted> = it.steps.iter().flat_map(|step| &step.wanted).collect();
    assert_eq!(lines.len(), wanted.len(), "{place}: {lines:?} came");
    for (wanted, line) in wanted.iter().zip(&lines) {
        wanted.assert_is(line, place);
    }
}

/// A client and a server put each payload that has its own line, as long as each has one. A
/// server's last words can't be put.
fn put_again(it: &Conversation) -> Result<(), Error> {
    let (mut client, mut server) = (it.connection(), it.connection());
    for step in &it.steps {
        let (side, packets) = match &step.kind {
            Kind::Feed(side, packets) => (*side, packets),
            _ => continue,
        };
        let [wanted] = step.wanted.as_slice() else {
            return Ok(());
        };
        if wanted.side.is_none() || wanted.text.starts_with("Farewell") || packets.len() > SHORT {
            return Ok(());
        }
        let (speaker, listener) = match side {
            Side::Client => (&mut client, &mut server),
            Side::Server => (&mut server, &mut client),
        };
        let mut out = Bytes::new()?;
        speaker.put(side, &packets[4..], &mut out)?;
        wanted.assert_is(speaker.line_with_secrets()?, &step.place);
        assert_eq!(&out[..], &packets[..], "{}", step.place);
        let mut lines = Vec::new();
        let fed = feed(listener, side, packets, usize::MAX, &mut lines);
        assert_eq!((fed, lines.len()), (Ok(()), 1), "{}", step.place);
        wanted.assert_is(&lines[0], &step.place);
    }
    Ok(())
}

#[test]
fn conversations_are_read_step_by_step() {
    for it in conversations() {
        read_steps(&it, usize::MAX);
        if it.stream(Side::Client).len() + it.stream(Side::Server).len() < SHORT {
            read_steps(&it, 1);
        }
    }
}

#[test]
fn conversations_are_read_in_any_order() {
    for it in conversations() {
        if it.depends_on_order() {
            continue;
        }
        let is_short = it.stream(Side::Client).len() + it.stream(Side::Server).len() < SHORT;
        for first in [Side::Client, Side::Server] {
            read_streams(&it, first, usize::MAX);
            if is_short {
                read_streams(&it, first, 1);
            }
        }
    }
}

#[test]
fn conversations_are_put_again() -> Result<(), Error> {
    for it in conversations() {
        put_again(&it)?;
    }
    Ok(())
}
