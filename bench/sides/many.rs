//! Rows that are lent, connections that idle, a long one, and some in threads: many_rust INPUTS ROUNDS WHAT..
//!
//! WHAT is as in `many.c`: lent; or idle-fresh, -login, -statements, -prepared or texts, and a count; or threads, and how many.

use std::sync::Barrier;
use std::time::Instant;
use std::{env, fs, thread};

use mysql_session::{Connection, Event, Limits, Side, Value};

const PIECE: usize = 65536;
const STREAM: usize = 64 << 20;
const SAID: usize = 100;
const PARTS: usize = 10;
const IN_A_THREAD: usize = 100_000;

#[repr(C)]
struct Heap([usize; 10]);

#[repr(C)]
struct Time(i64, i64);

extern "C" {
    fn mallinfo2() -> Heap;
    fn clock_gettime(clock: i32, time: &mut Time) -> i32;
}

/// Bytes of the heap that are in use.
fn heap() -> usize {
    unsafe { mallinfo2() }.0[7]
}

/// Bytes of memory of the process.
fn resident() -> usize {
    let text = fs::read_to_string("/proc/self/statm").expect("statm");
    text.split(' ').nth(1).and_then(|it| it.parse().ok()).map_or(0, |pages: usize| pages * 4096)
}

/// Nanoseconds of the processor that the process took.
fn processor() -> f64 {
    let mut time = Time(0, 0);
    unsafe { clock_gettime(2, &mut time) };
    time.0 as f64 * 1e9 + time.1 as f64
}

fn first_packet(bytes: &[u8]) -> &[u8] {
    &bytes[..4 + u32::from_le_bytes([bytes[0], bytes[1], bytes[2], 0]) as usize]
}

fn packets(bytes: &[u8], count: usize) -> &[u8] {
    &bytes[..(0..count).fold(0, |at, _| at + first_packet(&bytes[at..]).len())]
}

fn cell(row: &mut Vec<u8>, len: usize) {
    match len {
        0..=250 => row.push(len as u8),
        _ => row.extend([252, len as u8, (len >> 8) as u8]),
    }
    row.resize(row.len() + len, b'7');
}

/// A row of a bigint, two texts and a bigint: so many bytes with its header, by the second text.
fn row_of(size: usize, binary: bool, number: usize) -> Vec<u8> {
    let mut row = ((size - 4) as u32).to_le_bytes()[..3].to_vec();
    row.push(number as u8);
    let note = if size > 300 { size - 3 } else { size - 1 };
    match binary {
        true => row.extend([0; 10]),
        false => cell(&mut row, 7),
    }
    cell(&mut row, 11);
    cell(&mut row, note - if binary { 34 } else { 27 });
    match binary {
        true => row.extend([0; 8]),
        false => cell(&mut row, 2),
    }
    row
}

struct Talk {
    login: Vec<u8>,
    server: Vec<u8>,
    texts: Vec<u8>,
    rows: Vec<u8>,
    prepare: Vec<u8>,
    prepared: Vec<u8>,
    executes: Vec<u8>,
    results: Vec<u8>,
}

impl Talk {
    fn of(folder: &str) -> Talk {
        let load = |name| fs::read(format!("{folder}/{name}")).expect(name);
        Talk {
            login: load("login-client"),
            server: load("login-server"),
            texts: load("texts"),
            rows: load("replies-text"),
            prepare: load("prepare"),
            prepared: load("prepared"),
            executes: load("executes"),
            results: load("replies-binary"),
        }
    }

    fn say(connection: &mut Connection, side: Side, bytes: &[u8]) {
        connection.feed(side, bytes).expect("a piece");
        while connection.next_event().expect("an event").is_some() {}
    }

    /// So many commands and their replies, of which each has as many bytes.
    fn ask(connection: &mut Connection, commands: &[u8], replies: &[u8], count: usize) {
        let len = packets(replies, 8).len();
        let (mut at, mut from) = (0, 0);
        for _ in 0..count {
            let command = first_packet(&commands[at..]);
            Talk::say(connection, Side::Client, command);
            Talk::say(connection, Side::Server, &replies[from..from + len]);
            (at, from) = if from + len < replies.len() { (at + command.len(), from + len) } else { (0, 0) };
        }
    }

    fn stand(&self, how: &str) -> Connection {
        let mut connection = Connection::new(Limits::default()).expect("memory");
        if how == "fresh" {
            return connection;
        }
        let greeting = first_packet(&self.server).len();
        Talk::say(&mut connection, Side::Server, &self.server[..greeting]);
        Talk::say(&mut connection, Side::Client, &self.login);
        Talk::say(&mut connection, Side::Server, &self.server[greeting..]);
        match how {
            "statements" => Talk::ask(&mut connection, &self.texts, &self.rows, SAID),
            "prepared" => {
                Talk::say(&mut connection, Side::Client, &self.prepare);
                Talk::say(&mut connection, Side::Server, &self.prepared);
                Talk::ask(&mut connection, &self.executes, &self.results, 1);
            }
            _ => (),
        }
        connection
    }

    /// A connection behind a login, a command whose reply has rows, and these.
    fn asked(&self, size: usize, binary: bool) -> (Connection, Vec<u8>) {
        let mut connection = self.stand("login");
        if binary {
            Talk::say(&mut connection, Side::Client, &self.prepare);
            Talk::say(&mut connection, Side::Server, &self.prepared);
        }
        let command = if binary { &self.executes } else { &self.texts };
        Talk::say(&mut connection, Side::Client, first_packet(command));
        Talk::say(&mut connection, Side::Server, packets(&self.rows, 6));
        let rows = (0..STREAM / size).flat_map(|it| row_of(size, binary, 7 + it)).collect();
        (connection, rows)
    }
}

/// Rows are lent, and their cells looked at.
fn lend(connection: &mut Connection, rows: &[u8]) -> usize {
    let mut sum = 0;
    for piece in rows.chunks(PIECE) {
        connection.feed(Side::Server, piece).expect("a piece");
        while let Some(event) = connection.next_event_lent().expect("an event") {
            let Event::Row(row) = event else { continue };
            for number in 0..row.len() {
                sum += row.cell(number).map_or(0, |cell| if let Value::Bytes(it) = cell { it.len() } else { 1 });
            }
        }
    }
    sum
}

fn lent(talk: &Talk) {
    for (size, binary) in [46, 128, 1024, 65536].into_iter().flat_map(|it| [(it, false), (it, true)]) {
        let (mut connection, rows) = talk.asked(size, binary);
        let before = processor();
        let sum = lend(&mut connection, &rows);
        let spent = (processor() - before) / rows.len() as f64;
        println!("lent-{size}-{} rust {spent:.4} {sum}", if binary { "binary" } else { "text" });
    }
}

fn idle(talk: &Talk, how: &str, count: usize) {
    let (before, memory) = (heap(), resident());
    let all: Vec<Connection> = (0..count).map(|_| talk.stand(how)).collect();
    let each = |after: usize, before: usize| after.saturating_sub(before) / count;
    println!("idle-{how} {} connections: heap {} memory {} bytes each", all.len(), each(heap(), before), each(resident(), memory));
}

fn go_on(talk: &Talk, count: usize) {
    let before = heap();
    let mut connection = talk.stand("login");
    for part in 1..=PARTS {
        let began = processor();
        Talk::ask(&mut connection, &talk.texts, &talk.rows, count / PARTS);
        let spent = (processor() - began) / (count / PARTS) as f64;
        println!("texts {}: {spent:.0} ns a statement, heap {}, held {}", part * (count / PARTS), heap() - before, connection.held());
    }
}

/// Units a second of all threads. Each makes ready what it works on, waits for the others, and works.
fn in_threads<T>(what: &str, count: usize, units: usize, ready: impl Fn() -> T + Sync, work: impl Fn(T) + Sync) {
    let barrier = Barrier::new(count);
    let one = || {
        let with = ready();
        barrier.wait();
        let began = Instant::now();
        work(with);
        (began, Instant::now())
    };
    let times: Vec<(Instant, Instant)> = thread::scope(|scope| {
        let all: Vec<_> = (0..count).map(|_| scope.spawn(one)).collect();
        all.into_iter().map(|it| it.join().expect("a thread")).collect()
    });
    let (began, ended) = (times.iter().map(|it| it.0).min(), times.iter().map(|it| it.1).max());
    let wall = ended.zip(began).map_or(0.0, |(ended, began)| (ended - began).as_secs_f64());
    println!("{what} in {count} threads: {:.0} a second", (units * count) as f64 / wall);
}

fn main() {
    let words: Vec<String> = env::args().collect();
    let (talk, rounds) = (Talk::of(&words[1]), words[2].parse().expect("ROUNDS"));
    for (what, count) in words[3..].chunks(2).map(|it| (it[0].as_str(), it.get(1).map_or(0, |it| it.parse().expect("a count")))) {
        for _ in 0..rounds {
            match what.strip_prefix("idle-") {
                Some(how) => idle(&talk, how, count),
                None if what == "lent" => lent(&talk),
                None if what == "texts" => go_on(&talk, count),
                None => {
                    let statements = |mut it: Connection| Talk::ask(&mut it, &talk.texts, &talk.rows, IN_A_THREAD);
                    in_threads("statements", count, IN_A_THREAD, || talk.stand("login"), statements);
                    let rows = |(mut it, rows): (Connection, Vec<u8>)| assert!(lend(&mut it, &rows) > 0);
                    in_threads("rows", count, STREAM / 46, || talk.asked(46, false), rows);
                }
            }
        }
    }
}
