//! Says a recorded conversation again and again, as clients and as their server.
//!
//! ```text
//! audit_load RECORDING CONNECTIONS ROUNDS
//! ```
//!
//! RECORDING.client and RECORDING.server are the bytes of both sides. It prints the port of its
//! server, and then reads ports of standard input, each a line. For each port so many connections
//! log in there, and say all commands so many times, but for the quit. Each waits for a reply before
//! it goes on. Then it prints how many commands were said, and how many seconds that took.

use std::env;
use std::fs;
use std::io::{self, BufRead, Read, Write};
use std::net::{TcpListener, TcpStream};
use std::sync::Arc;
use std::thread;
use std::time::Instant;

const COM_QUIT: u8 = 1;
/// Commands without a reply.
const SILENT: [u8; 2] = [0x18, 0x19];

struct Conversation {
    greeting: Vec<u8>,
    login: Vec<u8>,
    /// The server's answers to the login.
    accepted: Vec<u8>,
    /// Commands and their replies.
    commands: Vec<(Vec<u8>, Vec<u8>)>,
    rounds: usize,
}

/// The packets of a stream.
fn packets(mut bytes: &[u8]) -> Vec<&[u8]> {
    let mut packets = Vec::new();
    while let [low, middle, high, ..] = *bytes {
        let length = 4 + u32::from_le_bytes([low, middle, high, 0]) as usize;
        let (packet, rest) = bytes.split_at(length);
        packets.push(packet);
        bytes = rest;
    }
    packets
}

/// Cuts a stream before each packet of this number.
fn parts(bytes: &[u8], number: u8) -> Vec<Vec<u8>> {
    let mut parts = vec![Vec::new()];
    for packet in packets(bytes) {
        if packet[3] == number {
            parts.push(Vec::new());
        }
        parts.last_mut().expect("there is one").extend_from_slice(packet);
    }
    parts
}

fn conversation(name: &str, rounds: usize) -> io::Result<Conversation> {
    let client = fs::read(format!("{name}.client"))?;
    let server = fs::read(format!("{name}.server"))?;
    let greeting = packets(&server)[0].to_vec();
    let (mut asked, mut replied) = (parts(&client, 0).into_iter(), parts(&server, 1).into_iter());
    let login = asked.next().unwrap_or_default();
    let accepted = replied.next().unwrap_or_default()[greeting.len()..].to_vec();
    let commands = asked.filter(|command| command[4] != COM_QUIT).map(|command| {
        let reply = match SILENT.contains(&command[4]) {
            true => Vec::new(),
            false => replied.next().expect("each command has a reply"),
        };
        (command, reply)
    });
    Ok(Conversation {
        greeting,
        login,
        accepted,
        commands: commands.collect(),
        rounds,
    })
}

/// One end says what it has to, and takes as many bytes as it has to.
fn take(stream: &mut TcpStream, room: &mut Vec<u8>, wanted: &[u8]) -> io::Result<()> {
    room.resize(wanted.len(), 0);
    stream.read_exact(room)
}

fn serve(mut stream: TcpStream, it: &Conversation) -> io::Result<()> {
    let mut room = Vec::new();
    stream.set_nodelay(true)?;
    stream.write_all(&it.greeting)?;
    take(&mut stream, &mut room, &it.login)?;
    stream.write_all(&it.accepted)?;
    loop {
        for (command, reply) in &it.commands {
            take(&mut stream, &mut room, command)?;
            stream.write_all(reply)?;
        }
    }
}

fn ask(port: u16, it: &Conversation) -> io::Result<()> {
    let (mut stream, mut room) = (TcpStream::connect(("127.0.0.1", port))?, Vec::new());
    stream.set_nodelay(true)?;
    take(&mut stream, &mut room, &it.greeting)?;
    stream.write_all(&it.login)?;
    take(&mut stream, &mut room, &it.accepted)?;
    for _ in 0..it.rounds {
        for (command, reply) in &it.commands {
            stream.write_all(command)?;
            take(&mut stream, &mut room, reply)?;
            if room != *reply {
                return Err(io::Error::other("another reply"));
            }
        }
    }
    Ok(())
}

fn main() -> io::Result<()> {
    let words: Vec<String> = env::args().skip(1).collect();
    let [name, connections, rounds] = &words[..] else {
        return Err(io::Error::other("audit_load RECORDING CONNECTIONS ROUNDS"));
    };
    let count: usize = connections.parse().map_err(io::Error::other)?;
    let rounds = rounds.parse().map_err(io::Error::other)?;
    let it = Arc::new(conversation(name, rounds)?);
    let listener = TcpListener::bind("127.0.0.1:0")?;
    println!("{}", listener.local_addr()?.port());
    let served = it.clone();
    thread::spawn(move || {
        for stream in listener.incoming().flatten() {
            let it = served.clone();
            thread::spawn(move || serve(stream, &it));
        }
    });
    for port in io::stdin().lock().lines() {
        let port = port?.parse().map_err(io::Error::other)?;
        let began = Instant::now();
        let asking: Vec<_> = (0..count)
            .map(|_| it.clone())
            .map(|it| thread::spawn(move || ask(port, &it)))
            .collect();
        for one in asking {
            one.join().expect("no thread panics")?;
        }
        let said = count * it.commands.len() * rounds;
        println!("{said} {:.6}", began.elapsed().as_secs_f64());
    }
    Ok(())
}
