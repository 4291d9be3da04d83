//! A client and a small server in one thread, each a `Connection` over its end of a socket, driven
//! by the C library's `poll`. Any loop or runtime that says which sockets are ready drives them so.

use mysql_session::{capability, command, Bytes, Capabilities, Connection, Event, Limits, Side};
use std::error::Error;
use std::ffi::{c_int, c_short, c_ulong};
use std::io::{self, ErrorKind, Read, Write};
use std::net::{TcpListener, TcpStream};
use std::os::fd::AsRawFd;

type Failure = Box<dyn Error>;

/// What both sides have, who are logged in.
const PROTOCOL: u32 = capability::CLIENT_PROTOCOL_41;

/// Payloads of the server's reply: a column of texts, and what ends columns and rows.
const COLUMN: &[u8] = b"\x03def\0\0\0\x04name\0\x0c\x2d\0\xff\0\0\0\xfd\0\0\0\0\0";
const EOF: &[u8] = b"\xfe\0\0\x02\0";

/// `struct pollfd` of the C library: a file, what is waited for, what is ready.
#[repr(C)]
struct Wait(c_int, c_short, c_short);

const POLLIN: c_short = 1;
const POLLOUT: c_short = 4;

extern "C" {
    fn poll(files: *mut Wait, count: c_ulong, milliseconds: c_int) -> c_int;
}

/// One end of a socket. What was put is in `out`, and written up to `written`.
struct End {
    side: Side,
    stream: TcpStream,
    connection: Connection,
    out: Bytes,
    written: usize,
}

impl End {
    fn new(side: Side, stream: TcpStream) -> Result<End, Failure> {
        stream.set_nonblocking(true)?;
        stream.set_nodelay(true)?;
        let (protocol, mariadb) = (PROTOCOL, 0);
        let capabilities = Capabilities { protocol, mariadb };
        Ok(End {
            side,
            stream,
            connection: Connection::after_login(Limits::default(), capabilities)?,
            out: Bytes::new()?,
            written: 0,
        })
    }

    fn put(&mut self, payload: &[u8]) -> Result<(), Failure> {
        (self.connection).put(self.side, payload, &mut self.out)?;
        Ok(())
    }

    /// Whether all is read and written: behind a quit it is nobody's turn.
    fn is_over(&self) -> bool {
        self.connection.turn().is_none() && self.out.is_empty()
    }

    /// What this end waits for: bytes while there is room for them, and a socket that takes some.
    fn wait(&self) -> Wait {
        let reads = !self.is_over() && self.connection.room(self.side.other()) > 0;
        let (reads, writes) = (c_short::from(reads), c_short::from(!self.out.is_empty()));
        let wanted = (POLLIN * reads) | (POLLOUT * writes);
        Wait(self.stream.as_raw_fd(), wanted, 0)
    }

    /// Feeds what has come, and writes what the socket takes.
    fn go_on(&mut self, ready: c_short) -> Result<(), Failure> {
        let (mut piece, other) = ([0; 1 << 14], self.side.other());
        let room = self.connection.room(other).min(piece.len());
        // A read of no bytes would look like the end of the stream.
        if ready & !POLLOUT != 0 && room > 0 {
            match passed(self.stream.read(&mut piece[..room]))? {
                Some(0) => return Err("the other end is gone".into()),
                Some(count) => self.connection.feed(other, &piece[..count])?,
                None => (),
            }
        }
        if ready & POLLOUT != 0 {
            let count = passed(self.stream.write(&self.out[self.written..]))?;
            self.written += count.unwrap_or(0);
            if self.written == self.out.len() {
                self.out.clear();
                self.written = 0;
            }
        }
        Ok(())
    }
}

/// How many bytes passed; none where the socket wasn't ready after all.
fn passed(count: io::Result<usize>) -> io::Result<Option<usize>> {
    match count {
        Err(error) if error.kind() == ErrorKind::WouldBlock => Ok(None),
        count => count.map(Some),
    }
}

/// Takes the client's events: it counts the rows, and quits behind them.
fn take_replies(client: &mut End, rows: &mut u32) -> Result<(), Failure> {
    while let Some(event) = client.connection.next_event()? {
        match event {
            Event::Row(row) => *rows += u32::from(row.get_named::<&str>("name")?.len() == 120),
            Event::Error(error) => return Err(error.to_string().into()),
            Event::RowsEnd(_) => client.put(&command::quit())?,
            _ => (),
        }
    }
    Ok(())
}

/// Takes the server's events: the reply to each query is longer than the sockets hold.
fn take_commands(server: &mut End) -> Result<(), Failure> {
    while let Some(event) = server.connection.next_event()? {
        println!("the server reads {event:?}");
        if let Event::Query { .. } = event {
            let row = [b"\x78", &b"tea".repeat(40)[..]].concat();
            let rows = vec![&row[..]; 100_000];
            for payload in [&[b"\x01", COLUMN, EOF], &rows[..], &[EOF]].concat() {
                server.put(payload)?;
            }
        }
    }
    Ok(())
}

fn main() -> Result<(), Failure> {
    let (listener, mut rows) = (TcpListener::bind("127.0.0.1:0")?, 0);
    let mut client = End::new(Side::Client, TcpStream::connect(listener.local_addr()?)?)?;
    let mut server = End::new(Side::Server, listener.accept()?.0)?;
    client.put(&command::query(b"SELECT name FROM goods"))?;
    while !(client.is_over() && server.is_over()) {
        let mut files = [client.wait(), server.wait()];
        // SAFETY: the array has as many as the call is told, and nothing else looks at it.
        if unsafe { poll(files.as_mut_ptr(), files.len() as c_ulong, -1) } < 0 {
            return Err(io::Error::last_os_error().into());
        }
        client.go_on(files[0].2)?;
        take_replies(&mut client, &mut rows)?;
        server.go_on(files[1].2)?;
        take_commands(&mut server)?;
    }
    println!("{rows} rows came: {:?}", client.connection.finish());
    Ok(())
}
