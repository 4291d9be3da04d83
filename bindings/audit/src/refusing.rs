//! What is said to clients that aren't served, and of them in the log.

use crate::choosing::Lines;
use crate::gate::{packet, HANDSHAKE};
use crate::lines::{Format, Heading, Sink, Told};
use std::io::Write;
use std::net::TcpStream;

/// The code of who can't be reached, at which clients try again.
const UNREACHED: u16 = 2003;

/// A client that is refused.
pub struct Refused<'a> {
    pub number: u64,
    pub address: &'a str,
    pub client: &'a TcpStream,
    pub format: Format,
    pub lines: Lines,
}

impl Refused<'_> {
    /// There are too many.
    pub fn too_many(self) {
        let stream = self.client;
        self.tell("too many connections");
        refuse(stream, 1040, "Too many connections");
    }

    /// Its server can't be asked.
    pub fn unreached(self, why: &str) {
        let (stream, what) = (self.client, "the server can't be reached");
        self.tell(&format!("{what}: {why}"));
        refuse(stream, UNREACHED, what);
    }

    /// What it says can't be recorded.
    pub fn unrecorded(self, why: &str) {
        let (stream, what) = (self.client, "the connection can't be recorded");
        self.tell(&format!("{what}: {why}"));
        refuse(stream, UNREACHED, what);
    }

    /// What its balancer said of it isn't known.
    pub fn unintroduced(self, why: &str) {
        let (stream, what) = (self.client, "no header of the PROXY protocol");
        self.tell(&format!("{what}: {why}"));
        refuse(stream, HANDSHAKE, what);
    }

    fn tell(mut self, why: &str) {
        let heading = Heading {
            connection: self.number,
            sample: 1,
            client: Some(self.address),
            user: b"",
            database: b"",
        };
        let told = Told::new("refused").with("by", self.format.text(b"proxy"));
        let told = told.with_text(self.format.text(why.as_bytes()));
        self.lines.tell(self.format, &heading, &told, None);
    }
}

/// The payload of an error, with an SQL state where one has its place.
pub fn error_payload(code: u16, state: Option<&str>, message: &str) -> Vec<u8> {
    let state = state.map(|it| format!("#{it}")).unwrap_or_default();
    let front = [&[0xff], &code.to_le_bytes()[..]].concat();
    [&front[..], state.as_bytes(), message.as_bytes()].concat()
}

/// Sends an error in place of a greeting, where servers send no state.
fn refuse(mut client: &TcpStream, code: u16, message: &str) {
    // It may be gone already.
    let _ = client.write(&packet(0, &error_payload(code, None, message)));
}
