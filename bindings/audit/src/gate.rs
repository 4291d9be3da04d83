//! The login of a connection. It goes packet by packet, each in its turn: nothing of a client passes
//! before what it answers was read. Where the proxy speaks TLS, requests for it are its own. What is
//! read is the login without them, whose numbers are lower by as many.

use crate::plain::{hide, HIDDEN};
use crate::shared::Settings;
use crate::tls_settings::{OfClient, OfServer};
use mysql_session::{capability, Greeting, Side};
use std::mem;
use std::sync::Arc;

const SSL: u32 = capability::CLIENT_SSL;
const PROTOCOL_41: u32 = capability::CLIENT_PROTOCOL_41;
/// How long a request for TLS is, and the front of a login that is laid out alike.
const REQUEST: usize = 32;
const HEADER: usize = 4;
/// The longest payload of a login.
pub const LOGIN_MOST: usize = 1 << 18;
const AUTH_SWITCH: u8 = 0xfe;
const ERROR: u8 = 0xff;
/// By which a server asks for the password itself, and a client for a key to hide it.
const FULL_AUTHENTICATION: [u8; 2] = [1, 4];
const KEY_REQUEST: [u8; 1] = [2];

/// The codes of refusals, as servers and clients have them.
pub const HANDSHAKE: u16 = 1043;
pub const DENIED: u16 = 1045;
pub const TLS_FAILED: u16 = 2026;
pub const NEEDS_TLS: u16 = 2061;
pub const PLAIN_REFUSED: u16 = 3159;

/// Why a login is refused: to the client, by an error.
#[derive(Debug)]
pub struct Refusal(pub u16, pub String);

fn refusal<T>(code: u16, why: &str) -> Result<T, Refusal> {
    Err(Refusal(code, why.to_string()))
}

/// What is done with a payload of a login.
#[derive(Debug)]
pub enum Step {
    /// It is read and sent so.
    Pass { read: Vec<u8>, sent: Vec<u8> },
    /// The client goes over to TLS.
    Accept,
    /// The server is asked for TLS by this request. Then the payload comes again.
    Connect(Vec<u8>),
    /// The client gets this, and nothing is read.
    Answer(Vec<u8>),
}

impl Step {
    fn unchanged(payload: &[u8]) -> Result<Step, Refusal> {
        let (read, sent) = (payload.to_vec(), payload.to_vec());
        Ok(Step::Pass { read, sent })
    }
}

/// How far a plain client is that hides its password by the proxy's key.
#[derive(Clone, Copy, PartialEq)]
enum Password {
    Unasked,
    Asked,
    Hidden,
}

pub struct Gate {
    settings: Arc<Settings>,
    /// What came of each side and wasn't taken.
    pub held: [Vec<u8>; 2],
    /// Which sides have TLS.
    pub has_tls: [bool; 2],
    /// The number of the next payload of the login that is read.
    next: u8,
    /// How much higher a side's numbers are.
    shift: [u8; 2],
    /// The capabilities of the greeting that the client got.
    offered: u32,
    /// Whether the server offers TLS.
    is_offered_tls: bool,
    /// The front of the client's request for TLS.
    request: Option<Vec<u8>>,
    scramble: Vec<u8>,
    password: Password,
}

pub fn packet(number: u8, payload: &[u8]) -> Vec<u8> {
    let length = (payload.len() as u32).to_le_bytes();
    [&length[..3], &[number], payload].concat()
}

/// The number of a packet and the length of its payload, where its header is there.
fn header_of(bytes: &[u8]) -> Option<(u8, usize)> {
    let &[low, middle, high, number] = bytes.get(..HEADER)? else {
        return None;
    };
    let length = u32::from_le_bytes([low, middle, high, 0]) as usize;
    Some((number, length))
}

/// The capabilities that a payload has which answers a greeting.
fn bits_of(payload: &[u8]) -> u32 {
    match *payload {
        [a, b, c, d, ..] if b & 2 != 0 => u32::from_le_bytes([a, b, c, d]),
        [a, b, ..] => u32::from(u16::from_le_bytes([a, b])),
        _ => 0,
    }
}

/// What a request for TLS and the login behind it have in common: the capabilities, and MariaDB's
/// own. Servers go by those of the request.
fn common(payload: &[u8]) -> Vec<u8> {
    let front = payload.get(..REQUEST).unwrap_or(payload);
    [
        &front[..front.len().min(4)],
        front.get(28..).unwrap_or_default(),
    ]
    .concat()
}

fn with_bits(payload: &[u8], bits: u32) -> Vec<u8> {
    let behind = payload.get(4..).unwrap_or_default();
    [&bits.to_le_bytes()[..], behind].concat()
}

impl Gate {
    pub fn new(settings: Arc<Settings>) -> Gate {
        Gate {
            settings,
            held: Default::default(),
            has_tls: [false; 2],
            next: 0,
            shift: [0; 2],
            offered: 0,
            is_offered_tls: false,
            request: None,
            scramble: Vec::new(),
            password: Password::Unasked,
        }
    }

    pub fn settings(&self) -> &Arc<Settings> {
        &self.settings
    }

    /// How many bytes it holds.
    pub fn size(&self) -> usize {
        self.held.iter().map(Vec::capacity).sum()
    }

    /// Whether more of a side is to come before something of it is taken.
    pub fn reads(&self, side: Side) -> bool {
        self.held[side as usize].len() < LOGIN_MOST && !self.has_packet(side)
    }

    fn has_packet(&self, side: Side) -> bool {
        let held = &self.held[side as usize];
        header_of(held).is_some_and(|(_, length)| HEADER + length <= held.len())
    }

    /// Whether both sides have the same numbers, so that bytes can go as they come.
    pub fn is_straight(&self) -> bool {
        self.shift[0] == self.shift[1]
    }

    /// The next packet, with its side and number, where it is whole. An error of the server doesn't
    /// wait for its turn.
    ///
    /// # Errors
    /// Why it can't be one of a login. What speaks another protocol to the server doesn't pass.
    pub fn take(&mut self, turn: Side) -> Result<Option<(Side, u8, Vec<u8>)>, String> {
        let side = match self.is_last_word() {
            true => Side::Server,
            false => turn,
        };
        let Some((number, length)) = header_of(&self.held[side as usize]) else {
            return Ok(None);
        };
        self.check(side, number, length)?;
        if !self.has_packet(side) {
            return Ok(None);
        }
        let held = &mut self.held[side as usize];
        let rest = held.split_off(HEADER + length);
        let payload = mem::replace(held, rest).split_off(HEADER);
        Ok(Some((side, number, payload)))
    }

    /// Whether the server says an error, and has the number that is due.
    fn is_last_word(&self) -> bool {
        let due = self.next.wrapping_add(self.shift[1]);
        let is_due = header_of(&self.held[1]).is_some_and(|(number, _)| number == due);
        let is_error = self.held[1].get(HEADER) == Some(&ERROR);
        is_error && is_due && self.has_packet(Side::Server)
    }

    fn check(&self, side: Side, number: u8, length: usize) -> Result<(), String> {
        let due = self.next.wrapping_add(self.shift[side as usize]);
        let held = &self.held[side as usize];
        if side == Side::Client && (held.starts_with(b"PROX") || held.starts_with(b"\r\n\r\n")) {
            return Err("a header of the PROXY protocol, of one who may not send it".to_string());
        }
        if side == Side::Client && number != due {
            return Err(format!(
                "a packet of the login is number {number}, not {due}"
            ));
        }
        match length >= LOGIN_MOST {
            true => Err("a login is too long".to_string()),
            false => Ok(()),
        }
    }

    /// Takes a packet's number: the answers are the number by which it is read, and that by which it
    /// goes to the other side.
    pub fn count(&mut self, side: Side, number: u8) -> [u8; 2] {
        let read = number.wrapping_sub(self.shift[side as usize]);
        self.next = read.wrapping_add(1);
        [read, read.wrapping_add(self.shift[side.other() as usize])]
    }

    /// The number of an error for the client in place of what this side's packet asks for.
    pub fn number_of_refusal(&self, side: Side, number: u8) -> u8 {
        match side {
            Side::Client => number.wrapping_add(1),
            Side::Server => number
                .wrapping_sub(self.shift[1])
                .wrapping_add(self.shift[0]),
        }
    }

    /// A side has TLS from now on. What came behind the request for it is TLS, and is returned.
    pub fn secure(&mut self, side: Side) -> Vec<u8> {
        self.has_tls[side as usize] = true;
        self.shift[side as usize] = 1;
        mem::take(&mut self.held[side as usize])
    }

    /// Puts a packet back that is taken again later.
    pub fn put_back(&mut self, side: Side, number: u8, payload: &[u8]) {
        self.held[side as usize].splice(..0, packet(number, payload));
    }

    /// What is done with a payload of the server.
    pub fn of_server(&mut self, payload: &[u8], is_greeting: bool) -> Result<Step, Refusal> {
        if is_greeting {
            return self.greeting(payload);
        }
        if let [AUTH_SWITCH, rest @ ..] = payload {
            let data = rest.splitn(2, |byte| *byte == 0).nth(1).unwrap_or_default();
            self.scramble = data.strip_suffix(&[0]).unwrap_or(data).to_vec();
        }
        if payload == FULL_AUTHENTICATION && self.has_tls == [false, true] {
            self.password = Password::Asked;
        }
        Step::unchanged(payload)
    }

    fn greeting(&mut self, payload: &[u8]) -> Result<Step, Refusal> {
        // An error in place of a greeting stays as it is.
        let Ok(greeting) = Greeting::read(payload) else {
            return Step::unchanged(payload);
        };
        self.offered = greeting.capabilities;
        self.is_offered_tls = self.offered & SSL != 0;
        self.scramble = [greeting.scramble_1, greeting.scramble_2].concat();
        let options = &self.settings.options;
        if !options.changes_greeting() {
            return Step::unchanged(payload);
        }
        let is_as_client = options.tls.server == OfServer::AsClient;
        let is_required = options.tls.of_client() == Some(OfClient::Required);
        let is_needed = options.tls.server.insists() || is_as_client && is_required;
        if is_needed && !self.is_offered_tls {
            return refusal(TLS_FAILED, "the server offers no TLS");
        }
        let offers = options.tls.serves() && (self.is_offered_tls || !is_as_client);
        let (mut read, mut sent) = (payload.to_vec(), payload.to_vec());
        let shown = if offers { SSL } else { 0 };
        // Both can be read, as the greeting can.
        let hidden = hide(&mut read, 0).and_then(|()| hide(&mut sent, shown));
        hidden.map_err(|why| Refusal(HANDSHAKE, why.to_string()))?;
        self.offered = self.offered & !HIDDEN | shown;
        Ok(Step::Pass { read, sent })
    }

    /// What is done with a payload of the client.
    pub fn of_client(&mut self, payload: &[u8], is_response: bool) -> Result<Step, Refusal> {
        if is_response {
            return self.response(payload);
        }
        let contexts = self.settings.tls.as_ref();
        if self.password == Password::Asked && payload == KEY_REQUEST {
            let Some(key) = contexts.and_then(|it| it.public_key()) else {
                return refusal(NEEDS_TLS, "there is no key to hide the password by");
            };
            self.password = Password::Hidden;
            self.shift[0] = self.shift[0].wrapping_add(2);
            return Ok(Step::Answer([&[1], &key[..]].concat()));
        }
        if self.password == Password::Hidden {
            self.password = Password::Unasked;
            let clear = contexts.and_then(|it| it.decrypt(payload));
            let Some(mut sent) = clear.filter(|_| !self.scramble.is_empty()) else {
                return refusal(DENIED, "the hidden password can't be read");
            };
            for (byte, by) in sent.iter_mut().zip(self.scramble.iter().cycle()) {
                *byte ^= by;
            }
            // The password itself isn't read.
            let read = vec![b'*'; sent.len()];
            return Ok(Step::Pass { read, sent });
        }
        Step::unchanged(payload)
    }

    /// What answers the greeting: a request for TLS, or the login.
    fn response(&mut self, payload: &[u8]) -> Result<Step, Refusal> {
        let (said, is_plain) = (bits_of(payload), !self.has_tls[0]);
        if said & HIDDEN & !self.offered & !SSL != 0 {
            return refusal(HANDSHAKE, "the client compresses, which wasn't offered");
        }
        if said & SSL & !self.offered != 0 {
            return refusal(TLS_FAILED, "TLS wasn't offered");
        }
        if is_plain && said & SSL != 0 {
            return self.request(payload);
        }
        let options = &self.settings.options;
        if is_plain && options.tls.of_client() == Some(OfClient::Required) {
            let why = "Connections using insecure transport are prohibited";
            return refusal(PLAIN_REFUSED, why);
        }
        if self
            .request
            .as_ref()
            .is_some_and(|it| *it != common(payload))
        {
            let why = "the login has other capabilities than the request for TLS";
            return refusal(HANDSHAKE, why);
        }
        if !options.changes_greeting() {
            return Step::unchanged(payload);
        }
        self.login(said, payload)
    }

    fn request(&mut self, payload: &[u8]) -> Result<Step, Refusal> {
        if !self.settings.options.changes_greeting() {
            // What follows can't be read.
            return Step::unchanged(payload);
        }
        if payload.len() != REQUEST {
            return refusal(HANDSHAKE, "a request for TLS has more than a request");
        }
        self.request = Some(common(payload));
        Ok(Step::Accept)
    }

    /// The login, where the greeting was changed.
    fn login(&mut self, said: u32, payload: &[u8]) -> Result<Step, Refusal> {
        let wants = match self.settings.options.tls.server {
            OfServer::Disabled => false,
            OfServer::AsClient => self.has_tls[0],
            OfServer::Preferred => self.is_offered_tls,
            _ => true,
        };
        let is_old = said & PROTOCOL_41 == 0 || payload.len() < REQUEST;
        if is_old && (wants || self.has_tls[0]) {
            return refusal(HANDSHAKE, "the login has no form that goes with TLS");
        }
        if is_old {
            return Step::unchanged(payload);
        }
        let secure = with_bits(payload, said | SSL);
        if wants && !self.has_tls[1] {
            return Ok(Step::Connect(packet(1, &secure[..REQUEST])));
        }
        let read = with_bits(payload, said & !SSL);
        let sent = if wants { secure } else { read.clone() };
        Ok(Step::Pass { read, sent })
    }
}
