//! A connection on its way through the proxy: two sockets, and what came of one and wasn't taken by
//! the other yet.

use crate::audit::Audit;
use crate::choosing::Lines;
use crate::file::make;
use crate::gate::{Gate, LOGIN_MOST};
use crate::options::Options;
use crate::proxy_header::{self, Ends, Header};
use crate::recording::Recording;
use crate::refusing::Refused;
use crate::shared::{Client, Settings, Shared};
use crate::skipping::Skipping;
use crate::stage::Stage;
use crate::sys::{begin_to_connect, open_socket, set_up, Poll, EPOLLIN, EPOLLOUT};
use crate::teller::Origin;
use crate::way::{is_not_yet, keep, Means, Way};
use crate::wires::{Came, Wires};
use mysql_session::{Limits, Side};
use std::io::{self, ErrorKind, Read};
use std::mem;
use std::net::{SocketAddr, TcpStream};
use std::os::fd::{AsRawFd, OwnedFd};
use std::sync::atomic::Ordering;
use std::sync::Arc;
use std::time::{Duration, Instant};

pub const SIDES: [Side; 2] = [Side::Client, Side::Server];

/// What a connection may hold, however much all hold.
const SMALL: usize = 1 << 16;
/// As many bytes are read at once, so that no more wait beside a payload that isn't whole.
const SLICE: usize = 1 << 12;
/// Memory for payloads of so many bytes isn't kept for others.
const RENEWED: usize = 1 << 14;
/// How long a client may stay behind the server's end.
const LINGER: Duration = Duration::from_secs(10);

/// What came of a client whose balancer says first whose connection it is.
struct Introduction {
    bytes: Vec<u8>,
    /// By which the server is asked behind it.
    socket: OwnedFd,
}

pub struct Passage {
    number: u64,
    /// The client's address, which its balancer may have said.
    address: Box<str>,
    pub wires: Wires,
    introduction: Option<Introduction>,
    /// Which address of the server is asked, as long as it doesn't answer.
    asks: Option<usize>,
    pub ways: [Way; 2],
    /// What is waited for of each socket.
    waits: [u32; 2],
    /// Through which the login goes.
    pub gate: Option<Box<Gate>>,
    pub audit: Audit<Lines>,
    limits: Limits,
    lines: Lines,
    skipping: Skipping,
    began: Instant,
    last: Instant,
    /// Since when a side takes no more.
    lost: Option<Instant>,
    /// What had passed of the client and wasn't taken to be read when the server ended.
    unanswered: Vec<u8>,
    /// The most that was held of it: so much memory it keeps.
    peak: usize,
    /// What it is counted for of what all hold.
    counted: usize,
}

impl Passage {
    /// A connection that asks the server. None where the client was refused.
    pub fn new(client: Client, lines: Lines, settings: &Arc<Settings>) -> Option<Passage> {
        let (options, number) = (&settings.options, client.number);
        let address: Box<str> = client.address.to_string().into();
        lines.counts().connections.add(1);
        let refused = |address| Refused {
            number,
            address,
            client: &client.stream,
            format: options.telling().format,
            lines: lines.clone(),
        };
        let Some(socket) = client.socket else {
            refused(&address).too_many();
            return None;
        };
        let origin = Origin {
            number,
            client: Some(address.clone()),
        };
        let (telling, limits) = (options.telling(), options.limits());
        let mut audit = match Audit::new(origin, telling, limits, options.on_fault, lines.clone()) {
            Ok(audit) => audit,
            Err(why) => {
                refused(&address).unreached(&why.to_string());
                return None;
            }
        };
        if let Some(folder) = &options.record {
            match Recording::new(folder, number, |path| make(path, 0o600)) {
                Ok(recording) => audit.recording = Some(Box::new(recording)),
                Err(why) => {
                    refused(&address).unrecorded(&why.to_string());
                    return None;
                }
            }
        }
        let mut passage = Passage::of(client.stream, address, number, audit, lines, settings);
        match passage.begin(socket, client.address, settings) {
            Ok(()) => Some(passage),
            Err(why) => {
                passage.refused().unreached(&why.to_string());
                None
            }
        }
    }

    fn of(
        client: TcpStream,
        address: Box<str>,
        number: u64,
        mut audit: Audit<Lines>,
        lines: Lines,
        settings: &Arc<Settings>,
    ) -> Passage {
        let (now, options) = (Instant::now(), &settings.options);
        audit.insists = options.tls.changes_greeting();
        audit.teller.names = settings.names.clone();
        Passage {
            number,
            address,
            wires: Wires::new(client),
            introduction: None,
            asks: None,
            ways: Default::default(),
            waits: [0; 2],
            gate: Some(Box::new(Gate::new(settings.clone()))),
            audit,
            limits: options.limits(),
            lines,
            skipping: Skipping::new(options.longest),
            began: now,
            last: now,
            lost: None,
            unanswered: Vec::new(),
            peak: 0,
            counted: 0,
        }
    }

    /// Begins to ask the server by this socket, or waits for what a balancer says before.
    fn begin(
        &mut self,
        socket: OwnedFd,
        address: SocketAddr,
        settings: &Settings,
    ) -> io::Result<()> {
        let options = &settings.options;
        self.wires.client.set_nonblocking(true)?;
        set_up(&self.wires.client, options.keepalive)?;
        if options.proxy_from.iter().any(|it| it.has(address.ip())) {
            let bytes = Vec::new();
            self.introduction = Some(Introduction { bytes, socket });
            return Ok(());
        }
        self.introduce(None, options)?;
        self.ask(0, Some(socket), settings)
    }

    /// Takes what came of a balancer's header, and asks the server once it is whole.
    fn hear(&mut self, means: &mut Means) -> Result<(), String> {
        let Some(heard) = &mut self.introduction else {
            return Ok(());
        };
        let room = proxy_header::MOST - heard.bytes.len().min(proxy_header::MOST - 1);
        match (&self.wires.client).read(&mut means.piece[..room]) {
            Ok(0) => return Err("it has gone".to_string()),
            Ok(count) => heard.bytes.extend_from_slice(&means.piece[..count]),
            Err(error) if is_not_yet(&error) => return Ok(()),
            Err(error) => return Err(error.to_string()),
        }
        let (length, ends) = match proxy_header::read(&heard.bytes) {
            Header::Part => return Ok(()),
            Header::Whole(length, ends) => (length, ends),
            Header::Unread => return Err("it can't be read".to_string()),
        };
        let Some(Introduction { bytes, socket }) = self.introduction.take() else {
            return Ok(());
        };
        if let Some((from, _)) = ends {
            let balancer = mem::replace(&mut self.address, from.to_string().into());
            self.audit.teller.come_by(self.address.clone(), balancer);
        }
        let settings = means.settings;
        let asked = self.introduce(ends, &settings.options);
        if let Some(gate) = &mut self.gate {
            gate.held[Side::Client as usize].extend_from_slice(&bytes[length..]);
        }
        let asked = asked.and_then(|()| self.ask(0, Some(socket), settings));
        asked.map_err(|why| why.to_string())
    }

    /// Has the server be told whose connection it is, where it is to be.
    fn introduce(&mut self, ends: Option<Ends>, options: &Options) -> io::Result<()> {
        let Some(version) = options.proxy_to else {
            return Ok(());
        };
        let ends = match ends {
            Some(ends) => ends,
            None => (
                self.wires.client.peer_addr()?,
                self.wires.client.local_addr()?,
            ),
        };
        // It is passed on before all that the client says, and isn't read.
        let way = &mut self.ways[Side::Client as usize];
        way.bytes = proxy_header::header(ends, version);
        way.fed = way.bytes.len();
        Ok(())
    }

    /// Asks the server at its addresses from this one on, at the first of them by this socket.
    fn ask(
        &mut self,
        from: usize,
        mut socket: Option<OwnedFd>,
        settings: &Settings,
    ) -> io::Result<()> {
        let mut why = ErrorKind::AddrNotAvailable.into();
        // Its descriptor may be the only one that is left.
        self.wires.server = None;
        self.waits[1] = 0;
        for (number, address) in settings.upstream.iter().enumerate().skip(from) {
            let opened = socket.take().map_or_else(|| open_socket(*address), Ok);
            match opened.and_then(|socket| begin_to_connect(socket, *address)) {
                Ok(stream) => {
                    (self.wires.server, self.asks) = (Some(stream), Some(number));
                    return Ok(());
                }
                Err(error) => why = error,
            }
        }
        Err(why)
    }

    fn refused(&self) -> Refused<'_> {
        Refused {
            number: self.number,
            address: &self.address,
            client: &self.wires.client,
            format: self.audit.teller.telling.format,
            lines: self.lines.clone(),
        }
    }

    /// Goes on where a side is ready in this way. Says whether it goes on behind that.
    pub fn ready(&mut self, side: Side, bits: u32, means: &mut Means) -> bool {
        self.last = means.now;
        self.audit.teller.came_at = Some(means.now);
        if self.introduction.is_some() {
            let heard = self.hear(means);
            return heard
                .map_err(|why| self.refused().unintroduced(&why))
                .is_ok();
        }
        if let Some(number) = self.asks {
            return self.answered(number, means.settings);
        }
        if bits & EPOLLOUT != 0 {
            self.wires.flush(side);
        }
        if bits & !EPOLLOUT != 0 && self.reads(side) {
            self.read(side, means);
        }
        loop {
            let went = self.log_in(means);
            self.go_on(means);
            if !went || self.audit.is_cut() {
                break;
            }
        }
        self.count(means);
        if self.audit.is_cut() {
            self.audit.close(side);
            return false;
        }
        if self.wires.has_lost() {
            self.lost.get_or_insert(means.now);
        }
        !self.ways.iter().all(|way| way.shut)
    }

    /// The server answered, or it refused.
    fn answered(&mut self, number: usize, settings: &Settings) -> bool {
        let Some(server) = &self.wires.server else {
            return false;
        };
        let refused = match server.take_error() {
            Ok(None) => set_up(server, settings.options.keepalive).err(),
            Ok(error) => error,
            Err(error) => Some(error),
        };
        self.asks = None;
        match refused.map(|why| (self.ask(number + 1, None, settings), why)) {
            None | Some((Ok(()), _)) => true,
            Some((Err(_), why)) => {
                self.refused().unreached(&why.to_string());
                false
            }
        }
    }

    /// Whether bytes of a side are taken from its socket.
    fn reads(&self, side: Side) -> bool {
        let way = &self.ways[side as usize];
        let waits = || self.gate.as_ref().is_some_and(|gate| !gate.reads(side));
        let is_due = way.bytes.is_empty() && !waits();
        !way.ended && (is_due || self.wires.has_to_read(side))
    }

    /// What is waited for of a side's socket.
    fn wants(&self, side: Side, is_strict: bool) -> u32 {
        if self.introduction.is_some() {
            return if side == Side::Client { EPOLLIN } else { 0 };
        }
        if self.asks.is_some() {
            return if side == Side::Server { EPOLLOUT } else { 0 };
        }
        let reads = if self.reads(side) { EPOLLIN } else { 0 };
        let waiting = &self.ways[side.other() as usize];
        let is_strict = is_strict || self.audit.guards;
        let goes = waiting.passed < waiting.bytes.len() && self.wires.takes(side);
        let goes = goes && (!is_strict || waiting.passed < self.can_go(side.other(), waiting.fed));
        match goes || self.wires.is_pending(side) {
            true => reads | EPOLLOUT,
            false => reads,
        }
    }

    /// Has the loop wait for what this waits for.
    pub fn wait(&mut self, poll: &Poll, slot: usize, is_strict: bool) -> io::Result<()> {
        for side in SIDES {
            let (bits, at) = (self.wants(side, is_strict), side as usize);
            if bits != self.waits[at] {
                let file = self.wires.stream(side)?.as_raw_fd();
                poll.change(file, (slot << 1 | at) as u64, self.waits[at], bits)?;
                self.waits[at] = bits;
            }
        }
        Ok(())
    }

    /// Takes what came of a side, and passes it on as far as it goes.
    fn read(&mut self, side: Side, means: &mut Means) {
        let piece = mem::take(&mut means.piece);
        match self.wires.read(side, piece) {
            Ok(Came { count, has_ended }) => {
                self.lines.counts().take_bytes(side, count);
                if count > 0 {
                    self.take(side, &piece[..count], means);
                }
                self.ways[side as usize].ended |= has_ended;
            }
            Err(why) => self.fail_tls(side, &why),
        }
        means.piece = piece;
    }

    fn take(&mut self, side: Side, piece: &[u8], means: &mut Means) {
        if let Some(gate) = &mut self.gate {
            gate.held[side as usize].extend_from_slice(piece);
            return;
        }
        let (mut passed, mut fed) = (0, 0);
        self.pass(side, piece, &mut passed, &mut fed, means);
        let (way, done) = (&mut self.ways[side as usize], passed.min(fed));
        if done < piece.len() && !way.shut {
            way.bytes = means.spare.pop().unwrap_or_default();
            way.bytes.extend_from_slice(&piece[done..]);
            (way.passed, way.fed) = (passed - done, fed - done);
        }
    }

    /// Passes bytes of a side on, and has them read. With `--strict` they are read before.
    fn pass(
        &mut self,
        side: Side,
        bytes: &[u8],
        passed: &mut usize,
        fed: &mut usize,
        means: &mut Means,
    ) {
        let is_strict = means.settings.options.strict || self.audit.guards;
        if is_strict {
            self.feed(side, bytes, fed);
            if means.settings.options.strict {
                means.lines.hand_to(means.shared);
            }
            if let Some((code, why)) = self.audit.refusal.take() {
                let number = bytes.get(*passed + 3).copied().unwrap_or_default();
                self.refuse(number + u8::from(side == Side::Client), code, &why);
            }
            if self.audit.is_cut() {
                return;
            }
        }
        let most = match is_strict {
            true => self.can_go(side, *fed).max(*passed),
            false => bytes.len(),
        };
        let written = self.wires.write(side.other(), &bytes[*passed..most]);
        *passed += *written.as_ref().unwrap_or(&0);
        if !is_strict {
            // What is said is told, also to a side that has gone.
            self.feed(side, bytes, fed);
        }
        if written.is_err() {
            // It takes no more. What it said before still comes of it, and this side is read to its
            // end: that may answer commands that passed.
            self.wires.lose(side.other());
            *passed = most;
        }
    }

    /// How many bytes of a side can go with `--strict`, where so many were taken to be read: what
    /// comes before its turn waits.
    fn can_go(&self, side: Side, fed: usize) -> usize {
        fed.saturating_sub(self.audit.waiting(side))
    }

    fn feed(&mut self, side: Side, bytes: &[u8], fed: &mut usize) {
        while *fed < bytes.len() && !self.audit.is_cut() {
            let end = bytes.len().min(*fed + SLICE);
            match self.skipping.feed(&mut self.audit, side, &bytes[*fed..end]) {
                0 => break,
                count => *fed += count,
            }
            self.peak = self.peak.max(self.held());
        }
    }

    /// Goes on with what waits, and with ends of sides.
    fn go_on(&mut self, means: &mut Means) {
        while SIDES.iter().any(|side| self.go_on_with(*side, means)) {
            if self.audit.is_cut() {
                break;
            }
        }
    }

    /// Goes on with what waits of a side. Says whether something went.
    fn go_on_with(&mut self, side: Side, means: &mut Means) -> bool {
        let at = side as usize;
        let Way { passed, fed, .. } = self.ways[at];
        let (mut now_passed, mut now_fed) = (passed, fed);
        if !self.ways[at].bytes.is_empty() {
            let mut bytes = mem::take(&mut self.ways[at].bytes);
            self.pass(side, &bytes, &mut now_passed, &mut now_fed, means);
            let (way, done) = (&mut self.ways[at], now_passed.min(now_fed));
            bytes.drain(..done);
            (way.passed, way.fed) = (now_passed - done, now_fed - done);
            match bytes.is_empty() || way.shut {
                true => keep(means.spare, bytes),
                false => way.bytes = bytes,
            }
        }
        let is_held = self.gate.as_ref().is_some_and(|it| !it.held[at].is_empty());
        let way = &mut self.ways[at];
        let ends = way.ended && way.bytes.is_empty() && !way.shut && !is_held;
        if ends {
            way.shut = true;
            if side == Side::Server {
                self.unanswered = self.unread();
            }
            self.skipping.close(&mut self.audit, side);
            self.audit.close(side);
            self.wires.shut(side.other());
        }
        ends || (passed, fed) != (now_passed, now_fed)
    }

    /// How many bytes are held of it to be read.
    fn held(&self) -> usize {
        let recorded = self.audit.recording.as_ref().map_or(0, |it| it.held());
        self.audit.connection.held() + self.skipping.held() + recorded
    }

    /// How many bytes are held of it to be sent.
    fn waiting(&self) -> usize {
        let ways: usize = self.ways.iter().map(|way| way.bytes.capacity()).sum();
        ways + self.wires.held() + self.gate.as_ref().map_or(0, |it| it.size())
    }

    /// Counts what it holds for what all hold. Where that is too much, no more is read of it.
    fn count(&mut self, means: &Means) {
        let shared = means.shared;
        if self.peak > RENEWED && self.audit.renew(self.limits) {
            self.peak = 0;
        }
        // What is held now was counted when it was read.
        let held = self.waiting() + self.peak;
        let before = mem::replace(&mut self.counted, held);
        if held == before {
            return;
        }
        let all = shared.held.fetch_add(held, Ordering::Relaxed) + held - before;
        shared.held.fetch_sub(before, Ordering::Relaxed);
        if held < before || held <= SMALL {
            return;
        }
        if all > means.settings.options.held_in_all {
            self.audit.give_up(&"all connections hold too much");
        } else if held > LOGIN_MOST && self.audit.stage() == Stage::Login {
            self.audit.give_up(&"a login is too long");
        }
    }

    /// Why it has to end by now: no word where that isn't told.
    pub fn overdue(&self, now: Instant, options: &Options) -> Option<&'static str> {
        let idle = now.saturating_duration_since(self.last);
        let is_asking = self.introduction.is_some() || self.asks.is_some();
        let is_new = is_asking || self.audit.stage() == Stage::Login;
        let age = now.saturating_duration_since(self.began);
        let is_past = |time: Duration, most: Duration| !most.is_zero() && time >= most;
        if is_new && is_past(age, options.login_timeout) {
            Some("login timeout")
        } else if is_past(idle, options.idle_timeout) {
            Some("idle timeout")
        } else if self.ways[Side::Server as usize].shut && idle >= LINGER {
            Some("")
        } else if self
            .lost
            .is_some_and(|lost| now.saturating_duration_since(lost) >= LINGER)
        {
            Some("")
        } else {
            None
        }
    }

    /// Takes settings that hold for open connections, too.
    pub fn change(&mut self, settings: &Settings) {
        let options = &settings.options;
        self.audit.change(options.on_fault);
        self.audit.teller.names = settings.names.clone();
        let audit = &mut self.audit;
        // What passed before stays so until it was read.
        audit.passes_first &= !audit.connection.rest(Side::Client).is_empty();
        audit.passes_first |= self.gate.is_none() && !options.strict && !audit.guards;
        self.audit.teller.telling.secrets = options.secrets;
        self.audit.teller.telling.most = options.longest_text;
    }

    /// Whether it can end without a command or a transaction that is lost.
    pub fn is_between(&self) -> bool {
        let waits = self.ways.iter().any(|way| !way.bytes.is_empty());
        !waits && (self.audit.is_over() || self.audit.stage() == Stage::Between)
    }

    /// Tells its end, by the proxy where that has a word.
    pub fn end(&mut self, how: &str, shared: &Shared) {
        shared
            .held
            .fetch_sub(mem::take(&mut self.counted), Ordering::Relaxed);
        if !how.is_empty() {
            // It ends now, and not when bytes came.
            self.audit.teller.came_at = None;
        }
        if how.is_empty() || self.audit.is_over() {
            self.audit.end(&self.unread());
        } else if self.introduction.is_some() {
            self.refused().unintroduced(how);
        } else if self.asks.is_some() {
            self.refused().unreached(how);
        } else {
            self.audit.stop(how, &self.unread());
        }
    }

    /// What passed of the client and wasn't taken to be read, or not when the server ended.
    fn unread(&self) -> Vec<u8> {
        if !self.unanswered.is_empty() {
            return self.unanswered.clone();
        }
        let way = &self.ways[Side::Client as usize];
        let passed = way.bytes.get(way.fed..way.passed).unwrap_or_default();
        [self.skipping.header(Side::Client), passed].concat()
    }
}
