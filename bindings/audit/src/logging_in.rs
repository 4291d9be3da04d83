//! A connection on its way through the login: packets go through the gate, and sides over to TLS.

use crate::audit::Follows;
use crate::gate::{packet, Refusal, Step, LOGIN_MOST, TLS_FAILED};
use crate::passage::{Passage, SIDES};
use crate::refusing::error_payload;
use crate::tls::Contexts;
use crate::way::Means;
use mysql_session::{Login, Phase, Side};
use std::mem;
use std::sync::Arc;

impl Passage {
    /// Goes on with the login by one packet. Says whether something of it is to go.
    pub fn log_in(&mut self, means: &mut Means) -> bool {
        let is_flushed = self.ways.iter().all(|way| way.bytes.is_empty());
        if self.gate.is_none() || !is_flushed || self.wires.shakes() {
            return false;
        }
        let turn = self.audit.connection.turn();
        let (true, Some(turn)) = (self.audit.is_logging_in(), turn) else {
            return self.open_gate(means);
        };
        let taken = self.gate.as_mut().map(|gate| gate.take(turn));
        match taken.unwrap_or(Ok(None)) {
            Ok(Some((side, number, payload))) => self.let_in(side, number, &payload, means),
            Ok(None) => self.end_login(),
            Err(why) => {
                self.audit.cut(&why);
                false
            }
        }
    }

    /// The login is over, or isn't read any more: bytes go as they come.
    fn open_gate(&mut self, means: &Means) -> bool {
        let Some(gate) = self.gate.take() else {
            return false;
        };
        self.audit.insists = self.audit.guards;
        self.audit.passes_first = !means.settings.options.strict && !self.audit.guards;
        if self.audit.follows == Follows::Passes && !gate.is_straight() {
            self.audit.cut(&"the sides have different numbers");
            return false;
        }
        for (way, held) in self.ways.iter_mut().zip(gate.held) {
            way.bytes = held;
        }
        true
    }

    /// Gives up what can't become a packet of the login any more, since a side has ended. What the
    /// server said last goes, and what a client left doesn't.
    fn end_login(&mut self) -> bool {
        let turn = self.audit.connection.turn();
        let Some(gate) = &mut self.gate else {
            return false;
        };
        let mut goes = false;
        for side in SIDES {
            let (at, other) = (side as usize, side.other() as usize);
            let comes = turn == Some(side.other()) && !self.ways[other].ended;
            let is_left = self.ways[at].ended && !comes && !gate.held[at].is_empty();
            if is_left || gate.held[at].len() >= LOGIN_MOST {
                let left = mem::take(&mut gate.held[at]);
                self.audit.feed(side, &left);
                if side == Side::Server {
                    self.ways[at].fed = left.len();
                    self.ways[at].bytes = left;
                }
                goes = true;
            }
        }
        goes
    }

    fn let_in(&mut self, side: Side, number: u8, payload: &[u8], means: &mut Means) -> bool {
        let phase = self.audit.connection.phase();
        let Some(gate) = &mut self.gate else {
            return false;
        };
        let step = match side {
            Side::Server => gate.of_server(payload, phase == Phase::Greeting),
            Side::Client => gate.of_client(payload, phase == Phase::Response),
        };
        let done = step.and_then(|step| match step {
            Step::Pass { read, sent } => self.let_go(side, number, [&read, &sent], means),
            Step::Accept => self.accept(),
            Step::Connect(request) => self.connect(number, payload, &request),
            Step::Answer(answer) => {
                self.answer(number.wrapping_add(1), &answer);
                Ok(())
            }
        });
        if let Err(why) = done {
            if let (Ok(login), Phase::Response) = (Login::read(payload), phase) {
                self.audit.teller.name(login.user, login.database);
            }
            self.refuse_login(side, number, &why);
        }
        !self.audit.is_cut()
    }

    /// Has a payload of a side be read, and another one be sent in its place.
    fn let_go(
        &mut self,
        side: Side,
        number: u8,
        [read, sent]: [&[u8]; 2],
        means: &mut Means,
    ) -> Result<(), Refusal> {
        if side == Side::Client && self.audit.connection.phase() == Phase::Response {
            self.audit.teller.tls = SIDES.map(|side| self.wires.words(side));
        }
        let Some(gate) = &mut self.gate else {
            return Ok(());
        };
        self.audit.guards = gate.has_tls == [true, false];
        let [read_as, sent_as] = gate.count(side, number);
        self.audit.feed(side, &packet(read_as, read));
        if let Some((code, why)) = self.audit.refusal.take() {
            return Err(Refusal(code, why));
        }
        if means.settings.options.strict {
            means.lines.hand_to(means.shared);
        }
        if !self.audit.is_cut() {
            let way = &mut self.ways[side as usize];
            way.bytes = packet(sent_as, sent);
            way.fed = way.bytes.len();
        }
        Ok(())
    }

    /// The client gets what no server said.
    fn answer(&mut self, number: u8, payload: &[u8]) {
        let way = &mut self.ways[Side::Server as usize];
        way.bytes = packet(number, payload);
        way.fed = way.bytes.len();
    }

    fn contexts(&self) -> Result<Arc<Contexts>, Refusal> {
        let contexts = self.gate.as_ref().and_then(|it| it.settings().tls.clone());
        contexts.ok_or_else(|| Refusal(TLS_FAILED, "there is no TLS".to_string()))
    }

    /// The client goes over to TLS.
    fn accept(&mut self) -> Result<(), Refusal> {
        let failed = |why: String| Refusal(TLS_FAILED, why);
        let mut tls = self.contexts()?.accept().map_err(failed)?;
        if let Some(gate) = &mut self.gate {
            tls.take(&gate.secure(Side::Client));
        }
        self.wires.secure(Side::Client, tls).map_err(failed)
    }

    /// The server goes over to TLS, and this login of the client comes again behind that.
    fn connect(&mut self, number: u8, login: &[u8], request: &[u8]) -> Result<(), Refusal> {
        let failed = |why: String| Refusal(TLS_FAILED, format!("the server's TLS: {why}"));
        let mut tls = self.contexts()?.connect(request).map_err(failed)?;
        if let Some(gate) = &mut self.gate {
            gate.put_back(Side::Client, number, login);
            // What it said before isn't TLS, and fails there.
            tls.take(&gate.secure(Side::Server));
        }
        self.wires.secure(Side::Server, tls).map_err(failed)
    }

    /// A handshake failed. The client is told where that is the server's.
    pub fn fail_tls(&mut self, side: Side, why: &str) {
        let why = format!("the {side}'s TLS: {why}");
        let held = self.gate.as_mut().map(|it| mem::take(&mut it.held[0]));
        let Some(held) = held.filter(|held| side == Side::Server && held.len() > 4) else {
            return self.audit.cut(&why);
        };
        if let Ok(login) = Login::read(&held[4..]) {
            self.audit.teller.name(login.user, login.database);
        }
        self.refuse_login(Side::Client, held[3], &Refusal(TLS_FAILED, why));
    }

    /// Refuses a login in place of what this side's packet asks for.
    fn refuse_login(&mut self, side: Side, number: u8, Refusal(code, why): &Refusal) {
        let number = match &self.gate {
            Some(gate) => gate.number_of_refusal(side, number),
            None => number,
        };
        self.refuse(number, *code, why);
        self.audit.cut(why);
    }

    /// Sends the client an error, as far as it takes it. There is no state in a greeting's place.
    pub fn refuse(&mut self, number: u8, code: u16, why: &str) {
        let state = (number > 0).then_some("HY000");
        let error = packet(number, &error_payload(code, state, why));
        // It may be gone already.
        let _ = self.wires.write(Side::Client, &error);
        self.wires.shut(Side::Client);
    }
}
