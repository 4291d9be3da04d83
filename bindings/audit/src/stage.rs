//! How far an audited connection is, and its end by the proxy.

use crate::audit::{Audit, Follows};
use crate::choosing::Lines;
use mysql_session::{Connection, Limits, Phase, Reason, Side};

#[derive(Clone, Copy, Debug, PartialEq)]
pub enum Stage {
    /// Nobody is logged in yet.
    Login,
    /// Nothing runs, and no transaction is open.
    Between,
    Within,
    /// It isn't read.
    Unread,
}

impl Audit<Lines> {
    pub fn stage(&self) -> Stage {
        if self.follows != Follows::Reads {
            return Stage::Unread;
        }
        match self.connection.phase() {
            Phase::Command
                if !self.teller.in_transaction && self.connection.rest(Side::Client).is_empty() =>
            {
                Stage::Between
            }
            Phase::Greeting | Phase::Response | Phase::Authentication | Phase::Answer
                if self.teller.commands == 0 =>
            {
                Stage::Login
            }
            _ => Stage::Within,
        }
    }

    /// Whether it was over before its sockets were closed.
    pub fn is_over(&self) -> bool {
        let over = [
            Reason::Quit,
            Reason::Rejected,
            Reason::Denied,
            Reason::Farewell,
        ];
        let is_over = |phase| matches!(phase, Phase::Over(reason) if over.contains(&reason));
        !self.gave_up && is_over(self.connection.phase())
    }

    /// Whether it is read, and a login isn't over.
    pub fn is_logging_in(&self) -> bool {
        self.follows == Follows::Reads && self.connection.phase() != Phase::Command
    }

    /// How many bytes that were taken of a side wait for its turn, which comes no more where the
    /// other side has ended.
    pub fn waiting(&self, side: Side) -> usize {
        let other = side.other();
        let comes = self.connection.turn() == Some(other) && !self.ended.contains(&other);
        match self.follows == Follows::Reads && comes {
            true => self.connection.rest(side).len(),
            false => 0,
        }
    }

    /// Lets the memory go that long payloads took, which a connection keeps for others. That is so
    /// between two commands where nothing of it is kept: a connection behind a login stands alike.
    pub fn renew(&mut self, limits: Limits) -> bool {
        let old = &self.connection;
        let keeps = old.held() > 0 || old.mode().is_some();
        if keeps || self.stage() != Stage::Between {
            return false;
        }
        match Connection::after_login(limits, old.capabilities()) {
            Ok(new) => {
                self.connection = new;
                self.before = self.teller.came;
                true
            }
            Err(_) => false,
        }
    }

    /// Tells the end of a connection that the proxy ends, of whose client this wasn't read.
    pub fn stop(&mut self, how: &str, unread: &[u8]) {
        self.finish_command(false);
        self.tell_unanswered(unread);
        self.teller.end(&"proxy", how);
    }
}
