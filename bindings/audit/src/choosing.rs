//! Which lines are written, and those of a loop on their way to the log.

use crate::counts::{Counts, KINDS};
use crate::lines::{Answer, Format, Heading, Outcome, Sink, Told};
use crate::network::Network;
use crate::options::{answer, seconds, Options};
use crate::shared::Shared;
use crate::texts::digest_of;
use mysql_session::Mode;
use std::cell::{Cell, RefCell};
use std::collections::hash_map::RandomState;
use std::hash::BuildHasher;
use std::net::SocketAddr;
use std::rc::Rc;
use std::str::FromStr;
use std::sync::Arc;
use std::time::Duration;

/// Room for a line isn't kept where it is more.
const SPARE: usize = 1 << 16;

/// Which lines are taken: those that one of each name's words takes.
#[derive(Clone, Default)]
pub struct Choice {
    pub users: Vec<String>,
    databases: Vec<String>,
    hosts: Vec<Network>,
    kinds: Vec<String>,
    /// Digests, and those of statements that were named.
    digests: Vec<Vec<u8>>,
    /// Names in a text, in lower case.
    pub tables: Vec<String>,
    slower: Option<Duration>,
    errors: bool,
    /// How it was said.
    said: String,
}

/// Which lines are written, and which are alerts.
pub struct Filter {
    choice: Choice,
    alerts: Vec<Choice>,
    sample: u32,
}

fn is_among(names: &[String], name: &[u8]) -> bool {
    names.is_empty() || names.iter().any(|it| it.as_bytes() == name)
}

/// A rule: names and values as in a file of settings, with semicolons between them.
impl FromStr for Choice {
    type Err = String;
    fn from_str(rule: &str) -> Result<Choice, String> {
        let mut choice = Choice {
            said: rule.to_string(),
            ..Choice::default()
        };
        for part in rule.split(';') {
            let (name, value) = part.split_once('=').unwrap_or((part, "yes"));
            choice.set(name.trim(), value.trim())?;
        }
        Ok(choice)
    }
}

impl Choice {
    /// Takes a name and its value.
    ///
    /// # Errors
    /// There is no such name or value.
    pub fn set(&mut self, name: &str, value: &str) -> Result<(), String> {
        match name {
            "user" => self.users.push(value.to_string()),
            "database" => self.databases.push(value.to_string()),
            "host" => self.hosts.push(value.parse()?),
            "kind" if KINDS.contains(&value) => self.kinds.push(value.to_string()),
            "kind" => return Err(format!("no line is of the kind {value}")),
            "digest" => {
                self.digests.push(value.as_bytes().to_vec());
                self.digests
                    .extend(digest_of(value.as_bytes(), Mode::default()));
            }
            "table" if value.is_empty() => return Err("it has no name".to_string()),
            "table" => self.tables.push(value.to_ascii_lowercase()),
            "slower" => self.slower = Some(seconds(value)?),
            "errors" => self.errors = answer(value)?,
            _ => return Err("there is no such name".to_string()),
        }
        Ok(())
    }

    /// Whether it goes by digests.
    pub fn has_digests(&self) -> bool {
        !self.digests.is_empty()
    }

    fn takes(&self, heading: &Heading, told: &Told, answer: Option<&Answer>) -> bool {
        is_among(&self.users, heading.user)
            && is_among(&self.databases, heading.database)
            && is_among(&self.kinds, told.kind.as_bytes())
            && self.takes_host(heading.client)
            && self.takes_digest(told)
            && self.takes_table(told)
            && answer.is_none_or(|answer| self.takes_answer(answer))
    }

    /// Whether a line is an alert of this rule.
    fn alerts(&self, heading: &Heading, told: &Told, answer: Option<&Answer>) -> bool {
        let asks_answer = self.errors || self.slower.is_some();
        (answer.is_some() || !asks_answer) && self.takes(heading, told, answer)
    }

    /// What of a text wasn't read may name any table.
    fn takes_table(&self, told: &Told) -> bool {
        let is_cut = || told.fields.iter().any(|(name, _)| *name == "length");
        let is_named = || told.named.iter().any(|name| self.tables.contains(name));
        self.tables.is_empty() || is_named() || is_cut()
    }

    fn takes_host(&self, client: Option<&str>) -> bool {
        let address = || client.and_then(|client| client.parse::<SocketAddr>().ok());
        let is_there = |address: SocketAddr| self.hosts.iter().any(|it| it.has(address.ip()));
        self.hosts.is_empty() || address().is_some_and(is_there)
    }

    fn takes_digest(&self, told: &Told) -> bool {
        let is_wanted = |digest| self.digests.contains(digest);
        self.digests.is_empty() || told.digest.as_ref().is_some_and(is_wanted)
    }

    fn takes_answer(&self, answer: &Answer) -> bool {
        let is_error = |outcome: &Outcome| matches!(outcome, Outcome::Error { .. });
        let fails = || !answer.whole || answer.outcomes.iter().any(is_error);
        match self.slower {
            None => !self.errors || fails(),
            Some(least) => answer.took >= least || self.errors && fails(),
        }
    }
}

impl Filter {
    pub fn of(options: &Options) -> Filter {
        Filter {
            choice: options.choice.clone(),
            alerts: options.alerts.clone(),
            sample: options.sample,
        }
    }

    /// What can't be audited is always told.
    fn takes(&self, heading: &Heading, told: &Told, answer: Option<&Answer>) -> bool {
        let is_told = matches!(told.kind, "cut" | "unread" | "skipped" | "refused");
        is_told || self.choice.takes(heading, told, answer)
    }

    /// The rule by which a line is an alert, where there is one.
    fn rule(&self, heading: &Heading, told: &Told, answer: Option<&Answer>) -> Option<&str> {
        let rule = self
            .alerts
            .iter()
            .find(|rule| rule.alerts(heading, told, answer));
        rule.map(|rule| &*rule.said)
    }
}

/// The lines of a loop's connections, until the log has them.
#[derive(Clone)]
pub struct Lines(Rc<Inner>);

struct Inner {
    filter: RefCell<Filter>,
    lines: RefCell<Vec<u8>>,
    alerts: RefCell<Vec<u8>>,
    /// Room for the next line.
    line: RefCell<String>,
    counts: Arc<Counts>,
    /// By which a sample is taken.
    chance: Cell<u64>,
}

impl Lines {
    pub fn new(filter: Filter, counts: Arc<Counts>) -> Lines {
        Lines(Rc::new(Inner {
            filter: RefCell::new(filter),
            lines: RefCell::default(),
            alerts: RefCell::default(),
            line: RefCell::default(),
            counts,
            // Never 0, behind which no other number comes.
            chance: Cell::new(RandomState::new().hash_one(0) | 1),
        }))
    }

    /// Hands them to the log, and alerts to theirs.
    pub fn hand_to(&self, shared: &Shared) {
        shared.log.take(&mut self.0.lines.borrow_mut());
        shared.alerts.take(&mut self.0.alerts.borrow_mut());
    }

    /// Takes a line that is an alert of this rule.
    fn alert(
        &self,
        rule: &str,
        format: Format,
        heading: &Heading,
        told: &Told,
        answer: Option<&Answer>,
    ) {
        self.0.counts.take_alert();
        let mut line = String::new();
        format.line(&mut line, heading, told, answer);
        format.add(&mut line, "alert", rule);
        let mut alerts = self.0.alerts.borrow_mut();
        alerts.extend_from_slice(line.as_bytes());
        alerts.push(b'\n');
    }

    pub fn change(&self, filter: Filter) {
        *self.0.filter.borrow_mut() = filter;
    }

    pub fn counts(&self) -> &Counts {
        &self.0.counts
    }

    /// Whether a command is one of those that are told, of so many one.
    fn is_drawn(&self, sample: u32) -> bool {
        let mut chance = self.0.chance.get();
        chance ^= chance << 13;
        chance ^= chance >> 7;
        chance ^= chance << 17;
        self.0.chance.set(chance);
        (chance >> 32) % u64::from(sample) == 0
    }
}

impl Sink for Lines {
    fn tell(&mut self, format: Format, heading: &Heading, told: &Told, answer: Option<&Answer>) {
        self.0.counts.tell(told, answer);
        let filter = self.0.filter.borrow();
        if let Some(rule) = filter.rule(heading, told, answer) {
            self.alert(rule, format, heading, told, answer);
        }
        if !filter.takes(heading, told, answer) {
            return;
        }
        let is_command = answer.is_some() && !matches!(told.kind, "login" | "refused" | "farewell");
        let sample = if is_command { filter.sample } else { 1 };
        if sample > 1 && !self.is_drawn(sample) {
            return;
        }
        let heading = Heading { sample, ..*heading };
        self.0.counts.take_line();
        let mut lines = self.0.lines.borrow_mut();
        let mut line = self.0.line.borrow_mut();
        format.line(&mut line, &heading, told, answer);
        lines.extend_from_slice(line.as_bytes());
        lines.push(b'\n');
        line.clear();
        line.shrink_to(SPARE);
    }
}
