//! What a loop counts of its connections, and how all of it is told to Prometheus (Prometheus:
//! "Exposition formats"). However much passes, it takes as much memory.

use crate::lines::{Answer, Outcome, Told};
use crate::shared::Shared;
use mysql_session::Side;
use std::borrow::Cow;
use std::collections::BTreeMap;
use std::fmt::{Display, Write};
use std::sync::atomic::{AtomicU64, AtomicUsize, Ordering};
use std::sync::{Mutex, MutexGuard, PoisonError};
use std::time::Duration;

/// The kinds of lines: first those of commands, and those that are frequent first.
pub const KINDS: [&str; 34] = [
    "query",
    "execute",
    "prepare",
    "ping",
    "bulk execute",
    "login",
    "init db",
    "reset connection",
    "change user",
    "fetch",
    "reset",
    "statistics",
    "field list",
    "create db",
    "drop db",
    "refresh",
    "shutdown",
    "process info",
    "process kill",
    "debug",
    "binlog dump",
    "table dump",
    "register replica",
    "set option",
    "clone",
    "command",
    "unknown",
    "refused",
    "farewell",
    "unread",
    "cut",
    "skipped",
    "end",
    "other",
];
/// How many of them are answered: one each for a command.
const ANSWERED: usize = 27;

/// The upper ends of a histogram's classes, in microseconds.
const BOUNDS: [u64; 16] = [
    50, 100, 250, 500, 1_000, 2_500, 5_000, 10_000, 25_000, 50_000, 100_000, 250_000, 500_000,
    1_000_000, 2_500_000, 10_000_000,
];

/// How many different words are counted each by itself.
const MOST_WORDS: usize = 100;
/// So much of a digest is such a word.
const MOST_OF_DIGEST: usize = 200;

/// A number that one thread adds to.
#[derive(Default)]
pub struct Count(AtomicU64);

impl Count {
    pub fn add(&self, more: u64) {
        self.0.fetch_add(more, Ordering::Relaxed);
    }

    pub fn get(&self) -> u64 {
        self.0.load(Ordering::Relaxed)
    }
}

/// How often something was, and how many microseconds it took in all.
#[derive(Clone, Copy, Default)]
struct Tally {
    count: u64,
    micros: u64,
}

impl Tally {
    fn add(&mut self, other: Tally) {
        self.count += other.count;
        self.micros += other.micros;
    }
}

/// Counts by words. Those that have no room are counted together.
#[derive(Default)]
struct ByWord(Mutex<BTreeMap<String, Tally>>);

impl ByWord {
    fn words(&self) -> MutexGuard<'_, BTreeMap<String, Tally>> {
        self.0.lock().unwrap_or_else(PoisonError::into_inner)
    }

    fn add(&self, word: &str) {
        self.add_time(word, Duration::ZERO);
    }

    fn add_time(&self, word: &str, took: Duration) {
        let (count, micros) = (1, took.as_micros() as u64);
        let mut words = self.words();
        let word = match words.len() < MOST_WORDS || words.contains_key(word) {
            true => word,
            false => "other",
        };
        if !words.contains_key(word) {
            words.insert(word.to_string(), Tally::default());
        }
        if let Some(tally) = words.get_mut(word) {
            tally.add(Tally { count, micros });
        }
    }
}

/// The front of a digest, by which it is counted.
fn digest_word(digest: &[u8]) -> Cow<'_, str> {
    String::from_utf8_lossy(&digest[..digest.len().min(MOST_OF_DIGEST)])
}

/// How long commands of a kind took.
#[derive(Default)]
struct Times {
    classes: [Count; BOUNDS.len() + 1],
    micros: Count,
}

impl Times {
    fn add(&self, took: Duration) {
        let micros = took.as_micros() as u64;
        let class = BOUNDS.iter().position(|bound| micros <= *bound);
        self.classes[class.unwrap_or(BOUNDS.len())].add(1);
        self.micros.add(micros);
    }
}

/// What a loop counts.
pub struct Counts {
    pub connections: Count,
    /// The bytes that came of clients and of servers.
    pub bytes: [Count; 2],
    lines: Count,
    alerts: Count,
    times: [Times; ANSWERED],
    others: [Count; KINDS.len()],
    errors: ByWord,
    ends: ByWord,
    /// Why connections can't be read any further.
    faults: ByWord,
    /// Statements that were run, by their digest.
    digests: ByWord,
}

/// The last part of a text that is written already, as the word by which it is counted.
fn last_part(told: &Told) -> &str {
    let text = told.text.as_deref().unwrap_or_default().trim_matches('"');
    text.rsplit_once(": ").map_or(text, |(_, last)| last)
}

impl Default for Counts {
    fn default() -> Counts {
        Counts {
            connections: Count::default(),
            bytes: Default::default(),
            lines: Count::default(),
            alerts: Count::default(),
            times: Default::default(),
            others: [(); KINDS.len()].map(|()| Count::default()),
            errors: ByWord::default(),
            ends: ByWord::default(),
            faults: ByWord::default(),
            digests: ByWord::default(),
        }
    }
}

impl Counts {
    /// Counts what is told, also where no line is written.
    pub fn tell(&self, told: &Told, answer: Option<&Answer>) {
        let kind = KINDS.iter().position(|kind| *kind == told.kind);
        let kind = kind.unwrap_or(KINDS.len() - 1);
        match (self.times.get(kind), answer) {
            (Some(times), Some(answer)) => times.add(answer.took),
            _ => self.others[kind].add(1),
        }
        for outcome in answer.iter().flat_map(|answer| answer.outcomes) {
            if let Outcome::Error { code, .. } = outcome {
                self.errors.add(&code.to_string());
            }
        }
        let runs = matches!(told.kind, "query" | "execute" | "bulk execute");
        if let (Some(digest), Some(answer), true) = (&told.digest, answer, runs) {
            self.digests.add_time(&digest_word(digest), answer.took);
        }
        match told.kind {
            "end" => self.ends.add(last_part(told)),
            "cut" | "unread" => self.faults.add(last_part(told)),
            _ => {}
        }
    }

    pub fn take_line(&self) {
        self.lines.add(1);
    }

    pub fn take_alert(&self) {
        self.alerts.add(1);
    }

    pub fn take_bytes(&self, side: Side, count: usize) {
        self.bytes[side as usize].add(count as u64);
    }
}

/// The sums of what loops counted by words.
fn sums_by_word<'a>(of: impl Iterator<Item = &'a ByWord>) -> BTreeMap<String, Tally> {
    let mut sums: BTreeMap<String, Tally> = BTreeMap::new();
    for words in of {
        for (word, tally) in words.words().iter() {
            sums.entry(word.clone()).or_default().add(*tally);
        }
    }
    sums
}

/// Writes the lines of numbers.
struct Page(String);

impl Page {
    fn begin(&mut self, name: &str, kind: &str, help: &str) {
        let _ = writeln!(self.0, "# HELP mysql_audit_{name} {help}");
        let _ = writeln!(self.0, "# TYPE mysql_audit_{name} {kind}");
    }

    fn number(&mut self, name: &str, kind: &str, help: &str, number: impl Display) {
        self.begin(name, kind, help);
        let _ = writeln!(self.0, "mysql_audit_{name} {number}");
    }

    fn labelled(&mut self, name: &str, label: &str, word: &str, number: impl Display) {
        let word = word
            .replace('\\', "\\\\")
            .replace('"', "\\\"")
            .replace('\n', "\\n");
        let _ = writeln!(self.0, "mysql_audit_{name}{{{label}=\"{word}\"}} {number}");
    }

    /// Writes the sums of what loops counted by words.
    fn words<'a>(
        &mut self,
        name: &str,
        label: &str,
        help: &str,
        of: impl Iterator<Item = &'a ByWord>,
    ) {
        self.begin(name, "counter", help);
        for (word, sum) in sums_by_word(of) {
            self.labelled(name, label, &word, sum.count);
        }
    }

    /// Writes how often statements of each digest were run, and how long that took.
    fn digests(&mut self, loops: &[&Counts]) {
        let sums = sums_by_word(loops.iter().map(|it| &it.digests));
        let (count, time) = ("digest_commands_total", "digest_seconds_total");
        self.begin(
            count,
            "counter",
            "Statements that were run, by their digest.",
        );
        for (digest, sum) in &sums {
            self.labelled(count, "digest", digest, sum.count);
        }
        self.begin(time, "counter", "How long they took, by their digest.");
        for (digest, sum) in &sums {
            let seconds = Duration::from_micros(sum.micros).as_secs_f64();
            self.labelled(time, "digest", digest, seconds);
        }
    }

    /// Writes how long the commands of each kind took.
    fn times(&mut self, loops: &[&Counts]) {
        let name = "command_seconds";
        self.begin(
            name,
            "histogram",
            "From a command's last byte to the last of its reply.",
        );
        for (at, kind) in KINDS[..ANSWERED].iter().enumerate() {
            let class = |class: usize| -> u64 {
                loops
                    .iter()
                    .map(|it| it.times[at].classes[class].get())
                    .sum()
            };
            let mut sum = 0;
            let whole: u64 = (0..=BOUNDS.len()).map(class).sum();
            if whole == 0 {
                continue;
            }
            for (number, bound) in BOUNDS.iter().enumerate() {
                sum += class(number);
                let most = Duration::from_micros(*bound).as_secs_f64();
                let labels = format!("{{kind=\"{kind}\",le=\"{most}\"}}");
                let _ = writeln!(self.0, "mysql_audit_{name}_bucket{labels} {sum}");
            }
            let sum = loops.iter().map(|it| it.times[at].micros.get()).sum();
            let seconds = Duration::from_micros(sum).as_secs_f64();
            let all = format!("{{kind=\"{kind}\",le=\"+Inf\"}}");
            let _ = writeln!(self.0, "mysql_audit_{name}_bucket{all} {whole}");
            let _ = writeln!(
                self.0,
                "mysql_audit_{name}_sum{{kind=\"{kind}\"}} {seconds}"
            );
            let _ = writeln!(
                self.0,
                "mysql_audit_{name}_count{{kind=\"{kind}\"}} {whole}"
            );
        }
    }
}

/// What the loops counted, in all.
fn sum(loops: &[&Counts], of: impl Fn(&Counts) -> &Count) -> u64 {
    loops.iter().map(|it| of(it).get()).sum()
}

impl Page {
    fn connections(&mut self, shared: &Shared, loops: &[&Counts]) {
        let now = |number: &AtomicUsize| number.load(Ordering::Relaxed);
        let taken = sum(loops, |it| &it.connections);
        for (name, kind, help, number) in [
            (
                "connections",
                "gauge",
                "Clients that are served.",
                now(&shared.open) as u64,
            ),
            ("connections_total", "counter", "Clients that came.", taken),
            (
                "held_bytes",
                "gauge",
                "Bytes that wait, or are read.",
                now(&shared.held) as u64,
            ),
        ] {
            self.number(name, kind, help, number);
        }
        self.begin("bytes_total", "counter", "Bytes that came, by the side.");
        for (at, side) in ["client", "server"].into_iter().enumerate() {
            self.labelled("bytes_total", "side", side, sum(loops, |it| &it.bytes[at]));
        }
    }

    fn all_words(&mut self, loops: &[&Counts]) {
        let errors = loops.iter().map(|it| &it.errors);
        self.words(
            "errors_total",
            "code",
            "Errors of servers, by their code.",
            errors,
        );
        let ends = loops.iter().map(|it| &it.ends);
        self.words(
            "ends_total",
            "how",
            "Connections that ended, by how they did.",
            ends,
        );
        let faults = loops.iter().map(|it| &it.faults);
        let help = "Connections that were cut or are passed on unread, by the reason.";
        self.words("unread_total", "why", help, faults);
        self.digests(loops);
    }

    fn log(&mut self, shared: &Shared, loops: &[&Counts]) {
        let name = "lines_told_total";
        self.begin(
            name,
            "counter",
            "What was told without a reply, by its kind.",
        );
        for (at, kind) in KINDS.iter().enumerate() {
            match sum(loops, |it| &it.others[at]) {
                0 => {}
                told => self.labelled(name, "kind", kind, told),
            }
        }
        let (lines, lost) = (sum(loops, |it| &it.lines), shared.log.lost_in_all());
        let waiting = shared.log.waiting() as u64;
        let alerts = sum(loops, |it| &it.alerts);
        for (name, kind, help, number) in [
            ("lines_total", "counter", "Lines for the log.", lines),
            (
                "alerts_total",
                "counter",
                "Lines that a rule takes.",
                alerts,
            ),
            (
                "lines_lost_total",
                "counter",
                "Lines that the log didn't take.",
                lost,
            ),
            (
                "log_waiting_bytes",
                "gauge",
                "Lines that wait for the log.",
                waiting,
            ),
        ] {
            self.number(name, kind, help, number);
        }
    }
}

/// All that is counted, as Prometheus reads it.
pub fn page(shared: &Shared) -> String {
    let loops: Vec<&Counts> = shared.counts.iter().map(|it| &**it).collect();
    let mut page = Page(String::new());
    page.connections(shared, &loops);
    page.times(&loops);
    page.all_words(&loops);
    page.log(shared, &loops);
    page.0
}
