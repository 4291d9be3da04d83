//! What the lines of a log sum up to. However long a log is, it takes as much memory.

use crate::json::{Fields, Items, Json};
use crate::texts::digest_of;
use mysql_session::Mode;
use std::collections::hash_map::RandomState;
use std::collections::{BTreeMap, HashMap};
use std::hash::BuildHasher;

/// How much of a text is shown.
const SHOWN: usize = 2000;
/// How many users, hosts, errors and the like are told each by itself.
const MOST_NAMES: usize = 2000;
/// How many parts of the time are kept.
const MOST_PARTS: usize = 4096;
/// Classes of times: four for each doubling of a microsecond.
const TIMES: usize = 124;
/// Kinds of lines that have a statement.
const STATEMENTS: [&str; 4] = ["query", "prepare", "execute", "bulk execute"];
/// What is told of all that had no room.
pub const OTHERS: &str = "(others)";

/// A line as far as it is summed up.
#[derive(Default)]
pub struct Line<'a> {
    pub time: String,
    pub kind: String,
    pub text: Option<Json<'a>>,
    digest: Option<Json<'a>>,
    client: String,
    user: String,
    database: String,
    /// The tables that its statement names, where they are told.
    tables: Vec<String>,
    seconds: Option<f64>,
    results: &'a str,
    traffic: [f64; 2],
    /// For how many commands it is one.
    weight: f64,
    length: f64,
    /// How many lines were lost.
    lines: f64,
}

impl<'a> Line<'a> {
    /// Reads a line. None where it is none of a log.
    pub fn read(text: &'a str) -> Option<Line<'a>> {
        let mut line = Line {
            weight: 1.0,
            ..Line::default()
        };
        let mut fields = Fields::new(text);
        for (name, value) in fields.by_ref() {
            match (&*name, value) {
                ("time", value) => line.time = value.text().into_owned(),
                ("kind", value) => line.kind = value.text().into_owned(),
                ("client", value) => line.client = value.text().into_owned(),
                ("user", value) => line.user = value.text().into_owned(),
                ("database", value) => line.database = value.text().into_owned(),
                ("text", value) => line.text = Some(value),
                ("digest", value) => line.digest = Some(value),
                ("tables", Json::List(list)) => {
                    line.tables = Items::new(list).map(|it| it.text().into_owned()).collect();
                }
                ("seconds", Json::Number(seconds)) => line.seconds = Some(seconds),
                ("results", Json::List(list)) => line.results = list,
                ("traffic", Json::List(list)) => {
                    let mut bytes = Items::new(list).map(|it| it.number());
                    line.traffic = [(); 2].map(|()| bytes.next().unwrap_or(0.0));
                }
                ("sample", value) => line.weight = value.number().max(1.0),
                ("length", value) => line.length = value.number(),
                ("lines", value) => line.lines = value.number(),
                _ => {}
            }
        }
        (fields.is_whole && !line.kind.is_empty()).then_some(line)
    }

    fn text(&self) -> String {
        self.text
            .clone()
            .map_or(String::new(), |text| text.text().into_owned())
    }

    /// The digest that the line has, or that of its text. None where it has no statement.
    fn digest(&self) -> Option<String> {
        if let Some(digest) = &self.digest {
            return Some(digest.clone().text().into_owned());
        }
        if !STATEMENTS.contains(&&*self.kind) {
            return None;
        }
        let text = self.text.clone()?.bytes()?;
        let digest = digest_of(&text, Mode::default())?;
        Some(String::from_utf8_lossy(&digest).into_owned())
    }

    /// The address without its port.
    fn host(&self) -> &str {
        let host = self
            .client
            .rsplit_once(':')
            .map_or(&*self.client, |(host, _)| host);
        host.trim_start_matches('[').trim_end_matches(']')
    }

    /// The second since 1970-01-01 in which it was written.
    fn second(&self) -> Option<u64> {
        let part = |at: usize, length: usize| self.time.get(at..at + length)?.parse::<u64>().ok();
        let (year, month, day) = (part(0, 4)?, part(5, 2)?, part(8, 2)?);
        let (hour, minute, second) = (part(11, 2)?, part(14, 2)?, part(17, 2)?);
        // A year begins with March here, so that a leap day is its last.
        let (year, month) = match month {
            3..=12 => (year, month - 3),
            1 | 2 => (year.checked_sub(1)?, month + 9),
            _ => return None,
        };
        let days = 365 * year + year / 4 - year / 100 + year / 400 + (153 * month + 2) / 5 + day;
        Some((days.checked_sub(719_469)?) * 86400 + hour * 3600 + minute * 60 + second)
    }
}

/// What the results of a reply sum up to.
#[derive(Default)]
struct Results {
    rows: f64,
    affected: f64,
    /// Codes, states and messages.
    errors: Vec<(u32, String, String)>,
}

impl Results {
    fn read(list: &str) -> Results {
        let mut all = Results::default();
        for result in Items::new(list) {
            let Json::Object(result) = result else {
                continue;
            };
            let (mut code, mut state, mut message) = (None, String::new(), String::new());
            for (name, value) in Fields::new(result) {
                match &*name {
                    "rows" => all.rows += value.number(),
                    "affected" => all.affected += value.number(),
                    "error" => code = Some(value.number() as u32),
                    "state" => state = value.text().into_owned(),
                    "message" => message = value.text().into_owned(),
                    _ => {}
                }
            }
            all.errors.extend(code.map(|code| (code, state, message)));
        }
        all
    }
}

/// Commands of one kind.
#[derive(Clone)]
pub struct Sum {
    pub count: f64,
    pub seconds: f64,
    pub slowest: f64,
    pub slowest_at: String,
    pub rows: f64,
    pub affected: f64,
    pub errors: f64,
    pub bytes: [f64; 2],
    times: Box<[u32; TIMES]>,
}

impl Default for Sum {
    fn default() -> Sum {
        Sum {
            count: 0.0,
            seconds: 0.0,
            slowest: 0.0,
            slowest_at: String::new(),
            rows: 0.0,
            affected: 0.0,
            errors: 0.0,
            bytes: [0.0; 2],
            times: Box::new([0; TIMES]),
        }
    }
}

impl Sum {
    /// Whether no command that was added took longer.
    fn is_slowest(&self, line: &Line) -> bool {
        line.seconds.unwrap_or(0.0) > self.slowest || self.slowest_at.is_empty()
    }

    fn add(&mut self, line: &Line, results: &Results) {
        let (weight, seconds) = (line.weight, line.seconds.unwrap_or(0.0));
        self.count += weight;
        self.seconds += weight * seconds;
        if self.is_slowest(line) {
            self.slowest = seconds;
            self.slowest_at.clone_from(&line.time);
        }
        self.rows += weight * results.rows;
        self.affected += weight * results.affected;
        self.errors += weight * results.errors.len() as f64;
        for (sum, bytes) in self.bytes.iter_mut().zip(line.traffic) {
            *sum += weight * bytes;
        }
        let class = (4.0 * (1e6 * seconds).max(1.0).log2()).ceil() as usize;
        let count = &mut self.times[class.min(TIMES - 1)];
        *count = count.saturating_add(weight as u32);
    }

    /// The time that so many of hundred commands didn't exceed, to a fifth.
    pub fn percentile(&self, percent: f64) -> f64 {
        let (mut sum, wanted) = (0.0, self.count * percent / 100.0);
        for (class, count) in self.times.iter().enumerate() {
            sum += f64::from(*count);
            if sum >= wanted {
                return self.slowest.min(1e-6 * (class as f64 / 4.0).exp2());
            }
        }
        self.slowest
    }
}

/// A text as far as it is shown.
#[derive(Default)]
pub struct Shown {
    pub text: String,
    /// How many bytes more the text has.
    pub more: usize,
}

impl Shown {
    fn of(text: &str, length: usize) -> Shown {
        let most = SHOWN.min(text.len());
        let shown = (0..=most)
            .rev()
            .find(|at| text.is_char_boundary(*at))
            .unwrap_or(0);
        Shown {
            text: text[..shown].to_string(),
            more: length.max(text.len()) - shown,
        }
    }
}

/// Commands that have one digest, or one text.
pub struct Statement {
    pub kind: String,
    pub shown: Shown,
    /// The text of the slowest one, where examples are asked for.
    pub example: Shown,
    pub sum: Sum,
}

/// How statements are told apart and shown.
#[derive(Clone, Copy)]
pub struct Manner {
    /// How many of them are counted each by itself.
    pub most: usize,
    /// Whether they are the same where their whole texts are, not their digests.
    pub by_text: bool,
    /// Whether the text of the slowest one is shown, too.
    pub examples: bool,
}

/// A part of the time.
#[derive(Clone, Copy, Default)]
pub struct Part {
    pub count: f64,
    pub errors: f64,
    pub seconds: f64,
    pub slowest: f64,
}

/// What was told several times.
#[derive(Default)]
pub struct Times {
    pub count: f64,
    pub first: String,
    pub last: String,
    /// One of them.
    pub text: String,
}

pub struct Sums {
    manner: Manner,
    hashers: [RandomState; 2],
    statements: HashMap<(u64, u64), Statement>,
    pub others: Statement,
    pub all: Sum,
    pub users: BTreeMap<String, Sum>,
    pub hosts: BTreeMap<String, Sum>,
    pub databases: BTreeMap<String, Sum>,
    pub tables: BTreeMap<String, Sum>,
    /// By code and state.
    pub errors: BTreeMap<String, Times>,
    /// How connections ended, logins, and what wasn't read.
    pub ends: BTreeMap<String, Times>,
    pub logins: Times,
    pub gaps: BTreeMap<String, Times>,
    /// The seconds of a part of the time, and the parts by their number.
    pub width: u64,
    pub parts: BTreeMap<u64, Part>,
    pub first: String,
    pub last: String,
    pub lines: u64,
    /// Lines that aren't of a log.
    pub unread: u64,
    pub is_sample: bool,
}

/// What is told of a name: of another one where there are too many.
fn at<'a, T: Default>(names: &'a mut BTreeMap<String, T>, name: &str) -> &'a mut T {
    let is_full = names.len() >= MOST_NAMES && !names.contains_key(name);
    names
        .entry(if is_full { OTHERS } else { name }.to_string())
        .or_default()
}

impl Times {
    fn add(&mut self, line: &Line, count: f64, text: &str) {
        self.count += count;
        if self.first.is_empty() {
            self.first.clone_from(&line.time);
            self.text = text.to_string();
        }
        self.last.clone_from(&line.time);
    }
}

impl Statement {
    fn new(kind: &str, shown: Shown) -> Statement {
        Statement {
            kind: kind.to_string(),
            shown,
            example: Shown::default(),
            sum: Sum::default(),
        }
    }
}

impl Sums {
    pub fn new(manner: Manner) -> Sums {
        Sums {
            manner,
            hashers: [RandomState::new(), RandomState::new()],
            statements: HashMap::new(),
            others: Statement::new("", Shown::of(OTHERS, 0)),
            all: Sum::default(),
            users: BTreeMap::new(),
            hosts: BTreeMap::new(),
            databases: BTreeMap::new(),
            tables: BTreeMap::new(),
            errors: BTreeMap::new(),
            ends: BTreeMap::new(),
            logins: Times::default(),
            gaps: BTreeMap::new(),
            width: 1,
            parts: BTreeMap::new(),
            first: String::new(),
            last: String::new(),
            lines: 0,
            unread: 0,
            is_sample: false,
        }
    }

    /// Takes a line of a log, or counts one that is none.
    pub fn take(&mut self, text: &[u8]) {
        self.lines += 1;
        match std::str::from_utf8(text).ok().and_then(Line::read) {
            Some(line) => self.add(&line),
            None => self.unread += 1,
        }
    }

    fn add(&mut self, line: &Line) {
        if self.first.is_empty() || line.time < self.first {
            self.first.clone_from(&line.time);
        }
        if line.time > self.last {
            self.last.clone_from(&line.time);
        }
        self.is_sample |= line.weight > 1.0;
        match &*line.kind {
            "end" => at(&mut self.ends, &line.text()).add(line, 1.0, ""),
            "cut" | "unread" | "refused" | "skipped" | "lost" => self.add_gap(line),
            kind => {
                let results = Results::read(line.results);
                for (code, state, message) in &results.errors {
                    let times = at(&mut self.errors, &format!("{code} ({state})"));
                    times.add(line, line.weight, message);
                }
                match kind {
                    "login" => self.logins.add(line, 1.0, ""),
                    // The server's last words are an error, and no command.
                    "farewell" => {}
                    _ => self.add_command(line, &results),
                }
            }
        }
    }

    /// Notes what wasn't audited, or what was refused.
    fn add_gap(&mut self, line: &Line) {
        let text = line.text();
        // Numbers of bytes are no part of a reason.
        let reason = text.rsplit_once(": ").map_or(&*text, |(_, reason)| reason);
        let name = match reason {
            "" => line.kind.clone(),
            reason => format!("{}: {reason}", line.kind),
        };
        at(&mut self.gaps, &name).add(line, line.lines.max(1.0), &text);
    }

    fn add_command(&mut self, line: &Line, results: &Results) {
        self.add_statement(line, results);
        self.all.add(line, results);
        at(&mut self.users, &line.user).add(line, results);
        at(&mut self.hosts, line.host()).add(line, results);
        at(&mut self.databases, &line.database).add(line, results);
        for table in &line.tables {
            at(&mut self.tables, table).add(line, results);
        }
        let Some(second) = line.second() else {
            return;
        };
        let part = self.parts.entry(second / self.width).or_default();
        let seconds = line.seconds.unwrap_or(0.0);
        part.count += line.weight;
        part.errors += line.weight * results.errors.len() as f64;
        part.seconds += line.weight * seconds;
        part.slowest = part.slowest.max(seconds);
        while self.parts.len() > MOST_PARTS {
            self.widen();
        }
    }

    /// Adds a command to those of its digest, or of its text.
    fn add_statement(&mut self, line: &Line, results: &Results) {
        let digest = (!self.manner.by_text).then(|| line.digest()).flatten();
        // The whole text is longer than what a line of a long payload has.
        let length = if digest.is_none() { line.length } else { 0.0 };
        let name = digest.unwrap_or_else(|| line.text());
        let examples = self.manner.examples;
        let statement = self.statement(&line.kind, &name, length);
        if examples && statement.sum.is_slowest(line) {
            statement.example = Shown::of(&line.text(), line.length as usize);
        }
        statement.sum.add(line, results);
    }

    /// The commands of a name. Such that had no room are one.
    fn statement(&mut self, kind: &str, name: &str, length: f64) -> &mut Statement {
        let key = (kind, name, length.to_bits());
        let [first, second] = [0, 1].map(|it: usize| self.hashers[it].hash_one(key));
        let is_full = self.statements.len() >= self.manner.most;
        if is_full && !self.statements.contains_key(&(first, second)) {
            return &mut self.others;
        }
        let statement = self.statements.entry((first, second));
        statement.or_insert_with(|| Statement::new(kind, Shown::of(name, length as usize)))
    }

    /// Makes the parts of the time twice as long.
    pub fn widen(&mut self) {
        self.width *= 2;
        for (number, part) in std::mem::take(&mut self.parts) {
            let sum = self.parts.entry(number / 2).or_default();
            sum.count += part.count;
            sum.errors += part.errors;
            sum.seconds += part.seconds;
            sum.slowest = sum.slowest.max(part.slowest);
        }
    }

    /// How many texts there are.
    pub fn texts(&self) -> usize {
        self.statements.len()
    }

    /// So many statements, those first that took longest in all, and what the others sum up to.
    pub fn top(&mut self, most: usize) -> Vec<Statement> {
        let mut all: Vec<Statement> = self.statements.drain().map(|(_, it)| it).collect();
        all.sort_by(|one, other| other.sum.seconds.total_cmp(&one.sum.seconds));
        for it in all.drain(most.min(all.len())..) {
            self.others.sum.join(&it.sum);
        }
        all
    }
}

impl Sum {
    fn join(&mut self, other: &Sum) {
        self.count += other.count;
        self.seconds += other.seconds;
        if other.slowest > self.slowest || self.slowest_at.is_empty() {
            self.slowest = other.slowest;
            self.slowest_at.clone_from(&other.slowest_at);
        }
        self.rows += other.rows;
        self.affected += other.affected;
        self.errors += other.errors;
        for (sum, bytes) in self.bytes.iter_mut().zip(other.bytes) {
            *sum += bytes;
        }
        for (sum, count) in self.times.iter_mut().zip(other.times.iter()) {
            *sum = sum.saturating_add(*count);
        }
    }
}

#[cfg(test)]
mod tests {
    use super::{Line, Manner, Sums};

    fn sums(most: usize, by_text: bool) -> Sums {
        Sums::new(Manner {
            most,
            by_text,
            examples: true,
        })
    }

    fn line(second: u32, rest: &str) -> String {
        format!(
            "{{\"time\":\"2026-11-30T10:00:{second:02}.5Z\",\"connection\":1,\"client\":\"[::1]:7\",\
             \"user\":\"ann\",\"database\":\"shop\",{rest}}}"
        )
    }

    #[test]
    fn a_second_is_counted_since_1970() {
        let second = |time: &str| {
            let line = Line {
                time: time.to_string(),
                ..Line::default()
            };
            line.second()
        };
        assert_eq!(Some(0), second("1970-01-01T00:00:00.000000Z"));
        assert_eq!(Some(951_782_400), second("2000-02-29T00:00:00.5Z"));
        assert_eq!(Some(1_796_032_800), second("2026-11-30T10:00:00.5Z"));
        assert_eq!(None, second("2026"));
    }

    #[test]
    fn commands_sum_up() {
        let mut sums = sums(2, true);
        for (second, seconds) in [(1, "0.5"), (2, "0.25"), (3, "0.001")] {
            let rest = format!(
                "\"kind\":\"query\",\"tables\":[\"a\",\"b\"],\"text\":\"SELECT 1\",\"results\":[{{\"rows\":3}}],\
                 \"whole\":true,\"seconds\":{seconds},\"traffic\":[10,20]"
            );
            sums.take(line(second, &rest).as_bytes());
        }
        let failed = "\"kind\":\"query\",\"text\":\"SELECT x\",\"results\":[{\"error\":1054,\"state\":\
                      \"42S22\",\"message\":\"what\"}],\"whole\":true,\"seconds\":0.1,\"sample\":10";
        sums.take(line(4, failed).as_bytes());
        sums.take(
            line(
                5,
                "\"kind\":\"ping\",\"results\":[{\"affected\":0}],\"seconds\":2",
            )
            .as_bytes(),
        );
        sums.take(
            line(
                6,
                "\"kind\":\"cut\",\"text\":\"client, byte 7: TLS begins\"",
            )
            .as_bytes(),
        );
        sums.take(b"no line");
        let last = r#""kind":"farewell","results":[{"error":4031,"state":"HY000"}],"seconds":0"#;
        sums.take(line(7, last).as_bytes());
        assert_eq!(
            (1.0, 1),
            (sums.errors["4031 (HY000)"].count, sums.gaps.len())
        );
        assert_eq!((8, 1, true), (sums.lines, sums.unread, sums.is_sample));
        assert_eq!((14.0, 9.0), (sums.all.count, sums.all.rows));
        assert_eq!(14.0, sums.hosts["::1"].count);
        assert_eq!((3.0, 2), (sums.tables["b"].count, sums.tables.len()));
        assert_eq!(
            (10.0, "what"),
            (
                sums.errors["1054 (42S22)"].count,
                &*sums.errors["1054 (42S22)"].text
            )
        );
        assert_eq!(1.0, sums.gaps["cut: TLS begins"].count);
        // The third text had no room.
        assert_eq!((1.0, 2), (sums.others.sum.count, sums.texts()));
        let top = sums.top(1);
        assert_eq!(("SELECT x", 1.0), (&*top[0].shown.text, top[0].sum.seconds));
        assert_eq!(4.0, sums.others.sum.count);
        assert_eq!(5, sums.parts.len());
    }

    #[test]
    fn statements_are_told_by_their_digest() {
        let mut sums = sums(9, false);
        for (text, seconds) in [
            ("\"text\":\"SELECT 1\"", 1),
            ("\"text\":\"SELECT 1 ;\\n; \"", 1),
            ("\"text\":\"SELECT 'two' -- why\"", 3),
            ("\"digest\":\"select ?\",\"text\":\"anything\"", 2),
            ("\"text\":{\"hex\":\"73ff2031\"}", 1),
        ] {
            let rest = format!("\"kind\":\"query\",{text},\"results\":[],\"seconds\":{seconds}");
            sums.take(line(1, &rest).as_bytes());
        }
        let top = sums.top(9);
        let found: Vec<_> = top
            .iter()
            .map(|it| (&*it.shown.text, it.sum.count))
            .collect();
        assert_eq!(vec![("select ?", 4.0), ("s\u{fffd} ?", 1.0)], found);
        assert_eq!("SELECT 'two' -- why", top[0].example.text);
    }

    #[test]
    fn a_percentile_is_near() {
        let mut sums = sums(9, false);
        for number in 1..=100 {
            let seconds = f64::from(number) / 1000.0;
            let rest = format!("\"kind\":\"ping\",\"results\":[],\"seconds\":{seconds}");
            sums.take(line(1, &rest).as_bytes());
        }
        let found = sums.all.percentile(95.0);
        assert!((0.095..0.114).contains(&found), "{found}");
        assert_eq!(0.1, sums.all.percentile(100.0));
    }

    #[test]
    fn the_time_line_has_a_bound() {
        let mut sums = sums(9, false);
        let count = 10_000;
        for second in (0..count).map(|it| 50 * it) {
            let (day, rest) = (1 + second / 86400, second % 86400);
            let time = format!(
                "{:02}T{:02}:{:02}:{:02}Z",
                day,
                rest / 3600,
                rest / 60 % 60,
                rest % 60
            );
            let text = format!("{{\"time\":\"2026-11-{time}\",\"kind\":\"ping\",\"seconds\":0}}");
            sums.take(text.as_bytes());
        }
        assert!(sums.parts.len() <= super::MOST_PARTS);
        assert_eq!(
            f64::from(count),
            sums.parts.values().map(|it| it.count).sum::<f64>()
        );
        assert_eq!(128, sums.width);
    }
}
