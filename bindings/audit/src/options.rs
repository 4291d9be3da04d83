//! What the command line and a file of settings say.

use crate::audit::OnFault;
use crate::choosing::Choice;
use crate::commands::Telling;
use crate::lines::Format;
use crate::network::Network;
use crate::proxy_header::Version;
use crate::tables::Names;
use crate::tls_settings::TlsOptions;
use mysql_session::{Limits, Mode};
use std::fs;
use std::path::PathBuf;
use std::thread;
use std::time::Duration;

/// What is done where lines can't be written.
#[derive(Clone, Copy, Debug, PartialEq)]
pub enum LogFull {
    /// They are counted, and clients go on.
    Pass,
    Wait,
    Stop,
}

/// Names that have no value on the command line, and yes or no in a file.
const SWITCHES: [&str; 10] = [
    "json",
    "secrets",
    "strict",
    "plain",
    "tls-server-alone",
    "errors",
    "gzip",
    "digests",
    "tables",
    "redact",
];

pub struct Options {
    pub listen: String,
    pub upstream: String,
    pub threads: usize,
    pub json: bool,
    pub secrets: bool,
    pub strict: bool,
    pub plain: bool,
    pub tls: TlsOptions,
    pub on_fault: OnFault,
    pub longest: usize,
    pub longest_text: usize,
    pub held: Option<usize>,
    pub held_in_all: usize,
    pub connections: Option<usize>,
    pub login_timeout: Duration,
    pub idle_timeout: Duration,
    pub keepalive: Duration,
    pub grace: Duration,
    pub proxy_from: Vec<Network>,
    pub proxy_to: Option<Version>,
    pub metrics: Option<String>,
    /// Where what is read of each connection goes.
    pub record: Option<PathBuf>,
    pub log: Option<PathBuf>,
    /// Which lines are written.
    pub choice: Choice,
    /// Which lines are alerts, by rules of which one has to take them.
    pub alerts: Vec<Choice>,
    pub alert_log: Option<PathBuf>,
    pub alert_command: Option<String>,
    pub digests: bool,
    pub tables: bool,
    pub redact: bool,
    /// Of so many commands one is told.
    pub sample: u32,
    pub rotate: u64,
    pub keep: u16,
    pub gzip: bool,
    pub log_full: Option<LogFull>,
    pub log_held: usize,
}

impl Default for Options {
    fn default() -> Options {
        Options {
            listen: String::new(),
            upstream: String::new(),
            threads: thread::available_parallelism().map_or(1, usize::from),
            json: false,
            secrets: false,
            strict: false,
            plain: false,
            tls: TlsOptions::default(),
            on_fault: OnFault::Cut,
            longest: 1 << 26,
            longest_text: 1 << 20,
            held: None,
            held_in_all: 1 << 30,
            connections: None,
            login_timeout: Duration::from_secs(10),
            idle_timeout: Duration::ZERO,
            keepalive: Duration::from_secs(60),
            grace: Duration::from_secs(10),
            proxy_from: Vec::new(),
            proxy_to: None,
            metrics: None,
            record: None,
            log: None,
            choice: Choice::default(),
            alerts: Vec::new(),
            alert_log: None,
            alert_command: None,
            digests: false,
            tables: false,
            redact: false,
            sample: 1,
            rotate: 0,
            keep: 5,
            gzip: false,
            log_full: None,
            log_held: 1 << 24,
        }
    }
}

/// A number of this kind.
pub fn number<T: std::str::FromStr>(value: &str) -> Result<T, String> {
    let refused = |_| format!("{value} is no such number");
    value.parse().map_err(refused)
}

/// No time is longer, so that any can be added to the time that it is.
const MOST_SECONDS: Duration = Duration::from_secs(1_000_000_000);

pub fn seconds(value: &str) -> Result<Duration, String> {
    match Duration::try_from_secs_f64(number(value)?) {
        Ok(seconds) if seconds <= MOST_SECONDS => Ok(seconds),
        _ => Err(format!("{value} are no seconds")),
    }
}

/// A number of this kind that isn't 0.
fn some(value: &str) -> Result<usize, String> {
    match number(value)? {
        0 => Err("with 0 nothing has room".to_string()),
        more => Ok(more),
    }
}

pub fn answer(value: &str) -> Result<bool, String> {
    match value {
        "yes" => Ok(true),
        "no" => Ok(false),
        _ => Err(format!("{value} is neither yes nor no")),
    }
}

impl Options {
    /// What the words say, and a file that they name.
    pub fn of(words: impl Iterator<Item = String>) -> Result<Options, String> {
        let mut options = Options::default();
        let settings = settings_in(words)?;
        for (_, file) in settings.iter().filter(|(name, _)| name == "config") {
            let text = fs::read_to_string(file).map_err(|error| format!("{file}: {error}"))?;
            for (number, line) in (1..).zip(text.lines()) {
                let set = options.set_line(line);
                set.map_err(|why| format!("{file}, line {number}: {why}"))?;
            }
        }
        for (name, value) in settings.iter().filter(|(name, _)| name != "config") {
            let set = options.set(name, value);
            set.map_err(|why| format!("--{name}: {why}"))?;
        }
        if options.listen.is_empty() || options.upstream.is_empty() {
            return Err("there is no LISTEN or no UPSTREAM".to_string());
        }
        let limits = options.limits();
        if limits.held / 2 <= options.longest {
            return Err("--held: it has to be more than twice what --longest is".to_string());
        }
        options.tls.check(&options)?;
        let has_place = options.alert_log.is_some() || options.alert_command.is_some();
        if has_place == options.alerts.is_empty() {
            return Err("--alert goes with --alert-log or --alert-command".to_string());
        }
        Ok(options)
    }

    /// Takes a line of a file.
    fn set_line(&mut self, line: &str) -> Result<(), String> {
        let line = line.trim();
        if line.is_empty() || line.starts_with('#') {
            return Ok(());
        }
        let (name, value) = line.split_once('=').ok_or("it has no `=`")?;
        self.set(name.trim(), value.trim())
    }

    fn set(&mut self, name: &str, value: &str) -> Result<(), String> {
        match name {
            "listen" => self.listen = value.to_string(),
            "upstream" => self.upstream = value.to_string(),
            "threads" => self.threads = number::<usize>(value)?.max(1),
            "on-fault" => {
                self.on_fault = match value {
                    "pass" => OnFault::Pass,
                    "cut" => OnFault::Cut,
                    _ => return Err(format!("{value} is neither pass nor cut")),
                }
            }
            "longest" => self.longest = number(value)?,
            "held" => self.held = Some(number(value)?),
            "held-in-all" => self.held_in_all = number(value)?,
            "connections" => self.connections = Some(some(value)?),
            "login-timeout" => self.login_timeout = seconds(value)?,
            "idle-timeout" => self.idle_timeout = seconds(value)?,
            "keepalive" => self.keepalive = seconds(value)?,
            "grace" => self.grace = seconds(value)?,
            "proxy-from" => self.proxy_from.push(value.parse()?),
            "proxy-to" => {
                self.proxy_to = match value {
                    "v1" => Some(Version::Text),
                    "v2" => Some(Version::Binary),
                    _ => return Err(format!("{value} is neither v1 nor v2")),
                }
            }
            "metrics" => self.metrics = Some(value.to_string()),
            "record" => self.record = Some(value.into()),
            _ => return self.set_tls(name, value),
        }
        Ok(())
    }

    fn set_tls(&mut self, name: &str, value: &str) -> Result<(), String> {
        match name {
            "plain" => self.plain = answer(value)?,
            "tls-client" => self.tls.client = Some(value.parse()?),
            "tls-cert" => self.tls.cert = Some(value.to_string()),
            "tls-key" => self.tls.key = Some(value.to_string()),
            "tls-server" => self.tls.server = value.parse()?,
            "tls-server-alone" => self.tls.alone = answer(value)?,
            "tls-server-ca" => self.tls.server_ca = Some(value.to_string()),
            "tls-server-name" => self.tls.server_name = Some(value.to_string()),
            "tls-key-log" => self.tls.key_log = Some(value.to_string()),
            _ => return self.set_log(name, value),
        }
        Ok(())
    }

    fn set_log(&mut self, name: &str, value: &str) -> Result<(), String> {
        match name {
            "json" => self.json = answer(value)?,
            "secrets" => self.secrets = answer(value)?,
            "strict" => self.strict = answer(value)?,
            "log" => self.log = Some(value.into()),
            "alert" => self.alerts.push(value.parse()?),
            "alert-log" => self.alert_log = Some(value.into()),
            "alert-command" => self.alert_command = Some(value.to_string()),
            "sample" => self.sample = number::<u32>(value)?.max(1),
            "rotate" => self.rotate = number(value)?,
            "keep" => self.keep = number(value)?,
            "gzip" => self.gzip = answer(value)?,
            "digests" => self.digests = answer(value)?,
            "tables" => self.tables = answer(value)?,
            "redact" => self.redact = answer(value)?,
            "longest-text" => self.longest_text = number(value)?,
            "log-held" => self.log_held = some(value)?,
            "log-full" => {
                self.log_full = match value {
                    "pass" => Some(LogFull::Pass),
                    "wait" => Some(LogFull::Wait),
                    "stop" => Some(LogFull::Stop),
                    _ => return Err(format!("{value} is neither pass, wait nor stop")),
                }
            }
            _ => return self.choice.set(name, value),
        }
        Ok(())
    }

    /// All names of tables that filters and rules have.
    pub fn names(&self) -> Names {
        let choices = self.alerts.iter().chain([&self.choice]);
        Names::of(choices.flat_map(|it| &it.tables))
    }

    pub fn telling(&self) -> Telling {
        Telling {
            format: if self.json {
                Format::Json
            } else {
                Format::Text
            },
            secrets: self.secrets,
            digests: self.digests
                || self
                    .alerts
                    .iter()
                    .chain([&self.choice])
                    .any(|it| it.has_digests()),
            tables: self.tables,
            redacts: self.redact,
            most: self.longest_text,
            mode: Mode::default(),
            has_secrets: false,
        }
    }

    /// Whether a server's greeting is changed.
    pub fn changes_greeting(&self) -> bool {
        self.plain || self.tls.changes_greeting()
    }

    pub fn limits(&self) -> Limits {
        Limits {
            client: self.longest,
            server: self.longest,
            held: self.held.unwrap_or(self.longest.saturating_mul(4)),
        }
    }

    /// Takes of others what can't change while the program runs, and names what differed.
    pub fn keep(&mut self, old: &Options) -> Vec<&'static str> {
        let differ = [
            ("listen", self.listen != old.listen),
            ("metrics", self.metrics != old.metrics),
            ("threads", self.threads != old.threads),
            ("json", self.json != old.json),
            ("alert-log", self.alert_log != old.alert_log),
            ("alert-command", self.alert_command != old.alert_command),
        ];
        self.alert_log.clone_from(&old.alert_log);
        self.alert_command.clone_from(&old.alert_command);
        self.listen.clone_from(&old.listen);
        self.metrics.clone_from(&old.metrics);
        (self.threads, self.json) = (old.threads, old.json);
        let names = differ.into_iter().filter(|(_, differs)| *differs);
        names.map(|(name, _)| name).collect()
    }

    pub fn log_full(&self) -> LogFull {
        match (self.log_full, self.strict) {
            (Some(chosen), _) => chosen,
            (None, true) => LogFull::Wait,
            (None, false) => LogFull::Pass,
        }
    }
}

/// Names and values of the command line. The first words without a name are LISTEN and UPSTREAM.
fn settings_in(mut words: impl Iterator<Item = String>) -> Result<Vec<(String, String)>, String> {
    let mut settings = Vec::new();
    let mut places = ["listen", "upstream"].into_iter();
    while let Some(word) = words.next() {
        let Some(named) = word.strip_prefix("--") else {
            let place = places.next().ok_or(format!("{word}: a word too many"))?;
            settings.push((place.to_string(), word));
            continue;
        };
        let (name, value) = match named.split_once('=') {
            Some((name, value)) => (name, value.to_string()),
            None if SWITCHES.contains(&named) => (named, "yes".to_string()),
            None => {
                let value = words.next().ok_or(format!("--{named}: it has no value"))?;
                (named, value)
            }
        };
        settings.push((name.to_string(), value));
    }
    Ok(settings)
}

#[cfg(test)]
mod tests {
    use super::{LogFull, OnFault, Options};
    use std::fs;
    use std::time::Duration;

    fn of(words: &str) -> Result<Options, String> {
        Options::of(words.split(' ').map(str::to_string))
    }

    #[test]
    fn words_go_before_a_file() {
        let file = std::env::temp_dir().join(format!("audit-options-{}", std::process::id()));
        let text =
            "# a comment\nlisten = a:1\n upstream=b:2\njson = yes\ngrace = 0.5\nuser = ann\n";
        fs::write(&file, text).expect("a file");
        let options = of(&format!("--grace=3 --config {}", file.display())).expect("settings");
        assert_eq!(("a:1", "b:2"), (&*options.listen, &*options.upstream));
        assert_eq!(
            (true, Duration::from_secs(3)),
            (options.json, options.grace)
        );
        assert_eq!(vec!["ann"], options.choice.users);
        fs::write(&file, "listen = a:1\nwhat = 2\n").expect("a file");
        let why = of(&format!("--config {}", file.display())).err();
        assert!(why.is_some_and(|why| why.ends_with("line 2: there is no such name")));
        fs::remove_file(&file).expect("the file");
    }

    #[test]
    fn some_settings_stay() {
        let old = of("a:1 b:2 --threads 3").expect("options");
        let mut new = of("c:1 d:2 --threads 3 --json --longest 5").expect("options");
        assert_eq!(vec!["listen", "json"], new.keep(&old));
        assert_eq!(("a:1", "d:2"), (&*new.listen, &*new.upstream));
        assert_eq!((false, 5), (new.json, new.longest));
    }

    #[test]
    fn what_is_unknown_is_refused() {
        for words in [
            "a:1",
            "a:1 b:2 c:3",
            "a:1 b:2 --what 3",
            "a:1 b:2 --grace -1",
            "a:1 b:2 --grace 1e10",
            "a:1 b:2 --held 200 --longest 100",
            "a:1 b:2 --connections 0",
            "a:1 b:2 --log-held 0",
            "a:1 b:2 --alert table=a",
            "a:1 b:2 --alert-log f",
            "a:1 b:2 --alert-log f --alert what=a",
            "a:1 b:2 --alert-log f --alert kind=what",
            "a:1 b:2 --alert-log f --alert ;",
        ] {
            assert!(of(words).is_err(), "{words}");
        }
        for words in [
            "a:1 b:2 --grace",
            "a:1 b:2 --on-fault what",
            "a:1 b:2 --config /",
            "a:1 b:2 --kind what",
            "a:1 b:2 --host what",
            "a:1 b:2 --proxy-to v3",
        ] {
            assert!(of(words).is_err(), "{words}");
        }
    }

    #[test]
    fn strict_waits_for_the_log() {
        let options = of("a:1 b:2 --strict --on-fault pass").expect("options");
        assert_eq!(LogFull::Wait, options.log_full());
        assert!(options.on_fault == OnFault::Pass);
        let options = of("a:1 b:2 --strict --log-full pass").expect("options");
        assert_eq!(LogFull::Pass, options.log_full());
        assert_eq!(LogFull::Pass, of("a:1 b:2").expect("options").log_full());
    }
}
