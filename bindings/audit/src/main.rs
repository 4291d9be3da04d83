//! A proxy before a database that audits what passes it. `help.txt` has its words, and
//! `docs/AUDITING.md` what each of them does.

mod accepting;
mod alerts;
mod audit;
mod choosing;
mod commands;
mod counts;
mod file;
mod gate;
mod handing;
mod lines;
mod log;
mod logging_in;
mod masking;
mod metrics;
mod network;
mod options;
mod passage;
mod plain;
mod proxy_header;
mod recording;
mod refusing;
mod secrecy;
mod serving;
mod shared;
mod skipping;
mod stage;
mod sys;
mod syslog;
mod tables;
mod teller;
mod texts;
#[cfg_attr(not(feature = "tls"), path = "tls_left_out.rs")]
mod tls;
mod tls_settings;
mod unanswered;
mod way;
mod wires;

use accepting::{door, Acceptor, Post};
use alerts::Alerts;
use file::say;
use handing::{tell_ready, Handed, Own};
use log::Log;
use metrics::Stop;
use options::Options;
use serving::Loop;
use shared::{Door, Settings, Shared};
use std::env;
use std::io::{self, Write};
use std::net::TcpListener;
use std::os::fd::AsRawFd;
use std::process::{exit, ExitCode};
use std::sync::Arc;
use std::thread;
use sys::{give_long_blocks_back, let_wait, raise_descriptors, Poll, SignalFile};
use sys::{SIGHUP, SIGINT, SIGTERM, SIGUSR1, SIGUSR2, SIGXFSZ};

const HELP: &str = include_str!("help.txt");
/// Clients that wait until they are taken.
const BACKLOG: i32 = 4096;
/// Descriptors that aren't of connections, beside two for each loop.
const OWN_DESCRIPTORS: u64 = 16;

fn main() -> ExitCode {
    if env::args().skip(1).any(|word| word == "--help") {
        let _ = io::stdout().write_all(HELP.as_bytes());
        return ExitCode::SUCCESS;
    }
    let options = match Options::of(env::args().skip(1)) {
        Ok(options) => options,
        Err(why) => {
            say(&format!("{why}\nmysql-audit --help has all words"));
            return ExitCode::from(2);
        }
    };
    give_long_blocks_back();
    let mut handed = Handed::new(&options);
    match begin(options, &mut handed) {
        Ok(mut acceptor) => {
            let number = handed.take_over();
            tell_ready();
            let served = acceptor.serve(number);
            if let Err(error) = &served {
                say(&format!("no clients can be taken any more: {error}"));
            }
            // Where a loop or the log doesn't end in time, the program does.
            exit(i32::from(!acceptor.end() || served.is_err()));
        }
        Err(why) => {
            say(&why);
            ExitCode::FAILURE
        }
    }
}

/// What went wrong with something, as it is said.
fn said(what: &str) -> impl FnOnce(io::Error) -> String {
    let what = what.to_string();
    move |error| format!("{what}: {error}")
}

/// The listener at an address: the one that was handed over, or a new one.
fn listen(handed: Option<TcpListener>, address: &str) -> Result<TcpListener, String> {
    let listener = handed.map_or_else(|| TcpListener::bind(address), Ok);
    let listener = listener.map_err(said(address))?;
    listener.set_nonblocking(true).map_err(said(address))?;
    Ok(listener)
}

/// Opens the log and the listener, and starts the loops.
fn begin(options: Options, handed: &mut Handed) -> Result<Acceptor, String> {
    let own = Own::new().map_err(said("the program"))?;
    // The threads that are started have the signals blocked, too.
    let taken = [SIGHUP, SIGINT, SIGTERM, SIGUSR1, SIGUSR2, SIGXFSZ];
    let signals = SignalFile::new(&taken).map_err(said("signals"))?;
    let descriptors = raise_descriptors();
    let settings = Settings::of(options)?;
    let options = &settings.options;
    let listener = listen(handed.listener.take(), &options.listen)?;
    let_wait(listener.as_raw_fd(), BACKLOG);
    let asked = options.metrics.as_deref();
    let metrics = asked.map(|address| listen(handed.metrics.take(), address));
    let log = Log::open(options).map_err(said("the log"))?;
    let alerts = Alerts::open(options).map_err(said("the log of alerts"))?;

    let kept = OWN_DESCRIPTORS + 2 * options.threads as u64;
    let each = if options.record.is_some() { 4 } else { 2 };
    let possible = (descriptors.saturating_sub(kept) / each).max(1) as usize;
    let shared = Arc::new(Shared::new(settings, log, alerts));
    let metrics = metrics.transpose()?;
    let metrics = metrics.map(|listener| start_metrics(&shared, listener));
    let metrics = metrics.transpose().map_err(said("the counts"))?;
    let doors = start(&shared).map_err(said("threads"))?;
    let address = listener.local_addr().map_err(said("the listener"))?;
    let post = Post {
        own,
        listener,
        metrics,
        signals,
        possible,
    };
    let acceptor = Acceptor::new(shared, doors, post).map_err(said("the listener"))?;
    say(&format!("listening at {address}"));
    Ok(acceptor)
}

/// Starts the thread that tells the counts.
fn start_metrics(
    shared: &Arc<Shared>,
    listener: TcpListener,
) -> io::Result<(TcpListener, Arc<Stop>)> {
    let address = listener.local_addr()?;
    let (stop, own, shared) = (Stop::new()?, listener.try_clone()?, shared.clone());
    let stopped = stop.clone();
    let named = thread::Builder::new().name("counts".to_string());
    named.spawn(move || metrics::serve(&shared, own, &stopped))?;
    say(&format!("counts at {address}"));
    Ok((listener, stop))
}

/// Starts the loops, and the thread that writes the log.
fn start(shared: &Arc<Shared>) -> io::Result<Vec<Arc<Door>>> {
    let mut doors = Vec::new();
    for (number, counts) in shared.counts.iter().enumerate() {
        // Clients may take all descriptors before the thread begins.
        let (door, poll) = (door()?, Poll::new()?);
        let (counts, shared, own) = (counts.clone(), shared.clone(), door.clone());
        let named = thread::Builder::new().name(format!("loop {number}"));
        named.spawn(move || match Loop::new(shared, counts, own, poll) {
            Ok(serving) => serving.run(),
            Err(error) => {
                say(&format!("a loop can't begin: {error}"));
                exit(1);
            }
        })?;
        doors.push(door);
    }
    start_logs(shared)?;
    Ok(doors)
}

/// Starts what writes lines, and what has alerts told.
fn start_logs(shared: &Arc<Shared>) -> io::Result<()> {
    let named = |name: &str| thread::Builder::new().name(name.to_string());
    let writing = shared.clone();
    named("log").spawn(move || writing.log.run())?;
    if shared.alerts.log.is_some() {
        let writing = shared.clone();
        named("alerts").spawn(move || writing.alerts.log.iter().for_each(|log| log.run()))?;
    }
    if shared.alerts.runs() {
        let telling = shared.clone();
        named("telling").spawn(move || telling.alerts.run())?;
    }
    Ok(())
}
