//! Lines that rules take: a log of their own, and a program that gets them. Neither holds a client.

use crate::file::say;
use crate::log::Log;
use crate::options::Options;
use std::io::{self, Write};
use std::mem;
use std::process::{Child, Command, Stdio};
use std::sync::{Condvar, Mutex, MutexGuard, PoisonError};
use std::thread::{self, sleep};
use std::time::{Duration, Instant};

/// So many bytes of lines wait for the program. Those behind them are lost, and counted.
const MOST: usize = 1 << 20;
/// How long the program may take for the lines that it got.
const PATIENCE: Duration = Duration::from_secs(60);
/// How often it is looked whether it has ended.
const GLANCE: Duration = Duration::from_millis(20);
/// Lines that come within this time are for one run of it.
const PAUSE: Duration = Duration::from_secs(1);
/// How long its last run has behind the time that it is given.
const AT_LAST: Duration = Duration::from_secs(3);

#[derive(Default)]
struct Queue {
    lines: Vec<u8>,
    lost: u64,
    ends: bool,
    is_over: bool,
}

pub struct Alerts {
    pub log: Option<Log>,
    /// The program and its words.
    command: Vec<String>,
    queue: Mutex<Queue>,
    comes: Condvar,
}

impl Alerts {
    pub fn open(options: &Options) -> io::Result<Alerts> {
        let path = options.alert_log.clone();
        let words = options
            .alert_command
            .iter()
            .flat_map(|it| it.split_whitespace());
        Ok(Alerts {
            log: path.map(|path| Log::of_alerts(path, options)).transpose()?,
            command: words.map(str::to_string).collect(),
            queue: Mutex::default(),
            comes: Condvar::new(),
        })
    }

    /// Whether there is a program to run.
    pub fn runs(&self) -> bool {
        !self.command.is_empty()
    }

    fn queue(&self) -> MutexGuard<'_, Queue> {
        self.queue.lock().unwrap_or_else(PoisonError::into_inner)
    }

    /// Takes lines, of which none stay.
    pub fn take(&self, lines: &mut Vec<u8>) {
        if lines.is_empty() {
            return;
        }
        if self.runs() {
            let mut queue = self.queue();
            match queue.lines.is_empty() || queue.lines.len() + lines.len() <= MOST {
                true => queue.lines.extend_from_slice(lines),
                false => queue.lost += lines.iter().filter(|byte| **byte == b'\n').count() as u64,
            }
            self.comes.notify_one();
        }
        match &self.log {
            Some(log) => log.take(lines),
            None => lines.clear(),
        }
    }

    /// Gives the program what comes, until it is told to end.
    pub fn run(&self) {
        loop {
            let (lines, ends) = self.next();
            if !lines.is_empty() {
                self.give(lines, ends);
            }
            if ends {
                break;
            }
            let queue = self.queue();
            // More may come, which goes at once where the end comes.
            drop(
                self.comes
                    .wait_timeout_while(queue, PAUSE, |queue| !queue.ends),
            );
        }
        self.queue().is_over = true;
    }

    fn next(&self) -> (Vec<u8>, bool) {
        let waiting = |queue: &mut Queue| queue.lines.is_empty() && !queue.ends;
        let queue = self.comes.wait_while(self.queue(), waiting);
        let mut queue = queue.unwrap_or_else(PoisonError::into_inner);
        match mem::take(&mut queue.lost) {
            0 => {}
            lost => say(&format!("{lost} alerts had no room and went to no program")),
        }
        (mem::take(&mut queue.lines), queue.ends)
    }

    /// Runs the program with these lines.
    fn give(&self, lines: Vec<u8>, ends: bool) {
        let mut words = self.command.iter();
        let Some(program) = words.next() else {
            return;
        };
        let mut command = Command::new(program);
        command
            .args(words)
            .stdin(Stdio::piped())
            .stdout(Stdio::null());
        let ended = command.spawn().and_then(|mut child| {
            if let Some(mut input) = child.stdin.take() {
                // It may read none of them, and is waited for all the same.
                let writes = move || drop(input.write_all(&lines));
                thread::Builder::new()
                    .name("alert".to_string())
                    .spawn(writes)?;
            }
            wait_for(child, if ends { AT_LAST } else { PATIENCE })
        });
        if let Err(why) = ended {
            say(&format!("the program for alerts: {why}"));
        }
    }

    /// Ends it, once the program had its lines. For the last of them it has some seconds.
    pub fn end(&self, latest: Instant) {
        self.queue().ends = true;
        self.comes.notify_one();
        if let Some(log) = &self.log {
            log.end(latest);
        }
        let latest = Instant::now() + 2 * AT_LAST;
        while self.runs() && !self.queue().is_over && Instant::now() < latest {
            sleep(GLANCE);
        }
    }
}

/// Waits until a program has ended well.
fn wait_for(mut child: Child, most: Duration) -> io::Result<()> {
    let latest = Instant::now() + most;
    loop {
        match child.try_wait()? {
            Some(status) if status.success() => return Ok(()),
            Some(status) => return Err(io::Error::other(status.to_string())),
            None if Instant::now() >= latest => {
                child.kill()?;
                child.wait()?;
                return Err(io::Error::other("it took too long, and was ended"));
            }
            None => sleep(GLANCE),
        }
    }
}
