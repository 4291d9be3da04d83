//! A loop: one thread that serves many connections, each when it is ready.

use crate::choosing::{Filter, Lines};
use crate::counts::Counts;
use crate::passage::{Passage, SIDES};
use crate::shared::{Course, Door, Settings, Shared};
use crate::sys::{Poll, Ready, EPOLLIN};
use crate::way::Means;
use std::io;
use std::mem;
use std::sync::atomic::Ordering;
use std::sync::{Arc, PoisonError};
use std::time::{Duration, Instant};

/// The token of what wakes a loop.
const DOOR: u64 = u64::MAX;
const PIECE: usize = 1 << 16;
const MOST_EVENTS: usize = 256;

pub struct Loop {
    shared: Arc<Shared>,
    settings: Arc<Settings>,
    /// How often they had changed when they were taken.
    version: usize,
    door: Arc<Door>,
    poll: Poll,
    lines: Lines,
    passages: Vec<Option<Box<Passage>>>,
    /// Places of `passages` that are free.
    free: Vec<usize>,
    spare: Vec<Vec<u8>>,
    piece: Vec<u8>,
    /// How often it is looked for what is overdue, and when it was.
    period: Duration,
    looked: Instant,
}

impl Loop {
    pub fn new(
        shared: Arc<Shared>,
        counts: Arc<Counts>,
        door: Arc<Door>,
        poll: Poll,
    ) -> io::Result<Loop> {
        poll.change(door.waker.file(), DOOR, 0, EPOLLIN)?;
        let (version, settings) = (shared.version(), shared.settings());
        Ok(Loop {
            lines: Lines::new(Filter::of(&settings.options), counts),
            period: period_of(&settings),
            shared,
            settings,
            version,
            door,
            poll,
            passages: Vec::new(),
            free: Vec::new(),
            spare: Vec::new(),
            piece: vec![0; PIECE],
            looked: Instant::now(),
        })
    }

    /// Serves until it is told to end, and nothing is left.
    pub fn run(mut self) {
        let mut room = vec![Ready { bits: 0, token: 0 }; MOST_EVENTS];
        loop {
            let most = (!self.is_empty()).then_some(self.period);
            let count = self.poll.wait(&mut room, most).len();
            let now = Instant::now();
            self.take_settings();
            let is_door = |event: &&Ready| event.token == DOOR;
            for event in room[..count].iter().filter(|event| !is_door(event)) {
                self.go_on(*event, now);
            }
            // A new client may take the place of one that has ended, of whom events are left above.
            if room[..count].iter().any(|event| is_door(&event)) {
                self.door.waker.sleep_again();
                self.take_clients();
            }
            self.end_overdue(now);
            self.lines.hand_to(&self.shared);
            if self.is_empty() && self.shared.course() != Course::Serves {
                break;
            }
        }
        self.shared.loops.fetch_sub(1, Ordering::AcqRel);
    }

    /// Takes the settings where they have changed.
    fn take_settings(&mut self) {
        let version = self.shared.version();
        if version == self.version {
            return;
        }
        (self.version, self.settings) = (version, self.shared.settings());
        self.period = period_of(&self.settings);
        self.lines.change(Filter::of(&self.settings.options));
        for passage in self.passages.iter_mut().flatten() {
            passage.change(&self.settings);
        }
    }

    fn is_empty(&self) -> bool {
        self.free.len() == self.passages.len()
    }

    fn go_on(&mut self, event: Ready, now: Instant) {
        let (bits, token) = (event.bits, event.token);
        let slot = (token >> 1) as usize;
        let side = SIDES[(token & 1) as usize];
        let Some(Some(passage)) = self.passages.get_mut(slot) else {
            return;
        };
        let mut means = Means {
            shared: &self.shared,
            settings: &self.settings,
            lines: &self.lines,
            piece: &mut self.piece,
            spare: &mut self.spare,
            now,
        };
        let is_strict = self.settings.options.strict;
        if !passage.ready(side, bits, &mut means)
            || passage.wait(&self.poll, slot, is_strict).is_err()
        {
            self.end(slot, "");
        }
    }

    /// Takes the clients that were handed to this loop.
    fn take_clients(&mut self) {
        let waiting = &self.door.clients;
        let clients = mem::take(&mut *waiting.lock().unwrap_or_else(PoisonError::into_inner));
        for client in clients {
            let Some(passage) = Passage::new(client, self.lines.clone(), &self.settings) else {
                self.shared.open.fetch_sub(1, Ordering::Relaxed);
                continue;
            };
            let slot = self.free.pop().unwrap_or(self.passages.len());
            if slot == self.passages.len() {
                self.passages.push(None);
            }
            let passage = self.passages[slot].insert(Box::new(passage));
            let is_strict = self.settings.options.strict;
            if let Err(error) = passage.wait(&self.poll, slot, is_strict) {
                self.end(slot, &error.to_string());
            }
        }
    }

    /// Ends what has to end by now.
    fn end_overdue(&mut self, now: Instant) {
        let course = self.shared.course();
        if course == Course::Serves && now.saturating_duration_since(self.looked) < self.period {
            return;
        }
        self.looked = now;
        for slot in 0..self.passages.len() {
            let Some(passage) = &self.passages[slot] else {
                continue;
            };
            let stops = course == Course::Ends || course == Course::Drains && passage.is_between();
            let why = if stops {
                Some("stopped")
            } else {
                passage.overdue(now, &self.settings.options)
            };
            if let Some(why) = why {
                self.end(slot, why);
            }
        }
    }

    fn end(&mut self, slot: usize, how: &str) {
        if let Some(mut passage) = self.passages[slot].take() {
            passage.end(how, &self.shared);
            self.free.push(slot);
            self.shared.open.fetch_sub(1, Ordering::Relaxed);
        }
    }
}

/// How often it is looked for what is overdue.
fn period_of(settings: &Settings) -> Duration {
    let timeouts = [
        settings.options.login_timeout,
        settings.options.idle_timeout,
    ];
    let timeouts = timeouts.into_iter().filter(|timeout| !timeout.is_zero());
    let period = timeouts.fold(Duration::from_secs(4), Duration::min);
    (period / 4).max(Duration::from_millis(5))
}
