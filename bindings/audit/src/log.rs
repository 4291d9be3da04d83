//! Lines on their way to the log. A thread of its own writes them, so that no client waits for a
//! slow file. With `--strict` the loop that has a line writes it.

use crate::file::{say, Asked, LogFile, Manner, Place};
use crate::options::{LogFull, Options};
use std::io;
use std::mem;
use std::path::PathBuf;
use std::process::exit;
use std::sync::atomic::{AtomicBool, Ordering};
use std::sync::{Arc, Condvar, Mutex, MutexGuard, PoisonError};
use std::thread;
use std::time::{Duration, Instant};

/// How long lines may wait for others, with which they are written.
const PAUSE: Duration = Duration::from_millis(2);
/// How long it is waited for room until it is looked whether that is given up.
const GLANCE: Duration = Duration::from_millis(50);
/// How long the last lines have behind the time that they are given.
const AT_LAST: Duration = Duration::from_secs(3);
/// A buffer with more room isn't kept.
const SPARE: usize = 1 << 20;

pub struct Log {
    queue: Mutex<Queue>,
    /// Lines came, or something was asked for.
    comes: Condvar,
    /// There is room again.
    goes: Condvar,
    file: Mutex<LogFile>,
    asked: Arc<Asked>,
    /// Whether the loops write their lines themselves.
    strict: AtomicBool,
    course: Mutex<Course>,
}

/// What is done with lines that have no room.
#[derive(Clone, Copy)]
struct Course {
    full: LogFull,
    /// How many bytes may wait.
    most: usize,
}

impl Course {
    fn of(options: &Options) -> Course {
        Course {
            full: options.log_full(),
            most: options.log_held,
        }
    }
}

fn manner_of(options: &Options) -> Manner {
    Manner {
        format: options.telling().format,
        full: options.log_full(),
        rotate: options.rotate,
        keep: options.keep,
        gzip: options.gzip,
    }
}

#[derive(Default)]
struct Queue {
    lines: Vec<u8>,
    /// Lines that had no room behind these.
    lost: u64,
    ends: bool,
    is_over: bool,
}

fn locked<T>(mutex: &Mutex<T>) -> MutexGuard<'_, T> {
    mutex.lock().unwrap_or_else(PoisonError::into_inner)
}

impl Log {
    pub fn open(options: &Options) -> io::Result<Log> {
        let course = Course::of(options);
        Log::at(
            options.log.clone(),
            manner_of(options),
            course,
            options.strict,
        )
    }

    /// A log of alerts, for which nobody waits.
    pub fn of_alerts(path: PathBuf, options: &Options) -> io::Result<Log> {
        let (full, most) = (LogFull::Pass, options.log_held);
        let manner = Manner {
            full,
            ..manner_of(options)
        };
        Log::at(Some(path), manner, Course { full, most }, false)
    }

    fn at(
        path: Option<PathBuf>,
        manner: Manner,
        course: Course,
        is_strict: bool,
    ) -> io::Result<Log> {
        let asked = Arc::new(Asked::default());
        let file = LogFile::new(Place::open(path)?, manner, asked.clone());
        Ok(Log {
            queue: Mutex::default(),
            comes: Condvar::new(),
            goes: Condvar::new(),
            file: Mutex::new(file),
            asked,
            strict: AtomicBool::new(is_strict),
            course: Mutex::new(course),
        })
    }

    /// Goes over to other settings, with the file that they name.
    pub fn change(&self, options: &Options, place: Place) {
        *locked(&self.course) = Course::of(options);
        self.strict.store(options.strict, Ordering::Relaxed);
        self.asked.change(place, manner_of(options));
        self.reopen();
    }

    /// Takes lines, of which none stay.
    pub fn take(&self, lines: &mut Vec<u8>) {
        if lines.is_empty() {
            return;
        }
        if self.strict.load(Ordering::Relaxed) {
            locked(&self.file).write(lines);
        } else {
            self.line_up(lines);
        }
        lines.clear();
        lines.shrink_to(SPARE);
    }

    fn line_up(&self, lines: &[u8]) {
        let mut queue = locked(&self.queue);
        loop {
            let Course { full, most } = *locked(&self.course);
            if queue.lines.is_empty() || queue.lines.len() + lines.len() <= most {
                break;
            }
            match full {
                LogFull::Wait if !self.asked.gives_up.load(Ordering::Relaxed) => {
                    let waited = self.goes.wait_timeout(queue, GLANCE);
                    queue = waited.unwrap_or_else(PoisonError::into_inner).0;
                }
                LogFull::Stop => {
                    say("the log is written too slowly");
                    exit(1);
                }
                _ => {
                    let lost = lines.iter().filter(|byte| **byte == b'\n').count() as u64;
                    queue.lost += lost;
                    self.asked.lost_in_all.fetch_add(lost, Ordering::Relaxed);
                    return;
                }
            }
        }
        if queue.lines.is_empty() {
            self.comes.notify_one();
        }
        queue.lines.extend_from_slice(lines);
    }

    /// Writes what comes, until it is told to end.
    pub fn run(&self) {
        let mut lines = Vec::new();
        loop {
            let (lost, ends) = self.next(&mut lines);
            let mut file = locked(&self.file);
            file.reopen_if_asked();
            file.write(&lines);
            if lost > 0 || ends && file.lost > 0 {
                file.lost += lost;
                file.write(b"");
            }
            drop(file);
            if ends && lines.is_empty() {
                break;
            }
            if lines.capacity() > SPARE {
                lines = Vec::new();
            }
            lines.clear();
            if !ends {
                thread::sleep(PAUSE);
            }
        }
        locked(&self.queue).is_over = true;
    }

    /// Waits for lines, which it swaps for these, and says how many were lost behind them, and
    /// whether the log ends.
    fn next(&self, lines: &mut Vec<u8>) -> (u64, bool) {
        let mut queue = locked(&self.queue);
        while queue.lines.is_empty() && !queue.ends && !self.asked.reopens.load(Ordering::Relaxed) {
            queue = self
                .comes
                .wait(queue)
                .unwrap_or_else(PoisonError::into_inner);
        }
        mem::swap(&mut queue.lines, lines);
        self.goes.notify_all();
        (mem::take(&mut queue.lost), queue.ends)
    }

    /// Has the file be opened anew.
    pub fn reopen(&self) {
        let _queue = locked(&self.queue);
        self.asked.reopens.store(true, Ordering::Relaxed);
        self.comes.notify_one();
    }

    /// How many lines were lost since the program began.
    pub fn lost_in_all(&self) -> u64 {
        self.asked.lost_in_all.load(Ordering::Relaxed)
    }

    /// How many bytes wait to be written.
    pub fn waiting(&self) -> usize {
        locked(&self.queue).lines.len()
    }

    /// Leaves it to another process to begin other files.
    pub fn rotate_no_more(&self) {
        self.asked.rotates_no_more.store(true, Ordering::Relaxed);
    }

    /// What can't be written isn't tried again.
    pub fn give_up(&self) {
        self.asked.gives_up.store(true, Ordering::Relaxed);
    }

    /// Ends it, once all lines are written. What isn't by this time isn't tried again. Says whether
    /// none were lost at the end.
    pub fn end(&self, latest: Instant) -> bool {
        locked(&self.queue).ends = true;
        self.comes.notify_one();
        while !locked(&self.queue).is_over {
            let now = Instant::now();
            if now >= latest {
                self.give_up();
            }
            if now >= latest + AT_LAST {
                say("the log's last lines couldn't be written");
                return false;
            }
            thread::sleep(PAUSE);
        }
        match locked(&self.file).lost {
            0 => true,
            lost => {
                say(&format!("{lost} lines were lost"));
                false
            }
        }
    }
}
