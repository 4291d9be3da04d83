//! The first thread: it takes clients, hands them to the loops, and reads signals.

use crate::file::{say, Place};
use crate::handing::{tell_systemd, Heir, Own};
use crate::metrics::Stop;
use crate::options::Options;
use crate::shared::{Client, Course, Door, Settings, Shared};
use crate::sys::{open_socket, Poll, Ready, SignalFile, Waker};
use crate::sys::{EPOLLIN, SIGHUP, SIGINT, SIGTERM, SIGUSR1, SIGUSR2};
use std::io::{self, ErrorKind};
use std::mem;
use std::net::{SocketAddr, TcpListener, TcpStream};
use std::os::fd::{AsRawFd, OwnedFd};
use std::sync::atomic::Ordering;
use std::sync::{Arc, Mutex, PoisonError};
use std::thread;
use std::time::{Duration, Instant};

const LISTENER: u64 = 0;
const SIGNALS: u64 = 1;
const HEIR: u64 = 2;
const SETTINGS: u64 = 3;
/// How long it waits where no client can be taken.
const PAUSE: Duration = Duration::from_millis(20);
/// How long the loops have behind the grace.
const AT_LAST: Duration = Duration::from_secs(3);
/// How many clients are taken until signals are read again.
const AT_ONCE: usize = 64;

pub fn door() -> io::Result<Arc<Door>> {
    Ok(Arc::new(Door {
        waker: Waker::new()?,
        clients: Mutex::default(),
    }))
}

/// At most as many clients are served as the settings say, and as there are descriptors for.
pub fn most_of(options: &Options, possible: usize) -> usize {
    let most = options.connections.unwrap_or(possible);
    if most > possible {
        say(&format!(
            "there are descriptors for {possible} connections, not for {most}"
        ));
    }
    most
}

/// What the first thread begins with.
pub struct Post {
    pub own: Own,
    pub listener: TcpListener,
    /// The listener of those who ask for counts, and what has its thread end.
    pub metrics: Option<(TcpListener, Arc<Stop>)>,
    pub signals: SignalFile,
    /// For how many connections there are descriptors.
    pub possible: usize,
}

/// Settings that were read anew, and the log that they name.
type Read = Result<(Settings, Place), String>;

/// The reading of settings in a thread of its own: a file or a name server may have it wait.
struct Reading {
    waker: Arc<Waker>,
    read: Arc<Mutex<Option<Read>>>,
    goes_on: bool,
    /// Whether they are to be read once more.
    is_asked: bool,
}

impl Reading {
    fn new() -> io::Result<Reading> {
        Ok(Reading {
            waker: Arc::new(Waker::new()?),
            read: Arc::default(),
            goes_on: false,
            is_asked: false,
        })
    }

    /// Begins to read what these words name, beside settings of which some stay.
    fn begin(&mut self, words: Vec<String>, old: Arc<Settings>) -> io::Result<()> {
        let (waker, place) = (self.waker.clone(), self.read.clone());
        let named = thread::Builder::new().name("settings".to_string());
        named.spawn(move || {
            let read = read_settings(words, &old.options);
            *place.lock().unwrap_or_else(PoisonError::into_inner) = Some(read);
            waker.wake();
        })?;
        self.goes_on = true;
        Ok(())
    }

    /// What was read, where it is there.
    fn take(&mut self) -> Option<Read> {
        self.waker.sleep_again();
        let read = self
            .read
            .lock()
            .unwrap_or_else(PoisonError::into_inner)
            .take()?;
        self.goes_on = false;
        Some(read)
    }
}

fn read_settings(words: Vec<String>, old: &Options) -> Read {
    let mut options = Options::of(words.into_iter())?;
    for name in options.keep(old) {
        say(&format!("--{name} changes by a USR2 or a new start only"));
    }
    let settings = Settings::of(options)?;
    let place = Place::open(settings.options.log.clone());
    Ok((
        settings,
        place.map_err(|error| format!("the log: {error}"))?,
    ))
}

pub struct Acceptor {
    shared: Arc<Shared>,
    doors: Vec<Arc<Door>>,
    own: Own,
    listener: Option<TcpListener>,
    metrics: Option<(TcpListener, Arc<Stop>)>,
    signals: SignalFile,
    reading: Reading,
    possible: usize,
    /// The most clients that are served.
    most: usize,
    /// A new process, until it is ready.
    heir: Option<Heir>,
    /// By which the server of the next client is asked. It is opened before that is taken, so that
    /// none is taken for whose server no descriptor is left.
    socket: Option<OwnedFd>,
    poll: Poll,
    number: u64,
    /// Whether it was said that no client can be taken.
    is_said: bool,
    paused: bool,
}

impl Acceptor {
    pub fn new(shared: Arc<Shared>, doors: Vec<Arc<Door>>, post: Post) -> io::Result<Acceptor> {
        let (poll, reading) = (Poll::new()?, Reading::new()?);
        poll.change(post.listener.as_raw_fd(), LISTENER, 0, EPOLLIN)?;
        poll.change(post.signals.file(), SIGNALS, 0, EPOLLIN)?;
        poll.change(reading.waker.file(), SETTINGS, 0, EPOLLIN)?;
        Ok(Acceptor {
            most: most_of(&shared.settings().options, post.possible),
            shared,
            doors,
            own: post.own,
            listener: Some(post.listener),
            metrics: post.metrics,
            signals: post.signals,
            reading,
            possible: post.possible,
            heir: None,
            socket: None,
            poll,
            number: 0,
            is_said: false,
            paused: false,
        })
    }

    /// Takes clients, whose numbers are behind this one, until a signal ends that.
    pub fn serve(&mut self, number: u64) -> io::Result<()> {
        self.number = number;
        let mut room = [Ready { bits: 0, token: 0 }; 4];
        loop {
            let most = self.paused.then_some(PAUSE);
            let count = self.poll.wait(&mut room, most).len();
            let is_signal = |event: &Ready| event.token == SIGNALS;
            if room[..count].iter().any(is_signal) && self.read_signals() {
                return Ok(());
            }
            if room[..count].iter().any(|event| event.token == HEIR) && self.is_succeeded() {
                return Ok(());
            }
            self.take_settings();
            if self.paused {
                self.set_paused(false)?;
            } else {
                self.take_clients()?;
            }
        }
    }

    /// Reads the signals that came. Says whether the program is to end.
    fn read_signals(&mut self) -> bool {
        let mut ends = false;
        while let Some(signal) = self.signals.take() {
            match signal {
                SIGHUP => self.read_settings(),
                SIGUSR1 => self.shared.logs().for_each(|log| log.reopen()),
                SIGUSR2 => self.hand_over(),
                SIGINT | SIGTERM => ends = true,
                // A write says that a file takes no more.
                _ => {}
            }
        }
        ends
    }

    /// Has the settings be read anew. Clients are served meanwhile.
    fn read_settings(&mut self) {
        if self.reading.goes_on {
            self.reading.is_asked = true;
            return;
        }
        let (words, old) = (self.own.words.clone(), self.shared.settings());
        if let Err(error) = self.reading.begin(words, old) {
            self.keep_settings(&error.to_string());
        }
    }

    /// Takes settings that were read. Where they can't be taken all stay as they were.
    fn take_settings(&mut self) {
        match self.reading.take() {
            Some(Ok((settings, place))) => self.change_settings(settings, place),
            Some(Err(why)) => self.keep_settings(&why),
            None => return,
        }
        if mem::take(&mut self.reading.is_asked) {
            self.read_settings();
        }
    }

    fn keep_settings(&self, why: &str) {
        say(&format!("the settings stay as they were: {why}"));
        self.shared.logs().for_each(|log| log.reopen());
    }

    fn change_settings(&mut self, settings: Settings, place: Place) {
        self.most = most_of(&settings.options, self.possible);
        // The next server may have an address of another kind.
        self.socket = None;
        self.shared.log.change(&settings.options, place);
        self.shared.alerts.log.iter().for_each(|log| log.reopen());
        self.shared.change(settings);
        self.doors.iter().for_each(|door| door.waker.wake());
        say("the settings were read");
    }

    /// Begins a new process, which takes the listeners once it is ready.
    fn hand_over(&mut self) {
        if self.heir.is_some() || self.listener.is_none() {
            return say("there is a new process already");
        }
        let metrics = self.metrics.as_ref().map(|(listener, _)| listener);
        let listeners = [self.listener.as_ref(), metrics];
        let heir = Heir::begin(&self.own, listeners, &self.shared.settings().options);
        let polled = heir.and_then(|heir| {
            self.poll.change(heir.file(), HEIR, 0, EPOLLIN)?;
            Ok(heir)
        });
        match polled {
            Ok(heir) => self.heir = Some(heir),
            Err(error) => say(&format!("no new process can begin: {error}")),
        }
    }

    /// Whether the new process has the listeners. Where it ended this one goes on.
    fn is_succeeded(&mut self) -> bool {
        let Some(heir) = &mut self.heir else {
            return false;
        };
        match heir.is_ready() {
            Ok(false) => false,
            Ok(true) => {
                if let Some(heir) = self.heir.take() {
                    self.leave();
                    heir.go(self.number);
                    say("a new process takes the clients from now on");
                }
                true
            }
            Err(error) => {
                say(&format!("the new process isn't ready: {error}"));
                self.heir = None;
                false
            }
        }
    }

    /// Leaves listeners and the log's older files to the new process.
    fn leave(&mut self) {
        self.listener = None;
        if let Some((_, stop)) = self.metrics.take() {
            stop.stop();
        }
        self.shared.logs().for_each(|log| log.rotate_no_more());
    }

    /// Waits no more for clients, or again.
    fn set_paused(&mut self, paused: bool) -> io::Result<()> {
        let (from, bits) = if paused { (EPOLLIN, 0) } else { (0, EPOLLIN) };
        if let Some(listener) = &self.listener {
            self.poll
                .change(listener.as_raw_fd(), LISTENER, from, bits)?;
        }
        self.paused = paused;
        Ok(())
    }

    fn take_clients(&mut self) -> io::Result<()> {
        for _ in 0..AT_ONCE {
            match self.next_client() {
                Ok((stream, address)) => {
                    self.is_said = false;
                    self.hand_out(stream, address);
                }
                Err(error) if error.kind() == ErrorKind::WouldBlock => break,
                // The client that was to be taken is gone.
                Err(error) if error.kind() == ErrorKind::ConnectionAborted => continue,
                Err(error) => {
                    if !self.is_said {
                        say(&format!("no client can be taken for now: {error}"));
                        self.is_said = true;
                    }
                    return self.set_paused(true);
                }
            }
        }
        Ok(())
    }

    fn next_client(&mut self) -> io::Result<(TcpStream, SocketAddr)> {
        if self.socket.is_none() {
            let settings = self.shared.settings();
            self.socket = settings
                .upstream
                .first()
                .map(|it| open_socket(*it))
                .transpose()?;
        }
        match &self.listener {
            Some(listener) => listener.accept(),
            None => Err(ErrorKind::WouldBlock.into()),
        }
    }

    /// Hands a client to a loop, which also tells one too many: the log may have a loop wait.
    fn hand_out(&mut self, stream: TcpStream, address: SocketAddr) {
        self.number += 1;
        let is_too_many = self.shared.open.fetch_add(1, Ordering::Relaxed) >= self.most;
        let client = Client {
            number: self.number,
            stream,
            address,
            socket: if is_too_many {
                None
            } else {
                self.socket.take()
            },
        };
        let door = &self.doors[(client.number % self.doors.len() as u64) as usize];
        let waiting = door.clients.lock();
        let mut waiting = waiting.unwrap_or_else(PoisonError::into_inner);
        waiting.push(client);
        door.waker.wake();
    }

    /// Lets what runs end, within the grace. Says whether all lines were written.
    pub fn end(mut self) -> bool {
        if self.listener.take().is_some() {
            // Who connects from now on is refused.
            tell_systemd("STOPPING=1\n");
            if let Some(heir) = self.heir.take() {
                heir.stop();
            }
        }
        let latest = Instant::now() + self.shared.settings().options.grace;
        self.go_over_to(Course::Drains);
        self.wait_for_loops(latest);
        self.go_over_to(Course::Ends);
        if self.shared.loops.load(Ordering::Acquire) > 0 {
            // What they wait for may be the log.
            self.shared.log.give_up();
            self.wait_for_loops(Instant::now() + AT_LAST);
        }
        // However late they have ended, their last lines have some time.
        let latest = latest.max(Instant::now());
        let is_told = self.shared.log.end(latest);
        self.shared.alerts.end(latest.max(Instant::now()));
        is_told
    }

    fn go_over_to(&self, course: Course) {
        self.shared.go_over_to(course);
        self.doors.iter().for_each(|door| door.waker.wake());
    }

    /// Waits until all loops have ended. A second signal has them end all.
    fn wait_for_loops(&mut self, latest: Instant) {
        while self.shared.loops.load(Ordering::Acquire) > 0 && Instant::now() < latest {
            if self.read_signals() {
                self.go_over_to(Course::Ends);
            }
            self.take_settings();
            thread::sleep(PAUSE / 4);
        }
    }
}
