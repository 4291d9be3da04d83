//! What all loops share.

use crate::alerts::Alerts;
use crate::counts::Counts;
use crate::log::Log;
use crate::options::Options;
use crate::sys::{hide_memory, Waker};
use crate::tables::Names;
use crate::tls::Contexts;
use std::fs::DirBuilder;
use std::net::{SocketAddr, TcpStream, ToSocketAddrs};
use std::os::fd::OwnedFd;
use std::os::unix::fs::DirBuilderExt;
use std::sync::atomic::{AtomicU8, AtomicUsize, Ordering};
use std::sync::{Arc, Mutex, PoisonError};

/// How the program goes on.
#[derive(Clone, Copy, Debug, PartialEq, PartialOrd)]
pub enum Course {
    Serves,
    /// It ends what doesn't run.
    Drains,
    /// It ends all.
    Ends,
}

/// What the words and the file say, and what came of it.
pub struct Settings {
    pub options: Options,
    /// The addresses of the server, of which the first that answers is taken.
    pub upstream: Vec<SocketAddr>,
    /// What TLS needs, where it is spoken.
    pub tls: Option<Arc<Contexts>>,
    /// The names of tables that filters and alerts ask for.
    pub names: Arc<Names>,
}

impl Settings {
    /// Looks the server's name up, and reads certificates and keys.
    pub fn of(options: Options) -> Result<Settings, String> {
        let upstream = options.upstream.to_socket_addrs();
        let upstream = upstream.map_err(|error| format!("{}: {error}", options.upstream))?;
        let upstream: Vec<SocketAddr> = upstream.collect();
        match upstream[..] {
            [] => Err(format!("{}: it has no address", options.upstream)),
            _ => {
                if options.tls.is_spoken() {
                    hide_memory();
                }
                let tls = Contexts::new(&options.tls, &options.upstream)?.map(Arc::new);
                make_folder(&options)?;
                Ok(Settings {
                    names: Arc::new(options.names()),
                    options,
                    upstream,
                    tls,
                })
            }
        }
    }
}

/// Makes the folder for recordings, which nobody else can read, where it isn't there.
fn make_folder(options: &Options) -> Result<(), String> {
    let Some(folder) = &options.record else {
        return Ok(());
    };
    let made = DirBuilder::new().recursive(true).mode(0o700).create(folder);
    made.map_err(|error| format!("{}: {error}", folder.display()))
}

pub struct Shared {
    settings: Mutex<Arc<Settings>>,
    /// How often they changed.
    version: AtomicUsize,
    pub log: Log,
    pub alerts: Alerts,
    /// What each loop counts.
    pub counts: Vec<Arc<Counts>>,
    /// How many clients are served.
    pub open: AtomicUsize,
    /// How many bytes are held of all connections.
    pub held: AtomicUsize,
    /// How many loops run.
    pub loops: AtomicUsize,
    course: AtomicU8,
}

/// By which a loop gets its clients.
pub struct Door {
    pub waker: Waker,
    pub clients: Mutex<Vec<Client>>,
}

pub struct Client {
    pub number: u64,
    pub stream: TcpStream,
    pub address: SocketAddr,
    /// By which its server is asked; none where it is one too many.
    pub socket: Option<OwnedFd>,
}

impl Shared {
    pub fn new(settings: Settings, log: Log, alerts: Alerts) -> Shared {
        let threads = settings.options.threads;
        Shared {
            loops: AtomicUsize::new(threads),
            settings: Mutex::new(Arc::new(settings)),
            version: AtomicUsize::new(0),
            log,
            alerts,
            counts: (0..threads).map(|_| Arc::default()).collect(),
            open: AtomicUsize::new(0),
            held: AtomicUsize::new(0),
            course: AtomicU8::new(Course::Serves as u8),
        }
    }

    pub fn settings(&self) -> Arc<Settings> {
        let settings = self.settings.lock();
        settings.unwrap_or_else(PoisonError::into_inner).clone()
    }

    /// The logs, of lines and of alerts.
    pub fn logs(&self) -> impl Iterator<Item = &Log> {
        self.alerts.log.iter().chain([&self.log])
    }

    /// How often the settings changed.
    pub fn version(&self) -> usize {
        self.version.load(Ordering::Acquire)
    }

    pub fn change(&self, new: Settings) {
        let settings = self.settings.lock();
        *settings.unwrap_or_else(PoisonError::into_inner) = Arc::new(new);
        self.version.fetch_add(1, Ordering::AcqRel);
    }

    pub fn course(&self) -> Course {
        match self.course.load(Ordering::Acquire) {
            0 => Course::Serves,
            1 => Course::Drains,
            _ => Course::Ends,
        }
    }

    pub fn go_over_to(&self, course: Course) {
        self.course.fetch_max(course as u8, Ordering::AcqRel);
    }
}
