//! Listeners that go from one process to another: from the old one of an upgrade to the new one, and
//! from systemd to the program (systemd: sd_listen_fds(3), sd_notify(3)).

use crate::options::Options;
use crate::sys::keep_open;
use std::env;
use std::io::{self, ErrorKind, Read, Write};
use std::net::TcpListener;
use std::os::fd::{AsRawFd, FromRawFd, OwnedFd, RawFd};
use std::os::linux::net::SocketAddrExt;
use std::os::unix::ffi::OsStrExt;
use std::os::unix::net::{SocketAddr, UnixDatagram, UnixStream};
use std::os::unix::process::CommandExt;
use std::path::PathBuf;
use std::process::{self, Child, Command};
use std::time::Duration;

/// Descriptors of a new process: that of the old one, and those of listeners, with their addresses
/// as the settings name them.
const HANDED: &str = "MYSQL_AUDIT_HANDED";
const LISTEN: &str = "MYSQL_AUDIT_LISTEN";
const METRICS: &str = "MYSQL_AUDIT_METRICS";
/// The first descriptor that systemd hands over.
const FIRST: RawFd = 3;
/// How long a new process waits for the number of the old one's last connection.
const PATIENCE: Duration = Duration::from_secs(10);

/// How the program was begun.
pub struct Own {
    pub program: PathBuf,
    pub words: Vec<String>,
}

impl Own {
    /// Where the program was begun by its path, that may lead to another version by now.
    pub fn new() -> io::Result<Own> {
        let mut words = env::args();
        let program = words.next().map(PathBuf::from);
        let program = program.filter(|it| it.components().count() > 1);
        Ok(Own {
            program: program.map_or_else(env::current_exe, Ok)?,
            words: words.collect(),
        })
    }
}

/// A new process that takes the listeners once it is ready.
pub struct Heir {
    child: Child,
    stream: UnixStream,
}

impl Heir {
    pub fn begin(
        own: &Own,
        listeners: [Option<&TcpListener>; 2],
        options: &Options,
    ) -> io::Result<Heir> {
        let (stream, other) = UnixStream::pair()?;
        stream.set_nonblocking(true)?;
        let [listener, metrics] = listeners.map(|it| it.map_or(-1, AsRawFd::as_raw_fd));
        let handed = [other.as_raw_fd(), listener, metrics];
        let mut command = Command::new(&own.program);
        command.args(&own.words);
        command.env(HANDED, handed.map(|file| file.to_string()).join(" "));
        command.env(LISTEN, &options.listen);
        command.env(METRICS, options.metrics.as_deref().unwrap_or_default());
        command.env_remove("LISTEN_FDS").env_remove("LISTEN_PID");
        let keep = move || {
            handed
                .into_iter()
                .filter(|it| *it >= 0)
                .try_for_each(keep_open)
        };
        // SAFETY: between fork and exec only the flags of descriptors are changed.
        unsafe { command.pre_exec(keep) };
        let child = command.spawn()?;
        Ok(Heir { child, stream })
    }

    pub fn file(&self) -> RawFd {
        self.stream.as_raw_fd()
    }

    /// Whether it is ready. It is asked where something came of it.
    ///
    /// # Errors
    /// It has ended.
    pub fn is_ready(&mut self) -> io::Result<bool> {
        match self.stream.read(&mut [0]) {
            Ok(1) => Ok(true),
            Err(error) if error.kind() == ErrorKind::WouldBlock => Ok(false),
            _ => {
                let ended = self.child.wait()?;
                Err(io::Error::other(format!("it ended by {ended}")))
            }
        }
    }

    /// Ends it before it is ready.
    pub fn stop(mut self) {
        // It may have ended already.
        let _ = self.child.kill();
        let _ = self.child.wait();
    }

    /// Says the number of the last connection, from where the new process goes on.
    pub fn go(mut self, number: u64) {
        // Without it the new process begins a little later.
        let _ = self.stream.write_all(&number.to_le_bytes());
    }
}

/// What a process was handed over.
#[derive(Default)]
pub struct Handed {
    pub listener: Option<TcpListener>,
    pub metrics: Option<TcpListener>,
    old: Option<UnixStream>,
}

/// A descriptor that another process opened for this one.
fn take<T: From<OwnedFd>>(file: RawFd) -> Option<T> {
    // SAFETY: each descriptor of a message is taken once, and nothing else knows of it.
    (file >= 0).then(|| T::from(unsafe { OwnedFd::from_raw_fd(file) }))
}

impl Handed {
    /// What the environment names. Only listeners at the addresses of the settings are taken.
    pub fn new(options: &Options) -> Handed {
        let handed = env::var(HANDED).unwrap_or_default();
        let files: Vec<RawFd> = handed.split(' ').filter_map(|it| it.parse().ok()).collect();
        let is_same = |name: &str, word: &str| env::var(name).is_ok_and(|it| it == word);
        let same_metrics = is_same(METRICS, options.metrics.as_deref().unwrap_or_default());
        let handed = match files[..] {
            [old, listener, metrics] => Handed {
                old: take(old),
                listener: take(listener).filter(|_| is_same(LISTEN, &options.listen)),
                metrics: take(metrics).filter(|_| same_metrics),
            },
            _ => Handed::of_systemd(),
        };
        for name in [
            HANDED,
            LISTEN,
            METRICS,
            "LISTEN_FDS",
            "LISTEN_PID",
            "LISTEN_FDNAMES",
        ] {
            env::remove_var(name);
        }
        handed
    }

    /// The first socket of systemd is for clients, the second one for counts.
    fn of_systemd() -> Handed {
        let number = |name: &str| env::var(name).ok().and_then(|it| it.parse::<u32>().ok());
        let count = match number("LISTEN_PID") == Some(process::id()) {
            true => number("LISTEN_FDS").unwrap_or(0),
            false => 0,
        };
        Handed {
            listener: (count > 0).then(|| take(FIRST)).flatten(),
            metrics: (count > 1).then(|| take(FIRST + 1)).flatten(),
            old: None,
        }
    }

    /// Tells the old process that this one is ready, and returns the number of its last connection.
    pub fn take_over(self) -> u64 {
        let Some(mut old) = self.old else {
            return 0;
        };
        let mut number = [0; 8];
        // Where the old one has gone there is none to wait for.
        let said = old
            .set_read_timeout(Some(PATIENCE))
            .and_then(|()| old.write_all(b"r"))
            .and_then(|()| old.read_exact(&mut number));
        said.map_or(0, |()| u64::from_le_bytes(number))
    }
}

/// Tells systemd how the program stands, where it asked for that.
pub fn tell_systemd(what: &str) {
    let Some(name) = env::var_os("NOTIFY_SOCKET").filter(|it| !it.is_empty()) else {
        return;
    };
    let address = match name.as_bytes().split_first() {
        Some((b'@', name)) => SocketAddr::from_abstract_name(name),
        _ => SocketAddr::from_pathname(&name),
    };
    // It may not listen any more.
    let _ = address.and_then(|address| {
        let socket = UnixDatagram::unbound()?;
        socket.send_to_addr(what.as_bytes(), &address)
    });
}

/// What systemd is told once the program serves.
pub fn tell_ready() {
    tell_systemd(&format!("READY=1\nMAINPID={}\n", process::id()));
}
