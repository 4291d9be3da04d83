//! Lines for the system's log, by the socket at which syslogd and journald take them: a datagram
//! for each (RFC 3164, "syslog Packet Format and Contents").

use std::fs;
use std::io;
use std::os::unix::fs::FileTypeExt;
use std::os::unix::net::UnixDatagram;
use std::path::{Path, PathBuf};
use std::process;

/// A line is information of a daemon.
const PRIORITY: u8 = 3 << 3 | 6;
/// A datagram has no room for it (Linux: errno(3)).
const EMSGSIZE: i32 = 90;

pub struct Syslog {
    path: PathBuf,
    socket: UnixDatagram,
    /// What stands before each line, and room for one.
    head: String,
    datagram: Vec<u8>,
}

/// Whether a file is a socket.
pub fn is_socket(path: &Path) -> bool {
    fs::metadata(path).is_ok_and(|it| it.file_type().is_socket())
}

/// Whether a line was too long for a datagram.
pub fn is_too_long(error: &io::Error) -> bool {
    error.raw_os_error() == Some(EMSGSIZE)
}

fn connected(path: &Path) -> io::Result<UnixDatagram> {
    let socket = UnixDatagram::unbound()?;
    socket.connect(path)?;
    Ok(socket)
}

impl Syslog {
    pub fn open(path: &Path) -> io::Result<Syslog> {
        Ok(Syslog {
            path: path.to_path_buf(),
            socket: connected(path)?,
            head: format!("<{PRIORITY}>mysql-audit[{}]: ", process::id()),
            datagram: Vec::new(),
        })
    }

    /// Sends a line, without its end. If whoever takes lines began anew, it goes to the new socket.
    pub fn send(&mut self, line: &[u8]) -> io::Result<()> {
        self.datagram.clear();
        self.datagram.extend_from_slice(self.head.as_bytes());
        self.datagram.extend_from_slice(line);
        match self.socket.send(&self.datagram) {
            Ok(_) => Ok(()),
            Err(error) if is_too_long(&error) => Err(error),
            Err(error) if error.kind() == io::ErrorKind::Interrupted => Err(error),
            Err(_) => {
                self.socket = connected(&self.path)?;
                self.socket.send(&self.datagram).map(drop)
            }
        }
    }
}
