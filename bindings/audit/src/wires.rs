//! The two sockets of a connection, each with TLS or without.

use crate::tls::Tls;
use crate::way::is_not_yet;
use mysql_session::Side;
use std::io::{self, ErrorKind, Read, Write};
use std::net::{Shutdown, TcpStream};

/// As many bytes are given to TLS at once.
const TLS_PIECE: usize = 1 << 16;

pub struct Wires {
    pub client: TcpStream,
    pub server: Option<TcpStream>,
    tls: [Option<Box<Tls>>; 2],
    /// The sides that take no more. What they would get counts as sent.
    gone: [bool; 2],
}

/// What came of a side.
#[derive(Default)]
pub struct Came {
    pub count: usize,
    pub has_ended: bool,
}

impl Wires {
    pub fn new(client: TcpStream) -> Wires {
        Wires {
            client,
            server: None,
            tls: [None, None],
            gone: [false; 2],
        }
    }

    pub fn stream(&self, side: Side) -> io::Result<&TcpStream> {
        match side {
            Side::Client => Ok(&self.client),
            Side::Server => self.server.as_ref().ok_or(ErrorKind::NotConnected.into()),
        }
    }

    fn tls(&self, side: Side) -> Option<&Tls> {
        self.tls[side as usize].as_deref()
    }

    /// What is asked for with a side's TLS, where it has some.
    fn with_tls<T>(
        &mut self,
        side: Side,
        what: impl FnOnce(&mut Tls, &TcpStream) -> T,
    ) -> Option<io::Result<T>> {
        let mut tls = self.tls[side as usize].take()?;
        let done = self.stream(side).map(|stream| what(&mut tls, stream));
        self.tls[side as usize] = Some(tls);
        Some(done)
    }

    /// A side goes over to TLS, whose handshake begins.
    ///
    /// # Errors
    /// Why it fails.
    pub fn secure(&mut self, side: Side, tls: Tls) -> Result<(), String> {
        self.tls[side as usize] = Some(Box::new(tls));
        self.shake(side)
    }

    /// Whether a handshake goes on.
    pub fn shakes(&self) -> bool {
        self.tls.iter().flatten().any(|tls| !tls.is_done())
    }

    fn is_shaking(&self, side: Side) -> bool {
        self.tls(side).is_some_and(|tls| !tls.is_done())
    }

    fn shake(&mut self, side: Side) -> Result<(), String> {
        let went = self.with_tls(side, |tls, to| (tls.shake(), tls.flush(to)));
        match went {
            Some(Ok((went, _))) => went.map(|_| ()),
            Some(Err(error)) => Err(error.to_string()),
            None => Ok(()),
        }
    }

    /// Whether its socket has to be read before anything else.
    pub fn has_to_read(&self, side: Side) -> bool {
        self.is_shaking(side) && !self.is_pending(side)
    }

    /// Whether a side's TLS has bytes that its socket didn't take yet.
    pub fn is_pending(&self, side: Side) -> bool {
        !self.gone[side as usize] && self.tls(side).is_some_and(|tls| !tls.is_flushed())
    }

    /// Whether a side can be written to.
    pub fn takes(&self, side: Side) -> bool {
        !self.is_shaking(side)
    }

    /// Reads what came of a side. Of TLS it is what was said in it.
    ///
    /// # Errors
    /// A handshake fails, and why.
    pub fn read(&mut self, side: Side, piece: &mut [u8]) -> Result<Came, String> {
        let most = match self.tls(side) {
            Some(_) => piece.len() / 2,
            None => piece.len(),
        };
        let read = self
            .stream(side)
            .and_then(|mut it| it.read(&mut piece[..most]));
        let count = match read {
            Ok(count) => count,
            Err(error) if is_not_yet(&error) => return Ok(Came::default()),
            Err(_) => 0,
        };
        let is_shaking = self.is_shaking(side);
        let Some(tls) = &mut self.tls[side as usize] else {
            let has_ended = count == 0;
            return Ok(Came { count, has_ended });
        };
        match count {
            0 => tls.end(),
            count => tls.take(&piece[..count]),
        }
        if is_shaking {
            self.shake(side)?;
        }
        Ok(self.read_within(side, piece, count == 0))
    }

    /// Reads what was said in a side's TLS.
    fn read_within(&mut self, side: Side, piece: &mut [u8], mut has_ended: bool) -> Came {
        let (mut count, is_shaking) = (0, self.is_shaking(side));
        let Some(tls) = self.tls[side as usize].as_mut().filter(|_| !is_shaking) else {
            return Came { count, has_ended };
        };
        while count < piece.len() {
            match tls.read(&mut piece[count..]) {
                Some(0) => break,
                Some(more) => count += more,
                None => {
                    has_ended = true;
                    break;
                }
            }
        }
        // Its peer may have asked for other keys.
        self.flush(side);
        Came { count, has_ended }
    }

    /// Writes to a side what it takes now.
    pub fn write(&mut self, side: Side, bytes: &[u8]) -> io::Result<usize> {
        if self.gone[side as usize] {
            return Ok(bytes.len());
        }
        match self.with_tls(side, |tls, to| write_within(tls, to, bytes)) {
            Some(written) => written?,
            None => write_plain(self.stream(side)?, bytes),
        }
    }

    /// Sends what a side's TLS has for its peer, which may take no more.
    pub fn flush(&mut self, side: Side) {
        if let Some(Ok(Err(_))) = self.with_tls(side, |tls, to| tls.flush(to)) {
            self.lose(side);
        }
    }

    /// Notes that a side takes no more.
    pub fn lose(&mut self, side: Side) {
        self.gone[side as usize] = true;
    }

    /// Whether one of the sides takes no more.
    pub fn has_lost(&self) -> bool {
        self.gone.contains(&true)
    }

    /// Tells a side that nothing more comes. It may be gone already.
    pub fn shut(&mut self, side: Side) {
        let _ = self.with_tls(side, |tls, to| {
            tls.close();
            tls.flush(to)
        });
        let _ = self.stream(side).map(|it| it.shutdown(Shutdown::Write));
    }

    /// How much memory TLS has of it.
    pub fn held(&self) -> usize {
        self.tls.iter().flatten().map(|tls| tls.held()).sum()
    }

    /// How a side is secured, where it is.
    pub fn words(&self, side: Side) -> Option<String> {
        self.tls(side).map(Tls::words)
    }
}

fn write_plain(mut to: &TcpStream, bytes: &[u8]) -> io::Result<usize> {
    let mut done = 0;
    while done < bytes.len() {
        match to.write(&bytes[done..]) {
            Ok(0) => return Err(ErrorKind::WriteZero.into()),
            Ok(count) => done += count,
            Err(error) if is_not_yet(&error) => break,
            Err(error) => return Err(error),
        }
    }
    Ok(done)
}

fn write_within(tls: &mut Tls, to: &TcpStream, bytes: &[u8]) -> io::Result<usize> {
    let mut done = 0;
    while tls.flush(to)? && tls.is_done() && done < bytes.len() {
        let most = bytes.len().min(done + TLS_PIECE);
        match tls.write(&bytes[done..most])? {
            0 => break,
            count => done += count,
        }
    }
    Ok(done)
}
