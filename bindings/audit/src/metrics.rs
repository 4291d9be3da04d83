//! A port at which the counts are asked for by HTTP. A thread of its own answers some askers at once.

use crate::counts::page;
use crate::file::say;
use crate::shared::Shared;
use crate::sys::{Poll, Ready, Waker, EPOLLIN, EPOLLOUT};
use crate::way::is_not_yet;
use std::io::{self, ErrorKind, Read, Write};
use std::net::{TcpListener, TcpStream};
use std::os::fd::AsRawFd;
use std::sync::atomic::{AtomicBool, Ordering};
use std::sync::Arc;
use std::time::{Duration, Instant};

/// How long an asker has in all.
const PATIENCE: Duration = Duration::from_secs(2);
/// So many askers are answered at once. Where one more comes the first one's time is over.
const AT_ONCE: usize = 16;
/// The longest request.
const MOST: usize = 8192;
/// How long it waits where nobody can be taken.
const PAUSE: Duration = Duration::from_millis(20);

/// Has the thread end.
pub struct Stop {
    waker: Waker,
    is_over: AtomicBool,
}

impl Stop {
    pub fn new() -> io::Result<Arc<Stop>> {
        Ok(Arc::new(Stop {
            waker: Waker::new()?,
            is_over: AtomicBool::new(false),
        }))
    }

    pub fn stop(&self) {
        self.is_over.store(true, Ordering::Release);
        self.waker.wake();
    }
}

/// Answers whoever asks, until it is stopped.
pub fn serve(shared: &Shared, listener: TcpListener, stop: &Stop) {
    if let Err(error) = serve_all(shared, &listener, stop) {
        say(&format!("the counts can't be told any more: {error}"));
    }
}

fn serve_all(shared: &Shared, listener: &TcpListener, stop: &Stop) -> io::Result<()> {
    let poll = Poll::new()?;
    poll.change(listener.as_raw_fd(), 0, 0, EPOLLIN)?;
    poll.change(stop.waker.file(), 0, 0, EPOLLIN)?;
    let mut room = [Ready { bits: 0, token: 0 }; AT_ONCE];
    let mut askers: Vec<Asker> = Vec::new();
    loop {
        poll.wait(&mut room, (!askers.is_empty()).then_some(PATIENCE));
        if stop.is_over.load(Ordering::Acquire) {
            return Ok(());
        }
        match listener.accept() {
            // What goes wrong with an asker is its own.
            Ok((stream, _)) => {
                if askers.len() == AT_ONCE {
                    askers.remove(0);
                }
                askers.extend(Asker::new(stream, &poll));
            }
            Err(error) if is_not_yet(&error) => {}
            Err(_) => std::thread::sleep(PAUSE),
        }
        let now = Instant::now();
        askers.retain_mut(|it| now < it.latest && it.go_on(shared, &poll).unwrap_or(false));
    }
}

/// Who asks, and how far that is.
struct Asker {
    stream: TcpStream,
    latest: Instant,
    /// The head of the request, as far as it came.
    head: Vec<u8>,
    /// The answer, once there is one, and how many bytes of it went.
    answer: Option<Vec<u8>>,
    sent: usize,
}

impl Asker {
    fn new(stream: TcpStream, poll: &Poll) -> io::Result<Asker> {
        stream.set_nonblocking(true)?;
        poll.change(stream.as_raw_fd(), 0, 0, EPOLLIN)?;
        Ok(Asker {
            stream,
            latest: Instant::now() + PATIENCE,
            head: Vec::new(),
            answer: None,
            sent: 0,
        })
    }

    /// Reads and writes as far as that goes now. Says whether it goes on.
    fn go_on(&mut self, shared: &Shared, poll: &Poll) -> io::Result<bool> {
        if self.answer.is_none() && self.read()? {
            self.answer = Some(answer(shared, &self.head));
            poll.change(self.stream.as_raw_fd(), 0, EPOLLIN, EPOLLOUT)?;
        }
        let Some(answer) = &self.answer else {
            return Ok(true);
        };
        match self.stream.write(&answer[self.sent..]) {
            Ok(count) => self.sent += count,
            Err(error) if is_not_yet(&error) => {}
            Err(error) => return Err(error),
        }
        Ok(self.sent < answer.len())
    }

    /// Reads what came of a request. Says whether its head is whole.
    fn read(&mut self) -> io::Result<bool> {
        let mut piece = [0; 1024];
        loop {
            match self.stream.read(&mut piece) {
                Ok(0) => return Err(ErrorKind::UnexpectedEof.into()),
                Ok(count) => self.head.extend_from_slice(&piece[..count]),
                Err(error) if is_not_yet(&error) => return Ok(false),
                Err(error) => return Err(error),
            }
            if self.head.windows(4).any(|end| end == b"\r\n\r\n") {
                return Ok(true);
            }
            if self.head.len() > MOST {
                return Err(ErrorKind::InvalidData.into());
            }
        }
    }
}

fn answer(shared: &Shared, request: &[u8]) -> Vec<u8> {
    let (status, text) = match path(request) {
        Some(b"/metrics") => ("200 OK", page(shared)),
        Some(_) => ("404 Not Found", "the counts are at /metrics\n".to_string()),
        None => ("400 Bad Request", String::new()),
    };
    let kind = "text/plain; version=0.0.4; charset=utf-8";
    let head = format!(
        "HTTP/1.1 {status}\r\nContent-Type: {kind}\r\nContent-Length: {}\r\nConnection: close\r\n\r\n",
        text.len()
    );
    (head + &text).into_bytes()
}

/// What a request by GET asks for, without its query.
fn path(request: &[u8]) -> Option<&[u8]> {
    let asked = request.strip_prefix(b"GET ")?;
    let end = asked.iter().position(|byte| matches!(byte, b' ' | b'?'))?;
    Some(&asked[..end])
}

#[cfg(test)]
mod tests {
    use super::path;

    #[test]
    fn a_request_names_a_path() {
        assert_eq!(
            Some(&b"/metrics"[..]),
            path(b"GET /metrics HTTP/1.1\r\n\r\n")
        );
        assert_eq!(
            Some(&b"/metrics"[..]),
            path(b"GET /metrics?a=b HTTP/1.1\r\n\r\n")
        );
        assert_eq!(None, path(b"POST /metrics HTTP/1.1\r\n\r\n"));
        assert_eq!(None, path(b"GET /metrics"));
    }
}
