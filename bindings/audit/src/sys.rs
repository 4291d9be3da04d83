//! What the standard library doesn't have of Linux: epoll, signals as a file, a socket that
//! connects without waiting, limits of descriptors.

use std::ffi::{c_int, c_uint, c_ulong, c_void};
use std::io::{self, Error};
use std::net::{SocketAddr, TcpStream};
use std::os::fd::{AsRawFd, FromRawFd, OwnedFd, RawFd};
use std::ptr::null;
use std::time::Duration;

pub const EPOLLIN: u32 = 1;
pub const EPOLLOUT: u32 = 4;
pub const SIGHUP: u32 = 1;
pub const SIGINT: u32 = 2;
pub const SIGUSR1: u32 = 10;
pub const SIGUSR2: u32 = 12;
pub const SIGTERM: u32 = 15;
/// A file has its greatest size.
pub const SIGXFSZ: u32 = 25;

const EPOLL_CLOEXEC: c_int = 0o200_0000;
const EPOLL_CTL_ADD: c_int = 1;
const EPOLL_CTL_DEL: c_int = 2;
const EPOLL_CTL_MOD: c_int = 3;
const EFD_CLOEXEC: c_int = 0o200_0000;
const EFD_NONBLOCK: c_int = 0o4000;
const SIG_BLOCK: c_int = 0;
const RLIMIT_NOFILE: c_int = 7;
const AF_INET: c_int = 2;
const AF_INET6: c_int = 10;
const SOCK_STREAM: c_int = 1;
const SOCK_NONBLOCK: c_int = 0o4000;
const SOCK_CLOEXEC: c_int = 0o200_0000;
const SOL_SOCKET: c_int = 1;
const SO_KEEPALIVE: c_int = 9;
const IPPROTO_TCP: c_int = 6;
const TCP_KEEPIDLE: c_int = 4;
const TCP_KEEPINTVL: c_int = 5;
const TCP_KEEPCNT: c_int = 6;
const EINPROGRESS: i32 = 115;
const PR_SET_DUMPABLE: c_int = 4;
const F_SETFD: c_int = 2;
const F_SETFL: c_int = 4;
const O_APPEND: c_int = 0o2000;

/// `struct epoll_event`, which is packed on x86-64.
#[repr(C, packed)]
#[derive(Clone, Copy)]
pub struct Ready {
    pub bits: u32,
    pub token: u64,
}

/// `sigset_t` of glibc, of which the first word has all signals here.
#[repr(C)]
struct Signals([u64; 16]);

#[repr(C)]
struct Limit {
    soft: u64,
    hard: u64,
}

/// `struct sockaddr_in6`, the longer one. One of IPv4 has its address in the place of `flow`.
#[repr(C)]
struct Address {
    family: u16,
    port: [u8; 2],
    flow: [u8; 4],
    ip: [u8; 16],
    scope: u32,
}

extern "C" {
    fn epoll_create1(flags: c_int) -> c_int;
    fn epoll_ctl(poll: c_int, how: c_int, file: c_int, event: *const Ready) -> c_int;
    fn epoll_wait(poll: c_int, events: *mut Ready, most: c_int, milliseconds: c_int) -> c_int;
    fn eventfd(first: c_uint, flags: c_int) -> c_int;
    fn signalfd(file: c_int, signals: *const Signals, flags: c_int) -> c_int;
    fn pthread_sigmask(how: c_int, signals: *const Signals, old: *mut Signals) -> c_int;
    fn fcntl(file: c_int, command: c_int, ...) -> c_int;
    fn getrlimit(which: c_int, limit: *mut Limit) -> c_int;
    fn setrlimit(which: c_int, limit: *const Limit) -> c_int;
    fn socket(family: c_int, kind: c_int, protocol: c_int) -> c_int;
    fn prctl(what: c_int, ...) -> c_int;
    fn geteuid() -> c_uint;
    fn listen(file: c_int, most: c_int) -> c_int;
    fn connect(file: c_int, address: *const Address, length: c_uint) -> c_int;
    fn setsockopt(
        file: c_int,
        level: c_int,
        name: c_int,
        value: *const c_void,
        length: c_uint,
    ) -> c_int;
    fn read(file: c_int, to: *mut c_void, length: usize) -> isize;
    fn write(file: c_int, from: *const c_void, length: usize) -> isize;
}

#[cfg(target_env = "gnu")]
extern "C" {
    fn mallopt(what: c_int, value: c_int) -> c_int;
}

/// The setting of glibc from how many bytes on a block is mapped by itself.
#[cfg(target_env = "gnu")]
const M_MMAP_THRESHOLD: c_int = -3;
/// Blocks of so many bytes are mapped by themselves.
#[cfg(target_env = "gnu")]
const MAPPED: c_int = 1 << 18;

/// Has the system get long blocks back as soon as they are freed. By itself glibc raises that bound
/// with each long block that is freed, and then keeps such blocks, for each thread by itself.
#[cfg(target_env = "gnu")]
pub fn give_long_blocks_back() {
    // SAFETY: no other thread runs yet. Where it is refused all stays as it was.
    unsafe { mallopt(M_MMAP_THRESHOLD, MAPPED) };
}

/// Other libraries give them back by themselves.
#[cfg(not(target_env = "gnu"))]
pub fn give_long_blocks_back() {}

/// The descriptor that a call answers.
fn file_of(answer: c_int) -> io::Result<OwnedFd> {
    match answer {
        ..0 => Err(Error::last_os_error()),
        // SAFETY: the call opened it, and nothing else has it.
        file => Ok(unsafe { OwnedFd::from_raw_fd(file) }),
    }
}

fn done(answer: c_int) -> io::Result<()> {
    match answer {
        0 => Ok(()),
        _ => Err(Error::last_os_error()),
    }
}

/// Files that are waited for.
pub struct Poll(OwnedFd);

impl Poll {
    pub fn new() -> io::Result<Poll> {
        // SAFETY: the call has no condition.
        file_of(unsafe { epoll_create1(EPOLL_CLOEXEC) }).map(Poll)
    }

    /// Waits for other bits of a file than before; 0 is for none.
    pub fn change(&self, file: RawFd, token: u64, from: u32, bits: u32) -> io::Result<()> {
        let how = match (from, bits) {
            (0, _) => EPOLL_CTL_ADD,
            (_, 0) => EPOLL_CTL_DEL,
            _ => EPOLL_CTL_MOD,
        };
        let event = Ready { bits, token };
        // SAFETY: the event is a local, which the call reads.
        done(unsafe { epoll_ctl(self.0.as_raw_fd(), how, file, &event) })
    }

    /// Waits until some are ready, or for so long; for as long as it takes where that is none.
    pub fn wait<'a>(&self, room: &'a mut [Ready], most: Option<Duration>) -> &'a [Ready] {
        let milliseconds = most.map_or(-1, |most| (most.as_millis() + 1).min(60_000) as c_int);
        // SAFETY: the room is a slice of so many, which the call writes.
        let count = unsafe {
            epoll_wait(
                self.0.as_raw_fd(),
                room.as_mut_ptr(),
                room.len() as c_int,
                milliseconds,
            )
        };
        // Without an event it was only a signal that ended the wait.
        &room[..usize::try_from(count).unwrap_or(0)]
    }
}

/// What wakes a thread that polls.
pub struct Waker(OwnedFd);

impl Waker {
    pub fn new() -> io::Result<Waker> {
        // SAFETY: the call has no condition.
        file_of(unsafe { eventfd(0, EFD_CLOEXEC | EFD_NONBLOCK) }).map(Waker)
    }

    pub fn file(&self) -> RawFd {
        self.0.as_raw_fd()
    }

    pub fn wake(&self) {
        let one = 1u64;
        // SAFETY: the number is a local of eight bytes. Where it is refused it was woken before.
        unsafe { write(self.file(), (&raw const one).cast(), 8) };
    }

    pub fn sleep_again(&self) {
        let mut count = 0u64;
        // SAFETY: the number is a local of eight bytes.
        unsafe { read(self.file(), (&raw mut count).cast(), 8) };
    }
}

/// Signals that are read, in place of what they do else.
pub struct SignalFile(OwnedFd);

impl SignalFile {
    /// Blocks them in this thread, and in those that it starts.
    pub fn new(numbers: &[u32]) -> io::Result<SignalFile> {
        let mut signals = Signals([0; 16]);
        signals.0[0] = numbers.iter().map(|number| 1 << (number - 1)).sum();
        // SAFETY: the set is a local; no old one is asked for.
        unsafe { pthread_sigmask(SIG_BLOCK, &signals, null::<Signals>().cast_mut()) };
        // SAFETY: the set is a local.
        file_of(unsafe { signalfd(-1, &signals, EFD_CLOEXEC | EFD_NONBLOCK) }).map(SignalFile)
    }

    pub fn file(&self) -> RawFd {
        self.0.as_raw_fd()
    }

    /// The next signal that came.
    pub fn take(&self) -> Option<u32> {
        let mut told = [0u32; 32];
        // SAFETY: `struct signalfd_siginfo` has 128 bytes, as the local has.
        let count = unsafe { read(self.file(), told.as_mut_ptr().cast(), 128) };
        (count == 128).then_some(told[0])
    }
}

/// Has a descriptor stay open where another program is begun.
pub fn keep_open(file: RawFd) -> io::Result<()> {
    // SAFETY: the flags are a number; none is set.
    done(unsafe { fcntl(file, F_SETFD, 0 as c_int) })
}

/// Has writes to a file append, and wait until it takes them.
pub fn append_and_wait(file: RawFd) -> io::Result<()> {
    // SAFETY: the flags are a number.
    done(unsafe { fcntl(file, F_SETFL, O_APPEND) })
}

/// Raises the limit of descriptors as far as it goes, and says what it is.
pub fn raise_descriptors() -> u64 {
    let mut limit = Limit {
        soft: 1024,
        hard: 1024,
    };
    // SAFETY: the limit is a local, which the first call writes and the second one reads.
    unsafe {
        getrlimit(RLIMIT_NOFILE, &mut limit);
        let raised = Limit {
            soft: limit.hard,
            hard: limit.hard,
        };
        match setrlimit(RLIMIT_NOFILE, &raised) {
            0 => raised.soft,
            _ => limit.soft,
        }
    }
}

/// The user that the program runs as.
#[cfg_attr(not(feature = "tls"), allow(dead_code))]
pub fn own_user() -> u32 {
    // SAFETY: the call has no condition, and doesn't fail.
    unsafe { geteuid() }
}

/// Has no crash write the memory out, in which there are keys and passwords.
pub fn hide_memory() {
    // SAFETY: it takes two numbers, and answers by one.
    unsafe { prctl(PR_SET_DUMPABLE, 0 as c_ulong) };
}

/// Has more clients wait at a listener than the standard library asks for.
pub fn let_wait(listener: RawFd, most: c_int) {
    // SAFETY: the call has no condition. Where it is refused fewer wait.
    unsafe { listen(listener, most) };
}

/// A socket by which an address can be asked.
pub fn open_socket(to: SocketAddr) -> io::Result<OwnedFd> {
    let family = if to.is_ipv4() { AF_INET } else { AF_INET6 };
    let kind = SOCK_STREAM | SOCK_NONBLOCK | SOCK_CLOEXEC;
    // SAFETY: the call has no condition.
    file_of(unsafe { socket(family, kind, 0) })
}

/// Has a socket of `open_socket` begin to connect. It is ready to be written to once that is done,
/// or refused.
pub fn begin_to_connect(socket: OwnedFd, to: SocketAddr) -> io::Result<TcpStream> {
    let (family, flow, ip, scope, length) = match to {
        SocketAddr::V4(to) => (AF_INET, to.ip().octets(), [0; 16], 0, 16),
        SocketAddr::V6(to) => (AF_INET6, [0; 4], to.ip().octets(), to.scope_id(), 28),
    };
    let address = Address {
        family: family as u16,
        port: to.port().to_be_bytes(),
        flow,
        ip,
        scope,
    };
    // SAFETY: the address is a local of at least so many bytes.
    match done(unsafe { connect(socket.as_raw_fd(), &address, length) }) {
        Err(error) if error.raw_os_error() != Some(EINPROGRESS) => Err(error),
        _ => Ok(TcpStream::from(socket)),
    }
}

/// Has a socket look for a peer that is silent for so long. Ends of packets aren't held back.
pub fn set_up(stream: &TcpStream, keepalive: Duration) -> io::Result<()> {
    stream.set_nodelay(true)?;
    let seconds = keepalive.as_secs().clamp(1, 32_767) as c_int;
    let between = (seconds / 6).max(1);
    for (level, name, value) in [
        (SOL_SOCKET, SO_KEEPALIVE, 1),
        (IPPROTO_TCP, TCP_KEEPIDLE, seconds),
        (IPPROTO_TCP, TCP_KEEPINTVL, between),
        (IPPROTO_TCP, TCP_KEEPCNT, 6),
    ] {
        let value: c_int = value;
        // SAFETY: the value is a local of four bytes.
        done(unsafe {
            setsockopt(
                stream.as_raw_fd(),
                level,
                name,
                (&raw const value).cast(),
                4,
            )
        })?;
    }
    Ok(())
}
