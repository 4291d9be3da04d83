//! The file that lines are appended to: begun anew at a size or when it is asked for, and what is
//! done where it takes no more. A socket of the system's log may stand in its place.

use crate::lines::Format;
use crate::options::LogFull;
use crate::sys::append_and_wait;
use crate::syslog::{is_socket, is_too_long, Syslog};
use crate::texts::push_now;
use std::fmt::Display;
use std::fs::{self, File, OpenOptions};
use std::io::{self, ErrorKind, Write};
use std::os::fd::{AsFd, AsRawFd};
use std::os::unix::fs::{MetadataExt, OpenOptionsExt};
use std::path::{Path, PathBuf};
use std::process::{exit, Child, Command, Stdio};
use std::sync::atomic::{AtomicBool, AtomicU64, Ordering};
use std::sync::{Arc, Mutex, PoisonError};
use std::thread::sleep;
use std::time::Duration;

#[cfg(any(
    target_arch = "aarch64",
    target_arch = "arm",
    target_arch = "powerpc64"
))]
const O_NOFOLLOW: i32 = 0o10_0000;
#[cfg(not(any(
    target_arch = "aarch64",
    target_arch = "arm",
    target_arch = "powerpc64"
)))]
const O_NOFOLLOW: i32 = 0o40_0000;
const O_NONBLOCK: i32 = 0o4000;
/// How long it waits until a line is tried again.
const PAUSE: Duration = Duration::from_millis(50);

/// What others ask of the file, also while it waits.
#[derive(Default)]
pub struct Asked {
    pub reopens: AtomicBool,
    /// Nothing is tried again.
    pub gives_up: AtomicBool,
    /// Another process begins other files.
    pub rotates_no_more: AtomicBool,
    /// What the file is written by from then on.
    next: Mutex<Option<(Place, Manner)>>,
    /// How many lines were lost, by whomever.
    pub lost_in_all: AtomicU64,
}

impl Asked {
    /// Has the file be another one, or be written otherwise.
    pub fn change(&self, place: Place, manner: Manner) {
        let next = self.next.lock();
        *next.unwrap_or_else(PoisonError::into_inner) = Some((place, manner));
        self.reopens.store(true, Ordering::Relaxed);
    }
}

/// Where lines go.
enum Target {
    File(File),
    Syslog(Syslog),
}

impl Target {
    /// Writes bytes, or the first line of them, and says how many.
    fn write(&mut self, bytes: &[u8]) -> io::Result<usize> {
        match self {
            Target::File(file) => file.write(bytes),
            Target::Syslog(syslog) => {
                let count = front(bytes, 0);
                let line = &bytes[..count];
                syslog.send(line.strip_suffix(b"\n").unwrap_or(line))?;
                Ok(count)
            }
        }
    }

    fn size(&self) -> u64 {
        match self {
            Target::File(file) => file.metadata().map_or(0, |it| it.len()),
            Target::Syslog(_) => 0,
        }
    }
}

/// A file that is open, and its name; standard output has none.
pub struct Place {
    path: Option<PathBuf>,
    target: Target,
}

impl Place {
    pub fn open(path: Option<PathBuf>) -> io::Result<Place> {
        let target = match &path {
            Some(path) if is_socket(path) => Target::Syslog(Syslog::open(path)?),
            path => Target::File(open(path.as_deref())?),
        };
        Ok(Place { path, target })
    }
}

/// How it is written.
#[derive(Clone)]
pub struct Manner {
    pub format: Format,
    pub full: LogFull,
    pub rotate: u64,
    pub keep: u16,
    /// Whether older files are packed.
    pub gzip: bool,
}

pub struct LogFile {
    path: Option<PathBuf>,
    target: Target,
    size: u64,
    manner: Manner,
    asked: Arc<Asked>,
    /// The rest of a line whose front was written.
    torn: Vec<u8>,
    /// How many lines were lost that no line tells yet.
    pub lost: u64,
    is_failing: bool,
    /// What packs an older file.
    packing: Option<Child>,
}

/// Says something on standard error, if there is one.
pub fn say(what: &str) {
    let _ = writeln!(io::stderr(), "{what}");
}

/// Opens a log, which is no link. A pipe that nobody reads is refused, and not waited for.
fn open(path: Option<&Path>) -> io::Result<File> {
    let Some(path) = path else {
        return Ok(io::stdout().as_fd().try_clone_to_owned()?.into());
    };
    let mut how = OpenOptions::new();
    how.append(true).create(true).mode(0o640);
    let file = how.custom_flags(O_NOFOLLOW | O_NONBLOCK).open(path)?;
    append_and_wait(file.as_raw_fd())?;
    Ok(file)
}

/// Opens a file that nobody else can read, to append to it.
///
/// # Errors
/// It can't be opened, or is a link, or others can read it.
#[cfg_attr(not(feature = "tls"), allow(dead_code))]
pub fn open_secret(path: &Path) -> io::Result<File> {
    let mut how = OpenOptions::new();
    how.append(true).create(true).mode(0o600);
    let file = how.custom_flags(O_NOFOLLOW | O_NONBLOCK).open(path)?;
    match file.metadata()?.mode() & 0o077 {
        0 => Ok(file),
        _ => Err(io::Error::new(
            ErrorKind::PermissionDenied,
            "others can read it",
        )),
    }
}

/// Makes a file that others can't read, or a group alone, in the place of whatever is there.
pub fn make(path: &Path, mode: u32) -> io::Result<File> {
    match fs::remove_file(path) {
        Err(error) if error.kind() != ErrorKind::NotFound => return Err(error),
        _ => {}
    }
    let mut how = OpenOptions::new();
    how.append(true).create_new(true).mode(mode).open(path)
}

fn count_lines(bytes: &[u8]) -> u64 {
    bytes.iter().filter(|byte| **byte == b'\n').count() as u64
}

/// How many of these bytes are whole lines within the room: at least one.
fn front(lines: &[u8], room: u64) -> usize {
    let room = usize::try_from(room).unwrap_or(usize::MAX).min(lines.len());
    let last = lines[..room].iter().rposition(|byte| *byte == b'\n');
    let first = || lines.iter().position(|byte| *byte == b'\n');
    last.or_else(first).map_or(lines.len(), |at| at + 1)
}

impl LogFile {
    pub fn new(Place { path, target }: Place, manner: Manner, asked: Arc<Asked>) -> LogFile {
        LogFile {
            size: target.size(),
            path,
            target,
            manner,
            asked,
            torn: Vec::new(),
            lost: 0,
            is_failing: false,
            packing: None,
        }
    }

    fn count_lost(&mut self, lines: u64) {
        self.lost += lines;
        self.asked.lost_in_all.fetch_add(lines, Ordering::Relaxed);
    }

    /// Writes lines, or loses them. It tells how many were lost before the next one that it writes.
    pub fn write(&mut self, mut lines: &[u8]) {
        self.reopen_if_asked();
        self.end_packing(false);
        loop {
            if self.lost > 0 && !self.tell_lost() {
                self.count_lost(count_lines(lines));
                return;
            }
            if lines.is_empty() {
                return;
            }
            let count = self.make_room(lines);
            let (piece, rest) = lines.split_at(count);
            if let Err(done) = self.put(piece) {
                self.lose(&piece[done..], done > 0 && piece[done - 1] != b'\n');
                self.count_lost(count_lines(rest));
                return;
            }
            lines = rest;
        }
    }

    /// Tells how many lines were lost. Where it can't be told, the number stays.
    fn tell_lost(&mut self) -> bool {
        let (mut time, lost) = (String::new(), self.lost);
        push_now(&mut time);
        let line = match self.manner.format {
            Format::Json => format!("{{\"time\":\"{time}\",\"kind\":\"lost\",\"lines\":{lost}}}\n"),
            Format::Text => format!("{time} lost lines={lost}\n"),
        };
        match self.put(line.as_bytes()) {
            Ok(()) => self.lost = 0,
            Err(0) => return false,
            Err(done) => {
                self.lost = 0;
                self.torn = line.as_bytes()[done..].to_vec();
                return false;
            }
        }
        say(&format!("the log is written again: {lost} lines were lost"));
        true
    }

    /// Counts the lines of what wasn't written. Of a line whose front was written the rest is kept,
    /// so that it goes on where it was torn.
    fn lose(&mut self, unwritten: &[u8], is_torn: bool) {
        let torn = if is_torn { front(unwritten, 0) } else { 0 };
        self.torn.extend_from_slice(&unwritten[..torn]);
        self.count_lost(count_lines(&unwritten[torn..]));
    }

    /// Writes bytes behind the rest of a torn line. The answer is how many of them were written,
    /// where these aren't all.
    fn put(&mut self, bytes: &[u8]) -> Result<(), usize> {
        let torn = std::mem::take(&mut self.torn);
        let written = self.put_all(&torn);
        if written < torn.len() && self.torn.is_empty() {
            self.torn = torn[written..].to_vec();
            return Err(0);
        }
        match self.put_all(bytes) {
            written if written == bytes.len() => Ok(()),
            written => Err(written),
        }
    }

    fn put_all(&mut self, bytes: &[u8]) -> usize {
        let mut done = 0;
        while done < bytes.len() {
            let error = match self.target.write(&bytes[done..]) {
                Ok(count) if count > 0 => {
                    done += count;
                    self.size += count as u64;
                    self.is_failing = false;
                    continue;
                }
                Ok(_) => ErrorKind::WriteZero.into(),
                Err(error) if error.kind() == ErrorKind::Interrupted => continue,
                Err(error) if is_too_long(&error) => {
                    self.count_lost(1);
                    done += front(&bytes[done..], 0);
                    continue;
                }
                Err(error) => error,
            };
            if !self.is_tried_again(&error) {
                break;
            }
        }
        done
    }

    /// What is done about an error: whether the same bytes are tried again.
    fn is_tried_again(&mut self, error: &io::Error) -> bool {
        if !self.is_failing {
            say(&format!("the log can't be written: {error}"));
            self.is_failing = true;
        }
        match self.manner.full {
            LogFull::Pass => false,
            LogFull::Stop => exit(1),
            LogFull::Wait => {
                sleep(PAUSE);
                self.reopen_if_asked();
                !self.asked.gives_up.load(Ordering::Relaxed)
            }
        }
    }

    /// Opens the file anew, which may have been moved away, or goes over to another one.
    pub fn reopen_if_asked(&mut self) {
        if !self.asked.reopens.swap(false, Ordering::Relaxed) {
            return;
        }
        let next = self.asked.next.lock();
        let next = next.unwrap_or_else(PoisonError::into_inner).take();
        let place = match next {
            Some((place, manner)) => {
                self.manner = manner;
                Ok(place)
            }
            None if self.path.is_none() => return,
            None => Place::open(self.path.clone()),
        };
        match place {
            Ok(Place { path, target }) => {
                self.count_lost(u64::from(!self.torn.is_empty()));
                self.torn.clear();
                self.size = target.size();
                (self.path, self.target) = (path, target);
            }
            Err(error) => say(&format!("the log can't be opened anew: {error}")),
        }
    }

    /// How many of these bytes are written at a time. It begins another file where this one has its
    /// size. A socket takes line by line, and may lose each.
    fn make_room(&mut self, lines: &[u8]) -> usize {
        if matches!(self.target, Target::Syslog(_)) {
            return front(lines, 0);
        }
        let rotates_no_more = self.asked.rotates_no_more.load(Ordering::Relaxed);
        let is_file = matches!(self.target, Target::File(_)) && self.path.is_some();
        if self.manner.rotate == 0 || !is_file || rotates_no_more {
            return lines.len();
        }
        let first = front(lines, 0) as u64;
        if self.size > 0 && self.size + first > self.manner.rotate && self.torn.is_empty() {
            if let Err(error) = self.rotate() {
                say(&format!("the log can't be rotated: {error}"));
            }
            // Where that failed, it is tried again behind as many bytes.
            self.size = 0;
        }
        front(lines, self.manner.rotate.saturating_sub(self.size))
    }

    /// Begins another file. It is opened first, so that nothing has changed where that fails.
    fn rotate(&mut self) -> io::Result<()> {
        let Some(path) = self.path.clone() else {
            return Ok(());
        };
        let next = beside(&path, "new");
        let file = make(&next, 0o640)?;
        self.end_packing(true);
        let moved = move_on(&path, self.manner.keep).and_then(|()| fs::rename(&next, &path));
        if let Err(error) = moved {
            let _ = fs::remove_file(next);
            return Err(error);
        }
        self.target = Target::File(file);
        if self.manner.gzip && self.manner.keep > 0 {
            self.pack(&beside(&path, 1));
        }
        Ok(())
    }

    /// Has the system's gzip pack an older file. That goes on beside the lines that come.
    fn pack(&mut self, older: &Path) {
        let mut gzip = Command::new("gzip");
        gzip.args(["--force", "--"]).arg(older).stdin(Stdio::null());
        match gzip.stdout(Stdio::null()).spawn() {
            Ok(child) => self.packing = Some(child),
            Err(error) => say(&format!("gzip can't be begun: {error}")),
        }
    }

    /// Notes that the packing has ended, for which it may wait. No file has another name meanwhile.
    fn end_packing(&mut self, waits: bool) {
        let Some(child) = &mut self.packing else {
            return;
        };
        let ended = match waits {
            true => child.wait().map(Some),
            false => child.try_wait(),
        };
        match ended {
            Ok(None) => return,
            Ok(Some(status)) if status.success() => {}
            Ok(Some(status)) => say(&format!("an older log isn't packed: {status}")),
            Err(error) => say(&format!("an older log isn't packed: {error}")),
        }
        self.packing = None;
    }
}

/// The file beside another that has this end.
fn beside(path: &Path, end: impl Display) -> PathBuf {
    let mut name = path.to_path_buf().into_os_string();
    name.push(format!(".{end}"));
    PathBuf::from(name)
}

/// Gives a file, and older ones, their next numbers. Of them so many are kept.
fn move_on(path: &Path, keep: u16) -> io::Result<()> {
    let packed = |number: u16| beside(path, format_args!("{number}.gz"));
    for number in (1..keep).rev() {
        let (plain, next) = (beside(path, number), number + 1);
        if is_there(fs::rename(packed(number), packed(next)))? {
            is_there(fs::remove_file(beside(path, next)))?;
        }
        // One that isn't whole may stand beside what it was made of.
        if is_there(fs::rename(plain, beside(path, next)))? {
            is_there(fs::remove_file(packed(next)))?;
        }
    }
    is_there(match keep {
        0 => fs::remove_file(path),
        _ => fs::rename(path, beside(path, 1)),
    })?;
    Ok(())
}

/// Whether something was done to a file: not to one that isn't there.
fn is_there(done: io::Result<()>) -> io::Result<bool> {
    match done {
        Err(error) if error.kind() == ErrorKind::NotFound => Ok(false),
        done => done.map(|()| true),
    }
}

#[cfg(test)]
mod tests {
    use super::{front, Arc, Asked, Format, LogFile, LogFull, Manner, Place};
    use std::fs;
    use std::os::unix::net::UnixDatagram;
    use std::path::PathBuf;

    fn log(name: &str, rotate: u64, keep: u16) -> (PathBuf, LogFile) {
        let folder = std::env::temp_dir().join(format!("audit-{name}-{}", std::process::id()));
        let _ = fs::remove_dir_all(&folder);
        fs::create_dir(&folder).expect("a folder");
        let manner = Manner {
            format: Format::Json,
            full: LogFull::Pass,
            rotate,
            keep,
            gzip: false,
        };
        let place = Place::open(Some(folder.join("log"))).expect("a log");
        (
            folder,
            LogFile::new(place, manner, Arc::new(Asked::default())),
        )
    }

    #[test]
    fn a_front_has_whole_lines() {
        assert_eq!(4, front(b"one\ntwo\n", 7));
        assert_eq!(8, front(b"one\ntwo\n", 8));
        assert_eq!(4, front(b"one\ntwo\n", 2));
        assert_eq!(3, front(b"one", 2));
    }

    #[test]
    fn it_rotates_between_lines_and_keeps_some() {
        let (folder, mut log) = log("rotate", 10, 2);
        log.write(b"one\ntwo\nthree\nfour\n");
        log.write(b"a line of more bytes\nfive\n");
        let text = |name| fs::read_to_string(folder.join(name)).expect("a file");
        assert_eq!("five\n", text("log"));
        assert_eq!("a line of more bytes\n", text("log.1"));
        assert_eq!("four\n", text("log.2"));
        assert!(!folder.join("log.3").exists());
        fs::remove_dir_all(folder).expect("the folder");
    }

    #[test]
    fn older_files_are_packed() {
        let (folder, mut log) = log("packed", 4, 2);
        log.manner.gzip = true;
        for line in ["one\n", "two\n", "six\n", "ten\n"] {
            log.write(line.as_bytes());
        }
        log.end_packing(true);
        let text = |name: &str| fs::read(folder.join(name)).expect("a file");
        assert_eq!(b"ten\n", &text("log")[..]);
        for name in ["log.1", "log.2"] {
            assert!(!folder.join(name).exists(), "{name}");
            assert_eq!([0x1f, 0x8b], text(&format!("{name}.gz"))[..2], "{name}");
        }
        assert!(!folder.join("log.3.gz").exists());
        fs::remove_dir_all(folder).expect("the folder");
    }

    #[test]
    fn what_is_half_packed_stays_as_it_was() {
        let (folder, mut log) = log("half", 4, 2);
        fs::write(folder.join("log.1"), "one\n").expect("an older file");
        fs::write(folder.join("log.1.gz"), "half").expect("what is half of it");
        fs::write(folder.join("log.2.gz"), "old").expect("an older file still");
        log.write(b"two\nsix\n");
        let text = |name| fs::read_to_string(folder.join(name)).expect("a file");
        assert_eq!(("one\n", "two\n"), (&*text("log.2"), &*text("log.1")));
        assert!(!folder.join("log.1.gz").exists() && !folder.join("log.2.gz").exists());
        fs::remove_dir_all(folder).expect("the folder");
    }

    #[test]
    fn a_socket_gets_a_datagram_for_each_line() {
        let (folder, mut log) = log("socket", 0, 2);
        let path = folder.join("socket");
        let mut reader = UnixDatagram::bind(&path).expect("a socket");
        let place = Place::open(Some(path.clone())).expect("the socket");
        log.asked.change(place, log.manner.clone());
        let mut room = [0; 100];
        let head = format!("<30>mysql-audit[{}]: ", std::process::id());
        log.write(b"one\ntwo\n");
        for wanted in ["one", "two"] {
            let count = reader.recv(&mut room).expect("a datagram");
            assert_eq!(format!("{head}{wanted}").as_bytes(), &room[..count]);
        }
        // One that begins anew gets the lines from then on.
        fs::remove_file(&path).expect("the socket's name");
        drop(reader);
        reader = UnixDatagram::bind(&path).expect("a socket");
        log.write(&[&[b'x'; 1 << 20], &b"\nthree\n"[..]].concat());
        // What is too long is counted where it stood.
        let count = reader.recv(&mut room).expect("a datagram");
        let said = String::from_utf8_lossy(&room[..count]);
        assert!(said.ends_with("\"kind\":\"lost\",\"lines\":1}"), "{said}");
        let count = reader.recv(&mut room).expect("a datagram");
        assert_eq!(format!("{head}three").as_bytes(), &room[..count]);
        assert_eq!(0, log.lost);
        fs::remove_dir_all(folder).expect("the folder");
    }

    #[test]
    fn where_it_cant_rotate_it_goes_on() {
        let (folder, mut log) = log("stays", 10, 2);
        fs::create_dir(folder.join("log.new")).expect("a folder in the next file's place");
        log.write(b"one\ntwo\nthree\nfour\n");
        let text = |name| fs::read_to_string(folder.join(name)).expect("a file");
        assert_eq!("one\ntwo\nthree\nfour\n", text("log"));
        fs::remove_dir(folder.join("log.new")).expect("the folder");
        log.write(b"five\nsix\n");
        assert_eq!(
            ("one\ntwo\nthree\nfour\nfive\n", "six\n"),
            (&*text("log.1"), &*text("log"))
        );
        fs::remove_dir_all(folder).expect("the folder");
    }

    #[test]
    fn it_goes_over_to_another_file() {
        let (folder, mut log) = log("changes", 0, 2);
        log.write(b"one\n");
        let manner = Manner {
            rotate: 5,
            ..log.manner.clone()
        };
        let place = Place::open(Some(folder.join("other"))).expect("another log");
        log.asked.change(place, manner);
        log.write(b"two\nthree\n");
        let text = |name| fs::read_to_string(folder.join(name)).expect("a file");
        assert_eq!("one\n", text("log"));
        assert_eq!(("two\n", "three\n"), (&*text("other.1"), &*text("other")));
        fs::remove_dir_all(folder).expect("the folder");
    }

    #[test]
    fn what_is_torn_goes_on_and_what_is_lost_is_told() {
        let (folder, mut log) = log("torn", 0, 2);
        log.lose(b"st of a line\nanother\nand one more\n", true);
        assert_eq!((2, &b"st of a line\n"[..]), (log.lost, &log.torn[..]));
        log.write(b"next\n");
        let text = fs::read_to_string(folder.join("log")).expect("a file");
        assert!(text.starts_with("st of a line\n{\"time\":\""));
        assert!(text.ends_with("\"kind\":\"lost\",\"lines\":2}\nnext\n"));
        fs::remove_dir_all(folder).expect("the folder");
    }
}
