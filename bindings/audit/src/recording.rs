//! The bytes of both sides as they are read, in two files. What says who a client is becomes stars.

use mysql_session::{Event, Side};
use std::fs::File;
use std::io::{self, Write};
use std::path::Path;

const HEADER: usize = 4;
const STAR: u8 = b'*';
const COM_CHANGE_USER: u8 = 0x11;
const COM_REGISTER_SLAVE: u8 = 0x15;
/// Room for what waits isn't kept where it is more.
const SPARE: usize = 1 << 14;
/// The bytes of a login up to its user.
const LOGIN: usize = 32;

/// Which bytes of a payload become stars.
#[derive(Default)]
pub enum Hidden {
    #[default]
    Nothing,
    /// All from this one on.
    Behind(usize),
    /// These, which a payload has from this one on, behind their length or before a zero.
    Answer(usize, Vec<u8>),
    /// The password of a replica.
    Replica,
}

impl Hidden {
    /// What an event has that may be a password, or made of one.
    pub fn of(event: &Event) -> Hidden {
        match event {
            Event::Answer(_) => Hidden::Behind(0),
            Event::Login(login) => {
                Hidden::Answer(LOGIN + login.user.len() + 1, login.response.to_vec())
            }
            Event::ChangeUser(change) => {
                Hidden::Answer(1 + change.user.len() + 1, change.response.to_vec())
            }
            Event::CutOffLogin(_) => Hidden::Behind(LOGIN),
            Event::Other([COM_CHANGE_USER, ..]) => Hidden::Behind(1),
            Event::Command(command) if command.number == COM_REGISTER_SLAVE => Hidden::Replica,
            _ => Hidden::Nothing,
        }
    }

    /// Writes stars in place of what is hidden of a payload.
    fn hide(&self, payload: &mut [u8]) {
        let (from, length) = match self {
            Hidden::Nothing => return,
            Hidden::Behind(from) => (*from, payload.len()),
            Hidden::Answer(from, answer) => match place_of(payload, *from, answer) {
                Some(at) => (at, answer.len()),
                // It may be an old login, of which all behind the capabilities is hidden.
                None => (4, payload.len()),
            },
            Hidden::Replica => {
                let mut at = 5;
                for _ in 0..2 {
                    at += 1 + payload.get(at).map_or(0, |length| usize::from(*length));
                }
                (at + 1, payload.get(at).map_or(0, |it| usize::from(*it)))
            }
        };
        payload
            .iter_mut()
            .skip(from)
            .take(length)
            .for_each(|byte| *byte = STAR);
    }
}

/// Where an answer stands from this byte on: behind its length, of one byte or with one that says how
/// long it is, or at once.
fn place_of(payload: &[u8], from: usize, answer: &[u8]) -> Option<usize> {
    let length = (answer.len() as u64).to_le_bytes();
    let forms = [
        length[..1].to_vec(),
        [&[0xfc], &length[..2]].concat(),
        [&[0xfd], &length[..3]].concat(),
        [&[0xfe], &length[..]].concat(),
        Vec::new(),
    ];
    let is_there = |form: &Vec<u8>| {
        let rest = payload
            .get(from..)
            .and_then(|it| it.strip_prefix(&form[..]));
        rest.is_some_and(|rest| rest.starts_with(answer))
    };
    let form = forms.iter().find(|form| is_there(form))?;
    Some(from + form.len())
}

/// What is recorded of a connection.
pub struct Recording {
    files: [File; 2],
    /// What came of each side and isn't in its file.
    waiting: [Vec<u8>; 2],
    /// How much of that was read.
    read: [usize; 2],
}

impl Recording {
    /// Begins the files of a connection, in place of what is there.
    ///
    /// # Errors
    /// Why they can't be made.
    pub fn new(
        folder: &Path,
        number: u64,
        make: impl Fn(&Path) -> io::Result<File>,
    ) -> io::Result<Recording> {
        let file = |side: Side| make(&folder.join(format!("{number}.{side}")));
        Ok(Recording {
            files: [file(Side::Client)?, file(Side::Server)?],
            waiting: Default::default(),
            read: [0; 2],
        })
    }

    /// Takes what came of a side.
    pub fn take(&mut self, side: Side, bytes: &[u8]) {
        self.waiting[side as usize].extend_from_slice(bytes);
    }

    /// How many bytes it holds.
    pub fn held(&self) -> usize {
        self.waiting.iter().map(Vec::capacity).sum()
    }

    /// Notes an event, behind which so many bytes of each side aren't read.
    pub fn pass(&mut self, unread: [usize; 2], hidden: &Hidden) {
        for side in [0, 1] {
            let end = self.waiting[side].len().saturating_sub(unread[side]);
            let begin = self.read[side].min(end);
            if side == Side::Client as usize && begin + HEADER < end {
                hidden.hide(&mut self.waiting[side][begin + HEADER..end]);
            }
            self.read[side] = end;
        }
    }

    /// Writes what was read.
    ///
    /// # Errors
    /// Why it can't be written.
    pub fn write(&mut self) -> io::Result<()> {
        for side in [0, 1] {
            let count = std::mem::take(&mut self.read[side]);
            self.files[side].write_all(&self.waiting[side][..count])?;
            self.waiting[side].drain(..count);
            if self.waiting[side].is_empty() {
                self.waiting[side].shrink_to(SPARE);
            }
        }
        Ok(())
    }
}

#[cfg(test)]
mod tests {
    use super::Hidden;

    fn hidden(how: Hidden, payload: &[u8]) -> Vec<u8> {
        let mut payload = payload.to_vec();
        how.hide(&mut payload);
        payload
    }

    #[test]
    fn passwords_become_stars() {
        assert_eq!(b"****".to_vec(), hidden(Hidden::Behind(0), b"why\0"));
        assert_eq!(b"\x11***".to_vec(), hidden(Hidden::Behind(1), b"\x11ann"));
        let answer = |from, answer: &[u8]| Hidden::Answer(from, answer.to_vec());
        let change = b"\x11ann\0\x03whyshop\0";
        let wanted = b"\x11ann\0\x03***shop\0".to_vec();
        assert_eq!(wanted, hidden(answer(5, b"why"), change));
        // Of an old login the answer ends with a zero.
        let change = b"\x11ann\0why\0shop\0";
        let wanted = b"\x11ann\0***\0shop\0".to_vec();
        assert_eq!(wanted, hidden(answer(5, b"why"), change));
        // An answer may begin with what looks like its length.
        for (said, wanted) in [
            (&b"\x03\x03\x03\x03y\0"[..], &b"\x03***y\0"[..]),
            (b"\x03ab\0y\0", b"***\0y\0"),
        ] {
            let change = [b"\x11ann\0", said].concat();
            let kept = [b"\x11ann\0", wanted].concat();
            let its = if said[1] == 3 {
                &b"\x03\x03\x03"[..]
            } else {
                b"\x03ab"
            };
            assert_eq!(kept, hidden(answer(5, its), &change));
        }
        for length in [0, 1, 250, 251, 255, 256, 65535, 65536] {
            let password = vec![b'p'; length];
            let front: Vec<u8> = match length {
                0..251 => vec![length as u8],
                251..65536 => vec![0xfc, length as u8, (length >> 8) as u8],
                _ => vec![
                    0xfd,
                    length as u8,
                    (length >> 8) as u8,
                    (length >> 16) as u8,
                ],
            };
            let said = |answer: &[u8]| [b"\x11ann\0", &front[..], answer, b"shop\0"].concat();
            let found = hidden(answer(5, &password), &said(&password));
            assert_eq!(said(&vec![b'*'; length]), found, "{length}");
        }
        // By an old change of user a length of one byte goes up to 255.
        let said = |answer: &[u8]| [b"\x11ann\0\xff", answer, b"shop\0"].concat();
        let found = hidden(answer(5, &[b'p'; 255]), &said(&[b'p'; 255]));
        assert_eq!(said(&[b'*'; 255]), found);
        let old = b"\x05\x00\0\0\0ann\0why";
        assert_eq!(
            b"\x05\x00\0\0********".to_vec(),
            hidden(answer(36, b"why"), old)
        );
        let replica = b"\x15\x07\0\0\0\x02at\x03ann\x03why\xea\x0c\0\0\0\0\0\0\0\0";
        let wanted = b"\x15\x07\0\0\0\x02at\x03ann\x03***\xea\x0c\0\0\0\0\0\0\0\0";
        assert_eq!(wanted.to_vec(), hidden(Hidden::Replica, replica));
        assert_eq!(b"\x15\x07".to_vec(), hidden(Hidden::Replica, b"\x15\x07"));
        assert_eq!(b"\x03why".to_vec(), hidden(Hidden::Nothing, b"\x03why"));
    }
}
