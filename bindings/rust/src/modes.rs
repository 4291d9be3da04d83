//! How a server reads a text, by its SQL mode.

use crate::handle::check_interface;
use crate::raw;
use crate::results::OkPacket;

/// The SQL mode of a server, as far as it changes how a text is read. The default has neither.
///
/// Two modes change where a string ends. What is made for a server in one of them may be something
/// else in another. A value may end its literal there, and what follows the quote is read as SQL.
/// So take the mode of the session, which [`Connection::mode`](crate::Connection::mode) tells.
///
/// (MySQL Reference Manual, "Server SQL Modes".)
///
/// ```
/// use mysql_session::{bind_text_in, Bytes, Mode, ParameterSets, Spelling};
///
/// # fn main() -> Result<(), mysql_session::Error> {
/// let mut sets = ParameterSets::new()?;
/// sets.add(&["' OR 1=1 -- ".into()])?;
/// let told = Mode::of_sql_mode(b"STRICT_TRANS_TABLES,NO_BACKSLASH_ESCAPES");
/// let mode = told.expect("both names are known");
/// let mut out = Bytes::new()?;
/// bind_text_in(&sets, 0, b"SELECT ?", mode, Spelling::Quoted, &mut out)?;
/// assert_eq!(out.as_slice(), b"SELECT ''' OR 1=1 -- '");
/// # Ok(())
/// # }
/// ```
#[derive(Clone, Copy, Debug, Default, PartialEq, Eq, Hash)]
pub struct Mode {
    /// A backslash in a string is a byte like any other.
    pub no_backslash_escapes: bool,
    /// Double quotes are those of identifiers, as backticks are.
    pub ansi_quotes: bool,
}

impl Mode {
    /// The mode that the status of a server tells, as its greeting and its OK and EOF packets have
    /// it.
    ///
    /// MySQL tells NO_BACKSLASH_ESCAPES in its status and not ANSI_QUOTES, for which the bit is
    /// MariaDB's. Behind a procedure that changed the mode a status may tell another one than the
    /// server is in. Better go by [`Connection::mode`](crate::Connection::mode). A packet with
    /// MariaDB's bit, which has no name in MySQL's protocol, is refused by
    /// [`ReplyReader`](crate::ReplyReader).
    ///
    /// (MySQL: Client/Server Protocol, "Status Flags"; MariaDB Server Documentation, "OK_Packet".)
    ///
    /// ```
    /// use mysql_session::Mode;
    ///
    /// assert_eq!(Mode::of(2), Mode::default());
    /// assert!(Mode::of(0x202).no_backslash_escapes);
    /// assert!(Mode::of(0x8002).ansi_quotes);
    /// ```
    pub fn of(status: u16) -> Mode {
        check_interface();
        // SAFETY: the call has no condition.
        Mode::told(unsafe { raw::mysql_session_mode_of_status(status) })
    }

    /// The mode that the value of the variable `sql_mode` tells: names between commas, their
    /// letters in any case, blanks around them not counted.
    ///
    /// ANSI_QUOTES is also told by each name that contains it. These are ANSI, and DB2, MAXDB, ORACLE
    /// and POSTGRESQL, which MariaDB and MySQL before 8.0 have. Other names of both manuals say
    /// nothing of how a text is read.
    ///
    /// None where a name is in neither manual, or is MSSQL, in which `[` and `]` quote names: the
    /// mode isn't known. Take [`Spelling::Hexadecimal`], or an execution.
    ///
    /// (MySQL Reference Manual, "Server SQL Modes", "Server Tracking of Client Session State";
    /// MariaDB Server Documentation, "SQL_MODE".)
    pub fn of_sql_mode(value: &[u8]) -> Option<Mode> {
        check_interface();
        // SAFETY: "Bytes go in": the value is a slice.
        Mode::known(unsafe { raw::mysql_session_mode_of_sql_mode(value.as_ptr(), value.len()) })
    }

    /// The mode that the library's flags tell, where it is known.
    fn known(flags: u32) -> Option<Mode> {
        (flags & raw::UNKNOWN_MODE == 0).then(|| Mode::told(flags))
    }

    /// The mode that the library's flags tell.
    fn told(flags: u32) -> Mode {
        Mode {
            no_backslash_escapes: flags & raw::NO_BACKSLASH_ESCAPES != 0,
            ansi_quotes: flags & raw::ANSI_QUOTES != 0,
        }
    }

    /// The library's flags of the mode.
    pub(crate) fn flags(self) -> u32 {
        let mut flags = 0;
        if self.no_backslash_escapes {
            flags |= raw::NO_BACKSLASH_ESCAPES;
        }
        if self.ansi_quotes {
            flags |= raw::ANSI_QUOTES;
        }
        flags
    }

    /// The library's flags of the mode with a spelling.
    pub(crate) fn flags_with(self, spelling: Spelling) -> u32 {
        match spelling {
            Spelling::Quoted => self.flags(),
            Spelling::Hexadecimal => self.flags() | raw::HEXADECIMAL,
        }
    }
}

/// How byte strings are spelled where values are written as literals. Numbers and NULL are spelled
/// as ever, and dates and durations are in quotes.
///
/// (MySQL Reference Manual, "String Literals", "Hexadecimal Literals", "Character Set
/// Introducers".)
#[derive(Clone, Copy, Debug, Default, PartialEq, Eq, Hash)]
pub enum Spelling {
    /// UTF-8 between single quotes, by the mode of the server, and other bytes as `0x` and digits.
    /// Those are a number where a server wants one.
    #[default]
    Quoted,
    /// `_utf8mb4 0x` and two digits for each byte of UTF-8, `_binary 0x` and digits for other bytes,
    /// and `''` for no bytes. They are the same in each mode and each character set, and a text or a
    /// string of bytes also where a number is wanted.
    Hexadecimal,
}

/// The text that asks a server for the mode and the character set of its session.
///
/// It may be sent any number of times, at each server, and keeps all that was tracked. Its OK packet
/// tells both where both sides have `CLIENT_SESSION_TRACK`; else texts stay in hexadecimal.
///
/// (MySQL Reference Manual, "Server Tracking of Client Session State".)
pub const ASK_SESSION_MODE: &[u8] = b"SET session_track_system_variables = '*', \
    sql_mode = @@sql_mode, character_set_client = @@character_set_client";

/// What is known of a session's SQL mode and character set, by what was said so far.
///
/// A [`Connection`](crate::Connection) keeps it. A program that has none goes on with it by itself,
/// behind each statement and each OK packet. The default is that nothing is known. Take it behind a
/// login, a change of user and a reset, and ask by [`ASK_SESSION_MODE`].
///
/// Nothing is concluded from a status, a login or silence. A procedure's mode remains in the status
/// of MariaDB. MySQL's has no bit of ANSI_QUOTES. And `init_connect` changes both behind a login.
///
/// (MySQL Reference Manual, "Server SQL Modes", "Connection Character Sets and Collations", "Server
/// Tracking of Client Session State".)
///
/// ```
/// use mysql_session::{Mode, OkPacket, SessionMode, Spelling, ASK_SESSION_MODE};
///
/// let asked = SessionMode::default().behind_text(ASK_SESSION_MODE);
/// assert_eq!((asked.mode, asked.spelling()), (None, Spelling::Hexadecimal));
/// let state_changes = b"\0\x27\x08sql_mode\0\x14character_set_client\x07utf8mb4";
/// let told = asked.behind_ok(&OkPacket { state_changes, ..OkPacket::default() });
/// assert_eq!((told.mode, told.spelling()), (Some(Mode::default()), Spelling::Quoted));
/// let later = told.behind_text(b"SET NAMES gbk");
/// assert_eq!((later.mode, later.spelling()), (Some(Mode::default()), Spelling::Hexadecimal));
/// ```
#[derive(Clone, Copy, Debug, Default, PartialEq, Eq, Hash)]
pub struct SessionMode {
    /// The session's mode, where it is known.
    ///
    /// Where it isn't, a query with a backslash may have other placeholders than it seems: take an
    /// execution for it.
    pub mode: Option<Mode>,
    /// Whether quotes are safe in the session's character set, where it is known.
    pub is_safe_set: Option<bool>,
    /// Whether what the next OK packet tells counts.
    pub counts: bool,
}

impl SessionMode {
    /// How byte strings are spelled in a text for the session. It is [`Spelling::Quoted`] only where
    /// the mode is known, and quotes are known to be safe in its character set.
    pub fn spelling(self) -> Spelling {
        match (self.mode, self.is_safe_set) {
            (Some(_), Some(true)) => Spelling::Quoted,
            _ => Spelling::Hexadecimal,
        }
    }

    /// Behind a statement that is sent as this text, or that is executed as it was prepared of it.
    /// Call it for each, before its reply is looked at, whether it is answered or refused.
    ///
    /// What was known stays behind one statement that begins with a word as SELECT, INSERT, COMMIT or
    /// CALL. Behind a SET the mode or the character set that it names isn't known, and behind all else
    /// neither is. A prepare, a close, a ping and the like change nothing.
    #[must_use]
    pub fn behind_text(self, text: &[u8]) -> SessionMode {
        // SAFETY: "Bytes go in": the text is a slice; "Results go out": a local.
        self.changed(|known| unsafe {
            raw::mysql_session_known_behind_text(known, text.as_ptr(), text.len());
        })
    }

    /// Behind an OK packet of the reply to that statement: one that is a result, or ends columns or
    /// rows.
    ///
    /// What it tells of `sql_mode` and `character_set_client` is known then. It isn't where further
    /// results follow, where the text has the word STATEMENT, or where it can't be read.
    #[must_use]
    pub fn behind_ok(self, packet: &OkPacket<'_>) -> SessionMode {
        let changes = packet.state_changes;
        // SAFETY: as in `behind_text`.
        self.changed(|known| unsafe {
            raw::mysql_session_known_behind_ok(
                known,
                packet.status,
                changes.as_ptr(),
                changes.len(),
            );
        })
    }

    /// What the library goes on to.
    fn changed(self, change: impl FnOnce(&mut raw::Known)) -> SessionMode {
        check_interface();
        let mut known = raw::Known::from(self);
        change(&mut known);
        known.into()
    }
}

impl From<raw::Known> for SessionMode {
    fn from(known: raw::Known) -> SessionMode {
        let is_safe_set = known.flags & raw::HEXADECIMAL == 0;
        SessionMode {
            mode: Mode::known(known.flags),
            is_safe_set: known.set_known.then_some(is_safe_set),
            counts: known.counts,
        }
    }
}

impl From<SessionMode> for raw::Known {
    fn from(session: SessionMode) -> raw::Known {
        let mode = session.mode.map_or(raw::UNKNOWN_MODE, Mode::flags);
        let spelling = match session.is_safe_set {
            Some(true) => 0,
            _ => raw::HEXADECIMAL,
        };
        raw::Known {
            flags: mode | spelling,
            set_known: session.is_safe_set.is_some(),
            counts: session.counts,
        }
    }
}

/// Whether literals in quotes are safe in a text that a server reads in this collation, which is
/// told by its id.
///
/// In some character sets a quote, a backslash or a backtick can be the second byte of a character.
/// A server that reads a text so may take the byte before a quote and the quote for one character,
/// and the string goes on. There take [`Spelling::Hexadecimal`], or an execution.
///
/// False for collations of big5, sjis, gbk, cp932 and gb18030, for gb2312_bin, and for MariaDB's of
/// these without padding, whose ids are greater by 1024.
///
/// (MySQL Reference Manual, "Supported Character Sets and Collations"; MariaDB Server
/// Documentation, "Supported Character Sets and Collations".)
///
/// ```
/// use mysql_session::is_safe_to_quote;
///
/// assert!(is_safe_to_quote(45)); // utf8mb4_general_ci
/// assert!(!is_safe_to_quote(28)); // gbk_chinese_ci
/// ```
pub fn is_safe_to_quote(collation: u16) -> bool {
    check_interface();
    // SAFETY: the call has no condition.
    unsafe { raw::mysql_session_is_safe_to_quote(collation) != 0 }
}
