//! What the library answers in place of OK, and where.

use crate::raw;
use std::error;
use std::fmt;

/// What a call answers that isn't done: a number that the library has a text for.
///
/// ```
/// use mysql_session::{Code, Receiver};
///
/// let error = Receiver::new(b"SELECT ?, :a", 1, 1 << 24).unwrap_err();
/// assert_eq!(error.code(), Code::MIXED);
/// assert_eq!(error.code().number(), 6);
/// assert_eq!(error.code().name(), Some("MIXED"));
/// assert_eq!(format!("{error:?}"), "Error { code: MIXED, at: None }");
/// ```
#[derive(Clone, Copy, PartialEq, Eq, Hash, PartialOrd, Ord)]
pub struct Code(u32);

/// Codes, and the table of their names.
macro_rules! codes {
    ($(
        $(#[$part:meta])*
        impl Code {
            $($(#[$about:meta])* pub const $name:ident: Code = Code($number:literal);)+
        }
    )+) => {
        $($(#[$part])* impl Code { $($(#[$about])* pub const $name: Code = Code($number);)+ })+

        /// The number and the name of each code.
        const NAMES: &[(u32, &str)] = &[$($(($number, stringify!($name)),)+)+];
    };
}

codes! {
    /// The library's own answers.
    impl Code {
        /// A growth of memory was refused.
        pub const MEMORY: Code = Code(1);
        /// A handle refers to nothing. No safe call answers it.
        pub const EMPTY_HANDLE: Code = Code(2);
        /// A handle refers to an object of another kind. No safe call answers it.
        pub const OTHER_KIND: Code = Code(3);
        /// There is no set, placeholder or column of this number.
        pub const OUT_OF_RANGE: Code = Code(4);
        /// The limit is below 4.
        pub const LIMIT_TOO_SMALL: Code = Code(5);
        /// The query has both names and question marks as placeholders.
        pub const MIXED: Code = Code(6);
        /// There is no method of this number. No safe call answers it.
        pub const NO_SUCH_ROAD: Code = Code(7);
        /// There is no kind of this number: of a value, or of a column.
        pub const NO_SUCH_KIND: Code = Code(8);
        /// Bytes of a packet are cut off, or have no such layout.
        pub const BAD_PACKET: Code = Code(9);
        /// The stream isn't whole where it ends: a packet is cut off, or long data waits.
        pub const UNFINISHED: Code = Code(10);
        /// No mode has these flags. No safe call answers it.
        pub const NO_SUCH_MODE: Code = Code(11);
    }

    /// Faults of a stream of commands.
    impl Code {
        /// A packet is larger than the limit.
        pub const FAULT_TOO_LARGE: Code = Code(100);
        /// A chunk has another number than the expected one.
        pub const FAULT_OUT_OF_SYNC: Code = Code(101);
        /// A payload has no byte.
        pub const FAULT_EMPTY_COMMAND: Code = Code(102);
        /// The first byte is no command that a receiver reads.
        pub const FAULT_OTHER_COMMAND: Code = Code(103);
        /// A text isn't the query with literals for its placeholders.
        pub const FAULT_TEXT_MISMATCH: Code = Code(104);
        /// A text comes where some placeholder of the query has no blanks around it.
        pub const FAULT_NOT_ALONE: Code = Code(105);
        /// A prepare isn't the query with question marks for its placeholders.
        pub const FAULT_PREPARE_MISMATCH: Code = Code(106);
        /// A prepare comes where the query has more than 65535 placeholders.
        pub const FAULT_TOO_MANY_PLACES: Code = Code(107);
        /// Long data or an execution comes before a prepare.
        pub const FAULT_NOT_PREPARED: Code = Code(108);
        /// The id is another statement's.
        pub const FAULT_WRONG_ID: Code = Code(109);
        /// An execution has a cursor, a count other than 1, or another length.
        pub const FAULT_BAD_EXECUTE: Code = Code(110);
        /// An execution has no types, and none are kept.
        pub const FAULT_NO_TYPES: Code = Code(111);
        /// A type is none of a parameter.
        pub const FAULT_BAD_TYPE: Code = Code(112);
        /// A value is a float.
        pub const FAULT_FLOAT: Code = Code(113);
        /// Long data is for no placeholder of the query.
        pub const FAULT_BAD_PLACE: Code = Code(114);
        /// A bulk execution has other flags or another length.
        pub const FAULT_BAD_BULK: Code = Code(115);
        /// An indicator of a bulk execution is neither none nor NULL.
        pub const FAULT_INDICATOR: Code = Code(116);
        /// A bulk execution has no row.
        pub const FAULT_NO_ROWS: Code = Code(117);
        /// Long data waits where a bulk execution comes.
        pub const FAULT_PIECES_BEFORE_BULK: Code = Code(118);
    }

    /// Why parameter sets are not sent.
    impl Code {
        /// By text: a placeholder has no blanks around it.
        pub const REFUSED_NOT_ALONE: Code = Code(200);
        /// By execution and bulk: there are more than 65535 placeholders.
        pub const REFUSED_TOO_MANY_PLACES: Code = Code(201);
        /// By execution and bulk: the prepare is larger than the limit.
        pub const REFUSED_PREPARE_TOO_LARGE: Code = Code(202);
        /// By bulk: the query has no placeholders.
        pub const REFUSED_NO_PLACES: Code = Code(203);
        /// A set gives the query no values.
        pub const REFUSED_PARAMS: Code = Code(204);
        /// A set has more or fewer values than the query has placeholders.
        pub const REFUSED_WRONG_COUNT: Code = Code(205);
        /// A value is a float.
        pub const REFUSED_FLOAT: Code = Code(206);
        /// The command of a set is larger than the limit.
        pub const REFUSED_PACKET_TOO_LARGE: Code = Code(207);
        /// By bulk: a value is of another kind than those before it for its placeholder.
        pub const REFUSED_MIXED_KINDS: Code = Code(208);
        /// By bulk: no request holds the values of a set.
        pub const REFUSED_ROW_TOO_LARGE: Code = Code(209);
    }

    /// Faults of a reply.
    impl Code {
        /// A packet is larger than the limit.
        pub const REPLY_TOO_LARGE: Code = Code(300);
        /// A chunk has another number than the expected one.
        pub const REPLY_OUT_OF_SYNC: Code = Code(301);
        /// The first packet of a result begins as none does.
        pub const REPLY_BAD_HEADER: Code = Code(302);
        /// A number of columns has no such form.
        pub const REPLY_BAD_COUNT: Code = Code(303);
        /// A column has another layout.
        pub const REPLY_BAD_COLUMN: Code = Code(304);
        /// An OK packet has another layout.
        pub const REPLY_BAD_OK: Code = Code(305);
        /// An error has another layout.
        pub const REPLY_BAD_ERROR: Code = Code(306);
        /// A row has another layout.
        pub const REPLY_BAD_ROW: Code = Code(307);
        /// The end of columns or of rows has another layout.
        pub const REPLY_BAD_TERMINATOR: Code = Code(308);
        /// The answer to a prepare has another layout.
        pub const REPLY_BAD_PREPARE: Code = Code(309);
        /// Bytes come behind the reply's end.
        pub const REPLY_AFTER_END: Code = Code(310);
    }

    /// Why a reply isn't written.
    impl Code {
        /// The reply has no result.
        pub const WRITE_NO_RESULTS: Code = Code(400);
        /// The result before this one ends the reply.
        pub const WRITE_AFTER_END: Code = Code(401);
        /// The rows before this result aren't ended.
        pub const WRITE_NOT_ENDED: Code = Code(402);
        /// No columns began these rows.
        pub const WRITE_NOT_BEGUN: Code = Code(403);
        /// The command has no such results.
        pub const WRITE_WRONG_KIND: Code = Code(404);
        /// Rows have no column.
        pub const WRITE_NO_COLUMNS: Code = Code(405);
        /// There are more than 65535 columns.
        pub const WRITE_TOO_MANY_COLUMNS: Code = Code(406);
        /// The status has a bit without a name.
        pub const WRITE_STATUS: Code = Code(407);
        /// An error would be read as a progress report.
        pub const WRITE_READS_AS_REPORT: Code = Code(408);
        /// A row has more or fewer cells than there are columns.
        pub const WRITE_CELL_COUNT: Code = Code(409);
        /// The type of a cell's column has no form for its value.
        pub const WRITE_NO_FORM: Code = Code(410);
        /// A payload is larger than the limit.
        pub const WRITE_PACKET_TOO_LARGE: Code = Code(411);
    }

    /// Why bytes of a connection are refused, its faults, and why payloads aren't put on it.
    impl Code {
        /// The side's stream has ended.
        pub const CONNECTION_CLOSED: Code = Code(500);
        /// More of the side would wait unread than its longest payload takes.
        pub const CONNECTION_HELD: Code = Code(501);
        /// A payload is longer than the limit of its side.
        pub const CONNECTION_TOO_LARGE: Code = Code(510);
        /// A packet has another number than the expected one.
        pub const CONNECTION_OUT_OF_SYNC: Code = Code(511);
        /// The protocol isn't that of version 4.1.
        pub const CONNECTION_OLD_PROTOCOL: Code = Code(512);
        /// The greeting can't be read.
        pub const CONNECTION_BAD_GREETING: Code = Code(513);
        /// The login is cut off.
        pub const CONNECTION_BAD_LOGIN: Code = Code(514);
        /// The request for another plugin can't be read.
        pub const CONNECTION_BAD_SWITCH: Code = Code(515);
        /// The server says what nothing asked for.
        pub const CONNECTION_UNASKED: Code = Code(516);
        /// More would be kept of statements, columns and long data than the limit leaves.
        pub const CONNECTION_KEPT: Code = Code(517);
        /// The client says more behind a quit.
        pub const CONNECTION_AFTER_QUIT: Code = Code(518);
        /// That side of a reply has no payload now.
        pub const CONNECTION_NOT_DUE: Code = Code(519);
        /// It isn't the turn of this side's payload, so that it can't be put.
        pub const CONNECTION_NOT_ITS_TURN: Code = Code(520);
        /// The statement whose sets are put isn't known.
        pub const CONNECTION_UNKNOWN_STATEMENT: Code = Code(521);
        /// The server counted another number of parameters than the query has placeholders.
        pub const CONNECTION_WRONG_COUNT: Code = Code(522);
    }
}

impl Code {
    /// The number, as the library answers it.
    pub fn number(self) -> u32 {
        self.0
    }

    /// The name, as the constants of this type have it; none of a number that has no constant.
    pub fn name(self) -> Option<&'static str> {
        let found = NAMES.iter().find(|(number, _)| *number == self.0);
        found.map(|(_, name)| *name)
    }

    /// Whether it is a fault of a stream of commands that a payload has.
    pub(crate) fn is_stream_fault(self) -> bool {
        (Code::FAULT_TOO_LARGE..=Code::FAULT_PIECES_BEFORE_BULK).contains(&self)
    }

    /// The library's text of the code.
    pub fn text(self) -> &'static str {
        let mut text = raw::Text::default();
        // SAFETY: "Results go out": both pointers are those of fields of one local.
        unsafe { raw::mysql_session_code_text(self.0, &mut text.at, &mut text.len) };
        // SAFETY: "It is good as long as the program runs."
        let bytes = unsafe { text.bytes::<'static>() };
        std::str::from_utf8(bytes).expect("the text of a code is in English")
    }
}

impl fmt::Display for Code {
    fn fmt(&self, formatter: &mut fmt::Formatter<'_>) -> fmt::Result {
        formatter.write_str(self.text())
    }
}

/// The code's name.
impl fmt::Debug for Code {
    fn fmt(&self, formatter: &mut fmt::Formatter<'_>) -> fmt::Result {
        match self.name() {
            Some(name) => formatter.write_str(name),
            None => write!(formatter, "Code({})", self.0),
        }
    }
}

impl error::Error for Code {}

/// What the library answers: done, or a code.
pub(crate) fn answer(number: u32) -> Result<(), Code> {
    match number {
        0 => Ok(()),
        _ => Err(Code(number)),
    }
}

/// The same of a call that has no other answer than OK. It goes by the kind of the object and by
/// numbers that were looked up before.
pub(crate) fn certain(number: u32) {
    if let Err(code) = answer(number) {
        panic!("the library answers {code:?}: {code}");
    }
}

/// The code of a number that the library shows, not as an answer.
pub(crate) fn shown_code(number: u32) -> Code {
    Code(number)
}

/// The same of a call whose only other answer is that there is nothing of this number.
pub(crate) fn in_range(number: u32) -> bool {
    if number == Code::OUT_OF_RANGE.number() {
        return false;
    }
    certain(number);
    true
}

/// What speaks against a stream that is read: from then on each feed answers the same.
#[derive(Clone, Copy, Debug, PartialEq, Eq, Hash)]
pub struct Fault(pub(crate) Code);

impl Fault {
    /// The fault's code, which is [`Code::MEMORY`] where a growth of memory was refused.
    pub fn code(self) -> Code {
        self.0
    }

    pub(crate) fn of(number: u32) -> Result<(), Fault> {
        answer(number).map_err(Fault)
    }

    /// The fault of a number that the library shows, not as an answer.
    pub(crate) fn shown(number: u32) -> Fault {
        Fault(Code(number))
    }
}

impl fmt::Display for Fault {
    fn fmt(&self, formatter: &mut fmt::Formatter<'_>) -> fmt::Result {
        self.0.fmt(formatter)
    }
}

impl error::Error for Fault {}

/// How a stream ends.
#[derive(Clone, Copy, Debug, PartialEq, Eq, Hash)]
pub enum End {
    /// Whole.
    Whole,
    /// The last packet isn't whole.
    UnfinishedPacket,
    /// Long data waits for an execution.
    WaitingPieces,
    /// A payload has a fault.
    Fault {
        /// The payload's number, from 0.
        payload: u64,
        /// Its fault.
        fault: Fault,
    },
}

impl End {
    pub(crate) fn of(kind: u32, payload: u64, fault: u32) -> End {
        match kind {
            0 => End::Whole,
            1 => End::UnfinishedPacket,
            2 => End::WaitingPieces,
            3 => End::Fault {
                payload,
                fault: Fault::shown(fault),
            },
            _ => panic!("the header has no kind {kind} of an end"),
        }
    }
}

impl fmt::Display for End {
    fn fmt(&self, formatter: &mut fmt::Formatter<'_>) -> fmt::Result {
        match self {
            End::Whole => formatter.write_str("whole"),
            End::UnfinishedPacket => formatter.write_str("the last packet isn't whole"),
            End::WaitingPieces => formatter.write_str("long data waits for an execution"),
            End::Fault { payload, fault } => write!(formatter, "payload {payload}: {fault}"),
        }
    }
}

/// Where it is that a call isn't done; all numbers are from 0.
#[derive(Clone, Copy, Debug, PartialEq, Eq, Hash)]
pub enum At {
    /// A place of the query.
    Place(usize),
    /// A parameter set.
    Set(usize),
    /// A value of a parameter set.
    Value {
        /// The set.
        set: usize,
        /// The position in it.
        place: usize,
    },
    /// A payload of the stream that is read or written.
    Payload(u64),
    /// A byte of the packets that are put.
    Byte(usize),
    /// The end of a stream that isn't whole.
    End(End),
    /// A result of a reply.
    Result(usize),
    /// A row of a result.
    Row {
        /// The result.
        result: usize,
        /// The row of it.
        row: usize,
    },
    /// A cell of a row.
    Cell {
        /// The result.
        result: usize,
        /// The row of it.
        row: usize,
        /// The column.
        place: usize,
    },
}

impl fmt::Display for At {
    fn fmt(&self, formatter: &mut fmt::Formatter<'_>) -> fmt::Result {
        match self {
            At::Place(place) => write!(formatter, "place {place}"),
            At::Set(set) => write!(formatter, "set {set}"),
            At::Value { set, place } => write!(formatter, "set {set}, place {place}"),
            At::Payload(payload) => write!(formatter, "payload {payload}"),
            At::Byte(byte) => write!(formatter, "byte {byte}"),
            At::End(end) => end.fmt(formatter),
            At::Result(result) => write!(formatter, "result {result}"),
            At::Row { result, row } => write!(formatter, "result {result}, row {row}"),
            At::Cell { result, row, place } => {
                write!(formatter, "result {result}, row {row}, place {place}")
            }
        }
    }
}

/// Why a call isn't done: a code, and where, as far as the code says it.
///
/// Its text is the library's, with the position behind it:
///
/// ```
/// use mysql_session::{send, At, Bytes, Code, ParameterSets, Road};
///
/// # fn main() -> Result<(), mysql_session::Error> {
/// let mut sets = ParameterSets::new()?;
/// sets.add(&[1.into(), 2.into()])?;
/// sets.add(&[3.into()])?;
/// let mut out = Bytes::new()?;
/// let error = send(&sets, b"SELECT ?, ?", Road::Text, 1, 1 << 24, &mut out).unwrap_err();
/// assert_eq!(error.code(), Code::REFUSED_WRONG_COUNT);
/// assert_eq!(error.at(), Some(At::Set(1)));
/// assert_eq!(error.to_string(), format!("{} (set 1)", error.code()));
/// # Ok(())
/// # }
/// ```
#[derive(Clone, Copy, Debug, PartialEq, Eq, Hash)]
pub struct Error {
    code: Code,
    at: Option<At>,
}

impl Error {
    pub(crate) fn new(code: Code, at: Option<At>) -> Error {
        Error { code, at }
    }

    /// The code.
    pub fn code(&self) -> Code {
        self.code
    }

    /// Where it is; none where the code doesn't say it.
    pub fn at(&self) -> Option<At> {
        self.at
    }
}

impl From<Code> for Error {
    fn from(code: Code) -> Error {
        Error { code, at: None }
    }
}

impl From<Fault> for Error {
    fn from(fault: Fault) -> Error {
        fault.0.into()
    }
}

impl fmt::Display for Error {
    fn fmt(&self, formatter: &mut fmt::Formatter<'_>) -> fmt::Result {
        match self.at {
            Some(at) => write!(formatter, "{} ({at})", self.code),
            None => self.code.fmt(formatter),
        }
    }
}

impl error::Error for Error {}
