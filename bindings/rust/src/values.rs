//! Values that are sent, and that rows hold.

use crate::raw;
use crate::readable::Readable;
use std::fmt;

/// What a place of a parameter set holds that was read from a stream of commands.
#[derive(Clone, Copy, PartialEq, Eq, Hash)]
pub enum Content<'a> {
    /// NULL.
    Null,
    /// A whole number that 64 bits with a sign hold.
    Int(i64),
    /// A whole number of 2^63 or more.
    UInt(u64),
    /// Bytes, as the receiver has them.
    Bytes(&'a [u8]),
}

impl fmt::Debug for Content<'_> {
    fn fmt(&self, formatter: &mut fmt::Formatter<'_>) -> fmt::Result {
        match self {
            Content::Null => formatter.write_str("Null"),
            Content::Int(number) => formatter.debug_tuple("Int").field(number).finish(),
            Content::UInt(number) => formatter.debug_tuple("UInt").field(number).finish(),
            Content::Bytes(bytes) => formatter
                .debug_tuple("Bytes")
                .field(&Readable(bytes))
                .finish(),
        }
    }
}

impl<'a> Content<'a> {
    /// What the library showed.
    ///
    /// # Safety
    /// The library wrote the fields, and the bytes stay as they are for `'a`.
    pub(crate) unsafe fn of(shown: raw::Content) -> Content<'a> {
        match shown.kind {
            0 => Content::Null,
            1 => Content::Int(shown.int_value),
            2 => Content::UInt(shown.uint_value),
            // SAFETY: by this call's condition.
            3 => Content::Bytes(unsafe { shown.bytes.bytes() }),
            kind => panic!("the header has no kind {kind} of a content"),
        }
    }
}

/// A date, with its time of day. No field is checked. Its text is that of a literal, with the time of
/// day where there is one:
///
/// ```
/// use mysql_session::Date;
///
/// let day = Date { year: 2024, month: 2, day: 29, ..Date::default() };
/// assert_eq!(day.to_string(), "2024-02-29");
/// assert_eq!(Date { hour: 8, micros: 20, ..day }.to_string(), "2024-02-29 08:00:00.000020");
/// ```
#[derive(Clone, Copy, Debug, Default, PartialEq, Eq, Hash)]
pub struct Date {
    /// The year.
    pub year: u16,
    /// The month, from 1.
    pub month: u8,
    /// The day of the month, from 1.
    pub day: u8,
    /// The hour.
    pub hour: u8,
    /// The minute.
    pub minute: u8,
    /// The second.
    pub second: u8,
    /// The microseconds.
    pub micros: u32,
}

impl fmt::Display for Date {
    fn fmt(&self, formatter: &mut fmt::Formatter<'_>) -> fmt::Result {
        let Date {
            year, month, day, ..
        } = self;
        write!(formatter, "{year:04}-{month:02}-{day:02}")?;
        let (hour, minute, second) = (self.hour, self.minute, self.second);
        if (hour, minute, second, self.micros) != (0, 0, 0, 0) {
            write!(formatter, " {hour:02}:{minute:02}:{second:02}")?;
        }
        write_micros(self.micros, formatter)
    }
}

/// Writes the microseconds behind a time, where there are any.
fn write_micros(micros: u32, formatter: &mut fmt::Formatter<'_>) -> fmt::Result {
    match micros {
        0 => Ok(()),
        _ => write!(formatter, ".{micros:06}"),
    }
}

/// A duration. No field is checked. Its text is that of a literal:
///
/// ```
/// use mysql_session::Time;
///
/// let time = Time { negative: true, days: 34, hours: 22, micros: 500_000, ..Time::default() };
/// assert_eq!(time.to_string(), "-838:00:00.500000");
/// ```
#[derive(Clone, Copy, Debug, Default, PartialEq, Eq, Hash)]
pub struct Time {
    /// Whether it is below zero.
    pub negative: bool,
    /// The days.
    pub days: u32,
    /// The hours.
    pub hours: u8,
    /// The minutes.
    pub minutes: u8,
    /// The seconds.
    pub seconds: u8,
    /// The microseconds.
    pub micros: u32,
}

impl fmt::Display for Time {
    fn fmt(&self, formatter: &mut fmt::Formatter<'_>) -> fmt::Result {
        let hours = u64::from(self.days) * 24 + u64::from(self.hours);
        let (sign, minutes, seconds) = (
            if self.negative { "-" } else { "" },
            self.minutes,
            self.seconds,
        );
        write!(formatter, "{sign}{hours:02}:{minutes:02}:{seconds:02}")?;
        write_micros(self.micros, formatter)
    }
}

/// A value: a parameter that is sent, or what a cell of a row holds.
///
/// Whole numbers of the widths up to 32 bits, `i64`, `isize` and `bool` become [`Value::Int`], a `u64`
/// or `usize` [`Value::UInt`]. An `f32` becomes [`Value::Float`], an `f64` [`Value::Double`]. A text
/// or bytes become [`Value::Bytes`], and `None` becomes [`Value::Null`].
#[derive(Clone, Copy, PartialEq)]
pub enum Value<'a> {
    /// NULL.
    Null,
    /// A whole number with a sign.
    Int(i64),
    /// A whole number without a sign.
    UInt(u64),
    /// Bytes, among them texts.
    Bytes(&'a [u8]),
    /// A float: a cell, or a parameter of [`put_execution`](crate::put_execution) alone.
    Float(f32),
    /// A double: a cell, or a parameter of [`put_execution`](crate::put_execution) alone.
    Double(f64),
    /// A date.
    Date(Date),
    /// A duration.
    Time(Time),
}

impl fmt::Debug for Value<'_> {
    fn fmt(&self, formatter: &mut fmt::Formatter<'_>) -> fmt::Result {
        match self {
            Value::Null => formatter.write_str("Null"),
            Value::Int(number) => formatter.debug_tuple("Int").field(number).finish(),
            Value::UInt(number) => formatter.debug_tuple("UInt").field(number).finish(),
            Value::Bytes(bytes) => formatter
                .debug_tuple("Bytes")
                .field(&Readable(bytes))
                .finish(),
            Value::Float(number) => formatter.debug_tuple("Float").field(number).finish(),
            Value::Double(number) => formatter.debug_tuple("Double").field(number).finish(),
            Value::Date(date) => formatter.debug_tuple("Date").field(date).finish(),
            Value::Time(time) => formatter.debug_tuple("Time").field(time).finish(),
        }
    }
}

impl<'a> Value<'a> {
    /// What the library showed.
    ///
    /// # Safety
    /// The library wrote the fields, and the bytes stay as they are for `'a`.
    #[inline]
    pub(crate) unsafe fn of(shown: raw::Value) -> Value<'a> {
        match shown.kind {
            0 => Value::Null,
            1 => Value::Int(shown.int_value),
            2 => Value::UInt(shown.uint_value),
            // SAFETY: by this call's condition.
            3 => Value::Bytes(unsafe { shown.bytes.bytes() }),
            4 => Value::Float(f32::from_bits(shown.uint_value as u32)),
            5 => Value::Double(f64::from_bits(shown.uint_value)),
            6 => Value::Date(date_of(&shown)),
            7 => Value::Time(time_of(&shown)),
            kind => panic!("the header has no kind {kind} of a value"),
        }
    }

    /// The value as an element of the library's array: its bytes go behind `bytes`.
    pub(crate) fn parameter(&self, bytes: &mut Vec<u8>) -> raw::Parameter {
        let mut parameter = raw::Parameter::default();
        match *self {
            Value::Null => parameter.kind = 0,
            Value::Int(number) => {
                parameter.kind = 1;
                parameter.int_value = number;
            }
            Value::UInt(number) => {
                parameter.kind = 2;
                parameter.uint_value = number;
            }
            Value::Bytes(text) => {
                parameter.kind = 3;
                parameter.start = bytes.len();
                parameter.len = text.len();
                bytes.extend_from_slice(text);
            }
            Value::Float(number) => {
                parameter.kind = 4;
                parameter.uint_value = number.to_bits().into();
            }
            Value::Double(number) => {
                parameter.kind = 5;
                parameter.uint_value = number.to_bits();
            }
            Value::Date(date) => set_date(&mut parameter, date),
            Value::Time(time) => set_time(&mut parameter, time),
        }
        parameter
    }
}

fn date_of(shown: &raw::Value) -> Date {
    Date {
        year: shown.year,
        month: shown.month,
        day: shown.day,
        hour: shown.hour,
        minute: shown.minute,
        second: shown.second,
        micros: shown.micros,
    }
}

fn time_of(shown: &raw::Value) -> Time {
    Time {
        negative: shown.negative,
        days: shown.days,
        hours: shown.hour,
        minutes: shown.minute,
        seconds: shown.second,
        micros: shown.micros,
    }
}

fn set_date(parameter: &mut raw::Parameter, date: Date) {
    parameter.kind = 6;
    parameter.year = date.year;
    parameter.month = date.month;
    parameter.day = date.day;
    parameter.hour = date.hour;
    parameter.minute = date.minute;
    parameter.second = date.second;
    parameter.micros = date.micros;
}

fn set_time(parameter: &mut raw::Parameter, time: Time) {
    parameter.kind = 7;
    parameter.negative = time.negative;
    parameter.days = time.days;
    parameter.hour = time.hours;
    parameter.minute = time.minutes;
    parameter.second = time.seconds;
    parameter.micros = time.micros;
}

impl<'a> From<Content<'a>> for Value<'a> {
    fn from(content: Content<'a>) -> Value<'a> {
        match content {
            Content::Null => Value::Null,
            Content::Int(number) => Value::Int(number),
            Content::UInt(number) => Value::UInt(number),
            Content::Bytes(bytes) => Value::Bytes(bytes),
        }
    }
}

/// Whole numbers that become numbers with a sign.
macro_rules! from_number {
    ($($number:ty),*) => {
        $(impl From<$number> for Value<'_> {
            fn from(number: $number) -> Self {
                Value::Int(number.into())
            }
        })*
    };
}

from_number!(i8, i16, i32, i64, u8, u16, u32, bool);

impl From<isize> for Value<'_> {
    fn from(number: isize) -> Self {
        Value::Int(number as i64)
    }
}

impl From<usize> for Value<'_> {
    fn from(number: usize) -> Self {
        Value::UInt(number as u64)
    }
}

impl From<u64> for Value<'_> {
    fn from(number: u64) -> Self {
        Value::UInt(number)
    }
}

impl From<f32> for Value<'_> {
    fn from(number: f32) -> Self {
        Value::Float(number)
    }
}

impl From<f64> for Value<'_> {
    fn from(number: f64) -> Self {
        Value::Double(number)
    }
}

impl<'a> From<&'a [u8]> for Value<'a> {
    fn from(bytes: &'a [u8]) -> Value<'a> {
        Value::Bytes(bytes)
    }
}

impl<'a, const LENGTH: usize> From<&'a [u8; LENGTH]> for Value<'a> {
    fn from(bytes: &'a [u8; LENGTH]) -> Value<'a> {
        Value::Bytes(bytes)
    }
}

impl<'a> From<&'a Vec<u8>> for Value<'a> {
    fn from(bytes: &'a Vec<u8>) -> Value<'a> {
        Value::Bytes(bytes)
    }
}

impl<'a> From<&'a str> for Value<'a> {
    fn from(text: &'a str) -> Value<'a> {
        Value::Bytes(text.as_bytes())
    }
}

impl<'a> From<&'a String> for Value<'a> {
    fn from(text: &'a String) -> Value<'a> {
        Value::Bytes(text.as_bytes())
    }
}

impl From<Date> for Value<'_> {
    fn from(date: Date) -> Self {
        Value::Date(date)
    }
}

impl From<Time> for Value<'_> {
    fn from(time: Time) -> Self {
        Value::Time(time)
    }
}

impl<'a, T: Into<Value<'a>>> From<Option<T>> for Value<'a> {
    fn from(value: Option<T>) -> Value<'a> {
        value.map_or(Value::Null, Into::into)
    }
}
