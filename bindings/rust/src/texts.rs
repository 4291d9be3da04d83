//! Numbers, dates and durations as texts have them.
//!
//! MySQL Reference Manual, "Date and Time Literals", "The TIME Type".

use crate::values::{Date, Time};
use std::fmt::{Display, LowerExp};
use std::str::{from_utf8, FromStr};
use std::time::Duration;

/// The number that a text is, as Rust reads it; no text of letters alone is one, as `inf` and
/// `nan`.
pub(crate) fn number_in<T: FromStr>(text: &[u8]) -> Option<T> {
    let has_digit = text.iter().any(u8::is_ascii_digit);
    has_digit.then(|| from_utf8(text).ok()?.parse().ok())?
}

/// The float that a text is, where one is as large.
pub(crate) fn float_in<T: FromStr + Copy + Into<f64>>(text: &[u8]) -> Option<T> {
    number_in(text).filter(|number: &T| (*number).into().is_finite())
}

/// The text of a float: the shortest that is read as the same one. As a server's it has an exponent
/// below 1e-15 and from 1e15 on.
pub(crate) fn float_text<T: LowerExp + Display + Copy + Into<f64>>(number: T) -> String {
    let size = number.into().abs();
    match (1e-15..1e15).contains(&size) || size == 0.0 {
        true => number.to_string(),
        false => format!("{number:e}"),
    }
}

/// The date that a text is: year, month and day, and behind a blank the time of day.
pub(crate) fn date_in(text: &[u8]) -> Option<Date> {
    let mut left = Left(text);
    let year = left.number(4)?;
    let month = left.number_behind(b'-', 2)?;
    let day = left.number_behind(b'-', 2)?;
    let mut date = Date {
        year,
        month: month as u8,
        day: day as u8,
        ..Date::default()
    };
    if left.take(b' ') {
        date.hour = left.number(2)? as u8;
        (date.minute, date.second) = left.minutes_and_seconds()?;
        date.micros = left.fraction()?;
    }
    left.is_empty().then_some(date)
}

/// The duration that a text is: two or three digits of hours, minutes and seconds, perhaps behind
/// a minus.
pub(crate) fn time_in(text: &[u8]) -> Option<Time> {
    let mut left = Left(text);
    let negative = left.take(b'-');
    let hours = left.number(3).or_else(|| left.number(2))?;
    let (minutes, seconds) = left.minutes_and_seconds()?;
    let micros = left.fraction()?;
    let time = Time {
        negative,
        days: u32::from(hours / 24),
        hours: (hours % 24) as u8,
        minutes,
        seconds,
        micros,
    };
    left.is_empty().then_some(time)
}

/// A duration as Rust has it; none of a negative one.
pub(crate) fn duration_in(time: Time) -> Option<Duration> {
    if time.negative {
        return None;
    }
    let hours = u64::from(time.days) * 24 + u64::from(time.hours);
    let seconds = (hours * 60 + u64::from(time.minutes)) * 60 + u64::from(time.seconds);
    Some(Duration::from_secs(seconds) + Duration::from_micros(time.micros.into()))
}

/// What is left of a text that is read from the left.
struct Left<'a>(&'a [u8]);

impl Left<'_> {
    fn is_empty(&self) -> bool {
        self.0.is_empty()
    }

    /// Takes this byte, where it is the next one.
    fn take(&mut self, byte: u8) -> bool {
        let found = self.0.first() == Some(&byte);
        if found {
            self.0 = &self.0[1..];
        }
        found
    }

    /// Takes a number of so many digits, at most four; nothing where there are fewer.
    fn number(&mut self, digits: usize) -> Option<u16> {
        let (taken, left) = self.0.split_at_checked(digits)?;
        if !taken.iter().all(u8::is_ascii_digit) {
            return None;
        }
        self.0 = left;
        from_utf8(taken).ok()?.parse().ok()
    }

    /// Takes a byte and a number behind it.
    fn number_behind(&mut self, byte: u8, digits: usize) -> Option<u16> {
        self.take(byte).then(|| self.number(digits))?
    }

    /// Takes minutes and seconds, each below 60 and behind a colon.
    fn minutes_and_seconds(&mut self) -> Option<(u8, u8)> {
        let minutes = self.number_behind(b':', 2)?;
        let seconds = self.number_behind(b':', 2)?;
        (minutes < 60 && seconds < 60).then_some((minutes as u8, seconds as u8))
    }

    /// Takes a point and one to six digits, which are the microseconds; 0 without a point.
    fn fraction(&mut self) -> Option<u32> {
        if !self.take(b'.') {
            return Some(0);
        }
        let digits = self.0.iter().take_while(|it| it.is_ascii_digit()).count();
        if !(1..=6).contains(&digits) {
            return None;
        }
        let (taken, left) = self.0.split_at(digits);
        self.0 = left;
        let micros: u32 = from_utf8(taken).ok()?.parse().ok()?;
        Some(micros * 10u32.pow(6 - digits as u32))
    }
}
