//! Parameter sets that are put together.

use crate::codes::{answer, certain, Error};
use crate::handle::Handle;
use crate::raw;
use crate::values::{Date, Time, Value};
use std::fmt;

/// Parameter sets of a query, to be sent: a value for each question mark, set by set.
///
/// A set is given at once by [`ParameterSets::add`], or value by value:
///
/// ```
/// use mysql_session::{ParameterSets, Value};
///
/// # fn main() -> Result<(), mysql_session::Error> {
/// let mut sets = ParameterSets::new()?;
/// sets.add(&[7.into(), "tea".into(), Value::Null])?;
/// sets.push(8)?;
/// sets.push("coffee")?;
/// sets.push(None::<i32>)?;
/// sets.end_set()?;
/// assert_eq!(sets.len(), 2);
/// # Ok(())
/// # }
/// ```
pub struct ParameterSets {
    handle: Handle,
    /// The values of a set that is added, and their bytes: kept for the next one.
    values: Vec<raw::Parameter>,
    bytes: Vec<u8>,
}

impl ParameterSets {
    /// No sets.
    ///
    /// # Errors
    /// [`Code::MEMORY`](crate::Code::MEMORY).
    pub fn new() -> Result<ParameterSets, Error> {
        // SAFETY: "Handles": a handle that is being made.
        let handle = Handle::made(|handle| unsafe { raw::mysql_session_sets_new(handle) })?;
        Ok(ParameterSets {
            handle,
            values: Vec::new(),
            bytes: Vec::new(),
        })
    }

    /// Gives the next set one more value, for the next placeholder.
    ///
    /// # Errors
    /// [`Code::MEMORY`](crate::Code::MEMORY); nothing has changed then.
    pub fn push<'a>(&mut self, value: impl Into<Value<'a>>) -> Result<(), Error> {
        let (handle, value) = (self.handle.get(), value.into());
        // SAFETY: "Handles": by `Handle::get`; "Bytes go in": they are a slice.
        let code = unsafe {
            match value {
                Value::Null => raw::mysql_session_sets_push_null(handle),
                Value::Int(number) => raw::mysql_session_sets_push_int(handle, number),
                Value::UInt(number) => raw::mysql_session_sets_push_uint(handle, number),
                Value::Bytes(bytes) => {
                    raw::mysql_session_sets_push_bytes(handle, bytes.as_ptr(), bytes.len())
                }
                Value::Date(date) => push_date(handle, date),
                Value::Time(time) => push_time(handle, time),
                Value::Float(number) => {
                    raw::mysql_session_sets_push_float(handle, number.to_bits())
                }
                Value::Double(number) => {
                    raw::mysql_session_sets_push_double(handle, number.to_bits())
                }
            }
        };
        Ok(answer(code)?)
    }

    /// Ends the next set: its values come behind the sets before it. Also a set of no values.
    ///
    /// # Errors
    /// [`Code::MEMORY`](crate::Code::MEMORY); nothing has changed then.
    pub fn end_set(&mut self) -> Result<(), Error> {
        // SAFETY: "Handles": by `Handle::get`.
        Ok(answer(unsafe {
            raw::mysql_session_sets_end_set(self.handle.get())
        })?)
    }

    /// Puts one more set behind the whole ones. What was pushed for the next set stays.
    ///
    /// # Errors
    /// [`Code::MEMORY`](crate::Code::MEMORY); nothing has changed then.
    pub fn add(&mut self, values: &[Value<'_>]) -> Result<(), Error> {
        self.values.clear();
        self.bytes.clear();
        for value in values {
            self.values.push(value.parameter(&mut self.bytes));
        }
        // SAFETY: "Handles": by `Handle::get`; "Bytes go in": both are lists that stay as they are.
        Ok(answer(unsafe {
            raw::mysql_session_sets_add(
                self.handle.get(),
                self.values.as_ptr(),
                self.values.len(),
                self.bytes.as_ptr(),
                self.bytes.len(),
            )
        })?)
    }

    /// How many sets are whole.
    pub fn len(&self) -> usize {
        let mut count = 0;
        // SAFETY: "Handles": by `Handle::get`; "Results go out": a local.
        certain(unsafe { raw::mysql_session_sets_count(self.handle.get(), &mut count) });
        count
    }

    /// Whether no set is whole.
    pub fn is_empty(&self) -> bool {
        self.len() == 0
    }

    /// Lets go of all sets, and of the values of the next one.
    pub fn clear(&mut self) {
        // SAFETY: "Handles": by `Handle::get`.
        certain(unsafe { raw::mysql_session_sets_clear(self.handle.get()) });
    }

    /// The handle's address for a call that only looks at the sets.
    pub(crate) fn looking(&self) -> *mut raw::Handle {
        self.handle.get()
    }
}

impl fmt::Debug for ParameterSets {
    fn fmt(&self, formatter: &mut fmt::Formatter<'_>) -> fmt::Result {
        formatter
            .debug_struct("ParameterSets")
            .field("len", &self.len())
            .finish_non_exhaustive()
    }
}

/// Pushes a date.
///
/// # Safety
/// The handle is as "Handles" wants it.
unsafe fn push_date(handle: *mut raw::Handle, date: Date) -> u32 {
    let Date {
        year,
        month,
        day,
        hour,
        minute,
        second,
        micros,
    } = date;
    // SAFETY: by this call's condition.
    unsafe {
        raw::mysql_session_sets_push_date(handle, year, month, day, hour, minute, second, micros)
    }
}

/// Pushes a duration.
///
/// # Safety
/// The handle is as "Handles" wants it.
unsafe fn push_time(handle: *mut raw::Handle, time: Time) -> u32 {
    let Time {
        negative,
        days,
        hours,
        minutes,
        seconds,
        micros,
    } = time;
    // SAFETY: by this call's condition.
    unsafe {
        raw::mysql_session_sets_push_time(handle, negative, days, hours, minutes, seconds, micros)
    }
}
