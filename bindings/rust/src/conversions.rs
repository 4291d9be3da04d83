//! Values as types of Rust: a cell by itself, or a row as a tuple.

use crate::texts::{date_in, duration_in, float_in, float_text, number_in, time_in};
use crate::values::{Date, Time, Value};
use std::any::type_name;
use std::error;
use std::fmt;
use std::time::Duration;

/// A type that values convert to.
///
/// The reply to a query has all its values as texts, that to an execution in their types; a type
/// takes both:
///
/// | type | from |
/// |---|---|
/// | `i8` to `i64`, `u8` to `u64`, `isize`, `usize` | whole numbers and their texts, in range |
/// | `bool` | 0 and 1, and their texts |
/// | `f32` | floats, whole numbers up to 2^24, and texts of a number in range |
/// | `f64` | floats, doubles, whole numbers up to 2^53, and texts of a number in range |
/// | `&[u8]`, `Vec<u8>`, `[u8; N]` | bytes, an array of its length |
/// | `&str` | bytes that are UTF-8 |
/// | `String` | bytes that are UTF-8, and the text of any value but NULL |
/// | [`Date`] | dates, and texts as `2024-02-29` and `2024-02-29 12:30:01.5` |
/// | [`Time`] | durations, and texts as `-838:59:59.5` |
/// | [`Duration`] | those that aren't negative |
/// | [`Value`] | any value |
/// | `Option` of one of these | what that is from, and NULL, which is no other's but [`Value`]'s |
///
/// A type of one's own converts by another one:
///
/// ```
/// use mysql_session::{FromValue, Value};
///
/// struct Cents(u64);
///
/// impl<'a> FromValue<'a> for Cents {
///     fn from_value(value: Value<'a>) -> Option<Cents> {
///         u64::from_value(value).map(Cents)
///     }
/// }
///
/// assert!(Cents::from_value(Value::Bytes(b"250")).is_some_and(|cents| cents.0 == 250));
/// assert!(Cents::from_value(Value::Bytes(b"2.50")).is_none());
/// ```
pub trait FromValue<'a>: Sized {
    /// What the value converts to; none where it doesn't.
    fn from_value(value: Value<'a>) -> Option<Self>;
}

/// A type that rows convert to: a tuple of up to twelve types that values convert to.
///
/// A type of one's own converts by a tuple:
///
/// ```
/// use mysql_session::{FromRow, RowError, Value};
///
/// struct Article<'a> {
///     name: &'a str,
///     price: Option<u64>,
/// }
///
/// impl<'a> FromRow<'a> for Article<'a> {
///     const WIDTH: usize = 2;
///
///     fn from_cells(cell: impl Fn(usize) -> Value<'a>) -> Result<Article<'a>, RowError> {
///         let (name, price) = FromRow::from_cells(cell)?;
///         Ok(Article { name, price })
///     }
/// }
/// ```
pub trait FromRow<'a>: Sized {
    /// How many cells its rows have.
    const WIDTH: usize;

    /// What a row of these cells converts to, each by its number below the width.
    ///
    /// # Errors
    /// [`RowError::OtherType`] of the first cell that doesn't convert.
    fn from_cells(cell: impl Fn(usize) -> Value<'a>) -> Result<Self, RowError>;
}

/// Why a row, or a cell of it, doesn't convert.
///
/// ```
/// use mysql_session::RowError;
///
/// let (name, value, wanted) = ("price".to_string(), "NULL", "u8");
/// let error = RowError::OtherType { column: 1, name, value, wanted };
/// assert_eq!(error.to_string(), "column 1 (price): NULL doesn't convert to u8");
/// ```
#[derive(Clone, Debug, PartialEq, Eq, Hash)]
pub enum RowError {
    /// There is no such column.
    NoColumn {
        /// The column that was asked for, from 0.
        column: usize,
        /// How many the row has.
        columns: usize,
    },
    /// There is no column of such a name.
    NoName {
        /// The name that was asked for.
        name: String,
    },
    /// The row has more or fewer cells than the type that it is to convert to.
    OtherWidth {
        /// How many the row has.
        columns: usize,
        /// How many the type has.
        fields: usize,
    },
    /// The value of a cell doesn't convert.
    OtherType {
        /// The cell's column, from 0.
        column: usize,
        /// The column's name, which the row puts in; empty where it has none.
        name: String,
        /// What the value is: `NULL`, `a text`, ..
        value: &'static str,
        /// The type that it was to convert to, as [`type_name`] has it.
        wanted: &'static str,
    },
}

impl fmt::Display for RowError {
    fn fmt(&self, formatter: &mut fmt::Formatter<'_>) -> fmt::Result {
        match self {
            RowError::NoColumn { column, columns } => {
                write!(formatter, "there is no column {column} among {columns}")
            }
            RowError::NoName { name } => write!(formatter, "there is no column {name:?}"),
            RowError::OtherWidth { columns, fields } => {
                write!(
                    formatter,
                    "the row has {columns} columns in place of {fields}"
                )
            }
            RowError::OtherType {
                column,
                name,
                value,
                wanted,
            } => {
                write!(formatter, "column {column}")?;
                if !name.is_empty() {
                    write!(formatter, " ({name})")?;
                }
                let wanted = without_paths(wanted);
                write!(formatter, ": {value} doesn't convert to {wanted}")
            }
        }
    }
}

impl error::Error for RowError {}

impl RowError {
    /// The same with the name of the column, which this call tells.
    fn named(mut self, of: impl FnOnce(usize) -> String) -> RowError {
        if let RowError::OtherType { column, name, .. } = &mut self {
            if name.is_empty() {
                *name = of(*column);
            }
        }
        self
    }
}

/// The name of a type, without the modules before it and of those that it is made of.
fn without_paths(name: &str) -> String {
    let parts = name.split_inclusive(|it: char| !it.is_alphanumeric() && !"_:".contains(it));
    parts
        .map(|part| part.rsplit("::").next().unwrap_or(part))
        .collect()
}

/// The value of a cell, converted. An error has the name of the column.
pub(crate) fn cell_as<'a, T: FromValue<'a>>(
    cell: Option<Value<'a>>,
    column: usize,
    columns: usize,
    name: impl FnOnce(usize) -> String,
) -> Result<T, RowError> {
    let cell = cell.ok_or(RowError::NoColumn { column, columns })?;
    converted(cell, column).map_err(|error| error.named(name))
}

/// A row of so many cells, converted. An error has the name of the column.
pub(crate) fn row_as<'a, T: FromRow<'a>>(
    cell: impl Fn(usize) -> Option<Value<'a>>,
    columns: usize,
    name: impl FnOnce(usize) -> String,
) -> Result<T, RowError> {
    if columns != T::WIDTH {
        let fields = T::WIDTH;
        return Err(RowError::OtherWidth { columns, fields });
    }
    let cell = |number| cell(number).expect("a number below the width has a cell");
    T::from_cells(cell).map_err(|error| error.named(name))
}

/// The value in a column, converted.
fn converted<'a, T: FromValue<'a>>(value: Value<'a>, column: usize) -> Result<T, RowError> {
    T::from_value(value).ok_or_else(|| RowError::OtherType {
        column,
        name: String::new(),
        value: kind_of(value),
        wanted: type_name::<T>(),
    })
}

/// What a value is.
fn kind_of(value: Value<'_>) -> &'static str {
    match value {
        Value::Null => "NULL",
        Value::Int(_) | Value::UInt(_) => "a whole number",
        Value::Bytes(_) => "a text",
        Value::Float(_) => "a float",
        Value::Double(_) => "a double",
        Value::Date(_) => "a date",
        Value::Time(_) => "a duration",
    }
}

macro_rules! whole_numbers {
    ($($number:ty),*) => {
        $(impl<'a> FromValue<'a> for $number {
            fn from_value(value: Value<'a>) -> Option<Self> {
                match value {
                    Value::Int(number) => number.try_into().ok(),
                    Value::UInt(number) => number.try_into().ok(),
                    Value::Bytes(text) => number_in::<i128>(text)?.try_into().ok(),
                    _ => None,
                }
            }
        })*
    };
}

whole_numbers!(i8, i16, i32, i64, isize, u8, u16, u32, u64, usize);

impl<'a> FromValue<'a> for bool {
    fn from_value(value: Value<'a>) -> Option<bool> {
        match value {
            Value::Int(0) | Value::UInt(0) | Value::Bytes(b"0") => Some(false),
            Value::Int(1) | Value::UInt(1) | Value::Bytes(b"1") => Some(true),
            _ => None,
        }
    }
}

impl<'a> FromValue<'a> for f32 {
    fn from_value(value: Value<'a>) -> Option<f32> {
        match value {
            Value::Float(number) => Some(number),
            Value::Int(number) => exact(number.into(), 24).map(|number| number as f32),
            Value::UInt(number) => exact(number.into(), 24).map(|number| number as f32),
            Value::Bytes(text) => float_in(text),
            _ => None,
        }
    }
}

/// A whole number of so many bits, or the next one above them: each float of these has it.
fn exact(number: i128, bits: u32) -> Option<i128> {
    (number.unsigned_abs() <= 1 << bits).then_some(number)
}

impl<'a> FromValue<'a> for f64 {
    fn from_value(value: Value<'a>) -> Option<f64> {
        match value {
            Value::Float(number) => Some(number.into()),
            Value::Double(number) => Some(number),
            Value::Int(number) => exact(number.into(), 53).map(|number| number as f64),
            Value::UInt(number) => exact(number.into(), 53).map(|number| number as f64),
            Value::Bytes(text) => float_in(text),
            _ => None,
        }
    }
}

impl<'a> FromValue<'a> for &'a [u8] {
    fn from_value(value: Value<'a>) -> Option<&'a [u8]> {
        match value {
            Value::Bytes(bytes) => Some(bytes),
            _ => None,
        }
    }
}

impl<'a> FromValue<'a> for Vec<u8> {
    fn from_value(value: Value<'a>) -> Option<Vec<u8>> {
        <&[u8]>::from_value(value).map(<[u8]>::to_vec)
    }
}

impl<'a, const LENGTH: usize> FromValue<'a> for [u8; LENGTH] {
    fn from_value(value: Value<'a>) -> Option<[u8; LENGTH]> {
        <&[u8]>::from_value(value)?.try_into().ok()
    }
}

impl<'a> FromValue<'a> for &'a str {
    fn from_value(value: Value<'a>) -> Option<&'a str> {
        std::str::from_utf8(<&[u8]>::from_value(value)?).ok()
    }
}

impl<'a> FromValue<'a> for String {
    fn from_value(value: Value<'a>) -> Option<String> {
        match value {
            Value::Null => None,
            Value::Int(number) => Some(number.to_string()),
            Value::UInt(number) => Some(number.to_string()),
            Value::Bytes(_) => <&str>::from_value(value).map(str::to_string),
            Value::Float(number) => Some(float_text(number)),
            Value::Double(number) => Some(float_text(number)),
            Value::Date(date) => Some(date.to_string()),
            Value::Time(time) => Some(time.to_string()),
        }
    }
}

impl<'a> FromValue<'a> for Date {
    fn from_value(value: Value<'a>) -> Option<Date> {
        match value {
            Value::Date(date) => Some(date),
            Value::Bytes(text) => date_in(text),
            _ => None,
        }
    }
}

impl<'a> FromValue<'a> for Time {
    fn from_value(value: Value<'a>) -> Option<Time> {
        match value {
            Value::Time(time) => Some(time),
            Value::Bytes(text) => time_in(text),
            _ => None,
        }
    }
}

impl<'a> FromValue<'a> for Duration {
    fn from_value(value: Value<'a>) -> Option<Duration> {
        duration_in(Time::from_value(value)?)
    }
}

impl<'a> FromValue<'a> for Value<'a> {
    fn from_value(value: Value<'a>) -> Option<Value<'a>> {
        Some(value)
    }
}

impl<'a, T: FromValue<'a>> FromValue<'a> for Option<T> {
    fn from_value(value: Value<'a>) -> Option<Option<T>> {
        match value {
            Value::Null => Some(None),
            value => T::from_value(value).map(Some),
        }
    }
}

macro_rules! tuples {
    ($($($field:ident $number:literal),+;)+) => {
        $(impl<'a, $($field: FromValue<'a>),+> FromRow<'a> for ($($field,)+) {
            const WIDTH: usize = [$($number),+].len();

            fn from_cells(cell: impl Fn(usize) -> Value<'a>) -> Result<Self, RowError> {
                Ok(($(converted::<$field>(cell($number), $number)?,)+))
            }
        })+
    };
}

tuples! {
    A 0;
    A 0, B 1;
    A 0, B 1, C 2;
    A 0, B 1, C 2, D 3;
    A 0, B 1, C 2, D 3, E 4;
    A 0, B 1, C 2, D 3, E 4, F 5;
    A 0, B 1, C 2, D 3, E 4, F 5, G 6;
    A 0, B 1, C 2, D 3, E 4, F 5, G 6, H 7;
    A 0, B 1, C 2, D 3, E 4, F 5, G 6, H 7, I 8;
    A 0, B 1, C 2, D 3, E 4, F 5, G 6, H 7, I 8, J 9;
    A 0, B 1, C 2, D 3, E 4, F 5, G 6, H 7, I 8, J 9, K 10;
    A 0, B 1, C 2, D 3, E 4, F 5, G 6, H 7, I 8, J 9, K 10, L 11;
}
