//! Cells as the types of their columns say.

use crate::column_type as kinds;
use crate::conversions::FromValue;
use crate::results::ColumnType;
use crate::values::Value;

impl ColumnType {
    /// The value that a cell of such a column holds. In the reply to a query all cells are texts; this
    /// makes of them what the reply to an execution has:
    ///
    /// | column | value |
    /// |---|---|
    /// | whole numbers, YEAR | [`Value::Int`], or [`Value::UInt`] from 2^63 on |
    /// | FLOAT, DOUBLE | [`Value::Float`], [`Value::Double`] |
    /// | DATE, DATETIME, TIMESTAMP | [`Value::Date`] |
    /// | TIME | [`Value::Time`] |
    /// | all others, among them DECIMAL and JSON | as it is |
    ///
    /// A text that is none of its column stays as it is, and so does each other value.
    ///
    /// ```
    /// use mysql_session::{column_type, ColumnType, Value};
    ///
    /// let double = ColumnType { kind: column_type::DOUBLE, ..ColumnType::default() };
    /// assert_eq!(double.value(Value::Bytes(b"2.5")), Value::Double(2.5));
    /// assert_eq!(double.value(Value::Bytes(b"tea")), Value::Bytes(b"tea"));
    /// assert_eq!(double.value(Value::Null), Value::Null);
    /// ```
    pub fn value<'a>(&self, cell: Value<'a>) -> Value<'a> {
        if !matches!(cell, Value::Bytes(_)) {
            return cell;
        }
        self.read(cell).unwrap_or(cell)
    }

    /// What a text is by the column's type; none where it is a text, or isn't of the type.
    fn read<'a>(&self, text: Value<'a>) -> Option<Value<'a>> {
        match self.kind {
            kinds::TINY
            | kinds::SHORT
            | kinds::INT24
            | kinds::LONG
            | kinds::LONGLONG
            | kinds::YEAR => whole_number(text),
            kinds::FLOAT => f32::from_value(text).map(Value::Float),
            kinds::DOUBLE => f64::from_value(text).map(Value::Double),
            kinds::DATE | kinds::DATETIME | kinds::TIMESTAMP => {
                FromValue::from_value(text).map(Value::Date)
            }
            kinds::TIME => FromValue::from_value(text).map(Value::Time),
            _ => None,
        }
    }
}

/// The whole number that a text is.
fn whole_number(text: Value<'_>) -> Option<Value<'_>> {
    let number = i64::from_value(text).map(Value::Int);
    number.or_else(|| u64::from_value(text).map(Value::UInt))
}
