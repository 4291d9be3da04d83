//! The payload of an execution whose attributes are left out.
//!
//! MySQL: "COM_STMT_EXECUTE", "Binary Protocol Value".

use mysql_session::{Date, Time, Value};

/// An execution of a statement by values, each of the type that it has here. A value that was sent
/// as long data isn't put again.
pub fn execution(
    statement: u32,
    cursor: u32,
    values: &[Value<'_>],
    is_long_data: impl Fn(usize) -> bool,
) -> Vec<u8> {
    let mut payload = vec![0x17];
    payload.extend(statement.to_le_bytes());
    payload.extend([cursor as u8 & 7, 1, 0, 0, 0]);
    if values.is_empty() {
        return payload;
    }
    let mut nulls = vec![0u8; values.len().div_ceil(8)];
    let (mut types, mut cells) = (Vec::new(), Vec::new());
    for (place, value) in values.iter().enumerate() {
        match value {
            Value::Null => {
                nulls[place / 8] |= 1 << (place % 8);
                types.extend([6, 0]);
            }
            _ if is_long_data(place) => types.extend([252, 0]),
            value => types.extend(put_value(*value, &mut cells)),
        }
    }
    payload.extend(nulls);
    payload.push(1);
    payload.extend(types);
    payload.extend(cells);
    payload
}

/// Puts a value; the answer is its type.
fn put_value(value: Value<'_>, out: &mut Vec<u8>) -> [u8; 2] {
    match value {
        Value::Null => [6, 0],
        Value::Int(number) => {
            out.extend(number.to_le_bytes());
            [8, 0]
        }
        Value::UInt(number) => {
            out.extend(number.to_le_bytes());
            [8, 0x80]
        }
        Value::Bytes(bytes) => {
            put_length(bytes.len() as u64, out);
            out.extend(bytes);
            [253, 0]
        }
        Value::Float(number) => {
            out.extend(number.to_le_bytes());
            [4, 0]
        }
        Value::Double(number) => {
            out.extend(number.to_le_bytes());
            [5, 0]
        }
        Value::Date(date) => {
            put_date(date, out);
            [12, 0]
        }
        Value::Time(time) => {
            put_time(time, out);
            [11, 0]
        }
    }
}

/// Puts a length as the protocol's length-encoded integer.
fn put_length(length: u64, out: &mut Vec<u8>) {
    let bytes = length.to_le_bytes();
    match length {
        0..=250 => out.push(bytes[0]),
        251..=0xffff => {
            out.push(0xfc);
            out.extend(&bytes[..2]);
        }
        0x1_0000..=0xff_ffff => {
            out.push(0xfd);
            out.extend(&bytes[..3]);
        }
        _ => {
            out.push(0xfe);
            out.extend(bytes);
        }
    }
}

fn put_date(date: Date, out: &mut Vec<u8>) {
    out.push(11);
    out.extend(date.year.to_le_bytes());
    out.extend([date.month, date.day, date.hour, date.minute, date.second]);
    out.extend(date.micros.to_le_bytes());
}

fn put_time(time: Time, out: &mut Vec<u8>) {
    out.extend([12, u8::from(time.negative)]);
    out.extend(time.days.to_le_bytes());
    out.extend([time.hours, time.minutes, time.seconds]);
    out.extend(time.micros.to_le_bytes());
}
