//! Texts, digests, dates and times as lines have them.

use mysql_session::{digest_in, Bytes, Date, Mode, Time};
use std::fmt::Write;
use std::time::{Duration, SystemTime, UNIX_EPOCH};

/// The digest of a statement, without the semicolons and blanks at its end, which servers drop. None
/// where there is no memory for it.
pub fn digest_of(text: &[u8], mode: Mode) -> Option<Vec<u8>> {
    let is_kept = |byte: &u8| !matches!(byte, b';' | b' ' | b'\t'..=b'\r');
    let end = text.iter().rposition(is_kept).map_or(0, |at| at + 1);
    let mut out = Bytes::new().ok()?;
    digest_in(&text[..end], mode, &mut out).ok()?;
    Some(out.as_slice().to_vec())
}

/// So many bytes of a text, or up to three less, where a character would be torn.
pub fn front_of(text: &[u8], most: usize) -> &[u8] {
    if text.len() <= most {
        return text;
    }
    let begins = |at: &usize| text[*at] & 0xc0 != 0x80;
    let end = (most.saturating_sub(3)..=most).rev().find(begins);
    &text[..end.unwrap_or(most)]
}

/// Whether a character is one that a terminal doesn't show, or by which it turns what it shows.
fn is_hidden(character: char) -> bool {
    character.is_control()
        || matches!(
            character,
            '\u{ad}' | '\u{61c}' | '\u{180e}' | '\u{200b}'..='\u{200f}'
        )
        || matches!(character, '\u{2028}'..='\u{202e}' | '\u{2060}'..='\u{206f}')
        || matches!(character, '\u{feff}' | '\u{fff9}'..='\u{fffb}' | '\u{e0000}'..='\u{e0fff}')
}

/// Writes a text for people, on one line.
pub fn push_readable(text: &mut String, bytes: &[u8]) {
    if let Some(plain) = plain(bytes, b"") {
        return text.push_str(plain);
    }
    for chunk in bytes.utf8_chunks() {
        for character in chunk.valid().chars() {
            match is_hidden(character) {
                true => text.extend(character.escape_default()),
                false => text.push(character),
            }
        }
        for byte in chunk.invalid() {
            text.push_str("\\x");
            push_hexadecimal(text, &[*byte]);
        }
    }
}

/// Writes bytes for people: in quotes where they are a text, else by their digits.
pub fn push_quoted(text: &mut String, bytes: &[u8]) {
    match std::str::from_utf8(bytes) {
        Ok(quoted) => {
            text.push('\'');
            match plain(bytes, b"\\'") {
                Some(plain) => text.push_str(plain),
                None => {
                    let escaped = quoted.replace('\\', "\\\\").replace('\'', "\\'");
                    push_readable(text, escaped.as_bytes());
                }
            }
            text.push('\'');
        }
        Err(_) => {
            text.push_str("0x");
            push_hexadecimal(text, bytes);
        }
    }
}

/// The bytes as a text, where each is one of ASCII that is shown and is none of these.
fn plain<'a>(bytes: &'a [u8], without: &[u8]) -> Option<&'a str> {
    let is_plain = |byte: &u8| matches!(byte, b' '..=b'~') && !without.contains(byte);
    let text = bytes
        .iter()
        .all(is_plain)
        .then(|| std::str::from_utf8(bytes));
    text?.ok()
}

fn push_hexadecimal(text: &mut String, bytes: &[u8]) {
    const DIGITS: &[u8; 16] = b"0123456789abcdef";
    text.reserve(2 * bytes.len());
    for byte in bytes {
        text.push(char::from(DIGITS[usize::from(byte >> 4)]));
        text.push(char::from(DIGITS[usize::from(byte & 15)]));
    }
}

/// Writes a text as JSON has it; one that isn't UTF-8 is an object.
pub fn push_json(json: &mut String, bytes: &[u8]) {
    if let Some(plain) = plain(bytes, b"\"\\") {
        json.push('"');
        json.push_str(plain);
        return json.push('"');
    }
    let Ok(text) = std::str::from_utf8(bytes) else {
        json.push_str(r#"{"hex":""#);
        push_hexadecimal(json, bytes);
        return json.push_str("\"}");
    };
    json.reserve(text.len() + 2);
    json.push('"');
    for character in text.chars() {
        match character {
            '"' => json.push_str("\\\""),
            '\\' => json.push_str("\\\\"),
            '\n' => json.push_str("\\n"),
            '\r' => json.push_str("\\r"),
            '\t' => json.push_str("\\t"),
            hidden if is_hidden(hidden) => {
                for half in hidden.encode_utf16(&mut [0; 2]) {
                    let _ = write!(json, "\\u{half:04x}");
                }
            }
            shown => json.push(shown),
        }
    }
    json.push('"');
}

/// Writes a number in decimal digits.
pub fn push_number(text: &mut String, number: u64) {
    push_digits(text, number, 1);
}

/// Writes a number in decimal digits, with zeros before it up to so many.
fn push_digits(text: &mut String, mut number: u64, least: usize) {
    let mut digits = [b'0'; 20];
    let mut at = digits.len();
    while number > 0 {
        at -= 1;
        digits[at] += (number % 10) as u8;
        number /= 10;
    }
    for digit in &digits[at.min(digits.len() - least)..] {
        text.push(char::from(*digit));
    }
}

/// Writes seconds with six decimals, the last one cut off.
pub fn push_seconds(text: &mut String, time: Duration) {
    push_number(text, time.as_secs());
    text.push('.');
    push_digits(text, u64::from(time.subsec_micros()), 6);
}

pub fn date_digits(date: Date) -> String {
    let mut digits = format!("{:04}-{:02}-{:02}", date.year, date.month, date.day);
    if (date.hour, date.minute, date.second, date.micros) != (0, 0, 0, 0) {
        let _ = write!(
            digits,
            " {:02}:{:02}:{:02}",
            date.hour, date.minute, date.second
        );
    }
    digits + &micros_digits(date.micros)
}

pub fn time_digits(time: Time) -> String {
    let sign = if time.negative { "-" } else { "" };
    let hours = u64::from(time.days) * 24 + u64::from(time.hours);
    let digits = format!("{sign}{hours:02}:{:02}:{:02}", time.minutes, time.seconds);
    digits + &micros_digits(time.micros)
}

fn micros_digits(micros: u32) -> String {
    match micros {
        0 => String::new(),
        _ => format!(".{micros:06}"),
    }
}

/// Writes the time of day, as RFC 3339 has it, in UTC.
pub fn push_now(text: &mut String) {
    let since = SystemTime::now()
        .duration_since(UNIX_EPOCH)
        .unwrap_or_default();
    let (seconds, micros) = (since.as_secs(), since.subsec_micros());
    let (year, month, day) = civil(seconds / 86400);
    let (hour, minute, second) = (seconds / 3600 % 24, seconds / 60 % 60, seconds % 60);
    let parts = [
        (year, 4, '-'),
        (month, 2, '-'),
        (day, 2, 'T'),
        (hour, 2, ':'),
        (minute, 2, ':'),
        (second, 2, '.'),
        (u64::from(micros), 6, 'Z'),
    ];
    for (part, length, end) in parts {
        push_digits(text, part, length);
        text.push(end);
    }
}

/// The date so many days after 1970-01-01. Years begin with March here, so that a leap day is the
/// last of its year.
fn civil(days: u64) -> (u64, u64, u64) {
    let days = days + 719_468;
    let (era, day) = (days / 146_097, days % 146_097);
    let year = (day - day / 1460 + day / 36_524 - day / 146_096) / 365;
    let day = day - (365 * year + year / 4 - year / 100);
    let month = (5 * day + 2) / 153;
    let day = day - (153 * month + 2) / 5 + 1;
    match month {
        0..=9 => (era * 400 + year, month + 3, day),
        _ => (era * 400 + year + 1, month - 9, day),
    }
}

#[cfg(test)]
mod tests {
    use super::{
        digest_of, push_json, push_number, push_quoted, push_readable, push_seconds, Duration, Mode,
    };

    fn written<T>(write: impl Fn(&mut String, T), what: T) -> String {
        let mut text = String::new();
        write(&mut text, what);
        text
    }

    #[test]
    fn texts_are_escaped() {
        for (bytes, json, quoted) in [
            (&b"plain ~"[..], r#""plain ~""#, "'plain ~'"),
            (b"it's \"\\", r#""it's \"\\""#, r#"'it\'s "\\'"#),
            (
                "\u{e9}\n\u{202e}".as_bytes(),
                r#""é\n\u202e""#,
                r"'é\n\u{202e}'",
            ),
            (
                "ro\u{200b}ot\u{e0041}".as_bytes(),
                r#""ro\u200bot\udb40\udc41""#,
                r"'ro\u{200b}ot\u{e0041}'",
            ),
            (b"\xff\0", r#"{"hex":"ff00"}"#, "0xff00"),
            (b"", r#""""#, "''"),
        ] {
            assert_eq!(json, written(push_json, bytes));
            assert_eq!(quoted, written(push_quoted, bytes));
        }
        let bytes = b"a\xff\x7f\xc3\xa9";
        assert_eq!(r"a\xff\u{7f}é", written(push_readable, &bytes[..]));
    }

    #[test]
    fn digests_have_no_semicolon_at_the_end() {
        let digest = |text: &str| digest_of(text.as_bytes(), Mode::default());
        for text in ["SELECT 1", "SELECT 1;", "SELECT 2 ; ;\r\n"] {
            assert_eq!(Some(b"select ?".to_vec()), digest(text));
        }
        assert_eq!(
            Some(b"begin ; select ?".to_vec()),
            digest("BEGIN; SELECT ';';")
        );
        assert_eq!(Some(Vec::new()), digest(" ; "));
    }

    #[test]
    fn numbers_are_in_digits() {
        for number in [0, 7, 10, 123_456, u64::MAX] {
            assert_eq!(number.to_string(), written(push_number, number));
        }
        assert_eq!(
            "0.000007",
            written(push_seconds, Duration::from_nanos(7999))
        );
        assert_eq!(
            "12.345678",
            written(push_seconds, Duration::from_micros(12_345_678))
        );
    }
}
