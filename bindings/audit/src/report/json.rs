//! Reads a line of JSON, as far as the lines of a log need it (RFC 8259).

use std::borrow::Cow;

/// A value. Lists and objects are read by [`Items`] and [`Fields`].
#[derive(Clone, Debug, PartialEq)]
pub enum Json<'a> {
    Text(Cow<'a, str>),
    Number(f64),
    Word(&'a str),
    List(&'a str),
    Object(&'a str),
}

impl<'a> Json<'a> {
    pub fn number(&self) -> f64 {
        match self {
            Json::Number(number) => *number,
            _ => 0.0,
        }
    }

    /// A text; one that isn't UTF-8 by its digits.
    pub fn text(self) -> Cow<'a, str> {
        match self {
            Json::Text(text) => text,
            Json::Object(raw) => match Fields::new(raw).next() {
                Some((_, Json::Text(digits))) => format!("0x{digits}").into(),
                _ => "".into(),
            },
            _ => "".into(),
        }
    }

    /// The bytes of a text; none of another value.
    pub fn bytes(self) -> Option<Cow<'a, [u8]>> {
        match self {
            Json::Text(Cow::Borrowed(text)) => Some(Cow::Borrowed(text.as_bytes())),
            Json::Text(Cow::Owned(text)) => Some(Cow::Owned(text.into_bytes())),
            Json::Object(raw) => match Fields::new(raw).next() {
                Some((_, Json::Text(digits))) => Some(Cow::Owned(bytes_in(&digits)?)),
                _ => None,
            },
            _ => None,
        }
    }
}

/// The bytes that hexadecimal digits are.
fn bytes_in(digits: &str) -> Option<Vec<u8>> {
    let pairs = digits.as_bytes().chunks(2);
    let byte = |pair| u8::from_str_radix(std::str::from_utf8(pair).ok()?, 16).ok();
    pairs.map(byte).collect()
}

/// The front of a text that is to be read.
struct Cursor<'a>(&'a str);

impl<'a> Cursor<'a> {
    /// Takes blanks, and this byte where it is next.
    fn skip(&mut self, byte: char) -> bool {
        self.0 = self.0.trim_start();
        let rest = self.0.strip_prefix(byte);
        self.0 = rest.unwrap_or(self.0);
        rest.is_some()
    }

    fn take(&mut self, count: usize) -> Option<&'a str> {
        let (front, rest) = self.0.split_at_checked(count)?;
        self.0 = rest;
        Some(front)
    }

    fn value(&mut self) -> Option<Json<'a>> {
        self.0 = self.0.trim_start();
        match self.0.as_bytes().first()? {
            b'"' => self.string().map(Json::Text),
            b'[' => self.nested().map(Json::List),
            b'{' => self.nested().map(Json::Object),
            b'-' | b'0'..=b'9' => {
                let is_of_number =
                    |byte: u8| byte.is_ascii_alphanumeric() || b"+-.".contains(&byte);
                let length = self
                    .0
                    .bytes()
                    .take_while(|byte| is_of_number(*byte))
                    .count();
                self.take(length)?.parse().ok().map(Json::Number)
            }
            _ => {
                let length = self.0.bytes().take_while(u8::is_ascii_lowercase).count();
                let word = self.take(length)?;
                matches!(word, "true" | "false" | "null").then_some(Json::Word(word))
            }
        }
    }

    /// How many bytes a string has that is next, with its quotes, and whether some are escaped.
    fn string_length(&self) -> Option<(usize, bool)> {
        let bytes = self.0.as_bytes();
        let (mut at, mut is_escaped) = (1, false);
        loop {
            match bytes.get(at)? {
                b'"' => return Some((at + 1, is_escaped)),
                b'\\' => {
                    is_escaped = true;
                    at += 2;
                }
                _ => at += 1,
            }
        }
    }

    fn string(&mut self) -> Option<Cow<'a, str>> {
        let (length, is_escaped) = self.string_length()?;
        let quoted = self.take(length)?;
        let inner = &quoted[1..length - 1];
        match is_escaped {
            true => unescaped(inner).map(Cow::Owned),
            false => Some(Cow::Borrowed(inner)),
        }
    }

    /// A list or an object that is next, with its brackets.
    fn nested(&mut self) -> Option<&'a str> {
        let (bytes, mut depth, mut at) = (self.0.as_bytes(), 0_usize, 0);
        loop {
            match bytes.get(at)? {
                b'"' => at += Cursor(&self.0[at..]).string_length()?.0,
                b'[' | b'{' => (depth, at) = (depth + 1, at + 1),
                b']' | b'}' => {
                    (depth, at) = (depth.checked_sub(1)?, at + 1);
                    if depth == 0 {
                        return self.take(at);
                    }
                }
                _ => at += 1,
            }
        }
    }
}

fn unescaped(text: &str) -> Option<String> {
    let mut units: Vec<u16> = Vec::new();
    let mut plain = String::with_capacity(text.len());
    let mut rest = text;
    while let Some(at) = rest.find('\\') {
        let escape = rest.as_bytes().get(at + 1)?;
        if *escape == b'u' {
            let digits = rest.get(at + 2..at + 6)?;
            if at > 0 {
                flush(&mut units, &mut plain);
                plain.push_str(&rest[..at]);
            }
            units.push(u16::from_str_radix(digits, 16).ok()?);
            rest = &rest[at + 6..];
            continue;
        }
        flush(&mut units, &mut plain);
        plain.push_str(&rest[..at]);
        plain.push(match escape {
            b'n' => '\n',
            b'r' => '\r',
            b't' => '\t',
            b'b' => '\u{8}',
            b'f' => '\u{c}',
            b'"' | b'\\' | b'/' => char::from(*escape),
            _ => return None,
        });
        rest = &rest[at + 2..];
    }
    flush(&mut units, &mut plain);
    plain.push_str(rest);
    Some(plain)
}

/// Appends the characters that were escaped by their numbers.
fn flush(units: &mut Vec<u16>, plain: &mut String) {
    plain.extend(char::decode_utf16(units.drain(..)).map(|it| it.unwrap_or('\u{fffd}')));
}

/// The names and values of an object. It ends before what can't be read.
pub struct Fields<'a> {
    cursor: Cursor<'a>,
    is_first: bool,
    /// Whether the object was read to its end.
    pub is_whole: bool,
}

impl<'a> Fields<'a> {
    pub fn new(text: &'a str) -> Fields<'a> {
        Fields {
            cursor: Cursor(text),
            is_first: true,
            is_whole: false,
        }
    }
}

impl<'a> Iterator for Fields<'a> {
    type Item = (Cow<'a, str>, Json<'a>);

    fn next(&mut self) -> Option<Self::Item> {
        let begins = if self.is_first { '{' } else { ',' };
        if !self.is_first && self.cursor.skip('}') {
            self.is_whole = self.cursor.0.is_empty();
            return None;
        }
        self.is_first = false;
        self.cursor.skip(begins).then_some(())?;
        self.cursor.0 = self.cursor.0.trim_start();
        if !self.cursor.0.starts_with('"') {
            return None;
        }
        let name = self.cursor.string()?;
        self.cursor.skip(':').then_some(())?;
        Some((name, self.cursor.value()?))
    }
}

/// The values of a list. It ends before what can't be read.
pub struct Items<'a> {
    cursor: Cursor<'a>,
    is_first: bool,
}

impl<'a> Items<'a> {
    pub fn new(text: &'a str) -> Items<'a> {
        Items {
            cursor: Cursor(text),
            is_first: true,
        }
    }
}

impl<'a> Iterator for Items<'a> {
    type Item = Json<'a>;

    fn next(&mut self) -> Option<Self::Item> {
        let begins = if self.is_first { '[' } else { ',' };
        self.is_first = false;
        self.cursor.skip(begins).then_some(())?;
        self.cursor.value()
    }
}

#[cfg(test)]
mod tests {
    use super::{Fields, Items, Json};

    #[test]
    fn fields_are_read() {
        let text =
            r#"{"a":"x\"\\\né\u0007\ud83d\ude00","b":[1,{"c":"]"}],"d":{},"e":-2.5e1,"f":null}"#;
        let mut fields = Fields::new(text);
        let read: Vec<_> = fields.by_ref().collect();
        assert!(fields.is_whole);
        let names: Vec<_> = read.iter().map(|(name, _)| name.as_ref()).collect();
        assert_eq!(vec!["a", "b", "d", "e", "f"], names);
        assert_eq!("x\"\\\né\u{7}\u{1f600}", read[0].1.clone().text());
        assert_eq!(Json::List(r#"[1,{"c":"]"}]"#), read[1].1);
        assert_eq!(
            (-25.0, Json::Word("null")),
            (read[3].1.number(), read[4].1.clone())
        );
        assert_eq!(2, Items::new(r#"[1,{"c":"]"}]"#).count());
        assert_eq!(0, Items::new("[]").count());
        let hex = Json::Object(r#"{"hex":"ff00"}"#);
        assert_eq!("0xff00", hex.clone().text());
        assert_eq!(Some(&[0xff, 0][..]), hex.bytes().as_deref());
        assert_eq!(None, Json::Object(r#"{"hex":"f g"}"#).bytes());
    }

    #[test]
    fn what_is_cut_off_isnt_whole() {
        let text = r#"{"a":"x\u0007","b":[1,{"c":"]"}],"d":true}"#;
        for end in 0..text.len() {
            let mut fields = Fields::new(&text[..end]);
            fields.by_ref().for_each(drop);
            assert!(!fields.is_whole, "{end}");
        }
        for text in [
            "{\"a\":1}x",
            "{\"a\":1,}",
            "{a:1}",
            "{\"a\":tru}",
            "{\"a\" 1}",
            "{,\"a\":1}",
        ] {
            let mut fields = Fields::new(text);
            fields.by_ref().for_each(drop);
            assert!(!fields.is_whole, "{text}");
        }
    }
}
