//! Statements without the passwords in them, as logs may have them.
//!
//! The head of `bindings/testing/rows/masks.txt` has the rule, and its rows are the tests. The same
//! rule is that of `bindings/python/examples/masking.py`.

use std::borrow::Cow;
use std::collections::VecDeque;

/// What is written for a secret.
const MASK: &[u8] = b"'*****'";

/// No statement without one of these has a password that is masked.
const SUSPECTS: [&str; 3] = ["PASSWORD", "IDENTIFIED", "CHALLENGE_RESPONSE"];

/// The words behind IDENTIFIED that a secret follows.
const BEFORE_SECRETS: [&str; 4] = ["BY", "AS", "USING", "REPLACE"];
const FUNCTIONS: [&str; 2] = ["PASSWORD", "OLD_PASSWORD"];
const OF_REPLICAS: [&str; 2] = ["MASTER_PASSWORD", "SOURCE_PASSWORD"];
/// Behind one of these SET is of a row.
const OF_ROWS: [&str; 4] = ["INSERT", "UPDATE", "REPLACE", "LOAD"];

/// A statement without its secrets.
pub struct Masked<'a> {
    pub text: Cow<'a, [u8]>,
    /// Whether it has some. The values of such a prepared statement are secrets, too.
    pub is_secret: bool,
}

/// Masks the secrets of a statement. A backslash escapes in a string, but not in the mode
/// NO_BACKSLASH_ESCAPES.
pub fn masked(text: &[u8], escapes: bool) -> Masked<'_> {
    let Some(suspect) = end_of_suspect(text) else {
        return Masked {
            text: text.into(),
            is_secret: false,
        };
    };
    let from_suspect = || Masked {
        text: [&text[..suspect], MASK].concat().into(),
        is_secret: true,
    };
    if std::str::from_utf8(text).is_err() {
        // In another character set other bytes may be blanks, as a0 is in latin1.
        return from_suspect();
    }
    let mut masker = Masker::new(text, escapes);
    masker.run();
    let is_unclear = masker.tokens.is_open && masker.written < text.len();
    if let (None, true) = (masker.rest, is_unclear) {
        // Where its strings end isn't known.
        return from_suspect();
    }
    let end = masker.rest.unwrap_or(text.len());
    let mut shown = masker.shown;
    shown.extend_from_slice(&text[masker.written..end]);
    if masker.rest.is_some() {
        shown.extend_from_slice(MASK);
    }
    Masked {
        text: shown.into(),
        is_secret: masker.is_secret,
    }
}

/// Whether a text has a word of those by which a secret may follow.
pub fn may_have_secrets(text: &[u8]) -> bool {
    end_of_suspect(text).is_some()
}

/// Where the first word ends by which a text may have a secret.
fn end_of_suspect(text: &[u8]) -> Option<usize> {
    (0..text.len()).find_map(|at| {
        matches!(text[at] | 0x20, b'p' | b'i' | b'c').then_some(())?;
        let is_there = |word: &&str| {
            let front = text[at..].get(..word.len());
            front.is_some_and(|front| front.eq_ignore_ascii_case(word.as_bytes()))
        };
        Some(at + SUSPECTS.iter().find(|word| is_there(word))?.len())
    })
}

#[derive(Clone, Copy, PartialEq)]
enum Kind {
    Sign,
    Word,
    /// A name in backticks.
    Name,
    /// A string, or digits of bytes.
    Literal,
    Number,
    Place,
    /// The end of a statement, and of the text.
    End,
}

#[derive(Clone, Copy)]
struct Token<'a> {
    kind: Kind,
    start: usize,
    end: usize,
    /// A word or a sign; of others none.
    word: &'a [u8],
}

impl Token<'_> {
    fn is(&self, word: &str) -> bool {
        is_word(self.word, word)
    }

    fn is_any(&self, words: &[&str]) -> bool {
        words.iter().any(|word| self.is(word))
    }

    /// Whether it may say in which character set a string is.
    fn is_introducer(&self) -> bool {
        self.word.first() == Some(&b'_')
    }
}

fn is_word(word: &[u8], wanted: &str) -> bool {
    word.eq_ignore_ascii_case(wanted.as_bytes())
}

fn is_of_word(byte: &u8) -> bool {
    byte.is_ascii_alphanumeric() || matches!(byte, b'_' | b'$' | 0x80..)
}

/// The kind of a token that begins as a word does.
fn kind_of_word(word: &[u8]) -> Kind {
    match word {
        [b'0', b'x' | b'X', digits @ ..]
            if !digits.is_empty() && digits.iter().all(u8::is_ascii_hexdigit) =>
        {
            Kind::Literal
        }
        [b'0', b'b' | b'B', digits @ ..]
            if !digits.is_empty() && digits.iter().all(|it| matches!(it, b'0' | b'1')) =>
        {
            Kind::Literal
        }
        [first, ..] if first.is_ascii_digit() => Kind::Number,
        _ => Kind::Word,
    }
}

/// The tokens of a text without comments, one at a time.
struct Tokens<'a> {
    text: &'a [u8],
    escapes: bool,
    at: usize,
    in_version: bool,
    /// Whether the text ends within a quote or a comment.
    is_open: bool,
}

impl<'a> Tokens<'a> {
    /// Goes over blanks and comments, and what begins and ends a comment of a version.
    fn skip(&mut self) {
        loop {
            let rest = &self.text[self.at..];
            match rest {
                [b'\t'..=b'\r' | b' ', ..] => self.at += 1,
                [b'#', ..] | [b'-', b'-'] | [b'-', b'-', 0..=b' ', ..] => {
                    let line = rest.iter().position(|byte| *byte == b'\n');
                    self.at += line.unwrap_or(rest.len());
                }
                [b'/', b'*', b'!', more @ ..] | [b'/', b'*', b'M', b'!', more @ ..] => {
                    let is_digit = |byte: &&u8| byte.is_ascii_digit();
                    let digits = more.iter().take(6).take_while(is_digit).count();
                    self.at += rest.len() - more.len() + digits;
                    self.in_version = true;
                }
                [b'*', b'/', ..] if self.in_version => {
                    self.at += 2;
                    self.in_version = false;
                }
                [b'/', b'*', more @ ..] => {
                    let end = more.windows(2).position(|pair| pair == b"*/");
                    self.is_open = end.is_none();
                    self.at += end.map_or(rest.len(), |end| 2 + end + 2);
                }
                _ => return,
            }
        }
    }

    /// The next token; at the end of the text one of no bytes.
    fn next(&mut self) -> Token<'a> {
        self.skip();
        let (start, rest) = (self.at, &self.text[self.at..]);
        let word = &rest[..rest.iter().take_while(|byte| is_of_word(byte)).count()];
        let is_prefix = matches!(word, [b'x' | b'X' | b'b' | b'B' | b'n' | b'N'])
            && rest.get(1) == Some(&b'\'');
        let (kind, word) = match rest {
            [] => (Kind::End, word),
            _ if !word.is_empty() && !is_prefix => {
                self.at += word.len();
                (kind_of_word(word), word)
            }
            [first, ..] if is_prefix || matches!(first, b'\'' | b'"' | b'`') => {
                let end = self.end_of_quoted(start + word.len());
                self.is_open = end.is_none();
                self.at = end.unwrap_or(self.text.len());
                let kind = match first {
                    b'`' => Kind::Name,
                    _ => Kind::Literal,
                };
                (kind, &rest[..0])
            }
            [first, ..] => {
                self.at += 1;
                let kind = match first {
                    b'?' => Kind::Place,
                    b';' => Kind::End,
                    _ => Kind::Sign,
                };
                (kind, &rest[..1])
            }
        };
        Token {
            kind,
            start,
            end: self.at,
            word,
        }
    }

    /// Where what begins with this quote ends; none where it doesn't.
    fn end_of_quoted(&self, mut at: usize) -> Option<usize> {
        let quote = self.text[at];
        let escapes = self.escapes && quote != b'`';
        at += 1;
        loop {
            match self.text.get(at..)? {
                [] => return None,
                [b'\\', ..] if escapes => at += 2,
                [first, second, ..] if *first == quote && *second == quote => at += 2,
                [first, ..] if *first == quote => return Some(at + 1),
                _ => at += 1,
            }
        }
    }
}

/// Writes a text without its secrets.
struct Masker<'a> {
    tokens: Tokens<'a>,
    ahead: VecDeque<Token<'a>>,
    shown: Vec<u8>,
    /// How much of the text is shown or masked.
    written: usize,
    /// From where on all is masked.
    rest: Option<usize>,
    is_secret: bool,
    /// The first word of the text.
    first: &'a [u8],
    /// The token that was taken last, where it is a word or a sign.
    last: &'a [u8],
    statement: Statement,
}

/// What is known of a statement by the tokens that were taken.
#[derive(Default)]
struct Statement {
    is_table: bool,
    is_account: bool,
    is_server: bool,
    is_identified: bool,
    sets: bool,
    is_of_rows: bool,
}

impl<'a> Masker<'a> {
    fn new(text: &'a [u8], escapes: bool) -> Masker<'a> {
        let tokens = Tokens {
            text,
            escapes,
            at: 0,
            in_version: false,
            is_open: false,
        };
        let mut masker = Masker {
            tokens,
            ahead: VecDeque::new(),
            shown: Vec::with_capacity(text.len()),
            written: 0,
            rest: None,
            is_secret: false,
            first: b"",
            last: b"",
            statement: Statement::default(),
        };
        masker.first = masker.peek().word;
        masker.begin();
        masker
    }

    /// Begins a statement.
    fn begin(&mut self) {
        let first = self.peek();
        self.statement = Statement {
            is_table: first.is_any(&["CREATE", "ALTER"]),
            is_account: first.is_any(&["GRANT", "CLONE"]),
            ..Statement::default()
        };
    }

    fn peek(&mut self) -> Token<'a> {
        self.peek_behind(0)
    }

    /// The token behind so many others, none of which ends the statement.
    fn peek_behind(&mut self, count: usize) -> Token<'a> {
        for number in 0..count {
            if self.token_ahead(number).kind == Kind::End {
                return self.token_ahead(number);
            }
        }
        self.token_ahead(count)
    }

    fn token_ahead(&mut self, number: usize) -> Token<'a> {
        while self.ahead.len() <= number {
            let token = self.tokens.next();
            self.ahead.push_back(token);
        }
        self.ahead[number]
    }

    fn take(&mut self) -> Token<'a> {
        let token = self.peek();
        self.ahead.pop_front();
        self.last = token.word;
        token
    }

    /// Takes the next token where it is this one.
    fn skip(&mut self, word: &str) -> bool {
        let is_next = self.peek().is(word);
        if is_next {
            self.take();
        }
        is_next
    }

    /// Masks all statements.
    fn run(&mut self) {
        while self.rest.is_none() {
            if self.peek().kind != Kind::End {
                self.step();
            } else if self.take().is(";") {
                self.begin();
            } else {
                return;
            }
        }
    }

    /// Takes a token, and masks the secret behind it.
    fn step(&mut self) {
        let (before, token) = (self.last, self.take());
        let statement = &mut self.statement;
        if ["CREATE", "ALTER", "REPLACE"]
            .iter()
            .any(|word| is_word(before, word))
        {
            statement.is_account |= token.is("USER");
            statement.is_server |= token.is("SERVER");
        }
        statement.is_of_rows |= token.is_any(&OF_ROWS);
        statement.sets |= token.is_any(&["SET", "START"]) && !statement.is_of_rows;
        statement.is_identified |= token.is("CHALLENGE_RESPONSE");
        if matches!(before, b"." | b"@") {
            return;
        }
        let is_identified = statement.is_identified;
        if token.is_any(&FUNCTIONS) && self.peek().is("(") {
            self.within();
        } else if token.is("PASSWORD") {
            self.password(is_word(before, "SET"));
        } else if token.is("IDENTIFIED") {
            self.identified();
        } else if token.is_any(&OF_REPLICAS) {
            self.skip("=");
            self.secret(is_word(self.first, "CHANGE"));
        } else if is_identified && token.is_any(&BEFORE_SECRETS) {
            self.secret(self.statement.is_account);
        }
    }

    /// Masks a token.
    fn hide(&mut self, token: Token) {
        let between = &self.tokens.text[self.written..token.start];
        self.shown.extend_from_slice(between);
        self.shown.extend_from_slice(MASK);
        self.written = token.end;
        self.is_secret = true;
    }

    /// Masks all from a token on, of what isn't as servers read it.
    fn hide_rest(&mut self, token: Token) {
        if token.kind != Kind::End {
            self.rest = Some(token.start);
            self.is_secret = true;
        }
    }

    /// Masks all between brackets, of which the first is next.
    fn within(&mut self) {
        let mut depth = 0_usize;
        while self.peek().kind != Kind::End {
            let token = self.take();
            match token.word {
                b"(" => depth += 1,
                b")" if depth == 1 => return,
                b")" => depth -= 1,
                _ => {}
            }
            match token.kind {
                Kind::Literal => self.hide(token),
                Kind::Number if !self.statement.is_table => self.hide(token),
                Kind::Place => self.is_secret = true,
                _ => {}
            }
        }
    }

    /// Masks the secret that is next.
    fn secret(&mut self, is_strict: bool) {
        while self.peek().is("(")
            || self.peek().is_introducer() && self.peek_behind(1).kind == Kind::Literal
        {
            self.take();
        }
        let (token, behind) = (self.peek(), self.peek_behind(1));
        let is_before = matches!(behind.kind, Kind::Literal | Kind::Place);
        if token.kind == Kind::Literal {
            while self.peek().kind == Kind::Literal {
                let token = self.take();
                self.hide(token);
            }
        } else if token.kind == Kind::Place || token.is_any(&["RANDOM", "@"]) {
            self.is_secret = true;
            self.take();
        } else if token.is_any(&FUNCTIONS) && behind.is("(") {
            self.take();
            self.within();
        } else if token.is_any(&FUNCTIONS) && (is_before || behind.is_introducer()) {
            self.take();
            self.secret(is_strict);
        } else if is_strict {
            self.hide_rest(token);
        }
    }

    /// Behind IDENTIFIED.
    fn identified(&mut self) {
        if self.skip("BY") {
            self.statement.is_identified = true;
            self.secret(self.statement.is_account);
        } else if self.skip("WITH") || self.skip("VIA") {
            self.statement.is_identified = true;
            if self.peek().kind != Kind::End {
                // The plugin, a word or in quotes.
                self.take();
            }
            if matches!(self.peek().kind, Kind::Literal | Kind::Place) {
                self.secret(false);
            }
        } else if self.statement.is_account {
            let token = self.peek();
            self.hide_rest(token);
        }
    }

    /// Behind PASSWORD: the option of a server, or what is set.
    fn password(&mut self, is_behind_set: bool) {
        let start = self.peek();
        if self.statement.is_server {
            self.skip("=");
            self.secret(true);
        } else if self.statement.sets {
            if start.is("FOR") {
                while self.peek().kind != Kind::End && !self.peek().is_any(&["=", "TO"]) {
                    self.take();
                }
            }
            self.set_or_random(is_behind_set, start);
        }
    }

    /// Behind what is set, of which this is the first token.
    fn set_or_random(&mut self, is_behind_set: bool, start: Token) {
        if self.peek().is(":") && self.peek_behind(1).is("=") {
            self.take();
        }
        if self.skip("=") {
            self.assigned();
        } else if self.skip("TO") {
            self.is_secret = true;
        } else if is_behind_set {
            self.hide_rest(start);
        }
    }

    /// Masks a value that is set, up to its comma.
    fn assigned(&mut self) {
        self.is_secret = true;
        let (token, behind) = (self.peek(), self.peek_behind(1));
        let is_bare = matches!(token.kind, Kind::Word | Kind::Number)
            && !behind.is("(")
            && !token.is_introducer();
        if is_bare && (is_word(self.first, "SET") || is_word(self.first, "START")) {
            return self.hide_rest(token);
        }
        let mut depth = 0_usize;
        while self.peek().kind != Kind::End {
            match self.peek().word {
                b"(" => depth += 1,
                b")" => depth = depth.saturating_sub(1),
                b"," if depth == 0 => return,
                _ => {}
            }
            let token = self.take();
            if matches!(token.kind, Kind::Literal | Kind::Number) {
                self.hide(token);
            }
        }
    }
}
