//! The tables that a statement names, as far as its text tells: by its tokens for lines, and by its
//! bytes for filters and alerts, which miss no name that is in the text.

use crate::texts::digest_of;
use mysql_session::Mode;
use std::borrow::Cow;

/// In place of a name that the tokens don't tell.
const UNKNOWN: &str = "?";
/// So many tables of a statement are told.
const MOST: usize = 100;

/// Behind these words a table stands.
const BEFORE: [&str; 11] = [
    "from",
    "join",
    "straight_join",
    "into",
    "update",
    "insert",
    "replace",
    "table",
    "tables",
    "view",
    "references",
];
/// Behind these one stands where they begin a statement.
const FIRST: [&str; 5] = ["truncate", "handler", "desc", "describe", "explain"];
/// Statements that have tables one behind the other.
const OF_LISTS: [&str; 9] = [
    "drop", "lock", "analyze", "check", "checksum", "flush", "optimize", "repair", "rename",
];
/// Words between those and the table.
const BETWEEN: [&str; 14] = [
    "low_priority",
    "high_priority",
    "delayed",
    "quick",
    "ignore",
    "lateral",
    "if",
    "not",
    "exists",
    "only",
    "local",
    "no_write_to_binlog",
    "oj",
    "{",
];
/// Words that are no table, but begin what stands in its place.
const NO_TABLE: [&str; 27] = [
    "select",
    "values",
    "value",
    "set",
    "with",
    "where",
    "outfile",
    "dumpfile",
    "dual",
    "table",
    "tables",
    "view",
    "on",
    "as",
    "from",
    "into",
    "procedure",
    "function",
    "trigger",
    "event",
    "algorithm",
    "definer",
    "sql",
    "analyze",
    "format",
    "extended",
    "json_table",
];
/// Behind these no further table of a list stands.
const ENDS: [&str; 15] = [
    "where",
    "set",
    "group",
    "order",
    "having",
    "limit",
    "window",
    "union",
    "except",
    "intersect",
    "select",
    "values",
    "value",
    "procedure",
    "into",
];
/// Functions that have the word FROM between what they are given.
const WITH_FROM: [&str; 5] = ["extract", "trim", "substring", "substr", "overlay"];

/// Names of tables that filters and alerts ask for.
#[derive(Clone, Debug, Default, PartialEq)]
pub struct Names(Vec<String>);

impl Names {
    pub fn of<'a>(names: impl Iterator<Item = &'a String>) -> Names {
        let mut names: Vec<String> = names.cloned().collect();
        names.sort();
        names.dedup();
        Names(names)
    }

    /// Those that a text has as whole words, wherever they stand.
    pub fn within(&self, text: &[u8]) -> Vec<String> {
        if self.0.is_empty() {
            return Vec::new();
        }
        // A name may stand at once behind a comment's version, of five digits or six.
        let texts = [0, 5, 6].map(|digits| match digits {
            0 => Cow::Borrowed(text),
            most => opened(text, most),
        });
        let is_there = |name: &&String| texts.iter().any(|it| has_word(it, name.as_bytes()));
        self.0.iter().filter(is_there).cloned().collect()
    }
}

/// Whether a byte is one of a name without quotes in each character set. By latin1 a0 is a blank, so no
/// byte from 80 on is.
fn is_of_name(byte: u8) -> bool {
    byte.is_ascii_alphanumeric() || matches!(byte, b'_' | b'$')
}

/// Whether a text has a name as a whole word, in whatever case.
fn has_word(text: &[u8], name: &[u8]) -> bool {
    let ends = |byte: Option<&u8>| byte.is_none_or(|byte| !is_of_name(*byte));
    let is_at = |at: usize| {
        let before = at.checked_sub(1).and_then(|at| text.get(at));
        ends(before) && ends(text.get(at + name.len()))
    };
    let Some(first) = name.first() else {
        return false;
    };
    let is_name = |at: usize| {
        let word = text.get(at..at + name.len());
        word.is_some_and(|word| word.eq_ignore_ascii_case(name)) && is_at(at)
    };
    let mut bytes = text.iter().enumerate();
    bytes.any(|(at, byte)| byte.eq_ignore_ascii_case(first) && is_name(at))
}

/// A text in which comments that servers run are open: their words count. A version has so many digits
/// at most.
fn opened(text: &[u8], digits: usize) -> Cow<'_, [u8]> {
    let is_run = |at: &usize| {
        let rest = &text[*at..];
        rest.starts_with(b"/*!") || rest.starts_with(b"/*M!") || rest.starts_with(b"/*m!")
    };
    let mut open = Cow::Borrowed(text);
    for at in (0..text.len()).filter(is_run) {
        let rest = &text[at..];
        let mark = if rest[2] == b'!' { 3 } else { 4 };
        let version = rest[mark..]
            .iter()
            .take(digits)
            .take_while(|byte| byte.is_ascii_digit());
        let length = mark + version.count();
        open.to_mut()[at..at + length].fill(b' ');
    }
    open
}

/// The tables that a text names, each once.
pub fn tables_in(text: &[u8], mode: Mode) -> Vec<String> {
    let Some(digest) = digest_of(&opened(text, 6), mode) else {
        return vec![UNKNOWN.to_string()];
    };
    let mut walk = Walk::default();
    for token in tokens_of(&String::from_utf8_lossy(&digest)) {
        walk.take(token);
    }
    walk.tables
}

/// A word, a mark, or a name with its qualifier.
struct Token {
    text: String,
    is_quoted: bool,
}

/// The tokens of a digest, in which blanks stand between them. Parts of a name are one.
fn tokens_of(digest: &str) -> Vec<Token> {
    let mut tokens: Vec<Token> = Vec::new();
    let mut rest = digest;
    while !rest.is_empty() {
        let (text, is_quoted, length) = match rest.chars().next() {
            Some(quote @ ('`' | '"')) => quoted(rest, quote),
            _ => {
                let end = rest.find([' ', '`', '"']).unwrap_or(rest.len());
                (rest[..end].to_string(), false, end)
            }
        };
        rest = rest[length..].trim_start_matches(' ');
        match tokens.last_mut() {
            Some(last) if last.text.ends_with('.') || text.starts_with('.') => {
                last.text.push_str(&text);
                last.is_quoted |= is_quoted;
            }
            _ => tokens.push(Token { text, is_quoted }),
        }
    }
    tokens
}

/// A name in quotes at a text's front, and how long it is there. A quote in it is there twice.
fn quoted(rest: &str, quote: char) -> (String, bool, usize) {
    let mut name = String::new();
    let mut at = 1;
    while let Some(end) = rest[at..].find(quote) {
        name.push_str(&rest[at..at + end]);
        at += end + 1;
        if !rest[at..].starts_with(quote) {
            return (name, true, at);
        }
        name.push(quote);
        at += 1;
    }
    (rest[1..].to_string(), true, rest.len())
}

/// What is known within a pair of parentheses.
#[derive(Clone, Copy, Default)]
struct Level {
    /// Whether a table comes next.
    expects: bool,
    /// Whether another one comes behind a comma.
    is_list: bool,
    /// Whether FROM has no table behind it.
    is_function: bool,
}

/// A walk over the tokens of a text.
#[derive(Default)]
struct Walk {
    levels: Vec<Level>,
    level: Level,
    /// The first word of the statement, and the last one.
    first: String,
    last: String,
    tables: Vec<String>,
}

impl Walk {
    fn take(&mut self, token: Token) {
        match (&*token.text, token.is_quoted) {
            ("(", false) => self.open(),
            (")", false) => self.level = self.levels.pop().unwrap_or_default(),
            (",", false) => self.level.expects = self.level.is_list,
            (";", false) => {
                let tables = std::mem::take(&mut self.tables);
                *self = Walk {
                    tables,
                    ..Walk::default()
                };
                return;
            }
            // Here servers begin to read the text differently.
            (mark, false) if mark.starts_with("/*...") => self.add(UNKNOWN),
            _ => self.take_word(&token),
        }
        if self.first.is_empty() && token.text != "(" {
            self.first.clone_from(&token.text);
        }
        self.last = if token.is_quoted {
            "`".to_string()
        } else {
            token.text
        };
    }

    /// In parentheses tables may stand where one is due, or a query.
    fn open(&mut self) {
        // A function may have the name of a statement.
        let is_due = self.level.expects && !matches!(&*self.last, "insert" | "replace");
        self.level.expects = false;
        self.levels.push(self.level);
        self.level = Level {
            expects: is_due,
            is_list: is_due,
            is_function: WITH_FROM.contains(&&*self.last),
        };
    }

    fn take_word(&mut self, token: &Token) {
        let (word, is_word) = (&*token.text, !token.is_quoted);
        let is_mark =
            is_word && !word.starts_with(|it: char| it == '_' || it == '$' || it.is_alphanumeric());
        if is_word && BETWEEN.contains(&word) {
            return;
        }
        if self.level.expects && is_word && word.starts_with(UNKNOWN) {
            self.add(UNKNOWN);
        } else if self.level.expects && !is_mark && !(is_word && NO_TABLE.contains(&word)) {
            self.add(word);
        }
        self.level.expects = false;
        if is_word {
            self.take_keyword(word);
        }
    }

    fn take_keyword(&mut self, word: &str) {
        let (first, last) = (&*self.first, &*self.last);
        if ENDS.contains(&word) && last != "for" {
            self.level.is_list = false;
        }
        let is_first = first.is_empty() || matches!(last, ";" | "explain" | "describe" | "desc");
        let is_before = match word {
            "from" if first == "show" => {
                matches!(last, "columns" | "fields" | "index" | "indexes" | "keys")
            }
            "from" => !self.level.is_function,
            "join" => last != "for",
            "update" => !matches!(last, "for" | "key" | "on"),
            "on" => {
                matches!(first, "drop" | "grant" | "revoke")
                    || first == "create" && self.tables.is_empty()
            }
            "to" => matches!(first, "rename" | "alter"),
            "like" => first == "create",
            word if FIRST.contains(&word) => is_first,
            word => BEFORE.contains(&word),
        };
        if is_before {
            self.level.expects = true;
            self.level.is_list = match word {
                "from" | "update" | "join" | "straight_join" => true,
                "table" | "tables" | "view" => OF_LISTS.contains(&first),
                "to" => first == "rename",
                _ => false,
            };
        }
    }

    fn add(&mut self, name: &str) {
        if self.tables.len() < MOST && !self.tables.iter().any(|it| it == name) {
            self.tables.push(name.to_string());
        }
    }
}

#[cfg(test)]
mod tests {
    use super::{has_word, tables_in, Mode, Names};

    #[test]
    fn tables_of_texts() {
        let mut wrong = Vec::new();
        for (text, tables) in [
            ("SELECT * FROM shop.goods g, `my db`.`ta``ble` AS b JOIN c USING (id)", "shop.goods|my db.ta`ble|c"),
            ("SELECT pay FROM(salaries)WHERE id = 1", "salaries"),
            ("SELECT 1 FROM (a, (b), c) LEFT JOIN {OJ d JOIN e ON 1} ON 2, f", "a|b|c|d|e|f"),
            ("SELECT x, y FROM a WHERE z IN (SELECT 1 FROM b, c) ORDER BY x, y LIMIT 1, 2", "a|b|c"),
            ("SELECT (SELECT 1 FROM b) q, z FROM a", "b|a"),
            ("SELECT EXTRACT(YEAR FROM d), TRIM(LEADING 'x' FROM y), SUBSTRING(s FROM 2) FROM t", "t"),
            ("SELECT 1 INTO OUTFILE 'f' FROM t FOR UPDATE", "t"),
            ("SELECT a INTO @v FROM t1 PARTITION (p0, p1), t2 FORCE INDEX FOR ORDER BY (i, j), t3", "t1|t2|t3"),
            ("SELECT now(), 1 FROM DUAL", ""),
            ("INSERT LOW_PRIORITY INTO `t` (a, b) VALUES (1, 2)", "t"),
            ("INSERT t SET a = 1 ON DUPLICATE KEY UPDATE b = 2", "t"),
            ("REPLACE t SELECT REPLACE(a, 'x', 'y') FROM u", "t|u"),
            ("UPDATE IGNORE a.b, c SET x = 1, y = 2 WHERE z LIKE 'w'", "a.b|c"),
            ("DELETE a, b FROM a JOIN b ON a.x = b.y", "a|b"),
            ("TRUNCATE goods", "goods"),
            ("TRUNCATE TABLE goods", "goods"),
            ("CREATE TEMPORARY TABLE IF NOT EXISTS x LIKE y", "x|y"),
            ("CREATE TABLE x (a INT, b INT REFERENCES y (b), c INT)", "x|y"),
            ("CREATE OR REPLACE VIEW v AS SELECT * FROM t JOIN u ON t.a = u.b", "v|t|u"),
            ("CREATE INDEX i ON t (a, b)", "t"),
            ("CREATE TRIGGER g BEFORE INSERT ON t FOR EACH ROW SET @a = 1", "t"),
            ("ALTER TABLE t ADD a INT, DROP b, RENAME TO u", "t|u"),
            ("DROP TABLE IF EXISTS a, b", "a|b"),
            ("LOCK TABLES a READ, b AS c WRITE", "a|b"),
            ("RENAME TABLE a TO b, c TO d", "a|b|c|d"),
            ("GRANT SELECT, INSERT ON shop.goods TO bob", "shop.goods"),
            ("LOAD DATA LOCAL INFILE 'f' IGNORE INTO TABLE t", "t"),
            ("TABLE salaries", "salaries"),
            ("HANDLER t OPEN", "t"),
            ("DESC t", "t"),
            ("EXPLAIN SELECT a FROM t ORDER BY a DESC, b", "t"),
            ("SHOW FULL COLUMNS FROM t FROM db", "t"),
            ("SHOW CREATE TABLE t", "t"),
            ("SHOW TABLES FROM db", ""),
            ("DELETE FROM a; DROP TABLE b", "a|b"),
            ("SELECT * FROM /*!40001 salaries */", "salaries"),
            ("SELECT * FROM a /*M!100100 , b */", "a|b"),
            ("SELECT * FROM 1a", "?"),
            ("SELECT * FROM 1a, b", "?|b"),
            ("INSERT INTO t VALUES (1, 2), (3, 4)", "t"),
            ("SELECT * FROM a, \"b\"", "a|?"),
            ("SELECT 1 AS $$, b FROM a", "?"),
            ("PREPARE s FROM 'SELECT pay FROM salaries'", "?"),
            ("SET @a = 1", ""),
            ("", ""),
        ] {
            let found = tables_in(text.as_bytes(), Mode::default()).join("|");
            if found != tables {
                wrong.push((text, found));
            }
        }
        assert!(wrong.is_empty(), "{wrong:#?}");
    }

    #[test]
    fn names_are_whole_words() {
        for text in [
            "SELECT pay FROM salaries",
            "SELECT pay FROM(`Salaries`)",
            "select*from hr.SALARIES.pay",
            "PREPARE s FROM 'SELECT pay FROM salaries'",
            "SELECT 1 FROM /*!40001 salaries*/",
            "salaries",
        ] {
            assert!(has_word(text.as_bytes(), b"salaries"), "{text}");
        }
        for text in [
            "SELECT 1 FROM old_salaries",
            "salaries2",
            "$salaries",
            "salarie",
            "",
        ] {
            assert!(!has_word(text.as_bytes(), b"salaries"), "{text}");
        }
        // By latin1 that is a blank.
        assert!(has_word(
            b"SELECT pay FROM\xa0salaries\xa0WHERE 1",
            b"salaries"
        ));
        let names = ["b", "a", "b", "c", "1x"].map(str::to_string);
        let within = |text: &[u8]| Names::of(names.iter()).within(text);
        assert_eq!(vec!["a", "b"], within(b"A join B"));
        for (text, name) in [
            (&b"SELECT 1 FROM /*!50000c*/"[..], "c"),
            (b"SELECT 1 FROM /*!500001x*/", "1x"),
            (b"SELECT 1 FROM /*M!100100c*/ /*! old_a */", "c"),
            (b"SELECT 1 FROM /*!c*/", "c"),
        ] {
            assert_eq!(vec![name], within(text));
        }
    }
}
