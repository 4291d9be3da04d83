//! Digests of statements.

use mysql_session::{digest, digest_in, Bytes, Error, Mode};
use std::fs;
use std::path::Path;

/// The mode that a row names.
fn mode_of(word: &str) -> Mode {
    Mode {
        no_backslash_escapes: word == "no_backslash_escapes",
        ansi_quotes: word == "ansi_quotes",
    }
}

#[test]
fn digests_are_as_their_rows_say() -> Result<(), Error> {
    let file = Path::new(env!("CARGO_MANIFEST_DIR")).join("../testing/rows/digests.txt");
    let rows = fs::read_to_string(file).expect("there are rows");
    let mut count = 0;
    for (number, line) in (1..).zip(rows.lines()) {
        if line.is_empty() || line.starts_with('#') {
            continue;
        }
        let fields: Vec<String> = line
            .split(" | ")
            .map(|field| field.replace("<LF>", "\n"))
            .collect();
        let [mode, text, wanted] = &fields[..] else {
            panic!("row {number} has {} fields", fields.len());
        };
        let mut out = Bytes::new()?;
        digest_in(text.as_bytes(), mode_of(mode), &mut out)?;
        assert_eq!(out.as_slice(), wanted.as_bytes(), "row {number}");
        assert!(!wanted.contains("secret"), "row {number}");
        count += 1;
    }
    assert!(count > 25, "there are {count} rows");
    Ok(())
}

#[test]
fn a_digest_stands_behind_what_was_there() -> Result<(), Error> {
    let mut out = Bytes::new()?;
    digest(b"a = 1", &mut out)?;
    digest(b"; b", &mut out)?;
    assert_eq!(out.as_slice(), b"a = ?; b");
    Ok(())
}

/// A statement of a megabyte has a small digest, and no byte of its strings.
#[test]
fn a_long_statement_has_a_short_digest() -> Result<(), Error> {
    let rows = vec!["(1, 'secret')"; 80_000].join(",");
    let mut out = Bytes::new()?;
    digest(format!("INSERT INTO t VALUES {rows}").as_bytes(), &mut out)?;
    assert_eq!(out.as_slice(), b"insert into t values (...) /* , ... */");
    Ok(())
}
