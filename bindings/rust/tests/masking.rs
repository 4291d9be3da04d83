//! The statements that the auditing proxy shows without their passwords.

#[path = "../../audit/src/masking.rs"]
mod masking;

use masking::masked;
use std::fs;
use std::path::Path;

#[test]
fn statements_are_shown_as_their_rows_say() {
    let file = Path::new(env!("CARGO_MANIFEST_DIR")).join("../testing/rows/masks.txt");
    let rows = fs::read_to_string(file).expect("there are rows");
    let mut count = 0;
    for (number, line) in (1..).zip(rows.lines()) {
        if line.is_empty() || line.starts_with('#') {
            continue;
        }
        let fields: Vec<String> = line
            .split(" | ")
            .map(|field| field.replace("<LF>", "\n"))
            .collect();
        let (kind, text) = (&fields[0], &fields[1]);
        let shown = fields.get(2).unwrap_or(text);
        let found = masked(text.as_bytes(), !kind.contains("plain"));
        assert_eq!(
            (
                String::from_utf8_lossy(&found.text).as_ref(),
                found.is_secret
            ),
            (shown.as_str(), kind != "shown"),
            "row {number}"
        );
        count += 1;
    }
    assert!(count > 80, "there are {count} rows");
}

#[test]
fn any_text_has_an_end() {
    let words = "SET PASSWORD = ( FOR TO 'a \\ IDENTIFIED BY WITH ? ; , /*! */ /* x' _a ) \" @ .";
    let words: Vec<&str> = words.split(' ').collect();
    let mut state = 1_u64;
    for _ in 0..20_000 {
        let mut text = String::new();
        for _ in 0..12 {
            state = state
                .wrapping_mul(6364136223846793005)
                .wrapping_add(1442695040888963407);
            text += words[(state >> 33) as usize % words.len()];
            text.push(' ');
        }
        for escapes in [false, true] {
            let found = masked(text.as_bytes(), escapes);
            assert!(found.is_secret || found.text == text.as_bytes(), "{text}");
        }
    }
}

#[test]
fn what_is_no_utf8_is_masked_from_the_first_word_on() {
    // In another character set a0 may be a blank.
    let found = masked(b"CREATE USER ann IDENTIFIED\xa0BY 'tea'", true);
    assert_eq!(b"CREATE USER ann IDENTIFIED'*****'"[..], *found.text);
    assert!(found.is_secret);
    let found = masked(b"SELECT '\xa0'", true);
    assert_eq!(
        (&b"SELECT '\xa0'"[..], false),
        (&*found.text, found.is_secret)
    );
}
