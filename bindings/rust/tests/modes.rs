//! Texts by the mode of a server, and byte strings in hexadecimal.

use mysql_session::{
    bind_text, bind_text_in, capability, is_safe_to_quote, recode, recode_in, send, send_in,
    value_text, value_text_in, Bytes, Code, Content, Date, End, Error, Mode, OkPacket,
    ParameterSets, Receiver, Recoder, ReplyKind, ReplyReader, ReplyResult, Road, SessionMode,
    Spelling, Value, ASK_SESSION_MODE,
};

const LIMIT: usize = 1 << 24;

const DEFAULT: Mode = Mode {
    no_backslash_escapes: false,
    ansi_quotes: false,
};

const NO_ESCAPES: Mode = Mode {
    no_backslash_escapes: true,
    ansi_quotes: false,
};

const ANSI_QUOTES: Mode = Mode {
    no_backslash_escapes: false,
    ansi_quotes: true,
};

const BOTH: Mode = Mode {
    no_backslash_escapes: true,
    ansi_quotes: true,
};

const MODES: [Mode; 4] = [DEFAULT, NO_ESCAPES, ANSI_QUOTES, BOTH];

const ROADS: [Road; 3] = [Road::Text, Road::Execute, Road::Bulk];

fn sets_of(value: Value<'_>) -> Result<ParameterSets, Error> {
    let mut sets = ParameterSets::new()?;
    sets.add(&[value])?;
    Ok(sets)
}

/// The text of a query with this value, or why there is none.
fn text_of(
    query: &[u8],
    value: Value<'_>,
    mode: Mode,
    spelling: Spelling,
) -> Result<String, Error> {
    let mut out = Bytes::new()?;
    bind_text_in(&sets_of(value)?, 0, query, mode, spelling, &mut out)?;
    Ok(String::from_utf8_lossy(&out).into_owned())
}

/// The packet of a text query.
fn query_packet(query: &[u8]) -> Vec<u8> {
    let length = (query.len() + 1) as u32;
    let mut packet = length.to_le_bytes()[..3].to_vec();
    packet.extend_from_slice(b"\0\x03");
    packet.extend_from_slice(query);
    packet
}

/// What is sent of a value by one method.
fn sent(value: Value<'_>, road: Road, mode: Mode, spelling: Spelling) -> Result<Bytes, Error> {
    let (sets, mut out) = (sets_of(value)?, Bytes::new()?);
    send_in(&sets, b"SELECT ?", road, 1, LIMIT, mode, spelling, &mut out)?;
    Ok(out)
}

#[test]
fn texts_are_those_of_the_mode() -> Result<(), Error> {
    let value = Value::Bytes(b"'\\");
    for (mode, wanted) in [
        (DEFAULT, r"SELECT '\'\\'"),
        (ANSI_QUOTES, r"SELECT '\'\\'"),
        (NO_ESCAPES, r"SELECT '''\'"),
        (BOTH, r"SELECT '''\'"),
    ] {
        let text = text_of(b"SELECT ?", value, mode, Spelling::Quoted)?;
        assert_eq!(text, wanted, "{mode:?}");
    }
    for mode in MODES {
        let text = |value| text_of(b"SELECT ?", value, mode, Spelling::Hexadecimal);
        assert_eq!(text(value)?, "SELECT _utf8mb4 0x275C", "{mode:?}");
        assert_eq!(text("".into())?, "SELECT ''", "{mode:?}");
        assert_eq!(text(Value::Null)?, "SELECT NULL", "{mode:?}");
        assert_eq!(text((-7).into())?, "SELECT -7", "{mode:?}");
        let date = Date {
            year: 2024,
            month: 2,
            day: 29,
            ..Date::default()
        };
        assert_eq!(text(date.into())?, "SELECT '2024-02-29'", "{mode:?}");
    }
    Ok(())
}

#[test]
fn placeholders_are_those_of_the_mode() -> Result<(), Error> {
    let rows: [(&[u8], [bool; 4]); 2] = [
        (br"SELECT '\', ?", [false, true, false, true]),
        (br#"SELECT "a\", ?"#, [false, true, true, true]),
    ];
    for (query, wanted) in rows {
        for (mode, wanted) in MODES.into_iter().zip(wanted) {
            let found = text_of(query, 1.into(), mode, Spelling::Quoted);
            if wanted {
                let text = String::from_utf8_lossy(query).replace('?', "1");
                assert_eq!(found, Ok(text), "{mode:?}");
            } else {
                let code = found.map_err(|error| error.code());
                assert_eq!(code, Err(Code::REFUSED_WRONG_COUNT), "{mode:?}");
            }
        }
    }
    Ok(())
}

#[test]
fn a_backslash_alone_is_a_text_of_one_mode() -> Result<(), Error> {
    let stream = query_packet(br"SELECT '\'");
    for mode in MODES {
        let mut receiver = Receiver::new_in(b"SELECT ?", 1, LIMIT, mode, Spelling::Quoted)?;
        let fed = receiver.feed(&stream).map_err(|fault| fault.code());
        let sets: Vec<_> = receiver.sets().map(|set| set.content(0)).collect();
        if mode.no_backslash_escapes {
            assert_eq!(fed, Ok(()), "{mode:?}");
            assert_eq!(sets, [Some(Content::Bytes(b"\\"))], "{mode:?}");
        } else {
            assert_eq!(fed, Err(Code::FAULT_TEXT_MISMATCH), "{mode:?}");
            assert!(sets.is_empty(), "{mode:?}");
        }
    }
    Ok(())
}

#[test]
fn what_is_sent_in_a_mode_is_received_in_it() -> Result<(), Error> {
    let all: Vec<u8> = (0..=255).collect();
    let values: [&[u8]; 7] = [
        b"",
        br"'\",
        b"' OR 1=1 -- ",
        b"\\' OR 1=1 -- ",
        b"\"`?:a/*",
        "\u{e9}\u{1f33f}'\0\x1a\n".as_bytes(),
        &all,
    ];
    for mode in MODES {
        for spelling in [Spelling::Quoted, Spelling::Hexadecimal] {
            for (road, value) in ROADS
                .into_iter()
                .flat_map(|road| values.map(|value| (road, value)))
            {
                let stream = sent(value.into(), road, mode, spelling)?;
                let mut receiver = Receiver::new_in(b"SELECT ?", 1, LIMIT, mode, spelling)?;
                for byte in stream.iter() {
                    receiver.feed(&[*byte])?;
                }
                let sets: Vec<_> = receiver.sets().map(|set| set.content(0)).collect();
                assert_eq!(sets, [Some(Content::Bytes(value))], "{road:?}, {mode:?}");
                assert_eq!(receiver.end().end(), End::Whole);
            }
        }
    }
    Ok(())
}

#[test]
fn a_value_ends_its_literal_in_the_other_mode() -> Result<(), Error> {
    for (mode, other, value) in [
        (DEFAULT, NO_ESCAPES, "' OR 1=1 -- "),
        (NO_ESCAPES, DEFAULT, "\\' OR 1=1 -- "),
    ] {
        let stream = sent(value.into(), Road::Text, mode, Spelling::Quoted)?;
        let mut receiver = Receiver::new_in(b"SELECT ?", 1, LIMIT, other, Spelling::Quoted)?;
        let fault = receiver.feed(&stream).unwrap_err();
        assert_eq!(fault.code(), Code::FAULT_TEXT_MISMATCH, "{mode:?}");
    }
    Ok(())
}

#[test]
fn hexadecimal_is_the_same_in_each_mode() -> Result<(), Error> {
    let value = Value::Bytes(b"' OR 1=1 -- \\");
    let stream = sent(value, Road::Text, DEFAULT, Spelling::Hexadecimal)?;
    for mode in MODES {
        let same = sent(value, Road::Text, mode, Spelling::Hexadecimal)?;
        assert_eq!(stream.as_slice(), same.as_slice(), "{mode:?}");
        let mut receiver = Receiver::new_in(b"SELECT ?", 1, LIMIT, mode, Spelling::Hexadecimal)?;
        receiver.feed(&stream)?;
        assert_eq!(receiver.sets().len(), 1, "{mode:?}");
    }
    Ok(())
}

#[test]
fn recoders_read_by_the_mode() -> Result<(), Error> {
    let execution = sent("'\\".into(), Road::Execute, DEFAULT, Spelling::Quoted)?;
    for mode in MODES {
        let stream = sent("'\\".into(), Road::Text, mode, Spelling::Quoted)?;
        let recoded = recode_in(b"SELECT ?", 1, LIMIT, mode, Spelling::Quoted, &stream)?;
        assert_eq!(recoded.as_slice(), execution.as_slice(), "{mode:?}");
        let mut recoder = Recoder::new_in(b"SELECT ?", 1, LIMIT, mode, Spelling::Quoted)?;
        let mut out = Bytes::new()?;
        for byte in stream.iter() {
            recoder.feed(&[*byte], &mut out)?;
        }
        recoder.end(&mut out)?;
        assert_eq!(out.as_slice(), execution.as_slice(), "{mode:?}");
    }
    let stream = query_packet(br"SELECT '\'");
    let error = recode_in(b"SELECT ?", 1, LIMIT, DEFAULT, Spelling::Quoted, &stream).unwrap_err();
    assert_eq!(error.code(), Code::FAULT_TEXT_MISMATCH);
    Ok(())
}

#[test]
fn calls_without_a_mode_mean_the_default() -> Result<(), Error> {
    assert_eq!(
        (Mode::default(), Spelling::default()),
        (DEFAULT, Spelling::Quoted)
    );
    let sets = sets_of("'\\".into())?;
    for road in ROADS {
        let (mut one, mut other) = (Bytes::new()?, Bytes::new()?);
        send(&sets, b"SELECT ?", road, 1, LIMIT, &mut one)?;
        send_in(
            &sets,
            b"SELECT ?",
            road,
            1,
            LIMIT,
            DEFAULT,
            Spelling::Quoted,
            &mut other,
        )?;
        assert_eq!(one.as_slice(), other.as_slice(), "{road:?}");
        let mut receiver = Receiver::new(b"SELECT ?", 1, LIMIT)?;
        receiver.feed(&one)?;
        assert_eq!(receiver.sets().len(), 1, "{road:?}");
        let recoded = recode(b"SELECT ?", 1, LIMIT, &one)?;
        let same = recode_in(b"SELECT ?", 1, LIMIT, DEFAULT, Spelling::Quoted, &one)?;
        assert_eq!(recoded.as_slice(), same.as_slice(), "{road:?}");
    }
    let mut out = Bytes::new()?;
    bind_text(&sets, 0, b"SELECT ?", &mut out)?;
    assert_eq!(out.as_slice(), br"SELECT '\'\\'");
    out.clear();
    value_text(&sets, 0, 0, &mut out)?;
    value_text_in(&sets, 0, 0, NO_ESCAPES, Spelling::Quoted, &mut out)?;
    value_text_in(&sets, 0, 0, BOTH, Spelling::Hexadecimal, &mut out)?;
    assert_eq!(out.as_slice(), br"'\'\\''''\'_utf8mb4 0x275C");
    Ok(())
}

#[test]
fn a_status_tells_its_mode() {
    for bit in (0..16).map(|bit| 1 << bit) {
        let wanted = Mode {
            no_backslash_escapes: bit == 0x200,
            ansi_quotes: bit == 0x8000,
        };
        assert_eq!(Mode::of(bit), wanted, "{bit:x}");
        let others = Mode {
            no_backslash_escapes: bit != 0x200,
            ansi_quotes: bit != 0x8000,
        };
        assert_eq!(Mode::of(!bit), others, "{bit:x}");
    }
    assert_eq!(Mode::of(0), DEFAULT);
}

#[test]
fn a_variable_tells_its_mode() {
    for (value, mode) in [
        ("", Some(DEFAULT)),
        ("STRICT_TRANS_TABLES,NO_ENGINE_SUBSTITUTION", Some(DEFAULT)),
        ("NO_BACKSLASH_ESCAPES", Some(NO_ESCAPES)),
        ("STRICT_ALL_TABLES,no_backslash_escapes", Some(NO_ESCAPES)),
        ("ANSI_QUOTES,NO_BACKSLASH_ESCAPES", Some(BOTH)),
        (
            "REAL_AS_FLOAT,PIPES_AS_CONCAT,ANSI_QUOTES,IGNORE_SPACE,ANSI",
            Some(ANSI_QUOTES),
        ),
        ("Ansi", Some(ANSI_QUOTES)),
        ("DB2", Some(ANSI_QUOTES)),
        ("MAXDB", Some(ANSI_QUOTES)),
        ("MSSQL", None),
        ("ORACLE", Some(ANSI_QUOTES)),
        ("POSTGRESQL", Some(ANSI_QUOTES)),
        (" Ansi_Quotes ,", Some(ANSI_QUOTES)),
        ("ANSI_QUOTES,XNO_BACKSLASH_ESCAPES", None),
    ] {
        assert_eq!(Mode::of_sql_mode(value.as_bytes()), mode, "{value}");
    }
}

#[test]
fn collations_that_hide_quotes_are_not_safe() {
    let unsafe_ids = [1, 13, 28, 84, 86, 87, 88, 95, 96, 248, 249, 250];
    for id in 0..3000 {
        let hides = unsafe_ids.contains(&id) || id >= 1024 && unsafe_ids.contains(&(id - 1024));
        assert_eq!(is_safe_to_quote(id), !hides, "{id}");
    }
    assert!(is_safe_to_quote(u16::MAX));
}

/// An OK packet that tells these variables.
fn told(status: u16, state_changes: &[u8]) -> OkPacket<'_> {
    OkPacket {
        status,
        state_changes,
        ..OkPacket::default()
    }
}

const BOTH_TOLD: &[u8] = b"\0\x27\x08sql_mode\0\x14character_set_client\x07utf8mb4";
const GBK_TOLD: &[u8] = b"\0\x19\x14character_set_client\x03gbk";
const ANSI_TOLD: &[u8] = b"\0\x15\x08sql_mode\x0bANSI_QUOTES";

#[test]
fn quotes_are_for_what_is_known() {
    let nothing = SessionMode::default();
    assert_eq!((nothing.mode, nothing.is_safe_set), (None, None));
    assert_eq!(nothing.spelling(), Spelling::Hexadecimal);
    // Nothing was said before: the OK packet of a login doesn't count.
    assert_eq!(nothing.behind_ok(&told(0x4002, BOTH_TOLD)), nothing);
    let asked = nothing.behind_text(ASK_SESSION_MODE);
    let known = asked.behind_ok(&told(0x4002, BOTH_TOLD));
    assert_eq!((known.mode, known.is_safe_set), (Some(DEFAULT), Some(true)));
    assert_eq!(known.spelling(), Spelling::Quoted);
    let gbk = known
        .behind_text(b"SET NAMES gbk")
        .behind_ok(&told(0x4002, GBK_TOLD));
    assert_eq!((gbk.mode, gbk.is_safe_set), (Some(DEFAULT), Some(false)));
    assert_eq!(gbk.spelling(), Spelling::Hexadecimal);
    // Refused, or not told.
    let set = known.behind_text(b"SET @@sql_mode = 'ANSI_QUOTES'");
    assert_eq!((set.mode, set.is_safe_set), (None, Some(true)));
    assert_eq!(set.spelling(), Spelling::Hexadecimal);
    let ansi = set.behind_ok(&told(0xc002, ANSI_TOLD));
    assert_eq!((ansi.mode, ansi.spelling()), (Some(ANSI_QUOTES), Spelling::Quoted));
    // Further results follow, or the text has the word.
    let called = known
        .behind_text(b"CALL p()")
        .behind_ok(&told(0xc00a, ANSI_TOLD));
    assert_eq!((called.mode, called.is_safe_set), (None, Some(true)));
    let statement = known.behind_text(b"SET STATEMENT sql_mode = 'ANSI_QUOTES' FOR DO 1");
    let statement = statement.behind_ok(&told(0xc002, ANSI_TOLD));
    assert_eq!((statement.mode, statement.is_safe_set), (None, None));
    // What can't be read.
    let cut = known
        .behind_text(b"DO 1")
        .behind_ok(&told(0x4002, &BOTH_TOLD[..9]));
    assert_eq!((cut.mode, cut.is_safe_set), (None, None));
}

#[test]
fn a_result_tells_what_its_packet_does() -> Result<(), Error> {
    let capabilities = capability::CLIENT_PROTOCOL_41 | capability::CLIENT_SESSION_TRACK;
    let mut reader = ReplyReader::new(ReplyKind::Query, capabilities, 1, LIMIT)?;
    let mut packet = b"\x32\0\0\x01\0\0\0\x02\x40\0\0\0\x29".to_vec();
    packet.extend_from_slice(BOTH_TOLD);
    reader.feed(&packet)?;
    let results = reader.take()?;
    let [ReplyResult::Ok(done)] = &results[..] else {
        panic!("{results:?}");
    };
    assert_eq!(done.packet.state_changes, BOTH_TOLD);
    let asked = SessionMode::default().behind_text(ASK_SESSION_MODE);
    assert_eq!(asked.behind_ok(&done.packet).spelling(), Spelling::Quoted);
    Ok(())
}
