//! Errors by their codes, texts and positions, and objects behind a fault.

use mysql_session::{
    bind_text, put_execution, put_packet, recode, send, value_text, At, Bytes, Code, End, Error,
    ParameterSets, Receiver, Recoder, Road, Value,
};
use std::collections::HashSet;

const LIMIT: usize = 1 << 24;

/// The error of sending these sets.
fn refusal(sets: &[&[Value<'_>]], query: &[u8], road: Road, limit: usize) -> Result<Error, Error> {
    let mut given = ParameterSets::new()?;
    for set in sets {
        given.add(set)?;
    }
    let mut out = Bytes::new()?;
    put_packet(b"before", &mut 0, LIMIT, &mut out)?;
    let before = out.to_vec();
    let error = send(&given, query, road, 1, limit, &mut out).unwrap_err();
    assert_eq!(out.as_slice(), before);
    Ok(error)
}

#[test]
fn refusals_have_their_places() -> Result<(), Error> {
    let one = &[Value::Int(1)][..];
    let rows: [(Error, Code, Option<At>); 10] = [
        (
            refusal(&[one], b"SELECT ?", Road::Text, 3)?,
            Code::LIMIT_TOO_SMALL,
            None,
        ),
        (
            refusal(&[one], b"SELECT ?, :a", Road::Text, LIMIT)?,
            Code::MIXED,
            None,
        ),
        (
            refusal(&[one, one], b"SELECT ?, 5?6", Road::Text, LIMIT)?,
            Code::REFUSED_NOT_ALONE,
            Some(At::Place(1)),
        ),
        (
            refusal(&[one], b"SELECT ?", Road::Execute, 8)?,
            Code::REFUSED_PREPARE_TOO_LARGE,
            None,
        ),
        (
            refusal(&[&[]], b"SELECT 1", Road::Bulk, LIMIT)?,
            Code::REFUSED_NO_PLACES,
            None,
        ),
        (
            refusal(&[one], b"SELECT :a", Road::Text, LIMIT)?,
            Code::REFUSED_PARAMS,
            Some(At::Set(0)),
        ),
        (
            refusal(&[one, &[]], b"SELECT ?", Road::Execute, LIMIT)?,
            Code::REFUSED_WRONG_COUNT,
            Some(At::Set(1)),
        ),
        (
            refusal(&[one, &["abc".into()]], b"SELECT ?", Road::Text, 16)?,
            Code::REFUSED_PACKET_TOO_LARGE,
            Some(At::Set(1)),
        ),
        (
            refusal(&[one, &["abc".into()]], b"SELECT ?", Road::Bulk, LIMIT)?,
            Code::REFUSED_MIXED_KINDS,
            Some(At::Value { set: 1, place: 0 }),
        ),
        (
            refusal(&[one, &[Value::Null], one], b"SELECT ?", Road::Bulk, 16)?,
            Code::REFUSED_ROW_TOO_LARGE,
            Some(At::Set(0)),
        ),
    ];
    for (error, code, at) in rows {
        assert_eq!((error.code(), error.at()), (code, at), "{error}");
    }
    Ok(())
}

#[test]
fn an_error_says_what_and_where() -> Result<(), Error> {
    let error = refusal(&[&[]], b"SELECT ?", Road::Text, LIMIT)?;
    let text = error.to_string();
    assert_eq!(
        text,
        format!("{} (set 0)", Code::REFUSED_WRONG_COUNT.text())
    );
    assert!(text.len() > " (set 0)".len());
    let error: Box<dyn std::error::Error> = error.into();
    assert_eq!(error.to_string(), text);
    Ok(())
}

#[test]
fn codes_have_texts() {
    let codes = [
        Code::MEMORY,
        Code::EMPTY_HANDLE,
        Code::UNFINISHED,
        Code::FAULT_TOO_LARGE,
        Code::FAULT_PIECES_BEFORE_BULK,
        Code::REFUSED_NOT_ALONE,
        Code::REFUSED_ROW_TOO_LARGE,
        Code::REPLY_BAD_HEADER,
        Code::REPLY_AFTER_END,
        Code::WRITE_NO_RESULTS,
        Code::WRITE_NO_FORM,
    ];
    let texts: HashSet<&str> = codes.iter().map(|code| code.text()).collect();
    assert_eq!(texts.len(), codes.len(), "{texts:?}");
    assert!(
        !texts.contains("no such code") && !texts.contains(""),
        "{texts:?}"
    );
    assert_eq!(Code::MEMORY.to_string(), Code::MEMORY.text());
}

#[test]
fn a_float_is_sent_by_no_road() -> Result<(), Error> {
    for float in [Value::from(1.5f32), Value::from(1.5f64)] {
        for road in [Road::Text, Road::Execute, Road::Bulk] {
            let sets: [&[Value<'_>]; 2] = [&[1.into(), 2.into()], &[3.into(), float]];
            let error = refusal(&sets, b"SELECT ?, ?", road, LIMIT)?;
            assert_eq!(error.code(), Code::REFUSED_FLOAT);
            assert_eq!(error.at(), Some(At::Value { set: 1, place: 1 }));
        }
        let mut sets = ParameterSets::new()?;
        sets.push(2)?;
        sets.push(float)?;
        sets.end_set()?;
        let mut out = Bytes::new()?;
        let error = bind_text(&sets, 0, b"?, ?", &mut out).unwrap_err();
        assert_eq!(error.code(), Code::REFUSED_FLOAT);
        assert_eq!(error.at(), Some(At::Value { set: 0, place: 1 }));
        let error = value_text(&sets, 0, 1, &mut out).unwrap_err();
        assert_eq!(error.code(), Code::REFUSED_FLOAT);
        assert!(out.is_empty());
    }
    Ok(())
}

#[test]
fn receivers_and_recoders_are_refused() {
    let refused = |query: &[u8], limit| {
        let receiver = Receiver::new(query, 1, limit)
            .err()
            .map(|error| error.code());
        let recoder = Recoder::new(query, 1, limit)
            .err()
            .map(|error| error.code());
        (receiver, recoder)
    };
    assert_eq!(
        refused(b"SELECT ?", 3),
        (Some(Code::LIMIT_TOO_SMALL), Some(Code::LIMIT_TOO_SMALL))
    );
    assert_eq!(
        refused(b"?, :a", LIMIT),
        (Some(Code::MIXED), Some(Code::MIXED))
    );
    assert_eq!(
        refused(b"SELECT ?", 8),
        (None, Some(Code::REFUSED_PREPARE_TOO_LARGE))
    );
    let places = vec![b'?'; 65536];
    assert_eq!(
        refused(&places, LIMIT),
        (None, Some(Code::REFUSED_TOO_MANY_PLACES))
    );
}

#[test]
fn a_fault_stays_and_the_sets_before_it_do() -> Result<(), Error> {
    let mut receiver = Receiver::new(b"SELECT ?", 1, LIMIT)?;
    receiver.feed(b"\x09\0\0\0\x03SELECT 7")?;
    let fault = receiver.feed(b"\x09\0\0\0\x03SELECT x").unwrap_err();
    assert_eq!(fault.code(), Code::FAULT_TEXT_MISMATCH);
    assert_eq!(fault.to_string(), Code::FAULT_TEXT_MISMATCH.text());
    for piece in [&b"\x09\0\0\0\x03SELECT 8"[..], b""] {
        assert_eq!(receiver.feed(piece), Err(fault));
        assert_eq!(receiver.sets().len(), 1);
    }
    receiver.clear();
    assert_eq!(receiver.feed(b""), Err(fault));
    let audit = receiver.end();
    assert_eq!(audit.end(), End::Fault { payload: 1, fault });
    assert_eq!(audit.end().to_string(), format!("payload 1: {fault}"));
    assert_eq!(audit.sets().len(), 0);
    Ok(())
}

#[test]
fn faults_are_those_of_the_first_wrong_field() -> Result<(), Error> {
    let rows: [(&[u8], Code); 7] = [
        (b"\x01\0\0\x01\x0e", Code::FAULT_OUT_OF_SYNC),
        (b"\0\0\0\0", Code::FAULT_EMPTY_COMMAND),
        (b"\x01\0\0\0\x0e", Code::FAULT_OTHER_COMMAND),
        (b"\x09\0\0\0\x16SELECT 1", Code::FAULT_PREPARE_MISMATCH),
        (
            b"\x0a\0\0\0\x17\x01\0\0\0\0\x01\0\0\0",
            Code::FAULT_NOT_PREPARED,
        ),
        (
            b"\x09\0\0\0\x16SELECT ?\x05\0\0\0\x1a\x02\0\0\0",
            Code::FAULT_WRONG_ID,
        ),
        (b"\xff\xff\xff\0", Code::FAULT_TOO_LARGE),
    ];
    for (stream, code) in rows {
        let mut receiver = Receiver::new(b"SELECT ?", 1, 1 << 16)?;
        let fault = receiver.feed(stream).unwrap_err();
        assert_eq!(fault.code(), code, "{fault}");
        assert_eq!(Error::from(fault).code(), code);
    }
    Ok(())
}

#[test]
fn streams_that_wait_have_their_end() -> Result<(), Error> {
    let prepare = b"\x09\0\0\0\x16SELECT ?";
    let long_data = b"\x08\0\0\0\x18\x01\0\0\0\0\0x";
    let mut receiver = Receiver::new(b"SELECT ?", 1, LIMIT)?;
    receiver.feed(prepare)?;
    receiver.feed(long_data)?;
    assert_eq!(receiver.end().end(), End::WaitingPieces);

    let stream = [&prepare[..], long_data].concat();
    let error = recode(b"SELECT ?", 1, LIMIT, &stream).unwrap_err();
    assert_eq!(error.code(), Code::UNFINISHED);
    assert_eq!(error.at(), Some(At::End(End::WaitingPieces)));
    let error = recode(b"SELECT ?", 1, LIMIT, &stream[..stream.len() - 1]).unwrap_err();
    assert_eq!(error.at(), Some(At::End(End::UnfinishedPacket)));
    Ok(())
}

#[test]
fn a_recoder_stops_at_a_fault() -> Result<(), Error> {
    let mut recoder = Recoder::new(b"SELECT ?", 1, LIMIT)?;
    let mut out = Bytes::new()?;
    recoder.feed(b"\x09\0\0\0\x03SELECT 7", &mut out)?;
    let before = out.to_vec();
    let error = recoder.feed(b"\x01\0\0\0\x0e", &mut out).unwrap_err();
    assert_eq!(error.code(), Code::FAULT_OTHER_COMMAND);
    assert_eq!(error.at(), Some(At::Payload(1)));
    assert_eq!(recoder.feed(b"", &mut out), Err(error));
    assert_eq!(recoder.end(&mut out), Err(error));
    assert_eq!(out.as_slice(), before);
    Ok(())
}

#[test]
fn an_execution_that_is_refused_appends_nothing() -> Result<(), Error> {
    let mut sets = ParameterSets::new()?;
    sets.add(&vec![Value::Null; 65_535])?;
    sets.add(&vec![Value::Null; 65_536])?;
    let mut out = Bytes::new()?;
    put_execution(&sets, 0, 1, &mut out)?;
    let length = out.len();
    let error = put_execution(&sets, 1, 1, &mut out).unwrap_err();
    assert_eq!(error.code(), Code::REFUSED_TOO_MANY_PLACES);
    let error = put_execution(&sets, 2, 1, &mut out).unwrap_err();
    assert_eq!((error.code(), error.at()), (Code::OUT_OF_RANGE, None));
    assert_eq!(out.len(), length);
    Ok(())
}
