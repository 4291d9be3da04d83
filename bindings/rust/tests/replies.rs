//! Replies read in pieces, and replies written.

use mysql_session::{
    capability, put_packet, At, Bytes, Code, ColumnType, Date, Done, End, Error, ErrorPacket,
    OkPacket, ParameterSets, ReplyKind, ReplyReader, ReplyResult, ReplyWriter, SessionState, Time,
    Value,
};

const CAPABILITIES: u32 = capability::CLIENT_PROTOCOL_41;

const LIMIT: usize = 1 << 24;

const LONG: ColumnType = ColumnType {
    kind: 3,
    flags: 0,
    charset: 63,
    length: 11,
    decimals: 0,
};

const TEXT: ColumnType = ColumnType {
    kind: 253,
    flags: 0,
    charset: 45,
    length: 1020,
    decimals: 0,
};

/// Two columns, and the rows (7, 'tea') and (NULL, '').
fn rows() -> Vec<u8> {
    [
        &b"\x01\0\0\x01\x02"[..],
        b"\x25\0\0\x02\x03def\x01s\x01t\x06goods1\x06number\x01n",
        b"\x0c\x3f\0\x0b\0\0\0\x03\x01\x10\0\0\0",
        b"\x1a\0\0\x03\x03def\0\0\0\x04name\0\x0c\x2d\0\xfc\x03\0\0\xfd\0\0\0\0\0",
        b"\x05\0\0\x04\xfe\0\0\x02\0",
        b"\x06\0\0\x05\x017\x03tea",
        b"\x02\0\0\x06\xfb\0",
        b"\x05\0\0\x07\xfe\x03\0\x02\0",
    ]
    .concat()
}

/// A row of texts, with NULL among them.
type Texts = Vec<Option<Vec<u8>>>;

/// The cells of the rows that a reader has now, and whether the reply ends with them.
fn taken(reader: &mut ReplyReader) -> Result<(Vec<Texts>, bool), Error> {
    let (mut cells, mut last) = (Vec::new(), false);
    for result in reader.take()? {
        let ReplyResult::Rows(rows) = result else {
            panic!("{result:?}");
        };
        assert_eq!(rows.columns().len(), 2);
        last = result.is_last();
        cells.extend(rows.iter().map(|row| row.iter().map(text).collect()));
    }
    Ok((cells, last))
}

fn text(value: Value<'_>) -> Option<Vec<u8>> {
    match value {
        Value::Null => None,
        Value::Bytes(bytes) => Some(bytes.to_vec()),
        _ => panic!("{value:?} is in a row of texts"),
    }
}

#[test]
fn rows_come_in_pieces() -> Result<(), Error> {
    let wanted = [
        vec![Some(b"7".to_vec()), Some(b"tea".to_vec())],
        vec![None, Some(b"".to_vec())],
    ];
    let reply = rows();
    for length in 1..reply.len() {
        let mut reader = ReplyReader::new(ReplyKind::Query, CAPABILITIES, 1, LIMIT)?;
        let (mut cells, mut last) = (Vec::new(), false);
        for piece in reply.chunks(length) {
            assert!(!last, "pieces of {length} bytes");
            reader.feed(piece)?;
            let (found, ends) = taken(&mut reader)?;
            cells.extend(found);
            last = ends;
        }
        assert!(last, "pieces of {length} bytes");
        assert_eq!(cells, wanted, "pieces of {length} bytes");
        let reply = reader.end();
        assert_eq!(reply.end(), End::Whole);
        assert_eq!(reply.results()?.len(), 0);
    }
    Ok(())
}

#[test]
fn columns_are_shown_beside_rows() -> Result<(), Error> {
    let mut reader = ReplyReader::new(ReplyKind::Query, CAPABILITIES, 1, LIMIT)?;
    reader.feed(&rows())?;
    let reply = reader.end();
    let results = reply.results()?;
    let [ReplyResult::Rows(rows)] = &results[..] else {
        panic!("{results:?}");
    };
    let columns: Vec<_> = rows.columns().collect();
    assert_eq!(columns[0].schema, b"s");
    assert_eq!(columns[0].table, b"t");
    assert_eq!(columns[0].org_table, b"goods1");
    assert_eq!(columns[0].name, b"number");
    assert_eq!(columns[0].org_name, b"n");
    assert_eq!(
        columns[0].column_type,
        ColumnType {
            flags: 0x1001,
            ..LONG
        }
    );
    assert_eq!(columns[1].column_type, TEXT);
    assert_eq!(rows.column_named(b"name"), Some(1));
    assert_eq!(rows.column_named(b"other"), None);
    let row = rows.row(0).expect("there are two rows");
    assert_eq!(
        (row.len(), row.cell(1), row.cell(2)),
        (2, Some(Value::Bytes(b"tea")), None)
    );
    assert!(rows.row(2).is_none());
    let end = rows.end().expect("the rows have ended");
    assert_eq!((end.packet.status, end.packet.warnings), (2, 3));
    // All that was shown before stands still.
    assert_eq!(columns[0].name, b"number");
    assert_eq!(format!("{row:?}"), r#"[Bytes("7"), Bytes("tea")]"#);
    Ok(())
}

#[test]
fn errors_end_a_reply() -> Result<(), Error> {
    let mut reader = ReplyReader::new(ReplyKind::Query, CAPABILITIES, 1, LIMIT)?;
    reader.feed(b"\x0c\0\0\x01\xff\x28\x04#42000bad")?;
    let results = reader.take()?;
    let [ReplyResult::Error(error)] = &results[..] else {
        panic!("{results:?}");
    };
    assert_eq!((error.code, error.state), (1064, Some(*b"42000")));
    assert_eq!(error.message, b"bad");
    assert!(results[0].is_last());
    assert_eq!(reader.taken()?.len(), 1);
    let fault = reader.feed(b"x").unwrap_err();
    assert_eq!(fault.code(), Code::REPLY_AFTER_END);
    assert_eq!(reader.feed(b""), Err(fault));
    assert_eq!(reader.taken()?.len(), 1);
    let reply = reader.end();
    assert_eq!(reply.end(), End::Fault { payload: 1, fault });
    Ok(())
}

#[test]
fn a_reply_that_goes_on_has_more_results() -> Result<(), Error> {
    let mut reader = ReplyReader::new(ReplyKind::Query, CAPABILITIES, 1, LIMIT)?;
    reader.feed(b"\x07\0\0\x01\0\x05\x06\x0a\0\x01\0")?;
    let results = reader.take()?;
    let [ReplyResult::Ok(done)] = &results[..] else {
        panic!("{results:?}");
    };
    let wanted = OkPacket {
        affected_rows: 5,
        last_insert_id: 6,
        status: 10,
        warnings: 1,
        info: b"",
        state_changes: b"",
    };
    assert_eq!(done.packet, wanted);
    assert!(done.has_more() && !results[0].is_last());
    assert!(done.states().next().is_none());
    reader.feed(b"\x07\0\0\x02\xfba file")?;
    let results = reader.take()?;
    assert!(
        matches!(results[..], [ReplyResult::File(b"a file")]),
        "{results:?}"
    );
    assert!(results[0].is_last());
    Ok(())
}

#[test]
fn changes_of_the_session_are_shown() -> Result<(), Error> {
    let capabilities = CAPABILITIES | capability::CLIENT_SESSION_TRACK;
    let mut reader = ReplyReader::new(ReplyKind::Query, capabilities, 1, LIMIT)?;
    reader.feed(b"\x10\0\0\x01\0\0\0\x02\x40\0\0\x02hi\x05\x01\x03\x02db")?;
    let results = reader.take()?;
    let [ReplyResult::Ok(done)] = &results[..] else {
        panic!("{results:?}");
    };
    assert_eq!(done.packet.info, b"hi");
    let states = done.states().collect::<Result<Vec<_>, _>>()?;
    assert_eq!(
        states,
        [SessionState {
            kind: 1,
            data: b"\x02db"
        }]
    );
    Ok(())
}

/// An OK packet that tells these changes of the session's state.
fn ok_with_changes(changes: &[u8]) -> Result<Bytes, Error> {
    let mut payload = b"\0\0\0\x02\x40\0\0\0\xfd".to_vec();
    payload.extend(&changes.len().to_le_bytes()[..3]);
    payload.extend(changes);
    let mut out = Bytes::new()?;
    put_packet(&payload, &mut 1, LIMIT, &mut out)?;
    Ok(out)
}

/// The one result of a reader, an OK packet.
fn taken_ok(reader: &mut ReplyReader) -> Result<Done<'_>, Error> {
    let results = reader.take()?;
    match results[..] {
        [ReplyResult::Ok(done)] => Ok(done),
        _ => panic!("{results:?}"),
    }
}

#[test]
fn changes_are_shown_in_their_order_by_one_pass() -> Result<(), Error> {
    let capabilities = CAPABILITIES | capability::CLIENT_SESSION_TRACK;
    let mut changes = Vec::new();
    for number in 0..50_000_u32 {
        changes.extend([(number % 4) as u8, 3, 2]);
        changes.extend([(number % 251) as u8, (number % 241) as u8]);
    }
    let mut reader = ReplyReader::new(ReplyKind::Query, capabilities, 1, LIMIT)?;
    reader.feed(&ok_with_changes(&changes)?)?;
    let done = taken_ok(&mut reader)?;
    let mut count = 0;
    for (number, state) in (0_u32..).zip(done.states()) {
        let data = [2, (number % 251) as u8, (number % 241) as u8];
        let kind = (number % 4) as u8;
        assert_eq!(state?, SessionState { kind, data: &data });
        count += 1;
    }
    assert_eq!(count, 50_000);
    // A copy of the iterator goes on by itself; both read the same packet.
    let mut states = done.states();
    states.next();
    let mut again = states.clone();
    assert_eq!(states.next().transpose()?, again.next().transpose()?);
    assert_eq!(states.count(), 49_998);
    Ok(())
}

#[test]
fn a_change_that_cant_be_read_is_an_error_and_the_last() -> Result<(), Error> {
    let capabilities = CAPABILITIES | capability::CLIENT_SESSION_TRACK;
    for bad in [&b"\x01\x05a"[..], b"\x01", b"\x06\0"] {
        let changes = [&b"\x01\x03\x02db"[..], bad].concat();
        let mut reader = ReplyReader::new(ReplyKind::Query, capabilities, 1, LIMIT)?;
        reader.feed(&ok_with_changes(&changes)?)?;
        let mut states = taken_ok(&mut reader)?.states();
        assert_eq!(states.next().transpose()?.map(|state| state.kind), Some(1));
        let error = states.next().expect("one more change is told").unwrap_err();
        assert_eq!(error.code(), Code::BAD_PACKET);
        assert!(states.next().is_none() && states.next().is_none());
    }
    Ok(())
}

#[test]
fn a_statement_has_parameters_and_columns() -> Result<(), Error> {
    let mut reader = ReplyReader::new(ReplyKind::Prepare, CAPABILITIES, 1, LIMIT)?;
    let column = |number: u8, name: &[u8; 4]| {
        let mut packet = vec![0x1a, 0, 0, number];
        packet.extend_from_slice(b"\x03def\0\0\0\x04");
        packet.extend_from_slice(name);
        packet.extend_from_slice(b"\0\x0c\x2d\0\xfc\x03\0\0\xfd\0\0\0\0\0");
        packet
    };
    reader.feed(b"\x0c\0\0\x01\0\x09\0\0\0\x01\0\x02\0\0\x03\0")?;
    for packet in [column(2, b"par1"), column(3, b"par2")] {
        reader.feed(&packet)?;
    }
    reader.feed(b"\x05\0\0\x04\xfe\0\0\x02\0")?;
    assert_eq!(reader.take()?.len(), 0);
    reader.feed(&column(5, b"col1"))?;
    reader.feed(b"\x05\0\0\x06\xfe\0\0\x02\0")?;
    let results = reader.take()?;
    let [ReplyResult::Prepared(prepared)] = &results[..] else {
        panic!("{results:?}");
    };
    assert_eq!((prepared.statement, prepared.warnings), (9, 3));
    let names: Vec<_> = prepared.params().map(|param| param.name).collect();
    assert_eq!(names, [b"par1", b"par2"]);
    let names: Vec<_> = prepared.columns().map(|column| column.name).collect();
    assert_eq!(names, [b"col1"]);
    assert!(results[0].is_last());
    Ok(())
}

/// The values of rows of each kind of a column's type.
fn typed() -> [Value<'static>; 5] {
    let date = Date {
        year: 2026,
        month: 2,
        day: 3,
        hour: 4,
        minute: 5,
        second: 6,
        micros: 7,
    };
    let time = Time {
        negative: true,
        days: 1,
        hours: 2,
        minutes: 3,
        seconds: 4,
        micros: 5,
    };
    [
        (-7).into(),
        u64::MAX.into(),
        "tea".into(),
        date.into(),
        time.into(),
    ]
}

/// A reply to an execution with one row of values of each type.
fn written() -> Result<Bytes, Error> {
    let mut sets = ParameterSets::new()?;
    sets.add(&typed())?;
    sets.add(&[Value::Null; 5])?;
    let mut out = Bytes::new()?;
    let mut writer = ReplyWriter::new(ReplyKind::Execute, CAPABILITIES, 1, LIMIT)?;
    for (name, kind, flags) in [
        ("a", 8, 0),
        ("b", 8, 32),
        ("c", 253, 0),
        ("d", 12, 0),
        ("e", 11, 0),
    ] {
        writer.column(
            name.as_bytes(),
            ColumnType {
                kind,
                flags,
                ..LONG
            },
        )?;
    }
    writer.rows(&mut out)?;
    writer.row(&sets, 0, &mut out)?;
    writer.row(&sets, 1, &mut out)?;
    assert_eq!(
        writer.row(&sets, 2, &mut out).unwrap_err().code(),
        Code::OUT_OF_RANGE
    );
    writer.end_rows(2, 1, true, &mut out)?;
    writer.ok(
        &OkPacket {
            affected_rows: 3,
            status: 2,
            ..OkPacket::default()
        },
        false,
        &mut out,
    )?;
    writer.end()?;
    Ok(out)
}

#[test]
fn what_is_written_is_read() -> Result<(), Error> {
    let mut reader = ReplyReader::new(ReplyKind::Execute, CAPABILITIES, 1, LIMIT)?;
    for piece in written()?.chunks(7) {
        reader.feed(piece)?;
    }
    let reply = reader.end();
    assert_eq!(reply.end(), End::Whole);
    let results = reply.results()?;
    let [ReplyResult::Rows(rows), ReplyResult::Ok(done)] = &results[..] else {
        panic!("{results:?}");
    };
    let cells: Vec<Vec<Value<'_>>> = rows.iter().map(|row| row.iter().collect()).collect();
    assert_eq!(cells, [typed().to_vec(), vec![Value::Null; 5]]);
    assert_eq!(
        rows.end()
            .map(|end| (end.packet.status, end.packet.warnings)),
        Some((10, 1))
    );
    assert_eq!((done.packet.affected_rows, done.packet.status), (3, 2));
    assert!(!results[0].is_last() && results[1].is_last());
    Ok(())
}

#[test]
fn floats_are_written_and_read() -> Result<(), Error> {
    let mut out = Bytes::new()?;
    let mut writer = ReplyWriter::new(ReplyKind::Execute, CAPABILITIES, 1, LIMIT)?;
    writer.column(b"f", ColumnType { kind: 4, ..LONG })?;
    writer.column(b"d", ColumnType { kind: 5, ..LONG })?;
    writer.rows(&mut out)?;
    let mut reader = ReplyReader::new(ReplyKind::Execute, CAPABILITIES, 1, LIMIT)?;
    reader.feed(&out)?;
    let mut row = b"\x0e\0\0\x05\0\0".to_vec();
    row.extend_from_slice(&1.5f32.to_le_bytes());
    row.extend_from_slice(&(-2.25f64).to_le_bytes());
    reader.feed(&row)?;
    let mut sets = ParameterSets::new()?;
    sets.add(&[1.5f32.into(), (-2.25f64).into()])?;
    let mut written = Bytes::new()?;
    writer.row(&sets, 0, &mut written)?;
    assert_eq!(written.as_slice(), row);
    let results = reader.take()?;
    let [ReplyResult::Rows(rows)] = &results[..] else {
        panic!("{results:?}");
    };
    let row = rows.row(0).expect("a row was read");
    assert_eq!(row.cell(0), Some(Value::Float(1.5)));
    assert_eq!(row.cell(1), Some(Value::Double(-2.25)));
    assert!(rows.end().is_none() && !results[0].is_last());
    Ok(())
}

#[test]
fn an_error_and_a_statement_are_written() -> Result<(), Error> {
    let mut out = Bytes::new()?;
    let mut writer = ReplyWriter::new(ReplyKind::Prepare, CAPABILITIES, 1, LIMIT)?;
    writer.column(b"p", TEXT)?;
    assert_eq!(
        writer.prepared(4, 2, 0, &mut out).unwrap_err().code(),
        Code::OUT_OF_RANGE
    );
    writer.column(b"c", LONG)?;
    writer.prepared(4, 1, 0, &mut out)?;
    writer.end()?;
    let mut reader = ReplyReader::new(ReplyKind::Prepare, CAPABILITIES, 1, LIMIT)?;
    reader.feed(&out)?;
    let results = reader.take()?;
    let [ReplyResult::Prepared(prepared)] = &results[..] else {
        panic!("{results:?}");
    };
    assert_eq!(prepared.statement, 4);
    assert_eq!((prepared.params().len(), prepared.columns().len()), (1, 1));
    out.clear();

    let given = ErrorPacket {
        code: 1146,
        state: Some(*b"42S02"),
        message: b"no table",
    };
    let mut writer = ReplyWriter::new(ReplyKind::Query, CAPABILITIES, 1, LIMIT)?;
    writer.error(&given, &mut out)?;
    let mut reader = ReplyReader::new(ReplyKind::Query, CAPABILITIES, 1, LIMIT)?;
    reader.feed(&out)?;
    assert!(matches!(reader.take()?[..], [ReplyResult::Error(error)] if error == given));
    let error = writer.error(&given, &mut out).unwrap_err();
    assert_eq!(
        (error.code(), error.at()),
        (Code::WRITE_AFTER_END, Some(At::Result(1)))
    );
    Ok(())
}

#[test]
fn writing_is_refused_with_its_place() -> Result<(), Error> {
    let mut sets = ParameterSets::new()?;
    sets.add(&[1.into()])?;
    sets.add(&[1.into(), "a".into()])?;
    let mut out = Bytes::new()?;
    let mut writer = ReplyWriter::new(ReplyKind::Execute, CAPABILITIES, 1, 64)?;
    let refused = |error: Error| (error.code(), error.at());

    let error = writer.row(&sets, 0, &mut out).unwrap_err();
    assert_eq!(refused(error), (Code::WRITE_NOT_BEGUN, Some(At::Result(0))));
    let error = writer.rows(&mut out).unwrap_err();
    assert_eq!(
        refused(error),
        (Code::WRITE_NO_COLUMNS, Some(At::Result(0)))
    );
    let error = writer
        .column(b"x", ColumnType { kind: 99, ..LONG })
        .unwrap_err();
    assert_eq!(refused(error), (Code::NO_SUCH_KIND, None));
    assert_eq!(out.len(), 0);

    writer.column(b"a", LONG)?;
    writer.column(b"b", LONG)?;
    writer.rows(&mut out)?;
    let before = out.to_vec();
    let error = writer.row(&sets, 0, &mut out).unwrap_err();
    assert_eq!(
        refused(error),
        (Code::WRITE_CELL_COUNT, Some(At::Row { result: 0, row: 0 }))
    );
    let error = writer.row(&sets, 1, &mut out).unwrap_err();
    assert_eq!(
        refused(error),
        (
            Code::WRITE_NO_FORM,
            Some(At::Cell {
                result: 0,
                row: 0,
                place: 1
            })
        )
    );
    let long = ErrorPacket {
        code: 1,
        state: None,
        message: &[b'x'; 65],
    };
    let error = writer.error(&long, &mut out).unwrap_err();
    assert_eq!(
        refused(error),
        (Code::WRITE_PACKET_TOO_LARGE, Some(At::Payload(4)))
    );
    assert_eq!(out.as_slice(), before);
    let error = writer.end().unwrap_err();
    assert_eq!(refused(error), (Code::WRITE_NOT_ENDED, Some(At::Result(0))));

    let writer = ReplyWriter::new(ReplyKind::Query, CAPABILITIES, 1, LIMIT)?;
    assert_eq!(writer.end().unwrap_err().code(), Code::WRITE_NO_RESULTS);
    Ok(())
}

#[test]
fn bytes_are_printed_as_texts() {
    let value = |bytes: &'static [u8]| format!("{:?}", Value::Bytes(bytes));
    assert_eq!(value("K\u{e4}se".as_bytes()), "Bytes(\"K\u{e4}se\")");
    assert_eq!(value(b"\xffa\""), r#"Bytes(b"\xffa\"")"#);
    assert_eq!(value(b""), r#"Bytes("")"#);
}
