//! What `Debug` and `Display` print, and what `for` goes over.

use mysql_session::{
    capability, command, recode, Bytes, Capabilities, Code, Connection, ErrorPacket, Event, Fault,
    Greeting, Limits, Login, NamedQuery, PacketReader, ParameterSets, Receiver, RegisterReplica,
    ReplyKind, ReplyReader, ReplyResult, Side, Value,
};
use std::error::Error;

/// What a server replies to a query: the columns `n` and `m`, and two rows.
const REPLY: &[u8] = b"\x01\0\0\x01\x02\
    \x17\0\0\x02\x03def\0\0\0\x01n\0\x0c\x3f\0\x0b\0\0\0\x03\0\0\0\0\0\
    \x17\0\0\x03\x03def\0\0\0\x01m\0\x0c\x2d\0\x0b\0\0\0\xfd\0\0\0\0\0\
    \x05\0\0\x04\xfe\0\0\x02\0\
    \x06\0\0\x05\x017\x03tea\
    \x05\0\0\x06\x018\x02\xff!\
    \x05\0\0\x07\xfe\0\0\x02\0";

#[test]
fn codes_have_their_names() {
    let error = Receiver::new(b"SELECT ?", 1, 3).unwrap_err();
    assert_eq!(error.code().name(), Some("LIMIT_TOO_SMALL"));
    let printed = "Error { code: LIMIT_TOO_SMALL, at: None }";
    assert_eq!(format!("{error:?}"), printed);
    let error = recode(b"SELECT ?", 1, 1 << 24, b"\x01\0\0\0\x0e").unwrap_err();
    let printed = "Error { code: FAULT_OTHER_COMMAND, at: Some(Payload(0)) }";
    assert_eq!(format!("{error:?}"), printed);
    assert_eq!(format!("{:?}", Code::WRITE_NO_FORM), "WRITE_NO_FORM");
}

#[test]
fn all_errors_are_errors() -> Result<(), Box<dyn Error>> {
    fn texts(errors: &[&dyn Error]) -> Vec<String> {
        errors.iter().map(|error| error.to_string()).collect()
    }
    let packet = ErrorPacket {
        code: 1045,
        state: Some(*b"28000"),
        message: b"Access denied \xff",
    };
    let stateless = ErrorPacket {
        state: None,
        ..packet
    };
    let mut receiver = Receiver::new(b"SELECT ?", 1, 1 << 24)?;
    let fault = receiver.feed(b"\x01\0\0\0\x0e").unwrap_err();
    let mut connection = Connection::new(Limits::default())?;
    connection.feed(Side::Server, b"\x01\0\0\0\x09")?;
    let of_connection = connection.next_event().unwrap_err();
    let code = of_connection.code();
    assert_eq!(
        texts(&[&packet, &stateless, &fault, &of_connection, &code]),
        [
            "error 1045 (28000): Access denied \u{fffd}".to_string(),
            "error 1045: Access denied \u{fffd}".to_string(),
            Code::FAULT_OTHER_COMMAND.text().to_string(),
            format!("server, byte 0: {}", code.text()),
            code.text().to_string(),
        ]
    );
    Ok(())
}

#[test]
fn bytes_are_printed_as_texts() -> Result<(), Box<dyn Error>> {
    let greeting = Greeting {
        version: b"8.0",
        scramble_1: b"abcd\xff\0gh",
        ..Greeting::default()
    };
    let printed = format!("{greeting:?}");
    assert!(printed.contains(r#"version: "8.0""#), "{printed}");
    let bytes = r#"scramble_1: b"abcd\xff\x00gh""#;
    assert!(printed.contains(bytes), "{printed}");
    let query = NamedQuery::new(b"SELECT :a")?;
    let printed = r#"NamedQuery { text: "SELECT ?", names: ["a"] }"#;
    assert_eq!(format!("{query:?}"), printed);
    let mut sets = ParameterSets::new()?;
    sets.add(&["a secret".into()])?;
    assert_eq!(format!("{sets:?}"), "ParameterSets { len: 1, .. }");
    let mut receiver = Receiver::new(b"SELECT ?", 1, 1 << 24)?;
    receiver.feed(b"\x0b\0\0\0\x03SELECT 'a'")?;
    let printed = r#"Receiver { sets: [[Bytes("a")]], .. }"#;
    assert_eq!(format!("{receiver:?}"), printed);
    let printed = r#"Audit { end: Whole, sets: [[Bytes("a")]] }"#;
    assert_eq!(format!("{:?}", receiver.end()), printed);
    Ok(())
}

#[test]
fn passwords_are_not_printed() {
    let login = Login {
        user: b"ann",
        response: b"geheim",
        ..Login::default()
    };
    let replica = RegisterReplica {
        user: b"ann",
        password: b"geheim",
        ..RegisterReplica::default()
    };
    for printed in [format!("{login:?}"), format!("{replica:?}")] {
        assert!(printed.contains(r#"user: "ann""#), "{printed}");
        assert!(!printed.contains("geheim"), "{printed}");
    }
}

/// A connection behind a login, whose client has asked for rows.
fn asked() -> Result<Connection, Box<dyn Error>> {
    let capabilities = Capabilities {
        protocol: capability::CLIENT_PROTOCOL_41,
        mariadb: 0,
    };
    let mut connection = Connection::after_login(Limits::default(), capabilities)?;
    let query = command::query(b"SELECT n, m FROM t");
    connection.put(Side::Client, &query, &mut Bytes::new()?)?;
    Ok(connection)
}

#[test]
fn a_connection_says_how_it_stands() -> Result<(), Box<dyn Error>> {
    let connection = asked()?;
    let printed = "Connection { phase: Reply, turn: Some(Server), held: 0, fault: None, \
        event: Some(Query { text: \"SELECT n, m FROM t\", attributes: {} }), .. }";
    assert_eq!(format!("{connection:?}"), printed);
    Ok(())
}

#[test]
fn rows_are_gone_over() -> Result<(), Box<dyn Error>> {
    let mut reader = ReplyReader::new(ReplyKind::Query, 512, 1, 1 << 24)?;
    reader.feed(REPLY)?;
    let results = reader.take()?;
    let [ReplyResult::Rows(rows)] = &results[..] else {
        panic!("{results:?}");
    };
    let mut found = Vec::new();
    for row in rows {
        for (column, cell) in row.columns().zip(row) {
            found.push((column.name, cell));
        }
    }
    let wanted: [(&[u8], Value<'_>); 4] = [
        (b"n", Value::Bytes(b"7")),
        (b"m", Value::Bytes(b"tea")),
        (b"n", Value::Bytes(b"8")),
        (b"m", Value::Bytes(b"\xff!")),
    ];
    assert_eq!(found, wanted);
    assert_eq!(rows.column_named("m"), Some(1));
    let printed = r#"[[Bytes("7"), Bytes("tea")], [Bytes("8"), Bytes(b"\xff!")]]"#;
    assert_eq!(format!("{:?}", rows.iter()), printed);
    let mut backwards = rows.into_iter().rev();
    assert_eq!(backwards.len(), 2);
    let last = backwards.next().expect("there are two rows");
    assert_eq!(last.get_named("n"), Ok(8));
    assert_eq!(rows.iter().nth(1).map(|row| row.get(0)), Some(Ok(8)));
    assert!(rows.iter().nth(2).is_none());
    Ok(())
}

#[test]
fn rows_of_a_connection_are_gone_over() -> Result<(), Box<dyn Error>> {
    let mut connection = asked()?;
    connection.feed(Side::Server, REPLY)?;
    let mut found = Vec::new();
    while let Some(event) = connection.next_event()? {
        if let Event::Row(row) = event {
            assert_eq!(row.column_named("m"), Some(1));
            assert_eq!(row.get_named("n"), Ok(7 + found.len() as u64 / 2));
            assert_eq!(row.value(0), Some(Value::Int(7 + found.len() as i64 / 2)));
            assert_eq!(row.values().nth(1), row.cell(1));
            for cell in row {
                found.push(cell.to_owned_text());
            }
            let error = row.get_named::<u8>("m").unwrap_err();
            let text = "column 1 (m): a text doesn't convert to u8";
            assert_eq!(error.to_string(), text);
        }
    }
    assert_eq!(found, ["7", "tea", "8", "\u{fffd}!"]);
    Ok(())
}

/// A cell as a text that borrows nothing.
trait OwnedText {
    fn to_owned_text(&self) -> String;
}

impl OwnedText for Value<'_> {
    fn to_owned_text(&self) -> String {
        match self {
            Value::Bytes(text) => String::from_utf8_lossy(text).into_owned(),
            other => format!("{other:?}"),
        }
    }
}

#[test]
fn sets_and_values_are_gone_over() -> Result<(), Box<dyn Error>> {
    let mut receiver = Receiver::new(b"SELECT ?, ?", 1, 1 << 24)?;
    receiver.feed(b"\x0c\0\0\0\x03SELECT 7, 8\x0c\0\0\0\x03SELECT 9, 9")?;
    let mut sums = Vec::new();
    for set in &receiver {
        let mut sum = 0;
        for content in set {
            sum += match content.into() {
                Value::Int(number) => number,
                other => panic!("{other:?}"),
            };
        }
        sums.push(sum);
    }
    assert_eq!(sums, [15, 18]);
    assert_eq!((&receiver.end()).into_iter().count(), 2);
    Ok(())
}

#[test]
fn attributes_are_found_by_their_names() -> Result<(), Box<dyn Error>> {
    let capabilities = Capabilities {
        protocol: capability::CLIENT_PROTOCOL_41 | capability::CLIENT_QUERY_ATTRIBUTES,
        mariadb: 0,
    };
    let mut connection = Connection::after_login(Limits::default(), capabilities)?;
    let query = b"\x03\x01\x01\0\x01\xfd\0\x05trace\x02idSELECT 1";
    let event = connection.put(Side::Client, query, &mut Bytes::new()?)?;
    let Event::Query { attributes, .. } = event else {
        panic!("{event:?}");
    };
    assert_eq!(attributes.named("trace"), Some(Value::Bytes(b"id")));
    assert_eq!(attributes.named("Trace"), None);
    for (name, value) in attributes {
        assert_eq!((name, value), (&b"trace"[..], Value::Bytes(b"id")));
    }
    let printed = r#"{"trace": Bytes("id")}"#;
    assert_eq!(format!("{attributes:?}"), printed);
    Ok(())
}

#[test]
fn payloads_are_gone_over() -> Result<(), Box<dyn Error>> {
    let stream = b"\x01\0\0\0a\x02\0\0\x01bc\x01\0\0\x02d";
    for size in 1..=stream.len() {
        let mut reader = PacketReader::new(0, 1 << 24)?;
        let mut found = Vec::new();
        for piece in stream.chunks(size) {
            for payload in reader.payloads(piece) {
                found.push(payload?);
            }
        }
        assert_eq!(found, [&b"a"[..], b"bc", b"d"], "pieces of {size}");
    }
    let mut reader = PacketReader::new(0, 1 << 24)?;
    let mut payloads = reader.payloads(b"\x01\0\0\0a\x01\0\0\x07b");
    assert_eq!(payloads.next(), Some(Ok(b"a".to_vec())));
    assert_eq!(payloads.rest(), b"\x01\0\0\x07b");
    let fault = payloads.next().and_then(Result::err).map(Fault::code);
    assert_eq!(fault, Some(Code::FAULT_OUT_OF_SYNC));
    assert_eq!(payloads.next(), None);
    Ok(())
}
