//! Payloads of commands, and what is shown of them once they were put.

use crate::said::{after_login, prepared, rows, Payloads, CAPABILITIES, LIMIT, LIMITS, OK};
use mysql_session::{
    bulk_executions, capability, command, executions, At, Bytes, Capabilities, Code, Connection,
    Error, Event, Login, ParameterSets, Phase, ReplyKind, Side,
};

#[test]
fn commands_are_read_as_they_were_made() -> Result<(), Error> {
    let mut connection = after_login(LIMITS);
    let mut out = Bytes::new()?;
    let mut put = |payload: Vec<u8>, reply: &[u8]| -> Result<String, Error> {
        connection.put(Side::Client, &payload, &mut out)?;
        let line = connection.line_with_secrets()?.to_string();
        if !reply.is_empty() {
            connection.put(Side::Server, reply, &mut out)?;
        }
        Ok(line)
    };
    let change = Login {
        collation: 45,
        capabilities: CAPABILITIES.protocol,
        user: b"ann",
        response: b"re",
        database: b"shop",
        plugin: b"mysql_native_password",
        ..Login::default()
    };
    let rows: [(Vec<u8>, &[u8], &str); 14] = [
        (command::init_db(b"shop"), OK, "InitDb schema=x73686f70"),
        (
            command::query(b"DO 1"),
            OK,
            "Query attributes=() text=x444f2031",
        ),
        (command::statistics(), b"Uptime: 7", "Statistics"),
        (command::ping(), OK, "Ping"),
        (command::set_option(0), OK, "SetOption option=0"),
        (command::set_option(1), OK, "SetOption option=1"),
        (command::process_kill(7), OK, "ProcessKill id=7"),
        (
            command::fetch(7, 3),
            b"\xff\x01\x04#42000x",
            "Fetch id=7 rows=3",
        ),
        (
            command::change_user(&change)?,
            OK,
            "ChangeUser user=x616e6e answer=x7265 database=x73686f70 charset=45 \
             plugin=x6d7973716c5f6e61746976655f70617373776f7264",
        ),
        (command::close(7), b"", "Close id=7"),
        (command::reset_statement(8), OK, "ResetStatement id=8"),
        (
            command::long_data(9, 258, b"tea"),
            b"",
            "LongData id=9 place=258 data=x746561",
        ),
        (command::reset_connection(), OK, "ResetConnection"),
        (command::quit(), b"", "Quit"),
    ];
    for (payload, reply, wanted) in rows {
        let line = put(payload, reply)?;
        assert!(line.starts_with(&format!("client {wanted}")), "{line}");
    }
    Ok(())
}

#[test]
fn a_query_says_that_it_has_no_attributes() -> Result<(), Error> {
    let capabilities = Capabilities {
        protocol: CAPABILITIES.protocol | capability::CLIENT_QUERY_ATTRIBUTES,
        mariadb: 0,
    };
    let mut connection = Connection::after_login(LIMITS, capabilities)?;
    let mut out = Bytes::new()?;
    let payload = command::query_without_attributes(b"SELECT 1");
    let Event::Query { text, attributes } = connection.put(Side::Client, &payload, &mut out)?
    else {
        panic!("a query was put");
    };
    assert_eq!((text, attributes.len()), (&b"SELECT 1"[..], 0));
    Ok(())
}

#[test]
fn an_event_that_was_put_is_shown_whole() -> Result<(), Error> {
    let mut connection = after_login(LIMITS);
    let mut out = Bytes::new()?;
    connection.put(Side::Client, &command::prepare(b"SELECT ?"), &mut out)?;
    connection.put_packets(Side::Server, &prepared(1, 1)?, &mut out)?;
    let mut sets = ParameterSets::new()?;
    sets.add(&["tea".into()])?;
    let packets = executions(&sets, b"SELECT ?", 1, LIMIT)?;
    let execution = Payloads(&packets).next().expect("there is one");
    match connection.put(Side::Client, &execution, &mut out)? {
        Event::Execute {
            statement,
            text,
            values,
            ..
        } => {
            assert_eq!((statement, text), (1, &b"SELECT ?"[..]));
            assert_eq!(values.iter().collect::<Vec<_>>(), ["tea".into()]);
        }
        event => panic!("{event:?}"),
    }
    let reply = rows(ReplyKind::Execute, &[[7.into(), "tea".into()]])?;
    let payloads: Vec<_> = Payloads(&reply).collect();
    for payload in &payloads {
        if let Event::Row(row) = connection.put(Side::Server, payload, &mut out)? {
            assert_eq!(row.into_tuple(), Ok((7, "tea")));
            assert_eq!(row.column(1).map(|it| it.name), Some(&b"name"[..]));
        }
    }
    assert_eq!(connection.phase(), Phase::Command);
    Ok(())
}

#[test]
fn an_event_outlives_the_payload() -> Result<(), Error> {
    let mut connection = after_login(LIMITS);
    let text = vec![b'x'; 1 << 16];
    let event = {
        let (payload, mut out) = (command::query(&text), Bytes::new()?);
        connection.put(Side::Client, &payload, &mut out)?
    };
    let others: Vec<_> = (0..8).map(|_| vec![b'y'; 1 << 16]).collect();
    let Event::Query { text: shown, .. } = event else {
        panic!("{}", event.name());
    };
    assert!(shown == text && others.iter().all(|other| shown != other));
    Ok(())
}

#[test]
fn executions_stand_behind_their_prepare() -> Result<(), Error> {
    // The prepare is one of more than a packet.
    let mut query = b"INSERT INTO goods VALUES (?) -- ".to_vec();
    query.resize(1 << 24, b'x');
    let mut sets = ParameterSets::new()?;
    sets.add(&[7.into()])?;
    let packets = executions(&sets, &query, 9, 1 << 25)?;
    let payloads: Vec<_> = Payloads(&packets).collect();
    assert_eq!(payloads.len(), 1);
    assert!(payloads[0].starts_with(&[0x17, 9, 0, 0, 0]));
    let packets = bulk_executions(&sets, &query, 9, 1 << 25)?;
    assert!(packets[4..].starts_with(&[0xfa, 9, 0, 0, 0]));
    let error = executions(&sets, b"SELECT ?, ?", 9, LIMIT).expect_err("a value is missing");
    assert_eq!(
        (error.code(), error.at()),
        (Code::REFUSED_WRONG_COUNT, Some(At::Set(0)))
    );
    Ok(())
}

#[test]
fn a_text_of_a_change_of_user_has_no_zero_byte() {
    let refused = |change: Login<'_>| command::change_user(&change).map_err(|it| it.code());
    let login = Login::default();
    let long = [b'x'; 256];
    for wrong in [
        Login {
            user: b"a\0b",
            ..login
        },
        Login {
            database: b"\0",
            ..login
        },
        Login {
            response: b"\0",
            ..login
        },
        Login {
            plugin: b"\0",
            capabilities: CAPABILITIES.protocol,
            ..login
        },
        Login {
            response: &long,
            capabilities: CAPABILITIES.protocol,
            ..login
        },
    ] {
        assert_eq!(refused(wrong), Err(Code::BAD_PACKET));
    }
    let attributes = Login {
        capabilities: capability::CLIENT_CONNECT_ATTRS,
        ..login
    };
    assert_eq!(refused(attributes), Ok(b"\x11\0\0\0\0\0\0".to_vec()));
}
