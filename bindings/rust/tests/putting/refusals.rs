//! Payloads and packets that aren't put, or not all of them.

use crate::said::{after_login, greeting, login, prepared, rows, LIMIT, LIMITS, OK};
use mysql_session::{
    command, executions, place_count, put_execution, put_packet, At, Bytes, Code, Connection,
    Error, Limits, Mode, ParameterSets, Phase, Reason, ReplyKind, Side,
};

/// Looks whether a payload is refused, and the connection and the bytes stay as they were.
fn refuses(connection: &mut Connection, side: Side, payload: &[u8], code: Code) {
    let standing = |it: &Connection| (it.turn(), it.phase(), it.held(), it.fault());
    let before = standing(connection);
    let mut out = Bytes::new().expect("memory isn't short");
    put_packet(b"before", &mut 0, LIMIT, &mut out).expect("memory isn't short");
    let bytes = out.to_vec();
    let error = connection
        .put(side, payload, &mut out)
        .expect_err("it is refused");
    assert_eq!((error.code(), error.at()), (code, None));
    assert!(connection.event().is_none());
    let mut packets = Bytes::new().expect("memory isn't short");
    put_packet(payload, &mut 0, 1 << 26, &mut packets).expect("memory isn't short");
    match connection.put_packets(side, &packets, &mut out) {
        Ok(used) => assert_eq!((used, code), (0, Code::CONNECTION_NOT_ITS_TURN)),
        Err(error) => assert_eq!((error.code(), error.at()), (code, Some(At::Byte(0)))),
    }
    assert_eq!((standing(connection), out.to_vec()), (before, bytes));
}

#[test]
fn a_payload_that_is_not_due_is_refused() {
    let mut connection = Connection::new(LIMITS).expect("memory isn't short");
    let ping = command::ping();
    refuses(
        &mut connection,
        Side::Client,
        &ping,
        Code::CONNECTION_NOT_ITS_TURN,
    );

    // Bytes of its side wait unread, or its stream has ended.
    let mut connection = after_login(LIMITS);
    connection
        .feed(Side::Client, b"\x01\0")
        .expect("there is room");
    refuses(
        &mut connection,
        Side::Client,
        &ping,
        Code::CONNECTION_NOT_ITS_TURN,
    );
    let mut connection = after_login(LIMITS);
    connection.close(Side::Client);
    refuses(
        &mut connection,
        Side::Client,
        &ping,
        Code::CONNECTION_NOT_ITS_TURN,
    );

    // The connection has failed, or is over.
    let mut connection = after_login(LIMITS);
    connection
        .feed(Side::Client, b"\x01\0\0\x07\x0e")
        .expect("there is room");
    connection.next_event().expect_err("the number is wrong");
    refuses(
        &mut connection,
        Side::Client,
        &ping,
        Code::CONNECTION_NOT_ITS_TURN,
    );
    let mut connection = after_login(LIMITS);
    let mut out = Bytes::new().expect("memory isn't short");
    connection
        .put(Side::Client, &command::quit(), &mut out)
        .expect("a command is due");
    assert_eq!(connection.phase(), Phase::Over(Reason::Quit));
    for side in [Side::Client, Side::Server] {
        refuses(&mut connection, side, &ping, Code::CONNECTION_NOT_ITS_TURN);
    }
}

#[test]
fn a_payload_past_its_limit_is_refused() {
    let limits = Limits {
        client: 10,
        server: 12,
        held: 1 << 10,
    };
    let mut connection = after_login(limits);
    let query = command::query(b"SELECT 127");
    refuses(
        &mut connection,
        Side::Client,
        &query,
        Code::CONNECTION_TOO_LARGE,
    );
    let mut out = Bytes::new().expect("memory isn't short");
    connection
        .put(Side::Client, &query[..10], &mut out)
        .expect("it is as long as it may be");
    refuses(
        &mut connection,
        Side::Server,
        &[0; 13],
        Code::CONNECTION_TOO_LARGE,
    );
    connection
        .put(Side::Server, &[0; 12], &mut out)
        .expect("it is as long as it may be");
}

#[test]
fn a_payload_that_cannot_be_read_is_refused() {
    let mut connection = Connection::new(LIMITS).expect("memory isn't short");
    let mut out = Bytes::new().expect("memory isn't short");
    refuses(
        &mut connection,
        Side::Server,
        b"\x0a11.4",
        Code::CONNECTION_BAD_GREETING,
    );
    refuses(
        &mut connection,
        Side::Server,
        b"\x09",
        Code::CONNECTION_OLD_PROTOCOL,
    );
    connection
        .put(Side::Server, &greeting(), &mut out)
        .expect("a greeting is due");
    let short = &login()[..20];
    refuses(
        &mut connection,
        Side::Client,
        short,
        Code::CONNECTION_BAD_LOGIN,
    );
    connection
        .put(Side::Client, &login(), &mut out)
        .expect("a login is due");
    refuses(&mut connection, Side::Server, b"\0", Code::REPLY_BAD_OK);
    connection
        .put(Side::Server, OK, &mut out)
        .expect("an answer is due");
    connection
        .put(Side::Client, &command::query(b"SELECT 1"), &mut out)
        .expect("a command is due");
    for (payload, code) in [
        (&b""[..], Code::REPLY_BAD_HEADER),
        (b"\0\xfc", Code::REPLY_BAD_OK),
        (b"\xff", Code::REPLY_BAD_ERROR),
    ] {
        refuses(&mut connection, Side::Server, payload, code);
    }
}

#[test]
fn a_payload_of_which_too_much_is_kept_is_refused() {
    let limits = Limits {
        client: 100,
        server: 100,
        held: 2 * 104 + 20,
    };
    let mut connection = after_login(limits);
    let long = command::prepare(b"INSERT INTO goods VALUES (?, ?)");
    refuses(&mut connection, Side::Client, &long, Code::CONNECTION_KEPT);
    let mut out = Bytes::new().expect("memory isn't short");
    connection
        .put(Side::Client, &command::prepare(b"SELECT ?"), &mut out)
        .expect("there is room");
}

#[test]
fn packets_are_put_up_to_the_first_that_is_not_due() -> Result<(), Error> {
    let mut connection = after_login(LIMITS);
    let (mut packets, mut out) = (Bytes::new()?, Bytes::new()?);
    let long_data = command::long_data(1, 0, b"tea");
    let payloads = [
        long_data,
        command::close(1),
        command::ping(),
        command::ping(),
    ];
    for payload in &payloads {
        put_packet(payload, &mut 0, LIMIT, &mut packets)?;
    }
    let first = packets.len() - 5;
    // What is cut off is left, and what is whole before it is put.
    assert_eq!(
        connection.put_packets(Side::Client, &packets[..3], &mut out)?,
        0
    );
    let cut = 4 + payloads[0].len() + 7;
    assert_eq!(
        connection.put_packets(Side::Client, &packets[..cut], &mut out)?,
        4 + payloads[0].len()
    );
    let rest = &packets[out.len()..];
    let used = connection.put_packets(Side::Client, rest, &mut out)?;
    assert_eq!((used, out.as_slice()), (rest.len() - 5, &packets[..first]));
    assert_eq!(connection.turn(), Some(Side::Server));
    assert_eq!(
        connection.put_packets(Side::Client, &packets[first..], &mut out)?,
        0
    );
    assert_eq!(connection.put_packets(Side::Client, b"", &mut out)?, 0);
    Ok(())
}

#[test]
fn packets_before_one_that_is_refused_are_put() -> Result<(), Error> {
    let mut connection = after_login(LIMITS);
    let mut out = Bytes::new()?;
    connection.put(Side::Client, &command::query(b"SELECT 1"), &mut out)?;
    out.clear();
    let reply = rows(ReplyKind::Query, &[[7.into(), "tea".into()]])?;
    // The row's packet stands before the last one, which ends the rows.
    let row = reply.len() - 9 - (4 + 6);
    let mut changed = reply.to_vec();
    changed[row + 4] = 9;
    let error = connection
        .put_packets(Side::Server, &changed, &mut out)
        .expect_err("the row's first cell is longer than the row");
    assert_eq!(
        (error.code(), error.at()),
        (Code::REPLY_BAD_ROW, Some(At::Byte(row)))
    );
    assert_eq!(
        error.to_string(),
        format!("{} (byte {row})", Code::REPLY_BAD_ROW)
    );
    assert_eq!(out.as_slice(), &reply[..row]);
    // The reply goes on behind what was put.
    let used = connection.put_packets(Side::Server, &reply[row..], &mut out)?;
    assert_eq!((used, out.as_slice()), (reply.len() - row, &reply[..]));
    assert_eq!(connection.phase(), Phase::Command);
    Ok(())
}

#[test]
fn the_numbers_of_a_payloads_packets_go_on() -> Result<(), Error> {
    let mut packets = Bytes::new()?;
    let text = vec![b'x'; 1 << 24];
    put_packet(&command::query(&text), &mut 7, 1 << 25, &mut packets)?;
    let mut connection = after_login(LIMITS);
    let mut out = Bytes::new()?;
    let mut changed = packets.to_vec();
    changed[4 + 0xff_ffff + 3] = 9;
    let error = connection
        .put_packets(Side::Client, &changed, &mut out)
        .expect_err("the second packet has another number");
    assert_eq!(
        (error.code(), error.at()),
        (Code::CONNECTION_OUT_OF_SYNC, Some(At::Byte(0)))
    );
    assert!(out.is_empty());
    Ok(())
}

/// Two parameters by its tokens; a MariaDB counts one.
const SKIPPED: &[u8] = b"DELETE FROM t WHERE id = ? /*!80000 AND k = ? */";

#[test]
fn sets_of_another_count_are_refused() -> Result<(), Error> {
    let mut connection = after_login(LIMITS);
    let (mut sets, mut out) = (ParameterSets::new()?, Bytes::new()?);
    sets.add(&[5.into(), 7.into()])?;
    let places = place_count(b"SELECT ?, ?", Mode::default())?;
    let packets = executions(&sets, b"SELECT ?, ?", 9, LIMIT)?;
    let unknown = connection.put_sets(9, places, &packets, &mut out);
    let error = unknown.expect_err("the server has prepared nothing");
    assert_eq!(
        (error.code(), error.at()),
        (Code::CONNECTION_UNKNOWN_STATEMENT, None)
    );
    connection.put(Side::Client, &command::prepare(SKIPPED), &mut out)?;
    connection.put_packets(Side::Server, &prepared(9, 1)?, &mut out)?;
    out.clear();
    let held = connection.held();
    let other = connection.put_sets(9, places, &packets, &mut out);
    let error = other.expect_err("the server counted one");
    assert_eq!(
        (error.code(), error.at()),
        (Code::CONNECTION_WRONG_COUNT, None)
    );
    assert_eq!((connection.held(), out.len()), (held, 0));
    assert_eq!(connection.turn(), Some(Side::Client));

    // Of one value it is put, floats among them.
    sets.clear();
    sets.add(&[1.5.into()])?;
    let (mut payload, mut packets) = (Bytes::new()?, Bytes::new()?);
    put_execution(&sets, 0, 9, &mut payload)?;
    put_packet(&payload, &mut 0, LIMIT, &mut packets)?;
    let used = connection.put_sets(9, 1, &packets, &mut out)?;
    assert_eq!((used, out.as_slice()), (packets.len(), &packets[..]));
    Ok(())
}
