//! What the example that replays makes of a recorded connection.

#[path = "../examples/blocking_client/client.rs"]
#[allow(dead_code)] // only the type of failures is used here
mod client;
#[path = "../examples/replay_connection/execution.rs"]
mod execution;
#[path = "../examples/blocking_client/passwords.rs"]
#[allow(dead_code)] // as above
mod passwords;
#[path = "../examples/replay_connection/recording.rs"]
#[allow(dead_code)] // nothing is put at a server here
mod recording;
#[path = "../examples/replay_connection/reply.rs"]
mod reply;

use execution::execution;
use mysql_session::{
    capability, command, put_execution, Bytes, Capabilities, Connection, Date, Error, Event,
    Greeting, Limits, Login, ParameterSets, Side, Time, Value,
};
use recording::Recording;

const PLAIN: u32 = capability::CLIENT_PROTOCOL_41
    | capability::CLIENT_SECURE_CONNECTION
    | capability::CLIENT_PLUGIN_AUTH;

/// An OK packet.
const OK: &[u8] = b"\0\0\0\x02\0\0\0";

/// A connection on which `SELECT ?, ..` of so many parameters is prepared as statement 7.
fn prepared(parameters: usize) -> Result<Connection, Error> {
    let capabilities = Capabilities {
        protocol: PLAIN,
        mariadb: 0,
    };
    let mut connection = Connection::after_login(Limits::default(), capabilities)?;
    let mut out = Bytes::new()?;
    let query = format!("SELECT {}", vec!["?"; parameters].join(", "));
    connection.put(Side::Client, &command::prepare(query.as_bytes()), &mut out)?;
    for payload in prepare_reply(parameters) {
        connection.put(Side::Server, &payload, &mut out)?;
    }
    Ok(connection)
}

/// The payloads of the reply to a prepare of so many parameters.
fn prepare_reply(parameters: usize) -> Vec<Vec<u8>> {
    let column = b"\x03def\0\0\0\x01?\0\x0c\x3f\0\0\0\0\0\xfd\0\0\0\0\0";
    let mut payloads = vec![vec![0, 7, 0, 0, 0, 0, 0, parameters as u8, 0, 0, 0, 0]];
    payloads.extend(vec![column.to_vec(); parameters]);
    if parameters > 0 {
        payloads.push(b"\xfe\0\0\x02\0".to_vec());
    }
    payloads
}

/// Puts an execution, and looks whether its values are these.
fn has_values(connection: &mut Connection, payload: &[u8], wanted: &[Value<'_>]) {
    let mut out = Bytes::new().expect("memory isn't short");
    match connection.put(Side::Client, payload, &mut out) {
        Ok(Event::Execute {
            statement, values, ..
        }) => {
            assert_eq!(statement, 7);
            assert_eq!(values.iter().collect::<Vec<_>>(), wanted);
        }
        event => panic!("{event:?}"),
    }
}

/// The payload of an execution of statement 7 with these values, as the library makes it. A server
/// takes it as it takes the example's.
fn of_a_set(values: &[Value<'_>]) -> Result<Vec<u8>, Error> {
    let mut sets = ParameterSets::new()?;
    sets.add(values)?;
    let mut payload = Bytes::new()?;
    put_execution(&sets, 0, 7, &mut payload)?;
    Ok(payload.to_vec())
}

#[test]
fn an_execution_reads_as_its_values() -> Result<(), Error> {
    let (short, long) = (vec![b'x'; 251], vec![b'y'; 70_000]);
    let values = [
        Value::Null,
        Value::Int(i64::MIN),
        Value::UInt(u64::MAX),
        "tea".into(),
        "".into(),
        (&short).into(),
        (&long).into(),
        Value::Float(1.5),
        Value::Double(-0.1),
        Value::Null,
        Value::Date(Date {
            year: 2024,
            month: 2,
            day: 29,
            hour: 12,
            minute: 30,
            second: 1,
            micros: 5,
        }),
        Value::Time(Time {
            negative: true,
            days: 34,
            hours: 22,
            minutes: 59,
            seconds: 58,
            micros: 20,
        }),
    ];
    for count in 0..=values.len() {
        let mut connection = prepared(count)?;
        let payload = execution(7, 0, &values[..count], |_| false);
        has_values(&mut connection, &payload, &values[..count]);
        let mut connection = prepared(count)?;
        let payload = of_a_set(&values[..count])?;
        has_values(&mut connection, &payload, &values[..count]);
    }
    Ok(())
}

#[test]
fn long_data_is_not_put_again() -> Result<(), Error> {
    let mut connection = prepared(3)?;
    let mut out = Bytes::new()?;
    connection.put(Side::Client, &command::long_data(7, 1, b"long"), &mut out)?;
    let values = [1.into(), "long".into(), Value::Null];
    let payload = execution(7, 0, &values, |place| place == 1);
    has_values(&mut connection, &payload, &values);
    Ok(())
}

/// What client and server have with query attributes.
const ATTRIBUTES: u32 =
    PLAIN | capability::CLIENT_CONNECT_WITH_DB | capability::CLIENT_QUERY_ATTRIBUTES;

/// The streams of a connection with query attributes, on which these payloads are said.
fn recorded(payloads: &[(Side, &[u8])]) -> Result<[Vec<u8>; 2], Error> {
    recorded_by(ATTRIBUTES, ATTRIBUTES, payloads)
}

/// The streams of a connection of a server and a client that have these capabilities.
fn recorded_by(
    offered: u32,
    capabilities: u32,
    payloads: &[(Side, &[u8])],
) -> Result<[Vec<u8>; 2], Error> {
    let (mut greeting, mut login) = (Bytes::new()?, Bytes::new()?);
    Greeting {
        capabilities: offered,
        version: b"8.4.0",
        scramble_1: b"abcdefgh",
        scramble_2: b"ijklmnopqrst",
        plugin: b"mysql_native_password",
        ..Greeting::default()
    }
    .put(&mut greeting)?;
    Login {
        capabilities,
        user: b"ann",
        database: b"shop",
        plugin: b"mysql_native_password",
        ..Login::default()
    }
    .put(1 << 24, &mut login)?;
    let beginning: [(Side, &[u8]); 3] = [
        (Side::Server, &greeting),
        (Side::Client, &login),
        (Side::Server, OK),
    ];
    let mut connection = Connection::new(Limits::default())?;
    let (mut client, mut server) = (Bytes::new()?, Bytes::new()?);
    for (side, payload) in beginning.into_iter().chain(payloads.iter().copied()) {
        let out = match side {
            Side::Client => &mut client,
            Side::Server => &mut server,
        };
        connection.put(side, payload, out)?;
    }
    Ok([client.to_vec(), server.to_vec()])
}

#[test]
fn attributes_are_left_out() -> Result<(), client::Failure> {
    let reply = prepare_reply(2);
    let mut payloads: Vec<(Side, &[u8])> = vec![
        // The attribute a is 'b'.
        (
            Side::Client,
            b"\x03\x01\x01\0\x01\xfd\0\x01a\x01bINSERT INTO goods VALUES (1)",
        ),
        (Side::Server, OK),
        (Side::Client, b"\x16SELECT ?, ?"),
    ];
    payloads.extend(reply.iter().map(|payload| (Side::Server, &payload[..])));
    payloads.extend::<[(Side, &[u8]); 5]>([
        (Side::Client, b"\x18\x07\0\0\0\x01\0long"),
        // The parameters are 'tea' and the long data, and the attribute n is 7.
        (
            Side::Client,
            b"\x17\x07\0\0\0\x08\x01\0\0\0\x03\0\x01\xfd\0\0\xfc\0\0\x08\0\x01n\x03tea\x07\0\0\0\0\0\0\0",
        ),
        (Side::Server, OK),
        (
            Side::Client,
            b"\x17\x07\0\0\0\x08\x01\0\0\0\x02\0\x01\xfd\0\0\xfd\0\0\x01a\x01b",
        ),
        (Side::Server, OK),
    ]);
    let [client, server] = recorded(&payloads)?;
    let recording = Recording::read(&client, &server)?;
    assert_eq!(recording.database, b"shop");
    assert_eq!(recording.end, "Whole");
    let titles: Vec<&str> = recording.commands.iter().map(|it| &it.title[..]).collect();
    assert_eq!(
        titles,
        [
            "Query INSERT INTO goods VALUES (1)",
            "Prepare SELECT ?, ?",
            "LongData",
            "Execute SELECT ?, ?",
            "Execute SELECT ?, ?"
        ]
    );
    let numbers: Vec<u8> = recording.commands.iter().map(|it| it.number).collect();
    assert_eq!(numbers, [0x03, 0x16, 0x18, 0x17, 0x17]);
    let plain = |number: usize| recording.commands[number].plain.as_deref();
    assert_eq!(plain(0), Some(&b"\x03INSERT INTO goods VALUES (1)"[..]));
    assert_eq!((plain(1), plain(2)), (None, None));

    let mut connection = prepared(2)?;
    let mut out = Bytes::new()?;
    let mut said = recording.commands[2..].iter();
    let long_data = said.next().ok_or("long data comes first")?;
    connection.put(Side::Client, &long_data.payload, &mut out)?;
    for (command, wanted) in said.zip([["tea", "long"], ["a", "b"]]) {
        let payload = command.plain.as_deref().ok_or("it had attributes")?;
        has_values(&mut connection, payload, &wanted.map(Value::from));
        connection.put(Side::Server, OK, &mut out)?;
        assert_eq!(command.statement, Some(7));
        assert_eq!(command.reply.to_string(), "OK with 0 rows affected");
    }
    Ok(())
}

#[test]
fn capabilities_are_those_in_force() -> Result<(), client::Failure> {
    let payloads = [(Side::Client, &b"\x03DO 1"[..]), (Side::Server, OK)];
    for (offered, asked) in [(PLAIN, ATTRIBUTES), (ATTRIBUTES, PLAIN)] {
        let [client, server] = recorded_by(offered, asked, &payloads)?;
        let recording = Recording::read(&client, &server)?;
        let found = recording.capabilities.protocol;
        assert_eq!(found & capability::CLIENT_QUERY_ATTRIBUTES, 0);
        let plain: Vec<_> = recording.commands.iter().map(|it| &it.plain).collect();
        assert_eq!(plain, [&None]);
        assert_eq!(recording.commands[0].title, "Query DO 1");
    }
    Ok(())
}

#[test]
fn commands_name_their_statement() -> Result<(), client::Failure> {
    let bulk = b"\xfa\x07\0\0\0\0\0\0\x07".to_vec();
    let about = [
        command::long_data(7, 0, b"tea"),
        command::close(7),
        command::reset_statement(7),
        command::fetch(7, 2),
        b"\x17\x07\0\0\0".to_vec(),
        bulk,
    ];
    let others = [command::ping(), b"\x17\x07\0\0".to_vec(), b"".to_vec()];
    let error = b"\xff\x01\x04#42000x".to_vec();
    for (payload, statement) in about
        .iter()
        .map(|it| (it, Some(7)))
        .chain(others.iter().map(|it| (it, None)))
    {
        let mut said = vec![(Side::Client, &payload[..])];
        // Long data and a close have no reply.
        if !matches!(payload.first(), Some(0x18 | 0x19)) {
            said.push((Side::Server, &error[..]));
        }
        let [client, server] = recorded(&said)?;
        let recording = Recording::read(&client, &server)?;
        let found: Vec<_> = recording.commands.iter().map(|it| it.statement).collect();
        assert_eq!(found, [statement], "{payload:?}");
    }
    Ok(())
}

#[test]
fn replies_are_compared_by_their_results() -> Result<(), client::Failure> {
    let error = |code: u8| [0xff, code, 4, b'#', b'4', b'2', b'0', b'0', b'0', b'x'];
    let mut replies = Vec::new();
    for reply in [OK, b"\0\x01\0\x02\0\0\0", &error(1), &error(2), &error(2)] {
        let payloads = [
            (Side::Client, &b"\x03\0\x01DO 1"[..]),
            (Side::Server, reply),
        ];
        let [client, server] = recorded(&payloads)?;
        let mut recording = Recording::read(&client, &server)?;
        replies.extend(recording.commands.pop().map(|command| command.reply));
    }
    let texts: Vec<String> = replies.iter().map(ToString::to_string).collect();
    let wanted = [
        "OK with 0 rows affected",
        "OK with 1 row affected",
        "error 1025 (x)",
        "error 1026 (x)",
        "error 1026 (x)",
    ];
    assert_eq!(texts, wanted);
    for (one, text) in replies.iter().zip(wanted) {
        for (other, other_text) in replies.iter().zip(wanted) {
            assert_eq!(one.is_like(other), text == other_text);
        }
    }
    Ok(())
}
