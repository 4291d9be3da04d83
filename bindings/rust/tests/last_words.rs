//! The example that is a client, at a server that says its last words in place of an answer.

#[path = "../examples/blocking_client/client.rs"]
#[allow(dead_code)] // what prints errors isn't used here
mod client;
#[path = "../examples/blocking_client/passwords.rs"]
#[allow(dead_code)] // no password is asked for here
mod passwords;

use client::{Account, Client, Failure};
use mysql_session::{
    capability, executions, put_packet, Bytes, Capabilities, Connection, Event, Greeting, Limits,
    ParameterSets, Side,
};
use std::io::{Read, Write};
use std::net::{TcpListener, TcpStream};
use std::thread;

const CAPABILITIES: u32 = capability::CLIENT_PROTOCOL_41
    | capability::CLIENT_SECURE_CONNECTION
    | capability::CLIENT_PLUGIN_AUTH;

/// A server that lets the client in, and ends the connection by an error at the first command.
fn serve(mut stream: TcpStream) -> Result<(), Failure> {
    let (mut connection, mut out) = (Connection::new(Limits::default())?, Bytes::new()?);
    let mut greeting = Bytes::new()?;
    Greeting {
        capabilities: CAPABILITIES,
        version: b"8.0.0-tests",
        scramble_1: b"abcdefgh",
        scramble_2: b"ijklmnopqrst",
        plugin: b"mysql_native_password",
        ..Greeting::default()
    }
    .put(&mut greeting)?;
    connection.put(Side::Server, &greeting, &mut out)?;
    let mut piece = [0; 1000];
    loop {
        stream.write_all(&out)?;
        out.clear();
        let count = stream.read(&mut piece)?;
        connection.feed(Side::Client, &piece[..count])?;
        match connection.next_event()? {
            Some(Event::Login(_)) => {
                connection.put(Side::Server, b"\0\0\0\x02\0\0\0", &mut out)?;
            }
            Some(_) => break,
            None => (),
        }
    }
    // An answer would have the number 1.
    put_packet(b"\xff\x1d\x04#08S01Shutdown", &mut 0, 1 << 24, &mut out)?;
    Ok(stream.write_all(&out)?)
}

#[test]
fn behind_last_words_nothing_is_sent() -> Result<(), Failure> {
    let listener = TcpListener::bind("127.0.0.1:0")?;
    let address = listener.local_addr()?.to_string();
    let server = thread::spawn(move || serve(listener.accept()?.0));
    let protocol = CAPABILITIES;
    let mut client = Client::connect(
        &address,
        &Account {
            user: b"ann",
            password: None,
            database: b"",
            capabilities: Capabilities {
                protocol,
                mariadb: 0,
            },
        },
    )?;
    client.query(b"SELECT 1")?;
    assert!(client.awaits_reply());
    assert!(matches!(client.next()?, Event::Farewell(error) if error.code == 1053));
    assert!(!client.awaits_reply());
    let mut sets = ParameterSets::new()?;
    sets.add(&[1.into()])?;
    let packets = executions(&sets, b"SELECT ?", 7, 1 << 24)?;
    let errors = [
        client.query(b"SELECT 1").unwrap_err(),
        client.send_sets(7, 1, &packets).unwrap_err(),
    ];
    for error in errors {
        assert_eq!(error.to_string(), "the connection is over");
    }
    server.join().expect("the server doesn't panic")
}
