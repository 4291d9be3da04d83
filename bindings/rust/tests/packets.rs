//! Packets, logins and what a replica sends.

use mysql_session::{
    capability, put_packet, BinlogDump, BinlogDumpGtid, Bytes, Code, Error, Greeting, Login,
    PacketReader, RegisterReplica,
};

const LIMIT: usize = 1 << 24;

#[test]
fn packets_are_cut_out_of_a_stream() -> Result<(), Error> {
    let payloads = [&b"one"[..], b"", b"three"];
    let mut out = Bytes::new()?;
    let mut number = 254;
    for payload in payloads {
        put_packet(payload, &mut number, LIMIT, &mut out)?;
    }
    assert_eq!(number, 1);
    assert_eq!(out.as_slice(), b"\x03\0\0\xfeone\0\0\0\xff\x05\0\0\0three");
    for length in 1..=out.len() {
        let mut reader = PacketReader::new(254, LIMIT)?;
        let mut found = Vec::new();
        for piece in out.chunks(length) {
            let mut rest = piece;
            while let Some(payload) = reader.advance(&mut rest)? {
                found.push(payload.to_vec());
            }
            assert_eq!(rest, b"");
        }
        assert_eq!(found, payloads, "pieces of {length} bytes");
    }
    Ok(())
}

#[test]
fn a_reader_uses_no_more_than_a_packet() -> Result<(), Error> {
    let mut reader = PacketReader::new(0, LIMIT)?;
    let mut rest = &b"\x01\0\0\0a\x01\0\0\0b"[..];
    assert_eq!(reader.advance(&mut rest)?, Some(&b"a"[..]));
    assert_eq!(rest, b"\x01\0\0\0b");
    reader.restart()?;
    assert_eq!(reader.advance(&mut rest)?, Some(&b"b"[..]));
    assert_eq!(reader.advance(&mut rest)?, None);
    Ok(())
}

#[test]
fn a_fault_of_packets_stays() -> Result<(), Error> {
    let mut reader = PacketReader::new(0, LIMIT)?;
    let mut rest = &b"\x01\0\0\x05a"[..];
    let fault = reader.advance(&mut rest).unwrap_err();
    assert_eq!(fault.code(), Code::FAULT_OUT_OF_SYNC);
    let mut rest = &b"\x01\0\0\0a"[..];
    assert_eq!(reader.advance(&mut rest), Err(fault));

    let mut reader = PacketReader::new(0, 4)?;
    let mut rest = &b"\x05\0\0\0abcde"[..];
    assert_eq!(
        reader.advance(&mut rest).unwrap_err().code(),
        Code::FAULT_TOO_LARGE
    );

    let mut out = Bytes::new()?;
    let mut number = 3;
    let error = put_packet(b"abcde", &mut number, 4, &mut out).unwrap_err();
    assert_eq!(
        (error.code(), number, out.len()),
        (Code::FAULT_TOO_LARGE, 3, 0)
    );
    Ok(())
}

#[test]
fn a_greeting_is_read_where_it_lies() -> Result<(), Error> {
    let capabilities = capability::CLIENT_PROTOCOL_41
        | capability::CLIENT_SECURE_CONNECTION
        | capability::CLIENT_PLUGIN_AUTH;
    let mariadb_capabilities = capability::MARIADB_CLIENT_STMT_BULK_OPERATIONS;
    let greeting = Greeting {
        protocol: 10,
        collation: 45,
        status: 2,
        connection: 0x01020304,
        capabilities,
        mariadb_capabilities,
        version: b"10.11.6-MariaDB",
        scramble_1: b"12345678",
        scramble_2: b"abcdefghijkl",
        plugin: b"mysql_native_password",
    };
    let mut payload = Bytes::new()?;
    greeting.put(&mut payload)?;
    let read = Greeting::read(&payload)?;
    assert_eq!(read, greeting);
    assert!(payload.as_ptr_range().contains(&read.version.as_ptr()));
    for length in 0..20 {
        let error = Greeting::read(&payload[..length]).unwrap_err();
        assert_eq!(error.code(), Code::BAD_PACKET, "{length} bytes");
    }
    let short = Greeting {
        scramble_1: b"1234567",
        ..greeting
    };
    let before = payload.to_vec();
    assert_eq!(
        short.put(&mut payload).unwrap_err().code(),
        Code::BAD_PACKET
    );
    assert_eq!(payload.as_slice(), before);
    Ok(())
}

#[test]
fn a_login_is_read_where_it_lies() -> Result<(), Error> {
    let login = Login {
        collation: 45,
        capabilities: capability::CLIENT_PROTOCOL_41 | capability::CLIENT_SECURE_CONNECTION,
        mariadb_capabilities: capability::MARIADB_CLIENT_STMT_BULK_OPERATIONS,
        user: b"someone",
        response: b"01234567890123456789",
        database: b"shop",
        plugin: b"mysql_native_password",
    };
    let mut payload = Bytes::new()?;
    login.put(1 << 24, &mut payload)?;
    let read = Login::read(&payload)?;
    let added = capability::CLIENT_CONNECT_WITH_DB | capability::CLIENT_PLUGIN_AUTH;
    let capabilities = login.capabilities | added;
    assert_eq!(
        read,
        Login {
            capabilities,
            ..login
        }
    );
    assert_eq!(payload[4..8], (1u32 << 24).to_le_bytes());
    assert_eq!(
        Login::read(&payload[..9]).unwrap_err().code(),
        Code::BAD_PACKET
    );

    payload.clear();
    let bare = Login {
        response: b"",
        database: b"",
        plugin: b"",
        ..login
    };
    bare.put(1 << 24, &mut payload)?;
    let read = Login::read(&payload)?;
    assert_eq!(
        (read.response, read.database, read.plugin),
        (&b""[..], &b""[..], &b""[..])
    );
    assert_eq!(read.capabilities & added, 0);
    Ok(())
}

#[test]
fn a_replica_makes_itself_known() -> Result<(), Error> {
    let mut out = Bytes::new()?;
    let replica = RegisterReplica {
        server: 5,
        host: b"h",
        user: b"us",
        password: b"pw3",
        port: 3307,
    };
    replica.put(&mut out)?;
    let wanted = b"\x15\x05\0\0\0\x01h\x02us\x03pw3\xeb\x0c\0\0\0\0\0\0\0\0";
    assert_eq!(out.as_slice(), wanted);
    let long = RegisterReplica {
        host: &[b'h'; 256],
        ..replica
    };
    assert_eq!(long.put(&mut out).unwrap_err().code(), Code::BAD_PACKET);
    assert_eq!(out.as_slice(), wanted);
    Ok(())
}

#[test]
fn a_replica_asks_for_the_log() -> Result<(), Error> {
    let mut out = Bytes::new()?;
    let dump = BinlogDump {
        server: 5,
        position: 0x01020304,
        flags: 1,
        file: b"log.000002",
    };
    dump.put(&mut out)?;
    assert_eq!(
        out.as_slice(),
        b"\x12\x04\x03\x02\x01\x01\0\x05\0\0\0log.000002"
    );
    out.clear();

    let dump = BinlogDumpGtid {
        server: 5,
        position: 4,
        flags: 1,
        file: b"l",
        gtids: b"3e11fa47-71ca-11e1-9e33-c80aa9429562:1-5",
    };
    dump.put(&mut out)?;
    assert_eq!(out[0], 0x1e);
    let sid = b"\x3e\x11\xfa\x47\x71\xca\x11\xe1\x9e\x33\xc8\x0a\xa9\x42\x95\x62";
    let interval = b"\x01\0\0\0\0\0\0\0\x01\0\0\0\0\0\0\0\x06\0\0\0\0\0\0\0";
    let set = [&b"\x01\0\0\0\0\0\0\0"[..], sid, interval].concat();
    assert!(out.ends_with(&set), "{out:?}");
    let before = out.to_vec();
    let wrong = BinlogDumpGtid {
        gtids: b"no such text",
        ..dump
    };
    assert_eq!(wrong.put(&mut out).unwrap_err().code(), Code::BAD_PACKET);
    assert_eq!(out.as_slice(), before);
    Ok(())
}
