//! What clients and servers say in the tests: payloads, and packets.

use mysql_session::{
    capability, Bytes, Capabilities, ColumnType, Connection, Error, ErrorPacket, Greeting, Limits,
    Login, ParameterSets, ReplyKind, ReplyWriter, Value,
};

pub const LIMITS: Limits = Limits {
    client: 1 << 26,
    server: 1 << 26,
    held: 1 << 30,
};

pub const LIMIT: usize = 1 << 24;

pub const CAPABILITIES: Capabilities = Capabilities {
    protocol: capability::CLIENT_PROTOCOL_41
        | capability::CLIENT_SECURE_CONNECTION
        | capability::CLIENT_PLUGIN_AUTH
        | capability::CLIENT_TRANSACTIONS
        | capability::CLIENT_MULTI_RESULTS,
    mariadb: capability::MARIADB_CLIENT_STMT_BULK_OPERATIONS,
};

/// An OK packet.
pub const OK: &[u8] = b"\0\0\0\x02\0\0\0";

pub const INSERT: &[u8] = b"INSERT INTO goods VALUES (?, ?)";

/// A connection on which a command comes next.
pub fn after_login(limits: Limits) -> Connection {
    Connection::after_login(limits, CAPABILITIES).expect("memory isn't short")
}

/// The payload that a call appends.
fn payload(put: impl FnOnce(&mut Bytes) -> Result<(), Error>) -> Vec<u8> {
    let mut out = Bytes::new().expect("memory isn't short");
    put(&mut out).expect("it can be put");
    out.to_vec()
}

pub fn greeting() -> Vec<u8> {
    let greeting = Greeting {
        connection: 7,
        capabilities: CAPABILITIES.protocol,
        mariadb_capabilities: CAPABILITIES.mariadb,
        collation: 45,
        status: 2,
        version: b"11.4.0-MariaDB",
        scramble_1: b"abcdefgh",
        scramble_2: b"ijklmnopqrst",
        plugin: b"mysql_native_password",
        ..Greeting::default()
    };
    payload(|out| greeting.put(out))
}

pub fn login() -> Vec<u8> {
    let login = Login {
        capabilities: CAPABILITIES.protocol,
        mariadb_capabilities: CAPABILITIES.mariadb,
        user: b"ann",
        plugin: b"mysql_native_password",
        ..Login::default()
    };
    payload(|out| login.put(LIMIT as u32, out))
}

pub const NUMBER: ColumnType = ColumnType {
    kind: 8,
    flags: 0,
    charset: 63,
    length: 20,
    decimals: 0,
};

pub const TEXT: ColumnType = ColumnType {
    kind: 253,
    flags: 0,
    charset: 45,
    length: 400,
    decimals: 0,
};

/// The packets of a reply of these rows.
pub fn rows(kind: ReplyKind, rows: &[[Value<'_>; 2]]) -> Result<Bytes, Error> {
    let mut out = Bytes::new()?;
    let mut sets = ParameterSets::new()?;
    let mut writer = ReplyWriter::new(kind, CAPABILITIES.protocol, 1, LIMIT)?;
    writer.column(b"id", NUMBER)?;
    writer.column(b"name", TEXT)?;
    writer.rows(&mut out)?;
    for (number, row) in rows.iter().enumerate() {
        sets.add(row)?;
        writer.row(&sets, number, &mut out)?;
    }
    writer.end_rows(2, 0, false, &mut out)?;
    Ok(out)
}

/// The packets of the reply to a prepare.
pub fn prepared(statement: u32, params: usize) -> Result<Bytes, Error> {
    let mut out = Bytes::new()?;
    let mut writer = ReplyWriter::new(ReplyKind::Prepare, CAPABILITIES.protocol, 1, LIMIT)?;
    for _ in 0..params {
        writer.column(b"?", TEXT)?;
    }
    writer.prepared(statement, params, 0, &mut out)?;
    Ok(out)
}

/// The packet of an error.
pub fn error(code: u16) -> Result<Bytes, Error> {
    let mut out = Bytes::new()?;
    let error = ErrorPacket {
        code,
        state: Some(*b"42S02"),
        message: b"no such table",
    };
    let mut writer = ReplyWriter::new(ReplyKind::Query, CAPABILITIES.protocol, 1, LIMIT)?;
    writer.error(&error, &mut out)?;
    Ok(out)
}

/// The payloads of a stream's packets, as far as they are whole.
pub struct Payloads<'a>(pub &'a [u8]);

impl Iterator for Payloads<'_> {
    type Item = Vec<u8>;

    fn next(&mut self) -> Option<Vec<u8>> {
        let mut payload = Vec::new();
        loop {
            let ([low, middle, high, _], rest) = self.0.split_first_chunk()?;
            let length = u32::from_le_bytes([*low, *middle, *high, 0]) as usize;
            let (chunk, rest) = rest.split_at_checked(length)?;
            payload.extend_from_slice(chunk);
            self.0 = rest;
            if length < 0xff_ffff {
                return Some(payload);
            }
        }
    }
}
