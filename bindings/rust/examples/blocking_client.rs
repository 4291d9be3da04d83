//! A client that runs one query, and prints what the server answers:
//!
//! ```text
//! blocking_client ADDRESS USER DATABASE [--text] QUERY [VALUE .. [-- VALUE ..] ..]
//! ```
//!
//! A query without values is sent as a text. One with values is prepared, and executed with each
//! set of them; `--` begins the next set. With `--text` each set is written into a text in place of
//! that, for the session's SQL mode. A value of digits is a whole number, `NULL` is NULL, and all
//! else is a text. Of rows the cells are printed with tabs between them, below the names of their
//! columns.
//!
//! The user logs in by mysql_native_password or caching_sha2_password. The environment variable
//! MYSQL_PASSWORD has the password; or MYSQL_PASSWORD_SHA1 its digest by SHA-1, as 40 hexadecimal
//! digits, for the first plugin alone. Without both the password is empty. By caching_sha2_password the
//! server may want the password itself, which needs TLS or its key, and isn't sent here.
//! The status is 0 where the server answered no error, 1 where it did or the connection failed, and
//! 2 where the words are wrong.

#[path = "blocking_client/client.rs"]
#[allow(dead_code)] // what goes on in a form of its own: here nothing does
mod client;
#[path = "blocking_client/passwords.rs"]
mod passwords;

use client::{Account, Client, Failure, LIMIT};
use mysql_session::{
    capability, column_type, command, executions_in, place_count, Capabilities, ColumnType, Event,
    FromValue, OkPacket, ParameterSets, Time, Value,
};
use passwords::Secret;
use std::env;
use std::io::{self, Write};
use std::process::ExitCode;

const USAGE: &str =
    "usage: blocking_client ADDRESS USER DATABASE [--text] QUERY [VALUE .. [-- VALUE ..] ..]";

/// What this client has. It is no MariaDB, whose own capabilities it doesn't need.
const CAPABILITIES: Capabilities = Capabilities {
    protocol: capability::CLIENT_LONG_PASSWORD
        | capability::CLIENT_PROTOCOL_41
        | capability::CLIENT_TRANSACTIONS
        | capability::CLIENT_SECURE_CONNECTION
        | capability::CLIENT_MULTI_RESULTS
        | capability::CLIENT_PS_MULTI_RESULTS
        | capability::CLIENT_PLUGIN_AUTH
        | capability::CLIENT_DEPRECATE_EOF
        | capability::CLIENT_SESSION_TRACK,
    mariadb: 0,
};

fn main() -> ExitCode {
    let mut words: Vec<String> = env::args().skip(1).collect();
    // It is behind the database, so that no value is taken for it.
    let by_text = words.get(3).is_some_and(|word| word == "--text");
    if by_text {
        words.remove(3);
    }
    let [address, user, database, query, values @ ..] = &words[..] else {
        eprintln!("{USAGE}");
        return ExitCode::from(2);
    };
    let account = [user, database];
    match run(address, account, query.as_bytes(), values, by_text) {
        Ok(true) => ExitCode::SUCCESS,
        Ok(false) => ExitCode::FAILURE,
        Err(failure) => {
            eprintln!("{failure}");
            ExitCode::FAILURE
        }
    }
}

/// Logs in, runs the query, and quits. The answer is whether the server answered no error.
fn run(
    address: &str,
    [user, database]: [&String; 2],
    query: &[u8],
    values: &[String],
    by_text: bool,
) -> Result<bool, Failure> {
    let account = Account {
        user: user.as_bytes(),
        password: Secret::of_environment()?,
        database: database.as_bytes(),
        capabilities: CAPABILITIES,
    };
    let mut client = Client::connect(address, &account)?;
    let mut out = io::stdout().lock();
    let done = if values.is_empty() {
        client.query(query)?;
        print_reply(&mut client, &mut out)?
    } else if by_text {
        query_each(&mut client, query, &sets_of(values)?, &mut out)?
    } else {
        execute(&mut client, query, &sets_of(values)?, &mut out)?
    };
    client.send(&command::quit())?;
    Ok(done)
}

/// The sets of values that words are.
fn sets_of(words: &[String]) -> Result<ParameterSets, Failure> {
    let mut sets = ParameterSets::new()?;
    for words in words.split(|word| word == "--") {
        let values: Vec<Value<'_>> = words.iter().map(|word| value_of(word)).collect();
        sets.add(&values)?;
    }
    Ok(sets)
}

/// The value that a word is.
fn value_of(word: &str) -> Value<'_> {
    match word.parse::<i64>() {
        _ if word == "NULL" => Value::Null,
        Ok(number) => number.into(),
        Err(_) => word.into(),
    }
}

/// Sends a text of each set. The answer is whether the server answered no error.
fn query_each(
    client: &mut Client,
    query: &[u8],
    sets: &ParameterSets,
    out: &mut dyn Write,
) -> Result<bool, Failure> {
    let mut done = true;
    for set in 0..sets.len() {
        let text = client.text(query, sets, set)?;
        client.query(&text)?;
        done &= print_reply(client, out)?;
    }
    Ok(done)
}

/// Prepares a query, executes it with each set, and closes it. The answer is whether the server
/// answered no error.
fn execute(
    client: &mut Client,
    query: &[u8],
    sets: &ParameterSets,
    out: &mut dyn Write,
) -> Result<bool, Failure> {
    // It tells which placeholders the query has, and is known before the next statement.
    let mode = client.mode()?.unwrap_or_default();
    client.send(&command::prepare(query))?;
    let Some(statement) = statement_of(client, out)? else {
        return Ok(false);
    };
    let places = place_count(query, mode)?;
    let packets = executions_in(sets, query, statement, LIMIT, mode)?;
    let mut left = &packets[..];
    let mut done = true;
    while !left.is_empty() {
        let used = client.send_sets(statement, places, left)?;
        left = &left[used..];
        done &= print_reply(client, out)?;
    }
    client.send(&command::close(statement))?;
    Ok(done)
}

/// The id of the statement that the server prepares; none where it answers an error.
fn statement_of(client: &mut Client, out: &mut dyn Write) -> Result<Option<u32>, Failure> {
    let mut id = None;
    while client.awaits_reply() {
        match client.next()? {
            Event::Prepared { statement, .. } => id = Some(statement),
            Event::Error(error) | Event::Farewell(error) => writeln!(out, "{error}")?,
            _ => (),
        }
    }
    Ok(id)
}

/// Prints the reply to a command. The answer is whether it has no error.
fn print_reply(client: &mut Client, out: &mut dyn Write) -> Result<bool, Failure> {
    let (mut names, mut rows, mut done) = (Vec::new(), 0u64, true);
    while client.awaits_reply() {
        match client.next()? {
            Event::ColumnCount { .. } => (names, rows) = (Vec::new(), 0),
            Event::Column(column) => names.push(readable(column.name)),
            Event::Row(row) => {
                if rows == 0 {
                    writeln!(out, "{}", names.join("\t"))?;
                }
                rows += 1;
                let cells: Vec<String> = (row.columns().zip(row))
                    .map(|(column, value)| cell_text(column.column_type, value))
                    .collect();
                writeln!(out, "{}", cells.join("\t"))?;
            }
            Event::RowsEnd(_) => writeln!(out, "{}", counted(rows))?,
            Event::Ok(packet) => writeln!(out, "{}", ok_text(&packet))?,
            Event::Error(error) | Event::Farewell(error) => {
                writeln!(out, "{error}")?;
                done = false;
            }
            // No file is sent: no bytes end it.
            Event::FileRequest(_) => client.send(b"")?,
            _ => (),
        }
    }
    Ok(done)
}

/// So many rows.
fn counted(rows: u64) -> String {
    let end = if rows == 1 { "" } else { "s" };
    format!("{rows} row{end}")
}

fn ok_text(packet: &OkPacket<'_>) -> String {
    let mut text = format!("OK, {} affected", counted(packet.affected_rows));
    if packet.last_insert_id != 0 {
        text += &format!(", the last id is {}", packet.last_insert_id);
    }
    text
}

/// What a cell holds. In the reply to a query it is a text. In that to an execution it is any value,
/// and printed as that text would be.
fn cell_text(of: ColumnType, value: Value<'_>) -> String {
    match value {
        Value::Null => "NULL".to_string(),
        Value::Bytes(bytes) => readable(bytes),
        Value::Date(date) if of.kind != column_type::DATE => {
            let (hour, minute, second) = (date.hour, date.minute, date.second);
            let (year, month, day) = (date.year, date.month, date.day);
            let fraction = fraction_text(of.decimals, date.micros);
            format!("{year:04}-{month:02}-{day:02} {hour:02}:{minute:02}:{second:02}{fraction}")
        }
        Value::Time(time) => {
            let fraction = fraction_text(of.decimals, time.micros);
            format!("{}{fraction}", Time { micros: 0, ..time })
        }
        value => String::from_value(value).expect("a value but NULL and bytes has a text"),
    }
}

/// The fraction of a second, by as many digits as the column has; some have no number of them.
fn fraction_text(decimals: u8, micros: u32) -> String {
    let digits = format!("{micros:06}");
    match decimals {
        1..=6 => format!(".{}", &digits[..decimals.into()]),
        _ if micros == 0 => String::new(),
        _ => format!(".{digits}"),
    }
}

/// A text on one line.
fn readable(bytes: &[u8]) -> String {
    let text = String::from_utf8_lossy(bytes);
    text.replace('\\', "\\\\")
        .replace('\t', "\\t")
        .replace('\n', "\\n")
}
