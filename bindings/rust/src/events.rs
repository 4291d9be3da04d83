//! What the payloads of a connection say.
//!
//! All that is shown borrows from the connection. Its bytes stay as they are until a call that
//! takes the connection's `&mut self`, which ends the borrow.

use crate::connection::{ConnectionHandle, Side};
use crate::event_values::{column_of, Attributes, BulkRows, EventRow, Values};
use crate::phase::Capabilities;
use crate::raw;
use crate::readable::{debug_with_texts, Readable, Secret};
use crate::results::{Column, ErrorPacket, OkPacket};
use std::fmt;

/// The first byte of a change of user, also of one that is laid out as none.
const COM_CHANGE_USER: u8 = 0x11;

/// What one payload of a connection says.
#[derive(Clone, Copy)]
#[non_exhaustive]
pub enum Event<'a> {
    /// The server refuses the connection in place of a greeting.
    Rejected(ErrorPacket<'a>),
    /// The server greets.
    Greeting(ServerGreeting<'a>),
    /// The client asks for TLS.
    SecureRequest(ClientRequest),
    /// The client logs in.
    Login(ClientLogin<'a>),
    /// A login whose user is cut off.
    CutOffLogin(ClientRequest),
    /// The user is logged in or changed.
    Accepted(OkPacket<'a>),
    /// The user isn't.
    Denied(ErrorPacket<'a>),
    /// The server asks for another plugin.
    AuthSwitch {
        /// Its name.
        plugin: &'a [u8],
        /// Its data.
        data: &'a [u8],
    },
    /// The server asks for passwords of old.
    OldAuthSwitch,
    /// The plugin's data.
    AuthMore(&'a [u8]),
    /// The server asks for one more plugin.
    NextFactor {
        /// Its name.
        plugin: &'a [u8],
        /// Its data.
        data: &'a [u8],
    },
    /// Data of a plugin that writes them without a header.
    PluginData(&'a [u8]),
    /// What the client answers to an authentication.
    Answer(&'a [u8]),

    /// The client ends the connection.
    Quit,
    /// Another schema by default.
    InitDb(&'a [u8]),
    /// A query.
    Query {
        /// Its text.
        text: &'a [u8],
        /// Its attributes.
        attributes: Attributes<'a>,
    },
    /// Whether the server is there.
    Ping,
    /// Another user logs in.
    ChangeUser(ClientChange<'a>),
    /// A statement is prepared.
    Prepare {
        /// Its text.
        text: &'a [u8],
    },
    /// A prepared statement is executed.
    Execute {
        /// The statement's id.
        statement: u32,
        /// The text by which it was prepared.
        text: &'a [u8],
        /// What its parameters hold.
        values: Values<'a>,
        /// The execution's attributes.
        attributes: Attributes<'a>,
        /// The cursor that is asked for, in bits.
        cursor: u32,
        /// The bits of the flags that have no name, none of a client library's.
        nameless_flags: u32,
        /// The iteration count: 1 of each client library.
        iterations: u32,
        /// The bytes behind the last value, none of a client library's.
        rest: &'a [u8],
    },
    /// A prepared statement is executed with many rows.
    BulkExecute {
        /// The statement's id.
        statement: u32,
        /// The text by which it was prepared.
        text: &'a [u8],
        /// What its parameters hold in each row.
        rows: BulkRows<'a>,
        /// The bytes from the first row on that can't be read; servers execute the rows before them.
        rest: &'a [u8],
    },
    /// A piece of a parameter.
    LongData {
        /// The statement's id.
        statement: u32,
        /// The parameter's position, from 0.
        place: u16,
        /// The piece.
        data: &'a [u8],
    },
    /// A statement goes.
    Close {
        /// Its id.
        statement: u32,
    },
    /// A statement's long data and cursor go.
    ResetStatement {
        /// Its id.
        statement: u32,
    },
    /// Rows of an open cursor.
    Fetch {
        /// The statement's id.
        statement: u32,
        /// How many rows.
        rows: u32,
    },
    /// The session begins anew.
    ResetConnection,
    /// Any other command.
    Command(OtherCommand<'a>),
    /// A payload that is laid out as no command, as it is. Some servers run such a payload; which
    /// reply follows goes by its first byte.
    Other(&'a [u8]),

    /// An OK packet, which is a result.
    Ok(OkPacket<'a>),
    /// An error, which ends a reply.
    Error(ErrorPacket<'a>),
    /// How far a command has come.
    Progress {
        /// The stage, of so many.
        stage: u8,
        /// How many stages there are.
        stages: u8,
        /// How far the stage has come, in thousandths of a percent.
        progress: u32,
        /// What it does.
        text: &'a [u8],
    },
    /// A result set of so many columns.
    ColumnCount {
        /// How many columns.
        count: u16,
        /// Whether they follow.
        columns_follow: bool,
    },
    /// A column of a result set, or a parameter or a column of a prepared statement.
    Column(Column<'a>),
    /// A column of a table, and its default, where it has one.
    Field {
        /// The column.
        column: Column<'a>,
        /// The default.
        default: Option<&'a [u8]>,
    },
    /// The packet behind columns.
    ColumnsEnd(OkPacket<'a>),
    /// A row.
    Row(EventRow<'a>),
    /// A row whose columns aren't known, as it came.
    RawRow(&'a [u8]),
    /// What ends rows.
    RowsEnd(OkPacket<'a>),
    /// The server asks for a file of the client's, by its name.
    FileRequest(&'a [u8]),
    /// A prepared statement.
    Prepared {
        /// Its id.
        statement: u32,
        /// How many parameters it has.
        parameters: u16,
        /// How many columns it has.
        columns: u16,
        /// How many warnings there are.
        warnings: u16,
        /// Whether parameters and columns follow.
        columns_follow: bool,
    },
    /// A text, as that of COM_STATISTICS, or the first payload of what goes on in its own form.
    Line(&'a [u8]),
    /// Bytes of the client's file. No bytes end it.
    FileData(&'a [u8]),
    /// The server's last words.
    Farewell(ErrorPacket<'a>),
}

/// What a server greets with.
#[derive(Clone, Copy, PartialEq, Eq)]
pub struct ServerGreeting<'a> {
    /// The server's version.
    pub version: &'a [u8],
    /// The connection's id.
    pub connection: u32,
    /// What the server offers.
    pub capabilities: Capabilities,
    /// The server's status, in bits.
    pub status: u16,
    /// The number of its collation.
    pub collation: u16,
    /// The plugin that it asks for.
    pub plugin: &'a [u8],
    /// What a password is hashed with: both parts of the scramble, 20 bytes of a server.
    pub scramble: &'a [u8],
}

debug_with_texts!(ServerGreeting: connection, capabilities, status, collation; version, plugin,
    scramble);

/// The first fields of a client's answer to a greeting.
#[derive(Clone, Copy, Debug, PartialEq, Eq)]
pub struct ClientRequest {
    /// What the client has. MariaDB's own are 0 where it has
    /// [`CLIENT_LONG_PASSWORD`](crate::capability::CLIENT_LONG_PASSWORD): a client of MySQL.
    pub capabilities: Capabilities,
    /// The number of its collation.
    pub collation: u16,
    /// The longest packet that it takes.
    pub max_packet_size: u32,
}

/// What a client logs in with.
#[derive(Clone, Copy)]
pub struct ClientLogin<'a> {
    /// The first fields of it.
    pub request: ClientRequest,
    /// The user's name.
    pub user: &'a [u8],
    /// The database, or no bytes.
    pub database: &'a [u8],
    /// The plugin, or no bytes.
    pub plugin: &'a [u8],
    /// What the client answers to the greeting's nonce.
    pub response: &'a [u8],
    /// Its attributes.
    pub attributes: Attributes<'a>,
}

debug_with_texts!(ClientLogin: request, attributes; user, database, plugin; response);

/// A change of user.
#[derive(Clone, Copy)]
pub struct ClientChange<'a> {
    /// The user's name.
    pub user: &'a [u8],
    /// The database.
    pub database: &'a [u8],
    /// The plugin, or no bytes.
    pub plugin: &'a [u8],
    /// What the client answers.
    pub response: &'a [u8],
    /// The number of the collation, or 0.
    pub collation: u16,
    /// Its attributes.
    pub attributes: Attributes<'a>,
}

debug_with_texts!(ClientChange: collation, attributes; user, database, plugin; response);

/// A command without its own variant. What it doesn't have is 0 or empty.
#[derive(Clone, Copy, PartialEq, Eq)]
pub struct OtherCommand<'a> {
    /// Its number in the protocol.
    pub number: u8,
    /// A schema, a table, a file, or a replica's host.
    pub text: &'a [u8],
    /// A table's database.
    pub database: &'a [u8],
    /// A replica's user.
    pub user: &'a [u8],
    /// A pattern of columns, or the arguments of a clone.
    pub data: &'a [u8],
    /// Flags, a level, a connection's or a server's id, or an option.
    pub value: u32,
    /// The flags of a dump.
    pub flags: u32,
    /// The position of a dump.
    pub position: u64,
}

debug_with_texts!(OtherCommand: number, value, flags, position; text, database, user, data);

impl<'a> Event<'a> {
    /// What the library showed.
    ///
    /// # Safety
    /// The library wrote the fields and the cells, and the texts stay as they are for `'a`.
    pub(crate) unsafe fn of(
        handle: &'a ConnectionHandle,
        shown: &raw::Event,
        cells: &'a [raw::Value],
        scramble: &'a [u8],
    ) -> Event<'a> {
        let part = Part {
            handle,
            shown,
            cells,
            scramble,
        };
        // SAFETY: by this call's condition.
        unsafe {
            match shown.kind {
                ..0x100 => part.said_or_replied(),
                kind => part.command(kind),
            }
        }
    }

    /// Whose payload it is.
    pub fn side(&self) -> Side {
        match self {
            Event::Rejected(_)
            | Event::Greeting(_)
            | Event::Accepted(_)
            | Event::Denied(_)
            | Event::AuthSwitch { .. }
            | Event::OldAuthSwitch
            | Event::AuthMore(_)
            | Event::NextFactor { .. }
            | Event::PluginData(_)
            | Event::Ok(_)
            | Event::Error(_)
            | Event::Progress { .. }
            | Event::ColumnCount { .. }
            | Event::Column(_)
            | Event::Field { .. }
            | Event::ColumnsEnd(_)
            | Event::Row(_)
            | Event::RawRow(_)
            | Event::RowsEnd(_)
            | Event::FileRequest(_)
            | Event::Prepared { .. }
            | Event::Line(_)
            | Event::Farewell(_) => Side::Server,
            _ => Side::Client,
        }
    }
}

impl Event<'_> {
    /// The event's name: that of its variant.
    pub fn name(&self) -> &'static str {
        match self {
            Event::Rejected(_) => "Rejected",
            Event::Greeting(_) => "Greeting",
            Event::SecureRequest(_) => "SecureRequest",
            Event::Login(_) => "Login",
            Event::CutOffLogin(_) => "CutOffLogin",
            Event::Accepted(_) => "Accepted",
            Event::Denied(_) => "Denied",
            Event::AuthSwitch { .. } => "AuthSwitch",
            Event::OldAuthSwitch => "OldAuthSwitch",
            Event::AuthMore(_) => "AuthMore",
            Event::NextFactor { .. } => "NextFactor",
            Event::PluginData(_) => "PluginData",
            Event::Answer(_) => "Answer",
            Event::Quit => "Quit",
            Event::InitDb(_) => "InitDb",
            Event::Query { .. } => "Query",
            Event::Ping => "Ping",
            Event::ChangeUser(_) => "ChangeUser",
            Event::Prepare { .. } => "Prepare",
            Event::Execute { .. } => "Execute",
            Event::BulkExecute { .. } => "BulkExecute",
            Event::LongData { .. } => "LongData",
            Event::Close { .. } => "Close",
            Event::ResetStatement { .. } => "ResetStatement",
            Event::Fetch { .. } => "Fetch",
            Event::ResetConnection => "ResetConnection",
            Event::Command(_) => "Command",
            Event::Other(_) => "Other",
            Event::Ok(_) => "Ok",
            Event::Error(_) => "Error",
            Event::Progress { .. } => "Progress",
            Event::ColumnCount { .. } => "ColumnCount",
            Event::Column(_) => "Column",
            Event::Field { .. } => "Field",
            Event::ColumnsEnd(_) => "ColumnsEnd",
            Event::Row(_) => "Row",
            Event::RawRow(_) => "RawRow",
            Event::RowsEnd(_) => "RowsEnd",
            Event::FileRequest(_) => "FileRequest",
            Event::Prepared { .. } => "Prepared",
            Event::Line(_) => "Line",
            Event::FileData(_) => "FileData",
            Event::Farewell(_) => "Farewell",
        }
    }
}

/// Texts are printed as such, where they are UTF-8. Of what a client or a plugin says in an
/// authentication the length alone is printed. A password in a query's text, or among values, isn't
/// known for one.
impl fmt::Debug for Event<'_> {
    fn fmt(&self, formatter: &mut fmt::Formatter<'_>) -> fmt::Result {
        let name = self.name();
        match self {
            Event::OldAuthSwitch | Event::Quit | Event::Ping | Event::ResetConnection => {
                formatter.write_str(name)
            }
            Event::Rejected(it) | Event::Denied(it) | Event::Error(it) | Event::Farewell(it) => {
                formatter.debug_tuple(name).field(it).finish()
            }
            Event::Accepted(it) | Event::Ok(it) | Event::ColumnsEnd(it) | Event::RowsEnd(it) => {
                formatter.debug_tuple(name).field(it).finish()
            }
            Event::SecureRequest(it) | Event::CutOffLogin(it) => {
                formatter.debug_tuple(name).field(it).finish()
            }
            Event::Greeting(it) => formatter.debug_tuple(name).field(it).finish(),
            Event::Login(it) => formatter.debug_tuple(name).field(it).finish(),
            Event::ChangeUser(it) => formatter.debug_tuple(name).field(it).finish(),
            Event::Command(it) => formatter.debug_tuple(name).field(it).finish(),
            Event::Column(it) => formatter.debug_tuple(name).field(it).finish(),
            Event::Row(it) => formatter.debug_tuple(name).field(it).finish(),
            Event::AuthMore(data) | Event::PluginData(data) | Event::Answer(data) => {
                formatter.debug_tuple(name).field(&Secret(data)).finish()
            }
            Event::Other(data) if data.first() == Some(&COM_CHANGE_USER) => {
                formatter.debug_tuple(name).field(&Secret(data)).finish()
            }
            Event::InitDb(data)
            | Event::Other(data)
            | Event::RawRow(data)
            | Event::FileRequest(data)
            | Event::Line(data)
            | Event::FileData(data) => formatter.debug_tuple(name).field(&Readable(data)).finish(),
            _ => self.fields(formatter.debug_struct(name)),
        }
    }
}

impl Event<'_> {
    /// The fields of an event that has some, as `Debug` prints them.
    fn fields(&self, mut to: fmt::DebugStruct<'_, '_>) -> fmt::Result {
        match self {
            Event::AuthSwitch { plugin, data } | Event::NextFactor { plugin, data } => {
                to.field("plugin", &Readable(plugin))
                    .field("data", &Secret(data));
            }
            Event::Query { text, attributes } => {
                to.field("text", &Readable(text))
                    .field("attributes", attributes);
            }
            Event::Prepare { text } => {
                to.field("text", &Readable(text));
            }
            Event::Execute {
                statement,
                text,
                values,
                attributes,
                cursor,
                nameless_flags,
                iterations,
                rest,
            } => {
                to.field("statement", statement)
                    .field("text", &Readable(text));
                to.field("values", values)
                    .field("attributes", attributes)
                    .field("cursor", cursor);
                to.field("nameless_flags", nameless_flags)
                    .field("iterations", iterations)
                    .field("rest", &Readable(rest));
            }
            Event::BulkExecute {
                statement,
                text,
                rows,
                rest,
            } => {
                to.field("statement", statement)
                    .field("text", &Readable(text))
                    .field("rows", rows)
                    .field("rest", &Readable(rest));
            }
            Event::LongData {
                statement,
                place,
                data,
            } => {
                to.field("statement", statement)
                    .field("place", place)
                    .field("data", &Readable(data));
            }
            Event::Close { statement } | Event::ResetStatement { statement } => {
                to.field("statement", statement);
            }
            Event::Fetch { statement, rows } => {
                to.field("statement", statement).field("rows", rows);
            }
            Event::Progress {
                stage,
                stages,
                progress,
                text,
            } => {
                to.field("stage", stage).field("stages", stages);
                to.field("progress", progress)
                    .field("text", &Readable(text));
            }
            Event::ColumnCount {
                count,
                columns_follow,
            } => {
                to.field("count", count)
                    .field("columns_follow", columns_follow);
            }
            Event::Field { column, default } => {
                to.field("column", column)
                    .field("default", &default.map(Readable));
            }
            Event::Prepared {
                statement,
                parameters,
                columns,
                warnings,
                columns_follow,
            } => {
                to.field("statement", statement)
                    .field("parameters", parameters);
                to.field("columns", columns).field("warnings", warnings);
                to.field("columns_follow", columns_follow);
            }
            _ => (),
        }
        to.finish()
    }
}

/// An event as the library showed it.
struct Part<'a, 'b> {
    handle: &'a ConnectionHandle,
    shown: &'b raw::Event,
    /// Those of a row that were shown with it.
    cells: &'a [raw::Value],
    /// That of the greeting.
    scramble: &'a [u8],
}

impl<'a> Part<'a, '_> {
    /// An event of logging in, of a reply, or of a file.
    ///
    /// # Safety
    /// As that of [`Event::of`].
    unsafe fn said_or_replied(&self) -> Event<'a> {
        let shown = self.shown;
        // SAFETY: by this call's condition.
        let (text, plugin, data) =
            unsafe { (shown.text.bytes(), shown.plugin.bytes(), shown.data.bytes()) };
        match shown.kind {
            1 => Event::Rejected(self.error(text)),
            2 => Event::Greeting(self.greeting(text, plugin)),
            3 => Event::SecureRequest(self.request()),
            // SAFETY: by this call's condition.
            4 => Event::Login(unsafe { self.login() }),
            5 => Event::CutOffLogin(self.request()),
            6 => Event::Accepted(self.packet(text, data)),
            7 => Event::Denied(self.error(text)),
            8 => Event::AuthSwitch { plugin, data },
            9 => Event::OldAuthSwitch,
            10 => Event::AuthMore(data),
            11 => Event::NextFactor { plugin, data },
            12 => Event::PluginData(data),
            13 => Event::Answer(data),
            33 => Event::FileData(data),
            34 => Event::Farewell(self.error(text)),
            kind => self.replied(kind, text, data),
        }
    }

    /// What the server replies.
    fn replied(&self, kind: u32, text: &'a [u8], data: &'a [u8]) -> Event<'a> {
        let shown = self.shown;
        match kind {
            20 => Event::Ok(self.packet(text, data)),
            21 => Event::Error(self.error(text)),
            22 => Event::Progress {
                stage: shown.rows as u8,
                stages: shown.columns as u8,
                progress: shown.number,
                text,
            },
            23 => Event::ColumnCount {
                count: shown.columns as u16,
                columns_follow: shown.follows,
            },
            24 => Event::Column(self.column()),
            25 => Event::Field {
                column: self.column(),
                default: (shown.flags == 1).then_some(data),
            },
            26 => Event::ColumnsEnd(self.packet(text, data)),
            27 => Event::Row(EventRow {
                handle: self.handle,
                len: shown.columns,
                cells: self.cells,
            }),
            28 => Event::RawRow(data),
            29 => Event::RowsEnd(self.packet(text, data)),
            30 => Event::FileRequest(text),
            31 => Event::Prepared {
                statement: shown.statement,
                parameters: shown.params as u16,
                columns: shown.columns as u16,
                warnings: shown.warnings,
                columns_follow: shown.follows,
            },
            32 => Event::Line(text),
            kind => panic!("the header has no kind {kind} of an event"),
        }
    }

    /// What the client asks for.
    ///
    /// # Safety
    /// As that of [`Event::of`].
    unsafe fn command(&self, kind: u32) -> Event<'a> {
        let shown = self.shown;
        let statement = shown.statement;
        // SAFETY: by this call's condition.
        let (text, data) = unsafe { (shown.text.bytes(), shown.data.bytes()) };
        match kind {
            0x101 => Event::Quit,
            0x102 => Event::InitDb(text),
            0x103 => Event::Query {
                text,
                attributes: self.attributes(),
            },
            0x10e => Event::Ping,
            // SAFETY: by this call's condition.
            0x111 => Event::ChangeUser(unsafe { self.change() }),
            0x116 => Event::Prepare { text },
            0x117 => Event::Execute {
                statement,
                text,
                values: Values {
                    handle: self.handle,
                    len: shown.params,
                },
                attributes: self.attributes(),
                cursor: shown.flags & 7,
                nameless_flags: shown.flags & !7,
                iterations: shown.number,
                rest: data,
            },
            0x118 => Event::LongData {
                statement,
                place: shown.number as u16,
                data,
            },
            0x119 => Event::Close { statement },
            0x11a => Event::ResetStatement { statement },
            0x11c => Event::Fetch {
                statement,
                rows: shown.rows as u32,
            },
            0x11f => Event::ResetConnection,
            0x1fa => Event::BulkExecute {
                statement,
                text,
                rows: BulkRows {
                    handle: self.handle,
                    len: shown.rows,
                    width: shown.params,
                },
                rest: data,
            },
            0x200 => Event::Other(data),
            // SAFETY: by this call's condition.
            _ => Event::Command(unsafe { self.other(kind) }),
        }
    }

    /// A command without its own variant.
    ///
    /// # Safety
    /// As that of [`Event::of`].
    unsafe fn other(&self, kind: u32) -> OtherCommand<'a> {
        let shown = self.shown;
        // SAFETY: by this call's condition.
        unsafe {
            OtherCommand {
                number: kind as u8,
                text: shown.text.bytes(),
                database: shown.database.bytes(),
                user: shown.user.bytes(),
                data: shown.data.bytes(),
                value: shown.number,
                flags: shown.flags,
                position: shown.position,
            }
        }
    }

    fn packet(&self, info: &'a [u8], state_changes: &'a [u8]) -> OkPacket<'a> {
        let shown = self.shown;
        OkPacket {
            affected_rows: shown.affected_rows,
            last_insert_id: shown.last_insert_id,
            status: shown.status,
            warnings: shown.warnings,
            info,
            state_changes,
        }
    }

    fn error(&self, message: &'a [u8]) -> ErrorPacket<'a> {
        let shown = self.shown;
        ErrorPacket {
            code: shown.error_code,
            state: (shown.state_len == 5).then_some(shown.state),
            message,
        }
    }

    fn capabilities(&self) -> Capabilities {
        Capabilities {
            protocol: self.shown.capabilities,
            mariadb: self.shown.mariadb_capabilities,
        }
    }

    fn greeting(&self, version: &'a [u8], plugin: &'a [u8]) -> ServerGreeting<'a> {
        ServerGreeting {
            version,
            connection: self.shown.number,
            capabilities: self.capabilities(),
            status: self.shown.status,
            collation: self.shown.charset,
            plugin,
            scramble: self.scramble,
        }
    }

    fn request(&self) -> ClientRequest {
        ClientRequest {
            capabilities: self.capabilities(),
            collation: self.shown.charset,
            max_packet_size: self.shown.number,
        }
    }

    /// What a client logs in with.
    ///
    /// # Safety
    /// As that of [`Event::of`].
    unsafe fn login(&self) -> ClientLogin<'a> {
        let shown = self.shown;
        // SAFETY: by this call's condition.
        unsafe {
            ClientLogin {
                request: self.request(),
                user: shown.user.bytes(),
                database: shown.database.bytes(),
                plugin: shown.plugin.bytes(),
                response: shown.data.bytes(),
                attributes: self.attributes(),
            }
        }
    }

    /// A change of user.
    ///
    /// # Safety
    /// As that of [`Event::of`].
    unsafe fn change(&self) -> ClientChange<'a> {
        let shown = self.shown;
        // SAFETY: by this call's condition.
        unsafe {
            ClientChange {
                user: shown.user.bytes(),
                database: shown.database.bytes(),
                plugin: shown.plugin.bytes(),
                response: shown.data.bytes(),
                collation: shown.charset,
                attributes: self.attributes(),
            }
        }
    }

    fn attributes(&self) -> Attributes<'a> {
        Attributes {
            handle: self.handle,
            len: self.shown.attributes,
        }
    }

    fn column(&self) -> Column<'a> {
        column_of(self.handle, 0).expect("a column has one")
    }
}
