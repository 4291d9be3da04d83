//! Bits of the capabilities that client and server agree on, as the protocol names them.

/// The side is no MariaDB: where the bit isn't set MariaDB's own capabilities are looked at.
pub const CLIENT_LONG_PASSWORD: u32 = 1;
/// An update tells how many rows it found, not how many it changed.
pub const CLIENT_FOUND_ROWS: u32 = 1 << 1;
/// Columns have flags of two bytes.
pub const CLIENT_LONG_FLAG: u32 = 1 << 2;
/// A database is named at the login.
pub const CLIENT_CONNECT_WITH_DB: u32 = 1 << 3;
/// No names of databases before those of tables.
pub const CLIENT_NO_SCHEMA: u32 = 1 << 4;
/// Packets are compressed.
pub const CLIENT_COMPRESS: u32 = 1 << 5;
/// The client is one of ODBC.
pub const CLIENT_ODBC: u32 = 1 << 6;
/// A file of the client may be loaded.
pub const CLIENT_LOCAL_FILES: u32 = 1 << 7;
/// Blanks may be before a bracket.
pub const CLIENT_IGNORE_SPACE: u32 = 1 << 8;
/// The protocol of version 4.1.
pub const CLIENT_PROTOCOL_41: u32 = 1 << 9;
/// A person types: the server waits for longer.
pub const CLIENT_INTERACTIVE: u32 = 1 << 10;
/// The connection goes over to TLS.
pub const CLIENT_SSL: u32 = 1 << 11;
/// The client takes no notice of SIGPIPE.
pub const CLIENT_IGNORE_SIGPIPE: u32 = 1 << 12;
/// OK packets tell of transactions.
pub const CLIENT_TRANSACTIONS: u32 = 1 << 13;
/// Once the bit of the protocol of version 4.1.
pub const CLIENT_RESERVED: u32 = 1 << 14;
/// Passwords are scrambled as version 4.1 does it.
pub const CLIENT_SECURE_CONNECTION: u32 = 1 << 15;
/// A query may be several ones.
pub const CLIENT_MULTI_STATEMENTS: u32 = 1 << 16;
/// The reply to a query may have several results.
pub const CLIENT_MULTI_RESULTS: u32 = 1 << 17;
/// The reply to an execution may have several results.
pub const CLIENT_PS_MULTI_RESULTS: u32 = 1 << 18;
/// Authentication has plugins.
pub const CLIENT_PLUGIN_AUTH: u32 = 1 << 19;
/// Clients tell attributes of theirs at the login.
pub const CLIENT_CONNECT_ATTRS: u32 = 1 << 20;
/// The response of a login may be longer than 255 bytes.
pub const CLIENT_PLUGIN_AUTH_LENENC_CLIENT_DATA: u32 = 1 << 21;
/// The client can go on with a password that has expired.
pub const CLIENT_CAN_HANDLE_EXPIRED_PASSWORDS: u32 = 1 << 22;
/// OK packets tell of changes of the session's state.
pub const CLIENT_SESSION_TRACK: u32 = 1 << 23;
/// OK packets end rows, in place of EOF packets.
pub const CLIENT_DEPRECATE_EOF: u32 = 1 << 24;
/// A result set may come without its columns.
pub const CLIENT_OPTIONAL_RESULTSET_METADATA: u32 = 1 << 25;
/// Packets are compressed by zstd.
pub const CLIENT_ZSTD_COMPRESSION_ALGORITHM: u32 = 1 << 26;
/// Queries and executions have attributes.
pub const CLIENT_QUERY_ATTRIBUTES: u32 = 1 << 27;
/// A login may take several factors.
pub const MULTI_FACTOR_AUTHENTICATION: u32 = 1 << 28;
/// The server reports on progress, as old MariaDB servers do.
pub const CLIENT_PROGRESS_OBSOLETE: u32 = 1 << 29;
/// The client looks at the server's certificate.
pub const CLIENT_SSL_VERIFY_SERVER_CERT: u32 = 1 << 30;
/// The client's options stay behind a login that failed.
pub const CLIENT_REMEMBER_OPTIONS: u32 = 1 << 31;

/// Of MariaDB's own capabilities: the server reports on progress.
pub const MARIADB_CLIENT_PROGRESS: u32 = 1;
/// Of MariaDB's own capabilities: several commands are in one packet.
pub const MARIADB_CLIENT_COM_MULTI: u32 = 1 << 1;
/// Of MariaDB's own capabilities: statements are executed in bulk.
pub const MARIADB_CLIENT_STMT_BULK_OPERATIONS: u32 = 1 << 2;
/// Of MariaDB's own capabilities: columns tell more of their types.
pub const MARIADB_CLIENT_EXTENDED_METADATA: u32 = 1 << 3;
/// Of MariaDB's own capabilities: an execution may leave out columns that stayed the same.
pub const MARIADB_CLIENT_CACHE_METADATA: u32 = 1 << 4;
/// Of MariaDB's own capabilities: a bulk execution tells the result of each row.
pub const MARIADB_CLIENT_BULK_UNIT_RESULTS: u32 = 1 << 5;
