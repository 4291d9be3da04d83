//! The declarations of `bindings/c/mysql_session.h`, one for one.
//!
//! The header says what it promises, and what the program that calls owes it. A pointer to
//! bytes and the field with their length behind it are one [`Text`] here, which C lays out the
//! same.

use std::ffi::c_void;
use std::ptr::null;
use std::slice;

/// `MYSQL_SESSION_ABI`: the interface that is declared here.
pub const ABI: u32 = 11;

// `enum mysql_session_flag`.
pub const NO_BACKSLASH_ESCAPES: u32 = 1;
pub const ANSI_QUOTES: u32 = 2;
pub const HEXADECIMAL: u32 = 4;
pub const UNKNOWN_MODE: u32 = 8;

/// `mysql_session_handle`.
#[repr(C)]
pub struct Handle {
    pub at: *mut c_void,
}

/// Bytes that come out of the library: where they begin, and how many they are.
#[repr(C)]
#[derive(Clone, Copy)]
pub struct Text {
    pub at: *const u8,
    pub len: usize,
}

impl Default for Text {
    fn default() -> Text {
        Text { at: null(), len: 0 }
    }
}

impl Text {
    /// The bytes.
    ///
    /// # Safety
    /// The library wrote the fields, and the bytes stay as they are for `'a`.
    pub unsafe fn bytes<'a>(self) -> &'a [u8] {
        if self.len == 0 {
            return &[];
        }
        // SAFETY: by this call's condition; the header forbids to read at no bytes alone.
        unsafe { slice::from_raw_parts(self.at, self.len) }
    }
}

/// `mysql_session_known`.
#[repr(C)]
#[derive(Clone, Copy)]
pub struct Known {
    pub flags: u32,
    pub set_known: bool,
    pub counts: bool,
}

/// `mysql_session_content`.
#[repr(C)]
#[derive(Clone, Copy, Default)]
pub struct Content {
    pub kind: u32,
    pub int_value: i64,
    pub uint_value: u64,
    pub bytes: Text,
}

/// `mysql_session_end`.
#[repr(C)]
#[derive(Clone, Copy, Default)]
pub struct End {
    pub kind: u32,
    pub fault: u32,
    pub payload: u64,
}

/// `mysql_session_parameter`.
#[repr(C)]
#[derive(Clone, Copy, Debug, Default)]
pub struct Parameter {
    pub kind: u32,
    pub negative: bool,
    pub month: u8,
    pub day: u8,
    pub hour: u8,
    pub minute: u8,
    pub second: u8,
    pub year: u16,
    pub days: u32,
    pub micros: u32,
    pub int_value: i64,
    pub uint_value: u64,
    pub start: usize,
    pub len: usize,
}

/// `mysql_session_place`.
#[repr(C)]
#[derive(Clone, Copy, Default)]
pub struct Place {
    pub set: usize,
    pub place: usize,
}

/// `mysql_session_stop`.
#[repr(C)]
#[derive(Clone, Copy, Default)]
pub struct Stop {
    pub end: u32,
    pub fault: u32,
    pub payload: u64,
    pub set: usize,
}

/// `mysql_session_result`.
#[repr(C)]
#[derive(Clone, Copy, Default)]
pub struct ReplyResult {
    pub kind: u32,
    pub status: u16,
    pub warnings: u16,
    pub error_code: u16,
    pub statement: u32,
    pub affected_rows: u64,
    pub last_insert_id: u64,
    pub columns: usize,
    pub rows: usize,
    pub params: usize,
    pub states: usize,
    pub text: Text,
    pub changes: Text,
    pub state: [u8; 5],
    pub state_len: usize,
    pub ended: bool,
}

/// `mysql_session_value`.
#[repr(C)]
#[derive(Clone, Copy, Default)]
pub struct Value {
    pub kind: u32,
    pub negative: bool,
    pub month: u8,
    pub day: u8,
    pub hour: u8,
    pub minute: u8,
    pub second: u8,
    pub year: u16,
    pub days: u32,
    pub micros: u32,
    pub int_value: i64,
    pub uint_value: u64,
    pub bytes: Text,
}

/// `mysql_session_column`.
#[repr(C)]
#[derive(Clone, Copy, Default)]
pub struct Column {
    pub kind: u8,
    pub decimals: u8,
    pub flags: u16,
    pub charset: u16,
    pub length: u32,
    pub schema: Text,
    pub table: Text,
    pub org_table: Text,
    pub name: Text,
    pub org_name: Text,
}

/// `mysql_session_spot`.
#[repr(C)]
#[derive(Clone, Copy, Default)]
pub struct Spot {
    pub result: usize,
    pub row: usize,
    pub place: usize,
    pub payload: u64,
}

/// `mysql_session_greeting`.
#[repr(C)]
#[derive(Clone, Copy, Default)]
pub struct Greeting {
    pub protocol: u8,
    pub collation: u8,
    pub status: u16,
    pub connection: u32,
    pub capabilities: u32,
    pub mariadb_capabilities: u32,
    pub version: Text,
    pub scramble_1: Text,
    pub scramble_2: Text,
    pub plugin: Text,
}

/// `mysql_session_login`.
#[repr(C)]
#[derive(Clone, Copy, Default)]
pub struct Login {
    pub collation: u8,
    pub capabilities: u32,
    pub mariadb_capabilities: u32,
    pub user: Text,
    pub response: Text,
    pub database: Text,
    pub plugin: Text,
}

/// `mysql_session_connection`.
#[repr(C)]
pub struct Connection {
    pub at: *mut c_void,
}

/// `mysql_session_event`.
#[repr(C)]
#[derive(Clone, Copy, Default)]
pub struct Event {
    pub kind: u32,
    pub side: u32,
    pub statement: u32,
    pub capabilities: u32,
    pub mariadb_capabilities: u32,
    pub number: u32,
    pub flags: u32,
    pub status: u16,
    pub warnings: u16,
    pub error_code: u16,
    pub charset: u16,
    pub affected_rows: u64,
    pub last_insert_id: u64,
    pub position: u64,
    pub columns: usize,
    pub rows: usize,
    pub params: usize,
    pub attributes: usize,
    pub text: Text,
    pub user: Text,
    pub database: Text,
    pub plugin: Text,
    pub data: Text,
    pub state: [u8; 5],
    pub state_len: usize,
    pub follows: bool,
}

/// `mysql_session_standing`.
#[repr(C)]
#[derive(Clone, Copy, Default)]
pub struct Standing {
    pub turn: u32,
    pub phase: u32,
    pub reason: u32,
    pub capabilities: u32,
    pub mariadb_capabilities: u32,
    pub fault: u32,
    pub fault_side: u32,
    pub fault_byte: u64,
    pub client_room: usize,
    pub server_room: usize,
    pub held: usize,
}

/// `mysql_session_connection_end`.
#[repr(C)]
#[derive(Clone, Copy, Default)]
pub struct ConnectionEnd {
    pub kind: u32,
    pub reason: u32,
    pub side: u32,
    pub fault: u32,
    pub byte: u64,
}

extern "C" {
    pub fn mysql_session_abi() -> u32;
    pub fn mysql_session_build() -> u32;
    pub fn mysql_session_version(text: *mut *const u8, len: *mut usize);
    pub fn mysql_session_free(handle: *mut Handle);
    pub fn mysql_session_code_text(code: u32, text: *mut *const u8, len: *mut usize);

    pub fn mysql_session_mode_of_status(status: u16) -> u32;
    pub fn mysql_session_mode_of_sql_mode(value: *const u8, len: usize) -> u32;
    pub fn mysql_session_is_safe_to_quote(collation: u16) -> u32;
    pub fn mysql_session_known_behind_text(known: *mut Known, text: *const u8, len: usize);
    pub fn mysql_session_known_behind_ok(
        known: *mut Known,
        status: u16,
        changes: *const u8,
        len: usize,
    );

    pub fn mysql_session_receiver_new(
        handle: *mut Handle,
        query: *const u8,
        len: usize,
        statement: u32,
        limit: usize,
        flags: u32,
    ) -> u32;
    pub fn mysql_session_receiver_feed(handle: *mut Handle, piece: *const u8, len: usize) -> u32;
    pub fn mysql_session_receiver_sets(handle: *mut Handle, count: *mut usize) -> u32;
    pub fn mysql_session_receiver_width(handle: *mut Handle, set: usize, width: *mut usize) -> u32;
    pub fn mysql_session_receiver_content(
        handle: *mut Handle,
        set: usize,
        place: usize,
        content: *mut Content,
    ) -> u32;
    pub fn mysql_session_receiver_clear(handle: *mut Handle) -> u32;
    pub fn mysql_session_receiver_end(handle: *mut Handle, end: *mut End) -> u32;

    pub fn mysql_session_sets_new(handle: *mut Handle) -> u32;
    pub fn mysql_session_sets_push_null(handle: *mut Handle) -> u32;
    pub fn mysql_session_sets_push_int(handle: *mut Handle, number: i64) -> u32;
    pub fn mysql_session_sets_push_uint(handle: *mut Handle, number: u64) -> u32;
    pub fn mysql_session_sets_push_float(handle: *mut Handle, bits: u32) -> u32;
    pub fn mysql_session_sets_push_double(handle: *mut Handle, bits: u64) -> u32;
    pub fn mysql_session_sets_push_bytes(handle: *mut Handle, bytes: *const u8, len: usize) -> u32;
    pub fn mysql_session_sets_push_date(
        handle: *mut Handle,
        year: u16,
        month: u8,
        day: u8,
        hour: u8,
        minute: u8,
        second: u8,
        micros: u32,
    ) -> u32;
    pub fn mysql_session_sets_push_time(
        handle: *mut Handle,
        negative: bool,
        days: u32,
        hours: u8,
        minutes: u8,
        seconds: u8,
        micros: u32,
    ) -> u32;
    pub fn mysql_session_sets_end_set(handle: *mut Handle) -> u32;
    pub fn mysql_session_sets_add(
        handle: *mut Handle,
        values: *const Parameter,
        count: usize,
        bytes: *const u8,
        len: usize,
    ) -> u32;
    pub fn mysql_session_sets_count(handle: *mut Handle, count: *mut usize) -> u32;
    pub fn mysql_session_sets_clear(handle: *mut Handle) -> u32;

    pub fn mysql_session_bytes_new(handle: *mut Handle) -> u32;
    pub fn mysql_session_bytes_data(
        handle: *mut Handle,
        data: *mut *const u8,
        len: *mut usize,
    ) -> u32;
    pub fn mysql_session_bytes_clear(handle: *mut Handle) -> u32;

    pub fn mysql_session_place_count(
        query: *const u8,
        len: usize,
        flags: u32,
        count: *mut usize,
    ) -> u32;
    pub fn mysql_session_send(
        sets: *mut Handle,
        query: *const u8,
        len: usize,
        road: u32,
        statement: u32,
        limit: usize,
        flags: u32,
        out: *mut Handle,
        place: *mut Place,
    ) -> u32;
    pub fn mysql_session_execution_put(
        sets: *mut Handle,
        set: usize,
        statement: u32,
        out: *mut Handle,
    ) -> u32;
    pub fn mysql_session_bind_text(
        sets: *mut Handle,
        set: usize,
        query: *const u8,
        len: usize,
        flags: u32,
        out: *mut Handle,
        place: *mut Place,
    ) -> u32;
    pub fn mysql_session_digest(text: *const u8, len: usize, flags: u32, out: *mut Handle) -> u32;
    pub fn mysql_session_value_text(
        sets: *mut Handle,
        set: usize,
        place: usize,
        flags: u32,
        out: *mut Handle,
    ) -> u32;

    pub fn mysql_session_recoder_new(
        handle: *mut Handle,
        query: *const u8,
        len: usize,
        statement: u32,
        limit: usize,
        flags: u32,
    ) -> u32;
    pub fn mysql_session_recoder_feed(
        handle: *mut Handle,
        piece: *const u8,
        len: usize,
        out: *mut Handle,
        stop: *mut Stop,
    ) -> u32;
    pub fn mysql_session_recoder_end(handle: *mut Handle, out: *mut Handle, stop: *mut Stop)
        -> u32;

    pub fn mysql_session_reply_new(
        handle: *mut Handle,
        kind: u32,
        capabilities: u32,
        first: u8,
        limit: usize,
    ) -> u32;
    pub fn mysql_session_reply_feed(handle: *mut Handle, piece: *const u8, len: usize) -> u32;
    pub fn mysql_session_reply_take(handle: *mut Handle) -> u32;
    pub fn mysql_session_reply_results(handle: *mut Handle, count: *mut usize) -> u32;
    pub fn mysql_session_reply_result(
        handle: *mut Handle,
        number: usize,
        result: *mut ReplyResult,
    ) -> u32;
    pub fn mysql_session_reply_state(
        handle: *mut Handle,
        number: usize,
        position: *mut usize,
        kind: *mut u8,
        data: *mut *const u8,
        len: *mut usize,
    ) -> u32;
    pub fn mysql_session_reply_cell(
        handle: *mut Handle,
        number: usize,
        row: usize,
        column: usize,
        value: *mut Value,
    ) -> u32;
    pub fn mysql_session_reply_column(
        handle: *mut Handle,
        number: usize,
        column: usize,
        shown: *mut Column,
    ) -> u32;
    pub fn mysql_session_reply_param(
        handle: *mut Handle,
        number: usize,
        param: usize,
        shown: *mut Column,
    ) -> u32;
    pub fn mysql_session_reply_end(handle: *mut Handle, end: *mut End) -> u32;

    pub fn mysql_session_writer_new(
        handle: *mut Handle,
        kind: u32,
        capabilities: u32,
        first: u8,
        limit: usize,
    ) -> u32;
    pub fn mysql_session_writer_ok(
        handle: *mut Handle,
        affected_rows: u64,
        last_insert_id: u64,
        status: u16,
        warnings: u16,
        info: *const u8,
        len: usize,
        more: bool,
        out: *mut Handle,
        spot: *mut Spot,
    ) -> u32;
    pub fn mysql_session_writer_error(
        handle: *mut Handle,
        code: u16,
        state: *const u8,
        state_len: usize,
        message: *const u8,
        len: usize,
        out: *mut Handle,
        spot: *mut Spot,
    ) -> u32;
    pub fn mysql_session_writer_column(
        handle: *mut Handle,
        kind: u8,
        name: *const u8,
        len: usize,
        flags: u16,
        charset: u16,
        length: u32,
        decimals: u8,
    ) -> u32;
    pub fn mysql_session_writer_rows(handle: *mut Handle, out: *mut Handle, spot: *mut Spot)
        -> u32;
    pub fn mysql_session_writer_row(
        handle: *mut Handle,
        sets: *mut Handle,
        set: usize,
        out: *mut Handle,
        spot: *mut Spot,
    ) -> u32;
    pub fn mysql_session_writer_end_rows(
        handle: *mut Handle,
        status: u16,
        warnings: u16,
        more: bool,
        out: *mut Handle,
        spot: *mut Spot,
    ) -> u32;
    pub fn mysql_session_writer_prepared(
        handle: *mut Handle,
        statement: u32,
        params: usize,
        warnings: u16,
        out: *mut Handle,
        spot: *mut Spot,
    ) -> u32;
    pub fn mysql_session_writer_end(handle: *mut Handle, spot: *mut Spot) -> u32;

    pub fn mysql_session_packets_new(handle: *mut Handle, first: u8, limit: usize) -> u32;
    pub fn mysql_session_packets_feed(
        handle: *mut Handle,
        piece: *const u8,
        len: usize,
        used: *mut usize,
        whole: *mut bool,
    ) -> u32;
    pub fn mysql_session_packets_payload(
        handle: *mut Handle,
        data: *mut *const u8,
        len: *mut usize,
    ) -> u32;
    pub fn mysql_session_packets_restart(handle: *mut Handle) -> u32;
    pub fn mysql_session_packet_put(
        out: *mut Handle,
        payload: *const u8,
        len: usize,
        number: *mut u8,
        limit: usize,
    ) -> u32;

    pub fn mysql_session_greeting_read(
        payload: *const u8,
        len: usize,
        greeting: *mut Greeting,
    ) -> u32;
    pub fn mysql_session_greeting_put(
        out: *mut Handle,
        connection: u32,
        capabilities: u32,
        mariadb_capabilities: u32,
        collation: u8,
        status: u16,
        version: *const u8,
        version_len: usize,
        scramble_1: *const u8,
        scramble_1_len: usize,
        scramble_2: *const u8,
        scramble_2_len: usize,
        plugin: *const u8,
        plugin_len: usize,
    ) -> u32;
    pub fn mysql_session_login_read(payload: *const u8, len: usize, login: *mut Login) -> u32;
    pub fn mysql_session_login_put(
        out: *mut Handle,
        capabilities: u32,
        mariadb_capabilities: u32,
        max_packet_size: u32,
        user: *const u8,
        user_len: usize,
        response: *const u8,
        response_len: usize,
        database: *const u8,
        database_len: usize,
        plugin: *const u8,
        plugin_len: usize,
    ) -> u32;

    pub fn mysql_session_register_replica_put(
        out: *mut Handle,
        server: u32,
        host: *const u8,
        host_len: usize,
        user: *const u8,
        user_len: usize,
        password: *const u8,
        password_len: usize,
        port: u16,
    ) -> u32;
    pub fn mysql_session_binlog_dump_put(
        out: *mut Handle,
        server: u32,
        position: u32,
        flags: u16,
        file: *const u8,
        len: usize,
    ) -> u32;
    pub fn mysql_session_binlog_dump_gtid_put(
        out: *mut Handle,
        server: u32,
        position: u64,
        flags: u16,
        file: *const u8,
        len: usize,
        gtids: *const u8,
        gtids_len: usize,
    ) -> u32;

    pub fn mysql_session_connection_new(
        connection: *mut Connection,
        client: usize,
        server: usize,
        held: usize,
    ) -> u32;
    pub fn mysql_session_connection_after_login(
        connection: *mut Connection,
        capabilities: u32,
        mariadb_capabilities: u32,
        client: usize,
        server: usize,
        held: usize,
    ) -> u32;
    pub fn mysql_session_connection_free(connection: *mut Connection);
    pub fn mysql_session_connection_feed(
        connection: *mut Connection,
        side: u32,
        piece: *const u8,
        len: usize,
    ) -> u32;
    pub fn mysql_session_connection_close(connection: *mut Connection, side: u32) -> u32;
    pub fn mysql_session_connection_next(connection: *mut Connection, event: *mut Event) -> u32;
    pub fn mysql_session_connection_next_lent(
        connection: *mut Connection,
        cells: *mut Value,
        room: usize,
        event: *mut Event,
    ) -> u32;
    pub fn mysql_session_connection_put(
        connection: *mut Connection,
        side: u32,
        payload: *const u8,
        len: usize,
        out: *mut Handle,
        event: *mut Event,
    ) -> u32;
    pub fn mysql_session_connection_put_packets(
        connection: *mut Connection,
        side: u32,
        packets: *const u8,
        len: usize,
        out: *mut Handle,
        used: *mut usize,
    ) -> u32;
    pub fn mysql_session_connection_put_sets(
        connection: *mut Connection,
        statement: u32,
        places: usize,
        packets: *const u8,
        len: usize,
        out: *mut Handle,
        used: *mut usize,
    ) -> u32;
    pub fn mysql_session_connection_value(
        connection: *mut Connection,
        row: usize,
        place: usize,
        value: *mut Value,
    ) -> u32;
    pub fn mysql_session_connection_unclear(
        connection: *mut Connection,
        row: usize,
        place: usize,
        unclear: *mut bool,
        cells: *mut *const u8,
        len: *mut usize,
    ) -> u32;
    pub fn mysql_session_connection_attribute(
        connection: *mut Connection,
        number: usize,
        name: *mut *const u8,
        len: *mut usize,
        value: *mut Value,
    ) -> u32;
    pub fn mysql_session_connection_column(
        connection: *mut Connection,
        number: usize,
        column: *mut Column,
    ) -> u32;
    pub fn mysql_session_connection_line(
        connection: *mut Connection,
        text: *mut *const u8,
        len: *mut usize,
    ) -> u32;
    pub fn mysql_session_connection_line_with_secrets(
        connection: *mut Connection,
        text: *mut *const u8,
        len: *mut usize,
    ) -> u32;
    pub fn mysql_session_connection_line_with_texts(
        connection: *mut Connection,
        secrets: bool,
        text: *mut *const u8,
        len: *mut usize,
    ) -> u32;
    pub fn mysql_session_connection_standing(
        connection: *mut Connection,
        standing: *mut Standing,
    ) -> u32;
    pub fn mysql_session_connection_known(connection: *mut Connection, known: *mut Known);
    pub fn mysql_session_connection_statement(
        connection: *mut Connection,
        id: u32,
        text: *mut *const u8,
        len: *mut usize,
        params: *mut u16,
    ) -> u32;
    pub fn mysql_session_connection_rest(
        connection: *mut Connection,
        side: u32,
        data: *mut *const u8,
        len: *mut usize,
    ) -> u32;
    pub fn mysql_session_connection_finish(
        connection: *mut Connection,
        end: *mut ConnectionEnd,
    ) -> u32;
}
