/* Handles that stand for nothing, for an object of another kind, or for one that was freed: each
 * call answers a code and changes nothing. And each code has a text. */
#include "check.h"

/* One handle of each kind, by the call that made it. */
enum { NOTHING, RECEIVER, AUDIT, SETS, BYTES, RECODER, REPLY, ANSWER, WRITER, PACKETS, KINDS };
static const char *const names[KINDS] = {
    "nothing", "receiver", "audit", "sets", "bytes", "recoder", "reply", "answer", "writer",
    "packets",
};
static mysql_session_handle handles[KINDS];

/* Handles of the right kind, for calls of which another handle is looked at. */
static mysql_session_handle good_sets, good_out;

static const uint8_t some[] = "SELECT ?";
#define LEN 8

static void make_all(void)
{
    mysql_session_end end = { 0, 0, 0 };
    CHECK_DONE(mysql_session_receiver_new(&handles[RECEIVER], some, LEN, 1, 1000, 0));
    CHECK_DONE(mysql_session_receiver_new(&handles[AUDIT], some, LEN, 1, 1000, 0));
    CHECK_DONE(mysql_session_receiver_end(&handles[AUDIT], &end));
    CHECK_DONE(mysql_session_sets_new(&handles[SETS]));
    CHECK_DONE(mysql_session_bytes_new(&handles[BYTES]));
    CHECK_DONE(mysql_session_recoder_new(&handles[RECODER], some, LEN, 1, 1000, 0));
    CHECK_DONE(mysql_session_reply_new(&handles[REPLY], 0, 0x200, 1, 1000));
    CHECK_DONE(mysql_session_reply_new(&handles[ANSWER], 0, 0x200, 1, 1000));
    CHECK_DONE(mysql_session_reply_end(&handles[ANSWER], &end));
    CHECK_DONE(mysql_session_writer_new(&handles[WRITER], 0, 0x200, 1, 1000));
    CHECK_DONE(mysql_session_packets_new(&handles[PACKETS], 0, 1000));
    CHECK_DONE(mysql_session_sets_new(&good_sets));
    CHECK_DONE(mysql_session_sets_end_set(&good_sets));
    CHECK_DONE(mysql_session_bytes_new(&good_out));
}

/* Results that go out; what they hold isn't looked at. */
static size_t count, used;
static uint8_t number;
static bool whole;
static const uint8_t *data;
static mysql_session_end end_found;
static mysql_session_content content;
static mysql_session_place place;
static mysql_session_stop stop;
static mysql_session_result result;
static mysql_session_value value;
static mysql_session_column column;
static mysql_session_spot spot;
static mysql_session_parameter parameter;

static uint32_t receiver_feed(mysql_session_handle *handle)
{
    return mysql_session_receiver_feed(handle, some, 0);
}

static uint32_t receiver_sets(mysql_session_handle *handle)
{
    return mysql_session_receiver_sets(handle, &count);
}

static uint32_t receiver_width(mysql_session_handle *handle)
{
    return mysql_session_receiver_width(handle, 0, &count);
}

static uint32_t receiver_content(mysql_session_handle *handle)
{
    return mysql_session_receiver_content(handle, 0, 0, &content);
}

static uint32_t receiver_end(mysql_session_handle *handle)
{
    return mysql_session_receiver_end(handle, &end_found);
}

static uint32_t push_int(mysql_session_handle *handle)
{
    return mysql_session_sets_push_int(handle, 1);
}

static uint32_t push_uint(mysql_session_handle *handle)
{
    return mysql_session_sets_push_uint(handle, 1);
}

static uint32_t push_float(mysql_session_handle *handle)
{
    return mysql_session_sets_push_float(handle, 1);
}

static uint32_t push_double(mysql_session_handle *handle)
{
    return mysql_session_sets_push_double(handle, 1);
}

static uint32_t push_bytes(mysql_session_handle *handle)
{
    return mysql_session_sets_push_bytes(handle, some, LEN);
}

static uint32_t push_date(mysql_session_handle *handle)
{
    return mysql_session_sets_push_date(handle, 2024, 1, 1, 0, 0, 0, 0);
}

static uint32_t push_time(mysql_session_handle *handle)
{
    return mysql_session_sets_push_time(handle, false, 0, 1, 2, 3, 0);
}

static uint32_t sets_add(mysql_session_handle *handle)
{
    return mysql_session_sets_add(handle, &parameter, 1, some, LEN);
}

static uint32_t sets_count(mysql_session_handle *handle)
{
    return mysql_session_sets_count(handle, &count);
}

static uint32_t bytes_data(mysql_session_handle *handle)
{
    return mysql_session_bytes_data(handle, &data, &count);
}

static uint32_t send_from(mysql_session_handle *handle)
{
    return mysql_session_send(handle, some, LEN, 0, 1, 1000, 0, &good_out, &place);
}

static uint32_t send_to(mysql_session_handle *handle)
{
    return mysql_session_send(&good_sets, some, LEN, 0, 1, 1000, 0, handle, &place);
}

static uint32_t bind_from(mysql_session_handle *handle)
{
    return mysql_session_bind_text(handle, 0, some, LEN, 0, &good_out, &place);
}

static uint32_t value_from(mysql_session_handle *handle)
{
    return mysql_session_value_text(handle, 0, 0, 0, &good_out);
}

static uint32_t execution_from(mysql_session_handle *handle)
{
    return mysql_session_execution_put(handle, 0, 1, &good_out);
}

static uint32_t execution_to(mysql_session_handle *handle)
{
    return mysql_session_execution_put(&good_sets, 0, 1, handle);
}

static uint32_t digest_to(mysql_session_handle *handle)
{
    return mysql_session_digest(some, LEN, 0, handle);
}

static uint32_t recoder_feed(mysql_session_handle *handle)
{
    return mysql_session_recoder_feed(handle, some, 0, &good_out, &stop);
}

static uint32_t recoder_end(mysql_session_handle *handle)
{
    return mysql_session_recoder_end(handle, &good_out, &stop);
}

static uint32_t reply_feed(mysql_session_handle *handle)
{
    return mysql_session_reply_feed(handle, some, 0);
}

static uint32_t reply_results(mysql_session_handle *handle)
{
    return mysql_session_reply_results(handle, &count);
}

static uint32_t reply_result(mysql_session_handle *handle)
{
    return mysql_session_reply_result(handle, 0, &result);
}

static uint32_t reply_state(mysql_session_handle *handle)
{
    used = 0;
    return mysql_session_reply_state(handle, 0, &used, &number, &data, &count);
}

static uint32_t reply_cell(mysql_session_handle *handle)
{
    return mysql_session_reply_cell(handle, 0, 0, 0, &value);
}

static uint32_t reply_column(mysql_session_handle *handle)
{
    return mysql_session_reply_column(handle, 0, 0, &column);
}

static uint32_t reply_param(mysql_session_handle *handle)
{
    return mysql_session_reply_param(handle, 0, 0, &column);
}

static uint32_t reply_end(mysql_session_handle *handle)
{
    return mysql_session_reply_end(handle, &end_found);
}

static uint32_t writer_column(mysql_session_handle *handle)
{
    return mysql_session_writer_column(handle, 8, some, LEN, 0, 63, 1, 0);
}

static uint32_t writer_end(mysql_session_handle *handle)
{
    return mysql_session_writer_end(handle, &spot);
}

static uint32_t writer_ok(mysql_session_handle *handle)
{
    return mysql_session_writer_ok(handle, 0, 0, 4, 0, some, 0, false, &good_out, &spot);
}

static uint32_t writer_error(mysql_session_handle *handle)
{
    return mysql_session_writer_error(handle, 1, some, 5, some, 0, &good_out, &spot);
}

static uint32_t writer_rows(mysql_session_handle *handle)
{
    return mysql_session_writer_rows(handle, &good_out, &spot);
}

static uint32_t writer_row(mysql_session_handle *handle)
{
    return mysql_session_writer_row(handle, &good_sets, 0, &good_out, &spot);
}

static uint32_t writer_end_rows(mysql_session_handle *handle)
{
    return mysql_session_writer_end_rows(handle, 2, 0, false, &good_out, &spot);
}

static uint32_t writer_prepared(mysql_session_handle *handle)
{
    return mysql_session_writer_prepared(handle, 1, 0, 0, &good_out, &spot);
}

static uint32_t packets_feed(mysql_session_handle *handle)
{
    return mysql_session_packets_feed(handle, some, 0, &used, &whole);
}

static uint32_t packets_payload(mysql_session_handle *handle)
{
    return mysql_session_packets_payload(handle, &data, &count);
}

static uint32_t packet_put(mysql_session_handle *handle)
{
    return mysql_session_packet_put(handle, some, LEN, &number, 1000);
}

static uint32_t greeting_put(mysql_session_handle *handle)
{
    return mysql_session_greeting_put(handle, 1, 0x200, 0, 45, 2, some, LEN, some, 8,
                                      bytes_of("123456789012"), 12, some, LEN);
}

static uint32_t login_put(mysql_session_handle *handle)
{
    return mysql_session_login_put(handle, 0x200, 0, 1000, some, LEN, some, 0, some, 0, some, 0);
}

static uint32_t register_put(mysql_session_handle *handle)
{
    return mysql_session_register_replica_put(handle, 1, some, 0, some, 0, some, 0, 1);
}

static uint32_t dump_put(mysql_session_handle *handle)
{
    return mysql_session_binlog_dump_put(handle, 1, 4, 0, some, LEN);
}

static uint32_t dump_gtid_put(mysql_session_handle *handle)
{
    return mysql_session_binlog_dump_gtid_put(handle, 1, 4, 0, some, LEN, some, 0);
}

/* Each call, and the kinds of handles that it is for. */
#define ONLY(kind) (1u << (kind))
#define ONE_OF(kind, other) (ONLY(kind) | ONLY(other))
static const struct {
    const char *name;
    uint32_t (*call)(mysql_session_handle *);
    unsigned kinds;
} calls[] = {
    { "receiver_feed", receiver_feed, ONLY(RECEIVER) },
    { "receiver_sets", receiver_sets, ONE_OF(RECEIVER, AUDIT) },
    { "receiver_width", receiver_width, ONE_OF(RECEIVER, AUDIT) },
    { "receiver_content", receiver_content, ONE_OF(RECEIVER, AUDIT) },
    { "receiver_clear", mysql_session_receiver_clear, ONLY(RECEIVER) },
    { "receiver_end", receiver_end, ONE_OF(RECEIVER, AUDIT) },
    { "sets_push_null", mysql_session_sets_push_null, ONLY(SETS) },
    { "sets_push_int", push_int, ONLY(SETS) },
    { "sets_push_uint", push_uint, ONLY(SETS) },
    { "sets_push_float", push_float, ONLY(SETS) },
    { "sets_push_double", push_double, ONLY(SETS) },
    { "sets_push_bytes", push_bytes, ONLY(SETS) },
    { "sets_push_date", push_date, ONLY(SETS) },
    { "sets_push_time", push_time, ONLY(SETS) },
    { "sets_end_set", mysql_session_sets_end_set, ONLY(SETS) },
    { "sets_add", sets_add, ONLY(SETS) },
    { "sets_count", sets_count, ONLY(SETS) },
    { "sets_clear", mysql_session_sets_clear, ONLY(SETS) },
    { "bytes_data", bytes_data, ONLY(BYTES) },
    { "bytes_clear", mysql_session_bytes_clear, ONLY(BYTES) },
    { "send, from", send_from, ONLY(SETS) },
    { "send, to", send_to, ONLY(BYTES) },
    { "bind_text", bind_from, ONLY(SETS) },
    { "value_text", value_from, ONLY(SETS) },
    { "execution_put, from", execution_from, ONLY(SETS) },
    { "execution_put, to", execution_to, ONLY(BYTES) },
    { "digest", digest_to, ONLY(BYTES) },
    { "recoder_feed", recoder_feed, ONLY(RECODER) },
    { "recoder_end", recoder_end, ONLY(RECODER) },
    { "reply_feed", reply_feed, ONLY(REPLY) },
    { "reply_take", mysql_session_reply_take, ONLY(REPLY) },
    { "reply_results", reply_results, ONE_OF(REPLY, ANSWER) },
    { "reply_result", reply_result, ONE_OF(REPLY, ANSWER) },
    { "reply_state", reply_state, ONE_OF(REPLY, ANSWER) },
    { "reply_cell", reply_cell, ONE_OF(REPLY, ANSWER) },
    { "reply_column", reply_column, ONE_OF(REPLY, ANSWER) },
    { "reply_param", reply_param, ONE_OF(REPLY, ANSWER) },
    { "reply_end", reply_end, ONE_OF(REPLY, ANSWER) },
    { "writer_ok", writer_ok, ONLY(WRITER) },
    { "writer_error", writer_error, ONLY(WRITER) },
    { "writer_column", writer_column, ONLY(WRITER) },
    { "writer_rows", writer_rows, ONLY(WRITER) },
    { "writer_row", writer_row, ONLY(WRITER) },
    { "writer_end_rows", writer_end_rows, ONLY(WRITER) },
    { "writer_prepared", writer_prepared, ONLY(WRITER) },
    { "writer_end", writer_end, ONLY(WRITER) },
    { "packets_feed", packets_feed, ONLY(PACKETS) },
    { "packets_payload", packets_payload, ONLY(PACKETS) },
    { "packets_restart", mysql_session_packets_restart, ONLY(PACKETS) },
    { "packet_put", packet_put, ONLY(BYTES) },
    { "greeting_put", greeting_put, ONLY(BYTES) },
    { "login_put", login_put, ONLY(BYTES) },
    { "register_replica_put", register_put, ONLY(BYTES) },
    { "binlog_dump_put", dump_put, ONLY(BYTES) },
    { "binlog_dump_gtid_put", dump_gtid_put, ONLY(BYTES) },
};
#define CALLS (sizeof calls / sizeof calls[0])

/* Every call on every other handle. The object stays: a later call of its kind still works. */
static void other_kinds(void)
{
    size_t call, kind;
    for (call = 0; call < CALLS; call++) {
        for (kind = 0; kind < KINDS; kind++) {
            void *before = handles[kind].at;
            if (calls[call].kinds & ONLY(kind))
                continue;
            check_note(calls[call].name, kind);
            CHECK_CODE(calls[call].call(&handles[kind]), kind == NOTHING
                       ? MYSQL_SESSION_EMPTY_HANDLE : MYSQL_SESSION_OTHER_KIND);
            CHECK((before == NULL) == (handles[kind].at == NULL));
        }
    }
    check_note("", 0);
}

/* What each handle stands for is still of its kind, and nothing was put into it. */
static void all_stand(void)
{
    CHECK_DONE(receiver_feed(&handles[RECEIVER]));
    CHECK_DONE(receiver_end(&handles[AUDIT]));
    CHECK_NUMBER(end_found.kind, MYSQL_SESSION_END_WHOLE);
    CHECK_DONE(sets_count(&handles[SETS]));
    CHECK_NUMBER(count, 0);
    CHECK_DONE(bytes_data(&handles[BYTES]));
    CHECK_NUMBER(count, 0);
    CHECK_DONE(recoder_feed(&handles[RECODER]));
    CHECK_DONE(reply_feed(&handles[REPLY]));
    CHECK_DONE(reply_end(&handles[ANSWER]));
    CHECK_CODE(writer_end(&handles[WRITER]), MYSQL_SESSION_WRITE_NO_RESULTS);
    CHECK_DONE(packets_feed(&handles[PACKETS]));
}

/* Calls with two handles, of which the second isn't of its kind. */
static void second_handles(void)
{
    mysql_session_connection connection = MYSQL_SESSION_NOTHING;
    mysql_session_event event;
    size_t kind;
    memset(&event, 0, sizeof event);
    CHECK_DONE(mysql_session_connection_after_login(&connection, 0x200, 0, 1000, 1000, 4000));
    CHECK_DONE(push_int(&handles[SETS]));
    CHECK_DONE(mysql_session_sets_end_set(&handles[SETS]));
    for (kind = 0; kind < KINDS; kind++) {
        uint32_t wanted = kind == NOTHING ? MYSQL_SESSION_EMPTY_HANDLE : MYSQL_SESSION_OTHER_KIND;
        mysql_session_handle *out = &handles[kind];
        check_note(names[kind], 0);
        if (kind == BYTES)
            continue;
        CHECK_CODE(mysql_session_connection_put(&connection, 0, some, LEN, out, &event), wanted);
        CHECK_CODE(mysql_session_connection_put_packets(&connection, 0, some, LEN, out, &used),
                   wanted);
        CHECK_CODE(mysql_session_connection_put_sets(&connection, 1, 1, some, LEN, out, &used),
                   wanted);
        if (kind != SETS) {
            CHECK_CODE(mysql_session_bind_text(&handles[SETS], 0, some, LEN, 0, out, &place),
                       wanted);
            CHECK_CODE(mysql_session_value_text(&handles[SETS], 0, 0, 0, out), wanted);
        }
        if (kind != RECODER) {
            CHECK_CODE(mysql_session_recoder_feed(&handles[RECODER], some, 0, out, &stop), wanted);
            CHECK_CODE(mysql_session_recoder_end(&handles[RECODER], out, &stop), wanted);
        }
        if (kind != WRITER)
            CHECK_CODE(mysql_session_writer_ok(&handles[WRITER], 0, 0, 2, 0, some, 0, false, out,
                                               &spot), wanted);
    }
    check_note("", 0);
    CHECK_DONE(mysql_session_connection_put(&connection, 0, some, LEN, &good_out, &event));
    CHECK_DONE(mysql_session_bytes_clear(&good_out));
    mysql_session_connection_free(&connection);
    CHECK_CODE(writer_end(&handles[WRITER]), MYSQL_SESSION_WRITE_NO_RESULTS);
    CHECK_DONE(recoder_feed(&handles[RECODER]));
    CHECK_DONE(bytes_data(&good_out));
    CHECK_NUMBER(count, 0);
}

/* What a handle stands for is freed by each call that makes it stand for something else. */
static void replaced(void)
{
    mysql_session_handle handle = MYSQL_SESSION_NOTHING;
    int times;
    for (times = 0; times < 2; times++) {
        CHECK_DONE(mysql_session_receiver_new(&handle, some, LEN, 1, 1000, 0));
        CHECK_DONE(mysql_session_sets_new(&handle));
        CHECK_DONE(push_bytes(&handle));
        CHECK_DONE(mysql_session_sets_end_set(&handle));
        CHECK_DONE(push_bytes(&handle));
        CHECK_DONE(mysql_session_bytes_new(&handle));
        CHECK_DONE(packet_put(&handle));
        CHECK_DONE(mysql_session_recoder_new(&handle, some, LEN, 1, 1000, 0));
        CHECK_DONE(mysql_session_reply_new(&handle, 0, 0x200, 1, 1000));
        CHECK_DONE(mysql_session_reply_feed(&handle, some, 2));
        CHECK_DONE(mysql_session_writer_new(&handle, 0, 0x200, 1, 1000));
        CHECK_DONE(writer_column(&handle));
        CHECK_DONE(mysql_session_packets_new(&handle, 0, 1000));
    }
    mysql_session_free(&handle);
}

static void after_free(void)
{
    size_t call, kind;
    mysql_session_free(&good_sets);
    mysql_session_free(&good_out);
    for (kind = 0; kind < KINDS; kind++) {
        mysql_session_free(&handles[kind]);
        CHECK(handles[kind].at == NULL);
        mysql_session_free(&handles[kind]);
    }
    for (call = 0; call < CALLS; call++) {
        check_note(calls[call].name, 0);
        CHECK_CODE(calls[call].call(&handles[SETS]), MYSQL_SESSION_EMPTY_HANDLE);
    }
    check_note("", 0);
}

/* The first and the last code of each range of codes. */
static const uint32_t ranges[][2] = {
    { MYSQL_SESSION_OK, MYSQL_SESSION_NO_SUCH_MODE },
    { MYSQL_SESSION_FAULT_TOO_LARGE, MYSQL_SESSION_FAULT_PIECES_BEFORE_BULK },
    { MYSQL_SESSION_REFUSED_NOT_ALONE, MYSQL_SESSION_REFUSED_ROW_TOO_LARGE },
    { MYSQL_SESSION_REPLY_TOO_LARGE, MYSQL_SESSION_REPLY_AFTER_END },
    { MYSQL_SESSION_WRITE_NO_RESULTS, MYSQL_SESSION_WRITE_PACKET_TOO_LARGE },
    { MYSQL_SESSION_CONNECTION_CLOSED, MYSQL_SESSION_CONNECTION_HELD },
    { MYSQL_SESSION_CONNECTION_TOO_LARGE, MYSQL_SESSION_CONNECTION_WRONG_COUNT },
};
#define RANGES (sizeof ranges / sizeof ranges[0])

static int is_code(uint32_t code)
{
    size_t at;
    for (at = 0; at < RANGES; at++) {
        if (code >= ranges[at][0] && code <= ranges[at][1])
            return 1;
    }
    return 0;
}

/* Each text is printable, ends in a NUL byte, and is that of no code before it. */
static void texts(void)
{
    static const uint8_t *seen[1000];
    static const char none[] = "no such code";
    const uint8_t *said = NULL;
    size_t len = 0, before = 0, at;
    uint32_t code;
    for (code = 0; code < 1000; code++) {
        mysql_session_code_text(code, &said, &len);
        check_note("code", code);
        CHECK(len != 0 && strlen((const char *)said) == len);
        CHECK(is_code(code) == (strcmp((const char *)said, none) != 0));
        for (at = 0; at < len; at++)
            CHECK(said[at] >= 0x20 && said[at] < 0x7f);
        for (at = 0; at < before; at++)
            CHECK(strcmp((const char *)said, (const char *)seen[at]) != 0 || !is_code(code));
        if (is_code(code))
            seen[before++] = said;
    }
    mysql_session_code_text(UINT32_MAX, &said, &len);
    CHECK_TEXT(said, len, none);
    check_note("", 0);
}

int main(void)
{
    CHECK_NUMBER(mysql_session_abi(), MYSQL_SESSION_ABI);
    CHECK(mysql_session_build() <= 1);
    mysql_session_version(&data, &count);
    CHECK_TEXT(data, count, MYSQL_SESSION_VERSION);
    parameter.kind = MYSQL_SESSION_INT;
    make_all();
    other_kinds();
    all_stand();
    second_handles();
    replaced();
    after_free();
    texts();
    return check_end("misuse");
}
