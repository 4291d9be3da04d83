/* Each allocation in turn is refused: a call that builds answers MEMORY and has changed nothing, so
 * that the same call then does what it would have done; a reader answers it from then on. */
#include "shown.h"

/* Each of the loops below runs once with all memory, and then once for each allocation, up to one
 * that wasn't made. */
#define QUERY "INSERT INTO t VALUES (?, ?)"
#define LIMIT 65536

/* Makes a call, and makes it again where memory was refused. */
#define AGAIN(call) \
    do { \
        uint32_t code_found = (call); \
        if (code_found == MYSQL_SESSION_MEMORY && was_refused()) \
            code_found = (call); \
        CHECK_DONE(code_found); \
    } while (0)

static mysql_session_handle out, sets, made;

static void copy_out(stream *to)
{
    const uint8_t *data = NULL;
    size_t len = 0;
    CHECK_DONE(mysql_session_bytes_data(&out, &data, &len));
    to->len = 0;
    if (CHECK(len <= STREAM_ROOM)) {
        memcpy(to->bytes, data, len);
        to->len = len;
    }
}

/* Sets of each kind of call, by each road and as text. */
static void send_sets(void)
{
    mysql_session_parameter values[2];
    mysql_session_place place = { 0, 0 };
    uint32_t road;
    memset(values, 0, sizeof values);
    values[0].kind = MYSQL_SESSION_INT;
    values[1].kind = MYSQL_SESSION_BYTES;
    values[1].len = 3;
    AGAIN(mysql_session_sets_push_int(&sets, 7));
    AGAIN(mysql_session_sets_push_bytes(&sets, bytes_of("it's"), 4));
    AGAIN(mysql_session_sets_end_set(&sets));
    AGAIN(mysql_session_sets_add(&sets, values, 2, bytes_of("abc"), 3));
    for (road = MYSQL_SESSION_TEXT; road <= MYSQL_SESSION_BULK; road++)
        AGAIN(mysql_session_send(&sets, bytes_of(QUERY), strlen(QUERY), road, 1, LIMIT, 0, &out,
                                 &place));
    AGAIN(mysql_session_bind_text(&sets, 1, bytes_of(QUERY), strlen(QUERY), 0, &out, &place));
    AGAIN(mysql_session_value_text(&sets, 0, 1, 0, &out));
    AGAIN(mysql_session_execution_put(&sets, 0, 1, &out));
    AGAIN(mysql_session_digest(bytes_of(QUERY), strlen(QUERY), 0, &out));
}

static void put_columns(void)
{
    AGAIN(mysql_session_writer_column(&made, 8, bytes_of("a"), 1, 0, 63, 1, 0));
    AGAIN(mysql_session_writer_column(&made, 0xfd, bytes_of("b"), 1, 0, 45, 1, 0));
}

/* The columns are used up whatever the answer is. */
static uint32_t begin_rows(mysql_session_spot *spot)
{
    put_columns();
    return mysql_session_writer_rows(&made, &out, spot);
}

static uint32_t put_prepared(mysql_session_spot *spot)
{
    put_columns();
    return mysql_session_writer_prepared(&made, 7, 1, 0, &out, spot);
}

/* Rows, and a prepared statement behind them by another writer. */
static void write_replies(void)
{
    mysql_session_spot spot = { 0, 0, 0, 0 };
    AGAIN(mysql_session_writer_new(&made, MYSQL_SESSION_REPLY_TO_QUERY, PROTOCOL_41, 1, LIMIT));
    AGAIN(begin_rows(&spot));
    AGAIN(mysql_session_writer_row(&made, &sets, 0, &out, &spot));
    AGAIN(mysql_session_writer_row(&made, &sets, 1, &out, &spot));
    AGAIN(mysql_session_writer_end_rows(&made, 2, 0, true, &out, &spot));
    AGAIN(mysql_session_writer_ok(&made, 1, 2, 2, 0, bytes_of(""), 0, true, &out, &spot));
    AGAIN(mysql_session_writer_error(&made, 1, bytes_of("HY000"), 5, bytes_of("end"), 3, &out,
                                     &spot));
    AGAIN(mysql_session_writer_new(&made, MYSQL_SESSION_REPLY_TO_PREPARE, PROTOCOL_41, 1, LIMIT));
    AGAIN(put_prepared(&spot));
}

/* The packets of a login and of a replica, framed. */
static void put_packets(void)
{
    uint8_t number = 0;
    AGAIN(mysql_session_greeting_put(&out, 1, PROTOCOL_41, 0, 45, 2, bytes_of("8.0"), 3,
                                     bytes_of("abcdefgh"), 8, bytes_of("ijklmnopqrst"), 12,
                                     bytes_of("mysql_native_password"), 21));
    AGAIN(mysql_session_login_put(&out, PROTOCOL_41 | 0x8000, 4, LIMIT, bytes_of("root"), 4,
                                  bytes_of(""), 0, bytes_of("test"), 4, bytes_of("other"), 5));
    AGAIN(mysql_session_register_replica_put(&out, 7, bytes_of("h"), 1, bytes_of("u"), 1,
                                             bytes_of(""), 0, 1));
    AGAIN(mysql_session_binlog_dump_put(&out, 7, 4, 0, bytes_of("bin.1"), 5));
    AGAIN(mysql_session_binlog_dump_gtid_put(
        &out, 7, 4, 0, bytes_of("bin.1"), 5,
        bytes_of("3e11fa47-71ca-11e1-9e33-c80aa9429562:1-5:7"), 42));
    AGAIN(mysql_session_packet_put(&out, bytes_of("payload"), 7, &number, LIMIT));
    CHECK_NUMBER(number, 1);
}

/* What is written where one allocation is refused is what is written where none is. */
static void building(void)
{
    static stream wanted, found;
    unsigned long refused;
    wanted.len = 0;
    for (refused = 0; refused < 2 || was_refused(); refused++) {
        check_note("building", (size_t)refused);
        refuse_memory(refused);
        AGAIN(mysql_session_sets_new(&sets));
        AGAIN(mysql_session_bytes_new(&out));
        send_sets();
        write_replies();
        put_packets();
        copy_out(refused == 0 ? &wanted : &found);
        if (refused != 0)
            CHECK_BYTES(found.bytes, found.len, wanted.bytes, wanted.len);
        mysql_session_free(&made);
        mysql_session_free(&sets);
        mysql_session_free(&out);
    }
    CHECK(refused > 50);
    refuse_memory(0);
    check_note("", 0);
}

/* Feeds a stream to an object byte by byte. Where memory is refused the object answers so from then
 * on. Answers whether it was. */
static int feed(uint32_t (*call)(const uint8_t *, size_t), const stream *whole)
{
    size_t fed;
    for (fed = 0; fed < whole->len; fed++) {
        uint32_t code = call(whole->bytes + fed, 1);
        if (code != MYSQL_SESSION_OK) {
            CHECK_CODE(code, MYSQL_SESSION_MEMORY);
            CHECK(was_refused());
            CHECK_CODE(call(whole->bytes + fed, 1), MYSQL_SESSION_MEMORY);
            CHECK_CODE(call(whole->bytes + fed, 0), MYSQL_SESSION_MEMORY);
            return 1;
        }
    }
    return 0;
}

static uint32_t feed_receiver(const uint8_t *piece, size_t len)
{
    return mysql_session_receiver_feed(&made, piece, len);
}

static uint32_t feed_recoder(const uint8_t *piece, size_t len)
{
    mysql_session_stop stop = { 0, 0, 0, 0 };
    return mysql_session_recoder_feed(&made, piece, len, &out, &stop);
}

static uint32_t feed_reply(const uint8_t *piece, size_t len)
{
    return mysql_session_reply_feed(&made, piece, len);
}

static uint32_t feed_packets(const uint8_t *piece, size_t len)
{
    size_t used = 0;
    bool whole = false;
    return mysql_session_packets_feed(&made, piece, len, &used, &whole);
}

#define COMMANDS \
    "1f 00 00 00 03 |INSERT INTO t VALUES (1, 'it')| " \
    "1c 00 00 00 16 |INSERT INTO t VALUES (?, ?)| " \
    "08 00 00 00 18 01 00 00 00 01 00 |x| " \
    "18 00 00 00 17 01 00 00 00 00 01 00 00 00 00 01 08 00 fd 00 07 00 00 00 00 00 00 00"

static void receivers(void)
{
    stream whole = stream_of(COMMANDS);
    mysql_session_end end = { 0, 0, 0 };
    size_t found = 0;
    unsigned long refused;
    for (refused = 0; refused < 2 || was_refused(); refused++) {
        int faulty;
        check_note("receivers", (size_t)refused);
        refuse_memory(refused);
        AGAIN(mysql_session_receiver_new(&made, bytes_of(QUERY), strlen(QUERY), 1, LIMIT, 0));
        faulty = feed(feed_receiver, &whole);
        CHECK_DONE(mysql_session_receiver_end(&made, &end));
        CHECK_NUMBER(end.kind, faulty ? MYSQL_SESSION_END_FAULT : MYSQL_SESSION_END_WHOLE);
        CHECK_DONE(mysql_session_receiver_sets(&made, &found));
        CHECK(found == 2 || (faulty && found < 2));
        mysql_session_free(&made);
    }
    refuse_memory(0);
    CHECK(refused > 5);
}

/* The end of a recoder is refused as a feed is. */
static void recoders(void)
{
    stream whole = stream_of(COMMANDS);
    unsigned long refused;
    CHECK_DONE(mysql_session_bytes_new(&out));
    for (refused = 0; refused < 2 || was_refused(); refused++) {
        mysql_session_stop stop = { 0, 0, 0, 0 };
        uint32_t code;
        int faulty;
        check_note("recoders", (size_t)refused);
        CHECK_DONE(mysql_session_bytes_clear(&out));
        refuse_memory(refused);
        AGAIN(mysql_session_recoder_new(&made, bytes_of(QUERY), strlen(QUERY), 1, LIMIT, 0));
        faulty = feed(feed_recoder, &whole);
        code = mysql_session_recoder_end(&made, &out, &stop);
        CHECK_CODE(code, faulty ? MYSQL_SESSION_MEMORY : MYSQL_SESSION_OK);
        CHECK(made.at == NULL);
    }
    refuse_memory(0);
    mysql_session_free(&out);
    CHECK(refused > 5);
}

#define REPLY \
    "01 00 00 01 01 " \
    "17 00 00 02 03 |def| 00 00 00 01 |a| 00 0c 3f 00 01 00 00 00 fd 00 00 00 00 00 " \
    "05 00 00 03 fe 00 00 02 00 03 00 00 04 02 |ab| 01 00 00 05 fb 05 00 00 06 fe 00 00 02 00"

static void replies(void)
{
    stream whole = stream_of(REPLY);
    mysql_session_end end = { 0, 0, 0 };
    unsigned long refused;
    text shown;
    for (refused = 0; refused < 2 || was_refused(); refused++) {
        int faulty;
        check_note("replies", (size_t)refused);
        text_clear(&shown);
        refuse_memory(refused);
        AGAIN(mysql_session_reply_new(&made, MYSQL_SESSION_REPLY_TO_QUERY, PROTOCOL_41, 1, LIMIT));
        faulty = feed(feed_reply, &whole);
        CHECK_DONE(mysql_session_reply_end(&made, &end));
        CHECK_NUMBER(end.kind, faulty ? MYSQL_SESSION_END_FAULT : MYSQL_SESSION_END_WHOLE);
        add_results(&shown, &made);
        if (!faulty)
            CHECK_WRITTEN(&shown, "row |ab|; row null; ");
        mysql_session_free(&made);
    }
    refuse_memory(0);
    CHECK(refused > 5);
}

static void packets(void)
{
    stream whole = stream_of("03 00 00 00 |abc| 03 00 00 01 |def|");
    unsigned long refused;
    for (refused = 0; refused < 2 || was_refused(); refused++) {
        check_note("packets", (size_t)refused);
        refuse_memory(refused);
        AGAIN(mysql_session_packets_new(&made, 0, LIMIT));
        feed(feed_packets, &whole);
        mysql_session_free(&made);
    }
    refuse_memory(0);
    CHECK(refused > 1);
}

int main(void)
{
    building();
    receivers();
    recoders();
    replies();
    packets();
    return check_end("memory");
}
