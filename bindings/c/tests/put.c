/* Payloads and packets that are put on a connection: a client, a server and an auditor between them
 * say a script of payloads, and print the same lines. */
#include "check.h"

#define LIMIT ((size_t)1 << 16)

/* A side of a script, and a payload of it. */
typedef struct line {
    uint32_t side;
    const char *payload;
    const char *said;
} line;

static const line script[] = {
    { MYSQL_SESSION_SERVER,
      "0a |5.5.5| 00 01 00 00 00 |12345678| 00 00 82 21 02 00 00 00 15 "
      "00 00 00 00 00 00 00 00 00 00 |123456789012| 00",
      NULL },
    { MYSQL_SESSION_CLIENT,
      "00 82 00 00 00 00 00 01 21 "
      "00 00 00 00 00 00 00 00 00 00 00 00 00 00 00 00 00 00 00 00 00 00 00 |u| 00 00",
      NULL },
    { MYSQL_SESSION_SERVER, "00 00 00 02 00 00 00", NULL },
    { MYSQL_SESSION_CLIENT, "03 |SELECT 1|", "client Query" },
    { MYSQL_SESSION_SERVER, "01", NULL },
    { MYSQL_SESSION_SERVER, "03 |def| 00 00 00 01 |1| 00 0c 3f 00 00 00 00 00 fd 80 00 00 00 00",
      NULL },
    { MYSQL_SESSION_SERVER, "fe 00 00 02 00", NULL },
    { MYSQL_SESSION_SERVER, "01 |1|", NULL },
    { MYSQL_SESSION_SERVER, "fe 00 00 02 00", NULL },
    { MYSQL_SESSION_CLIENT, "16 |SELECT ?|", NULL },
    { MYSQL_SESSION_SERVER, "00 01 00 00 00 00 00 01 00 00 00 00", NULL },
    { MYSQL_SESSION_SERVER, "03 |def| 00 00 00 01 3f 00 0c 3f 00 00 00 00 00 fd 80 00 00 00 00",
      NULL },
    { MYSQL_SESSION_SERVER, "fe 00 00 02 00", NULL },
    { MYSQL_SESSION_CLIENT, "18 01 00 00 00 00 00 |abc|", NULL },
    { MYSQL_SESSION_CLIENT, "17 01 00 00 00 00 01 00 00 00 00 01 fd 00", NULL },
    { MYSQL_SESSION_SERVER, "00 00 00 02 00 00 00", NULL },
    { MYSQL_SESSION_CLIENT, "01", "client Quit" },
};
#define LINES (sizeof script / sizeof script[0])

static mysql_session_connection client, server, auditor;
static mysql_session_handle out;
static mysql_session_event event;

static const uint8_t *written(size_t *len)
{
    const uint8_t *data = NULL;
    CHECK_DONE(mysql_session_bytes_data(&out, &data, len));
    return data;
}

static mysql_session_connection *of_side(uint32_t side)
{
    return side == MYSQL_SESSION_CLIENT ? &client : &server;
}

/* The line of the event that was told last, once more where memory was refused. */
static void line_of(mysql_session_connection *connection, text *to)
{
    const uint8_t *said = NULL;
    size_t len = 0;
    uint32_t code = mysql_session_connection_line_with_secrets(connection, &said, &len);
    if (code == MYSQL_SESSION_MEMORY && was_refused())
        code = mysql_session_connection_line_with_secrets(connection, &said, &len);
    text_clear(to);
    if (CHECK_DONE(code))
        text_add_bytes(to, said, len);
}

static uint32_t put(mysql_session_connection *connection, uint32_t side, const char *payload)
{
    stream bytes = stream_of(payload);
    return mysql_session_connection_put(connection, side, bytes.bytes, bytes.len, &out, &event);
}

/* Another connection is fed what was put, and has to say the same. */
static void hears(mysql_session_connection *other, uint32_t side, uint32_t kind, const text *said)
{
    static text heard;
    size_t len = 0;
    const uint8_t *bytes = written(&len);
    CHECK_DONE(mysql_session_connection_feed(other, side, bytes, len));
    CHECK_DONE(mysql_session_connection_next(other, &event));
    CHECK_NUMBER(event.kind, kind);
    CHECK_NUMBER(event.side, side);
    line_of(other, &heard);
    CHECK_WRITTEN(&heard, said->characters);
}

static void make_all(void)
{
    CHECK_DONE(mysql_session_connection_new(&client, LIMIT, LIMIT, 4 * LIMIT));
    CHECK_DONE(mysql_session_connection_new(&server, LIMIT, LIMIT, 4 * LIMIT));
    CHECK_DONE(mysql_session_connection_new(&auditor, LIMIT, LIMIT, 4 * LIMIT));
    CHECK_DONE(mysql_session_bytes_new(&out));
}

static void free_all(void)
{
    mysql_session_connection_free(&client);
    mysql_session_connection_free(&server);
    mysql_session_connection_free(&auditor);
    mysql_session_free(&out);
}

/* Each payload is put by its side, and heard by the other one and by the auditor. Before it the
 * other side's is refused, and nothing changes. */
static void three_agree(void)
{
    static text said, again;
    size_t number, len = 0;
    make_all();
    for (number = 0; number < LINES; number++) {
        const line *it = &script[number];
        uint32_t other = 1 - it->side, kind;
        check_note("script", number);
        CHECK_DONE(mysql_session_bytes_clear(&out));
        CHECK_CODE(put(of_side(it->side), other, it->payload),
                   MYSQL_SESSION_CONNECTION_NOT_ITS_TURN);
        written(&len);
        CHECK_NUMBER(len, 0);
        CHECK_DONE(put(of_side(it->side), it->side, it->payload));
        CHECK_NUMBER(event.side, it->side);
        kind = event.kind;
        line_of(of_side(it->side), &said);
        if (it->said != NULL)
            CHECK(strncmp(said.characters + 1, it->said, strlen(it->said)) == 0);
        hears(of_side(other), it->side, kind, &said);
        hears(&auditor, it->side, kind, &said);
        /* The event that was told last stays where a payload is refused. */
        CHECK_CODE(put(of_side(it->side), 2, it->payload), MYSQL_SESSION_NO_SUCH_KIND);
        line_of(of_side(it->side), &again);
        CHECK_WRITTEN(&again, said.characters);
    }
    CHECK_CODE(put(&client, MYSQL_SESSION_CLIENT, "01"), MYSQL_SESSION_CONNECTION_NOT_ITS_TURN);
    check_note("", 0);
    free_all();
}

/* ---- Behind a login that was made elsewhere ------------------------------------------------- */

static void logged_in(size_t held)
{
    CHECK_DONE(mysql_session_connection_after_login(&client, 0x200, 0, 10, 1000, held));
    CHECK_DONE(mysql_session_bytes_new(&out));
}

static void refusals(void)
{
    mysql_session_connection none = MYSQL_SESSION_NOTHING;
    mysql_session_handle nothing = MYSQL_SESSION_NOTHING, sets = MYSQL_SESSION_NOTHING;
    stream ping = stream_of("0e");
    logged_in(1100);
    CHECK_DONE(mysql_session_sets_new(&sets));
    CHECK_CODE(put(&client, MYSQL_SESSION_SERVER, "00"), MYSQL_SESSION_CONNECTION_NOT_ITS_TURN);
    CHECK_CODE(put(&client, 2, "0e"), MYSQL_SESSION_NO_SUCH_KIND);
    CHECK_CODE(put(&none, 0, "0e"), MYSQL_SESSION_EMPTY_HANDLE);
    CHECK_CODE(mysql_session_connection_put(&client, 0, ping.bytes, ping.len, &nothing, &event),
               MYSQL_SESSION_EMPTY_HANDLE);
    CHECK_CODE(mysql_session_connection_put(&client, 0, ping.bytes, ping.len, &sets, &event),
               MYSQL_SESSION_OTHER_KIND);
    CHECK_CODE(put(&client, MYSQL_SESSION_CLIENT, "03 |0123456789|"),
               MYSQL_SESSION_CONNECTION_TOO_LARGE);
    CHECK_DONE(put(&client, MYSQL_SESSION_CLIENT, "03 |a|"));
    CHECK_CODE(put(&client, MYSQL_SESSION_CLIENT, "03 |a|"),
               MYSQL_SESSION_CONNECTION_NOT_ITS_TURN);
    CHECK_CODE(put(&client, MYSQL_SESSION_SERVER, "fe 00"), MYSQL_SESSION_REPLY_BAD_COUNT);
    CHECK_DONE(put(&client, MYSQL_SESSION_SERVER, "00 00 00 02 00 00 00"));
    CHECK_STREAM(&out, "02 00 00 00 03 |a| 07 00 00 01 00 00 00 02 00 00 00");
    CHECK_DONE(mysql_session_connection_feed(&client, MYSQL_SESSION_CLIENT, ping.bytes, 1));
    CHECK_CODE(put(&client, MYSQL_SESSION_CLIENT, "0e"), MYSQL_SESSION_CONNECTION_NOT_ITS_TURN);
    mysql_session_connection_free(&client);
    /* A statement's text has no room. */
    logged_in(0);
    CHECK_CODE(put(&client, MYSQL_SESSION_CLIENT, "16 |?|"), MYSQL_SESSION_CONNECTION_KEPT);
    CHECK_STREAM(&out, "");
    mysql_session_connection_free(&client);
    mysql_session_free(&out);
    mysql_session_free(&sets);
}

static uint32_t put_all(uint32_t side, const char *packets, size_t *used)
{
    stream bytes = stream_of(packets);
    return mysql_session_connection_put_packets(&client, side, bytes.bytes, bytes.len, &out, used);
}

/* Packets are put while they are due, whatever their numbers are. */
static void packets(void)
{
    mysql_session_connection none = MYSQL_SESSION_NOTHING;
    stream ping = stream_of("01 00 00 00 0e");
    mysql_session_handle nothing = MYSQL_SESSION_NOTHING;
    size_t used = 99;
    logged_in(4000);
    CHECK_CODE(put_all(2, "01 00 00 00 0e", &used), MYSQL_SESSION_NO_SUCH_KIND);
    CHECK_CODE(mysql_session_connection_put_packets(&none, 0, ping.bytes, ping.len, &out, &used),
               MYSQL_SESSION_EMPTY_HANDLE);
    CHECK_CODE(mysql_session_connection_put_packets(&client, 0, ping.bytes, ping.len, &nothing,
                                                    &used),
               MYSQL_SESSION_EMPTY_HANDLE);
    CHECK_NUMBER(used, 99);
    CHECK_DONE(put_all(MYSQL_SESSION_SERVER, "01 00 00 00 0e", &used));
    CHECK_NUMBER(used, 0);
    /* Two closes, a ping and what waits for its reply. */
    CHECK_DONE(put_all(MYSQL_SESSION_CLIENT,
                       "05 00 00 00 19 01 00 00 00 05 00 00 07 19 02 00 00 00 01 00 00 00 0e "
                       "01 00 00 00 0e",
                       &used));
    CHECK_NUMBER(used, 23);
    CHECK_STREAM(&out, "05 00 00 00 19 01 00 00 00 05 00 00 00 19 02 00 00 00 01 00 00 00 0e");
    CHECK_DONE(mysql_session_bytes_clear(&out));
    CHECK_DONE(put_all(MYSQL_SESSION_SERVER, "07 00 00 00 00 00 00 02 00 00 00 01 00", &used));
    CHECK_NUMBER(used, 11);
    CHECK_STREAM(&out, "07 00 00 01 00 00 00 02 00 00 00");
    /* The one that is refused, behind those that were put. */
    CHECK_DONE(mysql_session_bytes_clear(&out));
    CHECK_CODE(put_all(MYSQL_SESSION_CLIENT,
                       "05 00 00 00 19 01 00 00 00 0b 00 00 00 03 |0123456789|", &used),
               MYSQL_SESSION_CONNECTION_TOO_LARGE);
    CHECK_NUMBER(used, 9);
    CHECK_STREAM(&out, "05 00 00 00 19 01 00 00 00");
    CHECK_DONE(mysql_session_bytes_clear(&out));
    CHECK_DONE(put_all(MYSQL_SESSION_CLIENT, "02 00 00 00 03 |a|", &used));
    CHECK_CODE(put_all(MYSQL_SESSION_SERVER, "02 00 00 01 fe 00", &used),
               MYSQL_SESSION_REPLY_BAD_COUNT);
    CHECK_NUMBER(used, 0);
    CHECK_STREAM(&out, "02 00 00 00 03 |a|");
    mysql_session_connection_free(&client);
    mysql_session_free(&out);
}

static uint32_t put_sets(size_t places, const char *packets, size_t *used)
{
    stream bytes = stream_of(packets);
    return mysql_session_connection_put_sets(&client, 1, places, bytes.bytes, bytes.len, &out,
                                             used);
}

/* Executions of another number of values than the server counted parameters are refused. */
static void sets_of_a_query(void)
{
    /* One text of 12 bytes, which two parameters read to its end, as a text and a date. */
    static const char execution[] =
        "1b 00 00 00 17 01 00 00 00 00 01 00 00 00 00 01 fd 00 0c 00 05 |abcde| 04 e8 07 02 1d";
    static const char query[] = "DELETE FROM t WHERE id = ? AND s = '?' /* ? */";
    static const char column[] = "03 |def| 00 00 00 01 |?| 00 0c 3f 00 00 00 00 00 fd 80 00 00 00 00";
    mysql_session_connection none = MYSQL_SESSION_NOTHING;
    mysql_session_handle nothing = MYSQL_SESSION_NOTHING;
    stream one = stream_of(execution);
    size_t used = 99, places = 99;
    CHECK_DONE(mysql_session_place_count((const uint8_t *)query, sizeof query - 1, 0, &places));
    CHECK_NUMBER(places, 1);
    CHECK_CODE(mysql_session_place_count((const uint8_t *)"? :a", 4, 0, &places),
               MYSQL_SESSION_MIXED);
    CHECK_CODE(mysql_session_place_count((const uint8_t *)"?", 1, 8, &places),
               MYSQL_SESSION_NO_SUCH_MODE);
    CHECK_NUMBER(places, 1);
    CHECK_DONE(mysql_session_connection_after_login(&client, 0x200, 0, 1000, 1000, 4000));
    CHECK_DONE(mysql_session_bytes_new(&out));
    CHECK_CODE(mysql_session_connection_put_sets(&none, 1, 1, one.bytes, one.len, &out, &used),
               MYSQL_SESSION_EMPTY_HANDLE);
    CHECK_CODE(mysql_session_connection_put_sets(&client, 1, 1, one.bytes, one.len, &nothing,
                                                 &used),
               MYSQL_SESSION_EMPTY_HANDLE);
    CHECK_NUMBER(used, 99);
    CHECK_CODE(put_sets(1, execution, &used), MYSQL_SESSION_CONNECTION_UNKNOWN_STATEMENT);
    CHECK_NUMBER(used, 0);
    CHECK_DONE(put(&client, MYSQL_SESSION_CLIENT, "16 |?, ?|"));
    CHECK_CODE(put_sets(2, execution, &used), MYSQL_SESSION_CONNECTION_UNKNOWN_STATEMENT);
    CHECK_DONE(put(&client, MYSQL_SESSION_SERVER, "00 01 00 00 00 00 00 02 00 00 00 00"));
    CHECK_DONE(put(&client, MYSQL_SESSION_SERVER, column));
    CHECK_DONE(put(&client, MYSQL_SESSION_SERVER, column));
    CHECK_DONE(put(&client, MYSQL_SESSION_SERVER, "fe 00 00 02 00"));
    CHECK_DONE(mysql_session_bytes_clear(&out));
    CHECK_CODE(put_sets(1, execution, &used), MYSQL_SESSION_CONNECTION_WRONG_COUNT);
    CHECK_CODE(put_sets(3, execution, &used), MYSQL_SESSION_CONNECTION_WRONG_COUNT);
    CHECK_NUMBER(used, 0);
    CHECK_STREAM(&out, "");
    /* The second execution waits for the reply to the first. */
    CHECK_DONE(put_sets(2,
                        "0c 00 00 00 17 01 00 00 00 00 01 00 00 00 03 00 "
                        "0c 00 00 00 17 01 00 00 00 00 01 00 00 00 03 00",
                        &used));
    CHECK_NUMBER(used, 16);
    CHECK_STREAM(&out, "0c 00 00 00 17 01 00 00 00 00 01 00 00 00 03 00");
    CHECK_DONE(put_sets(2, execution, &used));
    CHECK_NUMBER(used, 0);
    CHECK_CODE(put_sets(1, execution, &used), MYSQL_SESSION_CONNECTION_WRONG_COUNT);
    mysql_session_connection_free(&client);
    mysql_session_free(&out);
}

/* Where memory is refused nothing has changed, so that the same call then puts the payload. */
static void memory(void)
{
    static stream wanted;
    unsigned long refused;
    for (refused = 0; refused < 2 || was_refused(); refused++) {
        size_t number, len = 0;
        const uint8_t *bytes;
        check_note("memory", (size_t)refused);
        make_all();
        refuse_memory(refused);
        for (number = 0; number < LINES; number++) {
            uint32_t code = put(&client, script[number].side, script[number].payload);
            if (code == MYSQL_SESSION_MEMORY && was_refused())
                code = put(&client, script[number].side, script[number].payload);
            CHECK_DONE(code);
        }
        bytes = written(&len);
        if (refused == 0 && CHECK(len <= STREAM_ROOM)) {
            memcpy(wanted.bytes, bytes, len);
            wanted.len = len;
        }
        CHECK_BYTES(bytes, len, wanted.bytes, wanted.len);
        if (refused == 0)
            refuse_memory(0);
        free_all();
    }
    refuse_memory(0);
    CHECK(refused > 40);
    check_note("", 0);
}

int main(void)
{
    three_agree();
    refusals();
    packets();
    sets_of_a_query();
    memory();
    return check_end("put");
}
