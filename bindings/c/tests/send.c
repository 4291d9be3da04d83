/* Sets are sent by each road, byte for byte as the manuals lay them out, and read back. */
#include "check.h"

#define INSERT "INSERT INTO t VALUES (?, ?)"
#define LIMIT 65536

static mysql_session_handle sets, out;

static void begin(void)
{
    CHECK_DONE(mysql_session_sets_new(&sets));
    CHECK_DONE(mysql_session_bytes_new(&out));
}

static void end(void)
{
    mysql_session_free(&sets);
    mysql_session_free(&out);
}

static void push_ints(const int64_t *numbers, size_t count)
{
    size_t i;
    for (i = 0; i < count; i++) {
        CHECK_DONE(mysql_session_sets_push_int(&sets, numbers[i]));
        CHECK_DONE(mysql_session_sets_end_set(&sets));
    }
}

static uint32_t send_by(uint32_t road, const char *query, size_t limit, mysql_session_place *place)
{
    return mysql_session_send(&sets, bytes_of(query), strlen(query), road, 1, limit, 0, &out,
                              place);
}

/* What is appended by each road for one number, and for the sets of an empty list. */
static void bytes_by_road(void)
{
    static const int64_t numbers[] = { 1, 2 };
    mysql_session_place place = { 0, 0 };
    begin();
    CHECK_DONE(send_by(MYSQL_SESSION_TEXT, "SELECT :a", 1000, &place));
    CHECK_STREAM(&out, "");
    CHECK_DONE(send_by(MYSQL_SESSION_EXECUTE, "SELECT :a", 1000, &place));
    CHECK_STREAM(&out, "09 00 00 00 16 |SELECT ?|");
    CHECK_DONE(mysql_session_bytes_clear(&out));
    push_ints(numbers, 2);
    CHECK_DONE(send_by(MYSQL_SESSION_TEXT, "SELECT ?", 1000, &place));
    CHECK_STREAM(&out, "09 00 00 00 03 |SELECT 1| 09 00 00 00 03 |SELECT 2|");
    CHECK_DONE(mysql_session_bytes_clear(&out));
    CHECK_DONE(send_by(MYSQL_SESSION_EXECUTE, "SELECT ?", 1000, &place));
    CHECK_STREAM(&out, "09 00 00 00 16 |SELECT ?| "
                 "16 00 00 00 17 01 00 00 00 00 01 00 00 00 00 01 08 00 01 00 00 00 00 00 00 00 "
                 "16 00 00 00 17 01 00 00 00 00 01 00 00 00 00 01 08 00 02 00 00 00 00 00 00 00");
    CHECK_DONE(mysql_session_bytes_clear(&out));
    CHECK_DONE(send_by(MYSQL_SESSION_BULK, "SELECT ?", 1000, &place));
    CHECK_STREAM(&out, "09 00 00 00 16 |SELECT ?| 1b 00 00 00 fa 01 00 00 00 80 00 08 00 "
                 "00 01 00 00 00 00 00 00 00 00 02 00 00 00 00 00 00 00");
    end();
}

/* A value of each kind but the floats, in one set. */
static void push_each_kind(void)
{
    CHECK_DONE(mysql_session_sets_push_null(&sets));
    CHECK_DONE(mysql_session_sets_push_int(&sets, INT64_MIN));
    CHECK_DONE(mysql_session_sets_push_uint(&sets, UINT64_MAX));
    CHECK_DONE(mysql_session_sets_push_bytes(&sets, bytes_of("it's\0?"), 6));
    CHECK_DONE(mysql_session_sets_push_date(&sets, 2024, 2, 29, 23, 59, 58, 7));
    CHECK_DONE(mysql_session_sets_push_time(&sets, true, 1, 2, 3, 4, 5));
    CHECK_DONE(mysql_session_sets_end_set(&sets));
}

static void check_content(mysql_session_handle *receiver, size_t place, uint32_t kind,
                          int64_t int_value, uint64_t uint_value, const char *bytes, size_t len)
{
    mysql_session_content found = { 0, 0, 0, NULL, 0 };
    CHECK_DONE(mysql_session_receiver_content(receiver, 0, place, &found));
    CHECK_NUMBER(found.kind, kind);
    CHECK(kind != MYSQL_SESSION_INT || found.int_value == int_value);
    CHECK(kind != MYSQL_SESSION_UINT || found.uint_value == uint_value);
    if (kind == MYSQL_SESSION_BYTES)
        CHECK_BYTES(found.bytes, found.len, bytes_of(bytes), len);
}

static void check_each_kind(mysql_session_handle *receiver)
{
    check_content(receiver, 0, MYSQL_SESSION_NULL, 0, 0, "", 0);
    check_content(receiver, 1, MYSQL_SESSION_INT, INT64_MIN, 0, "", 0);
    check_content(receiver, 2, MYSQL_SESSION_UINT, 0, UINT64_MAX, "", 0);
    check_content(receiver, 3, MYSQL_SESSION_BYTES, 0, 0, "it's\0?", 6);
    check_content(receiver, 4, MYSQL_SESSION_BYTES, 0, 0, "2024-02-29 23:59:58.000007", 26);
    check_content(receiver, 5, MYSQL_SESSION_BYTES, 0, 0, "-026:03:04.000005", 17);
}

/* Feeds what was sent to a receiver, byte by byte. */
static void read_back(mysql_session_handle *receiver, const char *query)
{
    mysql_session_end how = { 0, 0, 0 };
    const uint8_t *data = NULL;
    size_t len = 0, fed;
    CHECK_DONE(mysql_session_bytes_data(&out, &data, &len));
    CHECK_DONE(mysql_session_receiver_new(receiver, bytes_of(query), strlen(query), 1, LIMIT, 0));
    for (fed = 0; fed < len; fed++)
        CHECK_DONE(mysql_session_receiver_feed(receiver, data + fed, 1));
    CHECK_DONE(mysql_session_receiver_end(receiver, &how));
    CHECK_NUMBER(how.kind, MYSQL_SESSION_END_WHOLE);
}

static void each_kind_comes_back(void)
{
    static const char query[] = "INSERT INTO t VALUES (?, ?, ?, ?, ?, ?)";
    mysql_session_handle receiver = MYSQL_SESSION_NOTHING;
    mysql_session_place place = { 0, 0 };
    size_t found = 0;
    uint32_t road;
    begin();
    push_each_kind();
    for (road = MYSQL_SESSION_TEXT; road <= MYSQL_SESSION_BULK; road++) {
        CHECK_DONE(mysql_session_bytes_clear(&out));
        CHECK_DONE(send_by(road, query, LIMIT, &place));
        read_back(&receiver, query);
        CHECK_DONE(mysql_session_receiver_sets(&receiver, &found));
        CHECK_NUMBER(found, 1);
        check_each_kind(&receiver);
        mysql_session_free(&receiver);
    }
    end();
}

/* A value that was pushed after the last whole set isn't sent, and the sets stay. */
static void open_values_wait(void)
{
    static const int64_t numbers[] = { 1 };
    mysql_session_place place = { 0, 0 };
    begin();
    push_ints(numbers, 1);
    CHECK_DONE(mysql_session_sets_push_int(&sets, 2));
    CHECK_DONE(send_by(MYSQL_SESSION_TEXT, "SELECT ?", LIMIT, &place));
    CHECK_STREAM(&out, "09 00 00 00 03 |SELECT 1|");
    CHECK_DONE(mysql_session_sets_end_set(&sets));
    CHECK_DONE(send_by(MYSQL_SESSION_TEXT, "SELECT ?", LIMIT, &place));
    CHECK_STREAM(&out, "09 00 00 00 03 |SELECT 1| 09 00 00 00 03 |SELECT 1| "
                 "09 00 00 00 03 |SELECT 2|");
    end();
}

/* A refusal tells its cause and its place, and nothing is appended. */
static void refuse(uint32_t road, const char *query, size_t limit, uint32_t code, size_t set,
                   size_t at)
{
    mysql_session_place place = { 77, 77 };
    check_note(query, 0);
    CHECK_CODE(send_by(road, query, limit, &place), code);
    if (code >= MYSQL_SESSION_REFUSED_NOT_ALONE) {
        CHECK_NUMBER(place.set, set);
        CHECK_NUMBER(place.place, at);
    }
    CHECK_STREAM(&out, "0a");
    check_note("", 0);
}

/* Makes the bytes hold one byte, which a refusal has to leave alone. */
static void put_one_byte(void)
{
    mysql_session_place place = { 0, 0 };
    const uint8_t *data = NULL;
    size_t len = 0;
    CHECK_DONE(mysql_session_sets_end_set(&sets));
    CHECK_DONE(mysql_session_bind_text(&sets, 0, bytes_of("\n"), 1, 0, &out, &place));
    CHECK_DONE(mysql_session_bytes_data(&out, &data, &len));
    CHECK_NUMBER(len, 1);
    CHECK_DONE(mysql_session_sets_clear(&sets));
}

static void refusals(void)
{
    static const int64_t numbers[] = { 1, 10 };
    begin();
    put_one_byte();
    push_ints(numbers, 2);
    refuse(MYSQL_SESSION_TEXT, ":a ?", LIMIT, MYSQL_SESSION_MIXED, 0, 0);
    refuse(3, "SELECT ?", LIMIT, MYSQL_SESSION_NO_SUCH_ROAD, 0, 0);
    refuse(3, ":a ?", 3, MYSQL_SESSION_NO_SUCH_ROAD, 0, 0);
    refuse(UINT32_MAX, "SELECT ?", LIMIT, MYSQL_SESSION_NO_SUCH_ROAD, 0, 0);
    refuse(MYSQL_SESSION_TEXT, "SELECT ?", 3, MYSQL_SESSION_LIMIT_TOO_SMALL, 0, 0);
    refuse(MYSQL_SESSION_TEXT, ":a ?", 3, MYSQL_SESSION_LIMIT_TOO_SMALL, 0, 0);
    refuse(MYSQL_SESSION_TEXT, "SELECT ?, 1-?", LIMIT, MYSQL_SESSION_REFUSED_NOT_ALONE, 0, 1);
    refuse(MYSQL_SESSION_EXECUTE, "SELECT ?", 12, MYSQL_SESSION_REFUSED_PREPARE_TOO_LARGE, 0, 0);
    refuse(MYSQL_SESSION_BULK, "SELECT 1", LIMIT, MYSQL_SESSION_REFUSED_NO_PLACES, 0, 0);
    refuse(MYSQL_SESSION_TEXT, "SELECT :a", LIMIT, MYSQL_SESSION_REFUSED_PARAMS, 0, 0);
    refuse(MYSQL_SESSION_TEXT, "SELECT ?, ?", LIMIT, MYSQL_SESSION_REFUSED_WRONG_COUNT, 0, 0);
    refuse(MYSQL_SESSION_TEXT, "SELECT ?", 13, MYSQL_SESSION_REFUSED_PACKET_TOO_LARGE, 1, 0);
    refuse(MYSQL_SESSION_EXECUTE, "SELECT ?", 25, MYSQL_SESSION_REFUSED_PACKET_TOO_LARGE, 0, 0);
    refuse(MYSQL_SESSION_BULK, "SELECT ?", 21, MYSQL_SESSION_REFUSED_ROW_TOO_LARGE, 0, 0);
    CHECK_DONE(mysql_session_sets_push_uint(&sets, 2));
    CHECK_DONE(mysql_session_sets_end_set(&sets));
    refuse(MYSQL_SESSION_BULK, "SELECT ?", LIMIT, MYSQL_SESSION_REFUSED_MIXED_KINDS, 2, 0);
    end();
}

/* A statement has at most 65535 placeholders. */
static void too_many_places(void)
{
    static char query[65537];
    mysql_session_place place = { 0, 0 };
    begin();
    memset(query, '?', 65536);
    CHECK_CODE(send_by(MYSQL_SESSION_EXECUTE, query, 100000, &place),
               MYSQL_SESSION_REFUSED_TOO_MANY_PLACES);
    query[65535] = '\0';
    CHECK_DONE(send_by(MYSQL_SESSION_EXECUTE, query, 100000, &place));
    end();
}

int main(void)
{
    bytes_by_road();
    each_kind_comes_back();
    open_values_wait();
    refusals();
    too_many_places();
    return check_end("send");
}
