/* The text of a set over a query, the literal of one value, and the digest of a text. */
#include "check.h"

static mysql_session_handle sets, out;

/* One set of a NULL, a number and a text in which quotes, a backslash and a NUL byte stand. */
static void begin(void)
{
    CHECK_DONE(mysql_session_sets_new(&sets));
    CHECK_DONE(mysql_session_bytes_new(&out));
    CHECK_DONE(mysql_session_sets_push_null(&sets));
    CHECK_DONE(mysql_session_sets_push_int(&sets, -7));
    CHECK_DONE(mysql_session_sets_push_bytes(&sets, bytes_of("'x\\ OR ?"), 8));
    CHECK_DONE(mysql_session_sets_end_set(&sets));
}

static void end(void)
{
    mysql_session_free(&sets);
    mysql_session_free(&out);
}

static void check_out(const char *wanted)
{
    const uint8_t *data = NULL;
    size_t len = 0;
    CHECK_DONE(mysql_session_bytes_data(&out, &data, &len));
    CHECK_TEXT(data, len, wanted);
}

static uint32_t bind(size_t set, const char *query, mysql_session_place *place)
{
    return mysql_session_bind_text(&sets, set, bytes_of(query), strlen(query), 0, &out, place);
}

/* The bytes of `out` go on behind what stood there. */
static void texts(void)
{
    mysql_session_place place = { 0, 0 };
    begin();
    CHECK_DONE(bind(0, "SELECT ?, ? , ?; ", &place));
    check_out("SELECT NULL, -7 , '\\'x\\\\ OR ?'; ");
    CHECK_DONE(bind(0, "SELECT '?', ?, ?, ?", &place));
    check_out("SELECT NULL, -7 , '\\'x\\\\ OR ?'; SELECT '?', NULL, -7, '\\'x\\\\ OR ?'");
    end();
}

static void refuse(size_t set, const char *query, uint32_t code, size_t at)
{
    mysql_session_place place = { 77, 77 };
    CHECK_CODE(bind(set, query, &place), code);
    if (code >= MYSQL_SESSION_REFUSED_NOT_ALONE) {
        CHECK_NUMBER(place.set, set);
        CHECK_NUMBER(place.place, at);
    }
    check_out("");
}

static void refusals(void)
{
    begin();
    refuse(1, "SELECT ?, ?, ?", MYSQL_SESSION_OUT_OF_RANGE, 0);
    refuse(SIZE_MAX, "SELECT ?, ?, ?", MYSQL_SESSION_OUT_OF_RANGE, 0);
    refuse(0, "SELECT :a, ?", MYSQL_SESSION_MIXED, 0);
    refuse(0, "SELECT ?, 1-?, ?", MYSQL_SESSION_REFUSED_NOT_ALONE, 1);
    refuse(0, "SELECT :a, :b, :c", MYSQL_SESSION_REFUSED_PARAMS, 0);
    refuse(0, "SELECT ?, ?", MYSQL_SESSION_REFUSED_WRONG_COUNT, 0);
    end();
}

/* A stream of the text reads back as the set: what the text is for. */
static void reads_back(void)
{
    static const char query[] = "SELECT ?, ?, ?";
    mysql_session_handle receiver = MYSQL_SESSION_NOTHING, framed = MYSQL_SESSION_NOTHING;
    mysql_session_handle payload = MYSQL_SESSION_NOTHING;
    mysql_session_place place = { 0, 0 };
    const uint8_t *data = NULL;
    uint8_t number = 0, command[64];
    size_t len = 0, fed, found = 0;
    begin();
    CHECK_DONE(bind(0, query, &place));
    CHECK_DONE(mysql_session_bytes_data(&out, &data, &len));
    command[0] = 3;
    if (CHECK(len < sizeof command))
        memcpy(command + 1, data, len);
    CHECK_DONE(mysql_session_bytes_new(&framed));
    CHECK_DONE(mysql_session_packet_put(&framed, command, len + 1, &number, 1000));
    CHECK_DONE(mysql_session_receiver_new(&receiver, bytes_of(query), strlen(query), 1, 1000, 0));
    CHECK_DONE(mysql_session_bytes_data(&framed, &data, &len));
    for (fed = 0; fed < len; fed++)
        CHECK_DONE(mysql_session_receiver_feed(&receiver, data + fed, 1));
    CHECK_DONE(mysql_session_receiver_sets(&receiver, &found));
    CHECK_NUMBER(found, 1);
    mysql_session_free(&receiver);
    mysql_session_free(&framed);
    mysql_session_free(&payload);
    end();
}

static void literals(void)
{
    begin();
    CHECK_DONE(mysql_session_value_text(&sets, 0, 0, 0, &out));
    CHECK_DONE(mysql_session_value_text(&sets, 0, 1, 0, &out));
    CHECK_DONE(mysql_session_value_text(&sets, 0, 2, 0, &out));
    check_out("NULL-7'\\'x\\\\ OR ?'");
    CHECK_CODE(mysql_session_value_text(&sets, 0, 3, 0, &out), MYSQL_SESSION_OUT_OF_RANGE);
    CHECK_CODE(mysql_session_value_text(&sets, 1, 0, 0, &out), MYSQL_SESSION_OUT_OF_RANGE);
    CHECK_CODE(mysql_session_value_text(&sets, SIZE_MAX, SIZE_MAX, 0, &out),
               MYSQL_SESSION_OUT_OF_RANGE);
    check_out("NULL-7'\\'x\\\\ OR ?'");
    end();
}

/* Dates and durations, with and without a part below the second. */
static void dates(void)
{
    begin();
    CHECK_DONE(mysql_session_sets_push_date(&sets, 2024, 2, 29, 0, 0, 0, 0));
    CHECK_DONE(mysql_session_sets_push_date(&sets, 2024, 2, 29, 1, 2, 3, 0));
    CHECK_DONE(mysql_session_sets_push_time(&sets, false, 0, 0, 0, 0, 0));
    CHECK_DONE(mysql_session_sets_push_time(&sets, true, 34, 22, 59, 59, 999999));
    CHECK_DONE(mysql_session_sets_push_uint(&sets, UINT64_MAX));
    CHECK_DONE(mysql_session_sets_end_set(&sets));
    CHECK_DONE(mysql_session_value_text(&sets, 1, 0, 0, &out));
    CHECK_DONE(mysql_session_value_text(&sets, 1, 1, 0, &out));
    CHECK_DONE(mysql_session_value_text(&sets, 1, 2, 0, &out));
    CHECK_DONE(mysql_session_value_text(&sets, 1, 3, 0, &out));
    CHECK_DONE(mysql_session_value_text(&sets, 1, 4, 0, &out));
    check_out("'2024-02-29''2024-02-29 01:02:03''000:00:00''-838:59:59.999999'"
              "18446744073709551615");
    end();
}

static uint32_t digest(const char *said, uint32_t flags)
{
    return mysql_session_digest(bytes_of(said), strlen(said), flags, &out);
}

/* The digest of a text alone; the bytes of `out` are emptied behind it. */
static void digest_row(const char *said, uint32_t flags, const char *wanted)
{
    check_note(said, flags);
    CHECK_DONE(digest(said, flags));
    check_out(wanted);
    CHECK_DONE(mysql_session_bytes_clear(&out));
    check_note("", 0);
}

static void digests(void)
{
    CHECK_DONE(mysql_session_bytes_new(&out));
    digest_row("", 0, "");
    digest_row("SELECT a FROM t WHERE id=5 -- why", 0, "select a from t where id = ?");
    digest_row("SELECT a FROM t WHERE id IN (1, 'x',NULL)", 0, "select a from t where id in (...)");
    digest_row("INSERT INTO t VALUES (1,'a'),(2,'b')", 0,
               "insert into t values (...) /* , ... */");
    digest_row("\"a\" '\\' b", 0, "? ?");
    digest_row("\"a\" '\\' b", MYSQL_SESSION_NO_BACKSLASH_ESCAPES, "? ? b");
    digest_row("\"a\" '\\' b", MYSQL_SESSION_ANSI_QUOTES, "\"a\" ?");
    digest_row("SELECT 1", MYSQL_SESSION_HEXADECIMAL, "select ?");
    /* Where servers disagree a mark is for the rest. */
    digest_row("SELECT a AS $$, 'b $$ secret '", 0, "select a as /* ... */");
    digest_row("SELECT a /*M! it's */ , 'secret'", 0, "select a /* ... */");
    digest_row("SELECT a /*!99999 it's */ , 'secret'", 0, "select a /* ... */");
    digest_row("SELECT a [it's] , 'secret'", 0, "select a /* ... */");
    digest_row("SELECT /*+ it's */ a, 'secret'", 0, "select a , ?");
    CHECK_DONE(digest("a = 1", 0));
    CHECK_DONE(digest(" ; b", 0));
    check_out("a = ?; b");
    CHECK_CODE(digest("a = 1", 8), MYSQL_SESSION_NO_SUCH_MODE);
    check_out("a = ?; b");
    mysql_session_free(&out);
    CHECK_CODE(digest("a = 1", 8), MYSQL_SESSION_NO_SUCH_MODE);
    CHECK_CODE(digest("a = 1", 0), MYSQL_SESSION_EMPTY_HANDLE);
    begin();
    CHECK_CODE(mysql_session_digest(bytes_of("a"), 1, 0, &sets), MYSQL_SESSION_OTHER_KIND);
    end();
}

int main(void)
{
    texts();
    refusals();
    reads_back();
    literals();
    dates();
    digests();
    return check_end("texts");
}
