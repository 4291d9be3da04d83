/* Flags: the mode of a server, and byte strings in hexadecimal. */
#include "check.h"

#define ESCAPELESS MYSQL_SESSION_NO_BACKSLASH_ESCAPES
#define ANSI MYSQL_SESSION_ANSI_QUOTES
#define HEX MYSQL_SESSION_HEXADECIMAL
#define ALL (ESCAPELESS | ANSI | HEX)

static mysql_session_handle sets, out;

/* One set of one value: bytes, or the number 1. */
static void begin(const char *bytes)
{
    CHECK_DONE(mysql_session_sets_new(&sets));
    CHECK_DONE(mysql_session_bytes_new(&out));
    if (bytes != NULL)
        CHECK_DONE(mysql_session_sets_push_bytes(&sets, bytes_of(bytes), strlen(bytes)));
    else
        CHECK_DONE(mysql_session_sets_push_int(&sets, 1));
    CHECK_DONE(mysql_session_sets_end_set(&sets));
}

static void end(void)
{
    mysql_session_free(&sets);
    mysql_session_free(&out);
}

/* The text of the value over the query, or none where it is refused by this code. */
static void bind(uint32_t flags, const char *query, const char *bytes, uint32_t code, const char *wanted)
{
    mysql_session_place place = { 0, 0 };
    const uint8_t *data = NULL;
    size_t len = 0;
    check_note(query, flags);
    begin(bytes);
    CHECK_CODE(mysql_session_bind_text(&sets, 0, bytes_of(query), strlen(query), flags, &out,
                                       &place),
               code);
    CHECK_DONE(mysql_session_bytes_data(&out, &data, &len));
    CHECK_TEXT(data, len, wanted);
    end();
    check_note("", 0);
}

static void row(uint32_t flags, const char *query, const char *bytes, const char *wanted)
{
    bind(flags, query, bytes, MYSQL_SESSION_OK, wanted);
}

/* A query that has no placeholder. */
static void no_place(uint32_t flags, const char *query)
{
    bind(flags, query, NULL, MYSQL_SESSION_REFUSED_WRONG_COUNT, "");
}

/* A query of whose placeholders one doesn't stand alone. */
static void not_alone(const char *query)
{
    bind(0, query, NULL, MYSQL_SESSION_REFUSED_NOT_ALONE, "");
    bind(HEX, query, "*/", MYSQL_SESSION_REFUSED_NOT_ALONE, "");
}

static void texts(void)
{
    uint32_t mode;
    row(0, "SELECT ?", "'\\", "SELECT '\\'\\\\'");
    row(ANSI, "SELECT ?", "'\\", "SELECT '\\'\\\\'");
    row(ESCAPELESS, "SELECT ?", "'\\", "SELECT '''\\'");
    row(ESCAPELESS | ANSI, "SELECT ?", "'\\", "SELECT '''\\'");
    for (mode = 0; mode < HEX; mode++) {
        row(mode | HEX, "SELECT ?", "'\\", "SELECT _utf8mb4 0x275C");
        row(mode | HEX, "SELECT ?", "", "SELECT ''");
        row(mode | HEX, "SELECT ?", NULL, "SELECT 1");
    }
    row(0, "SELECT 1 /* ! */ + ?", "*/", "SELECT 1 /* ! */ + '*/'");
    row(ESCAPELESS, "SELECT '\\', ?", NULL, "SELECT '\\', 1");
    no_place(0, "SELECT '\\', ?");
    row(ANSI, "SELECT \"a\\\", ?", NULL, "SELECT \"a\\\", 1");
    no_place(0, "SELECT \"a\\\", ?");
    row(ANSI, "SELECT ? \"al\"", NULL, "SELECT 1 \"al\"");
    not_alone("SELECT ? \"al\"");
}

/* Hints and version comments: what servers make of them is the same, or the query is refused. */
static void comments(void)
{
    row(0, "SELECT /*!40001 SQL_NO_CACHE */ * FROM t WHERE id > ?", NULL,
        "SELECT /*!40001 SQL_NO_CACHE */ * FROM t WHERE id > 1");
    row(0, "SELECT /*! ? */ 1", "*/", "SELECT /*! '*/' */ 1");
    row(0, "SELECT /*+ MAX_EXECUTION_TIME(1000) */* FROM t WHERE id = ?", NULL,
        "SELECT /*+ MAX_EXECUTION_TIME(1000) */* FROM t WHERE id = 1");
    row(0, "SELECT /*+ user's */ ?", NULL, "SELECT /*+ user's */ 1");
    row(0, "SELECT */* it's */ FROM t WHERE id = ?", NULL,
        "SELECT */* it's */ FROM t WHERE id = 1");
    row(0, "SELECT a$$b$$, ?", NULL, "SELECT a$$b$$, 1");
    no_place(0, "SELECT /*+ SET_VAR(time_zone = ?) */ 1");
    not_alone("SELECT 1 /*!80000 + ? */");
    not_alone("SELECT 2 /*! */*'3', '*/ ? '");
    not_alone("SELECT 1 /*!99999 /*! */ , ?");
    not_alone("SELECT /*!?");
    not_alone("SELECT ? 'al'");
    not_alone("SELECT 'al' /* c */ ?");
    not_alone("SELECT ? /*!50000 */ 'al'");
    not_alone("SELECT a[1], ?");
    not_alone("SELECT 1 AS $$, ?");
    not_alone("SELECT /*M! 1, */ ?");
    not_alone("SELECT /*!99999 'a' */ ?");
    not_alone("SELECT ?, 1 /*!99999 'a' */");
}

static void literals(void)
{
    const uint8_t *data = NULL;
    size_t len = 0;
    begin("'\\");
    CHECK_DONE(mysql_session_value_text(&sets, 0, 0, 0, &out));
    CHECK_DONE(mysql_session_value_text(&sets, 0, 0, ESCAPELESS, &out));
    CHECK_DONE(mysql_session_value_text(&sets, 0, 0, ALL, &out));
    CHECK_DONE(mysql_session_bytes_data(&out, &data, &len));
    CHECK_TEXT(data, len, "'\\'\\\\''''\\'_utf8mb4 0x275C");
    end();
}

/* What is sent by these flags is read by those: the value, or a fault. */
static void sent(uint32_t road, uint32_t flags, uint32_t read, uint32_t code)
{
    static const char query[] = "SELECT ?";
    mysql_session_handle receiver = MYSQL_SESSION_NOTHING, recoder = MYSQL_SESSION_NOTHING;
    mysql_session_handle recoded = MYSQL_SESSION_NOTHING;
    mysql_session_place place = { 0, 0 };
    mysql_session_content content = { 0, 0, 0, NULL, 0 };
    mysql_session_stop stop = { 0, 0, 0, 0 };
    const uint8_t *data = NULL;
    size_t len = 0;
    check_note("sent", flags);
    begin("'\\");
    CHECK_DONE(mysql_session_send(&sets, bytes_of(query), 8, road, 1, 1000, flags, &out, &place));
    CHECK_DONE(mysql_session_bytes_data(&out, &data, &len));
    CHECK_DONE(mysql_session_receiver_new(&receiver, bytes_of(query), 8, 1, 1000, read));
    CHECK_CODE(mysql_session_receiver_feed(&receiver, data, len), code);
    if (code == MYSQL_SESSION_OK) {
        CHECK_DONE(mysql_session_receiver_content(&receiver, 0, 0, &content));
        CHECK_NUMBER(content.kind, MYSQL_SESSION_BYTES);
        CHECK_TEXT(content.bytes, content.len, "'\\");
    }
    CHECK_DONE(mysql_session_bytes_new(&recoded));
    CHECK_DONE(mysql_session_recoder_new(&recoder, bytes_of(query), 8, 1, 1000, read));
    CHECK_CODE(mysql_session_recoder_feed(&recoder, data, len, &recoded, &stop), code);
    mysql_session_free(&recoder);
    mysql_session_free(&recoded);
    mysql_session_free(&receiver);
    end();
    check_note("", 0);
}

static void streams(void)
{
    uint32_t mode, read;
    for (mode = 0; mode < HEX; mode++) {
        sent(MYSQL_SESSION_TEXT, mode, mode, MYSQL_SESSION_OK);
        sent(MYSQL_SESSION_TEXT, mode, mode | HEX, MYSQL_SESSION_OK);
        for (read = 0; read < HEX; read++) {
            sent(MYSQL_SESSION_TEXT, mode | HEX, read | HEX, MYSQL_SESSION_OK);
            sent(MYSQL_SESSION_TEXT, mode | HEX, read, MYSQL_SESSION_FAULT_TEXT_MISMATCH);
            sent(MYSQL_SESSION_EXECUTE, mode, read, MYSQL_SESSION_OK);
        }
    }
    sent(MYSQL_SESSION_TEXT, ESCAPELESS, 0, MYSQL_SESSION_FAULT_TEXT_MISMATCH);
}

/* A backslash alone: a text in the one mode, none in the other. */
static void one_backslash(void)
{
    static const char query[] = "SELECT ?";
    const stream given = stream_of("0b 00 00 00 03 |SELECT '\\'|");
    mysql_session_handle receiver = MYSQL_SESSION_NOTHING;
    mysql_session_content content = { 0, 0, 0, NULL, 0 };
    CHECK_DONE(mysql_session_receiver_new(&receiver, bytes_of(query), 8, 1, 1000, ESCAPELESS));
    CHECK_DONE(mysql_session_receiver_feed(&receiver, given.bytes, given.len));
    CHECK_DONE(mysql_session_receiver_content(&receiver, 0, 0, &content));
    CHECK_TEXT(content.bytes, content.len, "\\");
    CHECK_DONE(mysql_session_receiver_new(&receiver, bytes_of(query), 8, 1, 1000, 0));
    CHECK_CODE(mysql_session_receiver_feed(&receiver, given.bytes, given.len),
               MYSQL_SESSION_FAULT_TEXT_MISMATCH);
    mysql_session_free(&receiver);
}

/* No other bit is a flag. */
static void no_such_mode(uint32_t flags)
{
    static const char query[] = "SELECT ?";
    mysql_session_handle nothing = MYSQL_SESSION_NOTHING;
    mysql_session_place place = { 0, 0 };
    size_t count = 0;
    check_note("no such mode", flags);
    begin("a");
    CHECK_CODE(mysql_session_receiver_new(&sets, bytes_of(query), 8, 1, 3, flags),
               MYSQL_SESSION_NO_SUCH_MODE);
    CHECK_CODE(mysql_session_recoder_new(&sets, bytes_of(":a ?"), 4, 1, 3, flags),
               MYSQL_SESSION_NO_SUCH_MODE);
    CHECK_CODE(mysql_session_bind_text(&nothing, 0, bytes_of(query), 8, flags, &out, &place),
               MYSQL_SESSION_NO_SUCH_MODE);
    CHECK_CODE(mysql_session_value_text(&nothing, 0, 0, flags, &out), MYSQL_SESSION_NO_SUCH_MODE);
    CHECK_CODE(mysql_session_digest(bytes_of(query), 8, flags, &nothing),
               MYSQL_SESSION_NO_SUCH_MODE);
    CHECK_CODE(mysql_session_send(&sets, bytes_of(query), 8, 0, 1, 3, flags, &out, &place),
               MYSQL_SESSION_NO_SUCH_MODE);
    CHECK_CODE(mysql_session_send(&sets, bytes_of(query), 8, 3, 1, 3, flags, &out, &place),
               MYSQL_SESSION_NO_SUCH_ROAD);
    CHECK_CODE(mysql_session_send(&nothing, bytes_of(query), 8, 0, 1, 3, flags, &out, &place),
               MYSQL_SESSION_EMPTY_HANDLE);
    CHECK_DONE(mysql_session_sets_count(&sets, &count));
    CHECK_NUMBER(count, 1);
    CHECK_STREAM(&out, "");
    end();
    check_note("", 0);
}

static uint32_t told(const char *value)
{
    return mysql_session_mode_of_sql_mode(bytes_of(value), strlen(value));
}

static void told_by_servers(void)
{
    CHECK_NUMBER(mysql_session_mode_of_status(0), 0);
    CHECK_NUMBER(mysql_session_mode_of_status(0x0200), ESCAPELESS);
    CHECK_NUMBER(mysql_session_mode_of_status(0x8000), ANSI);
    CHECK_NUMBER(mysql_session_mode_of_status(0x7dff), 0);
    CHECK_NUMBER(mysql_session_mode_of_status(0xffff), ESCAPELESS | ANSI);
    CHECK_NUMBER(told(""), 0);
    CHECK_NUMBER(told("STRICT_TRANS_TABLES,NO_BACKSLASH_ESCAPES"), ESCAPELESS);
    CHECK_NUMBER(told("ansi_quotes"), ANSI);
    CHECK_NUMBER(told("ORACLE,NO_BACKSLASH_ESCAPES,IGNORE_SPACE"), ESCAPELESS | ANSI);
    CHECK_NUMBER(told(" NO_BACKSLASH_ESCAPES , ANSI_QUOTES "), ESCAPELESS | ANSI);
    CHECK_NUMBER(told("NO_BACKSLASH_ESCAPES_NOT,ANSI_QUOTES"), MYSQL_SESSION_UNKNOWN_MODE);
    CHECK_NUMBER(told("mssql"), MYSQL_SESSION_UNKNOWN_MODE);
    CHECK_NUMBER(mysql_session_is_safe_to_quote(45), 1);
    CHECK_NUMBER(mysql_session_is_safe_to_quote(28), 0);
    CHECK_NUMBER(mysql_session_is_safe_to_quote(1024 + 28), 0);
    CHECK_NUMBER(mysql_session_is_safe_to_quote(1024 + 45), 1);
}

/* What is known of a session behind this text, of which the reply is an OK packet with this status
 * and these changes, or an error where there are none. */
static void known(mysql_session_known *of, const char *said, uint16_t status, const char *changes,
                  uint32_t flags, bool set_known)
{
    check_note(said, flags);
    mysql_session_known_behind_text(of, bytes_of(said), strlen(said));
    if (changes != NULL) {
        const stream told = stream_of(changes);
        mysql_session_known_behind_ok(of, status, told.bytes, told.len);
    }
    CHECK_NUMBER(of->flags, flags);
    CHECK_NUMBER(of->set_known, set_known);
    check_note("", 0);
}

/* The flags are those by which a text is safe: calls take them, or answer NO_SUCH_MODE. */
static void sessions(void)
{
    static const char both[] = "00 27 08 |sql_mode| 00 14 |character_set_client| 07 |utf8mb4|";
    static const char gbk[] = "00 19 14 |character_set_client| 03 |gbk|";
    static const char escapeless[] = "00 1e 08 |sql_mode| 14 |NO_BACKSLASH_ESCAPES|";
    mysql_session_known of = MYSQL_SESSION_NOTHING_KNOWN;
    CHECK_NUMBER(of.flags, MYSQL_SESSION_UNKNOWN_MODE | HEX);
    bind(of.flags, "SELECT ?", "'", MYSQL_SESSION_NO_SUCH_MODE, "");
    /* The OK packet of a login doesn't count: nothing was said before. */
    mysql_session_known_behind_ok(&of, 0x4002, stream_of(both).bytes, stream_of(both).len);
    CHECK_NUMBER(of.flags, MYSQL_SESSION_UNKNOWN_MODE | HEX);
    known(&of, MYSQL_SESSION_ASK_MODE, 0x4002, both, 0, true);
    bind(of.flags, "SELECT ?", "'", MYSQL_SESSION_OK, "SELECT '\\''");
    known(&of, "SELECT 1", 0, NULL, 0, true);
    known(&of, "SET NAMES gbk", 0x4002, gbk, HEX, true);
    bind(of.flags, "SELECT ?", "'", MYSQL_SESSION_OK, "SELECT _utf8mb4 0x27");
    known(&of, "SET @@character_set_client = utf8mb4", 2, "", HEX, false);
    known(&of, MYSQL_SESSION_ASK_MODE, 0x4002, both, 0, true);
    known(&of, "SET @@sql_mode = 'ANSI_QUOTES'", 2, "", MYSQL_SESSION_UNKNOWN_MODE, true);
    bind(of.flags, "SELECT ?", "'", MYSQL_SESSION_NO_SUCH_MODE, "");
    known(&of, "SET sql_mode = 'NO_BACKSLASH_ESCAPES'", 0x4202, escapeless, ESCAPELESS, true);
    bind(of.flags, "SELECT ?", "'", MYSQL_SESSION_OK, "SELECT ''''");
    known(&of, "CALL p()", 0x420a, escapeless, MYSQL_SESSION_UNKNOWN_MODE, true);
    known(&of, MYSQL_SESSION_ASK_MODE, 0, NULL, MYSQL_SESSION_UNKNOWN_MODE | HEX, false);
    known(&of, MYSQL_SESSION_ASK_MODE, 0x4002, both, 0, true);
    known(&of, "DO 1; DO 2", 0, NULL, MYSQL_SESSION_UNKNOWN_MODE | HEX, false);
    known(&of, "DO 1", 0x4002, "00 27 08", MYSQL_SESSION_UNKNOWN_MODE | HEX, false);
}

int main(void)
{
    uint32_t bit;
    texts();
    comments();
    literals();
    streams();
    one_backslash();
    for (bit = ALL + 1; bit != 0; bit <<= 1) {
        no_such_mode(bit);
        no_such_mode(bit | ALL);
    }
    told_by_servers();
    sessions();
    return check_end("modes");
}
