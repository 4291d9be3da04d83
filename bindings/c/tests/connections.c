/* Whole connections, read as events. The program's words are recorded connections, each a file's
 * name without .client, .server and .events: their lines have to come however their bytes do. */
#include "check.h"

#include <stdlib.h>

#define LIMIT ((size_t)1 << 26)

/* A greeting, an OK packet, a result of one row, the answer to a prepare, and an OK packet. */
static const char server_says[] =
    "33 00 00 00 0a |5.5.5| 00 01 00 00 00 |12345678| 00 00 82 21 02 00 00 00 15 "
    "00 00 00 00 00 00 00 00 00 00 |123456789012| 00 "
    "07 00 00 02 00 00 00 02 00 00 00 "
    "01 00 00 01 01 "
    "17 00 00 02 03 |def| 00 00 00 01 |1| 00 0c 3f 00 00 00 00 00 fd 80 00 00 00 00 "
    "05 00 00 03 fe 00 00 02 00 "
    "02 00 00 04 01 |1| "
    "05 00 00 05 fe 00 00 02 00 "
    "0c 00 00 01 00 01 00 00 00 00 00 01 00 00 00 00 "
    "17 00 00 02 03 |def| 00 00 00 01 3f 00 0c 3f 00 00 00 00 00 fd 80 00 00 00 00 "
    "05 00 00 03 fe 00 00 02 00 "
    "07 00 00 01 00 00 00 02 00 00 00";

/* A login, a query, a prepare, an execution and a quit. */
static const char client_says[] =
    "23 00 00 01 00 82 00 00 00 00 00 01 21 "
    "00 00 00 00 00 00 00 00 00 00 00 00 00 00 00 00 00 00 00 00 00 00 00 |u| 00 00 "
    "09 00 00 00 03 |SELECT 1| "
    "09 00 00 00 16 |SELECT ?| "
    "12 00 00 00 17 01 00 00 00 00 01 00 00 00 00 01 fd 00 03 |abc| "
    "01 00 00 00 01";

static const uint32_t kinds[] = {
    MYSQL_SESSION_EVENT_GREETING, MYSQL_SESSION_EVENT_LOGIN, MYSQL_SESSION_EVENT_ACCEPTED,
    MYSQL_SESSION_EVENT_QUERY, MYSQL_SESSION_EVENT_COLUMN_COUNT, MYSQL_SESSION_EVENT_COLUMN,
    MYSQL_SESSION_EVENT_COLUMNS_END, MYSQL_SESSION_EVENT_ROW, MYSQL_SESSION_EVENT_ROWS_END,
    MYSQL_SESSION_EVENT_PREPARE, MYSQL_SESSION_EVENT_PREPARED, MYSQL_SESSION_EVENT_COLUMN,
    MYSQL_SESSION_EVENT_COLUMNS_END, MYSQL_SESSION_EVENT_EXECUTE, MYSQL_SESSION_EVENT_OK,
    MYSQL_SESSION_EVENT_QUIT,
};
#define EVENTS (sizeof kinds / sizeof kinds[0])

static mysql_session_connection made;
static mysql_session_event event;

/* All bytes that are shown are read, so that the tools find any that aren't good. */
static volatile unsigned sum;

static void look_at(const uint8_t *bytes, size_t len)
{
    size_t i;
    for (i = 0; i < len; i++)
        sum += bytes[i];
}

static void look_at_value(const mysql_session_value *value)
{
    if (value->kind == MYSQL_SESSION_BYTES)
        look_at(value->bytes, value->len);
}

static void look_at_column(size_t number)
{
    mysql_session_column column;
    memset(&column, 0, sizeof column);
    if (!CHECK_DONE(mysql_session_connection_column(&made, number, &column)))
        return;
    look_at(column.schema, column.schema_len);
    look_at(column.table, column.table_len);
    look_at(column.org_table, column.org_table_len);
    look_at(column.name, column.name_len);
    look_at(column.org_name, column.org_name_len);
}

static void look_at_values(size_t rows, size_t width, const mysql_session_event *shown)
{
    mysql_session_value value;
    size_t row, place;
    memset(&value, 0, sizeof value);
    for (row = 0; row < rows; row++) {
        for (place = 0; place < width; place++) {
            if (CHECK_DONE(mysql_session_connection_value(&made, row, place, &value)))
                look_at_value(&value);
        }
        CHECK_CODE(mysql_session_connection_value(&made, row, width, &value),
                   MYSQL_SESSION_OUT_OF_RANGE);
    }
    CHECK_CODE(mysql_session_connection_value(&made, rows, 0, &value), MYSQL_SESSION_OUT_OF_RANGE);
    look_at(shown->text, shown->len);
}

/* Looks at all that an event has. */
static void look_at_event(const mysql_session_event *shown)
{
    const uint8_t *name = NULL;
    mysql_session_value value;
    size_t number, len = 0, rows = 0, width = 0;
    memset(&value, 0, sizeof value);
    look_at(shown->text, shown->len);
    look_at(shown->user, shown->user_len);
    look_at(shown->database, shown->database_len);
    look_at(shown->plugin, shown->plugin_len);
    look_at(shown->data, shown->data_len);
    look_at(shown->state, shown->state_len);
    for (number = 0; number < shown->attributes; number++) {
        CHECK_DONE(mysql_session_connection_attribute(&made, number, &name, &len, &value));
        look_at(name, len);
        look_at_value(&value);
    }
    CHECK_CODE(mysql_session_connection_attribute(&made, number, &name, &len, &value),
               MYSQL_SESSION_OUT_OF_RANGE);
    if (shown->kind == MYSQL_SESSION_EVENT_ROW) {
        rows = 1;
        width = shown->columns;
        for (number = 0; number < width; number++)
            look_at_column(number);
    } else if (shown->kind == MYSQL_SESSION_EVENT_EXECUTE) {
        rows = 1;
        width = shown->params;
    } else if (shown->kind == MYSQL_SESSION_EVENT_BULK_EXECUTE) {
        rows = shown->rows;
        width = shown->params;
    } else if (shown->kind == MYSQL_SESSION_EVENT_COLUMN ||
               shown->kind == MYSQL_SESSION_EVENT_FIELD) {
        look_at_column(0);
    }
    look_at_values(rows, width, shown);
}

/* ---- A connection of a few packets ----------------------------------------------------------- */

static void feed_both(void)
{
    stream client = stream_of(client_says), server = stream_of(server_says);
    CHECK_DONE(mysql_session_connection_feed(&made, MYSQL_SESSION_CLIENT, client.bytes,
                                             client.len));
    CHECK_DONE(mysql_session_connection_feed(&made, MYSQL_SESSION_SERVER, server.bytes,
                                             server.len));
}

#define LOGIN_FRONT \
    "client Login capabilities=33280 max_packet=16777216 collation=33 extended=0 user=x75 answer="
#define LOGIN_REST " database=- plugin=- attributes=-"

/* The login's line without its answer, which has no bytes, and with it. Either keeps the other. */
static void check_both_lines(void)
{
    const uint8_t *hidden = NULL, *shown = NULL;
    size_t hidden_len = 0, shown_len = 0;
    CHECK_DONE(mysql_session_connection_line(&made, &hidden, &hidden_len));
    CHECK_DONE(mysql_session_connection_line_with_secrets(&made, &shown, &shown_len));
    CHECK_TEXT(hidden, hidden_len, LOGIN_FRONT "(0 bytes)" LOGIN_REST);
    CHECK_TEXT(shown, shown_len, LOGIN_FRONT "x" LOGIN_REST);
}

/* ---- Lines for people ------------------------------------------------------------------------ */

/* A password of three bytes, a query of a text with a quote, an end of a line and ESC, and one that
 * is no UTF-8. */
static const char people_say[] =
    "26 00 00 01 00 82 00 00 00 00 00 01 21 "
    "00 00 00 00 00 00 00 00 00 00 00 00 00 00 00 00 00 00 00 00 00 00 00 |u| 00 03 |pw| ff "
    "0a 00 00 00 03 |DO '| 22 0a 1b c3 a9 "
    "04 00 00 00 03 |DO| ff "
    "09 00 00 00 16 |SELECT 1| "
    "0a 00 00 00 17 01 00 00 00 00 01 00 00 00";

/* A greeting, three OK packets, a prepared statement, and a row: NULL, a number, a time, a zero
 * date with a time of day, a float. MySQL: "Binary Protocol Value". */
static const char people_hear[] =
    "33 00 00 00 0a |5.5.5| 00 01 00 00 00 |12345678| 00 00 82 21 02 00 00 00 15 "
    "00 00 00 00 00 00 00 00 00 00 |123456789012| 00 "
    "07 00 00 02 00 00 00 02 00 00 00 "
    "07 00 00 01 00 00 00 02 00 00 00 07 00 00 01 00 00 00 02 00 00 00 "
    "0c 00 00 01 00 01 00 00 00 00 00 00 00 00 00 00 "
    "01 00 00 01 05 "
    "17 00 00 02 03 |def| 00 00 00 01 |a| 00 0c 3f 00 00 00 00 00 fd 80 00 00 00 00 "
    "17 00 00 03 03 |def| 00 00 00 01 |b| 00 0c 3f 00 00 00 00 00 03 80 00 00 00 00 "
    "17 00 00 04 03 |def| 00 00 00 01 |c| 00 0c 3f 00 00 00 00 00 0b 80 00 00 00 00 "
    "17 00 00 05 03 |def| 00 00 00 01 |d| 00 0c 3f 00 00 00 00 00 0c 80 00 00 00 00 "
    "17 00 00 06 03 |def| 00 00 00 01 |e| 00 0c 3f 00 00 00 00 00 04 80 00 1f 00 00 "
    "05 00 00 07 fe 00 00 02 00 "
    "14 00 00 08 00 04 ff ff ff ff 08 01 00 00 00 00 01 02 03 00 00 00 c0 3f "
    "05 00 00 09 fe 00 00 02 00";

/* Reads on to the next event of this kind. */
static void read_to(uint32_t kind)
{
    do {
        if (!CHECK_DONE(mysql_session_connection_next(&made, &event)))
            return;
    } while (event.kind != kind && event.kind != MYSQL_SESSION_EVENT_NONE);
    CHECK_NUMBER(event.kind, kind);
}

#define PEOPLE_FRONT \
    "client Login capabilities=33280 max_packet=16777216 collation=33 extended=0 user=\"u\" answer="

/* The line with texts, without data of an authentication and with it. */
static void check_texts(const char *hidden, const char *shown)
{
    const uint8_t *first = NULL, *second = NULL;
    size_t first_len = 0, second_len = 0;
    CHECK_DONE(mysql_session_connection_line_with_texts(&made, false, &first, &first_len));
    CHECK_DONE(mysql_session_connection_line_with_texts(&made, true, &second, &second_len));
    CHECK_TEXT(first, first_len, hidden);
    CHECK_TEXT(second, second_len, shown);
}

static void lines_with_texts(void)
{
    stream client = stream_of(people_say), server = stream_of(people_hear);
    const uint8_t *plain = NULL;
    size_t len = 0;
    mysql_session_connection_end end = { 0, 0, 0, 0, 0 };
    CHECK_DONE(mysql_session_connection_new(&made, 1000, 1000, 4000));
    CHECK_DONE(
        mysql_session_connection_feed(&made, MYSQL_SESSION_CLIENT, client.bytes, client.len));
    CHECK_DONE(
        mysql_session_connection_feed(&made, MYSQL_SESSION_SERVER, server.bytes, server.len));
    CHECK_CODE(mysql_session_connection_line_with_texts(&made, false, &plain, &len),
               MYSQL_SESSION_OUT_OF_RANGE);
    read_to(MYSQL_SESSION_EVENT_LOGIN);
    check_texts(PEOPLE_FRONT "(3 bytes)" LOGIN_REST, PEOPLE_FRONT "x7077ff" LOGIN_REST);
    read_to(MYSQL_SESSION_EVENT_QUERY);
    check_texts("client Query attributes=() text=\"DO '\\\"\\n\\x1b\xc3\xa9\"",
                "client Query attributes=() text=\"DO '\\\"\\n\\x1b\xc3\xa9\"");
    read_to(MYSQL_SESSION_EVENT_QUERY);
    check_texts("client Query attributes=() text=x444fff",
                "client Query attributes=() text=x444fff");
    read_to(MYSQL_SESSION_EVENT_ROW);
    check_texts(
        "server Row cells=(NULL -1 \"-01:02:03\" \"0000-00-00 00:00:00\" f3fc00000)",
        "server Row cells=(NULL -1 \"-01:02:03\" \"0000-00-00 00:00:00\" f3fc00000)");
    CHECK_DONE(mysql_session_connection_line(&made, &plain, &len));
    CHECK_TEXT(plain, len,
               "server Row cells=(- (i -1) (t (1 0 1 2 3 0)) (d (0 0 0 0 0 0 0)) "
               "(f32 3fc00000))");
    /* The end of the rows came and isn't read. */
    CHECK_DONE(mysql_session_connection_finish(&made, &end));
    check_texts("end Unread", "end Unread");
    mysql_session_connection_free(&made);
}

static void check_event(size_t number)
{
    mysql_session_value value;
    mysql_session_column column;
    memset(&value, 0, sizeof value);
    memset(&column, 0, sizeof column);
    switch (number) {
    case 0:
        CHECK_NUMBER(event.side, MYSQL_SESSION_SERVER);
        CHECK_TEXT(event.text, event.len, "5.5.5");
        CHECK_NUMBER(event.number, 1);
        break;
    case 1:
        CHECK_NUMBER(event.side, MYSQL_SESSION_CLIENT);
        CHECK_TEXT(event.user, event.user_len, "u");
        CHECK_NUMBER(event.database_len, 0);
        check_both_lines();
        break;
    case 3:
        CHECK_TEXT(event.text, event.len, "SELECT 1");
        break;
    case 7:
        CHECK_DONE(mysql_session_connection_value(&made, 0, 0, &value));
        CHECK_NUMBER(value.kind, MYSQL_SESSION_BYTES);
        CHECK_TEXT(value.bytes, value.len, "1");
        CHECK_DONE(mysql_session_connection_column(&made, 0, &column));
        CHECK_TEXT(column.name, column.name_len, "1");
        break;
    case 10:
        CHECK_NUMBER(event.statement, 1);
        CHECK_NUMBER(event.params, 1);
        break;
    case 13:
        CHECK_NUMBER(event.statement, 1);
        CHECK_TEXT(event.text, event.len, "SELECT ?");
        CHECK_NUMBER(event.params, 1);
        CHECK_DONE(mysql_session_connection_value(&made, 0, 0, &value));
        CHECK_TEXT(value.bytes, value.len, "abc");
        break;
    case 14:
        CHECK_NUMBER(event.status, 2);
        break;
    default:
        break;
    }
}

static void a_connection(void)
{
    mysql_session_connection_end end = { 0, 0, 0, 0, 0 };
    mysql_session_standing standing;
    const uint8_t *said = NULL;
    uint16_t params = 0;
    size_t number, len = 0;
    memset(&standing, 0, sizeof standing);
    CHECK_DONE(mysql_session_connection_new(&made, LIMIT, LIMIT, 4 * LIMIT));
    CHECK_DONE(mysql_session_connection_standing(&made, &standing));
    CHECK_NUMBER(standing.turn, MYSQL_SESSION_SERVER);
    CHECK_NUMBER(standing.phase, MYSQL_SESSION_PHASE_GREETING);
    CHECK_CODE(mysql_session_connection_line(&made, &said, &len), MYSQL_SESSION_OUT_OF_RANGE);
    feed_both();
    for (number = 0; number < EVENTS; number++) {
        CHECK_DONE(mysql_session_connection_next(&made, &event));
        CHECK_NUMBER(event.kind, kinds[number]);
        look_at_event(&event);
        check_event(number);
    }
    CHECK_DONE(mysql_session_connection_statement(&made, 1, &said, &len, &params));
    CHECK_TEXT(said, len, "SELECT ?");
    CHECK_NUMBER(params, 1);
    CHECK_DONE(mysql_session_connection_statement(&made, 0xffffffff, &said, &len, &params));
    CHECK_TEXT(said, len, "SELECT ?");
    CHECK_CODE(mysql_session_connection_statement(&made, 2, &said, &len, &params),
               MYSQL_SESSION_OUT_OF_RANGE);
    CHECK_DONE(mysql_session_connection_line(&made, &said, &len));
    CHECK_TEXT(said, len, "client Quit");
    CHECK_DONE(mysql_session_connection_next(&made, &event));
    CHECK_NUMBER(event.kind, MYSQL_SESSION_EVENT_NONE);
    CHECK_NUMBER(event.side, MYSQL_SESSION_NOBODY);
    CHECK_DONE(mysql_session_connection_standing(&made, &standing));
    CHECK_NUMBER(standing.turn, MYSQL_SESSION_NOBODY);
    CHECK_NUMBER(standing.phase, MYSQL_SESSION_PHASE_OVER);
    CHECK_NUMBER(standing.reason, MYSQL_SESSION_REASON_QUIT);
    CHECK_DONE(mysql_session_connection_finish(&made, &end));
    CHECK_NUMBER(end.kind, MYSQL_SESSION_CONNECTION_OVER);
    CHECK_NUMBER(end.reason, MYSQL_SESSION_REASON_QUIT);
    CHECK_DONE(mysql_session_connection_line(&made, &said, &len));
    CHECK_TEXT(said, len, "end Over Quit");
    mysql_session_connection_free(&made);
    CHECK(made.at == NULL);
}

/* A side that runs ahead is refused, and a stream that has ended too. */
static void refusals(void)
{
    static const uint8_t zeros[15] = { 0 };
    mysql_session_standing standing;
    const uint8_t *rest = NULL;
    size_t len = 0;
    memset(&standing, 0, sizeof standing);
    CHECK_DONE(mysql_session_connection_new(&made, 10, 20, 100));
    CHECK_DONE(mysql_session_connection_standing(&made, &standing));
    CHECK_NUMBER(standing.client_room, 14);
    CHECK_NUMBER(standing.server_room, 24);
    CHECK_CODE(mysql_session_connection_feed(&made, MYSQL_SESSION_CLIENT, zeros, 15),
               MYSQL_SESSION_CONNECTION_HELD);
    CHECK_DONE(mysql_session_connection_feed(&made, MYSQL_SESSION_CLIENT, zeros, 14));
    CHECK_DONE(mysql_session_connection_standing(&made, &standing));
    CHECK_NUMBER(standing.client_room, 0);
    CHECK_NUMBER(standing.held, 14);
    CHECK_DONE(mysql_session_connection_rest(&made, MYSQL_SESSION_CLIENT, &rest, &len));
    CHECK_BYTES(rest, len, zeros, 14);
    CHECK_DONE(mysql_session_connection_close(&made, MYSQL_SESSION_SERVER));
    CHECK_CODE(mysql_session_connection_feed(&made, MYSQL_SESSION_SERVER, zeros, 1),
               MYSQL_SESSION_CONNECTION_CLOSED);
    CHECK_CODE(mysql_session_connection_feed(&made, 2, zeros, 1), MYSQL_SESSION_NO_SUCH_KIND);
    CHECK_CODE(mysql_session_connection_close(&made, 2), MYSQL_SESSION_NO_SUCH_KIND);
    CHECK_CODE(mysql_session_connection_rest(&made, 2, &rest, &len), MYSQL_SESSION_NO_SUCH_KIND);
    mysql_session_connection_free(&made);
}

/* A fault has a side and a byte, and is told again. */
static void a_fault(void)
{
    mysql_session_connection_end end = { 0, 0, 0, 0, 0 };
    mysql_session_standing standing;
    stream server = stream_of("01 00 00 07 0a");
    const uint8_t *said = NULL;
    size_t len = 0, number;
    memset(&standing, 0, sizeof standing);
    CHECK_DONE(mysql_session_connection_new(&made, LIMIT, LIMIT, 4 * LIMIT));
    CHECK_DONE(mysql_session_connection_feed(&made, MYSQL_SESSION_SERVER, server.bytes,
                                             server.len));
    for (number = 0; number < 2; number++)
        CHECK_CODE(mysql_session_connection_next(&made, &event),
                   MYSQL_SESSION_CONNECTION_OUT_OF_SYNC);
    CHECK_DONE(mysql_session_connection_standing(&made, &standing));
    CHECK_NUMBER(standing.fault, MYSQL_SESSION_CONNECTION_OUT_OF_SYNC);
    CHECK_NUMBER(standing.fault_side, MYSQL_SESSION_SERVER);
    CHECK_NUMBER(standing.fault_byte, 0);
    CHECK_DONE(mysql_session_connection_finish(&made, &end));
    CHECK_NUMBER(end.kind, MYSQL_SESSION_CONNECTION_FAULT);
    CHECK_NUMBER(end.fault, MYSQL_SESSION_CONNECTION_OUT_OF_SYNC);
    CHECK_DONE(mysql_session_connection_line(&made, &said, &len));
    CHECK_TEXT(said, len, "end Fault server 0 OutOfSync");
    mysql_session_connection_free(&made);
}

/* A handle that stands for nothing, and one that was freed. */
static void nothing(void)
{
    mysql_session_connection none = MYSQL_SESSION_NOTHING;
    mysql_session_connection_end end = { 0, 0, 0, 0, 0 };
    mysql_session_standing standing;
    mysql_session_column column;
    mysql_session_value value;
    const uint8_t *said = NULL;
    uint16_t params = 0;
    size_t len = 0, time;
    memset(&standing, 0, sizeof standing);
    memset(&column, 0, sizeof column);
    memset(&value, 0, sizeof value);
    for (time = 0; time < 2; time++) {
        uint32_t wanted = MYSQL_SESSION_EMPTY_HANDLE;
        CHECK_CODE(mysql_session_connection_feed(&none, 0, bytes_of(""), 0), wanted);
        CHECK_CODE(mysql_session_connection_close(&none, 0), wanted);
        CHECK_CODE(mysql_session_connection_next(&none, &event), wanted);
        CHECK_CODE(mysql_session_connection_value(&none, 0, 0, &value), wanted);
        CHECK_CODE(mysql_session_connection_attribute(&none, 0, &said, &len, &value), wanted);
        CHECK_CODE(mysql_session_connection_column(&none, 0, &column), wanted);
        CHECK_CODE(mysql_session_connection_line(&none, &said, &len), wanted);
        CHECK_CODE(mysql_session_connection_line_with_secrets(&none, &said, &len), wanted);
        CHECK_CODE(mysql_session_connection_line_with_texts(&none, false, &said, &len), wanted);
        CHECK_CODE(mysql_session_connection_standing(&none, &standing), wanted);
        CHECK_CODE(mysql_session_connection_statement(&none, 1, &said, &len, &params), wanted);
        CHECK_CODE(mysql_session_connection_rest(&none, 0, &said, &len), wanted);
        CHECK_CODE(mysql_session_connection_finish(&none, &end), wanted);
        CHECK_DONE(mysql_session_connection_new(&none, 10, 10, 100));
        CHECK_DONE(mysql_session_connection_new(&none, 20, 20, 100));
        mysql_session_connection_free(&none);
        mysql_session_connection_free(&none);
    }
}

/* ---- Memory ---------------------------------------------------------------------------------- */

static uint32_t feed_again(uint32_t side, const stream *all)
{
    uint32_t code = mysql_session_connection_feed(&made, side, all->bytes, all->len);
    if (code == MYSQL_SESSION_MEMORY && was_refused())
        code = mysql_session_connection_feed(&made, side, all->bytes, all->len);
    return code;
}

/* Reads on to the end, or to where memory is refused, which each further call answers too. */
static size_t read_refused(void)
{
    const uint8_t *said = NULL;
    size_t number, len = 0;
    for (number = 0; number < EVENTS; number++) {
        uint32_t code = mysql_session_connection_next(&made, &event);
        if (code != MYSQL_SESSION_OK) {
            CHECK_CODE(code, MYSQL_SESSION_MEMORY);
            CHECK(was_refused());
            CHECK_CODE(mysql_session_connection_next(&made, &event), MYSQL_SESSION_MEMORY);
            return number;
        }
        CHECK_NUMBER(event.kind, kinds[number]);
        look_at_event(&event);
        code = mysql_session_connection_line(&made, &said, &len);
        if (code == MYSQL_SESSION_MEMORY && was_refused())
            code = mysql_session_connection_line(&made, &said, &len);
        CHECK_CODE(code, MYSQL_SESSION_OK);
        code = mysql_session_connection_line_with_secrets(&made, &said, &len);
        if (code == MYSQL_SESSION_MEMORY && was_refused())
            code = mysql_session_connection_line_with_secrets(&made, &said, &len);
        CHECK_CODE(code, MYSQL_SESSION_OK);
        look_at(said, len);
        code = mysql_session_connection_line_with_texts(&made, true, &said, &len);
        if (code == MYSQL_SESSION_MEMORY && was_refused())
            code = mysql_session_connection_line_with_texts(&made, true, &said, &len);
        CHECK_CODE(code, MYSQL_SESSION_OK);
        look_at(said, len);
    }
    return number;
}

static void memory(void)
{
    stream client = stream_of(client_says), server = stream_of(server_says);
    unsigned long refused;
    for (refused = 0; refused < 2 || was_refused(); refused++) {
        uint32_t code;
        check_note("connections", (size_t)refused);
        refuse_memory(refused);
        code = mysql_session_connection_new(&made, LIMIT, LIMIT, 4 * LIMIT);
        if (code == MYSQL_SESSION_MEMORY && was_refused())
            code = mysql_session_connection_new(&made, LIMIT, LIMIT, 4 * LIMIT);
        CHECK_DONE(code);
        CHECK_DONE(feed_again(MYSQL_SESSION_CLIENT, &client));
        CHECK_DONE(feed_again(MYSQL_SESSION_SERVER, &server));
        CHECK(read_refused() == EVENTS || was_refused());
        mysql_session_connection_free(&made);
    }
    refuse_memory(0);
    CHECK(refused > 40);
    check_note("", 0);
}

/* ---- Recorded connections -------------------------------------------------------------------- */

typedef struct file {
    uint8_t *bytes;
    size_t len;
} file;

static file read_file(const char *name, const char *kind)
{
    static char path[4096];
    file found = { NULL, 0 };
    FILE *opened;
    long size = 0;
    snprintf(path, sizeof path, "%s.%s", name, kind);
    opened = fopen(path, "rb");
    if (!CHECK(opened != NULL && fseek(opened, 0, SEEK_END) == 0 && (size = ftell(opened)) >= 0)) {
        fprintf(stderr, "%s can't be read\n", path);
        exit(2);
    }
    rewind(opened);
    found.len = (size_t)size;
    found.bytes = (uint8_t *)malloc(found.len + 1);
    if (found.bytes == NULL || fread(found.bytes, 1, found.len, opened) != found.len)
        exit(2);
    fclose(opened);
    return found;
}

/* Where the next line of a recording begins. */
static size_t line_at;

/* Compares a line with that which is due; of a changed recording nothing is. */
static void check_line(const file *lines)
{
    const uint8_t *said = NULL;
    size_t len = 0, end = line_at;
    if (!CHECK_DONE(mysql_session_connection_line_with_secrets(&made, &said, &len)) ||
        lines == NULL)
        return;
    while (end < lines->len && lines->bytes[end] != '\n')
        end++;
    CHECK_BYTES(said, len, lines->bytes + line_at, end - line_at);
    line_at = end + (end < lines->len);
}

/* Takes the events that are there; the last code. */
static uint32_t take_events(const file *lines)
{
    for (;;) {
        uint32_t code = mysql_session_connection_next(&made, &event);
        if (code != MYSQL_SESSION_OK || event.kind == MYSQL_SESSION_EVENT_NONE)
            return code;
        look_at_event(&event);
        check_line(lines);
    }
}

static unsigned long random_state = 1;

static size_t random_below(size_t bound)
{
    random_state = (random_state * 1103515245u + 12345u) & 0x7fffffffu;
    return (size_t)(random_state >> 8) % bound;
}

/* Reads both streams in pieces of at most this length, the side first that is told while it has
 * some, or either where that is MYSQL_SESSION_NOBODY. */
static void read_recording(const file *client, const file *server, const file *lines,
                           uint32_t first, size_t most)
{
    mysql_session_connection_end end = { 0, 0, 0, 0, 0 };
    const file *streams[2];
    size_t at[2] = { 0, 0 };
    uint32_t code = MYSQL_SESSION_OK;
    streams[MYSQL_SESSION_CLIENT] = client;
    streams[MYSQL_SESSION_SERVER] = server;
    line_at = 0;
    CHECK_DONE(mysql_session_connection_new(&made, LIMIT, LIMIT, 8 * LIMIT));
    while (code == MYSQL_SESSION_OK && (at[0] < client->len || at[1] < server->len)) {
        uint32_t side = first != MYSQL_SESSION_NOBODY ? first : (uint32_t)random_below(2);
        size_t count;
        if (at[side] == streams[side]->len)
            side = 1 - side;
        count = streams[side]->len - at[side];
        if (most < count)
            count = 1 + random_below(most);
        CHECK_DONE(mysql_session_connection_feed(&made, side, streams[side]->bytes + at[side],
                                                 count));
        at[side] += count;
        code = take_events(lines);
    }
    CHECK_DONE(mysql_session_connection_close(&made, MYSQL_SESSION_CLIENT));
    CHECK_DONE(mysql_session_connection_close(&made, MYSQL_SESSION_SERVER));
    code = take_events(lines);
    CHECK_DONE(mysql_session_connection_finish(&made, &end));
    CHECK((code != MYSQL_SESSION_OK) == (end.kind == MYSQL_SESSION_CONNECTION_FAULT) ||
          end.fault == MYSQL_SESSION_CONNECTION_AFTER_QUIT);
    check_line(lines);
    if (lines != NULL)
        CHECK_NUMBER(line_at, lines->len);
    mysql_session_connection_free(&made);
}

/* A byte is changed: whatever is read, it is read safely. */
static void read_changed(file *client, file *server)
{
    file *changed = client->len == 0 || random_below(2) == 0 ? server : client;
    size_t at, bit;
    if (changed->len == 0)
        return;
    at = random_below(changed->len);
    bit = random_below(8);
    changed->bytes[at] = (uint8_t)(changed->bytes[at] ^ (1u << bit));
    read_recording(client, server, NULL, MYSQL_SESSION_CLIENT, (size_t)-1);
    changed->bytes[at] = (uint8_t)(changed->bytes[at] ^ (1u << bit));
}

static void recording(const char *name)
{
    file client = read_file(name, "client"), server = read_file(name, "server");
    file lines = read_file(name, "events");
    size_t number, size = client.len + server.len;
    check_note(name, 0);
    read_recording(&client, &server, &lines, MYSQL_SESSION_CLIENT, (size_t)-1);
    read_recording(&client, &server, &lines, MYSQL_SESSION_SERVER, (size_t)-1);
    read_recording(&client, &server, &lines, MYSQL_SESSION_NOBODY, size / 50 + 2);
    if (size < 10000)
        read_recording(&client, &server, &lines, MYSQL_SESSION_NOBODY, 1);
    for (number = 0; number < 10 && size < 10000; number++)
        read_changed(&client, &server);
    check_note("", 0);
    free(client.bytes);
    free(server.bytes);
    free(lines.bytes);
}

int main(int count, char **words)
{
    int word;
    a_connection();
    refusals();
    a_fault();
    lines_with_texts();
    nothing();
    memory();
    for (word = 1; word < count; word++)
        recording(words[word]);
    return check_end("connections");
}
