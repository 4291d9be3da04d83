/* Replies of servers are read, in one piece, in pieces of three bytes and byte by byte. */
#include "shown.h"

#define OK_1 "07 00 00 01 00 01 00 02 00 00 00 "
#define OK_AND_MORE "07 00 00 01 00 00 00 0a 00 00 00 "
#define COLUMN_AT(number) \
    "16 00 00 " number " 03 |def| 00 00 00 00 00 0c 3f 00 01 00 00 00 08 00 00 00 00 00 "
#define ONE_COLUMN "01 00 00 01 01 " COLUMN_AT("02")
#define TWO_COLUMNS "01 00 00 01 02 " COLUMN_AT("02") COLUMN_AT("03")
#define EOF_AT(number) "05 00 00 " number " fe 00 00 02 00 "
#define END_AT(number) "07 00 00 " number " fe 00 00 02 00 00 00 "
#define STATEMENT "0c 00 00 01 00 01 00 00 00 01 00 02 00 00 00 00 "

#define TO_QUERY MYSQL_SESSION_REPLY_TO_QUERY
#define TO_EXECUTE MYSQL_SESSION_REPLY_TO_EXECUTE
#define TO_PREPARE MYSQL_SESSION_REPLY_TO_PREPARE
#define WHOLE MYSQL_SESSION_END_WHOLE, 0, 0
#define UNFINISHED MYSQL_SESSION_END_UNFINISHED_PACKET, 0, 0
#define FAULT(name, payload) MYSQL_SESSION_END_FAULT, MYSQL_SESSION_REPLY_##name, (payload)

/* A reply, what it says, and how it ends. */
typedef struct row {
    uint32_t kind;
    uint32_t capabilities;
    const char *written;
    const char *results;
    uint32_t end;
    uint32_t fault;
    uint64_t payload;
} row;

static const row rows[] = {
    { TO_QUERY, PROTOCOL_41, "", "", UNFINISHED },
    { TO_QUERY, PROTOCOL_41, OK_1, "ok rows 1 id 0 status 2 warnings 0 states 0 ||; ", WHOLE },
    { TO_QUERY, PROTOCOL_41, OK_AND_MORE, "ok rows 0 id 0 status 10 warnings 0 states 0 ||; ",
      UNFINISHED },
    { TO_QUERY, PROTOCOL_41, OK_AND_MORE "07 00 00 02 00 05 00 02 00 00 00",
      "ok rows 0 id 0 status 10 warnings 0 states 0 ||; "
      "ok rows 5 id 0 status 2 warnings 0 states 0 ||; ", WHOLE },
    { TO_QUERY, PROTOCOL_41 | SESSION_TRACK,
      "18 00 00 01 00 fc 01 02 07 02 00 03 00 0e |Rows matched: |",
      "ok rows 513 id 7 status 2 warnings 3 states 0 |Rows matched: |; ", WHOLE },
    { TO_QUERY, PROTOCOL_41, "17 00 00 01 ff 48 04 |#HY000No tables used|",
      "error 1096 |HY000| |No tables used|; ", WHOLE },
    { TO_QUERY, 0, "17 00 00 01 ff 10 04 |Too many connections|",
      "error 1040 || |Too many connections|; ", WHOLE },
    { TO_QUERY, PROTOCOL_41, "0a 00 00 01 fb |file_name|", "file |file_name|; ", WHOLE },
    { TO_QUERY, PROTOCOL_41 | DEPRECATE_EOF,
      TWO_COLUMNS "03 00 00 04 fb 01 |5| 03 00 00 05 01 |5| ff", "row null |5|; ",
      FAULT(BAD_ROW, 4) },
    { TO_QUERY, PROTOCOL_41 | DEPRECATE_EOF,
      TWO_COLUMNS "03 00 00 04 01 |5| fb 06 00 00 05 00 04 |it's| " END_AT("06"),
      "row |5| null; row || |it's|; ", WHOLE },
    { TO_QUERY, PROTOCOL_41,
      ONE_COLUMN EOF_AT("03") "02 00 00 04 01 |5| 02 00 00 05 01 |6| " EOF_AT("06"),
      "row |5|; row |6|; ", WHOLE },
    { TO_QUERY, PROTOCOL_41, ONE_COLUMN EOF_AT("03") "02 00 00 04 01 |5|", "row |5|; ",
      UNFINISHED },
    { TO_QUERY, PROTOCOL_41,
      ONE_COLUMN EOF_AT("03") "02 00 00 04 01 |5| 0c 00 00 05 ff 25 05 |#70100end|",
      "row |5|; error 1317 |70100| |end|; ", WHOLE },
    { TO_QUERY, PROTOCOL_41 | DEPRECATE_EOF | PROGRESS_OBSOLETE,
      ONE_COLUMN "0e 00 00 03 ff ff ff 01 01 02 cc 5b 00 04 |sort| 02 00 00 04 01 |5| "
      END_AT("05"), "row |5|; ", WHOLE },
    { TO_EXECUTE, PROTOCOL_41 | DEPRECATE_EOF,
      ONE_COLUMN "0a 00 00 03 00 00 fb ff ff ff ff ff ff ff 02 00 00 04 00 04 " END_AT("05"),
      "row -5; row null; ", WHOLE },
    { TO_PREPARE, PROTOCOL_41, "0c 00 00 01 00 01 00 00 00 00 00 00 00 00 00 00",
      "prepared 1 params 0 columns 0 warnings 0; ", WHOLE },
    { TO_PREPARE, PROTOCOL_41,
      STATEMENT COLUMN_AT("02") COLUMN_AT("03") EOF_AT("04") COLUMN_AT("05") EOF_AT("06"),
      "prepared 1 params 2 columns 1 warnings 0; ", WHOLE },
    { TO_PREPARE, PROTOCOL_41 | DEPRECATE_EOF,
      STATEMENT COLUMN_AT("02") COLUMN_AT("03") COLUMN_AT("04"),
      "prepared 1 params 2 columns 1 warnings 0; ", WHOLE },
    { TO_PREPARE, PROTOCOL_41, STATEMENT COLUMN_AT("02") COLUMN_AT("03"), "", UNFINISHED },
    { TO_QUERY, PROTOCOL_41, "ff ff ff 01", "", FAULT(TOO_LARGE, 0) },
    { TO_QUERY, PROTOCOL_41, "07 00 00 02 00 01 00 02 00 00 00", "", FAULT(OUT_OF_SYNC, 0) },
    { TO_QUERY, PROTOCOL_41, "00 00 00 01", "", FAULT(BAD_HEADER, 0) },
    { TO_QUERY, PROTOCOL_41, "03 00 00 01 fc 00 00", "", FAULT(BAD_COUNT, 0) },
    { TO_QUERY, PROTOCOL_41, "01 00 00 01 01 01 00 00 02 00", "", FAULT(BAD_COLUMN, 1) },
    { TO_QUERY, PROTOCOL_41, "02 00 00 01 00 01", "", FAULT(BAD_OK, 0) },
    { TO_QUERY, PROTOCOL_41, "03 00 00 01 ff 10 04", "", FAULT(BAD_ERROR, 0) },
    { TO_QUERY, PROTOCOL_41, ONE_COLUMN "01 00 00 03 00", "", FAULT(BAD_TERMINATOR, 2) },
    { TO_PREPARE, PROTOCOL_41, "02 00 00 01 00 01", "", FAULT(BAD_PREPARE, 0) },
    { TO_QUERY, PROTOCOL_41, OK_1 "07 00 00 02 00 01 00 02 00 00 00",
      "ok rows 1 id 0 status 2 warnings 0 states 0 ||; ", FAULT(AFTER_END, 1) },
};

static void check_reply_end(mysql_session_handle *reply, const row *wanted)
{
    mysql_session_end end = { 77, 77, 77 };
    int times;
    for (times = 0; times < 2; times++) {
        CHECK_DONE(mysql_session_reply_end(reply, &end));
        CHECK_NUMBER(end.kind, wanted->end);
        CHECK_NUMBER(end.fault, wanted->fault);
        CHECK_NUMBER(end.payload, wanted->payload);
    }
    CHECK_CODE(mysql_session_reply_feed(reply, bytes_of(""), 0), MYSQL_SESSION_OTHER_KIND);
    CHECK_CODE(mysql_session_reply_take(reply), MYSQL_SESSION_OTHER_KIND);
}

static void read_row(const row *given, size_t piece, int as_they_come)
{
    mysql_session_handle reply = MYSQL_SESSION_NOTHING;
    stream whole = stream_of(given->written);
    text shown;
    text_clear(&shown);
    CHECK_DONE(mysql_session_reply_new(&reply, given->kind, given->capabilities, 1, 1000));
    CHECK_CODE(read_reply(&shown, &reply, whole.bytes, whole.len, piece, as_they_come),
               given->fault);
    CHECK_CODE(mysql_session_reply_feed(&reply, bytes_of(""), 0), given->fault);
    check_reply_end(&reply, given);
    add_results(&shown, &reply);
    CHECK_WRITTEN(&shown, given->results);
    mysql_session_free(&reply);
}

static void all_rows(void)
{
    size_t at, number;
    for (at = 0; at < sizeof rows / sizeof rows[0]; at++) {
        for (number = 0; number < PIECE_SIZES; number++) {
            size_t piece = piece_size(number, STREAM_ROOM);
            check_note(rows[at].written, piece);
            read_row(&rows[at], piece, 0);
            read_row(&rows[at], piece, 1);
        }
    }
    check_note("", 0);
}

/* Reads a whole reply byte by byte, to its end. */
static void read_whole(mysql_session_handle *reply, uint32_t kind, uint32_t capabilities,
                       const char *written)
{
    mysql_session_end end = { 0, 0, 0 };
    stream whole = stream_of(written);
    size_t fed;
    CHECK_DONE(mysql_session_reply_new(reply, kind, capabilities, 1, 1000));
    for (fed = 0; fed < whole.len; fed++)
        CHECK_DONE(mysql_session_reply_feed(reply, whole.bytes + fed, 1));
    CHECK_DONE(mysql_session_reply_end(reply, &end));
    CHECK_NUMBER(end.kind, MYSQL_SESSION_END_WHOLE);
}

#define NAMED_COLUMN_AT(number) \
    "36 00 00 " number " 03 |def| 06 |schema| 05 |table| 09 |org_table| 04 |name| 08 |org_name| " \
    "0c 21 00 0f 00 00 00 fd 01 40 08 00 00 "

static void check_named(const mysql_session_column *column)
{
    CHECK_NUMBER(column->type, 0xfd);
    CHECK_NUMBER(column->decimals, 8);
    CHECK_NUMBER(column->flags, 0x4001);
    CHECK_NUMBER(column->charset, 33);
    CHECK_NUMBER(column->length, 15);
    CHECK_TEXT(column->schema, column->schema_len, "schema");
    CHECK_TEXT(column->table, column->table_len, "table");
    CHECK_TEXT(column->org_table, column->org_table_len, "org_table");
    CHECK_TEXT(column->name, column->name_len, "name");
    CHECK_TEXT(column->org_name, column->org_name_len, "org_name");
}

/* The columns of rows, with all of their texts. */
static void columns(void)
{
    mysql_session_handle reply = MYSQL_SESSION_NOTHING;
    mysql_session_column column;
    mysql_session_result result = no_result();
    memset(&column, 0, sizeof column);
    read_whole(&reply, TO_QUERY, PROTOCOL_41,
               "01 00 00 01 02 " COLUMN_AT("02") NAMED_COLUMN_AT("03") EOF_AT("04") EOF_AT("05"));
    CHECK_DONE(mysql_session_reply_result(&reply, 0, &result));
    CHECK_NUMBER(result.kind, MYSQL_SESSION_RESULT_ROWS);
    CHECK_NUMBER(result.columns, 2);
    CHECK_NUMBER(result.rows, 0);
    CHECK(result.ended);
    CHECK_NUMBER(result.status, 2);
    CHECK_DONE(mysql_session_reply_column(&reply, 0, 0, &column));
    CHECK_NUMBER(column.type, 8);
    CHECK_NUMBER(column.name_len, 0);
    CHECK_DONE(mysql_session_reply_column(&reply, 0, 1, &column));
    check_named(&column);
    CHECK_CODE(mysql_session_reply_column(&reply, 0, 2, &column), MYSQL_SESSION_OUT_OF_RANGE);
    CHECK_CODE(mysql_session_reply_column(&reply, 1, 0, &column), MYSQL_SESSION_OUT_OF_RANGE);
    CHECK_CODE(mysql_session_reply_param(&reply, 0, 0, &column), MYSQL_SESSION_OUT_OF_RANGE);
    mysql_session_free(&reply);
}

/* The parameters and the columns of a prepared statement. */
static void prepared(void)
{
    mysql_session_handle reply = MYSQL_SESSION_NOTHING;
    mysql_session_column column;
    memset(&column, 0, sizeof column);
    read_whole(&reply, TO_PREPARE, PROTOCOL_41,
               STATEMENT COLUMN_AT("02") NAMED_COLUMN_AT("03") EOF_AT("04")
               NAMED_COLUMN_AT("05") EOF_AT("06"));
    CHECK_DONE(mysql_session_reply_param(&reply, 0, 0, &column));
    CHECK_NUMBER(column.type, 8);
    CHECK_DONE(mysql_session_reply_param(&reply, 0, 1, &column));
    check_named(&column);
    CHECK_CODE(mysql_session_reply_param(&reply, 0, 2, &column), MYSQL_SESSION_OUT_OF_RANGE);
    CHECK_CODE(mysql_session_reply_param(&reply, 1, 0, &column), MYSQL_SESSION_OUT_OF_RANGE);
    CHECK_DONE(mysql_session_reply_column(&reply, 0, 0, &column));
    check_named(&column);
    CHECK_CODE(mysql_session_reply_column(&reply, 0, 1, &column), MYSQL_SESSION_OUT_OF_RANGE);
    mysql_session_free(&reply);
}

/* Cells of a binary row of each kind of value, each under a column of its type. */
static void binary_kinds(void)
{
    mysql_session_handle reply = MYSQL_SESSION_NOTHING;
    text shown;
    text_clear(&shown);
    read_whole(&reply, TO_EXECUTE, PROTOCOL_41 | DEPRECATE_EOF,
               "01 00 00 01 06 "
               "16 00 00 02 03 |def| 00 00 00 00 00 0c 3f 00 01 00 00 00 04 00 00 00 00 00 "
               "16 00 00 03 03 |def| 00 00 00 00 00 0c 3f 00 01 00 00 00 05 00 00 00 00 00 "
               "16 00 00 04 03 |def| 00 00 00 00 00 0c 3f 00 01 00 00 00 0c 00 00 00 00 00 "
               "16 00 00 05 03 |def| 00 00 00 00 00 0c 3f 00 01 00 00 00 0b 00 00 00 00 00 "
               "16 00 00 06 03 |def| 00 00 00 00 00 0c 3f 00 01 00 00 00 08 20 00 00 00 00 "
               "16 00 00 07 03 |def| 00 00 00 00 00 0c 3f 00 01 00 00 00 fc 00 00 00 00 00 "
               "32 00 00 08 00 00 00 00 c0 3f 00 00 00 00 00 00 f8 3f "
               "0b e8 07 02 1d 17 3b 3a 07 00 00 00 0c 01 01 00 00 00 02 03 04 05 00 00 00 "
               "ff ff ff ff ff ff ff ff 02 00 ff " END_AT("09"));
    add_results(&shown, &reply);
    CHECK_WRITTEN(&shown, "row float 1069547520 double 4609434218613702656 "
                  "date 2024-2-29 23:59:58.7 time -1d 2:3:4.5 u18446744073709551615 x00ff; ");
    mysql_session_free(&reply);
}

/* Shows the next change of the session's state of the result 0. */
static uint32_t next_state(mysql_session_handle *reply, size_t *position, text *shown)
{
    const uint8_t *data = NULL;
    size_t len = 0, before = *position;
    uint8_t type = 77;
    uint32_t code = mysql_session_reply_state(reply, 0, position, &type, &data, &len);
    if (code == MYSQL_SESSION_OK) {
        CHECK(*position > before);
        text_add_unsigned(shown, type);
        text_add(shown, " ");
        text_add_bytes(shown, data, len);
        text_add(shown, "; ");
    } else {
        CHECK_NUMBER(*position, before);
        CHECK_NUMBER(type, 77);
    }
    return code;
}

/* What an OK packet tells of the session: a variable and the schema, shown in one pass. */
static void states(void)
{
    mysql_session_handle reply = MYSQL_SESSION_NOTHING;
    mysql_session_result result = no_result();
    const uint8_t *data = NULL;
    size_t len = 0, position = 0, first;
    uint8_t type = 77;
    text shown;
    text_clear(&shown);
    read_whole(&reply, TO_QUERY, PROTOCOL_41 | SESSION_TRACK,
               "21 00 00 01 00 00 00 02 40 00 00 00 18 00 0f 0a |autocommit| 03 |OFF| "
               "01 05 04 |test|");
    CHECK_DONE(mysql_session_reply_result(&reply, 0, &result));
    CHECK_NUMBER(result.states, 2);
    CHECK_DONE(next_state(&reply, &position, &shown));
    first = position;
    CHECK_DONE(next_state(&reply, &position, &shown));
    CHECK_WRITTEN(&shown, "0 x0a6175746f636f6d6d6974034f4646; 1 x0474657374; ");
    CHECK_NUMBER(position, 24);
    CHECK_CODE(next_state(&reply, &position, &shown), MYSQL_SESSION_OUT_OF_RANGE);
    /* A position that was kept shows the same change again; behind all there is none. */
    text_clear(&shown);
    CHECK_DONE(next_state(&reply, &first, &shown));
    CHECK_WRITTEN(&shown, "1 x0474657374; ");
    position = (size_t)-1;
    CHECK_CODE(next_state(&reply, &position, &shown), MYSQL_SESSION_OUT_OF_RANGE);
    position = 0;
    CHECK_CODE(mysql_session_reply_state(&reply, 1, &position, &type, &data, &len),
               MYSQL_SESSION_OUT_OF_RANGE);
    CHECK_NUMBER(position, 0);
    mysql_session_free(&reply);
}

/* The schema, and behind it a change that is cut off or of no known type: none is counted, and the
 * first is shown. Rows have no OK packet until they end. */
static void bad_states(void)
{
    static const char *const streams[] = {
        "12 00 00 01 00 00 00 02 40 00 00 00 09 01 05 04 |test| 01 05",
        "12 00 00 01 00 00 00 02 40 00 00 00 09 01 05 04 |test| 06 00",
    };
    size_t i;
    for (i = 0; i < sizeof streams / sizeof streams[0]; i++) {
        mysql_session_handle reply = MYSQL_SESSION_NOTHING;
        mysql_session_result result = no_result();
        size_t position = 0;
        text shown;
        text_clear(&shown);
        check_note(streams[i], 0);
        read_whole(&reply, TO_QUERY, PROTOCOL_41 | SESSION_TRACK, streams[i]);
        CHECK_DONE(mysql_session_reply_result(&reply, 0, &result));
        CHECK_NUMBER(result.states, 0);
        CHECK_DONE(next_state(&reply, &position, &shown));
        CHECK_WRITTEN(&shown, "1 x0474657374; ");
        CHECK_CODE(next_state(&reply, &position, &shown), MYSQL_SESSION_BAD_PACKET);
        mysql_session_free(&reply);
    }
    check_note("", 0);
}

/* The result of the number 0, in a struct whose bytes are all the same before. */
static mysql_session_result over_old(mysql_session_handle *reply, uint32_t kind)
{
    mysql_session_result result;
    memset(&result, 1, sizeof result);
    CHECK_DONE(mysql_session_reply_result(reply, 0, &result));
    CHECK_NUMBER(result.kind, kind);
    return result;
}

/* A struct that is used again holds nothing of what it held: what its kind doesn't have is 0. */
static void reused(void)
{
    mysql_session_handle reply = MYSQL_SESSION_NOTHING;
    mysql_session_result result;
    stream open = stream_of(TWO_COLUMNS EOF_AT("04") "03 00 00 05 01 |5| fb");
    CHECK_DONE(mysql_session_reply_new(&reply, TO_QUERY, PROTOCOL_41, 1, 1000));
    CHECK_DONE(mysql_session_reply_feed(&reply, open.bytes, open.len));
    CHECK_DONE(mysql_session_reply_take(&reply));
    result = over_old(&reply, MYSQL_SESSION_RESULT_ROWS);
    CHECK_NUMBER(result.columns, 2);
    CHECK_NUMBER(result.rows, 1);
    CHECK(!result.ended);
    CHECK(result.text != NULL);
    CHECK_NUMBER(result.len + result.states + result.params + result.state_len, 0);
    CHECK(result.status == 0 && result.warnings == 0);
    CHECK(result.error_code == 0 && result.statement == 0);
    CHECK_NUMBER(result.affected_rows + result.last_insert_id, 0);
    mysql_session_free(&reply);
    read_whole(&reply, TO_PREPARE, PROTOCOL_41,
               "0c 00 00 01 00 01 00 00 00 00 00 00 00 00 00 00");
    result = over_old(&reply, MYSQL_SESSION_RESULT_PREPARED);
    CHECK(result.ended && result.text != NULL);
    CHECK_NUMBER(result.len + result.states + result.rows, 0);
    CHECK(result.status == 0);
    mysql_session_free(&reply);
    read_whole(&reply, TO_QUERY, 0, "17 00 00 01 ff 10 04 |Too many connections|");
    result = over_old(&reply, MYSQL_SESSION_RESULT_ERROR);
    CHECK_NUMBER(result.error_code, 1040);
    CHECK_NUMBER(result.states + result.state_len + result.state[0] + result.columns, 0);
    mysql_session_free(&reply);
}

/* A number that names no kind makes no reader, whatever the limit is. */
static void no_such_kind(void)
{
    static const uint32_t kinds[] = { 3, 4, 256, UINT32_MAX };
    mysql_session_handle reply = MYSQL_SESSION_NOTHING;
    size_t i;
    for (i = 0; i < sizeof kinds / sizeof kinds[0]; i++) {
        CHECK_CODE(mysql_session_reply_new(&reply, kinds[i], PROTOCOL_41, 1, 1000 * i),
                   MYSQL_SESSION_NO_SUCH_KIND);
        CHECK(reply.at == NULL);
    }
}

int main(void)
{
    all_rows();
    columns();
    prepared();
    binary_kinds();
    states();
    bad_states();
    reused();
    no_such_kind();
    return check_end("replies");
}
