/* Replies are written, byte for byte as the manual lays them out, and read back. */
#include "shown.h"

#define LIMIT 65536
#define AUTOCOMMIT 2
#define LONGLONG 0x08
#define VAR_STRING 0xfd

static mysql_session_handle writer, out, sets;

static void begin(uint32_t kind, uint32_t capabilities)
{
    CHECK_DONE(mysql_session_writer_new(&writer, kind, capabilities, 1, LIMIT));
    CHECK_DONE(mysql_session_bytes_new(&out));
    CHECK_DONE(mysql_session_sets_new(&sets));
}

static void end(void)
{
    mysql_session_free(&writer);
    mysql_session_free(&out);
    mysql_session_free(&sets);
}

static mysql_session_spot no_spot(void)
{
    mysql_session_spot none;
    memset(&none, 0, sizeof none);
    return none;
}

static uint32_t put_ok(uint64_t rows, uint64_t id, uint16_t status, const char *info, bool more)
{
    mysql_session_spot spot = no_spot();
    return mysql_session_writer_ok(&writer, rows, id, status, 0, bytes_of(info), strlen(info), more,
                                   &out, &spot);
}

static uint32_t put_error(uint16_t code, const char *state, const char *message)
{
    mysql_session_spot spot = no_spot();
    return mysql_session_writer_error(&writer, code, bytes_of(state), strlen(state),
                                      bytes_of(message), strlen(message), &out, &spot);
}

static uint32_t put_column(uint8_t type, const char *name)
{
    return mysql_session_writer_column(&writer, type, bytes_of(name), strlen(name), 0, 63, 1, 0);
}

static uint32_t put_rows(void)
{
    mysql_session_spot spot = no_spot();
    return mysql_session_writer_rows(&writer, &out, &spot);
}

static uint32_t put_row(size_t set)
{
    mysql_session_spot spot = no_spot();
    return mysql_session_writer_row(&writer, &sets, set, &out, &spot);
}

static uint32_t put_end(bool more)
{
    mysql_session_spot spot = no_spot();
    return mysql_session_writer_end_rows(&writer, AUTOCOMMIT, 0, more, &out, &spot);
}

static uint32_t end_reply(void)
{
    mysql_session_spot spot = no_spot();
    return mysql_session_writer_end(&writer, &spot);
}

/* What was written reads as these results, in each size of pieces. */
static void check_read(uint32_t kind, uint32_t capabilities, const char *wanted)
{
    mysql_session_handle reply = MYSQL_SESSION_NOTHING;
    mysql_session_end how = { 0, 0, 0 };
    const uint8_t *data = NULL;
    size_t len = 0, number;
    text shown;
    CHECK_DONE(mysql_session_bytes_data(&out, &data, &len));
    for (number = 0; number < PIECE_SIZES; number++) {
        text_clear(&shown);
        CHECK_DONE(mysql_session_reply_new(&reply, kind, capabilities, 1, LIMIT));
        CHECK_DONE(read_reply(&shown, &reply, data, len, piece_size(number, len), 1));
        CHECK_DONE(mysql_session_reply_end(&reply, &how));
        CHECK_NUMBER(how.kind, MYSQL_SESSION_END_WHOLE);
        add_results(&shown, &reply);
        CHECK_WRITTEN(&shown, wanted);
        mysql_session_free(&reply);
    }
}

/* OK packets one after another; the bit for more results is set and cleared by the place. */
static void oks(void)
{
    begin(MYSQL_SESSION_REPLY_TO_QUERY, PROTOCOL_41);
    CHECK_CODE(end_reply(), MYSQL_SESSION_WRITE_NO_RESULTS);
    CHECK_DONE(put_ok(0, 0, AUTOCOMMIT, "", true));
    CHECK_CODE(end_reply(), MYSQL_SESSION_WRITE_NOT_ENDED);
    CHECK_DONE(put_ok(1, 5, AUTOCOMMIT | 8, "", false));
    CHECK_DONE(end_reply());
    CHECK_STREAM(&out, "07 00 00 01 00 00 00 0a 00 00 00 07 00 00 02 00 01 05 02 00 00 00");
    check_read(MYSQL_SESSION_REPLY_TO_QUERY, PROTOCOL_41,
               "ok rows 0 id 0 status 10 warnings 0 states 0 ||; "
               "ok rows 1 id 5 status 2 warnings 0 states 0 ||; ");
    CHECK_CODE(put_ok(0, 0, AUTOCOMMIT, "", false), MYSQL_SESSION_WRITE_AFTER_END);
    CHECK_CODE(put_error(1, "HY000", ""), MYSQL_SESSION_WRITE_AFTER_END);
    end();
}

static void info(void)
{
    begin(MYSQL_SESSION_REPLY_TO_QUERY, PROTOCOL_41 | SESSION_TRACK);
    CHECK_DONE(put_ok(1, 0, AUTOCOMMIT, "Rows matched: 1", false));
    CHECK_STREAM(&out, "17 00 00 01 00 01 00 02 00 00 00 0f |Rows matched: 1|");
    check_read(MYSQL_SESSION_REPLY_TO_QUERY, PROTOCOL_41 | SESSION_TRACK,
               "ok rows 1 id 0 status 2 warnings 0 states 0 |Rows matched: 1|; ");
    end();
}

static void errors(void)
{
    begin(MYSQL_SESSION_REPLY_TO_QUERY, PROTOCOL_41);
    CHECK_CODE(put_error(1096, "HY00", "short"), MYSQL_SESSION_BAD_PACKET);
    CHECK_STREAM(&out, "");
    CHECK_DONE(put_error(1096, "HY000", "No tables used"));
    CHECK_DONE(end_reply());
    CHECK_STREAM(&out, "17 00 00 01 ff 48 04 |#HY000No tables used|");
    check_read(MYSQL_SESSION_REPLY_TO_QUERY, PROTOCOL_41, "error 1096 |HY000| |No tables used|; ");
    end();
}

/* Two sets, of which each is a row of a number and a text. */
static void fill_sets(void)
{
    CHECK_DONE(mysql_session_sets_push_int(&sets, -5));
    CHECK_DONE(mysql_session_sets_push_bytes(&sets, bytes_of("it's"), 4));
    CHECK_DONE(mysql_session_sets_end_set(&sets));
    CHECK_DONE(mysql_session_sets_push_null(&sets));
    CHECK_DONE(mysql_session_sets_push_bytes(&sets, bytes_of(""), 0));
    CHECK_DONE(mysql_session_sets_end_set(&sets));
}

static void write_rows(void)
{
    fill_sets();
    CHECK_DONE(put_column(LONGLONG, "a"));
    CHECK_DONE(put_column(VAR_STRING, "b"));
    CHECK_DONE(put_rows());
    CHECK_CODE(end_reply(), MYSQL_SESSION_WRITE_NOT_ENDED);
    CHECK_DONE(put_row(0));
    CHECK_DONE(put_row(1));
    CHECK_CODE(put_row(2), MYSQL_SESSION_OUT_OF_RANGE);
    CHECK_DONE(put_end(false));
    CHECK_DONE(end_reply());
}

#define COLUMNS \
    "01 00 00 01 02 " \
    "17 00 00 02 03 |def| 00 00 00 01 |a| 00 0c 3f 00 01 00 00 00 08 00 00 00 00 00 " \
    "17 00 00 03 03 |def| 00 00 00 01 |b| 00 0c 3f 00 01 00 00 00 fd 00 00 00 00 00 "

static void text_rows(void)
{
    begin(MYSQL_SESSION_REPLY_TO_QUERY, PROTOCOL_41 | DEPRECATE_EOF);
    write_rows();
    CHECK_STREAM(&out, COLUMNS "08 00 00 04 02 |-5| 04 |it's| 02 00 00 05 fb 00 "
                 "07 00 00 06 fe 00 00 02 00 00 00");
    check_read(MYSQL_SESSION_REPLY_TO_QUERY, PROTOCOL_41 | DEPRECATE_EOF,
               "row |-5| |it's|; row null ||; ");
    end();
}

/* With EOF packets, of which the one behind the columns tells no status. */
static void text_rows_with_eof(void)
{
    begin(MYSQL_SESSION_REPLY_TO_QUERY, PROTOCOL_41);
    write_rows();
    CHECK_STREAM(&out, COLUMNS "05 00 00 04 fe 00 00 00 00 08 00 00 05 02 |-5| 04 |it's| "
                 "02 00 00 06 fb 00 05 00 00 07 fe 00 00 02 00");
    check_read(MYSQL_SESSION_REPLY_TO_QUERY, PROTOCOL_41, "row |-5| |it's|; row null ||; ");
    end();
}

static void binary_rows(void)
{
    begin(MYSQL_SESSION_REPLY_TO_EXECUTE, PROTOCOL_41 | DEPRECATE_EOF);
    write_rows();
    CHECK_STREAM(&out, COLUMNS "0f 00 00 04 00 00 fb ff ff ff ff ff ff ff 04 |it's| "
                 "03 00 00 05 00 04 00 07 00 00 06 fe 00 00 02 00 00 00");
    check_read(MYSQL_SESSION_REPLY_TO_EXECUTE, PROTOCOL_41 | DEPRECATE_EOF,
               "row -5 |it's|; row null ||; ");
    end();
}

static uint32_t put_prepared(size_t params)
{
    mysql_session_spot spot = no_spot();
    return mysql_session_writer_prepared(&writer, 7, params, 0, &out, &spot);
}

static void prepared(void)
{
    begin(MYSQL_SESSION_REPLY_TO_PREPARE, PROTOCOL_41 | DEPRECATE_EOF);
    CHECK_DONE(put_column(LONGLONG, "?"));
    CHECK_DONE(put_column(VAR_STRING, "b"));
    CHECK_CODE(put_prepared(3), MYSQL_SESSION_OUT_OF_RANGE);
    CHECK_CODE(put_ok(0, 0, AUTOCOMMIT, "", false), MYSQL_SESSION_WRITE_WRONG_KIND);
    CHECK_DONE(put_prepared(1));
    CHECK_DONE(end_reply());
    CHECK_STREAM(&out, "0c 00 00 01 00 07 00 00 00 01 00 01 00 00 00 00 "
                 "17 00 00 02 03 |def| 00 00 00 01 |?| 00 0c 3f 00 01 00 00 00 08 00 00 00 00 00 "
                 "17 00 00 03 03 |def| 00 00 00 01 |b| 00 0c 3f 00 01 00 00 00 fd 00 00 00 00 00");
    check_read(MYSQL_SESSION_REPLY_TO_PREPARE, PROTOCOL_41 | DEPRECATE_EOF,
               "prepared 7 params 1 columns 1 warnings 0; ");
    end();
}

/* Rows, and behind them rows under other columns, and an error in place of an end. */
static void several(void)
{
    begin(MYSQL_SESSION_REPLY_TO_QUERY, PROTOCOL_41);
    CHECK_DONE(mysql_session_sets_push_int(&sets, 1));
    CHECK_DONE(mysql_session_sets_end_set(&sets));
    CHECK_DONE(put_column(LONGLONG, "a"));
    CHECK_DONE(put_rows());
    /* A refused result uses its columns up. */
    CHECK_DONE(put_column(LONGLONG, "x"));
    CHECK_CODE(put_rows(), MYSQL_SESSION_WRITE_NOT_ENDED);
    CHECK_DONE(put_row(0));
    CHECK_DONE(put_end(true));
    CHECK_CODE(put_rows(), MYSQL_SESSION_WRITE_NO_COLUMNS);
    CHECK_DONE(put_column(VAR_STRING, "b"));
    CHECK_DONE(put_rows());
    CHECK_DONE(put_row(0));
    CHECK_DONE(put_error(1317, "70100", "end"));
    CHECK_DONE(end_reply());
    check_read(MYSQL_SESSION_REPLY_TO_QUERY, PROTOCOL_41,
               "row |1|; row |1|; error 1317 |70100| |end|; ");
    end();
}

/* The place of a row that isn't written, and that nothing is appended by it. */
static void refused_row(size_t set, uint32_t code, size_t place)
{
    mysql_session_spot spot = no_spot();
    const uint8_t *data = NULL;
    size_t before = 0, after = 0;
    CHECK_DONE(mysql_session_bytes_data(&out, &data, &before));
    CHECK_CODE(mysql_session_writer_row(&writer, &sets, set, &out, &spot), code);
    CHECK_NUMBER(spot.result, 0);
    CHECK_NUMBER(spot.row, 1);
    CHECK_NUMBER(spot.place, place);
    CHECK_DONE(mysql_session_bytes_data(&out, &data, &after));
    CHECK_NUMBER(after, before);
}

static void refusals(void)
{
    begin(MYSQL_SESSION_REPLY_TO_EXECUTE, PROTOCOL_41 | DEPRECATE_EOF);
    fill_sets();
    CHECK_DONE(mysql_session_sets_push_bytes(&sets, bytes_of("x"), 1));
    CHECK_DONE(mysql_session_sets_push_bytes(&sets, bytes_of("y"), 1));
    CHECK_DONE(mysql_session_sets_end_set(&sets));
    CHECK_DONE(mysql_session_sets_end_set(&sets));
    CHECK_CODE(put_row(0), MYSQL_SESSION_WRITE_NOT_BEGUN);
    CHECK_CODE(put_end(false), MYSQL_SESSION_WRITE_NOT_BEGUN);
    CHECK_CODE(put_rows(), MYSQL_SESSION_WRITE_NO_COLUMNS);
    CHECK_CODE(put_prepared(0), MYSQL_SESSION_WRITE_WRONG_KIND);
    CHECK_CODE(put_column(0x20, "c"), MYSQL_SESSION_NO_SUCH_KIND);
    CHECK_DONE(put_column(LONGLONG, "a"));
    CHECK_DONE(put_column(VAR_STRING, "b"));
    CHECK_DONE(put_rows());
    CHECK_DONE(put_row(0));
    refused_row(2, MYSQL_SESSION_WRITE_NO_FORM, 0);
    refused_row(3, MYSQL_SESSION_WRITE_CELL_COUNT, 0);
    CHECK_CODE(put_ok(0, 0, AUTOCOMMIT, "", false), MYSQL_SESSION_WRITE_NOT_ENDED);
    CHECK_DONE(put_end(false));
    check_read(MYSQL_SESSION_REPLY_TO_EXECUTE, PROTOCOL_41 | DEPRECATE_EOF, "row -5 |it's|; ");
    end();
}

/* A status with a bit that has no name, an error that reads as a report, a packet too large. */
static void refused_packets(void)
{
    mysql_session_spot spot = no_spot();
    begin(MYSQL_SESSION_REPLY_TO_QUERY, PROTOCOL_41 | PROGRESS_OBSOLETE);
    CHECK_CODE(put_ok(0, 0, 4, "", false), MYSQL_SESSION_WRITE_STATUS);
    CHECK_CODE(put_error(65535, "HY000", "x"), MYSQL_SESSION_WRITE_READS_AS_REPORT);
    CHECK_DONE(mysql_session_writer_new(&writer, MYSQL_SESSION_REPLY_TO_QUERY, PROTOCOL_41, 1, 6));
    CHECK_CODE(mysql_session_writer_ok(&writer, 0, 0, AUTOCOMMIT, 0, bytes_of(""), 0, false, &out,
                                       &spot), MYSQL_SESSION_WRITE_PACKET_TOO_LARGE);
    CHECK_NUMBER(spot.payload, 0);
    CHECK_STREAM(&out, "");
    end();
}

static void no_such_kind(void)
{
    mysql_session_handle none = MYSQL_SESSION_NOTHING;
    CHECK_CODE(mysql_session_writer_new(&none, 3, PROTOCOL_41, 1, LIMIT),
               MYSQL_SESSION_NO_SUCH_KIND);
    CHECK(none.at == NULL);
}

int main(void)
{
    oks();
    info();
    errors();
    text_rows();
    text_rows_with_eof();
    binary_rows();
    prepared();
    several();
    refusals();
    refused_packets();
    no_such_kind();
    return check_end("written");
}
