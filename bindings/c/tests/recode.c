/* Streams of each road are recoded as the same executions, however they are cut. */
#include "check.h"

#define QUERY "SELECT ?"
#define PREPARE "09 00 00 00 16 |SELECT ?| "
#define EXECUTION_OF "16 00 00 00 17 01 00 00 00 00 01 00 00 00 00 01 08 00 "
#define EXECUTE_1 EXECUTION_OF "01 00 00 00 00 00 00 00 "
#define EXECUTE_2 EXECUTION_OF "02 00 00 00 00 00 00 00 "
#define EXECUTE_5 EXECUTION_OF "05 00 00 00 00 00 00 00 "
#define EXECUTE_NULL "0e 00 00 00 17 01 00 00 00 00 01 00 00 00 01 01 06 00 "
#define EXECUTE_X "10 00 00 00 17 01 00 00 00 00 01 00 00 00 00 01 fd 00 01 |x| "
#define EXECUTE_TINY_5 "0f 00 00 00 17 01 00 00 00 00 01 00 00 00 00 01 01 00 05 "
#define LONG_DATA_X "08 00 00 00 18 01 00 00 00 00 00 |x| "
#define RESET "05 00 00 00 1a 01 00 00 00 "
#define BULK_1_2 \
    "1b 00 00 00 fa 01 00 00 00 80 00 08 00 00 01 00 00 00 00 00 00 00 00 02 00 00 00 00 00 00 00 "
#define TEXT_1 "09 00 00 00 03 |SELECT 1| "

/* A stream, what it is recoded as, and what the end answers. */
static const struct {
    const char *written;
    const char *recoded;
    uint32_t code;
    uint32_t end;
} rows[] = {
    { "", PREPARE, MYSQL_SESSION_OK, MYSQL_SESSION_END_WHOLE },
    { TEXT_1, PREPARE EXECUTE_1, MYSQL_SESSION_OK, MYSQL_SESSION_END_WHOLE },
    { PREPARE, PREPARE, MYSQL_SESSION_OK, MYSQL_SESSION_END_WHOLE },
    { PREPARE EXECUTE_TINY_5, PREPARE EXECUTE_5, MYSQL_SESSION_OK, MYSQL_SESSION_END_WHOLE },
    { TEXT_1 PREPARE EXECUTE_TINY_5, PREPARE EXECUTE_1 EXECUTE_5, MYSQL_SESSION_OK,
      MYSQL_SESSION_END_WHOLE },
    { PREPARE LONG_DATA_X EXECUTE_NULL, PREPARE EXECUTE_X, MYSQL_SESSION_OK,
      MYSQL_SESSION_END_WHOLE },
    { PREPARE LONG_DATA_X RESET EXECUTE_1, PREPARE EXECUTE_1, MYSQL_SESSION_OK,
      MYSQL_SESSION_END_WHOLE },
    { PREPARE BULK_1_2, PREPARE EXECUTE_1 EXECUTE_2, MYSQL_SESSION_OK, MYSQL_SESSION_END_WHOLE },
    { TEXT_1 "09 00 00", PREPARE EXECUTE_1, MYSQL_SESSION_UNFINISHED,
      MYSQL_SESSION_END_UNFINISHED_PACKET },
    { PREPARE LONG_DATA_X, "", MYSQL_SESSION_UNFINISHED, MYSQL_SESSION_END_WAITING_PIECES },
};

static mysql_session_stop no_stop(void)
{
    mysql_session_stop none;
    memset(&none, 0, sizeof none);
    return none;
}

/* Feeds a stream in pieces up to a code that isn't OK, and returns that. */
static uint32_t feed(mysql_session_handle *recoder, const stream *whole, size_t piece,
                     mysql_session_handle *out, mysql_session_stop *stop)
{
    uint32_t code = MYSQL_SESSION_OK;
    size_t fed = 0;
    while (code == MYSQL_SESSION_OK && fed < whole->len) {
        size_t count = piece_at(fed, piece, whole->len);
        code = mysql_session_recoder_feed(recoder, whole->bytes + fed, count, out, stop);
        fed += count;
    }
    return code;
}

static void recode(size_t at, size_t piece)
{
    mysql_session_handle recoder = MYSQL_SESSION_NOTHING, out = MYSQL_SESSION_NOTHING;
    mysql_session_stop stop = no_stop();
    stream whole = stream_of(rows[at].written);
    CHECK_DONE(mysql_session_bytes_new(&out));
    CHECK_DONE(mysql_session_recoder_new(&recoder, bytes_of(QUERY), strlen(QUERY), 1, 1000, 0));
    CHECK_DONE(feed(&recoder, &whole, piece, &out, &stop));
    CHECK_CODE(mysql_session_recoder_end(&recoder, &out, &stop), rows[at].code);
    if (rows[at].code != MYSQL_SESSION_OK)
        CHECK_NUMBER(stop.end, rows[at].end);
    CHECK_STREAM(&out, rows[at].recoded);
    CHECK_CODE(mysql_session_recoder_end(&recoder, &out, &stop), MYSQL_SESSION_EMPTY_HANDLE);
    mysql_session_free(&recoder);
    mysql_session_free(&out);
}

static void all_rows(void)
{
    size_t at, number;
    for (at = 0; at < sizeof rows / sizeof rows[0]; at++) {
        for (number = 0; number < PIECE_SIZES; number++) {
            check_note(rows[at].written, piece_size(number, STREAM_ROOM));
            recode(at, piece_size(number, STREAM_ROOM));
        }
    }
    check_note("", 0);
}

/* A fault is told with its payload, and again from then on; nothing is appended by that piece. */
static void fault(size_t piece)
{
    mysql_session_handle recoder = MYSQL_SESSION_NOTHING, out = MYSQL_SESSION_NOTHING;
    mysql_session_stop stop = no_stop();
    stream good = stream_of(TEXT_1), bad = stream_of("0a 00 00 00 03 |SELECT +1|");
    CHECK_DONE(mysql_session_bytes_new(&out));
    CHECK_DONE(mysql_session_recoder_new(&recoder, bytes_of(QUERY), strlen(QUERY), 1, 1000, 0));
    CHECK_DONE(feed(&recoder, &good, piece, &out, &stop));
    CHECK_CODE(feed(&recoder, &bad, piece, &out, &stop), MYSQL_SESSION_FAULT_TEXT_MISMATCH);
    CHECK_NUMBER(stop.payload, 1);
    CHECK_NUMBER(stop.fault, MYSQL_SESSION_FAULT_TEXT_MISMATCH);
    CHECK_CODE(feed(&recoder, &good, piece, &out, &stop), MYSQL_SESSION_FAULT_TEXT_MISMATCH);
    CHECK_STREAM(&out, PREPARE EXECUTE_1);
    CHECK_CODE(mysql_session_recoder_end(&recoder, &out, &stop),
               MYSQL_SESSION_FAULT_TEXT_MISMATCH);
    CHECK_STREAM(&out, PREPARE EXECUTE_1);
    CHECK_CODE(mysql_session_recoder_end(&recoder, &out, &stop), MYSQL_SESSION_EMPTY_HANDLE);
    mysql_session_free(&recoder);
    mysql_session_free(&out);
}

/* A set whose execution is past the limit, behind one that isn't. */
static void too_large(size_t piece)
{
    mysql_session_handle recoder = MYSQL_SESSION_NOTHING, out = MYSQL_SESSION_NOTHING;
    mysql_session_stop stop = no_stop();
    stream whole = stream_of("0c 00 00 00 03 |SELECT NULL| " TEXT_1);
    CHECK_DONE(mysql_session_bytes_new(&out));
    CHECK_DONE(mysql_session_recoder_new(&recoder, bytes_of(QUERY), strlen(QUERY), 1, 20, 0));
    CHECK_CODE(feed(&recoder, &whole, piece, &out, &stop), MYSQL_SESSION_REFUSED_PACKET_TOO_LARGE);
    CHECK_NUMBER(stop.set, 1);
    CHECK_STREAM(&out, piece >= whole.len ? "" : PREPARE EXECUTE_NULL);
    mysql_session_free(&recoder);
    mysql_session_free(&out);
}

/* Why no recoder is made; the handle stays. */
static void refusals(void)
{
    static char places[65536];
    mysql_session_handle recoder = MYSQL_SESSION_NOTHING, out = MYSQL_SESSION_NOTHING;
    mysql_session_stop stop = no_stop();
    stream whole = stream_of(TEXT_1);
    memset(places, '?', sizeof places);
    CHECK_DONE(mysql_session_bytes_new(&out));
    CHECK_DONE(mysql_session_recoder_new(&recoder, bytes_of(QUERY), strlen(QUERY), 1, 1000, 0));
    CHECK_CODE(mysql_session_recoder_new(&recoder, bytes_of(QUERY), strlen(QUERY), 1, 3, 0),
               MYSQL_SESSION_LIMIT_TOO_SMALL);
    CHECK_CODE(mysql_session_recoder_new(&recoder, bytes_of(":a ?"), 4, 1, 1000, 0),
               MYSQL_SESSION_MIXED);
    CHECK_CODE(mysql_session_recoder_new(&recoder, bytes_of(places), sizeof places, 1, 100000, 0),
               MYSQL_SESSION_REFUSED_TOO_MANY_PLACES);
    CHECK_CODE(mysql_session_recoder_new(&recoder, bytes_of(QUERY), strlen(QUERY), 1, 12, 0),
               MYSQL_SESSION_REFUSED_PREPARE_TOO_LARGE);
    CHECK_DONE(feed(&recoder, &whole, whole.len, &out, &stop));
    CHECK_STREAM(&out, PREPARE EXECUTE_1);
    mysql_session_free(&recoder);
    mysql_session_free(&out);
}

int main(void)
{
    all_rows();
    fault(STREAM_ROOM);
    fault(1);
    too_large(STREAM_ROOM);
    too_large(1);
    refusals();
    return check_end("recode");
}
