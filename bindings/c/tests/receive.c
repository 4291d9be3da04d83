/* Streams of commands are read back, in one piece, in pieces of three bytes and byte by byte. */
#include "check.h"

#define PREPARE "09 00 00 00 16 |SELECT ?| "
#define EXECUTION_OF "16 00 00 00 17 01 00 00 00 00 01 00 00 00 00 01 08 00 "
#define EXECUTE_1 EXECUTION_OF "01 00 00 00 00 00 00 00 "
#define EXECUTE_NULL "0e 00 00 00 17 01 00 00 00 00 01 00 00 00 01 01 06 00 "
#define EXECUTE_TINY_5 "0f 00 00 00 17 01 00 00 00 00 01 00 00 00 00 01 01 00 05 "
#define EXECUTE_7_UNTYPED "0d 00 00 00 17 01 00 00 00 00 01 00 00 00 00 00 07 "
#define LONG_DATA_X "08 00 00 00 18 01 00 00 00 00 00 |x| "
#define RESET "05 00 00 00 1a 01 00 00 00 "
#define BULK_1_2 \
    "1b 00 00 00 fa 01 00 00 00 80 00 08 00 00 01 00 00 00 00 00 00 00 00 02 00 00 00 00 00 00 00 "
#define TEXT_1 "09 00 00 00 03 |SELECT 1| "

/* A stream, what it carries, and how it ends. */
typedef struct row {
    const char *query;
    const char *written;
    const char *sets;
    uint32_t end;
    uint32_t fault;
    uint64_t payload;
} row;

#define WHOLE MYSQL_SESSION_END_WHOLE, 0, 0
#define UNFINISHED MYSQL_SESSION_END_UNFINISHED_PACKET, 0, 0
#define WAITING MYSQL_SESSION_END_WAITING_PIECES, 0, 0
#define FAULT(name, payload) MYSQL_SESSION_END_FAULT, MYSQL_SESSION_FAULT_##name, (payload)

static const row rows[] = {
    { "SELECT ?", "", "", WHOLE },
    { "SELECT ?", TEXT_1, "1; ", WHOLE },
    { "SELECT :a", TEXT_1 "09 00 00 00 03 |SELECT 2| ", "1; 2; ", WHOLE },
    { "SELECT ?, ?", "0f 00 00 00 03 |SELECT 1, 'ab'| 22 00 00 00 03 |SELECT NULL, "
      "18446744073709551615| 12 00 00 00 03 |SELECT -7, 0x00ff| 05 00 00",
      "1 |ab|; null u18446744073709551615; -7 x00ff; ", UNFINISHED },
    { "SELECT ?, ?, ?", "46 00 00 00 03 |SELECT 9223372036854775807, 9223372036854775808, "
      "-9223372036854775808|",
      "9223372036854775807 u9223372036854775808 -9223372036854775808; ", WHOLE },
    { "SELECT 1", TEXT_1, "; ", WHOLE },
    { "SELECT ?", PREPARE EXECUTE_1 EXECUTE_NULL, "1; null; ", WHOLE },
    { "SELECT ?", PREPARE EXECUTE_TINY_5 EXECUTE_7_UNTYPED, "5; 7; ", WHOLE },
    { "SELECT ?", PREPARE LONG_DATA_X LONG_DATA_X EXECUTE_NULL, "|xx|; ", WHOLE },
    { "SELECT ?", PREPARE LONG_DATA_X, "", WAITING },
    { "SELECT ?", PREPARE LONG_DATA_X RESET EXECUTE_1, "1; ", WHOLE },
    { "SELECT ?", PREPARE BULK_1_2, "1; 2; ", WHOLE },
    { "SELECT ?", TEXT_1 PREPARE EXECUTE_1 BULK_1_2, "1; 1; 1; 2; ", WHOLE },
    { "SELECT ?", "ff ff ff 00", "", FAULT(TOO_LARGE, 0) },
    { "SELECT ?", TEXT_1 "09 00 00 01 03 |SELECT 1|", "1; ", FAULT(OUT_OF_SYNC, 1) },
    { "SELECT ?", "00 00 00 00", "", FAULT(EMPTY_COMMAND, 0) },
    { "SELECT ?", TEXT_1 TEXT_1 "01 00 00 00 0e", "1; 1; ", FAULT(OTHER_COMMAND, 2) },
    { "SELECT ?", TEXT_1 "0a 00 00 00 03 |SELECT +1|", "1; ", FAULT(TEXT_MISMATCH, 1) },
    { "SELECT 1-?", "0b 00 00 00 03 |SELECT 1-5|", "", FAULT(NOT_ALONE, 0) },
    { "SELECT ?", "09 00 00 00 16 |SELECT !|", "", FAULT(PREPARE_MISMATCH, 0) },
    { "SELECT ?", EXECUTE_1, "", FAULT(NOT_PREPARED, 0) },
    { "SELECT ?", PREPARE "05 00 00 00 1a 02 00 00 00", "", FAULT(WRONG_ID, 1) },
    { "SELECT ?", PREPARE EXECUTE_1 "0c 00 00 00 17 01 00 00 00 00 01 00 00 00 00 02", "1; ",
      FAULT(BAD_EXECUTE, 2) },
    { "SELECT ?", PREPARE EXECUTE_7_UNTYPED, "", FAULT(NO_TYPES, 1) },
    { "SELECT ?", PREPARE "0e 00 00 00 17 01 00 00 00 00 01 00 00 00 00 01 f3 00", "",
      FAULT(BAD_TYPE, 1) },
    { "SELECT ?", PREPARE "12 00 00 00 17 01 00 00 00 00 01 00 00 00 00 01 04 00 00 00 80 3f", "",
      FAULT(FLOAT, 1) },
    { "SELECT ?", PREPARE "07 00 00 00 18 01 00 00 00 01 00", "", FAULT(BAD_PLACE, 1) },
    { "SELECT ?", PREPARE "07 00 00 00 fa 01 00 00 00 01 00", "", FAULT(BAD_BULK, 1) },
    { "SELECT ?", PREPARE "0a 00 00 00 fa 01 00 00 00 80 00 08 00 02", "", FAULT(INDICATOR, 1) },
    { "SELECT ?", PREPARE "09 00 00 00 fa 01 00 00 00 80 00 08 00", "", FAULT(NO_ROWS, 1) },
    { "SELECT ?", PREPARE LONG_DATA_X BULK_1_2, "", FAULT(PIECES_BEFORE_BULK, 2) },
};

static void add_content(text *shown, const mysql_session_content *content)
{
    switch (content->kind) {
    case MYSQL_SESSION_NULL:
        text_add(shown, "null");
        break;
    case MYSQL_SESSION_INT:
        text_add_signed(shown, content->int_value);
        break;
    case MYSQL_SESSION_UINT:
        text_add(shown, "u");
        text_add_unsigned(shown, content->uint_value);
        break;
    default:
        CHECK_NUMBER(content->kind, MYSQL_SESSION_BYTES);
        text_add_bytes(shown, content->bytes, content->len);
    }
}

/* Adds the sets that the receiver holds. */
static void add_sets(text *shown, mysql_session_handle *receiver)
{
    mysql_session_content content = { 0, 0, 0, NULL, 0 };
    size_t sets = 0, width = 0, set, place;
    CHECK_DONE(mysql_session_receiver_sets(receiver, &sets));
    for (set = 0; set < sets; set++) {
        CHECK_DONE(mysql_session_receiver_width(receiver, set, &width));
        for (place = 0; place < width; place++) {
            text_add(shown, place == 0 ? "" : " ");
            CHECK_DONE(mysql_session_receiver_content(receiver, set, place, &content));
            add_content(shown, &content);
        }
        text_add(shown, "; ");
        CHECK_CODE(mysql_session_receiver_content(receiver, set, width, &content),
                   MYSQL_SESSION_OUT_OF_RANGE);
    }
    CHECK_CODE(mysql_session_receiver_width(receiver, sets, &width), MYSQL_SESSION_OUT_OF_RANGE);
}

static void check_audit(mysql_session_handle *receiver, const row *wanted)
{
    mysql_session_end end = { 77, 77, 77 };
    int times;
    for (times = 0; times < 2; times++) {
        CHECK_DONE(mysql_session_receiver_end(receiver, &end));
        CHECK_NUMBER(end.kind, wanted->end);
        CHECK_NUMBER(end.fault, wanted->fault);
        CHECK_NUMBER(end.payload, wanted->payload);
    }
    CHECK_CODE(mysql_session_receiver_feed(receiver, bytes_of(""), 0), MYSQL_SESSION_OTHER_KIND);
}

/* Reads a stream in pieces. The sets are taken as they come, or all at the end. */
static void read_row(const row *given, size_t piece, int as_they_come)
{
    mysql_session_handle receiver = MYSQL_SESSION_NOTHING;
    stream whole = stream_of(given->written);
    uint32_t code = MYSQL_SESSION_OK;
    size_t fed = 0;
    text shown;
    text_clear(&shown);
    CHECK_DONE(mysql_session_receiver_new(&receiver, bytes_of(given->query), strlen(given->query),
                                          1, 1000, 0));
    while (code == MYSQL_SESSION_OK && fed < whole.len) {
        size_t count = piece_at(fed, piece, whole.len);
        code = mysql_session_receiver_feed(&receiver, whole.bytes + fed, count);
        fed += count;
        if (as_they_come) {
            add_sets(&shown, &receiver);
            CHECK_DONE(mysql_session_receiver_clear(&receiver));
        }
    }
    CHECK_CODE(code, given->fault);
    CHECK_CODE(mysql_session_receiver_feed(&receiver, bytes_of(""), 0), given->fault);
    CHECK_NUMBER(fed, whole.len);
    check_audit(&receiver, given);
    add_sets(&shown, &receiver);
    CHECK_WRITTEN(&shown, given->sets);
    mysql_session_free(&receiver);
}

/* What a handle stood for is freed where it is made to stand for another receiver. */
static void new_in_place(void)
{
    mysql_session_handle receiver = MYSQL_SESSION_NOTHING;
    stream whole = stream_of(TEXT_1);
    size_t sets = 0;
    CHECK_DONE(mysql_session_receiver_new(&receiver, bytes_of("SELECT ?"), 8, 1, 1000, 0));
    CHECK_DONE(mysql_session_receiver_feed(&receiver, whole.bytes, whole.len));
    CHECK_CODE(mysql_session_receiver_new(&receiver, bytes_of("SELECT ?"), 8, 1, 3, 0),
               MYSQL_SESSION_LIMIT_TOO_SMALL);
    CHECK_CODE(mysql_session_receiver_new(&receiver, bytes_of(":a ?"), 4, 1, 1000, 0),
               MYSQL_SESSION_MIXED);
    CHECK_DONE(mysql_session_receiver_sets(&receiver, &sets));
    CHECK_NUMBER(sets, 1);
    CHECK_DONE(mysql_session_receiver_new(&receiver, bytes_of("SELECT ?"), 8, 1, 1000, 0));
    CHECK_DONE(mysql_session_receiver_sets(&receiver, &sets));
    CHECK_NUMBER(sets, 0);
    mysql_session_free(&receiver);
}

int main(void)
{
    size_t number, at;
    CHECK_NUMBER(mysql_session_abi(), MYSQL_SESSION_ABI);
    for (at = 0; at < sizeof rows / sizeof rows[0]; at++) {
        for (number = 0; number < PIECE_SIZES; number++) {
            size_t piece = piece_size(number, STREAM_ROOM);
            check_note(rows[at].written, piece);
            read_row(&rows[at], piece, 0);
            read_row(&rows[at], piece, 1);
        }
    }
    check_note("", 0);
    new_in_place();
    return check_end("receive");
}
