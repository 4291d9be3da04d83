#include "shown.h"

mysql_session_result no_result(void)
{
    mysql_session_result none;
    memset(&none, 0, sizeof none);
    return none;
}

static void add_field(text *shown, const char *before, uint64_t number)
{
    text_add(shown, before);
    text_add_unsigned(shown, number);
}

static void add_date(text *shown, const mysql_session_value *value)
{
    add_field(shown, "date ", value->year);
    add_field(shown, "-", value->month);
    add_field(shown, "-", value->day);
}

static void add_time(text *shown, const mysql_session_value *value)
{
    text_add(shown, value->negative ? "time -" : "time ");
    add_field(shown, "", value->days);
    text_add(shown, "d");
}

static void add_clock(text *shown, const mysql_session_value *value)
{
    add_field(shown, " ", value->hour);
    add_field(shown, ":", value->minute);
    add_field(shown, ":", value->second);
    add_field(shown, ".", value->micros);
}

static void add_value(text *shown, const mysql_session_value *value)
{
    switch (value->kind) {
    case MYSQL_SESSION_NULL:
        text_add(shown, "null");
        break;
    case MYSQL_SESSION_INT:
        text_add_signed(shown, value->int_value);
        break;
    case MYSQL_SESSION_UINT:
        add_field(shown, "u", value->uint_value);
        break;
    case MYSQL_SESSION_BYTES:
        text_add_bytes(shown, value->bytes, value->len);
        break;
    case MYSQL_SESSION_FLOAT:
        add_field(shown, "float ", value->uint_value);
        break;
    case MYSQL_SESSION_DOUBLE:
        add_field(shown, "double ", value->uint_value);
        break;
    case MYSQL_SESSION_DATE:
        add_date(shown, value);
        add_clock(shown, value);
        break;
    default:
        CHECK_NUMBER(value->kind, MYSQL_SESSION_TIME);
        add_time(shown, value);
        add_clock(shown, value);
    }
}

static void add_rows(text *shown, mysql_session_handle *reply, size_t number,
                     const mysql_session_result *result)
{
    mysql_session_value value;
    size_t row, column;
    memset(&value, 0, sizeof value);
    for (row = 0; row < result->rows; row++) {
        text_add(shown, "row");
        for (column = 0; column < result->columns; column++) {
            text_add(shown, " ");
            CHECK_DONE(mysql_session_reply_cell(reply, number, row, column, &value));
            add_value(shown, &value);
        }
        text_add(shown, "; ");
        CHECK_CODE(mysql_session_reply_cell(reply, number, row, result->columns, &value),
                   MYSQL_SESSION_OUT_OF_RANGE);
    }
    CHECK_CODE(mysql_session_reply_cell(reply, number, result->rows, 0, &value),
               MYSQL_SESSION_OUT_OF_RANGE);
}

static void add_ok(text *shown, const mysql_session_result *result)
{
    add_field(shown, "ok rows ", result->affected_rows);
    add_field(shown, " id ", result->last_insert_id);
    add_field(shown, " status ", result->status);
    add_field(shown, " warnings ", result->warnings);
    add_field(shown, " states ", result->states);
    text_add(shown, " ");
    text_add_bytes(shown, result->text, result->len);
    text_add(shown, "; ");
}

static void add_prepared(text *shown, const mysql_session_result *result)
{
    add_field(shown, "prepared ", result->statement);
    add_field(shown, " params ", result->params);
    add_field(shown, " columns ", result->columns);
    add_field(shown, " warnings ", result->warnings);
    text_add(shown, "; ");
}

static void add_error(text *shown, const mysql_session_result *result)
{
    add_field(shown, "error ", result->error_code);
    text_add(shown, " ");
    text_add_bytes(shown, result->state, result->state_len);
    text_add(shown, " ");
    text_add_bytes(shown, result->text, result->len);
    text_add(shown, "; ");
}

static void add_result(text *shown, mysql_session_handle *reply, size_t number,
                       const mysql_session_result *result)
{
    switch (result->kind) {
    case MYSQL_SESSION_RESULT_OK:
        add_ok(shown, result);
        break;
    case MYSQL_SESSION_RESULT_ROWS:
        add_rows(shown, reply, number, result);
        break;
    case MYSQL_SESSION_RESULT_PREPARED:
        add_prepared(shown, result);
        break;
    case MYSQL_SESSION_RESULT_ERROR:
        add_error(shown, result);
        break;
    default:
        CHECK_NUMBER(result->kind, MYSQL_SESSION_RESULT_FILE);
        text_add(shown, "file ");
        text_add_bytes(shown, result->text, result->len);
        text_add(shown, "; ");
    }
}

void add_results(text *shown, mysql_session_handle *reply)
{
    mysql_session_result result = no_result();
    size_t count = 0, number;
    CHECK_DONE(mysql_session_reply_results(reply, &count));
    for (number = 0; number < count; number++) {
        CHECK_DONE(mysql_session_reply_result(reply, number, &result));
        add_result(shown, reply, number, &result);
    }
    CHECK_CODE(mysql_session_reply_result(reply, count, &result), MYSQL_SESSION_OUT_OF_RANGE);
}

uint32_t read_reply(text *shown, mysql_session_handle *reply, const uint8_t *bytes, size_t len,
                    size_t piece, int as_they_come)
{
    uint32_t code = MYSQL_SESSION_OK;
    size_t fed = 0;
    while (code == MYSQL_SESSION_OK && fed < len) {
        size_t count = piece_at(fed, piece, len);
        code = mysql_session_reply_feed(reply, bytes + fed, count);
        fed += count;
        if (as_they_come) {
            CHECK_DONE(mysql_session_reply_take(reply));
            add_results(shown, reply);
        }
    }
    return code;
}
