/* Sets of flat arrays: values of each kind, what is refused, and that a refusal changes nothing. */
#include "check.h"

#define LIMIT 65536

static mysql_session_handle sets, out;

static mysql_session_parameter value_of(uint32_t kind)
{
    mysql_session_parameter made;
    memset(&made, 0, sizeof made);
    made.kind = kind;
    return made;
}

static void begin(void)
{
    CHECK_DONE(mysql_session_sets_new(&sets));
    CHECK_DONE(mysql_session_bytes_new(&out));
}

static void end(void)
{
    mysql_session_free(&sets);
    mysql_session_free(&out);
}

static void check_count(size_t wanted)
{
    size_t count = 77;
    CHECK_DONE(mysql_session_sets_count(&sets, &count));
    CHECK_NUMBER(count, wanted);
}

/* The text of one set says which values it has. */
static void check_text(size_t set, const char *query, const char *wanted)
{
    mysql_session_place place = { 0, 0 };
    const uint8_t *data = NULL;
    size_t len = 0;
    CHECK_DONE(mysql_session_bytes_clear(&out));
    CHECK_DONE(mysql_session_bind_text(&sets, set, bytes_of(query), strlen(query), 0, &out,
                                       &place));
    CHECK_DONE(mysql_session_bytes_data(&out, &data, &len));
    CHECK_TEXT(data, len, wanted);
}

#define EACH_KIND 6

static void fill_each_kind(mysql_session_parameter *values)
{
    values[0] = value_of(MYSQL_SESSION_NULL);
    values[1] = value_of(MYSQL_SESSION_INT);
    values[1].int_value = INT64_MIN;
    values[2] = value_of(MYSQL_SESSION_UINT);
    values[2].uint_value = 7;
    values[3] = value_of(MYSQL_SESSION_BYTES);
    values[3].start = 2;
    values[3].len = 3;
    values[4] = value_of(MYSQL_SESSION_DATE);
    values[4].year = 2024;
    values[4].month = 2;
    values[4].day = 29;
    values[4].hour = 23;
    values[4].minute = 59;
    values[4].second = 58;
    values[4].micros = 7;
    values[5] = value_of(MYSQL_SESSION_TIME);
    values[5].negative = true;
    values[5].days = 1;
    values[5].hour = 2;
    values[5].minute = 3;
    values[5].second = 4;
    values[5].micros = 5;
}

/* A set of an array is the set that is put together by pushes. */
static void each_kind(void)
{
    static const char query[] = "SELECT ?, ?, ?, ?, ?, ?";
    static const char wanted[] = "SELECT NULL, -9223372036854775808, 7, 'cde', "
                                 "'2024-02-29 23:59:58.000007', '-026:03:04.000005'";
    mysql_session_parameter values[EACH_KIND];
    begin();
    fill_each_kind(values);
    CHECK_DONE(mysql_session_sets_add(&sets, values, EACH_KIND, bytes_of("abcdef"), 6));
    CHECK_DONE(mysql_session_sets_push_null(&sets));
    CHECK_DONE(mysql_session_sets_push_int(&sets, INT64_MIN));
    CHECK_DONE(mysql_session_sets_push_uint(&sets, 7));
    CHECK_DONE(mysql_session_sets_push_bytes(&sets, bytes_of("cde"), 3));
    CHECK_DONE(mysql_session_sets_push_date(&sets, 2024, 2, 29, 23, 59, 58, 7));
    CHECK_DONE(mysql_session_sets_push_time(&sets, true, 1, 2, 3, 4, 5));
    CHECK_DONE(mysql_session_sets_end_set(&sets));
    check_count(2);
    check_text(0, query, wanted);
    check_text(1, query, wanted);
    end();
}

/* What was pushed for the next set stays, behind sets that are added. */
static void pushed_values_stay(void)
{
    mysql_session_parameter one = value_of(MYSQL_SESSION_INT);
    begin();
    one.int_value = 1;
    CHECK_DONE(mysql_session_sets_push_int(&sets, 2));
    CHECK_DONE(mysql_session_sets_add(&sets, &one, 1, bytes_of(""), 0));
    check_count(1);
    CHECK_DONE(mysql_session_sets_push_int(&sets, 3));
    CHECK_DONE(mysql_session_sets_end_set(&sets));
    check_count(2);
    check_text(0, "SELECT ?", "SELECT 1");
    check_text(1, "SELECT ?, ?", "SELECT 2, 3");
    end();
}

static void refuse(const mysql_session_parameter *values, size_t count, uint32_t code)
{
    CHECK_CODE(mysql_session_sets_add(&sets, values, count, bytes_of("abcdef"), 6), code);
    check_count(1);
    check_text(0, "SELECT ?", "SELECT NULL");
}

/* Bytes that don't lie in what is handed over, kinds that there are not, a float of 33 bits. */
static void refusals(void)
{
    static const struct { size_t start, len; } outside[] = {
        { 6, 1 }, { 0, 7 }, { 7, 0 }, { 5, 2 }, { SIZE_MAX, 0 }, { 0, SIZE_MAX }, { SIZE_MAX, 1 },
        { 1, SIZE_MAX }, { SIZE_MAX, SIZE_MAX },
    };
    static const uint32_t kinds[] = { 8, 9, UINT32_MAX };
    mysql_session_parameter values[2];
    size_t i;
    begin();
    CHECK_DONE(mysql_session_sets_push_null(&sets));
    CHECK_DONE(mysql_session_sets_end_set(&sets));
    values[0] = value_of(MYSQL_SESSION_BYTES);
    values[0].start = 6;
    values[1] = value_of(MYSQL_SESSION_BYTES);
    for (i = 0; i < sizeof outside / sizeof outside[0]; i++) {
        values[1].start = outside[i].start;
        values[1].len = outside[i].len;
        refuse(values, 2, MYSQL_SESSION_OUT_OF_RANGE);
    }
    for (i = 0; i < sizeof kinds / sizeof kinds[0]; i++) {
        values[1].kind = kinds[i];
        refuse(values, 2, MYSQL_SESSION_NO_SUCH_KIND);
    }
    values[0].start = 0;
    values[1].kind = MYSQL_SESSION_FLOAT;
    values[1].uint_value = (uint64_t)1 << 32;
    refuse(values, 2, MYSQL_SESSION_OUT_OF_RANGE);
    values[0].start = 6;
    values[0].len = 1;
    refuse(values, 2, MYSQL_SESSION_OUT_OF_RANGE);
    end();
}

#define FLOATS "\x17\x09\0\0\0\0\x01\0\0\0\0\x01\x04\0\x05\0" \
    "\0\0\xc0\x3f\0\0\0\0\0\0\x02\xc0"

/* The payload of an execution of statement 9 with one set. */
static void check_execution(size_t set, const char *wanted, size_t size)
{
    const uint8_t *data = NULL;
    size_t len = 0;
    CHECK_DONE(mysql_session_bytes_clear(&out));
    CHECK_DONE(mysql_session_execution_put(&sets, set, 9, &out));
    CHECK_DONE(mysql_session_bytes_data(&out, &data, &len));
    CHECK(len == size && memcmp(data, wanted, size) == 0);
}

/* No road and no text takes a float: the set and the place are told, and nothing is appended. */
static void refuse_floats(void)
{
    static const char query[] = "SELECT ?, ?";
    mysql_session_place place = { 77, 77 };
    const uint8_t *data = NULL;
    size_t len = 0;
    uint32_t road;
    CHECK_DONE(mysql_session_bytes_clear(&out));
    for (road = MYSQL_SESSION_TEXT; road <= MYSQL_SESSION_BULK; road++) {
        CHECK_CODE(mysql_session_send(&sets, bytes_of(query), strlen(query), road, 1, LIMIT, 0,
                                      &out, &place), MYSQL_SESSION_REFUSED_FLOAT);
        CHECK_NUMBER(place.set, 0);
        CHECK_NUMBER(place.place, 0);
    }
    CHECK_CODE(mysql_session_bind_text(&sets, 1, bytes_of(query), strlen(query), 0, &out, &place),
               MYSQL_SESSION_REFUSED_FLOAT);
    CHECK_NUMBER(place.set, 1);
    CHECK_NUMBER(place.place, 0);
    CHECK_CODE(mysql_session_value_text(&sets, 1, 1, 0, &out), MYSQL_SESSION_REFUSED_FLOAT);
    CHECK_DONE(mysql_session_bytes_data(&out, &data, &len));
    CHECK_NUMBER(len, 0);
}

/* Floats are their bits: 1.5 of 32 bits and -2.25 of 64. An execution has them. */
static void floats(void)
{
    mysql_session_parameter values[2];
    mysql_session_handle nothing = MYSQL_SESSION_NOTHING;
    begin();
    values[0] = value_of(MYSQL_SESSION_FLOAT);
    values[0].uint_value = 0x3fc00000;
    values[1] = value_of(MYSQL_SESSION_DOUBLE);
    values[1].uint_value = 0xc002000000000000;
    CHECK_DONE(mysql_session_sets_add(&sets, values, 2, bytes_of(""), 0));
    CHECK_DONE(mysql_session_sets_push_float(&sets, 0x3fc00000));
    CHECK_DONE(mysql_session_sets_push_double(&sets, 0xc002000000000000));
    CHECK_DONE(mysql_session_sets_end_set(&sets));
    check_execution(0, FLOATS, sizeof FLOATS - 1);
    check_execution(1, FLOATS, sizeof FLOATS - 1);
    refuse_floats();
    CHECK_DONE(mysql_session_sets_end_set(&sets));
    check_count(3);
    check_execution(2, "\x17\x09\0\0\0\0\x01\0\0\0", 10);
    CHECK_CODE(mysql_session_execution_put(&sets, 3, 9, &out), MYSQL_SESSION_OUT_OF_RANGE);
    CHECK_CODE(mysql_session_execution_put(&sets, 0, 9, &nothing), MYSQL_SESSION_EMPTY_HANDLE);
    end();
}

/* An execution has at most 65535 values. */
static void too_many(void)
{
    static mysql_session_parameter values[65536];
    begin();
    CHECK_DONE(mysql_session_sets_add(&sets, values, 65535, bytes_of(""), 0));
    CHECK_DONE(mysql_session_sets_add(&sets, values, 65536, bytes_of(""), 0));
    CHECK_DONE(mysql_session_execution_put(&sets, 0, 9, &out));
    CHECK_CODE(mysql_session_execution_put(&sets, 1, 9, &out),
               MYSQL_SESSION_REFUSED_TOO_MANY_PLACES);
    end();
}

/* A set of no values, and bytes at the very end. */
static void edges(void)
{
    mysql_session_parameter value = value_of(MYSQL_SESSION_BYTES);
    begin();
    CHECK_DONE(mysql_session_sets_add(&sets, &value, 0, bytes_of(""), 0));
    check_text(0, "SELECT 1", "SELECT 1");
    value.start = 6;
    CHECK_DONE(mysql_session_sets_add(&sets, &value, 1, bytes_of("abcdef"), 6));
    check_text(1, "SELECT ?", "SELECT ''");
    value.start = 0;
    value.len = 6;
    CHECK_DONE(mysql_session_sets_add(&sets, &value, 1, bytes_of("abcdef"), 6));
    check_text(2, "SELECT ?", "SELECT 'abcdef'");
    check_count(3);
    end();
}

/* Letting go of all sets takes the values of the next one along. */
static void clear(void)
{
    begin();
    CHECK_DONE(mysql_session_sets_push_int(&sets, 1));
    CHECK_DONE(mysql_session_sets_end_set(&sets));
    CHECK_DONE(mysql_session_sets_push_int(&sets, 2));
    CHECK_DONE(mysql_session_sets_clear(&sets));
    check_count(0);
    CHECK_DONE(mysql_session_sets_push_int(&sets, 3));
    CHECK_DONE(mysql_session_sets_end_set(&sets));
    check_count(1);
    check_text(0, "SELECT ?", "SELECT 3");
    end();
}

/* A thousand rows are sent by bulk, and read back byte by byte. */
static void many(void)
{
    static const char query[] = "INSERT INTO t VALUES (?, ?)";
    mysql_session_handle receiver = MYSQL_SESSION_NOTHING;
    mysql_session_parameter values[2];
    mysql_session_place place = { 0, 0 };
    const uint8_t *data = NULL;
    size_t len = 0, fed, found = 0;
    int64_t row;
    begin();
    values[0] = value_of(MYSQL_SESSION_INT);
    values[1] = value_of(MYSQL_SESSION_BYTES);
    values[1].start = 1;
    values[1].len = 2;
    for (row = 0; row < 1000; row++) {
        values[0].int_value = row;
        CHECK_DONE(mysql_session_sets_add(&sets, values, 2, bytes_of("xyz"), 3));
    }
    CHECK_DONE(mysql_session_send(&sets, bytes_of(query), strlen(query), MYSQL_SESSION_BULK, 1,
                                  LIMIT, 0, &out, &place));
    CHECK_DONE(mysql_session_receiver_new(&receiver, bytes_of(query), strlen(query), 1, LIMIT, 0));
    CHECK_DONE(mysql_session_bytes_data(&out, &data, &len));
    for (fed = 0; fed < len; fed++)
        CHECK_DONE(mysql_session_receiver_feed(&receiver, data + fed, 1));
    CHECK_DONE(mysql_session_receiver_sets(&receiver, &found));
    CHECK_NUMBER(found, 1000);
    mysql_session_free(&receiver);
    end();
}

int main(void)
{
    each_kind();
    pushed_values_stay();
    refusals();
    floats();
    too_many();
    edges();
    clear();
    many();
    return check_end("sets");
}
