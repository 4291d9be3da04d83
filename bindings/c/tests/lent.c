/* Rows that are lent. The program's words are recorded connections, each a file's name without
 * .client, .server and .events: each is read twice at once, and all that is shown of an event by one
 * of the calls has to be what is shown by the other. The cells that come with a row are those that
 * _value shows of it, and places without a cell stay as they were. */
#include "check.h"

#include <stdlib.h>

#define LIMIT ((size_t)1 << 26)

/* The connection whose rows are copied, and that whose rows are lent. */
static mysql_session_connection both[2];
static mysql_session_event events[2];
static unsigned long rows;

/* The places for cells: a row may have fewer, and more. */
#define ROOM 6
#define UNTOUCHED 77
static mysql_session_value cells[ROOM];

static uint8_t *read_file(const char *name, const char *end, size_t *len)
{
    char path[1024];
    uint8_t *bytes = NULL;
    FILE *file;
    long size;
    snprintf(path, sizeof path, "%s%s", name, end);
    file = fopen(path, "rb");
    if (!CHECK(file != NULL)) exit(1);
    fseek(file, 0, SEEK_END);
    size = ftell(file);
    rewind(file);
    bytes = (uint8_t *)malloc((size_t)size + 1);
    if (!CHECK(bytes != NULL)) exit(1);
    *len = fread(bytes, 1, (size_t)size, file);
    fclose(file);
    return bytes;
}

static void check_lines(void)
{
    const uint8_t *lines[2] = { NULL, NULL };
    size_t lens[2] = { 0, 0 };
    int which;
    for (which = 0; which < 2; which++)
        CHECK_DONE(mysql_session_connection_line_with_secrets(&both[which], &lines[which],
                                                              &lens[which]));
    CHECK_BYTES(lines[1], lens[1], lines[0], lens[0]);
}

static void clear_cells(void)
{
    size_t place;
    memset(cells, 0, sizeof cells);
    for (place = 0; place < ROOM; place++)
        cells[place].kind = UNTOUCHED;
}

/* The cells that came with an event of so many columns, where it is a row. */
static void check_cells(void)
{
    size_t place, count = 0;
    if (events[0].kind == MYSQL_SESSION_EVENT_ROW) count = events[0].columns;
    for (place = 0; place < ROOM; place++) {
        mysql_session_value value;
        memset(&value, 0, sizeof value);
        if (place >= count) {
            CHECK_NUMBER(cells[place].kind, UNTOUCHED);
            continue;
        }
        CHECK_DONE(mysql_session_connection_value(&both[0], 0, place, &value));
        CHECK_BYTES(cells[place].bytes, cells[place].len, value.bytes, value.len);
        value.bytes = cells[place].bytes;
        CHECK(memcmp(&value, &cells[place], sizeof value) == 0);
    }
}

static void check_cell(size_t place)
{
    mysql_session_value values[2];
    mysql_session_column columns[2];
    int which;
    memset(values, 0, sizeof values);
    memset(columns, 0, sizeof columns);
    for (which = 0; which < 2; which++) {
        CHECK_DONE(mysql_session_connection_value(&both[which], 0, place, &values[which]));
        CHECK_DONE(mysql_session_connection_column(&both[which], place, &columns[which]));
    }
    CHECK_BYTES(columns[1].name, columns[1].name_len, columns[0].name, columns[0].name_len);
    CHECK_NUMBER(columns[1].type, columns[0].type);
    CHECK_BYTES(values[1].bytes, values[1].len, values[0].bytes, values[0].len);
    values[0].bytes = values[1].bytes;
    CHECK(memcmp(&values[0], &values[1], sizeof values[0]) == 0);
}

/* Behind a row no other cell is shown, and once bytes came none of a row that was lent. */
static void check_row(void)
{
    mysql_session_value value;
    size_t place;
    memset(&value, 0, sizeof value);
    for (place = 0; place < events[0].columns; place++)
        check_cell(place);
    CHECK_CODE(mysql_session_connection_value(&both[1], 0, place, &value),
               MYSQL_SESSION_OUT_OF_RANGE);
    CHECK_CODE(mysql_session_connection_value(&both[1], 1, 0, &value), MYSQL_SESSION_OUT_OF_RANGE);
    rows++;
}

/* Takes the events that stand; whether the connections go on. */
static int take_events(void)
{
    for (;;) {
        uint32_t wanted = mysql_session_connection_next(&both[0], &events[0]);
        clear_cells();
        if (!CHECK_CODE(mysql_session_connection_next_lent(&both[1], cells, ROOM, &events[1]), wanted))
            return 0;
        if (wanted != MYSQL_SESSION_OK || events[0].kind == MYSQL_SESSION_EVENT_NONE)
            return wanted == MYSQL_SESSION_OK;
        CHECK_NUMBER(events[1].kind, events[0].kind);
        CHECK_NUMBER(events[1].columns, events[0].columns);
        check_lines();
        check_cells();
        if (events[0].kind == MYSQL_SESSION_EVENT_ROW) check_row();
    }
}

static void feed(uint32_t side, const uint8_t *bytes, size_t len)
{
    int which;
    for (which = 0; which < 2; which++)
        CHECK_DONE(mysql_session_connection_feed(&both[which], side, bytes, len));
}

static void compare(const char *name, size_t piece)
{
    size_t client_len, server_len, at;
    uint8_t *client = read_file(name, ".client", &client_len);
    uint8_t *server = read_file(name, ".server", &server_len);
    int which;
    check_note(name, piece);
    for (which = 0; which < 2; which++)
        CHECK_DONE(mysql_session_connection_new(&both[which], LIMIT, LIMIT, 4 * LIMIT));
    feed(MYSQL_SESSION_CLIENT, client, client_len);
    for (at = 0; at < server_len; at += piece) {
        feed(MYSQL_SESSION_SERVER, server + at, server_len - at < piece ? server_len - at : piece);
        if (!take_events()) break;
    }
    for (which = 0; which < 2; which++)
        mysql_session_connection_free(&both[which]);
    free(client);
    free(server);
}

/* A row that is lent is gone once more bytes come; one that is copied stays. */
static void a_row_ends_with_a_feed(const char *name)
{
    size_t client_len, server_len;
    uint8_t *client = read_file(name, ".client", &client_len);
    uint8_t *server = read_file(name, ".server", &server_len);
    const uint8_t *line = NULL;
    size_t len = 0;
    mysql_session_value value;
    mysql_session_column column;
    memset(&value, 0, sizeof value);
    memset(&column, 0, sizeof column);
    CHECK_DONE(mysql_session_connection_new(&both[1], LIMIT, LIMIT, 4 * LIMIT));
    CHECK_DONE(mysql_session_connection_feed(&both[1], MYSQL_SESSION_CLIENT, client, client_len));
    CHECK_DONE(mysql_session_connection_feed(&both[1], MYSQL_SESSION_SERVER, server, server_len));
    do
        CHECK_DONE(mysql_session_connection_next_lent(&both[1], cells, 0, &events[1]));
    while (events[1].kind != MYSQL_SESSION_EVENT_ROW && events[1].kind != MYSQL_SESSION_EVENT_NONE);
    CHECK_NUMBER(events[1].kind, MYSQL_SESSION_EVENT_ROW);
    CHECK_DONE(mysql_session_connection_line(&both[1], &line, &len));
    CHECK_DONE(mysql_session_connection_feed(&both[1], MYSQL_SESSION_SERVER, server, 0));
    CHECK_CODE(mysql_session_connection_value(&both[1], 0, 0, &value), MYSQL_SESSION_OUT_OF_RANGE);
    CHECK_CODE(mysql_session_connection_column(&both[1], 0, &column), MYSQL_SESSION_OUT_OF_RANGE);
    CHECK_CODE(mysql_session_connection_line(&both[1], &line, &len), MYSQL_SESSION_OUT_OF_RANGE);
    mysql_session_connection_free(&both[1]);
    free(client);
    free(server);
}

int main(int argc, char **argv)
{
    int word;
    mysql_session_connection nothing = MYSQL_SESSION_NOTHING;
    clear_cells();
    CHECK_CODE(mysql_session_connection_next_lent(&nothing, cells, ROOM, &events[1]),
               MYSQL_SESSION_EMPTY_HANDLE);
    CHECK_NUMBER(cells[0].kind, UNTOUCHED);
    for (word = 1; word < argc; word++) {
        compare(argv[word], (size_t)1 << 20);
        compare(argv[word], 61);
    }
    CHECK(rows > 0);
    if (argc > 1) a_row_ends_with_a_feed(argv[1]);
    return check_end("lent");
}
