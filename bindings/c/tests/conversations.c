/* Conversations, which are rows of payloads and of the events that they are. The program's word is a
 * file that bindings/testing/conversation_rows.py writes of them: lines, bytes behind some. */
#include "check.h"

#include <stdlib.h>

#define ANY_SIDE 2
/* Streams above SHORT aren't read byte by byte, those above LONG in one order alone. */
#define SHORT 2000
#define LONG 16000000

/* A line of the file: a step, with its bytes or its number, or the line of an event. */
typedef struct row {
    char kind[16];
    uint32_t side;
    size_t number;
    const uint8_t *bytes;
    const char *text;
} row;

/* A conversation: how it begins, and its rows, of which the last one is its end. */
#define ROWS 4096
static struct {
    char name[256];
    char begins[16];
    uint32_t capabilities, mariadb;
    size_t client, server, held;
    unsigned any_order;
    row rows[ROWS];
    size_t len;
} talk;

static mysql_session_connection made;
static mysql_session_event event;

/* ---- The file -------------------------------------------------------------------------------- */

static char *file, *file_end;

static void read_file(const char *name)
{
    FILE *opened = fopen(name, "rb");
    long size = 0;
    if (!CHECK(opened != NULL && fseek(opened, 0, SEEK_END) == 0 && (size = ftell(opened)) >= 0))
        exit(2);
    rewind(opened);
    file = (char *)malloc((size_t)size + 1);
    if (file == NULL || fread(file, 1, (size_t)size, opened) != (size_t)size)
        exit(2);
    file_end = file + size;
    fclose(opened);
}

/* The next line, which is ended by a NUL byte. */
static char *next_line(char **at)
{
    char *line = *at, *end = line;
    while (end < file_end && *end != '\n')
        end++;
    *end = '\0';
    *at = end < file_end ? end + 1 : end;
    return line;
}

/* Takes a row; whether it is the last one. */
static int take_row(row *to, char **at)
{
    char *line = next_line(at);
    int begins = 0;
    memset(to, 0, sizeof *to);
    if (strncmp(line, "end ", 4) == 0) {
        strcpy(to->kind, "end");
        to->text = line;
        return 1;
    }
    if (sscanf(line, "line %u %n", &to->side, &begins) == 1) {
        strcpy(to->kind, "line");
        to->text = line + begins;
    } else {
        CHECK(sscanf(line, "%15s %u %zu", to->kind, &to->side, &to->number) == 3);
        to->bytes = bytes_of(*at);
        if (strcmp(to->kind, "feed") == 0)
            *at += to->number;
    }
    return 0;
}

/* Takes the next conversation; whether there is one. */
static int take_talk(char **at)
{
    char *line = next_line(at);
    if (sscanf(line, "conversation %255s", talk.name) != 1)
        return 0;
    line = next_line(at);
    CHECK(sscanf(line, "begin %15s %u %u %zu %zu %zu %u", talk.begins, &talk.capabilities,
                 &talk.mariadb, &talk.client, &talk.server, &talk.held, &talk.any_order) == 7);
    for (talk.len = 0; talk.len < ROWS; talk.len++) {
        if (take_row(&talk.rows[talk.len], at)) {
            talk.len++;
            return 1;
        }
    }
    CHECK(talk.len < ROWS);
    return 0;
}

/* ---- Readings -------------------------------------------------------------------------------- */

static void begin(mysql_session_connection *connection)
{
    if (strcmp(talk.begins, "login") == 0)
        CHECK_DONE(mysql_session_connection_after_login(connection, talk.capabilities,
                                                        talk.mariadb, talk.client, talk.server,
                                                        talk.held));
    else
        CHECK_DONE(mysql_session_connection_new(connection, talk.client, talk.server, talk.held));
}

/* The line has to be what a row has: whole, or so to begin where that ends by two dots. */
static void check_line(mysql_session_connection *connection, const row *wanted)
{
    const uint8_t *said = NULL;
    size_t len = 0, count = strlen(wanted->text);
    if (!CHECK_DONE(mysql_session_connection_line_with_secrets(connection, &said, &len)) ||
        !CHECK(len > 7))
        return;
    if (wanted->side != ANY_SIDE)
        CHECK_BYTES(said, 7, bytes_of(wanted->side == 0 ? "client " : "server "), 7);
    said += 7;
    len -= 7;
    if (count >= 3 && strcmp(wanted->text + count - 3, " ..") == 0) {
        count -= 3;
        CHECK(len == count || (len > count && said[count] == ' '));
        len = len < count ? len : count;
    }
    CHECK_BYTES(said, len, bytes_of(wanted->text), count);
}

/* The row of the line that is due next, from this row on. */
static size_t next_wanted(size_t from)
{
    while (from < talk.len && strcmp(talk.rows[from].kind, "line") != 0)
        from++;
    return from;
}

/* Takes the events that are there: their lines have to be those of the rows that are due, up to
 * that of this number. The last code. */
static uint32_t take_events(size_t *due, size_t end)
{
    for (;;) {
        uint32_t code = mysql_session_connection_next(&made, &event);
        if (code != MYSQL_SESSION_OK || event.kind == MYSQL_SESSION_EVENT_NONE)
            return code;
        if (!CHECK(*due < end))
            return code;
        check_line(&made, &talk.rows[*due]);
        *due = next_wanted(*due + 1);
    }
}

static size_t room(uint32_t side)
{
    mysql_session_standing standing;
    memset(&standing, 0, sizeof standing);
    CHECK_DONE(mysql_session_connection_standing(&made, &standing));
    return side == MYSQL_SESSION_CLIENT ? standing.client_room : standing.server_room;
}

/* Feeds bytes, as many at once as there is room for, and takes the events of each piece. */
static uint32_t feed(const row *from, size_t most, size_t *due, size_t end)
{
    uint32_t code = MYSQL_SESSION_OK;
    size_t at = 0;
    while (at < from->number && code == MYSQL_SESSION_OK) {
        size_t count = room(from->side);
        count = count < most ? count : most;
        count = count < from->number - at ? count : from->number - at;
        if (!CHECK(count > 0))
            break;
        CHECK_DONE(mysql_session_connection_feed(&made, from->side, from->bytes + at, count));
        at += count;
        code = take_events(due, end);
    }
    return code;
}

static void check_end_of(size_t due)
{
    mysql_session_connection_end end = { 0, 0, 0, 0, 0 };
    const char *wanted = talk.rows[talk.len - 1].text;
    const uint8_t *said = NULL;
    size_t len = 0;
    CHECK_DONE(mysql_session_connection_close(&made, MYSQL_SESSION_CLIENT));
    CHECK_DONE(mysql_session_connection_close(&made, MYSQL_SESSION_SERVER));
    take_events(&due, talk.len);
    CHECK_NUMBER(due, talk.len);
    CHECK_DONE(mysql_session_connection_finish(&made, &end));
    CHECK_DONE(mysql_session_connection_line(&made, &said, &len));
    CHECK_TEXT(said, len, wanted);
}

/* How the connection stands. */
static void check_standing(const row *of)
{
    mysql_session_standing standing;
    mysql_session_known known = MYSQL_SESSION_NOTHING_KNOWN;
    memset(&standing, 0, sizeof standing);
    CHECK_DONE(mysql_session_connection_standing(&made, &standing));
    mysql_session_connection_known(&made, &known);
    if (strcmp(of->kind, "held") == 0)
        CHECK_NUMBER(standing.held, of->number);
    if (strcmp(of->kind, "mode") == 0)
        CHECK_NUMBER(known.flags & ~(uint32_t)MYSQL_SESSION_HEXADECIMAL, of->number);
    if (strcmp(of->kind, "spelling") == 0)
        CHECK_NUMBER(known.flags & MYSQL_SESSION_UNKNOWN_MODE
                         ? (uint32_t)MYSQL_SESSION_HEXADECIMAL
                         : known.flags & (uint32_t)MYSQL_SESSION_HEXADECIMAL,
                     of->number);
    if (strcmp(of->kind, "turn") == 0)
        CHECK_NUMBER(standing.turn,
                     of->side == ANY_SIDE ? (uint32_t)MYSQL_SESSION_NOBODY : of->side);
}

/* Reads row by row; each step gives its lines and no others. */
static void read_rows(size_t most)
{
    size_t number, due = next_wanted(0);
    uint32_t code = MYSQL_SESSION_OK;
    begin(&made);
    for (number = 0; number + 1 < talk.len; number++) {
        const row *of = &talk.rows[number];
        size_t end = number + 1;
        while (strcmp(talk.rows[end].kind, "line") == 0)
            end++;
        if (strcmp(of->kind, "line") == 0)
            continue;
        if (strcmp(of->kind, "feed") == 0 && code == MYSQL_SESSION_OK) {
            code = feed(of, most, &due, end);
        } else if (strcmp(of->kind, "close") == 0) {
            CHECK_DONE(mysql_session_connection_close(&made, of->side));
            code = take_events(&due, end);
        } else {
            check_standing(of);
        }
        CHECK(due >= end);
    }
    check_end_of(due);
    mysql_session_connection_free(&made);
}

/* Reads both streams, all of the one side first. */
static void read_streams(uint32_t first)
{
    size_t number, due = next_wanted(0);
    uint32_t turn, code = MYSQL_SESSION_OK;
    begin(&made);
    for (turn = 0; turn < 2; turn++) {
        for (number = 0; number < talk.len; number++) {
            const row *of = &talk.rows[number];
            int is_its = strcmp(of->kind, "feed") == 0 && of->side == (first + turn) % 2;
            if (is_its && code == MYSQL_SESSION_OK && of->number <= room(of->side))
                code = feed(of, (size_t)-1, &due, talk.len);
        }
    }
    check_end_of(due);
    mysql_session_connection_free(&made);
}

/* A client and a server put each payload that has a line of its own, as long as each has one. A
 * server's last words can't be put. */
static void put_again(void)
{
    mysql_session_connection ends[2] = { MYSQL_SESSION_NOTHING, MYSQL_SESSION_NOTHING };
    mysql_session_handle out = MYSQL_SESSION_NOTHING;
    const uint8_t *put = NULL;
    size_t number, len = 0;
    begin(&ends[0]);
    begin(&ends[1]);
    for (number = 0; number + 1 < talk.len; number++) {
        const row *of = &talk.rows[number], *said = of + 1;
        if (strcmp(of->kind, "feed") != 0)
            continue;
        if (strcmp(said->kind, "line") != 0 || said->side != of->side || of->number > SHORT ||
            strncmp(said->text, "Farewell", 8) == 0)
            break;
        CHECK_DONE(mysql_session_bytes_new(&out));
        CHECK_DONE(mysql_session_connection_put(&ends[of->side], of->side, of->bytes + 4,
                                                of->number - 4, &out, &event));
        check_line(&ends[of->side], said);
        CHECK_DONE(mysql_session_bytes_data(&out, &put, &len));
        CHECK_BYTES(put, len, of->bytes, of->number);
        CHECK_DONE(mysql_session_connection_feed(&ends[1 - of->side], of->side, put, len));
        CHECK_DONE(mysql_session_connection_next(&ends[1 - of->side], &event));
        check_line(&ends[1 - of->side], said);
        mysql_session_free(&out);
        if (strcmp(said[1].kind, "line") == 0)
            break;
    }
    mysql_session_connection_free(&ends[0]);
    mysql_session_connection_free(&ends[1]);
}

static void read_talk(void)
{
    size_t number, size = 0;
    check_note(talk.name, 0);
    for (number = 0; number < talk.len; number++)
        size += strcmp(talk.rows[number].kind, "feed") == 0 ? talk.rows[number].number : 0;
    read_rows((size_t)-1);
    if (size < SHORT)
        read_rows(1);
    if (talk.any_order && size < LONG) {
        read_streams(MYSQL_SESSION_CLIENT);
        read_streams(MYSQL_SESSION_SERVER);
    }
    put_again();
    check_note("", 0);
}

int main(int count, char **words)
{
    char *at;
    if (!CHECK(count == 2))
        return check_end("conversations");
    read_file(words[1]);
    at = file;
    while (at < file_end && take_talk(&at))
        read_talk();
    CHECK(at == file_end);
    free(file);
    return check_end("conversations");
}
