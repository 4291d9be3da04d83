/* What one input makes a reader of the library for C take; `costs` builds and runs it:
 *
 *     cc -O2 -Ibindings/c bindings/testing/costs.c bindings/testing/heap.c \
 *         bindings/out/libmysql_session.a -o costs
 *     ./costs READER [PIECE [NUMBER ..]] <INPUT
 *
 * The input is four streams: of each its length, as eight bytes, and its bytes. The last two are a
 * front, which is read before the measure begins. They are fed in pieces of PIECE bytes. All that was
 * read is shown once. It prints
 *
 * - the most bytes of the heap beside what the front left;
 * - the nanoseconds of processor time, which are the least of some runs;
 * - how many things were shown;
 * - the nanoseconds of the unit: a value of 32 bytes that is put into a list, and summed;
 * - of a connection the bytes of the heap at its end, and how many it counts as held. */
#define _POSIX_C_SOURCE 199309L
#include "mysql_session.h"

#include <malloc.h>
#include <stdio.h>
#include <stdlib.h>
#include <string.h>
#include <time.h>

size_t heap_held(void);
size_t heap_most(void);
void heap_begin(void);

enum { LIMIT = 1 << 24, HELD = 1 << 26, STATEMENT = 1, MOST = 4 };

/* A measure ends behind so many runs, or so many nanoseconds. */
enum { FEWEST_RUNS = 3, RUNS = 20, ENOUGH = 20000000 };

typedef struct bytes {
    uint8_t *at;
    size_t len;
} bytes;

static bytes streams[MOST];
static unsigned long numbers[MOST];
static size_t piece_len;
static volatile uint64_t seen;

/* When a run began, by processor time and the heap; and what a connection holds at its end. */
static double began;
static size_t held_then, kept, counted;

static double now(void) {
    struct timespec at;
    clock_gettime(CLOCK_PROCESS_CPUTIME_ID, &at);
    return (double)at.tv_sec * 1e9 + (double)at.tv_nsec;
}

/* What comes behind it is measured. */
static void begin(void) {
    heap_begin();
    held_then = heap_held();
    began = now();
}

static void must(uint32_t code) {
    if (code == MYSQL_SESSION_OK) return;
    const uint8_t *text;
    size_t len;
    mysql_session_code_text(code, &text, &len);
    fprintf(stderr, "the library answers %u: %.*s\n", code, (int)len, (const char *)text);
    exit(2);
}

/* The next piece of a stream. */
static bytes next_piece(bytes *left) {
    bytes piece = {left->at, left->len < piece_len ? left->len : piece_len};
    left->at += piece.len;
    left->len -= piece.len;
    return piece;
}

/* ---- Packets and commands -------------------------------------------------------------------- */

static size_t split(void) {
    mysql_session_handle packets = MYSQL_SESSION_NOTHING;
    size_t count = 0;
    bytes left = streams[0];
    begin();
    must(mysql_session_packets_new(&packets, 0, LIMIT));
    while (left.len > 0) {
        bytes piece = next_piece(&left);
        while (piece.len > 0) {
            size_t used = 0, len = 0;
            bool whole = false;
            const uint8_t *data = NULL;
            must(mysql_session_packets_feed(&packets, piece.at, piece.len, &used, &whole));
            piece.at += used;
            piece.len -= used;
            if (!whole) continue;
            must(mysql_session_packets_payload(&packets, &data, &len));
            seen += len;
            count++;
        }
    }
    mysql_session_free(&packets);
    return count;
}

static size_t show_sets(mysql_session_handle *receiver) {
    size_t sets = 0, shown = 0;
    must(mysql_session_receiver_sets(receiver, &sets));
    for (size_t set = 0; set < sets; set++) {
        size_t width = 0;
        must(mysql_session_receiver_width(receiver, set, &width));
        for (size_t place = 0; place < width; place++) {
            mysql_session_content content;
            must(mysql_session_receiver_content(receiver, set, place, &content));
            seen += content.kind;
        }
        shown += 1 + width;
    }
    return shown;
}

/* The stream behind the front's first one, which is the query. The number is the kind of end. */
static size_t receive(void) {
    mysql_session_handle receiver = MYSQL_SESSION_NOTHING;
    mysql_session_end end = {0};
    bytes query = streams[2], left = streams[0];
    must(mysql_session_receiver_new(&receiver, query.at, query.len, STATEMENT, LIMIT, 0));
    must(mysql_session_receiver_feed(&receiver, streams[3].at, streams[3].len));
    must(mysql_session_receiver_clear(&receiver));
    begin();
    while (left.len > 0) {
        bytes piece = next_piece(&left);
        must(mysql_session_receiver_feed(&receiver, piece.at, piece.len));
    }
    size_t count = show_sets(&receiver);
    must(mysql_session_receiver_end(&receiver, &end));
    must(end.fault);
    if (end.kind != numbers[0]) must(MYSQL_SESSION_UNFINISHED);
    mysql_session_free(&receiver);
    return count;
}

static size_t recode(void) {
    mysql_session_handle recoder = MYSQL_SESSION_NOTHING, out = MYSQL_SESSION_NOTHING;
    mysql_session_stop stop = {0};
    const uint8_t *data = NULL;
    size_t len = 0;
    bytes query = streams[2], left = streams[0];
    must(mysql_session_bytes_new(&out));
    must(mysql_session_recoder_new(&recoder, query.at, query.len, STATEMENT, LIMIT, 0));
    must(mysql_session_recoder_feed(&recoder, streams[3].at, streams[3].len, &out, &stop));
    must(mysql_session_bytes_clear(&out));
    begin();
    while (left.len > 0) {
        bytes piece = next_piece(&left);
        must(mysql_session_recoder_feed(&recoder, piece.at, piece.len, &out, &stop));
    }
    must(mysql_session_recoder_end(&recoder, &out, &stop));
    must(mysql_session_bytes_data(&out, &data, &len));
    mysql_session_free(&out);
    return len;
}

/* ---- Replies --------------------------------------------------------------------------------- */

static size_t show_result(mysql_session_handle *reply, size_t number) {
    mysql_session_result result;
    mysql_session_column column;
    size_t shown = 1, position = 0, len = 0;
    const uint8_t *data = NULL;
    uint8_t type = 0;
    must(mysql_session_reply_result(reply, number, &result));
    for (size_t at = 0; at < result.columns; at++, shown++)
        must(mysql_session_reply_column(reply, number, at, &column));
    for (size_t at = 0; at < result.params; at++, shown++)
        must(mysql_session_reply_param(reply, number, at, &column));
    for (size_t at = 0; at < result.states; at++, shown++)
        must(mysql_session_reply_state(reply, number, &position, &type, &data, &len));
    for (size_t row = 0; row < result.rows; row++) {
        for (size_t at = 0; at < result.columns; at++, shown++) {
            mysql_session_value value;
            must(mysql_session_reply_cell(reply, number, row, at, &value));
            seen += value.kind;
        }
    }
    return shown;
}

static size_t show_results(mysql_session_handle *reply) {
    size_t results = 0, shown = 0;
    must(mysql_session_reply_results(reply, &results));
    for (size_t number = 0; number < results; number++) shown += show_result(reply, number);
    return shown;
}

/* The numbers are the reply's kind, the capabilities, and whether results are taken behind each
 * piece. */
static size_t read_reply(void) {
    mysql_session_handle reply = MYSQL_SESSION_NOTHING;
    mysql_session_end end = {0};
    size_t count = 0;
    bytes left = streams[0];
    must(mysql_session_reply_new(&reply, (uint32_t)numbers[0], (uint32_t)numbers[1], 1, LIMIT));
    must(mysql_session_reply_feed(&reply, streams[2].at, streams[2].len));
    begin();
    while (left.len > 0) {
        bytes piece = next_piece(&left);
        must(mysql_session_reply_feed(&reply, piece.at, piece.len));
        if (!numbers[2]) continue;
        must(mysql_session_reply_take(&reply));
        must(mysql_session_reply_results(&reply, &count));
    }
    must(mysql_session_reply_end(&reply, &end));
    must(end.fault);
    count = show_results(&reply);
    if (end.kind != MYSQL_SESSION_END_WHOLE) must(MYSQL_SESSION_UNFINISHED);
    mysql_session_free(&reply);
    return count;
}

/* ---- Connections ----------------------------------------------------------------------------- */

static size_t show_values(mysql_session_connection *connection, const mysql_session_event *event) {
    size_t rows = event->kind == MYSQL_SESSION_EVENT_BULK_EXECUTE ? event->rows : 1;
    size_t places = event->kind == MYSQL_SESSION_EVENT_ROW ? event->columns : event->params;
    if (event->kind != MYSQL_SESSION_EVENT_ROW && event->kind != MYSQL_SESSION_EVENT_EXECUTE &&
        event->kind != MYSQL_SESSION_EVENT_BULK_EXECUTE)
        return 0;
    for (size_t row = 0; row < rows; row++) {
        for (size_t place = 0; place < places; place++) {
            mysql_session_value value;
            must(mysql_session_connection_value(connection, row, place, &value));
            seen += value.kind;
        }
    }
    return rows * places;
}

static size_t show_event(mysql_session_connection *connection, const mysql_session_event *event) {
    size_t shown = 1 + show_values(connection, event);
    for (size_t number = 0; number < event->attributes; number++, shown++) {
        mysql_session_value value;
        const uint8_t *name = NULL;
        size_t len = 0;
        must(mysql_session_connection_attribute(connection, number, &name, &len, &value));
        seen += len;
    }
    if (event->kind == MYSQL_SESSION_EVENT_COLUMN) {
        mysql_session_column column;
        must(mysql_session_connection_column(connection, 0, &column));
    }
    return shown;
}

/* Whether events are shown as lines too. */
static bool by_line;

static size_t take_events(mysql_session_connection *connection) {
    mysql_session_event event;
    for (size_t count = 0;;) {
        must(mysql_session_connection_next(connection, &event));
        if (event.kind == MYSQL_SESSION_EVENT_NONE) return count;
        count += show_event(connection, &event);
        if (!by_line) continue;
        const uint8_t *text = NULL;
        size_t len = 0;
        must(mysql_session_connection_line_with_secrets(connection, &text, &len));
        seen += len;
    }
}

/* Reads the streams of both sides, each piece of that whose turn it is. */
static size_t read_both(mysql_session_connection *connection, bytes client, bytes server) {
    bytes left[2] = {client, server};
    size_t count = 0;
    for (;;) {
        mysql_session_standing standing;
        must(mysql_session_connection_standing(connection, &standing));
        if (standing.turn > 1 || left[standing.turn].len == 0) break;
        bytes piece = next_piece(&left[standing.turn]);
        must(mysql_session_connection_feed(connection, standing.turn, piece.at, piece.len));
        count += take_events(connection);
    }
    if (left[0].len || left[1].len) must(MYSQL_SESSION_UNFINISHED);
    return count;
}

/* The numbers are the capabilities behind a login, or 0 of a whole connection, and MariaDB's own;
 * and whether all of the client is fed before the server says anything. */
static size_t read_connection(void) {
    mysql_session_connection connection = MYSQL_SESSION_NOTHING;
    mysql_session_standing standing;
    size_t count = 0;
    bytes client = streams[0];
    if (numbers[0])
        must(mysql_session_connection_after_login(&connection, (uint32_t)numbers[0],
                                                  (uint32_t)numbers[1], LIMIT, LIMIT, HELD));
    else
        must(mysql_session_connection_new(&connection, LIMIT, LIMIT, HELD));
    read_both(&connection, streams[2], streams[3]);
    begin();
    while (numbers[2] && client.len > 0) {
        bytes piece = next_piece(&client);
        must(mysql_session_connection_feed(&connection, MYSQL_SESSION_CLIENT, piece.at, piece.len));
        count += take_events(&connection);
    }
    count += read_both(&connection, client, streams[1]);
    must(mysql_session_connection_standing(&connection, &standing));
    kept = heap_held() - held_then;
    counted = standing.held;
    mysql_session_connection_free(&connection);
    return count;
}

static size_t write_lines(void) {
    by_line = true;
    return read_connection();
}

/* ---- Single payloads and texts --------------------------------------------------------------- */

static size_t read_login(void) {
    mysql_session_login login;
    begin();
    must(mysql_session_login_read(streams[0].at, streams[0].len, &login));
    seen += login.user_len;
    return 1;
}

static size_t read_query(void) {
    mysql_session_handle receiver = MYSQL_SESSION_NOTHING;
    begin();
    must(mysql_session_receiver_new(&receiver, streams[0].at, streams[0].len, STATEMENT, LIMIT, 0));
    mysql_session_free(&receiver);
    return 1;
}

/* Binds a text: the first stream is the query, the second the value of each placeholder. The numbers
 * are how many there are, and the flags. */
static size_t bind(void) {
    mysql_session_handle sets = MYSQL_SESSION_NOTHING, out = MYSQL_SESSION_NOTHING;
    mysql_session_place place;
    const uint8_t *data = NULL;
    size_t len = 0;
    begin();
    must(mysql_session_sets_new(&sets));
    must(mysql_session_bytes_new(&out));
    for (size_t i = 0; i < numbers[0]; i++)
        must(mysql_session_sets_push_bytes(&sets, streams[1].at, streams[1].len));
    must(mysql_session_sets_end_set(&sets));
    must(mysql_session_bind_text(&sets, 0, streams[0].at, streams[0].len, (uint32_t)numbers[1],
                                 &out, &place));
    must(mysql_session_bytes_data(&out, &data, &len));
    mysql_session_free(&out);
    mysql_session_free(&sets);
    return len;
}

static size_t read_mode(void) {
    begin();
    seen += mysql_session_mode_of_sql_mode(streams[0].at, streams[0].len);
    return 1;
}

/* ---- Measuring ------------------------------------------------------------------------------- */

/* The least nanoseconds of the unit. */
static double unit(void) {
    enum { LEN = 1 << 16, TIMES = 6 };
    typedef struct slot {
        uint64_t sum, more[3];
    } slot;
    double least = 1e18;
    for (int run = 0; run < TIMES; run++) {
        double from = now();
        size_t room = 0;
        slot *list = NULL;
        uint64_t sum = seen;
        for (size_t i = 0; i < LEN; i++) {
            if (i == room) {
                room = room ? 2 * room : 16;
                slot *grown = realloc(list, room * sizeof *list);
                if (!grown) exit(2);
                list = grown;
            }
            for (size_t k = 0; k < 4; k++) sum = (sum ^ k) * 0x100000001b3ULL;
            list[i] = (slot){sum, {i, i, i}};
        }
        for (size_t i = 0; i < LEN; i++) sum += list[i].sum ^ list[i].more[2];
        free(list);
        seen += sum;
        double took = (now() - from) / LEN;
        if (took < least) least = took;
    }
    return least;
}

typedef struct reader {
    const char *name;
    size_t (*read)(void);
} reader;

static const reader readers[] = {
    {"packets", split}, {"receiver", receive}, {"recoder", recode}, {"reply", read_reply},
    {"connection", read_connection}, {"lines", write_lines}, {"login", read_login},
    {"query", read_query}, {"bind", bind}, {"mode", read_mode},
};

static void read_input(void) {
    uint8_t len[8];
    for (size_t i = 0; i < MOST && fread(len, 1, 8, stdin) == 8; i++) {
        for (size_t k = 0; k < 8; k++) streams[i].len |= (size_t)len[k] << 8 * k;
        streams[i].at = malloc(streams[i].len + 1);
        if (!streams[i].at || fread(streams[i].at, 1, streams[i].len, stdin) != streams[i].len)
            exit(2);
    }
}

static void measure(const reader *what) {
    double least = 1e18, all = 0, before = unit();
    size_t shown = 0, memory = 0;
    for (int run = 0; run < FEWEST_RUNS || (run < RUNS && all < ENOUGH); run++) {
        size_t held = heap_held();
        shown = what->read();
        double took = now() - began;
        all += took;
        if (took < least) least = took;
        memory = heap_most() - held_then;
        if (heap_held() != held) {
            fprintf(stderr, "%zu bytes weren't freed\n", heap_held() - held);
            exit(2);
        }
    }
    double after = unit();
    printf("%zu %.0f %zu %.4f %zu %zu\n", memory, least, shown, before < after ? before : after,
           kept, counted);
}

int main(int count, char **words) {
    if (count < 2) return 2;
    piece_len = count > 2 ? strtoul(words[2], NULL, 10) : 0;
    if (piece_len == 0) piece_len = 1 << 16;
    for (int i = 3; i < count && i < 3 + MOST; i++) numbers[i - 3] = strtoul(words[i], NULL, 10);
    /* The heap keeps its pages, so that none is asked for anew by each run. */
    mallopt(M_MMAP_THRESHOLD, 1 << 30);
    mallopt(M_TRIM_THRESHOLD, 1 << 30);
    read_input();
    for (size_t i = 0; i < sizeof readers / sizeof *readers; i++) {
        if (strcmp(words[1], readers[i].name) != 0) continue;
        measure(&readers[i]);
        return 0;
    }
    return 2;
}
