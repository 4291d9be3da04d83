// Runs the library's workloads: library INPUTS ROUNDS WORKLOAD..
// By its interface for C; what that doesn't have, as a query that is kept and calls that take a type, goes by the exports of mysql_bench.
#include "calls.h"

typedef const unsigned char *Pointer;

size_t mysql_bench_places(Pointer, size_t, size_t);
size_t mysql_bench_send_kept(Pointer, size_t, Pointer, size_t, size_t, size_t, uint8_t, _Bool, size_t);
size_t mysql_bench_send_to(Pointer, size_t, Pointer, size_t, size_t, size_t, uint8_t, size_t);
size_t mysql_bench_send_values(Pointer, size_t, Pointer, size_t, size_t, size_t, uint8_t, size_t);
size_t mysql_bench_read_rows(Pointer, size_t, size_t, _Bool, _Bool);
size_t mysql_bench_write_reply(Pointer, size_t, _Bool, _Bool, size_t);
size_t mysql_bench_read_connection_lent(Pointer, size_t, Pointer, size_t, size_t);
size_t mysql_bench_cells(Pointer, size_t, _Bool, _Bool, size_t);
size_t mysql_bench_put_commands(Pointer, size_t, Pointer, size_t, Pointer, size_t, size_t);
size_t mysql_bench_put_sets(Pointer, size_t, Pointer, size_t, Pointer, size_t, size_t, size_t, Pointer, size_t, size_t);
size_t mysql_bench_put_rows(Pointer, size_t, Pointer, size_t, Pointer, size_t, Pointer, size_t, size_t, size_t, _Bool, _Bool, size_t);
int64_t mysql_bench_convert(Pointer, size_t, size_t, size_t);

#define OK_PACKET "\7\0\0\1\0\0\0\2\0\0\0"
#define TWO_OK_PACKETS "\7\0\0\1\0\0\0\12\0\0\0\7\0\0\2\0\0\0\2\0\0\0"

static void send_sets(const char *what, Work work, int rounds) {
    Bytes query = load(work.query), sets = load(work.sets);
    uint8_t road = strcmp(work.road, "text") == 0 ? MYSQL_SESSION_TEXT : strcmp(work.road, "execute") == 0 ? MYSQL_SESSION_EXECUTE : MYSQL_SESSION_BULK;
    size_t times = work.times;
    // By bulk too into one list.
    _Bool listed = ENDS("-listed") || ENDS("-apart") || ENDS("-one") || road == MYSQL_SESSION_BULK;
    if (ENDS("-kept")) {
        // Executions of a statement that was prepared before.
        _Bool prepared = road == MYSQL_SESSION_EXECUTE;
        MEASURE_TIMES("library", work.count, mysql_bench_send_kept(query.at, query.len, sets.at, sets.len, work.count, WIDTH, road, prepared, times))
    } else if (BEGINS("send-values")) {
        MEASURE_TIMES("library", work.count, mysql_bench_send_values(query.at, query.len, sets.at, sets.len, work.count, WIDTH, road, times))
    } else if (listed) {
        size_t at_once = ENDS("-apart") ? 1 : work.count;
        mysql_session_handle *all = sets_of(load_values(work.sets, work.count * WIDTH), work.count, WIDTH, at_once);
        MEASURE("library", (double)work.count * times, send_all(all, work.count / at_once, query, road, times))
    } else {
        MEASURE_TIMES("library", work.count, mysql_bench_send_to(query.at, query.len, sets.at, sets.len, work.count, WIDTH, road, times))
    }
}

// Both streams of a connection, and their commands and replies alone; a reply has so many bytes.
typedef struct { Bytes client, server, commands, replies; size_t reply; } Streams;

static Streams streams_of(const char *what) {
    _Bool rows = BEGINS("connection-rows"), executions = ENDS("-executions");
    Bytes none = {0}, commands = executions ? repeated(load("prepare"), load("executes"), 1) : load("texts");
    if (rows) commands = first_packet(commands);
    Bytes replies = load(rows ? "reply-text" : executions ? "replies-binary" : "replies-text");
    Bytes before = repeated(load("login-server"), executions ? load("prepared") : none, 1);
    Bytes client = repeated(load("login-client"), commands, 1), server = repeated(before, replies, 1);
    return (Streams){client, server, commands, replies, rows ? replies.len : replies.len / CONNECTION_COMMANDS};
}

// The rows lent, looked at and let go, by the connection in Rattle and in C, and by a reader of the reply.
static void lend_connection(const char *what, int rounds) {
    Bytes query = load("query");
    Streams all = streams_of(what);
    MEASURE("library", (double)ROWS, mysql_bench_read_connection_lent(all.client.at, all.client.len, all.server.at, all.server.len, PIECE))
    MEASURE("in-c", (double)ROWS, lend_whole_connection(all.client, all.server, PIECE))
    MEASURE("apart", (double)ROWS, receive(query, all.commands, PIECE, TAKEN) + mysql_bench_read_rows(all.replies.at, all.replies.len, PIECE, 0, 0))
}

static void read_connection(const char *what, int rounds) {
    Bytes query = load("query");
    Streams all = streams_of(what);
    double units = ENDS("-rows") ? ROWS : CONNECTION_COMMANDS;
    MEASURE("library", units, read_whole_connection(all.client, all.server, PIECE))
    MEASURE("apart", units, read_apart(query, all.commands, all.replies, all.reply, PIECE, ENDS("-executions")))
}

// Sets sent by a call, by text each by a call of its own, put packet by packet, and the reply to each command read; beside
// them the same sets sent, which reads no reply.
static void put_packets(const char *what, int rounds) {
    _Bool text = ENDS("-text"), data = ENDS("-long-data");
    uint8_t road = text ? MYSQL_SESSION_TEXT : ENDS("-bulk") ? MYSQL_SESSION_BULK : MYSQL_SESSION_EXECUTE;
    Bytes query = load("query"), reply = of_text(OK_PACKET, sizeof OK_PACKET - 1), first = text ? reply : load("prepared");
    size_t count = data ? LONG_DATA_SETS : CONNECTION_COMMANDS, at_once = text ? 1 : count;
    double units = (double)count * PUT_TIMES;
    mysql_session_handle *sets = sets_of(load_values(data ? "sets-long-data" : "sets", count * WIDTH), count, WIDTH, at_once);
    MEASURE("library", units, put_sent(sets, count / at_once, query, road, first, reply, PUT_TIMES))
    MEASURE("sent", units, send_all(sets, count / at_once, query, road, PUT_TIMES))
}

// Commands put on a connection as events, and the reply to each read: an OK packet, or two of them, so that the replies'
// part is known. Beside them their payloads put, and the same sets sent by a query that is kept, which reads no reply.
static void put_commands(const char *what, int rounds) {
    _Bool executions = ENDS("-executions");
    Bytes query = load("query"), sets = load("sets"), commands = executions ? repeated(load("prepare"), load("executes"), 1) : load("texts");
    Bytes ok = of_text(OK_PACKET, sizeof OK_PACKET - 1), two = of_text(TWO_OK_PACKETS, sizeof TWO_OK_PACKETS - 1), first = executions ? load("prepared") : ok;
    size_t times = PUT_TIMES;
    MEASURE_TIMES("library", CONNECTION_COMMANDS, mysql_bench_put_commands(commands.at, commands.len, first.at, first.len, ok.at, ok.len, times))
    MEASURE_TIMES("payloads", CONNECTION_COMMANDS, put_commands_of(commands, first, ok, times))
    if (!executions) first = two;
    MEASURE_TIMES("two-replies", CONNECTION_COMMANDS, mysql_bench_put_commands(commands.at, commands.len, first.at, first.len, two.at, two.len, times))
    if (executions) {
        MEASURE_TIMES("sets", CONNECTION_COMMANDS, mysql_bench_put_sets(commands.at, commands.len, first.at, first.len, sets.at, sets.len, CONNECTION_COMMANDS, WIDTH, ok.at, ok.len, times))
        MEASURE_TIMES("sent", CONNECTION_COMMANDS, mysql_bench_send_kept(query.at, query.len, sets.at, sets.len, CONNECTION_COMMANDS, WIDTH, MYSQL_SESSION_EXECUTE, 1, times))
    } else {
        MEASURE_TIMES("sent", CONNECTION_COMMANDS, mysql_bench_send_kept(query.at, query.len, sets.at, sets.len, CONNECTION_COMMANDS, WIDTH, MYSQL_SESSION_TEXT, 0, times))
    }
}

// The place behind the packets of a stream, so many of them.
static size_t behind_packets(Bytes stream, size_t count) {
    size_t at = 0;
    for (size_t i = 0; i < count; i++) at += 4 + (stream.at[at] | stream.at[at + 1] << 8 | stream.at[at + 2] << 16);
    return at;
}

// A reply of many rows put on a connection, each by its cells, or as an event; and the same result written by one call.
static void put_rows(const char *what, int rounds) {
    _Bool binary = ENDS("-binary");
    Bytes none = {0}, stream = load(binary ? "cells-binary" : "cells-text"), command = first_packet(load(binary ? "executes" : "texts"));
    Bytes prepare = binary ? load("prepare") : repeated(none, none, 0), prepared = binary ? load("prepared") : prepare;
    // The packets before the rows: the count, the columns, and their end.
    size_t from = behind_packets(stream, WIDTH + 2), to = behind_packets(stream, WIDTH + 2 + CELL_ROWS);
    double units = (double)CELL_ROWS * CELL_TIMES;
    for (int by_event = 0; by_event < 2; by_event++)
        MEASURE(by_event ? "events" : "library", units, mysql_bench_put_rows(prepare.at, prepare.len, prepared.at, prepared.len, command.at, command.len, stream.at, stream.len, from, to, binary, by_event, CELL_TIMES))
    MEASURE("written", units, mysql_bench_write_reply(stream.at, stream.len, binary, binary, CELL_TIMES))
}

static void run(const char *what, int rounds) {
    Work work;
    _Bool binary = strstr(what, "binary") != 0, bytewise = strstr(what, "bytewise") != 0, taken = strstr(what, "taken") != 0;
    size_t copies = bytewise ? BYTEWISE_COPIES : COPIES, piece = bytewise ? 1 : PIECE;
    if (IS("frame-16M")) {
        Bytes one = payload(16000000);
        MEASURE("library", 16e6 * SCALED(64), frame(one, SCALED(64), 1))
    } else if (IS("frame-100")) {
        Bytes one = payload(100);
        MEASURE("library", 1e2 * SCALED(10000000), frame(one, SCALED(10000000), 65536))
    } else if (BEGINS("split")) {
        Bytes stream = IS("split-16M") ? framed(16000000, SCALED(64)) : framed(100, SCALED(2560000));
        MEASURE("library", (double)stream.len, split(stream))
    } else if (IS("places")) {
        Bytes query = load("query");
        MEASURE("library", 1.0 * SCALED(1000000), mysql_bench_places(query.at, query.len, SCALED(1000000)))
    } else if (IS("make-sets")) {
        Value *values = load_values("sets", CONNECTION_COMMANDS * WIDTH);
        MEASURE("library", 1e4 * COPIES, make_sets(values, CONNECTION_COMMANDS, WIDTH, COPIES))
    } else if (BEGINS("receive")) {
        Bytes query = load("query"), stream = commands(what, copies);
        // Beside a reader from which sets are taken, one whose contents are looked at, and one that keeps them all.
        if (taken) {
            MEASURE("library", 1e4 * copies, receive(query, stream, piece, TAKEN))
            MEASURE("looked-at", 1e4 * copies, receive(query, stream, piece, LOOKED_AT))
        }
        MEASURE(taken ? "kept" : "library", 1e4 * copies, receive(query, stream, piece, KEPT))
    } else if (BEGINS("recode")) {
        Bytes query = load("query"), stream = commands(what, copies);
        MEASURE("library", 1e4 * copies, recode(query, stream))
    } else if (BEGINS("reply") && ENDS("-lent")) {
        Bytes stream = load(binary ? "reply-binary" : "reply-text");
        MEASURE("library", (double)ROWS, mysql_bench_read_rows(stream.at, stream.len, piece, binary, 0))
    } else if (BEGINS("reply") && ENDS("-stored")) {
        Bytes stream = load(binary ? "reply-binary" : "reply-text");
        MEASURE("library", (double)ROWS, mysql_bench_read_rows(stream.at, stream.len, piece, binary, 1))
    } else if (BEGINS("reply")) {
        Bytes stream = load(binary ? "reply-binary" : "reply-text");
        if (taken) {
            MEASURE("library", (double)ROWS, read_reply(stream, piece, binary, TAKEN))
            MEASURE("looked-at", (double)ROWS, read_reply(stream, piece, binary, LOOKED_AT))
        }
        MEASURE(taken ? "kept" : "library", (double)ROWS, read_reply(stream, piece, binary, KEPT))
    } else if (BEGINS("write-reply")) {
        Bytes stream = load("cells-binary");
        MEASURE("library", (double)CELL_ROWS * CELL_TIMES, mysql_bench_write_reply(stream.at, stream.len, 1, binary, CELL_TIMES))
    } else if (BEGINS("cells")) {
        Bytes stream = load(binary ? "cells-binary" : "cells-text");
        _Bool by_name = strstr(what, "by-name") != 0;
        MEASURE("library", (double)CELL_ROWS * CELL_TIMES, mysql_bench_cells(stream.at, stream.len, binary, by_name, CELL_TIMES))
    } else if (BEGINS("convert")) {
        Bytes values = load(IS("convert-digits") ? "digits" : "numbers");
        size_t times = CONVERT_TIMES;
        MEASURE_TIMES("library", CONVERTED, mysql_bench_convert(values.at, values.len, CONVERTED, times))
    } else if (BEGINS("put-rows")) {
        put_rows(what, rounds);
    } else if (BEGINS("put-sets")) {
        put_packets(what, rounds);
    } else if (BEGINS("put")) {
        put_commands(what, rounds);
    } else if (IS("connection-rows-lent")) {
        lend_connection(what, rounds);
    } else if (BEGINS("connection")) {
        read_connection(what, rounds);
    } else if (find_work(what, &work)) {
        send_sets(what, work, rounds);
    } else {
        exit(2);
    }
}

int main(int argc, char **argv) {
    if (mysql_session_abi() != MYSQL_SESSION_ABI) return 2;
    INPUTS = argv[1];
    for (int i = 3; i < argc; i++) run(argv[i], atoi(argv[2]));
    return 0;
}
