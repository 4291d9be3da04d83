// Rows that are lent, connections that idle, a long one, and some in threads: many INPUTS ROUNDS WHAT..
// WHAT is lent; or idle or statements, and a count; or threads, and how many.
#define _GNU_SOURCE
#include "calls.h"
#include <malloc.h>
#include <pthread.h>
#include <sys/resource.h>
#include <unistd.h>

typedef const unsigned char *Pointer;

size_t mysql_bench_read_rows(Pointer, size_t, size_t, _Bool, _Bool);
size_t mysql_bench_read_connection_lent(Pointer, size_t, Pointer, size_t, size_t);

enum { STREAM = SCALED(64 << 20), SAID = 100, PARTS = 10, IN_A_THREAD = SCALED(100000), MOST_THREADS = 64 };

static Bytes nothing = {(unsigned char *)"", 0};

static Bytes packet_at(Bytes stream, size_t at) {
    return first_packet((Bytes){stream.at + at, stream.len - at});
}

// The first packets of a stream, so many.
static Bytes packets_of(Bytes stream, size_t count) {
    Bytes all = {stream.at, 0};
    for (size_t i = 0; i < count; i++) all.len += packet_at(stream, all.len).len;
    return all;
}

// ---- Rows that are lent

static void put_cell(Out *out, const void *at, size_t len) {
    unsigned char head[3] = {len > 250 ? 252 : len, len, len >> 8};
    put(out, head, len > 250 ? 3 : 1), put(out, at, len);
}

// A row of a bigint, two texts and a bigint: so many bytes with its header, by the second text.
static Bytes row_of(size_t size, _Bool binary) {
    Out row = {0};
    int64_t id = 1000000, age = 18;
    size_t len = size - (binary ? 6 + 8 + 12 + 8 : 4 + 8 + 12 + 3) - (size > 300 ? 3 : 1);
    Bytes note = payload(len);
    put(&row, "\0\0\0\0\0\0", binary ? 6 : 4);
    binary ? put(&row, &id, 8) : put_cell(&row, "1000000", 7);
    put_cell(&row, "user0000000", 11), put_cell(&row, note.at, len);
    binary ? put(&row, &age, 8) : put_cell(&row, "18", 2);
    free(note.at);
    row.at[0] = size - 4, row.at[1] = (size - 4) >> 8, row.at[2] = (size - 4) >> 16;
    return (Bytes){row.at, row.len};
}

// A reply of such rows.
static Bytes reply_of(size_t size, _Bool binary, size_t rows) {
    Bytes row = row_of(size, binary), columns = packets_of(load("reply-text"), 6);
    Bytes reply = repeated(columns, row, rows);
    for (size_t i = 0; i < rows; i++) reply.at[columns.len + i * size + 3] = 7 + i;
    unsigned char end[9] = {5, 0, 0, 7 + rows, 0xfe, 0, 0, 2, 0};
    return repeated(reply, (Bytes){end, 9}, 1);
}

// Rows are lent, and their cells looked at.
static size_t look(mysql_session_connection *connection) {
    mysql_session_value cells[WIDTH];
    size_t sum = 0;
    for (mysql_session_event event;; sum++) {
        done(mysql_session_connection_next_lent(connection, cells, WIDTH, &event));
        if (event.kind == MYSQL_SESSION_EVENT_NONE) return sum;
        for (size_t i = 0; i < event.columns && event.kind == MYSQL_SESSION_EVENT_ROW; i++) sum += cells[i].kind == MYSQL_SESSION_BYTES ? cells[i].len : 1;
    }
}

// By a connection in C and in Rattle, and by a reader of the reply in Rattle.
static void lend(int rounds, size_t size, _Bool binary) {
    char what[64];
    Bytes reply = reply_of(size, binary, STREAM / size), client = repeated(load("login-client"), first_packet(load("texts")), 1), server = load("login-server");
    if (binary) client = repeated(repeated(load("login-client"), load("prepare"), 1), first_packet(load("executes")), 1), server = repeated(server, load("prepared"), 1);
    server = repeated(server, reply, 1);
    snprintf(what, sizeof what, "lent-%zu-%s", size, binary ? "binary" : "text");
    MEASURE("connection", reply.len, read_long_connection(client, server, nothing, 0, PIECE, look))
    MEASURE("connection-in-rattle", reply.len, mysql_bench_read_connection_lent(client.at, client.len, server.at, server.len, PIECE))
    MEASURE("reader-in-rattle", reply.len, mysql_bench_read_rows(reply.at, reply.len, PIECE, binary, 0))
    free(reply.at), free(client.at), free(server.at);
}

// ---- Connections that idle

typedef struct { Bytes greeting, login, accepted, texts, rows, prepare, prepared, executes, results, reply; } Talk;

static Talk TALK;

static void load_talk(void) {
    Bytes server = load("login-server"), greeting = first_packet(server);
    TALK = (Talk){greeting, load("login-client"), {server.at + greeting.len, server.len - greeting.len}, load("texts"), load("replies-text"), load("prepare"), load("prepared"), load("executes"), load("replies-binary"), reply_of(PIECE, 0, 1)};
}

static void say(mysql_session_connection *connection, uint32_t side, Bytes bytes) {
    done(mysql_session_connection_feed(connection, side, bytes.at, bytes.len));
    take_events(connection);
}

static void meet(mysql_session_connection *connection) {
    say(connection, MYSQL_SESSION_SERVER, TALK.greeting), say(connection, MYSQL_SESSION_CLIENT, TALK.login), say(connection, MYSQL_SESSION_SERVER, TALK.accepted);
}

// So many commands and their replies, from the first one of the inputs again where they are no more; a reply is eight packets.
static void ask(mysql_session_connection *connection, Bytes commands, Bytes replies, size_t count) {
    for (size_t at = 0, from = 0, reply = packets_of(replies, 8).len; count--; from = from + reply < replies.len ? from + reply : 0) {
        Bytes command = packet_at(commands, from ? at : 0);
        at = command.at - commands.at + command.len;
        say(connection, MYSQL_SESSION_CLIENT, command), say(connection, MYSQL_SESSION_SERVER, (Bytes){replies.at + from, reply});
    }
}

static void prepare(mysql_session_connection *connection) {
    say(connection, MYSQL_SESSION_CLIENT, TALK.prepare), say(connection, MYSQL_SESSION_SERVER, TALK.prepared);
}

static void stand(mysql_session_connection *connection, const char *how) {
    done(mysql_session_connection_new(connection, LIMIT, LIMIT, HELD));
    if (strcmp(how, "fresh") == 0) return;
    meet(connection);
    if (strcmp(how, "statements") == 0) ask(connection, TALK.texts, TALK.rows, SAID);
    if (strcmp(how, "prepared") == 0) prepare(connection), ask(connection, TALK.executes, TALK.results, 1);
    if (strcmp(how, "long") == 0) say(connection, MYSQL_SESSION_CLIENT, first_packet(TALK.texts)), say(connection, MYSQL_SESSION_SERVER, TALK.reply);
}

static size_t resident(void) {
    size_t all = 0, here = 0;
    FILE *file = fopen("/proc/self/statm", "r");
    if (!file || fscanf(file, "%zu %zu", &all, &here) != 2) exit(2);
    fclose(file);
    return here * sysconf(_SC_PAGESIZE);
}

// Bytes of the heap and of memory that each connection takes, and microseconds that it took to bring it there.
static void idle(const char *how, size_t count) {
    mysql_session_connection *all = calloc(count, sizeof *all);
    memset(all, 1, count * sizeof *all), memset(all, 0, count * sizeof *all);
    size_t heap = mallinfo2().uordblks, memory = resident();
    double before = now(CLOCK_PROCESS_CPUTIME_ID);
    for (size_t i = 0; i < count; i++) stand(all + i, how);
    double spent = now(CLOCK_PROCESS_CPUTIME_ID) - before;
    printf("idle-%s %zu connections: heap %.0f memory %.0f bytes each, %.2f us\n", how, count, (double)(mallinfo2().uordblks - heap) / count, (double)(resident() - memory) / count, spent / 1e3 / count);
    for (size_t i = 0; i < count; i++) mysql_session_connection_free(all + i);
    free(all);
}

// ---- A long connection, and connections in threads

// Nanoseconds of the processor a statement, and bytes of the heap, behind each tenth.
static void go_on(const char *how, size_t count) {
    _Bool text = strcmp(how, "texts") == 0;
    mysql_session_connection connection = MYSQL_SESSION_NOTHING;
    mysql_session_standing standing;
    size_t heap = mallinfo2().uordblks;
    stand(&connection, text ? "login" : "prepared");
    for (size_t i = 1; i <= PARTS; i++) {
        double before = now(CLOCK_PROCESS_CPUTIME_ID);
        ask(&connection, text ? TALK.texts : TALK.executes, text ? TALK.rows : TALK.results, count / PARTS);
        double spent = now(CLOCK_PROCESS_CPUTIME_ID) - before;
        done(mysql_session_connection_standing(&connection, &standing));
        printf("%s %zu: %.0f ns a statement, heap %zu, held %zu\n", how, i * (count / PARTS), spent / (count / PARTS), mallinfo2().uordblks - heap, standing.held);
    }
    mysql_session_connection_free(&connection);
}

// The work of a thread: it makes a connection ready, and goes on once all are. It tells when it began and ended, and what it took.
typedef struct { double began, ended, processor; long waits; _Bool lends; } Thread;

static pthread_barrier_t ready;
static Bytes rows_client, rows_server;

static void *work(void *of) {
    Thread *thread = of;
    struct rusage before, after;
    mysql_session_connection connection = MYSQL_SESSION_NOTHING;
    stand(&connection, "login");
    pthread_barrier_wait(&ready);
    getrusage(RUSAGE_THREAD, &before);
    thread->began = now(CLOCK_MONOTONIC), thread->processor = now(CLOCK_THREAD_CPUTIME_ID);
    if (thread->lends) read_long_connection(rows_client, rows_server, nothing, 0, PIECE, look);
    else ask(&connection, TALK.texts, TALK.rows, IN_A_THREAD);
    thread->ended = now(CLOCK_MONOTONIC), thread->processor = now(CLOCK_THREAD_CPUTIME_ID) - thread->processor;
    getrusage(RUSAGE_THREAD, &after);
    thread->waits = after.ru_nvcsw - before.ru_nvcsw;
    mysql_session_connection_free(&connection);
    return NULL;
}

// Units a second of all threads, the processor's nanoseconds a unit, and how often a thread waited within.
static void in_threads(const char *what, _Bool lends, size_t count, double units) {
    pthread_t all[MOST_THREADS];
    Thread threads[MOST_THREADS] = {0}, sum = {.began = 1e300};
    pthread_barrier_init(&ready, NULL, count);
    for (size_t i = 0; i < count; i++) if (threads[i].lends = lends, pthread_create(all + i, NULL, work, threads + i)) exit(2);
    for (size_t i = 0; i < count; i++) {
        pthread_join(all[i], NULL);
        Thread one = threads[i];
        sum.processor += one.processor, sum.waits += one.waits;
        sum.began = one.began < sum.began ? one.began : sum.began, sum.ended = one.ended > sum.ended ? one.ended : sum.ended;
    }
    printf("%s in %zu threads: %.0f a second, %.1f ns of the processor each, %ld waits\n", what, count, units * count / (sum.ended - sum.began) * 1e9, sum.processor / (units * count), sum.waits);
}

static void run(const char *what, size_t count, int rounds) {
    static const size_t sizes[] = {46, 128, 1024, 65536};
    if (strcmp(what, "lent") == 0)
        for (int i = 0; i < 8; i++) lend(rounds, sizes[i / 2], i % 2);
    else if (strncmp(what, "idle-", 5) == 0) idle(what + 5, count);
    else if (strcmp(what, "threads") == 0)
        for (int i = 0; i < rounds; i++) in_threads("statements", 0, count, IN_A_THREAD), in_threads("rows", 1, count, STREAM / 46);
    else go_on(what, count);
}

int main(int argc, char **argv) {
    if (mysql_session_abi() != MYSQL_SESSION_ABI || argc < 5) return 2;
    static char said[BUFSIZ];
    INPUTS = argv[1], setvbuf(stdout, said, _IOLBF, sizeof said);
    load_talk();
    rows_client = repeated(load("login-client"), first_packet(load("texts")), 1), rows_server = repeated(load("login-server"), reply_of(46, 0, STREAM / 46), 1);
    for (int i = 3; i + 1 < argc; i += 2) run(argv[i], atoll(argv[i + 1]), atoi(argv[2]));
    return 0;
}
