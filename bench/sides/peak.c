// The most memory that a call holds at a time, over the input's bytes and over what it holds when it has taken its last block, which
// is what is kept and the reader's own; and that of readers from which what stands is taken behind each piece: peak INPUTS
// Linked with --wrap, so that it counts each block with what malloc adds.
#include "calls.h"
#include <malloc.h>

static size_t held, most, last, calls;

void *__real_malloc(size_t);
void *__real_realloc(void *, size_t);
void __real_free(void *);

static void took(void *p) {
    held += p ? malloc_usable_size(p) + 8 : 0, calls++;
    if (held > most) most = held;
    last = held;
}

void *__wrap_malloc(size_t n) { void *p = __real_malloc(n); took(p); return p; }
void __wrap_free(void *p) { held -= p ? malloc_usable_size(p) + 8 : 0; __real_free(p); }
void *__wrap_realloc(void *p, size_t n) {
    size_t old = p ? malloc_usable_size(p) + 8 : 0;
    // The worst case: both blocks stand while the bytes are copied.
    void *q = __real_realloc(p, n);
    if (q) { took(q); held -= old; last = held; }
    return q;
}

#define PEAK(what, len, expression)                                                               \
    do {                                                                                          \
        size_t before_ = held;                                                                    \
        most = last = held, calls = 0;                                                                   \
        size_t answer_ = (expression);                                                            \
        printf("%-44s %10zu bytes, peak %11zu, %6.2f a byte, %5.2f over the last, %9zu calls, answer %zu\n", what, \
               (size_t)(len), most - before_, (double)(most - before_) / (len), (double)(most - before_) / (last - before_), calls, answer_); \
    } while (0)

static Bytes packet(unsigned number, Bytes payload) {
    Bytes all = {malloc(payload.len + 4 * (payload.len / 16777215 + 1)), 0};
    for (size_t at = 0;; number++) {
        size_t count = payload.len - at < 16777215 ? payload.len - at : 16777215;
        unsigned char head[4] = {count, count >> 8, count >> 16, number};
        memcpy(all.at + all.len, head, 4), memcpy(all.at + all.len + 4, payload.at + at, count);
        all.len += 4 + count, at += count;
        if (count < 16777215) return all;
    }
}

static Bytes filled(const char *front, size_t front_len, int byte, size_t count, const char *back) {
    Bytes all = {malloc(front_len + count + strlen(back)), front_len + count + strlen(back)};
    memcpy(all.at, front, front_len), memset(all.at + front_len, byte, count), memcpy(all.at + front_len + count, back, strlen(back));
    return all;
}

static void commands_of_one_value(void) {
    Bytes query = {(void *)"SELECT ?", 8};
    Bytes stream = packet(0, filled("\3SELECT '", 9, 'a', 16000000, "'"));
    PEAK("a text with a string of 16 MB, one piece", stream.len, receive(query, stream, stream.len, KEPT));
    PEAK("the same in pieces of 64 KiB", stream.len, receive(query, stream, PIECE, KEPT));
    stream = packet(0, filled("\3SELECT 0x", 10, '7', 16000000, ""));
    PEAK("a text with 16 MB of hexadecimal", stream.len, receive(query, stream, PIECE, KEPT));
}

// Streams that are as long as wanted: a front, and then a block again and again, which alone is held here.
typedef struct { Bytes query, front, block; _Bool binary; } Endless;

enum { SHORTEST = 1000000, LONG = 100000000, LONGEST = 1000000000 };

static size_t length(Endless all, size_t times) { return all.front.len + times * all.block.len; }

// Readers from which what stands is taken behind each piece, over streams of 10^6 bytes to the most.
static void receive_taken(const char *what, Endless all, size_t most_len) {
    for (size_t len = SHORTEST; len <= most_len; len *= 10) {
        size_t times = len / all.block.len + 1;
        PEAK(what, length(all, times), receive_long(all.query, all.front, all.block, times, PIECE, TAKEN));
    }
}

static void reply_taken(const char *what, Endless all, size_t most_len) {
    for (size_t len = SHORTEST; len <= most_len; len *= 10) {
        size_t times = len / all.block.len + 1;
        PEAK(what, length(all, times), read_reply_long(all.front, all.block, times, PIECE, all.binary, TAKEN));
    }
}

// Executions of a query of 65535 placeholders, all NULL; the first has the types.
static Endless wide_executions(void) {
    enum { COUNT = 65535 };
    static const char head[] = "\x17\1\0\0\0\0\1\0\0\0";
    Bytes none = {0}, prepare = filled("\x16", 1, ' ', 2 * COUNT, ""), types = filled("", 0, 0, 2 * COUNT, "");
    for (size_t i = 0; i < COUNT; i++) prepare.at[1 + 2 * i] = '?', types.at[2 * i] = 6;
    Bytes first = filled(head, 10, 0xff, 8192, "\1"), next = filled(head, 10, 0xff, 8192, "\1");
    next.at[next.len - 1] = 0;
    Bytes front = repeated(packet(0, prepare), packet(0, repeated(first, types, 1)), 1);
    return (Endless){{prepare.at + 1, 2 * COUNT}, front, repeated(none, packet(0, next), 8), 0};
}

// The executions kept, so many blocks of them.
static void wide_executions_kept(size_t times) {
    Endless all = wide_executions();
    Bytes stream = repeated(all.front, all.block, times);
    PEAK("executes of 65535 NULLs without types", stream.len, receive(all.query, stream, PIECE, KEPT));
    free(stream.at);
}

// A row of so many bytes again and again, 256 times as often as told, numbered on from this number.
static Bytes numbered_rows(Bytes payload, size_t times, unsigned number) {
    Bytes none = {0}, rows = repeated(none, packet(0, payload), 256 * times);
    for (size_t i = 0; i < 256 * times; i++) rows.at[i * (payload.len + 4) + 3] = number++;
    return rows;
}

// Replies of rows of four cells of one byte each.
static Endless small_rows(unsigned char byte) {
    Bytes reply = load("reply-text"), none = {0};
    size_t at = 0;
    for (int i = 0; i < 6; i++) at += 4 + (reply.at[at] | reply.at[at + 1] << 8);
    return (Endless){none, {reply.at, at}, numbered_rows(filled("", 0, byte, 4, ""), 32, 7), 0};
}

static void small_rows_kept(const char *what, unsigned char byte) {
    Endless all = small_rows(byte);
    Bytes stream = repeated(all.front, all.block, 244);
    unsigned char end[9] = {5, 0, 0, 7, 0xfe, 0, 0, 2, 0};
    stream = repeated(stream, (Bytes){end, 9}, 1);
    PEAK(what, stream.len, read_reply(stream, PIECE, 0, KEPT));
    free(stream.at);
}

// Replies of binary rows of 65535 NULLs.
static Endless wide_rows(void) {
    enum { COUNT = 65535 };
    static const char texts[] = "\3def\0\0\0\0\0\x0c\x3f\0\1\0\0\0\x08\0\0\0\0";
    Bytes none = {0}, front = packet(1, filled("\xfc\xff\xff", 3, 0, 0, "")), column = packet(2, filled(texts, 21, 0, 1, ""));
    front = repeated(front, column, COUNT);
    for (size_t i = 0; i < COUNT; i++) front.at[7 + i * column.len + 3] = 2 + i;
    front = repeated(front, packet(2 + COUNT, filled("\xfe\0\0\2\0", 5, 0, 0, "")), 1);
    return (Endless){none, front, numbered_rows(filled("\0", 1, 0xff, 8193, ""), 1, 3 + COUNT), 1};
}

// The rows kept, 256 of them for each block.
static void wide_rows_kept(size_t times) {
    Endless all = wide_rows();
    Bytes stream = repeated(all.front, all.block, times);
    unsigned char end[9] = {5, 0, 0, 2, 0xfe, 0, 0, 2, 0};
    stream = repeated(stream, (Bytes){end, 9}, 1);
    PEAK("a reply of rows of 65535 NULLs", stream.len, read_reply(stream, PIECE, 1, KEPT));
    free(stream.at);
}

// One bulk request of rows of one NULL, a byte each: its sets stand all together, also where they are taken.
static void bulk_of_nulls(void) {
    static const char head[] = "\xfa\1\0\0\0\x80\0\x08\0";
    Bytes query = {(void *)"SELECT ?", 8}, front = packet(0, filled("\x16SELECT ?", 9, 0, 0, ""));
    Bytes block = packet(0, filled(head, 9, 1, 16000000, ""));
    PEAK("one bulk request of 16 million NULLs, taken", front.len + block.len, receive_long(query, front, block, 1, PIECE, TAKEN));
}

// A statement's long data that no execution ever takes: what waits is held, also by a reader from which sets are taken.
static void waiting_pieces(void) {
    Bytes query = {(void *)"SELECT ?", 8}, none = {0}, front = packet(0, filled("\x16SELECT ?", 9, 0, 0, ""));
    Bytes block = repeated(none, packet(0, filled("\x18\1\0\0\0\0", 6, 0, 1000, "")), 1000);
    size_t len = front.len + 64 * block.len;
    // Its end isn't whole, so that the count that is answered is 0.
    PEAK("long data of 1000 bytes that waits, taken", len, receive_long(query, front, block, 64, PIECE, TAKEN));
}

// A connection that logs in and asks for one reply, whose rows go on: events are taken and dropped.
static void connection_taken(const char *what, Endless rows, size_t most_len) {
    Bytes command = load("texts");
    command.len = 4 + (command.at[0] | command.at[1] << 8);
    Bytes client = repeated(load("login-client"), command, 1), front = repeated(load("login-server"), rows.front, 1);
    for (size_t len = SHORTEST; len <= most_len; len *= 10) {
        size_t times = len / rows.block.len + 1;
        PEAK(what, front.len + times * rows.block.len, read_long_connection(client, front, rows.block, times, PIECE, take_events));
    }
}

static void taken(void) {
    Bytes none = {0};
    receive_taken("texts of 123 bytes, taken", (Endless){load("query"), none, commands("texts", 1), 0}, LONGEST);
    receive_taken("executes of 85 bytes, taken", (Endless){load("query"), load("prepare"), load("executes"), 0}, LONGEST);
    receive_taken("executes of 65535 NULLs, taken", wide_executions(), LONG);
    reply_taken("rows of four NULLs, taken", small_rows(251), LONGEST);
    reply_taken("rows of 65535 NULLs, taken", wide_rows(), LONG);
    connection_taken("a connection, rows of four NULLs", small_rows(251), LONGEST);
    bulk_of_nulls();
    waiting_pieces();
}

int main(int argc, char **argv) {
    (void)argc;
    INPUTS = argv[1];
    Bytes query = load("query"), stream = commands("texts", 10);
    PEAK("texts of 123 bytes, pieces of 64 KiB", stream.len, receive(query, stream, PIECE, KEPT));
    stream = commands("executes", 10);
    PEAK("executes of 85 bytes, pieces of 64 KiB", stream.len, receive(query, stream, PIECE, KEPT));
    stream = commands("bulks", 10);
    PEAK("bulk rows of 65 bytes, pieces of 64 KiB", stream.len, receive(query, stream, PIECE, KEPT));
    commands_of_one_value();
    wide_executions_kept(13);
    wide_executions_kept(64);
    stream = load("reply-text");
    PEAK("a reply of rows of 46 bytes", stream.len, read_reply(stream, PIECE, 0, KEPT));
    small_rows_kept("a reply of rows of four empty cells", 0);
    small_rows_kept("a reply of rows of four NULLs", 251);
    wide_rows_kept(2);
    stream = framed(16000000, 8);
    PEAK("payloads of 16 MB split, pieces of 64 KiB", stream.len, split(stream));
    stream = framed(100, 256000);
    PEAK("payloads of 100 bytes split", stream.len, split(stream));
    stream = framed(0, 2560000);
    PEAK("empty payloads split", stream.len, split(stream));
    taken();
    return 0;
}
