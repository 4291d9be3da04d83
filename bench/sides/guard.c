// The works whose instructions tools/guard counts: guard INPUTS SETS ROWS, where the inputs have so many sets and rows.
// Each is done twice, and callgrind counts and dumps the second time alone, under the work's name and its units.
//
// Neither the C library nor the processor counts. The linker puts the calls below in place of the C library's (--wrap): a block costs a fixed number
// of instructions, and bytes are moved by eight.
#include "calls.h"
#include <valgrind/callgrind.h>

enum { FRAMES = 5000, LOGINS = 500, HEAP = 1 << 28 };

// Takes so many instructions, and some three more.
#define TAKE(count) __asm__ volatile(".rept " #count "\n\tnop\n\t.endr")

// The heap. A block lies behind the block before it, and its memory isn't used again; the last block grows where it lies.

static unsigned char heap[HEAP] __attribute__((aligned(16)));
static size_t top;

typedef struct { size_t size, unused; } Head;

static Head *head_of(void *block) { return (Head *)block - 1; }
static size_t rounded(size_t size) { return (size + 15) & ~(size_t)15; }

void *__wrap_malloc(size_t size) {
    TAKE(120);
    if (size > HEAP || top + sizeof(Head) + rounded(size) > HEAP) return NULL;
    void *block = heap + top + sizeof(Head);
    head_of(block)->size = size;
    top += sizeof(Head) + rounded(size);
    return block;
}

void __wrap_free(void *block) {
    TAKE(60);
    (void)block;
}

static void move_forwards(void *to, const void *from, size_t len) {
    size_t words = len / 8, bytes = len % 8;
    __asm__ volatile("rep movsq" : "+D"(to), "+S"(from), "+c"(words) : : "memory");
    __asm__ volatile("rep movsb" : "+D"(to), "+S"(from), "+c"(bytes) : : "memory");
}

void *__wrap_memcpy(void *to, const void *from, size_t len) {
    move_forwards(to, from, len);
    return to;
}

void *__wrap_memmove(void *to, const void *from, size_t len) {
    unsigned char *last = (unsigned char *)to + len;
    const unsigned char *last_from = (const unsigned char *)from + len;
    if ((uintptr_t)to - (uintptr_t)from >= len) {
        move_forwards(to, from, len);
    } else {
        last--, last_from--;
        __asm__ volatile("std\n\trep movsb\n\tcld" : "+D"(last), "+S"(last_from), "+c"(len) : : "memory");
    }
    return to;
}

void *__wrap_memset(void *to, int byte, size_t len) {
    void *at = to;
    __asm__ volatile("rep stosb" : "+D"(at), "+c"(len) : "a"(byte) : "memory");
    return to;
}

void *__wrap_realloc(void *block, size_t size) {
    if (!block) return __wrap_malloc(size);
    size_t old = head_of(block)->size, start = (size_t)((unsigned char *)block - heap);
    if (start + rounded(old) == top && size <= HEAP && start + rounded(size) <= HEAP) {
        TAKE(120);
        head_of(block)->size = size;
        top = start + rounded(size);
        return block;
    }
    void *other = __wrap_malloc(size);
    if (other) move_forwards(other, block, old < size ? old : size);
    return other;
}

// The works.

// So many units of work, which answers a count that shows that it was done, or 0.
#define COUNT(name, units, expression)                                    \
    do {                                                                  \
        size_t top_ = top;                                                \
        if (!(expression)) fprintf(stderr, name " wasn't done\n"), exit(2); \
        top = top_;                                                       \
        CALLGRIND_START_INSTRUMENTATION;                                  \
        CALLGRIND_ZERO_STATS;                                             \
        (void)(expression);                                               \
        CALLGRIND_STOP_INSTRUMENTATION;                                   \
        char name_[64];                                                   \
        snprintf(name_, sizeof name_, name " %zu", (size_t)(units));      \
        CALLGRIND_DUMP_STATS_AT(name_);                                   \
        top = top_;                                                       \
    } while (0)

// Whole connections that only log in, one after another. Answers their events.
static size_t log_in_often(Bytes client, Bytes server, size_t times) {
    size_t events = 0;
    for (size_t i = 0; i < times; i++) events += read_whole_connection(client, server, PIECE);
    return events;
}

int main(int argc, char **argv) {
    if (argc != 4 || mysql_session_abi() != MYSQL_SESSION_ABI) return 2;
    INPUTS = argv[1];
    size_t sets = strtoul(argv[2], NULL, 10), rows = strtoul(argv[3], NULL, 10);
    Bytes query = load("query"), hundred = payload(100), packets = framed(100, FRAMES);
    Bytes executions = repeated(load("prepare"), load("executes"), 1), prepared = load("prepared"), ok = of_text("\7\0\0\1\0\0\0\2\0\0\0", 11);
    Bytes client = load("login-client"), server = load("login-server");
    Bytes asking = repeated(client, load("texts"), 1), answering = repeated(server, load("replies-text"), 1);
    Bytes executing = repeated(client, executions, 1), executed = repeated(repeated(server, prepared, 1), load("replies-binary"), 1);
    Bytes text_rows = load("reply-text"), binary_rows = load("reply-binary");
    Bytes asking_rows = repeated(client, first_packet(load("texts")), 1), answering_rows = repeated(server, text_rows, 1);
    Bytes executing_rows = repeated(repeated(client, load("prepare"), 1), first_packet(load("executes")), 1);
    Bytes executed_rows = repeated(repeated(server, prepared, 1), binary_rows, 1);
    mysql_session_handle *given = sets_of(load_values("sets", sets * WIDTH), sets, WIDTH, sets);
    COUNT("frame", FRAMES, frame(hundred, FRAMES, PIECE));
    COUNT("split", FRAMES, split(packets));
    COUNT("send-text", sets, send_all(given, 1, query, MYSQL_SESSION_TEXT, 1));
    COUNT("send-execute", sets, send_all(given, 1, query, MYSQL_SESSION_EXECUTE, 1));
    COUNT("receive-executes", sets, receive(query, executions, PIECE, KEPT));
    COUNT("recode-executes", sets, recode(query, executions));
    COUNT("reply-text", rows, read_reply(text_rows, PIECE, 0, KEPT));
    COUNT("reply-binary", rows, read_reply(binary_rows, PIECE, 1, KEPT));
    COUNT("connection-queries", sets, read_whole_connection(asking, answering, PIECE));
    COUNT("connection-executions", sets, read_whole_connection(executing, executed, PIECE));
    COUNT("rows-lent-text", rows, lend_whole_connection(asking_rows, answering_rows, PIECE));
    COUNT("rows-lent-binary", rows, lend_whole_connection(executing_rows, executed_rows, PIECE));
    COUNT("put-executions", sets, put_commands_of(executions, prepared, ok, 1));
    COUNT("login", LOGINS, log_in_often(client, server, LOGINS));
    return 0;
}
