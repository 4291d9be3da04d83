// Processor nanoseconds a byte over lengths of 10^3 to 10^8 bytes: scale INPUTS
#include "calls.h"

enum { FEWEST = 1000, MOST = 100000000, LONGEST = 10000000, WORK = 100000000, WORK_BYTEWISE = 4000000 };

static size_t wrong;

// How long so many calls over `len` bytes take a byte.
static void print(double before, size_t len, size_t times) {
    printf(" %.3g |", (now(CLOCK_PROCESS_CPUTIME_ID) - before) / ((double)len * times));
    fflush(stdout);
}

// Calls often enough to be measured; no more than `most` bytes by one call.
#define COLUMN(most, work, expression)                                     \
    do {                                                                   \
        if (len > (most)) { printf(" |"); break; }                         \
        size_t times = (work) > len ? (work) / len : 1;                    \
        double before_ = now(CLOCK_PROCESS_CPUTIME_ID);                    \
        for (size_t i_ = 0; i_ < times; i_++) wrong += (expression) == 0;  \
        print(before_, len, times);                                        \
    } while (0)

// A string sent by a road, by one call that does it often enough.
static void sent(Bytes query, size_t len, uint32_t road) {
    if (len > LONGEST) { printf(" |"); return; }
    Bytes text = payload(len);
    Value value = {.kind = TEXT, .at = text.at, .len = len};
    mysql_session_handle *set = sets_of(&value, 1, 1, 1);
    size_t times = WORK / len;
    double before = now(CLOCK_PROCESS_CPUTIME_ID);
    wrong += send_all(set, 1, query, road, times) == 0;
    print(before, len, times);
    mysql_session_free(set), free(set), free(text.at);
}

// A text query that carries it.
static Bytes text_of_a_string(size_t len) {
    Bytes text = {malloc(len + 14), len + 14};
    size_t size = len + 10;
    unsigned char head[13] = {size, size >> 8, size >> 16, 0, 3, 'S', 'E', 'L', 'E', 'C', 'T', ' ', '\''};
    memcpy(text.at, head, 13), memset(text.at + 13, 'a', len), text.at[text.len - 1] = '\'';
    return text;
}

// The front of a stream of copies of a block of commands, about so long, of whole commands.
static Bytes front_of(Bytes before, Bytes block, size_t len) {
    Bytes all = repeated(before, block, len / block.len + 1);
    size_t at = 0;
    while (at < all.len && at < len) at += 4 + (all.at[at] | all.at[at + 1] << 8 | all.at[at + 2] << 16);
    all.len = at;
    return all;
}

// A connection that logs in and asks for one reply, of the front of many rows.
static void connection_of(size_t len) {
    Bytes command = load("texts"), rows = load("reply-text"), none = {0};
    command.len = 4 + (command.at[0] | command.at[1] << 8);
    Bytes client = repeated(load("login-client"), command, 1), server = repeated(load("login-server"), front_of(none, rows, len), 1);
    COLUMN(LONGEST, WORK, read_whole_connection(client, server, PIECE));
    COLUMN(LONGEST, WORK_BYTEWISE, read_whole_connection(client, server, 1));
    free(command.at), free(rows.at), free(client.at), free(server.at);
}

static void row_of(size_t len) {
    Bytes query = load("query"), one = {(void *)"SELECT ?", 8}, none = {0};
    Bytes commands = front_of(load("prepare"), load("executes"), len), texts = front_of(none, load("texts"), len);
    Bytes text = text_of_a_string(len < LONGEST ? len : LONGEST);
    printf("| %zu |", len);
    sent(one, len, 0);
    sent(one, len, 1);
    COLUMN(LONGEST, WORK, receive(one, text, PIECE, KEPT));
    COLUMN(LONGEST, WORK_BYTEWISE, receive(one, text, 1, KEPT));
    COLUMN(MOST, WORK, receive(query, texts, PIECE, KEPT));
    COLUMN(MOST, WORK, receive(query, commands, PIECE, KEPT));
    COLUMN(LONGEST, WORK_BYTEWISE, receive(query, commands, 1, KEPT));
    COLUMN(MOST, WORK, recode(query, commands));
    connection_of(len);
    printf("\n");
    free(text.at), free(commands.at), free(texts.at);
}

int main(int argc, char **argv) {
    (void)argc;
    INPUTS = argv[1];
    printf("| bytes | a string sent by text | by execute | received by text | byte by byte | texts received | executions received | byte by byte | recoded | a connection's rows | byte by byte |\n");
    printf("|---|---|---|---|---|---|---|---|---|---|---|\n");
    for (size_t len = FEWEST; len <= MOST; len *= 10) row_of(len);
    if (wrong) printf("%zu calls did not do the work\n", wrong);
    return wrong != 0;
}
