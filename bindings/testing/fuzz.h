/* What the files of `fuzz` share: inputs, how they are made, read and compared. */
#ifndef FUZZ_H
#define FUZZ_H

#include "mysql_session.h"

#include <stddef.h>
#include <stdint.h>

typedef struct bytes {
    uint8_t *at;
    size_t len;
} bytes;

/* What an input is read by. */
enum reader { PACKETS, RECEIVER, REPLY, CONNECTION, PAYLOAD, READERS };

/* What a payload alone is read as. */
enum payload { GREETING, LOGIN, QUERY, SQL_MODE, GTIDS, PAYLOADS };

enum { STREAMS = 3, SEGMENTS = 3, PATCHES = 4 };

/* Bytes of a stream that stand there as often as the input says. */
typedef struct segment {
    uint32_t stream;
    size_t from, len;
} segment;

/* A little-endian number of a stream, which grows by `each` with each repetition. */
typedef struct patch {
    uint32_t stream, width, each;
    size_t at;
} patch;

/* An input. Its words and streams are by its reader:
 *
 * - PACKETS: the first number; a stream;
 * - RECEIVER: the statement, the flags; a stream, and the query;
 * - REPLY: the kind, the capabilities, the first number; a stream;
 * - CONNECTION: the capabilities and MariaDB's own, and whether it is behind a login; both streams;
 * - PAYLOAD: of enum payload, the flags; the payload. */
typedef struct input {
    uint32_t reader, words[3];
    size_t limits[3];
    bytes streams[STREAMS];
    /* The seed of what reading chooses, as where pieces end. */
    uint64_t cuts;
    /* Repetitions: none where `times` is 1. The packets of a stream are numbered on from
     * `numbered` where that isn't 0: one more than the stream. */
    size_t times;
    uint32_t segments, patches, numbered;
    segment segment[SEGMENTS];
    patch patch[PATCHES];
} input;

/* What a byte of a reader's input takes at the most: memory, nanoseconds, what is kept for each
 * byte that a connection counts. */
typedef struct costs {
    double memory, nanoseconds, kept;
} costs;

/* ---- fuzz.c: findings, memory, chance -------------------------------------------------------- */

enum { KINDS = 0x201, CODES = 600 };

/* What was read by all processes. */
typedef struct totals {
    uint64_t inputs, fed, events, rows, puts, refusals, growths;
    uint64_t readers[READERS], kinds[KINDS], codes[CODES];
    double memory[READERS], nanoseconds[READERS], kept, growth;
} totals;

extern totals *counted;
extern costs allowed[READERS];

/* Tells what is wrong with the input that is read, by a name and how, and ends the process. */
void found(const char *name, const char *form, ...)
    __attribute__((noreturn, format(printf, 2, 3)));

void *take_memory(size_t len);
double now(void);
void seed_random(uint64_t seed);
uint64_t next_random(void);
size_t below(size_t limit);

/* A copy of just these bytes, so that a read behind them is seen. */
uint8_t *copied(const uint8_t *at, size_t len);

size_t heap_held(void);
size_t heap_most(void);
void heap_begin(void);

/* ---- fuzz_bytes.c: streams, packets, repetitions --------------------------------------------- */

/* True in one of so many cases. */
int chance(size_t of);

/* Puts `len` bytes in place of `gone` ones. */
void replace(bytes *stream, size_t at, size_t gone, const uint8_t *put, size_t len);
void put(bytes *to, const void *data, size_t len);
void put_number(bytes *to, uint64_t number, size_t width);
void put_text(bytes *to, const char *text);
/* Random bytes; behind their length. */
void put_some(bytes *to, size_t len);
void put_counted(bytes *to, size_t len);

/* Begins a packet; answers where, for end_packet. */
size_t begin_packet(bytes *to, size_t number);
void end_packet(bytes *to, size_t at);
void put_packet(bytes *to, size_t number, const char *payload, size_t len);
void set_length(bytes *stream, size_t at, size_t len);

/* The length of the packet that begins there with its header, or 0. */
size_t packet_len(const bytes *stream, size_t at);
/* The beginning of some packet, or the end. */
size_t packet_in(const bytes *stream);

/* Bytes of a stream are repeated. They lie behind those that were repeated before. */
void repeat(input *in, uint32_t stream, size_t from, size_t len);
/* A number grows with each repetition. */
void grow(input *in, uint32_t stream, size_t at, uint32_t width, size_t each);
/* So many times that there are some thousand bytes, or some hundred thousand. */
void choose_times(input *in, size_t limit);
/* The streams with their repetitions, so many in place of those that it says. */
input expanded(const input *from, size_t times);
void free_input(input *of);

/* ---- fuzz_lists.c, fuzz_inputs.c: inputs ----------------------------------------------------- */

enum { CLIENT, SERVER };

input some_list(void);
/* The type of a column. */
uint8_t some_type(void);

/* Adds an input to those that others are made of. Its streams are kept. */
void add_source(const input *source);
input make_input(uint64_t seed);

/* ---- fuzz_readers.c, fuzz_connections.c: reading --------------------------------------------- */

/* How a stream is cut: as large as there is room for, in random pieces, byte by byte. */
enum cut { WHOLE, PIECES, BYTES };

/* The length of the next piece of so many bytes. */
size_t piece_of(enum cut how, size_t left);

/* A sum of all that was told. */
void add(uint64_t *sum, const void *data, size_t len);
void add_number(uint64_t *sum, uint64_t number);
void add_value(uint64_t *sum, const mysql_session_value *value);

/* Fails where a call that has to answer OK doesn't. */
void must(uint32_t code, const char *what);

/* Reads an input, and looks at what is told, at memory and at time. */
void check(const input *in);
void check_connection(const input *in);
void read_plainly(const input *in);
/* Notes what a connection's last plain reading kept. */
void read_connection_plainly(const input *in);

#endif
