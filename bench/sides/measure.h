// What the C sides share: inputs, clocks and the form of a result.
#define _GNU_SOURCE
#include <stdint.h>
#include <stdio.h>
#include <stdlib.h>
#include <string.h>
#include <time.h>

// Where instructions are counted, in place of time, there are fewer of all.
#ifdef COUNTED
#include <valgrind/callgrind.h>
enum { SCALE = 50 };
#else
enum { SCALE = 1 };
#endif

#define SCALED(count) (((count) + SCALE - 1) / SCALE)

enum { WIDTH = 4, PIECE = 65536, COPIES = SCALED(100), BYTEWISE_COPIES = SCALED(10), ROWS = SCALED(1000000), CELL_ROWS = 1000, CELL_TIMES = SCALE == 1 ? 1000 : 200, CONNECTION_COMMANDS = 10000, PUT_TIMES = SCALED(20), LONG_DATA_SETS = 2, CONVERTED = 10000, CONVERT_TIMES = SCALED(1000) };

__attribute__((unused)) static double now(clockid_t clock) {
    struct timespec time;
    clock_gettime(clock, &time);
    return time.tv_sec * 1e9 + time.tv_nsec;
}

typedef struct { unsigned char *at; size_t len; } Bytes;

static const char *INPUTS;

__attribute__((unused)) static Bytes load(const char *name) {
    char path[4096];
    snprintf(path, sizeof path, "%s/%s", INPUTS, name);
    FILE *file = fopen(path, "rb");
    if (!file) { perror(path); exit(2); }
    fseek(file, 0, SEEK_END);
    Bytes bytes = {0, ftell(file)};
    rewind(file);
    bytes.at = malloc(bytes.len + 1);
    if (fread(bytes.at, 1, bytes.len, file) != bytes.len) exit(2);
    bytes.at[bytes.len] = 0;
    fclose(file);
    return bytes;
}

// A workload over sets: its road, the query, the sets, how many there are, and how many times all of them are sent.
typedef struct { char name[32], road[32], query[32], sets[32]; size_t count, times; } Work;

__attribute__((unused)) static int find_work(const char *what, Work *work) {
    char path[4096];
    snprintf(path, sizeof path, "%s/works", INPUTS);
    FILE *file = fopen(path, "r");
    while (file && fscanf(file, "%31s %31s %31s %31s %zu %zu", work->name, work->road, work->query, work->sets, &work->count, &work->times) == 6)
        if (strcmp(work->name, what) == 0) return work->times = SCALED(work->times), fclose(file), 1;
    if (file) fclose(file);
    return 0;
}

// `front` once, and then copies of `block`.
__attribute__((unused)) static Bytes repeated(Bytes front, Bytes block, size_t copies) {
    Bytes all = {malloc(front.len + copies * block.len), front.len};
    memcpy(all.at, front.at, front.len);
    for (size_t i = 0; i < copies; i++, all.len += block.len) memcpy(all.at + all.len, block.at, block.len);
    return all;
}

__attribute__((unused)) static Bytes first_packet(Bytes stream) {
    return (Bytes){stream.at, 4 + (stream.at[0] | stream.at[1] << 8)};
}

// The commands of a workload whose name has one of `texts`, `executes` and `bulks`, 10,000 sets a copy.
__attribute__((unused)) static Bytes commands(const char *what, size_t copies) {
    Bytes none = {0};
    if (strstr(what, "texts")) return repeated(none, load("texts"), copies);
    return repeated(load("prepare"), load(strstr(what, "executes") ? "executes" : "bulks"), copies);
}

__attribute__((unused)) static Bytes of_text(const char *text, size_t len) { return (Bytes){(unsigned char *)text, len}; }

__attribute__((unused)) static Bytes payload(size_t len) {
    Bytes bytes = {malloc(len), len};
    memset(bytes.at, 'a', len);
    return bytes;
}

// A stream of packets of one size, numbered on from 0.
__attribute__((unused)) static Bytes framed(size_t payload, size_t count) {
    Bytes all = {malloc((payload + 4) * count), 0};
    for (size_t i = 0; i < count; i++) {
        unsigned char *packet = all.at + all.len;
        packet[0] = payload, packet[1] = payload >> 8, packet[2] = payload >> 16, packet[3] = i;
        memset(packet + 4, 'a' + i % 26, payload);
        all.len += payload + 4;
    }
    return all;
}

// Times an expression that answers a count, and prints wall and processor nanoseconds a unit; or has callgrind count it and dump the instructions.
#ifdef COUNTED
#define MEASURE(who, units, expression)                                                              \
    for (int round_ = 0; round_ < rounds; round_++) {                                                \
        char name_[128];                                                                             \
        CALLGRIND_START_INSTRUMENTATION;                                                             \
        CALLGRIND_ZERO_STATS;                                                                        \
        size_t check_ = (expression);                                                                \
        CALLGRIND_STOP_INSTRUMENTATION;                                                              \
        if (!check_) fprintf(stderr, "%s %s wasn't done\n", what, who), exit(2);                     \
        snprintf(name_, sizeof name_, "%s %s %.0f", what, who, (double)(units));                     \
        CALLGRIND_DUMP_STATS_AT(name_);                                                              \
    }
#else
#define MEASURE(who, units, expression)                                                              \
    for (int round_ = 0; round_ < rounds; round_++) {                                                \
        double wall_ = now(CLOCK_MONOTONIC), processor_ = now(CLOCK_PROCESS_CPUTIME_ID);             \
        size_t check_ = (expression);                                                                \
        processor_ = now(CLOCK_PROCESS_CPUTIME_ID) - processor_, wall_ = now(CLOCK_MONOTONIC) - wall_; \
        printf("%s %s %.4f %.4f %zu\n", what, who, wall_ / (units), processor_ / (units), check_);   \
        fflush(stdout);                                                                              \
    }
#endif

// The same where the call first makes what it works on, and then works so many `times`, each so many units. Where
// instructions are counted, what a call for one time takes is counted too, and who reads the dumps takes it off.
#ifdef COUNTED
#define MEASURE_TIMES(who, units, expression)                                                        \
    {                                                                                                \
        size_t all_ = times;                                                                         \
        times = 1;                                                                                   \
        /* Not counted: the heap is as such calls leave it. */                                       \
        for (int again_ = 0; again_ < 3; again_++)                                                   \
            if (!(expression)) fprintf(stderr, "%s %s wasn't done\n", what, who), exit(2);           \
        MEASURE(who "-once", units, expression)                                                      \
        times = all_ + 10;                                                                           \
        MEASURE(who, (double)(units) * times, expression)                                            \
        times = all_;                                                                                \
    }
#else
#define MEASURE_TIMES(who, units, expression) MEASURE(who, (double)(units) * times, expression)
#endif

#define IS(name) (strcmp(what, name) == 0)
#define BEGINS(name) (strncmp(what, name, strlen(name)) == 0)
#define ENDS(name) (strlen(what) >= strlen(name) && strcmp(what + strlen(what) - strlen(name), name) == 0)
