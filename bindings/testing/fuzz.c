/* Reads random and changed inputs, and looks at answers, memory and time; `fuzz` builds it:
 *
 *     ./fuzz SEED SECONDS INPUTS MOST .. <SOURCES
 *     ./fuzz read FILE MOST ..
 *
 * SOURCES are the inputs that others are made of, as `fuzz` writes them: of each a line with its
 * reader, its words and the lengths of its streams, and then these. MOST says for each reader what
 * a byte takes: memory, nanoseconds, what is kept. It ends behind so many seconds of processor
 * time, or so many inputs where INPUTS isn't 0.
 *
 * Inputs are read in a process of their own. Where that finds something, or is ended by a sanitizer
 * or a signal, the input is made smaller as long as the same is found. It is printed with its seed,
 * and the next process goes on behind it. The second form reads an input again as it was printed.
 * The status is 1 where anything is found. */
#define _GNU_SOURCE
#include "fuzz.h"

#include <fcntl.h>
#include <stdarg.h>
#include <stdio.h>
#include <stdlib.h>
#include <string.h>
#include <sys/mman.h>
#include <sys/resource.h>
#include <sys/time.h>
#include <sys/wait.h>
#include <time.h>
#include <unistd.h>

/* What a process ends with that found something. */
enum { FOUND = 3, NAME = 80, DETAIL = 300, FINDINGS = 5, LONGEST_RUN = 60 };
/* How many smaller inputs are tried, and for how many seconds. */
enum { TRIES = 3000, TRYING = 45 };

/* What processes share. */
typedef struct shared {
    totals counts;
    uint64_t seed;
    char name[NAME], detail[DETAIL];
} shared;

static shared *common;
static pid_t parent;
totals *counted;
costs allowed[READERS];
static uint64_t state;

static const char *const READER_NAMES[READERS] = {"packets", "receiver", "reply", "connection",
                                                  "payload"};

/* ---- Chance, memory, time -------------------------------------------------------------------- */

void seed_random(uint64_t seed) {
    state = seed * 0x9e3779b97f4a7c15ULL + 1;
    for (int i = 0; i < 4; i++) next_random();
}

uint64_t next_random(void) {
    state ^= state << 13;
    state ^= state >> 7;
    state ^= state << 17;
    return state * 0x2545f4914f6cdd1dULL >> 11;
}

/* A number below this one; or 0. */
size_t below(size_t limit) { return limit ? (size_t)(next_random() % limit) : 0; }

void *take_memory(size_t len) {
    void *taken = malloc(len + !len);
    if (!taken) {
        fprintf(stderr, "no memory\n");
        exit(2);
    }
    return taken;
}

uint8_t *copied(const uint8_t *at, size_t len) {
    uint8_t *copy = take_memory(len);
    if (len > 0) memcpy(copy, at, len);
    return copy;
}

/* The clock of the process goes by ticks while a timer of it runs. */
double now(void) {
    struct timespec at;
    clock_gettime(CLOCK_THREAD_CPUTIME_ID, &at);
    return (double)at.tv_sec * 1e9 + (double)at.tv_nsec;
}

/* The seconds of processor time of all processes that ended, and of this one. */
static double seconds(void) {
    struct rusage own, others;
    getrusage(RUSAGE_SELF, &own);
    getrusage(RUSAGE_CHILDREN, &others);
    return (double)(own.ru_utime.tv_sec + own.ru_stime.tv_sec + others.ru_utime.tv_sec +
                    others.ru_stime.tv_sec) +
           (double)(own.ru_utime.tv_usec + own.ru_stime.tv_usec + others.ru_utime.tv_usec +
                    others.ru_stime.tv_usec) /
               1e6;
}

/* ---- Findings -------------------------------------------------------------------------------- */

void found(const char *name, const char *form, ...) {
    va_list given;
    va_start(given, form);
    snprintf(common->name, NAME, "%s", name);
    vsnprintf(common->detail, DETAIL, form, given);
    va_end(given);
    if (getpid() == parent) {
        printf("FOUND as an input is made: %s: %s\n", common->name, common->detail);
        exit(1);
    }
    _exit(FOUND);
}

/* Whether a process that ended found something. One that was ended by something else is named. */
static int has_found(int status) {
    if (WIFEXITED(status) && WEXITSTATUS(status) == 0) return 0;
    if (WIFEXITED(status) && WEXITSTATUS(status) == FOUND) return 1;
    snprintf(common->name, NAME, WIFSIGNALED(status) ? "the signal %d" : "the status %d",
             WIFSIGNALED(status) ? WTERMSIG(status) : WEXITSTATUS(status));
    common->detail[0] = 0;
    return 1;
}

/* An input that takes so many seconds ends the process by SIGPROF. */
static void limit_time(void) {
    struct itimerval most = {{0, 0}, {LONGEST_RUN, 0}};
    setitimer(ITIMER_PROF, &most, NULL);
}

/* Reads an input in a process of its own. Answers whether that finds something. */
static int finds(const input *in, int is_quiet) {
    int status = 0;
    common->name[0] = 0;
    fflush(stdout);
    pid_t process = fork();
    if (process < 0) exit(2);
    if (process == 0) {
        if (is_quiet) {
            int nowhere = open("/dev/null", O_WRONLY);
            if (nowhere >= 0) dup2(nowhere, 2);
        }
        limit_time();
        check(in);
        _exit(0);
    }
    waitpid(process, &status, 0);
    return has_found(status);
}

/* ---- Making an input smaller ----------------------------------------------------------------- */

/* Whether segments and patches still lie in the streams. */
static int is_whole(const input *in) {
    for (uint32_t i = 0; i < in->segments; i++)
        if (in->segment[i].from + in->segment[i].len > in->streams[in->segment[i].stream].len)
            return 0;
    for (uint32_t i = 0; i < in->patches; i++)
        if (in->patch[i].at + in->patch[i].width > in->streams[in->patch[i].stream].len) return 0;
    return 1;
}

/* Leaves so many bytes of a stream out; what lies behind them moves. */
static int cut_out(input *in, uint32_t stream, size_t at, size_t len) {
    bytes *of = &in->streams[stream];
    for (uint32_t i = 0; i < in->segments; i++) {
        segment *it = &in->segment[i];
        if (it->stream != stream || it->from + it->len <= at) continue;
        if (it->from < at + len) return 0;
        it->from -= len;
    }
    for (uint32_t i = 0; i < in->patches; i++) {
        patch *it = &in->patch[i];
        if (it->stream != stream || it->at + it->width <= at) continue;
        if (it->at < at + len) return 0;
        it->at -= len;
    }
    memmove(of->at + at, of->at + at + len, of->len - at - len);
    of->len -= len;
    return is_whole(in);
}

static input copy_of(const input *in) {
    input copy = *in;
    for (uint32_t i = 0; i < STREAMS; i++)
        copy.streams[i].at = copied(in->streams[i].at, in->streams[i].len);
    return copy;
}

/* Puts a smaller input in its place, where the same is found of that. */
static int keep(input *in, input *smaller, const char *name) {
    if (!finds(smaller, 1) || strcmp(common->name, name) != 0) {
        free_input(smaller);
        return 0;
    }
    free_input(in);
    *in = *smaller;
    return 1;
}

/* Tries an input without each packet of a stream. Answers whether it became smaller. */
static int without_packets(input *in, uint32_t stream, const char *name, int *tries, double end) {
    int any = 0;
    for (size_t at = 0, len; (len = packet_len(&in->streams[stream], at)) > 0;) {
        if (--*tries < 0 || seconds() > end) return any;
        input smaller = copy_of(in);
        if (!cut_out(&smaller, stream, at, len)) free_input(&smaller);
        else if (keep(in, &smaller, name)) {
            any = 1;
            continue;
        }
        at += len;
    }
    return any;
}

/* Tries an input without pieces of a stream, of halves first. */
static int without_bytes(input *in, uint32_t stream, const char *name, int *tries, double end) {
    int any = 0;
    for (size_t len = in->streams[stream].len; len > 0; len /= 2) {
        for (size_t at = 0; at + len <= in->streams[stream].len;) {
            if (--*tries < 0 || seconds() > end) return any;
            input smaller = copy_of(in);
            if (!cut_out(&smaller, stream, at, len)) free_input(&smaller);
            else if (keep(in, &smaller, name)) {
                any = 1;
                continue;
            }
            at += len;
        }
    }
    return any;
}

/* Tries an input without pieces of the packets of a stream, whose lengths become less. */
static int without_parts(input *in, uint32_t stream, const char *name, int *tries, double end) {
    int any = 0;
    for (size_t packet = 0, len; (len = packet_len(&in->streams[stream], packet)) > 0;
         packet += len) {
        for (size_t part = len - 4; part > 0; part /= 2) {
            for (size_t at = packet + 4; at + part <= packet + len;) {
                if (--*tries < 0 || seconds() > end) return any;
                input smaller = copy_of(in);
                for (size_t i = 0; i < 3; i++)
                    smaller.streams[stream].at[packet + i] = (uint8_t)((len - 4 - part) >> 8 * i);
                if (!cut_out(&smaller, stream, at, part)) free_input(&smaller);
                else if (keep(in, &smaller, name)) {
                    any = 1;
                    len -= part;
                    continue;
                }
                at += part;
            }
        }
    }
    return any;
}

/* Tries fewer repetitions. */
static int fewer_times(input *in, const char *name, int *tries, double end) {
    int any = 0;
    while (in->times > 1 && --*tries > 0 && seconds() < end) {
        input smaller = copy_of(in);
        smaller.times = in->times / 2;
        if (!keep(in, &smaller, name)) break;
        any = 1;
    }
    return any;
}

static void make_smaller(input *in, const char *name) {
    int tries = TRIES;
    double end = seconds() + TRYING;
    for (int any = 1; any && tries > 0 && seconds() < end;) {
        any = fewer_times(in, name, &tries, end);
        for (uint32_t stream = 0; stream < STREAMS; stream++) {
            any |= without_packets(in, stream, name, &tries, end);
            any |= without_bytes(in, stream, name, &tries, end);
            any |= without_parts(in, stream, name, &tries, end);
        }
    }
}

/* ---- Writing and reading an input ------------------------------------------------------------ */

static void write_input(const input *in, FILE *to) {
    fprintf(to, "%u %u %u %u %zu %zu %zu %llu %zu %u %u %u\n", in->reader, in->words[0],
            in->words[1], in->words[2], in->limits[0], in->limits[1], in->limits[2],
            (unsigned long long)in->cuts, in->times, in->segments, in->patches, in->numbered);
    for (uint32_t i = 0; i < in->segments; i++)
        fprintf(to, "%u %zu %zu\n", in->segment[i].stream, in->segment[i].from, in->segment[i].len);
    for (uint32_t i = 0; i < in->patches; i++)
        fprintf(to, "%u %u %u %zu\n", in->patch[i].stream, in->patch[i].width, in->patch[i].each,
                in->patch[i].at);
    for (uint32_t i = 0; i < STREAMS; i++) {
        fprintf(to, "%zu ", in->streams[i].len);
        for (size_t at = 0; at < in->streams[i].len; at++)
            fprintf(to, "%02x", in->streams[i].at[at]);
        fprintf(to, "\n");
    }
}

static void must_read(int is_read) {
    if (is_read) return;
    fprintf(stderr, "no input as it is printed\n");
    exit(2);
}

static input read_input(FILE *from) {
    input in = {0};
    unsigned long long cuts;
    must_read(fscanf(from, "%u %u %u %u %zu %zu %zu %llu %zu %u %u %u", &in.reader, &in.words[0],
                     &in.words[1], &in.words[2], &in.limits[0], &in.limits[1], &in.limits[2], &cuts,
                     &in.times, &in.segments, &in.patches, &in.numbered) == 12 &&
              in.reader < READERS && in.segments <= SEGMENTS && in.patches <= PATCHES);
    in.cuts = cuts;
    for (uint32_t i = 0; i < in.segments; i++)
        must_read(fscanf(from, "%u %zu %zu", &in.segment[i].stream, &in.segment[i].from,
                         &in.segment[i].len) == 3);
    for (uint32_t i = 0; i < in.patches; i++)
        must_read(fscanf(from, "%u %u %u %zu", &in.patch[i].stream, &in.patch[i].width,
                         &in.patch[i].each, &in.patch[i].at) == 4);
    for (uint32_t i = 0; i < STREAMS; i++) {
        must_read(fscanf(from, "%zu", &in.streams[i].len) == 1);
        in.streams[i].at = take_memory(in.streams[i].len);
        for (size_t at = 0; at < in.streams[i].len; at++) {
            unsigned byte;
            must_read(fscanf(from, "%2x", &byte) == 1);
            in.streams[i].at[at] = (uint8_t)byte;
        }
    }
    must_read(is_whole(&in));
    return in;
}

/* Tells what was found, and the smallest input of which the same is found. */
static void tell_finding(uint64_t seed, input *in) {
    char name[NAME], detail[DETAIL];
    strcpy(name, common->name);
    strcpy(detail, common->detail);
    printf("FOUND by the seed %llu, by the %s: %s: %s\n", (unsigned long long)seed,
           READER_NAMES[in->reader], name, detail);
    if (!finds(in, 1)) {
        printf("(it isn't found again)\n");
        return;
    }
    make_smaller(in, name);
    finds(in, 0);
    printf("the smallest input: %s: %s\n", common->name, common->detail);
    write_input(in, stdout);
    fflush(stdout);
}

/* ---- Sources and words ----------------------------------------------------------------------- */

static void read_sources(FILE *from) {
    unsigned reader;
    input source = {0};
    size_t len[STREAMS];
    while (fscanf(from, "%u %u %u %u %zu %zu %zu", &reader, &source.words[0], &source.words[1],
                  &source.words[2], &len[0], &len[1], &len[2]) == 7) {
        must_read(fgetc(from) == '\n' && reader < READERS);
        source.reader = reader;
        for (int i = 0; i < STREAMS; i++) {
            source.streams[i] = (bytes){take_memory(len[i]), len[i]};
            must_read(fread(source.streams[i].at, 1, len[i], from) == len[i]);
        }
        add_source(&source);
    }
}

static void read_most(int count, char **words) {
    for (int i = 0; i < count; i++) {
        costs it;
        char name[20];
        must_read(sscanf(words[i], "%19[a-z]:%lf:%lf:%lf", name, &it.memory, &it.nanoseconds,
                         &it.kept) == 4);
        for (int reader = 0; reader < READERS; reader++)
            if (strcmp(name, READER_NAMES[reader]) == 0) allowed[reader] = it;
    }
}

/* ---- The program ----------------------------------------------------------------------------- */

/* Reads inputs in a process of their own, up to one of which something is found: whether one is. */
static int run(uint64_t first, uint64_t last, double until) {
    int status = 0;
    fflush(stdout);
    pid_t process = fork();
    if (process < 0) exit(2);
    if (process == 0) {
        int nowhere = open("/dev/null", O_WRONLY);
        if (nowhere >= 0) dup2(nowhere, 2);
        uint64_t seed = first;
        for (; seed < last && now() / 1e9 < until; seed++) {
            common->seed = seed;
            limit_time();
            input in = make_input(seed);
            check(&in);
            free_input(&in);
        }
        common->seed = seed;
        _exit(0);
    }
    waitpid(process, &status, 0);
    return has_found(status);
}

static void tell_totals(uint64_t inputs, int findings) {
    const totals *of = &common->counts;
    size_t kinds = 0, codes = 0;
    for (size_t i = 0; i < KINDS; i++) kinds += of->kinds[i] > 0;
    for (size_t i = 0; i < CODES; i++) codes += of->codes[i] > 0;
    printf("%llu inputs in %.0f s of processor time, %llu bytes; %llu events of %zu kinds, "
           "%llu rows, %zu codes; %llu payloads put, %llu refused; %llu grown ones\n",
           (unsigned long long)inputs, seconds(), (unsigned long long)of->fed,
           (unsigned long long)of->events, kinds, (unsigned long long)of->rows, codes,
           (unsigned long long)of->puts, (unsigned long long)of->refusals,
           (unsigned long long)of->growths);
    for (int i = 0; i < READERS; i++)
        printf("%s: %llu inputs, a byte took up to %.1f bytes of memory (of %.1f) and %.0f ns "
               "(of %.0f without sanitizers)\n",
               READER_NAMES[i], (unsigned long long)of->readers[i], of->memory[i],
               allowed[i].memory, of->nanoseconds[i], allowed[i].nanoseconds);
    printf("a byte that is held kept up to %.1f bytes (of %.1f); of eight times as many bytes each "
           "took up to %.1f times as long\n",
           of->kept, allowed[CONNECTION].kept, of->growth);
    printf("kinds:");
    for (size_t i = 0; i < KINDS; i++) if (of->kinds[i]) printf(" %zx", i);
    printf("\ncodes:");
    for (size_t i = 0; i < CODES; i++) if (of->codes[i]) printf(" %zu", i);
    printf("\n%d found\n", findings);
}

static int read_again(const char *name) {
    FILE *from = fopen(name, "r");
    must_read(from != NULL);
    input in = read_input(from);
    fclose(from);
    int is_found = finds(&in, 0);
    free_input(&in);
    if (is_found) printf("FOUND: %s: %s\n", common->name, common->detail);
    else printf("nothing is found\n");
    return is_found;
}

int main(int count, char **words) {
    common = mmap(NULL, sizeof *common, PROT_READ | PROT_WRITE, MAP_SHARED | MAP_ANONYMOUS, -1, 0);
    if (common == MAP_FAILED || count < 4) return 2;
    counted = &common->counts;
    parent = getpid();
    if (strcmp(words[1], "read") == 0) {
        read_most(count - 3, words + 3);
        return read_again(words[2]);
    }
    uint64_t first = strtoull(words[1], NULL, 10), seed = first;
    double until = strtod(words[2], NULL);
    uint64_t inputs = strtoull(words[3], NULL, 10), last = inputs ? first + inputs : UINT64_MAX;
    read_most(count - 4, words + 4);
    read_sources(stdin);
    int findings = 0;
    while (seed < last && seconds() < until && findings < FINDINGS) {
        double left = until - seconds();
        /* A process ends by and by, since the sanitizers keep what is freed. */
        if (run(seed, last, left < 300 ? left : 300)) {
            seed = common->seed;
            input in = make_input(seed++);
            tell_finding(seed - 1, &in);
            free_input(&in);
            findings++;
        } else {
            seed = common->seed;
        }
    }
    tell_totals(seed - first, findings);
    return findings > 0;
}
