#include "check.h"

#include <inttypes.h>
#include <stdlib.h>

static unsigned long checks, failures;
static const char *note_row = "";
static size_t note_piece;

void check_note(const char *row, size_t piece)
{
    note_row = row;
    note_piece = piece;
}

static void fail(const char *what, const char *file, int line)
{
    failures++;
    fprintf(stderr, "%s:%d: %s", file, line, what);
    if (note_row[0] != '\0')
        fprintf(stderr, " [%s, pieces of %lu]", note_row, (unsigned long)note_piece);
    fprintf(stderr, ": ");
}

int check_holds(int holds, const char *what, const char *file, int line)
{
    checks++;
    if (!holds) {
        fail(what, file, line);
        fprintf(stderr, "doesn't hold\n");
    }
    return holds;
}

static void print_code(uint32_t code)
{
    const uint8_t *said = NULL;
    size_t len = 0;
    mysql_session_code_text(code, &said, &len);
    fprintf(stderr, "%" PRIu32 " (%.*s)", code, (int)len, (const char *)said);
}

int check_code(uint32_t found, uint32_t wanted, const char *what, const char *file, int line)
{
    checks++;
    if (found == wanted)
        return 1;
    fail(what, file, line);
    fprintf(stderr, "answers ");
    print_code(found);
    fprintf(stderr, " in place of ");
    print_code(wanted);
    fprintf(stderr, "\n");
    return 0;
}

int check_number(uint64_t found, uint64_t wanted, const char *what, const char *file, int line)
{
    checks++;
    if (found == wanted)
        return 1;
    fail(what, file, line);
    fprintf(stderr, "%" PRIu64 " in place of %" PRIu64 "\n", found, wanted);
    return 0;
}

/* Prints some bytes from a place on. */
static void print_bytes(const uint8_t *bytes, size_t len, size_t from)
{
    static text shown;
    text_clear(&shown);
    text_add_bytes(&shown, bytes + from, len - from < 100 ? len - from : 100);
    fprintf(stderr, "%s (of %lu bytes)", shown.characters, (unsigned long)len);
}

int check_bytes(const uint8_t *found, size_t len, const uint8_t *wanted, size_t wanted_len,
                const char *what, const char *file, int line)
{
    size_t from = 0;
    checks++;
    if (len == wanted_len && (len == 0 || memcmp(found, wanted, len) == 0))
        return 1;
    while (from < len && from < wanted_len && found[from] == wanted[from])
        from++;
    fail(what, file, line);
    fprintf(stderr, "from %lu on ", (unsigned long)from);
    print_bytes(found, len, from);
    fprintf(stderr, " in place of ");
    print_bytes(wanted, wanted_len, from);
    fprintf(stderr, "\n");
    return 0;
}

int check_stream(mysql_session_handle *out, const char *wanted, const char *what,
                 const char *file, int line)
{
    stream whole = stream_of(wanted);
    const uint8_t *data = NULL;
    size_t len = 0;
    if (!check_code(mysql_session_bytes_data(out, &data, &len), MYSQL_SESSION_OK, what, file, line))
        return 0;
    return check_bytes(data, len, whole.bytes, whole.len, what, file, line);
}

int check_end(const char *name)
{
    printf("%s: %lu checks, %lu failed\n", name, checks, failures);
    return checks == 0 || failures != 0;
}

const uint8_t *bytes_of(const char *text_at)
{
    return (const uint8_t *)text_at;
}

/* How many allocations are left until one is refused; 0 where none is. */
static unsigned long left_over;
static int refused;

void refuse_memory(unsigned long number)
{
    left_over = number;
    refused = 0;
}

int was_refused(void)
{
    return refused;
}

static int is_refused(void)
{
    int now = left_over == 1;
    left_over -= left_over > 0;
    refused |= now;
    return now;
}

#ifdef __cplusplus
extern "C" {
#endif
/* The linker has every call of malloc and realloc come here. */
void *__real_malloc(size_t size);
void *__real_realloc(void *at, size_t size);
void *__wrap_malloc(size_t size);
void *__wrap_realloc(void *at, size_t size);
#ifdef __cplusplus
}
#endif

void *__wrap_malloc(size_t size)
{
    return is_refused() ? NULL : __real_malloc(size);
}

void *__wrap_realloc(void *at, size_t size)
{
    return is_refused() ? NULL : __real_realloc(at, size);
}

static void stop(const char *why, const char *written)
{
    fprintf(stderr, "%s: %s\n", why, written);
    exit(2);
}

static unsigned digit_of(char digit, const char *written)
{
    static const char digits[] = "0123456789abcdef";
    const char *at = digit == '\0' ? NULL : strchr(digits, digit);
    if (at == NULL)
        stop("no stream is written so", written);
    return at == NULL ? 0 : (unsigned)(at - digits);
}

static void stream_add(stream *to, uint8_t byte, const char *written)
{
    if (to->len == STREAM_ROOM)
        stop("the stream is too long", written);
    to->bytes[to->len++] = byte;
}

stream stream_of(const char *written)
{
    stream whole;
    const char *at = written;
    whole.len = 0;
    while (*at != '\0') {
        if (*at == ' ') {
            at++;
        } else if (*at == '|') {
            for (at++; *at != '|' && *at != '\0'; at++)
                stream_add(&whole, (uint8_t)*at, written);
            at += *at == '|';
        } else {
            stream_add(&whole, (uint8_t)(digit_of(at[0], written) * 16 + digit_of(at[1], written)),
                       written);
            at += 2;
        }
    }
    return whole;
}

size_t piece_size(size_t number, size_t len)
{
    return number == 0 ? len : number == 1 ? 3 : 1;
}

size_t piece_at(size_t from, size_t piece, size_t len)
{
    return len - from < piece ? len - from : piece;
}

void text_clear(text *to)
{
    to->len = 0;
    to->characters[0] = '\0';
}

void text_add(text *to, const char *more)
{
    size_t len = strlen(more);
    if (len >= TEXT_ROOM - to->len)
        return;
    memcpy(to->characters + to->len, more, len + 1);
    to->len += len;
}

void text_add_signed(text *to, int64_t number)
{
    char digits[24];
    snprintf(digits, sizeof digits, "%" PRId64, number);
    text_add(to, digits);
}

void text_add_unsigned(text *to, uint64_t number)
{
    char digits[24];
    snprintf(digits, sizeof digits, "%" PRIu64, number);
    text_add(to, digits);
}

static int is_printable(const uint8_t *bytes, size_t len)
{
    size_t i;
    for (i = 0; i < len; i++) {
        if (bytes[i] < 0x20 || bytes[i] > 0x7e || bytes[i] == '|')
            return 0;
    }
    return 1;
}

void text_add_bytes(text *to, const uint8_t *bytes, size_t len)
{
    int printable = is_printable(bytes, len);
    char shown[4];
    size_t i;
    text_add(to, printable ? "|" : "x");
    for (i = 0; i < len; i++) {
        snprintf(shown, sizeof shown, printable ? "%c" : "%02x", bytes[i]);
        text_add(to, shown);
    }
    text_add(to, printable ? "|" : "");
}
