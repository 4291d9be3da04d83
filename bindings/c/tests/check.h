/* What the tests share: checks that tell what failed, and streams that are written as text. */
#ifndef CHECK_H
#define CHECK_H

#include "../mysql_session.h"

#include <stdio.h>
#include <string.h>

/* Each check counts; one that fails is told on standard error with its place. */
#define CHECK(holds) check_holds((holds) ? 1 : 0, #holds, __FILE__, __LINE__)
#define CHECK_CODE(found, wanted) check_code((found), (wanted), #found, __FILE__, __LINE__)
#define CHECK_DONE(found) CHECK_CODE(found, MYSQL_SESSION_OK)
#define CHECK_NUMBER(found, wanted) \
    check_number((uint64_t)(found), (uint64_t)(wanted), #found, __FILE__, __LINE__)
#define CHECK_BYTES(found, len, wanted, wanted_len) \
    check_bytes((found), (len), (wanted), (wanted_len), #found, __FILE__, __LINE__)
/* The bytes are those of a text without its NUL byte. */
#define CHECK_TEXT(found, len, wanted) \
    CHECK_BYTES((found), (len), bytes_of(wanted), strlen(wanted))
/* The handle's bytes are those of a stream that is written as text. */
#define CHECK_STREAM(out, wanted) check_stream((out), (wanted), #out, __FILE__, __LINE__)

int check_holds(int holds, const char *what, const char *file, int line);
int check_code(uint32_t found, uint32_t wanted, const char *what, const char *file, int line);
int check_number(uint64_t found, uint64_t wanted, const char *what, const char *file, int line);
int check_bytes(const uint8_t *found, size_t len, const uint8_t *wanted, size_t wanted_len,
                const char *what, const char *file, int line);
int check_stream(mysql_session_handle *out, const char *wanted, const char *what,
                 const char *file, int line);

/* A note that failing checks are told with: the row of a table, the size of the pieces. */
void check_note(const char *row, size_t piece);

/* The end of a test: a line with how many checks there were, and the program's exit status. */
int check_end(const char *name);

/* The bytes of a text. */
const uint8_t *bytes_of(const char *text);

/* Bytes with room for more. */
#define STREAM_ROOM 8192
typedef struct stream {
    uint8_t bytes[STREAM_ROOM];
    size_t len;
} stream;

/* A stream that is written as pairs of hexadecimal digits, with text between bars. */
stream stream_of(const char *written);

/* Each stream is read in one piece, in pieces of three bytes and byte by byte. */
#define PIECE_SIZES 3
size_t piece_size(size_t number, size_t len);

/* How much of `len` bytes the piece from `from` on has. */
size_t piece_at(size_t from, size_t piece, size_t len);

/* Has the allocation of this number from now on, from 1, be refused, or none for 0. For it the
 * tests are linked by --wrap=malloc and --wrap=realloc. */
void refuse_memory(unsigned long number);

/* Whether one was refused since then. */
int was_refused(void);

/* Text that is put together; what has no room is left out, and a check fails by that. */
#define TEXT_ROOM 4096
typedef struct text {
    char characters[TEXT_ROOM];
    size_t len;
} text;

void text_clear(text *to);
void text_add(text *to, const char *more);
void text_add_signed(text *to, int64_t number);
void text_add_unsigned(text *to, uint64_t number);
/* Bytes as |text| where each is printable, else as x and their hexadecimal digits. */
void text_add_bytes(text *to, const uint8_t *bytes, size_t len);
#define CHECK_WRITTEN(found, wanted) \
    CHECK_TEXT(bytes_of((found)->characters), (found)->len, (wanted))

#endif
