/* A stream is cut into payloads, however it comes, and payloads are framed. */
#include "check.h"

#include <stdlib.h>

#define LIMIT 1000

/* Reads a stream in pieces, and adds the payloads; the code of the last call. */
static uint32_t read_payloads(text *shown, mysql_session_handle *packets, const stream *whole,
                              size_t piece)
{
    const uint8_t *data = NULL;
    size_t at = 0, len = 0, used = 0;
    bool stands = false;
    uint32_t code = MYSQL_SESSION_OK;
    while (code == MYSQL_SESSION_OK && at < whole->len) {
        size_t count = piece_at(at, piece, whole->len);
        code = mysql_session_packets_feed(packets, whole->bytes + at, count, &used, &stands);
        if (code != MYSQL_SESSION_OK)
            break;
        CHECK(used <= count && (stands || used == count));
        at += used;
        if (stands) {
            CHECK_DONE(mysql_session_packets_payload(packets, &data, &len));
            text_add_bytes(shown, data, len);
            text_add(shown, "; ");
        }
    }
    return code;
}

static void read_row(const char *written, uint8_t first, const char *wanted, uint32_t code)
{
    mysql_session_handle packets = MYSQL_SESSION_NOTHING;
    stream whole = stream_of(written);
    size_t number;
    text shown;
    for (number = 0; number < PIECE_SIZES; number++) {
        check_note(written, piece_size(number, STREAM_ROOM));
        text_clear(&shown);
        CHECK_DONE(mysql_session_packets_new(&packets, first, LIMIT));
        CHECK_CODE(read_payloads(&shown, &packets, &whole, piece_size(number, STREAM_ROOM)), code);
        CHECK_WRITTEN(&shown, wanted);
        mysql_session_free(&packets);
    }
    check_note("", 0);
}

static void streams(void)
{
    read_row("", 0, "", MYSQL_SESSION_OK);
    read_row("03 00 00 00 |abc| 00 00 00 01 01 00 00 02 |d|", 0, "|abc|; ||; |d|; ",
             MYSQL_SESSION_OK);
    read_row("01 00 00 ff |a| 01 00 00 00 |b| 02 00 00 01 |c|", 255, "|a|; |b|; ",
             MYSQL_SESSION_OK);
    read_row("01 00 00 00 |a| 01 00 00 00 |b|", 0, "|a|; ", MYSQL_SESSION_FAULT_OUT_OF_SYNC);
    read_row("01 00 00 00 |a| e9 03 00 01 |b|", 0, "|a|; ", MYSQL_SESSION_FAULT_TOO_LARGE);
}

/* No payload stands before the first; a fault is told again from then on. */
static void before_and_after(void)
{
    mysql_session_handle packets = MYSQL_SESSION_NOTHING;
    stream bad = stream_of("01 00 00 07 |a|"), good = stream_of("01 00 00 00 |a|");
    const uint8_t *data = NULL;
    size_t used = 0, len = 77;
    bool stands = true;
    CHECK_DONE(mysql_session_packets_new(&packets, 0, LIMIT));
    CHECK_DONE(mysql_session_packets_payload(&packets, &data, &len));
    CHECK_NUMBER(len, 0);
    CHECK_DONE(mysql_session_packets_feed(&packets, good.bytes, 2, &used, &stands));
    CHECK_NUMBER(used, 2);
    CHECK(!stands);
    CHECK_DONE(mysql_session_packets_new(&packets, 0, LIMIT));
    CHECK_CODE(mysql_session_packets_feed(&packets, bad.bytes, bad.len, &used, &stands),
               MYSQL_SESSION_FAULT_OUT_OF_SYNC);
    CHECK_CODE(mysql_session_packets_feed(&packets, good.bytes, good.len, &used, &stands),
               MYSQL_SESSION_FAULT_OUT_OF_SYNC);
    mysql_session_free(&packets);
}

/* Each command begins at 0 again; within a packet there is nothing to begin. */
static void restart(void)
{
    mysql_session_handle packets = MYSQL_SESSION_NOTHING;
    stream one = stream_of("01 00 00 00 |a|");
    size_t used = 0, fed;
    bool stands = false;
    text shown;
    text_clear(&shown);
    CHECK_DONE(mysql_session_packets_new(&packets, 0, LIMIT));
    for (fed = 0; fed < one.len; fed++) {
        CHECK_CODE(mysql_session_packets_restart(&packets),
                   fed == 0 ? MYSQL_SESSION_OK : MYSQL_SESSION_UNFINISHED);
        CHECK_DONE(mysql_session_packets_feed(&packets, one.bytes + fed, 1, &used, &stands));
    }
    CHECK(stands);
    CHECK_DONE(mysql_session_packets_restart(&packets));
    CHECK_DONE(read_payloads(&shown, &packets, &one, 1));
    CHECK_DONE(mysql_session_packets_restart(&packets));
    CHECK_DONE(read_payloads(&shown, &packets, &one, 1));
    CHECK_CODE(read_payloads(&shown, &packets, &one, 1), MYSQL_SESSION_FAULT_OUT_OF_SYNC);
    CHECK_WRITTEN(&shown, "|a|; |a|; ");
    mysql_session_free(&packets);
}

static void put(void)
{
    mysql_session_handle out = MYSQL_SESSION_NOTHING;
    uint8_t number = 254;
    CHECK_DONE(mysql_session_bytes_new(&out));
    CHECK_DONE(mysql_session_packet_put(&out, bytes_of("abc"), 3, &number, 3));
    CHECK_NUMBER(number, 255);
    CHECK_DONE(mysql_session_packet_put(&out, bytes_of(""), 0, &number, 3));
    CHECK_NUMBER(number, 0);
    CHECK_CODE(mysql_session_packet_put(&out, bytes_of("abcd"), 4, &number, 3),
               MYSQL_SESSION_FAULT_TOO_LARGE);
    CHECK_NUMBER(number, 0);
    CHECK_STREAM(&out, "03 00 00 fe |abc| 00 00 00 ff");
    mysql_session_free(&out);
}

#define CHUNK 16777215u

/* Reads one packet of several chunks in pieces, to the end of the bytes. */
static void read_large(const uint8_t *bytes, size_t len, size_t piece, size_t payload)
{
    mysql_session_handle packets = MYSQL_SESSION_NOTHING;
    const uint8_t *data = NULL;
    size_t at = 0, used = 0, found = 0;
    bool stands = false;
    CHECK_DONE(mysql_session_packets_new(&packets, 0, 2 * CHUNK));
    while (at < len && !stands) {
        CHECK_DONE(mysql_session_packets_feed(&packets, bytes + at, piece_at(at, piece, len),
                                              &used, &stands));
        at += used;
    }
    CHECK(stands);
    CHECK_NUMBER(at, len);
    CHECK_DONE(mysql_session_packets_payload(&packets, &data, &found));
    CHECK_NUMBER(found, payload);
    CHECK(found == payload && data[0] == 'x' && data[payload - 1] == 'x');
    mysql_session_free(&packets);
}

/* A payload of a whole chunk has an empty one behind it; one byte more fills two. */
static void large(size_t payload, size_t last)
{
    mysql_session_handle out = MYSQL_SESSION_NOTHING;
    const uint8_t *data = NULL;
    uint8_t number = 0, *bytes = (uint8_t *)malloc(payload);
    size_t len = 0;
    if (!CHECK(bytes != NULL))
        return;
    memset(bytes, 'x', payload);
    CHECK_DONE(mysql_session_bytes_new(&out));
    CHECK_DONE(mysql_session_packet_put(&out, bytes, payload, &number, 2 * CHUNK));
    CHECK_NUMBER(number, 2);
    CHECK_DONE(mysql_session_bytes_data(&out, &data, &len));
    if (CHECK_NUMBER(len, payload + 8)) {
        CHECK_BYTES(data, 4, bytes_of("\377\377\377\0"), 4);
        CHECK_NUMBER(data[CHUNK + 4], last);
        CHECK_NUMBER(data[CHUNK + 7], 1);
        read_large(data, len, len, payload);
        read_large(data, len, 100003, payload);
    }
    mysql_session_free(&out);
    free(bytes);
}

int main(void)
{
    streams();
    before_and_after();
    restart();
    put();
    large(CHUNK, 0);
    large(CHUNK + 1, 1);
    return check_end("packets");
}
