/* Bytes of the inputs of `fuzz`: streams, packets, and what is repeated. */
#include "fuzz.h"

#include <stdlib.h>
#include <string.h>

int chance(size_t of) { return below(of) == 0; }

void free_input(input *of) {
    for (uint32_t i = 0; i < STREAMS; i++) free(of->streams[i].at);
}

/* ---- Bytes ----------------------------------------------------------------------------------- */

/* Puts `len` bytes in place of `gone` ones. */
void replace(bytes *stream, size_t at, size_t gone, const uint8_t *put, size_t len) {
    bytes made = {take_memory(stream->len - gone + len), stream->len - gone + len};
    if (at > 0) memcpy(made.at, stream->at, at);
    if (len > 0) memcpy(made.at + at, put, len);
    if (stream->len > at + gone)
        memcpy(made.at + at + len, stream->at + at + gone, stream->len - at - gone);
    free(stream->at);
    *stream = made;
}

void put(bytes *to, const void *data, size_t len) { replace(to, to->len, 0, data, len); }

void put_number(bytes *to, uint64_t number, size_t width) {
    uint8_t digits[8];
    for (size_t i = 0; i < width; i++) digits[i] = (uint8_t)(number >> 8 * i);
    put(to, digits, width);
}

void put_text(bytes *to, const char *text) { put(to, text, strlen(text)); }

void put_some(bytes *to, size_t len) {
    while (len-- > 0) put_number(to, chance(3) ? next_random() & 3 : next_random(), 1);
}

/* A number of a length, mostly in its shortest form. */
static void put_length(bytes *to, uint64_t number) {
    if (number < 251 && !chance(9)) put_number(to, number, 1);
    else if (number < 65536 && !chance(9)) put_number(to, number << 8 | 0xfc, 3);
    else if (!chance(9)) put_number(to, number << 8 | 0xfd, 4);
    else {
        put_number(to, 0xfe, 1);
        put_number(to, number, 8);
    }
}

void put_counted(bytes *to, size_t len) {
    put_length(to, len);
    put_some(to, len);
}

/* Begins a packet; answers where, for end_packet. */
size_t begin_packet(bytes *to, size_t number) {
    put_number(to, number << 24, 4);
    return to->len - 4;
}

void set_length(bytes *stream, size_t at, size_t len) {
    for (size_t i = 0; i < 3; i++) stream->at[at + i] = (uint8_t)(len >> 8 * i);
}

void end_packet(bytes *to, size_t at) { set_length(to, at, to->len - at - 4); }

void put_packet(bytes *to, size_t number, const char *payload, size_t len) {
    size_t at = begin_packet(to, number);
    put(to, payload, len);
    end_packet(to, at);
}

/* The length of the packet that begins there with its header, or 0. */
size_t packet_len(const bytes *stream, size_t at) {
    if (at > stream->len || stream->len - at < 4) return 0;
    size_t len = stream->at[at] | (size_t)stream->at[at + 1] << 8 |
                 (size_t)stream->at[at + 2] << 16;
    return len + 4 <= stream->len - at ? len + 4 : 0;
}

/* The beginning of a packet, or the end. */
size_t packet_in(const bytes *stream) {
    size_t at = 0, left = below(1 + (below(4) ? 30 : 300));
    for (size_t len; left > 0 && (len = packet_len(stream, at)) > 0; left--) at += len;
    return at;
}

/* ---- Repetitions ----------------------------------------------------------------------------- */

static size_t moved(const input *from, uint32_t stream, size_t at, size_t times) {
    size_t by = 0;
    for (uint32_t i = 0; i < from->segments; i++)
        if (from->segment[i].stream == stream && from->segment[i].from + from->segment[i].len <= at)
            by += from->segment[i].len * (times - 1);
    return at + by;
}

/* A stream with its segments so many times; they are in order. */
static bytes repeated(const input *from, uint32_t stream, size_t times) {
    const bytes *of = &from->streams[stream];
    bytes made = {take_memory(moved(from, stream, of->len, times)), 0};
    size_t at = 0;
    for (uint32_t i = 0; i < from->segments; i++) {
        const segment *it = &from->segment[i];
        if (it->stream != stream || it->from < at || it->from + it->len > of->len) continue;
        memcpy(made.at + made.len, of->at + at, it->from - at);
        made.len += it->from - at;
        for (size_t time = 0; time < times; time++, made.len += it->len)
            memcpy(made.at + made.len, of->at + it->from, it->len);
        at = it->from + it->len;
    }
    if (of->len > at) memcpy(made.at + made.len, of->at + at, of->len - at);
    made.len += of->len - at;
    return made;
}

static void number_on(bytes *stream, size_t from) {
    uint8_t number = 0;
    for (size_t at = 0, len; (len = packet_len(stream, at)) > 0; at += len) {
        if (at > from) stream->at[at + 3] = (uint8_t)(number + 1);
        number = stream->at[at + 3];
    }
}

input expanded(const input *from, size_t times) {
    input made = *from;
    for (uint32_t i = 0; i < STREAMS; i++) made.streams[i] = repeated(from, i, times);
    for (uint32_t i = 0; i < from->patches; i++) {
        const patch *it = &from->patch[i];
        if (it->at + it->width > from->streams[it->stream].len) continue;
        uint8_t *at = made.streams[it->stream].at + moved(from, it->stream, it->at, times);
        uint64_t number = 0;
        for (uint32_t k = 0; k < it->width; k++) number |= (uint64_t)at[k] << 8 * k;
        number += (uint64_t)it->each * (times - 1);
        for (uint32_t k = 0; k < it->width; k++) at[k] = (uint8_t)(number >> 8 * k);
    }
    if (from->numbered > 0 && from->segments > 0)
        number_on(&made.streams[from->numbered - 1], from->segment[0].from);
    made.times = 1;
    made.segments = made.patches = 0;
    return made;
}

void repeat(input *in, uint32_t stream, size_t from, size_t len) {
    if (in->segments < SEGMENTS && len > 0)
        in->segment[in->segments++] = (segment){stream, from, len};
}

/* A number that grows with each repetition. */
void grow(input *in, uint32_t stream, size_t at, uint32_t width, size_t each) {
    if (in->patches < PATCHES)
        in->patch[in->patches++] = (patch){stream, width, (uint32_t)each, at};
}

/* So many times that there are some thousand bytes, or some hundred thousand. */
void choose_times(input *in, size_t limit) {
    size_t unit = 0, len = (size_t)6000 << below(8);
    for (uint32_t i = 0; i < in->segments; i++) unit += in->segment[i].len;
    in->times = unit > 0 ? 1 + len / unit : 1;
    if (in->times > limit) in->times = limit;
}
