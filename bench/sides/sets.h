// The parameter sets of a workload, and a buffer that grows, for the C sides that are peers.
#include "measure.h"

typedef struct { int kind; int64_t number; unsigned char *at; size_t len; } Value;

enum { NOTHING = 6, NUMBER = 8, TEXT = 253 };

__attribute__((unused)) static Value *load_values(const char *name, size_t count) {
    Bytes bytes = load(name);
    Value *all = calloc(count, sizeof *all);
    unsigned char *at = bytes.at;
    for (size_t i = 0; i < count; i++) {
        all[i].kind = *at++;
        if (all[i].kind == NUMBER) memcpy(&all[i].number, at, 8), at += 8;
        if (all[i].kind == TEXT) {
            all[i].len = *at++;
            // A longer length stands in the next 2, 3 or 8 bytes, little end first.
            size_t more = all[i].len == 252 ? 2 : all[i].len == 253 ? 3 : all[i].len == 254 ? 8 : 0;
            if (more) all[i].len = 0, memcpy(&all[i].len, at, more), at += more;
            all[i].at = at, at += all[i].len;
        }
    }
    return all;
}

typedef struct { unsigned char *at; size_t len, room; } Out;

__attribute__((unused)) static unsigned char *room(Out *out, size_t more) {
    if (out->room - out->len < more) {
        out->room = (out->len + more) * 2;
        out->at = realloc(out->at, out->room);
    }
    return out->at + out->len;
}

__attribute__((unused)) static void put(Out *out, const void *at, size_t len) {
    memcpy(room(out, len), at, len);
    out->len += len;
}

// A payload of one chunk.
__attribute__((unused)) static void put_packet(Out *out, const void *at, size_t len) {
    unsigned char head[4] = {len, len >> 8, len >> 16, 0};
    put(out, head, 4);
    put(out, at, len);
}
