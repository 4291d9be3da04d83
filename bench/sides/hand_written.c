// The same work written by hand in C, and a copy of the bytes: hand_written INPUTS ROUNDS WORKLOAD..
#include "sets.h"

typedef unsigned char Byte;

// Packets framed and split.

static size_t frame(Bytes one, size_t count, size_t full) {
    Out out = {0};
    size_t written = 0;
    for (size_t i = 0; i < count; i++) {
        if (out.len >= full) written += out.len, out.len = 0;
        put_packet(&out, one.at, one.len);
    }
    written += out.len;
    free(out.at);
    return written;
}

// Cuts packets out of pieces. `take` is given each payload, which it owns where `owned` is set; a command's packets begin at number 0.
typedef struct {
    Byte head[4], number, *payload;
    size_t had, want, got;
    _Bool owned, is_command;
    size_t (*take)(void *, Byte *, size_t);
    void *self;
    Out kept;
} Splitter;

static _Bool begin(Splitter *it) {
    it->want = it->head[0] | it->head[1] << 8 | it->head[2] << 16, it->got = 0;
    if (it->want == 16777215) return 0;
    if (it->owned) it->payload = malloc(it->want + 1);
    else it->kept.len = 0, it->payload = room(&it->kept, it->want);
    return 1;
}

static _Bool feed(Splitter *it, const Byte *at, size_t len) {
    while (len) {
        if (it->had < 4) {
            size_t count = 4 - it->had < len ? 4 - it->had : len;
            memcpy(it->head + it->had, at, count);
            it->had += count, at += count, len -= count;
            if (it->had < 4) return 1;
            if (!begin(it)) return 0;
        }
        size_t count = it->want - it->got < len ? it->want - it->got : len;
        memcpy(it->payload + it->got, at, count);
        it->got += count, at += count, len -= count;
        if (it->got < it->want) return 1;
        if (it->head[3] != it->number) return 0;
        it->had = 0;
        it->number = it->is_command ? 0 : it->number + 1;
        if (!it->take(it->self, it->payload, it->want)) return 0;
    }
    return 1;
}

static _Bool feed_all(Splitter *it, Bytes stream, size_t piece) {
    _Bool good = 1;
    for (size_t i = 0; good && i < stream.len; i += piece) good = feed(it, stream.at + i, stream.len - i < piece ? stream.len - i : piece);
    free(it->kept.at);
    return good;
}

typedef struct { Bytes *at; size_t len, room; } Payloads;

static size_t keep(void *self, Byte *at, size_t len) {
    Payloads *all = self;
    if (all->len == all->room) all->at = realloc(all->at, sizeof(Bytes) * (all->room = all->room * 2 + 4));
    all->at[all->len++] = (Bytes){at, len};
    return 1;
}

static size_t split(Bytes stream) {
    Payloads all = {0};
    Splitter splitter = {.owned = 1, .take = keep, .self = &all};
    if (!feed_all(&splitter, stream, PIECE)) return 0;
    for (size_t i = 0; i < all.len; i++) free(all.at[i].at);
    free(all.at);
    return all.len;
}

static size_t copied(Bytes stream) {
    Byte *to = malloc(stream.len);
    memcpy(to, stream.at, stream.len);
    size_t answer = to[stream.len / 2] + 1;
    free(to);
    return answer;
}

// Commands that carry sets.

static void put_escaped(Out *out, const Byte *from, size_t len) {
    Byte *to = room(out, 2 * len), *start = to;
    for (size_t i = 0; i < len; i++) {
        Byte byte = from[i];
        switch (byte) {
        case 0: *to++ = '\\', *to++ = '0'; break;
        case '\n': *to++ = '\\', *to++ = 'n'; break;
        case '\r': *to++ = '\\', *to++ = 'r'; break;
        case 26: *to++ = '\\', *to++ = 'Z'; break;
        case '\\': case '\'': case '"': *to++ = '\\', *to++ = byte; break;
        default: *to++ = byte;
        }
    }
    out->len += to - start;
}

static void put_number(Out *out, int64_t number) {
    char text[24], *at = text + 24;
    uint64_t rest = number < 0 ? -(uint64_t)number : (uint64_t)number;
    do *--at = '0' + rest % 10; while (rest /= 10);
    if (number < 0) *--at = '-';
    put(out, at, text + 24 - at);
}

static void put_literal(Out *out, const Value *value) {
    if (value->kind == NOTHING) put(out, "NULL", 4);
    else if (value->kind == NUMBER) put_number(out, value->number);
    else put(out, "'", 1), put_escaped(out, value->at, value->len), put(out, "'", 1);
}

static void put_cell(Out *out, const Value *value) {
    if (value->kind == NUMBER) put(out, &value->number, 8);
    if (value->kind != TEXT) return;
    Byte head[3] = {value->len < 251 ? value->len : 252, value->len, value->len >> 8};
    put(out, head, value->len < 251 ? 1 : 3), put(out, value->at, value->len);
}

typedef struct { size_t at[WIDTH], count; } Marks;

static Marks marks_of(Bytes query) {
    Marks marks = {.count = 0};
    for (size_t i = 0; i < query.len; i++)
        if (query.at[i] == '?' && marks.count < WIDTH) marks.at[marks.count++] = i;
    return marks;
}

static void put_query(Out *out, Out *command, Bytes query, const Marks *marks, const Value *values) {
    command->len = 0;
    put(command, "\3", 1);
    size_t from = 0;
    for (size_t k = 0; k < marks->count; k++) {
        put(command, query.at + from, marks->at[k] - from);
        put_literal(command, values + k);
        from = marks->at[k] + 1;
    }
    put(command, query.at + from, query.len - from);
    put_packet(out, command->at, command->len);
}

static size_t send_text(Bytes query, const Value *all, size_t count, size_t times) {
    Out command = {0}, out = {0};
    for (size_t t = 0; t < times; t++) {
        out.len = 0;
        Marks marks = marks_of(query);
        for (size_t i = 0; i < count; i++) put_query(&out, &command, query, &marks, all + i * WIDTH);
    }
    free(command.at), free(out.at);
    return out.len;
}

// Each set by itself into a buffer that is emptied before, with the marks found once (`kept`) or for each.
static size_t send_apart(Bytes query, const Value *all, size_t count, size_t times, _Bool kept) {
    Out command = {0}, out = {0};
    size_t written = 0;
    Marks marks = marks_of(query);
    for (size_t i = 0; i < count * times; i++) {
        out.len = 0;
        if (!kept) marks = marks_of(query);
        put_query(&out, &command, query, &marks, all + i % count * WIDTH);
        written += out.len;
    }
    free(command.at), free(out.at);
    return written / times;
}

static void put_prepare(Out *out, Out *command, Bytes query) {
    command->len = 0;
    put(command, "\x16", 1), put(command, query.at, query.len);
    put_packet(out, command->at, command->len);
}

static void put_execution(Out *out, Out *command, const Value *values) {
    Byte bound[2 + 2 * WIDTH] = {0, 1};
    for (int k = 0; k < WIDTH; k++) bound[0] |= (values[k].kind == NOTHING) << k, bound[2 + 2 * k] = values[k].kind;
    command->len = 0;
    put(command, "\x17\1\0\0\0\0\1\0\0\0", 10), put(command, bound, sizeof bound);
    for (int k = 0; k < WIDTH; k++) put_cell(command, values + k);
    put_packet(out, command->at, command->len);
}

static size_t send_execute(Bytes query, const Value *all, size_t count, size_t times) {
    Out command = {0}, out = {0};
    for (size_t t = 0; t < times; t++) {
        out.len = 0;
        put_prepare(&out, &command, query);
        for (size_t i = 0; i < count; i++) put_execution(&out, &command, all + i * WIDTH);
    }
    free(command.at), free(out.at);
    return out.len;
}

// Each set by itself, of a statement that was prepared before.
static size_t send_execute_kept(const Value *all, size_t count, size_t times) {
    Out command = {0}, out = {0};
    size_t written = 0;
    for (size_t i = 0; i < count * times; i++) {
        out.len = 0;
        put_execution(&out, &command, all + i % count * WIDTH);
        written += out.len;
    }
    free(command.at), free(out.at);
    return written / times;
}

// All sets to a writer: packets are gathered in one buffer, which is flushed once it has so many bytes.

enum { BUFFER_LEN = 8192 };

// The writer counts the bytes and keeps none.
__attribute__((noinline)) static void flush(Out *out, size_t *written) {
    __asm__ volatile("" : : "r"(out->at) : "memory");
    *written += out->len, out->len = 0;
}

static size_t send_text_to(Bytes query, const Value *all, size_t count, size_t times) {
    Out command = {0}, out = {0};
    size_t written = 0;
    Marks marks = marks_of(query);
    for (size_t t = 0; t < times; t++) {
        written = 0;
        for (size_t i = 0; i < count; i++) {
            put_query(&out, &command, query, &marks, all + i * WIDTH);
            if (out.len >= BUFFER_LEN) flush(&out, &written);
        }
        flush(&out, &written);
    }
    free(command.at), free(out.at);
    return written;
}

static size_t send_execute_to(Bytes query, const Value *all, size_t count, size_t times) {
    Out command = {0}, out = {0};
    size_t written = 0;
    for (size_t t = 0; t < times; t++) {
        written = 0;
        put_prepare(&out, &command, query);
        for (size_t i = 0; i < count; i++) {
            put_execution(&out, &command, all + i * WIDTH);
            if (out.len >= BUFFER_LEN) flush(&out, &written);
        }
        flush(&out, &written);
    }
    free(command.at), free(out.at);
    return written;
}

// The types of the columns: of each the first value's that isn't NULL. All sets make one request here.
static void put_request(Out *out, Out *command, const Value *all, size_t count) {
    Byte types[2 * WIDTH] = {0};
    for (int k = 0; k < WIDTH; k++) {
        types[2 * k] = NOTHING;
        for (size_t i = 0; i < count && types[2 * k] == NOTHING; i++) types[2 * k] = all[i * WIDTH + k].kind;
    }
    command->len = 0;
    put(command, "\xfa\1\0\0\0\x80\0", 7), put(command, types, sizeof types);
    for (size_t i = 0; i < count * WIDTH; i++) {
        Byte indicator = all[i].kind == NOTHING;
        put(command, &indicator, 1), put_cell(command, all + i);
    }
    put_packet(out, command->at, command->len);
}

static size_t send_bulk(Bytes query, const Value *all, size_t count, size_t times) {
    Out command = {0}, out = {0};
    for (size_t t = 0; t < times; t++) {
        out.len = 0;
        put_prepare(&out, &command, query);
        put_request(&out, &command, all, count);
    }
    free(command.at), free(out.at);
    return out.len;
}

// Commands and rows read: one block with the values, and their bytes in blocks of their own.

typedef struct { Value (*at)[WIDTH]; size_t len, room; Bytes query; _Bool prepared, binary; int state; } Sets;

static Value *next_set(Sets *sets) {
    if (sets->len == sets->room) sets->at = realloc(sets->at, sizeof *sets->at * (sets->room = sets->room * 2 + 4));
    return sets->at[sets->len++];
}

static size_t freed(Sets *sets) {
    for (size_t i = 0; i < sets->len; i++)
        for (int k = 0; k < WIDTH; k++)
            if (sets->at[i][k].kind == TEXT) free(sets->at[i][k].at);
    free(sets->at);
    return sets->len;
}

static Byte *copy(const Byte *from, size_t len) {
    Byte *to = malloc(len + 1);
    memcpy(to, from, len);
    return to;
}

static const Byte *read_string(const Byte *at, const Byte *end, Value *value) {
    const Byte *close = at;
    while (close < end && *close != '\'') close += *close == '\\' ? 2 : 1;
    if (close >= end) return 0;
    value->kind = TEXT, value->at = malloc(close - at + 1), value->len = 0;
    while (at < close) {
        if (*at != '\\') { value->at[value->len++] = *at++; continue; }
        Byte pair = at[1];
        at += 2;
        value->at[value->len++] = pair == '0' ? 0 : pair == 'n' ? '\n' : pair == 'r' ? '\r' : pair == 'Z' ? 26 : pair == 't' ? '\t' : pair == 'b' ? 8 : pair;
    }
    return close + 1;
}

static const Byte *read_digits(const Byte *at, const Byte *end, int64_t *number) {
    _Bool minus = at < end && *at == '-';
    const Byte *from = at += minus;
    uint64_t sum = 0;
    for (; at < end && *at >= '0' && *at <= '9'; at++)
        if (__builtin_mul_overflow(sum, 10, &sum) || __builtin_add_overflow(sum, *at - '0', &sum)) return 0;
    *number = minus ? -sum : sum;
    return at == from ? 0 : at;
}

// Reads a literal, and answers what follows it.
static const Byte *read_literal(const Byte *at, const Byte *end, Value *value) {
    if (end - at >= 4 && memcmp(at, "NULL", 4) == 0) return value->kind = NOTHING, at + 4;
    if (at < end && *at == '\'') return read_string(at + 1, end, value);
    value->kind = NUMBER;
    return read_digits(at, end, &value->number);
}

static _Bool read_query(Sets *sets, const Byte *at, const Byte *end) {
    const Byte *query = sets->query.at, *query_end = query + sets->query.len;
    Value *value = next_set(sets);
    for (; query < query_end; query++) {
        if (*query == '?') { if (!(at = read_literal(at, end, value++))) return 0; }
        else if (at < end && *at == *query) at++;
        else return 0;
    }
    return at == end;
}

// Reads a cell of a type, and answers what follows it.
static const Byte *read_cell(const Byte *at, const Byte *end, int kind, Value *value) {
    value->kind = kind;
    if (kind == NUMBER) return end - at < 8 ? 0 : (memcpy(&value->number, at, 8), at + 8);
    if (kind != TEXT || at == end || *at > 250 || end - at <= *at) return value->kind = NOTHING, (const Byte *)0;
    value->at = copy(at + 1, value->len = *at);
    return at + 1 + value->len;
}

static _Bool read_execution(Sets *sets, const Byte *at, const Byte *end) {
    if (end - at < 11 + 2 * WIDTH || memcmp(at, "\1\0\0\0\0\1\0\0", 9) || at[10] != 1) return 0;
    Byte nulls = at[9];
    const Byte *types = at + 11;
    Value *value = next_set(sets);
    at = types + 2 * WIDTH;
    for (int k = 0; k < WIDTH; k++, value++) {
        if (nulls >> k & 1) value->kind = NOTHING;
        else if (types[2 * k + 1] || !(at = read_cell(at, end, types[2 * k], value))) return 0;
    }
    return at == end;
}

static _Bool read_request(Sets *sets, const Byte *at, const Byte *end) {
    if (end - at < 6 + 2 * WIDTH || memcmp(at, "\1\0\0\0\x80", 6)) return 0;
    const Byte *types = at + 6;
    for (at = types + 2 * WIDTH; at < end;) {
        Value *value = next_set(sets);
        for (int k = 0; k < WIDTH; k++, value++) {
            value->kind = NOTHING;
            if (at == end || *at > 1) return 0;
            if (*at++ == 0 && !(at = read_cell(at, end, types[2 * k], value))) return 0;
        }
    }
    return 1;
}

static size_t read_command(void *self, Byte *at, size_t len) {
    Sets *sets = self;
    const Byte *end = at + len;
    if (len && *at == 0x03) return read_query(sets, at + 1, end);
    if (len && *at == 0x16) return sets->prepared = len - 1 == sets->query.len && memcmp(at + 1, sets->query.at, len - 1) == 0;
    if (len && *at == 0x17 && sets->prepared) return read_execution(sets, at + 1, end);
    if (len && *at == 0xfa && sets->prepared) return read_request(sets, at + 1, end);
    return 0;
}

static size_t receive(Bytes query, Bytes stream, size_t piece) {
    Sets sets = {.query = query};
    Splitter splitter = {.is_command = 1, .take = read_command, .self = &sets};
    return feed_all(&splitter, stream, piece) ? freed(&sets) : 0;
}

static size_t recode(Bytes query, Bytes stream) {
    Sets sets = {.query = query};
    Splitter splitter = {.is_command = 1, .take = read_command, .self = &sets};
    if (!feed_all(&splitter, stream, PIECE)) return 0;
    size_t written = send_execute(query, *sets.at, sets.len, 1);
    freed(&sets);
    return written;
}

static _Bool read_text_row(Value *value, const Byte *at, const Byte *end) {
    for (int k = 0; k < WIDTH; k++, value++) {
        value->kind = NOTHING;
        if (at < end && *at == 251) at++;
        else if (!(at = read_cell(at, end, TEXT, value))) return 0;
    }
    return at == end;
}

static _Bool read_binary_row(Value *value, const Byte *at, const Byte *end) {
    static const int kinds[WIDTH] = {NUMBER, TEXT, TEXT, NUMBER};
    if (end - at < 2) return 0;
    Byte nulls = at[1];
    at += 2;
    for (int k = 0; k < WIDTH; k++, value++) {
        value->kind = NOTHING;
        if (!(nulls >> (k + 2) & 1) && !(at = read_cell(at, end, kinds[k], value))) return 0;
    }
    return at == end;
}

// The count, four columns and an end come before the rows.
static size_t read_row(void *self, Byte *at, size_t len) {
    Sets *sets = self;
    if (sets->state < 6) return ++sets->state;
    if (*at == 254 && len < 9) return 1;
    return sets->binary ? read_binary_row(next_set(sets), at, at + len) : read_text_row(next_set(sets), at, at + len);
}

static _Bool read_reply(Sets *sets, Bytes stream, size_t piece) {
    Splitter splitter = {.take = read_row, .self = sets, .number = 1};
    return feed_all(&splitter, stream, piece);
}

static size_t reply(Bytes stream, size_t piece, _Bool binary) {
    Sets sets = {.binary = binary};
    return read_reply(&sets, stream, piece) ? freed(&sets) : 0;
}

// Rows that are lent: each is looked at where it lies. What a piece cuts is put together in a buffer.

typedef struct { Value cells[WIDTH]; const Byte *at; size_t len; } Lent;

typedef struct { Out cut, payloads, rows; Byte number; _Bool binary, stored; int state; size_t sum; } Lender;

static const Byte *lend_text(const Byte *at, const Byte *end, Value *value) {
    if (at == end || *at > 250 || end - at <= *at) return 0;
    value->kind = TEXT, value->len = *at, value->at = (Byte *)at + 1;
    return at + 1 + value->len;
}

static _Bool lend_row(Lent *row, _Bool binary, const Byte *at, const Byte *end) {
    static const int kinds[WIDTH] = {NUMBER, TEXT, TEXT, NUMBER};
    if (binary && end - at < 2) return 0;
    Byte nulls = binary ? at[1] : 0;
    at += binary ? 2 : 0;
    for (int k = 0; k < WIDTH; k++) {
        Value *value = row->cells + k;
        value->kind = NOTHING;
        if (binary && nulls >> (k + 2) & 1) continue;
        if (!binary && at < end && *at == 251) at++;
        else if (binary && kinds[k] == NUMBER) {
            if (end - at < 8) return 0;
            value->kind = NUMBER, memcpy(&value->number, at, 8), at += 8;
        } else if (!(at = lend_text(at, end, value))) return 0;
    }
    return at == end;
}

// What the cells of a row come to, of bytes how many, and 1 for the row.
static size_t sum_of(const Value *cells) {
    size_t sum = 1;
    for (int k = 0; k < WIDTH; k++) sum += cells[k].kind == NUMBER ? (size_t)cells[k].number : cells[k].kind == TEXT ? cells[k].len : 0;
    return sum;
}

// Keeps a row: its payload behind the others', and its cells, of texts by their place there.
static void store(Lender *it, Lent *row) {
    for (int k = 0; k < WIDTH; k++)
        if (row->cells[k].kind == TEXT) row->cells[k].number = it->payloads.len + (row->cells[k].at - row->at);
    put(&it->payloads, row->at, row->len);
    put(&it->rows, row->cells, sizeof row->cells);
}

static _Bool lend(Lender *it, const Byte *at, size_t len) {
    if (it->state < 6) return ++it->state;
    if (*at == 254 && len < 9) return 1;
    Lent row = {.at = at, .len = len};
    if (!lend_row(&row, it->binary, at, at + len)) return 0;
    if (it->stored) store(it, &row);
    else it->sum += sum_of(row.cells);
    return 1;
}

static size_t size_of(const Byte *head) { return head[0] | head[1] << 8 | head[2] << 16; }

static _Bool lend_piece(Lender *it, const Byte *at, size_t len) {
    while (it->cut.len) {
        size_t want = it->cut.len < 4 ? 4 : 4 + size_of(it->cut.at), more = want - it->cut.len < len ? want - it->cut.len : len;
        if (it->cut.len >= 4 && it->cut.len == want) {
            if (it->cut.at[3] != it->number++ || !lend(it, it->cut.at + 4, want - 4)) return 0;
            it->cut.len = 0;
            break;
        }
        if (!more) return 1;
        put(&it->cut, at, more), at += more, len -= more;
    }
    for (size_t size; len >= 4 && (size = size_of(at)) <= len - 4; at += 4 + size, len -= 4 + size)
        if (at[3] != it->number++ || !lend(it, at + 4, size)) return 0;
    put(&it->cut, at, len);
    return 1;
}

static size_t sum_of_stored(const Lender *it) {
    size_t sum = 0;
    for (const Value *row = (Value *)it->rows.at, *end = (Value *)(it->rows.at + it->rows.len); row < end; row += WIDTH) {
        for (int k = 0; k < WIDTH; k++) __asm__ volatile("" : : "r"(it->payloads.at + row[k].number));
        sum += sum_of(row);
    }
    return sum;
}

static size_t reply_lent(Bytes stream, _Bool binary, _Bool stored) {
    Lender it = {.number = 1, .binary = binary, .stored = stored};
    _Bool good = 1;
    for (size_t i = 0; good && i < stream.len; i += PIECE) good = lend_piece(&it, stream.at + i, stream.len - i < PIECE ? stream.len - i : PIECE);
    size_t sum = stored ? sum_of_stored(&it) : it.sum;
    free(it.cut.at), free(it.payloads.at), free(it.rows.at);
    return good ? sum : 0;
}

// Cells and conversions. A text cell is copied, as the library hands out copies.

static size_t number_of(const Value *value) {
    int64_t number = value->kind == NUMBER ? value->number : 0;
    if (value->kind == TEXT && read_digits(value->at, value->at + value->len, &number) != value->at + value->len) return 0;
    return number;
}

static size_t length_of(const Value *value) {
    if (value->kind != TEXT) return 0;
    Byte *text = copy(value->at, value->len);
    size_t answer = value->len + 0 * text[0];
    __asm__ volatile("" : : "r"(text) : "memory");
    free(text);
    return answer;
}

__attribute__((noipa)) static int place_of(const char *name) {
    static const char *const names[WIDTH] = {"id", "name", "note", "age"};
    for (int k = 0; k < WIDTH; k++)
        if (strcmp(names[k], name) == 0) return k;
    return 0;
}

static size_t cells(Bytes stream, _Bool binary, _Bool by_name) {
    Sets sets = {.binary = binary};
    if (!read_reply(&sets, stream, PIECE)) return 0;
    size_t sum = 0;
    for (int t = 0; t < CELL_TIMES; t++) {
        sum = 0;
        for (size_t i = 0; i < sets.len; i++) {
            const Value *row = sets.at[i];
            if (by_name) sum += number_of(row + place_of("id")) + length_of(row + place_of("name")) + length_of(row + place_of("note")) + number_of(row + place_of("age"));
            else sum += number_of(row) + length_of(row + 1) + length_of(row + 2) + number_of(row + 3);
        }
        __asm__ volatile("" : "+r"(sum) : : "memory");
    }
    freed(&sets);
    return sum;
}

static size_t convert(const Value *values) {
    size_t sum = 0;
    for (int t = 0; t < CONVERT_TIMES; t++) {
        sum = 0;
        for (size_t i = 0; i < CONVERTED; i++) sum += number_of(values + i);
        __asm__ volatile("" : "+r"(sum) : : "memory");
    }
    return sum;
}

static void send_sets(const char *what, Work work, int rounds) {
    Bytes query = load(work.query);
    Value *all = load_values(work.sets, work.count * WIDTH);
    double units = (double)work.count * work.times;
    _Bool listed = ENDS("-listed") || BEGINS("send-values"), text = strcmp(work.road, "text") == 0;
    if (IS("send-text-apart") || IS("send-text-kept")) {
        MEASURE("hand-c", units, send_apart(query, all, work.count, work.times, ENDS("-kept")))
    } else if (ENDS("-kept")) {
        MEASURE("hand-c", units, send_execute_kept(all, work.count, work.times))
    } else if (strcmp(work.road, "bulk") == 0) {
        MEASURE("hand-c", units, send_bulk(query, all, work.count, work.times))
    } else if (listed) {
        MEASURE("hand-c", units, (text ? send_text : send_execute)(query, all, work.count, work.times))
    } else {
        MEASURE("hand-c", units, (text ? send_text_to : send_execute_to)(query, all, work.count, work.times))
    }
}

static void run(const char *what, int rounds) {
    Work work;
    _Bool binary = strstr(what, "binary") != 0, bytewise = strstr(what, "bytewise") != 0;
    size_t copies = bytewise ? BYTEWISE_COPIES : COPIES, piece = bytewise ? 1 : PIECE;
    Bytes query = load("query");
    if (BEGINS("frame")) {
        Bytes one = payload(IS("frame-16M") ? 16000000 : 100);
        size_t count = IS("frame-16M") ? SCALED(64) : SCALED(10000000);
        MEASURE("hand-c", (double)count * one.len, frame(one, count, IS("frame-16M") ? 1 : 65536))
    } else if (BEGINS("split")) {
        Bytes stream = IS("split-16M") ? framed(16000000, SCALED(64)) : framed(100, SCALED(2560000));
        MEASURE("hand-c", (double)stream.len, split(stream))
        MEASURE("copy", (double)stream.len, copied(stream))
    } else if (BEGINS("receive")) {
        Bytes stream = commands(what, copies);
        MEASURE("hand-c", 1e4 * copies, receive(query, stream, piece))
        MEASURE("copy", 1e4 * copies, copied(stream))
    } else if (BEGINS("recode")) {
        Bytes stream = commands(what, copies);
        MEASURE("hand-c", 1e4 * copies, recode(query, stream))
    } else if (BEGINS("reply")) {
        Bytes stream = load(binary ? "reply-binary" : "reply-text");
        if (ENDS("-lent") || ENDS("-stored")) MEASURE("hand-c", (double)ROWS, reply_lent(stream, binary, ENDS("-stored")))
        else MEASURE("hand-c", (double)ROWS, reply(stream, piece, binary))
        MEASURE("copy", (double)ROWS, copied(stream))
    } else if (BEGINS("cells")) {
        Bytes stream = load(binary ? "cells-binary" : "cells-text");
        MEASURE("hand-c", (double)CELL_ROWS * CELL_TIMES, cells(stream, binary, strstr(what, "by-name") != 0))
    } else if (BEGINS("convert")) {
        Value *values = load_values(IS("convert-digits") ? "digits" : "numbers", CONVERTED);
        MEASURE("hand-c", (double)CONVERTED * CONVERT_TIMES, convert(values))
    } else if (find_work(what, &work)) {
        send_sets(what, work, rounds);
    }
}

int main(int argc, char **argv) {
    INPUTS = argv[1];
    for (int i = 3; i < argc; i++) run(argv[i], atoi(argv[2]));
    return 0;
}
