/* The inputs of `fuzz`: of others, of what the library writes, or lists; changed, and repeated. */
#include "fuzz.h"

#include <stdlib.h>
#include <string.h>

enum { SOURCES = 4000, LONGEST = 60000, MARKS = 64 };

static input sources[SOURCES];
static size_t source_count, of_reader[READERS][SOURCES], of_reader_count[READERS];

void add_source(const input *source) {
    if (source_count == SOURCES) return;
    of_reader[source->reader][of_reader_count[source->reader]++] = source_count;
    sources[source_count++] = *source;
}

/* ---- Changes --------------------------------------------------------------------------------- */

static uint8_t telling_byte(void) {
    static const uint8_t telling[] = {0, 1, 2, 3, 5, 8, 0x10, 0x17, 0x20, 0x40, 0x7f, 0x80, 0xfa,
                                      0xfb, 0xfc, 0xfd, 0xfe, 0xff};
    return chance(3) ? (uint8_t)next_random() : telling[below(sizeof telling)];
}

/* Changes a payload, and the length of its packet with it. */
static void change_payload(bytes *stream, size_t packet) {
    size_t len = packet_len(stream, packet);
    if (len < 5) return;
    size_t within = len - 4, at = packet + 4 + below(chance(2) || within < 12 ? within : 12);
    size_t room = packet + len - at, part = 1 + below(room < 24 ? room : 24);
    uint8_t some[24];
    for (size_t i = 0; i < sizeof some; i++) some[i] = telling_byte();
    switch (below(6)) {
    case 0: stream->at[at] = telling_byte(); return;
    case 1: stream->at[at] ^= (uint8_t)(1 << below(8)); return;
    case 2: replace(stream, at, part, NULL, 0); len -= part; break;
    case 3: replace(stream, at, 0, some, part); len += part; break;
    case 4: {
        uint8_t *copy = copied(stream->at + at, part);
        replace(stream, at, 0, copy, part);
        free(copy);
        len += part;
        break;
    }
    default: memcpy(stream->at + at, some, part); return;
    }
    set_length(stream, packet, len - 4);
}

/* Puts a packet of some source in place of one, with its number. */
static void change_packet(bytes *stream, size_t packet, const bytes *other) {
    size_t len = packet_len(stream, packet), from = packet_in(other);
    size_t more = packet_len(other, from);
    if (len == 0 || more == 0 || more > 4000) return;
    uint8_t number = stream->at[packet + 3];
    replace(stream, packet, len, other->at + from, more);
    stream->at[packet + 3] = number;
}

/* Changes a stream, whatever its packets are then. */
static void change_bytes(bytes *stream, size_t packet) {
    size_t at = below(3) ? packet + below(24) : below(stream->len);
    if (at >= stream->len) at = below(stream->len);
    size_t room = stream->len - at, len = 1 + below(room < 40 ? room : 40);
    switch (below(7)) {
    case 0: stream->at[at] = telling_byte(); break;
    case 1: stream->at[at] ^= (uint8_t)(1 << below(8)); break;
    case 2: replace(stream, at, len, NULL, 0); break;
    case 3: {
        uint8_t *copy = copied(stream->at + below(stream->len - len + 1), len);
        replace(stream, at, 0, copy, len);
        free(copy);
        break;
    }
    case 4: replace(stream, packet < stream->len ? packet : at, 0, (const uint8_t *)"\0\0\0\0", 4);
        break;
    case 5: if (packet_len(stream, packet) > 0) stream->at[packet + 3] = telling_byte(); break;
    default: stream->len = at;
    }
}

/* Moves, repeats or leaves out packets. */
static void change_order(bytes *stream, size_t packet) {
    size_t len = packet_len(stream, packet);
    if (len == 0 || len > 4000) return;
    uint8_t *copy = copied(stream->at + packet, len);
    if (chance(2)) replace(stream, packet, len, NULL, 0);
    if (!chance(3)) replace(stream, packet_in(stream), 0, copy, len);
    free(copy);
}

static void change(bytes *stream, const bytes *other) {
    if (stream->len < 8) return;
    size_t packet = packet_in(stream);
    switch (below(10)) {
    case 0: change_packet(stream, packet, other); break;
    case 1: change_order(stream, packet); break;
    case 2: case 3: change_bytes(stream, packet); break;
    default: change_payload(stream, packet);
    }
}

static const input *some_source(enum reader reader) {
    size_t count = of_reader_count[reader];
    return count ? &sources[of_reader[reader][below(count)]] : NULL;
}

static void change_input(input *in, uint32_t streams) {
    const input *other = some_source(CONNECTION);
    if (!other) return;
    for (size_t left = below(7); left > 0; left--) {
        uint32_t stream = (uint32_t)below(streams);
        change(&in->streams[stream], &other->streams[chance(12) ? !stream : stream]);
        if (chance(4)) other = some_source(CONNECTION);
    }
}

static input copy_of(const input *source) {
    input made = *source;
    made.times = 1;
    for (uint32_t i = 0; i < STREAMS; i++) {
        bytes *of = &made.streams[i];
        if (of->len > LONGEST) of->len = LONGEST;
        of->at = copied(of->at, of->len);
    }
    return made;
}

/* ---- Connections ----------------------------------------------------------------------------- */

/* Where both streams of a connection are read when a command is due. */
static size_t marks_of(const input *in, size_t marks[MARKS][2]) {
    mysql_session_connection connection = MYSQL_SESSION_NOTHING;
    enum { LIMIT = 1 << 24 };
    size_t count = 0;
    if (in->words[2])
        must(mysql_session_connection_after_login(&connection, in->words[0], in->words[1], LIMIT,
                                                  LIMIT, 4 * (size_t)LIMIT),
             "after_login");
    else
        must(mysql_session_connection_new(&connection, LIMIT, LIMIT, 4 * (size_t)LIMIT), "new");
    for (uint32_t side = 0; side < 2; side++)
        must(mysql_session_connection_feed(&connection, side, in->streams[side].at,
                                           in->streams[side].len),
             "feed");
    for (mysql_session_event event; count < MARKS;) {
        mysql_session_standing standing;
        must(mysql_session_connection_standing(&connection, &standing), "standing");
        for (uint32_t side = 0; side < 2 && standing.phase == MYSQL_SESSION_PHASE_COMMAND; side++) {
            const uint8_t *rest;
            size_t len;
            must(mysql_session_connection_rest(&connection, side, &rest, &len), "rest");
            marks[count][side] = in->streams[side].len - len;
        }
        count += standing.phase == MYSQL_SESSION_PHASE_COMMAND;
        if (mysql_session_connection_next(&connection, &event) != MYSQL_SESSION_OK ||
            event.kind == MYSQL_SESSION_EVENT_NONE)
            break;
    }
    mysql_session_connection_free(&connection);
    return count;
}

/* Some exchanges of a connection are repeated; those before them stay, or only the login. */
static void repeat_exchanges(input *in) {
    size_t marks[MARKS][2], count = marks_of(in, marks);
    if (count < 2) return;
    size_t first = below(count - 1), last = first + 1 + below(3);
    if (last >= count) last = count - 1;
    int cuts = (int)below(2);
    for (uint32_t side = 0; side < 2; side++) {
        size_t from = marks[first][side], len = marks[last][side] - from;
        in->streams[side].len = from + len;
        if (cuts) {
            replace(&in->streams[side], marks[0][side], from - marks[0][side], NULL, 0);
            from = marks[0][side];
        }
        repeat(in, side, from, len);
    }
    choose_times(in, 20000);
}

static void choose_limits(input *in) {
    in->limits[0] = in->limits[1] = 1 << 24;
    in->limits[2] = 1 << 26;
    if (below(3)) return;
    in->limits[0] = 4 + below(chance(2) ? 300 : 3000);
    in->limits[1] = 4 + below(chance(2) ? 300 : 3000);
    in->limits[2] = in->limits[0] + in->limits[1] + 8 + below(4000);
    if (chance(4)) in->limits[2] = below(in->limits[2]);
    if (chance(20)) in->limits[below(3)] = chance(2) ? 0 : SIZE_MAX;
}

static input make_connection(void) {
    const input *source = some_source(CONNECTION);
    size_t way = source ? below(8) : 0;
    input in;
    if (way == 0) {
        in = some_list();
        choose_times(&in, 20000);
        if (chance(2)) in.times = 1 + below(20);
    } else {
        in = copy_of(source);
        if (way == 1) repeat_exchanges(&in);
        else change_input(&in, 2);
    }
    choose_limits(&in);
    if (in.segments == 0 && chance(100)) {
        bytes client = in.streams[CLIENT];
        in.streams[CLIENT] = in.streams[SERVER];
        in.streams[SERVER] = client;
    }
    /* Segments lie in streams as they were. */
    if (in.times > 1 && chance(3))
        for (uint32_t i = 0; i < in.segments; i++) {
            segment *it = &in.segment[i];
            in.streams[it->stream].at[it->from + below(it->len)] = telling_byte();
        }
    return in;
}

/* ---- Streams of commands --------------------------------------------------------------------- */

static void put_query(bytes *to, size_t tokens) {
    static const char *const words[] = {"?", "?", "?", ",", " ", "'", "\"", "`", "''", "\\", "--",
                                        "-- ", "#", "\n", "/*", "*/", "/*!", "/*+", "SELECT", "x",
                                        ":a", ":b", "@v", "1", "0x31", "-", "_utf8mb4", ";", "(",
                                        ")", "\xc3\xa9", "\xff", "\0"};
    while (tokens-- > 0) {
        const char *word = words[chance(2) ? below(5) : below(sizeof words / sizeof *words)];
        put(to, word, word[0] ? strlen(word) : 1);
    }
}

static void push_value(mysql_session_handle *sets) {
    bytes some = {take_memory(0), 0};
    put_some(&some, chance(9) ? below(2000) : below(12));
    switch (below(7)) {
    case 0: mysql_session_sets_push_null(sets); break;
    case 1: mysql_session_sets_push_int(sets, (int64_t)(next_random() << below(32))); break;
    case 2: mysql_session_sets_push_uint(sets, next_random() << below(32)); break;
    case 3:
        mysql_session_sets_push_date(sets, (uint16_t)below(9999), (uint8_t)below(13),
                                     (uint8_t)below(32), (uint8_t)below(24), (uint8_t)below(60),
                                     (uint8_t)below(60), chance(2) ? 0 : (uint32_t)below(1000000));
        break;
    case 4:
        mysql_session_sets_push_time(sets, chance(2), (uint32_t)below(40), (uint8_t)below(24),
                                     (uint8_t)below(60), (uint8_t)below(60),
                                     chance(2) ? 0 : (uint32_t)below(1000000));
        break;
    default: mysql_session_sets_push_bytes(sets, some.at, some.len);
    }
    free(some.at);
}

/* Appends what the library sends of random sets for a query. */
static void put_commands(input *in, size_t places) {
    mysql_session_handle sets = MYSQL_SESSION_NOTHING, out = MYSQL_SESSION_NOTHING;
    mysql_session_place place;
    const uint8_t *data;
    size_t len;
    must(mysql_session_sets_new(&sets), "sets");
    must(mysql_session_bytes_new(&out), "bytes");
    for (size_t set = below(5); set > 0; set--) {
        for (size_t at = 0; at < places; at++) push_value(&sets);
        must(mysql_session_sets_end_set(&sets), "end_set");
    }
    mysql_session_send(&sets, in->streams[1].at, in->streams[1].len, (uint32_t)below(3),
                       in->words[0], in->limits[0], in->words[1], &out, &place);
    must(mysql_session_bytes_data(&out, &data, &len), "data");
    put(&in->streams[0], data, len);
    mysql_session_free(&out);
    mysql_session_free(&sets);
}

/* Some packets are repeated, or bytes within one. */
static void repeat_packets(input *in, uint32_t stream) {
    bytes *of = &in->streams[stream];
    size_t from = packet_in(of), len = packet_len(of, from);
    if (len == 0) return;
    if (chance(2) && len > 5) {
        size_t at = from + 4 + below(len - 4), room = from + len - at;
        size_t part = 1 + below(room < 20 ? room : 20);
        repeat(in, stream, at, part);
        grow(in, stream, from, 3, part);
    } else {
        repeat(in, stream, from, len);
        if (in->reader == REPLY) in->numbered = stream + 1;
    }
    choose_times(in, 200000);
}

static input make_receiver(void) {
    const input *source = some_source(RECEIVER);
    input in = {RECEIVER, {1, (uint32_t)below(8), 0}, {0}, {{0}}, 0, 1, 0, 0, 0, {{0}}, {{0}}};
    if (source && chance(4)) {
        in = copy_of(source);
    } else {
        for (uint32_t i = 0; i < STREAMS; i++) in.streams[i].at = take_memory(0);
        size_t places = below(4);
        if (chance(2)) {
            put_query(&in.streams[1], below(12));
            places = 0;
            for (size_t i = 0; i < in.streams[1].len; i++) places += in.streams[1].at[i] == '?';
        } else {
            put_text(&in.streams[1], "SELECT 1");
            for (size_t i = 0; i < places; i++) put_text(&in.streams[1], ", ?");
        }
        in.limits[0] = 1 << 24;
        for (size_t i = 1 + below(3); i > 0; i--) put_commands(&in, places);
    }
    in.limits[0] = chance(4) ? 4 + below(2000) : 1 << 24;
    if (chance(3)) repeat_packets(&in, 0);
    else change_input(&in, 1);
    return in;
}

/* ---- Replies --------------------------------------------------------------------------------- */

static void put_rows(mysql_session_handle *writer, mysql_session_handle *out, int more) {
    mysql_session_handle sets = MYSQL_SESSION_NOTHING;
    mysql_session_spot spot;
    size_t columns = 1 + below(5);
    must(mysql_session_sets_new(&sets), "sets");
    for (size_t at = 0; at < columns; at++) {
        bytes name = {take_memory(0), 0};
        put_some(&name, below(9));
        mysql_session_writer_column(writer, some_type(), name.at, name.len, chance(2) ? 32 : 0, 45,
                                    10, 0);
        free(name.at);
    }
    mysql_session_writer_rows(writer, out, &spot);
    for (size_t row = below(6); row > 0; row--) {
        for (size_t at = 0; at < columns; at++) push_value(&sets);
        must(mysql_session_sets_end_set(&sets), "end_set");
        mysql_session_writer_row(writer, &sets, 0, out, &spot);
        must(mysql_session_sets_clear(&sets), "clear");
    }
    mysql_session_writer_end_rows(writer, 2, 0, more, out, &spot);
    mysql_session_free(&sets);
}

static void put_results(input *in) {
    mysql_session_handle writer = MYSQL_SESSION_NOTHING, out = MYSQL_SESSION_NOTHING;
    mysql_session_spot spot;
    const uint8_t *data;
    size_t len;
    must(mysql_session_writer_new(&writer, in->words[0], in->words[1], (uint8_t)in->words[2],
                                  1 << 24),
         "writer");
    must(mysql_session_bytes_new(&out), "bytes");
    for (size_t left = below(4) + 1; left > 0; left--) {
        const uint8_t *text = (const uint8_t *)"told";
        size_t way = in->words[0] == MYSQL_SESSION_REPLY_TO_PREPARE ? 3 : below(3);
        if (way == 0)
            mysql_session_writer_ok(&writer, below(300), below(70000), 2, 0, text, 4, left > 1,
                                    &out, &spot);
        if (way == 1) put_rows(&writer, &out, left > 1);
        if (way == 2)
            mysql_session_writer_error(&writer, 1064, (const uint8_t *)"42000", 5, text, 4, &out,
                                       &spot);
        if (way < 3) continue;
        size_t params = below(3);
        for (size_t at = 0; at < params + 1; at++)
            mysql_session_writer_column(&writer, some_type(), text, 4, 0, 45, 10, 0);
        mysql_session_writer_prepared(&writer, 1, params, 0, &out, &spot);
    }
    must(mysql_session_bytes_data(&out, &data, &len), "data");
    put(&in->streams[0], data, len);
    mysql_session_free(&out);
    mysql_session_free(&writer);
}

static input make_reply(void) {
    static const uint32_t capabilities[] = {0x0200, 0x01000200, 0x01800200, 0x21000200, 0};
    const input *source = some_source(REPLY);
    input in = {REPLY, {(uint32_t)below(3), capabilities[below(5)], chance(4) ? 0 : 1}, {0}, {{0}},
                0, 1, 0, 0, 0, {{0}}, {{0}}};
    if (source && chance(4)) {
        in = copy_of(source);
    } else {
        for (uint32_t i = 0; i < STREAMS; i++) in.streams[i].at = take_memory(0);
        put_results(&in);
    }
    in.limits[0] = chance(4) ? below(2000) : 1 << 24;
    if (chance(3)) repeat_packets(&in, 0);
    else change_input(&in, 1);
    return in;
}

/* ---- Packets, and payloads alone ------------------------------------------------------------- */

static input make_packets(void) {
    const input *source = some_source(CONNECTION);
    input in = {PACKETS, {0, 0, 0}, {chance(3) ? below(300) : 1 << 24, 0, 0}, {{0}}, 0, 1, 0, 0, 0,
                {{0}}, {{0}}};
    for (uint32_t i = 0; i < STREAMS; i++) in.streams[i].at = take_memory(0);
    if (source && chance(3)) {
        const bytes *of = &source->streams[below(2)];
        put(&in.streams[0], of->at, of->len < LONGEST ? of->len : LONGEST);
        if (of->len > 3) in.words[0] = of->at[3];
    } else {
        in.words[0] = (uint32_t)below(256);
        for (size_t i = below(40), number = in.words[0]; i > 0; i--, number++) {
            size_t at = begin_packet(&in.streams[0], number & 0xff);
            put_some(&in.streams[0], below(chance(4) ? 400 : 20));
            end_packet(&in.streams[0], at);
        }
    }
    if (chance(3)) repeat_packets(&in, 0);
    else change_input(&in, 1);
    return in;
}

static void put_modes(bytes *to) {
    static const char *const names[] = {"ANSI", "ANSI_QUOTES", "NO_BACKSLASH_ESCAPES", "MSSQL", " ",
                                        ",", ",", "ansi", "STRICT_TRANS_TABLES", "x",
                                        "TRADITIONAL"};
    for (size_t left = below(20); left > 0; left--)
        put_text(to, names[below(sizeof names / sizeof *names)]);
}

static void put_gtids(bytes *to) {
    static const char *const parts[] = {"3e11fa47-71ca-11e1-9e33-c80aa9429562", ":1-5", ":7", ",",
                                        " ", "\n", "-", "3E11FA4771CA11E19E33C80AA9429562", ":",
                                        "18446744073709551615"};
    for (size_t left = below(12); left > 0; left--)
        put_text(to, parts[below(sizeof parts / sizeof *parts)]);
}

/* The first payload of a side of a source. */
static void put_first(bytes *to, uint32_t side) {
    const input *source = some_source(CONNECTION);
    for (int i = 0; i < 9 && source && source->words[2]; i++) source = some_source(CONNECTION);
    if (!source) return;
    size_t len = packet_len(&source->streams[side], 0);
    if (len > 4) put(to, source->streams[side].at + 4, len - 4);
}

static input make_payload(void) {
    input in = {PAYLOAD, {(uint32_t)below(PAYLOADS), (uint32_t)below(8), 0}, {0}, {{0}}, 0, 1, 0, 0,
                0, {{0}}, {{0}}};
    for (uint32_t i = 0; i < STREAMS; i++) in.streams[i].at = take_memory(0);
    bytes *to = &in.streams[0];
    switch (in.words[0]) {
    case GREETING: put_first(to, SERVER); break;
    case LOGIN: put_first(to, CLIENT); break;
    case QUERY: put_query(to, below(30)); break;
    case GTIDS: put_gtids(to); break;
    default: put_modes(to);
    }
    for (size_t left = below(4); left > 0 && to->len > 0; left--) {
        size_t at = below(to->len);
        if (chance(4)) replace(to, at, 1 + below(to->len - at), NULL, 0);
        else to->at[at] = telling_byte();
    }
    if (to->len > 0 && chance(3)) {
        size_t at = below(to->len), room = to->len - at;
        repeat(&in, 0, at, 1 + below(room < 40 ? room : 40));
        choose_times(&in, 200000);
    }
    return in;
}

input make_input(uint64_t seed) {
    seed_random(seed);
    size_t way = below(20);
    input in = way < 11   ? make_connection()
               : way < 14 ? make_receiver()
               : way < 17 ? make_reply()
               : way < 18 ? make_packets()
                          : make_payload();
    if (in.times < 2) {
        in.times = 1;
        in.segments = in.patches = in.numbered = 0;
    }
    in.cuts = next_random();
    return in;
}
