/* Connections of `fuzz`: read in any pieces, behind a fault, and put. */
#include "fuzz.h"

#include <stdlib.h>
#include <string.h>

/* No event has fewer bytes of both streams; what is behind so many isn't put. */
enum { EVENTS = 1 << 15, CHUNK = 0xffffff };

/* What was told of a connection. */
typedef struct told {
    uint64_t sum;
    size_t events, fed;
    /* How many sides have ended. */
    uint32_t closed;
    mysql_session_connection_end end;
    mysql_session_standing standing;
    uint32_t known;
} told;

/* What the sum was behind each event of the connection that was read last. */
static uint64_t sums[EVENTS];

static mysql_session_standing standing_of(mysql_session_connection *connection) {
    mysql_session_standing standing;
    must(mysql_session_connection_standing(connection, &standing), "standing");
    return standing;
}

/* What is known of the session, as one number. */
static uint32_t known_of(mysql_session_connection *connection) {
    mysql_session_known known = MYSQL_SESSION_NOTHING_KNOWN;
    mysql_session_connection_known(connection, &known);
    return known.flags | (uint32_t)known.set_known << 8 | (uint32_t)known.counts << 9;
}

/* How much a side's longest payload takes with its headers. */
static size_t with_headers(size_t longest) { return longest + 4 * (longest / CHUNK + 1); }

/* Whether the limits leave room for the longest payload of both sides. */
static int is_ample(const input *in) {
    if (in->limits[0] > SIZE_MAX / 4 || in->limits[1] > SIZE_MAX / 4) return 0;
    return in->limits[2] >= with_headers(in->limits[0]) + with_headers(in->limits[1]);
}

static mysql_session_connection made(const input *in) {
    mysql_session_connection connection = MYSQL_SESSION_NOTHING;
    const size_t *limits = in->limits;
    if (in->words[2])
        must(mysql_session_connection_after_login(&connection, in->words[0], in->words[1],
                                                  limits[0], limits[1], limits[2]),
             "after_login");
    else
        must(mysql_session_connection_new(&connection, limits[0], limits[1], limits[2]), "new");
    return connection;
}

/* ---- What is asked --------------------------------------------------------------------------- */

static size_t places_of(const mysql_session_event *event) {
    switch (event->kind) {
    case MYSQL_SESSION_EVENT_ROW: return event->columns;
    case MYSQL_SESSION_EVENT_EXECUTE:
    case MYSQL_SESSION_EVENT_BULK_EXECUTE: return event->params;
    default: return 0;
    }
}

static size_t rows_of(const mysql_session_event *event) {
    return event->kind == MYSQL_SESSION_EVENT_BULK_EXECUTE ? event->rows : 1;
}

static void ask_values(mysql_session_connection *connection, uint64_t *sum,
                       const mysql_session_event *event) {
    mysql_session_value value;
    bool unclear;
    const uint8_t *cells;
    size_t len, rows = rows_of(event), places = places_of(event);
    for (size_t row = 0; row < rows && row < 5; row++) {
        for (size_t place = 0; place < places && place < 40; place++) {
            must(mysql_session_connection_value(connection, row, place, &value), "value");
            add_value(sum, &value);
            must(mysql_session_connection_unclear(connection, row, place, &unclear, &cells, &len),
                 "unclear");
            add_number(sum, unclear);
            add(sum, cells, len);
        }
    }
    size_t row = below(9) * (SIZE_MAX / 8), place = SIZE_MAX - below(2);
    must(mysql_session_connection_unclear(connection, row, place, &unclear, &cells, &len),
         "unclear");
    if (mysql_session_connection_value(connection, rows, 0, &value) == MYSQL_SESSION_OK ||
        mysql_session_connection_value(connection, row, place, &value) == MYSQL_SESSION_OK)
        found("a value is out of range", "event %x", event->kind);
}

static void ask_attributes(mysql_session_connection *connection, uint64_t *sum,
                           const mysql_session_event *event) {
    const uint8_t *name;
    size_t len, number = 0;
    mysql_session_value value;
    for (; number < event->attributes; number++) {
        must(mysql_session_connection_attribute(connection, number, &name, &len, &value),
             "attribute");
        add(sum, name, len);
        add_value(sum, &value);
    }
    if (mysql_session_connection_attribute(connection, number, &name, &len, &value) ==
        MYSQL_SESSION_OK)
        found("an attribute is out of range", "event %x", event->kind);
}

static void ask_column(mysql_session_connection *connection, uint64_t *sum) {
    mysql_session_column column;
    if (mysql_session_connection_column(connection, 0, &column) == MYSQL_SESSION_OK) {
        add(sum, column.name, column.name_len);
        add(sum, column.table, column.table_len);
        add_number(sum, column.type);
    }
    if (mysql_session_connection_column(connection, SIZE_MAX - below(2), &column) ==
        MYSQL_SESSION_OK)
        found("a column is out of range", "%u", column.type);
}

/* Asks all that can be asked of an event. */
static void ask(mysql_session_connection *connection, uint64_t *sum,
                const mysql_session_event *event) {
    const uint8_t *text;
    size_t len;
    uint16_t params;
    must(mysql_session_connection_line(connection, &text, &len), "line");
    add(sum, text, len);
    must(mysql_session_connection_line_with_secrets(connection, &text, &len), "line");
    add(sum, text, len);
    for (int secrets = 0; secrets < 2; secrets++) {
        must(mysql_session_connection_line_with_texts(connection, secrets != 0, &text, &len),
             "line");
        for (size_t at = 0; at < len; at++)
            if (text[at] < 0x20 || text[at] == 0x7f)
                found("a line has a control character", "%u", text[at]);
        add(sum, text, len);
    }
    add_number(sum, event->kind << 2 | event->side);
    add(sum, event->text, event->len);
    add(sum, event->user, event->user_len);
    add(sum, event->database, event->database_len);
    add(sum, event->plugin, event->plugin_len);
    add(sum, event->data, event->data_len);
    add_number(sum, event->statement);
    add_number(sum, event->affected_rows ^ event->last_insert_id << 1 ^ event->position << 2);
    ask_values(connection, sum, event);
    ask_attributes(connection, sum, event);
    ask_column(connection, sum);
    uint32_t id = below(2) ? event->statement : (uint32_t)next_random();
    if (mysql_session_connection_statement(connection, id, &text, &len, &params) ==
        MYSQL_SESSION_OK) {
        uint64_t unused = 0;
        add(&unused, text, len);
    }
}

/* ---- Behind each call ------------------------------------------------------------------------ */

static void look_at_held(const input *in, const mysql_session_standing *standing) {
    if (is_ample(in) && standing->held > in->limits[2])
        found("more is held than the limit", "%zu of %zu, fault %u", standing->held, in->limits[2],
              standing->fault);
}

/* Whether both stand alike, but for bytes that wait. */
static int is_alike(const mysql_session_standing *one, const mysql_session_standing *other) {
    return one->phase == other->phase && one->reason == other->reason &&
           one->capabilities == other->capabilities &&
           one->mariadb_capabilities == other->mariadb_capabilities;
}

/* Whether both are one. */
static int is_same(const mysql_session_standing *one, const mysql_session_standing *other) {
    return is_alike(one, other) && one->turn == other->turn && one->fault == other->fault &&
           one->client_room == other->client_room && one->server_room == other->server_room &&
           one->held == other->held;
}

/* Behind a fault each call answers it, whatever comes, and nothing else changes. */
static void look_behind_fault(const input *in, mysql_session_connection *connection,
                              const mysql_session_standing *before, uint32_t fault,
                              uint32_t closed) {
    mysql_session_event event;
    mysql_session_handle out = MYSQL_SESSION_NOTHING;
    static const uint8_t more[] = {1, 0, 0, 0, 0x0e};
    mysql_session_standing behind = standing_of(connection);
    if (!is_alike(before, &behind) || behind.fault != fault)
        found("a fault changes how a connection stands", "fault %u (%u), phase %u, was %u", fault,
              behind.fault, behind.phase, before->phase);
    look_at_held(in, &behind);
    must(mysql_session_bytes_new(&out), "bytes");
    for (uint32_t side = 0; side < 2; side++) {
        uint32_t fed = mysql_session_connection_feed(connection, side, more, 1 + below(5));
        if (side < closed ? fed != MYSQL_SESSION_CONNECTION_CLOSED
                          : fed != MYSQL_SESSION_OK && fed != MYSQL_SESSION_CONNECTION_HELD)
            found("another answer to a feed behind a fault", "%u", fed);
        uint32_t again = mysql_session_connection_next(connection, &event);
        if (again != fault) found("a fault isn't told again", "%u, then %u", fault, again);
        if (mysql_session_connection_put(connection, side, more + 4, 1, &out, &event) !=
            MYSQL_SESSION_CONNECTION_NOT_ITS_TURN)
            found("a payload is put behind a fault", "%u", fault);
        mysql_session_standing then = standing_of(connection);
        if (!is_alike(&behind, &then) || then.fault != fault || then.turn != behind.turn ||
            then.fault_byte != behind.fault_byte || then.fault_side != behind.fault_side)
            found("a connection changes behind a fault", "%u, then %u", fault, then.fault);
        look_at_held(in, &then);
    }
    mysql_session_free(&out);
}

/* ---- Reading --------------------------------------------------------------------------------- */

static void note(const mysql_session_event *event) {
    counted->events++;
    counted->rows += event->kind == MYSQL_SESSION_EVENT_ROW;
    if (event->kind < KINDS) counted->kinds[event->kind]++;
}

/* Takes all events that stand. Answers whether any was told; `ended` is set at a fault. */
static int take(const input *in, mysql_session_connection *connection, told *of, int *ended) {
    for (int any = 0;; any = 1) {
        mysql_session_event event;
        mysql_session_standing before = standing_of(connection);
        uint32_t code = mysql_session_connection_next(connection, &event);
        if (code != MYSQL_SESSION_OK) {
            if (code < CODES) counted->codes[code]++;
            if (!*ended) look_behind_fault(in, connection, &before, code, of->closed);
            add_number(&of->sum, code);
            *ended = 1;
            return any;
        }
        if (event.kind == MYSQL_SESSION_EVENT_NONE) return any;
        note(&event);
        ask(connection, &of->sum, &event);
        mysql_session_standing behind = standing_of(connection);
        if (before.client_room != SIZE_MAX && before.server_room != SIZE_MAX &&
            behind.client_room + behind.server_room < before.client_room + before.server_room + 4)
            found("an event takes no bytes", "event %x", event.kind);
        look_at_held(in, &behind);
        add_number(&of->sum, behind.capabilities ^ (uint64_t)behind.mariadb_capabilities << 32);
        add_number(&of->sum, behind.phase << 8 | behind.reason << 4 | behind.turn);
        add_number(&of->sum, known_of(connection));
        if (of->events < EVENTS) sums[of->events] = of->sum;
        of->events++;
    }
}

/* Feeds a side its next piece; answers its length. */
static size_t feed(const input *in, mysql_session_connection *connection, uint32_t side,
                   size_t done, enum cut how) {
    mysql_session_standing standing = standing_of(connection);
    size_t room = side ? standing.server_room : standing.client_room;
    size_t left = in->streams[side].len - done;
    size_t len = piece_of(how, left < room ? left : room);
    const uint8_t *at = in->streams[side].at + done;
    if (room < left && below(8) == 0 &&
        mysql_session_connection_feed(connection, side, at, room + 1) !=
            MYSQL_SESSION_CONNECTION_HELD)
        found("more is taken than there is room for", "%zu", room);
    uint8_t *piece = copied(at, len);
    must(mysql_session_connection_feed(connection, side, piece, len), "feed");
    free(piece);
    mysql_session_standing behind = standing_of(connection);
    size_t then = side ? behind.server_room : behind.client_room;
    if (behind.held != standing.held + len || (room != SIZE_MAX && then + len != room))
        found("a piece takes other room than its length", "%zu of %zu, %zu are held behind %zu",
              len, room, behind.held, standing.held);
    return len;
}

/* Whether a side has bytes to come for which there is room. */
static int can_go_on(const input *in, mysql_session_connection *connection, const size_t done[2]) {
    mysql_session_standing standing = standing_of(connection);
    return (done[0] < in->streams[0].len && standing.client_room > 0) ||
           (done[1] < in->streams[1].len && standing.server_room > 0);
}

static void end_streams(const input *in, mysql_session_connection *connection, told *of,
                        int *ended) {
    for (uint32_t side = 0; side < 2; side++) {
        must(mysql_session_connection_close(connection, side), "close");
        of->closed++;
        take(in, connection, of, ended);
    }
    of->standing = standing_of(connection);
    of->known = known_of(connection);
    must(mysql_session_connection_finish(connection, &of->end), "finish");
}

static told read_connection(const input *in, enum cut how) {
    mysql_session_connection connection = made(in);
    told of = {0xcbf29ce484222325ULL, 0, 0, 0, {0, 0, 0, 0, 0}, {0}, 0};
    size_t done[2] = {0, 0};
    int ended = 0;
    for (int moved = 1; moved && !ended;) {
        moved = 0;
        for (uint32_t turn = 0; turn < 2 && !ended; turn++) {
            uint32_t side = how == WHOLE ? turn : (uint32_t)below(2);
            size_t len = feed(in, &connection, side, done[side], how);
            done[side] += len;
            mysql_session_standing standing = standing_of(&connection);
            look_at_held(in, &standing);
            if (take(in, &connection, &of, &ended) || len > 0) moved = 1;
        }
        if (!ended && how != WHOLE && can_go_on(in, &connection, done)) moved = 1;
    }
    of.fed = done[0] + done[1];
    end_streams(in, &connection, &of, &ended);
    mysql_session_connection_free(&connection);
    return of;
}

static void compare(const told *one, const told *other, const char *how) {
    const mysql_session_connection_end *first = &one->end, *second = &other->end;
    if (one->sum != other->sum || one->events != other->events)
        found("other events by other pieces", "%s: %zu in place of %zu, fault %u in place of %u",
              how, one->events, other->events, first->fault, second->fault);
    if (first->kind != second->kind || first->byte != second->byte ||
        first->fault != second->fault || first->side != second->side ||
        first->reason != second->reason)
        found("another end by other pieces", "%s: %u %u %u %llu in place of %u %u %u %llu", how,
              first->kind, first->side, first->fault, (unsigned long long)first->byte,
              second->kind, second->side, second->fault, (unsigned long long)second->byte);
    if (!is_alike(&one->standing, &other->standing) || one->known != other->known ||
        one->standing.turn != other->standing.turn ||
        one->standing.fault_byte != other->standing.fault_byte)
        found("another standing by other pieces", "%s: phase %u in place of %u", how,
              one->standing.phase, other->standing.phase);
    if (one->fed == other->fed && one->standing.fault == MYSQL_SESSION_OK &&
        one->standing.held != other->standing.held)
        found("another number is held by other pieces", "%s: %zu in place of %zu", how,
              one->standing.held, other->standing.held);
}

/* ---- Putting --------------------------------------------------------------------------------- */

/* A put that has to be refused, by this code, or by any where it is OK. Nothing changes. */
static void look_at_refusal(mysql_session_connection *connection, uint32_t side,
                            const uint8_t *payload, size_t len, mysql_session_handle *out,
                            uint32_t code) {
    mysql_session_event event;
    const uint8_t *data;
    size_t count, more;
    mysql_session_standing before = standing_of(connection);
    must(mysql_session_bytes_data(out, &data, &count), "data");
    uint32_t answer = mysql_session_connection_put(connection, side, payload, len, out, &event);
    if (answer == MYSQL_SESSION_OK || (code != MYSQL_SESSION_OK && answer != code))
        found("a payload isn't refused as it was", "%u in place of %u", answer, code);
    counted->refusals++;
    mysql_session_standing behind = standing_of(connection);
    must(mysql_session_bytes_data(out, &data, &more), "data");
    if (!is_same(&before, &behind) || count != more)
        found("a refusal changes something", "%u", answer);
}

/* A put was refused by this code: the reading has to have found the same there. */
static void look_at_fault(const told *read, size_t events, uint32_t code) {
    int is_fault = read->end.kind == MYSQL_SESSION_CONNECTION_FAULT && read->events == events;
    int is_number = is_fault && read->end.fault == MYSQL_SESSION_CONNECTION_OUT_OF_SYNC;
    /* An error before its number is due was read as last words. */
    int is_last = read->events == events + 1 && read->end.kind == MYSQL_SESSION_CONNECTION_OVER &&
                  read->end.reason == MYSQL_SESSION_REASON_FAREWELL;
    if (!is_number && !is_last && !(is_fault && read->end.fault == code))
        found("a payload is refused by a fault that wasn't found", "%u, found %u behind %zu of %zu",
              code, read->end.fault, read->events, events);
}

/* Puts the next packet of the side that is due. Answers how many bytes it has, or 0 at the end. */
static size_t put_one(mysql_session_connection *connection, const bytes *stream, size_t done,
                      mysql_session_handle *out, told *of, const told *read) {
    mysql_session_event event;
    const uint8_t *put, *packet = stream->at + done;
    size_t len, left = stream->len - done;
    uint32_t side = standing_of(connection).turn;
    if (left < 4) return 0;
    size_t count = packet[0] | (size_t)packet[1] << 8 | (size_t)packet[2] << 16;
    if (count > left - 4 || count == CHUNK) return 0;
    if (below(4) == 0)
        look_at_refusal(connection, !side, packet + 4, count, out,
                        MYSQL_SESSION_CONNECTION_NOT_ITS_TURN);
    uint8_t *payload = copied(packet + 4, count);
    must(mysql_session_bytes_clear(out), "clear");
    uint32_t code = mysql_session_connection_put(connection, side, payload, count, out, &event);
    if (code != MYSQL_SESSION_OK) {
        look_at_refusal(connection, side, payload, count, out, code);
        free(payload);
        look_at_fault(read, of->events, code);
        return 0;
    }
    free(payload);
    must(mysql_session_bytes_data(out, &put, &len), "data");
    if (len != count + 4 || memcmp(put + 4, packet + 4, count) != 0 ||
        memcmp(put, packet, 3) != 0)
        found("other bytes are put", "%zu in place of %zu", len, count + 4);
    /* By another number the stream said something else, or nothing that can be read. */
    if (put[3] != packet[3]) return 0;
    ask(connection, &of->sum, &event);
    return count + 4;
}

/* Puts the payloads of both streams one by one, where `read` is what was read of them. */
static void put_connection(const input *in, const told *read) {
    mysql_session_connection connection = made(in);
    mysql_session_handle out = MYSQL_SESSION_NOTHING;
    told of = {0xcbf29ce484222325ULL, 0, 0, 0, {0, 0, 0, 0, 0}, {0}, 0};
    size_t done[2] = {0, 0};
    must(mysql_session_bytes_new(&out), "bytes");
    for (;;) {
        mysql_session_standing standing = standing_of(&connection);
        look_at_held(in, &standing);
        if (standing.turn == MYSQL_SESSION_NOBODY) break;
        size_t len = put_one(&connection, &in->streams[standing.turn], done[standing.turn], &out,
                             &of, read);
        if (len == 0) break;
        done[standing.turn] += len;
        mysql_session_standing behind = standing_of(&connection);
        add_number(&of.sum, behind.capabilities ^ (uint64_t)behind.mariadb_capabilities << 32);
        add_number(&of.sum, behind.phase << 8 | behind.reason << 4 | behind.turn);
        add_number(&of.sum, known_of(&connection));
        if (of.events >= read->events || (of.events < EVENTS && of.sum != sums[of.events]))
            found("a payload that is put is another event", "the event %zu of %zu", of.events,
                  read->events);
        of.events++;
        counted->puts++;
    }
    mysql_session_free(&out);
    mysql_session_connection_free(&connection);
}

/* Puts packets of the side that is due, as many as are due; answers how many bytes they have. */
static size_t put_due(mysql_session_connection *connection, const bytes *stream, size_t done,
                      mysql_session_handle *out) {
    const uint8_t *put;
    size_t len, used = 0, left = stream->len - done;
    uint8_t *packets = copied(stream->at + done, left);
    uint32_t side = standing_of(connection).turn;
    must(mysql_session_bytes_clear(out), "clear");
    uint32_t code = mysql_session_connection_put_packets(connection, side, packets, left, out,
                                                         &used);
    must(mysql_session_bytes_data(out, &put, &len), "data");
    if (used > left || len != used) found("other bytes are put", "%zu, %zu are used", len, used);
    for (size_t at = 0, next = 0; at < len; at++) {
        if (at == next + 3)
            next += 4 + (put[at - 3] | (size_t)put[at - 2] << 8 | (size_t)put[at - 1] << 16);
        else if (put[at] != packets[at])
            found("other bytes are put", "the byte %zu of %zu", at, len);
    }
    free(packets);
    return code == MYSQL_SESSION_OK ? used : 0;
}

/* Puts the packets of both streams, as many by a call as are due. */
static void put_streams(const input *in) {
    mysql_session_connection connection = made(in);
    mysql_session_handle out = MYSQL_SESSION_NOTHING;
    size_t done[2] = {0, 0}, len = 1;
    must(mysql_session_bytes_new(&out), "bytes");
    while (len > 0) {
        mysql_session_standing standing = standing_of(&connection);
        look_at_held(in, &standing);
        if (standing.turn == MYSQL_SESSION_NOBODY) break;
        len = put_due(&connection, &in->streams[standing.turn], done[standing.turn], &out);
        done[standing.turn] += len;
    }
    mysql_session_free(&out);
    mysql_session_connection_free(&connection);
}

/* ---- Plainly: for memory and time ------------------------------------------------------------ */

/* Takes all events that stand and shows their values. Answers 0 at a fault. */
static int show_events(mysql_session_connection *connection, volatile size_t *seen) {
    for (;;) {
        mysql_session_event event;
        mysql_session_value value;
        const uint8_t *name;
        size_t len;
        if (mysql_session_connection_next(connection, &event) != MYSQL_SESSION_OK) return 0;
        if (event.kind == MYSQL_SESSION_EVENT_NONE) return 1;
        size_t rows = rows_of(&event), places = places_of(&event);
        for (size_t row = 0; row < rows; row++) {
            for (size_t place = 0; place < places; place++) {
                mysql_session_connection_value(connection, row, place, &value);
                *seen += value.kind;
            }
        }
        for (size_t number = 0; number < event.attributes; number++)
            mysql_session_connection_attribute(connection, number, &name, &len, &value);
    }
}

/* The memory that is kept behind the last call, where so many bytes were held at the most: lists
 * double, and so does the room of what waited. */
static void look_at_kept(size_t kept, size_t held, size_t most_held) {
    double most = 4096 + 4 * (double)most_held + allowed[CONNECTION].kept * (double)held;
    if ((double)kept > most)
        found("more memory is kept than is counted", "%zu bytes, where %zu are held, and were %zu",
              kept, held, most_held);
    if (held > 2000 && 2 * held > most_held && (double)kept / (double)held > counted->kept)
        counted->kept = (double)kept / (double)held;
}

void read_connection_plainly(const input *in) {
    enum { PIECE = 1 << 16 };
    volatile size_t seen = 0;
    size_t done[2] = {0, 0}, most_held = 0, before = heap_held();
    mysql_session_connection connection = made(in);
    for (int moved = 1, goes_on = 1; moved && goes_on;) {
        moved = 0;
        for (uint32_t side = 0; side < 2 && goes_on; side++) {
            mysql_session_standing standing = standing_of(&connection);
            size_t room = side ? standing.server_room : standing.client_room;
            size_t left = in->streams[side].len - done[side];
            size_t len = left < room ? left : room;
            if (len > PIECE) len = PIECE;
            must(mysql_session_connection_feed(&connection, side, in->streams[side].at + done[side],
                                               len),
                 "feed");
            done[side] += len;
            standing = standing_of(&connection);
            if (standing.held > most_held) most_held = standing.held;
            goes_on = show_events(&connection, &seen);
            if (len > 0) moved = 1;
        }
    }
    mysql_session_standing standing = standing_of(&connection);
    look_at_kept(heap_held() - before, standing.held, most_held);
    mysql_session_connection_free(&connection);
}

/* ---- All of it ------------------------------------------------------------------------------- */

void check_connection(const input *in) {
    size_t len = in->streams[0].len + in->streams[1].len;
    told pieces = read_connection(in, PIECES);
    if (len < 1500 || below(24) == 0) {
        told single = read_connection(in, BYTES);
        compare(&single, &pieces, "bytes");
    }
    told whole = read_connection(in, WHOLE);
    compare(&pieces, &whole, "pieces");
    put_connection(in, &whole);
    put_streams(in);
}
