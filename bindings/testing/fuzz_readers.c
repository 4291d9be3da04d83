/* Readers of `fuzz` but for connections: packets, commands, replies, payloads alone; and what each
 * takes of memory and time. */
#include "fuzz.h"

#include <stdlib.h>
#include <string.h>

static const uint64_t NO_SUM = 0xcbf29ce484222325ULL;

void add(uint64_t *sum, const void *data, size_t len) {
    const uint8_t *at = data;
    for (size_t i = 0; i < len; i++) *sum = (*sum ^ at[i]) * 0x100000001b3ULL;
    add_number(sum, len);
}

void add_number(uint64_t *sum, uint64_t number) {
    *sum = (*sum ^ number) * 0x100000001b3ULL;
    *sum ^= *sum >> 29;
}

/* Of a value only the fields of its kind are written. */
void add_value(uint64_t *sum, const mysql_session_value *value) {
    add_number(sum, value->kind);
    switch (value->kind) {
    case MYSQL_SESSION_INT: add_number(sum, (uint64_t)value->int_value); break;
    case MYSQL_SESSION_BYTES: add(sum, value->bytes, value->len); break;
    case MYSQL_SESSION_UINT:
    case MYSQL_SESSION_FLOAT:
    case MYSQL_SESSION_DOUBLE: add_number(sum, value->uint_value); break;
    case MYSQL_SESSION_DATE: add_number(sum, (uint64_t)value->year << 16 | value->month); break;
    case MYSQL_SESSION_TIME: add_number(sum, (uint64_t)value->days << 16 | value->second); break;
    default: break;
    }
}

void must(uint32_t code, const char *what) {
    if (code != MYSQL_SESSION_OK) found("a call doesn't answer OK", "%s answers %u", what, code);
}

size_t piece_of(enum cut how, size_t left) {
    if (left == 0 || how == WHOLE) return left;
    if (how == BYTES) return 1;
    return 1 + below(left < 200 ? left : below(8) ? 200 : left);
}

static void note_code(uint32_t code) {
    if (code < CODES) counted->codes[code]++;
}

/* ---- Packets --------------------------------------------------------------------------------- */

/* What was told of a stream: a sum, how many things, the first code that isn't OK, and an end. */
typedef struct told {
    uint64_t sum;
    size_t count;
    uint32_t code;
    mysql_session_end end;
} told;

static void same(const told *one, const told *other, const char *what) {
    if (one->sum != other->sum || one->count != other->count || one->code != other->code)
        found("other answers by other pieces", "%s: %zu, %u in place of %zu, %u", what, one->count,
              one->code, other->count, other->code);
    if (one->end.kind != other->end.kind || one->end.fault != other->end.fault ||
        one->end.payload != other->end.payload)
        found("another end by other pieces", "%s: %u %u %llu in place of %u %u %llu", what,
              one->end.kind, one->end.fault, (unsigned long long)one->end.payload,
              other->end.kind, other->end.fault, (unsigned long long)other->end.payload);
}

static told read_packets(const input *in, enum cut how) {
    mysql_session_handle packets = MYSQL_SESSION_NOTHING;
    told of = {NO_SUM, 0, 0, {0, 0, 0}};
    must(mysql_session_packets_new(&packets, (uint8_t)in->words[0], in->limits[0]), "packets");
    for (size_t done = 0; done < in->streams[0].len && of.code == MYSQL_SESSION_OK;) {
        size_t len = piece_of(how, in->streams[0].len - done), used = 0;
        bool whole = false;
        uint8_t *piece = copied(in->streams[0].at + done, len);
        of.code = mysql_session_packets_feed(&packets, piece, len, &used, &whole);
        free(piece);
        if (of.code != MYSQL_SESSION_OK) break;
        if (used > len || (!whole && used != len))
            found("other bytes are used than there are", "%zu of %zu", used, len);
        done += used;
        if (!whole) continue;
        const uint8_t *data = NULL;
        must(mysql_session_packets_payload(&packets, &data, &len), "payload");
        add(&of.sum, data, len);
        of.count++;
    }
    size_t used;
    bool whole;
    uint32_t again = mysql_session_packets_feed(&packets, in->streams[0].at, 0, &used, &whole);
    if (again != of.code) found("a fault isn't told again", "%u, then %u", of.code, again);
    mysql_session_free(&packets);
    return of;
}

static void check_packets(const input *in) {
    told whole = read_packets(in, WHOLE), pieces = read_packets(in, PIECES);
    told single = read_packets(in, BYTES);
    same(&pieces, &whole, "packets");
    same(&single, &whole, "packets, bytes");
    note_code(whole.code);
}

/* ---- Streams of commands --------------------------------------------------------------------- */

static void ask_sets(mysql_session_handle *receiver, told *of) {
    mysql_session_content content;
    size_t sets, width;
    must(mysql_session_receiver_sets(receiver, &sets), "sets");
    for (size_t set = 0; set < sets; set++) {
        must(mysql_session_receiver_width(receiver, set, &width), "width");
        for (size_t place = 0; place < width; place++) {
            uint32_t code = mysql_session_receiver_content(receiver, set, place, &content);
            add_number(&of->sum, code);
            if (code != MYSQL_SESSION_OK) continue;
            add_number(&of->sum, content.kind);
            if (content.kind == MYSQL_SESSION_INT)
                add_number(&of->sum, (uint64_t)content.int_value);
            if (content.kind == MYSQL_SESSION_UINT) add_number(&of->sum, content.uint_value);
            if (content.kind == MYSQL_SESSION_BYTES) add(&of->sum, content.bytes, content.len);
        }
        add_number(&of->sum, width);
        of->count++;
    }
    if (mysql_session_receiver_content(receiver, sets, below(2) ? 0 : SIZE_MAX, &content) ==
        MYSQL_SESSION_OK)
        found("a content is out of range", "%zu", sets);
}

/* Feeds a stream; `clears` lets go of the sets behind some pieces. */
static told receive(const input *in, const bytes *stream, enum cut how, int clears) {
    mysql_session_handle receiver = MYSQL_SESSION_NOTHING;
    told of = {NO_SUM, 0, 0, {0, 0, 0}};
    const bytes *query = &in->streams[1];
    of.code = mysql_session_receiver_new(&receiver, query->at, query->len, in->words[0],
                                         in->limits[0], in->words[1]);
    if (of.code != MYSQL_SESSION_OK) return of;
    for (size_t done = 0; done < stream->len && of.code == MYSQL_SESSION_OK;) {
        size_t len = piece_of(how, stream->len - done);
        uint8_t *piece = copied(stream->at + done, len);
        of.code = mysql_session_receiver_feed(&receiver, piece, len);
        if (of.code != MYSQL_SESSION_OK &&
            mysql_session_receiver_feed(&receiver, piece, len) != of.code)
            found("a fault isn't told again", "%u", of.code);
        free(piece);
        done += len;
        if (!clears || below(4)) continue;
        ask_sets(&receiver, &of);
        must(mysql_session_receiver_clear(&receiver), "clear");
    }
    if (below(2)) {
        ask_sets(&receiver, &of);
        must(mysql_session_receiver_clear(&receiver), "clear");
    }
    must(mysql_session_receiver_end(&receiver, &of.end), "end");
    ask_sets(&receiver, &of);
    mysql_session_free(&receiver);
    return of;
}

/* Recodes a stream; `out` gets what is appended, and `stop` where it ends. */
static uint32_t recode(const input *in, enum cut how, mysql_session_handle *out,
                       mysql_session_stop *stop) {
    mysql_session_handle recoder = MYSQL_SESSION_NOTHING;
    const bytes *query = &in->streams[1], *stream = &in->streams[0];
    mysql_session_stop again = {0, 0, 0, 0};
    uint32_t code = mysql_session_recoder_new(&recoder, query->at, query->len, in->words[0],
                                              in->limits[0], in->words[1]);
    if (code != MYSQL_SESSION_OK) return code;
    for (size_t done = 0; done < stream->len && code == MYSQL_SESSION_OK;) {
        size_t len = piece_of(how, stream->len - done);
        uint8_t *piece = copied(stream->at + done, len);
        code = mysql_session_recoder_feed(&recoder, piece, len, out, stop);
        if (code != MYSQL_SESSION_OK &&
            (mysql_session_recoder_feed(&recoder, piece, len, out, &again) != code ||
             again.payload != stop->payload || again.set != stop->set))
            found("a fault isn't told again", "%u of the recoder", code);
        free(piece);
        done += len;
    }
    uint32_t end = mysql_session_recoder_end(&recoder, out, &again);
    if (code != MYSQL_SESSION_OK && end != code)
        found("a fault isn't told again", "%u at the recoder's end, not %u", end, code);
    if (code == MYSQL_SESSION_OK) *stop = again;
    mysql_session_free(&recoder);
    return end;
}

/* What is recoded doesn't depend on the pieces, and is read as what came. */
static void check_recoder(const input *in, const told *read) {
    mysql_session_handle out = MYSQL_SESSION_NOTHING, other = MYSQL_SESSION_NOTHING;
    mysql_session_stop stop = {0, 0, 0, 0}, second = {0, 0, 0, 0};
    const uint8_t *whole, *pieces;
    size_t whole_len, pieces_len;
    must(mysql_session_bytes_new(&out), "bytes");
    must(mysql_session_bytes_new(&other), "bytes");
    uint32_t code = recode(in, WHOLE, &out, &stop), then = recode(in, PIECES, &other, &second);
    must(mysql_session_bytes_data(&out, &whole, &whole_len), "data");
    must(mysql_session_bytes_data(&other, &pieces, &pieces_len), "data");
    if (code != then || stop.payload != second.payload || stop.set != second.set ||
        stop.end != second.end || stop.fault != second.fault)
        found("another end by other pieces", "recoder: %u in place of %u", then, code);
    int is_front = code != MYSQL_SESSION_OK && whole_len < pieces_len;
    if ((whole_len != pieces_len && !is_front) ||
        (whole_len > 0 && memcmp(whole, pieces, whole_len) != 0))
        found("other bytes are recoded by other pieces", "%zu in place of %zu, code %u",
              pieces_len, whole_len, code);
    note_code(code);
    if (code == MYSQL_SESSION_OK) {
        bytes stream = {copied(whole, whole_len), whole_len};
        told again = receive(in, &stream, WHOLE, 0);
        if (again.sum != read->sum || again.count != read->count || again.code)
            found("other sets are recoded", "%zu, code %u in place of %zu", again.count, again.code,
                  read->count);
        free(stream.at);
    }
    mysql_session_free(&other);
    mysql_session_free(&out);
}

static void check_receiver(const input *in) {
    const bytes *stream = &in->streams[0];
    told whole = receive(in, stream, WHOLE, 0), pieces = receive(in, stream, PIECES, 0);
    same(&pieces, &whole, "receiver");
    if (stream->len < 3000) {
        told single = receive(in, stream, BYTES, 0);
        same(&single, &whole, "receiver, bytes");
    }
    told cleared = receive(in, stream, PIECES, 1);
    same(&cleared, &whole, "receiver, cleared");
    note_code(whole.code);
    check_recoder(in, &whole);
}

/* ---- Replies --------------------------------------------------------------------------------- */

static void ask_column(mysql_session_handle *reply, told *of, size_t result, size_t number,
                       int is_param) {
    mysql_session_column column;
    must(is_param ? mysql_session_reply_param(reply, result, number, &column)
                  : mysql_session_reply_column(reply, result, number, &column),
         "column");
    add(&of->sum, column.schema, column.schema_len);
    add(&of->sum, column.table, column.table_len);
    add(&of->sum, column.name, column.name_len);
    add_number(&of->sum, column.type);
    add_number(&of->sum, column.flags);
}

static void ask_result(mysql_session_handle *reply, told *of, size_t number) {
    mysql_session_result result;
    mysql_session_value value;
    size_t position = 0, len;
    const uint8_t *data;
    uint8_t type;
    must(mysql_session_reply_result(reply, number, &result), "result");
    add_number(&of->sum, result.kind);
    add_number(&of->sum, result.affected_rows ^ (uint64_t)result.status << 32);
    add(&of->sum, result.text, result.len);
    for (size_t at = 0; at < result.columns; at++) ask_column(reply, of, number, at, 0);
    for (size_t at = 0; at < result.params; at++) ask_column(reply, of, number, at, 1);
    for (;;) {
        uint32_t code = mysql_session_reply_state(reply, number, &position, &type, &data, &len);
        if (code != MYSQL_SESSION_OK) break;
        add(&of->sum, data, len);
    }
    for (size_t row = 0; row < result.rows; row++) {
        for (size_t at = 0; at < result.columns; at++) {
            must(mysql_session_reply_cell(reply, number, row, at, &value), "cell");
            add_value(&of->sum, &value);
        }
        of->count++;
    }
    if (mysql_session_reply_cell(reply, number, result.rows, 0, &value) == MYSQL_SESSION_OK)
        found("a cell is out of range", "%zu", result.rows);
}

static void ask_results(mysql_session_handle *reply, told *of) {
    size_t results;
    must(mysql_session_reply_results(reply, &results), "results");
    for (size_t number = 0; number < results; number++) ask_result(reply, of, number);
}

/* Reads a reply; where `takes`, what is there is taken behind some pieces, and only rows count. */
static told read_reply(const input *in, enum cut how, int takes) {
    mysql_session_handle reply = MYSQL_SESSION_NOTHING;
    told of = {NO_SUM, 0, 0, {0, 0, 0}};
    must(mysql_session_reply_new(&reply, in->words[0], in->words[1], (uint8_t)in->words[2],
                                 in->limits[0]),
         "reply");
    for (size_t done = 0; done < in->streams[0].len && of.code == MYSQL_SESSION_OK;) {
        size_t len = piece_of(how, in->streams[0].len - done);
        uint8_t *piece = copied(in->streams[0].at + done, len);
        of.code = mysql_session_reply_feed(&reply, piece, len);
        if (of.code != MYSQL_SESSION_OK &&
            mysql_session_reply_feed(&reply, piece, len) != of.code)
            found("a fault isn't told again", "%u of a reply", of.code);
        free(piece);
        done += len;
        if (!takes || below(4)) continue;
        must(mysql_session_reply_take(&reply), "take");
        ask_results(&reply, &of);
    }
    if (takes) {
        must(mysql_session_reply_take(&reply), "take");
        ask_results(&reply, &of);
    }
    must(mysql_session_reply_end(&reply, &of.end), "end");
    ask_results(&reply, &of);
    mysql_session_free(&reply);
    if (takes) of.sum = NO_SUM;
    return of;
}

static void check_reply(const input *in) {
    told whole = read_reply(in, WHOLE, 0), pieces = read_reply(in, PIECES, 0);
    same(&pieces, &whole, "reply");
    if (in->streams[0].len < 3000) {
        told single = read_reply(in, BYTES, 0);
        same(&single, &whole, "reply, bytes");
    }
    note_code(whole.code);
    counted->rows += whole.count;
    told taken = read_reply(in, PIECES, 1);
    whole.sum = NO_SUM;
    same(&taken, &whole, "reply, taken");
}

/* ---- Payloads alone -------------------------------------------------------------------------- */

static int is_text(const uint8_t *one, size_t len, const uint8_t *other, size_t more) {
    return len == more && (len == 0 || memcmp(one, other, len) == 0);
}

/* Reads a greeting; what is put of its fields is read as the same. */
static uint32_t read_greeting(const bytes *payload, int puts) {
    mysql_session_greeting of, then;
    mysql_session_handle out = MYSQL_SESSION_NOTHING;
    const uint8_t *data;
    size_t len;
    uint32_t code = mysql_session_greeting_read(payload->at, payload->len, &of);
    if (code != MYSQL_SESSION_OK || !puts) return code;
    must(mysql_session_bytes_new(&out), "bytes");
    code = mysql_session_greeting_put(&out, of.connection, of.capabilities,
                                      of.mariadb_capabilities, of.collation, of.status, of.version,
                                      of.version_len, of.scramble_1, of.scramble_1_len,
                                      of.scramble_2, of.scramble_2_len, of.plugin, of.plugin_len);
    if (code == MYSQL_SESSION_OK) {
        must(mysql_session_bytes_data(&out, &data, &len), "data");
        must(mysql_session_greeting_read(data, len, &then), "a greeting that was put");
        if (!is_text(of.version, of.version_len, then.version, then.version_len) ||
            !is_text(of.scramble_2, of.scramble_2_len, then.scramble_2, then.scramble_2_len) ||
            !is_text(of.plugin, of.plugin_len, then.plugin, then.plugin_len) ||
            of.connection != then.connection || of.status != then.status)
            found("a greeting that is put is another one", "%zu bytes", len);
    }
    mysql_session_free(&out);
    return code;
}

/* Reads a login; what is put of its fields is read as the same. */
static uint32_t read_login(const bytes *payload, int puts) {
    mysql_session_login of, then;
    mysql_session_handle out = MYSQL_SESSION_NOTHING;
    const uint8_t *data;
    size_t len;
    uint32_t code = mysql_session_login_read(payload->at, payload->len, &of);
    if (code != MYSQL_SESSION_OK || !puts) return code;
    must(mysql_session_bytes_new(&out), "bytes");
    code = mysql_session_login_put(&out, of.capabilities, of.mariadb_capabilities, 1 << 24, of.user,
                                   of.user_len, of.response, of.response_len, of.database,
                                   of.database_len, of.plugin, of.plugin_len);
    if (code == MYSQL_SESSION_OK) {
        must(mysql_session_bytes_data(&out, &data, &len), "data");
        must(mysql_session_login_read(data, len, &then), "a login that was put");
        if (!is_text(of.user, of.user_len, then.user, then.user_len) ||
            !is_text(of.response, of.response_len, then.response, then.response_len) ||
            !is_text(of.database, of.database_len, then.database, then.database_len) ||
            !is_text(of.plugin, of.plugin_len, then.plugin, then.plugin_len))
            found("a login that is put is another one", "%zu bytes", len);
    }
    mysql_session_free(&out);
    return code;
}

/* Binds a query to values, of which it has as many as it has bytes at the most. */
static uint32_t read_query(const input *in, int reads) {
    mysql_session_handle sets = MYSQL_SESSION_NOTHING, out = MYSQL_SESSION_NOTHING;
    mysql_session_handle receiver = MYSQL_SESSION_NOTHING;
    mysql_session_place place;
    const bytes *query = &in->streams[0];
    size_t marks = 0, len;
    const uint8_t *data;
    uint32_t code = mysql_session_receiver_new(&receiver, query->at, query->len, 1, 1 << 24,
                                               in->words[1] & 3);
    mysql_session_free(&receiver);
    if (code != MYSQL_SESSION_OK) return code;
    must(mysql_session_sets_new(&sets), "sets");
    must(mysql_session_bytes_new(&out), "bytes");
    for (size_t i = 0; i < query->len; i++) marks += query->at[i] == '?';
    for (size_t i = 0; i < marks; i++)
        must(mysql_session_sets_push_int(&sets, (int64_t)i), "push_int");
    must(mysql_session_sets_end_set(&sets), "end_set");
    code = mysql_session_bind_text(&sets, 0, query->at, query->len, in->words[1], &out, &place);
    must(mysql_session_bytes_data(&out, &data, &len), "data");
    if (code != MYSQL_SESSION_OK && len > 0) found("a refusal appends something", "%u", code);
    if (code == MYSQL_SESSION_OK && reads) {
        uint8_t *text = copied(data, len);
        code = mysql_session_receiver_new(&receiver, text, len, 1, 1 << 24, in->words[1] & 3);
        if (code != MYSQL_SESSION_OK) found("a text that is bound isn't read", "%u", code);
        mysql_session_free(&receiver);
        free(text);
    }
    mysql_session_free(&out);
    mysql_session_free(&sets);
    return code;
}

/* Puts a replica's command with a text of identifiers. */
static uint32_t put_gtids(const bytes *payload) {
    mysql_session_handle out = MYSQL_SESSION_NOTHING;
    must(mysql_session_bytes_new(&out), "bytes");
    uint32_t code = mysql_session_binlog_dump_gtid_put(&out, 1, 4, 0, payload->at, 0, payload->at,
                                                       payload->len);
    mysql_session_free(&out);
    return code;
}

static uint32_t read_payload(const input *in, int looks) {
    const bytes *payload = &in->streams[0];
    switch (in->words[0]) {
    case GREETING: return read_greeting(payload, looks);
    case LOGIN: return read_login(payload, looks);
    case QUERY: return read_query(in, looks);
    case GTIDS: return put_gtids(payload);
    default: return mysql_session_mode_of_sql_mode(payload->at, payload->len);
    }
}

static void check_payload(const input *in) {
    input exact = *in;
    exact.streams[0].at = copied(in->streams[0].at, in->streams[0].len);
    uint32_t code = read_payload(&exact, 1);
    if (in->words[0] != SQL_MODE) note_code(code);
    free(exact.streams[0].at);
}

/* ---- Memory and time ------------------------------------------------------------------------- */

/* Reads a stream of commands, and shows its contents. */
static void receive_plainly(const input *in) {
    told of = {NO_SUM, 0, 0, {0, 0, 0}};
    mysql_session_handle receiver = MYSQL_SESSION_NOTHING;
    const bytes *query = &in->streams[1];
    if (mysql_session_receiver_new(&receiver, query->at, query->len, in->words[0], in->limits[0],
                                   in->words[1]) != MYSQL_SESSION_OK)
        return;
    mysql_session_receiver_feed(&receiver, in->streams[0].at, in->streams[0].len);
    ask_sets(&receiver, &of);
    mysql_session_free(&receiver);
}

static void recode_plainly(const input *in) {
    mysql_session_handle recoder = MYSQL_SESSION_NOTHING, out = MYSQL_SESSION_NOTHING;
    mysql_session_stop stop;
    const bytes *query = &in->streams[1];
    if (mysql_session_recoder_new(&recoder, query->at, query->len, in->words[0], in->limits[0],
                                  in->words[1]) != MYSQL_SESSION_OK)
        return;
    must(mysql_session_bytes_new(&out), "bytes");
    mysql_session_recoder_feed(&recoder, in->streams[0].at, in->streams[0].len, &out, &stop);
    mysql_session_recoder_end(&recoder, &out, &stop);
    mysql_session_free(&out);
}

static void reply_plainly(const input *in) {
    told of = {NO_SUM, 0, 0, {0, 0, 0}};
    mysql_session_handle reply = MYSQL_SESSION_NOTHING;
    must(mysql_session_reply_new(&reply, in->words[0], in->words[1], (uint8_t)in->words[2],
                                 in->limits[0]),
         "reply");
    mysql_session_reply_feed(&reply, in->streams[0].at, in->streams[0].len);
    must(mysql_session_reply_end(&reply, &of.end), "end");
    ask_results(&reply, &of);
    mysql_session_free(&reply);
}

static void packets_plainly(const input *in) {
    mysql_session_handle packets = MYSQL_SESSION_NOTHING;
    must(mysql_session_packets_new(&packets, (uint8_t)in->words[0], in->limits[0]), "packets");
    for (size_t done = 0; done < in->streams[0].len;) {
        size_t used = 0;
        bool whole;
        if (mysql_session_packets_feed(&packets, in->streams[0].at + done,
                                       in->streams[0].len - done, &used, &whole) !=
            MYSQL_SESSION_OK)
            break;
        done += used;
    }
    mysql_session_free(&packets);
}

void read_plainly(const input *in) {
    switch (in->reader) {
    case PACKETS: packets_plainly(in); break;
    case RECEIVER:
        receive_plainly(in);
        recode_plainly(in);
        break;
    case REPLY: reply_plainly(in); break;
    case CONNECTION: read_connection_plainly(in); break;
    default: read_payload(in, 0); break;
    }
}

/* What an input costs: the most memory, and the nanoseconds of processor time. */
typedef struct cost {
    double memory, nanoseconds;
} cost;

static cost cost_of(const input *in) {
    size_t before = heap_held();
    heap_begin();
    double began = now();
    read_plainly(in);
    cost of = {(double)(heap_most() - before), now() - began};
    if (heap_held() != before)
        found("memory isn't freed", "%zu bytes", heap_held() - before);
    return of;
}

/* Times are measured again where they are too great: other programs share the caches. The heap of
 * the sanitizers takes its pages anew for each large block, so that memory takes time too. */
enum { TIMES = 6, LEAST_MEMORY = 1 << 14 };
static const double MORE_MEMORY = 1.5, MORE_TIME = 12, LEAST_TIME = 1e6, PAGES_TIME = 2;
/* A byte of eight times as many takes no more than so many times one of the others. Of a square it
 * would take 8. */
static const double GROWTH = 4, MEMORY_GROWTH = 2.5;

static double fed_of(const input *in) {
    return (double)(in->streams[0].len + in->streams[1].len + in->streams[2].len);
}

static void check_cost(const input *in) {
    const costs *limit = &allowed[in->reader];
    double fed = fed_of(in);
    cost of = cost_of(in);
    double least = LEAST_TIME + fed * limit->nanoseconds * MORE_TIME + of.memory * PAGES_TIME;
    for (int i = 1; i < TIMES && of.nanoseconds > least; i++) {
        cost again = cost_of(in);
        if (again.nanoseconds < of.nanoseconds) of = again;
    }
    if (of.nanoseconds > least)
        found("too much time", "%.0f ns of %.0f bytes", of.nanoseconds, fed);
    if (of.memory > LEAST_MEMORY + fed * limit->memory * MORE_MEMORY)
        found("too much memory", "%.0f bytes of %.0f", of.memory, fed);
    if (fed > 4000 && of.memory / fed > counted->memory[in->reader])
        counted->memory[in->reader] = of.memory / fed;
    if (fed > 4000 && of.nanoseconds / fed > counted->nanoseconds[in->reader])
        counted->nanoseconds[in->reader] = of.nanoseconds / fed;
}

/* What a byte costs of so many repetitions. */
static cost cost_of_times(const input *in, size_t times) {
    input some = expanded(in, times);
    cost of = cost_of(&some);
    double fed = fed_of(&some);
    free_input(&some);
    return (cost){(of.memory + LEAST_MEMORY) / fed, (of.nanoseconds + LEAST_TIME / 10) / fed};
}

/* What a byte costs of an eighth as many, or of one more: behind an odd number a quote is open. */
static cost cost_of_fewer(const input *in) {
    cost one = cost_of_times(in, in->times / 8), other = cost_of_times(in, in->times / 8 + 1);
    if (other.memory > one.memory) one.memory = other.memory;
    if (other.nanoseconds > one.nanoseconds) one.nanoseconds = other.nanoseconds;
    return one;
}

/* A byte of an input of repetitions costs about what one costs of an eighth as many. */
static void check_growth(const input *whole, const input *in) {
    double fed = fed_of(whole);
    if (fed < 24000 || in->times < 16) return;
    cost of = cost_of(whole), fewer = cost_of_fewer(in);
    for (int i = 1; i < TIMES && of.nanoseconds / fed > GROWTH * fewer.nanoseconds; i++) {
        cost again = cost_of(whole), other = cost_of_fewer(in);
        if (again.nanoseconds < of.nanoseconds) of.nanoseconds = again.nanoseconds;
        if (other.nanoseconds > fewer.nanoseconds) fewer.nanoseconds = other.nanoseconds;
    }
    double growth = of.nanoseconds / fed / fewer.nanoseconds;
    if (growth > counted->growth) counted->growth = growth;
    counted->growths++;
    if (growth > GROWTH)
        found("a byte of eight times as many takes more time",
              "%.0f ns of each of %.0f, %.0f before", of.nanoseconds / fed, fed,
              fewer.nanoseconds);
    if (of.memory / fed > MEMORY_GROWTH * fewer.memory)
        found("a byte of eight times as many takes more memory",
              "%.1f bytes of each of %.0f, %.1f before", of.memory / fed, fed, fewer.memory);
}

void check(const input *in) {
    static void (*const checks[READERS])(const input *) = {check_packets, check_receiver,
                                                           check_reply, check_connection,
                                                           check_payload};
    input whole = expanded(in, in->times);
    seed_random(in->cuts);
    size_t before = heap_held();
    if (fed_of(&whole) < 70000) checks[in->reader](&whole);
    if (heap_held() != before)
        found("memory isn't freed", "%zu bytes", heap_held() - before);
    check_cost(&whole);
    if (in->times > 1) check_growth(&whole, in);
    counted->inputs++;
    counted->fed += (uint64_t)fed_of(&whole);
    counted->readers[in->reader]++;
    free_input(&whole);
}
