// The work of the workloads, by the library's interface for C. Each answers a count that shows that it was done, or 0.
#include "mysql_session.h"
#include "sets.h"

enum { LIMIT = 67108864, STATEMENT = 1, HELD = 201326592, MARIADB_BULK = 4 };

#define LENT __attribute__((unused)) static

LENT void done(uint32_t code) {
    if (code != MYSQL_SESSION_OK) fprintf(stderr, "the library answers %u\n", code), exit(2);
}

// The pieces of bytes, each of a size but the last.
#define PIECES(bytes, size, at_, len_, ...)                                     \
    for (size_t from_ = 0; from_ < (bytes).len; from_ += (size)) {              \
        const uint8_t *at_ = (bytes).at + from_;                                \
        size_t len_ = (bytes).len - from_ < (size) ? (bytes).len - from_ : (size); \
        __VA_ARGS__                                                             \
    }

// Packets.

LENT size_t frame(Bytes one, size_t count, size_t full) {
    mysql_session_handle out = MYSQL_SESSION_NOTHING;
    const uint8_t *data = NULL;
    size_t written = 0, len = 0;
    done(mysql_session_bytes_new(&out));
    for (size_t i = 0; i < count; i++) {
        uint8_t number = 0;
        done(mysql_session_bytes_data(&out, &data, &len));
        if (len >= full) written += len, done(mysql_session_bytes_clear(&out));
        done(mysql_session_packet_put(&out, one.at, one.len, &number, LIMIT));
    }
    done(mysql_session_bytes_data(&out, &data, &len));
    mysql_session_free(&out);
    return written + len;
}

typedef struct { Bytes *at; size_t len, room; } Payloads;

LENT void keep_payload(mysql_session_handle *packets, Payloads *all) {
    const uint8_t *data = NULL;
    size_t len = 0;
    done(mysql_session_packets_payload(packets, &data, &len));
    if (all->len == all->room) all->at = realloc(all->at, (all->room = all->room * 2 + 16) * sizeof *all->at);
    Bytes *one = all->at + all->len++;
    *one = (Bytes){malloc(len), len};
    if (len) memcpy(one->at, data, len);
}

// The payloads of a stream, each copied out of the reader and kept.
LENT size_t split(Bytes stream) {
    mysql_session_handle packets = MYSQL_SESSION_NOTHING;
    Payloads all = {0};
    done(mysql_session_packets_new(&packets, 0, LIMIT));
    PIECES(stream, PIECE, at, left,
        while (left) {
            size_t used = 0;
            bool whole = false;
            done(mysql_session_packets_feed(&packets, at, left, &used, &whole));
            at += used, left -= used;
            if (whole) keep_payload(&packets, &all);
        })
    mysql_session_free(&packets);
    for (size_t i = 0; i < all.len; i++) free(all.at[i].at);
    free(all.at);
    return all.len;
}

// Parameter sets sent.

LENT void push(mysql_session_handle *sets, const Value *value) {
    if (value->kind == NUMBER) done(mysql_session_sets_push_int(sets, value->number));
    else if (value->kind == TEXT) done(mysql_session_sets_push_bytes(sets, value->at, value->len));
    else done(mysql_session_sets_push_null(sets));
}

// The sets, so many behind one handle.
LENT mysql_session_handle *sets_of(const Value *values, size_t count, size_t width, size_t at_once) {
    mysql_session_handle *all = calloc(count / at_once, sizeof *all);
    for (size_t i = 0; i < count; i++) {
        mysql_session_handle *sets = all + i / at_once;
        if (i % at_once == 0) done(mysql_session_sets_new(sets));
        for (size_t k = 0; k < width; k++) push(sets, values + i * width + k);
        done(mysql_session_sets_end_set(sets));
    }
    return all;
}

// Makes sets behind one handle so many times. Answers how many calls that took.
LENT size_t make_sets(const Value *values, size_t count, size_t width, size_t times) {
    for (size_t n = 0; n < times; n++) {
        mysql_session_handle *all = sets_of(values, count, width, count);
        mysql_session_free(all);
        free(all);
    }
    return times * count * (width + 1);
}

// Sends what stands behind each handle by a call, into bytes that are emptied before. Answers the bytes of all.
LENT size_t send_once(mysql_session_handle *sets, size_t handles, Bytes query, uint32_t road, mysql_session_handle *out) {
    size_t written = 0;
    for (size_t i = 0; i < handles; i++) {
        mysql_session_place place = {0, 0};
        const uint8_t *data = NULL;
        size_t len = 0;
        done(mysql_session_bytes_clear(out));
        done(mysql_session_send(sets + i, query.at, query.len, road, STATEMENT, LIMIT, 0, out, &place));
        done(mysql_session_bytes_data(out, &data, &len));
        written += len;
    }
    return written;
}

LENT size_t send_all(mysql_session_handle *sets, size_t handles, Bytes query, uint32_t road, size_t times) {
    mysql_session_handle out = MYSQL_SESSION_NOTHING;
    size_t written = 0;
    done(mysql_session_bytes_new(&out));
    for (size_t n = 0; n < times; n++) written = send_once(sets, handles, query, road, &out);
    mysql_session_free(&out);
    return written;
}

// Streams of commands read back, and recoded.

// What is done with the sets or the rows that are there behind a piece: they are kept, taken, or taken and their values looked at.
typedef enum { KEPT, TAKEN, LOOKED_AT } How;

// Looks at the contents of sets, each by a call.
LENT void look_at_sets(mysql_session_handle *receiver, size_t sets) {
    for (size_t set = 0; set < sets; set++)
        for (size_t place = 0; place < WIDTH; place++) {
            mysql_session_content content;
            done(mysql_session_receiver_content(receiver, set, place, &content));
        }
}

// Feeds bytes in pieces. Answers how many sets were taken, which is none where all are kept.
LENT size_t feed_receiver(mysql_session_handle *receiver, Bytes bytes, size_t piece, How how) {
    size_t count = 0;
    PIECES(bytes, piece, at, len,
        size_t sets = 0;
        mysql_session_receiver_feed(receiver, at, len);
        if (how != KEPT) {
            done(mysql_session_receiver_sets(receiver, &sets));
            if (how == LOOKED_AT) look_at_sets(receiver, sets);
            if (sets) done(mysql_session_receiver_clear(receiver));
            count += sets;
        })
    return count;
}

// Reads a stream that is a front and then a block so many times; the sets that are there are kept, taken or looked at behind each piece.
LENT size_t receive_long(Bytes query, Bytes front, Bytes block, size_t times, size_t piece, How how) {
    mysql_session_handle receiver = MYSQL_SESSION_NOTHING;
    mysql_session_end end = {0};
    size_t left = 0;
    done(mysql_session_receiver_new(&receiver, query.at, query.len, STATEMENT, LIMIT, 0));
    size_t count = feed_receiver(&receiver, front, piece, how);
    for (size_t i = 0; i < times; i++) count += feed_receiver(&receiver, block, piece, how);
    done(mysql_session_receiver_end(&receiver, &end));
    done(mysql_session_receiver_sets(&receiver, &left));
    mysql_session_free(&receiver);
    return end.kind == MYSQL_SESSION_END_WHOLE ? count + left : 0;
}

LENT size_t receive(Bytes query, Bytes stream, size_t piece, How how) {
    return receive_long(query, (Bytes){stream.at, 0}, stream, 1, piece, how);
}

LENT size_t recode(Bytes query, Bytes stream) {
    mysql_session_handle recoder = MYSQL_SESSION_NOTHING, out = MYSQL_SESSION_NOTHING;
    mysql_session_stop stop;
    const uint8_t *data = NULL;
    size_t len = 0;
    done(mysql_session_bytes_new(&out));
    done(mysql_session_recoder_new(&recoder, query.at, query.len, STATEMENT, LIMIT, 0));
    done(mysql_session_recoder_feed(&recoder, stream.at, stream.len, &out, &stop));
    done(mysql_session_recoder_end(&recoder, &out, &stop));
    done(mysql_session_bytes_data(&out, &data, &len));
    mysql_session_free(&out);
    return len;
}

// Replies read.

LENT size_t rows_of(mysql_session_handle *reply) {
    size_t results = 0, rows = 0;
    done(mysql_session_reply_results(reply, &results));
    for (size_t number = 0; number < results; number++) {
        mysql_session_result result;
        done(mysql_session_reply_result(reply, number, &result));
        rows += result.rows;
    }
    return rows;
}

// Looks at the cells of a result's rows, each by a call.
LENT void look_at_rows(mysql_session_handle *reply, size_t number, size_t rows) {
    for (size_t row = 0; row < rows; row++)
        for (size_t column = 0; column < WIDTH; column++) {
            mysql_session_value value;
            done(mysql_session_reply_cell(reply, number, row, column, &value));
        }
}

LENT void look_at_results(mysql_session_handle *reply) {
    size_t results = 0;
    done(mysql_session_reply_results(reply, &results));
    for (size_t number = 0; number < results; number++) {
        mysql_session_result result;
        done(mysql_session_reply_result(reply, number, &result));
        look_at_rows(reply, number, result.rows);
    }
}

// Feeds bytes in pieces. Answers how many rows were taken.
LENT size_t feed_reply(mysql_session_handle *reply, Bytes bytes, size_t piece, How how) {
    size_t count = 0;
    PIECES(bytes, piece, at, len,
        mysql_session_reply_feed(reply, at, len);
        if (how != KEPT) {
            done(mysql_session_reply_take(reply));
            if (how == LOOKED_AT) look_at_results(reply);
            count += rows_of(reply);
        })
    return count;
}

LENT uint32_t kind_of(_Bool binary) { return binary ? MYSQL_SESSION_REPLY_TO_EXECUTE : MYSQL_SESSION_REPLY_TO_QUERY; }

// Reads a reply that is a front and then a block so many times. Answers how many rows there are, also where it goes on.
LENT size_t read_reply_long(Bytes front, Bytes block, size_t times, size_t piece, _Bool binary, How how) {
    mysql_session_handle reply = MYSQL_SESSION_NOTHING;
    mysql_session_end end = {0};
    done(mysql_session_reply_new(&reply, kind_of(binary), MYSQL_SESSION_CLIENT_PROTOCOL_41, 1, LIMIT));
    size_t count = feed_reply(&reply, front, piece, how);
    for (size_t i = 0; i < times; i++) count += feed_reply(&reply, block, piece, how);
    done(mysql_session_reply_end(&reply, &end));
    count += rows_of(&reply);
    mysql_session_free(&reply);
    return end.kind == MYSQL_SESSION_END_FAULT ? 0 : count;
}

LENT size_t read_reply(Bytes stream, size_t piece, _Bool binary, How how) {
    return read_reply_long((Bytes){stream.at, 0}, stream, 1, piece, binary, how);
}

// Whole connections read.

// Takes the events that are there. Answers how many they are, or what they come to.
typedef size_t Taking(mysql_session_connection *connection);

LENT size_t take_events(mysql_session_connection *connection) {
    size_t count = 0;
    for (mysql_session_event event;; count++) {
        done(mysql_session_connection_next(connection, &event));
        if (event.kind == MYSQL_SESSION_EVENT_NONE) return count;
    }
}

// The same, but each row is lent, and its cells are looked at.
LENT size_t lend_events(mysql_session_connection *connection) {
    mysql_session_value cells[WIDTH];
    size_t sum = 0;
    for (mysql_session_event event;; sum++) {
        done(mysql_session_connection_next_lent(connection, cells, WIDTH, &event));
        if (event.kind == MYSQL_SESSION_EVENT_NONE) return sum;
        if (event.kind == MYSQL_SESSION_EVENT_ROW)
            for (size_t i = 0; i < WIDTH; i++) sum += cells[i].len;
    }
}

LENT Bytes front_of_piece(Bytes *left, size_t size) {
    Bytes piece = {left->at, left->len < size ? left->len : size};
    left->at += piece.len, left->len -= piece.len;
    return piece;
}

// Reads both streams on, each in pieces, until the side whose payload is due has no more. Answers how many events there are.
LENT size_t read_on(mysql_session_connection *connection, Bytes client, Bytes server, size_t size, Taking *take) {
    size_t count = take(connection);
    for (mysql_session_standing standing;;) {
        done(mysql_session_connection_standing(connection, &standing));
        Bytes *left = standing.turn == MYSQL_SESSION_CLIENT ? &client : &server;
        if (standing.turn == MYSQL_SESSION_NOBODY || left->len == 0) return count;
        Bytes piece = front_of_piece(left, size);
        done(mysql_session_connection_feed(connection, standing.turn, piece.at, piece.len));
        count += take(connection);
    }
}

// Reads a connection whose server's stream is a front and then a block so many times.
LENT size_t read_long_connection(Bytes client, Bytes front, Bytes block, size_t times, size_t size, Taking *take) {
    mysql_session_connection connection = MYSQL_SESSION_NOTHING;
    Bytes none = {client.at, 0};
    done(mysql_session_connection_new(&connection, LIMIT, LIMIT, HELD));
    size_t count = read_on(&connection, client, front, size, take);
    for (size_t i = 0; i < times; i++) count += read_on(&connection, none, block, size, take);
    mysql_session_connection_free(&connection);
    return count;
}

LENT size_t read_whole_connection(Bytes client, Bytes server, size_t size) {
    return read_long_connection(client, server, (Bytes){server.at, 0}, 0, size, take_events);
}

LENT size_t lend_whole_connection(Bytes client, Bytes server, size_t size) {
    return read_long_connection(client, server, (Bytes){server.at, 0}, 0, size, lend_events);
}

// The same bytes apart: the commands by a receiver, and each reply, of so many bytes, by a reader of its own.
LENT size_t read_apart(Bytes query, Bytes commands, Bytes replies, size_t reply, size_t size, _Bool binary) {
    size_t count = receive(query, commands, size, TAKEN);
    PIECES(replies, reply, at, len, count += read_reply((Bytes){(unsigned char *)at, len}, size, binary, TAKEN);)
    return count;
}

// Payloads and packets put on a connection behind its login.

LENT void log_in(mysql_session_connection *connection) {
    done(mysql_session_connection_after_login(connection, MYSQL_SESSION_CLIENT_PROTOCOL_41, MARIADB_BULK, LIMIT, LIMIT, HELD));
}

LENT void read_answer(mysql_session_connection *connection, Bytes reply) {
    done(mysql_session_connection_feed(connection, MYSQL_SESSION_SERVER, reply.at, reply.len));
    take_events(connection);
}

// Puts the payload of each command, of one chunk each, and reads its reply: that of the first, or the other one. Answers the bytes.
LENT size_t put_payloads(Bytes commands, Bytes first, Bytes reply, mysql_session_handle *out) {
    mysql_session_connection connection = MYSQL_SESSION_NOTHING;
    size_t written = 0;
    log_in(&connection);
    for (size_t at = 0; at < commands.len;) {
        const uint8_t *head = commands.at + at, *data = NULL;
        size_t len = head[0] | head[1] << 8 | head[2] << 16, put = 0;
        mysql_session_event event;
        done(mysql_session_bytes_clear(out));
        done(mysql_session_connection_put(&connection, MYSQL_SESSION_CLIENT, head + 4, len, out, &event));
        done(mysql_session_bytes_data(out, &data, &put));
        read_answer(&connection, at ? reply : first);
        at += 4 + len, written += put;
    }
    mysql_session_connection_free(&connection);
    return written;
}

LENT size_t put_commands_of(Bytes commands, Bytes first, Bytes reply, size_t times) {
    mysql_session_handle out = MYSQL_SESSION_NOTHING;
    size_t written = 0;
    done(mysql_session_bytes_new(&out));
    for (size_t n = 0; n < times; n++) written = put_payloads(commands, first, reply, &out);
    mysql_session_free(&out);
    return written;
}

// Puts packets as far as they are due, and reads the reply to each command. Answers the bytes that were put.
LENT size_t put_all_packets(mysql_session_connection *connection, Bytes packets, Bytes first, Bytes reply, mysql_session_handle *out) {
    size_t written = 0;
    for (size_t at = 0; at < packets.len;) {
        const uint8_t *data = NULL;
        size_t used = 0, put = 0;
        done(mysql_session_bytes_clear(out));
        done(mysql_session_connection_put_packets(connection, MYSQL_SESSION_CLIENT, packets.at + at, packets.len - at, out, &used));
        done(mysql_session_bytes_data(out, &data, &put));
        read_answer(connection, at ? reply : first);
        at += used, written += put;
        if (used == 0) exit(2);
    }
    return written;
}

// Sends what stands behind each handle, and puts what was sent. Answers the bytes that were put.
LENT size_t put_sent(mysql_session_handle *sets, size_t handles, Bytes query, uint32_t road, Bytes first, Bytes reply, size_t times) {
    mysql_session_handle packets = MYSQL_SESSION_NOTHING, out = MYSQL_SESSION_NOTHING;
    size_t written = 0;
    done(mysql_session_bytes_new(&packets)), done(mysql_session_bytes_new(&out));
    for (size_t n = 0; n < times; n++) {
        mysql_session_connection connection = MYSQL_SESSION_NOTHING;
        log_in(&connection);
        written = 0;
        for (size_t i = 0; i < handles; i++) {
            const uint8_t *data = NULL;
            size_t len = 0;
            send_once(sets + i, 1, query, road, &packets);
            done(mysql_session_bytes_data(&packets, &data, &len));
            written += put_all_packets(&connection, (Bytes){(unsigned char *)data, len}, first, reply, &out);
        }
        mysql_session_connection_free(&connection);
    }
    mysql_session_free(&packets), mysql_session_free(&out);
    return written;
}
