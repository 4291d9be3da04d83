/* The lists of `fuzz`: connections in which one payload or one reply has many items of a kind, laid
 * out as the protocol's public documentation has them. */
#include "fuzz.h"

#include <string.h>

enum { BASE = 0x0100a200, TRACKS = 0x800000, ATTRS = 0x100000, PLUGINS = 0x80000,
       SHORT = 0x2000000, QUERY_ATTRS = 0x8000000, REPORTS = 0x20000000 };

static input after_login(uint32_t capabilities) {
    input in = {CONNECTION, {BASE | capabilities, 4, 1}, {0}, {{0}}, 0, 1, 0, 0, 0, {{0}}, {{0}}};
    for (uint32_t i = 0; i < STREAMS; i++) in.streams[i].at = take_memory(0);
    return in;
}

static void put_ok(bytes *to, size_t number) { put_packet(to, number, "\0\0\0\2\0\0\0", 7); }

/* What is repeated begins where the stream ends. */
static size_t begin_unit(const input *in, uint32_t stream) { return in->streams[stream].len; }

/* It ends there too; answers how many bytes it has. */
static size_t end_unit(input *in, uint32_t stream, size_t from) {
    repeat(in, stream, from, in->streams[stream].len - from);
    return in->streams[stream].len - from;
}

/* Pairs of an attribute behind their length, which is three bytes. */
static void put_attributes(input *in, size_t packet) {
    bytes *to = &in->streams[CLIENT];
    put_number(to, 0xfd, 1);
    size_t at = to->len;
    put_number(to, 0, 3);
    size_t from = begin_unit(in, CLIENT);
    for (size_t i = 1 + below(20); i > 0; i--) {
        put_counted(to, below(5));
        put_counted(to, chance(3) ? below(9) : 0);
    }
    size_t len = end_unit(in, CLIENT, from);
    set_length(to, at, len);
    end_packet(to, packet);
    grow(in, CLIENT, at, 3, len);
    grow(in, CLIENT, packet, 3, len);
}

static input list_of_login(void) {
    input in = after_login(ATTRS | PLUGINS);
    const uint32_t word = BASE | ATTRS | PLUGINS;
    in.words[0] = in.words[1] = in.words[2] = 0;
    bytes *server = &in.streams[SERVER], *client = &in.streams[CLIENT];
    size_t at = begin_packet(server, 0);
    put(server, "\x0a" "5\0\1\0\0\0" "aaaaaaaa\0", 16);
    put_number(server, word & 0xffff, 2);
    put(server, "\x2d\2\0", 3);
    put_number(server, word >> 16, 2);
    put(server, "\x15\0\0\0\0\0\0\0\0\0\0bbbbbbbbbbbb\0mysql_native_password\0", 46);
    end_packet(server, at);
    put_ok(server, 2);
    at = begin_packet(client, 1);
    put_number(client, word, 4);
    put_number(client, 1 << 24, 4);
    put_number(client, 0x2d, 8);
    put_number(client, 0, 8);
    put_number(client, 0, 8);
    put(client, "u\0\0mysql_native_password\0", 25);
    put_attributes(&in, at);
    return in;
}

static input list_of_change(void) {
    input in = after_login(ATTRS | PLUGINS);
    size_t at = begin_packet(&in.streams[CLIENT], 0);
    put(&in.streams[CLIENT], "\x11u\0\0\0\x2d\0mysql_native_password\0", 29);
    put_attributes(&in, at);
    put_ok(&in.streams[SERVER], 1);
    return in;
}

uint8_t some_type(void) {
    static const uint8_t types[] = {1, 2, 3, 4, 5, 6, 7, 8, 9, 10, 11, 12, 13, 15, 16, 246, 252,
                                    253, 254, 255};
    return types[below(sizeof types)];
}

/* Attributes of a query, eight at a time; all are NULL. */
static input list_of_query_attributes(void) {
    input in = after_login(QUERY_ATTRS);
    bytes *to = &in.streams[CLIENT];
    size_t packet = begin_packet(to, 0);
    put(to, "\3\xfd\x08\0\0\1", 6);
    size_t bits = begin_unit(&in, CLIENT);
    put_number(to, 0xff, 1);
    size_t len = end_unit(&in, CLIENT, bits);
    put_number(to, 1, 1);
    size_t from = begin_unit(&in, CLIENT);
    for (int i = 0; i < 8; i++) {
        put_number(to, some_type(), 2);
        put_counted(to, below(3));
    }
    len += end_unit(&in, CLIENT, from);
    put_text(to, "S");
    end_packet(to, packet);
    grow(&in, CLIENT, packet + 6, 3, 8);
    grow(&in, CLIENT, packet, 3, len);
    put_ok(&in.streams[SERVER], 1);
    return in;
}

/* Changes of the session's state. */
static input list_of_changes(void) {
    input in = after_login(TRACKS);
    bytes *to = &in.streams[SERVER];
    put_packet(&in.streams[CLIENT], 0, "\3S", 2);
    size_t packet = begin_packet(to, 1);
    put(to, "\0\0\0\2\x40\0\0\0\xfd", 9);
    put_number(to, 0, 3);
    size_t from = begin_unit(&in, SERVER);
    for (size_t i = 1 + below(4); i > 0; i--) {
        size_t kind = below(7);
        put_number(to, kind, 1);
        if (kind == 0) put(to, "\x0e\x08sql_mode\4ANSI", 15);
        else put_counted(to, below(5));
    }
    size_t len = end_unit(&in, SERVER, from);
    end_packet(to, packet);
    set_length(to, packet + 13, len);
    grow(&in, SERVER, packet, 3, len);
    grow(&in, SERVER, packet + 13, 3, len);
    return in;
}

static void put_column(bytes *to, size_t number) {
    size_t at = begin_packet(to, number);
    put(to, "\3def", 4);
    for (int i = 0; i < 5; i++) put_counted(to, chance(3) ? below(9) : 0);
    put(to, "\x0c\x3f\0\0\0\0\0", 7);
    put_number(to, some_type(), 1);
    put(to, "\0\0\0\0\0", 5);
    end_packet(to, at);
}

/* Columns of a result or of a statement. */
static input list_of_columns(int is_statement) {
    input in = after_login(0);
    bytes *to = &in.streams[SERVER];
    size_t each = 1 + below(3);
    put_packet(&in.streams[CLIENT], 0, is_statement ? "\x16S" : "\3S", 2);
    size_t packet = begin_packet(to, 1), count = packet + 5;
    if (is_statement) put(to, "\0\1\0\0\0\0\0\0\0\0\0\0", 12), count = packet + 4 + 5;
    else put_number(to, 0xfd, 4);
    end_packet(to, packet);
    to->at[count] = (uint8_t)each;
    grow(&in, SERVER, count, is_statement ? 2 : 3, each);
    size_t from = begin_unit(&in, SERVER);
    for (size_t i = 0; i < each; i++) put_column(to, 2 + i);
    end_unit(&in, SERVER, from);
    in.numbered = SERVER + 1;
    return in;
}

/* Rows under some columns. */
static input list_of_rows(int is_binary) {
    input in = after_login(0);
    bytes *to = &in.streams[SERVER];
    size_t columns = 1 + below(5), number = 1;
    if (is_binary) {
        put_packet(&in.streams[CLIENT], 0, "\x16S", 2);
        put_packet(to, 1, "\0\1\0\0\0\0\0\0\0\0\0\0", 12);
        put_packet(&in.streams[CLIENT], 0, "\x17\1\0\0\0\0\1\0\0\0", 10);
    } else {
        put_packet(&in.streams[CLIENT], 0, "\3S", 2);
    }
    size_t packet = begin_packet(to, number++);
    put_number(to, columns, 1);
    end_packet(to, packet);
    for (size_t i = 0; i < columns; i++) put_column(to, number++);
    size_t from = begin_unit(&in, SERVER);
    for (size_t i = 1 + below(4); i > 0; i--) {
        packet = begin_packet(to, number++);
        if (is_binary) put_number(to, ((uint64_t)0xffff << 8), 1 + (columns + 9) / 8);
        else for (size_t at = 0; at < columns; at++) {
            if (chance(3)) put_number(to, 0xfb, 1);
            else put_counted(to, below(9));
        }
        end_packet(to, packet);
    }
    end_unit(&in, SERVER, from);
    put_packet(to, number, "\xfe\0\0\2\0\0\0", 7);
    in.numbered = SERVER + 1;
    return in;
}

/* A prepared statement of so many parameters, and that grows by as many with each repetition. */
static void put_prepared(input *in, size_t params, size_t each) {
    put_packet(&in->streams[CLIENT], 0, "\x16S", 2);
    size_t packet = begin_packet(&in->streams[SERVER], 1);
    put(&in->streams[SERVER], "\0\1\0\0\0\0\0\0\0\0\0\0\0", 13);
    end_packet(&in->streams[SERVER], packet);
    in->streams[SERVER].at[packet + 11] = (uint8_t)params;
    in->streams[SERVER].at[packet + 12] = (uint8_t)(params >> 8);
    if (each > 0) grow(in, SERVER, packet + 11, 2, each);
}

/* An execution of NULLs with their types, and one without, eight parameters at a time. */
static input list_of_parameters(void) {
    input in = after_login(SHORT);
    bytes *to = &in.streams[CLIENT];
    put_prepared(&in, 8, 8);
    size_t packet = begin_packet(to, 0), len;
    put(to, "\x17\1\0\0\0\0\1\0\0\0", 10);
    size_t from = begin_unit(&in, CLIENT);
    put_number(to, 0xff, 1);
    len = end_unit(&in, CLIENT, from);
    put_number(to, 1, 1);
    from = begin_unit(&in, CLIENT);
    for (int i = 0; i < 8; i++) put_number(to, some_type(), 2);
    len += end_unit(&in, CLIENT, from);
    end_packet(to, packet);
    grow(&in, CLIENT, packet, 3, len);
    put_ok(&in.streams[SERVER], 1);
    packet = begin_packet(to, 0);
    put(to, "\x17\1\0\0\0\0\1\0\0\0", 10);
    from = begin_unit(&in, CLIENT);
    put_number(to, 0xff, 1);
    len = end_unit(&in, CLIENT, from);
    put_number(to, 0, 1);
    end_packet(to, packet);
    grow(&in, CLIENT, packet, 3, len);
    put_ok(&in.streams[SERVER], 1);
    return in;
}

/* Rows of a bulk execution. */
static input list_of_bulk(void) {
    input in = after_login(SHORT);
    bytes *to = &in.streams[CLIENT];
    size_t params = 1 + below(3);
    put_prepared(&in, params, 0);
    size_t packet = begin_packet(to, 0);
    put(to, "\xfa\1\0\0\0\x80\0", 7);
    for (size_t i = 0; i < params; i++) put_number(to, 1, 2);
    size_t from = begin_unit(&in, CLIENT);
    for (size_t i = (1 + below(3)) * params; i > 0; i--) {
        size_t indicator = below(4);
        put_number(to, indicator, 1);
        if (indicator == 0) put_some(to, 1);
    }
    size_t len = end_unit(&in, CLIENT, from);
    end_packet(to, packet);
    grow(&in, CLIENT, packet, 3, len);
    put_ok(&in.streams[SERVER], 1);
    return in;
}

/* Long data of places that are far from one another, and resets. */
static input list_of_long_data(void) {
    input in = after_login(SHORT);
    bytes *to = &in.streams[CLIENT], *server = &in.streams[SERVER];
    size_t params = chance(2) ? 65535 : 1 + below(65535);
    put_prepared(&in, params, 0);
    if (chance(3)) to->len = server->len = 0;
    size_t from = begin_unit(&in, CLIENT), behind = begin_unit(&in, SERVER);
    if (to->len == 0) put_prepared(&in, params, 0);
    for (size_t i = 1 + below(9); i > 0; i--) {
        size_t packet = begin_packet(to, 0);
        put(to, "\x18\1\0\0\0", 5);
        put_number(to, chance(3) ? params - 1 : below(params), 2);
        put_some(to, below(3));
        end_packet(to, packet);
    }
    if (chance(2)) {
        put_packet(to, 0, "\x1a\1\0\0\0", 5);
        put_ok(server, 1);
    }
    end_unit(&in, CLIENT, from);
    end_unit(&in, SERVER, behind);
    return in;
}

/* Statements by random ids, of which some are closed. */
static input list_of_statements(void) {
    input in = after_login(0);
    bytes *to = &in.streams[CLIENT], *server = &in.streams[SERVER];
    size_t from = begin_unit(&in, CLIENT), behind = begin_unit(&in, SERVER);
    for (size_t i = 1 + below(60); i > 0; i--) {
        uint64_t id = next_random() >> below(32);
        size_t packet = begin_packet(to, 0);
        put_number(to, 0x16, 1);
        put_some(to, below(4));
        end_packet(to, packet);
        packet = begin_packet(server, 1);
        put_number(server, id << 8, 5);
        put(server, "\0\0\0\0\0\0\0", 7);
        end_packet(server, packet);
        if (!chance(6)) continue;
        packet = begin_packet(to, 0);
        put_number(to, id << 8 | 0x19, 5);
        end_packet(to, packet);
    }
    end_unit(&in, CLIENT, from);
    end_unit(&in, SERVER, behind);
    return in;
}

/* Packets of a reply that may be many: reports of progress, results, a client's file. */
static input list_of_packets(void) {
    size_t way = below(3);
    input in = after_login(way == 0 ? REPORTS : 0);
    uint32_t side = way == 2 ? CLIENT : SERVER;
    bytes *to = &in.streams[side];
    put_packet(&in.streams[CLIENT], 0, "\3S", 2);
    if (way == 2) put_packet(&in.streams[SERVER], 1, "\xfb" "file", 5);
    size_t from = begin_unit(&in, side), number = way == 2 ? 2 : 1;
    for (size_t i = 1 + below(4); i > 0; i--, number++) {
        size_t packet = begin_packet(to, number);
        if (way == 0) {
            put(to, "\xff\xff\xff\1\1\3\0\0\0", 9);
            put_counted(to, below(9));
        } else if (way == 1) {
            put(to, "\0\0\0\x0a\0\0\0", 7);
        } else {
            put_some(to, 1 + below(9));
        }
        end_packet(to, packet);
    }
    end_unit(&in, side, from);
    if (way == 2) put_packet(to, number, "", 0);
    else put_ok(to, number);
    in.numbered = side + 1;
    return in;
}

input some_list(void) {
    switch (below(12)) {
    case 0: return list_of_login();
    case 1: return list_of_change();
    case 2: return list_of_query_attributes();
    case 3: return list_of_changes();
    case 4: return list_of_columns(1);
    case 5: return list_of_columns(0);
    case 6: return list_of_rows((int)below(2));
    case 7: return list_of_parameters();
    case 8: return list_of_bulk();
    case 9: return list_of_long_data();
    case 10: return list_of_statements();
    default: return list_of_packets();
    }
}
