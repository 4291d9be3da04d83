/*
 * Loads a CSV file into a table of a MariaDB server by bulk executions: thousands of rows with each
 * request, and one answer to wait for.
 *
 *     bulk_load HOST PORT USER DATABASE TABLE FILE.csv
 *
 * The file is laid out by RFC 4180, in UTF-8: fields with commas between them, of which one in
 * quotes may hold commas, line breaks and doubled quotes. Its first line names the columns. A field
 * with nothing in it is NULL, and one of two quotes the empty text. All rows are loaded, or where
 * one is refused none: they stand in one transaction, and the line of the first is told that is
 * refused.
 *
 * The rows are executions: no value is part of a text. The statement has names in backticks alone,
 * in which no backslash counts. So it has the same placeholders in each SQL mode, and the mode isn't
 * asked for.
 *
 * The user has no password. At any time the program holds the rows of one request.
 */
#define _POSIX_C_SOURCE 200809L

#include "../mysql_session.h"

#include <errno.h>
#include <inttypes.h>
#include <netdb.h>
#include <netinet/in.h>
#include <netinet/tcp.h>
#include <stdarg.h>
#include <stdio.h>
#include <stdlib.h>
#include <string.h>
#include <sys/socket.h>
#include <time.h>
#include <unistd.h>

/* A request is sent once it has so many rows, or so many bytes of fields. */
#define BATCH_ROWS 5000
#define BATCH_BYTES (4u << 20)

/* What this client can do, as each server can. Without CLIENT_LONG_PASSWORD a MariaDB server looks
 * at the second number. */
#define CLIENT_PROTOCOL_41 0x00000200u
#define CLIENT_TRANSACTIONS 0x00002000u
#define CLIENT_SECURE_CONNECTION 0x00008000u
#define CLIENT_PLUGIN_AUTH 0x00080000u
#define CAPABILITIES \
    (CLIENT_PROTOCOL_41 | CLIENT_TRANSACTIONS | CLIENT_SECURE_CONNECTION | CLIENT_PLUGIN_AUTH)
#define MARIADB_CLIENT_STMT_BULK_OPERATIONS 0x00000004u

/* No payload is longer. */
#define LIMIT (1u << 24)

static void stop(const char *why, ...)
{
    va_list more;
    va_start(more, why);
    fprintf(stderr, "bulk_load: ");
    vfprintf(stderr, why, more);
    fprintf(stderr, "\n");
    va_end(more);
    exit(1);
}

/* Stops where the library didn't do what it was asked for. */
static void check(uint32_t code, const char *what)
{
    const uint8_t *text = NULL;
    size_t len = 0;
    if (code == MYSQL_SESSION_OK)
        return;
    mysql_session_code_text(code, &text, &len);
    stop("%s: %.*s", what, (int)len, (const char *)text);
}

/* Memory with room for more; what was there stays. */
static void *grown(void *at, size_t *room, size_t least, size_t size)
{
    size_t wanted = *room == 0 ? 64 : *room;
    while (wanted < least)
        wanted *= 2;
    if (wanted > SIZE_MAX / size || (at = realloc(at, wanted * size)) == NULL)
        stop("no memory");
    *room = wanted;
    return at;
}

/* ---- The file -------------------------------------------------------------------------------- */

/* A file, and the row that was read last: its fields as parameters, whose bytes lie in `bytes`. */
typedef struct csv {
    FILE *file;
    const char *name;
    unsigned long line;  /* that is read */
    unsigned long began; /* with which the row began */
    uint8_t piece[65536];
    size_t at;
    size_t end;
    uint8_t *bytes;
    size_t len;
    size_t bytes_room;
    mysql_session_parameter *fields;
    size_t count;
    size_t fields_room;
} csv;

static void read_piece(csv *from)
{
    from->at = 0;
    from->end = fread(from->piece, 1, sizeof from->piece, from->file);
    if (ferror(from->file))
        stop("%s: %s", from->name, strerror(errno));
}

static int next_byte(csv *from)
{
    int byte;
    if (from->at == from->end)
        read_piece(from);
    if (from->at == from->end)
        return EOF;
    byte = from->piece[from->at++];
    from->line += byte == '\n';
    return byte;
}

static void keep(csv *to, int byte)
{
    if (to->len == to->bytes_room)
        to->bytes = (uint8_t *)grown(to->bytes, &to->bytes_room, to->len + 1, 1);
    to->bytes[to->len++] = (uint8_t)byte;
}

/* Reads a field in quotes behind its first quote, and returns the byte behind its last. */
static int read_quoted(csv *from)
{
    for (;;) {
        int byte = next_byte(from);
        if (byte == EOF)
            stop("%s, line %lu: the quotes of a field aren't closed", from->name, from->began);
        if (byte == '"') {
            byte = next_byte(from);
            if (byte != '"')
                return byte;
        }
        keep(from, byte);
    }
}

/* Reads a field without quotes from its first byte on, and returns the byte behind it. */
static int read_bare(csv *from, int byte)
{
    while (byte != ',' && byte != '\r' && byte != '\n' && byte != EOF) {
        if (byte == '"')
            stop("%s, line %lu: a quote stands inside a field without quotes", from->name,
                 from->line);
        keep(from, byte);
        byte = next_byte(from);
    }
    return byte;
}

/* Reads a field from its first byte on, and returns what ends it: a comma, a line break or EOF. */
static int read_field(csv *from, int byte)
{
    mysql_session_parameter *field;
    if (from->count == from->fields_room)
        from->fields = (mysql_session_parameter *)grown(from->fields, &from->fields_room,
                                                        from->count + 1, sizeof *from->fields);
    field = &from->fields[from->count++];
    memset(field, 0, sizeof *field);
    field->start = from->len;
    field->kind = byte == '"' ? MYSQL_SESSION_BYTES : MYSQL_SESSION_NULL;
    byte = byte == '"' ? read_quoted(from) : read_bare(from, byte);
    field->len = from->len - field->start;
    if (field->len != 0)
        field->kind = MYSQL_SESSION_BYTES;
    if (byte == '\r')
        byte = next_byte(from) == '\n' ? '\n' : '\r';
    if (byte != ',' && byte != '\n' && byte != EOF)
        stop("%s, line %lu: neither a comma nor a line break stands behind a field", from->name,
             from->line);
    return byte;
}

/* Reads the next row, and returns whether there was one. */
static int read_row(csv *from)
{
    int byte;
    from->began = from->line;
    from->len = from->count = 0;
    byte = next_byte(from);
    if (byte == EOF)
        return 0;
    byte = read_field(from, byte);
    while (byte == ',')
        byte = read_field(from, next_byte(from));
    return 1;
}

static void open_file(csv *from, const char *name)
{
    memset(from, 0, sizeof *from);
    from->name = name;
    from->line = 1;
    from->file = fopen(name, "rb");
    if (from->file == NULL)
        stop("%s: %s", name, strerror(errno));
    read_piece(from);
    /* The mark of UTF-8 that some programs write in front is no part of the first name. */
    if (from->end >= 3 && memcmp(from->piece, "\xef\xbb\xbf", 3) == 0)
        from->at = 3;
}

/* ---- The connection -------------------------------------------------------------------------- */

static int connect_to(const char *host, const char *port)
{
    struct addrinfo hints, *found, *each;
    int failure, why = 0, made = -1, on = 1;
    memset(&hints, 0, sizeof hints);
    hints.ai_socktype = SOCK_STREAM;
    failure = getaddrinfo(host, port, &hints, &found);
    if (failure != 0)
        stop("%s port %s: %s", host, port, gai_strerror(failure));
    for (each = found; each != NULL && made < 0; each = each->ai_next) {
        made = socket(each->ai_family, each->ai_socktype, each->ai_protocol);
        if (made >= 0 && connect(made, each->ai_addr, each->ai_addrlen) != 0) {
            why = errno;
            close(made);
            made = -1;
        }
    }
    freeaddrinfo(found);
    if (made < 0)
        stop("%s port %s: %s", host, port, strerror(why));
    /* The end of a request doesn't wait for an acknowledgement of what came before it. */
    if (setsockopt(made, IPPROTO_TCP, TCP_NODELAY, &on, sizeof on) != 0)
        stop("%s port %s: %s", host, port, strerror(errno));
    return made;
}

static void write_all(int server, const uint8_t *bytes, size_t len)
{
    while (len > 0) {
        ssize_t count = send(server, bytes, len, MSG_NOSIGNAL);
        if (count < 0 && errno == EINTR)
            continue;
        if (count <= 0)
            stop("the connection can't be written: %s", strerror(errno));
        bytes += count;
        len -= (size_t)count;
    }
}

static size_t read_some(int server, uint8_t *bytes, size_t room)
{
    for (;;) {
        ssize_t count = recv(server, bytes, room, 0);
        if (count > 0)
            return (size_t)count;
        if (count == 0)
            stop("the server closed the connection");
        if (errno != EINTR)
            stop("the connection can't be read: %s", strerror(errno));
    }
}

/* The connection to a server, and the packets that were put and aren't written yet. */
typedef struct session {
    int server;
    mysql_session_connection connection;
    mysql_session_handle out;
} session;

static void write_out(session *to)
{
    const uint8_t *data = NULL;
    size_t len = 0;
    check(mysql_session_bytes_data(&to->out, &data, &len), "a packet");
    write_all(to->server, data, len);
    check(mysql_session_bytes_clear(&to->out), "a packet");
}

static void put(session *to, const uint8_t *payload, size_t len)
{
    mysql_session_event event;
    memset(&event, 0, sizeof event);
    check(mysql_session_connection_put(&to->connection, MYSQL_SESSION_CLIENT, payload, len,
                                       &to->out, &event), "a packet");
    write_out(to);
}

/* Takes the server's next event, which may have to be waited for. */
static mysql_session_event next(session *from)
{
    static uint8_t piece[65536];
    mysql_session_event event;
    memset(&event, 0, sizeof event);
    check(mysql_session_connection_next(&from->connection, &event), "the server's answer");
    while (event.kind == MYSQL_SESSION_EVENT_NONE) {
        size_t len = read_some(from->server, piece, sizeof piece);
        check(mysql_session_connection_feed(&from->connection, MYSQL_SESSION_SERVER, piece, len),
              "the server's answer");
        check(mysql_session_connection_next(&from->connection, &event), "the server's answer");
    }
    return event;
}

static int awaits_reply(session *from)
{
    mysql_session_standing standing;
    memset(&standing, 0, sizeof standing);
    check(mysql_session_connection_standing(&from->connection, &standing), "the connection");
    return standing.turn == MYSQL_SESSION_SERVER;
}

/* What a reply says, as far as this program asks. */
typedef struct answer {
    uint32_t statement;
    uint64_t affected_rows;
    uint64_t number; /* in the first cell of its rows */
} answer;

static uint64_t number_in(session *from)
{
    mysql_session_value value;
    char digits[24];
    memset(&value, 0, sizeof value);
    check(mysql_session_connection_value(&from->connection, 0, 0, &value), "a cell");
    if (value.kind != MYSQL_SESSION_BYTES || value.len >= sizeof digits)
        stop("the server gives no number");
    memcpy(digits, value.bytes, value.len);
    digits[value.len] = '\0';
    return strtoull(digits, NULL, 10);
}

/* Reads the reply to a command to its end. */
static answer read_reply(session *from)
{
    answer found = { 0, 0, 0 };
    while (awaits_reply(from)) {
        mysql_session_event event = next(from);
        switch (event.kind) {
        case MYSQL_SESSION_EVENT_OK:
            found.affected_rows += event.affected_rows;
            break;
        case MYSQL_SESSION_EVENT_PREPARED:
            found.statement = event.statement;
            break;
        case MYSQL_SESSION_EVENT_ROW:
            found.number = number_in(from);
            break;
        case MYSQL_SESSION_EVENT_ERROR:
        case MYSQL_SESSION_EVENT_FAREWELL:
            stop("the server refuses: %.*s (%u)", (int)event.len, (const char *)event.text,
                 (unsigned)event.error_code);
            break;
        case MYSQL_SESSION_EVENT_FILE_REQUEST:
            stop("the server asks for a file");
            break;
        default:
            break;
        }
    }
    return found;
}

/* ---- Logging in ------------------------------------------------------------------------------ */

/* The answer to a greeting: the user without a password, for this database. */
static void put_login(session *to, uint32_t capabilities, const char *user, const char *database)
{
    static const uint8_t none[] = "";
    static const char plugin[] = "mysql_native_password";
    mysql_session_handle login = MYSQL_SESSION_NOTHING;
    const uint8_t *data = NULL;
    size_t len = 0;
    check(mysql_session_bytes_new(&login), "the login");
    check(mysql_session_login_put(&login, capabilities, MARIADB_CLIENT_STMT_BULK_OPERATIONS,
                                  LIMIT, (const uint8_t *)user, strlen(user), none, 0,
                                  (const uint8_t *)database, strlen(database),
                                  (const uint8_t *)plugin, sizeof plugin - 1), "the login");
    check(mysql_session_bytes_data(&login, &data, &len), "the login");
    put(to, data, len);
    mysql_session_free(&login);
}

static void log_in(session *to, const char *user, const char *database)
{
    mysql_session_event event;
    check(mysql_session_bytes_new(&to->out), "the connection");
    check(mysql_session_connection_new(&to->connection, LIMIT, LIMIT, 4 * LIMIT),
          "the connection");
    event = next(to);
    if (event.kind == MYSQL_SESSION_EVENT_GREETING) {
        if ((event.mariadb_capabilities & MARIADB_CLIENT_STMT_BULK_OPERATIONS) == 0)
            stop("the server %.*s takes no bulk executions", (int)event.len,
                 (const char *)event.text);
        put_login(to, CAPABILITIES & event.capabilities, user, database);
        event = next(to);
    }
    while (event.kind == MYSQL_SESSION_EVENT_AUTH_SWITCH) {
        /* Another plugin is asked for: no password is an empty answer by that one too. */
        put(to, NULL, 0);
        event = next(to);
    }
    if (event.kind != MYSQL_SESSION_EVENT_ACCEPTED)
        stop("the server refuses the login: %.*s", (int)event.len, (const char *)event.text);
}

/* ---- Loading --------------------------------------------------------------------------------- */

typedef struct load {
    session to;
    char *query;
    size_t columns;
    size_t limit;
    uint32_t statement;
    size_t prepare_len; /* of the packet that each send begins with */
    mysql_session_handle sets;
    mysql_session_handle out;
    unsigned long lines[BATCH_ROWS];
    size_t rows;
    size_t bytes;
    uint64_t loaded;
} load;

/* Runs a query without parameters. */
static answer run(session *to, const char *query)
{
    uint8_t payload[64];
    size_t len = strlen(query);
    if (len >= sizeof payload)
        stop("the query is too long");
    payload[0] = 0x03; /* COM_QUERY */
    memcpy(payload + 1, query, len);
    put(to, payload, len + 1);
    return read_reply(to);
}

/* Puts a name behind a text, in quotes, with the quotes in it doubled. */
static size_t put_name(char *to, const uint8_t *name, size_t len)
{
    size_t at, count = 0;
    to[count++] = '`';
    for (at = 0; at < len; at++) {
        if (name[at] == '`')
            to[count++] = '`';
        to[count++] = (char)name[at];
    }
    to[count++] = '`';
    return count;
}

/* INSERT INTO table (columns) VALUES (?, ..), by the row of names that was read last. */
static char *query_of(const char *table, const csv *names)
{
    size_t room = 64 + 2 * strlen(table) + 2 * names->len + 16 * names->count, at, len = 0;
    char *query = (char *)malloc(room);
    if (query == NULL)
        stop("no memory");
    len += (size_t)snprintf(query, room, "INSERT INTO ");
    len += put_name(query + len, (const uint8_t *)table, strlen(table));
    for (at = 0; at < names->count; at++) {
        len += (size_t)snprintf(query + len, room - len, at == 0 ? " (" : ", ");
        len += put_name(query + len, names->bytes + names->fields[at].start,
                        names->fields[at].len);
    }
    len += (size_t)snprintf(query + len, room - len, ") VALUES (");
    for (at = 0; at < names->count; at++)
        len += (size_t)snprintf(query + len, room - len, at == 0 ? "?" : ", ?");
    snprintf(query + len, room - len, ")");
    return query;
}

/* Appends what carries the rows to the bytes of `out`: the prepare, and requests behind it. */
static void put_requests(load *to)
{
    mysql_session_place place = { 0, 0 };
    uint32_t code = mysql_session_send(&to->sets, (const uint8_t *)to->query, strlen(to->query),
                                       MYSQL_SESSION_BULK, to->statement, to->limit, 0,
                                       &to->out, &place);
    char what[64] = "the statement";
    if (to->rows > 0)
        snprintf(what, sizeof what, "the row of line %lu", to->lines[place.set]);
    check(code, what);
}

/* Sends requests up to the first that has a reply, and returns how many of their bytes went. It
 * stops where the server counted another number of parameters than the statement has: it would load
 * other values. */
static size_t send_some(load *of, const uint8_t *packets, size_t len)
{
    size_t used = 0;
    check(mysql_session_connection_put_sets(&of->to.connection, of->statement, of->columns, packets,
                                            len, &of->to.out, &used), "a request");
    write_out(&of->to);
    return used;
}

/* Prepares the statement: what is sent of no rows is the prepare alone. */
static void prepare(load *of)
{
    const uint8_t *data = NULL;
    size_t used = 0;
    put_requests(of);
    check(mysql_session_bytes_data(&of->out, &data, &of->prepare_len), "the statement");
    check(mysql_session_connection_put_packets(&of->to.connection, MYSQL_SESSION_CLIENT, data,
                                               of->prepare_len, &of->to.out, &used),
          "the statement");
    write_out(&of->to);
    of->statement = read_reply(&of->to).statement;
    check(mysql_session_bytes_clear(&of->out), "the statement");
}

/* Sends the rows, request by request. The prepare was answered once, and is left out. */
static void send_rows(load *of)
{
    const uint8_t *data = NULL;
    size_t len = 0, at = of->prepare_len;
    uint64_t before = of->loaded;
    if (of->rows == 0)
        return;
    put_requests(of);
    check(mysql_session_bytes_data(&of->out, &data, &len), "a request");
    while (at < len) {
        at += send_some(of, data + at, len - at);
        of->loaded += read_reply(&of->to).affected_rows;
    }
    if (of->loaded - before != of->rows)
        stop("the server loaded %" PRIu64 " of %lu rows", of->loaded - before,
             (unsigned long)of->rows);
    check(mysql_session_bytes_clear(&of->out), "a request");
    check(mysql_session_sets_clear(&of->sets), "a request");
    of->rows = of->bytes = 0;
}

static void add_row(load *to, const csv *row)
{
    if (row->count != to->columns)
        stop("%s, line %lu: %lu fields in place of %lu", row->name, row->began,
             (unsigned long)row->count, (unsigned long)to->columns);
    check(mysql_session_sets_add(&to->sets, row->fields, row->count, row->bytes, row->len),
          "a row");
    to->lines[to->rows++] = row->began;
    to->bytes += row->len;
    if (to->rows == BATCH_ROWS || to->bytes >= BATCH_BYTES)
        send_rows(to);
}

static void load_file(load *to, csv *from)
{
    check(mysql_session_sets_new(&to->sets), "the rows");
    check(mysql_session_bytes_new(&to->out), "the rows");
    to->limit = (size_t)run(&to->to, "SELECT @@max_allowed_packet").number;
    to->limit = to->limit < LIMIT ? to->limit : LIMIT;
    run(&to->to, "START TRANSACTION");
    prepare(to);
    while (read_row(from))
        add_row(to, from);
    send_rows(to);
    run(&to->to, "COMMIT");
    mysql_session_free(&to->sets);
    mysql_session_free(&to->out);
}

static double seconds(void)
{
    struct timespec now;
    clock_gettime(CLOCK_MONOTONIC, &now);
    return (double)now.tv_sec + (double)now.tv_nsec / 1e9;
}

int main(int count, char **words)
{
    static load made;
    static csv file;
    double began = seconds(), took;
    if (count != 7)
        stop("usage: bulk_load HOST PORT USER DATABASE TABLE FILE.csv");
    if (mysql_session_abi() != MYSQL_SESSION_ABI)
        stop("the library's interface is another one than the header's");
    open_file(&file, words[6]);
    if (!read_row(&file))
        stop("%s: there is no line with the names of the columns", file.name);
    made.to.server = connect_to(words[1], words[2]);
    made.columns = file.count;
    made.query = query_of(words[5], &file);
    log_in(&made.to, words[3], words[4]);
    load_file(&made, &file);
    took = seconds() - began;
    printf("%" PRIu64 " rows in %.3f seconds, %.0f rows per second\n", made.loaded, took,
           (double)made.loaded / took);
    close(made.to.server);
    mysql_session_connection_free(&made.to.connection);
    mysql_session_free(&made.to.out);
    fclose(file.file);
    free(made.query);
    free(file.bytes);
    free(file.fields);
    return 0;
}
