// The same work by libmariadb: libmariadb INPUTS ROUNDS WORKLOAD..
// Its connection is opened to a server of one thread, and then reads from memory and writes nowhere.
#include "sets.h"
#include <mysql.h>
#include <ma_pvio.h>
#include <pthread.h>
#include <sys/socket.h>
#include <sys/un.h>
#include <unistd.h>

unsigned char *ma_stmt_execute_generate_simple_request(MYSQL_STMT *, size_t *, my_bool);

static Bytes source;
static size_t taken;

static ssize_t from_memory(MARIADB_PVIO *connection, uchar *to, size_t len) {
    (void)connection;
    size_t count = source.len - taken < len ? source.len - taken : len;
    memcpy(to, source.at + taken, count);
    taken += count;
    return count;
}

static ssize_t to_nowhere(MARIADB_PVIO *connection, const uchar *at, size_t len) { (void)connection, (void)at; return len; }

static void *serve(void *listening) {
    int to = accept(*(int *)listening, 0, 0);
    static const char greeting[] = "\x0a" "5.7.0\0" "\1\0\0\0" "abcdefgh\0" "\x02\xa2" "\x2d" "\2\0" "\x08\0" "\x15" "\0\0\0\0\0\0\0\0\0\0" "abcdefghijkl\0" "mysql_native_password";
    unsigned char head[4] = {sizeof greeting, 0, 0, 0}, got[4096];
    unsigned char okay[] = {7, 0, 0, 2, 0, 0, 0, 2, 0, 0, 0};
    if (write(to, head, 4) != 4 || write(to, greeting, sizeof greeting) != sizeof greeting) exit(2);
    if (read(to, got, sizeof got) <= 0 || write(to, okay, sizeof okay) != sizeof okay) exit(2);
    return 0;
}

static void stop(MYSQL *mysql) {
    fprintf(stderr, "libmariadb: %s\n", mysql_error(mysql));
    exit(2);
}

static MYSQL *connected(void) {
    static struct sockaddr_un name = {.sun_family = AF_UNIX};
    snprintf(name.sun_path, sizeof name.sun_path, "benchmark-libmariadb-%d", getpid());
    int listening = socket(AF_UNIX, SOCK_STREAM, 0);
    if (bind(listening, (void *)&name, sizeof name) || listen(listening, 1)) exit(2);
    pthread_t server;
    pthread_create(&server, 0, serve, &listening);
    MYSQL *mysql = mysql_init(0);
    mysql_options(mysql, MYSQL_SET_CHARSET_NAME, "utf8mb4");
    if (!mysql_real_connect(mysql, 0, "u", 0, 0, 0, name.sun_path, 0)) stop(mysql);
    pthread_join(server, 0);
    unlink(name.sun_path);
    static PVIO_METHODS methods;
    methods = *mysql->net.pvio->methods;
    methods.read = from_memory, methods.write = to_nowhere;
    mysql->net.pvio->methods = &methods;
    return mysql;
}

// The query as a form of printf.
static void put_form(char *to, Bytes query) {
    static const char *const forms[] = {"%lld", "'%s'", "'%s'", "%s"};
    for (size_t i = 0, k = 0; i < query.len; i++) {
        if (query.at[i] == '?') to += sprintf(to, "%s", forms[k++]);
        else *to++ = query.at[i];
    }
    *to = 0;
}

// Escapes the texts and prints the query, as C programs do. All queries into one buffer, or each into a buffer that is emptied before (`apart`).
static size_t send_text(MYSQL *mysql, Bytes query, const Value *all, Work work, _Bool apart) {
    static char form[16384], age[32], name[2048], note[2048], command[32768];
    Out out = {0};
    put_form(form, query);
    command[0] = 3;
    size_t written = 0;
    for (size_t i = 0; i < work.count * work.times; i++) {
        if (i % work.count == 0) written = out.len = 0;
        if (apart) written += out.len, out.len = 0;
        const Value *value = all + i % work.count * WIDTH;
        mysql_real_escape_string(mysql, name, (char *)value[1].at, value[1].len);
        mysql_real_escape_string(mysql, note, (char *)value[2].at, value[2].len);
        snprintf(age, sizeof age, value[3].kind == NOTHING ? "NULL" : "%lld", (long long)value[3].number);
        int len = snprintf(command + 1, sizeof command - 1, form, (long long)value[0].number, name, note, age);
        put_packet(&out, command, len + 1);
    }
    free(out.at);
    return written + out.len;
}

static MYSQL_STMT *prepared(MYSQL *mysql) {
    MYSQL_STMT *statement = mysql_stmt_init(mysql);
    unsigned count = WIDTH;
    mysql_stmt_attr_set(statement, STMT_ATTR_PREBIND_PARAMS, &count);
    MYSQL_BIND bind[WIDTH];
    memset(bind, 0, sizeof bind);
    for (int k = 0; k < WIDTH; k++) bind[k].buffer_type = MYSQL_TYPE_NULL;
    if (mysql_stmt_bind_param(statement, bind)) exit(2);
    statement->stmt_id = 1, statement->state = MYSQL_STMT_PREPARED;
    return statement;
}

static void bind_value(MYSQL_BIND *bind, Value *value) {
    bind->buffer_type = value->kind;
    bind->buffer = value->kind == NUMBER ? (void *)&value->number : value->at;
    bind->buffer_length = bind->length_value = value->len, bind->length = &bind->length_value;
    bind->is_null = &bind->is_null_value, bind->is_null_value = value->kind == NOTHING;
}

// The same of executions.
static size_t send_execute(MYSQL *mysql, Value *all, Work work, _Bool apart) {
    MYSQL_STMT *statement = prepared(mysql);
    Out out = {0};
    size_t written = 0;
    for (size_t i = 0; i < work.count * work.times; i++) {
        if (i % work.count == 0) written = out.len = 0;
        if (apart) written += out.len, out.len = 0;
        for (int k = 0; k < WIDTH; k++) bind_value(statement->params + k, all + i % work.count * WIDTH + k);
        statement->send_types_to_server = 1;
        size_t len = 0;
        unsigned char *request = ma_stmt_execute_generate_simple_request(statement, &len, 0);
        unsigned char head[5] = {len + 1, (len + 1) >> 8, 0, 0, 0x17};
        put(&out, head, 5), put(&out, request, len);
        free(request);
    }
    free(out.at);
    return written + out.len;
}

// Each row is looked at: the lengths of all cells, and 1 for the row.
static size_t reply(MYSQL *mysql, Bytes stream, _Bool stored) {
    source = stream, taken = 0;
    mysql->status = MYSQL_STATUS_READY;
    if (mysql_real_query(mysql, "SELECT", 6)) stop(mysql);
    MYSQL_RES *result = stored ? mysql_store_result(mysql) : mysql_use_result(mysql);
    size_t sum = 0;
    while (mysql_fetch_row(result)) {
        const unsigned long *lengths = mysql_fetch_lengths(result);
        sum += 1 + lengths[0] + lengths[1] + lengths[2] + lengths[3];
    }
    mysql_free_result(result);
    return sum;
}

static void run(MYSQL *mysql, const char *what, int rounds) {
    Work work;
    if (IS("reply-text-lent") || IS("reply-text-stored")) {
        Bytes stream = load("reply-text");
        _Bool stored = ENDS("-stored");
        MEASURE(stored ? "libmariadb-store" : "libmariadb-use", (double)ROWS, reply(mysql, stream, stored))
    } else if (find_work(what, &work)) {
        Bytes query = load(work.query);
        Value *all = load_values(work.sets, work.count * WIDTH);
        double units = (double)work.count * work.times;
        // Each packet goes to the connection by itself, but where all go into one list.
        _Bool apart = !ENDS("-listed");
        if (strcmp(work.road, "text") == 0) {
            MEASURE("libmariadb", units, send_text(mysql, query, all, work, apart))
        } else {
            MEASURE("libmariadb", units, send_execute(mysql, all, work, apart))
        }
    }
}

int main(int argc, char **argv) {
    INPUTS = argv[1];
    MYSQL *mysql = connected();
    for (int i = 3; i < argc; i++) run(mysql, argv[i], atoi(argv[2]));
    return 0;
}
