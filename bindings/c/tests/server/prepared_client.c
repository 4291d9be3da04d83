/*
 * A client by MariaDB's own library, whose binary commands and replies others have to understand:
 *
 *     prepared_client HOST PORT USER DATABASE insert TABLE   five rows, by each way of execution
 *     prepared_client HOST PORT USER DATABASE goods          the rows of a prepared query
 */
#include <mysql.h>

#include <stdio.h>
#include <stdlib.h>
#include <string.h>

static void stop(const char *what, const char *why)
{
    fprintf(stderr, "prepared_client: %s: %s\n", what, why);
    exit(1);
}

static void check(MYSQL_STMT *statement, int failed, const char *what)
{
    if (failed)
        stop(what, mysql_stmt_error(statement));
}

static MYSQL_STMT *prepared(MYSQL *connection, const char *query)
{
    MYSQL_STMT *statement = mysql_stmt_init(connection);
    if (statement == NULL)
        stop("no statement", mysql_error(connection));
    check(statement, mysql_stmt_prepare(statement, query, strlen(query)) != 0, "prepare");
    return statement;
}

static MYSQL_BIND number_at(long long *at, char *is_null)
{
    MYSQL_BIND made;
    memset(&made, 0, sizeof made);
    made.buffer_type = MYSQL_TYPE_LONGLONG;
    made.buffer = at;
    made.is_null = is_null;
    return made;
}

static MYSQL_BIND text_at(char *at, unsigned long *len, unsigned long room)
{
    MYSQL_BIND made;
    memset(&made, 0, sizeof made);
    made.buffer_type = MYSQL_TYPE_STRING;
    made.buffer = at;
    made.length = len;
    made.buffer_length = room;
    return made;
}

/* One row by its values, one with NULL, and one whose text goes as long data in two pieces. */
static void insert_one_by_one(MYSQL_STMT *statement)
{
    long long number = 1;
    char text[] = "it's", is_null = 0;
    unsigned long len = 4;
    MYSQL_BIND binds[2];
    binds[0] = number_at(&number, &is_null);
    binds[1] = text_at(text, &len, sizeof text);
    check(statement, mysql_stmt_bind_param(statement, binds) != 0, "bind");
    check(statement, mysql_stmt_execute(statement) != 0, "execute");
    is_null = 1;
    len = 0;
    check(statement, mysql_stmt_execute(statement) != 0, "execute with NULL");
    is_null = 0;
    number = 3;
    check(statement, mysql_stmt_send_long_data(statement, 1, "long ", 5) != 0, "long data");
    check(statement, mysql_stmt_send_long_data(statement, 1, "data", 4) != 0, "long data");
    check(statement, mysql_stmt_execute(statement) != 0, "execute with long data");
}

/* Two rows by one bulk execution. */
static void insert_by_bulk(MYSQL_STMT *statement)
{
    long long numbers[2] = { 4, 5 };
    char *texts[2], first[] = "bulk", second[] = "";
    unsigned long lengths[2] = { 4, 0 };
    unsigned int rows = 2;
    MYSQL_BIND binds[2];
    texts[0] = first;
    texts[1] = second;
    memset(binds, 0, sizeof binds);
    binds[0].buffer_type = MYSQL_TYPE_LONGLONG;
    binds[0].buffer = numbers;
    binds[1].buffer_type = MYSQL_TYPE_STRING;
    binds[1].buffer = texts;
    binds[1].length = lengths;
    check(statement, mysql_stmt_attr_set(statement, STMT_ATTR_ARRAY_SIZE, &rows) != 0, "rows");
    check(statement, mysql_stmt_bind_param(statement, binds) != 0, "bind rows");
    check(statement, mysql_stmt_execute(statement) != 0, "bulk execution");
}

static void insert(MYSQL *connection, const char *table)
{
    MYSQL_STMT *statement;
    char query[256];
    snprintf(query, sizeof query, "INSERT INTO %s VALUES (?, ?)", table);
    statement = prepared(connection, query);
    insert_one_by_one(statement);
    mysql_stmt_close(statement);
    statement = prepared(connection, query);
    insert_by_bulk(statement);
    mysql_stmt_close(statement);
}

/* Prints the rows of the one query that the test server lets prepare, for two ids. */
static void goods(MYSQL *connection)
{
    MYSQL_STMT *statement = prepared(connection, "SELECT * FROM goods WHERE id = ?");
    long long ids[] = { 2, 1 }, id = 0, found = 0;
    char texts[3][64], nulls[4] = { 0, 0, 0, 0 };
    unsigned long lengths[3] = { 0, 0, 0 };
    MYSQL_BIND param = number_at(&id, NULL), binds[4];
    size_t at, column;
    binds[0] = number_at(&found, &nulls[0]);
    for (column = 0; column < 3; column++) {
        binds[column + 1] = text_at(texts[column], &lengths[column], sizeof texts[column]);
        binds[column + 1].is_null = &nulls[column + 1];
    }
    check(statement, mysql_stmt_bind_param(statement, &param) != 0, "bind");
    for (at = 0; at < sizeof ids / sizeof ids[0]; at++) {
        id = ids[at];
        check(statement, mysql_stmt_execute(statement) != 0, "execute");
        check(statement, mysql_stmt_bind_result(statement, binds) != 0, "bind the result");
        while (mysql_stmt_fetch(statement) == 0) {
            printf("%lld", found);
            for (column = 0; column < 3; column++)
                printf("\t%.*s", nulls[column + 1] ? 4 : (int)lengths[column],
                       nulls[column + 1] ? "NULL" : texts[column]);
            printf("\n");
        }
        check(statement, mysql_stmt_free_result(statement) != 0, "free the result");
    }
    mysql_stmt_close(statement);
}

int main(int count, char **words)
{
    MYSQL *connection = mysql_init(NULL);
    if (count < 6 || connection == NULL)
        stop("usage", "prepared_client HOST PORT USER DATABASE insert TABLE | goods");
    if (mysql_real_connect(connection, words[1], words[3], "", words[4],
                           (unsigned)strtoul(words[2], NULL, 10), NULL, 0) == NULL)
        stop("connect", mysql_error(connection));
    if (strcmp(words[5], "insert") == 0 && count == 7)
        insert(connection, words[6]);
    else
        goods(connection);
    mysql_close(connection);
    return 0;
}
