/* The first packets of a connection are read and written; no front of one is read past its end. */
#include "check.h"

#include <stdlib.h>

#define CONNECT_WITH_DB 0x00000008u
#define PROTOCOL_41 0x00000200u
#define SECURE_CONNECTION 0x00008000u
#define PLUGIN_AUTH 0x00080000u
#define CONNECT_ATTRS 0x00100000u
#define LENENC_RESPONSE 0x00200000u

/* A MariaDB's greeting: without the bit of LONG_PASSWORD it has capabilities of its own. */
#define GREETING \
    "0a |5.5.5-10.11.6-MariaDB| 00 07 00 00 00 |abcdefgh| 00 fe f7 2d 02 00 ff 81 15 " \
    "00 00 00 00 00 00 1d 00 00 00 |ijklmnopqrst| 00 |mysql_native_password| 00"

/* A client's answer: utf8mb4, a response of four bytes, a database, a plugin and an attribute. */
#define ANSWER \
    "08 82 18 00 00 00 00 01 2d 00 00 00 00 00 00 00 00 00 00 00 00 00 00 00 00 00 00 00 00 00 " \
    "00 00 |root| 00 04 de ad be ef |test| 00 |mysql_native_password| 00 " \
    "0c 04 |_pid| 06 |123456|"

static mysql_session_greeting no_greeting(void)
{
    mysql_session_greeting none;
    memset(&none, 0, sizeof none);
    return none;
}

static mysql_session_login no_login(void)
{
    mysql_session_login none;
    memset(&none, 0, sizeof none);
    return none;
}

static void check_inside(const uint8_t *part, size_t len, const stream *whole)
{
    CHECK(len == 0 || (part >= whole->bytes && part + len <= whole->bytes + whole->len));
}

static void greeting_read(void)
{
    mysql_session_greeting found = no_greeting();
    stream payload = stream_of(GREETING);
    CHECK_DONE(mysql_session_greeting_read(payload.bytes, payload.len, &found));
    CHECK_NUMBER(found.protocol, 10);
    CHECK_NUMBER(found.connection, 7);
    CHECK_NUMBER(found.collation, 45);
    CHECK_NUMBER(found.status, 2);
    CHECK_NUMBER(found.capabilities, 0x81fff7feu);
    CHECK_NUMBER(found.mariadb_capabilities, 0x1d);
    CHECK_TEXT(found.version, found.version_len, "5.5.5-10.11.6-MariaDB");
    CHECK_TEXT(found.scramble_1, found.scramble_1_len, "abcdefgh");
    CHECK_TEXT(found.scramble_2, found.scramble_2_len, "ijklmnopqrst");
    CHECK_TEXT(found.plugin, found.plugin_len, "mysql_native_password");
    check_inside(found.version, found.version_len, &payload);
    check_inside(found.scramble_1, found.scramble_1_len, &payload);
    check_inside(found.scramble_2, found.scramble_2_len, &payload);
    check_inside(found.plugin, found.plugin_len, &payload);
}

static uint32_t put_greeting(mysql_session_handle *out, const char *first, const char *second)
{
    return mysql_session_greeting_put(out, 7, 0x81fff7feu, 0x1d, 45, 2,
                                      bytes_of("5.5.5-10.11.6-MariaDB"), 21, bytes_of(first),
                                      strlen(first), bytes_of(second), strlen(second),
                                      bytes_of("mysql_native_password"), 21);
}

/* The capabilities of the scrambles and of the plugin are those of what is given. */
static void greeting_marks(void)
{
    mysql_session_handle out = MYSQL_SESSION_NOTHING;
    mysql_session_greeting found = no_greeting();
    const uint8_t *data = NULL;
    size_t len = 0;
    CHECK_DONE(mysql_session_bytes_new(&out));
    CHECK_DONE(mysql_session_greeting_put(&out, 1, PROTOCOL_41 | PLUGIN_AUTH, 0, 33, 0,
                                          bytes_of("8.0"), 3, bytes_of("abcdefgh"), 8,
                                          bytes_of("ijklmnopqrst"), 12, bytes_of(""), 0));
    CHECK_DONE(mysql_session_bytes_data(&out, &data, &len));
    CHECK_DONE(mysql_session_greeting_read(data, len, &found));
    CHECK_NUMBER(found.capabilities, PROTOCOL_41 | SECURE_CONNECTION);
    CHECK_NUMBER(found.collation, 33);
    CHECK_NUMBER(found.mariadb_capabilities, 0);
    CHECK_TEXT(found.scramble_2, found.scramble_2_len, "ijklmnopqrst");
    CHECK_NUMBER(found.plugin_len, 0);
    CHECK_DONE(mysql_session_bytes_clear(&out));
    CHECK_CODE(mysql_session_greeting_put(&out, 1, PROTOCOL_41, 0, 33, 0, bytes_of("8\0.0"), 4,
                                          bytes_of("abcdefgh"), 8, bytes_of("ijklmnopqrst"), 12,
                                          bytes_of(""), 0), MYSQL_SESSION_BAD_PACKET);
    CHECK_STREAM(&out, "");
    mysql_session_free(&out);
}

/* What is written reads as what was given; scrambles of other lengths are refused. */
static void greeting_put(void)
{
    mysql_session_handle out = MYSQL_SESSION_NOTHING;
    mysql_session_greeting found = no_greeting();
    const uint8_t *data = NULL;
    size_t len = 0;
    CHECK_DONE(mysql_session_bytes_new(&out));
    CHECK_CODE(put_greeting(&out, "abcdefg", "ijklmnopqrst"), MYSQL_SESSION_BAD_PACKET);
    CHECK_CODE(put_greeting(&out, "abcdefghi", "ijklmnopqrst"), MYSQL_SESSION_BAD_PACKET);
    CHECK_CODE(put_greeting(&out, "abcdefgh", "ijklmnopqrs"), MYSQL_SESSION_BAD_PACKET);
    CHECK_CODE(put_greeting(&out, "abcdefgh", "ijklmnopqrstu"), MYSQL_SESSION_BAD_PACKET);
    CHECK_STREAM(&out, "");
    CHECK_DONE(put_greeting(&out, "abcdefgh", "ijklmnopqrst"));
    CHECK_STREAM(&out, "0a |5.5.5-10.11.6-MariaDB| 00 07 00 00 00 |abcdefgh| 00 fe f7 2d 02 00 "
                 "ff 81 15 00 00 00 00 00 00 1d 00 00 00 |ijklmnopqrst| 00 "
                 "|mysql_native_password| 00");
    CHECK_DONE(mysql_session_bytes_data(&out, &data, &len));
    CHECK_DONE(mysql_session_greeting_read(data, len, &found));
    CHECK_NUMBER(found.capabilities, 0x81fff7feu);
    CHECK_NUMBER(found.mariadb_capabilities, 0x1d);
    CHECK_TEXT(found.scramble_1, found.scramble_1_len, "abcdefgh");
    CHECK_TEXT(found.scramble_2, found.scramble_2_len, "ijklmnopqrst");
    CHECK_TEXT(found.plugin, found.plugin_len, "mysql_native_password");
    mysql_session_free(&out);
}

static void login_read(void)
{
    mysql_session_login found = no_login();
    stream payload = stream_of(ANSWER);
    CHECK_DONE(mysql_session_login_read(payload.bytes, payload.len, &found));
    CHECK_NUMBER(found.capabilities, CONNECT_WITH_DB | PROTOCOL_41 | SECURE_CONNECTION
                 | PLUGIN_AUTH | CONNECT_ATTRS);
    CHECK_NUMBER(found.collation, 45);
    CHECK_TEXT(found.user, found.user_len, "root");
    CHECK_BYTES(found.response, found.response_len, bytes_of("\336\255\276\357"), 4);
    CHECK_TEXT(found.database, found.database_len, "test");
    CHECK_TEXT(found.plugin, found.plugin_len, "mysql_native_password");
    check_inside(found.user, found.user_len, &payload);
    check_inside(found.response, found.response_len, &payload);
    check_inside(found.database, found.database_len, &payload);
}

static uint32_t put_login(mysql_session_handle *out, uint32_t capabilities, const char *database,
                          const char *plugin)
{
    return mysql_session_login_put(out, capabilities, 4, 1u << 24, bytes_of("root"), 4,
                                   bytes_of("\336\255\276\357"), 4, bytes_of(database),
                                   strlen(database), bytes_of(plugin), strlen(plugin));
}

static void check_login(mysql_session_handle *out, uint32_t capabilities, const char *database,
                        const char *plugin)
{
    mysql_session_login found = no_login();
    const uint8_t *data = NULL;
    size_t len = 0;
    CHECK_DONE(mysql_session_bytes_data(out, &data, &len));
    CHECK_DONE(mysql_session_login_read(data, len, &found));
    CHECK_NUMBER(found.capabilities, capabilities);
    CHECK_NUMBER(found.mariadb_capabilities, 4);
    CHECK_NUMBER(found.collation, 45);
    CHECK_TEXT(found.user, found.user_len, "root");
    CHECK_BYTES(found.response, found.response_len, bytes_of("\336\255\276\357"), 4);
    CHECK_TEXT(found.database, found.database_len, database);
    CHECK_TEXT(found.plugin, found.plugin_len, plugin);
    CHECK_DONE(mysql_session_bytes_clear(out));
}

/* The bits of the database and of the plugin are those of what is given. */
static void login_put(void)
{
    mysql_session_handle out = MYSQL_SESSION_NOTHING;
    uint32_t plain = PROTOCOL_41 | SECURE_CONNECTION;
    CHECK_DONE(mysql_session_bytes_new(&out));
    CHECK_DONE(put_login(&out, plain, "", ""));
    check_login(&out, plain, "", "");
    CHECK_DONE(put_login(&out, plain | CONNECT_WITH_DB | PLUGIN_AUTH | CONNECT_ATTRS, "", ""));
    check_login(&out, plain, "", "");
    CHECK_DONE(put_login(&out, plain, "test", ""));
    check_login(&out, plain | CONNECT_WITH_DB, "test", "");
    CHECK_DONE(put_login(&out, plain, "test", "mysql_native_password"));
    CHECK_STREAM(&out, "08 82 08 00 00 00 00 01 2d 00 00 00 00 00 00 00 00 00 00 00 00 00 00 00 "
                 "00 00 00 00 04 00 00 00 |root| 00 04 de ad be ef |test| 00 "
                 "|mysql_native_password| 00");
    check_login(&out, plain | CONNECT_WITH_DB | PLUGIN_AUTH, "test", "mysql_native_password");
    mysql_session_free(&out);
}

static uint32_t put_response(mysql_session_handle *out, uint32_t capabilities, size_t len)
{
    static uint8_t response[300];
    return mysql_session_login_put(out, capabilities, 0, 1000, bytes_of("root"), 4, response, len,
                                   bytes_of(""), 0, bytes_of(""), 0);
}

/* A response that its length can't say, and texts that would end early. */
static void login_refused(void)
{
    mysql_session_handle out = MYSQL_SESSION_NOTHING;
    mysql_session_login found = no_login();
    const uint8_t *data = NULL;
    size_t len = 0;
    CHECK_DONE(mysql_session_bytes_new(&out));
    CHECK_CODE(put_response(&out, PROTOCOL_41 | SECURE_CONNECTION, 256), MYSQL_SESSION_BAD_PACKET);
    CHECK_CODE(put_response(&out, PROTOCOL_41, 1), MYSQL_SESSION_BAD_PACKET);
    CHECK_CODE(mysql_session_login_put(&out, PROTOCOL_41, 0, 1000, bytes_of("ro\0t"), 4,
                                       bytes_of(""), 0, bytes_of(""), 0, bytes_of(""), 0),
               MYSQL_SESSION_BAD_PACKET);
    CHECK_STREAM(&out, "");
    CHECK_DONE(put_response(&out, PROTOCOL_41 | SECURE_CONNECTION, 255));
    CHECK_DONE(mysql_session_bytes_clear(&out));
    CHECK_DONE(put_response(&out, PROTOCOL_41 | SECURE_CONNECTION | LENENC_RESPONSE, 300));
    CHECK_DONE(mysql_session_bytes_data(&out, &data, &len));
    CHECK_DONE(mysql_session_login_read(data, len, &found));
    CHECK_NUMBER(found.response_len, 300);
    mysql_session_free(&out);
}

/* Each front of a packet stands in memory of its own length, so that a read past it is found. */
static uint32_t read_front(const stream *whole, size_t len, int is_greeting)
{
    mysql_session_greeting greeting = no_greeting();
    mysql_session_login login = no_login();
    uint8_t *front = (uint8_t *)malloc(len == 0 ? 1 : len);
    uint32_t code;
    if (!CHECK(front != NULL))
        return MYSQL_SESSION_MEMORY;
    memcpy(front, whole->bytes, len);
    code = is_greeting ? mysql_session_greeting_read(front, len, &greeting)
                       : mysql_session_login_read(front, len, &login);
    free(front);
    return code;
}

/* A front that ends before `least` bytes is refused; behind them parts may be missing. */
static void fronts(const char *written, int is_greeting, size_t least)
{
    stream whole = stream_of(written);
    size_t len;
    for (len = 0; len <= whole.len; len++) {
        uint32_t code = read_front(&whole, len, is_greeting);
        check_note(written, len);
        if (len < least)
            CHECK_CODE(code, MYSQL_SESSION_BAD_PACKET);
        else
            CHECK(code == MYSQL_SESSION_OK || code == MYSQL_SESSION_BAD_PACKET);
    }
    check_note("", 0);
    CHECK_DONE(read_front(&whole, whole.len, is_greeting));
}

int main(void)
{
    greeting_read();
    greeting_put();
    greeting_marks();
    login_read();
    login_put();
    login_refused();
    fronts(GREETING, 1, 54);
    fronts(ANSWER, 0, 46);
    return check_end("login");
}
