/* The commands of a replica are written as the manual lays them out. */
#include "check.h"

static mysql_session_handle out;

static void register_replica(void)
{
    static char long_name[256];
    CHECK_DONE(mysql_session_register_replica_put(&out, 7, bytes_of("host"), 4, bytes_of("user"), 4,
                                                  bytes_of(""), 0, 3307));
    CHECK_STREAM(&out, "15 07 00 00 00 04 |host| 04 |user| 00 eb 0c 00 00 00 00 00 00 00 00");
    CHECK_DONE(mysql_session_bytes_clear(&out));
    memset(long_name, 'x', sizeof long_name);
    CHECK_CODE(mysql_session_register_replica_put(&out, 7, bytes_of(long_name), 256, bytes_of(""),
                                                  0, bytes_of(""), 0, 1),
               MYSQL_SESSION_BAD_PACKET);
    CHECK_CODE(mysql_session_register_replica_put(&out, 7, bytes_of(""), 0, bytes_of(long_name),
                                                  256, bytes_of(""), 0, 1),
               MYSQL_SESSION_BAD_PACKET);
    CHECK_CODE(mysql_session_register_replica_put(&out, 7, bytes_of(""), 0, bytes_of(""), 0,
                                                  bytes_of(long_name), 256, 1),
               MYSQL_SESSION_BAD_PACKET);
    CHECK_STREAM(&out, "");
    CHECK_DONE(mysql_session_register_replica_put(&out, 7, bytes_of(long_name), 255, bytes_of(""),
                                                  0, bytes_of(""), 0, 1));
    CHECK_DONE(mysql_session_bytes_clear(&out));
}

static void binlog_dump(void)
{
    CHECK_DONE(mysql_session_binlog_dump_put(&out, 7, 4, 1, bytes_of("bin.000001"), 10));
    CHECK_STREAM(&out, "12 04 00 00 00 01 00 07 00 00 00 |bin.000001|");
    CHECK_DONE(mysql_session_bytes_clear(&out));
    CHECK_DONE(mysql_session_binlog_dump_put(&out, UINT32_MAX, UINT32_MAX, 0, bytes_of(""), 0));
    CHECK_STREAM(&out, "12 ff ff ff ff 00 00 ff ff ff ff");
    CHECK_DONE(mysql_session_bytes_clear(&out));
}

#define UUID "3e11fa47-71ca-11e1-9e33-c80aa9429562"
#define UUID_BYTES "3e 11 fa 47 71 ca 11 e1 9e 33 c8 0a a9 42 95 62 "

#define OTHER_UUID "726757ad-4455-11e8-ae04-0242ac110002"
#define OTHER_UUID_BYTES "72 67 57 ad 44 55 11 e8 ae 04 02 42 ac 11 00 02 "
#define FRONT(flags) \
    "1e " flags " 07 00 00 00 05 00 00 00 |bin.1| 04 00 00 00 00 00 00 00 "

static uint32_t put_flagged(uint16_t flags, const char *gtids)
{
    return mysql_session_binlog_dump_gtid_put(&out, 7, 4, flags, bytes_of("bin.1"), 5,
                                              bytes_of(gtids), strlen(gtids));
}

static uint32_t put_gtids(const char *gtids)
{
    return put_flagged(0, gtids);
}

/* An interval is written by its first number and the one behind its last. */
static void binlog_dump_gtid(void)
{
    CHECK_DONE(put_gtids(UUID ":1-5"));
    CHECK_STREAM(&out, FRONT("04 00") "30 00 00 00 01 00 00 00 00 00 00 00 " UUID_BYTES
                 "01 00 00 00 00 00 00 00 01 00 00 00 00 00 00 00 06 00 00 00 00 00 00 00");
    CHECK_DONE(mysql_session_bytes_clear(&out));
    CHECK_DONE(put_gtids(UUID ":7"));
    CHECK_STREAM(&out, FRONT("04 00") "30 00 00 00 01 00 00 00 00 00 00 00 " UUID_BYTES
                 "01 00 00 00 00 00 00 00 07 00 00 00 00 00 00 00 08 00 00 00 00 00 00 00");
    CHECK_DONE(mysql_session_bytes_clear(&out));
}

/* The flag that says that sets are there, BINLOG_THROUGH_GTID, is that of what is given. */
static void several_gtids(void)
{
    CHECK_DONE(put_flagged(4 | 1, " "));
    CHECK_STREAM(&out, FRONT("01 00") "08 00 00 00 00 00 00 00 00 00 00 00");
    CHECK_DONE(mysql_session_bytes_clear(&out));
    CHECK_DONE(put_flagged(1, UUID ":1-5:7,\n" OTHER_UUID ":9"));
    CHECK_STREAM(&out, FRONT("05 00") "68 00 00 00 02 00 00 00 00 00 00 00 " UUID_BYTES
                 "02 00 00 00 00 00 00 00 01 00 00 00 00 00 00 00 06 00 00 00 00 00 00 00 "
                 "07 00 00 00 00 00 00 00 08 00 00 00 00 00 00 00 " OTHER_UUID_BYTES
                 "01 00 00 00 00 00 00 00 09 00 00 00 00 00 00 00 0a 00 00 00 00 00 00 00");
    CHECK_DONE(mysql_session_bytes_clear(&out));
}

static void bad_gtids(void)
{
    static const char *const bad[] = {
        "x", UUID, UUID ":", UUID ":0-5", UUID ":5-1", "3e11fa47:1-5", UUID ":1-5,", UUID ":a",
    };
    size_t at;
    for (at = 0; at < sizeof bad / sizeof bad[0]; at++) {
        check_note(bad[at], 0);
        CHECK_CODE(put_gtids(bad[at]), MYSQL_SESSION_BAD_PACKET);
        CHECK_STREAM(&out, "");
    }
    check_note("", 0);
}

/* A command is framed as any payload is, and read byte by byte. */
static void framed(void)
{
    mysql_session_handle packets = MYSQL_SESSION_NOTHING, stands = MYSQL_SESSION_NOTHING;
    const uint8_t *data = NULL;
    uint8_t number = 0;
    size_t len = 0, used = 0, fed;
    bool whole = false;
    stream payload = stream_of("12 04 00 00 00 00 00 07 00 00 00 |bin|");
    CHECK_DONE(mysql_session_binlog_dump_put(&out, 7, 4, 0, bytes_of("bin"), 3));
    CHECK_DONE(mysql_session_bytes_new(&stands));
    CHECK_DONE(mysql_session_bytes_data(&out, &data, &len));
    CHECK_DONE(mysql_session_packet_put(&stands, data, len, &number, 1000));
    CHECK_DONE(mysql_session_bytes_data(&stands, &data, &len));
    CHECK_DONE(mysql_session_packets_new(&packets, 0, 1000));
    for (fed = 0; fed < len; fed++) {
        CHECK(!whole);
        CHECK_DONE(mysql_session_packets_feed(&packets, data + fed, 1, &used, &whole));
    }
    CHECK(whole);
    CHECK_DONE(mysql_session_packets_payload(&packets, &data, &len));
    CHECK_BYTES(data, len, payload.bytes, payload.len);
    mysql_session_free(&packets);
    mysql_session_free(&stands);
}

int main(void)
{
    CHECK_DONE(mysql_session_bytes_new(&out));
    register_replica();
    binlog_dump();
    binlog_dump_gtid();
    several_gtids();
    bad_gtids();
    framed();
    mysql_session_free(&out);
    return check_end("replication");
}
