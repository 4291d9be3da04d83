/*
 * mysql_session: parameter sets of a query as streams of MySQL and MariaDB commands, and back; and
 * whole connections, read as events and put.
 *
 * The library is compiled from proved code (crates/mysql_c). Each call below is an export whose
 * contract says of the object that a handle refers to what the library's own call promises. What
 * no contract can say is here, and the program that calls owes it: which pointers are good,
 * and for how long.
 *
 * Handles. A handle is one pointer that the library writes; the program keeps it and hands its
 * address to each call. It starts as MYSQL_SESSION_NOTHING, which refers to no object, and is
 * that again after mysql_session_free. A call on a handle that refers to nothing, or to an
 * object of another kind, answers a code and changes nothing. Never use two copies of a handle,
 * never change its pointer, and keep it in the thread that made it. Calls in different threads on
 * different handles share nothing. All handles of a call are different ones: the same handle
 * twice is the program's fault, which no call looks for.
 *
 * Bytes go in as a pointer and a length. The pointer is never NULL, not even where the length is 0.
 * The bytes stay as they are until the call returns; no call keeps the pointer. Don't pass bytes
 * that a handle of the same call lent: what it lends may move while the call reads it.
 * Of a struct that goes in all fields are set, also those that its kind doesn't have (zeros will
 * do). A `bool` is 0 or 1.
 * Results go out through pointers, which are never NULL either and point to different objects.
 * What such a pointer points to is set before the call (an initialiser of zeros will do). Where a
 * call answers anything but MYSQL_SESSION_OK, what it holds then isn't said, but where the call
 * says so. A value, a content and a column have the fields of their kind; others stay as they were.
 *
 * Bytes come out as a pointer and a length. They belong to the handle, are never written to, and
 * stay as they are until the next call on that handle. A pointer to no bytes must not be read.
 *
 * Each call answers a code. MYSQL_SESSION_OK is 0; the others are in enum mysql_session_code.
 * Where two of a call's codes hold, it isn't said which is the answer, but where the call says so.
 */
#ifndef MYSQL_SESSION_H
#define MYSQL_SESSION_H

#include <stdbool.h>
#include <stddef.h>
#include <stdint.h>

#ifdef __cplusplus
extern "C" {
#endif

/* The version of the library that this header belongs to, as CHANGELOG.md counts versions. */
#define MYSQL_SESSION_VERSION "0.1.0"
#define MYSQL_SESSION_VERSION_MAJOR 0
#define MYSQL_SESSION_VERSION_MINOR 1
#define MYSQL_SESSION_VERSION_PATCH 0

/* The number of this interface. mysql_session_abi() answers the library's: compare them before
 * any other call. It changes with each change of what the library exports and of a struct. The
 * shared object's name ends in it (libmysql_session.so. and the number). */
#define MYSQL_SESSION_ABI 11

uint32_t mysql_session_abi(void);

/* 1 where the library was proved before it was compiled; 0 of a library for trying out, as
 * `bindings/build` makes it without --proved. */
uint32_t mysql_session_build(void);

/* The version of the library that is called, and its length without the NUL byte behind
 * it. It is good as long as the program runs. */
void mysql_session_version(const uint8_t **text, size_t *len);

typedef struct mysql_session_handle {
    void *at;
} mysql_session_handle;

#define MYSQL_SESSION_NOTHING { NULL }

/* Frees the object that the handle refers to. The handle refers to nothing then, so that a
 * second call does nothing. */
void mysql_session_free(mysql_session_handle *handle);

/* ---- Codes ---------------------------------------------------------------------------------- */

enum mysql_session_code {
    MYSQL_SESSION_OK = 0,
    /* A growth of memory was refused. */
    MYSQL_SESSION_MEMORY = 1,
    /* The handle refers to nothing. */
    MYSQL_SESSION_EMPTY_HANDLE = 2,
    /* The handle refers to an object of another kind. */
    MYSQL_SESSION_OTHER_KIND = 3,
    /* There is no set, placeholder or column of this number. */
    MYSQL_SESSION_OUT_OF_RANGE = 4,
    /* The limit is below 4. */
    MYSQL_SESSION_LIMIT_TOO_SMALL = 5,
    /* The query has both names and question marks as placeholders. */
    MYSQL_SESSION_MIXED = 6,
    /* There is no method of this number. */
    MYSQL_SESSION_NO_SUCH_ROAD = 7,
    /* There is no kind of this number: of a command, of a value, of a column. */
    MYSQL_SESSION_NO_SUCH_KIND = 8,
    /* Bytes of a packet are cut off, or have no such layout. */
    MYSQL_SESSION_BAD_PACKET = 9,
    /* The stream isn't whole where it ends: a packet is cut off, or long data waits. */
    MYSQL_SESSION_UNFINISHED = 10,
    /* No mode has these flags. */
    MYSQL_SESSION_NO_SUCH_MODE = 11,

    /* Faults of a stream of commands: the first field, from the left, that has no allowed value. */
    MYSQL_SESSION_FAULT_TOO_LARGE = 100,
    MYSQL_SESSION_FAULT_OUT_OF_SYNC = 101,
    MYSQL_SESSION_FAULT_EMPTY_COMMAND = 102,
    MYSQL_SESSION_FAULT_OTHER_COMMAND = 103,
    MYSQL_SESSION_FAULT_TEXT_MISMATCH = 104,
    MYSQL_SESSION_FAULT_NOT_ALONE = 105,
    MYSQL_SESSION_FAULT_PREPARE_MISMATCH = 106,
    MYSQL_SESSION_FAULT_TOO_MANY_PLACES = 107,
    MYSQL_SESSION_FAULT_NOT_PREPARED = 108,
    MYSQL_SESSION_FAULT_WRONG_ID = 109,
    MYSQL_SESSION_FAULT_BAD_EXECUTE = 110,
    MYSQL_SESSION_FAULT_NO_TYPES = 111,
    MYSQL_SESSION_FAULT_BAD_TYPE = 112,
    MYSQL_SESSION_FAULT_FLOAT = 113,
    MYSQL_SESSION_FAULT_BAD_PLACE = 114,
    MYSQL_SESSION_FAULT_BAD_BULK = 115,
    MYSQL_SESSION_FAULT_INDICATOR = 116,
    MYSQL_SESSION_FAULT_NO_ROWS = 117,
    MYSQL_SESSION_FAULT_PIECES_BEFORE_BULK = 118,

    /* Why parameter sets are not sent, in the order in which the causes are looked for. */
    MYSQL_SESSION_REFUSED_NOT_ALONE = 200,         /* a placeholder; by text */
    MYSQL_SESSION_REFUSED_TOO_MANY_PLACES = 201,   /* by execute and bulk */
    MYSQL_SESSION_REFUSED_PREPARE_TOO_LARGE = 202, /* by execute and bulk */
    MYSQL_SESSION_REFUSED_NO_PLACES = 203,         /* by bulk */
    MYSQL_SESSION_REFUSED_PARAMS = 204,            /* a set: it gives the query no values */
    MYSQL_SESSION_REFUSED_WRONG_COUNT = 205,       /* a set */
    MYSQL_SESSION_REFUSED_FLOAT = 206,             /* a set and a placeholder */
    MYSQL_SESSION_REFUSED_PACKET_TOO_LARGE = 207,  /* a set */
    MYSQL_SESSION_REFUSED_MIXED_KINDS = 208,       /* a set and a placeholder; by bulk */
    MYSQL_SESSION_REFUSED_ROW_TOO_LARGE = 209,     /* a set; by bulk */

    /* Faults of a reply. */
    MYSQL_SESSION_REPLY_TOO_LARGE = 300,
    MYSQL_SESSION_REPLY_OUT_OF_SYNC = 301,
    MYSQL_SESSION_REPLY_BAD_HEADER = 302,
    MYSQL_SESSION_REPLY_BAD_COUNT = 303,
    MYSQL_SESSION_REPLY_BAD_COLUMN = 304,
    MYSQL_SESSION_REPLY_BAD_OK = 305,
    MYSQL_SESSION_REPLY_BAD_ERROR = 306,
    MYSQL_SESSION_REPLY_BAD_ROW = 307,
    MYSQL_SESSION_REPLY_BAD_TERMINATOR = 308,
    MYSQL_SESSION_REPLY_BAD_PREPARE = 309,
    MYSQL_SESSION_REPLY_AFTER_END = 310,

    /* Why a reply isn't written, in the order in which the causes are looked for. */
    MYSQL_SESSION_WRITE_NO_RESULTS = 400,
    MYSQL_SESSION_WRITE_AFTER_END = 401,        /* a result behind one that ends the reply */
    MYSQL_SESSION_WRITE_NOT_ENDED = 402,        /* the rows before it aren't ended */
    MYSQL_SESSION_WRITE_NOT_BEGUN = 403,        /* no columns began these rows */
    MYSQL_SESSION_WRITE_WRONG_KIND = 404,       /* the command has no such results */
    MYSQL_SESSION_WRITE_NO_COLUMNS = 405,
    MYSQL_SESSION_WRITE_TOO_MANY_COLUMNS = 406, /* more than 65535 */
    MYSQL_SESSION_WRITE_STATUS = 407,           /* the status has a bit without a name */
    MYSQL_SESSION_WRITE_READS_AS_REPORT = 408,  /* an error that reads as a progress report */
    MYSQL_SESSION_WRITE_CELL_COUNT = 409,       /* the row has another number of cells */
    MYSQL_SESSION_WRITE_NO_FORM = 410,          /* a cell that its column's type has no form for */
    MYSQL_SESSION_WRITE_PACKET_TOO_LARGE = 411,

    /* Why bytes of a connection are refused. */
    MYSQL_SESSION_CONNECTION_CLOSED = 500, /* the side's stream has ended */
    MYSQL_SESSION_CONNECTION_HELD = 501,   /* more of the side would wait unread than its room */

    /* Faults of a connection; one of a reply's payload is a REPLY_BAD_.. from 302 to 309. */
    MYSQL_SESSION_CONNECTION_TOO_LARGE = 510,    /* a payload is longer than its side's limit */
    MYSQL_SESSION_CONNECTION_OUT_OF_SYNC = 511,  /* a packet's number isn't the expected one */
    MYSQL_SESSION_CONNECTION_OLD_PROTOCOL = 512, /* the protocol isn't that of version 4.1 */
    MYSQL_SESSION_CONNECTION_BAD_GREETING = 513,
    MYSQL_SESSION_CONNECTION_BAD_LOGIN = 514,
    MYSQL_SESSION_CONNECTION_BAD_SWITCH = 515,   /* the request for another plugin */
    MYSQL_SESSION_CONNECTION_UNASKED = 516,      /* the server says what nothing asked for */
    MYSQL_SESSION_CONNECTION_KEPT = 517,         /* more would be kept than the limit leaves */
    MYSQL_SESSION_CONNECTION_AFTER_QUIT = 518,   /* the client says more behind a quit */
    MYSQL_SESSION_CONNECTION_NOT_DUE = 519,      /* that side of a reply has no payload now */

    /* Why a payload isn't put on a connection; or one of the faults above. */
    MYSQL_SESSION_CONNECTION_NOT_ITS_TURN = 520, /* it isn't the turn of this side's payload */

    /* Why sets of a query aren't put on a connection; or one of those above. */
    MYSQL_SESSION_CONNECTION_UNKNOWN_STATEMENT = 521,
    MYSQL_SESSION_CONNECTION_WRONG_COUNT = 522 /* the server counted other parameters */
};

/* The text of a code in English, and its length without the NUL byte behind it. It is
 * good as long as the program runs. Of a number that is no code it is "no such code". */
void mysql_session_code_text(uint32_t code, const uint8_t **text, size_t *len);

/* ---- Modes: how a server reads a text -------------------------------------------------------- */

/* By its SQL mode a server reads texts in one of four ways. Calls that read or write texts take the
 * mode as flags; 0 is a server in neither of these modes, byte strings in quotes. With any other
 * bit they answer NO_SUCH_MODE, and change nothing. Executions have no literals: by execute and
 * bulk the mode says which bytes of the query's own text are placeholders, and nothing else.
 *
 * A text is safe for the server whose mode is told. For a server in another a value may end its
 * literal, and what follows the quote is read as SQL. So ask for the mode, send by execute, or
 * spell byte strings in hexadecimal. Any mode reads these alike if the query has no backslash. */
enum mysql_session_flag {
    /* A backslash in a string is a byte like any other. */
    MYSQL_SESSION_NO_BACKSLASH_ESCAPES = 1,
    /* Double quotes are those of identifiers. */
    MYSQL_SESSION_ANSI_QUOTES = 2,
    /* Byte strings are written as _utf8mb4 0x and hexadecimal digits where they are UTF-8, else as
     * _binary 0x and digits, the empty one as ''. A server takes them for a text or for bytes, also
     * where it wants a number. Calls that read a stream read such literals too. No mode: dates and
     * durations stay in quotes. */
    MYSQL_SESSION_HEXADECIMAL = 4,
    /* The mode isn't known. No call takes it: each answers NO_SUCH_MODE. */
    MYSQL_SESSION_UNKNOWN_MODE = 8
};

/* The flags of the mode that a server's status tells, as its greeting and each of its OK packets
 * have it; no code. MySQL doesn't tell ANSI_QUOTES in it, MariaDB does. Behind a procedure that
 * changed the mode a status may tell another one than the server is in. Better go by
 * mysql_session_known. */
uint32_t mysql_session_mode_of_status(uint16_t status);

/* The flags of the mode that the value of the variable sql_mode tells; no code. Names are between
 * commas, in any case, and blanks around them don't count. ANSI_QUOTES is told by each name that has
 * it too, as ANSI does. MYSQL_SESSION_UNKNOWN_MODE where a name is neither MySQL's nor MariaDB's, or
 * is MSSQL, in which [ and ] quote names. There take MYSQL_SESSION_HEXADECIMAL, or send by execute. */
uint32_t mysql_session_mode_of_sql_mode(const uint8_t *value, size_t len);

/* 1 where literals in quotes are safe in a text that a server reads in the collation of this id
 * (character_set_client), else 0; no code. 0 is the answer for collations of big5, sjis, gbk, cp932
 * and gb18030, and for gb2312_bin. In these a quote or a backslash can be the second byte of a
 * character. There take MYSQL_SESSION_HEXADECIMAL, or send by execute. */
uint32_t mysql_session_is_safe_to_quote(uint16_t collation);

/* The text that asks a server for the mode and the character set of its session, any number of
 * times. Its OK packet tells both where both sides have CLIENT_SESSION_TRACK. Ask behind a login, a
 * change of user and a reset, and where the mode or the set isn't known. */
#define MYSQL_SESSION_ASK_MODE \
    "SET session_track_system_variables = '*', sql_mode = @@sql_mode, " \
    "character_set_client = @@character_set_client"

/* What is known of a session's mode and character set. A mysql_session_connection keeps it. For a
 * program that has none it begins as MYSQL_SESSION_NOTHING_KNOWN, and is that again behind a login, a
 * change of user and a reset.
 *
 * A text for the session is written by `flags` (of mysql_session_flag). HEXADECIMAL is among them
 * unless quotes are known to be safe in its character set. UNKNOWN_MODE is where the mode isn't
 * known. There send by execute. Or write by HEXADECIMAL alone, if the query has no backslash. */
typedef struct mysql_session_known {
    uint32_t flags;
    bool set_known; /* the character set is known: quotes are safe in it where HEXADECIMAL isn't set */
    bool counts;    /* what the next OK packet tells counts */
} mysql_session_known;

#define MYSQL_SESSION_NOTHING_KNOWN \
    { MYSQL_SESSION_UNKNOWN_MODE | MYSQL_SESSION_HEXADECIMAL, false, false }

/* Goes on with what is known behind a statement that is sent as this text, or that is executed as it
 * was prepared of it. Call it for each, before its reply is looked at, whether it is answered or
 * refused. What was known stays behind one statement that begins with a word as SELECT, INSERT,
 * COMMIT or CALL. Behind a SET the mode or the character set that it names isn't known, and behind
 * all else neither is. A prepare, a close, a ping and the like change nothing. */
void mysql_session_known_behind_text(mysql_session_known *known, const uint8_t *text, size_t len);

/* Goes on with what is known behind an OK packet of the reply to that statement. It is told by its
 * status and its changes of the session, as it has them. A result has these as `changes`.
 * What the packet tells of `sql_mode` and `character_set_client` is known then. It isn't where
 * further results follow, where the text has the word STATEMENT, or where it can't be read. Nothing
 * is concluded from the status alone. */
void mysql_session_known_behind_ok(mysql_session_known *known, uint16_t status,
                                   const uint8_t *changes, size_t len);

/* ---- Receivers: a stream of commands about one query, read back ------------------------------ */

/* Kinds of contents. */
enum mysql_session_kind {
    MYSQL_SESSION_NULL = 0,
    MYSQL_SESSION_INT = 1,  /* `int_value`; of a content each number that fits it */
    MYSQL_SESSION_UINT = 2, /* `uint_value`; of a content 2^63 or more */
    MYSQL_SESSION_BYTES = 3 /* `bytes` and `len` */
};

typedef struct mysql_session_content {
    uint32_t kind;
    int64_t int_value;
    uint64_t uint_value;
    const uint8_t *bytes;
    size_t len;
} mysql_session_content;

/* How a stream ends. */
enum mysql_session_end_kind {
    MYSQL_SESSION_END_WHOLE = 0,
    /* The last packet isn't whole. */
    MYSQL_SESSION_END_UNFINISHED_PACKET = 1,
    /* Long data waits for an execution. */
    MYSQL_SESSION_END_WAITING_PIECES = 2,
    /* The payload of the number `payload`, from 0, has the fault `fault`, a code. */
    MYSQL_SESSION_END_FAULT = 3
};

typedef struct mysql_session_end {
    uint32_t kind;
    uint32_t fault;   /* 0 but for END_FAULT, as is `payload` */
    uint64_t payload;
} mysql_session_end;

/* Makes the handle refer to a receiver of a stream of commands about this query, whose statement
 * was given this id. What the handle referred to before is freed; where the answer isn't OK it
 * stays. The limit is the max_allowed_packet of the receiving side, at least 4. The query is
 * copied. The flags (of mysql_session_flag) tell the mode of the server that the stream was sent
 * to. For one in another mode texts, and the query's placeholders, may be others than this receiver
 * reads.
 * Answers OK, NO_SUCH_MODE (before any other), LIMIT_TOO_SMALL (before the rest), MEMORY, MIXED. */
uint32_t mysql_session_receiver_new(mysql_session_handle *handle, const uint8_t *query,
                                    size_t len, uint32_t statement, size_t limit, uint32_t flags);

/* Takes the next piece of the stream, of any length; the piece isn't kept. However the stream is
 * cut, the same sets come. Answers OK, a fault (from then on each feed answers that fault, and
 * changes nothing), MEMORY (a fault too), EMPTY_HANDLE, OTHER_KIND. */
uint32_t mysql_session_receiver_feed(mysql_session_handle *handle, const uint8_t *piece,
                                     size_t len);

/* How many sets were read and not let go. */
uint32_t mysql_session_receiver_sets(mysql_session_handle *handle, size_t *count);

/* How many contents the set of this number, from 0, has. Answers OK, OUT_OF_RANGE, .. */
uint32_t mysql_session_receiver_width(mysql_session_handle *handle, size_t set, size_t *width);

/* The content at a position of a set, both from 0. Its bytes are good until the next call on the
 * handle other than mysql_session_receiver_sets, _width and _content. Answers OK, OUT_OF_RANGE
 * (also of a number of more than 64 bits, which no stream carries), .. */
uint32_t mysql_session_receiver_content(mysql_session_handle *handle, size_t set, size_t place,
                                        mysql_session_content *content);

/* Lets go of the sets that were read; those that come next are numbered from 0. After
 * mysql_session_receiver_end it answers OTHER_KIND. */
uint32_t mysql_session_receiver_clear(mysql_session_handle *handle);

/* Ends the stream, and tells how. The handle refers to the audit then: it has the sets that
 * weren't let go, takes no piece, and tells its end again. */
uint32_t mysql_session_receiver_end(mysql_session_handle *handle, mysql_session_end *end);

/* ---- Parameter sets, put together value by value --------------------------------------------- */

/* Makes the handle refer to no sets. What it referred to before is freed. Answers OK, MEMORY.
 * Sets have values by their order: they are sent for a query whose placeholders are question marks,
 * and one with names is refused by REFUSED_PARAMS. (Receivers and recoders take both.) */
uint32_t mysql_session_sets_new(mysql_session_handle *handle);

/* Each gives the next set one more value, for the next placeholder. Bytes are copied, and no field
 * of a date or a duration is checked. A float and a double are their bits, as memcpy takes them.
 * They go into mysql_session_execution_put and mysql_session_writer_row. By REFUSED_FLOAT
 * mysql_session_send and mysql_session_bind_text refuse a set with one. After MEMORY nothing has
 * changed.
 * Answer OK, MEMORY, EMPTY_HANDLE, OTHER_KIND. */
uint32_t mysql_session_sets_push_null(mysql_session_handle *handle);
uint32_t mysql_session_sets_push_int(mysql_session_handle *handle, int64_t number);
uint32_t mysql_session_sets_push_uint(mysql_session_handle *handle, uint64_t number);
uint32_t mysql_session_sets_push_float(mysql_session_handle *handle, uint32_t bits);
uint32_t mysql_session_sets_push_double(mysql_session_handle *handle, uint64_t bits);
uint32_t mysql_session_sets_push_bytes(mysql_session_handle *handle, const uint8_t *bytes,
                                       size_t len);
uint32_t mysql_session_sets_push_date(mysql_session_handle *handle, uint16_t year, uint8_t month,
                                      uint8_t day, uint8_t hour, uint8_t minute, uint8_t second,
                                      uint32_t micros);
uint32_t mysql_session_sets_push_time(mysql_session_handle *handle, bool negative, uint32_t days,
                                      uint8_t hours, uint8_t minutes, uint8_t seconds,
                                      uint32_t micros);

/* Ends the next set: its values come behind the sets before it. Also a set of no values. */
uint32_t mysql_session_sets_end_set(mysql_session_handle *handle);

/* A value of an array: its kind (of mysql_session_kind or mysql_session_value_kind), and the fields
 * of that kind. The bits of a FLOAT or a DOUBLE are in `uint_value`. Those of a BYTES value are `len` bytes from `start` on, in the bytes
 * that are handed over beside the array. All fields are set (zeros will do), `negative` to 0 or 1:
 * the whole struct is copied. */
typedef struct mysql_session_parameter {
    uint32_t kind;
    bool negative;
    uint8_t month;
    uint8_t day;
    uint8_t hour;
    uint8_t minute;
    uint8_t second;
    uint16_t year;
    uint32_t days;
    uint32_t micros;
    int64_t int_value;
    uint64_t uint_value;
    size_t start;
    size_t len;
} mysql_session_parameter;

/* Puts one more set behind the whole ones: `count` values, whose bytes lie in `bytes` of `len`.
 * What was pushed for the next set stays. Answers OK, MEMORY, EMPTY_HANDLE, OTHER_KIND. Of the first
 * value that is none it answers NO_SUCH_KIND or OUT_OF_RANGE. Out of range are bytes that don't lie
 * in `bytes`, and a FLOAT of more than 32 bits. But for OK nothing has changed. */
uint32_t mysql_session_sets_add(mysql_session_handle *handle,
                                const mysql_session_parameter *values, size_t count,
                                const uint8_t *bytes, size_t len);

/* How many sets are whole. */
uint32_t mysql_session_sets_count(mysql_session_handle *handle, size_t *count);

/* Lets go of all sets, and of the values of the next one. */
uint32_t mysql_session_sets_clear(mysql_session_handle *handle);

/* ---- Bytes that the library wrote ------------------------------------------------------------ */

/* Makes the handle refer to no bytes. What it referred to before is freed. Answers OK, MEMORY. */
uint32_t mysql_session_bytes_new(mysql_session_handle *handle);

/* The bytes, which belong to the handle and are good until the next call on it other than
 * mysql_session_bytes_data. */
uint32_t mysql_session_bytes_data(mysql_session_handle *handle, const uint8_t **data, size_t *len);

/* Empties the bytes. */
uint32_t mysql_session_bytes_clear(mysql_session_handle *handle);

/* ---- Sending --------------------------------------------------------------------------------- */

enum mysql_session_road {
    MYSQL_SESSION_TEXT = 0,    /* a text query for each set */
    MYSQL_SESSION_EXECUTE = 1, /* one prepare, and an execution for each set */
    MYSQL_SESSION_BULK = 2     /* one prepare, and the fewest of MariaDB's bulk executions */
};

/* Which set is refused, and which place of it, both from 0; 0 where the code has none. */
typedef struct mysql_session_place {
    size_t set;
    size_t place;
} mysql_session_place;

/* Tells how many placeholders a query has, for a server in the mode that the flags tell. In its
 * answer to the prepare a server says how many parameters it counted. It runs an execution of
 * another number of values too, with other values than were meant. So compare the two numbers
 * before you send what follows the prepare; mysql_session_connection_put_sets compares them.
 * Answers OK, or NO_SUCH_MODE, MIXED, MEMORY, when `count` stays as it was. */
uint32_t mysql_session_place_count(const uint8_t *query, size_t len, uint32_t flags, size_t *count);

/* Appends to the bytes of `out` the commands that carry the sets of `sets`, as framed packets. A
 * receiver of the same query, id, limit and mode reads the sets back, to the end of what was
 * appended.
 * Values of a set that wasn't ended aren't sent; the sets stay. The limit is the max_allowed_packet
 * of the receiving side, at least 4. A packet's header counts in it, so a payload has at most
 * `limit - 4` bytes. The two handles are different ones.
 * The commands are laid out for a connection on which CLIENT_QUERY_ATTRIBUTES isn't in force, bulk
 * executions for one on which MARIADB_CLIENT_STMT_BULK_OPERATIONS is.
 * By execute and bulk the server's answer to the prepare isn't known here. Before what follows it
 * is sent, compare the server's number of parameters with mysql_session_place_count.
 * By MYSQL_SESSION_TEXT it is safe for a server in the mode that the flags (of mysql_session_flag)
 * tell. The connection's collation is safe to quote, as UTF-8's are. Or take
 * MYSQL_SESSION_HEXADECIMAL, in any character set in which bytes below 80 that follow one another
 * are themselves. For any other a value may end its literal. By execute and bulk: safe for any
 * server.
 * Answers OK, or why nothing is appended, by the first that holds: EMPTY_HANDLE or OTHER_KIND of
 * `sets`, then of `out`. Then come NO_SUCH_ROAD, NO_SUCH_MODE, LIMIT_TOO_SMALL, MIXED, REFUSED_..
 * with the set and the placeholder. Or it is MEMORY. */
uint32_t mysql_session_send(mysql_session_handle *sets, const uint8_t *query, size_t len,
                            uint32_t road, uint32_t statement, size_t limit, uint32_t flags,
                            mysql_session_handle *out, mysql_session_place *place);

/* Appends to the bytes of `out` the payload of an execution of a statement. Its values are those of
 * one set, by its number from 0. Framed by mysql_session_packet_put it goes by
 * mysql_session_connection_put_sets, whose `places` is the number of the set's values. Each value
 * has its own type: BIGINT, FLOAT, DOUBLE, VAR_STRING, DATETIME, TIME or NULL. Floats are among
 * them, which mysql_session_send refuses. It is laid out for a connection on which
 * CLIENT_QUERY_ATTRIBUTES isn't in force.
 * Answers OK, or why nothing is appended. The first that holds is the answer: EMPTY_HANDLE,
 * OTHER_KIND or OUT_OF_RANGE (no such set) of `sets`. Then come EMPTY_HANDLE and OTHER_KIND of
 * `out`, REFUSED_TOO_MANY_PLACES and MEMORY. */
uint32_t mysql_session_execution_put(mysql_session_handle *sets, size_t set, uint32_t statement,
                                     mysql_session_handle *out);

/* Appends to the bytes of `out` the text of one set, by its number from 0. It is the query with a
 * literal in the place of each placeholder. It is what a COM_QUERY has behind its first byte.
 * Safe for a server in the mode that the flags (of mysql_session_flag) tell. The connection's
 * collation is safe to quote, as UTF-8's are. Or take MYSQL_SESSION_HEXADECIMAL, in any character
 * set in which bytes below 80 that follow one another are themselves. For any other a value may end
 * its literal: send by execute there.
 * Answers OK, or why nothing is appended: NO_SUCH_MODE (before any other), EMPTY_HANDLE,
 * OTHER_KIND, OUT_OF_RANGE (no such set), MIXED, REFUSED_NOT_ALONE, REFUSED_PARAMS,
 * REFUSED_WRONG_COUNT, REFUSED_FLOAT, MEMORY. */
uint32_t mysql_session_bind_text(mysql_session_handle *sets, size_t set, const uint8_t *query,
                                 size_t len, uint32_t flags, mysql_session_handle *out,
                                 mysql_session_place *place);

/* Appends to the bytes of `out` the literal of one value, by the numbers of its set and its
 * placeholder. Safe where the text of mysql_session_bind_text with the same flags is.
 * Answers OK, NO_SUCH_MODE (before any other), EMPTY_HANDLE, OTHER_KIND, OUT_OF_RANGE, MEMORY. A
 * float has no literal, and is REFUSED_FLOAT. */
uint32_t mysql_session_value_text(mysql_session_handle *sets, size_t set, size_t place,
                                  uint32_t flags, mysql_session_handle *out);

/* Appends to the bytes of `out` the digest of a statement: its text with the values taken out. It
 * serves to count statements, and to show one whose values are a secret. The flags (of
 * mysql_session_flag) tell the mode of the server that reads the text. MYSQL_SESSION_HEXADECIMAL
 * says nothing here.
 * Strings, numbers, placeholders, NULL, TRUE and FALSE are `?`. Values between commas are `?, ...`,
 * alone in parentheses `(...)`. Comments are left out, and words are in lower case. Where servers
 * begin to read the text differently the digest ends with a mark, a comment of three dots. It has at
 * most three times the bytes of the text and ten.
 * Answers OK, or why nothing is appended, in this order: NO_SUCH_MODE, EMPTY_HANDLE, OTHER_KIND,
 * MEMORY. */
uint32_t mysql_session_digest(const uint8_t *text, size_t len, uint32_t flags,
                              mysql_session_handle *out);

/* ---- Recoding: a stream of commands as executions, as it comes ------------------------------- */

/* Where recoding stopped: the payload and its fault (a code of FAULT_..), or the set that is too
 * large. And how a stream ends that isn't whole. What the answer doesn't have is 0. */
typedef struct mysql_session_stop {
    uint32_t end; /* of mysql_session_end_kind */
    uint32_t fault;
    uint64_t payload;
    size_t set;
} mysql_session_stop;

/* Makes the handle refer to a recoder of a stream of commands about this query, whose statement
 * was given this id. The flags tell the mode of the server that the stream was sent to, as those of
 * mysql_session_receiver_new do. What is recoded is safe for any server that reads the query's own
 * text as one in this mode does.
 * Answers OK, or the first that holds of NO_SUCH_MODE, LIMIT_TOO_SMALL, MIXED,
 * REFUSED_TOO_MANY_PLACES, REFUSED_PREPARE_TOO_LARGE, or MEMORY; but for OK the handle stays. */
uint32_t mysql_session_recoder_new(mysql_session_handle *handle, const uint8_t *query, size_t len,
                                   uint32_t statement, size_t limit, uint32_t flags);

/* Takes the next piece, and appends to the bytes of `out` the executions of the sets that are whole
 * with it. Before the first of all it appends the prepare. Answers OK, or why nothing is appended:
 * a FAULT_.. of the payload, REFUSED_PACKET_TOO_LARGE of the set, MEMORY, EMPTY_HANDLE, OTHER_KIND.
 * After the first three each call answers the same, and changes nothing. */
uint32_t mysql_session_recoder_feed(mysql_session_handle *handle, const uint8_t *piece, size_t len,
                                    mysql_session_handle *out, mysql_session_stop *stop);

/* Ends the stream: where it carried no set the prepare is appended to the bytes of `out`. The
 * handle refers to nothing then, also where the answer is UNFINISHED, what a feed refused, or
 * MEMORY. With a handle `out` of another kind nothing has changed. */
uint32_t mysql_session_recoder_end(mysql_session_handle *handle, mysql_session_handle *out,
                                   mysql_session_stop *stop);

/* ---- Numbers of the protocol ----------------------------------------------------------------- */

/* Capabilities, by which packets are laid out: calls take those that client and server agreed on, as
 * bits of a word. Other bits than these may be set too (Capabilities Flags). */
enum mysql_session_capability {
    MYSQL_SESSION_CLIENT_LONG_PASSWORD = 0x1,
    MYSQL_SESSION_CLIENT_FOUND_ROWS = 0x2,
    MYSQL_SESSION_CLIENT_LONG_FLAG = 0x4,
    MYSQL_SESSION_CLIENT_CONNECT_WITH_DB = 0x8,
    MYSQL_SESSION_CLIENT_NO_SCHEMA = 0x10,
    MYSQL_SESSION_CLIENT_COMPRESS = 0x20,
    MYSQL_SESSION_CLIENT_ODBC = 0x40,
    MYSQL_SESSION_CLIENT_LOCAL_FILES = 0x80,
    MYSQL_SESSION_CLIENT_IGNORE_SPACE = 0x100,
    MYSQL_SESSION_CLIENT_PROTOCOL_41 = 0x200,
    MYSQL_SESSION_CLIENT_INTERACTIVE = 0x400,
    MYSQL_SESSION_CLIENT_SSL = 0x800,
    MYSQL_SESSION_CLIENT_IGNORE_SIGPIPE = 0x1000,
    MYSQL_SESSION_CLIENT_TRANSACTIONS = 0x2000,
    MYSQL_SESSION_CLIENT_RESERVED = 0x4000,
    MYSQL_SESSION_CLIENT_SECURE_CONNECTION = 0x8000,
    MYSQL_SESSION_CLIENT_MULTI_STATEMENTS = 0x10000,
    MYSQL_SESSION_CLIENT_MULTI_RESULTS = 0x20000,
    MYSQL_SESSION_CLIENT_PS_MULTI_RESULTS = 0x40000,
    MYSQL_SESSION_CLIENT_PLUGIN_AUTH = 0x80000,
    MYSQL_SESSION_CLIENT_CONNECT_ATTRS = 0x100000,
    MYSQL_SESSION_CLIENT_PLUGIN_AUTH_LENENC_CLIENT_DATA = 0x200000,
    MYSQL_SESSION_CLIENT_CAN_HANDLE_EXPIRED_PASSWORDS = 0x400000,
    MYSQL_SESSION_CLIENT_SESSION_TRACK = 0x800000,
    MYSQL_SESSION_CLIENT_DEPRECATE_EOF = 0x1000000,
    MYSQL_SESSION_CLIENT_OPTIONAL_RESULTSET_METADATA = 0x2000000,
    MYSQL_SESSION_CLIENT_ZSTD_COMPRESSION_ALGORITHM = 0x4000000,
    MYSQL_SESSION_CLIENT_QUERY_ATTRIBUTES = 0x8000000,
    MYSQL_SESSION_MULTI_FACTOR_AUTHENTICATION = 0x10000000,
    MYSQL_SESSION_CLIENT_PROGRESS_OBSOLETE = 0x20000000,
    MYSQL_SESSION_CLIENT_SSL_VERIFY_SERVER_CERT = 0x40000000
};

/* MariaDB's own, in a word beside the other one. */
enum mysql_session_mariadb_capability {
    MYSQL_SESSION_MARIADB_CLIENT_PROGRESS = 0x1,
    MYSQL_SESSION_MARIADB_CLIENT_COM_MULTI = 0x2,
    MYSQL_SESSION_MARIADB_CLIENT_STMT_BULK_OPERATIONS = 0x4,
    MYSQL_SESSION_MARIADB_CLIENT_EXTENDED_METADATA = 0x8,
    MYSQL_SESSION_MARIADB_CLIENT_CACHE_METADATA = 0x10,
    MYSQL_SESSION_MARIADB_CLIENT_BULK_UNIT_RESULTS = 0x20
};

/* Types of columns (Field Types). */
enum mysql_session_column_type {
    MYSQL_SESSION_TYPE_DECIMAL = 0,
    MYSQL_SESSION_TYPE_TINY = 1,
    MYSQL_SESSION_TYPE_SHORT = 2,
    MYSQL_SESSION_TYPE_LONG = 3,
    MYSQL_SESSION_TYPE_FLOAT = 4,
    MYSQL_SESSION_TYPE_DOUBLE = 5,
    MYSQL_SESSION_TYPE_NULL = 6,
    MYSQL_SESSION_TYPE_TIMESTAMP = 7,
    MYSQL_SESSION_TYPE_LONGLONG = 8,
    MYSQL_SESSION_TYPE_INT24 = 9,
    MYSQL_SESSION_TYPE_DATE = 10,
    MYSQL_SESSION_TYPE_TIME = 11,
    MYSQL_SESSION_TYPE_DATETIME = 12,
    MYSQL_SESSION_TYPE_YEAR = 13,
    MYSQL_SESSION_TYPE_NEWDATE = 14,
    MYSQL_SESSION_TYPE_VARCHAR = 15,
    MYSQL_SESSION_TYPE_BIT = 16,
    MYSQL_SESSION_TYPE_TIMESTAMP2 = 17,
    MYSQL_SESSION_TYPE_DATETIME2 = 18,
    MYSQL_SESSION_TYPE_TIME2 = 19,
    MYSQL_SESSION_TYPE_TYPED_ARRAY = 20,
    MYSQL_SESSION_TYPE_VECTOR = 242,
    MYSQL_SESSION_TYPE_UNKNOWN = 243,
    MYSQL_SESSION_TYPE_JSON = 245,
    MYSQL_SESSION_TYPE_NEWDECIMAL = 246,
    MYSQL_SESSION_TYPE_ENUM = 247,
    MYSQL_SESSION_TYPE_SET = 248,
    MYSQL_SESSION_TYPE_TINY_BLOB = 249,
    MYSQL_SESSION_TYPE_MEDIUM_BLOB = 250,
    MYSQL_SESSION_TYPE_LONG_BLOB = 251,
    MYSQL_SESSION_TYPE_BLOB = 252,
    MYSQL_SESSION_TYPE_VAR_STRING = 253,
    MYSQL_SESSION_TYPE_STRING = 254,
    MYSQL_SESSION_TYPE_GEOMETRY = 255
};

/* Bits of a server's status, as a greeting and OK and EOF packets have it (Status Flags). The last
 * one is MariaDB's alone. */
enum mysql_session_status {
    MYSQL_SESSION_SERVER_STATUS_IN_TRANS = 0x1,
    MYSQL_SESSION_SERVER_STATUS_AUTOCOMMIT = 0x2,
    MYSQL_SESSION_SERVER_MORE_RESULTS_EXISTS = 0x8,
    MYSQL_SESSION_SERVER_STATUS_NO_GOOD_INDEX_USED = 0x10,
    MYSQL_SESSION_SERVER_STATUS_NO_INDEX_USED = 0x20,
    MYSQL_SESSION_SERVER_STATUS_CURSOR_EXISTS = 0x40,
    MYSQL_SESSION_SERVER_STATUS_LAST_ROW_SENT = 0x80,
    MYSQL_SESSION_SERVER_STATUS_DB_DROPPED = 0x100,
    MYSQL_SESSION_SERVER_STATUS_NO_BACKSLASH_ESCAPES = 0x200,
    MYSQL_SESSION_SERVER_STATUS_METADATA_CHANGED = 0x400,
    MYSQL_SESSION_SERVER_QUERY_WAS_SLOW = 0x800,
    MYSQL_SESSION_SERVER_PS_OUT_PARAMS = 0x1000,
    MYSQL_SESSION_SERVER_STATUS_IN_TRANS_READONLY = 0x2000,
    MYSQL_SESSION_SERVER_SESSION_STATE_CHANGED = 0x4000,
    MYSQL_SESSION_SERVER_STATUS_ANSI_QUOTES = 0x8000
};

/* Flags of a column (Column Definition Flags). */
enum mysql_session_column_flag {
    MYSQL_SESSION_NOT_NULL_FLAG = 0x1,
    MYSQL_SESSION_PRI_KEY_FLAG = 0x2,
    MYSQL_SESSION_UNIQUE_KEY_FLAG = 0x4,
    MYSQL_SESSION_MULTIPLE_KEY_FLAG = 0x8,
    MYSQL_SESSION_BLOB_FLAG = 0x10,
    MYSQL_SESSION_UNSIGNED_FLAG = 0x20,
    MYSQL_SESSION_ZEROFILL_FLAG = 0x40,
    MYSQL_SESSION_BINARY_FLAG = 0x80,
    MYSQL_SESSION_ENUM_FLAG = 0x100,
    MYSQL_SESSION_AUTO_INCREMENT_FLAG = 0x200,
    MYSQL_SESSION_TIMESTAMP_FLAG = 0x400,
    MYSQL_SESSION_SET_FLAG = 0x800,
    MYSQL_SESSION_NO_DEFAULT_VALUE_FLAG = 0x1000,
    MYSQL_SESSION_ON_UPDATE_NOW_FLAG = 0x2000,
    MYSQL_SESSION_PART_KEY_FLAG = 0x4000,
    MYSQL_SESSION_NUM_FLAG = 0x8000
};

/* Cursors that an execution asks for (COM_STMT_EXECUTE, enum_cursor_type): the flags of its event. */
enum mysql_session_cursor {
    MYSQL_SESSION_CURSOR_TYPE_NO_CURSOR = 0,
    MYSQL_SESSION_CURSOR_TYPE_READ_ONLY = 1,
    MYSQL_SESSION_CURSOR_TYPE_FOR_UPDATE = 2,
    MYSQL_SESSION_CURSOR_TYPE_SCROLLABLE = 4
};

/* What of a session changed, as OK packets tell it (OK_Packet, Session State Information). */
enum mysql_session_state_type {
    MYSQL_SESSION_SESSION_TRACK_SYSTEM_VARIABLES = 0,
    MYSQL_SESSION_SESSION_TRACK_SCHEMA = 1,
    MYSQL_SESSION_SESSION_TRACK_STATE_CHANGE = 2,
    MYSQL_SESSION_SESSION_TRACK_GTIDS = 3,
    MYSQL_SESSION_SESSION_TRACK_TRANSACTION_CHARACTERISTICS = 4,
    MYSQL_SESSION_SESSION_TRACK_TRANSACTION_STATE = 5
};

/* Some collations by their ids. A server lists all that it has in information_schema.COLLATIONS. */
enum mysql_session_collation {
    MYSQL_SESSION_COLLATION_LATIN1_SWEDISH_CI = 8,
    MYSQL_SESSION_COLLATION_ASCII_GENERAL_CI = 11,
    MYSQL_SESSION_COLLATION_UTF8MB3_GENERAL_CI = 33,
    MYSQL_SESSION_COLLATION_UTF8MB4_GENERAL_CI = 45,
    MYSQL_SESSION_COLLATION_UTF8MB4_BIN = 46,
    MYSQL_SESSION_COLLATION_BINARY = 63,
    MYSQL_SESSION_COLLATION_UTF8MB3_BIN = 83,
    MYSQL_SESSION_COLLATION_UTF8MB4_UNICODE_CI = 224,
    MYSQL_SESSION_COLLATION_UTF8MB4_0900_AI_CI = 255
};

/* ---- Replies of a server, read as they come -------------------------------------------------- */

enum mysql_session_reply_kind {
    MYSQL_SESSION_REPLY_TO_QUERY = 0,
    MYSQL_SESSION_REPLY_TO_EXECUTE = 1,
    MYSQL_SESSION_REPLY_TO_PREPARE = 2
};

enum mysql_session_result_kind {
    MYSQL_SESSION_RESULT_OK = 0,       /* affected_rows, last_insert_id, status, warnings, states,
                                        * and what the packet tells as text */
    MYSQL_SESSION_RESULT_ROWS = 1,     /* columns, rows, ended; where they have ended the status,
                                        * warnings, states and text of the packet that ends them */
    MYSQL_SESSION_RESULT_PREPARED = 2, /* statement, params, columns, warnings */
    MYSQL_SESSION_RESULT_ERROR = 3,    /* error_code, state, and the message as text */
    MYSQL_SESSION_RESULT_FILE = 4,     /* the file's name as text */
    MYSQL_SESSION_RESULT_RAW_ROWS = 5  /* as rows, but their columns aren't known: the server left
                                        * them out, by MySQL's optional metadata. Their bytes aren't
                                        * shown */
};

typedef struct mysql_session_result {
    uint32_t kind;
    uint16_t status;
    uint16_t warnings;
    uint16_t error_code;
    uint32_t statement;
    uint64_t affected_rows;
    uint64_t last_insert_id;
    size_t columns;
    size_t rows;
    size_t params;
    size_t states;       /* changes of the session's state that an OK packet tells */
    const uint8_t *text; /* the message of an error, the name of a file, what an OK packet tells */
    size_t len;
    const uint8_t *changes; /* these changes, as the packet has them */
    size_t changes_len;
    uint8_t state[5];    /* the SQL state of an error */
    size_t state_len;    /* 5, or 0 where it has none */
    bool ended;          /* of rows: the packet that ends them came; else true */
} mysql_session_result;

/* Makes the handle refer to a reader of the reply to a command of this kind (of
 * mysql_session_reply_kind), whose first chunk has the number `first`. The capabilities are those
 * that client and server agreed on: they say how packets are read. A payload has at most `limit`
 * bytes, any number; a longer one is the fault REPLY_TOO_LARGE. Answers OK, NO_SUCH_KIND (before
 * any other), MEMORY. */
uint32_t mysql_session_reply_new(mysql_session_handle *handle, uint32_t kind,
                                 uint32_t capabilities, uint8_t first, size_t limit);

/* Reads the next bytes, of any length. Answers OK, a fault (from then on each feed answers that
 * fault, and changes nothing), MEMORY (a fault too), EMPTY_HANDLE, OTHER_KIND. */
uint32_t mysql_session_reply_feed(mysql_session_handle *handle, const uint8_t *piece, size_t len);

/* Takes the results so far: those that are whole, and of a result set that goes on its rows so
 * far. They are numbered from 0; those that were taken before are freed, and so are the progress
 * reports that came. After mysql_session_reply_end it answers OTHER_KIND. */
uint32_t mysql_session_reply_take(mysql_session_handle *handle);

/* How many results were taken last, or after the end are left. */
uint32_t mysql_session_reply_results(mysql_session_handle *handle, size_t *count);

/* The result of this number, in place of all that the struct held. What its kind doesn't have is 0,
 * and `text` points to no bytes there. Its texts are good until the next call on the handle other
 * than mysql_session_reply_results, _result, _state, _cell, _column and _param. `states` is 0 also
 * where not all changes can be read; mysql_session_reply_state shows those before the first bad
 * one. Answers OK, OUT_OF_RANGE, MEMORY, .. */
uint32_t mysql_session_reply_result(mysql_session_handle *handle, size_t number,
                                    mysql_session_result *result);

/* A change of the session's state that the OK packet of this number tells, or that which ended its
 * rows. It is told by its type (of the protocol's Session State Information) and the bytes of that
 * type. These are good as a result's text is. `*position` is 0 for the first change. Each call that
 * answers OK moves it on to the next one, and reads that one alone. Answers OK, OUT_OF_RANGE
 * (behind the last change, or no OK packet), BAD_PACKET (the bytes there are no change), ..; but
 * for OK the position stays. */
uint32_t mysql_session_reply_state(mysql_session_handle *handle, size_t number, size_t *position,
                                   uint8_t *type, const uint8_t **data, size_t *len);

/* Kinds of values in cells: those of mysql_session_kind, and these. */
enum mysql_session_value_kind {
    MYSQL_SESSION_FLOAT = 4,  /* the bits in uint_value */
    MYSQL_SESSION_DOUBLE = 5, /* the bits in uint_value */
    MYSQL_SESSION_DATE = 6,   /* year, month, day, hour, minute, second, micros */
    MYSQL_SESSION_TIME = 7    /* negative, days, hour, minute, second, micros */
};

typedef struct mysql_session_value {
    uint32_t kind;
    bool negative;
    uint8_t month;
    uint8_t day;
    uint8_t hour;
    uint8_t minute;
    uint8_t second;
    uint16_t year;
    uint32_t days;
    uint32_t micros;
    int64_t int_value;
    uint64_t uint_value;
    const uint8_t *bytes;
    size_t len;
} mysql_session_value;

/* The value in a cell, by the numbers of its result, its row and its column. Its bytes are good as
 * a result's text is. Answers OK, OUT_OF_RANGE, .. */
uint32_t mysql_session_reply_cell(mysql_session_handle *handle, size_t number, size_t row,
                                  size_t column, mysql_session_value *value);

/* A column of a result set, or of a prepared statement. `type` is the number of the protocol's
 * column type (of mysql_session_column_type), `flags` its Column Definition Flags, `charset` its
 * collation. */
typedef struct mysql_session_column {
    uint8_t type;
    uint8_t decimals;
    uint16_t flags;
    uint16_t charset;
    uint32_t length;
    const uint8_t *schema;
    size_t schema_len;
    const uint8_t *table;
    size_t table_len;
    const uint8_t *org_table;
    size_t org_table_len;
    const uint8_t *name;
    size_t name_len;
    const uint8_t *org_name;
    size_t org_name_len;
} mysql_session_column;

/* The column of this number of a result, both from 0; its texts are good as a result's text is.
 * Answers OK, OUT_OF_RANGE, .. */
uint32_t mysql_session_reply_column(mysql_session_handle *handle, size_t number, size_t column,
                                    mysql_session_column *shown);

/* The same of a parameter of a prepared statement. */
uint32_t mysql_session_reply_param(mysql_session_handle *handle, size_t number, size_t param,
                                   mysql_session_column *shown);

/* Ends the reply, and tells how: MYSQL_SESSION_END_WHOLE, _UNFINISHED_PACKET where it isn't whole,
 * or _FAULT. The handle has the results that weren't taken then, and takes no bytes. */
uint32_t mysql_session_reply_end(mysql_session_handle *handle, mysql_session_end *end);

/* ---- Replies written: a server's side -------------------------------------------------------- */

/* Where writing is refused: the result, the row and the cell, from 0, or the payload's number. */
typedef struct mysql_session_spot {
    size_t result;
    size_t row;
    size_t place;
    uint64_t payload;
} mysql_session_spot;

/* Makes the handle refer to a writer of the reply to a command of this kind (of
 * mysql_session_reply_kind) for a client with these capabilities. The reply's first chunk has the
 * number `first`; a payload has at most `limit` bytes, any number. Answers OK, NO_SUCH_KIND (before
 * any other), MEMORY. */
uint32_t mysql_session_writer_new(mysql_session_handle *handle, uint32_t kind,
                                  uint32_t capabilities, uint8_t first, size_t limit);

/* Each appends to the bytes of `out` the packets of the next result, or of a part of it. Or it
 * appends nothing and tells why: by MEMORY, EMPTY_HANDLE, OTHER_KIND or one of WRITE_..; `spot`
 * says where. SERVER_MORE_RESULTS_EXISTS is set or cleared in a status by `more`. An error's SQL
 * state has five bytes or none; else BAD_PACKET is the answer, before any other. For a client with
 * CLIENT_PROTOCOL_41 an error without a state is written with HY000. */
uint32_t mysql_session_writer_ok(mysql_session_handle *handle, uint64_t affected_rows,
                                 uint64_t last_insert_id, uint16_t status, uint16_t warnings,
                                 const uint8_t *info, size_t len, bool more,
                                 mysql_session_handle *out, mysql_session_spot *spot);
uint32_t mysql_session_writer_error(mysql_session_handle *handle, uint16_t code,
                                    const uint8_t *state, size_t state_len,
                                    const uint8_t *message, size_t len, mysql_session_handle *out,
                                    mysql_session_spot *spot);

/* One more column for the next mysql_session_writer_rows or _prepared. These use all columns up,
 * also where they refuse the result, but for EMPTY_HANDLE, OTHER_KIND and OUT_OF_RANGE. The name is
 * copied. Answers OK, NO_SUCH_KIND (of a column type, before any other), MEMORY, .. */
uint32_t mysql_session_writer_column(mysql_session_handle *handle, uint8_t type,
                                     const uint8_t *name, size_t len, uint16_t flags,
                                     uint16_t charset, uint32_t length, uint8_t decimals);

/* Begins rows under the columns that were given. */
uint32_t mysql_session_writer_rows(mysql_session_handle *handle, mysql_session_handle *out,
                                   mysql_session_spot *spot);

/* The next row: the values of a set, by its number from 0; OUT_OF_RANGE where there is none. */
uint32_t mysql_session_writer_row(mysql_session_handle *handle, mysql_session_handle *sets,
                                  size_t set, mysql_session_handle *out, mysql_session_spot *spot);

/* Ends the rows. */
uint32_t mysql_session_writer_end_rows(mysql_session_handle *handle, uint16_t status,
                                       uint16_t warnings, bool more, mysql_session_handle *out,
                                       mysql_session_spot *spot);

/* A prepared statement: the first `params` of the columns that were given are its parameters;
 * OUT_OF_RANGE where there are fewer. */
uint32_t mysql_session_writer_prepared(mysql_session_handle *handle, uint32_t statement,
                                       size_t params, uint16_t warnings, mysql_session_handle *out,
                                       mysql_session_spot *spot);

/* Whether the reply is whole: OK, or WRITE_NO_RESULTS, WRITE_NOT_ENDED. */
uint32_t mysql_session_writer_end(mysql_session_handle *handle, mysql_session_spot *spot);

/* ---- Packets: a stream cut into payloads, and payloads framed -------------------------------- */

/* Makes the handle refer to a reader of packets, of which the first chunk has the number `first`.
 * A payload has at most `limit` bytes, any number. Answers OK, MEMORY. */
uint32_t mysql_session_packets_new(mysql_session_handle *handle, uint8_t first, size_t limit);

/* Reads on to the end of the next packet, and tells how many bytes of the piece it used. `whole` is
 * true where a payload is whole then; else all of the piece was used. Answers OK,
 * FAULT_TOO_LARGE, FAULT_OUT_OF_SYNC, MEMORY (each from then on), EMPTY_HANDLE, OTHER_KIND. */
uint32_t mysql_session_packets_feed(mysql_session_handle *handle, const uint8_t *piece, size_t len,
                                    size_t *used, bool *whole);

/* The payload that is whole, or no bytes. It is good until the next call on the handle other
 * than this one. */
uint32_t mysql_session_packets_payload(mysql_session_handle *handle, const uint8_t **data,
                                       size_t *len);

/* The next packet's first chunk has the number 0, as that of each command has. Answers OK,
 * UNFINISHED (bytes of a packet that isn't whole came; nothing changes), EMPTY_HANDLE, OTHER_KIND.
 * Between packets mysql_session_packets_new makes a reader that goes on at any other number. While
 * a client logs in, both sides count on, and each reads every second number. */
uint32_t mysql_session_packets_restart(mysql_session_handle *handle);

/* Appends a payload to the bytes of `out`, framed: behind a header of four bytes, with the number
 * `*number`. A payload of 16777215 bytes or more takes more chunks. `*number` is then the next
 * one's.
 * Answers OK, or why nothing is appended, when `*number` stays as it was: FAULT_TOO_LARGE (more than
 * `limit` bytes), MEMORY, EMPTY_HANDLE, OTHER_KIND. */
uint32_t mysql_session_packet_put(mysql_session_handle *out, const uint8_t *payload, size_t len,
                                  uint8_t *number, size_t limit);

/* ---- Logging in ------------------------------------------------------------------------------ */

/* What a server greets a client with; a text that isn't there has the length 0. The texts lie in
 * the payload that was read. The nonce is both scrambles, of 8 and 12 bytes: the zero that servers
 * send behind the second is left out. */
typedef struct mysql_session_greeting {
    uint8_t protocol;
    uint8_t collation;
    uint16_t status;
    uint32_t connection;
    uint32_t capabilities;
    uint32_t mariadb_capabilities;
    const uint8_t *version;
    size_t version_len;
    const uint8_t *scramble_1;
    size_t scramble_1_len;
    const uint8_t *scramble_2;
    size_t scramble_2_len;
    const uint8_t *plugin;
    size_t plugin_len;
} mysql_session_greeting;

/* Reads the payload of a server's first packet. Answers OK, BAD_PACKET. */
uint32_t mysql_session_greeting_read(const uint8_t *payload, size_t len,
                                     mysql_session_greeting *greeting);

/* Appends to the bytes of `out` the payload of such a packet. It has version 10 of the protocol and
 * a zero behind the second scramble. CLIENT_SECURE_CONNECTION is set in the capabilities, and
 * CLIENT_PLUGIN_AUTH where the plugin has a length, else cleared. Clients look at MariaDB's own
 * capabilities where CLIENT_LONG_PASSWORD (bit 0) isn't set. Answers OK, BAD_PACKET (scrambles of
 * other lengths than 8 and 12, a zero byte in the version or the plugin's name), EMPTY_HANDLE,
 * OTHER_KIND, MEMORY. */
uint32_t mysql_session_greeting_put(mysql_session_handle *out, uint32_t connection,
                                    uint32_t capabilities, uint32_t mariadb_capabilities,
                                    uint8_t collation, uint16_t status,
                                    const uint8_t *version, size_t version_len,
                                    const uint8_t *scramble_1, size_t scramble_1_len,
                                    const uint8_t *scramble_2, size_t scramble_2_len,
                                    const uint8_t *plugin, size_t plugin_len);

/* What a client answers; a text that isn't there has the length 0. The texts lie in the payload
 * that was read, but for the name of a plugin that the library knows, which is the library's. */
typedef struct mysql_session_login {
    uint8_t collation;
    uint32_t capabilities;
    uint32_t mariadb_capabilities;
    const uint8_t *user;
    size_t user_len;
    const uint8_t *response;
    size_t response_len;
    const uint8_t *database;
    size_t database_len;
    const uint8_t *plugin;
    size_t plugin_len;
} mysql_session_login;

/* Reads the payload of a client's answer. Its parts go by its own capabilities, the first four
 * bytes. A client may set bits there that the greeting didn't have, as CLIENT_CONNECT_ATTRS, and
 * leave their parts out: clear these bits first. Answers OK, BAD_PACKET, MEMORY. */
uint32_t mysql_session_login_read(const uint8_t *payload, size_t len, mysql_session_login *login);

/* Appends to the bytes of `out` the payload of such an answer, with the collation
 * utf8mb4_general_ci (45) and without attributes. In the capabilities CLIENT_CONNECT_WITH_DB is set
 * where the database has a length, CLIENT_PLUGIN_AUTH where the plugin has. Else each is cleared,
 * and CLIENT_CONNECT_ATTRS always is. CLIENT_PROTOCOL_41 should be among them. A MariaDB server
 * looks at its own capabilities where CLIENT_LONG_PASSWORD (bit 0) isn't set. Answers OK,
 * BAD_PACKET, EMPTY_HANDLE, OTHER_KIND, MEMORY. BAD_PACKET is a zero byte in the user, the database
 * or the plugin's name. Or with CLIENT_SECURE_CONNECTION it is a response of more than 255 bytes,
 * unless there is CLIENT_PLUGIN_AUTH_LENENC_CLIENT_DATA. Or with neither it is a response with a
 * zero byte. */
uint32_t mysql_session_login_put(mysql_session_handle *out, uint32_t capabilities,
                                 uint32_t mariadb_capabilities, uint32_t max_packet_size,
                                 const uint8_t *user, size_t user_len,
                                 const uint8_t *response, size_t response_len,
                                 const uint8_t *database, size_t database_len,
                                 const uint8_t *plugin, size_t plugin_len);

/* ---- Replication ----------------------------------------------------------------------------- */

/* Each appends to the bytes of `out` the payload of a command of a replica, its first byte
 * included. Answers OK, EMPTY_HANDLE, OTHER_KIND, MEMORY; mysql_session_register_replica_put
 * BAD_PACKET too (a text of more than 255 bytes). */
uint32_t mysql_session_register_replica_put(mysql_session_handle *out, uint32_t server,
                                            const uint8_t *host, size_t host_len,
                                            const uint8_t *user, size_t user_len,
                                            const uint8_t *password, size_t password_len,
                                            uint16_t port);
uint32_t mysql_session_binlog_dump_put(mysql_session_handle *out, uint32_t server,
                                       uint32_t position, uint16_t flags, const uint8_t *file,
                                       size_t len);

/* The same by MySQL's global transaction identifiers, which lie in `gtids` as their text. There are
 * none, or sets as 3e11fa47-71ca-11e1-9e33-c80aa9429562:1-5 with commas between, and white space
 * around them or not. BINLOG_THROUGH_GTID (4) is set in the flags where there are sets, and else
 * cleared. Beside the answers above BAD_PACKET where that is no such text. (MariaDB takes a
 * position by @slave_connect_state in place of this command.) */
uint32_t mysql_session_binlog_dump_gtid_put(mysql_session_handle *out, uint32_t server,
                                            uint64_t position, uint16_t flags, const uint8_t *file,
                                            size_t len, const uint8_t *gtids, size_t gtids_len);

/* ---- Whole connections ----------------------------------------------------------------------- */

/* A connection is fed the bytes of both of its sides, in any pieces and order. It tells what was
 * said: each payload is one event. In each state one side's payload comes next. What comes of the
 * other waits until its turn, so the events don't depend on how the bytes arrive. Payloads are put
 * on it too: a client puts what it asks, and feeds what the server sends; a server does the
 * reverse.
 *
 * Its handle has another type, and begins as MYSQL_SESSION_NOTHING too. What is said above of
 * handles holds for it. No call looks whether it got a handle of the other type by a cast: that is
 * the program's fault, also of mysql_session_free. But a connection may pass to another thread
 * between two calls, under a lock or the like. */
typedef struct mysql_session_connection {
    void *at;
} mysql_session_connection;

enum mysql_session_side {
    MYSQL_SESSION_CLIENT = 0,
    MYSQL_SESSION_SERVER = 1,
    MYSQL_SESSION_NOBODY = 2
};

/* Makes the handle refer to a connection of which no byte came. What it referred to before is
 * freed. `client` and `server` are the longest payloads of the sides. `held` limits what is held in
 * all. Of each side as much waits unread as its longest payload takes with its headers. What `held`
 * leaves beside both is for what is kept of statements, columns and long data. Take twice as much
 * as both. Where nothing is left, no statement is prepared and no column is read: CONNECTION_KEPT.
 * It counts payloads, not memory. What is kept takes up to 25 bytes of memory for each byte
 * counted. One event takes up to 320 for each byte of its payload, until the next call. These were
 * measured (docs/COSTS.md), and no contract has them.
 * Answers OK, MEMORY. */
uint32_t mysql_session_connection_new(mysql_session_connection *connection, size_t client,
                                      size_t server, size_t held);

/* The same of a connection behind a login that was made elsewhere, by TLS or a pool. A command
 * comes next, and no byte came since. The capabilities are those that both sides have, MariaDB's own in
 * the second word. Answers OK, MEMORY. */
uint32_t mysql_session_connection_after_login(mysql_session_connection *connection,
                                              uint32_t capabilities,
                                              uint32_t mariadb_capabilities, size_t client,
                                              size_t server, size_t held);

/* Frees the connection, as mysql_session_free does an object. */
void mysql_session_connection_free(mysql_session_connection *connection);

/* Takes a piece of a side's stream, whole, and reads nothing of it yet; behind a fault it is taken
 * too, and never read. It has at most as many bytes as the side has room for, which
 * mysql_session_connection_standing tells: a long file is fed in pieces.
 * Answers OK, or why nothing of it is taken: NO_SUCH_KIND (of a side, before any other),
 * CONNECTION_CLOSED, CONNECTION_HELD (it is longer), MEMORY, EMPTY_HANDLE. At CONNECTION_HELD take
 * events first, or feed the side whose turn it is. */
uint32_t mysql_session_connection_feed(mysql_session_connection *connection, uint32_t side,
                                       const uint8_t *piece, size_t len);

/* Ends a side's stream: no more comes of it. Behind the client's end the server may say last words.
 * Answers OK, NO_SUCH_KIND, EMPTY_HANDLE. */
uint32_t mysql_session_connection_close(mysql_session_connection *connection, uint32_t side);

/* Kinds of events, and the fields that they have beside `side`. OK packets have affected_rows,
 * last_insert_id, status, warnings, text (their info) and data (changes of the session's state as
 * the packet has them). Errors have error_code, state and text (the message). */
enum mysql_session_event_kind {
    /* None: the next payload isn't there whole, or the connection is over. */
    MYSQL_SESSION_EVENT_NONE = 0,
    MYSQL_SESSION_EVENT_REJECTED = 1, /* an error in place of a greeting */
    /* text (the server's version), number (the connection's id), capabilities,
     * mariadb_capabilities, status, charset, plugin. A client that scrambles a password reads the
     * scrambles by mysql_session_greeting_read of the payload. That is shown by
     * mysql_session_connection_rest of the server, behind its header of four bytes, as long as the
     * event isn't taken. */
    MYSQL_SESSION_EVENT_GREETING = 2,
    /* capabilities, mariadb_capabilities, charset, number (the longest packet that it takes). The
     * second are 0 where capabilities has CLIENT_LONG_PASSWORD: a client of MySQL has none. */
    MYSQL_SESSION_EVENT_SECURE_REQUEST = 3,
    MYSQL_SESSION_EVENT_LOGIN = 4,          /* those, user, database, plugin, data (its response),
                                             * attributes */
    MYSQL_SESSION_EVENT_CUT_OFF_LOGIN = 5,  /* as SECURE_REQUEST */
    MYSQL_SESSION_EVENT_ACCEPTED = 6,       /* an OK packet: the user is logged in */
    MYSQL_SESSION_EVENT_DENIED = 7,         /* an error */
    MYSQL_SESSION_EVENT_AUTH_SWITCH = 8,    /* plugin, data */
    MYSQL_SESSION_EVENT_OLD_AUTH_SWITCH = 9,
    MYSQL_SESSION_EVENT_AUTH_MORE = 10,     /* data */
    MYSQL_SESSION_EVENT_NEXT_FACTOR = 11,   /* plugin, data */
    MYSQL_SESSION_EVENT_PLUGIN_DATA = 12,   /* data */
    MYSQL_SESSION_EVENT_ANSWER = 13,        /* data: the client's answer to such a one */

    MYSQL_SESSION_EVENT_OK = 20,
    MYSQL_SESSION_EVENT_ERROR = 21,
    MYSQL_SESSION_EVENT_PROGRESS = 22,      /* rows (the stage), columns (of so many), number (its
                                             * progress in thousandths of a percent), text */
    MYSQL_SESSION_EVENT_COLUMN_COUNT = 23,  /* columns, follows (whether they come) */
    MYSQL_SESSION_EVENT_COLUMN = 24,        /* mysql_session_connection_column */
    MYSQL_SESSION_EVENT_FIELD = 25,         /* the same of COM_FIELD_LIST; flags (1: it has a
                                             * default), data (the default) */
    MYSQL_SESSION_EVENT_COLUMNS_END = 26,   /* an OK packet */
    MYSQL_SESSION_EVENT_ROW = 27,           /* columns; mysql_session_connection_value, _column */
    MYSQL_SESSION_EVENT_RAW_ROW = 28,       /* data: a row whose columns aren't known */
    MYSQL_SESSION_EVENT_ROWS_END = 29,      /* an OK packet */
    MYSQL_SESSION_EVENT_FILE_REQUEST = 30,  /* text (the file's name) */
    MYSQL_SESSION_EVENT_PREPARED = 31,      /* statement, params, columns, warnings, follows */
    MYSQL_SESSION_EVENT_LINE = 32,          /* text: of COM_STATISTICS, or what begins a dump */
    MYSQL_SESSION_EVENT_FILE_DATA = 33,     /* data: the client's file; no bytes end it */
    MYSQL_SESSION_EVENT_FAREWELL = 34,      /* an error that answers nothing: the last words */

    /* Commands: 256 and the command's number. */
    MYSQL_SESSION_EVENT_QUIT = 0x101,
    MYSQL_SESSION_EVENT_INIT_DB = 0x102,         /* text */
    MYSQL_SESSION_EVENT_QUERY = 0x103,           /* text, attributes */
    MYSQL_SESSION_EVENT_FIELD_LIST = 0x104,      /* text (the table), data (a pattern) */
    MYSQL_SESSION_EVENT_CREATE_DB = 0x105,       /* text */
    MYSQL_SESSION_EVENT_DROP_DB = 0x106,         /* text */
    MYSQL_SESSION_EVENT_REFRESH = 0x107,         /* number */
    MYSQL_SESSION_EVENT_SHUTDOWN = 0x108,        /* number */
    MYSQL_SESSION_EVENT_STATISTICS = 0x109,
    MYSQL_SESSION_EVENT_PROCESS_INFO = 0x10a,
    MYSQL_SESSION_EVENT_PROCESS_KILL = 0x10c,    /* number */
    MYSQL_SESSION_EVENT_DEBUG = 0x10d,
    MYSQL_SESSION_EVENT_PING = 0x10e,
    MYSQL_SESSION_EVENT_CHANGE_USER = 0x111,     /* user, database, plugin, data, charset,
                                                  * attributes */
    MYSQL_SESSION_EVENT_BINLOG_DUMP = 0x112,     /* number (the replica), position, flags, text */
    MYSQL_SESSION_EVENT_TABLE_DUMP = 0x113,      /* database, text (the table) */
    MYSQL_SESSION_EVENT_REGISTER_REPLICA = 0x115, /* number (the replica), text (its host), user */
    MYSQL_SESSION_EVENT_PREPARE = 0x116,         /* text */
    MYSQL_SESSION_EVENT_EXECUTE = 0x117,         /* statement, params, attributes, flags (bits 0 to 2
                                                  * a cursor, others unnamed), number (the iteration
                                                  * count), data (behind the last value), text (of
                                                  * its prepare) */
    MYSQL_SESSION_EVENT_LONG_DATA = 0x118,       /* statement, number (the placeholder), data */
    MYSQL_SESSION_EVENT_CLOSE = 0x119,           /* statement */
    MYSQL_SESSION_EVENT_RESET_STATEMENT = 0x11a, /* statement */
    MYSQL_SESSION_EVENT_SET_OPTION = 0x11b,      /* number */
    MYSQL_SESSION_EVENT_FETCH = 0x11c,           /* statement, rows */
    MYSQL_SESSION_EVENT_BINLOG_DUMP_GTID = 0x11e, /* as BINLOG_DUMP */
    MYSQL_SESSION_EVENT_RESET_CONNECTION = 0x11f,
    MYSQL_SESSION_EVENT_CLONE = 0x120,           /* data */
    MYSQL_SESSION_EVENT_BULK_EXECUTE = 0x1fa,    /* statement, rows, params (in each), text, data
                                                  * (from the first row on that can't be read) */
    /* A payload that is laid out as none of these: data, and number, its first byte. Some servers run
     * such a payload; which reply follows goes by that byte. */
    MYSQL_SESSION_EVENT_OTHER = 0x200
};

/* An event. The fields that its kind doesn't have are 0. */
typedef struct mysql_session_event {
    uint32_t kind;
    uint32_t side;
    uint32_t statement;
    uint32_t capabilities;
    uint32_t mariadb_capabilities;
    uint32_t number;
    uint32_t flags;
    uint16_t status;
    uint16_t warnings;
    uint16_t error_code;
    uint16_t charset;
    uint64_t affected_rows;
    uint64_t last_insert_id;
    uint64_t position;
    size_t columns;
    size_t rows;
    size_t params;
    size_t attributes;
    const uint8_t *text;
    size_t len;
    const uint8_t *user;
    size_t user_len;
    const uint8_t *database;
    size_t database_len;
    const uint8_t *plugin;
    size_t plugin_len;
    const uint8_t *data;
    size_t data_len;
    uint8_t state[5];
    size_t state_len;
    bool follows;
} mysql_session_event;

/* Takes the next event, and shows it. What is shown of an event, here and by the calls below, is
 * good until another call on the connection. That is _next, _put, _put_packets, _put_sets, _finish,
 * _new, _after_login or _free. What is shown of a statement or of a stream's rest is good until the
 * next of these, of _feed or of _close. Answers OK, the fault of the packet that is first, MEMORY
 * (a fault too), EMPTY_HANDLE. Each further call answers the fault too; the events before it stay.
 * Nothing else changes: the calls below answer the state before the payload that has the fault. */
uint32_t mysql_session_connection_next(mysql_session_connection *connection,
                                       mysql_session_event *event);

/* The same, but a row stays where it lies, and its cells are shown by this call. `cells` are `room`
 * structs, and `columns` of the event tells how many cells the row has. The struct of each number
 * below both has what _value shows of the cell of that number. The others stay as they were, and so
 * do all where the event is no row. Cells for which there was no room are shown by _value. `cells`
 * is never NULL, not even where `room` is 0.
 *
 * Nothing of the row is copied, and memory is asked for at the first row of a result alone. _value,
 * _column and _line are about it as about any other row, but it is good until _feed and _close too.
 * Behind these they answer OUT_OF_RANGE, as _unclear does of such a row at once. Only a row of more
 * than one packet is copied. Answers what _next answers. */
uint32_t mysql_session_connection_next_lent(mysql_session_connection *connection,
                                            mysql_session_value *cells, size_t room,
                                            mysql_session_event *event);

/* Puts a payload of a side at its turn. It appends the packets to the bytes of `out`,
 * with the next numbers, and goes on as if they had come. The event that it says is shown
 * as _next shows events, and the calls below are about it. A server's last words, an error that
 * answers nothing, can't be put so.
 * Answers OK, or why it isn't put. Then nothing has changed: neither the connection nor `out`, nor
 * the event that was told last. The first that holds of these is the answer: NO_SUCH_KIND (of a
 * side), EMPTY_HANDLE, OTHER_KIND (of `out`), CONNECTION_NOT_ITS_TURN, CONNECTION_TOO_LARGE. Then
 * come the fault of a payload that can't be read here, CONNECTION_KEPT and MEMORY.
 * CONNECTION_NOT_ITS_TURN is the answer where it isn't the turn of this side, or bytes of it wait
 * unread. The same is the answer where its stream has ended or the connection has failed.
 * No command is such a payload. One that is laid out as none, as an execution of a statement that
 * isn't known, is put, and the event is EVENT_OTHER. A server answers it by an error. */
uint32_t mysql_session_connection_put(mysql_session_connection *connection, uint32_t side,
                                      const uint8_t *payload, size_t len,
                                      mysql_session_handle *out, mysql_session_event *event);

/* Puts the payloads of packets of a side, one after another, as long as it is its turn, as _put
 * does each. `packets` are whole packets as the calls that send and the writers of replies append
 * them. Their numbers may be any; within a payload of more than one packet they go on. After OK
 * `used` tells how many of the bytes were taken: all, or those before the first packet whose turn
 * hasn't come. Put the rest once it has; what is cut off at the end is left. No event is shown: the
 * calls below stay about the one that was told last. So nothing tells of a command that is laid out
 * as none. See before that _statement knows the statement. See by _standing that the capabilities
 * are those for which the packets are laid out, as mysql_session_send says.
 * Answers OK, or why the packet behind `used` bytes isn't put: those before it were put, and
 * what was appended of them stays. CONNECTION_TOO_LARGE, CONNECTION_OUT_OF_SYNC (the
 * numbers of a payload's own packets), the fault of a payload that can't be read here,
 * CONNECTION_KEPT, MEMORY. Before any other NO_SUCH_KIND, EMPTY_HANDLE, OTHER_KIND, when `used`
 * stays as it was. */
uint32_t mysql_session_connection_put_packets(mysql_session_connection *connection,
                                              uint32_t side, const uint8_t *packets, size_t len,
                                              mysql_session_handle *out, size_t *used);

/* Puts packets of a query's sets for the statement of this id, if the server counted as many
 * parameters as the query has placeholders. `packets` are what mysql_session_send appends behind
 * its prepare, by execute or in bulk; `places` is what mysql_session_place_count tells. The bytes
 * of an execution don't tell how many values it has. A server that counted another number runs it
 * with other values than were meant. So sets are put by this call, and not by _put_packets. The
 * packets are put as that call puts them: one after another, as long as it is the client's turn.
 * Answers OK, or CONNECTION_UNKNOWN_STATEMENT (the answer to its prepare hasn't come, or it is
 * closed), CONNECTION_WRONG_COUNT. Then `used` is 0, and nothing has changed: neither the
 * connection nor `out`. Behind these come the answers of _put_packets, with its `used`. Before any
 * other EMPTY_HANDLE, OTHER_KIND, when `used` stays as it was. */
uint32_t mysql_session_connection_put_sets(mysql_session_connection *connection,
                                           uint32_t statement, size_t places,
                                           const uint8_t *packets, size_t len,
                                           mysql_session_handle *out, size_t *used);

/* Kinds of values of bulk executions: those of mysql_session_value_kind, and these. */
enum mysql_session_bulk_kind {
    MYSQL_SESSION_DEFAULT = 8, /* the column's default */
    MYSQL_SESSION_IGNORE = 9   /* the column stays as it is */
};

/* A value of the event that was told last. It is the cell at a position of a row, or what a
 * parameter holds in a row of an execution. All are counted from 0. Only bulk executions have more
 * rows than one. Answers OK, OUT_OF_RANGE, EMPTY_HANDLE. */
uint32_t mysql_session_connection_value(mysql_session_connection *connection, size_t row,
                                        size_t place, mysql_session_value *value);

/* Whether servers read a value of the event that was told last each their way. It is that of a
 * parameter in a row of an execution, both numbers from 0; attributes are counted behind the
 * parameters. Such a value is one of these:
 *
 * - its length begins with fb or ff;
 * - it is a date whose length isn't 0, 4, 7 or 11, or one of the type DATE with a time of day;
 * - it is a duration whose length isn't 0, 8 or 12, or whose sign isn't 0 or 1;
 * - it is of the type INT24, YEAR, BIT or GEOMETRY;
 * - it is behind such a value;
 * - it is long data of a parameter that had another type before.
 *
 * No client library sends one, and what _value shows of it isn't what each server executes. `cells`
 * are the bytes of the command from the first such cell on; of long data alone there are none.
 * Answers OK, OUT_OF_RANGE (no event was told), EMPTY_HANDLE. */
uint32_t mysql_session_connection_unclear(mysql_session_connection *connection, size_t row,
                                          size_t place, bool *unclear, const uint8_t **cells,
                                          size_t *len);

/* An attribute of the event that was told last, by its number from 0. It is of a login or a change
 * of user (the value is bytes), of a query or an execution. Attributes are in the order in which
 * they came, two of one name too. Answers OK, OUT_OF_RANGE, EMPTY_HANDLE. */
uint32_t mysql_session_connection_attribute(mysql_session_connection *connection, size_t number,
                                            const uint8_t **name, size_t *len,
                                            mysql_session_value *value);

/* The column that the event is which was told last, by the number 0; or that of a row's cell.
 * Answers OK, OUT_OF_RANGE, EMPTY_HANDLE. */
uint32_t mysql_session_connection_column(mysql_session_connection *connection, size_t number,
                                         mysql_session_column *column);

/* The event that was told last as a line of text, without its end: whose it is, its name, its
 * fields. Behind mysql_session_connection_finish it is the state of the connection, as `end Whole`.
 * Of data of an authentication, but for a greeting's scramble, it has the length, as `(20 bytes)`.
 * So it has of a replica's password. The texts of statements are as they were sent, with passwords
 * in them. Answers OK, OUT_OF_RANGE (no event was told), MEMORY, EMPTY_HANDLE. */
uint32_t mysql_session_connection_line(mysql_session_connection *connection,
                                       const uint8_t **text, size_t *len);

/* The same line with all bytes, those of passwords and their scrambles too. Answers what _line
 * answers. */
uint32_t mysql_session_connection_line_with_secrets(mysql_session_connection *connection,
                                                    const uint8_t **text, size_t *len);

/* The same line for people, with all bytes where `secrets` is true. Bytes that are UTF-8 are in
 * double quotes, with the escapes \" \\ \n \r \t and \x with two digits, for other control characters
 * of ASCII. Other bytes are in hexadecimal, and so are texts with a character from U+0080 to U+009F.
 * The line is UTF-8, and has no control character. NULL is `NULL`, and dates and times are as the
 * server's own client shows them. Answers what _line answers. */
uint32_t mysql_session_connection_line_with_texts(mysql_session_connection *connection,
                                                  bool secrets, const uint8_t **text,
                                                  size_t *len);

/* What comes next on a connection. */
enum mysql_session_phase {
    MYSQL_SESSION_PHASE_GREETING = 0,
    MYSQL_SESSION_PHASE_RESPONSE = 1,
    MYSQL_SESSION_PHASE_AUTHENTICATION = 2,
    MYSQL_SESSION_PHASE_ANSWER = 3,
    MYSQL_SESSION_PHASE_COMMAND = 4,
    MYSQL_SESSION_PHASE_REPLY = 5,
    MYSQL_SESSION_PHASE_FILE_DATA = 6,
    MYSQL_SESSION_PHASE_OVER = 7
};

/* Why a connection is over. */
enum mysql_session_reason {
    MYSQL_SESSION_REASON_REJECTED = 0,
    MYSQL_SESSION_REASON_SECURE = 1,     /* TLS follows */
    MYSQL_SESSION_REASON_DENIED = 2,
    MYSQL_SESSION_REASON_COMPRESSED = 3, /* compressed packets follow */
    MYSQL_SESSION_REASON_QUIT = 4,
    MYSQL_SESSION_REASON_DUMP = 5,       /* a binary log or a table's bytes follow */
    MYSQL_SESSION_REASON_CLONE = 6,      /* a server's data follow */
    MYSQL_SESSION_REASON_FAREWELL = 7
};

/* How a connection is: whose turn it is (of mysql_session_side), what comes next, why it is over if
 * it is, and the capabilities in force. Then the fault that was found: its code, or OK; its side;
 * the byte of that side's stream at which its packet begins. Then how many bytes of each side a
 * feed takes now, and how many are held. */
typedef struct mysql_session_standing {
    uint32_t turn;
    uint32_t phase;
    uint32_t reason;
    uint32_t capabilities;
    uint32_t mariadb_capabilities;
    uint32_t fault;
    uint32_t fault_side;
    uint64_t fault_byte;
    size_t client_room;
    size_t server_room;
    size_t held;
} mysql_session_standing;

/* Answers OK, EMPTY_HANDLE. */
uint32_t mysql_session_connection_standing(mysql_session_connection *connection,
                                           mysql_session_standing *standing);

/* What is known of the session's mode and character set, by all that was said so far; no code. Of an
 * empty handle that is nothing. Behind a login, a change of user and a reset of the connection it is
 * nothing too: ask by MYSQL_SESSION_ASK_MODE. SECURITY.md, "The mode of a session", says what both
 * are known behind. */
void mysql_session_connection_known(mysql_session_connection *connection,
                                    mysql_session_known *known);

/* The prepared statement that this id of a command means: its text, and how many parameters it has.
 * 0xffffffff is the statement that was prepared last. Answers OK, OUT_OF_RANGE,
 * EMPTY_HANDLE. */
uint32_t mysql_session_connection_statement(mysql_session_connection *connection, uint32_t id,
                                            const uint8_t **text, size_t *len, uint16_t *params);

/* What of a side's stream is unread. Where the connection is over that is what follows in its own
 * form: TLS, compressed packets, a dump. Answers OK, NO_SUCH_KIND, EMPTY_HANDLE. */
uint32_t mysql_session_connection_rest(mysql_session_connection *connection, uint32_t side,
                                       const uint8_t **data, size_t *len);

/* The state of a connection once both of its streams have ended. */
enum mysql_session_connection_end_kind {
    MYSQL_SESSION_CONNECTION_OVER = 0,       /* `reason` says why */
    MYSQL_SESSION_CONNECTION_WHOLE = 1,      /* a command was due, and all bytes were read */
    MYSQL_SESSION_CONNECTION_UNFINISHED = 2, /* a payload of `side` comes next, and isn't whole */
    MYSQL_SESSION_CONNECTION_FAULT = 3,      /* `fault`, a code, `side` and `byte` */
    MYSQL_SESSION_CONNECTION_UNREAD = 4      /* _next has an event or a fault to tell */
};

typedef struct mysql_session_connection_end {
    uint32_t kind;
    uint32_t reason;
    uint32_t side;
    uint32_t fault;
    uint64_t byte;
} mysql_session_connection_end;

/* Ends both streams, and tells how the connection ended; take all events before. Answers OK,
 * EMPTY_HANDLE. */
uint32_t mysql_session_connection_finish(mysql_session_connection *connection,
                                         mysql_session_connection_end *end);

#ifdef __cplusplus
}
#endif

#endif
