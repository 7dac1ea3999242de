/*
 * postgres_protocol.h: the byte level of a PostgreSQL client and of a server, proved.
 *
 * Writers and a reader of a client's messages and of a server's, the binary format of values. Link libfor_c.a; it calls nothing
 * but memcpy, memmove, memset and memcmp of the C library, takes no memory, keeps nothing between two calls and has no global
 * state. (Passwords and escapes are in postgres_protocol_auth.h, libfor_c_auth.a.)
 *
 * Each call works on memory of the caller's, and keeps no pointer to it. Any number of threads may call at once, as long as no two of
 * them pass the same memory to be written.
 *
 * STATUS   A call returns PGP_OK, or a positive number that says why it did nothing. 1 to 25 are the errors of the core and never
 *          change their meaning. PGP_MORE, PGP_DONE and PGP_FULL are no errors: they say where reading stops.
 *
 * WRITERS  take `out`, `room` (how many bytes may be written there) and `written`. On PGP_OK exactly one message stands in
 *          out[0 .. *written) and the rest of the room is unchanged. On any other status *written is 0, and the contents of
 *          out[0 .. room) are unspecified (the front of the message may stand there); nothing outside it is touched. So
 *              len += n    and    send(fd, buf, len)
 *          are right after any status, but that a message is missing. To write several messages, pass buf + len and size - len.
 *
 *          HOW MUCH ROOM? Where the room is too small, and nothing else is wrong, a writer returns PGP_NO_ROOM: enlarge it (doubling
 *          serves) and call again. The pgp_*_size functions give the number of bytes beforehand, with no call into the library.
 *
 * TEXTS    are a pointer and a length, with no 0 byte at the end, in the session's encoding: any bytes will do. A text with a 0 byte is
 *          rejected (PGP_E_EMBEDDED_NULL): no name, query or value can change how a server cuts the stream.
 *
 * POINTERS A pointer and a length are memory of that length, aligned for its type. What a call writes doesn't overlap anything else that it
 *          is given. Where a length is 0 the pointer is not read. The proof speaks of pointers that are not NULL; NULL with the length 0
 *          is tested and works.
 *
 * C99 or later, C++98 or later with <stdint.h>. `make check-c` compares each declaration and struct with what the library exports.
 */
#ifndef POSTGRES_PROTOCOL_H
#define POSTGRES_PROTOCOL_H

#include <stdbool.h>
#include <stddef.h>
#include <stdint.h>
#include <string.h>

#ifdef __cplusplus
extern "C" {
#endif

/* The version of this library. */
#define PGP_VERSION_MAJOR 0
#define PGP_VERSION_MINOR 1
#define PGP_VERSION_PATCH 0

/* ---- what a call returns ---- */

typedef enum pgp_status {
    PGP_OK = 0,
    PGP_NO_ROOM = 1,                    /* the room is too small (the core's OutOfMemory)                */
    PGP_E_EMBEDDED_NULL = 2,            /* a text has a 0 byte                                           */
    PGP_E_TOO_LARGE = 3,                /* a count or a length exceeds its field                         */
    PGP_E_INVALID_LENGTH = 4,           /* a frame announces a length below 4: the stream can't go on    */
    PGP_E_UNKNOWN_TAG = 5,              /* no message of a server has the tag, no item of a tsquery      */
    PGP_E_UNKNOWN_AUTHENTICATION = 6,   /* no authentication request has the code                        */
    PGP_E_UNEXPECTED_EOF = 7,           /* a part is cut short                                           */
    PGP_E_NOT_DRAINED = 8,              /* bytes stand after a complete body, list or value              */
    PGP_E_NOT_UTF8 = 9,                 /* a text isn't UTF-8                                            */
    PGP_E_INVALID_SIZE = 10,            /* a value has the wrong number of bytes                         */
    PGP_E_INVALID_COUNT = 11,           /* a count is negative                                           */
    PGP_E_INVALID_KEY_LENGTH = 12,      /* an hstore's key has a negative length, or exceeds the end     */
    PGP_E_INVALID_VALUE_LENGTH = 13,    /* an element, a bound or an hstore's value exceeds the end      */
    PGP_E_INVALID_DIMENSION = 14,       /* a dimension of an array has a negative length                 */
    PGP_E_TOO_MANY_ELEMENTS = 15,       /* the product of the dimensions exceeds 2,147,483,647           */
    PGP_E_INVALID_BIT_LENGTH = 16,      /* a bit string's number of bits is negative                     */
    PGP_E_INVALID_NETMASK = 17,         /* a netmask has more bits than the address                      */
    PGP_E_INVALID_ADDRESS_LENGTH = 18,  /* an address doesn't have the bytes of its family               */
    PGP_E_INVALID_FAMILY = 19,          /* an address family is neither 2 nor 3                          */
    PGP_E_INVALID_VERSION = 20,         /* a label type doesn't begin with the version 1                 */
    PGP_E_INVALID_SIGN = 21,            /* a numeric's sign is none of the five                          */
    PGP_E_INVALID_SCALE = 22,           /* a numeric's scale exceeds 16,383                              */
    PGP_E_INVALID_DIGIT = 23,           /* a digit of a numeric exceeds 9,999                            */
    PGP_E_INVALID_TEXT = 24,            /* a text is no decimal number                                   */
    PGP_E_OUT_OF_RANGE = 25,            /* no numeric holds the text's number or so many digits, or no integer a numeric's */
    PGP_E_WRONG_PHASE = 32,             /* pgp_stream_*: the message is not allowed in this phase        */
    PGP_E_EMPTY_NAME = 33,              /* a parameter of a startup packet has no name                   */
    PGP_E_VERSION = 34,                 /* a startup packet of another version than 3.0 and 3.2          */
    PGP_E_KIND = 35,                    /* a range's side, a query's item, a request or a message has no kind */
    PGP_E_UNEXPECTED = 36,              /* pgp_dialogue_take: the message has no place there             */
    PGP_E_UNCERTAIN = 37,               /* pgp_dialogue_take: a copy failed after an early Sync          */
    PGP_E_UNKNOWN_PACKET = 38,          /* pgp_client_front: an opening packet has the code of none      */
    PGP_E_FORMATS = 39,                 /* pgp_bind: a format is neither 0 nor 1, or their count is wrong */
    PGP_E_NOT_FINITE = 40,              /* a numeric is NaN or an infinity, and no integer               */
    PGP_E_FRACTION = 41,                /* a digit of a numeric after the point isn't 0                  */
    /* of postgres_protocol_auth.h: the refusals of an exchange, 64 and the core's number of a ScramError, and those of a log-in */
    PGP_SCRAM_WRONG_STATE = 66, PGP_SCRAM_NOT_UTF8 = 67, PGP_SCRAM_UNEXPECTED_END = 68, PGP_SCRAM_UNEXPECTED_CHARACTER = 69,
    PGP_SCRAM_TRAILING = 70, PGP_SCRAM_INVALID_NUMBER = 71, PGP_SCRAM_INVALID_NONCE = 72, PGP_SCRAM_TOO_MANY_ITERATIONS = 73,
    PGP_SCRAM_INVALID_BASE64 = 74,
    PGP_SCRAM_SERVER = 75,              /* the server's final text is an error, behind its `e=` */
    PGP_SCRAM_VERIFICATION = 76,        /* the server did not show the password's signature */
    PGP_BAD_NONCE = 80,                 /* the caller's nonce is empty, or has a byte that is no printable ASCII or is a comma */
    PGP_BAD_BINDING = 81,               /* the kind of the channel binding is none of pgp_binding, or of pgp_offer */
    PGP_NOT_A_VERIFIER = 82,            /* the stored text is no verifier of SCRAM-SHA-256 */
    PGP_WRONG_PASSWORD = 83,            /* what was shown isn't what is stored */
    PGP_SCRAM_UNSUPPORTED_BINDING = 84, PGP_SCRAM_INVALID_FIRST = 85, PGP_SCRAM_OTHER_EXCHANGE = 86, PGP_SCRAM_INVALID_ENCODING = 87,
    PGP_SCRAM_INVALID_PROOF = 88,       /* the proof is of another password */
    PGP_LOGIN_UNDUE = 89,               /* the message has no place there in a log-in */
    PGP_LOGIN_NOT_ADMITTED = 90,        /* the server asks for a way of logging in that isn't admitted */
    PGP_LOGIN_OTHER_MECHANISM = 91,     /* the mechanism isn't that of the channel binding */
    PGP_LOGIN_TOO_FEW_ROUNDS = 92,      /* the server asks for fewer rounds than are admitted */
    PGP_CONNECTION_NO_STATUS = 93,      /* pgp_connection_take: a ReadyForQuery has another status than I, T and E */
    PGP_CONNECTION_TOO_LONG = 94,       /* pgp_connection_take: a message is announced that is too long */
    PGP_CONNECTION_NO_MEMORY = 95,      /* pgp_connection_take: malloc failed; nothing changed */
    PGP_CONNECTION_NO_SETTING_ROOM = 96, /* pgp_connection_take: the room for settings is too small; nothing changed */
    PGP_CONNECTION_NO_SETTING = 97,     /* pgp_connection_setting: none is kept under the name */
    PGP_MORE = 100,                     /* bytes are missing: read more, and call again                  */
    PGP_DONE = 101,                     /* the iterator is at its end; pgp_row: another message is next  */
    PGP_FULL = 102                      /* pgp_*_all, pgp_row: more items follow than the array holds    */
} pgp_status;

/* A text or some bytes. PGP_TEXT("user") is the pointer and the length of a literal, as two arguments of a call or in the braces of a struct pgp_bytes. */
struct pgp_bytes { const void *bytes; size_t len; };
#define PGP_TEXT(literal) (literal), sizeof(literal) - 1
static inline struct pgp_bytes pgp_bytes_of(const void *bytes, size_t len) { struct pgp_bytes b; b.bytes = bytes; b.len = len; return b; }
static inline struct pgp_bytes pgp_text(const char *text) { return pgp_bytes_of(text, strlen(text)); }   /* up to its 0 byte */

/* 1 of the proved library; 0 of one that is built of the same sources without their proofs (`make quick`). */
uint32_t pgp_is_proved(void);

/* The version of the library that runs, where PGP_VERSION_MAJOR, _MINOR and _PATCH are the header's: 10000 * major + 100 * minor + patch. */
uint32_t pgp_version(void);

/* Whether the bytes are a text as a server in UTF-8 takes one: PGP_OK, PGP_E_NOT_UTF8, or PGP_E_EMBEDDED_NULL for UTF-8 with a 0 byte. */
pgp_status pgp_is_text(const void *bytes, size_t len);

/* ---- writers: one message each ---- */

/* The packets that open a connection. */
struct pgp_pair { struct pgp_bytes name, value; };
/* Names and values, among them `user`. 3.2 is a profile of this project's own; nothing is claimed of a server's 3.2. */
enum { PGP_PROTOCOL_3_0 = 196608, PGP_PROTOCOL_3_2 = 196610 };
pgp_status pgp_startup(int32_t version, const struct pgp_pair *parameters, size_t count, uint8_t *out, size_t room, size_t *written);
pgp_status pgp_ssl_request(uint8_t *out, size_t room, size_t *written);               /* the server answers with one byte, which is no message */
/* By the number and the key of a BACKEND_KEY_DATA: 4 bytes, or 4 to 256 in 3.2; else PGP_E_INVALID_SIZE. */
pgp_status pgp_cancel_request(int32_t process_id, const void *secret_key, size_t key_len, uint8_t *out, size_t room, size_t *written);

/* Authentication. */
pgp_status pgp_password_message(const void *password, size_t len, uint8_t *out, size_t room, size_t *written);
pgp_status pgp_sasl_initial_response(const void *mechanism, size_t mechanism_len,
                                     const void *response, size_t len, uint8_t *out, size_t room, size_t *written);
pgp_status pgp_sasl_response(const void *response, size_t len, uint8_t *out, size_t room, size_t *written);

/* Simple queries, and the end. */
pgp_status pgp_query(const void *text, size_t len, uint8_t *out, size_t room, size_t *written);
pgp_status pgp_terminate(uint8_t *out, size_t room, size_t *written);

/* Extended queries. `variant` is 'S' for a statement and 'P' for a portal, and PGP_E_KIND is returned for any other. max_rows 0: no limit. */
pgp_status pgp_parse(const void *name, size_t name_len, const void *query, size_t query_len,
                     const uint32_t *types, size_t type_count, uint8_t *out, size_t room, size_t *written);
pgp_status pgp_describe(uint8_t variant, const void *name, size_t len, uint8_t *out, size_t room, size_t *written);
pgp_status pgp_execute(const void *portal, size_t len, int32_t max_rows, uint8_t *out, size_t room, size_t *written);
pgp_status pgp_close(uint8_t variant, const void *name, size_t len, uint8_t *out, size_t room, size_t *written);
pgp_status pgp_sync(uint8_t *out, size_t room, size_t *written);
pgp_status pgp_flush(uint8_t *out, size_t room, size_t *written);

/* A value of a bind: its bytes in the format that its place asks for (0 text, 1 binary), or a null, whose bytes aren't read.
   pgp_value_of makes one of a pointer and a length; a NULL pointer makes a null. */
struct pgp_value { const void *bytes; size_t bytes_len; bool is_null; };
static inline struct pgp_value pgp_value_of(const void *bytes, size_t len)
{
    struct pgp_value v;
    v.bytes = bytes ? bytes : "";
    v.bytes_len = bytes ? len : 0;
    v.is_null = !bytes;
    return v;
}
/* Formats: none (all text), one (for all), or one for each value; those of the results may be any number. PGP_E_FORMATS for another number, and for a
   format but 0 and 1. */
pgp_status pgp_bind(const void *portal, size_t portal_len, const void *statement, size_t statement_len,
                    const int16_t *formats, size_t format_count,
                    const struct pgp_value *values, size_t value_count,
                    const int16_t *result_formats, size_t result_format_count, uint8_t *out, size_t room, size_t *written);

/* A bind whose values are put where they stand, with no second buffer. pgp_bind_begin announces how many values follow; each is written to
   out + pgp_item_at(..), which has pgp_item_room(..) bytes, and added by pgp_item with its length, or is a null by pgp_item_null; pgp_bind_end
   makes the message that pgp_bind writes of the same parts.
       pgp_bind_begin(portal, 0, statement, 1, &one, 1, 2, out, room, &items);
       pgp_put_int8(n, out + pgp_item_at(room, &items), pgp_item_room(room, &items), &len);    pgp_item(len, out, room, &items);
       pgp_item_null(out, room, &items);
       pgp_bind_end(&one, 1, &items, out, room, &written);
   Each call is handed the same memory; `items` is the caller's, and written by the calls alone. Beside the errors of pgp_bind: PGP_E_INVALID_SIZE
   for an item more than were announced, and for an end before all of them stand there. On error `items`, and the bytes up to items.at, are as
   they were, so that a call may be made again with more room (and the bytes moved there). */
struct pgp_items { size_t at, left; bool has_null; };
static inline size_t pgp_item_at(size_t room, const struct pgp_items *items)
{
    return room < items->at || room - items->at < 4 ? room : items->at + 4;
}
static inline size_t pgp_item_room(size_t room, const struct pgp_items *items) { return room - pgp_item_at(room, items); }
pgp_status pgp_bind_begin(const void *portal, size_t portal_len, const void *statement, size_t statement_len,
                          const int16_t *formats, size_t format_count, size_t value_count, uint8_t *out, size_t room, struct pgp_items *items);
pgp_status pgp_item(size_t len, uint8_t *out, size_t room, struct pgp_items *items);
pgp_status pgp_item_null(uint8_t *out, size_t room, struct pgp_items *items);
pgp_status pgp_bind_end(const int16_t *result_formats, size_t result_format_count, const struct pgp_items *items,
                        uint8_t *out, size_t room, size_t *written);

/* Copies. The data go as they are: pgp_copy_data_head writes the 5 bytes before `len` bytes of data, which need not be copied. */
pgp_status pgp_copy_data_head(size_t len, uint8_t *out, size_t room, size_t *written);
pgp_status pgp_copy_data(const void *bytes, size_t len,
                         uint8_t *out, size_t room, size_t *written);        /* the whole message, where a copy does no harm */
pgp_status pgp_copy_done(uint8_t *out, size_t room, size_t *written);
pgp_status pgp_copy_fail(const void *reason, size_t len, uint8_t *out, size_t room, size_t *written);

/* How many bytes a message takes. The sums don't wrap while the parts are memory of one process. */
static inline size_t pgp_query_size(size_t len) { return 6 + len; }
static inline size_t pgp_execute_size(size_t portal_len) { return 10 + portal_len; }
static inline size_t pgp_describe_size(size_t name_len) { return 7 + name_len; }
static inline size_t pgp_parse_size(size_t name_len, size_t query_len, size_t type_count)
{
    return 9 + name_len + query_len + 4 * type_count;
}
static inline size_t pgp_bind_size(size_t portal_len, size_t statement_len, size_t format_count,
                                   const struct pgp_value *values, size_t value_count, size_t result_format_count)
{
    size_t i, size = 13 + portal_len + statement_len + 2 * format_count + 4 * value_count + 2 * result_format_count;
    for (i = 0; i < value_count; i++) size += values[i].is_null ? 0 : values[i].bytes_len;
    return size;
}
enum { PGP_SYNC_SIZE = 5, PGP_FLUSH_SIZE = 5, PGP_TERMINATE_SIZE = 5, PGP_SSL_REQUEST_SIZE = 8, PGP_COPY_DATA_HEAD_SIZE = 5 };
static inline size_t pgp_cancel_request_size(size_t key_len) { return 12 + key_len; }

/* ---- a client's stream: writers that know the phase ---- */

/* The caller makes one, with len 0 and is_open false, over memory of his own; after a send he sets len to 0 (or moves the rest to the
   front) and leaves `is_open`. A message that is not allowed in this phase is rejected with PGP_E_WRONG_PHASE: requests
   come before the startup packet, all other messages after it. Then a server that knows only the grammar reads the stream in one way. */
struct pgp_stream { uint8_t *room; size_t room_len; size_t len; bool is_open; };
pgp_status pgp_stream_ssl_request(struct pgp_stream *stream);
pgp_status pgp_stream_cancel_request(struct pgp_stream *stream, int32_t process_id, const void *secret_key, size_t key_len);
pgp_status pgp_stream_startup(struct pgp_stream *stream, int32_t version, const struct pgp_pair *parameters, size_t count);
pgp_status pgp_stream_password_message(struct pgp_stream *stream, const void *password, size_t len);
pgp_status pgp_stream_sasl_initial_response(struct pgp_stream *stream, const void *mechanism, size_t mechanism_len,
                                            const void *response, size_t len);
pgp_status pgp_stream_sasl_response(struct pgp_stream *stream, const void *response, size_t len);
pgp_status pgp_stream_query(struct pgp_stream *stream, const void *text, size_t len);
pgp_status pgp_stream_parse(struct pgp_stream *stream, const void *name, size_t name_len, const void *query, size_t query_len,
                            const uint32_t *types, size_t type_count);
pgp_status pgp_stream_bind(struct pgp_stream *stream, const void *portal, size_t portal_len, const void *statement, size_t statement_len,
                           const int16_t *formats, size_t format_count, const struct pgp_value *values, size_t value_count,
                           const int16_t *result_formats, size_t result_format_count);
/* The end of a bind whose values were put where they stand, in the place of pgp_bind_end: the calls before it are handed room + len and room_len - len. On error
   nothing is added. */
pgp_status pgp_stream_bind_end(struct pgp_stream *stream, const int16_t *result_formats, size_t result_format_count, const struct pgp_items *items);
pgp_status pgp_stream_describe(struct pgp_stream *stream, uint8_t variant, const void *name, size_t len);
pgp_status pgp_stream_execute(struct pgp_stream *stream, const void *portal, size_t len, int32_t max_rows);
pgp_status pgp_stream_close(struct pgp_stream *stream, uint8_t variant, const void *name, size_t len);
pgp_status pgp_stream_flush(struct pgp_stream *stream);
pgp_status pgp_stream_sync(struct pgp_stream *stream);
/* The head before `data_len` bytes of data, which need not be copied: send what is pending, then the data, and set len to 0. */
pgp_status pgp_stream_copy_data_head(struct pgp_stream *stream, size_t data_len);
pgp_status pgp_stream_copy_data(struct pgp_stream *stream, const void *bytes, size_t len);   /* the whole message, where a copy does no harm */
pgp_status pgp_stream_copy_done(struct pgp_stream *stream);
pgp_status pgp_stream_copy_fail(struct pgp_stream *stream, const void *reason, size_t len);
pgp_status pgp_stream_terminate(struct pgp_stream *stream);

/* ---- the messages of a server ---- */

enum pgp_kind {
    PGP_NONE = 0, PGP_AUTHENTICATION_CLEARTEXT_PASSWORD = 1, PGP_AUTHENTICATION_GSS = 2, PGP_AUTHENTICATION_GSS_CONTINUE = 3,
    PGP_AUTHENTICATION_KERBEROS_V5 = 4, PGP_AUTHENTICATION_MD5_PASSWORD = 5, PGP_AUTHENTICATION_OK = 6,
    PGP_AUTHENTICATION_SASL = 7, PGP_AUTHENTICATION_SASL_CONTINUE = 8, PGP_AUTHENTICATION_SASL_FINAL = 9,
    PGP_AUTHENTICATION_SCM_CREDENTIAL = 10, PGP_AUTHENTICATION_SSPI = 11, PGP_BACKEND_KEY_DATA = 12, PGP_BIND_COMPLETE = 13,
    PGP_CLOSE_COMPLETE = 14, PGP_COMMAND_COMPLETE = 15, PGP_COPY_DATA = 16, PGP_COPY_DONE = 17, PGP_COPY_IN_RESPONSE = 18,
    PGP_COPY_OUT_RESPONSE = 19, PGP_DATA_ROW = 20, PGP_EMPTY_QUERY_RESPONSE = 21, PGP_ERROR_RESPONSE = 22, PGP_NO_DATA = 23,
    PGP_NOTICE_RESPONSE = 24, PGP_NOTIFICATION_RESPONSE = 25, PGP_PARAMETER_DESCRIPTION = 26, PGP_PARAMETER_STATUS = 27,
    PGP_PARSE_COMPLETE = 28, PGP_PORTAL_SUSPENDED = 29, PGP_READY_FOR_QUERY = 30, PGP_ROW_DESCRIPTION = 31,
    PGP_NEGOTIATE_PROTOCOL_VERSION = 32, PGP_COPY_BOTH_RESPONSE = 33, PGP_FUNCTION_CALL_RESPONSE = 34
};

/* Some of the bytes that a call was handed: `len` of them, from bytes[at] on; at + len never passes their end. */
struct pgp_part { size_t at, len; };

/* The parts of a message, by its kind; what a kind doesn't have is 0.
     COMMAND_COMPLETE                             first: the command's tag
     ERROR_RESPONSE, NOTICE_RESPONSE              first: the fields
     COPY_DATA                                    first: the data
     AUTHENTICATION_SASL                          first: the mechanisms
     .._SASL_CONTINUE, _SASL_FINAL, _GSS_CONTINUE first: the server's text
     .._MD5_PASSWORD                              first: the salt, 4 bytes
     PARAMETER_STATUS                             first: the name      second: the value
     NOTIFICATION_RESPONSE                        first: the channel   second: the payload   number: the process
     DATA_ROW                                     first: the values    count: how many
     ROW_DESCRIPTION, PARAMETER_DESCRIPTION       first: the columns or types    count: how many
     COPY_IN_RESPONSE, _OUT_, COPY_BOTH_RESPONSE  first: the columns' formats    count: how many   byte: the whole copy's
     FUNCTION_CALL_RESPONSE                       first: the result, as a row's one value, for pgp_row_next    count: 1
     BACKEND_KEY_DATA                             first: the secret key    number: the process
     NEGOTIATE_PROTOCOL_VERSION                   first: the options   count: how many   number: the version
     READY_FOR_QUERY                              byte: 'I', 'T' or 'E'                                                      */
struct pgp_parts { struct pgp_part first, second; size_t count; int32_t number; uint8_t byte; };

struct pgp_message {
    size_t frame;             /* how many bytes the frame takes: go on at bytes + frame. 0 for PGP_MORE and PGP_E_INVALID_LENGTH */
    size_t missing;           /* with PGP_MORE, how many bytes are missing to the frame; 0 while its first 5 aren't all there    */
    struct pgp_parts parts;
    uint8_t kind;             /* enum pgp_kind; PGP_NONE unless the status is PGP_OK                                             */
    uint8_t tag;              /* the frame's first byte; 0 where frame is 0                                                      */
};

/* The message at the front of the bytes, read in place: nothing is copied. Returns
     PGP_OK                    a message: kind, parts, and the frame's length
     PGP_MORE                  no whole frame stands there: read more, and call again with these bytes first
     PGP_E_INVALID_LENGTH      the stream can't be read on
     5, 6, 7, 8                the frame is whole, and its body is malformed: it may be skipped (frame)                  */
pgp_status pgp_front(const void *bytes, size_t len, struct pgp_message *message);

/* An iterator over the items of a list, in three numbers of the caller's. Begin with pgp_walk, or with what a pgp_get_ call made. Any
   numbers are safe: what comes is an item of the bytes, or an error. */
struct pgp_cursor { size_t at, end, left; };
static inline struct pgp_cursor pgp_walk(const struct pgp_message *message)
{
    struct pgp_cursor c;
    c.at = message->parts.first.at;
    c.end = c.at + message->parts.first.len;
    c.left = message->parts.count;
    return c;
}

/* The next value of a row: bytes[start .. end), or a null; start <= end <= len holds of both. PGP_DONE after the last; an error
   (7: the value is cut short, 8: bytes stand after the last one) is returned again at each later call. Both leave the cursor and
   the column unchanged. */
struct pgp_column { size_t start, end; bool is_null; };
pgp_status pgp_row_next(const void *bytes, size_t len, struct pgp_cursor *cursor, struct pgp_column *column);

/* All values of a row in one call, into an array of the caller's: *count of them, at most `room`. PGP_OK at the row's end; PGP_FULL where
   more values follow, which the next call with the same cursor reads; 7 and 8 as pgp_row_next, after *count values. */
pgp_status pgp_row_all(const void *bytes, size_t len, struct pgp_cursor *cursor, struct pgp_column *columns, size_t room, size_t *count);

/* A row at the front of the bytes and the places of its values, in one call: what pgp_front and pgp_row_all report together. Returns
     PGP_OK      a row: *count values, whose places are columns[0 .. *count); its frame has *frame bytes, where the next message begins
     PGP_FULL    a row of more values than `room`: *count says how many; no column is written
     PGP_DONE    another message: pgp_front reads it
     PGP_MORE    no whole frame stands there
     4 to 8      the error of pgp_front; or 7 or 8, as pgp_row_next, of a row with a malformed value, which may be skipped (pgp_front has
                 its length). Columns may then be written, up to the row's count
   *frame is written with PGP_OK alone, and *count with that and PGP_FULL. */
pgp_status pgp_row(const void *bytes, size_t len, struct pgp_column *columns, size_t room, size_t *count, size_t *frame);

/* The next type of a PARAMETER_DESCRIPTION, and the next format of a COPY_IN_RESPONSE, COPY_OUT_RESPONSE or COPY_BOTH_RESPONSE: they
   return what pgp_row_next does. */
pgp_status pgp_type_next(const void *bytes, size_t len, struct pgp_cursor *cursor, uint32_t *type);
pgp_status pgp_format_next(const void *bytes, size_t len, struct pgp_cursor *cursor, uint16_t *format);

/* The next column of a ROW_DESCRIPTION. The name is some of the bytes that are handed over; a name that isn't UTF-8 is PGP_E_NOT_UTF8.
   Returns, here and below, what pgp_row_next does. */
struct pgp_field {
    struct pgp_part name;
    uint32_t table_oid;       /* the column's table, or 0            */
    uint32_t type_oid;
    int32_t type_modifier;    /* or -1                               */
    int16_t column_id;        /* the column's number there, or 0     */
    int16_t type_size;        /* in bytes; negative where it varies  */
    int16_t format;           /* 0 text, 1 binary                    */
};
pgp_status pgp_field_next(const void *bytes, size_t len, struct pgp_cursor *cursor, struct pgp_field *field);
/* All columns in one call, as pgp_row_all. */
pgp_status pgp_field_all(const void *bytes, size_t len, struct pgp_cursor *cursor, struct pgp_field *fields, size_t room, size_t *count);

/* The next field of an ERROR_RESPONSE or a NOTICE_RESPONSE: its code is a letter ('S' severity, 'C' SQLSTATE, 'M' message ..), its value any
   text. PGP_E_NOT_DRAINED where bytes stand after the 0 that ends the list. */
struct pgp_error_field { struct pgp_part value; uint8_t code; };
pgp_status pgp_error_field_next(const void *bytes, size_t len, struct pgp_cursor *cursor, struct pgp_error_field *field);

/* The next mechanism of an AUTHENTICATION_SASL, and the next option of a NEGOTIATE_PROTOCOL_VERSION, by name, in UTF-8. */
pgp_status pgp_mechanism_next(const void *bytes, size_t len, struct pgp_cursor *cursor, struct pgp_part *name);
pgp_status pgp_option_next(const void *bytes, size_t len, struct pgp_cursor *cursor, struct pgp_part *name);

/* ---- the messages of a client, as a server reads them ---- */

enum pgp_client_kind {
    PGP_CLIENT_NONE = 0, PGP_CLIENT_BIND = 1, PGP_CLIENT_CLOSE = 2, PGP_CLIENT_COPY_DATA = 3, PGP_CLIENT_COPY_DONE = 4, PGP_CLIENT_COPY_FAIL = 5,
    PGP_CLIENT_DESCRIBE = 6, PGP_CLIENT_EXECUTE = 7, PGP_CLIENT_FLUSH = 8, PGP_CLIENT_FUNCTION_CALL = 9, PGP_CLIENT_PARSE = 10,
    PGP_CLIENT_PASSWORD_MESSAGE = 11, PGP_CLIENT_QUERY = 12, PGP_CLIENT_SASL_INITIAL_RESPONSE = 13, PGP_CLIENT_SASL_RESPONSE = 14,
    PGP_CLIENT_SYNC = 15, PGP_CLIENT_TERMINATE = 16, PGP_CLIENT_STARTUP = 17, PGP_CLIENT_CANCEL_REQUEST = 18, PGP_CLIENT_SSL_REQUEST = 19,
    PGP_CLIENT_GSSENC_REQUEST = 20
};

/* The parts of a message, by its kind; what a kind doesn't have is 0.
     QUERY, COPY_FAIL, PASSWORD_MESSAGE     first: the text
     COPY_DATA, SASL_RESPONSE               first: the data
     PARSE                                  first: the statement's name   second: the query     items: the types (pgp_type_next)
     BIND                                   first: the portal             second: the statement
                                            formats, result_formats (pgp_format_next)           items: the values (pgp_row_next, pgp_row_all)
     DESCRIBE, CLOSE                        byte: 'S' or 'P', or any other that was sent        first: the name
     EXECUTE                                first: the portal             number: the greatest number of rows, or 0
     FUNCTION_CALL                          code: the function   formats   items: the arguments   number: the result's format
     SASL_INITIAL_RESPONSE                  first: the mechanism          second: the text, unless is_null
     STARTUP                                code: the minor version of 3  items: names and values (pgp_setting_next)
     CANCEL_REQUEST                         number: the process           first: the secret key
   With PGP_E_UNKNOWN_PACKET number is the packet's code: 131072 is version 2.0. */
struct pgp_client_parts {
    struct pgp_part first, second;
    struct pgp_cursor formats, items, result_formats;
    int32_t number;
    uint32_t code;
    uint8_t byte;
    bool is_null;
};

struct pgp_client_message {
    size_t frame;             /* how many bytes the message takes: go on at bytes + frame. 0 where it can't be passed, and for PGP_MORE */
    size_t missing;           /* with PGP_MORE, how many bytes are missing to the message; 0 while its length isn't all there          */
    struct pgp_client_parts parts;
    uint8_t kind;             /* enum pgp_client_kind; PGP_CLIENT_NONE unless the status is PGP_OK                                     */
    uint8_t tag;              /* the message's first byte; 0 of an opening packet, and where frame is 0                                */
    bool is_open;             /* for the next call: whether a startup packet was read, by now                                          */
};

/* Which message of tag 'p' is expected, as what the server sent last says. For all other messages it says nothing. */
enum pgp_expected { PGP_EXPECT_PASSWORD = 0, PGP_EXPECT_SASL_INITIAL = 1, PGP_EXPECT_SASL_RESPONSE = 2 };

/* The message at the front of the bytes, read in place. `is_open` is false at first, and then what the last message says. Returns
     PGP_OK                    a message: kind, parts, and how many bytes it takes. All of its lists stand there: their iterators meet no error
     PGP_MORE                  no whole message stands there: read more, and call again with these bytes first
     PGP_E_INVALID_LENGTH      the stream can't be read on
     PGP_E_UNKNOWN_PACKET      an opening packet of another version than 3, or of no request: it isn't passed (frame is 0)
     5, 7, 8, 10, 13           the message is whole, and malformed: it may be skipped (frame), but for an opening packet
     PGP_E_KIND                `expected` is none of pgp_expected; nothing is reported                                                 */
pgp_status pgp_client_front(const void *bytes, size_t len, bool is_open, uint8_t expected, struct pgp_client_message *message);

/* The next name and value of a STARTUP: they return what pgp_row_next does. */
struct pgp_setting { struct pgp_part name, value; };
pgp_status pgp_setting_next(const void *bytes, size_t len, struct pgp_cursor *cursor, struct pgp_setting *setting);

/* ---- replies: writers of a server's messages, one message each ---- */

/* A message without a body, by its kind: AUTHENTICATION_OK, _CLEARTEXT_PASSWORD, _GSS, _KERBEROS_V5, _SCM_CREDENTIAL, _SSPI, BIND_COMPLETE,
   CLOSE_COMPLETE, COPY_DONE, EMPTY_QUERY_RESPONSE, NO_DATA, PARSE_COMPLETE, PORTAL_SUSPENDED. PGP_E_KIND for another. */
pgp_status pgp_reply(uint8_t kind, uint8_t *out, size_t room, size_t *written);
/* A message of one text or some bytes: COMMAND_COMPLETE (its tag, as "SELECT 1"), COPY_DATA, AUTHENTICATION_SASL_CONTINUE, _SASL_FINAL,
   _GSS_CONTINUE. PGP_E_KIND for another. */
pgp_status pgp_reply_text(uint8_t kind, const void *text, size_t len, uint8_t *out, size_t room, size_t *written);
/* The salt has 4 bytes, else PGP_E_INVALID_SIZE. */
pgp_status pgp_reply_md5_password(const void *salt, size_t len, uint8_t *out, size_t room, size_t *written);
/* The names of mechanisms, the one that is liked best first; none is empty. */
pgp_status pgp_reply_authentication_sasl(const struct pgp_bytes *mechanisms, size_t count, uint8_t *out, size_t room, size_t *written);
/* The key has 4 to 256 bytes, else PGP_E_INVALID_SIZE. */
pgp_status pgp_reply_backend_key_data(int32_t process_id, const void *secret_key, size_t key_len, uint8_t *out, size_t room, size_t *written);
/* The newest version that the server speaks, and the options that it doesn't know. */
pgp_status pgp_reply_negotiate_protocol_version(int32_t version, const struct pgp_bytes *options, size_t count,
                                                uint8_t *out, size_t room, size_t *written);
pgp_status pgp_reply_parameter_status(const void *name, size_t name_len, const void *value, size_t value_len,
                                      uint8_t *out, size_t room, size_t *written);
pgp_status pgp_reply_notification(int32_t process_id, const void *channel, size_t channel_len, const void *payload, size_t payload_len,
                                  uint8_t *out, size_t room, size_t *written);
/* 'I' outside a transaction, 'T' in one, 'E' in a failed one. */
pgp_status pgp_reply_ready_for_query(uint8_t status, uint8_t *out, size_t room, size_t *written);
/* The columns of the rows that follow. PGP_E_TOO_LARGE for more than 65,535. */
struct pgp_described {
    struct pgp_bytes name;
    uint32_t table_oid;       /* the column's table, or 0            */
    uint32_t type_oid;
    int32_t type_modifier;    /* or -1                               */
    int16_t column_id;        /* the column's number there, or 0     */
    int16_t type_size;        /* in bytes; negative where it varies  */
    int16_t format;           /* 0 text, 1 binary                    */
};
pgp_status pgp_reply_row_description(const struct pgp_described *columns, size_t count, uint8_t *out, size_t room, size_t *written);
pgp_status pgp_reply_data_row(const struct pgp_value *values, size_t count, uint8_t *out, size_t room, size_t *written);
pgp_status pgp_reply_parameter_description(const uint32_t *types, size_t count, uint8_t *out, size_t room, size_t *written);
/* The fields of an error or a notice: a code of enum pgp_error_code, and a text. Clients expect severity ('S', 'V'), 'C' and 'M'. */
struct pgp_reported { struct pgp_bytes value; uint8_t code; };
pgp_status pgp_reply_error(const struct pgp_reported *fields, size_t count, uint8_t *out, size_t room, size_t *written);
pgp_status pgp_reply_notice(const struct pgp_reported *fields, size_t count, uint8_t *out, size_t room, size_t *written);
/* A copy's format, 0 text and 1 binary, as a whole and of each column. */
pgp_status pgp_reply_copy_in(uint8_t format, const uint16_t *column_formats, size_t count, uint8_t *out, size_t room, size_t *written);
pgp_status pgp_reply_copy_out(uint8_t format, const uint16_t *column_formats, size_t count, uint8_t *out, size_t room, size_t *written);

/* ---- which message answers which request ---- */

/* Requests are asked in the order in which they are sent, each with a number of the caller's, and every message of the server is taken as
   it comes: pgp_dialogue_take says which request it answers, and no answer is attributed to another request. The state is the caller's: an
   array of pending requests and some numbers, all 0 at first, which the calls alone write.

       struct pgp_slot slots[64] = {{0, 0}};
       struct pgp_dialogue dialogue = {slots, 64, 0, 0, 0, 0};

   CopyData, Flush, Terminate and the words of a log-in are not asked. Where an Execute or a Query asks for the data of a copy, send Sync after
   CopyDone or CopyFail: a server reads an earlier one as part of the copy, and where the copy fails then, PGP_E_UNCERTAIN is returned. */
enum pgp_request {
    PGP_REQUEST_STARTUP = 0, PGP_REQUEST_QUERY = 1, PGP_REQUEST_PARSE = 2, PGP_REQUEST_BIND = 3, PGP_REQUEST_CLOSE = 4,
    PGP_REQUEST_DESCRIBE_STATEMENT = 5, PGP_REQUEST_DESCRIBE_PORTAL = 6, PGP_REQUEST_EXECUTE = 7, PGP_REQUEST_FUNCTION_CALL = 8,
    PGP_REQUEST_SYNC = 9, PGP_REQUEST_COPY_DONE = 10, PGP_REQUEST_COPY_FAIL = 11
};
enum pgp_what {
    PGP_PART = 1,             /* part of the answer to the request `name`, and more follows         */
    PGP_LAST = 2,             /* the last message of the answer to the request `name`               */
    PGP_ASIDE = 3,            /* a notice, a notification or a setting, which answers no request    */
    PGP_ENDED = 4             /* an error that ends the session                                     */
};
struct pgp_slot { uint64_t name; uint8_t request; };
struct pgp_dialogue { struct pgp_slot *room; size_t room_len; size_t start, end; uint64_t name; uint8_t stage; };
struct pgp_event { uint64_t name; uint8_t what; };
/* PGP_NO_ROOM where the array is full (move it to a longer one, and ask again), PGP_E_KIND for no request; then nothing changes. */
pgp_status pgp_dialogue_ask(struct pgp_dialogue *dialogue, uint8_t request, uint64_t name);
/* By the message's kind. PGP_E_UNEXPECTED and PGP_E_UNCERTAIN: close the connection; from then on no message is attributed. */
pgp_status pgp_dialogue_take(struct pgp_dialogue *dialogue, uint8_t kind, struct pgp_event *event);
/* Whether no request awaits an answer: a pooler may hand the server to another client. */
pgp_status pgp_dialogue_is_idle(const struct pgp_dialogue *dialogue, bool *idle);
/* The first request that is to end; PGP_DONE, and *name is unchanged, where all have ended. All that were asked before it have ended, each once: its last message
   was reported, or the server passes over it, as over an Execute behind a Bind that failed, and nothing will be. Of names that rise those below *name have
   ended. It changes where pgp_dialogue_take reports PGP_LAST or PGP_ENDED, or returns an error; and what is asked behind an error, before a Sync, has ended at
   once. After a pgp_connection_take: of &connection->dialogue. */
pgp_status pgp_dialogue_first_open(const struct pgp_dialogue *dialogue, uint64_t *name);

/* ---- values in the binary format ---- */

/* A text and a bytea are their bytes as they stand, and need no call. So are a uuid (16 bytes) and a macaddr (6): their calls check
   the number of bytes, and return PGP_E_INVALID_SIZE for another.
   Floating-point numbers cross as their bits; pgp_float4_bits and so on turn them. On error a get leaves *value unchanged.
   Some types have the bytes of another: a money of an int8 (in the currency's smallest unit), an xid8 of an lsn, an xid, a cid and a regclass
   of an oid, an int2vector and an oidvector of an array. */
pgp_status pgp_put_bool(bool value, uint8_t *out, size_t room, size_t *written);
pgp_status pgp_get_bool(const void *bytes, size_t len, bool *value);
pgp_status pgp_put_int2(int16_t value, uint8_t *out, size_t room, size_t *written);
pgp_status pgp_get_int2(const void *bytes, size_t len, int16_t *value);
pgp_status pgp_put_int4(int32_t value, uint8_t *out, size_t room, size_t *written);
pgp_status pgp_get_int4(const void *bytes, size_t len, int32_t *value);
pgp_status pgp_put_int8(int64_t value, uint8_t *out, size_t room, size_t *written);
pgp_status pgp_get_int8(const void *bytes, size_t len, int64_t *value);
pgp_status pgp_put_oid(uint32_t value, uint8_t *out, size_t room, size_t *written);
pgp_status pgp_get_oid(const void *bytes, size_t len, uint32_t *value);
pgp_status pgp_put_lsn(uint64_t value, uint8_t *out, size_t room, size_t *written);
pgp_status pgp_get_lsn(const void *bytes, size_t len, uint64_t *value);
pgp_status pgp_put_char(int8_t value, uint8_t *out, size_t room, size_t *written);
pgp_status pgp_get_char(const void *bytes, size_t len, int8_t *value);   /* "char", one byte */
pgp_status pgp_put_uuid(const void *id, size_t len, uint8_t *out, size_t room, size_t *written);
pgp_status pgp_get_uuid(const void *bytes, size_t len);
pgp_status pgp_put_macaddr(const void *address, size_t len, uint8_t *out, size_t room, size_t *written);
pgp_status pgp_get_macaddr(const void *bytes, size_t len);
/* A macaddr8 has 8 bytes: PGP_E_UNEXPECTED_EOF for fewer, PGP_E_NOT_DRAINED for more. */
pgp_status pgp_put_macaddr8(const void *address, size_t len, uint8_t *out, size_t room, size_t *written);
pgp_status pgp_get_macaddr8(const void *bytes, size_t len);
/* microseconds, and days, since 2000-01-01 */
pgp_status pgp_put_timestamp(int64_t value, uint8_t *out, size_t room, size_t *written);
pgp_status pgp_get_timestamp(const void *bytes, size_t len, int64_t *value);
pgp_status pgp_put_time(int64_t value, uint8_t *out, size_t room, size_t *written);
pgp_status pgp_get_time(const void *bytes, size_t len, int64_t *value);   /* since midnight */
pgp_status pgp_put_date(int32_t value, uint8_t *out, size_t room, size_t *written);
pgp_status pgp_get_date(const void *bytes, size_t len, int32_t *value);
pgp_status pgp_put_float4(uint32_t bits, uint8_t *out, size_t room, size_t *written);
pgp_status pgp_get_float4(const void *bytes, size_t len, uint32_t *bits);
pgp_status pgp_put_float8(uint64_t bits, uint8_t *out, size_t room, size_t *written);
pgp_status pgp_get_float8(const void *bytes, size_t len, uint64_t *bits);

/* A numeric by its decimal text. A put takes what the server takes: digits, a point, an exponent, a sign; NaN, Infinity; it keeps as many
   places as the text shows. A get writes what the server shows. Errors: PGP_E_INVALID_TEXT, PGP_E_OUT_OF_RANGE, PGP_E_NOT_UTF8; and for bytes 7, 8, 21 to 23. */
pgp_status pgp_put_numeric_text(const void *text, size_t len, uint8_t *out, size_t room, size_t *written);
pgp_status pgp_get_numeric_text(const void *bytes, size_t len, uint8_t *out, size_t room, size_t *written);
/* A numeric that is an integer, whatever its scale; a put writes it with no places after the point. Of 128 bits the value is high * 2^64 + low. A get returns
   PGP_E_NOT_FINITE, PGP_E_FRACTION, or PGP_E_OUT_OF_RANGE where the type doesn't hold the integer; and for bytes 7, 8, 21 to 23. */
pgp_status pgp_put_numeric_int64(int64_t value, uint8_t *out, size_t room, size_t *written);
pgp_status pgp_get_numeric_int64(const void *bytes, size_t len, int64_t *value);
pgp_status pgp_put_numeric_int128(int64_t high, uint64_t low, uint8_t *out, size_t room, size_t *written);
pgp_status pgp_get_numeric_int128(const void *bytes, size_t len, int64_t *high, uint64_t *low);
/* A numeric by its parts, as numeric_send of the server (PostgreSQL 15) sends them, for a decimal type of the caller's. A number with an end (PGP_NUMERIC_FINITE) is `count`
   digits to the base 10,000, of which the first counts 10,000 to the power `weight`, and shows `scale` decimal places; the digit of index i is
   256 * bytes[digits + 2 * i] + bytes[digits + 2 * i + 1]. So 12345.678 is the digits 1, 2345 and 6780 with the weight 1 and the scale 3. What has no end has 0 for all
   but `kind` and `digits`. A get's errors: 7, 8, 21 to 23.
   A put writes a number with an end, its digits as they are: PGP_E_INVALID_SCALE for more than 16,383 places, PGP_E_OUT_OF_RANGE for more than 65,535 digits,
   PGP_E_INVALID_DIGIT for one above 9,999. pgp_put_numeric_text writes NaN and the infinities. */
enum pgp_numeric_kind { PGP_NUMERIC_FINITE = 0, PGP_NUMERIC_NAN = 1, PGP_NUMERIC_POS_INFINITY = 2, PGP_NUMERIC_NEG_INFINITY = 3 };
struct pgp_numeric { size_t digits; int16_t weight; uint16_t scale, count; uint8_t kind; bool negative; };
pgp_status pgp_put_numeric(bool negative, int16_t weight, uint16_t scale, const uint16_t *digits, size_t count,
                           uint8_t *out, size_t room, size_t *written);
pgp_status pgp_get_numeric(const void *bytes, size_t len, struct pgp_numeric *value);

/* An interval: months, days and microseconds are apart; since PostgreSQL 17 the greatest value of all three is infinity, the least of all three -infinity. A timetz: microseconds since midnight, and seconds west of Greenwich. */
struct pgp_interval { int64_t microseconds; int32_t days, months; };
struct pgp_timetz { int64_t microseconds; int32_t zone; };
pgp_status pgp_put_interval(const struct pgp_interval *value, uint8_t *out, size_t room, size_t *written);
pgp_status pgp_get_interval(const void *bytes, size_t len, struct pgp_interval *value);
pgp_status pgp_put_timetz(const struct pgp_timetz *value, uint8_t *out, size_t room, size_t *written);
pgp_status pgp_get_timetz(const void *bytes, size_t len, struct pgp_timetz *value);

/* A jsonb: its JSON, in UTF-8, which isn't parsed. (A json is its text; a jsonpath has the bytes of a jsonb.) */
pgp_status pgp_put_jsonb(const void *json, size_t len, uint8_t *out, size_t room, size_t *written);
pgp_status pgp_get_jsonb(const void *bytes, size_t len, struct pgp_part *json);
/* The types of the module ltree, by their texts, in UTF-8. */
pgp_status pgp_put_ltree(const void *text, size_t len, uint8_t *out, size_t room, size_t *written);
pgp_status pgp_get_ltree(const void *bytes, size_t len, struct pgp_part *text);
pgp_status pgp_put_lquery(const void *text, size_t len, uint8_t *out, size_t room, size_t *written);
pgp_status pgp_get_lquery(const void *bytes, size_t len, struct pgp_part *text);
pgp_status pgp_put_ltxtquery(const void *text, size_t len, uint8_t *out, size_t room, size_t *written);
pgp_status pgp_get_ltxtquery(const void *bytes, size_t len, struct pgp_part *text);

/* Geometry. A coordinate crosses as the bits of a float8 (pgp_float8_bits, pgp_float8_of). A line has the points with a * x + b * y + c = 0. */
struct pgp_point { uint64_t x, y; };
struct pgp_box { struct pgp_point upper_right, lower_left; };
struct pgp_line { uint64_t a, b, c; };
struct pgp_lseg { struct pgp_point start, end; };
struct pgp_circle { struct pgp_point center; uint64_t radius; };
pgp_status pgp_put_point(const struct pgp_point *value, uint8_t *out, size_t room, size_t *written);
pgp_status pgp_get_point(const void *bytes, size_t len, struct pgp_point *value);
pgp_status pgp_put_box(const struct pgp_box *value, uint8_t *out, size_t room, size_t *written);
pgp_status pgp_get_box(const void *bytes, size_t len, struct pgp_box *value);
pgp_status pgp_put_line(const struct pgp_line *value, uint8_t *out, size_t room, size_t *written);
pgp_status pgp_get_line(const void *bytes, size_t len, struct pgp_line *value);
pgp_status pgp_put_lseg(const struct pgp_lseg *value, uint8_t *out, size_t room, size_t *written);
pgp_status pgp_get_lseg(const void *bytes, size_t len, struct pgp_lseg *value);
pgp_status pgp_put_circle(const struct pgp_circle *value, uint8_t *out, size_t room, size_t *written);
pgp_status pgp_get_circle(const void *bytes, size_t len, struct pgp_circle *value);
/* A polygon, and a path, which may be closed: a cursor over its points; and written. */
pgp_status pgp_put_polygon(const struct pgp_point *points, size_t count, uint8_t *out, size_t room, size_t *written);
pgp_status pgp_get_polygon(const void *bytes, size_t len, struct pgp_cursor *points);
pgp_status pgp_put_path(bool is_closed, const struct pgp_point *points, size_t count, uint8_t *out, size_t room, size_t *written);
pgp_status pgp_get_path(const void *bytes, size_t len, bool *is_closed, struct pgp_cursor *points);
pgp_status pgp_point_next(const void *bytes, size_t len, struct pgp_cursor *cursor, struct pgp_point *point);

/* A tid: the number of a block, and of a row in it. */
struct pgp_tid { uint32_t block; uint16_t offset; };
pgp_status pgp_put_tid(const struct pgp_tid *value, uint8_t *out, size_t room, size_t *written);
pgp_status pgp_get_tid(const void *bytes, size_t len, struct pgp_tid *value);

/* A pg_snapshot: every transaction below xmin is over, none from xmax on had begun, and of those between the ones at the cursor were running. */
struct pgp_snapshot { struct pgp_cursor running; uint64_t xmin, xmax; };
pgp_status pgp_get_snapshot(const void *bytes, size_t len, struct pgp_snapshot *value);
pgp_status pgp_xid_next(const void *bytes, size_t len, struct pgp_cursor *cursor, uint64_t *xid);
/* To write one: a server wants the transactions in order, and between the bounds. */
pgp_status pgp_put_snapshot(uint64_t xmin, uint64_t xmax, const uint64_t *running, size_t count, uint8_t *out, size_t room, size_t *written);

/* A tsvector: a cursor over its lexemes, each the place of a text in UTF-8, and a cursor over its positions. A position's number, from 1 on, stands in the lowest
   14 bits (position & PGP_POSITION), its weight in the highest 2 (position >> 14: 0 for D, 1 for C, 2 for B, 3 for A). */
enum { PGP_POSITION = 0x3fff, PGP_WEIGHT_D = 0, PGP_WEIGHT_C = 0x4000, PGP_WEIGHT_B = 0x8000, PGP_WEIGHT_A = 0xc000 };
struct pgp_lexeme { struct pgp_part text; struct pgp_cursor positions; };
pgp_status pgp_get_tsvector(const void *bytes, size_t len, struct pgp_cursor *lexemes);
pgp_status pgp_lexeme_next(const void *bytes, size_t len, struct pgp_cursor *cursor, struct pgp_lexeme *lexeme);
pgp_status pgp_position_next(const void *bytes, size_t len, struct pgp_cursor *cursor, uint16_t *position);
/* To write one: the lexemes as they come, each position as 5 | PGP_WEIGHT_A. A server wants both in order and each once, and bounds their number. PGP_E_NOT_UTF8
   and PGP_E_EMBEDDED_NULL for a text, PGP_E_TOO_LARGE for more than 65,535 positions of one. */
struct pgp_word { struct pgp_bytes text; const uint16_t *positions; size_t positions_len; };
pgp_status pgp_put_tsvector(const struct pgp_word *lexemes, size_t count, uint8_t *out, size_t room, size_t *written);

/* A tsquery: a cursor over its items, each an operand (its text in UTF-8; `weights` that a lexeme may have, 1 for D, 2 for C, 4 for B, 8 for A, 0 for any; whether a
   lexeme need only begin so), or an operator, which stands before its operands, the right one first; of a phrase `distance` is how many positions its operands are
   apart. What an item has no use for is 0. Bytes that are no item of these kinds are PGP_E_UNKNOWN_TAG. */
enum { PGP_TS_OPERAND = 0, PGP_TS_NOT = 1, PGP_TS_AND = 2, PGP_TS_OR = 3, PGP_TS_PHRASE = 4 };
struct pgp_query_item { struct pgp_part text; uint16_t distance; uint8_t kind, weights; bool is_prefix; };
pgp_status pgp_get_tsquery(const void *bytes, size_t len, struct pgp_cursor *items);
pgp_status pgp_query_item_next(const void *bytes, size_t len, struct pgp_cursor *cursor, struct pgp_query_item *item);
/* To write one: the items as they come; whether each operator has its operands is the server's to say. PGP_E_KIND for a kind of none, PGP_E_NOT_UTF8 and
   PGP_E_EMBEDDED_NULL for the text of an operand; what an item has no use for isn't read. */
struct pgp_query_node { struct pgp_bytes text; uint16_t distance; uint8_t kind, weights; bool is_prefix; };
pgp_status pgp_put_tsquery(const struct pgp_query_node *items, size_t count, uint8_t *out, size_t room, size_t *written);

/* An inet or a cidr: an address of 4 or 16 bytes, and how many of its first bits name the network. PGP_E_INVALID_ADDRESS_LENGTH for another
   number of bytes, PGP_E_INVALID_NETMASK for more bits than there are. (bytes[2] of a value is 1 for a cidr.) pgp_put_inet_any takes any netmask. A
   server takes a cidr only where the bits after those of the network are 0, which isn't checked. */
enum { PGP_FAMILY_IPV4 = 2, PGP_FAMILY_IPV6 = 3 };
struct pgp_inet { struct pgp_part address; uint8_t family; uint8_t netmask; };
pgp_status pgp_put_inet(const void *address, size_t len, uint8_t netmask, uint8_t *out, size_t room, size_t *written);
pgp_status pgp_put_inet_any(const void *address, size_t len, uint8_t netmask, uint8_t *out, size_t room, size_t *written);
pgp_status pgp_put_cidr(const void *address, size_t len, uint8_t netmask, uint8_t *out, size_t room, size_t *written);
pgp_status pgp_get_inet(const void *bytes, size_t len, struct pgp_inet *value);

/* A bit or a varbit: how many bits, in (bits + 7) / 8 bytes, the first bit highest; else PGP_E_INVALID_SIZE. What pads the last byte is any.
   A value's bits stand after its first 4 bytes. */
pgp_status pgp_put_varbit(size_t bits, const void *bytes, size_t len, uint8_t *out, size_t room, size_t *written);
pgp_status pgp_get_varbit(const void *bytes, size_t len, size_t *bits);

/* A range of any type, by the places of its bounds' values: bytes[start .. end), in the format of the type. */
enum { PGP_UNBOUNDED = 0, PGP_INCLUSIVE = 1, PGP_EXCLUSIVE = 2 };
struct pgp_bound { struct pgp_column value; uint8_t kind; };
struct pgp_range { struct pgp_bound lower, upper; bool is_empty; };
pgp_status pgp_get_range(const void *bytes, size_t len, struct pgp_range *value);
/* To write one: each side's kind, and the value of its bound in the format of the type, which isn't read where there is no bound. A kind of
   none of the three is PGP_E_KIND. */
struct pgp_side { struct pgp_value value; uint8_t kind; };
pgp_status pgp_put_range(const struct pgp_side *lower, const struct pgp_side *upper, uint8_t *out, size_t room, size_t *written);
pgp_status pgp_put_empty_range(uint8_t *out, size_t room, size_t *written);

/* An array: its head, and cursors over its dimensions and its elements (row by row, the last dimension the fastest).
   has_nulls is the flag of the head; the elements say it themselves. */
struct pgp_array { struct pgp_cursor dimensions, elements; uint32_t element_type; bool has_nulls; };
struct pgp_dimension { int32_t len, lower_bound; };
pgp_status pgp_get_array(const void *bytes, size_t len, struct pgp_array *value);
/* To write one: an array of one dimension, whose index begins at 1; each element in the format of its type, or a null. */
pgp_status pgp_put_array(uint32_t element_type, const struct pgp_value *elements, size_t count, uint8_t *out, size_t room, size_t *written);
/* The same of any dimensions; the elements come row by row, the last dimension the fastest. PGP_E_INVALID_DIMENSION for a negative length, PGP_E_TOO_MANY_ELEMENTS
   for a product past 2,147,483,647, PGP_E_INVALID_SIZE where it isn't the number of elements. No dimensions are an array of nothing. */
pgp_status pgp_put_array_of(uint32_t element_type, const struct pgp_dimension *dimensions, size_t dimension_count,
                            const struct pgp_value *elements, size_t count, uint8_t *out, size_t room, size_t *written);
/* The same, with elements that are put where they stand, as the values of pgp_bind_begin are: begin, pgp_item or pgp_item_null for each, end. As a value of a
   bind its memory is that of the bind's item, and it has a struct pgp_items of its own. */
pgp_status pgp_array_begin(uint32_t element_type, const struct pgp_dimension *dimensions, size_t dimension_count,
                           uint8_t *out, size_t room, struct pgp_items *items);
pgp_status pgp_array_end(const struct pgp_items *items, uint8_t *out, size_t room, size_t *written);
pgp_status pgp_dimension_next(const void *bytes, size_t len, struct pgp_cursor *cursor, struct pgp_dimension *dimension);
pgp_status pgp_element_next(const void *bytes, size_t len, struct pgp_cursor *cursor, struct pgp_column *element);
/* All elements in one call, as pgp_row_all. */
pgp_status pgp_element_all(const void *bytes, size_t len, struct pgp_cursor *cursor, struct pgp_column *items, size_t room, size_t *count);

/* An hstore: a cursor over its entries, each a key and a value or a null, in UTF-8. */
struct pgp_entry { struct pgp_part key; struct pgp_column value; };
pgp_status pgp_get_hstore(const void *bytes, size_t len, struct pgp_cursor *entries);
pgp_status pgp_entry_next(const void *bytes, size_t len, struct pgp_cursor *cursor, struct pgp_entry *entry);
/* To write one: keys and values as they come (of equal keys a server keeps one). Key and value have to be UTF-8, else PGP_E_NOT_UTF8. */
struct pgp_key_value { struct pgp_bytes key; struct pgp_value value; };
pgp_status pgp_put_hstore(const struct pgp_key_value *pairs, size_t count, uint8_t *out, size_t room, size_t *written);

/* A row or a composite value: a cursor over its fields, each a type and a value or a null. A multirange: a cursor over its ranges, each the place of what
   pgp_get_range reads. */
struct pgp_member { struct pgp_column value; uint32_t of_type; };
pgp_status pgp_get_record(const void *bytes, size_t len, struct pgp_cursor *fields);
pgp_status pgp_member_next(const void *bytes, size_t len, struct pgp_cursor *cursor, struct pgp_member *member);
pgp_status pgp_get_multirange(const void *bytes, size_t len, struct pgp_cursor *ranges);
pgp_status pgp_multirange_next(const void *bytes, size_t len, struct pgp_cursor *cursor, struct pgp_part *range);
/* To write them: each field's value, in the format of its type, or a null, and its type; the bytes of each range, as pgp_put_range wrote them. */
struct pgp_typed { struct pgp_value value; uint32_t of_type; };
pgp_status pgp_put_record(const struct pgp_typed *fields, size_t count, uint8_t *out, size_t room, size_t *written);
pgp_status pgp_put_multirange(const struct pgp_bytes *ranges, size_t count, uint8_t *out, size_t room, size_t *written);

/* The server's fixed types, by number: those of its values, and of arrays of them. */
enum pgp_oid {
    PGP_OID_BOOL = 16, PGP_OID_BYTEA = 17, PGP_OID_CHAR = 18, PGP_OID_NAME = 19, PGP_OID_INT8 = 20, PGP_OID_INT2 = 21, PGP_OID_INT2VECTOR = 22,
    PGP_OID_INT4 = 23, PGP_OID_TEXT = 25, PGP_OID_OID = 26, PGP_OID_TID = 27, PGP_OID_OIDVECTOR = 30, PGP_OID_JSON = 114, PGP_OID_XML = 142,
    PGP_OID_POINT = 600, PGP_OID_LSEG = 601, PGP_OID_PATH = 602, PGP_OID_BOX = 603, PGP_OID_POLYGON = 604, PGP_OID_LINE = 628, PGP_OID_CIDR = 650,
    PGP_OID_FLOAT4 = 700, PGP_OID_FLOAT8 = 701, PGP_OID_CIRCLE = 718, PGP_OID_MACADDR8 = 774, PGP_OID_MONEY = 790, PGP_OID_MACADDR = 829,
    PGP_OID_INET = 869, PGP_OID_BPCHAR = 1042, PGP_OID_VARCHAR = 1043, PGP_OID_DATE = 1082, PGP_OID_TIME = 1083, PGP_OID_TIMESTAMP = 1114,
    PGP_OID_TIMESTAMPTZ = 1184, PGP_OID_INTERVAL = 1186, PGP_OID_TIMETZ = 1266, PGP_OID_BIT = 1560, PGP_OID_VARBIT = 1562, PGP_OID_NUMERIC = 1700,
    PGP_OID_RECORD = 2249, PGP_OID_UUID = 2950, PGP_OID_TXID_SNAPSHOT = 2970, PGP_OID_PG_LSN = 3220, PGP_OID_TSVECTOR = 3614, PGP_OID_TSQUERY = 3615,
    PGP_OID_JSONB = 3802, PGP_OID_INT4RANGE = 3904, PGP_OID_NUMRANGE = 3906, PGP_OID_TSRANGE = 3908, PGP_OID_TSTZRANGE = 3910,
    PGP_OID_DATERANGE = 3912, PGP_OID_INT8RANGE = 3926, PGP_OID_JSONPATH = 4072, PGP_OID_INT4MULTIRANGE = 4451, PGP_OID_NUMMULTIRANGE = 4532,
    PGP_OID_TSMULTIRANGE = 4533, PGP_OID_TSTZMULTIRANGE = 4534, PGP_OID_DATEMULTIRANGE = 4535, PGP_OID_INT8MULTIRANGE = 4536,
    PGP_OID_PG_SNAPSHOT = 5038, PGP_OID_XID8 = 5069, PGP_OID_OID8 = 6437 /* PostgreSQL 19 */,
    PGP_OID_BOOL_ARRAY = 1000, PGP_OID_BYTEA_ARRAY = 1001, PGP_OID_INT2_ARRAY = 1005, PGP_OID_INT4_ARRAY = 1007, PGP_OID_TEXT_ARRAY = 1009,
    PGP_OID_INT8_ARRAY = 1016, PGP_OID_FLOAT4_ARRAY = 1021, PGP_OID_FLOAT8_ARRAY = 1022, PGP_OID_NUMERIC_ARRAY = 1231, PGP_OID_UUID_ARRAY = 2951
};

/* What the fields of an ERROR_RESPONSE or a NOTICE_RESPONSE are about. */
enum pgp_error_code {
    PGP_FIELD_SEVERITY = 'S', PGP_FIELD_SEVERITY_NONLOCALIZED = 'V', PGP_FIELD_SQLSTATE = 'C', PGP_FIELD_MESSAGE = 'M', PGP_FIELD_DETAIL = 'D',
    PGP_FIELD_HINT = 'H', PGP_FIELD_POSITION = 'P', PGP_FIELD_INTERNAL_POSITION = 'p', PGP_FIELD_INTERNAL_QUERY = 'q', PGP_FIELD_WHERE = 'W',
    PGP_FIELD_SCHEMA = 's', PGP_FIELD_TABLE = 't', PGP_FIELD_COLUMN = 'c', PGP_FIELD_DATA_TYPE = 'd', PGP_FIELD_CONSTRAINT = 'n',
    PGP_FIELD_FILE = 'F', PGP_FIELD_LINE = 'L', PGP_FIELD_ROUTINE = 'R'
};

/* A timestamptz is in UTC. These two say infinity, before or after all others, of a timestamp and of a date. */
#define PGP_TIMESTAMP_INFINITY INT64_MAX
#define PGP_TIMESTAMP_MINUS_INFINITY INT64_MIN
#define PGP_DATE_INFINITY INT32_MAX
#define PGP_DATE_MINUS_INFINITY INT32_MIN

/* The name of a status, and of a kind of messages; "?" for a number that is none. */
static inline const char *pgp_status_name(int status)
{
    static const char *const names[] = {
        "PGP_OK", "PGP_NO_ROOM", "PGP_E_EMBEDDED_NULL", "PGP_E_TOO_LARGE", "PGP_E_INVALID_LENGTH", "PGP_E_UNKNOWN_TAG",
        "PGP_E_UNKNOWN_AUTHENTICATION", "PGP_E_UNEXPECTED_EOF", "PGP_E_NOT_DRAINED", "PGP_E_NOT_UTF8", "PGP_E_INVALID_SIZE",
        "PGP_E_INVALID_COUNT", "PGP_E_INVALID_KEY_LENGTH", "PGP_E_INVALID_VALUE_LENGTH", "PGP_E_INVALID_DIMENSION", "PGP_E_TOO_MANY_ELEMENTS",
        "PGP_E_INVALID_BIT_LENGTH", "PGP_E_INVALID_NETMASK", "PGP_E_INVALID_ADDRESS_LENGTH", "PGP_E_INVALID_FAMILY", "PGP_E_INVALID_VERSION",
        "PGP_E_INVALID_SIGN", "PGP_E_INVALID_SCALE", "PGP_E_INVALID_DIGIT", "PGP_E_INVALID_TEXT", "PGP_E_OUT_OF_RANGE"
    };
    static const char *const more[] = { "PGP_E_WRONG_PHASE", "PGP_E_EMPTY_NAME", "PGP_E_VERSION", "PGP_E_KIND", "PGP_E_UNEXPECTED", "PGP_E_UNCERTAIN",
                                        "PGP_E_UNKNOWN_PACKET", "PGP_E_FORMATS", "PGP_E_NOT_FINITE", "PGP_E_FRACTION" };
    static const char *const login[] = {
        "PGP_SCRAM_WRONG_STATE", "PGP_SCRAM_NOT_UTF8", "PGP_SCRAM_UNEXPECTED_END", "PGP_SCRAM_UNEXPECTED_CHARACTER", "PGP_SCRAM_TRAILING",
        "PGP_SCRAM_INVALID_NUMBER", "PGP_SCRAM_INVALID_NONCE", "PGP_SCRAM_TOO_MANY_ITERATIONS", "PGP_SCRAM_INVALID_BASE64",
        "PGP_SCRAM_SERVER", "PGP_SCRAM_VERIFICATION", "?", "?", "?", "PGP_BAD_NONCE", "PGP_BAD_BINDING", "PGP_NOT_A_VERIFIER",
        "PGP_WRONG_PASSWORD", "PGP_SCRAM_UNSUPPORTED_BINDING", "PGP_SCRAM_INVALID_FIRST", "PGP_SCRAM_OTHER_EXCHANGE",
        "PGP_SCRAM_INVALID_ENCODING", "PGP_SCRAM_INVALID_PROOF", "PGP_LOGIN_UNDUE", "PGP_LOGIN_NOT_ADMITTED", "PGP_LOGIN_OTHER_MECHANISM", "PGP_LOGIN_TOO_FEW_ROUNDS",
        "PGP_CONNECTION_NO_STATUS", "PGP_CONNECTION_TOO_LONG", "PGP_CONNECTION_NO_MEMORY", "PGP_CONNECTION_NO_SETTING_ROOM", "PGP_CONNECTION_NO_SETTING"
    };
    if (status >= 0 && status < (int)(sizeof names / sizeof *names)) return names[status];
    if (status >= 32 && status < 32 + (int)(sizeof more / sizeof *more)) return more[status - 32];
    if (status >= 66 && status < 66 + (int)(sizeof login / sizeof *login)) return login[status - 66];
    return status == PGP_MORE ? "PGP_MORE" : status == PGP_DONE ? "PGP_DONE" : status == PGP_FULL ? "PGP_FULL" : "?";
}
static inline const char *pgp_kind_name(uint8_t kind)
{
    static const char *const names[] = {
        "None", "AuthenticationCleartextPassword", "AuthenticationGss", "AuthenticationGssContinue", "AuthenticationKerberosV5",
        "AuthenticationMd5Password", "AuthenticationOk", "AuthenticationSasl", "AuthenticationSaslContinue", "AuthenticationSaslFinal",
        "AuthenticationScmCredential", "AuthenticationSspi", "BackendKeyData", "BindComplete", "CloseComplete", "CommandComplete", "CopyData",
        "CopyDone", "CopyInResponse", "CopyOutResponse", "DataRow", "EmptyQueryResponse", "ErrorResponse", "NoData", "NoticeResponse",
        "NotificationResponse", "ParameterDescription", "ParameterStatus", "ParseComplete", "PortalSuspended", "ReadyForQuery",
        "RowDescription", "NegotiateProtocolVersion", "CopyBothResponse", "FunctionCallResponse"
    };
    return kind < sizeof names / sizeof *names ? names[kind] : "?";
}

/* Whether this processor has the instructions that the library's code may have, where the compiler can tell; ask before the first call. */
#if defined(__x86_64__) && (defined(__GNUC__) || defined(__clang__))
static inline bool pgp_runs_here(void)
{
    __builtin_cpu_init();
    return __builtin_cpu_supports("popcnt") && __builtin_cpu_supports("ssse3") && __builtin_cpu_supports("sse4.1") && __builtin_cpu_supports("sse4.2");
}
#endif

static inline uint64_t pgp_float8_bits(double value) { uint64_t bits; memcpy(&bits, &value, sizeof bits); return bits; }
static inline double pgp_float8_of(uint64_t bits) { double value; memcpy(&value, &bits, sizeof value); return value; }
static inline uint32_t pgp_float4_bits(float value) { uint32_t bits; memcpy(&bits, &value, sizeof bits); return bits; }
static inline float pgp_float4_of(uint32_t bits) { float value; memcpy(&value, &bits, sizeof value); return value; }

#ifdef __cplusplus
}
#endif
#endif
