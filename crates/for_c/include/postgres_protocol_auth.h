/*
 * postgres_protocol_auth.h: passwords and escapes. Link libfor_c_auth.a and the toolchain's KIT/c/liblibc_c.a (malloc, realloc, free).
 *
 * The calls keep nothing: memory that they take from malloc is given back before they return. What they take is not wiped.
 * Statuses, rooms and texts are those of postgres_protocol.h. `written` is 0 and `out` as it was on any status but PGP_OK. PGP_NO_ROOM comes
 * also where an allocation fails.
 */
#ifndef POSTGRES_PROTOCOL_AUTH_H
#define POSTGRES_PROTOCOL_AUTH_H

#include "postgres_protocol.h"

#ifdef __cplusplus
extern "C" {
#endif

/* The channel binding of an exchange: none; none, but the client could (a server that offers it should refuse that); or
   tls-server-end-point, with the hash of the server's certificate (RFC 5929). The certificate's bytes are read for that one alone. */
enum pgp_binding { PGP_BINDING_UNSUPPORTED = 0, PGP_BINDING_UNREQUESTED = 1, PGP_BINDING_TLS_SERVER_END_POINT = 2 };

/*
 * SCRAM-SHA-256, the client's side, in three calls. The caller keeps the password, the nonce (24 characters from a generator fit for
 * secrets, new for each exchange: pgp_nonce makes them of 18 random bytes), and between the server's two texts a struct of 32 bytes.
 *   pgp_scram_first   what to send in pgp_sasl_initial_response
 *   pgp_scram_update  the answer to the server's first text, for pgp_sasl_response: a server with the password's verifier accepts it; the
 *                     struct keeps what the server has to show (as it was on any status but PGP_OK). It makes the salted key (some
 *                     milliseconds at 4096 rounds)
 *   pgp_scram_finish  PGP_OK only if the server's final text shows that: no password, no key
 * The struct holds no secret of the password, and there is nothing to free; but who reads it before the server's final text can respond in
 * the server's place. The password is used as it is;
 * a server prepares one with characters above 127 by SASLprep (RFC 4013), which is the caller's to do.
 * `at` is the place in the text that PGP_SCRAM_UNEXPECTED_CHARACTER and PGP_SCRAM_TRAILING mean; else 0. A server's own error
 * (PGP_SCRAM_SERVER) stands behind the `e=` of its final text.
 */
#define PGP_SCRAM_FIRST_ROOM(nonce_len) ((nonce_len) + 32)
#define PGP_SCRAM_FINAL_ROOM(certificate_len, server_first_len) (2 * (certificate_len) + (server_first_len) + 128)
pgp_status pgp_scram_first(uint8_t kind, const void *certificate, size_t certificate_len, const void *nonce, size_t nonce_len,
                           uint8_t *out, size_t room, size_t *written);
struct pgp_scram { uint8_t signature[32]; };
pgp_status pgp_scram_update(const void *password, size_t password_len,
                            uint8_t kind, const void *certificate, size_t certificate_len, const void *nonce, size_t nonce_len,
                            const void *server_first, size_t server_first_len, uint8_t *out, size_t room, size_t *written, size_t *at, struct pgp_scram *kept);
pgp_status pgp_scram_finish(const struct pgp_scram *kept, const void *server_final, size_t server_final_len, size_t *at);
static inline void pgp_nonce(const uint8_t random[18], uint8_t nonce[24])
{
    static const char letters[] = "ABCDEFGHIJKLMNOPQRSTUVWXYZabcdefghijklmnopqrstuvwxyz0123456789+/";
    int i;
    for (i = 0; i < 6; i++) {
        uint32_t three = (uint32_t)random[3 * i] << 16 | (uint32_t)random[3 * i + 1] << 8 | random[3 * i + 2];
        nonce[4 * i] = (uint8_t)letters[three >> 18];
        nonce[4 * i + 1] = (uint8_t)letters[three >> 12 & 63];
        nonce[4 * i + 2] = (uint8_t)letters[three >> 6 & 63];
        nonce[4 * i + 3] = (uint8_t)letters[three & 63];
    }
}

/* The ways of logging in, as libpq's require_auth has them, and how far a log-in is. */
enum { PGP_WAY_NONE = 1, PGP_WAY_PASSWORD = 2, PGP_WAY_MD5 = 4, PGP_WAY_SCRAM = 8 };
enum { PGP_LOGIN_DONE = 4 };
struct pgp_login {
    uint8_t phase;                  /* PGP_LOGIN_DONE at the end of the log-in */
    uint8_t signature[32];
};

/*
 * A client's connection: the log-in, which message answers which request, and what the server says of its session, in one struct of the
 * caller's, all 0 at first but for its memory for requests, and for settings:
 *     struct pgp_slot slots[64] = {{0, 0}};
 *     uint8_t settings[4096];
 *     struct pgp_connection connection = {.dialogue = {.room = slots, .room_len = 64}, .settings = {.room = settings, .room_len = sizeof settings}};
 * The caller moves the bytes: what it sends is written and noted by pgp_connection_query and the like, below; what came is taken a message at a time.
 *   pgp_connection_ask   takes note of a request, in the order in which they are sent: the startup packet first, and others once the log-in is done. The
 *                        caller names it by a number; names begin at 1, since pgp_taken has 0 where no request is answered.
 *                        PGP_E_WRONG_PHASE where the request may not be sent: before that, after the end, and while the server awaits the data of a
 *                        copy all but their end and Sync; a function call never. PGP_NO_ROOM where the array is full (move it to a longer one, and ask
 *                        again), PGP_E_KIND for no request. Then nothing changes
 *   pgp_connection_take  takes the message at the front of the bytes: `taken` says to which request it belongs, and how many bytes it has; what it
 *                        says, pgp_front reads of the same bytes. In the log-in the reply stands in `out`, a whole message, if *written isn't 0
 *   pgp_connection_setting     the value of a setting that the server reported last under a name, where it stands in connection->settings.room;
 *                              PGP_CONNECTION_NO_SETTING where none is kept. Names are compared byte by byte
 *   pgp_connection_is_idle     whether no request awaits an answer; false where the places of the requests are none of their room
 *   pgp_connection_is_copying  whether data of a copy to the server may be sent
 * On any status but PGP_OK *written is 0, and `out` and *taken are as they were. Four leave the
 * connection as it was, so that the same bytes can be given again: PGP_MORE, with more of them; PGP_NO_ROOM, with more room in `out` (PGP_CONNECTION_ROOM is
 * enough); PGP_CONNECTION_NO_SETTING_ROOM, with the settings moved to a larger room; PGP_CONNECTION_NO_MEMORY, once malloc has some. (PGP_NO_ROOM too where the
 * places of the requests are none of their room, which only the caller can have brought about.) All others end the connection:
 *   PGP_E_WRONG_PHASE                it was over
 *   PGP_CONNECTION_TOO_LONG          a message is announced that is longer than `limit`, or before the log-in is done than 30,000 bytes
 *   those of pgp_front               what came is no message. A FunctionCallResponse and a CopyBothResponse aren't read
 *   PGP_E_UNEXPECTED, _UNCERTAIN     the message has no place there, as pgp_dialogue_take has it
 *   PGP_LOGIN_UNDUE                  a setting, a notice or a notification came before the log-in is done; or an answer about versions that isn't due: one
 *                                    is, where it names another version of those that `versions` asks for, and lists no option (so send none, _pq_.); or a
 *                                    key that hasn't 4 bytes, or where 3.2 is spoken 4 to 256
 *   PGP_CONNECTION_NO_STATUS         a ReadyForQuery has another status than I, T and E
 *   PGP_LOGIN_UNDUE                  a request of the log-in isn't due, as AuthenticationOk in an exchange before the server has shown its signature
 *   PGP_LOGIN_NOT_ADMITTED           `ways` hasn't the way that the server asks for (GSSAPI, SSPI and Kerberos are none here); also where the server offers
 *                                    to bind SCRAM to a channel that isn't encrypted, unless the exchange is bound: encryption may have been taken away;
 *                                    and where `kind` is none of pgp_binding
 *   PGP_LOGIN_OTHER_MECHANISM        the mechanism isn't offered: SCRAM-SHA-256-PLUS of PGP_BINDING_TLS_SERVER_END_POINT, SCRAM-SHA-256 of the others. What
 *                                    is offered pgp_front and pgp_mechanism_next tell before, to choose `kind` by
 *   PGP_LOGIN_TOO_FEW_ROUNDS         the server asks for fewer rounds than `least_rounds` (0 is taken for 1; servers have 4096 unless configured otherwise)
 *   those of pgp_scram_update and pgp_scram_finish, but for PGP_BAD_BINDING
 * Each setting that the server reports (a PARAMETER_STATUS: a server of PostgreSQL 15 reports 14, of some 400 bytes) is kept in the room for settings, with
 * the value that was reported last. Where the room has no byte none is kept, and the caller reads them of their messages.
 */
/* The versions of the protocol that a client asks for: 3.0 (packet of PGP_PROTOCOL_3_0); 3.2, or 3.0 where the server speaks no other, and 3.2 alone (packets
   of PGP_PROTOCOL_3_2). Who asks for 3.2 alone is never logged in at 3.0. And what a server answers about them. */
enum { PGP_VERSIONS_3_0 = 0, PGP_VERSIONS_TO_3_2 = 1, PGP_VERSIONS_3_2 = 2 };
enum { PGP_ANSWERED_NONE = 0, PGP_ANSWERED_3_0 = 1, PGP_ANSWERED_3_2 = 2 };
struct pgp_ways {
    struct pgp_bytes user, password;       /* of MD5; the password that is sent, or prepared by pgp_saslprep for SCRAM */
    struct pgp_bytes certificate, nonce;   /* of SCRAM, as for the calls above; the same in each call */
    uint32_t least_rounds;                 /* of SCRAM; 0 is taken for 1 */
    uint32_t limit;                        /* how long a message may be, but for its tag; UINT32_MAX: any */
    uint8_t ways;                          /* those that are admitted, PGP_WAY_.. */
    uint8_t kind;                          /* of the channel binding */
    bool is_encrypted;                     /* the connection has TLS */
    uint8_t versions;                      /* which versions the startup packet asks for, PGP_VERSIONS_.. */
};
/* The settings: a name and a value at a time, each with a 0 behind it, in `len` bytes at the front of the room; the setting that was reported last first. */
struct pgp_settings {
    uint8_t *room;
    size_t room_len, len;
};
struct pgp_connection {
    struct pgp_dialogue dialogue;
    struct pgp_settings settings;
    size_t key_len;                        /* of the secret_key; 0 before it came */
    int32_t process_id;                    /* for pgp_cancel_request */
    bool is_over;                          /* the session has ended, or an error ended it; to be set where Terminate was sent */
    uint8_t status;                        /* I, T or E, as the last ReadyForQuery says; 0 before the first */
    struct pgp_login login;                /* login.phase is PGP_LOGIN_DONE once the server has let the client in */
    uint8_t secret_key[256];
    uint8_t version;                       /* that the server answered, PGP_ANSWERED_..; where it answered none, it speaks the packet's */
};
struct pgp_taken {
    uint64_t name;                         /* of the request that is answered; 0 where there is none */
    size_t frame;                          /* how many bytes the message has */
    uint8_t what;                          /* PGP_PART, PGP_LAST, PGP_ASIDE or PGP_ENDED */
};
#define PGP_CONNECTION_ROOM(given, message_len) (2 * (given).certificate.len + (given).password.len + (given).nonce.len + (message_len) + 256)
pgp_status pgp_connection_ask(struct pgp_connection *connection, uint8_t request, uint64_t name);
pgp_status pgp_connection_take(struct pgp_connection *connection, const struct pgp_ways *ways, const void *bytes, size_t len,
                               uint8_t *out, size_t room, size_t *written, struct pgp_taken *taken);
pgp_status pgp_connection_setting(const struct pgp_connection *connection, const void *name, size_t len, struct pgp_part *value);
bool pgp_connection_is_idle(const struct pgp_connection *connection);
bool pgp_connection_is_copying(const struct pgp_connection *connection);
/*
 * A request in one call: each of these writes it behind what the stream has, as pgp_stream_* does, and takes note of it under a name, as
 * pgp_connection_ask does. On any status but PGP_OK, of either, nothing is written and nothing noted. Data of a copy are written where they may be sent
 * (PGP_E_WRONG_PHASE elsewhere), and Terminate ends the connection. A Flush is noted by nobody: pgp_stream_flush.
 */
static inline pgp_status pgp_connection_note(struct pgp_connection *connection, struct pgp_stream *stream, struct pgp_stream before, pgp_status status,
                                             uint8_t request, uint64_t name)
{
    if (status == PGP_OK) status = pgp_connection_ask(connection, request, name);
    if (status != PGP_OK) *stream = before;
    return status;
}
static inline pgp_status pgp_connection_startup(struct pgp_connection *connection, struct pgp_stream *stream, uint64_t name, int32_t version,
                                                const struct pgp_pair *parameters, size_t count)
{
    struct pgp_stream before = *stream;
    return pgp_connection_note(connection, stream, before, pgp_stream_startup(stream, version, parameters, count), PGP_REQUEST_STARTUP, name);
}
static inline pgp_status pgp_connection_query(struct pgp_connection *connection, struct pgp_stream *stream, uint64_t name, const void *text, size_t len)
{
    struct pgp_stream before = *stream;
    return pgp_connection_note(connection, stream, before, pgp_stream_query(stream, text, len), PGP_REQUEST_QUERY, name);
}
static inline pgp_status pgp_connection_parse(struct pgp_connection *connection, struct pgp_stream *stream, uint64_t name, const void *statement,
                                              size_t statement_len, const void *query, size_t query_len, const uint32_t *types, size_t type_count)
{
    struct pgp_stream before = *stream;
    return pgp_connection_note(connection, stream, before, pgp_stream_parse(stream, statement, statement_len, query, query_len, types, type_count),
                               PGP_REQUEST_PARSE, name);
}
static inline pgp_status pgp_connection_bind(struct pgp_connection *connection, struct pgp_stream *stream, uint64_t name, const void *portal, size_t portal_len,
                                             const void *statement, size_t statement_len, const int16_t *formats, size_t format_count,
                                             const struct pgp_value *values, size_t value_count, const int16_t *result_formats, size_t result_format_count)
{
    struct pgp_stream before = *stream;
    return pgp_connection_note(connection, stream, before,
                               pgp_stream_bind(stream, portal, portal_len, statement, statement_len, formats, format_count, values, value_count, result_formats,
                                               result_format_count),
                               PGP_REQUEST_BIND, name);
}
/* `variant`: 'S' for a statement, 'P' for a portal */
static inline pgp_status pgp_connection_describe(struct pgp_connection *connection, struct pgp_stream *stream, uint64_t name, uint8_t variant, const void *of,
                                                 size_t len)
{
    struct pgp_stream before = *stream;
    uint8_t request = variant == 'P' ? PGP_REQUEST_DESCRIBE_PORTAL : PGP_REQUEST_DESCRIBE_STATEMENT;
    return pgp_connection_note(connection, stream, before, pgp_stream_describe(stream, variant, of, len), request, name);
}
static inline pgp_status pgp_connection_execute(struct pgp_connection *connection, struct pgp_stream *stream, uint64_t name, const void *portal, size_t len,
                                                int32_t max_rows)
{
    struct pgp_stream before = *stream;
    return pgp_connection_note(connection, stream, before, pgp_stream_execute(stream, portal, len, max_rows), PGP_REQUEST_EXECUTE, name);
}
static inline pgp_status pgp_connection_close(struct pgp_connection *connection, struct pgp_stream *stream, uint64_t name, uint8_t variant, const void *of,
                                              size_t len)
{
    struct pgp_stream before = *stream;
    return pgp_connection_note(connection, stream, before, pgp_stream_close(stream, variant, of, len), PGP_REQUEST_CLOSE, name);
}
static inline pgp_status pgp_connection_sync(struct pgp_connection *connection, struct pgp_stream *stream, uint64_t name)
{
    struct pgp_stream before = *stream;
    return pgp_connection_note(connection, stream, before, pgp_stream_sync(stream), PGP_REQUEST_SYNC, name);
}
static inline pgp_status pgp_connection_copy_data(const struct pgp_connection *connection, struct pgp_stream *stream, const void *bytes, size_t len)
{
    return pgp_connection_is_copying(connection) ? pgp_stream_copy_data(stream, bytes, len) : PGP_E_WRONG_PHASE;
}
static inline pgp_status pgp_connection_copy_done(struct pgp_connection *connection, struct pgp_stream *stream, uint64_t name)
{
    struct pgp_stream before = *stream;
    return pgp_connection_note(connection, stream, before, pgp_stream_copy_done(stream), PGP_REQUEST_COPY_DONE, name);
}
static inline pgp_status pgp_connection_copy_fail(struct pgp_connection *connection, struct pgp_stream *stream, uint64_t name, const void *reason, size_t len)
{
    struct pgp_stream before = *stream;
    return pgp_connection_note(connection, stream, before, pgp_stream_copy_fail(stream, reason, len), PGP_REQUEST_COPY_FAIL, name);
}
static inline pgp_status pgp_connection_terminate(struct pgp_connection *connection, struct pgp_stream *stream)
{
    pgp_status status = pgp_stream_terminate(stream);
    connection->is_over |= status == PGP_OK;
    return status;
}

/*
 * The server's side, in two calls that keep nothing between them. The caller keeps the stored verifier (`SCRAM-SHA-256$4096:..`), its own part
 * of the nonce, new for each exchange, and the client's first text.
 *   pgp_scram_server_first  what to send in PGP_AUTHENTICATION_SASL_CONTINUE. PGP_SCRAM_UNSUPPORTED_BINDING, PGP_SCRAM_INVALID_FIRST: no first
 *                           text of a client
 *   pgp_scram_server_final  PGP_OK only if the client's final text shows the password's key, with what to send in
 *                           PGP_AUTHENTICATION_SASL_FINAL. PGP_SCRAM_OTHER_EXCHANGE, _INVALID_ENCODING, _INVALID_PROOF: it is not let in
 * `kind` is what became of channel binding, which for PGP_OFFER_CHOSEN comes with the hash of the server's certificate.
 */
enum pgp_offer {
    PGP_OFFER_NONE = 0,             /* SCRAM-SHA-256 alone was offered                                        */
    PGP_OFFER_DECLINED = 1,         /* SCRAM-SHA-256-PLUS was offered too, and the client chose SCRAM-SHA-256 */
    PGP_OFFER_CHOSEN = 2            /* the client chose SCRAM-SHA-256-PLUS                                    */
};
pgp_status pgp_scram_server_first(const void *stored, size_t stored_len, uint8_t kind, const void *certificate, size_t certificate_len,
                                  const void *nonce, size_t nonce_len, const void *client_first, size_t client_first_len, uint8_t *out, size_t room, size_t *written);
pgp_status pgp_scram_server_final(const void *stored, size_t stored_len, uint8_t kind, const void *certificate, size_t certificate_len,
                                  const void *nonce, size_t nonce_len, const void *client_first, size_t client_first_len,
                                  const void *client_final, size_t client_final_len, uint8_t *out, size_t room, size_t *written);

/* What a server stores of a password: 133 characters. The salt has 16 bytes. */
enum { PGP_VERIFIER_ROOM = 133, PGP_MD5_ROOM = 35 };
pgp_status pgp_scram_verifier(const void *password, size_t password_len, const void *salt, size_t salt_len,
                              uint8_t *out, size_t room, size_t *written);

/* The same with MD5, for servers that have nothing else: `md5` and 32 digits. The user's name has to be UTF-8, else PGP_E_NOT_UTF8. */
pgp_status pgp_md5_verifier(const void *user, size_t user_len, const void *password, size_t password_len, uint8_t *out, size_t room, size_t *written);

/* PGP_OK where the password is that of the stored verifier of SCRAM-SHA-256 (after AuthenticationCleartextPassword), and where the answer to
   AuthenticationMD5Password with this salt is right for the stored MD5 text; else PGP_WRONG_PASSWORD. */
pgp_status pgp_scram_check(const void *stored, size_t stored_len, const void *password, size_t password_len);
pgp_status pgp_md5_check(const void *stored, size_t stored_len, const void *salt, size_t salt_len, const void *answer, size_t answer_len);

/* The answer to AuthenticationMD5Password: 35 characters. The salt has 4 bytes. */
pgp_status pgp_md5_answer(const void *user, size_t user_len, const void *password, size_t password_len,
                          const void *salt, size_t salt_len, uint8_t *out, size_t room, size_t *written);

/* The password as a server uses it: prepared by SASLprep (RFC 4013); as it is where it is no UTF-8, or SASLprep rejects it. Hand the
   result to pgp_scram_update and pgp_scram_verifier. At most three times as long: one character may become eighteen of three bytes each. */
pgp_status pgp_saslprep(const void *password, size_t password_len, uint8_t *out, size_t room, size_t *written);

/* The text as a string constant, or as a quoted identifier, of an SQL command; no character of it can end the constant. */
#define PGP_LITERAL_ROOM(len) (2 * (len) + 4)
#define PGP_IDENTIFIER_ROOM(len) (2 * (len) + 2)
pgp_status pgp_escape_literal(const void *text, size_t len, uint8_t *out, size_t room, size_t *written);
pgp_status pgp_escape_identifier(const void *text, size_t len, uint8_t *out, size_t room, size_t *written);

#ifdef __cplusplus
}
#endif
#endif
