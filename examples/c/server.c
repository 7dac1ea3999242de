/* Logs one client in with SCRAM-SHA-256, and sends each query's text back as its one row: server PORT PASSWORD.
   psql can talk to it. */
#include "postgres_protocol.h"
#include "postgres_protocol_auth.h"
#include <arpa/inet.h>
#include <stdio.h>
#include <stdlib.h>
#include <unistd.h>

#define ROOM out + len, sizeof out - len, &n
#define HELD stored, sizeof stored, PGP_OFFER_NONE, NULL, 0, nonce, sizeof nonce, first, first_len

static uint8_t in[1 << 16], out[1 << 17], stored[PGP_VERIFIER_ROOM], random_bytes[34], nonce[24], first[1 << 10], text[1 << 11];
static size_t len, n, first_len, text_len;
static uint8_t expected = PGP_EXPECT_SASL_INITIAL;
static int is_in;

static int add(pgp_status status) { len += n; return status == PGP_OK; }

/* What is to be sent for the message; 0 ends the session. */
static int reply(const struct pgp_client_message *m)
{
    struct pgp_bytes scram = {PGP_TEXT("SCRAM-SHA-256")};
    struct pgp_described column = {{PGP_TEXT("query")}, 0, PGP_OID_TEXT, -1, 0, -1, 0};
    struct pgp_value row = pgp_value_of(in + m->parts.first.at, m->parts.first.len);
    switch (m->kind) {
    case PGP_CLIENT_SSL_REQUEST:
    case PGP_CLIENT_GSSENC_REQUEST: return out[len++] = 'N', 1;
    case PGP_CLIENT_STARTUP: return add(pgp_reply_authentication_sasl(&scram, 1, ROOM));
    case PGP_CLIENT_SASL_INITIAL_RESPONSE:
        first_len = m->parts.second.len;
        if (first_len > sizeof first) return 0;
        memcpy(first, in + m->parts.second.at, first_len);
        expected = PGP_EXPECT_SASL_RESPONSE;
        return pgp_scram_server_first(HELD, text, sizeof text, &text_len) == PGP_OK
            && add(pgp_reply_text(PGP_AUTHENTICATION_SASL_CONTINUE, text, text_len, ROOM));
    case PGP_CLIENT_SASL_RESPONSE:
        is_in = pgp_scram_server_final(HELD, in + m->parts.first.at, m->parts.first.len, text, sizeof text, &text_len) == PGP_OK;
        return is_in && add(pgp_reply_text(PGP_AUTHENTICATION_SASL_FINAL, text, text_len, ROOM)) && add(pgp_reply(PGP_AUTHENTICATION_OK, ROOM))
            && add(pgp_reply_ready_for_query('I', ROOM));
    case PGP_CLIENT_QUERY:
        return is_in && add(pgp_reply_row_description(&column, 1, ROOM)) && add(pgp_reply_data_row(&row, 1, ROOM))
            && add(pgp_reply_text(PGP_COMMAND_COMPLETE, PGP_TEXT("SELECT 1"), ROOM)) && add(pgp_reply_ready_for_query('I', ROOM));
    default: return 0;
    }
}

int main(int argc, char **argv)
{
    struct sockaddr_in at = {0};
    struct pgp_client_message m;
    size_t have = 0;
    int fd = socket(AF_INET, SOCK_STREAM, 0), one = 1;
    FILE *source = fopen("/dev/urandom", "rb");
    if (argc != 3 || !source || fread(random_bytes, 1, sizeof random_bytes, source) != sizeof random_bytes) return 1;
    pgp_nonce(random_bytes, nonce);
    if (pgp_scram_verifier(argv[2], strlen(argv[2]), random_bytes + 18, 16, stored, sizeof stored, &n) != PGP_OK) return 1;
    at.sin_family = AF_INET, at.sin_port = htons((uint16_t)atoi(argv[1])), at.sin_addr.s_addr = htonl(INADDR_LOOPBACK);
    setsockopt(fd, SOL_SOCKET, SO_REUSEADDR, &one, sizeof one);
    if (bind(fd, (struct sockaddr *)&at, sizeof at) != 0 || listen(fd, 1) != 0 || (fd = accept(fd, NULL, NULL)) < 0) return 1;
    for (m.is_open = false;;) {
        pgp_status status = pgp_client_front(in, have, m.is_open, expected, &m);
        if (status == PGP_MORE) {
            ssize_t got = have < sizeof in ? read(fd, in + have, sizeof in - have) : 0;
            if (got <= 0) return 1;
            have += (size_t)got;
            continue;
        }
        len = 0;
        if (status != PGP_OK || !reply(&m)) return m.kind != PGP_CLIENT_TERMINATE;
        if (write(fd, out, len) != (ssize_t)len) return 1;
        have -= m.frame;
        memmove(in, in + m.frame, have);
    }
}
