/* Logs in with SCRAM-SHA-256, by the calls for the exchange alone (client.c uses struct pgp_connection): login PORT USER PASSWORD. */
#include "postgres_protocol.h"
#include "postgres_protocol_auth.h"
#include <arpa/inet.h>
#include <stdio.h>
#include <stdlib.h>
#include <unistd.h>

#define TEXT(s) (s), strlen(s)
#define NO_BINDING PGP_BINDING_UNSUPPORTED, NULL, 0

static uint8_t in[1 << 14], out[1 << 12], text[1 << 10], nonce[24];

static int fail(const char *why, pgp_status status)
{
    fprintf(stderr, "login: %s (%u)\n", why, (unsigned)status);
    return 1;
}

int main(int argc, char **argv)
{
    struct sockaddr_in to = {0};
    struct pgp_stream s = {out, sizeof out, 0, false};
    struct pgp_message m;
    struct pgp_pair user;
    struct pgp_scram kept;
    uint8_t random[18];
    size_t have = 0, n = 0, at;
    pgp_status status;
    int fd = socket(AF_INET, SOCK_STREAM, 0), answered = 0, proved = 0;
    FILE *source = fopen("/dev/urandom", "rb");
    if (argc != 4 || !source || fread(random, 1, sizeof random, source) != sizeof random) return fail("usage: login PORT USER PASSWORD", 0);
    fclose(source);
    pgp_nonce(random, nonce);
    to.sin_family = AF_INET;
    to.sin_port = htons((uint16_t)atoi(argv[1]));
    to.sin_addr.s_addr = htonl(INADDR_LOOPBACK);
    if (fd < 0 || connect(fd, (struct sockaddr *)&to, sizeof to) != 0) return fail("no connection", 0);
    user.name = pgp_text("user");
    user.value = pgp_text(argv[2]);
    status = pgp_stream_startup(&s, PGP_PROTOCOL_3_0, &user, 1);
    for (;;) {
        if (status != PGP_OK) return fail("refused", status);
        if (s.len && write(fd, out, s.len) != (ssize_t)s.len) return fail("the server is gone", 0);
        s.len = 0;
        while ((status = pgp_front(in, have, &m)) == PGP_MORE) {
            ssize_t got = have < sizeof in ? read(fd, in + have, sizeof in - have) : 0;
            if (got <= 0) return fail("the server is gone", 0);
            have += (size_t)got;
        }
        if (status != PGP_OK) return fail("no message of a server", status);
        switch (m.kind) {
        case PGP_AUTHENTICATION_SASL:
            status = pgp_scram_first(NO_BINDING, nonce, sizeof nonce, text, sizeof text, &n);
            if (status == PGP_OK) status = pgp_stream_sasl_initial_response(&s, TEXT("SCRAM-SHA-256"), text, n);
            break;
        case PGP_AUTHENTICATION_SASL_CONTINUE:
            status = pgp_scram_update(TEXT(argv[3]), NO_BINDING, nonce, sizeof nonce, in + m.parts.first.at, m.parts.first.len,
                                      text, sizeof text, &n, &at, &kept);
            answered = status == PGP_OK;
            if (answered) status = pgp_stream_sasl_response(&s, text, n);
            break;
        case PGP_AUTHENTICATION_SASL_FINAL:
            if (!answered) return fail("a last text before the first", 0);
            status = pgp_scram_finish(&kept, in + m.parts.first.at, m.parts.first.len, &at);
            proved = status == PGP_OK;
            break;
        case PGP_AUTHENTICATION_OK: return proved ? printf("logged in\n") < 0 : fail("the server didn't show its signature", 0);
        default: return fail("not asked for SCRAM, or refused", m.kind);
        }
        have -= m.frame;
        memmove(in, in + m.frame, have);
    }
}
