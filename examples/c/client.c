/* Logs in, by SCRAM-SHA-256 or without a password, sends a query and prints its rows: [PGPASSWORD=..] client PORT USER SQL.
   The server is on this machine, without TLS; its database has the user's name. docs/C.md explains it. */
#include "postgres_protocol.h"
#include "postgres_protocol_auth.h"
#include <arpa/inet.h>
#include <stdio.h>
#include <stdlib.h>
#include <unistd.h>

enum { LOG_IN = 1, ROWS = 2 }; /* names of requests */

static uint8_t in[1 << 16], out[1 << 12], reply[1 << 12], prepared[1 << 10], nonce[24];
static struct pgp_stream s = {out, sizeof out, 0, false};
static int fd;

static int fail(const char *why)
{
    fprintf(stderr, "client: %s\n", why);
    return 1;
}

static int send_all(const uint8_t *bytes, size_t len)
{
    ssize_t n;
    for (; len > 0; bytes += n, len -= (size_t)n)
        if ((n = write(fd, bytes, len)) <= 0) return 0;
    return 1;
}

/* What was written is sent. */
static int send_written(pgp_status status)
{
    size_t len = s.len;
    s.len = 0;
    return status == PGP_OK && send_all(out, len);
}

/* What the server says of an error: its severity, SQLSTATE and message. */
static int show_error(const struct pgp_message *m)
{
    struct pgp_cursor c = pgp_walk(m);
    struct pgp_error_field field;
    fprintf(stderr, "client:");
    while (pgp_error_field_next(in, m->frame, &c, &field) == PGP_OK)
        if (field.code == 'S' || field.code == 'C' || field.code == 'M')
            fprintf(stderr, " %.*s", (int)field.value.len, (const char *)in + field.value.at);
    fprintf(stderr, "\n");
    return 1;
}

static pgp_status print_row(const struct pgp_message *m)
{
    struct pgp_cursor c = pgp_walk(m);
    struct pgp_column v;
    const char *before = "";
    pgp_status status;
    while ((status = pgp_row_next(in, m->frame, &c, &v)) == PGP_OK) {
        printf("%s", before);
        if (v.is_null) printf("NULL");
        else fwrite(in + v.start, 1, v.end - v.start, stdout);
        before = "\t";
    }
    printf("\n");
    return status == PGP_DONE ? PGP_OK : status;
}

int main(int argc, char **argv)
{
    struct sockaddr_in to = {.sin_family = AF_INET, .sin_addr.s_addr = htonl(INADDR_LOOPBACK)};
    struct pgp_slot slots[2] = {{0, 0}};
    struct pgp_connection connection = {.dialogue = {.room = slots, .room_len = 2}};
    struct pgp_ways ways = {.ways = PGP_WAY_NONE | PGP_WAY_SCRAM, .least_rounds = 4096, .limit = sizeof in - 1 /* and its tag */};
    struct pgp_message m;
    struct pgp_taken taken;
    struct pgp_pair user = {.name = {PGP_TEXT("user")}};
    uint8_t random[18];
    size_t have = 0, n;
    const char *given = getenv("PGPASSWORD") ? getenv("PGPASSWORD") : "";
    FILE *source = fopen("/dev/urandom", "rb");
    if (argc != 4) return fail("usage: [PGPASSWORD=..] client PORT USER SQL");
    if (!source || fread(random, 1, sizeof random, source) != sizeof random) return fail("no random bytes");
    fclose(source);
    pgp_nonce(random, nonce);
    if (pgp_saslprep(given, strlen(given), prepared, sizeof prepared, &n) != PGP_OK) return fail("the password is too long");
    ways.password = pgp_bytes_of(prepared, n);
    ways.nonce = pgp_bytes_of(nonce, sizeof nonce);
    user.value = pgp_text(argv[2]);
    to.sin_port = htons((uint16_t)atoi(argv[1]));
    fd = socket(AF_INET, SOCK_STREAM, 0);
    if (fd < 0 || connect(fd, (struct sockaddr *)&to, sizeof to) != 0) return fail("no connection");
    if (!send_written(pgp_connection_startup(&connection, &s, LOG_IN, PGP_PROTOCOL_3_0, &user, 1))) return fail("no startup");
    for (;;) { /* each turn takes the first message of the bytes that were read */
        pgp_status status = pgp_connection_take(&connection, &ways, in, have, reply, sizeof reply, &n, &taken);
        if (status == PGP_MORE) {
            ssize_t got = have < sizeof in ? read(fd, in + have, sizeof in - have) : 0;
            if (got <= 0) return fail("the connection was closed, or a message is too long");
            have += (size_t)got;
            continue;
        }
        if (status == PGP_OK) status = pgp_front(in, taken.frame, &m); /* what it says */
        if (status != PGP_OK) return fail(pgp_status_name(status));
        if (m.kind == PGP_ERROR_RESPONSE) return show_error(&m);
        if (!send_all(reply, n)) return fail("the connection was closed"); /* what the log-in answers */
        if (taken.name == LOG_IN && taken.what == PGP_LAST) {
            if (!send_written(pgp_connection_query(&connection, &s, ROWS, argv[3], strlen(argv[3])))) return fail("no query");
        } else if (taken.name == ROWS && m.kind == PGP_DATA_ROW) {
            status = print_row(&m);
        } else if (taken.name == ROWS && taken.what == PGP_LAST) {
            return send_written(pgp_connection_terminate(&connection, &s)) ? 0 : fail("no end");
        }
        if (status != PGP_OK) return fail(pgp_status_name(status));
        have -= taken.frame; /* the message's end is where the next one begins */
        memmove(in, in + taken.frame, have);
    }
}
