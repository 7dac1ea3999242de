/* A pooler in transaction mode, over sockets of this machine without TLS: [PGPASSWORD=..] pooler PORT SERVER_PORT USER DATABASE COUNT. Up to 64 clients share
   COUNT connections of this user; one is lent to a client for a request, and comes back once it is idle. Clients are let in without a password (server.c asks for
   one). What a session keeps (settings, prepared statements with names) stays with the connection; cancel requests end nowhere. */
#define _DEFAULT_SOURCE
#include "postgres_protocol.h"
#include "postgres_protocol_auth.h"
#include <arpa/inet.h>
#include <poll.h>
#include <stdio.h>
#include <stdlib.h>
#include <unistd.h>

enum { ROOM = 1 << 18, CLIENTS = 64, SERVERS = 8, SLOTS = 1 << 10, LOG_IN = 1 };

/* A socket, what came and wasn't handed on, and what is to be written. A message has to fit. */
struct side { int fd; size_t have, pending; uint8_t in[ROOM], out[ROOM]; };
struct server {
    struct side side;
    struct pgp_slot slots[SLOTS];
    struct pgp_connection connection;
    uint8_t status;     /* of the last ReadyForQuery; 0 where the session ends */
    bool is_unfinished; /* a part of an extended query waits for its end */
    struct client *client;
};
struct client { struct side side; bool is_open; uint64_t turn; struct server *server; };

static struct server servers[SERVERS];
static struct client clients[CLIENTS];
static struct sockaddr_in at = {.sin_family = AF_INET};
static const char *user, *database;
static uint8_t settings[1 << 12]; /* the server's, as messages */
static size_t settings_len, server_count;
static uint64_t turns;

static void die(const char *why)
{
    fprintf(stderr, "pooler: %s\n", why);
    exit(1);
}

static bool flush(struct side *side)
{
    ssize_t n = send(side->fd, side->out, side->pending, MSG_NOSIGNAL | MSG_DONTWAIT);
    if (n <= 0) return false;
    side->pending -= (size_t)n;
    memmove(side->out, side->out + n, side->pending);
    return true;
}

static bool fill(struct side *side)
{
    ssize_t n = recv(side->fd, side->in + side->have, sizeof side->in - side->have, 0);
    if (n > 0) side->have += (size_t)n;
    return n > 0;
}

static void drop(struct side *side, size_t len)
{
    side->have -= len;
    memmove(side->in, side->in + len, side->have);
}

/* These bytes go from the front of one side's to the end of what the other is to write, which has room: a side is read while nothing waits there. */
static void hand_on(struct side *from, struct side *to, size_t len)
{
    memcpy(to->out + to->pending, from->in, len);
    to->pending += len;
    drop(from, len);
}

/* The bytes that a log-in sends. */
static void send_all(struct side *side, const uint8_t *bytes, size_t len)
{
    memcpy(side->out, bytes, len);
    for (side->pending = len; side->pending > 0;)
        if (!flush(side)) die("the server is gone");
}

/* Takes the messages of a log-in, and writes what answers them, by the ways that are admitted. */
static void answer(struct server *s, const struct pgp_ways *ways)
{
    static uint8_t reply[1 << 12];
    struct pgp_taken taken = {0};
    struct pgp_message m;
    size_t n;
    while (taken.name != LOG_IN || taken.what != PGP_LAST) {
        pgp_status status = pgp_connection_take(&s->connection, ways, s->side.in, s->side.have, reply, sizeof reply, &n, &taken);
        if (status == PGP_MORE) {
            if (!fill(&s->side)) die("the server is gone");
            continue;
        }
        if (status != PGP_OK || pgp_front(s->side.in, taken.frame, &m) != PGP_OK) die(pgp_status_name(status));
        if (m.kind == PGP_ERROR_RESPONSE) die("the server refuses the log-in");
        if (m.kind == PGP_PARAMETER_STATUS && settings_len + m.frame <= sizeof settings) {
            memcpy(settings + settings_len, s->side.in, m.frame);
            settings_len += m.frame;
        }
        send_all(&s->side, reply, n);
        drop(&s->side, taken.frame);
    }
    s->status = s->connection.status;
}

/* Makes the connection, in the place of one that is lost. */
static void log_in(struct server *s)
{
    static uint8_t prepared[1 << 10], nonce[24], random[18], packet[1 << 10];
    const char *given = getenv("PGPASSWORD") ? getenv("PGPASSWORD") : "";
    struct pgp_pair pairs[2] = {{.name = {PGP_TEXT("user")}, .value = pgp_text(user)}, {.name = {PGP_TEXT("database")}, .value = pgp_text(database)}};
    struct pgp_ways ways = {.ways = PGP_WAY_NONE | PGP_WAY_SCRAM, .least_rounds = 4096, .limit = ROOM - 1};
    FILE *source = fopen("/dev/urandom", "rb");
    size_t n;
    if (!source || fread(random, 1, sizeof random, source) != sizeof random) die("no random bytes");
    fclose(source);
    pgp_nonce(random, nonce);
    if (pgp_saslprep(given, strlen(given), prepared, sizeof prepared, &n) != PGP_OK) die("the password is too long");
    ways.password = pgp_bytes_of(prepared, n);
    ways.nonce = pgp_bytes_of(nonce, sizeof nonce);
    memset(&s->connection, 0, sizeof s->connection);
    s->connection.dialogue.room = s->slots;
    s->connection.dialogue.room_len = SLOTS;
    s->side.have = s->side.pending = settings_len = 0;
    s->is_unfinished = false;
    s->client = NULL;
    s->side.fd = socket(AF_INET, SOCK_STREAM, 0);
    if (s->side.fd < 0 || connect(s->side.fd, (struct sockaddr *)&at, sizeof at) != 0) die("no connection");
    if (pgp_startup(PGP_PROTOCOL_3_0, pairs, 2, packet, sizeof packet, &n) != PGP_OK) die("no startup packet");
    if (pgp_connection_ask(&s->connection, PGP_REQUEST_STARTUP, LOG_IN) != PGP_OK) die("no request");
    send_all(&s->side, packet, n);
    answer(s, &ways);
}

static void restart(struct server *s)
{
    close(s->side.fd);
    log_in(s);
}

/* Takes note of a client's message; false where its request has to wait. */
static bool note(struct server *s, const struct pgp_client_message *m)
{
    static const uint8_t requests[PGP_CLIENT_GSSENC_REQUEST + 1] = {
        [PGP_CLIENT_QUERY] = PGP_REQUEST_QUERY, [PGP_CLIENT_PARSE] = PGP_REQUEST_PARSE, [PGP_CLIENT_BIND] = PGP_REQUEST_BIND, [PGP_CLIENT_CLOSE] = PGP_REQUEST_CLOSE,
        [PGP_CLIENT_EXECUTE] = PGP_REQUEST_EXECUTE, [PGP_CLIENT_FUNCTION_CALL] = PGP_REQUEST_FUNCTION_CALL, [PGP_CLIENT_SYNC] = PGP_REQUEST_SYNC,
        [PGP_CLIENT_COPY_DONE] = PGP_REQUEST_COPY_DONE, [PGP_CLIENT_COPY_FAIL] = PGP_REQUEST_COPY_FAIL, [PGP_CLIENT_DESCRIBE] = PGP_REQUEST_DESCRIBE_STATEMENT};
    uint8_t request = requests[m->kind];
    if (m->kind == PGP_CLIENT_DESCRIBE && m->parts.byte == 'P') request = PGP_REQUEST_DESCRIBE_PORTAL;
    if (request && pgp_dialogue_ask(&s->connection.dialogue, request, 0) != PGP_OK) return false;
    switch (m->kind) {
    case PGP_CLIENT_PARSE: case PGP_CLIENT_BIND: case PGP_CLIENT_DESCRIBE: case PGP_CLIENT_EXECUTE: case PGP_CLIENT_CLOSE: s->is_unfinished = true; break;
    case PGP_CLIENT_SYNC: case PGP_CLIENT_QUERY: case PGP_CLIENT_FUNCTION_CALL: s->is_unfinished = false; break;
    case PGP_CLIENT_TERMINATE: s->status = 0; break;
    default: break;
    }
    return true;
}

/* The client's whole messages are noted, and go to its server. */
static bool pass_on_asked(struct client *c)
{
    struct pgp_client_message m;
    pgp_status status;
    size_t done = 0;
    if (c->server->side.pending) return true; /* until that is written */
    while ((status = pgp_client_front(c->side.in + done, c->side.have - done, true, PGP_EXPECT_PASSWORD, &m)) == PGP_OK && note(c->server, &m)) done += m.frame;
    hand_on(&c->side, &c->server->side, done);
    return status == PGP_OK || (status == PGP_MORE && c->side.have < ROOM);
}

/* The server's whole messages, each of which answers a request of its client or none, go to the client. */
static bool pass_on_answered(struct server *s)
{
    struct pgp_message m;
    struct pgp_event event;
    pgp_status status;
    size_t done = 0;
    while ((status = pgp_front(s->side.in + done, s->side.have - done, &m)) == PGP_OK && pgp_dialogue_take(&s->connection.dialogue, m.kind, &event) == PGP_OK) {
        if (m.kind == PGP_READY_FOR_QUERY && s->status) s->status = m.parts.byte;
        done += m.frame;
    }
    hand_on(&s->side, &s->client->side, done);
    return status == PGP_MORE && s->side.have < ROOM;
}

/* Whether another client may have the connection: nothing is on its way, no answer is awaited, and no transaction is open. */
static bool is_idle(const struct server *s)
{
    const struct side *c = &s->client->side;
    return pgp_connection_is_idle(&s->connection) && s->status == 'I' && !s->is_unfinished
        && s->side.have + s->side.pending + c->have + c->pending == 0;
}

/* A client's packets up to its log-in: false ends it. */
static bool admit(struct client *c)
{
    struct pgp_client_message m;
    pgp_status status;
    size_t n = 0;
    while ((status = pgp_client_front(c->side.in, c->side.have, c->is_open, PGP_EXPECT_PASSWORD, &m)) == PGP_OK && !c->is_open) {
        drop(&c->side, m.frame);
        c->is_open = m.is_open;
        if (m.kind == PGP_CLIENT_SSL_REQUEST || m.kind == PGP_CLIENT_GSSENC_REQUEST) c->side.out[c->side.pending++] = 'N';
        else if (m.kind != PGP_CLIENT_STARTUP || pgp_reply(PGP_AUTHENTICATION_OK, c->side.out + c->side.pending, ROOM - c->side.pending, &n) != PGP_OK) return false;
    }
    if (n == 0) return status == PGP_OK || status == PGP_MORE;
    c->side.pending += n;
    memcpy(c->side.out + c->side.pending, settings, settings_len);
    c->side.pending += settings_len;
    status = pgp_reply_ready_for_query('I', c->side.out + c->side.pending, ROOM - c->side.pending, &n);
    c->side.pending += n;
    return status == PGP_OK;
}

static void leave(struct client *c)
{
    close(c->side.fd);
    if (c->server) restart(c->server); /* what it asked there isn't answered */
    c->side.fd = -1;
    c->side.have = c->side.pending = 0;
    c->is_open = false;
    c->turn = 0;
    c->server = NULL;
}

/* What came of a client: its log-in, then requests, for which it takes its turn. */
static bool go_on(struct client *c)
{
    struct pgp_client_message m;
    pgp_status status;
    if (!c->is_open && !admit(c)) return false;
    if (!c->is_open) return true;
    if (c->server) return pass_on_asked(c);
    status = pgp_client_front(c->side.in, c->side.have, true, PGP_EXPECT_PASSWORD, &m);
    if (status == PGP_OK && !c->turn) c->turn = ++turns;
    return (status == PGP_OK && m.kind != PGP_CLIENT_TERMINATE) || (status == PGP_MORE && c->side.have < ROOM);
}

/* The client whose turn it is gets the connection; false where none waits. */
static bool lend(struct server *s)
{
    struct client *first = NULL, *c;
    for (c = clients; c < clients + CLIENTS; c++)
        if (c->turn && (!first || c->turn < first->turn)) first = c;
    if (!first) return false;
    first->turn = 0;
    first->server = s;
    s->client = first;
    if (!pass_on_asked(first)) leave(first);
    return true;
}

/* A side is written where something waits, and read where nothing waits to be written to the other: a slow one slows the other. */
static struct pollfd watched(const struct side *side, const struct side *other)
{
    struct pollfd p = {side->fd, 0, 0};
    if (side->pending) p.events |= POLLOUT;
    if ((!other || !other->pending) && side->have < ROOM) p.events |= POLLIN;
    return p;
}

/* What poll says of a connection: of one that is lost its client is too, and one that nobody has says nothing else. */
static void step_server(struct server *s, short events)
{
    struct client *c = s->client;
    bool goes_on = !(events & POLLOUT) || flush(&s->side);
    if (goes_on && (events & ~POLLOUT)) goes_on = c && fill(&s->side) && pass_on_answered(s);
    if (goes_on && c && c->side.have && !s->side.pending) goes_on = pass_on_asked(c); /* what had to wait */
    if (!goes_on && c) leave(c);
    else if (!goes_on) restart(s);
    else if (c && is_idle(s)) c->server = NULL, s->client = NULL;
}

static void step_client(struct client *c, short events)
{
    bool goes_on = !(events & POLLOUT) || flush(&c->side);
    if (goes_on && (events & ~POLLOUT)) goes_on = fill(&c->side) && go_on(c);
    if (!goes_on) leave(c);
    else if (c->server && is_idle(c->server)) c->server->client = NULL, c->server = NULL;
}

static void take_in(int listener)
{
    struct client *c = clients;
    int fd = accept(listener, NULL, NULL);
    while (c < clients + CLIENTS && c->side.fd >= 0) c++;
    if (c == clients + CLIENTS) close(fd);
    else c->side.fd = fd;
}

static void turn(int listener)
{
    struct pollfd fds[1 + SERVERS + CLIENTS], *of_server = fds + 1, *of_client = fds + 1 + server_count;
    size_t i;
    fds[0] = (struct pollfd){listener, POLLIN, 0};
    for (i = 0; i < server_count; i++) {
        while (!servers[i].client && lend(&servers[i])) {}
        of_server[i] = watched(&servers[i].side, servers[i].client ? &servers[i].client->side : NULL);
    }
    for (i = 0; i < CLIENTS; i++) of_client[i] = watched(&clients[i].side, clients[i].server ? &clients[i].server->side : NULL);
    if (poll(fds, 1 + server_count + CLIENTS, -1) < 0) die("poll");
    for (i = 0; i < server_count; i++)
        if (of_server[i].revents) step_server(&servers[i], of_server[i].revents);
    for (i = 0; i < CLIENTS; i++)
        if (of_client[i].revents && clients[i].side.fd == of_client[i].fd) step_client(&clients[i], of_client[i].revents);
    if (fds[0].revents) take_in(listener);
}

int main(int argc, char **argv)
{
    struct sockaddr_in here = {.sin_family = AF_INET, .sin_addr.s_addr = htonl(INADDR_LOOPBACK)};
    int listener = socket(AF_INET, SOCK_STREAM, 0), one = 1;
    size_t i;
    server_count = argc == 6 ? (size_t)atoi(argv[5]) : 0;
    if (server_count < 1 || server_count > SERVERS) die("usage: [PGPASSWORD=..] pooler PORT SERVER_PORT USER DATABASE COUNT");
    user = argv[3], database = argv[4];
    here.sin_port = htons((uint16_t)atoi(argv[1]));
    at.sin_port = htons((uint16_t)atoi(argv[2])), at.sin_addr.s_addr = htonl(INADDR_LOOPBACK);
    for (i = 0; i < server_count; i++) log_in(&servers[i]);
    for (i = 0; i < CLIENTS; i++) clients[i].side.fd = -1;
    setsockopt(listener, SOL_SOCKET, SO_REUSEADDR, &one, sizeof one);
    if (bind(listener, (struct sockaddr *)&here, sizeof here) != 0 || listen(listener, CLIENTS) != 0) die("the port isn't free");
    fprintf(stderr, "pooler: listening on port %s\n", argv[1]);
    for (;;) turn(listener);
}
