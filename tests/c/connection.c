/* connection: a whole connection, a message at a time: each call and each status, cut messages, rooms that are too small, and any bytes. The exchange is that of
   login.c, and the messages are spelled by hand after the manual. */
#include "checks.h"

#define NONCE "9IZ2O01zb9IgiIZ1WJ/zgpJB"
#define BOTH "r=9IZ2O01zb9IgiIZ1WJ/zgpJBjx/oIRLs02gGSHcw1KEty3eY"
#define OFFER "R\0\0\0\x17\0\0\0\x0aSCRAM-SHA-256\0\0"
#define CONTINUE "R\0\0\0\x54\0\0\0\x0b" BOTH ",s=fs3IXBy7U7+IvVjZ,i=4096"
#define FINAL "R\0\0\0\x36\0\0\0\x0cv=U+ppxD5XUKtradnv8e2MkeupiA8FU87Sg8CXzXHDAzw="
#define WELCOME "R\0\0\0\x08\0\0\0\0"
#define READY "Z\0\0\0\x05I"
#define FIRST_SENT "p\0\0\0\x36SCRAM-SHA-256\0\0\0\0\x20n,,n=,r=" NONCE
#define FINAL_SENT "p\0\0\0\x6c" "c=biws," BOTH ",p=AmNKosjJzS31NTlQYNs5BTeQjdHdk7lOflDo5re2an8="

enum { SLOTS = 3, STARTUP = 7 };

struct held {
    struct pgp_slot slots[SLOTS];
    struct pgp_connection c;
};

static struct pgp_ways by(uint8_t ways)
{
    struct pgp_ways w;
    memset(&w, 0, sizeof w);
    w.user = pgp_text("md5_user"); w.password = pgp_text("foobar"); w.nonce = pgp_text(NONCE);
    w.limit = 100; w.ways = ways;
    return w;
}

static void begin(struct held *h)
{
    memset(h, 0, sizeof *h);
    h->c.dialogue.room = h->slots; h->c.dialogue.room_len = SLOTS;
    same("startup", pgp_connection_ask(&h->c, PGP_REQUEST_STARTUP, STARTUP), PGP_OK);
}

/* Takes one message, and at first each front of it; what comes back is compared. */
static void takes(struct held *h, const struct pgp_ways *w, const void *message, size_t len, pgp_status status, uint8_t what, uint64_t name,
                  const void *reply, size_t reply_len)
{
    struct held was = *h;
    struct pgp_taken t = {99, 98, 97};
    uint8_t *bytes = (uint8_t *)malloc(len + 1), out[256];
    size_t cut, n;
    for (cut = 0; cut < len && status != PGP_CONNECTION_TOO_LONG; cut++) {
        n = 77;
        memcpy(bytes, message, cut);
        same("cut", pgp_connection_take(&h->c, w, bytes, cut, out, sizeof out, &n, &t), PGP_MORE);
        same("nothing", n, 0); same("as it was", memcmp(h, &was, sizeof was), 0); same("no name", t.name, 99);
    }
    n = 77;
    memset(out, 0xaa, sizeof out);
    memcpy(bytes, message, len);
    bytes[len] = 'Z';
    same("status", pgp_connection_take(&h->c, w, bytes, len + 1, out, sizeof out, &n, &t), status);
    is("reply", out, n, reply, reply_len);
    same("behind it", out[n], 0xaa);
    if (status == PGP_OK) { same("name", t.name, name); same("frame", t.frame, len); same("what", t.what, what); }
    else { same("name", t.name, 99); same("frame", t.frame, 98); same("what", t.what, 97); same("over", h->c.is_over, true); }
    free(bytes);
}

#define NONE NULL, 0
#define TAKES(message, what, name, reply) takes(&h, &w, B(message), PGP_OK, what, name, reply)
#define ENDS(message, status) takes(&h, &w, B(message), status, 0, 0, NONE)

/* Logged in without a password, and ready. */
static void ready(struct held *h)
{
    struct pgp_ways w = by(PGP_WAY_NONE);
    begin(h);
    takes(h, &w, B(WELCOME), PGP_OK, PGP_PART, STARTUP, NONE);
    takes(h, &w, B(READY), PGP_OK, PGP_LAST, STARTUP, NONE);
}

static void log_ins(void)
{
    struct pgp_ways w = by(PGP_WAY_SCRAM);
    struct held h;
    begin(&h);
    TAKES(OFFER, PGP_PART, STARTUP, B(FIRST_SENT));
    TAKES(CONTINUE, PGP_PART, STARTUP, B(FINAL_SENT));
    TAKES(FINAL, PGP_PART, STARTUP, NONE);
    same("not yet", h.c.login.phase == PGP_LOGIN_DONE, false);
    same("not yet", pgp_connection_ask(&h.c, PGP_REQUEST_QUERY, 8), PGP_E_WRONG_PHASE);
    TAKES(WELCOME, PGP_PART, STARTUP, NONE);
    same("done", h.c.login.phase, PGP_LOGIN_DONE);
    TAKES("S\0\0\0\x08" "a\0b\0", PGP_ASIDE, 0, NONE);
}

static void more_log_ins(void)
{
    struct pgp_ways w = by(PGP_WAY_PASSWORD | PGP_WAY_MD5);
    struct held h;
    begin(&h);
    TAKES("R\0\0\0\x08\0\0\0\x03", PGP_PART, STARTUP, B("p\0\0\0\x0b" "foobar\0"));
    TAKES(WELCOME, PGP_PART, STARTUP, NONE);
    begin(&h);
    w.password = pgp_text("password");
    TAKES("R\0\0\0\x0c\0\0\0\x05\x2a\x3d\x8f\xe0", PGP_PART, STARTUP, B("p\0\0\0\x28md562af4dd09bbb41884907a838a3233294\0"));
    TAKES(WELCOME, PGP_PART, STARTUP, NONE);
    TAKES("K\0\0\0\x0c\0\0\0\x01" "keys", PGP_PART, STARTUP, NONE);
    is("key", h.c.secret_key, h.c.key_len, "keys", 4); same("process", (unsigned long)h.c.process_id, 1); same("status", h.c.status, 0);
    TAKES("N\0\0\0\x05\0", PGP_ASIDE, 0, NONE);
    TAKES("Z\0\0\0\x05T", PGP_LAST, STARTUP, NONE);
    same("status", h.c.status, 'T');
}

/* What a server may answer about the versions that are asked for: once, one of them, and none that changes nothing. At any time before the client is let in. */
static void versions(void)
{
    static const struct { uint8_t asked, minor, count; pgp_status status; uint8_t answered; } rows[] = {
        {PGP_VERSIONS_3_0, 0, 0, PGP_LOGIN_UNDUE, 0}, {PGP_VERSIONS_3_0, 2, 0, PGP_LOGIN_UNDUE, 0}, {PGP_VERSIONS_TO_3_2, 0, 0, PGP_OK, PGP_ANSWERED_3_0},
        {PGP_VERSIONS_TO_3_2, 1, 0, PGP_LOGIN_UNDUE, 0}, {PGP_VERSIONS_TO_3_2, 2, 0, PGP_LOGIN_UNDUE, 0}, {PGP_VERSIONS_TO_3_2, 3, 0, PGP_LOGIN_UNDUE, 0},
        {PGP_VERSIONS_3_2, 0, 0, PGP_LOGIN_UNDUE, 0}, {PGP_VERSIONS_3_2, 1, 0, PGP_LOGIN_UNDUE, 0}, {PGP_VERSIONS_3_2, 2, 0, PGP_LOGIN_UNDUE, 0},
        {PGP_VERSIONS_TO_3_2, 0, 1, PGP_LOGIN_UNDUE, 0}};
    struct held h;
    size_t i;
    for (i = 0; i < sizeof rows / sizeof *rows; i++) {
        struct pgp_ways w = by(PGP_WAY_NONE);
        uint8_t message[] = "v\0\0\0\x0c\0\3\0\0\0\0\0\0";
        message[8] = rows[i].minor; message[12] = rows[i].count;
        w.versions = rows[i].asked;
        begin(&h);
        takes(&h, &w, message, 13, rows[i].status, PGP_PART, STARTUP, NONE);
        same("answered", h.c.version, rows[i].answered);
    }
    struct pgp_ways w = by(PGP_WAY_SCRAM);
    w.versions = PGP_VERSIONS_TO_3_2;
    begin(&h);
    TAKES(OFFER, PGP_PART, STARTUP, B(FIRST_SENT));
    TAKES(CONTINUE, PGP_PART, STARTUP, B(FINAL_SENT));
    TAKES(FINAL, PGP_PART, STARTUP, NONE);
    TAKES("v\0\0\0\x0c\0\3\0\0\0\0\0\0", PGP_PART, STARTUP, NONE);
    TAKES(WELCOME, PGP_PART, STARTUP, NONE);
    ENDS("K\0\0\0\x0d\0\0\0\x01" "keyed", PGP_LOGIN_UNDUE);
}

/* A key has four bytes where 3.0 is spoken, and 4 to 256 where 3.2 is. */
static void keys(void)
{
    uint8_t message[9 + 256] = "K\0\0\0\0\0\0\0\x01";
    struct held h;
    size_t len;
    memset(message + 9, 'k', 256);
    for (len = 4; len <= 256; len += 63) {
        uint8_t asked;
        for (asked = PGP_VERSIONS_3_0; asked <= PGP_VERSIONS_3_2; asked++) {
            struct pgp_ways w = by(PGP_WAY_NONE);
            w.limit = 300; w.versions = asked;
            message[3] = (uint8_t)((8 + len) >> 8); message[4] = (uint8_t)(8 + len);
            begin(&h);
            TAKES(WELCOME, PGP_PART, STARTUP, NONE);
            takes(&h, &w, message, 9 + len, len == 4 || asked != PGP_VERSIONS_3_0 ? PGP_OK : PGP_LOGIN_UNDUE, PGP_PART, STARTUP, NONE);
            if (!h.c.is_over) is("key", h.c.secret_key, h.c.key_len, message + 9, len);
        }
    }
}

/* What a server may not send in a log-in, and what it may. */
static void early(void)
{
    static const struct { struct pgp_bytes message; pgp_status status; } rows[] = {
        {{PGP_TEXT("S\0\0\0\x09" "a\0b\0\0")}, PGP_E_NOT_DRAINED}, {{PGP_TEXT("S\0\0\0\x08" "a\0b\0")}, PGP_LOGIN_UNDUE},
        {{PGP_TEXT("N\0\0\0\x05\0")}, PGP_LOGIN_UNDUE}, {{PGP_TEXT("A\0\0\0\x0c\0\0\0\x01" "a\0b\0")}, PGP_LOGIN_UNDUE},
        {{PGP_TEXT("v\0\0\0\x0c\0\3\0\2\0\0\0\0")}, PGP_LOGIN_UNDUE}, {{PGP_TEXT("v\0\0\0\x0e\0\3\0\0\0\0\0\1a\0")}, PGP_LOGIN_UNDUE},
        {{PGP_TEXT("v\0\0\0\x0e\0\3\0\0\0\0\0\0a\0")}, PGP_LOGIN_UNDUE}, /* more than it counts */
        {{PGP_TEXT(FINAL)}, PGP_LOGIN_UNDUE}, {{PGP_TEXT(CONTINUE)}, PGP_LOGIN_UNDUE},
        {{PGP_TEXT("R\0\0\0\x08\0\0\0\x02")}, PGP_LOGIN_NOT_ADMITTED}, {{PGP_TEXT("R\0\0\0\x08\0\0\0\x03")}, PGP_LOGIN_NOT_ADMITTED},
        {{PGP_TEXT("R\0\0\0\x0c\0\0\0\x05salt")}, PGP_LOGIN_NOT_ADMITTED}, {{PGP_TEXT(WELCOME)}, PGP_LOGIN_NOT_ADMITTED},
        {{PGP_TEXT("R\0\0\0\x15\0\0\0\x0aSCRAM-SHA-1\0\0")}, PGP_LOGIN_OTHER_MECHANISM},
        {{PGP_TEXT("R\0\0\0\x16\0\0\0\x0aSCRAM-SHA-256\0")}, PGP_LOGIN_OTHER_MECHANISM},
        {{PGP_TEXT("R\0\0\0\x2a\0\0\0\x0aSCRAM-SHA-256-PLUS\0SCRAM-SHA-256\0\0")}, PGP_LOGIN_NOT_ADMITTED},
        {{PGP_TEXT("R\0\0\0\x08\0\0\0\x63")}, PGP_E_UNKNOWN_AUTHENTICATION}, {{PGP_TEXT("W\0\0\0\x04")}, PGP_E_UNKNOWN_TAG},
        {{PGP_TEXT("R\0\0\0\x04")}, PGP_E_UNEXPECTED_EOF}, {{PGP_TEXT("Z\0\0\0\x03")}, PGP_E_INVALID_LENGTH},
        {{PGP_TEXT("Z\0\0\0\x05I")}, PGP_E_UNEXPECTED}, {{PGP_TEXT("D\0\0\0\x06\0\0")}, PGP_E_UNEXPECTED}};
    struct pgp_ways w = by(PGP_WAY_SCRAM);
    struct held h;
    size_t i;
    for (i = 0; i < sizeof rows / sizeof *rows; i++) {
        struct pgp_taken t = {99, 98, 97};
        uint8_t out[256];
        size_t n = 77;
        begin(&h);
        same("early", pgp_connection_take(&h.c, &w, rows[i].message.bytes, rows[i].message.len, out, sizeof out, &n, &t), rows[i].status);
        same("nothing", n, 0); same("over", h.c.is_over, true); same("phase", h.c.login.phase, 0); same("no name", t.name, 99);
        same("once", pgp_connection_take(&h.c, &w, B(OFFER), out, sizeof out, &n, &t), PGP_E_WRONG_PHASE);
        same("nothing is asked", pgp_connection_ask(&h.c, PGP_REQUEST_STARTUP, 1), PGP_E_WRONG_PHASE);
    }
    begin(&h);
    TAKES("E\0\0\0\x05\0", PGP_ENDED, 0, NONE);
    same("over", h.c.is_over, true);
    begin(&h);
    w.is_encrypted = true;
    TAKES("R\0\0\0\x2a\0\0\0\x0aSCRAM-SHA-256-PLUS\0SCRAM-SHA-256\0\0", PGP_PART, STARTUP, B(FIRST_SENT));
    w.least_rounds = 4097;
    ENDS(CONTINUE, PGP_LOGIN_TOO_FEW_ROUNDS);
    begin(&h);
    w.least_rounds = 1;
    TAKES(OFFER, PGP_PART, STARTUP, B(FIRST_SENT));
    ENDS("R\0\0\0\x14\0\0\0\x0br=abc,s=,i=1", PGP_SCRAM_INVALID_NONCE);
    begin(&h);
    w.least_rounds = 0;
    TAKES(OFFER, PGP_PART, STARTUP, B(FIRST_SENT));
    TAKES(CONTINUE, PGP_PART, STARTUP, B(FINAL_SENT));
    ENDS("R\0\0\0\x0a\0\0\0\x0cv=", PGP_SCRAM_VERIFICATION);
    begin(&h);
    w.nonce = pgp_text("a,b");
    ENDS(OFFER, PGP_BAD_NONCE);
    begin(&h);
    w.nonce = pgp_text(NONCE); w.kind = 3;
    ENDS(OFFER, PGP_LOGIN_NOT_ADMITTED);
    begin(&h);
    w = by(PGP_WAY_SCRAM);
    TAKES(OFFER, PGP_PART, STARTUP, B(FIRST_SENT));
    w.ways = PGP_WAY_PASSWORD;
    ENDS(CONTINUE, PGP_LOGIN_NOT_ADMITTED);
    begin(&h);
    w = by(PGP_WAY_PASSWORD);
    w.password = pgp_bytes_of("a\0b", 3);
    ENDS("R\0\0\0\x08\0\0\0\x03", PGP_E_EMBEDDED_NULL);
}

/* Each reply at each room: below its size the same bytes are taken again, with more room. */
static void rooms(void)
{
    static const struct pgp_bytes messages[2] = {{PGP_TEXT(OFFER)}, {PGP_TEXT(CONTINUE)}}, replies[2] = {{PGP_TEXT(FIRST_SENT)}, {PGP_TEXT(FINAL_SENT)}};
    struct pgp_ways w = by(PGP_WAY_SCRAM);
    struct held h;
    int i;
    begin(&h);
    for (i = 0; i < 2; i++) {
        struct pgp_taken t = {99, 98, 97};
        size_t room, n = 77;
        for (room = 0; room <= replies[i].len; room += room + 16 < replies[i].len ? 16 : 1) {
            uint8_t *out = (uint8_t *)malloc(room + 1);
            pgp_status want = room < replies[i].len ? PGP_NO_ROOM : PGP_OK;
            memset(out, 0xaa, room + 1);
            same("room", pgp_connection_take(&h.c, &w, messages[i].bytes, messages[i].len, out, room, &n, &t), want);
            is("reply", out, n, replies[i].bytes, want == PGP_OK ? replies[i].len : 0);
            same("behind", out[n], 0xaa); same("over", h.c.is_over, false); same("phase", h.c.login.phase, (unsigned long)i + (want == PGP_OK));
            free(out);
        }
        same("enough", PGP_CONNECTION_ROOM(w, messages[i].len) >= replies[i].len, true);
    }
}

/* Requests, a copy, errors, and the end. */
static void requests(void)
{
    struct pgp_ways w = by(PGP_WAY_NONE);
    struct held h;
    uint8_t r;
    ready(&h);
    for (r = 0; r < 12; r++)
        same("asked", pgp_connection_ask(&h.c, r, r), r == PGP_REQUEST_STARTUP || r == PGP_REQUEST_FUNCTION_CALL || r >= PGP_REQUEST_COPY_DONE ? PGP_E_WRONG_PHASE : h.c.dialogue.end - h.c.dialogue.start < SLOTS || r < 4 ? PGP_OK : PGP_NO_ROOM);
    same("no request", pgp_connection_ask(&h.c, 12, 1), PGP_E_KIND);
    ready(&h);
    same("idle", pgp_connection_is_idle(&h.c), true);
    same("query", pgp_connection_ask(&h.c, PGP_REQUEST_QUERY, 8), PGP_OK);
    same("idle", pgp_connection_is_idle(&h.c), false);
    TAKES("T\0\0\0\x06\0\0", PGP_PART, 8, NONE);
    TAKES("D\0\0\0\x06\0\0", PGP_PART, 8, NONE);
    TAKES("C\0\0\0\x0dSELECT 1\0", PGP_PART, 8, NONE);
    TAKES("Z\0\0\0\x05" "E", PGP_LAST, 8, NONE);
    same("status", h.c.status, 'E');
    same("copy", pgp_connection_ask(&h.c, PGP_REQUEST_QUERY, 9), PGP_OK);
    same("no copy", pgp_connection_is_copying(&h.c), false);
    TAKES("G\0\0\0\x07\0\0\0", PGP_PART, 9, NONE);
    same("copy", pgp_connection_is_copying(&h.c), true);
    same("data are awaited", pgp_connection_ask(&h.c, PGP_REQUEST_QUERY, 10), PGP_E_WRONG_PHASE);
    same("their end", pgp_connection_ask(&h.c, PGP_REQUEST_COPY_DONE, 10), PGP_OK);
    same("more", pgp_connection_ask(&h.c, PGP_REQUEST_QUERY, 11), PGP_OK);
    TAKES("C\0\0\0\x0b" "COPY 0\0", PGP_PART, 9, NONE);
    TAKES(READY, PGP_LAST, 9, NONE);
    ENDS("Z\0\0\0\x05x", PGP_E_UNEXPECTED);
    same("no copy", pgp_connection_is_copying(&h.c), false);
    ready(&h);
    same("early sync", pgp_connection_ask(&h.c, PGP_REQUEST_EXECUTE, 8), PGP_OK);
    TAKES("G\0\0\0\x07\0\0\0", PGP_PART, 8, NONE);
    same("early sync", pgp_connection_ask(&h.c, PGP_REQUEST_SYNC, 9), PGP_OK);
    ENDS("E\0\0\0\x05\0", PGP_E_UNCERTAIN);
    ready(&h);
    same("sync", pgp_connection_ask(&h.c, PGP_REQUEST_SYNC, 8), PGP_OK);
    ENDS("Z\0\0\0\x05x", PGP_CONNECTION_NO_STATUS);
    ready(&h);
    ENDS("d\0\0\0\x65", PGP_CONNECTION_TOO_LONG);
    ready(&h);
    TAKES("E\0\0\0\x05\0", PGP_ENDED, 0, NONE);
    same("over", h.c.is_over, true);
}

/* A limit, before the log-in is done and after; and numbers that are none. */
static void limits(void)
{
    struct pgp_ways w = by(PGP_WAY_NONE);
    struct pgp_taken t = {99, 98, 97};
    struct held h;
    uint8_t out[8];
    size_t n;
    w.limit = UINT32_MAX;
    begin(&h);
    same("30,000", pgp_connection_take(&h.c, &w, B("E\0\0\x75\x30"), out, sizeof out, &n, &t), PGP_MORE);
    same("30,001", pgp_connection_take(&h.c, &w, B("E\0\0\x75\x31"), out, sizeof out, &n, &t), PGP_CONNECTION_TOO_LONG);
    ready(&h);
    same("any", pgp_connection_take(&h.c, &w, B("E\xff\xff\xff\xff"), out, sizeof out, &n, &t), PGP_MORE);
    h.c.dialogue.start = 1; h.c.dialogue.end = 0;
    same("no places", pgp_connection_take(&h.c, &w, B(READY), out, sizeof out, &n, &t), PGP_NO_ROOM);
    same("no places", pgp_connection_ask(&h.c, PGP_REQUEST_SYNC, 1), PGP_NO_ROOM);
    same("no places", pgp_connection_is_idle(&h.c), false);
    h.c.dialogue.end = SLOTS + 1;
    same("no places", pgp_connection_take(&h.c, &w, B(READY), out, sizeof out, &n, &t), PGP_NO_ROOM); same("not over", h.c.is_over, false);
}

#define ZONE(value, len) "S\0\0\0" len "TimeZone\0" value "\0"

/* The value that is kept under a name; NULL where there is none. */
static void has(const struct held *h, const char *name, const char *value)
{
    struct pgp_part part = {99, 98};
    pgp_status status = pgp_connection_setting(&h->c, name, strlen(name), &part);
    same("a setting", status, value ? PGP_OK : PGP_CONNECTION_NO_SETTING);
    if (value) is(name, h->c.settings.room + part.at, part.len, value, strlen(value));
    else { same("as it was", part.at, 99); same("as it was", part.len, 98); }
}

/* Settings, each with the value that was reported last, in room that is just enough and in less; and bytes that are none. */
static void settings(void)
{
    struct pgp_ways w = by(PGP_WAY_NONE);
    struct pgp_taken t = {99, 98, 97};
    struct held h, was;
    uint8_t room[23], out[8];
    size_t n = 77;
    ready(&h);
    TAKES(ZONE("UTC", "\x11"), PGP_ASIDE, 0, NONE);
    has(&h, "TimeZone", NULL);
    h.c.settings.room = room; h.c.settings.room_len = 12;
    was = h;
    same("no room", pgp_connection_take(&h.c, &w, B(ZONE("UTC", "\x11")), out, sizeof out, &n, &t), PGP_CONNECTION_NO_SETTING_ROOM);
    same("nothing", n, 0); same("as it was", memcmp(&h, &was, sizeof was), 0); same("no name", t.name, 99);
    h.c.settings.room_len = 13;
    TAKES(ZONE("UTC", "\x11"), PGP_ASIDE, 0, NONE);
    is("settings", room, h.c.settings.len, B("TimeZone\0UTC\0"));
    has(&h, "TimeZone", "UTC"); has(&h, "TimeZon", NULL); has(&h, "TimeZone1", NULL); has(&h, "timezone", NULL); has(&h, "", NULL);
    TAKES(ZONE("WET", "\x11"), PGP_ASIDE, 0, NONE);
    has(&h, "TimeZone", "WET");
    h.c.settings.room_len = sizeof room;
    TAKES("S\0\0\0\x08" "a\0b\0", PGP_ASIDE, 0, NONE);
    TAKES("S\0\0\0\x0a" "is\0on\0", PGP_ASIDE, 0, NONE);
    is("settings", room, h.c.settings.len, B("is\0on\0" "a\0b\0" "TimeZone\0WET\0"));
    was = h;
    same("no room", pgp_connection_take(&h.c, &w, B("S\0\0\0\x09" "a\0bc\0"), out, sizeof out, &n, &t), PGP_CONNECTION_NO_SETTING_ROOM); same("as it was", memcmp(&h, &was, sizeof was), 0);
    TAKES("S\0\0\0\x07" "a\0\0", PGP_ASIDE, 0, NONE);
    is("settings", room, h.c.settings.len, B("a\0\0" "is\0on\0" "TimeZone\0WET\0"));
    has(&h, "a", ""); has(&h, "is", "on"); has(&h, "on", NULL); has(&h, "TimeZone", "WET");
    h.c.settings.len = sizeof room + 9;
    memcpy(room, "a\0b\0name without a value", sizeof room);
    has(&h, "a", "b"); has(&h, "name without a value", NULL);
    h.c.settings.len = 3;
    has(&h, "a", NULL);
}

/* Any bytes in any state: what is taken lies inside, what isn't leaves no reply, and a connection that is over stays so. */
static void anything(void)
{
    struct pgp_ways w = by(15);
    uint32_t x = 1;
    int i, k, bad = 0;
    for (i = 0; i < 20000; i++) {
        struct held h;
        struct pgp_taken t;
        uint8_t bytes[40], out[16], room[24], over;
        size_t n, len = x >> 8 & 31;
        pgp_status status;
        memset(&h, 0, sizeof h);
        for (k = 0; k < (int)sizeof bytes; k++) { x = x * 1664525 + 1013904223; bytes[k] = (uint8_t)(x >> 24); }
        bytes[0] = (uint8_t)"RZSKNAEDCGTv12"[bytes[0] % 14]; bytes[1] = bytes[2] = bytes[3] = 0; bytes[4] = bytes[4] & 31;
        if (bytes[0] == 'R') { bytes[5] = bytes[6] = bytes[7] = 0; bytes[8] &= 15; }
        h.c.dialogue.room = h.slots; h.c.dialogue.room_len = SLOTS;
        h.c.dialogue.start = bytes[39] & 3; h.c.dialogue.end = bytes[38] & 3; h.c.dialogue.stage = bytes[37] % 28; h.slots[0].request = h.slots[1].request = bytes[36] % 12;
        memcpy(room, bytes + 5, sizeof room); h.c.settings.room = room; h.c.settings.room_len = bytes[31] & 31 & (x >> 3) % 25; h.c.settings.len = bytes[30] & 31;
        h.c.login.phase = bytes[35] % 6; h.c.key_len = bytes[34]; over = bytes[33] % 8 == 0; h.c.is_over = over != 0; w.is_encrypted = (bytes[32] & 1) != 0;
        status = pgp_connection_take(&h.c, &w, bytes, len, i & 1 ? out : NULL, i & 1 ? sizeof out : 0, &n, &t);
        bad += status == PGP_OK ? t.frame > len || t.frame < 5 || n > sizeof out || over : n != 0 || (over && (status != PGP_E_WRONG_PHASE || !h.c.is_over));
        bad += h.c.key_len > 256 || (status != PGP_OK && status != PGP_MORE && status != PGP_NO_ROOM && status != PGP_CONNECTION_NO_SETTING_ROOM && !h.c.is_over);
    }
    same("anything", (unsigned long)bad, 0);
}

/* Writes a request and notes it in one call: the bytes by hand after the manual. */
#define WRITES(call, bytes, code, named) do { \
    s.len = 0; same("one call", call, PGP_OK); is("bytes", room, s.len, B(bytes)); \
    same("request", h.slots[h.c.dialogue.end - 1].request, code); same("name", h.slots[h.c.dialogue.end - 1].name, named); \
} while (0)
#define LEAVES(call, status) do { \
    memcpy(&was, &h.c, sizeof was); before = s; same("refused", call, status); same("len", s.len, before.len); same("open", s.is_open, before.is_open); \
    same("connection", memcmp(&h.c, &was, sizeof was), 0); \
} while (0)

static void in_one_call(void)
{
    struct held h;
    struct pgp_connection was;
    struct pgp_pair user;
    const uint32_t types[] = {23};
    uint8_t room[64];
    struct pgp_stream s = {room, sizeof room, 0, false}, before;
    memset(&h, 0, sizeof h); memset(&user, 0, sizeof user);
    h.c.dialogue.room = h.slots; h.c.dialogue.room_len = SLOTS;
    user.name = pgp_text("user"); user.value = pgp_text("al");
    LEAVES(pgp_connection_query(&h.c, &s, 5, "x", 1), PGP_E_WRONG_PHASE);
    WRITES(pgp_connection_startup(&h.c, &s, 5, PGP_PROTOCOL_3_0, &user, 1), "\0\0\0\x11\0\3\0\0user\0al\0\0", PGP_REQUEST_STARTUP, 5);
    same("open", s.is_open, true);
    LEAVES(pgp_connection_startup(&h.c, &s, 6, PGP_PROTOCOL_3_0, &user, 1), PGP_E_WRONG_PHASE);
    LEAVES(pgp_connection_sync(&h.c, &s, 6), PGP_E_WRONG_PHASE);
    ready(&h);
    WRITES(pgp_connection_query(&h.c, &s, 6, "x", 1), "Q\0\0\0\6x\0", PGP_REQUEST_QUERY, 6);
    WRITES(pgp_connection_parse(&h.c, &s, 7, "s", 1, "x", 1, types, 1), "P\0\0\0\x0es\0x\0\0\1\0\0\0\x17", PGP_REQUEST_PARSE, 7);
    WRITES(pgp_connection_bind(&h.c, &s, 8, "p", 1, "s", 1, NULL, 0, NULL, 0, NULL, 0), "B\0\0\0\x0ep\0s\0\0\0\0\0\0\0", PGP_REQUEST_BIND, 8);
    LEAVES(pgp_connection_sync(&h.c, &s, 9), PGP_NO_ROOM);
    ready(&h);
    WRITES(pgp_connection_describe(&h.c, &s, 6, 'S', "s", 1), "D\0\0\0\7Ss\0", PGP_REQUEST_DESCRIBE_STATEMENT, 6);
    WRITES(pgp_connection_describe(&h.c, &s, 7, 'P', "p", 1), "D\0\0\0\7Pp\0", PGP_REQUEST_DESCRIBE_PORTAL, 7);
    WRITES(pgp_connection_execute(&h.c, &s, 8, "p", 1, 2), "E\0\0\0\x0ap\0\0\0\0\2", PGP_REQUEST_EXECUTE, 8);
    ready(&h);
    LEAVES(pgp_connection_close(&h.c, &s, 6, 'S', "a\0b", 3), PGP_E_EMBEDDED_NULL);
    WRITES(pgp_connection_close(&h.c, &s, 6, 'S', "s", 1), "C\0\0\0\7Ss\0", PGP_REQUEST_CLOSE, 6);
    WRITES(pgp_connection_sync(&h.c, &s, 7), "S\0\0\0\4", PGP_REQUEST_SYNC, 7);
    LEAVES(pgp_connection_copy_data(&h.c, &s, "a", 1), PGP_E_WRONG_PHASE);
    LEAVES(pgp_connection_copy_done(&h.c, &s, 8), PGP_E_WRONG_PHASE);
    ready(&h);
    WRITES(pgp_connection_query(&h.c, &s, 6, "x", 1), "Q\0\0\0\6x\0", PGP_REQUEST_QUERY, 6);
    { struct pgp_ways w = by(PGP_WAY_NONE); TAKES("G\0\0\0\x07\0\0\0", PGP_PART, 6, NONE); }
    s.len = 0; same("data", pgp_connection_copy_data(&h.c, &s, "a", 1), PGP_OK); is("data", room, s.len, B("d\0\0\0\5a"));
    LEAVES(pgp_connection_query(&h.c, &s, 7, "x", 1), PGP_E_WRONG_PHASE);
    WRITES(pgp_connection_copy_fail(&h.c, &s, 7, "no", 2), "f\0\0\0\7no\0", PGP_REQUEST_COPY_FAIL, 7);
    s.len = 0; same("the end", pgp_connection_terminate(&h.c, &s), PGP_OK); is("the end", room, s.len, B("X\0\0\0\4")); same("over", h.c.is_over, true);
    LEAVES(pgp_connection_sync(&h.c, &s, 8), PGP_E_WRONG_PHASE);
}

void connections(void)
{
    log_ins(); more_log_ins(); early(); versions(); keys(); rooms(); requests(); limits(); settings(); in_one_call(); anything();
}
