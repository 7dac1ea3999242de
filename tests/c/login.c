/* login: a connection's log-in by each way, and what a server may send that isn't due; then SCRAM, MD5, verifiers and quoting, call by call.
   The exchange is that of the Rust crate's tests, with the password `foobar`; the MD5 answer is theirs too. */
#include "checks.h"

#define NONCE "9IZ2O01zb9IgiIZ1WJ/zgpJB"

static const struct pgp_bytes messages[] = {
    {PGP_TEXT("R\0\0\0\x08\0\0\0\0")}, {PGP_TEXT("R\0\0\0\x08\0\0\0\3")}, {PGP_TEXT("R\0\0\0\x0c\0\0\0\5\x2a\x3d\x8f\xe0")},
    {PGP_TEXT("R\0\0\0\x17\0\0\0\x0aSCRAM-SHA-256\0\0")}, {PGP_TEXT("R\0\0\0\x54\0\0\0\x0br=" NONCE "jx/oIRLs02gGSHcw1KEty3eY,s=fs3IXBy7U7+IvVjZ,i=4096")},
    {PGP_TEXT("R\0\0\0\x36\0\0\0\x0cv=U+ppxD5XUKtradnv8e2MkeupiA8FU87Sg8CXzXHDAzw=")}};
enum message { WELCOME, CLEARTEXT, MD5, SASL, CONTINUE, FINAL, MESSAGES };

struct played { struct pgp_slot slot; struct pgp_connection c; struct pgp_ways ways; uint8_t out[256]; size_t n; };

static pgp_status hear_bytes(struct played *p, const void *bytes, size_t len)
{
    struct pgp_taken taken;
    return pgp_connection_take(&p->c, &p->ways, bytes, len, p->out, sizeof p->out, &p->n, &taken);
}

static pgp_status hear(struct played *p, enum message m)
{
    return hear_bytes(p, messages[m].bytes, messages[m].len);
}

/* A log-in by these ways in which so many of these messages were heard. */
static void after(struct played *p, uint8_t ways, const enum message *heard, size_t count)
{
    size_t i;
    memset(p, 0, sizeof *p);
    p->c.dialogue.room = &p->slot; p->c.dialogue.room_len = 1;
    p->ways.user = pgp_text("md5_user"); p->ways.password = pgp_text("foobar"); p->ways.nonce = pgp_text(NONCE);
    p->ways.limit = 30000; p->ways.ways = ways;
    same("startup", pgp_connection_ask(&p->c, PGP_REQUEST_STARTUP, 1), PGP_OK);
    for (i = 0; i < count; i++) same("heard", hear(p, heard[i]), PGP_OK);
}

/* In each phase, each message: only these are due, and every other ends the connection, with no reply. */
static void phases(void)
{
    static const enum message exchange[3] = {SASL, CONTINUE, FINAL};
    struct played p;
    size_t count;
    int m;
    for (count = 0; count <= 3; count++)
        for (m = 0; m < MESSAGES; m++) {
            int due = count == 0 ? m != CONTINUE && m != FINAL : m == (count < 3 ? (int)exchange[count] : WELCOME);
            after(&p, 15, exchange, count);
            same("due", hear(&p, (enum message)m), due ? (pgp_status)PGP_OK : (pgp_status)PGP_LOGIN_UNDUE);
            same("over", p.c.is_over, !due);
            if (!due) { same("its phase", p.c.login.phase, count); same("no reply", p.n, 0); same("for good", hear(&p, WELCOME), PGP_E_WRONG_PHASE); }
        }
}

/* Of all 16 sets of ways, each request is answered by its own way alone. */
static void admitted(void)
{
    struct played p;
    unsigned ways;
    int way;
    for (ways = 0; ways < 16; ways++)
        for (way = 0; way < 4; way++) {
            int yes = ways >> way & 1;
            after(&p, (uint8_t)ways, NULL, 0);
            same("admitted", hear(&p, (enum message)way), yes ? (pgp_status)PGP_OK : (pgp_status)PGP_LOGIN_NOT_ADMITTED);
            same("done", p.c.login.phase == PGP_LOGIN_DONE, yes && way == WELCOME);
            if (yes && way != WELCOME) same("welcome", hear(&p, WELCOME), way == SASL ? (pgp_status)PGP_LOGIN_UNDUE : (pgp_status)PGP_OK);
            same("done", p.c.login.phase == PGP_LOGIN_DONE, yes && way != SASL);
        }
}

/* A server that shows no signature, another one, or a fault; and an exchange that is bound to the channel. */
static void exchanges(void)
{
    static const enum message exchange[3] = {SASL, CONTINUE, FINAL};
    static const struct { struct pgp_bytes final; pgp_status status; } rows[] = {
        {{PGP_TEXT("R\0\0\0\x0a\0\0\0\x0cv=")}, PGP_SCRAM_VERIFICATION}, {{PGP_TEXT("R\0\0\0\x17\0\0\0\x0c" "e=invalid-proof")}, PGP_SCRAM_SERVER},
        {{PGP_TEXT("R\0\0\0\x19\0\0\0\x0c" "e=invalid-proof=x")}, PGP_SCRAM_TRAILING}};
    struct played p;
    size_t i;
    for (i = 0; i < sizeof rows / sizeof *rows; i++) {
        after(&p, PGP_WAY_SCRAM | PGP_WAY_NONE, exchange, 2);
        same("no signature", hear_bytes(&p, rows[i].final.bytes, rows[i].final.len), rows[i].status); same("over", p.c.is_over, true);
    }
    after(&p, PGP_WAY_SCRAM, exchange, 3);
    same("welcome", hear(&p, WELCOME), PGP_OK); same("done", p.c.login.phase, PGP_LOGIN_DONE);
    after(&p, PGP_WAY_SCRAM, NULL, 0);
    p.ways.kind = PGP_BINDING_TLS_SERVER_END_POINT; p.ways.certificate = pgp_text("hash"); p.ways.nonce = pgp_text("abc");
    same("bound", hear_bytes(&p, B("R\0\0\0\x2a\0\0\0\x0aSCRAM-SHA-256-PLUS\0SCRAM-SHA-256\0\0")), PGP_OK);
    is("bound", p.out, p.n, B("p\0\0\0\x3bSCRAM-SHA-256-PLUS\0\0\0\0\x20p=tls-server-end-point,,n=,r=abc"));
    after(&p, PGP_WAY_SCRAM, NULL, 0);
    p.ways.kind = PGP_BINDING_TLS_SERVER_END_POINT; p.ways.certificate = pgp_text("hash");
    same("the binding isn't offered", hear(&p, SASL), PGP_LOGIN_OTHER_MECHANISM);
}

void logins(void)
{
    phases(); admitted(); exchanges();
}

void auth(void)
{
    static const char nonce[] = NONCE;
    static const char first[] = "r=" NONCE "jx/oIRLs02gGSHcw1KEty3eY,s=fs3IXBy7U7+IvVjZ,i=4096";
    static const char final[] = "v=U+ppxD5XUKtradnv8e2MkeupiA8FU87Sg8CXzXHDAzw=";
    uint8_t out[256];
    size_t n, at;
    struct pgp_scram kept, was;
    same("scram first", pgp_scram_first(PGP_BINDING_UNSUPPORTED, NULL, 0, B(nonce), out, sizeof out, &n), PGP_OK); is("scram first", out, n, "n,,n=,r=9IZ2O01zb9IgiIZ1WJ/zgpJB", 32);
    memset(&kept, 7, sizeof kept); was = kept;
    same("scram update", pgp_scram_update(B("foobar"), PGP_BINDING_UNSUPPORTED, NULL, 0, B(nonce), B(first), out, 103, &n, &at, &kept), PGP_NO_ROOM); same("nothing", n, 0); same("kept as it was", memcmp(&kept, &was, sizeof kept), 0);
    same("scram update", pgp_scram_update(B("foobar"), PGP_BINDING_UNSUPPORTED, NULL, 0, B(nonce), B("r=abc,s=,i=1"), out, sizeof out, &n, &at, &kept), PGP_SCRAM_INVALID_NONCE); same("nothing", n, 0); same("kept as it was", memcmp(&kept, &was, sizeof kept), 0);
    same("scram update", pgp_scram_update(B("foobar"), PGP_BINDING_UNSUPPORTED, NULL, 0, B(nonce), B(first), out, 104, &n, &at, &kept), PGP_OK);
    is("scram update", out, n, T("c=biws,r=9IZ2O01zb9IgiIZ1WJ/zgpJBjx/oIRLs02gGSHcw1KEty3eY,p=AmNKosjJzS31NTlQYNs5BTeQjdHdk7lOflDo5re2an8="));
    same("room for it", n <= PGP_SCRAM_FINAL_ROOM(0, sizeof first - 1), 1);
    is("what is awaited", kept.signature, 32, "\x53\xea\x69\xc4\x3e\x57\x50\xab\x6b\x69\xd9\xef\xf1\xed\x8c\x91\xeb\xa9\x88\x0f\x05\x53\xce\xd2\x83\xc0\x97\xcd\x71\xc3\x03\x3c", 32);
    at = 5; same("scram finish", pgp_scram_finish(&kept, B(final), &at), PGP_OK); same("at", at, 0);
    same("another signature", pgp_scram_finish(&was, B(final), &at), PGP_SCRAM_VERIFICATION);
    same("an error", pgp_scram_finish(&kept, B("e=invalid-proof"), &at), PGP_SCRAM_SERVER);
    same("trailing", pgp_scram_finish(&kept, B("e=invalid-proof=x"), &at), PGP_SCRAM_TRAILING); same("at", at, 15);
    same("the first text again", pgp_scram_finish(&kept, B(first), &at), PGP_SCRAM_UNEXPECTED_CHARACTER); same("at", at, 0);
    same("another password", pgp_scram_update(B("foobaz"), PGP_BINDING_UNSUPPORTED, NULL, 0, B(nonce), B(first), out, sizeof out, &n, &at, &was), PGP_OK);
    same("another password", pgp_scram_finish(&was, B(final), &at), PGP_SCRAM_VERIFICATION);
    same("no base64", pgp_scram_finish(&kept, B("v=U"), &at), PGP_SCRAM_INVALID_BASE64); same("at", at, 0);
    same("nothing shown", pgp_scram_finish(&kept, B("v="), &at), PGP_SCRAM_VERIFICATION); same("no text", pgp_scram_finish(&kept, B("v=\xff"), &at), PGP_SCRAM_NOT_UTF8);
    same("another kind", pgp_scram_first(3, NULL, 0, B(nonce), out, sizeof out, &n), PGP_BAD_BINDING); same("nothing", n, 0);
    same("unrequested", pgp_scram_first(PGP_BINDING_UNREQUESTED, NULL, 0, B("abc"), out, sizeof out, &n), PGP_OK); is("unrequested", out, n, T("y,,n=,r=abc"));
    same("bound", pgp_scram_first(PGP_BINDING_TLS_SERVER_END_POINT, B("hash"), B("abc"), out, sizeof out, &n), PGP_OK); is("bound", out, n, T("p=tls-server-end-point,,n=,r=abc"));
    same("bad nonce", pgp_scram_first(PGP_BINDING_UNSUPPORTED, NULL, 0, B("a,b"), out, sizeof out, &n), PGP_BAD_NONCE);
    same("verifier", pgp_scram_verifier(B("secret"), B("\1\2\3\4\5\6\7\10\11\12\13\14\15\16\17\20"), out, sizeof out, &n), PGP_OK);
    is("verifier", out, n, T("SCRAM-SHA-256$4096:AQIDBAUGBwgJCgsMDQ4PEA==$8rrDg00OqaiWXJ7p+sCgHEIaBSHY89ZJl3mfIsf32oY=:05L1f+yZbiN8O0AnO40Og85NNRhvzTS57naKRWCcsIA="));
    same("md5", pgp_md5_answer(B("md5_user"), B("password"), B("\x2a\x3d\x8f\xe0"), out, sizeof out, &n), PGP_OK);
    is("md5", out, n, T("md562af4dd09bbb41884907a838a3233294"));
    same("literal", pgp_escape_literal(B("f\\oo"), out, sizeof out, &n), PGP_OK); is("literal", out, n, T(" E'f\\\\oo'"));
    same("literal", pgp_escape_literal(B("f'oo"), out, sizeof out, &n), PGP_OK); is("literal", out, n, T("'f''oo'"));
    same("literal of nothing", pgp_escape_literal(B(""), out, 2, &n), PGP_OK); is("literal", out, n, "''", 2);
    same("literal, no room", pgp_escape_literal(B(""), out, 1, &n), PGP_NO_ROOM); same("nothing", n, 0);
    same("identifier", pgp_escape_identifier(B("f\"oo"), out, sizeof out, &n), PGP_OK); is("identifier", out, n, T("\"f\"\"oo\""));
}
