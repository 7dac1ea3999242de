/* server: a client's messages read, a server's written, and the server's side of a log-in. */
#include "checks.h"

static void part(const char *what, const uint8_t *bytes, struct pgp_part p, const char *want) { is(what, bytes + p.at, p.len, want, strlen(want)); }

/* The message at each length below its own: bytes are missing, and no more than these are read. */
#define FRONT(what, text, opened, expected, m) do { \
    size_t cut; \
    for (cut = 0; cut < sizeof(text) - 1; cut++) { \
        uint8_t *in = (uint8_t *)malloc(cut + 1); \
        memcpy(in, text, cut); \
        same(what ": cut", pgp_client_front(in, cut, opened, expected, m), PGP_MORE); same(what ": cut", (m)->frame, 0); same(what ": cut", (m)->kind, 0); same(what ": cut", (m)->is_open, opened); \
        free(in); \
    } \
    same(what, pgp_client_front(B(text), opened, expected, m), PGP_OK); same(what ": frame", (m)->frame, sizeof(text) - 1); } while (0)

static void openings(void)
{
    static const char startup[] = "\0\0\0\x19\0\3\0\2user\0alice\0app\0\0\0";
    static const char cancel[] = "\0\0\0\x12\x04\xd2\x16\x2e\xff\xff\xff\xfesecret";
    struct pgp_client_message m;
    struct pgp_setting s = {{7, 7}, {7, 7}};
    struct pgp_cursor c;
    FRONT("startup", startup, false, 0, &m);
    same("kind", m.kind, PGP_CLIENT_STARTUP); same("tag", m.tag, 0); same("open", m.is_open, 1); same("minor", m.parts.code, 2); same("at", m.parts.items.at, 8); same("end", m.parts.items.end, 25);
    c = m.parts.items;
    same("user", pgp_setting_next(B(startup), &c, &s), PGP_OK); part("user", (const uint8_t *)startup, s.name, "user"); part("alice", (const uint8_t *)startup, s.value, "alice");
    same("app", pgp_setting_next(B(startup), &c, &s), PGP_OK); part("app", (const uint8_t *)startup, s.name, "app"); same("nothing", s.value.len, 0); same("its place", s.value.at, 23);
    same("done", pgp_setting_next(B(startup), &c, &s), PGP_DONE); same("again", pgp_setting_next(B(startup), &c, &s), PGP_DONE); same("as it was", s.value.at, 23);
    c = m.parts.items; c.end = 20; same("cut", pgp_setting_next(B(startup), &c, &s), PGP_OK); same("cut", pgp_setting_next(B(startup), &c, &s), PGP_E_UNEXPECTED_EOF); same("again", pgp_setting_next(B(startup), &c, &s), PGP_E_UNEXPECTED_EOF);
    c.at = 30; same("no place", pgp_setting_next(B(startup), &c, &s), PGP_E_UNEXPECTED_EOF);
    FRONT("cancel", cancel, false, 2, &m);
    same("kind", m.kind, PGP_CLIENT_CANCEL_REQUEST); same("open", m.is_open, 0); same("process", (unsigned long)(m.parts.number == -2), 1); part("key", (const uint8_t *)cancel, m.parts.first, "secret");
    FRONT("ssl", "\0\0\0\x08\x04\xd2\x16\x2f", false, 0, &m); same("kind", m.kind, PGP_CLIENT_SSL_REQUEST); same("open", m.is_open, 0);
    FRONT("gssenc", "\0\0\0\x08\x04\xd2\x16\x30", false, 0, &m); same("kind", m.kind, PGP_CLIENT_GSSENC_REQUEST);
    same("version 2", pgp_client_front(B("\0\0\0\x08\0\2\0\0"), false, 0, &m), PGP_E_UNKNOWN_PACKET); same("its code", (unsigned long)m.parts.number, 131072); same("not passed", m.frame, 0); same("no kind", m.kind, 0);
    same("short", pgp_client_front(B("\0\0\0\7\0\3\0"), false, 0, &m), PGP_E_INVALID_LENGTH); same("long", pgp_client_front(B("\xff\0\0\7\0\3\0"), false, 0, &m), PGP_E_INVALID_LENGTH); same("not passed", m.frame, 0);
    same("no key", pgp_client_front(B("\0\0\0\x0c\x04\xd2\x16\x2e\0\0\0\1"), false, 0, &m), PGP_E_INVALID_SIZE); same("no end", pgp_client_front(B("\0\0\0\x09\0\3\0\0a"), false, 0, &m), PGP_E_UNEXPECTED_EOF);
    same("more", pgp_client_front(B("\0\0\0\x0a\0\3\0\0\0a"), false, 0, &m), PGP_E_NOT_DRAINED); same("not open", m.is_open, 0);
}

static void lists(void)
{
    static const char bind[] = "B\0\0\0\x23p\0s\0\0\2\0\1\0\0\0\2\0\0\0\3abc\xff\xff\xff\xff\0\3\0\1\0\0\xff\xff";
    static const char parse[] = "P\0\0\0\x1as\0SELECT $1\0\0\2\0\0\0\x17\0\0\0\0";
    static const char call[] = "F\0\0\0\x15\0\0\4\xd2\0\1\0\1\0\1\0\0\0\1x\0\1";
    struct pgp_client_message m;
    struct pgp_column v[3];
    struct pgp_cursor c;
    uint16_t format = 7;
    uint32_t type = 7;
    size_t n = 77;
    FRONT("bind", bind, true, 0, &m);
    same("kind", m.kind, PGP_CLIENT_BIND); same("tag", m.tag, 'B'); same("open", m.is_open, 1); part("portal", (const uint8_t *)bind, m.parts.first, "p"); part("statement", (const uint8_t *)bind, m.parts.second, "s");
    c = m.parts.formats; same("two", c.left, 2);
    same("binary", pgp_format_next(B(bind), &c, &format), PGP_OK); same("1", format, 1); same("text", pgp_format_next(B(bind), &c, &format), PGP_OK); same("0", format, 0); same("done", pgp_format_next(B(bind), &c, &format), PGP_DONE);
    c = m.parts.items; same("all", pgp_row_all(B(bind), &c, v, 3, &n), PGP_OK); same("two", n, 2); is("abc", bind + v[0].start, v[0].end - v[0].start, "abc", 3); same("null", v[1].is_null, 1);
    c = m.parts.result_formats; same("three", c.left, 3);
    same("1", pgp_format_next(B(bind), &c, &format), PGP_OK); same("1", format, 1); same("0", pgp_format_next(B(bind), &c, &format), PGP_OK); same("0", format, 0);
    same("-1", pgp_format_next(B(bind), &c, &format), PGP_OK); same("-1", format, 65535); same("done", pgp_format_next(B(bind), &c, &format), PGP_DONE); same("at the end", c.at, sizeof bind - 1);
    FRONT("bind of nothing", "B\0\0\0\x0c\0\0\0\0\0\0\0\0", true, 0, &m); same("none", m.parts.items.left, 0); c = m.parts.items; same("done", pgp_row_all(B("B\0\0\0\x0c\0\0\0\0\0\0\0\0"), &c, v, 3, &n), PGP_OK); same("none", n, 0);
    FRONT("parse", parse, true, 0, &m);
    same("kind", m.kind, PGP_CLIENT_PARSE); part("name", (const uint8_t *)parse, m.parts.first, "s"); part("query", (const uint8_t *)parse, m.parts.second, "SELECT $1");
    c = m.parts.items; same("int4", pgp_type_next(B(parse), &c, &type), PGP_OK); same("23", type, 23); same("any", pgp_type_next(B(parse), &c, &type), PGP_OK); same("0", type, 0); same("done", pgp_type_next(B(parse), &c, &type), PGP_DONE);
    FRONT("call", call, true, 0, &m);
    same("kind", m.kind, PGP_CLIENT_FUNCTION_CALL); same("function", m.parts.code, 1234); same("result", (unsigned long)m.parts.number, 1); same("formats", m.parts.formats.left, 1);
    c = m.parts.items; same("all", pgp_row_all(B(call), &c, v, 3, &n), PGP_OK); same("one", n, 1); is("x", call + v[0].start, v[0].end - v[0].start, "x", 1);
    same("a value's length", pgp_client_front(B("B\0\0\0\x10\0\0\0\0\0\1\xff\xff\xff\xfe\0\0"), true, 0, &m), PGP_E_INVALID_VALUE_LENGTH); same("passed", m.frame, 17); same("no kind", m.kind, 0); same("tag", m.tag, 'B'); same("no parts", m.parts.items.left, 0);
    same("too few", pgp_client_front(B("B\0\0\0\x0c\0\0\0\0\0\1\0\0"), true, 0, &m), PGP_E_UNEXPECTED_EOF); same("too many", pgp_client_front(B("P\0\0\0\x09\0\0\0\0\0"), true, 0, &m), PGP_E_NOT_DRAINED);
}

static void texts(void)
{
    static const char two[] = "Q\0\0\0\x0dSELECT 1\0X\0\0\0\4";
    struct pgp_client_message m, was;
    FRONT("query", "Q\0\0\0\x0dSELECT 1\0", true, 0, &m); same("kind", m.kind, PGP_CLIENT_QUERY); same("at", m.parts.first.at, 5); same("len", m.parts.first.len, 8);
    same("the first", pgp_client_front(B(two), true, 0, &m), PGP_OK); same("its frame", m.frame, 14); same("the second", pgp_client_front((const uint8_t *)two + 14, 5, true, 0, &m), PGP_OK); same("kind", m.kind, PGP_CLIENT_TERMINATE);
    FRONT("describe", "D\0\0\0\7Ss\0", true, 0, &m); same("kind", m.kind, PGP_CLIENT_DESCRIBE); same("letter", m.parts.byte, 'S'); same("at", m.parts.first.at, 6); same("len", m.parts.first.len, 1);
    FRONT("close", "C\0\0\0\6P\0", true, 0, &m); same("kind", m.kind, PGP_CLIENT_CLOSE); same("letter", m.parts.byte, 'P'); same("len", m.parts.first.len, 0);
    FRONT("execute", "E\0\0\0\x0bpq\0\0\0\0\5", true, 0, &m); same("kind", m.kind, PGP_CLIENT_EXECUTE); same("rows", (unsigned long)m.parts.number, 5); same("len", m.parts.first.len, 2);
    FRONT("sync", "S\0\0\0\4", true, 0, &m); same("kind", m.kind, PGP_CLIENT_SYNC); FRONT("flush", "H\0\0\0\4", true, 0, &m); same("kind", m.kind, PGP_CLIENT_FLUSH);
    FRONT("data", "d\0\0\0\6ab", true, 0, &m); same("kind", m.kind, PGP_CLIENT_COPY_DATA); same("at", m.parts.first.at, 5); same("len", m.parts.first.len, 2);
    FRONT("done", "c\0\0\0\4", true, 0, &m); same("kind", m.kind, PGP_CLIENT_COPY_DONE); FRONT("fail", "f\0\0\0\6n\0", true, 0, &m); same("kind", m.kind, PGP_CLIENT_COPY_FAIL); same("len", m.parts.first.len, 1);
    FRONT("password", "p\0\0\0\7pw\0", true, PGP_EXPECT_PASSWORD, &m); same("kind", m.kind, PGP_CLIENT_PASSWORD_MESSAGE); same("len", m.parts.first.len, 2);
    FRONT("initial", "p\0\0\0\x0cM\0\0\0\0\2ab", true, PGP_EXPECT_SASL_INITIAL, &m); same("kind", m.kind, PGP_CLIENT_SASL_INITIAL_RESPONSE); same("len", m.parts.first.len, 1); same("at", m.parts.second.at, 11); same("len", m.parts.second.len, 2); same("some", m.parts.is_null, 0);
    FRONT("initial of none", "p\0\0\0\x0aM\0\xff\xff\xff\xff", true, PGP_EXPECT_SASL_INITIAL, &m); same("none", m.parts.is_null, 1); same("none", m.parts.second.len, 0);
    FRONT("response", "p\0\0\0\6a\0", true, PGP_EXPECT_SASL_RESPONSE, &m); same("kind", m.kind, PGP_CLIENT_SASL_RESPONSE); same("len", m.parts.first.len, 2);
    memset(&m, 7, sizeof m); was = m; same("no kind", pgp_client_front(B("S\0\0\0\4"), true, 3, &m), PGP_E_KIND); same("as it was", memcmp(&m, &was, sizeof m), 0);
    same("tag", pgp_client_front(B("!\0\0\0\4"), true, 0, &m), PGP_E_UNKNOWN_TAG); same("passed", m.frame, 5); same("tag", m.tag, '!');
    same("length", pgp_client_front(B("Q\0\0\0\3"), true, 0, &m), PGP_E_INVALID_LENGTH); same("not passed", m.frame, 0); same("no tag", m.tag, 0);
}

static void replies(void)
{
    static const uint8_t bare[][2] = { {PGP_AUTHENTICATION_OK, 0}, {PGP_AUTHENTICATION_KERBEROS_V5, 2}, {PGP_AUTHENTICATION_CLEARTEXT_PASSWORD, 3}, {PGP_AUTHENTICATION_SCM_CREDENTIAL, 6}, {PGP_AUTHENTICATION_GSS, 7}, {PGP_AUTHENTICATION_SSPI, 9} };
    static const char tags[] = "123cInst";
    static const uint8_t kinds[] = { PGP_PARSE_COMPLETE, PGP_BIND_COMPLETE, PGP_CLOSE_COMPLETE, PGP_COPY_DONE, PGP_EMPTY_QUERY_RESPONSE, PGP_NO_DATA, PGP_PORTAL_SUSPENDED };
    struct pgp_bytes names[2], none[1];
    struct pgp_described columns[2];
    struct pgp_reported fields[3], bad[1];
    struct pgp_value values[3];
    uint32_t types[2] = {23, 0};
    uint16_t formats[2] = {1, 0};
    uint8_t out[64], want[9] = "R\0\0\0\x08\0\0\0";
    size_t n = 77, i;
    for (i = 0; i < sizeof bare / sizeof *bare; i++) { want[8] = bare[i][1]; same("request", pgp_reply(bare[i][0], out, 9, &n), PGP_OK); is("request", out, n, want, 9); }
    for (i = 0; i < sizeof kinds; i++) { want[0] = (uint8_t)tags[i]; want[4] = 4; same("bare", pgp_reply(kinds[i], out, 5, &n), PGP_OK); is("bare", out, n, want, 5); same("no room", pgp_reply(kinds[i], out, 4, &n), PGP_NO_ROOM); same("nothing", n, 0); }
    for (i = 0; i < 256; i++) if (!memchr(kinds, (int)i, sizeof kinds) && i != 1 && i != 2 && i != 4 && i != 6 && i != 10 && i != 11) { same("no such kind", pgp_reply((uint8_t)i, out, sizeof out, &n), PGP_E_KIND); same("nothing", n, 0); }
    WRITER("tag", "C\0\0\0\x0dSELECT 1\0", pgp_reply_text(PGP_COMMAND_COMPLETE, B("SELECT 1"), O));
    WRITER("data", "d\0\0\0\6ab", pgp_reply_text(PGP_COPY_DATA, B("ab"), O));
    WRITER("gss", "R\0\0\0\x0a\0\0\0\x08" "ab", pgp_reply_text(PGP_AUTHENTICATION_GSS_CONTINUE, B("ab"), O));
    WRITER("continue", "R\0\0\0\x0a\0\0\0\x0b" "ab", pgp_reply_text(PGP_AUTHENTICATION_SASL_CONTINUE, B("ab"), O));
    WRITER("final", "R\0\0\0\x0a\0\0\0\x0c" "ab", pgp_reply_text(PGP_AUTHENTICATION_SASL_FINAL, B("ab"), O));
    same("a 0 byte", pgp_reply_text(PGP_COMMAND_COMPLETE, B("a\0b"), out, sizeof out, &n), PGP_E_EMBEDDED_NULL); same("nothing", n, 0);
    same("no such kind", pgp_reply_text(PGP_READY_FOR_QUERY, B("I"), out, sizeof out, &n), PGP_E_KIND); same("nothing", n, 0);
    WRITER("md5", "R\0\0\0\x0c\0\0\0\5salt", pgp_reply_md5_password(B("salt"), O)); same("no salt", pgp_reply_md5_password(B("sal"), out, sizeof out, &n), PGP_E_INVALID_SIZE); same("nothing", n, 0);
    WRITER("key", "K\0\0\0\x0c\xff\xff\xff\xfe\0\0\0\7", pgp_reply_backend_key_data(-2, B("\0\0\0\7"), O)); same("no key", pgp_reply_backend_key_data(1, B("abc"), out, sizeof out, &n), PGP_E_INVALID_SIZE);
    WRITER("setting", "S\0\0\0\x0bTim\0eZ\0", pgp_reply_parameter_status(B("Tim"), B("eZ"), O));
    WRITER("notification", "A\0\0\0\x0c\0\0\0\1c\0p\0", pgp_reply_notification(1, B("c"), B("p"), O));
    WRITER("ready", "Z\0\0\0\5I", pgp_reply_ready_for_query('I', O));
    names[0] = pgp_bytes_of("SCRAM-SHA-256", 13); names[1] = pgp_bytes_of("X", 1); none[0] = pgp_bytes_of("a\0", 2);
    WRITER("sasl", "R\0\0\0\x19\0\0\0\x0aSCRAM-SHA-256\0X\0\0", pgp_reply_authentication_sasl(names, 2, O));
    WRITER("versions", "v\0\0\0\x0e\0\3\0\0\0\0\0\1X\0", pgp_reply_negotiate_protocol_version(196608, names + 1, 1, O));
    WRITER("versions, no option", "v\0\0\0\x0c\0\3\0\0\0\0\0\0", pgp_reply_negotiate_protocol_version(196608, NULL, 0, O));
    same("a 0 byte", pgp_reply_authentication_sasl(none, 1, out, sizeof out, &n), PGP_E_EMBEDDED_NULL); same("nothing", n, 0);
    memset(columns, 0, sizeof columns);
    columns[0].name = pgp_bytes_of("a", 1); columns[0].type_oid = 23; columns[0].type_size = 4; columns[0].type_modifier = -1;
    columns[1].name = pgp_bytes_of("", 0); columns[1].table_oid = 0x4001; columns[1].column_id = 3; columns[1].type_oid = 1043; columns[1].type_size = -1; columns[1].type_modifier = 36; columns[1].format = 1;
    WRITER("columns", "T\0\0\0\x2d\0\2a\0\0\0\0\0\0\0\0\0\0\x17\0\4\xff\xff\xff\xff\0\0" "\0\0\0\x40\1\0\3\0\0\4\x13\xff\xff\0\0\0\x24\0\1", pgp_reply_row_description(columns, 2, O));
    WRITER("no columns", "T\0\0\0\6\0\0", pgp_reply_row_description(NULL, 0, O));
    columns[1].name.len = 1; same("a 0 byte", pgp_reply_row_description(columns, 2, out, sizeof out, &n), PGP_E_EMBEDDED_NULL); same("nothing", n, 0);
    values[0] = pgp_value_of("a", 1); values[1] = pgp_value_of(NULL, 0); values[2] = pgp_value_of("", 0);
    WRITER("row", "D\0\0\0\x13\0\3\0\0\0\1a\xff\xff\xff\xff\0\0\0\0", pgp_reply_data_row(values, 3, O)); WRITER("no values", "D\0\0\0\6\0\0", pgp_reply_data_row(NULL, 0, O));
    WRITER("types", "t\0\0\0\x0e\0\2\0\0\0\x17\0\0\0\0", pgp_reply_parameter_description(types, 2, O));
    WRITER("in", "G\0\0\0\x0b\1\0\2\0\1\0\0", pgp_reply_copy_in(1, formats, 2, O)); WRITER("out", "H\0\0\0\7\0\0\0", pgp_reply_copy_out(0, NULL, 0, O));
    fields[0].code = PGP_FIELD_SEVERITY; fields[0].value = pgp_bytes_of("ERROR", 5); fields[1].code = PGP_FIELD_SQLSTATE; fields[1].value = pgp_bytes_of("42703", 5);
    fields[2].code = PGP_FIELD_MESSAGE; fields[2].value = pgp_bytes_of("", 0); bad[0] = fields[0]; bad[0].code = 0;
    WRITER("error", "E\0\0\0\x15SERROR\0C42703\0M\0\0", pgp_reply_error(fields, 3, O)); WRITER("notice", "N\0\0\0\x0cSERROR\0\0", pgp_reply_notice(fields, 1, O));
    same("no code", pgp_reply_error(bad, 1, out, sizeof out, &n), PGP_E_EMBEDDED_NULL); same("nothing", n, 0);
}

/* More items than a count says, and texts of every length up to a page: what is written is read back. */
static void large(void)
{
    size_t count = 65536, n = 77, k, size = 7 + 4 * 65535;
    struct pgp_value *values = (struct pgp_value *)malloc(count * sizeof *values);
    uint32_t *types = (uint32_t *)calloc(count, sizeof *types);
    uint8_t *out = (uint8_t *)malloc(size), *text = (uint8_t *)malloc(4096);
    struct pgp_message m;
    struct pgp_client_message q;
    for (k = 0; k < count; k++) values[k] = pgp_value_of(NULL, 0);
    same("too many", pgp_reply_data_row(values, count, out, size, &n), PGP_E_TOO_LARGE); same("nothing", n, 0); same("too many", pgp_reply_parameter_description(types, count, out, size, &n), PGP_E_TOO_LARGE);
    same("all", pgp_reply_data_row(values, count - 1, out, size, &n), PGP_OK); same("size", n, size); same("row", pgp_front(out, n, &m), PGP_OK); same("count", m.parts.count, 65535); same("short", pgp_reply_data_row(values, count - 1, out, size - 1, &n), PGP_NO_ROOM);
    memset(text, 'x', 4096);
    for (k = 0; k < 4096; k++) {
        same("query", pgp_query(text, k, out, size, &n), PGP_OK); same("read", pgp_client_front(out, n, true, 0, &q), PGP_OK); same("frame", q.frame, n); same("len", q.parts.first.len, k);
        same("tag", pgp_reply_text(PGP_COMMAND_COMPLETE, text, k, out, size, &n), PGP_OK); same("read", pgp_front(out, n, &m), PGP_OK); same("len", m.parts.first.len, k);
    }
    free(values); free(types); free(out); free(text);
}

/* RFC 7677, section 3: the password is "pencil". */
static void login(void)
{
    static const char stored[] = "SCRAM-SHA-256$4096:W22ZaJ0SNY7soEsUEjb6gQ==$WG5d8oPm3OtcPnkdi4Uo7BkeZkBFzpcXkuLmtbsT4qY=:wfPLwcE6nTWhTAmQ7tl2KeoiWGPlZqQxSrmfPwDl2dU=";
    static const char own[] = "%hvYDpWUa2RaTCAfuxFIlj)hNlF$k0", first[] = "n,,n=user,r=rOprNGfwEbeRWgbNEkqO";
    static const char challenge[] = "r=rOprNGfwEbeRWgbNEkqO%hvYDpWUa2RaTCAfuxFIlj)hNlF$k0,s=W22ZaJ0SNY7soEsUEjb6gQ==,i=4096";
    static const char last[] = "c=biws,r=rOprNGfwEbeRWgbNEkqO%hvYDpWUa2RaTCAfuxFIlj)hNlF$k0,p=dHzbZapWIk4jUhN+Ute9ytag9zjfMHgsqmmiz7AndVQ=";
    static const char other[] = "c=biws,r=rOprNGfwEbeRWgbNEkqO%hvYDpWUa2RaTCAfuxFIlj)hNlF$k0,p=eHzbZapWIk4jUhN+Ute9ytag9zjfMHgsqmmiz7AndVQ=";
    uint8_t out[128];
    size_t n = 77;
    WRITER("server first", "r=rOprNGfwEbeRWgbNEkqO%hvYDpWUa2RaTCAfuxFIlj)hNlF$k0,s=W22ZaJ0SNY7soEsUEjb6gQ==,i=4096", pgp_scram_server_first(B(stored), PGP_OFFER_NONE, NULL, 0, B(own), B(first), O));
    WRITER("server final", "v=6rriTRBi23WpRR/wtup+mMhUZUn/dB5nLTJRsjl95G4=", pgp_scram_server_final(B(stored), PGP_OFFER_NONE, NULL, 0, B(own), B(first), B(last), O));
    same("another proof", pgp_scram_server_final(B(stored), PGP_OFFER_NONE, NULL, 0, B(own), B(first), B(other), out, sizeof out, &n), PGP_SCRAM_INVALID_PROOF); same("nothing", n, 0);
    same("no proof", pgp_scram_server_final(B(stored), PGP_OFFER_NONE, NULL, 0, B(own), B(first), B("c=biws,r=rOprNGfwEbeRWgbNEkqO%hvYDpWUa2RaTCAfuxFIlj)hNlF$k0,p=dHzb"), out, sizeof out, &n), PGP_SCRAM_INVALID_ENCODING);
    same("another exchange", pgp_scram_server_final(B(stored), PGP_OFFER_NONE, NULL, 0, B("x"), B(first), B(last), out, sizeof out, &n), PGP_SCRAM_OTHER_EXCHANGE); same("nothing", n, 0);
    same("no first text", pgp_scram_server_first(B(stored), PGP_OFFER_NONE, NULL, 0, B(own), B("n,,r=abc"), out, sizeof out, &n), PGP_SCRAM_INVALID_FIRST); same("nothing", n, 0);
    same("a binding", pgp_scram_server_first(B(stored), PGP_OFFER_NONE, NULL, 0, B(own), B("p=tls-server-end-point,,n=,r=abc"), out, sizeof out, &n), PGP_SCRAM_UNSUPPORTED_BINDING);
    same("one that was offered", pgp_scram_server_first(B(stored), PGP_OFFER_DECLINED, NULL, 0, B(own), B("y,,n=,r=abc"), out, sizeof out, &n), PGP_SCRAM_UNSUPPORTED_BINDING);
    same("chosen", pgp_scram_server_first(B(stored), PGP_OFFER_CHOSEN, B("hash"), B(own), B("p=tls-server-end-point,,n=,r=abc"), out, sizeof out, &n), PGP_OK); is("nonce", out, 6, "r=abc%", 6);
    same("no verifier", pgp_scram_server_first(B("md5"), PGP_OFFER_NONE, NULL, 0, B(own), B(first), out, sizeof out, &n), PGP_NOT_A_VERIFIER); same("no nonce", pgp_scram_server_first(B(stored), PGP_OFFER_NONE, NULL, 0, B("a,b"), B(first), out, sizeof out, &n), PGP_BAD_NONCE);
    same("no offer", pgp_scram_server_first(B(stored), 3, NULL, 0, B(own), B(first), out, sizeof out, &n), PGP_BAD_BINDING); same("nothing", n, 0);
    same("clear text", pgp_scram_check(B(stored), B("pencil")), PGP_OK); same("another", pgp_scram_check(B(stored), B("pencils")), PGP_WRONG_PASSWORD); same("no verifier", pgp_scram_check(B("SCRAM-SHA-256$"), B("pencil")), PGP_NOT_A_VERIFIER);
    WRITER("md5", "md57cd2b9a92689eab2e58caf2da80afa15", pgp_md5_verifier(B("md5_user"), B("password"), O)); same("no text", pgp_md5_verifier(B("\xff"), B("password"), out, sizeof out, &n), PGP_E_NOT_UTF8); same("nothing", n, 0);
    same("md5", pgp_md5_check(B("md57cd2b9a92689eab2e58caf2da80afa15"), B("\x2a\x3d\x8f\xe0"), B("md562af4dd09bbb41884907a838a3233294")), PGP_OK);
    same("another salt", pgp_md5_check(B("md57cd2b9a92689eab2e58caf2da80afa15"), B("\x2a\x3d\x8f\xe1"), B("md562af4dd09bbb41884907a838a3233294")), PGP_WRONG_PASSWORD);
    same("no salt", pgp_md5_check(B("md57cd2b9a92689eab2e58caf2da80afa15"), B("\x2a\x3d\x8f"), B("md562af4dd09bbb41884907a838a3233294")), PGP_E_INVALID_SIZE); same("no text", pgp_md5_check(B("md5"), B("salt"), B("")), PGP_WRONG_PASSWORD);
    same("challenge", pgp_scram_server_first(B(stored), 0, NULL, 0, B(own), B(first), out, sizeof out, &n), PGP_OK); is("challenge", out, n, challenge, sizeof challenge - 1);
}

static void is_text(void)
{
    same("text", pgp_is_text(B("Ren\xc3\xa9")), PGP_OK); same("nothing", pgp_is_text(NULL, 0), PGP_OK); same("Latin", pgp_is_text(B("Ren\xe9")), PGP_E_NOT_UTF8);
    same("a 0 byte", pgp_is_text(B("a\0b")), PGP_E_EMBEDDED_NULL); same("both", pgp_is_text(B("\xff\0")), PGP_E_NOT_UTF8); same("half a pair", pgp_is_text(B("\xed\xa0\x80")), PGP_E_NOT_UTF8);
}

void server(void) { is_text(); openings(); lists(); texts(); replies(); large(); login(); }
