/* further: dialogues, whole lists in one call, decimal numbers, spans, JSON, SASLprep, and names. */
#include "checks.h"

/* Asks and takes by words, as "P1 B2 S3 <1 <2 <Z": what comes of each message is a letter and the request's number; "^" is the first request that is to end. */
static const char letters[] = "UQPBCdDEFScf";
static uint8_t kind_of(char tag)
{
    static const char tags[] = "12CDEGHINRTVWZcdnst3AK0v";
    static const uint8_t kinds[] = { PGP_PARSE_COMPLETE, PGP_BIND_COMPLETE, PGP_COMMAND_COMPLETE, PGP_DATA_ROW, PGP_ERROR_RESPONSE, PGP_COPY_IN_RESPONSE,
        PGP_COPY_OUT_RESPONSE, PGP_EMPTY_QUERY_RESPONSE, PGP_NOTICE_RESPONSE, PGP_AUTHENTICATION_SASL, PGP_ROW_DESCRIPTION, PGP_FUNCTION_CALL_RESPONSE,
        PGP_COPY_BOTH_RESPONSE, PGP_READY_FOR_QUERY, PGP_COPY_DONE, PGP_COPY_DATA, PGP_NO_DATA, PGP_PORTAL_SUSPENDED, PGP_PARAMETER_DESCRIPTION, PGP_CLOSE_COMPLETE,
        PGP_NOTIFICATION_RESPONSE, PGP_BACKEND_KEY_DATA, PGP_AUTHENTICATION_OK, PGP_NEGOTIATE_PROTOCOL_VERSION };
    return kinds[strchr(tags, tag) - tags];
}
static void talk(size_t room, const char *words, const char *want)
{
    struct pgp_slot *slots = (struct pgp_slot *)calloc(room ? room : 1, sizeof *slots);
    struct pgp_dialogue d = {slots, 0, 0, 0, 0, 0};
    struct pgp_event e = {0, 0};
    char got[128], *end = got;
    bool idle = false;
    d.room_len = room;
    for (; *words; words++) {
        if (*words == ' ') continue;
        if (*words == '^') {
            uint64_t name = 0;
            pgp_status r = pgp_dialogue_first_open(&d, &name);
            end += r == PGP_OK ? sprintf(end, "^%lu", (unsigned long)name) : sprintf(end, r == PGP_DONE && name == 0 ? "^-" : "!");
        } else if (*words == '<') {
            pgp_status r = pgp_dialogue_take(&d, kind_of(*++words), &e);
            if (r != PGP_OK) end += sprintf(end, "%s", r == PGP_E_UNEXPECTED ? "x" : r == PGP_E_UNCERTAIN ? "?" : "!");
            else end += sprintf(end, e.what <= PGP_LAST ? "%c%lu" : "%c", " pl-e"[e.what], (unsigned long)e.name);
        } else {
            uint8_t request = (uint8_t)(strchr(letters, *words) - letters);
            if (pgp_dialogue_ask(&d, request, (uint64_t)(*++words - '0')) != PGP_OK) end += sprintf(end, "full");
        }
    }
    same("is_idle", pgp_dialogue_is_idle(&d, &idle), PGP_OK);
    end += sprintf(end, idle ? "." : ",");
    is(want, got, (size_t)(end - got), want, strlen(want));
    free(slots);
}
static void dialogues(void)
{
    struct pgp_slot slot[1] = {{0, 0}};
    struct pgp_dialogue d = {slot, 1, 0, 0, 0, 0};
    struct pgp_event e = {7, 7};
    bool idle = true;
    size_t room;
    for (room = 4; room < 9; room++) {
        talk(room, "U1 <R <0 <K <Z", "p1p1p1l1.");
        talk(room, "Q1 <T <D <C <Z", "p1p1p1l1.");
        talk(room, "P1 B2 E3 S4 <1 <2 <D <N <C <Z", "l1l2p3-l3l4.");
        talk(room, "P1 B2 E3 S4 <E <Z", "l1l4.");
        talk(room, "Q1 Q2 <E <Z <C <Z", "p1l1p2l2.");
        talk(room, "E1 S2 <G <E", "p1?,");
        talk(room, "Q1 <D", "x,");
        talk(room, "F1 <V <Z", "p1l1.");
        talk(room, "<E", "e,");
        talk(room, "P1 B2 E3 S4 ^ <1 ^ <E ^ <Z ^", "^1l1^2l2^4l4^-.");
        talk(room, "B1 <E E2 ^ Q3 ^ S4 ^ <Z ^", "l1^-^-^4l4^-.");
        talk(room, "E1 S2 <G c3 ^ <C ^", "p1^1l1^-.");
        talk(room, "Q1 <E ^ <Z <E ^", "p1^1l1e^-,");
    }
    talk(1, "S1 S2 <Z S3 <Z", "fulll1l3.");
    talk(0, "S1", "full.");
    same("no request", pgp_dialogue_ask(&d, 12, 1), PGP_E_KIND); same("nothing asked", d.end, 0);
    same("no kind", pgp_dialogue_take(&d, 0, &e), PGP_E_KIND); same("no kind", pgp_dialogue_take(&d, 35, &e), PGP_E_KIND); same("as it was", e.what, 7);
    d.start = 1; same("no places", pgp_dialogue_take(&d, PGP_READY_FOR_QUERY, &e), PGP_NO_ROOM); same("no places", pgp_dialogue_ask(&d, 0, 1), PGP_NO_ROOM);
    same("no places", pgp_dialogue_is_idle(&d, &idle), PGP_NO_ROOM); same("as it was", idle, 1);
    same("no places", pgp_dialogue_first_open(&d, &e.name), PGP_NO_ROOM); same("as it was", e.name, 7);
    d.end = 2; same("past the room", pgp_dialogue_ask(&d, 0, 1), PGP_NO_ROOM);
}

static void lists(void)
{
    static const char row[] = "D\0\0\0\x13\0\3\0\0\0\1a\xff\xff\xff\xff\0\0\0\0";
    static const char columns[] = "T\0\0\0\x2d\0\2a\0\0\0\0\0\0\0\0\0\0\x17\0\4\xff\xff\xff\xff\0\0" "\0\0\0\x40\1\0\3\0\0\4\x13\xff\xff\0\0\0\x24\0\1";
    static const char ints[] = "\0\0\0\1\0\0\0\1\0\0\0\x17\0\0\0\3\0\0\0\1\0\0\0\4\0\0\0\1\xff\xff\xff\xff\0\0\0\4\xff\xff\xff\xfd";
    struct pgp_message m;
    struct pgp_cursor c;
    struct pgp_column v[4];
    struct pgp_field f[2];
    struct pgp_array array;
    size_t n = 77, room;
    same("row", pgp_front(B(row), &m), PGP_OK);
    for (room = 0; room < 5; room++) {
        c = pgp_walk(&m); memset(v, 7, sizeof v);
        same("all", pgp_row_all(B(row), &c, v, room, &n), room < 3 ? PGP_FULL : PGP_OK); same("count", n, room < 3 ? room : 3);
        if (n > 0) { same("start", v[0].start, 11); same("end", v[0].end, 12); same("no null", v[0].is_null, 0); }
        if (n > 1) same("null", v[1].is_null, 1);
        if (n > 2) { same("start", v[2].start, 20); same("end", v[2].end, 20); same("behind", ((uint8_t *)&v[3])[0], 7); }
        if (room < 3) { same("the rest", pgp_row_all(B(row), &c, v, 4, &n), PGP_OK); same("count", n, 3 - room); }
    }
    c = pgp_walk(&m); c.end -= 1; same("short", pgp_row_all(B(row), &c, v, 4, &n), PGP_E_UNEXPECTED_EOF); same("two", n, 2); same("again", pgp_row_all(B(row), &c, v, 4, &n), PGP_E_UNEXPECTED_EOF); same("none", n, 0);
    c = pgp_walk(&m); c.left = 2; same("more", pgp_row_all(B(row), &c, v, 2, &n), PGP_E_NOT_DRAINED); same("two", n, 2);
    same("columns", pgp_front(B(columns), &m), PGP_OK); c = pgp_walk(&m);
    same("all", pgp_field_all(B(columns), &c, f, 2, &n), PGP_OK); same("two", n, 2); same("int4", f[0].type_oid, 23); same("varchar", f[1].type_oid, 1043); same("36", (unsigned long)f[1].type_modifier, 36);
    same("array", pgp_get_array(B(ints), &array), PGP_OK); c = array.elements;
    same("all", pgp_element_all(B(ints), &c, v, 4, &n), PGP_OK); same("three", n, 3); same("start", v[0].start, 24); same("null", v[1].is_null, 1); same("end", v[2].end, 40);
}

static void values(void)
{
    static const char *const texts[][2] = { /* what is written, and what is shown */
        {"0", "0"}, {"-0.01", "-0.01"}, {"12345.6700", "12345.6700"}, {"1e5", "100000"}, {" +1.5 ", "1.5"}, {"NaN", "NaN"}, {"-inf", "-Infinity"}, {"10000", "10000"} };
    struct pgp_interval span = {4000000, -3, 14}, back = {0, 0, 0};
    struct pgp_timetz noon, other;
    struct pgp_part json = {7, 7};
    uint8_t out[64], shown[64];
    size_t n, k, i;
    noon.microseconds = 43200000000; noon.zone = -7200; other.microseconds = 0; other.zone = 0;
    WRITER("numeric", "\0\3\0\1\0\0\0\4\0\1\x09\x29\x1a\x2c", pgp_put_numeric_text(B("12345.6700"), O));
    WRITER("numeric of nothing", "\0\0\0\0\0\0\0\0", pgp_put_numeric_text(B("0"), O));
    WRITER("its text", "12345.6700", pgp_get_numeric_text(B("\0\3\0\1\0\0\0\4\0\1\x09\x29\x1a\x2c"), O));
    for (i = 0; i < sizeof texts / sizeof *texts; i++) {
        same(texts[i][0], pgp_put_numeric_text(T(texts[i][0]), out, sizeof out, &n), PGP_OK);
        same(texts[i][1], pgp_get_numeric_text(out, n, shown, sizeof shown, &k), PGP_OK); is(texts[i][1], shown, k, texts[i][1], strlen(texts[i][1]));
    }
    same("no number", pgp_put_numeric_text(B("1.2.3"), out, sizeof out, &n), PGP_E_INVALID_TEXT); same("nothing", n, 0);
    same("too large", pgp_put_numeric_text(B("1e200000"), out, sizeof out, &n), PGP_E_OUT_OF_RANGE); same("no text", pgp_put_numeric_text(B("\xff"), out, sizeof out, &n), PGP_E_NOT_UTF8);
    same("cut", pgp_get_numeric_text(B("\0\1\0\0\0\0\0\0\0"), out, sizeof out, &n), PGP_E_UNEXPECTED_EOF); same("a sign", pgp_get_numeric_text(B("\0\0\0\0\1\0\0\0"), out, sizeof out, &n), PGP_E_INVALID_SIGN);
    same("a scale", pgp_get_numeric_text(B("\0\0\0\0\0\0\x40\0"), out, sizeof out, &n), PGP_E_INVALID_SCALE); same("a digit", pgp_get_numeric_text(B("\0\1\0\0\0\0\0\0\x27\x10"), out, sizeof out, &n), PGP_E_INVALID_DIGIT);
    WRITER("interval", "\0\0\0\0\0\x3d\x09\0\xff\xff\xff\xfd\0\0\0\x0e", pgp_put_interval(&span, O));
    same("get", pgp_get_interval(B("\0\0\0\0\0\x3d\x09\0\xff\xff\xff\xfd\0\0\0\x0e"), &back), PGP_OK); same("the same", memcmp(&back, &span, sizeof span) == 0, 1);
    same("cut", pgp_get_interval(B("\0"), &back), PGP_E_UNEXPECTED_EOF); same("as it was", (unsigned long)back.months, 14);
    WRITER("timetz", "\0\0\0\x0a\x0e\xeb\xb0\0\xff\xff\xe3\xe0", pgp_put_timetz(&noon, O));
    same("get", pgp_get_timetz(B("\0\0\0\x0a\x0e\xeb\xb0\0\xff\xff\xe3\xe0"), &other), PGP_OK); same("time", other.microseconds == noon.microseconds, 1); same("zone", other.zone == noon.zone, 1);
    WRITER("jsonb", "\1{}", pgp_put_jsonb(B("{}"), O));
    same("get", pgp_get_jsonb(B("\1{}"), &json), PGP_OK); same("at", json.at, 1); same("len", json.len, 2);
    same("version", pgp_get_jsonb(B("\2{}"), &json), PGP_E_INVALID_VERSION); same("nothing", pgp_get_jsonb(B(""), &json), PGP_E_INVALID_VERSION); same("as it was", json.at, 1);
    same("no text", pgp_put_jsonb(B("\xff"), out, sizeof out, &n), PGP_E_NOT_UTF8); same("nothing", n, 0);
}

/* Bytes that PostgreSQL 15.18 sent (numeric_send; crates/test_rows/data/numerics.rows), and their halves by hand: high * 2^64 + low. */
static void integers(void)
{
    static const struct { const char *bytes; size_t len; int64_t high; uint64_t low; } cases[] = {
        {"\0\0\0\0\0\0\0\0", 8, 0, 0}, {"\0\1\0\0\0\0\0\0\0\1", 10, 0, 1}, {"\0\1\0\0\x40\0\0\0\0\1", 10, -1, UINT64_MAX}, {"\0\1\0\2\0\0\0\0\0\1", 10, 0, 100000000},
        {"\0\5\0\4\0\0\0\0\4\xd2\x16\x2e\x23\x34\x0d\x80\x1e\xd2", 18, 0, 12345678901234567890u}, {"\0\1\0\7\0\0\0\0\0\x64", 10, 54210108624, 5076944270305263616},
        {"\0\5\0\4\x40\0\0\0\3\x9a\x0d\x2c\1\x70\x15\x65\x16\xb1", 18, -1, INT64_MAX},
        {"\0\x0a\0\x09\0\0\0\0\0\xaa\5\x83\x20\x9a\1\xd5\x09\x0d\x0c\x60\x1c\x87\x1b\xf6\x20\xda\x16\x5f", 28, INT64_MAX, UINT64_MAX},
        {"\0\x0a\0\x09\x40\0\0\0\0\xaa\5\x83\x20\x9a\1\xd5\x09\x0d\x0c\x60\x1c\x87\x1b\xf6\x20\xda\x16\x60", 28, INT64_MIN, 0} };
    int64_t value = 7, high = 7;
    uint64_t low = 7;
    uint8_t out[64];
    size_t i, n;
    for (i = 0; i < sizeof cases / sizeof *cases; i++) {
        same("put", pgp_put_numeric_int128(cases[i].high, cases[i].low, out, sizeof out, &n), PGP_OK); is("put", out, n, cases[i].bytes, cases[i].len);
        same("get", pgp_get_numeric_int128((const uint8_t *)cases[i].bytes, cases[i].len, &high, &low), PGP_OK); same("high", high == cases[i].high, 1); same("low", low == cases[i].low, 1);
    }
    WRITER("2^63 - 1", "\0\5\0\4\0\0\0\0\3\x9a\x0d\x2c\1\x70\x15\x65\x16\xaf", pgp_put_numeric_int64(INT64_MAX, O));
    WRITER("-2^63", "\0\5\0\4\x40\0\0\0\3\x9a\x0d\x2c\1\x70\x15\x65\x16\xb0", pgp_put_numeric_int64(INT64_MIN, O));
    WRITER("2^64", "\0\5\0\4\0\0\0\0\7\x34\x1a\x58\2\xe1\x03\xbb\x06\x50", pgp_put_numeric_int128(1, 0, O));
    same("get", pgp_get_numeric_int64(B("\0\5\0\4\0\0\0\0\3\x9a\x0d\x2c\1\x70\x15\x65\x16\xaf"), &value), PGP_OK); same("2^63 - 1", value == INT64_MAX, 1);
    same("get", pgp_get_numeric_int64(B("\0\5\0\4\x40\0\0\0\3\x9a\x0d\x2c\1\x70\x15\x65\x16\xb0"), &value), PGP_OK); same("-2^63", value == INT64_MIN, 1);
    same("12.00", pgp_get_numeric_int64(B("\0\1\0\0\0\0\0\2\0\x0c"), &value), PGP_OK); same("12", value == 12, 1);
    same("2^63", pgp_get_numeric_int64(B("\0\5\0\4\0\0\0\0\3\x9a\x0d\x2c\1\x70\x15\x65\x16\xb0"), &value), PGP_E_OUT_OF_RANGE); same("as it was", value == 12, 1);
    same("2^127", pgp_get_numeric_int128(B("\0\x0a\0\x09\0\0\0\0\0\xaa\5\x83\x20\x9a\1\xd5\x09\x0d\x0c\x60\x1c\x87\x1b\xf6\x20\xda\x16\x60"), &high, &low), PGP_E_OUT_OF_RANGE); same("as it was", high == INT64_MIN, 1); same("as it was", low, 0);
    same("0.5", pgp_get_numeric_int64(B("\0\1\xff\xff\0\0\0\1\x13\x88"), &value), PGP_E_FRACTION); same("0.5", pgp_get_numeric_int128(B("\0\1\xff\xff\0\0\0\1\x13\x88"), &high, &low), PGP_E_FRACTION);
    same("NaN", pgp_get_numeric_int64(B("\0\0\0\0\xc0\0\0\0"), &value), PGP_E_NOT_FINITE); same("Infinity", pgp_get_numeric_int128(B("\0\0\0\0\xd0\0\0\x20"), &high, &low), PGP_E_NOT_FINITE);
    same("cut", pgp_get_numeric_int64(B("\0\1\0\0\0\0\0\0\0"), &value), PGP_E_UNEXPECTED_EOF); same("a sign", pgp_get_numeric_int128(B("\0\0\0\0\0\1\0\0"), &high, &low), PGP_E_INVALID_SIGN);
    same("a byte more", pgp_get_numeric_int64(B("\0\0\0\0\0\0\0\0!"), &value), PGP_E_NOT_DRAINED); same("as it was", value == 12, 1);
}

/* Bytes that PostgreSQL 15.18 sent (numeric_send), and their parts by the format; the rejected ones by hand. */
static void decimals(void)
{
    static const struct { const char *text, *bytes; size_t len; uint8_t kind; bool negative; int16_t weight; uint16_t scale, count, digits[3]; } cases[] = {
        {"12345.678", "\0\3\0\1\0\0\0\3\0\1\x09\x29\x1a\x7c", 14, PGP_NUMERIC_FINITE, false, 1, 3, 3, {1, 2345, 6780}},
        {"123456789012", "\0\3\0\2\0\0\0\0\4\xd2\x16\x2e\x23\x34", 14, PGP_NUMERIC_FINITE, false, 2, 0, 3, {1234, 5678, 9012}},
        {"10000", "\0\1\0\1\0\0\0\0\0\1", 10, PGP_NUMERIC_FINITE, false, 1, 0, 1, {1, 0, 0}},
        {"-9999", "\0\1\0\0\x40\0\0\0\x27\x0f", 10, PGP_NUMERIC_FINITE, true, 0, 0, 1, {9999, 0, 0}},
        {"-0.0001", "\0\1\xff\xff\x40\0\0\4\0\1", 10, PGP_NUMERIC_FINITE, true, -1, 4, 1, {1, 0, 0}},
        {"1e-20", "\0\1\xff\xfb\0\0\0\x14\0\1", 10, PGP_NUMERIC_FINITE, false, -5, 20, 1, {1, 0, 0}},
        {"0", "\0\0\0\0\0\0\0\0", 8, PGP_NUMERIC_FINITE, false, 0, 0, 0, {0, 0, 0}},
        {"0.000", "\0\0\0\0\0\0\0\3", 8, PGP_NUMERIC_FINITE, false, 0, 3, 0, {0, 0, 0}},
        {"NaN", "\0\0\0\0\xc0\0\0\0", 8, PGP_NUMERIC_NAN, false, 0, 0, 0, {0, 0, 0}},
        {"Infinity", "\0\0\0\0\xd0\0\0\x20", 8, PGP_NUMERIC_POS_INFINITY, false, 0, 0, 0, {0, 0, 0}},
        {"-Infinity", "\0\0\0\0\xf0\0\0\x20", 8, PGP_NUMERIC_NEG_INFINITY, false, 0, 0, 0, {0, 0, 0}} };
    static const uint16_t digits[3] = {1, 2345, 6780}, wrong[2] = {9999, 10000};
    static uint16_t many[65536];
    static uint8_t out[8 + 2 * 65535];
    struct pgp_numeric v;
    size_t i, k, n;
    for (i = 0; i < sizeof cases / sizeof *cases; i++) {
        const uint8_t *bytes = (const uint8_t *)cases[i].bytes;
        memset(&v, 7, sizeof v);
        same(cases[i].text, pgp_get_numeric(bytes, cases[i].len, &v), PGP_OK);
        same("kind", v.kind, cases[i].kind); same("negative", v.negative, cases[i].negative); same("weight", v.weight == cases[i].weight, 1); same("scale", v.scale, cases[i].scale);
        same("count", v.count, cases[i].count); same("digits", v.digits, 8);
        for (k = 0; k < v.count; k++) same("digit", 256u * bytes[v.digits + 2 * k] + bytes[v.digits + 2 * k + 1], cases[i].digits[k]);
        if (v.kind != PGP_NUMERIC_FINITE) continue;
        same(cases[i].text, pgp_put_numeric(cases[i].negative, cases[i].weight, cases[i].scale, cases[i].digits, cases[i].count, out, sizeof out, &n), PGP_OK); is(cases[i].text, out, n, bytes, cases[i].len);
    }
    WRITER("12345.678", "\0\3\0\1\0\0\0\3\0\1\x09\x29\x1a\x7c", pgp_put_numeric(false, 1, 3, digits, 3, O));
    WRITER("nothing", "\0\0\0\0\0\0\0\0", pgp_put_numeric(false, 0, 0, NULL, 0, O));
    WRITER("the least weight, the greatest scale", "\0\1\x80\0\x40\0\x3f\xff\x27\x0f", pgp_put_numeric(true, INT16_MIN, 16383, wrong, 1, O));
    n = 77; same("a scale", pgp_put_numeric(false, 0, 16384, wrong, 2, out, sizeof out, &n), PGP_E_INVALID_SCALE); same("nothing", n, 0);
    n = 77; same("a digit", pgp_put_numeric(false, 0, 16383, wrong, 2, out, 0, &n), PGP_E_INVALID_DIGIT); same("nothing", n, 0);
    n = 77; same("a digit too many", pgp_put_numeric(false, 0, 0, many, 65536, out, sizeof out, &n), PGP_E_OUT_OF_RANGE); same("nothing", n, 0);
    same("the most digits", pgp_put_numeric(false, 0, 0, many, 65535, out, sizeof out, &n), PGP_OK); same("all of them", n, sizeof out); is("their number", out, 2, "\xff\xff", 2);
    same("the most digits", pgp_get_numeric(out, n, &v), PGP_OK); same("all of them", v.count, 65535);
    same("cut", pgp_get_numeric(B("\0\1\0\0\0\0\0\0\0"), &v), PGP_E_UNEXPECTED_EOF); same("a byte more", pgp_get_numeric(B("\0\0\0\0\0\0\0\0!"), &v), PGP_E_NOT_DRAINED);
    same("a sign", pgp_get_numeric(B("\0\0\0\0\1\0\0\0"), &v), PGP_E_INVALID_SIGN); same("a scale", pgp_get_numeric(B("\0\0\0\0\0\0\x40\0"), &v), PGP_E_INVALID_SCALE);
    same("a digit", pgp_get_numeric(B("\0\1\0\0\0\0\0\0\x27\x10"), &v), PGP_E_INVALID_DIGIT); same("as it was", v.count, 65535);
}

static void members(void)
{
    static const char record[] = "\0\0\0\3\0\0\0\x17\0\0\0\4\0\0\0\1\0\0\2\xc1\0\0\0\1x\0\0\2\xc1\xff\xff\xff\xff"; /* (1,x,) */
    static const char ranges[] = "\0\0\0\2\0\0\0\x11\2\0\0\0\4\0\0\0\1\0\0\0\4\0\0\0\5\0\0\0\x11\2\0\0\0\4\0\0\0\7\0\0\0\4\0\0\0\x09"; /* {[1,5),[7,9)} */
    struct pgp_cursor c = {0, 0, 0};
    struct pgp_member m;
    struct pgp_part p = {7, 7};
    struct pgp_range r;
    memset(&m, 7, sizeof m);
    same("record", pgp_get_record(B(record), &c), PGP_OK); same("three", c.left, 3);
    same("1st", pgp_member_next(B(record), &c, &m), PGP_OK); same("int4", m.of_type, 23); is("1", record + m.value.start, m.value.end - m.value.start, "\0\0\0\1", 4);
    same("2nd", pgp_member_next(B(record), &c, &m), PGP_OK); same("unknown", m.of_type, 705); is("x", record + m.value.start, m.value.end - m.value.start, "x", 1);
    same("3rd", pgp_member_next(B(record), &c, &m), PGP_OK); same("null", m.value.is_null, 1);
    same("no more", pgp_member_next(B(record), &c, &m), PGP_DONE); same("as it was", m.of_type, 705);
    same("negative", pgp_get_record(B("\xff\xff\xff\xff"), &c), PGP_E_INVALID_COUNT); same("cut", pgp_get_record(B("\0"), &c), PGP_E_UNEXPECTED_EOF); same("as it was", c.left, 0);
    same("one", pgp_get_record(B("\0\0\0\1\0\0\0\x17\0\0\0\4\0"), &c), PGP_OK); same("short", pgp_member_next(B("\0\0\0\1\0\0\0\x17\0\0\0\4\0"), &c, &m), PGP_E_INVALID_VALUE_LENGTH);
    same("multirange", pgp_get_multirange(B(ranges), &c), PGP_OK); same("two", c.left, 2);
    same("1st", pgp_multirange_next(B(ranges), &c, &p), PGP_OK); same("at", p.at, 8); same("len", p.len, 17); same("a range", pgp_get_range((const uint8_t *)ranges + p.at, p.len, &r), PGP_OK); same("in", r.lower.kind, PGP_INCLUSIVE);
    same("2nd", pgp_multirange_next(B(ranges), &c, &p), PGP_OK); same("at", p.at, 29);
    same("no more", pgp_multirange_next(B(ranges), &c, &p), PGP_DONE); same("as it was", p.at, 29);
    same("negative", pgp_get_multirange(B("\x80\0\0\0"), &c), PGP_E_INVALID_COUNT);
    same("one", pgp_get_multirange(B("\0\0\0\1\0\0\0\2\1"), &c), PGP_OK); same("short", pgp_multirange_next(B("\0\0\0\1\0\0\0\2\1"), &c, &p), PGP_E_INVALID_VALUE_LENGTH);
}

static void data(void)
{
    uint8_t room[16];
    struct pgp_stream s = {room, sizeof room, 0, false};
    same("before the startup packet", pgp_stream_copy_data(&s, B("ab")), PGP_E_WRONG_PHASE); s.is_open = true;
    same("data", pgp_stream_copy_data(&s, B("ab")), PGP_OK); is("data", room, s.len, "d\0\0\0\6ab", 7);
    same("no room", pgp_stream_copy_data(&s, B("abcde")), PGP_NO_ROOM); same("as it was", s.len, 7);
    same("more", pgp_stream_copy_data(&s, B("abcd")), PGP_OK); is("more", room + 7, s.len - 7, "d\0\0\0\x08" "abcd", 9);
}

static void prepared(void)
{
    uint8_t out[64];
    size_t n;
    same("ascii", pgp_saslprep(B("secret"), out, sizeof out, &n), PGP_OK); is("ascii", out, n, "secret", 6);
    same("a space past ASCII", pgp_saslprep(B("a\xc2\xa0" "b"), out, sizeof out, &n), PGP_OK); is("a space", out, n, "a b", 3);
    same("mapped to nothing", pgp_saslprep(B("I\xc2\xadX"), out, sizeof out, &n), PGP_OK); is("RFC 4013, 3", out, n, "IX", 2);
    same("normal form", pgp_saslprep(B("\xc2\xaa"), out, sizeof out, &n), PGP_OK); is("RFC 4013, 3", out, n, "a", 1);
    same("prohibited", pgp_saslprep(B("\x07"), out, sizeof out, &n), PGP_OK); is("as it is", out, n, "\x07", 1);
    same("no text", pgp_saslprep(B("\xff"), out, sizeof out, &n), PGP_OK); is("as it is", out, n, "\xff", 1);
    same("no room", pgp_saslprep(B("secret"), out, 5, &n), PGP_NO_ROOM); same("nothing", n, 0);
}

static void names(void)
{
    is("status", T(pgp_status_name(PGP_E_NOT_UTF8)), T("PGP_E_NOT_UTF8")); is("status", T(pgp_status_name(PGP_E_OUT_OF_RANGE)), T("PGP_E_OUT_OF_RANGE"));
    is("status", T(pgp_status_name(PGP_E_WRONG_PHASE)), T("PGP_E_WRONG_PHASE")); is("status", T(pgp_status_name(PGP_E_UNCERTAIN)), T("PGP_E_UNCERTAIN"));
    is("status", T(pgp_status_name(PGP_FULL)), T("PGP_FULL")); is("none", T(pgp_status_name(26)), T("?")); is("status", T(pgp_status_name(PGP_E_UNKNOWN_PACKET)), T("PGP_E_UNKNOWN_PACKET")); is("status", T(pgp_status_name(PGP_E_FRACTION)), T("PGP_E_FRACTION")); is("none", T(pgp_status_name(42)), T("?"));
    is("status", T(pgp_status_name(PGP_SCRAM_WRONG_STATE)), T("PGP_SCRAM_WRONG_STATE")); is("status", T(pgp_status_name(PGP_SCRAM_VERIFICATION)), T("PGP_SCRAM_VERIFICATION")); is("none", T(pgp_status_name(77)), T("?"));
    is("status", T(pgp_status_name(PGP_BAD_NONCE)), T("PGP_BAD_NONCE")); is("status", T(pgp_status_name(PGP_SCRAM_INVALID_PROOF)), T("PGP_SCRAM_INVALID_PROOF")); is("status", T(pgp_status_name(PGP_LOGIN_OTHER_MECHANISM)), T("PGP_LOGIN_OTHER_MECHANISM"));
    is("none", T(pgp_status_name(65)), T("?")); is("status", T(pgp_status_name(PGP_LOGIN_TOO_FEW_ROUNDS)), T("PGP_LOGIN_TOO_FEW_ROUNDS")); is("status", T(pgp_status_name(PGP_CONNECTION_TOO_LONG)), T("PGP_CONNECTION_TOO_LONG")); is("status", T(pgp_status_name(PGP_CONNECTION_NO_MEMORY)), T("PGP_CONNECTION_NO_MEMORY")); is("status", T(pgp_status_name(PGP_CONNECTION_NO_SETTING)), T("PGP_CONNECTION_NO_SETTING")); is("none", T(pgp_status_name(98)), T("?")); is("none", T(pgp_status_name(-1)), T("?"));
    is("kind", T(pgp_kind_name(PGP_DATA_ROW)), T("DataRow")); is("kind", T(pgp_kind_name(PGP_FUNCTION_CALL_RESPONSE)), T("FunctionCallResponse")); is("none", T(pgp_kind_name(35)), T("?"));
}

void further(void) { dialogues(); lists(); values(); integers(); decimals(); members(); data(); prepared(); names(); }
