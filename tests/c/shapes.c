/* shapes: letters and formats of requests, missing bytes, and values by their bytes. Unless another source is said, PostgreSQL 15.18 sent the bytes of the
   values: they are those of crates/test_rows/data. */
#include "checks.h"

#define ONE "\x3f\xf0\0\0\0\0\0\0"
#define TWO "\x40\0\0\0\0\0\0\0"
#define THREE "\x40\x08\0\0\0\0\0\0"
#define FOUR "\x40\x10\0\0\0\0\0\0"
#define NONE "\0\0\0\0\0\0\0\0"

/* Letters but 'S' and 'P', and formats that are none or don't suit the values, in the calls alone and in a stream. */
static void requests(void)
{
    static const int16_t formats[4][2] = {{0, 1}, {1, 1}, {0, 2}, {-1, 0}};
    struct pgp_value two[2];
    uint8_t out[64];
    struct pgp_stream s;
    unsigned letter, given, which, results;
    size_t n;
    two[0] = pgp_value_of("a", 1); two[1] = pgp_value_of(NULL, 0);
    s.room = out; s.room_len = sizeof out; s.is_open = true;
    for (letter = 0; letter < 256; letter++) {
        pgp_status want = letter == 'S' || letter == 'P' ? PGP_OK : PGP_E_KIND;
        n = 77; same("describe", pgp_describe((uint8_t)letter, B("x"), out, sizeof out, &n), want); same("written", n, want ? 0 : 8);
        n = 77; same("close", pgp_close((uint8_t)letter, B("x"), out, sizeof out, &n), want); same("written", n, want ? 0 : 8);
        s.len = 0; same("describe in a stream", pgp_stream_describe(&s, (uint8_t)letter, B("x")), want); same("pending", s.len, want ? 0 : 8);
        s.len = 0; same("close in a stream", pgp_stream_close(&s, (uint8_t)letter, B("x")), want); same("pending", s.len, want ? 0 : 8);
        s.len = 65; same("no letter comes first", pgp_stream_close(&s, (uint8_t)letter, B("x")), want ? want : (pgp_status)PGP_NO_ROOM);
    }
    for (which = 0; which < 4; which++)
        for (given = 0; given < 4; given++)
            for (results = 0; results < 4; results++) {
                /* so many formats, of which the first one or two are these; and so many of the results */
                int16_t f[3] = {1, 1, 1}, r[3] = {1, 0, 1};
                int good = given < 2 || given == 2;
                pgp_status want;
                f[0] = formats[which][0]; f[1] = formats[which][1];
                if (results == 3) r[2] = 2;
                if ((given > 0 && (f[0] < 0 || f[0] > 1)) || (given > 1 && (f[1] < 0 || f[1] > 1)) || results == 3) good = 0;
                want = good ? PGP_OK : PGP_E_FORMATS;
                n = 77; same("bind", pgp_bind(B("p"), B("s"), f, given, two, 2, r, results, out, sizeof out, &n), want);
                same("its size", n, want ? 0 : pgp_bind_size(1, 1, given, two, 2, results));
                s.len = 0; same("bind in a stream", pgp_stream_bind(&s, B("p"), B("s"), f, given, two, 2, r, results), want); same("pending", s.len, n);
            }
    s.len = 0; s.is_open = false;
    same("the phase comes first", pgp_stream_describe(&s, 'x', B("")), PGP_E_WRONG_PHASE);
    same("the phase comes first", pgp_stream_bind(&s, B(""), B(""), formats[0], 2, NULL, 0, NULL, 0), PGP_E_WRONG_PHASE);
    is("status", T(pgp_status_name(PGP_E_FORMATS)), T("PGP_E_FORMATS"));
}

/* What is missing, at every cut of a message and of what follows it. */
static void missing(void)
{
    static const char row[] = "D\0\0\0\x13\0\3\0\0\0\1a\xff\xff\xff\xff\0\0\0\0", query[] = "Q\0\0\0\x0dSELECT 1\0", startup[] = "\0\0\0\x14\0\3\0\0user\0alice\0\0";
    struct pgp_message m;
    struct pgp_client_message c;
    size_t cut;
    for (cut = 0; cut < sizeof row; cut++) {
        uint8_t *copy = (uint8_t *)malloc(cut ? cut : 1);
        pgp_status status;
        memcpy(copy, row, cut);
        memset(&m, 7, sizeof m); status = pgp_front(copy, cut, &m);
        if (cut < sizeof row - 1) { same("more", status, PGP_MORE); same("frame", m.frame, 0); same("missing", m.missing, cut < 5 ? 0 : sizeof row - 1 - cut); }
        else { same("whole", status, PGP_OK); same("frame", m.frame, cut); same("none", m.missing, 0); }
        free(copy);
    }
    for (cut = 0; cut < sizeof query; cut++) {
        pgp_status status = (memset(&c, 7, sizeof c), pgp_client_front((const uint8_t *)query, cut, true, 0, &c));
        if (cut < sizeof query - 1) { same("more", status, PGP_MORE); same("missing", c.missing, cut < 5 ? 0 : sizeof query - 1 - cut); }
        else { same("whole", status, PGP_OK); same("none", c.missing, 0); }
    }
    for (cut = 0; cut < sizeof startup; cut++) {
        pgp_status status = (memset(&c, 7, sizeof c), pgp_client_front((const uint8_t *)startup, cut, false, 0, &c));
        if (cut < sizeof startup - 1) { same("more", status, PGP_MORE); same("missing", c.missing, cut < 4 ? 0 : sizeof startup - 1 - cut); }
        else { same("whole", status, PGP_OK); same("none", c.missing, 0); }
    }
    same("the longest", pgp_front(B("d\x7f\xff\xff\xff"), &m), PGP_MORE); same("missing", m.missing, 2147483643);
    same("no length", pgp_front(B("d\0\0\0\3"), &m), PGP_E_INVALID_LENGTH); same("none", m.missing, 0);
    same("malformed", pgp_front(B("Z\0\0\0\4"), &m), PGP_E_UNEXPECTED_EOF); same("none", m.missing, 0);
}

/* 10:20:10,14,15, as a server sends it */
#define SNAPSHOT "\0\0\0\3\0\0\0\0\0\0\0\x0a\0\0\0\0\0\0\0\x14\0\0\0\0\0\0\0\x0a\0\0\0\0\0\0\0\x0e\0\0\0\0\0\0\0\x0f"
static void snapshots(void)
{
    static const uint64_t running[3] = {10, 14, 15}, late[1] = {9223372036854775806};
    struct pgp_snapshot s;
    uint64_t xid = 7;
    size_t cut, i;
    memset(&s, 0, sizeof s);
    same("get snapshot", pgp_get_snapshot(B(SNAPSHOT), &s), PGP_OK); same("xmin", s.xmin, 10); same("xmax", s.xmax, 20); same("three", s.running.left, 3);
    for (i = 0; i < 3; i++) { same("a transaction", pgp_xid_next(B(SNAPSHOT), &s.running, &xid), PGP_OK); same("its number", xid, running[i]); }
    same("done", pgp_xid_next(B(SNAPSHOT), &s.running, &xid), PGP_DONE); same("as it was", xid, 15);
    /* every front of it: the head is cut short, or then a transaction */
    for (cut = 0; cut < sizeof(SNAPSHOT) - 1; cut++) {
        uint8_t *copy = (uint8_t *)malloc(cut ? cut : 1);
        struct pgp_snapshot t;
        pgp_status status;
        memcpy(copy, SNAPSHOT, cut);
        memset(&t, 7, sizeof t); s = t; status = pgp_get_snapshot(copy, cut, &t);
        if (cut < 20) { same("cut", status, PGP_E_UNEXPECTED_EOF); is("as it was", &t, sizeof t, &s, sizeof s); }
        else {
            same("the bounds", status, PGP_OK);
            for (i = 0; i < (cut - 20) / 8; i++) same("a transaction", pgp_xid_next(copy, cut, &t.running, &xid), PGP_OK);
            same("cut", pgp_xid_next(copy, cut, &t.running, &xid), PGP_E_UNEXPECTED_EOF);
        }
        free(copy);
    }
    WRITER("snapshot", SNAPSHOT, pgp_put_snapshot(10, 20, running, 3, O));
    WRITER("none was running", "\0\0\0\0\0\0\0\0\0\0\0\1\0\0\0\0\0\0\0\1", pgp_put_snapshot(1, 1, NULL, 0, O));
    WRITER("late ones", "\0\0\0\1\x7f\xff\xff\xff\xff\xff\xff\xfe\x7f\xff\xff\xff\xff\xff\xff\xff\x7f\xff\xff\xff\xff\xff\xff\xfe", pgp_put_snapshot(9223372036854775806, 9223372036854775807, late, 1, O));
    same("negative", pgp_get_snapshot(B("\xff\xff\xff\xff"), &s), PGP_E_INVALID_COUNT);
    same("greatest", pgp_get_snapshot(B("\0\0\0\0\xff\xff\xff\xff\xff\xff\xff\xff\x80\0\0\0\0\0\0\0!"), &s), PGP_OK);
    same("xmin", s.xmin == UINT64_MAX, 1); same("xmax", s.xmax == (uint64_t)1 << 63, 1); same("a byte", pgp_xid_next(B("\0\0\0\0\xff\xff\xff\xff\xff\xff\xff\xff\x80\0\0\0\0\0\0\0!"), &s.running, &xid), PGP_E_NOT_DRAINED);
}

#define REFUSES(what, call, code) same(what, call, code)
static void shapes_of(void)
{
    struct pgp_point point, corners[3], p;
    struct pgp_box box, b;
    struct pgp_line line, l;
    struct pgp_lseg lseg, g;
    struct pgp_circle circle, k;
    struct pgp_cursor cursor = {7, 7, 7};
    bool closed = true;
    point.x = pgp_float8_bits(1.5); point.y = pgp_float8_bits(-2);
    box.upper_right.x = pgp_float8_bits(3); box.upper_right.y = pgp_float8_bits(4); box.lower_left.x = pgp_float8_bits(1); box.lower_left.y = pgp_float8_bits(2);
    line.a = pgp_float8_bits(1); line.b = pgp_float8_bits(2); line.c = pgp_float8_bits(3);
    lseg.start.x = pgp_float8_bits(1); lseg.start.y = pgp_float8_bits(2); lseg.end.x = pgp_float8_bits(3); lseg.end.y = pgp_float8_bits(-4.5);
    circle.center.x = pgp_float8_bits(1); circle.center.y = pgp_float8_bits(2); circle.radius = pgp_float8_bits(3);
    WRITER("point", "\x3f\xf8\0\0\0\0\0\0\xc0\0\0\0\0\0\0\0", pgp_put_point(&point, O));
    WRITER("box", THREE FOUR ONE TWO, pgp_put_box(&box, O));
    WRITER("line", ONE TWO THREE, pgp_put_line(&line, O));
    WRITER("lseg", ONE TWO THREE "\xc0\x12\0\0\0\0\0\0", pgp_put_lseg(&lseg, O));
    WRITER("circle", ONE TWO THREE, pgp_put_circle(&circle, O));
    same("get point", pgp_get_point(B("\x3f\xf8\0\0\0\0\0\0\xc0\0\0\0\0\0\0\0"), &p), PGP_OK); is("point", &p, sizeof p, &point, sizeof point);
    same("get box", pgp_get_box(B(THREE FOUR ONE TWO), &b), PGP_OK); is("box", &b, sizeof b, &box, sizeof box);
    same("get line", pgp_get_line(B(ONE TWO THREE), &l), PGP_OK); is("line", &l, sizeof l, &line, sizeof line);
    same("get lseg", pgp_get_lseg(B(ONE TWO THREE "\xc0\x12\0\0\0\0\0\0"), &g), PGP_OK); is("lseg", &g, sizeof g, &lseg, sizeof lseg);
    same("get circle", pgp_get_circle(B(ONE TWO THREE), &k), PGP_OK); is("circle", &k, sizeof k, &circle, sizeof circle);
    /* a byte too few and one too many, and as it was */
    REFUSES("short", pgp_get_point(B("123456789012345"), &p), PGP_E_UNEXPECTED_EOF); REFUSES("long", pgp_get_point(B("12345678901234567"), &p), PGP_E_NOT_DRAINED);
    is("as it was", &p, sizeof p, &point, sizeof point);
    REFUSES("short", pgp_get_box(B(ONE), &b), PGP_E_UNEXPECTED_EOF); REFUSES("short", pgp_get_line(B(ONE), &l), PGP_E_UNEXPECTED_EOF);
    REFUSES("short", pgp_get_lseg(B(ONE), &g), PGP_E_UNEXPECTED_EOF); REFUSES("long", pgp_get_circle(B(ONE ONE ONE ONE), &k), PGP_E_NOT_DRAINED);
    is("as it was", &b, sizeof b, &box, sizeof box); is("as it was", &k, sizeof k, &circle, sizeof circle);
    corners[0].x = 0; corners[0].y = 0; corners[1].x = corners[1].y = pgp_float8_bits(1); corners[2].x = pgp_float8_bits(2); corners[2].y = 0;
    WRITER("polygon", "\0\0\0\3" NONE NONE ONE ONE TWO NONE, pgp_put_polygon(corners, 3, O));
    WRITER("polygon of one", "\0\0\0\1\x3f\xf8\0\0\0\0\0\0\xc0\0\0\0\0\0\0\0", pgp_put_polygon(&point, 1, O));
    WRITER("no polygon", "\0\0\0\0", pgp_put_polygon(NULL, 0, O)); /* by hand: a count alone */
    same("get polygon", pgp_get_polygon(B("\0\0\0\3" NONE NONE ONE ONE TWO NONE), &cursor), PGP_OK); same("three", cursor.left, 3); same("at", cursor.at, 4);
    same("1st", pgp_point_next(B("\0\0\0\3" NONE NONE ONE ONE TWO NONE), &cursor, &p), PGP_OK); is("1st", &p, sizeof p, &corners[0], sizeof p);
    same("2nd", pgp_point_next(B("\0\0\0\3" NONE NONE ONE ONE TWO NONE), &cursor, &p), PGP_OK); is("2nd", &p, sizeof p, &corners[1], sizeof p);
    same("3rd", pgp_point_next(B("\0\0\0\3" NONE NONE ONE ONE TWO NONE), &cursor, &p), PGP_OK); is("3rd", &p, sizeof p, &corners[2], sizeof p);
    same("done", pgp_point_next(B("\0\0\0\3" NONE NONE ONE ONE TWO NONE), &cursor, &p), PGP_DONE);
    same("cut", pgp_get_polygon(B("\0\0\0"), &cursor), PGP_E_UNEXPECTED_EOF); same("negative", pgp_get_polygon(B("\xff\xff\xff\xff"), &cursor), PGP_E_INVALID_COUNT);
    same("one", pgp_get_polygon(B("\0\0\0\1" NONE "\0\0\0\0\0\0\0"), &cursor), PGP_OK); same("short", pgp_point_next(B("\0\0\0\1" NONE "\0\0\0\0\0\0\0"), &cursor, &p), PGP_E_UNEXPECTED_EOF);
    same("none", pgp_get_polygon(B("\0\0\0\0\xff"), &cursor), PGP_OK); same("a byte", pgp_point_next(B("\0\0\0\0\xff"), &cursor, &p), PGP_E_NOT_DRAINED);
    corners[0].x = pgp_float8_bits(1); corners[0].y = pgp_float8_bits(2); corners[1].x = pgp_float8_bits(3); corners[1].y = pgp_float8_bits(4);
    WRITER("open path", "\0\0\0\0\2" ONE TWO THREE FOUR, pgp_put_path(false, corners, 2, O));
    corners[2].x = pgp_float8_bits(-1.5); corners[2].y = 0;
    WRITER("closed path", "\1\0\0\0\3" ONE TWO THREE FOUR "\xbf\xf8\0\0\0\0\0\0" NONE, pgp_put_path(true, corners, 3, O));
    same("get path", pgp_get_path(B("\0\0\0\0\2" ONE TWO THREE FOUR), &closed, &cursor), PGP_OK); same("open", closed, 0); same("two", cursor.left, 2); same("at", cursor.at, 5);
    same("1st", pgp_point_next(B("\0\0\0\0\2" ONE TWO THREE FOUR), &cursor, &p), PGP_OK); is("1st", &p, sizeof p, &corners[0], sizeof p);
    same("2nd", pgp_point_next(B("\0\0\0\0\2" ONE TWO THREE FOUR), &cursor, &p), PGP_OK); is("2nd", &p, sizeof p, &corners[1], sizeof p);
    same("done", pgp_point_next(B("\0\0\0\0\2" ONE TWO THREE FOUR), &cursor, &p), PGP_DONE);
    same("closed", pgp_get_path(B("\1\0\0\0\0"), &closed, &cursor), PGP_OK); same("closed", closed, 1);
    same("nothing", pgp_get_path(B(""), &closed, &cursor), PGP_E_UNEXPECTED_EOF); same("cut", pgp_get_path(B("\1\0\0\0"), &closed, &cursor), PGP_E_UNEXPECTED_EOF);
    same("negative", pgp_get_path(B("\2\x80\0\0\0"), &closed, &cursor), PGP_E_INVALID_COUNT); same("as it was", closed, 1);
}

static void small(void)
{
    struct pgp_tid tid = {42, 7}, t = {0, 0};
    struct pgp_part part = {7, 7};
    int8_t c = 0;
    uint8_t out[64];
    size_t n;
    WRITER("char", "a", pgp_put_char('a', O)); WRITER("char, negative", "\xff", pgp_put_char(-1, O)); /* by hand: the byte itself */
    same("get char", pgp_get_char(B("\x80"), &c), PGP_OK); same("-128", c == -128, 1);
    same("none", pgp_get_char(B(""), &c), PGP_E_UNEXPECTED_EOF); same("two", pgp_get_char(B("ab"), &c), PGP_E_NOT_DRAINED); same("as it was", c == -128, 1);
    WRITER("tid", "\0\0\0\x2a\0\7", pgp_put_tid(&tid, O));
    same("get tid", pgp_get_tid(B("\xff\xff\xff\xff\xff\xff"), &t), PGP_OK); same("block", t.block, 4294967295ul); same("offset", t.offset, 65535);
    same("short", pgp_get_tid(B("\0\0\0\x2a\0"), &t), PGP_E_UNEXPECTED_EOF); same("long", pgp_get_tid(B("\0\0\0\x2a\0\7\0"), &t), PGP_E_NOT_DRAINED); same("as it was", t.offset, 65535);
    WRITER("macaddr8", "\x08\0\x2b\1\2\3\4\5", pgp_put_macaddr8(B("\x08\0\x2b\1\2\3\4\5"), O));
    same("six bytes", pgp_put_macaddr8(B("\x08\0\x2b\1\2\3"), out, sizeof out, &n), PGP_E_UNEXPECTED_EOF); same("nothing", n, 0);
    same("get macaddr8", pgp_get_macaddr8(B("12345678")), PGP_OK); same("short", pgp_get_macaddr8(B("\x08\0\x2b\1\2\3")), PGP_E_UNEXPECTED_EOF); same("long", pgp_get_macaddr8(B("123456789")), PGP_E_NOT_DRAINED);
    WRITER("cidr", "\2\x10\1\4\x0a\1\0\0", pgp_put_cidr(B("\x0a\1\0\0"), 16, O));
    WRITER("cidr of 16 bytes", "\3\x40\1\x10\x20\1\4\xf8\0\3\0\xba\0\0\0\0\0\0\0\0", pgp_put_cidr(B("\x20\1\4\xf8\0\3\0\xba\0\0\0\0\0\0\0\0"), 64, O));
    same("33 bits", pgp_put_cidr(B("\x0a\1\0\0"), 33, out, sizeof out, &n), PGP_E_INVALID_NETMASK); same("3 bytes", pgp_put_cidr(B("\x0a\1\0"), 8, out, sizeof out, &n), PGP_E_INVALID_ADDRESS_LENGTH);
    WRITER("inet, 33 bits", "\2\x21\0\4\x7f\0\0\1", pgp_put_inet_any(B("\x7f\0\0\1"), 33, O)); /* the bytes that a server rejects, in addresses.rows */
    same("3 bytes", pgp_put_inet_any(B("\x0a\1\0"), 8, out, sizeof out, &n), PGP_E_INVALID_ADDRESS_LENGTH); same("nothing", n, 0);
    WRITER("ltree", "\1Top.Science.Astronomy", pgp_put_ltree(B("Top.Science.Astronomy"), O));
    WRITER("lquery", "\1Top.*{,2}.sport@", pgp_put_lquery(B("Top.*{,2}.sport@"), O));
    WRITER("ltxtquery", "\1Europe & Russia@*", pgp_put_ltxtquery(B("Europe & Russia@*"), O));
    same("no text", pgp_put_ltree(B("\xff"), out, sizeof out, &n), PGP_E_NOT_UTF8); same("no text", pgp_put_lquery(B("\xff"), out, sizeof out, &n), PGP_E_NOT_UTF8); same("no text", pgp_put_ltxtquery(B("\xff"), out, sizeof out, &n), PGP_E_NOT_UTF8);
    same("get ltree", pgp_get_ltree(B("\1A.B.C"), &part), PGP_OK); same("at", part.at, 1); same("len", part.len, 5);
    same("get lquery", pgp_get_lquery(B("\1A.B.C"), &part), PGP_OK); same("get ltxtquery", pgp_get_ltxtquery(B("\1a & b*"), &part), PGP_OK); same("len", part.len, 6);
    same("version", pgp_get_ltree(B("\2A.B.C"), &part), PGP_E_INVALID_VERSION); same("none", pgp_get_lquery(B(""), &part), PGP_E_INVALID_VERSION); same("no text", pgp_get_ltxtquery(B("\1\xff"), &part), PGP_E_NOT_UTF8);
    same("as it was", part.len, 6);
}

static void lists(void)
{
    static const char ranges[] = "\0\0\0\2\0\0\0\x11\2\0\0\0\4\0\0\0\1\0\0\0\4\0\0\0\5\0\0\0\x11\2\0\0\0\4\0\0\0\7\0\0\0\4\0\0\0\x09"; /* {[1,5),[7,9)} */
    struct pgp_typed fields[3];
    struct pgp_bytes two[2];
    fields[0].value = pgp_value_of("\0\0\0\1", 4); fields[0].of_type = 23;
    fields[1].value = pgp_value_of("x", 1); fields[1].of_type = 705;
    fields[2].value = pgp_value_of(NULL, 0); fields[2].of_type = 705;
    two[0] = pgp_bytes_of(ranges + 8, 17); two[1] = pgp_bytes_of(ranges + 29, 17);
    WRITER("record", "\0\0\0\3\0\0\0\x17\0\0\0\4\0\0\0\1\0\0\2\xc1\0\0\0\1x\0\0\2\xc1\xff\xff\xff\xff", pgp_put_record(fields, 3, O)); /* (1,x,) */
    fields[1].value = pgp_value_of("", 0);
    WRITER("a field of nothing", "\0\0\0\1\0\0\2\xc1\0\0\0\0", pgp_put_record(fields + 1, 1, O));
    WRITER("no fields", "\0\0\0\0", pgp_put_record(NULL, 0, O));
    WRITER("multirange", "\0\0\0\2\0\0\0\x11\2\0\0\0\4\0\0\0\1\0\0\0\4\0\0\0\5\0\0\0\x11\2\0\0\0\4\0\0\0\7\0\0\0\4\0\0\0\x09", pgp_put_multirange(two, 2, O));
    two[0] = pgp_bytes_of("\x18", 1);
    WRITER("multirange of all", "\0\0\0\1\0\0\0\1\x18", pgp_put_multirange(two, 1, O)); /* {(,)} */
    WRITER("no ranges", "\0\0\0\0", pgp_put_multirange(NULL, 0, O));
    fields[0].value.bytes_len = 2147483648u; /* longer than a length may be, which comes before a byte of it is read */
    { uint8_t out[16]; size_t n = 77; same("too long", pgp_put_record(fields, 1, out, sizeof out, &n), PGP_E_TOO_LARGE); same("nothing", n, 0); }
}

static void arrays(void)
{
    static const struct pgp_dimension square[2] = {{2, 1}, {2, 1}}, low[1] = {{2, -1}}, flat[2] = {{0, 1}, {2, 1}}, negative[2] = {{2, 1}, {-1, 1}};
    static const struct pgp_dimension many[3] = {{65536, 1}, {65536, 1}, {-1, 1}}, none_then[2] = {{0, 1}, {2147483647, 1}};
    struct pgp_value four[4];
    uint8_t out[64];
    size_t n = 77, count;
    four[0] = pgp_value_of("\0\0\0\1", 4); four[1] = pgp_value_of("\0\0\0\2", 4); four[2] = pgp_value_of("\0\0\0\3", 4); four[3] = pgp_value_of("\0\0\0\4", 4);
    /* {{1,2},{3,4}} of int4, [-1:0]={1,2}, and {}: as a server sends them */
    WRITER("2 by 2", "\0\0\0\2\0\0\0\0\0\0\0\x17\0\0\0\2\0\0\0\1\0\0\0\2\0\0\0\1\0\0\0\4\0\0\0\1\0\0\0\4\0\0\0\2\0\0\0\4\0\0\0\3\0\0\0\4\0\0\0\4", pgp_put_array_of(23, square, 2, four, 4, O));
    WRITER("from -1", "\0\0\0\1\0\0\0\0\0\0\0\x17\0\0\0\2\xff\xff\xff\xff\0\0\0\4\0\0\0\1\0\0\0\4\0\0\0\2", pgp_put_array_of(23, low, 1, four, 2, O));
    four[1] = pgp_value_of(NULL, 0);
    WRITER("a null", "\0\0\0\1\0\0\0\1\0\0\0\x17\0\0\0\2\xff\xff\xff\xff\0\0\0\4\0\0\0\1\xff\xff\xff\xff", pgp_put_array_of(23, low, 1, four, 2, O));
    WRITER("no dimensions", "\0\0\0\0\0\0\0\0\0\0\0\x17", pgp_put_array_of(23, NULL, 0, NULL, 0, O));
    WRITER("0 by 2", "\0\0\0\2\0\0\0\0\0\0\0\x17\0\0\0\0\0\0\0\1\0\0\0\2\0\0\0\1", pgp_put_array_of(23, flat, 2, NULL, 0, O));
    for (count = 0; count < 4; count++) { n = 77; same("too few", pgp_put_array_of(23, square, 2, four, count, out, sizeof out, &n), PGP_E_INVALID_SIZE); same("nothing", n, 0); }
    n = 77; same("an element of no dimension", pgp_put_array_of(23, NULL, 0, four, 1, out, sizeof out, &n), PGP_E_INVALID_SIZE); same("nothing", n, 0);
    n = 77; same("negative", pgp_put_array_of(23, negative, 2, four, 2, out, sizeof out, &n), PGP_E_INVALID_DIMENSION); same("nothing", n, 0);
    n = 77; same("too many, before a negative one", pgp_put_array_of(23, many, 3, four, 2, out, sizeof out, &n), PGP_E_TOO_MANY_ELEMENTS); same("nothing", n, 0);
    same("none, of any length", pgp_put_array_of(23, none_then, 2, NULL, 0, out, sizeof out, &n), PGP_OK); same("28 bytes", n, 28);
}

void shapes(void)
{
#if defined(__x86_64__) && defined(__GNUC__)
    same("this processor", pgp_runs_here(), 1);
#endif
    requests(); missing(); shapes_of(); small(); snapshots(); lists(); arrays();
}
