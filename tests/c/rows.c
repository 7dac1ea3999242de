/* rows: a row with its values' places in one call. The bytes and the places are worked by hand from PostgreSQL's manual ("Message Formats", DataRow). */
#include "checks.h"

#define EIGHT "D\0\0\0\x2d\0\x8\0\0\0\1a\xff\xff\xff\xff\0\0\0\0\0\0\0\2bc\xff\xff\xff\xff\0\0\0\1d\0\0\0\2ef\0\0\0\1g"
static const struct pgp_column eight[8] = {
    {11, 12, false}, {0, 0, true}, {20, 20, false}, {24, 26, false}, {0, 0, true}, {34, 35, false}, {39, 41, false}, {45, 46, false} };

/* The call over memory of just these bytes, and whether what it leaves is as the header says. */
static pgp_status row(const void *bytes, size_t len, struct pgp_column *columns, size_t room, size_t *count, size_t *frame)
{
    uint8_t *copy = (uint8_t *)malloc(len ? len : 1);
    pgp_status status;
    if (len) memcpy(copy, bytes, len);
    *count = 77; *frame = 78;
    status = pgp_row(copy, len, columns, room, count, frame);
    free(copy);
    if (status != PGP_OK) same("its frame is as it was", *frame, 78);
    if (status != PGP_OK && status != PGP_FULL) same("its count is as it was", *count, 77);
    return status;
}

static void are(const struct pgp_column *columns, const struct pgp_column *want, size_t count)
{
    size_t i;
    for (i = 0; i < count; i++) { same("start", columns[i].start, want[i].start); same("end", columns[i].end, want[i].end); same("null", columns[i].is_null, want[i].is_null); }
}

/* Whether pgp_front and pgp_row_all report otherwise of the same bytes. */
static bool differs(const void *bytes, size_t len)
{
    struct pgp_message m;
    struct pgp_cursor c;
    struct pgp_column columns[8], others[8];
    size_t count = 0, frame = 0, n, i;
    pgp_status front = pgp_front(bytes, len, &m), status = pgp_row(bytes, len, columns, 8, &count, &frame);
    if (front != PGP_OK || m.kind != PGP_DATA_ROW) return status != (front == PGP_OK ? PGP_DONE : front);
    if (m.parts.count > 8) return status != PGP_FULL || count != m.parts.count;
    c = pgp_walk(&m);
    if (status != pgp_row_all(bytes, len, &c, others, 8, &n)) return true;
    if (status != PGP_OK) return false;
    for (i = 0; i < n; i++) if (columns[i].start != others[i].start || columns[i].end != others[i].end || columns[i].is_null != others[i].is_null) return true;
    return count != n || frame != m.frame;
}

static void refused(void)
{
    struct pgp_column v[2];
    size_t n, frame;
    same("another message", row(B("Z\0\0\0\5I"), v, 2, &n, &frame), PGP_DONE);
    same("one that no row is, and pgp_front reads", row(B("W\0\0\0\7\0\0\0"), v, 2, &n, &frame), PGP_DONE);
    same("nothing", row("", 0, v, 2, &n, &frame), PGP_MORE);
    same("too short a length", row(B("D\0\0\0\3\0\0"), v, 2, &n, &frame), PGP_E_INVALID_LENGTH);
    same("no such tag", row(B("@\0\0\0\4"), v, 2, &n, &frame), PGP_E_UNKNOWN_TAG);
    same("no count", row(B("D\0\0\0\5\0"), v, 2, &n, &frame), PGP_E_UNEXPECTED_EOF);
    same("a value too few", row(B("D\0\0\0\6\0\1"), v, 2, &n, &frame), PGP_E_UNEXPECTED_EOF);
    same("a length cut short", row(B("D\0\0\0\x9\0\1\0\0\0"), v, 2, &n, &frame), PGP_E_UNEXPECTED_EOF);
    same("a value past the end", row(B("D\0\0\0\x0b\0\1\0\0\0\2aZ\0\0\0\5I"), v, 2, &n, &frame), PGP_E_UNEXPECTED_EOF);
    same("bytes left over", row(B("D\0\0\0\x0c\0\1\0\0\0\1ab"), v, 2, &n, &frame), PGP_E_NOT_DRAINED);
    same("bytes after no value", row(B("D\0\0\0\7\0\0\0"), v, 2, &n, &frame), PGP_E_NOT_DRAINED);
}

void rows(void)
{
    static const char after[] = EIGHT "Z\0\0\0\5I";
    uint8_t bytes[sizeof EIGHT - 1];
    struct pgp_column v[9], was[9];
    size_t n, frame, room, i, k;
    same("no values", row(B("D\0\0\0\6\0\0"), NULL, 0, &n, &frame), PGP_OK); same("count", n, 0); same("frame", frame, 7);
    same("one", row(B("D\0\0\0\x0b\0\1\0\0\0\1a"), v, 1, &n, &frame), PGP_OK); same("count", n, 1); same("frame", frame, 12); are(v, eight, 1);
    same("a null", row(B("D\0\0\0\x0a\0\1\xff\xff\xff\xff"), v, 1, &n, &frame), PGP_OK); same("count", n, 1); same("frame", frame, 11); are(v, eight + 1, 1);
    same("any length below 0", row(B("D\0\0\0\x0a\0\1\x80\0\0\0"), v, 1, &n, &frame), PGP_OK); are(v, eight + 1, 1);
    for (room = 0; room < 10; room++) {
        memset(v, 7, sizeof v); memset(was, 7, sizeof was);
        same("eight", row(B(after), v, room, &n, &frame), room < 8 ? PGP_FULL : PGP_OK); same("how many", n, 8);
        if (room < 8) is("no column is written", v, sizeof v, was, sizeof was);
        else { same("frame", frame, sizeof EIGHT - 1); are(v, eight, 8); is("behind", v + 8, sizeof *v, was, sizeof *was); }
    }
    for (n = 0; n < sizeof EIGHT - 1; n++) { memset(v, 7, sizeof v); same("cut short", row(EIGHT, n, v, 9, &i, &frame), PGP_MORE); is("unchanged", v, sizeof v, was, sizeof was); }
    refused();
    for (i = 0; i < sizeof bytes; i++) {
        bool other = false;
        memcpy(bytes, EIGHT, sizeof bytes);
        for (k = 0; k < 256; k++) { bytes[i] = (uint8_t)k; other |= differs(bytes, sizeof bytes); }
        same("another byte, by one call and by two", other, 0);
    }
}
