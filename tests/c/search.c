/* search: tsvector and tsquery. The bytes are those that PostgreSQL 15.18 sent (tsvectorsend, tsquerysend; crates/test_rows/data/values.rows has them); those that are
   refused are worked by hand. */
#include "checks.h"

/* 'a':1A,2B 'cat':3 'fat' */
#define VECTOR "\0\0\0\3a\0\0\2\xc0\1\x80\2" "cat\0\0\1\0\3" "fat\0\0\0"
/* 'a':* & !( 'b' | 'c' ) */
#define QUERY "\0\0\0\6\2\2\2\1\2\3\1\0\0c\0\1\0\0b\0\1\0\1a\0"

/* The bytes' first items without an error, and what comes after them. */
static size_t lexemes_of(const uint8_t *bytes, size_t len, pgp_status *last)
{
    struct pgp_cursor c, at;
    struct pgp_lexeme l;
    uint16_t position;
    size_t count = 0;
    *last = pgp_get_tsvector(bytes, len, &c);
    if (*last != PGP_OK) return 0;
    while ((*last = pgp_lexeme_next(bytes, len, &c, &l)) == PGP_OK) {
        pgp_status status;
        at = l.positions; count++;
        if (l.text.at + l.text.len > len || at.end > len || at.end != at.at + 2 * at.left) same("inside", 0, 1);
        while ((status = pgp_position_next(bytes, len, &at, &position)) == PGP_OK) continue;
        same("the positions end", status, PGP_DONE);
    }
    return count;
}
static size_t items_of(const uint8_t *bytes, size_t len, pgp_status *last)
{
    struct pgp_cursor c;
    struct pgp_query_item i;
    size_t count = 0;
    *last = pgp_get_tsquery(bytes, len, &c);
    if (*last != PGP_OK) return 0;
    while ((*last = pgp_query_item_next(bytes, len, &c, &i)) == PGP_OK) {
        count++;
        if (i.kind > PGP_TS_PHRASE || i.text.at + i.text.len > len) same("inside", 0, 1);
    }
    return count;
}

/* Every front of the bytes: `whole` says where each item ends. */
static void fronts(const char *what, const char *bytes, size_t len, const size_t *whole, size_t (*of)(const uint8_t *, size_t, pgp_status *))
{
    size_t cut, done;
    for (cut = 0; cut < len; cut++) {
        uint8_t *copy = (uint8_t *)malloc(cut ? cut : 1); /* of its size, so that a sanitizer sees a read past it */
        pgp_status last;
        memcpy(copy, bytes, cut);
        for (done = 0; whole[done] && whole[done] <= cut; done++) continue;
        same(what, of(copy, cut, &last), done); same(what, last, PGP_E_UNEXPECTED_EOF);
        free(copy);
    }
}

static void vectors(void)
{
    static const uint16_t a[2] = {1 | PGP_WEIGHT_A, 2 | PGP_WEIGHT_B}, cat[1] = {3 | PGP_WEIGHT_D}, most[1] = {16383};
    static const uint16_t c2[1] = {2 | PGP_WEIGHT_C}, a1[1] = {1 | PGP_WEIGHT_A}, b3[1] = {3 | PGP_WEIGHT_B};
    static const struct pgp_word words[3] = {{{B("a")}, a, 2}, {{B("cat")}, cat, 1}, {{B("fat")}, NULL, 0}}, umlaut[1] = {{{B("\xc3\xa4")}, most, 1}};
    static const struct pgp_word weights[3] = {{{B("a")}, c2, 1}, {{B("b")}, a1, 1}, {{B("c")}, b3, 1}};
    static const struct pgp_word no_text[2] = {{{B("a")}, NULL, 0}, {{B("\xff")}, NULL, 0}}, zero[1] = {{{B("a\0b")}, NULL, 0}}, both[1] = {{{B("\0\xff")}, NULL, 0}};
    static const size_t ends[4] = {12, 20, 26, 0};
    struct pgp_cursor c = {0, 0, 0};
    struct pgp_lexeme l;
    struct pgp_word many = {{B("a")}, NULL, 65536};
    uint16_t *positions = (uint16_t *)calloc(65536, sizeof *positions), position = 7;
    uint8_t *out = (uint8_t *)malloc(131080);
    pgp_status last;
    size_t n = 77;
    WRITER("tsvector", VECTOR, pgp_put_tsvector(words, 3, O));
    WRITER("tsvector of nothing", "\0\0\0\0", pgp_put_tsvector(NULL, 0, O));
    WRITER("greatest position", "\0\0\0\1\xc3\xa4\0\0\1\x3f\xff", pgp_put_tsvector(umlaut, 1, O));
    WRITER("weights", "\0\0\0\3" "a\0\0\1\x40\2" "b\0\0\1\xc0\1" "c\0\0\1\x80\3", pgp_put_tsvector(weights, 3, O));
    memset(&l, 7, sizeof l);
    same("get", pgp_get_tsvector(B(VECTOR), &c), PGP_OK); same("three", c.left, 3);
    same("1st", pgp_lexeme_next(B(VECTOR), &c, &l), PGP_OK); is("a", VECTOR + l.text.at, l.text.len, "a", 1); same("two", l.positions.left, 2);
    same("1A", pgp_position_next(B(VECTOR), &l.positions, &position), PGP_OK); same("1", position & PGP_POSITION, 1); same("A", position >> 14, 3);
    same("2B", pgp_position_next(B(VECTOR), &l.positions, &position), PGP_OK); same("2", position & PGP_POSITION, 2); same("B", position >> 14, 2);
    same("no more", pgp_position_next(B(VECTOR), &l.positions, &position), PGP_DONE); same("as it was", position, 2 | PGP_WEIGHT_B);
    same("2nd", pgp_lexeme_next(B(VECTOR), &c, &l), PGP_OK); is("cat", VECTOR + l.text.at, l.text.len, "cat", 3);
    same("3", pgp_position_next(B(VECTOR), &l.positions, &position), PGP_OK); same("3", position, 3);
    same("3rd", pgp_lexeme_next(B(VECTOR), &c, &l), PGP_OK); is("fat", VECTOR + l.text.at, l.text.len, "fat", 3); same("none", pgp_position_next(B(VECTOR), &l.positions, &position), PGP_DONE);
    same("no more", pgp_lexeme_next(B(VECTOR), &c, &l), PGP_DONE); same("as it was", l.text.len, 3);
    fronts("a front of a tsvector", VECTOR, sizeof(VECTOR) - 1, ends, lexemes_of);
    same("a byte more", lexemes_of(B(VECTOR "!"), &last), 3); same("a byte more", last, PGP_E_NOT_DRAINED);
    same("no text", lexemes_of(B("\0\0\0\1\xff\0\0\0"), &last), 0); same("no text", last, PGP_E_NOT_UTF8);
    same("negative", lexemes_of(B("\xff\xff\xff\xff"), &last), 0); same("negative", last, PGP_E_INVALID_COUNT);
    same("a greater count", lexemes_of(B("\x7f\xff\xff\xff" "a\0\0\0"), &last), 1); same("a greater count", last, PGP_E_UNEXPECTED_EOF);
    same("more positions than bytes", lexemes_of(B("\0\0\0\1" "a\0\xff\xff\0\1"), &last), 0); same("more positions than bytes", last, PGP_E_UNEXPECTED_EOF);
    c.at = 5; c.end = 100; c.left = 1; same("past the end", pgp_lexeme_next(B(VECTOR), &c, &l), PGP_E_UNEXPECTED_EOF); same("as it was", c.at, 5);
    same("no UTF-8", pgp_put_tsvector(no_text, 2, out, 131080, &n), PGP_E_NOT_UTF8); same("nothing", n, 0);
    same("a 0 byte", pgp_put_tsvector(zero, 1, out, 131080, &n), PGP_E_EMBEDDED_NULL); same("no UTF-8 comes first", pgp_put_tsvector(both, 1, out, 131080, &n), PGP_E_NOT_UTF8);
    many.positions = positions;
    same("too many positions", pgp_put_tsvector(&many, 1, out, 131080, &n), PGP_E_TOO_LARGE); same("nothing", n, 0);
    many.positions_len = 65535;
    same("as many as can be", pgp_put_tsvector(&many, 1, out, 131080, &n), PGP_OK); same("its size", n, 131078);
    free(positions); free(out);
}

static void queries(void)
{
    static const struct pgp_query_node query[6] = { {{NULL, 0}, 0, PGP_TS_AND, 0, false}, {{NULL, 0}, 0, PGP_TS_NOT, 0, false}, {{NULL, 0}, 0, PGP_TS_OR, 0, false},
        {{B("c")}, 0, PGP_TS_OPERAND, 0, false}, {{B("b")}, 0, PGP_TS_OPERAND, 0, false}, {{B("a")}, 0, PGP_TS_OPERAND, 0, true} };
    static const struct pgp_query_node phrase[3] = { {{B("\xff")}, 16384, PGP_TS_PHRASE, 15, true}, {{B("b")}, 7, PGP_TS_OPERAND, 0, false}, {{B("a")}, 7, PGP_TS_OPERAND, 0, false} };
    static const struct pgp_query_node weighted[1] = {{{B("x y")}, 0, PGP_TS_OPERAND, 12, true}}, zero[1] = {{{B("a\0")}, 0, PGP_TS_OPERAND, 0, false}};
    static const struct pgp_query_node no_text[2] = { {{NULL, 0}, 0, PGP_TS_NOT, 0, false}, {{B("\xff")}, 0, PGP_TS_OPERAND, 0, false} }, none[2] = { {{B("\xff")}, 0, PGP_TS_OPERAND, 0, false}, {{NULL, 0}, 0, 5, 0, false} };
    static const size_t ends[7] = {6, 8, 10, 15, 20, 25, 0};
    static const uint8_t kinds[6] = {PGP_TS_AND, PGP_TS_NOT, PGP_TS_OR, PGP_TS_OPERAND, PGP_TS_OPERAND, PGP_TS_OPERAND};
    struct pgp_cursor c = {0, 0, 0};
    struct pgp_query_item i;
    uint8_t out[64];
    pgp_status last;
    size_t n = 77, k;
    WRITER("tsquery", QUERY, pgp_put_tsquery(query, 6, O));
    WRITER("tsquery of nothing", "\0\0\0\0", pgp_put_tsquery(NULL, 0, O));
    WRITER("phrase", "\0\0\0\3\2\4\x40\0\1\0\0b\0\1\0\0a\0", pgp_put_tsquery(phrase, 3, O));
    WRITER("weights and a prefix", "\0\0\0\1\1\x0c\1x y\0", pgp_put_tsquery(weighted, 1, O));
    memset(&i, 7, sizeof i);
    same("get", pgp_get_tsquery(B(QUERY), &c), PGP_OK); same("six", c.left, 6);
    for (k = 0; k < 6; k++) {
        same("an item", pgp_query_item_next(B(QUERY), &c, &i), PGP_OK); same("its kind", i.kind, kinds[k]); same("weights", i.weights, 0); same("distance", i.distance, 0); same("prefix", i.is_prefix, k == 5);
        if (k < 3) { same("no text", i.text.at, 0); same("no text", i.text.len, 0); } else is("text", QUERY + i.text.at, i.text.len, &"cba"[k - 3], 1);
    }
    same("no more", pgp_query_item_next(B(QUERY), &c, &i), PGP_DONE); same("as it was", i.is_prefix, 1);
    same("phrase", pgp_get_tsquery(B("\0\0\0\1\2\4\x40\0"), &c), PGP_OK); same("1st", pgp_query_item_next(B("\0\0\0\1\2\4\x40\0"), &c, &i), PGP_OK);
    same("phrase", i.kind, PGP_TS_PHRASE); same("distance", i.distance, 16384); same("no text", i.text.len, 0); same("no prefix", i.is_prefix, 0);
    same("weights", pgp_get_tsquery(B("\0\0\0\1\1\x0f\2x\0"), &c), PGP_OK); same("1st", pgp_query_item_next(B("\0\0\0\1\1\x0f\2x\0"), &c, &i), PGP_OK); same("weights", i.weights, 15); same("any flag but 0", i.is_prefix, 1);
    fronts("a front of a tsquery", QUERY, sizeof(QUERY) - 1, ends, items_of);
    same("a byte more", items_of(B(QUERY "!"), &last), 6); same("a byte more", last, PGP_E_NOT_DRAINED);
    same("no text", items_of(B("\0\0\0\1\1\0\0\xff\0"), &last), 0); same("no text", last, PGP_E_NOT_UTF8);
    same("no item", items_of(B("\0\0\0\1\3\1"), &last), 0); same("no item", last, PGP_E_UNKNOWN_TAG); same("no operator", items_of(B("\0\0\0\2\2\1\2\5"), &last), 1); same("no operator", last, PGP_E_UNKNOWN_TAG);
    same("negative", items_of(B("\x80\0\0\0"), &last), 0); same("negative", last, PGP_E_INVALID_COUNT); same("a cut distance", items_of(B("\0\0\0\1\2\4\0"), &last), 0); same("a cut distance", last, PGP_E_UNEXPECTED_EOF);
    same("no UTF-8", pgp_put_tsquery(no_text, 2, out, sizeof out, &n), PGP_E_NOT_UTF8); same("nothing", n, 0); n = 77;
    same("a 0 byte", pgp_put_tsquery(zero, 1, out, sizeof out, &n), PGP_E_EMBEDDED_NULL); same("nothing", n, 0); n = 77;
    same("no kind comes first", pgp_put_tsquery(none, 2, out, sizeof out, &n), PGP_E_KIND); same("nothing", n, 0);
}

void search(void) { vectors(); queries(); }
