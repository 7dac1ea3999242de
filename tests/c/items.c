/* items: a bind and an array whose values are put where they stand. The bytes are worked by hand from PostgreSQL's manual ("Message Formats") and from
   what it says of arrays; that the same bytes come from a server and are taken by one is tried by live/values. */
#include "checks.h"

/* The value goes to the item's place: `call` writes to place[0 .. left), and says the length in `len`. */
#define ITEM(call) do { \
    uint8_t *place = out + pgp_item_at(room, items); size_t left = pgp_item_room(room, items), len = 0; \
    pgp_status status = call; \
    if (status == PGP_OK) status = pgp_item(len, out, room, items); \
    if (status != PGP_OK) return status; \
    } while (0)

static pgp_status bytes(const char *text, uint8_t *out, size_t room, size_t *n)
{
    *n = strlen(text);
    if (room < *n) return PGP_NO_ROOM;
    memcpy(out, text, *n);
    return PGP_OK;
}

/* an array of int4, {1,NULL} */
static pgp_status pair(uint8_t *out, size_t room, size_t *n)
{
    static const struct pgp_dimension two[1] = {{2, 1}};
    struct pgp_items kept, *items = &kept;
    pgp_status status = pgp_array_begin(PGP_OID_INT4, two, 1, out, room, items);
    *n = 0;
    if (status != PGP_OK) return status;
    ITEM(pgp_put_int4(1, place, left, &len));
    status = pgp_item_null(out, room, items);
    return status == PGP_OK ? pgp_array_end(items, out, room, n) : status;
}

/* a bind of an int4, a null, a text and that array */
static pgp_status four(uint8_t *out, size_t room, size_t *n)
{
    static const int16_t one = 1;
    struct pgp_items kept, *items = &kept;
    pgp_status status = pgp_bind_begin(B("p"), B("s"), &one, 1, 4, out, room, items);
    *n = 0;
    if (status != PGP_OK) return status;
    ITEM(pgp_put_int4(5, place, left, &len));
    status = pgp_item_null(out, room, items);
    if (status != PGP_OK) return status;
    ITEM(bytes("abc", place, left, &len));
    ITEM(pair(place, left, &len));
    return pgp_bind_end(&one, 1, items, out, room, n);
}

static pgp_status none(uint8_t *out, size_t room, size_t *n)
{
    struct pgp_items items;
    pgp_status status = pgp_bind_begin(NULL, 0, NULL, 0, NULL, 0, 0, out, room, &items);
    *n = 0;
    return status == PGP_OK ? pgp_bind_end(NULL, 0, &items, out, room, n) : status;
}

static pgp_status square(uint8_t *out, size_t room, size_t *n)
{
    static const struct pgp_dimension two[2] = {{2, 1}, {1, -1}};
    struct pgp_items kept, *items = &kept;
    pgp_status status = pgp_array_begin(PGP_OID_INT4, two, 2, out, room, items);
    *n = 0;
    if (status != PGP_OK) return status;
    ITEM(pgp_put_int4(1, place, left, &len));
    ITEM(pgp_put_int4(-1, place, left, &len));
    return pgp_array_end(items, out, room, n);
}

static pgp_status no_elements(uint8_t *out, size_t room, size_t *n)
{
    struct pgp_items items;
    pgp_status status = pgp_array_begin(PGP_OID_INT4, NULL, 0, out, room, &items);
    *n = 0;
    return status == PGP_OK ? pgp_array_end(&items, out, room, n) : status;
}

/* A step that is refused: `items` and the bytes before its place are as they were. */
#define REFUSES(what, call, code) do { \
    uint8_t copy[64]; struct pgp_items was = items; \
    memcpy(copy, out, sizeof copy); \
    same(what, call, code); \
    same(what ": at", items.at, was.at); same(what ": left", items.left, was.left); same(what ": nulls", items.has_null, was.has_null); \
    is(what ": bytes", out, items.at < sizeof copy ? items.at : sizeof copy, copy, items.at < sizeof copy ? items.at : sizeof copy); \
    } while (0)

static void refused(void)
{
    static const int16_t formats[2] = {1, 2}, ones[2] = {1, 1};
    static const struct pgp_dimension three[1] = {{3, 1}}, negative[1] = {{-1, 1}}, many[2] = {{65536, 1}, {65536, 1}};
    int16_t *zeros = (int16_t *)calloc(65536, sizeof *zeros);
    uint8_t out[64] = {0};
    struct pgp_items items = {7, 7, true};
    size_t n = 77;
    REFUSES("65536 values", pgp_bind_begin(B(""), B(""), NULL, 0, 65536, out, sizeof out, &items), PGP_E_TOO_LARGE);
    REFUSES("two formats for three values", pgp_bind_begin(B(""), B(""), ones, 2, 3, out, sizeof out, &items), PGP_E_FORMATS);
    REFUSES("no format", pgp_bind_begin(B(""), B(""), formats, 2, 2, out, sizeof out, &items), PGP_E_FORMATS);
    items.at = 0;
    REFUSES("a 0 byte", pgp_bind_begin(B("a\0b"), B(""), NULL, 0, 1, out, sizeof out, &items), PGP_E_EMBEDDED_NULL);
    REFUSES("no room", pgp_bind_begin(B("abc"), B(""), NULL, 0, 1, out, 15, &items), PGP_NO_ROOM);
    same("65535 values", pgp_bind_begin(B(""), B(""), NULL, 0, 65535, out, sizeof out, &items), PGP_OK);
    same("left", items.left, 65535); same("at", items.at, 11);
    same("one value", pgp_bind_begin(B(""), B(""), NULL, 0, 1, out, 24, &items), PGP_OK); same("left", items.left, 1);
    same("place", pgp_item_at(24, &items), 15); same("room", pgp_item_room(24, &items), 9);
    REFUSES("an end before the value", pgp_bind_end(NULL, 0, &items, out, sizeof out, &n), PGP_E_INVALID_SIZE); same("nothing", n, 0);
    REFUSES("too long", pgp_item((size_t)1 << 31, out, sizeof out, &items), PGP_E_TOO_LARGE);
    REFUSES("past the room", pgp_item(10, out, 24, &items), PGP_NO_ROOM);
    REFUSES("no room for the length", pgp_item(0, out, 14, &items), PGP_NO_ROOM); REFUSES("no room for the length", pgp_item_null(out, 14, &items), PGP_NO_ROOM);
    REFUSES("the place is past the room", pgp_item(0, out, 10, &items), PGP_NO_ROOM); same("no place", pgp_item_room(10, &items), 0); same("its end", pgp_item_at(10, &items), 10);
    REFUSES("a length that wraps", pgp_item(2147483647, out, 24, &items), PGP_NO_ROOM);
    same("with more room", pgp_item(10, out, sizeof out, &items), PGP_OK); same("at", items.at, 25); same("left", items.left, 0);
    REFUSES("one value more", pgp_item(1, out, sizeof out, &items), PGP_E_INVALID_SIZE); REFUSES("one null more", pgp_item_null(out, sizeof out, &items), PGP_E_INVALID_SIZE);
    n = 77; REFUSES("no format", pgp_bind_end(formats, 2, &items, out, sizeof out, &n), PGP_E_FORMATS); same("nothing", n, 0);
    n = 77; REFUSES("65536 formats", pgp_bind_end(zeros, 65536, &items, out, sizeof out, &n), PGP_E_TOO_LARGE); same("nothing", n, 0);
    n = 77; REFUSES("no room for them", pgp_bind_end(ones, 2, &items, out, 30, &n), PGP_NO_ROOM); same("nothing", n, 0);
    same("an end", pgp_bind_end(ones, 2, &items, out, 31, &n), PGP_OK); same("its size", n, 31);
    memset(&items, 0, sizeof items);
    REFUSES("none was begun", pgp_item(0, out, sizeof out, &items), PGP_E_INVALID_SIZE);
    n = 77; REFUSES("none was begun", pgp_bind_end(NULL, 0, &items, out, sizeof out, &n), PGP_E_INVALID_SIZE); same("nothing", n, 0);
    n = 77; REFUSES("none was begun", pgp_array_end(&items, out, sizeof out, &n), PGP_E_INVALID_SIZE); same("nothing", n, 0);
    REFUSES("negative", pgp_array_begin(23, negative, 1, out, sizeof out, &items), PGP_E_INVALID_DIMENSION);
    REFUSES("too many", pgp_array_begin(23, many, 2, out, sizeof out, &items), PGP_E_TOO_MANY_ELEMENTS);
    REFUSES("no room", pgp_array_begin(23, three, 1, out, 19, &items), PGP_NO_ROOM);
    same("three", pgp_array_begin(23, three, 1, out, 20, &items), PGP_OK); same("left", items.left, 3); same("at", items.at, 20);
    same("a null", pgp_item_null(out, sizeof out, &items), PGP_OK); same("an element", pgp_item(0, out, sizeof out, &items), PGP_OK);
    n = 77; REFUSES("an end before the last", pgp_array_end(&items, out, sizeof out, &n), PGP_E_INVALID_SIZE); same("nothing", n, 0);
    same("the last", pgp_item(4, out, sizeof out, &items), PGP_OK);
    n = 77; REFUSES("no room", pgp_array_end(&items, out, items.at - 1, &n), PGP_NO_ROOM); same("nothing", n, 0);
    same("an end", pgp_array_end(&items, out, items.at, &n), PGP_OK); same("its size", n, 36); same("the flag", out[7], 1);
    items.at = sizeof out + 1; items.left = 0;
    n = 77; same("a place past the room", pgp_bind_end(NULL, 0, &items, out, sizeof out, &n), PGP_NO_ROOM); same("nothing", n, 0);
    items.at = (size_t)-1; items.left = 1;
    same("the last place", pgp_item(2147483647, out, sizeof out, &items), PGP_NO_ROOM); same("left", items.left, 1);
    free(zeros);
}

/* A Sync, then a bind of one int4 in the stream's free memory. */
static void in_a_stream(void)
{
    static const int16_t one = 1, two = 2;
    static const char sent[] = "S\0\0\0\4" "B\0\0\0\x1ap\0s\0\0\1\0\1\0\1\0\0\0\4\0\0\0\5\0\1\0\1";
    uint8_t room[64] = {0};
    struct pgp_stream stream = {room, sizeof room, 0, true};
    struct pgp_items items;
    size_t len = 0;
    same("sync", pgp_stream_sync(&stream), PGP_OK);
    uint8_t *out = room + stream.len;
    size_t left = sizeof room - stream.len;
    same("begin", pgp_bind_begin(B("p"), B("s"), &one, 1, 1, out, left, &items), PGP_OK);
    same("too early", pgp_stream_bind_end(&stream, &one, 1, &items), PGP_E_INVALID_SIZE); same("its length", stream.len, 5);
    same("a value", pgp_put_int4(5, out + pgp_item_at(left, &items), pgp_item_room(left, &items), &len), PGP_OK);
    same("an item", pgp_item(len, out, left, &items), PGP_OK);
    same("no format", pgp_stream_bind_end(&stream, &two, 1, &items), PGP_E_FORMATS);
    stream.room_len = 30; same("no room", pgp_stream_bind_end(&stream, &one, 1, &items), PGP_NO_ROOM);
    stream.room_len = 4; same("no such place", pgp_stream_bind_end(&stream, &one, 1, &items), PGP_NO_ROOM);
    stream.room_len = sizeof room; stream.is_open = false; same("before the startup packet", pgp_stream_bind_end(&stream, &one, 1, &items), PGP_E_WRONG_PHASE);
    stream.is_open = true; same("its length", stream.len, 5); is("as it was", room, 5, sent, 5);
    same("end", pgp_stream_bind_end(&stream, &one, 1, &items), PGP_OK);
    is("both", room, stream.len, sent, sizeof sent - 1);
}

void in_place(void)
{
    WRITER("bind in steps", "B\0\0\0\x49p\0s\0\0\1\0\1\0\4\0\0\0\4\0\0\0\5\xff\xff\xff\xff\0\0\0\3" "abc"
        "\0\0\0\x20\0\0\0\1\0\0\0\1\0\0\0\x17\0\0\0\2\0\0\0\1\0\0\0\4\0\0\0\1\xff\xff\xff\xff\0\1\0\1", four(O));
    WRITER("bind of no values", "B\0\0\0\x0c\0\0\0\0\0\0\0\0", none(O));
    WRITER("{1,NULL}", "\0\0\0\1\0\0\0\1\0\0\0\x17\0\0\0\2\0\0\0\1\0\0\0\4\0\0\0\1\xff\xff\xff\xff", pair(O));
    WRITER("[1:2][-1:-1]={{1},{-1}}", "\0\0\0\2\0\0\0\0\0\0\0\x17\0\0\0\2\0\0\0\1\0\0\0\1\xff\xff\xff\xff\0\0\0\4\0\0\0\1\0\0\0\4\xff\xff\xff\xff", square(O));
    WRITER("{}", "\0\0\0\0\0\0\0\0\0\0\0\x17", no_elements(O));
    refused();
    in_a_stream();
}
