/* What the tests share: how a result is compared, and counted. */
#ifndef CHECKS_H
#define CHECKS_H
#include "postgres_protocol.h"
#include "postgres_protocol_auth.h"
#include <stdio.h>
#include <stdlib.h>

/* What pgp_is_proved() has to answer: 0 of what scripts/quick builds. */
#ifndef PROVED
#define PROVED 1
#endif

extern int fails, passed;
void auth(void);
void further(void);
void connections(void);
void logins(void);
void server(void);
void shapes(void);
void in_place(void);
void search(void);
void rows(void);
static inline void is(const char *what, const void *a, size_t n, const void *b, size_t m)
{
    if (n != m || (n && memcmp(a, b, n) != 0)) {
        size_t i;
        printf("FAIL %s: %lu bytes", what, (unsigned long)n);
        for (i = 0; i < n && i < 60; i++) printf(" %02x", ((const uint8_t *)a)[i]);
        printf("\n");
        fails++;
    } else passed++;
}
static inline void same(const char *what, unsigned long a, unsigned long b)
{
    if (a != b) { printf("FAIL %s: %lu, not %lu\n", what, a, b); fails++; } else passed++;
}
#define B(s) (const uint8_t *)(s), sizeof(s) - 1
#define T(s) (const uint8_t *)(s), strlen(s)

/* A writer at every room: below its size it has none, and nothing past the room is touched; at its size it writes the message. */
#define WRITER(what, want, call) do { \
    size_t room, k, size = sizeof(want) - 1; \
    for (room = 0; room <= size + 2; room++) { \
        uint8_t *out = (uint8_t *)malloc(room + 1); size_t n = 77; pgp_status r; \
        memset(out, 0xaa, room + 1); \
        r = call; \
        if (room < size) { same(what ": no room", r, PGP_NO_ROOM); same(what ": nothing", n, 0); } \
        else { same(what, r, PGP_OK); is(what, out, n, want, size); for (k = size; k < room; k++) same(what ": behind", out[k], 0xaa); } \
        same(what ": past the room", out[room], 0xaa); \
        free(out); \
    } } while (0)
#define O out, room, &n

#endif
