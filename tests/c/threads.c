/* Eight threads at once, each on memory of its own: what each makes and reads is what one alone does. */
#include "postgres_protocol.h"
#include "postgres_protocol_auth.h"
#include <pthread.h>
#include <stdio.h>

#define TIMES 20000

static void *work(void *failed)
{
    static const uint8_t row[] = "D\0\0\0\x0f\0\2\0\0\0\1a\xff\xff\xff\xff";
    uint8_t out[64];
    int i;
    for (i = 0; i < TIMES; i++) {
        struct pgp_message m;
        struct pgp_cursor c;
        struct pgp_column v;
        size_t n = 0;
        if (pgp_query((const uint8_t *)"SELECT 1", 8, out, sizeof out, &n) != PGP_OK || n != 14 || memcmp(out, "Q\0\0\0\x0dSELECT 1", 14) != 0)
            ++*(int *)failed;
        if (pgp_escape_literal((const uint8_t *)"it's", 4, out, sizeof out, &n) != PGP_OK || n != 7 || memcmp(out, "'it''s'", 7) != 0)
            ++*(int *)failed;
        if (pgp_front(row, sizeof row - 1, &m) != PGP_OK || m.parts.count != 2) { ++*(int *)failed; continue; }
        c = pgp_walk(&m);
        if (pgp_row_next(row, sizeof row - 1, &c, &v) != PGP_OK || v.end - v.start != 1 || row[v.start] != 'a') ++*(int *)failed;
        if (pgp_row_next(row, sizeof row - 1, &c, &v) != PGP_OK || !v.is_null) ++*(int *)failed;
        if (pgp_row_next(row, sizeof row - 1, &c, &v) != PGP_DONE) ++*(int *)failed;
    }
    return NULL;
}

int main(void)
{
    pthread_t threads[8];
    int failed[8] = {0}, all = 0, i;
    for (i = 0; i < 8; i++) if (pthread_create(&threads[i], NULL, work, &failed[i]) != 0) { printf("no thread\n"); return 1; }
    for (i = 0; i < 8; i++) { pthread_join(threads[i], NULL); all += failed[i]; }
    printf("8 threads, %d rounds each, %d failed\n", TIMES, all);
    return all != 0;
}
