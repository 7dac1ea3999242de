/* Passes a server's stream on from its input to its output, message by message and without the notices, and counts
   the rows. */
#include "postgres_protocol.h"
#include <stdio.h>
#include <unistd.h>

static uint8_t in[1 << 16];

static int hand_on(const uint8_t *bytes, size_t len)
{
    while (len > 0) {
        ssize_t n = write(1, bytes, len);
        if (n <= 0) return 0;
        bytes += n;
        len -= (size_t)n;
    }
    return 1;
}

int main(void)
{
    size_t have = 0;
    unsigned long rows = 0, notices = 0, bad = 0;
    for (;;) {
        struct pgp_message m;
        size_t at = 0;
        ssize_t n;
        pgp_status status;
        /* all messages that are whole, where they stand */
        while ((status = pgp_front(in + at, have - at, &m)) != PGP_MORE) {
            if (status == PGP_E_INVALID_LENGTH) {
                fprintf(stderr, "proxy: a length is invalid, and nothing behind it can be read\n");
                return 1;
            }
            /* a frame whose body is refused is whole all the same: it may be handed on, or dropped */
            if (status != PGP_OK) bad++;
            if (m.kind == PGP_DATA_ROW) rows++;
            if (m.kind == PGP_NOTICE_RESPONSE) notices++;
            else if (status == PGP_OK && !hand_on(in + at, m.frame)) return 1;
            at += m.frame;
        }
        have -= at;
        memmove(in, in + at, have);
        if (have == sizeof in) {
            fprintf(stderr, "proxy: a message is too long\n");
            return 1;
        }
        n = read(0, in + have, sizeof in - have);
        if (n < 0) return 1;
        if (n == 0) break;
        have += (size_t)n;
    }
    fprintf(stderr, "%lu rows, %lu notices dropped, %lu refused, %lu bytes left\n", rows, notices, bad, (unsigned long)have);
    return have != 0;
}
