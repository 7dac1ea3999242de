/* beyond room | beyond null: calls that break what the header asks for: a room that is longer than its memory, NULL with a length that isn't 0.
   A sanitizer, or the library with checks in its code, has to end the program; if it ends by itself they look at nothing. */
#include "postgres_protocol.h"
#include <stdlib.h>

int main(int argc, char **argv)
{
    uint8_t *out = (uint8_t *)malloc(8);
    size_t n;
    if (argc != 2 || out == NULL) return 2;
    if (strcmp(argv[1], "room") == 0) pgp_query((const uint8_t *)"SELECT 1", 8, out, 64, &n);
    else pgp_query(NULL, 8, out, 8, &n);
    free(out);
    return 0;
}
