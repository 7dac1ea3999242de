/* Refuses one request of memory of the program that it is preloaded into (glibc): the one of the number REFUSED, counted from 1. Where that request comes,
   a byte is written to the descriptor REFUSED_TO. */
#include <errno.h>
#include <stddef.h>
#include <stdlib.h>
#include <unistd.h>

extern void *__libc_malloc(size_t size);
extern void *__libc_realloc(void *old, size_t size);

static long left;
static int to;

__attribute__((constructor)) static void begin(void) {
    const char *number = getenv("REFUSED"), *descriptor = getenv("REFUSED_TO");
    if (number && descriptor) {
        left = atol(number);
        to = atoi(descriptor);
    }
}

static int is_refused(void) {
    if (left == 0 || --left != 0)
        return 0;
    if (write(to, "!", 1) != 1)
        abort();
    errno = ENOMEM;
    return 1;
}

void *malloc(size_t size) {
    return is_refused() ? NULL : __libc_malloc(size);
}

void *realloc(void *old, size_t size) {
    return is_refused() ? NULL : __libc_realloc(old, size);
}
