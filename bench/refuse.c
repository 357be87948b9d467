/* An allocator that refuses: with REFUSED=N the Nth allocation of the process, counted from 1, fails. It
   stands before glibc's by LD_PRELOAD. */
#include <errno.h>
#include <stddef.h>
#include <stdlib.h>

void *__libc_malloc(size_t size);
void *__libc_realloc(void *block, size_t size);

static int is_refused(void)
{
    static long left = -1;
    if (left < 0) {
        const char *word = getenv("REFUSED");
        left = word ? atol(word) : 0;
    }
    if (left == 0 || --left > 0)
        return 0;
    errno = ENOMEM;
    return 1;
}

void *malloc(size_t size)
{
    return is_refused() ? NULL : __libc_malloc(size);
}

void *realloc(void *block, size_t size)
{
    return is_refused() ? NULL : __libc_realloc(block, size);
}
