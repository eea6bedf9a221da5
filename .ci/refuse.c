/* Preloaded into a program by .ci/refusals: refuses the request for memory whose number is in REFUSE, counted from 1,
   and writes a byte to the file descriptor in REFUSE_TO. */
#include <errno.h>
#include <stddef.h>
#include <stdlib.h>
#include <unistd.h>

void *__libc_malloc(size_t size);
void *__libc_calloc(size_t count, size_t size);
void *__libc_realloc(void *old, size_t size);

static int is_refused(void)
{
    static long requests;
    const char *number = getenv("REFUSE");
    const char *file = getenv("REFUSE_TO");
    if (!number || !file || ++requests != atol(number))
        return 0;
    if (write(atoi(file), "", 1) != 1)
        abort();
    errno = ENOMEM;
    return 1;
}

void *malloc(size_t size)
{
    return is_refused() ? NULL : __libc_malloc(size);
}

void *calloc(size_t count, size_t size)
{
    return is_refused() ? NULL : __libc_calloc(count, size);
}

void *realloc(void *old, size_t size)
{
    return is_refused() ? NULL : __libc_realloc(old, size);
}
