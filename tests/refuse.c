/* Refuses one growth of memory. Loaded before the C library (LD_PRELOAD), it takes the place of its
   allocator's calls and passes each on, but for the one whose number, from 1, the environment
   variable REFUSE has: that one gets no memory. When it comes, the file that REFUSED names is made.
   A realloc to a size that its block has already is no growth, and is not counted. */

#include <errno.h>
#include <fcntl.h>
#include <malloc.h>
#include <stddef.h>
#include <stdlib.h>
#include <unistd.h>

void *__libc_malloc(size_t);
void *__libc_calloc(size_t, size_t);
void *__libc_realloc(void *, size_t);
void *__libc_memalign(size_t, size_t);

static long asked;

static int is_refused(void)
{
    const char *number = getenv("REFUSE");
    const char *mark = getenv("REFUSED");
    if (!number || ++asked != strtol(number, NULL, 10))
        return 0;
    if (mark)
        close(open(mark, O_WRONLY | O_CREAT, 0600));
    errno = ENOMEM;
    return 1;
}

void *malloc(size_t size)
{
    return is_refused() ? NULL : __libc_malloc(size);
}

void *calloc(size_t count, size_t size)
{
    return is_refused() ? NULL : __libc_calloc(count, size);
}

void *realloc(void *block, size_t size)
{
    if (block && size <= malloc_usable_size(block))
        return __libc_realloc(block, size);
    return is_refused() ? NULL : __libc_realloc(block, size);
}

void *memalign(size_t align, size_t size)
{
    return is_refused() ? NULL : __libc_memalign(align, size);
}

void *aligned_alloc(size_t align, size_t size)
{
    return memalign(align, size);
}

int posix_memalign(void **block, size_t align, size_t size)
{
    void *got = memalign(align, size);
    if (!got)
        return ENOMEM;
    *block = got;
    return 0;
}
