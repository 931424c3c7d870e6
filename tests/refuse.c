/* Preloaded into a program, refuses one of its requests for memory, or all from one on. The file that
 * REFUSE_PAGE names holds four numbers of eight bytes, which another process may read and write while
 * the program runs: the first request that is refused, where 0 refuses none; the last one; how many
 * there were; how many were refused. So one request of the program's start is refused where these stand
 * there before it, and one of a single line where they are written while the program waits for it. */
#define _GNU_SOURCE
#include <errno.h>
#include <fcntl.h>
#include <stdlib.h>
#include <sys/mman.h>
#include <unistd.h>

extern void *__libc_malloc(size_t);
extern void *__libc_calloc(size_t, size_t);
extern void *__libc_realloc(void *, size_t);
extern void *__libc_memalign(size_t, size_t);

static volatile unsigned long long *page;

__attribute__((constructor)) static void begin(void)
{
    const char *path = getenv("REFUSE_PAGE");
    void *there;
    int fd;
    if (!path || (fd = open(path, O_RDWR)) < 0)
        _exit(99);
    there = mmap(NULL, 32, PROT_READ | PROT_WRITE, MAP_SHARED, fd, 0);
    if (there == MAP_FAILED)
        _exit(99);
    close(fd);
    page = there;
}

static int refused(void)
{
    unsigned long long number;
    if (!page)
        return 0;
    number = ++page[2];
    if (page[0] == 0 || number < page[0] || number > page[1])
        return 0;
    ++page[3];
    errno = ENOMEM;
    return 1;
}

void *malloc(size_t size)
{
    return refused() ? NULL : __libc_malloc(size);
}

void *calloc(size_t count, size_t size)
{
    return refused() ? NULL : __libc_calloc(count, size);
}

void *realloc(void *old, size_t size)
{
    return refused() ? NULL : __libc_realloc(old, size);
}

void *aligned_alloc(size_t alignment, size_t size)
{
    return refused() ? NULL : __libc_memalign(alignment, size);
}

int posix_memalign(void **place, size_t alignment, size_t size)
{
    if (refused())
        return ENOMEM;
    *place = __libc_memalign(alignment, size);
    return *place ? 0 : ENOMEM;
}
