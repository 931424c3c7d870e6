/* Preloaded into a program, answers for the machine's clock. The file that CLOCK_PAGE names holds three
 * numbers of eight bytes: whether the clock fails, the seconds since 1970 that it says, and how often it was
 * asked. */
#define _GNU_SOURCE
#include <errno.h>
#include <fcntl.h>
#include <stdlib.h>
#include <sys/mman.h>
#include <sys/syscall.h>
#include <time.h>
#include <unistd.h>

static volatile long long *page;

__attribute__((constructor)) static void begin(void)
{
    const char *path = getenv("CLOCK_PAGE");
    int fd = path ? (int) syscall(SYS_openat, AT_FDCWD, path, O_RDWR) : -1;
    void *there = fd < 0 ? MAP_FAILED : mmap(NULL, 24, PROT_READ | PROT_WRITE, MAP_SHARED, fd, 0);
    if (there == MAP_FAILED)
        _exit(99);
    syscall(SYS_close, fd);
    page = there;
}

int clock_gettime(clockid_t which, struct timespec *found)
{
    if (!page || which != CLOCK_REALTIME)
        return (int) syscall(SYS_clock_gettime, which, found);
    ++page[2];
    if (page[0]) {
        errno = EINVAL;
        return -1;
    }
    found->tv_sec = page[1];
    found->tv_nsec = 999999999;
    return 0;
}
