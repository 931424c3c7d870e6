/* Preloaded into a program, fails its calls of one file from one of them on. The file that STOP_PAGE
 * names holds four numbers of eight bytes: which file (0 the database, 1 its log, 2 standard input,
 * 3 standard output, 4 one whose name ends in .json); the first call that fails, where 0 fails none; how
 * many bytes a read or a write of the streams takes at most, where 0 sets no limit and -1 lets a write take
 * nothing, and of a .json file the error by which a call fails; and how many calls there were. The first
 * write that fails has written half of its bytes where the first call is given as a number below 0. */
#define _GNU_SOURCE
#include <errno.h>
#include <fcntl.h>
#include <stdarg.h>
#include <stdlib.h>
#include <string.h>
#include <sys/mman.h>
#include <sys/stat.h>
#include <sys/syscall.h>
#include <unistd.h>

static volatile long long *page;
static signed char files[64];

__attribute__((constructor)) static void begin(void)
{
    const char *path = getenv("STOP_PAGE");
    void *there;
    int fd = path ? (int) syscall(SYS_openat, AT_FDCWD, path, O_RDWR) : -1;
    if (fd < 0)
        _exit(99);
    there = mmap(NULL, 32, PROT_READ | PROT_WRITE, MAP_SHARED, fd, 0);
    if (there == MAP_FAILED)
        _exit(99);
    syscall(SYS_close, fd);
    memset(files, -1, sizeof files);
    files[0] = 2;
    files[1] = 3;
    page = there;
}

static int ends(const char *path, const char *end)
{
    size_t length = strlen(path), tail = strlen(end);
    return length > tail && strcmp(path + length - tail, end) == 0;
}

/* Whether a call of a file fails; 2 for the first that does where half of its bytes are written. */
static int stops(int file)
{
    long long number, first;
    if (!page || file < 0 || file != page[0])
        return 0;
    number = ++page[3];
    first = page[1] < 0 ? -page[1] : page[1];
    if (first == 0 || number < first)
        return 0;
    errno = file == 4 ? (int) page[2] : EIO;
    return page[1] < 0 && number == first ? 2 : 1;
}

static int file_of(int fd)
{
    return fd >= 0 && fd < 64 ? files[fd] : -1;
}

static size_t width(int fd, size_t count)
{
    return page && page[2] > 0 && file_of(fd) == page[0] && (page[0] == 2 || page[0] == 3) && (long long) count > page[2] ? (size_t) page[2] : count;
}

int open(const char *path, int flags, ...)
{
    va_list given;
    int file = ends(path, "-wal") ? 1 : ends(path, ".db") ? 0 : ends(path, ".json") ? 4 : -1, fd, mode;
    va_start(given, flags);
    mode = flags & (O_CREAT | O_TMPFILE) ? va_arg(given, int) : 0;
    va_end(given);
    if (stops(file))
        return -1;
    fd = (int) syscall(SYS_openat, AT_FDCWD, path, flags, mode);
    if (fd >= 0 && fd < 64)
        files[fd] = (signed char) file;
    return fd;
}

int close(int fd)
{
    if (fd > 2 && fd < 64)
        files[fd] = -1;
    return (int) syscall(SYS_close, fd);
}

ssize_t read(int fd, void *bytes, size_t count)
{
    return stops(file_of(fd)) ? -1 : syscall(SYS_read, fd, bytes, width(fd, count));
}

ssize_t write(int fd, const void *bytes, size_t count)
{
    int how = stops(file_of(fd));
    if (page && page[2] == -1 && file_of(fd) == 3 && page[0] == 3)
        return 0;
    return how ? -1 : syscall(SYS_write, fd, bytes, width(fd, count));
}

ssize_t pread(int fd, void *bytes, size_t count, off_t at)
{
    return stops(file_of(fd)) ? -1 : syscall(SYS_pread64, fd, bytes, count, at);
}

ssize_t pwrite(int fd, const void *bytes, size_t count, off_t at)
{
    int how = stops(file_of(fd));
    if (how == 2 && count > 1) {
        syscall(SYS_pwrite64, fd, bytes, count / 2, at);
        errno = EIO;
    }
    return how ? -1 : syscall(SYS_pwrite64, fd, bytes, count, at);
}

int fsync(int fd)
{
    return stops(file_of(fd)) ? -1 : (int) syscall(SYS_fsync, fd);
}

int fdatasync(int fd)
{
    return stops(file_of(fd)) ? -1 : (int) syscall(SYS_fdatasync, fd);
}

int ftruncate(int fd, off_t length)
{
    return stops(file_of(fd)) ? -1 : (int) syscall(SYS_ftruncate, fd, length);
}

int statx(int folder, const char *path, int flags, unsigned int mask, struct statx *found)
{
    return path && *path == 0 && stops(file_of(folder)) ? -1 : (int) syscall(SYS_statx, folder, path, flags, mask, found);
}
