/* Preloaded into a program, notes each change that it asks of a database file (.db) or of its log (-wal).
 * The file that WRITES_LOG names grows by a line a change, written before the change is asked: the file
 * (d or l), what is asked (w a write, t a length, s a sync), and where and how many bytes. */
#define _GNU_SOURCE
#include <fcntl.h>
#include <stdarg.h>
#include <stdio.h>
#include <stdlib.h>
#include <string.h>
#include <sys/syscall.h>
#include <unistd.h>

static char files[64];
static int out = -1;

__attribute__((constructor)) static void begin(void)
{
    const char *path = getenv("WRITES_LOG");
    out = path ? (int) syscall(SYS_openat, AT_FDCWD, path, O_WRONLY | O_APPEND | O_CREAT, 0600) : -1;
    if (out < 0)
        _exit(99);
}

static int ends(const char *path, const char *end)
{
    size_t length = strlen(path), tail = strlen(end);
    return length > tail && strcmp(path + length - tail, end) == 0;
}

static void note(int fd, char what, long long at, long long count)
{
    char line[64];
    int length;
    if (fd < 0 || fd >= 64 || !files[fd])
        return;
    length = snprintf(line, sizeof line, "%c %c %lld %lld\n", files[fd], what, at, count);
    if (syscall(SYS_write, out, line, (size_t) length) != length)
        _exit(99);
}

int open(const char *path, int flags, ...)
{
    va_list given;
    int mode, fd;
    va_start(given, flags);
    mode = flags & (O_CREAT | O_TMPFILE) ? va_arg(given, int) : 0;
    va_end(given);
    fd = (int) syscall(SYS_openat, AT_FDCWD, path, flags, mode);
    if (fd >= 0 && fd < 64)
        files[fd] = ends(path, "-wal") ? 'l' : ends(path, ".db") ? 'd' : 0;
    return fd;
}

int close(int fd)
{
    if (fd >= 0 && fd < 64)
        files[fd] = 0;
    return (int) syscall(SYS_close, fd);
}

ssize_t write(int fd, const void *bytes, size_t count)
{
    note(fd, 'w', -1, (long long) count);
    return syscall(SYS_write, fd, bytes, count);
}

ssize_t pwrite(int fd, const void *bytes, size_t count, off_t at)
{
    note(fd, 'w', at, (long long) count);
    return syscall(SYS_pwrite64, fd, bytes, count, at);
}

int ftruncate(int fd, off_t length)
{
    note(fd, 't', length, 0);
    return (int) syscall(SYS_ftruncate, fd, length);
}

int fsync(int fd)
{
    note(fd, 's', 0, 0);
    return (int) syscall(SYS_fsync, fd);
}

int fdatasync(int fd)
{
    note(fd, 's', 0, 0);
    return (int) syscall(SYS_fdatasync, fd);
}
