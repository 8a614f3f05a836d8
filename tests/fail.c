/* Fails calls of a program on a file or a stream. Loaded before the C library (LD_PRELOAD), it takes
   the place of the calls that read, write, measure, cut and sync, and passes each on, but for those
   on what the environment variable FAIL_ON names: FAIL_AFTER of them go well, and each after them
   fails and does nothing, with FAIL_FULL as on a full disk; with FAIL_ONCE only the next one. When the first fails, the file that FAILED
   names is made.

   FAIL_ON is a whole path, or `in`, `out`, `room` for standard input, standard output and connections.
   PIECE: what is read from or written to standard input, standard output and connections moves at most
   so many bytes a call. NOTES: to this file each call is added that changes or syncs a file whose path
   begins with NOTED, as its path and `w AT SIZE` with the bytes, `t SIZE` or `s`; and what is written
   to standard output, as `out w 0 SIZE` with the bytes. KILLED_AFTER: the program is killed after so
   many calls that change or sync a file whose path begins with NOTED. */

#define _GNU_SOURCE
#include <errno.h>
#include <fcntl.h>
#include <signal.h>
#include <stdarg.h>
#include <stdio.h>
#include <stdlib.h>
#include <string.h>
#include <sys/socket.h>
#include <sys/stat.h>
#include <sys/syscall.h>
#include <sys/types.h>
#include <unistd.h>

enum { LONGEST = 4096 };

static long calls, changes;

/* The path of a descriptor, or `socket:[..]` and the like. */
static void name_of(int fd, char *name)
{
    char link[64];
    snprintf(link, sizeof link, "/proc/self/fd/%d", fd);
    ssize_t length = readlink(link, name, LONGEST - 1);
    name[length < 0 ? 0 : length] = 0;
}

static int is_room(int fd)
{
    int kind = 0, listens = 1;
    socklen_t size = sizeof kind;
    if (fd <= 2 || getsockopt(fd, SOL_SOCKET, SO_TYPE, &kind, &size) != 0)
        return 0;
    size = sizeof listens;
    return getsockopt(fd, SOL_SOCKET, SO_ACCEPTCONN, &listens, &size) == 0 && !listens;
}

static int is_meant(int fd, const char *on)
{
    char name[LONGEST];
    if (!strcmp(on, "in"))
        return fd == 0;
    if (!strcmp(on, "out"))
        return fd == 1;
    if (!strcmp(on, "room"))
        return is_room(fd);
    name_of(fd, name);
    return !strcmp(on, name);
}

/* Counts a call, and says whether it fails. */
static int fails(int fd)
{
    const char *on = getenv("FAIL_ON"), *after = getenv("FAIL_AFTER"), *mark = getenv("FAILED");
    int before = errno;
    if (!on || !after || !is_meant(fd, on)) {
        errno = before;
        return 0;
    }
    errno = before;
    long over = calls++ - strtol(after, NULL, 10);
    if (over < 0 || (over > 0 && getenv("FAIL_ONCE")))
        return 0;
    if (over == 0 && mark)
        syscall(SYS_close, syscall(SYS_openat, AT_FDCWD, mark, O_WRONLY | O_CREAT, 0600));
    errno = getenv("FAIL_FULL") ? ENOSPC : EIO;
    return 1;
}

/* At most so many bytes are moved. */
static size_t piece(int fd, size_t size)
{
    const char *most = getenv("PIECE");
    size_t bytes = most ? strtoul(most, NULL, 10) : size;
    return (fd == 0 || fd == 1 || is_room(fd)) && bytes < size ? bytes : size;
}

/* Adds a call to the notes, with the bytes that it wrote. */
static void note(int fd, const void *bytes, size_t size, const char *format, ...)
{
    const char *notes = getenv("NOTES"), *noted = getenv("NOTED"), *killed = getenv("KILLED_AFTER");
    char name[LONGEST], line[LONGEST + 64];
    int before = errno;
    if (!noted)
        return;
    name_of(fd, name);
    if (killed && strncmp(name, noted, strlen(noted)) == 0 && ++changes == strtol(killed, NULL, 10))
        syscall(SYS_kill, syscall(SYS_getpid), SIGKILL);
    if (fd == 1)
        strcpy(name, "out");
    if (notes && (fd == 1 || strncmp(name, noted, strlen(noted)) == 0)) {
        int to = syscall(SYS_openat, AT_FDCWD, notes, O_WRONLY | O_CREAT | O_APPEND, 0600);
        int length = snprintf(line, sizeof line, "%s ", name);
        va_list more;
        va_start(more, format);
        length += vsnprintf(line + length, sizeof line - length, format, more);
        va_end(more);
        syscall(SYS_write, to, line, (size_t)length);
        syscall(SYS_write, to, bytes, size);
        syscall(SYS_close, to);
    }
    errno = before;
}

ssize_t read(int fd, void *to, size_t size)
{
    return fails(fd) ? -1 : syscall(SYS_read, fd, to, piece(fd, size));
}

ssize_t recv(int fd, void *to, size_t size, int flags)
{
    return fails(fd) ? -1 : syscall(SYS_recvfrom, fd, to, piece(fd, size), flags, NULL, NULL);
}

ssize_t write(int fd, const void *from, size_t size)
{
    if (fails(fd))
        return -1;
    ssize_t done = syscall(SYS_write, fd, from, piece(fd, size));
    if (done > 0 && fd == 1)
        note(fd, from, (size_t)done, "w 0 %ld\n", (long)done);
    return done;
}

ssize_t send(int fd, const void *from, size_t size, int flags)
{
    return fails(fd) ? -1 : syscall(SYS_sendto, fd, from, piece(fd, size), flags, NULL, 0);
}

ssize_t pread(int fd, void *to, size_t size, off_t at)
{
    return fails(fd) ? -1 : syscall(SYS_pread64, fd, to, size, at);
}

ssize_t pwrite(int fd, const void *from, size_t size, off_t at)
{
    if (fails(fd))
        return -1;
    ssize_t done = syscall(SYS_pwrite64, fd, from, size, at);
    if (done > 0)
        note(fd, from, (size_t)done, "w %ld %ld\n", (long)at, (long)done);
    return done;
}

int ftruncate(int fd, off_t size)
{
    if (fails(fd))
        return -1;
    int done = (int)syscall(SYS_ftruncate, fd, size);
    if (done == 0)
        note(fd, NULL, 0, "t %ld\n", (long)size);
    return done;
}

static int synced(int fd, long number)
{
    if (fails(fd))
        return -1;
    int done = (int)syscall(number, fd);
    if (done == 0)
        note(fd, NULL, 0, "s\n");
    return done;
}

int fsync(int fd)
{
    return synced(fd, SYS_fsync);
}

int fdatasync(int fd)
{
    return synced(fd, SYS_fdatasync);
}

/* Of a descriptor that is open; a file that is named is not counted. */
int statx(int fd, const char *path, int flags, unsigned mask, struct statx *to)
{
    if (fd >= 0 && !*path && fails(fd))
        return -1;
    return (int)syscall(SYS_statx, fd, path, flags, mask, to);
}
