/* faults.c: a read and a write that fail, for list_layout's test to put before C's own. FAULT in the environment is a row of words:
 *   interrupt        every second call is interrupted (EINTR)
 *   read-after=N     reads fail (EIO) once N bytes were read
 *   write-after=N    writes fail (ENOSPC) once N bytes were written
 *   short            a call moves at most 7 bytes
 */
#define _GNU_SOURCE
#include <dlfcn.h>
#include <errno.h>
#include <stdlib.h>
#include <string.h>
#include <unistd.h>

typedef ssize_t reader(int, void *, size_t);
typedef ssize_t writer(int, const void *, size_t);

/* The number that follows a word of FAULT, or -1. */
static long fault(const char *word)
{
    const char *all = getenv("FAULT"), *at = all == NULL ? NULL : strstr(all, word);
    return at == NULL ? -1 : strtol(at + strlen(word), NULL, 10);
}

/* Whether this call is interrupted. */
static int interrupted(void)
{
    static unsigned calls;
    if (fault("interrupt") < 0 || calls++ % 2 != 0)
        return 0;
    errno = EINTR;
    return 1;
}

/* How many of count bytes a call may move once `done` were moved; -1 where it fails. */
static long allowed(const char *word, long done, size_t count, int error)
{
    long most = fault(word), n = fault("short") >= 0 && count > 7 ? 7 : (long)count;
    if (most >= 0 && done >= most) {
        errno = error;
        return -1;
    }
    return most >= 0 && n > most - done ? most - done : n;
}

ssize_t read(int fd, void *buf, size_t count)
{
    static long done;
    reader *next = (reader *)dlsym(RTLD_NEXT, "read");
    if (fd != STDIN_FILENO)
        return next(fd, buf, count);
    long n = interrupted() ? -1 : allowed("read-after=", done, count, EIO);
    if (n < 0)
        return -1;
    ssize_t got = next(fd, buf, (size_t)n);
    done += got > 0 ? got : 0;
    return got;
}

ssize_t write(int fd, const void *buf, size_t count)
{
    static long done;
    writer *next = (writer *)dlsym(RTLD_NEXT, "write");
    if (fd != STDOUT_FILENO)
        return next(fd, buf, count);
    long n = interrupted() ? -1 : allowed("write-after=", done, count, ENOSPC);
    if (n < 0)
        return -1;
    ssize_t put = next(fd, buf, (size_t)n);
    done += put > 0 ? put : 0;
    return put;
}
