/* Stands before the C library, by LD_PRELOAD, and has calls of the system fail as PLANET_FAIL and PLANET_CLOCK say.
   PLANET_FAIL is NAME:FIRST:LAST:ERROR, where NAME is write, read, recvfrom or sendto and the calls of that name are counted
   from 1; ERROR is a number of errno, or 0 for a call that moves one byte. PLANET_CLOCK are seconds, one for each call of the
   clock, with commas between; the last is said again. PLANET_WAIT is a file to which the wait that is set for receiving is
   written, in microseconds, a line each time. */
#define _GNU_SOURCE
#include <errno.h>
#include <fcntl.h>
#include <stdio.h>
#include <stdlib.h>
#include <string.h>
#include <sys/socket.h>
#include <sys/syscall.h>
#include <sys/time.h>
#include <time.h>
#include <unistd.h>

static long counts[4];

/* Whether this call fails: with the number of errno, with 0 for a short one, or -1 where it doesn't. */
static int failing(const char *name, int place)
{
    const char *said = getenv("PLANET_FAIL");
    size_t size = strlen(name);
    char *rest;
    long first, last, count = ++counts[place];

    if (!said || strncmp(said, name, size) != 0 || said[size] != ':')
        return -1;
    first = strtol(said + size + 1, &rest, 10);
    last = strtol(rest + 1, &rest, 10);
    return count >= first && count <= last ? (int)strtol(rest + 1, 0, 10) : -1;
}

ssize_t write(int fd, const void *from, size_t size)
{
    int error = failing("write", 0);

    if (error > 0) {
        errno = error;
        return -1;
    }
    return syscall(SYS_write, fd, from, error == 0 && size > 1 ? 1 : size);
}

ssize_t read(int fd, void *to, size_t size)
{
    int error = failing("read", 1);

    if (error > 0) {
        errno = error;
        return -1;
    }
    return syscall(SYS_read, fd, to, error == 0 && size > 1 ? 1 : size);
}

ssize_t recvfrom(int fd, void *to, size_t size, int flags, struct sockaddr *from, socklen_t *length)
{
    int error = failing("recvfrom", 2);

    if (error > 0) {
        errno = error;
        return -1;
    }
    return syscall(SYS_recvfrom, fd, to, size, flags, from, length);
}

ssize_t sendto(int fd, const void *from, size_t size, int flags, const struct sockaddr *to, socklen_t length)
{
    int error = failing("sendto", 3);

    if (error > 0) {
        errno = error;
        return -1;
    }
    return syscall(SYS_sendto, fd, from, size, flags, to, length);
}

int setsockopt(int fd, int level, int name, const void *value, socklen_t length)
{
    const char *said = getenv("PLANET_WAIT");
    const struct timeval *wait = value;
    char line[32];
    int file, size;

    if (said && level == SOL_SOCKET && name == SO_RCVTIMEO && length == sizeof *wait) {
        size = snprintf(line, sizeof line, "%lld\n", wait->tv_sec * 1000000LL + wait->tv_usec);
        file = open(said, O_WRONLY | O_CREAT | O_APPEND, 0600);
        syscall(SYS_write, file, line, size);
        close(file);
    }
    return (int)syscall(SYS_setsockopt, fd, level, name, value, length);
}

int clock_gettime(clockid_t clock, struct timespec *now)
{
    static const char *said;
    static int has_begun;
    char *rest;

    if (!has_begun)
        said = getenv("PLANET_CLOCK");
    has_begun = 1;
    if (clock != CLOCK_REALTIME || !said)
        return (int)syscall(SYS_clock_gettime, clock, now);
    now->tv_sec = strtol(said, &rest, 10);
    now->tv_nsec = 0;
    if (*rest == ',')
        said = rest + 1;
    return 0;
}
