/* Loaded before a program, this makes its calls of read and write fail, or do less than was asked. Each of the words below
   is a variable of the environment with a number; calls are counted from 1, those of read and write apart, and writes apart
   by descriptor.

   READ_FAILS_AT, WRITE1_FAILS_AT, WRITE2_FAILS_AT   this call, and each one behind it, fails with EIO
   READ_ONCE_AT, WRITE1_ONCE_AT                      this call alone fails with EIO
   READ_STOPS_AT, WRITE1_STOPS_AT                    this call alone is interrupted (EINTR)
   STOPS                                             each other call of read and write is interrupted
   MOST                                              no call reads or writes more bytes than this */
#define _GNU_SOURCE
#include <errno.h>
#include <stdlib.h>
#include <sys/syscall.h>
#include <unistd.h>

static unsigned long number(const char *name) {
    const char *word = getenv(name);
    return word ? strtoul(word, 0, 10) : 0;
}

static unsigned long calls[3], all;

static int spoiled(int which, const char *fails, const char *once, const char *stops) {
    unsigned long call = ++calls[which], at;
    if (number("STOPS") && ++all % 2) {
        errno = EINTR;
        return 1;
    }
    if (((at = number(fails)) && call >= at) || ((at = number(once)) && call == at)) {
        errno = EIO;
        return 1;
    }
    if ((at = number(stops)) && call == at) {
        errno = EINTR;
        return 1;
    }
    return 0;
}

static size_t fewer(size_t n) {
    unsigned long most = number("MOST");
    return most && most < n ? most : n;
}

ssize_t read(int fd, void *bytes, size_t n) {
    if (fd > 2 && spoiled(0, "READ_FAILS_AT", "READ_ONCE_AT", "READ_STOPS_AT")) return -1;
    return syscall(SYS_read, fd, bytes, fewer(n));
}

ssize_t write(int fd, const void *bytes, size_t n) {
    if (fd == 1 && spoiled(1, "WRITE1_FAILS_AT", "WRITE1_ONCE_AT", "WRITE1_STOPS_AT")) return -1;
    if (fd == 2 && spoiled(2, "WRITE2_FAILS_AT", "WRITE2_ONCE_AT", "WRITE2_STOPS_AT")) return -1;
    return syscall(SYS_write, fd, bytes, fewer(n));
}
