/* Loaded before a program, this refuses memory to it: the allocation with the number REFUSE_AT, counted from 1, and with
   REFUSE_ALL=1 each one after it too. At the end it writes how many were asked for to the file REFUSE_COUNT.
   What the loader and the C library take before main isn't counted: counting begins with REFUSE_FROM, the number of
   allocations to let through first. */
#define _GNU_SOURCE
#include <dlfcn.h>
#include <errno.h>
#include <fcntl.h>
#include <stddef.h>
#include <stdlib.h>
#include <string.h>
#include <unistd.h>

static unsigned long asked, refuse_at;
static int refuse_all, ready;
static const char *count_file;

static void *(*real_malloc)(size_t);
static void *(*real_calloc)(size_t, size_t);
static void *(*real_realloc)(void *, size_t);
static void *(*real_aligned_alloc)(size_t, size_t);
static int (*real_posix_memalign)(void **, size_t, size_t);
static char first_bytes[4096];
static size_t first_used;

static void look_up(void) {
    if (ready) return;
    ready = 1;
    real_malloc = dlsym(RTLD_NEXT, "malloc");
    real_calloc = dlsym(RTLD_NEXT, "calloc");
    real_realloc = dlsym(RTLD_NEXT, "realloc");
    real_aligned_alloc = dlsym(RTLD_NEXT, "aligned_alloc");
    real_posix_memalign = dlsym(RTLD_NEXT, "posix_memalign");
    const char *at = getenv("REFUSE_AT");
    refuse_at = at ? strtoul(at, 0, 10) : 0;
    refuse_all = getenv("REFUSE_ALL") != 0;
    count_file = getenv("REFUSE_COUNT");
}

static int refused(void) {
    look_up();
    asked++;
    return refuse_at && (refuse_all ? asked >= refuse_at : asked == refuse_at);
}

static void *none(void) {
    errno = ENOMEM;
    return 0;
}

void *malloc(size_t n) {
    if (refused()) return none();
    return real_malloc(n);
}

void *calloc(size_t n, size_t size) {
    if (!real_calloc) {
        if (ready) { /* asked for by dlsym itself */
            void *p = first_bytes + first_used;
            first_used += (n * size + 15) & ~(size_t)15;
            return first_used <= sizeof first_bytes ? p : 0;
        }
        look_up();
    }
    if (refused()) return none();
    return real_calloc(n, size);
}

void *realloc(void *p, size_t n) {
    if (refused()) return none();
    return real_realloc(p, n);
}

void *aligned_alloc(size_t align, size_t n) {
    if (refused()) return none();
    return real_aligned_alloc(align, n);
}

int posix_memalign(void **p, size_t align, size_t n) {
    if (refused()) return ENOMEM;
    return real_posix_memalign(p, align, n);
}

__attribute__((destructor)) static void tell(void) {
    if (!count_file) return;
    char digits[24];
    int i = 24;
    unsigned long n = asked;
    do digits[--i] = '0' + n % 10; while (n /= 10);
    int fd = open(count_file, O_WRONLY | O_CREAT | O_TRUNC, 0600);
    if (fd >= 0) {
        if (write(fd, digits + i, 24 - i) < 0) {}
        close(fd);
    }
}
