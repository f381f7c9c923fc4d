/* An allocator in front of the C library's: the allocation of number FAIL_AT, from 1, fails, and all behind it where FAIL_ALL is set.
   Allocations count from the start of the process. COUNT_TO names a file that gets how many there were. */
#define _GNU_SOURCE
#include <dlfcn.h>
#include <errno.h>
#include <fcntl.h>
#include <stdio.h>
#include <stdlib.h>
#include <unistd.h>

static unsigned long count, fail_at;
static int fail_all, ready;
static void *(*real_malloc)(size_t);
static void *(*real_realloc)(void *, size_t);

__attribute__((constructor)) static void start(void) {
    real_malloc = (void *(*)(size_t))dlsym(RTLD_NEXT, "malloc");
    real_realloc = (void *(*)(void *, size_t))dlsym(RTLD_NEXT, "realloc");
    const char *at = getenv("FAIL_AT");
    fail_at = at ? strtoul(at, 0, 10) : 0;
    fail_all = getenv("FAIL_ALL") != 0;
    count = 0;
    ready = 1;
}

__attribute__((destructor)) static void finish(void) {
    const char *file = getenv("COUNT_TO");
    int to = file ? open(file, O_WRONLY | O_CREAT | O_TRUNC, 0600) : -1;
    char text[32];
    ready = 0;
    if (to >= 0) {
        int size = snprintf(text, sizeof text, "%lu\n", count);
        if (write(to, text, size) != size) _exit(99);
        close(to);
    }
}

static int refused(void) {
    if (!ready) return 0;
    ++count;
    if (fail_at && (count == fail_at || (fail_all && count > fail_at))) {
        errno = ENOMEM;
        return 1;
    }
    return 0;
}

void *malloc(size_t size) {
    if (!real_malloc) real_malloc = (void *(*)(size_t))dlsym(RTLD_NEXT, "malloc");
    return refused() ? 0 : real_malloc(size);
}

void *realloc(void *old, size_t size) {
    if (!real_realloc) real_realloc = (void *(*)(void *, size_t))dlsym(RTLD_NEXT, "realloc");
    return refused() ? 0 : real_realloc(old, size);
}
