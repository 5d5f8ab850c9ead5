// Makes each write to a write-ahead log wait as long as the file that HOLD names is there. Preloaded by
// clients/hub/test/stored.test.mjs.
#define _GNU_SOURCE
#include <dlfcn.h>
#include <limits.h>
#include <stdio.h>
#include <stdlib.h>
#include <string.h>
#include <unistd.h>

static int is_log(int file) {
    char link[64], path[PATH_MAX];
    snprintf(link, sizeof link, "/proc/self/fd/%d", file);
    ssize_t length = readlink(link, path, sizeof path);
    return length >= 4 && !memcmp(path + length - 4, "-wal", 4);
}

static void wait_if_held(int file) {
    const char *hold = getenv("HOLD");
    while (hold && is_log(file) && !access(hold, F_OK)) usleep(5000);
}

ssize_t pwrite(int file, const void *bytes, size_t length, off_t where) {
    wait_if_held(file);
    return ((__typeof__(&pwrite))dlsym(RTLD_NEXT, "pwrite"))(file, bytes, length, where);
}

ssize_t pwrite64(int file, const void *bytes, size_t length, off64_t where) {
    wait_if_held(file);
    return ((__typeof__(&pwrite64))dlsym(RTLD_NEXT, "pwrite64"))(file, bytes, length, where);
}
