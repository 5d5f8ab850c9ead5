// Makes each fsync and fdatasync take so many seconds more as SLOW_SYNC says, and adds a byte to the file that SYNCS names. Preloaded
// by tests/costs.
#define _GNU_SOURCE
#include <dlfcn.h>
#include <fcntl.h>
#include <stdlib.h>
#include <time.h>
#include <unistd.h>

static void wait_a_while(void) {
    const char *seconds = getenv("SLOW_SYNC");
    double wanted = seconds ? atof(seconds) : 0;
    struct timespec length = {(time_t)wanted, (long)((wanted - (double)(time_t)wanted) * 1e9)};
    nanosleep(&length, NULL);
}

static void count(void) {
    const char *path = getenv("SYNCS");
    int file = path ? open(path, O_WRONLY | O_CREAT | O_APPEND, 0600) : -1;
    if (file < 0) return;
    if (write(file, ".", 1) != 1) abort();
    close(file);
}

int fsync(int file) {
    int (*real)(int) = (int (*)(int))dlsym(RTLD_NEXT, "fsync");
    wait_a_while();
    count();
    return real(file);
}

int fdatasync(int file) {
    int (*real)(int) = (int (*)(int))dlsym(RTLD_NEXT, "fdatasync");
    wait_a_while();
    count();
    return real(file);
}
