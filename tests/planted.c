// Bugs at the system calls of the program and in its memory, for tests/planted: the variable PLANT names one of them.
#define _GNU_SOURCE
#include <dlfcn.h>
#include <errno.h>
#include <linux/futex.h>
#include <netinet/in.h>
#include <netinet/tcp.h>
#include <stdarg.h>
#include <stddef.h>
#include <stdlib.h>
#include <string.h>
#include <sys/ioctl.h>
#include <sys/socket.h>
#include <sys/stat.h>
#include <sys/syscall.h>
#include <sys/time.h>
#include <time.h>
#include <unistd.h>

#define REAL(name) ((__typeof__(&name))dlsym(RTLD_NEXT, #name))

static int planted(const char *name) {
    const char *it = getenv("PLANT");
    return it && !strcmp(it, name);
}

int setsockopt(int fd, int level, int name, const void *value, socklen_t len) {
    if (level == IPPROTO_TCP && name == TCP_NODELAY && planted("small writes wait")) return 0;
    if (level == IPPROTO_TCP && name == TCP_NODELAY && planted("idle clients are dropped")) {
        struct timeval most = {90, 0};
        REAL(setsockopt)(fd, SOL_SOCKET, SO_RCVTIMEO, &most, sizeof most);
    }
    if (level == IPPROTO_TCP && name == TCP_KEEPIDLE && planted("keep-alive after two hours")) {
        int seconds = 7200;
        return REAL(setsockopt)(fd, level, name, &seconds, sizeof seconds);
    }
    return REAL(setsockopt)(fd, level, name, value, len);
}

ssize_t recv(int fd, void *buffer, size_t len, int flags) {
    if (planted("reads byte by byte") && len > 1) len = 1;
    if (planted("reads 64 bytes at once") && len > 64) len = 64;
    return REAL(recv)(fd, buffer, len, flags);
}

ssize_t send(int fd, const void *buffer, size_t len, int flags) {
    const char *end = planted("sends each reply") ? memchr(buffer, '\n', len) : NULL;
    return REAL(send)(fd, buffer, end ? (size_t)(end - (const char *)buffer) + 1 : len, flags);
}

int close(int fd) {
    struct stat found;
    if (planted("sockets are never closed") && !fstat(fd, &found) && S_ISSOCK(found.st_mode)) return 0;
    return REAL(close)(fd);
}

int bind(int fd, const struct sockaddr *address, socklen_t len) {
    if (address->sa_family == AF_INET && planted("listens at every address")) {
        struct sockaddr_in every = *(const struct sockaddr_in *)address;
        every.sin_addr.s_addr = 0;
        return REAL(bind)(fd, (const struct sockaddr *)&every, len);
    }
    return REAL(bind)(fd, address, len);
}

int ioctl(int fd, unsigned long request, ...) {
    va_list rest;
    va_start(rest, request);
    void *argument = va_arg(rest, void *);
    va_end(rest);
    if (request == FIONBIO && planted("waits for the client's end")) return 0;
    return REAL(ioctl)(fd, request, argument);
}

// glibc's own, since dlsym may allocate.
extern void *__libc_malloc(size_t);
extern void *__libc_realloc(void *, size_t);
extern void __libc_free(void *);

// What is asked of the C library where so many bytes are wanted; 0 is out of memory.
static size_t asked_for(size_t size) {
    if (size == 256 && planted("16 megabytes for short replies")) return 1 << 24;
    if (size == 16384 && planted("a gibibyte for replies")) return 1 << 30;
    if (size > 1 << 20 && planted("a mebibyte is out of memory")) return 0;
    return size;
}

void *malloc(size_t size) {
    size_t asked = asked_for(size);
    return asked || !size ? __libc_malloc(asked) : NULL;
}

void *realloc(void *block, size_t size) {
    size_t asked = asked_for(size);
    return asked || !size ? __libc_realloc(block, asked) : NULL;
}

void free(void *block) {
    static __thread unsigned calls;
    if (++calls % 8 == 0 && planted("memory is leaked")) return;
    __libc_free(block);
}

// How many seconds a thread sleeps that asked for so many.
static double sleeps(double asked) {
    if (asked <= 0.0051 && planted("pauses for five seconds")) return 5;
    if (asked > 50 && planted("polls while idle")) return 0.005;
    return asked;
}

long syscall(long number, ...) {
    va_list rest;
    va_start(rest, number);
    long a[6];
    for (int it = 0; it < 6; it++) a[it] = va_arg(rest, long);
    va_end(rest);
    int call = (int)a[1] & FUTEX_CMD_MASK;
    if (number == SYS_futex && (call == FUTEX_WAIT || call == FUTEX_WAIT_BITSET) && a[3]) {
        struct timespec now = {0, 0}, until = *(const struct timespec *)a[3];
        if (call == FUTEX_WAIT_BITSET) clock_gettime(CLOCK_MONOTONIC, &now);
        double asked = (double)(until.tv_sec - now.tv_sec) + (double)(until.tv_nsec - now.tv_nsec) / 1e9;
        if (asked <= 0.0051 && planted("never pauses")) {
            errno = ETIMEDOUT;
            return -1;
        }
        double due = sleeps(asked) - asked + (double)until.tv_sec + (double)until.tv_nsec / 1e9;
        struct timespec other = {(time_t)due, (long)((due - (double)(time_t)due) * 1e9)};
        if (sleeps(asked) != asked) return REAL(syscall)(number, a[0], a[1], a[2], (long)&other, a[4], a[5]);
    }
    return REAL(syscall)(number, a[0], a[1], a[2], a[3], a[4], a[5]);
}
