// Lets a program's input and output fail after so many bytes, loaded by LD_PRELOAD: standard input and sockets for reading,
// standard output (where FAIL_STDOUT is set) and sockets for writing. FAIL_READ_AFTER and FAIL_WRITE_AFTER give the bytes that are still moved, and
// MOST_AT_ONCE the most bytes that one read or write moves.
#define _GNU_SOURCE
#include <dlfcn.h>
#include <errno.h>
#include <stdatomic.h>
#include <stdlib.h>
#include <sys/socket.h>
#include <sys/stat.h>
#include <unistd.h>

static atomic_long left_to_read = -1, left_to_write = -1;
static long most = -1;
static int fails_stdout;

__attribute__((constructor)) static void begin(void) {
    const char *text;
    if ((text = getenv("FAIL_READ_AFTER"))) left_to_read = atol(text);
    if ((text = getenv("FAIL_WRITE_AFTER"))) left_to_write = atol(text);
    if ((text = getenv("MOST_AT_ONCE"))) most = atol(text);
    fails_stdout = getenv("FAIL_STDOUT") != NULL;
}

static int is_socket(int fd) {
    struct stat it;
    return fstat(fd, &it) == 0 && S_ISSOCK(it.st_mode);
}

// How many of the bytes may be moved: -1 where the device fails now.
static long allowed(atomic_long *left, size_t size) {
    long room = size;
    if (most >= 0 && room > most) room = most;
    if (*left < 0) return room;
    if (*left == 0) return size == 0 ? 0 : -1;
    return room > *left ? *left : room;
}

static ssize_t moved(atomic_long *left, ssize_t count) {
    if (count > 0 && *left >= 0) *left -= count;
    return count;
}

#define DEVICE(NAME, COUNTS, LEFT, BUFFER, FLAGS, ARGUMENTS)                                 \
    ssize_t NAME(int fd, BUFFER bytes, size_t size FLAGS) {                                  \
        static ssize_t (*real)(int, BUFFER, size_t FLAGS);                                   \
        long room;                                                                           \
        if (!real) real = dlsym(RTLD_NEXT, #NAME);                                           \
        if (!(COUNTS)) return real ARGUMENTS;                                                \
        room = allowed(&LEFT, size);                                                         \
        if (room < 0) { errno = EIO; return -1; }                                            \
        size = room;                                                                         \
        return moved(&LEFT, real ARGUMENTS);                                                 \
    }

#define COMMA ,
DEVICE(read, fd == 0 || is_socket(fd), left_to_read, void *, , (fd, bytes, size))
DEVICE(recv, 1, left_to_read, void *, COMMA int flags, (fd, bytes, size, flags))
DEVICE(write, (fd == 1 && fails_stdout) || is_socket(fd), left_to_write, const void *, , (fd, bytes, size))
DEVICE(send, 1, left_to_write, const void *, COMMA int flags, (fd, bytes, size, flags))
