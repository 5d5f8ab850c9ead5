// Refuses allocations of a program, loaded by LD_PRELOAD. Allocations are numbered from 1 on.
//   REFUSE_FROM, REFUSE_TO     those from the one number to the other
//   REFUSE_SEED, REFUSE_ONE_IN one in so many, by a fixed sequence of numbers
//   REFUSE_COUNT               a file to which the number of all allocations is written at the end
#include <errno.h>
#include <fcntl.h>
#include <stdatomic.h>
#include <stddef.h>
#include <stdio.h>
#include <stdlib.h>
#include <sys/syscall.h>
#include <unistd.h>

extern void *__libc_malloc(size_t);
extern void *__libc_calloc(size_t, size_t);
extern void *__libc_realloc(void *, size_t);
extern void *__libc_memalign(size_t, size_t);

static atomic_ulong seen;
static unsigned long from, to, seed, one_in;
static int ready;

static unsigned long number_of(const char *name) {
    const char *text = getenv(name);
    return text ? strtoul(text, NULL, 10) : 0;
}

// Mixes the bits of a number, as splitmix64 does.
static unsigned long mixed(unsigned long x) {
    x = (x ^ (x >> 30)) * 0xbf58476d1ce4e5b9ul;
    x = (x ^ (x >> 27)) * 0x94d049bb133111ebul;
    return x ^ (x >> 31);
}

static int refuses(void) {
    unsigned long number;
    if (!ready) return 0;
    number = atomic_fetch_add(&seen, 1) + 1;
    if (number >= from && number <= to) return 1;
    return one_in && mixed(seed * 0x9e3779b97f4a7c15ul + number) % one_in == 0;
}

__attribute__((constructor)) static void begin(void) {
    from = number_of("REFUSE_FROM");
    to = number_of("REFUSE_TO");
    seed = number_of("REFUSE_SEED");
    one_in = number_of("REFUSE_ONE_IN");
    ready = 1;
}

// Writes how many allocations there were.
static void tell(void) {
    const char *path = getenv("REFUSE_COUNT");
    char text[32];
    int file, size;
    ready = 0;
    if (!path) return;
    file = open(path, O_WRONLY | O_CREAT | O_TRUNC, 0644);
    size = snprintf(text, sizeof text, "%lu\n", (unsigned long)seen);
    if (file >= 0 && write(file, text, size) == size) close(file);
}

__attribute__((destructor)) static void end(void) { tell(); }

// The program may end by this call, after which no destructor runs.
void _exit(int status) {
    tell();
    for (;;) syscall(SYS_exit_group, status);
}

void *malloc(size_t size) {
    if (refuses()) { errno = ENOMEM; return NULL; }
    return __libc_malloc(size);
}
void *calloc(size_t count, size_t size) {
    if (refuses()) { errno = ENOMEM; return NULL; }
    return __libc_calloc(count, size);
}
void *realloc(void *old, size_t size) {
    if (refuses()) { errno = ENOMEM; return NULL; }
    return __libc_realloc(old, size);
}
void *aligned_alloc(size_t align, size_t size) {
    if (refuses()) { errno = ENOMEM; return NULL; }
    return __libc_memalign(align, size);
}
void *memalign(size_t align, size_t size) { return aligned_alloc(align, size); }
int posix_memalign(void **out, size_t align, size_t size) {
    void *it = aligned_alloc(align, size);
    if (!it) return ENOMEM;
    *out = it;
    return 0;
}
