/* The Nth call of pwrite or fdatasync fails, once: FAULT=CALL:N:ERRNO. Only calls behind the start count that changes files. */
#define _GNU_SOURCE
#include <dlfcn.h>
#include <errno.h>
#include <stdatomic.h>
#include <stdlib.h>
#include <string.h>
#include <sys/types.h>

static char call[32];
static long at;
static int error;
static atomic_long calls;

__attribute__((constructor)) static void begin(void) {
  const char *fault = getenv("FAULT");
  char text[64] = "";
  char *word;
  if (!fault || strlen(fault) >= sizeof text) return;
  strcpy(text, fault);
  if ((word = strtok(text, ":")) && strlen(word) < sizeof call) strcpy(call, word);
  if ((word = strtok(NULL, ":"))) at = atol(word);
  if ((word = strtok(NULL, ":"))) error = atoi(word);
}

static int fails(const char *name) {
  return !strcmp(name, call) && atomic_fetch_add(&calls, 1) + 1 == at;
}

ssize_t pwrite64(int file, const void *bytes, size_t length, off_t where) {
  static ssize_t (*real)(int, const void *, size_t, off_t);
  if (!real) real = dlsym(RTLD_NEXT, "pwrite64");
  if (fails("pwrite")) { errno = error; return -1; }
  return real(file, bytes, length, where);
}

ssize_t pwrite(int file, const void *bytes, size_t length, off_t where) {
  return pwrite64(file, bytes, length, where);
}

int fdatasync(int file) {
  static int (*real)(int);
  if (!real) real = dlsym(RTLD_NEXT, "fdatasync");
  if (fails("fdatasync")) { errno = error; return -1; }
  return real(file);
}
