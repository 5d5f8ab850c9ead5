/* A replica's file, locked, and written so that a crash leaves whole lines. store.h says what each call does. Linux alone: flock, fdatasync. */

#define _GNU_SOURCE
#include "store.h"
#include <errno.h>
#include <fcntl.h>
#include <limits.h>
#include <stdlib.h>
#include <string.h>
#include <sys/file.h>
#include <sys/stat.h>
#include <time.h>
#include <unistd.h>

enum { PAUSES_A_SECOND = 50 };

/* The name of a new file is on disk once its folder is. */
static int sync_folder(const char *path) {
  char *whole = realpath(path, NULL), *end = whole ? strrchr(whole, '/') : NULL;
  int folder, is_synced;
  if (!end) return 0;
  end[end == whole] = 0;
  folder = open(whole, O_RDONLY | O_DIRECTORY | O_CLOEXEC);
  is_synced = folder >= 0 && !fsync(folder);
  if (folder >= 0) close(folder);
  free(whole);
  return is_synced;
}

/* Whether the path leads to the file still: another program may have put another one in its place. */
static int is_at(int file, const char *path) {
  struct stat here, there;
  return !fstat(file, &here) && !stat(path, &there) && here.st_dev == there.st_dev && here.st_ino == there.st_ino;
}

enum store_answer store_open(store *store, const char *path, int seconds) {
  struct timespec pause = {0, 1000000000 / PAUSES_A_SECOND};
  long left = (long)seconds * PAUSES_A_SECOND;
  for (;;) {
    int file = open(path, O_RDWR | O_CREAT | O_CLOEXEC, 0666), why;
    if (file < 0) return STORE_FAILED;
    if (!flock(file, LOCK_EX | LOCK_NB)) {
      if (is_at(file, path) && sync_folder(path)) {
        store->file = file;
        store->size = 0;
        return STORE_DONE;
      }
      why = is_at(file, path) ? errno : EWOULDBLOCK;
    } else {
      why = errno;
    }
    close(file);
    errno = why;
    if (why != EWOULDBLOCK) return STORE_FAILED;
    if (left-- <= 0) return STORE_BUSY;
    nanosleep(&pause, NULL);
  }
}

char *store_read(store *store) {
  struct stat now;
  size_t count = 0, whole;
  char *text;
  if (fstat(store->file, &now) || !(text = malloc((size_t)now.st_size + 1))) return NULL;
  while (count < (size_t)now.st_size) {
    ssize_t some = pread(store->file, text + count, (size_t)now.st_size - count, (off_t)count);
    if (some < 0 && errno == EINTR) continue;
    if (some <= 0) break;
    count += (size_t)some;
  }
  for (whole = count; whole > 0 && text[whole - 1] != '\n';) whole--;
  if (count && text[0] != '[') errno = EINVAL, count = (size_t)-1; /* no file of operations: it stays as it is */
  if (count != (size_t)now.st_size || (whole < count && ftruncate(store->file, (off_t)whole))) {
    free(text);
    return NULL;
  }
  text[whole] = 0;
  store->size = whole;
  return text;
}

int store_append(store *store, const char *lines, size_t count) {
  size_t done = 0;
  int why;
  while (done < count) {
    ssize_t some = pwrite(store->file, lines + done, count - done, (off_t)(store->size + done));
    if (some < 0 && errno == EINTR) continue;
    if (some <= 0) break; /* as a full disk, which may have taken a part */
    done += (size_t)some;
  }
  if (done == count && !fdatasync(store->file)) {
    store->size += count;
    return 1;
  }
  why = errno;
  /* What was written of it goes. If that fails as well, its whole lines are there at the next start: they were never sent. */
  if (ftruncate(store->file, (off_t)store->size)) why = errno;
  errno = why;
  return 0;
}

void store_close(store *store) {
  if (store->file >= 0) {
    flock(store->file, LOCK_UN); /* a child that was forked may have it open still */
    close(store->file);
  }
  store->file = -1;
}
