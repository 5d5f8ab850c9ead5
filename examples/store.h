/* A replica's file: its operations, one a line, which one program at a time has. To copy, with store.c.

   The file is locked (flock) while it is open, whatever name or link leads there. The system gives the lock back when
   the program ends, also by a kill. Close a store before a fork, or let one process alone go on: both would have the lock. */

#ifndef STORE_H
#define STORE_H

#include <stddef.h>

typedef struct store {
  int file; /* -1: none is open */
  size_t size; /* of the whole lines, in bytes */
} store;

#define STORE_CLOSED {-1, 0}

enum store_answer { STORE_DONE, STORE_BUSY, STORE_FAILED };

/* Opens a file, which is made where there is none. Waits up to so many seconds for another program that has it: then it is
   STORE_BUSY. STORE_FAILED: errno says why. Nothing was changed then. */
enum store_answer store_open(store *store, const char *path, int seconds);

/* The whole lines of the file, ended by 0, or NULL where they can't be read, or are no operations. The caller frees them. A last line without its end
   was cut off by a crash, and never sent: it is cut from the file. */
char *store_read(store *store);

/* Appends so many bytes of whole lines, each with its newline, and returns 1 once they survive a power cut. 0: errno says why, and
   none of them is there. Send an operation only when this has returned 1. */
int store_append(store *store, const char *lines, size_t count);

/* Lets others open it. */
void store_close(store *store);

#endif
