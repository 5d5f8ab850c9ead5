/* A plan that works offline: a replica in this program, its operations in a file, exchanges by files.

     cc -Wall -Wextra -I include examples/trip.c examples/store.c release/libjcrdt.a -o trip
     ./trip ada ada.ops set title Oslo        (assigns a text to a key)
     ./trip ada ada.ops add pack              (inserts a text first in the list `steps`)
     ./trip ada ada.ops take bob.ops          (takes what another one has stored)
     ./trip ada ada.ops                       (shows the document)

   The first word is the replica's name: no other file may have it. A copy of this one, or an older one, goes on
   under a new name by remake.c. One program at a time has the file: another one waits for it, up to 10 seconds. */

#include "jcrdt.h"
#include "store.h"
#include <errno.h>
#include <stdio.h>
#include <stdlib.h>
#include <string.h>

enum { WAIT_SECONDS = 10 };

static char request[65537]; /* with the 0 behind it: longer requests are refused by `put_bytes` */
static size_t length;

static void stop(const char *why, const char *what) {
  fprintf(stderr, "trip: %s: %s\n", why, what);
  exit(1);
}

static void put_bytes(const char *bytes, size_t count) {
  if (count >= sizeof request - length) stop("too long", bytes);
  memcpy(request + length, bytes, count);
  request[length += count] = 0;
}

static void put(const char *text) { put_bytes(text, strlen(text)); }

/* Puts a text as JSON writes it. */
static void put_text(const char *text) {
  put("\"");
  for (; *text; text++) {
    char escaped[8];
    int is_plain = (unsigned char)*text >= 32 && *text != '"' && *text != '\\';
    snprintf(escaped, sizeof escaped, is_plain ? "%c" : "\\u%04x", *text);
    put(escaped);
  }
  put("\"");
}

static void *room_of(void *old, size_t size) {
  void *at = realloc(old, size);
  if (!at) stop("out of memory", request);
  return at;
}

/* The text of the answer to the request, ended by 0. The caller frees it. */
static char *answer(jcrdt *replica) {
  size_t room = 4096;
  char *text = room_of(NULL, room + 1);
  size_t whole = jcrdt_ask(replica, request, length, text, room);
  if (whole == 0) stop("no text of the answer to", request);
  if (whole > room) jcrdt_again(replica, text = room_of(text, whole + 1), whole);
  text[whole] = 0;
  length = 0;
  return text;
}

/* All bytes of a file, ended by 0. One that isn't there has none. The caller frees them. */
static char *text_of(const char *path) {
  FILE *file = fopen(path, "rb");
  size_t count = 0;
  char *text = room_of(NULL, 1);
  while (file && !feof(file) && !ferror(file)) {
    text = room_of(text, count + 4097);
    count += fread(text + count, 1, 4096, file);
  }
  if (file && (ferror(file) || fclose(file))) stop("can't read", path);
  text[count] = 0;
  return text;
}

/* Appends a line with its newline, and returns once it is on disk. */
static void keep(store *file, const char *line) {
  if (!store_append(file, line, strcspn(line, "\n") + 1)) stop("can't write", strerror(errno));
}

/* Makes the change that was asked for. The new operation follows the reply. */
static void change(jcrdt *replica, store *file) {
  char *text = answer(replica), *operation = strchr(text, '\n') + 1;
  if (*operation) keep(file, operation);
  else fputs(text, stdout); /* a refusal */
  free(text);
}

/* Delivers each line of another's file. Stored is what was logged: what was known or is refused wasn't. These come in the order
   of their log, so none waits for another. If one does, it is forgotten, and taken another time. */
static void take(jcrdt *replica, store *file, const char *others) {
  char *lines = text_of(others);
  for (char *line = lines, *end; (end = strchr(line, '\n')); line = end + 1) {
    put("[\"deliver\",");
    put_bytes(line, (size_t)(end - line));
    put("]");
    char *text = answer(replica);
    if (!strncmp(text, "[\"applied\"", 10)) keep(file, line);
    if (!strncmp(text, "[\"no\",14", 8) || !strncmp(text, "[\"no\",15", 8) || !strncmp(text, "[\"no\",16", 8))
      stop("it has other operations of one id, see remake.c; what is behind them isn't taken", others);
    if (!strncmp(text, "[\"no\"", 5)) fputs(text, stdout);
    if (!strncmp(text, "[\"held\"", 7)) {
      put("[\"forget\",");
      put_bytes(line + 6, strcspn(line + 6, "]") + 1); /* its id is behind ["op", */
      put("]");
      free(answer(replica));
    }
    free(text);
  }
  free(lines);
}

/* Opens the file and the replica that is in it. */
static void open_all(jcrdt *replica, store *file, const char *name, const char *path) {
  enum store_answer opened = store_open(file, path, WAIT_SECONDS);
  char *lines, why[99];
  jcrdt_fault fault = {0, 0, 0};
  if (opened == STORE_BUSY) stop("another program has it open", path);
  if (opened != STORE_DONE || !(lines = store_read(file))) stop(strerror(errno), path);
  if (jcrdt_open(replica, name, strlen(name), lines, strlen(lines), &fault)) {
    snprintf(why, sizeof why, "%s is no name, or line %d is refused by %d", name, (int)fault.place + 1, (int)fault.number);
    stop(why, path);
  }
  free(lines);
}

int main(int count, char **words) {
  const char *usage = "trip NAME FILE [set KEY TEXT | add TEXT | take FILE]";
  if (count == 2 && !strcmp(words[1], "--help")) return printf("usage: %s\n", usage) < 0;
  if (count < 3 || words[1][0] == '-' || words[2][0] == '-') stop("usage", usage);
  const char *word = count > 3 ? words[3] : "";
  jcrdt replica = JCRDT_CLOSED;
  store file = STORE_CLOSED;
  open_all(&replica, &file, words[1], words[2]);
  if (!strcmp(word, "set") && count == 6) {
    put("[\"assign\",[0,");
    put_text(words[4]);
    put("],");
    put_text(words[5]);
    put("]");
    change(&replica, &file);
  } else if (!strcmp(word, "add") && count == 5) {
    put("[\"insert\",[0,\"steps\",0],");
    put_text(words[4]);
    put("]");
    change(&replica, &file);
  } else if (!strcmp(word, "take") && count == 5) {
    take(&replica, &file, words[4]);
  } else if (count > 3) {
    stop("usage", usage);
  } else {
    put("[\"show\",[0]]");
    char *text = answer(&replica);
    fputs(text, stdout);
    free(text);
  }
  jcrdt_close(&replica);
  store_close(&file);
  return 0;
}
