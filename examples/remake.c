/* Goes on under a new name, where two files have one: makes what a copied or an older file alone has again over another log.

     cc -Wall -Wextra -I include examples/remake.c examples/store.c release/libjcrdt.a -o remake
     ./remake ada copy.ops ada-2 ada.ops new.ops

   copy.ops was copied from ada.ops, both were edited under the name ada, and the operations of ada.ops stay. new.ops, which is new,
   gets all of ada.ops and what copy.ops alone has: the operations of others as they are, and those of ada again as ada-2, with what
   they knew. From then on new.ops is used, by the name ada-2, and copy.ops isn't. If there are several copies that have the same
   edits, one alone is made again: they would be doubled. ada.ops is any file that has the other operations of ada, as that of a peer.

   All is done by jcrdt_open and the requests `front`, `deliver` and `forget`: a replica of another name takes what the new file has. */

#include "jcrdt.h"
#include "store.h"
#include <errno.h>
#include <stdio.h>
#include <stdlib.h>
#include <string.h>

enum { WAIT_SECONDS = 10, REPLICAS = 256, NAME = 33 };

/* A text that grows, ended by 0. */
typedef struct text {
  char *at;
  size_t length, room;
} text;

/* The last counter of each replica. */
typedef struct front {
  struct { char name[NAME]; long last; } of[REPLICAS + 1];
  int count;
} front;

/* The parts of an operation's line, ["op",ID,FRONT,CURSOR,MUTATION]. */
typedef struct operation {
  const char *line, *front, *cursor, *mutation, *end;
  char name[NAME];
  long counter;
} operation;

/* Own operations that were made again: their counters then and now. */
typedef struct made {
  long *then, *now;
  size_t count;
} made;

static const char *own, *fresh; /* the name of the old file, and the new one */
static front same; /* of each replica: the last of its operations that is the same in both */
static made again;

static void stop(const char *why, const char *what) {
  fprintf(stderr, "remake: %s: %s\n", why, what);
  exit(1);
}

static void *room_of(void *old, size_t size) {
  void *at = realloc(old, size);
  if (!at) stop("out of memory", own);
  return at;
}

static void put(text *to, const char *bytes, size_t count) {
  if (to->length + count >= to->room) to->at = room_of(to->at, to->room = 2 * (to->length + count) + 64);
  memcpy(to->at + to->length, bytes, count);
  to->at[to->length += count] = 0;
}

static void put_text(text *to, const char *bytes) { put(to, bytes, strlen(bytes)); }

static void put_number(text *to, long number) {
  char digits[24];
  put(to, digits, (size_t)snprintf(digits, sizeof digits, "%ld", number));
}

/* The end of the JSON value that begins here. */
static const char *end_of(const char *at) {
  int depth = 0;
  do {
    if (*at == '"') for (at++; *at != '"'; at++) at += *at == '\\';
    depth += (*at == '[' || *at == '{') - (*at == ']' || *at == '}');
    at++;
  } while (depth > 0 || !strchr(",]}\n", *at));
  return at;
}

/* Copies a text as "ada" without its quotes. The names of replicas have no others. */
static void copy_name(char *name, const char *quoted) {
  size_t count = strcspn(quoted + 1, "\"");
  if (count >= NAME) stop("no name of a replica", quoted);
  memcpy(name, quoted + 1, count);
  name[count] = 0;
}

/* The parts of a line that jcrdt_open has taken, or another one of that form. */
static operation parts(const char *line) {
  operation it = {line, NULL, NULL, NULL, NULL, "", 0};
  const char *id = line + strlen("[\"op\",");
  it.counter = strtol(id + 1, NULL, 10);
  copy_name(it.name, strchr(id, '"'));
  it.front = end_of(id) + 1;
  it.cursor = end_of(it.front) + 1;
  it.mutation = end_of(it.cursor) + 1;
  it.end = end_of(it.mutation) + 1;
  return it;
}

/* The last counter of a replica, to be read or changed: 0 where it has none. */
static long *last_of(front *of, const char *name) {
  int at = 0;
  while (at < of->count && strcmp(of->of[at].name, name)) at++;
  if (at == of->count) {
    if (of->count > REPLICAS) stop("too many replicas", name);
    snprintf(of->of[of->count].name, NAME, "%s", name);
    of->of[of->count++].last = 0;
  }
  return &of->of[at].last;
}

/* Calls `pair` for each [NAME,COUNTER] of a front. */
static void each_pair(const char *at, void (*pair)(front *, const char *, long), front *to) {
  while (*at == '[' || *at == ',') {
    char name[NAME];
    if (*++at != '[') continue;
    copy_name(name, at + 1);
    pair(to, name, strtol(strchr(at, ',') + 1, NULL, 10));
    at = end_of(at);
  }
}

static void note(front *to, const char *name, long counter) { *last_of(to, name) = counter; }

/* What the maker of an operation knew of this replica, as the new log has it. */
static void note_known(front *to, const char *name, long counter) {
  long good = *last_of(&same, name);
  size_t count = again.count;
  if (good > 0) *last_of(to, name) = good < counter ? good : counter;
  if (strcmp(name, own)) return;
  while (count > 0 && again.then[count - 1] > counter) count--;
  if (count > 0) *last_of(to, fresh) = again.now[count - 1];
}

static int by_name(const void *one, const void *other) { return strcmp(one, other); } /* each begins with its name */

/* Writes a cursor with the new ids of elements that were made again. Returns 0 if one of them isn't in the new log. */
static int put_cursor(text *to, const char *at, const char *end) {
  while (at < end) {
    const char *next = *at == '"' ? end_of(at) : at + 1;
    if (*at == '[' && strchr("123456789", at[1])) {
      char name[NAME];
      long counter = strtol(at + 1, NULL, 10);
      size_t it = 0;
      copy_name(name, strchr(at, '"'));
      while (it < again.count && again.then[it] != counter) it++;
      if (counter > *last_of(&same, name)) {
        if (strcmp(name, own) || it == again.count) return 0;
        put_text(to, "[");
        put_number(to, again.now[it]);
        put_text(to, ",\"");
        put_text(to, fresh);
        put_text(to, "\"]");
        at = end_of(at);
        continue;
      }
      next = end_of(at);
    }
    put(to, at, (size_t)(next - at));
    at = next;
  }
  return 1;
}

/* Writes an own operation under the new name, and returns its counter; 0 if its element isn't in the new log. */
static long rename_to(text *to, const operation *old) {
  static front known;
  long counter = 0;
  known.count = 0;
  each_pair(old->front, note_known, &known);
  qsort(known.of, (size_t)known.count, sizeof *known.of, by_name);
  for (int at = 0; at < known.count; at++) if (known.of[at].last > counter) counter = known.of[at].last;
  put_text(to, "[\"op\",[");
  put_number(to, ++counter);
  put_text(to, ",\"");
  put_text(to, fresh);
  put_text(to, "\"],[");
  for (int at = 0; at < known.count; at++) {
    put_text(to, at ? ",[\"" : "[\"");
    put_text(to, known.of[at].name);
    put_text(to, "\",");
    put_number(to, known.of[at].last);
    put_text(to, "]");
  }
  put_text(to, "],");
  if (!put_cursor(to, old->cursor, old->mutation)) return 0;
  put(to, old->mutation, (size_t)(old->end - old->mutation));
  return counter;
}

/* Delivers a line. Returns the first letter of the reply's word: applied, known, no, or held, which is dropped again. */
static char deliver(jcrdt *replica, const char *line, size_t count) {
  static char reply[256];
  text request = {NULL, 0, 0};
  char word;
  put_text(&request, "[\"deliver\",");
  put(&request, line, count);
  put_text(&request, "]");
  if (!jcrdt_ask(replica, request.at, request.length, reply, sizeof reply)) stop("no text of the answer to", request.at);
  word = reply[2];
  if (word == 'h') {
    request.length = 0;
    put_text(&request, "[\"forget\",");
    put(&request, line + strlen("[\"op\","), (size_t)(end_of(line + strlen("[\"op\",")) - line) - strlen("[\"op\","));
    put_text(&request, "]");
    jcrdt_ask(replica, request.at, request.length, reply, sizeof reply);
  }
  free(request.at);
  return word;
}

/* Takes an operation of the old file: into the replica, and into the new lines if they lack it. Returns 0 if it can't be. */
static int take(jcrdt *replica, const operation *old, long theirs, text *lines) {
  static int is_forked;
  size_t count = (size_t)(old->end - old->line), before = lines->length;
  int is_own = !strcmp(old->name, own), is_there = is_own && !is_forked && old->counter <= theirs;
  char word = !is_own || is_there ? deliver(replica, old->line, count) : 'n';
  if (word == 'a') put(lines, old->line, count), put_text(lines, "\n");
  if (word == 'a' || word == 'k') return *last_of(&same, old->name) = old->counter, 1;
  if (!is_own) return 0;
  is_forked = 1;
  long counter = rename_to(lines, old);
  if (!counter || deliver(replica, lines->at + before, lines->length - before) != 'a') {
    lines->at[lines->length = before] = 0;
    return 0;
  }
  put_text(lines, "\n");
  again.then = room_of(again.then, (again.count + 1) * sizeof *again.then);
  again.now = room_of(again.now, (again.count + 1) * sizeof *again.now);
  again.then[again.count] = old->counter;
  again.now[again.count++] = counter;
  return 1;
}

/* The lines of a file, which stays open and locked. */
static char *lines_of(store *file, const char *path) {
  enum store_answer opened = store_open(file, path, WAIT_SECONDS);
  char *lines = opened == STORE_DONE ? store_read(file) : NULL;
  if (opened == STORE_BUSY) stop("another program has it open", path);
  if (!lines) stop(strerror(errno), path);
  return lines;
}

/* Opens a replica over lines, or says which one doesn't fit. */
static void open_replica(jcrdt *replica, const char *name, const char *lines, const char *path) {
  jcrdt_fault fault = {0, 0, 0};
  char why[99];
  if (!jcrdt_open(replica, name, strlen(name), lines, strlen(lines), &fault)) return;
  snprintf(why, sizeof why, "%s is no name, or line %d is refused by %d", name, (int)fault.place + 1, (int)fault.number);
  stop(why, path);
}

int main(int count, char **words) {
  const char *usage = "remake NAME FILE NEW-NAME OTHER-FILE NEW-FILE";
  static char reply[65536];
  store files[3] = {STORE_CLOSED, STORE_CLOSED, STORE_CLOSED};
  jcrdt replica = JCRDT_CLOSED;
  static front theirs;
  text lines = {NULL, 0, 0};
  if (count == 2 && !strcmp(words[1], "--help")) return printf("usage: %s\n", usage) < 0;
  if (count != 6 || words[1][0] == '-') stop("usage", usage);
  own = words[1], fresh = words[3];
  char *mine = lines_of(&files[0], words[2]), *others = lines_of(&files[1], words[4]), *none = lines_of(&files[2], words[5]);
  if (*none) stop("it isn't empty", words[5]);
  open_replica(&replica, own, mine, words[2]);
  jcrdt_close(&replica);
  open_replica(&replica, strcmp(own, "scratch") && strcmp(fresh, "scratch") ? "scratch" : "scratch-2", others, words[4]);
  reply[jcrdt_ask(&replica, "[\"front\"]", 9, reply, sizeof reply - 1)] = 0;
  each_pair(strchr(reply, ',') + 1, note, &theirs);
  if (*last_of(&theirs, fresh)) stop("another one has this name", fresh);
  put_text(&lines, others);
  for (const char *at = mine; *at; at = strchr(at, '\n') + 1) {
    operation old = parts(at);
    if (!take(&replica, &old, *last_of(&theirs, own), &lines)) printf("it can't be made: %.*s\n", (int)(old.end - at), at);
  }
  jcrdt_close(&replica);
  open_replica(&replica, fresh, lines.at, words[5]);
  jcrdt_close(&replica);
  if (!store_append(&files[2], lines.at, lines.length)) stop(strerror(errno), words[5]);
  printf("%zu operations of %s were made again as %s\n", again.count, own, fresh);
  for (int at = 0; at < 3; at++) store_close(&files[at]);
  free(mine), free(others), free(none), free(lines.at), free(again.then), free(again.now);
  return 0;
}
