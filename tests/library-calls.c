/* Calls of the library that go wrong: each allocation of a session refused in turn, handles that own nothing or something already, rooms
   that are too small, lines that don't fit, what memory stays behind a large reading, and what a replica takes that is opened with lines.
   Prints one line, or what went wrong, with status 1. */

#include "jcrdt.h"
#include <malloc.h>
#include <stdio.h>
#include <stdlib.h>
#include <string.h>
#include <sys/wait.h>
#include <unistd.h>

static size_t left; /* so many allocations from now one is refused; 0: none is */

static size_t held; /* how many bytes the library has */

static int refused(void) { return left && --left == 0; }

/* What the library calls, in place of its own three over malloc. */
typedef struct { size_t ok; void *at; } answer;

answer jcrdt_alloc(size_t size, size_t align) {
  void *at = refused() ? NULL : malloc(size ? size : align);
  held += at ? malloc_usable_size(at) : 0;
  return (answer){at != NULL, at ? at : (void *)16};
}

answer jcrdt_realloc(void *old, size_t was, size_t size, size_t align) {
  (void)was;
  size_t before = malloc_usable_size(old);
  void *at = refused() ? NULL : realloc(old, size ? size : align);
  held += at ? malloc_usable_size(at) - before : 0;
  return (answer){at != NULL, at ? at : (void *)16};
}

void jcrdt_dealloc(void *at) {
  held -= malloc_usable_size(at);
  free(at);
}

static const char *requests[] = {
  "[\"assign\",[0,\"l\"],[]]", "[\"insert\",[0,\"l\",0],\"a text that has no room in a scalar by itself\"]",
  "[\"insert\",[0,\"l\",1],{}]", "[\"assign\",[0,\"l\",2,\"a key that has no room in place of its own\"],9]",
  "[\"deliver\",[\"op\",[1,\"bob\"],[],[[[\"m\",0]],\"b\"],[\"add\",5]]]",
  "[\"deliver\",[\"op\",[9,\"eve\"],[[\"eve\",8]],[[[\"m\",0]],\"b\"],[\"add\",5]]]",
  "[\"show\",[0]]", "[\"cursor\",[0,\"l\",1]]", "[\"index\",[0,\"l\",1]]", "[\"items\",[0,\"l\"]]", "[\"conflicts\",[0,\"b\"]]",
  "[\"sum\",[0,\"b\"]]",
  "[\"ops\",[],64]", "[\"front\"]", "[\"held\"]", "[\"forget\",[9,\"eve\"]]", "[\"delete\",[0,\"l\",1]]", "[\"keys\",[0]]",
};
enum { REQUESTS = sizeof requests / sizeof *requests, ROOM = 1 << 16 };
static char due[REQUESTS][ROOM], text[ROOM];

static void stop(const char *why, const char *what) {
  printf("%s: %s\n", why, what);
  exit(1);
}

static size_t ask(jcrdt *replica, const char *request, char *out) {
  size_t length = jcrdt_ask(replica, request, strlen(request), out, ROOM - 1);
  if (length >= ROOM) stop("too long", request);
  out[length] = 0;
  return length;
}

/* The session with the n-th allocation refused. Returns whether one was. A request that is refused for it is asked again, and then it
   must answer what it does with ample memory: nothing was changed. */
static int session(size_t n) {
  jcrdt replica = JCRDT_CLOSED;
  jcrdt_fault fault = {0, 0, 0};
  const char *lines = "[\"op\",[1,\"ada\"],[],[[[\"m\",0]],\"t\"],[\"assign\",\"Plan\"]]\n";
  left = n;
  if (jcrdt_open(&replica, "ada", 3, lines, strlen(lines), &fault) != 0) {
    if (fault.number != 22 || replica.is_open) stop("opened", "neither 0 nor 22");
    if (jcrdt_open(&replica, "ada", 3, lines, strlen(lines), &fault) != 0) stop("opened", "not the second time");
  }
  for (int at = 0; at < REQUESTS; at++) {
    if (!ask(&replica, requests[at], text)) stop("no text", requests[at]);
    if (strcmp(text, "[\"no\",22,\"no-memory\"]\n") == 0) ask(&replica, requests[at], text);
    if (n == 0) strcpy(due[at], text);
    else if (strcmp(text, due[at]) != 0) stop(requests[at], text);
  }
  jcrdt_close(&replica);
  int was_refused = n != 0 && left == 0;
  left = 0;
  return was_refused;
}

static void opens(const char *name, const char *lines, uint64_t number, uint64_t last, uint64_t place) {
  jcrdt replica = JCRDT_CLOSED;
  jcrdt_fault fault = {0, 0, 0};
  uint64_t found = jcrdt_open(&replica, name, strlen(name), lines, strlen(lines), &fault);
  int is_right = found == number && (number == 0 || (fault.number == number && fault.last == last && fault.place == place));
  if (!is_right || replica.is_open != (number == 0)) stop("opened otherwise", lines);
  jcrdt_close(&replica);
}

/* A fork copies the replica: both processes give the next id, each to an operation of its own, until one of them closes its copy. */
static void after_fork(void) {
  static const char *request = "[\"assign\",[0,\"a\"],1]", *made = "[\"applied\",1,0,[1,\"ada\"]]";
  jcrdt replica = JCRDT_CLOSED;
  jcrdt_fault fault;
  int status = 1;
  jcrdt_open(&replica, "ada", 3, "", 0, &fault);
  pid_t child = fork();
  if (child == 0) {
    ask(&replica, request, text);
    jcrdt_close(&replica);
    _exit(strncmp(text, made, strlen(made)) != 0);
  }
  if (waitpid(child, &status, 0) != child || status != 0) stop("a child that was forked", "it doesn't answer by itself");
  ask(&replica, request, text);
  if (strncmp(text, made, strlen(made)) != 0) stop("a child that was forked", "its parent's replica has changed");
  jcrdt_close(&replica);
}

/* What a new replica answers: requests, and the text that is due to each; NULL where any is right. */
static void answers(const char *const asked[][2], size_t count) {
  jcrdt replica = JCRDT_CLOSED;
  jcrdt_fault fault;
  jcrdt_open(&replica, "ada", 3, "", 0, &fault);
  for (size_t at = 0; at < count; at++) {
    if (!ask(&replica, asked[at][0], text) || (asked[at][1] && strcmp(text, asked[at][1]) != 0)) stop(asked[at][0], text);
  }
  jcrdt_close(&replica);
}

/* How many present elements come up to one: of three the second is deleted. Then what has no index. */
static void indices(void) {
  static const char *const asked[][2] = {
    {"[\"assign\",[0,\"l\"],[]]", NULL}, {"[\"insert\",[0,\"l\",0],\"a\"]", NULL},
    {"[\"insert\",[0,\"l\",1],\"b\"]", NULL}, {"[\"insert\",[0,\"l\",2],\"c\"]", NULL}, {"[\"delete\",[0,\"l\",2]]", NULL},
#define AT(key) "[\"index\",[[[[\"m\",0],[\"l\",\"l\"]]," key "]]]"
    {AT("[2,\"ada\"]"), "[\"index\",1]\n"}, {AT("[3,\"ada\"]"), "[\"index\",1]\n"}, {AT("[4,\"ada\"]"), "[\"index\",2]\n"},
    {AT("1"), "[\"index\",0]\n"}, {"[\"index\",[0,\"l\",0]]", "[\"index\",0]\n"}, {"[\"index\",[0,\"l\",2]]", "[\"index\",2]\n"},
    {"[\"index\",[0,\"l\"]]", "[\"no\",11,\"not-in-list\"]\n"}, {"[\"index\",[0]]", "[\"no\",11,\"not-in-list\"]\n"},
    {AT("[9,\"ada\"]"), "[\"no\",7,\"bad-cursor\"]\n"}, {"[\"index\",[0,\"l\",3]]", "[\"no\",9,\"index-past-end\"]\n"},
    {"[\"index\",[\"l\"]]", "[\"no\",2,\"bad-request\"]\n"}, {"[\"index\"]", "[\"no\",2,\"bad-request\"]\n"},
  };
  answers(asked, sizeof asked / sizeof *asked);
}

/* Runs: values one behind the other, elements at one index, and refusals with nothing changed. Behind the reply is the line of each
   operation. */
static void runs(void) {
#define L "[[\"m\",0],[\"l\",\"l\"]]"
#define ITEMS "[\"items\",[0,\"l\"]]"
  static const char *const asked[][2] = {
    {"[\"assign\",[0,\"l\"],[]]", NULL},
    {"[\"inserts\",[0,\"l\",0],[\"a\",\"b\",\"c\"]]",
     "[\"applied\",3,0,[2,\"ada\"]]\n"
     "[\"op\",[2,\"ada\"],[[\"ada\",1]],[" L ",1],[\"insert\",\"a\"]]\n"
     "[\"op\",[3,\"ada\"],[[\"ada\",2]],[" L ",[2,\"ada\"]],[\"insert\",\"b\"]]\n"
     "[\"op\",[4,\"ada\"],[[\"ada\",3]],[" L ",[3,\"ada\"]],[\"insert\",\"c\"]]\n"},
    {ITEMS, "[\"items\",[[[2,\"ada\"],[\"a\"]],[[3,\"ada\"],[\"b\"]],[[4,\"ada\"],[\"c\"]]]]\n"},
    {"[\"inserts\",[0,\"l\",2],[\"d\"]]",
     "[\"applied\",1,0,[5,\"ada\"]]\n[\"op\",[5,\"ada\"],[[\"ada\",4]],[" L ",[3,\"ada\"]],[\"insert\",\"d\"]]\n"},
    {"[\"deletes\",[0,\"l\",2],4]", "[\"no\",9,\"index-past-end\"]\n"},
    {"[\"deletes\",[0,\"l\",2],2]",
     "[\"applied\",2,0,[6,\"ada\"]]\n"
     "[\"op\",[6,\"ada\"],[[\"ada\",5]],[" L ",[3,\"ada\"]],[\"delete\"]]\n"
     "[\"op\",[7,\"ada\"],[[\"ada\",6]],[" L ",[5,\"ada\"]],[\"delete\"]]\n"},
    {ITEMS, "[\"items\",[[[2,\"ada\"],[\"a\"]],[[4,\"ada\"],[\"c\"]]]]\n"},
    {"[\"deletes\",[0,\"l\",1],18446744073709551615]", "[\"no\",18,\"log-full\"]\n"},
    {"[\"deletes\",[0,\"l\",1],99994]", "[\"no\",18,\"log-full\"]\n"},
    {"[\"deletes\",[0,\"l\",1],99993]", "[\"no\",9,\"index-past-end\"]\n"},
    {"[\"deletes\",[0,\"l\",18446744073709551615],2]", "[\"no\",9,\"index-past-end\"]\n"},
    {"[\"deletes\",[0,\"l\",0],1]", "[\"no\",10,\"at-head\"]\n"},
    {"[\"inserts\",[0,\"l\"],[1]]", "[\"no\",11,\"not-in-list\"]\n"},
    {"[\"inserts\",[0,\"l\",3],[1]]", "[\"no\",9,\"index-past-end\"]\n"},
    {"[\"inserts\",[0,\"l\",0],[1,1.5]]", "[\"no\",6,\"bad-value\"]\n"},
    {"[\"inserts\",[0,\"l\",0],[]]", "[\"no\",2,\"bad-request\"]\n"}, {"[\"inserts\",[0,\"l\",0],1]", "[\"no\",2,\"bad-request\"]\n"},
    {"[\"deletes\",[0,\"l\",1],0]", "[\"no\",2,\"bad-request\"]\n"}, {"[\"deletes\",[0,\"l\",1],\"1\"]", "[\"no\",2,\"bad-request\"]\n"},
    {"[\"deletes\",[0,\"l\",1]]", "[\"no\",2,\"bad-request\"]\n"}, {"[\"inserts\",[\"l\"],[1]]", "[\"no\",2,\"bad-request\"]\n"},
    {"[\"front\"]", "[\"front\",[[\"ada\",7]]]\n"},
    {ITEMS, "[\"items\",[[[2,\"ada\"],[\"a\"]],[[4,\"ada\"],[\"c\"]]]]\n"},
  };
  answers(asked, sizeof asked / sizeof *asked);
}

/* A run of three with the n-th allocation refused: the reply says how many were made, and so many are in the list. Returns whether
   one was refused. */
static int run_without_memory(size_t n) {
  static const char *const made[] = {
    "[\"no\",22,\"no-memory\"]\n", "[\"applied\",1,0,[2,\"ada\"]]\n", "[\"applied\",2,0,[2,\"ada\"]]\n", "[\"applied\",3,0,[2,\"ada\"]]\n",
  };
  jcrdt replica = JCRDT_CLOSED;
  jcrdt_fault fault;
  int count = 0, lines = 0;
  jcrdt_open(&replica, "ada", 3, "", 0, &fault);
  ask(&replica, "[\"assign\",[0,\"l\"],[]]", text);
  left = n;
  size_t length = ask(&replica, "[\"inserts\",[0,\"l\",0],[\"a\",\"b\",\"c\"]]", text);
  int was_refused = n > 0 && left == 0;
  left = 0;
  while (length && count < 4 && strncmp(text, made[count], strlen(made[count])) != 0) count++;
  for (const char *at = text; *at; at++) lines += *at == '\n';
  if (length && (count == 4 || lines != count + 1)) stop("a run without memory", text);
  if (!was_refused && count != 3) stop("a run", text);
  ask(&replica, "[\"front\"]", text);
  char front[64];
  sprintf(front, "[\"front\",[[\"ada\",%d]]]\n", count + 1);
  if (length && strcmp(text, front) != 0) stop("a run without memory", text);
  jcrdt_close(&replica);
  return was_refused;
}

/* The text of a large reading is given again, and goes at the next request. */
static void large_reading(void) {
  enum { TEXTS = 100, LONG = 4000 };
  static char request[LONG + 64], whole[TEXTS * (LONG + 64)];
  jcrdt replica = JCRDT_CLOSED;
  jcrdt_fault fault;
  jcrdt_open(&replica, "ada", 3, "", 0, &fault);
  for (int n = 0; n < TEXTS; n++) {
    int begun = sprintf(request, "[\"assign\",[0,\"%d\"],\"", n);
    memset(request + begun, 'x', LONG);
    strcpy(request + begun + LONG, "\"]");
    if (ask(&replica, request, text) == 0) stop("no answer", "an assignment");
  }
  ask(&replica, "[\"front\"]", text);
  size_t before = held, length = jcrdt_ask(&replica, "[\"show\",[0]]", 12, whole, 3);
  if (length < TEXTS * LONG || held < before + TEXTS * LONG - ROOM) stop("a large reading", "it isn't there");
  if (jcrdt_again(&replica, whole, sizeof whole) != length || jcrdt_again(&replica, whole, sizeof whole) != length || whole[length - 1] != '\n')
    stop("a large reading", "it isn't given again");
  ask(&replica, "[\"front\"]", text);
  if (held > before) stop("a large reading", "its text stays");
  jcrdt_close(&replica);
}

/* A replica that is opened with the lines of a typed text takes hardly more memory than that in which it was typed. */
static void opened_text(void) {
  enum { TYPED = 3000, LONGEST = 128 };
  static char lines[TYPED * LONGEST], request[64];
  jcrdt typed = JCRDT_CLOSED, opened = JCRDT_CLOSED;
  jcrdt_fault fault;
  size_t length = 0, before = held;
  jcrdt_open(&typed, "ada", 3, "", 0, &fault);
  for (int n = 0; n < TYPED; n++) {
    if (n == 0) strcpy(request, "[\"assign\",[0,\"l\"],[]]");
    else sprintf(request, "[\"insert\",[0,\"l\",%d],\"x\"]", n - 1);
    const char *line = ask(&typed, request, text) ? strchr(text, '\n') : NULL;
    if (!line || strlen(line + 1) >= LONGEST) stop("typing", text);
    length += (size_t)sprintf(lines + length, "%s", line + 1);
  }
  size_t by_typing = held - before;
  if (jcrdt_open(&opened, "ada", 3, lines, length, &fault) != 0) stop("a typed text", "isn't opened");
  size_t by_opening = held - before - by_typing;
  jcrdt_close(&opened);
  jcrdt_close(&typed);
  if (held != before) stop("a typed text", "its memory isn't given back");
  if (by_opening > by_typing + by_typing / 8) stop("a typed text", "opened it takes an eighth more memory");
}

int main(void) {
  size_t n = 0;
  while (session(n) || n == 0) n++;

  /* names, and the first line that doesn't fit */
  opens("Ada", "", 2, 0, 0);
  opens("", "", 2, 0, 0);
#define OP(id, front, what) "[\"op\"," id "," front ",[[[\"m\",0]],\"a\"]," what "]\n"
#define FIRST OP("[1,\"p\"]", "[]", "[\"delete\"]")
  opens("ada", FIRST "[\"op\"", 1, 0, 1);
  opens("ada", FIRST "\n", 1, 0, 1);
  opens("ada", FIRST "[]\n", 12, 0, 1);
  opens("ada", FIRST FIRST, 15, 0, 1);
  opens("ada", OP("[2,\"p\"]", "[[\"p\",1]]", "[\"delete\"]") FIRST, 13, 0, 0);
  opens("ada", FIRST OP("[2,\"p\"]", "[[\"p\",1]]", "[\"delete\"]") OP("[2,\"p\"]", "[[\"p\",1]]", "[\"add\",1]"), 15, 0, 2);
  opens("ada", FIRST OP("[2,\"p\"]", "[[\"p\",1]]", "[\"delete\"]") OP("[1,\"q\"]", "[]", "[\"delete\"]") "[\"op\",[2,\"q\"],[[\"p\",1]],[[],0],[\"delete\"]]", 14, 1, 3);
  opens("ada", FIRST OP("[2,\"p\"]", "[[\"p\",1]]", "[\"delete\"]"), 0, 0, 0);

  /* a handle that owns none, one that owns one, and rooms that are too small */
  jcrdt none = JCRDT_CLOSED, replica = JCRDT_CLOSED;
  jcrdt_fault fault = {7, 7, 7};
  jcrdt_close(&none);
  if (jcrdt_ask(&none, "[\"front\"]", 9, text, ROOM) != 0 || jcrdt_again(&none, text, ROOM) != 0) stop("a closed handle", "answers");
  jcrdt_open(&replica, "ada", 3, "", 0, &fault);
  if (jcrdt_open(&replica, "ada", 3, "", 0, &fault) != 2 || fault.number != 7 || !replica.is_open) stop("a second open", "isn't 2");
  size_t whole = jcrdt_ask(&replica, "[\"assign\",[0,\"a\"],1]", 20, text, 3);
  if (whole != 75 || memcmp(text, "[\"a", 3) != 0) stop("a small room", text);
  if (jcrdt_again(&replica, text, ROOM) != whole || memcmp(text + whole - 2, "]\n", 2) != 0) stop("again", text);
  jcrdt_close(&replica);
  jcrdt_close(&replica);
  after_fork();
  indices();
  runs();
  for (size_t at = 1; run_without_memory(at);) at++;
  large_reading();
  opened_text();
  printf("the library answers alike with each of %zu allocations refused, and misuse as its header says\n", n - 1);
  return 0;
}
