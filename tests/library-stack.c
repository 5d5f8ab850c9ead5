/* How much stack a call takes, by painting one: of ordinary requests, and of lines that a peer has nested as deep as is read.
   usage: library-stack KB     (what the header says that a caller leaves below a call: no call may take more) */

#include "jcrdt.h"
#include <pthread.h>
#include <stdio.h>
#include <stdlib.h>
#include <string.h>
#include <sys/mman.h>

enum { STACK = 1 << 20, PAINT = 0x5a, DEPTH = 126, KB = 1024 };

static char text[65536];

typedef struct { const char *request, *at; } call;

static void stop(const char *why, const char *what) {
  printf("%s: %s\n", why, what);
  exit(1);
}

static void ask(jcrdt *replica, const char *request) {
  text[jcrdt_ask(replica, request, strlen(request), text, sizeof text - 1)] = 0;
}

static void *made(void *of) {
  call *it = of;
  jcrdt replica = JCRDT_CLOSED;
  jcrdt_fault fault;
  if (jcrdt_open(&replica, "ada", 3, "", 0, &fault)) stop("isn't opened", it->request);
  it->at = __builtin_frame_address(0);
  ask(&replica, "[\"assign\",[0,\"l\"],[]]");
  ask(&replica, it->request);
  jcrdt_close(&replica);
  return NULL;
}

/* How many bytes below its caller the calls of a thread have written, with a document of one list in it. */
static size_t stack_of(const char *request) {
  char *stack = mmap(NULL, STACK, PROT_READ | PROT_WRITE, MAP_PRIVATE | MAP_ANONYMOUS, -1, 0), *lowest = stack;
  call it = {request, NULL};
  pthread_attr_t how;
  pthread_t thread;
  if (stack == MAP_FAILED) stop("no memory", request);
  memset(stack, PAINT, STACK);
  pthread_attr_init(&how);
  if (pthread_attr_setstack(&how, stack, STACK) || pthread_create(&thread, &how, made, &it) || pthread_join(thread, NULL)) stop("no thread", request);
  while (*lowest == PAINT) lowest++;
  size_t most = (size_t)(it.at - lowest);
  munmap(stack, STACK);
  return most;
}

/* The stack of a line that delivers something nested, which must be refused. */
static size_t stack_of_nested(const char *open, const char *close) {
  char line[4096] = "[\"deliver\",";
  for (int at = 0; at < DEPTH; at++) strcat(line, open);
  strcat(line, "1");
  for (int at = 0; at < DEPTH; at++) strcat(line, close);
  size_t most = stack_of(strcat(line, "]"));
  if (strncmp(text, "[\"no\",12,", 9)) stop("what is nested", text);
  return most;
}

int main(int count, char **words) {
  static const char *requests[] = {"[\"insert\",[0,\"l\",0],\"a\"]", "[\"inserts\",[0,\"l\",0],[1,2,3,{}]]", "[\"show\",[0]]", "[\"chains\",[]]",
    "[\"deliver\",[\"op\",[1,\"bob\"],[],[[[\"m\",0],[\"m\",\"a\"],[\"m\",\"b\"]],\"c\"],[\"add\",5]]]", "[\"ops\",[],64]"};
  size_t room = count == 2 ? strtoul(words[1], NULL, 10) * KB : 0, most = 0, some;
  for (size_t at = 0; at < sizeof requests / sizeof *requests; at++) if ((some = stack_of(requests[at])) > most) most = some;
  size_t lists = stack_of_nested("[", "]"), maps = stack_of_nested("{\"a\":", "}"), all = lists > maps ? lists : maps;
  printf("an ordinary request takes up to %zu kB of stack, a line with arrays %zu, with objects %zu\n", most / KB, lists / KB, maps / KB);
  if (all < most) all = most;
  if (all > room) stop("a call takes more stack than the header says that a caller leaves", words[count - 1]);
  return 0;
}
