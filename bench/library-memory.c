/* What an operation of a typed text takes of a program's memory in the library.

   usage: library-memory typed|opened COUNT

   It types COUNT characters at the end of a list, or does so in a child and opens the lines of that, and prints by how many bytes an
   operation the resident memory has grown. */
#include "jcrdt.h"
#include <stdio.h>
#include <stdlib.h>
#include <string.h>
#include <sys/mman.h>
#include <sys/wait.h>
#include <unistd.h>

enum { LONGEST = 128 };

static char text[1 << 16], request[64];

static void stop(const char *why) {
    fprintf(stderr, "library-memory: %s\n", why);
    exit(1);
}

static long resident(void) {
    long pages = 0;
    FILE *file = fopen("/proc/self/statm", "r");
    if (!file || fscanf(file, "%*d %ld", &pages) != 1) stop("/proc/self/statm can't be read");
    fclose(file);
    return pages * sysconf(_SC_PAGESIZE);
}

/* Types so many characters, and puts the operations' lines behind `lines`, if that is any place. Returns their length. */
static size_t typed(jcrdt *replica, int count, char *lines) {
    size_t length = 0;
    for (int n = 0; n <= count; n++) {
        if (n == 0) strcpy(request, "[\"assign\",[0,\"l\"],[]]");
        else sprintf(request, "[\"insert\",[0,\"l\",%d],\"x\"]", n - 1);
        size_t whole = jcrdt_ask(replica, request, strlen(request), text, sizeof text - 1);
        text[whole] = 0;
        const char *line = strchr(text, '\n');
        if (!line || strlen(line + 1) >= LONGEST) stop(text);
        if (lines) length += (size_t)sprintf(lines + length, "%s", line + 1);
    }
    return length;
}

int main(int count, char **words) {
    jcrdt replica = JCRDT_CLOSED;
    jcrdt_fault fault;
    int characters = count == 3 ? atoi(words[2]) : 0;
    if (characters < 1 || (strcmp(words[1], "typed") && strcmp(words[1], "opened"))) stop("usage: library-memory typed|opened COUNT");
    size_t room = (size_t)(characters + 1) * LONGEST;
    char *lines = mmap(NULL, room + sizeof(size_t), PROT_READ | PROT_WRITE, MAP_SHARED | MAP_ANONYMOUS, -1, 0);
    if (lines == MAP_FAILED) stop("no memory");
    int opens = !strcmp(words[1], "opened");
    if (opens && fork() == 0) {
        jcrdt_open(&replica, "ada", 3, "", 0, &fault);
        *(size_t *)lines = typed(&replica, characters, lines + sizeof(size_t));
        _exit(0);
    }
    if (opens) {
        wait(NULL);
        for (size_t at = 0; at < room; at += 4096) request[0] = lines[at]; /* so that they count before */
    }
    long before = resident();
    if (jcrdt_open(&replica, "ada", 3, lines + sizeof(size_t), opens ? *(size_t *)lines : 0, &fault) != 0) stop("it isn't opened");
    if (!opens) typed(&replica, characters, NULL);
    printf("%s: %.0f bytes an operation\n", words[1], (double)(resident() - before) / (characters + 1));
    return 0;
}
