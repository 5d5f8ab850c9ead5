/* jcrdt: a replica of a shared JSON document inside a program, without a server.

   Link libjcrdt.a, or libjcrdt.so. There is no thread, no file and no lock in it: the program keeps
   the operations' lines, and sends them. docs/FORMATS.md has the forms of requests, replies and
   operations; here they come without the document's name. An example:

     #include "jcrdt.h"
     #include <stdio.h>
     #include <string.h>

     static char text[65536];

     // Asks, and shows the text of the answer. A longer one comes whole with a larger array.
     static void ask(jcrdt *replica, const char *request) {
       size_t length = jcrdt_ask(replica, request, strlen(request), text, sizeof text);
       fwrite(text, 1, length < sizeof text ? length : sizeof text, stdout);
     }

     int main(void) {
       // The lines that an earlier run stored, in their order. "" for a new replica.
       const char *stored = "[\"op\",[1,\"ada\"],[],[[[\"m\",0]],\"title\"],[\"assign\",\"Plan\"]]\n";
       jcrdt replica = JCRDT_CLOSED;
       jcrdt_fault fault;
       if (jcrdt_open(&replica, "ada", 3, stored, strlen(stored), &fault) != 0) {
         fprintf(stderr, "line %d is refused: %d\n", (int)fault.place, (int)fault.number);
         return 1;
       }
       ask(&replica, "[\"assign\",[0,\"steps\"],[]]"); // two lines: the reply, and the new operation
       ask(&replica, "[\"insert\",[0,\"steps\",0],\"pack\"]"); // store and send each operation
       ask(&replica, "[\"deliver\",[\"op\",[1,\"bob\"],[],[[[\"m\",0]],\"title\"],[\"assign\",\"Trip\"]]]");
       ask(&replica, "[\"show\",[0]]");
       jcrdt_close(&replica);
       return 0;
     }

   What to store is the log: in its order, each operation's line once, on disk before it is sent. It
   grows by these lines:

     the reply                      what was logged
     ["applied",1,..] to a change   the second line of the answer
     ["applied",1,..] to a deliver  the operation that was delivered
     ["applied",N,..], N above 1    besides, N - 1 operations that were held: ["ops",FRONT,64] has them,
                                    with the front from before
     any other                      nothing

   Behind N is how many held operations were dropped: they don't fit, or memory lacked. They aren't
   logged.

   An operation is held if it comes before one that its maker had seen. Who delivers another log in
   its order has none held. examples/trip.c is a program with files that does all this, and
   examples/store.c a file with a lock, to copy: two programs that append to one file would give an
   id out twice. No copy of a file is used, and no older one: its replica's ids are taken. It goes
   on under a new name, as in examples/remake.c.

   A fork copies the replica. Both processes would give the next id, each to an operation of its
   own. So one of them goes on with it; the other only closes it, and opens one of another name.

   A request is JSON: within a text a quote is \" and a backslash \\, and no character below 32 stands
   in it as it is.

   What a caller owes: a handle is a jcrdt that only these functions change, and it isn't copied
   while it is open. One thread at a time uses a handle. No pointer is NULL, not even to no bytes.
   The arrays of a call don't overlap. Lengths are in bytes. Nothing here is called from a signal
   handler. malloc, realloc and free are of one allocator. A call leaves 128 kB of stack below it:
   an ordinary request takes some 23 kB, and a line of a peer may have objects within objects. */

#ifndef JCRDT_H
#define JCRDT_H

#include <stdbool.h>
#include <stddef.h>
#include <stdint.h>

#ifdef __cplusplus
extern "C" {
#endif

/* The version of this header, MAJOR.MINOR.PATCH. Within one MAJOR no call, form or number changes its
   meaning, and the shared library's name keeps its number: libjcrdt.so.1. */
#define JCRDT_VERSION "1.4.3"

/* The version of the library: a text that is there as long as the program. It differs from JCRDT_VERSION
   where the program was compiled for another one. */
const char *jcrdt_version(void);

/* A handle: it owns one open replica, or none. JCRDT_CLOSED owns none. */
typedef struct jcrdt {
  void *at;
  bool is_open;
} jcrdt;

#define JCRDT_CLOSED {NULL, false}

/* Why no replica was opened. */
typedef struct jcrdt_fault {
  uint64_t number; /* the refusal's number in docs/FORMATS.md */
  uint64_t last;   /* of 14, forked: the last counter of the operation's replica; else 0 */
  uint64_t place;  /* the line that is refused, from 0; 0 for 22, no-memory */
} jcrdt_fault;

/* Opens a replica in a handle that owns none, and returns 0. Its log is what the lines of
   `operations` write, one operation a line, in the order in which they were logged; a newline ends
   each. 0 bytes make a new replica. The name has 1 to 32 of a-z, 0-9 and -, and no other replica of
   the document ever has it.

   Otherwise it returns the number of the refusal, and the handle still owns none. It is that of the
   first line that doesn't fit those before it; 2, bad-request, for what is no name; 22, no-memory.
   A handle that owns a replica keeps it, and the answer is 2. Then, and where it opens one, `fault`
   is as it was. The name and the lines are copied. */
uint64_t jcrdt_open(jcrdt *replica, const char *name, size_t name_length, const char *operations,
                    size_t operations_length, jcrdt_fault *fault);

/* Answers one request, without its newline, and returns how many bytes the text of the answer has.
   The text is the reply's line, as a server writes it. After an assign, insert, delete or add that
   was applied, a second line follows: the new operation, to be stored and sent. As much of the text
   as `room` holds is put into `out`; jcrdt_again gives all of it.

   A refusal, such as ["no",9,"index-past-end"], changes nothing. The requests are assign, insert,
   delete, add, keys, values, items, conflicts, show, sum, ops, chains, front, held, deliver, forget,
   and ["cursor",PLACE], which replies ["cursor",[PATH,KEY]]. A place may start with such a cursor in
   place of 0, as in [[PATH,KEY],2]: so a caret stays at its element. ["index",PLACE] replies
   ["index",N]: how many present elements come up to that one. So a present element's index is N.
   ["inserts",PLACE,[VALUE,..]] and ["deletes",PLACE,COUNT] make many changes, and reply as one does,
   with the line of each operation behind the reply. Where memory lacks on the way fewer are made:
   the lines say which.

   0 means: the handle owns no replica; or memory lacked for the text, though room for it was made
   beforehand. The request was answered then all the same. */
size_t jcrdt_ask(jcrdt *replica, const char *request, size_t request_length, char *out, size_t room);

/* Gives the text of the last answer once more, as jcrdt_ask did. 0 if there is none. */
size_t jcrdt_again(jcrdt *replica, char *out, size_t room);

/* Frees the replica, if the handle owns one. The handle can be opened again. */
void jcrdt_close(jcrdt *replica);

#ifdef __cplusplus
}
#endif

#endif
