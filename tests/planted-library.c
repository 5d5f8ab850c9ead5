// A bug of the embedded replica that its contract allows, for tests/planted: jcrdt_ask says that memory lacked for each text of LEAST bytes
// or more. The library's own jcrdt_ask has another name here.
#include "jcrdt.h"

size_t jcrdt_asked(jcrdt *replica, const char *request, size_t request_length, char *out, size_t room);

size_t jcrdt_ask(jcrdt *replica, const char *request, size_t request_length, char *out, size_t room) {
    size_t length = jcrdt_asked(replica, request, request_length, out, room);
    return length >= LEAST ? 0 : length;
}
