/* A client of one thread that keeps connections busy: requests a second of jcrdt or of Redis over loopback.

   usage: requests jcrdt|redis PORT CONNECTIONS UNDER_WAY TOTAL DOCUMENTS

   Each connection has UNDER_WAY requests sent and not yet answered. A request sets one of 1,000 keys: ["assign",..] of one of
   the documents d0, d1 and so on, which the connections take in turn, or SET. It prints requests a second. */
#include <arpa/inet.h>
#include <netinet/in.h>
#include <netinet/tcp.h>
#include <poll.h>
#include <stdio.h>
#include <stdlib.h>
#include <string.h>
#include <sys/socket.h>
#include <time.h>
#include <unistd.h>

enum { ROOM = 1 << 20, KEYS = 1000 };

struct connection {
    int document; /* none for Redis */
    long sent, answered;
};

static char out[ROOM], in[ROOM];

static void stop(const char *why) {
    perror(why);
    exit(1);
}

static double now(void) {
    struct timespec t;
    clock_gettime(CLOCK_MONOTONIC, &t);
    return t.tv_sec + t.tv_nsec / 1e9;
}

static int connected(int port, int document) {
    struct sockaddr_in to = {.sin_family = AF_INET, .sin_port = htons(port), .sin_addr.s_addr = htonl(INADDR_LOOPBACK)};
    int at = socket(AF_INET, SOCK_STREAM, 0), yes = 1;
    if (at < 0 || connect(at, (void *)&to, sizeof to)) stop("connect");
    setsockopt(at, IPPROTO_TCP, TCP_NODELAY, &yes, sizeof yes);
    if (document >= 0) {
        int length = sprintf(out, "[\"open\",\"d%d\"]\n", document);
        if (write(at, out, length) < 0 || read(at, in, ROOM) <= 0) stop("open");
    }
    return at;
}

static int put_request(char *at, int document, long number) {
    int key = rand() % KEYS;
    if (document >= 0) return sprintf(at, "[\"assign\",\"d%d\",[0,\"key%03d\"],%ld]\n", document, key, number);
    return sprintf(at, "*3\r\n$3\r\nSET\r\n$6\r\nkey%03d\r\n$1\r\n1\r\n", key);
}

/* Sends requests until so many are under way. */
static void fill(int at, struct connection *it, int under_way, long each) {
    int length = 0;
    while (it->sent < each && it->sent - it->answered < under_way) length += put_request(out + length, it->document, ++it->sent);
    if (length && write(at, out, length) != length) stop("write");
}

/* Reads what has come, and returns how many replies that were. */
static long answers(int at) {
    long found = 0, length = read(at, in, ROOM);
    if (length <= 0) stop("read");
    for (long i = 0; i < length; i++) found += in[i] == '\n';
    return found;
}

int main(int count, char **words) {
    if (count != 7) return fputs("usage: requests jcrdt|redis PORT CONNECTIONS UNDER_WAY TOTAL DOCUMENTS\n", stderr), 2;
    int is_jcrdt = !strcmp(words[1], "jcrdt"), connections = atoi(words[3]), under_way = atoi(words[4]);
    long each = atol(words[5]) / connections, done = 0;
    struct pollfd *polled = calloc(connections, sizeof *polled);
    struct connection *all = calloc(connections, sizeof *all);
    for (int i = 0; i < connections; i++) {
        all[i].document = is_jcrdt ? i % atoi(words[6]) : -1;
        polled[i] = (struct pollfd){connected(atoi(words[2]), all[i].document), POLLIN, 0};
    }
    double began = now();
    for (int i = 0; i < connections; i++) fill(polled[i].fd, all + i, under_way, each);
    while (done < each * connections) {
        poll(polled, connections, -1);
        for (int i = 0; i < connections; i++) {
            if (!(polled[i].revents & POLLIN)) continue;
            long found = answers(polled[i].fd);
            all[i].answered += found;
            done += found;
            fill(polled[i].fd, all + i, under_way, each);
        }
    }
    printf("%.0f\n", done / (now() - began));
    return 0;
}
