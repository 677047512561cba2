// Loads a server of OpenFlow connections on 127.0.0.1, and counts its answers.
//
//   serve_client PORT CONNECTIONS WINDOW SECONDS
//
// Each connection has WINDOW requests under way. A request is one write of 8 bytes, an echo request,
// and an answer is any 8 bytes; each answer is followed by the next request. With WINDOW 0 nothing
// is sent. It prints the answers, how many came a second, and, of single requests under way, the
// median and the 99th percentile of a round trip in microseconds. It exits with status 1 where a
// connection ends or fails.
#define _GNU_SOURCE
#include <arpa/inet.h>
#include <errno.h>
#include <netinet/in.h>
#include <netinet/tcp.h>
#include <stdint.h>
#include <stdio.h>
#include <stdlib.h>
#include <string.h>
#include <sys/epoll.h>
#include <sys/socket.h>
#include <time.h>
#include <unistd.h>

enum { MESSAGE = 8, MOST_CONNECTIONS = 4096, MOST_EVENTS = 256, MOST_TRIPS = 1 << 20 };

static const unsigned char REQUEST[MESSAGE] = {1, 2, 0, 8, 0, 0, 0, 7};

struct connection {
    int socket;
    int rest;    // bytes of an answer that came in part
    double sent; // when the last request was sent
};

static struct connection connections[MOST_CONNECTIONS];
static float trips[MOST_TRIPS];
static size_t trip_count;

static void fail(const char *what) {
    fprintf(stderr, "serve_client: %s: %s\n", what, strerror(errno));
    exit(1);
}

static double now(void) {
    struct timespec t;
    clock_gettime(CLOCK_MONOTONIC, &t);
    return t.tv_sec + t.tv_nsec * 1e-9;
}

static int open_connection(int port) {
    struct sockaddr_in to = {.sin_family = AF_INET, .sin_port = htons(port)};
    to.sin_addr.s_addr = htonl(INADDR_LOOPBACK);
    int s = socket(AF_INET, SOCK_STREAM, 0);
    if (s < 0 || connect(s, (struct sockaddr *)&to, sizeof to) < 0)
        fail("connect");
    int on = 1;
    setsockopt(s, IPPROTO_TCP, TCP_NODELAY, &on, sizeof on);
    return s;
}

static void request(struct connection *c) {
    c->sent = now();
    if (write(c->socket, REQUEST, MESSAGE) != MESSAGE)
        fail("write");
}

// Takes what came, and returns how many answers that completes.
static int take(struct connection *c) {
    char buffer[65536];
    ssize_t n = read(c->socket, buffer, sizeof buffer);
    if (n <= 0)
        fail(n == 0 ? "the server closed" : "read");
    int all = c->rest + (int)n;
    c->rest = all % MESSAGE;
    return all / MESSAGE;
}

static int by_size(const void *a, const void *b) {
    float x = *(const float *)a, y = *(const float *)b;
    return (x > y) - (x < y);
}

static void print_trips(void) {
    if (trip_count == 0)
        return;
    qsort(trips, trip_count, sizeof trips[0], by_size);
    printf("round trip: median %.1f us, 99th percentile %.1f us\n", trips[trip_count / 2],
           trips[trip_count * 99 / 100]);
}

int main(int argc, char **argv) {
    if (argc != 5) {
        fprintf(stderr, "usage: serve_client PORT CONNECTIONS WINDOW SECONDS\n");
        return 2;
    }
    int port = atoi(argv[1]), count = atoi(argv[2]), window = atoi(argv[3]);
    double seconds = atof(argv[4]);
    if (count < 1 || count > MOST_CONNECTIONS)
        return 2;
    int poll = epoll_create1(0);
    for (int i = 0; i < count; i++) {
        connections[i].socket = open_connection(port);
        struct epoll_event e = {.events = EPOLLIN, .data.u32 = i};
        if (epoll_ctl(poll, EPOLL_CTL_ADD, connections[i].socket, &e) < 0)
            fail("epoll_ctl");
    }
    double begin = now(), end = begin + seconds;
    for (int i = 0; i < count; i++)
        for (int w = 0; w < window; w++)
            request(&connections[i]);
    uint64_t answers = 0;
    while (now() < end) {
        struct epoll_event events[MOST_EVENTS];
        int n = epoll_wait(poll, events, MOST_EVENTS, 100);
        for (int i = 0; i < n; i++) {
            struct connection *c = &connections[events[i].data.u32];
            int done = take(c);
            answers += done;
            if (window == 1 && done == 1 && trip_count < MOST_TRIPS)
                trips[trip_count++] = (now() - c->sent) * 1e6;
            for (; done > 0 && window > 0; done--)
                request(c);
        }
    }
    printf("answers: %llu in %.2f s, %.0f a second\n", (unsigned long long)answers, now() - begin,
           answers / (now() - begin));
    print_trips();
    return 0;
}
