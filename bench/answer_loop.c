// A controller of OpenFlow 1.0 switches that only answers: how fast one could be at most.
//
//   answer_loop PORT
//
// It listens on PORT of 127.0.0.1, does what a connection begins with (HELLO, FEATURES_REQUEST), answers an
// ECHO_REQUEST, and answers each PACKET_IN by a PACKET_OUT that floods its frame, without a look at it: one
// write an answer. It waits by epoll, one read an event, and goes on until it is stopped.
#define _GNU_SOURCE
#include <arpa/inet.h>
#include <errno.h>
#include <netinet/in.h>
#include <netinet/tcp.h>
#include <stdint.h>
#include <stdio.h>
#include <stdlib.h>
#include <string.h>
#include <sys/epoll.h>
#include <sys/socket.h>
#include <unistd.h>

enum { MOST_LINKS = 1024, MOST_EVENTS = 256, ROOM = 1 << 17 };

// Of an OpenFlow message.
enum { HEADER = 8, HELLO = 0, ECHO_REQUEST = 2, ECHO_REPLY = 3, FEATURES_REQUEST = 5, PACKET_IN = 10,
       PACKET_OUT = 13, IN_HEAD = 18, OUT_HEAD = 24 };

struct link {
    int socket;
    size_t have; // bytes of `in`
    unsigned char in[ROOM];
};

static struct link links[MOST_LINKS];
static int link_count, poller;

static void fail(const char *what) {
    fprintf(stderr, "answer_loop: %s: %s\n", what, strerror(errno));
    exit(1);
}

static int write_all(struct link *l, const unsigned char *bytes, size_t count) {
    while (count > 0) {
        ssize_t n = send(l->socket, bytes, count, MSG_NOSIGNAL);
        if (n < 0)
            return 0;
        bytes += n;
        count -= n;
    }
    return 1;
}

// Sends the frame on, out of all ports but the one it came by.
static int answer_packet(struct link *l, const unsigned char *packet, size_t length) {
    static unsigned char out[65536 + OUT_HEAD];
    static const unsigned char FLOOD[8] = {0, 0, 0, 8, 0xff, 0xfb, 0, 0};
    size_t frame = length - IN_HEAD, all = OUT_HEAD + frame;
    out[0] = 1;
    out[1] = PACKET_OUT;
    out[2] = all >> 8;
    out[3] = all;
    memset(out + 8, 0xff, 4);
    memcpy(out + 12, packet + 14, 2);
    out[14] = 0;
    out[15] = 8;
    memcpy(out + 16, FLOOD, 8);
    memcpy(out + OUT_HEAD, packet + IN_HEAD, frame);
    return write_all(l, out, all);
}

static int answer(struct link *l, unsigned char *message, size_t length) {
    static const unsigned char FEATURES[HEADER] = {1, FEATURES_REQUEST, 0, HEADER};
    switch (message[1]) {
    case HELLO:
        return write_all(l, FEATURES, HEADER);
    case ECHO_REQUEST:
        message[1] = ECHO_REPLY;
        return write_all(l, message, length);
    case PACKET_IN:
        return length < IN_HEAD || answer_packet(l, message, length);
    default:
        return 1;
    }
}

// Takes what came. Tells whether the connection goes on.
static int take(struct link *l) {
    ssize_t n = read(l->socket, l->in + l->have, ROOM - l->have);
    if (n <= 0)
        return 0;
    l->have += n;
    size_t at = 0;
    while (l->have - at >= HEADER) {
        size_t length = l->in[at + 2] << 8 | l->in[at + 3];
        if (length < HEADER)
            return 0;
        if (l->have - at < length)
            break;
        if (!answer(l, l->in + at, length))
            return 0;
        at += length;
    }
    memmove(l->in, l->in + at, l->have - at);
    l->have -= at;
    return 1;
}

static void accept_link(int listener) {
    static const unsigned char GREETING[HEADER] = {1, HELLO, 0, HEADER};
    int s = accept(listener, NULL, NULL);
    if (s < 0)
        return;
    // A place of a connection that ended is taken again.
    int place = 0;
    while (place < link_count && links[place].socket >= 0)
        place++;
    if (place == MOST_LINKS) {
        close(s);
        return;
    }
    if (place == link_count)
        link_count++;
    int on = 1;
    setsockopt(s, IPPROTO_TCP, TCP_NODELAY, &on, sizeof on);
    links[place].socket = s;
    links[place].have = 0;
    struct epoll_event e = {.events = EPOLLIN, .data.u32 = place};
    if (epoll_ctl(poller, EPOLL_CTL_ADD, s, &e) < 0)
        fail("epoll_ctl");
    write_all(&links[place], GREETING, HEADER);
}

static int listen_on(int port) {
    struct sockaddr_in at = {.sin_family = AF_INET, .sin_port = htons(port)};
    at.sin_addr.s_addr = htonl(INADDR_LOOPBACK);
    int s = socket(AF_INET, SOCK_STREAM, 0), on = 1;
    setsockopt(s, SOL_SOCKET, SO_REUSEADDR, &on, sizeof on);
    if (s < 0 || bind(s, (struct sockaddr *)&at, sizeof at) < 0 || listen(s, 128) < 0)
        fail("listen");
    return s;
}

int main(int argc, char **argv) {
    if (argc != 2) {
        fprintf(stderr, "usage: answer_loop PORT\n");
        return 2;
    }
    int listener = listen_on(atoi(argv[1]));
    poller = epoll_create1(0);
    struct epoll_event e = {.events = EPOLLIN, .data.u32 = MOST_LINKS};
    if (epoll_ctl(poller, EPOLL_CTL_ADD, listener, &e) < 0)
        fail("epoll_ctl");
    for (;;) {
        struct epoll_event events[MOST_EVENTS];
        int n = epoll_wait(poller, events, MOST_EVENTS, -1);
        for (int i = 0; i < n; i++) {
            if (events[i].data.u32 == MOST_LINKS) {
                accept_link(listener);
                continue;
            }
            struct link *l = &links[events[i].data.u32];
            if (!take(l)) {
                close(l->socket);
                l->socket = -1;
            }
        }
    }
}
