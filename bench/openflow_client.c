// Switches of OpenFlow 1.0 that load a controller on 127.0.0.1, and count its answers.
//
//   openflow_client PORT SWITCHES WINDOW known SECONDS
//   openflow_client PORT SWITCHES WINDOW learned KEYS
//   openflow_client PORT SWITCHES 0 idle SECONDS [EVERY]
//
// Each connection is a switch with a datapath id of its own, two ports and two hosts. It does what a
// switch must (HELLO, FEATURES_REPLY, BARRIER_REPLY, ECHO_REPLY, GET_CONFIG_REPLY, an ERROR to VENDOR), and
// takes in no rule. Once each host has sent a packet to the other, WINDOW packets are under way on each
// connection: each is a PACKET_IN of 78 bytes with the whole frame, an answer is a PACKET_OUT, and what
// one read brings is followed by as many packets in one write.
//
// known: the same packet again and again, for a while unmeasured and then for SECONDS. Its key was
// answered before, so there is nothing to learn. It prints the answers a second and, with WINDOW 1, the
// median and the 99th percentile of a round trip in microseconds; and all answers, for the reckoning of
// processor time.
// learned: KEYS packets of each switch, each to another TCP port, from 1,024 on. It prints the answers a second of all,
// and of the last tenth of each switch.
// idle: no packet; where EVERY is given, each switch sends an ECHO_REQUEST so many seconds apart.
//
// It exits with status 1 where a connection ends or fails, and where no answer comes for 10 seconds.
#define _GNU_SOURCE
#include <arpa/inet.h>
#include <errno.h>
#include <netinet/in.h>
#include <netinet/tcp.h>
#include <stdint.h>
#include <stdio.h>
#include <stdlib.h>
#include <string.h>
#include <sys/epoll.h>
#include <sys/socket.h>
#include <time.h>
#include <unistd.h>

enum { MOST_SWITCHES = 1024, MOST_WINDOW = 1024, MOST_KEYS = 64000, MOST_TRIPS = 1 << 22 };

// Of an OpenFlow message.
enum { HEADER = 8, HELLO = 0, ERROR = 1, ECHO_REQUEST = 2, ECHO_REPLY = 3, VENDOR = 4, FEATURES_REQUEST = 5,
       FEATURES_REPLY = 6, GET_CONFIG_REQUEST = 7, GET_CONFIG_REPLY = 8, PACKET_IN = 10, PACKET_OUT = 13,
       BARRIER_REQUEST = 18, BARRIER_REPLY = 19 };

enum { FRAME = 60, PACKET = 18 + FRAME, ROOM = 1 << 17 };

struct device {
    int socket;
    int asked;         // whether FEATURES_REQUEST came
    uint32_t sent;     // packets
    uint32_t answered;
    double since;      // when the last packet was sent
    double tenth;      // when nine tenths of its keys were answered
    size_t have;       // bytes of `in`
    unsigned char in[ROOM];
    unsigned char out[MOST_WINDOW * PACKET];
};

static struct device devices[MOST_SWITCHES];
static int device_count, window, poller;
static float trips[MOST_TRIPS];
static size_t trip_count;

static void fail(const char *what) {
    fprintf(stderr, "openflow_client: %s: %s\n", what, strerror(errno));
    exit(1);
}

static double now(void) {
    struct timespec t;
    clock_gettime(CLOCK_MONOTONIC, &t);
    return t.tv_sec + t.tv_nsec * 1e-9;
}

static void put16(unsigned char *at, uint16_t value) {
    value = htons(value);
    memcpy(at, &value, 2);
}

static void put32(unsigned char *at, uint32_t value) {
    value = htonl(value);
    memcpy(at, &value, 4);
}

static void write_all(struct device *d, const unsigned char *bytes, size_t count) {
    while (count > 0) {
        ssize_t n = write(d->socket, bytes, count);
        if (n < 0)
            fail("write");
        bytes += n;
        count -= n;
    }
}

// Begins a message, whose other bytes are 0.
static void begin(unsigned char *message, int type, size_t length, const unsigned char *xid) {
    memset(message, 0, length);
    message[0] = 1;
    message[1] = type;
    put16(message + 2, length);
    if (xid)
        memcpy(message + 4, xid, 4);
}

// The features of a switch with the ports 1 and 2.
static void send_features(struct device *d, const unsigned char *xid) {
    unsigned char message[32 + 2 * 48];
    int number = d - devices + 1;
    begin(message, FEATURES_REPLY, sizeof message, xid);
    put32(message + 12, number);
    message[20] = 1; // one table
    put32(message + 28, 1); // OUTPUT
    for (int port = 1; port <= 2; port++) {
        unsigned char *at = message + 32 + (port - 1) * 48;
        put16(at, port);
        at[2] = 2;
        at[6] = number;
        at[7] = port;
        snprintf((char *)at + 8, 16, "port%d", port);
    }
    write_all(d, message, sizeof message);
}

static void send_short(struct device *d, int type, size_t length, const unsigned char *xid) {
    unsigned char message[16];
    begin(message, type, length, xid);
    if (type == GET_CONFIG_REPLY)
        put16(message + 10, 0xffff);
    write_all(d, message, length);
}

// An echo goes back as it came; to a vendor's message an error is the answer.
static void send_back(struct device *d, int type, const unsigned char *came, size_t length) {
    unsigned char message[HEADER + 4 + 64];
    if (type == ECHO_REPLY) {
        unsigned char echo[65536];
        memcpy(echo, came, length);
        echo[1] = ECHO_REPLY;
        write_all(d, echo, length);
        return;
    }
    size_t kept = length < 64 ? length : 64;
    begin(message, ERROR, HEADER + 4 + kept, came + 4);
    put16(message + 8, 1);  // BAD_REQUEST
    put16(message + 10, 3); // BAD_VENDOR
    memcpy(message + 12, came, kept);
    write_all(d, message, HEADER + 4 + kept);
}

// A packet that the host at this port sends to the other, to this TCP port.
static void write_packet(unsigned char *message, int number, int port, uint16_t to) {
    static const unsigned char IP[20] = {0x45, 0, 0, 40, 0, 0, 0x40, 0, 64, 6, 0, 0, 10, 0, 0, 0, 10, 0, 0, 0};
    begin(message, PACKET_IN, PACKET, NULL);
    memset(message + 8, 0xff, 4); // not buffered
    put16(message + 12, FRAME);
    put16(message + 14, port);
    unsigned char *frame = message + 18, *ip = frame + 14, *tcp = ip + 20;
    frame[0] = frame[6] = 2;
    put16(frame + 3, number);
    put16(frame + 9, number);
    frame[5] = 3 - port;
    frame[11] = port;
    put16(frame + 12, 0x0800);
    memcpy(ip, IP, sizeof IP);
    put16(ip + 13, number);
    put16(ip + 17, number);
    ip[15] = port;
    ip[19] = 3 - port;
    uint32_t sum = 0;
    for (int i = 0; i < 20; i += 2)
        sum += ip[i] << 8 | ip[i + 1];
    sum = (sum & 0xffff) + (sum >> 16);
    put16(ip + 10, ~(sum + (sum >> 16)));
    put16(tcp, 1024);
    put16(tcp + 2, to);
    tcp[12] = 5 << 4;
    tcp[13] = 2; // SYN
}

// Sends so many packets in one write. Of `keys` each has the next key; else all have the same.
static void send_packets(struct device *d, int count, uint32_t keys) {
    for (int i = 0; i < count; i++) {
        d->sent++;
        if (keys)
            write_packet(d->out + i * PACKET, d - devices + 1, 1, 1023 + d->sent);
    }
    d->since = now();
    if (count > 0)
        write_all(d, d->out, count * PACKET);
}

// Does with a message what a switch must, and tells whether it is an answer to a packet.
static int take_message(struct device *d, const unsigned char *message, size_t length) {
    switch (message[1]) {
    case PACKET_OUT:
        return 1;
    case ECHO_REQUEST:
        send_back(d, ECHO_REPLY, message, length);
        return 0;
    case VENDOR:
        send_back(d, ERROR, message, length);
        return 0;
    case FEATURES_REQUEST:
        send_features(d, message + 4);
        d->asked = 1;
        return 0;
    case GET_CONFIG_REQUEST:
        send_short(d, GET_CONFIG_REPLY, 12, message + 4);
        return 0;
    case BARRIER_REQUEST:
        send_short(d, BARRIER_REPLY, HEADER, message + 4);
        return 0;
    default:
        return 0;
    }
}

// Takes what came, and returns how many answers to packets that has.
static int take(struct device *d) {
    ssize_t n = read(d->socket, d->in + d->have, ROOM - d->have);
    if (n <= 0)
        fail(n == 0 ? "the controller closed" : "read");
    d->have += n;
    size_t at = 0;
    int answers = 0;
    while (d->have - at >= HEADER) {
        size_t length = d->in[at + 2] << 8 | d->in[at + 3];
        if (length < HEADER)
            fail("a message that is too short");
        if (d->have - at < length)
            break;
        answers += take_message(d, d->in + at, length);
        at += length;
    }
    memmove(d->in, d->in + at, d->have - at);
    d->have -= at;
    return answers;
}

static void open_device(struct device *d, int port) {
    struct sockaddr_in to = {.sin_family = AF_INET, .sin_port = htons(port)};
    to.sin_addr.s_addr = htonl(INADDR_LOOPBACK);
    d->socket = socket(AF_INET, SOCK_STREAM, 0);
    if (d->socket < 0 || connect(d->socket, (struct sockaddr *)&to, sizeof to) < 0)
        fail("connect");
    int on = 1;
    setsockopt(d->socket, IPPROTO_TCP, TCP_NODELAY, &on, sizeof on);
    struct epoll_event e = {.events = EPOLLIN, .data.u32 = d - devices};
    if (epoll_ctl(poller, EPOLL_CTL_ADD, d->socket, &e) < 0)
        fail("epoll_ctl");
    send_short(d, HELLO, HEADER, NULL);
}

// Waits until this switch was asked for its features, or, where it sent a packet, has the answer.
static void await(struct device *d, int packet) {
    for (int answers = 0; packet ? answers == 0 : !d->asked;) {
        struct epoll_event events[MOST_SWITCHES];
        int n = epoll_wait(poller, events, MOST_SWITCHES, 10000);
        if (n == 0)
            errno = ETIMEDOUT, fail("no answer");
        for (int i = 0; i < n; i++) {
            struct device *other = &devices[events[i].data.u32];
            int more = take(other);
            if (other == d)
                answers += more;
        }
    }
}

// Once the hosts have sent a packet each, both places are known, and so is the answer to the second.
static void teach(struct device *d) {
    for (int port = 2; port >= 1; port--) {
        for (int i = 0; i < MOST_WINDOW; i++)
            write_packet(d->out + i * PACKET, d - devices + 1, port, 80);
        write_all(d, d->out, PACKET);
        await(d, 1);
    }
}

// Takes answers and sends further packets, until then or, of keys, until all are answered.
static uint64_t run(double end, uint32_t keys) {
    uint64_t answers = 0, wanted = (uint64_t)keys * device_count;
    double heard = now(), t = heard;
    while (keys ? answers < wanted : t < end) {
        struct epoll_event events[MOST_SWITCHES];
        int n = epoll_wait(poller, events, MOST_SWITCHES, 100);
        t = now();
        for (int i = 0; i < n; i++) {
            struct device *d = &devices[events[i].data.u32];
            int done = take(d);
            if (done == 0)
                continue;
            heard = t;
            answers += done;
            if (window == 1 && trip_count < MOST_TRIPS)
                trips[trip_count++] = (now() - d->since) * 1e6;
            d->answered += done;
            if (d->tenth == 0 && d->answered >= keys - keys / 10)
                d->tenth = now();
            send_packets(d, keys && keys - d->sent < (uint32_t)done ? (int)(keys - d->sent) : done, keys);
        }
        if (t - heard > 10)
            errno = ETIMEDOUT, fail("no answer");
    }
    return answers;
}

static int by_size(const void *a, const void *b) {
    float x = *(const float *)a, y = *(const float *)b;
    return (x > y) - (x < y);
}

static void print_trips(void) {
    if (trip_count > 0) {
        qsort(trips, trip_count, sizeof trips[0], by_size);
        printf(" median_us %.1f p99_us %.1f", trips[trip_count / 2], trips[trip_count * 99 / 100]);
    }
    printf("\n");
}

static void run_known(double seconds) {
    for (int i = 0; i < device_count; i++)
        send_packets(&devices[i], window, 0);
    uint64_t before = run(now() + seconds / 4, 0);
    trip_count = 0;
    double begin = now();
    uint64_t answers = run(begin + seconds, 0);
    printf("per_second %.0f all %llu", answers / (now() - begin),
           (unsigned long long)(before + answers + 2 * device_count));
    print_trips();
}

static void run_learned(uint32_t keys) {
    double begin = now(), last = begin;
    for (int i = 0; i < device_count; i++)
        send_packets(&devices[i], window < (int)keys ? window : (int)keys, keys);
    run(0, keys);
    double end = now();
    for (int i = 0; i < device_count; i++)
        last += (devices[i].tenth - begin) / device_count;
    printf("per_second %.0f last_tenth %.0f all %d", keys * device_count / (end - begin),
           keys / 10 * device_count / (end - last), (int)(keys + 2) * device_count);
    print_trips();
}

// Nothing but what a switch must; each sends an echo so many seconds apart, one behind the other.
static void run_idle(double seconds, double every) {
    double begin = now(), t = begin;
    for (uint64_t echoes = 0; t < begin + seconds; t = now()) {
        struct epoll_event events[MOST_SWITCHES];
        int n = epoll_wait(poller, events, MOST_SWITCHES, 10);
        for (int i = 0; i < n; i++)
            take(&devices[events[i].data.u32]);
        for (; every > 0 && begin + echoes * every / device_count < t; echoes++)
            send_short(&devices[echoes % device_count], ECHO_REQUEST, HEADER, NULL);
    }
    printf("idle %.1f\n", t - begin);
}

static int usage(void) {
    fprintf(stderr, "usage: openflow_client PORT SWITCHES WINDOW known SECONDS\n"
                    "       openflow_client PORT SWITCHES WINDOW learned KEYS\n"
                    "       openflow_client PORT SWITCHES 0 idle SECONDS [EVERY]\n");
    return 2;
}

int main(int argc, char **argv) {
    if (argc != 6 && argc != 7)
        return usage();
    int port = atoi(argv[1]);
    device_count = atoi(argv[2]);
    window = atoi(argv[3]);
    double number = atof(argv[5]);
    int idle = strcmp(argv[4], "idle") == 0, learned = strcmp(argv[4], "learned") == 0;
    if ((!idle && !learned && strcmp(argv[4], "known") != 0) || device_count < 1 || device_count > MOST_SWITCHES ||
        window < (idle ? 0 : 1) || window > MOST_WINDOW || number <= 0 || (learned && number > MOST_KEYS))
        return usage();
    poller = epoll_create1(0);
    for (int i = 0; i < device_count; i++) {
        open_device(&devices[i], port);
        await(&devices[i], 0);
    }
    if (idle)
        run_idle(number, argc == 7 ? atof(argv[6]) : 0);
    for (int i = 0; i < device_count && !idle; i++)
        teach(&devices[i]);
    if (learned)
        run_learned(number);
    else if (!idle)
        run_known(number);
    return 0;
}
