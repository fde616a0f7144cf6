// Sends, forwards or receives RTP packets on 127.0.0.1, for bench/forward.sh.
//   packets send SOURCE TARGET RATE MILLISECONDS PAYLOAD FIRST   sends from port to port so many packets a second, 0 for as
//           many as go, whose payloads have so many bytes and begin with the time of sending and the packet's index, counted
//           from FIRST. Prints how many it sent, and in how many nanoseconds.
//   packets plain TARGET..     forwards each packet of the stream to each port, in one thread with one call of the system for each
//           datagram. Prints the port that it takes packets at, and serves until it is ended, at the latest with its parent.
//   packets receive FIRST PORT..   receives at these ports until its standard input ends and a tenth of a second more; says
//           `ready` before. Prints how many packets came whose index is FIRST or greater and whose delay was under a tenth of
//           a second, how many of these weren't as they should be, and the median and the 99th percentile of their delays, in
//           units of 100 ns.
#define _GNU_SOURCE
#include <arpa/inet.h>
#include <poll.h>
#include <stdint.h>
#include <stdio.h>
#include <stdlib.h>
#include <string.h>
#include <sys/epoll.h>
#include <sys/prctl.h>
#include <sys/socket.h>
#include <time.h>
#include <unistd.h>

enum {
    HEADER = 12, STAMP = 16, MAX_PACKET = 1500, BATCH = 64, MAX_PORTS = 64, KEPT_BYTES = 4 << 20, STEPS = 1000000,
    TYPE_IN = 96, TYPE_OUT = 100, SSRC_IN = 2222, SSRC_OUT = 100000001
};

static const uint64_t SECOND = 1000000000, GRACE = 100000000, UNIT = 100;

static uint64_t now(void) {
    struct timespec t;
    clock_gettime(CLOCK_MONOTONIC, &t);
    return (uint64_t)t.tv_sec * SECOND + (uint64_t)t.tv_nsec;
}

static uint16_t get16(const uint8_t *p) { return (uint16_t)(p[0] << 8 | p[1]); }

static uint32_t get32(const uint8_t *p) { return (uint32_t)get16(p) << 16 | get16(p + 2); }

static uint64_t get64(const uint8_t *p) { return (uint64_t)get32(p) << 32 | get32(p + 4); }

static void put16(uint8_t *p, uint16_t v) { p[0] = (uint8_t)(v >> 8), p[1] = (uint8_t)v; }

static void put32(uint8_t *p, uint32_t v) { put16(p, (uint16_t)(v >> 16)), put16(p + 2, (uint16_t)v); }

static void put64(uint8_t *p, uint64_t v) { put32(p, (uint32_t)(v >> 32)), put32(p + 4, (uint32_t)v); }

static void fail(const char *what) {
    perror(what);
    exit(1);
}

static struct sockaddr_in address_of(int port) {
    return (struct sockaddr_in){.sin_family = AF_INET, .sin_port = htons((uint16_t)port), .sin_addr.s_addr = htonl(INADDR_LOOPBACK)};
}

// A socket at the port, or at one that the system chooses. It asks for as much room as the worker does for its own.
static int socket_at(int port) {
    int fd = socket(AF_INET, SOCK_DGRAM, 0), room = KEPT_BYTES;
    struct sockaddr_in at = address_of(port);
    if (fd < 0) fail("socket");
    setsockopt(fd, SOL_SOCKET, SO_RCVBUF, &room, sizeof room);
    setsockopt(fd, SOL_SOCKET, SO_SNDBUF, &room, sizeof room);
    if (bind(fd, (struct sockaddr *)&at, sizeof at)) fail("bind");
    return fd;
}

static uint8_t packets[BATCH][MAX_PACKET];
static struct mmsghdr messages[BATCH];
static struct iovec parts[BATCH];

static void lay_out(size_t size, struct sockaddr_in *to) {
    for (int k = 0; k < BATCH; k++) {
        parts[k] = (struct iovec){packets[k], size};
        messages[k].msg_hdr = (struct msghdr){.msg_iov = &parts[k], .msg_iovlen = 1, .msg_name = to, .msg_namelen = to ? sizeof *to : 0};
    }
}

// Sends so many packets by one call. The sender isn't what is measured.
static void send_some(int fd, uint64_t index, unsigned count) {
    uint64_t time = now();
    for (unsigned k = 0; k < count; k++, index++) {
        put16(packets[k] + 2, (uint16_t)index);
        put32(packets[k] + 4, (uint32_t)(index * 960));
        put64(packets[k] + HEADER, time);
        put64(packets[k] + HEADER + 8, index);
    }
    if (sendmmsg(fd, messages, count, 0) != (int)count) fail("sendmmsg");
}

static int send_all(char **words) {
    double rate = atof(words[2]);
    uint64_t length = strtoull(words[3], NULL, 10) * 1000000, first = strtoull(words[5], NULL, 10), sent = 0;
    size_t payload = (size_t)atoi(words[4]);
    struct sockaddr_in to = address_of(atoi(words[1]));
    int fd = socket_at(atoi(words[0]));
    if (payload < STAMP || payload > MAX_PACKET - HEADER) return 2;
    for (int k = 0; k < BATCH; k++) {
        packets[k][0] = 0x80, packets[k][1] = TYPE_IN;
        put32(packets[k] + 8, SSRC_IN);
    }
    lay_out(HEADER + payload, &to);
    uint64_t began = now(), time;
    while ((time = now() - began) < length) {
        uint64_t due = rate > 0 ? (uint64_t)((double)time * rate / (double)SECOND) + 1 : sent + BATCH;
        if (due <= sent) continue;
        unsigned count = due - sent < BATCH ? (unsigned)(due - sent) : BATCH;
        send_some(fd, first + sent, count);
        sent += count;
    }
    printf("%llu %llu\n", (unsigned long long)sent, (unsigned long long)time);
    return 0;
}

struct target {
    struct sockaddr_in at;
    uint32_t ssrc;
    uint16_t offset, greatest;
    int is_begun;
};

// Where the payload begins, or 0 for what is no packet (RFC 3550, section 5.1).
static size_t payload_of(const uint8_t *packet, size_t length) {
    if (length < HEADER || packet[0] >> 6 != 2) return 0;
    size_t at = HEADER + 4 * (size_t)(packet[0] & 15);
    if (packet[0] & 0x10) {
        if (length < at + 4) return 0;
        at += 4 + 4 * (size_t)get16(packet + at + 2);
    }
    if (length < at) return 0;
    if (packet[0] & 0x20 && (length == at || packet[length - 1] == 0 || packet[length - 1] > length - at)) return 0;
    return at;
}

static uint16_t number_for(struct target *target, uint16_t number) {
    if (!target->is_begun) {
        target->is_begun = 1;
        target->offset = (uint16_t)(number - (uint16_t)(target->greatest + 1));
    }
    uint16_t out = (uint16_t)(number - target->offset);
    if ((uint16_t)(out - target->greatest) < 32768) target->greatest = out;
    return out;
}

// Rewrites the packet for each target, and sends it there.
static void forward(int fd, uint8_t *packet, size_t length, struct target *targets, int count) {
    uint16_t number = get16(packet + 2);
    for (int k = 0; k < count; k++) {
        packet[1] = (uint8_t)((packet[1] & 0x80) | TYPE_OUT);
        put16(packet + 2, number_for(targets + k, number));
        put32(packet + 8, targets[k].ssrc);
        sendto(fd, packet, length, 0, (struct sockaddr *)&targets[k].at, sizeof targets[k].at);
    }
}

static int forward_all(int count, char **words) {
    static struct target targets[MAX_PORTS];
    static uint8_t packet[65536];
    struct sockaddr_in from, latched = {0}, own;
    socklen_t size = sizeof own;
    int fd = socket_at(0);
    if (count > MAX_PORTS) return 2;
    for (int k = 0; k < count; k++) targets[k] = (struct target){address_of(atoi(words[k])), (uint32_t)(SSRC_OUT + k), 0, 0, 0};
    getsockname(fd, (struct sockaddr *)&own, &size);
    printf("%d\n", ntohs(own.sin_port));
    fflush(stdout);
    prctl(PR_SET_PDEATHSIG, 9);
    for (;;) {
        socklen_t length_of_from = sizeof from;
        ssize_t length = recvfrom(fd, packet, sizeof packet, 0, (struct sockaddr *)&from, &length_of_from);
        if (length < 0 || !payload_of(packet, (size_t)length)) continue;
        if (!latched.sin_port) latched = from;
        if (from.sin_port != latched.sin_port || from.sin_addr.s_addr != latched.sin_addr.s_addr) continue;
        if (get32(packet + 8) != SSRC_IN || (packet[1] & 127) != TYPE_IN) continue;
        forward(fd, packet, (size_t)length, targets, count);
    }
}

struct port {
    int fd, has_come;
    uint32_t ssrc;
    uint16_t offset;
};

static uint32_t delays[STEPS];
static uint64_t received, wrong, first_index;

static void take(struct port *port, const uint8_t *packet, size_t length, uint64_t time) {
    if (length < HEADER + STAMP || get64(packet + HEADER + 8) < first_index) return;
    uint64_t delay = (time - get64(packet + HEADER)) / UNIT;
    if (delay >= STEPS) return;
    uint16_t offset = (uint16_t)(get16(packet + 2) - (uint16_t)get64(packet + HEADER + 8));
    if (!port->has_come) port->has_come = 1, port->offset = offset;
    received++;
    wrong += packet[0] != 0x80 || (packet[1] & 127) != TYPE_OUT || get32(packet + 8) != port->ssrc || offset != port->offset;
    delays[delay]++;
}

static uint64_t percentile(uint64_t percent) {
    uint64_t seen = 0, at = 0;
    while (at < STEPS && (seen += delays[at]) * 100 < received * percent) at++;
    return at;
}

// It asks again and again and never sleeps, so that no forwarder has to wake it.
static int receive_all(int count, char **words) {
    static struct port ports[MAX_PORTS];
    struct epoll_event ready[MAX_PORTS];
    struct pollfd input = {.fd = 0, .events = POLLIN};
    int epoll = epoll_create1(0);
    first_index = strtoull(words[0], NULL, 10);
    if (--count > MAX_PORTS) return 2;
    for (int k = 0; k < count; k++) {
        struct epoll_event event = {.events = EPOLLIN, .data.ptr = ports + k};
        ports[k] = (struct port){.fd = socket_at(atoi(words[k + 1])), .ssrc = (uint32_t)(SSRC_OUT + k)};
        if (epoll_ctl(epoll, EPOLL_CTL_ADD, ports[k].fd, &event)) fail("epoll_ctl");
    }
    lay_out(MAX_PACKET, NULL);
    printf("ready\n");
    fflush(stdout);
    for (uint64_t end = UINT64_MAX, looked = 0, time = 0; time < end; time = now()) {
        int found = epoll_wait(epoll, ready, MAX_PORTS, 0);
        for (int k = 0; k < found; k++) {
            struct port *port = ready[k].data.ptr;
            int got = recvmmsg(port->fd, messages, BATCH, MSG_DONTWAIT, NULL);
            uint64_t came = now();
            for (int j = 0; j < got; j++) take(port, packets[j], messages[j].msg_len, came);
        }
        if (end == UINT64_MAX && time > looked + SECOND / 200) {
            if (poll(&input, 1, 0) > 0) end = time + GRACE;
            looked = time;
        }
    }
    printf("%llu %llu %llu %llu\n", (unsigned long long)received, (unsigned long long)wrong, (unsigned long long)percentile(50),
           (unsigned long long)percentile(99));
    return 0;
}

int main(int count, char **words) {
    if (count == 8 && strcmp(words[1], "send") == 0) return send_all(words + 2);
    if (count > 2 && strcmp(words[1], "plain") == 0) return forward_all(count - 2, words + 2);
    if (count > 3 && strcmp(words[1], "receive") == 0) return receive_all(count - 2, words + 2);
    return 2;
}
