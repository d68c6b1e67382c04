// The load of bench/relay.py: pairs of an asker and a target, each on a connection of its own, whose requests and responses go through a router.
//
//     relay_client PORT PROCESS PAIRS DEPTH SECONDS
//
// Each asker keeps so many requests in flight, reads of four bytes with rising invoke ids; its target gives each the response as it comes. Every byte that either is
// told is compared; a wrong one, or five seconds of nothing, ends the run with the connection. It prints how many frames were passed on, in how many seconds, and the
// processor seconds of PROCESS meanwhile. Connection k is 10.0.A.B.1.1, where k is A + 256 (B - 1); pair p is the asker 2p and the target 2p + 1.
#define _GNU_SOURCE
#include <netinet/in.h>
#include <netinet/tcp.h>
#include <pthread.h>
#include <stdint.h>
#include <stdio.h>
#include <stdlib.h>
#include <string.h>
#include <sys/epoll.h>
#include <time.h>
#include <unistd.h>

enum { MOST = 1024, FRAME = 50, ROOM = 65536 }; // (both frames have one size)

static struct connection {
    int socket, asker;
    uint32_t sent, heard, came; // frames of its own and of its peer; the bytes in got
    uint8_t out[FRAME], want[FRAME], got[ROOM];
} connections[MOST];
static uint32_t count, depth, workers;
static double until;

static double now(clockid_t clock) {
    struct timespec t;
    return clock_gettime(clock, &t) ? 0 : t.tv_sec + t.tv_nsec / 1e9;
}

static void must(int holds, struct connection *c, const char *what) {
    if (holds) return;
    fprintf(stderr, "connection %d, frame %u of what it is told: %s\n", (int)(c - connections), c->heard, what);
    _exit(1);
}

// A request from one connection to another, or the response to it. The invoke id stands at 34.
static void make(uint8_t *at, uint32_t target, uint32_t source, int is_response) {
    const uint32_t rest[7] = {2 | (is_response ? 5 : 4) << 16, 12, 0, 0, is_response ? 0 : 0x4040, is_response ? 4 : 64, is_response ? 42 : 4};
    uint8_t ends[16] = {10, 0, target % 256, 1 + target / 256, 1, 1, 0x53, 3, 10, 0, source % 256, 1 + source / 256, 1, 1, 0x53, 3};
    memcpy(mempcpy(mempcpy(at, (uint8_t[6]){0, 0, FRAME - 6}, 6), ends, 16), rest, 28);
}

static void say(struct connection *c, uint32_t some) {
    static __thread uint8_t out[ROOM];
    for (uint32_t i = 0; i < some; i++) {
        memcpy(c->out + 34, &c->sent, 4);
        memcpy(out + i * FRAME, c->out, FRAME);
        c->sent++;
    }
    must(!some || send(c->socket, out, some * FRAME, MSG_NOSIGNAL) == some * FRAME, c, "a frame was not taken");
}

// Takes what came. A target answers each request, an asker asks as often as it was answered; whether an asker waits for nothing any more.
static int hear(struct connection *c) {
    ssize_t more = recv(c->socket, c->got + c->came, ROOM - c->came, 0);
    must(more > 0, c, "the stream ended");
    uint32_t at = 0, whole = 0;
    for (c->came += more; c->came - at >= FRAME; at += FRAME, whole++) {
        memcpy(c->want + 34, &c->heard, 4);
        must(!memcmp(c->got + at, c->want, FRAME), c, "another frame");
        c->heard++;
    }
    memmove(c->got, c->got + at, c->came -= at);
    if (!c->asker || now(CLOCK_MONOTONIC) < until) say(c, whole);
    return c->asker && whole && c->heard == c->sent;
}

// The pairs first, first + workers..
static void *work(void *first) {
    struct epoll_event found[MOST];
    int events = epoll_create1(0), open = 0;
    for (struct connection *c = connections + 2 * (uintptr_t)first; c < connections + count; c += 2 * workers, open++) {
        epoll_ctl(events, EPOLL_CTL_ADD, c[0].socket, &(struct epoll_event){.events = EPOLLIN, .data.ptr = c});
        epoll_ctl(events, EPOLL_CTL_ADD, c[1].socket, &(struct epoll_event){.events = EPOLLIN, .data.ptr = c + 1});
        say(c, depth);
    }
    while (open) {
        int n = epoll_wait(events, found, MOST, 5000);
        must(n > 0, connections + 2 * (uintptr_t)first, "nothing for five seconds");
        for (int i = 0; i < n; i++) open -= hear(found[i].data.ptr);
    }
    close(events);
    return 0;
}

// A connection owns its NetId once a notification to itself has come back.
static void begin(struct connection *c, uint32_t k, const struct sockaddr_in *at) {
    uint8_t own[FRAME], told[FRAME];
    int on = 1;
    c->asker = k % 2 == 0;
    make(c->out, k ^ 1, k, !c->asker);
    make(c->want, k, k ^ 1, c->asker);
    c->socket = socket(AF_INET, SOCK_STREAM, 0);
    setsockopt(c->socket, IPPROTO_TCP, TCP_NODELAY, &on, sizeof on);
    must(!connect(c->socket, (struct sockaddr *)at, sizeof *at), c, "no connection");
    make(own, k, k, 0);
    own[22] = 8;
    must(send(c->socket, own, FRAME, MSG_NOSIGNAL) == FRAME, c, "a frame was not taken");
    must(recv(c->socket, told, FRAME, MSG_WAITALL) == FRAME && !memcmp(own, told, FRAME), c, "a notification to itself does not come back");
}

int main(int words, char **word) {
    pthread_t other;
    clockid_t spent;
    uint64_t frames = 0;
    if (words != 6 || clock_getcpuclockid(atoi(word[2]), &spent)) return 2;
    struct sockaddr_in at = {.sin_family = AF_INET, .sin_port = htons(atoi(word[1])), .sin_addr = {htonl(INADDR_LOOPBACK)}};
    count = 2 * atoi(word[3]);
    depth = atoi(word[4]);
    must(count && count <= MOST && depth * FRAME <= ROOM, connections, "more than there is room for");
    for (uint32_t k = 0; k < count; k++) begin(connections + k, k, &at);
    workers = count > 2 ? 2 : 1;
    double from = now(CLOCK_MONOTONIC), before = now(spent);
    until = from + atof(word[5]);
    if (workers > 1) pthread_create(&other, 0, work, (void *)1);
    work(0);
    if (workers > 1) pthread_join(other, 0);
    double took = now(CLOCK_MONOTONIC) - from, cost = now(spent) - before;
    for (struct connection *c = connections; c < connections + count; c++) frames += c->heard;
    printf("%llu %f %f\n", (unsigned long long)frames, took, cost);
}
