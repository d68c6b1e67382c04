// The load of bench/serve.py: keeps so many requests in flight on each connection, and compares every byte that it is told.
//
//     serve_client PORT PROCESS CONNECTIONS DEPTH SECONDS <PLAN
//
// It prints how many replies came, in how many seconds, and the processor seconds of PROCESS meanwhile. With a DEPTH of 0 it asks for nothing, and prints so of samples
// of notifications, and the longest time between two frames of a connection; above that a line for each time of more than 50 ms, when it began and ended by the monotonic
// clock (of connections to which it was the same time, the longest). Five seconds of nothing end it, and where it goes on for more than a minute, a minute of nothing.
//
// The plan says of each connection: its own size; how many requests are asked once, in the beginning; how many there are with those behind, which are asked again and
// again; where each of them begins, and its reply; then the bytes. Where notifications are added, a last reply to no request is the frame of a tick.
#define _GNU_SOURCE
#include <netinet/in.h>
#include <netinet/tcp.h>
#include <pthread.h>
#include <stdint.h>
#include <stdio.h>
#include <stdlib.h>
#include <string.h>
#include <sys/epoll.h>
#include <time.h>
#include <unistd.h>

enum { MOST = 64, ROOM = 262144, GAPS = 1 << 17 };

static struct connection {
    int socket;
    uint32_t once, count, asked, heard, flying, came; // requests; the next to ask and to hear; those without a reply; the bytes in got
    struct begin { uint32_t ask, want; } *begin;
    uint8_t *asks, *wants, got[ROOM];
    uint64_t bytes, replies, moment;
    double last; // when the last frame of a tick came
} connections[MOST];
static uint32_t plans[1 << 24], count, depth, workers, patience = 5; // seconds of nothing
static struct gap { double from, to; } gaps[GAPS];
static uint32_t found;
static double until, longest;

static double now(clockid_t clock) {
    struct timespec t;
    return clock_gettime(clock, &t) ? 0 : t.tv_sec + t.tv_nsec / 1e9;
}

static void must(int holds, struct connection *c, const char *what) {
    if (holds) return;
    fprintf(stderr, "connection %d, byte %llu of what it is told: %s\n", (int)(c - connections), (unsigned long long)c->bytes, what);
    _exit(1);
}

// A frame must be the next reply. (Frames of two sizes differ in their first six bytes.)
static void compare(struct connection *c, const uint8_t *got, uint32_t size) {
    uint32_t from = c->begin[c->heard].want, same = 0;
    const uint8_t *want = c->wants + from;
    char what[32] = "";
    if (size == c->begin[c->heard + 1].want - from && !memcmp(got, want, size)) same = size;
    while (same < size && got[same] == want[same]) same++;
    if (same < size) snprintf(what, sizeof what, "%02x in place of %02x", got[same], want[same]);
    c->bytes += same;
    must(same == size, c, what);
}

// Between two frames of a connection was so much time.
static void gap(double from, double to) {
    struct gap *last = gaps + (found ? found - 1 : 0);
    if (to - from > longest) longest = to - from;
    if (to - from <= 0.05) return;
    if (found && from < last->to) {
        if (to - from > last->to - last->from) *last = (struct gap){from, to};
    } else if (found < GAPS) gaps[found++] = (struct gap){from, to};
}

// The frame of a tick is the plan's, but for its moment, which rises, and the value of its samples, which is one more than the last. Frames that come while
// notifications are still added have fewer samples, and are passed over.
static void tick(struct connection *c, const uint8_t *got, uint32_t size) {
    double told = now(CLOCK_MONOTONIC);
    uint8_t *want = c->wants + c->begin[c->heard].want, *end = c->wants + c->begin[c->heard + 1].want;
    uint64_t before = c->moment;
    uint16_t value;
    if (c->last) gap(c->last, told);
    c->last = told;
    if (c->heard < c->once) { c->bytes += size; return; }
    memcpy(&c->moment, got + 46, 8);
    must(c->moment > before, c, "a moment that does not rise");
    memcpy(want + 46, &c->moment, 8);
    memcpy(&value, before ? want + 66 : got + 66, 2);
    if (before) value = (value + 1) % 1000;
    for (uint8_t *at = want + 66; at < end; at += 10) memcpy(at, &value, 2);
    compare(c, got, size);
    c->replies += (size - 58) / 10;
}

static void ask(struct connection *c, uint32_t some) {
    for (c->flying += some; some;) {
        uint32_t next = some < c->count - c->asked ? c->asked + some : c->count, from = c->begin[c->asked].ask, size = c->begin[next].ask - from;
        must(send(c->socket, c->asks + from, size, MSG_NOSIGNAL) == size, c, "a request was not taken");
        some -= next - c->asked;
        c->asked = next < c->count ? next : c->once;
    }
}

// Takes what came, and asks as often as it was answered; whether nothing is in flight any more.
static int hear(struct connection *c) {
    ssize_t more = recv(c->socket, c->got + c->came, ROOM - c->came, 0);
    must(more > 0, c, "the stream ended");
    uint32_t at = 0, whole = 0, size;
    for (c->came += more; c->came - at >= 6; at += size) {
        memcpy(&size, c->got + at + 2, 4);
        size += 6;
        must(size >= 42 && size <= ROOM, c, "no frame");
        if (c->came - at < size) break;
        if (c->got[at + 22] == 8) { tick(c, c->got + at, size); continue; }
        must(whole++ < c->flying, c, "more than was asked for");
        compare(c, c->got + at, size);
        c->heard = c->heard + 1 < c->count ? c->heard + 1 : c->once;
    }
    memmove(c->got, c->got + at, c->came -= at);
    c->replies += whole;
    c->flying -= whole;
    if (now(CLOCK_MONOTONIC) < until) ask(c, whole);
    return whole && !c->flying;
}

// The connections first, first + workers.. ask what is asked once; or, if they have, what is asked again and again.
static void *work(void *first) {
    struct epoll_event found[MOST];
    int events = epoll_create1(0), open = 0, idle = 0;
    for (struct connection *c = connections + (uintptr_t)first; c < connections + count; c += workers) {
        epoll_ctl(events, EPOLL_CTL_ADD, c->socket, &(struct epoll_event){.events = EPOLLIN, .data.ptr = c});
        ask(c, c->asked ? depth : c->once);
        open += c->flying > 0;
    }
    while (open || now(CLOCK_MONOTONIC) < until) {
        int n = epoll_wait(events, found, MOST, 100);
        idle = n > 0 ? 0 : idle + 1; // waits are counted, and not the time, so that a machine that stands still is no fault
        for (struct connection *c = connections + (uintptr_t)first; idle >= 10 * (int)patience && c < connections + count; c += workers)
            must(open && !c->flying, c, patience == 5 ? "nothing for five seconds" : "nothing for a minute");
        for (int i = 0; i < n; i++) open -= hear(found[i].data.ptr);
    }
    close(events);
    return 0;
}

int main(int words, char **word) {
    pthread_t other;
    clockid_t spent;
    uint64_t replies = 0;
    int on = 1;
    if (words != 6 || clock_getcpuclockid(atoi(word[2]), &spent) || !fread(plans, 4, sizeof plans / 4, stdin)) return 2;
    struct sockaddr_in at = {.sin_family = AF_INET, .sin_port = htons(atoi(word[1])), .sin_addr = {htonl(INADDR_LOOPBACK)}};
    count = atoi(word[3]);
    depth = atoi(word[4]);
    uint32_t *plan = plans;
    for (struct connection *c = connections; c < connections + count; c++, plan += plan[0] / 4) {
        c->once = plan[1];
        c->count = plan[2];
        c->begin = (struct begin *)(plan + 3);
        c->asks = (uint8_t *)(c->begin + c->count + 1);
        c->wants = c->asks + c->begin[c->count].ask;
        c->socket = socket(AF_INET, SOCK_STREAM, 0);
        setsockopt(c->socket, IPPROTO_TCP, TCP_NODELAY, &on, sizeof on);
        must(!connect(c->socket, (struct sockaddr *)&at, sizeof at), c, "no connection");
    }
    workers = 1;
    work(0);
    for (uint32_t i = 0; i < count; i++) connections[i].replies = 0;
    workers = depth && count > 1 ? 2 : 1;
    double from = now(CLOCK_MONOTONIC), before = now(spent);
    longest = found = 0;
    until = from + atof(word[5]);
    if (until - from > 60) patience = 60;
    if (workers > 1) pthread_create(&other, 0, work, (void *)1);
    work(0);
    if (workers > 1) pthread_join(other, 0);
    double took = now(CLOCK_MONOTONIC) - from, cost = now(spent) - before;
    for (struct connection *c = connections; c < connections + count; c++) {
        replies += c->replies;
        if (!depth) gap(c->last, until);
    }
    for (uint32_t i = 0; i < found; i++) printf("%f %f\n", gaps[i].from, gaps[i].to);
    printf("%llu %f %f %f\n", (unsigned long long)replies, took, cost, longest);
}
