// A router of AMS frames by hand, beside which bench/relay.py loads `ads relay`: what this machine can do. One thread, epoll, and no call for memory. It does what the
// relay does: a connection owns the NetId that it sends from; a frame goes unchanged to the owner of its target, and where there is none its sender is told error 7; a
// response goes to the connection whose request it answers, and no request is answered twice; who breaks a rule, or lets too much wait, is closed.
//
//     relay_limit PORT      prints `listening`, and routes until it is killed; route k is 10.0.A.B.1.1, where k is A + 256 (B - 1)
#define _GNU_SOURCE
#include <errno.h>
#include <netinet/in.h>
#include <netinet/tcp.h>
#include <stdint.h>
#include <stdio.h>
#include <stdlib.h>
#include <string.h>
#include <sys/epoll.h>
#include <unistd.h>

enum { CONNECTIONS = 64, LISTENER = CONNECTIONS, ROUTES = 1024, SLOTS = 4 * ROUTES, RECORDS = 4096 };
enum { LONGEST = 2097152, INPUT = LONGEST + 65536, QUEUE = 4194304 }; // the most bytes of a packet, of what came, and of what waits for a peer

static struct connection {
    int socket, waits, closing;       // no socket: 0; waits: for room in the socket
    uint64_t number;                  // which connection of all this is
    struct route *own;
    uint32_t came, from, queued, due; // the bytes in input; where those of the queue begin, and how many there are; whether it is to be flushed
    uint32_t first, asked;            // the oldest record, and how many there are
    struct record {
        uint64_t number; // of the connection that was asked; spent: 0
        uint8_t addresses[16];
        uint32_t command, id;
    } record[RECORDS];
    uint8_t input[INPUT], queue[QUEUE];
} connections[CONNECTIONS];
static struct route { uint8_t net[6]; int known; struct connection *owner; } routes[SLOTS];
static struct connection *due[CONNECTIONS];
static uint32_t dues;
static int events, listener;

static void must(int holds) { if (!holds) exit(1); }
static uint16_t half(const uint8_t *at) { uint16_t n; memcpy(&n, at, 2); return n; }
static uint32_t word(const uint8_t *at) { uint32_t n; memcpy(&n, at, 4); return n; }
static uint8_t *put(uint8_t *at, uint32_t n) { return mempcpy(at, &n, 4); }

// The route of a NetId, or the free place where it would stand.
static struct route *route(const uint8_t *net) {
    uint64_t key = word(net) | (uint64_t)half(net + 4) << 32;
    struct route *at = routes + (key * 0x9E3779B97F4A7C15 >> 52) % SLOTS;
    while (at->known && memcmp(at->net, net, 6)) at = at + 1 < routes + SLOTS ? at + 1 : routes;
    return at;
}

static void mark(struct connection *c) {
    if (!c->due) due[dues++] = c;
    c->due = 1;
}

static void shut(struct connection *c) {
    c->closing = 1;
    if (c->own) c->own->owner = 0;
    mark(c);
}

// Queues the parts of a frame; whether there was room.
static int give(struct connection *c, const uint8_t *packet, uint32_t size) {
    if (c->closing) return 0;
    if (c->queued + 6 + size > QUEUE) return shut(c), 0;
    if (c->from + c->queued + 6 + size > QUEUE) memmove(c->queue, c->queue + c->from, c->queued), c->from = 0;
    uint8_t *at = c->queue + c->from + c->queued;
    memcpy(put(put(at, 0) - 2, size), packet, size);
    c->queued += 6 + size;
    mark(c);
    return 1;
}

// Records that are spent, or whose asked is gone, leave their places.
static void sweep(struct connection *c) {
    uint32_t kept = 0;
    for (uint32_t i = 0; i < c->asked; i++) {
        struct record it = c->record[(c->first + i) % RECORDS];
        int there = 0;
        for (struct connection *d = connections; d < connections + CONNECTIONS; d++) there |= d->socket && !d->closing && d->number == it.number;
        if (there) c->record[(c->first + kept++) % RECORDS] = it;
    }
    c->asked = kept;
}

static void remember(struct connection *c, const struct connection *to, const uint8_t *ams) {
    if (c->asked == RECORDS) sweep(c);
    if (c->asked == RECORDS) c->first = (c->first + 1) % RECORDS, c->asked--;
    struct record *it = c->record + (c->first + c->asked++) % RECORDS;
    *it = (struct record){.number = to->number, .command = half(ams + 16), .id = word(ams + 28)};
    memcpy(it->addresses, ams, 16);
}

// To the asker of the oldest request that it answers, which the owner of its target is.
static void respond(struct connection *c, const uint8_t *ams, uint32_t size) {
    struct connection *asker = route(ams)->owner;
    if (!asker) return;
    for (uint32_t i = 0; i < asker->asked; i++) {
        struct record *it = asker->record + (asker->first + i) % RECORDS;
        if (it->number != c->number || it->command != half(ams + 16) || it->id != word(ams + 28)) continue;
        if (memcmp(it->addresses, ams + 8, 8) || memcmp(it->addresses + 8, ams, 8)) continue;
        it->number = 0;
        while (asker->asked && !asker->record[asker->first].number) asker->first = (asker->first + 1) % RECORDS, asker->asked--;
        give(asker, ams, size);
        return;
    }
}

static void pass(struct connection *c, const uint8_t *ams, uint32_t size) {
    struct route *from = route(ams + 8);
    uint16_t command = half(ams + 16);
    if (word(ams + 20) != size - 32 || !from->known || (c->own ? c->own != from : from->owner != 0)) { shut(c); return; }
    c->own = from;
    from->owner = c;
    if (half(ams + 18) & 1) { respond(c, ams, size); return; }
    struct connection *to = route(ams)->owner;
    if (to && give(to, ams, size)) {
        if (command != 8) remember(c, to, ams);
        return;
    }
    uint8_t told[32];
    put(put(put(put(mempcpy(mempcpy(told, ams + 8, 8), ams, 8), command | 5 << 16), 0), 7), word(ams + 28));
    if (command != 8) give(c, told, 32);
}

static void await(uint32_t what, int socket, int how, uint32_t which) {
    epoll_ctl(events, how, socket, &(struct epoll_event){.events = which, .data.u32 = what});
}

static void end(struct connection *c) {
    if (c->own && c->own->owner == c) c->own->owner = 0;
    close(c->socket);
    c->socket = c->waits = c->closing = c->came = c->from = c->queued = c->first = c->asked = 0;
    c->own = 0;
}

static void flush(struct connection *c) {
    c->due = 0;
    if (!c->socket) return;
    ssize_t sent = c->queued ? send(c->socket, c->queue + c->from, c->queued, MSG_NOSIGNAL) : 0;
    if (c->closing || (sent < 0 && errno != EAGAIN)) { end(c); return; }
    if (sent > 0) c->queued -= sent, c->from = c->queued ? c->from + sent : 0;
    int waits = c->queued > 0;
    if (waits != c->waits) await(c - connections, c->socket, EPOLL_CTL_MOD, EPOLLIN | (waits ? EPOLLOUT : 0));
    c->waits = waits;
}

static void receive(struct connection *c) {
    ssize_t got = recv(c->socket, c->input + c->came, INPUT - c->came, 0);
    if (got == 0 || (got < 0 && errno != EAGAIN)) { end(c); return; }
    c->came += got > 0 ? got : 0;
    uint32_t at = 0, size;
    for (; !c->closing && c->came - at >= 6; at += 6 + size) {
        size = word(c->input + at + 2);
        if (half(c->input + at) || size < 32 || size > LONGEST) { shut(c); break; }
        if (c->came - at < 6 + size) break;
        pass(c, c->input + at + 6, size);
    }
    memmove(c->input, c->input + at, c->came -= at);
}

static void accept_all(void) {
    static uint64_t numbers;
    for (int i = 0, on = 1, socket; i < CONNECTIONS; i++) {
        if (connections[i].socket) continue;
        if ((socket = accept4(listener, 0, 0, SOCK_NONBLOCK)) < 0) return;
        setsockopt(socket, IPPROTO_TCP, TCP_NODELAY, &on, sizeof on);
        connections[i].number = ++numbers;
        await(i, connections[i].socket = socket, EPOLL_CTL_ADD, EPOLLIN);
    }
}

int main(int count, char **words) {
    struct sockaddr_in at = {.sin_family = AF_INET, .sin_port = htons(count == 2 ? atoi(words[1]) : 0), .sin_addr = {htonl(INADDR_LOOPBACK)}};
    struct epoll_event found[CONNECTIONS + 1];
    for (int k = 0; k < ROUTES; k++) {
        uint8_t net[6] = {10, 0, k % 256, 1 + k / 256, 1, 1};
        struct route *it = route(net);
        memcpy(it->net, net, 6);
        it->known = 1;
    }
    listener = socket(AF_INET, SOCK_STREAM | SOCK_NONBLOCK, 0);
    must(!bind(listener, (struct sockaddr *)&at, sizeof at) && !listen(listener, CONNECTIONS));
    events = epoll_create1(0);
    await(LISTENER, listener, EPOLL_CTL_ADD, EPOLLIN);
    puts("listening");
    for (fflush(stdout);;) {
        for (int i = 0, n = epoll_wait(events, found, CONNECTIONS + 1, -1); i < n; i++) {
            uint32_t what = found[i].data.u32;
            if (what == LISTENER) accept_all();
            else if (connections[what].socket) receive(connections + what), mark(connections + what);
            while (dues) flush(due[--dues]);
        }
    }
}
