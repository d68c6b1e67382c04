// A server of ADS by hand, beside which bench/serve.py loads `ads serve`: what this machine can do. One thread, epoll, and no call for memory. It has the plant that
// serve.py describes and answers what the load asks: states, reads and writes by group and by handle, handles by name, sums of reads, notifications on change. It checks
// what every server must check (lengths, flags, addresses, groups, offsets, handles); but the load asks nothing that is to be refused, so what is ends the server.
//
//     serve_limit PORT      prints `listening`, and serves until it is killed
#define _GNU_SOURCE
#include <errno.h>
#include <netinet/in.h>
#include <netinet/tcp.h>
#include <stdint.h>
#include <stdio.h>
#include <stdlib.h>
#include <string.h>
#include <sys/epoll.h>
#include <sys/timerfd.h>
#include <time.h>
#include <unistd.h>

// The symbols v0, v1.. have four bytes each, from the first byte of the data area on; behind them stands the ramp, of two bytes.
enum { SYMBOLS = 6400, RAMP = 4 * SYMBOLS, DATA = 32768, CONNECTIONS = 64, LISTENER = CONNECTIONS, TIMER, HANDLES = 4096, WATCHES = 512 };
enum { INPUT = 262144, QUEUE = 1048576 }; // the most bytes of a frame, and of what waits for a client

static struct connection {
    int socket, waits;                       // no socket: 0; waits: for room in the socket
    uint32_t came, queued, handles, watches; // how much there is of the following
    uint8_t input[INPUT], queue[QUEUE], client[8];
    uint32_t handle[HANDLES];
    struct watch {
        uint32_t at, size, cycle, sent;
        uint64_t checked;
        uint8_t last[8];
    } watch[WATCHES];
} connections[CONNECTIONS];
static uint8_t data[DATA];
static int events, listener, timer;
static const uint8_t SERVER[8] = {5, 1, 2, 3, 1, 1, 0x53, 3}, ROUTE[6] = {192, 168, 0, 9, 1, 1};

static void must(int holds) { if (!holds) exit(1); }
static uint16_t half(const uint8_t *at) { uint16_t n; memcpy(&n, at, 2); return n; }
static uint32_t word(const uint8_t *at) { uint32_t n; memcpy(&n, at, 4); return n; }
static uint8_t *put(uint8_t *at, uint32_t n) { return mempcpy(at, &n, 4); }

// Queues a frame; where its payload is to stand.
static uint8_t *frame(struct connection *c, const uint8_t *to, const uint8_t *from, uint32_t kind, uint32_t size, uint32_t number) {
    uint8_t *at = c->queue + c->queued;
    must((c->queued += 38 + size) <= QUEUE);
    put(put(at, 0) - 2, 32 + size);
    put(put(put(put(mempcpy(mempcpy(at + 6, to, 8), from, 8), kind), size), 0), number);
    return at + 38;
}

// Queues a reply with the result 0; where the rest of its payload is to stand.
static uint8_t *reply(struct connection *c, const uint8_t *ams, uint32_t size) {
    return put(frame(c, ams + 8, ams, half(ams + 16) | 5 << 16, size, word(ams + 28)), 0);
}

// Where an access of so many bytes stands.
static uint8_t *place(struct connection *c, const uint8_t *access, uint32_t size) {
    uint32_t group = word(access), offset = word(access + 4);
    must(group == 0x4040 ? offset <= DATA && size <= DATA - offset : group == 0xF005 && offset - 1 < c->handles && size <= 4);
    return data + (group == 0x4040 ? offset : c->handle[offset - 1]);
}

static void sum_of_reads(struct connection *c, const uint8_t *ams, const uint8_t *given, const uint8_t *end) {
    uint32_t count = word(given + 4);
    uint64_t whole = 4ull * count;
    must(count <= 500 && end - given == 16 + 12 * count);
    for (const uint8_t *part = given + 16; part < end; part += 12) whole += word(part + 8);
    must(whole <= word(given + 8) && whole <= INPUT);
    uint8_t *code = put(reply(c, ams, 8 + whole), whole), *bytes = code + 4 * count;
    for (const uint8_t *part = given + 16; part < end; part += 12, code += 4) {
        bytes = mempcpy(bytes, place(c, part, word(part + 8)), word(part + 8));
        put(code, 0);
    }
}

static void grant(struct connection *c, const uint8_t *ams, const uint8_t *given, const uint8_t *end) {
    char name[12] = "", known[12];
    memcpy(name, given + 16, end - given - 16 < 11 ? end - given - 16 : 11);
    uint32_t symbol = strtoul(name + 1, 0, 10);
    snprintf(known, sizeof known, "v%u", symbol);
    must(!strcmp(name, known) && symbol < SYMBOLS && word(given + 8) >= 4 && c->handles < HANDLES);
    c->handle[c->handles++] = 4 * symbol;
    put(put(reply(c, ams, 12), 4), c->handles);
}

static void add(struct connection *c, const uint8_t *ams, const uint8_t *given, uint32_t size) {
    must(size && size <= 8 && word(given + 12) == 4 && c->watches < WATCHES);
    memcpy(c->client, ams + 8, 8);
    c->watch[c->watches++] = (struct watch){.at = place(c, given, size) - data, .size = size, .cycle = word(given + 20)};
    put(reply(c, ams, 8), c->watches);
}

static void answer(struct connection *c, const uint8_t *ams, uint32_t size) {
    const uint8_t *given = ams + 32, *end = given + size;
    uint32_t command = half(ams + 16), own = size < 12 ? 0 : word(given + 8);
    must(word(ams + 20) == size && half(ams + 18) == 4 && !memcmp(ams + 8, ROUTE, 6) && !memcmp(ams, SERVER, 8));
    must(command == 2 ? size == 12 : command == 3 ? size >= 12 && own == size - 12 : command == 4 ? size == 0 : command == 6 ? size == 40
        : command == 9 && size >= 16 && word(given + 12) == size - 16 && (word(given) == 0xF080 || word(given) == 0xF003));
    if (command == 2) memcpy(put(reply(c, ams, 8 + own), own), place(c, given, own), own);
    else if (command == 3) memcpy(place(c, given, own), given + 12, own), reply(c, ams, 4);
    else if (command == 4) put(reply(c, ams, 8), 5);
    else if (command == 6) add(c, ams, given, own);
    else (word(given) == 0xF080 ? sum_of_reads : grant)(c, ams, given, end);
}

static void await(uint32_t what, int socket, int how, uint32_t which) {
    epoll_ctl(events, how, socket, &(struct epoll_event){.events = which, .data.u32 = what});
}

static void flush(struct connection *c) {
    ssize_t sent = c->queued ? send(c->socket, c->queue, c->queued, MSG_NOSIGNAL) : 0;
    if (sent > 0) memmove(c->queue, c->queue + sent, c->queued -= sent);
    int waits = c->queued > 0;
    if (waits != c->waits) await(c - connections, c->socket, EPOLL_CTL_MOD, EPOLLIN | (waits ? EPOLLOUT : 0));
    c->waits = waits;
}

static void receive(struct connection *c) {
    ssize_t got = recv(c->socket, c->input + c->came, INPUT - c->came, 0);
    if (got == 0 || (got < 0 && errno != EAGAIN)) {
        close(c->socket);
        c->socket = c->waits = c->came = c->queued = c->handles = c->watches = 0;
        return;
    }
    c->came += got > 0 ? got : 0;
    uint32_t at = 0, size;
    for (; c->came - at >= 6; at += 6 + size) {
        size = word(c->input + at + 2);
        must(!half(c->input + at) && size >= 32 && size <= INPUT - 6);
        if (c->came - at < 6 + size) break;
        answer(c, c->input + at + 6, size - 32);
    }
    memmove(c->input, c->input + at, c->came -= at);
    flush(c);
}

static void notify(struct connection *c, uint64_t moment) {
    static uint8_t samples[WATCHES * 16];
    uint8_t *end = samples;
    uint32_t count = 0;
    for (struct watch *w = c->watch; w < c->watch + c->watches; w++) {
        if (w->sent && moment - w->checked < (w->cycle ? w->cycle : 1)) continue;
        w->checked = moment;
        if (w->sent && !memcmp(w->last, data + w->at, w->size)) continue;
        memcpy(w->last, data + w->at, w->size);
        end = mempcpy(put(put(end, w - c->watch + 1), w->size), w->last, w->size);
        count += w->sent = 1;
    }
    if (!count) return;
    uint8_t *at = put(put(frame(c, c->client, SERVER, 8 | 4 << 16, 20 + end - samples, 0), 16 + end - samples), 1);
    memcpy(put(mempcpy(at, &moment, 8), count), samples, end - samples);
    flush(c);
}

static void tick(void) {
    static uint64_t ticks, moment, ramp;
    struct timespec t;
    if (read(timer, &ticks, 8) < 0 || clock_gettime(CLOCK_REALTIME, &t)) return;
    uint64_t now = 116444736000000000 + t.tv_sec * 10000000ull + t.tv_nsec / 100; // since 1 January 1601, in 100 ns
    moment = now > moment ? now : moment;
    memcpy(data + RAMP, &ramp, 2);
    ramp = (ramp + 1) % 1000;
    for (struct connection *c = connections; c < connections + CONNECTIONS; c++) notify(c, moment);
}

static void accept_all(void) {
    for (int i = 0, on = 1, socket; i < CONNECTIONS; i++) {
        if (connections[i].socket) continue;
        if ((socket = accept4(listener, 0, 0, SOCK_NONBLOCK)) < 0) return;
        setsockopt(socket, IPPROTO_TCP, TCP_NODELAY, &on, sizeof on);
        await(i, connections[i].socket = socket, EPOLL_CTL_ADD, EPOLLIN);
    }
}

int main(int count, char **words) {
    struct sockaddr_in at = {.sin_family = AF_INET, .sin_port = htons(count == 2 ? atoi(words[1]) : 0), .sin_addr = {htonl(INADDR_LOOPBACK)}};
    struct epoll_event found[CONNECTIONS + 2];
    listener = socket(AF_INET, SOCK_STREAM | SOCK_NONBLOCK, 0);
    must(!bind(listener, (struct sockaddr *)&at, sizeof at) && !listen(listener, CONNECTIONS));
    timer = timerfd_create(CLOCK_MONOTONIC, TFD_NONBLOCK);
    timerfd_settime(timer, 0, &(struct itimerspec){{0, 10000000}, {0, 10000000}}, 0);
    events = epoll_create1(0);
    await(LISTENER, listener, EPOLL_CTL_ADD, EPOLLIN);
    await(TIMER, timer, EPOLL_CTL_ADD, EPOLLIN);
    puts("listening");
    for (fflush(stdout);;) {
        for (int i = 0, n = epoll_wait(events, found, CONNECTIONS + 2, -1); i < n; i++) {
            uint32_t what = found[i].data.u32;
            if (what == LISTENER) accept_all();
            else if (what == TIMER) tick();
            else if (connections[what].socket) receive(&connections[what]);
        }
    }
}
