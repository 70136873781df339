/* many_clients PORT CLIENTS COUNT RATE: CLIENTS clients, each with a socket of its own, make COUNT requests in all to a router. With
 * RATE 0 each client sends its next request as soon as the one before is answered. Otherwise RATE requests a second are due, at random
 * times, each from the next client in turn, whether earlier ones are answered or not. It prints three numbers of microseconds: from the
 * first request to the last reply, and the median and the 99th percentile of the time to a reply, counted from the moment at which a
 * request was due. A request without a reply is sent again each half second, since a datagram may be lost where a process has to
 * wait for a processor. It ends with status 1 where no reply comes for ten seconds. */
#define _GNU_SOURCE
#include "jbsq.h"
#include <errno.h>
#include <math.h>
#include <poll.h>
#include <sys/epoll.h>

enum { CLIENTS = 1024, IDS = 65536, REQUEST_SIZE = HEADER + BODY };

/* In nanoseconds. */
static const int64_t SECOND = 1000000000, PATIENCE = 10000000000, REPEAT = 500000000;

static int clients[CLIENTS];
static long client_count, count, asked, answered;
static struct sockaddr_in router;
/* When each request was due, 0 where it isn't asked yet; when it was sent last; how long its reply took, -1 where there is none. */
static int64_t *due, *sent, *took;

/* Request k is the client's k modulo CLIENTS, and its number k divided by CLIENTS. */
static void send_request(long k, int64_t moment) {
    unsigned char bytes[REQUEST_SIZE];
    put_header(bytes, REQUEST, (unsigned)(k / client_count));
    put_body(bytes + HEADER, (uint32_t)k);
    sent[k] = moment;
    send_to(clients[k % client_count], bytes, sizeof bytes, &router);
}

static void ask(long k, int64_t moment) {
    due[k] = moment;
    asked++;
    send_request(k, moment);
}

/* Sends again what was sent long ago and has no reply. */
static void repeat(int64_t now) {
    static int64_t next;
    if (now < next) return;
    next = now + REPEAT / 10;
    for (long k = 0; k < count; k++) {
        if (due[k] > 0 && took[k] < 0 && now > sent[k] + REPEAT) send_request(k, now);
    }
}

/* Takes a datagram of a client, if there is one; says which request it answers, or -1. */
static long take(long client) {
    unsigned char came[ROOM];
    ssize_t got = recv(clients[client], came, sizeof came, MSG_DONTWAIT);
    if (got < 0 && (errno == EAGAIN || errno == EINTR)) return -1;
    if (got < 0) fail("recv");
    long k = (long)id_in(came) * client_count + client;
    if (got != HEADER + PAYLOAD || !is_header(came, got, HEADER, REPLY) || k >= count || due[k] == 0) {
        fprintf(stderr, "a datagram came that is no reply to a request\n");
        exit(1);
    }
    if (took[k] >= 0) return -1;
    took[k] = time_of(CLOCK_MONOTONIC) - due[k];
    answered++;
    return k;
}

/* Waits for datagrams, at most until that moment, and takes one of each client that has some; each reply may let its client ask
 * again. It waits to the nanosecond on the one descriptor that stands for all. */
static void take_some(int all, int64_t until, bool asks_again) {
    struct epoll_event ready[CLIENTS];
    struct pollfd one = {all, POLLIN, 0};
    int64_t left = until - time_of(CLOCK_MONOTONIC);
    struct timespec wait = {left > 0 ? left / SECOND : 0, left > 0 ? left % SECOND : 0};
    if (ppoll(&one, 1, &wait, NULL) <= 0) return;
    int some = epoll_wait(all, ready, (int)client_count, 0);
    for (int i = 0; i < some; i++) {
        long k = take(ready[i].data.u32);
        if (k >= 0 && asks_again && k + client_count < count) ask(k + client_count, time_of(CLOCK_MONOTONIC));
    }
}

/* A number above 0 and below 1 that looks drawn. */
static double drawn(long i) {
    return (double)((mixed((uint64_t)i) >> 11) + 1) / 9007199254740994.0;
}

/* Makes the requests until each has its reply, or none comes for too long. */
static void run(int all, double rate) {
    int64_t heard = time_of(CLOCK_MONOTONIC);
    double next = (double)heard;
    for (long k = 0; rate == 0 && k < client_count && k < count; k++) ask(k, heard);
    while (answered < count) {
        int64_t now = time_of(CLOCK_MONOTONIC);
        while (rate > 0 && asked < count && next <= (double)now) {
            ask(asked, (int64_t)next);
            next -= log(drawn(asked)) * (double)SECOND / rate;
        }
        repeat(now);
        long before = answered;
        int64_t until = now + REPEAT / 10;
        if (rate > 0 && asked < count && next < (double)until) until = (int64_t)next;
        take_some(all, until, rate == 0);
        if (answered > before) heard = time_of(CLOCK_MONOTONIC);
        else if (now > heard + PATIENCE) return;
    }
}

static int compare(const void *one, const void *other) {
    int64_t a = *(const int64_t *)one, b = *(const int64_t *)other;
    return (a > b) - (a < b);
}

static int64_t *row_of(int64_t value) {
    int64_t *row = malloc((size_t)count * sizeof *row);
    if (row == NULL) fail("malloc");
    for (long i = 0; i < count; i++) row[i] = value;
    return row;
}

int main(int words, char **word) {
    if (words != 5) {
        fprintf(stderr, "usage: many_clients PORT CLIENTS COUNT RATE\n");
        return 1;
    }
    router = loopback(number(word[1], 1, 65535));
    client_count = number(word[2], 1, CLIENTS);
    count = number(word[3], 1, client_count * IDS);
    long rate = number(word[4], 0, 10000000);
    due = row_of(0);
    sent = row_of(0);
    took = row_of(-1);
    int all = epoll_create1(0);
    if (all < 0) fail("epoll_create1");
    for (long i = 0; i < client_count; i++) {
        struct epoll_event readable = {.events = EPOLLIN, .data.u32 = (uint32_t)i};
        clients[i] = bound_socket(0, 0);
        if (epoll_ctl(all, EPOLL_CTL_ADD, clients[i], &readable) < 0) fail("epoll_ctl");
    }
    int64_t begun = time_of(CLOCK_MONOTONIC);
    run(all, (double)rate);
    int64_t passed = time_of(CLOCK_MONOTONIC) - begun;
    if (answered < count) {
        fprintf(stderr, "%ld of %ld requests got no reply\n", count - answered, count);
        return 1;
    }
    qsort(took, (size_t)count, sizeof *took, compare);
    printf("%lld %lld %lld\n", (long long)passed / 1000, (long long)took[(count - 1) / 2] / 1000, (long long)took[(count * 99 + 99) / 100 - 1] / 1000);
    return 0;
}
