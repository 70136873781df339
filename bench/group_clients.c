/* group_clients HOST KIND CLIENTS COUNT PORT..: CLIENTS clients, each with a socket of its own at 127.0.0.HOST, make COUNT calls in all to
 * a group whose members listen at these ports of 127.0.0.1. A group knows its clients for good, so each run needs another HOST. Each client sends a call to every member, and makes its next one as soon as a member has
 * answered. With the KIND put a call sets one of 1,024 keys of 8 bytes to a value of 16 bytes; with get it reads one. It prints three
 * numbers: the microseconds from the first call to the last reply, and the nanoseconds of the median and of the 99th percentile of the
 * time to a reply. A call without a reply is sent again each half second. It ends with status 1 where a reply isn't as it must be, or none
 * comes for ten seconds. */
#define _GNU_SOURCE
#include "jbsq.h"
#include <errno.h>
#include <sys/epoll.h>

enum { CLIENTS = 1024, MEMBERS = 7, IDS = 65536, KEYS = 1024, KEY = 8, VALUE = 16 };
enum { PUT = 0x02, GET = 0x03, PUT_REPLY = 0x12, GET_REPLY = 0x13, ANSWER = 9 };

/* In nanoseconds. */
static const int64_t PATIENCE = 10000000000, REPEAT = 500000000;

static int clients[CLIENTS];
static long client_count, member_count, count, answered;
static struct sockaddr_in members[MEMBERS];
static bool gets;
/* When each call was made, 0 where it isn't yet; when it was sent last; how long its reply took, -1 where there is none. */
static int64_t *begun, *sent, *took;

/* The key and the value of call k. */
static size_t put_call(unsigned char *out, long k) {
    const unsigned char head[3] = {gets ? 0x47 : 0x50, 0, KEY};
    char text[KEY + 2 * VALUE];
    snprintf(text, sizeof text, "key-%04dvalue-%010u", (int)(k % KEYS), (unsigned)k);
    memcpy(out, head, sizeof head);
    memcpy(out + sizeof head, text, gets ? KEY : KEY + VALUE);
    return sizeof head + (gets ? KEY : KEY + VALUE);
}

/* Call k is the client's k modulo CLIENTS, and its number k divided by CLIENTS. */
static void send_call(long k, int64_t moment) {
    unsigned char bytes[ROOM];
    put_header(bytes, gets ? GET : PUT, (unsigned)(k / client_count));
    size_t size = HEADER + put_call(bytes + HEADER, k);
    sent[k] = moment;
    for (long i = 0; i < member_count; i++) send_to(clients[k % client_count], bytes, size, &members[i]);
}

static void begin(long k) {
    begun[k] = time_of(CLOCK_MONOTONIC);
    send_call(k, begun[k]);
}

/* Sends again what was sent long ago and has no reply; of each client only its last call can be such. */
static void repeat(int64_t now, const long *open) {
    static int64_t next;
    if (now < next) return;
    next = now + REPEAT / 10;
    for (long i = 0; i < client_count; i++) {
        if (open[i] < count && now > sent[open[i]] + REPEAT) send_call(open[i], now);
    }
}

/* Takes a datagram of a client, if there is one; says whether it answers the open call. */
static bool take(long client, long k) {
    unsigned char came[ROOM];
    ssize_t got = recv(clients[client], came, sizeof came, MSG_DONTWAIT);
    if (got < 0 && (errno == EAGAIN || errno == EINTR || errno == ECONNREFUSED)) return false;
    if (got < 0) fail("recv");
    if (!is_header(came, got, HEADER, gets ? GET_REPLY : PUT_REPLY) || got < HEADER + ANSWER || came[HEADER + 8] > 1) {
        fprintf(stderr, "a datagram came that is no reply to a call\n");
        exit(1);
    }
    if (k >= count || id_in(came) != (unsigned)(k / client_count)) return false;
    took[k] = time_of(CLOCK_MONOTONIC) - begun[k];
    answered++;
    return true;
}

/* Makes the calls until each has its reply, or none comes for too long. */
static void run(int all) {
    static long open[CLIENTS];
    int64_t heard = time_of(CLOCK_MONOTONIC);
    for (long i = 0; i < client_count; i++) {
        open[i] = i;
        if (i < count) begin(i);
    }
    while (answered < count) {
        struct epoll_event ready[CLIENTS];
        int some = epoll_wait(all, ready, (int)client_count, 50);
        int64_t now = time_of(CLOCK_MONOTONIC);
        for (int i = 0; i < some; i++) {
            long client = ready[i].data.u32;
            if (!take(client, open[client])) continue;
            heard = now;
            open[client] += client_count;
            if (open[client] < count) begin(open[client]);
        }
        repeat(now, open);
        if (now > heard + PATIENCE) return;
    }
}

static int compare(const void *one, const void *other) {
    int64_t a = *(const int64_t *)one, b = *(const int64_t *)other;
    return (a > b) - (a < b);
}

static int64_t *row_of(int64_t value) {
    int64_t *row = malloc((size_t)count * sizeof *row);
    if (row == NULL) fail("malloc");
    for (long i = 0; i < count; i++) row[i] = value;
    return row;
}

static int client_socket(long host) {
    struct sockaddr_in address = loopback(0);
    address.sin_addr.s_addr = htonl(0x7F000000 | (uint32_t)host);
    int made = socket(AF_INET, SOCK_DGRAM, 0);
    if (made < 0) fail("socket");
    if (bind(made, (struct sockaddr *)&address, sizeof address) < 0) fail("bind");
    return made;
}

static int clients_ready(long host) {
    int all = epoll_create1(0);
    if (all < 0) fail("epoll_create1");
    for (long i = 0; i < client_count; i++) {
        struct epoll_event readable = {.events = EPOLLIN, .data.u32 = (uint32_t)i};
        clients[i] = client_socket(host);
        if (epoll_ctl(all, EPOLL_CTL_ADD, clients[i], &readable) < 0) fail("epoll_ctl");
    }
    return all;
}

int main(int words, char **word) {
    gets = words > 2 && strcmp(word[2], "get") == 0;
    if (words < 6 || words > 5 + MEMBERS || !(gets || strcmp(word[2], "put") == 0)) {
        fprintf(stderr, "usage: group_clients HOST put|get CLIENTS COUNT PORT..\n");
        return 1;
    }
    client_count = number(word[3], 1, CLIENTS);
    count = number(word[4], 1, client_count * IDS);
    member_count = words - 5;
    for (long i = 0; i < member_count; i++) members[i] = loopback(number(word[5 + i], 1, 65535));
    begun = row_of(0);
    sent = row_of(0);
    took = row_of(-1);
    int all = clients_ready(number(word[1], 2, 254));
    int64_t start = time_of(CLOCK_MONOTONIC);
    run(all);
    int64_t passed = time_of(CLOCK_MONOTONIC) - start;
    if (answered < count) {
        fprintf(stderr, "%ld of %ld calls got no reply\n", count - answered, count);
        return 1;
    }
    qsort(took, (size_t)count, sizeof *took, compare);
    printf("%lld %lld %lld\n", (long long)passed / 1000, (long long)took[(count - 1) / 2], (long long)took[(count * 99 + 99) / 100 - 1]);
    return 0;
}
