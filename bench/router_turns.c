/* router_turns ROUTER_PORT SERVER_PORT ROUTER_PID WAITING STEPS: what a router's turns cost while WAITING requests wait in it. The
 * router's only server is this program, at SERVER_PORT, and may hold one request. So the first request goes there and the others
 * wait. Then come the steps: feedback for the request that the server holds, upon which the one that waits longest comes, and a new
 * request, so that as many wait as before. A step is two turns of the router. At the end all requests that wait are taken out, which
 * shows that there were as many as there should be, and that they come in the order in which they were made.
 * It prints two numbers of nanoseconds for a turn: the elapsed time, and the time that the router spent on a processor. */
#include "jbsq.h"

enum { CLIENTS = 3, IDS = 65536, MOST_WAITING = 65536, AT_ONCE = 100 };

static int clients[CLIENTS], server;
static struct sockaddr_in router, addresses[CLIENTS];
static long made;
/* The number of the request that the server holds. */
static long held;

/* Request k is the client's k / IDS, and its number k modulo IDS. */
static void ask(void) {
    unsigned char bytes[HEADER + BODY];
    put_header(bytes, REQUEST, (unsigned)(made % IDS));
    put_body(bytes + HEADER, (uint32_t)made);
    send_to(clients[made / IDS], bytes, sizeof bytes, &router);
    made++;
}

static void give_feedback(void) {
    unsigned char bytes[LONG_HEADER];
    put_header(bytes, FEEDBACK, (unsigned)(held % IDS));
    put_client(bytes, &addresses[held / IDS]);
    send_to(server, bytes, sizeof bytes, &router);
}

/* Waits until the router sends the request after the one that was held. At a tick it sends the held one again. */
static void take_next(void) {
    long came_number;
    do {
        unsigned char came[ROOM];
        ssize_t got = recv(server, came, sizeof came, 0);
        if (got < 0) fail("recv");
        if (got != LONG_HEADER + BODY || !is_header(came, got, LONG_HEADER, REQUEST)) {
            fprintf(stderr, "a datagram came that is no request\n");
            exit(1);
        }
        came_number = (long)number_in_body(came + LONG_HEADER);
    } while (came_number == held);
    if (came_number != held + 1) {
        fprintf(stderr, "request %ld came where %ld was the next\n", came_number, held + 1);
        exit(1);
    }
    held = came_number;
}

static void step(void) {
    give_feedback();
    ask();
    take_next();
}

/* Makes `waiting` requests wait. A step in between shows that the router has taken all that came before it. */
static void fill(long waiting) {
    held = -1;
    ask();
    take_next();
    for (long i = 1; i <= waiting; i++) {
        ask();
        if (i % AT_ONCE == 0) step();
    }
    for (int i = 0; i < AT_ONCE; i++) step();
}

static void empty(long waiting) {
    for (long i = 0; i < waiting; i++) {
        give_feedback();
        take_next();
    }
    give_feedback();
    if (held + 1 != made) {
        fprintf(stderr, "%ld requests were made and %ld came\n", made, held + 1);
        exit(1);
    }
}

int main(int words, char **word) {
    if (words != 6) {
        fprintf(stderr, "usage: router_turns ROUTER_PORT SERVER_PORT ROUTER_PID WAITING STEPS\n");
        return 1;
    }
    router = loopback(number(word[1], 1, 65535));
    server = bound_socket(number(word[2], 1, 65535), 2000);
    clockid_t own;
    if (clock_getcpuclockid((pid_t)number(word[3], 1, 4194304), &own) != 0) fail("clock_getcpuclockid");
    long waiting = number(word[4], 0, MOST_WAITING);
    long steps = number(word[5], 1, 100000);
    for (int i = 0; i < CLIENTS; i++) {
        socklen_t length = sizeof addresses[i];
        clients[i] = bound_socket(0, 1);
        if (getsockname(clients[i], (struct sockaddr *)&addresses[i], &length) < 0) fail("getsockname");
    }
    fill(waiting);
    int64_t begun = time_of(CLOCK_MONOTONIC), busy = time_of(own);
    for (long i = 0; i < steps; i++) step();
    int64_t all = time_of(CLOCK_MONOTONIC) - begun;
    busy = time_of(own) - busy;
    empty(waiting);
    printf("%lld %lld\n", (long long)(all / steps / 2), (long long)(busy / steps / 2));
    return 0;
}
