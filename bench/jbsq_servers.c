/* jbsq_servers ROUTER_PORT SHORT LONG PORT...: servers of requests under JBSQ, a thread each. A server executes one request at a time,
 * sends the reply to its client, and then feedback to the router. Nine requests in ten take it SHORT microseconds and the tenth takes
 * LONG; the number in the request decides which, so that each run has the same ones. A request that comes again is answered at once.
 * A server sleeps for that time, so that there can be more servers than processors. They run until a signal ends them. */
#include "jbsq.h"
#include <errno.h>
#include <pthread.h>
#include <sys/prctl.h>

enum { SERVERS = 64, KEPT = 1024 };

static struct sockaddr_in router;
static int64_t short_ns, long_ns;

/* Sleeps for so many nanoseconds. */
static void work(int64_t ns) {
    int64_t end = time_of(CLOCK_MONOTONIC) + ns;
    struct timespec moment = {end / 1000000000, end % 1000000000};
    while (clock_nanosleep(CLOCK_MONOTONIC, TIMER_ABSTIME, &moment, NULL) == EINTR) {
    }
}

/* Whether a request was answered before. It counts as answered from now on. */
static bool is_answered(unsigned char kept[KEPT][LONG_HEADER], const unsigned char *header) {
    uint64_t client = 0;
    memcpy(&client, header + 8, 6);
    unsigned char *place = kept[mixed(client << 16 | id_in(header)) % KEPT];
    if (memcmp(place, header, LONG_HEADER) == 0) return true;
    memcpy(place, header, LONG_HEADER);
    return false;
}

static void answer(int made, unsigned char *header, uint64_t index) {
    unsigned char reply[HEADER + PAYLOAD];
    struct sockaddr_in client = client_in(header);
    memset(reply, 0, sizeof reply);
    put_header(reply, REPLY, id_in(header));
    for (int i = 0; i < 8; i++) reply[HEADER + i] = (unsigned char)(index >> (56 - 8 * i));
    send_to(made, reply, sizeof reply, &client);
    header[2] = FEEDBACK;
    send_to(made, header, LONG_HEADER, &router);
}

static void *serve(void *word) {
    static _Thread_local unsigned char kept[KEPT][LONG_HEADER];
    int made = bound_socket(number(word, 1, 65535), 0);
    if (prctl(PR_SET_TIMERSLACK, 1UL) < 0) fail("prctl");
    for (uint64_t index = 1;; index++) {
        unsigned char came[ROOM];
        ssize_t got = recv(made, came, sizeof came, 0);
        if (got < 0) fail("recv");
        if (got != LONG_HEADER + BODY || !is_header(came, got, LONG_HEADER, REQUEST)) continue;
        if (!is_answered(kept, came) && long_ns > 0) {
            work(mixed(number_in_body(came + LONG_HEADER)) % 10 == 0 ? long_ns : short_ns);
        }
        answer(made, came, index);
    }
    return NULL;
}

int main(int words, char **word) {
    if (words < 5 || words > 4 + SERVERS) {
        fprintf(stderr, "usage: jbsq_servers ROUTER_PORT SHORT LONG PORT...\n");
        return 1;
    }
    router = loopback(number(word[1], 1, 65535));
    short_ns = 1000 * number(word[2], 0, 1000000);
    long_ns = 1000 * number(word[3], 0, 1000000);
    pthread_t threads[SERVERS];
    for (int i = 4; i < words; i++) {
        if (pthread_create(&threads[i - 4], NULL, serve, word[i]) != 0) fail("pthread_create");
    }
    for (int i = 4; i < words; i++) pthread_join(threads[i - 4], NULL);
    return 0;
}
