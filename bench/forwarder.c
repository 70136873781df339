/* forwarder THREADS PORT SERVER_PORT...: sends each request on to one of the servers, drawn at random, and passes over all else. Its
 * threads receive from one socket. It counts nothing and holds nothing back, so it does at most what a router without a policy could.
 * It runs until a signal ends it. */
#include "jbsq.h"
#include <pthread.h>

enum { SERVERS = 64, THREADS = 16 };

static int made;
static struct sockaddr_in servers[SERVERS];
static unsigned server_count;

/* Sends requests on; each thread draws by numbers of its own. */
static void *forward(void *word) {
    unsigned char bytes[LONG_HEADER - HEADER + ROOM];
    unsigned char *came = bytes + LONG_HEADER - HEADER;
    for (uint64_t i = (uint64_t)(uintptr_t)word << 32;; i++) {
        struct sockaddr_in from;
        socklen_t length = sizeof from;
        ssize_t got = recvfrom(made, came, ROOM, 0, (struct sockaddr *)&from, &length);
        if (got < 0) fail("recvfrom");
        if (!is_header(came, got, HEADER, REQUEST)) continue;
        memmove(bytes, came, HEADER);
        put_client(bytes, &from);
        send_to(made, bytes, (size_t)got + LONG_HEADER - HEADER, &servers[mixed(i) % server_count]);
    }
    return NULL;
}

int main(int words, char **word) {
    if (words < 4 || words > 3 + SERVERS) {
        fprintf(stderr, "usage: forwarder THREADS PORT SERVER_PORT...\n");
        return 1;
    }
    uintptr_t threads = (uintptr_t)number(word[1], 1, THREADS);
    made = bound_socket(number(word[2], 1, 65535), 0);
    server_count = (unsigned)words - 3;
    for (unsigned i = 0; i < server_count; i++) servers[i] = loopback(number(word[3 + i], 1, 65535));
    for (uintptr_t i = 1; i < threads; i++) {
        pthread_t thread;
        if (pthread_create(&thread, NULL, forward, (void *)i) != 0) fail("pthread_create");
    }
    forward(0);
    return 0;
}
