/* pair_client OWN_PORT PORT COUNT SIZE: sends COUNT datagrams of SIZE bytes one after the other, each as soon as the one before is
 * answered. It ends with status 0 after the last answer, and with status 1 where one doesn't come for two seconds. */
#include "loopback.h"

int main(int words, char **word) {
    if (words != 5) {
        fprintf(stderr, "usage: pair_client OWN_PORT PORT COUNT SIZE\n");
        return 1;
    }
    int made = bound_socket(number(word[1], 1, 65535), 2000);
    struct sockaddr_in to = loopback(number(word[2], 1, 65535));
    long count = number(word[3], 1, 1000000);
    size_t size = (size_t)number(word[4], 4, ROOM);
    unsigned char request[ROOM], came[ROOM];
    memset(request, 'k', sizeof request);
    for (long i = 0; i < count; i++) {
        unsigned int name = htonl((unsigned int)i);
        memcpy(request, &name, 4);
        if (sendto(made, request, size, 0, (struct sockaddr *)&to, sizeof to) < 0) fail("sendto");
        ssize_t got = recv(made, came, sizeof came, 0);
        if (got < 4) fail("recv");
        if (memcmp(came, &name, 4) != 0) {
            fprintf(stderr, "an answer to another datagram came\n");
            return 1;
        }
    }
    return 0;
}
