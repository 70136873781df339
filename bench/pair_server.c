/* pair_server PORT COUNT SIZE: answers COUNT datagrams, each with one of SIZE bytes that begins with the first four bytes of what
 * came. It ends with status 0 after the last of them, and with status 1 where nothing comes for ten seconds. */
#include "loopback.h"

int main(int words, char **word) {
    if (words != 4) {
        fprintf(stderr, "usage: pair_server PORT COUNT SIZE\n");
        return 1;
    }
    int made = bound_socket(number(word[1], 1, 65535), 10000);
    long count = number(word[2], 1, 1000000);
    size_t size = (size_t)number(word[3], 4, ROOM);
    unsigned char came[ROOM], reply[ROOM];
    memset(reply, 'v', sizeof reply);
    for (long i = 0; i < count; i++) {
        struct sockaddr_in from;
        socklen_t length = sizeof from;
        ssize_t got = recvfrom(made, came, sizeof came, 0, (struct sockaddr *)&from, &length);
        if (got < 4) fail("recvfrom");
        memcpy(reply, came, 4);
        if (sendto(made, reply, size, 0, (struct sockaddr *)&from, length) < 0) fail("sendto");
    }
    return 0;
}
