/* free_ports COUNT: prints so many ports of 127.0.0.1, one a line, that were free for UDP and took a datagram when it ran. */
#include "loopback.h"

int main(int words, char **word) {
    if (words != 2) {
        fprintf(stderr, "usage: free_ports COUNT\n");
        return 1;
    }
    long count = number(word[1], 1, 64);
    /* All stay bound until the program ends, so that they differ. */
    for (long i = 0; i < count; i++) {
        int made = bound_socket(0, 1000);
        struct sockaddr_in address;
        socklen_t length = sizeof address;
        if (getsockname(made, (struct sockaddr *)&address, &length) < 0) fail("getsockname");
        unsigned char came[1];
        if (sendto(made, "?", 1, 0, (struct sockaddr *)&address, length) < 0) fail("sendto");
        if (recv(made, came, sizeof came, 0) != 1) fail("recv");
        printf("%d\n", ntohs(address.sin_port));
    }
    return 0;
}
