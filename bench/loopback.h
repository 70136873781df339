/* What the two sides of the pair share: sockets on 127.0.0.1 with a bounded wait. */
#ifndef LOOPBACK_H
#define LOOPBACK_H

#include <arpa/inet.h>
#include <netinet/in.h>
#include <stdio.h>
#include <stdlib.h>
#include <string.h>
#include <sys/socket.h>
#include <sys/time.h>
#include <unistd.h>

/* Longer than each datagram that is sent. */
enum { ROOM = 2048 };

/* A message ends the program. */
static inline void fail(const char *what) {
    perror(what);
    exit(1);
}

/* A number of the command line within its range. */
static inline long number(const char *word, long least, long most) {
    char *end;
    long value = strtol(word, &end, 10);
    if (*word == '\0' || *end != '\0' || value < least || value > most) {
        fprintf(stderr, "%s isn't a number from %ld to %ld\n", word, least, most);
        exit(1);
    }
    return value;
}

static inline struct sockaddr_in loopback(long port) {
    struct sockaddr_in address;
    memset(&address, 0, sizeof address);
    address.sin_family = AF_INET;
    address.sin_addr.s_addr = htonl(INADDR_LOOPBACK);
    address.sin_port = htons((unsigned short)port);
    return address;
}

/* A socket that is bound to a port of 127.0.0.1, and waits so many milliseconds for a datagram at most. */
static inline int bound_socket(long port, long wait_ms) {
    struct sockaddr_in address = loopback(port);
    struct timeval wait = {wait_ms / 1000, wait_ms % 1000 * 1000};
    int made = socket(AF_INET, SOCK_DGRAM, 0);
    if (made < 0) fail("socket");
    if (setsockopt(made, SOL_SOCKET, SO_RCVTIMEO, &wait, sizeof wait) < 0) fail("setsockopt");
    if (bind(made, (struct sockaddr *)&address, sizeof address) < 0) fail("bind");
    return made;
}

#endif
