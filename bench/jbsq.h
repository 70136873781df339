/* The datagrams of requests, replies and feedback under the policy JBSQ, of one part each (docs/PROTOCOL.md has the header). */
#ifndef JBSQ_H
#define JBSQ_H

#include "loopback.h"
#include <stdbool.h>
#include <stdint.h>
#include <time.h>

/* The type and the policy, together in the third byte. */
enum { REQUEST = 0x01, REPLY = 0x11, FEEDBACK = 0x41 };

/* Sizes: a header, a header with the client's address, the body of a request here, the payload of a reply here. */
enum { HEADER = 8, LONG_HEADER = 16, BODY = 7, PAYLOAD = 25 };

/* Writes a header without the client's address. */
static inline void put_header(unsigned char *out, int kind, unsigned id) {
    const unsigned char header[HEADER] = {0x52, HEADER, (unsigned char)kind, 0xC0, (unsigned char)(id >> 8), (unsigned char)id, 0, 1};
    memcpy(out, header, HEADER);
}

/* Adds the client's address after the eight bytes of a header. */
static inline void put_client(unsigned char *out, const struct sockaddr_in *client) {
    out[1] = LONG_HEADER;
    memcpy(out + 8, &client->sin_addr.s_addr, 4);
    memcpy(out + 12, &client->sin_port, 2);
    memset(out + 14, 0, 2);
}

static inline struct sockaddr_in client_in(const unsigned char *bytes) {
    struct sockaddr_in client = loopback(0);
    memcpy(&client.sin_addr.s_addr, bytes + 8, 4);
    memcpy(&client.sin_port, bytes + 12, 2);
    return client;
}

static inline unsigned id_in(const unsigned char *bytes) {
    return (unsigned)bytes[4] << 8 | bytes[5];
}

/* The body of request number k: get of a key of four bytes, which are the number. */
static inline void put_body(unsigned char *out, uint32_t k) {
    const unsigned char body[BODY] = {0x47, 0, 4, (unsigned char)(k >> 24), (unsigned char)(k >> 16), (unsigned char)(k >> 8), (unsigned char)k};
    memcpy(out, body, BODY);
}

static inline uint32_t number_in_body(const unsigned char *body) {
    return (uint32_t)body[3] << 24 | (uint32_t)body[4] << 16 | (uint32_t)body[5] << 8 | body[6];
}

static inline bool is_header(const unsigned char *bytes, ssize_t got, int size, int kind) {
    return got >= size && bytes[0] == 0x52 && bytes[1] == size && bytes[2] == kind && bytes[3] == 0xC0;
}

static inline void send_to(int from, const unsigned char *bytes, size_t size, const struct sockaddr_in *to) {
    if (sendto(from, bytes, size, 0, (const struct sockaddr *)to, sizeof *to) < 0) fail("sendto");
}

/* What the clock shows, in nanoseconds. */
static inline int64_t time_of(clockid_t clock) {
    struct timespec moment;
    if (clock_gettime(clock, &moment) < 0) fail("clock_gettime");
    return moment.tv_sec * (int64_t)1000000000 + moment.tv_nsec;
}

/* A number that looks drawn from another one. */
static inline uint64_t mixed(uint64_t x) {
    x += 0x9E3779B97F4A7C15;
    x = (x ^ x >> 30) * 0xBF58476D1CE4E5B9;
    x = (x ^ x >> 27) * 0x94D049BB133111EB;
    return x ^ x >> 31;
}

#endif
