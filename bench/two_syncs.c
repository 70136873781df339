/* two_syncs COUNT BYTES FILE..: for each FILE a process that makes COUNT records of BYTES bytes in it, each with two syncs: after the
 * bytes, which go to the end, and after one byte before them. All begin at once. It prints how many microseconds it took until the last
 * one had ended. */
#define _GNU_SOURCE
#include <fcntl.h>
#include <stdint.h>
#include <stdio.h>
#include <stdlib.h>
#include <string.h>
#include <sys/wait.h>
#include <time.h>
#include <unistd.h>

static void fail(const char *what) {
    perror(what);
    exit(1);
}

static int64_t now(void) {
    struct timespec moment;
    if (clock_gettime(CLOCK_MONOTONIC, &moment) < 0) fail("clock_gettime");
    return moment.tv_sec * (int64_t)1000000000 + moment.tv_nsec;
}

static void write_at(int file, const char *bytes, size_t size, off_t at) {
    if (pwrite(file, bytes, size, at) != (ssize_t)size) fail("pwrite");
    if (fdatasync(file) < 0) fail("fdatasync");
}

static void make_records(const char *path, long count, size_t size) {
    int file = open(path, O_RDWR | O_CREAT | O_TRUNC, 0600);
    char *record = calloc(1, size);
    if (file < 0 || record == NULL) fail(path);
    for (long i = 0; i < count; i++) {
        write_at(file, record, size, 1 + i * (off_t)size);
        write_at(file, "Z", 1, i * (off_t)size);
    }
}

int main(int words, char **word) {
    long count = words > 3 ? strtol(word[1], NULL, 10) : 0, size = words > 3 ? strtol(word[2], NULL, 10) : 0;
    if (count < 1 || size < 1) {
        fprintf(stderr, "usage: two_syncs COUNT BYTES FILE..\n");
        return 1;
    }
    int64_t begun = now();
    for (int i = 3; i < words; i++) {
        pid_t child = fork();
        if (child < 0) fail("fork");
        if (child == 0) {
            make_records(word[i], count, (size_t)size);
            exit(0);
        }
    }
    int status, wrong = 0;
    while (wait(&status) > 0) wrong |= status;
    if (wrong) return 1;
    printf("%lld\n", (long long)(now() - begun) / 1000);
    return 0;
}
