/* The same bytes by system calls alone: the record of so many look-ups after the current gate, a sync, the gate, a sync, once
 * and then COUNT times, of which it prints the seconds.
 * Arguments: FILE COUNT COMMANDS; FILE is that of a store with no record. */
#define _GNU_SOURCE
#include <fcntl.h>
#include <stdint.h>
#include <stdio.h>
#include <stdlib.h>
#include <string.h>
#include <time.h>
#include <unistd.h>

#define MAX_COMMANDS 4096
#define FIRST_GATE 30 /* after the head of 18 bytes and the empty table's text of 12 */

static size_t put4(unsigned char *at, uint32_t n) {
    n = __builtin_bswap32(n);
    memcpy(at, &n, 4);
    return 4;
}

/* The length of the body, the body, which is a batch of look-ups of run 1, and a closed gate. */
static size_t record(unsigned char *bytes, uint32_t commands) {
    size_t end = put4(bytes, 4 + 5 * commands);
    end += put4(bytes + end, commands);
    for (uint32_t i = 0; i < commands; i++) {
        bytes[end++] = 7;
        end += put4(bytes + end, 1);
    }
    bytes[end++] = 0;
    return end;
}

int main(int argc, char **argv) {
    unsigned char bytes[9 + 5 * MAX_COMMANDS];
    const unsigned char gate = 0xA5;
    struct timespec start, end;
    if (argc != 4) return 2;
    unsigned long count = strtoul(argv[2], NULL, 10);
    unsigned long commands = strtoul(argv[3], NULL, 10);
    int fd = open(argv[1], O_RDWR | O_CLOEXEC);
    if (fd < 0 || commands > MAX_COMMANDS) return 1;
    size_t size = record(bytes, commands);
    off_t at = FIRST_GATE;
    for (unsigned long i = 0; i <= count; i++) {
        if (i == 1) clock_gettime(CLOCK_MONOTONIC, &start);
        if (pwrite(fd, bytes, size, at + 1) != (ssize_t)size) return 1;
        if (fdatasync(fd) != 0) return 1;
        if (pwrite(fd, &gate, 1, at) != 1) return 1;
        if (fdatasync(fd) != 0) return 1;
        at += size;
    }
    clock_gettime(CLOCK_MONOTONIC, &end);
    printf("%.6f\n", (end.tv_sec - start.tv_sec) + (end.tv_nsec - start.tv_nsec) / 1e9);
    return 0;
}
