/* The same appends by system calls alone; with a fourth word, in a file that is filled with zeros first. */
#define _GNU_SOURCE
#include <fcntl.h>
#include <stdio.h>
#include <stdlib.h>
#include <string.h>
#include <time.h>
#include <unistd.h>

int main(int argc, char **argv) {
    char bytes[4096];
    struct timespec start, end;
    if (argc != 4 && argc != 5) return 2;
    size_t size = strtoul(argv[2], NULL, 10);
    unsigned long count = strtoul(argv[3], NULL, 10);
    int fd = open(argv[1], O_RDWR | O_CREAT | O_CLOEXEC, 0666);
    if (fd < 0 || size > sizeof bytes) return 1;
    off_t at = 0;
    if (argc == 5) {
        memset(bytes, 0, sizeof bytes);
        for (unsigned long i = 0; i < count; i++)
            if (pwrite(fd, bytes, size, i * size) != (ssize_t)size) return 1;
        if (fdatasync(fd) != 0) return 1;
    }
    memset(bytes, 0x5A, sizeof bytes);
    clock_gettime(CLOCK_MONOTONIC, &start);
    for (unsigned long i = 0; i < count; i++) {
        if (pwrite(fd, bytes, size, at) != (ssize_t)size) return 1;
        if (fdatasync(fd) != 0) return 1;
        at += size;
    }
    clock_gettime(CLOCK_MONOTONIC, &end);
    printf("%.6f\n", (end.tv_sec - start.tv_sec) + (end.tv_nsec - start.tv_nsec) / 1e9);
    return 0;
}
