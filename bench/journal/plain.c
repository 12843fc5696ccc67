/* The same by system calls alone: a write after the gate, a sync, the gate, a sync; or one read, or a read and
 * a loop over the records. Arguments: FILE SIZE COUNT; of SIZE 0, with COUNT 1 a read, and with 2 the loop too. */
#define _GNU_SOURCE
#include <fcntl.h>
#include <stdint.h>
#include <stdio.h>
#include <stdlib.h>
#include <string.h>
#include <sys/stat.h>
#include <time.h>
#include <unistd.h>

static int append(int fd, size_t size, unsigned long count) {
    char bytes[4096];
    const char gate = (char)0xA5;
    off_t at = 0;
    if (size > sizeof bytes) return 1;
    memset(bytes, 0x5A, sizeof bytes);
    for (unsigned long i = 0; i < count; i++) {
        if (pwrite(fd, bytes, size, at + 1) != (ssize_t)size) return 1;
        if (fdatasync(fd) != 0) return 1;
        if (pwrite(fd, &gate, 1, at) != 1) return 1;
        if (fdatasync(fd) != 0) return 1;
        at += size;
    }
    return 0;
}

static int read_all(int fd, char *bytes, size_t length) {
    size_t done = 0;
    while (done < length) {
        ssize_t count = pread(fd, bytes + done, length - done, done);
        if (count <= 0) return 1;
        done += count;
    }
    return 0;
}

/* The offset of the first closed gate in an area with no text, or 0 where a record passes its end. */
static size_t first_closed(const unsigned char *area, size_t length) {
    size_t at = 18;
    while (at < length && area[at] == 0xA5) {
        uint32_t body;
        if (length - at < 5) return 0;
        memcpy(&body, area + at + 1, 4);
        body = __builtin_bswap32(body);
        if (length - at - 5 < body) return 0;
        at += 5 + (size_t)body;
    }
    return at < length ? at : 0;
}

int main(int argc, char **argv) {
    struct timespec start, end;
    struct stat file;
    if (argc != 4) return 2;
    size_t size = strtoul(argv[2], NULL, 10);
    unsigned long count = strtoul(argv[3], NULL, 10);
    int fd = open(argv[1], O_RDWR | O_CLOEXEC);
    /* as the measured disk does: without it the file would be in the cache here, and not there */
    posix_fadvise(fd, 0, 0, POSIX_FADV_DONTNEED);
    if (fd < 0 || fstat(fd, &file) != 0) return 1;
    char *bytes = malloc(file.st_size);
    if (bytes == NULL) return 1;
    memset(bytes, 1, file.st_size); /* with zeros the compiler would make it a calloc, and the pages would come with the read */
    clock_gettime(CLOCK_MONOTONIC, &start);
    if (size == 0 ? read_all(fd, bytes, file.st_size) : append(fd, size, count)) return 1;
    size_t at = size == 0 && count == 2 ? first_closed((unsigned char *)bytes, file.st_size) : 0;
    clock_gettime(CLOCK_MONOTONIC, &end);
    printf("%.6f %zu\n", (end.tv_sec - start.tv_sec) + (end.tv_nsec - start.tv_nsec) / 1e9, at);
    return 0;
}
