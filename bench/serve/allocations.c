/* For LD_PRELOAD: counts the calls of malloc, calloc and realloc in the file COUNTS, eight bytes each. */
#define _GNU_SOURCE
#include <fcntl.h>
#include <stdatomic.h>
#include <stddef.h>
#include <stdlib.h>
#include <sys/mman.h>
#include <unistd.h>

extern void *__libc_malloc(size_t), *__libc_calloc(size_t, size_t), *__libc_realloc(void *, size_t);

static atomic_long alone[3], *counts = alone;

__attribute__((constructor)) static void begin(void) {
    int file = getenv("COUNTS") ? open(getenv("COUNTS"), O_RDWR | O_CREAT | O_CLOEXEC, 0600) : -1;
    if (file < 0 || ftruncate(file, sizeof alone) != 0) return;
    void *shared = mmap(NULL, sizeof alone, PROT_READ | PROT_WRITE, MAP_SHARED, file, 0);
    if (shared != MAP_FAILED) counts = shared;
    close(file);
}

void *malloc(size_t size) {
    atomic_fetch_add(&counts[0], 1);
    return __libc_malloc(size);
}

void *calloc(size_t count, size_t size) {
    atomic_fetch_add(&counts[1], 1);
    return __libc_calloc(count, size);
}

void *realloc(void *old, size_t size) {
    atomic_fetch_add(&counts[2], 1);
    return __libc_realloc(old, size);
}
