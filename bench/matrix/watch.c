// Watches the allocator. For each line that the program prints, it writes to descriptor 9 how many bytes are live, and the most that
// were live since the line before.
#define _GNU_SOURCE
#include <dlfcn.h>
#include <malloc.h>
#include <stdio.h>
#include <stdlib.h>
#include <string.h>
#include <unistd.h>

static size_t live, most;

static void *taken(void *block) {
    if (block) live += malloc_usable_size(block);
    if (live > most) most = live;
    return block;
}

static void given_back(void *block) {
    if (block) live -= malloc_usable_size(block);
}

void *malloc(size_t size) {
    static void *(*real)(size_t);
    if (!real) real = (void *(*)(size_t))dlsym(RTLD_NEXT, "malloc");
    return taken(real(size));
}

void *realloc(void *old, size_t size) {
    static void *(*real)(void *, size_t);
    if (!real) real = (void *(*)(void *, size_t))dlsym(RTLD_NEXT, "realloc");
    size_t before = old ? malloc_usable_size(old) : 0;
    void *block = real(old, size);
    if (block) {
        live -= before;
        taken(block);
    }
    return block;
}

int posix_memalign(void **out, size_t align, size_t size) {
    static int (*real)(void **, size_t, size_t);
    if (!real) real = (int (*)(void **, size_t, size_t))dlsym(RTLD_NEXT, "posix_memalign");
    int status = real(out, align, size);
    if (status == 0) taken(*out);
    return status;
}

void *aligned_alloc(size_t align, size_t size) {
    static void *(*real)(size_t, size_t);
    if (!real) real = (void *(*)(size_t, size_t))dlsym(RTLD_NEXT, "aligned_alloc");
    return taken(real(align, size));
}

void free(void *block) {
    static void (*real)(void *);
    if (!real) real = (void (*)(void *))dlsym(RTLD_NEXT, "free");
    given_back(block);
    real(block);
}

ssize_t write(int fd, const void *bytes, size_t count) {
    static ssize_t (*real)(int, const void *, size_t);
    if (!real) real = (ssize_t (*)(int, const void *, size_t))dlsym(RTLD_NEXT, "write");
    if (fd == 1 && memchr(bytes, '\n', count)) {
        char line[64];
        int length = snprintf(line, sizeof line, "%zu %zu\n", live, most);
        if (real(9, line, length) != length) _exit(9);
        most = live;
    }
    return real(fd, bytes, count);
}
