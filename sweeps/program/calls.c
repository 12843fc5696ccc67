// For LD_PRELOAD: appends a line to the file CALLS for each call that this process makes on the file CALLS_OF, and for each sync of the folder of that file.
// The line is written once the call has succeeded: `advice`, `read AT COUNT`, `write AT BYTES` with the bytes in hexadecimal, `sync`, `folder`, `length COUNT`. A call by which
// no store writes or syncs is `other NAME`.
#define _GNU_SOURCE
#include <dlfcn.h>
#include <fcntl.h>
#include <stdio.h>
#include <stdlib.h>
#include <string.h>
#include <sys/syscall.h>
#include <unistd.h>

#define REAL(type, name, ...) \
    static type (*real)(__VA_ARGS__); \
    if (!real) real = (type (*)(__VA_ARGS__))dlsym(RTLD_NEXT, name)

enum place { ELSEWHERE, STORE, FOLDER };

static enum place place_of(int file) {
    const char *store = getenv("CALLS_OF");
    char link[64], path[4096];
    snprintf(link, sizeof link, "/proc/self/fd/%d", file);
    ssize_t length = readlink(link, path, sizeof path - 1);
    if (!store || length < 0) return ELSEWHERE;
    path[length] = 0;
    if (strcmp(path, store) == 0) return STORE;
    const char *slash = strrchr(store, '/');
    return slash && slash - store == length && strncmp(path, store, length) == 0 ? FOLDER : ELSEWHERE;
}

static void note(const char *line, size_t length) {
    int calls = open(getenv("CALLS"), O_WRONLY | O_APPEND | O_CREAT | O_CLOEXEC, 0644);
    if (calls < 0 || syscall(SYS_write, calls, line, length) != (long)length) _exit(9);
    close(calls);
}

static void note_numbers(const char *form, long long one, long long other) {
    char line[64];
    note(line, snprintf(line, sizeof line, form, one, other));
}

static void note_write(off_t at, const unsigned char *bytes, size_t length) {
    char *line = malloc(2 * length + 64);
    if (!line) _exit(9);
    size_t end = sprintf(line, "write %lld ", (long long)at);
    for (size_t place = 0; place < length; place++) end += sprintf(line + end, "%02x", bytes[place]);
    line[end++] = '\n';
    note(line, end);
    free(line);
}

static void note_other(int file, const char *name) {
    char line[64];
    if (place_of(file) == STORE) note(line, snprintf(line, sizeof line, "other %s\n", name));
}

ssize_t pwrite(int file, const void *bytes, size_t length, off_t at) {
    REAL(ssize_t, "pwrite", int, const void *, size_t, off_t);
    ssize_t count = real(file, bytes, length, at);
    if (count > 0 && place_of(file) == STORE) note_write(at, bytes, count);
    return count;
}

ssize_t pwrite64(int file, const void *bytes, size_t length, off_t at) { return pwrite(file, bytes, length, at); }

ssize_t pread(int file, void *bytes, size_t length, off_t at) {
    REAL(ssize_t, "pread", int, void *, size_t, off_t);
    ssize_t count = real(file, bytes, length, at);
    if (count > 0 && place_of(file) == STORE) note_numbers("read %lld %lld\n", at, count);
    return count;
}

ssize_t pread64(int file, void *bytes, size_t length, off_t at) { return pread(file, bytes, length, at); }

ssize_t write(int file, const void *bytes, size_t length) {
    REAL(ssize_t, "write", int, const void *, size_t);
    note_other(file, "write");
    return real(file, bytes, length);
}

int fdatasync(int file) {
    REAL(int, "fdatasync", int);
    int answer = real(file);
    if (answer == 0 && place_of(file) == STORE) note("sync\n", 5);
    return answer;
}

int fsync(int file) {
    REAL(int, "fsync", int);
    int answer = real(file);
    if (answer == 0 && place_of(file) == FOLDER) note("folder\n", 7);
    note_other(file, "fsync");
    return answer;
}

int ftruncate(int file, off_t length) {
    REAL(int, "ftruncate", int, off_t);
    int answer = real(file, length);
    if (answer == 0 && place_of(file) == STORE) note_numbers("length %lld\n", length, 0);
    return answer;
}

int ftruncate64(int file, off_t length) { return ftruncate(file, length); }

int posix_fadvise(int file, off_t at, off_t length, int advice) {
    REAL(int, "posix_fadvise", int, off_t, off_t, int);
    if (advice == POSIX_FADV_DONTNEED && at == 0 && length == 0 && place_of(file) == STORE) note("advice\n", 7);
    return real(file, at, length, advice);
}

int posix_fadvise64(int file, off_t at, off_t length, int advice) { return posix_fadvise(file, at, length, advice); }
