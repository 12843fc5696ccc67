// For LD_PRELOAD: fails write or sync number FAIL_AT of a file, counting from 1, and if FAIL_AFTER is set all after it too. If FAIL_HALF is set,
// half of the bytes of a failing write are written. Says on descriptor 9 when it first failed one, in seconds of the monotonic clock. If
// FAIL_KILLS is set, the process is killed there instead of a failing call.
#define _GNU_SOURCE
#include <dlfcn.h>
#include <errno.h>
#include <signal.h>
#include <stdatomic.h>
#include <stdio.h>
#include <stdlib.h>
#include <time.h>
#include <unistd.h>

static atomic_long count;

static void tell(void) {
    struct timespec now;
    if (clock_gettime(CLOCK_MONOTONIC, &now) != 0 || dprintf(9, "%lld.%09ld", (long long)now.tv_sec, now.tv_nsec) < 0) _exit(9);
}

static void die(void) {
    if (getenv("FAIL_KILLS")) kill(getpid(), SIGKILL);
}

static int fails(void) {
    const char *text = getenv("FAIL_AT");
    long at = text ? atol(text) : 0, now = ++count;
    if (at == 0 || now < at || (now > at && !getenv("FAIL_AFTER"))) return 0;
    if (now == at) tell();
    return 1;
}

ssize_t pwrite(int file, const void *bytes, size_t length, off_t at) {
    static ssize_t (*real)(int, const void *, size_t, off_t);
    if (!real) real = (ssize_t (*)(int, const void *, size_t, off_t))dlsym(RTLD_NEXT, "pwrite");
    if (!fails()) return real(file, bytes, length, at);
    if (getenv("FAIL_HALF") && length > 1 && real(file, bytes, length / 2, at) < 0) _exit(9);
    die();
    errno = EIO;
    return -1;
}

ssize_t pwrite64(int file, const void *bytes, size_t length, off_t at) { return pwrite(file, bytes, length, at); }

int fdatasync(int file) {
    static int (*real)(int);
    if (!real) real = (int (*)(int))dlsym(RTLD_NEXT, "fdatasync");
    if (!fails()) return real(file);
    die();
    errno = EIO;
    return -1;
}
