/* For LD_PRELOAD: each sync takes SLOW_SYNC microseconds more, and is counted in the first eight bytes of the file SYNCS, if one is named.
 * The program may be killed, so the file has the count at any moment. */
#define _GNU_SOURCE
#include <dlfcn.h>
#include <fcntl.h>
#include <stdatomic.h>
#include <stdlib.h>
#include <sys/mman.h>
#include <time.h>
#include <unistd.h>

static int (*real)(int);
static long extra;
static atomic_long alone, *count = &alone;

__attribute__((constructor)) static void begin(void) {
    real = (int (*)(int))dlsym(RTLD_NEXT, "fdatasync");
    extra = getenv("SLOW_SYNC") ? atol(getenv("SLOW_SYNC")) : 0;
    int file = getenv("SYNCS") ? open(getenv("SYNCS"), O_RDWR | O_CREAT | O_CLOEXEC, 0600) : -1;
    if (file < 0 || ftruncate(file, sizeof *count) != 0) return;
    void *shared = mmap(NULL, sizeof *count, PROT_READ | PROT_WRITE, MAP_SHARED, file, 0);
    if (shared != MAP_FAILED) count = shared;
    close(file);
}

int fdatasync(int file) {
    struct timespec rest = {extra / 1000000, extra % 1000000 * 1000};
    if (extra > 0) nanosleep(&rest, NULL);
    atomic_fetch_add(count, 1);
    return real(file);
}
