// For LD_PRELOAD: the file PRIMARY as a device that a second machine has too, as the file REPLICA. What is synced is written there before the
// call returns. Before call STOP_AT, counting from 1, the first machine fails: of each write that was not synced the second machine has
// nothing, all, the beginning or some sectors of 512 bytes, by SEED, and the process ends with status 9. If LAG is set, the device does not wait
// for the second machine, and is LAG syncs behind.
#define _GNU_SOURCE
#include <dlfcn.h>
#include <fcntl.h>
#include <pthread.h>
#include <stdlib.h>
#include <string.h>
#include <sys/stat.h>
#include <unistd.h>

struct part { off_t at; size_t length; long syncs; struct part *next; char bytes[]; };

static pthread_mutex_t lock = PTHREAD_MUTEX_INITIALIZER;
static struct part *oldest, **newest = &oldest;
static struct stat primary;
static int replica = -1;
static long calls, syncs, stop_at, lag;
static ssize_t (*real_pwrite)(int, const void *, size_t, off_t);
static int (*real_fdatasync)(int);

static long number(const char *name) { return getenv(name) ? atol(getenv(name)) : 0; }

static void begin(void) {
    real_pwrite = (ssize_t (*)(int, const void *, size_t, off_t))dlsym(RTLD_NEXT, "pwrite");
    real_fdatasync = (int (*)(int))dlsym(RTLD_NEXT, "fdatasync");
    if (!getenv("PRIMARY") || !getenv("REPLICA")) return;
    if (stat(getenv("PRIMARY"), &primary) != 0 || (replica = open(getenv("REPLICA"), O_WRONLY)) < 0) _exit(8);
    stop_at = number("STOP_AT");
    lag = number("LAG");
    srandom(number("SEED"));
}

static int is_ours(int file) {
    static pthread_once_t once = PTHREAD_ONCE_INIT;
    struct stat found;
    pthread_once(&once, begin);
    return replica >= 0 && fstat(file, &found) == 0 && found.st_dev == primary.st_dev && found.st_ino == primary.st_ino;
}

static void put(const struct part *part, size_t from, size_t to) {
    if (from < to && real_pwrite(replica, part->bytes + from, to - from, part->at + from) != (ssize_t)(to - from)) _exit(8);
}

static void put_some(const struct part *part) {
    switch (random() % 4) {
    case 0: return;
    case 1: put(part, 0, part->length); return;
    case 2: put(part, 0, random() % (part->length + 1)); return;
    default:
        for (size_t from = 0, to; from < part->length; from = to) {
            to = from + 512 - (part->at + from) % 512;
            if (to > part->length) to = part->length;
            if (random() % 2) put(part, from, to);
        }
    }
}

// Under the lock. Counts a call; the first machine may fail before it.
static void count_call(void) {
    if (++calls != stop_at) return;
    if (lag == 0)
        for (struct part *part = oldest; part; part = part->next) put_some(part);
    _exit(9);
}

ssize_t pwrite(int file, const void *bytes, size_t length, off_t at) {
    if (!is_ours(file)) return real_pwrite(file, bytes, length, at);
    pthread_mutex_lock(&lock);
    count_call();
    ssize_t written = real_pwrite(file, bytes, length, at);
    if (written > 0) {
        struct part *part = malloc(sizeof *part + written);
        if (!part) _exit(8);
        *part = (struct part){.at = at, .length = written, .syncs = syncs};
        memcpy(part->bytes, bytes, written);
        *newest = part;
        newest = &part->next;
    }
    pthread_mutex_unlock(&lock);
    return written;
}

ssize_t pwrite64(int file, const void *bytes, size_t length, off_t at) { return pwrite(file, bytes, length, at); }

int fdatasync(int file) {
    if (!is_ours(file)) return real_fdatasync(file);
    pthread_mutex_lock(&lock);
    count_call();
    int answer = real_fdatasync(file);
    if (answer == 0) {
        syncs++;
        while (oldest && oldest->syncs + lag < syncs) {
            struct part *part = oldest;
            put(part, 0, part->length);
            oldest = part->next;
            if (!oldest) newest = &oldest;
            free(part);
        }
    }
    pthread_mutex_unlock(&lock);
    return answer;
}
