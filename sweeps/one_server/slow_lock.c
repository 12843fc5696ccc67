// A library for LD_PRELOAD in which a lock takes SLOW milliseconds, as over a network.
#define _GNU_SOURCE
#include <stdlib.h>
#include <sys/syscall.h>
#include <unistd.h>

int flock(int fd, int operation) {
    usleep(1000 * atoi(getenv("SLOW")));
    return syscall(SYS_flock, fd, operation);
}
