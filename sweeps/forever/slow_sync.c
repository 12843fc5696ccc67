// For LD_PRELOAD: a sync takes as many milliseconds as the file SLOW says when it begins, and does nothing else. One that takes some says so on descriptor 9.
#define _GNU_SOURCE
#include <fcntl.h>
#include <stdlib.h>
#include <unistd.h>

static int slowness(void) {
    char text[16] = "";
    int file = open(getenv("SLOW"), O_RDONLY | O_CLOEXEC);
    if (file < 0 || read(file, text, sizeof text - 1) < 0) _exit(9);
    close(file);
    return atoi(text);
}

int fdatasync(int file) {
    (void)file;
    int slow = slowness();
    if (slow > 0 && write(9, ".", 1) != 1) _exit(9);
    usleep(1000 * slow);
    return 0;
}
