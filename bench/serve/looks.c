/* Sessions of runner lines, each in a thread, that ask for a body that is not there, line by line, until one has asked LINES times. Prints
 * the seconds from the first line to that moment, the answers of all by then, and the fewest and the most answers of a session.
 * Arguments: HOOK_PORT RUNNER_PORT SESSIONS LINES; a session takes 1,024 lines. As many sessions of HTTP end without a request. */
#define _GNU_SOURCE
#include <arpa/inet.h>
#include <netinet/tcp.h>
#include <pthread.h>
#include <stdatomic.h>
#include <stdio.h>
#include <stdlib.h>
#include <string.h>
#include <sys/socket.h>
#include <time.h>
#include <unistd.h>

#define MAX_SESSIONS 32

static int ports[2];
static long lines;
static _Atomic long counts[MAX_SESSIONS];
static atomic_int over;
static long sessions, at_end[MAX_SESSIONS];
static struct timespec end;
static pthread_barrier_t begin;

static void fail(const char *what) {
    perror(what);
    exit(1);
}

static int join_port(int port) {
    struct sockaddr_in to = {.sin_family = AF_INET, .sin_port = htons(port), .sin_addr.s_addr = htonl(INADDR_LOOPBACK)};
    int on = 1, stream = socket(AF_INET, SOCK_STREAM, 0);
    if (stream < 0 || connect(stream, (struct sockaddr *)&to, sizeof to) != 0) fail("connect");
    setsockopt(stream, IPPROTO_TCP, TCP_NODELAY, &on, sizeof on);
    return stream;
}

/* Asks once; the answer is a line. */
static void ask(int stream) {
    static const char text[] = "FETCH 999999\n", want[] = "refused 40\n";
    char answer[64];
    size_t have = 0;
    if (write(stream, text, sizeof text - 1) != (ssize_t)sizeof text - 1) fail("write");
    while (have == 0 || answer[have - 1] != '\n') {
        ssize_t more = read(stream, answer + have, sizeof answer - have);
        if (more <= 0) fail("read");
        have += more;
    }
    if (have != sizeof want - 1 || memcmp(answer, want, have) != 0) fail("another answer");
}

static void *work(void *given) {
    long session = (long)given;
    int runner = join_port(ports[1]);
    close(join_port(ports[0]));
    pthread_barrier_wait(&begin);
    while (!atomic_load(&over)) {
        ask(runner);
        if (atomic_fetch_add(&counts[session], 1) + 1 == lines && !atomic_exchange(&over, 1)) {
            clock_gettime(CLOCK_MONOTONIC, &end);
            for (long i = 0; i < sessions; i++) at_end[i] = atomic_load(&counts[i]);
        }
    }
    close(runner);
    return NULL;
}

int main(int argc, char **argv) {
    pthread_t threads[MAX_SESSIONS];
    struct timespec start;
    if (argc != 5) return 2;
    ports[0] = atoi(argv[1]);
    ports[1] = atoi(argv[2]);
    sessions = atol(argv[3]);
    lines = atol(argv[4]);
    if (sessions < 1 || sessions > MAX_SESSIONS || lines < 1 || lines > 1000) return 2;
    pthread_barrier_init(&begin, NULL, sessions + 1);
    for (long i = 0; i < sessions; i++) pthread_create(&threads[i], NULL, work, (void *)i);
    pthread_barrier_wait(&begin);
    clock_gettime(CLOCK_MONOTONIC, &start);
    for (long i = 0; i < sessions; i++) pthread_join(threads[i], NULL);
    long all = 0, fewest = lines, most = 0;
    for (long i = 0; i < sessions; i++) {
        all += at_end[i];
        if (at_end[i] < fewest) fewest = at_end[i];
        if (at_end[i] > most) most = at_end[i];
    }
    printf("%.6f %ld %ld %ld\n", (end.tv_sec - start.tv_sec) + (end.tv_nsec - start.tv_nsec) / 1e9, all, fewest, most);
    return 0;
}
