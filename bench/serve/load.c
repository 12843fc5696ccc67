/* Pairs of one session of HTTP and one of runner lines, each pair in a thread, in lockstep: an event is posted, its leg claimed and
 * reported done, and the run looked at, over and over. Prints the lifecycles, the seconds from the first request to the last answer, and
 * those that the slowest answer took, and 99 of 100 at most.
 * Arguments: HOOK_PORT RUNNER_PORT PAIRS LIFECYCLES [SESSIONS]; a session takes 64 requests, so LIFECYCLES is 32 at most. Each pair has so many
 * sessions (1) one after the other. */
#define _GNU_SOURCE
#include <arpa/inet.h>
#include <netinet/tcp.h>
#include <pthread.h>
#include <stdatomic.h>
#include <stdio.h>
#include <stdlib.h>
#include <string.h>
#include <sys/socket.h>
#include <time.h>
#include <unistd.h>

#define MAX_PAIRS 1024
#define BODY "{\"repo\":\"o/r\",\"path\":\"ci.json\",\"workflow\":{\"jobs\":{\"build\":{\"runs-on\":\"l%ld\"}}}}"

static int ports[2];
static long lifecycles, sessions = 1;
static double *took;
static atomic_long answers;
static pthread_barrier_t begin;

static void fail(const char *what) {
    perror(what);
    exit(1);
}

static int join_port(int port) {
    struct sockaddr_in to = {.sin_family = AF_INET, .sin_port = htons(port), .sin_addr.s_addr = htonl(INADDR_LOOPBACK)};
    int on = 1, stream = socket(AF_INET, SOCK_STREAM, 0);
    if (stream < 0 || connect(stream, (struct sockaddr *)&to, sizeof to) != 0) fail("connect");
    setsockopt(stream, IPPROTO_TCP, TCP_NODELAY, &on, sizeof on);
    return stream;
}

static double now(void) {
    struct timespec it;
    clock_gettime(CLOCK_MONOTONIC, &it);
    return it.tv_sec + it.tv_nsec / 1e9;
}

/* Sends a text, and reads until an answer is whole: a line, or what a Content-Length tells. */
static void ask_once(int stream, const char *text, char *answer, size_t room, int is_http) {
    size_t size = strlen(text), have = 0;
    if (write(stream, text, size) != (ssize_t)size) fail("write");
    for (;;) {
        ssize_t more = read(stream, answer + have, room - 1 - have);
        if (more <= 0) fail("read");
        answer[have += more] = 0;
        if (!is_http && answer[have - 1] == '\n') return;
        char *end = strstr(answer, "\r\n\r\n"), *length = strstr(answer, "Content-Length: ");
        if (is_http && end && length && answer + have >= end + 4 + atol(length + 16)) return;
    }
}

static void ask(int stream, const char *text, char *answer, size_t room, int is_http) {
    double start = now();
    ask_once(stream, text, answer, room, is_http);
    took[atomic_fetch_add(&answers, 1)] = now() - start;
}

static int order(const void *one, const void *other) {
    double a = *(const double *)one, b = *(const double *)other;
    return (a > b) - (a < b);
}

static void *work(void *given) {
    long pair = (long)given;
    int hook = join_port(ports[0]), runner = join_port(ports[1]);
    char text[1024], body[256], answer[4096];
    pthread_barrier_wait(&begin);
    for (long i = 0; i < lifecycles * sessions; i++) {
        long run, lease;
        if (i > 0 && i % lifecycles == 0) {
            close(hook);
            close(runner);
            hook = join_port(ports[0]);
            runner = join_port(ports[1]);
        }
        snprintf(body, sizeof body, BODY, pair);
        snprintf(text, sizeof text, "POST /events HTTP/1.1\r\nX-GitHub-Delivery: d%ld-%ld\r\nX-GitHub-Event: push\r\nContent-Length: %zu\r\n\r\n%s", pair, i, strlen(body), body);
        ask(hook, text, answer, sizeof answer, 1);
        if (sscanf(strstr(answer, "\r\n\r\n"), " created %ld", &run) != 1) fail(answer);
        snprintf(text, sizeof text, "CLAIM r%ld %ld l%ld\n", pair, 2 * i + 1, pair);
        ask(runner, text, answer, sizeof answer, 0);
        if (sscanf(answer, "lease %ld", &lease) != 1) fail(answer);
        snprintf(text, sizeof text, "DONE r%ld %ld %ld success\n", pair, 2 * i + 2, lease);
        ask(runner, text, answer, sizeof answer, 0);
        if (strcmp(answer, "ok\n") != 0) fail(answer);
        snprintf(text, sizeof text, "GET /runs/%ld HTTP/1.1\r\n\r\n", run);
        ask(hook, text, answer, sizeof answer, 1);
        if (strstr(answer, " 200 OK\r\n") == NULL) fail(answer);
    }
    close(hook);
    close(runner);
    return NULL;
}

int main(int argc, char **argv) {
    pthread_t threads[MAX_PAIRS];
    double start, end;
    if (argc != 5 && argc != 6) return 2;
    ports[0] = atoi(argv[1]);
    ports[1] = atoi(argv[2]);
    long pairs = atol(argv[3]);
    lifecycles = atol(argv[4]);
    if (argc == 6) sessions = atol(argv[5]);
    if (pairs < 1 || pairs > MAX_PAIRS || sessions < 1) return 2;
    took = calloc(pairs * lifecycles * sessions * 4, sizeof *took);
    if (took == NULL) fail("memory");
    pthread_barrier_init(&begin, NULL, pairs + 1);
    for (long i = 0; i < pairs; i++) pthread_create(&threads[i], NULL, work, (void *)i);
    pthread_barrier_wait(&begin);
    start = now();
    for (long i = 0; i < pairs; i++) pthread_join(threads[i], NULL);
    end = now();
    qsort(took, answers, sizeof *took, order);
    printf("%ld %.6f %.6f %.6f\n", pairs * lifecycles * sessions, end - start, took[answers - 1], took[answers * 99 / 100]);
    return 0;
}
