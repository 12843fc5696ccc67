/* Readers of the view port: each asks for one path again and again, one request every so many microseconds, over sessions of 64 requests. Prints the
 * answers, the seconds, and the microseconds within which half of the answers came, 99 of 100, and the slowest, from the moment at which each was sent.
 * Arguments: PORT PATH READERS PAUSE SECONDS; PAUSE 0 asks at once. */
#define _GNU_SOURCE
#include <arpa/inet.h>
#include <netinet/tcp.h>
#include <pthread.h>
#include <stdio.h>
#include <stdlib.h>
#include <string.h>
#include <sys/socket.h>
#include <time.h>
#include <unistd.h>

#define MAX_READERS 64
#define MAX_ANSWERS 1000000
#define SESSION 64

static int port;
static char request[512];
static long pause_of;
static double seconds;
static double *took[MAX_READERS];
static long answers[MAX_READERS];

static void fail(const char *what) {
    perror(what);
    exit(1);
}

static double now(void) {
    struct timespec it;
    clock_gettime(CLOCK_MONOTONIC, &it);
    return it.tv_sec + it.tv_nsec / 1e9;
}

static int join_port(void) {
    struct sockaddr_in to = {.sin_family = AF_INET, .sin_port = htons(port), .sin_addr.s_addr = htonl(INADDR_LOOPBACK)};
    int on = 1, stream = socket(AF_INET, SOCK_STREAM, 0);
    if (stream < 0 || connect(stream, (struct sockaddr *)&to, sizeof to) != 0) fail("connect");
    setsockopt(stream, IPPROTO_TCP, TCP_NODELAY, &on, sizeof on);
    return stream;
}

/* One request, and its whole answer. */
static void ask(int stream, char *room, size_t size) {
    size_t have = 0, length = strlen(request);
    if (write(stream, request, length) != (ssize_t)length) fail("write");
    for (;;) {
        ssize_t more = read(stream, room + have, size - 1 - have);
        if (more <= 0) fail("read");
        room[have += more] = 0;
        char *end = strstr(room, "\r\n\r\n"), *field = strstr(room, "Content-Length: ");
        if (!end || !field) continue;
        if (have >= (size_t)(end + 4 - room) + atol(field + 16)) break;
    }
    if (strncmp(room, "HTTP/1.1 200 ", 13) != 0) {
        fprintf(stderr, "%.200s\n", room);
        exit(1);
    }
}

static void *read_views(void *argument) {
    long own = (long)argument, count = 0;
    size_t size = 8 << 20;
    char *room = malloc(size);
    double begin = now(), due = begin;
    int stream = -1;
    while (now() - begin < seconds && count < MAX_ANSWERS) {
        if (count % SESSION == 0) {
            if (stream >= 0) close(stream);
            stream = join_port();
        }
        double wait = due - now();
        if (pause_of > 0 && wait > 0) usleep(wait * 1e6);
        double sent = now();
        ask(stream, room, size);
        took[own][count++] = (now() - sent) * 1e6;
        due += pause_of / 1e6;
    }
    close(stream);
    answers[own] = count;
    return NULL;
}

static int order(const void *one, const void *other) {
    double a = *(const double *)one, b = *(const double *)other;
    return (a > b) - (a < b);
}

int main(int count, char **words) {
    if (count != 6) return 2;
    port = atoi(words[1]);
    snprintf(request, sizeof request, "GET %s HTTP/1.1\r\nHost: 127.0.0.1\r\n\r\n", words[2]);
    long readers = atol(words[3]);
    pause_of = atol(words[4]), seconds = atof(words[5]);
    pthread_t threads[MAX_READERS];
    double begin = now();
    for (long it = 0; it < readers; it++) {
        took[it] = malloc(MAX_ANSWERS * sizeof(double));
        if (pthread_create(&threads[it], NULL, read_views, (void *)it)) fail("pthread_create");
    }
    long all = 0;
    for (long it = 0; it < readers; it++) pthread_join(threads[it], NULL), all += answers[it];
    double passed = now() - begin, *each = malloc(all * sizeof(double));
    for (long it = 0, at = 0; it < readers; at += answers[it++]) memcpy(each + at, took[it], answers[it] * sizeof(double));
    qsort(each, all, sizeof(double), order);
    printf("%ld %f %f %f %f\n", all, passed, each[all / 2], each[all * 99 / 100], each[all - 1]);
    return 0;
}
