/* The bound of a service without end: one loop in one thread that makes the same writes and syncs of the same bytes, and sends answers of the same
 * length. It keeps no table and reads of a request only its first byte: the clients are those of load.c, which ask one thing at a time.
 * In each turn all that has come is heard, one record is made durable for all of it (a write and a sync of the record, a write and a sync of its gate),
 * and then all are answered. With a slow device it waits before the commit until as many have spoken as the last commit answered and as came during it,
 * for half of a commit at most.
 * Arguments, in this order: serve FILE --hook-port HOOK_PORT --runner-port RUNNER_PORT; what follows is passed over. */
#define _GNU_SOURCE
#include <arpa/inet.h>
#include <fcntl.h>
#include <netinet/tcp.h>
#include <stdio.h>
#include <stdlib.h>
#include <string.h>
#include <sys/epoll.h>
#include <sys/socket.h>
#include <time.h>
#include <unistd.h>

#define MAX_STREAMS 8192
#define EVENTS 1024
/* A commit of less is not worth a wait, in nanoseconds. */
#define SHORT 200000

static int file, poller, listeners[2];
static off_t gate = 30;
static char record[1 << 20] = {0};
static size_t size;
static long created, leased;
/* Who has spoken in this turn, and the first byte of what each has asked. */
static int spoke[MAX_STREAMS], count;
static char asked[MAX_STREAMS];
static struct epoll_event events[EVENTS];

static long now(void) {
    struct timespec it;
    clock_gettime(CLOCK_MONOTONIC, &it);
    return it.tv_sec * 1000000000L + it.tv_nsec;
}

static void watch(int stream) {
    struct epoll_event wanted = {.events = EPOLLIN, .data.fd = stream};
    if (epoll_ctl(poller, EPOLL_CTL_ADD, stream, &wanted) != 0) exit(1);
}

static int listen_on(int port) {
    struct sockaddr_in on = {.sin_family = AF_INET, .sin_port = htons(port), .sin_addr.s_addr = htonl(INADDR_LOOPBACK)};
    int yes = 1, listener = socket(AF_INET, SOCK_STREAM | SOCK_NONBLOCK, 0);
    setsockopt(listener, SOL_SOCKET, SO_REUSEADDR, &yes, sizeof yes);
    if (bind(listener, (struct sockaddr *)&on, sizeof on) != 0 || listen(listener, 4096) != 0) exit(1);
    watch(listener);
    return listener;
}

static void accept_all(int listener) {
    int stream, on = 1;
    while ((stream = accept4(listener, NULL, NULL, SOCK_NONBLOCK)) >= 0) {
        if (stream >= MAX_STREAMS) exit(1);
        setsockopt(stream, IPPROTO_TCP, TCP_NODELAY, &on, sizeof on);
        watch(stream);
    }
}

/* The bytes that a command takes in a record: an event with its body, a claim or a report, or a look. */
static size_t bytes_of(char kind) {
    return kind == 'P' ? 101 : kind == 'G' ? 5 : 21;
}

static void hear(int stream) {
    char request[4096];
    ssize_t had = read(stream, request, sizeof request);
    if (had <= 0) {
        close(stream);
        return;
    }
    asked[stream] = request[0];
    spoke[count++] = stream;
    size += bytes_of(request[0]);
}

/* Waits so many nanoseconds for events, for ever if that is less than 0, and hears those who have spoken. Returns how many came. */
static int hear_all(long wait) {
    struct timespec most = {wait / 1000000000, wait % 1000000000};
    int came = epoll_pwait2(poller, events, EVENTS, wait < 0 ? NULL : &most, NULL), before = count;
    for (int i = 0; i < came; i++) {
        int stream = events[i].data.fd;
        if (stream == listeners[0] || stream == listeners[1]) accept_all(stream);
        else hear(stream);
    }
    return count - before;
}

/* The record of all that was asked, with its length, its number of commands, and the closed gate of the next one. */
static void commit(void) {
    static const unsigned char open = 0xA5;
    size_t whole = 4 + 4 + size + 1;
    if (pwrite(file, record, whole, gate + 1) < 0 || fdatasync(file) != 0) exit(1);
    if (pwrite(file, &open, 1, gate) < 0 || fdatasync(file) != 0) exit(1);
    gate += whole;
    size = 0;
}

static int http(const char *status, const char *text, char *answer, size_t room) {
    return snprintf(answer, room, "HTTP/1.1 %s\r\nContent-Type: text/plain\r\nContent-Length: %zu\r\n\r\n%s", status, strlen(text), text);
}

static int answer_to(char kind, char *answer, size_t room) {
    char text[128];
    switch (kind) {
    case 'P':
        snprintf(text, sizeof text, "created %ld\n", ++created);
        return http("201 Created", text, answer, room);
    case 'G':
        snprintf(text, sizeof text, "run %ld %ld completed success build:success(success)\n", created, created);
        return http("200 OK", text, answer, room);
    case 'C':
        leased++;
        return snprintf(answer, room, "lease %ld %ld build 0 {}\n", leased, leased);
    default:
        return snprintf(answer, room, "ok\n");
    }
}

/* Answers the first so many who have spoken. */
static void answer(int heard) {
    char text[4096];
    for (int i = 0; i < heard; i++) {
        int length = answer_to(asked[spoke[i]], text, sizeof text);
        if (write(spoke[i], text, length) != length) close(spoke[i]);
    }
    count -= heard;
    memmove(spoke, spoke + heard, count * sizeof *spoke);
}

int main(int argc, char **argv) {
    long mean = 0;
    int expected = 0;
    if (argc < 7) return 2;
    file = open(argv[2], O_RDWR | O_CLOEXEC);
    poller = epoll_create1(0);
    if (file < 0 || poller < 0) return 1;
    listeners[0] = listen_on(atoi(argv[4]));
    listeners[1] = listen_on(atoi(argv[6]));
    puts("ready");
    fflush(stdout);
    for (;;) {
        hear_all(count == 0 ? -1 : 0);
        if (count == 0) continue;
        long begin = now();
        for (long left = mean / 2; mean > SHORT && count < expected && left > 0; left = begin + mean / 2 - now()) hear_all(left);
        int heard = count;
        begin = now();
        commit();
        mean += mean == 0 ? now() - begin : (now() - begin - mean) / 8;
        expected = heard + hear_all(0);
        answer(heard);
    }
}
