/* A loop that makes the system calls of the service and nothing else: a thread a session, and for each request a write and a sync of a
 * record, a write and a sync of its gate, under one lock, and an answer of the service's length. It reads no request: the clients are
 * those of load.c, which alternate.
 * Arguments: FILE HOOK_PORT RUNNER_PORT SESSIONS [ROUNDS] */
#define _GNU_SOURCE
#include <arpa/inet.h>
#include <fcntl.h>
#include <netinet/tcp.h>
#include <pthread.h>
#include <stdio.h>
#include <stdlib.h>
#include <string.h>
#include <sys/socket.h>
#include <unistd.h>

#define MAX_SESSIONS 64

static int file, listeners[2];
static off_t at = 30;
static long created, leased, rounds = 1;
static pthread_mutex_t lock = PTHREAD_MUTEX_INITIALIZER;

static int listen_on(int port) {
    struct sockaddr_in on = {.sin_family = AF_INET, .sin_port = htons(port), .sin_addr.s_addr = htonl(INADDR_LOOPBACK)};
    int yes = 1, listener = socket(AF_INET, SOCK_STREAM, 0);
    setsockopt(listener, SOL_SOCKET, SO_REUSEADDR, &yes, sizeof yes);
    if (bind(listener, (struct sockaddr *)&on, sizeof on) != 0 || listen(listener, 128) != 0) exit(1);
    return listener;
}

/* A record of so many bytes, durable when it returns. */
static void commit(size_t size) {
    static const unsigned char gate = 0xA5;
    static const unsigned char record[512];
    if (pwrite(file, record, size, at + 1) < 0 || fdatasync(file) != 0) exit(1);
    if (pwrite(file, &gate, 1, at) < 0 || fdatasync(file) != 0) exit(1);
    at += size;
}

static int answer_http(const char *request, char *answer, size_t room) {
    char text[128];
    int is_post = request[0] == 'P';
    pthread_mutex_lock(&lock);
    commit(is_post ? 110 : 14);
    if (is_post) snprintf(text, sizeof text, "created %ld\n", ++created);
    else snprintf(text, sizeof text, "run %ld %ld completed success build:success(success)\n", created, created);
    pthread_mutex_unlock(&lock);
    return snprintf(answer, room, "HTTP/1.1 %s\r\nContent-Type: text/plain\r\nContent-Length: %zu\r\n\r\n%s", is_post ? "201 Created" : "200 OK", strlen(text), text);
}

static int answer_line(const char *request, char *answer, size_t room) {
    int size = 3;
    pthread_mutex_lock(&lock);
    commit(30);
    if (request[0] == 'C') {
        leased++;
        size = snprintf(answer, room, "lease %ld %ld build 0 {}\n", leased, leased);
    }
    else snprintf(answer, room, "ok\n");
    pthread_mutex_unlock(&lock);
    return size;
}

static void serve_one(int is_hook, int listener) {
    int on = 1, stream = accept(listener, NULL, NULL);
    char request[4096], answer[4096];
    if (stream < 0) exit(1);
    setsockopt(stream, IPPROTO_TCP, TCP_NODELAY, &on, sizeof on);
    for (ssize_t size; (size = read(stream, request, sizeof request)) > 0;) {
        int length = is_hook ? answer_http(request, answer, sizeof answer) : answer_line(request, answer, sizeof answer);
        if (write(stream, answer, length) != length) exit(1);
    }
    close(stream);
}

static void *serve(void *given) {
    long session = (long)given;
    for (long i = 0; i < rounds; i++) serve_one(session % 2 == 0, listeners[session % 2]);
    return NULL;
}

int main(int argc, char **argv) {
    pthread_t threads[MAX_SESSIONS];
    if (argc != 5 && argc != 6) return 2;
    if (argc == 6) rounds = atol(argv[5]);
    file = open(argv[1], O_RDWR | O_CLOEXEC);
    long sessions = 2 * atol(argv[4]);
    if (file < 0 || sessions < 2 || sessions > MAX_SESSIONS) return 1;
    listeners[0] = listen_on(atoi(argv[2]));
    listeners[1] = listen_on(atoi(argv[3]));
    puts("ready");
    fflush(stdout);
    for (long i = 0; i < sessions; i++) pthread_create(&threads[i], NULL, serve, (void *)i);
    for (long i = 0; i < sessions; i++) pthread_join(threads[i], NULL);
    puts("settled");
    return 0;
}
