#define _GNU_SOURCE
// The same session as a plain loop: it reads the same bytes from memory, finds each head's end, its method and target and the fields that
// a session looks at, and writes the same answers to a buffer that grows. `plain time SESSIONS` prints the seconds, `plain print` the bytes.
#include <stdio.h>
#include <stdlib.h>
#include <string.h>
#include <strings.h>
#include <time.h>

static const char request[] = "GET /runs/1 HTTP/1.1\r\nHost: localhost\r\nUser-Agent: bench\r\nAccept: */*\r\n\r\n";
static const char view[] = "run 1 1 queued - build:open(ready)";

struct bytes {
    char *at;
    size_t len, room;
};

static void put(struct bytes *out, const char *from, size_t len) {
    if (out->len + len > out->room) {
        out->room = (out->len + len) * 2;
        out->at = realloc(out->at, out->room);
        if (!out->at) exit(1);
    }
    memcpy(out->at + out->len, from, len);
    out->len += len;
}

// The length of the head at the beginning, or 0; whether it closes the session, and how long the body is.
static size_t head(const char *in, size_t len, int *closes, size_t *body, const char **target, size_t *target_len) {
    const char *end = memmem(in, len, "\r\n\r\n", 4);
    if (!end) return 0;
    const char *space = memchr(in, ' ', len), *line = memchr(in, '\n', len);
    if (!space || !line || line > end + 2) return 0;
    *target = space + 1;
    const char *after_target = memchr(*target, ' ', line - *target);
    if (!after_target) return 0;
    *target_len = after_target - *target;
    *closes = line[-2] == '0';
    *body = 0;
    for (const char *at = line + 1; at < end;) {
        const char *next = memchr(at, '\n', end + 2 - at), *colon = memchr(at, ':', next - at);
        if (!colon) return 0;
        size_t name = colon - at;
        if (name == 14 && !strncasecmp(at, "content-length", 14)) *body = strtoul(colon + 1, NULL, 10);
        if (name == 10 && !strncasecmp(at, "connection", 10) && memmem(colon, next - colon, "close", 5)) *closes = 1;
        at = next + 1;
    }
    return end + 4 - in;
}

static struct bytes session(const char *in, size_t len) {
    struct bytes out = {0};
    char lines[256];
    for (int count = 1; count <= 64; count++) {
        int closes;
        size_t body, target_len;
        const char *target;
        size_t n = head(in, len, &closes, &body, &target, &target_len);
        if (!n || len - n < body) break;
        closes |= count == 64;
        int found = target_len > 6 && !memcmp(target, "/runs/", 6) && strtoul(target + 6, NULL, 10) == 1;
        const char *text = found ? view : "refused 40";
        int size = snprintf(lines, sizeof lines, "HTTP/1.1 %s\r\nContent-Type: text/plain\r\nContent-Length: %zu\r\n%s\r\n",
                            found ? "200 OK" : "404 Not Found", strlen(text) + 1, closes ? "Connection: close\r\n" : "");
        put(&out, lines, size);
        put(&out, text, strlen(text));
        put(&out, "\n", 1);
        in += n + body;
        len -= n + body;
        if (closes) break;
    }
    return out;
}

int main(int argc, char **argv) {
    static char in[64 * (sizeof request - 1)];
    for (int i = 0; i < 64; i++) memcpy(in + i * (sizeof request - 1), request, sizeof request - 1);
    if (argc == 2) {
        struct bytes out = session(in, sizeof in);
        return fwrite(out.at, 1, out.len, stdout) != out.len;
    }
    long sessions = atol(argv[2]);
    free(session(in, sizeof in).at);
    struct timespec start, end;
    clock_gettime(CLOCK_MONOTONIC, &start);
    for (long i = 0; i < sessions; i++) free(session(in, sizeof in).at);
    clock_gettime(CLOCK_MONOTONIC, &end);
    printf("%.9f\n", (end.tv_sec - start.tv_sec) + (end.tv_nsec - start.tv_nsec) / 1e9);
}
