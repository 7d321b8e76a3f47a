// A client for measuring servers of files: starts a server with a socket as its standard input and output, puts and gets files in packets of
// 65,535 bytes, and prints what processor time the server took. tools/perf/peers runs it for each server.
//
// Usage: client KIND COUNT SIZE COMMAND..        KIND is put or get, COUNT how many operations, SIZE the bytes of each file. The server runs in
// the working folder. Prints the seconds of processor time and the seconds by the clock.
#include <arpa/inet.h>
#include <netinet/tcp.h>
#include <stdint.h>
#include <stdio.h>
#include <stdlib.h>
#include <string.h>
#include <sys/resource.h>
#include <sys/socket.h>
#include <sys/wait.h>
#include <time.h>
#include <unistd.h>

enum { LIMIT = 65535, HEAD = 3 };
enum { NAME = 0x01, BODY = 0x48, END_OF_BODY = 0x49, CONTINUE = 0x90, SUCCESS = 0xA0 };

static int peer;
static uint8_t packet[LIMIT], answer[LIMIT];

static void fail(const char *what) {
    perror(what);
    exit(1);
}

static void send_all(const uint8_t *bytes, size_t n) {
    while (n) {
        ssize_t k = write(peer, bytes, n);
        if (k <= 0) fail("write");
        bytes += k;
        n -= (size_t)k;
    }
}

static void take(uint8_t *bytes, size_t n) {
    while (n) {
        ssize_t k = read(peer, bytes, n);
        if (k <= 0) fail("read");
        bytes += k;
        n -= (size_t)k;
    }
}

// Reads one packet into `answer` and returns its length.
static size_t response(void) {
    take(answer, HEAD);
    size_t n = (size_t)answer[1] << 8 | answer[2];
    take(answer + HEAD, n - HEAD);
    return n;
}

// Sends the first `n` bytes of `packet`, with the opcode and the length at its front.
static void request(uint8_t opcode, size_t n) {
    packet[0] = opcode;
    packet[1] = (uint8_t)(n >> 8);
    packet[2] = (uint8_t)n;
    send_all(packet, n);
}

static size_t put_name(size_t at, int number) {
    char name[32];
    size_t n = (size_t)snprintf(name, sizeof name, "file%d", number % 8);
    size_t length = 3 + 2 * (n + 1);
    packet[at] = NAME;
    packet[at + 1] = (uint8_t)(length >> 8);
    packet[at + 2] = (uint8_t)length;
    for (size_t i = 0; i <= n; i++) {
        packet[at + 3 + 2 * i] = 0;
        packet[at + 4 + 2 * i] = (uint8_t)name[i];
    }
    return at + length;
}

static void put(int number, size_t size, const uint8_t *bytes) {
    size_t at = put_name(HEAD, number), sent = 0;
    do {
        size_t room = LIMIT - at - 3, k = size - sent < room ? size - sent : room;
        int last = sent + k == size;
        packet[at] = last ? END_OF_BODY : BODY;
        packet[at + 1] = (uint8_t)((k + 3) >> 8);
        packet[at + 2] = (uint8_t)(k + 3);
        memcpy(packet + at + 3, bytes + sent, k);
        request(last ? 0x82 : 0x02, at + 3 + k);
        sent += k;
        response();
        if (answer[0] != (last ? SUCCESS : CONTINUE)) {
            fprintf(stderr, "client: a put was answered with %02x\n", answer[0]);
            exit(1);
        }
        at = HEAD;
    } while (sent < size);
}

static void get(int number, size_t size) {
    size_t got = 0, n = put_name(HEAD, number);
    for (;;) {
        request(0x83, n);
        size_t length = response();
        if (answer[0] != CONTINUE && answer[0] != SUCCESS) {
            fprintf(stderr, "client: a get was answered with %02x\n", answer[0]);
            exit(1);
        }
        for (size_t at = HEAD; at < length;) {
            size_t k = answer[at] >> 6 == 3 ? 5 : answer[at] >> 6 == 2 ? 2 : (size_t)answer[at + 1] << 8 | answer[at + 2];
            if (answer[at] == BODY || answer[at] == END_OF_BODY) got += k - 3;
            at += k;
        }
        if (answer[0] == SUCCESS) break;
        n = HEAD;
    }
    if (got != size) {
        fprintf(stderr, "client: a get gave %zu bytes\n", got);
        exit(1);
    }
}

// A connection over the loopback, with one end for each side.
static void connected(int ends[2]) {
    struct sockaddr_in a = {.sin_family = AF_INET, .sin_addr.s_addr = htonl(INADDR_LOOPBACK)};
    socklen_t n = sizeof a;
    int one = 1, listener = socket(AF_INET, SOCK_STREAM, 0);
    if (bind(listener, (struct sockaddr *)&a, sizeof a) < 0 || listen(listener, 1) < 0) fail("listen");
    getsockname(listener, (struct sockaddr *)&a, &n);
    ends[0] = socket(AF_INET, SOCK_STREAM, 0);
    if (connect(ends[0], (struct sockaddr *)&a, sizeof a) < 0) fail("connect");
    ends[1] = accept(listener, NULL, NULL);
    close(listener);
    for (int i = 0; i < 2; i++) setsockopt(ends[i], IPPROTO_TCP, TCP_NODELAY, &one, sizeof one);
}

int main(int argc, char **argv) {
    if (argc < 5) return 2;
    int count = atoi(argv[2]), gets = strcmp(argv[1], "get") == 0, ends[2];
    size_t size = (size_t)atol(argv[3]);
    connected(ends);
    pid_t server = fork();
    if (server == 0) {
        close(ends[0]);
        dup2(ends[1], 0);
        dup2(ends[1], 1);
        close(ends[1]);
        execvp(argv[4], argv + 4);
        fail(argv[4]);
    }
    close(ends[1]);
    peer = ends[0];
    uint8_t *bytes = malloc(size);
    for (size_t i = 0; i < size; i++) bytes[i] = (uint8_t)(i * 2654435761u >> 13);
    struct timespec before, after;
    clock_gettime(CLOCK_MONOTONIC, &before);
    memcpy(packet + HEAD, "\x10\x00\xff\xff", 4);
    request(0x80, 7);
    response();
    for (int i = 0; i < count; i++) {
        if (gets) get(i, size);
        else put(i, size, bytes);
    }
    // libopenobex does not see the stream's end, so its server ends after a Disconnect.
    request(0x81, HEAD);
    response();
    shutdown(peer, SHUT_WR);
    struct rusage usage;
    int status;
    wait4(server, &status, 0, &usage);
    clock_gettime(CLOCK_MONOTONIC, &after);
    printf("%.6f %.6f\n", usage.ru_utime.tv_sec + usage.ru_utime.tv_usec / 1e6 + usage.ru_stime.tv_sec + usage.ru_stime.tv_usec / 1e6,
           after.tv_sec - before.tv_sec + (after.tv_nsec - before.tv_nsec) / 1e9);
    return 0;
}
