// The limit: of a session's packets only the copies that an engine of this shape cannot do without. The bytes of each request go to a packet store,
// those of a Put's bodies on to a body store; the bytes of an object go to a reply. For tools/perf/peers.
//
// Usage: copies COUNT <SESSION        Prints how many bytes it copied.
#include <stdint.h>
#include <stdio.h>
#include <stdlib.h>
#include <string.h>
#include <unistd.h>

enum { OBJECT = 1 << 20, LONGEST = 1 << 21, STORE = 66535, HEAD = 3, BODY = 0x48, END_OF_BODY = 0x49 };

static uint8_t session[LONGEST], object[OBJECT], packet[STORE], body[STORE], reply[STORE];
static unsigned long copied;

static size_t two(const uint8_t *p) { return (size_t)p[0] << 8 | p[1]; }

static void copy(uint8_t *to, const uint8_t *from, size_t n) {
    memcpy(to, from, n);
    __asm__ volatile("" : : "r"(to) : "memory");
    copied += n;
}

// The body header of a Put is its last one, behind a ConnectionID and a Name at most.
static void put(const uint8_t *p, size_t n) {
    size_t at = HEAD;
    while (at < n) {
        size_t size = p[at] >> 6 == 3 ? 5 : two(p + at + 1);
        if (p[at] == BODY || p[at] == END_OF_BODY) copy(body, p + at + HEAD, size - HEAD);
        at += size;
    }
}

// The next bytes of the object, as many as a reply has room for.
static size_t get(size_t given, size_t limit) {
    size_t room = limit - 2 * HEAD, n = OBJECT - given < room ? OBJECT - given : room;
    copy(reply + 2 * HEAD, object + given, n);
    return n == room ? given + n : 0;
}

static void play(size_t length) {
    size_t given = 0, limit = 255;
    for (size_t at = 0; at < length;) {
        const uint8_t *p = session + at;
        size_t n = two(p + 1);
        copy(packet, p, n);
        if (p[0] == 0x80) limit = two(p + 5);
        if ((p[0] & 0x7F) == 2) put(packet, n);
        if ((p[0] & 0x7F) == 3) given = get(n == HEAD ? given : 0, limit);
        at += n;
    }
}

int main(int argc, char **argv) {
    long count = argc > 1 ? atol(argv[1]) : 1;
    size_t length = 0;
    ssize_t n;
    while ((n = read(0, session + length, sizeof session - length)) > 0) length += (size_t)n;
    for (size_t i = 0; i < OBJECT; i++) object[i] = (uint8_t)(i % 251);
    for (long i = 0; i < count; i++) play(length);
    printf("copied %lu\n", copied);
    return 0;
}
