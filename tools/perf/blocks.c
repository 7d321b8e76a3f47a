/* Speed of the archive's blocks: a record of 49,152 bytes, which is 101 blocks, written and read by the port and by a plain C program of the same
   format over OpenSSL's MD5, beside the port's MD5 alone on messages of 496 bytes, which is what each check is of. Before that, both write the
   same blocks at many lengths, read each other's, and give the same numbers for damaged ones. The best of several runs each, in turn. */
#include <openssl/evp.h>
#include <stdint.h>
#include <stdio.h>
#include <stdlib.h>
#include <string.h>
#include <time.h>

enum { BLOCK = 512, HEAD = 6, PAYLOAD = 490, CHECKED = 496, RECORD = 49152, COUNT = 101 };

/* the port: the number of the answer, 0 for a result */
size_t archive_write(const uint8_t *source, size_t n, uint8_t *target, size_t room);
size_t archive_read(const uint8_t *source, size_t n, uint8_t *target, size_t room);
void digest_md5(const uint8_t *message, size_t n, uint8_t *out);

static EVP_MD *md5;
static EVP_MD_CTX *context;

static void check_of(const uint8_t *block, uint8_t *out) {
    EVP_DigestInit_ex(context, md5, NULL);
    EVP_DigestUpdate(context, block, CHECKED);
    EVP_DigestFinal_ex(context, out, NULL);
}

static size_t plain_write(const uint8_t *body, size_t n, uint8_t *blocks, size_t room) {
    size_t count = n ? (n + PAYLOAD - 1) / PAYLOAD : 1;
    if (room < BLOCK * count) return 10;
    if (n > 4294967295u) return 13;
    for (size_t k = 0; k < count; k++) {
        uint8_t *b = blocks + BLOCK * k;
        size_t left = n - PAYLOAD * k, used = left < PAYLOAD ? left : PAYLOAD, field = k + 1 == count ? 32768 + used : used;
        b[0] = (uint8_t)(field >> 8); b[1] = (uint8_t)field;
        b[2] = (uint8_t)(k >> 24); b[3] = (uint8_t)(k >> 16); b[4] = (uint8_t)(k >> 8); b[5] = (uint8_t)k;
        if (used) memcpy(b + HEAD, body + PAYLOAD * k, used);
        memset(b + HEAD + used, 0, PAYLOAD - used);
        check_of(b, b + CHECKED);
    }
    return 0;
}

static size_t fault(const uint8_t *b, size_t k, int ended, size_t before) {
    uint8_t check[16];
    size_t field = (size_t)b[0] << 8 | b[1], used = field & 32767;
    check_of(b, check);
    if (memcmp(check, b + CHECKED, 16)) return 11;
    if (((size_t)b[2] << 24 | (size_t)b[3] << 16 | (size_t)b[4] << 8 | b[5]) != k) return 12;
    if (ended) return 13;
    if (field < 32768 ? used != PAYLOAD : used > PAYLOAD || (used == 0 && k != 0)) return 13;
    for (size_t i = HEAD + used; i < CHECKED; i++) if (b[i]) return 13;
    return before + used > 4294967295u ? 13 : 0;
}

static size_t plain_read(const uint8_t *blocks, size_t n, uint8_t *body, size_t room) {
    size_t count = n / BLOCK, length = 0;
    int ended = 0;
    if (room < PAYLOAD * count) return 10;
    for (size_t k = 0; k < count; k++) {
        const uint8_t *b = blocks + BLOCK * k;
        size_t wrong = fault(b, k, ended, length);
        if (wrong) return wrong;
        ended = b[0] >= 128;
        length += ((size_t)b[0] << 8 | b[1]) & 32767;
    }
    if (n % BLOCK || !ended) return 13;
    for (size_t k = 0, at = 0; k < count; k++) {
        size_t used = ((size_t)blocks[BLOCK * k] << 8 | blocks[BLOCK * k + 1]) & 32767;
        memcpy(body + at, blocks + BLOCK * k + HEAD, used);
        at += used;
    }
    return 0;
}

static uint8_t record[RECORD], ours[BLOCK * COUNT], theirs[BLOCK * COUNT], back[PAYLOAD * COUNT], again[PAYLOAD * COUNT];

static void wrong(const char *what, size_t n) { printf("wrong: %s at %zu\n", what, n); exit(1); }

/* the same blocks, bodies and numbers */
static void compare(void) {
    for (size_t i = 0; i < RECORD; i++) record[i] = (uint8_t)(i * 37 + i / 256 + 11);
    for (size_t n = 0; n <= RECORD; n += n < 1500 ? 1 : 997) {
        size_t size = BLOCK * (n ? (n + PAYLOAD - 1) / PAYLOAD : 1);
        memset(ours, 0xEE, sizeof ours); memset(theirs, 0xEE, sizeof theirs);
        if (archive_write(record, n, ours, sizeof ours) || plain_write(record, n, theirs, sizeof theirs)) wrong("writing", n);
        if (memcmp(ours, theirs, sizeof ours)) wrong("blocks", n);
        memset(back, 0xEE, sizeof back);
        if (archive_read(theirs, size, back, sizeof back) || memcmp(back, record, n)) wrong("reading", n);
        if (plain_read(ours, size, again, sizeof again) || memcmp(again, record, n)) wrong("the plain reading", n);
        if (archive_write(record, n, ours, size - 1) != 10) wrong("a short target", n);
        for (size_t k = 0; k < 20; k++) {
            size_t at = (n * 7919 + k * 104729) % size;
            theirs[at] ^= (uint8_t)(1 << k % 8);
            if (archive_read(theirs, size, back, sizeof back) != plain_read(theirs, size, again, sizeof again)) wrong("a damaged block", n);
            theirs[at] ^= (uint8_t)(1 << k % 8);
        }
        if (archive_read(theirs, size - 1, back, sizeof back) != 13) wrong("bytes left over", n);
    }
}

static double now(void) { struct timespec t; clock_gettime(CLOCK_PROCESS_CPUTIME_ID, &t); return t.tv_sec + t.tv_nsec * 1e-9; }

/* blocks a second: of kind 0 the port's MD5 alone, 1 and 2 the port, 3 and 4 the plain program, writing and reading */
static double rate(int kind) {
    enum { ROUNDS = 60 };
    uint8_t out[16];
    double t = now();
    for (int i = 0; i < ROUNDS; i++) {
        record[i] ^= 1;
        if (kind == 0) for (size_t k = 0; k < COUNT; k++) { digest_md5(record + CHECKED * (k % 99), CHECKED, out); record[k] = out[0]; }
        if (kind == 1 && archive_write(record, RECORD, ours, sizeof ours)) wrong("writing", i);
        if (kind == 2 && archive_read(ours, sizeof ours, back, sizeof back)) wrong("reading", i);
        if (kind == 3 && plain_write(record, RECORD, theirs, sizeof theirs)) wrong("the plain writing", i);
        if (kind == 4 && plain_read(theirs, sizeof theirs, again, sizeof again)) wrong("the plain reading", i);
    }
    return ROUNDS * (double)COUNT / (now() - t);
}

int main(void) {
    md5 = EVP_MD_fetch(NULL, "MD5", NULL);
    context = EVP_MD_CTX_new();
    if (!md5 || !context) { printf("OpenSSL has no MD5\n"); return 1; }
    compare();
    archive_write(record, RECORD, ours, sizeof ours);
    plain_write(record, RECORD, theirs, sizeof theirs);
    double best[5] = {0};
    for (int run = 0; run < 40; run++)
        for (int kind = 0; kind < 5; kind++) { double r = rate(kind); if (r > best[kind]) best[kind] = r; }
    printf("MD5 of 496 bytes, port %.0f a second\n", best[0]);
    printf("blocks written %.0f a second, %.2f of MD5 alone, %.2f of the plain program's %.0f\n", best[1], best[1] / best[0], best[1] / best[3], best[3]);
    printf("blocks read %.0f a second, %.2f of MD5 alone, %.2f of the plain program's %.0f\n", best[2], best[2] / best[0], best[2] / best[4], best[4]);
}
