/* Speed of the digests: MB/s on 64 KiB, 48 KiB and 24-byte messages, best of several runs, after the RFC's vectors are checked. */
#include <stdint.h>
#include <stdio.h>
#include <stdlib.h>
#include <string.h>
#include <time.h>

struct value { uint64_t first, second; };
void digest_md5(const uint8_t *message, size_t n, uint8_t *out);
struct value digest_request(uint64_t first, uint64_t second, const uint8_t *password, size_t n);

static double now(void) { struct timespec t; clock_gettime(CLOCK_PROCESS_CPUTIME_ID, &t); return t.tv_sec + t.tv_nsec * 1e-9; }

static void vector(const char *text, const char *hex) {
    uint8_t out[16]; char got[33];
    digest_md5((const uint8_t *)text, strlen(text), out);
    for (int i = 0; i < 16; i++) sprintf(got + 2 * i, "%02x", out[i]);
    if (strcmp(got, hex)) { printf("wrong: %s %s\n", text, got); exit(1); }
}

/* a request digest is the digest of nonce, colon and password, at each length */
static void requests(void) {
    uint8_t whole[17 + 200], out[16];
    for (int i = 0; i < (int)sizeof whole; i++) whole[i] = (uint8_t)(i * 37 + 11);
    whole[16] = ':';
    uint64_t a = 0, b = 0;
    for (int i = 0; i < 8; i++) { a = a << 8 | whole[i]; b = b << 8 | whole[8 + i]; }
    for (size_t n = 0; n <= 200; n++) {
        struct value v = digest_request(a, b, whole + 17, n);
        digest_md5(whole, 17 + n, out);
        uint64_t x = 0, y = 0;
        for (int i = 0; i < 8; i++) { x = x << 8 | out[i]; y = y << 8 | out[8 + i]; }
        if (v.first != x || v.second != y) { printf("wrong: request of %zu\n", n); exit(1); }
    }
}

static double best(size_t n, int request) {
    static uint8_t m[65536]; uint8_t out[16]; double top = 0; volatile uint64_t sink = 0;
    size_t rounds = request ? 200000 : (size_t)30e6 / (n + 64) + 1;
    for (int run = 0; run < 9; run++) {
        double t = now();
        for (size_t i = 0; i < rounds; i++) {
            if (request) { struct value v = digest_request(i, run, m, n); sink += v.first; }
            else { digest_md5(m, n, out); m[0] = out[0]; }
        }
        double rate = rounds / (now() - t);
        if (rate > top) top = rate;
    }
    return top;
}

int main(void) {
    vector("", "d41d8cd98f00b204e9800998ecf8427e");
    vector("a", "0cc175b9c0f1b6a831c399e269772661");
    vector("abc", "900150983cd24fb0d6963f7d28e17f72");
    vector("message digest", "f96b697d7cb7938d525a2f31aaf161d0");
    vector("abcdefghijklmnopqrstuvwxyz", "c3fcd3d76192e4007dfb496cca67e13b");
    vector("ABCDEFGHIJKLMNOPQRSTUVWXYZabcdefghijklmnopqrstuvwxyz0123456789", "d174ab98d277d9f5a5611c2c9f419d9f");
    vector("12345678901234567890123456789012345678901234567890123456789012345678901234567890", "57edf4a22be3c955ac49da2e2107b67a");
    requests();
    double a = best(65536, 0), b = best(49152, 0), c = best(24, 0), d = best(8, 1);
    printf("64 KiB %.1f MB/s\n48 KiB %.1f MB/s\n24 bytes %.1f MB/s, %.1f ns\nrequest digest, password of 8 bytes %.1f ns\n",
        a * 65536 / 1e6, b * 49152 / 1e6, c * 24 / 1e6, 1e9 / c, 1e9 / d);
}
