/* The proved digests for C and C++: libdigest_c.a, for x86-64 Linux and nothing else. `tools/make/staticlib digest_c` writes it. No pointer may be null. */
#ifndef DIGEST_H
#define DIGEST_H

#include <stddef.h>
#include <stdint.h>

#ifdef __cplusplus
extern "C" {
#endif

/* Sixteen bytes in two halves, the first byte the highest. */
typedef struct { uint64_t first, second; } digest_value;

/* The MD5 of a message (RFC 1321). */
void digest_md5(const uint8_t *message, size_t length, uint8_t *out16);

/* The request digest of a password for a nonce in two halves, as a challenge's response has it (docs/PROTOCOL.md#digest). */
digest_value digest_request(uint64_t first, uint64_t second, const uint8_t *password, size_t length);

#ifdef __cplusplus
}
#endif

#endif
