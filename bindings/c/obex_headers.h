/* Header ids, response codes, and the proved readers and writers of headers for C and C++: libheaders_c.a, for x86-64 Linux and nothing else.
 *
 *     tools/make/staticlib headers_c                                 writes target/staticlib/libheaders_c.a
 *
 * docs/PROTOCOL.md#headers says what a header is, docs/RUST.md what is proved. A value is passed without its id and its length. No call keeps a
 * pointer, allocates or waits. What is lent in one call must not overlap, and no pointer may be null, also with length 0. */
#ifndef OBEX_HEADERS_H
#define OBEX_HEADERS_H

#include <stdbool.h>
#include <stddef.h>
#include <stdint.h>

#ifdef __cplusplus
extern "C" {
#endif

/* Header ids. Those under 0x40 are text in UTF-16, those under 0x80 bytes, those under 0xC0 one byte, the others four bytes. */
enum {
    OBEX_ID_NAME = 0x01, OBEX_ID_DESCRIPTION = 0x05, OBEX_ID_DEST_NAME = 0x15,
    OBEX_ID_TYPE = 0x42, OBEX_ID_TIME = 0x44, OBEX_ID_TARGET = 0x46, OBEX_ID_HTTP = 0x47, OBEX_ID_BODY = 0x48, OBEX_ID_END_OF_BODY = 0x49,
    OBEX_ID_WHO = 0x4A, OBEX_ID_APPLICATION_PARAMETERS = 0x4C, OBEX_ID_AUTHENTICATE_CHALLENGE = 0x4D, OBEX_ID_AUTHENTICATE_RESPONSE = 0x4E,
    OBEX_ID_WANUUID = 0x50, OBEX_ID_OBJECT_CLASS = 0x51, OBEX_ID_SESSION_PARAMETERS = 0x52,
    OBEX_ID_SESSION_SEQUENCE_NUMBER = 0x93, OBEX_ID_ACTION_ID = 0x94, OBEX_ID_SINGLE_RESPONSE_MODE = 0x97,
    OBEX_ID_SINGLE_RESPONSE_MODE_PARAMETERS = 0x98,
    OBEX_ID_COUNT = 0xC0, OBEX_ID_LENGTH = 0xC3, OBEX_ID_LEGACY_TIME = 0xC4, OBEX_ID_CONNECTION_ID = 0xCB, OBEX_ID_CREATOR_ID = 0xCF,
    OBEX_ID_PERMISSIONS = 0xD6
};

/* Response codes, without the Final bit (0x80). docs/PROTOCOL.md#reply-codes has the others. */
enum {
    OBEX_CODE_CONTINUE = 0x10, OBEX_CODE_SUCCESS = 0x20, OBEX_CODE_CREATED = 0x21, OBEX_CODE_ACCEPTED = 0x22,
    OBEX_CODE_BAD_REQUEST = 0x40, OBEX_CODE_UNAUTHORIZED = 0x41, OBEX_CODE_FORBIDDEN = 0x43, OBEX_CODE_NOT_FOUND = 0x44,
    OBEX_CODE_NOT_ACCEPTABLE = 0x46, OBEX_CODE_CONFLICT = 0x49, OBEX_CODE_PRECONDITION_FAILED = 0x4C, OBEX_CODE_TOO_LARGE = 0x4D,
    OBEX_CODE_INTERNAL_ERROR = 0x50, OBEX_CODE_NOT_IMPLEMENTED = 0x51, OBEX_CODE_UNAVAILABLE = 0x53
};

/* Where the headers of a packet start: behind its code and length, and in a Connect and the response to it behind four bytes more. */
enum { OBEX_HEADERS_AT = 3, OBEX_CONNECT_HEADERS_AT = 7 };

/* A place: `found` is 1 and the bytes are those from `start` up to `end`, or all three are 0. */
typedef struct { uint64_t found; size_t start; size_t end; } obex_place;

/* An answer: `number` is 0 and bytes were written up to `end`; or nothing was written, `end` is 0 and `number` is OBEX_HEADER_TOO_LONG
 * (a header over 65,535 bytes), OBEX_HEADER_BAD_VALUE (a user id over 255 bytes) or OBEX_HEADER_SHORT (the store is too short). */
typedef struct { uint64_t number; size_t end; } obex_answer;
enum { OBEX_HEADER_WRITTEN = 0, OBEX_HEADER_TOO_LONG = 7, OBEX_HEADER_BAD_VALUE = 8, OBEX_HEADER_SHORT = 10 };

/* A challenge: 1 if it could be read, its nonce in two halves of eight bytes each, the first byte the highest, its options, and the place of
 * its realm, the charset byte included. All are 0 if it could not be read. */
typedef struct {
    uint64_t readable, first, second, user_id_required, read_only, has_realm;
    size_t realm_start, realm_end;
} obex_challenge;

/* The value of the first header with `id`, from the byte `from` on. Kept headers start at 0, those of a packet at OBEX_HEADERS_AT. */
obex_place obex_header_find(const uint8_t *headers, size_t length, size_t from, uint8_t id);

/* The UTF-16 text of a value, as of a Name, in UTF-8, and the text of a Type or a Time. `end` is its length; no zero stands behind it. */
obex_answer obex_header_text(const uint8_t *value, size_t length, uint8_t *store, size_t store_length);
obex_answer obex_header_ascii(const uint8_t *value, size_t length, uint8_t *store, size_t store_length);

/* Write a header at `at` of the store. Text is given in UTF-8: a Name goes out in UTF-16 with a zero unit behind it, a Type with a zero byte. */
obex_answer obex_header_put_bytes(uint8_t *store, size_t store_length, size_t at, uint8_t id, const uint8_t *value, size_t length);
obex_answer obex_header_put_u8(uint8_t *store, size_t store_length, size_t at, uint8_t id, uint8_t value);
obex_answer obex_header_put_u32(uint8_t *store, size_t store_length, size_t at, uint8_t id, uint32_t value);
obex_answer obex_header_put_text(uint8_t *store, size_t store_length, size_t at, uint8_t id, const uint8_t *text, size_t length);
obex_answer obex_header_put_type(uint8_t *store, size_t store_length, size_t at, const uint8_t *text, size_t length);

/* The value of an AuthenticateChallenge, and the value of the AuthenticateResponse that answers the nonce with these halves. */
obex_challenge obex_challenge_read(const uint8_t *value, size_t length);
obex_answer obex_challenge_answer(uint8_t *store, size_t store_length, size_t at, uint64_t first, uint64_t second, bool has_user,
    const uint8_t *user, size_t user_length, const uint8_t *password, size_t password_length);

#ifdef __cplusplus
}
#endif

#endif
