/* The proved OBEX client for C and C++: libclient_c.a, for x86-64 Linux and nothing else.
 *
 *     tools/make/staticlib client_c                                  writes target/staticlib/libclient_c.a
 *     cc -Ibindings/c user.c target/staticlib/libclient_c.a      compiles a user
 *
 * The user keeps the state as 32 numbers (`words`) and four stores, and lends them to each call. docs/CLIENT.md says of each call what it does,
 * when it may come and what the user owes. No call keeps a pointer, allocates or waits. What is lent in one call must not overlap, no pointer may
 * be null, also with length 0, and only const arguments may be the same in two threads at once.
 *
 * Sizes: 256 bytes of numbers and four stores of 65,535 bytes, whatever packet limit is told to the server; some 24 KB of code and constants, no
 * data, and of the C library memcpy alone. A session with a password, a Put and a Get takes 0.9 KB of stack. tools/test/bindings-c measures them, and fails over
 * 32 KB and 4 KB. */
#ifndef OBEX_CLIENT_H
#define OBEX_CLIENT_H

#include <stdbool.h>
#include <stddef.h>
#include <stdint.h>

#ifdef __cplusplus
extern "C" {
#endif

/* The version of the layout of the numbers. A start is refused unless words[OBEX_CLIENT_VERSION] is the version of the archive. */
enum { OBEX_CLIENT_LAYOUT = 1 };

/* Lengths: the numbers, and each of the four stores. */
enum { OBEX_CLIENT_WORDS = 32, OBEX_CLIENT_STORE = 65535 };

/* Settings: the numbers that a start reads. A flag that is neither 0 nor 1, a limit over 16 bits and another version are refused with
 * OBEX_CLIENT_BAD_HEADERS. Each call clears the version, so the settings are written anew before every start. */
enum {
    OBEX_CLIENT_MAX_PACKET_LENGTH = 0, /* the longest packet that the server may send, as a Connect tells it */
    OBEX_CLIENT_SRM_WANTED = 1,        /* flag: ask for Single Response Mode in each Put and Get */
    OBEX_CLIENT_VERSION = 2            /* OBEX_CLIENT_LAYOUT */
};

/* The state: a user may read it, and writes none of it. The places that are not named are 0. */
enum {
    OBEX_CLIENT_REMOTE_LIMIT = 4, /* the longest packet that the server takes */
    OBEX_CLIENT_HAS_ID = 5,       /* 1 if the server gave a ConnectionID */
    OBEX_CLIENT_ID = 6,
    OBEX_CLIENT_OPERATION = 7,    /* its kind: OBEX_CLIENT_NO_OPERATION and following; up to twelve values follow */
    OBEX_CLIENT_AWAITS = 20,      /* what is awaited: OBEX_CLIENT_AWAITS_BYTES and following */
    OBEX_CLIENT_ABORT_DUE = 21,   /* 1 if the user has aborted, and the response that is due comes first */
    OBEX_CLIENT_BEGUN = 22,       /* bytes of an unfinished response in the packet store */
    OBEX_CLIENT_LENGTH = 23,      /* the length of the last whole response */
    OBEX_CLIENT_TAKEN = 24,       /* how many of the bytes that were offered the call took */
    OBEX_CLIENT_OUTCOME = 25      /* what the call answers: OBEX_CLIENT_WANTS_BYTES and following; its values follow */
};

/* Outcomes, at OBEX_CLIENT_OUTCOME, with the values behind them. Codes are without the Final bit. 0 to 3 are as the engine's. */
enum {
    OBEX_CLIENT_WANTS_BYTES = 0,
    OBEX_CLIENT_SEND = 1,    /* its length, in the request store: send all of it, then request_sent */
    OBEX_CLIENT_END = 2,     /* its number: OBEX_CLIENT_DISCONNECTED and following */
    OBEX_CLIENT_REFUSED = 3, /* its number: OBEX_CLIENT_BAD_HEADERS and following */
    OBEX_CLIENT_READY = 4,   /* the start was accepted: call an operation */
    OBEX_CLIENT_READ = 5,    /* how many body bytes at most; none are the body's end */
    OBEX_CLIENT_PART = 6,    /* kept header bytes, in the header store; 1 if a body header came; body bytes, in the body store */
    OBEX_CLIENT_DONE = 7,    /* the server's code, and the length of the response in the packet store; also of 8 and 9 */
    OBEX_CLIENT_STOPPED = 8, /* the server ended a Put before its last packet */
    OBEX_CLIENT_ABORTED = 9
};

/* Ends. */
enum {
    OBEX_CLIENT_DISCONNECTED = 1, OBEX_CLIENT_TRUNCATED = 2, OBEX_CLIENT_LENGTH_TOO_SMALL = 3, OBEX_CLIENT_UNREADABLE = 23,
    OBEX_CLIENT_HEADERS_CHANGED = 24
};

/* Refusals, tested in the order 10, 9, 8, 24. A refused call changes nothing; after a refused start the client has ended. */
enum {
    OBEX_CLIENT_BAD_HEADERS = 8, /* headers that a user may not give; numbers that are no settings */
    OBEX_CLIENT_WRONG_MOMENT = 9, OBEX_CLIENT_STORE_TOO_SHORT = 10, OBEX_CLIENT_HEADER_TOO_LONG = 24
};

/* What is awaited, at OBEX_CLIENT_AWAITS. */
enum {
    OBEX_CLIENT_AWAITS_BYTES = 0,
    OBEX_CLIENT_AWAITS_CALL = 1,   /* an operation */
    OBEX_CLIENT_AWAITS_SENT = 2,   /* the word that the packet was sent */
    OBEX_CLIENT_AWAITS_BODY = 3,
    OBEX_CLIENT_AWAITS_TAKEN = 4,  /* the word that a part was taken */
    OBEX_CLIENT_AWAITS_NOTHING = 5 /* the client has ended */
};

/* Kinds of operations, at OBEX_CLIENT_OPERATION. */
enum {
    OBEX_CLIENT_NO_OPERATION = 0, OBEX_CLIENT_CONNECTING = 1, OBEX_CLIENT_DISCONNECTING = 2, OBEX_CLIENT_PUTTING = 3, OBEX_CLIENT_GETTING = 4,
    OBEX_CLIENT_RECEIVING = 5, OBEX_CLIENT_ABORTING = 6
};

/* Writes the default settings: packets of 65,535 bytes, no Single Response Mode. */
static inline void obex_client_defaults(uint64_t *words)
{
    int i;
    for (i = 0; i < OBEX_CLIENT_WORDS; i++)
        words[i] = 0;
    words[OBEX_CLIENT_MAX_PACKET_LENGTH] = OBEX_CLIENT_STORE;
    words[OBEX_CLIENT_VERSION] = OBEX_CLIENT_LAYOUT;
}

/* The four stores, as each call is lent them: the response, headers, the body bytes of a part, and the request. */
#define OBEX_CLIENT_STORES \
    uint8_t *packet, size_t packet_length, uint8_t *headers, size_t headers_length, \
    uint8_t *body, size_t body_length, uint8_t *request, size_t request_length

uint64_t obex_client_version(void);
void obex_client_start(uint64_t *words, OBEX_CLIENT_STORES);
void obex_client_connect(uint64_t *words, const uint8_t *header_bytes, size_t length, OBEX_CLIENT_STORES);
void obex_client_disconnect(uint64_t *words, const uint8_t *header_bytes, size_t length, OBEX_CLIENT_STORES);
void obex_client_put(uint64_t *words, const uint8_t *header_bytes, size_t length, bool has_body, OBEX_CLIENT_STORES);
void obex_client_get(uint64_t *words, const uint8_t *header_bytes, size_t length, OBEX_CLIENT_STORES);
void obex_client_request_sent(uint64_t *words, OBEX_CLIENT_STORES);
void obex_client_body_given(uint64_t *words, const uint8_t *bytes, size_t length, OBEX_CLIENT_STORES);
void obex_client_bytes_offered(uint64_t *words, const uint8_t *input, size_t length, OBEX_CLIENT_STORES);
void obex_client_stream_ended(uint64_t *words, OBEX_CLIENT_STORES);
void obex_client_part_taken(uint64_t *words, OBEX_CLIENT_STORES);
void obex_client_abort(uint64_t *words, OBEX_CLIENT_STORES);

#ifdef __cplusplus
}
#endif

#endif
