/* The proved OBEX server engine for C and C++: libengine_c.a, for x86-64 Linux and nothing else.
 *
 *     tools/make/staticlib engine_c                                  writes target/staticlib/libengine_c.a
 *     cc -Ibindings/c host.c target/staticlib/libengine_c.a      compiles a host
 *
 * The host keeps the state as 64 numbers (`words`), the table store (`tables`) and four stores, and lends them to each call. docs/EMBEDDING.md
 * says of each call what it does, docs/RUST.md what is proved and what is trusted. No call keeps a pointer, allocates or waits. What is lent in
 * one call must not overlap, no pointer may be null, also with length 0, and only const arguments may be the same in two threads at once.
 *
 * Sizes: 512 bytes of numbers, 2,560 of tables, three stores of 65,535 bytes, whatever packet limit is told to the client, and the body store;
 * some 60 KB of code and constants, no data, and of the C library memcpy alone. A session with a password, a Put and a Get takes 2.7 KB of stack.
 * tools/test/bindings-c measures them, and fails over 64 KB and 4 KB. */
#ifndef OBEX_ENGINE_H
#define OBEX_ENGINE_H

#include <stdbool.h>
#include <stddef.h>
#include <stdint.h>

#ifdef __cplusplus
extern "C" {
#endif

/* The version of the layout of the numbers. A start is refused unless words[OBEX_VERSION] is the version of the archive. */
enum { OBEX_ENGINE_VERSION = 2 };

/* Lengths: the numbers, the table store, and the packet, header and reply stores. The body store is as long as the Put limit, or longer. */
enum { OBEX_WORDS = 64, OBEX_TABLES = 320, OBEX_STORE = 65535 };

/* Settings: the numbers that a start reads. A flag is 0 or 1; any other number, a Put limit over 32 bits, a packet limit over 16 bits, a charset
 * over 8 bits and another version are refused with OBEX_BAD_ANSWER. Each call clears the version, so the settings are written anew before every
 * start. After the start they belong to the state: a host that changes them changes the state. */
enum {
    OBEX_MAX_OBJECT_SIZE = 0,   /* the Put limit */
    OBEX_MAX_PACKET_LENGTH = 1, /* the longest packet that the client may send, as a Connect is told */
    OBEX_CHARSET = 2,           /* the charset of the realm */
    OBEX_HAS_REALM = 3,         /* flag: a challenge names the realm that is lent */
    OBEX_SRM_SUPPORTED = 4,     /* flag */
    OBEX_AUTHENTICATION = 5,    /* flag: a client has to give a password */
    OBEX_USER_ID_REQUIRED = 6,  /* flag: a challenge asks for a user id */
    OBEX_READ_ONLY = 7,         /* flag: a challenge says so */
    OBEX_USER_ID_ENFORCED = 8,  /* flag: a password without a user id fails */
    OBEX_REFUSE_TRAILING = 9,   /* flag: what trails a Put that was too long is refused */
    OBEX_VERSION = 10           /* OBEX_ENGINE_VERSION */
};

/* The state: a host may read it, and writes none of it. The places that are not named are 0. */
enum {
    OBEX_OPEN_IDS = 12,     /* how many connection ids are open: the first numbers of the table store */
    OBEX_NONCES = 13,       /* how many nonces are remembered */
    OBEX_WINDOW = 14,       /* the last 64 checks of passwords, a set bit for each wrong one */
    OBEX_NEXT_ID = 15,      /* where the search for an id starts */
    OBEX_REMOTE_LIMIT = 16, /* the longest packet that the client takes */
    OBEX_SRM_ENABLED = 17,
    OBEX_AUTHENTICATED = 18,
    OBEX_CHALLENGE = 19,    /* 1 if a challenge is out; its nonce is in the next two */
    OBEX_CHALLENGE_FIRST = 20,
    OBEX_CHALLENGE_SECOND = 21,
    OBEX_OPERATION = 24,    /* its kind: OBEX_NO_OPERATION and following; up to eleven values follow */
    OBEX_TARGET_LENGTH = 36, /* the Target of the last packet: its length, over 16 if there is none, and two halves */
    OBEX_TARGET_FIRST = 37,
    OBEX_TARGET_SECOND = 38,
    OBEX_AWAITS = 40,       /* what is awaited: OBEX_AWAITS_BYTES and following */
    OBEX_BEGUN = 41,        /* bytes of an unfinished packet in the packet store */
    OBEX_LENGTH = 42,       /* the length of the last whole packet */
    OBEX_TAKEN = 43,        /* how many of the bytes that were offered the call took */
    OBEX_OUTCOME = 44       /* what the call answers: OBEX_WANTS_BYTES and following; its values follow */
};

/* Outcomes, at OBEX_OUTCOME, with the values behind them: words[OBEX_OUTCOME + 1] and so on. A refusal takes the place of the outcome: a host
 * remembers the request that it has to answer. */
enum {
    OBEX_WANTS_BYTES = 0,
    OBEX_REPLY = 1,         /* its length, in the reply store */
    OBEX_END = 2,           /* its number: OBEX_DISCONNECTED and following */
    OBEX_REFUSED = 3,       /* its number: OBEX_BAD_ANSWER and following */
    OBEX_CONNECT = 4,       /* the length of the packet, in the packet store; also of 5 and 7 */
    OBEX_DISCONNECT = 5,
    OBEX_SET_PATH = 6,      /* length, 1 for backup, 1 for no create */
    OBEX_ABORT = 7,
    OBEX_PUT = 8,           /* kept header bytes, in the header store; 1 if a body header came; body bytes, in the body store */
    OBEX_GET = 9,           /* kept header bytes; also of 10, 11 and 12 */
    OBEX_ACTION = 10,
    OBEX_SESSION = 11,
    OBEX_USER_DEFINED = 12, /* then the opcode */
    OBEX_PASSWORD = 13,     /* 1 if the client names a user; where the name starts and ends in the packet store */
    OBEX_NONCE = 14,
    OBEX_CREDENTIALS = 15,  /* two halves of the nonce, user id required, read only, 1 if there is a realm; where it starts and ends */
    OBEX_READ = 16          /* how many body bytes at most */
};

/* Ends. */
enum {
    OBEX_DISCONNECTED = 1, OBEX_TRUNCATED = 2, OBEX_LENGTH_TOO_SMALL = 3, OBEX_UNREADABLE = 4, OBEX_OTHER_OPERATION = 5,
    OBEX_HEADERS_TOO_LARGE = 6, OBEX_REPLY_TOO_LARGE = 7
};

/* Refusals. A refused call changes nothing; after a refused start the engine has ended. They are tested in the order 10, 9, and then the others. */
enum {
    OBEX_BAD_ANSWER = 8, OBEX_WRONG_MOMENT = 9, OBEX_STORE_TOO_SHORT = 10, OBEX_NONCE_USED = 15, OBEX_TOO_MANY_IDS = 19, OBEX_ID_NOT_OPEN = 20,
    OBEX_ID_REPEATED = 21
};

/* What is awaited, at OBEX_AWAITS. */
enum {
    OBEX_AWAITS_BYTES = 0,
    OBEX_AWAITS_TAKEN = 1,           /* the word that the reply was sent; also 2, after which the engine ends */
    OBEX_AWAITS_LAST = 2,
    OBEX_AWAITS_CONNECT = 3,         /* the reply to a Connect */
    OBEX_AWAITS_DISCONNECT = 4,
    OBEX_AWAITS_GET = 5,             /* the reply to a Get, or an object for it */
    OBEX_AWAITS_REPLY = 6,           /* the reply to any other request */
    OBEX_AWAITS_ACKNOWLEDGEMENT = 7, /* the word that the host has heard of an Abort */
    OBEX_AWAITS_PASSWORD = 8,
    OBEX_AWAITS_NONCE = 9,
    OBEX_AWAITS_CREDENTIALS = 10,
    OBEX_AWAITS_BODY = 11,
    OBEX_AWAITS_NOTHING = 12         /* the engine has ended */
};

/* Kinds of operations, at OBEX_OPERATION. */
enum {
    OBEX_NO_OPERATION = 0, OBEX_PUTTING = 1, OBEX_GETTING = 2, OBEX_SENDING = 3, OBEX_GATHERING = 4, OBEX_CONNECTING = 5, OBEX_DRAINING = 6,
    OBEX_TRAILING = 7
};

/* Writes the default settings: the given Put limit, packets of 65,535 bytes, every flag off. A host changes what it wants otherwise, and starts. */
static inline void obex_engine_defaults(uint64_t *words, uint32_t max_object_size)
{
    int i;
    for (i = 0; i < OBEX_WORDS; i++)
        words[i] = 0;
    words[OBEX_MAX_OBJECT_SIZE] = max_object_size;
    words[OBEX_MAX_PACKET_LENGTH] = OBEX_STORE;
    words[OBEX_VERSION] = OBEX_ENGINE_VERSION;
}

/* The four stores, as each call but one is lent them. */
#define OBEX_STORES \
    uint8_t *packet, size_t packet_length, uint8_t *headers, size_t headers_length, \
    uint8_t *body, size_t body_length, uint8_t *reply, size_t reply_length

uint64_t obex_engine_version(void);
void obex_engine_start(uint64_t *words, const uint8_t *realm, size_t realm_length, const uint64_t *tables, size_t tables_length, OBEX_STORES);
void obex_engine_bytes_offered(uint64_t *words, const uint8_t *input, size_t length, const uint64_t *tables, size_t tables_length, OBEX_STORES);
void obex_engine_stream_ended(uint64_t *words, OBEX_STORES);
void obex_engine_reply_taken(uint64_t *words, OBEX_STORES);
void obex_engine_reply_given(uint64_t *words, uint8_t code, const uint8_t *header_bytes, size_t length, uint64_t *tables, size_t tables_length, OBEX_STORES);
void obex_engine_object_given(uint64_t *words, const uint8_t *header_bytes, size_t length, bool has_body, OBEX_STORES);
void obex_engine_body_given(uint64_t *words, const uint8_t *bytes, size_t length, OBEX_STORES);
void obex_engine_body_failed(uint64_t *words, OBEX_STORES);
void obex_engine_abort_acknowledged(uint64_t *words, OBEX_STORES);
void obex_engine_password_given(uint64_t *words, bool has_password, const uint8_t *password, size_t length, OBEX_STORES);
void obex_engine_nonce_given(uint64_t *words, uint64_t first, uint64_t second, const uint8_t *realm, size_t realm_length,
    uint64_t *tables, size_t tables_length, OBEX_STORES);
void obex_engine_credentials_given(uint64_t *words, bool has_credentials, bool has_user, const uint8_t *user, size_t user_length,
    const uint8_t *password, size_t password_length, OBEX_STORES);
void obex_engine_connections_closed(uint64_t *words, const uint32_t *ids, size_t count, uint64_t *tables, size_t tables_length);

#ifdef __cplusplus
}
#endif

#endif
