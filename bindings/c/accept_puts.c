/* A host in C that accepts Puts: the client's bytes come from standard input, replies go to standard output, and for each record a line goes
 * to standard error. The example of docs/RUST.md; tools/test/bindings-c runs it. */
#include <stdio.h>
#include <unistd.h>

#include "obex_engine.h"

enum { PUT_LIMIT = 49152, SUCCESS = 0x20, NOT_IMPLEMENTED = 0x51 };

static uint64_t words[OBEX_WORDS], tables[OBEX_TABLES];
static uint8_t packet[OBEX_STORE], headers[OBEX_STORE], body[PUT_LIMIT], reply[OBEX_STORE], input[65536];

/* No bytes: an empty slice has a pointer too. */
static const uint8_t none[1];

#define STORES packet, sizeof packet, headers, sizeof headers, body, sizeof body, reply, sizeof reply

/* Sends the reply whole; says whether it could. */
static bool send_reply(size_t length)
{
    size_t sent = 0;
    while (sent < length) {
        ssize_t n = write(STDOUT_FILENO, reply + sent, length - sent);
        if (n <= 0)
            return false;
        sent += (size_t)n;
    }
    return true;
}

/* Answers a request: Put, Connect and Disconnect are accepted, and nothing else is. */
static void answer(uint64_t kind)
{
    const uint64_t *outcome = words + OBEX_OUTCOME;
    uint8_t code = SUCCESS;
    switch (kind) {
    case OBEX_ABORT:
        obex_engine_abort_acknowledged(words, STORES);
        return;
    case OBEX_PUT:
        fprintf(stderr, "record of %llu header bytes, ", (unsigned long long)outcome[1]);
        if (outcome[2] == 1)
            fprintf(stderr, "%llu body bytes\n", (unsigned long long)outcome[3]);
        else
            fprintf(stderr, "no body\n");
        break;
    case OBEX_CONNECT:
    case OBEX_DISCONNECT:
        break;
    default:
        code = NOT_IMPLEMENTED;
    }
    obex_engine_reply_given(words, code, none, 0, tables, OBEX_TABLES, STORES);
}

int main(void)
{
    size_t from = 0, to = 0;
    obex_engine_defaults(words, PUT_LIMIT);
    obex_engine_start(words, none, 0, tables, OBEX_TABLES, STORES);
    for (;;) {
        uint64_t kind = words[OBEX_OUTCOME];
        if (kind == OBEX_WANTS_BYTES && from < to) {
            obex_engine_bytes_offered(words, input + from, to - from, tables, OBEX_TABLES, STORES);
            from += words[OBEX_TAKEN];
        } else if (kind == OBEX_WANTS_BYTES) {
            ssize_t n = read(STDIN_FILENO, input, sizeof input);
            from = 0;
            to = n > 0 ? (size_t)n : 0;
            if (to == 0)
                obex_engine_stream_ended(words, STORES);
        } else if (kind == OBEX_REPLY) {
            if (!send_reply(words[OBEX_OUTCOME + 1]))
                return 1;
            obex_engine_reply_taken(words, STORES);
        } else if (kind == OBEX_END) {
            fprintf(stderr, "end %llu\n", (unsigned long long)words[OBEX_OUTCOME + 1]);
            return words[OBEX_OUTCOME + 1] == 1 ? 0 : 1;
        } else if (kind == OBEX_REFUSED) {
            fprintf(stderr, "refused %llu\n", (unsigned long long)words[OBEX_OUTCOME + 1]);
            return 1;
        } else {
            answer(kind);
        }
    }
}
