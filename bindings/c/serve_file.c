/* A host in C behind a socket of the loopback. It asks for a password, gives one file to a Get of its name, and accepts Puts.
 *
 * Usage: serve_file PORT PASSWORD FILE SESSIONS. It serves that many connections, one after the other, and prints a line for each record, each
 * Get, each wrong password and each end. The example of docs/RUST.md; tools/test/bindings-c runs it. */
#include <arpa/inet.h>
#include <stdio.h>
#include <stdlib.h>
#include <string.h>
#include <sys/random.h>
#include <sys/socket.h>
#include <unistd.h>

#include "obex_engine.h"
#include "obex_headers.h"

enum { PUT_LIMIT = 49152 };

static uint64_t words[OBEX_WORDS], tables[OBEX_TABLES];
static uint8_t packet[OBEX_STORE], headers[OBEX_STORE], body[PUT_LIMIT], reply[OBEX_STORE], input[65536], chunk[OBEX_STORE];
static const uint8_t none[1];
static const char *password, *path;
static FILE *object;

#define STORES packet, sizeof packet, headers, sizeof headers, body, sizeof body, reply, sizeof reply

/* Answers with a code and no headers. */
static void refuse(uint8_t code) { obex_engine_reply_given(words, code, none, 0, tables, OBEX_TABLES, STORES); }

/* Stores the Name among `kept` bytes of headers, as a string; an empty one if there is none. */
static void name_of(size_t kept, char *name, size_t size)
{
    obex_place place = obex_header_find(headers, kept, 0, OBEX_ID_NAME);
    obex_answer text = obex_header_text(headers + place.start, place.end - place.start, (uint8_t *)name, size - 1);
    name[text.end] = 0;
}

/* Answers a Get: with the file if its name is asked for, and else with Not Found. */
static void give_object(size_t kept)
{
    char name[256];
    const char *last = strrchr(path, '/');
    obex_answer length;
    long size;
    name_of(kept, name, sizeof name);
    printf("get %s\n", name);
    if (object != NULL)
        fclose(object);
    object = strcmp(name, last == NULL ? path : last + 1) == 0 ? fopen(path, "rb") : NULL;
    if (object == NULL || fseek(object, 0, SEEK_END) != 0 || (size = ftell(object)) < 0 || size > 0xFFFFFFFFL || fseek(object, 0, SEEK_SET) != 0) {
        refuse(OBEX_CODE_NOT_FOUND);
        return;
    }
    length = obex_header_put_u32(chunk, sizeof chunk, 0, OBEX_ID_LENGTH, (uint32_t)size);
    obex_engine_object_given(words, chunk, length.end, true, STORES);
}

/* Gives the next bytes of the file, at most `room`; none are its end. */
static void give_body(size_t room)
{
    size_t n = fread(chunk, 1, room < sizeof chunk ? room : sizeof chunk, object);
    if (n == 0 && ferror(object))
        obex_engine_body_failed(words, STORES);
    else
        obex_engine_body_given(words, chunk, n, STORES);
}

/* Gives a fresh nonce. */
static void give_nonce(void)
{
    uint64_t nonce[2];
    if (getrandom(nonce, sizeof nonce, 0) != (ssize_t)sizeof nonce)
        exit(1);
    obex_engine_nonce_given(words, nonce[0], nonce[1], none, 0, tables, OBEX_TABLES, STORES);
}

/* Prints a record: its Name and how many bytes its body has. */
static void print_record(const uint64_t *outcome)
{
    char name[256];
    name_of((size_t)outcome[1], name, sizeof name);
    printf("put %s %llu bytes\n", name, (unsigned long long)outcome[3]);
}

/* Answers a request. */
static void answer(uint64_t kind)
{
    const uint64_t *outcome = words + OBEX_OUTCOME;
    uint64_t wrong = words[OBEX_WINDOW];
    switch (kind) {
    case OBEX_CONNECT:
    case OBEX_DISCONNECT:
        refuse(OBEX_CODE_SUCCESS);
        break;
    case OBEX_PUT:
        print_record(outcome);
        refuse(OBEX_CODE_SUCCESS);
        break;
    case OBEX_GET:
        give_object((size_t)outcome[1]);
        break;
    case OBEX_READ:
        give_body((size_t)outcome[1]);
        break;
    case OBEX_NONCE:
        give_nonce();
        break;
    case OBEX_PASSWORD:
        obex_engine_password_given(words, true, (const uint8_t *)password, strlen(password), STORES);
        if (words[OBEX_WINDOW] != wrong * 2)
            printf("wrong password\n");
        break;
    case OBEX_CREDENTIALS:
        obex_engine_credentials_given(words, false, false, none, 0, none, 0, STORES);
        break;
    case OBEX_ABORT:
        obex_engine_abort_acknowledged(words, STORES);
        break;
    default:
        refuse(OBEX_CODE_NOT_IMPLEMENTED);
    }
}

/* Sends the reply whole; says whether it could. */
static bool send_reply(int peer, size_t length)
{
    size_t sent = 0;
    while (sent < length) {
        ssize_t n = send(peer, reply + sent, length - sent, MSG_NOSIGNAL);
        if (n <= 0)
            return false;
        sent += (size_t)n;
    }
    return true;
}

/* Serves one connection, to its end. Returns the number of the end, or 0 if a reply could not be sent or a call was refused. */
static uint64_t serve(int peer)
{
    size_t from = 0, to = 0;
    obex_engine_defaults(words, PUT_LIMIT);
    words[OBEX_AUTHENTICATION] = 1;
    obex_engine_start(words, none, 0, tables, OBEX_TABLES, STORES);
    for (;;) {
        uint64_t kind = words[OBEX_OUTCOME];
        if (kind == OBEX_WANTS_BYTES && from < to) {
            obex_engine_bytes_offered(words, input + from, to - from, tables, OBEX_TABLES, STORES);
            from += words[OBEX_TAKEN];
        } else if (kind == OBEX_WANTS_BYTES) {
            ssize_t n = recv(peer, input, sizeof input, 0);
            from = 0;
            to = n > 0 ? (size_t)n : 0;
            if (to == 0)
                obex_engine_stream_ended(words, STORES);
        } else if (kind == OBEX_REPLY) {
            if (!send_reply(peer, words[OBEX_OUTCOME + 1]))
                return 0;
            obex_engine_reply_taken(words, STORES);
        } else if (kind == OBEX_END || kind == OBEX_REFUSED) {
            return kind == OBEX_END ? words[OBEX_OUTCOME + 1] : 0;
        } else {
            answer(kind);
        }
    }
}

int main(int argc, char **argv)
{
    struct sockaddr_in address = { .sin_family = AF_INET, .sin_addr = { htonl(INADDR_LOOPBACK) } };
    int listener = socket(AF_INET, SOCK_STREAM, 0), on = 1, sessions;
    if (argc != 5)
        return 2;
    address.sin_port = htons((uint16_t)strtoul(argv[1], NULL, 10));
    password = argv[2];
    path = argv[3];
    setsockopt(listener, SOL_SOCKET, SO_REUSEADDR, &on, sizeof on);
    if (bind(listener, (struct sockaddr *)&address, sizeof address) != 0 || listen(listener, 8) != 0)
        return 1;
    setvbuf(stdout, NULL, _IOLBF, 0);
    printf("listening\n");
    for (sessions = atoi(argv[4]); sessions > 0; sessions--) {
        int peer = accept(listener, NULL, NULL);
        if (peer < 0)
            return 1;
        printf("end %llu\n", (unsigned long long)serve(peer));
        close(peer);
    }
    if (object != NULL)
        fclose(object);
    close(listener);
    return 0;
}
