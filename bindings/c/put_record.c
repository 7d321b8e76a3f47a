/* A client in C: it connects to a server of the loopback, answers a challenge with a password, puts a record and disconnects.
 *
 * Usage: put_record PORT PASSWORD NAME <record. It prints a line for each operation, the server's code in hexadecimal. The exit status is 0 if the
 * record was taken. The example of docs/RUST.md; tools/test/bindings-c runs it. */
#include <arpa/inet.h>
#include <stdio.h>
#include <stdlib.h>
#include <string.h>
#include <sys/socket.h>
#include <unistd.h>

#include "obex_client.h"
#include "obex_headers.h"

static uint64_t words[OBEX_CLIENT_WORDS];
static uint8_t packet[OBEX_CLIENT_STORE], headers[OBEX_CLIENT_STORE], body[OBEX_CLIENT_STORE], request[OBEX_CLIENT_STORE];
static uint8_t input[65536], chunk[OBEX_CLIENT_STORE], record[1 << 20];
static const uint8_t none[1];
static size_t from, to, record_length, record_given;

#define STORES packet, sizeof packet, headers, sizeof headers, body, sizeof body, request, sizeof request

/* Sends the packet that waits, whole; says whether it could. */
static bool send_request(int peer, size_t length)
{
    size_t sent = 0;
    while (sent < length) {
        ssize_t n = send(peer, request + sent, length - sent, MSG_NOSIGNAL);
        if (n <= 0)
            return false;
        sent += (size_t)n;
    }
    obex_client_request_sent(words, STORES);
    return true;
}

/* Offers the bytes that are left, or reads on. */
static void offer(int peer)
{
    if (from < to) {
        obex_client_bytes_offered(words, input + from, to - from, STORES);
        from += words[OBEX_CLIENT_TAKEN];
    } else {
        ssize_t n = recv(peer, input, sizeof input, 0);
        from = 0;
        to = n > 0 ? (size_t)n : 0;
        if (to == 0)
            obex_client_stream_ended(words, STORES);
    }
}

/* Gives the next bytes of the record, at most `room`; none are its end. */
static void give_record(size_t room)
{
    size_t n = record_length - record_given < room ? record_length - record_given : room;
    record_given += n;
    obex_client_body_given(words, record + record_given - n, n, STORES);
}

/* Goes on until the operation is over, and returns the server's code; 0 if the client ended or refused a call, or a packet could not be sent. */
static uint64_t finish(int peer, const char *what)
{
    for (;;) {
        uint64_t kind = words[OBEX_CLIENT_OUTCOME], value = words[OBEX_CLIENT_OUTCOME + 1];
        if (kind == OBEX_CLIENT_WANTS_BYTES) {
            offer(peer);
        } else if (kind == OBEX_CLIENT_SEND) {
            if (!send_request(peer, value))
                return 0;
        } else if (kind == OBEX_CLIENT_READ) {
            give_record(value);
        } else if (kind == OBEX_CLIENT_PART) {
            obex_client_part_taken(words, STORES);
        } else if (kind == OBEX_CLIENT_END || kind == OBEX_CLIENT_REFUSED) {
            printf("%s: %s %llu\n", what, kind == OBEX_CLIENT_END ? "end" : "refused", (unsigned long long)value);
            return 0;
        } else {
            printf("%s: %llx\n", what, (unsigned long long)value);
            return value;
        }
    }
}

/* Connects once more with the answer to the challenge in the response; returns the server's code. */
static uint64_t answer_challenge(int peer, const char *password)
{
    obex_place place = obex_header_find(packet, words[OBEX_CLIENT_LENGTH], OBEX_CONNECT_HEADERS_AT, OBEX_ID_AUTHENTICATE_CHALLENGE);
    obex_challenge challenge = obex_challenge_read(packet + place.start, place.end - place.start);
    uint8_t value[512];
    obex_answer answer, written;
    if (challenge.readable == 0)
        return 0;
    answer = obex_challenge_answer(value, sizeof value, 0, challenge.first, challenge.second, false, none, 0, (const uint8_t *)password,
        strlen(password));
    written = obex_header_put_bytes(chunk, sizeof chunk, 0, OBEX_ID_AUTHENTICATE_RESPONSE, value, answer.end);
    obex_client_connect(words, chunk, written.end, STORES);
    return finish(peer, "connect with a password");
}

/* Puts the record under a Name, with its length; returns the server's code. */
static uint64_t put_record(int peer, const char *name)
{
    obex_answer a = obex_header_put_text(chunk, sizeof chunk, 0, OBEX_ID_NAME, (const uint8_t *)name, strlen(name));
    obex_answer b = obex_header_put_u32(chunk, sizeof chunk, a.end, OBEX_ID_LENGTH, (uint32_t)record_length);
    if (a.number != 0 || b.number != 0)
        return 0;
    obex_client_put(words, chunk, b.end, true, STORES);
    return finish(peer, "put");
}

/* Connects, puts and disconnects; says whether the record was taken. */
static bool session(int peer, const char *password, const char *name)
{
    uint64_t code;
    bool taken;
    obex_client_defaults(words);
    obex_client_start(words, STORES);
    if (words[OBEX_CLIENT_OUTCOME] != OBEX_CLIENT_READY)
        return false;
    obex_client_connect(words, none, 0, STORES);
    code = finish(peer, "connect");
    if (code == OBEX_CODE_UNAUTHORIZED)
        code = answer_challenge(peer, password);
    if (code != OBEX_CODE_SUCCESS)
        return false;
    taken = put_record(peer, name) == OBEX_CODE_SUCCESS;
    obex_client_disconnect(words, none, 0, STORES);
    return finish(peer, "disconnect") == OBEX_CODE_SUCCESS && taken;
}

int main(int argc, char **argv)
{
    struct sockaddr_in address = { .sin_family = AF_INET, .sin_addr = { htonl(INADDR_LOOPBACK) } };
    int peer = socket(AF_INET, SOCK_STREAM, 0);
    bool taken;
    if (argc != 4)
        return 2;
    address.sin_port = htons((uint16_t)strtoul(argv[1], NULL, 10));
    record_length = fread(record, 1, sizeof record, stdin);
    if (connect(peer, (struct sockaddr *)&address, sizeof address) != 0)
        return 1;
    taken = session(peer, argv[2], argv[3]);
    close(peer);
    return taken ? 0 : 1;
}
