/* A test: client and engine in one process, a password, a Put and a Get of 48 KiB; each call runs on a painted stack. Prints how many bytes of
 * stack the deepest call of each took; the exit status is 1 if the session went wrong. tools/test/bindings-c runs it. */
#include <stdio.h>
#include <string.h>
#include <ucontext.h>

#include "obex_client.h"
#include "obex_engine.h"
#include "obex_headers.h"

enum { OBJECT = 49152, STACK = 1 << 17, PAINT = 0xA5 };

static uint64_t words[OBEX_WORDS], tables[OBEX_TABLES], numbers[OBEX_CLIENT_WORDS];
static uint8_t packet[OBEX_STORE], headers[OBEX_STORE], body[OBEX_STORE], reply[OBEX_STORE];
static uint8_t response[OBEX_STORE], kept[OBEX_STORE], part[OBEX_STORE], request[OBEX_STORE], value[512], list[512];
static uint8_t object[OBJECT], got[OBJECT], area[STACK];
static const uint8_t none[1];
static size_t deepest[2], given, taken, answered;
static ucontext_t here, there;

#define STORES packet, sizeof packet, headers, sizeof headers, body, sizeof body, reply, sizeof reply
#define CLIENT_STORES response, sizeof response, kept, sizeof kept, part, sizeof part, request, sizeof request

/* Runs a call on the painted stack; `end` is 0 for the engine's, 1 for the client's. */
static void on_stack(int end, void (*call)(void))
{
    size_t clean = 0;
    memset(area, PAINT, sizeof area);
    getcontext(&there);
    there.uc_stack.ss_sp = area;
    there.uc_stack.ss_size = sizeof area;
    there.uc_link = &here;
    makecontext(&there, call, 0);
    swapcontext(&here, &there);
    while (clean < sizeof area && area[clean] == PAINT)
        clean++;
    if (sizeof area - clean > deepest[end])
        deepest[end] = sizeof area - clean;
}

static void nothing(void) {}
static void engine_start(void) { obex_engine_start(words, none, 0, tables, OBEX_TABLES, STORES); }
static void engine_bytes(void) { obex_engine_bytes_offered(words, request, numbers[OBEX_CLIENT_OUTCOME + 1], tables, OBEX_TABLES, STORES); }
static void engine_taken(void) { obex_engine_reply_taken(words, STORES); }
static void engine_reply(void) { obex_engine_reply_given(words, OBEX_CODE_SUCCESS, none, 0, tables, OBEX_TABLES, STORES); }
static void engine_nonce(void) { obex_engine_nonce_given(words, 7, 11, none, 0, tables, OBEX_TABLES, STORES); }
static void engine_password(void) { obex_engine_password_given(words, true, (const uint8_t *)"secret", 6, STORES); }
static void engine_object(void) { obex_engine_object_given(words, none, 0, true, STORES); }
static void engine_body(void) { obex_engine_body_given(words, object + given - taken, taken, STORES); }
static void client_start(void) { obex_client_start(numbers, CLIENT_STORES); }
static void client_connect(void) { obex_client_connect(numbers, list, answered, CLIENT_STORES); }
static void client_put(void) { obex_client_put(numbers, none, 0, true, CLIENT_STORES); }
static void client_get(void) { obex_client_get(numbers, none, 0, CLIENT_STORES); }
static void client_disconnect(void) { obex_client_disconnect(numbers, none, 0, CLIENT_STORES); }
static void client_sent(void) { obex_client_request_sent(numbers, CLIENT_STORES); }
static void client_body(void) { obex_client_body_given(numbers, object + given - taken, taken, CLIENT_STORES); }
static void client_part(void) { obex_client_part_taken(numbers, CLIENT_STORES); }
static void client_bytes(void) { obex_client_bytes_offered(numbers, reply, words[OBEX_OUTCOME + 1], CLIENT_STORES); }

/* The next `room` bytes of the object, or fewer. */
static void next_bytes(uint64_t room)
{
    taken = OBJECT - given < room ? OBJECT - given : (size_t)room;
    given += taken;
}

/* One call of the engine, by what it asked for; says whether a reply waits. */
static bool engine_turn(void)
{
    switch (words[OBEX_OUTCOME]) {
    case OBEX_REPLY:
        return true;
    case OBEX_NONCE:
        on_stack(0, engine_nonce);
        return false;
    case OBEX_PASSWORD:
        on_stack(0, engine_password);
        return false;
    case OBEX_GET:
        given = 0;
        on_stack(0, engine_object);
        return false;
    case OBEX_READ:
        next_bytes(words[OBEX_OUTCOME + 1]);
        on_stack(0, engine_body);
        return false;
    case OBEX_PUT:
        memcpy(got, body, OBJECT);
        on_stack(0, engine_reply);
        return false;
    default:
        on_stack(0, engine_reply);
        return false;
    }
}

/* The packet goes to the engine, and its reply comes back. */
static void exchange(void)
{
    on_stack(0, engine_bytes);
    while (!engine_turn())
        ;
    on_stack(1, client_sent);
    on_stack(1, client_bytes);
    on_stack(0, engine_taken);
}

/* Runs an operation to its end; returns the server's code, or 0. `filled` counts the bytes of the parts of an object. */
static uint64_t run(void (*call)(void))
{
    size_t filled = 0;
    given = 0;
    on_stack(1, call);
    for (;;) {
        const uint64_t *outcome = numbers + OBEX_CLIENT_OUTCOME;
        if (outcome[0] == OBEX_CLIENT_SEND) {
            exchange();
        } else if (outcome[0] == OBEX_CLIENT_READ) {
            next_bytes(outcome[1]);
            on_stack(1, client_body);
        } else if (outcome[0] == OBEX_CLIENT_PART) {
            memcpy(got + filled, part, (size_t)outcome[3]);
            filled += (size_t)outcome[3];
            on_stack(1, client_part);
        } else {
            return outcome[0] == OBEX_CLIENT_DONE ? outcome[1] : 0;
        }
    }
}

/* Answers the challenge in the response with the password. */
static void answer(void)
{
    obex_place place = obex_header_find(response, (size_t)numbers[OBEX_CLIENT_LENGTH], OBEX_CONNECT_HEADERS_AT, OBEX_ID_AUTHENTICATE_CHALLENGE);
    obex_challenge challenge = obex_challenge_read(response + place.start, place.end - place.start);
    obex_answer tags = obex_challenge_answer(value, sizeof value, 0, challenge.first, challenge.second, false, none, 0, (const uint8_t *)"secret", 6);
    answered = obex_header_put_bytes(list, sizeof list, 0, OBEX_ID_AUTHENTICATE_RESPONSE, value, tags.end).end;
}

/* The bytes that came are the object's. */
static bool same(void)
{
    bool equal = memcmp(got, object, OBJECT) == 0;
    memset(got, 0, OBJECT);
    return equal;
}

int main(void)
{
    size_t i, own;
    bool right;
    for (i = 0; i < OBJECT; i++)
        object[i] = (uint8_t)(i * 7 + 3);
    on_stack(0, nothing);
    own = deepest[0];
    obex_engine_defaults(words, OBJECT);
    words[OBEX_AUTHENTICATION] = 1;
    on_stack(0, engine_start);
    obex_client_defaults(numbers);
    on_stack(1, client_start);
    right = run(client_connect) == OBEX_CODE_UNAUTHORIZED;
    answer();
    right = right && run(client_connect) == OBEX_CODE_SUCCESS && run(client_put) == OBEX_CODE_SUCCESS && same();
    right = right && run(client_get) == OBEX_CODE_SUCCESS && same() && run(client_disconnect) == OBEX_CODE_SUCCESS;
    printf("stack: engine %zu bytes, client %zu bytes%s\n", deepest[0] - own, deepest[1] - own, right ? "" : ", session went wrong");
    return right ? 0 : 1;
}
