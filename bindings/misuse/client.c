/* The client misused as the engine is in engine.c: calls of any kind in any order, with any numbers, any bytes and stores of any length.
 * `refusal_due` is docs/CLIENT.md, "Numbers" (and, for numbers that no call leaves, `sound` of crates/client_model/specs/Guard) written a
 * second time, over the numbers before the call.
 *
 * Usage: client CALLS SEED        Last line: 'N calls, M refused, 0 wrong', and the exit status is 1 if one was wrong. */
#include "misuse.h"

#include "obex_client.h"

enum { CONNECT_HEADERS = 248 };

/* The calls. */
enum call { START, CONNECT, DISCONNECT, PUT, GET, REQUEST_SENT, BODY_GIVEN, BYTES_OFFERED, STREAM_ENDED, PART_TAKEN, ABORT, CALLS };

/* Values of an operation: the room that body bytes have, whether the last packet of a Put went out, and whether the last part of an object came. */
enum { ROOM = OBEX_CLIENT_OPERATION + 9, REQUEST_LAST = OBEX_CLIENT_OPERATION + 12, PART_LAST = OBEX_CLIENT_OPERATION + 2 };

/* The arguments of a call. */
struct arguments {
    enum call call;
    struct store packet, headers, body, request, input;
    bool flag;
};

static uint64_t words[OBEX_CLIENT_WORDS];

/* ---- the refusal that is due */

static bool is_sound(void)
{
    const uint64_t *o = words + OBEX_CLIENT_OPERATION;
    uint64_t end = o[7] <= CAPACITY && o[8] <= CAPACITY ? o[7] + o[8] : CAPACITY + 1;
    if (words[OBEX_CLIENT_BEGUN] >= LONGEST || words[OBEX_CLIENT_LENGTH] > LONGEST || (words[OBEX_CLIENT_REMOTE_LIMIT] & 0xFFFF) < 255)
        return false;
    if (o[0] != OBEX_CLIENT_PUTTING && o[0] != OBEX_CLIENT_GETTING)
        return true;
    return o[1] <= LONGEST && o[2] <= o[1] && end <= CAPACITY && o[9] <= CAPACITY + 1 - end;
}

/* An operation may be aborted up to the final packet of a Put, and up to the last part of an object. */
static bool may_abort(void)
{
    uint64_t awaits = words[OBEX_CLIENT_AWAITS], operation = words[OBEX_CLIENT_OPERATION];
    if (words[OBEX_CLIENT_ABORT_DUE] == 1)
        return false;
    if (operation == OBEX_CLIENT_PUTTING || operation == OBEX_CLIENT_GETTING)
        return awaits == OBEX_CLIENT_AWAITS_SENT || awaits == OBEX_CLIENT_AWAITS_BODY
            || (awaits == OBEX_CLIENT_AWAITS_BYTES && (operation == OBEX_CLIENT_GETTING || words[REQUEST_LAST] != 1));
    return operation == OBEX_CLIENT_RECEIVING
        && (awaits == OBEX_CLIENT_AWAITS_SENT || awaits == OBEX_CLIENT_AWAITS_BYTES || (awaits == OBEX_CLIENT_AWAITS_TAKEN && words[PART_LAST] != 1));
}

static bool is_awaited(enum call call)
{
    uint64_t awaits = words[OBEX_CLIENT_AWAITS], operation = words[OBEX_CLIENT_OPERATION];
    switch (call) {
    case CONNECT: case DISCONNECT: case PUT: case GET: return awaits == OBEX_CLIENT_AWAITS_CALL;
    case REQUEST_SENT: return awaits == OBEX_CLIENT_AWAITS_SENT;
    case BODY_GIVEN: return awaits == OBEX_CLIENT_AWAITS_BODY && (operation == OBEX_CLIENT_PUTTING || operation == OBEX_CLIENT_GETTING);
    case BYTES_OFFERED: return awaits == OBEX_CLIENT_AWAITS_BYTES;
    case STREAM_ENDED: return awaits == OBEX_CLIENT_AWAITS_BYTES || awaits == OBEX_CLIENT_AWAITS_CALL;
    case PART_TAKEN: return awaits == OBEX_CLIENT_AWAITS_TAKEN && operation == OBEX_CLIENT_RECEIVING;
    case ABORT: return may_abort();
    default: return true;
    }
}

/* The longest of the headers; and one that is the client's own counts as longer than any. */
static size_t longest_header(const uint8_t *bytes, size_t length)
{
    size_t longest = 0;
    for (size_t at = 0; at < length;) {
        size_t size = bytes[at] >= 0xC0 ? 5 : bytes[at] >= 0x80 ? 2 : (size_t)(bytes[at + 1] << 8 | bytes[at + 2]);
        if (bytes[at] == 0x48 || bytes[at] == 0x49 || bytes[at] == 0xCB || bytes[at] == 0x97 || bytes[at] == 0x98)
            return SIZE_MAX;
        longest = size > longest ? size : longest;
        at += size;
    }
    return longest;
}

static unsigned headers_due(const struct arguments *x)
{
    size_t length = x->input.length, front = x->call == DISCONNECT && words[OBEX_CLIENT_HAS_ID] == 1 ? 5 : 0;
    if (!are_headers(x->input.at, length) || longest_header(x->input.at, length) == SIZE_MAX)
        return OBEX_CLIENT_BAD_HEADERS;
    if (x->call == CONNECT || x->call == DISCONNECT)
        return front + length > CONNECT_HEADERS ? OBEX_CLIENT_HEADER_TOO_LONG : 0;
    return longest_header(x->input.at, length) > (words[OBEX_CLIENT_REMOTE_LIMIT] & 0xFFFF) - 3 ? OBEX_CLIENT_HEADER_TOO_LONG : 0;
}

/* The refusal that is due, or 0. */
static unsigned refusal_due(const struct arguments *x)
{
    if (x->packet.length < LONGEST || x->headers.length < LONGEST || x->body.length < LONGEST || x->request.length < LONGEST)
        return OBEX_CLIENT_STORE_TOO_SHORT;
    if (x->call == START)
        return words[0] >> 16 == 0 && words[1] <= 1 && words[OBEX_CLIENT_VERSION] == OBEX_CLIENT_LAYOUT ? 0 : OBEX_CLIENT_BAD_HEADERS;
    if (!is_sound() || !is_awaited(x->call) || (x->call == BODY_GIVEN && x->input.length > words[ROOM]))
        return OBEX_CLIENT_WRONG_MOMENT;
    return x->call >= CONNECT && x->call <= GET ? headers_due(x) : 0;
}

/* ---- the calls */

#define STORES x->packet.at, x->packet.length, x->headers.at, x->headers.length, x->body.at, x->body.length, x->request.at, x->request.length

static void make(const struct arguments *x)
{
    const uint8_t *in = x->input.at;
    size_t n = x->input.length;
    switch (x->call) {
    case START: obex_client_start(words, STORES); break;
    case CONNECT: obex_client_connect(words, in, n, STORES); break;
    case DISCONNECT: obex_client_disconnect(words, in, n, STORES); break;
    case PUT: obex_client_put(words, in, n, x->flag, STORES); break;
    case GET: obex_client_get(words, in, n, STORES); break;
    case REQUEST_SENT: obex_client_request_sent(words, STORES); break;
    case BODY_GIVEN: obex_client_body_given(words, in, n, STORES); break;
    case BYTES_OFFERED: obex_client_bytes_offered(words, in, n, STORES); break;
    case STREAM_ENDED: obex_client_stream_ended(words, STORES); break;
    case PART_TAKEN: obex_client_part_taken(words, STORES); break;
    default: obex_client_abort(words, STORES); break;
    }
}

/* ---- what is called with what */

/* A response: mostly Continue or a success, as the reply to a Connect if one is due. */
static size_t write_response(uint8_t *to)
{
    static const uint8_t codes[] = { 0x90, 0x90, 0xA0, 0xA0, 0xC4, 0xD3, 0x12 };
    size_t length = 3;
    to[0] = codes[below(sizeof codes)];
    if (words[OBEX_CLIENT_OPERATION] == OBEX_CLIENT_CONNECTING && !one_in(10)) {
        memcpy(to + 3, "\x10\x00\x02\x00", 4);
        length = 7;
    }
    length += write_headers(to + length);
    to[1] = (uint8_t)(length >> 8);
    to[2] = (uint8_t)(one_in(40) ? below(256) : length);
    return length;
}

static void fill_input(struct arguments *x, struct store input)
{
    uint8_t bytes[4096];
    size_t length = below(300);
    memset(bytes, (int)below(256), sizeof bytes);
    if (x->call == BYTES_OFFERED && !one_in(20))
        length = write_response(bytes);
    else if (x->call >= CONNECT && x->call <= GET)
        length = write_headers(bytes);
    else if (x->call == BODY_GIVEN)
        length = below(words[ROOM] < 3000 ? words[ROOM] + 2 : 3000);
    if (x->call == BYTES_OFFERED && one_in(5) && length > 0)
        length = below(length);
    x->input = cut(input, one_in(500) ? input.room : length);
    if (x->input.length > length) {
        memset(x->input.at, (int)below(256), x->input.length);
        x->input.at[0] = 0x71;
    } else {
        memcpy(x->input.at, bytes, length);
    }
}

/* The call that the numbers await, mostly; a start if none was accepted for long. */
static enum call choose(unsigned long in_a_row)
{
    static const enum call answers[] = { BYTES_OFFERED, PUT, REQUEST_SENT, BODY_GIVEN, PART_TAKEN };
    if (words[OBEX_CLIENT_AWAITS] >= OBEX_CLIENT_AWAITS_NOTHING || in_a_row > 8)
        return one_in(4) ? (enum call)below(CALLS) : START;
    if (one_in(8))
        return (enum call)(1 + below(CALLS - 1));
    return words[OBEX_CLIENT_AWAITS] == OBEX_CLIENT_AWAITS_CALL ? (enum call)(CONNECT + below(4)) : answers[words[OBEX_CLIENT_AWAITS]];
}

/* The numbers before a call: as the last one left them, or one changed, or any at all; before a start, settings or nearly. */
static void disturb(enum call call)
{
    if (call == START) {
        words[0] = 255 + below(65281);
        words[1] = below(2);
        words[OBEX_CLIENT_VERSION] = OBEX_CLIENT_LAYOUT;
        if (one_in(4))
            words[below(3)] = any_number();
    } else if (one_in(60)) {
        words[below(OBEX_CLIENT_WORDS)] = any_number();
    } else if (one_in(300)) {
        for (size_t i = 0; i < OBEX_CLIENT_WORDS; i++)
            words[i] = any_number();
        words[OBEX_CLIENT_AWAITS] = below(6);
        words[OBEX_CLIENT_OPERATION] = below(8);
    }
}

/* A lent store is too short now and then. */
static void shorten(struct arguments *x)
{
    struct store *stores[] = { &x->packet, &x->headers, &x->body, &x->request };
    struct store *s = stores[below(4)];
    if (one_in(25))
        *s = cut(*s, s->length - 1 - below(one_in(2) ? 1 : s->length));
}

/* Whether a refused call left the numbers as they were, up to how they are written: the same call leaves the same ones again. */
static bool is_settled(const struct arguments *x, unsigned due)
{
    uint64_t before[OBEX_CLIENT_WORDS];
    if (x->call == START)
        return true;
    memcpy(before, words, sizeof words);
    make(x);
    return words[OBEX_CLIENT_OUTCOME] == OBEX_CLIENT_REFUSED && words[OBEX_CLIENT_OUTCOME + 1] == due && memcmp(before, words, sizeof words) == 0;
}

int main(int argc, char **argv)
{
    unsigned long calls = argc > 1 ? strtoul(argv[1], NULL, 10) : 1000000, refused = 0, in_a_row = 0, wrong = 0, seen[CALLS][32] = { { 0 } };
    struct store input = guarded(LONGEST + 1);
    struct arguments all = { .packet = guarded(LONGEST), .headers = guarded(LONGEST), .body = guarded(LONGEST), .request = guarded(LONGEST) };
    seed = argc > 2 ? strtoul(argv[2], NULL, 10) * 2 + 1 : 1;
    words[OBEX_CLIENT_AWAITS] = OBEX_CLIENT_AWAITS_NOTHING;
    for (unsigned long i = 0; i < calls; i++) {
        struct arguments x = all;
        x.call = choose(in_a_row);
        disturb(x.call);
        shorten(&x);
        fill_input(&x, input);
        x.flag = one_in(2);
        unsigned due = refusal_due(&x);
        make(&x);
        unsigned got = words[OBEX_CLIENT_OUTCOME] == OBEX_CLIENT_REFUSED ? (unsigned)words[OBEX_CLIENT_OUTCOME + 1] : 0;
        refused += got != 0;
        in_a_row = got != 0 ? in_a_row + 1 : 0;
        seen[x.call][got < 32 ? got : 31]++;
        if (got != due || (got != 0 && !is_settled(&x, due))) {
            if (wrong++ < 5)
                printf("call %d: refusal %u is due, not %u\n", (int)x.call, due, got);
        }
    }
    for (int call = 0; call < CALLS; call++)
        print_seen(call, seen[call]);
    printf("%lu calls, %lu refused, %lu wrong\n", calls, refused, wrong);
    return wrong != 0;
}
