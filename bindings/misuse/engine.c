/* Calls of any kind in any order, with any numbers, any bytes and stores of any length: none may crash, write outside what it was lent, or
 * return another refusal than docs/PROTOCOL.md#refusals says. `refusal_due` below is that section (and, for numbers that no call leaves,
 * `sound` of crates/model/specs/Guard) written a second time, over the numbers before the call.
 *
 * Usage: engine CALLS SEED        Last line: 'N calls, M refused, 0 wrong', and the exit status is 1 if one was wrong.
 *
 * Every store stands between two pages that nobody may touch, and ends or begins at one, so a byte outside is a fault. */
#include "misuse.h"

#include "obex_engine.h"

enum { BODY = 4096, LONGEST_REALM = 254, IDS = 66, NONCES = 32, CONNECTIONS = 64 };

/* The calls. */
enum call {
    START, BYTES_OFFERED, STREAM_ENDED, REPLY_TAKEN, REPLY_GIVEN, OBJECT_GIVEN, BODY_GIVEN, BODY_FAILED, ABORT_ACKNOWLEDGED,
    PASSWORD_GIVEN, NONCE_GIVEN, CREDENTIALS_GIVEN, CONNECTIONS_CLOSED, CALLS
};

/* The arguments of a call. */
struct arguments {
    enum call call;
    struct store packet, headers, body, reply, tables, input, ids;
    uint8_t code;
    bool flag, has_user;
    uint64_t first, second;
};

static uint64_t words[OBEX_WORDS];
/* ---- the refusal that is due */

static bool is_code(uint8_t c)
{
    return c == 0x10 || (c >= 0x20 && c <= 0x26) || (c >= 0x30 && c <= 0x35) || (c >= 0x40 && c <= 0x4F) || (c >= 0x50 && c <= 0x55)
        || c == 0x60 || c == 0x61;
}

static bool is_operation_sound(uint64_t limit)
{
    const uint64_t *o = words + OBEX_OPERATION;
    uint64_t a = o[7] <= CAPACITY && o[8] <= CAPACITY ? o[7] + o[8] : CAPACITY + 1;
    switch (o[0]) {
    case OBEX_PUTTING: case OBEX_GETTING: case OBEX_GATHERING:
        return o[1] <= OBEX_STORE && o[2] <= limit;
    case OBEX_SENDING:
        return o[1] <= OBEX_STORE && o[2] <= o[1] && a <= CAPACITY && o[9] <= CAPACITY + 1 - a;
    case OBEX_CONNECTING:
        return o[4] <= OBEX_STORE;
    default:
        return true;
    }
}

/* The numbers are some that a call can leave. */
static bool is_sound(uint64_t limit)
{
    return words[OBEX_BEGUN] < OBEX_STORE && words[OBEX_LENGTH] <= OBEX_STORE && words[OBEX_OPEN_IDS] <= CONNECTIONS
        && (words[OBEX_REMOTE_LIMIT] & 0xFFFF) >= 255 && words[OBEX_NONCES] <= NONCES && is_operation_sound(limit);
}

static bool is_awaited(enum call call, uint64_t awaits, uint64_t operation)
{
    switch (call) {
    case BYTES_OFFERED: case STREAM_ENDED: return awaits == OBEX_AWAITS_BYTES;
    case CONNECTIONS_CLOSED: return awaits == OBEX_AWAITS_BYTES && (operation < OBEX_PUTTING || operation > OBEX_DRAINING);
    case REPLY_TAKEN: return awaits == OBEX_AWAITS_TAKEN || awaits == OBEX_AWAITS_LAST;
    case REPLY_GIVEN: return awaits >= OBEX_AWAITS_CONNECT && awaits <= OBEX_AWAITS_REPLY;
    case OBJECT_GIVEN: return awaits == OBEX_AWAITS_GET && operation == OBEX_GETTING;
    case ABORT_ACKNOWLEDGED: return awaits == OBEX_AWAITS_ACKNOWLEDGEMENT;
    case PASSWORD_GIVEN: return awaits == OBEX_AWAITS_PASSWORD;
    case NONCE_GIVEN: return awaits == OBEX_AWAITS_NONCE;
    case CREDENTIALS_GIVEN: return awaits == OBEX_AWAITS_CREDENTIALS && operation == OBEX_CONNECTING;
    case BODY_GIVEN: return awaits == OBEX_AWAITS_BODY && operation == OBEX_SENDING;
    case BODY_FAILED: return awaits == OBEX_AWAITS_BODY;
    default: return true;
    }
}

static unsigned closing_due(const struct arguments *x)
{
    const uint32_t *ids = (const uint32_t *)(const void *)x->ids.at;
    const uint64_t *open = (const uint64_t *)(const void *)x->tables.at;
    size_t count = x->ids.length / 4;
    bool repeated = false;
    if (count > CONNECTIONS)
        return OBEX_TOO_MANY_IDS;
    for (size_t i = 0; i < count; i++) {
        size_t place = 0;
        while (place < words[OBEX_OPEN_IDS] && open[place] != ids[i])
            place++;
        if (place == words[OBEX_OPEN_IDS])
            return OBEX_ID_NOT_OPEN;
        for (size_t j = 0; j < i; j++)
            repeated |= ids[i] == ids[j];
    }
    return repeated ? OBEX_ID_REPEATED : 0;
}

static bool is_nonce_used(const struct arguments *x)
{
    const uint64_t *t = (const uint64_t *)(const void *)x->tables.at;
    for (size_t i = 0; i < words[OBEX_NONCES]; i++)
        if (t[64 + i] == x->first && t[96 + i] == x->second)
            return true;
    return false;
}

/* The numbers are settings: the version is the library's, and each number fits what it sets. */
static bool are_settings(void)
{
    bool flags = true;
    for (size_t i = OBEX_HAS_REALM; i <= OBEX_REFUSE_TRAILING; i++)
        flags = flags && words[i] <= 1;
    return flags && words[OBEX_VERSION] == OBEX_ENGINE_VERSION && words[OBEX_MAX_OBJECT_SIZE] >> 32 == 0
        && words[OBEX_MAX_PACKET_LENGTH] >> 16 == 0 && words[OBEX_CHARSET] >> 8 == 0;
}

static bool is_realm_long(const struct arguments *x)
{
    return words[OBEX_HAS_REALM] == 1 && x->input.length > LONGEST_REALM;
}

/* The refusal of an answer that is awaited, by the answer itself. */
static unsigned answer_due(const struct arguments *x)
{
    switch (x->call) {
    case START: return is_realm_long(x) || !are_settings() ? OBEX_BAD_ANSWER : 0;
    case REPLY_GIVEN: return is_code(x->code) && are_headers(x->input.at, x->input.length) ? 0 : OBEX_BAD_ANSWER;
    case OBJECT_GIVEN: return are_headers(x->input.at, x->input.length) ? 0 : OBEX_BAD_ANSWER;
    case BODY_GIVEN: return x->input.length > words[OBEX_OPERATION + 9] ? OBEX_WRONG_MOMENT : 0;
    case NONCE_GIVEN: return is_realm_long(x) ? OBEX_BAD_ANSWER : is_nonce_used(x) ? OBEX_NONCE_USED : 0;
    case CREDENTIALS_GIVEN: return x->flag && x->has_user && x->input.length > 255 ? OBEX_BAD_ANSWER : 0;
    case CONNECTIONS_CLOSED: return closing_due(x);
    default: return 0;
    }
}

/* The refusal that is due, or 0: 10 comes before 9, and 9 before what the answer itself says. */
static unsigned refusal_due(const struct arguments *x)
{
    uint64_t limit = words[OBEX_MAX_OBJECT_SIZE] & 0xFFFFFFFF;
    bool tables = x->call == START || x->call == BYTES_OFFERED || x->call == REPLY_GIVEN || x->call == NONCE_GIVEN || x->call == CONNECTIONS_CLOSED;
    if (tables && x->tables.length / 8 < OBEX_TABLES)
        return OBEX_STORE_TOO_SHORT;
    if (x->call != CONNECTIONS_CLOSED
        && (x->packet.length < OBEX_STORE || x->headers.length < OBEX_STORE || x->reply.length < OBEX_STORE || x->body.length < limit))
        return OBEX_STORE_TOO_SHORT;
    if (x->call != START && !(is_sound(limit) && is_awaited(x->call, words[OBEX_AWAITS], words[OBEX_OPERATION])))
        return OBEX_WRONG_MOMENT;
    return answer_due(x);
}

/* ---- the calls */

#define STORES x->packet.at, x->packet.length, x->headers.at, x->headers.length, x->body.at, x->body.length, x->reply.at, x->reply.length
#define TABLES (uint64_t *)(void *)x->tables.at, x->tables.length / 8

static void make(const struct arguments *x)
{
    const uint8_t *in = x->input.at;
    size_t n = x->input.length;
    switch (x->call) {
    case START: obex_engine_start(words, in, n, TABLES, STORES); break;
    case BYTES_OFFERED: obex_engine_bytes_offered(words, in, n, TABLES, STORES); break;
    case STREAM_ENDED: obex_engine_stream_ended(words, STORES); break;
    case REPLY_TAKEN: obex_engine_reply_taken(words, STORES); break;
    case REPLY_GIVEN: obex_engine_reply_given(words, x->code, in, n, TABLES, STORES); break;
    case OBJECT_GIVEN: obex_engine_object_given(words, in, n, x->flag, STORES); break;
    case BODY_GIVEN: obex_engine_body_given(words, in, n, STORES); break;
    case BODY_FAILED: obex_engine_body_failed(words, STORES); break;
    case ABORT_ACKNOWLEDGED: obex_engine_abort_acknowledged(words, STORES); break;
    case PASSWORD_GIVEN: obex_engine_password_given(words, x->flag, in, n, STORES); break;
    case NONCE_GIVEN: obex_engine_nonce_given(words, x->first, x->second, in, n, TABLES, STORES); break;
    case CREDENTIALS_GIVEN: obex_engine_credentials_given(words, x->flag, x->has_user, in, n, in, n, STORES); break;
    default: obex_engine_connections_closed(words, (const uint32_t *)(const void *)x->ids.at, x->ids.length / 4, TABLES); break;
    }
}

/* ---- what is called with what */

/* Bytes of a client: packets that mean something, and any bytes. */
static size_t write_packet(uint8_t *to)
{
    static const uint8_t firsts[] = { 0x80, 0x80, 0x81, 0x02, 0x82, 0x03, 0x83, 0x85, 0x86, 0x87, 0xFF, 0x90, 0x04 };
    size_t length = 3;
    to[0] = firsts[below(sizeof firsts)];
    if (to[0] == 0x80) {
        memcpy(to + 3, "\x10\x00\x02\x00", 4);
        length = 7;
    } else if (to[0] == 0x85) {
        length = 5;
    }
    for (uint64_t headers = below(4); headers > 0; headers--) {
        static const uint8_t ids[] = { 0x48, 0x49, 0x46, 0xCB, 0x97, 0x4E, 0x4D, 0x01, 0x70 };
        uint8_t id = ids[below(sizeof ids)];
        size_t size = id >= 0xC0 ? 5 : id >= 0x80 ? 2 : id == 0x4E || id == 0x4D ? 21 : 3 + below(20);
        memset(to + length, (int)below(3), size);
        to[length] = id;
        if (id < 0x80) {
            to[length + 1] = 0;
            to[length + 2] = (uint8_t)size;
        }
        if (id == 0x4E || id == 0x4D)
            to[length + 4] = 16;
        length += size;
    }
    to[1] = 0;
    to[2] = (uint8_t)(one_in(40) ? below(256) : length);
    return length;
}

static void fill_input(struct arguments *x, struct store input)
{
    uint8_t bytes[4096];
    size_t length = below(300);
    memset(bytes, (int)below(256), sizeof bytes);
    if (x->call == BYTES_OFFERED && !one_in(20))
        length = write_packet(bytes);
    else if (x->call == REPLY_GIVEN || x->call == OBJECT_GIVEN)
        length = write_headers(bytes);
    else if (x->call == BODY_GIVEN && one_in(2))
        length = below(words[OBEX_OPERATION + 9] < 3000 ? words[OBEX_OPERATION + 9] + 2 : 3000);
    if (x->call == BYTES_OFFERED && one_in(5) && length > 0)
        length = below(length);
    x->input = cut(input, one_in(500) ? input.room : length);
    if (x->input.length <= length)
        memcpy(x->input.at, bytes, x->input.length);
    else
        memset(x->input.at, (int)below(256), x->input.length);
    if ((x->call == REPLY_GIVEN || x->call == OBJECT_GIVEN) && x->input.length > length)
        x->input.at[0] = 0x71;
}

static void fill_ids(struct arguments *x, struct store ids)
{
    x->ids = cut(ids, 4 * (one_in(30) ? CONNECTIONS + below(3) : below(4)));
    for (size_t i = 0; i < x->ids.length / 4; i++) {
        uint32_t id = (uint32_t)(one_in(10) ? below(1000) : 1 + below(4));
        memcpy(x->ids.at + 4 * i, &id, 4);
    }
}

/* The call that the numbers await, mostly; a start if none was accepted for long. */
static enum call choose(unsigned long in_a_row)
{
    static const enum call answers[] = { BYTES_OFFERED, REPLY_TAKEN, REPLY_TAKEN, REPLY_GIVEN, REPLY_GIVEN, OBJECT_GIVEN, REPLY_GIVEN,
        ABORT_ACKNOWLEDGED, PASSWORD_GIVEN, NONCE_GIVEN, CREDENTIALS_GIVEN, BODY_GIVEN };
    if (words[OBEX_AWAITS] > OBEX_AWAITS_BODY || in_a_row > 8)
        return one_in(4) ? (enum call)below(CALLS) : START;
    if (one_in(6))
        return (enum call)(1 + below(CALLS - 1));
    return words[OBEX_AWAITS] == OBEX_AWAITS_BYTES && one_in(12) ? CONNECTIONS_CLOSED : answers[words[OBEX_AWAITS]];
}

/* The numbers before a call: as the last one left them, or one changed, or any at all; before a start, settings or nearly. */
static void disturb(enum call call)
{
    if (call == START) {
        words[OBEX_MAX_OBJECT_SIZE] = below(BODY + 1);
        words[OBEX_MAX_PACKET_LENGTH] = 255 + below(65281);
        words[OBEX_CHARSET] = below(256);
        for (size_t i = OBEX_HAS_REALM; i <= OBEX_REFUSE_TRAILING; i++)
            words[i] = below(2);
        words[OBEX_VERSION] = OBEX_ENGINE_VERSION;
        if (one_in(4))
            words[below(11)] = any_number();
    } else if (one_in(60)) {
        words[below(OBEX_WORDS)] = any_number();
    } else if (one_in(300)) {
        for (size_t i = 0; i < OBEX_WORDS; i++)
            words[i] = any_number();
        words[OBEX_MAX_OBJECT_SIZE] = below(BODY + 1);
        words[OBEX_AWAITS] = below(OBEX_AWAITS_NOTHING + 1);
    }
}

/* A lent store is too short now and then. */
static void shorten(struct arguments *x)
{
    struct store *stores[] = { &x->packet, &x->headers, &x->body, &x->reply, &x->tables };
    struct store *s = stores[below(5)];
    if (one_in(25))
        *s = cut(*s, s == &x->tables ? 8 * below(OBEX_TABLES + 1) : s->length - 1 - below(one_in(2) ? 1 : s->length));
}

/* Whether a refused call left the numbers as they were, up to how they are written: the same call leaves the same ones again. */
static bool is_settled(const struct arguments *x, unsigned due)
{
    uint64_t before[OBEX_WORDS];
    if (x->call == START)
        return true;
    memcpy(before, words, sizeof words);
    make(x);
    return words[OBEX_OUTCOME] == OBEX_REFUSED && words[OBEX_OUTCOME + 1] == due && memcmp(before, words, sizeof words) == 0;
}

int main(int argc, char **argv)
{
    unsigned long calls = argc > 1 ? strtoul(argv[1], NULL, 10) : 1000000, refused = 0, in_a_row = 0, wrong = 0, seen[CALLS][32] = { { 0 } };
    struct store input = guarded(OBEX_STORE + 1), ids = guarded(4 * IDS);
    struct arguments all = { .packet = guarded(OBEX_STORE), .headers = guarded(OBEX_STORE), .body = guarded(BODY), .reply = guarded(OBEX_STORE),
        .tables = guarded(8 * OBEX_TABLES) };
    seed = argc > 2 ? strtoul(argv[2], NULL, 10) * 2 + 1 : 1;
    words[OBEX_AWAITS] = OBEX_AWAITS_NOTHING;
    for (unsigned long i = 0; i < calls; i++) {
        struct arguments x = all;
        x.call = choose(in_a_row);
        disturb(x.call);
        shorten(&x);
        fill_input(&x, input);
        fill_ids(&x, ids);
        x.code = (uint8_t)(one_in(8) ? below(256) : 0x20);
        x.flag = one_in(2);
        x.has_user = one_in(2);
        x.first = below(40);
        x.second = 0;
        unsigned due = refusal_due(&x);
        make(&x);
        unsigned got = words[OBEX_OUTCOME] == OBEX_REFUSED ? (unsigned)words[OBEX_OUTCOME + 1] : 0;
        refused += got != 0;
        in_a_row = got != 0 ? in_a_row + 1 : 0;
        seen[x.call][got < 32 ? got : 31]++;
        if (got != due || (got != 0 && !is_settled(&x, due))) {
            if (wrong++ < 5)
                printf("call %d: refusal %u is due, not %u\n", (int)x.call, due, got);
        }
    }
    for (int call = 0; call < CALLS; call++)
        print_seen(call, seen[call]);
    printf("%lu calls, %lu refused, %lu wrong\n", calls, refused, wrong);
    return wrong != 0;
}
