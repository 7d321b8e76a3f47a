/* A test: which numbers a start refuses, of the engine and of the client, and what follows a refused start. Prints a line for each wrong answer;
 * the exit status is 1 if there is one. tools/test/bindings-c runs it. */
#include <stdio.h>

#include "obex_client.h"
#include "obex_engine.h"

enum { PUT_LIMIT = 49152 };

static uint64_t words[OBEX_WORDS], tables[OBEX_TABLES], numbers[OBEX_CLIENT_WORDS];
static uint8_t packet[OBEX_STORE], headers[OBEX_STORE], body[OBEX_STORE], reply[OBEX_STORE];
static const uint8_t none[1];
static int wrong, tried;

#define STORES packet, sizeof packet, headers, sizeof headers, body, sizeof body, reply, sizeof reply
#define SHORT packet, sizeof packet, headers, sizeof headers, body, sizeof body, reply, sizeof reply - 1

static void expect(const char *what, unsigned place, uint64_t value, uint64_t kind, uint64_t number, const uint64_t *outcome)
{
    tried++;
    if (outcome[0] == kind && (kind != OBEX_REFUSED || outcome[1] == number))
        return;
    wrong++;
    printf("%s: number %u = %llu gave %llu %llu\n", what, place, (unsigned long long)value, (unsigned long long)outcome[0], (unsigned long long)outcome[1]);
}

static void start_engine(void) { obex_engine_start(words, none, 0, tables, OBEX_TABLES, STORES); }
static void start_client(void) { obex_client_start(numbers, STORES); }

/* A start of the engine with one number changed; if it is refused, so is the same start again, and every call. */
static void try_engine(unsigned place, uint64_t value, bool fits)
{
    const uint64_t *outcome = words + OBEX_OUTCOME;
    obex_engine_defaults(words, PUT_LIMIT);
    words[place] = value;
    start_engine();
    expect("engine", place, value, fits ? OBEX_WANTS_BYTES : OBEX_REFUSED, OBEX_BAD_ANSWER, outcome);
    obex_engine_bytes_offered(words, none, 0, tables, OBEX_TABLES, STORES);
    expect("engine, bytes", place, value, fits ? OBEX_WANTS_BYTES : OBEX_REFUSED, OBEX_WRONG_MOMENT, outcome);
    start_engine();
    expect("engine, again", place, value, OBEX_REFUSED, OBEX_BAD_ANSWER, outcome);
    obex_engine_defaults(words, PUT_LIMIT);
    words[place] = value;
    obex_engine_start(words, none, 0, tables, OBEX_TABLES, SHORT);
    expect("engine, short", place, value, OBEX_REFUSED, OBEX_STORE_TOO_SHORT, outcome);
}

/* The same of the client. */
static void try_client(unsigned place, uint64_t value, bool fits)
{
    const uint64_t *outcome = numbers + OBEX_CLIENT_OUTCOME;
    obex_client_defaults(numbers);
    numbers[place] = value;
    start_client();
    expect("client", place, value, fits ? OBEX_CLIENT_READY : OBEX_CLIENT_REFUSED, OBEX_CLIENT_BAD_HEADERS, outcome);
    obex_client_connect(numbers, none, 0, STORES);
    expect("client, connect", place, value, fits ? OBEX_CLIENT_SEND : OBEX_CLIENT_REFUSED, OBEX_CLIENT_WRONG_MOMENT, outcome);
    start_client();
    expect("client, again", place, value, OBEX_CLIENT_REFUSED, OBEX_CLIENT_BAD_HEADERS, outcome);
    obex_client_defaults(numbers);
    numbers[place] = value;
    obex_client_start(numbers, SHORT);
    expect("client, short", place, value, OBEX_CLIENT_REFUSED, OBEX_CLIENT_STORE_TOO_SHORT, outcome);
}

int main(void)
{
    static const uint64_t odd[] = { 2, 255, 256, 257, 65537, 4294967296, 4294967297, UINT64_MAX };
    unsigned place, i;
    for (place = OBEX_HAS_REALM; place <= OBEX_REFUSE_TRAILING; place++) {
        try_engine(place, 0, true);
        try_engine(place, 1, true);
        for (i = 0; i < sizeof odd / sizeof *odd; i++)
            try_engine(place, odd[i], false);
    }
    try_engine(OBEX_MAX_PACKET_LENGTH, 65535, true);
    try_engine(OBEX_MAX_PACKET_LENGTH, 65536, false);
    try_engine(OBEX_MAX_OBJECT_SIZE, 0, true);
    try_engine(OBEX_MAX_OBJECT_SIZE, UINT64_C(1) << 32, false);
    try_engine(OBEX_CHARSET, 255, true);
    try_engine(OBEX_CHARSET, 256, false);
    try_engine(OBEX_VERSION, 0, false);
    try_engine(OBEX_VERSION, OBEX_ENGINE_VERSION - 1, false);
    try_engine(OBEX_VERSION, OBEX_ENGINE_VERSION + 1, false);
    for (i = 0; i < sizeof odd / sizeof *odd; i++)
        try_client(OBEX_CLIENT_SRM_WANTED, odd[i], false);
    try_client(OBEX_CLIENT_SRM_WANTED, 1, true);
    try_client(OBEX_CLIENT_MAX_PACKET_LENGTH, 65535, true);
    try_client(OBEX_CLIENT_MAX_PACKET_LENGTH, 65536, false);
    try_client(OBEX_CLIENT_VERSION, 0, false);
    try_client(OBEX_CLIENT_VERSION, OBEX_CLIENT_LAYOUT + 1, false);
    if (obex_engine_version() != OBEX_ENGINE_VERSION || obex_client_version() != OBEX_CLIENT_LAYOUT)
        wrong++;
    printf("%d starts and calls, %d wrong\n", tried, wrong);
    return wrong == 0 ? 0 : 1;
}
