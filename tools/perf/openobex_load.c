// Plays a session to a server over libopenobex many times, from memory and packet by packet, as `load` plays it to the engine: a transport of its own
// hands each packet over and takes each reply. For tools/perf/peers.
//
// Usage: openobex_load COUNT [LONGEST] <SESSION
//
// Prints how many replies, bytes of replies, records and bytes of records came of it. No reply is longer than LONGEST, 65,535 unless given: the
// library allots each reply its longest length.
#include <openobex/obex.h>
#include <stdint.h>
#include <stdio.h>
#include <stdlib.h>
#include <string.h>
#include <unistd.h>

enum { OBJECT = 1 << 20, LONGEST = 1 << 21, HEAD = 3, GET = 0x83, CONTINUE = 0x90 };

static uint8_t session[LONGEST], object[OBJECT];
static size_t length, at;
static unsigned long replies, bytes, records, stored;
static uint8_t next_get[] = {GET, 0, HEAD};
static int given, opcode, code;

static size_t packet_length(void) { return (size_t)session[at + 1] << 8 | session[at + 2]; }

// Hands the library the next packet of the session. It may send an object in another number of replies than the engine, so the packets that ask
// for more are as many as it needs.
static int feed(obex_t *h, void *data, int timeout) {
    (void)data;
    (void)timeout;
    int more = opcode == GET && code == CONTINUE;
    while (!more && session[at] == GET && packet_length() == HEAD) at += HEAD;
    if (more && !(session[at] == GET && packet_length() == HEAD)) return OBEX_CustomDataFeed(h, next_get, HEAD) < 0 ? -1 : 1;
    opcode = session[at];
    size_t n = packet_length();
    at += n;
    return OBEX_CustomDataFeed(h, session + at - n, (int)n) < 0 ? -1 : 1;
}

static int sent(obex_t *h, void *data, uint8_t *reply, int n) {
    (void)h;
    (void)data;
    code = reply[0];
    replies++;
    bytes += (unsigned long)n;
    return n;
}

static int nothing(obex_t *h, void *data) {
    (void)h;
    (void)data;
    return 0;
}

// The whole body of a Put, as a host gets it.
static void record(obex_t *h, obex_object_t *o) {
    uint8_t id;
    obex_headerdata_t v;
    uint32_t n;
    while (OBEX_ObjectGetNextHeader(h, o, &id, &v, &n) == 1)
        if (id == OBEX_HDR_BODY) {
            records++;
            stored += n;
        }
}

static void begin_object(obex_t *h, obex_object_t *o) {
    obex_headerdata_t v = {.bs = NULL};
    given = 0;
    OBEX_ObjectAddHeader(h, o, OBEX_HDR_BODY, v, 0, OBEX_FL_STREAM_START);
}

// The object is lent whole, and then its end is told.
static void give(obex_t *h, obex_object_t *o) {
    obex_headerdata_t v = {.bs = object};
    if (given++) OBEX_ObjectAddHeader(h, o, OBEX_HDR_BODY, v, 0, OBEX_FL_STREAM_DATAEND);
    else OBEX_ObjectAddHeader(h, o, OBEX_HDR_BODY, v, OBJECT, OBEX_FL_STREAM_DATA);
}

static void event(obex_t *h, obex_object_t *o, int mode, int ev, int cmd, int rsp) {
    (void)mode;
    (void)rsp;
    switch (ev) {
    case OBEX_EV_REQHINT:
        OBEX_ObjectSetRsp(o, OBEX_RSP_CONTINUE, OBEX_RSP_SUCCESS);
        break;
    case OBEX_EV_REQ:
        if (cmd == OBEX_CMD_PUT) record(h, o);
        if (cmd == OBEX_CMD_GET) begin_object(h, o);
        break;
    case OBEX_EV_STREAMEMPTY:
        give(h, o);
        break;
    case OBEX_EV_LINKERR:
    case OBEX_EV_PARSEERR:
        fprintf(stderr, "openobex_load: the library stopped at byte %zu\n", at);
        exit(1);
    }
}

static void play(uint16_t longest) {
    obex_ctrans_t transport = {.connect = nothing, .disconnect = nothing, .listen = nothing, .write = sent, .handleinput = feed};
    obex_t *h = OBEX_Init(OBEX_TRANS_CUSTOM, event, 0);
    if (!h || OBEX_RegisterCTransport(h, &transport) < 0 || OBEX_ServerRegister(h, NULL, 0) < 0) exit(1);
    OBEX_SetTransportMTU(h, 65535, longest);
    for (at = 0; at < length;)
        if (OBEX_HandleInput(h, 0) < 0) exit(1);
    OBEX_Cleanup(h);
}

int main(int argc, char **argv) {
    long count = argc > 1 ? atol(argv[1]) : 1;
    ssize_t n;
    while ((n = read(0, session + length, sizeof session - length)) > 0) length += (size_t)n;
    for (size_t i = 0; i < OBJECT; i++) object[i] = (uint8_t)(i % 251);
    uint16_t longest = argc > 2 ? (uint16_t)atoi(argv[2]) : 65535;
    for (long i = 0; i < count; i++) play(longest);
    printf("replies %lu bytes %lu records %lu stored %lu\n", replies, bytes, records, stored);
    return 0;
}
