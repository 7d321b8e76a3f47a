// A client over libopenobex: connects to 127.0.0.1 at a port and goes through Connect, Puts, Gets, SetPath, an Abort in a Put, Disconnect.
// Prints a line for each, `ok WHAT` or `failed WHAT ..`. With a second argument the server is a receiver: a Name means nothing to it, it takes
// no record over its limit, and it gives out files of its own.
#include <arpa/inet.h>
#include <netinet/in.h>
#include <openobex/obex.h>
#include <stdio.h>
#include <stdlib.h>
#include <string.h>

static const uint8_t TARGET[16] = {0xf9, 0xec, 0x7b, 0xc4, 0x95, 0x3c, 0x11, 0xd2, 0x98, 0x4e, 0x52, 0x54, 0x00, 0xdc, 0x9e, 0x09};

static struct {
    int done, response, aborted, linkerr;
    int pieces;  // how many were given of a Put that is aborted
    uint32_t connection;
    uint8_t *body;
    uint32_t size;
} state;

static void take_headers(obex_t *h, obex_object_t *o) {
    uint8_t id;
    obex_headerdata_t v;
    uint32_t n;
    while (OBEX_ObjectGetNextHeader(h, o, &id, &v, &n) == 1) {
        if (id == OBEX_HDR_CONNECTION) state.connection = v.bq4;
        if (id == OBEX_HDR_BODY) {
            state.body = malloc(n ? n : 1);
            memcpy(state.body, v.bs, n);
            state.size = n;
        }
    }
}

// The body of the Put that is aborted: three pieces, then the Abort.
static void give_piece(obex_t *h, obex_object_t *o) {
    static uint8_t piece[4000];
    obex_headerdata_t v = {.bs = piece};
    if (++state.pieces == 4) OBEX_CancelRequest(h, 1);
    else OBEX_ObjectAddHeader(h, o, OBEX_HDR_BODY, v, sizeof piece, OBEX_FL_STREAM_DATA);
}

static void event(obex_t *h, obex_object_t *o, int mode, int ev, int cmd, int rsp) {
    (void)mode;
    (void)cmd;
    switch (ev) {
    case OBEX_EV_STREAMEMPTY:
        give_piece(h, o);
        break;
    case OBEX_EV_REQDONE:
        take_headers(h, o);
        state.response = rsp;
        state.done = 1;
        break;
    case OBEX_EV_ABORT:
        state.response = rsp;
        state.aborted = state.done = 1;
        break;
    case OBEX_EV_LINKERR:
    case OBEX_EV_PARSEERR:
        state.linkerr = state.done = 1;
        break;
    }
}

static obex_object_t *request(obex_t *h, uint8_t cmd) {
    obex_object_t *o = OBEX_ObjectNew(h, cmd);
    if (state.connection) {
        obex_headerdata_t v = {.bq4 = state.connection};
        OBEX_ObjectAddHeader(h, o, OBEX_HDR_CONNECTION, v, 4, OBEX_FL_FIT_ONE_PACKET);
    }
    return o;
}

static void add_name(obex_t *h, obex_object_t *o, const char *name) {
    static uint8_t wide[512];
    uint32_t n = 0;
    for (const char *c = name; *c; c++) {
        wide[n++] = 0;
        wide[n++] = (uint8_t)*c;
    }
    if (n) {
        wide[n++] = 0;
        wide[n++] = 0;
    }
    obex_headerdata_t v = {.bs = wide};
    OBEX_ObjectAddHeader(h, o, OBEX_HDR_NAME, v, n, OBEX_FL_FIT_ONE_PACKET);
}

// Sends it and waits for the response.
static int run(obex_t *h, obex_object_t *o) {
    state.done = state.aborted = state.linkerr = state.response = state.pieces = 0;
    if (OBEX_Request(h, o) < 0) return -1;
    for (int i = 0; !state.done && i < 1000; i++)
        if (OBEX_HandleInput(h, 10) < 0) return -1;
    return state.done && !state.linkerr ? state.response : -1;
}

static void say(const char *what, int good, int rsp) {
    if (good) printf("ok openobex %s\n", what);
    else printf("failed openobex %s: response %d (%s)\n", what, rsp, rsp < 0 ? "no answer" : OBEX_ResponseToString(rsp));
}

static uint8_t *pattern(uint32_t n) {
    uint8_t *b = malloc(n);
    uint32_t x = n;
    for (uint32_t i = 0; i < n; i++) b[i] = (uint8_t)((x = x * 1103515245u + 12345u) >> 16);
    return b;
}

static int put(obex_t *h, const char *name, uint32_t n) {
    obex_object_t *o = request(h, OBEX_CMD_PUT);
    add_name(h, o, name);
    obex_headerdata_t v = {.bq4 = n};
    OBEX_ObjectAddHeader(h, o, OBEX_HDR_LENGTH, v, 4, 0);
    v.bs = pattern(n);
    OBEX_ObjectAddHeader(h, o, OBEX_HDR_BODY, v, n, 0);
    return run(h, o);
}

static int put_aborted(obex_t *h, const char *name) {
    obex_object_t *o = request(h, OBEX_CMD_PUT);
    add_name(h, o, name);
    obex_headerdata_t v = {.bs = NULL};
    OBEX_ObjectAddHeader(h, o, OBEX_HDR_BODY, v, 0, OBEX_FL_STREAM_START);
    return run(h, o);
}

static int get(obex_t *h, const char *name) {
    obex_object_t *o = request(h, OBEX_CMD_GET);
    add_name(h, o, name);
    state.body = NULL;
    state.size = 0;
    return run(h, o);
}

static void get_equal(obex_t *h, const char *what, const char *name, uint32_t n) {
    int r = get(h, name);
    say(what, r == OBEX_RSP_SUCCESS && state.size == n && memcmp(state.body, pattern(n), n) == 0, r);
}

static obex_t *connected(int port) {
    struct sockaddr_in a = {.sin_family = AF_INET, .sin_port = htons(port)};
    a.sin_addr.s_addr = htonl(INADDR_LOOPBACK);
    obex_t *h = OBEX_Init(OBEX_TRANS_INET, event, 0);
    OBEX_SetTransportMTU(h, 4096, 4096);
    if (TcpOBEX_TransportConnect(h, (struct sockaddr *)&a, sizeof a) < 0) {
        printf("failed openobex transport\n");
        exit(1);
    }
    state.connection = 0;
    obex_object_t *o = request(h, OBEX_CMD_CONNECT);
    obex_headerdata_t v = {.bs = TARGET};
    OBEX_ObjectAddHeader(h, o, OBEX_HDR_TARGET, v, sizeof TARGET, OBEX_FL_FIT_ONE_PACKET);
    int r = run(h, o);
    say("connect", r == OBEX_RSP_SUCCESS && state.connection != 0, r);
    return h;
}

static void closed(obex_t *h) {
    OBEX_TransportDisconnect(h);
    OBEX_Cleanup(h);
}

static void disconnect(obex_t *h) {
    int r = run(h, request(h, OBEX_CMD_DISCONNECT));
    say("disconnect", r == OBEX_RSP_SUCCESS, r);
    closed(h);
}

int main(int argc, char **argv) {
    int port = argc > 1 ? atoi(argv[1]) : 650, is_receiver = argc > 2;
    setvbuf(stdout, NULL, _IOLBF, 0);
    obex_t *h = connected(port);
    int r = put(h, "five", 5000);
    say("put 5000", r == OBEX_RSP_SUCCESS, r);
    r = put(h, "seventy", 70000);
    say("put 70000", r == (is_receiver ? OBEX_RSP_REQ_ENTITY_TOO_LARGE : OBEX_RSP_SUCCESS), r);
    get_equal(h, "get 5000, bytes equal", "five", 5000);
    get_equal(h, "get 70000, bytes equal", "seventy", 70000);
    r = get(h, "missing");
    say("get of a missing file: not found", r == OBEX_RSP_NOT_FOUND, r);
    r = put(h, "../outside", 10);
    say("put outside", r == (is_receiver ? OBEX_RSP_SUCCESS : OBEX_RSP_FORBIDDEN), r);
    obex_object_t *o = request(h, OBEX_CMD_SETPATH);
    OBEX_ObjectSetNonHdrData(o, (const uint8_t *)"\x02\x00", 2);
    add_name(h, o, "");
    r = run(h, o);
    say("set_path", r == OBEX_RSP_SUCCESS, r);
    disconnect(h);
    // The library sends an Abort without waiting for the response before it, and takes that for the Abort's. Both come, so it cannot use
    // this connection any more.
    h = connected(port);
    r = put_aborted(h, "aborted");
    say("abort in a put", state.aborted, r);
    closed(h);
    h = connected(port);
    get_equal(h, "get 5000 after the abort, bytes equal", "five", 5000);
    disconnect(h);
    return 0;
}
