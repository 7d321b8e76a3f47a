// A server of files over libopenobex, for measuring beside `serve`: the peer's bytes come on standard input, replies go to standard output. A Put
// is written to a new file as its pieces come, made durable and renamed, as `serve` stores it; a Get is streamed from the file.
#define _GNU_SOURCE
#include <fcntl.h>
#include <openobex/obex.h>
#include <stdint.h>
#include <stdio.h>
#include <stdlib.h>
#include <string.h>
#include <sys/stat.h>
#include <unistd.h>

static int file = -1;
static char name[256], part[] = ".part-XXXXXX";
static uint8_t piece[65536];
static int over;

static void take_name(obex_t *h, obex_object_t *o) {
    uint8_t id;
    obex_headerdata_t v;
    uint32_t n;
    while (OBEX_ObjectGetNextHeader(h, o, &id, &v, &n) == 1)
        if (id == OBEX_HDR_NAME)
            for (uint32_t i = 0; i + 1 < n && i / 2 < sizeof name; i += 2) name[i / 2] = (char)v.bs[i + 1];
    OBEX_ObjectReParseHeaders(h, o);
}

static void begin_put(obex_t *h, obex_object_t *o) {
    OBEX_ObjectSetRsp(o, OBEX_RSP_CONTINUE, OBEX_RSP_SUCCESS);
    OBEX_ObjectReadStream(h, o, NULL);
    strcpy(part, ".part-XXXXXX");
    file = mkstemp(part);
}

static void put_piece(obex_t *h, obex_object_t *o) {
    const uint8_t *bytes;
    int n = OBEX_ObjectReadStream(h, o, &bytes);
    for (int done = 0; done < n;) {
        ssize_t k = write(file, bytes + done, (size_t)(n - done));
        if (k <= 0) abort();
        done += (int)k;
    }
}

static void end_put(obex_t *h, obex_object_t *o) {
    take_name(h, o);
    fchmod(file, 0644);
    if (fsync(file) || close(file) || rename(part, name)) abort();
}

static void begin_get(obex_t *h, obex_object_t *o) {
    obex_headerdata_t v = {.bs = NULL};
    take_name(h, o);
    OBEX_ObjectSetRsp(o, OBEX_RSP_CONTINUE, OBEX_RSP_SUCCESS);
    file = open(name, O_RDONLY);
    if (file < 0) abort();
    OBEX_ObjectAddHeader(h, o, OBEX_HDR_BODY, v, 0, OBEX_FL_STREAM_START);
}

static void get_piece(obex_t *h, obex_object_t *o) {
    ssize_t n = read(file, piece, sizeof piece);
    obex_headerdata_t v = {.bs = piece};
    if (n > 0) OBEX_ObjectAddHeader(h, o, OBEX_HDR_BODY, v, (uint32_t)n, OBEX_FL_STREAM_DATA);
    else {
        close(file);
        OBEX_ObjectAddHeader(h, o, OBEX_HDR_BODY, v, 0, OBEX_FL_STREAM_DATAEND);
    }
}

static void event(obex_t *h, obex_object_t *o, int mode, int ev, int cmd, int rsp) {
    (void)mode;
    (void)rsp;
    switch (ev) {
    case OBEX_EV_REQHINT:
        if (cmd == OBEX_CMD_PUT) begin_put(h, o);
        else OBEX_ObjectSetRsp(o, OBEX_RSP_CONTINUE, OBEX_RSP_SUCCESS);
        break;
    case OBEX_EV_STREAMAVAIL:
        put_piece(h, o);
        break;
    case OBEX_EV_REQ:
        if (cmd == OBEX_CMD_GET) begin_get(h, o);
        if (cmd == OBEX_CMD_PUT) end_put(h, o);
        if (cmd == OBEX_CMD_CONNECT) OBEX_ObjectSetRsp(o, OBEX_RSP_SUCCESS, OBEX_RSP_SUCCESS);
        break;
    case OBEX_EV_STREAMEMPTY:
        get_piece(h, o);
        break;
    case OBEX_EV_REQDONE:
        over = cmd == OBEX_CMD_DISCONNECT;
        break;
    case OBEX_EV_LINKERR:
    case OBEX_EV_PARSEERR:
        over = 1;
        break;
    }
}

int main(void) {
    obex_t *h = OBEX_Init(OBEX_TRANS_FD, event, 0);
    OBEX_SetTransportMTU(h, 65535, 65535);
    if (FdOBEX_TransportSetup(h, 0, 1, 65535) < 0) return 1;
    while (!over)
        if (OBEX_HandleInput(h, 10) < 0) break;
    return 0;
}
