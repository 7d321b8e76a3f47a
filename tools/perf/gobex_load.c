// Plays a session to a server over gobex many times, from memory and packet by packet, as `load` plays it to the engine. gobex is compiled with this
// file, and its reads, writes and watches are the functions below, so that neither a socket nor the main loop of GLib is measured. For
// tools/perf/peers.
//
// Usage: gobex_load COUNT <SESSION        Prints how many replies, bytes of replies, records and bytes of records came of it.
#include <gobex/gobex.h>
#include <stdint.h>
#include <stdio.h>
#include <stdlib.h>
#include <string.h>
#include <unistd.h>

enum { OBJECT = 1 << 20, LONGEST = 1 << 21, HEAD = 3, CONNECT = 0x80, GET = 0x83, SETPATH = 0x85, CONTINUE = 0x90, BODY = 1 << 16 };

static uint8_t session[LONGEST], object[OBJECT], body[BODY];
static size_t length, at, from, end, given, had;
static unsigned long replies, bytes, records, stored;
static const uint8_t next_get[] = {GET, 0, HEAD};
static const uint8_t *packet;
static int opcode, code;
// The ConnectionID that gobex gave last, as it stands in a packet: it counts on from session to session.
static uint8_t id[5];

// What gobex waits for: a packet, and room for a reply.
static struct { GIOFunc func; gpointer data; } reader, writer;

guint memory_add_watch(GIOChannel *io, GIOCondition cond, GIOFunc func, gpointer data) {
    (void)io;
    if (cond & G_IO_IN) {
        reader.func = func;
        reader.data = data;
        return 1;
    }
    writer.func = func;
    writer.data = data;
    return 2;
}

// The bytes are taken as they are.
GIOStatus memory_encoding(GIOChannel *io, const gchar *encoding, GError **err) {
    (void)io;
    (void)encoding;
    (void)err;
    return G_IO_STATUS_NORMAL;
}

void memory_buffered(GIOChannel *io, gboolean buffered) {
    (void)io;
    (void)buffered;
}

gboolean memory_remove(guint id) {
    if (id == 1) reader.func = NULL;
    else writer.func = NULL;
    return TRUE;
}

GIOStatus memory_read(GIOChannel *io, gchar *buf, gsize count, gsize *got, GError **err) {
    (void)io;
    (void)err;
    *got = count < end - from ? count : end - from;
    memcpy(buf, packet + from, *got);
    from += *got;
    return G_IO_STATUS_NORMAL;
}

GIOStatus memory_write(GIOChannel *io, const gchar *buf, gssize count, gsize *written, GError **err) {
    (void)io;
    (void)err;
    code = (uint8_t)buf[0];
    if (opcode == CONNECT && count == 12) memcpy(id, buf + 7, sizeof id);
    replies++;
    bytes += (unsigned long)count;
    *written = (gsize)count;
    return G_IO_STATUS_NORMAL;
}

static size_t packet_length(void) { return (size_t)session[at + 1] << 8 | session[at + 2]; }

// Finds the next packet of the session. gobex may send an object in another number of replies than the engine, so the packets that ask for more are
// as many as it needs.
static void next(void) {
    int more = opcode == GET && code == CONTINUE;
    while (!more && at < length && session[at] == GET && packet_length() == HEAD) at += HEAD;
    from = 0;
    if (more && !(at < length && session[at] == GET && packet_length() == HEAD)) {
        packet = next_get;
        end = HEAD;
        return;
    }
    if (at == length) {
        end = 0;
        return;
    }
    packet = session + at;
    opcode = packet[0];
    end = packet_length();
    uint8_t *first = session + at + HEAD + (opcode == SETPATH ? 2 : 0);
    if (opcode != CONNECT && end > HEAD && *first == G_OBEX_HDR_CONNECTION) memcpy(first, id, sizeof id);
    at += end;
}

static void failed(const char *what) {
    fprintf(stderr, "gobex_load: %s at byte %zu\n", what, at);
    exit(1);
}

static void agree(GObex *obex, GObexPacket *req, gpointer data) {
    (void)req;
    (void)data;
    if (!g_obex_send_rsp(obex, G_OBEX_RSP_SUCCESS, NULL, G_OBEX_HDR_INVALID)) failed("no reply");
}

static gboolean take(const void *buf, gsize n, gpointer data) {
    (void)data;
    if (n > BODY - had) return FALSE;
    memcpy(body + had, buf, n);
    had += n;
    return TRUE;
}

static void taken(GObex *obex, GError *err, gpointer data) {
    (void)obex;
    (void)data;
    if (err) failed(err->message);
    records++;
    stored += had;
}

static void put(GObex *obex, GObexPacket *req, gpointer data) {
    (void)data;
    had = 0;
    g_obex_put_rsp(obex, req, take, taken, NULL, NULL, G_OBEX_HDR_INVALID);
}

static gssize give(void *buf, gsize n, gpointer data) {
    (void)data;
    if (n > OBJECT - given) n = OBJECT - given;
    memcpy(buf, object + given, n);
    given += n;
    return (gssize)n;
}

static void sent(GObex *obex, GError *err, gpointer data) {
    (void)obex;
    (void)data;
    if (err) failed(err->message);
}

static void get(GObex *obex, GObexPacket *req, gpointer data) {
    (void)req;
    (void)data;
    given = 0;
    g_obex_get_rsp(obex, give, sent, NULL, NULL, G_OBEX_HDR_INVALID);
}

static void play(GIOChannel *io) {
    GObex *obex = g_obex_new(io, G_OBEX_TRANSPORT_STREAM, 65535, 65535);
    g_obex_add_request_function(obex, G_OBEX_OP_CONNECT, agree, NULL);
    g_obex_add_request_function(obex, G_OBEX_OP_DISCONNECT, agree, NULL);
    g_obex_add_request_function(obex, G_OBEX_OP_SETPATH, agree, NULL);
    g_obex_add_request_function(obex, G_OBEX_OP_PUT, put, NULL);
    g_obex_add_request_function(obex, G_OBEX_OP_GET, get, NULL);
    at = 0;
    opcode = code = 0;
    for (next(); end; next()) {
        if (!reader.func || !reader.func(io, G_IO_IN, reader.data)) failed("gobex stopped");
        while (writer.func && writer.func(io, G_IO_OUT, writer.data)) {}
        writer.func = NULL;
    }
    g_obex_unref(obex);
}

int main(int argc, char **argv) {
    long count = argc > 1 ? atol(argv[1]) : 1;
    ssize_t n;
    while ((n = read(0, session + length, sizeof session - length)) > 0) length += (size_t)n;
    for (size_t i = 0; i < OBJECT; i++) object[i] = (uint8_t)(i % 251);
    GIOChannel *io = g_io_channel_unix_new(0);
    for (long i = 0; i < count; i++) play(io);
    printf("replies %lu bytes %lu records %lu stored %lu\n", replies, bytes, records, stored);
    return 0;
}
