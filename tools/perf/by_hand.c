// The calls of a filing by hand, for tools/perf/receiver: takes Puts on standard input as the receiver does and makes the same calls of the system
// with bytes that are at hand, so that what the receiver takes longer is its own work: engine, formats and checks. It reads no header and keeps
// no record: what it writes has the right length and nothing else.
#include <fcntl.h>
#include <stdio.h>
#include <stdlib.h>
#include <string.h>
#include <sys/stat.h>
#include <unistd.h>

enum { CONNECT = 0x80, FINAL = 0x80, PUT = 0x02, FRAME = 48, HEADERS = 33, BLOCKS = 51712, NOTE = 430 };

static unsigned char packet[65535], blocks[BLOCKS];
static char folder[512];
static int journal;

static void must(int good, const char *what) {
    if (!good) {
        perror(what);
        exit(1);
    }
}

// Writes all bytes.
static void put(int fd, const void *bytes, size_t n) {
    must(write(fd, bytes, n) == (ssize_t)n, "write");
}

// Reads a packet; returns its length, or 0 at the end of the stream.
static size_t take(void) {
    size_t have = 0, want = 3;
    while (have < want) {
        ssize_t n = read(0, packet + have, sizeof packet - have);
        if (n <= 0)
            return 0;
        have += (size_t)n;
        if (have >= 3)
            want = (size_t)packet[1] << 8 | packet[2];
    }
    return want;
}

// Makes a file, or opens a folder if there are no bytes, writes it, synchronises it and closes it.
static void lasting(const char *path, const void *bytes, size_t n) {
    int fd = n ? open(path, O_WRONLY | O_CREAT | O_EXCL, 0600) : open(path, O_RDONLY);
    must(fd >= 0, path);
    if (n)
        put(fd, bytes, n);
    must(fsync(fd) == 0, "fsync");
    close(fd);
}

// The steps of docs/ARCHIVE.md, "Filing a record".
static void file(int number) {
    char part[600], record[600], path[640];
    snprintf(part, sizeof part, "%s/%06d.part", folder, number);
    snprintf(record, sizeof record, "%s/%06d", folder, number);
    put(journal, blocks, 96);
    must(mkdir(part, 0700) == 0, part);
    snprintf(path, sizeof path, "%s/headers", part);
    lasting(path, blocks, HEADERS);
    snprintf(path, sizeof path, "%s/body", part);
    lasting(path, blocks, BLOCKS);
    snprintf(path, sizeof path, "%s/note", part);
    lasting(path, blocks, NOTE);
    lasting(part, NULL, 0);
    must(fsync(journal) == 0, "fsync");
    must(rename(part, record) == 0, record);
    lasting(folder, NULL, 0);
}

int main(int argc, char **argv) {
    static const unsigned char connected[] = {0xA0, 0, 7, 0x10, 0, 0xFF, 0xFF}, going_on[] = {0x90, 0, 3}, done[] = {0xA0, 0, 3};
    char path[600];
    int number = 0;
    if (argc != 2)
        return 1;
    snprintf(folder, sizeof folder, "%s", argv[1]);
    snprintf(path, sizeof path, "%s/session", folder);
    journal = open(path, O_WRONLY | O_CREAT | O_EXCL, 0600);
    must(journal >= 0, path);
    for (size_t n; (n = take()) != 0;) {
        // A frame has a row, the packet up to a whole row, and its check.
        put(journal, packet, n < 65535 - FRAME ? n + FRAME - n % 16 : n);
        if (packet[0] == (PUT | FINAL))
            file(++number);
        if (packet[0] == CONNECT)
            put(1, connected, sizeof connected);
        else
            put(1, packet[0] == PUT ? going_on : done, 3);
        put(journal, blocks, FRAME);
    }
    return 0;
}
