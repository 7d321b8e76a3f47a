/* Files of blocks: writes a body as blocks, reads the body back, or checks a file and says of each block what is wrong with it.
 *
 * Usage: blocks write BODY BLOCKS | blocks read BLOCKS BODY | blocks check BLOCKS
 * The blocks and the verdict are those of the proved archive (archive.h); the line for each block is this program's, by the table of
 * docs/ARCHIVE.md#what-damage-looks-like, and it says so if the two disagree. The exit status is 0 if all is well, 1 if the blocks are not, and
 * 2 if a file cannot be read or written. tools/test/bindings-c runs it. */
#include <stdio.h>
#include <stdlib.h>
#include <string.h>

#include "archive.h"
#include "digest.h"

/* A file's bytes, or NULL. */
static uint8_t *contents(const char *path, size_t *length)
{
    FILE *file = fopen(path, "rb");
    uint8_t *bytes = NULL, *more;
    size_t room = 0, n;
    *length = 0;
    if (file == NULL)
        return NULL;
    do {
        if (*length == room) {
            room = room == 0 ? 65536 : room * 2;
            if ((more = realloc(bytes, room)) == NULL)
                break;
            bytes = more;
        }
        n = fread(bytes + *length, 1, room - *length, file);
        *length += n;
    } while (n > 0);
    if (ferror(file) || !feof(file)) {
        free(bytes);
        bytes = NULL;
    }
    fclose(file);
    return bytes;
}

/* Writes a file; says whether it could. */
static int written(const char *path, const uint8_t *bytes, size_t length)
{
    FILE *file = fopen(path, "wb");
    size_t n;
    if (file == NULL)
        return 0;
    n = fwrite(bytes, 1, length, file);
    return fclose(file) == 0 && n == length;
}

/* What an answer means. */
static const char *meaning(size_t number)
{
    return number == ARCHIVE_DAMAGED ? "damaged" : number == ARCHIVE_MISPLACED ? "misplaced" : number == ARCHIVE_SHORT ? "short" : "malformed";
}

/* The length field of a block without its mark, and the mark: it is set in the last block. */
static size_t used(const uint8_t *block) { return (size_t)(block[0] & 0x7F) << 8 | block[1]; }
static int is_last(const uint8_t *block) { return block[0] >> 7; }

/* What is wrong with block `k`, behind a block that was the last if `ended`: a number of archive.h. */
static size_t fault(const uint8_t *block, size_t k, int ended)
{
    uint8_t check[16];
    size_t i;
    digest_md5(block, ARCHIVE_BLOCK - sizeof check, check);
    if (memcmp(check, block + ARCHIVE_BLOCK - sizeof check, sizeof check) != 0)
        return ARCHIVE_DAMAGED;
    if (((size_t)block[2] << 24 | (size_t)block[3] << 16 | (size_t)block[4] << 8 | block[5]) != k)
        return ARCHIVE_MISPLACED;
    if (ended || used(block) > ARCHIVE_PAYLOAD || (!is_last(block) && used(block) < ARCHIVE_PAYLOAD) || (used(block) == 0 && k > 0))
        return ARCHIVE_MALFORMED;
    for (i = 6 + used(block); i < ARCHIVE_BLOCK - sizeof check; i++)
        if (block[i] != 0)
            return ARCHIVE_MALFORMED;
    return ARCHIVE_DONE;
}

/* Says of each block what is wrong with it, and then of the end of the file; returns the first fault. */
static size_t judged(const uint8_t *blocks, size_t length)
{
    size_t k, first = ARCHIVE_DONE;
    int ended = 0;
    for (k = 0; k < length / ARCHIVE_BLOCK; k++) {
        const uint8_t *block = blocks + k * ARCHIVE_BLOCK;
        size_t f = fault(block, k, ended);
        if (f != ARCHIVE_DONE)
            printf("block %zu: %s (%zu)\n", k, meaning(f), f);
        if (first == ARCHIVE_DONE)
            first = f;
        ended = f == ARCHIVE_DONE && is_last(block);
    }
    if (length % ARCHIVE_BLOCK != 0)
        printf("end: %zu bytes behind the last whole block\n", length % ARCHIVE_BLOCK);
    if (!ended)
        printf("end: the last block is not marked as such, or not sound\n");
    return first != ARCHIVE_DONE ? first : length % ARCHIVE_BLOCK == 0 && ended ? ARCHIVE_DONE : ARCHIVE_MALFORMED;
}

/* Reads the blocks; writes the body to `to`, unless that is NULL. */
static int read_blocks(const char *from, const char *to)
{
    size_t length, room, answer;
    uint8_t *blocks = contents(from, &length), *body;
    int status = 2;
    if (blocks == NULL)
        return 2;
    room = length / ARCHIVE_BLOCK * ARCHIVE_PAYLOAD;
    if ((body = malloc(room + 1)) != NULL) {
        answer = archive_read(blocks, length, body, room);
        if (answer != judged(blocks, length))
            printf("%s: this program disagrees with the archive\n", from);
        if (answer == ARCHIVE_DONE) {
            room = archive_body_length(blocks, length);
            printf("%s: %zu blocks, a body of %zu bytes\n", from, length / ARCHIVE_BLOCK, room);
            status = to == NULL || written(to, body, room) ? 0 : 2;
        } else {
            printf("%s: %s (%zu)\n", from, meaning(answer), answer);
            status = 1;
        }
    }
    free(body);
    free(blocks);
    return status;
}

/* Writes a body as blocks. */
static int write_blocks(const char *from, const char *to)
{
    size_t length, room, answer;
    uint8_t *body = contents(from, &length), *blocks;
    int status = 2;
    if (body == NULL)
        return 2;
    room = archive_blocks_length(length);
    if ((blocks = malloc(room)) != NULL) {
        answer = archive_write(body, length, blocks, room);
        if (answer == ARCHIVE_DONE)
            status = written(to, blocks, room) ? 0 : 2;
        else
            status = 1;
        printf("%s: %zu blocks of a body of %zu bytes\n", to, room / ARCHIVE_BLOCK, length);
    }
    free(blocks);
    free(body);
    return status;
}

int main(int argc, char **argv)
{
    if (argc == 4 && strcmp(argv[1], "write") == 0)
        return write_blocks(argv[2], argv[3]);
    if (argc == 4 && strcmp(argv[1], "read") == 0)
        return read_blocks(argv[2], argv[3]);
    if (argc == 3 && strcmp(argv[1], "check") == 0)
        return read_blocks(argv[2], NULL);
    fprintf(stderr, "usage: blocks write BODY BLOCKS | blocks read BLOCKS BODY | blocks check BLOCKS\n");
    return 2;
}
