/* The proved blocks of the archive for C and C++: libarchive_c.a, for x86-64 Linux and nothing else. docs/ARCHIVE.md says what a block is.
 *
 *     tools/make/staticlib archive_c                                 writes target/staticlib/libarchive_c.a
 *
 * No call keeps a pointer, allocates or waits. The two slices must not overlap, and no pointer may be null, also with length 0. */
#ifndef ARCHIVE_H
#define ARCHIVE_H

#include <stddef.h>
#include <stdint.h>

#ifdef __cplusplus
extern "C" {
#endif

/* A block, and how many bytes of a body it carries. */
enum { ARCHIVE_BLOCK = 512, ARCHIVE_PAYLOAD = 490 };

/* Answers. Unless it is ARCHIVE_DONE, the target is as it was. ARCHIVE_SHORT is told before the others. */
enum {
    ARCHIVE_DONE = 0,
    ARCHIVE_SHORT = 10,     /* the target is too short: archive_write needs archive_blocks_length bytes, archive_read 490 for each whole block */
    ARCHIVE_DAMAGED = 11,   /* the check of a block is wrong */
    ARCHIVE_MISPLACED = 12, /* the number of a block is not the next */
    ARCHIVE_MALFORMED = 13  /* a length, a padding or an end mark breaks the rules; of archive_write: a body over 4,294,967,295 bytes */
};

/* Writes a body as blocks to the front of the target, and reads the body of blocks to the front of the target. */
size_t archive_write(const uint8_t *source, size_t length, uint8_t *target, size_t target_length);
size_t archive_read(const uint8_t *source, size_t length, uint8_t *target, size_t target_length);

/* How many bytes the blocks of a body of `length` bytes take. */
static inline size_t archive_blocks_length(size_t length)
{
    return (length / ARCHIVE_PAYLOAD + (length == 0 || length % ARCHIVE_PAYLOAD != 0 ? 1 : 0)) * ARCHIVE_BLOCK;
}

/* How many bytes the body has whose blocks archive_read has read: the last block says how many of its payload bytes are used. */
static inline size_t archive_body_length(const uint8_t *blocks, size_t length)
{
    const uint8_t *last = blocks + length - ARCHIVE_BLOCK;
    return (length / ARCHIVE_BLOCK - 1) * ARCHIVE_PAYLOAD + ((size_t)(last[0] & 0x7F) << 8 | last[1]);
}

#ifdef __cplusplus
}
#endif

#endif
