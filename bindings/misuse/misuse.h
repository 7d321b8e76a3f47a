/* What the two misuse tests share: random numbers, stores between guarded pages, and header bytes. */
#ifndef MISUSE_H
#define MISUSE_H
#define _GNU_SOURCE
#include <stdbool.h>
#include <stdint.h>
#include <stdio.h>
#include <stdlib.h>
#include <string.h>
#include <sys/mman.h>

enum { LONGEST = 65535, CAPACITY = 65532 };

/* A lent store: `length` bytes at `at`, within `room` bytes between two guarded pages. */
struct store { uint8_t *first, *at; size_t room, length; };

static uint64_t seed;

/* A random number below `n`, which is not 0. */
static uint64_t below(uint64_t n)
{
    seed ^= seed << 13;
    seed ^= seed >> 7;
    seed ^= seed << 17;
    return (seed * 0x2545F4914F6CDD1Du >> 16) % n;
}

static bool one_in(uint64_t n)
{
    return below(n) == 0;
}

static struct store guarded(size_t length)
{
    size_t page = 4096, inner = (length + page - 1) / page * page;
    uint8_t *all = mmap(NULL, inner + 2 * page, PROT_NONE, MAP_PRIVATE | MAP_ANONYMOUS, -1, 0);
    if (all == MAP_FAILED || mprotect(all + page, inner, PROT_READ | PROT_WRITE) != 0) {
        perror("misuse");
        exit(2);
    }
    return (struct store){ all + page, all + page + inner - length, inner, length };
}

/* The same store with another length, up to its end or from its beginning. */
static struct store cut(struct store s, size_t length)
{
    s.length = length < s.room ? length : s.room;
    s.at = one_in(2) ? s.first : s.first + s.room - s.length;
    return s;
}

/* Headers whose ids have no rules of their own, so that bytes are canonical if they can be read. */
static bool are_headers(const uint8_t *bytes, size_t length)
{
    if (length > LONGEST)
        return false;
    while (length > 0) {
        size_t size = bytes[0] >= 0xC0 ? 5 : bytes[0] >= 0x80 ? 2 : length < 3 ? 0 : (size_t)(bytes[1] << 8 | bytes[2]);
        if (size < 2 || size > length || (bytes[0] < 0x80 && size < 3))
            return false;
        bytes += size;
        length -= size;
    }
    return true;
}

/* Any number: a small one, a flag, one about a limit, or all of its bits. */
static uint64_t any_number(void)
{
    switch (below(6)) {
    case 0: return below(2);
    case 1: return below(14);
    case 2: return below(600);
    case 3: return 65530 + below(12);
    case 4: return ((uint64_t)1 << below(64)) - below(2);
    default: return below(UINT64_MAX);
    }
}

/* Header bytes that are canonical, or not quite. */
static size_t write_headers(uint8_t *to)
{
    size_t length = 0;
    for (uint64_t headers = below(4); headers > 0; headers--) {
        static const uint8_t ids[] = { 0x70, 0x70, 0xB0, 0xF0, 0xF0, 0x70, 0xB0, 0x48, 0xCB };
        uint8_t id = ids[below(sizeof ids)];
        size_t size = id >= 0xC0 ? 5 : id >= 0x80 ? 2 : 3 + below(300);
        memset(to + length, (int)below(4), size);
        to[length] = id;
        if (id < 0x80) {
            to[length + 1] = (uint8_t)(size >> 8);
            to[length + 2] = (uint8_t)size;
        }
        length += size;
    }
    return one_in(8) && length > 0 ? length - 1 : length;
}

/* A line for each call: how often each refusal was returned, 0 for none. */
static void print_seen(int call, const unsigned long *seen)
{
    printf("call %2d:", call);
    for (int number = 0; number < 32; number++)
        if (seen[number] > 0)
            printf("  %d %lu", number, seen[number]);
    printf("\n");
}

#endif
