/*
 * Memory to lend: it is full of dirt, the bytes before it are watched, and right after it lies a page that nobody may
 * touch. The library is not built with a sanitizer, so it is the page that stops it from reading or writing past an end.
 */
#ifndef LEND_H
#define LEND_H

#include <stddef.h>
#include <stdint.h>
#include <stdio.h>
#include <stdlib.h>
#include <string.h>
#include <sys/mman.h>
#include <unistd.h>

struct lend {
    uint8_t *memory; /* whole pages */
    uint8_t *dirt;   /* what `memory` was filled with */
    size_t bytes;    /* of either */
    size_t lent;     /* bytes that are lent, at the end */
};

static void *lend_pages(size_t bytes, size_t page)
{
    uint8_t *pages = mmap(NULL, bytes + 2 * page, PROT_READ | PROT_WRITE, MAP_PRIVATE | MAP_ANONYMOUS, -1, 0);

    if (pages == MAP_FAILED || mprotect(pages, page, PROT_NONE) != 0 ||
        mprotect(pages + page + bytes, page, PROT_NONE) != 0) {
        perror("lend");
        exit(2);
    }
    return pages + page;
}

/* Room to lend up to `most` bytes. No byte of dirt is 0, so that one set to 0 is seen. */
static void lend_make(struct lend *lend, size_t most)
{
    size_t page = (size_t)sysconf(_SC_PAGESIZE);
    uint32_t state = 2463534242u;
    size_t i;

    lend->bytes = (most / page + 1) * page;
    lend->lent = 0;
    lend->memory = lend_pages(lend->bytes, page);
    lend->dirt = lend_pages(lend->bytes, page);
    for (i = 0; i < lend->bytes; i++) {
        state ^= state << 13;
        state ^= state >> 17;
        state ^= state << 5;
        lend->dirt[i] = (uint8_t)(state % 255 + 1);
    }
}

static uint8_t *lend_at(const struct lend *lend)
{
    return lend->memory + (lend->bytes - lend->lent);
}

/* Lends so many bytes, all dirty. */
static void *lend_bytes(struct lend *lend, size_t bytes)
{
    lend->lent = bytes;
    memcpy(lend->memory, lend->dirt, lend->bytes);
    return lend_at(lend);
}

/* Lends a copy of bytes that are only to be read. */
static const uint8_t *lend_copy(struct lend *lend, const uint8_t *bytes, size_t length)
{
    uint8_t *copy = lend_bytes(lend, length);

    if (length > 0)
        memcpy(copy, bytes, length);
    return copy;
}

/* Are the lent bytes from this one on as they were, and those before the lent ones too? */
static int lend_kept_from(const struct lend *lend, size_t front)
{
    size_t before = lend->bytes - lend->lent;

    return memcmp(lend->memory, lend->dirt, before) == 0 &&
           memcmp(lend->memory + before + front, lend->dirt + before + front, lend->lent - front) == 0;
}

static int lend_kept(const struct lend *lend)
{
    return lend_kept_from(lend, 0);
}

/* Are all lent bytes 0, and those before them as they were? */
static int lend_is_clear(const struct lend *lend)
{
    const uint8_t *lent = lend_at(lend);
    size_t i;

    for (i = 0; i < lend->lent; i++)
        if (lent[i] != 0)
            return 0;
    return lend_kept_from(lend, lend->lent);
}

#endif
