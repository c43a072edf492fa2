/*
 * The calls as the tests make them, on memory as `lend.h` lends it and in lengths that are chosen; what is expected of them is
 * counted.
 */
#ifndef CALLS_H
#define CALLS_H

#include "lend.h"
#include "swarmbanner.h"

#define MORE 1000

static struct lend file_lend, member_lend, space_lend, seen_lend, queue_lend, contents_lend, reply_lend;
static struct lend trace_lend, memory_lend, record_lend, tables_lend, buffer_lend, text_lend, pool_lend;
static unsigned tests, failures;

static void expect(int holds, const char *what, const char *name)
{
    tests++;
    if (!holds) {
        failures++;
        printf("FAILED: %s (%s)\n", what, name);
    }
}

/* How many entries of each kind are lent. */
struct lengths {
    size_t space, seen, queue, contents, memory, record, buffer, pool, reply;
};

#define MEMORY_LEAST (SWARMBANNER_QUEUES_MOST * SWARMBANNER_QUEUE_LEAST)

static const struct lengths least = {SWARMBANNER_SPACE_LEAST, SWARMBANNER_TABLE_LEAST, SWARMBANNER_TABLE_LEAST,
                                     SWARMBANNER_CONTENTS_LEAST, MEMORY_LEAST, SWARMBANNER_RECORD_LEAST,
                                     SWARMBANNER_FILE_MOST, SWARMBANNER_POOL_LEAST, SWARMBANNER_REPLY_LEAST};

static struct lengths plenty(void)
{
    struct lengths more = least;

    more.space += MORE;
    more.seen += MORE;
    more.queue += 2 * MORE;
    more.contents += MORE;
    more.memory += MORE;
    more.record += 7;
    more.buffer += MORE;
    more.pool += MORE;
    more.reply += 5;
    return more;
}

/* A null pointer where nothing is lent. */
static void *lend_or_null(struct lend *lend, size_t bytes)
{
    void *lent = lend_bytes(lend, bytes);

    return bytes == 0 ? NULL : lent;
}

static size_t *lend_reply(struct lengths n)
{
    return lend_or_null(&reply_lend, n.reply * sizeof(size_t));
}

static size_t call_read(const uint8_t *file, size_t length, struct lengths n)
{
    return swarmbanner_read(file, length, lend_or_null(&space_lend, n.space), n.space, lend_reply(n), n.reply);
}

static size_t call_check(const uint8_t *file, size_t length, struct lengths n)
{
    uint16_t *seen = lend_or_null(&seen_lend, n.seen * sizeof(uint16_t));
    uint16_t *queue = lend_or_null(&queue_lend, n.queue * sizeof(uint16_t));
    uint8_t *contents = lend_or_null(&contents_lend, n.contents);

    return swarmbanner_check(file, length, seen, n.seen, queue, n.queue, contents, n.contents, lend_reply(n), n.reply);
}

static size_t call_replay(const uint8_t *file, size_t length, const uint8_t *trace, size_t trace_length, struct lengths n)
{
    uint8_t *memory = lend_or_null(&memory_lend, n.memory);
    size_t *record = lend_or_null(&record_lend, n.record * sizeof(size_t));

    return swarmbanner_replay(file, length, trace, trace_length, memory, n.memory, record, n.record, lend_reply(n),
                              n.reply);
}

/* The tables are lent so that they end at the end of a page. */
static size_t call_write(const uint8_t *tables, size_t length, struct lengths n)
{
    const uint8_t *lent = length == 0 ? NULL : lend_copy(&tables_lend, tables, length);

    return swarmbanner_write(lent, length, lend_or_null(&buffer_lend, n.buffer), n.buffer, lend_reply(n), n.reply);
}

/* So is the text. */
static size_t call_expression(const uint8_t *text, size_t length, struct lengths n)
{
    const uint8_t *lent = length == 0 ? NULL : lend_copy(&text_lend, text, length);

    return swarmbanner_expression(lent, length, lend_or_null(&pool_lend, n.pool), n.pool, lend_reply(n), n.reply);
}

static int replied_four(size_t first, size_t second, size_t third, size_t fourth)
{
    size_t reply[SWARMBANNER_REPLY_LEAST];

    memcpy(reply, lend_at(&reply_lend), sizeof reply);
    return reply[0] == first && reply[1] == second && reply[2] == third && reply[3] == fourth &&
           lend_kept_from(&reply_lend, sizeof reply);
}

/* The fourth number goes with one kind alone, and is 0 with all others. */
static int replied(size_t first, size_t second, size_t third)
{
    return replied_four(first, second, third, 0);
}

static int memory_kept(void)
{
    return lend_kept(&seen_lend) && lend_kept(&queue_lend) && lend_kept(&contents_lend);
}

static int run_kept(void)
{
    return lend_kept(&memory_lend) && lend_kept(&record_lend);
}

static int digit(char c)
{
    return c <= '9' ? c - '0' : c - 'a' + 10;
}

/* The bytes of a text in hex, spaces left out, so placed that their end is the end of a page. */
static const uint8_t *hex_in(struct lend *lend, const char *text, size_t *length)
{
    static uint8_t bytes[512];
    size_t digits = 0;

    for (; *text != '\0'; text++) {
        if (*text == ' ')
            continue;
        bytes[digits / 2] = (uint8_t)(bytes[digits / 2] * 16 + digit(*text));
        digits++;
    }
    *length = digits / 2;
    return lend_copy(lend, bytes, *length);
}

static const uint8_t *hex(const char *text, size_t *length)
{
    return hex_in(&file_lend, text, length);
}

#endif
