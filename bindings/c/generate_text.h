/*
 * Expressions at random, most of them within the limits, some past one of them by a little. Signs at random nearly never are an
 * expression of any size.
 */
#ifndef GENERATE_TEXT_H
#define GENERATE_TEXT_H

#include "generate.h"

/* More bytes than a text from here has. */
#define GENERATED_TEXT_MOST 512

struct generate_text {
    uint64_t random;
    uint8_t *begin, *at;
    size_t messages, numbers, depth; /* kinds of messages, numbers that may still come, groups that may lie in one another */
    size_t spaces;                   /* one in so many places has some; 0 for none */
};

static size_t text_below(struct generate_text *g, size_t count)
{
    return (size_t)(generate_next(&g->random) % count);
}

static void text_put(struct generate_text *g, char sign)
{
    if (g->at < g->begin + GENERATED_TEXT_MOST)
        *g->at++ = (uint8_t)sign;
}

static void text_space(struct generate_text *g)
{
    if (g->spaces > 0 && text_below(g, g->spaces) == 0)
        text_put(g, ' ');
}

/* Mostly a message, now and then a number that is none's. */
static void text_number(struct generate_text *g)
{
    size_t number = text_below(g, g->messages), digits;

    if (g->at > g->begin && g->at[-1] >= '0' && g->at[-1] <= '9')
        text_put(g, ' ');
    if (text_below(g, 200) == 0)
        number = SWARMBANNER_MESSAGES_MOST - 1 + text_below(g, 3);
    if (number >= 10)
        text_put(g, (char)('0' + number / 10));
    text_put(g, (char)('0' + number % 10));
    for (digits = text_below(g, 400) == 0 && number > 0 ? 1 + text_below(g, 20) : 0; digits > 0; digits--)
        text_put(g, (char)('0' + text_below(g, 10)));
    g->numbers--;
}

static void text_alternatives(struct generate_text *g, size_t depth);

static void text_item(struct generate_text *g, size_t depth)
{
    text_space(g);
    if (depth < g->depth && text_below(g, 3) == 0) {
        text_put(g, '(');
        text_alternatives(g, depth + 1);
        text_space(g);
        text_put(g, ')');
    } else {
        text_number(g);
    }
    text_space(g);
    if (text_below(g, 4) == 0)
        text_put(g, '*');
}

static void text_alternatives(struct generate_text *g, size_t depth)
{
    size_t bars = text_below(g, 3), items;

    for (;;) {
        for (items = text_below(g, 5); items > 0 && g->numbers > 0; items--)
            text_item(g, depth);
        text_space(g);
        if (bars-- == 0)
            return;
        text_put(g, '|');
    }
}

/* The words whose last message but so many is a certain one: twice as many states with each of them. */
static void text_doubling(struct generate_text *g)
{
    size_t last = text_below(g, 9), i;
    char one = (char)('0' + text_below(g, 5)), other = (char)('5' + text_below(g, 5));

    for (i = 0; i < last + 2; i++) {
        if (i == 1) {
            text_put(g, one);
            continue;
        }
        text_put(g, '(');
        text_put(g, one);
        text_put(g, '|');
        text_put(g, other);
        text_put(g, ')');
        if (i == 0)
            text_put(g, '*');
    }
}

/* A group in as many others as there may be, or in one more. */
static void text_nest(struct generate_text *g)
{
    size_t levels = SWARMBANNER_DEPTH_MOST - text_below(g, 2) + text_below(g, 2), i;

    for (i = 0; i < levels; i++)
        text_put(g, '(');
    text_alternatives(g, levels);
    for (i = 0; i < levels; i++)
        text_put(g, ')');
}

/* Returns the length. */
static size_t generate_text(uint64_t random, uint8_t *text)
{
    struct generate_text g = {random, text, text, 0, 0, 0, 0};

    g.messages = text_below(&g, 4) == 0 ? SWARMBANNER_MESSAGES_MOST : 1 + text_below(&g, 4);
    g.numbers = text_below(&g, 3) == 0 ? SWARMBANNER_OCCURRENCES_MOST + text_below(&g, 3) : 1 + text_below(&g, 12);
    g.depth = text_below(&g, SWARMBANNER_DEPTH_MOST + 1);
    g.spaces = text_below(&g, 3);
    if (text_below(&g, 12) == 0)
        text_doubling(&g);
    if (text_below(&g, 12) == 0)
        text_nest(&g);
    do
        text_alternatives(&g, 0);
    while (g.numbers > 0 && text_below(&g, 4) > 0);
    /* up to the length that a text may have, or one more */
    if (text_below(&g, 12) == 0)
        while (g.at - text < (ptrdiff_t)(SWARMBANNER_TEXT_MOST + text_below(&g, 2)))
            text_put(&g, ' ');
    return (size_t)(g.at - text);
}

#endif
