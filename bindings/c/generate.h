/*
 * Small session files at random, with words of up to sixteen messages and now and then one more, and every other one with
 * messages that wait at the start. Changes to a file of short words nearly never give a longer one, nor one of the other form.
 */
#ifndef GENERATE_H
#define GENERATE_H

#include "swarmbanner.h"

/* More bytes than a file from here has. */
#define GENERATED_MOST 256
#define GENERATED_STATES 3
#define GENERATED_POOL 4

struct generate {
    uint64_t random;
    uint8_t *at;
    size_t states, queues, messages[2], pool;
    int is_full; /* no arc is left out */
};

/* splitmix64 */
static uint64_t generate_next(uint64_t *random)
{
    uint64_t z = *random += UINT64_C(0x9e3779b97f4a7c15);

    z = (z ^ (z >> 30)) * UINT64_C(0xbf58476d1ce4e5b9);
    z = (z ^ (z >> 27)) * UINT64_C(0x94d049bb133111eb);
    return z ^ (z >> 31);
}

static size_t generate_below(struct generate *g, size_t count)
{
    return (size_t)(generate_next(&g->random) % count);
}

static size_t generate_put(struct generate *g, size_t number)
{
    *g->at++ = (uint8_t)number;
    return number;
}

static void generate_word(struct generate *g, size_t queue)
{
    size_t length = generate_below(g, 2) == 0 ? SWARMBANNER_WORD_MOST : generate_below(g, SWARMBANNER_WORD_MOST + 2);
    size_t first = queue == 0 ? 0 : g->messages[0];

    generate_put(g, length);
    while (length-- > 0)
        generate_put(g, first + generate_below(g, g->messages[queue]));
}

/* Mostly few messages, now and then nine, and in a file of one queue often none. */
static void generate_starting(struct generate *g, size_t queue)
{
    size_t length = generate_below(g, 4) == 0 ? generate_below(g, SWARMBANNER_STARTING_MOST + 2) : generate_below(g, 3);
    size_t first = queue == 0 ? 0 : g->messages[0];

    generate_put(g, length);
    while (length-- > 0)
        generate_put(g, first + generate_below(g, g->messages[queue]));
}

static void generate_transition(struct generate *g)
{
    generate_put(g, 0);
    generate_put(g, generate_below(g, g->states));
    generate_put(g, generate_below(g, g->states));
    /* fewer local ones, which have no word */
    if (generate_put(g, (1 + generate_below(g, 5)) / 2) > 0)
        generate_word(g, generate_put(g, generate_below(g, g->queues)));
}

/* In queue order: arcs for queue 1 lead to odd states, which have no arcs for queue 0. */
static void generate_pool_state(struct generate *g, size_t state)
{
    size_t sum = g->messages[0] + (g->queues == 2 ? g->messages[1] : 0), message;
    uint8_t *count;

    generate_put(g, generate_below(g, 4) > 0);
    count = g->at++;
    *count = 0;
    for (message = 0; message < sum; message++) {
        int is_later = message >= g->messages[0];

        if ((g->queues == 2 && !is_later && state % 2 == 1) || (!g->is_full && generate_below(g, 12) == 0))
            continue;
        generate_put(g, message);
        generate_put(g, is_later ? 1 + 2 * generate_below(g, g->pool / 2) : generate_below(g, g->pool));
        ++*count;
    }
}

/* One machine, one or two queues. Returns the length. */
static size_t generate_file(uint64_t random, uint8_t *file)
{
    struct generate g = {random, file, 0, 0, {0, 0}, 0, 0};
    size_t i, count;
    int resumes = generate_below(&g, 2) == 0;

    generate_put(&g, resumes ? 1 + SWARMBANNER_MACHINES_MOST : 1);
    g.states = generate_put(&g, 1 + generate_below(&g, GENERATED_STATES));
    generate_put(&g, generate_below(&g, g.states));
    g.queues = generate_put(&g, 1 + generate_below(&g, 2));
    for (i = 0; i < g.queues; i++)
        g.messages[i] = generate_put(&g, 1 + generate_below(&g, 3));
    for (i = 0; resumes && i < g.queues; i++)
        generate_starting(&g, i);
    count = generate_put(&g, 1 + generate_below(&g, 3));
    for (i = 0; i < count; i++)
        generate_transition(&g);
    g.is_full = generate_below(&g, 2) == 0;
    g.pool = generate_put(&g, 2 + generate_below(&g, GENERATED_POOL - 1));
    for (i = 0; i < g.pool; i++)
        generate_pool_state(&g, i);
    for (i = 0; i < g.states; i++)
        generate_put(&g, generate_below(&g, 6) == 0 ? 0 : 1 + generate_below(&g, g.pool));
    count = generate_put(&g, generate_below(&g, 2));
    for (i = 0; i < count; i++) {
        generate_put(&g, generate_below(&g, g.states));
        generate_put(&g, generate_below(&g, g.pool));
    }
    return (size_t)(g.at - file);
}

#endif
