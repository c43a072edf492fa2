/*
 * The session file with given tables, spelled in the plainest way. Tables that no file has are spelled as well, into bytes that
 * are refused or read into other tables.
 */
#ifndef SPELL_H
#define SPELL_H

#include "swarmbanner.h"

/* More bytes than are spelled, also where every number takes two. */
#define SPELLED_MOST 20000

static void spell_put(uint8_t **at, size_t number)
{
    if (number >= 128) {
        *(*at)++ = (uint8_t)(128 + number % 128);
        number /= 128;
    }
    *(*at)++ = (uint8_t)number;
}

static void spell_row(uint8_t **at, const uint8_t *row, size_t count)
{
    size_t i;

    for (i = 0; i < count; i++)
        spell_put(at, row[i]);
}

static void spell_transition(uint8_t **at, const uint8_t *row)
{
    size_t length = row[5] < SWARMBANNER_WORD_MOST ? row[5] : SWARMBANNER_WORD_MOST;

    spell_row(at, row, row[3] == 0 ? 4 : SWARMBANNER_TRANSITION_WORD);
    if (row[3] != 0)
        spell_row(at, row + SWARMBANNER_TRANSITION_WORD, length);
}

static void spell_pool_state(uint8_t **at, uint8_t is_final, const uint8_t *arcs)
{
    size_t message, count = 0;

    for (message = 0; message < SWARMBANNER_ARC_ROW; message++)
        count += arcs[message] > 0;
    spell_put(at, is_final);
    spell_put(at, count);
    for (message = 0; message < SWARMBANNER_ARC_ROW; message++)
        if (arcs[message] > 0) {
            spell_put(at, message);
            spell_put(at, arcs[message] - 1u);
        }
}

/* Does some queue start with a message? */
static int spell_resumes(const uint8_t *tables)
{
    size_t i;

    for (i = 0; i < SWARMBANNER_QUEUES_MOST; i++)
        if (tables[SWARMBANNER_AT_LENGTHS + i] > 0)
            return 1;
    return 0;
}

static void spell_starting(uint8_t **at, const uint8_t *tables, size_t queue)
{
    size_t length = tables[SWARMBANNER_AT_LENGTHS + queue];

    spell_put(at, length);
    spell_row(at, tables + SWARMBANNER_AT_CONTENTS + queue * SWARMBANNER_CONTENTS_ROW,
              length < SWARMBANNER_STARTING_MOST ? length : SWARMBANNER_STARTING_MOST);
}

/* Returns the length, or 0 where there would be more of something than its table has room for. */
static size_t spell_file(const uint8_t *tables, uint8_t *file)
{
    const uint8_t *counts = tables + SWARMBANNER_AT_COUNTS;
    size_t i, product = 1;
    uint8_t *at = file;

    if (counts[0] > SWARMBANNER_MACHINES_MOST || counts[1] > SWARMBANNER_QUEUES_MOST ||
        counts[3] > SWARMBANNER_TRANSITIONS_MOST || counts[4] > SWARMBANNER_POOL_STATES_MOST ||
        counts[5] > SWARMBANNER_BAD_ENTRIES_MOST)
        return 0;
    for (i = 0; i < counts[0]; i++)
        product *= tables[SWARMBANNER_AT_STATES + i];
    if (product > SWARMBANNER_CONTROL_STATES_MOST)
        return 0;
    spell_put(&at, counts[0] + (spell_resumes(tables) ? SWARMBANNER_MACHINES_MOST : 0u));
    spell_row(&at, tables + SWARMBANNER_AT_STATES, counts[0]);
    spell_row(&at, tables + SWARMBANNER_AT_STARTS, counts[0]);
    spell_put(&at, counts[1]);
    spell_row(&at, tables + SWARMBANNER_AT_MESSAGES, counts[1]);
    for (i = 0; spell_resumes(tables) && i < counts[1]; i++)
        spell_starting(&at, tables, i);
    spell_put(&at, counts[3]);
    for (i = 0; i < counts[3]; i++)
        spell_transition(&at, tables + SWARMBANNER_AT_TRANSITIONS + i * SWARMBANNER_TRANSITION_ROW);
    spell_put(&at, counts[4]);
    for (i = 0; i < counts[4]; i++)
        spell_pool_state(&at, tables[SWARMBANNER_AT_FINALS + i], tables + SWARMBANNER_AT_ARCS + i * SWARMBANNER_ARC_ROW);
    spell_row(&at, tables + SWARMBANNER_AT_ROOTS, product);
    spell_put(&at, counts[5]);
    spell_row(&at, tables + SWARMBANNER_AT_BAD, counts[5] * SWARMBANNER_BAD_ROW);
    return (size_t)(at - file);
}

#endif
