/* The faults of how far contents are followed: another number, or that of other contents or of another diagram. For `wrong.c`. */
#ifndef WRONG_FOLLOWED_H
#define WRONG_FOLLOWED_H

#include "wrong.h"

#define WRONG_CONTENTS_MOST (SWARMBANNER_CONTENTS_LEAST + SWARMBANNER_WORD_MOST)

/* As many messages as membership follows in a control state; the contents are in queue order. */
static size_t followed_in(const uint8_t *file, size_t file_len, size_t control, const uint8_t *contents, size_t count)
{
    size_t reply[SWARMBANNER_REPLY_LEAST];

    __real_swarmbanner_member(file, file_len, control, contents, count, reply, SWARMBANNER_REPLY_LEAST);
    return reply[0];
}

/* The control state after a step that can be taken. */
static size_t target_of(const uint8_t *tables, size_t control, const uint8_t *row)
{
    size_t machine, weight = 1;

    for (machine = row[0] + 1u; machine < tables[SWARMBANNER_AT_COUNTS]; machine++)
        weight *= tables[SWARMBANNER_AT_STATES + machine];
    return control + row[2] * weight - row[1] * weight;
}

/* The contents after a step that can be taken; returns how many. */
static size_t contents_of(const uint8_t *tables, const uint8_t *row, const uint8_t *shown, size_t count, uint8_t *after)
{
    size_t low = 0, high, begins = 0, ends, queue;

    for (queue = 0; queue < row[4]; queue++)
        low += tables[SWARMBANNER_AT_MESSAGES + queue];
    high = low + tables[SWARMBANNER_AT_MESSAGES + queue];
    while (begins < count && shown[begins] < low)
        begins++;
    for (ends = begins; ends < count && shown[ends] < high;)
        ends++;
    memcpy(after, shown, count);
    if (row[3] == 1) {
        memcpy(after + ends, row + SWARMBANNER_TRANSITION_WORD, row[5]);
        memcpy(after + ends + row[5], shown + ends, count - ends);
        return count + row[5];
    }
    if (row[3] == 2) {
        memcpy(after + begins, shown + begins + row[5], count - begins - row[5]);
        return count - row[5];
    }
    return count;
}

/* After a step that leaves. */
static void follow_step_wrongly(const uint8_t *file, size_t file_len, const uint8_t *shown, size_t *reply)
{
    static uint8_t tables[SWARMBANNER_SPACE_LEAST], after[WRONG_CONTENTS_MOST];
    size_t read[SWARMBANNER_REPLY_LEAST], count, target, told = reply[2];
    const uint8_t *row = tables + SWARMBANNER_AT_TRANSITIONS + reply[1] * SWARMBANNER_TRANSITION_ROW;

    if (FAULT < 122 || FAULT > 148)
        return;
    __real_swarmbanner_read(file, file_len, tables, sizeof tables, read, SWARMBANNER_REPLY_LEAST);
    target = target_of(tables, reply[0], row);
    count = contents_of(tables, row, shown, reply[2], after);
    if (FAULT == 122)
        reply[3]++;
    if (FAULT == 123 && reply[3] > 0)
        reply[3]--;
    /* the contents before the step, in their own diagram and in the other; those after it in the diagram before it */
    if (FAULT == 124)
        reply[3] = reply[2];
    if (FAULT == 125)
        reply[3] = followed_in(file, file_len, target, shown, reply[2]);
    if (FAULT == 126)
        reply[3] = followed_in(file, file_len, reply[0], after, count);
    if (FAULT == 127 && tables[SWARMBANNER_AT_ROOTS + target] == 0)
        reply[3] = count;
    if (FAULT == 148) {
        reply[2] = reply[3];
        reply[3] = told;
    }
}

/* After yes or no. */
static void follow_asked_wrongly(size_t kind, size_t count, size_t *reply)
{
    if (FAULT == 140 && kind == SWARMBANNER_YES)
        reply[0] = 0;
    if (FAULT == 141 && kind == SWARMBANNER_NO)
        reply[0]++;
    if (FAULT == 142 && kind == SWARMBANNER_NO)
        reply[0] = count;
    if (FAULT == 143 && kind == SWARMBANNER_NO && reply[0] > 0)
        reply[0]--;
}

/* After a trace that leads outside. */
static void follow_run_wrongly(const uint8_t *file, size_t file_len, const uint8_t *trace, size_t *reply)
{
    static uint8_t memory[SWARMBANNER_QUEUES_MOST * SWARMBANNER_QUEUE_LEAST];
    size_t record[SWARMBANNER_RECORD_LEAST], before[SWARMBANNER_REPLY_LEAST], queue;

    if (FAULT == 144)
        reply[1]++;
    if (FAULT == 145)
        reply[1] = 0;
    /* what waited before the last step, all of which was followed; a number of a step that is taken has one byte */
    if (FAULT == 146 && reply[0] > 0) {
        __real_swarmbanner_replay(file, file_len, trace, reply[0] - 1, memory, sizeof memory, record, SWARMBANNER_RECORD_LEAST,
                                  before, SWARMBANNER_REPLY_LEAST);
        for (reply[1] = 0, queue = 0; queue < SWARMBANNER_QUEUES_MOST; queue++)
            reply[1] += record[SWARMBANNER_RECORD_LENGTHS + queue];
    }
    if (FAULT == 147) {
        reply[3] = reply[1];
        reply[1] = 0;
    }
}

#endif
