/*
 * The library with one fault, FAULT, to see that the tests notice it. Linked with `-Wl,--wrap` for each of the calls, so
 * that callers come here and `__real_` is the library.
 */
#include "wrong.h"
#include "wrong_expression.h"
#include "wrong_followed.h"
#include "wrong_starting.h"

#include <string.h>

size_t __wrap_swarmbanner_layout(void)
{
    return __real_swarmbanner_layout() + (FAULT == 19) - (FAULT == 149);
}

/* Does something to the row of the first word of sixteen. */
static void spoil_word(uint8_t *space)
{
    uint8_t *row = space + SWARMBANNER_AT_TRANSITIONS;

    while (row < space + SWARMBANNER_AT_FINALS && row[5] < SWARMBANNER_WORD_MOST)
        row += SWARMBANNER_TRANSITION_ROW;
    if (row == space + SWARMBANNER_AT_FINALS)
        return;
    if (FAULT == 20)
        row[5]--;
    if (FAULT == 21)
        row[SWARMBANNER_TRANSITION_ROW - 1] ^= 1;
    if (FAULT == 22)
        row[SWARMBANNER_TRANSITION_ROW] ^= 1;
}

READ(__wrap_swarmbanner_read)
{
    struct lent_reply lent = reply_of(reply, reply_len, FAULT == 129);
    size_t kind = __real_swarmbanner_read(file, file_len, space, space_len, lent.at, lent.length);

    reply_after(&lent, kind, reply, FAULT == 135);
    if (FAULT == 1 && kind == SWARMBANNER_REFUSED)
        space[0] = 0;
    if (FAULT == 2 && kind == SWARMBANNER_READ && space_len > SWARMBANNER_SPACE_LEAST)
        space[SWARMBANNER_SPACE_LEAST] = 0;
    if (FAULT == 3 && kind == SWARMBANNER_READ)
        space[SWARMBANNER_AT_ARCS] = 0;
    if (FAULT == 4 && kind == SWARMBANNER_REFUSED && reply[0] == SWARMBANNER_REFUSED_ORDER)
        reply[1]++;
    if (FAULT == 23 && kind == SWARMBANNER_REFUSED && reply[0] == SWARMBANNER_REFUSED_RANGE &&
        file[reply[1]] == SWARMBANNER_WORD_MOST + 1)
        reply[1]++;
    if (kind == SWARMBANNER_READ)
        spoil_word(space);
    if (kind != SWARMBANNER_NO_ROOM)
        kind = start_read_wrongly(kind, file, file_len, space, reply);
    /* the byte after the file */
    if (FAULT == 5 && file_len > 0 && ((const volatile uint8_t *)file)[file_len] == 0)
        return kind;
    return kind;
}

MEMBER(__wrap_swarmbanner_member)
{
    struct lent_reply lent = reply_of(reply, reply_len, FAULT == 130);
    size_t kind = __real_swarmbanner_member(file, file_len, control, contents, contents_len, lent.at, lent.length);

    reply_after(&lent, kind, reply, FAULT == 136);
    if (kind == SWARMBANNER_YES || kind == SWARMBANNER_NO)
        follow_asked_wrongly(kind, contents_len, reply);
    if (FAULT == 6 && kind == SWARMBANNER_NO && contents_len > 0)
        kind = SWARMBANNER_YES;
    if (FAULT == 7 && kind == SWARMBANNER_REFUSED && reply[0] == SWARMBANNER_REFUSED_EARLIER)
        reply[0] = SWARMBANNER_REFUSED_MESSAGE;
    return kind;
}

static size_t shown(size_t kind, const size_t *reply)
{
    return kind == SWARMBANNER_LEAVES ? reply[2] : kind == SWARMBANNER_BAD ? reply[1] : 0;
}

static int is_verdict(size_t kind)
{
    return kind <= SWARMBANNER_BAD;
}

CHECK(__wrap_swarmbanner_check)
{
    struct lent_reply lent = reply_of(reply, reply_len, FAULT == 128);
    size_t kind;

    if (FAULT == 8 && seen_len == SWARMBANNER_TABLE_LEAST - 1)
        seen_len++;
    if (FAULT >= 167 && FAULT <= 170)
        file = start_elsewhere(file, &file_len);
    kind = __real_swarmbanner_check(file, file_len, seen, seen_len, queue, queue_len, contents, contents_len, lent.at,
                                    lent.length);
    reply_after(&lent, kind, reply, FAULT == 134);
    if (kind == SWARMBANNER_LEAVES)
        follow_step_wrongly(file, file_len, contents, reply);
    kind = start_checked_wrongly(kind, file, file_len, contents, reply);
    if (FAULT == 9 && is_verdict(kind))
        seen[seen_len - 1] = 1;
    if (FAULT == 10 && is_verdict(kind))
        queue[queue_len - 1] = 1;
    if (FAULT == 11 && kind == SWARMBANNER_REFUSED && queue_len > 0)
        queue[queue_len - 1] = 0;
    if (FAULT == 12 && is_verdict(kind))
        contents[shown(kind, reply)] = 0;
    if (FAULT == 13 && is_verdict(kind))
        contents[-1] = 0;
    if (FAULT == 14 && is_verdict(kind) && shown(kind, reply) > 1)
        contents[1] = contents[0];
    if (FAULT == 15 && kind == SWARMBANNER_CLOSED)
        reply[0]++;
    if (FAULT == 16 && kind == SWARMBANNER_LEAVES && reply[2] > 1)
        kind = SWARMBANNER_CLOSED;
    if (FAULT == 17 && kind == SWARMBANNER_NO_ROOM && reply_len > 0)
        reply[0] = 0;
    if (FAULT == 18 && kind != SWARMBANNER_NO_ROOM && reply_len > SWARMBANNER_REPLY_LEAST)
        reply[SWARMBANNER_REPLY_LEAST] = 0;
    return kind;
}

static int has_run(size_t kind)
{
    return kind == SWARMBANNER_END || kind == SWARMBANNER_LEFT || kind == SWARMBANNER_STEP_REFUSED;
}

/* Does something to the record or to the queues of a run. */
static void spoil_run(uint8_t *memory, size_t memory_len, size_t *record, size_t record_len)
{
    size_t waits = record[SWARMBANNER_RECORD_LENGTHS];
    uint8_t oldest = memory[0];

    if (FAULT == 24 && waits < SWARMBANNER_QUEUE_LEAST)
        memory[waits] = 1;
    if (FAULT == 25)
        record[SWARMBANNER_RECORD_HEADS] = 1;
    if (FAULT == 26)
        record[SWARMBANNER_RECORD_HEADS - 1] = 1;
    if (FAULT == 27 && record_len > SWARMBANNER_RECORD_LEAST)
        record[SWARMBANNER_RECORD_LEAST] = 0;
    if (FAULT == 28 && memory_len % SWARMBANNER_QUEUE_LEAST > 0)
        memory[memory_len - 1] = 0;
    if (FAULT == 29)
        memory[-1] = 0;
    if (FAULT == 30 && waits > 1) {
        memory[0] = memory[waits - 1];
        memory[waits - 1] = oldest;
    }
}

REPLAY(__wrap_swarmbanner_replay)
{
    struct lent_reply lent = reply_of(reply, reply_len, FAULT == 131);
    size_t kind;

    if (FAULT == 31 && trace_len == SWARMBANNER_TRACE_MOST + 1)
        trace_len--;
    if (FAULT == 32 && memory_len % SWARMBANNER_QUEUE_LEAST == SWARMBANNER_QUEUE_LEAST - 1)
        memory_len++;
    if (FAULT >= 174 && FAULT <= 177)
        file = start_elsewhere(file, &file_len);
    kind = __real_swarmbanner_replay(file, file_len, trace, trace_len, memory, memory_len, record, record_len, lent.at,
                                     lent.length);
    reply_after(&lent, kind, reply, FAULT == 137);
    if (kind == SWARMBANNER_LEFT)
        follow_run_wrongly(file, file_len, trace, reply);
    if (has_run(kind)) {
        spoil_run(memory, memory_len, record, record_len);
        start_run_wrongly(file, file_len, memory, record, kind, reply);
    }
    if (FAULT == 33 && kind == SWARMBANNER_REFUSED && memory_len > 0)
        memory[0] = 0;
    if (FAULT == 34 && kind == SWARMBANNER_TRACE_REFUSED)
        record[0] = 0;
    if (FAULT == 35 && kind == SWARMBANNER_MEMORY_REFUSED && memory_len > 0)
        memory[memory_len - 1] = 0;
    if (FAULT == 36 && kind == SWARMBANNER_STEP_REFUSED)
        reply[2]++;
    if (FAULT == 37 && kind == SWARMBANNER_STEP_REFUSED && reply[0] == SWARMBANNER_REFUSED_IMPOSSIBLE)
        reply[1]++;
    if (FAULT == 38 && kind == SWARMBANNER_STEP_REFUSED && reply[0] == SWARMBANNER_REFUSED_FULL)
        reply[0] = SWARMBANNER_REFUSED_IMPOSSIBLE;
    if (FAULT == 39 && kind == SWARMBANNER_LEFT && reply[0] == 0)
        kind = SWARMBANNER_END;
    if (FAULT == 40 && kind == SWARMBANNER_LEFT && reply[0] == trace_len)
        kind = SWARMBANNER_END;
    if (FAULT == 41 && kind == SWARMBANNER_NO_ROOM && reply_len > 0)
        reply[0] = 0;
    if (FAULT == 42 && kind != SWARMBANNER_NO_ROOM && reply_len > SWARMBANNER_REPLY_LEAST)
        reply[SWARMBANNER_REPLY_LEAST] = 0;
    /* the byte after the trace */
    if (FAULT == 43 && trace_len > 0 && ((const volatile uint8_t *)trace)[trace_len] == 0)
        return kind;
    return kind;
}

/* Puts tables right in one way, so that what is wrong with them so is not seen. */
static void mend(uint8_t *tables)
{
    uint8_t *counts = tables + SWARMBANNER_AT_COUNTS, *finals = tables + SWARMBANNER_AT_FINALS;
    size_t i;

    /* a mark of 2; then what is beyond the bad entries, the roots of a machine's control states, and the transitions */
    for (i = 0; FAULT == 44 && i < SWARMBANNER_POOL_STATES_MOST; i++)
        finals[i] = finals[i] > 0;
    if (FAULT == 45 && counts[5] <= SWARMBANNER_BAD_ENTRIES_MOST)
        memset(tables + SWARMBANNER_AT_BAD + counts[5] * SWARMBANNER_BAD_ROW, 0,
               (SWARMBANNER_BAD_ENTRIES_MOST - counts[5]) * SWARMBANNER_BAD_ROW);
    if (FAULT == 46 && counts[0] == 1)
        memset(tables + SWARMBANNER_AT_ROOTS + tables[SWARMBANNER_AT_STATES], 0,
               SWARMBANNER_CONTROL_STATES_MOST - tables[SWARMBANNER_AT_STATES]);
    if (FAULT == 47 && counts[3] <= SWARMBANNER_TRANSITIONS_MOST)
        memset(tables + SWARMBANNER_AT_TRANSITIONS + counts[3] * SWARMBANNER_TRANSITION_ROW, 0,
               (SWARMBANNER_TRANSITIONS_MOST - counts[3]) * SWARMBANNER_TRANSITION_ROW);
    /* a local transition with a queue or a word; the rest of a word */
    for (i = 0; i < SWARMBANNER_TRANSITIONS_MOST; i++) {
        uint8_t *row = tables + SWARMBANNER_AT_TRANSITIONS + i * SWARMBANNER_TRANSITION_ROW;

        if (FAULT == 48 && row[3] == 0)
            memset(row + 4, 0, SWARMBANNER_TRANSITION_ROW - 4);
        if (FAULT == 49 && row[5] <= SWARMBANNER_WORD_MOST)
            memset(row + SWARMBANNER_TRANSITION_WORD + row[5], 0, SWARMBANNER_WORD_MOST - row[5]);
    }
    /* the sum of the messages, and queue order */
    if (FAULT == 50)
        counts[2] = (uint8_t)(tables[SWARMBANNER_AT_MESSAGES] + tables[SWARMBANNER_AT_MESSAGES + 1]);
    if (FAULT == 51)
        memset(finals, 0, SWARMBANNER_POOL_STATES_MOST);
}

/* Exchanges from and to of the first transition, or the marks of the first two pool states. */
static void exchange(uint8_t *tables)
{
    uint8_t *at = tables + (FAULT == 52 ? SWARMBANNER_AT_TRANSITIONS + 1 : SWARMBANNER_AT_FINALS);
    uint8_t first = at[0];

    if (FAULT == 53 && tables[SWARMBANNER_AT_COUNTS + 4] < 2)
        return;
    at[0] = at[1];
    at[1] = first;
}

/* Does something to what was written, or to the reply that says so. */
static void spoil_file(uint8_t *buffer, size_t buffer_len, size_t *reply)
{
    size_t length = reply[0];

    if (FAULT == 54)
        reply[0]--;
    if (FAULT == 55)
        reply[1] = length;
    if (FAULT == 56)
        reply[2] = 1;
    if (FAULT == 57 && buffer_len > length)
        buffer[length] = 0;
    if (FAULT == 58 && buffer_len > length)
        buffer[buffer_len - 1] = 0;
    if (FAULT == 59)
        buffer[-1] = 0;
    if (FAULT == 60)
        buffer[length - 1] ^= 1;
}

WRITE(__wrap_swarmbanner_write)
{
    static uint8_t other[SWARMBANNER_SPACE_LEAST], room[SWARMBANNER_FILE_MOST];
    struct lent_reply lent = reply_of(reply, reply_len, FAULT == 132);
    size_t kind = __real_swarmbanner_write(tables, tables_len, buffer, buffer_len, lent.at, lent.length);

    reply_after(&lent, kind, reply, FAULT == 138);
    if (FAULT >= 44 && FAULT <= 51 && kind == SWARMBANNER_REFUSED && tables_len >= sizeof other &&
        reply[0] == SWARMBANNER_REFUSED_TABLES) {
        memcpy(other, tables, sizeof other);
        mend(other);
        kind = __real_swarmbanner_write(other, sizeof other, buffer, buffer_len, reply, reply_len);
    }
    if ((FAULT == 52 || FAULT == 53) && kind == SWARMBANNER_WRITTEN) {
        memcpy(other, tables, sizeof other);
        exchange(other);
        __real_swarmbanner_write(other, sizeof other, room, sizeof room, reply, reply_len);
        if (reply[0] <= buffer_len)
            memcpy(buffer, room, reply[0]);
    }
    if (kind != SWARMBANNER_NO_ROOM)
        kind = start_written_wrongly(kind, tables, tables_len, buffer, buffer_len, reply);
    if (kind == SWARMBANNER_WRITTEN)
        spoil_file(buffer, buffer_len, reply);
    if (FAULT == 61 && kind == SWARMBANNER_REFUSED && reply[0] == SWARMBANNER_REFUSED_TABLES && buffer_len == 0)
        reply[0] = SWARMBANNER_REFUSED_BUFFER;
    if (FAULT == 62 && kind == SWARMBANNER_REFUSED && reply[0] == SWARMBANNER_REFUSED_TABLES && buffer_len > 0)
        buffer[0] = 0;
    if (FAULT == 63 && kind == SWARMBANNER_REFUSED && reply[0] == SWARMBANNER_REFUSED_BUFFER && buffer_len > 0)
        buffer[0] = tables[0];
    if (FAULT == 64 && kind == SWARMBANNER_REFUSED)
        reply[1] = SWARMBANNER_SPACE_LEAST;
    if (FAULT == 65 && kind == SWARMBANNER_REFUSED && reply[0] == SWARMBANNER_REFUSED_BUFFER) {
        /* what there is room for */
        __real_swarmbanner_write(tables, tables_len, room, sizeof room, reply, reply_len);
        memcpy(buffer, room, buffer_len);
        kind = SWARMBANNER_WRITTEN;
    }
    if (FAULT == 66 && tables_len == SWARMBANNER_SPACE_LEAST - 1 && kind == SWARMBANNER_REFUSED) {
        memcpy(other, tables, tables_len);
        other[tables_len] = 0;
        kind = __real_swarmbanner_write(other, sizeof other, buffer, buffer_len, reply, reply_len);
    }
    if (FAULT == 67 && kind == SWARMBANNER_WRITTEN && tables_len > SWARMBANNER_SPACE_LEAST) {
        reply[0] = SWARMBANNER_REFUSED_TABLES;
        kind = SWARMBANNER_REFUSED;
    }
    if (FAULT == 68 && kind == SWARMBANNER_NO_ROOM && reply_len > 0)
        reply[0] = 0;
    if (FAULT == 69 && kind == SWARMBANNER_NO_ROOM && buffer_len > 0)
        buffer[0] = 0;
    if (FAULT == 70 && kind != SWARMBANNER_NO_ROOM && reply_len > SWARMBANNER_REPLY_LEAST)
        reply[SWARMBANNER_REPLY_LEAST] = 0;
    /* refuses what a file has: more than 127 transitions */
    if (FAULT == 71 && kind == SWARMBANNER_WRITTEN && tables[SWARMBANNER_AT_COUNTS + 3] == SWARMBANNER_TRANSITIONS_MOST) {
        reply[0] = SWARMBANNER_REFUSED_TABLES;
        kind = SWARMBANNER_REFUSED;
    }
    /* the byte after the tables */
    if (FAULT == 72 && tables_len > 0 && ((const volatile uint8_t *)tables)[tables_len] == 0)
        return kind;
    return kind;
}
