/*
 * The faults of what waits at the start: it is lost, exchanged or put elsewhere, the form with it is not known or taken for the
 * other, and its refusals are told otherwise. For `wrong.c`.
 */
#ifndef WRONG_STARTING_H
#define WRONG_STARTING_H

#include "wrong.h"

#define START_LONG (SWARMBANNER_AT_TRANSITIONS - SWARMBANNER_AT_LENGTHS) /* lengths and contents */

static uint8_t *row_at(uint8_t *tables, size_t queue)
{
    return tables + SWARMBANNER_AT_CONTENTS + queue * SWARMBANNER_CONTENTS_ROW;
}

/* How many messages wait at the start. */
static size_t waiting(const uint8_t *tables)
{
    size_t queue, count = 0;

    for (queue = 0; queue < SWARMBANNER_QUEUES_MOST; queue++)
        count += tables[SWARMBANNER_AT_LENGTHS + queue];
    return count;
}

static int has_new_form(const uint8_t *file, size_t file_len)
{
    return file_len > 0 && file[0] > SWARMBANNER_MACHINES_MOST && file[0] <= 2 * SWARMBANNER_MACHINES_MOST;
}

/* The tables of a file; 0 where it is refused or starts empty. */
static int resumed(const uint8_t *file, size_t file_len, uint8_t *tables)
{
    size_t reply[SWARMBANNER_REPLY_LEAST];
    size_t kind = __real_swarmbanner_read(file, file_len, tables, SWARMBANNER_SPACE_LEAST, reply, SWARMBANNER_REPLY_LEAST);

    return kind == SWARMBANNER_READ && waiting(tables) > 0;
}

static void reverse(uint8_t *row, size_t length)
{
    size_t i;

    for (i = 0; i + 1 < length; i++, length--) {
        uint8_t first = row[i];

        row[i] = row[length - 1];
        row[length - 1] = first;
    }
}

enum change { EMPTIED, REVERSED, QUEUE_0_ALONE, CUT_TO_ONE };

/* Changes what waits in a queue. */
static void change_start(uint8_t *tables, size_t queue, enum change how)
{
    uint8_t *length = tables + SWARMBANNER_AT_LENGTHS + queue;
    size_t kept = 0;

    if (how == REVERSED) {
        reverse(row_at(tables, queue), *length);
        return;
    }
    if (how == QUEUE_0_ALONE && queue == 0)
        kept = *length;
    if (how == CUT_TO_ONE && *length > 0)
        kept = 1;
    *length = (uint8_t)kept;
    memset(row_at(tables, queue) + kept, 0, SWARMBANNER_CONTENTS_ROW - kept);
}

/* The file with another start, written by the library itself; the file as it is where nothing waits. */
static const uint8_t *restarted(const uint8_t *file, size_t *file_len, enum change how)
{
    static uint8_t tables[SWARMBANNER_SPACE_LEAST], other[SWARMBANNER_FILE_MOST];
    size_t reply[SWARMBANNER_REPLY_LEAST], queue;

    if (!resumed(file, *file_len, tables))
        return file;
    for (queue = 0; queue < SWARMBANNER_QUEUES_MOST; queue++)
        change_start(tables, queue, how);
    __real_swarmbanner_write(tables, sizeof tables, other, sizeof other, reply, SWARMBANNER_REPLY_LEAST);
    *file_len = reply[0];
    return other;
}

/* A file that is refused by 23 in the other form: its first number, and no lengths. Returns how long it is. */
static size_t without_lengths(const uint8_t *file, size_t file_len, uint8_t *other)
{
    size_t machines = file[0] - SWARMBANNER_MACHINES_MOST, queues = file[2 * machines + 1], begins = 2 * machines + 2 + queues;

    memcpy(other, file, begins);
    memcpy(other + begins, file + begins + queues, file_len - begins - queues);
    other[0] = (uint8_t)machines;
    return file_len - queues;
}

/* Is this the place of a number that says what waits? All numbers before it are good, and have one byte. */
static int is_of_start(const uint8_t *file, size_t file_len, size_t place)
{
    size_t machines = file[0] - SWARMBANNER_MACHINES_MOST, at = 2 * machines + 1, queue, queues;

    if (place <= at || place >= file_len)
        return 0;
    queues = file[at];
    at += 1 + queues;
    if (place < at)
        return 0;
    for (queue = 0; queue < queues && at <= place && at < file_len; queue++)
        at += 1u + file[at];
    return place < at;
}

/* Puts what was read elsewhere. */
static void move_start(uint8_t *space)
{
    uint8_t start[START_LONG], *lengths = space + SWARMBANNER_AT_LENGTHS, *packed = row_at(space, 0);
    size_t queue;

    memcpy(start, lengths, START_LONG);
    /* as in layout 3, without it */
    if (FAULT == 150) {
        memmove(lengths, lengths + START_LONG, SWARMBANNER_SPACE_LEAST - SWARMBANNER_AT_TRANSITIONS);
        memset(space + SWARMBANNER_SPACE_LEAST - START_LONG, 0, START_LONG);
    }
    /* the contents before the lengths */
    if (FAULT == 151) {
        memcpy(lengths, start + SWARMBANNER_QUEUES_MOST, START_LONG - SWARMBANNER_QUEUES_MOST);
        memcpy(lengths + START_LONG - SWARMBANNER_QUEUES_MOST, start, SWARMBANNER_QUEUES_MOST);
    }
    /* one queue right after the other */
    if (FAULT == 152) {
        memset(packed, 0, START_LONG - SWARMBANNER_QUEUES_MOST);
        for (queue = 0; queue < SWARMBANNER_QUEUES_MOST; packed += start[queue++])
            memcpy(packed, start + SWARMBANNER_QUEUES_MOST + queue * SWARMBANNER_CONTENTS_ROW, start[queue]);
    }
}

/* Changes what was read. */
static void spoil_start(uint8_t *space)
{
    uint8_t *lengths = space + SWARMBANNER_AT_LENGTHS, first[SWARMBANNER_CONTENTS_ROW];

    move_start(space);
    if (FAULT == 153)
        memset(lengths, 0, SWARMBANNER_QUEUES_MOST);
    if (FAULT == 154)
        memset(row_at(space, 0), 0, START_LONG - SWARMBANNER_QUEUES_MOST);
    if (FAULT == 155)
        reverse(row_at(space, 0), lengths[0]);
    if (FAULT == 156 && lengths[0] > 0 && lengths[0] < SWARMBANNER_STARTING_MOST)
        row_at(space, 0)[lengths[0]] = 1;
    if (FAULT == 157) {
        memcpy(first, row_at(space, 0), sizeof first);
        memcpy(row_at(space, 0), row_at(space, 1), sizeof first);
        memcpy(row_at(space, 1), first, sizeof first);
    }
    if (FAULT == 158)
        memset(row_at(space, 3), 1, lengths[0] == 0 ? SWARMBANNER_CONTENTS_ROW : 0);
}

/* Reads a file that is refused by 23 as one that starts empty; or refuses it so only where all that follows is good. */
static size_t read_empty(const uint8_t *file, size_t file_len, uint8_t *space, size_t *reply)
{
    static uint8_t other[SWARMBANNER_FILE_MOST], tables[SWARMBANNER_SPACE_LEAST];
    size_t length = without_lengths(file, file_len, other);

    if (FAULT == 162)
        return __real_swarmbanner_read(other, length, space, SWARMBANNER_SPACE_LEAST, reply, SWARMBANNER_REPLY_LEAST);
    if (__real_swarmbanner_read(other, length, tables, sizeof tables, reply, SWARMBANNER_REPLY_LEAST) == SWARMBANNER_READ) {
        reply[0] = SWARMBANNER_REFUSED_EMPTY;
        reply[1] = 0;
    }
    return SWARMBANNER_REFUSED;
}

/* After reading. Returns the kind. */
static size_t start_read_wrongly(size_t kind, const uint8_t *file, size_t file_len, uint8_t *space, size_t *reply)
{
    int is_23 = kind == SWARMBANNER_REFUSED && reply[0] == SWARMBANNER_REFUSED_EMPTY;
    int is_at_start = kind == SWARMBANNER_REFUSED && reply[0] != SWARMBANNER_REFUSED_LONG && !is_23 &&
                      has_new_form(file, file_len) && is_of_start(file, file_len, reply[1]);

    if (kind == SWARMBANNER_READ)
        spoil_start(space);
    if (FAULT == 159 && is_23)
        reply[1] = 2u * (file[0] - SWARMBANNER_MACHINES_MOST) + 2 + file[2 * (file[0] - SWARMBANNER_MACHINES_MOST) + 1];
    if (FAULT == 160 && is_23)
        reply[0] = SWARMBANNER_REFUSED_RANGE;
    if ((FAULT == 161 || FAULT == 162) && is_23)
        kind = read_empty(file, file_len, space, reply);
    if (FAULT == 163 && is_at_start && reply[0] == SWARMBANNER_REFUSED_RANGE)
        reply[1]++;
    if (FAULT == 164 && is_at_start && reply[0] == SWARMBANNER_REFUSED_QUEUE)
        reply[0] = SWARMBANNER_REFUSED_RANGE;
    if (FAULT == 165 && is_at_start && reply[0] == SWARMBANNER_REFUSED_QUEUE)
        reply[1]--;
    /* the form is not known */
    if (FAULT == 166 && has_new_form(file, file_len) && reply[0] != SWARMBANNER_REFUSED_LONG) {
        kind = SWARMBANNER_REFUSED;
        reply[0] = SWARMBANNER_REFUSED_RANGE;
        reply[1] = 0;
    }
    return kind;
}

/* Before a check or a replay: another start. */
static const uint8_t *start_elsewhere(const uint8_t *file, size_t *file_len)
{
    if (FAULT == 167 || FAULT == 174)
        return restarted(file, file_len, EMPTIED);
    if (FAULT == 168 || FAULT == 175)
        return restarted(file, file_len, REVERSED);
    if (FAULT == 169 || FAULT == 176)
        return restarted(file, file_len, QUEUE_0_ALONE);
    if (FAULT == 170 || FAULT == 177)
        return restarted(file, file_len, CUT_TO_ONE);
    return file;
}

/* After a check: what waits is shown, or how far it is followed; or empty queues have to be inside, too. Returns the kind. */
static size_t start_checked_wrongly(size_t kind, const uint8_t *file, size_t file_len, uint8_t *contents, size_t *reply)
{
    static uint8_t tables[SWARMBANNER_SPACE_LEAST];
    size_t machine, control = 0, empty[SWARMBANNER_REPLY_LEAST];

    if (FAULT < 171 || FAULT > 173 || kind > SWARMBANNER_BAD || !resumed(file, file_len, tables))
        return kind;
    if (FAULT == 171 && kind == SWARMBANNER_OUTSIDE)
        memcpy(contents, row_at(tables, 0), tables[SWARMBANNER_AT_LENGTHS]);
    if (FAULT == 172 && kind == SWARMBANNER_OUTSIDE)
        reply[0] = waiting(tables);
    for (machine = 0; machine < tables[SWARMBANNER_AT_COUNTS]; machine++)
        control = control * tables[SWARMBANNER_AT_STATES + machine] + tables[SWARMBANNER_AT_STARTS + machine];
    if (FAULT == 173 && __real_swarmbanner_member(file, file_len, control, NULL, 0, empty, SWARMBANNER_REPLY_LEAST) ==
                            SWARMBANNER_NO) {
        memset(reply, 0, SWARMBANNER_REPLY_LEAST * sizeof *reply);
        return SWARMBANNER_OUTSIDE;
    }
    return kind;
}

/* Rotates a queue by one message, so that the oldest is the newest. */
static void rotate(uint8_t *queue, size_t length)
{
    uint8_t oldest = queue[0];

    memmove(queue, queue + 1, length - 1);
    queue[length - 1] = oldest;
}

/* After a replay of a file that does not start empty. */
static void start_run_wrongly(const uint8_t *file, size_t file_len, uint8_t *memory, size_t *record, size_t kind, size_t *reply)
{
    static uint8_t tables[SWARMBANNER_SPACE_LEAST];
    size_t *lengths = record + SWARMBANNER_RECORD_LENGTHS;

    if (FAULT < 178 || FAULT > 180 || !resumed(file, file_len, tables))
        return;
    /* what waited is not counted; it is behind what was sent; it is a step for each message */
    if (FAULT == 178 && lengths[0] >= tables[SWARMBANNER_AT_LENGTHS])
        lengths[0] -= tables[SWARMBANNER_AT_LENGTHS];
    if (FAULT == 179 && lengths[0] > tables[SWARMBANNER_AT_LENGTHS] && tables[SWARMBANNER_AT_LENGTHS] > 0)
        rotate(memory, lengths[0]);
    if (FAULT == 180)
        reply[kind == SWARMBANNER_STEP_REFUSED ? 2 : 0] += waiting(tables);
}

/* Puts the start of tables right in one way, so that what is wrong with it so is not seen. */
static void mend_start(uint8_t *tables)
{
    uint8_t *lengths = tables + SWARMBANNER_AT_LENGTHS;
    size_t queue, i, first = 0;

    for (queue = 0; queue < SWARMBANNER_QUEUES_MOST; queue++) {
        uint8_t *row = row_at(tables, queue);
        size_t end = first + tables[SWARMBANNER_AT_MESSAGES + queue];

        if (FAULT == 181 && lengths[queue] <= SWARMBANNER_STARTING_MOST)
            memset(row + lengths[queue], 0, SWARMBANNER_CONTENTS_ROW - lengths[queue]);
        if (FAULT == 182 && queue >= tables[SWARMBANNER_AT_COUNTS + 1]) {
            lengths[queue] = 0;
            memset(row, 0, SWARMBANNER_CONTENTS_ROW);
        }
        if (FAULT == 183 && lengths[queue] > SWARMBANNER_STARTING_MOST)
            lengths[queue] = 0;
        for (i = 0; FAULT == 184 && i < lengths[queue] && i < SWARMBANNER_CONTENTS_ROW; i++)
            row[i] = (uint8_t)(row[i] < first || row[i] >= end ? first : row[i]);
        first = end;
    }
}

/* Changes tables before they are written. */
static void change_before_writing(uint8_t *tables)
{
    size_t queue;

    for (queue = 0; queue < SWARMBANNER_QUEUES_MOST; queue++)
        change_start(tables, queue, FAULT == 185 ? EMPTIED : REVERSED);
}

/* Writes a file of the form without starting contents in the other one, where it fits. Returns the length. */
static size_t with_lengths(uint8_t *buffer, size_t buffer_len, size_t length)
{
    size_t machines = buffer[0], queues = buffer[2 * machines + 1], begins = 2 * machines + 2 + queues;

    if (machines > SWARMBANNER_MACHINES_MOST || length + queues > buffer_len)
        return length;
    memmove(buffer + begins + queues, buffer + begins, length - begins);
    memset(buffer + begins, 0, queues);
    buffer[0] = (uint8_t)(machines + SWARMBANNER_MACHINES_MOST);
    return length + queues;
}

/* After writing. Returns the kind. */
static size_t start_written_wrongly(size_t kind, const uint8_t *tables, size_t tables_len, uint8_t *buffer, size_t buffer_len,
                                    size_t *reply)
{
    static uint8_t other[SWARMBANNER_SPACE_LEAST], room[SWARMBANNER_FILE_MOST];

    if (FAULT >= 181 && FAULT <= 184 && kind == SWARMBANNER_REFUSED && tables_len >= sizeof other &&
        reply[0] == SWARMBANNER_REFUSED_TABLES) {
        memcpy(other, tables, sizeof other);
        mend_start(other);
        kind = __real_swarmbanner_write(other, sizeof other, buffer, buffer_len, reply, SWARMBANNER_REPLY_LEAST);
    }
    if (kind != SWARMBANNER_WRITTEN)
        return kind;
    if ((FAULT == 185 || FAULT == 186) && waiting(tables) > 0) {
        memcpy(other, tables, sizeof other);
        change_before_writing(other);
        __real_swarmbanner_write(other, sizeof other, room, sizeof room, reply, SWARMBANNER_REPLY_LEAST);
        memcpy(buffer, room, reply[0]);
    }
    if (FAULT == 187)
        reply[0] = with_lengths(buffer, buffer_len, reply[0]);
    /* refuses what a file has: a full queue, any start but an empty one */
    if ((FAULT == 188 && memchr(tables + SWARMBANNER_AT_LENGTHS, SWARMBANNER_STARTING_MOST, SWARMBANNER_QUEUES_MOST) != NULL) ||
        (FAULT == 189 && waiting(tables) > 0)) {
        reply[0] = SWARMBANNER_REFUSED_TABLES;
        return SWARMBANNER_REFUSED;
    }
    return kind;
}

#endif
