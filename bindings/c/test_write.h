/*
 * Writing, as the header promises it: files that are read are written back, in buffers of every length; tables that no file
 * has are refused.
 */
#ifndef TEST_WRITE_H
#define TEST_WRITE_H

#include "calls.h"
#include "files.h"

/* Bytes of the longest file. */
#define LONGEST 11700u

/* Reads a file and keeps its tables. */
static int read_into(uint8_t *tables, const uint8_t *file, size_t length)
{
    if (call_read(file, length, least) != SWARMBANNER_READ)
        return 0;
    memcpy(tables, lend_at(&space_lend), SWARMBANNER_SPACE_LEAST);
    return 1;
}

/* The front of the buffer is this file, and the rest of it is kept. */
static int is_written(const uint8_t *file, size_t length)
{
    return replied(length, 0, 0) && memcmp(lend_at(&buffer_lend), file, length) == 0 &&
           lend_kept_from(&buffer_lend, length);
}

/* Tables are written as this file into a buffer that is long enough, and into no shorter one. */
static void expect_file(const uint8_t *tables, const uint8_t *file, size_t length, const char *name)
{
    struct lengths n = plenty();
    size_t room[5];
    size_t i;

    room[0] = n.buffer;
    room[1] = length + 1;
    room[2] = length;
    room[3] = length - 1;
    room[4] = 0;
    for (i = 0; i < 5; i++) {
        n.buffer = room[i];
        if (room[i] >= length) {
            expect(call_write(tables, SWARMBANNER_SPACE_LEAST, n) == SWARMBANNER_WRITTEN, "written", name);
            expect(is_written(file, length), "the file, and the rest of the buffer kept", name);
        } else {
            expect(call_write(tables, SWARMBANNER_SPACE_LEAST, n) == SWARMBANNER_REFUSED && replied(17, 0, 0),
                   "short buffer", name);
            expect(lend_kept(&buffer_lend), "a short buffer is kept", name);
        }
    }
    for (n.reply = 0; n.reply < SWARMBANNER_REPLY_LEAST; n.reply++) {
        expect(call_write(tables, SWARMBANNER_SPACE_LEAST, n) == SWARMBANNER_NO_ROOM, "write has no room", name);
        expect(lend_kept(&buffer_lend) && lend_kept(&reply_lend), "write without room touches nothing", name);
    }
}

/* What is read is written back. */
static void write_back(const char *name, const uint8_t *bytes, size_t length)
{
    static uint8_t file[SWARMBANNER_FILE_MOST], tables[SWARMBANNER_SPACE_LEAST];

    memcpy(file, bytes, length);
    expect(read_into(tables, lend_copy(&file_lend, file, length), length), "read", name);
    expect_file(tables, file, length, name);
}

static void write_text(const char *name, const char *text)
{
    size_t length;
    const uint8_t *file = hex(text, &length);

    write_back(name, file, length);
}

/* As many of everything as there can be, also at the start, and no final mark, so that no word is accepted out of order. */
static void longest_file(void)
{
    static uint8_t tables[SWARMBANNER_SPACE_LEAST], file[LONGEST];
    static const uint8_t counts[] = {4, 4, 32, 128, 127, 64};
    struct lengths n = plenty();
    size_t i;

    memcpy(tables + SWARMBANNER_AT_COUNTS, counts, sizeof counts);
    memset(tables + SWARMBANNER_AT_STATES, 4, SWARMBANNER_MACHINES_MOST);
    memset(tables + SWARMBANNER_AT_STARTS, 3, SWARMBANNER_MACHINES_MOST);
    memset(tables + SWARMBANNER_AT_MESSAGES, 8, SWARMBANNER_QUEUES_MOST);
    memset(tables + SWARMBANNER_AT_LENGTHS, SWARMBANNER_STARTING_MOST, SWARMBANNER_QUEUES_MOST);
    for (i = 0; i < SWARMBANNER_MESSAGES_MOST; i++)
        tables[SWARMBANNER_AT_CONTENTS + i] = (uint8_t)(i ^ 5);
    for (i = 0; i < SWARMBANNER_TRANSITIONS_MOST; i++) {
        uint8_t *row = tables + SWARMBANNER_AT_TRANSITIONS + i * SWARMBANNER_TRANSITION_ROW;

        row[0] = (uint8_t)(i % 4);
        row[1] = (uint8_t)(i / 4 % 4);
        row[2] = 3;
        row[3] = (uint8_t)(1 + i % 2);
        row[4] = 3;
        row[5] = SWARMBANNER_WORD_MOST;
        memset(row + SWARMBANNER_TRANSITION_WORD, 31, SWARMBANNER_WORD_MOST);
    }
    for (i = 0; i < SWARMBANNER_POOL_STATES_MOST * SWARMBANNER_ARC_ROW; i++)
        tables[SWARMBANNER_AT_ARCS + i] = (uint8_t)(1 + i % SWARMBANNER_POOL_STATES_MOST);
    memset(tables + SWARMBANNER_AT_ROOTS, 127, SWARMBANNER_CONTROL_STATES_MOST);
    memset(tables + SWARMBANNER_AT_BAD, 255, SWARMBANNER_BAD_ENTRIES_MOST * SWARMBANNER_BAD_ROW);
    for (i = 0; i < SWARMBANNER_BAD_ENTRIES_MOST; i++)
        tables[SWARMBANNER_AT_BAD + i * SWARMBANNER_BAD_ROW + 1] = 126;
    expect(call_write(tables, sizeof tables, n) == SWARMBANNER_WRITTEN && replied(LONGEST, 0, 0), "written", "longest");
    memcpy(file, lend_at(&buffer_lend), sizeof file);
    expect_file(tables, file, sizeof file, "longest");
    expect(call_read(lend_copy(&file_lend, file, sizeof file), sizeof file, least) == SWARMBANNER_READ, "read", "longest");
    expect(memcmp(lend_at(&space_lend), tables, sizeof tables) == 0, "the same tables", "longest");
    /* any word is accepted */
    tables[SWARMBANNER_AT_FINALS + 5] = 1;
    expect(call_write(tables, sizeof tables, n) == SWARMBANNER_REFUSED && replied(16, 0, 0), "out of order", "longest");
    tables[SWARMBANNER_AT_FINALS + 5] = 0;
    memset(tables + SWARMBANNER_AT_LENGTHS, 0, SWARMBANNER_AT_TRANSITIONS - SWARMBANNER_AT_LENGTHS);
    expect(call_write(tables, sizeof tables, n) == SWARMBANNER_WRITTEN && replied(LONGEST - 36, 0, 0), "written",
           "longest that starts empty");
}

/* Tables are written in the form with starting contents just if some queue starts with a message. */
static void both_forms(void)
{
    static uint8_t tables[SWARMBANNER_SPACE_LEAST], file[64];
    size_t length, queue;
    const uint8_t *bytes = hex(R, &length);

    expect(read_into(tables, bytes, length), "read", "R");
    tables[SWARMBANNER_AT_LENGTHS] = 2;
    bytes = hex(R2, &length);
    memcpy(file, bytes, length);
    expect_file(tables, file, length, "R with two messages at the start");
    expect(read_into(tables, bytes, length), "read", "R2");
    tables[SWARMBANNER_AT_LENGTHS] = 0;
    bytes = hex(R, &length);
    memcpy(file, bytes, length);
    expect_file(tables, file, length, "R2 without them");
    /* in any queue: message q is the one of queue q */
    for (queue = 0; queue < SWARMBANNER_QUEUES_MOST; queue++) {
        bytes = hex("04 01010101 00000000 04 01010101 00 01 01 00 01 00", &length);
        expect(read_into(tables, bytes, length), "read", "four queues");
        tables[SWARMBANNER_AT_LENGTHS + queue] = 1;
        tables[SWARMBANNER_AT_CONTENTS + SWARMBANNER_CONTENTS_ROW * queue] = (uint8_t)queue;
        bytes = hex("08 01010101 00000000 04 01010101 00000000 00 00 01 01 00 01 00", &length);
        memcpy(file, bytes, length);
        file[14 + queue] = 1;
        file[15 + queue] = (uint8_t)queue;
        expect_file(tables, file, length, "four queues, one of which starts with a message");
    }
}

/* Tables may be followed by anything; there must be enough of them, or nothing else is asked. */
static void lengths_of_tables(void)
{
    static const size_t too_few[] = {0, 1, 6, 100, SWARMBANNER_SPACE_LEAST - 1};
    static uint8_t tables[SWARMBANNER_SPACE_LEAST + MORE], file[64];
    struct lengths n = plenty();
    size_t i, length;
    const uint8_t *bytes = hex(R, &length);

    memcpy(file, bytes, length);
    expect(read_into(tables, bytes, length), "read", "R");
    memset(tables + SWARMBANNER_SPACE_LEAST, 255, MORE);
    for (i = 0; i <= MORE; i += MORE / 4) {
        expect(call_write(tables, SWARMBANNER_SPACE_LEAST + i, n) == SWARMBANNER_WRITTEN, "longer tables", "R");
        expect(is_written(file, length), "what follows is of no account", "R");
    }
    for (i = 0; i < sizeof too_few / sizeof *too_few; i++)
        for (n.buffer = 0; n.buffer <= length; n.buffer += length) {
            expect(call_write(tables, too_few[i], n) == SWARMBANNER_REFUSED && replied(16, 0, 0), "too few tables", "R");
            expect(lend_kept(&buffer_lend), "the buffer is kept", "too few tables");
        }
}

/* An entry of the tables of D or of DS, by its place, that no file has. */
struct damage {
    const char *name;
    size_t place;
    uint8_t entry;
};

#define ROW(number) (SWARMBANNER_AT_TRANSITIONS + (number) * SWARMBANNER_TRANSITION_ROW)
#define CONTENTS(queue) (SWARMBANNER_AT_CONTENTS + (queue) * SWARMBANNER_CONTENTS_ROW)
#define ARC(state, message) (SWARMBANNER_AT_ARCS + (state) * SWARMBANNER_ARC_ROW + (message))

static const struct damage damages[] = {
    {"no machines", SWARMBANNER_AT_COUNTS, 0},
    {"two machines, of which one has no states", SWARMBANNER_AT_COUNTS, 2},
    {"five machines", SWARMBANNER_AT_COUNTS, 5},
    {"fewer queues", SWARMBANNER_AT_COUNTS + 1, 1},
    {"five queues", SWARMBANNER_AT_COUNTS + 1, 5},
    {"smaller sum", SWARMBANNER_AT_COUNTS + 2, 3},
    {"larger sum", SWARMBANNER_AT_COUNTS + 2, 5},
    {"fewer transitions", SWARMBANNER_AT_COUNTS + 3, 5},
    {"129 transitions", SWARMBANNER_AT_COUNTS + 3, 129},
    {"no pool states", SWARMBANNER_AT_COUNTS + 4, 0},
    {"fewer pool states", SWARMBANNER_AT_COUNTS + 4, 1},
    {"128 pool states", SWARMBANNER_AT_COUNTS + 4, 128},
    {"fewer bad entries", SWARMBANNER_AT_COUNTS + 5, 1},
    {"65 bad entries", SWARMBANNER_AT_COUNTS + 5, 65},
    {"machine of no states", SWARMBANNER_AT_STATES, 0},
    {"machine of 17 states", SWARMBANNER_AT_STATES, 17},
    {"states beyond the machines", SWARMBANNER_AT_STATES + 1, 1},
    {"start past the states", SWARMBANNER_AT_STARTS, 3},
    {"start beyond the machines", SWARMBANNER_AT_STARTS + 3, 1},
    {"queue of no messages", SWARMBANNER_AT_MESSAGES, 0},
    {"queue of 33 messages", SWARMBANNER_AT_MESSAGES + 1, 33},
    {"messages beyond the queues", SWARMBANNER_AT_MESSAGES + 2, 1},
    {"machine of a transition", ROW(0), 1},
    {"from-state", ROW(0) + 1, 3},
    {"to-state", ROW(6) + 2, 3},
    {"no kind", ROW(0) + 3, 3},
    {"local with a word", ROW(0) + 3, 0},
    {"local with a queue", ROW(5) + 4, 1},
    {"local with a word length", ROW(5) + 5, 1},
    {"local with a message", ROW(5) + SWARMBANNER_TRANSITION_WORD, 1},
    {"no queue", ROW(0) + 4, 2},
    {"another queue", ROW(0) + 4, 1},
    {"word of 17", ROW(0) + 5, 17},
    {"shorter word", ROW(0) + 5, 1},
    {"message past the sum", ROW(0) + SWARMBANNER_TRANSITION_WORD, 4},
    {"message of another queue", ROW(0) + SWARMBANNER_TRANSITION_WORD + 1, 2},
    {"message beyond the word", ROW(0) + SWARMBANNER_TRANSITION_WORD + 2, 1},
    {"last message beyond the word", ROW(0) + SWARMBANNER_TRANSITION_ROW - 1, 1},
    {"transition beyond them", ROW(7) + 2, 1},
    {"end of the transitions", SWARMBANNER_AT_FINALS - 1, 1},
    {"final mark 2", SWARMBANNER_AT_FINALS, 2},
    {"final mark beyond the pool", SWARMBANNER_AT_FINALS + 2, 1},
    {"end of the final marks", SWARMBANNER_AT_ARCS - 1, 1},
    {"target past the pool", ARC(0, 1), 3},
    {"arc past the messages", ARC(0, 4), 1},
    {"arc at the last message", ARC(1, 31), 1},
    {"arc out of queue order", ARC(1, 0), 1},
    {"arc beyond the pool", ARC(2, 0), 1},
    {"end of the arcs", SWARMBANNER_AT_ROOTS - 1, 1},
    {"root past the pool", SWARMBANNER_AT_ROOTS + 1, 3},
    {"root beyond the control states", SWARMBANNER_AT_ROOTS + 3, 1},
    {"end of the roots", SWARMBANNER_AT_BAD - 1, 1},
    {"bad control state", SWARMBANNER_AT_BAD, 3},
    {"bad root past the pool", SWARMBANNER_AT_BAD + 3, 2},
    {"bad entry beyond them", SWARMBANNER_AT_BAD + 4, 1},
    {"end of the bad entries", SWARMBANNER_SPACE_LEAST - 1, 1},
};

/* Of D, whose queues start empty: queue 1 has messages 2 and 3. */
static const struct damage empty_damages[] = {
    {"message in an empty queue at the start", CONTENTS(0), 1},
    {"message of another queue at the start", SWARMBANNER_AT_LENGTHS + 1, 1},
};

/* Of DS, which starts with 1 0 1 in queue 0 and 3 in queue 1. */
static const struct damage starting_damages[] = {
    {"nine messages at the start", SWARMBANNER_AT_LENGTHS, 9},
    {"255 messages at the start", SWARMBANNER_AT_LENGTHS + 1, 255},
    {"fewer messages at the start", SWARMBANNER_AT_LENGTHS, 2},
    {"no messages at the start", SWARMBANNER_AT_LENGTHS + 1, 0},
    {"more messages at the start, of another queue", SWARMBANNER_AT_LENGTHS + 1, 2},
    {"length beyond the queues", SWARMBANNER_AT_LENGTHS + 2, 1},
    {"last length", SWARMBANNER_AT_LENGTHS + 3, 1},
    {"message of the start past the sum", CONTENTS(0), 4},
    {"message of the start of a later queue", CONTENTS(0) + 2, 2},
    {"message of the start of an earlier queue", CONTENTS(1), 1},
    {"message beyond a starting length", CONTENTS(0) + 3, 1},
    {"last message beyond a starting length", CONTENTS(1) - 1, 1},
    {"message beyond the last starting length", CONTENTS(1) + 1, 2},
    {"message at the start beyond the queues", CONTENTS(2), 1},
    {"end of the starting contents", SWARMBANNER_AT_TRANSITIONS - 1, 1},
};

/* No file has these tables, which is told before a buffer that is too short. */
static void damaged_tables(const char *name, const char *text, const struct damage *list, size_t count)
{
    static uint8_t tables[SWARMBANNER_SPACE_LEAST];
    struct lengths n = plenty();
    size_t i, length;
    const uint8_t *file = hex(text, &length);

    expect(read_into(tables, file, length), "read", name);
    for (i = 0; i < count; i++) {
        const struct damage *d = &list[i];
        uint8_t before = tables[d->place];

        tables[d->place] = d->entry;
        for (n.buffer = 0; n.buffer <= SWARMBANNER_FILE_MOST; n.buffer += SWARMBANNER_FILE_MOST) {
            expect(call_write(tables, sizeof tables, n) == SWARMBANNER_REFUSED && replied(16, 0, 0), "no file", d->name);
            expect(lend_kept(&buffer_lend), "the buffer is kept", d->name);
        }
        tables[d->place] = before;
    }
}

/* Either these tables are refused by 16 and the buffer is kept, or what is written is read into them. */
static int is_honest(const uint8_t *tables, unsigned long *written)
{
    static uint8_t file[SWARMBANNER_FILE_MOST];
    size_t length, kind = call_write(tables, SWARMBANNER_SPACE_LEAST, least);

    if (kind == SWARMBANNER_REFUSED)
        return replied(16, 0, 0) && lend_kept(&buffer_lend);
    memcpy(&length, lend_at(&reply_lend), sizeof length);
    if (kind != SWARMBANNER_WRITTEN || !replied(length, 0, 0) || length > sizeof file ||
        !lend_kept_from(&buffer_lend, length))
        return 0;
    ++*written;
    memcpy(file, lend_at(&buffer_lend), length);
    return call_read(lend_copy(&file_lend, file, length), length, least) == SWARMBANNER_READ &&
           memcmp(lend_at(&space_lend), tables, SWARMBANNER_SPACE_LEAST) == 0;
}

/*
 * Of the tables of D with one entry that is one more or one less, so many are those of a file: counts, states and starts give
 * 5, starting contents 1, as queue 0 may start with message 0, transitions 36, final marks 2, arcs 4, roots 6, bad entries 5.
 * Of those of DS starting contents give 5: a fourth message, which is 0, and another one in the place of each of the four.
 */
#define AS_GOOD 59
#define AS_GOOD_STARTING 63

static void every_byte(const char *name, const char *text, unsigned long as_good)
{
    static uint8_t tables[SWARMBANNER_SPACE_LEAST];
    unsigned long written = 0;
    int is_all_honest = 1;
    size_t place, length;
    const uint8_t *file = hex(text, &length);

    expect(read_into(tables, file, length), "read", name);
    for (place = 0; place < sizeof tables; place++) {
        uint8_t before = tables[place];

        tables[place] = (uint8_t)(before + 1);
        is_all_honest &= is_honest(tables, &written);
        tables[place] = (uint8_t)(before - 1);
        is_all_honest &= is_honest(tables, &written);
        tables[place] = before;
    }
    expect(is_all_honest, "what is written is read into the same tables", name);
    expect(written == as_good, "as many as there are are written", name);
}

static void writing(void)
{
    static const uint8_t head[] = {1, 1, 0, 1, 1, 128, 1}, end[] = {1, 1, 0, 1, 0};
    static uint8_t bytes[sizeof head + 4 * SWARMBANNER_TRANSITIONS_MOST + sizeof end];

    write_text("M", M);
    write_text("MS", MS);
    write_text("D", D);
    write_text("DS", DS);
    write_text("control states of two bytes", K);
    memcpy(bytes, head, sizeof head);
    memcpy(bytes + sizeof bytes - sizeof end, end, sizeof end);
    write_back("128 transitions", bytes, sizeof bytes);
    longest_file();
    both_forms();
    lengths_of_tables();
    damaged_tables("D", D, damages, sizeof damages / sizeof *damages);
    damaged_tables("D", D, empty_damages, sizeof empty_damages / sizeof *empty_damages);
    damaged_tables("DS", DS, damages, sizeof damages / sizeof *damages);
    damaged_tables("DS", DS, starting_damages, sizeof starting_damages / sizeof *starting_damages);
    every_byte("every byte of D", D, AS_GOOD);
    every_byte("every byte of DS", DS, AS_GOOD_STARTING);
}

#endif
