/*
 * Diagrams of expressions, as the header promises them: states worked out by hand, each refusal, short texts of every kind beside
 * a plain drawing, and what is done to lent memory.
 */
#ifndef TEST_EXPRESSION_H
#define TEST_EXPRESSION_H

#include "calls.h"
#include "files.h"
#include "sketch.h"

/* Of 121 states and 17 numbers; each 2 that follows is one state more. */
#define LARGE "(0|1)*1(0|1)(0|1)1(0|1)(0|1)0*1 1(0|1)*"

#define EIGHT "0 0 0 0 0 0 0 0 "
#define MANY EIGHT EIGHT EIGHT EIGHT /* thirty-two numbers in 64 bytes */
#define SPACES16 "                "
#define SPACES64 SPACES16 SPACES16 SPACES16 SPACES16

struct drawing {
    const char *text, *field; /* field 4 of a session file */
};

static const struct drawing drawings[] = {
    {"", "01 01 00"},
    {"   ", "01 01 00"},
    {"|", "01 01 00"},
    {"()", "01 01 00"},
    {"( () | )*", "01 01 00"},
    {SPACES64 SPACES64 SPACES64 SPACES64, "01 01 00"},
    {"0", "02 00 01 00 01 01 00"},
    {"31", "02 00 01 1f 01 01 00"},
    {" 7 ", "02 00 01 07 01 01 00"},
    /* the start is a state of its own, and so is each number */
    {"0*", "02 01 01 00 01 01 01 00 01"},
    {"0 *", "02 01 01 00 01 01 01 00 01"},
    {"(0*)*", "02 01 01 00 01 01 01 00 01"},
    {"(|0)*", "02 01 01 00 01 01 01 00 01"},
    {"0 0*", "03 00 01 00 01 01 01 00 02 01 01 00 02"},
    /* two numbers that are read at once are one state */
    {"0|0", "02 00 01 00 01 01 00"},
    {"(0|1)* 2", "04 00 03 00 01 01 02 02 03 00 03 00 01 01 02 02 03 00 03 00 01 01 02 02 03 01 00"},
    {"(0|1)*0 2", "04 00 02 00 01 01 02 00 03 00 01 01 02 02 03 00 02 00 01 01 02 01 00"},
    /* a whole run of digits is one number */
    {"12", "02 00 01 0c 01 01 00"},
    {"1 2", "03 00 01 01 01 00 01 02 02 01 00"},
    {"(1)(2)", "03 00 01 01 01 00 01 02 02 01 00"},
    {"10*20*", "03 01 02 0a 01 14 02 01 02 0a 01 14 02 01 01 14 02"},
    {"0|1", "03 00 02 00 01 01 02 01 00 01 00"},
    {"0|1 2", "04 00 02 00 01 01 02 01 00 00 01 02 03 01 00"},
    /* numbered by the lowest words */
    {"1 0|0 1", "05 00 02 00 01 01 02 00 01 01 03 00 01 00 04 01 00 01 00"},
    {"2 1|1 0|0 2", "07 00 03 00 01 01 02 02 03 00 01 02 04 00 01 00 05 00 01 01 06 01 00 01 00 01 00"},
    {"0 0|0 1", "04 00 01 00 01 00 02 00 02 01 03 01 00 01 00"},
    {"(|0)(|1)", "03 01 02 00 01 01 02 01 01 01 02 01 00"},
    {"((0|1)2*)*", "04 01 02 00 01 01 02 01 03 00 01 01 02 02 03 01 03 00 01 01 02 02 03 01 03 00 01 01 02 02 03"},
    {"((((((((0))))))))", "02 00 01 00 01 01 00"},
    {"((((((((0)*)*)*)*)*)*)*)*", "02 01 01 00 01 01 01 00 01"},
};

#define DRAWINGS (sizeof drawings / sizeof *drawings)

/* The pool that a field 4 says, in which each number has one byte. */
static void pool_of(const uint8_t *field, uint8_t *pool)
{
    size_t states = *field++, state, arcs;

    memset(pool, 0, SWARMBANNER_POOL_LEAST);
    for (state = 0; state < states; state++) {
        pool[state] = *field++;
        for (arcs = *field++; arcs > 0; arcs--, field += 2)
            pool[SWARMBANNER_POOL_STATES_MOST + state * SWARMBANNER_ARC_ROW + field[0]] = (uint8_t)(1 + field[1]);
    }
}

/* Is this the pool that was drawn, entries beyond its states among it, and is the rest of what was lent kept? */
static int is_drawn(const uint8_t *pool)
{
    return memcmp(lend_at(&pool_lend), pool, SWARMBANNER_POOL_LEAST) == 0 &&
           lend_kept_from(&pool_lend, SWARMBANNER_POOL_LEAST);
}

static void draw_case(const struct drawing *d, struct lengths n)
{
    static uint8_t pool[SWARMBANNER_POOL_LEAST];
    size_t length;
    const uint8_t *field = hex(d->field, &length);

    pool_of(field, pool);
    expect(call_expression((const uint8_t *)d->text, strlen(d->text), n) == SWARMBANNER_DRAWN, "drawn", d->text);
    expect(replied(0, field[0], 0), "root and states", d->text);
    expect(is_drawn(pool), "the pool, and the rest kept", d->text);
}

struct undrawn {
    const char *text;
    size_t number, place;
};

static const struct undrawn undrawns[] = {
    {"01", 19, 1},
    {"00", 19, 1},
    {"1 007", 19, 3},
    {"(", 19, 1},
    {"(0", 19, 2},
    {"(0|(1)", 19, 6},
    {"( ", 19, 2},
    {")", 19, 0},
    {"0)", 19, 1},
    {"(0))", 19, 3},
    {"*", 19, 0},
    {"(*", 19, 1},
    {"(*)", 19, 1},
    {"0|*", 19, 2},
    {"0**", 19, 2},
    {"0* *", 19, 3},
    {"(0)**", 19, 4},
    {"0+1", 19, 1},
    {"0\t1", 19, 1},
    {"0\n", 19, 1},
    {"x", 19, 0},
    {"-1", 19, 0},
    {"\xff", 19, 0},
    /* told before what passes a limit */
    {"32 01", 19, 4},
    {"(((((((((0))))))))", 19, 18},
    {"99999999999999999999999999 x", 19, 27},
    {MANY "0(", 19, 66},
    {"32", 5, 0},
    {"31 | 32", 5, 5},
    {"100", 5, 0},
    {"256", 5, 0},
    {"4294967296", 5, 0},
    {"18446744073709551616", 5, 0},
    {"0 33 34", 5, 2},
    {"(((((((((0)))))))))", 20, 8},
    {"((((((((0)(0)))))))) (((((((((0)))))))))", 20, 29},
    {"((((((((()))))))))", 20, 8},
    {MANY "0", 21, 64},
    {MANY "31*", 21, 64},
    {MANY "| (0)", 21, 67},
    /* the leftmost of them; 5 before 21 at the same place */
    {MANY "32", 5, 64},
    {MANY "0 32", 21, 64},
    {"32 " MANY "0", 5, 0},
    {"32(((((((((0)))))))))", 5, 0},
    {"(((((((((32)))))))))", 20, 8},
    {"(((((((((0))))))))) " MANY, 20, 8},
    {MANY "(((((((((0)))))))))", 20, 72},
    {MANY "((((((((0(0)))))))))", 21, 72},
    {LARGE " 2 2 2 2 2 2 2", 22, 0},
    {"(0|1)*0(0|1)(0|1)(0|1)(0|1)(0|1)(0|1)", 22, 0},
    {SPACES64 SPACES64 SPACES64 SPACES64 " ", 18, 256},
    {SPACES64 SPACES64 SPACES64 SPACES64 "x", 18, 256},
    {"x" SPACES64 SPACES64 SPACES64 SPACES64 SPACES64, 18, 256},
    {"32 " SPACES64 SPACES64 SPACES64 SPACES64, 18, 256},
};

#define UNDRAWNS (sizeof undrawns / sizeof *undrawns)

static void refuse_case(const struct undrawn *u, struct lengths n)
{
    expect(call_expression((const uint8_t *)u->text, strlen(u->text), n) == SWARMBANNER_REFUSED, "refused", u->text);
    expect(replied(u->number, u->place, 0), "number and place", u->text);
    expect(lend_kept(&pool_lend), "the pool is kept", u->text);
}

/* Without room nothing is written, whatever the text. */
static void no_room_to_draw(const char *text)
{
    static const size_t pools[] = {0, 1, 127, SWARMBANNER_POOL_LEAST - 1};
    struct lengths n = plenty();
    size_t i, length = strlen(text);

    for (i = 0; i < sizeof pools / sizeof *pools; i++) {
        n.pool = pools[i];
        expect(call_expression((const uint8_t *)text, length, n) == SWARMBANNER_NO_ROOM, "no room for a pool", text);
        expect(lend_kept(&pool_lend) && lend_kept(&reply_lend), "a short pool and the reply are kept", text);
    }
    n.pool = SWARMBANNER_POOL_LEAST;
    for (n.reply = 0; n.reply < SWARMBANNER_REPLY_LEAST; n.reply++) {
        expect(call_expression((const uint8_t *)text, length, n) == SWARMBANNER_NO_ROOM, "no room for a reply", text);
        expect(lend_kept(&pool_lend) && lend_kept(&reply_lend), "the pool and a short reply are kept", text);
    }
}

/* Is a text answered as the plain drawing says? */
static int is_as_sketched(const uint8_t *text, size_t length)
{
    static uint8_t pool[SWARMBANNER_POOL_LEAST];
    size_t reply[SWARMBANNER_REPLY_LEAST], kind = sketch_expression(text, length, pool, reply);

    if (call_expression(text, length, least) != kind || !replied(reply[0], reply[1], reply[2]))
        return 0;
    return kind == SWARMBANNER_REFUSED ? lend_kept(&pool_lend) : is_drawn(pool);
}

/* All texts of up to four of these signs, and each of them before, in and after a longer one. */
static void every_short_text(void)
{
    static const char signs[] = "0 1|()*3x", around[] = "(0|1)*2";
    const size_t count = sizeof signs - 1, middle = 3;
    size_t length, number, texts = 1, rest, i;
    int is_all = 1;

    for (length = 0; length <= 4; length++, texts *= count)
        for (number = 0; number < texts; number++) {
            uint8_t text[16];

            for (i = 0, rest = number; i < length; i++, rest /= count)
                text[i] = (uint8_t)signs[rest % count];
            is_all &= is_as_sketched(text, length);
            memcpy(text + length, around, sizeof around);
            is_all &= is_as_sketched(text, length + sizeof around - 1);
            memmove(text + middle, text, length);
            memcpy(text, around, middle);
            memcpy(text + middle + length, around + middle, sizeof around - middle);
            is_all &= is_as_sketched(text, length + sizeof around - 1);
        }
    expect(is_all, "as drawn in the plainest way", "every short text");
}

/* Each byte by itself, and between two others. */
static void every_sign(void)
{
    int is_all = 1;
    unsigned byte;

    for (byte = 0; byte < 256; byte++) {
        uint8_t text[] = {'1', 0, '2'};

        text[1] = (uint8_t)byte;
        is_all &= is_as_sketched(text, 3) & is_as_sketched(text, 2) & is_as_sketched(text + 1, 1) & is_as_sketched(text + 1, 2);
    }
    expect(is_all, "as drawn in the plainest way", "every byte");
}

/* Texts with as much of something as there can be: the longest numbers, the most states, states of many numbers. */
static void large_texts(void)
{
    static const char *const texts[] = {
        LARGE " 2 2 2 2 2 2",
        LARGE " 2 2 2 2 2 (2|2|2|2|2|2|2|2|2|2)",
        MANY,
        "(0|1|2|3|4|5|6|7|8|9|10|11|12|13|14|15|16|17|18|19|20|21|22|23|24|25|26|27|28|29|30|31)*",
        "(0|0|0|0|0|0|0|0|0|0|0|0|0|0|0|0|0|0|0|0|0|0|0|0|0|0|0|0|0|0|0|0)*",
        "(|0)(|0)(|0)(|0)(|0)(|0)(|0)(|0)(|0)(|0)(|0)(|0)(|0)(|0)(|0)(|0)(|0)(|0)(|0)(|0)(|0)(|0)(|0)(|0)",
        "31 30 29 28 27 26 25 24 23 22 21 20 19 18 17 16 15 14 13 12 11 10 9 8 7 6 5 4 3 2 1 0",
    };
    size_t i;

    for (i = 0; i < sizeof texts / sizeof *texts; i++) {
        expect(is_as_sketched((const uint8_t *)texts[i], strlen(texts[i])), "as drawn in the plainest way", texts[i]);
        expect(call_expression((const uint8_t *)texts[i], strlen(texts[i]), plenty()) == SWARMBANNER_DRAWN, "drawn", texts[i]);
    }
    call_expression((const uint8_t *)texts[0], strlen(texts[0]), least);
    expect(replied(0, SWARMBANNER_POOL_STATES_MOST, 0), "as many states as there can be", texts[0]);
}

/* The pool of an expression, copied to the tables of a file: words of it are inside, and the file is written. */
static void drawn_and_written(void)
{
    static uint8_t tables[SWARMBANNER_SPACE_LEAST], file[64];
    static const char text[] = "|0|0 0";
    size_t length;
    const uint8_t *bytes = hex(R, &length);

    expect(call_read(bytes, length, least) == SWARMBANNER_READ, "read", "R");
    memcpy(tables, lend_at(&space_lend), sizeof tables);
    expect(call_expression((const uint8_t *)text, sizeof text - 1, least) == SWARMBANNER_DRAWN, "drawn", text);
    memcpy(tables + SWARMBANNER_AT_FINALS, lend_at(&pool_lend), SWARMBANNER_POOL_LEAST);
    tables[SWARMBANNER_AT_COUNTS + 4] = 3;
    expect(call_write(tables, sizeof tables, plenty()) == SWARMBANNER_WRITTEN && replied(35, 0, 0), "written", text);
    memcpy(file, lend_at(&buffer_lend), 35);
    expect(call_check(lend_copy(&file_lend, file, 35), 35, least) == SWARMBANNER_LEAVES && replied_four(0, 0, 2, 2), "leaves",
           text);
}

static void expressions(void)
{
    size_t i;

    for (i = 0; i < DRAWINGS; i++) {
        draw_case(&drawings[i], least);
        draw_case(&drawings[i], plenty());
        no_room_to_draw(drawings[i].text);
    }
    for (i = 0; i < UNDRAWNS; i++) {
        refuse_case(&undrawns[i], least);
        refuse_case(&undrawns[i], plenty());
        no_room_to_draw(undrawns[i].text);
    }
    every_short_text();
    every_sign();
    large_texts();
    drawn_and_written();
}

#endif
