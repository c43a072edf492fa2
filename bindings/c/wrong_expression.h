/* The faults of drawing: the text is read wrongly, a limit is another one, the pool or the reply is spoiled. For `wrong.c`. */
#ifndef WRONG_EXPRESSION_H
#define WRONG_EXPRESSION_H

#include "wrong.h"

#define EXPRESSION_ARGUMENTS text, text_len, pool, pool_len, reply, reply_len
#define EXPRESSION_PARAMETERS \
    const uint8_t *text, size_t text_len, uint8_t *pool, size_t pool_len, size_t *reply, size_t reply_len
#define EXPRESSION(name) size_t name(EXPRESSION_PARAMETERS)

#define WRONG_ARCS SWARMBANNER_POOL_STATES_MOST /* where the arcs lie in a pool */

EXPRESSION(__real_swarmbanner_expression);
EXPRESSION(__wrap_swarmbanner_expression);

static int is_digit(uint8_t byte)
{
    return byte >= '0' && byte <= '9';
}

/* Where the number, counted from 0, begins, and where this many groups are open; the length where there is no such place. */
static size_t number_at(const uint8_t *text, size_t length, size_t number)
{
    size_t i;

    for (i = 0; i < length; i++)
        if (is_digit(text[i]) && (i == 0 || !is_digit(text[i - 1])) && number-- == 0)
            return i;
    return length;
}

static size_t depth_at(const uint8_t *text, size_t length, size_t wanted)
{
    size_t i, depth = 0;

    for (i = 0; i < length; i++) {
        depth += text[i] == '(';
        depth -= text[i] == ')' && depth > 0;
        if (depth == wanted)
            return i;
    }
    return length;
}

static void put_in_place(uint8_t *text, size_t length, char from, char to)
{
    size_t i;

    for (i = 0; i < length; i++)
        if (text[i] == (uint8_t)from)
            text[i] = (uint8_t)to;
}

/* Changes a text before it is read: what is one thing is another, or nothing. */
static size_t misread(uint8_t *text, size_t length)
{
    size_t i;

    if (FAULT == 73)
        put_in_place(text, length, '\t', ' ');
    if (FAULT == 74)
        put_in_place(text, length, '|', ' ');
    if (FAULT == 75)
        put_in_place(text, length, '*', ' ');
    /* spaces inside a number */
    for (i = 1; FAULT == 76 && i + 1 < length; i++)
        if (text[i] == ' ' && is_digit(text[i - 1]) && is_digit(text[i + 1])) {
            memmove(text + i, text + i + 1, length - i - 1);
            length--;
        }
    /* one byte more than there may be */
    if (FAULT == 77 && length == SWARMBANNER_TEXT_MOST + 1)
        length--;
    return length;
}

static void blank_group(uint8_t *text, size_t length, size_t place)
{
    size_t depth = 1;

    text[place] = ' ';
    for (place++; place < length && depth > 0; place++) {
        depth += text[place] == '(';
        depth -= text[place] == ')';
    }
    text[place - 1] = ' ';
}

/* Puts right what a text was refused for. Returns its new length, or 0 where it is to be refused. */
static size_t mend_text(uint8_t *text, size_t length, size_t number, size_t place)
{
    int is_outside = number == SWARMBANNER_REFUSED_GRAMMAR, is_inside = is_outside && place < length;

    /* a second star, a leading zero, a group that is not closed */
    if (FAULT == 78 && is_inside && place > 0 && text[place] == '*') {
        text[place] = ' ';
        return length;
    }
    if (FAULT == 79 && is_inside && place > 0 && text[place - 1] == '0' && is_digit(text[place])) {
        text[place - 1] = ' ';
        return length;
    }
    if (FAULT == 80 && is_outside && place == length && length < SWARMBANNER_TEXT_MOST) {
        text[length] = ')';
        return length + 1;
    }
    /* a ninth level, a thirty-third number, message 32 */
    if (FAULT == 81 && number == SWARMBANNER_REFUSED_DEPTH) {
        blank_group(text, length, place);
        return length;
    }
    if (FAULT == 82 && number == SWARMBANNER_REFUSED_OCCURRENCES) {
        for (; place < length && is_digit(text[place]); place++)
            text[place] = ' ';
        return length;
    }
    if (FAULT == 83 && number == SWARMBANNER_REFUSED_RANGE && length - place >= 2 && memcmp(text + place, "32", 2) == 0 &&
        (length - place == 2 || !is_digit(text[place + 2]))) {
        text[place + 1] = '1';
        return length;
    }
    /* a number by its lower eight bits */
    if (FAULT == 84 && number == SWARMBANNER_REFUSED_RANGE && length - place >= 3 && memcmp(text + place, "256", 3) == 0) {
        memcpy(text + place, "  0", 3);
        return length;
    }
    return 0;
}

/* The number of a refusal of what is drawn, or 0, and its place: limits that come too early. */
static size_t overstrict(const uint8_t *text, size_t length, const size_t *reply, size_t *place)
{
    size_t ninth = 0, i;

    *place = 0;
    if (FAULT == 85 && length == SWARMBANNER_TEXT_MOST)
        return SWARMBANNER_REFUSED_TEXT_LONG;
    if (FAULT == 86 && reply[1] == SWARMBANNER_POOL_STATES_MOST)
        return SWARMBANNER_REFUSED_STATES;
    *place = depth_at(text, length, SWARMBANNER_DEPTH_MOST);
    if (FAULT == 87 && *place < length)
        return SWARMBANNER_REFUSED_DEPTH;
    /* groups beside each other are counted too */
    for (*place = length, i = 0; i < length; i++)
        if (text[i] == '(' && ninth++ == SWARMBANNER_DEPTH_MOST)
            *place = i;
    if (FAULT == 88 && *place < length)
        return SWARMBANNER_REFUSED_DEPTH;
    *place = number_at(text, length, SWARMBANNER_OCCURRENCES_MOST - 1);
    if (FAULT == 89 && *place < length)
        return SWARMBANNER_REFUSED_OCCURRENCES;
    *place = 0;
    if (FAULT == 90 && (length == 0 || text[0] == '|'))
        return SWARMBANNER_REFUSED_GRAMMAR;
    return 0;
}

/* Tells another number or place than that of the refusal. */
static void misplace(const uint8_t *text, size_t length, size_t *reply)
{
    size_t deep = depth_at(text, length, SWARMBANNER_DEPTH_MOST + 1);
    int is_outside = reply[0] == SWARMBANNER_REFUSED_GRAMMAR;

    if (FAULT == 91 && reply[0] == SWARMBANNER_REFUSED_TEXT_LONG)
        reply[1] = length;
    if (FAULT == 92 && is_outside && reply[1] > 0)
        reply[1]--;
    if (FAULT == 93 && is_outside && reply[1] == length)
        reply[1] = 0;
    if (FAULT == 94 && reply[0] == SWARMBANNER_REFUSED_STATES)
        reply[1] = length;
    /* the thirty-third number by 21, be it as large as it is; a ninth level wherever it is; 5 before 19 */
    if (FAULT == 95 && reply[0] == SWARMBANNER_REFUSED_RANGE &&
        reply[1] == number_at(text, length, SWARMBANNER_OCCURRENCES_MOST))
        reply[0] = SWARMBANNER_REFUSED_OCCURRENCES;
    if (FAULT == 96 && (reply[0] == SWARMBANNER_REFUSED_RANGE || reply[0] == SWARMBANNER_REFUSED_OCCURRENCES) && deep < length) {
        reply[0] = SWARMBANNER_REFUSED_DEPTH;
        reply[1] = deep;
    }
    if (FAULT == 97 && is_outside && length > 1 && text[0] == '3' && text[1] == '2') {
        reply[0] = SWARMBANNER_REFUSED_RANGE;
        reply[1] = 0;
    }
}

/* Numbers the states anew, as `order` has them. */
static void renumber(uint8_t *pool, size_t states, const size_t *order)
{
    uint8_t before[SWARMBANNER_POOL_LEAST];
    size_t to[SWARMBANNER_POOL_STATES_MOST], i, message;

    memcpy(before, pool, sizeof before);
    for (i = 0; i < states; i++)
        to[order[i]] = i;
    for (i = 0; i < states; i++) {
        pool[i] = before[order[i]];
        for (message = 0; message < SWARMBANNER_ARC_ROW; message++) {
            uint8_t arc = before[WRONG_ARCS + order[i] * SWARMBANNER_ARC_ROW + message];

            pool[WRONG_ARCS + i * SWARMBANNER_ARC_ROW + message] = (uint8_t)(arc > 0 ? 1 + to[arc - 1] : 0);
        }
    }
}

/* States as they are found by the highest message first, or by going on from the last one found. */
static void reorder(uint8_t *pool, size_t states)
{
    size_t order[SWARMBANNER_POOL_STATES_MOST] = {0}, count = 1, next = 0, message, i;
    uint8_t is_found[SWARMBANNER_POOL_STATES_MOST] = {1}, is_done[SWARMBANNER_POOL_STATES_MOST] = {0};

    while (next < count) {
        for (next = FAULT == 99 ? count - 1 : 0; next < count && is_done[order[next]];)
            next = FAULT == 99 ? (next == 0 ? count : next - 1) : next + 1;
        if (next == count)
            break;
        is_done[order[next]] = 1;
        for (i = 0; i < SWARMBANNER_ARC_ROW; i++) {
            uint8_t arc;

            message = FAULT == 98 ? SWARMBANNER_ARC_ROW - 1 - i : i;
            arc = pool[WRONG_ARCS + order[next] * SWARMBANNER_ARC_ROW + message];
            if (arc > 0 && !is_found[arc - 1]) {
                is_found[arc - 1] = 1;
                order[count++] = arc - 1u;
            }
        }
    }
    renumber(pool, states, order);
}

/* Makes one state of two that are alike, the later of which is the last one. Returns the number of states. */
static size_t merge(uint8_t *pool, size_t states, size_t first)
{
    uint8_t *arcs = pool + WRONG_ARCS, *last = arcs + (states - 1) * SWARMBANNER_ARC_ROW;
    size_t i, state;

    for (state = first; state + 1 < states; state++) {
        if (pool[state] != pool[states - 1] || memcmp(arcs + state * SWARMBANNER_ARC_ROW, last, SWARMBANNER_ARC_ROW) != 0)
            continue;
        for (i = 0; i < states * SWARMBANNER_ARC_ROW; i++)
            if (arcs[i] == states)
                arcs[i] = (uint8_t)(1 + state);
        memset(last, 0, SWARMBANNER_ARC_ROW);
        pool[states - 1] = 0;
        return states - 1;
    }
    return states;
}

static void spoil_pool(uint8_t *pool, size_t pool_len, size_t *reply)
{
    uint8_t *arcs = pool + WRONG_ARCS;
    size_t states = reply[1], entries = states * SWARMBANNER_ARC_ROW, i;

    if (FAULT == 98 || FAULT == 99)
        reorder(pool, states);
    /* the start with another state; two others */
    if (FAULT == 100 && states == 2)
        reply[1] = merge(pool, states, 0);
    if (FAULT == 101)
        reply[1] = merge(pool, states, 1);
    if (FAULT == 102)
        pool[0] = 0;
    if (FAULT == 103 && states > 1)
        pool[states - 1] ^= 1;
    /* an arc less; the target without the 1; an arc to the next message */
    for (i = entries; FAULT == 104 && i > 0 && arcs[i - 1] == 0;)
        i--;
    if (FAULT == 104 && i > 0)
        arcs[i - 1] = 0;
    for (i = 0; FAULT == 105 && i < entries; i++)
        arcs[i] -= arcs[i] > 0;
    if (FAULT == 106)
        memmove(arcs + 1, arcs, SWARMBANNER_POOL_LEAST - WRONG_ARCS - 1);
    /* beyond the states, after the pool, before it */
    if (FAULT == 107 && states < SWARMBANNER_POOL_STATES_MOST)
        pool[WRONG_ARCS - 1] = 1;
    if (FAULT == 108 && states < SWARMBANNER_POOL_STATES_MOST)
        pool[SWARMBANNER_POOL_LEAST - 1] = 1;
    if (FAULT == 109 && pool_len > SWARMBANNER_POOL_LEAST)
        pool[SWARMBANNER_POOL_LEAST] = 0;
    if (FAULT == 110)
        pool[-1] = 0;
    if (FAULT == 111)
        reply[0] = 1;
    if (FAULT == 112)
        reply[1]++;
    if (FAULT == 113)
        reply[2] = states;
}

/* What there is room for in a pool that is one byte short, or a refusal in the place of no room. */
static size_t make_room(EXPRESSION_PARAMETERS)
{
    static uint8_t room[SWARMBANNER_POOL_LEAST];
    size_t kind;

    if (reply_len < SWARMBANNER_REPLY_LEAST)
        return SWARMBANNER_NO_ROOM;
    if (FAULT == 114 && pool_len == SWARMBANNER_POOL_LEAST - 1) {
        kind = __real_swarmbanner_expression(text, text_len, room, sizeof room, reply, reply_len);
        if (kind == SWARMBANNER_DRAWN)
            memcpy(pool, room, pool_len);
        return kind;
    }
    if (FAULT == 115) {
        size_t kept[SWARMBANNER_REPLY_LEAST];

        memcpy(kept, reply, sizeof kept);
        if (__real_swarmbanner_expression(text, text_len, room, sizeof room, reply, reply_len) == SWARMBANNER_REFUSED)
            return SWARMBANNER_REFUSED;
        memcpy(reply, kept, sizeof kept);
    }
    return SWARMBANNER_NO_ROOM;
}

/* What is drawn of the text as it is misread. */
static size_t draw(EXPRESSION_PARAMETERS)
{
    static uint8_t other[SWARMBANNER_TEXT_MOST + 1];
    size_t kind, length = text_len, mended, place;

    if (text_len > sizeof other)
        return __real_swarmbanner_expression(EXPRESSION_ARGUMENTS);
    if (length > 0)
        memcpy(other, text, length);
    length = misread(other, length);
    do {
        kind = __real_swarmbanner_expression(other, length, pool, pool_len, reply, reply_len);
        mended = kind == SWARMBANNER_REFUSED ? mend_text(other, length, reply[0], reply[1]) : 0;
        length = mended > 0 ? mended : length;
    } while (mended > 0);
    if (kind != SWARMBANNER_DRAWN || FAULT < 85 || FAULT > 90)
        return kind;
    mended = overstrict(text, text_len, reply, &place);
    if (mended > 0) {
        reply[0] = mended;
        reply[1] = place;
        kind = SWARMBANNER_REFUSED;
    }
    return kind;
}

EXPRESSION(__wrap_swarmbanner_expression)
{
    struct lent_reply lent = reply_of(reply, reply_len, FAULT == 133);
    size_t kind;

    if (FAULT < 73 || FAULT > 121) {
        kind = __real_swarmbanner_expression(text, text_len, pool, pool_len, lent.at, lent.length);
        reply_after(&lent, kind, reply, FAULT == 139);
        return kind;
    }
    kind = draw(EXPRESSION_ARGUMENTS);
    if (kind == SWARMBANNER_DRAWN)
        spoil_pool(pool, pool_len, reply);
    if (kind == SWARMBANNER_REFUSED)
        misplace(text, text_len, reply);
    if (FAULT == 116 && kind == SWARMBANNER_REFUSED)
        pool[0] = 0;
    if (FAULT == 117 && kind == SWARMBANNER_REFUSED)
        reply[2] = 1;
    if (kind == SWARMBANNER_NO_ROOM)
        kind = make_room(EXPRESSION_ARGUMENTS);
    if (FAULT == 118 && kind == SWARMBANNER_NO_ROOM && pool_len > 0)
        pool[0] = 0;
    if (FAULT == 119 && kind == SWARMBANNER_NO_ROOM && reply_len > 0)
        reply[0] = 0;
    if (FAULT == 120 && kind != SWARMBANNER_NO_ROOM && reply_len > SWARMBANNER_REPLY_LEAST)
        reply[SWARMBANNER_REPLY_LEAST] = 0;
    /* the byte after the text */
    if (FAULT == 121 && text_len > 0 && ((const volatile uint8_t *)text)[text_len] == 0)
        return kind;
    return kind;
}

#endif
