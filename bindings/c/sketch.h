/*
 * The diagram of an expression in the plainest way: the text is made into a tree, and as a word is read, marks move over the
 * numbers of the tree from those that were read last to those that can be read next.
 */
#ifndef SKETCH_H
#define SKETCH_H

#include "swarmbanner.h"

#include <string.h>

/* More nodes than a text of 256 bytes gives. */
#define SKETCH_NODES 1024

enum sketch_kind { SKETCH_EMPTY, SKETCH_NUMBER, SKETCH_BOTH, SKETCH_EITHER, SKETCH_STAR };

struct sketch_node {
    enum sketch_kind kind;
    size_t left, right;
    unsigned value;
    int is_marked;
};

struct sketch {
    const uint8_t *text;
    size_t length, at; /* the next byte */
    int is_stuck;      /* no expression goes on so */
    size_t depth, numbers, number, place; /* groups that are open, numbers so far, and the leftmost refusal, 0 for none */
    size_t count, root, of_number[SWARMBANNER_OCCURRENCES_MOST];
    struct sketch_node nodes[SKETCH_NODES];
};

static size_t sketch_add(struct sketch *s, enum sketch_kind kind, size_t left, size_t right)
{
    struct sketch_node node = {kind, left, right, 0, 0};

    s->nodes[s->count] = node;
    return s->count++;
}

static int sketch_is_next(const struct sketch *s, char sign)
{
    return s->at < s->length && s->text[s->at] == (uint8_t)sign;
}

static int sketch_is_digit(const struct sketch *s)
{
    return s->at < s->length && s->text[s->at] >= '0' && s->text[s->at] <= '9';
}

static void sketch_skip_spaces(struct sketch *s)
{
    while (sketch_is_next(s, ' '))
        s->at++;
}

static void sketch_offend(struct sketch *s, size_t number, size_t place)
{
    if (s->number > 0)
        return;
    s->number = number;
    s->place = place;
}

static size_t sketch_number(struct sketch *s)
{
    size_t first = s->at, node = sketch_add(s, SKETCH_NUMBER, 0, 0);
    unsigned value = 0;

    for (; sketch_is_digit(s); s->at++) {
        if (s->at > first && s->text[first] == '0') {
            s->is_stuck = 1;
            return node;
        }
        value = value < SWARMBANNER_MESSAGES_MOST ? value * 10 + s->text[s->at] - '0' : value;
    }
    if (value >= SWARMBANNER_MESSAGES_MOST)
        sketch_offend(s, SWARMBANNER_REFUSED_RANGE, first);
    if (s->numbers == SWARMBANNER_OCCURRENCES_MOST)
        sketch_offend(s, SWARMBANNER_REFUSED_OCCURRENCES, first);
    else
        s->of_number[s->numbers++] = node;
    s->nodes[node].value = value;
    return node;
}

static size_t sketch_alternatives(struct sketch *s);

static size_t sketch_group(struct sketch *s)
{
    size_t inside;

    if (s->depth >= SWARMBANNER_DEPTH_MOST)
        sketch_offend(s, SWARMBANNER_REFUSED_DEPTH, s->at);
    s->at++;
    s->depth++;
    inside = sketch_alternatives(s);
    s->depth--;
    if (!s->is_stuck && sketch_is_next(s, ')'))
        s->at++;
    else
        s->is_stuck = 1;
    return inside;
}

static size_t sketch_alternative(struct sketch *s)
{
    size_t all = sketch_add(s, SKETCH_EMPTY, 0, 0), item;

    for (;;) {
        sketch_skip_spaces(s);
        if (s->is_stuck || (!sketch_is_digit(s) && !sketch_is_next(s, '(')))
            return all;
        item = sketch_is_digit(s) ? sketch_number(s) : sketch_group(s);
        if (s->is_stuck)
            return all;
        sketch_skip_spaces(s);
        if (sketch_is_next(s, '*')) {
            s->at++;
            item = sketch_add(s, SKETCH_STAR, item, 0);
        }
        all = sketch_add(s, SKETCH_BOTH, all, item);
    }
}

static size_t sketch_alternatives(struct sketch *s)
{
    size_t all = sketch_alternative(s);

    while (!s->is_stuck && sketch_is_next(s, '|')) {
        s->at++;
        all = sketch_add(s, SKETCH_EITHER, all, sketch_alternative(s));
    }
    return all;
}

/* Is the empty word one of a node's? */
static int sketch_skips(const struct sketch *s, size_t at)
{
    const struct sketch_node *node = &s->nodes[at];

    switch (node->kind) {
    case SKETCH_BOTH: return sketch_skips(s, node->left) && sketch_skips(s, node->right);
    case SKETCH_EITHER: return sketch_skips(s, node->left) || sketch_skips(s, node->right);
    default: return node->kind != SKETCH_NUMBER;
    }
}

/* Can a word of a node end with what is marked? */
static int sketch_ends(const struct sketch *s, size_t at)
{
    const struct sketch_node *node = &s->nodes[at];

    switch (node->kind) {
    case SKETCH_NUMBER: return node->is_marked;
    case SKETCH_BOTH:
        return sketch_ends(s, node->right) || (sketch_ends(s, node->left) && sketch_skips(s, node->right));
    case SKETCH_EITHER: return sketch_ends(s, node->left) || sketch_ends(s, node->right);
    case SKETCH_STAR: return sketch_ends(s, node->left);
    default: return 0;
    }
}

/* Marks what a message can be read as next: after what is marked, and where the node can begin now. */
static void sketch_read(struct sketch *s, size_t at, int begins, unsigned message)
{
    struct sketch_node *node = &s->nodes[at];

    switch (node->kind) {
    case SKETCH_NUMBER: node->is_marked = begins && node->value == message; break;
    case SKETCH_BOTH:
        sketch_read(s, node->right, (begins && sketch_skips(s, node->left)) || sketch_ends(s, node->left), message);
        sketch_read(s, node->left, begins, message);
        break;
    case SKETCH_EITHER:
        sketch_read(s, node->left, begins, message);
        sketch_read(s, node->right, begins, message);
        break;
    case SKETCH_STAR: sketch_read(s, node->left, begins || sketch_ends(s, node->left), message); break;
    default: break;
    }
}

/* What is marked, as a number, and from such a number. */
static uint32_t sketch_marks(const struct sketch *s)
{
    uint32_t marks = 0;
    size_t i;

    for (i = 0; i < s->numbers; i++)
        marks |= (uint32_t)s->nodes[s->of_number[i]].is_marked << i;
    return marks;
}

static void sketch_mark(struct sketch *s, uint32_t marks)
{
    size_t i;

    for (i = 0; i < s->numbers; i++)
        s->nodes[s->of_number[i]].is_marked = (int)(marks >> i & 1);
}

/* Fills the pool; returns the number of its states, or 0 where there are too many. */
static size_t sketch_pool(struct sketch *s, uint8_t *pool)
{
    uint32_t marks, states[SWARMBANNER_POOL_STATES_MOST] = {0};
    size_t count = 1, state, target;
    unsigned message;

    memset(pool, 0, SWARMBANNER_POOL_LEAST);
    for (state = 0; state < count; state++) {
        sketch_mark(s, states[state]);
        pool[state] = (uint8_t)(state == 0 ? sketch_skips(s, s->root) : sketch_ends(s, s->root));
        for (message = 0; message < SWARMBANNER_MESSAGES_MOST; message++) {
            sketch_mark(s, states[state]);
            sketch_read(s, s->root, state == 0, message);
            marks = sketch_marks(s);
            if (marks == 0)
                continue;
            for (target = 1; target < count && states[target] != marks;)
                target++;
            if (target == SWARMBANNER_POOL_STATES_MOST)
                return 0;
            if (target == count)
                states[count++] = marks;
            pool[SWARMBANNER_POOL_STATES_MOST + state * SWARMBANNER_ARC_ROW + message] = (uint8_t)(1 + target);
        }
    }
    return count;
}

/* What is to be replied to a text, where there is room, and the pool that goes with it. Returns the kind. */
static size_t sketch_expression(const uint8_t *text, size_t length, uint8_t *pool, size_t *reply)
{
    static struct sketch s;

    memset(&s, 0, sizeof s);
    s.text = text;
    s.length = length;
    if (length > SWARMBANNER_TEXT_MOST) {
        sketch_offend(&s, SWARMBANNER_REFUSED_TEXT_LONG, SWARMBANNER_TEXT_MOST);
    } else {
        s.root = sketch_alternatives(&s);
        if (s.is_stuck || s.at < length) {
            s.number = SWARMBANNER_REFUSED_GRAMMAR;
            s.place = s.at;
        }
    }
    memset(reply, 0, SWARMBANNER_REPLY_LEAST * sizeof *reply);
    if (s.number == 0)
        reply[1] = sketch_pool(&s, pool);
    if (reply[1] > 0)
        return SWARMBANNER_DRAWN;
    reply[0] = s.number > 0 ? s.number : SWARMBANNER_REFUSED_STATES;
    reply[1] = s.place;
    return SWARMBANNER_REFUSED;
}

#endif
