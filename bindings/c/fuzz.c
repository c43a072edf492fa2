/*
 * One input: all six calls on it, held to each other and to the definitions, on memory as `lend.h` lends it.
 *
 * `fuzz.h` says what an input is. libFuzzer calls it, or `fuzz_loop.c`.
 */
#define _DEFAULT_SOURCE

#include "fuzz.h"
#include "lend.h"
#include "sketch.h"
#include "spell.h"
#include "swarmbanner.h"

#define MORE 40
#define CONTENTS_MOST 255
#define PAIRS_MOST 1066385472u
#define TRACE_ROOM (SWARMBANNER_TRACE_MOST + MORE)
#define TEXT_ROOM (2 * SWARMBANNER_TEXT_MOST + MORE)
#define MEMORY_ROOM (SWARMBANNER_QUEUES_MOST * SWARMBANNER_QUEUE_LEAST + MORE)

#define AFTER_ROOM (SWARMBANNER_CONTENTS_LEAST + MORE + SWARMBANNER_WORD_MOST)

static struct lend file_lend, asked_lend, after_lend, trace_lend, space_lend, seen_lend, queue_lend, contents_lend, memory_lend,
    record_lend, tables_lend, buffer_lend, text_lend, pool_lend, reply_lend;

#ifdef SWARMBANNER_LIBFUZZER
#include "generate_text.h"

/*
 * The library is not built for coverage. What a reply says stands in for it: an input that gets further into a file, or
 * to another kind of verdict, is kept and built upon.
 */
__attribute__((section("__libfuzzer_extra_counters"))) static uint8_t reached[8192];

size_t LLVMFuzzerMutate(uint8_t *data, size_t size, size_t most);
size_t LLVMFuzzerCustomMutator(uint8_t *data, size_t size, size_t most, unsigned seed);

/*
 * Nearly every change breaks a file. A small number in the place of another is the one most likely to leave a session. Now
 * and then file and text are new, with enough memory, no question and a pattern of four bytes.
 */
size_t LLVMFuzzerCustomMutator(uint8_t *data, size_t size, size_t most, unsigned seed)
{
    if (seed % 16 == 1 && most >= INPUT_HEAD + 4 + GENERATED_TEXT_MOST + GENERATED_MOST) {
        size_t text = generate_text(seed, data + INPUT_HEAD + 4);

        memset(data, 0, INPUT_HEAD);
        data[INPUT_PATTERN] = 4;
        data[INPUT_TRACE] = (uint8_t)(seed >> 8);
        data[INPUT_TEXT] = (uint8_t)text;
        data[INPUT_TEXT_HIGH] = (uint8_t)(text / 256);
        memcpy(data + INPUT_HEAD, &seed, 4);
        return INPUT_HEAD + 4 + text + generate_file(seed, data + INPUT_HEAD + 4 + text);
    }
    if (size <= INPUT_HEAD || seed % 4 == 0)
        return LLVMFuzzerMutate(data, size, most);
    data[seed / 4 % size] = (uint8_t)(seed >> 24) % 8;
    return size;
}

static void reach(size_t kind, size_t first, size_t second)
{
    /* One refused file in many is enough to build upon, and one length of a replay or of a file written. */
    if (kind == SWARMBANNER_REFUSED || kind == SWARMBANNER_STEP_REFUSED)
        second /= 64;
    if (kind == SWARMBANNER_END || kind == SWARMBANNER_LEFT || kind == SWARMBANNER_WRITTEN)
        first /= 64;
    reached[(kind * 911 + first * 131 + second) % sizeof reached] = 1;
}
#else
static void reach(size_t kind, size_t first, size_t second)
{
    (void)kind;
    (void)first;
    (void)second;
}
#endif

/* How often each kind of reply was met, so that a run that tries too little is seen to. */
static unsigned long met[SWARMBANNER_DRAWN + 1];

/* Of files with a word of sixteen: how often they were closed, and left by sending or receiving one (1 and 2). */
static unsigned long long_closed, long_left[3];

/* How a diagram loses contents, and how often it was so: after a step that leaves, where a trace leads outside, and asked about. */
enum { LOST_NO_ROOT, LOST_NO_ARC, LOST_NOT_FINAL, LOST_WAYS };
static unsigned long left_lost[LOST_WAYS], run_lost[LOST_WAYS], asked_lost[LOST_WAYS];

/*
 * Of files whose queues do not start empty: how often each verdict was met, and how often a replay began so. And how often one was
 * refused since all queues start empty.
 */
static unsigned long started[SWARMBANNER_BAD + 1], run_started, refused_empty;

/* How often a step was refused by each number, and how often a queue went round its bytes. */
static unsigned long step_refused[SWARMBANNER_REFUSED_FULL + 1], went_round;

/*
 * How often writing refused by each number, and how often tables that were changed are those of another file, also of one with
 * another start.
 */
static unsigned long write_refused[SWARMBANNER_REFUSED_BUFFER + 1], written_changed, start_changed;

/* How often drawing refused by each number, and the most states that were drawn. */
static unsigned long draw_refused[SWARMBANNER_REFUSED_STATES + 1], most_states;

static int has_met(unsigned long times, const char *what)
{
    if (times == 0)
        fprintf(stderr, "fuzz: never met: %s\n", what);
    return times > 0;
}

static int has_met_losses(const unsigned long *lost, const char *what)
{
    int all = lost[LOST_NO_ROOT] > 0 && lost[LOST_NO_ARC] > 0 && lost[LOST_NOT_FINAL] > 0;

    return has_met((unsigned long)all, what);
}

int fuzz_met_enough(void)
{
    return has_met(long_closed, "closed with a word of sixteen") & has_met(long_left[1], "left by sending sixteen") &
           has_met(long_left[2], "left by receiving sixteen") & has_met_losses(left_lost, "each loss by a step") &
           has_met_losses(run_lost, "each loss by a trace") & has_met_losses(asked_lost, "each loss of contents asked about") &
           has_met(met[SWARMBANNER_END], "a trace that ends") &
           has_met(met[SWARMBANNER_TRACE_REFUSED], "a trace too long") &
           has_met(met[SWARMBANNER_MEMORY_REFUSED], "queue memory too short") & has_met(step_refused[3], "step refused by 3") &
           has_met(step_refused[4], "step refused by 4") & has_met(step_refused[5], "step refused by 5") &
           has_met(step_refused[14], "step refused by 14") & has_met(step_refused[15], "step refused by 15") &
           has_met(went_round, "a queue that goes round") & has_met(met[SWARMBANNER_WRITTEN], "a file written") &
           has_met(write_refused[16], "tables refused by 16") & has_met(write_refused[17], "a buffer refused by 17") &
           has_met(written_changed, "tables changed and written") & has_met(start_changed, "another start written") &
           has_met(started[SWARMBANNER_CLOSED], "closed with messages at the start") &
           has_met(started[SWARMBANNER_OUTSIDE], "outside with messages at the start") &
           has_met(started[SWARMBANNER_LEAVES], "left with messages at the start") &
           has_met(started[SWARMBANNER_BAD], "bad with messages at the start") &
           has_met(run_started, "a replay from a start with messages") & has_met(refused_empty, "a file refused by 23") &
           has_met(met[SWARMBANNER_DRAWN], "an expression drawn") &
           has_met(most_states > 64, "a diagram of more than 64 states") & has_met(draw_refused[5], "a text refused by 5") &
           has_met(draw_refused[18], "a text refused by 18") & has_met(draw_refused[19], "a text refused by 19") &
           has_met(draw_refused[20], "a text refused by 20") & has_met(draw_refused[21], "a text refused by 21") &
           has_met(draw_refused[22], "a text refused by 22");
}

static void report(void)
{
    static const char *const names[] = {"closed", "outside", "leaves", "bad", "refused", "no room", "read", "yes", "no",
                                        "end", "left", "step refused", "trace refused", "memory refused", "written",
                                        "drawn"};
    size_t kind;

    for (kind = 0; kind <= SWARMBANNER_DRAWN; kind++)
        printf("%s %lu%s", names[kind], met[kind], kind < SWARMBANNER_DRAWN ? ", " : "\n");
    printf("words of %u: closed %lu, left by sending %lu, by receiving %lu\n", SWARMBANNER_WORD_MOST, long_closed,
           long_left[1], long_left[2]);
    printf("lost without a root, an arc, a final state: by steps that leave %lu %lu %lu, by traces %lu %lu %lu, asked %lu %lu %lu\n",
           left_lost[0], left_lost[1], left_lost[2], run_lost[0], run_lost[1], run_lost[2], asked_lost[0], asked_lost[1],
           asked_lost[2]);
    printf("steps refused: by 3 %lu, 4 %lu, 5 %lu, 14 %lu, 15 %lu; queues that went round %lu\n", step_refused[3],
           step_refused[4], step_refused[5], step_refused[14], step_refused[15], went_round);
    printf("with messages at the start: closed %lu, outside %lu, left %lu, bad %lu, replays %lu; none, and refused by 23 %lu\n",
           started[0], started[1], started[2], started[3], run_started, refused_empty);
    printf("tables changed and written %lu, with another start %lu; writing refused: by 16 %lu, 17 %lu\n", written_changed,
           start_changed, write_refused[16], write_refused[17]);
    printf("drawing refused: by 5 %lu, 18 %lu, 19 %lu, 20 %lu, 21 %lu, 22 %lu; most states %lu\n", draw_refused[5],
           draw_refused[18], draw_refused[19], draw_refused[20], draw_refused[21], draw_refused[22], most_states);
}

static void must(int holds, const char *what)
{
    if (!holds) {
        fprintf(stderr, "fuzz: %s\n", what);
        abort();
    }
}

struct told {
    size_t kind, number[SWARMBANNER_REPLY_LEAST];
};

static int same(const struct told *one, const struct told *other)
{
    return one->kind == other->kind && memcmp(one->number, other->number, sizeof one->number) == 0;
}

static int is(const struct told *told, size_t kind, size_t first, size_t second)
{
    return told->kind == kind && told->number[0] == first && told->number[1] == second && told->number[2] == 0 &&
           told->number[3] == 0;
}

/* How much is lent of what. Mostly enough; else one of them is one short, or much shorter. */
struct lengths {
    size_t space, seen, queue, contents, record, pool, reply;
    size_t memory_less, tables_less, buffer_less; /* than the queues of the file, the tables and the file want */
    size_t more;                                  /* than these */
};

static const struct lengths enough = {SWARMBANNER_SPACE_LEAST, SWARMBANNER_TABLE_LEAST, SWARMBANNER_TABLE_LEAST,
                                      SWARMBANNER_CONTENTS_LEAST, SWARMBANNER_RECORD_LEAST, SWARMBANNER_POOL_LEAST,
                                      SWARMBANNER_REPLY_LEAST, 0, 0, 0, 0};

static struct lengths lengths_of(uint8_t choice)
{
    struct lengths n = enough;
    size_t less = choice % 2 == 0 ? 1 : 3;
    size_t more = choice % MORE;

    switch (choice / 16) {
    case 6: n.pool -= less; break;
    case 7: n.tables_less = less; break;
    case 8: n.buffer_less = less; break;
    case 9: n.memory_less = less * 300; break;
    case 10: n.record -= less; break;
    case 11: n.space -= less; break;
    case 12: n.seen -= less; break;
    case 13: n.queue -= less; break;
    case 14: n.contents -= less; break;
    case 15: n.reply -= less; break;
    default:
        n.space += more;
        n.seen += more;
        n.queue += MORE - more;
        n.contents += more;
        n.record += more;
        n.pool += more;
        n.reply += more;
        n.more = more;
    }
    return n;
}

static int has_room(const struct lengths *n)
{
    return n->reply >= SWARMBANNER_REPLY_LEAST;
}

/* The numbers of a reply, once it is seen that there was room for them and that nothing else has changed. */
static struct told told_of(size_t kind, const struct lengths *n)
{
    struct told told = {kind, {0, 0, 0, 0}};

    must(kind <= SWARMBANNER_DRAWN, "no kind of reply");
    met[kind]++;
    if (!has_room(n)) {
        must(kind == SWARMBANNER_NO_ROOM, "a reply without room");
        must(lend_kept(&reply_lend), "a short reply was written to");
    } else if (kind != SWARMBANNER_NO_ROOM) {
        memcpy(told.number, lend_at(&reply_lend), sizeof told.number);
        must(lend_kept_from(&reply_lend, sizeof told.number), "the rest of the reply has changed");
    }
    return told;
}

static size_t *lend_reply(const struct lengths *n)
{
    return lend_bytes(&reply_lend, n->reply * sizeof(size_t));
}

/* The file of this input, and what was read from it. */
static const uint8_t *file;
static size_t file_len;
static uint8_t tables[SWARMBANNER_SPACE_LEAST];

/* Does some queue start with a message? */
static int resumes(void)
{
    return tables[SWARMBANNER_AT_LENGTHS] + tables[SWARMBANNER_AT_LENGTHS + 1] + tables[SWARMBANNER_AT_LENGTHS + 2] +
           tables[SWARMBANNER_AT_LENGTHS + 3] > 0;
}

/* Has the file the form with starting contents, and are all starting lengths 0? Up to these each number has one byte. */
static int starts_empty(void)
{
    size_t machines = file[0] - SWARMBANNER_MACHINES_MOST, at = 2 * machines + 1, queue;

    if (file[0] <= SWARMBANNER_MACHINES_MOST || file[0] > 2 * SWARMBANNER_MACHINES_MOST)
        return 0;
    for (queue = 0; queue < file[at]; queue++)
        if (file[at + 1 + file[at] + queue] != 0)
            return 0;
    return 1;
}

/* The first number of a file that is read is the machines, and 4 more just if messages wait at the start. */
static int is_of_its_form(void)
{
    return file[0] == tables[SWARMBANNER_AT_COUNTS] + (resumes() ? SWARMBANNER_MACHINES_MOST : 0u);
}

static struct told call_read(const struct lengths *n)
{
    uint8_t *space = lend_bytes(&space_lend, n->space);
    struct told told = told_of(swarmbanner_read(file, file_len, space, n->space, lend_reply(n), n->reply), n);

    if (n->space < SWARMBANNER_SPACE_LEAST) {
        must(told.kind == SWARMBANNER_NO_ROOM, "tables without room");
        must(lend_kept(&reply_lend), "a reply without room for the tables");
    } else if (has_room(n)) {
        must(told.kind == SWARMBANNER_READ || told.kind == SWARMBANNER_REFUSED, "reading neither reads nor refuses");
    }
    if (told.kind == SWARMBANNER_READ) {
        must(is(&told, SWARMBANNER_READ, 0, 0), "numbers that go with no reply");
        must(lend_kept_from(&space_lend, sizeof tables), "the rest of the space has changed");
        memcpy(tables, space, sizeof tables);
        must(is_of_its_form(), "another form, or other machines");
    } else {
        must(lend_kept(&space_lend), "the space has changed");
    }
    if (told.kind == SWARMBANNER_REFUSED && told.number[0] == SWARMBANNER_REFUSED_EMPTY) {
        must(told.number[1] == 0 && starts_empty(), "messages wait, and it is refused for a start without any");
        refused_empty++;
    }
    return told;
}

static struct told call_member(size_t control, const uint8_t *contents, size_t count, const struct lengths *n)
{
    const uint8_t *asked = lend_copy(&asked_lend, contents, count);

    return told_of(swarmbanner_member(file, file_len, control, asked, count, lend_reply(n), n->reply), n);
}

static size_t shown_of(const struct told *told)
{
    return told->kind == SWARMBANNER_LEAVES ? told->number[2] : told->kind == SWARMBANNER_BAD ? told->number[1] : 0;
}

static struct told call_check(const struct lengths *n)
{
    uint16_t *seen = lend_bytes(&seen_lend, n->seen * sizeof(uint16_t));
    uint16_t *queue = lend_bytes(&queue_lend, n->queue * sizeof(uint16_t));
    uint8_t *contents = lend_bytes(&contents_lend, n->contents);
    struct told told = told_of(swarmbanner_check(file, file_len, seen, n->seen, queue, n->queue, contents, n->contents,
                                                 lend_reply(n), n->reply), n);

    if (told.kind == SWARMBANNER_REFUSED || told.kind == SWARMBANNER_NO_ROOM) {
        must(lend_kept(&seen_lend) && lend_kept(&queue_lend) && lend_kept(&contents_lend), "memory has changed");
    } else {
        must(told.kind <= SWARMBANNER_BAD, "checking gives no verdict");
        must(lend_is_clear(&seen_lend) && lend_is_clear(&queue_lend), "a table is not 0 all over");
        must(shown_of(&told) <= n->contents, "more is shown than there is room for");
        must(lend_kept_from(&contents_lend, shown_of(&told)), "the rest of the contents buffer has changed");
    }
    return told;
}

/* What the tables mean, in the plainest way. */

static size_t control_states(void)
{
    size_t i, product = 1;

    for (i = 0; i < tables[SWARMBANNER_AT_COUNTS]; i++)
        product *= tables[SWARMBANNER_AT_STATES + i];
    return product;
}

static size_t queue_of(uint8_t message)
{
    size_t queue = 0, past = tables[SWARMBANNER_AT_MESSAGES];

    while (message >= past)
        past += tables[SWARMBANNER_AT_MESSAGES + ++queue];
    return queue;
}

static const uint8_t *row_of(size_t transition)
{
    return tables + SWARMBANNER_AT_TRANSITIONS + transition * SWARMBANNER_TRANSITION_ROW;
}

static int is_long(size_t transition)
{
    return row_of(transition)[5] == SWARMBANNER_WORD_MOST;
}

static int has_long_word(void)
{
    size_t i, count = tables[SWARMBANNER_AT_COUNTS + 3];

    for (i = 0; i < count; i++)
        if (is_long(i))
            return 1;
    return 0;
}

/*
 * How many messages lead on from this state, one after the other, or from nowhere for 0; the state is then where they lead to.
 * States are counted from 1 here.
 */
static size_t follow(size_t *state, const uint8_t *word, size_t length)
{
    size_t i, next;

    for (i = 0; i < length && *state > 0; i++) {
        next = tables[SWARMBANNER_AT_ARCS + (*state - 1) * SWARMBANNER_ARC_ROW + word[i]];
        if (next == 0)
            break;
        *state = next;
    }
    return i;
}

/* Does the word lead from this state, or from nowhere for 0, to a final one? */
static int accepts(size_t state, const uint8_t *word, size_t length)
{
    return follow(&state, word, length) == length && state > 0 && tables[SWARMBANNER_AT_FINALS + state - 1] == 1;
}

static int inside(size_t control, const uint8_t *word, size_t length)
{
    return accepts(tables[SWARMBANNER_AT_ROOTS + control], word, length);
}

/* How far the diagram of a control state takes a word. */
static size_t followed(size_t control, const uint8_t *word, size_t length)
{
    size_t state = tables[SWARMBANNER_AT_ROOTS + control];

    return follow(&state, word, length);
}

/* How a control state loses a word of this length that it does not have inside. */
static size_t loss(size_t control, size_t far, size_t length)
{
    if (tables[SWARMBANNER_AT_ROOTS + control] == 0)
        return LOST_NO_ROOT;
    return far < length ? LOST_NO_ARC : LOST_NOT_FINAL;
}

/* What membership must say of contents. */
static struct told expected_member(size_t control, const uint8_t *contents, size_t count)
{
    struct told told = {SWARMBANNER_REFUSED, {0, 0, 0, 0}};
    size_t i;

    if (control >= control_states()) {
        told.number[0] = SWARMBANNER_REFUSED_CONTROL;
        return told;
    }
    for (i = 0; i < count; i++) {
        told.number[1] = i;
        told.number[0] = SWARMBANNER_REFUSED_MESSAGE;
        if (contents[i] >= tables[SWARMBANNER_AT_COUNTS + 2])
            return told;
        told.number[0] = SWARMBANNER_REFUSED_EARLIER;
        if (i > 0 && queue_of(contents[i]) < queue_of(contents[i - 1]))
            return told;
    }
    told.number[0] = followed(control, contents, count);
    told.number[1] = 0;
    told.kind = inside(control, contents, count) ? SWARMBANNER_YES : SWARMBANNER_NO;
    return told;
}

/* The control state after a step, or the number of control states where the machine is not in the from-state. */
static size_t control_after(size_t control, const uint8_t *row)
{
    size_t weight = 1, machine, state;

    for (machine = tables[SWARMBANNER_AT_COUNTS] - 1u; machine > row[0]; machine--)
        weight *= tables[SWARMBANNER_AT_STATES + machine];
    state = control / weight % tables[SWARMBANNER_AT_STATES + machine];
    return state == row[1] ? control - state * weight + row[2] * weight : control_states();
}

/* The contents after a step, or 0 where a receive finds something else. */
static int contents_after(const uint8_t *row, const uint8_t *word, size_t length, uint8_t *after, size_t *after_length)
{
    size_t begins = 0, ends, sent = row[5];

    while (begins < length && queue_of(word[begins]) < row[4])
        begins++;
    for (ends = begins; ends < length && queue_of(word[ends]) == row[4];)
        ends++;
    *after_length = length;
    if (row[3] == 0) {
        memcpy(after, word, length);
    } else if (row[3] == 1) {
        memcpy(after, word, ends);
        memcpy(after + ends, row + SWARMBANNER_TRANSITION_WORD, sent);
        memcpy(after + ends + sent, word + ends, length - ends);
        *after_length = length + sent;
    } else {
        if (ends - begins < sent || memcmp(word + begins, row + SWARMBANNER_TRANSITION_WORD, sent) != 0)
            return 0;
        memcpy(after, word, begins);
        memcpy(after + begins, word + begins + sent, length - begins - sent);
        *after_length = length - sent;
    }
    return 1;
}

/* A configuration that a step leads to. */
struct reached {
    size_t control, length;
    uint8_t contents[AFTER_ROOM];
};

/* 1 where the step can be taken and leads outside, 0 where it leads inside, -1 where it cannot be taken. */
static int leads_outside(size_t control, size_t transition, const uint8_t *word, size_t length, struct reached *after)
{
    const uint8_t *row = row_of(transition);

    after->control = control_after(control, row);
    if (after->control == control_states() || !contents_after(row, word, length, after->contents, &after->length))
        return -1;
    return !inside(after->control, after->contents, after->length);
}

/*
 * A configuration that is outside is followed so far: as far as the tables say and as membership does, and no further than there
 * are messages.
 */
static void is_followed(size_t far, const struct reached *outside, unsigned long *lost)
{
    const uint8_t *asked = lend_copy(&after_lend, outside->contents, outside->length);
    size_t reply[SWARMBANNER_REPLY_LEAST], kind;

    must(far <= outside->length, "more messages are followed than there are");
    must(far == followed(outside->control, outside->contents, outside->length), "another number of messages is followed");
    kind = swarmbanner_member(file, file_len, outside->control, asked, outside->length, reply, SWARMBANNER_REPLY_LEAST);
    must(kind == SWARMBANNER_NO && reply[0] == far, "membership follows the contents otherwise");
    lost[loss(outside->control, far, outside->length)]++;
}

static int is_bad(size_t entry, const uint8_t *word, size_t length)
{
    return accepts(tables[SWARMBANNER_AT_BAD + entry * SWARMBANNER_BAD_ROW + 1] + 1u, word, length);
}

/* A run as the definitions have it: what a step does is said in the plainest way. */
struct run {
    size_t states[SWARMBANNER_MACHINES_MOST], lengths[SWARMBANNER_QUEUES_MOST], sent[SWARMBANNER_QUEUES_MOST];
    uint8_t queues[SWARMBANNER_QUEUES_MOST][SWARMBANNER_QUEUE_LEAST];
};

static void begin(struct run *run)
{
    size_t i;

    memset(run, 0, sizeof *run);
    for (i = 0; i < tables[SWARMBANNER_AT_COUNTS]; i++)
        run->states[i] = tables[SWARMBANNER_AT_STARTS + i];
    for (i = 0; i < SWARMBANNER_QUEUES_MOST; i++) {
        run->lengths[i] = tables[SWARMBANNER_AT_LENGTHS + i];
        memcpy(run->queues[i], tables + SWARMBANNER_AT_CONTENTS + i * SWARMBANNER_CONTENTS_ROW, run->lengths[i]);
    }
}

static size_t control_of(const struct run *run)
{
    size_t i, control = 0;

    for (i = 0; i < tables[SWARMBANNER_AT_COUNTS]; i++)
        control = control * tables[SWARMBANNER_AT_STATES + i] + run->states[i];
    return control;
}

/* What waits, queue after queue; returns how many messages it is. */
static size_t word_of(const struct run *run, uint8_t *word)
{
    size_t i, length = 0;

    for (i = 0; i < tables[SWARMBANNER_AT_COUNTS + 1]; i++) {
        memcpy(word + length, run->queues[i], run->lengths[i]);
        length += run->lengths[i];
    }
    return length;
}

static int is_inside(const struct run *run)
{
    static uint8_t word[MEMORY_ROOM];

    return inside(control_of(run), word, word_of(run, word));
}

/* 0 where a transition can be taken, else the number that it is refused by. */
static size_t refuses(const struct run *run, size_t transition)
{
    const uint8_t *row = row_of(transition);

    if (run->states[row[0]] != row[1])
        return SWARMBANNER_REFUSED_IMPOSSIBLE;
    if (row[3] == 2 && (run->lengths[row[4]] < row[5] ||
                        memcmp(run->queues[row[4]], row + SWARMBANNER_TRANSITION_WORD, row[5]) != 0))
        return SWARMBANNER_REFUSED_IMPOSSIBLE;
    if (row[3] == 1 && run->lengths[row[4]] + row[5] > SWARMBANNER_QUEUE_LEAST)
        return SWARMBANNER_REFUSED_FULL;
    return 0;
}

static void take(struct run *run, size_t transition)
{
    const uint8_t *row = row_of(transition);
    uint8_t *queue = run->queues[row[4]];
    size_t *length = &run->lengths[row[4]];

    run->states[row[0]] = row[2];
    if (row[3] == 1) {
        memcpy(queue + *length, row + SWARMBANNER_TRANSITION_WORD, row[5]);
        *length += row[5];
        run->sent[row[4]] += row[5];
    } else if (row[3] == 2) {
        *length -= row[5];
        memmove(queue, queue + row[5], *length);
        memset(queue + *length, 0, row[5]);
    }
}

/* The trace of this input. */
static const uint8_t *trace;
static size_t trace_len;

/* What a replay must say, and the run where it ends. */
static struct told expected_replay(struct run *run)
{
    static uint8_t word[MEMORY_ROOM];
    struct told told = {SWARMBANNER_STEP_REFUSED, {0, 0, 0, 0}};
    size_t at = 0, steps, number;

    begin(run);
    for (steps = 0; is_inside(run) && at < trace_len; steps++) {
        size_t next = at + 1;

        told.number[1] = at;
        told.number[2] = steps;
        number = trace[at];
        if (number >= 128) {
            if (next == trace_len) {
                told.number[0] = SWARMBANNER_REFUSED_ENDS;
                told.number[1] = trace_len;
                return told;
            }
            told.number[0] = SWARMBANNER_REFUSED_FORM;
            if (trace[next] == 0 || trace[next] >= 128)
                return told;
            number = number % 128 + 128u * trace[next++];
        }
        told.number[0] = SWARMBANNER_REFUSED_RANGE;
        if (number >= tables[SWARMBANNER_AT_COUNTS + 3])
            return told;
        told.number[0] = refuses(run, number);
        if (told.number[0] > 0)
            return told;
        take(run, number);
        at = next;
    }
    told.kind = is_inside(run) ? SWARMBANNER_END : SWARMBANNER_LEFT;
    told.number[0] = steps;
    told.number[1] = told.number[2] = 0;
    if (told.kind == SWARMBANNER_LEFT)
        told.number[1] = followed(control_of(run), word, word_of(run, word));
    return told;
}

/* The one among the transitions that can be taken which a byte picks; the byte itself where there is none. */
static uint8_t picked(const struct run *run, uint8_t byte)
{
    size_t i, count = tables[SWARMBANNER_AT_COUNTS + 3], possible = 0;

    for (i = 0; i < count; i++)
        possible += refuses(run, i) != SWARMBANNER_REFUSED_IMPOSSIBLE;
    if (possible == 0)
        return byte;
    possible = byte % possible + 1u;
    for (i = 0; possible > 0; i++)
        possible -= refuses(run, i) != SWARMBANNER_REFUSED_IMPOSSIBLE;
    return (uint8_t)(i - 1);
}

/* Makes the trace: the pattern again and again; where it steers, with the tables of the file. */
static void make_trace(const uint8_t *pattern, size_t count, uint8_t how, int is_read)
{
    static uint8_t steps[TRACE_ROOM];
    static struct run run;
    size_t i, length = count * TRACE_REPEAT(how);
    int steers = is_read && (how & TRACE_STEERED) != 0;

    if (length > TRACE_ROOM)
        length = TRACE_ROOM;
    if (steers)
        begin(&run);
    for (i = 0; i < length; i++) {
        steps[i] = pattern[i % count];
        if (!steers || (i + 1 == length && (how & TRACE_RAW_END) != 0))
            continue;
        steps[i] = picked(&run, steps[i]);
        if (steps[i] < tables[SWARMBANNER_AT_COUNTS + 3] && refuses(&run, steps[i]) == 0)
            take(&run, steps[i]);
        else
            steers = 0;
    }
    trace = lend_copy(&trace_lend, steps, length);
    trace_len = length;
}

/* A replay says what it must, and leaves record and memory as it must. */
static void call_replay(const struct lengths *n, const struct told *read)
{
    static struct run run;
    static struct reached outside;
    size_t queues = read->kind == SWARMBANNER_READ ? tables[SWARMBANNER_AT_COUNTS + 1] : 1;
    size_t wanted = queues * SWARMBANNER_QUEUE_LEAST, length = wanted + n->more - n->memory_less;
    uint8_t *memory = lend_bytes(&memory_lend, length);
    size_t *record = lend_bytes(&record_lend, n->record * sizeof(size_t));
    size_t expected_record[SWARMBANNER_RECORD_LEAST] = {0};
    struct told told = {0, {0, 0, 0, 0}}, expected = *read;
    size_t i, kind;

    kind = swarmbanner_replay(file, file_len, trace, trace_len, memory, length, record, n->record, lend_reply(n), n->reply);
    told = told_of(kind, n);
    if (n->record < SWARMBANNER_RECORD_LEAST) {
        must(told.kind == SWARMBANNER_NO_ROOM, "a record without room");
        must(lend_kept(&reply_lend), "a reply without room for the record");
    }
    if (told.kind == SWARMBANNER_NO_ROOM) {
        must(!has_room(n) || n->record < SWARMBANNER_RECORD_LEAST, "room was not found where there is some");
        must(lend_kept(&memory_lend) && lend_kept(&record_lend), "record or memory has changed without room");
        return;
    }
    if (read->kind == SWARMBANNER_READ && trace_len > SWARMBANNER_TRACE_MOST) {
        expected.kind = SWARMBANNER_TRACE_REFUSED;
        expected.number[0] = SWARMBANNER_REFUSED_LONG;
        expected.number[1] = SWARMBANNER_TRACE_MOST;
    } else if (read->kind == SWARMBANNER_READ && length < wanted) {
        expected.kind = SWARMBANNER_MEMORY_REFUSED;
        expected.number[0] = SWARMBANNER_REFUSED_MEMORY;
    } else if (read->kind == SWARMBANNER_READ) {
        expected = expected_replay(&run);
    }
    must(same(&told, &expected), "a replay says something else");
    run_started += (unsigned)(read->kind == SWARMBANNER_READ && resumes());
    reach(told.kind, told.number[0], told.number[2]);
    if (told.kind != SWARMBANNER_END && told.kind != SWARMBANNER_LEFT && told.kind != SWARMBANNER_STEP_REFUSED) {
        must(lend_kept(&memory_lend) && lend_kept(&record_lend), "record or memory has changed after a refusal");
        return;
    }
    if (told.kind == SWARMBANNER_STEP_REFUSED)
        step_refused[told.number[0]]++;
    if (told.kind == SWARMBANNER_LEFT) {
        outside.control = control_of(&run);
        outside.length = word_of(&run, outside.contents);
        is_followed(told.number[1], &outside, run_lost);
    }
    memcpy(expected_record + SWARMBANNER_RECORD_STATES, run.states, sizeof run.states);
    memcpy(expected_record + SWARMBANNER_RECORD_LENGTHS, run.lengths, sizeof run.lengths);
    must(memcmp(record, expected_record, sizeof expected_record) == 0, "another record");
    must(lend_kept_from(&record_lend, sizeof expected_record), "the rest of the record has changed");
    for (i = 0; i < queues; i++) {
        must(memcmp(memory + i * SWARMBANNER_QUEUE_LEAST, run.queues[i], SWARMBANNER_QUEUE_LEAST) == 0, "another queue");
        went_round += run.sent[i] > SWARMBANNER_QUEUE_LEAST;
    }
    must(lend_kept_from(&memory_lend, wanted), "memory after the queues has changed");
}

/* The length of the file with these tables, or 0 where there is none: they are spelled, and read again. */
static size_t expected_file(const uint8_t *wanted, uint8_t *bytes)
{
    static uint8_t again[SWARMBANNER_SPACE_LEAST];
    size_t reply[SWARMBANNER_REPLY_LEAST], length = spell_file(wanted, bytes);
    size_t kind = swarmbanner_read(bytes, length, again, sizeof again, reply, SWARMBANNER_REPLY_LEAST);

    return kind == SWARMBANNER_READ && memcmp(again, wanted, sizeof again) == 0 ? length : 0;
}

/* Lends tables, cut short or with dirt after them. */
static const uint8_t *lend_tables(const uint8_t *wanted, size_t length)
{
    uint8_t *lent = lend_bytes(&tables_lend, length);

    memcpy(lent, wanted, length < SWARMBANNER_SPACE_LEAST ? length : SWARMBANNER_SPACE_LEAST);
    return lent;
}

/* Writing these tables says what it must, and leaves the buffer as it must. */
static struct told call_write(const struct lengths *n, const uint8_t *wanted)
{
    static uint8_t bytes[SPELLED_MOST];
    size_t length = expected_file(wanted, bytes), tables_len = SWARMBANNER_SPACE_LEAST + n->more - n->tables_less;
    /* where there is no file, any length will do */
    size_t room = (length > 0 ? length : SWARMBANNER_SPACE_LEAST) + n->more - n->buffer_less;
    const uint8_t *lent = lend_tables(wanted, tables_len);
    uint8_t *buffer = lend_bytes(&buffer_lend, room);
    struct told expected = {SWARMBANNER_REFUSED, {0, 0, 0, 0}};
    struct told told = told_of(swarmbanner_write(lent, tables_len, buffer, room, lend_reply(n), n->reply), n);

    if (!has_room(n)) {
        must(lend_kept(&buffer_lend), "the buffer has changed without room for a reply");
        return told;
    }
    if (tables_len < SWARMBANNER_SPACE_LEAST || length == 0) {
        expected.number[0] = SWARMBANNER_REFUSED_TABLES;
    } else if (room < length) {
        expected.number[0] = SWARMBANNER_REFUSED_BUFFER;
    } else {
        expected.kind = SWARMBANNER_WRITTEN;
        expected.number[0] = length;
    }
    must(same(&told, &expected), "writing says something else");
    reach(told.kind, told.number[0], 0);
    if (told.kind == SWARMBANNER_REFUSED) {
        write_refused[told.number[0]]++;
        must(lend_kept(&buffer_lend), "the buffer has changed after a refusal");
        return told;
    }
    must(memcmp(buffer, bytes, length) == 0, "another file is written");
    must(lend_kept_from(&buffer_lend, length), "the rest of the buffer has changed");
    return told;
}

/* Changes an entry of tables, mostly one that is in use: which table, where in it, and how is said by a byte each. */
static void damage(uint8_t *damaged, const uint8_t *how)
{
    static const size_t at[] = {SWARMBANNER_AT_COUNTS, SWARMBANNER_AT_STATES, SWARMBANNER_AT_STARTS,
                                SWARMBANNER_AT_MESSAGES, SWARMBANNER_AT_LENGTHS, SWARMBANNER_AT_CONTENTS,
                                SWARMBANNER_AT_TRANSITIONS, SWARMBANNER_AT_FINALS, SWARMBANNER_AT_ARCS,
                                SWARMBANNER_AT_ROOTS, SWARMBANNER_AT_BAD, SWARMBANNER_SPACE_LEAST};
    size_t table = how[0] % 11, size = at[table + 1] - at[table], place;
    int is_near = how[0] < 128;

    if (is_near && size > MORE)
        size = MORE;
    place = at[table] + (how[1] * 31u + how[2]) % size;
    damaged[place] = (uint8_t)(is_near ? damaged[place] + how[2] % 3 - 1u : how[2]);
}

/*
 * The tables of a file that is read are written as the file; damaged as the pattern says, as another file or not at all. A file
 * that is refused is put in the place of tables, for bytes of any kind.
 */
static void calls_of_writing(const struct lengths *n, int is_read, const uint8_t *pattern, size_t count)
{
    static uint8_t damaged[SWARMBANNER_SPACE_LEAST];
    struct told told;
    size_t i;

    if (is_read) {
        memcpy(damaged, tables, sizeof damaged);
        told = call_write(n, damaged);
        if (told.kind == SWARMBANNER_WRITTEN)
            must(told.number[0] == file_len && memcmp(lend_at(&buffer_lend), file, file_len) == 0,
                 "what is written is not what was read");
    } else {
        memset(damaged, 0, sizeof damaged);
        memcpy(damaged, file, file_len < sizeof damaged ? file_len : sizeof damaged);
    }
    for (i = 0; i < 6 && i + 3 <= count; i += 3) {
        damage(damaged, pattern + i);
        if (call_write(&enough, damaged).kind == SWARMBANNER_WRITTEN && is_read) {
            written_changed += memcmp(damaged, tables, sizeof damaged) != 0;
            start_changed += memcmp(damaged + SWARMBANNER_AT_LENGTHS, tables + SWARMBANNER_AT_LENGTHS,
                                    SWARMBANNER_AT_TRANSITIONS - SWARMBANNER_AT_LENGTHS) != 0;
        }
    }
    call_write(n, damaged);
}

/* A pool that was drawn is that of a file, one queue having all messages, and a word is inside just if the pool accepts it. */
static void drawn_is_taken(const uint8_t *pool, size_t states, const uint8_t *word, size_t length)
{
    static uint8_t drawn[SWARMBANNER_SPACE_LEAST], bytes[SWARMBANNER_FILE_MOST];
    size_t reply[SWARMBANNER_REPLY_LEAST], state = 1, far = 0, kind, i;

    memset(drawn, 0, sizeof drawn);
    drawn[SWARMBANNER_AT_COUNTS] = drawn[SWARMBANNER_AT_COUNTS + 1] = drawn[SWARMBANNER_AT_STATES] = 1;
    drawn[SWARMBANNER_AT_COUNTS + 2] = drawn[SWARMBANNER_AT_MESSAGES] = SWARMBANNER_MESSAGES_MOST;
    drawn[SWARMBANNER_AT_COUNTS + 4] = (uint8_t)states;
    memcpy(drawn + SWARMBANNER_AT_FINALS, pool, SWARMBANNER_POOL_LEAST);
    drawn[SWARMBANNER_AT_ROOTS] = 1;
    kind = swarmbanner_write(drawn, sizeof drawn, bytes, sizeof bytes, reply, SWARMBANNER_REPLY_LEAST);
    must(kind == SWARMBANNER_WRITTEN, "what was drawn is not written");
    for (i = 0; i < length && word[i] < SWARMBANNER_MESSAGES_MOST; i++) {
        state = state > 0 ? pool[SWARMBANNER_POOL_STATES_MOST + (state - 1) * SWARMBANNER_ARC_ROW + word[i]] : 0;
        far += state > 0;
    }
    kind = swarmbanner_member(bytes, reply[0], 0, word, i, reply, SWARMBANNER_REPLY_LEAST);
    must(kind == (state > 0 && pool[state - 1] == 1 ? SWARMBANNER_YES : SWARMBANNER_NO), "a word is inside otherwise than drawn");
    must(reply[0] == far, "a word is followed otherwise than drawn");
}

/* Drawing a text says what it must, and leaves the pool as it must. */
static void call_expression(const struct lengths *n, const uint8_t *text, size_t length, const uint8_t *word, size_t count)
{
    static uint8_t expected_pool[SWARMBANNER_POOL_LEAST];
    const uint8_t *lent = lend_copy(&text_lend, text, length);
    uint8_t *pool = lend_bytes(&pool_lend, n->pool);
    struct told told = told_of(swarmbanner_expression(lent, length, pool, n->pool, lend_reply(n), n->reply), n), expected;

    if (!has_room(n) || n->pool < SWARMBANNER_POOL_LEAST) {
        must(told.kind == SWARMBANNER_NO_ROOM, "a pool without room");
        must(lend_kept(&pool_lend) && lend_kept(&reply_lend), "pool or reply has changed without room");
        return;
    }
    expected.kind = sketch_expression(text, length, expected_pool, expected.number);
    must(same(&told, &expected), "drawing says something else");
    reach(told.kind, told.number[0], told.number[1]);
    if (told.kind == SWARMBANNER_REFUSED) {
        draw_refused[told.number[0]]++;
        must(lend_kept(&pool_lend), "the pool has changed after a refusal");
        return;
    }
    must(memcmp(pool, expected_pool, sizeof expected_pool) == 0, "another pool is drawn");
    must(lend_kept_from(&pool_lend, sizeof expected_pool), "the rest of the pool has changed");
    most_states = told.number[1] > most_states ? told.number[1] : most_states;
    drawn_is_taken(pool, told.number[1], word, count);
}

/* A verdict means what it says, as far as it can be seen from here. */
static void verdict_holds(const struct told *told, size_t control, const uint8_t *asked, size_t count)
{
    static struct reached after;
    static struct run start;
    const uint8_t *shown = lend_at(&contents_lend);
    size_t i, entry = told->number[0];

    begin(&start);
    must(is_inside(&start) == (told->kind != SWARMBANNER_OUTSIDE), "outside, or not");
    started[told->kind] += (unsigned)resumes();
    must(told->kind == SWARMBANNER_LEAVES || told->number[3] == 0, "a fourth number where there are fewer");
    switch (told->kind) {
    case SWARMBANNER_OUTSIDE:
        must(is(told, SWARMBANNER_OUTSIDE, 0, 0), "numbers that go with no reply");
        break;
    case SWARMBANNER_LEAVES:
        must(inside(told->number[0], shown, told->number[2]), "contents shown are not inside");
        must(leads_outside(told->number[0], told->number[1], shown, told->number[2], &after) == 1, "the step does not leave");
        is_followed(told->number[3], &after, left_lost);
        long_left[row_of(told->number[1])[3]] += (unsigned)is_long(told->number[1]);
        break;
    case SWARMBANNER_BAD:
        must(entry < tables[SWARMBANNER_AT_COUNTS + 5], "no such bad entry");
        must(is_bad(entry, shown, told->number[1]), "contents shown are not bad");
        must(inside(tables[SWARMBANNER_AT_BAD + entry * SWARMBANNER_BAD_ROW], shown, told->number[1]), "not inside");
        break;
    case SWARMBANNER_CLOSED:
        must(told->number[0] <= PAIRS_MOST, "more pairs than there are");
        long_closed += (unsigned)has_long_word();
        if (expected_member(control, asked, count).kind != SWARMBANNER_YES)
            break;
        for (i = 0; i < tables[SWARMBANNER_AT_COUNTS + 3]; i++)
            must(leads_outside(control, i, asked, count, &after) != 1, "closed, and a step leaves");
        for (i = 0; i < tables[SWARMBANNER_AT_COUNTS + 5]; i++)
            if (tables[SWARMBANNER_AT_BAD + i * SWARMBANNER_BAD_ROW] == control)
                must(!is_bad(i, asked, count), "closed, and contents inside are bad");
    }
}

static int memory_is_short(const struct lengths *n)
{
    return n->seen < SWARMBANNER_TABLE_LEAST || n->queue < SWARMBANNER_TABLE_LEAST ||
           n->contents < SWARMBANNER_CONTENTS_LEAST;
}

/* A closed file is never left. */
static void run_stays(const struct told *check)
{
    static struct run run;

    if (check->kind == SWARMBANNER_CLOSED)
        must(expected_replay(&run).kind != SWARMBANNER_LEFT, "closed, and a trace leads outside");
}

static void calls_agree(const struct lengths *n, const uint8_t *head, const uint8_t *asked, size_t count,
                        const uint8_t *pattern, size_t pattern_len)
{
    struct told member, check, expected, read;
    size_t control = head[INPUT_CONTROL] + 256u * head[INPUT_CONTROL_HIGH];

    call_read(n);
    read = call_read(&enough);
    reach(read.kind, read.number[0], read.number[1]);

    make_trace(pattern, pattern_len, head[INPUT_TRACE], read.kind == SWARMBANNER_READ);
    call_replay(n, &read);
    calls_of_writing(n, read.kind == SWARMBANNER_READ, pattern, pattern_len);

    member = call_member(control, asked, count, n);
    expected = read.kind == SWARMBANNER_REFUSED ? read : expected_member(control, asked, count);
    must(!has_room(n) || same(&member, &expected), "membership says something else");
    reach(member.kind, member.number[0], count);
    if (member.kind == SWARMBANNER_NO)
        asked_lost[loss(control, member.number[0], count)]++;

    check = call_check(n);
    if (!has_room(n))
        return;
    reach(check.kind, check.number[0], check.number[1]);
    reach(check.kind, check.number[2], check.number[3]);
    reach(check.kind, tables[SWARMBANNER_AT_COUNTS + 4], shown_of(&check));
    if (read.kind == SWARMBANNER_REFUSED && (read.number[0] == SWARMBANNER_REFUSED_LONG || !memory_is_short(n)))
        must(same(&check, &read), "checking refuses otherwise than reading");
    else if (memory_is_short(n))
        must(is(&check, SWARMBANNER_REFUSED, SWARMBANNER_REFUSED_MEMORY, 0), "short memory is taken");
    else
        verdict_holds(&check, control, asked, count);
    run_stays(&check);
}

static void make_room(void)
{
    must(swarmbanner_fits(), "the library has another layout");
    lend_make(&file_lend, SWARMBANNER_FILE_MOST + MORE);
    lend_make(&asked_lend, CONTENTS_MOST);
    lend_make(&after_lend, AFTER_ROOM);
    lend_make(&trace_lend, TRACE_ROOM);
    lend_make(&space_lend, SWARMBANNER_SPACE_LEAST + MORE);
    lend_make(&seen_lend, (SWARMBANNER_TABLE_LEAST + MORE) * sizeof(uint16_t));
    lend_make(&queue_lend, (SWARMBANNER_TABLE_LEAST + MORE) * sizeof(uint16_t));
    lend_make(&contents_lend, SWARMBANNER_CONTENTS_LEAST + MORE);
    lend_make(&memory_lend, MEMORY_ROOM);
    lend_make(&record_lend, (SWARMBANNER_RECORD_LEAST + MORE) * sizeof(size_t));
    lend_make(&tables_lend, SWARMBANNER_SPACE_LEAST + MORE);
    lend_make(&buffer_lend, SWARMBANNER_FILE_MOST + MORE);
    lend_make(&text_lend, TEXT_ROOM);
    lend_make(&pool_lend, SWARMBANNER_POOL_LEAST + MORE);
    lend_make(&reply_lend, (SWARMBANNER_REPLY_LEAST + MORE) * sizeof(size_t));
    atexit(report);
}

int LLVMFuzzerTestOneInput(const uint8_t *data, size_t size)
{
    struct lengths n;
    size_t count, pattern_len, text_len;
    const uint8_t *asked, *pattern, *text, *rest;

    if (reply_lend.memory == NULL)
        make_room();
    if (size < INPUT_HEAD)
        return 0;
    n = lengths_of(data[INPUT_LENGTHS]);
    asked = data + INPUT_HEAD;
    size -= INPUT_HEAD;
    count = data[INPUT_ASKED] < size ? data[INPUT_ASKED] : size;
    pattern = asked + count;
    size -= count;
    pattern_len = data[INPUT_PATTERN] < size ? data[INPUT_PATTERN] : size;
    text = pattern + pattern_len;
    size -= pattern_len;
    text_len = data[INPUT_TEXT] + 256u * data[INPUT_TEXT_HIGH];
    text_len = text_len < size ? text_len : size;
    rest = text + text_len;
    file_len = size - text_len;
    if (file_len > SWARMBANNER_FILE_MOST + MORE || text_len > TEXT_ROOM)
        return 0;
    file = lend_copy(&file_lend, rest, file_len);
    call_expression(&n, text, text_len, asked, count);
    calls_agree(&n, data, asked, count, pattern, pattern_len);
    must(memcmp(file, rest, file_len) == 0, "the file has changed");
    return 0;
}
