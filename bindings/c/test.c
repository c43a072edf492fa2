/*
 * What the header promises, call by call: the fourteen cases of document 01, long words, queues that do not start empty, replays
 * worked out by hand, files written back and tables that no file has, diagrams of expressions, and what is done to lent memory.
 */
#define _DEFAULT_SOURCE

#include "calls.h"
#include "files.h"
#include "test_expression.h"
#include "test_write.h"

/* Two states, messages 1 to 16 in queue 1; sent in that order, received in the other. */
#define W_HEAD "01 02 00 02 01 10 "
#define UP "0102030405060708 090a0b0c0d0e0f10"
#define DOWN "100f0e0d0c0b0a09 0807060504030201"
#define W_END "01 01 00 01 00 00"
#define W W_HEAD "02 000001 0101 10" UP "000100 0201 10" DOWN W_END

/* In state 1 the queues hold 0 and then 1 to 16, which are received. */
#define RECEIVED W_HEAD "01 000101 0201 10" UP "13 0100" \
    "00010002 00010103 00010204 00010305 00010406 00010507 00010608 00010709 0001080a" \
    "0001090b 00010a0c 00010b0d 00010c0e 00010d0f 00010e10 00010f11 00011012 0100" "01 02 00"

/* One state, and 0 1 2 is sent. Three states, of which 0 goes to 1 with 0 0 in the queue and 2 is the start. */
#define F_SEND "01 01 00 01 03 01 000000 01 00 03 000102"
#define F_LOCAL "01 03 02 01 01 01 000001 00" "03 00 01 00 01 00 01 00 02 01 00"

struct worked {
    const char *name, *file;
    size_t kind, first, second, third, fourth;
    const char *shown;
};

static const struct worked cases[] = {
    {"a", R, SWARMBANNER_CLOSED, 4, 0, 0, 0, ""},
    {"b", R_HEAD "01 01 00 01 00", SWARMBANNER_LEAVES, 0, 0, 0, 0, ""},
    {"c", R_HEAD "02 01 01 00 01 01 00 01 00", SWARMBANNER_LEAVES, 0, 0, 1, 1, "\0"},
    {"d", R_HEAD "01 00 01 00 00 01 00", SWARMBANNER_OUTSIDE, 0, 0, 0, 0, ""},
    {"e", R_HEAD "01 01 01 00 00 01 01 00 00", SWARMBANNER_BAD, 0, 0, 0, 0, ""},
    {"f", S, SWARMBANNER_CLOSED, 3, 0, 0, 0, ""},
    {"g", S_HEAD "00000002010101" S_POOL "01 00", SWARMBANNER_CLOSED, 3, 0, 0, 0, ""},
    {"h", "", SWARMBANNER_REFUSED, 3, 0, 0, 0, ""},
    {"i", "8200 01010000010102000000010001000100000200010001010100000100", SWARMBANNER_REFUSED, 4, 0, 0, 0, ""},
    {"j", "05 01010000010102000000010001000100000200010001010100000100", SWARMBANNER_REFUSED, 5, 2, 0, 0, ""},
    {"k", R "00", SWARMBANNER_REFUSED, 10, 29, 0, 0, ""},
    {"l", R_HEAD "01 01 01 00 00 01", SWARMBANNER_REFUSED, 3, 28, 0, 0, ""},
    {"m", S_HEAD S_SEND "01 01 02 00 00 01 00 01 00", SWARMBANNER_REFUSED, 9, 23, 0, 0, ""},
    {"n", "03 10 10 02", SWARMBANNER_REFUSED, 6, 3, 0, 0, ""},
    /* contents of two messages, and a bad entry that is not the first */
    {"leaves", S_HEAD S_SEND "04 01 01 00 01 01 02 00 02 01 03 01 01 00 02 01 00" "01 00", SWARMBANNER_LEAVES, 0, 0, 2, 2,
     "\0\1"},
    {"bad", "010100020101 00" "06 01 02 00 00 01 01 01 01 01 01 00 00 00 01 00 04 00 01 01 05 01 00" "01 02 00 02 00 03",
     SWARMBANNER_BAD, 1, 2, 0, 0, "\0\1"},
    /*
     * followed into the word that was sent, and to its end, which is not final; where there is no root, and a part of the way
     * where the step is local
     */
    {"a part of the word", F_SEND "03 01 01 00 01 00 01 01 02 00 00" "01 00", SWARMBANNER_LEAVES, 0, 0, 0, 2, ""},
    {"the whole word", F_SEND "04 01 01 00 01 00 01 01 02 00 01 02 03 00 00" "01 00", SWARMBANNER_LEAVES, 0, 0, 0, 3, ""},
    {"no root", F_LOCAL "01 00 03 00", SWARMBANNER_LEAVES, 0, 0, 2, 0, "\0\0"},
    {"a part of what waits", F_LOCAL "01 02 03 00", SWARMBANNER_LEAVES, 0, 0, 2, 1, "\0\0"},
    /* words of sixteen are taken, the next length is refused where it stands */
    {"sixteen sent", W, SWARMBANNER_LEAVES, 0, 0, 0, 0, ""},
    {"sixteen received", RECEIVED, SWARMBANNER_LEAVES, 1, 0, 17, 1,
     "\0\1\2\3\4\5\6\7\10\11\12\13\14\15\16\17\20"},
    {"seventeen sent", W_HEAD "02 000001 0101 11" UP "01 000100 0201 10" DOWN W_END, SWARMBANNER_REFUSED, 5, 12, 0, 0, ""},
    {"seventeen received", W_HEAD "02 000001 0101 10" UP "000100 0201 11" DOWN "01" W_END, SWARMBANNER_REFUSED, 5, 34, 0, 0,
     ""},
    /* what waits at the start is inside, or not; the steps are judged in either case as without it */
    {"two wait", R2, SWARMBANNER_CLOSED, 4, 0, 0, 0, ""},
    {"two wait where one may", R2_HEAD "02 01 01 00 01 01 00 01 00", SWARMBANNER_OUTSIDE, 0, 0, 0, 0, ""},
    {"two wait where all are lost", R2_HEAD "01 01 00 01 00", SWARMBANNER_OUTSIDE, 0, 0, 0, 0, ""},
    {"two wait and empty is outside", R2_HEAD "02 00 01 00 01 01 01 00 01 01 00", SWARMBANNER_LEAVES, 0, 1, 1, 0, "\0"},
    {"one waits", N_HEAD "01 00 00" N_REST, SWARMBANNER_LEAVES, 0, 0, 1, 0, "\0"},
    {"some wait in both queues", N_HEAD "01 00 02 0202" N_REST, SWARMBANNER_LEAVES, 0, 0, 1, 0, "\0"},
    {"one too many waits in queue 1", N_HEAD "01 00 03 020202" N_REST, SWARMBANNER_OUTSIDE, 0, 0, 0, 0, ""},
    {"another message waits", N_HEAD "01 01 00" N_REST, SWARMBANNER_OUTSIDE, 0, 0, 0, 0, ""},
    {"one waits in queue 1 alone", N_HEAD "00 01 02" N_REST, SWARMBANNER_OUTSIDE, 0, 0, 0, 0, ""},
    {"eight wait", N_HEAD "08 0001000101000001 08 0202020202020202" N_REST, SWARMBANNER_OUTSIDE, 0, 0, 0, 0, ""},
    {"in turn", "05 01 00 01 02 02 0001 00" "03 00 01 00 01 00 01 01 02 01 00 01 00", SWARMBANNER_CLOSED, 0, 0, 0, 0, ""},
    {"out of turn", "05 01 00 01 02 02 0100 00" "03 00 01 00 01 00 01 01 02 01 00 01 00", SWARMBANNER_OUTSIDE, 0, 0, 0, 0, ""},
    {"M", M, SWARMBANNER_CLOSED, 21, 0, 0, 0, ""},
    {"MS", MS, SWARMBANNER_CLOSED, 21, 0, 0, 0, ""},
    {"four machines, four queues", "08 01010101 00000000 04 01010101 00 00 00 01 03 00 01 01 04 00 00 01 00 02 00 03 00 01 00",
     SWARMBANNER_REFUSED, 9, 33, 0, 0, ""},
    {"four machines, the last queue", "08 01010101 00000000 04 01010101 00 00 00 01 03 00 01 01 01 03 00 01 00",
     SWARMBANNER_CLOSED, 0, 0, 0, 0, ""},
    /* refused at the first number, at a length, at a message; and by 23 once all are read, before all that follows */
    {"no machines", "00", SWARMBANNER_REFUSED, 5, 0, 0, 0, ""},
    {"nine machines", "09", SWARMBANNER_REFUSED, 5, 0, 0, 0, ""},
    {"no length", N_HEAD, SWARMBANNER_REFUSED, 3, 6, 0, 0, ""},
    {"longer form of a length", N_HEAD "8800", SWARMBANNER_REFUSED, 4, 6, 0, 0, ""},
    {"nine wait", N_HEAD "09", SWARMBANNER_REFUSED, 5, 6, 0, 0, ""},
    {"nine wait in queue 1", N_HEAD "02 0001 09", SWARMBANNER_REFUSED, 5, 9, 0, 0, ""},
    {"no message", N_HEAD "02 00", SWARMBANNER_REFUSED, 3, 8, 0, 0, ""},
    {"longer form of a message", N_HEAD "02 00 8100", SWARMBANNER_REFUSED, 4, 8, 0, 0, ""},
    {"no such message waits", N_HEAD "02 00 03", SWARMBANNER_REFUSED, 5, 8, 0, 0, ""},
    {"a message of a later queue waits", N_HEAD "02 00 02 03", SWARMBANNER_REFUSED, 7, 8, 0, 0, ""},
    {"a message of an earlier queue waits", N_HEAD "00 02 02 01", SWARMBANNER_REFUSED, 7, 9, 0, 0, ""},
    {"nothing waits", N_HEAD "00 00" N_REST, SWARMBANNER_REFUSED, 23, 0, 0, 0, ""},
    {"nothing waits, and nothing follows", N_HEAD "00 00", SWARMBANNER_REFUSED, 23, 0, 0, 0, ""},
    {"nothing waits, and what follows is wrong", N_HEAD "00 00 8300", SWARMBANNER_REFUSED, 23, 0, 0, 0, ""},
    {"what follows is wrong", N_HEAD "00 01 02 8300", SWARMBANNER_REFUSED, 4, 9, 0, 0, ""},
};

#define CASES (sizeof cases / sizeof *cases)

static size_t messages_shown(const struct worked *c)
{
    return c->kind == SWARMBANNER_LEAVES ? c->third : c->kind == SWARMBANNER_BAD ? c->second : 0;
}

static void check_case(const struct worked *c, struct lengths n)
{
    size_t shown = messages_shown(c);
    size_t length;
    const uint8_t *file = hex(c->file, &length);

    expect(call_check(file, length, n) == c->kind, "kind of the reply", c->name);
    expect(replied_four(c->first, c->second, c->third, c->fourth), "numbers of the reply, and its rest kept", c->name);
    if (c->kind == SWARMBANNER_REFUSED) {
        expect(memory_kept(), "lent memory kept after a refusal", c->name);
        return;
    }
    expect(lend_is_clear(&seen_lend) && lend_is_clear(&queue_lend), "tables 0 over their whole length", c->name);
    expect(memcmp(lend_at(&contents_lend), c->shown, shown) == 0, "contents shown", c->name);
    expect(lend_kept_from(&contents_lend, shown), "rest of the contents buffer kept", c->name);
}

static void read_case(const struct worked *c, struct lengths n)
{
    size_t length;
    const uint8_t *file = hex(c->file, &length);
    size_t kind = call_read(file, length, n);

    if (c->kind == SWARMBANNER_REFUSED) {
        expect(kind == SWARMBANNER_REFUSED && replied(c->first, c->second, c->third), "reading refuses", c->name);
        expect(lend_kept(&space_lend), "space kept after a refusal", c->name);
        return;
    }
    expect(kind == SWARMBANNER_READ && replied(0, 0, 0), "reading reads", c->name);
    expect(lend_kept_from(&space_lend, SWARMBANNER_SPACE_LEAST), "rest of the space kept", c->name);
}

/* A call with a reply that has no room for four numbers writes nothing, whatever else it is given. */
static void no_room(void)
{
    static const char *const names[] = {"no entry", "one entry", "two entries", "three entries"};
    struct lengths n = plenty();
    size_t length;
    const uint8_t *file = hex(R, &length);

    for (n.reply = 0; n.reply < SWARMBANNER_REPLY_LEAST; n.reply++) {
        expect(call_check(file, length, n) == SWARMBANNER_NO_ROOM, "check has no room", names[n.reply]);
        expect(memory_kept() && lend_kept(&reply_lend), "check without room touches nothing", names[n.reply]);
        expect(call_read(file, length, n) == SWARMBANNER_NO_ROOM, "read has no room", names[n.reply]);
        expect(lend_kept(&space_lend) && lend_kept(&reply_lend), "read without room touches nothing", names[n.reply]);
        expect(swarmbanner_member(file, length, 0, NULL, 0, lend_reply(n), n.reply) == SWARMBANNER_NO_ROOM,
               "member has no room", names[n.reply]);
        expect(lend_kept(&reply_lend), "member without room touches nothing", names[n.reply]);
        expect(call_replay(file, length, NULL, 0, n) == SWARMBANNER_NO_ROOM, "replay has no room", names[n.reply]);
        expect(run_kept() && lend_kept(&reply_lend), "replay without room touches nothing", names[n.reply]);
        /* tables that no file has; more of this is with writing */
        expect(call_write(NULL, 0, n) == SWARMBANNER_NO_ROOM, "write has no room", names[n.reply]);
        expect(lend_kept(&buffer_lend) && lend_kept(&reply_lend), "write without room touches nothing", names[n.reply]);
    }
    n = least;
    n.space = SWARMBANNER_SPACE_LEAST - 1;
    expect(call_read(file, length, n) == SWARMBANNER_NO_ROOM, "read has no room", "space one short");
    expect(lend_kept(&space_lend) && lend_kept(&reply_lend), "read without room touches nothing", "space one short");
    n.space = 0;
    expect(call_read(file, length, n) == SWARMBANNER_NO_ROOM, "read has no room", "no space");
    n = plenty();
    for (n.record = 0; n.record < SWARMBANNER_RECORD_LEAST; n.record++) {
        expect(call_replay(file, length, NULL, 0, n) == SWARMBANNER_NO_ROOM, "replay has no room", "a short record");
        expect(run_kept() && lend_kept(&reply_lend), "replay without room touches nothing", "a short record");
        /* before a file that is refused */
        expect(call_replay(NULL, 0, NULL, 0, n) == SWARMBANNER_NO_ROOM, "replay has no room", "a short record and no file");
        expect(run_kept() && lend_kept(&reply_lend), "replay without room touches nothing", "a short record and no file");
    }
}

static void short_memory(void)
{
    size_t length;
    const uint8_t *file = hex(R, &length);
    struct lengths n[6];
    size_t i;

    for (i = 0; i < 6; i++)
        n[i] = least;
    n[0].seen--;
    n[1].queue--;
    n[2].contents--;
    n[3].seen = 0;
    n[4].queue = 0;
    n[5].contents = 0;
    for (i = 0; i < 6; i++) {
        expect(call_check(file, length, n[i]) == SWARMBANNER_REFUSED && replied(2, 0, 0), "short memory", "2 at 0");
        expect(memory_kept(), "short memory is kept", "2 at 0");
    }
}

/* A file that is too long is refused before memory that is too short, and a broken file after it. */
static void long_files(void)
{
    static uint8_t bytes[SWARMBANNER_FILE_MOST + 1];
    struct lengths none = {0, 0, 0, 0, 0, SWARMBANNER_RECORD_LEAST, 0, 0, SWARMBANNER_REPLY_LEAST};
    const uint8_t *file;

    memset(bytes, 9, sizeof bytes);
    file = lend_copy(&file_lend, bytes, sizeof bytes);
    expect(call_check(file, sizeof bytes, least) == SWARMBANNER_REFUSED && replied(1, 16384, 0), "too long", "check");
    expect(call_check(file, sizeof bytes, none) == SWARMBANNER_REFUSED && replied(1, 16384, 0), "1 before 2", "check");
    expect(call_read(file, sizeof bytes, least) == SWARMBANNER_REFUSED && replied(1, 16384, 0), "too long", "read");
    expect(call_replay(file, sizeof bytes, file, sizeof bytes, none) == SWARMBANNER_REFUSED && replied(1, 16384, 0), "too long",
           "replay");
    expect(call_check(file + 1, sizeof bytes - 1, least) == SWARMBANNER_REFUSED && replied(5, 0, 0), "longest", "check");
    expect(call_check(file + 1, sizeof bytes - 1, none) == SWARMBANNER_REFUSED && replied(2, 0, 0), "2 before 5", "check");
}

static void null_with_nothing(void)
{
    expect(call_check(NULL, 0, least) == SWARMBANNER_REFUSED && replied(3, 0, 0), "no file", "check");
    expect(call_read(NULL, 0, least) == SWARMBANNER_REFUSED && replied(3, 0, 0), "no file", "read");
    expect(swarmbanner_member(NULL, 0, 0, NULL, 0, lend_reply(least), least.reply) == SWARMBANNER_REFUSED &&
               replied(3, 0, 0), "no file", "member");
    expect(call_replay(NULL, 0, NULL, 0, least) == SWARMBANNER_REFUSED && replied(3, 0, 0), "no file", "replay");
    expect(run_kept(), "record and memory are kept", "no file");
    expect(call_write(NULL, 0, least) == SWARMBANNER_REFUSED && replied(16, 0, 0), "no tables", "write");
    expect(lend_kept(&buffer_lend), "the buffer is kept", "no tables");
}

static size_t ask(const char *text, size_t control, const uint8_t *contents, size_t count)
{
    size_t length;
    const uint8_t *file = hex(text, &length);
    const uint8_t *asked = count == 0 ? NULL : lend_copy(&member_lend, contents, count);

    return swarmbanner_member(file, length, control, asked, count, lend_reply(plenty()), plenty().reply);
}

/* What membership says of contents after the step that a file is left by: no, and as many are followed as checking says. */
static void expect_lost(const struct worked *c, size_t control, const char *after, size_t count)
{
    expect(ask(c->file, control, (const uint8_t *)after, count) == SWARMBANNER_NO && replied(c->fourth, 0, 0),
           "followed as far as checking says", c->name);
}

static const struct worked *case_named(const char *name)
{
    const struct worked *c = cases;

    while (strcmp(c->name, name) != 0)
        c++;
    return c;
}

static void membership(void)
{
    static const uint8_t in_order[] = {0, 1}, out_of_order[] = {1, 0}, unknown[] = {0, 2}, many[] = {0, 0, 0, 0, 1, 1, 1, 1, 1};

    expect(ask(S, 0, in_order, 2) == SWARMBANNER_YES && replied(2, 0, 0), "0 1 belong", "S");
    expect(ask(S, 0, many, 9) == SWARMBANNER_YES && replied(9, 0, 0), "nine messages belong", "S");
    expect(ask(S, 0, NULL, 0) == SWARMBANNER_YES && replied(0, 0, 0), "no contents belong", "S");
    expect(ask(S, 0, out_of_order, 2) == SWARMBANNER_REFUSED && replied(13, 1, 0), "1 0 are refused", "S");
    expect(ask(S, 0, unknown, 2) == SWARMBANNER_REFUSED && replied(12, 1, 0), "0 2 are refused", "S");
    expect(ask(S, 1, unknown, 2) == SWARMBANNER_REFUSED && replied(11, 0, 0), "no such control state", "S");
    expect(ask(S, (size_t)-1, NULL, 0) == SWARMBANNER_REFUSED && replied(11, 0, 0), "highest control state", "S");
    /* lost at once, at the end, where nothing is read, where there is no root, and with more behind the place */
    expect(ask(cases[1].file, 0, in_order, 1) == SWARMBANNER_NO && replied(0, 0, 0), "0 does not belong", "b");
    expect(ask(cases[3].file, 0, many, 4) == SWARMBANNER_NO && replied(4, 0, 0), "0 0 0 0 do not belong", "d");
    expect(ask(cases[3].file, 0, NULL, 0) == SWARMBANNER_NO && replied(0, 0, 0), "no contents do not belong", "d");
    expect(ask(case_named("no root")->file, 1, many, 4) == SWARMBANNER_NO && replied(0, 0, 0), "nothing belongs", "no root");
    expect(ask(cases[2].file, 0, many, 4) == SWARMBANNER_NO && replied(1, 0, 0), "0 0 0 0 do not belong", "c");
    expect_lost(&cases[1], 0, "\0", 1);
    expect_lost(&cases[2], 0, "\0\0", 2);
    expect_lost(case_named("leaves"), 0, "\0\0\1", 3);
    expect_lost(case_named("a part of the word"), 0, "\0\1\2", 3);
    expect_lost(case_named("the whole word"), 0, "\0\1\2", 3);
    expect_lost(case_named("no root"), 1, "\0\0", 2);
    expect_lost(case_named("a part of what waits"), 1, "\0\0", 2);
    expect_lost(case_named("sixteen sent"), 1, "\1\2\3\4\5\6\7\10\11\12\13\14\15\16\17\20", 16);
    expect_lost(case_named("sixteen received"), 1, "\0", 1);
    /* the start does not count */
    expect(ask(R2, 0, NULL, 0) == SWARMBANNER_YES && replied(0, 0, 0), "no contents belong", "two wait");
    expect(ask(R2, 0, many, 3) == SWARMBANNER_YES && replied(3, 0, 0), "three belong", "two wait");
    expect(ask(case_named("nothing waits")->file, 0, many, 3) == SWARMBANNER_REFUSED && replied(23, 0, 0), "23", "nothing waits");
}

/* The tables of S, byte by byte. */
static void tables(void)
{
    static uint8_t expected[SWARMBANNER_SPACE_LEAST];
    static const uint8_t counts[] = {1, 2, 2, 1, 2, 0};
    static const uint8_t transition[] = {0, 0, 0, 1, 0, 1, 0};
    size_t length;
    const uint8_t *file = hex(S, &length);

    memcpy(expected + SWARMBANNER_AT_COUNTS, counts, sizeof counts);
    expected[SWARMBANNER_AT_STATES] = 1;
    expected[SWARMBANNER_AT_MESSAGES] = expected[SWARMBANNER_AT_MESSAGES + 1] = 1;
    memcpy(expected + SWARMBANNER_AT_TRANSITIONS, transition, sizeof transition);
    expected[SWARMBANNER_AT_FINALS] = expected[SWARMBANNER_AT_FINALS + 1] = 1;
    expected[SWARMBANNER_AT_ARCS] = 1;
    expected[SWARMBANNER_AT_ARCS + 1] = 2;
    expected[SWARMBANNER_AT_ARCS + SWARMBANNER_ARC_ROW + 1] = 2;
    expected[SWARMBANNER_AT_ROOTS] = 1;
    expect(call_read(file, length, plenty()) == SWARMBANNER_READ, "tables are read", "S");
    expect(memcmp(lend_at(&space_lend), expected, sizeof expected) == 0, "tables as laid out", "S");
}

/* What waits at the start, byte by byte, and the first transition right after it; nothing of it in a file that starts empty. */
static void starting(void)
{
    static const uint8_t expected[] = {
        2, 2, 0, 0, 3, 1, 0, 0,
        1, 0, 1, 0, 0, 0, 0, 0, 3, 0, 0, 0, 0, 0, 0, 0, 0, 0, 0, 0, 0, 0, 0, 0, 0, 0, 0, 0, 0, 0, 0, 0,
        0, 0, 1, 1, 0, 2, 0, 1};
    static const uint8_t nothing[SWARMBANNER_AT_TRANSITIONS - SWARMBANNER_AT_LENGTHS];
    size_t length;
    const uint8_t *file = hex(MS, &length);

    expect(call_read(file, length, plenty()) == SWARMBANNER_READ, "read", "MS");
    expect(memcmp(lend_at(&space_lend) + SWARMBANNER_AT_MESSAGES, expected, sizeof expected) == 0, "what waits", "MS");
    file = hex(M, &length);
    expect(call_read(file, length, plenty()) == SWARMBANNER_READ, "read", "M");
    expect(memcmp(lend_at(&space_lend) + SWARMBANNER_AT_LENGTHS, nothing, sizeof nothing) == 0, "nothing waits", "M");
}

/* The rows of two words of sixteen, and the byte after them, which is of a transition that is not there. */
static void words(void)
{
    static const uint8_t rows[2 * SWARMBANNER_TRANSITION_ROW + 1] = {
        0, 0, 1, 1, 1, 16, 1, 2, 3, 4, 5, 6, 7, 8, 9, 10, 11, 12, 13, 14, 15, 16,
        0, 1, 0, 2, 1, 16, 16, 15, 14, 13, 12, 11, 10, 9, 8, 7, 6, 5, 4, 3, 2, 1,
        0};
    size_t length;
    const uint8_t *file = hex(W, &length);

    expect(call_read(file, length, plenty()) == SWARMBANNER_READ, "words of sixteen are read", "W");
    expect(memcmp(lend_at(&space_lend) + SWARMBANNER_AT_TRANSITIONS, rows, sizeof rows) == 0, "rows as laid out", "W");
}

/* As many transitions as there can be, all with words of sixteen: the final mark of pool state 0 follows the last row. */
static void full_table(void)
{
    static const uint8_t head[] = {1, 1, 0, 1, 16, 128, 1}, end[] = {1, 1, 0, 1, 0};
    static uint8_t rows[SWARMBANNER_TRANSITIONS_MOST * SWARMBANNER_TRANSITION_ROW];
    static uint8_t bytes[sizeof head + sizeof rows + sizeof end];
    uint8_t *row = rows;
    size_t i;

    for (; row < rows + sizeof rows; row += SWARMBANNER_TRANSITION_ROW) {
        row[3] = 2;
        row[5] = SWARMBANNER_WORD_MOST;
        for (i = 0; i < SWARMBANNER_WORD_MOST; i++)
            row[SWARMBANNER_TRANSITION_WORD + i] = (uint8_t)((row - rows + i) % 16);
    }
    memcpy(bytes, head, sizeof head);
    memcpy(bytes + sizeof head, rows, sizeof rows);
    memcpy(bytes + sizeof head + sizeof rows, end, sizeof end);
    expect(call_read(lend_copy(&file_lend, bytes, sizeof bytes), sizeof bytes, least) == SWARMBANNER_READ, "read", "full");
    expect(memcmp(lend_at(&space_lend) + SWARMBANNER_AT_TRANSITIONS, rows, sizeof rows) == 0, "every row", "full");
    expect(lend_at(&space_lend)[SWARMBANNER_AT_TRANSITIONS + sizeof rows] == 1, "the byte after the rows", "full");
}

/* A replay: where it is told of, the last configuration. */
struct replayed {
    const char *name, *file, *trace;
    size_t kind, first, second, third;
    size_t queues, state, waits[2];
    const char *messages[2];
};

static const struct replayed replays[] = {
    {"no steps", R, "", SWARMBANNER_END, 0, 0, 0, 1, 0, {0, 0}, {"", ""}},
    {"sent", R, "00 00", SWARMBANNER_END, 2, 0, 0, 1, 0, {2, 0}, {"\0\0", ""}},
    {"received", R, "00 00 01 01 00", SWARMBANNER_END, 5, 0, 0, 1, 0, {1, 0}, {"\0", ""}},
    {"empty queue", R, "00 01 01", SWARMBANNER_STEP_REFUSED, 14, 2, 2, 1, 0, {0, 0}, {"", ""}},
    {"no transition", R, "00 02", SWARMBANNER_STEP_REFUSED, 5, 1, 1, 1, 0, {1, 0}, {"\0", ""}},
    {"no transition of two bytes", R, "00 8001", SWARMBANNER_STEP_REFUSED, 5, 1, 1, 1, 0, {1, 0}, {"\0", ""}},
    {"largest number", R, "ff7f", SWARMBANNER_STEP_REFUSED, 5, 0, 0, 1, 0, {0, 0}, {"", ""}},
    {"ends inside a number", R, "00 80", SWARMBANNER_STEP_REFUSED, 3, 2, 1, 1, 0, {1, 0}, {"\0", ""}},
    {"longer form", R, "00 8000", SWARMBANNER_STEP_REFUSED, 4, 1, 1, 1, 0, {1, 0}, {"\0", ""}},
    {"three bytes", R, "808001", SWARMBANNER_STEP_REFUSED, 4, 0, 0, 1, 0, {0, 0}, {"", ""}},
    {"outside", R_HEAD "01 01 00 01 00", "00 80", SWARMBANNER_LEFT, 1, 0, 0, 1, 0, {1, 0}, {"\0", ""}},
    {"outside later", R_HEAD "02 01 01 00 01 01 00 01 00", "00 01 00 00 01", SWARMBANNER_LEFT, 4, 1, 0, 1, 0, {2, 0},
     {"\0\0", ""}},
    {"outside at the end", R_HEAD "02 01 01 00 01 01 00 01 00", "00 00", SWARMBANNER_LEFT, 2, 1, 0, 1, 0, {2, 0},
     {"\0\0", ""}},
    {"outside in a word", F_SEND "03 01 01 00 01 00 01 01 02 00 00" "01 00", "00", SWARMBANNER_LEFT, 1, 2, 0, 1, 0, {3, 0},
     {"\0\1\2", ""}},
    {"outside after a word", F_SEND "04 01 01 00 01 00 01 01 02 00 01 02 03 00 00" "01 00", "00", SWARMBANNER_LEFT, 1, 3, 0, 1,
     0, {3, 0}, {"\0\1\2", ""}},
    {"outside in queue 1", M_HEAD "04 01 01 00 01 00 01 01 02 01 01 03 03 00 00" "01 01 01 00", "00 01", SWARMBANNER_LEFT, 2, 3,
     0, 2, 2, {2, 2}, {"\0\1", "\3\2"}},
    {"start outside", R_HEAD "01 00 01 00 00 01 00", "00 01", SWARMBANNER_LEFT, 0, 0, 0, 1, 0, {0, 0}, {"", ""}},
    {"start outside, no steps", R_HEAD "01 00 01 00 00 01 00", "", SWARMBANNER_LEFT, 0, 0, 0, 1, 0, {0, 0}, {"", ""}},
    {"S", S, "00 00", SWARMBANNER_END, 2, 0, 0, 2, 0, {2, 0}, {"\0\0", ""}},
    {"two queues", M, "00 01", SWARMBANNER_END, 2, 0, 0, 2, 2, {2, 2}, {"\0\1", "\3\2"}},
    {"oldest first", M, "00 01 02 00", SWARMBANNER_END, 4, 0, 0, 2, 1, {3, 2}, {"\1\0\1", "\3\2"}},
    {"both emptied", M, "00 01 02 03 04 06", SWARMBANNER_END, 6, 0, 0, 2, 0, {0, 0}, {"", ""}},
    {"another state", M, "00 00", SWARMBANNER_STEP_REFUSED, 14, 1, 1, 2, 1, {2, 0}, {"\0\1", ""}},
    {"another message", M, "00 01 02 00 01 02", SWARMBANNER_STEP_REFUSED, 14, 5, 5, 2, 2, {3, 4},
     {"\1\0\1", "\3\2\3\2"}},
    {"local", M, "05", SWARMBANNER_END, 1, 0, 0, 2, 2, {0, 0}, {"", ""}},
    {"sixteen sent", W, "00", SWARMBANNER_LEFT, 1, 0, 0, 2, 1, {0, 16},
     {"", "\1\2\3\4\5\6\7\10\11\12\13\14\15\16\17\20"}},
    {"two wait, no steps", R2, "", SWARMBANNER_END, 0, 0, 0, 1, 0, {2, 0}, {"\0\0", ""}},
    {"two wait, three sent", R2, "00 00 00", SWARMBANNER_END, 3, 0, 0, 1, 0, {5, 0}, {"\0\0\0\0\0", ""}},
    {"two wait, both received", R2, "01 01", SWARMBANNER_END, 2, 0, 0, 1, 0, {0, 0}, {"", ""}},
    {"two wait, three received", R2, "01 01 01", SWARMBANNER_STEP_REFUSED, 14, 2, 2, 1, 0, {0, 0}, {"", ""}},
    {"what waits is older", MS, "00 01", SWARMBANNER_END, 2, 0, 0, 2, 2, {5, 3}, {"\1\0\1\0\1", "\3\3\2"}},
    {"what waits is in turn", MS, "03 05 02 03 03", SWARMBANNER_STEP_REFUSED, 14, 4, 4, 2, 0, {0, 1}, {"", "\3"}},
    {"what waits is not all of a word", MS, "04", SWARMBANNER_STEP_REFUSED, 14, 0, 0, 2, 0, {3, 1}, {"\1\0\1", "\3"}},
    {"what waits is outside", N_HEAD "01 00 03 020202" N_REST, "00", SWARMBANNER_LEFT, 0, 3, 0, 2, 0, {1, 3},
     {"\0", "\2\2\2"}},
    {"eight wait and are outside", N_HEAD "08 0001000101000001 08 0202020202020202" N_REST, "", SWARMBANNER_LEFT, 0, 1, 0, 2, 0,
     {8, 8}, {"\0\1\0\1\1\0\0\1", "\2\2\2\2\2\2\2\2"}},
    {"outside after what waits", N_HEAD "01 00 02 0202" N_REST, "01", SWARMBANNER_LEFT, 1, 3, 0, 2, 0, {1, 3},
     {"\0", "\2\2\2"}},
};

/* The record and the memory are those of a configuration, and all around them is as it was. */
static void expect_run(const struct replayed *c)
{
    size_t record[SWARMBANNER_RECORD_LEAST] = {0};
    uint8_t bytes[2 * SWARMBANNER_QUEUE_LEAST] = {0};
    size_t queue;

    record[SWARMBANNER_RECORD_STATES] = c->state;
    for (queue = 0; queue < c->queues; queue++) {
        record[SWARMBANNER_RECORD_LENGTHS + queue] = c->waits[queue];
        memcpy(bytes + queue * SWARMBANNER_QUEUE_LEAST, c->messages[queue], c->waits[queue]);
    }
    expect(memcmp(lend_at(&record_lend), record, sizeof record) == 0, "record of a replay", c->name);
    expect(lend_kept_from(&record_lend, sizeof record), "rest of the record kept", c->name);
    expect(memcmp(lend_at(&memory_lend), bytes, c->queues * SWARMBANNER_QUEUE_LEAST) == 0, "queues of a replay", c->name);
    expect(lend_kept_from(&memory_lend, c->queues * SWARMBANNER_QUEUE_LEAST), "memory after the queues kept", c->name);
}

static void replay_case(const struct replayed *c, struct lengths n)
{
    size_t length, trace_length;
    const uint8_t *file = hex(c->file, &length);
    const uint8_t *trace = hex_in(&trace_lend, c->trace, &trace_length);

    expect(call_replay(file, length, trace, trace_length, n) == c->kind, "kind of a replay", c->name);
    expect(replied(c->first, c->second, c->third), "numbers of a replay, and the reply's rest kept", c->name);
    expect_run(c);
}

/* The file's refusals, then the trace's, then the memory's; record and memory are kept. */
static void replays_refused(void)
{
    static uint8_t zeros[SWARMBANNER_TRACE_MOST + 1];
    const uint8_t *trace = lend_copy(&trace_lend, zeros, sizeof zeros);
    struct lengths n = plenty();
    size_t i, length;

    for (i = 0; i < CASES; i++) {
        const uint8_t *file = hex(cases[i].file, &length);

        if (cases[i].kind != SWARMBANNER_REFUSED)
            continue;
        n.memory = i % 2 == 0 ? MEMORY_LEAST : 0;
        expect(call_replay(file, length, trace, sizeof zeros - i % 3, n) == SWARMBANNER_REFUSED, "file refused",
               cases[i].name);
        expect(replied(cases[i].first, cases[i].second, cases[i].third), "as reading refuses it", cases[i].name);
        expect(run_kept(), "record and memory kept", cases[i].name);
    }
    for (n.memory = 0; n.memory <= MEMORY_LEAST; n.memory += MEMORY_LEAST) {
        const uint8_t *file = hex(R, &length);

        expect(call_replay(file, length, trace, sizeof zeros, n) == SWARMBANNER_TRACE_REFUSED && replied(1, 16384, 0),
               "trace refused", "one byte too many");
        expect(run_kept(), "record and memory kept", "one byte too many");
    }
}

/* Memory for the queues of the file is asked for, also of a file whose start is outside. */
static void short_queue_memory(void)
{
    static const char *const files[] = {R, R_HEAD "01 00 01 00 00 01 00", S, M};
    static const size_t queues[] = {1, 1, 2, 2};
    struct lengths n = plenty();
    size_t i, length;

    for (i = 0; i < 4; i++) {
        const uint8_t *file = hex(files[i], &length);
        size_t enough = queues[i] * SWARMBANNER_QUEUE_LEAST;
        size_t lengths[4];
        size_t j;

        lengths[0] = 0;
        lengths[1] = 1;
        lengths[2] = enough - SWARMBANNER_QUEUE_LEAST;
        lengths[3] = enough - 1;
        for (j = 0; j < 4; j++) {
            n.memory = lengths[j];
            expect(call_replay(file, length, NULL, 0, n) == SWARMBANNER_MEMORY_REFUSED && replied(2, 0, 0), "memory refused",
                   files[i]);
            expect(run_kept(), "record and memory kept", files[i]);
        }
        n.memory = enough;
        expect(call_replay(file, length, NULL, 0, n) == (i == 1 ? SWARMBANNER_LEFT : SWARMBANNER_END), "memory enough",
               files[i]);
    }
}

/* A queue takes 1,024 messages and not one more; a trace 16,384 bytes. */
static void full_queue(void)
{
    static uint8_t steps[SWARMBANNER_TRACE_MOST];
    static struct replayed full = {"full", R, NULL, 0, 0, 0, 0, 1, 0, {SWARMBANNER_QUEUE_LEAST, 0}, {NULL, ""}};
    static const struct replayed empty = {"to and fro", R, NULL, 0, 0, 0, 0, 1, 0, {0, 0}, {"", ""}};
    const uint8_t *trace;
    size_t i, length;
    const uint8_t *file = hex(R, &length);

    full.messages[0] = (const char *)steps;
    trace = lend_copy(&trace_lend, steps, SWARMBANNER_QUEUE_LEAST);
    expect(call_replay(file, length, trace, 1024, least) == SWARMBANNER_END && replied(1024, 0, 0), "1,024 messages", "R");
    expect_run(&full);
    trace = lend_copy(&trace_lend, steps, 1025);
    expect(call_replay(file, length, trace, 1025, plenty()) == SWARMBANNER_STEP_REFUSED && replied(15, 1024, 1024),
           "1,025 messages", "R");
    expect_run(&full);
    trace = lend_copy(&trace_lend, steps, sizeof steps);
    expect(call_replay(file, length, trace, sizeof steps, least) == SWARMBANNER_STEP_REFUSED && replied(15, 1024, 1024),
           "16,384 messages", "R");
    expect_run(&full);
    for (i = 1; i < sizeof steps; i += 2)
        steps[i] = 1;
    trace = lend_copy(&trace_lend, steps, sizeof steps);
    expect(call_replay(file, length, trace, sizeof steps, least) == SWARMBANNER_END && replied(16384, 0, 0), "longest trace",
           "R");
    expect_run(&empty);
}

/* Messages stay in turn in a queue that goes round its bytes: 0 and 1 are sent by 0 and 1, received by 2 and 3. */
static void queue_goes_round(void)
{
    static const char two[] = "01 01 00 01 02 04 000000 01 00 01 00 000000 01 00 01 01 000000 02 00 01 00 000000 02 00 01 01"
                              "01 01 02 00 00 01 00 01 00";
    static uint8_t sent[SWARMBANNER_TRACE_MOST], steps[SWARMBANNER_TRACE_MOST];
    struct replayed round = {"round", two, NULL, 0, 0, 0, 0, 1, 0, {700, 0}, {NULL, ""}};
    size_t i, put = 0, taken = 0, length;
    const uint8_t *file, *trace;
    uint32_t noise = 99;

    for (i = 0; i < sizeof steps; i++) {
        noise = noise * 1664525u + 1013904223u;
        if (put - taken < 700)
            steps[i] = sent[put++] = (uint8_t)(noise >> 31);
        else
            steps[i] = (uint8_t)(2 + sent[taken++]);
    }
    round.messages[0] = (const char *)sent + taken;
    round.waits[0] = put - taken;
    file = hex(two, &length);
    trace = lend_copy(&trace_lend, steps, sizeof steps);
    expect(call_replay(file, length, trace, sizeof steps, plenty()) == SWARMBANNER_END && replied(16384, 0, 0), "round",
           "two");
    expect_run(&round);
    /* the other message is not the oldest */
    steps[sizeof steps - 1] = (uint8_t)(3 - sent[taken]);
    trace = lend_copy(&trace_lend, steps, sizeof steps);
    expect(call_replay(file, length, trace, sizeof steps, plenty()) == SWARMBANNER_STEP_REFUSED && replied(14, 16383, 16383),
           "not the oldest", "two");
}

/* What waits at the start takes its room: a queue of 1,024 messages takes so many less. */
static void full_from_the_start(void)
{
    static const uint8_t steps[SWARMBANNER_QUEUE_LEAST];
    static struct replayed full = {"full", R2, NULL, 0, 0, 0, 0, 1, 0, {SWARMBANNER_QUEUE_LEAST, 0}, {NULL, ""}};
    const uint8_t *trace = lend_copy(&trace_lend, steps, sizeof steps);
    size_t length;
    const uint8_t *file = hex(R2, &length);

    full.messages[0] = (const char *)steps;
    expect(call_replay(file, length, trace, 1022, least) == SWARMBANNER_END && replied(1022, 0, 0), "1,022 messages more", "R2");
    expect_run(&full);
    expect(call_replay(file, length, trace, 1023, plenty()) == SWARMBANNER_STEP_REFUSED && replied(15, 1022, 1022),
           "1,023 messages more", "R2");
    expect_run(&full);
}

/* File and trace may be the same bytes, since both are only read. */
static void same_bytes(void)
{
    size_t length;
    const uint8_t *file = hex(M, &length);

    expect(call_replay(file, length, file, length, least) == SWARMBANNER_STEP_REFUSED && replied(14, 0, 0), "the same", "M");
}

int main(void)
{
    struct lengths most = plenty();
    size_t i;

    if (!swarmbanner_fits()) {
        printf("FAILED: built for layout %u, the library has layout %zu\n", SWARMBANNER_LAYOUT, swarmbanner_layout());
        return 1;
    }
    lend_make(&file_lend, SWARMBANNER_FILE_MOST + 1);
    lend_make(&member_lend, 16);
    lend_make(&space_lend, most.space);
    lend_make(&seen_lend, most.seen * sizeof(uint16_t));
    lend_make(&queue_lend, most.queue * sizeof(uint16_t));
    lend_make(&contents_lend, most.contents);
    lend_make(&trace_lend, SWARMBANNER_TRACE_MOST + 1);
    lend_make(&memory_lend, most.memory);
    lend_make(&record_lend, most.record * sizeof(size_t));
    lend_make(&tables_lend, SWARMBANNER_SPACE_LEAST + MORE);
    lend_make(&buffer_lend, most.buffer);
    lend_make(&text_lend, SWARMBANNER_TEXT_MOST + MORE);
    lend_make(&pool_lend, most.pool);
    lend_make(&reply_lend, most.reply * sizeof(size_t));
    for (i = 0; i < CASES; i++) {
        check_case(&cases[i], least);
        check_case(&cases[i], plenty());
        read_case(&cases[i], least);
        read_case(&cases[i], plenty());
        if (cases[i].kind != SWARMBANNER_REFUSED)
            write_text(cases[i].name, cases[i].file);
    }
    for (i = 0; i < sizeof replays / sizeof *replays; i++) {
        replay_case(&replays[i], least);
        replay_case(&replays[i], plenty());
    }
    no_room();
    short_memory();
    long_files();
    null_with_nothing();
    membership();
    tables();
    starting();
    words();
    full_table();
    replays_refused();
    short_queue_memory();
    full_queue();
    queue_goes_round();
    full_from_the_start();
    same_bytes();
    writing();
    expressions();
    printf("%u tests, %u failures\n", tests, failures);
    return failures > 0;
}
