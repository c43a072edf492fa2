/*
 * A loop of its own for `fuzz.c`, where libFuzzer is not to be had: fuzz_loop SEED COUNT FILE..
 *
 * The session files named, and others with long words, are changed at random: bytes set, moved, taken out, put in, cut off,
 * or joined with another. Traces are patterns at random, most of them steered. Expressions are changed in a sign or two.
 */
#include "fuzz.h"
#include "generate_text.h"
#include "swarmbanner.h"

#include <stdio.h>
#include <stdlib.h>
#include <string.h>

#define FILES 64
#define INPUT_MOST (INPUT_HEAD + SWARMBANNER_FILE_MOST)

/* A run of so many inputs must have met what `fuzz_met_enough` asks for. */
#define ENOUGH 2000

static uint8_t files[FILES][SWARMBANNER_FILE_MOST];
static size_t lengths[FILES];
static uint8_t input[INPUT_MOST + 1];
static uint64_t state;

static uint64_t next(void)
{
    return generate_next(&state);
}

static size_t below(size_t count)
{
    return (size_t)(next() % count);
}

/* Changes one thing in bytes from `from` on; returns the new length. */
static size_t change(size_t from, size_t length)
{
    size_t at = from + below(length - from + 1);
    size_t other = below(FILES);

    if (at == length && length == INPUT_MOST)
        return length;
    switch (below(8)) {
    case 0:
        input[at] = (uint8_t)next();
        return at == length ? length + 1 : length;
    case 1:
        input[at] = (uint8_t)below(6);
        return at == length ? length + 1 : length;
    case 2:
        if (length == INPUT_MOST)
            return length;
        memmove(input + at + 1, input + at, length - at);
        input[at] = (uint8_t)below(6);
        return length + 1;
    case 3:
        if (at == length)
            return length;
        memmove(input + at, input + at + 1, length - at - 1);
        return length - 1;
    case 4:
        return at;
    case 5:
        if (lengths[other] == 0 || at + lengths[other] > INPUT_MOST)
            return length;
        memcpy(input + at, files[other], lengths[other]);
        return at + lengths[other];
    default:
        if (at < length)
            input[at] ^= (uint8_t)(1u << below(8));
        return length;
    }
}

/* One of the files named. Returns its length. */
static size_t put_named(uint8_t *at, size_t count)
{
    size_t of = below(count);

    memcpy(at, files[of], lengths[of]);
    return lengths[of];
}

/* A pattern for the trace: bytes that steer, or numbers of a few transitions and now and then any byte. */
static size_t put_pattern(uint8_t *at)
{
    size_t i, length = below(4) == 0 ? below(256) : below(24), is_plain = below(8);

    input[INPUT_TRACE] = (uint8_t)(next() | (below(4) > 0 ? TRACE_STEERED : 0));
    for (i = 0; i < length; i++)
        at[i] = (uint8_t)(is_plain > 0 ? below(60) : next());
    /* a number that has no end, after a way that is steered */
    if (length > 0 && below(3) == 0) {
        input[INPUT_TRACE] |= TRACE_RAW_END;
        at[length - 1] = (uint8_t)(128 + below(128));
    }
    input[INPUT_PATTERN] = (uint8_t)length;
    return length;
}

/* An expression, mostly as it is, or signs at random. */
static size_t put_text(uint8_t *at)
{
    static const char signs[] = "0123  (()||**x";
    size_t length = generate_text(next(), at), changes = below(3) / 2 * (1 + below(2)), i;

    if (below(8) == 0)
        for (length = below(30), changes = 0, i = 0; i < length; i++)
            at[i] = (uint8_t)signs[below(sizeof signs - 1)];
    for (i = 0; i < changes && length > 0; i++)
        at[below(length)] = (uint8_t)(below(10) == 0 ? next() : (uint64_t)signs[below(sizeof signs - 1)]);
    input[INPUT_TEXT] = (uint8_t)length;
    input[INPUT_TEXT_HIGH] = (uint8_t)(length / 256);
    return length;
}

static void one(size_t count)
{
    int is_generated = below(2) == 0;
    /* a generated file is new by itself */
    size_t changes = is_generated ? below(3) / 2 : below(4), length, asked, begins, i;

    /* a question of up to three messages, a pattern, a text, and the file */
    asked = below(4);
    input[INPUT_LENGTHS] = (uint8_t)next();
    input[INPUT_CONTROL] = (uint8_t)below(is_generated ? 4 : 20);
    input[INPUT_CONTROL_HIGH] = (uint8_t)(below(50) == 0);
    input[INPUT_ASKED] = (uint8_t)asked;
    for (i = 0; i < asked; i++)
        input[INPUT_HEAD + i] = (uint8_t)below(5);
    begins = INPUT_HEAD + asked + put_pattern(input + INPUT_HEAD + asked);
    begins += put_text(input + begins);
    length = begins + (is_generated ? generate_file(next(), input + begins) : put_named(input + begins, count));
    for (i = 0; i < changes; i++)
        length = change(begins, length);
    LLVMFuzzerTestOneInput(input, length);
}

static size_t load(int count, char **names)
{
    size_t loaded = 0;
    int i;

    for (i = 0; i < count && loaded < FILES; i++) {
        FILE *stream = fopen(names[i], "rb");

        if (stream == NULL) {
            perror(names[i]);
            exit(2);
        }
        /* room is left for what comes before the file */
        lengths[loaded] = fread(files[loaded], 1, SWARMBANNER_FILE_MOST / 2, stream);
        fclose(stream);
        loaded++;
    }
    return loaded;
}

int main(int count, char **words)
{
    unsigned long inputs, i;
    size_t loaded;

    if (count < 4) {
        fprintf(stderr, "usage: fuzz_loop SEED COUNT FILE..\n");
        return 2;
    }
    state = strtoul(words[1], NULL, 10);
    inputs = strtoul(words[2], NULL, 10);
    loaded = load(count - 3, words + 3);
    for (i = 0; i < inputs; i++)
        one(loaded);
    if (inputs >= ENOUGH && !fuzz_met_enough())
        return 1;
    printf("seed %s, %lu inputs, none fails\n", words[1], inputs);
    return 0;
}
