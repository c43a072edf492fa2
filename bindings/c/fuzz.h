/*
 * What an input of `fuzz.c` is made of: a head, the messages asked about, a pattern for the trace and for what is changed in
 * the tables, the text of an expression, and the file.
 */
#ifndef FUZZ_H
#define FUZZ_H

#include <stddef.h>
#include <stdint.h>

/* The bytes of the head. */
enum {
    INPUT_LENGTHS,      /* how much memory is lent */
    INPUT_CONTROL,      /* the control state asked about, */
    INPUT_CONTROL_HIGH, /* in two bytes */
    INPUT_ASKED,        /* how many messages are asked about */
    INPUT_PATTERN,      /* how long the pattern is */
    INPUT_TRACE,        /* how the trace is made from it: see below */
    INPUT_TEXT,         /* how long the text is, */
    INPUT_TEXT_HIGH,    /* in two bytes */
    INPUT_HEAD
};

/* A trace is 1 to 128 times the pattern, by the low three bits; */
#define TRACE_REPEAT(byte) ((size_t)1 << (byte) % 8)

/* its bytes as they are, or with this bit each of them picks one of the transitions that can be taken then; */
#define TRACE_STEERED 8u

/* with this bit the last byte is as it is all the same. */
#define TRACE_RAW_END 128u

int LLVMFuzzerTestOneInput(const uint8_t *data, size_t size);

/* Whether all inputs together have met what a run of some size must meet; says what is missing. */
int fuzz_met_enough(void);

#endif
