/*
 * Makes the set of a control state the words of an expression, writes the file that this gives under another name, and says how
 * many bytes it has. Exit status: 0 written; 2 the file or the expression is refused, or no session file has what would be
 * written; 3 wrong usage, a library of another layout, a control state or a message that is not there, no room in the pool, or a
 * file that cannot be read or written.
 */
#include "swarmbanner.h"

#include <errno.h>
#include <stdio.h>
#include <stdlib.h>
#include <string.h>

/* One byte more than a file may have, so that a longer one is refused as such. The new file is written here too. */
static uint8_t file[SWARMBANNER_FILE_MOST + 1];
static uint8_t tables[SWARMBANNER_SPACE_LEAST], pool[SWARMBANNER_POOL_LEAST];
static size_t reply[SWARMBANNER_REPLY_LEAST];

/* Says what could not be done, with the system's reason. */
static int complain(const char *what, const char *of_it)
{
    fprintf(stderr, "expression: %s %s: %s\n", what, of_it, strerror(errno));
    return 3;
}

/* Says what a file does not have. */
static int lacks(const char *name, const char *what, const char *which)
{
    fprintf(stderr, "expression: %s %s%s\n", name, what, which);
    return 3;
}

static int refused(const char *what)
{
    printf("%srefused %zu at %zu\n", what, reply[0], reply[1]);
    return 2;
}

/* Is a file read, to its end or to the end of the room for it? */
static int is_read(const char *name, size_t *length)
{
    FILE *stream = fopen(name, "rb");
    int failed;

    if (stream == NULL)
        return complain(name, "cannot be read"), 0;
    *length = fread(file, 1, sizeof file, stream);
    failed = ferror(stream);
    if (failed)
        complain(name, "cannot be read");
    fclose(stream);
    return !failed;
}

static int save(const char *name, size_t length)
{
    FILE *stream = fopen(name, "wb");

    if (stream == NULL)
        return complain(name, "cannot be written to");
    if (fwrite(file, 1, length, stream) < length) {
        complain(name, "cannot be written to");
        fclose(stream);
        return 3;
    }
    if (fclose(stream) != 0)
        return complain(name, "cannot be written to");
    printf("written %zu\n", length);
    return 0;
}

static size_t control_states(void)
{
    size_t i, product = 1;

    for (i = 0; i < tables[SWARMBANNER_AT_COUNTS]; i++)
        product *= tables[SWARMBANNER_AT_STATES + i];
    return product;
}

/* The number of a control state that the tables have, or their number where the word is none. */
static size_t control_of(const char *word)
{
    size_t states = control_states();
    char *end;
    unsigned long number = strtoul(word, &end, 10);

    return *word < '0' || *word > '9' || *end != '\0' || number >= states ? states : number;
}

/* Has the diagram an arc for a message that the tables do not have? */
static int has_other_message(size_t states)
{
    size_t i, message;

    for (i = 0; i < states; i++)
        for (message = tables[SWARMBANNER_AT_COUNTS + 2]; message < SWARMBANNER_ARC_ROW; message++)
            if (pool[SWARMBANNER_POOL_STATES_MOST + i * SWARMBANNER_ARC_ROW + message] > 0)
                return 1;
    return 0;
}

/* Puts the states of the diagram behind those of the pool, so that all numbers are by so many higher. Returns the root. */
static uint8_t put_behind(size_t states)
{
    uint8_t *count = tables + SWARMBANNER_AT_COUNTS + 4, before = *count;
    uint8_t *arcs = tables + SWARMBANNER_AT_ARCS + before * SWARMBANNER_ARC_ROW;
    size_t i;

    memcpy(tables + SWARMBANNER_AT_FINALS + before, pool, states);
    for (i = 0; i < states * SWARMBANNER_ARC_ROW; i++) {
        uint8_t arc = pool[SWARMBANNER_POOL_STATES_MOST + i];

        arcs[i] = (uint8_t)(arc > 0 ? arc + before : 0);
    }
    *count = (uint8_t)(before + states);
    return before;
}

/* Reads the file and draws the expression; 0 where both are there, else the exit status. */
static int prepare(const char *from, const char *text)
{
    size_t length;

    if (!is_read(from, &length))
        return 3;
    if (swarmbanner_read(file, length, tables, sizeof tables, reply, SWARMBANNER_REPLY_LEAST) != SWARMBANNER_READ)
        return refused("file ");
    if (swarmbanner_expression((const uint8_t *)text, strlen(text), pool, sizeof pool, reply, SWARMBANNER_REPLY_LEAST) !=
        SWARMBANNER_DRAWN)
        return refused("text ");
    return 0;
}

static int change(const char *from, const char *word, const char *text, const char *to)
{
    int status = prepare(from, text);
    size_t states = reply[1], control;

    if (status != 0)
        return status;
    control = control_of(word);
    if (control == control_states())
        return lacks(from, "has no control state ", word);
    if (tables[SWARMBANNER_AT_COUNTS + 4] + states > SWARMBANNER_POOL_STATES_MOST)
        return lacks(from, "has no room for the diagram", "");
    if (has_other_message(states))
        return lacks(from, "does not have all messages of the expression", "");
    tables[SWARMBANNER_AT_ROOTS + control] = (uint8_t)(1 + put_behind(states));
    if (swarmbanner_write(tables, sizeof tables, file, sizeof file, reply, SWARMBANNER_REPLY_LEAST) != SWARMBANNER_WRITTEN)
        return refused("");
    return save(to, reply[0]);
}

int main(int count, char **words)
{
    int status;

    if (!swarmbanner_fits()) {
        fprintf(stderr, "expression: built for layout %u, the library has layout %zu\n", SWARMBANNER_LAYOUT,
                swarmbanner_layout());
        return 3;
    }
    if (count != 5) {
        fprintf(stderr, "usage: expression FILE CONTROL TEXT TO\n");
        return 3;
    }
    status = change(words[1], words[2], words[3], words[4]);
    if (fflush(stdout) != 0)
        return complain("standard output", "cannot be written to");
    return status;
}
