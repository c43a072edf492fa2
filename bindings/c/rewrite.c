/*
 * Makes a diagram state of a session file final, writes the file that this gives under another name, and says how many bytes
 * it has. Exit status: 0 written; 2 the file is refused, or no session file has what would be written; 3 wrong usage, a library
 * of another layout, a diagram state that is not there, or a file that cannot be read or written.
 */
#include "swarmbanner.h"

#include <errno.h>
#include <stdio.h>
#include <stdlib.h>
#include <string.h>

/* One byte more than a file may have, so that a longer one is refused as such. The new file is written here too. */
static uint8_t file[SWARMBANNER_FILE_MOST + 1];
static uint8_t tables[SWARMBANNER_SPACE_LEAST];
static size_t reply[SWARMBANNER_REPLY_LEAST];

/* Says why something was not done. */
static int complain(const char *what, const char *of_it)
{
    fprintf(stderr, "rewrite: %s %s: %s\n", what, of_it, strerror(errno));
    return 3;
}

static int refused(void)
{
    printf("refused %zu at %zu\n", reply[0], reply[1]);
    return 2;
}

/* Is a file read, to its end or to the end of the room for it? */
static int is_read(const char *name, size_t *length)
{
    FILE *stream = fopen(name, "rb");
    int failed;

    if (stream == NULL)
        return complain(name, "cannot be read"), 0;
    *length = fread(file, 1, sizeof file, stream);
    failed = ferror(stream);
    if (failed)
        complain(name, "cannot be read");
    fclose(stream);
    return !failed;
}

static int save(const char *name, size_t length)
{
    FILE *stream = fopen(name, "wb");

    if (stream == NULL)
        return complain(name, "cannot be written to");
    if (fwrite(file, 1, length, stream) < length) {
        complain(name, "cannot be written to");
        fclose(stream);
        return 3;
    }
    if (fclose(stream) != 0)
        return complain(name, "cannot be written to");
    printf("written %zu\n", length);
    return 0;
}

/* The number of a diagram state that the tables have, or their number where the word is none. */
static size_t state_of(const char *word)
{
    size_t states = tables[SWARMBANNER_AT_COUNTS + 4];
    char *end;
    unsigned long number = strtoul(word, &end, 10);

    return *word < '0' || *word > '9' || *end != '\0' || number >= states ? states : number;
}

static int rewrite(const char *from, const char *word, const char *to)
{
    size_t length, state;

    if (!is_read(from, &length))
        return 3;
    if (swarmbanner_read(file, length, tables, sizeof tables, reply, SWARMBANNER_REPLY_LEAST) != SWARMBANNER_READ)
        return refused();
    state = state_of(word);
    if (state == tables[SWARMBANNER_AT_COUNTS + 4]) {
        fprintf(stderr, "rewrite: %s has no diagram state %s\n", from, word);
        return 3;
    }
    tables[SWARMBANNER_AT_FINALS + state] = 1;
    if (swarmbanner_write(tables, sizeof tables, file, sizeof file, reply, SWARMBANNER_REPLY_LEAST) != SWARMBANNER_WRITTEN)
        return refused();
    return save(to, reply[0]);
}

int main(int count, char **words)
{
    int status;

    if (!swarmbanner_fits()) {
        fprintf(stderr, "rewrite: built for layout %u, the library has layout %zu\n", SWARMBANNER_LAYOUT,
                swarmbanner_layout());
        return 3;
    }
    if (count != 4) {
        fprintf(stderr, "usage: rewrite FILE STATE TO\n");
        return 3;
    }
    status = rewrite(words[1], words[2], words[3]);
    if (fflush(stdout) != 0)
        return complain("standard output", "cannot be written to");
    return status;
}
