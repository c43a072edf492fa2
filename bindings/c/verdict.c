/*
 * Prints the verdict on each session file named, with its name before it where there are several.
 * Exit status, the highest over all files: 0 closed; 1 outside, leaves or bad; 2 refused; 3 wrong usage, a library of another
 * layout, a file that cannot be read, or a verdict that cannot be written.
 */
#include "swarmbanner.h"

#include <errno.h>
#include <stdio.h>
#include <string.h>

static uint16_t seen[SWARMBANNER_TABLE_LEAST];
static uint16_t queue[SWARMBANNER_TABLE_LEAST];
static uint8_t contents[SWARMBANNER_CONTENTS_LEAST];

/* One byte more than a file may have, so that a longer one is refused as such. */
static uint8_t file[SWARMBANNER_FILE_MOST + 1];

static void show(size_t length)
{
    size_t i;

    printf(":");
    for (i = 0; i < length; i++)
        printf(" %u", (unsigned)contents[i]);
    printf("\n");
}

static int verdict(size_t length)
{
    size_t reply[SWARMBANNER_REPLY_LEAST];

    switch (swarmbanner_check(file, length, seen, SWARMBANNER_TABLE_LEAST, queue, SWARMBANNER_TABLE_LEAST,
                              contents, SWARMBANNER_CONTENTS_LEAST, reply, SWARMBANNER_REPLY_LEAST)) {
    case SWARMBANNER_CLOSED:
        printf("closed %zu\n", reply[0]);
        return 0;
    case SWARMBANNER_OUTSIDE:
        printf("outside\n");
        return 1;
    case SWARMBANNER_LEAVES:
        printf("leaves %zu %zu %zu %zu", reply[0], reply[1], reply[2], reply[3]);
        show(reply[2]);
        return 1;
    case SWARMBANNER_BAD:
        printf("bad %zu %zu", reply[0], reply[1]);
        show(reply[1]);
        return 1;
    default:
        printf("refused %zu at %zu\n", reply[0], reply[1]);
        return 2;
    }
}

/* Says why something was not tried. */
static int complain(const char *what, const char *of_it)
{
    fprintf(stderr, "verdict: %s %s: %s\n", what, of_it, strerror(errno));
    return 3;
}

/* The name goes before the verdict only when there is one. */
static int verdict_of(const char *name, int is_named)
{
    FILE *stream = fopen(name, "rb");
    size_t length;
    int grade;

    if (stream == NULL)
        return complain(name, "cannot be read");
    length = fread(file, 1, sizeof file, stream);
    if (ferror(stream)) {
        grade = complain(name, "cannot be read");
        fclose(stream);
        return grade;
    }
    fclose(stream);
    if (is_named)
        printf("%s: ", name);
    return verdict(length);
}

int main(int count, char **words)
{
    int status = 0;
    int i;

    if (!swarmbanner_fits()) {
        fprintf(stderr, "verdict: built for layout %u, the library has layout %zu\n", SWARMBANNER_LAYOUT,
                swarmbanner_layout());
        return 3;
    }
    if (count < 2) {
        fprintf(stderr, "usage: verdict FILE..\n");
        return 3;
    }
    for (i = 1; i < count; i++) {
        int grade = verdict_of(words[i], count > 2);

        if (grade > status)
            status = grade;
    }
    if (fflush(stdout) != 0)
        return complain("standard output", "cannot be written to");
    return status;
}
