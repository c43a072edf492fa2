/*
 * Replays a trace on a session file, and prints how it ended, the state of each machine and what waits in each queue.
 * Exit status: 0 at the end of the trace; 1 outside the map; 2 refused; 3 wrong usage, a library of another layout, a file
 * that cannot be read, or an answer that cannot be written.
 */
#include "swarmbanner.h"

#include <errno.h>
#include <stdio.h>
#include <string.h>

static uint8_t memory[SWARMBANNER_QUEUES_MOST * SWARMBANNER_QUEUE_LEAST];
static size_t record[SWARMBANNER_RECORD_LEAST];

/* One byte more than a file and a trace may have, so that a longer one is refused as such. */
static uint8_t file[SWARMBANNER_FILE_MOST + 1];
static uint8_t trace[SWARMBANNER_TRACE_MOST + 1];

/* The record and the memory have as many machines and queues as there can be; the tables say how many the file has. */
static void show(size_t length)
{
    static uint8_t tables[SWARMBANNER_SPACE_LEAST];
    size_t reply[SWARMBANNER_REPLY_LEAST];
    size_t machine, queue, i;

    swarmbanner_read(file, length, tables, sizeof tables, reply, SWARMBANNER_REPLY_LEAST);
    printf("states:");
    for (machine = 0; machine < tables[SWARMBANNER_AT_COUNTS]; machine++)
        printf(" %zu", record[SWARMBANNER_RECORD_STATES + machine]);
    printf("\n");
    for (queue = 0; queue < tables[SWARMBANNER_AT_COUNTS + 1]; queue++) {
        size_t waiting = record[SWARMBANNER_RECORD_LENGTHS + queue];

        printf("queue %zu %zu:", queue, waiting);
        for (i = 0; i < waiting; i++)
            printf(" %u", (unsigned)memory[SWARMBANNER_QUEUE_LEAST * queue + i]);
        printf("\n");
    }
}

static int replay(size_t file_length, size_t trace_length)
{
    size_t reply[SWARMBANNER_REPLY_LEAST];

    switch (swarmbanner_replay(file, file_length, trace, trace_length, memory, sizeof memory, record,
                               SWARMBANNER_RECORD_LEAST, reply, SWARMBANNER_REPLY_LEAST)) {
    case SWARMBANNER_END:
        printf("end %zu\n", reply[0]);
        show(file_length);
        return 0;
    case SWARMBANNER_LEFT:
        printf("outside %zu %zu\n", reply[0], reply[1]);
        show(file_length);
        return 1;
    case SWARMBANNER_STEP_REFUSED:
        printf("refused %zu at %zu after %zu\n", reply[0], reply[1], reply[2]);
        show(file_length);
        return 2;
    case SWARMBANNER_TRACE_REFUSED:
        printf("trace refused %zu at %zu\n", reply[0], reply[1]);
        return 2;
    default:
        printf("file refused %zu at %zu\n", reply[0], reply[1]);
        return 2;
    }
}

/* Says why something was not tried. */
static int complain(const char *what, const char *of_it)
{
    fprintf(stderr, "replay: %s %s: %s\n", what, of_it, strerror(errno));
    return 3;
}

/* Is what a name stands for read, to its end or to the end of the room for it? */
static int is_read(const char *name, uint8_t *bytes, size_t room, size_t *length)
{
    FILE *stream = fopen(name, "rb");
    int failed;

    if (stream == NULL)
        return complain(name, "cannot be read"), 0;
    *length = fread(bytes, 1, room, stream);
    failed = ferror(stream);
    if (failed)
        complain(name, "cannot be read");
    fclose(stream);
    return !failed;
}

int main(int count, char **words)
{
    size_t file_length, trace_length;
    int status;

    if (!swarmbanner_fits()) {
        fprintf(stderr, "replay: built for layout %u, the library has layout %zu\n", SWARMBANNER_LAYOUT,
                swarmbanner_layout());
        return 3;
    }
    if (count != 3) {
        fprintf(stderr, "usage: replay FILE TRACE\n");
        return 3;
    }
    if (!is_read(words[1], file, sizeof file, &file_length) || !is_read(words[2], trace, sizeof trace, &trace_length))
        return 3;
    status = replay(file_length, trace_length);
    if (fflush(stdout) != 0)
        return complain("standard output", "cannot be written to");
    return status;
}
