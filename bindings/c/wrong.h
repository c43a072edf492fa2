/* The calls that `wrong.c` puts faults into: callers come to `__wrap_`, and `__real_` is the library. */
#ifndef WRONG_H
#define WRONG_H

#include "swarmbanner.h"

#include <string.h>

#define READ(name) \
    size_t name(const uint8_t *file, size_t file_len, uint8_t *space, size_t space_len, size_t *reply, size_t reply_len)
#define MEMBER(name) \
    size_t name(const uint8_t *file, size_t file_len, size_t control, const uint8_t *contents, size_t contents_len, \
                size_t *reply, size_t reply_len)
#define CHECK(name) \
    size_t name(const uint8_t *file, size_t file_len, uint16_t *seen, size_t seen_len, uint16_t *queue, size_t queue_len, \
                uint8_t *contents, size_t contents_len, size_t *reply, size_t reply_len)

#define WRITE(name) \
    size_t name(const uint8_t *tables, size_t tables_len, uint8_t *buffer, size_t buffer_len, size_t *reply, \
                size_t reply_len)

#define REPLAY(name) \
    size_t name(const uint8_t *file, size_t file_len, const uint8_t *trace, size_t trace_len, uint8_t *memory, \
                size_t memory_len, size_t *record, size_t record_len, size_t *reply, size_t reply_len)

size_t __real_swarmbanner_layout(void);
size_t __wrap_swarmbanner_layout(void);
READ(__real_swarmbanner_read);
READ(__wrap_swarmbanner_read);
MEMBER(__real_swarmbanner_member);
MEMBER(__wrap_swarmbanner_member);
CHECK(__real_swarmbanner_check);
CHECK(__wrap_swarmbanner_check);
REPLAY(__real_swarmbanner_replay);
REPLAY(__wrap_swarmbanner_replay);
WRITE(__real_swarmbanner_write);
WRITE(__wrap_swarmbanner_write);

/* The reply as the library gets it, and what its fourth entry held. */
struct lent_reply {
    size_t *at, length, fourth;
};

/* With the fault that it says, space for three numbers is taken. */
static struct lent_reply reply_of(size_t *reply, size_t reply_len, int takes_three)
{
    static size_t four[SWARMBANNER_REPLY_LEAST];
    struct lent_reply lent = {reply, reply_len, 0};

    if (takes_three && reply_len == SWARMBANNER_REPLY_LEAST - 1) {
        lent.at = four;
        lent.length = SWARMBANNER_REPLY_LEAST;
    }
    if (lent.length >= SWARMBANNER_REPLY_LEAST)
        lent.fourth = lent.at[3];
    return lent;
}

/* With the fault that it says, the fourth number is not written. */
static void reply_after(const struct lent_reply *lent, size_t kind, size_t *reply, int lacks_fourth)
{
    if (lent->at != reply && kind != SWARMBANNER_NO_ROOM)
        memcpy(reply, lent->at, (SWARMBANNER_REPLY_LEAST - 1) * sizeof *reply);
    if (lacks_fourth && kind != SWARMBANNER_NO_ROOM)
        lent->at[3] = lent->fourth;
}

#endif
