/*
 * Stands in for a library of another layout: each call answers what a program that does not ask first would print as
 * `closed 0`, `end 0`, `written 0` or a diagram.
 */
#include "swarmbanner.h"

size_t swarmbanner_layout(void)
{
    return SWARMBANNER_LAYOUT + 1;
}

static size_t answer(size_t kind, size_t *reply, size_t reply_len)
{
    size_t i;

    for (i = 0; i < reply_len && i < SWARMBANNER_REPLY_LEAST; i++)
        reply[i] = 0;
    return kind;
}

size_t swarmbanner_read(const uint8_t *file, size_t file_len, uint8_t *space, size_t space_len,
                        size_t *reply, size_t reply_len)
{
    (void)file, (void)file_len, (void)space, (void)space_len;
    return answer(SWARMBANNER_READ, reply, reply_len);
}

size_t swarmbanner_member(const uint8_t *file, size_t file_len, size_t control, const uint8_t *contents,
                          size_t contents_len, size_t *reply, size_t reply_len)
{
    (void)file, (void)file_len, (void)control, (void)contents, (void)contents_len;
    return answer(SWARMBANNER_YES, reply, reply_len);
}

size_t swarmbanner_check(const uint8_t *file, size_t file_len, uint16_t *seen, size_t seen_len,
                         uint16_t *queue, size_t queue_len, uint8_t *contents, size_t contents_len,
                         size_t *reply, size_t reply_len)
{
    (void)file, (void)file_len, (void)seen, (void)seen_len, (void)queue, (void)queue_len, (void)contents, (void)contents_len;
    return answer(SWARMBANNER_CLOSED, reply, reply_len);
}

size_t swarmbanner_replay(const uint8_t *file, size_t file_len, const uint8_t *trace, size_t trace_len,
                          uint8_t *memory, size_t memory_len, size_t *record, size_t record_len,
                          size_t *reply, size_t reply_len)
{
    (void)file, (void)file_len, (void)trace, (void)trace_len, (void)memory, (void)memory_len, (void)record, (void)record_len;
    return answer(SWARMBANNER_END, reply, reply_len);
}

size_t swarmbanner_write(const uint8_t *tables, size_t tables_len, uint8_t *buffer, size_t buffer_len,
                         size_t *reply, size_t reply_len)
{
    (void)tables, (void)tables_len, (void)buffer, (void)buffer_len;
    return answer(SWARMBANNER_WRITTEN, reply, reply_len);
}

size_t swarmbanner_expression(const uint8_t *text, size_t text_len, uint8_t *pool, size_t pool_len,
                              size_t *reply, size_t reply_len)
{
    (void)text, (void)text_len, (void)pool, (void)pool_len;
    return answer(SWARMBANNER_DRAWN, reply, reply_len);
}
