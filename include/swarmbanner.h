/*
 * Swarmbanner for C and C++: reading and writing session files, membership, checking, replaying traces, and diagrams from
 * expressions.
 *
 * Each of the six takes any bytes as the file, the tables or the text, also broken ones, and any lengths. It returns the kind
 * of its reply, and four numbers that go with it fill the front of `reply`; entries after these keep their values.
 *
 *   kind                          reply[0]           reply[1]           reply[2]        reply[3]
 *   SWARMBANNER_CLOSED            pairs visited      0                  0               0
 *   SWARMBANNER_OUTSIDE           0                  0                  0               0
 *   SWARMBANNER_LEAVES            control state      transition         messages shown  messages followed
 *   SWARMBANNER_BAD               bad entry          messages shown     0               0
 *   SWARMBANNER_REFUSED           number             place              0               0
 *   SWARMBANNER_READ              0                  0                  0               0
 *   SWARMBANNER_YES, _NO          messages followed  0                  0               0
 *   SWARMBANNER_END               steps taken        0                  0               0
 *   SWARMBANNER_LEFT              steps taken        messages followed  0               0
 *   SWARMBANNER_STEP_REFUSED      number             place              steps taken     0
 *   SWARMBANNER_TRACE_REFUSED     1                  16384              0               0
 *   SWARMBANNER_MEMORY_REFUSED    2                  0                  0               0
 *   SWARMBANNER_WRITTEN           bytes written      0                  0               0
 *   SWARMBANNER_DRAWN             root, always 0     states             0               0
 *   SWARMBANNER_NO_ROOM           nothing is written, here or elsewhere
 *
 * The messages followed say how far a diagram takes contents: how many messages it has an arc for, one after the other from
 * its root, before it has none for the next one; all of them where it has one for each; 0 where there is no root.
 *
 *   after   of which contents                   in the diagram of
 *   YES     those asked about, so their length  the control state asked about
 *   NO      those asked about                   the control state asked about
 *   LEAVES  those after the step; the ones      the control state that the step leads to
 *           shown are those before it
 *   LEFT    what waits in the queues then       the control state then
 *
 * Where there is a root, contents that are followed to their end and are not inside end in a state that is not final; else the
 * message at that place, counted from 0, has no arc.
 *
 * A program asks swarmbanner_fits() before its first other call: is the library of the layout that it was built for?
 *
 * What the caller answers for: a pointer is valid for its length, for reading or, where it is not const, for reading and
 * writing; memory that is written to overlaps nothing else that is passed. A pointer with length 0 may be NULL. The
 * library keeps no state, allocates nothing and calls nothing back, so calls on different memory may run at the same time.
 */
#ifndef SWARMBANNER_H
#define SWARMBANNER_H

#include <stddef.h>
#include <stdint.h>

#ifdef __cplusplus
extern "C" {
#endif

/* Kinds of reply. */
#define SWARMBANNER_CLOSED 0u
#define SWARMBANNER_OUTSIDE 1u
#define SWARMBANNER_LEAVES 2u
#define SWARMBANNER_BAD 3u
#define SWARMBANNER_REFUSED 4u
#define SWARMBANNER_NO_ROOM 5u
#define SWARMBANNER_READ 6u
#define SWARMBANNER_YES 7u
#define SWARMBANNER_NO 8u
#define SWARMBANNER_END 9u
#define SWARMBANNER_LEFT 10u
#define SWARMBANNER_STEP_REFUSED 11u
#define SWARMBANNER_TRACE_REFUSED 12u
#define SWARMBANNER_MEMORY_REFUSED 13u
#define SWARMBANNER_WRITTEN 14u
#define SWARMBANNER_DRAWN 15u

/* Numbers of a refusal. */
#define SWARMBANNER_REFUSED_LONG 1u          /* more than 16,384 bytes, of a file or a trace; the place is 16,384 */
#define SWARMBANNER_REFUSED_MEMORY 2u        /* checking, replaying: lent memory too short; the place is 0 */
#define SWARMBANNER_REFUSED_ENDS 3u          /* bytes end before a number or inside one; the place is their end */
#define SWARMBANNER_REFUSED_FORM 4u          /* a number in a form that is not allowed */
#define SWARMBANNER_REFUSED_RANGE 5u         /* outside its field's range; trace: of no transition, text: of no message */
#define SWARMBANNER_REFUSED_TOTAL 6u         /* product of states passes 256, or sum of messages passes 32 */
#define SWARMBANNER_REFUSED_QUEUE 7u         /* message of a transition or of the start is in another queue */
#define SWARMBANNER_REFUSED_ASCENT 8u        /* arc messages do not ascend */
#define SWARMBANNER_REFUSED_ORDER 9u         /* a root accepts a word out of queue order; the first place after field 6 */
#define SWARMBANNER_REFUSED_MORE 10u         /* bytes after the last field */
#define SWARMBANNER_REFUSED_CONTROL 11u      /* membership: control state not below their number; the place is 0 */
#define SWARMBANNER_REFUSED_MESSAGE 12u      /* membership: message not below the sum; its place in the contents */
#define SWARMBANNER_REFUSED_EARLIER 13u      /* membership: message of an earlier queue than the one before it */
#define SWARMBANNER_REFUSED_IMPOSSIBLE 14u   /* replaying: machine in another state, or queue without the word in front */
#define SWARMBANNER_REFUSED_FULL 15u         /* replaying: a queue would pass 1,024 messages */
#define SWARMBANNER_REFUSED_TABLES 16u       /* writing: tables that no file is read into; the place is 0 */
#define SWARMBANNER_REFUSED_BUFFER 17u       /* writing: the buffer is shorter than the file; the place is 0 */
#define SWARMBANNER_REFUSED_TEXT_LONG 18u    /* expression: more than 256 bytes; the place is 256 */
#define SWARMBANNER_REFUSED_GRAMMAR 19u      /* expression: text outside the grammar; where it leaves it */
#define SWARMBANNER_REFUSED_DEPTH 20u        /* expression: a ninth level of groups; its opening bracket */
#define SWARMBANNER_REFUSED_OCCURRENCES 21u  /* expression: a thirty-third number; its first digit */
#define SWARMBANNER_REFUSED_STATES 22u       /* expression: more than 127 states; the place is 0 */
#define SWARMBANNER_REFUSED_EMPTY 23u        /* messages are to wait at the start, and no queue has one; the place is 0 */

/* The least that a call needs, in entries of the type that is lent. */
#define SWARMBANNER_REPLY_LEAST 4u
#define SWARMBANNER_SPACE_LEAST (SWARMBANNER_AT_BAD + SWARMBANNER_BAD_ENTRIES_MOST * SWARMBANNER_BAD_ROW)
#define SWARMBANNER_TABLE_LEAST 32512u
#define SWARMBANNER_CONTENTS_LEAST 32768u
#define SWARMBANNER_RECORD_LEAST (SWARMBANNER_RECORD_LENGTHS + SWARMBANNER_QUEUES_MOST)
#define SWARMBANNER_QUEUE_LEAST 1024u /* for each queue of the file */
#define SWARMBANNER_POOL_LEAST (SWARMBANNER_AT_ROOTS - SWARMBANNER_AT_FINALS)

/* What a file can have, and how long a trace can be; what an expression can have. */
#define SWARMBANNER_FILE_MOST 16384u
#define SWARMBANNER_TRACE_MOST 16384u
#define SWARMBANNER_TEXT_MOST 256u
#define SWARMBANNER_DEPTH_MOST 8u
#define SWARMBANNER_OCCURRENCES_MOST 32u
#define SWARMBANNER_MACHINES_MOST 4u
#define SWARMBANNER_CONTROL_STATES_MOST 256u
#define SWARMBANNER_QUEUES_MOST 4u
#define SWARMBANNER_MESSAGES_MOST 32u
#define SWARMBANNER_STARTING_MOST 8u /* messages in a queue at the start */
#define SWARMBANNER_TRANSITIONS_MOST 128u
#define SWARMBANNER_WORD_MOST 16u
#define SWARMBANNER_POOL_STATES_MOST 127u
#define SWARMBANNER_BAD_ENTRIES_MOST 64u

/*
 * The number of this layout of the tables and of the replies; another one has another number. Layout 1 had words of up to four
 * messages, layout 2 had three numbers in a reply, layout 3 had no starting contents.
 */
#define SWARMBANNER_LAYOUT 4u

/*
 * Where the tables lie in the space of `swarmbanner_read`, one byte an entry; entries beyond the counts are 0. Each begins
 * where the one before it ends.
 *
 *   AT_COUNTS          0  6        machines, queues, messages of all queues, transitions, pool states, bad entries
 *   AT_STATES          6  4        states of each machine
 *   AT_STARTS         10  4        starting state of each machine
 *   AT_MESSAGES       14  4        messages of each queue
 *   AT_LENGTHS        18  4        how many messages each queue starts with, 0 to 8
 *   AT_CONTENTS       22  4 x 8    these messages, oldest first, and then 0
 *   AT_TRANSITIONS    54  128 x 22 machine, from, to, kind (0 local, 1 send, 2 receive), queue, word length, 16 messages
 *   AT_FINALS       2870  127      1 for a final pool state
 *   AT_ARCS         2997  127 x 32 for a pool state and a message: 0 for no arc, else 1 plus the target
 *   AT_ROOTS        7061  256      for a control state: 0 for no root, else 1 plus the root
 *   AT_BAD          7317  64 x 2   control state, root (as it is, without the 1 added)
 *   SPACE_LEAST     7445
 *
 * Of a file whose queues start empty, lengths and contents are 0. Such tables are written in the form without them, all
 * others in the form whose first number is the machines plus SWARMBANNER_MACHINES_MOST.
 *
 * The pool of `swarmbanner_expression` is the final marks and the arcs, as they lie here.
 *
 *   POOL_LEAST      4191           final marks, then arcs: AT_ROOTS - AT_FINALS
 */
#define SWARMBANNER_COUNTS 6u
#define SWARMBANNER_TRANSITION_WORD 6u /* where in its row a transition's word begins */
#define SWARMBANNER_TRANSITION_ROW (SWARMBANNER_TRANSITION_WORD + SWARMBANNER_WORD_MOST)
#define SWARMBANNER_CONTENTS_ROW SWARMBANNER_STARTING_MOST
#define SWARMBANNER_ARC_ROW SWARMBANNER_MESSAGES_MOST
#define SWARMBANNER_BAD_ROW 2u

#define SWARMBANNER_AT_COUNTS 0u
#define SWARMBANNER_AT_STATES (SWARMBANNER_AT_COUNTS + SWARMBANNER_COUNTS)
#define SWARMBANNER_AT_STARTS (SWARMBANNER_AT_STATES + SWARMBANNER_MACHINES_MOST)
#define SWARMBANNER_AT_MESSAGES (SWARMBANNER_AT_STARTS + SWARMBANNER_MACHINES_MOST)
#define SWARMBANNER_AT_LENGTHS (SWARMBANNER_AT_MESSAGES + SWARMBANNER_QUEUES_MOST)
#define SWARMBANNER_AT_CONTENTS (SWARMBANNER_AT_LENGTHS + SWARMBANNER_QUEUES_MOST)
#define SWARMBANNER_AT_TRANSITIONS (SWARMBANNER_AT_CONTENTS + SWARMBANNER_QUEUES_MOST * SWARMBANNER_CONTENTS_ROW)
#define SWARMBANNER_AT_FINALS (SWARMBANNER_AT_TRANSITIONS + SWARMBANNER_TRANSITIONS_MOST * SWARMBANNER_TRANSITION_ROW)
#define SWARMBANNER_AT_ARCS (SWARMBANNER_AT_FINALS + SWARMBANNER_POOL_STATES_MOST)
#define SWARMBANNER_AT_ROOTS (SWARMBANNER_AT_ARCS + SWARMBANNER_POOL_STATES_MOST * SWARMBANNER_ARC_ROW)
#define SWARMBANNER_AT_BAD (SWARMBANNER_AT_ROOTS + SWARMBANNER_CONTROL_STATES_MOST)

/*
 * Where the numbers of a run lie in the record of `swarmbanner_replay`; those beyond the counts of the file are 0.
 *
 *   RECORD_STATES      0  4        state of each machine
 *   RECORD_HEADS       4  4        where in its bytes each queue begins, which is 0
 *   RECORD_LENGTHS     8  4        messages that wait in each queue
 *   RECORD_LEAST      12
 */
#define SWARMBANNER_RECORD_STATES 0u
#define SWARMBANNER_RECORD_HEADS (SWARMBANNER_RECORD_STATES + SWARMBANNER_MACHINES_MOST)
#define SWARMBANNER_RECORD_LENGTHS (SWARMBANNER_RECORD_HEADS + SWARMBANNER_QUEUES_MOST)

/*
 * The number of the library's layout. It takes nothing and touches nothing. A library of layout 1 does not have it, so a
 * program that asks is not linked with one.
 */
size_t swarmbanner_layout(void);

/*
 * Is the library of the layout of this header? Where it is not, the offsets and lengths above are not the library's: a caller
 * looks for tables in wrong places, or never has room for them. So a program begins with
 *
 *   if (!swarmbanner_fits()) {
 *       fprintf(stderr, "built for layout %u, the library has %zu\n", SWARMBANNER_LAYOUT, swarmbanner_layout());
 *       exit(EXIT_FAILURE);
 *   }
 */
static inline int swarmbanner_fits(void)
{
    return swarmbanner_layout() == SWARMBANNER_LAYOUT;
}

/*
 * Reads a file.
 *
 * READ: the tables fill the first SWARMBANNER_SPACE_LEAST bytes of `space`, the rest of it keeps its bytes.
 * REFUSED, 1, 3 to 10 and 23: `space` is as it was.
 * NO_ROOM: `space` has under SWARMBANNER_SPACE_LEAST bytes or `reply` under SWARMBANNER_REPLY_LEAST entries.
 */
size_t swarmbanner_read(const uint8_t *file, size_t file_len,
                        uint8_t *space, size_t space_len,
                        size_t *reply, size_t reply_len);

/*
 * Writes the session file that has these tables, which are as `swarmbanner_read` gives them: the first
 * SWARMBANNER_SPACE_LEAST bytes of `tables`. What follows these is of no account. There is one such file at most, so reading
 * and then writing gives back the bytes, and writing and then reading gives back the tables. No file has more than 11,700
 * bytes; a buffer of SWARMBANNER_FILE_MOST bytes, 16,384, suffices too.
 *
 * WRITTEN: the file fills the front of `buffer`, the rest of it keeps its bytes.
 * REFUSED, 16: no file is read into these tables, whatever is wrong with them; or `tables` has under SWARMBANNER_SPACE_LEAST
 *   bytes. 17: `buffer` is shorter than the file. 16 is told before 17, and `buffer` is as it was.
 * NO_ROOM: `reply` has under SWARMBANNER_REPLY_LEAST entries.
 */
size_t swarmbanner_write(const uint8_t *tables, size_t tables_len,
                         uint8_t *buffer, size_t buffer_len,
                         size_t *reply, size_t reply_len);

/*
 * Do these contents, one byte for each message and queue after queue, belong to the set of this control state?
 *
 * YES or NO, with how many of them its diagram followed. REFUSED, 1, 3 to 13 and 23: file or question is turned away.
 * NO_ROOM: `reply` has under SWARMBANNER_REPLY_LEAST entries.
 */
size_t swarmbanner_member(const uint8_t *file, size_t file_len,
                          size_t control,
                          const uint8_t *contents, size_t contents_len,
                          size_t *reply, size_t reply_len);

/*
 * Checks a file. `seen` and `queue` are scratch tables of SWARMBANNER_TABLE_LEAST entries or more, `contents` is a buffer
 * of SWARMBANNER_CONTENTS_LEAST bytes or more; what they hold at entry does not matter.
 *
 * CLOSED, OUTSIDE, LEAVES, BAD: `seen` and `queue` are 0 over their whole length. The contents shown after LEAVES and BAD
 *   fill the front of `contents`, one byte for each message; the rest of it keeps its bytes, after CLOSED and OUTSIDE all.
 *   Those of LEAVES are the contents before the step; how many messages were followed is said of those after it.
 * REFUSED, 1 to 10 and 23: `seen`, `queue` and `contents` are as they were.
 * NO_ROOM: `reply` has under SWARMBANNER_REPLY_LEAST entries.
 */
size_t swarmbanner_check(const uint8_t *file, size_t file_len,
                         uint16_t *seen, size_t seen_len,
                         uint16_t *queue, size_t queue_len,
                         uint8_t *contents, size_t contents_len,
                         size_t *reply, size_t reply_len);

/*
 * Replays a trace: the numbers of transitions, one after the other in groups of seven bits as in a file, each taken at the
 * configuration that the one before it left. It starts as the file says, with what waits in the queues then, whatever
 * `record` and `memory` hold. Before it reads a number, and before the end, it asks whether the configuration is inside the
 * map. `memory` is to have SWARMBANNER_QUEUE_LEAST bytes for each queue of the file or more, `record` SWARMBANNER_RECORD_LEAST
 * entries or more.
 *
 * END: the trace is at its end. LEFT: the configuration is outside the map; after 0 steps it is the start. With it goes how
 *   many of the messages that wait, queue after queue, the diagram of its control state followed.
 * STEP_REFUSED, 3 (inside a number only), 4, 5, 14 and 15: the next step is not taken and not counted; the place is in the
 *   trace, for 14 and 15 the first byte of the step's number.
 *   After these three `record` has the last configuration, and queue q has SWARMBANNER_QUEUE_LEAST bytes from byte
 *   SWARMBANNER_QUEUE_LEAST * q of `memory`: its messages, oldest first, and then 0. Bytes after the last queue of the file
 *   and entries after the first SWARMBANNER_RECORD_LEAST keep their values.
 * REFUSED, 1, 3 to 10 and 23: the file is turned away. TRACE_REFUSED: the trace has more than SWARMBANNER_TRACE_MOST bytes.
 *   MEMORY_REFUSED: `memory` is too short for the queues of the file. The first of them that holds is told, and `record` and
 *   `memory` are as they were.
 * NO_ROOM: `record` has under SWARMBANNER_RECORD_LEAST entries or `reply` under SWARMBANNER_REPLY_LEAST.
 */
size_t swarmbanner_replay(const uint8_t *file, size_t file_len,
                          const uint8_t *trace, size_t trace_len,
                          uint8_t *memory, size_t memory_len,
                          size_t *record, size_t record_len,
                          size_t *reply, size_t reply_len);

/*
 * Draws the diagram of an expression. Its text is made of message numbers in decimal without leading zeros, where a whole run
 * of digits is one number; groups in round brackets, up to 8 in one another; a star after a number or a group, once at most;
 * and `|` between alternatives, of which any may be empty. Spaces, byte 32, may stand anywhere but inside a number. The empty
 * text is an expression, of the empty word.
 *
 * DRAWN: the first SWARMBANNER_POOL_LEAST bytes of `pool` are the final marks and the arcs of a pool of so many states, in the
 *   layout of the tables from SWARMBANNER_AT_FINALS up to SWARMBANNER_AT_ROOTS; entries beyond the states are 0, and the rest
 *   of `pool` keeps its bytes. From the root, state 0, just the words of the expression are accepted. The other states are the
 *   different sets of numbers of the text that some word can end on; a state comes before another if the shortest and lowest
 *   word that leads to it does. To have it as the pool of a session:
 *
 *     memcpy(tables + SWARMBANNER_AT_FINALS, pool, SWARMBANNER_POOL_LEAST);
 *     tables[SWARMBANNER_AT_COUNTS + 4] = (uint8_t)reply[1];
 *
 * REFUSED: `pool` is as it was. 18: more than SWARMBANNER_TEXT_MOST bytes. 19: no expression; the place is the length of the
 *   longest beginning that some expression, of any length and depth, has too. Then the leftmost of these, at its first byte:
 *   5, a number of SWARMBANNER_MESSAGES_MOST or more; 20, a group inside SWARMBANNER_DEPTH_MOST others; 21, a number after
 *   SWARMBANNER_OCCURRENCES_MOST others, unless it is refused by 5. 22: more than SWARMBANNER_POOL_STATES_MOST states.
 * NO_ROOM: `pool` has under SWARMBANNER_POOL_LEAST bytes or `reply` under SWARMBANNER_REPLY_LEAST entries.
 */
size_t swarmbanner_expression(const uint8_t *text, size_t text_len,
                              uint8_t *pool, size_t pool_len,
                              size_t *reply, size_t reply_len);

#ifdef __cplusplus
}
#endif

#endif
