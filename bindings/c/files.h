/* Session files in hex that several tests go by; document 01 gives R and S. */
#ifndef FILES_H
#define FILES_H

#define R_HEAD "020101000001010200000001000100010000020001 00"
#define R R_HEAD "01 01 01 00 00 01 00"
#define S_HEAD "01010002010101"
#define S_SEND "00000001000100"
#define S_POOL "02 01 02 00 00 01 01 01 01 01 01"
#define S S_HEAD S_SEND S_POOL "01 00"

/* R, and two messages wait at the start. */
#define R2_HEAD "060101000001010200000200000001000100010000020001 00"
#define R2 R2_HEAD "01 01 01 00 00 01 00"

/*
 * One machine of one state, two queues with messages 0, 1 and 2; inside are 0, 0 2 and 0 2 2. Transition 0 receives 0, 1 sends
 * 2. What the queues start with goes between the two.
 */
#define N_HEAD "05 01 00 02 02 01"
#define N_REST "02 000000 02 00 01 00 000000 01 01 01 02 04 00 01 00 01 01 01 02 02 01 01 02 03 01 00 01 00"

/*
 * One machine of three states, two queues with messages 0, 1 and 2, 3; anything may wait. Transitions: 0 goes from 0 to 1
 * and sends 0 1, 1 from 1 to 2 and sends 3 2, 2 from 2 to 0 and receives 0, 3 from 0 to 0 and receives 1, 4 from 0 to 0 and
 * receives 3 2, 5 from 0 to 2, 6 from 0 to 0 and receives nothing from queue 1.
 */
#define M_STEPS "07 000001 01 00 02 0001 000102 01 01 02 0302 000200 02 00 01 00" \
    "000000 02 00 01 01 000000 02 01 02 0302 000002 00 000000 02 01 00"
#define M_SETS "02 01 04 00 00 01 00 02 01 03 01 01 02 02 01 03 01 01 01 01"
#define M_HEAD "01 03 00 02 02 02" M_STEPS
#define M_BODY M_HEAD M_SETS
#define M M_BODY "00"

/* The same with messages that wait at the start: 1 0 1 in queue 0, 3 in queue 1. */
#define MS_BODY "05 03 00 02 02 02 03 010001 01 03" M_STEPS M_SETS
#define MS MS_BODY "00"

/* M and MS with bad entries, so that every table of the latter has something in it and something beyond the counts. */
#define D_END "02 02 00 01 01"
#define D M_BODY D_END
#define DS MS_BODY D_END

/* Two machines of sixteen states, and bad entries for control states that take two bytes. */
#define K16 "00000000000000000000000000000000"
#define K "02 10 10 0f 00 01 01 00 01 01 01 00 00" K16 K16 K16 K16 K16 K16 K16 K16 K16 K16 K16 K16 K16 K16 K16 \
    "01010101010101010101010101010101" "03 7f 00 8001 00 ff01 00"

#endif
