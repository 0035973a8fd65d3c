/* Turns for sixteen depositors: the proved library's three functions on a desk that the caller holds.
 * Link libdesk.a, which `tools/build library desk` writes to target/staticlib. */
#ifndef DESK_H
#define DESK_H

#include <stdint.h>

#ifdef __cplusplus
extern "C" {
#endif

/* A desk is a block of so many numbers. desk_fresh makes it; what else is in it only the three functions need to know. */
#define DESK_NUMBERS 161

/* How many depositors there are, from 0 on, and how many sheets of each can wait. */
#define DESK_DEPOSITORS 16
#define DESK_PLACES 8

/* The answer to a hand-in. A refusal changes nothing. */
enum desk_number {
    DESK_ACCEPTED = 0,
    /* The depositor is over 15. */
    DESK_NO_DEPOSITOR = 14,
    /* Eight sheets of the depositor wait. */
    DESK_EIGHT_WAITING = 15
};

/* The answer to a turn: DESK_IDLE, or the depositor who is served (0 to 15) and the sheet. */
#define DESK_IDLE ((uint64_t)DESK_DEPOSITORS << 32)
#define DESK_DEPOSITOR(answer) ((uint32_t)((answer) >> 32))
#define DESK_SHEET(answer) ((uint32_t)((answer) & 0xFFFFFFFF))

/* Each function takes a pointer to a block of DESK_NUMBERS numbers, which is not null. Nothing else is asked of the caller: whatever the block
 * holds, nothing beside it is read or written, and the call ends. Nothing is kept outside the block, and no memory is allocated. */

/* Makes a fresh desk, where no sheet waits and depositor 0 is looked at first. */
void desk_fresh(uint32_t *block);

/* A depositor hands in a sheet, which waits behind that depositor's others: DESK_ACCEPTED or the first refusal. */
uint32_t desk_hand_in(uint32_t *block, uint32_t depositor, uint32_t sheet);

/* Serves the front sheet of the next depositor who has any, after the one last served; after 15 comes 0: sheet + 2^32 * depositor.
 * Where no sheet waits, and only there, the answer is DESK_IDLE, and nothing changes. */
uint64_t desk_turn(uint32_t *block);

#ifdef __cplusplus
}
#endif

#endif
