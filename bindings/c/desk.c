/* Tries the library of crates/desk through its C interface: a small run of calls, each refusal, and blocks that hold anything.
 * The status is 1 if an answer differs. */
#include <stdio.h>
#include <string.h>

#include "desk.h"

/* The numbers on both sides of the block that must stay. */
#define EDGE 16
#define FILL 0xA5A5A5A5u

static uint32_t room[EDGE + DESK_NUMBERS + EDGE];
static uint32_t *const block = room + EDGE;
static unsigned long calls, failures;

static void expect(const char *name, int ok) {
    calls++;
    if (!ok) {
        failures++;
        printf("%s differs\n", name);
    }
}

static void edges_stay(void) {
    int i, ok = 1;

    for (i = 0; i < EDGE; i++) ok &= room[i] == FILL && block[DESK_NUMBERS + i] == FILL;
    expect("a number beside the block", ok);
}

/* One sheet at a time of each of three depositors, after the one last served; after 15 comes 0. */
static void in_turn(void) {
    static const uint32_t expected[][2] = {{2, 20}, {15, 4294967295u}, {0, 1}, {2, 21}, {2, 21}};
    uint64_t answer;
    int i;

    desk_fresh(block);
    expect("an idle turn", desk_turn(block) == DESK_IDLE);
    expect("a hand-in", desk_hand_in(block, 2, 20) == DESK_ACCEPTED);
    expect("a hand-in", desk_hand_in(block, 2, 21) == DESK_ACCEPTED);
    expect("an equal sheet", desk_hand_in(block, 2, 21) == DESK_ACCEPTED);
    expect("the last depositor", desk_hand_in(block, 15, 4294967295u) == DESK_ACCEPTED);
    for (i = 0; i < 5; i++) {
        answer = desk_turn(block);
        expect("a turn", DESK_DEPOSITOR(answer) == expected[i][0] && DESK_SHEET(answer) == expected[i][1]);
        if (i == 0) expect("a later hand-in", desk_hand_in(block, 0, 1) == DESK_ACCEPTED);
    }
    expect("an idle turn", desk_turn(block) == DESK_IDLE);
}

/* 14 before 15, nothing changed by either, and a served place is free again. */
static void refusals(void) {
    uint32_t before[DESK_NUMBERS];
    uint32_t i;

    desk_fresh(block);
    for (i = 0; i < DESK_PLACES; i++) expect("a hand-in", desk_hand_in(block, 7, i) == DESK_ACCEPTED);
    memcpy(before, block, sizeof before);
    expect("a ninth sheet", desk_hand_in(block, 7, 8) == DESK_EIGHT_WAITING);
    expect("depositor 16", desk_hand_in(block, 16, 0) == DESK_NO_DEPOSITOR);
    expect("the largest depositor", desk_hand_in(block, 4294967295u, 0) == DESK_NO_DEPOSITOR);
    expect("the block after refusals", !memcmp(before, block, sizeof before));
    expect("the front sheet", DESK_SHEET(desk_turn(block)) == 0);
    expect("a free place", desk_hand_in(block, 7, 8) == DESK_ACCEPTED);
}

/* Whatever a block holds, it stands for a desk of at most 16 times 8 sheets. */
static void anything(void) {
    uint32_t seed = 1, round, i;
    uint64_t answer;

    for (round = 0; round < 1000; round++) {
        for (i = 0; i < DESK_NUMBERS; i++) {
            seed = seed * 1664525u + 1013904223u;
            block[i] = seed >> (seed >> 28);
        }
        for (i = 0; i < 40; i++) {
            uint32_t number = desk_hand_in(block, block[i] % 20, i);

            expect("a hand-in", number == DESK_ACCEPTED || number == DESK_NO_DEPOSITOR || number == DESK_EIGHT_WAITING);
        }
        for (i = 0; (answer = desk_turn(block)) != DESK_IDLE && i <= DESK_DEPOSITORS * DESK_PLACES; i++)
            expect("a depositor", DESK_DEPOSITOR(answer) < DESK_DEPOSITORS);
        expect("how many waited", i <= DESK_DEPOSITORS * DESK_PLACES);
    }
}

int main(void) {
    int i;

    for (i = 0; i < EDGE + DESK_NUMBERS + EDGE; i++) room[i] = FILL;
    in_turn();
    refusals();
    anything();
    edges_stay();
    printf("C: %lu checks of the desk, %lu differ\n", calls, failures);
    return failures != 0;
}
