/* Tries the library of crates/delivery through its C interface: a delivery of two modules in both orders, each refusal of a delivery,
 * and work buffers of several sizes. The status is 1 if an answer differs. */
#include <stdio.h>
#include <string.h>

#include "delivery.h"

/* The bytes on both sides of the work buffer that must stay. */
#define EDGE 16
#define FILL 0xA5
#define ROOM 1024

static uint8_t room[EDGE + ROOM + EDGE];
static uint8_t *const work = room + EDGE;
static unsigned long calls, failures;

/* A module's name and a sheet with no script; and one that imports it. */
static const uint8_t helper[] = {4, '.', '/', 'h', 's', 0};
static const uint8_t decoder[] = {
    4, '.', '/', 'd', 's',
    30, /* the sheet: */
    0, 2, '\'', '\'', 0, 0, 0, 0, 2, 0, 0, /* JavaScript, its source, no comments and groups, the program */
    0, 0, 2, 1,                            /* the root, with one child */
    7, 0, 2, 0, 0, 0, 1, 0, 2, 4, '.', '/', 'h', 's', 0 /* an import of the other */
};

static void expect(const char *name, const uint8_t *delivery, size_t n, size_t size, uint64_t right) {
    uint64_t answer;
    size_t i;
    int ok;

    memset(room, FILL, sizeof room);
    answer = delivery_order(delivery, n, work, size);
    ok = answer == right;
    for (i = 0; i < sizeof room; i++) ok &= room[i] == (i >= EDGE && i < EDGE + size ? 0 : FILL);
    calls++;
    if (!ok) {
        failures++;
        printf("%s differs: %lu\n", name, (unsigned long)answer);
    }
}

/* Puts a module, and answers the place behind it. */
static size_t put(uint8_t *delivery, size_t at, const uint8_t *module, size_t n) {
    memcpy(delivery + at, module, n);
    return at + n;
}

#define ANSWER(number, module, entry) ((uint64_t)(number) + 256 * (uint64_t)(module) + 65536 * (uint64_t)(entry))

int main(void) {
    uint8_t delivery[256];
    size_t n;

    delivery[0] = 2;
    n = put(delivery, 1, helper, sizeof helper);
    n = put(delivery, n, decoder, sizeof decoder);
    expect("in order", delivery, n, ROOM, ANSWER(DELIVERY_IN_ORDER, 0, 0));
    expect("a report that does not fit", delivery, n, 8, ANSWER(DELIVERY_BUFFER, 1, 0));
    expect("no room", delivery, n, 7, ANSWER(DELIVERY_BUFFER, 0, 0));
    expect("cut off", delivery, n - 1, ROOM, ANSWER(DELIVERY_BYTES, 0, 0));
    delivery[n] = 0;
    expect("a trailing byte", delivery, n + 1, ROOM, ANSWER(DELIVERY_BYTES, 0, 0));
    delivery[0] = 65;
    expect("a count of 65", delivery, n, ROOM, ANSWER(DELIVERY_BYTES, 0, 0));
    expect("no bytes", NULL, 0, ROOM, ANSWER(DELIVERY_BYTES, 0, 0));

    delivery[0] = 2;
    n = put(delivery, 1, decoder, sizeof decoder);
    n = put(delivery, n, helper, sizeof helper);
    expect("not in order", delivery, n, ROOM, ANSWER(DELIVERY_NOT_IN_ORDER, 0, 0));
    delivery[n - 2] = 'x';
    expect("a helper of another name", delivery, n, ROOM, ANSWER(DELIVERY_NOT_IN_ORDER, 0, 0));
    delivery[n - 3] = 'd';
    delivery[n - 2] = 's';
    expect("a name twice", delivery, n, ROOM, ANSWER(DELIVERY_NAME_TWICE, 0, 0));

    printf("delivery: %lu calls through C, %lu differ\n", calls, failures);
    return failures > 0;
}
