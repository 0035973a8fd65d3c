/* Whether the modules of a delivery stand behind those that they need: the proved library's one function.
 * docs/01-scope.md defines sheets, reports and deliveries. Link libdelivery.a, which `tools/build library delivery` writes to target/staticlib. */
#ifndef DELIVERY_H
#define DELIVERY_H

#include <stddef.h>
#include <stdint.h>

#ifdef __cplusplus
extern "C" {
#endif

/* The longest delivery that is not refused, in bytes, and how many modules it has at most. */
#define DELIVERY_MAX_BYTES 65536
#define DELIVERY_MAX_MODULES 64

/* An answer's number. A refusal of a sheet has the number that module_info.h gives it. */
enum delivery_number {
    DELIVERY_IN_ORDER = 0,
    /* The report of the module's sheet is longer than the work buffer. */
    DELIVERY_BUFFER = 10,
    /* The delivery is cut off, too long, has trailing bytes, a count outside 1 to 64, or a number or name text that a sheet could not have. */
    DELIVERY_BYTES = 11,
    /* A name occurs twice. */
    DELIVERY_NAME_TWICE = 12,
    /* An entry of the module needs what is no module before it. */
    DELIVERY_NOT_IN_ORDER = 255
};

/* The parts of an answer: its number, the module's index, and the entry's among its dependencies, both from 0.
 * The entry is 0 unless the number is DELIVERY_NOT_IN_ORDER, the module too where all is in order. */
#define DELIVERY_NUMBER(answer) ((int)((answer) % 256))
#define DELIVERY_MODULE(answer) ((size_t)((answer) / 256 % 256))
#define DELIVERY_ENTRY(answer) ((size_t)((answer) / 65536))

/* Answers the n bytes of a delivery: number + 256 * module + 65536 * entry. Refusals come before the order, DELIVERY_BYTES and
 * DELIVERY_NAME_TWICE before those of sheets; then the first sheet that is refused, or the first entry that is not in order, is answered.
 * Each sheet's report is made in the work buffer of m bytes. Every byte of it is 0 after every call, whatever it held before.
 * The delivery is not changed, nothing is kept, and no memory is allocated.
 * A pointer whose length is 0 may be null: nothing is read or written through it. Delivery and work buffer do not overlap.
 * Its stack is that of module_info_answer, which it calls, and of a few small functions above that: not measured.
 * Nothing else is asked of the caller. */
uint64_t delivery_order(const uint8_t *delivery, size_t n, uint8_t *work, size_t m);

#ifdef __cplusplus
}
#endif

#endif
