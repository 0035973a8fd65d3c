/* A matcher of patterns that are tables of steps: the proved library's one function.
 * Link libsteps.a, which `tools/build library steps` writes to target/staticlib. docs/STEPS.md has the numbers of a table by name. */
#ifndef STEPS_H
#define STEPS_H

#include <stddef.h>
#include <stdint.h>

#ifdef __cplusplus
extern "C" {
#endif

/* The most numbers that a table has. */
#define STEPS_MAX_TABLE 255

/* The first of the four numbers of an answer. */
#define STEPS_NOTHING 0
#define STEPS_FOUND 1
#define STEPS_REFUSED 2

/* The second, where a table is refused: it has too many numbers; there is no such step; no such class; marks are neither
 * there nor not there; its numbers, or those of a first alternative, end before its last step does. */
#define STEPS_TOO_LONG 1
#define STEPS_UNKNOWN_STEP 2
#define STEPS_UNKNOWN_CLASS 3
#define STEPS_UNKNOWN_MARKS 4
#define STEPS_CUT_OFF 5

/* Runs a table of n numbers on the m bytes of a body, and writes its answer: STEPS_NOTHING and three zeros; STEPS_FOUND,
 * 1 if marks stand around the captured text and else 0, where it begins and where it ends; or STEPS_REFUSED, what is
 * wrong, and two zeros. A captured text that no step begins or ends begins or ends at 0.
 * The pointers are not null, even where n or m is 0, and the answer overlaps neither table nor body. */
void steps_match(const uint8_t *table, size_t n, const uint8_t *body, size_t m, uint64_t answer[4]);

#ifdef __cplusplus
}
#endif

#endif
