/* How many bytes a search from each `{` of a comment's body goes over, all in all: the proved library's one function.
 * Link libscan.a, which `tools/build library scan` writes to target/staticlib. */
#ifndef SCAN_H
#define SCAN_H

#include <stddef.h>
#include <stdint.h>

#ifdef __cplusplus
extern "C" {
#endif

/* The longest body that is counted, in bytes. */
#define SCAN_MAX_BODY 32764

/* What an answer says: whether the body was counted, and its scan sum. */
#define SCAN_COUNTED(answer) ((answer) != 0)
#define SCAN_SUM(answer) ((answer) - 1)

/* Answers the n bytes of a body: 0 if they are more than SCAN_MAX_BODY or do not begin with `*`, else the scan sum and 1.
 * The scan sum adds, over all `{`, the number of bytes behind it up to the first `}`, the first `import` or the body's
 * end, whichever is nearest. The body is not changed, nothing is kept, and no memory is allocated.
 * The pointer is not null, even where n is 0. Nothing else is asked of the caller. */
uint64_t scan_sum_answer(const uint8_t *body, size_t n);

#ifdef __cplusplus
}
#endif

#endif
