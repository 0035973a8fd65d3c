/* Which modules a JavaScript or TypeScript module asks for, in code and in comments, and its source map: the four proved functions.
 * docs/01-scope.md defines sheets, refusals and reports. Link libmodule_info.a, which `tools/build library module_info` writes to target/staticlib;
 * module_info_with_rules is in librules.a, which `tools/build library rules` writes beside it. */
#ifndef MODULE_INFO_H
#define MODULE_INFO_H

#include <stddef.h>
#include <stdint.h>

#ifdef __cplusplus
extern "C" {
#endif

/* The longest sheet that is not refused, in bytes. */
#define MODULE_INFO_MAX_SHEET 65536

/* An answer's number: MODULE_INFO_ACCEPTED, or the first refusal in checking order. */
enum module_info_number {
    MODULE_INFO_ACCEPTED = 0,
    /* The sheet has more than 65,536 bytes. */
    MODULE_INFO_SHEET_LENGTH = 1,
    /* A field is cut off, or a number is not shortest or too large. */
    MODULE_INFO_CUT_OFF = 2,
    /* A byte or flag is outside its stated values, or a node has a tag its place doesn't allow. */
    MODULE_INFO_BYTE = 3,
    /* A count, length or depth is over its limit. */
    MODULE_INFO_LIMIT = 4,
    /* A text is not well-formed UTF-8, or WTF-8 where that is named. */
    MODULE_INFO_TEXT = 5,
    /* A position is past the source or inside a character, or an end precedes its start. */
    MODULE_INFO_POSITION = 6,
    /* A comment or a group of comments is not as document 01 asks. */
    MODULE_INFO_COMMENTS = 7,
    /* Bytes follow the root node. */
    MODULE_INFO_TRAILING = 8,
    /* The first argument of a walked import or `require` is a template with an uncooked piece. */
    MODULE_INFO_UNCOOKED = 9,
    /* The report is longer than the buffer. */
    MODULE_INFO_BUFFER = 10,
    /* A String's span has fewer than two bytes, or does not begin and end with the same mark, `"` or `'`. */
    MODULE_INFO_STRING = 13,
    /* The rules of the entries are longer than the second buffer: only of module_info_with_rules, and judged after 10. */
    MODULE_INFO_RULES = 16
};

/* The two parts of an answer. The length is 0 after a refusal. */
#define MODULE_INFO_NUMBER(answer) ((int)((answer) % 256))
#define MODULE_INFO_LENGTH(answer) ((size_t)((answer) / 256))

/* Answers the n bytes of a sheet with its report, in a buffer of m bytes: number + 256 * length.
 * Accepted: the report begins the buffer, and every byte behind it is 0. Refused: the whole buffer is 0.
 * No bytes (n is 0) are no sheet: their report is that of the default module information, eight zero bytes.
 * What the buffer held before does not matter. The sheet is not changed, nothing is kept, and no memory is allocated.
 * A pointer whose length is 0 may be null: nothing is read or written through it. Sheet and buffer do not overlap: a store to the buffer would
 * change a sheet that is still being read, and the proof takes the two for apart.
 * The call needs at most some 121 KiB of stack, its tables included: a thread of 128 KiB is enough for every sheet that was constructed. That is
 * measured on x86-64 (bindings/c/stack.c), not proved. Nothing else is asked of the caller. */
uint64_t module_info_answer(const uint8_t *sheet, size_t n, uint8_t *buffer, size_t m);

/* The same report, with two numbers for each dependency, in k notes: the byte of the source at which its node starts, and how many characters were
 * replaced in its text, since a lone surrogate is reported as U+FFFD. The first note says how many numbers follow it, those of the dependencies in
 * the report's order, as far as there is room for both; every other note is 0, and all of them after a refusal. 1 + m / 4 notes hold the numbers of
 * every report that fits the buffer. The notes overlap neither of the others. */
uint64_t module_info_with_replaced_answer(const uint8_t *sheet, size_t n, uint8_t *buffer, size_t m, size_t *notes, size_t k);

/* The rules by which a comment gives an entry. */
enum module_info_rule {
    MODULE_INFO_RULE_PATH = 1,
    MODULE_INFO_RULE_TYPES = 2,
    MODULE_INFO_RULE_SELF_TYPES = 3,
    MODULE_INFO_RULE_JSX_IMPORT_SOURCE = 4,
    MODULE_INFO_RULE_JSX_IMPORT_SOURCE_TYPES = 5,
    /* A JSDoc import from a `{`. */
    MODULE_INFO_RULE_BRACE = 6,
    /* A JSDoc import from an `@import`. */
    MODULE_INFO_RULE_DECLARATION = 7,
    MODULE_INFO_RULE_SOURCE_MAP = 8,
    /* The types specifier of a dependency. */
    MODULE_INFO_RULE_TS_TYPES = 9,
    MODULE_INFO_RULE_DENO_TYPES = 10
};

/* The lengths that module_info_with_rules writes. */
enum module_info_length {
    MODULE_INFO_REPORT_LENGTH,
    MODULE_INFO_RULES_LENGTH,
    MODULE_INFO_LENGTHS
};

/* The same report, and in a second buffer of k bytes the rule of each entry that a comment gives, in the report's order: types specifiers at their
 * dependencies, references, self types, JSX source, its types, JSDoc imports, source map. For each there is a byte, which is one of the rules above,
 * and an offset in the source, in bytes, as a number in groups of seven bits, low group first: that of the comment's start; for
 * MODULE_INFO_RULE_BRACE and MODULE_INFO_RULE_DECLARATION that of the smallest `{` or `@import` from which the entry is read. No count is written.
 * Answers the number, and writes MODULE_INFO_LENGTHS numbers: the length of the report and that of the rules. Accepted: every byte behind either is
 * 0. Refused: both buffers and both lengths are 0. MODULE_INFO_BUFFER comes before MODULE_INFO_RULES. No bytes (n is 0) have no rules. A second
 * buffer as long as the first is always enough (counted, not proved). What is asked of the caller is as above; `lengths` is not null, and no two of
 * sheet, buffers and lengths overlap. The call needs at most some 296 KiB of stack (measured, bindings/c/stack.c). */
uint64_t module_info_with_rules(const uint8_t *sheet, size_t n, uint8_t *buffer, size_t m, uint8_t *rules, size_t k, uint64_t *lengths);

/* The answers of module_info_source_map besides the refusals. */
#define MODULE_INFO_NO_MAP 0
#define MODULE_INFO_MAP 256

/* The places that it writes: the text of the specifier is bytes MODULE_INFO_FROM up to, and without, MODULE_INFO_TO of the sheet; line and column
 * of its start and of its end in the source, from 0: a line ends at LF, a column counts characters. */
enum module_info_place {
    MODULE_INFO_FROM,
    MODULE_INFO_TO,
    MODULE_INFO_START_LINE,
    MODULE_INFO_START_COLUMN,
    MODULE_INFO_END_LINE,
    MODULE_INFO_END_COLUMN,
    MODULE_INFO_PLACES
};

/* The source map of a sheet as ECMA-426 names it, which is not that of the report (docs/DIFFERENCES.md): MODULE_INFO_MAP, where a specifier is
 * found, which may be empty; MODULE_INFO_NO_MAP, where no comment of the trailing group at the program's end reads, and for no bytes; or the
 * refusal that module_info_answer gives the sheet, MODULE_INFO_BUFFER never. Writes MODULE_INFO_PLACES numbers, zeros where none is found. What is
 * asked of the caller is as above: a pointer to n bytes, and one to so many numbers, which is not null; they do not overlap. It runs on a thread
 * of 128 KiB too. */
uint64_t module_info_source_map(const uint8_t *sheet, size_t n, uint64_t *places);

#ifdef __cplusplus
}
#endif

#endif
