/* test FILE NAMES [LARGEST]
 * Tries the library through its C interface: document 01's example, some refusals, null pointers, the source map by ECMA-426, each entry with its
 * rule, and the stored list of sheets FILE with a line of NAMES for each; the formats stand at the head of tools/replay.rs. LARGEST is the size of
 * the largest buffer (65,536).
 * The status is 1 if an answer differs, 2 if a file cannot be read. */
#include <stdio.h>
#include <stdlib.h>
#include <string.h>

#include "module_info.h"

/* The room for a buffer, and the bytes on both sides of it that must stay. */
#define LARGE 65536
#define EDGE 64
#define FILL 0xA5

/* How many differences are printed. */
#define SHOWN 10

static unsigned long calls, failures;
static size_t largest = LARGE;

/* The answer with notes is the same. The first note says how many numbers follow, two for each dependency; the others are 0. */
static void noted(const char *name, const uint8_t *sheet, size_t n, size_t m, uint64_t expected) {
    static uint8_t buffer[LARGE];
    size_t notes[4], i;
    uint64_t answer;

    memset(notes, FILL, sizeof notes);
    answer = module_info_with_replaced_answer(sheet, n, buffer, m, notes, 3);
    calls++;
    for (i = notes[0] < 3 ? 1 + notes[0] : 0; i < 3 && !notes[i]; i++) continue;
    if ((answer != expected || i < 3 || notes[0] % 2 || (MODULE_INFO_NUMBER(answer) && notes[0]) || notes[3] % 256 != FILL) && ++failures <= SHOWN)
        printf("%s, notes: number %d and %lu notes\n", name, MODULE_INFO_NUMBER(answer), (unsigned long)notes[0]);
}

/* Compares the answer with a buffer of m bytes: number, length, every byte of the buffer, and nothing beside it. The sheet has a block of its
 * own, so that valgrind sees what is read beside it. */
static void answers(const char *name, unsigned long index, const uint8_t *sheet, size_t n, size_t m, int number, const uint8_t *report,
                    size_t length) {
    static uint8_t room[EDGE + LARGE + EDGE];
    uint8_t *buffer = room + EDGE;
    uint8_t *copy = sheet ? malloc(n + !n) : NULL;
    const char *problem = NULL;
    uint64_t answer;
    size_t i;

    if (sheet && !copy) exit(2);
    if (n) memcpy(copy, sheet, n);
    memset(room, FILL, EDGE + m + EDGE);
    answer = module_info_answer(copy, n, buffer, m);
    calls++;
    noted(name, copy, n, m, answer);
    free(copy);
    if (MODULE_INFO_NUMBER(answer) != number || MODULE_INFO_LENGTH(answer) != length) problem = "number or length";
    for (i = 0; i < m && !problem; i++)
        if (buffer[i] != (i < length ? report[i] : 0)) problem = "a byte of the buffer";
    for (i = 0; i < EDGE && !problem; i++)
        if (room[i] != FILL || buffer[m + i] != FILL) problem = "a byte beside the buffer";
    if (problem && ++failures <= SHOWN)
        printf("%s (%lu), buffer %lu: %s differs: number %d and length %lu are expected, got %d and %lu\n", name, index, (unsigned long)m,
               problem, number, (unsigned long)length, MODULE_INFO_NUMBER(answer), (unsigned long)MODULE_INFO_LENGTH(answer));
}

/* A null pointer for a buffer of no bytes. */
static void no_buffer(const char *name, const uint8_t *sheet, size_t n, int number) {
    uint64_t answer = module_info_answer(sheet, n, NULL, 0);

    calls++;
    if (answer != (uint64_t)number && ++failures <= SHOWN)
        printf("%s, no buffer: number %d is expected, got %d\n", name, number, MODULE_INFO_NUMBER(answer));
}

/* The answer with buffers that hold the report, fit it, lack a byte, have one more, are empty and are none. */
static void all_sizes(const char *name, unsigned long index, const uint8_t *sheet, size_t n, int number, const uint8_t *report, size_t length) {
    size_t sizes[5];
    int i;

    sizes[0] = largest;
    sizes[1] = length;
    sizes[2] = length ? length - 1 : 1;
    sizes[3] = length + 1;
    sizes[4] = 0;
    for (i = 0; i < 5; i++) {
        if (number == MODULE_INFO_ACCEPTED && length > sizes[i])
            answers(name, index, sheet, n, sizes[i], MODULE_INFO_BUFFER, report, 0);
        else
            answers(name, index, sheet, n, sizes[i], number, report, length);
    }
    no_buffer(name, sheet, n, number == MODULE_INFO_ACCEPTED ? MODULE_INFO_BUFFER : number);
}

/* ---- document 01's example, and changes of it ---- */

/* JavaScript; the source; one comment: a block from 0 to 27; one group: it leads 27, from comment 0 on, one comment;
 * the program: a module from 27 to 27, no shebang, no first item; the root: an Other without children. */
static const uint8_t example[] = "\0\33/** {import(\"./a.ts\").A} */"
                                 "\1\1\0\33"
                                 "\1\0\33\0\1"
                                 "\0\33\33\0\0"
                                 "\0\33\33\0";
#define EXAMPLE (sizeof example - 1)

/* No script, no dependencies, no references, three pragmas absent; one JSDoc import: text, line 0, columns 12 to 20, no mode; no source map. */
static const uint8_t example_report[] = "\0\0\0\0\0\0"
                                        "\1\1\6./a.ts\0\14\0\24\0"
                                        "\0";

/* That of the default module information. */
static const uint8_t default_report[8];

/* Changes the byte at a place of the example. */
static void changed(size_t at, int byte, int number) {
    uint8_t sheet[EXAMPLE];

    memcpy(sheet, example, EXAMPLE);
    sheet[at] = (uint8_t)byte;
    all_sizes("the example with a change at byte", (unsigned long)at, sheet, EXAMPLE, number, example_report, 0);
}

static void examples(void) {
    static uint8_t long_sheet[MODULE_INFO_MAX_SHEET + 1];
    size_t n;

    all_sizes("the example", 1, example, EXAMPLE, MODULE_INFO_ACCEPTED, example_report, sizeof example_report - 1);
    all_sizes("no bytes", 0, example, 0, MODULE_INFO_ACCEPTED, default_report, sizeof default_report);
    all_sizes("no bytes, a null pointer", 0, NULL, 0, MODULE_INFO_ACCEPTED, default_report, sizeof default_report);
    all_sizes("the smallest sheet", 1, long_sheet, 13, MODULE_INFO_ACCEPTED, default_report, sizeof default_report);
    /* zeros are a sheet of 13 bytes */
    all_sizes("the longest sheet", 1, long_sheet, MODULE_INFO_MAX_SHEET, MODULE_INFO_TRAILING, example_report, 0);
    all_sizes("a longer sheet", 1, long_sheet, MODULE_INFO_MAX_SHEET + 1, MODULE_INFO_SHEET_LENGTH, example_report, 0);
    for (n = 1; n < EXAMPLE; n++) all_sizes("the example, cut off at", (unsigned long)n, example, n, MODULE_INFO_CUT_OFF, example_report, 0);
    changed(0, 11, MODULE_INFO_BYTE);      /* the media */
    changed(2, 0xFF, MODULE_INFO_TEXT);    /* the source */
    changed(32, 28, MODULE_INFO_POSITION); /* the comment's end */
    changed(31, 1, MODULE_INFO_COMMENTS);  /* the comment's start */
    changed(37, 0, MODULE_INFO_COMMENTS);  /* the group's count */
    /* the sheet has one byte more: the zero that ends the literal */
    all_sizes("the example and a byte", 1, example, EXAMPLE + 1, MODULE_INFO_TRAILING, example_report, 0);
}

/* ---- the source map by ECMA-426 ---- */

/* TypeScript, three lines: `x`, and two comments in the trailing group at the program's end, of which only the first reads as ECMA-426 has it:
 * it has a character of two bytes in front of it, and a blank behind its run. */
static const uint8_t map_sheet[] = "\4\66x\n\303\251/*# sourceMappingURL=a */\n//# sourceMappingURL=b c"
                                   "\2\1\4\35\0\36\66"
                                   "\1\1\66\0\2"
                                   "\0\0\66\0\0"
                                   "\0\0\66\0";
#define MAP_SHEET (sizeof map_sheet - 1)

static void source_map(const char *name, const uint8_t *sheet, size_t n, uint64_t number, const uint64_t *places) {
    uint64_t got[MODULE_INFO_PLACES + 2];
    uint64_t answer;

    memset(got, FILL, sizeof got);
    answer = module_info_source_map(sheet, n, got + 1);
    calls++;
    if ((answer != number || memcmp(got + 1, places, MODULE_INFO_PLACES * sizeof *got) || memcmp(got, got + MODULE_INFO_PLACES + 1, sizeof *got)) &&
        ++failures <= SHOWN)
        printf("the source map of %s: %lu is expected, got %lu, from %lu to %lu\n", name, (unsigned long)number, (unsigned long)answer,
               (unsigned long)got[1], (unsigned long)got[2]);
}

static void source_maps(void) {
    static const uint64_t none[MODULE_INFO_PLACES], there[MODULE_INFO_PLACES] = {27, 28, 1, 22, 1, 23};
    static const uint8_t long_sheet[MODULE_INFO_MAX_SHEET + 1];
    size_t n;

    source_map("a sheet with two comments", map_sheet, MAP_SHEET, MODULE_INFO_MAP, there);
    if (map_sheet[27] != 'a') printf("the source map's text is expected at byte 27\n"), failures++;
    source_map("document 01's example", example, EXAMPLE, MODULE_INFO_NO_MAP, none);
    source_map("no bytes", example, 0, MODULE_INFO_NO_MAP, none);
    source_map("no bytes, a null pointer", NULL, 0, MODULE_INFO_NO_MAP, none);
    source_map("a sheet that is too long", long_sheet, sizeof long_sheet, MODULE_INFO_SHEET_LENGTH, none);
    for (n = 1; n < MAP_SHEET; n++) source_map("a sheet that is cut off", map_sheet, n, MODULE_INFO_CUT_OFF, none);
}

/* ---- each entry with its rule ---- */

/* Are all bytes those of the text, and then zeros? */
static int begins(const uint8_t *bytes, size_t size, const uint8_t *text, size_t length) {
    size_t i;

    for (i = 0; i < size && bytes[i] == (i < length ? text[i] : 0); i++) continue;
    return i == size;
}

/* Compares the answer with buffers of m and k bytes: number, lengths, every byte of both buffers, and nothing beside them. */
static void ruled(const char *name, const uint8_t *sheet, size_t n, size_t m, size_t k, int number, const uint8_t *report, size_t length,
                  const uint8_t *rules, size_t rules_length) {
    static uint8_t first[EDGE + LARGE + EDGE], second[EDGE + LARGE + EDGE];
    uint64_t lengths[MODULE_INFO_LENGTHS + 1], answer;
    const char *problem = NULL;
    size_t i;

    if (number != MODULE_INFO_ACCEPTED) length = rules_length = 0;
    memset(first, FILL, EDGE + m + EDGE);
    memset(second, FILL, EDGE + k + EDGE);
    memset(lengths, FILL, sizeof lengths);
    answer = module_info_with_rules(sheet, n, m ? first + EDGE : NULL, m, k ? second + EDGE : NULL, k, lengths);
    calls++;
    if (answer != (uint64_t)number) problem = "the number";
    if (!problem && (lengths[MODULE_INFO_REPORT_LENGTH] != length || lengths[MODULE_INFO_RULES_LENGTH] != rules_length)) problem = "a length";
    if (!problem && !begins(first + EDGE, m, report, length)) problem = "a byte of the first buffer";
    if (!problem && !begins(second + EDGE, k, rules, rules_length)) problem = "a byte of the second buffer";
    for (i = 0; i < EDGE && !problem; i++)
        if (first[i] != FILL || first[EDGE + m + i] != FILL || second[i] != FILL || second[EDGE + k + i] != FILL) problem = "a byte beside a buffer";
    if (!problem && lengths[MODULE_INFO_LENGTHS] % 256 != FILL) problem = "a number behind the lengths";
    if (problem && ++failures <= SHOWN)
        printf("%s, buffers %lu and %lu: %s differs: number %d is expected, got %lu\n", name, (unsigned long)m, (unsigned long)k, problem, number,
               (unsigned long)answer);
}

/* The answer with buffers that fit, lack a byte, have one more and are none; the first buffer is judged before the second. */
static void ruled_sizes(const char *name, const uint8_t *sheet, size_t n, int number, const uint8_t *report, size_t length, const uint8_t *rules,
                        size_t rules_length) {
    size_t sizes[8][2], less = rules_length ? rules_length - 1 : 0, shorter = length ? length - 1 : 0;
    int i, expected;

    for (i = 0; i < 8; i++) {
        sizes[i][0] = i < 4 ? length : i < 6 ? shorter : i < 7 ? length + 1 : 0;
        sizes[i][1] = i == 1 || i == 5 ? less : i == 2 ? rules_length + 1 : i == 3 || i == 7 ? 0 : rules_length;
        expected = number;
        if (number == MODULE_INFO_ACCEPTED && rules_length > sizes[i][1]) expected = MODULE_INFO_RULES;
        if (number == MODULE_INFO_ACCEPTED && length > sizes[i][0]) expected = MODULE_INFO_BUFFER;
        ruled(name, sheet, n, sizes[i][0], sizes[i][1], expected, report, length, rules, rules_length);
    }
}

/* How many rules the bytes have; 0 if one is no rule or no number in its shortest form. */
static size_t count_rules(const uint8_t *rules, size_t length) {
    size_t count = 0, i = 0;

    while (i < length) {
        if (rules[i] < MODULE_INFO_RULE_PATH || rules[i] > MODULE_INFO_RULE_DENO_TYPES) return 0;
        for (i++; i < length && rules[i] >= 128; i++) continue;
        if (i == length || (!rules[i] && rules[i - 1] >= 128)) return 0;
        i++;
        count++;
    }
    return count;
}

/* The same for a sheet whose report is known and whose rules are not: as they are in large buffers, if the report fits one. */
static void stored_rules(const char *name, const uint8_t *sheet, size_t n, int number, const uint8_t *report, size_t length) {
    static uint8_t buffer[LARGE], rules[LARGE];
    uint64_t lengths[MODULE_INFO_LENGTHS];
    size_t k;

    if (length > largest) return;
    module_info_with_rules(sheet, n, buffer, largest, rules, largest, lengths);
    calls++;
    k = lengths[MODULE_INFO_RULES_LENGTH] <= length ? (size_t)lengths[MODULE_INFO_RULES_LENGTH] : 0;
    if ((k != lengths[MODULE_INFO_RULES_LENGTH] || (k && !count_rules(rules, k))) && ++failures <= SHOWN) printf("%s: no rules\n", name);
    ruled(name, sheet, n, largest, largest, number, report, length, rules, k);
    ruled_sizes(name, sheet, n, number, report, length, rules, k);
}

/* JavaScript; one comment, a block from 0 to 35, in which two `@import` read one quote; the rest as in the example. */
static const uint8_t twice[] = "\0\43/** @import {@import {} from \"a\" */"
                               "\1\1\0\43"
                               "\1\0\43\0\1"
                               "\0\43\43\0\0"
                               "\0\43\43\0";
static const uint8_t twice_report[] = "\0\0\0\0\0\0"
                                      "\1\1\1a\0\35\0\40\0"
                                      "\0";
/* TypeScript, no JSX: the source map alone, of the last comment. */
static const uint8_t map_report[] = "\0\0\0\0\0\0\0"
                                    "\1\1b\2\25\2\26";

static void rules_of_entries(void) {
    static const uint8_t brace[] = {MODULE_INFO_RULE_BRACE, 4}, declaration[] = {MODULE_INFO_RULE_DECLARATION, 4};
    static const uint8_t map[] = {MODULE_INFO_RULE_SOURCE_MAP, 30}, long_sheet[MODULE_INFO_MAX_SHEET + 1];

    ruled_sizes("rules of the example", example, EXAMPLE, MODULE_INFO_ACCEPTED, example_report, sizeof example_report - 1, brace, sizeof brace);
    ruled_sizes("rules of two readings", twice, sizeof twice - 1, MODULE_INFO_ACCEPTED, twice_report, sizeof twice_report - 1, declaration,
                sizeof declaration);
    ruled_sizes("rules of a source map", map_sheet, MAP_SHEET, MODULE_INFO_ACCEPTED, map_report, sizeof map_report - 1, map, sizeof map);
    ruled_sizes("rules of no bytes", NULL, 0, MODULE_INFO_ACCEPTED, default_report, sizeof default_report, brace, 0);
    ruled_sizes("rules of a longer sheet", long_sheet, sizeof long_sheet, MODULE_INFO_SHEET_LENGTH, example_report, 0, brace, 0);
}

/* ---- the stored list ---- */

static const uint8_t *list;
static char *names;
static size_t list_size, list_at;

static const uint8_t *take(size_t n) {
    const uint8_t *p = list + list_at;

    if (list_size - list_at < n) {
        fprintf(stderr, "test: the stored list is cut off\n");
        exit(2);
    }
    list_at += n;
    return p;
}

static size_t take_number(void) {
    const uint8_t *p = take(4);

    return p[0] | (size_t)p[1] << 8 | (size_t)p[2] << 16 | (size_t)p[3] << 24;
}

/* The bytes of a file, with a zero behind them. */
static uint8_t *read_file(const char *name, size_t *size) {
    FILE *f = fopen(name, "rb");
    uint8_t *bytes = NULL;
    long end = -1;

    if (f && !fseek(f, 0, SEEK_END)) end = ftell(f);
    if (end >= 0 && !fseek(f, 0, SEEK_SET)) bytes = malloc((size_t)end + 1);
    if (!bytes || fread(bytes, 1, (size_t)end, f) != (size_t)end) {
        fprintf(stderr, "test: %s cannot be read\n", name);
        exit(2);
    }
    fclose(f);
    bytes[end] = 0;
    *size = (size_t)end;
    return bytes;
}

static unsigned long replay(void) {
    unsigned long count = (unsigned long)take_number(), i;
    const char *name = strtok(names, "\n");

    for (i = 0; i < count; i++, name = strtok(NULL, "\n")) {
        size_t n = take_number(), length;
        const uint8_t *sheet = take(n), *report;
        int number = *take(1);

        length = take_number();
        report = take(length);
        if (length >= LARGE) {
            fprintf(stderr, "test: the stored list has a report that is too long\n");
            exit(2);
        }
        all_sizes(name ? name : "a sheet without a name", i, sheet, n, number, report, length);
        stored_rules(name ? name : "a sheet without a name", sheet, n, number, report, length);
    }
    if (list_at != list_size) {
        fprintf(stderr, "test: bytes follow the stored list\n");
        exit(2);
    }
    return count;
}

int main(int argc, char **argv) {
    unsigned long count;
    size_t names_size;

    if (argc < 3 || argc > 4) {
        fprintf(stderr, "usage: test FILE NAMES [LARGEST]\n");
        return 2;
    }
    if (argc == 4) largest = (size_t)strtoul(argv[3], NULL, 10);
    if (largest > LARGE) largest = LARGE;
    list = read_file(argv[1], &list_size);
    names = (char *)read_file(argv[2], &names_size);
    examples();
    source_maps();
    rules_of_entries();
    count = replay();
    printf("C: %lu stored sheets, %lu calls, %lu differ\n", count, calls, failures);
    return failures != 0;
}
