/* compare [--rules RULES] [--before ANSWERS] SHEETS ANSWERS KINDS FILE [KIND]...
 * Runs the linked library and tools/second.rs on every sheet of a batch and compares them with each other and with ANSWERS, those of
 * tools/oracle: the library with lent buffers of several sizes, by number, length and every byte of the buffer. Where the oracle leaves a
 * sheet out, the library is compared with second, and each text that second has from a comment must stand between its positions. Where the
 * dependencies start and the numbers of replaced characters, which the oracle does not have, are compared with second's, in notes of several
 * sizes. Prints by kind how many sheets were accepted, refused with each number and left out, and the shortest sheet that differs, which is also
 * written to FILE.
 * The library and second are also asked for the source map by ECMA-426 (request #105), and for each entry with its rule (request #112), with sizes
 * of each buffer at the exact length and around it. With --rules, these rules (the library's, or second's without one) are written to the file
 * RULES, an answer for each sheet as in ANSWERS, for `oracle rules`.
 * The status is 1 if a sheet differs, or if one of the kinds named has no accepted sheet or one with a String that is not quoted.
 * With --before, ANSWERS are those of an oracle without the patch of request #104: they must differ from the others on just the sheets in which
 * a reference comment has both a path and types.
 * The buffer is full of other bytes before each call; sheet and buffer each end at a page that must not be touched.
 * Without LIBRARY defined there is no library: second is compared with the oracle.
 */
#define _GNU_SOURCE
#include <stdbool.h>
#include <stddef.h>
#include <stdint.h>
#include <stdio.h>
#include <stdlib.h>
#include <string.h>
#include <sys/mman.h>
#include <unistd.h>

#ifdef LIBRARY
uint64_t module_info_answer(const uint8_t *sheet, size_t n, uint8_t *buffer, size_t m);
uint64_t module_info_with_replaced_answer(const uint8_t *sheet, size_t n, uint8_t *buffer, size_t m, size_t *notes, size_t k);
uint64_t module_info_source_map(const uint8_t *sheet, size_t n, uint64_t *places);
uint64_t module_info_with_rules(const uint8_t *sheet, size_t n, uint8_t *buffer, size_t m, uint8_t *rules, size_t k, uint64_t *lengths);
#endif
uint64_t second_answer(const uint8_t *sheet, size_t n, uint8_t *buffer, size_t m);
void second_notes(const uint8_t *sheet, size_t n, size_t room, size_t *notes, size_t m);
uint64_t second_source_map(const uint8_t *sheet, size_t n, uint64_t *places);
uint64_t second_with_rules(const uint8_t *sheet, size_t n, uint8_t *buffer, size_t m, uint8_t *rules, size_t k, uint64_t *lengths);
bool second_both(const uint8_t *sheet, size_t n);
bool second_shows(const uint8_t *sheet, size_t n, const uint8_t *report, size_t m);

#define ROOM ((size_t)1 << 20)
#define LARGE 65536
/* how many dependencies, and a number for each: a report of LARGE bytes has eight for each of them */
#define NOTES (1 + LARGE / 4)
#define MAX_KINDS 64
/* an answer's number is a byte; the oracle's last one says that the sheet is left out */
#define NUMBERS 256
#define BUFFER_REFUSAL 10
#define STRING_REFUSAL 13
#define LEFT_OUT 255

struct file {
    uint8_t *bytes;
    size_t size;
};

struct answer {
    unsigned number;
    const uint8_t *report;
    size_t length;
};

static void fail(const char *name, const char *message) {
    fprintf(stderr, "compare: %s: %s\n", name, message);
    exit(2);
}

static struct file read_file(const char *name) {
    FILE *f = fopen(name, "rb");
    if (!f) fail(name, "cannot be read");
    fseek(f, 0, SEEK_END);
    struct file r = {NULL, (size_t)ftell(f)};
    rewind(f);
    r.bytes = malloc(r.size + 1);
    if (!r.bytes || fread(r.bytes, 1, r.size, f) != r.size) fail(name, "cannot be read");
    fclose(f);
    return r;
}

static uint32_t u32(const uint8_t *p) {
    return p[0] | (uint32_t)p[1] << 8 | (uint32_t)p[2] << 16 | (uint32_t)p[3] << 24;
}

/* ---- the three answers ---- */

static bool same(struct answer a, struct answer b) {
    return a.number == b.number && a.length == b.length && !memcmp(a.report, b.report, a.length);
}

/* The answer of second, with a buffer that has room for a report of so many bytes and some more. */
static struct answer answer_of_second(const uint8_t *sheet, size_t n, size_t length) {
    static uint8_t buffer[ROOM];
    uint64_t got = second_answer(sheet, n, buffer, length + 64);
    if ((got & 255) == BUFFER_REFUSAL) got = second_answer(sheet, n, buffer, ROOM);
    return (struct answer){(unsigned)(got & 255), buffer, (size_t)(got >> 8)};
}

#ifdef LIBRARY
/* Memory whose end is followed by a page that must not be touched. */
static uint8_t *guarded_end(void) {
    size_t page = (size_t)sysconf(_SC_PAGESIZE);
    uint8_t *p = mmap(NULL, ROOM + page, PROT_READ | PROT_WRITE, MAP_PRIVATE | MAP_ANONYMOUS, -1, 0);
    if (p == MAP_FAILED || mprotect(p + ROOM, page, PROT_NONE)) fail("memory", "cannot be had");
    return p + ROOM;
}

static uint8_t *sheet_end, *buffer_end;
static const uint8_t zeros[ROOM];
static unsigned long calls, replaced;

/* What differs in the library's answer with a buffer of m bytes, or NULL. */
static const char *difference(const uint8_t *sheet, size_t n, struct answer expected, size_t m) {
    static char message[200];
    if (expected.number == 0 && expected.length > m) expected = (struct answer){BUFFER_REFUSAL, zeros, 0};
    uint8_t *copy = sheet_end - n, *buffer = buffer_end - m;
    memcpy(copy, sheet, n);
    memset(buffer - 64, 0xA5, m + 64);
    uint64_t got = module_info_answer(copy, n, buffer, m);
    calls++;
    if (got != expected.number + 256 * (uint64_t)expected.length) {
        snprintf(message, sizeof message, "buffer %zu: number %u and length %zu are expected, got %u and %llu", m, expected.number,
                 expected.length, (unsigned)(got & 255), (unsigned long long)(got >> 8));
        return message;
    }
    if (memcmp(buffer, expected.report, expected.length) || memcmp(buffer + expected.length, zeros, m - expected.length)) {
        size_t i = 0;
        while (buffer[i] == (i < expected.length ? expected.report[i] : 0)) i++;
        snprintf(message, sizeof message, "buffer %zu: byte %zu of %zu is %02x, expected %02x", m, i, expected.length, buffer[i],
                 i < expected.length ? expected.report[i] : 0);
        return message;
    }
    for (size_t i = 1; i <= 64; i++)
        if (buffer[-(ptrdiff_t)i] != 0xA5) return "bytes in front of the buffer are changed";
    if (memcmp(copy, sheet, n)) return "the sheet is changed";
    return NULL;
}

/* What differs in the library's answer and notes, with a buffer of m bytes and k notes, or NULL. A dependency has two notes, and the second counts
 * its replaced characters. */
static const char *notes_differ(const uint8_t *sheet, size_t n, struct answer expected, size_t m, size_t k) {
    static char message[200];
    static size_t notes[NOTES + 1], others[NOTES];
    if (expected.number == 0 && expected.length > m) expected = (struct answer){BUFFER_REFUSAL, zeros, 0};
    uint8_t *copy = sheet_end - n, *buffer = buffer_end - m;
    memcpy(copy, sheet, n);
    memset(buffer, 0xA5, m);
    memset(notes, 0xA5, sizeof notes);
    uint64_t got = module_info_with_replaced_answer(copy, n, buffer, m, notes, k);
    calls++;
    second_notes(sheet, n, m, others, k);
    if (k == NOTES && m == LARGE) {
        size_t i = 2;
        while (i <= others[0] && !others[i]) i += 2;
        replaced += i <= others[0];
    }
    if (got != expected.number + 256 * (uint64_t)expected.length || memcmp(buffer, expected.report, expected.length)
        || memcmp(buffer + expected.length, zeros, m - expected.length)) {
        snprintf(message, sizeof message, "buffer %zu, %zu notes: the report", m, k);
        return message;
    }
    for (size_t i = 0; i < k; i++)
        if (notes[i] != others[i]) {
            snprintf(message, sizeof message, "buffer %zu, %zu notes: note %zu is %zu, second has %zu", m, k, i, notes[i], others[i]);
            return message;
        }
    for (size_t i = k * sizeof *notes; i < sizeof notes; i++)
        if (((uint8_t *)notes)[i] != 0xA5) return "bytes behind the notes are changed";
    return NULL;
}

/* The same with five sizes: exact, one less and one more for a report; some small size for a refusal. */
static const char *library_differs(const uint8_t *sheet, size_t n, struct answer expected) {
    size_t length = expected.length;
    size_t sizes[] = {LARGE, 0, length ? length : 7, length ? length - 1 : 1, length + 1};
    const char *message = NULL;
    for (size_t i = 0; i < sizeof sizes / sizeof *sizes && !message; i++) message = difference(sheet, n, expected, sizes[i]);
    if (!message) message = notes_differ(sheet, n, expected, LARGE, NOTES);
    if (!message) message = notes_differ(sheet, n, expected, LARGE, 3 + n % 2);
    if (!message) message = notes_differ(sheet, n, expected, LARGE, 0);
    if (!message && length) message = notes_differ(sheet, n, expected, length - 1, NOTES);
    return message;
}

static unsigned long maps, no_maps, refused_maps, maps_differ;

/* What differs between the library and second in the source map by ECMA-426, or NULL. */
static const char *map_differs(const uint8_t *sheet, size_t n) {
    static char message[200];
    uint64_t expected[6], *places = (uint64_t *)(buffer_end - sizeof expected);
    uint64_t number = second_source_map(sheet, n, expected);
    uint8_t *copy = sheet_end - n;
    memcpy(copy, sheet, n);
    memset(places, 0xA5, sizeof expected);
    uint64_t got = module_info_source_map(copy, n, places);
    calls++;
    number == 256 ? maps++ : number ? refused_maps++ : no_maps++;
    if (got == number && !memcmp(places, expected, sizeof expected) && !memcmp(copy, sheet, n)) return NULL;
    maps_differ++;
    snprintf(message, sizeof message, "the source map by ECMA-426: %llu from %llu to %llu is expected, got %llu from %llu to %llu",
             (unsigned long long)number, (unsigned long long)expected[0], (unsigned long long)expected[1], (unsigned long long)got,
             (unsigned long long)places[0], (unsigned long long)places[1]);
    return message;
}
#endif

/* ---- each entry with its rule ---- */

#define RULES 11
#define RULES_REFUSAL 16

/* An answer with rules, in two buffers. */
struct ruled {
    unsigned number;
    uint8_t *report, *rules;
    uint64_t lengths[2];
};

static FILE *rules_file;
static unsigned long rules_named[RULES], refused_rules, rules_differ;

/* The answer of second, with room for m and k bytes. */
static struct ruled ruled_of_second(const uint8_t *sheet, size_t n, size_t m, size_t k) {
    static uint8_t report[ROOM], rules[ROOM];
    struct ruled r = {0, report, rules, {0, 0}};
    r.number = (unsigned)second_with_rules(sheet, n, report, m, rules, k, r.lengths);
    return r;
}

/* Counts the rules by their numbers, and writes them to the file as an answer. */
static void keep_rules(struct ruled r) {
    size_t length = (size_t)r.lengths[1], i = 0;
    while (i < length) {
        rules_named[r.rules[i] < RULES ? r.rules[i] : 0]++;
        for (i++; i < length && r.rules[i] & 128; i++) continue;
        i++;
    }
    uint8_t head[5] = {(uint8_t)r.number, (uint8_t)length, (uint8_t)(length >> 8), (uint8_t)(length >> 16), (uint8_t)(length >> 24)};
    if (rules_file && (fwrite(head, 1, 5, rules_file) != 5 || fwrite(r.rules, 1, length, rules_file) != length)) fail("rules", "cannot be written");
}

#ifdef LIBRARY
static uint8_t *rules_end;

/* The answer of the library, with buffers of m and k bytes that end at a page that must not be touched and are full of other bytes. */
static struct ruled ruled_of_library(const uint8_t *sheet, size_t n, size_t m, size_t k) {
    struct ruled r = {0, buffer_end - m, rules_end - k, {0, 0}};
    uint8_t *copy = sheet_end - n;
    memcpy(copy, sheet, n);
    memset(r.report - 64, 0xA5, m + 64);
    memset(r.rules - 64, 0xA5, k + 64);
    memset(r.lengths, 0xA5, sizeof r.lengths);
    uint64_t number = module_info_with_rules(copy, n, r.report, m, r.rules, k, r.lengths);
    calls++;
    r.number = number < NUMBERS ? (unsigned)number : NUMBERS;
    for (size_t i = 1; i <= 64; i++)
        if (r.report[-(ptrdiff_t)i] != 0xA5 || r.rules[-(ptrdiff_t)i] != 0xA5) r.number = NUMBERS;
    if (memcmp(copy, sheet, n)) r.number = NUMBERS;
    return r;
}

/* What differs between the library and second with such buffers, or NULL. */
static const char *ruled_differ(const uint8_t *sheet, size_t n, size_t m, size_t k) {
    static char message[200];
    struct ruled expected = ruled_of_second(sheet, n, m, k), got = ruled_of_library(sheet, n, m, k);
    refused_rules += expected.number == RULES_REFUSAL;
    const char *what = NULL;
    if (memcmp(got.rules, expected.rules, k)) what = "the second buffer";
    if (memcmp(got.report, expected.report, m)) what = "the first buffer";
    if (memcmp(got.lengths, expected.lengths, sizeof got.lengths)) what = "a length";
    if (got.number != expected.number) what = "the number, or what stands beside a buffer";
    if (!what) return NULL;
    snprintf(message, sizeof message, "rules, buffers %zu and %zu: %s: %u, %llu and %llu are expected, got %u, %llu and %llu", m, k, what,
             expected.number, (unsigned long long)expected.lengths[0], (unsigned long long)expected.lengths[1], got.number,
             (unsigned long long)got.lengths[0], (unsigned long long)got.lengths[1]);
    return message;
}
#endif

/* What is wrong with the rules beside the report that second has, or NULL. Where there is a library, the sizes of each buffer are the exact length,
 * one less and one more, none and large. */
static const char *with_rules(const uint8_t *sheet, size_t n, struct answer second) {
    /* an entry has more bytes in the report than its rule */
    size_t m = second.length;
    struct ruled large = ruled_of_second(sheet, n, m + 64, m + 64);
    const char *message = NULL;
    if (large.number != second.number || large.lengths[0] != m || memcmp(large.report, second.report, m)) message = "rules: second's own report";
#ifdef LIBRARY
    size_t k = (size_t)large.lengths[1], room = m > LARGE ? m : LARGE, less = k ? k - 1 : 0;
    size_t sizes[][2] = {{room, LARGE}, {m, k}, {m, less}, {m, k + 1}, {m, 0}, {m + 1, k}, {m ? m - 1 : 7, k}, {m ? m - 1 : 7, less}, {0, 0}};
    for (size_t i = 0; i < sizeof sizes / sizeof *sizes && !message; i++) message = ruled_differ(sheet, n, sizes[i][0], sizes[i][1]);
    if (message) rules_differ++;
    large = ruled_of_library(sheet, n, room, LARGE);
    if (large.number == NUMBERS || large.lengths[1] > LARGE) large = (struct ruled){255, large.report, large.rules, {0, 0}};
#endif
    keep_rules(large);
    return message;
}

/* ---- what is printed ---- */

struct kind {
    const char *name;
    unsigned long sheets, numbers[NUMBERS];
};

static struct kind kinds[MAX_KINDS];
static size_t n_kinds;

static struct kind *kind_of(const char *name) {
    size_t k = 0;
    while (k < n_kinds && strcmp(kinds[k].name, name)) k++;
    if (k == MAX_KINDS) fail(name, "one kind too many");
    if (k == n_kinds) kinds[n_kinds++].name = name;
    return &kinds[k];
}

static void print_kinds(void) {
    bool occurs[NUMBERS] = {true};
    for (unsigned r = 1; r < NUMBERS; r++)
        for (size_t k = 0; k < n_kinds; k++) occurs[r] = occurs[r] || kinds[k].numbers[r];
    printf("%-10s %8s %8s", "kind", "sheets", "accepted");
    for (unsigned r = 1; r < LEFT_OUT; r++)
        if (occurs[r]) printf(" %6s%2u", "refus.", r);
    printf(" %8s\n", "left out");
    for (size_t k = 0; k < n_kinds; k++) {
        printf("%-10s %8lu", kinds[k].name, kinds[k].sheets);
        for (unsigned r = 0; r < LEFT_OUT; r++)
            if (occurs[r]) printf(" %8lu", kinds[k].numbers[r]);
        printf(" %8lu\n", kinds[k].numbers[LEFT_OUT]);
    }
}

static void print_hex(const uint8_t *p, size_t n) {
    for (size_t i = 0; i < n; i++) printf("%s%02x", i % 32 ? "" : "\n  ", p[i]);
    printf("\n");
}

static void print_answer(const char *name, struct answer a) {
    printf("%s: number %u, %zu bytes", name, a.number, a.length);
    print_hex(a.report, a.length);
}

/* The shortest sheet that differs. */
static struct {
    unsigned long index;
    const char *kind;
    const uint8_t *sheet;
    size_t size;
    struct answer oracle;
    char message[240];
} shortest;

static void print_shortest(const char *file) {
    printf("the shortest sheet that differs is number %lu, of kind %s: %s\nsheet: %zu bytes", shortest.index, shortest.kind,
           shortest.message, shortest.size);
    print_hex(shortest.sheet, shortest.size);
    if (shortest.oracle.number == LEFT_OUT)
        printf("oracle: left out\n");
    else
        print_answer("oracle", shortest.oracle);
    print_answer("second", answer_of_second(shortest.sheet, shortest.size, LARGE));
    FILE *f = fopen(file, "wb");
    if (!f || fwrite(shortest.sheet, 1, shortest.size, f) != shortest.size || fclose(f)) fail(file, "cannot be written");
}

/* ---- the batch ---- */

static unsigned long differ, by_patch, not_by_patch, not_shown, second_and_oracle, library_and_oracle, library_and_second;

/* What differs among the three answers to a sheet, or NULL. */
static const char *compared(const uint8_t *sheet, size_t n, struct answer oracle, struct answer second) {
    static char message[240];
    const char *found = NULL;
    bool left_out = oracle.number == LEFT_OUT;
    if (!left_out && !same(oracle, second)) {
        second_and_oracle++;
        found = "second and the oracle differ";
    }
    if (left_out && !second_shows(sheet, n, second.report, second.length)) {
        not_shown++;
        found = "a text does not stand between its positions";
    }
#ifdef LIBRARY
    const char *of_library = left_out ? NULL : library_differs(sheet, n, oracle);
    if (of_library) {
        library_and_oracle++;
        snprintf(message, sizeof message, "the library and the oracle differ, %s", of_library);
        found = message;
    }
    if (left_out || !same(oracle, second)) {
        of_library = library_differs(sheet, n, second);
        if (of_library) {
            library_and_second++;
            snprintf(message, sizeof message, "the library and second differ, %s", of_library);
            found = message;
        }
    } else if (of_library)
        library_and_second++;
    of_library = map_differs(sheet, n);
    if (of_library) found = of_library;
#else
    (void)message;
#endif
    const char *of_rules = with_rules(sheet, n, second);
    return of_rules ? of_rules : found;
}

/* The answer before the patch differs from the one behind it just where a comment has both a path and types. */
static const char *compared_before(const uint8_t *sheet, size_t n, struct answer before, struct answer oracle) {
    bool changed = !same(before, oracle);
    bool both = oracle.number == 0 && second_both(sheet, n);
    by_patch += changed;
    if (changed == both) return NULL;
    not_by_patch++;
    return "the answers before and behind the patch";
}

/* The answer at a place of a file of answers; the place goes past it. */
static struct answer next_answer(struct file answers, size_t *at, const char *name) {
    if (answers.size - *at < 5 || answers.size - *at - 5 < u32(answers.bytes + *at + 1)) fail(name, "is cut off");
    struct answer a = {answers.bytes[*at], answers.bytes + *at + 5, u32(answers.bytes + *at + 1)};
    *at += 5 + a.length;
    return a;
}

/* Each kind named has an accepted sheet, and all Strings of its sheets are quoted. */
static bool kinds_are_there(char **names, int count) {
    bool all = true;
    for (int i = 0; i < count; i++) {
        struct kind *k = kind_of(names[i]);
        if (!k->numbers[0] && !k->numbers[LEFT_OUT]) {
            printf("of kind %s no sheet is accepted\n", names[i]);
            all = false;
        }
        if (k->numbers[STRING_REFUSAL]) {
            printf("of kind %s %lu sheets have a String that is not quoted\n", names[i], k->numbers[STRING_REFUSAL]);
            all = false;
        }
    }
    return all;
}

static void print_counts(unsigned long total, bool with_before) {
    printf("entries by rule:");
    for (unsigned r = 1; r < RULES; r++) printf(" %u: %lu%s", r, rules_named[r], r + 1 < RULES ? "," : "\n");
    printf("second and oracle: %lu sheets differ\n", second_and_oracle);
    if (with_before)
        printf("before the patch of #104: %lu sheets differ; on %lu sheets this is not where a comment has both a path and types\n",
               by_patch, not_by_patch);
    printf("left out, with a text that does not stand between its positions: %lu sheets\n", not_shown);
#ifdef LIBRARY
    printf("library and oracle: %lu sheets differ\nlibrary and second: %lu sheets differ\n", library_and_oracle, library_and_second);
    printf("sheets with a replaced character: %lu\n", replaced);
    printf("source map by ECMA-426: %lu found, %lu none, %lu refused; library and second: %lu sheets differ\n", maps, no_maps, refused_maps, maps_differ);
    printf("rules: %lu calls refused with 16; library and second: %lu sheets differ\n", refused_rules, rules_differ);
    printf("%lu sheets, %lu calls, %lu sheets differ\n", total, calls, differ);
#else
    (void)refused_rules, (void)rules_differ;
    printf("%lu sheets, %lu sheets differ\n", total, differ);
#endif
}

int main(int argc, char **argv) {
    const char *before_name = NULL;
    if (argc > 2 && !strcmp(argv[1], "--rules")) {
        rules_file = fopen(argv[2], "wb");
        if (!rules_file) fail(argv[2], "cannot be written");
        argv += 2;
        argc -= 2;
    }
    if (argc > 2 && !strcmp(argv[1], "--before")) {
        before_name = argv[2];
        argv += 2;
        argc -= 2;
    }
    if (argc < 5) {
        fprintf(stderr, "usage: compare [--rules RULES] [--before ANSWERS] SHEETS ANSWERS KINDS FILE [KIND]...\n");
        return 2;
    }
    struct file befores = {NULL, 0};
    if (before_name) befores = read_file(before_name);
    struct file sheets = read_file(argv[1]), answers = read_file(argv[2]), names = read_file(argv[3]);
    names.bytes[names.size] = 0;
#ifdef LIBRARY
    sheet_end = guarded_end();
    buffer_end = guarded_end();
    rules_end = guarded_end();
#endif
    unsigned long total = 0;
    size_t at = 0, answer_at = 0, before_at = 0;
    char *name = strtok((char *)names.bytes, "\n");
    for (; at < sheets.size; total++, name = strtok(NULL, "\n")) {
        if (!name) fail(argv[3], "has too few lines");
        if (sheets.size - at < 4 || sheets.size - at - 4 < u32(sheets.bytes + at)) fail(argv[1], "is cut off");
        size_t n = u32(sheets.bytes + at);
        const uint8_t *sheet = sheets.bytes + at + 4;
        struct answer oracle = next_answer(answers, &answer_at, argv[2]);
        at += 4 + n;
        if (n > ROOM || oracle.length > ROOM - 64) fail(argv[1], "has a sheet or a report that is too large to compare");

        struct kind *k = kind_of(name);
        k->sheets++;
        k->numbers[oracle.number]++;
        struct answer second = answer_of_second(sheet, n, oracle.length);
        const char *message = compared(sheet, n, oracle, second);
        if (before_name) {
            const char *of_before = compared_before(sheet, n, next_answer(befores, &before_at, before_name), oracle);
            if (!message) message = of_before;
        }
        if (message && (!differ++ || n < shortest.size)) {
            shortest.index = total;
            shortest.kind = name;
            shortest.sheet = sheet;
            shortest.size = n;
            shortest.oracle = oracle;
            snprintf(shortest.message, sizeof shortest.message, "%s", message);
        }
    }
    if (answer_at != answers.size) fail(argv[2], "has too many answers");
    if (rules_file && fclose(rules_file)) fail("rules", "cannot be written");

    bool there = kinds_are_there(argv + 5, argc - 5);
    print_kinds();
    if (differ) print_shortest(argv[4]);
    print_counts(total, before_name != NULL);
    return differ || !there;
}
