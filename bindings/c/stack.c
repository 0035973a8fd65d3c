/* stack [KIB [RULES]]
 * Runs the deepest sheets of every form on a thread with a stack of KIB KiB (128): 64 levels of nodes, each with an entry where its form has one,
 * behind comments that are read with the largest tables. Each answer must be that of a call on the caller's own stack, and have the right number
 * and the right count of dependencies; the source map by ECMA-426, which is absent, is asked for too. A stack that is too small ends the program by a fault.
 * Each entry with its rule is asked for on a thread of its own, with a stack of RULES KiB (320): the same report, a rule for each entry's types and
 * one for the JSDoc import.
 * The status is 1 if an answer differs, 2 if no thread can be made. */
#define _POSIX_C_SOURCE 200112L

#include <pthread.h>
#include <stdio.h>
#include <stdlib.h>
#include <string.h>

#include "module_info.h"

#define LEVELS 64
#define SOURCE 5000
/* where './j.ts' begins and ends in the source */
#define QUOTED 22
#define QUOTED_END 30

/* What holds the node one level down. */
enum form {
    OTHER,
    TEMPLATE,
    LEFT_OF_PLUS,
    RIGHT_OF_PLUS,
    SPREAD,
    KEY,
    VALUE,
    CALLEE,
    ARGUMENT_OF_CALL,
    ARGUMENT_OF_REQUIRE,
    ARGUMENT_OF_IMPORT,
    SECOND_OF_IMPORT,
    BEHIND_IMPORT,
    CHILD_OF_TYPE,
    ATTRIBUTE_OF_TYPE,
    ATTRIBUTE_OF_IMPORT,
    MODULE,
    FORMS
};

static const char *const names[FORMS] = {"other nodes",
                                         "templates",
                                         "left sides of pluses",
                                         "right sides of pluses",
                                         "spreads",
                                         "keys",
                                         "values",
                                         "callees",
                                         "arguments of calls",
                                         "arguments of require",
                                         "arguments of imports",
                                         "second arguments of imports",
                                         "children of imports",
                                         "children of import types",
                                         "attributes of import types",
                                         "attributes of imports",
                                         "module declarations"};

/* The forms by the levels that are left. */
static enum form forms[LEVELS + 1];
static uint8_t sheet[MODULE_INFO_MAX_SHEET];
static size_t length, entries, types_start;

/* ---- a sheet, written front to back; each node is at 0, but for Strings ---- */

static void byte(int b) { sheet[length++] = (uint8_t)b; }

static void number(size_t n) {
    for (; n >= 128; n /= 128) byte((int)(n % 128 + 128));
    byte((int)n);
}

static void bytes(const char *text) {
    while (*text) byte((uint8_t)*text++);
}

static void text(const char *t) {
    number(strlen(t));
    bytes(t);
}

static void head(int tag) {
    byte(tag);
    number(0);
    number(0);
}

/* A String at the quoted place of the first comment. */
static void string(const char *t) {
    byte(1);
    number(QUOTED);
    number(QUOTED_END);
    text(t);
}

/* A call's byte, its count of arguments, and the start of the first one. */
static void call(int how, const char *name, int arguments) {
    head(6);
    byte(how);
    if (name) {
        head(2);
        text(name);
    }
    number((size_t)arguments);
    byte(0);
    number(0);
    number(0);
}

/* An Object with one property, whose value follows. */
static void object(const char *key) {
    head(5);
    number(1);
    byte(2);
    byte(1);
    text(key);
}

static void node(int left, int walked);

/* A node of that form, with so many levels below it. */

static void expression_of(enum form form, int below, int walked) {
    switch (form) {
    case OTHER:
        head(0);
        number(1);
        node(below, walked);
        break;
    case TEMPLATE:
        head(3);
        number(1);
        bytes("\1\1a\1\1b");
        node(below, walked);
        break;
    case LEFT_OF_PLUS:
        head(4);
        byte(1);
        node(below, walked);
        string("b");
        break;
    case RIGHT_OF_PLUS:
        head(4);
        byte(1);
        string("a");
        node(below, walked);
        break;
    case SPREAD:
        head(5);
        number(1);
        byte(0);
        node(below, walked);
        break;
    case KEY:
        head(5);
        number(1);
        byte(2);
        byte(0);
        node(below, walked);
        string("v");
        break;
    case VALUE:
        object("with");
        node(below, walked);
        break;
    default: /* CALLEE */
        head(6);
        byte(3);
        node(below, walked);
        number(0);
        number(0);
    }
}

static void call_of(enum form form, int below, int walked) {
    switch (form) {
    case ARGUMENT_OF_CALL:
        call(3, "f", 1);
        node(below, walked);
        number(0);
        break;
    case ARGUMENT_OF_REQUIRE:
        call(3, "require", 1);
        node(below, walked);
        number(0);
        entries += walked;
        break;
    case ARGUMENT_OF_IMPORT:
        call(0, NULL, 1);
        node(below, walked);
        number(0);
        entries += walked;
        break;
    case SECOND_OF_IMPORT:
        call(0, NULL, 2);
        string("./b.ts");
        byte(0);
        number(0);
        number(0);
        node(below, walked);
        number(0);
        entries += walked;
        break;
    default: /* BEHIND_IMPORT */
        call(0, NULL, 1);
        string("./b.ts");
        number(1);
        node(below, walked);
        entries += walked;
    }
}

static void declaration_of(enum form form, int below, int walked) {
    switch (form) {
    case CHILD_OF_TYPE:
        head(10);
        string("./t.ts");
        number(1);
        node(below, walked);
        byte(0);
        entries += walked;
        break;
    case ATTRIBUTE_OF_TYPE:
        head(10);
        string("./t.ts");
        number(0);
        byte(1);
        object("type");
        node(below - 1, walked);
        entries += walked;
        break;
    case ATTRIBUTE_OF_IMPORT:
        /* nothing inside it is walked */
        head(7);
        byte(0);
        byte(0);
        byte(0);
        string("./i.ts");
        byte(1);
        object("type");
        node(below - 1, 0);
        entries += walked;
        break;
    default: /* MODULE */
        head(12);
        byte(1);
        string("./m.ts");
        number(1);
        node(below, walked);
        entries += walked;
    }
}

/* The node at the level where so many are left, its own among them. Is it walked? */
static void node(int left, int walked) {
    enum form form = forms[left];
    /* the Object of attributes is a level too */
    int least = form == ATTRIBUTE_OF_TYPE || form == ATTRIBUTE_OF_IMPORT ? 3 : 2;

    if (left < least)
        string("./a.ts");
    else if (form <= CALLEE)
        expression_of(form, left - 1, walked);
    else if (form <= BEHIND_IMPORT)
        call_of(form, left - 1, walked);
    else
        declaration_of(form, left - 1, walked);
}

/* JavaScript; two comments that lead 0, a JSDoc import and then types that each entry reads, with wide characters; a tree as deep as can be. */
static void make(void) {
    static const char jsdoc[] = "/**@import\343\200\200{\344\270\200}from'./j.ts'with{\344\270\200:'a'}*/";
    static const char types[] = "/*\343\200\200@ts-types\343\200\200=\343\200\200\"./d.ts\"\343\200\200*/";
    size_t first = sizeof jsdoc - 1, second = first + sizeof types - 1, i;

    length = entries = 0;
    types_start = first;
    byte(0);
    number(SOURCE);
    bytes(jsdoc);
    bytes(types);
    for (i = second; i < SOURCE; i++) byte(' ');
    number(2);
    byte(1);
    number(0);
    number(first);
    byte(1);
    number(first);
    number(second);
    number(1);
    byte(0);
    number(0);
    number(0);
    number(2);
    /* the program: a module from 0 to 0, no shebang, no first item */
    for (i = 0; i < 5; i++) byte(0);
    node(LEVELS, 1);
}

/* ---- the calls ---- */

static uint8_t expected[65536], report[65536];
static uint64_t answer, map, places[MODULE_INFO_PLACES];

static void *run(void *unused) {
    answer = module_info_answer(sheet, length, report, sizeof report);
    map = module_info_source_map(sheet, length, places);
    return unused;
}

/* The same with rules. */
static uint8_t rules[65536], ruled[65536];
static uint64_t rules_number, lengths[MODULE_INFO_LENGTHS];

static void *run_rules(void *unused) {
    rules_number = module_info_with_rules(sheet, length, ruled, sizeof ruled, rules, sizeof rules, lengths);
    return unused;
}

/* Each entry has its types from the second comment, whose start is a number of one byte; then the JSDoc import, from its `@import` at 3. */
static int rules_are_right(uint64_t here) {
    size_t i;

    if (rules_number != MODULE_INFO_ACCEPTED || lengths[MODULE_INFO_REPORT_LENGTH] != MODULE_INFO_LENGTH(here)) return 0;
    if (lengths[MODULE_INFO_RULES_LENGTH] != 2 * entries + 2 || memcmp(ruled, expected, sizeof ruled)) return 0;
    for (i = 0; i < entries; i++)
        if (rules[2 * i] != MODULE_INFO_RULE_TS_TYPES || rules[2 * i + 1] != types_start) return 0;
    return rules[2 * i] == MODULE_INFO_RULE_DECLARATION && rules[2 * i + 1] == 3;
}

static unsigned long calls, ruled_calls, failures;

/* Asks for the rules on a thread. */
static void compare_rules(const char *name, uint64_t here, pthread_attr_t *large) {
    pthread_t thread;

    memset(ruled, 0xA5, sizeof ruled);
    memset(rules, 0xA5, sizeof rules);
    if (pthread_create(&thread, large, run_rules, NULL) || pthread_join(thread, NULL)) {
        fprintf(stderr, "stack: no thread can be made\n");
        exit(2);
    }
    ruled_calls++;
    if (!rules_are_right(here)) {
        failures++;
        printf("%s, with rules: number %d and %lu bytes of rules are expected, got %lu and %lu\n", name, MODULE_INFO_ACCEPTED,
               (unsigned long)(2 * entries + 2), (unsigned long)rules_number, (unsigned long)lengths[MODULE_INFO_RULES_LENGTH]);
    }
}

/* Compares the answer on a thread with the one on this stack. */
static void compare(const char *name, pthread_attr_t *small, pthread_attr_t *large) {
    uint64_t here;
    pthread_t thread;

    make();
    here = module_info_answer(sheet, length, expected, sizeof expected);
    memset(report, 0xA5, sizeof report);
    if (pthread_create(&thread, small, run, NULL) || pthread_join(thread, NULL)) {
        fprintf(stderr, "stack: no thread can be made\n");
        exit(2);
    }
    calls++;
    if (MODULE_INFO_NUMBER(here) != MODULE_INFO_ACCEPTED || expected[1] != entries || answer != here || map != MODULE_INFO_NO_MAP
        || memcmp(report, expected, sizeof report)) {
        failures++;
        printf("%s: number %d and %lu dependencies are expected, got %d and %d, and on the thread %d and %d\n", name, MODULE_INFO_ACCEPTED,
               (unsigned long)entries, MODULE_INFO_NUMBER(here), expected[1], MODULE_INFO_NUMBER(answer), report[1]);
    }
    compare_rules(name, here, large);
}

int main(int argc, char **argv) {
    unsigned long kib = argc > 1 ? strtoul(argv[1], NULL, 10) : 128, rules_kib = argc > 2 ? strtoul(argv[2], NULL, 10) : 320;
    pthread_attr_t small, large;
    int form, left;

    if (pthread_attr_init(&small) || pthread_attr_setstacksize(&small, kib * 1024) || pthread_attr_init(&large)
        || pthread_attr_setstacksize(&large, rules_kib * 1024)) {
        fprintf(stderr, "stack: no stack of %lu or %lu KiB\n", kib, rules_kib);
        return 2;
    }
    for (form = 0; form < FORMS; form++) {
        for (left = 0; left <= LEVELS; left++) forms[left] = (enum form)form;
        compare(names[form], &small, &large);
        /* the same in an import, which reads it as its argument or its attributes */
        forms[LEVELS] = ARGUMENT_OF_IMPORT;
        compare(names[form], &small, &large);
        forms[LEVELS] = SECOND_OF_IMPORT;
        compare(names[form], &small, &large);
    }
    for (form = 0; form < FORMS; form++) {
        for (left = 0; left <= LEVELS; left++) forms[left] = (enum form)((left + form) % FORMS);
        compare("all forms in turn", &small, &large);
    }
    printf("C: %lu of the deepest sheets on a thread of %lu KiB, %lu with rules on one of %lu KiB, %lu differ\n", calls, kib, ruled_calls, rules_kib,
           failures);
    return failures != 0;
}
