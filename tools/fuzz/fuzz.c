/* A target for libFuzzer: the proved library beside tools/second.rs.
 * An input is three bytes and a sheet. The first byte says how long the lent buffer is (as the report, one byte less or more, or as the other
 * two bytes say), and whether a page that must not be touched stands behind sheet and buffer or in front of them.
 * Number, length and every byte of the buffer must be those of second; the bytes beside the buffer and the sheet must stay as they were. */
#define _GNU_SOURCE
#include <stdint.h>
#include <stdio.h>
#include <stdlib.h>
#include <string.h>
#include <sys/mman.h>
#include <unistd.h>

#include "module_info.h"

uint64_t second_answer(const uint8_t *sheet, size_t n, uint8_t *buffer, size_t m);

#define ROOM ((size_t)1 << 20)
#define LARGE 65536
#define ZONE 256
#define FILL 0xA5

/* Memory between two pages that must not be touched. */
static uint8_t *guarded(void) {
    size_t page = (size_t)sysconf(_SC_PAGESIZE);
    uint8_t *p = mmap(NULL, page + ROOM + page, PROT_READ | PROT_WRITE, MAP_PRIVATE | MAP_ANONYMOUS, -1, 0);
    if (p == MAP_FAILED || mprotect(p, page, PROT_NONE) || mprotect(p + page + ROOM, page, PROT_NONE)) abort();
    return p + page;
}

static void require(int holds, const char *what) {
    if (holds) return;
    fprintf(stderr, "fuzz: %s\n", what);
    abort();
}

static size_t buffer_size(const uint8_t *control, size_t length) {
    size_t given = control[1] | (size_t)control[2] << 8;
    switch (control[0] & 7) {
    case 0: return LARGE;
    case 1: return length;
    case 2: return length ? length - 1 : 0;
    case 3: return length + 1;
    case 4: return control[1];
    case 5: return 0;
    default: return given;
    }
}

int LLVMFuzzerTestOneInput(const uint8_t *data, size_t size) {
    static uint8_t *sheets, *buffers, report[LARGE];
    if (!sheets) {
        sheets = guarded();
        buffers = guarded();
    }
    if (size < 3 || size - 3 > ROOM) return -1;
    size_t n = size - 3;
    /* a report that is longer is longer than every buffer that is lent */
    uint64_t expected = second_answer(data + 3, n, report, LARGE);
    size_t length = (size_t)(expected >> 8), m = buffer_size(data, length);
    if (!(expected & 255) && length > m) {
        expected = MODULE_INFO_BUFFER;
        length = 0;
    }

    int at_end = data[0] & 8;
    uint8_t *sheet = at_end ? sheets + ROOM - n : sheets, *buffer = at_end ? buffers + ROOM - m : buffers;
    uint8_t *zone = at_end ? buffer - ZONE : buffer + m;
    memcpy(sheet, data + 3, n);
    memset(buffer, FILL, m);
    memset(zone, FILL, ZONE);
    uint64_t got = module_info_answer(n ? sheet : NULL, n, m ? buffer : NULL, m);

    require(got == expected, "number or length differs");
    require(!memcmp(buffer, report, length), "the report differs");
    for (size_t i = length; i < m; i++) require(buffer[i] == 0, "a byte behind the report is not 0");
    for (size_t i = 0; i < ZONE; i++) require(zone[i] == FILL, "a byte beside the buffer is changed");
    require(!memcmp(sheet, data + 3, n), "the sheet is changed");
    return 0;
}
