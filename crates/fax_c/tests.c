/* Tests of the calls of fax_c.h: pages of one and two rows, and each status but want of memory.

   Without a word all tests are run, and with the name of one it alone. It prints nothing but what a test is to print, and ends
   with 0 where each answer is the one that is wanted; otherwise it says which is not. */
#include "fax_c.h"
#include <stdio.h>
#include <stdlib.h>
#include <string.h>

#define COUNT(array) (sizeof(array) / sizeof *(array))

/* A white row: EOL, the row, six EOLs. */
static const uint8_t WHITE[] = {0x00, 0x14, 0xd9, 0xa8, 0x00, 0x80, 0x08, 0x00, 0x80, 0x08, 0x00, 0x80, 0x08};

/* A black row. */
static const uint8_t BLACK[] = {0x00, 0x13, 0x50, 0x32, 0x86, 0xe0, 0x02, 0x00,
                                0x20, 0x02, 0x00, 0x20, 0x02, 0x00, 0x20};

/* In two dimensions: a white row, and one of three black elements and 1725 white ones. */
static const uint8_t TWO_ROWS[] = {0x00, 0x1a, 0x6c, 0xd4, 0x00, 0x44, 0xd6, 0x80, 0x0c,
                                   0x00, 0x60, 0x03, 0x00, 0x18, 0x00, 0xc0, 0x06};

/* A white row of 2432 elements, with 48 bits at least for a line. */
static const uint8_t WIDE[] = {0x00, 0x10, 0x1d, 0x35, 0x00, 0x10, 0x01, 0x00, 0x10, 0x01, 0x00, 0x10, 0x01};

/* No EOL; an EOL without its tag; what ends inside a line; a white row and no more. */
static const uint8_t NO_EOL[] = {0xff};
static const uint8_t UNTAGGED[] = {0x00, 0x01};
static const uint8_t CUT_LINE[] = {0x00, 0x14, 0x3f};
static const uint8_t CUT_PAGE[] = {0x00, 0x14, 0xd9, 0xa8, 0x00, 0x80, 0x08, 0x00, 0x80, 0x08, 0x00};

/* Octets that are read with so much room for runs, and the refusal. */
static const struct {
    const uint8_t *octets;
    size_t count;
    uint16_t width;
    bool two_dimensional;
    size_t room;
    uint32_t status;
    size_t wanted;
} READ_FAULTS[] = {
    {NO_EOL, COUNT(NO_EOL), 1728, false, 4, FAX_NO_EOL, 0},
    {UNTAGGED, COUNT(UNTAGGED), 1728, true, 4, FAX_NO_EOL, 0},
    {NULL, 0, 1728, false, 4, FAX_NO_EOL, 0},
    {CUT_LINE, COUNT(CUT_LINE), 1728, false, 4, FAX_BAD_LINE, 0},
    {CUT_PAGE, COUNT(CUT_PAGE), 1728, false, 4, FAX_NO_RTC, 0},
    {WHITE, COUNT(WHITE), 1729, false, 4, FAX_NO_WIDTH, 0},
    {TWO_ROWS, COUNT(TWO_ROWS), 1728, true, 3, FAX_NO_ROOM, 4},
    {TWO_ROWS, COUNT(TWO_ROWS), 1728, true, 0, FAX_NO_ROOM, 4},
    /* the width comes first, and then that there is no EOL */
    {NULL, 0, 1729, false, 0, FAX_NO_WIDTH, 0},
};

/* Runs that are written with so much room for octets, the refusal, and the row that is wrong. */
static const struct {
    uint16_t runs[3];
    size_t count;
    uint16_t width;
    uint32_t least_bits;
    size_t room;
    uint32_t status;
    uint32_t rows;
    size_t wanted;
} WRITE_FAULTS[] = {
    {{1728}, 1, 1728, 0, 12, FAX_NO_ROOM, 0, 13},
    {{0}, 0, 1728, 0, 12, FAX_EMPTY, 0, 0},
    {{1728, 1727}, 2, 1728, 0, 12, FAX_NO_RUNS, 1, 0},
    {{5, 0, 1723}, 3, 1728, 0, 12, FAX_NO_RUNS, 0, 0},
    {{1729}, 1, 1728, 0, 12, FAX_NO_RUNS, 0, 0},
    /* the width comes first, and then the least bits */
    {{0}, 0, 1729, 65536, 0, FAX_NO_WIDTH, 0, 0},
    {{0}, 0, 1728, 65536, 0, FAX_LEAST_BITS, 0, 0},
    {{0}, 0, 1728, 65535, 0, FAX_EMPTY, 0, 0},
};

/* The test that is run. */
static const char *name;

static void must(bool holds, int line) {
    if (holds) return;
    fprintf(stderr, "%s: line %d of tests.c\n", name, line);
    exit(1);
}

#define MUST(holds) must((holds), __LINE__)

static bool is_done(fax_outcome told, uint32_t rows, size_t filled) {
    return told.status == FAX_DONE && told.rows == rows && told.filled == filled && told.wanted == 0;
}

static bool is_refused(fax_outcome told, uint32_t status, uint32_t rows, size_t wanted) {
    return told.status == status && told.rows == rows && told.filled == 0 && told.wanted == wanted;
}

static void runs_are_read(void) {
    static const uint16_t white[] = {1728, 7, 7, 7, 7, 7, 7, 7}, two_rows[] = {1728, 0, 3, 1725, 7, 7, 7, 7};
    uint16_t runs[] = {7, 7, 7, 7, 7, 7, 7, 7};
    MUST(is_done(fax_read_runs(WHITE, COUNT(WHITE), 1728, false, runs, COUNT(runs)), 1, 1));
    MUST(memcmp(runs, white, sizeof runs) == 0);
    MUST(is_done(fax_read_runs(TWO_ROWS, COUNT(TWO_ROWS), 1728, true, runs, COUNT(runs)), 2, 4));
    MUST(memcmp(runs, two_rows, sizeof runs) == 0);
    MUST(is_done(fax_read_runs(BLACK, COUNT(BLACK), 1728, false, runs, COUNT(runs)), 1, 2));
    MUST(runs[0] == 0 && runs[1] == 1728);
}

static void pixels_are_read(void) {
    uint8_t pixels[512];
    memset(pixels, 0x55, sizeof pixels);
    MUST(is_done(fax_read_pixels(TWO_ROWS, COUNT(TWO_ROWS), 1728, true, pixels, COUNT(pixels)), 2, 432));
    for (size_t i = 0; i < 432; i++) MUST(pixels[i] == (i == 216 ? 0xe0 : 0));
    MUST(pixels[432] == 0x55);
    MUST(is_done(fax_read_pixels(BLACK, COUNT(BLACK), 1728, false, pixels, COUNT(pixels)), 1, 216));
    for (size_t i = 0; i < 216; i++) MUST(pixels[i] == 0xff);
    MUST(pixels[216] == 0xe0);
}

static void pages_are_written(void) {
    static const uint16_t white[] = {1728}, two_rows[] = {1728, 0, 3, 1725}, wide[] = {2432};
    uint8_t octets[64];
    MUST(is_done(fax_write_runs(white, 1, 1728, false, false, 0, octets, COUNT(octets)), 1, 13));
    MUST(memcmp(octets, WHITE, sizeof WHITE) == 0);
    MUST(is_done(fax_write_runs(two_rows, 4, 1728, true, false, 0, octets, COUNT(octets)), 2, 17));
    MUST(memcmp(octets, TWO_ROWS, sizeof TWO_ROWS) == 0);
    MUST(is_done(fax_write_runs(wide, 1, 2432, false, true, 0, octets, COUNT(octets)), 1, 13));
    MUST(memcmp(octets, WIDE, sizeof WIDE) == 0);
}

static void reading_tells_its_faults(void) {
    static const uint16_t untouched[] = {7, 7, 7, 7};
    uint16_t runs[] = {7, 7, 7, 7};
    for (size_t i = 0; i < COUNT(READ_FAULTS); i++) {
        fax_outcome told = fax_read_runs(READ_FAULTS[i].octets, READ_FAULTS[i].count, READ_FAULTS[i].width,
                                         READ_FAULTS[i].two_dimensional, runs, READ_FAULTS[i].room);
        MUST(is_refused(told, READ_FAULTS[i].status, 0, READ_FAULTS[i].wanted));
        /* no refusal changes the slice */
        MUST(memcmp(runs, untouched, sizeof runs) == 0);
    }
}

static void reading_pixels_tells_its_faults(void) {
    uint8_t pixels[431];
    memset(pixels, 0x55, sizeof pixels);
    MUST(is_refused(fax_read_pixels(TWO_ROWS, COUNT(TWO_ROWS), 1728, true, pixels, 431), FAX_NO_ROOM, 0, 432));
    for (size_t i = 0; i < COUNT(pixels); i++) MUST(pixels[i] == 0x55);
    MUST(is_refused(fax_read_pixels(WHITE, COUNT(WHITE), 1728, false, pixels, 215), FAX_NO_ROOM, 0, 216));
    MUST(is_refused(fax_read_pixels(NULL, 0, 1728, false, NULL, 0), FAX_NO_EOL, 0, 0));
}

static void writing_tells_its_faults(void) {
    uint8_t octets[12];
    for (size_t i = 0; i < COUNT(WRITE_FAULTS); i++) {
        fax_outcome told = fax_write_runs(WRITE_FAULTS[i].runs, WRITE_FAULTS[i].count, WRITE_FAULTS[i].width, false, false,
                                          WRITE_FAULTS[i].least_bits, octets, WRITE_FAULTS[i].room);
        MUST(is_refused(told, WRITE_FAULTS[i].status, WRITE_FAULTS[i].rows, WRITE_FAULTS[i].wanted));
    }
}

static void more_rows_than_a_page_has_are_told(void) {
    static uint16_t runs[65536];
    uint8_t octets[12];
    for (size_t i = 0; i < COUNT(runs); i++) runs[i] = 1728;
    MUST(is_refused(fax_write_runs(runs, 65536, 1728, false, false, 0, octets, 12), FAX_TOO_MANY_ROWS, 0, 0));
    /* an EOL of 12 bits, 65,535 lines of 17 bits, each with an EOL, and five EOLs */
    MUST(is_refused(fax_write_runs(runs, 65535, 1728, false, false, 0, octets, 12), FAX_NO_ROOM, 0, 237574));
}

/* `make memory` refuses each allocation of this test. */
static void faults_that_want_no_memory_are_told(void) {
    uint8_t octets[12];
    for (size_t i = 0; i < COUNT(WRITE_FAULTS); i++) {
        if (WRITE_FAULTS[i].status == FAX_NO_ROOM) continue;
        fax_outcome told = fax_write_runs(WRITE_FAULTS[i].runs, WRITE_FAULTS[i].count, WRITE_FAULTS[i].width, false, false,
                                          WRITE_FAULTS[i].least_bits, octets, COUNT(octets));
        MUST(is_refused(told, WRITE_FAULTS[i].status, WRITE_FAULTS[i].rows, 0));
    }
    for (size_t i = 0; i < COUNT(READ_FAULTS); i++) {
        if (READ_FAULTS[i].status != FAX_NO_EOL && READ_FAULTS[i].status != FAX_NO_WIDTH) continue;
        MUST(is_refused(fax_read_runs(READ_FAULTS[i].octets, READ_FAULTS[i].count, READ_FAULTS[i].width,
                                      READ_FAULTS[i].two_dimensional, NULL, 0),
                        READ_FAULTS[i].status, 0, 0));
        MUST(is_refused(fax_read_pixels(READ_FAULTS[i].octets, READ_FAULTS[i].count, READ_FAULTS[i].width,
                                        READ_FAULTS[i].two_dimensional, NULL, 0),
                        READ_FAULTS[i].status, 0, 0));
    }
    puts("refused: nothing");
}

static const struct {
    const char *name;
    void (*run)(void);
} TESTS[] = {
    {"runs_are_read", runs_are_read},
    {"pixels_are_read", pixels_are_read},
    {"pages_are_written", pages_are_written},
    {"reading_tells_its_faults", reading_tells_its_faults},
    {"reading_pixels_tells_its_faults", reading_pixels_tells_its_faults},
    {"writing_tells_its_faults", writing_tells_its_faults},
    {"more_rows_than_a_page_has_are_told", more_rows_than_a_page_has_are_told},
    {"faults_that_want_no_memory_are_told", faults_that_want_no_memory_are_told},
};

int main(int count, char **words) {
    bool is_run = false;
    for (size_t i = 0; i < COUNT(TESTS); i++) {
        name = TESTS[i].name;
        if (count > 1 && strcmp(words[1], name) != 0) continue;
        TESTS[i].run();
        is_run = true;
    }
    return is_run ? 0 : 2;
}
