/* Writes a page of three rows, reads it back, and asks for what is refused.

   It prints nothing and ends with 0 where each answer is as fax_c.h says, and otherwise says which is not. */
#include "fax_c.h"
#include <stdio.h>
#include <stdlib.h>
#include <string.h>

enum { WIDTH = 1728, ROWS = 3, OCTETS = WIDTH / 8 };

static void must(bool holds, const char *what) {
    if (holds) return;
    fprintf(stderr, "example: %s\n", what);
    exit(1);
}

static bool is_outcome(fax_outcome told, uint32_t status, uint32_t rows, size_t filled) {
    return told.status == status && told.rows == rows && told.filled == filled && told.wanted == 0;
}

static bool wants(fax_outcome told, size_t wanted) {
    return told.status == FAX_NO_ROOM && told.rows == 0 && told.filled == 0 && told.wanted == wanted;
}

int main(void) {
    /* a white row, a black one, and one that is black at its ends */
    static const uint16_t page[] = {WIDTH, 0, WIDTH, 0, 8, WIDTH - 16, 8};
    enum { RUNS = sizeof page / sizeof *page };
    uint8_t text[256];
    uint16_t runs[RUNS + 1];
    uint8_t pixels[ROWS * OCTETS];

    fax_outcome written = fax_write_runs(page, RUNS, WIDTH, true, false, 96, text, sizeof text);
    must(written.status == FAX_DONE && written.rows == ROWS, "the page is not written");

    runs[RUNS] = 7;
    fax_outcome read = fax_read_runs(text, written.filled, WIDTH, true, runs, RUNS + 1);
    must(is_outcome(read, FAX_DONE, ROWS, RUNS), "the page is not read");
    must(memcmp(runs, page, sizeof page) == 0, "another page is read");
    must(runs[RUNS] == 7, "the slice is changed after what was filled");

    read = fax_read_pixels(text, written.filled, WIDTH, true, pixels, sizeof pixels);
    must(is_outcome(read, FAX_DONE, ROWS, sizeof pixels), "the picture elements are not read");
    must(pixels[0] == 0x00 && pixels[OCTETS] == 0xff, "the first two rows are not white and black");
    must(pixels[2 * OCTETS] == 0xff && pixels[2 * OCTETS + 1] == 0x00, "the third row begins otherwise");

    memset(pixels, 0x55, sizeof pixels);
    read = fax_read_pixels(text, written.filled, WIDTH, true, pixels, sizeof pixels - 1);
    must(wants(read, sizeof pixels), "want of room is not told");
    must(pixels[0] == 0x55 && pixels[sizeof pixels - 1] == 0x55, "a refusal changed the slice");

    must(is_outcome(fax_read_runs(NULL, 0, 1729, false, NULL, 0), FAX_NO_WIDTH, 0, 0), "the width is not told first");
    must(is_outcome(fax_read_runs(NULL, 0, WIDTH, false, NULL, 0), FAX_NO_EOL, 0, 0), "no octets are not told");
    must(wants(fax_read_pixels(text, written.filled, WIDTH, true, NULL, 0), sizeof pixels), "no room for pixels is not told");
    must(wants(fax_read_runs(text, written.filled, WIDTH, true, NULL, 0), RUNS), "no room for runs is not told");
    must(is_outcome(fax_write_runs(NULL, 0, WIDTH, false, false, 0, NULL, 0), FAX_EMPTY, 0, 0), "no runs are not told");
    must(is_outcome(fax_write_runs(page, RUNS, WIDTH, true, false, 65536, text, sizeof text), FAX_LEAST_BITS, 0, 0),
         "too many least bits are not told");
    must(wants(fax_write_runs(page, RUNS, WIDTH, true, false, 96, NULL, 0), written.filled), "no room for octets is not told");
    must(is_outcome(fax_write_runs(page, RUNS - 1, WIDTH, true, false, 0, text, sizeof text), FAX_NO_RUNS, 2, 0),
         "a row that is cut short is not told");
    return 0;
}
