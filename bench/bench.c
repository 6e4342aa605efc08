/* The codec beside libtiff and spandsp: the same pages, one process, one core.

   Each page is read into picture elements by all three, which must agree; then each is timed by the
   processor time of the process, the best of several runs. */
#define _GNU_SOURCE
#include "fax_c.h"
#include "others.h"
#include <stdio.h>
#include <stdlib.h>
#include <string.h>
#include <time.h>

enum { RUNS = 25, CALLS = 7 };
static const double LEAST_SECONDS = 0.02;
static const size_t ROOM = 64u << 20;

typedef struct {
    const char *name;
    uint16_t width;
    uint32_t rows;
    uint8_t *pixels;
} page;

static void fail(const char *what, const char *name) {
    fprintf(stderr, "bench: %s: %s\n", name, what);
    exit(1);
}

static void *room_for(size_t octets) {
    void *room = malloc(octets);
    if (room == NULL) fail("no memory", "bench");
    return room;
}

static double seconds_now(void) {
    struct timespec now;
    clock_gettime(CLOCK_PROCESS_CPUTIME_ID, &now);
    return (double)now.tv_sec + 1e-9 * (double)now.tv_nsec;
}

/* ---- pages */

static bool is_black(const uint8_t *row, unsigned i) { return row[i / 8] >> (7 - i % 8) & 1; }
static void set_black(uint8_t *row, unsigned i) { row[i / 8] |= (uint8_t)(0x80 >> i % 8); }

/* The run lengths of a page. */
static size_t runs_of(const page *p, uint16_t *runs) {
    size_t count = 0;
    for (uint32_t y = 0; y < p->rows; y++) {
        const uint8_t *row = p->pixels + (size_t)y * (p->width / 8);
        bool colour = false;
        unsigned from = 0;
        for (unsigned i = 0; i < p->width; i++)
            if (is_black(row, i) != colour) {
                runs[count++] = (uint16_t)(i - from);
                from = i;
                colour = !colour;
            }
        runs[count++] = (uint16_t)(p->width - from);
    }
    return count;
}

static page blank(const char *name, uint16_t width, uint32_t rows) {
    page p = {name, width, rows, calloc(rows, width / 8)};
    if (p.pixels == NULL) fail("no memory", name);
    return p;
}

static page loaded(const char *folder, const char *name, uint16_t width) {
    char path[4096];
    snprintf(path, sizeof path, "%s/%s.mr", folder, name);
    FILE *file = fopen(path, "rb");
    if (file == NULL) fail("cannot be opened", path);
    uint8_t *text = room_for(ROOM);
    size_t size = fread(text, 1, ROOM, file);
    fclose(file);
    uint8_t *pixels = room_for(ROOM);
    fax_outcome read = fax_read_pixels(text, size, width, true, pixels, ROOM);
    if (read.status != 0) fail("is no page", path);
    free(text);
    return (page){name, width, read.rows, pixels};
}

static page repeated(const char *name, const page *of, uint32_t rows) {
    page p = blank(name, of->width, rows);
    size_t octets = of->width / 8;
    for (uint32_t y = 0; y < rows; y++) memcpy(p.pixels + y * octets, of->pixels + y % of->rows * octets, octets);
    return p;
}

/* Dots of 8 by 8 elements whose size grows over the page, as a grey wedge is screened. */
static page halftone(const char *name, uint16_t width, uint32_t rows) {
    page p = blank(name, width, rows);
    for (uint32_t y = 0; y < rows; y++)
        for (unsigned x = 0; x < width; x++) {
            int dx = (int)(x % 8) * 2 - 7, dy = (int)(y % 8) * 2 - 7;
            if (dx * dx + dy * dy <= (int)(y * 98 / rows)) set_black(p.pixels + y * (size_t)(width / 8), x);
        }
    return p;
}

static page alternating(const char *name, uint16_t width, uint32_t rows) {
    page p = blank(name, width, rows);
    memset(p.pixels, 0x55, (size_t)rows * (width / 8));
    return p;
}

/* ---- what is timed */

typedef struct {
    const page *page;
    bool two_dimensional;
    const uint8_t *text;
    const uint8_t *text_turned;
    size_t text_size;
    const uint16_t *runs;
    size_t runs_count;
    uint8_t *out;
    uint16_t *out_runs;
} job;

static size_t ours_runs(const job *j) {
    fax_outcome o = fax_read_runs(j->text, j->text_size, j->page->width, j->two_dimensional, j->out_runs, ROOM / 2);
    if (o.status != 0) fail("our reader refuses it", j->page->name);
    return o.filled;
}

static size_t ours_pixels(const job *j) {
    fax_outcome o = fax_read_pixels(j->text, j->text_size, j->page->width, j->two_dimensional, j->out, ROOM);
    if (o.status != 0) fail("our reader refuses it", j->page->name);
    return o.filled;
}

static size_t ours_write(const job *j) {
    fax_outcome o = fax_write_runs(j->runs, j->runs_count, j->page->width, j->two_dimensional, false, 0, j->out, ROOM);
    if (o.status != 0) fail("our writer refuses it", j->page->name);
    return o.filled;
}

static size_t tiff_read(const job *j) {
    return libtiff_read(j->text, j->text_size, j->page->width, j->page->rows, j->two_dimensional, j->out, ROOM);
}

static size_t tiff_write(const job *j) {
    return libtiff_write(j->page->pixels, j->page->width, j->page->rows, j->two_dimensional, j->out, ROOM);
}

static size_t span_read(const job *j) {
    return spandsp_read(j->text_turned, j->text_size, j->page->width, j->two_dimensional, j->out, ROOM);
}

static size_t span_write(const job *j) {
    return spandsp_write(j->page->pixels, j->page->width, j->page->rows, j->two_dimensional, j->out, ROOM);
}

static double seconds_of(size_t (*call)(const job *), const job *j) {
    double start = seconds_now(), spent;
    int times = 0;
    do {
        call(j);
        times++;
        spent = seconds_now() - start;
    } while (spent < LEAST_SECONDS);
    return spent / times;
}

/* The least time of each call. The calls take turns, so that what slows the machine for a while slows all
   of them. */
static void best_seconds(size_t (*const calls[CALLS])(const job *), const job *j, double best[CALLS]) {
    for (int i = 0; i < CALLS; i++) best[i] = 1e9;
    for (int run = 0; run < RUNS; run++)
        for (int i = 0; i < CALLS; i++) {
            double seconds = seconds_of(calls[i], j);
            if (seconds < best[i]) best[i] = seconds;
        }
}

/* ---- what is checked first */

static void must_be_page(const job *j, size_t size, const char *who) {
    size_t wanted = (size_t)j->page->rows * (j->page->width / 8);
    if (size != wanted || memcmp(j->out, j->page->pixels, wanted) != 0) {
        fprintf(stderr, "bench: %s, %s: %s reads other picture elements (%zu octets of %zu)\n", j->page->name,
                j->two_dimensional ? "mr" : "mh", who, size, wanted);
        exit(1);
    }
}

static void check(const job *j) {
    must_be_page(j, ours_pixels(j), "fax_c");
    must_be_page(j, tiff_read(j), "libtiff");
    must_be_page(j, span_read(j), "spandsp");
    if (ours_runs(j) != j->runs_count || memcmp(j->out_runs, j->runs, 2 * j->runs_count) != 0)
        fail("fax_c reads other runs", j->page->name);
    /* what the others write is the same page */
    size_t (*writers[])(const job *) = {tiff_write, span_write};
    for (int i = 0; i < 2; i++) {
        size_t size = writers[i](j);
        uint8_t *theirs = room_for(size);
        memcpy(theirs, j->out, size);
        if (writers[i] == span_write) spandsp_turn(theirs, size);
        job read = *j;
        read.text = theirs;
        read.text_size = size;
        must_be_page(&read, ours_pixels(&read), i == 0 ? "fax_c, of libtiff's text," : "fax_c, of spandsp's text,");
        free(theirs);
    }
}

static void row_of_table(const job *j, const char *what, double ours, double tiff, double span) {
    double rows = j->page->rows, octets = (double)j->text_size;
    double other = tiff < span ? tiff : span;
    printf("| %s | %s | %s | %.0f | %.2f | %.2f | %.2f | %.2f |\n", j->page->name, j->two_dimensional ? "mr" : "mh", what,
           octets / ours / 1e6, rows / ours / 1e6, rows / tiff / 1e6, rows / span / 1e6, other / ours);
    fflush(stdout);
}

static void measure(const page *p, bool two_dimensional) {
    static uint16_t *runs, *out_runs;
    static uint8_t *out, *text, *turned;
    if (runs == NULL) {
        runs = room_for(ROOM);
        out_runs = room_for(ROOM);
        out = room_for(ROOM);
        text = room_for(ROOM);
        turned = room_for(ROOM);
    }
    job j = {p, two_dimensional, text, turned, 0, runs, runs_of(p, runs), out, out_runs};
    j.text_size = ours_write(&j);
    memcpy(text, out, j.text_size);
    memcpy(turned, out, j.text_size);
    spandsp_turn(turned, j.text_size);
    check(&j);
    size_t (*const calls[CALLS])(const job *) = {ours_runs, ours_pixels, tiff_read, span_read,
                                                 ours_write, tiff_write, span_write};
    double best[CALLS];
    best_seconds(calls, &j, best);
    row_of_table(&j, "read, runs", best[0], best[2], best[3]);
    row_of_table(&j, "read, pixels", best[1], best[2], best[3]);
    row_of_table(&j, "write", best[4], best[5], best[6]);
}

int main(int count, char **words) {
    if (count != 2) fail("usage: bench FOLDER-OF-PAGES", words[0]);
    others_begin();
    page text = loaded(words[1], "text-1728", 1728);
    page pages[] = {
        text,
        loaded(words[1], "text-2048", 2048),
        loaded(words[1], "text-2432", 2432),
        blank("white", 1728, 2200),
        halftone("halftone", 1728, 2200),
        alternating("alternating", 1728, 2200),
        repeated("text, 20,000 rows", &text, 20000),
    };
    printf("| Page | Coding | | MB/s | rows/s | libtiff | spandsp | ratio |\n|---|---|---|---|---|---|---|---|\n");
    for (size_t i = 0; i < sizeof pages / sizeof *pages; i++) {
        measure(&pages[i], false);
        measure(&pages[i], true);
    }
    return 0;
}
