/* What libtiff and spandsp make of the same pages. */
#define _GNU_SOURCE
#include "others.h"
#include <stdio.h>
#include <stdlib.h>
#include <string.h>
#include <tiffio.h>
#include <unistd.h>
#define SPANDSP_EXPOSE_INTERNAL_STRUCTURES
#include <spandsp.h>

static void give_up(const char *what) {
    fprintf(stderr, "bench: %s\n", what);
    exit(1);
}

void others_begin(void) {
    TIFFSetErrorHandler(NULL);
    TIFFSetWarningHandler(NULL);
}

/* ---- libtiff: a file in memory */

typedef struct {
    uint8_t *octets;
    size_t size, room, place;
} memory;

static tmsize_t memory_read(thandle_t handle, void *to, tmsize_t count) {
    memory *m = handle;
    size_t left = m->size - m->place, n = (size_t)count < left ? (size_t)count : left;
    memcpy(to, m->octets + m->place, n);
    m->place += n;
    return (tmsize_t)n;
}

static tmsize_t memory_write(thandle_t handle, void *from, tmsize_t count) {
    memory *m = handle;
    if (m->place + (size_t)count > m->room) return -1;
    memcpy(m->octets + m->place, from, (size_t)count);
    m->place += (size_t)count;
    if (m->place > m->size) m->size = m->place;
    return count;
}

static toff_t memory_seek(thandle_t handle, toff_t offset, int whence) {
    memory *m = handle;
    m->place = (whence == SEEK_SET ? 0 : whence == SEEK_CUR ? m->place : m->size) + (size_t)offset;
    return m->place;
}

static int memory_close(thandle_t handle) { (void)handle; return 0; }
static toff_t memory_size(thandle_t handle) { return ((memory *)handle)->size; }

static int memory_map(thandle_t handle, void **base, toff_t *size) {
    memory *m = handle;
    *base = m->octets;
    *size = m->size;
    return 1;
}

static void memory_unmap(thandle_t handle, void *base, toff_t size) { (void)handle; (void)base; (void)size; }

static TIFF *opened(memory *m, const char *mode) {
    m->place = 0;
    TIFF *tiff = TIFFClientOpen("page", mode, m, memory_read, memory_write, memory_seek, memory_close, memory_size,
                                memory_map, memory_unmap);
    if (tiff == NULL) give_up("libtiff opens no file in memory");
    return tiff;
}

static void describe(TIFF *tiff, uint16_t width, uint32_t rows, uint16_t compression, bool two_dimensional) {
    TIFFSetField(tiff, TIFFTAG_IMAGEWIDTH, (uint32_t)width);
    TIFFSetField(tiff, TIFFTAG_IMAGELENGTH, rows);
    TIFFSetField(tiff, TIFFTAG_BITSPERSAMPLE, 1);
    TIFFSetField(tiff, TIFFTAG_SAMPLESPERPIXEL, 1);
    TIFFSetField(tiff, TIFFTAG_COMPRESSION, compression);
    TIFFSetField(tiff, TIFFTAG_PHOTOMETRIC, PHOTOMETRIC_MINISWHITE);
    TIFFSetField(tiff, TIFFTAG_FILLORDER, FILLORDER_MSB2LSB);
    TIFFSetField(tiff, TIFFTAG_ROWSPERSTRIP, rows);
    TIFFSetField(tiff, TIFFTAG_XRESOLUTION, 204.0);
    TIFFSetField(tiff, TIFFTAG_YRESOLUTION, 98.0);
    TIFFSetField(tiff, TIFFTAG_RESOLUTIONUNIT, RESUNIT_INCH);
    if (compression == COMPRESSION_CCITTFAX3) {
        TIFFSetField(tiff, TIFFTAG_GROUP3OPTIONS, two_dimensional ? GROUP3OPT_2DENCODING : 0);
        TIFFSetField(tiff, TIFFTAG_FAXMODE, FAXMODE_CLASSIC);
    }
}

/* A file that holds the text as its one strip, made once for each text. */
size_t libtiff_read(const uint8_t *text, size_t size, uint16_t width, uint32_t rows, bool two_dimensional, uint8_t *out, size_t room) {
    static memory file;
    static const uint8_t *last_text;
    static size_t last_size;
    static bool last_dimensions;
    static TIFF *tiff;
    if (tiff == NULL || text != last_text || size != last_size || two_dimensional != last_dimensions) {
        if (tiff != NULL) TIFFClose(tiff);
        free(file.octets);
        file = (memory){malloc(size + 65536), 0, size + 65536, 0};
        TIFF *made = opened(&file, "w");
        describe(made, width, rows, COMPRESSION_CCITTFAX3, two_dimensional);
        if (TIFFWriteRawStrip(made, 0, (void *)text, (tmsize_t)size) < 0) give_up("libtiff writes no strip");
        TIFFClose(made);
        tiff = opened(&file, "r");
        last_text = text;
        last_size = size;
        last_dimensions = two_dimensional;
    }
    tmsize_t got = TIFFReadEncodedStrip(tiff, 0, out, (tmsize_t)room);
    if (got < 0) give_up("libtiff reads no strip");
    return (size_t)got;
}

/* The strip's own octets, which are the text. */
size_t libtiff_write(const uint8_t *pixels, uint16_t width, uint32_t rows, bool two_dimensional, uint8_t *out, size_t room) {
    static memory file;
    size_t size = (size_t)rows * (width / 8);
    if (file.octets == NULL) file = (memory){malloc(room), 0, room, 0};
    file.size = 0;
    TIFF *made = opened(&file, "w");
    describe(made, width, rows, COMPRESSION_CCITTFAX3, two_dimensional);
    if (TIFFWriteEncodedStrip(made, 0, (void *)pixels, (tmsize_t)size) < 0) give_up("libtiff codes no strip");
    TIFFFlushData(made);
    uint64_t *offsets, *counts;
    TIFFGetField(made, TIFFTAG_STRIPOFFSETS, &offsets);
    TIFFGetField(made, TIFFTAG_STRIPBYTECOUNTS, &counts);
    uint64_t place = offsets[0];
    TIFFClose(made);
    /* the return to control goes after the strip where the file is closed */
    TIFF *read = opened(&file, "r");
    TIFFGetField(read, TIFFTAG_STRIPBYTECOUNTS, &counts);
    size_t count = (size_t)counts[0];
    TIFFClose(read);
    memcpy(out, file.octets + place, count);
    return count;
}

/* ---- spandsp */

typedef struct {
    uint8_t *out;
    size_t size, room;
} rows_taken;

static int take_row(void *user, const uint8_t row[], size_t count) {
    rows_taken *taken = user;
    if (taken->size + count <= taken->room) {
        memcpy(taken->out + taken->size, row, count);
        taken->size += count;
    }
    return 0;
}

void spandsp_turn(uint8_t *octets, size_t size) {
    for (size_t i = 0; i < size; i++) octets[i] = bit_reverse8(octets[i]);
}

size_t spandsp_read(const uint8_t *text, size_t size, uint16_t width, bool two_dimensional, uint8_t *out, size_t room) {
    static t4_rx_state_t *state;
    static rows_taken taken;
    taken = (rows_taken){out, 0, room};
    if (state == NULL) {
        /* it wants a file for the pages, and with a handler for rows it writes none */
        char path[] = "/tmp/faxgate-bench-XXXXXX";
        close(mkstemp(path));
        state = t4_rx_init(NULL, path, T4_COMPRESSION_ITU_T4_1D);
        unlink(path);
        if (state == NULL) give_up("spandsp makes no reader");
        t4_rx_set_row_write_handler(state, take_row, &taken);
    }
    t4_rx_set_rx_encoding(state, two_dimensional ? T4_COMPRESSION_ITU_T4_2D : T4_COMPRESSION_ITU_T4_1D);
    t4_rx_set_image_width(state, width);
    t4_rx_start_page(state);
    t4_rx_put_chunk(state, text, (int)size);
    t4_rx_end_page(state);
    return taken.size;
}

typedef struct {
    const uint8_t *pixels;
    size_t place, size;
} rows_given;

static int give_row(void *user, uint8_t row[], size_t count) {
    rows_given *given = user;
    if (given->place + count > given->size) return 0;
    memcpy(row, given->pixels + given->place, count);
    given->place += count;
    return (int)count;
}

/* A file that tells the width and the resolution; the rows come from a handler. */
static t4_tx_state_t *writer_for(const uint8_t *pixels, uint16_t width, uint32_t rows) {
    char path[] = "/tmp/faxgate-bench-XXXXXX";
    int handle = mkstemp(path);
    if (handle < 0) give_up("no temporary file");
    close(handle);
    TIFF *made = TIFFOpen(path, "w");
    describe(made, width, rows, COMPRESSION_NONE, false);
    if (TIFFWriteEncodedStrip(made, 0, (void *)pixels, (tmsize_t)rows * (width / 8)) < 0) give_up("no temporary page");
    TIFFClose(made);
    t4_tx_state_t *state = t4_tx_init(NULL, path, -1, -1);
    unlink(path);
    if (state == NULL) give_up("spandsp makes no writer");
    return state;
}

/* spandsp codes the whole page where it is begun. */
size_t spandsp_write(const uint8_t *pixels, uint16_t width, uint32_t rows, bool two_dimensional, uint8_t *out, size_t room) {
    static t4_tx_state_t *state;
    static rows_given given;
    static const uint8_t *last_pixels;
    if (state == NULL || pixels != last_pixels) {
        if (state != NULL) t4_tx_free(state);
        state = writer_for(pixels, width, rows);
        t4_tx_set_row_read_handler(state, give_row, &given);
        last_pixels = pixels;
    }
    given = (rows_given){pixels, 0, (size_t)rows * (width / 8)};
    t4_tx_set_tx_encoding(state, two_dimensional ? T4_COMPRESSION_ITU_T4_2D : T4_COMPRESSION_ITU_T4_1D);
    if (t4_tx_start_page(state) != 0) give_up("spandsp begins no page");
    size_t size = 0;
    int count;
    while (size + 65536 <= room && (count = t4_tx_get_chunk(state, out + size, 65536)) > 0) size += (size_t)count;
    return size;
}
