/* Two T.38 terminals of spandsp, a calling and a called one, and the pages that they send: what `make interop` plays in
   memory through `faxgate trace`, and `make serve-interop` in real time through `faxgate serve`. */
#define _GNU_SOURCE
#define SPANDSP_EXPOSE_INTERNAL_STRUCTURES
#include <spandsp.h>
#include <stdint.h>
#include <stdio.h>
#include <stdlib.h>
#include <string.h>
#include <tiffio.h>
#include <unistd.h>

enum {
    ROWS = 120,
    MOST_PAGES = 3,
    REDUNDANCY = 3,
    MOST_PACKET = 1024,
    MOST_OUT = 4 * (MOST_PACKET + 2) + 8,
    MOST_NUMBERS = 8192,
};

static void fail(const char *why) {
    perror(why);
    exit(2);
}

static uint32_t state_of_chance = 1;

/* A number below `bound`, the same ones in each run of the program. */
static uint32_t chance(uint32_t bound) {
    state_of_chance = state_of_chance * 1664525u + 1013904223u;
    return (state_of_chance >> 8) % bound;
}

typedef struct {
    int width, fine, two_dimensional, pages, lost_percent;
} Setting;

/* What became of the datagrams of a path, by their numbers: LOST, and once one of a number was not, CAME. */
enum { LOST = 1, CAME = 2 };
typedef struct {
    uint8_t fate[MOST_NUMBERS];
} Path;

static void note(Path *path, unsigned number, int is_lost) {
    if (path && number < MOST_NUMBERS && path->fate[number] != CAME) path->fate[number] = is_lost ? LOST : CAME;
}

typedef struct Peer {
    /* a T.38 terminal; or a media gateway with a fax machine on its telephone line */
    t38_terminal_state_t *terminal;
    t38_gateway_state_t *gateway;
    fax_state_t *machine;
    t38_core_state_t *core;
    t30_state_t *t30;
    /* takes each datagram that is not lost */
    void (*emit)(struct Peer *, const uint8_t *octets, int count);
    void *to;
    int lost_percent;
    /* the path that it sends on, where that is noted */
    Path *path;
    /* what it sent: packets, newest first, and the number of the next */
    uint8_t sent[REDUNDANCY + 1][MOST_PACKET];
    int sent_length[REDUNDANCY + 1];
    unsigned number;
    /* the number of the packet that it wants next */
    unsigned wanted;
} Peer;

/* The datagram of the newest packet (ITU-T T.38, UDPTL with redundancy). */
static int datagram_of(const Peer *p, unsigned number, uint8_t *out) {
    int at = 0, before = number < REDUNDANCY ? (int)number : REDUNDANCY;
    out[at++] = (uint8_t)(number >> 8);
    out[at++] = (uint8_t)number;
    for (int k = 0; k <= before; k++) {
        int length = p->sent_length[k];
        if (k == 1) {
            out[at++] = 0;
            out[at++] = (uint8_t)before;
        }
        if (length > 127) out[at++] = (uint8_t)(0x80 | length >> 8);
        out[at++] = (uint8_t)length;
        memcpy(out + at, p->sent[k], (size_t)length);
        at += length;
    }
    if (before == 0) {
        out[at++] = 0;
        out[at++] = 0;
    }
    return at;
}

/* A terminal sends a packet, `count` times: each datagram that is not lost is emitted. */
static int send_packet(t38_core_state_t *core, void *user, const uint8_t *octets, int length, int count) {
    Peer *p = user;
    uint8_t out[MOST_OUT];
    (void)core;
    if (length > MOST_PACKET) return -1;
    memmove(p->sent[1], p->sent[0], sizeof p->sent[0] * REDUNDANCY);
    memmove(p->sent_length + 1, p->sent_length, sizeof p->sent_length[0] * REDUNDANCY);
    memcpy(p->sent[0], octets, (size_t)length);
    p->sent_length[0] = length;
    int total = datagram_of(p, p->number, out);
    for (int i = 0; i < count; i++) {
        int is_lost = (int)chance(100) < p->lost_percent;
        note(p->path, p->number, is_lost);
        if (!is_lost) p->emit(p, out, total);
    }
    p->number++;
    return 0;
}

static int length_at(const uint8_t *in, int *at) {
    int length = in[(*at)++];
    return length < 128 ? length : (length & 63) << 8 | in[(*at)++];
}

/* A datagram comes to a terminal: the packets that it wants yet, the oldest first. */
static void receive(Peer *p, const uint8_t *in, int count) {
    const uint8_t *packets[256];
    int lengths[256], at = 2, n = 1;
    unsigned number = (unsigned)(in[0] << 8 | in[1]);
    lengths[0] = length_at(in, &at);
    packets[0] = in + at;
    at += lengths[0];
    if (at + 2 <= count && in[at] == 0)
        for (int left = in[at + 1], first = 1; left > 0 && n < 256; left--, n++) {
            if (first) at += 2, first = 0;
            lengths[n] = length_at(in, &at);
            packets[n] = in + at;
            at += lengths[n];
        }
    for (int k = n - 1; k >= 0; k--) {
        if ((int)(number - p->wanted) < k) continue;
        t38_core_rx_ifp_packet(p->core, packets[k], lengths[k], (uint16_t)(number - (unsigned)k));
        p->wanted = number - (unsigned)k + 1;
    }
}

/* ---- pages ---- */

typedef uint8_t Page[ROWS][2432 / 8];

/* Black strokes on white, as wide as letters: other ones on each page. */
static void draw(Page page, int width) {
    memset(page, 0, sizeof(Page));
    for (int line = 0; line < ROWS / 12; line++)
        for (int x = 40; x + 40 < width; x += 12 + (int)chance(30)) {
            int wide = 1 + (int)chance(7), top = (int)chance(4), bottom = 5 + (int)chance(5);
            for (int y = top; y < bottom; y++)
                for (int i = x; i < x + wide; i++) page[12 * line + y][i / 8] |= (uint8_t)(0x80 >> i % 8);
        }
}

static void write_tiff(const char *path, const Setting *s, Page *pages) {
    TIFF *tiff = TIFFOpen(path, "w");
    if (!tiff) fail(path);
    for (int n = 0; n < s->pages; n++) {
        TIFFSetField(tiff, TIFFTAG_SUBFILETYPE, FILETYPE_PAGE);
        TIFFSetField(tiff, TIFFTAG_IMAGEWIDTH, s->width);
        TIFFSetField(tiff, TIFFTAG_IMAGELENGTH, ROWS);
        TIFFSetField(tiff, TIFFTAG_BITSPERSAMPLE, 1);
        TIFFSetField(tiff, TIFFTAG_SAMPLESPERPIXEL, 1);
        TIFFSetField(tiff, TIFFTAG_ROWSPERSTRIP, ROWS);
        TIFFSetField(tiff, TIFFTAG_COMPRESSION, COMPRESSION_CCITT_T4);
        TIFFSetField(tiff, TIFFTAG_PHOTOMETRIC, PHOTOMETRIC_MINISWHITE);
        TIFFSetField(tiff, TIFFTAG_FILLORDER, FILLORDER_LSB2MSB);
        TIFFSetField(tiff, TIFFTAG_RESOLUTIONUNIT, RESUNIT_CENTIMETER);
        TIFFSetField(tiff, TIFFTAG_XRESOLUTION, 80.3);
        TIFFSetField(tiff, TIFFTAG_YRESOLUTION, s->fine ? 77.0 : 38.5);
        TIFFSetField(tiff, TIFFTAG_PAGENUMBER, n, s->pages);
        for (int y = 0; y < ROWS; y++)
            if (TIFFWriteScanline(tiff, pages[n][y], (uint32_t)y, 0) < 0) fail("TIFFWriteScanline");
        TIFFWriteDirectory(tiff);
    }
    TIFFClose(tiff);
}

/* How many pages a picture file has; `differs` counts those that are not the page sent at their place. */
static int compare(const char *path, const Setting *s, Page *pages, int *differs) {
    TIFF *tiff = access(path, R_OK) == 0 ? TIFFOpen(path, "r") : NULL;
    int count = 0;
    if (!tiff) return 0;
    do {
        uint32_t width = 0, rows = 0;
        uint8_t row[4096];
        TIFFGetField(tiff, TIFFTAG_IMAGEWIDTH, &width);
        TIFFGetField(tiff, TIFFTAG_IMAGELENGTH, &rows);
        int same = count < s->pages && (int)width == s->width && rows == ROWS;
        for (uint32_t y = 0; same && y < ROWS; y++)
            same = TIFFReadScanline(tiff, row, y, 0) >= 0 && memcmp(row, pages[count][y], width / 8) == 0;
        *differs += !same;
        count++;
    } while (TIFFReadDirectory(tiff));
    TIFFClose(tiff);
    return count;
}

/* ---- terminals ---- */

static void set_up(Peer *p, const Setting *s, const char *sends, const char *gets) {
    t38_set_t38_version(p->core, 0);
    t30_set_ecm_capability(p->t30, 0);
    t30_set_supported_modems(p->t30, T30_SUPPORT_V27TER | T30_SUPPORT_V29 | T30_SUPPORT_V17);
    t30_set_supported_compressions(
        p->t30, T30_SUPPORT_T4_1D_COMPRESSION | (s->two_dimensional ? T30_SUPPORT_T4_2D_COMPRESSION : 0));
    t30_set_supported_resolutions(
        p->t30, T30_SUPPORT_STANDARD_RESOLUTION | T30_SUPPORT_FINE_RESOLUTION | T30_SUPPORT_R8_RESOLUTION);
    t30_set_supported_image_sizes(p->t30, T30_SUPPORT_215MM_WIDTH | T30_SUPPORT_255MM_WIDTH | T30_SUPPORT_303MM_WIDTH
                                              | T30_SUPPORT_UNLIMITED_LENGTH | T30_SUPPORT_A4_LENGTH);
    if (sends) t30_set_tx_file(p->t30, sends, -1, -1);
    if (gets) t30_set_rx_file(p->t30, gets, -1);
}

static Peer *new_peer_of(int lost_percent, void (*emit)(Peer *, const uint8_t *, int), void *to) {
    Peer *p = calloc(1, sizeof *p);
    if (!p) fail("memory");
    p->emit = emit;
    p->to = to;
    p->lost_percent = lost_percent;
    return p;
}

/* The terminal that calls sends a picture file; the one that is called writes what it got into one. */
static Peer *new_peer(const Setting *s, const char *sends, const char *gets, void (*emit)(Peer *, const uint8_t *, int),
                      void *to) {
    Peer *p = new_peer_of(s->lost_percent, emit, to);
    p->terminal = t38_terminal_init(NULL, sends != NULL, send_packet, p);
    p->core = t38_terminal_get_t38_core_state(p->terminal);
    p->t30 = t38_terminal_get_t30_state(p->terminal);
    set_up(p, s, sends, gets);
    return p;
}

static t30_stats_t statistics_of(Peer *p) {
    t30_stats_t stats;
    t30_get_transfer_statistics(p->t30, &stats);
    return stats;
}

static void end_peer(Peer *p) {
    if (p && p->terminal) t38_terminal_free(p->terminal);
    if (p && p->gateway) t38_gateway_free(p->gateway);
    if (p && p->machine) fax_free(p->machine);
    free(p);
}
