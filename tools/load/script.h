/* What the machines of `load` send in a call. */
#pragma once
#include "options.h"

enum {
    PACKET_MS = 40,     /* a packet is sent so often */
    PART = 72,          /* octets of an image in so long, at 14,400 bit/s */
    CHECK = 2700,       /* octets of the training check: 1.5 s */
    LEAST_CHECK = 1800, /* zeros that are taken for a training check: 1 s */
    LARGE_PART = 1300,  /* octets of an image in a packet, where pages are to come fast */
    MOST_PAGE = 100000,
    MOST_PACKET = 1400,
    MOST_DATAGRAM = 2048,
    REDUNDANCY = 3,
};

/* What a machine waits for: a frame, by its facsimile control field (ITU-T T.30, 5.3.6.1), or the end of a training check. */
enum {
    NOTHING,
    DIS = 0x01,
    CFR = 0x21,
    MCF = 0x31,
    RTN = 0x32,
    DCS = 0x41,
    DCN = 0x5f,
    EOP = 0x74,
    CHECKED = 0x100,
};

enum { CNG = 0x02, CED = 0x04, PREAMBLE = 0x06, SHORT_TRAINING = 0x1c, LONG_TRAINING = 0x1e };

typedef struct {
    uint8_t octets[MOST_DATAGRAM];
    uint8_t counted[MOST_PACKET + 2]; /* its packet after its length */
    int length, size, awaits;         /* of the octets, of its counted packet; what is waited for after it */
} Datagram;

/* All that a machine sends in a call: the same in each, since no datagram is lost on this host. A datagram has so many packets
   before its own, and a packet so many octets of an image. */
typedef struct {
    Datagram *datagrams;
    int count, redundancy, part;
} Script;

/* Those of callers with one page, of callers with many that come fast, of hostile callers up to their image, and of called
   machines. */
static Script calling_script = {.redundancy = REDUNDANCY, .part = PART}, waiting_script = {.redundancy = 0, .part = LARGE_PART},
              hostile_script = {.redundancy = REDUNDANCY, .part = PART}, called_script = {.redundancy = REDUNDANCY};
static uint8_t page[MOST_PAGE];
static int page_length;

/* Puts a length before octets: in one octet, or from 128 on in two (ITU-T X.691). It answers how many. */
static int put_length(uint8_t *out, int length) {
    if (length < 128) return out[0] = (uint8_t)length, 1;
    out[0] = (uint8_t)(0x80 | length >> 8);
    out[1] = (uint8_t)length;
    return 2;
}

/* The next packet, with those before it (ITU-T T.38, UDPTL with redundancy). */
static void add_packet(Script *s, const uint8_t *packet, int length) {
    s->datagrams = realloc(s->datagrams, sizeof(Datagram) * (size_t)(s->count + 1));
    if (!s->datagrams) fail("memory");
    Datagram *d = &s->datagrams[s->count];
    int before = s->count < s->redundancy ? s->count : s->redundancy;
    memset(d, 0, sizeof *d);
    d->size = put_length(d->counted, length);
    memcpy(d->counted + d->size, packet, (size_t)length);
    d->size += length;
    d->octets[d->length++] = (uint8_t)(s->count >> 8);
    d->octets[d->length++] = (uint8_t)s->count;
    for (int k = 0; k <= before; k++) {
        if (k == 1) {
            d->octets[d->length++] = 0;
            d->octets[d->length++] = (uint8_t)before;
        }
        memcpy(d->octets + d->length, d[-k].counted, (size_t)d[-k].size);
        d->length += d[-k].size;
    }
    if (before == 0) d->length += 2;
    s->count++;
}

static void add_indicator(Script *s, uint8_t indicator) {
    add_packet(s, &indicator, 1);
}

/* A frame after its preamble, as one packet that ends well, and what is waited for then. */
static void add_frame(Script *s, int awaits, int count, const uint8_t *field) {
    uint8_t packet[MOST_PACKET] = {0xc0, 0x02, 0x80, 0, (uint8_t)(count + 1), 0xff, 0xc8};
    add_indicator(s, PREAMBLE);
    memcpy(packet + 7, field, (size_t)count);
    packet[7 + count] = 0x40;
    add_packet(s, packet, 8 + count);
    s->datagrams[s->count - 1].awaits = awaits;
}

#define FRAME(script, awaits, ...) \
    add_frame(script, awaits, sizeof (uint8_t[]){__VA_ARGS__}, (const uint8_t[]){__VA_ARGS__})

/* A packet of an image at 14,400 bit/s by V.17. It answers how many octets it has. */
static int put_part(uint8_t *packet, const uint8_t *octets, int count, int is_last) {
    const uint8_t head[] = {0xd0, 0x01, is_last ? 0xf0 : 0xe0, (uint8_t)((count - 1) >> 8), (uint8_t)(count - 1)};
    memcpy(packet, head, sizeof head);
    memcpy(packet + sizeof head, octets, (size_t)count);
    return (int)sizeof head + count;
}

/* An image; the last packet ends the signal. */
static void add_image(Script *s, const uint8_t *octets, int count) {
    for (int at = 0; at < count; at += s->part) {
        int part = count - at < s->part ? count - at : s->part;
        uint8_t packet[MOST_PACKET];
        add_packet(s, packet, put_part(packet, octets + at, part, at + part == count));
    }
}

/* A caller up to its first image, by a DCS whose last two octets are these. */
static void add_training(Script *s, uint8_t coding, uint8_t width) {
    static const uint8_t check[CHECK];
    add_indicator(s, CNG);
    s->datagrams[0].awaits = DIS;
    FRAME(s, NOTHING, 0xc1, 0x00, coding, width);
    add_indicator(s, LONG_TRAINING);
    add_image(s, check, CHECK);
    s->datagrams[s->count - 1].awaits = CFR;
}

/* A caller that sends the page so often. */
static void add_pages(Script *s, int pages) {
    add_training(s, 0x44, 0x1e);
    for (int i = 1; i <= pages; i++) {
        add_indicator(s, SHORT_TRAINING);
        add_image(s, page, page_length);
        if (i < pages) FRAME(s, MCF, 0xf2);
        else FRAME(s, MCF, 0xf4);
    }
    FRAME(s, NOTHING, 0xdf);
}

static void write_called_script(void) {
    Script *s = &called_script;
    add_indicator(s, CED);
    FRAME(s, CHECKED, 0x01, 0x00, 0x76, 0x5e); /* V.17, one dimension, any length, no least time of a line */
    FRAME(s, EOP, 0x21);
    FRAME(s, NOTHING, 0x31);
}

/* The first rows of a page in two dimensions, so often, as the text of a page in one: what the gateway writes of the same rows
   too. It answers how many octets that has. */
static int read_pages(int times, uint8_t *out, int most) {
    char command[1400];
    unsigned octet;
    int length = 0;
    snprintf(command, sizeof command,
             "od -An -v -tx1 '%s' | '%s' page --coding mr | awk 'NR <= %d { rows[NR] = $0 }"
             " END { for (k = 0; k < %d; k++) for (i = 1; i in rows; i++) print rows[i] }' | '%s' page --back",
             options.page, options.faxgate, options.rows, times, options.faxgate);
    FILE *hex = popen(command, "r");
    if (!hex) fail("popen");
    while (length < most && fscanf(hex, "%2x", &octet) == 1) out[length++] = (uint8_t)octet;
    if (pclose(hex) || length == 0 || length == most) {
        fprintf(stderr, "load: no page: %s\n", options.page);
        exit(2);
    }
    return length;
}
