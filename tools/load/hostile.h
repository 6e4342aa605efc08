/* Peers that hurt: what their callers send once their image may begin, and what that does to the server. */
#pragma once
#include "bars.h"
#include "machines.h"

/* Zeros behind a whole line; a line in one dimension of runs without elements; octets without an EOL; the same, a datagram lost
   before each; the page that takes most memory; a page of many rows of text; signals that begin and have nothing. */
enum { FILL, LINE, NO_EOL, GAPS, WORST_PAGE, TEXT_PAGE, TRAINING, KINDS };

static const char *const kind_names[KINDS] = {"fill", "line", "noeol", "gaps", "page", "text", "training"};

/* What all hostile callers do: they begin their calls; send small datagrams; much at once; nothing; small ones again. */
enum { GREETING, SMALL, UPLOAD, DRAIN, AFTER };

enum {
    LARGE = 15800,         /* octets of an image in a large packet */
    MOST_NUMBER = 65500,   /* of a datagram; a hostile caller stops there */
    INDICATORS = 16250,    /* in a datagram, four of which have 65,000 */
    MOST_HOSTILE = 65000,  /* octets of a datagram */
    MOST_TEXT = 21000000,  /* octets of a hostile page */
    WORST_ROWS = 65000,
    TEXTS = 20,            /* pages of text that make one */
    MEASURED_SECONDS = 4,
};

/* Nanoseconds between two datagrams of a line; large ones come no faster than a leg receives them, two in a turn. */
static const int64_t SMALL_PAUSE = 2500000, LARGE_PAUSE = 25000000;

/* A hostile caller: the number of its next datagram, when that is due, how many octets of its image went out, and whether all
   that it uploads did. */
typedef struct {
    int number, begun, has_commanded, is_done;
    int64_t due;
    size_t at;
} Attack;

static int kind, attackers;
static Attack attacks[MOST_LINES];
static atomic_int phase, ready, uploaded, attack_is_over;
static uint8_t text[MOST_TEXT];
static size_t text_length;
static Script ending_script = {.redundancy = 0};

static int is_paged(void) {
    return kind == WORST_PAGE || kind == TEXT_PAGE;
}

/* Whether small datagrams are sent before the upload too. */
static int has_small(void) {
    return kind == FILL || kind == LINE || kind == NO_EOL || kind == GAPS;
}

/* ---- what is sent ---- */

static void add_bits(size_t *at, unsigned bits, int count) {
    while (count-- > 0) {
        if (bits >> count & 1) text[*at / 8] |= (uint8_t)(0x80 >> *at % 8);
        ++*at;
    }
}

/* A row of 2,432 elements of both colours in turn, and then rows that are as it was (ITU-T T.4, 4.1 and 4.2). */
static void write_worst_page(size_t most) {
    size_t at = 0;
    add_bits(&at, 3, 13);
    for (int i = 0; i < 2432 / 2; i++) add_bits(&at, 7 << 3 | 2, 9);
    for (int row = 1; row < WORST_ROWS && at / 8 + 400 < most; row++) {
        add_bits(&at, 2, 13);
        for (int i = 0; i < 2432; i++) add_bits(&at, 1, 1);
    }
    for (int i = 0; i < 6; i++) add_bits(&at, 3, 13);
    text_length = at / 8 + 1;
}

/* The octets at this place of what is sent. */
static void put_stream(uint8_t *out, size_t at, int count) {
    static const uint8_t white_row[] = {0x00, 0x14, 0xd9, 0xa8}, eol[] = {0x00, 0x01};
    static const uint8_t empty_runs[] = {0x35, 0x0d, 0xcd, 0x43, 0x73, 0x50, 0xdc, 0xd4, 0x37};
    if (is_paged()) {
        memcpy(out, text + at, (size_t)count);
        return;
    }
    for (size_t i = at; i < at + (size_t)count; i++) {
        if (kind == FILL) *out++ = i < sizeof white_row ? white_row[i] : 0;
        else if (kind != LINE) *out++ = 0x55;
        else *out++ = i < sizeof eol ? eol[i] : empty_runs[(i - sizeof eol) % sizeof empty_runs];
    }
}

static size_t upload_length(void) {
    return is_paged() ? text_length : (size_t)options.pending * 1000000;
}

/* A datagram of a packet, and of one before it where there is one. It answers how many octets it has. */
static int put_datagram(uint8_t *out, int number, const uint8_t *packet, int length, const uint8_t *before, int before_length) {
    int at = 2;
    out[0] = (uint8_t)(number >> 8);
    out[1] = (uint8_t)number;
    at += put_length(out + at, length);
    memcpy(out + at, packet, (size_t)length);
    at += length;
    out[at++] = 0;
    out[at++] = before_length > 0;
    if (before_length == 0) return at;
    at += put_length(out + at, before_length);
    memcpy(out + at, before, (size_t)before_length);
    return at + before_length;
}

/* The next packet of the image. */
static int put_next_part(uint8_t *packet, Attack *attack, int count, int is_last) {
    uint8_t octets[LARGE];
    put_stream(octets, attack->at, count);
    attack->at += (size_t)count;
    return put_part(packet, octets, count, is_last);
}

/* The next small datagram, of 3 to 12 octets of the image; of a line without an end one that brings two packets. */
static int put_small(uint8_t *out, Attack *attack) {
    uint8_t packet[64], before[64];
    int before_length = kind == LINE ? put_next_part(before, attack, 3, 0) : 0;
    int length = put_next_part(packet, attack, 3 + attack->number / 2 % 10, 0);
    attack->number += kind == LINE || kind == GAPS;
    return put_datagram(out, attack->number++, packet, length, before, before_length);
}

static int put_large(uint8_t *out, Attack *attack) {
    uint8_t packet[LARGE + 8];
    size_t left = upload_length() - attack->at;
    int count = left < LARGE ? (int)left : LARGE, is_last = is_paged() && left <= LARGE;
    attack->number += kind == GAPS;
    return put_datagram(out, attack->number++, packet, put_next_part(packet, attack, count, is_last), NULL, 0);
}

/* A datagram that brings so many indicators of training, the last of this number. */
static int put_indicators(uint8_t *out, int number) {
    int at = 2;
    out[0] = (uint8_t)(number >> 8);
    out[1] = (uint8_t)number;
    out[at++] = 1;
    out[at++] = LONG_TRAINING;
    out[at++] = 0;
    at += put_length(out + at, INDICATORS - 1);
    for (int i = 1; i < INDICATORS; i++) {
        out[at++] = 1;
        out[at++] = i % 2 ? SHORT_TRAINING : LONG_TRAINING;
    }
    return at;
}

/* ---- when it is sent ---- */

/* It answers whether it could be sent. */
static int send_hostile(const Server *server, int number, const uint8_t *octets, int length) {
    struct sockaddr_in to = {.sin_family = AF_INET, .sin_port = htons((uint16_t)(GATEWAY_PORT + 2 * number))};
    to.sin_addr.s_addr = htonl(address_of(server, 1));
    return sendto(server->callers, octets, (size_t)length, 0, (struct sockaddr *)&to, sizeof to) == length;
}

/* Sends a datagram that was made of an attack, or leaves that as it was, where it could not be sent. */
static void send_made(const Server *server, int line, const Attack *made, const uint8_t *octets, int length, int64_t pause) {
    Attack *attack = &attacks[line];
    if (made->number > MOST_NUMBER || !send_hostile(server, line, octets, length)) {
        attack->due += pause;
        return;
    }
    *attack = *made;
    attack->due += pause;
}

/* The command behind a page, and the end of the upload at its answer. */
static void command(const Server *server, int line, int64_t moment) {
    Attack *attack = &attacks[line];
    uint8_t octets[MOST_DATAGRAM];
    attack->due += PACKET_MS * MS;
    if (attack->has_commanded == ending_script.count) {
        if (lines[line].told == 0) return;
        attack->is_done = 1;
        lines[line].image_to = moment;
        uploaded++;
        return;
    }
    const Datagram *d = &ending_script.datagrams[attack->has_commanded++];
    send_hostile(server, line, octets, put_datagram(octets, attack->number++, d->counted + 1, d->size - 1, NULL, 0));
    lines[line].commanded = moment;
    lines[line].told = 0;
}

static void upload(const Server *server, int line, int64_t moment) {
    static uint8_t octets[MOST_HOSTILE];
    Attack made = attacks[line], *attack = &attacks[line];
    if (kind == TRAINING && attack->begun < 4) {
        made.begun++;
        made.number += INDICATORS;
        send_made(server, line, &made, octets, put_indicators(octets, made.number - 1), PACKET_MS * MS);
    } else if (kind != TRAINING && attack->at < upload_length()) {
        int length = put_large(octets, &made);
        send_made(server, line, &made, octets, length, LARGE_PAUSE);
    } else if (is_paged()) command(server, line, moment);
    else attack->is_done = 1, uploaded++;
}

static void send_small(const Server *server, int line) {
    static uint8_t octets[MOST_HOSTILE];
    Attack made = attacks[line];
    if (kind == TRAINING) {
        send_hostile(server, line, octets, put_indicators(octets, made.number - 1));
        attacks[line].due += 4 * SMALL_PAUSE;
        return;
    }
    int length = put_small(octets, &made);
    send_made(server, line, &made, octets, length, SMALL_PAUSE);
}

/* What hostile callers send whose moment has come. One that comes too late for many lets some out. */
static void attack_all(const Server *server, int64_t moment) {
    for (int line = 0; line < attackers; line++) {
        Attack *attack = &attacks[line];
        if (lines[line].calling.state != ATTACKS) continue;
        if (attack->due < moment - SECOND / 10 || phase == GREETING || phase == DRAIN) attack->due = moment;
        while (attack->due <= moment) {
            if (phase == UPLOAD && !attack->is_done) upload(server, line, moment);
            else if ((phase == SMALL || phase == AFTER) && !is_paged()) send_small(server, line);
            else break;
            last_active = moment;
        }
    }
}

static void begin_attack(int line, int64_t moment) {
    lines[line].calling.state = ATTACKS;
    attacks[line].number = hostile_script.count;
    attacks[line].due = moment;
    ready++;
}

/* ---- the run of it ---- */

/* What was seen of the first server at a moment. */
typedef struct {
    int64_t at, reckoned, longest, longest_reckoned;
    long long received;
    long memory;
} Look;

static Look before_small, after_small, before_end, at_end;
static int calls_left;

static void look_at_server(Look *look) {
    const Server *server = &servers[0];
    say(&conductor, "metrics\n");
    conductor.count = 0;
    look->received = told_count(&conductor, "faxgate_datagrams_received_total");
    look->reckoned = reckoned_by(server);
    look->at = now();
    look->memory = memory_of(server);
    look->longest = server->notes->longest;
    look->longest_reckoned = server->notes->longest_reckoned;
}

/* How many calls of hostile callers are on. One that the server ended costs nothing more. */
static int count_calls(void) {
    char wanted[64];
    int count = 0;
    const char *told = say(&conductor, "status\n");
    for (int i = 0; i < attackers; i++) {
        snprintf(wanted, sizeof wanted, "line %c%d calling call-", letter, i);
        count += strstr(told, wanted) != NULL;
    }
    return count;
}

static int wait_for_all(atomic_int *count, int seconds) {
    int64_t until = now() + seconds * SECOND;
    while (*count < attackers && now() < until) sleep_until(now() + 20 * MS);
    return *count >= attackers;
}

/* Small datagrams for a while, looked at before and after. */
static void measure(int which, Look *from, Look *to) {
    phase = which;
    sleep_until(now() + SECOND / 2);
    look_at_server(from);
    sleep_until(now() + MEASURED_SECONDS * SECOND);
    look_at_server(to);
}

static void *conduct(void *nothing) {
    take_priority(1);
    if (!wait_for_all(&ready, 60)) fprintf(stderr, "load: %d of %d hostile callers came to their image\n", ready, attackers);
    if (has_small()) measure(SMALL, &before_small, &after_small);
    else look_at_server(&after_small);
    look_at_memory_anew(&servers[0]);
    servers[0].notes->longest = servers[0].notes->longest_reckoned = servers[0].notes->long_ones = 0;
    phase = UPLOAD;
    if (!wait_for_all(&uploaded, 120)) fprintf(stderr, "load: %d of %d hostile callers came to an end\n", uploaded, attackers);
    phase = DRAIN;
    sleep_until(now() + SECOND);
    if (is_paged()) look_at_server(&at_end);
    else measure(AFTER, &before_end, &at_end);
    calls_left = count_calls();
    attack_is_over = 1;
    return nothing;
}

/* ---- what it came to ---- */

static double microseconds_of(const Look *from, const Look *to) {
    long long count = to->received - from->received;
    return count > 0 ? (double)(to->reckoned - from->reckoned) / 1e3 / (double)count : 0;
}

static double shared(const Look *from, const Look *to) {
    return 100 * (double)(to->reckoned - from->reckoned) / (double)(to->at - from->at);
}

static void tell_repeated(void) {
    printf("  hostile: a datagram of so many that came before took %.1f us, and all of them %.1f %% of a core\n",
           microseconds_of(&before_end, &at_end), shared(&before_end, &at_end));
}

static void tell_small(void) {
    double seconds = (double)(at_end.at - before_end.at) / 1e9;
    printf("  hostile: small datagrams took %.1f %% of a core before the upload, %.1f us each, and %.1f %% after it, %.1f us"
           " each, of which %.0f a second came\n", shared(&before_small, &after_small),
           microseconds_of(&before_small, &after_small), shared(&before_end, &at_end), microseconds_of(&before_end, &at_end),
           (double)(at_end.received - before_end.received) / seconds);
}

static void tell_answers(void) {
    for (int i = 0; i < attackers; i++) {
        const char *what = lines[i].told == MCF ? "an MCF" : lines[i].told == RTN ? "an RTN" : lines[i].told ? "a DCN" : "nothing";
        printf("  hostile: %.1f MB, answered by %s %.2f s after the command\n", (double)text_length / 1e6, what,
               lines[i].told ? (double)(lines[i].image_to - lines[i].commanded) / 1e9 : 0.0);
    }
}

/* Whether the server received all that hostile callers sent since the upload began: a page of which the system dropped a datagram
   judges nothing. */
static int has_all_come(void) {
    long long sent = 0;
    for (int i = 0; i < attackers; i++) sent += attacks[i].number - hostile_script.count;
    return at_end.received - after_small.received >= sent;
}

/* How often the first server told this event. */
static int count_events(const char *name) {
    char line[2048], event[64];
    int count = 0;
    FILE *file = fopen(servers[0].events, "r");
    snprintf(event, sizeof event, "\"event\":\"%s\"", name);
    while (file && fgets(line, sizeof line, file)) count += strstr(line, event) != NULL;
    if (file) fclose(file);
    return count;
}

static void judge_memory(long grown) {
    double budget = 1.25 * LINE_MEMORY_KB * attackers; /* a quarter for what the allocator leaves over */
    want_at_most("memory of a line's budget of 16 MiB and a quarter", (double)grown, budget, "KB");
    want("what is beyond the budget is told by `full`", (double)grown <= budget || count_events("full") > 0, "no such event");
}

/* Figures of the processor are those of one line alone: honest ones beside it cost more than is looked for. */
static void tell_attack(void) {
    long grown = most_memory_of(&servers[0]) - after_small.memory;
    printf("  hostile: %d of %d callers sent %s, and %d of their calls are on in the end; memory grew by %ld KB from the upload on,"
           " and is %ld KB more in the end\n", ready, attackers, kind_names[kind], calls_left, grown,
           at_end.memory - after_small.memory);
    if (is_paged()) tell_answers();
    else if (has_small()) tell_small();
    else tell_repeated();
    printf("  hostile: the longest turn %.2f ms, %.2f of the processor; %lld of more than 5 ms\n", (double)at_end.longest / 1e6,
           (double)at_end.longest_reckoned / 1e6, (long long)servers[0].notes->long_ones);
    want("each hostile caller came to its end", ready == attackers && uploaded == attackers, "see above");
    if (!has_small()) want_at_most("the longest turn", (double)at_end.longest / 1e6, MOST_TURN_MS, "ms");
    if (is_paged()) want("each datagram of the page was received", has_all_come(), "the system dropped some");
    if (is_paged()) judge_memory(grown);
    if (!has_small() || attackers < options.lines) return;
    want_at_most("a small datagram after the upload, beside one before it",
                 microseconds_of(&before_end, &at_end) - microseconds_of(&before_small, &after_small), MOST_DATAGRAM_US, "us");
    want_at_most("what the legs keep of images without an EOL", (double)(at_end.memory - after_small.memory),
                 MOST_PENDING_KB * attackers + MOST_PROCESS_KB, "KB");
}

/* ---- what is read and made before ---- */

static void read_kind(void) {
    size_t length = strcspn(options.hostile, ":");
    if (!*options.hostile) return;
    while (kind < KINDS && (strlen(kind_names[kind]) != length || strncmp(options.hostile, kind_names[kind], length))) kind++;
    attackers = options.hostile[length] ? atoi(options.hostile + length + 1) : 1;
    if (kind < KINDS && attackers > 0 && attackers <= options.lines / options.processes) return;
    fprintf(stderr, "load: hostile=KIND:N, one of fill, line, noeol, gaps, page, text, training, of a process' lines\n");
    exit(2);
}

static void write_hostile_scripts(void) {
    if (options.pending == 0) options.pending = kind == WORST_PAGE ? 20 : kind == LINE ? 15 : 4;
    if (kind == WORST_PAGE) write_worst_page((size_t)options.pending * 1000000);
    if (kind == WORST_PAGE) add_training(&hostile_script, 0x45, 0x5e);
    else add_training(&hostile_script, 0x44, 0x1e);
    add_indicator(&hostile_script, SHORT_TRAINING);
    if (kind == TEXT_PAGE) text_length = (size_t)read_pages(TEXTS, text, MOST_TEXT);
    FRAME(&ending_script, MCF, 0xf4);
}
