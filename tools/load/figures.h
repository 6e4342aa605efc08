/* What came of a load, in figures. */
#pragma once
#include "bars.h"
#include "machines.h"

enum {
    MOST_SAMPLES = 3600,
    LINES_OF_SHARE = 2000, /* those of which the share of a core is wanted */
};

/* What was seen at one moment. */
typedef struct {
    int64_t at;
    Time time;
    int in_call, on_both_legs;
} Sample;

static Sample samples[MOST_SAMPLES];
static int sample_count;
static double in_time, largest_spool, largest_excess; /* turns of 100; kilobytes of files, and beside twice what waits */

static void note_spool(void) {
    double size = spool_size(), waiting = (double)(confirmed - whole - differing + options.stays) * page_length / 1024;
    if (size > largest_spool) largest_spool = size;
    if (size - 2 * waiting > largest_excess) largest_excess = size - 2 * waiting;
}

static void note_sample(void) {
    if (has_spool()) note_spool();
    if (sample_count == MOST_SAMPLES) return;
    samples[sample_count++] = (Sample){now(), time_of_all(), lines_in_call, lines_on_both_legs};
    for (int i = 0; i < options.processes; i++) {
        long memory = memory_of(&servers[i]);
        if (memory > servers[i].memory_at_most) servers[i].memory_at_most = memory;
    }
}

/* Memory in the end, and at most at any moment. */
static void note_end(Server *server) {
    long most = most_memory_of(server);
    server->memory_at_end = memory_of(server);
    if (most > server->memory_at_most) server->memory_at_most = most;
}

static int by_size(const void *a, const void *b) {
    int64_t x = *(const int64_t *)a, y = *(const int64_t *)b;
    return (x > y) - (x < y);
}

static void tell_waits(const char *what, Client *clients) {
    static int64_t all[MOST_WAITS * MOST_PROCESSES];
    int count = 0;
    for (int i = 0; i < options.processes; i++) {
        memcpy(all + count, clients[i].waits, sizeof all[0] * (size_t)clients[i].count);
        count += clients[i].count;
    }
    if (count == 0) return;
    qsort(all, (size_t)count, sizeof all[0], by_size);
    printf("  %s: %d, answered within %.2f ms (median), %.2f ms (99 of 100), %.2f ms (worst)\n", what, count,
           (double)all[count / 2] / 1e6, (double)all[count * 99 / 100] / 1e6, (double)all[count - 1] / 1e6);
}

/* The moment of turn 0 of a server, modulo a turn, in nanoseconds. A datagram of line i leaves in a turn that is due at a
   moment of i modulo 40 ms, and not before it: so most arrivals less that lie close after one moment, the first of them. */
static int64_t first_turn(const Server *server) {
    enum { BINS = 400 };
    static size_t bins[BINS];
    int64_t width = TURN_MS * MS / BINS;
    int peak = 0;
    memset(bins, 0, sizeof bins);
    for (size_t k = 0; k < server->arrived; k++)
        bins[(server->arrivals[k].at - server->arrivals[k].line * MS) % (TURN_MS * MS) / width]++;
    for (int b = 1; b < BINS; b++) peak = bins[b] > bins[peak] ? b : peak;
    for (int left = BINS; left > 0; left--) {
        int before = (peak + BINS - 1) % BINS;
        if (bins[before] <= server->arrived / 10000) break;
        peak = before;
    }
    return peak * width;
}

/* How late the turns were in which datagrams left, on the called legs. Turns come in order: where the next one in that order
   may be this one, it is, however late; else it is the latest that was due. So is each where few lines are served, since
   turns in which nothing leaves lie between; then 40 ms late is told as in time. */
static size_t turns_late(const Server *server, int64_t *late) {
    int64_t base = first_turn(server), last = -TURN_MS, last_line = 0;
    int is_dense = server->lines >= 10 * TURN_MS;
    for (size_t k = 0; k < server->arrived; k++) {
        int64_t line = server->arrivals[k].line, slot = line % TURN_MS, at = server->arrivals[k].at - base;
        int64_t latest = (at - slot * MS) / (TURN_MS * MS) * TURN_MS + slot;
        int64_t next = last + ((slot - last) % TURN_MS + TURN_MS) % TURN_MS;
        if (next == last && line <= last_line) next += TURN_MS;
        int64_t turn = !is_dense || next > latest || next - last > 3 ? latest : next;
        if (turn > last) last = turn;
        last_line = line;
        late[k] = at - turn * MS;
    }
    return server->arrived;
}

/* How many datagrams of called legs came a turn later than the pace has them: some 80 ms after the one before. */
static size_t turns_left_out(const Server *server) {
    int64_t *latest = calloc((size_t)server->lines, sizeof *latest);
    size_t count = 0;
    if (!latest) fail("memory");
    for (size_t k = 0; k < server->arrived; k++) {
        const Arrival *a = &server->arrivals[k];
        int64_t gap = a->at - latest[a->line];
        count += gap > 3 * TURN_MS * MS / 2 && gap < 5 * TURN_MS * MS / 2;
        latest[a->line] = a->at;
    }
    free(latest);
    return count;
}

static void tell_turns(void) {
    size_t count = 0, sum = 0, left_out = 0;
    for (int i = 0; i < options.processes; i++) sum += servers[i].arrived;
    int64_t *late = calloc(sum + 1, sizeof *late);
    if (!late) fail("memory");
    for (int i = 0; i < options.processes; i++) {
        count += turns_late(&servers[i], late + count);
        left_out += turns_left_out(&servers[i]);
    }
    if (count > 0) {
        const int bounds[] = {1, 5, 20, 100};
        qsort(late, count, sizeof *late, by_size);
        printf("  turns: %zu datagrams of called legs;", count);
        for (size_t b = 0; b < sizeof bounds / sizeof bounds[0]; b++) {
            size_t within = 0;
            while (within < count && late[within] <= bounds[b] * MS) within++;
            if (bounds[b] == 20) in_time = 100.0 * (double)within / (double)count;
            printf(" %.3f %% at most %d ms late,", 100.0 * (double)within / (double)count, bounds[b]);
        }
        printf(" median %.2f ms, 99.9 %% %.2f ms, latest %.1f ms; %zu came a turn later than the pace\n",
               (double)late[count / 2] / 1e6, (double)late[count * 999 / 1000] / 1e6, (double)late[count - 1] / 1e6,
               left_out);
    }
    free(late);
}

/* The share of a core between two samples. */
static double share(const Sample *from, const Sample *to) {
    double used = to->time.user + to->time.system - from->time.user - from->time.system;
    return 100 * used / ((double)(to->at - from->at) / 1e9);
}

/* The first and the last sample at which so many lines had a call, or one on each leg. */
static int find_samples(int is_both, int least, const Sample **from, const Sample **to) {
    *from = *to = NULL;
    for (const Sample *s = samples; s < samples + sample_count; s++)
        if ((is_both ? s->on_both_legs : s->in_call) >= least) *from = *from ? *from : s, *to = s;
    return *from != *to;
}

static void tell_share_of(int is_both, int least, const char *which) {
    const Sample *from, *to;
    if (!find_samples(is_both, least, &from, &to)) return;
    double seconds = (double)(to->at - from->at) / 1e9;
    printf("; %.1f %% (%.1f user, %.1f system) in the %.0f s in which %s", share(from, to),
           100 * (to->time.user - from->time.user) / seconds, 100 * (to->time.system - from->time.system) / seconds,
           seconds, which);
}

static void tell_time(void) {
    const Sample *first = &samples[0], *last = &samples[sample_count - 1];
    printf("  processor: %.2f s user, %.2f s system in %.1f s: %.1f %% of a core", last->time.user - first->time.user,
           last->time.system - first->time.system, (double)(last->at - first->at) / 1e9, share(first, last));
    if (callers_wanted == 0) return (void)printf("\n");
    if (options.pages > 0) tell_share_of(0, callers_wanted, "each line had a call");
    if (options.pages > 1) tell_share_of(1, callers_wanted * 9 / 10, "nine of ten lines had one on each leg");
    printf("\n");
}

static void tell_memory(void) {
    long start = 0, most = 0, end = 0;
    for (int i = 0; i < options.processes; i++) {
        start += servers[i].memory_at_start;
        most += servers[i].memory_at_most;
        end += servers[i].memory_at_end;
    }
    printf("  memory: %ld KB before the first call (%.1f a line), %ld at most (%.1f), %ld at the end (%.1f)\n", start,
           (double)start / options.lines, most, (double)most / options.lines, end, (double)end / options.lines);
}

static double rated_image_ms(void) {
    return page_length / PART * PACKET_MS;
}

static void tell_machines(Time own, double seconds) {
    if (options.pages == 0 || callers_wanted == 0) return;
    printf("  calls: %d begun, %d pages confirmed to callers, %d whole at called machines, %d that differ, %d calls failed\n",
           calls_begun, confirmed, whole, differing, failed);
    printf("  an image on a called leg took %.2f s in the mean, %.2f s by its rate; datagrams that could not be mended: %d\n",
           images ? (double)image_time / (double)images / 1e9 : 0, rated_image_ms() / 1e3, lost);
    printf("  an MCF came %.1f ms after its command in the mean, the longest %.1f ms\n",
           confirmed ? (double)confirming_time / confirmed / 1e6 : 0, (double)longest_confirming / 1e6);
    printf("  this program: %lld datagrams sent, %lld of them more than 5 ms late, the latest %.1f ms; %.1f %% of a core\n",
           (long long)sends, (long long)sends_late, (double)latest_send / 1e6, 100 * (own.user + own.system) / seconds);
}

static void tell_counts(void) {
    static const char *const names[] = {
        "faxgate_jobs_delivered_total", "faxgate_jobs_failed_total", "faxgate_datagrams_received_total",
        "faxgate_datagrams_sent_total", "faxgate_receive_failures_total", "faxgate_send_failures_total",
        "faxgate_turns_late_total", "faxgate_skipped_milliseconds_total"};
    printf("  metrics:");
    for (size_t i = 0; i < sizeof names / sizeof names[0]; i++)
        printf(" %s %lld", names[i] + strlen("faxgate_"), count_of(names[i]));
    printf("\n");
}

static void tell_spool(void) {
    long long syncs = 0, took = 0;
    if (!has_spool()) return;
    for (int i = 0; i < options.processes; i++) syncs += servers[i].notes->syncs, took += servers[i].notes->sync_time;
    printf("  spool: %lld syncs, %.2f ms each in the mean; %.1f MB at most, %.1f MB in the end; %lld pages wait\n", syncs,
           syncs ? (double)took / (double)syncs / 1e6 : 0, largest_spool / 1024, spool_size() / 1024,
           count_of("faxgate_pages_stored"));
}

/* What is wanted of a page on each leg at once. */
static void judge_both(void) {
    const Sample *from, *to;
    int is_seen = find_samples(1, callers_wanted * 9 / 10, &from, &to);
    want("nine of ten lines had a page on each leg", is_seen, "let calls begin over a shorter time: spread=");
    if (!is_seen || options.lines < LINES_OF_SHARE) return;
    want_at_most("processor while nine of ten lines had a page on each leg", share(from, to), MOST_BOTH_SHARE, "% of a core");
}

/* What is wanted of honest lines, whatever else goes on. */
static void judge_lines(void) {
    if ((!is_noted() && !options.both) || callers_wanted == 0 || options.pages == 0) return;
    double mean = images ? (double)image_time / (double)images / 1e6 : 0;
    int are_whole = !failed && !differing && whole == callers_wanted * options.pages;
    want("each page came whole, and no call failed", are_whole, "see above");
    want_at_least("turns at most 20 ms late", in_time, LEAST_IN_TIME, "%");
    want_at_most("an image, beside what its rate takes", mean - rated_image_ms(), MOST_IMAGE_DELAY_MS, "ms");
    if (options.both) judge_both();
    if (options.stays == 0) return;
    want("the pages that do not go are there", count_of("faxgate_pages_set_aside_total") == options.stays, "see metrics");
    want_at_most("the spool's files, beside twice what waits", largest_excess, MOST_SPOOL_KB, "KB");
}

/* What is wanted of a start where so many pages wait: seconds and kilobytes. */
static void judge_start(double seconds, long memory) {
    int is_small = options.waiting <= 1000;
    printf("  started again where %d pages wait: the first answer after %.3f s, %ld KB at most\n", options.waiting, seconds, memory);
    want_at_most("a start", seconds, is_small ? 0.3 : 2, "s");
    want_at_most("memory at the start", (double)memory / 1024, is_small ? 30 : 100, "MB");
}

/* What is wanted of pages that wait. */
static void judge_waiting(void) {
    const Server *server = &servers[0];
    double grown = (double)(server->memory_at_end - server->memory_at_start), texts = (double)options.waiting * page_length / 1024;
    printf("  memory: %ld KB before the first call, %ld with %d pages that wait: %.2f times their texts\n", server->memory_at_start,
           server->memory_at_end, confirmed, grown / texts);
    want("each page was confirmed", confirmed == options.waiting && !failed, "see above");
    if (options.waiting < 10 * options.lines) return;
    want_at_most("memory of a page that waits, by its text", grown / texts, has_spool() ? MOST_TEXT_SHARE_SPOOL : MOST_TEXT_SHARE,
                 "times");
}
