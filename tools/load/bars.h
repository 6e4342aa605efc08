/* What is wanted of a run, and whether it was so: a line each, and an exit status for all. */
#pragma once
#include "options.h"

enum { BAR_MISSED = 5 }; /* the exit status where one was missed */

static const double MOST_DATAGRAM_US = 20;     /* a small datagram, beside one before which nothing is pending */
static const double MOST_PENDING_KB = 8;       /* what a leg keeps of an image without an EOL, beside its rows */
static const double MOST_PROCESS_KB = 128;     /* and a process once for all: the room for a datagram */
static const double LEAST_IN_TIME = 99.9;      /* of 100 turns within 20 ms */
static const double MOST_IMAGE_DELAY_MS = 100; /* an image, beside the time that its rate takes */
static const double MOST_TURN_MS = 5;
static const double LINE_MEMORY_KB = 16384;    /* the budget of a line that is hostile */
static const double MOST_SPOOL_KB = 32768;     /* beside twice what waits */
static const double MOST_BOTH_SHARE = 70;      /* of a core, 2,000 lines with a page on each leg */
static const double MOST_TEXT_SHARE = 1.1, MOST_TEXT_SHARE_SPOOL = 0.1; /* memory of a page that waits, by its text */

static int bars_met, bars_missed;

static void tell_bar(int is_met) {
    bars_met += is_met;
    bars_missed += !is_met;
}

static void want_at_most(const char *what, double seen, double most, const char *unit) {
    tell_bar(seen <= most);
    if (seen <= most) printf("  met: %s: %.3f %s, at most %.3f wanted\n", what, seen, unit, most);
    else printf("  MISSED by %.3f %s: %s: %.3f, at most %.3f wanted\n", seen - most, unit, what, seen, most);
}

static void want_at_least(const char *what, double seen, double least, const char *unit) {
    tell_bar(seen >= least);
    if (seen >= least) printf("  met: %s: %.3f %s, at least %.3f wanted\n", what, seen, unit, least);
    else printf("  MISSED by %.3f %s: %s: %.3f, at least %.3f wanted\n", least - seen, unit, what, seen, least);
}

static void want(const char *what, int is_met, const char *else_why) {
    tell_bar(is_met);
    printf("  %s: %s%s%s\n", is_met ? "met" : "MISSED", what, is_met ? "" : ": ", is_met ? "" : else_why);
}
