/* What `load` is asked for, and what every part of it uses: moments, cores, priorities. */
#pragma once
#define _GNU_SOURCE
#include <errno.h>
#include <sched.h>
#include <stdint.h>
#include <stdio.h>
#include <stdlib.h>
#include <string.h>
#include <time.h>
#include <unistd.h>

enum {
    MOST_PROCESSES = 8,
    MOST_LINES = 4000, /* of a process */
    TURN_MS = 40,      /* a line is turned so often, line i at moments of i modulo this */
};

static const int64_t MS = 1000000, SECOND = 1000000000, NEVER = INT64_MAX;

typedef struct {
    const char *faxgate, *page, *repeat, *cores, *spool, *hostile;
    int lines, pages, seconds, spread, processes, words, rows, net, priority, limit, sync_ms, both, pending, waiting, stays,
        keeper;
} Options;

static Options options = {.page = "bench/pages/text-1728.mr", .repeat = "full", .cores = "", .spool = "", .hostile = "",
                          .pages = 1, .seconds = 30, .spread = 20, .processes = 1, .words = 5, .rows = 1000, .net = 1,
                          .limit = 600};

static void fail(const char *why) {
    perror(why);
    exit(2);
}

static void read_option(const char *word) {
    const struct { const char *key; int *number; const char **text; } keys[] = {
        {"pages=", &options.pages, NULL}, {"seconds=", &options.seconds, NULL}, {"spread=", &options.spread, NULL},
        {"processes=", &options.processes, NULL}, {"words=", &options.words, NULL}, {"rows=", &options.rows, NULL},
        {"net=", &options.net, NULL}, {"sync_ms=", &options.sync_ms, NULL}, {"both=", &options.both, NULL},
        {"pending=", &options.pending, NULL}, {"waiting=", &options.waiting, NULL}, {"stays=", &options.stays, NULL},
        {"keeper=", &options.keeper, NULL}, {"spool=", NULL, &options.spool}, {"hostile=", NULL, &options.hostile},
        {"priority=", &options.priority, NULL}, {"limit=", &options.limit, NULL}, {"page=", NULL, &options.page},
        {"repeat=", NULL, &options.repeat}, {"cores=", NULL, &options.cores}};
    for (size_t i = 0; i < sizeof keys / sizeof keys[0]; i++) {
        size_t length = strlen(keys[i].key);
        if (strncmp(word, keys[i].key, length)) continue;
        if (keys[i].text) *keys[i].text = word + length;
        else *keys[i].number = atoi(word + length);
        return;
    }
    fprintf(stderr, "load: no such word: %s\n", word);
    exit(2);
}

static int64_t now_of(clockid_t clock) {
    struct timespec t;
    clock_gettime(clock, &t);
    return t.tv_sec * SECOND + t.tv_nsec;
}

static int64_t now(void) {
    return now_of(CLOCK_MONOTONIC);
}

static void sleep_until(int64_t moment) {
    struct timespec t = {.tv_sec = moment / SECOND, .tv_nsec = moment % SECOND};
    while (clock_nanosleep(CLOCK_MONOTONIC, TIMER_ABSTIME, &t, NULL) == EINTR) {}
}

/* Core number i of those that were named; this process or thread stays on it. */
static void stay_on_core(int i) {
    cpu_set_t set;
    const char *at = options.cores;
    for (; i > 0 && strchr(at, ','); i--) at = strchr(at, ',') + 1;
    if (!*at) return;
    CPU_ZERO(&set);
    CPU_SET((size_t)atoi(at), &set);
    if (sched_setaffinity(0, sizeof set, &set)) fail("sched_setaffinity");
}

static void take_priority(int above) {
    struct sched_param param = {.sched_priority = options.priority + above};
    if (options.priority && sched_setscheduler(0, SCHED_FIFO, &param)) fail("sched_setscheduler");
}
