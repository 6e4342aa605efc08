/* Each row of what is wanted of a service: its run, and whether all of it was met. docs/PERFORMANCE.md has the same table. */
#pragma once
#include "bars.h"
#include <sys/wait.h>

enum { MOST_ROW_WORDS = 6, MOST_WORDS = 40 };

typedef struct {
    const char *what, *words[MOST_ROW_WORDS];
} Row;

static const Row rows[] = {
    {"a datagram behind fill", {"4", "hostile=fill:4"}},
    {"a datagram behind a line without an end", {"1", "hostile=line:1"}},
    {"an image without an EOL", {"4", "hostile=noeol:4"}},
    {"the same, a datagram lost before each", {"4", "hostile=gaps:4"}},
    {"65,000 training indicators", {"1", "hostile=training:1"}},
    {"400 lines beside one that sends fill", {"401", "hostile=fill:1", "rows=500", "spread=5"}},
    {"400 lines beside one that sends a line without an end", {"401", "hostile=line:1", "rows=500", "spread=5"}},
    {"the worst page", {"1", "hostile=page:1", "spool=/dev/shm"}},
    {"20,000 rows of text", {"1", "hostile=text:1", "spool=/dev/shm"}},
    {"a start with 1,000 pages", {"100", "waiting=1000", "spool=/dev/shm", "spread=5"}},
    {"a start with 10,000 pages", {"1000", "waiting=10000", "spool=/dev/shm", "spread=5"}},
    {"1,000 pages in memory alone", {"100", "waiting=1000", "spread=5"}},
    {"a spool with a page that does not go", {"1500", "stays=1", "spool=/dev/shm", "spread=10"}},
    {"2,000 lines with syncs of 10 ms", {"2000", "sync_ms=10", "spool=/dev/shm"}},
    {"2,000 lines with a page on each leg", {"2000", "both=1"}},
    {"the disk beside the turn", {"1", "pages=0", "seconds=1", "keeper=1"}},
};

enum { ROWS = sizeof rows / sizeof rows[0] };

/* Runs a row as a process of its own. It answers its status. */
static int run_row(const Row *row, const char *program, const char *faxgate, int count, char **more) {
    const char *words[MOST_WORDS] = {program, faxgate};
    int at = 2, status = 0;
    for (int i = 0; i < MOST_ROW_WORDS && row->words[i]; i++) words[at++] = row->words[i];
    for (int i = 0; i < count && at < MOST_WORDS - 1; i++) words[at++] = more[i];
    fflush(stdout);
    pid_t process = fork();
    if (process < 0) fail("fork");
    if (process == 0) {
        execv("/proc/self/exe", (char **)words);
        _exit(127);
    }
    if (waitpid(process, &status, 0) != process) fail("waitpid");
    return WIFEXITED(status) ? WEXITSTATUS(status) : 128 + WTERMSIG(status);
}

/* All rows, whatever becomes of each, and what became of each. It answers the status of all. */
static int run_rows(const char *program, const char *faxgate, int count, char **more) {
    int statuses[ROWS], missed = 0;
    for (int i = 0; i < ROWS; i++) {
        printf("== %d. %s:", i + 1, rows[i].what);
        for (int k = 0; k < MOST_ROW_WORDS && rows[i].words[k]; k++) printf(" %s", rows[i].words[k]);
        printf("\n");
        statuses[i] = run_row(&rows[i], program, faxgate, count, more);
    }
    printf("== all rows\n");
    for (int i = 0; i < ROWS; i++) {
        const char *how = statuses[i] == 0 ? "met" : statuses[i] == BAR_MISSED || statuses[i] == 1 ? "MISSED" : "NOT LOOKED AT";
        printf("  %2d. %s: %s (status %d)\n", i + 1, rows[i].what, how, statuses[i]);
        missed += statuses[i] != 0;
    }
    printf("  %d of %d rows met\n", ROWS - missed, ROWS);
    return missed ? BAR_MISSED : 0;
}
