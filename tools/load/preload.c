/* A library that `load` has a server load before the C library. Each sync takes so many milliseconds longer, and what lies
   between two waits of the server, a turn or an answer at most, is timed. For `make load` only; nothing of the product is C.

   LOAD_NOTES names the file that both have in their memories, LOAD_SYNC_MS says how much longer a sync takes. */
#define _GNU_SOURCE
#include "notes.h"
#include <dlfcn.h>
#include <fcntl.h>
#include <poll.h>
#include <stdlib.h>
#include <sys/epoll.h>
#include <sys/mman.h>
#include <time.h>
#include <unistd.h>

static int (*real_fdatasync)(int);
static int (*real_fsync)(int);
static int (*real_poll)(struct pollfd *, nfds_t, int);
static int (*real_epoll_wait)(int, struct epoll_event *, int, int);
static Notes none, *notes = &none;
static int64_t sync_ms, came_back, reckoned;

static int64_t now_of(clockid_t clock) {
    struct timespec t;
    clock_gettime(clock, &t);
    return t.tv_sec * INT64_C(1000000000) + t.tv_nsec;
}

static void find_all(void) {
    real_fdatasync = (int (*)(int))dlsym(RTLD_NEXT, "fdatasync");
    real_fsync = (int (*)(int))dlsym(RTLD_NEXT, "fsync");
    real_poll = (int (*)(struct pollfd *, nfds_t, int))dlsym(RTLD_NEXT, "poll");
    real_epoll_wait = (int (*)(int, struct epoll_event *, int, int))dlsym(RTLD_NEXT, "epoll_wait");
}

__attribute__((constructor)) static void begin(void) {
    const char *path = getenv("LOAD_NOTES"), *longer = getenv("LOAD_SYNC_MS");
    int file = path ? open(path, O_RDWR) : -1;
    find_all();
    sync_ms = longer ? atoi(longer) : 0;
    if (file < 0) return;
    void *place = mmap(NULL, sizeof *notes, PROT_READ | PROT_WRITE, MAP_SHARED, file, 0);
    close(file);
    if (place == MAP_FAILED) return;
    notes = place;
    notes->is_there = 1;
}

static int sync_late(int (*real)(int), int file) {
    int64_t begun = now_of(CLOCK_MONOTONIC);
    struct timespec longer = {.tv_sec = sync_ms / 1000, .tv_nsec = sync_ms % 1000 * 1000000};
    int answer = real(file);
    if (sync_ms > 0) clock_nanosleep(CLOCK_MONOTONIC, 0, &longer, NULL);
    notes->syncs++;
    notes->sync_time += now_of(CLOCK_MONOTONIC) - begun;
    return answer;
}

int fdatasync(int file) { return sync_late(real_fdatasync, file); }

int fsync(int file) { return sync_late(real_fsync, file); }

/* The server goes to wait: what it did since it came back from a wait is over. */
static void go(void) {
    if (came_back == 0) return;
    int64_t took = now_of(CLOCK_MONOTONIC) - came_back, used = now_of(CLOCK_THREAD_CPUTIME_ID) - reckoned;
    if (took > notes->longest) notes->longest = took;
    if (used > notes->longest_reckoned) notes->longest_reckoned = used;
    notes->long_ones += took > LONG_TURN;
}

static void come_back(void) {
    came_back = now_of(CLOCK_MONOTONIC);
    reckoned = now_of(CLOCK_THREAD_CPUTIME_ID);
}

int poll(struct pollfd *asked, nfds_t count, int most) {
    if (!real_poll) find_all();
    go();
    int answer = real_poll(asked, count, most);
    come_back();
    return answer;
}

int epoll_wait(int all, struct epoll_event *ready, int count, int most) {
    go();
    int answer = real_epoll_wait(all, ready, count, most);
    come_back();
    return answer;
}
