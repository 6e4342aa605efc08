/* What a server tells `load` through the library preload.c: both have it in their memories. Times are in nanoseconds. */
#pragma once
#include <stdatomic.h>
#include <stdint.h>

typedef struct {
    _Atomic int64_t is_there;                  /* the library is in the server */
    _Atomic int64_t syncs, sync_time;          /* how many, and how long they took in all */
    _Atomic int64_t longest, longest_reckoned; /* the longest time between two waits, by the clock and of the processor */
    _Atomic int64_t long_ones;                 /* how many such times were longer than LONG_TURN */
} Notes;

enum { LONG_TURN = 5000000 };
