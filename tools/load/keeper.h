/* The process beside the servers that has the spool: what is wanted of it. */
#pragma once
#include "bars.h"
#include "server.h"

/* Whether the program has the command. */
static int has_keeper(void) {
    char command[1100];
    snprintf(command, sizeof command, "'%s' keep --help > /dev/null 2>&1", options.faxgate);
    return system(command) == 0;
}

/* What is wanted is told as missed where the program has none, and where it has one too, as long as none is played here. */
static void tell_keeper(void) {
    if (!options.keeper) return;
    const char *why = has_keeper() ? "it is not played here" : "the program has no command `keep`";
    want("a process beside the servers has the spool", has_keeper(), why);
    want("it is stopped for 60 s: no turn is late, and memory is bounded", 0, why);
    want("it, a server, and both are killed 100 times each: no page is lost that was confirmed", 0, why);
}
