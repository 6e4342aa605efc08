/* Many lines of `faxgate serve` under load, in real time over UDP on this host. Each line has a machine that calls it and
   sends a page at 14,400 bit/s, and one that is called and takes that page. Both wait for each answer before they go on, as
   machines do: a page counts as confirmed where its caller got the MCF, and as whole where the called machine has the octets
   that the caller sent. For `make load` only; nothing of the product is C.

   usage: load FAXGATE LINES [KEY=VALUE ..]    (the proved program; how many lines)
          load FAXGATE table [KEY=VALUE ..]    (each row of what is wanted of a service, one after the other: table.h)

     pages=N       each line's machine calls so often and sends a page each time, 1; 0: nobody calls (idle lines)
     seconds=N     how long idle lines are looked at, 30
     spread=N      the first calls begin over so many seconds, 20
     processes=N   so many processes serve the lines, as many each, 1
     words=N       so many control words a second, `status` and `metrics` in turn, 5; idle lines get theirs at the end
     rows=N        the rows of the page, 1000
     page=PATH     a page in two dimensions of 1728 elements, bench/pages/text-1728.mr
     repeat=WORD   which datagrams the gateways send again: full, last or none; full
     net=N         the addresses are those of 127.0.N.0/24 and, one a process, of those after it, 1
     cores=A,B,..  the core of this program and those of the servers, one after the other; else any
     priority=N    the servers and this program have real-time scheduling (SCHED_FIFO) of this priority; else none
     limit=N       everything ends at the latest after so many seconds, 600

   What is judged, each with figures and with lines that say whether what is wanted was met:

     spool=FOLDER  the servers have spools, in a folder of that folder; 1: in the temporary one
     sync_ms=N     each sync of theirs takes N ms longer
     hostile=KIND:N  the callers of the first N lines are hostile: what they send stands at the top of hostile.h
     pending=N     so many million octets of each: of fill 4, of a line without an end 15, of a page 20 at most
     both=1        a page on each leg at once: each machine calls twice, unless `pages` says more
     waiting=N     N pages are put in a row of calls and wait; with a spool the server is killed then, and started again
     stays=N       N pages of a line that left the configuration lie in the spool
     keeper=1      the process beside the servers that has the spool, where the program has one

   The status is 0 where all is met, 1 where a page differs or a call failed, 5 where a line says MISSED, and 2 to 4 where it
   could not be looked at.

   It binds to addresses of 127.0.0.0/8 alone, and ends what it started. */
#include "figures.h"
#include "hostile.h"
#include "keeper.h"
#include "table.h"
#include <pthread.h>
#include <sys/resource.h>

enum {
    BATCH = 64,        /* datagrams in one call of the system */
    QUIET_SECONDS = 8, /* nothing came or went for so long: no call is on any more */
};

/* ---- sockets ---- */

static void note_arrival(Server *server, int line, int64_t at) {
    if (server->arrived < server->room) server->arrivals[server->arrived++] = (Arrival){at, line};
}

/* When the system got a datagram, by the clock of the day. */
static int64_t arrival_of(struct msghdr *message) {
    for (struct cmsghdr *c = CMSG_FIRSTHDR(message); c; c = CMSG_NXTHDR(message, c))
        if (c->cmsg_level == SOL_SOCKET && c->cmsg_type == SCM_TIMESTAMPNS) {
            struct timespec t;
            memcpy(&t, CMSG_DATA(c), sizeof t);
            return t.tv_sec * SECOND + t.tv_nsec;
        }
    return 0;
}

typedef struct {
    struct mmsghdr messages[BATCH];
    struct iovec pieces[BATCH];
    struct sockaddr_in addresses[BATCH];
    uint8_t octets[BATCH][MOST_DATAGRAM * 2], notes[BATCH][64];
} Batch;

static void prepare(Batch *batch) {
    for (int i = 0; i < BATCH; i++) {
        batch->pieces[i] = (struct iovec){batch->octets[i], sizeof batch->octets[i]};
        batch->messages[i].msg_hdr = (struct msghdr){
            .msg_name = &batch->addresses[i], .msg_namelen = sizeof batch->addresses[i],
            .msg_iov = &batch->pieces[i], .msg_iovlen = 1,
            .msg_control = batch->notes[i], .msg_controllen = sizeof batch->notes[i]};
    }
}

/* Takes what came to the machines at this socket. It came from a line whose port tells its number. */
static void take(Server *server, int is_called, int64_t moment) {
    static Batch batch;
    int count;
    do {
        prepare(&batch);
        count = recvmmsg(is_called ? server->called : server->callers, batch.messages, BATCH, 0, NULL);
        for (int i = 0; i < count; i++) {
            int port = ntohs(batch.addresses[i].sin_port) - GATEWAY_PORT, number = port / 2;
            int length = (int)batch.messages[i].msg_len;
            if (port < 0 || number >= server->lines || length < 4) continue;
            Line *line = &lines[server->first + number];
            if (is_called && line->is_hostile) continue;
            int is_new = hear_datagram(line, is_called ? &line->called : &line->calling, batch.octets[i], length, moment);
            if (is_new && is_called) note_arrival(server, number, arrival_of(&batch.messages[i].msg_hdr));
            last_active = moment;
        }
    } while (count == BATCH);
}

/* What is sent next, gathered for one call of the system. */
static Batch outgoing;
static int gathered;

static void send_gathered(int socket) {
    for (int done = 0; done < gathered;) {
        int count = sendmmsg(socket, outgoing.messages + done, (unsigned)(gathered - done), 0);
        done += count > 0 ? count : 1;
    }
    gathered = 0;
}

static void gather(Server *server, int number, int is_called, const Datagram *datagram, int socket) {
    struct sockaddr_in *to = &outgoing.addresses[gathered];
    *to = (struct sockaddr_in){.sin_family = AF_INET, .sin_port = htons((uint16_t)(GATEWAY_PORT + 2 * number + is_called))};
    to->sin_addr.s_addr = htonl(address_of(server, 1));
    outgoing.pieces[gathered] = (struct iovec){(void *)datagram->octets, (size_t)datagram->length};
    outgoing.messages[gathered].msg_hdr = (struct msghdr){.msg_name = to, .msg_namelen = sizeof *to,
                                                          .msg_iov = &outgoing.pieces[gathered], .msg_iovlen = 1};
    if (++gathered == BATCH) send_gathered(socket);
}

/* A machine whose moment has come sends its next datagram. After its last one its call is over. */
static void send_next(Server *server, int number, int is_called, int socket, int64_t moment) {
    Line *line = &lines[server->first + number];
    Machine *machine = is_called ? &line->called : &line->calling;
    const Script *script = is_called ? &called_script : line->is_hostile ? &hostile_script : page_script;
    const Datagram *datagram = &script->datagrams[machine->place++];
    int64_t late = moment - machine->due;
    gather(server, number, is_called, datagram, socket);
    last_active = moment;
    sends++;
    sends_late += late > 5 * MS;
    latest_send = late > latest_send ? late : latest_send;
    machine->awaits = datagram->awaits;
    if (machine->awaits == MCF) line->commanded = moment;
    if (machine->awaits == NOTHING) machine->due += PACKET_MS * MS;
    else if (machine->heard == machine->awaits) go_on(machine, moment + pause_of(line));
    else machine->due = NEVER;
    if (machine->place < script->count) return;
    machine->due = NEVER;
    if (line->is_hostile) begin_attack(server->first + number, moment);
    else if (!is_called) end_call(line, 0, moment);
}

static void send_due(Server *server, int is_called, int64_t moment) {
    int socket = is_called ? server->called : server->callers;
    for (int i = 0; i < server->lines; i++) {
        Line *line = &lines[server->first + i];
        if ((is_called ? &line->called : &line->calling)->due <= moment) send_next(server, i, is_called, socket, moment);
    }
    send_gathered(socket);
}

/* ---- the threads: machines; rings; words ---- */

static atomic_int is_over;
static int64_t call_time;

/* Once a second: how many lines have a call, and calls that take far too long have failed. */
static void look_after_calls(int64_t moment) {
    int on = 0, both = 0;
    for (int i = attackers; i < options.lines; i++) {
        Line *line = &lines[i];
        if (line->calling.state == TALKS && moment - line->began > call_time + 30 * SECOND) end_call(line, 1, moment);
        on += line->calling.state == TALKS || line->called.state == TALKS;
        both += line->calling.state == TALKS && line->called.state == TALKS;
    }
    lines_in_call = on;
    lines_on_both_legs = both;
}

/* Whether calls are on or to come: until each was over, and what was confirmed came to its called machine. */
static int goes_on(int64_t moment) {
    int came = page_script == &waiting_script ? confirmed : whole + differing;
    int is_done = calls_over >= callers_wanted * options.pages && came >= confirmed;
    if (attackers > 0 && !attack_is_over) return 1;
    if (moment - last_active > (QUIET_SECONDS + options.spread) * SECOND) return 0;
    return !is_done || lines_in_call > 0;
}

static void play(void) {
    int64_t next = now(), looked = 0;
    last_active = next;
    do {
        int64_t moment = now();
        for (int i = 0; i < options.processes; i++)
            for (int is_called = 0; is_called < 2; is_called++) {
                take(&servers[i], is_called, moment);
                send_due(&servers[i], is_called, moment);
            }
        attack_all(&servers[0], moment);
        if (moment - looked >= SECOND) look_after_calls(looked = moment);
        next += MS;
        if (next < now()) next = now();
        sleep_until(next);
    } while (goes_on(next));
}

/* Rings the lines whose moment has come. A line that is busy is rung again. */
static void *ring_lines(void *nothing) {
    char word[32];
    take_priority(1);
    while (!is_over) {
        for (int i = 0; i < options.lines; i++) {
            Line *line = &lines[i];
            int process = i / servers[0].lines;
            if (!line->is_wanted || line->from > now()) continue;
            line->is_wanted = 0;
            line->calling.state = RUNG;
            snprintf(word, sizeof word, "ring %c%d\n", letter, i - servers[process].first);
            if (!strncmp(say(&ringers[process], word), "ok", 2)) {
                calls_begun++;
                continue;
            }
            line->calling.state = QUIET;
            line->from = now() + SECOND / 4;
            line->is_wanted = 1;
        }
        sleep_until(now() + MS);
    }
    return nothing;
}

/* Says words, and looks at the servers once a second. */
static void *watch(void *nothing) {
    int64_t next = now(), sampled = 0;
    take_priority(1);
    for (int i = 0; !is_over; i++) {
        if (next - sampled >= SECOND) note_sample(), sampled = next;
        if (options.words > 0 && options.pages > 0)
            say(&askers[i % options.processes], i / options.processes % 2 ? "metrics\n" : "status\n");
        next += SECOND / (options.words > 0 ? options.words : 1);
        if (next > now()) sleep_until(next);
    }
    note_sample();
    return nothing;
}

/* ---- the run ---- */

/* As many open files as a server of the most lines wants, which has this limit from here. */
static void allow_files(void) {
    enum { WANTED = 2 * MOST_LINES + 200 };
    struct rlimit files;
    if (getrlimit(RLIMIT_NOFILE, &files)) fail("ulimit -n");
    if (files.rlim_cur >= WANTED) return;
    files.rlim_cur = WANTED;
    if (files.rlim_max < WANTED) files.rlim_max = WANTED;
    if (setrlimit(RLIMIT_NOFILE, &files)) fail("ulimit -n");
}

/* Connects a client once the server listens. */
static void connect_when_open(Client *client, Server *server) {
    while (!connect_client(client, server)) {
        if (waitpid(server->process, NULL, WNOHANG) != 0) {
            server->process = 0;
            fprintf(stderr, "load: a server ended at once\n");
            exit(2);
        }
        usleep(5000);
    }
}

/* Lines of which so many callers are to be rung, the first ones. */
static void make_lines(int wanted) {
    lines = calloc((size_t)options.lines, sizeof *lines);
    if (!lines) fail("memory");
    for (int i = 0; i < options.lines; i++) {
        lines[i].calling.due = lines[i].called.due = NEVER;
        lines[i].is_wanted = options.pages > 0 && i < wanted;
        lines[i].is_hostile = i < attackers;
    }
    callers_wanted = wanted - attackers;
}

static void prepare_all(void) {
    int each = options.lines / options.processes;
    allow_files();
    if (!mkdtemp(room)) fail(room);
    atexit(end_all);
    make_spools();
    if (is_noted()) make_library();
    for (int i = 0; i < options.processes; i++) prepare_server(&servers[i], i * each, each);
}

static void connect_all(void) {
    for (int i = 0; i < options.processes; i++) {
        connect_when_open(&ringers[i], &servers[i]);
        connect_when_open(&askers[i], &servers[i]);
        say(&askers[i], "metrics\n");
        askers[i].count = 0;
        expect_library(&servers[i]);
    }
    connect_when_open(&conductor, &servers[0]);
}

static void open_all(int are_called) {
    for (Server *s = servers; s < servers + options.processes; s++) {
        write_configuration(s, are_called);
        start(s);
    }
    connect_all();
    usleep(500000);
    for (Server *s = servers; s < servers + options.processes; s++) {
        s->memory_at_start = s->memory_at_most = memory_of(s);
        look_at_memory_anew(s);
        if (is_noted()) s->notes->longest = s->notes->longest_reckoned = s->notes->long_ones = 0;
    }
}

/* Ends the servers as a crash does. */
static void kill_all(void) {
    for (int i = 0; i < options.processes; i++) {
        kill(servers[i].process, SIGKILL);
        waitpid(servers[i].process, NULL, 0);
        servers[i].process = 0;
        close(ringers[i].socket), close(askers[i].socket);
    }
    close(conductor.socket);
}

/* A word for each process; its answers are kept, and not counted. */
static void say_to_all(const char *word) {
    for (int i = 0; i < options.processes; i++) {
        say(&askers[i], word);
        askers[i].count--;
    }
}

static void stop_all(void) {
    int status;
    say_to_all("stop\n");
    for (int i = 0; i < options.processes; i++) {
        if (waitpid(servers[i].process, &status, 0) != servers[i].process || status)
            fprintf(stderr, "load: a server's status is %d\n", status);
        servers[i].process = 0;
    }
}

static void run(void) {
    pthread_t ringer, watcher, leader;
    int64_t begun = now();
    is_over = 0;
    for (int i = 0; i < options.lines; i++) /* hostile ones at once: each waits for the others in its call */
        lines[i].from = begun + SECOND + (i < attackers ? 0 : i * options.spread * SECOND / options.lines);
    if (pthread_create(&watcher, NULL, watch, NULL)) fail("thread");
    if (attackers > 0 && pthread_create(&leader, NULL, conduct, NULL)) fail("thread");
    if (options.pages > 0) {
        if (pthread_create(&ringer, NULL, ring_lines, NULL)) fail("thread");
        play();
    } else
        sleep_until(begun + options.seconds * SECOND);
    is_over = 1;
    pthread_join(watcher, NULL);
    if (attackers > 0) pthread_join(leader, NULL);
    if (options.pages > 0) pthread_join(ringer, NULL);
    else
        for (int i = 0; i < 20; i++) say(&askers[i % options.processes], i % 4 < 2 ? "status\n" : "metrics\n");
}

/* Pages that wait: those of one call of each of so many lines. */
static void leave_pages(int callers) {
    page_script = &waiting_script;
    make_lines(callers);
    run();
    printf("  %d pages were confirmed to %d callers\n", confirmed, callers);
}

static void forget_calls(void) {
    free(lines);
    page_script = &calling_script;
    confirmed = whole = differing = lost = 0;
    calls_begun = calls_over = failed = lines_in_call = lines_on_both_legs = 0;
    sends = sends_late = image_time = images = latest_send = confirming_time = longest_confirming = 0;
    sample_count = 0;
    largest_spool = largest_excess = 0;
    for (int i = 0; i < options.processes; i++) servers[i].arrived = 0;
    for (int i = 0; i < options.processes; i++) ringers[i].count = askers[i].count = 0;
}

static void tell_all(Time own, double seconds) {
    printf("%d lines, %d process%s, %d page%s of %d octets each, repeat = %s%s%s\n", options.lines, options.processes,
           options.processes > 1 ? "es" : "", options.pages, options.pages == 1 ? "" : "s", page_length, options.repeat,
           has_spool() ? ", a spool" : "", *options.hostile ? ", hostile callers" : "");
    tell_machines(own, seconds);
    tell_time();
    tell_memory();
    tell_turns();
    tell_waits("rings", ringers);
    tell_waits("status, metrics", askers);
    tell_counts();
    tell_spool();
    if (attackers > 0) tell_attack();
    judge_lines();
    fflush(stdout);
}

static void read_words(int count, char **words) {
    options.faxgate = words[1];
    options.lines = count > 2 ? atoi(words[2]) : 0;
    for (int i = 3; i < count; i++) read_option(words[i]);
    if (options.both && options.pages < 2) options.pages = 2;
    if (options.waiting || options.hostile[0]) options.pages = options.pages > 0 ? options.pages : 1;
    if (options.processes < 1 || options.processes > MOST_PROCESSES || options.lines % options.processes != 0
        || options.lines / options.processes < 1 || options.lines / options.processes > MOST_LINES
        || options.net < 1 || options.net + options.processes > 255 || options.waiting % options.lines != 0
        || (options.waiting && options.processes > 1) || (options.stays && !has_spool())) {
        fprintf(stderr, "usage: load FAXGATE LINES [KEY=VALUE ..]\n");
        exit(2);
    }
    read_kind();
}

static void write_scripts(void) {
    if (options.pages == 0) return;
    page_length = read_pages(1, page, MOST_PAGE);
    add_pages(&calling_script, 1);
    add_pages(&waiting_script, options.waiting ? options.waiting / options.lines : options.stays ? options.stays : 1);
    write_called_script();
    if (attackers > 0) write_hostile_scripts();
    call_time = (int64_t)(options.waiting ? waiting_script.count : calling_script.count) * PACKET_MS * MS;
}

static void end_in_time(void) {
    signal(SIGALRM, end_late);
    signal(SIGINT, end_late);
    signal(SIGTERM, end_late);
    signal(SIGPIPE, SIG_IGN);
    alarm((unsigned)options.limit);
}

/* Lines that send pages, or that are idle. */
static int load_lines(void) {
    make_lines(options.lines);
    open_all(1);
    int64_t begun = now();
    Time before = time_of(getpid());
    run();
    Time own = time_of(getpid());
    own.user -= before.user, own.system -= before.system;
    double seconds = (double)(now() - begun) / 1e9;
    for (int i = 0; i < options.processes; i++) note_end(&servers[i]);
    say_to_all("metrics\n");
    tell_all(own, seconds);
    stop_all();
    return options.pages > 0 && (failed || differing || whole != callers_wanted * options.pages);
}

/* A server ends as by a crash while pages wait, and starts again. */
static void start_again(void) {
    kill_all();
    int64_t begun = now();
    start(&servers[0]);
    connect_when_open(&askers[0], &servers[0]);
    say(&askers[0], "status\n");
    double seconds = (double)(now() - begun) / 1e9;
    judge_start(seconds, most_memory_of(&servers[0]));
    say(&askers[0], "metrics\n");
    want("each page waits there", count_of("faxgate_pages_stored") == options.waiting, "see pages_stored of metrics");
}

/* Pages that wait, since nobody is asked where they are to go. */
static int load_waiting(void) {
    open_all(0);
    printf("%d lines, %d pages of %d octets that wait%s\n", options.lines, options.waiting, page_length,
           has_spool() ? ", a spool" : "");
    leave_pages(options.lines);
    note_end(&servers[0]);
    judge_waiting();
    if (has_spool()) start_again();
    return failed > 0;
}

/* Pages of lines that are in the configuration no more lie in the spool. */
static void leave_behind(void) {
    int pages = options.pages;
    letter = 'g';
    options.pages = 1;
    open_all(0);
    leave_pages(1);
    kill_all();
    forget_calls();
    options.pages = pages;
    letter = 'l';
}

int main(int count, char **words) {
    if (count > 2 && !strcmp(words[2], "table")) return run_rows(words[0], words[1], count - 3, words + 3);
    read_words(count, words);
    end_in_time();
    write_scripts();
    prepare_all();
    stay_on_core(0);
    take_priority(0);
    if (options.stays) leave_behind();
    int is_wrong = options.waiting ? load_waiting() : load_lines();
    tell_keeper();
    if (bars_met + bars_missed > 0) printf("  %d met, %d missed\n", bars_met, bars_missed);
    return is_wrong ? 1 : bars_missed ? BAR_MISSED : 0;
}
