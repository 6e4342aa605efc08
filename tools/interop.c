/* Plays fax calls between two T.38 terminals of spandsp, a calling and a called one, through `faxgate trace`, in memory
   and without real time, and checks that each page that was confirmed to the caller is the page that the called
   terminal got, element for element. For `make interop` only; nothing of the product is C.

   usage: interop FAXGATE [NUMBER]    (the proved program; that one call alone, whose script is then printed)

   A call is a script that grows: each round of 40 ms the terminals' datagrams are put after it, and a tick. The program
   is run on the whole script, and what it prints more than on the last one is what the gateway gave in this round. */
#include "terminals.h"
#include <sys/wait.h>

enum {
    CALLS = 48,
    ROUND_MS = 40,
    MOST_ROUNDS = 9000,
    SAMPLES_A_ROUND = 8 * ROUND_MS,
};

static const char *faxgate;
static char room[64] = "/tmp/interop-XXXXXX";

/* ---- texts that grow ---- */

typedef struct {
    char *text;
    size_t length, room;
} Text;

static void put(Text *t, const char *octets, size_t count) {
    if (t->length + count + 1 > t->room) {
        t->room = 2 * (t->length + count + 1);
        if (!(t->text = realloc(t->text, t->room))) fail("memory");
    }
    memcpy(t->text + t->length, octets, count);
    t->length += count;
    t->text[t->length] = 0;
}

static void put_line(Text *t, char leg, const uint8_t *octets, int count) {
    char line[2 * MOST_OUT + 4];
    int at = sprintf(line, "%c ", leg);
    for (int i = 0; i < count; i++) at += sprintf(line + at, "%02x", octets[i]);
    line[at++] = '\n';
    put(t, line, (size_t)at);
}

/* A datagram of a terminal is a line of the script. */
static void put_calling(Peer *p, const uint8_t *octets, int count) {
    put_line(p->to, 'A', octets, count);
}

static void put_called(Peer *p, const uint8_t *octets, int count) {
    put_line(p->to, 'B', octets, count);
}

/* ---- the gateway ---- */

/* What `faxgate trace` prints for a script. */
static void run_trace(const Text *script, Text *printed) {
    char path[96], octets[65536];
    int ends[2], status;
    ssize_t count;
    snprintf(path, sizeof path, "%s/script", room);
    FILE *file = fopen(path, "w");
    if (!file || fwrite(script->text, 1, script->length, file) != script->length || fclose(file)) fail(path);
    if (pipe(ends)) fail("pipe");
    pid_t child = fork();
    if (child < 0) fail("fork");
    if (child == 0) {
        if (!freopen(path, "r", stdin) || dup2(ends[1], 1) < 0) _exit(127);
        close(ends[0]);
        close(ends[1]);
        execl(faxgate, faxgate, "trace", (char *)NULL);
        _exit(127);
    }
    close(ends[1]);
    printed->length = 0;
    while ((count = read(ends[0], octets, sizeof octets)) > 0) put(printed, octets, (size_t)count);
    close(ends[0]);
    if (waitpid(child, &status, 0) != child || status != 0) fail("faxgate trace");
}

static void receive_hex(Peer *p, const char *hex, int lost_percent) {
    uint8_t octets[MOST_OUT];
    int count = 0;
    unsigned octet;
    while (count < MOST_OUT && sscanf(hex + 2 * count, "%2x", &octet) == 1) octets[count++] = (uint8_t)octet;
    if ((int)chance(100) >= lost_percent) receive(p, octets, count);
}

typedef struct {
    Setting setting;
    Text script, printed;
    Peer *calling, *called;
    char job[128]; /* the line of the job that ended */
    char sent_path[96], got_path[96];
    int rounds;
} Call;

/* The lines that came in this round. The called terminal answers the first datagram on its leg. */
static void hear(Call *c, size_t from) {
    for (char *line = c->printed.text + from; line && *line;) {
        char *end = strchr(line, '\n');
        if (end) *end = 0;
        if (line[0] == 'b' && !c->called)
            c->called = new_peer(&c->setting, NULL, c->got_path, put_called, &c->script);
        if (line[0] == 'a') receive_hex(c->calling, line + 2, c->setting.lost_percent);
        if (line[0] == 'b') receive_hex(c->called, line + 2, c->setting.lost_percent);
        if (!strncmp(line, "job ", 4)) snprintf(c->job, sizeof c->job, "%s", line);
        line = end ? end + 1 : NULL;
    }
}

/* Rounds of 40 ms, until a job ends and the calling terminal is done, or both have had their time. */
static void play(Call *c) {
    size_t heard = 0;
    char tick[32];
    int done = 0;
    put(&c->script, "R\n", 2);
    for (c->rounds = 0; c->rounds < MOST_ROUNDS && !(done && c->job[0]); c->rounds++) {
        put(&c->script, tick, (size_t)sprintf(tick, "T %d\n", ROUND_MS * c->rounds));
        run_trace(&c->script, &c->printed);
        size_t printed = c->printed.length;
        if (printed > heard) hear(c, heard);
        heard = printed;
        done |= t38_terminal_send_timeout(c->calling->terminal, SAMPLES_A_ROUND) != 0;
        if (c->called) t38_terminal_send_timeout(c->called->terminal, SAMPLES_A_ROUND);
        if (done && !c->called && c->rounds > 2000) break;
    }
    /* the called terminal hears the DCN */
    for (int i = 0; c->called && i < 100; i++) t38_terminal_send_timeout(c->called->terminal, SAMPLES_A_ROUND);
}

/* One call: it prints a line, and counts in what was delivered and in how many pages differ. */
static void call(int number, Setting s, int shows_script, int *delivered, int *differ) {
    static Page pages[MOST_PAGES];
    Call c = {.setting = s};
    int wrong = 0;
    state_of_chance = (uint32_t)number;
    for (int n = 0; n < s.pages; n++) draw(pages[n], s.width);
    snprintf(c.sent_path, sizeof c.sent_path, "%s/sent.tif", room);
    snprintf(c.got_path, sizeof c.got_path, "%s/got.tif", room);
    unlink(c.got_path);
    write_tiff(c.sent_path, &s, pages);
    c.calling = new_peer(&s, c.sent_path, NULL, put_calling, &c.script);
    play(&c);
    int confirmed = statistics_of(c.calling).pages_tx;
    end_peer(c.called);
    int got = compare(c.got_path, &s, pages, &wrong);
    int whole = strstr(c.job, " Delivered") != NULL;
    if (shows_script) fwrite(c.script.text, 1, c.script.length, stdout);
    printf("%d: %s %d %s, %d pages, %d%% lost: confirmed %d, got %d, differ %d, %d s; %s\n", number,
           s.two_dimensional ? "mr" : "mh", s.width, s.fine ? "fine" : "standard", s.pages, s.lost_percent, confirmed, got, wrong,
           c.rounds * ROUND_MS / 1000, c.job[0] ? c.job : "no job");
    fflush(stdout);
    *delivered += whole;
    *differ += wrong + (whole && got < confirmed ? confirmed - got : 0);
    end_peer(c.calling);
    free(c.script.text);
    free(c.printed.text);
}

/* The settings of a call: both codings, two resolutions, three widths, one page and three, none lost and 5 in 100. */
static Setting setting_of(int number) {
    static const int widths[] = {1728, 2048, 2432};
    int k = number - 1;
    return (Setting){.two_dimensional = k % 2,
                     .fine = k / 2 % 2,
                     .width = widths[k / 4 % 3],
                     .pages = k / 12 % 2 ? MOST_PAGES : 1,
                     .lost_percent = k / 24 % 2 ? 5 : 0};
}

static void clear_room(void) {
    static const char *const names[] = {"script", "sent.tif", "got.tif"};
    char path[96];
    for (int i = 0; i < 3; i++) {
        snprintf(path, sizeof path, "%s/%s", room, names[i]);
        unlink(path);
    }
    rmdir(room);
}

int main(int count, char **words) {
    int delivered = 0, differ = 0, first = 1, last = CALLS;
    if (count < 2 || count > 3) return fprintf(stderr, "usage: interop FAXGATE [NUMBER]\n"), 2;
    faxgate = words[1];
    if (count == 3) first = last = atoi(words[2]);
    if (!mkdtemp(room)) fail(room);
    for (int number = first; number <= last; number++)
        call(number, setting_of(number), count == 3, &delivered, &differ);
    clear_room();
    printf("%d calls, %d delivered, %d pages differ\n", last - first + 1, delivered, differ);
    return differ != 0 || delivered == 0;
}
