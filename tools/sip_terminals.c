/* The machines of calls over SIP: T.38 terminals of spandsp, a calling and a called one for each call, over UDP on this host and in real
   time. tests/play/sip_terminals.py speaks SIP for them and tells them ports. For `make sip` only; nothing of the product is C.

   usage: sip_terminals CALLS LOST           (how many calls, 1 to 100; how many of 100 datagrams are lost on each path)
          sip_terminals CALLS LOST direct    (the same terminals, each pair joined without a gateway, in no time; what came is told)

   Its picture files are in the folder that it runs in. First it prints, for each call, `ports CALL CALLING CALLED`: those of its two
   machines. A line of its standard input, `call CALL PORT`, begins the call of a calling machine to a port; the called machine begins with
   the first datagram that comes to it, and sends to where that came from. `done CALL CONFIRMED` tells that a calling machine is over, and
   how many pages it had confirmed. At the end of its standard input the machines have 3 s more; then it prints, for each call, `page CALL
   GOT DIFFER CONFIRMED STUCK LACKING`: how many pages the called machine got, how many of them are not the page that was sent, element for
   element, how many the calling one had confirmed, whether a terminal sent packets for ever (see docs/INTEROP.md), and how many packets came
   to nobody, since the datagram of each and those after it that have it too were lost. */
#include "terminals.h"
#include <arpa/inet.h>
#include <errno.h>
#include <fcntl.h>
#include <netinet/in.h>
#include <setjmp.h>
#include <sys/socket.h>
#include <time.h>

enum {
    MOST_CALLS = 100,
    STEP_MS = 20,
    SAMPLES_A_STEP = 8 * STEP_MS,
    MOST_STEPS = 900 * 1000 / STEP_MS,
    STEPS_BEHIND = 3 * 1000 / STEP_MS,
    MOST_PACKETS_A_STEP = 1000,
};

typedef struct {
    Setting setting;
    Page page;
    char sent[32], got[32];
    Peer *calling, *called;
    int calling_socket, called_socket;
    int is_done, is_stuck, steps_behind;
    /* what became of what goes to both machines, and of what they say */
    Path to_calling, to_called, of_calling, of_called;
} Call;

static Call calls[MOST_CALLS];
static int count, lost;

/* ---- terminals over sockets, and over nothing ---- */

/* A terminal that sends empty packets for ever within one step is left then, and told. */
static jmp_buf out_of_the_step;
static int packets_in_step;

static void count_packet(void) {
    if (++packets_in_step > MOST_PACKETS_A_STEP) longjmp(out_of_the_step, 1);
}

static void send_over_socket(Peer *p, const uint8_t *octets, int length) {
    count_packet();
    if (send(*(int *)p->to, octets, (size_t)length, 0) < 0 && errno != ECONNREFUSED) perror("send");
}

static void hand_over(Peer *p, const uint8_t *octets, int length) {
    Peer *other = *(Peer **)p->to;
    count_packet();
    if (other) receive(other, octets, length);
}

static struct sockaddr_in at_port(int port) {
    struct sockaddr_in here = {.sin_family = AF_INET, .sin_port = htons((uint16_t)port)};
    here.sin_addr.s_addr = htonl(INADDR_LOOPBACK);
    return here;
}

static void connect_to(int s, const struct sockaddr_in *there) {
    if (connect(s, (const struct sockaddr *)there, sizeof *there)) fail("connect");
}

/* A socket at a port that is free: its port. */
static int open_socket(int *s) {
    struct sockaddr_in here = at_port(0);
    socklen_t length = sizeof here;
    *s = socket(AF_INET, SOCK_DGRAM | SOCK_NONBLOCK, 0);
    if (*s < 0 || bind(*s, (struct sockaddr *)&here, sizeof here)) fail("socket");
    if (getsockname(*s, (struct sockaddr *)&here, &length)) fail("getsockname");
    return ntohs(here.sin_port);
}

/* Whether a datagram that came is lost, as many of them are. */
static int is_lost(Path *path, const uint8_t *octets, ssize_t length) {
    int it = (int)chance(100) < lost;
    if (length > 2) note(path, (unsigned)(octets[0] << 8 | octets[1]), it);
    return it;
}

/* How many packets of a path came to nobody: those of which the datagram of their own number and the next ones, which have them too, were
   all lost. */
static int packets_lost(const Path *path) {
    int run = 0, count = 0;
    for (int i = 0; i < MOST_NUMBERS; i++) {
        run = path->fate[i] == LOST ? run + 1 : 0;
        count += run > REDUNDANCY;
    }
    return count;
}

/* What comes to a call's called machine; the first datagram begins it. */
static void hear_called(Call *c) {
    uint8_t octets[MOST_OUT];
    struct sockaddr_in from;
    socklen_t size = sizeof from;
    ssize_t length;
    while ((length = recvfrom(c->called_socket, octets, sizeof octets, 0, (struct sockaddr *)&from, &size)) > 0
           || (length < 0 && errno == ECONNREFUSED)) {
        if (length <= 0 || is_lost(&c->to_called, octets, length)) continue;
        if (!c->called) {
            connect_to(c->called_socket, &from);
            c->called = new_peer(&c->setting, NULL, c->got, send_over_socket, &c->called_socket);
            c->called->path = &c->of_called;
        }
        receive(c->called, octets, (int)length);
    }
}

static void hear_calling(Call *c) {
    uint8_t octets[MOST_OUT];
    ssize_t length;
    while ((length = recv(c->calling_socket, octets, sizeof octets, 0)) > 0 || (length < 0 && errno == ECONNREFUSED))
        if (length > 0 && c->calling && !is_lost(&c->to_calling, octets, length)) receive(c->calling, octets, (int)length);
}

static int step(Peer *p) {
    return t38_terminal_send_timeout(p->terminal, SAMPLES_A_STEP) != 0;
}

/* A step of both machines of a call, 20 ms. */
static void step_call(Call *c, int is_direct) {
    packets_in_step = 0;
    if (c->is_stuck) return;
    if (setjmp(out_of_the_step)) {
        c->is_stuck = 1;
        return;
    }
    if (!is_direct) hear_called(c), hear_calling(c);
    if (c->calling) c->is_done |= step(c->calling);
    if (c->called) step(c->called);
}

/* ---- pages ---- */

static void prepare(Call *c, int i) {
    memset(c, 0, sizeof *c);
    c->setting = (Setting){.width = 1728, .fine = i % 2, .two_dimensional = i / 2 % 2, .pages = 1, .lost_percent = lost};
    draw(c->page, c->setting.width);
    snprintf(c->sent, sizeof c->sent, "sent-%d.tif", i);
    snprintf(c->got, sizeof c->got, "got-%d.tif", i);
    unlink(c->got);
    write_tiff(c->sent, &c->setting, &c->page);
}

static int confirmed_by(Call *c) {
    return c->calling ? statistics_of(c->calling).pages_tx : 0;
}

/* What came of a call, which is over. */
static void tell(Call *c, int i) {
    int differ = 0, confirmed = confirmed_by(c);
    end_peer(c->calling);
    end_peer(c->called);
    int got = compare(c->got, &c->setting, &c->page, &differ);
    int lacking = packets_lost(&c->to_calling) + packets_lost(&c->to_called) + packets_lost(&c->of_calling) + packets_lost(&c->of_called);
    printf("page %d %d %d %d %d %d\n", i, got, differ, confirmed, c->is_stuck, lacking);
}

/* ---- pairs without a gateway, which read no clock ---- */

static int is_over(Call *c) {
    return c->is_stuck || (c->is_done && c->steps_behind++ > STEPS_BEHIND);
}

static void play_directly(void) {
    for (int i = 0; i < count; i++) {
        Call *c = &calls[i];
        c->calling = new_peer(&c->setting, c->sent, NULL, hand_over, &c->called);
        c->called = new_peer(&c->setting, NULL, c->got, hand_over, &c->calling);
        c->calling->path = &c->of_calling, c->called->path = &c->of_called;
        for (int steps = 0; steps < MOST_STEPS && !is_over(c); steps++) step_call(c, 1);
    }
}

/* ---- pairs with a gateway between them, in real time ---- */

/* A line of the standard input. */
static void obey(const char *line) {
    int i, port;
    if (sscanf(line, "call %d %d", &i, &port) != 2 || i < 0 || i >= count || calls[i].calling) {
        fprintf(stderr, "sip_terminals: what is %s?\n", line);
        return;
    }
    Call *c = &calls[i];
    struct sockaddr_in there = at_port(port);
    connect_to(c->calling_socket, &there);
    c->calling = new_peer(&c->setting, c->sent, NULL, send_over_socket, &c->calling_socket);
    c->calling->path = &c->of_calling;
}

/* The lines that came. It answers whether there may be more. */
static int hear_words(void) {
    static char text[4096];
    static size_t length;
    ssize_t more = read(0, text + length, sizeof text - length - 1);
    if (more == 0 || (more < 0 && errno != EAGAIN)) return 0;
    if (more < 0) return 1;
    length += (size_t)more;
    text[length] = 0;
    char *line = text, *end;
    for (; (end = strchr(line, '\n')); line = end + 1) {
        *end = 0;
        obey(line);
    }
    length -= (size_t)(line - text);
    memmove(text, line, length);
    return 1;
}

static void wait_for(struct timespec *moment) {
    moment->tv_nsec += STEP_MS * 1000000L;
    if (moment->tv_nsec >= 1000000000L) moment->tv_nsec -= 1000000000L, moment->tv_sec++;
    clock_nanosleep(CLOCK_MONOTONIC, TIMER_ABSTIME, moment, NULL);
}

static void open_ports(void) {
    for (int i = 0; i < count; i++) {
        int calling = open_socket(&calls[i].calling_socket), called = open_socket(&calls[i].called_socket);
        printf("ports %d %d %d\n", i, calling, called);
    }
    fflush(stdout);
}

static void play(void) {
    struct timespec moment;
    int left = STEPS_BEHIND, has_words = 1;
    open_ports();
    fcntl(0, F_SETFL, O_NONBLOCK);
    clock_gettime(CLOCK_MONOTONIC, &moment);
    for (int steps = 0; steps < MOST_STEPS && left > 0; steps++) {
        has_words = has_words && hear_words();
        left -= !has_words;
        for (int i = 0; i < count; i++) {
            int was_over = calls[i].is_done || calls[i].is_stuck;
            step_call(&calls[i], 0);
            if (!was_over && (calls[i].is_done || calls[i].is_stuck)) printf("done %d %d\n", i, confirmed_by(&calls[i]));
        }
        fflush(stdout);
        wait_for(&moment);
    }
}

int main(int words, char **word) {
    int is_direct = words == 4 && !strcmp(word[3], "direct");
    count = words >= 3 ? atoi(word[1]) : 0;
    lost = words >= 3 ? atoi(word[2]) : 0;
    if (words != 3 + is_direct || count < 1 || count > MOST_CALLS || lost < 0 || lost > 99)
        return fprintf(stderr, "usage: sip_terminals CALLS LOST [direct]\n"), 2;
    for (int i = 0; i < count; i++) prepare(&calls[i], i);
    if (is_direct) play_directly();
    else play();
    for (int i = 0; i < count; i++) tell(&calls[i], i);
    return 0;
}
