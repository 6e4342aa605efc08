/* Plays fax calls between live terminals of spandsp through `faxgate serve`, over UDP on this host and in real time, and
   checks that each page that the called terminal got is the page that was sent, element for element. For `make
   serve-interop` only; nothing of the product is C.

   usage: serve_interop FAXGATE [CALLS [KIND]]    (the proved program; how many calls of each kind, 40 if it is not said;
   the kinds whose names begin so, all of them if it is not said)

   The calls of one kind are played at once, each on a line of its own. Datagrams are lost at random on each of the four
   paths. Beside each loss stands what two terminals come to that are joined without a gateway. */
#include "terminals.h"
#include <arpa/inet.h>
#include <errno.h>
#include <fcntl.h>
#include <netinet/in.h>
#include <setjmp.h>
#include <signal.h>
#include <sys/socket.h>
#include <sys/wait.h>
#include <time.h>

enum {
    MOST_CALLS = 100,
    FIRST_PORT = 42000,
    STEP_MS = 20,
    SAMPLES_A_STEP = 8 * STEP_MS,
    MOST_STEPS = 300 * 1000 / STEP_MS,
    STEPS_BEHIND = 3 * 1000 / STEP_MS,
    STEPS_TO_A_HANGUP = 1000 / STEP_MS,
    MOST_PACKETS_A_STEP = 1000,
};

/* What is played: who is called, what is lost, and when callers hang up. */
typedef struct {
    const char *name;
    int lost_percent, is_direct, has_modem, hangs_up;
} Kind;

typedef struct {
    Setting setting;
    Page pages[MOST_PAGES];
    char sent[96], got[96];
    Peer *calling, *called;
    int calling_socket, called_socket;
    int pages_stored, has_hung_up, is_ended, jobs, delivered, is_done, is_stuck, steps, steps_behind;
} Line;

static const char *faxgate;
static int shows_events;
static char room[64] = "/tmp/serve-interop-XXXXXX";
static Line lines[MOST_CALLS];

/* ---- terminals over sockets, and over nothing ---- */

/* Now and then a terminal of spandsp sends empty packets for ever within one step: it is left then, and counted. */
static jmp_buf out_of_the_step;
static int packets_in_step;

static void count_packet(void) {
    if (++packets_in_step > MOST_PACKETS_A_STEP) longjmp(out_of_the_step, 1);
}

static void send_over_socket(Peer *p, const uint8_t *octets, int count) {
    int socket = *(int *)p->to;
    count_packet();
    if (send(socket, octets, (size_t)count, 0) < 0 && errno != ECONNREFUSED) perror("send");
}

static void hand_over(Peer *p, const uint8_t *octets, int count) {
    Peer *other = *(Peer **)p->to;
    count_packet();
    if (other) receive(other, octets, count);
}

static int open_socket(int port, int peer) {
    int s = socket(AF_INET, SOCK_DGRAM | SOCK_NONBLOCK, 0);
    struct sockaddr_in here = {.sin_family = AF_INET, .sin_port = htons((uint16_t)port)}, there = here;
    here.sin_addr.s_addr = there.sin_addr.s_addr = htonl(INADDR_LOOPBACK);
    there.sin_port = htons((uint16_t)peer);
    if (s < 0 || bind(s, (struct sockaddr *)&here, sizeof here) || connect(s, (struct sockaddr *)&there, sizeof there))
        fail("socket");
    return s;
}

static void hear_socket(int s, Peer *p, int lost_percent) {
    uint8_t octets[MOST_OUT];
    ssize_t count;
    while ((count = recv(s, octets, sizeof octets, 0)) > 0 || (count < 0 && errno == ECONNREFUSED))
        if (count > 0 && p && (int)chance(100) >= lost_percent) receive(p, octets, (int)count);
}

/* A media gateway, and after it a fax machine on a telephone line. */
static Peer *new_modem_peer(const Setting *s, const char *gets, void (*emit)(Peer *, const uint8_t *, int), void *to) {
    Peer *p = new_peer_of(s->lost_percent, emit, to);
    p->gateway = t38_gateway_init(NULL, send_packet, p);
    p->core = t38_gateway_get_t38_core_state(p->gateway);
    t38_gateway_set_transmit_on_idle(p->gateway, 1);
    t38_gateway_set_ecm_capability(p->gateway, 0);
    p->machine = fax_init(NULL, 0);
    fax_set_transmit_on_idle(p->machine, 1);
    p->t30 = fax_get_t30_state(p->machine);
    set_up(p, s, NULL, gets);
    return p;
}

/* A step of 20 ms. It answers whether the terminal is done. */
static int step(Peer *p) {
    int16_t samples[SAMPLES_A_STEP];
    if (p->terminal) return t38_terminal_send_timeout(p->terminal, SAMPLES_A_STEP) != 0;
    memset(samples, 0, sizeof samples);
    fax_tx(p->machine, samples, SAMPLES_A_STEP);
    t38_gateway_rx(p->gateway, samples, SAMPLES_A_STEP);
    memset(samples, 0, sizeof samples);
    t38_gateway_tx(p->gateway, samples, SAMPLES_A_STEP);
    fax_rx(p->machine, samples, SAMPLES_A_STEP);
    return 0;
}

/* ---- the server ---- */

typedef struct {
    pid_t process;
    int words, told;
    char text[65536];
    size_t length;
} Server;

static void write_configuration(const char *path, const Kind *kind, int count) {
    FILE *file = fopen(path, "w");
    if (!file) fail(path);
    for (int i = 0; i < count; i++) {
        int port = FIRST_PORT + 4 * i;
        fprintf(file, "[[lines]]\nname = 'l%d'\npreamble_ms = %d\n", i, kind->has_modem ? 1000 : 40);
        fprintf(file, "calling = { local = '127.0.0.1:%d', peer = '127.0.0.1:%d' }\n", port, port + 1);
        fprintf(file, "called = { local = '127.0.0.1:%d', peer = '127.0.0.1:%d' }\n", port + 2, port + 3);
    }
    if (fclose(file)) fail(path);
}

static void start(Server *server, const char *configuration) {
    int to[2], from[2];
    memset(server, 0, sizeof *server);
    if (pipe(to) || pipe(from)) fail("pipe");
    if ((server->process = fork()) < 0) fail("fork");
    if (server->process == 0) {
        if (dup2(to[0], 0) < 0 || dup2(from[1], 1) < 0) _exit(127);
        close(to[1]), close(from[0]);
        execl(faxgate, faxgate, "serve", "--config", configuration, (char *)NULL);
        _exit(127);
    }
    close(to[0]), close(from[1]);
    server->words = to[1];
    server->told = from[0];
    fcntl(server->told, F_SETFL, O_NONBLOCK);
}

static void stop(Server *server) {
    int status;
    dprintf(server->words, "stop\nstop\n");
    close(server->words);
    if (waitpid(server->process, &status, 0) != server->process || status != 0) fprintf(stderr, "faxgate serve: status %d\n", status);
    close(server->told);
}

static void obey(const Kind *kind, const char *event) {
    const char *name = strstr(event, "\"line\":\"l");
    int i = name ? atoi(name + 9) : -1;
    if (i < 0 || i >= MOST_CALLS) return;
    Line *l = &lines[i];
    if (strstr(event, "\"event\":\"dial\"") && !l->called)
        l->called = kind->has_modem ? new_modem_peer(&l->setting, l->got, send_over_socket, &l->called_socket)
                                    : new_peer(&l->setting, NULL, l->got, send_over_socket, &l->called_socket);
    l->pages_stored += strstr(event, "\"event\":\"page\"") != NULL;
    l->is_ended |= strstr(event, "\"event\":\"ended\"") != NULL;
    if (strstr(event, "\"event\":\"job\"")) {
        l->jobs++;
        l->delivered += strstr(event, "\"outcome\":\"Delivered\"") != NULL;
    }
}

/* The events that came, each a line. */
static void hear_events(Server *server, const Kind *kind) {
    ssize_t count = read(server->told, server->text + server->length, sizeof server->text - server->length - 1);
    if (count <= 0) return;
    server->length += (size_t)count;
    server->text[server->length] = 0;
    char *line = server->text, *end;
    for (; (end = strchr(line, '\n')); line = end + 1) {
        *end = 0;
        if (shows_events) fprintf(stderr, "%s\n", line);
        obey(kind, line);
    }
    server->length -= (size_t)(line - server->text);
    memmove(server->text, line, server->length);
}

/* ---- calls ---- */

static void prepare(Line *l, int i, const Kind *kind) {
    memset(l, 0, sizeof *l);
    l->setting = (Setting){.width = 1728, .fine = i % 2, .two_dimensional = i / 2 % 2, .pages = MOST_PAGES,
                           .lost_percent = kind->lost_percent};
    for (int n = 0; n < MOST_PAGES; n++) draw(l->pages[n], l->setting.width);
    snprintf(l->sent, sizeof l->sent, "%s/sent-%d.tif", room, i);
    snprintf(l->got, sizeof l->got, "%s/got-%d.tif", room, i);
    unlink(l->got);
    write_tiff(l->sent, &l->setting, l->pages);
}

/* The caller of a line hangs up a second after its first page, in the middle of the second. */
static void may_hang_up(Line *l, int i, Server *server) {
    if (l->has_hung_up || l->pages_stored == 0 || ++l->steps < STEPS_TO_A_HANGUP) return;
    l->has_hung_up = 1;
    dprintf(server->words, "hangup l%d calling\n", i);
}

/* A step of the terminals of a line. */
static void step_line(Line *l, const Kind *kind) {
    packets_in_step = 0;
    if (l->is_stuck) return;
    if (setjmp(out_of_the_step)) {
        l->is_stuck = 1;
        return;
    }
    if (!kind->is_direct) {
        hear_socket(l->calling_socket, l->has_hung_up ? NULL : l->calling, kind->lost_percent);
        hear_socket(l->called_socket, l->called, kind->lost_percent);
    }
    if (!l->has_hung_up) l->is_done |= step(l->calling);
    if (l->called) step(l->called);
}

/* Whether a line is over: its job has ended, and the called terminal has heard of it. */
static int is_over(Line *l, const Kind *kind) {
    int is_ended = l->is_stuck || (kind->is_direct ? l->is_done : l->jobs > 0 && l->is_ended);
    return is_ended && l->steps_behind++ > STEPS_BEHIND;
}

static void wait_for(struct timespec *moment) {
    moment->tv_nsec += STEP_MS * 1000000L;
    if (moment->tv_nsec >= 1000000000L) moment->tv_nsec -= 1000000000L, moment->tv_sec++;
    clock_nanosleep(CLOCK_MONOTONIC, TIMER_ABSTIME, moment, NULL);
}

static void open_line(Line *l, int i, const Kind *kind, Server *server) {
    if (kind->is_direct) {
        l->calling = new_peer(&l->setting, l->sent, NULL, hand_over, &l->called);
        l->called = new_peer(&l->setting, NULL, l->got, hand_over, &l->calling);
        return;
    }
    int port = FIRST_PORT + 4 * i;
    l->calling_socket = open_socket(port + 1, port);
    l->called_socket = open_socket(port + 3, port + 2);
    dprintf(server->words, "ring l%d\n", i);
    l->calling = new_peer(&l->setting, l->sent, NULL, send_over_socket, &l->calling_socket);
}

static void close_line(Line *l, const Kind *kind) {
    end_peer(l->calling);
    end_peer(l->called);
    if (!kind->is_direct) close(l->calling_socket), close(l->called_socket);
}

/* Calls of one kind, all at once; a line of the table. It answers how many pages differ after a gateway. */
static int play(const Kind *kind, int count) {
    static Server server;
    char configuration[96];
    int left = count, whole = 0, delivered = 0, differ = 0, steps = 0, confirmed = 0, got = 0, stuck = 0;
    struct timespec moment;
    snprintf(configuration, sizeof configuration, "%s/serve.toml", room);
    write_configuration(configuration, kind, count);
    for (int i = 0; i < count; i++) prepare(&lines[i], i, kind);
    if (!kind->is_direct) start(&server, configuration);
    for (int i = 0; i < count; i++) open_line(&lines[i], i, kind, &server);
    clock_gettime(CLOCK_MONOTONIC, &moment);
    for (; left > 0 && steps < MOST_STEPS; steps++) {
        left = 0;
        for (int i = 0; i < count; i++) {
            step_line(&lines[i], kind);
            if (kind->hangs_up) may_hang_up(&lines[i], i, &server);
            left += !is_over(&lines[i], kind);
        }
        if (!kind->is_direct) hear_events(&server, kind), wait_for(&moment);
    }
    for (int i = 0; i < count; i++) {
        confirmed += statistics_of(lines[i].calling).pages_tx;
        close_line(&lines[i], kind);
        int wrong = 0, pages = compare(lines[i].got, &lines[i].setting, lines[i].pages, &wrong);
        whole += pages == MOST_PAGES && wrong == 0;
        got += pages;
        differ += wrong;
        delivered += lines[i].delivered;
        stuck += lines[i].is_stuck;
    }
    if (!kind->is_direct) stop(&server);
    printf("%s, %d%% lost: %d calls, %d with all pages right", kind->name, kind->lost_percent, count, whole);
    if (!kind->is_direct) printf(", %d jobs delivered", delivered);
    if (stuck) printf(", %d with a terminal that stuck", stuck);
    printf("; pages: %d sent, %d confirmed, %d got, %d differ; %d s\n", count * MOST_PAGES, confirmed, got, differ,
           steps * STEP_MS / 1000);
    fflush(stdout);
    return kind->is_direct ? 0 : differ;
}

static void clear_room(void) {
    char command[128];
    snprintf(command, sizeof command, "rm -r '%s'", room);
    if (system(command)) perror(room);
}

static const Kind kinds[] = {
    {.name = "direct", .lost_percent = 0, .is_direct = 1},
    {.name = "through faxgate", .lost_percent = 0},
    {.name = "direct", .lost_percent = 5, .is_direct = 1},
    {.name = "through faxgate", .lost_percent = 5},
    {.name = "direct", .lost_percent = 10, .is_direct = 1},
    {.name = "through faxgate", .lost_percent = 10},
    {.name = "direct", .lost_percent = 20, .is_direct = 1},
    {.name = "through faxgate", .lost_percent = 20},
    {.name = "to a media gateway", .lost_percent = 0, .has_modem = 1},
    {.name = "callers that hang up", .lost_percent = 0, .hangs_up = 1},
};

int main(int count, char **words) {
    int differ = 0, calls = count > 2 ? atoi(words[2]) : 40;
    const char *name = count == 4 ? words[3] : "";
    if (count < 2 || count > 4 || calls < 1 || calls > MOST_CALLS)
        return fprintf(stderr, "usage: serve_interop FAXGATE [CALLS [KIND]]\n"), 2;
    faxgate = words[1];
    shows_events = getenv("EVENTS") != NULL;
    signal(SIGPIPE, SIG_IGN);
    if (!mkdtemp(room)) fail(room);
    for (size_t k = 0; k < sizeof kinds / sizeof kinds[0]; k++)
        if (!strncmp(kinds[k].name, name, strlen(name))) differ += play(&kinds[k], calls);
    clear_room();
    return differ != 0;
}
