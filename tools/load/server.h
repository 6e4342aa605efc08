/* The servers that `load` starts and ends, and the words that it says to them. */
#pragma once
#include "notes.h"
#include "options.h"
#include <arpa/inet.h>
#include <dirent.h>
#include <fcntl.h>
#include <netinet/in.h>
#include <signal.h>
#include <sys/mman.h>
#include <sys/prctl.h>
#include <sys/socket.h>
#include <sys/stat.h>
#include <sys/un.h>
#include <sys/wait.h>

enum {
    GATEWAY_PORT = 20000, /* a line has two ports of its process' address */
    CALLERS_PORT = 10000, /* whence all callers of a process send, and the called machines one after it */
    MOST_TOLD = 1 << 20,  /* octets of an answer to a word */
    MOST_WAITS = 20000,
};

/* When a datagram came that had not come before, over the called leg of this line. */
typedef struct {
    int64_t at;
    int line;
} Arrival;

typedef struct {
    pid_t process;
    int lines, first;         /* how many, and the number of the first among all */
    int callers, called;      /* sockets: of all callers, and of all called machines */
    char configuration[64], control[64], events[64], notes_file[64], spool[128];
    Arrival *arrivals;
    size_t arrived, room;
    long memory_at_start, memory_at_most, memory_at_end;
    Notes *notes;             /* where it has the library of preload.c */
} Server;

static Server servers[MOST_PROCESSES];
static char room[] = "/tmp/load-XXXXXX", spools[128];

static int has_spool(void) {
    return *options.spool != 0;
}

/* Whether servers have the library of preload.c. */
static int is_noted(void) {
    return has_spool() || options.sync_ms > 0 || *options.hostile;
}

/* Ends what was started, and clears up; a handler may do so. */
static void end_servers(void) {
    for (int i = 0; i < MOST_PROCESSES; i++)
        if (servers[i].process > 0 && !kill(servers[i].process, SIGKILL)) waitpid(servers[i].process, NULL, 0);
}

static void clear_room(void) {
    pid_t other = _Fork();
    if (other == 0) {
        execlp("rm", "rm", "-rf", room, *spools ? spools : room, (char *)NULL);
        _exit(127);
    }
    if (other > 0) waitpid(other, NULL, 0);
}

static void end_all(void) {
    end_servers();
    clear_room();
}

static void end_late(int signal) {
    static const char why[] = "load: it took too long\n";
    (void)signal;
    end_all();
    if (write(2, why, sizeof why - 1) < 0) _exit(4);
    _exit(3);
}

static uint32_t address_of(const Server *server, int host) {
    return 0x7f000000u | (uint32_t)(options.net + (server - servers)) << 8 | (uint32_t)host;
}

/* The lines are named by a letter and their number. */
static char letter = 'l';

/* Where pages are to wait the called legs have no peers: so no job is sent as long as nobody is asked for one. */
static void write_configuration(const Server *server, int are_called) {
    FILE *file = fopen(server->configuration, "w");
    int net = options.net + (int)(server - servers);
    if (!file) fail(server->configuration);
    fprintf(file, "control = '%s'\nstop_seconds = 5\n", server->control);
    if (has_spool()) fprintf(file, "spool = '%s'\n", server->spool);
    for (int i = 0; i < server->lines; i++) {
        int port = GATEWAY_PORT + 2 * i;
        fprintf(file, "[[lines]]\nname = '%c%d'\nrepeat = '%s'\n", letter, i, options.repeat);
        fprintf(file, "calling = { local = '127.0.%d.1:%d', peer = '127.0.%d.2:%d' }\n", net, port, net, CALLERS_PORT);
        fprintf(file, "called = { local = '127.0.%d.1:%d'", net, port + 1);
        if (are_called) fprintf(file, ", peer = '127.0.%d.2:%d'", net, CALLERS_PORT + 1);
        fprintf(file, " }\n");
    }
    if (fclose(file)) fail(server->configuration);
}

/* ---- the library that servers load before the C library ---- */

static char library[64];

/* Makes it of preload.c, which lies beside this program. */
static void make_library(void) {
    char here[512], command[1400];
    ssize_t length = readlink("/proc/self/exe", here, sizeof here - 1);
    if (length < 0) fail("/proc/self/exe");
    here[length] = 0;
    *strrchr(here, '/') = 0;
    snprintf(library, sizeof library, "%s/preload.so", room);
    snprintf(command, sizeof command, "${CC:-cc} -O2 -shared -fPIC -o '%s' '%s/preload.c' -ldl", library, here);
    if (system(command)) {
        fprintf(stderr, "load: preload.c could not be compiled\n");
        exit(2);
    }
}

/* The file of a server's notes, in this process' memory too. */
static void make_notes(Server *server) {
    int file = open(server->notes_file, O_RDWR | O_CREAT | O_TRUNC | O_CLOEXEC, 0600);
    if (file < 0 || ftruncate(file, sizeof(Notes))) fail(server->notes_file);
    server->notes = mmap(NULL, sizeof(Notes), PROT_READ | PROT_WRITE, MAP_SHARED, file, 0);
    if (server->notes == MAP_FAILED) fail(server->notes_file);
    close(file);
}

static void use_library(const Server *server) {
    char longer[16];
    snprintf(longer, sizeof longer, "%d", options.sync_ms);
    if (setenv("LD_PRELOAD", library, 1) || setenv("LOAD_NOTES", server->notes_file, 1) || setenv("LOAD_SYNC_MS", longer, 1))
        _exit(127);
}

/* Ends all where a library has no effect on the program. */
static void expect_library(const Server *server) {
    if (!is_noted() || server->notes->is_there) return;
    fprintf(stderr, "load: LD_PRELOAD has no effect on %s\n", options.faxgate);
    exit(2);
}

/* A socket of machines. The system notes when each datagram came. */
static int open_socket(const Server *server, int port) {
    int s = socket(AF_INET, SOCK_DGRAM | SOCK_NONBLOCK | SOCK_CLOEXEC, 0), octets = 64 << 20, yes = 1;
    struct sockaddr_in here = {.sin_family = AF_INET, .sin_port = htons((uint16_t)port)};
    here.sin_addr.s_addr = htonl(address_of(server, 2));
    if (s < 0 || bind(s, (struct sockaddr *)&here, sizeof here)) fail("socket");
    setsockopt(s, SOL_SOCKET, SO_RCVBUF, &octets, sizeof octets);
    setsockopt(s, SOL_SOCKET, SO_RCVBUFFORCE, &octets, sizeof octets); /* more than the system's limit, where that may be */
    if (setsockopt(s, SOL_SOCKET, SO_TIMESTAMPNS, &yes, sizeof yes)) fail("SO_TIMESTAMPNS");
    return s;
}

static void start(Server *server) {
    const char *output = *options.hostile ? server->events : "/dev/null";
    fflush(stdout);
    server->process = fork();
    if (server->process < 0) fail("fork");
    if (server->process > 0) return;
    prctl(PR_SET_PDEATHSIG, SIGKILL);
    stay_on_core(1 + (int)(server - servers));
    take_priority(0);
    if (is_noted()) use_library(server);
    if (!freopen("/dev/null", "r", stdin) || !freopen(output, "w", stdout)) _exit(127);
    execl(options.faxgate, options.faxgate, "serve", "--config", server->configuration, (char *)NULL);
    _exit(127);
}

/* What lies in the temporary folder, and sockets; once for each server. */
static void prepare_server(Server *server, int first, int lines) {
    int number = (int)(server - servers);
    server->first = first;
    server->lines = lines;
    snprintf(server->configuration, sizeof server->configuration, "%s/%d.toml", room, number);
    snprintf(server->control, sizeof server->control, "%s/%d.sock", room, number);
    snprintf(server->events, sizeof server->events, "%s/%d.events", room, number);
    snprintf(server->notes_file, sizeof server->notes_file, "%s/%d.notes", room, number);
    if (snprintf(server->spool, sizeof server->spool, "%s/%d", spools, number) >= (int)sizeof server->spool) fail("spool=");
    if (has_spool() && mkdir(server->spool, 0700)) fail(server->spool);
    if (is_noted()) make_notes(server);
    server->room = (size_t)lines * (size_t)options.pages * (size_t)(calling_script.count + 100);
    if (server->room && !(server->arrivals = calloc(server->room, sizeof *server->arrivals))) fail("memory");
    server->callers = open_socket(server, CALLERS_PORT);
    server->called = open_socket(server, CALLERS_PORT + 1);
}

/* A folder of folders, one for each server's spool: in the temporary folder, or in the one that was named. */
static void make_spools(void) {
    if (!has_spool()) return;
    if (!strcmp(options.spool, "1")) {
        snprintf(spools, sizeof spools, "%s/spools", room);
        if (mkdir(spools, 0700)) fail(spools);
        return;
    }
    if (snprintf(spools, sizeof spools, "%s/load-XXXXXX", options.spool) >= (int)sizeof spools) fail("spool=");
    if (!mkdtemp(spools)) *spools = 0, fail(options.spool);
}

/* How many kilobytes the files of all spools have. */
static double spool_size(void) {
    char path[512];
    struct stat found;
    double octets = 0;
    for (int i = 0; i < options.processes; i++) {
        DIR *folder = opendir(servers[i].spool);
        for (struct dirent *entry; folder && (entry = readdir(folder));) {
            snprintf(path, sizeof path, "%s/%s", servers[i].spool, entry->d_name);
            if (!stat(path, &found) && S_ISREG(found.st_mode)) octets += (double)found.st_size;
        }
        if (folder) closedir(folder);
    }
    return octets / 1024;
}

/* A line of a process' /proc/PID/status, in kilobytes. */
static long status_of(const Server *server, const char *form) {
    char path[64], line[256];
    long kilobytes = 0;
    snprintf(path, sizeof path, "/proc/%d/status", server->process);
    FILE *file = fopen(path, "r");
    while (file && fgets(line, sizeof line, file))
        if (sscanf(line, form, &kilobytes) == 1) break;
    if (file) fclose(file);
    return kilobytes;
}

/* Resident memory in kilobytes, now and at most since it was looked at anew; and processor time in seconds. */
static long memory_of(const Server *server) {
    return status_of(server, "VmRSS: %ld");
}

static long most_memory_of(const Server *server) {
    return status_of(server, "VmHWM: %ld");
}

static void look_at_memory_anew(const Server *server) {
    char path[64];
    snprintf(path, sizeof path, "/proc/%d/clear_refs", server->process);
    int file = open(path, O_WRONLY | O_CLOEXEC);
    if (file >= 0 && write(file, "5", 1) < 0) perror(path);
    if (file >= 0) close(file);
}

/* Processor time in nanoseconds. */
static int64_t reckoned_by(const Server *server) {
    clockid_t clock;
    return clock_getcpuclockid(server->process, &clock) ? 0 : now_of(clock);
}

typedef struct {
    double user, system;
} Time;

static Time time_of(pid_t process) {
    char path[64];
    unsigned long user = 0, system = 0;
    snprintf(path, sizeof path, "/proc/%d/stat", process);
    FILE *file = fopen(path, "r");
    const char *form = "%*d %*s %*c %*d %*d %*d %*d %*d %*u %*u %*u %*u %*u %lu %lu";
    if (file && fscanf(file, form, &user, &system) != 2) user = system = 0;
    if (file) fclose(file);
    double ticks = (double)sysconf(_SC_CLK_TCK);
    return (Time){(double)user / ticks, (double)system / ticks};
}

static Time time_of_all(void) {
    Time sum = {0, 0};
    for (int i = 0; i < options.processes; i++) {
        Time t = time_of(servers[i].process);
        sum.user += t.user;
        sum.system += t.system;
    }
    return sum;
}

/* ---- control words ---- */

/* A client of a control socket, what was told last, and how long each answer took. */
typedef struct {
    int socket;
    char told[MOST_TOLD];
    int64_t waits[MOST_WAITS];
    int count;
} Client;

/* It answers 0 until the server listens. */
static int connect_client(Client *client, const Server *server) {
    struct sockaddr_un there = {.sun_family = AF_UNIX};
    struct timeval most = {.tv_sec = 30};
    snprintf(there.sun_path, sizeof there.sun_path, "%s", server->control);
    client->socket = socket(AF_UNIX, SOCK_STREAM | SOCK_CLOEXEC, 0);
    if (client->socket < 0) fail("socket");
    setsockopt(client->socket, SOL_SOCKET, SO_RCVTIMEO, &most, sizeof most);
    if (!connect(client->socket, (struct sockaddr *)&there, sizeof there)) return 1;
    close(client->socket);
    return 0;
}

static int ends_with(const char *text, size_t length, const char *end) {
    size_t count = strlen(end);
    return length >= count && !memcmp(text + length - count, end, count);
}

/* Whether an answer has come: its last line is `ok`, `ok CALL`, `refused ..` or `# EOF`. */
static int is_answer(const char *text, size_t length) {
    if (length == 0 || text[length - 1] != '\n') return 0;
    const char *last = memrchr(text, '\n', length - 1);
    last = last ? last + 1 : text;
    return !strncmp(last, "ok", 2) || !strncmp(last, "refused", 7) || ends_with(text, length, "# EOF\n");
}

/* Says a word and waits for its answer. */
static const char *say(Client *client, const char *word) {
    size_t length = 0;
    int64_t said = now();
    if (write(client->socket, word, strlen(word)) < 0) fail("control socket");
    while (!is_answer(client->told, length)) {
        ssize_t count = read(client->socket, client->told + length, sizeof client->told - 1 - length);
        if (count <= 0) fail("control socket");
        length += (size_t)count;
    }
    client->told[length] = 0;
    if (client->count < MOST_WAITS) client->waits[client->count++] = now() - said;
    return client->told;
}

static Client ringers[MOST_PROCESSES], askers[MOST_PROCESSES], conductor;

/* A count of `metrics`. */
static long long told_count(const Client *client, const char *name) {
    const char *at = client->told;
    while ((at = strstr(at, name)) && (at[-1] != '\n' || at[strlen(name)] != ' ')) at++;
    return at ? atoll(at + strlen(name)) : 0;
}

/* The same of all processes. */
static long long count_of(const char *name) {
    long long sum = 0;
    for (int i = 0; i < options.processes; i++) sum += told_count(&askers[i], name);
    return sum;
}
