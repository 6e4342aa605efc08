/* What sockets cost a server of many lines, in nanoseconds of processor time: a receive that answers nothing, what would ask
   many sockets at once in its place, and datagrams that go over the loopback of this host. For `make load` only.

   usage: sockets COUNT    (how many UDP sockets: two a line; an even number from 100 to 8,000) */
#define _GNU_SOURCE
#include <arpa/inet.h>
#include <netinet/in.h>
#include <poll.h>
#include <stdint.h>
#include <stdio.h>
#include <stdlib.h>
#include <sys/epoll.h>
#include <sys/resource.h>
#include <sys/socket.h>
#include <time.h>

enum { MOST = 8000, FIRST_PORT = 20000, PEER_PORT = 10000, CALLS = 1000000, AT_ONCE = 100, OCTETS = 320 };

static int sockets[MOST], count, peer;
static char octets[65536];

static void fail(const char *why) {
    perror(why);
    exit(2);
}

static double now(void) {
    struct timespec t;
    clock_gettime(CLOCK_PROCESS_CPUTIME_ID, &t);
    return (double)t.tv_sec * 1e9 + (double)t.tv_nsec;
}

static struct sockaddr_in address(uint32_t host, int port) {
    struct sockaddr_in a = {.sin_family = AF_INET, .sin_port = htons((uint16_t)port), .sin_addr.s_addr = htonl(host)};
    return a;
}

static int open_socket(uint32_t host, int port) {
    struct sockaddr_in here = address(host, port);
    int s = socket(AF_INET, SOCK_DGRAM | SOCK_NONBLOCK, 0);
    if (s < 0 || bind(s, (struct sockaddr *)&here, sizeof here)) fail("socket");
    return s;
}

static void open_sockets(void) {
    struct sockaddr_in there = address(0x7f006402, PEER_PORT);
    peer = open_socket(0x7f006402, PEER_PORT);
    for (int i = 0; i < count; i++) {
        sockets[i] = open_socket(0x7f006401, FIRST_PORT + i);
        if (connect(sockets[i], (struct sockaddr *)&there, sizeof there)) fail("connect");
    }
}

static void tell(const char *what, double time, long calls) {
    printf("%s: %.0f ns\n", what, time / (double)calls);
}

static void time_nothing(void) {
    double start = now();
    for (int k = 0; k < CALLS; k++) recv(sockets[k % count], octets, sizeof octets, 0);
    tell("a receive that answers nothing", now() - start, CALLS);
}

static void time_poll(void) {
    static struct pollfd asked[MOST];
    for (int i = 0; i < count; i++) asked[i] = (struct pollfd){.fd = sockets[i], .events = POLLIN};
    double start = now();
    for (int k = 0; k < CALLS; k += AT_ONCE) poll(asked + k % (count / AT_ONCE * AT_ONCE), AT_ONCE, 0);
    tell("a poll of 100 sockets, none of which is ready, a socket", now() - start, CALLS);
}

static void time_epoll(void) {
    struct epoll_event ready[AT_ONCE], wanted = {.events = EPOLLIN};
    int all = epoll_create1(0);
    if (all < 0) fail("epoll_create1");
    for (int i = 0; i < count; i++)
        if (epoll_ctl(all, EPOLL_CTL_ADD, sockets[i], &wanted)) fail("epoll_ctl");
    double start = now();
    for (int k = 0; k < CALLS / AT_ONCE; k++) epoll_wait(all, ready, AT_ONCE, 0);
    tell("an epoll_wait over all sockets, none of which is ready", now() - start, CALLS / AT_ONCE);
}

/* Datagrams to the peer and back, a hundred at a time; those that go to the sockets are sent before they are timed. */
static void time_datagrams(void) {
    double sending = 0, receiving = 0;
    for (int k = 0; k < CALLS / 10; k += AT_ONCE) {
        double start = now();
        for (int i = 0; i < AT_ONCE; i++) send(sockets[(k + i) % count], octets, OCTETS, 0);
        sending += now() - start;
        while (recv(peer, octets, sizeof octets, 0) > 0) {}
        for (int i = 0; i < AT_ONCE; i++) {
            struct sockaddr_in to = address(0x7f006401, FIRST_PORT + (k + i) % count);
            sendto(peer, octets, OCTETS, 0, (struct sockaddr *)&to, sizeof to);
        }
        start = now();
        for (int i = 0; i < AT_ONCE; i++) recv(sockets[(k + i) % count], octets, sizeof octets, 0);
        receiving += now() - start;
    }
    tell("a send of 320 octets over loopback", sending, CALLS / 10);
    tell("a receive of 320 octets", receiving, CALLS / 10);
}

int main(int words, char **word) {
    struct rlimit files = {.rlim_cur = MOST + 100, .rlim_max = MOST + 100}, have;
    count = words == 2 ? atoi(word[1]) : 0;
    if (count < AT_ONCE || count > MOST) return fprintf(stderr, "usage: sockets COUNT\n"), 2;
    if (getrlimit(RLIMIT_NOFILE, &have)) fail("ulimit -n");
    if (have.rlim_cur < files.rlim_cur && setrlimit(RLIMIT_NOFILE, &files)) fail("ulimit -n");
    open_sockets();
    printf("%d sockets\n", count);
    time_nothing();
    time_poll();
    time_epoll();
    time_datagrams();
    return 0;
}
