/* The machines of `load`: what each does at what it hears. */
#pragma once
#include "script.h"
#include "server.h"
#include <stdatomic.h>

enum { QUIET, RUNG, TALKS, STOPPED, ATTACKS };

/* A machine in a call: what it sends next and when, which datagram it wants next, and which frame it heard last. */
typedef struct {
    _Atomic int state;
    int place, wanted, awaits, heard;
    int64_t due;
} Machine;

/* A line's two machines, and what the called one has of an image. */
typedef struct {
    Machine calling, called;
    int calls, octets, is_same, is_zero, is_checked;
    _Atomic int is_wanted; /* it is to be rung, from this moment on */
    _Atomic int64_t from;
    int64_t began, image_from, image_to, commanded;
    int is_hostile, told; /* its caller is hostile, and what that was told last: MCF, RTN or DCN */
} Line;

static Line *lines;
static atomic_int lines_in_call, lines_on_both_legs, calls_begun, calls_over, failed;
static int confirmed, whole, differing, lost;
static int64_t latest_send, last_active;
static int64_t sends, sends_late, image_time, images, confirming_time, longest_confirming;
static const Script *page_script = &calling_script; /* what honest callers send */
static int callers_wanted;                          /* how many those are */

/* The pause before an answer: 75 ms and more, and unlike from line to line, so that turns and machines do not keep step. */
static int64_t pause_of(const Line *line) {
    return (75 + (line - lines) * 7 % TURN_MS) * MS;
}

static void go_on(Machine *machine, int64_t moment) {
    machine->awaits = machine->heard = NOTHING;
    machine->due = moment;
}

/* A machine hears a frame, or that a training check ends. */
static void hear(Line *line, Machine *machine, int what, int64_t moment) {
    machine->heard = what;
    if (machine->awaits != NOTHING && machine->awaits == what) go_on(machine, moment + pause_of(line));
}

static void begin(Line *line, Machine *machine, int64_t moment) {
    machine->state = TALKS;
    machine->place = 0;
    machine->due = moment;
    machine->awaits = machine->heard = NOTHING;
    if (machine == &line->calling) line->began = moment;
}

static void end_call(Line *line, int has_failed, int64_t moment) {
    Machine *machine = &line->calling;
    machine->state = STOPPED;
    machine->due = NEVER;
    failed += has_failed;
    calls_over++;
    if (!has_failed && ++line->calls < options.pages) {
        machine->state = QUIET;
        line->from = moment + SECOND;
        line->is_wanted = 1;
    } else if (has_failed) calls_over += options.pages - line->calls - 1;
}

static void note_confirmed(const Line *line, int64_t moment) {
    int64_t took = moment - line->commanded;
    confirmed++;
    confirming_time += took;
    longest_confirming = took > longest_confirming ? took : longest_confirming;
}

static void hear_caller(Line *line, int what, int64_t moment) {
    if (line->is_hostile && (what == MCF || what == RTN || what == DCN)) {
        if (line->told == 0) line->told = what;
        return;
    }
    if (what == MCF && line->calling.awaits == MCF) note_confirmed(line, moment);
    if (what == RTN || what == DCN) end_call(line, 1, moment);
    else hear(line, &line->calling, what, moment);
}

/* A part of a high-speed signal: of the training check, and after the CFR of the page. */
static void hear_part(Line *line, const uint8_t *octets, int count, int is_last, int64_t moment) {
    if (line->is_checked) {
        line->is_same &= line->octets + count <= page_length && !memcmp(page + line->octets, octets, (size_t)count);
        if (line->octets == 0) line->image_from = moment;
        line->image_to = moment;
    } else
        for (int i = 0; i < count; i++) line->is_zero &= octets[i] == 0;
    line->octets += count;
    if (!is_last || line->is_checked) return;
    line->is_checked = line->is_zero && line->octets >= LEAST_CHECK;
    if (line->is_checked) hear(line, &line->called, CHECKED, moment);
}

static void hear_called(Line *line, int what, int64_t moment) {
    if (what == EOP && line->called.awaits == EOP) {
        int is_whole = line->is_same && line->octets == page_length;
        whole += is_whole;
        differing += !is_whole;
        image_time += line->image_to - line->image_from;
        images++;
    }
    if (what == DCS) line->is_checked = 0;
    if (what == DCN) {
        line->called.state = QUIET;
        line->called.due = NEVER;
    }
    hear(line, &line->called, what, moment);
}

/* A packet: an indicator; a frame, which the gateway sends in one packet; or a part of an image. */
static void hear_packet(Line *line, Machine *machine, const uint8_t *packet, int length, int64_t moment) {
    int is_called = machine == &line->called;
    if (length == 1 && packet[0] >= SHORT_TRAINING) line->octets = 0, line->is_same = line->is_zero = 1;
    if (length >= 8 && packet[0] == 0xc0 && packet[2] == 0x80) {
        int what = packet[7] & 0x7f;
        if (is_called) hear_called(line, what, moment);
        else hear_caller(line, what, moment);
    }
    if (length > 5 && packet[0] == 0xd0 && is_called)
        hear_part(line, packet + 5, length - 5, (packet[2] & 0x10) != 0, moment);
}

/* A datagram: the packets that were not heard yet, the oldest first. It answers whether there were any. */
static int hear_datagram(Line *line, Machine *machine, const uint8_t *in, int count, int64_t moment) {
    const uint8_t *packets[REDUNDANCY + 1] = {in + 2};
    int number = in[0] << 8 | in[1], at = 3 + in[2], n = 1;
    if (machine->state != TALKS && machine->state != ATTACKS) {
        if (number != 0 || (machine == &line->calling && machine->state != RUNG)) return 0;
        begin(line, machine, moment);
        machine->wanted = 0;
    }
    if (number < machine->wanted) return 0;
    for (int left = at + 1 < count && in[at] == 0 ? in[at + 1] : 0; left > 0 && n <= REDUNDANCY; left--, n++) {
        packets[n] = n == 1 ? in + at + 2 : packets[n - 1] + packets[n - 1][0] + 1;
        if (packets[n] + packets[n][0] >= in + count) break;
    }
    lost += number - machine->wanted >= n;
    for (int k = n - 1; k >= 0; k--) {
        if (number - k < machine->wanted) continue;
        machine->wanted = number - k + 1;
        hear_packet(line, machine, packets[k] + 1, packets[k][0], moment);
    }
    return 1;
}
