"""Calls that are made: what comes, and what each tick gives (ITU-T T.30, T.38).

Jobs come on the calling leg first, and each is asked for; a call begins where it is placed. Moments are milliseconds after the last
packet that was given, or after the begin of the call; a tick one millisecond before a packet gives nothing.
"""
import contextlib
import unittest
from typing import NamedTuple

import t38
from calls import (
    CALLED_DIS,
    CALLER_DCN,
    CALLER_DCS,
    CALLER_EOP,
    CFR,
    CHECK,
    CNG,
    FINE_DCS,
    FINE_DIS,
    GATEWAY_DIS,
    MCF,
    PAGE,
    PREAMBLE,
    RTN,
    TRAINING,
    image,
)
from scripts import LAST, Script, Scripted

FTT, RTP = "c002800002ffc82240", "c002800002ffc83340"
EOM, MPS, EOP, DCN = "c002800002ffc8f140", "c002800002ffc8f240", CALLER_EOP, CALLER_DCN
DCN_CAME = "c002800002ffc85f40"
# The DIS of a machine: V.27 ter at 2400 bit/s and 20 ms for a line, and with two-dimensional coding, with that and fine pages; one
# of V.27 ter, V.29 and V.17, with two-dimensional coding, fine pages and no time for a line; and one that takes no pages.
DIS, TWO_DIS, FINE_TWO_DIS = CALLED_DIS, "c002800005ffc80100410040", "c002800005ffc80100430040"
FAST_DIS = GATEWAY_DIS
DEAF = "c002800005ffc80100000040"


class Page(NamedTuple):
    """A page as it comes: the DCS and the text of a caller; and its format as it is told."""

    dcs: str
    text: str
    told: str = "1728 standard"


# A black row of 1728 elements, a white one of 2048, and twelve white ones of 1728, by T.4.
BLACK_TEXT = "0013503286e0020020020020020020"
WIDE_TEXT = "00101335001001001001001001"
TWELVE_TEXT = "0014d9a800a6cd4005366a0029b350014d9a800a6cd4005366a0029b350014d9a800a6cd4005366a0029b350010010010010010010"
WIDE_DCS, FINE_AND_WIDE_DCS = "c002800005ffc8c100408040", "c002800005ffc8c100428040"
WHITE, BLACK = Page(CALLER_DCS, PAGE), Page(CALLER_DCS, BLACK_TEXT)
TWELVE = Page(CALLER_DCS, TWELVE_TEXT)
FINE_WHITE, FINE_BLACK = Page(FINE_DCS, PAGE, "1728 fine"), Page(FINE_DCS, BLACK_TEXT, "1728 fine")
WIDE, FINE_AND_WIDE = Page(WIDE_DCS, WIDE_TEXT, "2048 standard"), Page(FINE_AND_WIDE_DCS, WIDE_TEXT, "2048 fine")


class Training(NamedTuple):
    """A training: its DCS, its indicator, and the 37 parts of its training check and the last one, half as long: what stands before
    their zero octets, and how many those are. It has 1.5 s of zeros (T.30, 5.3.6.1.4)."""

    dcs: str
    indicator: str
    part: str
    zeros: int
    last: str


SLOW = Training("c002800005ffc8c100400040", "08", "c201e0000b", 12, "c201f00005")
SLOW_TWO = SLOW._replace(dcs="c002800005ffc8c100410040")
SLOW_FINE = SLOW._replace(dcs="c002800005ffc8c100420040")
# Those that the fast DIS leads to, one after another: V.17 at 14400, 12000, 9600 and 7200 bit/s, V.27 ter at 4800 and 2400.
FAST = Training("c002800005ffc8c100451e40", "1e", "d001e00047", 72, "d001f00023")
SECOND = Training("c002800005ffc8c100551e40", "1a", "ce01e0003b", 60, "ce01f0001d")
THIRD = Training("c002800005ffc8c100651e40", "16", "cc01e0002f", 48, "cc01f00017")
FOURTH = Training("c002800005ffc8c100751e40", "12", "ca01e00023", 36, "ca01f00011")
FIFTH = Training("c002800005ffc8c100511e40", "0a", "c401e00017", 24, "c401f0000b")
SIXTH = Training("c002800005ffc8c100411e40", "08", "c201e0000b", 12, "c201f00005")
FAST_FINE = FAST._replace(dcs="c002800005ffc8c100471e40")

# The packets of pages, up to the preamble of their command. At 2400 bit/s each line has 48 bits at least, which are 20 ms (T.4, 4.1.4).
WHITE_SENT = ("08", "c201e0000b0014d9a80000001001001001", "c201f00002001001", PREAMBLE)
BLACK_SENT = ("08", "c201e0000b0013503286e0001001001001", "c201f00002001001", PREAMBLE)
WHITE_SENT_IN_TWO = ("08", "c201e0000b001a6cd40000000c00600300", "c201f000031800c006", PREAMBLE)
WHITE_SENT_FAST = ("1c", "d001f0000d001a6cd4006003001800c0060030", PREAMBLE)
WHITE_SENT_SECOND = ("18", "ce01f0000d001a6cd4006003001800c0060030", PREAMBLE)
BLACK_SENT_FAST = ("1c", "d001f0000f0019a819437001800c006003001800c0", PREAMBLE)
# Twelve rows in two dimensions have 84 octets, so that the last packet is as long as the others.
TWELVE_SENT = (
    "08",
    "c201e0000b001a6cd40000000a00000000",
    "c201e0000b00069b350000000280000000",
    "c201e0000b0001a6cd40000000a0000000",
    "c201e0000b000069b35000000028000000",
    "c201e0000b00001a6cd40000000a000000",
    "c201e0000b0000069b3500000002800000",
    "c201f0000b000001800c006003001800c0",
    PREAMBLE,
)


def commanded(pages):
    """A call of these pages: each, and the command after it: MPS, EOM where the format changes, and EOP after the last one."""
    after = [MPS if page.dcs == other.dcs else EOM for page, other in zip(pages, pages[1:])]
    return list(zip(pages, [*after, EOP]))


class Leg(Script):
    """The called leg of a gateway, what comes there, and the jobs that go out on it."""

    def __init__(self, jobs=(), calls=None, call_of=None):
        """`jobs`: their pages. `calls`: what comes of each call on the calling leg, a list of pages and of the commands after them;
        `call_of`: the call of each job. Each job has a call of its own where nothing is said."""
        super().__init__()
        self.jobs, self.job, self.ends_here, self.due = list(jobs), None, [], []
        self.call_of = call_of or range(len(self.jobs))
        for call in calls if calls is not None else map(commanded, self.jobs):
            self.call_comes(call)
        # the moment of the last packet, or of the begin of the call after it
        self.last = self.now

    # What comes on the calling leg: a call for each job.

    def ticks(self, count):
        """Time goes on 40 ms by 40 ms. What is told of it is of the calling leg."""
        for _ in range(count):
            self.tick(self.now + 40)

    def call_comes(self, call):
        """A call in which pages come, each with a command after it. It ends with DCN."""
        self.rings_up()
        self.ticks(4)
        dcs, command = None, None
        for page, command in call:
            if page.dcs != dcs:
                self.all_come(page.dcs, TRAINING, CHECK)
                dcs = page.dcs
            self.all_come(TRAINING, image(page.text), PREAMBLE, command)
            if command == EOM:
                # T2, and our DIS
                self.tick(self.now + 6000)
                self.ticks(2)
            if command == EOP:
                self.may_ask()
        self.comes("A", DCN)
        if call:
            self.may_ask()

    def all_come(self, *packets):
        """Datagrams come, and are answered."""
        for packet in packets:
            self.comes("A", packet)
        self.ticks(3)

    def may_ask(self):
        """The call of the first job is asked for, where it was not yet."""
        if self.job is None:
            self.job = 0
            self.told.append(f"asks {self.call_of[0]}")

    # What comes on the called leg.

    def starts(self, after=240):
        """The call of the job is placed, so long after the last packet. Its datagrams are counted from 0."""
        self.last = min(self.last + after, LAST)
        self.lines.append(f"C {self.last}")
        self.now = self.last
        self.comes_next["B"] = self.given["b"] = 0

    def fails_to_start(self):
        """It could not be placed, which the next tick tells."""
        self.lines.append(f"N {self.now}")
        self.is_over("NotPlaced", 0)

    def hears(self, *packets):
        """Datagrams come, with the next numbers."""
        for packet in packets:
            self.comes("B", packet)

    def is_hung_up(self, delivered):
        """DCN comes, and the call is over, which the next tick tells."""
        self.hears(DCN_CAME)
        self.is_over("HungUp", delivered)

    def is_over(self, outcome, delivered):
        """The next tick tells how the job has ended, and that the next one is asked for."""
        pages = self.jobs[self.job]
        self.due.append(f"job {self.call_of[self.job]} {pages[0].told} {len(pages)} {delivered} {outcome}")
        self.job += 1
        if self.job < len(self.jobs):
            self.due.append(f"asks {self.call_of[self.job]}")

    # What is given.

    def ticks_at(self, moment, *told):
        """Time goes on to this moment."""
        self.tick(min(moment, LAST), [*told, *self.due])
        self.due = []

    def quiet(self, *moments):
        """A tick gives nothing so long after the last packet."""
        for after in moments:
            self.ticks_at(self.last + after)

    def overdue(self, after, packet):
        """A tick gives this packet, which was due before."""
        self.last = min(self.last + after, LAST)
        self.ticks_at(self.last, self.gives("b", packet))

    def gives_at(self, after, packet):
        """A tick gives this packet, and one a millisecond before gives nothing."""
        if self.last + after - 1 > self.now:
            self.quiet(after - 1)
        self.overdue(after, packet)

    def gives_all(self, *packets):
        """Ticks give these packets, 40 ms apart."""
        for packet in packets:
            self.gives_at(40, packet)

    def trains(self, training=SLOW, after=40):
        """Ticks give a training, 40 ms apart."""
        self.gives_at(after, PREAMBLE)
        parts = 37 * [training.part + training.zeros * "00"]
        self.gives_all(training.dcs, training.indicator, *parts, training.last + training.zeros // 2 * "00")

    def ends(self, outcome, delivered, after=40):
        """Ticks give DCN after its preamble, and the job has ended so, of which so many pages were delivered."""
        self.gives_at(after, PREAMBLE)
        self.quiet(39)
        self.is_over(outcome, delivered)
        self.overdue(40, DCN)

    def delivered(self, count):
        """So many pages of the job have been delivered: so it tells where the machine hangs up here."""
        ended = self.fork()
        ended.is_hung_up(count)
        ended.quiet(ended.now - ended.last)
        self.ends_here.append(ended)

    def fork(self):
        """The same so far."""
        other = Leg.__new__(Leg)
        other.__dict__.update(self.copy().__dict__)
        other.jobs, other.job, other.call_of, other.last = self.jobs, self.job, self.call_of, self.last
        other.ends_here, other.due = [], list(self.due)
        return other

    # What calls have in common.

    def begins(self, after=240):
        """A call begins with CNG."""
        self.starts(after)
        self.gives_at(0, CNG)

    def is_trained(self, dis=DIS, training=SLOW):
        """The DIS comes, and CFR after the training."""
        self.hears(dis)
        self.trains(training)
        self.hears(CFR)

    def white_call(self, after=240):
        """A whole call, of one white page."""
        self.begins(after)
        self.is_trained()
        self.gives_all(*WHITE_SENT, EOP)
        self.hears(MCF)
        self.ends("Delivered", 1)


class Sent(Scripted):
    """Plays of a called leg."""

    @contextlib.contextmanager
    def leg(self, *jobs):
        """A new leg with these jobs, each a list of pages; in the end it is played, and fails unless just what is told comes."""
        leg = Leg(jobs)
        yield leg
        self.check(leg)

    def check(self, leg):
        for each in (leg, *leg.ends_here):
            self.check_trace(each, passed_over="a ")


class APageGoesOut(Sent):
    def test_alone(self):
        with self.leg([WHITE]) as leg:
            leg.white_call()
            leg.quiet(40, 100_000)

    def test_its_last_packet_comes_1920_ms_after_the_begin(self):
        with self.leg([WHITE]) as leg:
            leg.white_call()
            self.assertEqual(leg.last - int(leg.lines[[line[0] for line in leg.lines].index("C")][2:]), 1920)

    def goes_out(self, page, dis, dcs, sent):
        """The page is sent under that DCS to a machine that says this DIS, in these packets, and confirmed."""
        with self.leg([page]) as leg:
            leg.begins()
            leg.is_trained(dis, dcs)
            leg.gives_all(*sent, EOP)
            leg.hears(MCF)
            leg.ends("Delivered", 1)

    def test_in_two_dimensions(self):
        self.goes_out(WHITE, FAST_DIS, FAST, WHITE_SENT_FAST)

    def test_whose_last_packet_is_a_whole_one(self):
        self.goes_out(TWELVE, TWO_DIS, SLOW_TWO, TWELVE_SENT)

    def test_after_another_one(self):
        with self.leg([WHITE, BLACK]) as leg:
            leg.begins()
            leg.is_trained()
            leg.gives_all(*WHITE_SENT, MPS)
            leg.delivered(0)
            leg.hears(MCF)
            leg.gives_all(*BLACK_SENT, EOP)
            leg.delivered(1)
            leg.hears(MCF)
            leg.ends("Delivered", 2)

    def test_after_one_that_is_answered_rtp(self):
        """It trains again."""
        with self.leg([WHITE, BLACK]) as leg:
            leg.begins()
            leg.is_trained()
            leg.gives_all(*WHITE_SENT, MPS)
            leg.hears(RTP)
            leg.trains()
            leg.delivered(1)
            leg.hears(CFR)
            leg.gives_all(*BLACK_SENT, EOP)
            leg.hears(RTP)
            leg.ends("Delivered", 2)

    def test_and_is_refused(self):
        """It is sent again after a training, and refused for the third time; the call of the next job is as the first one."""
        with self.leg([WHITE], [WHITE]) as leg:
            leg.begins()
            leg.is_trained()
            leg.gives_all(*WHITE_SENT, EOP)
            for _ in range(2):
                leg.hears(RTN)
                leg.trains()
                leg.hears(CFR)
                leg.gives_all(*WHITE_SENT, EOP)
            leg.hears(RTN)
            leg.ends("PageRefused", 0)
            leg.begins(after=40)
            leg.is_trained()
            leg.gives_all(*WHITE_SENT)

    def test_and_answers_come_while_packets_wait(self):
        """They are not heard."""
        with self.leg([WHITE]) as leg:
            leg.starts()
            leg.hears(DCN_CAME, DIS)
            leg.gives_at(0, CNG)
            leg.hears(DIS, CFR, FTT)
            leg.trains()
            leg.hears(CFR)
            leg.gives_all("08")
            leg.hears(MCF, DCN_CAME)
            leg.gives_all(WHITE_SENT[1])
            leg.hears(DCN_CAME)
            leg.gives_all(WHITE_SENT[2])
            leg.hears(RTN)
            leg.gives_all(PREAMBLE)
            leg.hears(MCF)
            leg.gives_all(EOP)
            leg.hears(MCF)
            leg.ends("Delivered", 1)

    def test_and_is_confirmed_twice(self):
        """A datagram has MCF in its own slot and in the one before: both confirm the one page."""
        with self.leg([WHITE, BLACK]) as leg:
            leg.begins()
            leg.is_trained()
            leg.gives_all(*WHITE_SENT, MPS)
            leg.octets_come("B", t38.datagram(3, 2 * [bytes.fromhex(MCF)]))
            leg.comes_next["B"] = 4
            leg.gives_all(*BLACK_SENT, EOP)
            leg.delivered(1)
            leg.quiet(40)
            leg.hears(MCF)
            leg.ends("Delivered", 2, after=41)

    def test_after_a_call_that_could_not_be_placed(self):
        """Nothing is given of that one, and nothing that comes is heard."""
        with self.leg([WHITE], [WHITE], [WHITE]) as leg:
            leg.white_call()
            leg.fails_to_start()
            leg.quiet(40)
            leg.hears(DIS)
            leg.quiet(100)
            leg.white_call()


class CalledMachinesLack(Sent):
    def is_lacking(self, page, dis, outcome):
        with self.leg([page]) as leg:
            leg.begins()
            leg.hears(dis)
            leg.ends(outcome, 0)
            leg.quiet(40)

    def test_fine_pages(self):
        self.is_lacking(FINE_WHITE, DIS, "FineLacking")

    def test_wide_pages(self):
        self.is_lacking(WIDE, DIS, "WidthLacking")

    def test_wide_and_fine_pages(self):
        self.is_lacking(FINE_AND_WIDE, DIS, "WidthLacking")

    def test_pages(self):
        self.is_lacking(WHITE, DEAF, "NotReceiver")

    def test_each_rate(self):
        with self.leg([WHITE]) as leg:
            leg.begins()
            leg.hears(FAST_DIS)
            for training in (FAST, SECOND, THIRD, FOURTH, FIFTH, SIXTH):
                leg.trains(training)
                leg.hears(FTT)
            leg.ends("RatesSpent", 0)


class FormatsChange(Sent):
    @contextlib.contextmanager
    def turned(self, *after, dis=FINE_DIS, training=SLOW, sent=WHITE_SENT):
        """A call whose first page is a standard white one, which is confirmed after EOM: a DIS is awaited."""
        with self.leg([WHITE, *after]) as leg:
            leg.begins()
            leg.is_trained(dis, training)
            leg.gives_all(*sent, EOM)
            leg.delivered(0)
            leg.hears(MCF)
            leg.delivered(1)
            yield leg

    def fine_page_ends(self, leg, dis=FINE_DIS, training=SLOW_FINE, sent=BLACK_SENT):
        """The fine black page goes out, and ends the job."""
        leg.is_trained(dis, training)
        leg.gives_all(*sent, EOP)
        leg.hears(MCF)
        leg.ends("Delivered", len(leg.jobs[0]))

    def test_to_fine(self):
        with self.turned(FINE_BLACK) as leg:
            self.fine_page_ends(leg)

    def test_and_the_second_dis_lacks_fine_pages(self):
        with self.turned(FINE_BLACK) as leg:
            leg.hears(DIS)
            leg.ends("FineLacking", 1)
            leg.quiet(40)

    def test_and_the_second_dis_lacks_two_dimensions(self):
        with self.turned(FINE_BLACK, dis=FINE_TWO_DIS, training=SLOW_TWO, sent=WHITE_SENT_IN_TWO) as leg:
            self.fine_page_ends(leg)

    def test_and_the_second_dis_has_another_rate(self):
        with self.turned(FINE_BLACK) as leg:
            self.fine_page_ends(leg, FAST_DIS, FAST_FINE, BLACK_SENT_FAST)

    def test_and_rates_begin_anew(self):
        with self.leg([WHITE, FINE_BLACK]) as leg:
            leg.begins()
            leg.hears(FAST_DIS)
            leg.trains(FAST)
            leg.hears(FTT)
            leg.trains(SECOND)
            leg.hears(CFR)
            leg.gives_all(*WHITE_SENT_SECOND, EOM)
            leg.delivered(0)
            leg.hears(MCF)
            leg.delivered(1)
            self.fine_page_ends(leg, FAST_DIS, FAST_FINE, BLACK_SENT_FAST)

    def test_and_back(self):
        with self.turned(FINE_BLACK, WHITE) as leg:
            leg.is_trained(FINE_DIS, SLOW_FINE)
            leg.gives_all(*BLACK_SENT, EOM)
            leg.hears(MCF)
            leg.delivered(2)
            leg.is_trained(FINE_DIS, SLOW)
            leg.gives_all(*WHITE_SENT, EOP)
            leg.hears(MCF)
            leg.ends("Delivered", 3)

    def test_after_two_pages(self):
        with self.leg([WHITE, BLACK, FINE_BLACK]) as leg:
            leg.begins()
            leg.is_trained(FINE_DIS, SLOW)
            leg.gives_all(*WHITE_SENT, MPS)
            leg.hears(MCF)
            leg.gives_all(*BLACK_SENT, EOM)
            leg.hears(MCF)
            leg.delivered(2)
            self.fine_page_ends(leg)

    def test_and_no_dis_comes(self):
        """T1 is set where MCF came, and T4 is clear."""
        with self.turned(FINE_BLACK) as leg:
            leg.quiet(1000)
            leg.hears(MCF)
            leg.quiet(3000)
            leg.ends("NoReply", 1, after=36_000)

    def test_and_the_eom_goes_unanswered_once(self):
        with self.leg([WHITE, FINE_BLACK]) as leg:
            leg.begins()
            leg.is_trained(FINE_DIS, SLOW)
            leg.gives_all(*WHITE_SENT, EOM)
            leg.gives_at(3000, PREAMBLE)
            leg.gives_at(40, EOM)
            leg.hears(RTP)
            leg.delivered(1)
            self.fine_page_ends(leg)

    def test_and_the_page_before_is_refused(self):
        with self.leg([WHITE, FINE_BLACK]) as leg:
            leg.begins()
            leg.is_trained(FINE_DIS, SLOW)
            leg.gives_all(*WHITE_SENT, EOM)
            for _ in range(2):
                leg.hears(RTN)
                leg.trains()
                leg.hears(CFR)
                leg.gives_all(*WHITE_SENT, EOM)
            leg.hears(RTN)
            leg.ends("PageRefused", 0)

    def test_and_the_other_side_hangs_up(self):
        with self.turned(FINE_BLACK) as leg:
            leg.is_hung_up(1)
            leg.quiet(40_000)

    def test_and_the_dis_comes_with_the_mcf(self):
        """In the slots of one datagram."""
        with self.leg([WHITE, FINE_BLACK]) as leg:
            leg.begins()
            leg.is_trained(FINE_DIS, SLOW)
            leg.gives_all(*WHITE_SENT, EOM)
            leg.octets_come("B", t38.datagram(3, [bytes.fromhex(FINE_DIS), bytes.fromhex(MCF)]))
            leg.comes_next["B"] = 4
            leg.trains(SLOW_FINE)
            leg.delivered(1)
            leg.hears(CFR)
            leg.gives_all(*BLACK_SENT, EOP)
            leg.hears(MCF)
            leg.ends("Delivered", 2)


class WhatMakesNoSense(Sent):
    def test_packets_that_are_no_dis(self):
        with self.leg([WHITE]) as leg:
            leg.begins()
            for at, packet in enumerate(
                (
                    "",
                    # an extension, data of no known type, more than 127 fields
                    "e0",
                    "d200",
                    "c080",
                    # cut off in its fields
                    "c00324",
                    # one octet, another address, another control
                    "c002800000ff40",
                    "c002800005fec80100400040",
                    "c002800005ffc40100400040",
                    # a bad check sequence
                    "c002800005ffc80100400050",
                    # too short
                    "c002800004ffc801004040",
                    # a DCS
                    "c002800005ffc8c100400040",
                )
            ):
                leg.hears(PREAMBLE, packet)
                leg.quiet(40 * (at + 1))
            # no datagrams: they are cut off, or have a length of another form
            for octets in ("", "00", "000c06", "000cc1"):
                leg.octets_come("B", bytes.fromhex(octets))
            leg.hears(PREAMBLE, DIS)
            leg.trains(after=441)

    def test_many_missing_slots(self):
        """Number 2 is awaited, and 16,383 slots are missing: a frame after them has no beginning."""
        with self.leg([WHITE]) as leg:
            leg.begins()
            leg.is_trained()
            leg.gives_all(*WHITE_SENT, EOP)
            leg.comes_as("B", 0x4001, MCF)
            leg.quiet(40)
            leg.hears(PREAMBLE, MCF)
            leg.ends("Delivered", 1, after=41)

    def test_what_comes_where_no_call_is_on(self):
        """A call goes on as if none of it had come, and what comes after it changes nothing."""
        with self.leg([WHITE]) as leg:
            leg.quiet(0, 100)
            for packet in (DIS, MCF, DCN_CAME):
                leg.hears(packet)
                leg.quiet(200)
            leg.white_call()
            leg.hears(DCN_CAME)
            leg.quiet(40)


class ByTheClock(Sent):
    def test_nobody_answers(self):
        with self.leg([WHITE]) as leg:
            leg.begins()
            leg.quiet(20_000)
            leg.ends("NoAnswer", 0, after=35_000)

    def test_nothing_comes_after_a_training(self):
        """It is given three times (T4 is 3 s)."""
        with self.leg([WHITE]) as leg:
            leg.begins()
            leg.hears(DIS)
            leg.trains()
            leg.trains(after=3000)
            leg.trains(after=3000)
            leg.ends("NoReply", 0, after=3000)

    def test_nothing_but_the_dis_comes_after_a_training(self):
        with self.leg([WHITE]) as leg:
            leg.begins()
            leg.hears(DIS)
            leg.trains()
            leg.hears(DIS)
            leg.trains()
            leg.trains(after=3000)
            leg.hears(DIS)
            leg.ends("NoReply", 0)

    def test_nothing_comes_after_a_page(self):
        with self.leg([WHITE]) as leg:
            leg.begins()
            leg.is_trained()
            leg.gives_all(*WHITE_SENT, EOP)
            for _ in range(2):
                leg.gives_at(3000, PREAMBLE)
                leg.gives_at(40, EOP)
            leg.ends("NoReply", 0, after=3000)

    def hangs_up(self, leg, delivered):
        leg.is_hung_up(delivered)
        leg.quiet(40, 40_000)

    def test_the_other_side_hangs_up_before_the_dis(self):
        with self.leg([WHITE, BLACK]) as leg:
            leg.begins()
            self.hangs_up(leg, 0)

    def test_the_other_side_hangs_up_after_the_training(self):
        with self.leg([WHITE, BLACK]) as leg:
            leg.begins()
            leg.hears(DIS)
            leg.trains()
            self.hangs_up(leg, 0)

    def test_the_other_side_hangs_up_after_the_last_page(self):
        with self.leg([WHITE, BLACK]) as leg:
            leg.begins()
            leg.is_trained()
            leg.gives_all(*WHITE_SENT, MPS)
            leg.hears(MCF)
            leg.gives_all(*BLACK_SENT, EOP)
            self.hangs_up(leg, 1)

    def test_the_pace_goes_on_after_a_call(self):
        """The first packet of a call comes 40 ms after the last one of the call before."""
        with self.leg([WHITE], [WHITE]) as leg:
            leg.white_call()
            leg.starts(10)
            leg.quiet(0)
            leg.gives_at(30, CNG)

    def stands_still(self, leg):
        """There is no moment for the packet after another one."""
        leg.quiet(LAST)
        leg.hears(DIS)
        leg.quiet(LAST)

    def test_t1_is_due_at_the_end_of_time(self):
        with self.leg([WHITE]) as leg:
            leg.begins()
            leg.overdue(LAST, PREAMBLE)
            self.stands_still(leg)

    def test_a_call_begins_at_the_end_of_time(self):
        with self.leg([WHITE]) as leg:
            leg.starts(LAST)
            leg.gives_at(0, CNG)
            self.stands_still(leg)


class CallsAreAskedFor(Sent):
    def test_for_ten_minutes(self):
        """Nothing is given meanwhile, second by second."""
        with self.leg([WHITE]) as leg:
            leg.quiet(*range(0, 600_000, 1000))

    def test_and_placed_a_minute_later(self):
        with self.leg([WHITE]) as leg:
            leg.quiet(*range(0, 60_000, 1000))
            leg.white_call(after=60_000)

    def test_and_nobody_answers(self):
        """T1 runs from where the call is placed (T.30, 5.4.3.1: 35 s)."""
        with self.leg([WHITE]) as leg:
            leg.begins(after=60_000)
            leg.quiet(34_999)
            leg.ends("NoAnswer", 0, after=35_000)

    def test_once(self):
        """Before a page is confirmed none is, and one that was placed is not placed again."""
        leg = Leg()
        for word in ("C", "N"):
            self.is_refused(leg, word)
        leg.jobs, leg.call_of = [[WHITE]], [0]
        leg.call_comes(commanded([WHITE]))
        leg.last = leg.now
        leg.starts()
        for word in ("C", "N"):
            self.is_refused(leg, word)
        leg.gives_at(0, CNG)
        self.check(leg)

    def is_refused(self, leg, word):
        """A call that is placed, or is not, is not asked for."""
        leg.lines.append(f"{word} {leg.now}")
        leg.told.append(f"{'connect' if word == 'C' else 'not-connected'} refused 1 NotAsked")

    def test_one_after_another(self):
        """One that could not be placed is over, and the next one is asked for."""
        with self.leg([WHITE, WHITE], [WHITE]) as leg:
            leg.fails_to_start()
            leg.quiet(0)
            leg.fails_to_start()
            leg.quiet(0)


class CallsAreCutIntoJobs(Sent):
    """Each job is told as it ends: its call, the format of its first page, and how many pages it has."""

    def cut(self, calls, *jobs, call_of=None):
        """Calls are cut into these jobs, in their order. None of them can be placed."""
        leg = Leg(jobs, calls, call_of)
        for _ in jobs:
            leg.fails_to_start()
            leg.quiet(0)
        self.is_refused_now(leg)
        self.check(leg)

    def is_refused_now(self, leg):
        """No call is asked for after the last job."""
        leg.lines.append(f"N {leg.now}")
        leg.told.append("not-connected refused 1 NotAsked")

    def test_no_page(self):
        self.cut([[]])

    def test_two_pages(self):
        self.cut([[(WHITE, MPS), (WHITE, EOP)]], [WHITE, WHITE])

    def test_pages_of_other_formats_are_of_one_job(self):
        self.cut([[(WHITE, EOM), (FINE_WHITE, EOM), (WHITE, EOP)]], [WHITE, FINE_WHITE, WHITE])

    def test_an_eop_in_mid_call_begins_another_job(self):
        self.cut([[(WHITE, EOP), (WHITE, MPS)]], [WHITE], [WHITE], call_of=(0, 0))

    def test_the_end_of_a_call_without_eop(self):
        self.cut([[(FINE_WHITE, MPS), (FINE_WHITE, MPS)], [(FINE_WHITE, EOP)]], [FINE_WHITE, FINE_WHITE], [FINE_WHITE])

    def test_three_jobs_wait(self):
        self.cut([[(WHITE, EOP)], [(FINE_WHITE, EOP)], [(WIDE, EOP)]], [WHITE], [FINE_WHITE], [WIDE])

    def test_a_job_ends_in_its_second_page(self):
        """The first one is confirmed, and the second one refused three times."""
        with self.leg([WHITE, BLACK]) as leg:
            leg.begins()
            leg.is_trained()
            leg.gives_all(*WHITE_SENT, MPS)
            leg.hears(MCF)
            leg.gives_all(*BLACK_SENT, EOP)
            for _ in range(2):
                leg.hears(RTN)
                leg.trains()
                leg.hears(CFR)
                leg.gives_all(*BLACK_SENT, EOP)
            leg.hears(RTN)
            leg.ends("PageRefused", 1)


if __name__ == "__main__":
    unittest.main()
