"""Calls that are answered: what comes, and what each tick gives (ITU-T T.30, T.38).

A caller sends a DCS of V.27 ter at 2400 bit/s and its training check, pages of one white row, and commands after them. Moments are
milliseconds after the ring. A packet is given 40 ms after the one before it, and the first of an answer by the next tick.
"""
import contextlib
import unittest

import t4
from calls import CALLER_DCN, CALLER_DCS, CALLER_EOP, CED, CFR, CHECK, FINE_DCS, GATEWAY_DIS, MCF, PAGE, PREAMBLE, RTN, TRAINING, image
from scripts import JUDGED, LAST, Script, Scripted

FTT = "c002800002ffc82240"
DCN = "c002800002ffc85f40"
CALLER_EOM, CALLER_MPS = "c002800002ffc8f140", "c002800002ffc8f240"
# One zero octet fewer than the training check has, where a second of V.27ter at 2400 bit/s has 300 (T.30, 5.3.6.1.4).
SHORT_CHECK = "c201f0012a" + 299 * "00"
# What is told of the DCS, and why a page is refused.
DCS_TOLD = "DCS 1728, standard, MH, V.27ter 2400, 20 ms a row"
NO_PAGE = "the image means no page"
NOT_WHOLE = "the image is not whole"
GAP_AFTER = "something is missing or began between the image and the command"
SEVERAL = "more than one image came since the last CFR or MCF"
NO_IMAGE = "no image came before the command"
UNTRAINED = "an image came after EOM, and no DCS before it"


def part(octet, count=16_378):
    """The packet of a part of an image, after which more of it comes."""
    return f"c201e0{count - 1:04x}" + count * octet


# The end of an image, without octets.
IMAGE_END = "c20170"


class Leg(Script):
    """The calling leg of a gateway, and what comes there."""

    def __init__(self):
        super().__init__()
        self.rung, self.page, self.ladder, self.pages = 0, 0, [], {}

    def rings_at(self, moment):
        """It rings at this moment, which is counted from no other."""
        if moment != self.now:
            self.tick(moment)
        self.rings_up()
        self.rung, self.page = moment, 0

    def takes(self, *packets):
        """Datagrams come, with the next numbers."""
        for packet in packets:
            self.comes("A", packet)

    def takes_as(self, number, *packets):
        """Datagrams come, with the numbers from this one on."""
        for packet in packets:
            self.comes_as("A", number, packet)
            number += 1

    def hangs_up(self, number):
        """The call has ended by a DCN of this number."""
        self.takes_as(number, CALLER_DCN)
        self.over(self.now)

    def over(self, moment):
        """The call is over from this moment on."""
        self.ladder.append((moment, f"call {self.rings - 1} is over"))

    def quiet(self, *moments):
        """A tick gives nothing at each of these moments."""
        for moment in moments:
            self.tick(self.rung + moment)

    def all_quiet(self, first, last):
        """Nor does one each 40 ms from this moment to that one."""
        self.quiet(*range(first, last + 1, 40))

    def at(self, moment, packet, *told):
        """A tick gives this packet, and tells these lines."""
        self.tick(self.rung + moment, [self.gives("a", packet), *told])

    def confirms(self, moment, closes=True, turns=False):
        """A tick gives MCF, and the page is one white row; where no more follow, the job of its call is asked for."""
        self.page += 1
        call, words = self.rings - 1, "fine" if turns else "standard"
        self.at(moment, MCF, *([f"asks {call}"] if closes and call == 0 else []))
        self.ladder.append((self.now, f"MCF page {self.page} of call {call}: 1728 {words}, rows: 1"))
        self.pages[f"seen-{call}-{self.page}.pbm"] = t4.picture([[1728]])

    def refuses(self, moment, why, reading=None):
        """A tick gives RTN, and tells why; and how the image before it was read."""
        if reading:
            self.ladder.append((None, reading))
        self.at(moment, RTN)
        self.ladder.append((self.now, f"RTN: {why}"))

    def gives_up(self, moment):
        """Ticks give DCN after its preamble, and the call has ended."""
        self.at(moment, PREAMBLE)
        self.at(moment + 40, DCN)
        self.over(self.now)

    # What calls have in common.

    def answered(self, moment=0):
        """A call is answered: CED, and our DIS after its preamble."""
        self.rings_at(moment)
        self.at(0, CED)
        self.at(40, PREAMBLE)
        self.at(80, GATEWAY_DIS)

    def trained(self):
        """Its training check is good."""
        self.takes(CALLER_DCS, TRAINING, CHECK)
        self.at(120, PREAMBLE)
        self.at(160, CFR)

    def page_comes(self, text=PAGE):
        """An image comes after its signal."""
        self.takes(TRAINING, image(text))

    def page_is_confirmed(self):
        """A page comes with EOP, and is confirmed."""
        self.page_comes()
        self.takes(PREAMBLE, CALLER_EOP)
        self.at(200, PREAMBLE)
        self.confirms(240)

    def whole_call(self, moment=0):
        self.answered(moment)
        self.trained()
        self.page_is_confirmed()

    def page_with_eom(self):
        """A page comes with EOM, after which another format may come, and is confirmed."""
        self.answered()
        self.trained()
        self.page_comes()
        self.takes(PREAMBLE, CALLER_EOM)
        self.at(200, PREAMBLE)
        self.confirms(240, closes=False)


class Answered(Scripted):
    """Plays of a calling leg."""

    @contextlib.contextmanager
    def leg(self):
        """A new leg; in the end it is played, and fails unless just what is told comes."""
        leg = Leg()
        yield leg
        self.check_trace(leg)
        self.check_ladder(leg)

    @contextlib.contextmanager
    def refused(self, why, reading=None):
        """A call whose image is refused so, after its command."""
        with self.leg() as leg:
            leg.answered()
            leg.trained()
            yield leg
            leg.at(200, PREAMBLE)
            leg.refuses(240, why, reading)

    def check_ladder(self, leg):
        """Fails unless pages are confirmed, refused and read, and calls end, as it is told."""
        rungs, pictures = self.ladder_of(leg)
        self.assertEqual(pictures, leg.pages)
        judged = [rung for rung in leg.ladder if JUDGED.match(rung[1])]
        self.assertEqual([rung for rung in rungs if JUDGED.match(rung[1])], judged)
        rest = iter(rungs)
        for moment, wanted in leg.ladder:
            self.assertTrue(any(text.endswith(wanted) and moment in (None, at) for at, text in rest), f"{wanted} in {rungs}")


class APageComes(Answered):
    def test_alone(self):
        with self.leg() as leg:
            leg.whole_call()
            leg.all_quiet(280, 6200)

    def test_its_dcs_is_taken(self):
        with self.leg() as leg:
            leg.answered()
            leg.trained()
            leg.ladder = [
                (80, DCS_TOLD),
                (80, "training check begins, V.27ter 2400"),
                (80, "training check good: 300 zero octets in a row of 300 wanted, whole"),
                (160, "CFR"),
            ]

    def test_its_command_comes_again(self):
        with self.leg() as leg:
            leg.whole_call()
            leg.takes_as(7, CALLER_EOP)
            leg.at(280, PREAMBLE)
            leg.at(320, MCF)
            leg.all_quiet(360, 6280)

    def test_its_command_comes_again_after_something_else(self):
        """After a slot that is missing, and after a signal that is new, it is of no image."""
        for number, before in ((8, PREAMBLE), (7, TRAINING)):
            with self.subTest(number), self.leg() as leg:
                leg.whole_call()
                leg.takes_as(number, before, CALLER_EOP)
                leg.at(280, PREAMBLE)
                leg.refuses(320, NO_IMAGE)
                leg.all_quiet(360, 6280)

    def test_after_another_one(self):
        with self.leg() as leg:
            leg.answered()
            leg.trained()
            leg.page_comes()
            leg.takes(PREAMBLE, CALLER_MPS)
            leg.at(200, PREAMBLE)
            leg.confirms(240, closes=False)
            leg.page_comes()
            leg.takes(PREAMBLE, CALLER_EOP)
            leg.at(280, PREAMBLE)
            leg.confirms(320)
            leg.all_quiet(360, 6280)

    def test_in_another_call(self):
        """After the end nothing is given, and what comes is passed over."""
        with self.leg() as leg:
            leg.whole_call()
            leg.hangs_up(7)
            leg.all_quiet(280, 7000)
            leg.takes_as(8, PREAMBLE, CALLER_EOP)
            leg.all_quiet(7040, 40_000)
            leg.whole_call(40_040)

    def test_and_a_disconnect_while_packets_wait(self):
        """It is not heard: the call is given up by T2."""
        with self.leg() as leg:
            leg.answered()
            leg.trained()
            leg.page_comes()
            leg.takes(PREAMBLE, CALLER_EOP)
            leg.at(200, PREAMBLE)
            leg.takes_as(7, CALLER_DCN)
            leg.confirms(240)
            leg.all_quiet(280, 6200)
            leg.gives_up(6240)


class AnEomComes(Answered):
    def test_and_a_fine_page_after_another_exchange(self):
        """Nothing comes for 6 s (T2), and the DIS is given again."""
        with self.leg() as leg:
            leg.page_with_eom()
            leg.all_quiet(280, 6200)
            leg.at(6240, PREAMBLE)
            leg.at(6280, GATEWAY_DIS)
            leg.takes_as(7, FINE_DCS, TRAINING, CHECK)
            leg.at(6320, PREAMBLE)
            leg.at(6360, CFR)
            leg.page_comes()
            leg.takes(PREAMBLE, CALLER_EOP)
            leg.at(6400, PREAMBLE)
            leg.confirms(6440, turns=True)

    def test_again(self):
        with self.leg() as leg:
            leg.page_with_eom()
            leg.takes_as(7, CALLER_EOM)
            leg.at(280, PREAMBLE)
            leg.at(320, MCF)

    def test_again_after_a_missing_datagram(self):
        """It is refused, and the state is as before: the DIS is given again 6 s after the answer."""
        with self.leg() as leg:
            leg.page_with_eom()
            leg.takes_as(8, PREAMBLE, CALLER_EOM)
            leg.at(280, PREAMBLE)
            leg.refuses(320, NO_IMAGE)
            leg.all_quiet(360, 6280)
            leg.at(6320, PREAMBLE)
            leg.at(6360, GATEWAY_DIS)

    def test_and_an_eop_after_it_changes_nothing(self):
        with self.leg() as leg:
            leg.page_with_eom()
            leg.takes_as(7, CALLER_EOP)
            leg.at(280, PREAMBLE)
            leg.refuses(320, NO_IMAGE)
            leg.takes_as(8, PREAMBLE, CALLER_EOM)
            leg.at(360, PREAMBLE)
            leg.at(400, MCF)

    def test_after_no_image(self):
        with self.leg() as leg:
            leg.answered()
            leg.trained()
            leg.takes(PREAMBLE, CALLER_EOM)
            leg.at(200, PREAMBLE)
            leg.refuses(240, NO_IMAGE)

    def test_and_an_image_with_no_training_check(self):
        with self.leg() as leg:
            leg.page_with_eom()
            leg.page_comes()
            leg.takes(PREAMBLE, CALLER_EOP)
            leg.at(280, PREAMBLE)
            leg.refuses(320, UNTRAINED)


class Refused(Answered):
    def test_a_training_check_that_is_too_short(self):
        """After the FTT another DCS is heard, and a check that is good."""
        with self.leg() as leg:
            leg.answered()
            leg.takes(CALLER_DCS, TRAINING, SHORT_CHECK)
            leg.at(120, PREAMBLE)
            leg.at(160, FTT)
            leg.takes(CALLER_DCS, TRAINING, CHECK)
            leg.at(200, PREAMBLE)
            leg.at(240, CFR)

    def test_an_image_whose_only_slot_is_missing(self):
        with self.leg() as leg:
            leg.answered()
            leg.trained()
            leg.takes_as(3, TRAINING)
            leg.takes_as(5, PREAMBLE, CALLER_EOP)
            leg.at(200, PREAMBLE)
            leg.refuses(240, NO_IMAGE)
            leg.all_quiet(280, 6200)

    def test_a_missing_slot_in_an_image(self):
        with self.refused(NOT_WHOLE) as leg:
            leg.takes_as(3, TRAINING, image(PAGE).replace("f0", "e0", 1))
            leg.takes_as(6, IMAGE_END, PREAMBLE, CALLER_EOP)

    def test_a_line_that_cannot_be_read_after_a_row(self):
        """EOL, a white row, EOL, and 8 zeros before a 1, with which no code word begins; the command comes again after the RTN."""
        with self.leg() as leg:
            leg.answered()
            leg.trained()
            leg.page_comes("0014d9a8008040")
            leg.takes(PREAMBLE, CALLER_EOP)
            leg.at(200, PREAMBLE)
            leg.refuses(240, NO_PAGE, "whole: no page, fault 2 BadLine 1")
            leg.takes_as(7, CALLER_EOP)
            leg.at(280, PREAMBLE)
            leg.refuses(320, NO_PAGE)

    def test_two_images_before_a_command(self):
        with self.refused(SEVERAL) as leg:
            leg.page_comes()
            leg.page_comes()
            leg.takes(PREAMBLE, CALLER_EOP)

    def test_a_page_that_is_cut_inside_a_line(self):
        with self.refused(NO_PAGE, "whole: no page, fault 2 BadLine 0") as leg:
            leg.page_comes("00143f")
            leg.takes(PREAMBLE, CALLER_EOP)

    def test_a_page_that_is_lost(self):
        with self.refused(NO_IMAGE) as leg:
            leg.takes_as(3, TRAINING)
            leg.takes_as(5, PREAMBLE, CALLER_EOP)


class WhatMakesNoSense(Answered):
    def test_many_slots_are_missing_before_the_image_and_before_the_command(self):
        """Number 4 is awaited, and 16,383 or 32,767 slots are missing, twice."""
        for first in (0x4003, 0x8003):
            with self.subTest(first), self.refused(NOT_WHOLE) as leg:
                leg.takes_as(3, TRAINING)
                leg.takes_as(first, image(PAGE), PREAMBLE, CALLER_EOP)

    def test_many_slots_are_missing_before_the_command(self):
        """Number 5 is awaited."""
        for first in (0x4004, 0x8004):
            with self.subTest(first), self.refused(GAP_AFTER) as leg:
                leg.page_comes()
                leg.takes_as(first, PREAMBLE, CALLER_EOP)

    def test_a_frame_of_256_octets(self):
        """A DCS in two fields: one of 6 octets, and one of 250 zero octets. It is the longest that is read."""
        with self.leg() as leg:
            leg.answered()
            leg.takes("c003800005ffc8c10040008000f9" + 250 * "00" + "40", TRAINING, CHECK)
            leg.ladder.append((80, DCS_TOLD))
            leg.at(120, PREAMBLE)
            leg.at(160, CFR)

    def test_a_frame_of_257_octets(self):
        """One more, which is not read: the DIS is given again by T4, 3 s after the first one."""
        with self.leg() as leg:
            leg.answered()
            leg.takes("c003800005ffc8c10040008000fa" + 251 * "00" + "40")
            leg.all_quiet(120, 3040)
            leg.at(3080, PREAMBLE)
            leg.at(3120, GATEWAY_DIS)

    def test_an_image_of_2_mib_of_zeros_through_which_no_eol_comes(self):
        with self.refused(NO_PAGE, f"image of {128 * 16_378} octets, whole: no page, fault 1 NoEol") as leg:
            leg.takes(TRAINING, *(128 * [part("00")]), IMAGE_END, PREAMBLE, CALLER_EOP)

    def test_an_image_of_64_kib_of_ones(self):
        """Each of them is looked at."""
        with self.refused(NO_PAGE, "image of 65512 octets, whole: no page, fault 1 NoEol") as leg:
            leg.takes(TRAINING, *(4 * [part("ff")]), IMAGE_END, PREAMBLE, CALLER_EOP)


class ByTheClock(Answered):
    def test_no_peer(self):
        """The DIS is given each 3 s (T4), and T1 ends the call 35 s after its begin (T.30, 5.4.3.1)."""
        with self.leg() as leg:
            leg.answered()
            leg.all_quiet(120, 3040)
            leg.quiet(3079)
            leg.at(3080, PREAMBLE)
            leg.at(3120, GATEWAY_DIS)
            leg.all_quiet(3160, 6080)
            leg.at(6120, PREAMBLE)
            leg.at(6160, GATEWAY_DIS)

    def test_no_peer_to_the_end(self):
        with self.leg() as leg:
            leg.answered()
            leg.gives_up(35_000)
            leg.all_quiet(35_080, 80_000)

    def test_nothing_comes_after_a_page(self):
        """T2 ends the call 6 s after the MCF."""
        with self.leg() as leg:
            leg.whole_call()
            leg.all_quiet(280, 6200)
            leg.quiet(6239)
            leg.gives_up(6240)

    def test_a_late_datagram_is_not_heard(self):
        with self.leg() as leg:
            leg.whole_call()
            leg.quiet(1000)
            leg.takes_as(3, TRAINING, image(PAGE))
            leg.takes_as(6, CALLER_EOP)
            leg.all_quiet(1040, 6200)
            leg.gives_up(6240)

    def test_a_new_signal_is_heard(self):
        with self.leg() as leg:
            leg.whole_call()
            leg.quiet(1000)
            leg.takes_as(7, TRAINING)
            leg.quiet(6999)
            leg.gives_up(7000)

    def test_at_most_one_packet_in_40_ms(self):
        with self.leg() as leg:
            leg.rings_at(0)
            leg.at(0, CED)
            leg.quiet(0, 39)
            leg.at(40, PREAMBLE)
            leg.quiet(40, 79)
            leg.at(80, GATEWAY_DIS)
            leg.quiet(80, 119)
            leg.takes(CALLER_DCS, TRAINING, CHECK)
            leg.quiet(119)
            leg.at(120, PREAMBLE)
            leg.quiet(120, 159)
            leg.at(160, CFR)
            leg.quiet(160)
            leg.page_comes()
            leg.takes(PREAMBLE, CALLER_EOP)
            leg.quiet(199)
            leg.at(200, PREAMBLE)
            leg.quiet(200, 239)
            leg.confirms(240)
            leg.quiet(240, 279)

    def test_the_pace_goes_on_after_a_call(self):
        """The first packet of a call comes 40 ms after the last one of the call before."""
        with self.leg() as leg:
            leg.answered()
            leg.gives_up(35_000)
            leg.rings_at(35_050)
            leg.quiet(0, 29)
            leg.at(30, CED)

    def test_no_call_at_the_end_of_time(self):
        with self.leg() as leg:
            leg.quiet(LAST)

    def test_ticks_at_the_end_of_time(self):
        """T1 is due, and there is no moment for the packet after the preamble."""
        with self.leg() as leg:
            leg.answered()
            leg.at(LAST, PREAMBLE)
            leg.quiet(LAST)
            leg.takes(CALLER_DCS)
            leg.quiet(LAST)

    def test_a_ring_at_the_end_of_time(self):
        with self.leg() as leg:
            leg.rings_at(LAST)
            leg.at(0, CED)
            leg.quiet(0)


if __name__ == "__main__":
    unittest.main()
