"""Lines of `faxgate serve` between machines: pages go through, what is told of them, and what is sent again when."""
import contextlib
import threading
import time
import unittest

import t38
from playing import OTHER_PAGE, PAGE, PATIENCE, SLOW, Playing, numbers
from server import Line, Server, until

# How long after its first send a datagram is sent again, in seconds.
FULL, LAST, NONE = [0.02, 0.06, 0.14, 0.3, 0.62, 1.26], [0.04], []
# By so much a moment may be another one, in seconds: the clock leaves parts of milliseconds out, and a turn lasts. What a machine
# that is busy takes comes to it. Some lines are looked at, some times: of what is tried, one has to come out right.
EARLY, LATE, LINES, TRIES = 0.008, 0.015, 3, 4


class Watch(threading.Thread):
    """Sees how much later than it asked for this machine wakes someone, in seconds."""

    def __init__(self):
        super().__init__(daemon=True)
        self.most, self._is_over = 0, threading.Event()

    def run(self):
        begun = time.monotonic()
        while not self._is_over.wait(0.005):
            self.most = max(self.most, time.monotonic() - begun - 0.005)
            begun = time.monotonic()

    def __enter__(self):
        self.start()
        return self

    def __exit__(self, *_):
        self._is_over.set()
        self.join()


class APageGoesThrough(Playing):
    def test_each_thing_is_told_once(self):
        """What happens in a call and after it is told once each; each leg's datagrams come from its own port."""
        line = Line(self.ports)
        server, events = self.serve(line)
        called, calling = self.called(line), self.calling(line)
        self.ring(server, line, "tag-1")
        self.assertEqual(server.say("ring a1"), ["refused 1 Busy"])
        self.assertIn("calling call-0 called idle calls 1", server.say("status")[0])
        calling.end()
        told = [events.event(kind) for kind in ("rung", "page", "dial", "ended", "job")]
        called.end()
        self.assertEqual((calling.confirmed, called.pages, called.commands), (1, [PAGE], [t38.EOP]))
        for event in told:
            self.assertEqual((event.pop("line"), event.pop("call")), ("a1", 0))
            del event["at"]
        page = {"width": 1728, "resolution": "standard"}
        self.assertEqual(told, [
            {"event": "rung", "tag": "tag-1"},
            {"event": "page", "tag": "tag-1", "number": 1, "rows": 2, **page},
            {"event": "dial", "tag": "tag-1"},
            {"event": "ended", "tag": "tag-1", "how": "Done"},
            {"event": "job", "tag": "tag-1", "pages": 1, "delivered": 1, "outcome": "Delivered", **page},
        ])
        self.assertEqual([event for event in events.events if event["event"] not in ("wire", "late")], [])
        self.assertIn("calling idle called idle calls 1 pages 1 waiting 0", server.say("status")[0])
        self.assertEqual({port for _, _, port in calling.leg.came}, {line.calling})
        self.assertEqual({port for _, _, port in called.leg.came}, {line.called})

    def test_lines_side_by_side(self):
        """Two lines that ring at once, each with its own page, and one that is still: nothing of one comes to another."""
        lines = [Line(self.ports, name) for name in ("a1", "a2", "a3")]
        server, events = self.serve(*lines)
        called = [self.called(lines[0]), self.called(lines[1])]
        calling = [self.calling(lines[0], [PAGE, OTHER_PAGE]), self.calling(lines[1], [OTHER_PAGE])]
        still = [self.listens(lines[2].calling_peer), self.listens(lines[2].called_peer)]
        self.assertEqual(server.say("ring a7"), ["refused 7 NoLine"])
        for line in lines[:2]:
            self.ring(server, line)
        for machine in calling:
            machine.end()
        for line, pages in (("a1", 2), ("a2", 1)):
            self.await_job(events, line=line, pages=pages, delivered=pages)
        for machine in called:
            machine.end()
        self.assertEqual([it.pages for it in called], [[PAGE, OTHER_PAGE], [OTHER_PAGE]])
        for leg in still:
            leg.listen(0.1)
            self.assertEqual(leg.came, [])
        self.assertIn("line a3 calling idle called idle calls 0 pages 0 waiting 0 failures 0", server.say("status"))


class DatagramsAreLost(Playing):
    def test_each_third(self):
        """A page is delivered though each third datagram is lost, first sends and repeats alike."""
        lines = [Line(self.ports, "a1", repeat="full"), Line(self.ports, "a2", repeat="last")]
        server, events = self.serve(*lines)
        called = [self.called(line, comes=t38.losing(3)) for line in lines]
        calling = [self.calling(line, comes=t38.losing(3)) for line in lines]
        for line in lines:
            self.ring(server, line)
        for machine in calling:
            machine.end()
        for line in lines:
            self.await_job(events, line=line.name, pages=1, delivered=1)
        for machine in called:
            machine.end()
            self.assertEqual(machine.pages, [PAGE])

    def test_what_machines_send(self):
        """Lost, repeated, late and in another order: a page comes all the same."""
        ways = [t38.mended, t38.repeating, t38.delaying(0.1), t38.reordering]
        lines = [Line(self.ports, f"a{i}") for i in range(len(ways))]
        server, events = self.serve(*lines)
        called = [self.called(line, goes=way) for line, way in zip(lines, ways)]
        calling = [self.calling(line, goes=way) for line, way in zip(lines, ways)]
        for line in lines:
            self.ring(server, line)
        for machine in calling:
            machine.end()
        for line in lines:
            self.await_job(events, line=line.name, delivered=1)
        for machine in called:
            machine.end()
            self.assertEqual(machine.pages, [PAGE])


def second_sends():
    """A way on which the first send of each datagram is lost."""
    seen = set()

    def way(_, octets):
        is_first = octets not in seen
        seen.add(octets)
        return [] if is_first else [0]

    return way


class FirstSendsAreLost(Playing):
    def test_repeats_bring_the_page(self):
        """All that a line sends is lost at first: with repeats the page comes, without them nothing does."""
        lines = [Line(self.ports, repeat, repeat=repeat) for repeat in ("full", "last", "none")]
        server, events = self.serve(*lines)
        called = [self.called(line, comes=second_sends()) for line in lines[:2]]
        calling = [self.calling(line, comes=second_sends(), t1=4 * SLOW) for line in lines]
        for line in lines:
            self.ring(server, line)
        for machine in calling:
            machine.end()
        self.assertEqual([(it.hears_dis, it.confirmed) for it in calling], [(True, 1), (True, 1), (False, 0)])
        for line in lines[:2]:
            self.await_job(events, line=line.name, delivered=1)
        for machine in called:
            machine.end()
            self.assertEqual(machine.pages, [PAGE])


class AnswersAreLeftOut(Playing):
    def test_a_command_comes_again(self):
        """A called machine that leaves out its CFR and its MCF is asked again; the page is counted once."""
        line = Line(self.ports)
        server, events = self.serve(line)
        called = self.called(line, leaves_out={t38.CFR: 1, t38.MCF: 1})
        calling = self.calling(line)
        self.ring(server, line)
        calling.end()
        self.await_job(events, pages=1, delivered=1)
        called.end()
        self.assertEqual(called.pages, [PAGE])
        asked = [frame[0] for frame in called.frames]
        self.assertEqual(asked, [t38.DCS, t38.DCS, t38.EOP, t38.EOP, t38.DCN])


def sends_of(came):
    """The datagrams of a leg in their order, each with the moments of its sends."""
    found = []
    for moment, octets, _ in came:
        if not found or found[-1][0] != octets:
            found.append((octets, []))
        found[-1][1].append(moment)
    return found


def are_quiet(legs):
    """Whether something came to each leg, and nothing for twice as long as the longest time between two sends."""
    for leg in legs:
        leg.drain()
    return all(leg.came and leg.came[-1][0] < time.time() - 1.3 for leg in legs)


def are_at(moments, wanted, slack):
    """Whether the sends of a datagram are the first one, and those that are wanted after it; `slack`: they may be so much off."""
    gaps = [moment - moments[0] for moment in moments[1:]]
    return len(gaps) == len(wanted) and all(want - EARLY - slack <= gap <= want + LATE + slack for gap, want in zip(gaps, wanted))


class WhatIsSentAgain(Playing):
    # By each policy: when the last datagram of a leg is sent again, and how often each before it is sent, which a newer one follows
    # 40 ms later, or later than that.
    POLICIES = {"full": (FULL, 2, 7), "last": (LAST, 1, 2), "none": (NONE, 1, 1)}

    def test_the_last_datagram_of_each_leg(self):
        """By each policy: on the calling leg an MCF, after the end of its call, on the called leg a CNG that nobody answers."""
        lacking = {(policy, leg) for policy in self.POLICIES for leg in ("calling", "called")}
        for _ in range(TRIES):
            with Watch() as watch:
                seen = self.play()
            slack = 2 * watch.most
            lacking -= {(policy, leg) for policy, leg, moments in seen if are_at(moments, self.POLICIES[policy][0], slack)}
            if not lacking:
                return
        last = [(policy, leg, [round(it - moments[0], 3) for it in moments]) for policy, leg, moments in seen]
        self.fail(f"the moments of {sorted(lacking)} were never right, at last, {slack:.3f} s apart, {last}")

    def play(self):
        """The moments of the last datagrams of both legs of some lines, with their policies."""
        lines = [Line(self.ports, f"{policy}-{i}", repeat=policy) for policy in self.POLICIES for i in range(LINES)]
        with contextlib.ExitStack() as stack:
            server = stack.enter_context(Server(lines))
            called = [stack.enter_context(contextlib.closing(t38.Leg(line.called_peer))) for line in lines]
            calling = [stack.enter_context(contextlib.closing(t38.Leg(line.calling_peer, line.calling))) for line in lines]
            machines = [t38.Calling(leg, [PAGE]) for leg in calling]
            for line, machine in zip(lines, machines):
                machine.start()
                self.ring(server, line)
            for machine in machines:
                machine.join(PATIENCE)
            until(lambda: are_quiet(calling + called), what="the end of the repeats")
            seen = [self.last_of(line, leg, "calling", 5) for line, leg in zip(lines, calling)]
            return seen + [self.last_of(line, leg, "called", 1) for line, leg in zip(lines, called)]

    def last_of(self, line, leg, name, least):
        """The moments of the last datagram of a leg. Of those before it is seen that each comes as often as it may, of the same octets,
        and none after a newer one."""
        policy = line.name.split("-")[0]
        found, sends = numbers(leg.came), sends_of(leg.came)
        self.assertEqual(found, sorted(found), policy)
        self.assertEqual(len(sends), len(set(found)), policy)
        self.assertGreaterEqual(len(sends), least, policy)
        _, fewest, most = self.POLICIES[policy]
        for _, moments in sends[:-1]:
            self.assertTrue(fewest <= len(moments) <= most, f"{policy}: {len(moments)} sends")
        return policy, name, sends[-1][1]


class ANewCallBegins(Playing):
    def test_nothing_is_repeated_into_it(self):
        """A ring between a turn and the last repeat of the old call's last datagram: it does not come, and the new call's do. On a busy
        machine the ring may be answered too late to see it, so it is tried on some lines."""
        lines = [Line(self.ports, f"a{i}") for i in range(6)]
        server, _ = self.serve(*lines)
        client = server.client()
        if not any(self.is_in_time(server, client, line) for line in lines):
            self.skipTest("this machine is too busy")

    def is_in_time(self, server, client, line):
        """Plays it on a line, and says whether the ring was answered before the repeat was due."""
        leg = t38.Leg(line.calling_peer, line.calling)
        self.addCleanup(leg.close)
        machine = t38.Calling(leg, [PAGE])
        machine.start()
        self.ring(server, line)
        machine.join(PATIENCE)
        octets, moments = until(lambda: self.last_but_one(leg), what="the repeat before the last")
        due = moments[-1] + FULL[-1] - FULL[-2]
        time.sleep(max(0, due - 0.016 - time.time()))
        self.assertEqual(client.say(f"ring {line.name}"), ["ok 1"])
        rung = time.time()
        later = until(lambda: self.came_after(leg, rung, 2), what="the new call's DIS")
        self.assertNotIn(octets, [it[1] for it in later])
        self.assertLessEqual(set(numbers(later)), {0, 1, 2})
        return rung < due - 0.002

    @staticmethod
    def last_but_one(leg):
        """The last datagram of a leg, once it is sent again once more and no more."""
        leg.drain()
        octets, moments = sends_of(leg.came)[-1]
        return (octets, moments) if len(moments) == len(FULL) else None

    @staticmethod
    def came_after(leg, moment, number):
        """What came after a moment, once the datagram of this number is the last of it."""
        leg.drain()
        later = [it for it in leg.came if it[0] > moment]
        return later if later and numbers(later)[-1] == number else None

    def test_jobs_one_after_another(self):
        """Two jobs of a line, the second of which waits: its call begins anew, and no datagram of the first comes into it."""
        line = Line(self.ports)
        server, events = self.serve(line)
        called = self.called(line, calls=2)
        first = self.calling(line, [PAGE])
        self.ring(server, line)
        first.end()
        second = self.calling(line, [OTHER_PAGE])
        self.assertEqual(server.say("ring a1"), ["ok 1"])
        second.end()
        for call in (0, 1):
            self.await_job(events, call=call, delivered=1)
        called.end()
        self.assertEqual(called.pages, [PAGE, OTHER_PAGE])
        found = numbers(called.leg.came)
        begins = next(i for i in range(1, len(found)) if found[i] == 0 < found[i - 1])
        self.assertEqual(found[:begins], sorted(found[:begins]))
        self.assertEqual(found[begins:], sorted(found[begins:]))


if __name__ == "__main__":
    unittest.main()
