"""Frames: what happens in the calls of a line, told while it happens, in the words of `faxgate explain`."""
import os
import re
import subprocess
import time

import t38
from playing import PAGE, PATIENCE, Playing
from server import Line

# How long a run of the program may take, and after what came last a script goes on, in seconds; the milliseconds between two ticks of
# a script, so few that it answers no later than a line does, which has a turn in 40.
RUN_SECONDS, AFTER_SECONDS, TICK_MS = 60 * int(os.environ.get("FAXGATE_SLOW", "1")), 20, 5
# A line of a ladder: where a thing happened, and what; and the names of the first in an event.
RUNG = re.compile(r"\d+ +(caller --> gateway|caller <-- gateway|gateway --> called|gateway <-- called|gateway) +(.*)")
LANES = {
    "caller --> gateway": "FromCaller", "caller <-- gateway": "ToCaller", "gateway --> called": "ToCalled",
    "gateway <-- called": "FromCalled", "gateway": "Inside",
}
# What a call with one page has to tell, in this order, by T.30: of the calling leg, and of the called one.
OF_CALLER = ["CED", "DIS", "DCS", "training check", "CFR", "image", "EOP", "MCF", "DCN"]
OF_CALLED = ["DIS", "DCS", "training check", "CFR", "image", "EOP", "MCF", "DCN"]
# The most lines that are watched at one time.
MOST_WATCHED = 8


def explained(script):
    """What `faxgate explain` tells of a script: where each thing happened, and what."""
    done = subprocess.run(
        [os.environ["FAXGATE"], "explain"], input=script, capture_output=True, text=True, timeout=RUN_SECONDS
    )
    if done.returncode or done.stderr:
        raise AssertionError(f"status {done.returncode}: {done.stderr}")
    rungs = [RUNG.fullmatch(line) for line in done.stdout.splitlines()]
    return [(LANES[rung[1]], rung[2]) for rung in rungs]


def script_of(begun, came):
    """A ring at a moment, and what came on both legs after it, as a script: each with its moment in seconds, its letter and its octets. A
    tick stands before each, since it may answer what a tick gave just before it."""
    lines, moment, now = ["R"], 0, 0
    for at, letter, octets in sorted(came):
        moment = max(moment, int(1000 * (at - begun)))
        lines += [f"T {tick}" for tick in range(now, moment, TICK_MS)] + [f"T {moment}", f"{letter} {octets.hex()}"]
        now = moment
    lines += [f"T {tick}" for tick in range(now, now + 1000 * AFTER_SECONDS, TICK_MS)]
    return "".join(line + "\n" for line in lines)


def by_lane(told):
    """What happened in each place, in its order: what happens on two legs at one time may be told in either order."""
    return {name: [text for lane, text in told if lane == name] for name in LANES.values()}


def stand_in_order(wanted, texts):
    """Whether these begin some of the texts, one after the other."""
    rest = iter(texts)
    return all(any(text.startswith(it) for text in rest) for it in wanted)


class Frames(Playing):
    def frames(self, client, last):
        """The frames that a client is told, up to the one that begins so."""
        found = []
        while not found or not found[-1]["text"].startswith(last):
            found.append(client.event("frame", PATIENCE))
        return found

    def keeping(self, letter, came):
        """A way on which nothing is lost, that keeps what goes over it, and when."""

        def way(number, octets):
            came.append((time.monotonic(), letter, octets))
            return t38.clear(number, octets)

        return way

    def test_they_are_those_of_explain(self):
        """A page goes through. Who watches the line is told of both legs what `faxgate explain` prints of the same datagrams; nobody else is
        told anything of it, and it is not recorded."""
        line, came = Line(self.ports), []
        server, events = self.serve(line)
        watcher = server.client()
        self.assertEqual(watcher.say("events frames a1"), ["ok"])
        called = self.called(line, goes=self.keeping("B", came))
        # the caller says nothing before the ring
        leg = t38.Leg(line.calling_peer, line.calling, goes=self.keeping("A", came))
        begun = time.monotonic()
        self.ring(server, line, "tag-1")
        calling = self.stack.enter_context(t38.Calling(leg, [PAGE]))
        calling.end()
        self.await_job(events, line="a1", pages=1, delivered=1)
        called.end()
        frames = self.frames(watcher, "job 0 ")
        for frame in frames:
            self.assertEqual(list(frame), ["event", "line", "at", "lane", "text"])
            self.assertEqual(frame["line"], "a1")
        moments = [frame["at"] for frame in frames]
        self.assertEqual(moments, sorted(moments))
        told = [(frame["lane"], frame["text"]) for frame in frames]
        self.assertEqual(told[0], ("Inside", "ring 0"))
        self.assertTrue(stand_in_order(OF_CALLER, [text for lane, text in told if lane in ("FromCaller", "ToCaller")]), told)
        self.assertTrue(stand_in_order(OF_CALLED, [text for lane, text in told if lane in ("FromCalled", "ToCalled")]), told)
        self.assertEqual(by_lane(told), by_lane(explained(script_of(begun, came))))
        # the events of the line are told among them
        self.assertEqual(watcher.event("page")["tag"], "tag-1")
        self.assertEqual([event for event in events.events if event["event"] == "frame"], [])
        self.assertNotIn('"frame"', server.output())

    def test_a_call_that_is_on_is_not_told(self):
        """Where a call is on the ladder begins after it; its calls are counted from 0. Who says the word again watches another line."""
        line, other = Line(self.ports), Line(self.ports, "a2")
        server, events = self.serve(line, other)
        self.ring(server, line)
        watcher = server.client()
        self.assertIn("ok", watcher.say("events frames a1"))
        watcher.event("rung", call=0)
        self.assertEqual(server.say("hangup a1 calling"), ["ok"])
        events.event("ended", call=0)
        events.no_event("frame", 0.2)
        self.assertEqual(server.say("ring a1"), ["ok 1"])
        self.assertEqual(server.say("hangup a1 calling"), ["ok"])
        told = [frame["text"] for frame in self.frames(watcher, "call 0 is over")]
        self.assertTrue(stand_in_order(["ring 0", "DCN"], told), told)
        self.assertEqual(watcher.say("events frames a2"), ["ok"])
        self.assertEqual(server.say("ring a1"), ["ok 2"])
        self.assertEqual(server.say("ring a2"), ["ok 0"])
        self.assertEqual(watcher.event("frame")["line"], "a2")

    def test_which_words_are_answered(self):
        """Of a line that is not there nothing is told; and at most so many are watched at one time."""
        lines = [Line(self.ports, f"a{i}") for i in range(MOST_WATCHED + 1)]
        server, _ = self.serve(*lines)
        client = server.client()
        for word, answer in (
            ("events frames b1", "refused 7 NoLine"), ("events frames", "refused 8 NoWord"), ("events frames ", "refused 8 NoWord"),
            ("events frames a1 a2", "refused 8 NoWord"), ("events frame a1", "refused 8 NoWord"), ("events ", "refused 8 NoWord"),
        ):
            with self.subTest(said=word):
                self.assertEqual(client.say(word), [answer])
        watchers = [server.client() for _ in lines[:MOST_WATCHED]]
        for watcher, line in zip(watchers, lines):
            self.assertEqual(watcher.say(f"events frames {line.name}"), ["ok"])
        # a second client of a line that is watched needs no place
        self.assertEqual(client.say("events frames a0"), ["ok"])
        self.assertEqual(client.say(f"events frames {lines[-1].name}"), ["refused 3 NoMemory"])
        watchers.pop().close()
        end = time.monotonic() + PATIENCE
        while client.say(f"events frames {lines[-1].name}") != ["ok"]:
            self.assertLess(time.monotonic(), end)
            time.sleep(0.05)


