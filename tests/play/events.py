"""Events: who is told them, and what each says."""
import fcntl
import json
import os
import signal
import struct
import subprocess
import termios
import time

import t4
from calls import CALLER_DCN, CALLER_EOP, FINE_DCS, FINE_DIS, MCF, PAGE, PREAMBLE, RTN, TRAINING, Called, Caller, image, image_part
from server import Play, Server, event_line, on_time, until

# The most lines that wait for a client, beside the one that is being written.
MOST_WAITING = 1024


class Told(Play):
    def test_events_are_told_to_who_wants_them(self):
        server = self.serve(self.line())
        wants, other = server.events(), server.client()
        self.assertEqual(other.say("ring a1 tag"), ["ok 0"])
        self.assertEqual(
            event_line(wants.event("rung")), '{"event":"rung","line":"a1","at":N,"call":0,"tag":"tag"}'
        )
        self.assertEqual(other.say("hangup a1 calling"), ["ok"])
        wants.event("ended")
        self.assertIsNone(other.line(within=0.2))
        self.assertEqual(other.say("events"), ["ok"])
        server.say("ring a1")
        for client in (wants, other):
            self.assertEqual(
                event_line(client.event("rung")), '{"event":"rung","line":"a1","at":N,"call":1,"tag":null}'
            )

    def test_events_are_recorded(self):
        """All events go to standard output beside a control socket; nobody hears them there, so no question is asked."""
        server = self.serve(self.line(called_peer=False))
        self.assertEqual(server.say("ring a1 tag"), ["ok 0"])
        recorded = until(lambda: server.output().splitlines()[1:])
        self.assertEqual(
            [event_line(json.loads(line)) for line in recorded],
            ['{"event":"rung","line":"a1","at":N,"call":0,"tag":"tag"}'],
        )

    def test_a_record_that_nobody_takes_holds_up_nobody(self):
        """Where standard output takes nothing any more, the server goes on."""
        reader, writer = os.pipe()
        server = Server([self.line()])
        self.addCleanup(server.close)
        server.process = server._begin(["serve", "--config", server.path("lines.toml")], stdin=subprocess.DEVNULL, stdout=writer)
        os.close(writer)
        until(server._answers)
        os.close(reader)
        for number in range(3):
            self.assertEqual(server.say("ring a1"), [f"ok {number}"])
            self.assertEqual(server.say("hangup a1 calling"), ["ok"])
            until(lambda: "calling idle" in server.say("status")[0])

    def test_moments_are_milliseconds_since_the_begin(self):
        server = self.serve(self.line())
        events, begun = server.events(), time.monotonic()
        server.say("ring a1")
        first = events.event("rung")["at"]
        server.say("hangup a1 calling")
        events.event("ended")
        time.sleep(1)
        server.say("ring a1")
        second = events.event("rung")["at"]
        spent = (time.monotonic() - begun) * 1000
        # each is cut to a whole millisecond
        self.assertTrue(999 <= second - first <= spent + 1, (first, second, spent))

    def test_a_slow_reader_is_told_what_it_lost(self):
        """After the lines that wait it loses whole ones; it is told at their place how many, and they are counted."""
        lines = [self.line(f"a{i}") for i in range(60)]
        for line in lines:
            line.calling_peer = lines[0].calling_peer
        self.peer(lines[0], "calling")
        server = self.serve(*lines)
        slow, fast, says = server.events(), server.events(), server.client()
        all_told = self.rings(says, fast, lines, 12)
        waiting = struct.unpack("i", fcntl.ioctl(slow.stream, termios.FIONREAD, b"\0" * 4))[0]
        taken = self.lines_of(slow, waiting)
        told = taken + self.lines_until(slow, '{"event":"lost"')
        lost = json.loads(told.pop())["lines"]
        self.assertGreater(lost, 0)
        self.assertIn(len(told) - len(taken), (MOST_WAITING, MOST_WAITING + 1))
        self.assertEqual(server.metrics()["faxgate_events_lost_total"], lost)
        self.assertEqual(says.say("ring a0 last"), ["ok 12"])
        later = self.lines_until(slow, '"tag":"last"}')
        all_told += self.lines_until(fast, '"tag":"last"}')
        self.assertEqual(told, all_told[: len(told)])
        self.assertEqual(later, all_told[len(told) + lost :])

    def lines_until(self, client, part):
        """The lines of a client up to the first that has this part."""
        lines = []
        while not lines or part not in lines[-1]:
            lines.append(client.line())
            self.assertIsNotNone(lines[-1])
        return lines

    def rings(self, says, reads, lines, rounds):
        """All events of so many calls of each line, which are hung up."""
        told = []
        for _ in range(rounds):
            for word, kind in (("ring %s", "rung"), ("hangup %s calling", "ended")):
                says.send("".join(word % line.name + "\n" for line in lines).encode())
                answers = [says.answer()[0] for _ in lines]
                self.assertEqual([answer for answer in answers if not answer.startswith("ok")], [])
                for _ in lines:
                    told += self.lines_until(reads, f'"event":"{kind}"')
        return told

    def lines_of(self, client, octets):
        """The lines of so many octets that wait for a client."""
        lines = []
        while octets > 0:
            lines.append(client.line())
            octets -= len(lines[-1]) + 1
        self.assertEqual(octets, 0)
        return lines


# Texts that mean no page, and what is told of each.
FAULTS = [
    ("ff", '"fault":"NoEol","fault_number":1'),
    ("00143f", '"fault":"BadLine","fault_number":2,"row":0'),
    ("0014d9a80080080080080080", '"fault":"NoRtc","fault_number":3'),
    ("001001001001001001", '"fault":"Empty","fault_number":4'),
]


class Kinds(Play):
    """What each event says, octet for octet but for its moment."""

    def begin(self, tag="x", **settings):
        """A line with these settings whose call was rung, its caller, and a client that is told events."""
        line = self.line(**settings)
        self.server = self.serve(line)
        self.caller = Caller(self.peer(line, "calling"))
        self.called = Called(self.peer(line, "called"))
        self.events = self.server.events()
        self.ring(0, tag)

    def ring(self, call, tag):
        self.assertEqual(self.server.say(f"ring a1 {tag}"), [f"ok {call}"])
        self.events.event("rung", call=call)

    def assert_told(self, kind, members, **wanted):
        """The next event of a kind says this."""
        line = event_line(self.events.event(kind, **wanted))
        self.assertEqual(line, '{"event":"%s","line":"a1","at":N,%s}' % (kind, members))

    def assert_no_more(self):
        """No event came that was not asked for; turns may come late."""
        self.assertEqual([event for event in self.events.events if event["event"] != "late"], [])

    def test_a_call_and_its_job(self):
        self.begin('order"7"')
        self.caller.dcs, self.called.dis = FINE_DCS, FINE_DIS
        self.assertEqual(self.caller.call(), MCF)
        self.assert_told("page", '"call":0,"tag":"order\\"7\\"","number":1,"width":1728,"resolution":"fine","rows":1')
        self.assert_told("ended", '"call":0,"tag":"order\\"7\\"","how":"Done"')
        self.assert_told("dial", '"call":0,"tag":"order\\"7\\""')
        self.called.take_page()
        self.assert_told(
            "job",
            '"call":0,"tag":"order\\"7\\"","width":1728,"resolution":"fine","pages":1,"delivered":1,"outcome":"Delivered"',
        )
        self.assert_no_more()

    def test_pages_that_are_refused(self):
        """An RTN tells why: the text means no page, or something is missing in it, or there is none."""
        self.begin()
        self.caller.train()
        for text, told in FAULTS:
            self.assertEqual(self.caller.send_page(text), RTN)
            self.assert_told("refused_page", f'"call":0,"tag":"x",{told}')
            self.caller.check()
        self.caller.send(TRAINING)
        self.caller.sent += 1
        self.caller.send(image(PAGE), PREAMBLE, CALLER_EOP)
        self.caller.wait_for(RTN)
        self.assert_told("refused_page", '"call":0,"tag":"x","fault":"NotWhole"')
        self.assertEqual(self.server.metrics()["faxgate_pages_refused_total"], 5)
        self.caller.send(PREAMBLE, CALLER_DCN)
        self.assert_told("ended", '"call":0,"tag":"x","how":"Done"')

    def test_a_line_that_is_full(self):
        """Of a page of more octets than its line may hold a datagram is refused, so it has a gap, after which none of it is kept; the next page is
        taken. What is refused is told once in a call."""
        self.begin(line_memory=1 << 20)
        self.caller.train()
        self.caller.send(TRAINING)
        # a row holds 16 octets, and 2 for each of its 1,728 changes
        page = t4.text([[1] * 1728] * 400)
        for at in range(0, len(page), 8000):
            self.caller.send(image_part(page[at : at + 8000]))
            time.sleep(0.05)
        self.caller.send(image(page[-8:].hex()), PREAMBLE, CALLER_EOP)
        self.caller.wait_for(RTN)
        self.assert_told("full", '"call":0')
        self.events.event("refused_page", call=0)
        self.assertEqual(self.server.metrics()["faxgate_datagrams_refused_total"], 1)
        self.caller.check()
        self.assertEqual(self.caller.send_page(), MCF)
        self.events.event("page", call=0, number=1)
        self.assert_no_more()

    def test_ends_of_calls(self):
        """A caller says DCN, is gone, or says nothing for 6 s where a training was begun."""
        self.begin()
        self.caller.train()
        self.caller.send(PREAMBLE, CALLER_DCN)
        self.assert_told("ended", '"call":0,"tag":"x","how":"Done"')
        self.ring(1, "y")
        self.server.say("hangup a1 calling")
        self.assert_told("ended", '"call":1,"tag":"y","how":"HungUp"')
        self.caller.forget()
        self.ring(2, "z")
        self.caller.train()
        begun = time.monotonic()
        self.assert_told("ended", '"call":2,"tag":"z","how":"GivenUp"')
        self.assertGreater(time.monotonic() - begun, 5)
        self.assert_no_more()

    def test_a_machine_that_is_gone(self):
        """Its job ends, with no page delivered, and its call's tag is told."""
        self.begin()
        self.assertEqual(self.caller.call(), MCF)
        self.events.event("dial")
        self.assertEqual(self.server.say("hangup a1 called"), ["ok"])
        self.assert_told(
            "job",
            '"call":0,"tag":"x","width":1728,"resolution":"standard","pages":1,"delivered":0,"outcome":"HungUp"',
        )

    def test_a_port_that_is_closed(self):
        """Receives or sends that fail are told, and counted."""
        self.begin()
        self.caller.peer.close()
        event = self.events.event("wire", line="a1", leg="calling")
        self.assertEqual(list(event), ["event", "line", "at", "leg", "direction", "failures"])
        self.assertIn(event["direction"], ("receives", "sends"))
        counts = self.server.metrics()
        failures = counts["faxgate_receive_failures_total"] + counts["faxgate_send_failures_total"]
        self.assertGreaterEqual(failures, 1)

    @on_time
    def test_turns_that_are_late(self):
        """After a rest of the process of less than 1 s turns are made at once; after a longer one time is skipped."""
        self.begin()
        os.kill(self.server.process.pid, signal.SIGSTOP)
        time.sleep(0.4)
        os.kill(self.server.process.pid, signal.SIGCONT)
        event = self.events.event("late", line="a1")
        self.assertEqual(list(event), ["event", "line", "at", "ms"])
        self.assertTrue(100 < event["ms"] <= event["at"], event)
        until(lambda: self.server.metrics()["faxgate_turns_late_total"] > 200)
        self.assertEqual(self.server.metrics()["faxgate_skipped_milliseconds_total"], 0)
        os.kill(self.server.process.pid, signal.SIGSTOP)
        time.sleep(1.5)
        os.kill(self.server.process.pid, signal.SIGCONT)
        until(lambda: self.server.metrics()["faxgate_skipped_milliseconds_total"] >= 1400)
