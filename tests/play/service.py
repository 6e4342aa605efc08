"""A whole server, over sockets of this host: which line and which leg a word, a datagram and an event are of, and when."""
import json
import time
from concurrent.futures import ThreadPoolExecutor

from calls import CNG, GATEWAY_DIS, MCF, PAGE_SENT, Called, Caller
from server import SLOW, Peer, Play, address, event_line, on_time, until

IDLE = "line {} calling idle called idle calls {} pages {} waiting 0 failures 0"


class Legs(Play):
    def test_a_leg_hears_its_peer_alone(self):
        """What others send is dropped, and so is what came before the peer was known."""
        line = self.line(calling_peer=False)
        server = self.serve(line)
        events = server.events()
        stranger, peer = Peer(self.ports.take(), line.calling), self.peer(line, "calling")
        self.addCleanup(stranger.close)
        stranger.send(b"early")
        peer.send(b"early")
        self.assertEqual(server.say(f"peer a1 calling {address(line.calling_peer)}"), ["ok"])
        self.assertEqual(server.metrics()["faxgate_datagrams_received_total"], 0)
        stranger.send(b"late")
        peer.send(b"page")
        until(lambda: server.metrics()["faxgate_datagrams_received_total"])
        time.sleep(0.2)
        self.assertEqual(server.metrics()["faxgate_datagrams_received_total"], 1)
        self.assertEqual(server.say("ring a1"), ["ok 0"])
        self.assertEqual(events.event("rung")["call"], 0)
        self.assertIsNotNone(peer.hear())
        self.assertIsNone(stranger.hear(0.1))

    def test_a_peer_may_change_until_it_was_heard(self):
        line = self.line()
        server = self.serve(line)
        first, second = self.peer(line, "calling"), Peer(self.ports.take(), line.calling)
        self.addCleanup(second.close)
        self.assertEqual(server.say("ring a1"), ["ok 0"])
        self.assertIsNotNone(first.hear())
        word = f"peer a1 calling {address(second.socket.getsockname()[1])}"
        self.assertEqual(server.say(word), ["ok"])
        first.hear_all(0.3)
        self.assertIsNotNone(second.hear())
        self.assertEqual(first.hear_all(0.5), [])
        second.send(b"page")
        until(lambda: server.metrics()["faxgate_datagrams_received_total"])
        self.assertEqual(server.say(word), ["refused 6 InCall"])

    @on_time
    def test_a_datagram_wakes_a_line(self):
        """A line at rest takes a datagram in its next turn, and not when its sockets are asked the next time, once a second."""
        line = self.line()
        server = self.serve(line)
        says, peer = server.client(), self.peer(line, "calling")
        begun = time.monotonic()
        for count in range(1, 13):
            peer.send(b"page")
            until(lambda: f"faxgate_datagrams_received_total {count}" in says.say("metrics"))
            time.sleep(0.05)
        self.assertLess(time.monotonic() - begun, 3.6 * SLOW)

    def test_a_hang_up_comes_behind_the_newest_datagram(self):
        """Its DCN has the number after the newest that came, so that it is not taken for one that comes late."""
        line = self.line()
        server = self.serve(line)
        events, peer = server.events(), self.peer(line, "calling")
        self.assertEqual(server.say("ring a1"), ["ok 0"])
        for number in (0x8000, 0xFFFF, 0xFFFE, 0x8000):
            peer.send(number.to_bytes(2, "big") + bytes(3))
        until(lambda: server.metrics()["faxgate_datagrams_received_total"] == 4)
        self.assertEqual(server.say("hangup a1 calling"), ["ok"])
        self.assertEqual(events.event("ended", within=10)["how"], "HungUp")

    def test_legs_are_not_exchanged(self):
        """The calling leg answers from its own port to its own peer, and the called leg calls from its own."""
        line = self.line()
        server = self.serve(line)
        caller, called = Caller(self.peer(line, "calling")), Called(self.peer(line, "called"))
        self.assertEqual(server.say("ring a1"), ["ok 0"])
        self.assertEqual(caller.call(), MCF)
        self.assertEqual(called.take_page(), PAGE_SENT)
        self.assertEqual({sender[1] for _, _, sender in caller.peer.heard}, {line.calling})
        self.assertEqual({sender[1] for _, _, sender in called.peer.heard}, {line.called})


class Lines(Play):
    """Two lines or more: what is of one is not of the other."""

    def test_the_line_that_is_named_rings(self):
        first, second = self.line("a1"), self.line("a2")
        server = self.serve(first, second)
        events = server.events()
        callers = {line.name: Caller(self.peer(line, "calling")) for line in (first, second)}
        self.assertEqual(server.say("ring a2 second"), ["ok 0"])
        self.assertEqual(event_line(events.event("rung")), '{"event":"rung","line":"a2","at":N,"call":0,"tag":"second"}')
        self.assertEqual(server.say("hangup a1 calling"), ["refused 11 NoCall"])
        status = server.say("status")
        self.assertEqual(status[0], IDLE.format("a1", 0, 0))
        self.assertTrue(status[1].startswith("line a2 calling call-0 called idle calls 1 pages 0 waiting 0"))
        callers["a2"].wait_for(GATEWAY_DIS)
        self.assertIsNone(callers["a1"].peer.hear(0.1))
        self.assertEqual(server.say("hangup a2 calling"), ["ok"])
        self.assertEqual(events.event("ended")["line"], "a2")
        self.assertEqual(server.say("ring a1 first"), ["ok 0"])
        callers["a1"].wait_for(GATEWAY_DIS)
        self.assertEqual(server.say("ring a2 third"), ["ok 1"])
        self.assertEqual([events.event("rung")["line"] for _ in range(2)], ["a1", "a2"])

    def test_each_line_has_its_own_calls_and_jobs(self):
        """Calls on three lines at once: each page goes to the called machine of its line, and is told of it, with its tag."""
        lines = [self.line(f"a{i}") for i in range(3)]
        server = self.serve(*lines)
        events = server.events()
        callers = [Caller(self.peer(line, "calling")) for line in lines]
        called = [Called(self.peer(line, "called")) for line in lines]
        for i in (2, 0, 1):
            self.assertEqual(server.say(f"ring a{i} tag-{i}"), ["ok 0"])
        with ThreadPoolExecutor(5) as pool:
            answers = [pool.submit(caller.call) for caller in callers]
            texts = [pool.submit(machine.take_page) for machine in called[:2]]
            self.assertEqual([answer.result() for answer in answers], [MCF] * 3)
            events.event("dial", line="a2", tag="tag-2")
            self.assertEqual(server.say("hangup a2 called"), ["ok"])
            self.assertEqual([text.result() for text in texts], [PAGE_SENT] * 2)
        for i, outcome in enumerate(("Delivered", "Delivered", "HungUp")):
            job = events.event("job", line=f"a{i}")
            self.assertEqual((job["call"], job["tag"], job["outcome"]), (0, f"tag-{i}", outcome))
        self.assertEqual(server.say("status"), [IDLE.format(f"a{i}", 1, 1) for i in range(3)] + ["ok"])

    def test_a_hang_up_of_one_leg_leaves_the_other(self):
        line = self.line()
        server = self.serve(line)
        events = server.events()
        caller, called = Caller(self.peer(line, "calling")), Called(self.peer(line, "called"))
        self.assertEqual(server.say("ring a1 first"), ["ok 0"])
        self.assertEqual(caller.call(), MCF)
        called.wait_for(CNG)
        self.assertEqual(events.event("ended")["how"], "Done")
        caller.forget()
        self.assertEqual(server.say("ring a1 second"), ["ok 1"])
        caller.wait_for(GATEWAY_DIS)
        self.assertEqual(server.say("hangup a1 called"), ["ok"])
        job = events.event("job")
        self.assertEqual((job["call"], job["tag"], job["outcome"]), (0, "first", "HungUp"))
        self.assertTrue(server.say("status")[0].startswith("line a1 calling call-1 called idle calls 2 pages 1 waiting 0"))
        caller.check()
        self.assertEqual(caller.send_page(), MCF)
        events.event("dial", call=1, tag="second")
        events.no_event("ended", 0.1)
        self.assertEqual(server.say("hangup a1 calling"), ["ok"])
        self.assertEqual(events.event("ended")["call"], 1)
        self.assertTrue(server.say("status")[0].startswith("line a1 calling idle called job-1"))


class Jobs(Play):
    def test_jobs_are_told_with_the_tags_of_their_calls(self):
        """Three calls, whose jobs go out one after the other; `report` tells them again, oldest first."""
        line = self.line()
        server = self.serve(line)
        events = server.events()
        caller, called = Caller(self.peer(line, "calling")), Called(self.peer(line, "called"))
        for call, tag in enumerate(("first", "second", None)):
            caller.forget()
            self.assertEqual(server.say("ring a1 " + tag if tag else "ring a1"), [f"ok {call}"])
            self.assertEqual(caller.call(), MCF)
            events.event("ended", call=call)
        self.assertTrue(server.say("status")[0].startswith("line a1 calling idle called job-0 calls 3 pages 3 waiting 2"))
        self.assertEqual(server.metrics()["faxgate_jobs_waiting"], 3)
        self.assertEqual(called.take_page(), PAGE_SENT)
        events.event("job", call=0, tag="first", pages=1, delivered=1, outcome="Delivered")
        for call, tag in ((1, "second"), (2, None)):
            events.event("dial", call=call, tag=tag)
            self.assertEqual(server.say("hangup a1 called"), ["ok"])
            events.event("job", call=call, tag=tag, pages=1, delivered=0, outcome="HungUp")
        report = server.say("report a1")
        told = [(job["call"], job["tag"], job["outcome"]) for job in map(json.loads, report[:-1])]
        self.assertEqual(told, [(0, "first", "Delivered"), (1, "second", "HungUp"), (2, None, "HungUp")])
        self.assertEqual({(job["event"], job["line"]) for job in map(json.loads, report[:-1])}, {("job", "a1")})
        counts = server.metrics()
        self.assertEqual((counts["faxgate_jobs_delivered_total"], counts["faxgate_jobs_failed_total"]), (1, 2))


class Stops(Play):
    def test_a_stop_ends_what_is_idle(self):
        server = self.serve(self.line())
        self.assertEqual(server.say("stop"), ["ok"])
        self.assertEqual(server.ends(5 * SLOW), 0)

    def test_a_stop_waits_for_calls_and_jobs(self):
        """No ring is taken any more; it ends once the call and its job are over."""
        lines = [self.line("a1"), self.line("a2")]
        server = self.serve(*lines)
        events = server.events()
        caller, called = Caller(self.peer(lines[0], "calling")), Called(self.peer(lines[0], "called"))
        self.assertEqual(server.say("ring a1"), ["ok 0"])
        self.assertEqual(server.say("stop"), ["ok"])
        for name in ("a1", "a2"):
            self.assertEqual(server.say(f"ring {name}"), ["refused 5 Stopping"])
        self.assertEqual(caller.call(), MCF)
        events.event("dial")
        time.sleep(0.3)
        self.assertIsNone(server.process.poll())
        self.assertEqual(called.take_page(), PAGE_SENT)
        events.event("job", outcome="Delivered")
        self.assertEqual(server.ends(5 * SLOW), 0)

    def test_a_second_stop_ends_at_once(self):
        server = self.serve(self.line())
        self.assertEqual(server.say("ring a1"), ["ok 0"])
        self.assertEqual(server.say("stop"), ["ok"])
        time.sleep(0.5)
        self.assertIsNone(server.process.poll())
        self.assertEqual(server.say("stop"), ["ok"])
        self.assertEqual(server.ends(5 * SLOW), 0)

    @on_time
    def test_a_stop_takes_so_many_seconds_at_most(self):
        for seconds in (0, 2):
            with self.subTest(seconds=seconds):
                server = self.serve(self.line(), head=f"stop_seconds = {seconds}\n")
                self.assertEqual(server.say("ring a1"), ["ok 0"])
                begun = time.monotonic()
                self.assertEqual(server.say("stop"), ["ok"])
                self.assertEqual(server.ends(10 * SLOW), 0)
                spent = time.monotonic() - begun
                self.assertTrue(seconds - 0.1 < spent < seconds + 1.5 * SLOW, spent)

    def test_the_end_of_the_input_is_a_stop(self):
        server = self.serve(self.line(), control=False)
        self.assertEqual(server.say("ring a1"), ["ok 0"])
        server.process.stdin.close()
        time.sleep(0.3)
        self.assertIsNone(server.process.poll())
        server.process.kill()
