"""A server whose pages are stored in the spool of a folder: what waits there goes on after a crash."""
import hashlib
import os
import resource

from calls import CALLER_DCN, CALLER_EOP, MCF, PAGE, PAGE_SENT, PREAMBLE, TRAINING, Called, Caller, image
from server import Play, address, event_line, finish, until

# The text of the page of one white row in two dimensions: EOL, a 1 for a line in one dimension, the white runs 1728 and 0, and
# six times EOL with a 1 (ITU-T T.4, 4.2). So it stands in a record.
WHITE = bytes.fromhex("001a6cd4006003001800c0060030")
# A record: a gate three times, its length in four octets three times, the digest of the rest by SHA-256, and the rest.
GATE, HEAD, DIGEST = 3, 15, 32


def records(octets):
    """Where the records of a spool's file begin and end, after their digests."""
    at, found = 0, []
    while octets[at] == 1:
        end = at + HEAD + int.from_bytes(octets[at + GATE : at + GATE + 4], "big")
        found.append((at + HEAD + DIGEST, end))
        at = end
    return found


class Spooled(Play):
    def begin(self, *lines, **options):
        """A server of these lines with a spool, their callers, and called machines that say nothing yet."""
        self.server = self.serve(*lines, spool=True, **options)
        self.callers = {line.name: Caller(self.peer(line, "calling")) for line in lines}
        self.called = {line.name: Called(self.peer(line, "called")) for line in lines}

    def call(self, name, call, tag=None):
        """A whole call on a line, whose page is confirmed, and is kept."""
        caller = self.callers[name]
        caller.forget()
        self.assertEqual(self.server.say(f"ring {name} {tag}" if tag else f"ring {name}"), [f"ok {call}"])
        self.assertEqual(caller.call(), MCF)
        until(lambda: any(f"line {name} calling idle" in line for line in self.server.say("status")))

    def begin_anew(self, *lines):
        """The server is gone, and another one begins on its folder, with these lines or those that it had."""
        self.server.kill()
        if lines:
            self.server.configure(lines)
        self.server.start()
        for machine in self.called.values():
            machine.forget()

    def change(self, change):
        """Changes the octets of the spool's files while no server is there."""
        self.server.kill()
        for name in os.listdir(self.server.spool):
            path = os.path.join(self.server.spool, name)
            with open(path, "rb") as file:
                octets = bytearray(file.read())
            change(octets)
            with open(path, "wb") as file:
                file.write(octets)


class Lives(Spooled):
    def test_a_server_begins_with_what_waits(self):
        """It takes a ring at once; the pages of an earlier life go out first, with the numbers and the tags of their calls."""
        self.begin(self.line())
        self.call("a1", 0, "first")
        self.call("a1", 1)
        self.begin_anew()
        events = self.server.events()
        caller, called = self.callers["a1"], self.called["a1"]
        caller.forget()
        self.assertEqual(self.server.say("ring a1 third"), ["ok 0"])
        counts = self.server.metrics()
        self.assertEqual((counts["faxgate_jobs_waiting"], counts["faxgate_pages_stored"]), (2, 2))
        self.assertEqual(caller.call(), MCF)
        for call, tag in ((0, "first"), (1, None), (0, "third")):
            self.assertEqual(called.take_page(), PAGE_SENT)
            events.event("job", call=call, tag=tag, pages=1, delivered=1, outcome="Delivered")
            called.begin_anew()
        self.assertEqual(self.server.metrics()["faxgate_pages_stored"], 0)
        self.begin_anew()
        counts = self.server.metrics()
        self.assertEqual((counts["faxgate_jobs_waiting"], counts["faxgate_pages_stored"]), (0, 0))

    def test_pages_that_are_set_aside(self):
        """Those of a line that the configuration has no more, and one whose text means none, are told, and stay where they are."""
        first, second = self.line("a1"), self.line("a2")
        self.begin(first, second, control=False)
        self.call("a1", 0)
        self.call("a1", 1)
        self.call("a2", 0)
        self.change(self.spoil_last_page_of_first)
        self.server.configure([first])
        self.server.start()
        told = {event_line(self.server.standard.event("set_aside")) for _ in range(2)}
        self.assertEqual(
            told,
            {
                '{"event":"set_aside","line":"a1","at":N,"life":1,"call":1,"tag":null,"number":1,"why":"NoPage"}',
                '{"event":"set_aside","line":"a2","at":N,"life":1,"call":0,"tag":null,"number":1,"why":"NoLine"}',
            },
        )
        counts = self.server.metrics()
        self.assertEqual(counts["faxgate_pages_set_aside_total"], 2)
        self.assertEqual(counts["faxgate_records_damaged_total"], 0)
        self.assertEqual((counts["faxgate_jobs_waiting"], counts["faxgate_pages_stored"]), (1, 1))
        self.begin_anew(first, second)
        counts = self.server.metrics()
        self.assertEqual((counts["faxgate_pages_set_aside_total"], counts["faxgate_pages_stored"]), (1, 2))

    def spoil_last_page_of_first(self, octets):
        """Of the page of call 1 of a1 the text gives way to zeros, which mean no page, under a digest that is right."""
        for begin, end in records(octets):
            if octets[begin] == 1 and octets[begin + 5 : begin + 9] == b"\0\0\0\1":
                self.assertEqual(octets[end - len(WHITE) : end], WHITE)
                octets[end - len(WHITE) : end] = bytes(len(WHITE))
                octets[begin - DIGEST : begin] = hashlib.sha256(octets[begin:end]).digest()


class Disks(Spooled):
    def test_a_page_that_cannot_be_kept_is_told(self):
        """It is counted, and so is that its caller's call ended in silence."""
        self.begin(self.line())
        events, caller = self.server.events(), self.callers["a1"]
        resource.prlimit(self.server.process.pid, resource.RLIMIT_FSIZE, (0, resource.RLIM_INFINITY))
        self.assertEqual(self.server.say("ring a1 tag"), ["ok 0"])
        caller.train()
        heard = len(caller.came)
        caller.send(TRAINING, image(PAGE), PREAMBLE, CALLER_EOP)
        event = events.event("not_stored")
        self.assertEqual(event_line(event), '{"event":"not_stored","line":"a1","at":N,"call":0,"tag":"tag"}')
        caller.send(PREAMBLE, CALLER_DCN)
        event = events.event("ended")
        self.assertEqual(event_line(event), '{"event":"ended","line":"a1","at":N,"call":0,"tag":"tag","how":"NotStored"}')
        while caller.next_within(0.3) is not None:
            pass
        # The preamble before the MCF goes out, since nothing is confirmed by it.
        self.assertIn(caller.packets()[heard:], ([], [PREAMBLE]))
        counts = self.server.metrics()
        self.assertEqual((counts["faxgate_put_failures_total"], counts["faxgate_pages_stored"]), (1, 0))


class Whole(Spooled):
    """Pages go from `faxgate send` through a server to `faxgate receive`."""

    ROWS = 24

    def picture(self, number):
        """A picture of 1728 elements a row, whose rows tell its number."""
        row = bytearray(216)
        row[10 * number : 10 * number + 4] = b"\xff\x0f\xf0\x03"
        return b"P4\n1728 %d\n" % self.ROWS + bytes(row) * self.ROWS

    def test_pages_go_on_behind_a_crash(self):
        """The server is killed once both pages were confirmed; the next one sends them on."""
        line = self.line()
        self.server = self.serve(line, spool=True)
        for number in (1, 2):
            with open(self.server.path(f"sent-{number}.pbm"), "wb") as file:
                file.write(self.picture(number))
        self.assertEqual(self.server.say("ring a1 tag"), ["ok 0"])
        send = ["send", "--to", address(line.calling), "--on", address(line.calling_peer), "sent-1.pbm", "sent-2.pbm"]
        self.assertEqual(finish(self.server.run(*send)), (0, "job 0 1728 standard 2 2 Delivered\n", ""))
        counts = self.server.metrics()
        for name, count in {
            "lines": 1,
            "calls_total": 1,
            "pages_confirmed_total": 2,
            "pages_refused_total": 0,
            "pages_delivered_total": 0,
            "jobs_waiting": 1,
            "puts_total": 2,
            "put_failures_total": 0,
            "pages_stored": 2,
        }.items():
            self.assertEqual(counts["faxgate_" + name], count, name)
        self.assertGreater(counts["faxgate_datagrams_received_total"], 50)
        self.assertGreater(counts["faxgate_datagrams_sent_total"], 10)
        self.assertGreater(counts["faxgate_put_microseconds_total"], 0)
        self.server.kill()
        receive = self.server.run("receive", "--on", address(line.called_peer), "--pages", "got", "--calls", "1")
        until(lambda: not self.ports.is_free(line.called_peer), what="the called machine")
        self.server.start()
        job = self.server.events().event("job")
        self.assertEqual((job["call"], job["tag"], job["pages"], job["delivered"]), (0, "tag", 2, 2))
        self.assertEqual(finish(receive)[0], 0)
        for number in (1, 2):
            with open(self.server.path(f"got-0-{number}.pbm"), "rb") as file:
                self.assertEqual(file.read(), self.picture(number))
        counts = self.server.metrics()
        self.assertEqual((counts["faxgate_jobs_delivered_total"], counts["faxgate_pages_delivered_total"]), (1, 2))
        self.assertEqual(counts["faxgate_pages_stored"], 0)
