"""Calls of jobs that clients are asked for: lines whose called leg has no peer of the configuration.

`make asked` plays them longer: FAXGATE_TIMES says how often a machine is called anew, FAXGATE_JOBS how many jobs wait after a crash,
FAXGATE_RINGS how many seconds a machine rings before it answers.
"""
import json
import os
import pathlib
import subprocess
import sys
import time

from calls import CALLED_DIS, CED, CNG, MCF, PREAMBLE, Called, Caller, Datagram
from server import LONGEST, SLOW, Peer, Play, address, event_line, until

TOP = pathlib.Path(__file__).resolve().parent.parent.parent

TIMES = int(os.environ.get("FAXGATE_TIMES", "1"))
JOBS = int(os.environ.get("FAXGATE_JOBS", "3"))
RINGS = float(os.environ.get("FAXGATE_RINGS", "1"))
# How long a machine that must get nothing is listened to, in seconds: many turns of a line.
QUIET = 2
IN_CALL = ["refused 6 InCall"]
NO_CALL = ["refused 11 NoCall"]
FIXED = ["refused 12 Fixed"]
# A datagram of a machine that answers a call: CED, number 0 (ITU-T T.38; UDPTL with no packet before it).
ANSWERS = bytes.fromhex("000001040000")


# A white row in one dimension: the white runs 1728 and 0 (T.4, tables 2 and 3).
EOL, WHITE_ROW = "000000000001", "01001101100110101"


def page(rows):
    """The text of a page of so many white rows: each after an EOL, and six times EOL after the last (T.4, 4.1)."""
    bits = (EOL + WHITE_ROW) * rows + 6 * EOL
    bits += "0" * (-len(bits) % 8)
    return int(bits, 2).to_bytes(len(bits) // 8, "big").hex()


def rows_of(text):
    """How many white rows a text has, filled or not."""
    return f"{int(text, 16):0{4 * len(text)}b}".count(EOL + WHITE_ROW)


class Asked(Play):
    """Plays with one line, whose called leg has no peer of the configuration."""

    def begin(self, spool=False, **settings):
        """A server of the line, with these settings, and who hears its events."""
        self.a1 = self.line(called_peer=False, **settings)
        self.server = self.serve(self.a1, spool=spool)
        self.client = self.server.events()
        self.caller = Caller(self.peer(self.a1, "calling"))

    def confirm(self, rows, tag):
        """A machine calls with this tag, and has a page of so many rows confirmed."""
        until(lambda: self.server.say("status")[0].split()[3] == "idle", what="an idle calling leg")
        self.assertRegex(self.server.say(f"ring a1 {tag}")[0], "^ok [0-9]+$")
        self.caller.begin_anew()
        self.assertEqual(self.caller.call(page(rows)), MCF)

    def asked(self, tag):
        """The question about the job of this tag, of one page."""
        return self.client.event("dial", tag=tag, pages=1, **{"try": 1})

    def connect(self, tag, peer):
        """The machine at a peer has answered the call of the job of this tag."""
        self.assertEqual(self.client.say(f"peer a1 called {address(peer.port)}"), ["ok"])
        self.client.event("connected", tag=tag)

    def begun(self, peer):
        """The machine at a peer, to which a call came from its begin on: CNG, in datagram 0."""
        first = Datagram(peer.hear())
        self.assertEqual((first.number, first.packet), (0, CNG))
        machine = Called(peer)
        machine.newest = 0
        return machine

    def take(self, tag, peer, rows):
        """The machine at a peer takes the job of this tag, a page of so many rows, in a call of its own."""
        machine = self.begun(peer)
        machine.send(CED, PREAMBLE, CALLED_DIS)
        self.assertEqual(rows_of(machine.take_page_behind_dis()), rows)
        self.client.event("job", tag=tag, outcome="Delivered", pages=1, delivered=1)

    def deliver(self, tag, peer, rows):
        """The job of this tag is asked for, and goes to the machine at a peer, which gets a page of so many rows."""
        self.asked(tag)
        self.connect(tag, peer)
        self.take(tag, peer, rows)

    def machine(self):
        """A machine that calls of jobs may go to."""
        peer = Peer(self.ports.take(), self.a1.called)
        peer.port = peer.socket.getsockname()[1]
        self.addCleanup(peer.close)
        return peer

    def called_leg(self):
        """What the called leg does, and how many jobs wait."""
        status = self.server.say("status")[0].split()
        return status[status.index("called") + 1], int(status[status.index("waiting") + 1])


class Places(Asked):
    """Where the pages of a job go."""

    def test_a_page_goes_only_to_the_machine_that_was_called_for_it(self):
        """The machine of the job before, which is called anew between the question and its answer, gets nothing."""
        self.begin()
        for number in range(TIMES):
            with self.subTest(number=number):
                self.call_the_machine_before_anew(f"first-{number}", f"second-{number}")

    def call_the_machine_before_anew(self, one, other):
        """Two jobs; between the question of the second and its answer the machine of the first is called anew."""
        first, second = self.machine(), self.machine()
        self.confirm(1, one)
        self.deliver(one, first, 1)
        self.confirm(2, other)
        self.client.events.append(self.asked(other))
        first.hear_all(0.1)
        first.send(ANSWERS)
        self.assertEqual(first.hear_all(QUIET), [], "it gets a datagram of the second job")
        self.deliver(other, second, 2)
        self.assertEqual(first.hear_all(1), [])

    def test_nothing_of_a_job_goes_to_the_next_machine(self):
        """The last datagram of a job is sent again for 1.3 s, and not to the machine of the next, which is connected meanwhile."""
        self.begin()
        first, second = self.machine(), self.machine()
        self.confirm(1, "first")
        self.confirm(2, "second")
        self.deliver("first", first, 1)
        self.asked("second")
        self.connect("second", second)
        self.begun(second)
        self.assertLess(max([Datagram(octets).number for _, octets in second.hear_all(QUIET)], default=0), 5)

    def test_a_peer_is_forgotten_with_its_job(self):
        """After the end of a job nothing goes to its machine, the last datagram sent again neither."""
        self.begin()
        first = self.machine()
        self.confirm(1, "first")
        self.deliver("first", first, 1)
        first.hear_all(0.1)
        self.assertEqual(first.hear_all(QUIET), [])
        self.assertEqual(self.client.say(f"peer a1 called {address(first.port)}"), NO_CALL)

    def test_a_machine_that_rings(self):
        """The call begins when its machine answers, however long it rings: T1 (35 s) runs from there."""
        self.begin()
        self.confirm(1, "first")
        self.asked("first")
        machine = self.machine()
        self.assertEqual(machine.hear_all(RINGS), [])
        self.connect("first", machine)
        self.take("first", machine, 1)

    def test_a_peer_that_is_said_twice(self):
        """While nothing was heard the call goes on to the second; then no other is taken, and there is nothing to be refused."""
        self.begin()
        first, second = self.machine(), self.machine()
        self.confirm(1, "first")
        self.asked("first")
        self.connect("first", first)
        self.begun(first)
        self.assertEqual(self.client.say(f"peer a1 called {address(second.port)}"), ["ok"])
        machine = Called(second)
        machine.newest = 0  # CNG went to the first
        machine.send(CED, PREAMBLE, CALLED_DIS)
        machine.wait_for_image()
        self.assertEqual(self.client.say(f"peer a1 called {address(first.port)}"), IN_CALL)
        self.assertEqual(self.client.say("refuse a1 486"), NO_CALL)
        self.assertEqual(self.client.say("hangup a1 called"), ["ok"])
        self.client.event("job", tag="first", delivered=0, outcome="HungUp")

    def test_no_word_changes_a_peer_of_the_configuration(self):
        """But on the calling leg, whose peer calls anew from where it likes. Nothing is asked for on such a line."""
        a1 = self.line()
        server = self.serve(a1)
        self.assertEqual(server.say(f"peer a1 called {address(a1.called_peer)}"), FIXED)
        self.assertEqual(server.say(f"peer a1 calling {address(a1.calling_peer)}"), ["ok"])
        self.assertEqual(server.say("refuse a1 486"), NO_CALL)


class Questions(Asked):
    """When a call is asked for, and what the answers come to."""

    def test_what_is_told(self):
        """The question, the call that begins, and the end of one that is hung up, octet for octet but for their moments."""
        self.begin()
        self.confirm(1, "first")
        dial = self.client.event("dial")
        self.assertEqual(
            event_line(dial), '{"event":"dial","line":"a1","at":N,"call":0,"tag":"first","try":1,"pages":1,"seconds":180}'
        )
        self.assertEqual(self.called_leg(), ("idle", 1))
        self.assertEqual(self.client.say("hangup a1 called"), NO_CALL)
        self.assertEqual(self.client.say(f"peer a1 called {address(self.machine().port)}"), ["ok"])
        connected = self.client.event("connected")
        self.assertEqual(event_line(connected), '{"event":"connected","line":"a1","at":N,"call":0,"tag":"first"}')
        self.assertEqual(self.called_leg(), ("job-0", 0))
        self.assertEqual(self.client.say("hangup a1 called"), ["ok"])
        job = '"width":1728,"resolution":"standard","pages":1,"delivered":0,"outcome":"HungUp"'
        self.assertEqual(
            event_line(self.client.event("job")), '{"event":"job","line":"a1","at":N,"call":0,"tag":"first",%s}' % job
        )

    def test_nothing_is_asked_for(self):
        """Then no word answers."""
        self.begin()
        for word in (f"peer a1 called {address(self.ports.take())}", "refuse a1 busy", "hangup a1 called"):
            self.assertEqual(self.client.say(word), NO_CALL, word)

    def test_a_machine_that_is_busy(self):
        """Its job ends, with the cause that was said, and the next one is asked for."""
        self.begin()
        self.confirm(1, "first")
        self.confirm(2, "second")
        self.asked("first")
        self.client.no_event("dial", 0.3)
        self.assertEqual(self.client.say("refuse a1 486"), ["ok"])
        job = '"width":1728,"resolution":"standard","pages":1,"delivered":0,"outcome":"NotPlaced","cause":"486"'
        self.assertEqual(
            event_line(self.client.event("job")), '{"event":"job","line":"a1","at":N,"call":0,"tag":"first",%s}' % job
        )
        self.deliver("second", self.machine(), 2)
        told = [json.loads(line) for line in self.server.say("report a1")[:-1]]
        self.assertEqual(
            [(it["tag"], it["outcome"], it.get("cause")) for it in told],
            [("first", "NotPlaced", "486"), ("second", "Delivered", None)],
        )
        counts = self.server.metrics()
        self.assertEqual((counts["faxgate_jobs_delivered_total"], counts["faxgate_jobs_failed_total"]), (1, 1))

    def test_a_question_that_nobody_answers(self):
        """It is refused after `dial_seconds`, and the next job is asked for."""
        self.begin(dial_seconds=1)
        self.confirm(1, "first")
        self.confirm(2, "second")
        first = self.client.event("dial", tag="first", seconds=1)
        job = self.client.event("job", tag="first", delivered=0, outcome="NotPlaced", cause="unanswered")
        self.assertTrue(1000 <= job["at"] - first["at"] < 1000 + 1000 * SLOW, (first, job))
        second = self.client.event("dial", tag="second", seconds=1)
        self.assertLessEqual(job["at"], second["at"])
        self.client.event("job", tag="second", delivered=0, outcome="NotPlaced", cause="unanswered")

    def test_while_nobody_hears_a_job_waits(self):
        """No question is asked, and the time of one that is open stands still."""
        self.begin(dial_seconds=2)
        self.client.close()
        self.confirm(1, "first")
        self.confirm(2, "second")
        time.sleep(2.5)
        self.assertEqual(self.called_leg(), ("idle", 2))
        word = f"peer a1 called {address(self.ports.take())}"
        self.assertEqual(self.server.say(word), NO_CALL)
        client = self.server.events()
        self.assertEqual([(it["event"], it["tag"], it["seconds"]) for it in client.events], [("dial", "first", 2)])
        client.close()
        time.sleep(2.5)
        self.assertEqual(self.called_leg(), ("idle", 2))
        self.client = self.server.events()
        self.assertEqual([(it["event"], it["tag"]) for it in self.client.events], [("dial", "first")])
        self.assertIn(self.client.events[0]["seconds"], (1, 2))
        self.client.event("job", tag="first", outcome="NotPlaced", cause="unanswered")
        self.deliver("second", self.machine(), 2)

    def test_events_tell_first_what_is_on(self):
        """A client that comes back is told the calls that are on, and the jobs whose calls are asked for or on."""
        self.begin()
        self.confirm(1, "first")
        self.asked("first")
        until(lambda: self.server.say("status")[0].split()[3] == "idle", what="an idle calling leg")
        self.assertEqual(self.client.say("ring a1 second"), ["ok 1"])
        later = self.server.client()
        self.assertEqual(later.say("events"), ["ok"])
        self.assertEqual([(it["event"], it["tag"]) for it in later.events], [("rung", "second"), ("dial", "first")])
        dial = later.events[1]
        self.assertEqual((dial["call"], dial["try"], dial["pages"]), (0, 1, 1))
        self.assertTrue(180 - 10 * SLOW < dial["seconds"] <= 180, dial)
        self.connect("first", self.machine())
        last = self.server.client()
        last.say("events")
        self.assertEqual([(it["event"], it["tag"]) for it in last.events], [("rung", "second"), ("connected", "first")])


class Restored(Asked):
    """Jobs that wait after a crash."""

    def leave(self, jobs):
        """A server is killed, and so many jobs wait, each of a page of as many rows as its number."""
        self.begin(spool=True)
        for number in range(1, jobs + 1):
            self.confirm(number, f"tag-{number}")
        self.client.event("ended", call=jobs - 1)
        self.server.kill()

    def test_they_wait_until_somebody_hears(self):
        """They are asked for once a client hears events, each in its turn, and none is lost."""
        self.leave(JOBS)
        self.server.start()
        time.sleep(QUIET)
        self.assertEqual(self.called_leg(), ("idle", JOBS))
        self.client = self.server.events()
        for number in range(1, JOBS + 1):
            self.deliver(f"tag-{number}", self.machine(), number)
        until(lambda: self.server.metrics()["faxgate_pages_stored"] == 0, what="the last job's end")

    def test_one_that_is_refused_is_gone(self):
        """It is not sent after the next start either."""
        self.leave(2)
        self.server.start()
        self.client = self.server.events()
        self.asked("tag-1")
        self.assertEqual(self.client.say("refuse a1 404"), ["ok"])
        self.client.event("job", tag="tag-1", outcome="NotPlaced", cause="404")
        self.asked("tag-2")
        self.server.kill()
        self.server.start()
        self.client = self.server.events()
        self.deliver("tag-2", self.machine(), 2)
        until(lambda: self.server.metrics()["faxgate_pages_stored"] == 0, what="the job's end")

    def test_the_next_call_has_its_own_tag(self):
        """After the last restored job that of this life is asked for, with its own tag."""
        self.leave(1)
        self.server.start()
        self.client = self.server.events()
        self.confirm(2, "later")
        self.deliver("tag-1", self.machine(), 1)
        self.deliver("later", self.machine(), 2)


    def test_on_standard_output(self):
        """Where words come on standard input, all events are told there, and so are the questions about the jobs that wait."""
        self.a1 = self.line(called_peer=False)
        self.server = self.serve(self.a1, spool=True, control=False)
        self.client, self.caller = self.server.standard, Caller(self.peer(self.a1, "calling"))
        self.confirm(1, "first")
        self.client.event("ended")
        self.server.kill()
        self.server.start()
        self.client = self.server.standard
        self.deliver("first", self.machine(), 1)


class Elements(Asked):
    """The sample of a client."""

    def setUp(self):
        super().setUp()
        self.a1 = self.line(calling_peer=False, called_peer=False)
        self.server = self.serve(self.a1)

    def run_element(self, called):
        """samples/element.py, which says this of the called machine, while a machine calls and has a page of three rows confirmed."""
        words = [self.server.control, address(self.a1.calling_peer), called]
        words = [sys.executable, str(TOP / "samples" / "element.py"), *words]
        caller = Caller(self.peer(self.a1, "calling"))
        caller.newest = -1  # the call begins before the line knows its peer
        element = subprocess.Popen(words, stdout=subprocess.PIPE, text=True)
        self.addCleanup(element.stdout.close)
        self.addCleanup(element.wait)
        self.addCleanup(element.kill)
        self.assertEqual(caller.call(page(3)), MCF)
        return element

    def test_it_delivers_a_page(self):
        """It rings a line, and says where its pages go once it is asked."""
        machine = self.machine()
        element = self.run_element(address(machine.port))
        self.assertEqual(rows_of(Called(machine).take_page()), 3)
        self.assertEqual(element.wait(LONGEST), 0)

    def test_a_machine_that_is_busy(self):
        """It says so, and tells that the page was not delivered."""
        element = self.run_element("486")
        self.assertEqual(element.wait(LONGEST), 1)
        self.assertIn("'cause': '486'", element.stdout.read())
