"""Jobs that could not be delivered, tried again over redial lines: after a while that the configuration says, or since a word says so."""
import contextlib
import itertools
import json
import math
import os
import random
import re
import threading
import time

import t4
import tiff6
from asked import NO_CALL, page, rows_of
from calls import CALLED_DIS, CALLER_DCN, CALLER_EOP, CED, CFR, CHECK, GATEWAY_DIS, MCF, PREAMBLE, TRAINING, Called, Caller, image
from server import LONGEST, SLOW, Peer, Server, address, event_line, until
from undelivered import MOST_IN_MEMORY, ROUNDS, Failing

BUSY, IN_CALL, NO_LINE = ["refused 1 Busy"], ["refused 6 InCall"], ["refused 7 NoLine"]
CALLER_MPS = "c002800002ffc8f240"
KILLS = int(os.environ.get("FAXGATE_KILLS", "3"))
# How long it is seen that nothing is tried, in seconds: longer than what is waited for where something is.
QUIET = 3


class Redial:
    """A redial line of a configuration, with a port of its own; its peer is known or not."""

    def __init__(self, ports, name="r1", has_peer=False):
        self.name, self.called, self.called_peer = name, ports.take(), ports.take()
        self._has_peer = has_peer

    def text(self):
        """The redial line in a configuration."""
        peer = f", peer = '{address(self.called_peer)}'" if self._has_peer else ""
        return f"[[redial]]\nname = '{self.name}'\ncalled = {{ local = '{address(self.called)}'{peer} }}\n"


class Retry:
    """After how many seconds a job is tried again, in a configuration."""

    def __init__(self, *after_seconds):
        self._after_seconds = list(after_seconds)

    def text(self):
        """The table in a configuration."""
        return f"[retry]\nafter_seconds = {json.dumps(self._after_seconds)}\n"


class Redialled(Failing):
    """A line whose called leg has no peer, and redial lines, over a spool."""

    def begin_redial(self, *after_seconds, redials=1, has_peer=False, spool=True):
        """A server of the line and of so many redial lines."""
        self.redials = [Redial(self.ports, f"r{number + 1}", has_peer) for number in range(redials)]
        self.a1 = self.line(called_peer=False)
        settings = [Retry(*after_seconds)] if after_seconds else []
        self.server = self.serve(self.a1, *settings, *self.redials, spool=spool)
        self.client = self.server.events()
        self.caller = Caller(self.peer(self.a1, "calling"))

    def start_again(self):
        """The server is killed, and another one begins."""
        self.server.kill()
        self.server.start()
        self.client = self.server.events()

    def asked_again(self, tag, number, line="r1", pages=1):
        """The question of the try of this number about the job of this tag."""
        return self.client.event("dial", tag=tag, line=line, pages=pages, **{"try": number})

    def refuse_again(self, tag, number, cause, line="r1"):
        """The call of a try cannot be placed."""
        self.asked_again(tag, number, line)
        self.assertEqual(self.client.say(f"refuse {line} {cause}"), ["ok"])
        self.client.event("job", line=line, tag=tag, outcome="NotPlaced", pages=1, delivered=0, cause=cause)
        self.client.event("undelivered", line="a1", tag=tag, outcome="NotPlaced", cause=cause, tries=number)

    def redial_peer(self, redial):
        """A machine that calls of a redial line may go to."""
        peer = Peer(self.ports.take(), redial.called)
        peer.port = peer.socket.getsockname()[1]
        self.addCleanup(peer.close)
        return peer

    def deliver_again(self, tag, number, rows, redial=None):
        """A try delivers the job of this tag, whose page has so many rows."""
        redial = redial or self.redials[0]
        self.asked_again(tag, number, redial.name)
        peer = self.redial_peer(redial)
        self.assertEqual(self.client.say(f"peer {redial.name} called {address(peer.port)}"), ["ok"])
        self.client.event("connected", line=redial.name, tag=tag)
        self.take(tag, peer, rows)

    def fail(self, rows, tag, cause="busy"):
        """A page of so many rows comes, and its call cannot be placed."""
        self.confirm(rows, tag)
        self.refuse(tag, cause)
        self.client.event("undelivered", tag=tag, tries=1)

    def none_waits(self):
        """Nothing is undelivered, now and after a crash."""
        until(lambda: self.server.metrics()["faxgate_pages_undelivered"] == 0, what="nothing that is undelivered")
        self.assertEqual(self.told(), [])
        self.server.kill()
        self.server.start()
        self.assertEqual(self.told(), [])


class AfterAWhile(Redialled):
    def test_a_machine_that_is_busy_twice(self):
        """It gets the page at the third try."""
        self.begin_redial(1, 1)
        self.fail(2, "49/1", "486")
        self.refuse_again("49/1", 2, "486")
        self.deliver_again("49/1", 3, 2)
        self.none_waits()

    def test_what_is_told(self):
        """The question of a try, octet for octet but for its moment, and what the redial line is meanwhile."""
        self.begin_redial(1)
        self.assertIn("redial r1 called idle", self.server.say("status"))
        self.fail(1, "49/1")
        dial = self.asked_again("49/1", 2)
        self.assertEqual(
            event_line(dial), '{"event":"dial","line":"r1","at":N,"call":0,"tag":"49/1","try":2,"pages":1,"seconds":180}'
        )
        self.assertIn("redial r1 called job-0 of a1 life 1 called_tag=49/1", self.server.say("status"))
        other = self.server.events()
        other.event("dial", line="r1", tag="49/1", **{"try": 2})

    def test_no_more_tries_than_are_configured(self):
        """After the last of them it waits for a word."""
        self.begin_redial(1)
        self.fail(1, "tag")
        self.refuse_again("tag", 2, "486")
        self.client.no_event("dial", QUIET)
        self.assertEqual([told["tries"] for told in self.told()], [2])
        self.assertEqual(self.server.say("retry a1 1 0"), ["ok"])
        self.deliver_again("tag", 3, 1)
        self.none_waits()

    def test_a_server_that_is_killed_between_tries(self):
        """The next one goes on with the tries where they were, by the clock of the day."""
        self.begin_redial(1, 2)
        self.fail(3, "tag")
        self.refuse_again("tag", 2, "486")
        self.start_again()
        self.deliver_again("tag", 3, 3)
        self.none_waits()

    def test_a_server_that_is_killed_in_a_try(self):
        """The try counts for nothing, and is made again."""
        self.begin_redial(1)
        self.fail(1, "tag")
        self.asked_again("tag", 2)
        self.start_again()
        self.deliver_again("tag", 2, 1)
        self.none_waits()

    def test_a_redial_line_with_a_peer(self):
        """Its calls are not asked for."""
        self.begin_redial(1, has_peer=True)
        peer = Peer(self.redials[0].called_peer, self.redials[0].called)
        self.addCleanup(peer.close)
        self.fail(2, "tag")
        self.client.event("dial", line="r1", tag="tag")
        self.take("tag", peer, 2)
        self.none_waits()


class TwoRedialLines(Redialled):
    def test_no_job_is_tried_on_both(self):
        """Two jobs go out side by side, and a job alone goes over one of them."""
        self.begin_redial(1, redials=2)
        self.fail(1, "one")
        dial = self.client.event("dial", tag="one", **{"try": 2})
        self.client.no_event("dial", QUIET)
        self.fail(2, "two")
        other = self.client.event("dial", tag="two", **{"try": 2})
        self.assertEqual({dial["line"], other["line"]}, {"r1", "r2"})
        self.client.no_event("dial", QUIET)
        self.assertEqual(self.server.say("retry a1 1 0"), IN_CALL)
        for event, rows in ((dial, 1), (other, 2)):
            self.client.events.append(event)
            redial = self.redials[int(event["line"][1]) - 1]
            self.deliver_again(event["tag"], 2, rows, redial)
        self.none_waits()


class ByAWord(Redialled):
    def test_a_job_is_tried_at_once(self):
        """Where a redial line is idle; and while it is under way it is neither tried again nor dropped."""
        self.begin_redial()
        self.fail(1, "one")
        self.fail(2, "two")
        self.client.no_event("dial", QUIET)
        self.assertEqual(self.server.say("retry a1 1 7"), NO_CALL)
        self.assertEqual(self.server.say("retry a1 1 1"), ["ok"])
        self.client.events.append(self.asked_again("two", 2))
        self.assertEqual(self.server.say("retry a1 1 1"), IN_CALL)
        self.assertEqual(self.server.say("discard a1 1 1"), IN_CALL)
        self.assertEqual(self.server.say("retry a1 1 0"), BUSY)
        self.deliver_again("two", 2, 2)
        self.assertEqual(self.server.say("retry a1 1 1"), NO_CALL)
        until(lambda: self.server.say("retry a1 1 0") == ["ok"], what="a redial line that is idle")
        self.refuse_again("one", 2, "486")
        until(lambda: self.server.say("discard a1 1 0") == ["ok"], what="a job that is under way no more")
        self.none_waits()

    def test_words_that_no_redial_line_takes(self):
        """It has no calling leg, and keeps no reports."""
        self.begin_redial()
        self.assertEqual(self.server.say("ring r1"), ["refused 4 NoPeer"])
        self.assertEqual(self.server.say(f"peer r1 calling {address(9)}"), NO_CALL)
        self.assertEqual(self.server.say("hangup r1 calling"), NO_CALL)
        self.assertEqual(self.server.say("hangup r1 called"), NO_CALL)
        self.assertEqual(self.server.say("refuse r1 486"), NO_CALL)
        self.assertEqual(self.server.say("report r1"), ["ok"])
        self.assertEqual(self.server.say("ring r2"), NO_LINE)

    def test_without_a_redial_line(self):
        """Nothing is tried again, and the word says so."""
        self.begin(spool=True)
        self.confirm(1, "tag")
        self.refuse("tag")
        self.client.event("undelivered", tag="tag")
        self.assertEqual(self.server.say("retry a1 1 0"), NO_LINE)
        self.assertEqual(len(self.told()), 1)


class InMemory(Redialled):
    """Without a spool."""

    def test_a_machine_that_is_busy_twice(self):
        """It gets the page at the third try, after a while or by a word; and while that is on it is not dropped."""
        self.begin_redial(1, spool=False)
        self.fail(2, "49/1", "486")
        self.refuse_again("49/1", 2, "486")
        self.client.no_event("dial", QUIET)
        self.assertEqual(self.server.say("retry a1 1 7"), NO_CALL)
        self.assertEqual(self.server.say("retry a1 1 0"), ["ok"])
        self.client.events.append(self.asked_again("49/1", 3))
        self.assertEqual(self.server.say("retry a1 1 0"), IN_CALL)
        self.assertEqual(self.server.say("discard a1 1 0"), IN_CALL)
        self.deliver_again("49/1", 3, 2)
        self.none_waits()

    def test_a_job_that_is_under_way_is_not_dropped(self):
        """Where more calls wait than are kept while the oldest is tried, those after it go."""
        self.redials = [Redial(self.ports)]
        self.begin_many(*self.redials)
        oldest, *failed = self.fail_on_all()
        self.assertEqual(self.server.say("retry {} 1 {}".format(*oldest)), ["ok"])
        self.client.events.append(self.asked_again("a0", 2))
        for _ in range(ROUNDS - 1):
            failed += self.fail_on_all()
        dropped = 1 + len(failed) - MOST_IN_MEMORY
        self.assertEqual([self.call_of(self.client.event("discarded")) for _ in range(dropped)], failed[:dropped])
        self.deliver_again("a0", 2, 1)
        until(lambda: [self.call_of(told) for told in self.told()] == failed[dropped:], what="the others")


class SomePages(Redialled):
    def test_what_was_delivered_is_not_sent_again(self):
        """Of two pages the first try delivers one: the next one sends the other alone, also after a crash."""
        self.begin_redial(1, 1)
        self.confirm_two("tag")
        self.client.event("dial", tag="tag", pages=2)
        self.client.say("refuse a1 busy")
        self.client.event("undelivered", tag="tag", pages=2, tries=1)
        self.asked_again("tag", 2, pages=2)
        peer = self.redial_peer(self.redials[0])
        self.client.say(f"peer r1 called {address(peer.port)}")
        machine = self.begun(peer)
        machine.send(CED, PREAMBLE, CALLED_DIS)
        machine.confirm_check()
        self.assertEqual(rows_of(machine.wait_for_image()), 1)
        machine.wait_for(CALLER_MPS)
        machine.send(PREAMBLE, MCF)
        self.assertEqual(rows_of(machine.wait_for_image()), 2)
        self.client.say("hangup r1 called")
        self.client.event("job", line="r1", tag="tag", outcome="HungUp", pages=2, delivered=1)
        self.client.event("undelivered", tag="tag", pages=1, outcome="HungUp", tries=2)
        self.start_again()
        self.deliver_again("tag", 3, 2)
        self.none_waits()

    def confirm_two(self, tag):
        """A machine calls with this tag, and has pages of one row and of two confirmed."""
        self.assertRegex(self.server.say(f"ring a1 {tag}")[0], "^ok [0-9]+$")
        self.caller.begin_anew()
        self.caller.train()
        self.caller.send(TRAINING, image(page(1)), PREAMBLE, CALLER_MPS)
        self.caller.wait_for(MCF)
        self.caller.send(TRAINING, image(page(2)), PREAMBLE, CALLER_EOP)
        self.caller.wait_for(MCF)
        self.caller.send(PREAMBLE, CALLER_DCN)


class TwoJobsOfACall(Redialled):
    """A caller says of each of two pages that it is the last one, so that they are two jobs, and the first fails while its call is on."""

    def fail_both(self):
        """While the call is on no try begins, since the end of one would drop what comes meanwhile."""
        self.assertEqual(self.server.say("ring a1 tag"), ["ok 0"])
        self.caller.begin_anew()
        self.caller.train()
        self.assertEqual(self.caller.send_page(page(1)), MCF)
        self.refuse("tag")
        self.client.event("undelivered", tag="tag", pages=1)
        self.client.no_event("dial", QUIET)
        self.assertEqual(self.server.say("retry a1 1 0"), IN_CALL)
        self.assertEqual(self.caller.send_page(page(2)), MCF)
        self.caller.send(PREAMBLE, CALLER_DCN)
        self.refuse("tag")
        self.client.event("undelivered", tag="tag", pages=2)

    def deliver_both(self):
        """After its end both go out, a job each."""
        for rows in (1, 2):
            self.deliver_again("tag", 2, rows)
        until(lambda: self.server.metrics()["faxgate_pages_undelivered"] == 0, what="nothing that is undelivered")

    def test_with_a_spool(self):
        self.begin_redial(1)
        self.fail_both()
        self.deliver_both()
        self.none_waits()

    def test_in_memory(self):
        self.begin_redial(1, spool=False)
        self.fail_both()
        self.deliver_both()


class Lost(AssertionError):
    """What must not come even once: a play of chance that raises it is not played again (`tools/play`)."""


class Driven(Redialled):
    """Lines and redial lines, machines that call with pages of which no two are alike, and such as take them or are busy; and which pages
    were confirmed, came, and are listed."""

    LINES, REDIALS = 3, 6
    # how a machine takes pages
    MACHINE = Called

    def begin_driven(self, *after_seconds, set_up=None, **options):
        """A server of some lines and redial lines, with such options, which begins once this was done with it."""
        # pages, by the tag of their call and their number in it: those that were confirmed, and those that came
        self.confirmed, self.got, self.wrong = set(), set(), []
        # the tags of calls that a word dropped, and of those of which the server did not say so before it was killed
        self.dropped, self.said, self.retried = set(), set(), 0
        self.numbers, self.rows = itertools.count(), {}
        self.redials = [Redial(self.ports, f"r{number + 1}") for number in range(self.REDIALS)]
        self.lines = [self.line(f"a{number + 1}", called_peer=False) for number in range(self.LINES)]
        self.callers = {line.name: Caller(self.peer(line, "calling")) for line in self.lines}
        retry = [Retry(*after_seconds)] if after_seconds else []
        self.server = Server([*self.lines, *retry, *self.redials], spool=True, **options)
        self.addCleanup(self.server.close)
        if set_up:
            set_up(self.server)
        self.server.start()
        self.client = self.server.events()
        self.ports_of = {line.name: line.called for line in (*self.lines, *self.redials)}

    @staticmethod
    def begin_thread(what, *words):
        """A thread that does this, and ends by itself."""
        thread = threading.Thread(target=what, args=words, daemon=True)
        thread.start()
        return thread

    def missing(self):
        """The pages that were confirmed, did not come, and were not dropped."""
        return {page for page in self.confirmed - self.got if page[0] not in self.dropped | self.said}

    def listed(self, told=""):
        """The pages that `faxgate spool` lists, which stand in a TIFF of it as they were sent; what is harmed is told so, an expression."""
        path = self.server.path("listed.tif")
        process = self.server.run("spool", self.server.spool, "--tiff", path)
        output, errors = process.communicate(timeout=LONGEST)
        self.assertEqual(process.returncode, 0)
        self.assertRegex(errors, f"^{told}$")
        jobs = [json.loads(line) for line in output.splitlines()]
        if not jobs:
            return set()
        with open(path, "rb") as file:
            pages = [page.strip for page in tiff6.read(file.read())]
        os.unlink(path)
        self.assertEqual(len(pages), sum(job["pages"] for job in jobs))
        sent = {tiff6.strip_of(rows): of_call for of_call, rows in self.rows.items()}
        found = {sent[page] for page in pages}
        self.assertEqual({of_call[0] for of_call in found}, {job["tag"] for job in jobs})
        return found

    def drain(self):
        """No call is refused any more, and what is undelivered is tried again by words, until all is there, or nothing comes for long."""
        came, since = -1, time.monotonic()
        while self.missing() and time.monotonic() < since + LONGEST:
            if len(self.got) > came:
                came, since = len(self.got), time.monotonic()
            self.live(time.monotonic() + 1, lambda: False)
            for told in self.told():
                self.server.say(f"retry {told['line']} {told['life']} {told['call']}")
        self.see_none_lost(self.listed() if self.missing() else set(), "in the end")
        self.assertEqual(self.missing(), set(), "pages that are listed, and do not come")

    def see_none_lost(self, listed, when):
        """Each page that was confirmed has come, is listed, or was dropped by a word; and none has come that was not sent."""
        lost = self.missing() - listed
        if lost or self.wrong:
            raise Lost(f"{when}: lost: {sorted(lost)[:10]}, of {len(lost)}; not sent: {self.wrong[:10]}")

    def call_once(self, line, tag):
        """A machine calls with this tag, and sends a page or two, which are a job or two; each is confirmed, or the server is killed before."""
        with contextlib.suppress(OSError, AssertionError, TimeoutError):
            caller = self.callers[line.name]
            caller.forget()
            if not self.server.say(f"ring {line.name} {tag}")[0].startswith("ok"):
                return
            self.hear(caller, GATEWAY_DIS)
            caller.send(caller.dcs, TRAINING, CHECK)
            self.hear(caller, CFR)
            commands = random.choice([(CALLER_EOP,), (CALLER_MPS, CALLER_EOP), (CALLER_EOP, CALLER_EOP)])
            for number, command in enumerate(commands, 1):
                self.send_page(caller, (tag, number), command)
            caller.send(PREAMBLE, CALLER_DCN)

    def send_page(self, caller, of_call, command):
        """A page that no other is like is sent and confirmed."""
        self.rows[of_call] = rows = self.rows_of(next(self.numbers))
        caller.send(TRAINING, image(t4.text(rows).hex()), PREAMBLE, command)
        self.hear(caller, MCF)
        self.confirmed.add(of_call)

    def hear(self, caller, packet):
        """Waits for a packet, while the server is there."""
        end = time.monotonic() + 3 * SLOW
        while True:
            try:
                return caller.wait_for(packet, within=0.3)
            except AssertionError:
                if self.server.process.poll() is not None or time.monotonic() > end:
                    raise

    @staticmethod
    def rows_of(number):
        """The rows of the page of this number, which no other has."""
        high, low = divmod(number, 1_600)
        return 3 * [[low + 1, high + 1, 1_726 - low - high]]

    def live(self, end, is_refused):
        """Answers the questions of the server up to a moment: each call is refused, or goes to a machine that takes its pages."""
        while time.monotonic() < end:
            line = self.client.line(0.05)
            if line is not None:
                self.client.events.append(json.loads(line))
            events, self.client.events = self.client.events, []
            for event in events:
                if event["event"] == "dial" and "seconds" in event:
                    self.answer(event["line"], event["tag"], is_refused)

    def answer(self, line, tag, is_refused):
        """A question is answered. A machine that takes the first page may be gone after it."""
        if is_refused():
            self.client.say(f"refuse {line} busy")
            return
        peer = Peer(0, self.ports_of[line])
        self.begin_thread(self.take_pages, self.MACHINE(peer), line, tag, is_refused())
        self.client.say(f"peer {line} called {address(peer.socket.getsockname()[1])}")

    def take_pages(self, machine, line, tag, leaves):
        """A machine takes the pages of this tag, and has each before it confirms it."""
        with contextlib.closing(machine.peer), contextlib.suppress(OSError, AssertionError, ValueError):
            machine.answer()
            machine.wait_for_image()
            machine.send(PREAMBLE, CFR)
            command = CALLER_MPS
            while command == CALLER_MPS:
                text = machine.wait_for_image()
                command = machine.wait_for(CALLER_MPS, CALLER_EOP)
                self.come(tag, text)
                machine.send(PREAMBLE, MCF)
                if leaves and command == CALLER_MPS:
                    self.server.say(f"hangup {line} called")
                    return
            machine.wait_for(CALLER_DCN)

    def come(self, tag, text):
        """A page came in a call of this tag."""
        pages = [of_call for of_call, rows in list(self.rows.items()) if of_call[0] == tag and marks(t4.text(rows).hex()) == marks(text)]
        self.got.update(pages)
        if len(pages) != 1:
            self.wrong.append((tag, text))

    def say_words(self, end=math.inf):
        """Somebody looks at what is undelivered, and tries a job again or drops it, until a moment, or until the server is gone."""
        with contextlib.suppress(OSError, AssertionError):
            while time.monotonic() < end:
                time.sleep(random.uniform(0, 1))
                undelivered = self.told()
                if undelivered:
                    self.say_of(random.choice(undelivered))

    def say_of(self, told):
        """A word about a job that is undelivered: one of three drops it."""
        call = f"{told['line']} {told['life']} {told['call']}"
        if random.random() < 0.67:
            self.retried += self.server.say(f"retry {call}") == ["ok"]
            return
        self.said.add(told["tag"])
        answer = self.server.say(f"discard {call}")
        self.said.discard(told["tag"])
        if answer == ["ok"]:
            self.dropped.add(told["tag"])


def marks(text):
    """The text of a page, each EOL of which is a mark, whatever fill stands before it."""
    return re.sub("0{11,}1", "E", f"{int(text, 16):0{4 * len(text)}b}").rstrip("0")


class Killed(Driven):
    """Servers that are killed at random moments while jobs fail, are tried again by the clock and by words, are dropped by a word, and are
    delivered. FAXGATE_KILLS says how many."""

    def test_no_page_is_lost_by_servers_that_are_killed(self):
        """After each kill each page whose MCF its caller saw has come, is listed by `faxgate spool` as it was sent, or is of a call that a
        word dropped; in the end each has come, or was dropped."""
        self.begin_driven(*[1] * 16)
        for number in range(KILLS):
            callers = [self.begin_thread(self.call_once, line, f"page-{number}-{line.name}") for line in self.lines]
            operator = self.begin_thread(self.say_words)
            self.live(time.monotonic() + random.uniform(0.1, 4), lambda: random.random() < 0.5)
            self.server.kill()
            for thread in (*callers, operator):
                thread.join()
            self.client.close()
            self.see_none_lost(self.listed(), f"after kill {number}")
            self.server.start()
            self.client = self.server.events()
        self.drain()
        if KILLS > 3:
            print(
                f"{KILLS} kills: {len(self.confirmed)} pages confirmed, {len(self.confirmed & self.got)} came, {len(self.dropped)} calls dropped,"
                f" and {len(self.said)} by a word that was not answered; {self.retried} tried again by a word",
                flush=True,
            )
