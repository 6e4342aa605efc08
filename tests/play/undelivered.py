"""Pages whose job failed: they are kept in files of their own, told by words and events, found again by each start, until a word drops them."""
import concurrent.futures
import json
import os
import time

from asked import Asked, page
from calls import MCF, Caller
from server import LONGEST, event_line, until
from spooled import GATE, HEAD

NO_CALL = ["refused 11 NoCall"]
# Without a spool so many calls are kept.
MOST_IN_MEMORY = 64
# There so many machines call at once, so often that it is more.
LINES, ROUNDS = 11, 6


class Failing(Asked):
    """A line whose called leg has no peer, over a spool, and jobs of it that fail."""

    def refuse(self, tag, cause="busy"):
        """The call of the job of this tag, of one page, cannot be placed."""
        self.asked(tag)
        self.assertEqual(self.client.say(f"refuse a1 {cause}"), ["ok"])
        self.client.event("job", tag=tag, outcome="NotPlaced", pages=1, delivered=0, cause=cause)

    def told(self, word="undelivered"):
        """What the word tells, an event for each call."""
        *lines, last = self.server.say(word)
        self.assertEqual(last, "ok")
        return [json.loads(line) for line in lines]


    def begin_many(self, *more):
        """A server without a spool of lines whose called legs have no peers, and of these parts of a configuration."""
        self.lines = [self.line(f"a{number}", called_peer=False) for number in range(LINES)]
        self.server = self.serve(*self.lines, *more)
        self.client = self.server.events()
        self.callers = [Caller(self.peer(line, "calling")) for line in self.lines]

    def fail_on_all(self):
        """A page comes on each of these lines at one time, and then their calls cannot be placed, one after the other: each of them."""
        with concurrent.futures.ThreadPoolExecutor(LINES) as pool:
            list(pool.map(self.call_on, self.lines, self.callers))
        for line in self.lines:
            self.client.event("dial", line=line.name)
            self.assertEqual(self.client.say(f"refuse {line.name} busy"), ["ok"])
            yield self.call_of(self.client.event("undelivered", line=line.name))

    def call_on(self, line, caller):
        """A machine calls on a line, whose name is the tag, and has a page confirmed."""
        self.assertRegex(self.server.say(f"ring {line.name} {line.name}")[0], "^ok [0-9]+$")
        caller.begin_anew()
        self.assertEqual(caller.call(page(1)), MCF)
        until(lambda: f"line {line.name} calling idle" in "\n".join(self.server.say("status")), what="an idle calling leg")

    def call_of(self, event):
        """Which call an event tells of."""
        return event["line"], event["call"]


class Undelivered(Failing):
    def test_a_page_that_was_refused_is_kept(self):
        """It is told, counted, found by the next start, and dropped by a word alone."""
        self.begin(spool=True)
        began = int(time.time())
        self.confirm(2, "49/1")
        self.refuse("49/1")
        event = self.client.event("undelivered", tag="49/1")
        self.assertLessEqual(began, event["last"])
        self.assertLessEqual(event["last"], time.time() + 1)
        event["last"] = 0
        self.assertEqual(
            event_line(event),
            '{"event":"undelivered","line":"a1","at":N,"life":1,"call":0,"tag":"49/1","pages":1,"outcome":"NotPlaced","cause":"busy","tries":1,"last":0}',
        )
        self.assert_kept(1, 1)
        self.server.kill()
        self.server.start()
        self.client = self.server.events()
        self.assert_kept(1, 0)
        (told,) = self.told()
        self.assertEqual((told["line"], told["life"], told["call"], told["pages"]), ("a1", 1, 0, 1))
        self.assertEqual((told["tag"], told["outcome"], told["cause"], told["tries"]), ("49/1", "NotPlaced", "busy", 1))
        self.assertEqual(len(self.told("undelivered a1")), 1)
        self.assertEqual(self.told("undelivered a2"), [])
        for word in ("discard a1 1 1", "discard a1 2 0", "discard a2 1 0"):
            self.assertEqual(self.server.say(word), NO_CALL)
        self.assertEqual(len(self.told()), 1)
        self.assertEqual(self.server.say("discard a1 1 0"), ["ok"])
        event = self.client.event("discarded", tag="49/1")
        self.assertEqual(event_line(event), '{"event":"discarded","line":"a1","at":N,"life":1,"call":0,"tag":"49/1"}')
        self.assertEqual(self.told(), [])
        self.assertEqual(self.server.say("discard a1 1 0"), NO_CALL)
        self.assertEqual(self.server.metrics()["faxgate_jobs_discarded_total"], 1)
        self.assert_kept(0, 0)
        self.server.kill()
        self.server.start()
        self.assertEqual(self.told(), [])

    def assert_kept(self, pages, jobs):
        """So many pages are undelivered, and so many jobs became so in this life; nothing else waits."""
        until(lambda: self.server.metrics()["faxgate_pages_undelivered"] == pages, what="pages that are undelivered")
        counts = self.server.metrics()
        self.assertEqual(counts["faxgate_jobs_undelivered_total"], jobs)
        self.assertEqual((counts["faxgate_jobs_waiting"], counts["faxgate_pages_stored"]), (0, 0))

    def test_a_page_that_came_is_not_kept(self):
        """A job that was delivered leaves nothing, before one that was not and after it."""
        self.begin(spool=True)
        self.confirm(1, "first")
        self.deliver("first", self.machine(), 1)
        self.confirm(2, "second")
        self.refuse("second", "486")
        self.client.event("undelivered", tag="second", cause="486")
        self.confirm(3, "third")
        self.deliver("third", self.machine(), 3)
        self.assertEqual([told["tag"] for told in self.told()], ["second"])

    def test_pages_of_three_jobs(self):
        """Each is told with its own call, in the order in which they failed, and a word drops just the one that it names."""
        self.begin(spool=True)
        for number, tag in enumerate(("one", "two", "three")):
            self.confirm(1, tag)
            self.refuse(tag, f"cause-{number}")
            self.client.event("undelivered", tag=tag)
        self.assertEqual([(told["call"], told["cause"]) for told in self.told()], [(0, "cause-0"), (1, "cause-1"), (2, "cause-2")])
        self.assertEqual(self.server.say("discard a1 1 1"), ["ok"])
        self.assertEqual([told["tag"] for told in self.told()], ["one", "three"])
        self.server.kill()
        self.server.start()
        self.assertEqual([told["tag"] for told in self.told()], ["one", "three"])

    def test_the_end_is_noted_after_the_pages_are_kept(self):
        """The files of undelivered pages have the page, and those of what waits have its end."""
        self.begin(spool=True)
        self.confirm(1, "tag")
        self.refuse("tag")
        self.client.event("undelivered", tag="tag")
        self.server.kill()
        sizes = {name: os.path.getsize(os.path.join(self.server.spool, name)) for name in os.listdir(self.server.spool)}
        kept = sum(size for name, size in sizes.items() if name.startswith("undelivered"))
        self.assertGreater(kept, 2 * (GATE + HEAD))

    def first_pair(self):
        """The files of what waits, as they stand."""
        for name in ("pages", "pages-wal"):
            path = os.path.join(self.server.spool, name)
            with open(path, "rb") as file:
                yield path, file.read()

    def test_a_job_that_a_crash_left_in_both_pairs(self):
        """Its pages are kept, and its end is not noted: it is sent once more, and where it fails again its page is told and dropped once."""
        self.begin(spool=True)
        self.confirm(2, "tag")
        self.asked("tag")
        before = list(self.first_pair())
        self.assertEqual(self.client.say("refuse a1 busy"), ["ok"])
        self.client.event("undelivered", tag="tag", pages=1)
        self.server.kill()
        for path, octets in before:
            with open(path, "wb") as file:
                file.write(octets)
        self.server.start()
        self.client = self.server.events()
        self.refuse("tag", "486")
        self.client.event("undelivered", tag="tag", pages=1, cause="486")
        self.assert_kept(1, 1)
        self.server.kill()
        self.server.start()
        (told,) = self.told()
        self.assertEqual((told["tag"], told["pages"], told["cause"], told["tries"]), ("tag", 1, "486", 1))
        self.assertEqual(self.server.say("discard a1 1 0"), ["ok"])
        self.assertEqual(self.told(), [])

    def spool(self, *words):
        """What `faxgate spool` tells of the server's folder, and how it ends."""
        process = self.server.run("spool", self.server.spool, *words)
        output, errors = process.communicate(timeout=LONGEST)
        return [json.loads(line) for line in output.splitlines()], errors, process.returncode

    def test_its_pages_are_fetched_beside_the_server(self):
        """The job is listed as undelivered, the page is written as a picture, and after `discard` there is none."""
        self.begin(spool=True)
        self.confirm(2, "49/1")
        self.refuse("49/1")
        self.client.event("undelivered", tag="49/1")
        told = {"state": "undelivered", "line": "a1", "life": 1, "call": 0, "tag": "49/1", "first": 1, "pages": 1}
        (job,), errors, status = self.spool()
        self.assertEqual(({name: job[name] for name in told}, errors, status), (told, "", 0))
        prefix = self.server.path("kept")
        self.assertEqual(len(self.spool("a1", "1", "0", "--pages", prefix)[0]), 1)
        with open(f"{prefix}-a1-1-0-1.pbm", "rb") as file:
            self.assertEqual(file.read(), b"P4\n1728 2\n" + bytes(2 * 1728 // 8))
        self.assertEqual(self.server.say("discard a1 1 0"), ["ok"])
        self.assertEqual(self.spool(), ([], "", 0))
        self.assertEqual(self.spool("a1", "1", "0")[2], 1)


class InMemory(Failing):
    """Without a spool they are kept in memory."""

    def test_a_page_that_was_refused_is_kept(self):
        """It is told, counted, dropped by a word; and gone with its process."""
        self.begin()
        self.confirm(2, "49/1")
        self.refuse("49/1")
        event = self.client.event("undelivered", tag="49/1")
        event["last"] = 0
        self.assertEqual(
            event_line(event),
            '{"event":"undelivered","line":"a1","at":N,"life":1,"call":0,"tag":"49/1","pages":1,"outcome":"NotPlaced","cause":"busy","tries":1,"last":0}',
        )
        self.assertEqual([told["tag"] for told in self.told("undelivered a1")], ["49/1"])
        self.assertEqual(self.told("undelivered a2"), [])
        counts = self.server.metrics()
        self.assertEqual((counts["faxgate_pages_undelivered"], counts["faxgate_jobs_undelivered_total"]), (1, 1))
        self.assertEqual((counts["faxgate_puts_total"], counts["faxgate_pages_stored"]), (0, 0))
        self.assertFalse([line for line in self.server.say("status") if line.startswith("spool")])
        for word in ("discard a1 1 1", "discard a1 2 0", "discard a2 1 0"):
            self.assertEqual(self.server.say(word), NO_CALL)
        self.assertEqual(self.server.say("discard a1 1 0"), ["ok"])
        event = self.client.event("discarded", tag="49/1")
        self.assertEqual(event_line(event), '{"event":"discarded","line":"a1","at":N,"life":1,"call":0,"tag":"49/1"}')
        self.assertEqual(self.told(), [])
        self.confirm(1, "gone")
        self.refuse("gone")
        self.client.event("undelivered", tag="gone")
        self.server.kill()
        self.server.start()
        self.assertEqual(self.told(), [])

    def test_a_page_that_came_is_not_kept(self):
        """A job that was delivered leaves nothing, before one that was not and after it."""
        self.begin()
        self.confirm(1, "first")
        self.deliver("first", self.machine(), 1)
        self.confirm(2, "second")
        self.refuse("second", "486")
        self.client.event("undelivered", tag="second", cause="486")
        self.confirm(3, "third")
        self.deliver("third", self.machine(), 3)
        self.assertEqual([told["tag"] for told in self.told()], ["second"])

    def test_the_oldest_is_dropped(self):
        """Of 65 jobs that failed the first is told as dropped, of 66 the second too, and the others are listed."""
        self.begin_many()
        failed = []
        for _ in range(ROUNDS):
            for call in self.fail_on_all():
                failed.append(call)
                dropped = len(failed) - MOST_IN_MEMORY
                if dropped > 0:
                    self.assertEqual(self.call_of(self.client.event("discarded")), failed[dropped - 1])
        self.assertGreaterEqual(dropped, 2)
        self.assertEqual([self.call_of(told) for told in self.told()], failed[dropped:])
        counts = self.server.metrics()
        self.assertEqual((counts["faxgate_jobs_discarded_total"], counts["faxgate_pages_undelivered"]), (dropped, MOST_IN_MEMORY))
