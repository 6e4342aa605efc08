"""The spool of `faxgate serve`: pages that survive a crash, what stands in its files, and disks that are full or damaged."""
import contextlib
import hashlib
import os
import random
import resource
import stat
import struct
import time
import unittest

import t4
import t38
from playing import PAGE, PATIENCE, SHORT_T4, Playing, numbers
from server import Line, Server, event_line, until

# A page of one row: as a machine sends it, and as its record has it, in the two-dimensional coding.
ROW = [[0, 1, 1719, 8]]
OTHER_ROW = [[100, 3, 1625]]
# One whose record is longer than what a server says on its standard error, where that is a file of the same limit.
TALL = 150 * ROW
FILES = ("pages", "pages-wal")
# What the records of pages, of jobs that ended and of epochs begin with.
PAGE_KIND, ENDED_KIND, EPOCH = b"\x01", b"\x02", b"\x03"
DELIVERED, PAGE_REFUSED = 0, 7


# Records (docs/ARCHITECTURE.md): a gate three times, the length three times, a SHA-256 digest, and what it is of.
OPEN, SHUT = b"\x01\x01\x01", b"\x00\x00\x00"
HEADER = 15


def record(octets):
    """A record of these octets, after its open gate."""
    sealed = hashlib.sha256(octets).digest() + octets
    return OPEN + 3 * struct.pack(">I", len(sealed)) + sealed


def file_of(*records):
    """A file of records, with a shut gate after them."""
    return b"".join(map(record, records)) + SHUT


def short(text):
    return bytes([len(text)]) + text


def epoch(number):
    return EPOCH + struct.pack(">I", number)


def epochs(number):
    """An epoch is put twice."""
    return [epoch(number), epoch(number)]


def page(line, life, call, number, text, closes=True, tag=b"", width=0, fine=False):
    """The record of a page; the widths are 0 to 2."""
    head = PAGE_KIND + struct.pack(">III", life, call, number) + bytes([width, fine, closes])
    return head + short(line) + short(tag) + text


def ended(line, life, call, first, pages, delivered, outcome=DELIVERED, width=0, fine=False):
    """The record of a job that ended."""
    head = ENDED_KIND + struct.pack(">IIII", life, call, pages, delivered) + bytes([width, fine, outcome])
    return head + struct.pack(">I", first) + short(line)


def records_in(octets):
    """What the records that octets begin with are of; of each the digest is right."""
    found = []
    while octets[: len(OPEN)] == OPEN:
        lengths = struct.unpack(">III", octets[len(OPEN) : HEADER])
        if len(set(lengths)) != 1:
            raise AssertionError("the lengths of a record differ")
        sealed, octets = octets[HEADER : HEADER + lengths[0]], octets[HEADER + lengths[0] :]
        if hashlib.sha256(sealed[32:]).digest() != sealed[:32]:
            raise AssertionError("a digest is wrong")
        found.append(sealed[32:])
    return found


def kept(rows):
    """The text of a page of one row in its record."""
    return t4.text(rows, two_d=True)


class Spooling(Playing):
    def serve(self, *lines, files=None):
        """A server of these lines with a spool, in which these files stand."""
        server = Server(lines, spool=True)
        self.addCleanup(server.close)
        for name, octets in (files or {}).items():
            self.write(server, name, octets)
        return server.start()

    @staticmethod
    def limit(server, octets):
        """From now on its disk is full: a write after this place in a file fails (setrlimit(2))."""
        _, most = resource.prlimit(server.process.pid, resource.RLIMIT_FSIZE)
        resource.prlimit(server.process.pid, resource.RLIMIT_FSIZE, (octets, most))

    @staticmethod
    def write(server, name, octets):
        with open(os.path.join(server.spool, name), "wb") as file:
            file.write(octets)

    @staticmethod
    def file(server, name):
        with open(os.path.join(server.spool, name), "rb") as file:
            return file.read()

    def records(self, server):
        """What stands in the file that tells records; the other one tells none."""
        told = [records_in(self.file(server, name)) for name in FILES]
        self.assertIn([], told)
        return told[0] + told[1]

    def silent(self, line):
        """A called machine that answers nothing."""
        return self.stack.enter_context(contextlib.closing(t38.Leg(line.called_peer)))

    def jobs(self, events, *wanted):
        """Awaits these jobs: line, call, tag, pages, all of which are delivered."""
        for line, call, tag, pages in wanted:
            self.await_job(events, line=line, call=call, tag=tag, pages=pages, delivered=pages)


class RecordsHaveTheirOctets(unittest.TestCase):
    def test_of_this_model(self):
        """Worked by hand."""
        self.assertEqual(
            page(b"a1", 2, 3, 1, b"\x00\x01", tag=b"x", fine=True),
            b"\x01\0\0\0\x02\0\0\0\x03\0\0\0\x01\0\x01\x01\x02a1\x01x\x00\x01",
        )
        self.assertEqual(
            ended(b"a1", 2, 3, 1, 2, 1, PAGE_REFUSED, width=2), b"\x02\0\0\0\x02\0\0\0\x03\0\0\0\x02\0\0\0\x01\x02\0\x07\0\0\0\x01\x02a1"
        )
        # FIPS 180-4's example
        digest = "ba7816bf8f01cfea414140de5dae2223b00361a396177a9cb410ff61f20015ad"
        self.assertEqual(record(b"abc"), b"\x01\x01\x01\0\0\0\x23\0\0\0\x23\0\0\0\x23" + bytes.fromhex(digest) + b"abc")


class PagesSurviveACrash(Spooling):
    def confirm(self, server, line, call, pages, tag, **more):
        """Pages of a call are confirmed; as soon as one is, its record is on the disk."""
        on_disk = []

        def look():
            begin = PAGE_KIND + struct.pack(">II", 1, call)
            found = [it for it in self.records(server) if it.startswith(begin) and short(line.name.encode()) in it]
            on_disk.append(len(found))

        machine = self.calling(line, [t4.text(it) for it in pages], at_mcf=look, **more)
        self.assertEqual(server.say(f"ring {line.name} {tag}"), [f"ok {call}"])
        machine.end()
        self.assertEqual(machine.confirmed, len(pages))
        self.assertEqual(on_disk, list(range(1, len(pages) + 1)))

    def test_they_are_sent_by_the_next_life(self):
        one, other = Line(self.ports, "a1"), Line(self.ports, "a2")
        server = self.serve(one, other)
        silent = [self.silent(one), self.silent(other)]
        self.confirm(server, one, 0, [ROW, OTHER_ROW], "tag-1")
        self.confirm(server, other, 0, [OTHER_ROW], "tag-2")
        # a call that is on when the process ends
        self.confirm(server, other, 1, [ROW], "tag-3", commands=[t38.MPS], hangs_up=False)
        self.assertEqual(server.metrics()["faxgate_pages_stored"], 4)
        server.kill()
        before = [
            *epochs(1),
            page(b"a1", 1, 0, 1, kept(ROW), False, b"tag-1"),
            page(b"a1", 1, 0, 2, kept(OTHER_ROW), True, b"tag-1"),
            page(b"a2", 1, 0, 1, kept(OTHER_ROW), True, b"tag-2"),
            page(b"a2", 1, 1, 1, kept(ROW), False, b"tag-3"),
        ]
        octets = [self.file(server, name).rstrip(b"\0") for name in FILES]
        self.assertEqual(sorted(octets), [b"", file_of(*before).rstrip(b"\0")])
        for leg in silent:
            leg.close()
        called = [self.called(one), self.called(other, calls=2)]
        server.start()
        events = server.events()
        # a line takes a ring at once
        self.assertEqual(server.say("ring a1"), ["ok 0"])
        self.jobs(events, ("a1", 0, "tag-1", 2), ("a2", 0, "tag-2", 1), ("a2", 1, "tag-3", 1))
        for machine in called:
            machine.end()
        self.assertEqual([it.pages for it in called], [[t4.text(ROW), t4.text(OTHER_ROW)], [t4.text(OTHER_ROW), t4.text(ROW)]])
        self.assertEqual(called[1].commands, [t38.EOP, t38.EOP])
        self.assertIn('"tag":null', server.say("report a1")[0])
        until(lambda: server.metrics()["faxgate_pages_stored"] == 0, what="the end of the jobs")
        server.kill()
        # no page stands there any more, and of the ends of the jobs those that are not dropped with them
        ends = [ended(b"a1", 1, 0, 1, 2, 2), ended(b"a2", 1, 0, 1, 1, 1), ended(b"a2", 1, 1, 1, 1, 1)]
        found = [it for name in FILES for it in records_in(self.file(server, name)) if not it.startswith(EPOCH)]
        self.assertTrue(found)
        self.assertLessEqual(set(found), set(ends))
        server.start()
        self.assertEqual(server.metrics()["faxgate_jobs_waiting"], 0)


class AJobEnds(Spooling):
    def test_its_end_is_noted(self):
        """A job of two pages of 2,432 elements, fine, of which the second is refused three times: its record, octet by octet. The file is
        not cleared, since a page of a line that is gone stays in it."""
        line, text = Line(self.ports), t4.text([[2432]])
        called = self.called(line, refuses=(1, 2, 3))
        stays = page(b"a9", 1, 0, 1, kept(ROW))
        server = self.serve(line, files={"pages": b"", "pages-wal": file_of(*epochs(1), stays)})
        events = server.events()
        calling = self.calling(line, [text, text], bits=t38.FINE + t38.W2432)
        self.ring(server, line, "tag")
        calling.end()
        job = events.event("job", PATIENCE)
        called.end()
        self.assertEqual((job["pages"], job["delivered"], job["outcome"]), (2, 1, "PageRefused"))
        until(lambda: server.metrics()["faxgate_pages_stored"] == 0, what="that it is noted")
        kept_text = t4.text([[2432]], two_d=True)
        pages = [page(b"a1", 2, 0, number, kept_text, number == 2, b"tag", 2, True) for number in (1, 2)]
        found = [it for name in FILES for it in records_in(self.file(server, name)) if not it.startswith(EPOCH)]
        self.assertEqual(found, [stays, *pages, ended(b"a1", 2, 0, 1, 2, 1, PAGE_REFUSED, 2, True)])


class FilesTakeTurns(Spooling):
    def pages_in(self, server, name):
        """The records of pages that a file tells."""
        return [it for it in records_in(self.file(server, name)) if it.startswith(PAGE_KIND)]

    def test_a_file_is_cleared_where_nothing_in_it_waits(self):
        """Two files of two epochs, the newer one the first by its name: the older one's page goes out first, and then that file tells no
        page any more, while the one of the other file waits, until that was sent too."""
        line = Line(self.ports)
        older = file_of(*epochs(1), page(b"a1", 1, 0, 1, kept(ROW)), page(b"a1", 1, 1, 1, kept(ROW)), ended(b"a1", 1, 0, 1, 1, 1))
        waits = page(b"a1", 3, 0, 1, kept(OTHER_ROW))
        called = self.called(line, calls=2)
        server = self.serve(line, files={"pages": file_of(*epochs(3), waits), "pages-wal": older})
        self.assertEqual(server.metrics()["faxgate_pages_stored"], 2)
        until(lambda: called.pages, what="a page")
        until(lambda: not self.pages_in(server, "pages-wal"), what="that the older file is cleared")
        self.assertEqual(self.pages_in(server, "pages"), [waits])
        called.end()
        self.assertEqual(called.pages, [t4.text(ROW), t4.text(OTHER_ROW)])
        until(lambda: not self.pages_in(server, "pages"), what="that the other file is cleared")


    def test_a_harmed_epoch_leaves_the_order(self):
        """The same, where the first record of the newer file is damaged: its epoch is told by the second one."""
        line = Line(self.ports)
        older = file_of(*epochs(1), page(b"a1", 1, 0, 1, kept(ROW)))
        newer = bytearray(file_of(*epochs(3), page(b"a1", 3, 0, 1, kept(OTHER_ROW))))
        newer[HEADER] ^= 1
        called = self.called(line, calls=2)
        server = self.serve(line, files={"pages": bytes(newer), "pages-wal": older})
        counts = server.metrics()
        self.assertEqual((counts["faxgate_records_damaged_total"], counts["faxgate_pages_stored"]), (1, 2))
        called.end()
        self.assertEqual(called.pages, [t4.text(ROW), t4.text(OTHER_ROW)])


class SomethingElse(Spooling):
    """A folder that has a file of the name of a spool's, which is none."""

    OTHERS = {
        "noise": random.Random(1).randbytes(5000),
        "a database": b"SQLite format 3\0" + bytes(84) + random.Random(2).randbytes(4000),
        "a text": b"Where do we go from here? " * 20,
    }

    def refused(self, **files):
        """A server over these files, which ends at once, and writes nothing: which of the spool's files have something then."""
        server = Server([Line(self.ports)], spool=True)
        self.addCleanup(server.close)
        for name, octets in files.items():
            self.write(server, name, octets)
        process = server.run("serve", "--config", server.path("lines.toml"))
        output, errors = process.communicate(timeout=PATIENCE)
        self.assertEqual((process.returncode, output), (2, ""))
        why = f"spool: {server.spool}: the folder has files of something else"
        self.assertEqual(errors, f"faxgate: {server.path('lines.toml')}: {why}\n")
        self.assertEqual({name: self.file(server, name) for name in files}, files)
        return sorted(name for name in os.listdir(server.spool) if self.file(server, name))

    def test_it_is_not_written_over(self):
        """In either file of the first pair; where it stands in the second one, the first has been opened before."""
        for what, octets in self.OTHERS.items():
            with self.subTest(what):
                self.assertEqual(self.refused(pages=octets), ["pages"])
                self.assertEqual(self.refused(**{"pages": b"", "pages-wal": octets}), ["pages-wal"])
                self.assertEqual(self.refused(undelivered=octets), ["pages", "pages-wal", "undelivered"])

    def test_what_a_crash_within_the_first_start_leaves_is_opened(self):
        """An empty file, zeros, and any octets up to the length of what the first start writes."""
        whole = file_of(*epochs(1))
        draw = random.Random(3)
        for number, octets in enumerate((b"", bytes(3), bytes(4096), b"\x07\x08\x09" + draw.randbytes(len(whole) - 3), SHUT + whole[3:50], whole)):
            with self.subTest(number):
                server = self.serve(Line(self.ports), files={"pages": octets})
                self.assertEqual(server.say("status")[-2][:11], "spool keeps")
                server.close()

    def test_a_file_beside_a_spool_is_passed_over(self):
        """The other one has records."""
        line = Line(self.ports)
        self.silent(line)
        server = self.serve(line, files={"pages": self.OTHERS["noise"], "pages-wal": file_of(*epochs(1), page(b"a1", 1, 0, 1, kept(ROW)))})
        counts = server.metrics()
        self.assertEqual((counts["faxgate_pages_stored"], counts["faxgate_octets_passed_over_total"]), (1, 5000))


class DamagedRecords(Spooling):
    # three pages of a call
    PAGES = [page(b"a1", 1, 0, number, kept(ROW if number == 3 else OTHER_ROW), tag=b"t") for number in (1, 2, 3)]

    def damaged(self, at, *others):
        """The file, in which an octet of what is sealed of the second page is another; below 0 one of its header."""
        octets = bytearray(file_of(*epochs(1), *self.PAGES, *others))
        octets[len(file_of(*epochs(1), self.PAGES[0])) - len(SHUT) + HEADER + at] ^= 1
        return bytes(octets)

    def told_of(self, server, at):
        """What is counted by a server that is started over that file: damaged records, pages that wait, and pages that are set aside."""
        server.kill()
        self.write(server, "pages", b"")
        self.write(server, "pages-wal", self.damaged(at))
        server.start()
        counts = server.metrics()
        return counts["faxgate_records_damaged_total"], counts["faxgate_pages_stored"], counts["faxgate_pages_set_aside_total"]

    def test_their_calls_are_set_aside(self):
        """Wherever the octet is, in the digest or after it: the other pages of the call wait, and are not sent."""
        line = Line(self.ports)
        self.silent(line)
        server = self.serve(line)
        length = 32 + len(self.PAGES[1])
        for at in [0, 31, *range(32, length, 5), length - 1]:
            self.assertEqual(self.told_of(server, at), (1, 0, 2), at)
        # who comes later is told so too
        client = server.client()
        self.assertEqual(client.say("events"), ["ok"])
        self.assertEqual(event_line(client.events[0]), '{"event":"damaged","at":N,"records":1,"octets":0}')
        self.assertIn("spool keeps damaged 1 passed_over 0 set_aside 2", server.say("status"))

    def test_an_octet_of_a_header_harms_nothing(self):
        """Nor does one of the shut gate after the last record."""
        line = Line(self.ports)
        self.silent(line)
        server = self.serve(line)
        last = len(file_of(*self.PAGES[1:])) - HEADER - len(SHUT)
        for at in [*range(-HEADER, 0), *range(last, last + len(SHUT))]:
            self.assertEqual(self.told_of(server, at), (0, 3, 0), at)

    def test_a_call_before_octets_that_are_passed_over_is_set_aside(self):
        """Two octets of one length are turned, so nothing can be read after: a call that was on before is not sent, one that had
        ended is."""
        line = Line(self.ports)
        called = self.called(line)
        whole = page(b"a1", 1, 0, 1, kept(ROW), tag=b"t")
        on = page(b"a1", 1, 1, 1, kept(OTHER_ROW), closes=False, tag=b"u")
        octets = bytearray(file_of(*epochs(1), whole, on, page(b"a1", 1, 1, 2, kept(OTHER_ROW), tag=b"u")))
        at = len(file_of(*epochs(1), whole, on)) - len(SHUT) + len(OPEN)
        octets[at] ^= 1
        octets[at + 4] ^= 2
        server = self.serve(line, files={"pages": bytes(octets)})
        events = server.events()
        told = events.event("set_aside", PATIENCE, line="a1", life=1, call=1, tag="u", number=1, why="TornCall")
        self.assertEqual(told["number"], 1)
        self.jobs(events, ("a1", 0, "t", 1))
        called.end()
        self.assertEqual(called.pages, [t4.text(ROW)])

    def test_other_calls_are_sent(self):
        """What is set aside is told with the tag of its call, to each client that comes."""
        line = Line(self.ports)
        called = self.called(line)
        other = page(b"a1", 1, 1, 1, kept(ROW), tag=b"u")
        server = self.serve(line, files={"pages-wal": self.damaged(40, other)})
        for _ in range(2):
            events = server.events()
            for number in (1, 3):
                told = events.event("set_aside", PATIENCE, line="a1", life=1, call=0, tag="t", number=number, why="TornCall")
                self.assertEqual(told["number"], number)
        self.jobs(events, ("a1", 1, "u", 1))
        called.end()
        self.assertEqual(called.pages, [t4.text(ROW)])


class AFullDisk(Spooling):
    def refused(self, server, line, call, pages, confirmed):
        """A call whose disk is full after so many pages: no MCF comes for the next, and nothing at all from then on, until it ends. No
        line is rung from then on, and who comes later is told why first."""
        events = server.events()
        machine = self.calling(line, pages, t4=SHORT_T4)
        self.assertEqual(server.say("ring a1"), [f"ok {call}"])
        events.event("not_stored", PATIENCE, call=call)
        events.event("spool_failed", PATIENCE)
        silenced = time.time() + 0.1
        machine.join(PATIENCE)
        leg = machine.leg
        leg.drain()
        self.assertTrue(machine.hears_dis)
        self.assertEqual((machine.confirmed, machine.answers), (confirmed, [t38.MCF] * confirmed))
        self.assertEqual([numbers([it]) for it in leg.came if it[0] > silenced], [])
        machine.end()
        self.assertEqual(server.say("hangup a1 calling"), ["ok"])
        events.event("ended", PATIENCE, call=call, how="NotStored")
        # what was not kept is told as that alone
        self.assertEqual(len([it for it in events.events if it["event"] == "page"]), confirmed)
        self.assertEqual([server.say("ring a1"), server.say("ring any")], 2 * [["refused 13 NoSpool"]])
        later = server.client()
        self.assertEqual(later.say("events"), ["ok"])
        self.assertEqual([it["event"] for it in later.events[:1]], ["spool_failed"])
        self.assertIn("spool failed damaged 0 passed_over 0 set_aside 0", server.say("status"))

    def mended(self, server):
        """The disk has room again, and the spool is opened anew: a client that is told events then."""
        self.limit(server, resource.RLIM_INFINITY)

        def keeps():
            # between two runs nobody listens
            with contextlib.suppress(OSError, AssertionError):
                return any(line.startswith("spool keeps ") for line in server.say("status"))

        until(keeps, PATIENCE, "a spool that is opened anew")
        self.assertEqual(server.metrics()["faxgate_spool_failures_total"], 1)
        return server.events()

    def test_it_claims_nothing(self):
        """A page fits, and then the disk is full. What was confirmed is sent by the next run, with the page after it at most, though both
        were sent before, since the end of that job was not noted; and that run keeps pages again."""
        line = Line(self.ports)
        server = self.serve(line)
        events, called = server.events(), self.called(line, calls=3)
        pages = [t4.text(ROW), t4.text(OTHER_ROW)]
        self.limit(server, len(file_of(*epochs(1), page(b"a1", 1, 0, 1, kept(ROW), False))) + 20)
        self.refused(server, line, 0, pages, 1)
        counts = server.metrics()
        told = counts["faxgate_put_failures_total"], counts["faxgate_pages_confirmed_total"], counts["faxgate_spool_failures_total"]
        self.assertEqual(told, (1, 1, 1))
        self.jobs(events, ("a1", 0, None, 2))
        events = self.mended(server)
        machine = self.calling(line, pages[1:])
        self.assertEqual(server.say("ring a1 anew"), ["ok 0"])
        machine.end()
        self.assertEqual(machine.confirmed, 1)
        self.jobs(events, ("a1", 0, "anew", 1))
        called.end()
        self.assertIn(called.pages, (pages + pages[:1] + pages[1:], pages + pages + pages[1:]))


class ADiskThatStaysFull(AFullDisk):
    def test_it_claims_nothing(self):
        """A page is stored and waits for its call, and the next one finds the disk full, which it stays for a while: no call is asked for
        and no line rung meanwhile. Then the page that was stored goes out, alone, and another one after it."""
        line = Line(self.ports, called_peer=False)
        server = self.serve(line)
        events = server.events()
        self.confirm(server, line, "kept", TALL)
        events.event("dial", PATIENCE, call=0, tag="kept")
        self.limit(server, 20 + max(len(self.file(server, name).rstrip(b"\0")) for name in FILES))
        self.refused(server, line, 1, [t4.text(OTHER_ROW)], 0)
        peer = f"peer a1 called 127.0.0.1:{line.called_peer}"
        self.assertEqual(server.say(peer), ["refused 11 NoCall"])
        until(lambda: server.errors().count("\n") == 2, PATIENCE, "that the spool cannot be opened")
        for said in ("ring a1", "ring any", "status", "no word"):
            answer = "refused 8 NoWord" if said == "no word" else "refused 13 NoSpool"
            self.assertEqual(until(lambda: self.answer(server, said), PATIENCE), [answer])
        events = self.mended(server)
        self.assertEqual(server.errors().count("\n"), 2)
        called = self.called(line, calls=2)
        events.event("dial", PATIENCE, call=0, tag="kept")
        self.assertEqual(server.say(peer), ["ok"])
        self.jobs(events, ("a1", 0, "kept", 1))
        self.confirm(server, line, "anew", OTHER_ROW)
        events.event("dial", PATIENCE, call=0, tag="anew")
        self.assertEqual(server.say(peer), ["ok"])
        self.jobs(events, ("a1", 0, "anew", 1))
        called.end()
        self.assertEqual(called.pages, [t4.text(TALL), t4.text(OTHER_ROW)])

    def confirm(self, server, line, tag, rows):
        """A page of the line's first call is confirmed."""
        machine = self.calling(line, [t4.text(rows)])
        self.assertEqual(server.say(f"ring a1 {tag}"), ["ok 0"])
        machine.end()
        self.assertEqual(machine.confirmed, 1)

    @staticmethod
    def answer(server, word):
        """What a word is answered; none where nobody listens."""
        with contextlib.suppress(OSError, AssertionError):
            return server.say(word)


class WordsOfStandardInput(Spooling):
    def test_they_are_of_one_run(self):
        """Where words come from there and the disk fails, the process ends, and says why."""
        line = Line(self.ports)
        self.silent(line)
        server = Server([line], spool=True, control=False, head="stop_seconds = 1")
        self.addCleanup(server.close)
        server.start()
        self.limit(server, 300)
        machine = self.calling(line, [t4.text(TALL)], t4=SHORT_T4)
        self.assertEqual(server.say("ring a1"), ["ok 0"])
        server.standard.event("spool_failed", PATIENCE)
        machine.end()
        self.assertEqual(server.ends(), 2)
        self.assertRegex(server.errors(), "^faxgate: [^ ]*: spool: its disk failed\n$")


class TwinLeg(t38.Leg):
    """A leg that hands what it sends to another line too, at the same moment, and keeps what comes from there."""

    def __init__(self, line, twin):
        super().__init__(line.calling_peer, line.calling)
        self.twin = t38.Leg(twin.calling_peer, twin.calling)

    def hand(self, octets):
        super().hand(octets)
        self.twin.hand(octets)

    def close(self):
        self.twin.close()
        super().close()


class PagesOfARound(Spooling):
    def play(self, fails):
        """The same call on two lines, whose slots have their turns one after the other. It gives the counts, and whether both calling
        machines heard an MCF, or neither."""
        lines = [Line(self.ports, "a0"), Line(self.ports, "a1")]
        server = self.serve(*lines)
        self.silent(lines[0]), self.silent(lines[1])
        if fails:
            self.limit(server, len(file_of(*epochs(1))) + 10)
        leg = TwinLeg(*lines)
        machine = self.stack.enter_context(t38.Calling(leg, [PAGE], t4=SHORT_T4))
        client = server.client()
        client.send(b"ring a0\nring a1\n")
        self.assertEqual([client.answer(), client.answer()], [["ok 0"], ["ok 0"]])
        machine.join(PATIENCE)
        leg.drain()
        leg.twin.drain()
        heard = [any(t38.frame(t38.MCF)[1] in it[1] for it in end.came) for end in (leg, leg.twin)]
        machine.end()
        return server.metrics(), heard

    def test_they_are_kept_at_once(self):
        """Where both commands come in one round of the slots, there is one put. Now and then a round ends between both, and it is tried
        again."""
        for _ in range(4):
            counts, heard = self.play(fails=False)
            self.assertEqual((counts["faxgate_pages_stored"], heard), (2, [True, True]))
            if counts["faxgate_puts_total"] == 1:
                return
        self.fail(f"{counts['faxgate_puts_total']} puts")

    def test_or_none_is(self):
        counts, heard = self.play(fails=True)
        self.assertEqual((counts["faxgate_pages_stored"], counts["faxgate_put_failures_total"], heard), (0, 2, [False, False]))


class Folders(Spooling):
    def refused(self, server, said):
        """A server that cannot open its spool ends with status 2, and says why."""
        process = server.run("serve", "--config", server.path("lines.toml"))
        printed, errors = process.communicate(timeout=30)
        self.assertEqual((process.returncode, printed, errors.count("\n")), (2, "", 1), errors)
        self.assertIn(said, errors)

    def test_one_process_has_it(self):
        server = self.serve(Line(self.ports))
        other = Server([Line(self.ports)], spool=True)
        self.addCleanup(other.close)
        with open(other.path("lines.toml"), encoding="utf-8") as file:
            text = file.read().replace(other.spool, server.spool)
        with open(other.path("lines.toml"), "w", encoding="utf-8") as file:
            file.write(text)
        self.refused(other, "another process has this spool")
        server.kill()
        os.rename(server.spool, server.path("away"))
        self.refused(server, f"spool: {server.spool}: ")

    def test_its_user_alone_reads_it(self):
        server = self.serve(Line(self.ports))
        for name in ("pages", "pages-wal", "undelivered", "undelivered-wal"):
            self.assertEqual(stat.S_IMODE(os.stat(os.path.join(server.spool, name)).st_mode), 0o600, name)

    def test_nobody_else_may_write_to_it(self):
        for rights in (0o720, 0o702):
            server = Server([Line(self.ports)], spool=True)
            self.addCleanup(server.close)
            os.chmod(server.spool, rights)
            self.refused(server, f"spool: {server.spool}: others may write to the folder")


if __name__ == "__main__":
    unittest.main()
