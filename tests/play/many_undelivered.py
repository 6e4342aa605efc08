"""A spool's folder in which many jobs could not be delivered: how long a server and `faxgate spool` take to open it, and what they
tell; and how long it takes until one of them is tried again.

FAXGATE_UNDELIVERED says how many jobs of a page of FAXGATE_OCTETS octets each; where it is said, times are judged and printed.
"""
import json
import os
import struct
import time

import t4
from asked import Asked
from redialled import Redial
from server import SLOW, Server
from spools import Line, epochs, file_of, page

JOBS = int(os.environ.get("FAXGATE_UNDELIVERED", "300"))
OCTETS = int(os.environ.get("FAXGATE_OCTETS", "1000"))
ARE_JUDGED = "FAXGATE_UNDELIVERED" in os.environ
# Such a folder is opened within so many seconds, by the specification of the service.
MOST_SECONDS = 3 * SLOW
# A word that has a job tried again is answered, and its call is asked for, within so many: it reads that job's pages alone.
MOST_TO_TRY = 0.5 * SLOW
TRIED = JOBS // 2
NOT_PLACED, BUSY = 9, b"busy"
ROW = [[7, 3, 1718]]


def card(line, life, call, tag, tries=1, at=1_700_000_000):
    """The record of a card: how the last job of a call ended, why, how often it was tried, when last, and how many of its pages came."""
    return page(line, life, call, 0, struct.pack(">BIQI", NOT_PLACED, tries, at, 0) + BUSY, tag=tag)


def jobs(count, octets):
    """Records of so many jobs of a page of some so many octets, each of a call of its own, and their cards."""
    row = len(t4.text(ROW, two_d=True)) - len(t4.text([], two_d=True))
    text = t4.text(max(1, octets // row) * ROW, two_d=True)
    for number in range(count):
        tag = b"49/%d" % number
        yield page(b"a1", 1, number, 1, text, tag=tag)
        yield card(b"a1", 1, number, tag)


def put_jobs(folder, count, octets):
    """The files of a server whose life was the first, and left these jobs. The octets of the second pair."""
    for name, records in (("pages", []), ("undelivered", jobs(count, octets))):
        with open(os.path.join(folder, name), "wb") as file:
            file.write(file_of(*epochs(1), *records))
    return os.path.getsize(file.name)


class Many(Asked):
    def test_they_are_opened(self):
        """Each is told by the server and listed by `faxgate spool`, also after a start more."""
        server = Server([Line(self.ports, "a1", called_peer=False), Redial(self.ports)], spool=True)
        self.addCleanup(server.close)
        size = put_jobs(server.spool, JOBS, OCTETS)
        _, to_serve = self.seconds(server.start)
        told, to_tell = self.seconds(lambda: server.say("undelivered"))
        most = self.most_memory(server)
        listed, to_list = self.seconds(lambda: server.run("spool", server.spool).communicate())
        wanted = [(number, f"49/{number}", 1) for number in range(JOBS)]
        self.assertEqual(listed[1], "")
        for lines in (listed[0].splitlines(), told[:-1]):
            self.assertEqual([(job["call"], job["tag"], job["pages"]) for job in map(json.loads, lines)], wanted)
        server.kill()
        _, again = self.seconds(server.start)
        self.assertEqual(server.metrics()["faxgate_pages_undelivered"], JOBS)
        _, to_try = self.seconds(lambda: self.tries_one(server))
        if ARE_JUDGED:
            print(
                f"{JOBS} jobs, {size} octets: listed in {to_list:.2f} s; served in {to_serve:.2f} s, and {again:.2f} s; told in {to_tell:.2f} s;"
                f" {most} kB at most; one was tried after {1000 * to_try:.0f} ms",
                flush=True,
            )
            self.assertLess(max(to_list, to_serve, again), MOST_SECONDS)
            self.assertLess(to_try, MOST_TO_TRY)

    def tries_one(self, server):
        """One of the jobs in the middle is tried again, since a word says so."""
        client = server.events()
        self.addCleanup(client.close)
        self.assertEqual(client.say(f"retry a1 1 {TRIED}"), ["ok"])
        client.event("dial", line="r1", tag=f"49/{TRIED}", pages=1)

    @staticmethod
    def seconds(what):
        """What this gives, and how long it takes."""
        begun = time.monotonic()
        return what(), time.monotonic() - begun

    @staticmethod
    def most_memory(server):
        """The most memory that it had so far, in kB (proc(5))."""
        with open(f"/proc/{server.process.pid}/status", encoding="utf-8") as file:
            return int(next(line.split()[1] for line in file if line.startswith("VmHWM")))
