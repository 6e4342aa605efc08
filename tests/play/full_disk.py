"""Disks that get full while pages are confirmed, and while pages of jobs that failed are put into the second pair of files.

FAXGATE_FILLS says how often. A disk of its own, in memory, wants root and util-linux; where it cannot be had that is told.
"""
import contextlib
import os
import random
import resource
import subprocess
import time
import unittest

from calls import Called, Caller
from redialled import Driven, Redial, Redialled
from server import LONGEST, Server, until

FILLS = int(os.environ.get("FAXGATE_FILLS", "2"))
# T.30, table 2: it receives at up to 14,400 bit/s (V.17), and wants no time for a row.
FAST_DIS, V17_14400 = "c002800005ffc80100740e40", "d001"
BLOCK = 4096
FILES = ("pages", "pages-wal", "undelivered", "undelivered-wal")


class FastCalled(Called):
    dis, data = FAST_DIS, V17_14400


class DiskOfItsOwn:
    """The spool's folder is a disk in memory, which the server and those beside it have alone: it is gone with the last of them."""

    MOST = 8 << 20

    def __init__(self, server):
        mount = 'mount -t tmpfs -o mode=700,size="$1" none "$2" && echo there && exec sleep infinity'
        words = ["unshare", "--mount", "--propagation", "private", "sh", "-c", mount, "", str(self.MOST), server.spool]
        try:
            self.holder = subprocess.Popen(words, stdin=subprocess.DEVNULL, stdout=subprocess.PIPE, stderr=subprocess.PIPE)
        except OSError as error:
            raise unittest.SkipTest(f"a disk of its own: {error}") from None
        if self.holder.stdout.readline() != b"there\n":
            raise unittest.SkipTest(f"a disk of its own: {self.holder.communicate()[1].decode().strip()}")
        server.before = ["nsenter", f"--mount=/proc/{self.holder.pid}/ns/mnt"]
        self.server, self.folder = server, f"/proc/{self.holder.pid}/root{server.spool}"
        self._filler = os.open(f"{self.folder}/filler", os.O_RDWR | os.O_CREAT)

    def fill(self):
        """From now on there is room for a block or two at most; a file has what is left of its last one besides."""
        with contextlib.suppress(OSError):
            for _ in range(self.MOST // BLOCK):
                os.write(self._filler, bytes(BLOCK))
        left = random.choice((0, 0, 1, 2))
        os.ftruncate(self._filler, max(0, os.fstat(self._filler).st_size - left * BLOCK))

    def give_room(self):
        os.ftruncate(self._filler, 0)
        os.lseek(self._filler, 0, os.SEEK_SET)

    def close(self):
        os.close(self._filler)
        self.holder.kill()
        self.holder.communicate()


class LimitOfFiles:
    """A write after a place in a file fails (setrlimit(2)): a little after the end of what one of the files tells."""

    def __init__(self, server):
        self.server, self.folder = server, server.spool

    def fill(self):
        path = os.path.join(self.folder, random.choice(FILES))
        with open(path, "rb") as file:
            self.limit(len(file.read().rstrip(b"\0")) + random.choice((0, 20, 500, 3_000)))

    def give_room(self):
        if self.server.process.poll() is None:
            self.limit(resource.RLIM_INFINITY)

    def limit(self, octets):
        """No file gets longer than this, and nothing is written after it."""
        _, most = resource.prlimit(self.server.process.pid, resource.RLIMIT_FSIZE)
        resource.prlimit(self.server.process.pid, resource.RLIMIT_FSIZE, (octets, most))

    def close(self):
        pass


def keeps(server):
    """Whether pages are stored; between two runs nobody listens."""
    with contextlib.suppress(OSError, AssertionError):
        return any(line.startswith("spool keeps ") for line in server.say("status"))


class ATryThatEnds(Redialled):
    def test_it_holds_up_nothing(self):
        """Its end cannot be noted. The spool is opened anew 10 s later all the same, and not when a stop would be over; the job is there."""
        self.redials, self.a1 = [Redial(self.ports)], self.line(called_peer=False)
        self.server = Server([self.a1, *self.redials], spool=True, head="stop_seconds = 600")
        self.addCleanup(self.server.close)
        self.client = self.server.start().events()
        self.caller = Caller(self.peer(self.a1, "calling"))
        self.fail(1, "tag")
        self.assertEqual(self.client.say("retry a1 1 0"), ["ok"])
        self.asked_again("tag", 2)
        disk = LimitOfFiles(self.server)
        disk.limit(0)
        self.assertEqual(self.client.say("refuse r1 busy"), ["ok"])
        self.client.event("spool_failed")
        disk.give_room()
        until(lambda: keeps(self.server), what="a spool that keeps")
        self.assertEqual([(told["tag"], told["tries"]) for told in self.told()], [("tag", 1)])


class Full(Driven):
    """The same machines as those of servers that are killed, with pages of which some are longer."""

    MACHINE = FastCalled

    @staticmethod
    def rows_of(number):
        return random.choice((1, 60)) * Driven.rows_of(number)

    def begin_full(self, disk_of):
        """A server whose disk is this one."""
        self.disk, self.failed = None, {"put": 0, "end": 0}

        def set_up(server):
            self.disk = disk_of(server)
            self.addCleanup(self.disk.close)

        self.begin_driven(*[1] * 16, set_up=set_up, head="stop_seconds = 10")

    def play_fills(self, disk_of):
        """After each time the disk was full each page whose MCF its caller saw has come, is listed by `faxgate spool` as it was sent,
        or is of a call that a word dropped; in the end each has come, or was dropped."""
        self.begin_full(disk_of)
        for number in range(FILLS):
            self.fill_once(number, random.random() < 0.7)
        self.drain()
        if FILLS > 2:
            print(
                f"{FILLS} times full, seen at a put {self.failed['put']}, at an end or a second pair {self.failed['end']}: {len(self.confirmed)} pages"
                f" confirmed, {len(self.confirmed & self.got)} came, {len(self.dropped)} calls dropped, {len(self.said)} by a word that was not answered",
                flush=True,
            )

    def fill_once(self, number, is_killed):
        """The disk gets full while machines call, and stays so for a while; then the server is killed, or it goes on by itself."""
        end = time.monotonic() + random.uniform(2, 6)
        threads = [self.begin_thread(self.call_until, end, line, f"page-{number}-{line.name}") for line in self.lines]
        threads.append(self.begin_thread(self.say_words, end))
        self.live(time.monotonic() + random.uniform(0, 1.5), self.is_refused)
        self.disk.fill()
        self.live(end, self.is_refused)
        self.count_failure()
        if is_killed:
            self.server.kill()
        else:
            self.live(end + 1, self.is_refused)
        self.look_at_all(threads)

    def look_at_all(self, threads):
        """None is lost while the disk is full; and it has room again."""
        for thread in threads:
            thread.join(2 * LONGEST)
        self.client.close()
        self.see_none_lost(self.listed(), "while the disk is full")
        if self.server.process.poll() is None:
            self.disk.give_room()
            until(lambda: keeps(self.server), 2 * LONGEST, "a spool that keeps")
        else:
            self.start_full()
        self.see_none_lost(self.listed(), "once the disk has room")
        self.client = self.server.events()

    def start_full(self):
        """A start over a full disk: it serves, or ends with status 2. Then another one begins, where there is room."""
        with contextlib.suppress(AssertionError):
            self.server.start()
            self.server.kill()
        self.assertIn(self.server.process.returncode, (2, -9))
        self.disk.give_room()
        self.server.start()

    @staticmethod
    def is_refused():
        return random.random() < 0.6

    def call_until(self, end, line, tag):
        """Calls on a line, one after another."""
        for again in range(100):
            self.call_once(line, f"{tag}-{again}")
            if time.monotonic() > end:
                return
            time.sleep(0.1)

    def count_failure(self):
        """Notes whether the disk has failed by now, and at what."""
        with contextlib.suppress(OSError, AssertionError):
            counts = self.server.metrics()
            if counts["faxgate_spool_failures_total"]:
                self.failed["put" if counts["faxgate_put_failures_total"] else "end"] += 1


class ADiskOfItsOwn(Full):
    def test_no_page_is_lost(self):
        self.play_fills(DiskOfItsOwn)


class ALimitOfFiles(Full):
    def test_no_page_is_lost(self):
        self.play_fills(LimitOfFiles)
