"""An octet is turned in either pair of files of a spool: what its records told is told as damaged, and nothing wrong goes out.

FAXGATE_TURNS says how often in each pair.
"""
import json
import os
import random
import shutil
import time

from full_disk import FastCalled
from redialled import Driven, Lost
from server import LONGEST, until

TURNS = int(os.environ.get("FAXGATE_TURNS", "1"))
PAIRS = (("pages", "pages-wal"), ("undelivered", "undelivered-wal"))
FAILED, WAITING = 3, 2  # calls a line: first those whose jobs fail


class Turned(Driven):
    MACHINE = FastCalled

    def test_what_lacks_is_told(self):
        """Each page whose MCF its caller saw is listed by `faxgate spool` as it was sent, or a record is told as damaged; what is listed goes
        out, but for calls of the first pair that lack a page, and nothing else does."""
        self.begin_driven()
        self.fill_both()
        folder = self.server.path("as-it-was")
        shutil.copytree(self.server.spool, folder)
        lacking = {pair: 0 for pair in PAIRS}
        for pair in PAIRS * TURNS:
            shutil.rmtree(self.server.spool)
            shutil.copytree(folder, self.server.spool)
            lacking[pair] += self.turn_once(pair)
        if TURNS > 1:
            told = ", ".join(f"of {lacking[pair]} in {pair[0]}" for pair in PAIRS)
            print(f"{TURNS} octets turned in each pair, over {len(self.confirmed)} pages: a page lacked, and that was told, {told}", flush=True)

    def fill_both(self):
        """Jobs that failed are in the second pair, and others wait in the first, as the server is killed."""
        for number in range(FAILED):
            self.call_all(f"failed-{number}", lambda: True)
        until(lambda: self.server.metrics()["faxgate_jobs_waiting"] == 0, what="that all have failed")
        self.client.close()
        for number in range(WAITING):
            self.call_all(f"waits-{number}", None)
        self.server.kill()
        self.see_none_lost(self.listed(), "after a kill")
        self.assertGreaterEqual(len(self.confirmed), len(self.lines) * (FAILED + WAITING))

    def call_all(self, tag, is_refused):
        """A machine calls on each line, and the calls of its job are refused, or nobody answers."""
        callers = [self.begin_thread(self.call_once, line, f"{tag}-{line.name}") for line in self.lines]
        while any(caller.is_alive() for caller in callers):
            if is_refused:
                self.live(time.monotonic() + 0.3, is_refused)
            time.sleep(0.05)
        if is_refused:
            self.live(time.monotonic() + 0.5, is_refused)
        until(lambda: all(" calling idle" in line for line in self.server.say("status") if line.startswith("line ")), what="idle legs")

    def turn_once(self, pair):
        """An octet of a file of this pair is turned, and a server goes on over that. Whether a page lacks."""
        what = self.turn(pair)
        self.got, self.wrong = set(), []
        self.server.start()
        counts = self.server.metrics()
        is_told = counts["faxgate_records_damaged_total"] + counts["faxgate_octets_passed_over_total"] > 0
        listed = self.listed(r"(faxgate: .* records damaged, .* octets passed over\n)*" if is_told else "")
        lacking = self.confirmed - listed
        if lacking and not is_told:
            raise Lost(f"{what}: {lacking} lack, and nothing is told")
        self.client = self.server.events()
        self.send_all(what, listed - self.torn())
        self.client.close()
        self.server.kill()
        return bool(lacking)

    def turn(self, pair):
        """Turns an octet of what stands in a file of this pair, or a little after, and says which."""
        files = {name: self.octets(name) for name in pair}
        name = random.choices(pair, [len(files[name]) for name in pair])[0]
        octets = bytearray(files[name])
        at = random.randrange(min(len(octets), len(octets.rstrip(b"\0")) + 20))
        octets[at] ^= random.randrange(1, 256)
        with open(os.path.join(self.server.spool, name), "wb") as file:
            file.write(octets)
        return f"{name}, octet {at}"

    def octets(self, name):
        with open(os.path.join(self.server.spool, name), "rb") as file:
            return file.read()

    def torn(self):
        """The pages of calls of the first pair of which one lacks: they wait, and are not sent."""
        output, _ = self.server.run("spool", self.server.spool).communicate(timeout=LONGEST)
        tags = {job["tag"] for job in map(json.loads, output.splitlines()) if job["state"] == "torn"}
        return {page for page in self.confirmed if page[0] in tags}

    def send_all(self, what, pages):
        """What waits goes out, and what could not be delivered by words."""
        end = time.monotonic() + LONGEST
        while pages - self.got and time.monotonic() < end:
            self.live(time.monotonic() + 0.5, lambda: False)
            for told in self.told():
                self.server.say(f"retry {told['line']} {told['life']} {told['call']}")
        if pages - self.got or self.wrong:
            raise Lost(f"{what}: {pages - self.got} did not come, and {self.wrong} did")
