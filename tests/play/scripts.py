"""Scripts of `faxgate trace`: what comes to a gateway at which moment, and what is to be told of it.

No clock is read, so each moment is exact, and hours take milliseconds. What is to be told is written beside what comes, from the
standards and from this project's rules, never from what the program prints. A datagram of the gateway has its own packet alone
(`--redundancy 0`), and a job's call begins where it is placed (`--asks`), so that each leg is played by itself.
"""
import os
import pathlib
import re
import subprocess
import tempfile
import unittest

from calls import datagram

SLOW = int(os.environ.get("FAXGATE_SLOW", "1"))
# How long a run may take, in seconds.
SECONDS = 20 * SLOW
OPTIONS = ("--redundancy", "0", "--asks")
# The last moment that can be told.
LAST = 2**64 - 1
# A line of the ladder of `faxgate explain`: its moment, who gives and takes, and what.
RUNG = re.compile(r"(\d+) +(?:caller (?:<--|-->) )?gateway(?: (?:<--|-->) called)? +(.*)")
# What it says of the pages that came, and of the ends of calls.
JUDGED = re.compile(r"MCF page |RTN: |call \d+ is over")


def ran(words, script, folder=None):
    """What the program prints of a script."""
    done = subprocess.run(
        [os.environ["FAXGATE"], *words], input=script, cwd=folder, capture_output=True, text=True, timeout=SECONDS
    )
    if done.returncode or done.stderr:
        raise AssertionError(f"faxgate {' '.join(words)}: status {done.returncode}: {done.stderr}{done.stdout[-200:]}")
    return done.stdout


class Script:
    """The lines of a script, and those that are to be told of it."""

    def __init__(self):
        self.lines, self.told = [], []
        # the last moment that was told, how often it rang, and the number of the next datagram that comes and that is given, by leg
        self.now, self.rings = 0, 0
        self.comes_next, self.given = {"A": 0, "B": 0}, {"a": 0, "b": 0}

    def copy(self):
        """The same so far."""
        other = Script()
        other.lines, other.told = list(self.lines), list(self.told)
        other.now, other.rings = self.now, self.rings
        other.comes_next, other.given = dict(self.comes_next), dict(self.given)
        return other

    def rings_up(self):
        """It rings, and the call has the next number. Its datagrams are counted from 0."""
        self.lines.append("R")
        self.told.append(f"ring {self.rings}")
        self.rings += 1
        self.comes_next["A"] = self.given["a"] = 0

    def octets_come(self, leg, octets):
        """These octets come on a leg."""
        self.lines.append(f"{leg} {octets.hex()}")

    def comes(self, leg, packet):
        """The next datagram comes, which has this packet."""
        self.comes_as(leg, self.comes_next[leg], packet)

    def comes_as(self, leg, number, packet):
        """The datagram of this number comes."""
        self.octets_come(leg, datagram(number, packet))
        self.comes_next[leg] = number + 1

    def tick(self, moment, told=()):
        """Time goes on to this moment, in which these lines are told."""
        self.lines.append(f"T {moment}")
        self.told += told
        self.now = moment

    def gives(self, leg, packet):
        """The line of the next datagram that is given on a leg."""
        self.given[leg] += 1
        return f"{leg} {datagram(self.given[leg] - 1, packet).hex()}"

    def text(self):
        return "".join(line + "\n" for line in self.lines)


class Scripted(unittest.TestCase):
    """Plays of scripts."""

    maxDiff = 2000

    def check_trace(self, script, passed_over="\n", words=OPTIONS):
        """Plays a script. It fails unless just these lines are told; those that begin so are passed over."""
        lines = ran(["trace", *words], script.text()).splitlines()
        told = [line for line in script.told if not line.startswith(passed_over)]
        self.assertEqual([line for line in lines if not line.startswith(passed_over)], told)

    def ladder_of(self, script, words=OPTIONS):
        """What `faxgate explain` tells of a script: the rungs, and the pictures of pages by name."""
        with tempfile.TemporaryDirectory() as folder:
            lines = ran(["explain", *words, "--pages", "seen"], script.text(), folder).splitlines()
            pictures = {path.name: path.read_bytes() for path in pathlib.Path(folder).iterdir()}
        rungs = [RUNG.fullmatch(line) for line in lines]
        self.assertTrue(all(rungs), lines)
        return [(int(rung[1]), rung[2]) for rung in rungs], pictures
