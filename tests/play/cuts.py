"""Captures that end early: each capture of a form is cut to each length, and `faxgate capture` reads what is left of it."""
import os
import pathlib
import subprocess
import unittest
from concurrent.futures import ThreadPoolExecutor

CAPTURES = pathlib.Path(__file__).resolve().parent.parent / "captures"
WORDS = ["capture", "--caller", "192.0.2.10", "--called", "192.0.2.20"]
SECONDS = 20  # how long a run may take
AT_ONCE = os.cpu_count() or 1


def captured(octets):
    """The status of a run over a capture, and what it prints on both streams."""
    ran = subprocess.run([os.environ["FAXGATE"], *WORDS], input=octets, capture_output=True, timeout=SECONDS)
    return ran.returncode, ran.stdout.decode(), ran.stderr.decode()


def script(datagrams, last):
    """The script of a caller's datagrams, each after its tick, with ticks up to 40 s after the tick of the last."""
    lines = ["R"]
    for moment in range(0, last + 40_001, 40):
        lines += [f"T {moment}", *datagrams.get(moment, [])]
    return "".join(f"{line}\n" for line in lines)


# What two of the three datagrams of a capture mean: the gateway's first one, and one of the caller 81 ms later. A machine of which
# nothing came is told.
NO_CALLER, NO_CALLED = (f"faxgate: --{option} {host}: no datagram came from there\n" for option, host in zip(("caller", "called"), WORDS[2::2]))
ONE = (0, script({}, 0), NO_CALLER + NO_CALLED)
TWO = (0, script({80: ["A 000101080000"]}, 80), NO_CALLED)


class Cuts(unittest.TestCase):
    """After a record a cut capture is whole; after its head, or a block without a datagram, it has no datagram; anywhere else it
    is cut, and of fewer than four octets it is none."""

    def cut(self, name, without, one, two):
        """That each cut is told; `without` are the lengths that have no datagram, `one` and `two` those of so many."""
        octets = (CAPTURES / name).read_bytes()
        wanted = [(1, "fault 2 Cut\n", "")] * len(octets)
        wanted[:4] = [(1, "fault 1 NoCapture\n", "")] * 4
        for length in without:
            wanted[length] = (1, "fault 4 NoAddress\n", NO_CALLER + NO_CALLED)
        wanted[one], wanted[two] = ONE, TWO
        with ThreadPoolExecutor(AT_ONCE) as pool:
            answers = pool.map(captured, [octets[:length] for length in range(len(octets))])
            for length, answer in enumerate(answers):
                self.assertEqual(answer, wanted[length], f"{name}, {length} octets")

    def test_of_pcap_least_octet_first(self):
        self.cut("microseconds.pcap", [24], 88, 152)

    def test_of_pcap_most_octet_first(self):
        self.cut("microseconds-most-first.pcap", [24], 88, 152)

    def test_of_pcapng(self):
        self.cut("tshark.pcapng", [104, 124], 204, 284)
