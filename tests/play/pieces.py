"""Captures that come in pieces through a pipe: of any size, and cut anywhere."""
import itertools
import os
import pathlib
import re
import struct
import subprocess
import unittest

from cuts import WORDS, script

CAPTURES = pathlib.Path(__file__).resolve().parent.parent / "captures"
SECONDS = 60 * int(os.environ.get("FAXGATE_SLOW", "1"))  # how long a run may take
SMALL = {**os.environ, "ASAN_OPTIONS": "quarantine_size_mb=1"}  # a program of `rt try` does not keep what it has freed
LARGE = 64 * 2**20  # octets of a capture: four times what the other commands read
# The datagram of either machine, after the gateway's first one, in each of tests/captures.
THREE = script({80: ["A 000101080000"], 120: ["B 00020106"]}, 120)


def run(pieces):
    """The status of a run over a capture that comes in pieces, what it prints on both streams, and the most octets of its memory
    until the last of them was taken."""
    with subprocess.Popen([os.environ["FAXGATE"], *WORDS], env=SMALL, stdin=subprocess.PIPE, stdout=subprocess.PIPE, stderr=subprocess.PIPE,
                          bufsize=0) as process:
        for piece in pieces:
            process.stdin.write(piece)
        status = pathlib.Path(f"/proc/{process.pid}/status").read_text(encoding="utf-8")
        printed, told = process.communicate(timeout=SECONDS)
    return (process.returncode, printed.decode(), told.decode()), int(re.search(r"^VmHWM:\s*(\d+) kB", status, re.M).group(1)) * 1024


def cut(octets, size):
    return [octets[place:place + size] for place in range(0, len(octets), size)]


def repeated(octets, times, size):
    """Octets so many times over, in pieces of this size."""
    block, whole = octets * (size // len(octets) + 2), len(octets) * times
    for place in range(0, whole, size):
        start = place % len(octets)
        yield block[start:start + min(size, whole - place)]


def raw(source, to, data):
    """A UDP datagram over IPv4 (RFC 768, RFC 791), without its checksums."""
    return (struct.pack(">BBHHHBBH", 0x45, 0, 28 + len(data), 0, 0x4000, 64, 17, 0) + bytes(source) + bytes(to)
            + struct.pack(">HHHH", 6000, 40000, 8 + len(data), 0) + data)


def record(microseconds, octets):
    """The record of a packet in a pcap file of raw IP."""
    return struct.pack("<IIII", 1760000000, microseconds, len(octets), len(octets)) + octets


class Pieces(unittest.TestCase):
    def test_pieces_of_a_few_octets(self):
        for name in ("microseconds.pcap", "nanoseconds-most-first.pcapng", "two-sections.pcapng"):
            octets = (CAPTURES / name).read_bytes()
            for size in (1, 3, 47):
                with self.subTest(capture=name, size=size):
                    self.assertEqual(run(cut(octets, size))[0], (0, THREE, ""))

    def test_large_capture(self):
        """Most of it is what other hosts sent: it is passed over, and not kept."""
        gateway, caller, called, other = ((192, 0, 2, last) for last in (1, 10, 20, 99))
        head = struct.pack("<IHHiIII", 0xA1B2C3D4, 2, 4, 0, 0, 262144, 101)
        others = record(50_000, raw(other, gateway, bytes(1472)))
        count = LARGE // len(others) // 2
        answer, memory = run(itertools.chain(
            [head, record(0, raw(gateway, caller, bytes.fromhex("000001040000")))], repeated(others, count, 100_000),
            [record(81_007, raw(caller, gateway, bytes.fromhex("000101080000")))], repeated(others, count, 1_000_003),
            [record(121_000, raw(called, gateway, bytes.fromhex("00020106")))]))
        passed_over = f"faxgate: {2 * count} datagrams of other hosts or ports were passed over\n"
        self.assertEqual(answer, (0, THREE, passed_over))
        self.assertLess(memory, LARGE // 2)


if __name__ == "__main__":
    unittest.main()
