"""Captures of several calls, played: `faxgate capture` reads one, and `faxgate trace` plays what it prints."""
import os
import pathlib
import struct
import subprocess
import unittest

SAMPLE = pathlib.Path(__file__).resolve().parent.parent.parent / "samples" / "call.pcap"
MACHINES = ["--caller", "192.0.2.10", "--called", "192.0.2.20"]
SECONDS = 20 * int(os.environ.get("FAXGATE_SLOW", "1"))  # how long a run may take
HEAD = 24  # the octets before the first packet
FIRST = slice(HEAD, HEAD + 16 + 60)  # the first packet: a datagram of the gateway to the caller, of number 0
NUMBER = slice(16 + 42, 16 + 44)  # where the number of its datagram stands in it


def ran(words, octets):
    """What a run prints, on both streams."""
    done = subprocess.run([os.environ["FAXGATE"], *words], input=octets, capture_output=True, timeout=SECONDS)
    if done.returncode:
        raise AssertionError(f"faxgate {' '.join(words)}: status {done.returncode}: {done.stderr.decode()}{done.stdout[-200:].decode()}")
    return done.stdout, done.stderr.decode()


def later(packets, seconds):
    """The packets of a capture in pcap, least octet first, so many seconds later."""
    octets, at = b"", 0
    while at < len(packets):
        moment, fraction, length, whole = struct.unpack_from("<4I", packets, at)
        octets += struct.pack("<4I", moment + seconds, fraction, length, whole) + packets[at + 16 : at + 16 + length]
        at += 16 + length
    return octets


def call(sample, seconds):
    """The packets of the sample's call, so many seconds later, and 3 s after its first one a datagram of number 9 to the caller."""
    ninth = bytearray(sample[FIRST])
    ninth[NUMBER] = struct.pack(">H", 9)
    return later(sample[HEAD:], seconds) + later(bytes(ninth), seconds + 3)


class Calls(unittest.TestCase):
    """The call of samples/call.pcap three times, ten seconds apart: each rings before the tick of the gateway's first datagram of it, so
    that the gateway answers as it did, and each has its page, as by itself alone."""

    @classmethod
    def setUpClass(cls):
        sample = SAMPLE.read_bytes()
        cls.capture = sample[:HEAD] + b"".join(call(sample, seconds) for seconds in (0, 10, 20))

    def play(self, words):
        """The rings and the jobs that are told of the script, and what is told of the capture."""
        script, errors = ran(["capture", *MACHINES, *words], self.capture)
        told = ran(["trace"], script)[0].decode().splitlines()
        return [line for line in told if line.startswith(("ring", "job"))], errors

    def test_each(self):
        told, errors = self.play([])
        self.assertEqual([line for line in told if line.startswith("ring")], ["ring 0", "ring 1", "ring 2"])
        self.assertEqual([line for line in told if line.startswith("job")], [f"job {call} 1728 standard 1 1 Delivered" for call in range(3)])
        self.assertEqual(errors, "faxgate: the caller made 3 calls\n")

    def test_one(self):
        for call in ("1", "2", "3"):
            told, errors = self.play(["--call", call])
            self.assertEqual(told, ["ring 0", "job 0 1728 standard 1 1 Delivered"], call)
            self.assertIn("the caller made 3 calls\n", errors)
