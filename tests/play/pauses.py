"""A whole call with the usual pause after a preamble, and with longer ones: the same packets, each at its moment."""
import os
import subprocess
import unittest

CHECK = f"A 00028131c201f0012b{'0' * 604}\n"  # the training check: a datagram with 300 zero octets
PAUSES = (40, 1000, 2000)  # milliseconds

# A caller sends a page of one row, which goes on to a called machine, and is delivered. Lines that come are one text; a list has the
# beginnings of the lines that a tick answers, 40 ms after the one before, or where that gave a preamble, when the pause is over.
GIVES, FOLLOWS, COMES = "gives", "follows", "comes"
STEPS = [
    (GIVES, ["a 00010106"]),
    (FOLLOWS, ["a 00020cc002800005ffc80100775e40"]),
    (COMES, "A 00000cc002800005ffc8c1004000400000\nA 000101080000\n" + CHECK),
    (GIVES, ["a 00030106"]),
    (FOLLOWS, ["a 000409c002800002ffc82140"]),
    (COMES, "A 000301080000\nA 000412c201f0000c0014d9a80080080080080080080000\n"),
    (COMES, "A 000501060000\nA 000609c002800002ffc8f4400000\n"),
    (GIVES, ["a 00050106"]),
    (FOLLOWS, ["a 000609c002800002ffc83140", "b 000001020000"]),
    (COMES, "B 00000cc002800005ffc801004000400000\n"),
    (GIVES, ["b 00010106"]),
    (FOLLOWS, ["b 00020cc002800005ffc8c100400040"]),
    (GIVES, ["b 00030108"]),
    *[(GIVES, ["b 00"])] * 38,  # the parts of the training check
    # the caller says something that is no command, so that T2 does not end its call
    (COMES, "A 000709c002800002ffc800400000\nB 000109c002800002ffc821400000\n"),
    (GIVES, ["b 002a0108"]),
    (GIVES, ["b 002b11c201e0000b0014d9a80000001001001001"]),
    (GIVES, ["b 002c08c201f00002001001"]),
    (GIVES, ["b 002d0106"]),
    (FOLLOWS, ["b 002e09c002800002ffc8f440"]),
    (COMES, "B 000209c002800002ffc831400000\n"),
    (GIVES, ["b 002f0106"]),
    (FOLLOWS, ["b 003009c002800002ffc8df40", "job 0 1728 standard 1 1 Delivered"]),
]


def call_with(pause):
    """The script of the call, and the beginnings of all lines that are to come of it. A tick a millisecond sooner answers in no
    line: between the two a second ring is refused."""
    script, wanted, now = "R\nT 0\n", ["ring 0", "a 000001040000"], 0
    for kind, step in STEPS:
        if kind == COMES:
            script += step
        else:
            now += pause if kind == FOLLOWS else 40
            script += f"T {now - 1}\nR\nT {now}\n"
            wanted += ["ring refused 1 Busy", *step]
    return script, wanted


class Pauses(unittest.TestCase):
    def test_the_packet_behind_a_preamble_waits_for_the_pause(self):
        for pause in PAUSES:
            with self.subTest(pause=pause):
                self.play_with(pause)

    def play_with(self, pause):
        script, wanted = call_with(pause)
        words = [os.environ["FAXGATE"], "trace", "--preamble", str(pause)]
        ran = subprocess.run(words, input=script, capture_output=True, text=True, timeout=60)
        told = ran.stdout.splitlines()
        self.assertEqual((ran.returncode, ran.stderr), (0, ""))
        self.assertEqual([line[: len(begin)] for line, begin in zip(told, wanted)], wanted)
        self.assertEqual(len(told), len(wanted))
