"""Hostile datagrams, each in place of one of a whole call."""
import unittest
from concurrent.futures import ThreadPoolExecutor

from calls import CALLED_DIS, CALLER_DCS, CALLER_EOP, CFR, CHECK, MCF, PAGE, PREAMBLE, TRAINING, datagram, image
from scripts import Scripted, ran

# A call of 55 turns, 40 ms apart, of which a page of one white row comes, goes out, and is confirmed. What comes: the turn before whose
# tick it does, the leg, and the packet.
TURNS = 55
COMES = [
    (3, "A", CALLER_DCS),
    (3, "A", TRAINING),
    (3, "A", CHECK),
    (5, "A", TRAINING),
    (5, "A", image(PAGE)),
    (5, "A", PREAMBLE),
    (5, "A", CALLER_EOP),
    (7, "B", CALLED_DIS),
    (48, "B", CFR),
    (53, "B", MCF),
]
# What a gateway tells of it.
DELIVERED = "job 0 1728 standard 1 1 Delivered"
AT_ONCE = 4


def numbered():
    """What comes: the turn, the leg, and the datagram."""
    numbers = {"A": 0, "B": 0}
    for turn, leg, packet in COMES:
        yield turn, leg, datagram(numbers[leg], packet)
        numbers[leg] += 1


CALL = list(numbered())


def is_cut(octets):
    """Whether octets are no datagram for sure (T.38, 9.1; X.691, 10.9): they end before what they say they have, or begin a length
    of more than 16,383 octets, which comes in fragments. Of what has FEC nothing is said."""
    try:
        _, rest = octets[:2][1], octets[2:]
        rest = rest[counted(rest) :]
        if rest[0] & 0x80:
            return False
        count, rest = rest[1], rest[2:]
        for _ in range(count):
            rest = rest[counted(rest) :]
    except (IndexError, ValueError):
        return True
    return False


def counted(octets):
    """How many octets a length and what it counts are."""
    first = octets[0]
    if first >= 0xC0:
        raise ValueError("fragments")
    at, length = (1, first) if first < 0x80 else (2, (first & 0x3F) << 8 | octets[1])
    if len(octets) < at + length:
        raise ValueError("cut")
    return at + length


def script(place=None, octets=b""):
    """The call; in one place these octets come, and after them the datagram before, which is late, and the datagram itself."""
    lines = ["R"]
    for turn in range(TURNS):
        # the moment of what comes in a turn is that of its tick: a call that is placed where none is asked for says no more than that
        lines.append(f"N {40 * turn}")
        for at, (when, leg, own) in enumerate(CALL):
            if when == turn and at == place:
                before = [it for _, on, it in CALL[max(at - 1, 0) : at] if on == leg]
                lines += [f"{leg} {it.hex()}" for it in (octets, *before)]
            if when == turn:
                lines.append(f"{leg} {own.hex()}")
        lines.append(f"T {40 * turn}")
    return "\n".join(lines) + "\n"


def changes(octets):
    """Each cut of octets, and each octet of them set to 00 and to FF."""
    for at in range(len(octets)):
        yield octets[:at]
        yield octets[:at] + b"\x00" + octets[at + 1 :]
        yield octets[:at] + b"\xff" + octets[at + 1 :]


class Hostile(Scripted):
    def setUp(self):
        self.undisturbed = ran(["trace"], script())
        self.assertIn(DELIVERED, self.undisturbed.splitlines())

    def check_each(self, leg):
        """Fails unless what is no datagram changes nothing, and all else is borne: the gateway goes on to the end of the script."""
        changed = [
            (place, octets) for place, (_, on, own) in enumerate(CALL) if on == leg for octets in dict.fromkeys(changes(own))
        ]
        with ThreadPoolExecutor(AT_ONCE) as pool:
            told = pool.map(lambda it: ran(["trace"], script(*it)), changed)
            for (place, octets), lines in zip(changed, told):
                with self.subTest(place=place, octets=octets.hex()[:80]):
                    if is_cut(octets) or octets == CALL[place][2]:
                        self.assertEqual(lines, self.undisturbed)
                    self.assertEqual(lines.count("not-connected refused 1 NotAsked\n"), TURNS)

    def test_on_the_calling_leg(self):
        self.check_each("A")

    def test_on_the_called_leg(self):
        self.check_each("B")

    def test_each_that_is_cut_is_none(self):
        """So the play above says of each that it changes nothing."""
        for _, _, own in CALL:
            self.assertFalse(is_cut(own))
            self.assertTrue(all(is_cut(own[:at]) for at in range(len(own))))


if __name__ == "__main__":
    unittest.main()
