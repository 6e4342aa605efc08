"""Two gateways in a row: what the first gives on its called leg comes to the calling leg of the second, and back.

Each is a run of `faxgate trace` over its script, which is read whole. So the chain is found by rounds: what the one gave in a round
comes to the other in the next one, until nothing changes. What a gateway gives in a turn hangs on what came before alone, so that this
ends, and with the one thing that two gateways do which hear each other.
"""
import collections
import functools
import pathlib
import tempfile
import unittest

import t4
from calls import CALLER_DCS, CALLER_EOP, CHECK, PAGE, PREAMBLE, TRAINING, datagram, image
from scripts import Scripted, ran

# A turn is 40 ms. What the caller sends to the first, by turn: its training check, and a page of one white row.
TURN_MS = 40
SAYS = [(3, CALLER_DCS), (3, TRAINING), (3, CHECK), (5, TRAINING), (5, image(PAGE)), (5, PREAMBLE), (5, CALLER_EOP)]
CALLER = [(turn, "A", datagram(number, packet).hex()) for number, (turn, packet) in enumerate(SAYS)]
# The first gives CNG, a preamble, DCS, an indicator, 38 datagrams of the training check, an indicator, one of the image with its
# last octets, and EOP and DCN after a preamble each.
SENT = 4 + 38 + 1 + 1 + 2 + 2
# After these the first waits for an answer: the last of the training check, and EOP. One that is lost or late comes again where T4 has
# the first train or ask again; any other one comes again with the next one, and nothing more is sent than in an undisturbed call.
BEFORE_A_WAIT = (4 + 37, 4 + 38 + 1 + 1 + 1)
# For how many turns a chain is played: a call; one in vain after it, which is given up after 35 s (T1); one whose first gateway gives
# up too, after three waits of 3 s; and one of whose datagrams one in four is lost.
WHOLE, ANSWERED, LOSSY = 1000, 500, 2000
MOST_ROUNDS = 200
# Each turn begins with a line that changes nothing and is answered so, since no call is asked for.
MARK = "not-connected refused 1 NotAsked"


@functools.lru_cache(64)
def traced(script, *options):
    """The lines that are told of a script. A gateway to which nothing else comes than in the round before is not played again."""
    return ran(["trace", *options], script).splitlines()


@functools.lru_cache(8)
def explained(script, *options):
    """The pictures of the pages of a script, by name."""
    with tempfile.TemporaryDirectory() as folder:
        ran(["explain", *options, "--pages", "seen"], script, folder)
        return {path.name: path.read_bytes() for path in pathlib.Path(folder).iterdir()}


class Gateway:
    """A gateway that rings in a turn, and what comes there: by turn, the leg and the octets; on leg A before the tick, on B after it."""

    def __init__(self, turns, redundancy, rings, comes):
        self.turns, self.redundancy, self.rings, self.comes = turns, redundancy, rings, comes

    def script(self):
        lines = collections.defaultdict(list)
        for turn, leg, octets in self.comes:
            lines[turn, leg].append(f"{leg} {octets}")
        told = []
        for turn in range(self.turns):
            now = TURN_MS * turn
            told += [f"N {now}", *(["R"] if turn == self.rings else []), *lines[turn, "A"], f"T {now}", *lines[turn, "B"]]
        return "\n".join(told) + "\n"

    def options(self):
        return ["--redundancy", str(self.redundancy)]

    def gives(self):
        """What it gives, by turn, the leg and the octets; and the lines of its jobs."""
        given, jobs, turn = [], [], -1
        for line in traced(self.script(), *self.options()):
            word, _, rest = line.partition(" ")
            if line == MARK:
                turn += 1
            elif word in "ab":
                given.append((turn, word, rest))
            elif word == "job":
                jobs.append(line)
        return given, jobs

    def pages(self):
        """The pictures of the pages that it confirmed."""
        found = explained(self.script(), *self.options())
        return [octets for name, octets in sorted(found.items()) if not name.endswith("-sent.pbm")]


# What a network makes of the datagrams between two gateways, each with its turn, its way and its octets, in their order: of those that
# go, and of those that come back.


def keeps(datagrams):
    return datagrams


def loses(place):
    """One of those that go is lost."""
    return lambda datagrams: [it for at, it in placed(datagrams) if at != place]


def repeats(place):
    """One of them comes twice."""
    return lambda datagrams: [it for at, it in placed(datagrams) for _ in range(2 if at == place else 1)]


def exchanges(place):
    """One of them comes after the next one."""

    def network(datagrams):
        found, late = [], None
        for at, it in placed(datagrams):
            if at == place:
                late = it
                continue
            found.append(it)
            if at is not None and late:
                found.append((it[0], *late[1:]))
                late = None
        return found

    return network


def loses_one_of_four(datagrams):
    return [it for at, it in enumerate(datagrams, 1) if at % 4]


def placed(datagrams):
    """Each datagram after its place among those that go."""
    place = 0
    for it in datagrams:
        yield (place if it[1] == "goes" else None), it
        place += it[1] == "goes"


class Chain:
    """Two gateways, and, where the second one's call is answered, a third one, which is the machine that it calls."""

    def __init__(self, network, turns, redundancy=3, is_answered=False, begin=([], [], [])):
        """`begin`: what may have been given in it, which saves rounds where it was."""
        self.network, self.turns, self.redundancy, self.is_answered = network, turns, redundancy, is_answered
        self.sent, self.back, self.answers = begin
        for _ in range(MOST_ROUNDS):
            before = self.sent, self.back, self.answers
            self.round()
            if (self.sent, self.back, self.answers) == before:
                return
        raise AssertionError("two gateways that do not come to an end")

    def given_until(self, turn):
        """What was given before a turn."""
        return tuple([it for it in given if it[0] < turn] for given in (self.sent, self.back, self.answers))

    def gateway(self, rings, comes):
        return Gateway(self.turns, self.redundancy, rings, comes)

    def round(self):
        """What each gives, where that came which the others gave in the round before."""
        self.first = self.gateway(0, CALLER + [(turn, "B", octets) for turn, octets in self.carried("comes")])
        given, self.first_jobs = self.first.gives()
        self.sent = [(turn, "goes", octets) for turn, leg, octets in given if leg == "b"]
        goes = self.carried("goes")
        begin = self.sent[0][0] if self.sent else self.turns
        self.second = self.gateway(begin, [(turn, "A", octets) for turn, octets in goes] + self.answers)
        given, self.second_jobs = self.second.gives()
        self.back = [(turn, "comes", octets) for turn, leg, octets in given if leg == "a"]
        if self.is_answered:
            self.answers = self.machine_answers([(turn, "A", octets) for turn, leg, octets in given if leg == "b"])

    def carried(self, way):
        """What comes over the network on a way. In a turn what goes does so before what comes back."""
        between = sorted(self.sent + self.back, key=lambda it: (it[0], it[1] == "comes"))
        return [(turn, octets) for turn, on, octets in self.network(between) if on == way]

    def machine_answers(self, called):
        """What the machine gives that the second one calls."""
        if not called:
            return []
        self.machine = self.gateway(called[0][0], called)
        return [(turn, "B", octets) for turn, leg, octets in self.machine.gives()[0] if leg == "a"]


class Chains(Scripted):
    def test_a_page_goes_through_two_gateways(self):
        """And nobody answers the second one."""
        chain = Chain(keeps, WHOLE)
        self.assertEqual(len(chain.sent), SENT)
        self.assertEqual(chain.first_jobs, ["job 0 1728 standard 1 1 Delivered"])
        self.assertEqual(chain.second_jobs, ["job 0 1728 standard 1 0 NoAnswer"])

    def test_a_machine_behind_both_has_the_page(self):
        chain = Chain(keeps, ANSWERED, is_answered=True)
        self.assertEqual(chain.first_jobs, ["job 0 1728 standard 1 1 Delivered"])
        self.assertEqual(chain.second_jobs, ["job 0 1728 standard 1 1 Delivered"])
        self.assertEqual(chain.machine.pages(), [t4.picture([[1728]])])


class Disturbed(Scripted):
    """One datagram of the first gateway is disturbed: the machine behind the second one has the page, once, and nothing is sent more often
    than it has to be. What is lost or late comes again in the next three datagrams."""

    def check_each(self, network, is_late):
        undisturbed = Chain(keeps, ANSWERED, is_answered=True)
        for place, (turn, _, _) in enumerate(undisturbed.sent):
            with self.subTest(place):
                waits = is_late and place in BEFORE_A_WAIT
                begin = undisturbed.given_until(turn if waits else ANSWERED)
                chain = Chain(network(place), ANSWERED, is_answered=True, begin=begin)
                self.assertEqual(chain.machine.pages(), [t4.picture([[1728]])])
                (self.assertGreater if waits else self.assertEqual)(len(chain.sent), SENT)


class Lost(Disturbed):
    def test_each(self):
        self.check_each(loses, is_late=True)


class Repeated(Disturbed):
    def test_each(self):
        self.check_each(repeats, is_late=False)


class Exchanged(Disturbed):
    def test_each(self):
        self.check_each(exchanges, is_late=True)


class OneOfFourIsLost(Scripted):
    """There and back."""

    def test_where_each_has_the_eight_before_its_own(self):
        """Nothing is missing, and the page goes on; nobody answers the second."""
        chain = Chain(loses_one_of_four, LOSSY, redundancy=8)
        self.assertEqual(chain.first_jobs, ["job 0 1728 standard 1 1 Delivered"])
        self.assertEqual(chain.second_jobs, ["job 0 1728 standard 1 0 NoAnswer"])

    def test_where_each_has_none_of_them(self):
        """No training check comes whole, and the second gets no page."""
        chain = Chain(loses_one_of_four, LOSSY, redundancy=0)
        self.assertEqual(len(chain.first_jobs), 1)
        self.assertNotIn("Delivered", chain.first_jobs[0])
        self.assertEqual(chain.second_jobs, [])


if __name__ == "__main__":
    unittest.main()
