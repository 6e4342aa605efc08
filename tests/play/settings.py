"""What a configuration sets of a line shows in its datagrams, and in when they come."""
import statistics
from concurrent.futures import ThreadPoolExecutor

from calls import CALLER_DCS, GATEWAY_DIS, MCF, PREAMBLE, Called, Caller, Datagram
from server import SLOW, Play, on_time

TURN = 0.04  # seconds from one turn of a line to the next
# How many packets of a training check are sent on: 450 octets, twelve in each.
CHECK_PACKETS = 38


class Settings(Play):
    def serve_lines(self, settings):
        """A server of a line for each of these settings, each of which was rung, and their callers and called machines."""
        lines = [self.line(f"a{i}", **setting) for i, setting in enumerate(settings)]
        server = self.serve(*lines)
        callers = [Caller(self.peer(line, "calling")) for line in lines]
        called = [Called(self.peer(line, "called")) for line in lines]
        for line in lines:
            self.assertEqual(server.say(f"ring {line.name}"), ["ok 0"])
        return callers, called

    def each(self, *actions):
        """What these actions came to, done at once."""
        with ThreadPoolExecutor(len(actions)) as pool:
            return [action.result() for action in [pool.submit(action) for action in actions]]


class Redundancy(Settings):
    def test_redundancy_shows_in_datagrams(self):
        """Each has the packets before its own, the newest first, as many as the line says, or 3."""
        wanted = (3, 0, 8)
        callers, called = self.serve_lines([{}, {"redundancy": 0}, {"redundancy": 8}])
        self.assertEqual(self.each(*(caller.call for caller in callers)), [MCF] * 3)
        self.each(*(machine.answer for machine in called))
        self.each(*(machine.wait_for_image for machine in called))
        for redundancy, *machines in zip(wanted, callers, called):
            for machine in machines:
                packets = machine.packets()
                for i, (_, came) in enumerate(machine.came):
                    self.assertEqual(came.number, i)
                    self.assertEqual(came.earlier, packets[max(0, i - redundancy) : i][::-1], (redundancy, i))
        self.assertGreater(len(called[2].came), CHECK_PACKETS)


class Preamble(Settings):
    @on_time
    def test_the_packet_behind_a_preamble_waits(self):
        """On both legs, for as long as the line says, or 40 ms."""
        callers, called = self.serve_lines([{}, {"preamble_ms": 1000}, {"preamble_ms": 2000}])
        self.each(*(caller.call for caller in callers))
        self.each(*(machine.answer for machine in called))
        self.each(*(lambda machine=machine: machine.wait_for(CALLER_DCS) for machine in called))
        for machines in (callers, called):
            waited = [self.waited_behind_preamble(machine) for machine in machines]
            self.assertLess(waited[0], 0.6, waited)
            self.assertTrue(0.7 < waited[1] < 1.6, waited)
            self.assertTrue(1.7 < waited[2] < 1.7 + 0.9 * SLOW, waited)

    def waited_behind_preamble(self, machine):
        """How long the packet after the first preamble waited, in seconds."""
        i = machine.packets().index(PREAMBLE)
        return machine.came[i + 1][0] - machine.came[i][0]


class Repeats(Settings):
    # When the last datagram of a leg comes, in seconds after its first time.
    WANTED = {
        "full": [0, 0.02, 0.06, 0.14, 0.3, 0.62, 1.26],
        "last": [0, 0.04],
        "none": [0],
    }

    @on_time
    def test_the_last_datagram_is_sent_again(self):
        """It is the DIS here, after which nothing is sent for 3 s. Without a word of it repeats are `full`."""
        settings = [{}] + [{"repeat": repeat} for repeat in self.WANTED]
        callers, _ = self.serve_lines(settings)
        self.each(*(lambda caller=caller: caller.wait_for(GATEWAY_DIS) for caller in callers))
        heard = self.each(*(lambda caller=caller: caller.peer.hear_all(2) for caller in callers))
        for caller, setting, again in zip(callers, settings, heard):
            wanted = self.WANTED[setting.get("repeat", "full")]
            first, octets, _ = [last for last in caller.peer.heard if Datagram(last[1]).packet == GATEWAY_DIS][0]
            self.assertEqual({came for _, came in again} - {octets}, set(), setting)
            self.assertEqual(len(again) + 1, len(wanted), setting)
            for (moment, _), after in zip(again, wanted[1:]):
                self.assertLess(abs(moment - first - after), 0.4, (setting, after))

    @on_time
    def test_each_datagram_is_sent_twice(self):
        """With `full` also those that a newer one follows 40 ms later; with `none` they come once; with `last` the one 40 ms later may
        be due in the very turn that hands over the newer one, before it."""
        callers, called = self.serve_lines([{"repeat": "full"}, {"repeat": "last"}, {"repeat": "none"}])
        self.each(*(caller.call for caller in callers))
        self.each(*(machine.answer for machine in called))
        self.each(*(machine.wait_for_image for machine in called))
        for machine, often in zip(called, ({2}, {1, 2}, {1})):
            numbers = [Datagram(octets).number for _, octets, _ in machine.peer.heard]
            check = [came.number for _, came in machine.came if came.packet.startswith("c201e0")]
            self.assertEqual(len(check), CHECK_PACKETS - 1)
            # A turn that comes late may send one more, or one less.
            counts = [numbers.count(number) for number in check]
            self.assertIn(statistics.mode(counts), often, counts)


class Pace(Settings):
    @on_time
    def test_a_line_has_its_turn_each_40_ms(self):
        """A training check comes in packets 40 ms apart."""
        callers, called = self.serve_lines([{"repeat": "none"}])
        callers[0].call()
        called[0].answer()
        called[0].wait_for_image()
        moments = [moment for moment, came in called[0].came if came.packet.startswith("c201")]
        self.assertEqual(len(moments), CHECK_PACKETS)
        spent, wanted = moments[-1] - moments[0], (CHECK_PACKETS - 1) * TURN
        self.assertTrue(wanted - 0.2 < spent < wanted + 0.6 * SLOW, spent)
        apart = sorted(later - earlier for earlier, later in zip(moments, moments[1:]))
        self.assertTrue(0.03 < apart[len(apart) // 2] < 0.05, apart)
