"""What plays of lines share: pages, and a server with machines at its legs."""
import contextlib
import os
import unittest

import t4
import t38
from server import Ports, Server

# A page of two rows, of which the second begins with one black element and ends with eight; and one of another two.
ROWS = [[1728], [0, 1, 1719, 8]]
OTHER_ROWS = [[100, 3, 1625], [1728]]
PAGE, OTHER_PAGE = t4.text(ROWS), t4.text(OTHER_ROWS)
# How many times as long each may take (`tools/play --slow`); how long a job is waited for, in seconds: far longer than it takes; and
# how long a machine waits for an answer that may not come: less than T4, so that a play is short.
SLOW = int(os.environ.get("FAXGATE_SLOW", "1"))
PATIENCE = 90 * SLOW
SHORT_T4 = 1.5 * SLOW


class Playing(unittest.TestCase):
    """A play with ports of its own."""

    def setUp(self):
        self.ports = Ports()
        self.addCleanup(self.ports.close)
        self.stack = contextlib.ExitStack()
        self.addCleanup(self.stack.close)

    def serve(self, *lines, **more):
        """A server of these lines, and a client that is told events."""
        server = self.stack.enter_context(Server(lines, **more))
        return server, server.events()

    def calling(self, line, pages=(PAGE,), comes=t38.clear, goes=t38.clear, **more):
        """A machine that calls on a line."""
        leg = t38.Leg(line.calling_peer, line.calling, goes=goes, comes=comes)
        return self.stack.enter_context(t38.Calling(leg, list(pages), **more))

    def called(self, line, comes=t38.clear, goes=t38.clear, **more):
        """A machine that is called by a line."""
        leg = t38.Leg(line.called_peer, goes=goes, comes=comes)
        return self.stack.enter_context(t38.Called(leg, **more))

    def listens(self, port):
        """A socket at a port, which says nothing."""
        leg = t38.Leg(port)
        self.addCleanup(leg.close)
        return leg

    def await_job(self, events, **members):
        """The event of a job with these members, which was delivered."""
        return events.event("job", PATIENCE, outcome="Delivered", **members)

    def ring(self, server, line, tag=""):
        self.assertEqual(server.say(f"ring {line.name} {tag}".rstrip()), ["ok 0"])


def numbers(came):
    """The numbers of datagrams, in the order in which they came."""
    return [t38.read_datagram(octets)[0] for _, octets, _ in came]
