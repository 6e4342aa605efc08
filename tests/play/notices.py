"""A service manager, as systemd is one, is told by datagrams to the socket that NOTIFY_SOCKET names (sd_notify(3)): that the lines are open,
and that the server begins to stop."""
import contextlib
import os
import resource
import socket
import struct
import tempfile

from playing import PAGE, PATIENCE, SHORT_T4
from server import HOST, LONGEST, Client, Line, Play, Ports, Server, address, until
from spools import Spooling

STOPPING = b"STOPPING=1\nSTATUS=stops once no line has a call or a job"
NO_NAME = "it begins neither with / nor with @, or has more than 107 octets"
# For so long nothing is to come that does not come, in seconds.
QUIET = 0.3
# The process, the user and the group of who sent a datagram (unix(7)).
CREDENTIALS = struct.Struct("3i")


def ready(lines):
    return f"READY=1\nSTATUS=lines open: {lines}".encode()


class Manager:
    """A service manager that hears at a socket of this name."""

    def __init__(self, name):
        self.name = name
        self.socket = socket.socket(socket.AF_UNIX, socket.SOCK_DGRAM)
        self.socket.setsockopt(socket.SOL_SOCKET, socket.SO_PASSCRED, 1)
        self.socket.bind(name.replace("@", "\0", 1) if name[0] == "@" else name)

    def hear(self, within=LONGEST):
        """The next notice, and the number of the process that sent it; nothing where none comes."""
        self.socket.settimeout(within)
        try:
            octets, more, _, _ = self.socket.recvmsg(4096, socket.CMSG_SPACE(CREDENTIALS.size))
        except TimeoutError:
            return None, None
        return octets, CREDENTIALS.unpack(more[0][2])[0]

    def close(self):
        self.socket.close()


class Noticed(Play):
    def setUp(self):
        super().setUp()
        self.folder = self.enterContext(tempfile.TemporaryDirectory())

    def manager(self, name=None):
        manager = Manager(name or os.path.join(self.folder, "manager"))
        self.addCleanup(manager.close)
        return manager

    def server(self, manager, *lines, **options):
        """A server that was not started, of these lines; its manager has this name."""
        server = Server(lines, **options)
        self.addCleanup(server.close)
        server.before = ["env", f"NOTIFY_SOCKET={manager}"]
        return server

    def heard(self, manager, server, wanted):
        """The manager hears this next, of the server itself."""
        self.assertEqual(manager.hear(), (wanted, server.process.pid))

    def quiet(self, manager):
        self.assertEqual(manager.hear(QUIET), (None, None))

    def open_at(self, *ports):
        """Whether somebody has each of these ports for datagrams."""
        return not any(Ports.is_free(port) for port in ports)

    def test_lines_are_open_once_that_is_told(self):
        """Where it is told, each leg and redial line has its socket, HTTP is answered, and a line can be rung."""
        manager, lines = self.manager(), [self.line(), self.line("a2")]
        redial = self.ports.take()
        with socket.socket() as probe:
            probe.bind((HOST, 0))
            http = probe.getsockname()[1]
        server = self.server(manager.name, *lines, spool=True, head=f"http = '{address(http)}'\n")
        with open(server.path("lines.toml"), "a", encoding="utf-8") as file:
            file.write(f"[[redial]]\nname = 'r1'\ncalled = {{ local = '{address(redial)}' }}\n")
        self.assertFalse(self.open_at(lines[0].calling))
        with open(server.path("errors"), "ab") as errors, open(server.path("output"), "ab") as output:
            server.process = server._begin(["serve", "--config", server.path("lines.toml")], stdout=output, stderr=errors)
        self.heard(manager, server, ready(2))
        self.assertTrue(self.open_at(redial, *(port for line in lines for port in (line.calling, line.called))))
        socket.create_connection((HOST, http), LONGEST).close()
        client = Client.connect(server.control)
        self.addCleanup(client.close)
        self.assertEqual(client.say("ring a2"), ["ok 0"])
        self.quiet(manager)

    def test_nothing_is_told_where_a_line_cannot_be_opened(self):
        manager, lines = self.manager(), [self.line(), self.line("a2")]
        with socket.socket(socket.AF_INET, socket.SOCK_DGRAM) as other:
            other.bind((HOST, lines[1].called))
            server = self.server(manager.name, *lines)
            with self.assertRaisesRegex(AssertionError, "the server has ended with 4"):
                server.start()
        self.quiet(manager)

    def test_a_stop_is_told_as_it_begins(self):
        """While a call is on the server goes on; a second word ends it, and tells nothing more."""
        manager = self.manager()
        server = self.server(manager.name, self.line()).start()
        self.heard(manager, server, ready(1))
        server.say("ring a1")
        self.quiet(manager)
        self.assertEqual(server.say("stop"), ["ok"])
        self.heard(manager, server, STOPPING)
        self.assertIsNone(server.process.poll())
        self.assertEqual(server.say("ring a1"), ["refused 5 Stopping"])
        self.assertEqual(server.say("stop"), ["ok"])
        self.assertEqual(server.ends(), 0)
        self.quiet(manager)
        self.assertEqual(server.errors(), "")

    def test_the_end_of_the_input_is_a_stop(self):
        manager = self.manager()
        server = self.server(manager.name, self.line(), control=False).start()
        self.heard(manager, server, ready(1))
        server.process.stdin.close()
        self.heard(manager, server, STOPPING)
        self.assertEqual(server.ends(), 0)

    def test_a_name_of_the_abstract_namespace(self):
        manager = self.manager(f"@faxgate-play/{os.getpid()}/{id(self)}")
        server = self.server(manager.name, self.line()).start()
        self.heard(manager, server, ready(1))
        server.say("stop")
        self.heard(manager, server, STOPPING)
        self.assertEqual((server.ends(), server.errors()), (0, ""))

    def test_a_name_as_long_as_may_be(self):
        """A path of 107 octets, and one of 108, which no address holds."""
        longest = os.path.join(self.folder, (106 - len(self.folder)) * "m")
        manager = self.manager(longest)
        server = self.server(longest, self.line()).start()
        self.heard(manager, server, ready(1))
        other = self.server(longest + "m", self.line("a2")).start()
        self.assertEqual(other.errors(), f"faxgate: NOTIFY_SOCKET: {longest}m: {NO_NAME}\n")

    def test_what_fails_is_told_and_passed_over(self):
        """A socket that is not there, one that is no name, and none: the lines are served."""
        absent = os.path.join(self.folder, "absent")
        for name, told in ((absent, "No such file or directory (os error 2)"), ("manager", NO_NAME), ("vsock:2:1", NO_NAME), ("", None)):
            with self.subTest(name=name):
                server = self.server(name, self.line()).start()
                self.assertEqual(server.say("ring a1"), ["ok 0"])
                said = f"faxgate: NOTIFY_SOCKET: {name}: {told}\n" if told else ""
                self.assertEqual(server.errors(), said)
                server.say("stop")
                server.say("stop")
                self.assertEqual((server.ends(), server.errors()), (0, 2 * said))

    @staticmethod
    def sends(sender, name):
        """How many datagrams a socket sends until it would have to wait: of its own, or of those that wait there, there are too many."""
        sender.setblocking(False)
        count = 0
        with contextlib.suppress(BlockingIOError):
            while True:
                sender.sendto(b"X=1", name)
                count += 1
        return count

    def test_who_does_not_hear_is_not_waited_for(self):
        """The datagrams that wait at a manager are as many as may: it is waited for a second, and the lines are served."""
        manager = self.manager()
        with contextlib.ExitStack() as senders:
            while self.sends(senders.enter_context(socket.socket(socket.AF_UNIX, socket.SOCK_DGRAM)), manager.name):
                pass
        server = self.server(manager.name, self.line()).start()
        self.assertEqual(server.errors(), f"faxgate: NOTIFY_SOCKET: {manager.name}: Resource temporarily unavailable (os error 11)\n")
        self.assertEqual(server.say("ring a1"), ["ok 0"])

    def test_a_signal_is_a_crash(self):
        """No signal is handled: nothing can be told. A unit's ExecStop says `stop` before systemd sends one."""
        manager = self.manager()
        server = self.server(manager.name, self.line()).start()
        self.heard(manager, server, ready(1))
        server.process.terminate()
        self.assertEqual(server.ends(), -15)
        self.quiet(manager)


class Anew(Spooling):
    def test_a_run_that_begins_anew_tells_it_anew(self):
        """Where the spool's disk fails, the process begins anew by itself: that is no stop, and the lines are open again."""
        with tempfile.TemporaryDirectory() as folder, contextlib.closing(Manager(os.path.join(folder, "manager"))) as manager:
            line = Line(self.ports)
            server = Server([line], spool=True)
            self.addCleanup(server.close)
            server.before = ["env", f"NOTIFY_SOCKET={manager.name}"]
            events = server.start().events()
            self.assertEqual(manager.hear()[0], ready(1))
            self.limit(server, 0)
            machine = self.calling(line, [PAGE], t4=SHORT_T4)
            self.assertEqual(server.say("ring a1"), ["ok 0"])
            events.event("spool_failed", PATIENCE)
            machine.end()
            # the machine may have been gone by itself
            self.assertIn(server.say("hangup a1 calling"), (["ok"], ["refused 11 NoCall"]))
            self.limit(server, resource.RLIM_INFINITY)
            self.assertEqual(manager.hear(PATIENCE), (ready(1), server.process.pid))
            until(lambda: server.say("ring a1") == ["ok 0"], what="a ring")
