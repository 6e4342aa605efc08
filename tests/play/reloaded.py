"""The configuration is read again (`reload`): another run serves it, once no line has a call, and what waits in the spool goes on."""
import contextlib
import resource
import urllib.request

from asked import Asked, page
from calls import CALLER_EOP, MCF, PREAMBLE, TRAINING, Caller, image
from server import HOST, LONGEST, Peer, until
from sip import AtATrunk
from sip_peer import fax_offer

DONE, STOPPING, FULL, NOT_READ = ["ok"], ["refused 5 Stopping"], ["refused 14 Full"], ["refused 15 NoReload"]
HAS_TO_STAY = "has to be there, and to stay as it is, while it is served"


class Reloaded(Asked):
    def begin_lines(self, *names, head="stop_seconds = 600\n", spool=True, **options):
        """A server of these lines, whose called legs have no peer of the configuration."""
        self.lines = {name: self.line(name, called_peer=False) for name in names}
        self.server = self.serve(*self.lines.values(), head=head, spool=spool, **options)
        self.client = self.server.events() if self.server.control else None

    def add(self, name, **settings):
        """A line of this name, from now on."""
        self.lines[name] = self.line(name, called_peer=False, **settings)

    def configure(self):
        self.server.configure(list(self.lines.values()))

    def reload(self):
        """The lines as they are now are in the file, which is read again."""
        self.configure()
        self.assertEqual(self.server.say("reload"), DONE)

    def served(self):
        """The names of the lines that are served; between two runs nobody listens."""
        with contextlib.suppress(OSError, AssertionError):
            return [line.split()[1] for line in self.server.say("status") if line.startswith("line ")]
        return []

    def are_served(self, *names):
        until(lambda: self.served() == list(names), what=f"a server of {names}")

    def ring(self, name):
        """A call on a line, which is on until it is hung up."""
        self.assertRegex(self.server.say(f"ring {name}")[0], "^ok [0-9]+$")

    def hang_up(self, name):
        self.assertEqual(self.server.say(f"hangup {name} calling"), DONE)


class Lines(Reloaded):
    def test_they_come_and_go(self):
        """At once where no line has a call; and the page that waits on one goes out, with its tag."""
        self.begin_lines("a1", "a2")
        self.caller = Caller(self.peer(self.lines["a1"], "calling"))
        self.confirm(2, "tag")
        self.client.event("ended")
        del self.lines["a2"]
        self.add("a3")
        self.reload()
        self.are_served("a1", "a3")
        self.assertEqual(self.server.say("ring a2"), ["refused 7 NoLine"])
        self.ring("a3")
        self.client = self.server.events()
        self.a1 = self.lines["a1"]
        self.deliver("tag", self.machine(), 2)

    def test_calls_go_on(self):
        """The run waits for them. Lines that are gone, or not so any more, take none meanwhile; others do."""
        self.begin_lines("a1", "a2", "a3", "a4")
        self.caller = Caller(self.peer(self.lines["a1"], "calling"))
        self.ring("a1")
        del self.lines["a2"]
        self.add("a3", redundancy=1)
        self.add("a5")
        self.reload()
        self.assertEqual(self.server.say("ring a2"), FULL)
        self.assertEqual(self.server.say("ring a3"), FULL)
        self.ring("a4")
        self.assertEqual(self.caller.call(page(1)), MCF)
        self.client.event("ended", line="a1")
        self.assertEqual(self.served(), ["a1", "a2", "a3", "a4"])
        self.assertEqual(self.server.say("reload"), DONE)
        self.hang_up("a4")
        self.are_served("a1", "a3", "a4", "a5")
        self.ring("a3")
        self.ring("a5")

    def test_it_is_not_waited_for_ever(self):
        """As late as a stop ends no line takes a call any more; those that are on go on."""
        self.begin_lines("a1", "a2", head="stop_seconds = 1\n")
        self.ring("a1")
        self.add("a3")
        self.reload()
        until(self.takes_none, what="a server that takes no call")
        self.assertEqual(self.served(), ["a1", "a2"])
        self.hang_up("a1")
        self.are_served("a1", "a2", "a3")
        self.ring("a2")

    def takes_none(self):
        """Whether a line takes no call; one that it takes is hung up."""
        answer = self.server.say("ring a2")
        if answer[0].startswith("ok"):
            self.hang_up("a2")
        return answer == STOPPING

    @staticmethod
    def lines_counted(port):
        """How many lines are told of over HTTP."""
        with urllib.request.urlopen(f"http://{HOST}:{port}/metrics", timeout=LONGEST) as answer:
            counts = dict(line.rsplit(" ", 1) for line in answer.read().decode().splitlines() if line[0] != "#")
        return int(counts["faxgate_lines"])

    def test_it_is_looked_at_again(self):
        """The port of HTTP, too, is opened anew, also where a connection to it has just been closed."""
        port = self.ports.take()
        # the port is held by a stream socket: it is let go for the server
        self.ports._held.pop().close()
        self.begin_lines("a1", head=f"stop_seconds = 600\nhttp = '{HOST}:{port}'\n")
        self.add("a2")
        self.assertEqual(self.lines_counted(port), 1)
        self.reload()
        self.are_served("a1", "a2")
        self.assertEqual(self.lines_counted(port), 2)

    def test_a_disk_fails_first(self):
        """The run that opens it anew serves the lines as they are in the file."""
        self.begin_lines("a1", "a2")
        self.caller = Caller(self.peer(self.lines["a1"], "calling"))
        self.ring("a1")
        self.add("a3")
        self.reload()
        process = self.server.process.pid
        limits = resource.prlimit(process, resource.RLIMIT_FSIZE)
        # its disk is full: no write goes after the first octet of a file
        resource.prlimit(process, resource.RLIMIT_FSIZE, (1, limits[1]))
        self.caller.train()
        self.caller.send(TRAINING, image(page(1)), PREAMBLE, CALLER_EOP)
        self.client.event("spool_failed")
        self.hang_up("a1")
        resource.prlimit(process, resource.RLIMIT_FSIZE, limits)
        self.are_served("a1", "a2", "a3")

    def test_a_stop_comes_first(self):
        self.begin_lines("a1")
        self.ring("a1")
        self.reload()
        self.assertEqual(self.server.say("stop"), DONE)
        self.assertEqual(self.server.say("reload"), STOPPING)
        self.hang_up("a1")
        self.assertEqual(self.server.ends(), 0)


class Faults(Reloaded):
    def is_refused(self, told):
        """What is in the file is not served, and why is told; the lines are served as before."""
        self.assertEqual(self.server.say("reload"), NOT_READ)
        self.assertIn(told, self.server.errors())
        self.assertEqual(self.served(), ["a1"])
        self.ring("a1")
        self.hang_up("a1")
        self.client.event("ended")

    def test_what_is_in_the_file_cannot_be_served(self):
        self.begin_lines("a1")
        self.server.configure("lines = 1\n")
        self.is_refused("lines.toml: lines")
        self.add("a2")
        with open(self.server.path("lines.toml"), "w", encoding="utf-8") as file:
            file.write(f"control = '{self.server.control}'\n" + "".join(line.text() for line in self.lines.values()))
        self.is_refused(f"lines.toml: `spool` {HAS_TO_STAY}")

    def test_there_is_no_spool(self):
        """What waits in memory would be lost."""
        self.begin_lines("a1", spool=False)
        self.is_refused(f"lines.toml: `spool` {HAS_TO_STAY}")

    def test_words_come_on_the_standard_input(self):
        self.begin_lines("a1", control=False)
        self.assertEqual(self.server.say("reload"), NOT_READ)
        self.assertIn(f"lines.toml: `control` {HAS_TO_STAY}", self.server.errors())
        self.assertEqual(self.served(), ["a1"])

    def test_a_port_that_is_taken(self):
        """It is told, and the lines are served as before."""
        self.begin_lines("a1")
        self.add("a2")
        self.addCleanup(Peer(self.lines["a2"].called).close)
        self.reload()
        until(lambda: f'line "a2": called: 127.0.0.1:{self.lines["a2"].called}: ' in self.server.errors(), what="a fault")
        self.are_served("a1")
        self.ring("a1")


class OverSip(AtATrunk):
    def test_a_call_that_is_asked_for(self):
        """It is cancelled, and the next run asks for it anew: the page goes out. Calls come then, too."""
        self.begin(spool=True)
        self.comes("+4930123", 1)
        invite = self.goes_out("004930123")
        self.trunk.answer(invite, 180)
        with open(self.server.path("lines.toml"), "a", encoding="utf-8") as file:
            file.write(self.line("b1", calling_peer=False, called_peer=False).text())
        self.assertEqual(self.server.say("reload"), DONE)
        self.trunk.answer(self.trunk.request("CANCEL"), 200)
        self.trunk.answer(invite, 487)
        self.trunk.request("ACK")
        until(self.has_another_line, what="the next run")
        self.client = self.server.events()
        invite, machine = self.goes_out("004930123"), self.machine()
        self.trunk.take(invite, fax_offer(machine.leg.port))
        self.taken(machine, 1)
        self.comes("+4930124", 2)

    def has_another_line(self):
        """Whether the lines as they are in the file now are served."""
        with contextlib.suppress(OSError, AssertionError):
            return any(line.startswith("line b1 ") for line in self.server.say("status"))
        return False
