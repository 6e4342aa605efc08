"""What a play speaks to: `faxgate serve` in a folder of its own, its clients, and the peers of its legs.

The program's path is in the environment variable FAXGATE. Everything has a limit in time, and whatever a play started is gone
once it ends, however it ends.
"""
import contextlib
import functools
import json
import os
import select
import shutil
import socket
import subprocess
import tempfile
import time
import unittest

# How many times as long as else everything may take (`tools/play --slow`).
SLOW = int(os.environ.get("FAXGATE_SLOW", "1"))
# How long anything is waited for that is to come, in seconds: far longer than it takes, so that a busy machine fails no play.
LONGEST = 30 * SLOW
HOST = "127.0.0.1"
NO_SPOOL = "pages are kept in memory alone: no spool is set"
# What begins the last line of an answer.
LAST_LINES = ("ok", "refused ", "# EOF")


def program():
    """The path of the program that is played on."""
    return os.path.abspath(os.environ["FAXGATE"])


def until(condition, within=LONGEST, what="what was waited for"):
    """Waits until a condition holds, and gives what it gave."""
    end = time.monotonic() + within
    while True:
        found = condition()
        if found:
            return found
        if time.monotonic() > end:
            raise AssertionError(f"{what} has not come in {within} s")
        time.sleep(0.01)


class Ports:
    """Ports of this host for datagrams. Each is held by a stream socket of the same number, so that no other play gets it."""

    def __init__(self):
        self._held = []

    def take(self):
        """A port that is free."""
        for _ in range(100):
            held = socket.socket(socket.AF_INET, socket.SOCK_STREAM)
            self._held.append(held)
            held.bind((HOST, 0))
            port = held.getsockname()[1]
            if self.is_free(port):
                return port
        raise AssertionError("no port is free")

    @staticmethod
    def is_free(port):
        """Whether nobody has a port for datagrams."""
        with socket.socket(socket.AF_INET, socket.SOCK_DGRAM) as probe:
            try:
                probe.bind((HOST, port))
            except OSError:
                return False
        return True

    def close(self):
        """Lets them go."""
        for held in self._held:
            held.close()


def address(port):
    """A port of this host, as the program takes it."""
    return f"{HOST}:{port}"


class Line:
    """A line of a configuration, with ports of its own: those of its legs, `calling` and `called`, and those of their peers."""

    def __init__(self, ports, name="a1", calling_peer=True, called_peer=True, **settings):
        self.name = name
        self.calling, self.calling_peer = ports.take(), ports.take()
        self.called, self.called_peer = ports.take(), ports.take()
        self._has_peer = {"calling": calling_peer, "called": called_peer}
        self._settings = settings

    def text(self):
        """The line in a configuration."""
        text = f"[[lines]]\nname = '{self.name}'\n"
        for leg in ("calling", "called"):
            peer = f", peer = '{address(getattr(self, leg + '_peer'))}'" if self._has_peer[leg] else ""
            text += f"{leg} = {{ local = '{address(getattr(self, leg))}'{peer} }}\n"
        for key, value in self._settings.items():
            text += f"{key} = {json.dumps(value)}\n"
        return text


class Peer:
    """A socket at the other end of a leg, which keeps what comes, and when."""

    def __init__(self, port, leg=None):
        self.socket = socket.socket(socket.AF_INET, socket.SOCK_DGRAM)
        self.socket.bind((HOST, port))
        self.leg = leg
        self.heard = []

    def send(self, octets):
        """Sends a datagram to the leg."""
        self.socket.sendto(octets, (HOST, self.leg))

    def hear(self, within=LONGEST):
        """The next datagram; None where none comes."""
        ready, _, _ = select.select([self.socket], [], [], within)
        if not ready:
            return None
        octets, sender = self.socket.recvfrom(65536)
        self.heard.append((time.monotonic(), octets, sender))
        return octets

    def hear_all(self, within):
        """All datagrams of so many seconds, each with its moment in seconds."""
        end = time.monotonic() + within
        first = len(self.heard)
        while time.monotonic() < end:
            self.hear(max(0, end - time.monotonic()))
        return [(moment, octets) for moment, octets, _ in self.heard[first:]]

    def forget(self):
        """What came and was not heard is dropped."""
        while self.hear(0) is not None:
            pass

    def close(self):
        self.socket.close()


class Client:
    """Someone who says words, and reads answers and events, over two descriptors that may be one."""

    def __init__(self, reads, writes, tells_events=False):
        self._reads, self._writes = reads, writes
        self._octets = b""
        # the events that came and were not taken, in their order
        self.events = []
        # whether events come among the answers
        self._tells_events = tells_events

    @classmethod
    def connect(cls, path):
        """A client of the control socket at this path."""
        stream = socket.socket(socket.AF_UNIX, socket.SOCK_STREAM)
        try:
            stream.settimeout(LONGEST)
            stream.connect(path)
        except OSError:
            stream.close()
            raise
        client = cls(stream.fileno(), stream.fileno())
        client.stream = stream
        return client

    def close(self):
        if hasattr(self, "stream"):
            self.stream.close()

    def send(self, octets):
        """Sends octets as they are."""
        end = time.monotonic() + LONGEST
        while octets:
            _, ready, _ = select.select([], [self._writes], [], max(0, end - time.monotonic()))
            if not ready:
                raise AssertionError("what was said is not taken")
            octets = octets[os.write(self._writes, octets[:4096]):]

    def line(self, within=LONGEST):
        """The next line, without its end; None where none comes, or the peer is gone."""
        end = time.monotonic() + within
        while b"\n" not in self._octets:
            ready, _, _ = select.select([self._reads], [], [], max(0, end - time.monotonic()))
            more = os.read(self._reads, 65536) if ready else b""
            if not more:
                return None
            self._octets += more
        line, self._octets = self._octets.split(b"\n", 1)
        return line.decode()

    def answer(self, within=LONGEST):
        """The lines of the next answer. Events that come between are kept."""
        lines, end = [], time.monotonic() + within
        while True:
            line = self.line(max(0, end - time.monotonic()))
            if line is None:
                raise AssertionError(f"no answer but {lines}")
            if self._tells_events and line.startswith("{"):
                self.events.append(json.loads(line))
                continue
            lines.append(line)
            if line.startswith(LAST_LINES):
                return lines

    def say(self, word, within=LONGEST):
        """The lines that a word is answered with."""
        self._tells_events = self._tells_events or word.split(" ")[0] == "events"
        self.send(word.encode() + b"\n")
        return self.answer(within)

    def event(self, kind, within=LONGEST, **members):
        """The first event of this kind with these members that came and was not taken; waits for it."""
        end = time.monotonic() + within
        wanted, place = {"event": kind, **members}, 0
        while True:
            for place in range(place, len(self.events)):
                if wanted.items() <= self.events[place].items():
                    return self.events.pop(place)
            place = len(self.events)
            line = self.line(max(0, end - time.monotonic()))
            if line is None:
                raise AssertionError(f"no event {wanted}, but {self.events}")
            self.events.append(json.loads(line))

    def no_event(self, kind, within, **members):
        """Sees that no such event comes in so many seconds."""
        end = time.monotonic() + within
        while (line := self.line(max(0, end - time.monotonic()))) is not None:
            self.events.append(json.loads(line))
        wanted = {"event": kind, **members}
        found = [event for event in self.events if wanted.items() <= event.items()]
        if found:
            raise AssertionError(f"an event that was not to come: {found}")


class Server:
    """`faxgate serve` over a configuration, in a folder of its own. As a context manager it is there and answers within, and its
    processes, its folder and its ports are gone after.

    `config` is the text of the configuration without `control` and `spool`, or lines (`Line`). `spool`: pages are stored in a folder.
    `control`: words come on a socket (a text: of this name, which the configuration says itself); else on standard input.
    `head`: further keys above the lines.
    """

    def __init__(self, config, spool=False, control=True, head=""):
        self.folder = tempfile.mkdtemp(prefix="faxgate-play-")
        self.control = self.path("control" if control is True else control) if control else None
        self.spool = self.path("spool") if spool else None
        self.process, self._clients, self._runs = None, [], []
        # words before each run of the program
        self.before = []
        if control is True:
            head += f"\ncontrol = '{self.control}'\n"
        if spool:
            head += f"\nspool = '{self.spool}'\n"
            os.mkdir(self.spool)
        self._head = head
        self.configure(config)

    def configure(self, config):
        """What it is started with from now on."""
        text = config if isinstance(config, str) else "".join(line.text() for line in config)
        with open(self.path("lines.toml"), "w", encoding="utf-8") as file:
            file.write(self._head + text)

    def path(self, name):
        """The path of a file in the server's folder."""
        return os.path.join(self.folder, name)

    def __enter__(self):
        try:
            return self.start()
        except BaseException:
            self.close()
            raise

    def __exit__(self, *_):
        self.close()

    def start(self):
        """Starts it, over the folder as it is, and waits until it answers."""
        with open(self.path("errors"), "ab") as errors, open(self.path("output"), "ab") as output:
            self.process = self._begin(
                ["serve", "--config", self.path("lines.toml")],
                stdin=subprocess.DEVNULL if self.control else subprocess.PIPE,
                stdout=output if self.control else subprocess.PIPE,
                stderr=errors,
                # A write beyond a limit of the file's size fails, and ends no server.
                restore_signals=not self.spool,
            )
        if self.control:
            until(self._answers, what="the server's answer")
        else:
            self.standard = Client(self.process.stdout.fileno(), self.process.stdin.fileno(), tells_events=True)
            self.first_line = None if self.spool else self.standard.line()
            self.say("status")
        return self

    def _begin(self, words, **streams):
        process = subprocess.Popen([*self.before, program(), *words], cwd=self.folder, **streams)
        self._runs.append(process)
        return process

    def _answers(self):
        if self.process.poll() is not None:
            raise AssertionError(f"the server has ended with {self.process.returncode}: {self.errors()}")
        with contextlib.suppress(OSError):
            return self.say("status")
        return None

    def client(self):
        """A client that stays connected."""
        client = Client.connect(self.control)
        self._clients.append(client)
        return client

    def events(self):
        """A client that is told events."""
        client = self.client()
        if client.say("events") != ["ok"]:
            raise AssertionError("events are not told")
        return client

    def say(self, word):
        """The lines that a word is answered with, said by a client of its own (on standard input, by the only one)."""
        if not self.control:
            return self.standard.say(word)
        client = Client.connect(self.control)
        try:
            return client.say(word)
        finally:
            client.close()

    def metrics(self):
        """The counts, by their names."""
        lines = [line.split() for line in self.say("metrics") if not line.startswith("#")]
        return {name: int(count) for name, count in lines}

    def run(self, *words):
        """Starts the program with other words, as a machine of the server's lines; it ends with the server at the latest."""
        return self._begin(
            list(words), stdin=subprocess.DEVNULL, stdout=subprocess.PIPE, stderr=subprocess.PIPE, text=True
        )

    def ends(self, within=LONGEST):
        """The status that the server ends with."""
        try:
            return self.process.wait(within)
        except subprocess.TimeoutExpired:
            raise AssertionError(f"the server has not ended in {within} s") from None

    def kill(self):
        """The server is gone at once, as by a crash."""
        self.process.kill()
        self.process.wait()
        self._close_streams(self.process)

    def errors(self):
        """What it said on its standard error."""
        with open(self.path("errors"), encoding="utf-8") as file:
            return file.read()

    def output(self):
        """What it said on its standard output, where it has a control socket."""
        with open(self.path("output"), encoding="utf-8") as file:
            return file.read()

    @staticmethod
    def _close_streams(process):
        for stream in (process.stdin, process.stdout, process.stderr):
            if stream:
                with contextlib.suppress(OSError):
                    stream.close()

    def close(self):
        """All of it is gone."""
        for client in self._clients:
            client.close()
        for process in self._runs:
            if process.poll() is None:
                process.kill()
            process.wait()
            self._close_streams(process)
        shutil.rmtree(self.folder, ignore_errors=True)


def finish(process, within=2 * LONGEST):
    """The status of a run, and what it said on both streams."""
    output, errors = process.communicate(timeout=within)
    return process.returncode, output, errors


def on_time(play):
    """A play in which moments are judged: where the machine was busy it is played again, four times in all. What is wrong each
    time is seen."""

    @functools.wraps(play)
    def again(self):
        for left in reversed(range(4)):
            try:
                return play(self)
            except AssertionError:
                if not left:
                    raise
                self.doCleanups()
                self.setUp()

    return again


class Play(unittest.TestCase):
    """A play, whose servers, peers and ports are gone once it ends."""

    def setUp(self):
        self.ports = Ports()
        self.addCleanup(self.ports.close)

    def line(self, name="a1", **settings):
        """A line of this name, with peers and settings."""
        return Line(self.ports, name, **settings)

    def serve(self, *lines, **options):
        """A server of these lines, that answers."""
        return self.enterContext(Server(lines, **options))

    def peer(self, line, leg):
        """The peer of a leg of a line."""
        peer = Peer(getattr(line, leg + "_peer"), getattr(line, leg))
        self.addCleanup(peer.close)
        return peer


def event_line(event):
    """The line of an event, its moment masked."""
    return json.dumps({**event, "at": "N"}, separators=(",", ":")).replace('"at":"N"', '"at":N')
