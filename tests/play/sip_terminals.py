"""Calls over SIP between T.38 terminals of spandsp, many at a time: the machines are those of tools/sip_terminals.c, SIP is said here."""
import contextlib
import queue
import subprocess
import threading
import time
import types
from typing import NamedTuple

from sip_calls import KINDS, LONGEST, Call, change, late_turns, meet, play_calls, serving, to_t38
from sip_peer import audio_offer, fax_offer, port_of

# How many of 100 datagrams are lost on each way, where some are.
LOST_PERCENT = 5
# By how many seconds a change to T.38 comes later in each call than in the one before. What the gateway says in a call begins before that:
# so machines join it at all places of what it says and says again.
LATER = 0.2


def over_audio_late(call):
    """Audio at first; the server's change of it is answered late."""
    leg = call.leg()
    call.trunk.call(call.number, audio_offer(9), LONGEST)
    again = call.trunk.request("INVITE", LONGEST)
    time.sleep(call.late())
    call.trunk.take(again, fax_offer(leg.port))
    call.confirm(leg, again)


def over_audio_late_in_glare(call):
    """The same; the first change meets one of theirs."""
    leg = call.leg()
    dialog, _ = call.trunk.call(call.number, audio_offer(9), LONGEST)
    meet(call, dialog)
    again = call.trunk.request("INVITE", LONGEST)
    time.sleep(call.late())
    call.trunk.take(again, fax_offer(leg.port))
    call.confirm(leg, again)


def to_audio_late(call):
    """Audio, which the called machine changes, later in each call, but before the server does, after 4 s."""
    dialog = call.trunk.take(call.invited("audio"), audio_offer(9))
    time.sleep(call.late() % 3.2)
    change(call, dialog)


TERMINAL_KINDS = KINDS | {
    "audio that is changed late": (over_audio_late, to_audio_late, "audio"),
    "audio that is changed late, and changes that meet": (over_audio_late_in_glare, to_t38, "t38"),
}


class Came(NamedTuple):
    """What came of a call: how many pages its called machine got, how many of them differ from what was sent, how many the calling one had
    confirmed, whether a terminal was left, and how many packets came to nobody, since all datagrams that have them were lost."""

    got: int
    differ: int
    confirmed: int
    stuck: int
    lacking: int

    @property
    def is_whole(self):
        """Whether it brought its page, as it was sent."""
        return (self.got, self.differ) == (1, 0)

    @property
    def is_right(self):
        """Whether it did, or what it lacks no machine could mend: a page in which a packet lacks is refused, and is sent once."""
        return self.is_whole or self.lacking > 0


def came_of(line):
    """What a line of the terminals tells of a call, which it numbers."""
    return Came(*map(int, line.split()[2:]))


class Terminals:
    """The machines of so many calls, in a folder; as a context manager they are gone after.

    `ports`: of each call those of its calling and its called machine. `done`: of each what its calling machine came to, once it did.
    """

    def __init__(self, program, folder, count, lost_percent):
        words = [program, str(count), str(lost_percent)]
        self.process = subprocess.Popen(words, cwd=folder, stdin=subprocess.PIPE, stdout=subprocess.PIPE, text=True)
        self._writes = threading.Lock()
        self.ports = [tuple(map(int, self.process.stdout.readline().split()[2:])) for _ in range(count)]
        self.done = [queue.SimpleQueue() for _ in range(count)]
        # what came of each call
        self.pages = {}
        self._reader = threading.Thread(target=self._read, daemon=True)
        self._reader.start()

    def _read(self):
        for line in self.process.stdout:
            what, number, *values = line.split()
            if what == "done":
                self.done[int(number)].put(int(values[0]))
            else:
                self.pages[int(number)] = came_of(line)

    def call(self, number, port):
        """The calling machine of a call begins its call to a port: how many pages it has confirmed."""
        with self._writes:
            self.process.stdin.write(f"call {number} {port}\n")
            self.process.stdin.flush()
        try:
            return self.done[number].get(timeout=LONGEST)
        except queue.Empty:
            raise AssertionError("a calling machine is not over") from None

    def end(self):
        """No more calls: what came of each."""
        self.process.stdin.close()
        self.process.wait(LONGEST)
        self._reader.join(LONGEST)
        return [self.pages[number] for number in range(len(self.ports))]

    def __enter__(self):
        return self

    def __exit__(self, *_):
        self.process.kill()
        self.process.wait()
        self._reader.join(LONGEST)
        for stream in (self.process.stdin, self.process.stdout):
            with contextlib.suppress(OSError):
                stream.close()


class TerminalCall(Call):
    """A call whose machines are two terminals, those of a number."""

    def __init__(self, terminals, number, *more):
        super().__init__(*more)
        self.terminals, self.place = terminals, number

    def late(self):
        """How late a change of its audio comes, in seconds."""
        return LATER * self.place

    def leg(self):
        return types.SimpleNamespace(port=self.terminals.ports[self.place][0])

    def confirm(self, leg, answer):
        assert self.terminals.call(self.place, port_of(answer.body, "image")) == 1, "the page was not confirmed"

    def delivered(self, begin):
        leg = types.SimpleNamespace(port=self.terminals.ports[self.place][1])
        begin(types.SimpleNamespace(leg=leg))
        self.trunk.answer(self.trunk.request("BYE", LONGEST), 200)


def told_of(pages):
    """How many calls brought their page, of how many; and in how many of those that did not a packet came to nobody."""
    lacking = sum(not it.is_whole and it.is_right for it in pages)
    more = f" ({lacking} lack a packet that came to nobody)" if lacking else ""
    return f"{sum(it.is_whole for it in pages)} of {len(pages)}{more}"


def directly(program, folder, count, lost_percent):
    """What comes of calls between the same terminals where no gateway is between them."""
    words = [program, str(count), str(lost_percent), "direct"]
    told = subprocess.run(words, cwd=folder, capture_output=True, text=True, timeout=LONGEST, check=True).stdout
    return [came_of(line) for line in told.splitlines()]


def terminal_calls(program, terminals, folder, kind, count, lost_percent, ports=24000):
    """So many calls of a kind at a time between terminals. What went wrong: a page that lacks or differs though each packet of its call came;
    nothing where all is well."""
    comes, goes_out, call_with = TERMINAL_KINDS[kind]
    without = directly(terminals, folder, count, lost_percent)
    with serving(program, folder, count, ports, call_with), Terminals(terminals, folder, count, lost_percent) as machines:
        calls = [
            TerminalCall(machines, i, ports + 100 + i, ports, f"+4930{i:02}{7 * i}", 1, comes, goes_out, None) for i in range(count)
        ]
        faults, pages = play_calls(calls), machines.end()
        late = late_turns(program, folder)
    stuck = sum(it.stuck for it in pages)
    more = f"; {stuck} terminals were left" if stuck else ""
    told = f"{kind}, {lost_percent} % lost: {told_of(pages)}, without a gateway {told_of(without)}; {late} turns were late{more}"
    print(told, flush=True)
    wrong = [call.fault or f"{call.number}: its page lacks or differs" for call, it in zip(calls, pages) if not it.is_right]
    # a call whose page came may fail behind it
    wrong += [call.fault for call, it in zip(calls, pages) if it.is_whole and call.fault and not it.lacking]
    return f"{kind}, {lost_percent} % lost: of {len(wrong)} calls {wrong[0]}" if wrong else ""
