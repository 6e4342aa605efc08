"""Calls over SIP, many at a time: each comes from a trunk of its own with a page, which goes out by a call to the same trunk."""
import contextlib
import subprocess
import threading
import time

from server import address
from sip import page, rows_of
from sip_peer import SipPeer, audio_offer, fax_offer, media_of, port_of, user_of
from t38 import Called, Calling, Leg, clear, losing

# How long a call, and what is waited for in it, may take, in seconds.
LONGEST = 90
# Where a change that is refused wants its medium: not where audio goes, so that a capture tells them apart.
REFUSED_PORT = 10
# One datagram of so many is lost on each way, where some are.
LOST_OF = 20


class Call(threading.Thread):
    """A page of so many rows comes for a number from a trunk, and goes out to it."""

    def __init__(self, port, server, number, rows, comes, goes_out, way, waits=None):
        super().__init__(daemon=True)
        self.trunk, self.number, self.rows, self.way = SipPeer(port, server), number, rows, way
        self.comes, self.goes_out, self.waits = comes, goes_out, waits
        # when a change was refused, and how long BYE took then
        self.refused = self.took = None
        # what went wrong, until it is over
        self.fault = "it is not over"

    def run(self):
        with contextlib.closing(self.trunk):
            try:
                self.comes(self)
                self.trunk.answer(self.trunk.request("BYE", LONGEST), 200)
                if self.waits:
                    # all calls are so far, and the server is another one
                    self.trunk.request("INVITE", LONGEST)
                    self.waits.wait(2 * LONGEST)
                    self.waits.wait(2 * LONGEST)
                self.goes_out(self)
                self.fault = ""
            except (AssertionError, OSError, threading.BrokenBarrierError) as fault:
                self.fault = str(fault) or repr(fault)

    def leg(self):
        """An end of a leg."""
        return Leg(goes=self.way, comes=self.way, joins=True)

    def confirm(self, leg, answer):
        """A machine has the page confirmed by the leg that an answer tells."""
        leg.peer = port_of(answer.body, "image")
        with contextlib.closing(leg):
            machine = Calling(leg, [page(self.rows)])
            machine.start()
            machine.end(LONGEST)
        assert machine.confirmed == 1, "the page was not confirmed"

    def invited(self, kind):
        """The INVITE by which the page goes out, with one medium."""
        invite = self.trunk.request("INVITE", LONGEST)
        assert user_of(invite.target) == self.number, f"a call for {invite.target}"
        told = [it for it, _, _ in media_of(invite.body)]
        assert told == [kind], f"an offer of {told}"
        return invite

    def take(self, invite):
        """A machine takes the page in the call of an INVITE."""
        self.delivered(lambda machine: self.trunk.take(invite, fax_offer(machine.leg.port)))

    def delivered(self, begin):
        """A machine takes the page, in a call that begins so."""
        machine = Called(self.leg())
        with contextlib.closing(machine.leg):
            machine.start()
            begin(machine)
            self.trunk.answer(self.trunk.request("BYE", LONGEST), 200)
            machine.end(LONGEST)
        rows = [rows_of(text) for text in machine.pages]
        assert rows == [self.rows], f"pages of {rows} rows in place of {self.rows}"


# How a page comes.


def over_t38(call):
    """T.38 at once."""
    leg = call.leg()
    _, answer = call.trunk.call(call.number, fax_offer(leg.port), LONGEST)
    assert answer.status == 200, f"a call was answered {answer.status}"
    call.confirm(leg, answer)


def over_audio(call):
    """Audio at first, which the server changes."""
    leg = call.leg()
    call.trunk.call(call.number, audio_offer(9), LONGEST)
    again = call.trunk.request("INVITE", LONGEST)
    call.trunk.take(again, fax_offer(leg.port))
    call.confirm(leg, again)


def over_audio_in_glare(call):
    """The same; the change meets one of theirs, and is made again: first, since theirs is the Call-ID (RFC 3261, 14.1)."""
    leg = call.leg()
    dialog, _ = call.trunk.call(call.number, audio_offer(9), LONGEST)
    meet(call, dialog)
    again = call.trunk.request("INVITE", LONGEST)
    call.trunk.take(again, fax_offer(leg.port))
    call.confirm(leg, again)


def meet(call, dialog):
    """The server's change is under way when theirs comes: either is refused. Nothing comes to its port, nor to that of the audio."""
    change = call.trunk.request("INVITE", LONGEST)
    status = call.trunk.again(dialog, "INVITE", fax_offer(REFUSED_PORT)).status
    assert status == 491, f"a change that meets the server's was answered {status}"
    call.trunk.answer(change, 491)


def without_an_offer(call):
    """The offer is the server's, and the answer is in the ACK."""
    leg = call.leg()
    request, dialog = call.trunk.invite(call.number, b"")
    answer = call.trunk.final(request, LONGEST)
    assert answer.status == 200, f"a call was answered {answer.status}"
    dialog.theirs, dialog.target = answer.one("To"), answer.contact()
    is_fax = bool(port_of(answer.body, "image"))
    call.trunk.send(call.trunk.make("ACK", dialog, fax_offer(leg.port) if is_fax else audio_offer(9)))
    if not is_fax:
        answer = call.trunk.request("INVITE", LONGEST)
        call.trunk.take(answer, fax_offer(leg.port))
    call.confirm(leg, answer)


# How it goes out.


def to_t38(call):
    """T.38 at once."""
    call.take(call.invited("image"))


def to_audio(call):
    """Audio, which the called machine changes."""
    change(call, call.trunk.take(call.invited("audio"), audio_offer(9)))


def change(call, dialog):
    """The called machine changes audio, and takes the page; the server, which was to change it too, does not any more."""

    def begin(machine):
        status = call.trunk.again(dialog, "INVITE", fax_offer(machine.leg.port)).status
        assert status == 200, f"a change was answered {status}"

    call.delivered(begin)
    came = [it.first.split()[0] for it in call.trunk.came]
    assert "INVITE" not in came[-came[::-1].index("SIP/2.0"):], f"the server changes what was changed: {came}"


def to_audio_since_488(call):
    """T.38 is refused, then audio is taken and changed by the server."""
    call.trunk.answer(call.invited("image"), 488)
    call.trunk.take(call.invited("audio"), audio_offer(9))
    call.take(call.trunk.request("INVITE", LONGEST))


def to_audio_in_glare(call):
    """Audio is taken, and the server's change of it meets one of theirs, which is made again first: its own is the Call-ID."""
    dialog = call.trunk.take(call.invited("audio"), audio_offer(9))
    meet(call, dialog)
    change(call, dialog)


# How a change to T.38 is refused. The call is to end by BYE within a second; what is played notes when it was refused.


def over_audio_refused(call):
    """Audio at first; the server's change of it is refused."""
    call.trunk.call(call.number, audio_offer(9), LONGEST)
    refuse(call)


def to_audio_refused(call):
    """Audio is taken, and the server's change of it refused."""
    call.trunk.take(call.invited("audio"), audio_offer(9))
    refuse(call)
    call.trunk.answer(call.trunk.request("BYE", LONGEST), 200)
    is_over_soon(call)


def refuse(call):
    call.trunk.answer(call.trunk.request("INVITE", LONGEST), 488)
    call.refused = time.monotonic()


def is_over_soon(call):
    """The BYE has come just now."""
    call.took = time.monotonic() - call.refused
    assert call.took <= 1, f"BYE came {call.took:.1f} s after its change was refused"


# What is refused: both calls, as of KINDS.
REFUSED = {
    "the change of a call that comes": (over_audio_refused, is_over_soon, "t38"),
    "the change of a call that goes out": (over_t38, to_audio_refused, "audio"),
}
# What both calls are, and by which offer the server calls.
KINDS = {
    "T.38 on both sides": (over_t38, to_t38, "t38"),
    "audio on both sides": (over_audio, to_audio, "audio"),
    "488 to T.38, then audio": (over_t38, to_audio_since_488, "t38"),
    "changes that meet": (over_audio_in_glare, to_audio_in_glare, "audio"),
    "offers that come late": (without_an_offer, to_t38, "t38"),
}


def configuration(count, ports, call_with, repeat="full"):
    """A server of so many lines, each with a trunk; which of their datagrams are sent again."""
    text = f"[sip]\nlocal = '{address(ports)}'\naudio = '{address(ports + 1)}'\n"
    for i in range(count):
        text += f"[[trunks]]\nname = 't{i}'\naddress = '{address(ports + 100 + i)}'\ncall_with = '{call_with}'\n"
        text += f"[[routes]]\nprefix = '+4930{i:02}'\ntrunk = 't{i}'\n"
        first = ports + 200 + 2 * i
        text += f"[[lines]]\nname = 'a{i}'\nrepeat = '{repeat}'\n"
        text += f"calling = {{ local = '{address(first)}' }}\ncalled = {{ local = '{address(first + 1)}' }}\n"
    return text


def await_server(program, folder, control, server):
    """Waits until a server answers at its control socket."""
    end = time.monotonic() + LONGEST
    while subprocess.run([program, "say", control, "status"], cwd=folder, capture_output=True, timeout=LONGEST).returncode:
        assert server.poll() is None, f"the server has ended with {server.returncode}"
        assert time.monotonic() < end, f"the server has not begun in {LONGEST} s"
        time.sleep(0.1)


@contextlib.contextmanager
def serving(program, folder, count, ports, call_with, repeat="full"):
    """A server of so many lines, which has begun."""
    text = "control = 'many'\n" + configuration(count, ports, call_with, repeat)
    (folder / "many.toml").write_text(text, encoding="utf-8")
    server = subprocess.Popen([program, "serve", "--config", "many.toml"], cwd=folder, stdout=subprocess.DEVNULL)
    try:
        await_server(program, folder, "many", server)
        yield server
    finally:
        server.kill()
        server.wait()


def late_turns(program, folder):
    """How many turns of a server's lines came late so far: of a machine that is busy with something else, they tell it."""
    told = subprocess.run([program, "say", "many", "metrics"], cwd=folder, capture_output=True, text=True, timeout=LONGEST).stdout
    return next((int(line.split()[1]) for line in told.splitlines() if line.startswith("faxgate_turns_late_total ")), None)


def play_calls(calls):
    """Plays calls, all at once: what went wrong, a text for each that did."""
    for call in calls:
        call.start()
    return faults_of(calls)


def faults_of(calls):
    """What went wrong with calls, once they are over."""
    end = time.monotonic() + 4 * LONGEST
    for call in calls:
        call.join(max(0, end - time.monotonic()))
    return [f"{call.number}: {call.fault}" for call in calls if call.fault]


def many_calls(program, folder, kind, count, loses, ports=25000, least=1, repeat="full"):
    """So many calls of a kind at a time, each with a page of its own, the shortest of so many rows. What went wrong; nothing where all is
    well."""
    comes, goes_out, call_with = KINDS[kind]
    way = losing(LOST_OF) if loses else clear
    with serving(program, folder, count, ports, call_with, repeat):
        faults = play_calls(
            [Call(ports + 100 + i, ports, f"+4930{i:02}{7 * i}", least + i, comes, goes_out, way) for i in range(count)]
        )
        late = late_turns(program, folder)
    lost = ", 5 % of the media lost" if loses else ""
    print(f"{kind}{lost}: {count - len(faults)} of {count}; {late} turns were late", flush=True)
    return faults[0] if faults else ""


def refused_changes(program, folder, count, ports=28000):
    """So many calls at a time whose change to T.38 is refused. What went wrong; nothing where all is well."""
    faults = []
    for kind, (comes, goes_out, call_with) in REFUSED.items():
        with serving(program, folder, count, ports, call_with):
            calls = [Call(ports + 100 + i, ports, f"+4930{i:02}{7 * i}", 1 + i, comes, goes_out, clear) for i in range(count)]
            found = play_calls(calls)
            late = late_turns(program, folder)
        last = max((call.took for call in calls if call.took is not None), default=0)
        print(f"{kind} is refused: {count - len(found)} of {count}, BYE after {1000 * last:.0f} ms at most; {late} turns were late", flush=True)
        faults += found[:1]
    return "\n".join(faults)


def survive(program, folder, count, ports=27000):
    """So many pages are confirmed and their calls asked for when the server is killed; the next one sends them. What went wrong; nothing
    where all is well. Nobody says a word."""
    spool = folder / "survive-spool"
    spool.mkdir()
    text = f"control = 'survive'\nspool = '{spool.name}'\n" + configuration(count, ports, "t38")
    (folder / "survive.toml").write_text(text, encoding="utf-8")
    words = [program, "serve", "--config", "survive.toml"]
    server = subprocess.Popen(words, cwd=folder, stdout=subprocess.DEVNULL)
    waits = threading.Barrier(count + 1)
    try:
        await_server(program, folder, "survive", server)
        numbers = [f"+4930{i:02}{7 * i}" for i in range(count)]
        calls = [Call(ports + 100 + i, ports, number, i + 1, over_t38, to_t38, clear, waits) for i, number in enumerate(numbers)]
        for call in calls:
            call.start()
        waits.wait(2 * LONGEST)
        server.kill()
        server.wait()
        server = subprocess.Popen(words, cwd=folder, stdout=subprocess.DEVNULL)
        waits.wait(2 * LONGEST)
        faults = faults_of(calls)
        print(f"a server killed with {count} jobs: {count - len(faults)} of {count} came", flush=True)
        return faults[0] if faults else ""
    except threading.BrokenBarrierError:
        return next((f"{call.number}: {call.fault}" for call in calls if call.fault), "a call is not over")
    finally:
        server.kill()
        server.wait()
