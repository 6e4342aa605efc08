"""Sessions of calls over SIP that are to be refreshed (RFC 4028): by whom, when, and what comes of one that is not. The least interval is
90 s, so these take a minute and a half; `make sip` plays them, all at once."""
import contextlib
import os
import threading
import time

from sip import page, rows_of
from sip_calls import LONGEST, faults_of, serving
from sip_peer import SipPeer, fax_offer, port_of
from t38 import SLOW_BITS, Called, Calling, Leg

SLOW = int(os.environ.get("FAXGATE_SLOW", "1"))
# The interval, when it is half over, and when a session that was not refreshed ends (RFC 4028, 10), in seconds; and how much later each
# may be.
INTERVAL, HALF, END = 90, 45, 60
LATE = 6 * SLOW
# A page that takes some 76 s at 2,400 bit/s, and the seconds between two packets of it.
LONG, PACE = 6300, 0.04
TIMER = ("Supported", "timer")


def expires(agent="", seconds=INTERVAL):
    """What asks for an interval, maybe for who is to refresh."""
    return ("Session-Expires", f"{seconds};refresher={agent}" if agent else f"{seconds}")


def told(message):
    """The interval that a message tells, and who refreshes."""
    value = message.one("Session-Expires")
    assert value, f"{message.first} has no Session-Expires"
    seconds, _, agent = value.replace(" ", "").partition(";refresher=")
    return int(seconds), agent


class SessionCall(threading.Thread):
    """A call for a number, from a trunk of its own."""

    def __init__(self, port, server, number, plays):
        super().__init__(daemon=True, name=plays.__name__)
        self.trunk, self.number, self.plays = SipPeer(port, server), f"{number} ({plays.__doc__})", plays
        self.dials, self.begun = number, 0
        # what went wrong, until it is over
        self.fault = "it is not over"

    def run(self):
        with contextlib.closing(self.trunk):
            try:
                self.plays(self)
                self.fault = ""
            except (AssertionError, OSError) as fault:
                self.fault = str(fault) or repr(fault)

    # Calls that come.

    def comes(self, rows, *more):
        """A machine's call is taken and brings a page of so many rows: the machine, its dialog, and the 200."""
        leg = Leg(joins=True)
        dialog, answer = self.trunk.call(self.dials, fax_offer(leg.port), LONGEST, more)
        assert answer.status == 200, f"a call was answered {answer.status}"
        self.begun = time.monotonic()
        leg.peer = port_of(answer.body, "image")
        machine = Calling(leg, [page(rows)], pace=PACE if rows == LONG else 0.01)
        machine.start()
        return machine, dialog, answer

    def confirmed(self, machine):
        """The machine's page is confirmed, long after the session would have been over, and the call ends then."""
        machine.end(2 * LONGEST)
        assert machine.confirmed == 1, f"the page was not confirmed: {[it.first for it in self.trunk.came]}"
        self.trunk.answer(self.trunk.request("BYE", LONGEST), 200)

    # Calls that go out.

    def goes_out(self, *more):
        """A page came, and goes out by a call that a machine answers, which takes it slowly: the machine, and the dialog."""
        machine, _, _ = self.comes(LONG)
        machine.pace = 0.004
        self.confirmed(machine)
        invite = self.trunk.request("INVITE", LONGEST)
        assert "timer" in (invite.one("Supported") or ""), "our INVITE does not say that it supports timers"
        assert told(invite)[0] >= INTERVAL, "our INVITE asks for too short an interval"
        machine = Called(Leg(joins=True), bits=SLOW_BITS, patience=2 * LONGEST)
        machine.start()
        dialog = self.trunk.take(invite, fax_offer(machine.leg.port), more=more)
        self.begun = time.monotonic()
        return machine, dialog

    def taken(self, machine):
        """The machine has the page, and the call ends then."""
        self.trunk.answer(self.trunk.request("BYE", 2 * LONGEST), 200)
        machine.end(LONGEST)
        rows = [rows_of(text) for text in machine.pages]
        assert rows == [LONG], f"pages of {rows} rows in place of {LONG}: {[it.first for it in self.trunk.came]}"

    # What comes when.

    def at(self, seconds):
        """Waits until so long after the answer."""
        time.sleep(max(0, self.begun + seconds - time.monotonic()))

    def comes_at(self, method, seconds):
        """A request of theirs that comes so long after the answer, and not before."""
        request = self.trunk.request(method, seconds + LATE + 5)
        moment = time.monotonic() - self.begun
        assert seconds - 1 <= moment <= seconds + LATE, f"{method} came after {moment:.1f} s, in place of {seconds}"
        return request

    def expires_at(self, seconds, machine):
        """The session ends by BYE, so long after the answer, and its machine is alone."""
        self.trunk.answer(self.comes_at("BYE", seconds), 200)
        machine.stop()

    def refresh(self, dialog, machine, agent):
        """We refresh the session: its answer has its interval, and the same medium."""
        answer = self.trunk.again(dialog, "INVITE", fax_offer(machine.leg.port), [TIMER, expires(agent)])
        assert answer.status == 200, f"a refresh was answered {answer.status}"
        assert told(answer) == (INTERVAL, agent), f"a refresh was answered {told(answer)}"
        assert port_of(answer.body, "image") == machine.leg.peer, "a refresh moved the medium"

    def refreshed(self, machine, *more):
        """They refresh the session at half of its interval, and ask for that interval again: the refresh is answered so."""
        invite = self.comes_at("INVITE", HALF)
        assert told(invite)[0] == INTERVAL, f"a refresh that asks for {told(invite)}"
        assert port_of(invite.body, "image") == machine.leg.peer, "a refresh moves the medium"
        self.trunk.take(invite, fax_offer(machine.leg.port), more=more)


def caller_refreshes(call):
    """a call comes, and its caller refreshes"""
    machine, dialog, answer = call.comes(LONG, TIMER, expires("uac"))
    assert told(answer) == (INTERVAL, "uac"), f"answered {told(answer)}"
    assert "timer" in (answer.one("Require") or ""), "the answer does not require timers"
    call.at(HALF)
    call.refresh(dialog, machine, "uac")
    call.confirmed(machine)


def caller_does_not_refresh(call):
    """a call comes, and its caller was to refresh"""
    machine, _, answer = call.comes(LONG, TIMER, expires("uac"))
    assert told(answer) == (INTERVAL, "uac"), f"answered {told(answer)}"
    call.expires_at(END, machine)


def caller_lets_us_refresh(call):
    """a call comes, and we are to refresh"""
    machine, _, answer = call.comes(LONG, TIMER, expires("uas"))
    assert told(answer) == (INTERVAL, "uas"), f"answered {told(answer)}"
    call.refreshed(machine, TIMER, expires("uac"))
    call.confirmed(machine)


def caller_knows_no_timers(call):
    """a call comes, of a caller without timers, for which a proxy asks; our refresh agrees on no interval"""
    machine, _, answer = call.comes(LONG, expires())
    assert told(answer) == (INTERVAL, "uas"), f"answered {told(answer)}"
    call.refreshed(machine)
    call.confirmed(machine)


def caller_refuses_our_refresh(call):
    """a call comes, and our refresh is refused"""
    machine, _, _ = call.comes(LONG, TIMER, expires("uas"))
    call.trunk.answer(call.comes_at("INVITE", HALF), 500)
    call.expires_at(END, machine)


def caller_is_silent_to_our_refresh(call):
    """a call comes, and our refresh is not answered"""
    machine, _, _ = call.comes(LONG, TIMER, expires("uas"))
    call.comes_at("INVITE", HALF)
    call.expires_at(END, machine)


def caller_has_forgotten(call):
    """a call comes, and our refresh is answered 481"""
    machine, _, _ = call.comes(LONG, TIMER, expires("uas"))
    call.trunk.answer(call.comes_at("INVITE", HALF), 481)
    call.expires_at(HALF, machine)


def caller_asks_for_too_little(call):
    """a call comes that asks for less than 90 s"""
    _, answer = call.trunk.call(call.dials, fax_offer(9), LONGEST, [TIMER, expires("uac", 60)])
    assert (answer.status, answer.one("Min-SE")) == (422, str(INTERVAL)), f"answered {answer.status}, Min-SE {answer.one('Min-SE')}"
    machine, _, answer = call.comes(3, TIMER, expires("uac"))
    assert told(answer) == (INTERVAL, "uac"), f"answered {told(answer)}"
    call.confirmed(machine)


def we_refresh_our_call(call):
    """a call goes out, and we are to refresh"""
    machine, _ = call.goes_out(("Require", "timer"), expires("uac"))
    call.refreshed(machine, ("Require", "timer"), expires("uac"))
    call.taken(machine)


def callee_refreshes(call):
    """a call goes out, and the called machine refreshes"""
    machine, dialog = call.goes_out(expires("uas"))
    call.at(HALF)
    call.refresh(dialog, machine, "uac")
    call.taken(machine)


def callee_does_not_refresh(call):
    """a call goes out, and the called machine was to refresh"""
    machine, _ = call.goes_out(expires("uas"))
    call.expires_at(END, machine)


def callee_wants_more(call):
    """a call goes out, and is answered 422 with a longer interval"""
    machine, _, _ = call.comes(3)
    call.confirmed(machine)
    first = call.trunk.request("INVITE", LONGEST)
    call.trunk.answer(first, 422, more=[("Min-SE", "2000")])
    again = call.trunk.request("INVITE", LONGEST)
    assert again.cseq[0] > first.cseq[0] and again.one("Call-ID") == first.one("Call-ID"), "another call, or the same number"
    assert told(again)[0] == 2000, f"our INVITE asks for {told(again)}"
    machine = Called(Leg(joins=True))
    machine.start()
    call.trunk.take(again, fax_offer(machine.leg.port), more=[expires("uac", 2000)])
    call.trunk.answer(call.trunk.request("BYE", LONGEST), 200)
    machine.end(LONGEST)
    assert [rows_of(text) for text in machine.pages] == [3], "a page that lacks"
    assert int(again.one("Min-SE") or 0) >= 2000, f"our INVITE after 422 says Min-SE {again.one('Min-SE')}, which was too short"


ALL = (
    caller_refreshes,
    caller_does_not_refresh,
    caller_lets_us_refresh,
    caller_knows_no_timers,
    caller_refuses_our_refresh,
    caller_is_silent_to_our_refresh,
    caller_has_forgotten,
    caller_asks_for_too_little,
    we_refresh_our_call,
    callee_refreshes,
    callee_does_not_refresh,
    callee_wants_more,
)


def sessions(program, folder, ports=26000):
    """All of them, each on a line of its own. What went wrong; nothing where all is well."""
    with serving(program, folder, len(ALL), ports, "t38"):
        calls = [SessionCall(ports + 100 + i, ports, f"+4930{i:02}1", plays) for i, plays in enumerate(ALL)]
        for call in calls:
            call.start()
        faults = faults_of(calls)
    print(f"sessions that are to be refreshed: {len(ALL) - len(faults)} of {len(ALL)} as they should be", flush=True)
    return "\n".join(faults)
