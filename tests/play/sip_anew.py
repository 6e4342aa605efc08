"""Two jobs on each of many lines, whose calls go out over SIP: the machine of the first is called anew while the call of the second rings,
and says so to the leg that it had the page from. It gets nothing of the second."""
import contextlib
import threading
import time

from sip import rows_of
from sip_calls import LONGEST, Call, faults_of, late_turns, over_t38, serving
from sip_peer import fax_offer, port_of
from t38 import CED, DIS, DIS_BITS, Called, Leg, clear, field_of, frame, indicator

# How much longer the second page is than the first, in rows.
LONGER = 50
# How long a machine that must get nothing listens, in seconds: many turns of a line.
QUIET = 2


class AnewCall(Call):
    """Two pages come for a number, each while a page comes for each of the others: so each line has two jobs."""

    def __init__(self, together, *more):
        super().__init__(*more, None, None, clear)
        self.together = together

    def run(self):
        with contextlib.closing(self.trunk):
            try:
                self.plays()
                self.fault = ""
            except (AssertionError, OSError, threading.BrokenBarrierError) as fault:
                self.fault = str(fault) or repr(fault)
                self.together.abort()

    def all_here(self):
        """All calls are so far."""
        self.together.wait(2 * LONGEST)

    def confirm(self, leg, answer):
        self.all_here()
        super().confirm(leg, answer)

    def page_comes(self):
        """A page of so many rows comes."""
        over_t38(self)
        self.trunk.answer(self.trunk.request("BYE", LONGEST), 200)

    def page_goes_out(self, invite):
        """The page goes out, in the call of an INVITE: the port that it came to."""
        machine = Called(self.leg())
        with contextlib.closing(machine.leg):
            machine.start()
            self.trunk.take(invite, fax_offer(machine.leg.port))
            self.trunk.answer(self.trunk.request("BYE", LONGEST), 200)
            machine.end(LONGEST)
        rows = [rows_of(text) for text in machine.pages]
        assert rows == [self.rows], f"pages of {rows} rows in place of {self.rows}"
        return machine.leg.port

    def plays(self):
        self.page_comes()
        first = self.invited("image")
        self.trunk.answer(first, 180)
        self.all_here()
        rows = self.rows
        self.rows = rows + LONGER
        self.page_comes()
        self.rows = rows
        port = self.page_goes_out(first)
        second = self.invited("image")
        self.trunk.answer(second, 180)
        self.all_here()
        anew = Leg(port, port_of(first.body, "image"), joins=True)
        with contextlib.closing(anew):
            self.is_called_anew(anew)
            self.all_here()
            self.rows = rows + LONGER
            self.page_goes_out(second)
            anew.drain()
        assert not anew.came, "it gets something of another job, whose call was answered"

    def is_called_anew(self, leg):
        """The machine at a leg is called, and answers to where it had its page from."""
        for packet in [indicator(CED), *frame(DIS, field_of(DIS_BITS))]:
            leg.send(packet)
        end = time.monotonic() + QUIET
        while (left := end - time.monotonic()) > 0:
            leg.listen(left)
        assert not leg.came, "it gets something of another job, whose call rings"


def called_anew(program, folder, count, at_a_time, ports=20000):
    """So many machines are called anew, some at a time. What went wrong; nothing where all is well."""
    faults, late = [], 0
    for first in range(0, count, at_a_time):
        some = min(at_a_time, count - first)
        with serving(program, folder, some, ports, "t38"):
            together = threading.Barrier(some)
            calls = [AnewCall(together, ports + 100 + i, ports, f"+4930{i:02}{7 * i}", i + 1) for i in range(some)]
            for call in calls:
                call.start()
            faults += faults_of(calls)
            late += late_turns(program, folder) or 0
    told = f"machines that are called anew between two jobs of their line, {at_a_time} at a time: nothing came to {count - len(faults)} of {count}"
    print(f"{told}; {late} turns were late", flush=True)
    return next((fault for fault in faults if "BrokenBarrier" not in fault), faults[0] if faults else "")
