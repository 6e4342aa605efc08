"""What a ring may not go beyond: how many pages of a line may wait, and what all lines together may come to hold."""
from answering import CALLER_MPS
from asked import Asked, page
from calls import CALLER_EOP, MCF, PAGE, PREAMBLE, RTN, TRAINING, Caller, image
from server import address, until
from sip import AtATrunk
from sip_peer import fax_offer

FULL, NO_MEMORY, BUSY = ["refused 14 Full"], ["refused 3 NoMemory"], ["refused 1 Busy"]
MEBI = 1 << 20


class Budgets(Asked):
    def refuse(self, tag):
        """The call of the job of this tag cannot be placed: it has ended."""
        self.asked(tag)
        self.assertEqual(self.client.say("refuse a1 busy"), ["ok"])
        self.client.event("job", tag=tag, outcome="NotPlaced")


class Full(Budgets):
    def test_a_line_of_which_as_many_pages_wait_as_may(self):
        """It takes no call until a job of it has ended, with a spool and without one, and in the next life too."""
        for spool in (True, False):
            with self.subTest(spool=spool):
                self.begin(spool=spool, most_waiting=2)
                self.confirm(1, "first")
                self.confirm(1, "second")
                self.assertEqual(self.server.say("ring a1 third"), FULL)
                if spool:
                    self.server.kill()
                    self.server.start()
                    self.client = self.server.events()
                    self.assertEqual(self.server.say("ring a1 third"), FULL)
                self.refuse("first")
                self.confirm(1, "third")
                self.assertEqual(self.server.say("ring a1"), FULL)
                self.refuse("second")
                self.refuse("third")
                self.assertEqual(self.server.say("ring a1")[0].split()[0], "ok")

    def test_a_call_that_is_on_goes_on(self):
        """Its pages are confirmed, however many wait."""
        self.begin(most_waiting=1)
        self.assertEqual(self.server.say("ring a1 many"), ["ok 0"])
        self.caller.train()
        for command in (CALLER_MPS, CALLER_MPS, CALLER_EOP):
            self.caller.send(TRAINING, image(PAGE), PREAMBLE, command)
            self.assertEqual(self.caller.wait_for(MCF, RTN), MCF)
        self.assertEqual(self.server.say("hangup a1 calling"), ["ok"])
        self.client.event("ended")
        self.assertEqual(self.server.say("ring a1"), FULL)

    def test_any_line_passes_over_it(self):
        """Where each is full there is none."""
        lines = [self.line(name, calling_peer=False, called_peer=False, most_waiting=1) for name in ("a1", "a2")]
        self.server = self.serve(*lines)
        events = self.server.events()
        for line in lines:
            self.assertEqual(self.server.say("ring any")[0].split()[:2], ["ok", line.name])
            self.assertEqual(self.server.say(f"peer {line.name} calling {address(line.calling_peer)}"), ["ok"])
            caller = Caller(self.peer(line, "calling"))
            caller.newest = -1
            self.assertEqual(caller.call(page(1)), MCF)
            events.event("ended", line=line.name)
            if line is lines[0]:
                self.assertEqual(self.server.say("ring a1"), FULL)
        self.assertEqual(self.server.say("ring any"), BUSY)
        events.event("dial", line="a2")
        self.assertEqual(events.say("refuse a2 busy"), ["ok"])
        events.event("job", line="a2")
        self.assertEqual(self.server.say("ring any")[0].split()[:2], ["ok", "a2"])


class Memory(Budgets):
    def test_what_all_lines_together_may_come_to_hold(self):
        """A line with a call, or of which pages wait, counts with its line_memory. A call that is on goes on."""
        self.a1 = self.line(called_peer=False, line_memory=16 * MEBI)
        others = [self.line(name, calling_peer=False, line_memory=memory * MEBI) for name, memory in (("a2", 8), ("a3", 9))]
        self.server = self.serve(self.a1, *others, head=f"memory = {24 * MEBI}\n")
        self.client = self.server.events()
        self.caller = Caller(self.peer(self.a1, "calling"))
        self.assertEqual(self.server.say("ring a1 first"), ["ok 0"])
        self.assertEqual(self.server.say("ring a3"), NO_MEMORY)
        self.assertEqual(self.server.say("ring any"), ["ok a2 0"])
        self.assertEqual(self.server.say("ring any"), NO_MEMORY)
        self.assertEqual(self.server.say("ring a1"), BUSY)
        self.assertEqual(self.caller.call(page(1)), MCF)
        self.client.event("ended", line="a1")
        self.assertEqual(self.server.say("ring a3"), NO_MEMORY)
        self.refuse("first")
        self.assertEqual(self.server.say("ring any"), ["ok a3 0"])
        self.assertEqual(self.server.say("ring a1"), NO_MEMORY)
        for line in others:
            self.assertEqual(self.server.say(f"hangup {line.name} calling"), ["ok"])
            self.client.event("ended", line=line.name)
        until(lambda: self.server.say("ring a1 second") == ["ok 1"], what="a call")


class OverSip(AtATrunk):
    def test_a_call_where_each_line_is_full(self):
        """It is refused, and OPTIONS tells that no call is taken, until the job has ended."""
        self.begin(most_waiting=1)
        self.comes("+4930123", 1)
        invite = self.goes_out("004930123")
        until(lambda: self.server.say("status")[0].split()[3] == "idle", what="an idle calling leg")
        until(lambda: self.options() == 503, what="a server that takes no call")
        request, dialog = self.trunk.invite("+4930124", fax_offer(self.ports.take()))
        refused = self.trunk.final(request)
        self.trunk.ack(request, refused, dialog)
        self.assertEqual(refused.status, 503)
        self.trunk.answer(invite, 486)
        self.trunk.request("ACK")
        self.client.event("job", outcome="NotPlaced")
        self.comes("+4930124", 1)
