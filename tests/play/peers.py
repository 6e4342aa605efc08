"""What is said of a leg's peer and of its datagrams by words: any line, any peer, one that moves, and what bounds a call's datagrams."""
import time
from concurrent.futures import ThreadPoolExecutor

from calls import CALLER_DCN, CALLER_EOP, CFR, CNG, GATEWAY_DIS, MCF, PREAMBLE, Called, Caller, Datagram, datagram
from server import Peer, Play, address, until

BUSY, IN_CALL, NO_WORD = ["refused 1 Busy"], ["refused 6 InCall"], ["refused 8 NoWord"]
NO_LINE, FIXED = ["refused 7 NoLine"], ["refused 12 Fixed"]
# Longer than a turn of a line, and long enough to see that nothing comes, in seconds.
TURN, QUIET = 0.2, 0.6
# A gateway has said its first DIS then, and does not say the next before 3 s (T.30, T4), in seconds.
BETWEEN = 1.5
# How many packets of before each datagram of a line has, where nothing is said of it.
REDUNDANCY = 3


class Peers(Play):
    def machine(self, leg):
        """A socket at a port of its own, which speaks to the leg at this port."""
        peer = Peer(self.ports.take(), leg)
        peer.port = peer.socket.getsockname()[1]
        self.addCleanup(peer.close)
        return peer

    def late(self, machine):
        """The same machine, which takes a call that began before its first datagram came there."""
        machine.newest = -1
        return machine

    def say_ok(self, word):
        self.assertEqual(self.server.say(word), ["ok"], word)

    def each(self, *actions):
        """What these actions came to, done at once."""
        with ThreadPoolExecutor(len(actions)) as pool:
            return [action.result() for action in [pool.submit(action) for action in actions]]


class AnyLine(Peers):
    def ring(self, word="ring any"):
        """Rings any line, and gives its name, and the number of the call."""
        answer = self.server.say(word)
        self.assertRegex(answer[0], "^ok [^ ]+ [0-9]+$")
        self.assertEqual(len(answer), 1)
        _, name, call = answer[0].split()
        return name, int(call)

    def test_it_takes_a_line_that_is_idle(self):
        """Each line once, but the one whose calling leg has a peer of the configuration; then there is none."""
        lines = {name: self.line(name, calling_peer=name == "fixed", called_peer=False) for name in ("fixed", "a1", "a2")}
        self.server = self.serve(*lines.values())
        events = self.server.events()
        rung = [self.ring("ring any tag-0"), self.ring("ring any tag-1 redundancy=1 octets=300")]
        self.assertEqual(sorted(rung), [("a1", 0), ("a2", 0)])
        self.assertEqual(self.server.say("ring any"), BUSY)
        for tag, (name, call) in zip(("tag-0", "tag-1"), rung):
            event = events.event("rung", tag=tag)
            self.assertEqual((event["line"], event["call"]), (name, call))
            caller = self.late(Caller(self.peer(lines[name], "calling")))
            self.say_ok(f"peer {name} calling {address(lines[name].calling_peer)}")
        self.assertEqual(caller.call(), MCF)
        self.assertEqual(events.event("page", line=name)["tag"], tag)
        events.event("ended", line=name)
        self.assertEqual(self.ring(), (name, 1))
        self.assertEqual(self.server.say("ring any"), BUSY)
        counts = self.server.metrics()
        self.assertEqual((counts["faxgate_calls_total"], counts["faxgate_send_failures_total"]), (3, 0))

    def test_the_machine_of_the_call_before_gets_nothing(self):
        """After the ring the line has no peer, until one is said."""
        a1 = self.line(calling_peer=False)
        self.server = self.serve(a1)
        events = self.server.events()
        first, second = self.machine(a1.calling), self.machine(a1.calling)
        self.assertEqual(self.ring(), ("a1", 0))
        self.say_ok(f"peer a1 calling {address(first.port)}")
        self.late(Caller(first)).wait_for(GATEWAY_DIS)
        self.say_ok("hangup a1 calling")
        events.event("ended")
        self.assertEqual(self.ring(), ("a1", 1))
        first.hear_all(TURN)
        first.send(datagram(0, CNG))
        self.assertEqual(first.hear_all(QUIET), [])
        self.say_ok(f"peer a1 calling {address(second.port)}")
        self.assertEqual(self.late(Caller(second)).call(), MCF)
        self.assertEqual(first.hear_all(TURN), [])

    def test_who_comes_late_hears_nothing_old(self):
        """A peer that is said after the first DIS hears the next one, once, and no packet from before it, in no datagram."""
        a1 = self.line(calling_peer=False)
        self.server = self.serve(a1)
        peer = self.machine(a1.calling)
        self.assertEqual(self.ring(), ("a1", 0))
        time.sleep(BETWEEN)
        self.say_ok(f"peer a1 calling {address(peer.port)}")
        caller = self.late(Caller(peer))
        caller.wait_for(GATEWAY_DIS)
        peer.hear_all(TURN)
        came = [Datagram(octets) for _, octets, _ in peer.heard]
        packets = {it.number - back: packet for it in came for back, packet in enumerate([it.packet, *it.earlier])}
        self.assertEqual([packets[number] for number in sorted(packets)], [PREAMBLE, GATEWAY_DIS])
        self.assertGreater(min(packets), 0)
        caller.check()
        self.assertEqual(caller.send_page(), MCF)

    def test_where_each_has_a_peer(self):
        """Lines whose calling legs have peers of the configuration are never taken."""
        self.server = self.serve(self.line("a1"), self.line("a2"))
        self.assertEqual(self.server.say("ring any tag"), BUSY)


class AnyPeer(Peers):
    def test_the_first_sender_is_the_peer(self):
        """Nothing is sent before its first datagram; another is not heard after it, and gets nothing."""
        a1 = self.line(calling_peer=False)
        self.server = self.serve(a1)
        peer, other = self.machine(a1.calling), self.machine(a1.calling)
        self.say_ok("peer a1 calling any")
        self.assertEqual(self.server.say("ring a1 tag"), ["ok 0"])
        time.sleep(QUIET)
        counts = self.server.metrics()
        self.assertEqual((counts["faxgate_datagrams_sent_total"], counts["faxgate_send_failures_total"]), (0, 0))
        caller = self.late(Caller(peer))
        caller.send(CNG)
        caller.wait_for(GATEWAY_DIS)
        self.hang_up_from(other, caller.sent)
        caller.check()
        self.hang_up_from(other, caller.sent)
        self.assertEqual(caller.send_page(), MCF)
        self.assertEqual(other.hear_all(TURN), [])
        self.assertEqual(self.server.say("peer a1 calling any"), IN_CALL)

    def hang_up_from(self, peer, number):
        """A machine says that it hangs up, in the next datagrams of the call."""
        peer.send(datagram(number, PREAMBLE))
        peer.send(datagram(number + 1, CALLER_DCN))
        time.sleep(TURN)

    def test_of_each_call_anew(self):
        """Said again, it is the sender of the next datagram."""
        a1 = self.line(calling_peer=False)
        self.server = self.serve(a1)
        events = self.server.events()
        for call in range(2):
            self.say_ok("peer a1 calling any")
            self.assertEqual(self.server.say("ring a1"), [f"ok {call}"])
            caller = self.late(Caller(self.machine(a1.calling)))
            caller.send(CNG)
            caller.wait_for(GATEWAY_DIS)
            self.say_ok("hangup a1 calling")
            events.event("ended")


class Moved(Peers):
    def test_the_calling_leg(self):
        """Once its peer was heard, another is taken that moved alone; the old one gets nothing, and is not heard."""
        a1 = self.line(calling_peer=False)
        self.server = self.serve(a1)
        old, new = self.machine(a1.calling), self.machine(a1.calling)
        self.say_ok(f"peer a1 calling {address(old.port)}")
        self.assertEqual(self.server.say("ring a1"), ["ok 0"])
        caller = Caller(old)
        caller.train()
        self.assertEqual(self.server.say(f"peer a1 calling {address(new.port)}"), IN_CALL)
        self.say_ok(f"peer a1 calling {address(new.port)} moved")
        old.hear_all(TURN)
        old.send(datagram(caller.sent, PREAMBLE))
        old.send(datagram(caller.sent + 1, CALLER_DCN))
        self.assertEqual(old.hear_all(QUIET), [])
        caller.peer = new
        self.assertEqual(caller.send_page(), MCF)
        self.assertEqual(old.hear_all(TURN), [])

    def test_the_called_leg(self):
        """The same while a job is sent; its page comes to the new address."""
        a1 = self.line(called_peer=False)
        self.server = self.serve(a1)
        events, caller = self.server.events(), Caller(self.peer(a1, "calling"))
        self.assertEqual(self.server.say("ring a1 tag"), ["ok 0"])
        self.assertEqual(caller.call(), MCF)
        events.event("dial", tag="tag")
        old, new = self.machine(a1.called), self.machine(a1.called)
        self.say_ok(f"peer a1 called {address(old.port)}")
        machine = Called(old)
        machine.answer()
        machine.wait_for_image()
        self.assertEqual(self.server.say(f"peer a1 called {address(new.port)}"), IN_CALL)
        self.say_ok(f"peer a1 called {address(new.port)} moved")
        old.hear_all(TURN)
        machine.peer = new
        machine.send(PREAMBLE, CFR)
        machine.wait_for(CALLER_EOP)
        machine.send(PREAMBLE, MCF)
        events.event("job", tag="tag", outcome="Delivered", delivered=1)
        self.assertEqual(old.hear_all(TURN), [])

    def test_a_peer_of_the_configuration_does_not_move(self):
        a1 = self.line()
        self.server = self.serve(a1)
        self.assertEqual(self.server.say(f"peer a1 called {address(a1.called_peer)} moved"), FIXED)


class Bounds(Peers):
    def assert_bounded(self, machine, redundancy, octets=65535):
        """Each datagram of a leg, as it came, has the packets before its own, the newest first: so many at most, and all that are
        there where it is no longer then than so many octets; one that is longer has its own alone. It gives how many each has."""
        packets, found = machine.packets(), []
        for place, (_, came) in enumerate(machine.came):
            self.assertEqual(came.number, place)
            before = packets[max(0, place - redundancy) : place][::-1]
            self.assertEqual(came.earlier, before[: len(came.earlier)], place)
            found.append(len(came.earlier))
        lengths = {it[1][:2]: len(it[1]) for it in machine.peer.heard}
        for place, (_, came) in enumerate(machine.came):
            length = lengths[came.number.to_bytes(2, "big")]
            self.assertTrue(length <= octets or not came.earlier, (place, length))
            whole = length + sum(len(it) // 2 + 1 for it in packets[max(0, place - redundancy) : place - len(came.earlier)])
            if whole <= octets:
                self.assertEqual(len(came.earlier), min(redundancy, place), place)
        return found

    def begin(self, **settings):
        """A line with these settings, its server, and its caller."""
        self.a1 = self.line(**settings)
        self.server = self.serve(self.a1)
        self.events = self.server.events()
        self.caller = Caller(self.peer(self.a1, "calling"))

    def hear_dis(self, call, word="ring a1"):
        """How many packets of before the DIS of a call has that a word rings."""
        self.caller.forget()
        self.assertEqual(self.server.say(word), [f"ok {call}"])
        self.caller.wait_for(GATEWAY_DIS)
        self.say_ok("hangup a1 calling")
        self.events.event("ended", call=call)
        return len(self.caller.came[-1][1].earlier)

    def test_a_ring_bounds_its_call_alone(self):
        """Before the DIS are CED and a preamble; what is not said is as the line has it."""
        self.begin()
        words = ("ring a1", "ring a1 redundancy=0", "ring a1 tag redundancy=1 octets=65535", "ring a1 tag")
        self.assertEqual([self.hear_dis(call, word) for call, word in enumerate(words)], [2, 0, 1, 2])

    def test_the_octets_of_a_calling_leg(self):
        """A datagram that would be longer has fewer packets of before."""
        self.begin(redundancy=8)
        self.assertEqual(self.server.say("ring a1 octets=32"), ["ok 0"])
        self.assertEqual(self.caller.call(), MCF)
        found = self.assert_bounded(self.caller, 8, 32)
        self.assertLess(found[-1], len(found) - 1)

    def test_the_peer_of_a_calling_leg(self):
        """The word that says it bounds its datagrams as well."""
        a1 = self.line(calling_peer=False)
        self.server = self.serve(a1)
        caller = Caller(self.peer(a1, "calling"))
        self.say_ok(f"peer a1 calling {address(a1.calling_peer)} redundancy=1")
        self.assertEqual(self.server.say("ring a1"), ["ok 0"])
        caller.wait_for(GATEWAY_DIS)
        self.assertEqual(self.assert_bounded(caller, 1), [0, 1, 1])

    def test_the_peer_of_a_called_leg(self):
        """Of one job: no packet of before, datagrams of 50 octets, and as the line has it."""
        lines = [self.line(f"a{i}", called_peer=False) for i in range(3)]
        wanted = ((" redundancy=0", 0, 65535), (" octets=50", REDUNDANCY, 50), ("", REDUNDANCY, 65535))
        self.server = self.serve(*lines)
        events, callers = self.server.events(), [Caller(self.peer(line, "calling")) for line in lines]
        for line in lines:
            self.assertEqual(self.server.say(f"ring {line.name}"), ["ok 0"])
        self.assertEqual(self.each(*(caller.call for caller in callers)), [MCF] * 3)
        machines = [Called(self.machine(line.called)) for line in lines]
        for line, machine, (options, _, _) in zip(lines, machines, wanted):
            events.event("dial", line=line.name)
            self.say_ok(f"peer {line.name} called {address(machine.peer.port)}{options}")
        self.each(*(machine.answer for machine in machines))
        self.each(*(machine.wait_for_image for machine in machines))
        for machine, (_, redundancy, octets) in zip(machines, wanted):
            found = self.assert_bounded(machine, redundancy, octets)
            self.assertEqual((max(found), min(found[-5:])), (redundancy, 1 if octets == 50 else redundancy))


class Tags(Peers):
    def status(self):
        """What `status` says of the line."""
        line, end = self.server.say("status")
        self.assertEqual(end, "ok")
        return line

    def test_status_tells_the_tags_of_what_is_on(self):
        """After the counts: the tag of the call that is on, and that of the job that is sent, where they have one."""
        a1 = self.line(called_peer=False)
        self.server = self.serve(a1)
        events, caller = self.server.events(), Caller(self.peer(a1, "calling"))
        self.assertEqual(self.server.say("ring a1 first"), ["ok 0"])
        self.assertRegex(self.status(), "^line a1 calling call-0 called idle .* failures 0 calling_tag=first$")
        self.assertEqual(caller.call(), MCF)
        events.event("dial", tag="first")
        until(lambda: "calling idle" in self.status(), what="an idle calling leg")
        self.assertRegex(self.status(), " waiting 1 failures 0$")
        self.say_ok(f"peer a1 called {address(self.machine(a1.called).port)}")
        self.assertRegex(self.status(), " called job-0 .* failures 0 called_tag=first$")
        self.assertEqual(self.server.say("ring a1 second"), ["ok 1"])
        self.assertRegex(self.status(), " failures 0 calling_tag=second called_tag=first$")
        self.say_ok("hangup a1 calling")
        self.say_ok("hangup a1 called")
        events.event("job", tag="first")
        until(lambda: "calling idle" in self.status(), what="an idle calling leg")
        self.assertEqual(self.server.say("ring a1"), ["ok 2"])
        self.assertRegex(self.status(), " failures 0$")


class Malformed(Peers):
    # Words that say nothing: values out of range or not written as numbers are, options twice or in another order, and what is of
    # the other leg alone.
    WORDS = (
        "ring a1 octets=31", "ring a1 tag octets=31", "ring a1 octets=65536", "ring a1 redundancy=9", "ring a1 tag redundancy=9",
        "ring a1 redundancy=03", "ring a1 redundancy=+3", "ring a1 redundancy=", "ring a1 redundancy=3 redundancy=3",
        "ring a1 octets=300 redundancy=3", "ring a1 redundancy=3 tag", "ring a1 tag other", "ring any tag other", "ring any ",
        "ring a1 redundancy=3 ", "ring a1 redundancy=3  octets=300", "ring a1 tag moved",
        "peer a1 calling {} moved moved", "peer a1 calling {} moved redundancy=3", "peer a1 calling {} tag", "peer a1 calling {} octets=31",
        "peer a1 called {} redundancy=9", "peer a1 called {} octets=300 redundancy=3", "peer a1 calling any any", "peer a1 called any",
        "peer a1 called any moved", "peer a1 calling moved", "peer a1 calling any octets=0300",
    )
    # Words that are whole, of lines that are not there.
    WHOLE = (
        "ring a2 redundancy=8 octets=65535", "ring a2 tag redundancy=0 octets=32", "ring a2 octets=300", "ring a2 moved",
        "peer a2 calling any", "peer a2 calling any redundancy=0 octets=32 moved", "peer a2 called {} moved",
        "peer a2 called {} octets=300", "peer any calling {}",
    )

    def test_words_that_say_nothing(self):
        self.server = self.serve(self.line(calling_peer=False, called_peer=False))
        client, place = self.server.client(), address(self.ports.take())
        for words, answer in ((self.WORDS, NO_WORD), (self.WHOLE, NO_LINE)):
            for word in words:
                self.assertEqual(client.say(word.format(place)), answer, word)
        self.assertEqual(self.server.metrics()["faxgate_calls_total"], 0)
