"""`faxgate serve` at a trunk: calls over SIP come and go out.

FAXGATE_RINGS says how many seconds a machine rings before it answers; `tools/sip` says 60.
"""
import os
import pathlib
import re
import socket

from server import LONGEST, SLOW, Play, Server, address, until
from sip_peer import (
    Message, Packet, SipPeer, audio_offer, credentials, digest, fax_offer, linear, media_of, port_of, power_at, token, user_of,
)
from t38 import SLOW_BITS, Called, Calling, Leg

TOP = pathlib.Path(__file__).resolve().parent.parent.parent
# How long nothing is to come, in seconds.
QUIET = 1
RINGS = float(os.environ.get("FAXGATE_RINGS", "1"))
# A page that takes 6 s at 2,400 bit/s, in rows: longer than we wait before we change audio, and than after 491.
LONG = 500
# A bound of datagrams that a page at 14,400 bit/s wants more than, in octets.
BOUND = 238
EOL, WHITE_ROW = "000000000001", "01001101100110101"


def page(rows):
    """The text of a page of so many white rows: each after an EOL, and six times EOL after the last (T.4, 4.1)."""
    bits = (EOL + WHITE_ROW) * rows + 6 * EOL
    bits += "0" * (-len(bits) % 8)
    return int(bits, 2).to_bytes(len(bits) // 8, "big")


def rows_of(text):
    """How many white rows a text has, filled or not."""
    return f"{int.from_bytes(text, 'big'):0{8 * len(text)}b}".count(EOL + WHITE_ROW)


class AtATrunk(Play):
    """Plays with a server whose lines have no peers, and a trunk."""

    def begin(self, lines=1, spool=False, sip="", trunk="", files=None, redial=(), **settings):
        """A server of so many lines with these settings, its trunk, redial lines that try a job after so many seconds, and who hears its events."""
        self.sip_port, self.audio_port, trunk_port = self.ports.take(), self.ports.take(), self.ports.take()
        self.lines = [self.line(f"a{i}", calling_peer=False, called_peer=False, **settings) for i in range(lines)]
        text = f"""
[sip]
local = '{address(self.sip_port)}'
audio = '{address(self.audio_port)}'
{sip}
[[trunks]]
name = 't'
address = '{address(trunk_port)}'
{trunk}
[[routes]]
prefix = '+49'
trunk = 't'
strip = 1
add = '00'
"""
        if redial:
            text += f"[retry]\nafter_seconds = {list(redial)}\n[[redial]]\nname = 'r1'\ncalled = {{ local = '{address(self.ports.take())}' }}\n"
        server = Server("".join(line.text() for line in self.lines) + text, spool=spool)
        for name, octets in (files or {}).items():
            with open(server.path(name), "w", encoding="utf-8") as file:
                file.write(octets)
        self.trunk = SipPeer(trunk_port, self.sip_port)
        self.addCleanup(self.trunk.close)
        self.server = self.enterContext(server)
        self.client = self.server.events()

    def leg(self, **more):
        """An end of a leg. It may come to a call that is on: what was said before, nobody says again."""
        leg = Leg(joins=True, **more)
        self.addCleanup(leg.close)
        return leg

    def idle(self):
        """The server takes calls."""
        until(lambda: self.options() == 200, what="a line that takes calls")

    def options(self):
        """What OPTIONS is answered with."""
        request = Message(
            f"OPTIONS sip:{address(self.sip_port)} SIP/2.0",
            [
                ("Via", self.trunk.via()),
                ("Max-Forwards", "70"),
                ("From", f"<{self.trunk.uri()}>;tag={token()}"),
                ("To", f"<sip:{address(self.sip_port)}>"),
                ("Call-ID", token()),
                ("CSeq", "1 OPTIONS"),
            ],
        )
        self.trunk.send(request)
        return self.trunk.final(request).status

    def confirm(self, leg, answer, rows):
        """A machine at a leg has a page of so many rows confirmed by the leg that an answer tells."""
        leg.peer = port_of(answer.body, "image")
        machine = Calling(leg, [page(rows)])
        machine.start()
        machine.end(LONGEST)
        self.assertEqual(machine.confirmed, 1)
        return machine

    def comes(self, number, rows, octets=None):
        """A call over T.38 for a number comes, and has a page of so many rows confirmed: its end, and its dialog, which is over."""
        self.idle()
        leg = self.leg()
        dialog, answer = self.trunk.call(number, fax_offer(leg.port, octets))
        self.assertEqual(answer.status, 200)
        self.confirm(leg, answer, rows)
        self.trunk.answer(self.trunk.request("BYE"), 200)
        return leg

    def goes_out(self, number):
        """The INVITE by which the next page goes out, to a number."""
        invite = self.trunk.request("INVITE")
        self.assertEqual(user_of(invite.target), number)
        return invite

    def machine(self):
        """A machine that takes a page at a leg of its own."""
        machine = Called(self.leg())
        machine.start()
        return machine

    def taken(self, machine, rows, **job):
        """The machine has taken a page of so many rows, and the call of its job is over."""
        self.client.event("job", outcome="Delivered", pages=1, delivered=1, **job)
        self.trunk.answer(self.trunk.request("BYE"), 200)
        machine.end(LONGEST)
        self.assertEqual([rows_of(text) for text in machine.pages], [rows])


class FaxesOverT38(AtATrunk):
    """T.38 at once, on both sides."""

    def test_a_page_comes_and_goes_out(self):
        self.begin()
        self.comes("+4930123", 7)
        rung = self.client.event("rung", line="a0")
        self.assertEqual(rung["tag"].split("/")[0], "+4930123")
        invite = self.goes_out("004930123")
        self.assertEqual([kind for kind, _, _ in media_of(invite.body)], ["image"])
        machine = self.machine()
        self.trunk.answer(invite, 100)
        self.trunk.answer(invite, 180)
        self.trunk.take(invite, fax_offer(machine.leg.port))
        self.taken(machine, 7, tag=rung["tag"])
        status = self.server.say("status")
        self.assertEqual(status[-2:], ["trunk t none in 1 out 1", "ok"])

    def test_a_refused_call_keeps_its_page(self):
        self.begin(spool=True)
        self.comes("+4930123", 3)
        invite = self.goes_out("004930123")
        answer = self.trunk.answer(invite, 486)
        self.assertEqual(self.trunk.request("ACK").tag("To"), answer.tag("To"))
        told = self.client.event("sip", direction="out", state="refused")
        self.assertEqual((told["trunk"], told["number"], told["code"]), ("t", "+4930123", 486))
        job = self.client.event("job", outcome="NotPlaced", delivered=0)
        self.assertEqual(job["cause"], "486")
        self.assertEqual(self.server.say("undelivered")[-1], "ok")

    def test_datagrams_are_bounded(self):
        """None is longer than the other side takes; some would be."""
        self.begin()
        self.assertGreater(self.longest(octets=None), BOUND)
        self.assertLessEqual(self.longest(octets=BOUND), BOUND)

    def longest(self, octets):
        """A page comes from a side that takes datagrams of so many octets, and goes out to one: how long the longest is that came."""
        leg = self.comes("+4930123", 5, octets)
        invite = self.goes_out("004930123")
        machine = self.machine()
        self.trunk.take(invite, fax_offer(machine.leg.port, octets))
        self.taken(machine, 5)
        return max(len(octets) for _, octets, _ in leg.came + machine.leg.came)

    def test_a_machine_that_rings(self):
        """However long it does, nothing more is said to it; its call begins when it answers, and T1 (35 s) with it."""
        self.begin()
        self.comes("+4930123", 3)
        invite = self.goes_out("004930123")
        self.trunk.answer(invite, 180)
        self.assertTrue(self.trunk.is_silent(RINGS))
        machine = self.machine()
        self.trunk.take(invite, fax_offer(machine.leg.port))
        self.taken(machine, 3)


class TriedAgain(AtATrunk):
    """A job whose call was refused goes out over a redial line, by the same route."""

    def refuse(self, status):
        """The call of the job is refused."""
        invite = self.goes_out("004930123")
        answer = self.trunk.answer(invite, status)
        self.assertEqual(self.trunk.request("ACK").tag("To"), answer.tag("To"))

    def test_a_machine_that_is_busy_twice(self):
        """It gets the page at the third try."""
        self.begin(spool=True, redial=(1, 1))
        self.comes("+4930123", 3)
        self.refuse(486)
        job = self.client.event("job", line="a0", outcome="NotPlaced", delivered=0)
        self.client.event("undelivered", line="a0", cause="486", tries=1)
        self.refuse(486)
        self.client.event("job", line="r1", tag=job["tag"], outcome="NotPlaced", cause="486")
        self.client.event("undelivered", line="a0", tag=job["tag"], cause="486", tries=2)
        invite = self.goes_out("004930123")
        machine = self.machine()
        self.trunk.take(invite, fax_offer(machine.leg.port))
        self.taken(machine, 3, line="r1", tag=job["tag"])
        until(lambda: self.server.say("undelivered") == ["ok"], what="nothing that is undelivered")

    def test_a_crash_before_it_is_tried_again(self):
        """Nobody hears events after it: SIP alone answers the question of the redial line."""
        self.begin(spool=True, redial=(1,))
        self.comes("+4930123", 4)
        self.refuse(480)
        self.client.event("undelivered", line="a0", cause="480", tries=1)
        self.server.kill()
        self.server.start()
        invite = self.goes_out("004930123")
        machine = self.machine()
        self.trunk.take(invite, fax_offer(machine.leg.port))
        self.trunk.answer(self.trunk.request("BYE"), 200)
        machine.end(LONGEST)
        self.assertEqual([rows_of(text) for text in machine.pages], [4])
        until(lambda: self.server.say("undelivered") == ["ok"], what="nothing that is undelivered")


class Counts(AtATrunk):
    def test_those_of_the_document(self):
        """Each count of SIP that docs/OPERATING.md names is told, with its kind, and no other; and before the end."""
        text = (TOP / "docs" / "OPERATING.md").read_text(encoding="utf-8").split("\n## Metrics\n")[1].split("\n## ")[0]
        wanted = {name: "counter" if name.endswith("_total") else "gauge" for name in re.findall(r"`(faxgate_sip_\w+)`", text)}
        self.begin()
        self.idle()
        lines = self.server.say("metrics")
        self.assertEqual([line for line in lines if "EOF" in line], [lines[-1]])
        told = [line.split()[2:] for line in lines if line.startswith("# TYPE faxgate_sip_")]
        self.assertEqual(dict(told), wanted)
        self.assertIn('faxgate_sip_answers_total{status="200",way="sent"} 1', lines)


class PagesSurvive(AtATrunk):
    """What comes of pages where the server ends."""

    def test_a_crash_before_the_page_goes_out(self):
        """Nobody hears events after it: SIP alone answers the questions."""
        self.begin(lines=2, spool=True)
        for rows in (3, 4):
            self.comes(f"+493012{rows}", rows)
            self.trunk.request("INVITE")
        self.server.kill()
        self.server.start()
        machines = {}
        for _ in range(2):
            invite = self.trunk.request("INVITE")
            number = user_of(invite.target)
            machines[number] = self.machine()
            self.trunk.take(invite, fax_offer(machines[number].leg.port))
        for _ in range(2):
            self.trunk.answer(self.trunk.request("BYE"), 200)
        for rows in (3, 4):
            machine = machines[f"00493012{rows}"]
            machine.end(LONGEST)
            self.assertEqual([rows_of(text) for text in machine.pages], [rows])
        self.assertEqual(self.server.say("undelivered"), ["ok"])

    def test_a_stop_ends_calls(self):
        self.begin()
        self.idle()
        leg = self.leg()
        self.trunk.call("+4930123", fax_offer(leg.port))
        self.client.event("rung", line="a0")
        self.server.say("stop")
        until(lambda: self.options() == 503, what="a server that takes no call")
        self.server.say("stop")
        self.trunk.answer(self.trunk.request("BYE"), 200)
        self.server.ends()


class FaxesOverAudio(AtATrunk):
    """Audio at first."""

    def test_their_audio_is_changed_by_our_invite(self):
        self.begin()
        self.idle()
        audio = socket.socket(socket.AF_INET, socket.SOCK_DGRAM)
        self.addCleanup(audio.close)
        audio.bind(("127.0.0.1", 0))
        leg = self.leg()
        dialog, answer = self.trunk.call("+4930123", audio_offer(audio.getsockname()[1]))
        self.assertEqual((answer.status, port_of(answer.body, "audio")), (200, self.audio_port))
        again = self.trunk.request("INVITE")
        self.assertEqual(again.one("Call-ID"), dialog.call_id)
        self.assertTrue(port_of(again.body, "image"))
        # the machine calls with a while of audio before it
        audio.settimeout(LONGEST)
        packets = [Packet(audio.recv(2048)) for _ in range(10)]
        self.assertTrue(all(it.is_plain and it.payload == 0 and len(it.samples) == 160 for it in packets))
        self.assertEqual([it.marker for it in packets], [True] + 9 * [False])
        self.assertEqual({it.source for it in packets}, {packets[0].source})
        for before, after in zip(packets, packets[1:]):
            self.assertEqual((after.number - before.number) % 65536, 1)
            # of a server that is late some are left out
            self.assertEqual((after.moment - before.moment) % 160, 0)
        self.trunk.take(again, fax_offer(leg.port))
        self.confirm(leg, again, 4)
        self.trunk.answer(self.trunk.request("BYE"), 200)
        invite = self.goes_out("004930123")
        machine = self.machine()
        self.trunk.take(invite, fax_offer(machine.leg.port))
        self.taken(machine, 4)

    def test_a_called_machine_sounds_its_tone(self):
        self.begin()
        self.idle()
        audio = socket.socket(socket.AF_INET, socket.SOCK_DGRAM)
        self.addCleanup(audio.close)
        audio.bind(("127.0.0.1", 0))
        audio.settimeout(LONGEST)
        self.trunk.call("+4930123", audio_offer(audio.getsockname()[1]))
        # T.30: 2,100 Hz from 1.8 to 2.5 s after the answer on
        samples = [[linear(octet) for octet in Packet(audio.recv(2048)).samples] for _ in range(120)]
        self.assertLess(max(map(abs, samples[10])), 10)
        self.assertGreater(power_at(samples[110], 2100), 0.9)

    def test_a_refused_change_ends_the_call(self):
        self.begin()
        self.idle()
        dialog, answer = self.trunk.call("+4930123", audio_offer(self.ports.take()))
        again = self.trunk.request("INVITE")
        self.trunk.answer(again, 488)
        self.trunk.answer(self.trunk.request("BYE", within=5 * SLOW), 200)
        self.client.event("ended", line="a0")

    def meet(self, dialog):
        """Our change is under way when theirs comes: either is refused (RFC 3261, 14.1 and 14.2)."""
        change = self.trunk.request("INVITE")
        self.assertEqual(self.trunk.again(dialog, "INVITE", fax_offer(self.ports.take())).status, 491)
        self.trunk.answer(change, 491)

    def changes(self, dialog):
        """They change our call to T.38, and a machine takes its page, slowly; we, who were to change it too, do not any more."""
        machine = Called(self.leg(), bits=SLOW_BITS)
        machine.start()
        answer = self.trunk.again(dialog, "INVITE", fax_offer(machine.leg.port))
        self.assertTrue(port_of(answer.body, "image"))
        before = len(self.trunk.came)
        self.taken(machine, LONG)
        self.assertEqual([it.first.split()[0] for it in self.trunk.came[before:]], ["BYE"])

    def test_a_change_that_meets_theirs_is_made_again(self):
        """Ours first, since the Call-ID is theirs."""
        self.begin()
        self.idle()
        leg = self.leg()
        dialog, _ = self.trunk.call("+4930123", audio_offer(self.ports.take()))
        self.meet(dialog)
        again = self.trunk.request("INVITE")
        self.trunk.take(again, fax_offer(leg.port))
        self.confirm(leg, again, 4)

    def test_our_call_is_changed_to_audio_and_back(self):
        self.begin()
        self.comes("+4930123", LONG)
        invite = self.goes_out("004930123")
        self.trunk.answer(invite, 488)
        audio = self.goes_out("004930123")
        self.assertEqual([kind for kind, _, _ in media_of(audio.body)], ["audio"])
        self.changes(self.trunk.take(audio, audio_offer(self.ports.take(), 8)))

    def test_a_change_of_our_call_that_meets_theirs(self):
        """Theirs is made again first, since the Call-ID is ours; and then ours is not."""
        self.begin(trunk="call_with = 'audio'")
        self.comes("+4930123", LONG)
        dialog = self.trunk.take(self.goes_out("004930123"), audio_offer(self.ports.take()))
        self.meet(dialog)
        self.changes(dialog)

    def test_our_call_is_changed_by_us(self):
        self.begin(trunk="call_with = 'audio'")
        self.comes("+4930123", 6)
        audio = self.goes_out("004930123")
        self.assertEqual([kind for kind, _, _ in media_of(audio.body)], ["audio"])
        self.trunk.take(audio, audio_offer(self.ports.take()))
        again = self.trunk.request("INVITE")
        machine = self.machine()
        self.trunk.take(again, fax_offer(machine.leg.port))
        self.taken(machine, 6)


class Intervals(AtATrunk):
    """The interval of a session, as our INVITEs ask for it (RFC 4028, 7.3 and 7.4). What takes longer is in sip_sessions.py."""

    def asks(self, invite, seconds, least):
        """An INVITE of ours asks for an interval, and tells the least one."""
        self.assertEqual((invite.one("Session-Expires"), invite.one("Min-SE")), (str(seconds), str(least)))

    def test_a_call_that_asks_for_too_little_is_made_again(self):
        self.begin()
        for rows, wanted, asked in ((3, 2000, 2000), (4, 400, 1800)):
            self.comes("+4930123", rows)
            first = self.goes_out("004930123")
            self.asks(first, 1800, 90)
            self.trunk.answer(first, 422, more=[("Min-SE", str(wanted))])
            second = self.goes_out("004930123")
            self.asks(second, asked, wanted)
            machine = self.machine()
            self.trunk.take(second, fax_offer(machine.leg.port))
            self.taken(machine, rows)

    def test_our_change_asks_for_what_was_agreed_on(self):
        self.begin()
        self.idle()
        leg = self.leg()
        asked = [("Supported", "timer"), ("Session-Expires", "200;refresher=uac"), ("Min-SE", "100")]
        _, answer = self.trunk.call("+4930123", audio_offer(self.ports.take()), more=asked)
        self.assertEqual((answer.status, answer.one("Session-Expires")), (200, "200;refresher=uac"))
        again = self.trunk.request("INVITE")
        self.asks(again, 200, 100)
        self.trunk.take(again, fax_offer(leg.port))
        self.confirm(leg, again, 4)
        self.trunk.answer(self.trunk.request("BYE"), 200)


class Registrations(AtATrunk):
    """A trunk that is registered with."""

    def test_a_challenge_is_answered(self):
        self.begin(trunk="user = 'fax1'\npassword_file = 't.pw'\nregister = true", files={"t.pw": "s3cret\n"})
        first = self.trunk.request("REGISTER")
        self.trunk.answer(first, 401, more=[("WWW-Authenticate", 'Digest realm="r", nonce="n1", qop="auth", algorithm=MD5')])
        second = self.trunk.request("REGISTER")
        told = credentials(second.one("Authorization"))
        wanted = digest("fax1", "r", "s3cret", "REGISTER", second.target, told)
        self.assertEqual((told["username"], told["response"]), ("fax1", wanted))
        self.trunk.answer(second, 200, more=[("Expires", "3600")])
        self.client.event("sip", trunk="t", state="registered")
        until(lambda: self.server.say("status")[-2] == "trunk t registered in 0 out 0", what="a registered trunk")
        self.server.say("stop")
        last = self.trunk.request("REGISTER")
        self.assertIn("0", (last.one("Expires"), (last.one("Contact") or "").split("expires=")[-1]))
        self.trunk.answer(last, 200)
        self.server.ends()
        for name in ("errors", "output"):
            with open(self.server.path(name), encoding="utf-8") as file:
                self.assertNotIn("s3cret", file.read())


    def test_a_challenged_call_is_made_again(self):
        self.begin(trunk="user = 'fax1'\npassword_file = 't.pw'", files={"t.pw": "s3cret\n"})
        self.comes("+4930123", 3)
        first = self.goes_out("004930123")
        self.trunk.answer(first, 407, more=[("Proxy-Authenticate", 'Digest realm="r", nonce="n2", qop="auth", algorithm=SHA-256')])
        second = self.goes_out("004930123")
        told = credentials(second.one("Proxy-Authorization"))
        self.assertEqual(told["response"], digest("fax1", "r", "s3cret", "INVITE", second.target, told))
        machine = self.machine()
        self.trunk.take(second, fax_offer(machine.leg.port))
        self.taken(machine, 3)


class Others(AtATrunk):
    """What is no call that is taken."""

    def of_lines(self):
        """What is told of each line."""
        return [told for told in self.server.say("status") if told.startswith("line ")]

    def test_a_number_without_a_route(self):
        """It is refused, and so is what is no number; no line is touched."""
        self.begin()
        self.idle()
        before = self.of_lines()
        for number, status in (("+33123", 403), ("+4", 403), ("fax", 404)):
            request, dialog = self.trunk.invite(number, fax_offer(self.ports.take()))
            answer = self.trunk.final(request)
            self.trunk.ack(request, answer, dialog)
            self.assertEqual(answer.status, status, number)
        self.assertEqual(self.of_lines(), before)
        self.client.no_event("rung", QUIET)

    def test_a_stranger_hears_nothing(self):
        self.begin()
        stranger = SipPeer(0, self.sip_port, host="127.0.0.2")
        self.addCleanup(stranger.close)
        self.idle()
        before = self.of_lines()
        stranger.invite("+4930123", fax_offer(self.ports.take()))
        self.assertTrue(stranger.is_silent(QUIET))
        self.assertIn('faxgate_sip_dropped_total{why="stranger"} 1', self.server.say("metrics"))
        self.assertEqual(self.of_lines(), before)

    def test_what_is_no_message_is_dropped(self):
        self.begin()
        self.idle()
        for octets in (b"\x00", b"INVITE", b"SIP/2.0 200\r\n\r\n", b"\r\n\r\n", os.urandom(1200), b"A" * 60000):
            self.trunk.send(octets)
        self.assertEqual(self.options(), 200)

    def test_a_call_that_rings_too_long_is_cancelled(self):
        self.begin(sip="ring_seconds = 2")
        self.comes("+4930123", 3)
        invite = self.goes_out("004930123")
        self.trunk.answer(invite, 180)
        cancel = self.trunk.request("CANCEL")
        self.assertEqual((cancel.one("Via"), cancel.cseq[0]), (invite.one("Via"), invite.cseq[0]))
        self.trunk.answer(cancel, 200)
        self.trunk.answer(invite, 487)
        self.client.event("job", outcome="NotPlaced")

    def test_a_caller_gives_up(self):
        self.begin()
        self.idle()
        leg = self.leg()
        dialog, answer = self.trunk.call("+4930123", fax_offer(leg.port))
        self.client.event("rung", line="a0")
        self.assertEqual(self.trunk.again(dialog, "BYE").status, 200)
        self.client.event("ended", line="a0")

    def test_an_offer_that_comes_late(self):
        """The offer is ours, in the answer; theirs is the answer, in the ACK (RFC 3261, 13.2.1)."""
        self.begin()
        self.idle()
        request, dialog = self.trunk.invite("+4930123", b"")
        answer = self.trunk.final(request)
        self.assertEqual(answer.status, 200)
        dialog.theirs, dialog.target = answer.one("To"), answer.contact()
        leg = self.leg()
        kind = "image" if port_of(answer.body, "image") else "audio"
        body = fax_offer(leg.port) if kind == "image" else audio_offer(self.ports.take())
        self.trunk.send(self.trunk.make("ACK", dialog, body))
        if kind == "audio":
            answer = self.trunk.request("INVITE")
            self.trunk.take(answer, fax_offer(leg.port))
        self.confirm(leg, answer, 4)

    def test_no_line_is_idle(self):
        self.begin()
        self.idle()
        leg = self.leg()
        dialog, answer = self.trunk.call("+4930123", fax_offer(leg.port))
        self.client.event("rung", line="a0")
        request, other = self.trunk.invite("+4930124", fax_offer(self.ports.take()))
        refused = self.trunk.final(request)
        self.trunk.ack(request, refused, other)
        self.assertIn(refused.status, (486, 503))
        until(lambda: self.options() == 503, what="a server that takes no call")
