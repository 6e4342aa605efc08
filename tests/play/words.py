"""What clients of the control socket say, and what they are answered."""
import contextlib
import os
import pathlib
import re
import socket
import stat

from server import NO_SPOOL, Client, Play, Server, address, finish

TOP = pathlib.Path(__file__).parents[2]

IDLE = ["line a1 calling idle called idle calls 0 pages 0 waiting 0 failures 0", "ok"]
# Lines, and what each is answered. A line has at most 256 octets.
SAID = b"status\n\nring a2\0\n" + 256 * b"x" + b"\n" + 257 * b"y" + b"\nhangup a2 calling\nnever ended"
ANSWERED = IDLE + ["refused 8 NoWord", "refused 7 NoLine", "refused 8 NoWord", "refused 9 TooLong", "refused 7 NoLine"]


class Words(Play):
    def test_lines_come_whole(self):
        """What is heard does not depend on how the octets are cut into pieces."""
        server = self.serve(self.line())
        for size in (1, 3, 7, 255, 256, 257, 1000):
            with self.subTest(size=size), contextlib.closing(Client.connect(server.control)) as client:
                for at in range(0, len(SAID), size):
                    client.send(SAID[at : at + size])
                self.assertEqual([client.line() for _ in ANSWERED], ANSWERED)
                self.assertIsNone(client.line(within=0.05))

    def test_words_are_answered_in_their_order(self):
        """A word is heard once it is whole; the next one is answered after it."""
        client = self.serve(self.line()).client()
        client.send(b"sta")
        self.assertIsNone(client.line(within=0.3))
        client.send(b"tus\nreport a2\nreport a1\n")
        self.assertEqual([client.answer() for _ in range(3)], [IDLE, ["refused 7 NoLine"], ["ok"]])

    def test_a_call_is_named_by_its_line_its_life_and_its_number(self):
        """The numbers are decimal, without a sign or a zero before them, and have 32 bits."""
        client = self.serve(self.line()).client()
        for word in ("discard", "retry"):
            for rest in (
                *("", " ", " a1", " a1 ", " a1 0", " a1 0 ", "  0 0", " a1  0 0", " a1 0  0", " a1 0 0 ", " a1 0 0 0"),
                *(" a1 00 0", " a1 0 01", " a1 +1 0", " a1 0 -1", " a1 0x1 0", " a1 0 1e1", " a1 4294967296 0", " a1 0 4294967296"),
            ):
                with self.subTest(said=word + rest):
                    self.assertEqual(client.say(word + rest), ["refused 8 NoWord"])
            for rest in (" a1 0 0", " a1 10 7", " a1 4294967295 4294967295"):
                with self.subTest(said=word + rest):
                    self.assertNotEqual(client.say(word + rest), ["refused 8 NoWord"])
        for said in ("undelivered ", "undelivered  a1", "undelivered a1 ", "undelivered a1 a1"):
            with self.subTest(said=said):
                self.assertEqual(client.say(said), ["refused 8 NoWord"])
        for said in ("undelivered", "undelivered a1"):
            with self.subTest(said=said):
                self.assertEqual(client.say(said), ["ok"])

    def test_the_last_word_is_answered(self):
        """A client that says no more is answered still, and then let go."""
        client = self.serve(self.line()).client()
        client.send(b"status\n")
        client.stream.shutdown(socket.SHUT_WR)
        self.assertEqual(client.answer(), IDLE)
        client.stream.settimeout(30)
        self.assertEqual(client.stream.recv(1), b"")

    def test_each_client_has_its_own_answer(self):
        server = self.serve(self.line())
        first, second = server.client(), server.client()
        self.assertEqual(second.say("report a2"), ["refused 7 NoLine"])
        self.assertEqual(first.say("status"), IDLE)
        first.send(b"report a1\n")
        second.send(b"hangup a1 calling\n")
        self.assertEqual((first.answer(), second.answer()), (["ok"], ["refused 11 NoCall"]))
        self.assertIsNone(first.line(within=0.1))
        self.assertIsNone(second.line(within=0.1))

    def test_for_one_more_client_the_silent_one_goes(self):
        """At most 64 clients are connected at one time. Who has said nothing for longest goes, and who hears events last of all."""
        server = self.serve(self.line())
        events = server.events()
        clients = [server.client() for _ in range(63)]
        for client in [*clients, clients[0]]:
            self.assertEqual(client.say("report a1"), ["ok"])
        more = [server.client() for _ in range(62)]
        for client in more:
            self.assertEqual(client.say("status"), IDLE)
        for client in clients[1:]:
            client.stream.settimeout(30)
            self.assertEqual(client.stream.recv(1), b"")
        self.assertEqual(clients[0].say("ring a1"), ["ok 0"])
        events.event("rung", line="a1", call=0)
        self.assertEqual(server.say("stop"), ["ok"])

    def test_one_more_client_waits_while_none_is_silent(self):
        """Nobody goes who is still to be told something."""
        server = self.serve(*(self.line(f"a{i}") for i in range(100)))
        clients = [server.client() for _ in range(64)]
        for client in clients:
            client.stream.setblocking(False)
            with contextlib.suppress(BlockingIOError):
                for _ in range(100_000):
                    client.stream.send(b"status\n")
        more = server.client()
        more.send(b"report a1\n")
        self.assertIsNone(more.line(within=0.5))
        clients.pop().close()
        self.assertEqual(more.answer(), ["ok"])

    def test_a_client_that_does_not_read_holds_up_itself_alone(self):
        server = self.serve(*(self.line(f"a{i}") for i in range(100)))
        slow = server.client()
        slow.stream.setblocking(False)
        with contextlib.suppress(BlockingIOError):
            for _ in range(100_000):
                slow.stream.send(b"status\n")
        for _ in range(20):
            self.assertEqual(len(server.say("status")), 101)

    def test_metrics_are_those_of_the_document(self):
        """Each count that docs/OPERATING.md names is told, with its kind, and no other; those of SIP where it is spoken (sip.py)."""
        text = (TOP / "docs" / "OPERATING.md").read_text(encoding="utf-8").split("\n## Metrics\n")[1].split("\n## ")[0]
        wanted = {name: "counter" if name.endswith("_total") else "gauge" for name in re.findall(r"`(faxgate_(?!sip_)\w+)`", text)}
        lines = self.serve(self.line("a1"), self.line("a2")).say("metrics")
        self.assertEqual(lines.pop(), "# EOF")
        told = {}
        for kind, count in zip(lines[::2], lines[1::2]):
            name = count.split()[0]
            self.assertEqual(kind, f"# TYPE {name} {wanted.get(name)}")
            told[name] = count
        self.assertEqual(set(told), set(wanted))
        self.assertEqual(told["faxgate_lines"], "faxgate_lines 2")


class Sockets(Play):
    def test_a_control_socket_has_one_server(self):
        """One on which a process serves is not taken; one that a dead process has left is, and it is gone after a stop."""
        line = self.line()
        server = self.serve(line)
        status, _, errors = finish(server.run("serve", "--config", "lines.toml"))
        self.assertEqual((status, errors), (4, f"faxgate: lines.toml: control: {server.control}: another process serves there\n"))
        self.assertEqual(server.say("status"), IDLE)
        self.assertEqual(stat.S_IMODE(os.stat(server.control).st_mode), 0o660)
        server.kill()
        self.assertTrue(os.path.exists(server.control))
        server.start()
        self.assertEqual(server.say("stop"), ["ok"])
        self.assertEqual(server.ends(), 0)
        self.assertFalse(os.path.exists(server.control))

    def test_a_port_that_is_taken_is_told(self):
        line = self.line()
        server = self.serve(line)
        with open(server.path("more.toml"), "w", encoding="utf-8") as file:
            file.write(line.text().replace("a1", "a2"))
        status, output, errors = finish(server.run("serve", "--config", "more.toml"))
        fault = f'line "a2": calling: {address(line.calling)}: Address already in use (os error 98)'
        self.assertEqual((status, errors), (4, f"faxgate: more.toml: {fault}\n"))

    def test_the_first_line_says_that_pages_are_in_memory_alone(self):
        server = self.serve(self.line())
        self.assertEqual(server.output(), NO_SPOOL + "\n")
        server = self.serve(self.line("a2"), spool=True)
        self.assertEqual(server.output(), "")

    def test_the_sample_is_served(self):
        """samples/serve.toml, with other ports: three lines, of which the second waits for 1 s after a preamble, and a redial line."""
        text = (TOP / "samples" / "serve.toml").read_text(encoding="utf-8")
        for port in (40000, 40002, 40004, 40006, 40008, 40010, 40012, 6000, 6002, 6004, 6006):
            text = text.replace(address(port), address(self.ports.take()))
        text = text.replace(address(9464), address(self.ports.take()))
        # the port is held by a stream socket: it is let go for the server
        self.ports._held.pop().close()
        server = self.enterContext(Server(text, control="faxgate.sock"))
        self.assertEqual(server.say("status"), [IDLE[0].replace("a1", name) for name in ("a1", "a2", "a3")] + ["redial r1 called idle", "ok"])
