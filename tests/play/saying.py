"""`faxgate say`: a word to a server, its answer, and the status; and what it makes of servers that are none."""
import contextlib
import json
import os
import socket
import subprocess
import tempfile
import threading
import unittest

from server import LONGEST, Play, finish, program, until

IDLE = "line a1 calling idle called idle calls 0 pages 0 waiting 0 failures 0\nok\n"


class Said(Play):
    def say(self, server, *words):
        """The status of a run, and what it said on both streams."""
        return finish(server.run("say", server.control, *words))

    def test_an_answer_is_printed(self):
        server = self.serve(self.line())
        self.assertEqual(self.say(server, "status"), (0, IDLE, ""))
        self.assertEqual(self.say(server, "ring", "a1", "call-7"), (0, "ok 0\n", ""))
        self.assertEqual(self.say(server, "ring a1"), (1, "refused 1 Busy\n", ""))
        self.assertEqual(self.say(server, "ring", "a2"), (1, "refused 7 NoLine\n", ""))
        self.assertEqual(self.say(server, ""), (1, "refused 8 NoWord\n", ""))
        self.assertEqual(self.say(server, "rings", "ä1"), (1, "refused 8 NoWord\n", ""))

    def test_counts_are_printed_to_their_end(self):
        server = self.serve(self.line())
        status, output, errors = self.say(server, "metrics")
        self.assertEqual((status, errors), (0, ""))
        self.assertEqual(output.split("\n")[-2:], ["# EOF", ""])
        self.assertIn("faxgate_lines 1\n", output)

    def test_a_stop_waits_until_the_server_is_gone(self):
        """While a call is on the server goes on, and so does who said `stop`; a second one ends both."""
        server = self.serve(self.line())
        server.say("ring a1")
        first = server.run("say", server.control, "stop")
        until(lambda: server.say("ring a1") == ["refused 5 Stopping"], what="the stop")
        self.assertIsNone(first.poll())
        self.assertEqual(self.say(server, "stop"), (0, "ok\n", ""))
        self.assertEqual(finish(first), (0, "ok\n", ""))
        self.assertEqual(server.ends(), 0)
        self.assertEqual(self.say(server, "status")[0], 4)

    def test_events_are_printed_until_the_server_is_gone(self):
        server = self.serve(self.line())
        events = server.run("say", server.control, "events")
        self.assertEqual(events.stdout.readline(), "ok\n")
        server.say("ring a1 call-7")
        told = json.loads(events.stdout.readline())
        self.assertEqual((told["event"], told["line"], told["tag"]), ("rung", "a1", "call-7"))
        server.say("stop")
        server.say("stop")
        status, _, errors = finish(events)
        self.assertEqual((status, errors), (0, ""))

    def test_an_output_that_is_closed_is_told(self):
        server = self.serve(self.line())
        other, end = os.pipe()
        os.close(other)
        ran = subprocess.run([program(), "say", server.control, "status"], stdout=end, stderr=subprocess.PIPE, timeout=LONGEST)
        os.close(end)
        self.assertEqual((ran.returncode, ran.stderr), (4, b"faxgate: the standard output cannot be written: Broken pipe (os error 32)\n"))


class Answered(unittest.TestCase):
    """Servers that are no `faxgate serve`."""

    def answered(self, *pieces, word="status"):
        """What a word comes to that is answered by these pieces, after which the socket is closed."""
        with tempfile.TemporaryDirectory() as folder, socket.socket(socket.AF_UNIX) as listener:
            path, heard = os.path.join(folder, "control"), []
            listener.bind(path)
            listener.listen()
            listener.settimeout(LONGEST)
            answerer = threading.Thread(target=self.answer, args=(listener, pieces, heard))
            answerer.start()
            ran = subprocess.run([program(), "say", path, word], capture_output=True, text=True, timeout=LONGEST)
            answerer.join()
        self.assertEqual(heard, [word.encode() + b"\n"])
        return ran.returncode, ran.stdout, ran.stderr.replace(path, "PATH")

    @staticmethod
    def answer(listener, pieces, heard):
        client, _ = listener.accept()
        with client, contextlib.suppress(BrokenPipeError, ConnectionResetError):
            client.settimeout(LONGEST)
            octets = b""
            while not octets.endswith(b"\n"):
                octets += client.recv(4096)
            heard.append(octets)
            for piece in pieces:
                client.sendall(piece)

    def test_none(self):
        self.assertEqual(self.answered(), (4, "", "faxgate: PATH: closed before the end of an answer\n"))
        self.assertEqual(self.answered(b"okay\nok"), (4, "okay\nok", "faxgate: PATH: closed before the end of an answer\n"))
        self.assertEqual(self.answered(word="stop"), (4, "", "faxgate: PATH: closed before the end of an answer\n"))

    def test_in_pieces(self):
        """An answer ends with its last line, however it is cut, and nothing after it is printed."""
        for text in (b"line a1\nok 3\n", b"refused \n", b"ok\n"):
            pieces = [text[at : at + 1] for at in range(len(text))]
            with self.subTest(text=text):
                self.assertEqual(self.answered(*pieces, b"more\n")[1:], (text.decode(), ""))
                self.assertEqual(self.answered(text + b"more\n")[1:], (text.decode(), ""))

    def test_long_lines(self):
        """A line of any length is printed as it comes; one of more than 256 octets is the last of no answer."""
        for text in (1_000_000 * b"x" + b"\nok\n", b"ok " + 253 * b"x" + b"\n", b"ok " + 254 * b"x" + b"\nrefused 1 Busy\n"):
            with self.subTest(length=len(text)):
                self.assertEqual(self.answered(text)[1:], (text.decode(), ""))

    def test_what_comes_behind_a_refused_word(self):
        """After `stop` and `events` all is printed that comes, where they were done."""
        self.assertEqual(self.answered(b"ok\n", b"more\n", b"refused\n", word="events"), (0, "ok\nmore\nrefused\n", ""))
        self.assertEqual(self.answered(b"refused 3 NoMemory\nmore\n", word="events"), (1, "refused 3 NoMemory\n", ""))
