"""Who looks at `faxgate serve` over HTTP: an operator, a monitor, and strangers who say anything."""
import contextlib
import html.parser
import os
import random
import re
import shutil
import socket
import subprocess
import tempfile
import unittest
import urllib.error
import urllib.request

from server import HOST, LONGEST, Peer, Play, Server, until

BROWSER = shutil.which("chromium") or shutil.which("chromium-browser")
WIDTHS = (400, 1600)
# What no answer is without.
ALWAYS = {
    "Connection": "close",
    "Cache-Control": "no-store",
    "X-Content-Type-Options": "nosniff",
    "Content-Security-Policy": "default-src 'none'; style-src 'unsafe-inline'; img-src 'self' data:",
}


class Tags(html.parser.HTMLParser):
    """The tags and the text of a page."""

    def __init__(self, text):
        super().__init__()
        self.tags, self.links, self.text = [], [], ""
        self.feed(text)
        self.close()

    def handle_starttag(self, tag, attrs):
        self.tags.append(tag)
        if tag == "a":
            self.links.append(dict(attrs)["href"])

    def handle_data(self, data):
        self.text += data


class Looked(Play):
    """A server that is looked at."""

    # The files of its spool, by their names, where it has one.
    SPOOL = None

    def setUp(self):
        super().setUp()
        self.port = self.ports.take()
        # the port is held by a stream socket: it is let go for the server
        self.ports._held.pop().close()
        self.lines = [self.line("a<1>"), self.line("a2")]
        self.server = Server(self.lines, spool=self.SPOOL is not None, head=f"http = '{HOST}:{self.port}'\n")
        self.addCleanup(self.server.close)
        for name, octets in (self.SPOOL or {}).items():
            with open(os.path.join(self.server.spool, name), "wb") as file:
                file.write(octets)
        self.server.start()

    def get(self, path, method="GET"):
        """The status, the fields and the body of an answer."""
        request = urllib.request.Request(f"http://{HOST}:{self.port}{path}", method=method)
        try:
            with urllib.request.urlopen(request, timeout=LONGEST) as answer:
                return answer.status, answer.headers, answer.read()
        except urllib.error.HTTPError as error:
            with error:
                return error.code, error.headers, error.read()

    def connect(self):
        """A connection."""
        stream = socket.create_connection((HOST, self.port), LONGEST)
        self.addCleanup(stream.close)
        return stream

    def answer_to(self, octets):
        """All that these octets are answered."""
        stream = self.connect()
        answer = b""
        with contextlib.suppress(ConnectionError):
            stream.sendall(octets)
            while more := stream.recv(65536):
                answer += more
        return answer

    def turns(self):
        """Sees that turns go on: a call that is rung is answered, and heard."""
        peer = Peer(self.lines[0].calling_peer, self.lines[0].calling)
        self.addCleanup(peer.close)
        self.assertEqual(self.server.say("ring a<1> tag&amp;"), ["ok 0"])
        self.assertIsNotNone(peer.hear())

    def browse(self, *words):
        """What the browser prints of a path, the last word."""
        run = subprocess.run(
            [BROWSER, "--headless=new", "--no-sandbox", "--disable-gpu", *words[:-1], f"http://{HOST}:{self.port}{words[-1]}"],
            capture_output=True, text=True, timeout=4 * LONGEST, check=True,
        )
        return run.stdout


class Visiting(Looked):
    """What it tells, and to whom."""

    def test_resources(self):
        status, fields, body = self.get("/healthz")
        self.assertEqual((status, body), (200, b"ok\n"))
        for name, value in ALWAYS.items():
            self.assertEqual(fields[name], value)
        status, fields, body = self.get("/metrics")
        self.assertEqual(status, 200)
        self.assertEqual(fields["Content-Type"], "application/openmetrics-text; version=1.0.0; charset=utf-8")
        self.assertTrue(body.endswith(b"# EOF\n"))
        told = {line.split()[0] for line in body.decode().splitlines() if not line.startswith("#")}
        self.assertEqual(told, set(self.server.metrics()))
        # a counter's family is named without `_total` (OpenMetrics 1.0.0, 5.1)
        self.assertFalse(re.search(rb"_total counter$", body, re.M))
        self.assertIn(b"# TYPE faxgate_calls counter\nfaxgate_calls_total 0\n", body)

    def test_page(self):
        self.turns()
        status, fields, body = self.get("/")
        self.assertEqual((status, fields["Content-Type"]), (200, "text/html; charset=utf-8"))
        self.assertEqual(int(fields["Content-Length"]), len(body))
        page = Tags(body.decode())
        self.assertNotIn("script", page.tags)
        self.assertIn("a<1>", page.text)
        self.assertIn("receives call 0, tag&amp;", page.text)
        self.assertIn("Other lines: 1.", page.text)
        for link in page.links:
            self.assertEqual(self.get(link)[0], 200, link)

    def test_refusals(self):
        self.assertEqual(self.get("/passwd")[0], 404)
        status, fields, _ = self.get("/", "POST")
        self.assertEqual((status, fields["Allow"]), (405, "GET, HEAD"))
        status, fields, body = self.get("/healthz", "HEAD")
        self.assertEqual((status, fields["Content-Length"], body), (200, "3", b""))
        self.assertTrue(self.answer_to(b"GET / HTTP/1.1\r\n" + b"a" * 9000).startswith(b"HTTP/1.1 431 "))
        self.assertTrue(self.answer_to(b"\x16\x03\x01\x02\x00\r\n").startswith(b"HTTP/1.1 400 "))

    def test_stopping(self):
        self.turns()
        self.server.say("stop")
        status, _, body = self.get("/healthz")
        self.assertEqual((status, body), (503, b"it was told to stop\n"))

    def test_strangers(self):
        """Heads of any octets, a request in pieces, and silence: each is answered or closed, and the server goes on."""
        chance = random.Random(9464)
        for _ in range(50):
            octets = chance.randbytes(chance.randrange(1, 3000))
            answer = self.answer_to(octets + b"\r\n\r\n")
            self.assertTrue(not answer or answer.startswith(b"HTTP/1.1 4"))
        stream = self.connect()
        for octet in b"GET /healthz HTTP/1.0\r\n\r\n":
            stream.sendall(bytes([octet]))
        self.assertTrue(stream.recv(65536).startswith(b"HTTP/1.1 200 "))
        silent = self.connect()
        silent.settimeout(LONGEST)
        self.assertEqual(silent.recv(1), b"")
        self.turns()

    def test_crowd(self):
        """A hundred at once: the one that has been silent longest goes, words are answered, and turns go on."""
        crowd = [self.connect() for _ in range(100)]
        for stream in crowd[::2]:
            with contextlib.suppress(OSError):
                stream.sendall(b"GET / HTTP/1.1\r\n")
        self.turns()
        self.assertEqual(self.get("/healthz")[0], 200)
        until(lambda: self.get("/")[0] == 200, what="a page in a crowd")

    def test_port_that_is_taken(self):
        other = Server([self.line("b")], head=f"http = '{HOST}:{self.port}'\n")
        self.addCleanup(other.close)
        with self.assertRaisesRegex(AssertionError, f"ended with 4: .*http: {HOST}:{self.port}: "):
            other.start()

    @unittest.skipUnless(BROWSER, "chromium is missing")
    def test_browser(self):
        """The page in a browser, narrow and wide, and each link of it. FAXGATE_PICTURES: the folder of the screenshots."""
        self.turns()
        folder = os.environ.get("FAXGATE_PICTURES") or tempfile.mkdtemp(prefix="faxgate-play-")
        if "FAXGATE_PICTURES" not in os.environ:
            self.addCleanup(shutil.rmtree, folder, ignore_errors=True)
        for width in WIDTHS:
            picture = os.path.join(folder, f"page-{width}.png")
            self.browse(f"--window-size={width},1000", f"--screenshot={picture}", "/")
            self.assertGreater(os.path.getsize(picture), 10_000)
        page = Tags(self.browse("--dump-dom", "/"))
        self.assertIn("receives call 0", page.text)
        for link in page.links:         # a browser saves what is no page, so these are asked for without it
            self.assertEqual(self.get(link)[0], 200, link)


if __name__ == "__main__":
    unittest.main()
