"""A SIP peer over UDP, as a trunk is: messages of RFC 3261, offers and answers of SDP (RFC 4566, RFC 3264, ITU-T T.38 annex D), digest
(RFC 7616), and packets of RTP (RFC 3550). Written from the standards, and from nothing of the program.
"""
import hashlib
import itertools
import re
import select
import socket
import struct
import time

HOST = "127.0.0.1"
LONGEST = 30
_COUNT = itertools.count(1)


def token():
    """A name that no other one has."""
    return f"{next(_COUNT)}x{time.monotonic_ns():x}"


class Message:
    """A message: its first line, its header fields in their order, and its body."""

    def __init__(self, first, fields, body=b""):
        self.first, self.fields, self.body = first, list(fields), body

    @classmethod
    def read(cls, octets):
        head, _, body = octets.partition(b"\r\n\r\n")
        lines = head.decode(errors="replace").split("\r\n")
        fields = []
        for line in lines[1:]:
            name, _, value = line.partition(":")
            fields.append((name.strip(), value.strip()))
        return cls(lines[0], fields, body)

    def octets(self):
        """The message as it is sent."""
        fields = [(name, value) for name, value in self.fields if name != "Content-Length"]
        fields.append(("Content-Length", str(len(self.body))))
        head = "\r\n".join([self.first] + [f"{name}: {value}" for name, value in fields])
        return head.encode() + b"\r\n\r\n" + self.body

    def all(self, name):
        """The values of a field."""
        return [value for it, value in self.fields if it.lower() == name.lower()]

    def one(self, name):
        """The first value of a field; None where there is none."""
        return next(iter(self.all(name)), None)

    @property
    def is_answer(self):
        return self.first.startswith("SIP/2.0 ")

    @property
    def status(self):
        return int(self.first.split()[1])

    @property
    def method(self):
        return self.first.split()[0]

    @property
    def target(self):
        return self.first.split()[1]

    @property
    def cseq(self):
        number, method = self.one("CSeq").split()
        return int(number), method

    def tag(self, name):
        """The tag of a From or a To."""
        found = re.search(r";tag=([^;>\s]+)", self.one(name))
        return found and found.group(1)

    def contact(self):
        """The address of its Contact."""
        return re.search(r"<([^>]+)>", self.one("Contact")).group(1)


def user_of(uri):
    """The user of an address."""
    return re.match(r"<?sips?:([^@>;]+)@", uri).group(1)


# Offers and answers.


def session(media, host=HOST):
    """A description with these lines of media."""
    head = ["v=0", f"o=- {time.monotonic_ns()} 1 IN IP4 {host}", "s=-", f"c=IN IP4 {host}", "t=0 0"]
    return "".join(f"{line}\r\n" for line in head + media).encode()


def fax_offer(port, octets=None, host=HOST):
    """T.38 at a port of a host, with a bound of a datagram's octets or without."""
    bound = [f"a=T38FaxMaxDatagram:{octets}"] if octets else []
    return session(
        [f"m=image {port} udptl t38", "a=T38FaxVersion:0", "a=T38MaxBitRate:14400", "a=T38FaxRateManagement:transferredTCF"]
        + bound
        + ["a=T38FaxUdpEC:t38UDPRedundancy"],
        host,
    )


def audio_offer(port, payload=0):
    """Audio at a port, in PCMU (0) or PCMA (8)."""
    name = {0: "PCMU", 8: "PCMA"}[payload]
    return session([f"m=audio {port} RTP/AVP {payload}", f"a=rtpmap:{payload} {name}/8000"])


def media_of(body):
    """What a description has: the kind, the port and the formats of each line of media."""
    lines = [line.split() for line in body.decode().split("\r\n") if line.startswith("m=")]
    return [(line[0][2:], int(line[1]), line[3:]) for line in lines]


def port_of(body, kind):
    """The port of a kind of media; None where it is not there or refused."""
    return next((port for it, port, _ in media_of(body) if it == kind and port), None)


def host_of(body):
    """The host at which a description has its media."""
    return re.search(r"^c=IN IP4 ([^\s/]+)", body.decode(), re.M).group(1)


# Digest.


def digest(user, realm, password, method, uri, fields):
    """What answers a challenge (RFC 7616, 3.4.1), by the algorithm of the credentials."""
    names = {"MD5": hashlib.md5, "SHA-256": hashlib.sha256}
    hashed = lambda text: names[fields.get("algorithm", "MD5")](text.encode()).hexdigest()
    first, second = hashed(f"{user}:{realm}:{password}"), hashed(f"{method}:{uri}")
    return hashed(":".join([first, fields["nonce"], fields["nc"], fields["cnonce"], fields["qop"], second]))


def credentials(value):
    """The fields of credentials."""
    return {name: quoted or plain for name, quoted, plain in re.findall(r'(\w+)=(?:"([^"]*)"|([^,\s]+))', value)}


class Dialog:
    """A dialog: what each request of ours in it has. `routes`: the proxies that stay on its way (RFC 3261, 12.1)."""

    def __init__(self, call_id, ours, theirs, target, number=1, routes=()):
        self.call_id, self.ours, self.theirs, self.target, self.number = call_id, ours, theirs, target, number
        self.routes = list(routes)


class SipPeer:
    """A peer: a socket that SIP comes to and goes from, of a host, and the server's host and port. A datagram that comes again is told
    once."""

    def __init__(self, port, server, host=HOST, there=HOST):
        self.socket = socket.socket(socket.AF_INET, socket.SOCK_DGRAM)
        self.socket.bind((host, port))
        self.host, self.port, self.there, self.server = host, self.socket.getsockname()[1], there, server
        self._seen, self._kept = set(), []
        # every message that came, in its order
        self.came = []

    def close(self):
        self.socket.close()

    # What comes and goes.

    def send(self, message):
        octets = message if isinstance(message, bytes) else message.octets()
        self.socket.sendto(octets, (self.there, self.server))

    def _receive(self, within):
        """The next message that did not come before; None where none comes."""
        end = time.monotonic() + within
        while select.select([self.socket], [], [], max(0, end - time.monotonic()))[0]:
            octets, _ = self.socket.recvfrom(65536)
            if octets in self._seen:
                continue
            self._seen.add(octets)
            message = Message.read(octets)
            self.came.append(message)
            return message
        return None

    def next(self, wanted, within=LONGEST, what="a message"):
        """The next message that is wanted; others are kept for later."""
        for message in self._kept:
            if wanted(message):
                self._kept.remove(message)
                return message
        end = time.monotonic() + within
        while (message := self._receive(max(0, end - time.monotonic()))) is not None:
            if wanted(message):
                return message
            self._kept.append(message)
        raise AssertionError(f"{what} has not come in {within} s; there are {[it.first for it in self.came]}")

    def is_silent(self, within):
        """Whether nothing comes for so long."""
        return self._receive(within) is None

    def request(self, method, within=LONGEST):
        """The next request of a method."""
        return self.next(lambda it: not it.is_answer and it.method == method, within, f"a request {method}")

    def final(self, request, within=LONGEST):
        """The final answer to a request of ours."""
        wanted = lambda it: it.is_answer and it.status >= 200 and it.one("Call-ID") == request.one("Call-ID") and it.cseq == request.cseq
        return self.next(wanted, within, f"a final answer to {request.method}")

    # What is written.

    def via(self):
        return f"SIP/2.0/UDP {self.host}:{self.port};branch=z9hG4bK{token()}"

    def uri(self, user="peer"):
        return f"sip:{user}@{self.host}:{self.port}"

    def make(self, method, dialog, body=b"", more=()):
        """A request of a dialog."""
        fields = [
            ("Via", self.via()),
            ("Max-Forwards", "70"),
            ("From", dialog.ours),
            ("To", dialog.theirs),
            ("Call-ID", dialog.call_id),
            ("CSeq", f"{dialog.number} {method}"),
            ("Contact", f"<{self.uri()}>"),
            *[("Route", it) for it in dialog.routes],
            *more,
        ]
        if body:
            fields.append(("Content-Type", "application/sdp"))
        return Message(f"{method} {dialog.target} SIP/2.0", fields, body)

    def answer(self, request, status, body=b"", reason="Answer", tag=None, more=()):
        """Answers a request."""
        to = request.one("To")
        if ";tag=" not in to and status > 100:
            to += f";tag={tag or token()}"
        fields = [("Via", it) for it in request.all("Via")]
        fields += [("Record-Route", it) for it in request.all("Record-Route")]
        fields += [("From", request.one("From")), ("To", to), ("Call-ID", request.one("Call-ID")), ("CSeq", request.one("CSeq"))]
        fields += [("Contact", f"<{self.uri()}>"), *more]
        if body:
            fields.append(("Content-Type", "application/sdp"))
        answer = Message(f"SIP/2.0 {status} {reason}", fields, body)
        self.send(answer)
        return answer

    # Calls that we begin.

    def invite(self, number, body, more=()):
        """Sends an INVITE for a number, and gives it with its dialog."""
        target = f"sip:{number}@{self.there}:{self.server}"
        dialog = Dialog(token(), f"<{self.uri('4940')}>;tag={token()}", f"<{target}>", target)
        request = self.make("INVITE", dialog, body, more)
        self.send(request)
        return request, dialog

    def ack(self, request, answer, dialog):
        """Acknowledges a final answer to an INVITE: of a 2xx in the dialog, else in its transaction (RFC 3261, 13.2.2.4 and 17.1.1.3)."""
        if answer.status < 300:
            dialog.theirs, dialog.target = answer.one("To"), answer.contact()
            dialog.routes = answer.all("Record-Route")[::-1]
            ack = self.make("ACK", dialog)
        else:
            ack = Message(f"ACK {request.target} SIP/2.0", [("Via", request.one("Via"))] + ack_fields(request, answer))
        self.send(ack)

    def call(self, number, body, within=LONGEST, more=()):
        """An INVITE for a number, and its final answer, acknowledged: its dialog, and the answer."""
        request, dialog = self.invite(number, body, more)
        answer = self.final(request, within)
        self.ack(request, answer, dialog)
        return dialog, answer

    def again(self, dialog, method, body=b"", more=()):
        """A request in a dialog, and its final answer; one to an INVITE is acknowledged."""
        dialog.number += 1
        request = self.make(method, dialog, body, more)
        self.send(request)
        answer = self.final(request)
        if method == "INVITE":
            self.ack(request, answer, dialog)
        return answer

    # Calls that come.

    def take(self, request, body, status=200, more=()):
        """Answers an INVITE with a description: the dialog, once the answer is acknowledged."""
        answer = self.answer(request, status, body, more=more)
        numbered = (request.one("Call-ID"), request.cseq[0])
        is_its = lambda it: not it.is_answer and it.method == "ACK" and (it.one("Call-ID"), it.cseq[0]) == numbered
        self.next(is_its, what="the ACK of our answer")
        return Dialog(request.one("Call-ID"), answer.one("To"), request.one("From"), request.contact(), 1, request.all("Record-Route"))


def ack_fields(request, answer):
    """The fields of the ACK of an answer that is no 2xx."""
    return [
        ("Max-Forwards", "70"),
        ("From", request.one("From")),
        ("To", answer.one("To")),
        ("Call-ID", request.one("Call-ID")),
        ("CSeq", f"{request.cseq[0]} ACK"),
    ]


class Packet:
    """A packet of RTP (RFC 3550, 5.1)."""

    def __init__(self, octets):
        first, second, self.number, self.moment, self.source = struct.unpack(">BBHII", octets[:12])
        self.is_plain, self.marker, self.payload = first == 0x80, bool(second & 0x80), second & 0x7F
        self.samples = octets[12:]


def power_at(samples, frequency, rate=8000):
    """How much of a frequency samples have, by Goertzel's algorithm: 1 is all of their power."""
    import math

    turn = 2 * math.cos(2 * math.pi * frequency / rate)
    before, last = 0.0, 0.0
    for sample in samples:
        before, last = last, sample + turn * last - before
    whole = sum(sample * sample for sample in samples) or 1
    return 2 * (last * last + before * before - turn * last * before) / (len(samples) * whole)


def linear(octet):
    """A sample of PCMU (ITU-T G.711), in 14 bits."""
    octet = ~octet & 0xFF
    size = (((octet & 0x0F) << 1) + 33 << (octet >> 4 & 7)) - 33
    return -size if octet & 0x80 else size
