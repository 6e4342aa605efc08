"""Fax machines over a UDP socket: datagrams of UDPTL and packets of ITU-T T.38 (1998), frames of T.30, and a machine of each kind.

Written from the standards, and from nothing of the program: so it is a model beside it. A check sequence is told by the type of a
field, and does not travel (T.38, 7.3.2). A machine runs in a thread of its own, and ends by itself.
"""
import heapq
import select
import socket
import struct
import threading
import time
from typing import NamedTuple

HOST = "127.0.0.1"
# How many of the packets before its own a datagram has.
REDUNDANCY = 3
# Between two packets, and before an answer (T.30, 5.3: 75 ms and 20 more or less), in seconds.
PACKET_SECONDS = 0.01
ANSWER_SECONDS = 0.075
# T.30, 5.4.3: how long a machine waits for a DIS, a command, and the answer to one, in seconds.
T1_SECONDS = 35
T2_SECONDS = 6
T4_SECONDS = 3
MOST_TRIES = 3
# setsockopt(2): the system says when a datagram came, in nanoseconds.
SO_TIMESTAMPNS = 35

# Indicators (T.38, table 3).
CNG, CED, PREAMBLE = 1, 2, 3
# Types of data and of fields (T.38, tables 4 and 5).
V21 = 0
HDLC_DATA, HDLC_SIG_END, FCS_OK, FCS_BAD, FCS_OK_SIG_END, FCS_BAD_SIG_END, IMAGE, IMAGE_SIG_END = range(8)
# Facsimile control fields without the bit X, which says that the calling machine's command was taken (T.30, 5.3.6.1).
DIS, CFR, FTT, MCF, RTN, RTP, DCS, DCN, EOM, MPS, EOP = 0x01, 0x21, 0x22, 0x31, 0x32, 0x33, 0x41, 0x5F, 0x71, 0x72, 0x74
X = 0x80
ADDRESS, FINAL = 0xFF, 0xC8


class Modem(NamedTuple):
    """A rate, its indicators of a long and a short training, its type of data, and its bits of a DCS (T.30, table 2)."""

    rate: int
    long: int
    short: int
    data: int
    bits: tuple


V27_2400 = Modem(2400, 4, 4, 1, ())
V29_9600 = Modem(9600, 7, 7, 4, (11,))
V17_14400 = Modem(14400, 15, 14, 8, (14,))
MODEMS = (V27_2400, V29_9600, V17_14400)
# A DIS: it receives (10), V.27 ter, V.29 and V.17 (11, 12, 14), fine (15), each width (18) and length (20), no least time of a
# row (21 to 23). Bit 16 is the two-dimensional coding.
DIS_BITS = (10, 11, 12, 14, 15, 18, 20, 21, 22, 23)
TWO_D = 16
# The same of one that receives at 2,400 bit/s alone.
SLOW_BITS = tuple(bit for bit in DIS_BITS if bit not in (11, 12, 14))
# Bits of a DCS: the fine resolution, and rows of 2,432 elements (17 and 18: 01).
FINE, W2432 = (15,), (18,)


def field_of(bits, octets=3):
    """A field of a DIS or a DCS with these bits, counted from 1, the first of an octet its least significant one as T.30 prints it,
    and its most significant one in a packet."""
    field = bytearray(octets)
    for bit in bits:
        field[(bit - 1) // 8] |= 0x80 >> (bit - 1) % 8
    return bytes(field)


def has_bit(field, bit):
    """Whether a field has a bit."""
    return bool(field[(bit - 1) // 8] & 0x80 >> (bit - 1) % 8)


# Datagrams (T.38, 9.1).


def counted(octets):
    """Octets after their count (X.691: one octet below 128, or two that begin with the bits 10)."""
    count = len(octets)
    return (bytes([count]) if count < 128 else struct.pack(">H", 0x8000 | count)) + octets


def datagram(number, packets):
    """The datagram of a number: its packet, and those before it, the newest first."""
    octets = struct.pack(">H", number % 65536) + counted(packets[0]) + b"\x00" + bytes([len(packets) - 1])
    return octets + b"".join(counted(packet) for packet in packets[1:])


def read_counted(octets):
    """What octets begin with after its count, and the rest."""
    if octets[0] < 128:
        count, rest = octets[0], octets[1:]
    else:
        count, rest = struct.unpack(">H", octets[:2])[0] & 0x3FFF, octets[2:]
    if len(rest) < count:
        raise ValueError("a datagram that is cut")
    return rest[:count], rest[count:]


def read_datagram(octets):
    """The number of a datagram, and its packets, the newest first."""
    number = struct.unpack(">H", octets[:2])[0]
    primary, rest = read_counted(octets[2:])
    packets = [primary]
    if rest[0] & 0x80:
        raise ValueError("a datagram with FEC")
    count, rest = rest[1], rest[2:]
    for _ in range(count):
        packet, rest = read_counted(rest)
        packets.append(packet)
    return number, packets


# Packets (T.38, 7.2 to 7.4, in the aligned variant of X.691).


def indicator(value):
    """The packet of an indicator."""
    return bytes([value << 1])


def data(kind, *fields):
    """A packet of data: fields of a type, and octets or none."""
    out, half = bytearray([0xC0 | kind << 1, len(fields)]), False
    for field, octets in fields:
        nibble = (8 if octets else 0) | field
        if half:
            out[-1] |= nibble
        else:
            out.append(nibble << 4)
        half = not half
        if octets:
            out += struct.pack(">H", len(octets) - 1) + octets
            half = False
    return bytes(out)


def read_packet(octets):
    """A packet: the value of its indicator and no fields, or its type of data and its fields."""
    kind = octets[0] >> 1 & 0x0F
    if not octets[0] & 0x40:
        return "indicator", kind, []
    fields, half, rest, current = [], False, octets[2:], 0
    for _ in range(octets[1] if octets[0] & 0x80 else 0):
        if not half:
            current, rest = rest[0], rest[1:]
        nibble = current & 15 if half else current >> 4
        half, found = not half, b""
        if nibble & 8:
            count = struct.unpack(">H", rest[:2])[0] + 1
            found, rest, half = rest[2 : 2 + count], rest[2 + count :], False
        fields.append((nibble & 7, found))
    return "data", kind, fields


def frame(fcf, field=b""):
    """The packets of a frame: its preamble, and all of it with a check sequence that is right."""
    octets = bytes([ADDRESS, FINAL, fcf]) + field
    return [indicator(PREAMBLE), data(V21, (HDLC_DATA, octets), (FCS_OK_SIG_END, b""))]


def image(modem, octets, is_long=False):
    """The packets of an image or of a training check: 40 ms of it each."""
    part = modem.rate // 200
    parts = [octets[at : at + part] for at in range(0, len(octets), part)]
    packets = [indicator(modem.long if is_long else modem.short)]
    packets += [data(modem.data, (IMAGE, it)) for it in parts[:-1]]
    return packets + [data(modem.data, (IMAGE_SIG_END, parts[-1]))]


class Heard(NamedTuple):
    """What a machine hears: `what` is "tone", "frame", "image" or "lost"; a frame without its first two octets, and the bit X of its
    third one away; an image with its type of data; whether nothing was lost in it."""

    what: str
    octets: bytes = b""
    kind: int = 0
    is_whole: bool = True


class Ear:
    """Reads the datagrams of a call in their order, and tells what they say. The call begins with the first packet of all: what is left
    of the call before says nothing. `joins`: it begins with the first that comes, since the call may be on."""

    def __init__(self, joins=False):
        self._wanted, self._joins = None, joins
        self._frame, self._image, self._kind, self._is_whole = b"", b"", None, True

    def hear(self, octets):
        """What a datagram says that was not heard yet."""
        number, packets = read_datagram(octets)
        if self._wanted is None:
            if number != len(packets) - 1 and not self._joins:
                return []
            self._wanted = (number - len(packets) + 1) % 65536
        ahead = (number - self._wanted + 32768) % 65536 - 32768
        if ahead < 0:
            return []
        self._wanted += ahead + 1
        told = []
        if ahead >= len(packets):
            self._is_whole, self._frame = False, b""
            told.append(Heard("lost"))
        for packet in reversed(packets[: ahead + 1]):
            told += self._packet(*read_packet(packet))
        return told

    def _packet(self, what, kind, fields):
        if what == "indicator":
            told = self._end_image()
            self._frame, self._kind, self._is_whole = b"", kind if kind > PREAMBLE else None, True
            return told + [Heard("tone", kind=kind)]
        told = []
        for field, octets in fields:
            told += self._v21(field, octets) if kind == V21 else self._signal(kind, field, octets)
        return told

    def _v21(self, field, octets):
        if field == HDLC_DATA:
            self._frame += octets
            return []
        found, self._frame = self._frame, b""
        if field not in (FCS_OK, FCS_OK_SIG_END) or len(found) < 3:
            return []
        fcf = found[2] if found[2] == DIS else found[2] & ~X
        return [Heard("frame", bytes([fcf]) + found[3:])]

    def _signal(self, kind, field, octets):
        self._image += octets
        return self._end_image(kind) if field == IMAGE_SIG_END else []

    def _end_image(self, kind=0):
        found, self._image = self._image, b""
        return [Heard("image", found, kind, self._is_whole)] if found else []


# What becomes of datagrams on their way: a way answers, for the number of a datagram, counted from 0, and its octets, after how many
# seconds it comes, once for each time.


def clear(number, octets):
    """Each comes, once, at once."""
    return [0]


def losing(each):
    """Each so many-th is lost."""
    return lambda number, octets: [] if number % each == each - 1 else [0]


def mended(number, octets):
    """Those of preambles are lost, which the next one, that of the frame, brings back."""
    return [] if read_datagram(octets)[1][0] == indicator(PREAMBLE) else [0]


def repeating(number, octets):
    """Each comes twice."""
    return [0, 0]


def delaying(seconds):
    """Each comes so much later."""
    return lambda number, octets: [seconds]


def reordering(number, octets):
    """Each third comes after the one that follows it."""
    return [1.5 * PACKET_SECONDS] if number % 3 == 1 else [0]


class Leg:
    """A machine's end of a leg: a socket. It numbers and sends packets, and keeps what came, with the moments that the system says,
    in seconds. `peer`, a port of `there`, may be said by the first datagram that comes. `joins`: as of `Ear`."""

    def __init__(self, port=0, peer=None, goes=clear, comes=clear, redundancy=REDUNDANCY, host=HOST, joins=False):
        self.socket = socket.socket(socket.AF_INET, socket.SOCK_DGRAM)
        self.socket.setsockopt(socket.SOL_SOCKET, SO_TIMESTAMPNS, 1)
        self.socket.bind((host, port))
        self.port = self.socket.getsockname()[1]
        self.host, self.there, self.peer = host, host, peer
        # all that came: moment, octets, the port that it came from; what is lost on its way too
        self.came = []
        self._goes, self._comes, self._redundancy, self._joins = goes, comes, redundancy, joins
        self._late, self._count = [], 0
        self.begin()

    def begin(self):
        """Another call begins: packets are numbered from 0 again."""
        self._packets, self._ear = [], Ear(self._joins)

    def send(self, packet):
        """Sends a packet in the next datagram."""
        self._packets.insert(0, packet)
        octets = datagram(len(self._packets) - 1, self._packets[: self._redundancy + 1])
        for seconds in self._goes(len(self._packets) - 1, octets):
            self._put("out", seconds, octets)
        self._act()

    def _put(self, way, seconds, octets):
        self._count += 1
        heapq.heappush(self._late, (time.monotonic() + seconds, self._count, way, octets))

    def _act(self):
        """What has been on its way for long enough is there. It answers what is heard."""
        told = []
        while self._late and self._late[0][0] <= time.monotonic():
            _, _, way, octets = heapq.heappop(self._late)
            if way == "in":
                told += self._ear.hear(octets)
            elif self.peer:
                self.hand(octets)
        return told

    def hand(self, octets):
        """Hands a datagram to the system."""
        self.socket.sendto(octets, (self.there, self.peer))

    def listen(self, seconds):
        """What is heard in so many seconds; it returns at once where something is."""
        end = time.monotonic() + seconds
        while True:
            told = self._act()
            now = time.monotonic()
            if told or now >= end:
                return told
            due = min(end, self._late[0][0]) if self._late else end
            if select.select([self.socket], [], [], max(0, due - now))[0]:
                self._receive()

    def _receive(self):
        try:
            octets, said, _, sender = self.socket.recvmsg(65536, 64)
        except ConnectionError:
            return
        seconds, nanoseconds = struct.unpack("qq", said[0][2])
        if not self.peer:
            self.there, self.peer = sender
        number = len(self.came)
        self.came.append((seconds + nanoseconds / 1e9, octets, sender[1]))
        for late in self._comes(number, octets):
            self._put("in", late, octets)

    def drain(self):
        """Receives what the system has, by now."""
        while select.select([self.socket], [], [], 0)[0]:
            self._receive()

    def close(self):
        self.socket.close()


class Hidden(Exception):
    """Nothing came for as long as a machine waits, or the peer is gone."""


class Machine(threading.Thread):
    """A machine at a leg, in a thread of its own. `leaves_out`: of each of these answers so many are not given, the first ones. `pace`:
    the seconds between two packets. `fault`: what went wrong in the thread."""

    def __init__(self, leg, leaves_out=None, pace=PACKET_SECONDS):
        super().__init__(daemon=True)
        self.leg, self.pace = leg, pace
        self.fault, self.is_told_to_stop = None, False
        self._leaves_out = dict(leaves_out or {})
        # the frames that were heard, and what else was
        self.frames, self._waiting = [], []

    def run(self):
        try:
            self.call()
        except Hidden:
            pass
        except Exception as fault:  # told to who ends the machine
            self.fault = fault

    def end(self, within=60):
        """Waits for its end, and sees that nothing went wrong in it."""
        self.join(within)
        alive, self.is_told_to_stop = self.is_alive(), True
        self.join(5)
        self.leg.close()
        if self.fault:
            raise self.fault
        if alive:
            raise AssertionError("a machine has not ended")

    def stop(self):
        """It is gone, in the middle of what it does."""
        self.is_told_to_stop = True
        self.join(5)
        self.leg.close()

    def __enter__(self):
        self.start()
        return self

    def __exit__(self, *_):
        self.stop()

    def next(self, seconds):
        """What is heard next; None where nothing is for so long."""
        end = time.monotonic() + seconds
        while not self._waiting:
            if self.is_told_to_stop:
                raise Hidden
            if time.monotonic() >= end:
                return None
            self._waiting += self.leg.listen(min(0.05, max(0, end - time.monotonic())))
        heard = self._waiting.pop(0)
        if heard.what == "frame":
            self.frames.append(heard.octets)
        return heard

    def pause(self, seconds):
        """Lets time go by; what comes meanwhile is kept."""
        end = time.monotonic() + seconds
        while (now := time.monotonic()) < end:
            self._waiting += self.leg.listen(end - now)

    def send(self, packets):
        for packet in packets:
            self.leg.send(packet)
            self.pause(self.pace)

    def say(self, fcf, field=b""):
        """Sends a frame after the pause that T.30 wants; or leaves it out."""
        left = self._leaves_out.get(fcf & ~X if fcf != DIS else fcf, 0)
        if left:
            self._leaves_out[fcf & ~X if fcf != DIS else fcf] = left - 1
            return
        self.pause(ANSWER_SECONDS)
        self.send(frame(fcf, field))


class Calling(Machine):
    """A machine that calls and sends pages, each the text of one by T.4, with the bits of its format in a DCS.

    `commands`: what stands after each page; MPS, and EOP after the last one, where nothing is said; None: it is gone, without a word.
    `confirmed`: how many pages an MCF answered. `at_mcf`: what is done as soon as one is heard. `t1`, `t4`: how long it waits for a
    DIS and for an answer, in seconds; for an answer it asks three times. `hangs_up`: it says DCN at the end.
    """

    def __init__(self, leg, pages, bits=(), commands=None, t1=T1_SECONDS, t4=T4_SECONDS, hangs_up=True, at_mcf=None, **more):
        super().__init__(leg, **more)
        self.pages, self.bits, self.modem = pages, bits, V27_2400
        self.commands = commands or [MPS] * (len(pages) - 1) + [EOP]
        self.confirmed, self.answers, self.hears_dis = 0, [], False
        self._hangs_up, self._at_mcf = hangs_up, at_mcf
        self._t1, self._t4 = t1, t4

    def call(self):
        self.leg.send(indicator(CNG))
        self.hears_dis = self.await_frame((DIS,), self._t1) is not None
        if not self.hears_dis:
            raise Hidden
        self.train()
        for page, command in zip(self.pages, self.commands):
            self.send(image(self.modem, page))
            if command is None:
                raise Hidden
            self.answers.append(self.ask(command))
            if self.answers[-1] != MCF:
                break
            self.confirmed += 1
            if command == EOM:
                self.await_frame((DIS,), self._t1)
                self.train()
        if self._hangs_up:
            self.say(DCN | X)
        # so that what is delayed goes out
        self.pause(0.2)

    def await_frame(self, wanted, seconds):
        """The next of these frames."""
        end = time.monotonic() + seconds
        while (heard := self.next(max(0, end - time.monotonic()))) is not None:
            if heard.what == "frame" and heard.octets[0] in wanted:
                return heard.octets
            if heard.what == "frame" and heard.octets[0] == DCN:
                raise Hidden
        return None

    def train(self):
        """DCS and the training check, until CFR comes."""
        for _ in range(MOST_TRIES):
            self.say(DCS | X, field_of(self.modem.bits + tuple(self.bits)))
            # 1.5 s of zeros (T.30, 5.3.6.1.4)
            self.send(image(self.modem, bytes(self.modem.rate * 3 // 16), is_long=True))
            answer = self.await_frame((CFR, FTT), self._t4)
            if answer and answer[0] == CFR:
                self.pause(ANSWER_SECONDS)
                return
        raise Hidden

    def ask(self, command):
        """A command after a page, until it is answered: with what."""
        for _ in range(MOST_TRIES):
            self.say(command | X)
            answer = self.await_frame((MCF, RTN), self._t4)
            if answer and answer[0] == MCF and self._at_mcf:
                self._at_mcf()
            if answer:
                self.pause(ANSWER_SECONDS)
                return answer[0]
        raise Hidden


class Called(Machine):
    """A machine that is called by the first datagram that comes, answers `calls` calls, and keeps what it confirms: `pages`, and of
    each the field of its DCS, `formats`, and what stood after it, `commands`. `refuses`: which of the images that come, counted from
    0, it answers with RTN; so it does one in which something is missing. `patience`: how long it waits for what comes next, a page with
    its end."""

    def __init__(self, leg, bits=DIS_BITS, calls=1, within=60, refuses=(), patience=T1_SECONDS, **more):
        super().__init__(leg, **more)
        self.bits, self.calls, self.refuses, self.patience = bits, calls, refuses, patience
        self.pages, self.formats, self.commands = [], [], []
        self._within, self._images = within, 0

    def call(self):
        for _ in range(self.calls):
            self._dcs, self._is_trained, self._image, self._answer = b"", False, None, None
            # what is left of the call before begins no other one
            self.leg.begin()
            while (heard := self.next(self._within)) and heard != Heard("tone", kind=CNG):
                pass
            if heard is None:
                return
            self.leg.send(indicator(CED))
            self.pause(ANSWER_SECONDS)
            self.identify()
            while self.hears(self.next(self.patience)):
                pass

    def identify(self):
        """Says DIS, and again until something comes, for as long as T1."""
        end = time.monotonic() + T1_SECONDS
        while time.monotonic() < end and not self._waiting:
            self.say(DIS, field_of(self.bits))
            heard = self.next(T4_SECONDS)
            if heard:
                self._waiting.insert(0, heard)

    def hears(self, heard):
        """Answers what is heard. Whether the call goes on."""
        if heard is None:
            return False
        if heard.what == "image":
            self.take(heard)
        if heard.what == "frame":
            return self.obey(heard.octets[0], heard.octets[1:])
        return True

    def take(self, heard):
        """A training check after a DCS, or a page."""
        if self._dcs and not self._is_trained:
            rate = next(it.rate for it in MODEMS if it.data == heard.kind)
            # a second of zeros at least
            self._is_trained = heard.is_whole and not any(heard.octets) and len(heard.octets) >= rate // 8
            self.say(CFR if self._is_trained else FTT)
        elif self._is_trained:
            self._image = heard

    def obey(self, fcf, field):
        if fcf == DCN:
            return False
        if fcf == DCS:
            self._dcs, self._is_trained, self._image = field, False, None
        elif fcf in (MPS, EOP, EOM):
            self.confirm(fcf)
        return True

    def confirm(self, command):
        """A command: the image before it is a page, where it is whole; one that comes again is answered as before."""
        if self._image is not None:
            self._answer = MCF if self._image.is_whole and self._images not in self.refuses else RTN
            self._images += 1
            if self._answer == MCF:
                self.pages.append(self._image.octets)
                self.formats.append(self._dcs)
                self.commands.append(command)
            self._image = None
        if self._answer is None:
            return
        self.say(self._answer)
        if self._answer == RTN or command == EOM:
            self._is_trained = False
        if self._answer == MCF and command == EOM:
            self.say(DIS, field_of(self.bits))
