"""The machines at both ends of a line, datagram by datagram, as far as plays of the service want them.

Datagrams are those of ITU-T T.38 (UDPTL with redundancy, version 0), frames those of T.30, the page's text that of T.4.
"""
import time

from server import LONGEST

# Packets: tones, signals, and frames in V.21 data.
CED, PREAMBLE, CNG = "04", "06", "02"
CALLER_DCS, FINE_DCS = "c002800005ffc8c100400040", "c002800005ffc8c100420040"
CALLER_EOP = "c002800002ffc8f440"
CALLER_DCN = "c002800002ffc8df40"
CALLED_DIS, FINE_DIS = "c002800005ffc80100400040", "c002800005ffc80100420040"
GATEWAY_DIS = "c002800005ffc80100775e40"
CFR, MCF, RTN = "c002800002ffc82140", "c002800002ffc83140", "c002800002ffc83240"
# V.27ter at 2400 bit/s: the signal before an image, and the training check, of 1 s of zeros, in one packet.
TRAINING = "08"
CHECK = "c201f0012b" + 300 * "00"
# A page of one white row, in one dimension: EOL, the white runs 1728 and 0, and six times EOL (T.4, 4.1).
PAGE = "0014d9a8008008008008008008"
# The same page as it is sent on at 2400 bit/s to a machine that wants 20 ms a row: each line has 48 bits, with T.4's fill.
PAGE_SENT = "0014d9a80000001001001001001001"
# The field that has the last octets of an image: its type is 7.
LAST_FIELD = "f0"


def image(text):
    """The packet of an image that has this text, its end with it."""
    octets = bytes.fromhex(text)
    return "c201f0" + f"{len(octets) - 1:04x}" + text


def image_part(octets):
    """The packet of these octets of an image that goes on."""
    return f"c201e0{len(octets) - 1:04x}{octets.hex()}"


def length_octets(length):
    """A length as a datagram has it: one octet below 128, else two (X.691, 10.9)."""
    return bytes([length]) if length < 128 else bytes([0x80 | length >> 8, length & 0xFF])


def datagram(number, packet):
    """The datagram of this number that has a packet, and none before it."""
    octets = bytes.fromhex(packet)
    return number.to_bytes(2, "big") + length_octets(len(octets)) + octets + b"\0\0"


def take(octets, at):
    """The packet that stands at a place, as hex, and the place after it."""
    length, at = octets[at], at + 1
    if length & 0x80:
        length, at = (length & 0x7F) << 8 | octets[at], at + 1
    return octets[at : at + length].hex(), at + length


class Datagram:
    """A datagram: its number, its own packet, and those before it, the newest first."""

    def __init__(self, octets):
        self.number = int.from_bytes(octets[:2], "big")
        self.packet, at = take(octets, 2)
        assert octets[at] == 0, "no datagram with redundancy"
        self.earlier, count, at = [], octets[at + 1], at + 2
        for _ in range(count):
            packet, at = take(octets, at)
            self.earlier.append(packet)
        assert at == len(octets), "octets after a datagram"


class Machine:
    """What both machines have: a peer's socket, the packets that came, and the number of the next datagram that is sent."""

    def __init__(self, peer):
        self.peer = peer
        self.begin_anew()

    def begin_anew(self):
        """A call begins, whose datagrams are counted from 0; what is left of one before it is passed over."""
        self.sent, self.newest = 0, None
        # each datagram that came, once, and when, in seconds
        self.came = []

    def forget(self):
        """The same before the call is rung; what came and was not heard is dropped."""
        self.peer.forget()
        self.begin_anew()

    def send(self, *packets):
        """Sends packets, a datagram each."""
        for packet in packets:
            self.peer.send(datagram(self.sent, packet))
            self.sent += 1

    def next(self, end):
        """The next packet that had not come; one that is sent again is passed over."""
        while True:
            octets = self.peer.hear(max(0, end - time.monotonic()))
            if octets is None:
                return None
            came = Datagram(octets)
            if came.number == 0 if self.newest is None else came.number > self.newest:
                self.newest = came.number
                self.came.append((time.monotonic(), came))
                return came.packet

    def wait_for(self, *packets, within=LONGEST):
        """Waits until one of these packets comes, and gives it."""
        end = time.monotonic() + within
        while (packet := self.next(end)) is not None:
            if packet in packets:
                return packet
        raise AssertionError(f"none of {packets} came, but {self.packets()}")

    def next_within(self, seconds):
        """The next packet; None where none comes in so many seconds."""
        return self.next(time.monotonic() + seconds)

    def packets(self):
        """The packets that came."""
        return [came.packet for _, came in self.came]


class Caller(Machine):
    """A machine that calls, and sends a page; its DCS says whether the page is fine."""

    dcs = CALLER_DCS

    def train(self):
        """Waits until it may send a page."""
        self.wait_for(GATEWAY_DIS)
        self.check()

    def check(self):
        """Says how it sends, and has its training check confirmed."""
        self.send(self.dcs, TRAINING, CHECK)
        self.wait_for(CFR)

    def send_page(self, text=PAGE):
        """Sends a page, the last one, and gives what it is answered."""
        self.send(TRAINING, image(text), PREAMBLE, CALLER_EOP)
        return self.wait_for(MCF, RTN)

    def call(self, text=PAGE):
        """A whole call; it gives what the page is answered."""
        self.train()
        answer = self.send_page(text)
        self.send(PREAMBLE, CALLER_DCN)
        return answer


class Called(Machine):
    """A machine that is called, and takes a page; its DIS says whether the page may be fine, and at which rate, whose packets begin so."""

    dis, data = CALLED_DIS, "c201"

    def answer(self):
        """Waits until it is called, and says what it can: 2400 bit/s alone."""
        self.wait_for(CNG)
        self.send(CED, PREAMBLE, self.dis)

    def confirm_check(self):
        """Waits for the training check, and confirms it."""
        self.wait_for_image()
        self.send(PREAMBLE, CFR)

    def wait_for_image(self, within=LONGEST):
        """Waits for the end of an image, and gives its octets as hex."""
        end, octets = time.monotonic() + within, ""
        while (packet := self.next(end)) is not None:
            if packet.startswith(self.data):
                octets += packet[10:]
                if packet[4:6] == LAST_FIELD:
                    return octets
        raise AssertionError(f"no image has come to its end: {self.packets()}")

    def take_page(self):
        """A whole call; it gives the text of the page as hex."""
        self.answer()
        return self.take_page_behind_dis()

    def take_page_behind_dis(self):
        """What follows once it has said what it can; it gives the text of the page as hex."""
        self.confirm_check()
        text = self.wait_for_image()
        self.wait_for(CALLER_EOP)
        self.send(PREAMBLE, MCF)
        self.wait_for(CALLER_DCN)
        return text
