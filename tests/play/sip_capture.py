"""A capture of calls over SIP, read by tshark: it has to know what each datagram is, and to find none that is malformed."""
import collections
import signal
import subprocess
import time

from networks import Networks
from sip_calls import KINDS, many_calls

PORTS = 25000
# How many calls of each kind are captured, and how many rows the least page has: an image of one packet, which T.38 allows, is one that
# tshark finds no begin of.
COUNT, LEAST = 3, 100
# What tshark has to find: messages, descriptions, packets of audio, datagrams of UDPTL with T.38 in them.
WANTED = ("sip", "sdp", "rtp", "t38")


def read(path, wanted, *fields):
    """The fields of each packet of a capture that is wanted. SIP is spoken at a port of its own."""
    words = ["tshark", "-n", "-r", str(path), "-d", f"udp.port=={PORTS},sip", "-Y", wanted, "-T", "fields"]
    for field in fields:
        words += ["-e", field]
    told = subprocess.run(words, capture_output=True, text=True, timeout=300, check=True).stdout
    return [line.split("\t") for line in told.splitlines()]


class Capturing:
    """All datagrams of this network are written into a file."""

    def __init__(self, path):
        self.path = path

    def __enter__(self):
        words = ["tcpdump", "-i", "lo", "-n", "-U", "-B", "16384", "-Z", "root", "-w", str(self.path), "udp"]
        self.process = subprocess.Popen(words, stderr=subprocess.PIPE, text=True)
        time.sleep(2)
        return self

    def __exit__(self, *_):
        time.sleep(1)
        self.process.send_signal(signal.SIGINT)
        told = self.process.communicate(timeout=30)[1]
        # how many the system could not hand over
        self.dropped = next((int(line.split()[0]) for line in told.splitlines() if "dropped by kernel" in line), 0)


def repeats_in(path):
    """The packets that have the octets of an earlier one between the same ports: a datagram that is sent again, of which tshark takes the
    end of an image for a second one."""
    earlier, found = set(), set()
    for number, *datagram in read(path, "udp", "frame.number", "udp.srcport", "udp.dstport", "udp.payload"):
        if tuple(datagram) in earlier:
            found.add(number)
        earlier.add(tuple(datagram))
    return found


def judge(path, repeat):
    """What is wrong with a capture of calls of lines with this `repeat`; nothing where all is well. Where none repeats a datagram tshark
    may mark no packet."""
    counts = collections.Counter(name for protocols, in read(path, "udp", "frame.protocols") for name in set(protocols.split(":")))
    told = ", ".join(f"{counts[name]} {name}" for name in WANTED)
    print(f"captured with repeat = '{repeat}': {told}, of {counts['udp']} datagrams", flush=True)
    missing = [name for name in WANTED if not counts[name]]
    if missing:
        return f"tshark finds no {missing[0]}"
    unknown = read(path, "data", "frame.number", "udp.srcport", "udp.dstport")
    if unknown:
        return f"tshark does not know packet {' '.join(unknown[0])} and {len(unknown) - 1} others"
    marked = read(path, "_ws.malformed", "frame.number", "_ws.expert.message")
    repeats = set() if repeat == "none" else repeats_in(path)
    malformed = [packet for packet in marked if packet[0] not in repeats]
    print(f"marked as malformed: {len(marked)}, of which {len(marked) - len(malformed)} are datagrams that are sent again", flush=True)
    return f"tshark finds packet {' '.join(malformed[0])} malformed, and {len(malformed) - 1} others" if malformed else ""


def captured(program, folder):
    """Calls of each kind are captured, where the last datagram of a leg is sent again and where none is. What went wrong; nothing where all
    is well."""
    with Networks() as networks:
        networks.add("calls")
        with networks.inside("calls"):
            faults = [capture(program, folder, repeat) for repeat in ("full", "none")]
    return "\n".join(filter(None, faults))


def capture(program, folder, repeat):
    """The same, in this network, where datagrams are sent again so."""
    path = folder / f"{repeat}.pcap"
    with Capturing(path) as capturing:
        for kind in KINDS:
            fault = many_calls(program, folder, kind, COUNT, False, PORTS, LEAST, repeat)
            if fault:
                return f"{kind}: {fault}"
    if capturing.dropped:
        return f"{capturing.dropped} datagrams are not in the capture"
    return judge(path, repeat)
