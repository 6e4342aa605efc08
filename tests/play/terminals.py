"""`faxgate send` and `faxgate receive`: machines against those of T.38, and against each other, and the files that they read and write."""
import os
import pty
import random
import shutil
import subprocess
import tempfile
import time
import unittest

import t4
import t38
from playing import PAGE, ROWS
from server import Ports, address, finish, program, until

# A page of other two rows.
OTHERS = [[100, 3, 1625], [1720, 8]]
# How the line of a job begins.
STANDARD = "job 0 1728 standard"


def picture_of(seed, rows=12):
    """A picture of rows that differ: long runs of white, with strokes in them."""
    draw = random.Random(seed)
    octets = (draw.randrange(256) if draw.randrange(8) == 0 else 0 for _ in range(216 * rows))
    return b"P4\n1728 %d\n" % rows + bytes(octets)


class InAFolder(unittest.TestCase):
    """A play in a folder of its own, whose runs are ended."""

    def setUp(self):
        self.folder = tempfile.mkdtemp(prefix="faxgate-play-")
        self.addCleanup(shutil.rmtree, self.folder, ignore_errors=True)
        self.ports = Ports()
        self.addCleanup(self.ports.close)

    def path(self, name):
        return os.path.join(self.folder, name)

    def write(self, name, octets):
        with open(self.path(name), "wb") as file:
            file.write(octets)
        return name

    def read(self, name):
        with open(self.path(name), "rb") as file:
            return file.read()

    def pages(self):
        """The names of the pages that were received."""
        return sorted(name for name in os.listdir(self.folder) if name.startswith("got-"))

    def run_program(self, *words, stderr=subprocess.PIPE):
        process = subprocess.Popen(
            [program(), *words], cwd=self.folder, stdin=subprocess.DEVNULL, stdout=subprocess.PIPE, stderr=stderr, text=True
        )
        self.addCleanup(self.end, process)
        return process

    @staticmethod
    def end(process):
        if process.poll() is None:
            process.kill()
        process.communicate()

    def send(self, port, *words, **more):
        return self.run_program("send", "--to", address(port), *words, **more)

    def receive(self, *words, pages="got", calls=1, **more):
        """A run that receives, and its port; its socket is open."""
        port = self.ports.take()
        process = self.run_program("receive", "--on", address(port), "--pages", pages, "--calls", str(calls), *words, **more)
        until(lambda: is_open(port) or process.poll() is not None, what="the port")
        return process, port

    def called(self, **more):
        machine = t38.Called(t38.Leg(comes=more.pop("comes", t38.clear), goes=more.pop("goes", t38.clear)), **more)
        machine.start()
        self.addCleanup(machine.stop)
        return machine

    def calling(self, port, pages=(PAGE,), **more):
        leg = t38.Leg(peer=port, comes=more.pop("comes", t38.clear), goes=more.pop("goes", t38.clear))
        machine = t38.Calling(leg, list(pages), **more)
        machine.start()
        self.addCleanup(machine.stop)
        return machine

    def assert_ended(self, process, status, output, said=""):
        """A run that ends so: `said` stands in the one line of its standard error; nothing does where nothing is said."""
        found, printed, errors = finish(process, 60)
        self.assertEqual((found, printed), (status, output), errors)
        self.assertEqual(errors.count("\n"), 1 if said else 0, errors)
        self.assertIn(said, errors)
        self.assertTrue(not errors or errors.startswith("faxgate: "), errors)


def is_open(port):
    """Whether a datagram socket is bound to this port (proc(5))."""
    with open("/proc/net/udp", encoding="ascii") as table:
        return any(line.split()[1].endswith(f":{port:04X}") for line in table.readlines()[1:])


class PagesAreDelivered(InAFolder):
    def test_from_a_terminal_to_the_other(self):
        """Picture i is page i, with each of its octets, in the coding that both have."""
        pictures = [picture_of(seed) for seed in range(3)]
        receiving, port = self.receive()
        names = [self.write(f"page-{i}.pbm", octets) for i, octets in enumerate(pictures)]
        self.assert_ended(self.send(port, *names), 0, f"{STANDARD} 3 3 Delivered\n")
        self.assert_ended(receiving, 0, "")
        self.assertEqual(self.pages(), ["got-0-1.pbm", "got-0-2.pbm", "got-0-3.pbm"])
        self.assertEqual([self.read(name) for name in self.pages()], pictures)


class ProgressIsTold(InAFolder):
    def test_to_a_screen(self):
        """Where the standard error is a screen, a line is told for each page."""
        (sent, sender), (received, receiver) = self.screen(), self.screen()
        receiving, port = self.receive(stderr=receiver)
        names = [self.write(f"page-{i}.pbm", t4.picture(ROWS)) for i in range(2)]
        sending = self.send(port, *names, stderr=sender)
        self.assertEqual((sending.wait(60), receiving.wait(60)), (0, 0))
        self.assertEqual(os.read(sent, 4096).decode().split("\r\n"), ["delivered: page 1", "delivered: page 2", ""])
        self.assertEqual([line.split()[-1] for line in os.read(received, 4096).decode().splitlines()], ["1", "2"])

    def screen(self):
        """Both ends of a screen: that at which is read, and that to which is written."""
        ends = pty.openpty()
        for end in ends:
            self.addCleanup(os.close, end)
        return ends


class PagesAreSent(InAFolder):
    def test_in_one_dimension(self):
        """To a machine without the two-dimensional coding: DCS asks for none, and each page is the text that T.4 has of it."""
        names = [self.write("one.pbm", t4.picture(ROWS)), self.write("other.pbm", t4.picture(OTHERS))]
        called = self.called()
        self.assert_ended(self.send(called.leg.port, *names), 0, f"{STANDARD} 2 2 Delivered\n")
        called.end()
        self.assertEqual(called.pages, [PAGE, t4.text(OTHERS)])
        self.assertEqual(called.commands, [t38.MPS, t38.EOP])
        self.assertFalse(t38.has_bit(called.formats[0], t38.TWO_D))

    def test_in_two_dimensions(self):
        """To a machine with that coding DCS asks for it."""
        called = self.called(bits=t38.DIS_BITS + (t38.TWO_D,))
        self.assert_ended(self.send(called.leg.port, self.write("one.pbm", t4.picture(ROWS))), 0, f"{STANDARD} 1 1 Delivered\n")
        called.end()
        self.assertTrue(t38.has_bit(called.formats[0], t38.TWO_D))


class DatagramsAreLost(InAFolder):
    def test_sending(self):
        """Each fifth datagram is lost in both directions; the page comes."""
        called = self.called(comes=t38.losing(5), goes=t38.losing(5))
        sending = self.send(called.leg.port, self.write("page.pbm", t4.picture(ROWS)))
        self.assert_ended(sending, 0, f"{STANDARD} 1 1 Delivered\n")
        called.end()
        self.assertEqual(called.pages, [PAGE])

    def test_receiving(self):
        receiving, port = self.receive()
        calling = self.calling(port, comes=t38.losing(5), goes=t38.losing(5))
        calling.end()
        self.assert_ended(receiving, 0, "")
        self.assertEqual((calling.confirmed, self.read("got-0-1.pbm")), (1, t4.picture(ROWS)))


class NobodyAnswers(InAFolder):
    def test_t1_ends_the_call(self):
        """35 s (T.30, 5.4.3.1), and then DCN and its repeats."""
        silent = t38.Leg()
        self.addCleanup(silent.close)
        name, begun = self.write("page.pbm", t4.picture(ROWS)), time.monotonic()
        self.assert_ended(self.send(silent.port, name), 5, f"{STANDARD} 1 0 NoAnswer\n", "0 of 1 pages")
        self.assertTrue(35 <= time.monotonic() - begun < 45, time.monotonic() - begun)


class CallsThatFail(InAFolder):
    def test_a_called_machine_refuses(self):
        """One that does not receive (bit 10 of its DIS)."""
        called = self.called(bits=tuple(bit for bit in t38.DIS_BITS if bit != 10))
        sending = self.send(called.leg.port, self.write("page.pbm", t4.picture(ROWS)))
        self.assert_ended(sending, 5, f"{STANDARD} 1 0 NotReceiver\n", "0 of 1 pages")
        called.end()
        self.assertEqual(called.pages, [])

    def test_a_run_that_is_killed(self):
        """In the middle of its call it prints no job."""
        sending = self.send(self.ports.take(), self.write("page.pbm", t4.picture(ROWS)))
        time.sleep(1)
        sending.kill()
        self.assertEqual(finish(sending), (-9, "", ""))

    def test_a_page_is_refused(self):
        """A page that is refused once is sent again."""
        called = self.called(refuses=(0,))
        sending = self.send(called.leg.port, self.write("page.pbm", t4.picture(ROWS)))
        self.assert_ended(sending, 0, f"{STANDARD} 1 1 Delivered\n")
        called.end()
        self.assertEqual(called.pages, [PAGE])


class PagesAreReceived(InAFolder):
    def test_calls_behind_one_another(self):
        """Each page is written whole, and no file is written over: a call has the first number of which no page is there."""
        kept = b"another page"
        self.write("got-1-1.pbm", kept)
        receiving, port = self.receive(calls=2)
        for pages in ([PAGE], [t4.text(OTHERS), PAGE]):
            calling = self.calling(port, pages)
            calling.end()
            self.assertEqual(calling.confirmed, len(pages))
        self.assert_ended(receiving, 0, "")
        self.assertEqual(self.pages(), ["got-0-1.pbm", "got-1-1.pbm", "got-2-1.pbm", "got-2-2.pbm"])
        found = [self.read(name) for name in self.pages()]
        self.assertEqual(found, [t4.picture(ROWS), kept, t4.picture(OTHERS), t4.picture(ROWS)])

    def test_a_page_is_not_kept(self):
        """Where it cannot be written, it is not confirmed: the run ends with what went wrong."""
        receiving, port = self.receive(pages="missing/got")
        calling = self.calling(port, t4=1)
        self.assert_ended(receiving, 4, "", "missing/got-0-1.pbm: ")
        calling.end()
        self.assertEqual((calling.confirmed, calling.answers), (0, []))
        self.assertNotIn(t38.MCF, [frame[0] for frame in calling.frames])

    def test_a_call_is_cut_off(self):
        """Before the end of its page: nothing is written, nothing is confirmed, and the call is over 6 s later (T2)."""
        receiving, port = self.receive()
        calling = self.calling(port, [PAGE], commands=[None])
        self.assert_ended(receiving, 0, "")
        self.assertEqual((self.pages(), calling.confirmed), ([], 0))
        self.assertNotIn(t38.MCF, [frame[0] for frame in calling.frames])


class PicturesAreRead(InAFolder):
    # heads of pictures (pbm(5)), how many zeros stand after them, and what is told
    FAULTS = [
        (b"P4\n1728\n", 216, "no P4 picture"),
        (b"P4\n1728 -1\n", 216, "no P4 picture"),
        (b"P4\n# no line ends 1728 1", 216, "no P4 picture"),
        (b"P4\n1728 1#c\n", 216, "no P4 picture"),
        (b"P4\n1729 1\n", 217, "a width that no page has"),
        (b"P4\n4294969024 1\n", 216, "a width that no page has"),
        (b"P4\n1728 0\n", 0, "no rows, or too many"),
        (b"P4\n1728 65536\n", 216, "no rows, or too many"),
        (b"P4\n1728 18446744073709551617\n", 216, "no rows, or too many"),
        (b"P4\n1728 2\n", 431, "a picture that is cut"),
        (b"P4\n1728 2\n", 433, "more than one picture"),
        # no picture, so hex text
        (b"", 0, "no picture, and no page: "),
        (b"P1\n1728 1\n", 216, "neither a picture nor hex text"),
    ]
    # those that are read, with the width and the rows of each
    HEADS = [
        (b"P4\n1728 1\n", 216, (1728, 1)),
        # the first octet of the raster is a white space
        (b"P4 1728 1\n\n", 215, (1728, 1)),
        (b"P4\n# CREATOR: GIMP PNM Filter Version 1.1\n2048 2\n", 512, (2048, 2)),
        (b"P4#a\r \t#1728 3\n02432#b\n\r1 ", 304, (2432, 1)),
    ]

    def test_heads_with_faults(self):
        """The files are read before the call."""
        silent = t38.Leg()
        self.addCleanup(silent.close)
        for head, zeros, said in self.FAULTS:
            with self.subTest(head=head, zeros=zeros):
                name = self.write("page.pbm", head + bytes(zeros))
                self.assert_ended(self.send(silent.port, name), 1, "", f"page.pbm: {said}")
        silent.drain()
        self.assertEqual(silent.came, [])

    def test_heads(self):
        """Pages of three widths: EOM stands where the next one has another."""
        receiving, port = self.receive()
        names = [self.write(f"page-{i}.pbm", head + bytes(zeros)) for i, (head, zeros, _) in enumerate(self.HEADS)]
        self.assert_ended(self.send(port, *names), 0, f"{STANDARD} 4 4 Delivered\n")
        self.assert_ended(receiving, 0, "")
        found = [self.read(name).split(b"\n", 2) for name in self.pages()]
        self.assertEqual([tuple(map(int, size.split())) for _, size, _ in found], [size for _, _, size in self.HEADS])
        # "\n" is one octet of the raster of the second page
        wanted = [bytes(216), b"\n" + bytes(215), bytes(512), bytes(304)]
        self.assertEqual([raster for _, _, raster in found], wanted)


if __name__ == "__main__":
    unittest.main()
