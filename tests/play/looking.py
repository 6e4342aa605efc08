"""`faxgate spool`: what waits in a spool whose files are written here, and beside a server; and pictures of pages that wait."""
import json
import os
import shutil
import subprocess
import tempfile
import unittest

import t4
from playing import PATIENCE, SHORT_T4
from server import LONGEST, Line, program
from spools import FILES, HEADER, OPEN, ROW, OTHER_ROW, SHUT, Spooling, ended, epochs, file_of, kept, page

WIDE = [[2432]]
NONE_OF_ROWS = b"\x00\x00"


def job(state, line, life, call, tag, first, pages, width=1728, resolution="standard"):
    """The line of a job."""
    members = dict(state=state, line=line, life=life, call=call, tag=tag, first=first, pages=pages, width=width, resolution=resolution)
    return json.dumps(members, separators=(",", ":")) + "\n"


def damaged(octets, before, sealed):
    """A file in which the last octet of a record is another: the record after `before`, of so many octets."""
    octets = bytearray(octets)
    octets[len(file_of(*before)) - len(SHUT) + HEADER + 32 + len(sealed) - 1] ^= 1
    return bytes(octets)


# The older file: a call of two pages, between which one of another line came, and a job that ended; the newer one: a call on a line whose
# name stands in no file's name, and one that lacks its second page.
FIRST, SECOND = page(b"a1", 1, 0, 1, kept(ROW), False, b"tag-1"), page(b"a1", 1, 0, 2, kept(OTHER_ROW), True, b"tag-1")
BETWEEN = page(b"a2", 1, 0, 1, kept(ROW), tag=b"tag-2")
OLDER = [*epochs(1), FIRST, BETWEEN, SECOND]
SLASH = page(b"a/2 \xc3\xa4", 2, 3, 1, kept(WIDE), width=2, fine=True)
TORN = [page(b"a3", 2, 0, number, kept(ROW), number == 3, b"torn") for number in (1, 2, 3)]
NEWER = [*epochs(2), ended(b"a2", 1, 0, 1, 1, 1), SLASH, *TORN]
DAMAGED = damaged(file_of(*NEWER), NEWER[:5], TORN[1])
LISTED = [
    job("waits", "a1", 1, 0, "tag-1", 1, 2),
    job("waits", "a/2 \u00e4", 2, 3, None, 1, 1, 2432, "fine"),
    job("torn", "a3", 2, 0, "torn", 1, 2),
]
HARMED = "pages: 1 records damaged, 0 octets passed over\n"


class InASpool(unittest.TestCase):
    """A play in a folder of its own, which has the folder of a spool."""

    def setUp(self):
        self.folder = tempfile.mkdtemp(prefix="faxgate-play-")
        self.addCleanup(shutil.rmtree, self.folder, ignore_errors=True)
        os.mkdir(self.path("spool"))

    def path(self, *names):
        return os.path.join(self.folder, *names)

    def write(self, name, octets):
        with open(self.path("spool", name), "wb") as file:
            file.write(octets)

    def read(self, *names):
        with open(self.path(*names), "rb") as file:
            return file.read()

    def look(self, *words):
        """What the program does with these words: its status, and what it printed and told."""
        ran = subprocess.run(
            [program(), "spool", *words], cwd=self.folder, stdin=subprocess.DEVNULL, capture_output=True, timeout=LONGEST, check=False
        )
        return ran.returncode, ran.stdout.decode(), ran.stderr.decode()

    def pictures(self):
        """What stands in the files that are there beside the spool, by their names."""
        return {name: self.read(name) for name in os.listdir(self.folder) if name != "spool"}


class WhatWaits(InASpool):
    def setUp(self):
        super().setUp()
        self.write("pages-wal", file_of(*OLDER))
        self.write("pages", DAMAGED)

    def test_each_job_has_a_line(self):
        self.assertEqual(self.look("spool"), (0, "".join(LISTED), "faxgate: spool/" + HARMED))
        self.assertEqual((self.read("spool", "pages"), self.read("spool", "pages-wal")), (DAMAGED, file_of(*OLDER)))
        self.assertEqual(sorted(os.listdir(self.path("spool"))), sorted(FILES))

    def test_one_is_chosen(self):
        self.assertEqual(self.look("spool", "a1", "1", "0"), (0, LISTED[0], "faxgate: spool/" + HARMED))
        for none in (("a1", "1", "1"), ("a1", "2", "0"), ("a2", "1", "0")):
            self.assertEqual(self.look("spool", *none), (1, "", "faxgate: spool/" + HARMED + "faxgate: spool: no such job\n"))

    def test_pages_become_pictures(self):
        status, printed, told = self.look("spool", "--pages", "got")
        self.assertEqual((status, printed.count("\n"), told), (0, 3, "faxgate: spool/" + HARMED))
        wanted = {
            "got-a1-1-0-1.pbm": t4.picture(ROW),
            "got-a1-1-0-2.pbm": t4.picture(OTHER_ROW),
            "got-a%2F2%20%C3%A4-2-3-1.pbm": t4.picture(WIDE),
            "got-a3-2-0-1.pbm": t4.picture(ROW),
            "got-a3-2-0-3.pbm": t4.picture(ROW),
        }
        self.assertEqual(self.pictures(), wanted)
        # no file is written over
        status, printed, told = self.look("spool", "--pages", "got")
        self.assertEqual((status, printed), (4, ""))
        self.assertRegex(told, "^faxgate: got-a1-1-0-1.pbm: ")
        self.assertEqual(self.pictures(), wanted)

    def test_those_of_one_job(self):
        status, printed, _ = self.look("spool", "a3", "2", "0", "--pages", "p/q")
        self.assertEqual((status, printed), (4, ""))
        os.mkdir(self.path("p"))
        status, printed, _ = self.look("spool", "a3", "2", "0", "--pages", "p/q")
        self.assertEqual((status, printed), (0, LISTED[2]))
        self.assertEqual(sorted(os.listdir(self.path("p"))), ["q-a3-2-0-1.pbm", "q-a3-2-0-3.pbm"])

    def test_what_is_no_command_line(self):
        for words in ((), ("spool", "a1"), ("spool", "a1", "1"), ("spool", "a1", "1", "x"), ("spool", "a1", "1", "4294967296")):
            status, printed, told = self.look(*words)
            self.assertEqual((status, printed), (2, ""))
            self.assertRegex(told, "^error: ")


class WhatATerminalActsOn(InASpool):
    """Characters that a terminal acts on, or by which it shows others in another order, are escaped as `json` escapes them."""

    def test_tags_and_lines_are_shown_safely(self):
        for text in ("\x1b[2J\x1b]0;it\x07", "\x7f\b\r\n\t\f\x00", "\u009b31m\u0085", "\u202eoge\u202c", "\u00e4\u20ac", "\U0001f4e0", '"\\/'):
            with self.subTest(repr(text)):
                name = text.encode()
                self.write("pages", file_of(*epochs(1), page(name, 1, 0, 1, kept(ROW), tag=name)))
                status, printed, told = self.look("spool")
                self.assertEqual((status, printed, told), (0, job("waits", text, 1, 0, text, 1, 1), ""))
                self.assertTrue(printed[:-1].isprintable() and printed.isascii())


class WhatDoesNot(InASpool):
    def test_a_page_that_means_none_has_no_picture(self):
        self.write("pages", file_of(*epochs(1), page(b"a1", 1, 0, 1, NONE_OF_ROWS, False), page(b"a1", 1, 0, 2, kept(ROW))))
        status, printed, told = self.look("spool", "--pages", "got")
        self.assertEqual((status, printed), (1, job("waits", "a1", 1, 0, None, 1, 2)))
        self.assertEqual(told, "faxgate: got-a1-1-0-1.pbm: the text of this page means none\n")
        self.assertEqual(self.pictures(), {"got-a1-1-0-2.pbm": t4.picture(ROW)})

    def test_one_file_may_be_missing(self):
        self.write("pages-wal", file_of(*OLDER))
        self.assertEqual(self.look("spool")[:2], (0, LISTED[0] + job("waits", "a2", 1, 0, "tag-2", 1, 1)))

    def test_one_folder_may_not(self):
        for name in ("spool", "none"):
            status, printed, told = self.look(name)
            self.assertEqual((status, printed), (4, ""))
            self.assertRegex(told, f"^faxgate: {name}/pages: [^\n]*\n$")

    def test_a_record_under_way_is_nothing(self):
        """Its gate is shut until it stands there whole; and one that was cut is none."""
        whole = file_of(*epochs(1), FIRST, SECOND)
        at = len(file_of(*epochs(1), FIRST)) - len(SHUT)
        for octets in (whole[:at] + SHUT + whole[at + len(OPEN) :], whole[:at] + SHUT + whole[at + len(OPEN) : -9]):
            self.write("pages", octets)
            self.assertEqual(self.look("spool"), (0, job("waits", "a1", 1, 0, "tag-1", 1, 1), ""))

    def test_octets_that_are_passed_over_are_told(self):
        whole = bytearray(file_of(*epochs(1), FIRST, SECOND))
        at = len(file_of(*epochs(1), FIRST)) - len(SHUT)
        whole[at + len(OPEN)] = whole[at + len(OPEN) + 4] = 1
        self.write("pages-wal", whole)
        status, printed, told = self.look("spool")
        self.assertEqual((status, printed), (0, job("torn", "a1", 1, 0, "tag-1", 1, 1)))
        self.assertEqual(told, f"faxgate: spool/pages-wal: 0 records damaged, {len(whole) - at} octets passed over\n")


class BesideAServer(Spooling):
    def look(self, server, *words):
        ran = subprocess.run(
            [program(), "spool", *words], cwd=server.folder, stdin=subprocess.DEVNULL, capture_output=True, timeout=LONGEST, check=False
        )
        return ran.returncode, ran.stdout.decode(), ran.stderr.decode()

    def test_it_reads_and_changes_nothing(self):
        """Nothing waits; then a page that was confirmed waits for its call, and is sent once somebody hears it."""
        line = Line(self.ports, called_peer=False)
        server = self.serve(line)
        self.assertEqual(self.look(server, "spool"), (0, "", ""))
        events = server.events()
        machine = self.calling(line, [t4.text(ROW)], t4=SHORT_T4)
        self.assertEqual(server.say("ring a1 tag"), ["ok 0"])
        machine.end()
        events.event("dial", PATIENCE, call=0, tag="tag")
        before = [self.file(server, name) for name in FILES]
        self.assertEqual(self.look(server, "spool", "--pages", "got"), (0, job("waits", "a1", 1, 0, "tag", 1, 1), ""))
        with open(server.path("got-a1-1-0-1.pbm"), "rb") as file:
            self.assertEqual(file.read(), t4.picture(ROW))
        self.assertEqual([self.file(server, name) for name in FILES], before)
        called = self.called(line)
        self.assertEqual(server.say(f"peer a1 called 127.0.0.1:{line.called_peer}"), ["ok"])
        self.jobs(events, ("a1", 0, "tag", 1))
        called.end()
        self.assertEqual(called.pages, [t4.text(ROW)])


if __name__ == "__main__":
    unittest.main()
