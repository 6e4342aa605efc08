"""TIFFs of class F, as TIFF 6.0 has them, and as libtiff reads them where it is installed: of `faxgate spool --tiff`, in which all pages
that wait stand, and those that `faxgate send` and `faxgate receive` read and write."""
import ctypes
import ctypes.util
import os
import shutil
import subprocess
import unittest

import t4
import tiff6
from looking import LISTED, NEWER, NONE_OF_ROWS, OLDER, WIDE, InASpool
from playing import OTHER_PAGE, OTHER_ROWS, PAGE, ROWS
from spools import OTHER_ROW, ROW, epochs, file_of, kept, page
from t4 import picture
from t38 import EOM, EOP, MPS
from terminals import STANDARD, InAFolder

# What waits of both files, in the order in which it came: rows, and lines an inch.
WAITING = [(ROW, 98), (OTHER_ROW, 98), (WIDE, 196), (ROW, 98), (ROW, 98), (ROW, 98)]
COMPRESSION_OF_T4, FIRST_BIT_IS_HIGHEST = 3, 1


def libtiff():
    """The library, or a skip that says what is missing."""
    name = ctypes.util.find_library("tiff")
    if name is None:
        raise unittest.SkipTest("libtiff is missing: Debian's libtiff6")
    library = ctypes.CDLL(name)
    library.TIFFOpen.restype = ctypes.c_void_p
    library.TIFFOpen.argtypes = [ctypes.c_char_p, ctypes.c_char_p]
    library.TIFFClose.argtypes = [ctypes.c_void_p]
    library.TIFFReadDirectory.argtypes = [ctypes.c_void_p]
    library.TIFFReadScanline.argtypes = [ctypes.c_void_p, ctypes.c_void_p, ctypes.c_uint32, ctypes.c_uint16]
    return library


def field(library, tiff, tag, kind):
    value = kind(0)
    assert library.TIFFGetField(ctypes.c_void_p(tiff), ctypes.c_uint32(tag), ctypes.byref(value)) == 1, tag
    return value.value


def pages_by_libtiff(path):
    """Each page of a TIFF as a picture, and its lines an inch."""
    library = libtiff()
    tiff = library.TIFFOpen(path.encode(), b"r")
    assert tiff, path
    pages = []
    while True:
        width, height = (field(library, tiff, tag, ctypes.c_uint32) for tag in (tiff6.WIDTH, tiff6.LENGTH))
        assert field(library, tiff, tiff6.COMPRESSION, ctypes.c_uint16) == COMPRESSION_OF_T4
        assert field(library, tiff, tiff6.FILL_ORDER, ctypes.c_uint16) == FIRST_BIT_IS_HIGHEST
        row, rows = ctypes.create_string_buffer(width // 8), b""
        for i in range(height):
            assert library.TIFFReadScanline(tiff, row, i, 0) == 1
            rows += row.raw
        pages.append((b"P4\n%d %d\n" % (width, height) + rows, field(library, tiff, tiff6.DOWN, ctypes.c_float)))
        if library.TIFFReadDirectory(tiff) == 0:
            break
    library.TIFFClose(tiff)
    return pages


def libtiff_tool(*words):
    """A run of a tool of libtiff that has nothing to tell, or a skip that says what is missing."""
    if shutil.which(words[0]) is None:
        raise unittest.SkipTest(f"{words[0]} is missing: Debian's libtiff-tools")
    ran = subprocess.run(words, capture_output=True, check=False, timeout=60, env={**os.environ, "LC_ALL": "C"})
    assert (ran.returncode, ran.stderr) == (0, b""), ran
    return ran.stdout


class OneTiff(InASpool):
    def setUp(self):
        super().setUp()
        self.write("pages", file_of(*OLDER))
        self.write("pages-wal", file_of(*NEWER))

    def test_it_has_the_pages_that_wait_in_their_order(self):
        listed = self.look("spool")
        self.assertEqual(self.look("spool", "--tiff", "all.tif"), listed)
        self.assertEqual(tiff6.read(self.read("all.tif")), [tiff6.of_rows(rows, lines) for rows, lines in WAITING])

    def test_libtiff_reads_them(self):
        self.look("spool", "--tiff", "all.tif")
        self.assertEqual(pages_by_libtiff(self.path("all.tif")), [(picture(rows), lines) for rows, lines in WAITING])

    def test_tiffinfo_tells_nothing_wrong(self):
        self.look("spool", "--tiff", "all.tif")
        self.assertEqual(libtiff_tool("tiffinfo", "-D", self.path("all.tif")).count(b"CCITT Group 3"), len(WAITING))

    def test_tiff2pdf_makes_a_document_of_it(self):
        self.look("spool", "--tiff", "all.tif")
        self.assertEqual(libtiff_tool("tiff2pdf", self.path("all.tif")).count(b"/Type /Page "), len(WAITING))

    def test_what_could_not_be_delivered_stands_after_it(self):
        """And its card is no page."""
        card = page(b"a5", 1, 0, 0, b"\x09" + bytes(16) + b"busy")
        self.write("undelivered", file_of(*epochs(1), page(b"a5", 1, 0, 1, kept(OTHER_ROW)), card))
        self.assertEqual(self.look("spool", "--tiff", "all.tif")[0], 0)
        wanted = [*WAITING, (OTHER_ROW, 98)]
        self.assertEqual(pages_by_libtiff(self.path("all.tif")), [(picture(rows), lines) for rows, lines in wanted])
        self.assertEqual(libtiff_tool("tiffinfo", "-D", self.path("all.tif")).count(b"CCITT Group 3"), len(wanted))

    def test_those_of_one_job(self):
        self.assertEqual(self.look("spool", "a1", "1", "0", "--tiff", "a1.tif"), (0, LISTED[0], ""))
        self.assertEqual(tiff6.read(self.read("a1.tif")), [tiff6.of_rows(ROW), tiff6.of_rows(OTHER_ROW)])

    def test_a_page_that_means_none_is_left_out(self):
        self.write("pages-wal", file_of(*NEWER, page(b"a4", 2, 9, 1, NONE_OF_ROWS)))
        status, _, told = self.look("spool", "--tiff", "all.tif")
        self.assertEqual((status, told), (1, "faxgate: page-a4-2-9-1.pbm: the text of this page means none\n"))
        self.assertEqual(len(tiff6.read(self.read("all.tif"))), len(WAITING))

    def test_of_no_page_none_is_made(self):
        self.write("pages-wal", file_of())
        self.write("pages", file_of(*epochs(1)))
        self.assertEqual(self.look("spool", "--tiff", "all.tif"), (0, "", ""))
        self.write("pages", file_of(*epochs(1), page(b"a4", 1, 9, 1, NONE_OF_ROWS)))
        self.assertEqual(self.look("spool", "--tiff", "all.tif")[0], 1)
        self.assertEqual(self.pictures(), {})

    def test_a_file_that_is_there_is_not_written(self):
        with open(self.path("all.tif"), "wb") as file:
            file.write(b"mine")
        status, printed, told = self.look("spool", "--tiff", "all.tif")
        self.assertEqual((status, printed, self.read("all.tif")), (4, "", b"mine"))
        self.assertRegex(told, "^faxgate: all.tif: [^\n]*\n$")

    def test_pictures_are_not_made_beside_it(self):
        status, _, told = self.look("spool", "--tiff", "all.tif", "--pages", "p")
        self.assertEqual((status, self.pictures()), (2, {}))
        self.assertRegex(told, "^error: ")


class TiffsAreSent(InAFolder):
    def test_each_page_in_its_order(self):
        """In either order of octets and of bits, before a picture."""
        last = self.write("last.pbm", t4.picture(ROWS))
        for order, fill_order in (("<", 1), (">", 2)):
            with self.subTest(order=order):
                called = self.called()
                first = self.write("first.tif", tiff6.write([tiff6.of_rows(ROWS), tiff6.of_rows(OTHER_ROWS)], order, fill_order))
                self.assert_ended(self.send(called.leg.port, first, last), 0, f"{STANDARD} 3 3 Delivered\n")
                called.end()
                self.assertEqual((called.pages, called.commands), ([PAGE, OTHER_PAGE, PAGE], [MPS, MPS, EOP]))

    def test_in_the_resolution_that_it_tells(self):
        """Whatever `--fine` says: EOM stands between a page of one and a page of the other."""
        called = self.called()
        name = self.write("page.tif", tiff6.write([tiff6.of_rows(ROWS, 196), tiff6.of_rows(ROWS)]))
        self.assert_ended(self.send(called.leg.port, name), 0, "job 0 1728 fine 2 2 Delivered\n")
        called.end()
        self.assertEqual((called.pages, called.commands), ([PAGE, PAGE], [EOM, EOP]))

    def test_what_libtiff_writes(self):
        """In each coding of T.4, with fill and without, and in a strip a row."""
        own = self.write("own.tif", tiff6.write([tiff6.of_rows(ROWS), tiff6.of_rows(OTHER_ROWS)]))
        for words in ("-c g3:1d", "-c g3:2d", "-c g3:1d:fill", "-c g3:2d:fill -f lsb2msb", "-c g3:2d -r 1", "-c g3:1d -r 1 -B"):
            with self.subTest(words):
                libtiff_tool("tiffcp", *words.split(), self.path(own), self.path("written.tif"))
                called = self.called()
                self.assert_ended(self.send(called.leg.port, "written.tif"), 0, f"{STANDARD} 2 2 Delivered\n")
                called.end()
                self.assertEqual((called.pages, called.commands), ([PAGE, OTHER_PAGE], [MPS, EOP]))

    def test_what_is_none(self):
        """The files are read before the call."""
        right = tiff6.write([tiff6.of_rows(ROWS)])
        coded_otherwise = right.replace(b"\x03\x01\x03\0\x01\0\0\0\x03", b"\x03\x01\x03\0\x01\0\0\0\x04")
        for octets, said in ((right[:4], "a TIFF that is cut"), (coded_otherwise, "a page whose field 259 is not of class F")):
            with self.subTest(said):
                name = self.write("page.tif", octets)
                self.assert_ended(self.send(self.ports.take(), name), 1, "", f"page.tif: {said}")

    def test_more_pages_than_a_job_has(self):
        many = self.write("many.tif", tiff6.write(600 * [tiff6.of_rows(ROW)]))
        self.assert_ended(self.send(self.ports.take(), many, many), 1, "", "no page, or more than 999")


class TiffsAreReceived(InAFolder):
    def test_each_page_is_one(self):
        receiving, port = self.receive("--tiff", calls=2)
        for pages in ([PAGE, OTHER_PAGE], [PAGE]):
            calling = self.calling(port, pages)
            calling.end()
            self.assertEqual(calling.confirmed, len(pages))
        self.assert_ended(receiving, 0, "")
        self.assertEqual(self.pages(), ["got-0-1.tif", "got-0-2.tif", "got-1-1.tif"])
        found = [tiff6.read(self.read(name)) for name in self.pages()]
        self.assertEqual(found, [[tiff6.of_rows(rows)] for rows in (ROWS, OTHER_ROWS, ROWS)])

    def test_libtiff_reads_it(self):
        receiving, port = self.receive("--tiff")
        self.calling(port, [PAGE]).end()
        self.assert_ended(receiving, 0, "")
        self.assertEqual(pages_by_libtiff(self.path("got-0-1.tif")), [(picture(ROWS), 98)])

    def test_its_tools_take_them(self):
        """They are shown, made a PDF, and joined to one fax, which is sent."""
        receiving, port = self.receive("--tiff")
        self.calling(port, [PAGE, OTHER_PAGE]).end()
        self.assert_ended(receiving, 0, "")
        pages = [self.path(name) for name in self.pages()]
        for page_of_call in pages:
            self.assertEqual(libtiff_tool("tiffinfo", "-D", page_of_call).count(b"CCITT Group 3"), 1)
            self.assertTrue(libtiff_tool("tiff2pdf", page_of_call).startswith(b"%PDF-"))
        libtiff_tool("tiffcp", *pages, self.path("fax.tif"))
        called = self.called()
        self.assert_ended(self.send(called.leg.port, "fax.tif"), 0, f"{STANDARD} 2 2 Delivered\n")
        called.end()
        self.assertEqual(called.pages, [PAGE, OTHER_PAGE])

    def test_there_and_back(self):
        """What was received as TIFFs is sent from them."""
        receiving, port = self.receive("--tiff")
        sent = [tiff6.of_rows(ROWS, 196), tiff6.of_rows(OTHER_ROWS)]
        name = self.write("sent.tif", tiff6.write(sent))
        self.assert_ended(self.send(port, name), 0, "job 0 1728 fine 2 2 Delivered\n")
        self.assert_ended(receiving, 0, "")
        self.assertEqual([tiff6.read(self.read(name)) for name in self.pages()], [[page] for page in sent])
        receiving, port = self.receive(pages="back")
        self.assert_ended(self.send(port, *self.pages()), 0, "job 0 1728 fine 2 2 Delivered\n")
        self.assert_ended(receiving, 0, "")
        self.assertEqual([self.read(f"back-0-{i}.pbm") for i in (1, 2)], [picture(ROWS), picture(OTHER_ROWS)])

    def test_one_that_is_not_kept(self):
        """Where it cannot be written, it is not confirmed."""
        receiving, port = self.receive("--tiff", pages="missing/got")
        calling = self.calling(port, t4=1)
        self.assert_ended(receiving, 4, "", "missing/got-0-1.tif: ")
        calling.end()
        self.assertEqual(calling.confirmed, 0)


if __name__ == "__main__":
    unittest.main()
