"""TIFF files of class F, by TIFF 6.0 and RFC 2306: written from these, and from nothing of the program."""
import struct
from typing import NamedTuple

import t4

# Tags (TIFF 6.0, section 8 and 11; RFC 2306), and the types of values.
WIDTH, LENGTH, BITS, COMPRESSION, WHITE_IS_0, FILL_ORDER, PLACES = 256, 257, 258, 259, 262, 266, 273
SAMPLES, ROWS_A_STRIP, COUNTS, ACROSS, DOWN, OPTIONS, UNIT, NUMBER = 277, 278, 279, 282, 283, 292, 296, 297
SHORT, LONG, RATIONAL = 3, 4, 5
FORMS = {SHORT: "H", LONG: "I", RATIONAL: "II"}
INCH = 2


class Page(NamedTuple):
    """A page as a file has it, and its strip without the zero octets at its end."""

    width: int
    height: int
    lines_an_inch: float
    strip: bytes


def strip_of(rows):
    """The lines of rows in one dimension, an EOL before each and none after the last."""
    return t4.octets_of("".join(t4.EOL + t4.row_word(row) for row in rows)).rstrip(b"\0")


def of_rows(rows, lines_an_inch=98):
    return Page(sum(rows[0]), len(rows), lines_an_inch, strip_of(rows))


def reversed_bits(octets):
    return bytes(int(f"{octet:08b}"[::-1], 2) for octet in octets)


def values_of(octets, order, kind, count, field):
    """The values of a field, which has these four octets."""
    form = order + count * FORMS[kind]
    if struct.calcsize(form) <= 4:
        return struct.unpack_from(form, field)
    return struct.unpack_from(form, octets, struct.unpack(order + "I", field)[0])


def read(octets):
    """The pages of a file whose fields are those that class F wants, each with one strip and its number."""
    order = {b"II": "<", b"MM": ">"}[octets[:2]]
    assert struct.unpack_from(order + "H", octets, 2) == (42,)
    (at,) = struct.unpack_from(order + "I", octets, 4)
    pages = []
    while at:
        fields, last = {}, 0
        (count,) = struct.unpack_from(order + "H", octets, at)
        for i in range(count):
            tag, kind, many, field = struct.unpack_from(order + "HHI4s", octets, at + 2 + 12 * i)
            assert tag > last, "tags do not ascend"
            last = tag
            fields[tag] = values_of(octets, order, kind, many, field)
        (at,) = struct.unpack_from(order + "I", octets, at + 2 + 12 * count)
        wanted = {BITS: (1,), COMPRESSION: (3,), WHITE_IS_0: (0,), FILL_ORDER: (1,), SAMPLES: (1,), OPTIONS: (0,), UNIT: (INCH,)}
        assert {tag: fields[tag] for tag in wanted} == wanted
        assert fields[ROWS_A_STRIP] == fields[LENGTH] and fields[NUMBER][0] == len(pages)
        assert fields[ACROSS] == (204, 1)
        (place,), (size,) = fields[PLACES], fields[COUNTS]
        above, below = fields[DOWN]
        pages.append(Page(*fields[WIDTH], *fields[LENGTH], above / below, octets[place : place + size].rstrip(b"\0")))
    return pages


def write(pages, order="<", fill_order=1):
    """A file of these pages: strips first, then directories (TIFF 6.0, section 2)."""
    octets = {"<": b"II", ">": b"MM"}[order] + struct.pack(order + "HI", 42, 0)
    link = 4
    for page in pages:
        place, strip = len(octets), page.strip + b"\0"
        octets += strip if fill_order == 1 else reversed_bits(strip)
        octets += b"\0" * (len(octets) % 2)
        fractions = len(octets)
        octets += struct.pack(order + "IIII", 204, 1, int(page.lines_an_inch), 1)
        at = len(octets)
        fields = [
            (WIDTH, SHORT, page.width), (LENGTH, LONG, page.height), (BITS, SHORT, 1), (COMPRESSION, SHORT, 3), (WHITE_IS_0, SHORT, 0),
            (FILL_ORDER, SHORT, fill_order), (PLACES, LONG, place), (SAMPLES, SHORT, 1), (ROWS_A_STRIP, LONG, page.height),
            (COUNTS, LONG, len(strip)), (ACROSS, RATIONAL, fractions), (DOWN, RATIONAL, fractions + 8), (UNIT, SHORT, INCH),
        ]  # fmt: skip
        octets += struct.pack(order + "H", len(fields))
        for tag, kind, value in fields:
            octets += struct.pack(order + "HHI", tag, kind, 1) + struct.pack(order + ("HH" if kind == SHORT else "I"), value, *[0] * (kind == SHORT))
        octets = octets[:link] + struct.pack(order + "I", at) + octets[link + 4 :]
        link = len(octets)
        octets += bytes(4)
    return octets
