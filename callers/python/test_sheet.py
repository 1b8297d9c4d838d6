"""The module as its user meets it: sheet A and the estates of the documents, every refusal, buffers of every kind and
any bytes; and its numbers and declarations against include/sheet.h itself."""

import array
import ctypes
import inspect
import os
import pickle
import random
import re
import shutil
import struct
import subprocess
import sys
import tempfile
import threading
import time
import unittest

import sheet
from sheet import NONE, Found, Loaded, Refusal

HERE = os.path.dirname(os.path.abspath(__file__))
REPOSITORY = os.path.join(HERE, os.pardir, os.pardir)


def text_of(*path):
    with open(os.path.join(REPOSITORY, *path), encoding="utf-8") as file:
        return file.read()


def words(*numbers):
    return array.array("I", numbers)


# ---- Document 01's sheet A: rows 1100, 1101, 0000, 0000

RASTER = bytes([1, 1, 0, 0, 1, 1, 0, 1] + 8 * [0])
# fmt: off
TABLE = words(
    NONE, 1, 2, 7, 8, 2,
    0, NONE, NONE, NONE, NONE, 1,
    0, 3, 4, 5, 6, 2,
    2, NONE, NONE, NONE, NONE, 0,
    2, NONE, NONE, NONE, NONE, 0,
    2, NONE, NONE, NONE, NONE, 0,
    2, NONE, NONE, NONE, NONE, 1,
    0, NONE, NONE, NONE, NONE, 0,
    0, NONE, NONE, NONE, NONE, 0,
)
# fmt: on
FILE = b"QS\x02\x09\x00" + b"".join(b"QN" + bytes([kind]) for kind in (2, 1, 2, 0, 0, 0, 1, 0, 0))


class SheetA(unittest.TestCase):
    """Every call on sheet A, with the values that the header's examples and document 01's marked cases give."""

    def test_check(self):
        self.assertEqual(sheet.check(2, TABLE), 9)

    def test_build(self):
        table = words(*57 * [7])
        self.assertEqual(sheet.build(2, RASTER, table), 9)
        self.assertEqual(table, TABLE + words(7, 7, 7))
        self.assertEqual(sheet.build_new(2, RASTER), TABLE)

    def test_decode(self):
        raster = bytearray(16 * [7])
        self.assertIsNone(sheet.decode(2, TABLE, raster))
        self.assertEqual(raster, RASTER)
        self.assertEqual(sheet.decode_new(2, TABLE), RASTER)

    def test_neighbour(self):
        asked = [(1, sheet.E), (1, sheet.S), (1, sheet.SE), (6, sheet.S), (6, sheet.N), (6, sheet.NW), (5, sheet.W)]
        asked += [(5, sheet.SW), (7, sheet.NE)]
        found = [sheet.neighbour(2, TABLE, node, direction) for node, direction in asked]
        wanted = [(2, 1), (7, 1), (8, 1), (8, 1), (4, 0), (3, 0), (1, 1), (7, 1), (2, 1)]
        self.assertEqual(found, [Found(node, level) for node, level in wanted])
        self.assertIsNone(sheet.neighbour(2, TABLE, 1, sheet.NW))
        self.assertEqual([sheet.neighbour(2, TABLE, 0, direction) for direction in range(8)], 8 * [None])

    def test_corner_leaf(self):
        ask = lambda node, side, corner: sheet.corner_leaf(2, TABLE, node, side, corner)
        self.assertEqual(ask(1, sheet.E, sheet.QUADRANT_NE), Found(3, 0))
        self.assertEqual(ask(1, sheet.E, sheet.QUADRANT_SE), Found(5, 0))
        self.assertEqual(ask(1, sheet.S, sheet.QUADRANT_SW), Found(7, 1))
        self.assertEqual(ask(8, sheet.N, sheet.QUADRANT_NW), Found(5, 0))
        self.assertEqual(ask(8, sheet.N, sheet.QUADRANT_NE), Found(6, 0))
        self.assertIsNone(ask(8, sheet.E, sheet.QUADRANT_SE))

    def test_diagonal_leaf(self):
        self.assertEqual(sheet.diagonal_leaf(2, TABLE, 8, sheet.QUADRANT_NW), Found(1, 1))
        self.assertEqual(sheet.diagonal_leaf(2, TABLE, 7, sheet.QUADRANT_NE), Found(5, 0))
        self.assertEqual(sheet.diagonal_leaf(2, TABLE, 6, sheet.QUADRANT_SW), Found(8, 1))
        self.assertIsNone(sheet.diagonal_leaf(2, TABLE, 1, sheet.QUADRANT_NE))

    def test_distance(self):
        distances = words(*9 * [7])
        self.assertIsNone(sheet.distance(2, TABLE, distances))
        self.assertEqual(distances, words(0, 2, 0, 0, 0, 0, 1, 0, 0))

    def test_distance_new(self):
        # Case (j): rows 1110, 1110, 1111, 1111. In preorder NW is node 1, the fork NE node 2, SW node 7, SE node 8.
        table = sheet.build_new(2, bytes([1, 1, 1, 0, 1, 1, 1, 0] + 8 * [1]))
        distances = sheet.distance_new(2, table)
        self.assertEqual((len(distances), distances[1], distances[8]), (9, 4, 2))
        # Case (k): one black pixel.
        self.assertEqual(sheet.distance_new(0, sheet.build_new(0, b"\1")), words(sheet.NO_WHITE))

    def test_ponds(self):
        numbers, register = words(*9 * [7]), words(*12 * [7])
        self.assertEqual(sheet.ponds(2, TABLE, numbers, register), 2)
        self.assertEqual(numbers, words(0, 1, 0, 0, 0, 0, 2, 0, 0))
        self.assertEqual(register, words(4, 0, 1, 0, 1, 1, 1, 1, 3, 3, 7, 7))

    def test_ponds_new(self):
        numbers, register = sheet.ponds_new(2, TABLE)
        self.assertEqual(numbers, words(0, 1, 0, 0, 0, 0, 2, 0, 0))
        self.assertEqual(register, words(4, 0, 1, 0, 1, 1, 1, 1, 3, 3))
        # Three black leaves and one pond: the register is cut to its entry.
        numbers, register = sheet.ponds_new(1, sheet.build_new(1, b"\1\0\1\1"))
        self.assertEqual((numbers, register), (words(0, 1, 0, 1, 1), words(3, 0, 1, 0, 1)))
        self.assertEqual(sheet.ponds_new(0, sheet.build_new(0, b"\0")), (words(0), words()))

    def test_read(self):
        table = words(*57 * [7])
        self.assertEqual(sheet.read(FILE, table), Loaded(count=9, level=2))
        self.assertEqual(table, TABLE + words(7, 7, 7))
        self.assertEqual(sheet.read_new(FILE), (2, TABLE))

    def test_write(self):
        file = bytearray(35 * [7])
        self.assertEqual(sheet.write(2, TABLE, file), 32)
        self.assertEqual(file, FILE + b"\7\7\7")
        self.assertEqual(sheet.write_new(2, TABLE), FILE)

    def test_centre(self):
        place = array.array("d", (7, 7, 7))
        self.assertIsNone(sheet.centre(2, TABLE, 1, 1000.0, 2000.0, 10.0, place))
        self.assertEqual(place, array.array("d", (1005, 1995, 7)))
        # The root's centre lies one and a half pixels from that of the top left pixel, node 6 three to the east and
        # one to the south of it.
        self.assertEqual(sheet.centre_new(2, TABLE, 0, 1000, 2000, 10), (1015.0, 1985.0))
        self.assertEqual(sheet.centre_new(2, TABLE, 6, 1000, 2000, 10), (1030.0, 1990.0))


class Estates(unittest.TestCase):
    """The estates of the examples: their ponds do not touch."""

    def test_two_ponds(self):
        table = sheet.build_new(3, 4 * bytes([1, 1, 1, 1, 0, 0, 1, 1]) + bytes(32))
        self.assertEqual(sheet.check(3, table), 9)
        kind = lambda found: table[found.node * sheet.NODE_WORDS + sheet.TYPE_WORD]
        east = sheet.neighbour(3, table, 1, sheet.E)
        self.assertEqual((east, kind(east)), (Found(2, 2), sheet.GRAY))
        north_east = sheet.corner_leaf(3, table, 1, sheet.E, sheet.QUADRANT_NE)
        self.assertEqual((north_east, kind(north_east)), (Found(3, 1), sheet.WHITE))
        south_east = sheet.corner_leaf(3, table, 1, sheet.E, sheet.QUADRANT_SE)
        self.assertEqual((south_east, kind(south_east)), (Found(5, 1), sheet.WHITE))
        self.assertIsNone(sheet.neighbour(3, table, 1, sheet.W))
        numbers, register = sheet.ponds_new(3, table)
        self.assertEqual(numbers, words(0, 1, 0, 0, 2, 0, 2, 0, 0))
        self.assertEqual(register, words(16, 0, 3, 0, 3, 8, 0, 3, 6, 7))

    def test_three_ponds(self):
        """Counted by hand from the picture: two ponds side by side and a small one below."""
        picture = bytes(int(digit) for digit in "".join(text_of("examples", "ponds.pbm").split("\n")[2:]))
        table = sheet.build_new(4, picture)
        _, register = sheet.ponds_new(4, table)
        self.assertEqual(register, words(67, 1, 9, 0, 8, 33, 2, 9, 11, 15, 8, 12, 14, 6, 9))
        self.assertEqual(sum(picture), 67 + 33 + 8)
        self.assertEqual(sheet.decode_new(4, table), picture)


# ---- Refusals


def marked(kind, length):
    """A buffer of this length whose elements can be told apart."""
    elements = [100 + place % 100 for place in range(length)]
    return bytearray(elements) if kind == "B" else array.array(kind, elements)


def table_with(place, word):
    table = array.array("I", TABLE)
    table[place] = word
    return table


def file_with(place, byte):
    return FILE[:place] + bytes([byte]) + FILE[place + 1 :]


class Refusals(unittest.TestCase):
    """Every refusal, with the value that the header gives it. A buffer lent to be written must come back as it was."""

    def refused(self, code, value, call, *arguments):
        before = [bytes(memoryview(one)) for one in arguments if not isinstance(one, (int, float))]
        with self.assertRaises(Refusal) as raised:
            call(*arguments)
        self.assertEqual((raised.exception.code, raised.exception.value), (code, value))
        after = [bytes(memoryview(one)) for one in arguments if not isinstance(one, (int, float))]
        self.assertEqual(before, after)

    def all_refuse(self, n, table, code, value):
        """Each call that takes a table and no other slice to read, with slices of the right length for sheet A."""
        self.refused(code, value, sheet.check, n, table)
        self.refused(code, value, sheet.decode, n, table, marked("B", 16))
        self.refused(code, value, sheet.neighbour, n, table, 1, sheet.E)
        self.refused(code, value, sheet.corner_leaf, n, table, 1, sheet.E, sheet.QUADRANT_NE)
        self.refused(code, value, sheet.diagonal_leaf, n, table, 1, sheet.QUADRANT_SE)
        self.refused(code, value, sheet.distance, n, table, marked("I", 9))
        self.refused(code, value, sheet.ponds, n, table, marked("I", 9), marked("I", 10))
        self.refused(code, value, sheet.write, n, table, marked("B", 32))
        self.refused(code, value, sheet.centre, n, table, 1, 0.0, 0.0, 1.0, marked("d", 2))

    def all_new_refuse(self, n, table, code, value):
        for call in (sheet.decode_new, sheet.distance_new, sheet.ponds_new, sheet.write_new):
            self.refused(code, value, call, n, table)
        self.refused(code, value, sheet.centre_new, n, table, 1, 0.0, 0.0, 1.0)

    def test_bad_level(self):
        for n in (8, 256 + 2, 2**32 - 1):
            self.all_refuse(n, TABLE, sheet.BAD_LEVEL, 0)
            self.all_new_refuse(n, TABLE, sheet.BAD_LEVEL, 0)
            self.refused(sheet.BAD_LEVEL, 0, sheet.build, n, RASTER, marked("I", 54))
            self.refused(sheet.BAD_LEVEL, 0, sheet.build_new, n, RASTER)
        self.refused(sheet.BAD_LEVEL, 2, sheet.read, file_with(2, 8), marked("I", 54))
        self.refused(sheet.BAD_LEVEL, 2, sheet.read_new, file_with(2, 8))

    def test_bad_length(self):
        for table in (TABLE[:53], words(*(sheet.LONGEST_TABLE + 6) * [0])):
            self.all_refuse(2, table, sheet.BAD_LENGTH, 0)
            self.all_new_refuse(2, table, sheet.BAD_LENGTH, 0)
        self.refused(sheet.BAD_LENGTH, 1, sheet.build, 2, RASTER[:15], marked("I", 54))
        self.refused(sheet.BAD_LENGTH, 1, sheet.decode, 2, TABLE, marked("B", 17))
        self.refused(sheet.BAD_LENGTH, 1, sheet.distance, 2, TABLE, marked("I", 8))
        self.refused(sheet.BAD_LENGTH, 1, sheet.ponds, 2, TABLE, marked("I", 10), marked("I", 10))

    def test_bad_node(self):
        self.all_refuse(2, table_with(3 * 6 + 5, 3), sheet.BAD_NODE, 3)
        self.all_refuse(2, table_with(0, 0), sheet.BAD_NODE, 0)

    def test_too_deep(self):
        self.refused(sheet.TOO_DEEP, 2, sheet.check, 1, TABLE)
        self.refused(sheet.TOO_DEEP, 2, sheet.decode, 1, TABLE, marked("B", 4))
        self.refused(sheet.TOO_DEEP, 2, sheet.write, 1, TABLE, marked("B", 32))
        self.refused(sheet.TOO_DEEP, 7, sheet.read, b"QS\0\1\0QN\2", marked("I", 6))

    def test_needless_fork(self):
        self.all_refuse(2, table_with(6 * 6 + 5, 0), sheet.NEEDLESS_FORK, 2)
        # Node 6 has the last of the four like types: the seventh record, whose type stands at 5 + 3 * 6 + 2.
        self.refused(sheet.NEEDLESS_FORK, 25, sheet.read, file_with(25, 0), marked("I", 54))

    def test_no_such_node(self):
        for node in (9, 2**32 - 1):
            self.refused(sheet.NO_SUCH_NODE, node, sheet.neighbour, 2, TABLE, node, sheet.E)
            self.refused(sheet.NO_SUCH_NODE, node, sheet.corner_leaf, 2, TABLE, node, sheet.E, sheet.QUADRANT_NE)
            self.refused(sheet.NO_SUCH_NODE, node, sheet.diagonal_leaf, 2, TABLE, node, sheet.QUADRANT_NE)
            self.refused(sheet.NO_SUCH_NODE, node, sheet.centre, 2, TABLE, node, 0.0, 0.0, 1.0, marked("d", 2))

    def test_bad_direction(self):
        self.refused(sheet.BAD_DIRECTION, 8, sheet.neighbour, 2, TABLE, 1, 8)
        self.refused(sheet.BAD_DIRECTION, 2**32 - 1, sheet.neighbour, 2, TABLE, 1, 2**32 - 1)
        self.refused(sheet.BAD_DIRECTION, 4, sheet.diagonal_leaf, 2, TABLE, 1, 4)
        self.refused(sheet.BAD_DIRECTION, 5, sheet.corner_leaf, 2, TABLE, 1, sheet.E, 5)
        self.refused(sheet.BAD_DIRECTION, 6, sheet.corner_leaf, 2, TABLE, 1, 6, 5)
        self.refused(sheet.BAD_DIRECTION, 2, sheet.corner_leaf, 2, TABLE, 1, sheet.E, sheet.QUADRANT_SW)

    def test_bad_pixel(self):
        raster = bytearray(RASTER)
        raster[9], raster[5] = 255, 2
        self.refused(sheet.BAD_PIXEL, 5, sheet.build, 2, raster, marked("I", 54))
        self.refused(sheet.BAD_PIXEL, 5, sheet.build_new, 2, raster)

    def test_no_room(self):
        self.refused(sheet.NO_ROOM, 54, sheet.build, 2, RASTER, marked("I", 53))
        self.refused(sheet.NO_ROOM, 54, sheet.read, FILE, marked("I", 53))
        self.refused(sheet.NO_ROOM, 32, sheet.write, 2, TABLE, marked("B", 31))
        self.refused(sheet.NO_ROOM, 10, sheet.ponds, 2, TABLE, marked("I", 9), marked("I", 9))
        self.refused(sheet.NO_ROOM, 2, sheet.centre, 2, TABLE, 1, 0.0, 0.0, 1.0, marked("d", 1))

    def test_bad_ground(self):
        nan, infinite, limit = float("nan"), float("inf"), 16777216.0
        centre = lambda *ground: (sheet.centre, 2, TABLE, 1) + ground + (marked("d", 2),)
        sheet.centre(2, TABLE, 1, limit, -limit, 16384.0, marked("d", 2))
        self.refused(sheet.BAD_GROUND, 0, *centre(nan, nan, 0.0))
        self.refused(sheet.BAD_GROUND, 0, *centre(-limit - 1.0, 0.0, 1.0))
        self.refused(sheet.BAD_GROUND, 1, *centre(0.0, infinite, 0.0))
        self.refused(sheet.BAD_GROUND, 2, *centre(0.0, 0.0, 16385.0))
        self.refused(sheet.BAD_GROUND, 2, *centre(0.0, 0.0, 0.0))

    def test_bad_record(self):
        self.refused(sheet.BAD_RECORD, 0, sheet.read, file_with(0, 0x53), marked("I", 54))
        self.refused(sheet.BAD_RECORD, 6, sheet.read, file_with(6, 0x53), marked("I", 54))
        self.refused(sheet.BAD_RECORD, 7, sheet.read, file_with(7, 3), marked("I", 54))

    def test_file_ends(self):
        for length in range(32):
            self.refused(sheet.FILE_ENDS, length, sheet.read, FILE[:length], marked("I", 54))

    def test_bad_count(self):
        self.refused(sheet.BAD_COUNT, 3, sheet.read, file_with(3, 8), marked("I", 54))
        self.refused(sheet.BAD_COUNT, 32, sheet.read, FILE + b"Q\0", marked("I", 54))

    def test_empty_slices(self):
        self.all_refuse(2, words(), sheet.BAD_LENGTH, 0)
        self.all_new_refuse(2, words(), sheet.BAD_LENGTH, 0)
        self.refused(sheet.BAD_LENGTH, 1, sheet.build, 2, b"", words())
        self.refused(sheet.NO_ROOM, 54, sheet.build, 2, RASTER, words())
        self.refused(sheet.BAD_LENGTH, 0, sheet.decode, 2, words(), bytearray())
        self.refused(sheet.BAD_LENGTH, 1, sheet.decode, 2, TABLE, bytearray())
        self.refused(sheet.BAD_LENGTH, 0, sheet.distance, 2, words(), words())
        self.refused(sheet.BAD_LENGTH, 1, sheet.distance, 2, TABLE, words())
        self.refused(sheet.BAD_LENGTH, 0, sheet.ponds, 2, words(), words(), words())
        self.refused(sheet.BAD_LENGTH, 1, sheet.ponds, 2, TABLE, words(), words())
        self.refused(sheet.NO_ROOM, 10, sheet.ponds, 2, TABLE, marked("I", 9), words())
        self.assertEqual(sheet.ponds(2, words(NONE, NONE, NONE, NONE, NONE, 0), marked("I", 1), words()), 0)
        self.refused(sheet.FILE_ENDS, 0, sheet.read, b"", words())
        self.refused(sheet.NO_ROOM, 54, sheet.read, FILE, words())
        self.refused(sheet.BAD_LENGTH, 0, sheet.write, 2, words(), bytearray())
        self.refused(sheet.NO_ROOM, 32, sheet.write, 2, TABLE, bytearray())
        self.refused(sheet.NO_ROOM, 2, sheet.centre, 2, TABLE, 1, 0.0, 0.0, 1.0, array.array("d"))

    def test_in_words(self):
        refusal = Refusal(sheet.FILE_ENDS, 31)
        self.assertEqual(str(refusal), "a file ends where a byte is needed (code 13, value 31)")
        self.assertEqual(str(Refusal(10, 0)), "a code without a name (code 10, value 0)")
        again = pickle.loads(pickle.dumps(refusal))
        self.assertEqual((again.code, again.value), (refusal.code, refusal.value))


# ---- Lending


class Lending(unittest.TestCase):
    """What the header asks of a caller, and what the module does with a caller who does not keep to it."""

    def test_numbers_beyond_32_bits(self):
        for number in (2**32, 2**32 + 2, 2**64 + 2, -1, -(2**32) + 2):
            for call in (sheet.check, sheet.decode_new, sheet.distance_new, sheet.ponds_new, sheet.write_new):
                self.assertRaises(OverflowError, call, number, TABLE)
            self.assertRaises(OverflowError, sheet.build_new, number, RASTER)
            self.assertRaises(OverflowError, sheet.neighbour, number, TABLE, 1, sheet.E)
            self.assertRaises(OverflowError, sheet.neighbour, 2, TABLE, number, sheet.E)
            self.assertRaises(OverflowError, sheet.neighbour, 2, TABLE, 1, number)
            self.assertRaises(OverflowError, sheet.corner_leaf, number, TABLE, 1, sheet.E, sheet.QUADRANT_NE)
            self.assertRaises(OverflowError, sheet.corner_leaf, 2, TABLE, number, sheet.E, sheet.QUADRANT_NE)
            self.assertRaises(OverflowError, sheet.corner_leaf, 2, TABLE, 1, number, sheet.QUADRANT_NE)
            self.assertRaises(OverflowError, sheet.corner_leaf, 2, TABLE, 1, sheet.E, number)
            self.assertRaises(OverflowError, sheet.diagonal_leaf, number, TABLE, 1, sheet.QUADRANT_SE)
            self.assertRaises(OverflowError, sheet.diagonal_leaf, 2, TABLE, number, sheet.QUADRANT_SE)
            self.assertRaises(OverflowError, sheet.diagonal_leaf, 2, TABLE, 1, number)
            self.assertRaises(OverflowError, sheet.centre_new, number, TABLE, 1, 0, 0, 1)
            self.assertRaises(OverflowError, sheet.centre_new, 2, TABLE, number, 0, 0, 1)

    def test_numbers_of_other_kinds(self):
        self.assertRaises(TypeError, sheet.check, 2.0, TABLE)
        self.assertRaises(TypeError, sheet.check, "2", TABLE)
        self.assertRaises(TypeError, sheet.centre_new, 2, TABLE, 1, "0", 0, 1)
        self.assertRaises(OverflowError, sheet.centre_new, 2, TABLE, 1, 10**400, 0, 1)

    def test_no_buffer(self):
        self.assertRaises(TypeError, sheet.check, 2, list(TABLE))
        self.assertRaises(TypeError, sheet.check, 2, None)
        self.assertRaises(TypeError, sheet.build, 2, RASTER, None)

    def test_wrong_elements(self):
        self.assertRaises(TypeError, sheet.check, 2, TABLE.tobytes())
        for kind in "bhHilLqQfd":
            self.assertRaises(TypeError, sheet.check, 2, array.array(kind, 54 * [0]))
            self.assertRaises(TypeError, sheet.build, 2, RASTER, array.array(kind, 54 * [0]))
        for kind in "hHiIqQfd":
            self.assertRaises(TypeError, sheet.build_new, 2, array.array(kind, 16 * [0]))
            self.assertRaises(TypeError, sheet.decode, 2, TABLE, array.array(kind, 16 * [0]))
        for kind in "BIQf":
            self.assertRaises(TypeError, sheet.centre, 2, TABLE, 1, 0, 0, 1, array.array(kind, 2 * [0]))
        high_byte_first = (ctypes.c_uint32.__ctype_be__ * 54)(*TABLE)
        self.assertRaises(TypeError, sheet.check, 2, high_byte_first)

    def test_other_buffers(self):
        lent = (ctypes.c_uint32 * 54)(*TABLE)
        self.assertEqual(sheet.check(2, lent), 9)
        self.assertEqual(sheet.check(2, memoryview(TABLE)), 9)
        self.assertEqual(sheet.check(2, memoryview(TABLE).toreadonly()), 9)
        self.assertEqual(sheet.check(2, memoryview(TABLE.tobytes()).cast("I")), 9)
        self.assertEqual(sheet.check(2, memoryview(bytearray(TABLE.tobytes())).cast("I")), 9)
        room = (ctypes.c_uint32 * 54)()
        self.assertEqual(sheet.build(2, array.array("b", RASTER), room), 9)
        self.assertEqual(list(room), list(TABLE))
        rows = memoryview(bytearray(16)).cast("B", (4, 4))
        sheet.decode(2, TABLE, rows)
        self.assertEqual(rows.tolist(), [[1, 1, 0, 0], [1, 1, 0, 1], [0, 0, 0, 0], [0, 0, 0, 0]])
        self.assertEqual(sheet.build_new(2, rows), TABLE)
        self.assertEqual(sheet.build_new(2, rows.toreadonly()), TABLE)

    def test_parts_of_a_buffer(self):
        buffer = words(7, 7, *TABLE, 7)
        self.assertEqual(sheet.check(2, memoryview(buffer)[2:56]), 9)
        room = words(*60 * [7])
        self.assertEqual(sheet.build(2, RASTER, memoryview(room)[2:57]), 9)
        self.assertEqual(room, words(7, 7, *TABLE, 7, 7, 7, 7))

    def test_not_contiguous(self):
        every_other = array.array("I", [word for word in TABLE for _ in range(2)])
        self.assertRaises(TypeError, sheet.check, 2, memoryview(every_other)[::2])
        self.assertRaises(TypeError, sheet.check, 2, memoryview(TABLE)[::-1])
        self.assertRaises(TypeError, sheet.decode, 2, TABLE, memoryview(bytearray(32))[::2])
        self.assertRaises(TypeError, sheet.build_new, 2, memoryview(bytes(32))[::2])

    def test_not_aligned(self):
        for offset in (1, 2, 3):
            buffer = bytearray(offset) + bytearray(TABLE.tobytes())
            table = memoryview(buffer)[offset:].cast("I")
            self.assertEqual(sheet.check(2, table), 9)
            self.assertEqual(sheet.check(2, table.toreadonly()), 9)
            self.assertRaises(ValueError, sheet.build, 2, RASTER, table)
            self.assertRaises(ValueError, sheet.distance, 2, TABLE, table[:9])
        place = memoryview(bytearray(20))[4:].cast("d")
        self.assertRaises(ValueError, sheet.centre, 2, TABLE, 1, 0, 0, 1, place)

    def test_overlap(self):
        buffer = bytearray(TABLE.tobytes()) + bytearray(4 * 70)
        view = memoryview(buffer)
        before = bytes(buffer)
        table, after = view[:216].cast("I"), view[216:].cast("I")
        both = view.cast("I")
        # From the first byte, around the last one, and within.
        self.assertRaises(ValueError, sheet.decode, 2, table, view[:16])
        self.assertRaises(ValueError, sheet.decode, 2, table, view[215:231])
        self.assertRaises(ValueError, sheet.decode, 2, table, view[100:116])
        self.assertRaises(ValueError, sheet.distance, 2, table, both[45:54])
        self.assertRaises(ValueError, sheet.distance, 2, table, both[53:62])
        self.assertRaises(ValueError, sheet.write, 2, table, view)
        self.assertRaises(ValueError, sheet.build, 2, view[:16], table)
        self.assertRaises(ValueError, sheet.read, view[215:247], table)
        self.assertRaises(ValueError, sheet.centre, 2, table, 1, 0, 0, 1, view[:16].cast("d"))
        self.assertRaises(ValueError, sheet.ponds, 2, table, after[:9], after[8:18])
        self.assertRaises(ValueError, sheet.ponds, 2, table, after[10:19], after[0:11])
        self.assertRaises(ValueError, sheet.ponds, 2, table, both[50:59], after[10:20])
        self.assertRaises(ValueError, sheet.ponds, 2, table, after[10:19], both[50:60])
        # No call of today reads a slice that stands after one that it writes.
        written, read = sheet._output(view, sheet._Byte), sheet._input(view, sheet._Byte)
        self.assertRaises(ValueError, sheet._ask, print, written, read)
        self.assertEqual(buffer, before)

    def test_side_by_side(self):
        view = memoryview(bytearray(TABLE.tobytes()) + bytearray(4 * 70))
        table, after = view[:216].cast("I"), view[216:].cast("I")
        self.assertEqual(sheet.ponds(2, table, after[:9], after[9:19]), 2)
        self.assertEqual(after[:19].tolist(), [0, 1, 0, 0, 0, 0, 2, 0, 0, 4, 0, 1, 0, 1, 1, 1, 1, 3, 3])
        sheet.decode(2, table, view[216:232])
        self.assertEqual(bytes(view[216:232]), RASTER)
        self.assertRaises(Refusal, sheet.ponds, 2, table, after[:9], after[4:4])

    def test_a_read_only_view_is_a_copy(self):
        buffer = words(*TABLE)
        sheet.distance(2, memoryview(buffer).toreadonly(), memoryview(buffer)[:9])
        self.assertEqual(buffer[:9], words(0, 2, 0, 0, 0, 0, 1, 0, 0))

    def test_refused_buffers_can_grow(self):
        table = words(*6 * [7])
        try:
            sheet.build(2, RASTER, table)
        except Refusal as refusal:
            table.extend((refusal.value - len(table)) * [7])
        self.assertEqual(sheet.build(2, RASTER, table), 9)
        self.assertEqual(table, TABLE)
        file = bytearray()
        try:
            sheet.write(2, table, file)
        except Refusal as refusal:
            file.extend(bytes(refusal.value))
        self.assertEqual(sheet.write(2, table, file), 32)
        file.append(0)
        table.append(0)

    def test_other_threads_wait(self):
        """A thread that would count on during a call must stand still, and so cannot write to what is lent."""
        table = sheet.build_new(7, bytes((x ^ y) & 1 for y in range(128) for x in range(128)))
        numbers, register = words(*len(table) // 6 * [0]), words(*sheet.LONGEST_REGISTER * [0])
        count, running = [0], [True]

        def count_on():
            while running[0]:
                count[0] += 1
                time.sleep(0.0001)

        other = threading.Thread(target=count_on)
        interval = sys.getswitchinterval()
        # From here on nobody is made to give up the lock, and each waits for the other to let go of it.
        sys.setswitchinterval(1000)
        try:
            other.start()
            while count[0] < 10:
                time.sleep(0.001)
            before = count[0]
            for _ in range(10):
                sheet.ponds(7, table, numbers, register)
            after = count[0]
        finally:
            running[0] = False
            other.join()
            sys.setswitchinterval(interval)
        self.assertEqual(after, before)


# ---- Any numbers and any bytes


class Anything(unittest.TestCase):
    def setUp(self):
        self.dice = random.Random(1)

    def word(self, bound):
        """A number below the bound or, one time in eight, any number."""
        return self.dice.randrange(2**32 if self.dice.randrange(8) == 0 else bound)

    def words(self, length, bound):
        return words(*(self.word(bound) for _ in range(length)))

    def bytes(self, length, bound):
        return bytearray(self.dice.randrange(bound) for _ in range(length))

    def ground(self):
        """Any bits, or a number that is in range."""
        if self.dice.randrange(2):
            return self.dice.randrange(1, 16000)
        return struct.unpack("d", self.dice.getrandbits(64).to_bytes(8, "little"))[0]

    def table(self, n, raster):
        """A table of a picture, with or without a wrong word or a wrong length, or of any words."""
        try:
            table = sheet.build_new(n, raster)
        except Refusal:
            table = words()
        way = self.dice.randrange(5)
        if way == 0 and table:
            table[self.dice.randrange(len(table))] = self.word(len(table))
        elif way == 1:
            del table[self.dice.randrange(len(table) + 1) :]
        elif way == 2:
            table = self.words(self.dice.randrange(60), 12)
        return table

    def file(self, n, table):
        """A file of a table, with or without a wrong byte or a wrong length, or of any bytes."""
        try:
            file = sheet.write_new(n, table)
        except Refusal:
            return self.bytes(self.dice.randrange(40), 256)
        way = self.dice.randrange(3)
        if way == 0:
            file[self.dice.randrange(len(file))] = self.dice.randrange(4)
        elif way == 1:
            del file[self.dice.randrange(len(file) + 1) :]
        return file

    def judge(self, call, *arguments):
        """Counts an answer or a refusal; after a refusal every buffer must be as it was."""
        before = [bytes(one) for one in arguments if not isinstance(one, (int, float))]
        counts = self.seen.setdefault(call.__name__, [0, 0])
        try:
            call(*arguments)
            counts[0] += 1
        except Refusal as refusal:
            self.assertNotIn("a code without a name", str(refusal))
            self.assertEqual(before, [bytes(one) for one in arguments if not isinstance(one, (int, float))])
            counts[1] += 1

    def test_every_call(self):
        self.seen = {}
        for _ in range(2000):
            n = self.dice.randrange(4)
            raster = self.bytes(4**n - (self.dice.randrange(8) == 0), 2 + (self.dice.randrange(8) == 0))
            table = self.table(n, raster)
            file = self.file(n, table)
            nodes = len(table) // 6
            n = n if self.dice.randrange(8) else self.word(9)
            short = self.dice.randrange(8) == 0
            node, direction, side, corner = self.word(nodes + 1), self.word(9), self.word(5), self.word(5)
            self.judge(sheet.check, n, table)
            self.judge(sheet.build, n, raster, self.words(self.dice.randrange(512), 9))
            self.judge(sheet.decode, n, table, self.bytes(len(raster), 256))
            self.judge(sheet.neighbour, n, table, node, direction)
            self.judge(sheet.corner_leaf, n, table, node, side, corner)
            self.judge(sheet.diagonal_leaf, n, table, node, corner)
            self.judge(sheet.distance, n, table, self.words(nodes + short, 9))
            register = self.words(self.dice.randrange(5 * nodes + 1), 9)
            self.judge(sheet.ponds, n, table, self.words(nodes + short, 9), register)
            self.judge(sheet.read, file, self.words(self.dice.randrange(512), 9))
            self.judge(sheet.write, n, table, self.bytes(self.dice.randrange(261), 256))
            place = array.array("d", self.dice.randrange(4) * [7])
            self.judge(sheet.centre, n, table, node, self.ground(), self.ground(), self.ground(), place)
        self.assertEqual(len(self.seen), 11)
        for name, (answers, refusals) in self.seen.items():
            self.assertGreater(min(answers, refusals), 50, name)

    def test_there_and_back(self):
        for turn in range(80):
            n = turn % 8
            raster = self.bytes(4**n, 2)
            table = sheet.build_new(n, raster)
            self.assertEqual(sheet.check(n, table), len(table) // 6)
            self.assertEqual(sheet.decode_new(n, table), raster)
            file = sheet.write_new(n, table)
            self.assertEqual(len(file), 5 + len(table) // 2)
            self.assertEqual(sheet.read_new(file), (n, table))


# ---- The header


class Header(unittest.TestCase):
    def setUp(self):
        self.header = re.sub(r"/\*.*?\*/", "", text_of("include", "sheet.h"), flags=re.DOTALL)

    def prototypes(self):
        """Each call of the header with its parameters, each a type, whether it is a pointer, and a name."""
        code = re.sub(r"^#.*", "", self.header, flags=re.MULTILINE)
        calls = {}
        for result, name, parameters in re.findall(r"(\w+)\s+(sheet_\w+)\s*\(([^)]*)\)", code):
            self.assertEqual(result, "uint64_t")
            calls[name] = [
                re.fullmatch(r"\s*((?:const )?\w+) (\*?)(\w+)\s*", one).groups() for one in parameters.split(",")
            ]
        return calls

    def test_every_number(self):
        """A definition with arguments is no number, nor is the guard or the version."""
        defined = dict(re.findall(r"^\s*#\s*define\s+(\w+)(?!\w|\()[ \t]*(.*?)\s*$", self.header, flags=re.MULTILINE))
        self.assertEqual(defined.pop("SHEET_H"), "")
        self.assertEqual(defined.pop("SHEET_VERSION"), '"%s"' % sheet.VERSION)
        wanted = {re.sub("^SHEET_", "", name): int(number.rstrip("u")) for name, number in defined.items()}
        known = {name: number for name, number in vars(sheet).items() if type(number) is int and name[0] != "_"}
        self.assertEqual(known, wanted)

    def test_every_call(self):
        kinds = {"uint8_t": ctypes.c_uint8, "uint32_t": ctypes.c_uint32, "size_t": ctypes.c_size_t}
        kinds["double"] = ctypes.c_double
        prototypes = self.prototypes()
        self.assertEqual(list(sheet._CALLS), list(prototypes))
        for name, parameters in prototypes.items():
            bare = [(kinds[kind.replace("const ", "")], pointer) for kind, pointer, _ in parameters]
            call = getattr(sheet._library, name)
            self.assertEqual(list(call.argtypes), [ctypes.POINTER(kind) if pointer else kind for kind, pointer in bare])
            self.assertIs(call.restype, ctypes.c_uint64)

    def test_parameters_by_name(self):
        for name, parameters in self.prototypes().items():
            names = [name.replace("reg", "register") for _, _, name in parameters if not name.endswith("_len")]
            self.assertEqual(list(inspect.signature(getattr(sheet, name[6:])).parameters), names)

    def test_what_is_written(self):
        """A slice that the header has as const may be read-only, any other may not."""
        given = {"n": 2, "node": 1, "direction": sheet.E, "side": sheet.E, "corner": sheet.QUADRANT_SE}
        given.update(east=0, north=0, step=1, table=TABLE, raster=RASTER, file=FILE)
        given.update(distances=words(*9 * [0]), numbers=words(*9 * [0]), reg=words(*10 * [0]))
        given.update(place=array.array("d", (0, 0)))
        for name, parameters in self.prototypes().items():
            names = [name for _, _, name in parameters if not name.endswith("_len")]
            written = [name for kind, pointer, name in parameters if pointer and not kind.startswith("const ")]
            read = [name for kind, pointer, name in parameters if pointer and kind.startswith("const ")]
            call = getattr(sheet, name[6:])
            arguments = {name: given[name] for name in names}
            arguments.update({name: memoryview(given[name]).toreadonly() for name in read})
            for name in written:
                fresh = bytearray(memoryview(given[name]).nbytes)
                arguments[name] = memoryview(fresh).cast(memoryview(given[name]).format)
            call(*arguments.values())
            for name in written:
                again = dict(arguments)
                again[name] = arguments[name].toreadonly()
                self.assertRaises(TypeError, call, *again.values())


# ---- Loading


class Loading(unittest.TestCase):
    def loaded(self, folder, **variables):
        """The path that the module loads when it lies in a folder of its own; None if it finds nothing."""
        here = os.path.join(folder, "callers", "python")
        os.makedirs(here, exist_ok=True)
        shutil.copy(os.path.join(HERE, "sheet.py"), here)
        kept = {name: value for name, value in os.environ.items() if name not in ("SHEET_LIBRARY", "LD_LIBRARY_PATH")}
        kept.update(variables, PYTHONDONTWRITEBYTECODE="1")
        ask = [sys.executable, "-c", "import sheet; print(sheet._library._name)"]
        ended = subprocess.run(ask, cwd=here, env=kept, stdout=subprocess.PIPE, stderr=subprocess.DEVNULL, check=False)
        return os.path.normpath(ended.stdout.decode().strip()) if ended.returncode == 0 else None

    def test_where_it_looks(self):
        library = sheet._library._name
        with tempfile.TemporaryDirectory() as folder:
            folder = os.path.realpath(folder)
            elsewhere, own = os.path.join(folder, "else", "where.so"), os.path.join(folder, "build", "libsheet.so")
            system = os.path.join(folder, "system")
            for path in (elsewhere, own, os.path.join(system, "libsheet.so.0")):
                self.assertIsNone(self.loaded(folder, SHEET_LIBRARY=path))
                os.makedirs(os.path.dirname(path))
                shutil.copy(library, path)
            self.assertEqual(self.loaded(folder, LD_LIBRARY_PATH=system, SHEET_LIBRARY=elsewhere), elsewhere)
            self.assertEqual(self.loaded(folder, LD_LIBRARY_PATH=system), own)
            os.remove(own)
            self.assertEqual(self.loaded(folder, LD_LIBRARY_PATH=system), "libsheet.so.0")

    def test_other_answers(self):
        """A library whose calls carry another version is not read by this one's numbers."""
        with open(sheet._library._name, "rb") as file:
            library = file.read()
        carried = ("SHEET_" + sheet.VERSION.rpartition(".")[0]).encode()
        self.assertIn(carried, library)
        with tempfile.TemporaryDirectory() as folder:
            other = os.path.join(os.path.realpath(folder), "other.so")
            for name, loads in ((carried, True), (b"SHEET_" + b"9" * (len(carried) - 6), False)):
                with open(other, "wb") as file:
                    file.write(library.replace(carried, name))
                self.assertEqual(self.loaded(folder, SHEET_LIBRARY=other), other if loads else None)


class Manual(unittest.TestCase):
    def test_example(self):
        """The example in callers/README.md ends in an assertion of its own."""
        example = re.search(r"```python\n(.*?)```", text_of("callers", "README.md"), flags=re.DOTALL).group(1)
        self.assertIn("assert ", example)
        exec(example, {})


if __name__ == "__main__":
    unittest.main()
