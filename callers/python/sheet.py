"""Quadtree map sheets: the calls of libsheet.so, for Python 3.8 and later.

include/sheet.h is the manual: what a table, a raster, a register and a file are, what each call answers, what it
refuses and in which order. Each call has one function here, under its name without sheet_, and each number of the
header has its name without SHEET_. A refusal is raised as Refusal; everything that the header calls a refusal is left
to the library.

A slice is anything with the buffer protocol: bytes for rasters and files, unsigned 32-bit words for tables, distances,
pond numbers and registers (array.array('I'), or a view cast to 'I'), doubles for a place. A call reads and writes it
where it stands; what is only read is copied if it is read-only, since ctypes cannot lend it, or not aligned. After a
refusal every slice stands as it was. A function whose name ends in _new makes what it writes, and returns it.

What the library takes for granted is seen to here, so that no caller can break it:

  - A number is a whole number of 32 bits. Any other is an OverflowError, as ctypes would cut it without a word.
  - A slice is contiguous, of the right kind of element, and writable if it is to be written. Any other is a TypeError.
    One that is to be written and is not aligned is a ValueError.
  - A slice that is to be written and overlaps another one of the same call is a ValueError. It is not copied, as there
    is no telling what the caller meant.
  - A call holds the interpreter's lock, so that no other Python thread writes to what is lent. This does not hold in an
    interpreter without that lock, nor for memory that is shared with other processes.
"""

import array
import collections
import ctypes
import operator
import os

# ---- The numbers of the header

VERSION = "0.3.0"

HIGHEST_LEVEL = 7
NODE_WORDS = 6
LONGEST_TABLE = 131070

NONE = 4294967295

FATHER_WORD = 0
SON_WORD = 1
TYPE_WORD = 5

QUADRANT_NW = 0
QUADRANT_NE = 1
QUADRANT_SW = 2
QUADRANT_SE = 3

WHITE = 0
BLACK = 1
GRAY = 2

PACKED_LEVELS = 8

OK = 0
BAD_LEVEL = 1
BAD_LENGTH = 2
BAD_NODE = 3
TOO_DEEP = 4
NEEDLESS_FORK = 5
NO_SUCH_NODE = 6
BAD_DIRECTION = 7
BAD_PIXEL = 8
NO_ROOM = 9
BAD_GROUND = 11
BAD_RECORD = 12
FILE_ENDS = 13
BAD_COUNT = 14
NO_BLOCK = 20

N = 0
E = 1
S = 2
W = 3
NW = 4
NE = 5
SW = 6
SE = 7

NO_WHITE = 4294967295

POND_WORDS = 5
LONGEST_REGISTER = 61440

PIXELS_WORD = 0
FIRST_ROW_WORD = 1
LAST_ROW_WORD = 2
FIRST_COLUMN_WORD = 3
LAST_COLUMN_WORD = 4

LONGEST_FILE = 65540

# ---- What comes back

Found = collections.namedtuple("Found", "node level")
Found.__doc__ = "A node with its level; its side is 1 << level pixels."

Loaded = collections.namedtuple("Loaded", "count level")
Loaded.__doc__ = "The node count of a file and its sheet's level."

_WORDS_OF = {
    BAD_LEVEL: "the level is too high",
    BAD_LENGTH: "a slice has a wrong length",
    BAD_NODE: "a node's type, father word or son words are wrong",
    TOO_DEEP: "a fork lies so deep that its sons would be smaller than a pixel",
    NEEDLESS_FORK: "a fork has four sons that are leaves of one colour",
    NO_SUCH_NODE: "the node asked for is not in the table",
    BAD_DIRECTION: "there is no such direction, side or corner, or the corner is not on that side",
    BAD_PIXEL: "a pixel is neither 0 nor 1",
    NO_ROOM: "the slice to be written is too short",
    BAD_GROUND: "the ground place is out of range",
    BAD_RECORD: "a file has a wrong mark byte or type",
    FILE_ENDS: "a file ends where a byte is needed",
    BAD_COUNT: "a file's node count is wrong, or bytes are left over",
}


class Refusal(Exception):
    """A call's refusal: its code, one of the header's, and its value, of which the header says what it means."""

    def __init__(self, code, value):
        super().__init__(code, value)
        self.code = code
        self.value = value

    def __str__(self):
        words = _WORDS_OF.get(self.code, "a code without a name")
        return "%s (code %d, value %d)" % (words, self.code, self.value)


# ---- The library

_Byte = ctypes.c_uint8
_Word = ctypes.c_uint32
_Real = ctypes.c_double
_Bytes = ctypes.POINTER(_Byte)
_Words = ctypes.POINTER(_Word)
_Reals = ctypes.POINTER(_Real)
_Size = ctypes.c_size_t

_CALLS = {
    "sheet_check": (_Word, _Words, _Size),
    "sheet_build": (_Word, _Bytes, _Size, _Words, _Size),
    "sheet_decode": (_Word, _Words, _Size, _Bytes, _Size),
    "sheet_neighbour": (_Word, _Words, _Size, _Word, _Word),
    "sheet_corner_leaf": (_Word, _Words, _Size, _Word, _Word, _Word),
    "sheet_diagonal_leaf": (_Word, _Words, _Size, _Word, _Word),
    "sheet_distance": (_Word, _Words, _Size, _Words, _Size),
    "sheet_ponds": (_Word, _Words, _Size, _Words, _Size, _Words, _Size),
    "sheet_read": (_Bytes, _Size, _Words, _Size),
    "sheet_write": (_Word, _Words, _Size, _Bytes, _Size),
    "sheet_centre": (_Word, _Words, _Size, _Word, _Real, _Real, _Real, _Reals, _Size),
}


def _library_path():
    """The path in SHEET_LIBRARY, or the repository's own library, or the system's."""
    named = os.environ.get("SHEET_LIBRARY")
    if named:
        return named
    here = os.path.dirname(os.path.abspath(__file__))
    own = os.path.join(here, os.pardir, os.pardir, "build", "libsheet.so")
    return own if os.path.exists(own) else "libsheet.so.0"


def _gives_other_answers(library):
    """Does the library carry another version than the numbers above? Where the system cannot tell, no."""
    find = getattr(ctypes.PyDLL(None), "dlvsym", None)
    if find is None:
        return False
    find.argtypes = (ctypes.c_void_p, ctypes.c_char_p, ctypes.c_char_p)
    find.restype = ctypes.c_void_p
    answers = "SHEET_" + VERSION.rpartition(".")[0]
    return not find(library._handle, b"sheet_check", answers.encode())


def _load(path):
    # Not CDLL, which lets go of the interpreter's lock while a call runs.
    library = ctypes.PyDLL(path)
    if _gives_other_answers(library):
        raise OSError("%s: its answers are not those of version %s" % (path, VERSION))
    for name, kinds in _CALLS.items():
        call = getattr(library, name)
        call.argtypes = kinds
        call.restype = ctypes.c_uint64
    return library


_library = _load(_library_path())

# ---- What is lent

_FORMATS = {_Byte: ("B", "b", "c", "?"), _Word: ("I", "L"), _Real: ("d",)}
_NAMES = {_Byte: "bytes", _Word: "unsigned 32-bit words", _Real: "doubles"}

# A buffer that is to be lent as a slice of these elements.
_Slice = collections.namedtuple("_Slice", "buffer element written")


def _input(buffer, element):
    return _Slice(buffer, element, False)


def _output(buffer, element):
    return _Slice(buffer, element, True)


def _number(number):
    number = operator.index(number)
    if not 0 <= number <= 0xFFFFFFFF:
        raise OverflowError("a number of 32 bits is wanted, not %d" % number)
    return number


def _view(buffer, element):
    view = memoryview(buffer)
    if view.itemsize != ctypes.sizeof(element) or view.format.lstrip("@=<") not in _FORMATS[element]:
        raise TypeError("a buffer of %s is wanted, not of format %r" % (_NAMES[element], view.format))
    if not view.c_contiguous:
        raise TypeError("a buffer is wanted that is contiguous")
    return view


def _lent(buffer, element, written):
    """The first element of a buffer where it stands, or of a copy if it is only read and cannot be lent, and the number
    of elements. The buffer stays as long as that first element is kept."""
    view = _view(buffer, element)
    length = view.nbytes // view.itemsize
    if written and view.readonly:
        raise TypeError("a buffer is wanted that can be written to")
    if length == 0:
        return element(), 0
    if not view.readonly:
        first = element.from_buffer(view)
        if ctypes.addressof(first) % ctypes.alignment(element) == 0:
            return first, length
        if written:
            raise ValueError("a buffer is wanted that is aligned for %s" % _NAMES[element])
    return element.from_buffer(array.array(_FORMATS[element][0], view.tobytes())), length


def _overlap(one, other):
    """Do two slices, each a first element and a length, have a byte in common?"""
    begin, other_begin = ctypes.addressof(one[0]), ctypes.addressof(other[0])
    end, other_end = begin + one[1] * ctypes.sizeof(one[0]), other_begin + other[1] * ctypes.sizeof(other[0])
    return max(begin, other_begin) < min(end, other_end)


def _ask(call, *arguments):
    """The number that a call gives back. Its slices are free again when this returns, so that a caller who is refused
    for lack of room can lengthen the buffer."""
    given, before = [], []
    for argument in arguments:
        if not isinstance(argument, _Slice):
            given.append(argument)
            continue
        lent = _lent(*argument)
        for other, other_written in before:
            if (argument.written or other_written) and _overlap(lent, other):
                raise ValueError("a slice that is to be written overlaps another one")
        before.append((lent, argument.written))
        given += (ctypes.byref(lent[0]), lent[1])
    return call(*given)


def _value(answer):
    code, value = answer & 255, answer >> 8
    if code != OK:
        raise Refusal(code, value)
    return value


def _found(answer):
    if answer & 255 == NO_BLOCK:
        return None
    return Found(*divmod(_value(answer), PACKED_LEVELS))


def _words(count):
    return array.array("I", bytes(4 * count))


def _with_room(make, call):
    """Calls without room, and again with the room that is then asked for. What is written and the answer."""
    buffer = make(0)
    try:
        return buffer, call(buffer)
    except Refusal as refusal:
        if refusal.code != NO_ROOM:
            raise
        buffer = make(refusal.value)
    return buffer, call(buffer)


# ---- The calls


def check(n, table):
    """Is this the table of a sheet of level n? Returns the node count."""
    return _value(_ask(_library.sheet_check, _number(n), _input(table, _Word)))


def build(n, raster, table):
    """Writes the table of a picture, in preorder numbers, and returns its node count. Words beyond it stay."""
    return _value(_ask(_library.sheet_build, _number(n), _input(raster, _Byte), _output(table, _Word)))


def build_new(n, raster):
    """The table of a picture, in preorder numbers."""
    table, _ = _with_room(_words, lambda table: build(n, raster, table))
    return table


def decode(n, table, raster):
    """Writes the picture of a table."""
    _value(_ask(_library.sheet_decode, _number(n), _input(table, _Word), _output(raster, _Byte)))


def decode_new(n, table):
    """The picture of a table, as a bytearray."""
    raster = bytearray(4 ** min(_number(n), HIGHEST_LEVEL))
    decode(n, table, raster)
    return raster


def neighbour(n, table, node, direction):
    """The neighbour of a node in one of the eight directions N to SE, or None if it would be off the sheet. It is never
    smaller than the node; if it is a fork, what lies below it need not touch the node."""
    return _found(
        _ask(_library.sheet_neighbour, _number(n), _input(table, _Word), _number(node), _number(direction))
    )


def corner_leaf(n, table, node, side, corner):
    """The leaf that touches a node from outside at one end of a side, N to W, or None if it would be off the sheet. The
    corner is one of the two quadrants at the ends of that side, QUADRANT_NW to QUADRANT_SE."""
    return _found(
        _ask(
            _library.sheet_corner_leaf,
            _number(n),
            _input(table, _Word),
            _number(node),
            _number(side),
            _number(corner),
        )
    )


def diagonal_leaf(n, table, node, corner):
    """The leaf that touches a node at a corner, QUADRANT_NW to QUADRANT_SE, from outside of both its sides, or None if
    it would be off the sheet."""
    return _found(
        _ask(_library.sheet_diagonal_leaf, _number(n), _input(table, _Word), _number(node), _number(corner))
    )


def distance(n, table, distances):
    """Writes, for each node, the chessboard distance from its centre to the nearest white pixel in half pixels; 0 for
    white leaves and forks."""
    _value(_ask(_library.sheet_distance, _number(n), _input(table, _Word), _output(distances, _Word)))


def _nodes(table):
    return _view(table, _Word).nbytes // 4 // NODE_WORDS


def distance_new(n, table):
    """The distances of a table's nodes."""
    distances = _words(_nodes(table))
    distance(n, table, distances)
    return distances


def ponds(n, table, numbers, register):
    """Writes, for each node, the number of its pond, 0 for white leaves and forks, and for each pond its entry in the
    register; returns the number of ponds. Words of the register beyond the last pond's stay."""
    return _value(
        _ask(
            _library.sheet_ponds,
            _number(n),
            _input(table, _Word),
            _output(numbers, _Word),
            _output(register, _Word),
        )
    )


def ponds_new(n, table):
    """The pond number of each node, and the register of the ponds."""
    numbers = _words(_nodes(table))
    register, found = _with_room(_words, lambda register: ponds(n, table, numbers, register))
    return numbers, register[: POND_WORDS * found]


def read(file, table):
    """Writes the table of a sheet file, in preorder numbers, and returns its node count and the sheet's level. Words
    beyond it stay."""
    value = _value(_ask(_library.sheet_read, _input(file, _Byte), _output(table, _Word)))
    return Loaded(*divmod(value, PACKED_LEVELS))


def read_new(file):
    """The level of a sheet file, and its table in preorder numbers."""
    table, loaded = _with_room(_words, lambda table: read(file, table))
    return loaded.level, table


def write(n, table, file):
    """Writes the sheet file of a table and returns its length. Bytes beyond it stay."""
    return _value(_ask(_library.sheet_write, _number(n), _input(table, _Word), _output(file, _Byte)))


def write_new(n, table):
    """The sheet file of a table, as a bytearray."""
    file, _ = _with_room(bytearray, lambda file: write(n, table, file))
    return file


def centre(n, table, node, east, north, step, place):
    """Writes where the centre of a node lies on the ground, east first, to the first two doubles of a place. East and
    north are the centre of the top left pixel, step is the side of a pixel."""
    _value(
        _ask(
            _library.sheet_centre,
            _number(n),
            _input(table, _Word),
            _number(node),
            _Real(east),
            _Real(north),
            _Real(step),
            _output(place, _Real),
        )
    )


def centre_new(n, table, node, east, north, step):
    """Where the centre of a node lies on the ground: its east and its north."""
    place = array.array("d", (0, 0))
    centre(n, table, node, east, north, step, place)
    return tuple(place)
