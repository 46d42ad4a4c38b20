"""The chunk trees and FORM ILBM pictures of EA IFF 85, read and written by a proved library.

Run build.sh once; it makes the shared object that is loaded here. The
environment's FLORINHADO may name another one.

A file is opened and checked once, and gives its pictures:

>>> with open("../../samples/two_levels.iff") as file:
...     for picture in file.pictures()[:2]:
...         fields = picture.header().value
...         print(fields.width, "by", fields.height, [list(line) for line in picture.lines()])
8 by 2 [[0, 0, 0, 0, 0, 0, 0, 0], [1, 1, 1, 1, 1, 1, 1, 1]]
8 by 2 [[0, 0, 0, 0, 0, 2, 2, 1], [1, 1, 1, 1, 1, 1, 3, 2]]

Bytes are taken from whatever lends them, bytes, bytearray, memoryview or mmap, and not
copied; no other thread may change them while a call reads them. The functions below take
a file's bytes, and those on a picture go through them each time.

>>> check(b"FORM\\0\\0\\0\\x04ILBM")
Accepted(chunks=1, end=12, trailing=0)
>>> check(b"FORM\\0\\0\\0\\x04ILB")
Traceback (most recent call last):
    ...
florinhado.Refused: refusal 7 at 0: size greater than what the group or file has left
>>> [told.name for told in records(b"FORM\\0\\0\\0\\x10ILBMTINY\\0\\0\\0\\x03abc\\0")]
[b'ILBM', b'TINY']
>>> header(b"FORM\\0\\0\\0\\x04ILBM", 0)
Traceback (most recent call last):
    ...
florinhado.Refused: refusal 21 at 0: no BMHD counts
>>> pack(bytes(4)).hex()
'fd00'
>>> fields = Header(width=3, height=1, planes=2, compression=1)
>>> file = write(fields, palette=b"", frame=[1, 2, 3])
>>> len(file), list(frame(file, 0)), header(file, 0).value == fields
(54, [1, 2, 3], True)
>>> write(fields, b"", [1, 2, 4])
Traceback (most recent call last):
    ...
florinhado.Refused: refusal 34 at 0: a colour number with more bits than planes

A brush has a shape, 1 for each pixel that shows and 0 for each that doesn't: by a mask plane,
which is written of it, or by a transparent colour.

>>> brush = write(fields._replace(masking=1), b"", [1, 2, 3], shape=[1, 0, 1])
>>> [list(told) for told in open(brush).picture(0).frame_with_shape()]
[[1, 2, 3], [1, 0, 1]]
>>> list(shape_frame(write(fields._replace(masking=2, transparent=3), b"", [1, 2, 3]), 0)[1])
[1, 1, 0]
>>> write(fields._replace(masking=1), b"", [1, 2, 3], shape=[1, 0, 2])
Traceback (most recent call last):
    ...
florinhado.Refused: refusal 45 at 0: a shape with a byte over 1 or of a wrong length

A picture has colours, red, green, blue for each pixel, by its palette and the view modes of
CAMG. Bit 11 with 6 or 8 planes is hold-and-modify: the two high bits of a colour number choose
0 the palette's entry of the other bits v, 1 a new blue, 2 a new red, 3 a new green, and the
other parts are those of the pixel to the left, of (0, 0, 0) for a line's first. A part is 17 v
with 6 planes, 4 v + v // 16 with 8. Bit 7 with 6 planes and no bit 11 is half-bright: number 32 +
i has entry i with each part halved. In any other picture a number has its entry of the palette.
An entry that the palette hasn't whole is (0, 0, 0).

>>> with open("../../samples/colours.iff") as file:
...     for picture in file.pictures()[:4]:
...         print([line.hex(" ", -3) for line in picture.colour_lines()])
['aa0000 ff8000 ff80ff ff11ff', '0000ff 000000 ff0000 ff0000']
['ff0000 ff003c ff413c 0040ff', '000082 112233 11ff33 00ff33']
['ff8000 7f4000 0040ff 00207f', '112233 081119 000000 000000']
['ff8000 000000 0040ff 000000', '112233 000000 000000 000000']

Every call on a picture is refused by the file's structure, 1 to 12; then with 20 if there
is no such picture, 21 if no BMHD counts, 22 for several BODYs, 23 for a property of a
wrong size; then for the header: 41 nPlanes over 8, 42 masking over 3, 43 compression over
1, 24 w, h or nPlanes 0 with a BODY. They are tried in this order. The calls on its rows
have more: 25 for no BODY, 46 where colours are asked for and CAMG has bit 11 with other than 6
or 8 planes, 29 for a start place beyond the BODY's end, 44 where a shape is asked for and
masking is 3, 27 and 26 with the place in the BODY.

>>> file = pathlib.Path("../../samples/headers.iff").read_bytes()
>>> frame(file, 2)
Traceback (most recent call last):
    ...
florinhado.Refused: refusal 43 at 0: compression 2 or more: only 0 and 1 are known
>>> def refusal(call, picture):
...     try:
...         call(file, picture)
...     except Refused as refused:
...         return refused.number
>>> calls = [header, grab, destination, sprite, view_mode, palette, scan_line, frame, shape_line, shape_frame]
>>> calls += [colour_line, colour_frame, triples]
>>> [{refusal(call, picture) for call in calls} for picture in range(6)]
[{41}, {42}, {43}, {24}, {41}, {None}]
"""

import contextlib
import ctypes
import enum
import io
import mmap
import os
import pathlib
import struct
from typing import NamedTuple

MEANINGS = {
    1: "file longer than 16,777,216 bytes",
    2: "no FORM, LIST or CAT",
    3: "a version name, reserved for later standards",
    4: "fewer than 8 bytes left for a chunk",
    5: "name not well formed",
    6: "chunk not allowed here",
    7: "size greater than what the group or file has left",
    8: "odd size and no pad byte",
    9: "a group at level 17",
    10: "a group of size under 4",
    11: "type not allowed",
    12: "second PROP of the same type in this LIST",
    13: "fewer places in the table than chunks or pictures",
    14: "no such record",
    15: "a group, where a local chunk or filler is asked for",
    20: "no such picture",
    21: "no BMHD counts",
    22: "more than one BODY directly in the FORM",
    23: "a property has a wrong size",
    24: "w, h or nPlanes 0: a picture with a BODY has at least 1 of each",
    25: "rows asked and no BODY",
    26: "the BODY ends before the row is full",
    27: "a copy or repeat oversteps its row",
    28: "row, frame or shape of a wrong length",
    29: "start place beyond the BODY's end",
    31: "a row to pack has 1 to 8,192 bytes",
    32: "result longer than the buffer",
    33: "header field, palette or frame that can't be written",
    34: "a colour number with more bits than planes",
    35: "result over 16,777,216 bytes",
    40: "more than 65,536 bytes of input",
    41: "nPlanes 9 or more: at most 8 planes are known",
    42: "masking 4 or more: only 0 to 3 are known",
    43: "compression 2 or more: only 0 and 1 are known",
    44: "masking 3, a lasso: its shape is not worked out",
    45: "a shape with a byte over 1 or of a wrong length",
    46: "CAMG bit 11, hold-and-modify, with other than 6 or 8 planes",
}


class Refused(Exception):
    """A refusal with its number, the place that it speaks of, and what it means."""

    def __init__(self, number, place):
        super().__init__(f"refusal {number} at {place}: {MEANINGS[number]}")
        self.number = number
        self.place = place
        self.meaning = MEANINGS[number]


class Accepted(NamedTuple):
    """The number of chunks, the end of the outermost one, the bytes after it."""

    chunks: int
    end: int
    trailing: int


class Kind(enum.IntEnum):
    """What a chunk is."""

    FORM = 1
    LIST = 2
    CAT = 3
    PROP = 4
    LOCAL = 5
    FILLER = 6


class Record(NamedTuple):
    """A chunk: its level, kind, name (the type for a group), place and size."""

    level: int
    kind: Kind
    name: bytes
    place: int
    size: int


class Origin(enum.IntEnum):
    """Where a property comes from: nowhere, the FORM itself, or a PROP."""

    ABSENT = 0
    OWN = 1
    SHARED = 2


class Property(NamedTuple):
    """A property: its value, its origin, and the place of the PROP that shares it.

    Each property is looked for by itself: in the FORM, then outward in the PROP ILBM
    of each LIST around it. The fields of an absent one are 0, and so is the place
    unless it is shared.
    """

    value: object
    origin: Origin
    shared: int


class Header(NamedTuple):
    """The fields of BMHD."""

    width: int = 0
    height: int = 0
    x: int = 0
    y: int = 0
    planes: int = 0
    masking: int = 0
    compression: int = 0
    pad1: int = 0
    transparent: int = 0
    x_aspect: int = 0
    y_aspect: int = 0
    page_width: int = 0
    page_height: int = 0


class HotSpot(NamedTuple):
    """The fields of GRAB."""

    x: int
    y: int


class Destination(NamedTuple):
    """The fields of DEST."""

    depth: int
    pad1: int
    plane_pick: int
    plane_on_off: int
    plane_mask: int


def _load():
    root = pathlib.Path(__file__).resolve().parents[2]
    made = root / "target" / "python" / "libflorinhado.so"
    return ctypes.CDLL(os.environ.get("FLORINHADO", str(made)))


_SIZE = ctypes.c_size_t
_BYTE, _WORD, _LONG, _SIGNED = ctypes.c_uint8, ctypes.c_uint16, ctypes.c_uint32, ctypes.c_int16
_BYTES = [ctypes.c_void_p, _SIZE]


class _Buffer(ctypes.Structure):
    """Py_buffer: the memory that an object lends."""

    _fields_ = [
        ("address", ctypes.c_void_p),
        ("owner", ctypes.c_void_p),
        ("length", ctypes.c_ssize_t),
        ("item_size", ctypes.c_ssize_t),
        ("read_only", ctypes.c_int),
        ("dimensions", ctypes.c_int),
        ("format", ctypes.c_void_p),
        ("shape", ctypes.c_void_p),
        ("strides", ctypes.c_void_p),
        ("suboffsets", ctypes.c_void_p),
        ("internal", ctypes.c_void_p),
    ]


_get_buffer = ctypes.pythonapi.PyObject_GetBuffer
_get_buffer.argtypes = [ctypes.py_object, ctypes.POINTER(_Buffer), ctypes.c_int]
_release_buffer = ctypes.pythonapi.PyBuffer_Release
_release_buffer.argtypes = [ctypes.POINTER(_Buffer)]
_release_buffer.restype = None
_SIMPLE = 0  # PyBUF_SIMPLE: bytes that are only read
_NOBODY = ctypes.c_uint8()  # lent for no bytes at all, as no pointer may be null


@contextlib.contextmanager
def _lent(source):
    """The address and length of an object's bytes; those of a copy if it can't lend them in one piece."""
    buffer = _Buffer()
    try:
        _get_buffer(source, buffer, _SIMPLE)
    except (BufferError, TypeError):
        source = source.tobytes() if isinstance(source, memoryview) else bytes(iter(source))
        _get_buffer(source, buffer, _SIMPLE)
    try:
        yield buffer.address or ctypes.addressof(_NOBODY), buffer.length
    finally:
        _release_buffer(buffer)


def _declare(name, given, told, placed=True):
    """A call that is given these and tells numbers of these kinds.

    It raises Refused, with the first number as the place if it is `placed`,
    or gives the list of the others.
    """
    call = getattr(_LIBRARY, name)
    kinds = [_SIZE] * placed + told
    call.argtypes = given + [ctypes.POINTER(kind) for kind in kinds]
    call.restype = _SIZE

    def ask(*arguments):
        numbers = [kind() for kind in kinds]
        answer = call(*arguments, *map(ctypes.byref, numbers))
        values = [number.value for number in numbers]
        place = values.pop(0) if placed else 0
        if answer:
            raise Refused(answer, place)
        return values

    return ask


_LIBRARY = _load()
_iff_check = _declare("iff_check", _BYTES, [_SIZE] * 3)
_iff_record = _declare("iff_record", _BYTES + [_SIZE], [_SIZE] * 2 + [_LONG] + [_SIZE] * 2)
_COLUMNS = [_SIZE] * 2 + [_BYTE, _LONG] + [_SIZE] * 2
_LENT = [kind for column in _COLUMNS for kind in (ctypes.POINTER(column), _SIZE)]
_iff_records = _declare("iff_records", _BYTES + _LENT, [_SIZE])
_iff_data = _declare("iff_data", _BYTES + [_SIZE], [_SIZE] * 2)
_iff_clean_copy = _declare("iff_clean_copy", _BYTES * 2, [_SIZE])
_iff_count_pictures = _declare("iff_count_pictures", _BYTES, [_SIZE])

# calls on a picture: the fields, their origin and the PROP's place
_PICTURE, _ORIGIN = _BYTES + [_SIZE], [_SIZE] * 2
_HEADER = [_WORD] * 2 + [_SIGNED] * 2 + [_BYTE] * 4 + [_WORD] + [_BYTE] * 2 + [_SIGNED] * 2
_ilbm_header = _declare("ilbm_header", _PICTURE, _HEADER + _ORIGIN)
_ilbm_grab = _declare("ilbm_grab", _PICTURE, [_SIGNED] * 2 + _ORIGIN)
_ilbm_dest = _declare("ilbm_dest", _PICTURE, [_BYTE] * 2 + [_WORD] * 3 + _ORIGIN)
_ilbm_sprite = _declare("ilbm_sprite", _PICTURE, [_WORD] + _ORIGIN)
_ilbm_view_mode = _declare("ilbm_view_mode", _PICTURE, [_LONG] + _ORIGIN)
_ilbm_palette = _declare("ilbm_palette", _PICTURE, _ORIGIN + [_SIZE] * 2)
_ilbm_line = _declare("ilbm_line", _PICTURE + [_SIZE] + _BYTES, [_SIZE])
_ilbm_frame = _declare("ilbm_frame", _PICTURE + _BYTES, [_SIZE])
_SHAPED = _BYTES * 2  # colour numbers and their shape
_ilbm_shape_line = _declare("ilbm_shape_line", _PICTURE + [_SIZE] + _SHAPED, [_SIZE])
_ilbm_shape_frame = _declare("ilbm_shape_frame", _PICTURE + _SHAPED, [_SIZE])
_COLOURED = _BYTES * 2  # the palette, and room for colours or triples
_ilbm_colour_line = _declare("ilbm_colour_line", _PICTURE + [_SIZE] + _COLOURED, [_SIZE])
_ilbm_colour_frame = _declare("ilbm_colour_frame", _PICTURE + _COLOURED, [_SIZE])
_ilbm_triples = _declare("ilbm_triples", _PICTURE + _COLOURED, [])
_ilbm_pictures = _declare("ilbm_pictures", _BYTES + [ctypes.POINTER(_SIZE), _SIZE], [_SIZE])
_ilbm_bmhd = _declare("ilbm_bmhd", _BYTES, _HEADER, placed=False)
_LAYOUT = [_BYTE] * 3  # planes, masking, compression
_ilbm_body_line = _declare("ilbm_body_line", _BYTES + [_WORD] + _LAYOUT + [_SIZE] + _BYTES, [_SIZE])
_ilbm_body_frame = _declare("ilbm_body_frame", _BYTES + [_WORD] * 2 + _LAYOUT + _BYTES, [_SIZE])
_MASKED = _LAYOUT + [_WORD]  # the transparent colour too
_ilbm_body_shape_line = _declare("ilbm_body_shape_line", _BYTES + [_WORD] + _MASKED + [_SIZE] + _SHAPED, [_SIZE])
_ilbm_body_shape_frame = _declare("ilbm_body_shape_frame", _BYTES + [_WORD] * 2 + _MASKED + _SHAPED, [_SIZE])
_MODED = _LAYOUT + [_LONG] + _BYTES  # the view modes and the palette too
_ilbm_body_colour_line = _declare("ilbm_body_colour_line", _BYTES + [_WORD] + _MODED + [_SIZE] + _BYTES, [_SIZE])
_ilbm_body_colour_frame = _declare("ilbm_body_colour_frame", _BYTES + [_WORD] * 2 + _MODED + _BYTES, [_SIZE])
_ilbm_palette_triples = _declare("ilbm_palette_triples", _BYTES + [_BYTE, _LONG] + _BYTES, [], placed=False)
_byterun_pack = _declare("byterun_pack", _BYTES * 2, [_SIZE], placed=False)
_FIELDS = _HEADER[:7] + _HEADER[8:]  # without pad1
_ilbm_write = _declare("ilbm_write", _FIELDS + _BYTES * 4, [_SIZE], placed=False)


def check(file):
    """Accepts the bytes of a file, or raises Refused with one of 1 to 12."""
    with _lent(file) as lent:
        return Accepted(*_iff_check(*lent))


def _record(level, kind, name, place, size):
    return Record(level, Kind(kind), name.to_bytes(4, "big"), place, size)


def record(file, number):
    """The chunk with this number; Refused with 14 if there is none."""
    with _lent(file) as lent:
        return _record(*_iff_record(*lent, number))


def records(file):
    """All chunks in file order, in time in proportion to the file."""
    with _lent(file) as lent:
        room = Accepted(*_iff_check(*lent)).chunks
        columns = [(kind * room)() for kind in _COLUMNS]
        _iff_records(*lent, *[part for column in columns for part in (column, room)])
    _numbers, *fields = columns
    return [_record(*told) for told in zip(*fields)]


def data(file, number):
    """The data of a local chunk or filler; Refused with 14 or 15."""
    with _lent(file) as (address, length):
        start, stop = _iff_data(address, length, number)
        return ctypes.string_at(address + start, stop - start)


def clean_copy(file):
    """The file without trailing bytes and with every pad byte 0."""
    with _lent(file) as (address, length):
        room = ctypes.create_string_buffer(length or 1)
        (made,) = _iff_clean_copy(address, length, room, length)
    return room.raw[:made]


def count_pictures(file):
    """How many FORMs of type ILBM the file has."""
    with _lent(file) as lent:
        (pictures,) = _iff_count_pictures(*lent)
    return pictures


def _property(call, make, file, picture):
    with _lent(file) as lent:
        *fields, origin, shared = call(*lent, picture)
    return Property(make(*fields), Origin(origin), shared)


def header(file, picture):
    """The BMHD that counts for a picture."""
    return _property(_ilbm_header, Header, file, picture)


def grab(file, picture):
    """The GRAB that counts for a picture."""
    return _property(_ilbm_grab, HotSpot, file, picture)


def destination(file, picture):
    """The DEST that counts for a picture."""
    return _property(_ilbm_dest, Destination, file, picture)


def sprite(file, picture):
    """The sprite precedence that counts for a picture."""
    return _property(_ilbm_sprite, int, file, picture)


def view_mode(file, picture):
    """The view modes that count for a picture."""
    return _property(_ilbm_view_mode, int, file, picture)


def palette(file, picture, default=b""):
    """The CMAP that counts for a picture, or the default.

    >>> file = pathlib.Path("../../samples/two_levels.iff").read_bytes()
    >>> palette(file, 39).shared, header(file, 39).shared
    (84, 12)
    >>> palette(file, 39).value[3:6].hex()
    'ff0000'
    """
    with _lent(file) as (address, length):
        origin, shared, start, stop = _ilbm_palette(address, length, picture)
        value = ctypes.string_at(address + start, stop - start) if origin else bytes(default)
    return Property(value, Origin(origin), shared)


def scan_line(file, picture, start=0):
    """The colour numbers of a scan line, and the next line's place in the BODY."""
    with _lent(file) as lent:
        width = Header(*_ilbm_header(*lent, picture)[:-2]).width
        row = ctypes.create_string_buffer(width or 1)
        (following,) = _ilbm_line(*lent, picture, start, row, width)
    return row.raw[:width], following


def frame(file, picture):
    """The colour numbers of all scan lines."""
    with _lent(file) as lent:
        fields = Header(*_ilbm_header(*lent, picture)[:-2])
        size = fields.width * fields.height
        room = ctypes.create_string_buffer(size or 1)
        _ilbm_frame(*lent, picture, room, size)
    return room.raw[:size]


def shape_line(file, picture, start=0):
    """The colour numbers of a scan line, its shape, and the next line's place in the BODY.

    The shape has 1 for each pixel that shows and 0 for each that doesn't; Refused with 44
    for masking 3, whose shape is not worked out.
    """
    with _lent(file) as lent:
        width = Header(*_ilbm_header(*lent, picture)[:-2]).width
        row, shape = _two(width)
        (following,) = _ilbm_shape_line(*lent, picture, start, row, width, shape, width)
    return row.raw[:width], shape.raw[:width], following


def shape_frame(file, picture):
    """The colour numbers of all scan lines, and their shape; Refused with 44 as shape_line."""
    with _lent(file) as lent:
        fields = Header(*_ilbm_header(*lent, picture)[:-2])
        size = fields.width * fields.height
        room, shape = _two(size)
        _ilbm_shape_frame(*lent, picture, room, size, shape, size)
    return room.raw[:size], shape.raw[:size]


def _two(size):
    """Room for so many colour numbers, and for their shape."""
    return [ctypes.create_string_buffer(size or 1) for _ in range(2)]


def colour_line(file, picture, start=0, default=b""):
    """A scan line in colours, three bytes for each pixel, and the next line's place in the BODY.

    The default is the palette where no CMAP counts. Refused with 46 for hold-and-modify with
    other than 6 or 8 planes.

    >>> file = pathlib.Path("../../samples/colours.iff").read_bytes()
    >>> row, following = colour_line(file, 0)
    >>> row.hex(" ", -3), following
    ('aa0000 ff8000 ff80ff ff11ff', 12)
    """
    with _lent(file) as lent, _lent(default) as colours:
        size = 3 * Header(*_ilbm_header(*lent, picture)[:-2]).width
        row = ctypes.create_string_buffer(size or 1)
        (following,) = _ilbm_colour_line(*lent, picture, start, *colours, row, size)
    return row.raw[:size], following


def colour_frame(file, picture, default=b""):
    """All scan lines in colours; Refused with 46 as colour_line.

    >>> file = pathlib.Path("../../samples/colours.iff").read_bytes()
    >>> colour_frame(file, 4)
    Traceback (most recent call last):
        ...
    florinhado.Refused: refusal 46 at 0: CAMG bit 11, hold-and-modify, with other than 6 or 8 planes
    """
    with _lent(file) as lent, _lent(default) as colours:
        fields = Header(*_ilbm_header(*lent, picture)[:-2])
        size = 3 * fields.width * fields.height
        room = ctypes.create_string_buffer(size or 1)
        _ilbm_colour_frame(*lent, picture, *colours, room, size)
    return room.raw[:size]


_TRIPLES = 192  # bytes


def triples(file, picture, default=b""):
    """The palette of a picture, or the default where no CMAP counts, as 64 triples.

    Those of a half-bright picture are entries 0 to 31 and their halves, those of any other the
    first 64. An entry that isn't there whole is (0, 0, 0).

    >>> file = pathlib.Path("../../samples/colours.iff").read_bytes()
    >>> triples(file, 2)[1], triples(file, 2)[33]
    ((255, 128, 0), (127, 64, 0))
    """
    room = ctypes.create_string_buffer(_TRIPLES)
    with _lent(file) as lent, _lent(default) as colours:
        _ilbm_triples(*lent, picture, *colours, room, _TRIPLES)
    return _in_threes(room.raw)


def palette_triples(palette, planes, view_mode=0):
    """Any palette as 64 triples, as those of a picture with so many planes and these view modes.

    >>> palette_triples(bytes(range(90)), 6, 0x80)[29:34]
    [(87, 88, 89), (0, 0, 0), (0, 0, 0), (0, 0, 1), (1, 2, 2)]
    """
    room = ctypes.create_string_buffer(_TRIPLES)
    with _lent(palette) as colours:
        _ilbm_palette_triples(*colours, planes, view_mode, room, _TRIPLES)
    return _in_threes(room.raw)


def _in_threes(data):
    return list(zip(data[::3], data[1::3], data[2::3]))


def bmhd(data):
    """The fields of a BMHD by its bytes alone; Refused with 23 unless it has 20.

    >>> bmhd(bytes.fromhex("0003 0001 0000 0000 02000100 0000 0a0b 0140 00c8"))[:2]
    (3, 1)
    """
    with _lent(data) as lent:
        return Header(*_ilbm_bmhd(*lent))


def _layout(fields):
    return fields.planes, fields.masking, fields.compression


def body_line(body, fields, start=0):
    """The colour numbers of a scan line of any bytes as a BODY, and the next line's place in it.

    Refused with 41, 42, 43 or 24 for the fields, 29 for a start beyond the BODY's end, 27
    and 26 with the place.

    >>> row, following = body_line(bytes.fromhex("a0006000"), Header(width=3, planes=2))
    >>> list(row), following
    ([1, 2, 3], 4)
    """
    row = ctypes.create_string_buffer(fields.width or 1)
    with _lent(body) as lent:
        (following,) = _ilbm_body_line(*lent, fields.width, *_layout(fields), start, row, fields.width)
    return row.raw[: fields.width], following


def body_frame(body, fields):
    """The colour numbers of all scan lines of any bytes as a BODY; Refused as body_line, but without 29.

    >>> body_frame(b"\\xff\\xa0\\xff", Header(width=3, height=2, planes=1, compression=1))
    Traceback (most recent call last):
        ...
    florinhado.Refused: refusal 26 at 2: the BODY ends before the row is full
    """
    size = fields.width * fields.height
    room = ctypes.create_string_buffer(size or 1)
    with _lent(body) as lent:
        _ilbm_body_frame(*lent, fields.width, fields.height, *_layout(fields), room, size)
    return room.raw[:size]


def body_shape_line(body, fields, start=0):
    """A scan line of any bytes as a BODY, its shape, and the next line's place.

    Refused as body_line, and with 44 for masking 3.

    >>> fields = Header(width=3, planes=2, masking=2, transparent=2)
    >>> row, shape, following = body_shape_line(bytes.fromhex("a0006000"), fields)
    >>> list(row), list(shape), following
    ([1, 2, 3], [1, 0, 1], 4)
    """
    width = fields.width
    row, shape = _two(width)
    given = width, *_layout(fields), fields.transparent, start
    with _lent(body) as lent:
        (following,) = _ilbm_body_shape_line(*lent, *given, row, width, shape, width)
    return row.raw[:width], shape.raw[:width], following


def body_shape_frame(body, fields):
    """All scan lines of any bytes as a BODY, and their shape; Refused as body_shape_line, but without 29.

    >>> body_shape_frame(b"", Header(width=3, height=2, planes=1, masking=3))
    Traceback (most recent call last):
        ...
    florinhado.Refused: refusal 44 at 0: masking 3, a lasso: its shape is not worked out
    """
    size = fields.width * fields.height
    room, shape = _two(size)
    given = fields.width, fields.height, *_layout(fields), fields.transparent
    with _lent(body) as lent:
        _ilbm_body_shape_frame(*lent, *given, room, size, shape, size)
    return room.raw[:size], shape.raw[:size]


def body_colour_line(body, fields, view_mode, palette, start=0):
    """A scan line of any bytes as a BODY in colours, and the next line's place.

    By the view modes of CAMG, 0 where there is none, and a palette. Refused as body_line, and
    with 46 for hold-and-modify with other than 6 or 8 planes.

    >>> fields = Header(width=3, planes=2)
    >>> row, following = body_colour_line(bytes.fromhex("a0006000"), fields, 0, bytes(range(9)))
    >>> row.hex(" ", -3), following
    ('030405 060708 000000', 4)
    """
    size = 3 * fields.width
    row = ctypes.create_string_buffer(size or 1)
    with _lent(body) as lent, _lent(palette) as colours:
        given = fields.width, *_layout(fields), view_mode, *colours, start
        (following,) = _ilbm_body_colour_line(*lent, *given, row, size)
    return row.raw[:size], following


def body_colour_frame(body, fields, view_mode, palette):
    """All scan lines of any bytes as a BODY in colours; Refused as body_colour_line, but without 29.

    >>> body_colour_frame(bytes.fromhex("a000"), Header(width=3, height=1, planes=1), 0, b"abcdef")
    b'defabcdef'
    """
    size = 3 * fields.width * fields.height
    room = ctypes.create_string_buffer(size or 1)
    with _lent(body) as lent, _lent(palette) as colours:
        given = fields.width, fields.height, *_layout(fields), view_mode, *colours
        _ilbm_body_colour_frame(*lent, *given, room, size)
    return room.raw[:size]


_FEW = 4096  # places of the table that is lent first
_ROW = 30  # numbers of a picture
_SHORTEST = 12  # bytes of a picture
_PIXELS_OF_A_BYTE = 512  # at most: a repeat of 128 bytes has two


def _table(file, places):
    """The table of pictures and how many there are; Refused with 13 for too few places."""
    table = (_SIZE * (_ROW * places))()
    with _lent(file) as lent:
        (pictures,) = _ilbm_pictures(*lent, table, len(table))
    return table, pictures


def open(source):
    """The file at a path, or of any bytes, as a File; Refused with 1 to 12, OSError for a path.

    A file at a path is mapped into memory. Nothing else may shorten it while it is open.

    >>> open("../../samples/form.iff").picture(0).refusal.number
    21
    >>> open(bytearray(b"FORM"))
    Traceback (most recent call last):
        ...
    florinhado.Refused: refusal 4 at 0: fewer than 8 bytes left for a chunk
    >>> open("no such file")
    Traceback (most recent call last):
        ...
    FileNotFoundError: [Errno 2] No such file or directory: 'no such file'
    """
    return File(_mapped(source) if isinstance(source, (str, os.PathLike)) else source)


def _mapped(path):
    with io.open(path, "rb") as stream:
        if os.fstat(stream.fileno()).st_size == 0:  # empty, or no file on a disk
            return stream.read()
        return mmap.mmap(stream.fileno(), 0, access=mmap.ACCESS_READ)


class File:
    """An accepted file with its pictures, which was checked when it was opened.

    It holds the bytes that it was opened with until it is closed.

    >>> with open("../../samples/headers.iff") as file:
    ...     [picture.refusal and picture.refusal.number for picture in file.pictures()]
    [41, 42, 43, 24, 41, None]

    One check is enough for up to 4,096 pictures, three are made for more.

    >>> len(File(b"CAT " + (60004).to_bytes(4, "big") + b"ILBM" + 5000 * b"FORM\\0\\0\\0\\x04ILBM").pictures())
    5000
    """

    def __init__(self, source):
        view = memoryview(source)
        self._view = view.cast("B") if view.c_contiguous else memoryview(bytes(view))
        places = min(_FEW, len(self._view) // _SHORTEST)
        try:
            self._table, self._pictures = _table(self._view, places)
            return
        except Refused as refused:
            if refused.number != 13:
                raise
        self._table, self._pictures = _table(self._view, count_pictures(self._view))

    def close(self):
        """Gives the bytes back; after that no picture can be read."""
        self._view.release()

    def __enter__(self):
        return self

    def __exit__(self, *_error):
        self.close()

    def chunks(self):
        """The records of all chunks in file order, in a walk of their own.

        >>> [told.name for told in open("../../samples/picture.iff").chunks()]
        [b'ILBM', b'BMHD', b'CMAP', b'BODY']
        """
        return records(self._view)

    def pictures(self):
        """All pictures in file order: the FORMs of type ILBM at any depth."""
        return [self.picture(number) for number in range(self._pictures)]

    def picture(self, number):
        """The picture with this number, counted from 0; IndexError if there is none."""
        start = _ROW * range(self._pictures)[number]
        return Picture(self._view, self._table[start : start + _ROW])


class Picture:
    """One picture of a File. Its methods raise Refused as the functions of the same names do.

    >>> picture = open("../../samples/headers.iff").picture(5)
    >>> picture.place, picture.form_type, picture.refusal
    (292, b'ILBM', None)
    >>> list(picture.frame()), [list(line) for line in picture.lines()]
    ([1, 2, 3, 2, 1, 0], [[1, 2, 3], [2, 1, 0]])
    """

    def __init__(self, view, numbers):
        self._view = view
        self._answer, self.place, kind = numbers[:3]
        self.form_type = kind.to_bytes(4, "big")
        self._properties = [numbers[n : n + 4] for n in range(3, 27, 4)]
        self._body = numbers[27:]

    @property
    def refusal(self):
        """What every method is refused with, or None."""
        return Refused(self._answer, 0) if self._answer else None

    def _property(self, number, make):
        """The property with this number in the table, of its data or None."""
        if self._answer:
            raise self.refusal
        origin, shared, start, stop = self._properties[number]
        value = make(self._view[start:stop] if origin else None)
        return Property(value, Origin(origin), shared)

    def _unpacked(self, number, make, layout):
        """The same of fields that are all 0 if it is absent."""
        zeros = bytes(struct.calcsize(layout))
        return self._property(number, lambda data: make(*struct.unpack(layout, data or zeros)))

    def header(self):
        """The BMHD that counts."""
        return self._property(0, bmhd)

    def palette(self, default=b""):
        """The CMAP that counts, or the default.

        >>> open("../../samples/two_levels.iff").picture(39).palette().shared
        84
        """
        return self._property(1, lambda data: bytes(default if data is None else data))

    def grab(self):
        """The GRAB that counts."""
        return self._unpacked(2, HotSpot, ">hh")

    def destination(self):
        """The DEST that counts."""
        return self._unpacked(3, Destination, ">BBHHH")

    def sprite(self):
        """The sprite precedence that counts."""
        return self._unpacked(4, int, ">H")

    def view_mode(self):
        """The view modes that count."""
        return self._unpacked(5, int, ">I")

    def body(self):
        """The data of the BODY, as a part of the file; Refused with 25 if there is none."""
        there, start, stop = self._body
        if self._answer or not there:
            raise self.refusal or Refused(25, 0)
        return self._view[start:stop]

    def scan_line(self, start=0):
        """The colour numbers of a scan line, and the next line's place in the BODY."""
        fields = self.header().value
        return body_line(self.body(), fields, start)

    def lines(self):
        """The colour numbers of the scan lines in turn, up to the first that is refused."""
        fields, body = self.header().value, self.body()
        start = 0
        for _ in range(fields.height):
            row, start = body_line(body, fields, start)
            yield row

    def frame(self):
        """The colour numbers of all scan lines."""
        fields, body = self.header().value, self.body()
        if _too_short(body, fields):
            return b"".join(self.lines())
        return body_frame(body, fields)

    def scan_line_with_shape(self, start=0):
        """The colour numbers of a scan line, its shape, and the next line's place in the BODY."""
        fields = self.header().value
        return body_shape_line(self.body(), fields, start)

    def lines_with_shape(self):
        """The scan lines with their shape in turn, up to the first that is refused.

        >>> picture = open("../../samples/headers.iff").picture(5)
        >>> [(list(row), list(shape)) for row, shape in picture.lines_with_shape()]
        [([1, 2, 3], [1, 1, 1]), ([2, 1, 0], [1, 1, 1])]
        """
        fields, body = self.header().value, self.body()
        start = 0
        for _ in range(fields.height):
            row, shape, start = body_shape_line(body, fields, start)
            yield row, shape

    def frame_with_shape(self):
        """The colour numbers of all scan lines, and their shape; Refused with 44 for masking 3."""
        fields, body = self.header().value, self.body()
        if _too_short(body, fields):
            rows, shapes = zip(*self.lines_with_shape())
            return b"".join(rows), b"".join(shapes)
        return body_shape_frame(body, fields)

    def colour_line(self, start=0, default=b""):
        """A scan line in colours, three bytes for each pixel, and the next line's place in the BODY."""
        return body_colour_line(self.body(), *self._coloured(default), start)

    def colour_lines(self, default=b""):
        """The scan lines in colours in turn, up to the first that is refused."""
        body, (fields, *by) = self.body(), self._coloured(default)
        start = 0
        for _ in range(fields.height):
            row, start = body_colour_line(body, fields, *by, start)
            yield row

    def colour_frame(self, default=b""):
        """All scan lines in colours; Refused with 46 for hold-and-modify with other than 6 or 8 planes.

        >>> open("../../samples/colours.iff").picture(2).colour_frame()[:6].hex(" ", -3)
        'ff8000 7f4000'
        """
        body, (fields, *by) = self.body(), self._coloured(default)
        if _too_short(body, fields):
            return b"".join(self.colour_lines(default))
        return body_colour_frame(body, fields, *by)

    def triples(self, default=b""):
        """The palette, or the default where no CMAP counts, as 64 triples.

        >>> open("../../samples/colours.iff").picture(2).triples()[32:34]
        [(8, 17, 25), (127, 64, 0)]
        """
        fields, mode, colours = self._coloured(default)
        return palette_triples(colours, fields.planes, mode)

    def _coloured(self, default):
        """The header, the view modes and the palette."""
        return self.header().value, self.view_mode().value, self.palette(default).value


def _too_short(body, fields):
    """A frame is refused for the length of its BODY, and no room is made for it."""
    return fields.width * fields.height // _PIXELS_OF_A_BYTE > len(body)


def pack(row):
    """The row packed by ByteRun1; Refused with 31 unless it has 1 to 8,192 bytes."""
    with _lent(row) as (address, length):
        room = ctypes.create_string_buffer(length + (length + 127) // 128 or 1)
        (made,) = _byterun_pack(address, length, room, len(room))
    return room.raw[:made]


def write(fields, palette, frame, shape=b""):
    """A file with one picture of these fields (pad1 is not looked at), palette and
    colour numbers, line by line; with masking 1 also of a shape, 1 for each pixel that
    shows and 0 for each that doesn't. Refused with 33, 34, 45 or 35."""
    row = (fields.width + 15) // 16 * 2
    rows = fields.planes + (fields.masking == 1)
    body = fields.height * rows * (row + (row + 127) // 128)
    room = ctypes.create_string_buffer(min(825 + body, 16777216))
    numbers = fields[:7] + fields[8:]
    with _lent(palette) as colours, _lent(frame) as pixels, _lent(shape) as shown:
        (length,) = _ilbm_write(*numbers, *colours, *pixels, *shown, room, len(room))
    return room.raw[:length]
