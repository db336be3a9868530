"""Teldruf from Python: sizes floc in grey pictures by ultimate attribute openings.

    import pathlib, teldruf
    picture = teldruf.read(pathlib.Path("picture.pgm").read_bytes())
    residue, index = teldruf.map(picture, [8, 16, 32, 64, 128])

Neighbours are the 4 pixels that share an edge with a pixel; with neighbours=8 those that share a corner are neighbours too.
What touches the first or last row or column has the size 1,048,577 by every attribute, so no threshold removes it.
Blurred floc falls at several steps; with a gap above 0, falls at most so many places of the list apart are added up.
Dark floc on light water has maps of its own, `dark_map`, and `combined_map` takes at each pixel the side of larger contrast.
A step may be an area, a height and a width together, as in `map_triples(picture, [(8, 0, 0), (16, 3, 3)])`: what meets all three stays.
A file may hold several pictures end to end: `read(file, 2)` gives the second, `pictures(file)` each of them in turn.

A picture is a Picture, whose raster is bytes or another buffer of bytes (bytearray, memoryview, numpy array of uint8), or a buffer
of bytes with rows and columns, such as a numpy array of two dimensions. Results are bytes or arrays, row by row; where the greys
came as a numpy array they are numpy arrays of its shape.

A call that the library refuses raises Refused, with the cause's number and words. An argument that no call could be given raises
TypeError or ValueError before any call: numbers are whole and fit 32 bits, a picture's number 64.

The shared library is target/libteldruf.so of this checkout unless `load` names another. It is made of the static one:

    gcc -shared -o target/libteldruf.so -Wl,--whole-archive crates/teldruf/out/libteldruf.a -Wl,--no-whole-archive
"""

import ctypes
import numbers
import os
import sys
from array import array
from typing import Any, NamedTuple

__all__ = ["ATTRIBUTES", "CombinedMaps", "Maps", "Picture", "Refused", "SIDES", "Tree", "Triple", "build", "cause_text", "combined_map",
           "combined_map_triples", "dark_map", "dark_map_triples", "load", "map", "map_triples", "open", "open_triple", "pictures",
           "read", "view_row", "write"]

ATTRIBUTES = {"area": 1, "height": 2, "width": 3}
SIDES = {"light": 1, "dark": 2}

# The words of include/teldruf.h.
_CAUSES = {
    0: "accepted",
    1: "width or height outside 1 to 4,096, or more than 1,048,576 pixels",
    2: "picture bytes not width x height",
    3: "attribute not 1, 2 or 3 (area, height or width)",
    4: "threshold outside 1 to 1,048,577, triple of zeros or with a part above that, or step list empty, over 256, cut short, or "
       "with a step that does not rise (of a triple no part falls and one rises)",
    5: "workspace not 7 words a pixel",
    6: "an output or a map not one entry a pixel",
    7: "the writer's buffer shorter than the file",
    8: "no P5 where a picture of the file starts: no binary PGM, or stray bytes after a raster",
    9: "the header broken or ended early",
    10: "maximum 0 or above 255",
    11: "a raster cut short, with fewer bytes than width x height",
    12: "a sample above the maximum",
    16: "row or side outside its range",
    17: "neighbourhood neither 4 nor 8",
    18: "picture number 0 or above the count of the file's pictures",
    19: "gap above 256",
}

_PICTURE_NUMBER = 18

_MOST_PIXELS = 1048576
_WORDS_A_PIXEL = 7
_MOST_HEADER = 17  # bytes that the writer puts before the raster


def cause_text(number):
    """A cause in words, by its number, as teldruf_cause_text of include/teldruf.h."""
    return _CAUSES.get(number, "no cause of this library")


class Refused(Exception):
    """A call was refused: `number` is the cause's, `words` say it."""

    def __init__(self, number):
        super().__init__(number)
        self.number = number
        self.words = cause_text(number)

    def __str__(self):
        return f"refused {self.number}: {self.words}"


class Picture(NamedTuple):
    """A grey picture: its sides, the maximum grey of its file, and its greys row by row from the top left."""

    width: int
    height: int
    maximum: int
    raster: Any


class Triple(NamedTuple):
    """A step by area, height and width together, each from 0 to 1,048,577; any three numbers in this order can stand for it. A threshold
    opens as the triple that has it for its attribute and 0 for the two others."""

    area: int = 0
    height: int = 0
    width: int = 0


class Tree(NamedTuple):
    """A max-tree: its number of nodes, two words a pixel, as teldruf_build of include/teldruf.h says, and the representatives of the
    nodes from the root to the leaves: every parent stands before its children."""

    nodes: int
    parents: Any
    attributes: Any
    representatives: Any


class Maps(NamedTuple):
    """At each pixel the largest residue, and the largest place in the step list, from 1, that has it (0 where the residue is 0). With a
    gap above 0 the largest total of a run of residues, and the largest place of a residue that is not 0 in such a run."""

    residue: Any
    index: Any


class CombinedMaps(NamedTuple):
    """At each pixel the residue and the index of the side of larger residue, dark where the two are equal, and the contrast: the
    residue where light won, its negative where dark did."""

    residue: Any
    index: Any
    contrast: Any


def read(file, number=1):
    """The Picture of a number, from 1, in the bytes of a binary PGM file, which holds one or more pictures end to end; its raster is
    bytes. Every picture of the file is judged, whichever is named: a fault in any of them is refused."""
    return _picture(_fixed(file, "a file"), _word(number, "a picture's number", 64))


def pictures(file):
    """Each Picture in the bytes of a binary PGM file in turn, as `read` gives it for the numbers 1, 2 and on to the last: a generator. The
    whole file is judged before it hands out the first, so none is handed out of a file with a fault."""
    return _each(_fixed(file, "a file"))


def write(picture):
    """The bytes of a binary PGM file of a picture. The maximum is the Picture's; for an array it is 255."""
    picture, greys = _taken(picture)
    buffer = _zeros("B", min(len(greys), _MOST_PIXELS) + _MOST_HEADER)
    count = _call("write_pgm", *_lend(greys), picture.width, picture.height, picture.maximum, *_lend(buffer))
    return buffer[:count].tobytes()


def build(picture, attribute="area", *, neighbours=4):
    """The max-tree of a picture: a Tree of its number of nodes, parents, attributes and representatives."""
    picture, greys = _taken(picture)
    workspace = _workspace(greys)
    nodes = _call("build", *_lend(greys), picture.width, picture.height, _attribute(attribute), _neighbours(neighbours),
                  *_lend(workspace))
    n = len(greys)
    return Tree(nodes, _like(picture.raster, workspace[:n]), _like(picture.raster, workspace[n:2 * n]),
                _kind(picture.raster, workspace[2 * n:2 * n + nodes]))


def open(picture, threshold, attribute="area", *, neighbours=4):
    """The picture opened at a threshold: a Picture if a Picture is given, else its greys."""
    return _opened("open", picture, _attribute(attribute), _neighbours(neighbours), _word(threshold, "a threshold"))


def open_triple(picture, triple, *, neighbours=4):
    """The picture opened by a triple, (area, height, width): what meets all three stays."""
    return _opened("open_triple", picture, _neighbours(neighbours), *_triple(triple))


def map(picture, steps, attribute="area", *, neighbours=4, gap=0):
    """The Maps of a picture, residue and index, for strictly rising steps. An index is a place in the list: its size is
    steps[index - 1]. Two residues that are not 0, with only 0 between them, belong to one run if their places in the list differ by at
    most the gap, 0 to 256."""
    return Maps(*_mapped("map", "BH", picture, [_attribute(attribute), _neighbours(neighbours)], _steps(steps), gap))


def dark_map(picture, steps, attribute="area", *, neighbours=4, gap=0):
    """The Maps of dark floc on light water: those of the reversed picture, 255 less each grey."""
    return Maps(*_mapped("dark_map", "BH", picture, [_attribute(attribute), _neighbours(neighbours)], _steps(steps), gap))


def combined_map(picture, steps, attribute="area", *, neighbours=4, gap=0):
    """The CombinedMaps of a picture, light and dark floc together: residue, index and contrast."""
    return CombinedMaps(*_mapped("combined_map", "BHh", picture, [_attribute(attribute), _neighbours(neighbours)], _steps(steps), gap))


def map_triples(picture, triples, *, neighbours=4, gap=0):
    """The Maps of a picture for steps that are triples, (area, height, width): from one to the next no part falls and at least one
    rises. An index is a place in this list."""
    return Maps(*_mapped("map_triples", "BH", picture, [_neighbours(neighbours)], _triples(triples), gap))


def dark_map_triples(picture, triples, *, neighbours=4, gap=0):
    """The Maps of dark floc on light water for steps that are triples."""
    return Maps(*_mapped("dark_map_triples", "BH", picture, [_neighbours(neighbours)], _triples(triples), gap))


def combined_map_triples(picture, triples, *, neighbours=4, gap=0):
    """The CombinedMaps of a picture, light and dark floc together, for steps that are triples."""
    return CombinedMaps(*_mapped("combined_map_triples", "BHh", picture, [_neighbours(neighbours)], _triples(triples), gap))


def view_row(light, dark, width, height, row, side):
    """A row, from 0, of the light residue map or the dark one, by the side: "light" or "dark", 1 or 2. It is a memoryview of the map
    itself: nothing is copied."""
    maps = _whole(light, "a light map"), _whole(dark, "a dark map")
    width, height, row = _word(width, "a width"), _word(height, "a height"), _word(row, "a row")
    side = _named(side, SIDES, "a side")
    start = _call("view_row", *_lend_view(maps[0]), *_lend_view(maps[1]), width, height, row, side)
    return maps[side - 1].cast("B")[start:start + width]


def _head(file, number):
    """Width, height and maximum of a picture of a file, and where its raster starts and ends."""
    head = _zeros("Q", 4)
    _call("read_pgm", *_lend_view(file), number, head.buffer_info()[0])
    width, height, maximum, start = head
    return width, height, maximum, start, start + width * height


def _picture(file, number):
    width, height, maximum, start, end = _head(file, number)
    return Picture(width, height, maximum, file[start:end].tobytes())


def _end(file, number):
    """Where a picture of a file ends, None if the file has fewer pictures."""
    try:
        return _head(file, number)[-1]
    except Refused as refusal:
        if refusal.number != _PICTURE_NUMBER:
            raise
        return None


def _each(file):
    """The Pictures of a file in turn. How many there are shows only in that a number is refused."""
    most = 1
    while _end(file, most) is not None:
        most *= 2
    yield from _each_of(file, most)


def _each_of(file, most):
    """The Pictures in turn of a file that has at most so many, a power of 2. A call judges all that it is lent; so the file is cut after
    the picture in the middle and its halves are lent by themselves, and each byte is judged once a halving, not once a picture."""
    if most == 1:
        yield _picture(file, 1)
        return
    half = most // 2
    end = _end(file, half)
    if end is None:
        yield from _each_of(file, half)
        return
    yield from _each_of(file[:end], half)
    if end < len(file):
        yield from _each_of(file[end:], half)


def _opened(name, picture, *named):
    """The output of an opening call with these words after the sides: a Picture if a Picture is given, else its greys."""
    taken, greys = _taken(picture)
    workspace, output = _workspace(greys), _entries("B", greys)
    _call(name, *_lend(greys), taken.width, taken.height, *named, *_lend(workspace), *_lend(output))
    opened = taken._replace(raster=_like(taken.raster, output))
    return opened if isinstance(picture, Picture) else opened.raster


def _mapped(name, codes, picture, named, steps, gap):
    """The outputs of a map call with these words before its steps; the entries of the outputs have these codes of `array`."""
    picture, greys = _taken(picture)
    workspace, outputs = _workspace(greys), [_entries(code, greys) for code in codes]
    _call(name, *_lend(greys), picture.width, picture.height, *named, *_lend(steps), _word(gap, "a gap"), *_lend(workspace),
          *(word for output in outputs for word in _lend(output)))
    return [_like(picture.raster, output) for output in outputs]


# Arguments are judged here as far as they could reach the library as something else: ctypes cuts numbers without a word.

def _word(value, what, bits=32):
    """A whole number of so many bits: every number of a call has 32, but for a picture's, which has 64."""
    if isinstance(value, bool) or not isinstance(value, numbers.Integral):
        raise TypeError(f"{what} is a whole number, not {value!r}")
    number = int(value)
    if not 0 <= number < 2 ** bits:
        raise ValueError(f"{what} is a number of {bits} bits, 0 or more, not {number}")
    return number


def _named(value, names, what):
    """The number of what may be named or numbered."""
    if not isinstance(value, str):
        return _word(value, what)
    if value not in names:
        raise ValueError(f"{what} is {', '.join(names)}, not {value!r}")
    return names[value]


def _attribute(attribute):
    return _named(attribute, ATTRIBUTES, "an attribute")


def _neighbours(neighbours):
    return _word(neighbours, "a number of neighbours")


def _steps(steps):
    return array("I", [_word(step, "a step") for step in steps])


def _triple(triple):
    """The three words of a triple."""
    try:
        parts = tuple(triple)
    except TypeError:
        raise TypeError(f"a triple is an area, a height and a width, not {triple!r}") from None
    if len(parts) != 3:
        raise ValueError(f"a triple is an area, a height and a width, not {len(parts)} parts")
    return [_word(part, "a part of a triple") for part in parts]


def _triples(triples):
    """The words of a list of triples, three to a step."""
    return array("I", [word for triple in triples for word in _triple(triple)])


def _view(buffer, what):
    try:
        view = memoryview(buffer)
    except TypeError:
        raise TypeError(f"{what} is a buffer of bytes, not {type(buffer).__name__}") from None
    if view.format != "B":
        raise TypeError(f"{what} is a buffer of bytes (format B, uint8), not of format {view.format}")
    return view


def _whole(buffer, what):
    """A view of bytes that stand row by row without gaps, so that they can be lent where they are."""
    view = _view(buffer, what)
    if not view.c_contiguous:
        raise TypeError(f"{what} is a buffer of bytes row by row without gaps")
    return view


def _bytes(buffer, what):
    """A copy, row by row: nobody else can write it while a call, which lets other threads run, reads it."""
    return array("B", _view(buffer, what).tobytes())


def _fixed(buffer, what):
    """A view of bytes that nobody else can write while a call reads them: of the buffer itself if it is bytes, so that a long file is
    not copied, else of a copy."""
    view = _view(buffer, what)
    return view if isinstance(buffer, bytes) else memoryview(view.tobytes())


def _taken(picture):
    """The picture as a Picture with numbers of 32 bits, and a copy of its greys."""
    if not isinstance(picture, Picture):
        shape = _view(picture, "a picture").shape
        if len(shape) != 2:
            raise TypeError(f"a picture of {len(shape)} dimensions needs its sides: Picture(width, height, 255, greys)")
        picture = Picture(shape[1], shape[0], 255, picture)
    width, height, maximum, raster = picture
    head = _word(width, "a width"), _word(height, "a height"), _word(maximum, "a maximum")
    return Picture(*head, raster), _bytes(raster, "a raster")


# Memory for the calls. A raster that is longer than any picture is refused (1 or 2) before other lengths are judged, so nothing of
# its length is made.

def _zeros(code, entries):
    return array(code, [0]) * entries


def _entries(code, greys):
    """An output: an entry a pixel."""
    return _zeros(code, min(len(greys), _MOST_PIXELS))


def _workspace(greys):
    return _zeros("I", _WORDS_A_PIXEL * min(len(greys), _MOST_PIXELS))


_SOMEWHERE = _zeros("I", 1)


def _lend(memory):
    """The two arguments for a run: where it starts, which is not null for an empty one either, and its number of entries."""
    start, entries = memory.buffer_info()
    return start or _SOMEWHERE.buffer_info()[0], entries


class _Buffer(ctypes.Structure):
    """Py_buffer of Python's C interface, of which the start is wanted."""

    _fields_ = [("start", ctypes.c_void_p), ("owner", ctypes.c_void_p), ("length", ctypes.c_ssize_t),
                ("itemsize", ctypes.c_ssize_t), ("readonly", ctypes.c_int), ("dimensions", ctypes.c_int),
                ("format", ctypes.c_void_p), ("shape", ctypes.c_void_p), ("strides", ctypes.c_void_p),
                ("suboffsets", ctypes.c_void_p), ("internal", ctypes.c_void_p)]


def _lend_view(view):
    """The two arguments for bytes that are lent where they are, as long as the view is held. Others may write them meanwhile, so
    this is for bytes that are fixed, or a call whose answer does not depend on them."""
    buffer = _Buffer()
    ctypes.pythonapi.PyObject_GetBuffer(ctypes.py_object(view), ctypes.byref(buffer), 0)
    start = buffer.start
    ctypes.pythonapi.PyBuffer_Release(ctypes.byref(buffer))
    return start or _SOMEWHERE.buffer_info()[0], view.nbytes


def _kind(raster, entries):
    """What a call wrote, in the raster's kind: a numpy array, or bytes, or an array of larger entries."""
    numpy = sys.modules.get("numpy")
    if numpy is not None and isinstance(raster, numpy.ndarray):
        return numpy.asarray(entries)
    return entries.tobytes() if entries.typecode == "B" else entries


def _like(raster, entries):
    """What a call wrote for each pixel, as the raster came: a numpy array has its shape."""
    entries = _kind(raster, entries)
    return entries.reshape(raster.shape) if hasattr(entries, "reshape") else entries


_CHECKOUT = os.path.join(os.path.dirname(os.path.abspath(__file__)), os.pardir, "target", "libteldruf.so")
_loaded = None


def load(path):
    """Names the shared library that the calls after this go to."""
    global _loaded
    library = ctypes.CDLL(os.path.abspath(path))
    word, long, run = ctypes.c_uint32, ctypes.c_uint64, [ctypes.c_void_p, ctypes.c_size_t]
    picture = run + [word, word]
    maps = run + [word] + run + run + run  # from the steps on
    signatures = {
        "read_pgm": run + [long, ctypes.c_void_p],
        "write_pgm": picture + [word] + run,
        "build": picture + [word, word] + run,
        "open": picture + [word, word, word] + run + run,
        "map": picture + [word, word] + maps,
        "dark_map": picture + [word, word] + maps,
        "combined_map": picture + [word, word] + maps + run,
        "open_triple": picture + [word, word, word, word] + run + run,
        "map_triples": picture + [word] + maps,
        "dark_map_triples": picture + [word] + maps,
        "combined_map_triples": picture + [word] + maps + run,
        "view_row": run + run + [word, word, word, word],
    }
    for name, arguments in signatures.items():
        try:
            function = getattr(library, "teldruf_" + name)
        except AttributeError as fault:
            raise OSError(f"{path}: not Teldruf's library: {fault}") from None
        function.argtypes, function.restype = arguments, long
    _loaded = library


def _call(name, *arguments):
    """The value of an accepted call."""
    if _loaded is None:
        load(_CHECKOUT)
    answer = getattr(_loaded, "teldruf_" + name)(*arguments)
    if answer >> 32:
        raise Refused(answer >> 32)
    return answer
