"""Checks the module python/teldruf.py, both hosts and the pictures made of maps, as examples/run has built them in a folder:

    python3 examples/check.py FOLDER
"""

import os
import re
import resource
import shutil
import struct
import subprocess
import sys
import tempfile
import unittest
import zlib
from operator import ge
from random import Random
from unittest import mock

HERE = os.path.dirname(os.path.abspath(__file__))
sys.path.insert(0, os.path.join(HERE, os.pardir, "python"))
import index_to_png
import teldruf
from teldruf import Picture, Triple

try:
    import numpy
except ImportError:
    numpy = None

FOLDER = sys.argv.pop(1)
LIBRARY = os.path.join(FOLDER, "libteldruf.so")
HOSTS = [os.path.join(FOLDER, "host")], [sys.executable, os.path.join(HERE, "host.py"), LIBRARY]

FRAME = 1048577  # the attribute of a node on the frame


def ringed(value, *rows):
    """Rows in a ring, one pixel wide, of a value."""
    across = [value] * (len(rows[0]) + 2)
    return across + [entry for row in rows for entry in [value, *row, value]] + across


# A row in a ring, with its tree, an opening and maps by area at the steps 1 2 3 4, worked out by hand.
GREYS = bytes(ringed(10, [10, 30, 20, 50, 10]))
ROW = Picture(7, 3, 255, GREYS)
FILE = b"P5\n7 3\n255\n" + GREYS
PARENTS, ATTRIBUTES, NODES = ringed(0, [0, 10, 0, 10, 0]), [FRAME] + ringed(0, [0, 1, 3, 1, 0])[1:], 4
REPRESENTATIVES = [0, 10, 9, 11]
OPENED_AT_2 = bytes(ringed(10, [10, 20, 20, 20, 10]))
RESIDUE, INDEX = bytes(ringed(0, [0, 10, 10, 30, 0])), ringed(0, [0, 4, 4, 2, 0])
JOINED_RESIDUE, JOINED_INDEX = bytes(ringed(0, [0, 20, 10, 40, 0])), ringed(0, [0, 4, 4, 4, 0])  # at a gap of 2 or more

# Two bright pixels that share only a corner, in a ring, and for each number of neighbours the tree, the opening at 2 and the maps at the
# step 2.
CORNERS = Picture(4, 4, 255, bytes(ringed(0, [9, 0], [0, 9])))
CORNERS_FILE = b"P5\n4 4\n255\n" + CORNERS.raster
BY_NEIGHBOURS = {
    4: (
        (3, [0] * 16, [FRAME] + ringed(0, [1, 0], [0, 1])[1:]),
        bytes(16),
        (bytes(ringed(0, [9, 0], [0, 9])), ringed(0, [1, 0], [0, 1])),
    ),
    8: (
        (2, ringed(0, [0, 0], [0, 5]), [FRAME] + ringed(0, [2, 0], [0, 0])[1:]),
        CORNERS.raster,
        (bytes(16), [0] * 16),
    ),
}


# Bright floc with a darker pit, in a ring, and its maps at the steps 2 and 10, worked out by hand: light, dark, and both with the contrast.
# In the pit the two residues are equal.
PITTED = Picture(5, 5, 255, bytes(ringed(20, [80, 80, 80], [80, 50, 80], [80, 80, 80])))
LIGHT = bytes(ringed(0, [60, 60, 60], [60, 30, 60], [60, 60, 60])), ringed(0, [2, 2, 2], [2, 2, 2], [2, 2, 2])
DARK = bytes(ringed(0, [0, 0, 0], [0, 30, 0], [0, 0, 0])), ringed(0, [0, 0, 0], [0, 1, 0], [0, 0, 0])
COMBINED = LIGHT[0], ringed(0, [2, 2, 2], [2, 1, 2], [2, 2, 2]), ringed(0, [60, 60, 60], [60, -30, 60], [60, 60, 60])


# A light thread that stands, a dark one that lies and light floc with a speck, in a ring. The speck falls at the first triple, by its area,
# the thread that lies at the second, by its height, the one that stands at the third, by its width, the floc at the fourth, by its area.
THREADS = Picture(7, 6, 255, bytes(ringed(
    100, [130, 100, 60, 60, 60], [130, 100, 100, 100, 100], [130, 100, 150, 150, 100], [100, 100, 150, 190, 100])))
TRIPLES = [(2, 0, 0), (2, 2, 0), (2, 2, 2), (5, 2, 2)]
OPENED_BY_2_2_2 = bytes(ringed(100, [100, 100, 60, 60, 60], [100] * 5, [100, 100, 150, 150, 100], [100, 100, 150, 150, 100]))
LIGHT_THREADS = (
    bytes(ringed(0, [30, 0, 0, 0, 0], [30, 0, 0, 0, 0], [30, 0, 50, 50, 0], [0, 0, 50, 50, 0])),
    ringed(0, [3, 0, 0, 0, 0], [3, 0, 0, 0, 0], [3, 0, 4, 4, 0], [0, 0, 4, 4, 0]),
)
JOINED_THREADS = (  # at a gap of 3 or more
    bytes(ringed(0, [30, 0, 0, 0, 0], [30, 0, 0, 0, 0], [30, 0, 50, 50, 0], [0, 0, 50, 90, 0])),
    LIGHT_THREADS[1],
)
DARK_THREADS = (
    bytes(ringed(0, [0, 0, 40, 40, 40], [0] * 5, [0] * 5, [0] * 5)),
    ringed(0, [0, 0, 2, 2, 2], [0] * 5, [0] * 5, [0] * 5),
)
COMBINED_THREADS = (
    bytes(ringed(0, [30, 0, 40, 40, 40], [30, 0, 0, 0, 0], [30, 0, 50, 50, 0], [0, 0, 50, 50, 0])),
    ringed(0, [3, 0, 2, 2, 2], [3, 0, 0, 0, 0], [3, 0, 4, 4, 0], [0, 0, 4, 4, 0]),
    ringed(0, [30, 0, -40, -40, -40], [30, 0, 0, 0, 0], [30, 0, 50, 50, 0], [0, 0, 50, 50, 0]),
)


# Pictures and their files, by hand, with headers of several forms: leading zeros, tabs and comments, and a raster that looks like a header.
# End to end they are one file, a burst.
BURST = [ROW, Picture(2, 2, 9, b"\1\x09\0\5"), Picture(3, 2, 80, b"P5 1 1"), CORNERS]
BURST_FILES = [FILE, b"P5\t#2 2\r\n002 #P5\n#\n0000002\r9\n\1\x09\0\5", b"P5 3 2 80 P5 1 1", CORNERS_FILE]

# What no file can start with, or go on with after a raster, and the cause, in the order in which a picture is judged.
FAULTS = [
    (8, b"\n"), (8, b"P"), (8, b"p5 1 1 9 \0"), (8, b"\nP5 1 1 9 \0"), (8, b"#P5\n"), (8, b"P2 1 1 9 0\n"),
    (9, b"P5"), (9, b"P5 0 0 0"), (9, b"P51 1 9 \0"), (9, b"P5 1 1 9#\n\0"), (9, b"P5 1 00000001 9 \0"), (9, b"P5 #"),
    (10, b"P5 0 0 0\n"), (10, b"P5 0 1 256 "), (1, b"P5 0 1 9 "), (1, b"P5 1 4097 9 "), (1, b"P5 1025 1024 255\n"),
    (11, b"P5 1 1 9 "), (11, b"P5 2 1 9 \xff"), (12, b"P5 2 1 9 \x09\x0a"),
]

WHITE, DIGITS = rb"[\t\n\r ]", rb"([0-9]{1,7})"
GAP = WHITE + rb"(?:" + WHITE + rb"|#[^\n\r]*[\n\r])*"
HEADER = re.compile(rb"P5" + (GAP + DIGITS) * 3 + WHITE)

# Netpbm's programs that make the files of a burst, with their words and what they are given.
NETPBM = [(["rawtopgm", "7", "3"], GREYS), (["pgmramp", "-lr", "40", "3"], b""), (["pgmnoise", "5", "4"], b"")]


def plainly_read(file, number):
    """The Picture of a number in a file, as it is defined; where the file is refused, the number of the cause."""
    found, start = [], 0
    while start < len(file) or not found:
        if file[start:start + 2] != b"P5":
            return 8
        header = HEADER.match(file, start)
        if header is None:
            return 9
        width, height, maximum = [int(digits) for digits in header.groups()]
        if not 1 <= maximum <= 255:
            return 10
        if not (1 <= width <= 4096 and 1 <= height <= 4096 and width * height <= 1048576):
            return 1
        start = header.end() + width * height
        if start > len(file):
            return 11
        raster = file[header.end():start]
        if max(raster) > maximum:
            return 12
        found.append(Picture(width, height, maximum, raster))
    return found[number - 1] if 1 <= number <= len(found) else 18


def answer(call, *words):
    """What a call gives; where it is refused, the number of the cause."""
    try:
        return call(*words)
    except teldruf.Refused as refusal:
        return refusal.number


def random_burst(random):
    """Pictures end to end, mostly with a byte more, less or changed, or cut short."""
    file = b""
    for _ in range(random.randint(1, 4)):
        width, height, maximum = random.randint(1, 4), random.randint(1, 4), random.choice((9, 80, 255))
        gaps = random.choices((b" ", b"\n", b"\t\r ", b" #P5 9\n", b"\r##\r\n"), k=3)
        greys = [grey for grey in b"P5 \n#019\x09\xff" if grey <= maximum]
        header = b"P5" + b"".join(gap + str(side).encode() for gap, side in zip(gaps, (width, height, maximum)))
        file += header + random.choice((b" ", b"\n")) + bytes(random.choices(greys, k=width * height))
    at, byte = random.randrange(len(file)), bytes([random.choice(b"P5 \n#019\xff")])
    return random.choice([file, file, file[:at], file + byte, file[:at] + byte + file[at:], file[:at] + byte + file[at + 1:],
                          file[:at] + file[at + 1:]])


def listed(maps):
    """Residue, index and contrast as they stand above."""
    return (maps[0], *(list(entries) for entries in maps[1:]))


def index_bytes(index):
    """An index map as the hosts write it."""
    return b"".join(i.to_bytes(2, "big") for i in index)


def colour(contrast):
    """Orange where it is light, blue where it is dark, and twice as bright as the residue, which 255 bounds."""
    bright = min(2 * abs(contrast), 255)
    return bytes((bright, bright // 2, 0) if contrast > 0 else (0, bright // 2, bright))


def contrast_bytes(contrast):
    """A contrast as the hosts write it."""
    return b"".join(colour(c) for c in contrast)


def random_call(random):
    """A picture in a ring, and the other words of a map call."""
    width, height, count = random.randint(4, 12), random.randint(4, 12), random.randint(1, 12)
    rows = [random.choices((0, 1, 2, 3, 100, 254, 255), k=width) for _ in range(height)]
    picture = Picture(width + 2, height + 2, 255, bytes(ringed(random.choice((0, 3, 255)), *rows)))
    words = {"attribute": random.randint(1, 3), "neighbours": random.choice((4, 8))}
    return picture, sorted(random.sample(range(1, 20), count)), random.choice((0, 1, 2, 3, 5, 256)), words


def random_triples(random, count):
    """So many triples: no part falls, and at least one rises."""
    triples, last = [], (0, 0, 0)
    while len(triples) < count:
        triple = tuple(part + random.choice((0, 0, 0, 1, 2, 4)) for part in last)
        if triple != last:
            triples.append(triple)
            last = triple
    return triples


def near(picture, p, neighbours):
    """A pixel and its neighbours."""
    row, column = divmod(p, picture.width)
    return [y * picture.width + x for y in range(row - 1, row + 2) for x in range(column - 1, column + 2)
            if 0 <= y < picture.height and 0 <= x < picture.width and (neighbours == 8 or y == row or x == column)]


def component(picture, p, level, neighbours):
    """The pixels that are joined to p by pixels of at least this level."""
    joined, waiting = {p}, [p]
    while waiting:
        further = {q for q in near(picture, waiting.pop(), neighbours) if picture.raster[q] >= level} - joined
        joined |= further
        waiting += further
    return joined


def sizes_of(picture, pixels):
    """The area, height and width of a set of pixels."""
    rows, columns = [p // picture.width for p in pixels], [p % picture.width for p in pixels]
    if min(rows) == 0 or min(columns) == 0 or max(rows) == picture.height - 1 or max(columns) == picture.width - 1:
        return FRAME, FRAME, FRAME
    return len(pixels), max(rows) - min(rows) + 1, max(columns) - min(columns) + 1


def sizes_by_level(picture, neighbours):
    """For each level that a picture has, the sizes of the component of each pixel that is at least as bright."""
    found = {level: {} for level in picture.raster}
    for level, sizes in found.items():
        for p, grey in enumerate(picture.raster):
            if grey >= level and p not in sizes:
                pixels = component(picture, p, level, neighbours)
                sizes.update(dict.fromkeys(pixels, sizes_of(picture, pixels)))
    return found


def plainly_opened(picture, triples, neighbours):
    """The openings by triples as they are defined: at each pixel the greatest level at which its component meets all three."""
    found = sizes_by_level(picture, neighbours)
    return [bytes(max(level for level, sizes in found.items() if p in sizes and all(map(ge, sizes[p], triple)))
                  for p in range(len(picture.raster))) for triple in triples]


def runs_between(openings, gap):
    """The residue and the index of each pixel, from a picture and its openings."""
    falls = [[before - after for before, after in zip(*greys)] for greys in zip(openings, openings[1:])]
    return [largest_run(residues, gap) for residues in zip(*falls)]


def largest_run(residues, gap):
    """The largest total of a run of residues that are not 0, at most the gap apart, and the last place, from 1, of the last such run."""
    runs, last = [], None
    for place, residue in enumerate(residues, 1):
        if residue == 0:
            continue
        if last is not None and place - last <= gap:
            runs[-1] = runs[-1][0] + residue, place
        else:
            runs.append((residue, place))
        last = place
    return max(runs, default=(0, 0))


class Module(unittest.TestCase):
    def test_each_call_on_each_kind_of_buffer(self):
        self.assertEqual(teldruf.read(FILE), ROW)
        self.assertEqual(teldruf.read(memoryview(bytearray(FILE))), ROW)
        rows = memoryview(GREYS).cast("B", (3, 7))
        for picture in ROW, ROW._replace(raster=bytearray(GREYS)), ROW._replace(raster=memoryview(GREYS)), rows:
            with self.subTest(type(getattr(picture, "raster", picture))):
                self.assertEqual(teldruf.write(picture), FILE)
                tree = teldruf.build(picture)
                self.assertEqual((tree.nodes, list(tree.parents), list(tree.attributes)), (NODES, PARENTS, ATTRIBUTES))
                self.assertEqual(list(tree.representatives), REPRESENTATIVES)
                opened = teldruf.open(picture, 2)
                self.assertEqual(opened, OPENED_AT_2 if picture is rows else ROW._replace(raster=OPENED_AT_2))
                maps = teldruf.map(picture, [1, 2, 3, 4])
                self.assertEqual((maps.residue, list(maps.index), maps.index.itemsize), (RESIDUE, INDEX, 2))

    def test_attributes_by_name_and_number(self):
        for name, number in teldruf.ATTRIBUTES.items():
            self.assertEqual(teldruf.map(ROW, [1, 2], name), teldruf.map(ROW, (1, 2), attribute=number))
        self.assertEqual(teldruf.map(ROW, [1, 2], "height").residue, bytes(ringed(0, [0, 20, 10, 40, 0])))
        self.assertEqual(list(teldruf.build(ROW, "width").attributes), ATTRIBUTES)

    def test_the_frame_keeps_what_it_cuts(self):
        for width, height in (5, 1), (1, 5):  # every pixel is on the frame
            row = Picture(width, height, 255, bytes([10, 30, 20, 50, 10]))
            for attribute in teldruf.ATTRIBUTES:
                self.assertEqual(list(teldruf.build(row, attribute).attributes), [FRAME] * 4 + [0])
                self.assertEqual(teldruf.open(row, FRAME, attribute), row)
                maps = teldruf.map(row, [2, FRAME], attribute)
                self.assertEqual((maps.residue, list(maps.index)), (bytes(5), [0] * 5))

    def test_the_representatives_stand_from_root_to_leaf(self):
        for raster, expected in (b"\x05\x03\x00", [2, 1, 0]), (b"\x05\x00\x00", [1, 0]), (b"\x00\x07\x04", [0, 2, 1]), (bytes(3), [0]):
            tree = teldruf.build(Picture(3, 1, 255, raster))
            self.assertEqual((tree.nodes, list(tree.representatives)), (len(expected), expected))
        random = Random(8)
        for _ in range(50):
            width, height = random.randint(1, 9), random.randint(1, 9)
            greys = bytes(random.randint(0, 5) for _ in range(width * height))
            tree = teldruf.build(Picture(width, height, 255, greys), neighbours=random.choice((4, 8)))
            own = [p for p, attribute in enumerate(tree.attributes) if attribute]
            self.assertEqual(list(tree.representatives), sorted(own, key=lambda p: (greys[p], p)))
            places = {p: i for i, p in enumerate(tree.representatives)}
            self.assertEqual([p for p in own if places[tree.parents[p]] >= places[p]], [tree.representatives[0]])

    def test_corners_join_with_8_neighbours(self):
        for neighbours, (tree, opened, maps) in BY_NEIGHBOURS.items():
            named = [{"neighbours": neighbours}] + ([{}] if neighbours == 4 else [])
            for words in named:
                built, mapped = teldruf.build(CORNERS, **words), teldruf.map(CORNERS, [2], **words)
                self.assertEqual((built.nodes, list(built.parents), list(built.attributes)), tree)
                self.assertEqual(teldruf.open(CORNERS, 2, **words).raster, opened)
                self.assertEqual((mapped.residue, list(mapped.index)), maps)

    def test_a_gap_joins_falls(self):
        for words in {}, {"gap": 0}, {"gap": 1}, {"gap": 2}, {"gap": 3}, {"gap": 256}:
            maps = teldruf.map(ROW, [1, 2, 3, 4], **words)
            expected = (JOINED_RESIDUE, JOINED_INDEX) if words.get("gap", 0) >= 2 else (RESIDUE, INDEX)
            self.assertEqual((maps.residue, list(maps.index)), expected)

    def test_maps_at_a_gap_are_the_largest_runs_between_openings(self):
        random = Random(19)
        for _ in range(100):
            picture, steps, gap, words = random_call(random)
            openings = [picture.raster] + [teldruf.open(picture, step, **words).raster for step in steps]
            maps = teldruf.map(picture, steps, gap=gap, **words)
            self.assertEqual(list(zip(maps.residue, maps.index)), runs_between(openings, gap))

    def test_dark_and_combined_maps_on_each_kind_of_buffer(self):
        rows = memoryview(PITTED.raster).cast("B", (5, 5))
        for picture in PITTED, PITTED._replace(raster=bytearray(PITTED.raster)), rows:
            self.assertEqual(listed(teldruf.map(picture, [2, 10])), LIGHT)
            self.assertEqual(listed(teldruf.dark_map(picture, [2, 10])), DARK)
            combined = teldruf.combined_map(picture, [2, 10])
            self.assertEqual(listed(combined), COMBINED)
            self.assertEqual((combined.contrast.typecode, combined._fields), ("h", ("residue", "index", "contrast")))

    def test_dark_maps_are_the_reversed_pictures_and_the_larger_residue_wins(self):
        random = Random(16)
        for _ in range(200):
            picture, steps, gap, words = random_call(random)
            words["gap"] = gap
            turned = picture._replace(raster=bytes(255 - grey for grey in picture.raster))
            light, dark = teldruf.map(picture, steps, **words), teldruf.dark_map(picture, steps, **words)
            self.assertEqual(dark, teldruf.map(turned, steps, **words))
            won = [(a, i, a) if a > b else (b, j, -b) for a, i, b, j in zip(*light, *dark)]
            self.assertEqual(list(zip(*teldruf.combined_map(picture, steps, **words))), won)

    def test_triples_on_each_kind_of_buffer(self):
        rows = memoryview(THREADS.raster).cast("B", (6, 7))
        for picture in THREADS, THREADS._replace(raster=bytearray(THREADS.raster)), rows:
            for triple in (2, 2, 2), [2, 2, 2], Triple(2, 2, 2), Triple(width=2, height=2, area=2):
                opened = teldruf.open_triple(picture, triple)
                self.assertEqual(opened, OPENED_BY_2_2_2 if picture is rows else THREADS._replace(raster=OPENED_BY_2_2_2))
            for triples in TRIPLES, tuple(TRIPLES), [list(triple) for triple in TRIPLES], [Triple(*triple) for triple in TRIPLES]:
                self.assertEqual(listed(teldruf.map_triples(picture, triples)), LIGHT_THREADS)
                self.assertEqual(listed(teldruf.map_triples(picture, triples, neighbours=8, gap=2)), LIGHT_THREADS)
                self.assertEqual(listed(teldruf.map_triples(picture, triples, gap=3)), JOINED_THREADS)
                self.assertEqual(listed(teldruf.dark_map_triples(picture, triples)), DARK_THREADS)
                combined = teldruf.combined_map_triples(picture, triples)
                self.assertEqual(listed(combined), COMBINED_THREADS)
                self.assertEqual((combined.contrast.typecode, combined._fields), ("h", ("residue", "index", "contrast")))

    def test_triples_stay_where_all_three_are_met(self):
        random = Random(11)
        for _ in range(100):
            picture, steps, gap, words = random_call(random)
            triples, words = random_triples(random, len(steps)), {"neighbours": words["neighbours"]}
            turned = picture._replace(raster=bytes(255 - grey for grey in picture.raster))
            light, dark = [plainly_opened(side, triples, **words) for side in (picture, turned)]
            self.assertEqual([teldruf.open_triple(picture, triple, **words).raster for triple in triples], light)
            light, dark = runs_between([picture.raster, *light], gap), runs_between([turned.raster, *dark], gap)
            words["gap"] = gap
            self.assertEqual(list(zip(*teldruf.map_triples(picture, triples, **words))), light)
            self.assertEqual(list(zip(*teldruf.dark_map_triples(picture, triples, **words))), dark)
            won = [(a, i, a) if a > b else (b, j, -b) for (a, i), (b, j) in zip(light, dark)]
            self.assertEqual(list(zip(*teldruf.combined_map_triples(picture, triples, **words))), won)

    def test_a_threshold_is_a_triple_with_two_zeros(self):
        random = Random(3)
        for _ in range(100):
            picture, steps, gap, words = random_call(random)
            name = Triple._fields[words["attribute"] - 1]
            triples, neighbours = [Triple(**{name: step}) for step in steps], words["neighbours"]
            self.assertEqual(teldruf.open_triple(picture, triples[0], neighbours=neighbours), teldruf.open(picture, steps[0], **words))
            for by_threshold, by_triple in [(teldruf.map, teldruf.map_triples), (teldruf.dark_map, teldruf.dark_map_triples),
                                            (teldruf.combined_map, teldruf.combined_map_triples)]:
                maps = by_threshold(picture, steps, gap=gap, **words)
                self.assertEqual(by_triple(picture, triples, neighbours=neighbours, gap=gap), maps)

    def test_up_to_256_triples(self):
        triples = [(k // 3, (k + 1) // 3, (k + 2) // 3) for k in range(1, 258)]
        maps = bytes(ringed(0, [0, 10, 10, 30, 0])), ringed(0, [0, 5, 5, 4, 0])  # 1,1,2 removes both pixels, 1,2,2 all three
        self.assertEqual(listed(teldruf.map_triples(ROW, triples[:256])), maps)
        self.assertEqual(teldruf.open_triple(ROW, (FRAME, FRAME, FRAME)).raster, bytes([10] * 21))
        with self.assertRaises(teldruf.Refused) as caught:
            teldruf.map_triples(ROW, triples)
        self.assertEqual(caught.exception.number, 4)

    def test_a_row_is_viewed_where_it_stands(self):
        maps = bytes(range(12)), bytes(range(100, 112))
        for row in range(3):
            for name, number in teldruf.SIDES.items():
                lent = maps[number - 1]
                for side in name, number:
                    view = teldruf.view_row(*maps, 4, 3, row, side)
                    self.assertEqual((view, type(view), view.readonly), (lent[4 * row:4 * row + 4], memoryview, True))
                    self.assertIs(view.obj, lent)
        light, dark = bytearray(12), memoryview(bytearray(12)).cast("B", (3, 4))
        rows = teldruf.view_row(light, dark, 4, 3, 1, "light"), teldruf.view_row(light, dark, 4, 3, 2, "dark")
        light[4], dark[2, 3], rows[0][3] = 7, 8, 9
        self.assertEqual([list(row) for row in rows], [[7, 0, 0, 9], [0, 0, 0, 8]])
        self.assertEqual(light[7], 9)
        largest = bytes(1048576)
        self.assertEqual(len(teldruf.view_row(largest, largest, 4096, 256, 255, 2)), 4096)

    def test_refusals_have_number_and_words(self):
        long = bytes(1048577)
        for number, call in [
            (1, lambda: teldruf.build(ROW._replace(width=4097))),
            (1, lambda: teldruf.write(Picture(0, 0, 255, b""))),
            (2, lambda: teldruf.open(ROW._replace(height=2), 1)),
            (2, lambda: teldruf.map(ROW._replace(raster=long), [1])),
            (3, lambda: teldruf.build(ROW, 4)),
            (3, lambda: teldruf.build(ROW, 4, neighbours=5)),
            (17, lambda: teldruf.build(ROW, neighbours=5)),
            (17, lambda: teldruf.open(ROW, 0, neighbours=0)),
            (17, lambda: teldruf.map(ROW, [], neighbours=2 ** 32 - 1)),
            (4, lambda: teldruf.open(ROW, 1048578)),
            (4, lambda: teldruf.map(ROW, [])),
            (4, lambda: teldruf.map(ROW, [2, 2])),
            (4, lambda: teldruf.map(ROW, [0], gap=257)),
            (19, lambda: teldruf.map(ROW, [1], gap=257)),
            (19, lambda: teldruf.map(ROW, [1], gap=2 ** 32 - 1)),
            (1, lambda: teldruf.combined_map(ROW._replace(height=0), [1])),
            (2, lambda: teldruf.dark_map(ROW._replace(raster=long), [1])),
            (3, lambda: teldruf.combined_map(ROW, [1], 0, neighbours=5)),
            (17, lambda: teldruf.dark_map(ROW, [], neighbours=5)),
            (4, lambda: teldruf.combined_map(ROW, [2, 1], gap=257)),
            (19, lambda: teldruf.dark_map(ROW, [1], gap=257)),
            (19, lambda: teldruf.combined_map(ROW, [1], gap=257)),
            (1, lambda: teldruf.open_triple(ROW._replace(width=0), (0, 0, 0))),
            (1, lambda: teldruf.map_triples(ROW._replace(width=4097), [])),
            (2, lambda: teldruf.open_triple(ROW._replace(raster=long), (1, 1, 1), neighbours=5)),
            (2, lambda: teldruf.combined_map_triples(ROW._replace(height=2), [(1, 1, 1)])),
            (17, lambda: teldruf.open_triple(ROW, (0, 0, 0), neighbours=5)),
            (17, lambda: teldruf.dark_map_triples(ROW, [], neighbours=5, gap=257)),
            (4, lambda: teldruf.open_triple(ROW, (0, 0, 0))),
            (4, lambda: teldruf.open_triple(ROW, (FRAME + 1, 0, 0))),
            (4, lambda: teldruf.open_triple(ROW, (0, FRAME + 1, 0))),
            (4, lambda: teldruf.open_triple(ROW, (0, 0, 2 ** 32 - 1))),
            (4, lambda: teldruf.map_triples(ROW, [])),
            (4, lambda: teldruf.map_triples(ROW, [(0, 0, 0), (1, 1, 1)])),
            (4, lambda: teldruf.map_triples(ROW, [(1, 2, 3), (1, 2, 3)])),
            (4, lambda: teldruf.map_triples(ROW, [(1, 2, 3), (0, 3, 4)])),
            (4, lambda: teldruf.dark_map_triples(ROW, [(1, 2, 3), (2, 1, 4)])),
            (4, lambda: teldruf.combined_map_triples(ROW, [(1, 2, 3), (2, 3, 2)])),
            (4, lambda: teldruf.map_triples(ROW, [(1, 1, 1), (FRAME + 1, 1, 1)])),
            (4, lambda: teldruf.map_triples(ROW, [(1, 1, 1), (1, FRAME + 1, 1)])),
            (4, lambda: teldruf.map_triples(ROW, [(1, 1, 1), (1, 1, FRAME + 1)], gap=257)),
            (19, lambda: teldruf.map_triples(ROW, [(1, 0, 0)], gap=257)),
            (19, lambda: teldruf.dark_map_triples(ROW, [(0, 1, 0)], gap=257)),
            (19, lambda: teldruf.combined_map_triples(ROW, [(0, 0, FRAME)], gap=2 ** 32 - 1)),
            (1, lambda: teldruf.view_row(b"", b"", 0, 7, 0, 1)),
            (1, lambda: teldruf.view_row(b"", b"", 4097, 1, 1, 3)),
            (6, lambda: teldruf.view_row(GREYS[1:], GREYS, 7, 3, 0, 2)),
            (6, lambda: teldruf.view_row(GREYS, GREYS + b"0", 7, 3, 0, 1)),
            (6, lambda: teldruf.view_row(b"", b"", 7, 3, 3, 0)),
            (16, lambda: teldruf.view_row(GREYS, GREYS, 7, 3, 3, 1)),
            (16, lambda: teldruf.view_row(GREYS, GREYS, 7, 3, 2 ** 32 - 1, 2)),
            (16, lambda: teldruf.view_row(GREYS, GREYS, 7, 3, 0, 0)),
            (16, lambda: teldruf.view_row(GREYS, GREYS, 7, 3, 0, 3)),
            (8, lambda: teldruf.read(b"")),
            (9, lambda: teldruf.read(FILE[:6])),
            (10, lambda: teldruf.write(ROW._replace(maximum=256))),
            (11, lambda: teldruf.read(FILE[:-1])),
            (12, lambda: teldruf.write(ROW._replace(maximum=49))),
        ]:
            with self.subTest(number), self.assertRaises(teldruf.Refused) as caught:
                call()
            self.assertEqual((caught.exception.number, caught.exception.words), (number, teldruf.cause_text(number)))
            self.assertEqual(str(caught.exception), f"refused {number}: {teldruf.cause_text(number)}")

    def test_numbers_are_never_cut(self):
        places = [
            lambda bad: teldruf.write(ROW._replace(width=bad)),
            lambda bad: teldruf.build(ROW._replace(height=bad)),
            lambda bad: teldruf.write(ROW._replace(maximum=bad)),
            lambda bad: teldruf.build(ROW, bad),
            lambda bad: teldruf.build(ROW, neighbours=bad),
            lambda bad: teldruf.open(ROW, bad),
            lambda bad: teldruf.open(ROW, 1, neighbours=bad),
            lambda bad: teldruf.map(ROW, [bad]),
            lambda bad: teldruf.map(ROW, [1], neighbours=bad),
            lambda bad: teldruf.map(ROW, [1], gap=bad),
            lambda bad: teldruf.dark_map(ROW, [bad]),
            lambda bad: teldruf.combined_map(ROW, [1], gap=bad),
            lambda bad: teldruf.open_triple(ROW, (bad, 1, 1)),
            lambda bad: teldruf.open_triple(ROW, (1, bad, 1)),
            lambda bad: teldruf.open_triple(ROW, (1, 1, bad)),
            lambda bad: teldruf.open_triple(ROW, (1, 1, 1), neighbours=bad),
            lambda bad: teldruf.map_triples(ROW, [(1, 1, 1), (1, 1, bad)]),
            lambda bad: teldruf.dark_map_triples(ROW, [(1, 1, 1)], neighbours=bad),
            lambda bad: teldruf.combined_map_triples(ROW, [(1, 1, 1)], gap=bad),
            lambda bad: teldruf.view_row(GREYS, GREYS, bad, 3, 0, 1),
            lambda bad: teldruf.view_row(GREYS, GREYS, 7, bad, 0, 1),
            lambda bad: teldruf.view_row(GREYS, GREYS, 7, 3, bad, 1),
            lambda bad: teldruf.view_row(GREYS, GREYS, 7, 3, 0, bad),
        ]
        for place, call in enumerate(places):
            for bad, kind in (-1, ValueError), (2 ** 32 + 5, ValueError), (True, TypeError), (5.0, TypeError), (None, TypeError):
                with self.subTest(place=place, bad=bad), self.assertRaises(kind):
                    call(bad)

    def test_other_wrong_arguments(self):
        for kind, call in [
            (ValueError, lambda: teldruf.build(ROW, "depth")),
            (TypeError, lambda: teldruf.open(ROW, "2")),
            (TypeError, lambda: teldruf.map(ROW, 2)),
            (TypeError, lambda: teldruf.map(ROW, "12")),
            (TypeError, lambda: teldruf.map(list(GREYS), [1])),
            (TypeError, lambda: teldruf.map(GREYS, [1])),
            (TypeError, lambda: teldruf.build(ROW._replace(raster=list(GREYS)))),
            (TypeError, lambda: teldruf.build(ROW._replace(raster=memoryview(GREYS).cast("b")))),
            (TypeError, lambda: teldruf.combined_map(GREYS, [1])),
            (TypeError, lambda: teldruf.open_triple(ROW, 2)),
            (TypeError, lambda: teldruf.open_triple(ROW, "222")),
            (ValueError, lambda: teldruf.open_triple(ROW, (2, 2))),
            (TypeError, lambda: teldruf.map_triples(ROW, [2, 2, 2])),
            (TypeError, lambda: teldruf.map_triples(ROW, (2, 2, 2))),
            (ValueError, lambda: teldruf.dark_map_triples(ROW, [(2, 2, 2), (3, 3)])),
            (ValueError, lambda: teldruf.combined_map_triples(ROW, [(2, 2, 2, 2)])),
            (TypeError, lambda: teldruf.map_triples(GREYS, [(1, 1, 1)])),
            (ValueError, lambda: teldruf.view_row(GREYS, GREYS, 7, 3, 0, "both")),
            (TypeError, lambda: teldruf.view_row(list(GREYS), GREYS, 7, 3, 0, 1)),
            (TypeError, lambda: teldruf.view_row(GREYS, memoryview(GREYS).cast("b"), 7, 3, 0, 1)),
            (TypeError, lambda: teldruf.view_row(GREYS, memoryview(GREYS * 2)[::2], 7, 3, 0, 1)),
            (TypeError, lambda: teldruf.read("P5")),
            (OSError, lambda: teldruf.load(os.path.join(FOLDER, "missing.so"))),
        ]:
            with self.assertRaises(kind):
                call()
        self.assertEqual(teldruf.read(FILE), ROW)  # the library that was loaded stays

    def test_words_are_those_of_the_header(self):
        lines = subprocess.run([os.path.join(FOLDER, "causes")], capture_output=True, text=True, check=True).stdout.splitlines()
        self.assertGreater(len(lines), 13)
        for line in lines:
            number, words = line.split("\t")
            self.assertEqual(teldruf.cause_text(int(number)), words)

    @unittest.skipIf(numpy is None, "numpy is not installed")
    def test_numpy_arrays_give_numpy_arrays(self):
        row = numpy.frombuffer(GREYS, numpy.uint8).reshape(3, 7)
        wide = numpy.zeros((6, 14), numpy.uint8)
        wide[::2, ::2] = row
        for image in row, wide[::2, ::2], numpy.asfortranarray(row), Picture(7, 3, 255, row):
            tree, maps = teldruf.build(image), teldruf.map(image, numpy.arange(1, 5))
            opened = teldruf.open(image, numpy.int64(2))
            opened = opened.raster if isinstance(opened, Picture) else opened
            for got, kind, expected in [(tree.parents, "uint32", PARENTS), (tree.attributes, "uint32", ATTRIBUTES),
                                        (opened, "uint8", list(OPENED_AT_2)), (maps.residue, "uint8", list(RESIDUE)),
                                        (maps.index, "uint16", INDEX)]:
                self.assertEqual((got.dtype.name, got.shape, got.ravel().tolist()), (kind, (3, 7), expected))
            got = tree.representatives
            self.assertEqual((got.dtype.name, got.shape, got.tolist()), ("uint32", (4,), REPRESENTATIVES))
            self.assertEqual(teldruf.write(image), FILE)
        self.assertEqual(teldruf.map(row.T, [6]).residue.shape, (7, 3))
        pitted = numpy.frombuffer(PITTED.raster, numpy.uint8).reshape(5, 5)
        dark, combined = teldruf.dark_map(pitted, [2, 10]), teldruf.combined_map(pitted, [2, 10])
        for got, kind, expected in [(dark.residue, "uint8", list(DARK[0])), (dark.index, "uint16", DARK[1]),
                                    (combined.residue, "uint8", list(COMBINED[0])), (combined.index, "uint16", COMBINED[1]),
                                    (combined.contrast, "int16", COMBINED[2])]:
            self.assertEqual((got.dtype.name, got.shape, got.ravel().tolist()), (kind, (5, 5), expected))
        threads, triples = numpy.frombuffer(THREADS.raster, numpy.uint8).reshape(6, 7), numpy.array(TRIPLES)
        by_triples = teldruf.combined_map_triples(threads, triples)
        for got, kind, expected in [(teldruf.open_triple(threads, triples[2]), "uint8", list(OPENED_BY_2_2_2)),
                                    (by_triples.index, "uint16", COMBINED_THREADS[1]),
                                    (by_triples.contrast, "int16", COMBINED_THREADS[2])]:
            self.assertEqual((got.dtype.name, got.shape, got.ravel().tolist()), (kind, (6, 7), expected))
        with self.assertRaises(TypeError):
            teldruf.map_triples(threads, triples.ravel())
        view = teldruf.view_row(combined.residue, dark.residue, 5, 5, 2, "dark")
        dark.residue[2, 4] = 9
        self.assertEqual(view.tolist(), [0, 0, 30, 0, 9])
        with self.assertRaises(TypeError):
            teldruf.view_row(combined.residue, dark.residue.T, 5, 5, 2, "light")
        for bad in row.astype(float), row.astype(bool), row.astype("uint16"), row[0], numpy.array(3, numpy.uint8):
            with self.assertRaises(TypeError):
                teldruf.map(bad, [1])
        for bad in numpy.array([1.0]), numpy.array([True]):
            with self.assertRaises(TypeError):
                teldruf.map(row, bad)


class Bursts(unittest.TestCase):
    def test_each_picture_by_its_number(self):
        for count in range(1, 1 + len(BURST)):
            file = b"".join(BURST_FILES[:count])
            for contents in file, bytearray(file), memoryview(file), memoryview(bytearray(b"0" + file))[1:]:
                self.assertEqual([teldruf.read(contents, number) for number in range(1, 1 + count)], BURST[:count])
                self.assertEqual(teldruf.read(contents), BURST[0])
                self.assertEqual(list(teldruf.pictures(contents)), BURST[:count])
            for number in 0, count + 1, 2 ** 32, 2 ** 32 + 1, 2 ** 63 + 1, 2 ** 64 - 1:
                self.assertEqual(answer(teldruf.read, file, number), 18)

    def test_numbers_are_never_cut(self):
        file = b"".join(BURST_FILES)
        for bad, kind in [(-1, ValueError), (2 ** 64, ValueError), (2 ** 64 + 1, ValueError), (1 - 2 ** 64, ValueError),
                          (True, TypeError), (1.0, TypeError), ("1", TypeError), (None, TypeError)]:
            with self.subTest(bad), self.assertRaises(kind):
                teldruf.read(file, bad)

    def test_the_first_fault_decides_whichever_picture_is_named(self):
        for count in range(len(BURST)):
            file = b"".join(BURST_FILES[:count])
            for cause, fault in FAULTS:
                for number in 0, 1, count, count + 1, count + 2, 2 ** 64 - 1:
                    self.assertEqual(answer(teldruf.read, file + fault, number), cause)
                self.assertEqual(answer(next, teldruf.pictures(file + fault)), cause)
                for _, further in FAULTS:
                    self.assertEqual(answer(teldruf.read, file + fault + further), plainly_read(file + fault + further, 1))
        for number in 0, 1, 2:
            self.assertEqual(answer(teldruf.read, b"", number), 8)

    def test_files_are_read_as_they_are_defined(self):
        random, causes = Random(18), set()
        whole = b"".join(BURST_FILES)
        for file in [whole[:length] for length in range(len(whole))] + [random_burst(random) for _ in range(2000)]:
            for number in 0, 1, 2, 3, 4, 5, 2 ** 32 + 1, 2 ** 64 - 1:
                expected = plainly_read(file, number)
                self.assertEqual(answer(teldruf.read, file, number), expected, (file, number))
                causes.add(expected if isinstance(expected, int) else 0)
            found = answer(list, teldruf.pictures(file))
            self.assertEqual(found[0] if isinstance(found, list) else found, plainly_read(file, 1))
            if isinstance(found, list):
                self.assertEqual(found, [plainly_read(file, number) for number in range(1, 1 + len(found))])
                self.assertEqual(plainly_read(file, len(found) + 1), 18)
        self.assertEqual(causes, {0, 1, 8, 9, 10, 11, 12, 18})

    def test_a_file_cut_within_its_first_header_or_raster(self):
        for first, picture in enumerate(BURST):
            file = b"".join(BURST_FILES[first:])
            header = len(BURST_FILES[first]) - len(picture.raster)  # its last white byte included
            for left in range(len(BURST_FILES[first])):
                cause = 8 if left < 2 else 9 if left < header else 11
                for number in 0, 1, 2, 2 ** 64 - 1:
                    self.assertEqual(answer(teldruf.read, file[:left], number), cause, (file[:left], number))

    def test_what_is_written_end_to_end_is_read_back(self):
        random = Random(3)
        for count in [*range(1, 18), 31, 32, 33, 1000]:
            written = []
            for _ in range(count):
                width, height, maximum = random.randint(1, 5), random.randint(1, 5), random.randint(1, 255)
                greys = bytes(random.randint(0, maximum) for _ in range(width * height))
                written.append(Picture(width, height, maximum, greys))
            file = b"".join(teldruf.write(picture) for picture in written)
            self.assertEqual(list(teldruf.pictures(file)), written)
            for number in {1, (1 + count) // 2, count}:
                self.assertEqual(teldruf.read(file, number), written[number - 1])
            self.assertEqual([answer(teldruf.read, file, number) for number in (0, count + 1)], [18, 18])

    def test_pictures_are_handed_out_one_by_one(self):
        file = bytearray(b"".join(BURST_FILES))
        burst = teldruf.pictures(file)
        self.assertIs(iter(burst), burst)
        file[:] = bytes(len(file))  # a copy was taken
        self.assertEqual([next(burst) for _ in BURST], BURST)
        self.assertRaises(StopIteration, next, burst)
        refused = teldruf.pictures(b"".join(BURST_FILES) + b"\n")
        self.assertEqual(answer(next, refused), 8)
        self.assertRaises(StopIteration, next, refused)
        for wrong in "P5", None, memoryview(FILE).cast("b"):
            self.assertRaises(TypeError, teldruf.pictures, wrong)  # at once, before one is asked for

    def test_a_byte_is_judged_once_a_halving(self):
        lent, call = [], teldruf._call

        def counting(name, start, length, *words):
            lent.append(length)
            return call(name, start, length, *words)

        file = b"P5 1 1 9 \5" * 2000
        with mock.patch.object(teldruf, "_call", counting):
            self.assertEqual(sum(1 for _ in teldruf.pictures(file)), 2000)
        self.assertLess(sum(lent), 26 * len(file))  # 12 numbers are tried, and 12 halvings

    @unittest.skipUnless(all(shutil.which(words[0]) for words, _ in NETPBM), "Netpbm's rawtopgm, pgmramp and pgmnoise are not installed")
    def test_files_of_netpbm_put_end_to_end_by_cat(self):
        with tempfile.TemporaryDirectory() as folder:
            names = [os.path.join(folder, words[0] + ".pgm") for words, _ in NETPBM]
            for name, (words, given) in zip(names, NETPBM):
                with open(name, "wb") as file:
                    subprocess.run(words, input=given, stdout=file, check=True)
            files = [subprocess.run(["cat", name], stdout=subprocess.PIPE, check=True).stdout for name in names]
            burst = subprocess.run(["cat", *names], stdout=subprocess.PIPE, check=True).stdout
        alone = [teldruf.read(file) for file in files]
        self.assertEqual([(picture.width, picture.height) for picture in alone], [(7, 3), (40, 3), (5, 4)])
        self.assertEqual(alone[0].raster, GREYS)
        self.assertEqual([teldruf.read(burst, number) for number in (1, 2, 3)], alone)
        self.assertEqual(list(teldruf.pictures(burst)), alone)
        self.assertEqual([answer(teldruf.read, burst, number) for number in (0, 4)], [18, 18])


class Hosts(unittest.TestCase):
    def setUp(self):
        folder = tempfile.TemporaryDirectory()
        self.addCleanup(folder.cleanup)
        self.folder = folder.name
        self.picture = self.file("row.pgm", FILE)
        self.out = self.path("residue.pgm"), self.path("index.pgm")
        self.contrast = self.path("contrast.ppm")

    def path(self, name):
        return os.path.join(self.folder, name)

    def file(self, name, contents):
        with open(self.path(name), "wb") as file:
            file.write(contents)
        return self.path(name)

    def contents(self, *more):
        """What the hosts wrote, and then removed."""
        found = []
        for name in (*self.out, *more):
            with open(name, "rb") as file:
                found.append(file.read())
            os.remove(name)
        return found

    def fails(self, status, words, *arguments, **limits):
        """Both hosts end with this status and the same single sentence, in which these words stand."""
        sentences = set()
        for host in HOSTS:
            ended = subprocess.run([*host, *arguments], capture_output=True, text=True, timeout=60, **limits)
            self.assertEqual((ended.returncode, ended.stdout), (status, ""), ended.stderr)
            sentences.add(ended.stderr)
        self.assertEqual(len(sentences), 1, sentences)
        sentence = sentences.pop()
        self.assertRegex(sentence, r"\Ahost: [^\n]+\n\Z")
        self.assertIn(words, sentence)

    def test_maps(self):
        for host in HOSTS:
            for words, residue, index in [
                ([], RESIDUE, INDEX),
                (["gap=0"], RESIDUE, INDEX),
                (["neighbours=8", "gap=1"], RESIDUE, INDEX),
                (["gap=2"], JOINED_RESIDUE, JOINED_INDEX),
                (["neighbours=4", "gap=0000000256"], JOINED_RESIDUE, JOINED_INDEX),
            ]:
                subprocess.run([*host, self.picture, *self.out, "area", *words, "1", "2", "3", "4"], check=True)
                self.assertEqual(self.contents(), [b"P5\n7 3\n255\n" + residue, b"P5\n7 3\n256\n" + index_bytes(index)])

    def test_dark_and_combined_maps(self):
        picture = self.file("pitted.pgm", b"P5\n5 5\n255\n" + PITTED.raster)
        residue_head, index_head, contrast_head = b"P5\n5 5\n255\n", b"P5\n5 5\n256\n", b"P6\n5 5\n255\n"
        for host in HOSTS:
            for words in [], ["neighbours=8"], ["gap=1"], ["neighbours=4", "gap=256"]:
                subprocess.run([*host, "--dark", picture, *self.out, "area", *words, "2", "10"], check=True)
                self.assertEqual(self.contents(), [residue_head + DARK[0], index_head + index_bytes(DARK[1])])
                self.assertFalse(os.path.exists(self.contrast))
                subprocess.run([*host, "--combined", self.contrast, picture, *self.out, "area", *words, "2", "10"], check=True)
                residue, index, contrast = COMBINED
                self.assertEqual(self.contents(self.contrast), [residue_head + residue, index_head + index_bytes(index),
                                                                contrast_head + contrast_bytes(contrast)])

    def test_maps_by_triples(self):
        picture = self.file("threads.pgm", b"P5\n7 6\n255\n" + THREADS.raster)
        steps = [",".join(str(part) for part in triple) for triple in TRIPLES]
        residue_head, index_head, contrast_head = b"P5\n7 6\n255\n", b"P5\n7 6\n256\n", b"P6\n7 6\n255\n"
        for host in HOSTS:
            for sides, words, (residue, index) in [
                ([], [], LIGHT_THREADS), ([], ["neighbours=8", "gap=2"], LIGHT_THREADS), ([], ["gap=3"], JOINED_THREADS),
                (["--dark"], [], DARK_THREADS), (["--dark"], ["neighbours=4", "gap=256"], DARK_THREADS),
            ]:
                subprocess.run([*host, *sides, picture, *self.out, "triple", *words, *steps], check=True)
                self.assertEqual(self.contents(), [residue_head + residue, index_head + index_bytes(index)])
            subprocess.run([*host, "--combined", self.contrast, picture, *self.out, "triple", *steps], check=True)
            residue, index, contrast = COMBINED_THREADS
            self.assertEqual(self.contents(self.contrast), [residue_head + residue, index_head + index_bytes(index),
                                                            contrast_head + contrast_bytes(contrast)])

    def test_each_picture_of_a_burst_has_the_maps_of_its_own_file(self):
        names = [self.file(f"{number}.pgm", contents) for number, contents in enumerate(BURST_FILES, 1)]
        names += [os.path.join(FOLDER, "basin.pgm"), os.path.join(FOLDER, "backlit.pgm")]
        with open(self.path("burst.pgm"), "wb") as file:
            subprocess.run(["cat", *names], stdout=file, check=True)
        for host in HOSTS:
            for sides, more in ([], []), (["--dark"], []), (["--combined", self.contrast], [self.contrast]):
                for number, name in enumerate(names, 1):
                    words = *self.out, "area", "neighbours=8", "gap=1", "2", "8", "64"
                    subprocess.run([*host, *sides, name, *words], check=True)
                    expected = self.contents(*more)
                    for named in [["--picture", str(number)], ["--picture", str(number).zfill(20)]] + [[]] * (number == 1):
                        subprocess.run([*host, *sides, *named, self.path("burst.pgm"), *words], check=True)
                        self.assertEqual(self.contents(*more), expected)

    def test_a_burst_may_be_long_and_come_through_a_pipe(self):
        large = Picture(1024, 1024, 255, bytes(1024 * 1024))
        file = self.file("long.pgm", teldruf.write(large) * 9 + FILE)
        for host in HOSTS:
            subprocess.run([*host, "--picture", "10", file, *self.out, "area", "1", "2", "3", "4"], check=True)
            found = self.contents()
            self.assertEqual(found, [b"P5\n7 3\n255\n" + RESIDUE, b"P5\n7 3\n256\n" + index_bytes(INDEX)])
            with subprocess.Popen(["cat", file], stdout=subprocess.PIPE) as cat:
                subprocess.run([*host, "--picture", "10", "/dev/stdin", *self.out, "area", "1", "2", "3", "4"], stdin=cat.stdout, check=True)
            self.assertEqual(self.contents(), found)

    def test_refused_bursts(self):
        for number, named, contents in [
            (18, "0", FILE), (18, "2", FILE), (18, "3", FILE * 2), (18, "4294967297", FILE), (18, "18446744073709551615", FILE),
            (8, "1", FILE + b"\n"), (8, "2", FILE * 2 + b"\n"), (8, "0", b""), (8, "1", FILE + b"\n" + FILE),
            (9, "1", FILE + b"P5"), (10, "1", FILE + b"P5 1 1 256\n\0\0"), (1, "1", FILE + b"P5 0 1 9 "),
            (11, "1", FILE + FILE[:-1]), (11, "0", FILE + FILE[:-1]), (12, "1", FILE + b"P5 1 1 9 \x0a"),
        ]:
            picture = self.file("refused.pgm", contents)
            for sides in [], ["--dark"], ["--combined", self.contrast]:
                words = *sides, "--picture", named, picture, *self.out, "area", "1"
                self.fails(1, f"refused {number}: {teldruf.cause_text(number)}", *words)
        self.assertFalse(any(os.path.exists(name) for name in (*self.out, self.contrast)))

    def test_hosts_agree_on_a_basin_by_triples(self):
        found = []
        for host in HOSTS:
            for sides, more in ([], []), (["--dark"], []), (["--combined", self.contrast], [self.contrast]):
                words = "triple", "neighbours=8", "gap=1", "8,0,0", "8,3,0", "8,3,3", "32,0000000005,5"
                subprocess.run([*host, *sides, os.path.join(FOLDER, "backlit.pgm"), *self.out, *words], check=True)
                found.append(self.contents(*more))
        self.assertEqual(found[:3], found[3:])
        self.assertTrue(all(len(set(maps)) == 3 for maps in zip(*found[:3])))

    def test_steps_are_triples_with_two_zeros(self):
        for host in HOSTS:
            for words, triples in [
                (("area", "8", "32"), ("8,0,0", "32,0,0")),
                (("height", "2", "1048577"), ("0,2,0", "0,1048577,0")),
                (("width", "3", "9"), ("0,0,3", "0,0,9")),
            ]:
                subprocess.run([*host, os.path.join(FOLDER, "basin.pgm"), *self.out, *words], check=True)
                found = self.contents()
                subprocess.run([*host, os.path.join(FOLDER, "basin.pgm"), *self.out, "triple", *triples], check=True)
                self.assertEqual(self.contents(), found)

    def test_every_contrast_has_its_colour(self):
        greys = [grey for c in range(1, 256) for grey in (0, c, 0, 255, 255 - c, 255)]
        rows = [0 if p % 6 < 3 else 255 for p in range(len(greys))]  # the same without the pixel that stands out
        picture = self.file("contrasts.pgm", b"P5 1530 3 255\n" + bytes(rows + greys + rows))
        for host in HOSTS:
            subprocess.run([*host, "--combined", self.contrast, picture, *self.out, "area", "2"], check=True)
            head, found = b"P6\n1530 3\n255\n", self.contents(self.contrast)[2]
            self.assertEqual(found[:len(head)], head)
            middle = found[len(head) + 3 * 1530:]
            for c in range(1, 256):
                at = 18 * (c - 1)
                self.assertEqual(middle[at + 3:at + 6], colour(c))
                self.assertEqual(middle[at + 12:at + 15], colour(-c))

    def test_corners_join_with_8_neighbours(self):
        picture = self.file("corners.pgm", CORNERS_FILE)
        for host in HOSTS:
            for word, neighbours in ([], 4), (["neighbours=4"], 4), (["neighbours=8"], 8), (["neighbours=0000000008"], 8):
                subprocess.run([*host, picture, *self.out, "area", *word, "2"], check=True)
                residue, index = BY_NEIGHBOURS[neighbours][2]
                self.assertEqual(self.contents(), [b"P5\n4 4\n255\n" + residue, b"P5\n4 4\n256\n" + index_bytes(index)])

    def test_hosts_agree_on_a_basin_with_8_neighbours_and_with_a_gap(self):
        found = []
        for host in HOSTS:
            for named in ["neighbours=4"], ["neighbours=8"], ["neighbours=8", "gap=2"]:
                words = "height", *named, "2", "4", "8", "16"
                subprocess.run([*host, os.path.join(FOLDER, "basin.pgm"), *self.out, *words], check=True)
                found.append(self.contents())
        self.assertEqual(found[:3], found[3:])
        self.assertTrue(all(len(set(maps)) == 3 for maps in zip(*found[:3])))

    def test_hosts_agree_on_a_back_lit_basin(self):
        found = []
        for host in HOSTS:
            for sides, more in (["--dark"], []), (["--combined", self.contrast], [self.contrast]):
                words = "width", "neighbours=8", "gap=1", "2", "4", "8", "16"
                subprocess.run([*host, *sides, os.path.join(FOLDER, "backlit.pgm"), *self.out, *words], check=True)
                found.append(self.contents(*more))
        self.assertEqual(found[:2], found[2:])
        self.assertTrue(all(dark != combined for dark, combined in zip(*found[:2])))

    def test_every_index_is_kept(self):
        picture = self.file("long.pgm", b"P5 258 3 9\n" + bytes(258) + b"\0" + b"\x09" * 255 + b"\0\0" + bytes(258))
        steps = [str(step) for step in range(1, 257)]
        for host in HOSTS:
            subprocess.run([*host, picture, *self.out, "area", *steps], check=True)
            self.assertEqual(self.contents()[1], b"P5\n258 3\n256\n" + bytes(518) + b"\1\0" * 255 + bytes(520))

    def test_wrong_use(self):
        for word in "8x", "4294967304", "-1", "+8", "", " 8", "8 ", "0x8", "8.0", "99999999999999999999":
            self.fails(2, f"'{word}' is no step", self.picture, *self.out, "area", "1", word)
        for word in [
            "8", "8,3", "8,3,0,0", "8,3,", ",3,0", "8,,0", ",,", "8,3,x", "-8,3,0", "8,+3,0", "8, 3,0", "8,3,0 ", "8,3,4294967296",
            "8,00000000003,0", "8.0,3,0", "8;3;0", "8 3 0", "(8,3,0)", "",
        ]:
            self.fails(2, f"'{word}' is no step: triples are area,height,width", self.picture, *self.out, "triple", "1,0,0", word)
        self.fails(2, "'1,0,0' is no step: steps are whole numbers", self.picture, *self.out, "area", "1,0,0")
        for word in "depth", "triples", "Triple", "area,height,width", "":
            self.fails(2, f"'{word}' is no attribute", self.picture, *self.out, word, "1")
        for number in "", "8x", "4294967304", "-8", " 8", "8 ", "0x8", "00000000008", "four":
            self.fails(2, f"'neighbours={number}' names no neighbours", self.picture, *self.out, "area", f"neighbours={number}", "1")
        for number in "", "2x", "4294967296", "-2", "+2", " 2", "2 ", "0x2", "00000000002", "2.0", "two":
            for named in [], ["neighbours=8"]:
                self.fails(2, f"'gap={number}' names no gap", self.picture, *self.out, "area", *named, f"gap={number}", "1")
        for words in [
            ("1", "neighbours=8"), ("neighbours=8", "neighbours=8", "1"), ("neighbours", "1"), ("Neighbours=8", "1"),
            ("1", "gap=2"), ("gap=2", "gap=2", "1"), ("gap=2", "neighbours=8", "1"), ("gap", "1"), ("Gap=2", "1"),
        ]:
            self.fails(2, "' is no step", self.picture, *self.out, "area", *words)
        files = self.picture, *self.out
        for word, words in [
            ("--combined", ("--dark", "--combined", self.contrast, *files)),
            ("--dark", ("--combined", self.contrast, "--dark", *files)),
            ("--dark", ("--combined", "--dark", *files)),
            ("--dark", ("--dark", "--dark", *files)),
            ("--dark", (self.picture, "--dark", self.out[0])),
            ("--combined", (*self.out, "--combined")),
            ("--picture", ("--picture", "1", "--picture", "1", *files)),
            ("--picture", ("--combined", "--picture", "1", *files)),
            ("--picture", (self.picture, "--picture", "1", *self.out)),
            ("--dark", ("--picture", "1", "--dark", *files)),
            ("--combined", ("--picture", "1", "--combined", self.contrast, *files)),
            ("--picture=1", ("--picture=1", *files)),
            ("--pictures", ("--pictures", "1", *files)),
            ("--light", ("--light", *files)),
            ("--dark=", ("--dark=", *files)),
            ("--", ("--", *files)),
        ]:
            self.fails(2, f"'{word}' is no file", *words, "area", "1", "2")
        self.fails(2, "'1' is no attribute", "--combined", *files, "area", "1", "2")  # without the contrast's file
        for word in [
            "", "x", "1x", "-1", "+1", " 1", "1 ", "0x1", "1.0", "1,2", "first", self.picture, "--dark", "18446744073709551616",
            "99999999999999999999", "000000000000000000001", "184467440737095516170",
        ]:
            for sides in [], ["--dark"], ["--combined", self.contrast]:
                self.fails(2, f"'{word}' numbers no picture", *sides, "--picture", word, *files, "area", "1")
        self.fails(2, "'--dark' is no step", *files, "area", "1", "--dark")
        for host in HOSTS:
            for words in [
                [], files, [*files, "area"], [*files, "area", "neighbours=8"], [*files, "area", "gap=2"], [*files, "triple"],
                ["--dark"], ["--dark", *files, "area"], ["--combined"], ["--combined", self.contrast],
                ["--combined", self.contrast, *files, "area"], ["--combined", *files, "area", "1"],
                ["--picture"], ["--picture", "1"], ["--picture", "1", *files, "area"], ["--picture", *files, "area", "1"],
                ["--dark", "--picture"], ["--dark", "--picture", "1", *files, "area"],
                ["--combined", self.contrast, "--picture", "1", *files, "area"],
            ]:
                ended = subprocess.run([*host, *words], capture_output=True, text=True)
                self.assertEqual(ended.returncode, 2)
                self.assertIn("usage: ", ended.stderr)
        self.assertFalse(any(os.path.exists(name) for name in (*self.out, self.contrast)))

    def test_refusals(self):
        for number, words, contents in [
            (4, ("area", "0"), FILE),
            (4, ("area", "4294967295"), FILE),
            (8, ("area", "1"), b""),
            (11, ("area", "1"), FILE[:-1]),
            (17, ("area", "neighbours=5", "1"), FILE),
            (17, ("area", "neighbours=4294967295", "0"), FILE),
            (17, ("area", "neighbours=5", "gap=257", "1"), FILE),
            (4, ("area", "gap=257", "0"), FILE),
            (19, ("area", "gap=257", "1"), FILE),
            (19, ("area", "gap=4294967295", "1"), FILE),
            (4, ("triple", "0,0,0"), FILE),
            (4, ("triple", "4,2,2", "4,2,2"), FILE),
            (4, ("triple", "4,2,2", "5,1,2"), FILE),
            (4, ("triple", "0,0,4294967295"), FILE),
            (8, ("triple", "0,0,0"), b""),
            (17, ("triple", "neighbours=5", "0,0,0"), FILE),
            (4, ("triple", "gap=257", "1,0,0", "0,1,0"), FILE),
            (19, ("triple", "gap=257", "1,0,0"), FILE),
        ]:
            picture = self.file("refused.pgm", contents)
            for sides in [], ["--dark"], ["--combined", self.contrast]:
                self.fails(1, f"refused {number}: {teldruf.cause_text(number)}", *sides, picture, *self.out, *words)
        self.assertFalse(any(os.path.exists(name) for name in (*self.out, self.contrast)))

    def test_files_that_cannot_be_read(self):
        self.fails(1, "cannot be read: Is a directory", self.folder, *self.out, "area", "1")
        self.fails(1, "cannot be read: No such file", self.path("missing.pgm"), *self.out, "area", "1")
        self.fails(1, "refused 8", "/dev/zero", *self.out, "area", "1")  # which has no end

    def test_a_file_longer_than_the_memory(self):
        long, most = self.file("long.pgm", b"P5 "), 2 ** 29
        os.truncate(long, 8 * most)  # of which the disk has the first bytes alone
        self.fails(1, "long.pgm: too long for the memory that there is", long, *self.out, "area", "1",
                   preexec_fn=lambda: resource.setrlimit(resource.RLIMIT_AS, (most, most)))

    def test_files_that_cannot_be_written(self):
        large = self.file("large.pgm", b"P5 1024 1024 255\n" + bytes(1024 * 1024))
        for picture in self.picture, large:
            self.fails(1, "/dev/full: cannot be written whole: No space", picture, "/dev/full", self.out[1], "area", "1")
            self.fails(1, "/dev/full: cannot be written whole: No space", picture, self.out[0], "/dev/full", "area", "1")
        for name, words in ("/dev/full", "cannot be written whole: No space"), ("", "cannot be written: No such file"):
            self.fails(1, f"{name}: {words}", "--combined", name, self.picture, *self.out, "area", "1")
        missing = os.path.join(self.path("missing"), "residue.pgm")
        self.fails(1, "cannot be written: No such file", self.picture, missing, self.out[1], "area", "1")

    def test_a_header_may_be_long_and_the_picture_large(self):
        picture = self.file("comments.pgm", b"P5 #" + b" " * 1048500 + b"\n1024 1024 255\n" + bytes(1024 * 1024))
        for host in HOSTS:
            subprocess.run([*host, picture, *self.out, "width", "1"], check=True)


class Colours(unittest.TestCase):
    def test_pictures_keep_their_samples(self):
        for name, head, across, colour in ("basin.pgm", b"P5\n512 384\n255\n", 512, 0), ("contrast.ppm", b"P6\n512 384\n255\n", 1536, 2):
            with open(os.path.join(FOLDER, name), "rb") as file, open(os.path.join(FOLDER, name[:-3] + "png"), "rb") as made:
                contents, png = file.read(), made.read()
            self.assertEqual((contents[:len(head)], *struct.unpack(">IIBB", png[16:26])), (head, 512, 384, 8, colour))
            raster = contents[len(head):]
            packed = struct.unpack(">I", png[33:37])[0]
            rows = [b"\0" + raster[at:at + across] for at in range(0, len(raster), across)]
            self.assertEqual(zlib.decompress(png[41:41 + packed]), b"".join(rows))

    def test_any_size_and_number_of_steps(self):
        for width, height, count in (1, 1, 1), (3, 1, 2), (300, 2, 16), (2, 300, 17), (4096, 3, 256):
            with self.subTest(width=width, height=height, count=count):
                steps = list(range(1048578 - count, 1048578))
                index = [p % (count + 1) for p in range(width * height)]
                png = index_to_png.coloured(width, height, index, "height", steps)
                wide, high = struct.unpack(">II", png[16:24])
                self.assertTrue(wide >= width and high > height)
                packed = struct.unpack(">I", png[33:37])[0]
                self.assertEqual(len(zlib.decompress(png[41:41 + packed])), (1 + 3 * wide) * high)

    def test_up_to_16_steps_have_a_colour_and_a_name_each(self):
        for count in range(1, 17):
            colours = index_to_png.colours_of(count)
            self.assertEqual(len(set(colours)), 1 + count)
            for attribute, form in ("area", "{}"), ("triple", "{},0,1048577"):
                steps = [form.format(step) for step in range(1, 1 + count)]
                entries = index_to_png.entries_of(attribute, steps, colours)
                self.assertEqual([name for name, _ in entries], [attribute, "none", *steps])
                self.assertEqual(len(index_to_png.dots_of(*entries[0])[0]), index_to_png.LETTER_WIDTH * (len(attribute) + 1))
        self.assertEqual(len(set(index_to_png.colours_of(256))), 257)

    def test_words_are_the_hosts(self):
        with tempfile.TemporaryDirectory() as folder:
            png = os.path.join(folder, "index.png")
            command = [sys.executable, os.path.join(HERE, "index_to_png.py"), os.path.join(FOLDER, "index.pgm"), png, "area"]
            steps = [str(2 ** k) for k in range(10)]
            pictures = set()
            for words in [], ["neighbours=4"], ["neighbours=8"], ["neighbours=08"], ["gap=0"], ["neighbours=8", "gap=0256"]:
                subprocess.run([*command, *words, *steps], check=True)
                with open(png, "rb") as file:
                    pictures.add(file.read())
            self.assertEqual(len(pictures), 1)
            for words in [
                ["neighbours=8"], ["neighbours=5", *steps], ["neighbours=8x", *steps], [*steps, "neighbours=8"],
                ["gap=2"], ["gap=257", *steps], ["gap=2x", *steps], ["gap=2", "neighbours=8", *steps], [*steps, "gap=2"],
            ]:
                self.assertEqual(subprocess.run([*command, *words], capture_output=True).returncode, 2)
            command[-1] = "triple"
            subprocess.run([*command, "neighbours=8", *(f"{step},0,0" for step in steps)], check=True)
            with open(png, "rb") as file:
                self.assertNotIn(file.read(), pictures)
            for words in steps, [f"{steps[0]},0"], ["1,0,0,0"], ["1,0,x"], ["1,,0"]:
                self.assertEqual(subprocess.run([*command, *words], capture_output=True).returncode, 2)
            command[-1] = "area"
            self.assertEqual(subprocess.run([*command, "1,0,0"], capture_output=True).returncode, 2)


if __name__ == "__main__":
    teldruf.load(LIBRARY)
    result = unittest.main(exit=False).result
    for test, why in result.skipped:
        print(f"skipped: {test}: {why}")
    sys.exit(not result.wasSuccessful())
