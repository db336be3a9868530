"""Maps a picture as host.c does, through the module python/teldruf.py and a shared library that is made from the static one:

    gcc -shared -o libteldruf.so -Wl,--whole-archive crates/teldruf/out/libteldruf.a -Wl,--no-whole-archive
    python3 examples/host.py ./libteldruf.so [--dark | --combined CONTRAST] [--picture N] PICTURE RESIDUE INDEX \\
        area|height|width|triple [neighbours=4|8] [gap=GAP] STEP..

What the words mean, the files that are written and the exit status are host.c's.
"""

import os
import re
import sys
from typing import List, NamedTuple, Optional, Union

sys.path.insert(0, os.path.join(os.path.dirname(os.path.abspath(__file__)), os.pardir, "python"))
import teldruf

REFUSED, WRONG_USE = 1, 2
MOST_INDEX = 256
NAMING_NEIGHBOURS, NAMING_GAP = "neighbours=", "gap="
TRIPLE = "triple"  # stands for an attribute where steps are triples


class Failure(Exception):
    """Ends the program with a status and a sentence."""

    def __init__(self, status, sentence):
        super().__init__(sentence)
        self.status = status


def read_file(name):
    """The whole file, however long. One that does not start with P5 is refused whatever follows, so it is not read on: it may have no
    end."""
    try:
        with open(name, "rb") as file:
            start = file.peek(2)[:2]
            return file.read() if b"P5".startswith(start) else start
    except OSError as fault:
        raise Failure(REFUSED, f"{name}: cannot be read: {fault.strerror}")
    except MemoryError:
        raise Failure(REFUSED, f"{name}: too long for the memory that there is")


def write_file(name, contents):
    try:
        file = open(name, "wb")
    except OSError as fault:
        raise Failure(REFUSED, f"{name}: cannot be written: {fault.strerror}")
    try:
        with file:
            file.write(contents)
    except OSError as fault:
        raise Failure(REFUSED, f"{name}: cannot be written whole: {fault.strerror}")


def index_file(picture, index):
    """The library writes a byte a sample, so this file is made here."""
    head = f"P5\n{picture.width} {picture.height}\n{MOST_INDEX}\n".encode()
    if sys.byteorder == "little":
        index.byteswap()
    return head + index.tobytes()


def contrast_file(picture, contrast):
    """For each pixel red, green and blue: light floc in orange, dark floc in blue, twice as bright as its residue."""
    head = f"P6\n{picture.width} {picture.height}\n255\n".encode()
    bright = [min(2 * residue, 255) for residue in range(256)]
    colours = {c: bytes((bright[max(c, 0)], bright[abs(c)] // 2, bright[max(-c, 0)])) for c in range(-255, 256)}
    return head + b"".join([colours[c] for c in contrast])


def is_number(word, most_digits=10, bits=32):
    """A number is 1 to so many digits and nothing else, and has so many bits; whether it is a step, 4 or 8, a gap, or a picture's number,
    the library judges."""
    return re.fullmatch(f"[0-9]{{1,{most_digits}}}", word) is not None and int(word) < 2 ** bits


def step_of(word):
    if not is_number(word):
        raise Failure(WRONG_USE, f"'{word}' is no step: steps are whole numbers from 1 to 1048577, in 1 to 10 digits and nothing else")
    return int(word)


def triple_of(word):
    parts = word.split(",")
    if len(parts) != 3 or not all(is_number(part) for part in parts):
        raise Failure(WRONG_USE, f"'{word}' is no step: triples are area,height,width, whole numbers from 0 to 1048577, in 1 to 10 digits "
                                 "each and nothing else")
    return teldruf.Triple(*[int(part) for part in parts])


def starts(words, place, start):
    """Whether there is a word at this place, and it starts so."""
    return len(words) > place and words[place].startswith(start)


def picture_named(word):
    if not is_number(word, 20, 64):
        raise Failure(WRONG_USE, f"'{word}' numbers no picture: a picture's number is whole, from 1, in 1 to 20 digits and within 64 bits")
    return int(word)


def neighbours_named(word):
    number = word[len(NAMING_NEIGHBOURS):]
    if not is_number(number):
        raise Failure(WRONG_USE, f"'{word}' names no neighbours: neighbours=4 or neighbours=8")
    return int(number)


def gap_named(word):
    number = word[len(NAMING_GAP):]
    if not is_number(number):
        raise Failure(WRONG_USE, f"'{word}' names no gap: gap=0 to gap=256")
    return int(number)


def file_named(word):
    if word.startswith("--"):
        raise Failure(WRONG_USE, f"'{word}' is no file: one of --dark and --combined may stand first, then --picture, and nothing else "
                                 "starts with --")
    return word


class Task(NamedTuple):
    """What the words ask for; contrast is a file if light and dark are combined, else None."""

    dark: bool
    contrast: Optional[str]
    number: int
    picture: str
    residue: str
    index: str
    attribute: str
    neighbours: int
    gap: int
    steps: Union[List[int], List[teldruf.Triple]]


def read_words(words):
    """The words after the library, which is the first."""
    dark, combined = words[1:2] == ["--dark"], words[1:2] == ["--combined"]
    sides = 1 + dark + 2 * combined  # where a picture may be numbered
    numbered = words[sides:sides + 1] == ["--picture"]
    files = sides + 2 * numbered  # where the picture's file is named
    second = files + 4 + starts(words, files + 4, NAMING_NEIGHBOURS)  # where a gap may be named
    first = second + starts(words, second, NAMING_GAP)  # where the steps start
    if len(words) <= first:
        raise Failure(WRONG_USE, "usage: LIBRARY [--dark | --combined CONTRAST] [--picture N] PICTURE RESIDUE INDEX "
                                 "area|height|width|triple [neighbours=4|8] [gap=GAP] STEP..")
    contrast = file_named(words[2]) if combined else None
    number = picture_named(words[sides + 1]) if numbered else 1
    picture, residue, index = [file_named(word) for word in words[files:files + 3]]
    attribute = words[files + 3]
    if attribute not in (*teldruf.ATTRIBUTES, TRIPLE):
        raise Failure(WRONG_USE, f"'{attribute}' is no attribute: area, height, width or triple")
    neighbours = neighbours_named(words[files + 4]) if second > files + 4 else 4
    gap = gap_named(words[second]) if first > second else 0
    steps = [triple_of(word) if attribute == TRIPLE else step_of(word) for word in words[first:]]
    return Task(dark, contrast, number, picture, residue, index, attribute, neighbours, gap, steps)


def maps_of(task, picture):
    words = {"neighbours": task.neighbours, "gap": task.gap}
    if task.attribute == TRIPLE:
        call = teldruf.dark_map_triples if task.dark else teldruf.map_triples
        return (call if task.contrast is None else teldruf.combined_map_triples)(picture, task.steps, **words)
    call = teldruf.dark_map if task.dark else teldruf.map
    return (call if task.contrast is None else teldruf.combined_map)(picture, task.steps, task.attribute, **words)


def main(words):
    task = read_words(words)
    try:
        teldruf.load(words[0])
    except OSError as fault:
        raise Failure(REFUSED, f"{words[0]}: cannot be loaded: {fault}")
    contents = read_file(task.picture)
    try:
        picture = teldruf.read(contents, task.number)
        maps = maps_of(task, picture)
        residue_file = teldruf.write(picture._replace(maximum=255, raster=maps.residue))
    except teldruf.Refused as refusal:
        raise Failure(REFUSED, f"{task.picture}: {refusal}")
    write_file(task.residue, residue_file)
    write_file(task.index, index_file(picture, maps.index))
    if task.contrast is not None:
        write_file(task.contrast, contrast_file(picture, maps.contrast))


if __name__ == "__main__":
    try:
        main(sys.argv[1:])
    except Failure as failure:
        print(f"host: {failure}", file=sys.stderr)
        sys.exit(failure.status)
