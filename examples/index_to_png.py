"""Turns an index map, as the hosts write it, into a PNG file for people: a colour a step, and a legend that names the steps.

    python3 examples/index_to_png.py INDEX.pgm INDEX.png area|height|width|triple [neighbours=4|8] [gap=GAP] STEP..

The words after the files are those that the host was given; neighbours and gap change nothing here. A pixel without residue is dark
grey, `none` in the legend. Up to 16 steps have a colour and a name each; more share a ramp of colours, of which the legend names
the first and last step of each part.
"""

import re
import sys

from pgm_to_png import RGB, png, read_picture, run, wrong_use

MOST_INDEX = 256
MOST_GAP = 256
MOST_NAMES = 16
LEAST_SIDE = 256  # a picture that is smaller both ways is magnified

PAPER, INK, NONE = bytes((0, 0, 0)), bytes((235, 235, 235)), bytes((56, 56, 56))

# From small to large, dark to bright, so that large floc stands out from the noise.
RAMP = [
    (60, 35, 140), (20, 90, 215), (0, 130, 190), (0, 130, 115), (0, 155, 60), (85, 160, 0), (170, 205, 90), (205, 165, 0),
    (230, 115, 0), (200, 50, 20), (225, 20, 90), (235, 90, 175), (190, 110, 245), (130, 170, 255), (140, 235, 225), (255, 250, 195),
]

# Letters of 5 x 7 dots: the digits, and what else stands in a legend.
FONT = {
    "0": ".###. #...# #..## #.#.# ##..# #...# .###.",
    "1": "..#.. .##.. ..#.. ..#.. ..#.. ..#.. .###.",
    "2": ".###. #...# ....# ...#. ..#.. .#... #####",
    "3": ".###. #...# ....# ..##. ....# #...# .###.",
    "4": "...#. ..##. .#.#. #..#. ##### ...#. ...#.",
    "5": "##### #.... ####. ....# ....# #...# .###.",
    "6": "..##. .#... #.... ####. #...# #...# .###.",
    "7": "##### ....# ...#. ..#.. .#... .#... .#...",
    "8": ".###. #...# #...# .###. #...# #...# .###.",
    "9": ".###. #...# #...# .#### ....# ...#. .##..",
    "-": "..... ..... ..... .###. ..... ..... .....",
    ",": "..... ..... ..... ..... ..##. ..#.. .#...",
    "a": "..... ..... .###. ....# .#### #...# .####",
    "d": "....# ....# .##.# #..## #...# #...# .####",
    "e": "..... ..... .###. #...# ##### #.... .###.",
    "g": "..... .#### #...# #...# .#### ....# .###.",
    "h": "#.... #.... #.##. ##..# #...# #...# #...#",
    "i": "..#.. ..... .##.. ..#.. ..#.. ..#.. .###.",
    "l": ".##.. ..#.. ..#.. ..#.. ..#.. ..#.. .###.",
    "n": "..... ..... #.##. ##..# #...# #...# #...#",
    "o": "..... ..... .###. #...# #...# #...# .###.",
    "p": "..... ..... ####. #...# ####. #.... #....",
    "r": "..... ..... #.##. ##..# #.... #.... #....",
    "t": ".#... .#... ###.. .#... .#... .#..# ..##.",
    "w": "..... ..... #...# #...# #.#.# #.#.# .#.#.",
}
LETTER_WIDTH, LETTER_HEIGHT = 6, 7
SWATCH = 16  # dots, as wide as the most steps that a part of the ramp has
LINE_HEIGHT = LETTER_HEIGHT + 4
MARGIN = 3


def colours_of(steps):
    """The colour of each index: none, then one a step, spread evenly over the ramp; the last step has the brightest."""
    colours, last = [NONE], len(RAMP) - 1
    for i in range(steps):
        at = last - last * (steps - 1 - i) / max(steps - 1, 1)
        if steps <= len(RAMP):
            at = round(at)  # a colour of the ramp itself, since those between are less distinct
        low, part = int(at), at - int(at)
        high = min(low + 1, last)
        colours.append(bytes(round(a + (b - a) * part) for a, b in zip(RAMP[low], RAMP[high])))
    return colours


def entries_of(attribute, steps, colours):
    """What the legend says: the attribute, then name and colours of each entry."""
    entries = [(attribute, []), ("none", [NONE])]
    count = min(len(steps), MOST_NAMES)
    for k in range(count):
        first, after = k * len(steps) // count, (k + 1) * len(steps) // count
        names = [str(steps[first])] + ([str(steps[after - 1])] if after - first > 1 else [])
        entries.append(("-".join(names), colours[1 + first:1 + after]))
    return entries


def dots_of(name, colours):
    """An entry as rows of dots: a swatch that the colours share from left to right, and the name."""
    swatch = [colours[x * len(colours) // SWATCH] for x in range(SWATCH)] + [PAPER] * MARGIN if colours else []
    rows = []
    for y in range(LETTER_HEIGHT):
        letters = "".join(FONT[letter].split()[y] + "." for letter in name)
        rows.append(swatch + [INK if dot == "#" else PAPER for dot in letters] + [PAPER] * LETTER_WIDTH)
    return rows


def legend_of(entries, width):
    """Rows of dots: entries side by side, in as many lines as they need. They may be wider than asked for by the widest entry."""
    lines = []
    for name, colours in entries:
        dots = dots_of(name, colours)
        if lines and len(lines[-1][0]) + len(dots[0]) <= width:
            lines[-1] = [row + more for row, more in zip(lines[-1], dots)]
        else:
            lines.append([[PAPER] * MARGIN + row for row in dots])
    blank = [[PAPER]] * (LINE_HEIGHT - LETTER_HEIGHT)
    return [row for line in lines for row in blank + line] + blank


def magnified(rows, times):
    return [[dot for dot in row for _ in range(times)] for row in rows for _ in range(times)]


def coloured(width, height, index, attribute, steps):
    """The PNG file: the picture, and under it the legend, whose letters grow with a wide picture."""
    colours = colours_of(len(steps))
    rows = [[colours[i] for i in index[y * width:(y + 1) * width]] for y in range(height)]
    rows = magnified(rows, max(1, LEAST_SIDE // max(width, height)))
    wide = max(len(rows[0]), LEAST_SIDE)
    size = 1 + wide // 512
    legend = magnified(legend_of(entries_of(attribute, steps, colours), wide // size), size)
    rows += legend
    wide = max(wide, max(len(row) for row in legend))
    return png(wide, len(rows), RGB, [b"".join(row) + PAPER * (wide - len(row)) for row in rows])


def index_of(raster):
    """Two bytes an entry, the high one first."""
    return [high * 256 + low for high, low in zip(raster[::2], raster[1::2])]


def first_step(words):
    """Where the steps start: after neighbours and gap if they are named as a host can make a map with them."""
    first = 3
    if len(words) > first and re.fullmatch("neighbours=0{0,9}[48]", words[first]):
        first += 1
    if len(words) > first and re.fullmatch("gap=[0-9]{1,10}", words[first]) and int(words[first][4:]) <= MOST_GAP:
        first += 1
    return first


def step_of(attribute, word):
    """A step as the legend names it: a number, or the three of a triple."""
    parts = word.split(",")
    if len(parts) != (3 if attribute == "triple" else 1) or not all(part.isdecimal() for part in parts):
        wrong_use(__doc__)
    return ",".join(str(int(part)) for part in parts)


def main(words):
    first = first_step(words)
    if len(words) <= first or words[2] not in ("area", "height", "width", "triple"):
        wrong_use(__doc__)
    steps = [step_of(words[2], word) for word in words[first:]]
    _, width, height, raster = read_picture(words[0], ["P5"], MOST_INDEX)
    index = index_of(raster)
    if len(raster) != 2 * width * height or not index or max(index) > len(steps):
        sys.exit(f"{words[0]}: not an index map of {len(steps)} steps")
    with open(words[1], "wb") as file:
        file.write(coloured(width, height, index, words[2], steps))


if __name__ == "__main__":
    run(main)
