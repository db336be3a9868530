"""Makes a picture of a basin as binary PGM: bright floc of many sizes on a dark, slightly uneven ground, with noise. A back-lit basin
has lighter water, and floc both brighter and darker than it. The same words give the same picture.

    python3 examples/basin.py [--backlit] basin.pgm [WIDTH HEIGHT [SEED]]
"""

import math
import random
import sys


def ground(width, height, chance, level):
    """Water of a level, brighter towards one side, with a slow wave and noise."""
    rows = []
    for y in range(height):
        wave = 4 * math.sin(2 * math.pi * y / height)
        rows.append([level + 10 * x / width + wave + chance.gauss(0, 1.5) for x in range(width)])
    return rows


def radius_of(chance, largest):
    """Many small floc and few large ones."""
    return min(largest, 1.2 * chance.paretovariate(1.4))


def add_floc(rows, chance, largest, level, contrasts):
    """One floc: a few discs that touch, each fading to its rim, all brighter than the water or all darker."""
    height, width = len(rows), len(rows[0])
    radius, contrast = radius_of(chance, largest), chance.uniform(*contrasts)
    y, x = chance.uniform(0, height), chance.uniform(0, width)
    for _ in range(chance.randint(1, 4)):
        add_disc(rows, y, x, radius, level, contrast)
        angle = chance.uniform(0, 2 * math.pi)
        y, x = y + radius * math.sin(angle), x + radius * math.cos(angle)
        radius *= chance.uniform(0.5, 1.0)


def add_disc(rows, y, x, radius, level, contrast):
    farther = max if contrast > 0 else min  # from the water's grey
    for row in range(max(0, int(y - radius)), min(len(rows), int(y + radius) + 2)):
        for column in range(max(0, int(x - radius)), min(len(rows[0]), int(x + radius) + 2)):
            far = ((row - y) ** 2 + (column - x) ** 2) / (radius * radius + 0.1)
            if far <= 1:
                rows[row][column] = farther(rows[row][column], level + 6 + contrast * (1 - 0.4 * far))


def picture(width, height, seed, backlit):
    chance = random.Random(seed)
    level = 124 if backlit else 24
    rows = ground(width, height, chance, level)
    for k in range(width * height // 700 + 1):
        contrasts = (50, 200) if not backlit else (-110, -30) if k % 2 else (30, 110)
        add_floc(rows, chance, min(width, height) / 12, level, contrasts)
    greys = [min(255, max(0, round(grey + chance.gauss(0, 1.5)))) for row in rows for grey in row]
    return bytes(greys)


def main(words):
    backlit = words[:1] == ["--backlit"]
    words = words[backlit:]
    if not 1 <= len(words) <= 4 or len(words) == 2:
        sys.exit(__doc__)
    width, height = (int(words[1]), int(words[2])) if len(words) > 2 else (512, 384)
    seed = int(words[3]) if len(words) > 3 else 1
    with open(words[0], "wb") as file:
        file.write(f"P5\n{width} {height}\n255\n".encode() + picture(width, height, seed, backlit))


if __name__ == "__main__":
    main(sys.argv[1:])
