// Pictures of many kinds, any size, and pictures set in a ring.

use crate::definition::Picture;
use crate::random::Random;

type Maker = fn(&mut Random, usize, usize) -> Vec<u8>;

pub const KINDS: [(&str, Maker); 17] = [
    ("few greys", few_greys),
    ("noise", noise),
    ("floc", floc),
    ("plateaus", plateaus),
    ("borders", borders),
    ("checkerboard", checkerboard),
    ("spiral", spiral),
    ("ramp", ramp),
    ("flat", flat),
    ("rings", rings),
    ("comb", comb),
    ("bridges", bridges),
    ("two ends", two_ends),
    ("about 64", about_64),
    ("diagonals", diagonals),
    ("corners", corners),
    ("row ends", row_ends),
];

/// What stands in rows of this width, set in a ring, one entry wide.
pub fn ring<T: Copy>(width: usize, inside: &[T], around: T) -> Vec<T> {
    let end = vec![around; width + 2];
    let mut entries = end.clone();
    for row in inside.chunks(width) {
        entries.push(around);
        entries.extend(row);
        entries.push(around);
    }
    entries.extend(end);
    entries
}

pub fn ringed(picture: &Picture, grey: u8) -> Picture {
    Picture {
        width: picture.width + 2,
        height: picture.height + 2,
        greys: ring(picture.width, &picture.greys, grey),
    }
}

/// The picture set in a ring, one pixel wide, of its least grey.
pub fn in_ring(picture: &Picture) -> Picture {
    ringed(picture, picture.least())
}

pub fn by_place(width: usize, height: usize, mut grey: impl FnMut(usize, usize) -> u8) -> Vec<u8> {
    let mut greys = Vec::with_capacity(width * height);
    for row in 0..height {
        for column in 0..width {
            greys.push(grey(row, column));
        }
    }
    greys
}

fn few_greys(random: &mut Random, width: usize, height: usize) -> Vec<u8> {
    let count = random.between(2, 5);
    let palette: Vec<u8> = (0..count).map(|_| random.byte()).collect();
    by_place(width, height, |_, _| random.pick(&palette))
}

fn noise(random: &mut Random, width: usize, height: usize) -> Vec<u8> {
    by_place(width, height, |_, _| random.byte())
}

/// Bright discs of many sizes on a dark, slightly uneven ground.
fn floc(random: &mut Random, width: usize, height: usize) -> Vec<u8> {
    let mut greys = by_place(width, height, |row, column| {
        30 + ((row + 2 * column) % 97 / 12) as u8 + random.below(4) as u8
    });
    let discs = 1 + width * height / 250;
    for _ in 0..discs {
        let radius = match random.below(20) {
            0 => random.below(20),
            1..=4 => random.below(8),
            _ => random.below(4),
        };
        let bright = random.between(60, 250);
        disc(random, &mut greys, (width, height), radius, bright);
    }
    greys
}

fn disc(random: &mut Random, greys: &mut [u8], size: (usize, usize), radius: usize, bright: usize) {
    let (row, column) = (random.below(size.1), random.below(size.0));
    for y in row.saturating_sub(radius)..(row + radius + 1).min(size.1) {
        for x in column.saturating_sub(radius)..(column + radius + 1).min(size.0) {
            let far = y.abs_diff(row).pow(2) + x.abs_diff(column).pow(2);
            if far <= radius * radius {
                let faded = bright - bright * far / (2 * radius * radius + 2);
                let grey = (faded + random.below(6)).min(255) as u8;
                let at = y * size.0 + x;
                greys[at] = greys[at].max(grey);
            }
        }
    }
}

/// Rectangles of one grey over each other.
fn plateaus(random: &mut Random, width: usize, height: usize) -> Vec<u8> {
    let mut greys = vec![random.byte(); width * height];
    for _ in 0..random.between(1, 8) {
        let (top, left) = (random.below(height), random.below(width));
        let bottom = random.between(top, height - 1);
        let right = random.between(left, width - 1);
        let grey = random.byte();
        for row in top..=bottom {
            greys[row * width + left..=row * width + right].fill(grey);
        }
    }
    greys
}

/// One grey inside, others along the frame.
fn borders(random: &mut Random, width: usize, height: usize) -> Vec<u8> {
    let inside = random.byte();
    let palette = [random.byte(), random.byte(), inside];
    by_place(width, height, |row, column| {
        let edge = row == 0 || column == 0 || row + 1 == height || column + 1 == width;
        if edge {
            random.pick(&palette)
        } else {
            inside
        }
    })
}

fn checkerboard(random: &mut Random, width: usize, height: usize) -> Vec<u8> {
    let palette = [random.byte(), random.byte()];
    let square = random.between(1, 3);
    by_place(width, height, |row, column| {
        palette[(row / square + column / square) % 2]
    })
}

/// A path one pixel wide that winds inward, with walls between its turns.
fn spiral(random: &mut Random, width: usize, height: usize) -> Vec<u8> {
    let (path, wall) = (random.byte(), random.byte());
    let fading = random.chance(1, 2);
    let mut greys = vec![wall; width * height];
    let (mut top, mut left) = (0usize, 0usize);
    let (mut bottom, mut right) = (height as isize - 1, width as isize - 1);
    let mut turn = 0u8;
    while top as isize <= bottom && left as isize <= right {
        let grey = if fading {
            path.wrapping_add(turn)
        } else {
            path
        };
        let (last_row, last_column) = (bottom as usize, right as usize);
        greys[top * width + left..=top * width + last_column].fill(grey);
        for row in top..=last_row {
            greys[row * width + last_column] = grey;
            if row > top + 1 {
                greys[row * width + left] = grey;
            }
        }
        greys[last_row * width + left..=last_row * width + last_column].fill(grey);
        turn = turn.wrapping_add(1);
        (top, left) = (top + 2, left + 2);
        (bottom, right) = (bottom - 2, right - 2);
        if top < height && left < width && top as isize <= bottom {
            greys[top * width + left - 1] = grey;
        }
    }
    greys
}

fn ramp(random: &mut Random, width: usize, height: usize) -> Vec<u8> {
    let (down, across) = (random.below(5), random.below(5));
    let base = random.below(256);
    let falling = random.chance(1, 2);
    by_place(width, height, |row, column| {
        let grey = ((base + row * down + column * across) % 256) as u8;
        if falling {
            255 - grey
        } else {
            grey
        }
    })
}

fn flat(random: &mut Random, width: usize, height: usize) -> Vec<u8> {
    vec![random.byte(); width * height]
}

/// Nested rings whose greys rise, fall or jump.
fn rings(random: &mut Random, width: usize, height: usize) -> Vec<u8> {
    let most = width.min(height) / 2 + 1;
    let step = random.byte();
    let palette: Vec<u8> = match random.below(3) {
        0 => (0..most).map(|k| (k * 7 % 256) as u8).collect(),
        1 => (0..most).map(|k| 255 - (k * 7 % 256) as u8).collect(),
        _ => (0..most).map(|k| step.wrapping_mul(k as u8 + 1)).collect(),
    };
    by_place(width, height, |row, column| {
        let depth = row
            .min(column)
            .min(height - 1 - row)
            .min(width - 1 - column);
        palette[depth]
    })
}

/// Teeth of one grey that meet only through a brighter spine.
fn comb(random: &mut Random, width: usize, height: usize) -> Vec<u8> {
    let (dark, rise) = (random.below(200) as u8, random.between(1, 27) as u8);
    let spine = random.below(height);
    by_place(width, height, |row, column| {
        match (row == spine, column % 2) {
            (true, _) => dark + 2 * rise,
            (false, 0) => dark + rise,
            (false, _) => dark,
        }
    })
}

/// One of three greys for each square of the side named, row by row.
fn cells(random: &mut Random, width: usize, height: usize, side: usize) -> Vec<u8> {
    let palette = [random.byte(), random.byte(), random.byte()];
    let mut greys = Vec::new();
    for _ in 0..(width / side + 1) * (height / side + 1) {
        greys.push(random.pick(&palette));
    }
    greys
}

/// Flat patches in a dark net, with a few bridges.
fn bridges(random: &mut Random, width: usize, height: usize) -> Vec<u8> {
    let cell = random.between(2, 5);
    let patch = cells(random, width, height, cell);
    let dark = random.below(40) as u8;
    by_place(width, height, |row, column| {
        let net = row % cell == 0 || column % cell == 0;
        if net && random.chance(5, 6) {
            dark
        } else {
            patch[row / cell * (width / cell + 1) + column / cell]
        }
    })
}

/// Greys 0, 1, 254 and 255 only.
fn two_ends(random: &mut Random, width: usize, height: usize) -> Vec<u8> {
    by_place(width, height, |_, _| random.pick(&[0, 1, 254, 255]))
}

/// Greys about the multiples of 64 only.
fn about_64(random: &mut Random, width: usize, height: usize) -> Vec<u8> {
    let palette = [0, 1, 62, 63, 64, 65, 127, 128, 191, 192, 193, 255];
    by_place(width, height, |_, _| random.pick(&palette))
}

/// Broken lines one pixel wide, rising or falling, on a dark ground.
fn diagonals(random: &mut Random, width: usize, height: usize) -> Vec<u8> {
    let apart = random.between(2, 6);
    let rising = random.chance(1, 2);
    let palette = [random.between(41, 255) as u8, random.between(41, 255) as u8];
    let dark = random.below(40) as u8;
    by_place(width, height, |row, column| {
        let along = if rising { column } else { width - 1 - column };
        let line = (row + along) % apart == 0;
        if line && random.chance(7, 8) {
            random.pick(&palette)
        } else {
            dark
        }
    })
}

/// Squares of a few greys that touch at their corners alone.
fn corners(random: &mut Random, width: usize, height: usize) -> Vec<u8> {
    let square = random.between(1, 3);
    let squares = cells(random, width, height, square);
    let dark = random.below(40) as u8;
    by_place(width, height, |row, column| {
        let (down, across) = (row / square, column / square);
        if (down + across) % 2 == 0 {
            squares[down * (width / square + 1) + across]
        } else {
            dark
        }
    })
}

/// Bright pixels in the first and the last column, which lie apart, however near their positions.
fn row_ends(random: &mut Random, width: usize, height: usize) -> Vec<u8> {
    let dark = random.below(40) as u8;
    let palette = [dark, random.between(41, 255) as u8, random.byte()];
    by_place(width, height, |_, column| {
        if column == 0 || column + 1 == width {
            random.pick(&palette)
        } else {
            dark
        }
    })
}

fn small_size(random: &mut Random) -> (usize, usize) {
    match random.below(100) {
        0..=4 => (1, random.between(1, 80)),
        5..=9 => (random.between(1, 80), 1),
        10..=14 => (random.between(1, 3), random.between(1, 30)),
        15..=19 => (random.between(1, 30), random.between(1, 3)),
        20..=27 => (random.between(8, 20), random.between(8, 20)),
        28 => (random.between(20, 36), random.between(20, 36)),
        _ => (random.between(1, 9), random.between(1, 9)),
    }
}

/// A small picture of each kind in turn. Half of them are set in a ring, so that the frame cuts no
/// node but the root.
pub fn small(random: &mut Random, case: usize) -> Picture {
    let (width, height) = small_size(random);
    let (_, maker) = KINDS[case % KINDS.len()];
    let greys = maker(random, width, height);
    let picture = Picture {
        width,
        height,
        greys,
    };
    if random.chance(1, 2) {
        in_ring(&picture)
    } else {
        picture
    }
}
