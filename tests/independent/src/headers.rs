// Headers of every kind with their rasters, put together from their parts or written out whole, so
// that what they say and where they end is known without reading them.

use crate::random::Random;

pub const WHITE: [u8; 4] = [9, 10, 13, 32];

/// A picture as it stands in a file, with its width, height and maximum.
#[derive(Clone)]
pub struct Piece {
    pub numbers: [u32; 3],
    pub header: Vec<u8>,
    pub raster: Vec<u8>,
}

impl Piece {
    /// The sign, gaps and digits in turn, and the last white byte.
    pub fn of(gaps: [&[u8]; 3], digits: [&str; 3], white: u8, raster: Vec<u8>) -> Piece {
        let mut header = b"P5".to_vec();
        for (gap, digits) in gaps.iter().zip(digits) {
            header.extend(*gap);
            header.extend(digits.as_bytes());
        }
        header.push(white);
        Piece {
            numbers: digits.map(|text| text.parse().expect("digits")),
            header,
            raster,
        }
    }

    pub fn length(&self) -> usize {
        self.header.len() + self.raster.len()
    }
}

pub fn joined(pieces: &[Piece]) -> Vec<u8> {
    let both = |piece: &Piece| [&piece.header[..], &piece.raster].concat();
    pieces.iter().flat_map(both).collect()
}

/// Width, height and maximum, the header, and the raster, which may look like white, numbers,
/// comments or headers.
const HEADERS: [([u32; 3], &[u8], &[u8]); 34] = [
    ([1, 1, 1], b"P5 1 1 1 ", b"\0"),
    ([3, 2, 255], b"P5\n3 2\n255\n", b"\0\n#\r\xff "),
    ([3, 2, 32], b"P5\t3\t2\t32\t", b"\t \n\r\t\t"),
    ([3, 2, 35], b"P5\r3\r2\r35\r", b"######"),
    ([2, 2, 10], b"P5\n2\n2\n10\n", b"\n\n\n\n"),
    ([3, 1, 255], b"P5\r\n3 1\r\n255\r", b"\n\r\n"),
    ([5, 1, 57], b"P5 5 1 57\n", b"255 1"),
    ([1, 3, 99], b"P5 1 3 99 ", b"255"),
    ([2, 1, 80], b"P5 2 1 80\t", b"P5"),
    ([1, 1, 80], b"P5 1 1 80\r", b"P"),
    ([10, 1, 255], b"P5 10 1 255\n", b"P5 1 1 1\n\0"),
    ([3, 3, 254], b"P5 3 3 254 ", b"P5 1 1 1 "),
    ([2, 1, 40], b"P5 2 1 40 ", b"#\n"),
    ([4, 1, 49], b"P5 4 1 49\n", b"#1\n1"),
    ([12, 1, 127], b"P5 12 1 127\n", b"            "),
    ([1, 12, 128], b"P5 1 12 128\r", b"\n\n\n\n\n\n\n\n\n\n\n\n"),
    ([1, 2, 3], b"P5 # a\n1 # 12\n2 #\n3\n", b"\x01\x03"),
    ([2, 1, 7], b"P5 #a\r2 #b\r1 #c\r7\r", b"\0\x07"),
    ([2, 1, 13], b"P5 #a\r\n2 #b\r\n1 #c\r\n13\r", b"\n\r"),
    ([1, 1, 2], b"P5 #\n1 1 2\n", b"\x02"),
    ([1, 1, 2], b"P5 1 #\n1 2\n", b"\x02"),
    ([1, 1, 2], b"P5 1 1 #\r2\n", b"\x02"),
    ([1, 1, 5], b"P5 \t#\n\r1 1 \r\n5\r", b"\x02"),
    (
        [1, 1, 9],
        b"P5\n#\n#\n#a#\r#b\n1\n#\r\r#\n \t1 #1\n#2\n#3\r9\n",
        b"\t",
    ),
    (
        [1, 1, 4],
        b"P5\n###\n##\r1 #\n#\r#\n#\r1 # # #\n4\t",
        b"\x04",
    ),
    (
        [1, 1, 255],
        b"P5 #P5 9 9 99\n1 #P5\r1\t#P5\t3\t3\t3\t\r255 ",
        b"P",
    ),
    ([1, 2, 8], b"P5 #1\n1 #1 1 1\n2 #99999999\r8 ", b"\x08\x08"),
    (
        [1, 1, 200],
        b"P5 #\0\xff\x0b\x0c\x85\xa0\n1 #\0\r1 #\xff\n200 ",
        b"\xc8",
    ),
    (
        [1, 1, 100],
        b"P5               1     \t\t\t\t\t\t1\n\n\n\n\n\n\n100 ",
        b"d",
    ),
    (
        [2, 1, 64],
        b"P5\r\r\r\r\r2\n\r\n\r\n\r1\r\n\t \r\n\t 64\n",
        b"@ ",
    ),
    (
        [3, 2, 255],
        b"P5 0000003 0000002 0000255\n",
        b"\xff\0\xff0\n#",
    ),
    ([1, 10, 10], b"P5 01 010 0010 ", b"\n\n\n\n\n\n\n\n\n\n"),
    ([2, 1, 1], b"P5 00002\n000001\r000001\t", b"\x01\0"),
    ([10, 2, 90], b"P5 10 02 090\n", b"PPPPP5 5 5 5 55555##"),
];

pub fn written_out() -> Vec<Piece> {
    let pieces = HEADERS.iter().map(|(numbers, header, raster)| Piece {
        numbers: *numbers,
        header: header.to_vec(),
        raster: raster.to_vec(),
    });
    pieces.collect()
}

/// A white byte, then up to so many of these items.
pub fn gaps(white: &[u8], items: &[&[u8]], most: usize) -> Vec<Vec<u8>> {
    let mut all: Vec<Vec<u8>> = white.iter().map(|byte| vec![*byte]).collect();
    let mut shorter = 0;
    for _ in 0..most {
        let end = all.len();
        for at in shorter..end {
            for item in items {
                all.push([&all[at][..], *item].concat());
            }
        }
        shorter = end;
    }
    all
}

/// Every choice of three gaps, one for each place.
pub fn threes(gaps: &[Vec<u8>]) -> impl Iterator<Item = [&[u8]; 3]> {
    let count = gaps.len();
    (0..count.pow(3)).map(move |at| {
        [at / count / count, at / count % count, at % count].map(|place| &gaps[place][..])
    })
}

fn any_comment(random: &mut Random) -> Vec<u8> {
    let any: Vec<u8> = (0..random.below(5)).map(|_| random.byte()).collect();
    let texts: [&[u8]; 9] = [
        b"",
        b"1",
        b"12 3",
        b"#",
        b"# #",
        b"P5",
        b"P5 1 1 255 ",
        b"\0\x0b",
        &any,
    ];
    let mut bytes = [&b"#"[..], random.pick(&texts)].concat();
    bytes.retain(|byte| ![10, 13].contains(byte));
    bytes.extend(random.pick(&[&b"\n"[..], b"\r", b"\r\n"]));
    bytes
}

fn any_gap(random: &mut Random) -> Vec<u8> {
    let mut bytes = vec![random.pick(&WHITE)];
    while random.chance(1, 2) {
        match random.below(3) {
            0 => bytes.extend(any_comment(random)),
            1 => bytes.push(random.pick(&WHITE)),
            _ => bytes.extend(vec![random.pick(&WHITE); random.below(5)]),
        }
    }
    bytes
}

/// Leading zeros or none, and a raster that may start with what a header holds.
pub fn any_piece(random: &mut Random) -> Piece {
    let (width, height) = (random.between(1, 6), random.between(1, 3));
    let maximum = random.between(1, 255);
    let digits = [width, height, maximum].map(|value| {
        let any = random.between(1, 7);
        let places = random.pick(&[1, 1, 7, any]);
        format!("{value:0places$}")
    });
    let any: Vec<u8> = (0..width * height).map(|_| random.byte()).collect();
    let starts: [&[u8]; 9] = [
        b"\n",
        b"\r\n",
        b" 1 ",
        b"255\n",
        b"#\n",
        b"P5",
        b"P5 1 1 1\n",
        b"5 ",
        b"",
    ];
    let mut raster = [random.pick(&starts), &any].concat();
    raster.truncate(width * height);
    raster
        .iter_mut()
        .for_each(|grey| *grey = (*grey).min(maximum as u8));
    let gaps = [0; 3].map(|_| any_gap(random));
    Piece::of(
        gaps.each_ref().map(|gap| &gap[..]),
        digits.each_ref().map(|text| &text[..]),
        random.pick(&WHITE),
        raster,
    )
}
