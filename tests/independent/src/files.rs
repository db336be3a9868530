// PGM files and buffers, good, damaged by each cause and by pairs, and mutated at random. The files
// hold one picture, which is asked for as number 1; those that hold several stand in bursts.rs.

use crate::damage::wrong_sides;
use crate::definition::Picture;
use crate::interface;
use crate::lent::Lent;
use crate::pgm::{self, Head};
use crate::pictures;
use crate::random::Random;
use crate::report::{answer_fault, refused, shown, Report};

/// A file in its parts.
#[derive(Clone)]
pub struct Parts {
    sign: Vec<u8>,
    gaps: [Vec<u8>; 3],
    numbers: [Vec<u8>; 3],
    white: Vec<u8>,
    raster: Vec<u8>,
}

impl Parts {
    fn header(&self) -> Vec<u8> {
        let mut bytes = self.sign.clone();
        for (gap, number) in self.gaps.iter().zip(&self.numbers) {
            bytes.extend(gap);
            bytes.extend(number);
        }
        bytes.extend(&self.white);
        bytes
    }

    pub fn bytes(&self) -> Vec<u8> {
        [self.header(), self.raster.clone()].concat()
    }
}

fn white(random: &mut Random) -> u8 {
    random.pick(&[9, 10, 13, 32])
}

fn comment(random: &mut Random) -> Vec<u8> {
    let mut bytes = vec![b'#'];
    for _ in 0..random.below(6) {
        let byte = match random.below(4) {
            0 => random.pick(b"#0123 \t\x0b\x0c"),
            _ => random.byte(),
        };
        if byte != 10 && byte != 13 {
            bytes.push(byte);
        }
    }
    bytes.push(random.pick(&[10, 13]));
    bytes
}

fn gap(random: &mut Random) -> Vec<u8> {
    let mut bytes = vec![white(random)];
    while random.chance(1, 3) {
        match random.below(2) {
            0 => bytes.push(white(random)),
            _ => bytes.extend(comment(random)),
        }
    }
    bytes
}

/// Decimal, now and then with leading zeros.
fn digits(random: &mut Random, value: u32) -> Vec<u8> {
    let width = if random.chance(1, 4) {
        random.between(1, 7)
    } else {
        1
    };
    format!("{value:0width$}").into_bytes()
}

pub fn good_file(random: &mut Random, case: usize) -> Parts {
    let picture = pictures::small(random, case);
    file_of(random, picture)
}

/// A good file of this picture.
pub fn file_of(random: &mut Random, picture: Picture) -> Parts {
    let brightest = picture.greys.iter().copied().max().unwrap_or(0);
    let maximum = match random.below(3) {
        0 => 255,
        1 => u32::from(brightest.max(1)),
        _ => random.between(usize::from(brightest.max(1)), 255) as u32,
    };
    Parts {
        sign: b"P5".to_vec(),
        gaps: [gap(random), gap(random), gap(random)],
        numbers: [
            digits(random, picture.width as u32),
            digits(random, picture.height as u32),
            digits(random, maximum),
        ],
        white: vec![white(random)],
        raster: picture.greys,
    }
}

fn break_header(random: &mut Random, file: &mut Parts) {
    let at = random.below(3);
    match random.below(8) {
        0 => file.gaps[at].clear(),
        1 => file.gaps[at] = comment(random),
        2 => file.gaps[at].insert(0, random.pick(&[0, 11, 12, 0x85, 0xa0, b'#'])),
        3 => file.gaps[at].push(random.pick(&[0, 11, 12, b'+', b'-', b'x', b'#', 0xff])),
        4 => file.numbers[at].clear(),
        5 => file.numbers[at] = format!("{:08}", random.below(300)).into_bytes(),
        6 => file.numbers[at].push(random.pick(b"a-.,/:#")),
        _ => {
            file.white = random
                .pick(&[&b""[..], b"#", b"\x0b", b"\x0c", b"x", b"\0"])
                .to_vec()
        }
    }
    if random.chance(1, 6) {
        file.white.clear();
        file.raster.clear();
    }
}

pub fn damage_read(random: &mut Random, file: &mut Parts, cause: u32) {
    match cause {
        8 => {
            let signs = [
                &b""[..],
                b"P",
                b"P2",
                b"P4",
                b"P6",
                b"p5",
                b"5P",
                b" P5",
                b"\nP5",
                b"Q5",
            ];
            file.sign = random.pick(&signs).to_vec();
        }
        9 => break_header(random, file),
        10 => {
            let wrong = random.pick(&[0, 256, 257, 511, 512, 65_535, 65_536, 9_999_999]);
            file.numbers[2] = digits(random, wrong);
        }
        1 => {
            let sides = wrong_sides(random);
            let wrong = [sides.0.min(9_999_999), sides.1.min(9_999_999)];
            file.numbers[0] = digits(random, wrong[0]);
            file.numbers[1] = digits(random, wrong[1]);
        }
        11 => {
            let n = file.raster.len();
            file.raster
                .truncate(random.pick(&[n.saturating_sub(1), n / 2, 0]));
        }
        _ => raise_sample(random, file),
    }
}

/// Some sample above the maximum, which is lowered first if it is 255.
fn raise_sample(random: &mut Random, file: &mut Parts) {
    let maximum = random.between(1, 254);
    file.numbers[2] = digits(random, maximum as u32);
    let above = random.between(maximum + 1, 255) as u8;
    for grey in &mut file.raster {
        *grey = (*grey).min(maximum as u8);
    }
    if !file.raster.is_empty() {
        let at = match random.below(3) {
            0 => 0,
            1 => file.raster.len() - 1,
            _ => random.below(file.raster.len()),
        };
        file.raster[at] = above;
    }
}

/// A few bytes replaced, put in, taken out or moved, or the file cut.
fn mutate(random: &mut Random, file: &mut Vec<u8>, header: usize) {
    for _ in 0..random.between(1, 3) {
        let reach = if random.chance(3, 4) {
            header.min(file.len())
        } else {
            file.len()
        };
        if reach == 0 {
            file.push(random.byte());
            continue;
        }
        let at = random.below(reach);
        let byte = if random.chance(1, 2) {
            random.byte()
        } else {
            random.pick(b"P5#09 \n\r\t")
        };
        match random.below(6) {
            0 | 1 => file[at] = byte,
            2 => file.insert(at, byte),
            3 => drop(file.remove(at)),
            4 => file[at] ^= 1 << random.below(8),
            _ => file.truncate(random.below(file.len() + 1)),
        }
    }
}

/// Asks for the picture of this number: what is wrong with the answer or the head.
pub fn read_fault(
    random: &mut Random,
    file: &[u8],
    number: u64,
    due: Result<Head, u32>,
) -> Option<String> {
    let mut head = Lent::dirty(random, 4);
    let answer = interface::read_pgm(file, number, head.now_mut());
    let words = due.ok().map(|head| head.words());
    answer_fault(answer, due.map_or_else(refused, |_| 0))
        .or_else(|| head.fault("head", words.as_ref().map(|w| &w[..])))
}

fn check_read(report: &mut Report, random: &mut Random, bytes: &[u8]) {
    let file = Lent::holding(random, bytes);
    let due = pgm::read(bytes, 1);
    report.met("read", due.map_or_else(u64::from, |_| 0));
    let fault = read_fault(random, file.now(), 1, due).or_else(|| file.fault("file", None));
    report.check(fault, || format!("read {}", shown(bytes)));
}

/// Bytes after the raster, which are no further picture but by chance.
fn with_surplus(random: &mut Random, file: &Parts) -> Vec<u8> {
    let any = random.byte();
    let byte = random.pick(&[0, b'\n', b' ', b'P', any]);
    let surplus = random.pick(&[1, 2, file.raster.len()]);
    [file.bytes(), vec![byte; surplus]].concat()
}

#[derive(Clone, Debug)]
pub struct Writing {
    pub picture: Vec<u8>,
    pub width: u32,
    pub height: u32,
    pub maximum: u32,
    pub room: usize,
}

impl Writing {
    pub fn due(&self) -> Result<Vec<u8>, u32> {
        pgm::write(
            &self.picture,
            self.width,
            self.height,
            self.maximum,
            self.room,
        )
    }
}

fn check_write(report: &mut Report, random: &mut Random, call: &Writing) {
    let picture = Lent::holding(random, &call.picture);
    let mut buffer = Lent::dirty(random, call.room);
    let answer = interface::write_pgm(
        picture.now(),
        call.width,
        call.height,
        call.maximum,
        buffer.now_mut(),
    );
    let due = call.due();
    report.met("write", due.as_ref().map_or_else(|c| u64::from(*c), |_| 0));
    let after = due.as_ref().ok().map(|file| {
        let rest = &buffer.before()[file.len()..];
        [&file[..], rest].concat()
    });
    let answer_due = due
        .as_ref()
        .map_or_else(|c| refused(*c), |file| file.len() as u64);
    let fault = answer_fault(answer, answer_due)
        .or_else(|| picture.fault("picture", None))
        .or_else(|| buffer.fault("buffer", after.as_deref()))
        .or_else(|| {
            let file = Lent::holding(random, &buffer.now()[..due.ok()?.len()]);
            round_trip(random, file.now(), 1, call)
        });
    report.check(fault, || format!("write {call:?}"));
}

/// What was written is read back by its number: sides, maximum and greys.
pub fn round_trip(random: &mut Random, file: &[u8], number: u64, call: &Writing) -> Option<String> {
    let mut head = Lent::dirty(random, 4);
    let answer = interface::read_pgm(file, number, head.now_mut());
    let words = head.now();
    let raster = file.get(words[3] as usize..).unwrap_or_default();
    let same = answer == 0
        && words[..3] == [call.width, call.height, call.maximum].map(u64::from)
        && raster.starts_with(&call.picture);
    (!same).then(|| format!("number {number} is not read back as written"))
}

pub fn good_writing(random: &mut Random, case: usize) -> Writing {
    let file = good_file(random, case);
    let head = pgm::read(&file.bytes(), 1).expect("a good file");
    let mut call = Writing {
        picture: file.raster,
        width: head.width,
        height: head.height,
        maximum: head.maximum,
        room: usize::MAX,
    };
    let needed = call.due().expect("room enough").len();
    call.room = needed + random.pick(&[0, 0, 1, 2, 7, 50]);
    call
}

pub fn damage_write(random: &mut Random, call: &mut Writing, cause: u32) {
    match cause {
        1 => match random.below(4) {
            0 => call.width = random.pick(&[0, 4097, 65_536, u32::MAX]),
            1 => call.height = random.pick(&[0, 4097, 65_536, u32::MAX]),
            _ => (call.width, call.height) = wrong_sides(random),
        },
        2 => {
            let n = call.picture.len();
            let length = random.pick(&[n - 1, n + 1, 0, 2 * n]);
            call.picture
                .resize(if length == n { n + 1 } else { length }, 0);
        }
        10 => call.maximum = random.pick(&[0, 256, 257, 511, 65_536 + 7, 1 << 31, u32::MAX]),
        12 => {
            call.maximum = random.between(1, 254) as u32;
            let above = random.between(call.maximum as usize + 1, 255) as u8;
            if !call.picture.is_empty() {
                let at = random.below(call.picture.len());
                call.picture[at] = above;
            }
        }
        _ => {
            let room = Writing {
                room: usize::MAX,
                ..call.clone()
            };
            let needed = room.due().map_or(call.room, |file| file.len());
            call.room = random.pick(&[needed - 1, needed - 1, needed / 2, 1, 0]);
        }
    }
}

/// No cause, each alone and each pair, as numbers of the list.
pub fn sets(causes: &[u32]) -> Vec<Vec<u32>> {
    let mut sets: Vec<Vec<u32>> = vec![vec![]];
    for (i, first) in causes.iter().enumerate() {
        sets.push(vec![*first]);
        sets.extend(causes[..i].iter().map(|second| vec![*first, *second]));
    }
    sets
}

/// One small file cut at every length, and with every header byte replaced by every other.
fn systematic(report: &mut Report, random: &mut Random) {
    let files: [&[u8]; 3] = [
        b"P5\n3 2\n255\n\x00\x0a#\x0d\xff ",
        b"P5 # a\r\n 03 #\n\t2\r007\n\x00\x01\x02\x03\x07\x07",
        b"P5\t1 1 1 #",
    ];
    for file in files {
        for length in 0..=file.len() {
            check_read(report, random, &file[..length]);
        }
        for at in 0..file.len() {
            for byte in 0..=255 {
                let mut changed = file.to_vec();
                changed[at] = byte;
                check_read(report, random, &changed);
                changed[at] = file[at];
                changed.insert(at, byte);
                check_read(report, random, &changed);
            }
        }
    }
}

pub fn run(report: &mut Report, seed: u64, cases: usize) {
    let read_sets = sets(&[12, 11, 1, 10, 9, 8]);
    let write_sets = sets(&[7, 12, 10, 2, 1]);
    systematic(report, &mut Random::for_case(seed, 4, u64::MAX));
    for case in 0..cases {
        let mut random = Random::for_case(seed, 4, case as u64);
        let mut file = good_file(&mut random, case);
        check_read(report, &mut random, &file.bytes());
        let longer = with_surplus(&mut random, &file);
        check_read(report, &mut random, &longer);
        for cause in &read_sets[case % read_sets.len()] {
            damage_read(&mut random, &mut file, *cause);
        }
        let mut bytes = file.bytes();
        check_read(report, &mut random, &bytes);
        mutate(&mut random, &mut bytes, file.header().len());
        check_read(report, &mut random, &bytes);
        let mut call = good_writing(&mut random, case);
        check_write(report, &mut random, &call);
        for cause in &write_sets[case % write_sets.len()] {
            damage_write(&mut random, &mut call, *cause);
        }
        check_write(report, &mut random, &call);
    }
    report.check_all_met("read", &[0, 8, 9, 10, 1, 11, 12]);
    report.check_all_met("write", &[0, 1, 2, 10, 12, 7]);
}
