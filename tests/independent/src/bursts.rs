// Files that hold several pictures end to end, each asked for by its number. All pictures are judged,
// whichever is asked for: the first faulty one gives the cause, and only where none is faulty a number
// that none of them has is refused. What follows a raster is a further picture, or faulty.
//
// What is due follows from how a file was put together, and the definition must find the same. Where
// a file is damaged or put together blindly, the definition alone says what is due.

use crate::definition::Picture;
use crate::files::{file_of, good_writing, read_fault, round_trip, Writing};
use crate::interface;
use crate::lent::Lent;
use crate::pgm::{self, Head, Pictures};
use crate::pictures::by_place;
use crate::random::Random;
use crate::report::{answer_fault, shown, Report};

/// 0, every number up to two above the count, and such as would be one of them in 8, 16, 32 or 63
/// bits, or counted from the end.
fn numbers(count: u64) -> Vec<u64> {
    let near = 0..=count + 2;
    let far = [8, 16, 32, 63].map(|bits| (0..=count).map(move |k| (1 << bits) + k));
    let from_the_end = (0..=count).map(|k| u64::MAX - k);
    near.chain(far.into_iter().flatten())
        .chain(from_the_end)
        .collect()
}

/// Asks for these numbers in a file of the first bytes; the others stand behind its end.
fn ask(
    report: &mut Report,
    random: &mut Random,
    (bytes, length): (&[u8], usize),
    numbers: &[u64],
    pictures: &Pictures,
) {
    let lent = Lent::holding(random, bytes);
    let file = &lent.now()[..length];
    for number in numbers {
        let due = pgm::named(pictures, *number);
        report.met("burst", due.map_or_else(u64::from, |_| 0));
        let fault = read_fault(random, file, *number, due).or_else(|| lent.fault("file", None));
        report.check(fault, || format!("read {number} of {}", shown(file)));
    }
}

/// Asks for every number about the count. Behind the file stands what could make it a longer one.
fn check(report: &mut Report, random: &mut Random, file: &[u8], pictures: &Pictures) {
    let numbers = numbers(pictures.as_ref().map_or(3, |all| all.len() as u64));
    let behind = random.pick(&[&b"P5 1 1 255\n."[..], b"5 1 1 255\n.", b" 1 1 255\n.", b""]);
    let bytes = [file, behind].concat();
    ask(report, random, (&bytes, file.len()), &numbers, pictures);
}

/// What is due here is known without the definition, which must find the same.
pub fn check_definition(report: &mut Report, file: &[u8], due: &Pictures) {
    let found = pgm::pictures(file);
    let fault = (found != *due).then(|| format!("{found:?}, should be {due:?}"));
    report.check(fault, || format!("definition here: {}", shown(file)));
}

fn check_known(report: &mut Report, random: &mut Random, file: &[u8], due: &Pictures) {
    check_definition(report, file, due);
    check(report, random, file, due);
}

type Words = &'static [[u32; 4]];

/// The sentences of the request: files with width, height, maximum and start of each raster, or the
/// cause.
const SENTENCES: [(&[u8], Result<Words, u32>); 17] = [
    (b"", Err(8)),
    (b"P5 1 1 255\nA", Ok(&[[1, 1, 255, 11]])),
    (
        b"P5 1 1 255\nAP5\n2 1\n9\n\x01\x02",
        Ok(&[[1, 1, 255, 11], [2, 1, 9, 21]]),
    ),
    (
        b"P5 1 1 255\nAP5\n2 1\n9\n\x01\x02P5 1 1 1 \x00",
        Ok(&[[1, 1, 255, 11], [2, 1, 9, 21], [1, 1, 1, 32]]),
    ),
    (b"P5 1 1 255\nA\n", Err(8)),
    (b"P5 1 1 255\nA\nP5 1 1 255\nA", Err(8)),
    (b"P5 1 1 255\nAP", Err(8)),
    (b"P5 1 1 255\nAP5", Err(9)),
    (b"P5 1 1 255\nAP5 1 1 255", Err(9)),
    (b"P5 1 1 255\nAP5 1 1 0\nA", Err(10)),
    (b"P5 1 1 255\nAP5 0 1 255\nA", Err(1)),
    (b"P5 1 1 255\nAP5 1 1 255\n", Err(11)),
    (b"P5 1 1 255\nAP5 1 1 64\nA", Err(12)),
    (b"P5 1 2 255\nA", Err(11)),
    (b"P5 1 1 64\nAP4", Err(12)),
    (b"P5 1 1 0\nAP5 1 1 64\nA", Err(10)),
    (b"P5 1 1 255\nAP5 1 1 64\nA\n", Err(12)),
];

fn sentences(report: &mut Report, random: &mut Random) {
    for (file, due) in SENTENCES {
        let head = |words: &[u32; 4]| Head {
            width: words[0],
            height: words[1],
            maximum: words[2],
            raster: words[3] as usize,
        };
        let due = due.map(|heads| heads.iter().map(head).collect());
        check_known(report, random, file, &due);
    }
}

/// A part of a file: a picture with what its header says, or a faulty one with its cause, which
/// stays the same whatever follows.
#[derive(Clone, Copy)]
struct Piece {
    header: &'static [u8],
    raster: &'static [u8],
    due: Result<[u32; 3], u32>,
}

impl Piece {
    const fn good(due: [u32; 3], header: &'static [u8], raster: &'static [u8]) -> Piece {
        Piece {
            header,
            raster,
            due: Ok(due),
        }
    }

    const fn faulty(cause: u32, header: &'static [u8], raster: &'static [u8]) -> Piece {
        Piece {
            header,
            raster,
            due: Err(cause),
        }
    }

    fn length(&self) -> usize {
        self.header.len() + self.raster.len()
    }
}

/// Some rasters look like headers, comments or white, up to their last byte.
const GOOD: [Piece; 10] = [
    Piece::good([1, 1, 255], b"P5 1 1 255\n", b"A"),
    Piece::good(
        [3, 2, 7],
        b"P5 # a\r\n 03 #\n\t2\r007\n",
        b"\0\x01\x02\x03\x07\x07",
    ),
    Piece::good([12, 1, 255], b"P5 12 1 255\n", b"P5 1 1 255\n."),
    Piece::good([4, 1, 80], b"P5 4 1 80\t", b"\nP5\n"),
    Piece::good([1, 1, 35], b"P5 1 #P5\n1 35\r", b"#"),
    Piece::good([1, 1, 1], b"P5\t1 1 1 ", b"\x01"),
    Piece::good([3, 2, 255], b"P5\n3 2\n255\n", b"\x00\x0a#\x0d\xff "),
    Piece::good([1, 11, 255], b"P5 1 11 255\n", b"P5 1 1 255\n"),
    Piece::good([2, 1, 80], b"P5 2 1 80\n", b"P5"),
    Piece::good([1, 1, 80], b"P5\r#P5\r1\r#1 1 1\n1\r0000080 ", b"P"),
];

const FAULTY: [Piece; 26] = [
    Piece::faulty(8, b"P4 1 1 255\n", b"A"),
    Piece::faulty(8, b"p5 1 1 255\n", b"A"),
    Piece::faulty(8, b"\nP5 1 1 255\n", b"A"),
    Piece::faulty(8, b"#\nP5 1 1 255\n", b"A"),
    Piece::faulty(8, b"PP5 1 1 255\n", b"A"),
    Piece::faulty(8, b"\0P5 1 1 255\n", b"A"),
    Piece::faulty(9, b"P5P5 1 1 255\n", b"A"),
    Piece::faulty(9, b"P51 1 255\n", b"A"),
    Piece::faulty(9, b"P5#\n1 1 255\n", b"A"),
    Piece::faulty(9, b"P5 1 -1 255\n", b"A"),
    Piece::faulty(9, b"P5 1 1 00000255\n", b"A"),
    Piece::faulty(9, b"P5 1 1 255#\n", b"A"),
    Piece::faulty(9, b"P5\x0b1 1 255\n", b"A"),
    Piece::faulty(10, b"P5 1 1 0\n", b"A"),
    Piece::faulty(10, b"P5 1 1 256\n", b"A"),
    Piece::faulty(10, b"P5 0 0 9999999\n", b""),
    Piece::faulty(1, b"P5 0 1 255\n", b""),
    Piece::faulty(1, b"P5 1 0 255\n", b""),
    Piece::faulty(1, b"P5 4097 1 255\n", b"A"),
    Piece::faulty(1, b"P5 1 9999999 1\n", b"A"),
    Piece::faulty(1, b"P5 1025 1024 255\n", b"A"),
    Piece::faulty(11, b"P5 4096 256 255\n", b"A"),
    Piece::faulty(11, b"P5 1024 1024 1\n", b"A"),
    Piece::faulty(12, b"P5 1 1 64\n", b"A"),
    Piece::faulty(12, b"P5 2 1 254\n", b"\xff\0"),
    Piece::faulty(12, b"P5 1 2 79\n", b"\0P"),
];

/// The pieces end to end, and what is due: all heads, or the cause of the first faulty piece. Without
/// a piece the file is empty.
fn joined(pieces: &[Piece]) -> (Vec<u8>, Pictures) {
    let mut file = Vec::new();
    let mut due = Vec::new();
    for piece in pieces {
        file.extend(piece.header);
        due.push(piece.due.map(|[width, height, maximum]| Head {
            width,
            height,
            maximum,
            raster: file.len(),
        }));
        file.extend(piece.raster);
    }
    let due = if pieces.is_empty() {
        Err(8)
    } else {
        due.into_iter().collect()
    };
    (file, due)
}

/// Every sequence of these items that has so many of them at most.
fn sequences<T: Copy>(items: &[T], most: usize) -> Vec<Vec<T>> {
    let mut all = vec![vec![]];
    let mut shorter = 0;
    for _ in 0..most {
        let end = all.len();
        for at in shorter..end {
            for item in items {
                all.push([&all[at][..], &[*item]].concat());
            }
        }
        shorter = end;
    }
    all
}

/// Up to three pictures, good and faulty in every order.
fn every_order(report: &mut Report, random: &mut Random) {
    for pieces in sequences(&[&GOOD[..], &FAULTY].concat(), 3) {
        let (file, due) = joined(&pieces);
        check_known(report, random, &file, &due);
    }
}

/// After good pictures every byte alone, after P, and after P5.
fn stray_bytes(report: &mut Report, random: &mut Random) {
    for count in 1..=3 {
        let (file, _) = joined(&GOOD[..count]);
        for byte in 0..=255 {
            let second = if byte == b'5' { 9 } else { 8 };
            let tails: [(&[u8], u32); 3] = [
                (&[byte], 8),
                (&[b'P', byte], second),
                (&[b'P', b'5', byte], 9),
            ];
            for (tail, cause) in tails {
                check_known(report, random, &[&file, tail].concat(), &Err(cause));
            }
        }
    }
}

/// What is due of so many bytes of these pictures. The last of which there are any is whole, or cut
/// in its sign, in its header or in its raster.
fn due_of_cut(pieces: &[Piece], length: usize) -> Pictures {
    let mut left = length;
    for (whole, piece) in pieces.iter().enumerate() {
        if left < piece.length() {
            return match left {
                0 if whole > 0 => joined(&pieces[..whole]).1,
                0 | 1 => Err(8),
                _ if left < piece.header.len() => Err(9),
                _ => Err(11),
            };
        }
        left -= piece.length();
    }
    joined(pieces).1
}

/// Up to three pictures cut everywhere; what is cut off stands right behind the end.
fn cuts(report: &mut Report, random: &mut Random) {
    for pieces in sequences(&GOOD[..5], 3) {
        let (bytes, _) = joined(&pieces);
        for length in 0..=bytes.len() {
            let due = due_of_cut(&pieces, length);
            check_definition(report, &bytes[..length], &due);
            ask(report, random, (&bytes, length), &numbers(3), &due);
        }
    }
}

/// A raster that holds all that follows, though that be pictures; one that leaves a byte of it, and
/// one that lacks a byte.
fn one_raster(report: &mut Report, random: &mut Random) {
    let pieces = [&GOOD[..], &FAULTY].concat();
    for pieces in &sequences(&pieces, 2)[1..] {
        let (raster, _) = joined(pieces);
        for lacking in [0, 1, 2] {
            let width = raster.len() + lacking - 1;
            let header = format!("P5 {width} 1 255\n").into_bytes();
            let head = Head {
                width: width as u32,
                height: 1,
                maximum: 255,
                raster: header.len(),
            };
            let due = [Err(8), Ok(vec![head]), Err(11)][lacking].clone();
            check_known(report, random, &[header, raster.clone()].concat(), &due);
        }
    }
}

/// After a good picture, and after the start of another, every run of a few bytes.
fn blind_tails(report: &mut Report, random: &mut Random) {
    for start in [&b""[..], b"P5 1", b"P5 1 1", b"P5 1 1 1"] {
        for tail in sequences(b"P5 1\n#", 5) {
            let file = [b"P5\n1 1\n10\n\n", start, &tail].concat();
            let due = pgm::pictures(&file);
            ask(report, random, (&file, file.len()), &[0, 1, 2, 3], &due);
        }
    }
}

/// Writes the pictures one after another, each into the rest of the buffer: the bytes used.
fn write_all(report: &mut Report, calls: &[Writing], buffer: &mut [u8]) -> usize {
    let mut used = 0;
    for call in calls {
        let (width, height, maximum) = (call.width, call.height, call.maximum);
        let rest = &mut buffer[used..];
        let answer = interface::write_pgm(&call.picture, width, height, maximum, rest);
        let due = call.due().expect("room enough").len();
        let fault = answer_fault(answer, due as u64);
        report.check(fault, || format!("write {call:?} after {used} bytes"));
        used += due;
    }
    used
}

/// The file that these pictures make end to end, and their heads.
fn written(calls: &[Writing]) -> (Vec<u8>, Vec<Head>) {
    let (mut file, mut heads) = (Vec::new(), Vec::new());
    for call in calls {
        file.extend(call.due().expect("room enough"));
        heads.push(Head {
            width: call.width,
            height: call.height,
            maximum: call.maximum,
            raster: file.len() - call.picture.len(),
        });
    }
    (file, heads)
}

/// What the writer wrote one after another is read back, each picture by its number.
fn sequence(report: &mut Report, random: &mut Random, case: usize) {
    let count = random.between(1, 6);
    let calls: Vec<Writing> = (0..count).map(|k| good_writing(random, case + k)).collect();
    let room = calls.iter().map(|call| call.room).sum();
    let mut buffer = Lent::dirty(random, room);
    let used = write_all(report, &calls, buffer.now_mut());
    let (mut due, heads) = written(&calls);
    due.extend(&buffer.before()[used..]);
    report.check(buffer.fault("buffer", Some(&due)), || format!("{calls:?}"));
    let file = &buffer.now()[..used];
    for (number, call) in (1..).zip(&calls) {
        let fault = round_trip(random, file, number, call);
        report.check(fault, || shown(file));
    }
    check_known(report, random, file, &Ok(heads));
}

/// A few small pictures, whose rasters hold what headers hold.
fn any_burst(random: &mut Random) -> Vec<u8> {
    let mut file = Vec::new();
    for _ in 0..random.between(1, 4) {
        let (width, height) = (random.between(1, 4), random.between(1, 3));
        let greys = by_place(width, height, |_, _| random.pick(b"P5 1\n#\0\x01\xff"));
        let picture = Picture {
            width,
            height,
            greys,
        };
        file.extend(file_of(random, picture).bytes());
    }
    file
}

/// A byte changed, put in or taken out, a run put in a second time or taken out, or the file cut.
fn damage(random: &mut Random, file: &mut Vec<u8>) {
    let at = random.below(file.len());
    let run = at..random.between(at, file.len());
    let place = random.between(0, file.len());
    let any = random.byte();
    let byte = random.pick(&[b'P', b'5', b' ', b'1', b'\n', b'#', any]);
    match random.below(7) {
        0 => file[at] ^= 1 << random.below(8),
        1 => file[at] = byte,
        2 => file.insert(place, byte),
        3 => drop(file.remove(at)),
        4 => drop(file.splice(place..place, file[run].to_vec())),
        5 => drop(file.drain(run)),
        _ => file.truncate(place),
    }
}

/// Bursts damaged once, twice or more.
fn damaged(report: &mut Report, random: &mut Random) {
    let mut file = any_burst(random);
    check(report, random, &file, &pgm::pictures(&file));
    for _ in 0..3 {
        if !file.is_empty() {
            damage(random, &mut file);
        }
        check(report, random, &file, &pgm::pictures(&file));
    }
}

/// The file of these pictures, and the same cut short, with bytes after it, and with the last sample
/// above the maximum in the last picture, and in one amid the others too.
fn long(report: &mut Report, random: &mut Random, calls: &[Writing]) {
    let (mut file, heads) = written(calls);
    let (length, count) = (file.len(), heads.len() as u64);
    let amid = &heads[heads.len() / 2];
    let samples = [length, amid.raster + (amid.width * amid.height) as usize].map(|end| end - 1);
    let bounds = [1 << 8, 1 << 16, 1 << 32, 1 << 63].map(|k| [k - 1, k, k + 1]);
    let ends = [0, 1, 2, count - 1, count, count + 1, (1 << 32) + count];
    let good = Ok(heads);
    check_definition(report, &file, &good);
    ask(report, random, (&file, length), &bounds.concat(), &good);
    ask(report, random, (&file, length), &ends, &good);
    ask(report, random, (&file, length - 1), &ends, &Err(11));
    for (byte, cause) in [(b'P', 8), (b'5', 9)] {
        file.push(byte);
        ask(report, random, (&file, file.len()), &ends, &Err(cause));
    }
    for at in samples {
        file[at] = 255;
        ask(report, random, (&file, length), &ends, &Err(12));
    }
    ask(report, random, (&file, length - 1), &ends, &Err(12));
}

/// A picture of so many pixels with any greys up to this maximum.
fn noise(random: &mut Random, width: u32, height: u32, maximum: u32) -> Writing {
    let n = (width * height) as usize;
    Writing {
        picture: (0..n)
            .map(|_| random.below(maximum as usize + 1) as u8)
            .collect(),
        width,
        height,
        maximum,
        room: usize::MAX,
    }
}

/// Many pictures of one pixel, ten bytes each, and a few as large as may be.
fn long_bursts(report: &mut Report, random: &mut Random) {
    let tiny = (0..100_000).map(|k| noise(random, 1, 1, 1 + k % 9));
    let tiny: Vec<Writing> = tiny.collect();
    long(report, random, &tiny);
    let large = [(1024, 1024, 7), (4096, 256, 100), (256, 4096, 254)];
    let large = large.map(|(width, height, maximum)| noise(random, width, height, maximum));
    long(report, random, &large);
}

pub fn run(report: &mut Report, seed: u64, cases: usize) {
    let mut random = Random::for_case(seed, 16, u64::MAX);
    sentences(report, &mut random);
    every_order(report, &mut random);
    stray_bytes(report, &mut random);
    cuts(report, &mut random);
    one_raster(report, &mut random);
    blind_tails(report, &mut random);
    long_bursts(report, &mut random);
    for case in 0..cases {
        let mut random = Random::for_case(seed, 16, case as u64);
        sequence(report, &mut random, case);
        damaged(report, &mut random);
    }
    report.check_all_met("burst", &[0, 8, 9, 10, 1, 11, 12, 18]);
}
