// Files cut short at every byte. The request on the header's order: an accepted file that is cut
// within its first header answers 8 if less than the sign is left, else 9. The header goes through
// its last white byte; after it the raster is cut short, 11, or a further picture is cut.
//
// What is due follows from the lengths of the headers and rasters that a file was put together
// from, whatever they hold. The definition must find the same.

use crate::bursts::check_definition;
use crate::fence::Fence;
use crate::files::read_fault;
use crate::headers::{any_piece, gaps, joined, threes, written_out, Piece, WHITE};
use crate::lent::Lent;
use crate::page;
use crate::pgm::{self, Head, Pictures};
use crate::random::Random;
use crate::report::{shown, Report};

/// The law: what is due where so many bytes of these pictures are left.
fn due_of_cut(pieces: &[Piece], cut: usize) -> Pictures {
    let mut heads = Vec::new();
    let mut start = 0;
    for piece in pieces {
        match cut - start {
            0 if start > 0 => break,
            left if left < 2 => return Err(8),
            left if left < piece.header.len() => return Err(9),
            left if left < piece.length() => return Err(11),
            _ => heads.push(Head {
                width: piece.numbers[0],
                height: piece.numbers[1],
                maximum: piece.numbers[2],
                raster: start + piece.header.len(),
            }),
        }
        start += piece.length();
    }
    Ok(heads)
}

/// What stands right behind the bytes that are lent.
#[derive(Clone, Copy)]
pub enum Behind {
    /// What was cut off.
    Rest,
    /// What would end the header, a number or a comment in another way.
    Other,
    /// Nothing that can be read.
    Fence,
}

pub const EVERY_WAY: [Behind; 3] = [Behind::Rest, Behind::Other, Behind::Fence];

const TAILS: [&[u8]; 14] = [
    b"P5 1 1 1\n\0",
    b"5 1 1 1\n\0",
    b" 1 1 1\n\0",
    b"1 1 1\n\0",
    b" 1 1\n\0",
    b"1 1\n\0",
    b" 1\n\0",
    b"1\n\0",
    b"\n\0",
    b"\r\n 9 9 9 ",
    b"#\n1 1 1 \0",
    b"x",
    b"0000000000000000",
    b"\0\0\0\0\0\0\0\0\0\0\0\0\0\0\0\0",
];

/// 0, numbers that a burst of so many pictures has or just not, and some that would be one of them
/// with fewer bits or counted from the end.
fn numbers(count: u64) -> Vec<u64> {
    let mut numbers = vec![0, 1, 2, count, count + 1, (1 << 32) + 1, u64::MAX];
    numbers.sort();
    numbers.dedup();
    numbers
}

/// Asks for these numbers in a file.
fn read(
    report: &mut Report,
    random: &mut Random,
    file: &[u8],
    numbers: &[u64],
    pictures: &Pictures,
) {
    for number in numbers {
        let due = pgm::named(pictures, *number);
        report.met("cut", due.map_or_else(u64::from, |_| 0));
        let fault = read_fault(random, file, *number, due);
        report.check(fault, || format!("read {number} of {}", shown(file)));
    }
}

pub struct Cuts<'a> {
    pub report: &'a mut Report,
    random: Random,
    fence: Fence,
}

impl Cuts<'_> {
    /// Asks for these numbers in the first bytes of a file.
    pub fn ask(
        &mut self,
        (bytes, cut): (&[u8], usize),
        behind: Behind,
        numbers: &[u64],
        due: &Pictures,
    ) {
        let tail = match behind {
            Behind::Rest => &bytes[cut..],
            Behind::Other => self.random.pick(&TAILS),
            Behind::Fence => {
                let file = self.fence.holding(&bytes[..cut]);
                read(self.report, &mut self.random, file, numbers, due);
                return;
            }
        };
        let lent = Lent::holding(&mut self.random, &[&bytes[..cut], tail].concat());
        let file = &lent.now()[..cut];
        read(self.report, &mut self.random, file, numbers, due);
        self.report.check(lent.fault("file", None), || shown(file));
    }

    /// Pictures that are accepted whole, each by its number, and are then cut everywhere.
    fn everywhere(&mut self, pieces: &[Piece], ways: &[Behind]) {
        let bytes = joined(pieces);
        let count = pieces.len() as u64;
        let each: Vec<u64> = (1..=count).collect();
        let accepted = due_of_cut(pieces, bytes.len());
        assert_eq!(accepted.as_ref().map(Vec::len), Ok(pieces.len()));
        self.ask((&bytes, bytes.len()), Behind::Rest, &each, &accepted);
        for cut in 0..=bytes.len() {
            let due = due_of_cut(pieces, cut);
            check_definition(self.report, &bytes[..cut], &due);
            for way in ways {
                self.ask((&bytes, cut), *way, &numbers(count), &due);
            }
        }
    }

    /// One picture, accepted whole and then cut in these places, with one number and one way for
    /// each.
    fn once(&mut self, piece: Piece, cuts: impl Iterator<Item = usize>) {
        let pieces = [piece];
        let bytes = joined(&pieces);
        let accepted = due_of_cut(&pieces, bytes.len());
        check_definition(self.report, &bytes, &accepted);
        self.ask((&bytes, bytes.len()), Behind::Rest, &[1], &accepted);
        for cut in cuts {
            let number = self.random.pick(&[0, 1, 2, u64::MAX]);
            let way = self.random.pick(&[Behind::Rest, Behind::Fence]);
            self.ask((&bytes, cut), way, &[number], &due_of_cut(&pieces, cut));
        }
    }
}

/// Each header alone, and before one to three others.
fn table(cuts: &mut Cuts) {
    let pieces = written_out();
    let twice = [&pieces[..], &pieces].concat();
    for first in 0..pieces.len() {
        for count in 1..=4 {
            cuts.everywhere(&twice[first..first + count], &EVERY_WAY);
        }
    }
}

/// Gaps of a few hundred bytes in each place: blanks, one long comment, many short ones.
fn long_gaps(cuts: &mut Cuts) {
    for length in [253, 254, 255, 256, 600] {
        let blanks = vec![b' '; length];
        let comment = [b" #", &vec![b'7'; length][..], b"\r"].concat();
        let comments = [b"\t", &b"#\n"[..].repeat(length / 2)[..]].concat();
        for long in [blanks, comment, comments] {
            for place in 0..3 {
                let mut gaps: [&[u8]; 3] = [b" "; 3];
                gaps[place] = &long;
                let piece = Piece::of(gaps, ["1", "2", "9"], b'\n', vec![9, 0]);
                cuts.everywhere(&[piece], &[Behind::Fence]);
            }
        }
    }
}

/// Every maximum, with leading zeros, in a picture of that grey.
fn maxima(cuts: &mut Cuts) {
    for maximum in 1..=255u8 {
        let places = usize::from(maximum % 8);
        let digits = format!("{maximum:0places$}");
        let white = WHITE[usize::from(maximum % 4)];
        let piece = Piece::of([b" "; 3], ["1", "1", &digits], white, vec![maximum]);
        cuts.everywhere(&[piece.clone(), piece], &[Behind::Fence]);
    }
}

/// Pictures as large as may be.
fn large(cuts: &mut Cuts) {
    for [width, height] in [[4096, 256], [256, 4096], [1024, 1024], [4096, 1], [1, 4096]] {
        let raster = vec![b'1'; width * height];
        let digits = [width.to_string(), format!("{height:07}"), "49".into()];
        let piece = Piece::of([b" "; 3], digits.each_ref().map(|d| &d[..]), b' ', raster);
        let (header, all) = (piece.header.len(), piece.length());
        cuts.once(piece, (0..=header + 1).chain(all - 1..=all));
    }
}

/// Width, height and maximum of one digit and of two.
const DIGITS: [[&str; 2]; 3] = [["2", "10"], ["1", "02"], ["9", "80"]];

fn tiny(cuts: &mut Cuts, gaps: [&[u8]; 3], digits: [&str; 3], white: u8) {
    let greys = if digits[2] == "9" { b"\t\0" } else { b"#5" };
    let mut piece = Piece::of(gaps, digits, white, Vec::new());
    let pixels = piece.numbers[0] * piece.numbers[1];
    piece.raster = vec![cuts.random.pick(greys); pixels as usize];
    let all = piece.length();
    cuts.once(piece, 0..=all);
}

/// Every three short gaps, and every three very short ones with every choice of digits and of the
/// last white byte.
fn short_gaps(cuts: &mut Cuts) {
    let wide = gaps(&WHITE, &[b"\t", b"\n", b"\r", b" ", b"#\n", b"#\r"], 1);
    let deep = gaps(b" \n", &[b"\n", b"#\n", b"#1\r"], 2);
    for gaps in threes(&wide).chain(threes(&deep)) {
        let digits = DIGITS.map(|choice| cuts.random.pick(&choice));
        let white = cuts.random.pick(&WHITE);
        tiny(cuts, gaps, digits, white);
    }
    let few = gaps(b" \n", &[b"\r", b"#\n"], 1);
    for gaps in threes(&few) {
        for which in 0..8 {
            let digits = [0, 1, 2].map(|place| DIGITS[place][which >> place & 1]);
            for white in WHITE {
                tiny(cuts, gaps, digits, white);
            }
        }
    }
}

/// Numbers of 8 digits, and numbers out of range: the whole header is read before any is judged.
fn wrong_values(cuts: &mut Cuts) {
    let wrong = [
        (["00000001", "1", "1"], 9),
        (["1", "00000001", "1"], 9),
        (["1", "1", "00000001"], 9),
        (["0", "0", "0"], 10),
        (["1", "1", "0"], 10),
        (["1", "1", "256"], 10),
        (["4097", "0", "9999999"], 10),
        (["0", "1", "1"], 1),
        (["1", "0000000", "255"], 1),
        (["4097", "1", "1"], 1),
        (["1025", "1024", "9"], 1),
        (["9999999", "9999999", "255"], 1),
    ];
    let odd: [&[u8]; 3] = [b"\n#1 1 1\r", b"\t #\n", b"\r\n"];
    for (digits, cause) in wrong {
        for gaps in [[&b" "[..]; 3], odd] {
            let pieces = [Piece::of(gaps, digits, b'\n', vec![0; 3])];
            let bytes = joined(&pieces);
            for cut in 0..=bytes.len() {
                let due = match due_of_cut(&pieces, cut) {
                    Err(early @ (8 | 9)) => Err(early),
                    _ => Err(cause),
                };
                check_definition(cuts.report, &bytes[..cut], &due);
                for way in EVERY_WAY {
                    cuts.ask((&bytes, cut), way, &numbers(1), &due);
                }
            }
        }
    }
}

pub fn run(report: &mut Report, seed: u64, cases: usize) {
    let mut cuts = Cuts {
        report,
        random: Random::for_case(seed, 17, u64::MAX),
        fence: Fence::new(1 << 21),
    };
    table(&mut cuts);
    long_gaps(&mut cuts);
    maxima(&mut cuts);
    large(&mut cuts);
    wrong_values(&mut cuts);
    short_gaps(&mut cuts);
    page::run(&mut cuts);
    for case in 0..cases {
        cuts.random = Random::for_case(seed, 17, case as u64);
        let count = cuts.random.between(1, 4);
        let pieces: Vec<Piece> = (0..count).map(|_| any_piece(&mut cuts.random)).collect();
        cuts.everywhere(&pieces, &[EVERY_WAY[case % 3]]);
    }
    report.check_all_met("cut", &[0, 8, 9, 10, 1, 11, 12, 18]);
}
