// The header's eight steps in the order of the Netpbm page: sign, white, width, white, height,
// white, maximum, one white byte. Each step is left out, done twice, exchanged with the next one,
// followed by a comment, parted by one, and replaced by a foreign byte. What is due is worked out
// by hand.

use crate::bursts::check_definition;
use crate::cuts::{Cuts, EVERY_WAY};
use crate::pgm::{self, Head};

/// Maximum and start of the raster of the one picture, or the cause.
type Answer = Result<[u32; 2], u32>;

struct Page {
    /// Width and height, which no change of the steps changes without a cause.
    sides: [u32; 2],
    whole: Answer,
    /// The bytes of each step, and what is due where it is left out, is done twice, comes after the
    /// next one (which for the last step is the first byte of the raster), and where a comment
    /// comes after it.
    steps: [(&'static [u8], [Answer; 4]); 8],
    raster: &'static [u8],
}

const PAGES: [Page; 4] = [
    // A raster that no header goes on with. Where a step is missing, the last white byte starts the
    // gap before the maximum, and no digit follows, 9. Digits done twice are 66 pixels, 11. A
    // second last white byte or a comment is in the raster and above the maximum, 12.
    Page {
        sides: [2, 3],
        whole: Ok([9, 9]),
        steps: [
            (b"P5", [Err(8), Err(9), Err(8), Err(9)]),
            (b" ", [Err(9), Ok([9, 10]), Err(9), Ok([9, 11])]),
            (b"2", [Err(9), Err(11), Err(9), Err(9)]),
            (b"\n", [Err(9), Ok([9, 10]), Err(9), Ok([9, 11])]),
            (b"3", [Err(9), Err(11), Err(9), Err(9)]),
            (b"\t", [Err(9), Ok([9, 10]), Err(9), Ok([9, 11])]),
            (b"9", [Err(9), Ok([99, 10]), Err(9), Err(9)]),
            (b"\r", [Err(9), Err(12), Err(9), Err(12)]),
        ],
        raster: b"\x01\x02\x03\x04\x05\x06",
    },
    // A raster that is a number and a white byte. Where a step is missing, these are the maximum
    // and the last white byte, and no raster is left, 11; where the last white byte does not part
    // it from the maximum, that is 991, 10. A second last white byte or a comment is raster, and
    // what it moves is no picture, 8.
    Page {
        sides: [1, 2],
        whole: Ok([99, 10]),
        steps: [
            (b"P5", [Err(8), Err(9), Err(8), Err(9)]),
            (b" ", [Err(9), Ok([99, 11]), Err(9), Ok([99, 12])]),
            (b"1", [Err(11), Err(11), Err(11), Err(9)]),
            (b" ", [Err(11), Ok([99, 11]), Err(11), Ok([99, 12])]),
            (b"2", [Err(11), Err(11), Err(11), Err(9)]),
            (b" ", [Err(11), Ok([99, 11]), Err(11), Ok([99, 12])]),
            (b"99", [Err(11), Err(10), Err(10), Err(9)]),
            (b"\n", [Err(10), Err(8), Err(10), Err(8)]),
        ],
        raster: b"1\n",
    },
    // A raster that starts with white. That is the last white byte where this one is left out or
    // comes before the maximum, and the raster is a byte short, 11; where it is there twice, a byte
    // is left over, 8; where both change places, nothing changes.
    Page {
        sides: [3, 1],
        whole: Ok([9, 9]),
        steps: [
            (b"P5", [Err(8), Err(9), Err(8), Err(9)]),
            (b"\n", [Err(9), Ok([9, 10]), Err(9), Ok([9, 11])]),
            (b"3", [Err(9), Err(11), Err(9), Err(9)]),
            (b"\r", [Err(9), Ok([9, 10]), Err(9), Ok([9, 11])]),
            (b"1", [Err(9), Err(11), Err(9), Err(9)]),
            (b" ", [Err(9), Ok([9, 10]), Err(9), Ok([9, 11])]),
            (b"9", [Err(9), Ok([99, 10]), Err(11), Err(9)]),
            (b"\t", [Err(11), Err(8), Ok([9, 9]), Err(12)]),
        ],
        raster: b"\t\0\x01",
    },
    // Gaps with comments, and a raster that looks like one. Where a step is missing, the file ends
    // in a gap, 9. A second last white byte or a comment is raster, and a byte or two are left
    // over, 8.
    Page {
        sides: [2, 1],
        whole: Ok([50, 19]),
        steps: [
            (b"P5", [Err(8), Err(9), Err(8), Err(9)]),
            (b" #1\n", [Err(9), Ok([50, 23]), Err(9), Ok([50, 21])]),
            (b"2", [Err(9), Err(11), Err(9), Err(9)]),
            (b"\n#2\r", [Err(9), Ok([50, 23]), Err(9), Ok([50, 21])]),
            (b"1", [Err(9), Err(11), Err(9), Err(9)]),
            (b"\t#3\n", [Err(9), Ok([50, 23]), Err(9), Ok([50, 21])]),
            (b"50", [Err(9), Err(10), Err(9), Err(9)]),
            (b" ", [Err(9), Err(8), Err(9), Err(8)]),
        ],
        raster: b"#\n",
    },
];

/// A file as it stands, and then cut everywhere: within an accepted header by the law, else as the
/// definition has it.
fn check(cuts: &mut Cuts, sides: [u32; 2], parts: &[&[u8]], answer: Answer) {
    let file = parts.concat();
    let head = |[maximum, raster]: [u32; 2]| Head {
        width: sides[0],
        height: sides[1],
        maximum,
        raster: raster as usize,
    };
    let whole = answer.map(|numbers| vec![head(numbers)]);
    let header = answer.map_or(0, |[_, raster]| raster as usize);
    check_definition(cuts.report, &file, &whole);
    for cut in 0..=file.len() {
        let due = match cut {
            _ if cut >= header => pgm::pictures(&file[..cut]),
            0 | 1 => Err(8),
            _ => Err(9),
        };
        for way in EVERY_WAY {
            cuts.ask((&file, cut), way, &[0, 1, 2, u64::MAX], &due);
        }
    }
}

/// Bytes that no step has. Two of them are white for the page's last paragraph, not for the scope.
const FOREIGN: [u8; 6] = [0, 11, 12, b'-', 0x85, 0xa0];

pub fn run(cuts: &mut Cuts) {
    for page in PAGES {
        let mut check = |parts: &[&[u8]], answer| check(cuts, page.sides, parts, answer);
        let mut parts: Vec<&[u8]> = page.steps.iter().map(|(step, _)| *step).collect();
        parts.extend([&page.raster[..1], &page.raster[1..]]);
        check(&parts, page.whole);
        for (at, (step, [left_out, twice, exchanged, commented])) in page.steps.iter().enumerate() {
            let (before, after) = (&parts[..at], &parts[at + 1..]);
            let later = [&[after[0], step], &after[1..]].concat();
            check(&[before, after].concat(), *left_out);
            check(&[before, &[step, step], after].concat(), *twice);
            check(&[before, &later].concat(), *exchanged);
            check(&[before, &[step, b"#\n"], after].concat(), *commented);
            let unless_sign = |due| if at == 0 { Err(8) } else { due };
            let amid: [&[u8]; 3] = [&step[..1], b"#\n", &step[1..]];
            check(&[before, &amid, after].concat(), unless_sign(*commented));
            for foreign in FOREIGN {
                check(
                    &[before, &[&[foreign]], after].concat(),
                    unless_sign(Err(9)),
                );
            }
        }
    }
}
