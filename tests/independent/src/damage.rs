// Ways to make a cause apply to a call.

use crate::calls::Call;
use crate::causes::{pixels, NEIGHBOURHOODS, WORDS_A_PIXEL};
use crate::causes::{MOST_GAP, MOST_STEPS, MOST_THRESHOLD};
use crate::interface::Given;
use crate::random::Random;
use crate::triples::walk;

/// Makes one of the causes apply to the call, whatever else does. To a call given triples 3 never
/// does.
pub fn apply(random: &mut Random, call: &mut Call, cause: u32) {
    match cause {
        1 => sides(random, call),
        2 => picture(random, call),
        3 => call.numbers.attribute = wrong_attribute(random),
        17 => call.numbers.neighbours = wrong_neighbours(random),
        4 if call.given == Given::Triples => triples(random, call),
        4 => steps(random, call),
        19 => call.gap = wrong_gap(random),
        5 => call.workspace = random.pick(&all_wrong_workspaces(call.picture.len())),
        _ => outputs(random, call),
    }
}

fn wrong_attribute(random: &mut Random) -> u32 {
    random.pick(&[
        0,
        4,
        5,
        255,
        256,
        257,
        258,
        259,
        65_537,
        1 << 31,
        (1 << 24) + 2,
        u32::MAX,
    ])
}

/// Numbers that are neither 4 nor 8: small ones, large ones, and 4 or 8 with one bit turned.
pub fn all_wrong_neighbours() -> Vec<u32> {
    let mut numbers = vec![1, 2, 3, 7, 11, 255, 259, 1 << 31, u32::MAX];
    for number in NEIGHBOURHOODS {
        numbers.push(number.wrapping_neg());
        numbers.extend((0..32).map(|bit| number ^ (1 << bit)));
    }
    numbers
}

fn wrong_neighbours(random: &mut Random) -> u32 {
    random.pick(&all_wrong_neighbours())
}

/// Numbers above 256: small ones, large ones, gaps with one bit more, and gaps below 0.
pub fn all_wrong_gaps() -> Vec<u32> {
    let mut numbers = vec![258, 300, 511, 767, MOST_THRESHOLD, u32::MAX >> 1];
    for gap in [0, 1, 2, MOST_GAP - 1, MOST_GAP] {
        numbers.push(gap.wrapping_neg());
        numbers.extend((0..32).map(|bit| gap | 1 << bit));
    }
    numbers.retain(|number| *number > MOST_GAP);
    numbers
}

fn wrong_gap(random: &mut Random) -> u32 {
    if random.chance(1, 4) {
        random.between(MOST_GAP as usize + 1, u32::MAX as usize) as u32
    } else {
        random.pick(&all_wrong_gaps())
    }
}

/// Lengths that are not 7n words: parts of n words, none to twice as many as are due; those for one
/// pixel more or fewer; a word more or fewer than 6, 7 and 8 parts, and than for one pixel more; a
/// single word.
pub fn all_wrong_workspaces(n: usize) -> Vec<usize> {
    let due = WORDS_A_PIXEL * n;
    let mut lengths: Vec<usize> = (0..=2 * WORDS_A_PIXEL).map(|parts| parts * n).collect();
    lengths.extend([due.saturating_sub(WORDS_A_PIXEL), due + WORDS_A_PIXEL]);
    for near in [due - n, due, due + n, due + WORDS_A_PIXEL] {
        lengths.extend([near.saturating_sub(1), near + 1]);
    }
    lengths.push(1);
    lengths.retain(|length| *length != due);
    lengths
}

/// Sides whose product is too large, by 3 at the least, or wraps around to 0 or a small number.
pub fn wrong_sides(random: &mut Random) -> (u32, u32) {
    const PRODUCTS: [(u32, u32); 10] = [
        (919, 1141),
        (1141, 919),
        (4096, 257),
        (257, 4096),
        (1025, 1024),
        (1024, 1025),
        (4096, 4096),
        (65_536, 65_536),
        (0, 0),
        (u32::MAX, u32::MAX),
    ];
    random.pick(&PRODUCTS)
}

fn sides(random: &mut Random, call: &mut Call) {
    let wrong = random.pick(&[0, 4097, 4098, 65_536, 65_537, 1 << 31, u32::MAX]);
    match random.below(4) {
        0 => call.numbers.width = wrong,
        1 => call.numbers.height = wrong,
        2 => call.numbers.width |= random.pick(&[1 << 16, 1 << 30, 1 << 31]),
        _ => (call.numbers.width, call.numbers.height) = wrong_sides(random),
    }
}

/// A length other than the one due, near it or a part or a multiple of it.
fn other_length(random: &mut Random, due: usize, n: usize) -> usize {
    let choices = [
        due + 1,
        due.saturating_sub(1),
        0,
        2 * due,
        due + n,
        due.saturating_sub(n),
    ];
    let length = random.pick(&choices);
    if length == due {
        due + 1
    } else {
        length
    }
}

/// Another number of bytes, or other sides that are good and have another n.
fn picture(random: &mut Random, call: &mut Call) {
    let bytes = call.picture.len();
    if random.chance(1, 2) {
        let grey = random.byte();
        let length = other_length(random, bytes, bytes / 2);
        call.picture.resize(length, grey);
    } else {
        (call.numbers.width, call.numbers.height) = other_sides(random, bytes);
    }
}

/// Sides within the bounds whose n is not `n`.
pub fn other_sides(random: &mut Random, n: usize) -> (u32, u32) {
    loop {
        let sides = match random.below(4) {
            0 => (n as u32 + 1, 1),
            1 => (1, n as u32 + 1),
            2 => (4096, 256),
            _ => (random.between(1, 64) as u32, random.between(1, 64) as u32),
        };
        if pixels(sides.0, sides.1).is_ok_and(|named| named != n) {
            return sides;
        }
    }
}

/// A threshold out of range. A call with one threshold takes the first of the list.
fn steps(random: &mut Random, call: &mut Call) {
    let out_of_range = [
        0,
        MOST_THRESHOLD + 1,
        MOST_THRESHOLD + 2,
        1 << 24,
        1 << 31,
        u32::MAX,
    ];
    let wrong = random.pick(&out_of_range);
    let last = call.steps.len() - 1;
    match random.below(4) {
        0 => call.steps[0] = wrong,
        1 => call.steps[last] = wrong,
        2 => call.steps.fill(wrong),
        _ => call.steps.insert(0, wrong),
    }
}

/// Numbers that are no part of a triple.
pub const WRONG_PARTS: [u32; 5] = [
    MOST_THRESHOLD + 1,
    MOST_THRESHOLD + 2,
    1 << 24,
    1 << 31,
    u32::MAX,
];

/// A part out of range, or a first triple of three zeros. A call with one triple takes the first of
/// the list.
fn triples(random: &mut Random, call: &mut Call) {
    let (wrong, part) = (random.pick(&WRONG_PARTS), random.below(3));
    let last = call.steps.len() - 3;
    match random.below(6) {
        0 => call.steps[part] = wrong,
        1 => call.steps[last + part] = wrong,
        2 => call.steps.fill(wrong),
        3 => call.steps[..3].fill(0),
        4 => drop(call.steps.splice(..0, [0; 3])),
        _ => {
            call.steps.splice(..0, [0; 3]);
            call.steps[part] = wrong;
        }
    }
}

/// A list that is empty, too long, cut short or not rising, every part in range and the first triple
/// none of zeros.
pub fn triple_order(random: &mut Random, call: &mut Call) {
    let first = 3 * random.below(call.steps.len() / 3);
    let step = call.steps[first..first + 3].to_vec();
    match random.below(8) {
        0 => call.steps.clear(),
        1 => call.steps = walk(random, MOST_STEPS + 1).concat(),
        2 => {
            let length = random.between(MOST_STEPS + 1, 3 * MOST_STEPS);
            call.steps = walk(random, length).concat();
        }
        3 => drop(call.steps.splice(first..first, step)),
        4 => {
            let left = call.steps.len() - random.between(1, 2);
            call.steps.truncate(left);
        }
        5 => call.steps.push(MOST_THRESHOLD),
        6 => call.steps.extend([MOST_THRESHOLD; 2]),
        _ => {
            let fallen = fallen(random, &step);
            call.steps.splice(first + 3..first + 3, fallen);
        }
    }
}

/// A step after which one part has fallen, by one or to 0; the others stay or rise.
fn fallen(random: &mut Random, step: &[u32]) -> Vec<u32> {
    let above: Vec<usize> = (0..3).filter(|part| step[*part] > 0).collect();
    let falling = random.pick(&above);
    let by = random.pick(&[1, step[falling]]);
    let rise = random.below(3) as u32;
    let mut next: Vec<u32> = step.iter().map(|part| part + rise).collect();
    next[falling] = step[falling] - by;
    next.iter().map(|part| *part.min(&MOST_THRESHOLD)).collect()
}

/// A list of thresholds that is empty, too long or not strictly rising, every one in range.
pub fn list_order(random: &mut Random, call: &mut Call) {
    match random.below(6) {
        0 => call.steps.clear(),
        1 => call.steps = (1..=MOST_STEPS as u32 + 1).collect(),
        2 => {
            let length = random.between(MOST_STEPS + 1, 3 * MOST_STEPS) as u32;
            call.steps = (1..=length).collect();
        }
        3 => {
            let at = random.below(call.steps.len());
            call.steps.insert(at, call.steps[at]);
        }
        4 if call.steps.len() > 1 => {
            let at = random.below(call.steps.len() - 1);
            call.steps.swap(at, at + 1);
        }
        _ => call.steps.push(1),
    }
}

/// One of the three, two or all.
fn outputs(random: &mut Random, call: &mut Call) {
    let chosen = random.between(1, 7);
    for which in (0..3).filter(|which| chosen >> which & 1 == 1) {
        let due = call.outputs[which];
        call.outputs[which] = other_length(random, due, due / 2);
    }
}
