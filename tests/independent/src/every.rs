// Every picture of a few small shapes with a few greys, by every attribute and neighbourhood, by
// triples, and at several gaps: as it stands, where most of it is frame, and set in a ring of either of the two
// darkest greys.

use crate::calls::{check_build, check_gaps, check_open, ByDefinition, Call};
use crate::causes::{MOST_GAP, MOST_THRESHOLD, NEIGHBOURHOODS};
use crate::definition::Picture;
use crate::pictures::ringed;
use crate::random::Random;
use crate::report::Report;
use crate::triples::{node_sizes, triple, triple_list};

/// Width, height, and how many greys.
const SHAPES: [(usize, usize, usize); 11] = [
    (1, 1, 4),
    (6, 1, 3),
    (1, 6, 3),
    (2, 2, 4),
    (2, 3, 3),
    (3, 2, 3),
    (4, 2, 3),
    (3, 3, 3),
    (3, 4, 2),
    (4, 3, 2),
    (5, 3, 2),
];

/// Those inside a ring.
const INSIDES: [(usize, usize, usize); 7] = [
    (5, 1, 3),
    (1, 5, 3),
    (2, 2, 4),
    (2, 3, 3),
    (4, 2, 2),
    (2, 4, 2),
    (3, 3, 3),
];

/// Unevenly apart, so that falls differ.
const GREYS: [u8; 4] = [7, 8, 100, 255];

/// Beside 0. They are taken in turn, so that a picture meets all of them; so are the dark and the
/// combined call, at gap 0 and at another.
const GAPS: [u32; 4] = [1, 2, MOST_GAP - 1, MOST_GAP];

/// The picture whose greys are the digits of the number.
pub fn picture((width, height, greys): (usize, usize, usize), number: usize) -> Picture {
    let mut rest = number;
    let mut next = || {
        let digit = rest % greys;
        rest /= greys;
        GREYS[digit]
    };
    Picture {
        width,
        height,
        greys: (0..width * height).map(|_| next()).collect(),
    }
}

fn pixels(shape: (usize, usize, usize)) -> u32 {
    (shape.0 * shape.1) as u32
}

/// No size that is visible is above `most`.
fn check(
    report: &mut Report,
    random: &mut Random,
    picture: &Picture,
    neighbours: u32,
    most: u32,
    (first, number): (usize, usize),
) {
    let truth = ByDefinition::of(picture, neighbours);
    let thresholds: Vec<u32> = (1..=most + 1).chain([MOST_THRESHOLD]).collect();
    for (place, attribute) in (first..).zip(1..=3) {
        let mut steps = thresholds.clone();
        steps.retain(|_| random.chance(2, 3));
        let single = random.pick(&thresholds);
        let call = Call::good(picture, attribute, neighbours, vec![single]);
        check_build(report, random, &call, &truth);
        check_open(report, random, &call, &truth);
        if !steps.is_empty() {
            let call = Call::good(picture, attribute, neighbours, steps);
            let gaps = [0, GAPS[(place + number) % GAPS.len()]];
            let turn = place + number / GAPS.len();
            check_gaps(report, random, &call, &gaps, &truth, turn);
        }
    }
    let sizes = node_sizes(&truth.levels);
    let call = Call::triples(picture, neighbours, &[triple(random, &sizes)]);
    check_open(report, random, &call, &truth);
    let call = Call::triples(picture, neighbours, &triple_list(random, &sizes));
    let gaps = [0, GAPS[number % GAPS.len()]];
    check_gaps(report, random, &call, &gaps, &truth, number / GAPS.len());
}

pub fn run(report: &mut Report, seed: u64) {
    let mut random = Random::for_case(seed, 7, 0);
    for (first, neighbours) in [0, 3].into_iter().zip(NEIGHBOURHOODS) {
        for shape in SHAPES {
            let most = pixels(shape);
            for number in 0..shape.2.pow(most) {
                let picture = picture(shape, number);
                let turn = (first, number);
                check(report, &mut random, &picture, neighbours, most, turn);
            }
        }
        for shape in INSIDES {
            let most = pixels(shape);
            for number in 0..shape.2.pow(most) {
                for grey in &GREYS[..2] {
                    let picture = ringed(&picture(shape, number), *grey);
                    let turn = (first, number);
                    check(report, &mut random, &picture, neighbours, most, turn);
                }
            }
        }
    }
}
