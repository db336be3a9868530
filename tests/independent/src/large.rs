// A few large pictures, at the bounds of the sides and of n, against the fast implementation: as
// they stand, and set in a ring where otherwise the frame would cut all that is in them. Each is
// mapped at gap 0, and under one of the neighbourhoods at another gap too; what is dark in 255 less
// each grey is compared at one of the two. By triples each is opened under both neighbourhoods, and
// mapped under one of them.

use crate::calls::{check_build, check_gaps, check_open, Call};
use crate::causes::NEIGHBOURHOODS;
use crate::definition::Picture;
use crate::fast::Forest;
use crate::parts::Triple;
use crate::pictures::{in_ring, KINDS};
use crate::random::Random;
use crate::report::Report;
use crate::triples::walk;

const SIZES: [(&str, usize, usize); 11] = [
    ("floc", 1024, 1024),
    ("noise", 1024, 1024),
    ("checkerboard", 1024, 1024),
    ("flat", 1024, 1024),
    ("floc", 256, 4096),
    ("few greys", 4096, 255),
    ("noise", 1, 4096),
    ("noise", 4096, 1),
    ("bridges", 1000, 1001),
    ("diagonals", 1024, 1024),
    ("row ends", 255, 4096),
];

/// Sides with the ring.
const RINGED: [(&str, usize, usize); 5] = [
    ("ramp", 1024, 1024),
    ("spiral", 1024, 1024),
    ("comb", 4096, 256),
    ("noise", 3, 4096),
    ("noise", 4096, 3),
];

const GAPS: [u32; 7] = [1, 2, 3, 7, 40, 255, 256];

pub fn picture(random: &mut Random, kind: &str, width: usize, height: usize) -> Picture {
    let (_, maker) = KINDS
        .iter()
        .find(|(name, _)| *name == kind)
        .expect("a kind");
    let greys = maker(random, width, height);
    Picture {
        width,
        height,
        greys,
    }
}

/// 1 to 256, or sizes that grow by a twentieth.
fn steps(random: &mut Random) -> Vec<u32> {
    if random.chance(1, 2) {
        return (1..=256).collect();
    }
    let mut steps = vec![random.between(1, 3) as u32];
    while steps.len() < 256 {
        let last = steps[steps.len() - 1];
        steps.push(last + 1 + last / 20);
    }
    steps.retain(|t| *t <= 1_048_577);
    steps
}

/// 256 or a few, each of whose parts grows in turn or at random.
fn triples(random: &mut Random) -> Vec<Triple> {
    if random.chance(1, 2) {
        return walk(random, 256);
    }
    let mut triple = [0; 3];
    let in_turn = |k: usize| {
        triple[k % 3] += 1 + triple[k % 3] / 2;
        triple
    };
    (0..random.between(9, 30)).map(in_turn).collect()
}

/// Under each neighbourhood build and opening by each attribute, and the map by one of them in turn.
fn check(report: &mut Report, random: &mut Random, picture: &Picture, case: usize) {
    for (turn, neighbours) in NEIGHBOURHOODS.into_iter().enumerate() {
        let forest = Forest::of(picture, neighbours);
        for attribute in 1..=3 {
            let call = Call::good(picture, attribute, neighbours, steps(random));
            check_build(report, random, &call, &forest);
            if attribute as usize == 1 + (case + turn) % 3 {
                let further = GAPS[case % GAPS.len()];
                let (gaps, turn) = match (case + turn) % 2 {
                    0 => (&[0][..], 0),
                    _ => (&[0, further][..], 1 + case % 3),
                };
                check_gaps(report, random, &call, gaps, &forest, turn);
            }
            let single = random.pick(&[2, 5, 12, 60, 900, 1024, 1_048_576, 1_048_577]);
            let call = Call::good(picture, attribute, neighbours, vec![single]);
            check_open(report, random, &call, &forest);
        }
        let triple = [0, 1, 2].map(|_| random.pick(&[0, 1, 2, 3, 5, 12, 60, 900]));
        let single = Call::triples(picture, neighbours, &[triple.map(|part| part + 1)]);
        check_open(report, random, &single, &forest);
        if turn == case % 2 {
            let call = Call::triples(picture, neighbours, &triples(random));
            let gap = random.pick(&[0, GAPS[case % GAPS.len()]]);
            check_gaps(report, random, &call, &[gap], &forest, 2 * (case / 2));
        }
    }
}

pub fn run(report: &mut Report, seed: u64) {
    for (case, (kind, width, height)) in SIZES.into_iter().enumerate() {
        let mut random = Random::for_case(seed, 5, case as u64);
        let picture = picture(&mut random, kind, width, height);
        check(report, &mut random, &picture, case);
    }
    for (case, (kind, width, height)) in (SIZES.len()..).zip(RINGED) {
        let mut random = Random::for_case(seed, 5, case as u64);
        let picture = in_ring(&picture(&mut random, kind, width - 2, height - 2));
        check(report, &mut random, &picture, case);
    }
}
