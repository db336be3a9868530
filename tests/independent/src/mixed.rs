// Chains that mix openings by the three attributes and by triples, under one neighbourhood. Each call
// stands for a triple, one by an attribute for a triple with two zeros. The chain's picture equals a
// single opening, of either kind, exactly when no node of the original but the root meets just one
// of two triples: the single one, and the largest value in each part over the accepted calls, three
// zeros if there are none. Both are levelings. Where the accepted triples, in order, are a list, the
// falls are what the map call given these triples writes at gap 0, and joined what it writes at
// another; on the reversed original they are what the dark one writes.

use crate::calls::{any_gap, check_map, check_open, ByDefinition, Call};
use crate::causes::{MOST_STEPS, MOST_THRESHOLD, NEIGHBOURHOODS};
use crate::chains::{bad_call, Handed};
use crate::definition::{is_leveling, joined_falls, largest_falls, Picture};
use crate::interface::{Given, MapCall};
use crate::large;
use crate::parts::{self, Triple};
use crate::pictures::{self, in_ring};
use crate::random::Random;
use crate::report::Report;
use crate::triples::{node_sizes, triple, triple_list, walk};

struct Chain {
    handed: Handed,
    /// What each accepted call was given, and the triple that it stands for.
    given: Vec<Given>,
    accepted: Vec<Triple>,
    calls: usize,
}

impl Chain {
    fn call(&mut self, report: &mut Report, random: &mut Random, call: &Call) {
        let truth = ByDefinition::of(&self.handed.current(), self.handed.neighbours());
        self.calls += 1;
        if let Some(output) = check_open(report, random, call, &truth) {
            self.handed.pictures.push(output);
            self.given.push(call.given);
            self.accepted.push(meant(call));
        }
    }

    fn shown(&self) -> String {
        format!(
            "chain of {:?} by {:?}: {:?}, {} neighbours",
            self.accepted,
            self.given,
            self.handed.original.picture,
            self.handed.neighbours()
        )
    }
}

/// The triple that an opening call stands for.
fn meant(call: &Call) -> Triple {
    match call.given {
        Given::Thresholds => parts::of_threshold(call.numbers.attribute, call.steps[0]),
        Given::Triples => parts::triples(&call.steps)[0],
    }
}

/// An opening by this triple: by an attribute if it has two zeros, most of the time.
fn opening(random: &mut Random, picture: &Picture, neighbours: u32, triple: Triple) -> Call {
    let above: Vec<u32> = (1..=3).filter(|k| triple[*k as usize - 1] > 0).collect();
    match above[..] {
        [attribute] if random.chance(3, 4) => {
            let threshold = triple[attribute as usize - 1];
            Call::good(picture, attribute, neighbours, vec![threshold])
        }
        _ => Call::triples(picture, neighbours, &[triple]),
    }
}

/// A triple, or one of its parts alone.
fn any_triple(random: &mut Random, sizes: &[Triple]) -> Triple {
    let triple = triple(random, sizes);
    let part = random.below(3);
    if triple[part] > 0 && random.chance(1, 2) {
        parts::of_threshold(part as u32 + 1, triple[part])
    } else {
        triple
    }
}

/// Triples in the order in which they are called: a list, at the start of which one part alone may
/// rise, or any.
fn triples(random: &mut Random, sizes: &[Triple]) -> Vec<Triple> {
    match random.below(6) {
        0 | 1 => triple_list(random, sizes),
        2 | 3 => {
            let attribute = random.between(1, 3) as u32;
            let steps = random.between(1, 4) as u32;
            let mut list: Vec<Triple> = (1..=steps)
                .map(|t| parts::of_threshold(attribute, t))
                .collect();
            let further = triple_list(random, sizes);
            let from = parts::of_threshold(attribute, steps);
            list.extend(
                further
                    .iter()
                    .map(|triple| parts::largest(&[from, *triple])),
            );
            list.dedup();
            list
        }
        _ => {
            let count = random.pick(&[0, 1, 1, 2, 2, 3, 7]);
            (0..count).map(|_| any_triple(random, sizes)).collect()
        }
    }
}

/// Calls by these triples, in their order, and others between them that are refused.
fn make(
    report: &mut Report,
    random: &mut Random,
    original: ByDefinition,
    mut due: Vec<Triple>,
) -> Chain {
    let (neighbours, sizes) = (original.levels.neighbours, node_sizes(&original.levels));
    let mut chain = Chain {
        handed: Handed::first(original),
        given: Vec::new(),
        accepted: Vec::new(),
        calls: 0,
    };
    due.reverse();
    while !due.is_empty() || random.chance(1, 3) {
        let current = chain.handed.current();
        if due.is_empty() || random.chance(1, 5) {
            let triple = any_triple(random, &sizes);
            let good = opening(random, &current, neighbours, triple);
            let bad = bad_call(random, &good);
            chain.call(report, random, &bad);
        } else if let Some(triple) = due.pop() {
            let good = opening(random, &current, neighbours, triple);
            chain.call(report, random, &good);
        }
    }
    chain
}

/// One single opening of the original beside the chain's picture.
fn check_single(report: &mut Report, random: &mut Random, chain: &Chain, single: Triple) {
    let original = &chain.handed.original;
    let neighbours = chain.handed.neighbours();
    let call = opening(random, &original.picture, neighbours, single);
    let Some(opened) = check_open(report, random, &call, original) else {
        return;
    };
    let largest = parts::largest(&chain.accepted);
    let meets_one = |sizes| parts::meets(sizes, single) != parts::meets(sizes, largest);
    let differ = original.levels.all_removable().any(meets_one);
    let equal = opened == chain.handed.current().greys;
    let fault = (equal == differ).then(|| format!("opening by {single:?}: equal is {equal}"));
    report.met("single triple", u64::from(differ));
    report.check(fault, || chain.shown());
    let leveling = is_leveling(&original.picture, neighbours, &opened);
    let fault = (!leveling).then(|| format!("opening by {single:?} is no leveling"));
    report.check(fault, || chain.shown());
}

/// The falls of the chain beside what this map call writes: the light one on its original, or the
/// dark one on the picture whose reversal its original is.
fn check_falls(report: &mut Report, random: &mut Random, chain: &Chain, which: MapCall) {
    let is_list = parts::is_list(&chain.accepted.concat());
    report.met("falls", u64::from(is_list) * kind(chain));
    if !is_list {
        return;
    }
    let given = match which {
        MapCall::Light => chain.handed.original.picture.clone(),
        _ => chain.handed.original.picture.reversed(),
    };
    let truth = ByDefinition::of(&given, chain.handed.neighbours());
    let further = any_gap(random);
    let mut falls = vec![largest_falls(&chain.handed.pictures)];
    falls.extend(joined_falls(&chain.handed.pictures, &[further]));
    for (gap, falls) in [0, further].into_iter().zip(falls) {
        let call = Call {
            gap,
            ..Call::triples(&given, chain.handed.neighbours(), &chain.accepted)
        };
        let written = check_map(report, random, which, &call, &truth);
        let same = written.is_some_and(|written| written.maps == falls);
        let fault = (!same).then(|| format!("falls at gap {gap} are no {}", call.map_name(which)));
        report.check(fault, || chain.shown());
    }
}

/// Without calls (0), by attributes (1), by triples (2), by both (3).
fn kind(chain: &Chain) -> u64 {
    let has = |given: Given| u64::from(chain.given.contains(&given));
    has(Given::Thresholds) + 2 * has(Given::Triples)
}

/// A triple beside the largest one: it, one with a part more, less or spared, or any.
fn beside(random: &mut Random, largest: Triple, sizes: &[Triple]) -> Triple {
    let part = random.below(3);
    let mut single = largest;
    match random.below(8) {
        0 => {}
        1 => single[part] = (single[part] + 1).min(MOST_THRESHOLD),
        2 => single[part] = single[part].saturating_sub(1),
        3 => single[part] = 0,
        _ => single = any_triple(random, sizes),
    }
    if single == [0; 3] {
        single[part] = 1;
    }
    single
}

fn check_chain(report: &mut Report, random: &mut Random, chain: &Chain, which: MapCall) {
    let leveling = chain.handed.is_leveling();
    let fault = (!leveling).then(|| String::from("the chain's picture is no leveling"));
    report.check(fault, || chain.shown());
    let sizes = node_sizes(&chain.handed.original.levels);
    let largest = parts::largest(&chain.accepted);
    for _ in 0..4 {
        let single = beside(random, largest, &sizes);
        check_single(report, random, chain, single);
    }
    check_falls(report, random, chain, which);
    report.met("mixed", kind(chain));
}

/// As many calls as a list has steps at most, and more of them, with which there are no maps.
fn check_long(report: &mut Report, random: &mut Random) {
    for steps in [MOST_STEPS - 1, MOST_STEPS, MOST_STEPS + 1, MOST_STEPS + 44] {
        for (case, neighbours) in NEIGHBOURHOODS.into_iter().enumerate() {
            let picture = in_ring(&large::picture(random, ["floc", "plateaus"][case], 12, 9));
            let due = walk(random, steps);
            let original = ByDefinition::of(&picture, neighbours);
            let chain = make(report, random, original, due);
            check_chain(report, random, &chain, MapCall::Light);
        }
    }
}

pub fn run(report: &mut Report, seed: u64, cases: usize) {
    check_long(report, &mut Random::for_case(seed, 15, u64::MAX));
    let mut calls = 0;
    for case in 0..cases {
        let mut random = Random::for_case(seed, 15, case as u64);
        let picture = pictures::small(&mut random, case);
        let sides = [
            (MapCall::Dark, picture.reversed()),
            (MapCall::Light, picture),
        ];
        for (which, original) in sides {
            let original = ByDefinition::of(&original, random.pick(&NEIGHBOURHOODS));
            let mut due = triples(&mut random, &node_sizes(&original.levels));
            due.truncate(12);
            let chain = make(report, &mut random, original, due);
            calls += chain.calls;
            check_chain(report, &mut random, &chain, which);
        }
    }
    println!("  {calls} calls in {} chains;", 2 * cases);
    println!("  without calls (0), by attributes (1), by triples (2), by both (3):");
    report.check_all_met("mixed", &[0, 1, 2, 3]);
    println!("  of these with falls that are maps, none of them (0) or by their kind:");
    report.check_all_met("falls", &[0, 1, 2, 3]);
    println!("  single openings equal to chains (0) or not (1):");
    report.check_all_met("single triple", &[0, 1]);
}
