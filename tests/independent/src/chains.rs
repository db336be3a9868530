// Chains of opening calls, good and bad. A chain's picture equals a single opening exactly when no
// node but the root has its attribute in the range between the two thresholds; both are levelings;
// and where the accepted thresholds are a step list, the falls are what the map call writes at gap
// 0, and joined what it writes at another. One neighbourhood is named in all accepted calls, the
// single opening and the map call, and levelings are judged by it. A list that mixes neighbourhoods
// is no chain: only each of its calls by itself is held to the definitions. The same holds of the
// reversed original, whose falls are what the dark map call on the original writes. Chains that mix
// attributes and triples stand in mixed.rs.

use crate::calls::{any_gap, attribute_values, check_map, check_open, step_list, threshold};
use crate::calls::{ByDefinition, Call};
use crate::causes::{is_step_list, refusal, NEIGHBOURHOODS, ORDER};
use crate::damage;
use crate::definition::{is_leveling, joined_falls, largest_falls, Picture};
use crate::interface::MapCall;
use crate::pictures;
use crate::random::Random;
use crate::report::Report;
use crate::table::rows;

/// The pictures that a chain hands on, the original first.
pub struct Handed {
    /// Under the chain's neighbourhood.
    pub original: ByDefinition,
    /// The original and the output of each accepted call.
    pub pictures: Vec<Vec<u8>>,
}

impl Handed {
    pub fn first(original: ByDefinition) -> Handed {
        Handed {
            pictures: vec![original.picture.greys.clone()],
            original,
        }
    }

    pub fn neighbours(&self) -> u32 {
        self.original.levels.neighbours
    }

    /// The chain's picture.
    pub fn current(&self) -> Picture {
        Picture {
            greys: self.pictures[self.pictures.len() - 1].clone(),
            ..self.original.picture
        }
    }

    /// Is the chain's picture one of the original?
    pub fn is_leveling(&self) -> bool {
        is_leveling(
            &self.original.picture,
            self.neighbours(),
            &self.current().greys,
        )
    }
}

struct Chain {
    handed: Handed,
    attribute: u32,
    accepted: Vec<u32>,
    /// A call was accepted under the other neighbourhood: the list is no chain under this one.
    mixed: bool,
    calls: usize,
}

impl Chain {
    fn largest(&self) -> u32 {
        self.accepted.iter().copied().max().unwrap_or(0)
    }

    /// Makes one call on the chain's picture. It is held to the neighbourhood that it names; if it
    /// names none it is refused, and nothing is asked of the levels.
    fn call(&mut self, report: &mut Report, random: &mut Random, call: &Call) {
        let current = self.handed.current();
        let named = call.numbers.neighbours;
        let known = NEIGHBOURHOODS.contains(&named);
        let truth = ByDefinition::of(&current, if known { named } else { 4 });
        self.calls += 1;
        if let Some(output) = check_open(report, random, call, &truth) {
            self.handed.pictures.push(output);
            self.accepted.push(call.steps[0]);
            self.mixed |= named != self.handed.neighbours();
        }
    }

    fn shown(&self) -> String {
        format!(
            "chain of {:?}: {:?} attribute {}, {} neighbours",
            self.accepted,
            self.handed.original.picture,
            self.attribute,
            self.handed.neighbours()
        )
    }
}

/// A call that is refused, on the picture that the chain hands on, by any attribute and under any
/// neighbourhood.
pub fn bad_call(random: &mut Random, good: &Call) -> Call {
    loop {
        let mut call = good.clone();
        call.numbers.attribute = random.between(1, 3) as u32;
        call.numbers.neighbours = random.pick(&NEIGHBOURHOODS);
        for _ in 0..random.between(1, 3) {
            match random.pick(&ORDER) {
                2 => {
                    let n = call.picture.len();
                    (call.numbers.width, call.numbers.height) = damage::other_sides(random, n);
                }
                cause => damage::apply(random, &mut call, cause),
            }
        }
        if refusal(&call.named_open()).is_err() {
            return call;
        }
    }
}

/// Thresholds in the order in which they are called: a step list, or any.
fn thresholds(random: &mut Random, values: &[u32]) -> Vec<u32> {
    if random.chance(1, 2) {
        return step_list(random, values);
    }
    let count = if random.chance(1, 200) {
        260
    } else {
        random.below(8)
    };
    (0..count).map(|_| threshold(random, values)).collect()
}

fn make(report: &mut Report, random: &mut Random, original: &Picture) -> Chain {
    let neighbours = random.pick(&NEIGHBOURHOODS);
    let attribute = random.between(1, 3) as u32;
    let mut chain = Chain {
        handed: Handed::first(ByDefinition::of(original, neighbours)),
        attribute,
        accepted: Vec::new(),
        mixed: false,
        calls: 0,
    };
    let values = attribute_values(&chain.handed.original.levels, attribute);
    let mixing = random.chance(1, 10);
    let mut due = thresholds(random, &values);
    due.truncate(if random.chance(1, 20) { 300 } else { 20 });
    due.reverse();
    while !due.is_empty() || random.chance(1, 3) {
        if due.is_empty() || random.chance(1, 4) {
            let good = Call::good(&chain.handed.current(), attribute, neighbours, vec![1]);
            let bad = bad_call(random, &good);
            chain.call(report, random, &bad);
        } else if let Some(t) = due.pop() {
            let named = if mixing {
                random.pick(&NEIGHBOURHOODS)
            } else {
                neighbours
            };
            let good = Call::good(&chain.handed.current(), attribute, named, vec![t]);
            chain.call(report, random, &good);
        }
    }
    chain
}

/// One single opening of the original beside the chain's picture.
fn check_single(report: &mut Report, random: &mut Random, chain: &Chain, single: u32) {
    let original = &chain.handed.original;
    let (attribute, neighbours) = (chain.attribute, chain.handed.neighbours());
    let call = Call::good(&original.picture, attribute, neighbours, vec![single]);
    let Some(opened) = check_open(report, random, &call, original) else {
        return;
    };
    let largest = chain.largest();
    let range = largest.min(single)..largest.max(single);
    let mut removable = original.levels.removable(attribute);
    let between = removable.any(|a| range.contains(&a));
    let equal = opened == chain.handed.current().greys;
    let fault = (equal == between).then(|| format!("single opening at {single}: equal is {equal}"));
    report.met("single opening", u64::from(between));
    report.check(fault, || chain.shown());
    let leveling = is_leveling(&original.picture, neighbours, &opened);
    let fault = (!leveling).then(|| format!("opening at {single} is no leveling"));
    report.check(fault, || chain.shown());
}

/// The falls of the chain beside what this map call writes: the light one on its original, or the
/// dark one on the picture whose reversal its original is.
fn check_falls(report: &mut Report, random: &mut Random, chain: &Chain, which: MapCall) {
    if !is_step_list(&chain.accepted) {
        return;
    }
    let given = match which {
        MapCall::Light => chain.handed.original.picture.clone(),
        _ => chain.handed.original.picture.reversed(),
    };
    let truth = ByDefinition::of(&given, chain.handed.neighbours());
    let (neighbours, steps) = (chain.handed.neighbours(), chain.accepted.clone());
    let mut call = Call::good(&given, chain.attribute, neighbours, steps);
    let further = any_gap(random);
    let mut falls = vec![largest_falls(&chain.handed.pictures)];
    falls.extend(joined_falls(&chain.handed.pictures, &[further]));
    for (gap, falls) in [0, further].into_iter().zip(falls) {
        call.gap = gap;
        let written = check_map(report, random, which, &call, &truth);
        let same = written.is_some_and(|written| written.maps == falls);
        let fault = (!same).then(|| format!("falls at gap {gap} are no {}", call.map_name(which)));
        report.check(fault, || chain.shown());
    }
}

fn check_chain(report: &mut Report, random: &mut Random, chain: &Chain, which: MapCall) {
    let leveling = chain.handed.is_leveling();
    let fault = (!leveling).then(|| String::from("the chain's picture is no leveling"));
    report.check(fault, || chain.shown());
    let values = attribute_values(&chain.handed.original.levels, chain.attribute);
    for _ in 0..3 {
        let single = threshold(random, &values);
        check_single(report, random, chain, single);
    }
    if !chain.accepted.is_empty() {
        check_single(report, random, chain, chain.largest());
    }
    check_falls(report, random, chain, which);
}

/// A picture whose corner breaks off under 4: opened there it is no leveling under 8, and a list
/// with this call is no chain under 8, where the single opening is another.
fn check_corner(report: &mut Report, random: &mut Random) {
    let inside = rows(&[[9, 0, 0], [0, 5, 5]]);
    let picture = pictures::in_ring(&inside);
    let cases = [
        (4, [0, 0, 0, 0, 5, 5], [true, false]),
        (8, [5, 0, 0, 0, 5, 5], [true, true]),
    ];
    for (neighbours, due, levelings) in cases {
        let due = pictures::ring(inside.width, &due, 0);
        let truth = ByDefinition::of(&picture, neighbours);
        let call = Call::good(&picture, 1, neighbours, vec![2]);
        let opened = check_open(report, random, &call, &truth);
        let judged = NEIGHBOURHOODS.map(|by| is_leveling(&picture, by, &due));
        let same = opened.as_ref() == Some(&due) && judged == levelings;
        let fault = (!same).then(|| format!("{opened:?}, a leveling under 4 and 8: {judged:?}"));
        report.check(fault, || format!("a corner, {neighbours} neighbours"));
    }
}

pub fn run(report: &mut Report, seed: u64, cases: usize) {
    check_corner(report, &mut Random::for_case(seed, 2, u64::MAX));
    let (mut calls, mut mixed) = (0, 0);
    for case in 0..cases {
        let mut random = Random::for_case(seed, 2, case as u64);
        let picture = pictures::small(&mut random, case);
        let sides = [
            (MapCall::Dark, picture.reversed()),
            (MapCall::Light, picture),
        ];
        for (which, original) in sides {
            let chain = make(report, &mut random, &original);
            calls += chain.calls;
            if chain.mixed {
                mixed += 1;
            } else {
                check_chain(report, &mut random, &chain, which);
            }
        }
    }
    let lists = 2 * cases;
    println!("  {calls} calls in {lists} lists, of which {mixed} mix neighbourhoods;");
    println!("  single openings equal to chains (0) or not (1):");
    report.check_all_met("single opening", &[0, 1]);
}
