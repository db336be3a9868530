// Blurred rims, in the words of the request: two non-null residues at i and a later j, with only
// null ones between, belong to one run if j less i is at most the gap; the map holds the largest
// run total, and the index is the largest i + 1 of a non-null residue in a run attaining it, the
// largest among such runs, or 0. Pictures worked out by hand; hills, whose residues are chosen one
// by one: every list of a few, and lists of 256 places; gaps that are refused, beside every set of
// other causes; then random pictures, on which the library is held to what follows from the rule,
// and to equation 6 of source document 001. The programs here are held to the same.

use crate::calls::{any_gap, any_good, any_named, attribute_values, check_gaps, check_maps};
use crate::calls::{shown, step_list, ByDefinition, Call, Truth};
use crate::causes::{refusal, MOST_GAP, MOST_STEPS, MOST_THRESHOLD, NEIGHBOURHOODS, ORDER};
use crate::damage;
use crate::definition::{largest_falls, Picture, Record, CUT};
use crate::fast::Forest;
use crate::interface::MapCall;
use crate::large;
use crate::parts::Triple;
use crate::pictures::{self, in_ring};
use crate::random::Random;
use crate::report::Report;
use crate::runs::{runs, Maps};
use crate::table::{rows, Table, AREA, HEIGHT, WIDTH};
use crate::triples::{node_sizes, triple_list};

/// The scope's P in its ring: before the floc of grey 20 falls by 10, the two brighter ones in it
/// fall by 10 and by 30.
fn one_row(table: &mut Table) {
    let p = rows(&[[10, 30, 20, 50, 10]]);
    let gap = table.gap;
    let mut maps = |named: (u32, &[u32]), residue: [u8; 5], index: [u16; 5]| {
        table.maps_inside(&p, named, &residue, &index);
    };
    let (apart, joined) = ([0, 10, 10, 30, 0], [0, 20, 10, 40, 0]);
    if gap < 2 {
        maps((AREA, &[1, 2, 3, 4]), apart, [0, 4, 4, 2, 0]);
        maps((AREA, &[2, 3, MOST_THRESHOLD]), apart, [0, 3, 3, 1, 0]);
    } else {
        maps((AREA, &[1, 2, 3, 4]), joined, [0, 4, 4, 4, 0]);
        maps((AREA, &[2, 3, MOST_THRESHOLD]), joined, [0, 3, 3, 3, 0]);
    }
    if gap < 1 {
        maps((AREA, &[2, 4]), apart, [0, 2, 2, 1, 0]);
        maps((WIDTH, &[1, 3, MOST_THRESHOLD]), apart, [0, 3, 3, 2, 0]);
    } else {
        maps((AREA, &[2, 4]), joined, [0, 2, 2, 2, 0]);
        maps((WIDTH, &[1, 3, MOST_THRESHOLD]), joined, [0, 3, 3, 3, 0]);
    }
    maps((AREA, &[1]), [0; 5], [0; 5]);
    maps((AREA, &[6]), joined, [0, 1, 1, 1, 0]);
    maps((HEIGHT, &[1, 2]), joined, [0, 2, 2, 2, 0]);
    maps((AREA, &[1, 2, 3]), [0, 10, 0, 30, 0], [0, 2, 0, 2, 0]);
}

/// The profile of source document 001, figure 7, which works out its sums at gap 1.
fn profile(table: &mut Table) {
    let profile = rows(&[[9, 9, 9, 8, 7, 5, 3, 3, 0, 0]]);
    let (residue, index) = match table.gap {
        0 => ([3; 8], [9; 8]),
        1 => ([6, 6, 6, 5, 4, 3, 3, 3], [7, 7, 7, 7, 7, 9, 9, 9]),
        _ => ([9, 9, 9, 8, 7, 5, 3, 3], [9; 8]),
    };
    let residue = [&residue[..], &[0; 2]].concat();
    let index = [&index[..], &[0; 2]].concat();
    let steps: Vec<u32> = (1..=10).collect();
    for attribute in [AREA, WIDTH] {
        table.maps_inside(&profile, (attribute, &steps), &residue, &index);
    }
}

/// Floc within each other that fall by 2, 3, 5 and 5, one, two and three places apart, in one that
/// the frame cuts. The pixels are those of each in turn, the brightest first.
fn cut(table: &mut Table) {
    let picture = rows(&[
        [0, 0, 0, 0, 0, 0],
        [0, 21, 21, 16, 16, 0],
        [0, 26, 24, 16, 16, 0],
        [0, 11, 11, 11, 11, 11],
        [0, 0, 0, 0, 0, 0],
    ]);
    let (falls, places) = match table.gap {
        0 | 1 => ([5; 8], [7; 8]),
        2 => ([10, 8, 5, 5, 5, 5, 5, 5], [4, 4, 7, 7, 7, 7, 7, 7]),
        _ => ([15, 13, 10, 10, 5, 5, 5, 5], [7; 8]),
    };
    let (mut residue, mut index) = ([0; 30], [0; 30]);
    for (k, p) in [13, 14, 7, 8, 9, 10, 15, 16].into_iter().enumerate() {
        (residue[p], index[p]) = (falls[k], places[k]);
    }
    let steps = [2, 3, 4, 5, 6, 8, MOST_THRESHOLD];
    table.maps(&picture, (AREA, &steps), &residue, &index);
}

/// Floc within each other along a line, on a ground that is one pixel wide all around: each starts
/// at the first pixel of the line.
struct Hill {
    ground: u8,
    /// Pixels of the line. A floc that is longer touches the frame.
    room: usize,
    /// The length of each floc, and how far it rises above what it lies in.
    flocs: Vec<(usize, u8)>,
}

impl Hill {
    /// The one that has these residues, at its first pixel, by the steps 2, 3, 4 and on.
    fn with(residues: &[u8]) -> Hill {
        let floc = |(i, rise): (usize, &u8)| (i + 1, *rise);
        Hill {
            ground: 0,
            room: residues.len(),
            flocs: residues.iter().enumerate().map(floc).collect(),
        }
    }

    /// Of the line and the pixel after it, in a row; down a column where heights count.
    fn positions(&self, attribute: u32) -> Vec<usize> {
        let line = 1..=self.room + 1;
        if attribute == HEIGHT {
            line.map(|row| 3 * row + 1).collect()
        } else {
            line.map(|column| self.room + 2 + column).collect()
        }
    }

    fn holding(&self, place: usize) -> impl Iterator<Item = &(usize, u8)> {
        self.flocs.iter().filter(move |(length, _)| *length > place)
    }

    fn picture(&self, attribute: u32) -> Picture {
        let long = self.room + 2;
        let (width, height) = if attribute == HEIGHT {
            (3, long)
        } else {
            (long, 3)
        };
        let mut greys = vec![self.ground; width * height];
        for (place, p) in self.positions(attribute).into_iter().enumerate() {
            greys[p] += self.holding(place).map(|(_, rise)| rise).sum::<u8>();
        }
        Picture {
            width,
            height,
            greys,
        }
    }

    /// Of the pixel at this place of the line: what each floc that holds it rises by, at the first
    /// step above its size.
    fn residues(&self, steps: &[u32], place: usize) -> Vec<u8> {
        let mut residues = vec![0; steps.len()];
        for (length, rise) in self.holding(place) {
            let size = if *length > self.room {
                CUT
            } else {
                *length as u32
            };
            if let Some(i) = steps.iter().position(|t| *t > size) {
                residues[i] += rise;
            }
        }
        residues
    }

    fn maps(&self, attribute: u32, steps: &[u32], gaps: &[u32]) -> Vec<Maps> {
        let n = 3 * (self.room + 2);
        let mut maps = vec![(vec![0; n], vec![0; n]); gaps.len()];
        for (place, p) in self.positions(attribute).into_iter().enumerate() {
            let residues = self.residues(steps, place);
            for ((residue, index), gap) in maps.iter_mut().zip(gaps) {
                (residue[p], index[p]) = from_each(&residues, *gap);
            }
        }
        maps
    }

    /// Triples with the same residues: at each step the part of area, that of the extent along the
    /// line, or both rise to the threshold; across the line one pixel is enough.
    fn triples(random: &mut Random, attribute: u32, steps: &[u32]) -> Vec<Triple> {
        let (along, across) = if attribute == HEIGHT { (1, 2) } else { (2, 1) };
        let mut triple = [0; 3];
        triple[across] = random.below(2) as u32;
        let rising = |t: &u32| {
            for part in random.pick(&[&[0][..], &[along], &[0, along]]) {
                triple[*part] = *t;
            }
            triple
        };
        steps.iter().map(rising).collect()
    }

    /// In the programs here and in the library, by this attribute and by triples, under this
    /// neighbourhood.
    fn check(
        &self,
        report: &mut Report,
        random: &mut Random,
        (attribute, neighbours): (u32, u32),
        steps: &[u32],
        gaps: &[u32],
    ) {
        let picture = self.picture(attribute);
        let plain = ByDefinition::of(&picture, neighbours);
        let forest = Forest::of(&picture, neighbours);
        let due = self.maps(attribute, steps, gaps);
        let triples = Hill::triples(random, attribute, steps);
        let calls = [
            Call::good(&picture, attribute, neighbours, steps.to_vec()),
            Call::triples(&picture, neighbours, &triples),
        ];
        for call in calls {
            let same = call.maps(&plain, gaps) == due && call.maps(&forest, gaps) == due;
            let fault = (!same).then(|| format!("programs here: not as chosen, gaps {gaps:?}"));
            report.check(fault, || shown("hill", &call));
            let turn = random.below(4);
            check_gaps(report, random, &call, gaps, &forest, turn);
        }
    }
}

/// The rule without runs: from each non-null residue on, those that follow are added as long as
/// none is further from the one before than the gap. The largest of all these sums and, of several,
/// where the last of them ends.
fn from_each(residues: &[u8], gap: u32) -> (u8, u16) {
    let places: Vec<usize> = (0..residues.len()).filter(|i| residues[*i] > 0).collect();
    let mut largest = (0, 0);
    for (k, first) in places.iter().enumerate() {
        let (mut sum, mut before) = (0, *first);
        for i in places[k..].iter().copied() {
            if i - before > gap as usize {
                break;
            }
            (sum, before) = (sum + residues[i], i);
            largest = largest.max((sum, i as u16 + 1));
        }
    }
    largest
}

/// Every list of a few residues, in turn with a floc around all that the frame cuts: by all steps,
/// without the first or the last one, and by every second one, at which two floc fall together.
fn every_list(report: &mut Report, random: &mut Random, places: u32, values: usize) {
    let gaps: Vec<u32> = (0..=places).chain([MOST_GAP - 1, MOST_GAP]).collect();
    let steps: Vec<u32> = (2..=places + 1).collect();
    let every_second: Vec<u32> = steps.iter().copied().step_by(2).collect();
    for number in 0..values.pow(places) {
        let digit = |i: u32| (number / values.pow(i) % values) as u8;
        let residues: Vec<u8> = (0..places).map(digit).collect();
        let mut hill = Hill::with(&residues);
        if number % 2 == 0 {
            hill.ground = 7;
            hill.flocs.push((hill.room + 1, 2));
        }
        for attribute in [AREA, HEIGHT, WIDTH] {
            let [four, eight] = NEIGHBOURHOODS.map(|neighbours| (attribute, neighbours));
            hill.check(report, random, four, &steps, &gaps);
            hill.check(report, random, eight, &steps[1..], &gaps);
            hill.check(report, random, four, &steps[..steps.len() - 1], &gaps);
            hill.check(report, random, eight, &every_second, &gaps);
        }
    }
}

/// 256 steps, from 2 on, so that the first place can hold a residue.
fn long_steps() -> Vec<u32> {
    (2..=MOST_STEPS as u32 + 1).collect()
}

/// Two residues and no others. At gaps below their distance they are apart, and the larger or else
/// the later one counts; from their distance on they are joined.
fn two_residues(report: &mut Report, random: &mut Random, first: usize, distance: usize) {
    let second = first + distance;
    for (falls, place) in [([5, 5], second), ([6, 5], first), ([5, 6], second)] {
        let mut residues = vec![0; MOST_STEPS];
        [residues[first], residues[second]] = falls;
        let gaps = [distance - 1, distance, distance + 1].map(|gap| gap as u32);
        let apart = (falls[0].max(falls[1]), place as u16 + 1);
        let joined = (falls[0] + falls[1], second as u16 + 1);
        let same = gaps.map(|gap| from_each(&residues, gap)) == [apart, joined, joined];
        let fault = (!same).then(|| String::from("not the larger or the later, or both joined"));
        report.check(fault, || {
            format!("programs here: {falls:?} at {first} and {second}")
        });
        let named = any_named(random);
        Hill::with(&residues).check(report, random, named, &long_steps(), &gaps);
    }
}

fn at_distances(report: &mut Report, random: &mut Random) {
    for distance in [1, 2, 3, 4, 63, 64, 127, 128, 129, 254, 255] {
        let last = MOST_STEPS - 1 - distance;
        let mut firsts = vec![0, last / 2, last];
        firsts.dedup();
        for first in firsts {
            two_residues(report, random, first, distance);
        }
    }
}

/// Stairs from the last of 256 places down, this far apart, that add up to 255.
fn stairs(report: &mut Report, random: &mut Random) {
    for (apart, rise) in [(1, 1), (2, 2), (3, 3), (17, 16), (85, 64), (255, 128)] {
        let mut rest = u8::MAX;
        let mut residues = vec![0; MOST_STEPS];
        for i in (0..MOST_STEPS).rev().step_by(apart) {
            residues[i] = rest.min(rise);
            rest -= residues[i];
        }
        let apart = apart as u32;
        let sums = [apart, MOST_GAP].map(|gap| from_each(&residues, gap));
        let fault = (sums != [(255, 256); 2]).then(|| format!("{sums:?}"));
        report.check(fault, || format!("programs here: stairs of {rise}"));
        let gaps = [0, apart - 1, apart, apart + 1, MOST_GAP - 1, MOST_GAP];
        for attribute in [AREA, HEIGHT, WIDTH] {
            let named = (attribute, random.pick(&NEIGHBOURHOODS));
            Hill::with(&residues).check(report, random, named, &long_steps(), &gaps);
        }
    }
}

/// Floc of any lengths, several of which may fall at one step.
fn any_hill(random: &mut Random) -> Hill {
    let room = random.between(1, 300);
    let near = random.between(1, room);
    let ground = random.below(100) as u8;
    let mut rest = u8::MAX - ground;
    let mut flocs = Vec::new();
    for _ in 0..random.between(1, 25) {
        let most = random.pick(&[1, 2, 3, 30]).min(rest);
        let rise = random.between(0, usize::from(most)) as u8;
        let longest = random.pick(&[near, room, room + 1]);
        flocs.push((random.between(1, longest), rise));
        rest -= rise;
    }
    Hill {
        ground,
        room,
        flocs,
    }
}

/// At gaps that are distances of residues, or one less, and at any.
fn check_any_hill(report: &mut Report, random: &mut Random) {
    let hill = any_hill(random);
    let sizes: Vec<u32> = hill.flocs.iter().map(|floc| floc.0 as u32).collect();
    let steps = match random.below(4) {
        0 => (1..=MOST_STEPS as u32).collect(),
        1 => long_steps(),
        _ => step_list(random, &sizes),
    };
    let residues = hill.residues(&steps, 0);
    let places: Vec<usize> = (0..steps.len()).filter(|i| residues[*i] > 0).collect();
    let mut gaps = vec![any_gap(random)];
    if places.len() > 1 {
        let k = random.below(places.len() - 1);
        let distance = (places[k + 1] - places[k]) as u32;
        gaps.extend([distance - 1, distance]);
    }
    let named = any_named(random);
    hill.check(report, random, named, &steps, &gaps);
}

/// What one pixel's runs are like, and how many attain the largest total.
fn count(report: &mut Report, residues: &[u8], gap: u32) {
    let runs = runs(residues, gap);
    let number = residues.iter().filter(|residue| **residue > 0).count();
    let kind = match runs.len() {
        0 => 0,
        alone if alone == number => 1,
        1 => 2,
        _ => 3,
    };
    report.met("runs", kind);
    let largest = runs.iter().map(|run| run.total).max();
    let attaining = runs.iter().filter(|run| Some(run.total) == largest).count();
    report.met("largest", attaining.min(2) as u64);
}

/// One pixel at rising gaps. From the number of steps less 1 on, a gap joins all its residues.
fn pixel_fault(falls: &[u8], gaps: &[u32], at: &[(u8, u16)]) -> Option<String> {
    let sums = gaps.iter().map(|gap| from_each(falls, *gap));
    let last = falls.iter().rposition(|fall| *fall > 0);
    let all = (falls.iter().sum(), last.map_or(0, |i| i as u16 + 1));
    let mut joining = (gaps.iter().zip(at)).filter(|(gap, _)| **gap as usize + 1 >= falls.len());
    let is_place = |(residue, index): &(u8, u16)| match usize::from(*index) {
        0 => *residue == 0,
        place => {
            let fall = falls.get(place - 1);
            fall.is_some_and(|fall| (1..=*residue).contains(fall))
        }
    };
    let faults = [
        (!sums.eq(at.iter().copied())).then_some("not the largest sum"),
        (at.windows(2).any(|pair| pair[0].0 > pair[1].0)).then_some("less at a larger gap"),
        (!joining.all(|(_, at)| *at == all)).then_some("not all residues joined"),
        (!at.iter().all(is_place)).then_some("no residue at the index"),
    ];
    let fault = faults.into_iter().flatten().next()?;
    Some(format!(
        "{fault}: {at:?} of residues {falls:?}, gaps {gaps:?}"
    ))
}

fn laws_fault(
    report: &mut Report,
    openings: &[Vec<u8>],
    gaps: &[u32],
    maps: &[Maps],
) -> Option<String> {
    if maps[0] != largest_falls(openings) {
        return Some(String::from("gap 0: not the map of the scope"));
    }
    (0..openings[0].len()).find_map(|p| {
        let fall = |pair: &[Vec<u8>]| pair[0][p] - pair[1][p];
        let falls: Vec<u8> = openings.windows(2).map(fall).collect();
        count(report, &falls, gaps[1]);
        let at: Vec<(u8, u16)> = maps.iter().map(|map| (map.0[p], map.1[p])).collect();
        pixel_fault(&falls, gaps, &at).map(|fault| format!("at {p}: {fault}"))
    })
}

fn check_laws(report: &mut Report, random: &mut Random, truth: &ByDefinition, attribute: u32) {
    let ByDefinition {
        picture, levels, ..
    } = truth;
    let values = attribute_values(levels, attribute);
    let steps = step_list(random, &values);
    let (near, all) = (random.between(1, 4) as u32, steps.len() as u32 - 1);
    let mut gaps = [0, near, any_gap(random), all, MOST_GAP];
    gaps.sort_unstable();
    let call = Call::good(picture, attribute, levels.neighbours, steps);
    let turn = random.below(4);
    let maps = check_gaps(report, random, &call, &gaps, truth, turn);
    let openings = levels.openings(picture, attribute, &call.steps);
    let fault = laws_fault(report, &openings, &gaps, &maps);
    report.check(fault, || shown("laws", &call));
    let triples = triple_list(random, &node_sizes(levels));
    let call = Call::triples(picture, levels.neighbours, &triples);
    let maps = check_gaps(report, random, &call, &gaps, truth, turn + 1);
    let openings = levels.triple_openings(picture, &triples);
    let fault = laws_fault(report, &openings, &gaps, &maps);
    report.check(fault, || shown("laws", &call));
}

/// Source document 001, equation 6, from the root on: a node's sum is its level less its parent's
/// and, if their attributes differ by the gap or less, the parent's sum besides. The map holds the
/// largest sum of the pixel's node and the nodes above.
fn equation_6(greys: &[u8], record: &Record, gap: u32) -> Vec<u8> {
    let mut sum = vec![0; greys.len()];
    let mut largest = vec![0; greys.len()];
    for node in record.list[1..].iter().map(|p| *p as usize) {
        let parent = record.parents[node] as usize;
        sum[node] = greys[node] - greys[parent];
        if record.attributes[parent] - record.attributes[node] <= gap {
            sum[node] += sum[parent];
        }
        largest[node] = sum[node].max(largest[parent]);
    }
    let of = |p: usize| match record.attributes[p] {
        0 => largest[record.parents[p] as usize],
        _ => largest[p],
    };
    (0..greys.len()).map(of).collect()
}

/// The steps 1, 2, 3 and on, of which the last is above every attribute but the root's. The root
/// alone touches the frame.
fn check_equation(
    report: &mut Report,
    random: &mut Random,
    picture: &Picture,
    truth: &dyn Truth,
    named: (u32, u32),
) {
    let (attribute, neighbours) = named;
    let record = truth.record(attribute);
    let removable = record.attributes.iter().filter(|word| **word != CUT);
    let last = removable.max().map_or(1, |most| most + 1);
    let steps: Vec<u32> = (1..=last + random.below(3) as u32).collect();
    if steps.len() > MOST_STEPS {
        return;
    }
    let gaps = [0, 1, random.between(2, 9) as u32, any_gap(random)];
    let call = Call::good(picture, attribute, neighbours, steps);
    let turn = random.below(4);
    let maps = check_gaps(report, random, &call, &gaps, truth, turn);
    for (gap, (residue, _)) in gaps.into_iter().zip(&maps) {
        let same = *residue == equation_6(&picture.greys, &record, gap);
        let fault = (!same).then(|| format!("not by equation 6, gap {gap}"));
        report.check(fault, || shown("map", &call));
        report.met("equation", u64::from(*residue != maps[0].0));
    }
}

/// Larger ones, by the sizes that stay below 256.
const LARGER: [(&str, usize, usize); 5] = [
    ("floc", 250, 200),
    ("noise", 120, 240),
    ("rings", 253, 253),
    ("ramp", 200, 100),
    ("plateaus", 253, 90),
];

fn check_larger(report: &mut Report, random: &mut Random) {
    for (kind, width, height) in LARGER {
        let picture = in_ring(&large::picture(random, kind, width, height));
        for neighbours in NEIGHBOURHOODS {
            let forest = Forest::of(&picture, neighbours);
            for attribute in [HEIGHT, WIDTH] {
                check_equation(report, random, &picture, &forest, (attribute, neighbours));
            }
        }
    }
}

/// Every gap from 0 on, to 256 accepted, and then refused.
fn every_gap(report: &mut Report, random: &mut Random) {
    let steps = long_steps();
    for attribute in [AREA, HEIGHT, WIDTH] {
        let mut residues = vec![0; MOST_STEPS];
        for _ in 0..30 {
            residues[random.below(MOST_STEPS)] = random.between(1, 8) as u8;
        }
        let picture = Hill::with(&residues).picture(attribute);
        for neighbours in NEIGHBOURHOODS {
            let forest = Forest::of(&picture, neighbours);
            let mut call = Call::good(&picture, attribute, neighbours, steps.clone());
            let accepted: Vec<u32> = (0..=MOST_GAP).collect();
            for turn in 0..4 {
                check_gaps(report, random, &call, &accepted, &forest, turn);
            }
            let triples = Hill::triples(random, attribute, &steps);
            let mut by_triples = Call::triples(&picture, neighbours, &triples);
            for turn in [0, 1] {
                check_gaps(report, random, &by_triples, &accepted, &forest, turn);
            }
            for gap in MOST_GAP + 1..2 * MOST_GAP + 9 {
                (call.gap, by_triples.gap) = (gap, gap);
                check_maps(report, random, &call, &forest);
                check_maps(report, random, &by_triples, &forest);
            }
        }
    }
}

/// A call that is refused, so that nothing is asked of the picture's tree.
fn check_refused(report: &mut Report, random: &mut Random, picture: &Picture, call: &Call) {
    let forest = Forest::of(picture, 4);
    for call in [call, &call.by_triples()] {
        check_maps(report, random, call, &forest);
        let named = call.named_map(MapCall::Light, &call.steps);
        let cause = refusal(&named).expect_err("the gap is wrong");
        report.met("wrong gap", u64::from(cause));
    }
}

/// Wrong gaps, each alone, which is beside 19, and beside each other cause.
fn wrong_gaps(report: &mut Report, random: &mut Random) {
    for (case, gap) in damage::all_wrong_gaps().into_iter().enumerate() {
        for beside in ORDER {
            let (picture, mut call) = any_good(random, case);
            damage::apply(random, &mut call, beside);
            call.gap = gap;
            check_refused(report, random, &picture, &call);
        }
    }
}

/// A wrong gap beside every set of other causes; the list is out of range or out of order.
fn every_set(report: &mut Report, random: &mut Random) {
    let others: Vec<u32> = ORDER.into_iter().filter(|cause| *cause != 19).collect();
    for set in 0..1 << others.len() {
        for turn in 0..12 {
            let (picture, mut call) = any_good(random, turn);
            damage::apply(random, &mut call, 19);
            let chosen = (0..others.len()).filter(|k| set >> k & 1 == 1);
            for cause in chosen.rev().map(|k| others[k]) {
                if cause == 4 && turn % 2 == 0 {
                    damage::list_order(random, &mut call);
                } else {
                    damage::apply(random, &mut call, cause);
                }
            }
            check_refused(report, random, &picture, &call);
        }
    }
}

pub fn run(report: &mut Report, seed: u64, cases: usize) {
    let mut random = Random::for_case(seed, 12, u64::MAX);
    for gap in [0, 1, 2, 3, 4, 255, 256] {
        for neighbours in NEIGHBOURHOODS {
            let mut table = Table {
                report,
                random: Random::for_case(seed, 12, u64::MAX - u64::from(gap + 1)),
                neighbours,
                gap,
            };
            one_row(&mut table);
            profile(&mut table);
            cut(&mut table);
        }
    }
    every_list(report, &mut random, 6, 3);
    every_list(report, &mut random, 4, 5);
    at_distances(report, &mut random);
    stairs(report, &mut random);
    every_gap(report, &mut random);
    wrong_gaps(report, &mut random);
    every_set(report, &mut random);
    check_larger(report, &mut random);
    for case in 0..cases {
        let mut random = Random::for_case(seed, 12, case as u64);
        if case % 10 == 0 {
            check_any_hill(report, &mut random);
        }
        let picture = &in_ring(&pictures::small(&mut random, case));
        let attribute = 1 + case as u32 % 3;
        for neighbours in NEIGHBOURHOODS {
            let truth = ByDefinition::of(picture, neighbours);
            check_laws(report, &mut random, &truth, attribute);
            let named = (attribute, neighbours);
            check_equation(report, &mut random, picture, &truth, named);
        }
    }
    report.check_all_met("wrong gap", &[1, 2, 3, 17, 4, 19]);
    println!("  pixels without runs (0), each residue by itself (1), all in one (2), others (3):");
    report.check_all_met("runs", &[0, 1, 2, 3]);
    println!("  no run (0), one (1) or several (2) attain the largest total:");
    report.check_all_met("largest", &[0, 1, 2]);
    println!("  sums by equation 6 as at gap 0 (0) or others (1):");
    report.check_all_met("equation", &[0, 1]);
}
