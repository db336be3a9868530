// Floc cut by the frame: a node with a pixel in the first or last row or column has 1,048,577 for
// each attribute, the root too, so no threshold removes it. Pictures that are all frame; bright
// rectangles at every place, touching the frame or not, within each other; floc that meets the
// frame's pixels only by a corner; floc that fills the largest pictures but for their frame. Of
// these the library and a program here or both are held to what the places alone say; where all is
// frame, parents and list are the second program's. Then random pictures, on which the library is
// held to the laws as well.

use crate::calls::{any_gap, attribute_values, check_build, check_gaps, check_open};
use crate::calls::{shown, step_list, threshold, ByDefinition, Call, Truth};
use crate::causes::{MOST_THRESHOLD, NEIGHBOURHOODS};
use crate::definition::{Picture, Record, CUT};
use crate::fast::Forest;
use crate::nest::{Nest, Rectangle};
use crate::parts::Triple;
use crate::pictures::{self, KINDS};
use crate::random::Random;
use crate::report::Report;
use crate::runs::Maps;
use crate::table::{rows, Table, AREA, HEIGHT, WIDTH};
use crate::triples::{node_sizes, triple_list};
use std::cell::OnceCell;

/// The tree, the maps, and the opening at each step, in the programs here and in the library. Where
/// steps are at each size and one above it, residues are one or two places apart.
fn check(
    report: &mut Report,
    random: &mut Random,
    call: &Call,
    by_hand: &dyn Truth,
    programs: &[&dyn Truth],
) {
    let gaps = [0, random.pick(&[1, 2])];
    let singles = call.singles();
    for program in programs {
        let opens_so = |single: &Call| single.opening(*program) == single.opening(by_hand);
        let same = call.record(*program) == call.record(by_hand)
            && call.maps(*program, &gaps) == call.maps(by_hand, &gaps)
            && singles.iter().all(opens_so);
        let fault = (!same).then(|| String::from("programs here: not as worked out by hand"));
        report.check(fault, || shown("tree, maps and openings", call));
    }
    check_build(report, random, call, by_hand);
    let turn = random.below(4);
    check_gaps(report, random, call, &gaps, by_hand, turn);
    check_openings(report, random, call, by_hand);
}

fn check_openings(report: &mut Report, random: &mut Random, call: &Call, by_hand: &dyn Truth) {
    for single in call.singles() {
        check_open(report, random, &single, by_hand);
    }
}

/// Everything is frame: all nodes have 1,048,577, openings change nothing, all maps are zero.
struct AllFrame {
    picture: Picture,
    neighbours: u32,
    /// Parents and the list of nodes, which the frame has no part in.
    tree: Record,
    reversed: OnceCell<Box<AllFrame>>,
}

impl AllFrame {
    fn of(picture: &Picture, neighbours: u32) -> AllFrame {
        AllFrame {
            picture: picture.clone(),
            neighbours,
            tree: Forest::of(picture, neighbours).record(AREA),
            reversed: OnceCell::new(),
        }
    }
}

impl Truth for AllFrame {
    fn record(&self, _: u32) -> Record {
        let greys = &self.picture.greys;
        let word = |(p, parent): (usize, &u32)| {
            let above = *parent as usize;
            let representative = above == p || greys[above] < greys[p];
            if representative {
                CUT
            } else {
                0
            }
        };
        Record {
            parents: self.tree.parents.clone(),
            attributes: self.tree.parents.iter().enumerate().map(word).collect(),
            list: self.tree.list.clone(),
        }
    }
    fn opening(&self, _: u32, _: u32) -> Vec<u8> {
        self.picture.greys.clone()
    }
    fn maps(&self, _: u32, _: &[u32], gaps: &[u32]) -> Vec<Maps> {
        let n = self.picture.pixels();
        vec![(vec![0; n], vec![0; n]); gaps.len()]
    }
    fn triple_opening(&self, _: Triple) -> Vec<u8> {
        self.picture.greys.clone()
    }
    fn triple_maps(&self, _: &[Triple], gaps: &[u32]) -> Vec<Maps> {
        self.maps(AREA, &[], gaps)
    }
    fn reversed(&self) -> &dyn Truth {
        let reversed = || AllFrame::of(&self.picture.reversed(), self.neighbours);
        &**self.reversed.get_or_init(|| Box::new(reversed()))
    }
}

/// Thresholds about 1, about n and at the end of the range.
fn thresholds(n: usize) -> Vec<u32> {
    let n = n as u32;
    let mut steps = vec![1, 2, n, n + 1, MOST_THRESHOLD - 1, MOST_THRESHOLD];
    steps.sort_unstable();
    steps.dedup();
    steps
}

fn check_all_frame(report: &mut Report, random: &mut Random, picture: &Picture) {
    for neighbours in NEIGHBOURHOODS {
        let plain = ByDefinition::of(picture, neighbours);
        let forest = Forest::of(picture, neighbours);
        let by_hand = AllFrame::of(picture, neighbours);
        for attribute in 1..=3 {
            let steps = thresholds(picture.pixels());
            let call = Call::good(picture, attribute, neighbours, steps);
            check(report, random, &call, &by_hand, &[&plain, &forest]);
        }
        let n = picture.pixels() as u32;
        let triples = triple_list(random, &[[1, 1, 1], [n, n, n], [CUT; 3]]);
        let call = Call::triples(picture, neighbours, &triples);
        check(report, random, &call, &by_hand, &[&plain, &forest]);
    }
}

/// One or two rows or columns of any kind, one pixel too; of the first kind as long as may be.
fn one_or_two(report: &mut Report, random: &mut Random) {
    for (kind, (_, maker)) in KINDS.into_iter().enumerate() {
        let longest = if kind == 0 { 4096 } else { 80 };
        for long in [1, 2, 3, 4, 5, 6, 7, 17, longest] {
            for (width, height) in [(long, 1), (1, long), (long, 2), (2, long)] {
                let picture = Picture {
                    width,
                    height,
                    greys: maker(random, width, height),
                };
                check_all_frame(report, random, &picture);
            }
        }
    }
}

/// The scope's P and its two-row case without a ring.
fn without_ring(table: &mut Table) {
    let p = rows(&[[10, 30, 20, 50, 10]]);
    let two_rows = rows(&[[9, 0], [0, 9]]);
    table.tree_cut(&p, &[0, 2, 0, 2, 0], &[0, 2, 1, 3]);
    if table.neighbours == 4 {
        table.tree_cut(&two_rows, &[1; 4], &[1, 0, 3]);
    } else {
        table.tree_cut(&two_rows, &[1, 1, 1, 0], &[1, 0]);
    }
    for attribute in [AREA, HEIGHT, WIDTH] {
        for picture in [&p, &two_rows] {
            let (residue, index) = (vec![0; picture.pixels()], vec![0; picture.pixels()]);
            table.maps(
                picture,
                (attribute, &[1, 2, 3, 6, MOST_THRESHOLD]),
                &residue,
                &index,
            );
            for t in [1, 2, 3, 6, MOST_THRESHOLD] {
                table.opening(picture, (attribute, t), &picture.greys);
            }
        }
    }
}

fn check_nest(report: &mut Report, random: &mut Random, nest: &Nest) {
    let picture = &nest.picture;
    for neighbours in NEIGHBOURHOODS {
        let plain = ByDefinition::of(picture, neighbours);
        let forest = Forest::of(picture, neighbours);
        for attribute in 1..=3 {
            let call = Call::good(picture, attribute, neighbours, nest.steps(attribute));
            check(report, random, &call, nest, &[&plain, &forest]);
        }
        let triples = triple_list(random, &nest.attributes);
        let call = Call::triples(picture, neighbours, &triples);
        check(report, random, &call, nest, &[&plain, &forest]);
    }
}

/// A floc at every place, alone and with a peak at every place in it: each touches the frame at one
/// side, at a corner, at several sides or not at all.
fn rectangles(report: &mut Report, random: &mut Random) {
    for (width, height) in [(6, 5), (3, 3), (4, 3), (3, 4)] {
        let whole = Rectangle::whole(width, height);
        for floc in whole.smaller() {
            check_nest(report, random, &Nest::new(&[whole, floc]));
            for peak in floc.smaller() {
                check_nest(report, random, &Nest::new(&[whole, floc, peak]));
            }
        }
    }
}

/// Width and height of the largest pictures, and the attributes of all but the frame.
const LARGEST: [(usize, usize, [u32; 3]); 3] = [
    (1024, 1024, [1_044_484, 1022, 1022]),
    (4096, 256, [1_039_876, 254, 4094]),
    (256, 4096, [1_039_876, 4094, 254]),
];

/// A floc that fills all but the frame, by each attribute: maps, and the openings at its exact size
/// and one above; the tree by one of them in turn. By triples: at its size, and one above in one
/// part.
fn all_but_frame(report: &mut Report, random: &mut Random, nest: &Nest, turn: usize) {
    let neighbours = NEIGHBOURHOODS[turn % 2];
    for attribute in 1..=3 {
        let steps = nest.steps(attribute);
        let call = Call::good(&nest.picture, attribute, neighbours, steps);
        check_gaps(report, random, &call, &[0], nest, 2 * turn);
        let size = nest.attributes[1][attribute as usize - 1];
        let call = Call {
            steps: vec![size, size + 1],
            ..call
        };
        if attribute as usize == 1 + turn {
            let forest = Forest::of(&nest.picture, neighbours);
            check(report, random, &call, nest, &[&forest]);
        } else {
            check_openings(report, random, &call, nest);
        }
    }
    let size = nest.attributes[1];
    for part in 0..3 {
        let mut above = size;
        above[part] += 1;
        let call = Call::triples(&nest.picture, neighbours, &[size, above]);
        check_openings(report, random, &call, nest);
        if part == turn {
            check_gaps(report, random, &call, &[0], nest, 2 * turn);
        }
    }
}

/// The largest pictures: a floc that fills all but the frame, and one that touches it at one side.
fn largest(report: &mut Report, random: &mut Random) {
    for (turn, (width, height, attributes)) in LARGEST.into_iter().enumerate() {
        let whole = Rectangle::whole(width, height);
        let (bottom, right) = (height - 1, width - 1);
        let inside = Rectangle {
            top: 1,
            bottom: bottom - 1,
            left: 1,
            right: right - 1,
        };
        let nest = Nest::new(&[whole, inside]);
        let fault = (nest.attributes[1] != attributes).then(|| String::from("another size"));
        report.check(fault, || format!("all but the frame, {width} by {height}"));
        all_but_frame(report, random, &nest, turn);
        let touching = [
            Rectangle { top: 0, ..inside },
            Rectangle { left: 0, ..inside },
            Rectangle { bottom, ..inside },
            Rectangle { right, ..inside },
        ];
        for (side, floc) in (turn..).zip(touching) {
            let nest = Nest::new(&[whole, floc]);
            let (attribute, neighbours) = (1 + side as u32 % 3, NEIGHBOURHOODS[side % 2]);
            let call = Call::good(&nest.picture, attribute, neighbours, vec![MOST_THRESHOLD]);
            check_gaps(report, random, &call, &[0], &nest, 0);
            let call = Call::triples(&nest.picture, neighbours, &[[MOST_THRESHOLD; 3]]);
            check_open(report, random, &call, &nest);
        }
    }
}

/// A floc of two pixels, one above the other, that shares only a corner with a pixel in the first
/// row, which is as bright, darker or brighter.
struct Corner {
    /// In the first row and below.
    greys: [u8; 2],
    /// At 1, 7 and 12, the three pixels.
    parents: [u32; 3],
    /// At 7.
    attributes: [u32; 3],
    list: &'static [u32],
    /// Of the floc, at one above its size.
    fall: u8,
}

/// Of the two pixels by themselves.
const VISIBLE: [u32; 3] = [2, 2, 1];

impl Corner {
    fn picture(&self) -> Picture {
        let [first, floc] = self.greys;
        rows(&[
            [0, first, 0, 0, 0],
            [0, 0, floc, 0, 0],
            [0, 0, floc, 0, 0],
            [0, 0, 0, 0, 0],
        ])
    }

    fn record(&self, attribute: u32) -> Record {
        let (mut parents, mut attributes) = (vec![0; 20], vec![0; 20]);
        [parents[1], parents[7], parents[12]] = self.parents;
        [attributes[0], attributes[1]] = [CUT; 2];
        attributes[7] = self.attributes[attribute as usize - 1];
        Record {
            parents,
            attributes,
            list: self.list.to_vec(),
        }
    }

    fn check(&self, table: &mut Table) {
        let picture = self.picture();
        for attribute in [AREA, HEIGHT, WIDTH] {
            table.tree(&picture, attribute, &self.record(attribute));
            let size = VISIBLE[attribute as usize - 1];
            let (mut residue, mut index) = ([0; 20], [0; 20]);
            [residue[7], residue[12]] = [self.fall; 2];
            [index[7], index[12]] = [if self.fall > 0 { 2 } else { 0 }; 2];
            let steps = [size, size + 1, MOST_THRESHOLD];
            table.maps(&picture, (attribute, &steps), &residue, &index);
            let mut opened = picture.greys.clone();
            table.opening(&picture, (attribute, size), &opened);
            [opened[7], opened[12]] = [self.greys[1] - self.fall; 2];
            table.opening(&picture, (attribute, size + 1), &opened);
            table.opening(&picture, (attribute, MOST_THRESHOLD), &opened);
        }
    }
}

/// With 4 neighbours the floc lies by itself. With 8 it is joined to the pixel in the first row: to
/// a darker one it falls, otherwise it stays.
fn corners(table: &mut Table) {
    let cases: [(_, _, _, &[u32], _); 3] = if table.neighbours == 4 {
        [
            ([9, 9], [0, 0, 7], VISIBLE, &[0, 1, 7], 9),
            ([5, 9], [0, 0, 7], VISIBLE, &[0, 1, 7], 9),
            ([9, 5], [0, 0, 7], VISIBLE, &[0, 7, 1], 5),
        ]
    } else {
        [
            ([9, 9], [0, 1, 1], [0; 3], &[0, 1], 0),
            ([5, 9], [0, 1, 7], VISIBLE, &[0, 1, 7], 4),
            ([9, 5], [7, 0, 7], [CUT; 3], &[0, 7, 1], 0),
        ]
    };
    for (greys, parents, attributes, list, fall) in cases {
        let corner = Corner {
            greys,
            parents,
            attributes,
            list,
            fall,
        };
        corner.check(table);
    }
}

/// The positions in the first or last row or column.
fn frame(call: &Call) -> Vec<usize> {
    let (n, width) = (call.picture.len(), call.numbers.width as usize);
    let ends = [0, width - 1];
    let is_in = |p: &usize| *p < width || p + width >= n || ends.contains(&(p % width));
    (0..n).filter(is_in).collect()
}

/// In a record: the root has 1,048,577, and so has each node above a pixel of the frame; no other
/// is larger than what the frame surrounds; no node has less than its children.
fn record_fault(call: &Call, words: &[u32]) -> Option<String> {
    let n = call.picture.len();
    let (parents, attributes) = (&words[..n], &words[n..2 * n]);
    if parents.iter().any(|p| *p as usize >= n) {
        return Some(String::from("a parent that is no position"));
    }
    let mut cut = vec![false; n];
    for mut p in frame(call) {
        while !cut[p] {
            cut[p] = true;
            p = parents[p] as usize;
        }
    }
    let inside = |side: u32| side.saturating_sub(2);
    let (width, height) = (inside(call.numbers.width), inside(call.numbers.height));
    let most = [width * height, height, width][call.numbers.attribute as usize - 1];
    for p in 0..n {
        let above = parents[p] as usize;
        if above != p && call.picture[above] == call.picture[p] {
            continue;
        }
        let (word, above) = (attributes[p], attributes[above]);
        let fits = if cut[p] { word == CUT } else { word <= most };
        if !fits || above < word {
            return Some(format!("attribute {word} at {p}, of its parent {above}"));
        }
    }
    None
}

/// The reconstruction of the picture from its frame: from there greys spread to neighbours, as far
/// as the picture has them.
fn from_frame(call: &Call, picture: &Picture) -> Vec<u8> {
    let mut greys = vec![0; picture.pixels()];
    for p in frame(call) {
        greys[p] = picture.greys[p];
    }
    loop {
        let before = greys.clone();
        for p in 0..greys.len() {
            let beside = picture.neighbours(p, call.numbers.neighbours);
            let brightest = beside.map(|q| greys[q]).max().unwrap_or(0);
            greys[p] = greys[p].max(brightest.min(picture.greys[p]));
        }
        if greys == before {
            return greys;
        }
    }
}

/// Every pixel of the frame is 0 in both maps.
fn maps_fault(call: &Call, (residue, index): &Maps) -> Option<String> {
    let is_zero = |p: &usize| (residue[*p], index[*p]) == (0, 0);
    let at = frame(call).into_iter().find(|p| !is_zero(p))?;
    Some(format!(
        "residue {}, index {} at {at}",
        residue[at], index[at]
    ))
}

/// Every pixel of the frame keeps its grey, and the opening at 1,048,577, in one part or in several,
/// is the reconstruction.
fn opening_fault(call: &Call, picture: &Picture, opened: &[u8]) -> Option<String> {
    let stays = frame(call).iter().all(|p| opened[*p] == picture.greys[*p]);
    let last = call.steps.contains(&MOST_THRESHOLD);
    let faults = [
        (!stays).then_some("another grey in the frame"),
        (last && opened != from_frame(call, picture)).then_some("no reconstruction from the frame"),
    ];
    faults.into_iter().flatten().next().map(String::from)
}

fn check_laws(report: &mut Report, random: &mut Random, truth: &ByDefinition) {
    let ByDefinition {
        picture, levels, ..
    } = truth;
    for attribute in 1..=3 {
        let values = attribute_values(levels, attribute);
        let steps = step_list(random, &values);
        let call = Call::good(picture, attribute, levels.neighbours, steps);
        let built = check_build(report, random, &call, truth);
        let fault = built.and_then(|words| record_fault(&call, &words));
        report.check(fault, || shown("record", &call));
        let gaps = [0, any_gap(random)];
        let turn = random.below(4);
        for maps in check_gaps(report, random, &call, &gaps, truth, turn) {
            report.check(maps_fault(&call, &maps), || shown("maps", &call));
        }
        for t in [threshold(random, &values), MOST_THRESHOLD] {
            let single = Call {
                steps: vec![t],
                ..call.clone()
            };
            let opened = check_open(report, random, &single, truth);
            let fault = opened.and_then(|greys| opening_fault(&single, picture, &greys));
            report.check(fault, || shown("opening", &single));
        }
        for value in levels.removable(attribute) {
            report.met("node", u64::from(value == CUT));
        }
    }
    check_triples(report, random, truth);
}

fn check_triples(report: &mut Report, random: &mut Random, truth: &ByDefinition) {
    let ByDefinition {
        picture, levels, ..
    } = truth;
    let mut triples = triple_list(random, &node_sizes(levels));
    let call = Call::triples(picture, levels.neighbours, &triples);
    let gaps = [0, any_gap(random)];
    let turn = random.below(4);
    for maps in check_gaps(report, random, &call, &gaps, truth, turn) {
        report.check(maps_fault(&call, &maps), || shown("maps", &call));
    }
    triples.truncate(1);
    let mut most = triples[0];
    most[random.below(3)] = MOST_THRESHOLD;
    for triple in [triples[0], most] {
        let single = Call::triples(picture, levels.neighbours, &[triple]);
        let opened = check_open(report, random, &single, truth);
        let fault = opened.and_then(|greys| opening_fault(&single, picture, &greys));
        report.check(fault, || shown("opening", &single));
    }
}

pub fn run(report: &mut Report, seed: u64, cases: usize) {
    let mut random = Random::for_case(seed, 10, u64::MAX);
    one_or_two(report, &mut random);
    rectangles(report, &mut random);
    largest(report, &mut random);
    for neighbours in NEIGHBOURHOODS {
        let mut table = Table {
            report,
            random: Random::for_case(seed, 10, u64::MAX - u64::from(neighbours)),
            neighbours,
            gap: 0,
        };
        without_ring(&mut table);
        corners(&mut table);
    }
    for case in 0..cases {
        let mut random = Random::for_case(seed, 10, case as u64);
        let picture = pictures::small(&mut random, case);
        for neighbours in NEIGHBOURHOODS {
            let truth = ByDefinition::of(&picture, neighbours);
            check_laws(report, &mut random, &truth);
        }
    }
    println!("  nodes but the root as visible (0) or cut by the frame (1):");
    report.check_all_met("node", &[0, 1]);
}
