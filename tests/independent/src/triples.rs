// Area, height and width together, in the words of the request: a step may be a triple, and a node
// stays if it meets all three; from one step to the next no part falls and at least one rises, and
// the first has a part above 0. Floc that is tall, wide or compact, worked out by hand, so that each
// part decides; floc of every size at triples that it fails by any of its parts; every small triple
// on every picture of one shape; lists at their bounds, of every number of words, with a wrong part
// at every place, with every fall and rise; calls that are refused, by every set of causes. On
// random pictures the library is held to itself as well: single thresholds open as triples with two
// zeros, and a triple opens to the darkest of what its parts open to. Chains that mix attributes and
// triples stand in mixed.rs.

use crate::calls::{any_gap, attribute_values, check_build, check_gaps, check_map, check_maps};
use crate::calls::{check_open, check_opening, shown, step_list, ByDefinition, Call, Truth};
use crate::causes::{MOST_GAP, MOST_STEPS, MOST_THRESHOLD, NEIGHBOURHOODS, ORDER};
use crate::damage::{self, WRONG_PARTS};
use crate::definition::{Levels, Picture, CUT};
use crate::every;
use crate::fast::Forest;
use crate::interface::{Given, MapCall, MAP_CALLS};
use crate::large;
use crate::mixed;
use crate::nest::{Nest, Rectangle};
use crate::parts::{self, Triple};
use crate::pictures::{self, in_ring, ring, ringed};
use crate::random::Random;
use crate::report::Report;
use crate::table::{rows, Table, AREA};

/// The attributes of all nodes, three times 1,048,577 only once, however many the frame cuts.
pub fn node_sizes(levels: &Levels) -> Vec<Triple> {
    let visible = levels.nodes().map(|c| c.attributes);
    visible
        .filter(|sizes| sizes[0] != CUT)
        .chain([[CUT; 3]])
        .collect()
}

/// A triple near the sizes of one node, of which it may spare one or two parts, or of several; or
/// any but three zeros.
pub fn triple(random: &mut Random, nodes: &[Triple]) -> Triple {
    let ends = [0, 0, 1, 2, MOST_THRESHOLD - 1, MOST_THRESHOLD];
    let mut triple = match random.below(12) {
        0 => [0; 3].map(|_| random.between(0, MOST_THRESHOLD as usize) as u32),
        1 => [0; 3].map(|_| random.pick(&ends)),
        2 => [0; 3].map(|_| random.below(9) as u32),
        3 | 4 => [0, 1, 2].map(|part| random.pick(nodes)[part]),
        _ => random
            .pick(nodes)
            .map(|size| size * u32::from(random.chance(3, 4))),
    };
    if random.chance(2, 3) || triple == [0; 3] {
        let part = random.below(3);
        triple[part] = (triple[part] + 1).min(MOST_THRESHOLD);
    }
    triple
}

/// So many triples from 0 on. Some parts rise at each step, or just one of them.
pub fn walk(random: &mut Random, steps: usize) -> Vec<Triple> {
    let one_by_one = random.chance(1, 2);
    let leap = random.between(1, 3);
    let mut triple = [0; 3];
    let next = |_| {
        let rising = if one_by_one {
            1 << random.below(3)
        } else {
            random.between(1, 7)
        };
        for part in (0..3).filter(|part| rising >> part & 1 == 1) {
            triple[part] += random.between(1, leap) as u32;
        }
        triple
    };
    (0..steps).map(next).collect()
}

/// Those whose parts are near the sizes of nodes, each part by itself in order.
fn sorted(random: &mut Random, nodes: &[Triple], steps: usize) -> Vec<Triple> {
    let triples: Vec<Triple> = (0..steps).map(|_| triple(random, nodes)).collect();
    let parts = [0, 1, 2].map(|part| {
        let mut values: Vec<u32> = triples.iter().map(|triple| triple[part]).collect();
        values.sort_unstable();
        values
    });
    let mut list: Vec<Triple> = (0..steps)
        .map(|i| [parts[0][i], parts[1][i], parts[2][i]])
        .filter(|triple| *triple != [0; 3])
        .collect();
    list.dedup();
    list
}

/// Up to 256 triples, mostly a few.
pub fn triple_list(random: &mut Random, nodes: &[Triple]) -> Vec<Triple> {
    let steps = match random.below(40) {
        0 => MOST_STEPS,
        1 => random.between(100, MOST_STEPS),
        2..=5 => 1,
        _ => random.between(1, 12),
    };
    if steps > 12 || random.chance(1, 4) {
        walk(random, steps)
    } else {
        sorted(random, nodes, steps)
    }
}

/// A small picture, and a call that is good.
fn any_good(random: &mut Random, case: usize) -> (Picture, Call) {
    let picture = pictures::small(random, case);
    let triples = triple_list(
        random,
        &[[1, 1, 1], [3, 3, 1], [4, 1, 4], [8, 3, 3], [40, 9, 7]],
    );
    let call = Call {
        gap: any_gap(random),
        ..Call::triples(&picture, random.pick(&NEIGHBOURHOODS), &triples)
    };
    (picture, call)
}

/// On a ground of 10 a tall floc of 6 pixels, a wide one of 5, a compact one of 9, a hook of 5 that
/// is as tall and as wide as it, a speck, and three pixels along a diagonal, which are specks too
/// unless corners join them.
const FLOC: [[u8; 14]; 6] = [
    [60, 10, 90, 90, 90, 90, 90, 10, 10, 200, 10, 10, 10, 10],
    [60, 10, 10, 10, 10, 10, 10, 10, 10, 10, 10, 180, 10, 10],
    [60, 10, 120, 120, 120, 10, 150, 10, 10, 10, 10, 10, 180, 10],
    [60, 10, 120, 120, 120, 10, 150, 10, 10, 10, 10, 10, 10, 180],
    [60, 10, 120, 120, 120, 10, 150, 150, 150, 10, 10, 10, 10, 10],
    [60, 10, 10, 10, 10, 10, 10, 10, 10, 10, 10, 10, 10, 10],
];
const GROUND: u8 = 10;
const TALL: u8 = 60;
const WIDE: u8 = 90;
const COMPACT: u8 = 120;
const HOOK: u8 = 150;
const DIAGONAL: u8 = 180;
const SPECK: u8 = 200;

/// A triple, and which of them it leaves.
const LEFT: [(Triple, &[u8]); 30] = [
    ([1, 1, 1], &[TALL, WIDE, COMPACT, HOOK, DIAGONAL, SPECK]),
    ([1, 0, 0], &[TALL, WIDE, COMPACT, HOOK, DIAGONAL, SPECK]),
    ([2, 0, 0], &[TALL, WIDE, COMPACT, HOOK, DIAGONAL]),
    ([0, 2, 0], &[TALL, COMPACT, HOOK, DIAGONAL]),
    ([0, 0, 2], &[WIDE, COMPACT, HOOK, DIAGONAL]),
    ([0, 2, 2], &[COMPACT, HOOK, DIAGONAL]),
    ([3, 3, 3], &[COMPACT, HOOK, DIAGONAL]),
    ([4, 2, 2], &[COMPACT, HOOK]),
    ([5, 3, 3], &[COMPACT, HOOK]),
    ([5, 1, 1], &[TALL, WIDE, COMPACT, HOOK]),
    ([5, 3, 0], &[TALL, COMPACT, HOOK]),
    ([5, 0, 3], &[WIDE, COMPACT, HOOK]),
    ([6, 0, 0], &[TALL, COMPACT]),
    ([6, 1, 1], &[TALL, COMPACT]),
    ([6, 2, 2], &[COMPACT]),
    ([0, 4, 0], &[TALL]),
    ([0, 0, 4], &[WIDE]),
    ([6, 6, 1], &[TALL]),
    ([7, 6, 1], &[]),
    ([6, 7, 1], &[]),
    ([6, 6, 2], &[]),
    ([5, 1, 5], &[WIDE]),
    ([6, 1, 5], &[]),
    ([5, 2, 5], &[]),
    ([5, 1, 6], &[]),
    ([9, 3, 3], &[COMPACT]),
    ([10, 3, 3], &[]),
    ([9, 4, 3], &[]),
    ([9, 3, 4], &[]),
    ([0, 6, 5], &[]),
];

/// A list along which one part rises at each step, and the place at which each of them falls, the
/// tall, the wide, the compact one, the hook and the diagonal; the speck falls at the first.
const FALLS: [(&[Triple], [u16; 5]); 9] = [
    (&[[6, 1, 1], [6, 2, 1], [6, 2, 2]], [3, 1, 0, 1, 1]),
    (&[[6, 1, 1], [6, 1, 2], [6, 2, 2]], [2, 1, 0, 1, 1]),
    (&[[1, 2, 1], [6, 2, 1], [6, 2, 2]], [3, 1, 0, 2, 2]),
    (&[[1, 2, 1], [1, 2, 2], [6, 2, 2]], [2, 1, 0, 3, 3]),
    (&[[1, 1, 2], [6, 1, 2], [6, 2, 2]], [1, 2, 0, 2, 2]),
    (&[[1, 1, 2], [1, 2, 2], [6, 2, 2]], [1, 2, 0, 3, 3]),
    (&[[4, 0, 0], [4, 3, 0], [4, 3, 3]], [3, 2, 0, 0, 1]),
    (
        &[
            [5, 1, 1],
            [5, 3, 1],
            [5, 3, 3],
            [6, 3, 3],
            [9, 3, 3],
            [9, 3, 4],
        ],
        [3, 2, 6, 4, 1],
    ),
    (&[[0, 0, 4], [0, 4, 4], [4, 4, 4]], [1, 2, 1, 1, 1]),
];

/// Residues and indices of floc that falls at once, at these places; 0 where it stays.
fn fallen(greys: &[u8], place: impl Fn(u8) -> u16) -> (Vec<u8>, Vec<u16>) {
    let maps = |grey: &u8| match place(*grey) {
        0 => (0, 0),
        place => (grey - GROUND, place),
    };
    greys.iter().map(maps).unzip()
}

fn floc_by_hand(table: &mut Table) {
    let inside = rows(&FLOC);
    let picture = in_ring(&inside);
    let joined = table.neighbours == 8;
    for (triple, left) in LEFT {
        let stays = |grey: u8| match grey {
            GROUND => true,
            DIAGONAL if !joined => left.contains(&SPECK),
            floc => left.contains(&floc),
        };
        let opened = |grey: &u8| if stays(*grey) { *grey } else { GROUND };
        let opened: Vec<u8> = picture.greys.iter().map(opened).collect();
        table.triple_opening(&picture, triple, &opened);
        let (residue, index) = fallen(&picture.greys, |grey| u16::from(!stays(grey)));
        table.triple_maps(&picture, &[triple], &residue, &index);
    }
    for (triples, [tall, wide, compact, hook, diagonal]) in FALLS {
        let place = |grey: u8| match grey {
            TALL => tall,
            WIDE => wide,
            COMPACT => compact,
            HOOK => hook,
            DIAGONAL if joined => diagonal,
            DIAGONAL | SPECK => 1,
            _ => 0,
        };
        let (residue, index) = fallen(&picture.greys, place);
        table.triple_maps(&picture, triples, &residue, &index);
    }
}

/// A list, and residue and index of speck, line and square.
type Joined<'a> = (&'a [Triple], [(u8, u16); 3]);

/// A speck in a line of 4 pixels down a square. The residues of the speck, of the line, which is one
/// pixel wide, and of the square are joined by the gap, whichever part removes them.
fn joined_by_hand(table: &mut Table) {
    let inside = rows(&[
        [50, 50, 50, 50, 50],
        [50, 50, 90, 50, 50],
        [50, 50, 90, 50, 50],
        [50, 50, 200, 50, 50],
        [50, 50, 90, 50, 50],
    ]);
    let picture = ringed(&inside, GROUND);
    let gap = table.gap;
    let cases: [Joined; 3] = [
        (
            &[[0, 0, 2], [0, 6, 2]],
            match gap {
                0 => [(150, 1), (40, 2), (40, 2)],
                _ => [(190, 2), (80, 2), (40, 2)],
            },
        ),
        (
            &[[2, 0, 0], [2, 0, 2], [2, 6, 2]],
            match gap {
                0 => [(110, 1), (40, 3), (40, 3)],
                _ => [(190, 3), (80, 3), (40, 3)],
            },
        ),
        (
            &[[2, 0, 0], [3, 0, 0], [3, 0, 2], [3, 6, 2]],
            match gap {
                0 => [(110, 1), (40, 4), (40, 4)],
                1 => [(110, 1), (80, 4), (40, 4)],
                _ => [(190, 4), (80, 4), (40, 4)],
            },
        ),
    ];
    for (triples, [speck, line, square]) in cases {
        let maps = |grey: &u8| match grey {
            200 => speck,
            90 => line,
            _ => square,
        };
        let (residue, index): (Vec<u8>, Vec<u16>) = inside.greys.iter().map(maps).unzip();
        let (residue, index) = (ring(5, &residue, 0), ring(5, &index, 0));
        table.triple_maps(&picture, triples, &residue, &index);
    }
}

/// Which parts of a triple a node fails, a bit each.
fn failed(sizes: [u32; 3], triple: Triple) -> u64 {
    let bit = |part: usize| u64::from(sizes[part] < triple[part]) << part;
    (0..3).map(bit).sum()
}

/// A floc of these sides in a ring one pixel wide.
fn one_floc(width: usize, height: usize) -> Nest {
    let floc = Rectangle {
        top: 1,
        bottom: height,
        left: 1,
        right: width,
    };
    Nest::new(&[Rectangle::whole(width + 2, height + 2), floc])
}

/// A floc of every size up to 5 by 5, opened and mapped at triples whose parts are 0, one below its
/// size, at it or one above: it stays if none is above.
fn each_part(report: &mut Report, random: &mut Random) {
    for (height, width) in (0..25).map(|k| (1 + k / 5, 1 + k % 5)) {
        let nest = one_floc(width, height);
        let sizes = nest.attributes[1];
        for number in 1..64 {
            let part = |k: usize| {
                let size = sizes[k];
                [0, size - 1, size, size + 1][number >> (2 * k) & 3]
            };
            let triple = [0, 1, 2].map(part);
            let neighbours = random.pick(&NEIGHBOURHOODS);
            let call = Call::triples(&nest.picture, neighbours, &[triple]);
            let opened = check_open(report, random, &call, &nest);
            check_maps(report, random, &call, &nest);
            let failed = failed(sizes, triple);
            let stays = opened.is_none_or(|greys| greys == nest.picture.greys);
            let fault = (stays != (failed == 0)).then(|| format!("{sizes:?} stays is {stays}"));
            report.check(fault, || shown("one floc", &call));
            report.met("parts failed", failed);
        }
    }
}

/// Every picture of three rows and columns with two greys, in a ring, opened by every triple up to
/// one above all sizes.
fn every_triple(report: &mut Report, random: &mut Random) {
    for number in 0..1 << 9 {
        let picture = ringed(&every::picture((3, 3, 2), number), 7);
        for neighbours in NEIGHBOURHOODS {
            let truth = ByDefinition::of(&picture, neighbours);
            for k in 0..11 * 25 {
                let triple = [k / 25, k / 5 % 5, k % 5];
                let call = Call::triples(&picture, neighbours, &[triple]);
                check_open(report, random, &call, &truth);
            }
        }
    }
}

/// Every opening by parts at the ends of their range and beyond, and the map of that one triple.
fn ends(report: &mut Report, random: &mut Random, picture: &Picture, truth: &dyn Truth) {
    let mut parts = vec![0, 1, 2, MOST_THRESHOLD - 1, MOST_THRESHOLD];
    parts.extend(WRONG_PARTS);
    let (all, count) = (parts.len().pow(3), parts.len());
    for k in 0..all {
        let triple = [k / count / count, k / count % count, k % count].map(|place| parts[place]);
        let call = Call::triples(picture, 4, &[triple]);
        check_open(report, random, &call, truth);
        check_maps(report, random, &call, truth);
    }
}

/// The words of a list of 260 triples, from none to more than 256 steps.
fn lengths(report: &mut Report, random: &mut Random, picture: &Picture, truth: &dyn Truth) {
    let words = walk(random, MOST_STEPS + 4).concat();
    let most = 3 * MOST_STEPS;
    for length in (0..=20).chain(250..=260).chain(most - 7..=most + 10) {
        let mut call = Call::triples(picture, 4, &[]);
        call.steps = words[..length].to_vec();
        check_maps(report, random, &call, truth);
    }
}

/// 255, 256 and 257 steps along which one part rises, each by itself, to the end of the range too.
fn one_part(report: &mut Report, random: &mut Random, picture: &Picture, truth: &dyn Truth) {
    for part in 0..3 {
        for count in [1, 255, 256, 257] {
            for last in [count, MOST_THRESHOLD] {
                let other = random.pick(&[0, 1, 3, MOST_THRESHOLD]);
                let step = |t: u32| {
                    let mut triple = [other; 3];
                    triple[part] = t;
                    triple
                };
                let triples: Vec<Triple> = (last - count + 1..=last).map(step).collect();
                let call = Call::triples(picture, 4, &triples);
                check_maps(report, random, &call, truth);
            }
        }
    }
}

/// Each word of a list at the end of the range, out of it, and 0.
fn each_word(report: &mut Report, random: &mut Random, picture: &Picture, truth: &dyn Truth) {
    let good = [[1, 2, 0], [1, 2, 1], [4, 2, 3], [5, 6, 7]].concat();
    for at in 0..good.len() {
        let parts = [0, MOST_THRESHOLD - 1, MOST_THRESHOLD];
        for part in parts.into_iter().chain(WRONG_PARTS) {
            let mut call = Call::triples(picture, 8, &[]);
            call.steps = good.clone();
            call.steps[at] = part;
            check_maps(report, random, &call, truth);
            for later in (at + 3..good.len()).step_by(3) {
                call.steps[later] = part;
            }
            check_maps(report, random, &call, truth);
        }
    }
}

/// Each part of a step falls, stays or rises, at the start of a list, within it and at its end.
fn each_change(report: &mut Report, random: &mut Random, picture: &Picture, truth: &dyn Truth) {
    for (before, after) in [(0, 0), (0, 3), (3, 0), (3, 3), (254, 0), (0, 254)] {
        for change in 0..27 {
            let by = random.pick(&[1, 2, 256, 900]);
            let changes = [change / 9, change / 3 % 3, change % 3];
            let mut triples = walk(random, before);
            triples.push([1000; 3]);
            triples.push(changes.map(|k| 1000 - by + k * by));
            let further = walk(random, after);
            triples.extend(further.iter().map(|more| more.map(|part| part + 2000)));
            let call = Call::triples(picture, 4, &triples);
            check_maps(report, random, &call, truth);
            let good = !changes.contains(&0) && changes.contains(&2);
            let same = parts::is_list(&call.steps) == good;
            let fault = (!same).then(|| format!("definition here: a list should be {good}"));
            report.check(fault, || shown("list", &call));
            report.met("changes", u64::from(good));
        }
    }
}

/// A first step of three zeros, before a good list and alone, and first steps with one part above 0.
fn first_steps(report: &mut Report, random: &mut Random, picture: &Picture, truth: &dyn Truth) {
    for part in 0..3 {
        for value in [0, 1, 2, 9, MOST_THRESHOLD] {
            let mut first = [0; 3];
            first[part] = value;
            for triples in [&[first][..], &[first, [MOST_THRESHOLD; 3]]] {
                let call = Call::triples(picture, 8, triples);
                check_open(report, random, &call, truth);
                check_maps(report, random, &call, truth);
            }
        }
    }
}

/// Lists and triples at their bounds, on the floc above and on a few pixels.
fn bounds(report: &mut Report, random: &mut Random) {
    let picture = in_ring(&rows(&FLOC));
    let [four, eight] = NEIGHBOURHOODS.map(|neighbours| ByDefinition::of(&picture, neighbours));
    lengths(report, random, &picture, &four);
    one_part(report, random, &picture, &four);
    each_word(report, random, &picture, &eight);
    each_change(report, random, &picture, &four);
    first_steps(report, random, &picture, &eight);
    let small = in_ring(&rows(&[[9, 9, 3], [0, 9, 5]]));
    ends(report, random, &small, &ByDefinition::of(&small, 4));
}

/// Every set of causes; the list is out of range or out of order. An opening takes the first triple,
/// which the latter leaves good.
fn every_set(report: &mut Report, random: &mut Random) {
    let causes: Vec<u32> = ORDER.into_iter().filter(|cause| *cause != 3).collect();
    for set in 0..1 << causes.len() {
        for turn in 0..12 {
            let (picture, mut call) = any_good(random, set + turn);
            let forest = Forest::of(&picture, call.numbers.neighbours);
            let chosen = (0..causes.len()).filter(|k| set >> k & 1 == 1);
            for cause in chosen.rev().map(|k| causes[k]) {
                match cause {
                    4 if turn % 2 == 0 => damage::triple_order(random, &mut call),
                    _ => damage::apply(random, &mut call, cause),
                }
            }
            if turn % 2 == 1 {
                check_open(report, random, &call, &forest);
            }
            check_maps(report, random, &call, &forest);
        }
    }
}

/// One of the outputs or the workspace of another length, alone and beside each other cause.
fn wrong_lengths(report: &mut Report, random: &mut Random) {
    for (case, beside) in ORDER.into_iter().enumerate() {
        let (picture, mut good) = any_good(random, case);
        let forest = Forest::of(&picture, good.numbers.neighbours);
        let n = good.picture.len();
        damage::apply(random, &mut good, beside);
        for workspace in damage::all_wrong_workspaces(n) {
            let call = Call {
                workspace,
                ..good.clone()
            };
            check_open(report, random, &call, &forest);
            check_maps(report, random, &call, &forest);
        }
        for length in [0, 1, n - 1, n + 1, 2 * n, 3 * n, n + 65_536] {
            for output in 0..3 {
                let mut call = good.clone();
                call.outputs[output] = length;
                check_open(report, random, &call, &forest);
                check_maps(report, random, &call, &forest);
            }
        }
    }
}

/// A single threshold opens as a triple with two zeros, and a step list has the maps of its triples.
/// The call by attribute leaves what building by it leaves, the one by triples what building by area
/// does; dark and combined calls, on 255 less each grey, the same.
fn check_thresholds(report: &mut Report, random: &mut Random, truth: &ByDefinition, case: usize) {
    let ByDefinition {
        picture, levels, ..
    } = truth;
    let attribute = 1 + case as u32 % 3;
    let steps = step_list(random, &attribute_values(levels, attribute));
    let call = Call {
        gap: any_gap(random),
        ..Call::good(picture, attribute, levels.neighbours, steps)
    };
    let by_area = Call::good(picture, AREA, levels.neighbours, vec![1]);
    let built = [&call, &by_area].map(|call| check_build(report, random, call, truth));
    let calls = [&call, &call.by_triples()];
    let left = calls.map(|call| check_opening(report, random, call, truth).unzip());
    let [(words, greys), (areas, beside)] = left;
    let alike = [words, areas] == built && greys == beside;
    let fault = (!alike).then(|| String::from("openings: not alike"));
    report.check(fault, || shown("two zeros", &call));
    for which in MAP_CALLS {
        let (side, truth): (Call, &dyn Truth) = match which {
            MapCall::Light => (call.clone(), truth),
            _ => (call.reversed(), truth.reversed()),
        };
        let calls = [&side, &side.by_triples()];
        let left = calls.map(|call| {
            let written = check_map(report, random, which, call, truth);
            written.map(|left| (left.workspace, (left.maps, left.contrast)))
        });
        let [(words, maps), (areas, beside)] = left.map(Option::unzip);
        let alike = [words, areas] == built && maps == beside;
        let fault = (!alike).then(|| format!("{which:?} maps: not alike"));
        report.check(fault, || shown("two zeros", &call));
    }
}

/// A triple opens to the darkest of what the library opens to by each of its parts. Counts the parts
/// that nodes fail.
fn check_darkest(report: &mut Report, random: &mut Random, truth: &ByDefinition) {
    let ByDefinition {
        picture, levels, ..
    } = truth;
    let triple = triple(random, &node_sizes(levels));
    let by_triple = Call::triples(picture, levels.neighbours, &[triple]);
    let opened = check_open(report, random, &by_triple, truth);
    let mut darkest = picture.greys.clone();
    for (attribute, part) in (1..).zip(triple) {
        let call = Call::good(picture, attribute, levels.neighbours, vec![part]);
        let greys = check_open(report, random, &call, truth).unwrap_or(picture.greys.clone());
        for (least, grey) in darkest.iter_mut().zip(greys) {
            *least = grey.min(*least);
        }
    }
    let fault = (opened != Some(darkest)).then(|| String::from("not the darkest of its parts"));
    report.check(fault, || shown("open triple", &by_triple));
    for sizes in levels.all_removable() {
        report.met("parts failed", failed(sizes, triple));
    }
}

/// 255 triples that a floc meets, each part at its size in the last, and one that it fails by one
/// part: it falls at the last of 256 places.
fn last_places(report: &mut Report, random: &mut Random) {
    for (height, width) in [(1, 256), (256, 1), (16, 16), (40, 41)] {
        let nest = one_floc(width, height);
        let sizes = nest.attributes[1];
        for part in 0..3 {
            let mut triple = sizes;
            triple[part] += 1;
            let mut triples = vec![triple, sizes];
            triple = sizes;
            while triples.len() < MOST_STEPS {
                let above: Vec<usize> = (0..3).filter(|k| triple[*k] > 0).collect();
                triple[random.pick(&above)] -= 1;
                triples.push(triple);
            }
            triples.reverse();
            let call = Call::triples(&nest.picture, random.pick(&NEIGHBOURHOODS), &triples);
            let gaps = [0, any_gap(random)];
            for (_, index) in check_gaps(report, random, &call, &gaps, &nest, part) {
                let last = index.iter().all(|place| [0, 256].contains(place));
                let falls = index.iter().filter(|place| **place > 0).count();
                let fault = (!last || falls != height * width).then(|| format!("{index:?}"));
                report.check(fault, || shown("last place", &call));
            }
        }
    }
}

/// Lists of 256 triples on floc of many sizes, with gaps.
fn long_lists(report: &mut Report, random: &mut Random) {
    for case in 0..24 {
        let kind = ["floc", "plateaus", "noise", "comb", "rings", "spiral"][case % 6];
        let picture = in_ring(&large::picture(random, kind, 40, 30));
        for neighbours in NEIGHBOURHOODS {
            let forest = Forest::of(&picture, neighbours);
            let triples = walk(random, MOST_STEPS);
            let call = Call::triples(&picture, neighbours, &triples);
            let gaps = [0, any_gap(random), MOST_GAP];
            check_gaps(report, random, &call, &gaps, &forest, case);
        }
    }
}

pub fn run(report: &mut Report, seed: u64, cases: usize) {
    let mut random = Random::for_case(seed, 14, u64::MAX);
    for gap in [0, 1, 2, 256] {
        for neighbours in NEIGHBOURHOODS {
            let mut table = Table {
                report,
                random: Random::for_case(seed, 14, u64::MAX - u64::from(gap + 1)),
                neighbours,
                gap,
            };
            floc_by_hand(&mut table);
            joined_by_hand(&mut table);
        }
    }
    each_part(report, &mut random);
    every_triple(report, &mut random);
    bounds(report, &mut random);
    every_set(report, &mut random);
    wrong_lengths(report, &mut random);
    last_places(report, &mut random);
    long_lists(report, &mut random);
    for case in 0..cases {
        let mut random = Random::for_case(seed, 14, case as u64);
        let picture = pictures::small(&mut random, case);
        for neighbours in NEIGHBOURHOODS {
            let truth = ByDefinition::of(&picture, neighbours);
            check_thresholds(report, &mut random, &truth, case);
            check_darkest(report, &mut random, &truth);
        }
    }
    mixed::run(report, seed, cases);
    println!("  nodes by the parts that they fail, 1 area, 2 height, 4 width:");
    report.check_all_met("parts failed", &[0, 1, 2, 3, 4, 5, 6, 7]);
    println!("  steps after which no list is good (0) or one is (1):");
    report.check_all_met("changes", &[0, 1]);
    report.check_all_met("open triple", &[0, 1, 2, 17, 4, 5, 6]);
    for which in MAP_CALLS {
        let name = which.name(Given::Triples);
        report.check_all_met(name, &[0, 1, 2, 17, 4, 19, 5, 6]);
    }
}
