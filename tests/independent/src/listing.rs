// The list of nodes, in the words of its request: after parents and attributes comes a part with
// the representatives by rising level, lower position first within a level, and zeros after the
// last; scratch follows, zero on return; the root always comes first and every parent before its
// children. The calls on a picture, those given triples too, are made in workspaces that hold all
// sorts of things. What they leave is read entry by entry and is compared with no other list, save on pictures that are made so that
// theirs is known. The programs here are held to the same words. Then workspaces that are not 7n
// words.

use crate::calls::{any_gap, first_fault, made_open, shown, step_list};
use crate::calls::{ByDefinition, Call, CHECKS};
use crate::causes::{NEIGHBOURHOODS, ORDER, WORDS_A_PIXEL};
use crate::damage;
use crate::dark;
use crate::definition::{Levels, Picture};
use crate::every;
use crate::fast::Forest;
use crate::interface::{self, MapCall, Mapping, Numbers};
use crate::large;
use crate::lent::Lent;
use crate::nest::{Nest, Rectangle};
use crate::pictures::{self, by_place};
use crate::random::Random;
use crate::report::{answer_fault, Report};
use crate::table::AREA;
use std::ops::Range;

/// A workspace as a call left it, in its parts, and the picture of the call.
struct Returned<'a> {
    greys: &'a [u8],
    parents: &'a [u32],
    attributes: &'a [u32],
    list: &'a [u32],
    scratch: &'a [u32],
}

impl<'a> Returned<'a> {
    fn new(greys: &'a [u8], words: &'a [u32]) -> Returned<'a> {
        let n = greys.len();
        assert_eq!(words.len(), WORDS_A_PIXEL * n);
        Returned {
            greys,
            parents: &words[..n],
            attributes: &words[n..2 * n],
            list: &words[2 * n..3 * n],
            scratch: &words[3 * n..],
        }
    }

    /// What is wrong with the workspace if building answers this.
    fn fault(&self, answer: u64) -> Option<String> {
        let n = self.greys.len();
        if !(1..=n as u64).contains(&answer) {
            return Some(format!("answer {answer}, no number of nodes in {n} pixels"));
        }
        let (entries, after) = self.list.split_at(answer as usize);
        zeros_fault("list after its last entry", after)
            .or_else(|| zeros_fault("scratch", self.scratch))
            .or_else(|| self.once_fault(entries))
            .or_else(|| self.order_fault(entries))
            .or_else(|| self.root_fault(entries[0] as usize))
            .or_else(|| self.parents_fault(entries))
            .or_else(|| self.others_fault())
    }

    /// Every entry is a representative, with an attribute word above 0, and each stands once.
    fn once_fault(&self, entries: &[u32]) -> Option<String> {
        let mut times = vec![0; self.greys.len()];
        for p in entries {
            match times.get_mut(*p as usize) {
                Some(times) => *times += 1,
                None => return Some(format!("{p} in the list, which is no position")),
            }
        }
        let wrong = |p: &usize| times[*p] != u32::from(self.attributes[*p] > 0);
        let p = (0..times.len()).find(wrong)?;
        let (word, times) = (self.attributes[p], times[p]);
        Some(format!("{p}, of attribute {word}, is listed {times} times"))
    }

    /// Greys never fall along the list, and positions rise within one grey.
    fn order_fault(&self, entries: &[u32]) -> Option<String> {
        let grey = |p: u32| self.greys[p as usize];
        let falls = |p: u32, q: u32| grey(p) > grey(q) || (grey(p) == grey(q) && p >= q);
        let at = entries
            .windows(2)
            .position(|pair| falls(pair[0], pair[1]))?;
        let (p, q) = (entries[at], entries[at + 1]);
        let greys = (grey(p), grey(q));
        Some(format!("listed at {at}: {p}, then {q}, of greys {greys:?}"))
    }

    /// The first entry is its own parent, at the least grey.
    fn root_fault(&self, first: usize) -> Option<String> {
        let least = self.greys.iter().min();
        let is_root = self.parents[first] as usize == first && least == Some(&self.greys[first]);
        (!is_root).then(|| format!("{first} comes first and is not the root"))
    }

    /// The parent of every entry but the first stands before it, and is darker.
    fn parents_fault(&self, entries: &[u32]) -> Option<String> {
        let mut met = vec![false; self.greys.len()];
        met[entries[0] as usize] = true;
        for p in entries[1..].iter().map(|p| *p as usize) {
            let above = self.parents[p] as usize;
            if met.get(above) != Some(&true) {
                return Some(format!("{p} is listed before its parent {above}"));
            }
            if self.greys[above] >= self.greys[p] {
                return Some(format!("{p} is no brighter than its parent {above}"));
            }
            met[p] = true;
        }
        None
    }

    /// Any other pixel has the parent word of a representative, of its grey and before it.
    fn others_fault(&self) -> Option<String> {
        let fits = |p: usize, above: usize| {
            above < p && self.attributes[above] > 0 && self.greys[above] == self.greys[p]
        };
        let other = |p: &usize| self.attributes[*p] == 0;
        let wrong = |p: &usize| !fits(*p, self.parents[*p] as usize);
        let p = (0..self.greys.len()).filter(other).find(wrong)?;
        let above = self.parents[p];
        Some(format!(
            "{p}, which is not listed, is represented by {above}"
        ))
    }
}

fn zeros_fault(name: &str, words: &[u32]) -> Option<String> {
    let at = words.iter().position(|word| *word != 0)?;
    Some(format!("{name}: word {at} is {}, should be 0", words[at]))
}

/// What a workspace holds when it is lent.
#[derive(Clone, Copy, Debug)]
enum Before {
    /// Every bit 1.
    Bits,
    Anything,
    /// Numbers below n.
    Positions,
    /// The record of a picture of the same sides, most of whose pixels are nodes.
    Noise,
    /// The record of 255 less each grey.
    Reversed,
    /// The record of the picture itself under the other neighbourhood.
    Other,
    Zeros,
    /// Every word 1.
    Units,
}

const BEFORE: [Before; 8] = [
    Before::Bits,
    Before::Anything,
    Before::Positions,
    Before::Noise,
    Before::Reversed,
    Before::Other,
    Before::Zeros,
    Before::Units,
];

impl Before {
    fn words(self, random: &mut Random, call: &Call) -> Vec<u32> {
        let n = call.picture.len();
        let words = 0..call.workspace;
        match self {
            Before::Bits => words.map(|_| u32::MAX).collect(),
            Before::Anything => words.map(|_| random.next() as u32).collect(),
            Before::Positions => words.map(|_| random.below(n) as u32).collect(),
            Before::Noise => {
                let noise: Vec<u8> = (0..n).map(|_| random.byte()).collect();
                record_of(random, &noise, call.numbers)
            }
            Before::Reversed => {
                let reversed = dark::reversed(&call.picture);
                record_of(random, &reversed, call.numbers)
            }
            Before::Other => {
                let mut numbers = call.numbers;
                let [four, eight] = NEIGHBOURHOODS;
                numbers.neighbours = four + eight - numbers.neighbours;
                record_of(random, &call.picture, numbers)
            }
            Before::Zeros => words.map(|_| 0).collect(),
            Before::Units => words.map(|_| 1).collect(),
        }
    }
}

/// What building a picture leaves.
fn record_of(random: &mut Random, picture: &[u8], numbers: Numbers) -> Vec<u32> {
    let mut workspace = Lent::dirty(random, WORDS_A_PIXEL * picture.len());
    interface::build(picture, numbers, workspace.now_mut());
    workspace.now().to_vec()
}

/// A workspace for a call, and what it holds.
fn lent(random: &mut Random, call: &Call, turn: usize) -> (Before, Lent<u32>) {
    let before = BEFORE[turn % BEFORE.len()];
    let words = before.words(random, call);
    (before, Lent::holding(random, &words))
}

/// A map call or, if none is named, an opening in this workspace, with outputs that are not judged
/// here: its answer.
fn made(random: &mut Random, map: Option<MapCall>, call: &Call, workspace: &mut [u32]) -> u64 {
    let mut residue = Lent::dirty(random, call.outputs[0]);
    let mut index = Lent::dirty(random, call.outputs[1]);
    let mut contrast = Lent::dirty(random, call.outputs[2]);
    let (picture, residue) = (&call.picture, residue.now_mut());
    let Some(which) = map else {
        return made_open(call, picture, workspace, residue);
    };
    let mapping = Mapping {
        picture,
        numbers: call.numbers,
        given: call.given,
        steps: &call.steps,
        gap: call.gap,
        workspace,
        residue,
        index: index.now_mut(),
        contrast: contrast.now_mut(),
    };
    interface::map(which, mapping)
}

/// What building leaves is as the request has it, and opening and maps leave the very same words,
/// maps at any gap; so does the dark or the combined call on 255 less each grey. By area the same
/// calls given triples do too. Each workspace holds something else before. Hands back what building
/// left.
fn check(report: &mut Report, random: &mut Random, call: &Call, turn: usize) -> Vec<u32> {
    let case = |name: &str, before: Before| format!("list after {before:?}, {}", shown(name, call));
    let (before, mut built) = lent(random, call, turn);
    let answer = interface::build(&call.picture, call.numbers, built.now_mut());
    let fault = first_fault([
        Returned::new(&call.picture, built.now()).fault(answer),
        built.fault("workspace", Some(built.now())),
    ]);
    report.check(fault, || case("build", before));
    let dark = random.pick(&[MapCall::Dark, MapCall::Combined]);
    let mut further = vec![
        (None, call.clone()),
        (Some(MapCall::Light), call.clone()),
        (Some(dark), call.reversed()),
    ];
    if call.numbers.attribute == AREA {
        let triples = call.by_triples();
        further.push((Some(dark), triples.reversed()));
        further.push((Some(MapCall::Light), triples.clone()));
        further.push((None, triples));
    }
    for (turn, (map, call)) in (turn + 1..).zip(&further) {
        let (before, mut workspace) = lent(random, call, turn);
        let answer = made(random, *map, call, workspace.now_mut());
        let fault = first_fault([
            answer_fault(answer, 0),
            workspace.fault("workspace", Some(built.now())),
        ]);
        let name = map.map_or(call.open_name(), |which| call.map_name(which));
        report.check(fault, || case(name, before));
    }
    built.now().to_vec()
}

fn good(random: &mut Random, picture: &Picture, attribute: u32, neighbours: u32) -> Call {
    let steps = step_list(random, &[1, 2, 3, 5, 8, 13, 40]);
    Call {
        gap: any_gap(random),
        ..Call::good(picture, attribute, neighbours, steps)
    }
}

/// Under each neighbourhood and by each attribute, in the programs here by one of them in turn.
fn check_picture(report: &mut Report, random: &mut Random, picture: &Picture, turn: usize) {
    for neighbours in NEIGHBOURHOODS {
        for attribute in 1..=3 {
            let call = good(random, picture, attribute, neighbours);
            let words = check(report, random, &call, turn + attribute as usize);
            count(report, &Returned::new(&picture.greys, &words));
        }
        check_programs(report, picture, neighbours, 1 + turn as u32 % 3);
    }
}

/// Where the root is: at position 0, the last one or elsewhere. How many nodes there are: one, all
/// pixels, or others, with position 0 among them that is not the root, or not.
fn count(report: &mut Report, returned: &Returned) {
    let n = returned.greys.len();
    let root = returned.list[0] as usize;
    let place = match root {
        0 => 0,
        root if root + 1 == n => 1,
        _ => 2,
    };
    report.met("root", place);
    let nodes = returned.attributes.iter().filter(|word| **word > 0).count();
    let number = match nodes {
        1 => 0,
        nodes if nodes == n => 1,
        _ if root != 0 && returned.attributes[0] > 0 => 2,
        _ => 3,
    };
    report.met("nodes", number);
}

/// The programs here say the same words of the picture.
fn check_programs(report: &mut Report, picture: &Picture, neighbours: u32, attribute: u32) {
    let records = [
        Levels::of(picture, neighbours).record(attribute),
        Forest::of(picture, neighbours).record(attribute),
    ];
    for record in records {
        let words = record.workspace();
        let fault = Returned::new(&picture.greys, &words).fault(record.nodes());
        report.check(fault, || {
            format!("programs here: list of {picture:?}, {neighbours} neighbours")
        });
    }
}

/// Width, height, and how many greys.
const SHAPES: [(usize, usize, usize); 9] = [
    (1, 1, 4),
    (5, 1, 4),
    (1, 5, 4),
    (2, 2, 4),
    (3, 2, 3),
    (2, 3, 3),
    (3, 3, 3),
    (4, 3, 2),
    (3, 4, 2),
];

/// Every picture of a few small shapes.
fn check_tiny(report: &mut Report, random: &mut Random) {
    let mut turn = 0;
    for shape in SHAPES {
        for number in 0..shape.2.pow((shape.0 * shape.1) as u32) {
            let picture = every::picture(shape, number);
            check_picture(report, random, &picture, turn);
            if picture.pixels() == 1 {
                check_wrong(report, random, &picture);
            }
            turn += 1;
        }
    }
}

/// A picture and its list, known from how it is made.
struct Known {
    picture: Picture,
    /// With 4 neighbours and with 8.
    lists: [Vec<u32>; 2],
}

impl Known {
    fn new(width: usize, greys: Vec<u8>, lists: [&[usize]; 2]) -> Known {
        let picture = Picture {
            width,
            height: greys.len() / width,
            greys,
        };
        Known {
            picture,
            lists: lists.map(|list| list.iter().map(|p| *p as u32).collect()),
        }
    }

    /// One list for both.
    fn alike(width: usize, greys: Vec<u8>, list: &[usize]) -> Known {
        Known::new(width, greys, [list; 2])
    }

    fn check(&self, report: &mut Report, random: &mut Random, attribute: u32, turn: usize) {
        for (neighbours, list) in NEIGHBOURHOODS.into_iter().zip(&self.lists) {
            let call = good(random, &self.picture, attribute, neighbours);
            let words = check(report, random, &call, turn);
            let returned = Returned::new(&self.picture.greys, &words);
            count(report, &returned);
            let mut due = list.clone();
            due.resize(self.picture.pixels(), 0);
            let at = (0..due.len()).find(|at| returned.list[*at] != due[*at]);
            let fault =
                at.map(|at| format!("{} listed at {at}, not {}", returned.list[at], due[at]));
            report.check(fault, || shown("known list", &call));
        }
    }

    /// By each attribute, and with all that a workspace may hold.
    fn check_all(&self, report: &mut Report, random: &mut Random) {
        for turn in 0..BEFORE.len() {
            for attribute in 1..=3 {
                self.check(report, random, attribute, turn);
            }
        }
    }
}

/// One grey throughout: the root alone.
fn flat() -> Vec<Known> {
    let shapes = [(1, 1), (1, 9), (9, 1), (7, 5), (40, 30)];
    let greys = [0, 7, 255];
    let flat = |(width, height): (usize, usize)| {
        greys.map(|grey| Known::alike(width, vec![grey; width * height], &[0]))
    };
    shapes.into_iter().flat_map(flat).collect()
}

/// Greys in one row, and the list; the same in one column, and in rows of three.
fn three_ways(greys: &[u8], list: &[usize]) -> [Known; 3] {
    let wide: Vec<u8> = greys.iter().flat_map(|grey| [*grey; 3]).collect();
    let first: Vec<usize> = list.iter().map(|p| 3 * p).collect();
    [
        Known::alike(greys.len(), greys.to_vec(), list),
        Known::alike(1, greys.to_vec(), list),
        Known::alike(3, wide, &first),
    ]
}

/// Stairs up, down, up and down, down and up. The two sides of a hill meet at its top, and the left
/// one represents both; in a valley they are two nodes at each level but the least.
fn stairs(count: usize, broad: usize) -> Vec<Known> {
    let up: Vec<u8> = (0..count).flat_map(|k| vec![k as u8; broad]).collect();
    let down: Vec<u8> = up.iter().rev().copied().collect();
    let starts: Vec<usize> = (0..count).map(|k| k * broad).collect();
    let falling: Vec<usize> = starts.iter().rev().copied().collect();
    let bottom = count - 1;
    let sides = |k: usize| [(bottom - k) * broad, (count + k) * broad];
    let valley: Vec<usize> = [bottom * broad]
        .into_iter()
        .chain((1..count).flat_map(sides))
        .collect();
    let all = [
        three_ways(&up, &starts),
        three_ways(&down, &falling),
        three_ways(&[&up[..], &down].concat(), &starts),
        three_ways(&[&down[..], &up].concat(), &valley),
    ];
    all.into_iter().flatten().collect()
}

/// One pixel darker or brighter than the others, at every place; the others are one node.
fn one_pixel() -> Vec<Known> {
    let mut all = Vec::new();
    for (width, height) in [(2, 2), (4, 3), (3, 5)] {
        for p in 0..width * height {
            let other = if p == 0 { 1 } else { 0 };
            for (grey, list) in [(3, [p, other]), (200, [other, p])] {
                let mut greys = vec![90; width * height];
                greys[p] = grey;
                all.push(Known::alike(width, greys, &list));
            }
        }
    }
    all
}

/// Bright and dark pixels in turn. The dark ones are the root; the bright ones share only corners.
fn chess() -> Vec<Known> {
    let mut all = Vec::new();
    for (width, height) in [(2, 2), (2, 5), (6, 3), (7, 7)] {
        for dark_first in [0, 1] {
            let greys = by_place(width, height, |row, column| {
                [40, 90][(row + column + dark_first) % 2]
            });
            let bright = |p: &usize| greys[*p] == 90;
            let (mut apart, dark): (Vec<usize>, Vec<usize>) = (0..greys.len()).partition(bright);
            apart.insert(0, dark[0]);
            let joined = [dark[0], apart[1]];
            all.push(Known::new(width, greys, [&apart, &joined]));
        }
    }
    all
}

/// Positions by rising grey, lower ones first within a grey.
fn by_grey(greys: &[u8], positions: impl Iterator<Item = usize>) -> Vec<usize> {
    let mut levels = vec![Vec::new(); 256];
    for p in positions {
        levels[usize::from(greys[p])].push(p);
    }
    levels.concat()
}

/// Bright pixels that lie apart on a dark ground, each a node, in any order of these greys.
fn dots(random: &mut Random, width: usize, height: usize, palette: &[u8]) -> Known {
    let is_dot = |row: usize, column: usize| row % 2 == 1 && column % 2 == 1;
    let greys = by_place(width, height, |row, column| {
        if is_dot(row, column) {
            random.pick(palette)
        } else {
            5
        }
    });
    let dots = (0..greys.len()).filter(|p| is_dot(p / width, p % width));
    let list = [vec![0], by_grey(&greys, dots)].concat();
    Known::alike(width, greys, &list)
}

fn middle(side: &Range<usize>) -> usize {
    side.start + side.len() / 2
}

/// Divides a part of a picture by a line of pixels, each with a grey of its own, from `dark` on;
/// the two sides, which lie apart above these greys, are divided in turn with brighter ones.
fn divide(
    greys: &mut [u8],
    width: usize,
    (rows, columns): (Range<usize>, Range<usize>),
    dark: usize,
) {
    if rows.is_empty() || columns.is_empty() {
        return;
    }
    let (row, column) = (middle(&rows), middle(&columns));
    let (line, sides): (Vec<usize>, _) = if rows.len() <= columns.len() {
        let sides = [columns.start..column, column + 1..columns.end];
        let line = rows.clone().map(|row| row * width + column).collect();
        (line, sides.map(|columns| (rows.clone(), columns)))
    } else {
        let sides = [rows.start..row, row + 1..rows.end];
        let line = columns.clone().map(|column| row * width + column).collect();
        (line, sides.map(|rows| (rows, columns.clone())))
    };
    let brighter = dark + line.len();
    for (grey, p) in (dark..).zip(line) {
        greys[p] = u8::try_from(grey).expect("greys enough");
    }
    for side in sides {
        divide(greys, width, side, brighter);
    }
}

/// Every pixel is a node, so that the list is as long as its part.
fn divided(width: usize, height: usize) -> Known {
    let mut greys = vec![0; width * height];
    divide(&mut greys, width, (0..height, 0..width), 0);
    let list = by_grey(&greys, 0..greys.len());
    Known::alike(width, greys, &list)
}

/// No two pixels of one grey, so that every pixel is a node here too; the root is anywhere.
fn no_two_alike(random: &mut Random, width: usize, height: usize) -> Known {
    let mut all: Vec<u8> = (0..=255).collect();
    for k in (1..all.len()).rev() {
        all.swap(k, random.below(k + 1));
    }
    let greys = all[..width * height].to_vec();
    let list = by_grey(&greys, 0..greys.len());
    Known::alike(width, greys, &list)
}

fn known(random: &mut Random) -> Vec<Known> {
    let mut all = flat();
    all.extend(one_pixel());
    all.extend(chess());
    for (count, broad) in [(1, 2), (2, 1), (3, 1), (3, 4), (17, 1), (256, 1), (128, 2)] {
        all.extend(stairs(count, broad));
    }
    for palette in [&[9][..], &[9, 200], &[255, 6, 127, 128, 129]] {
        for (width, height) in [(3, 3), (9, 7), (40, 21)] {
            all.push(dots(random, width, height, palette));
        }
    }
    for (width, height) in [(2, 1), (1, 2), (2, 2), (3, 3), (7, 5), (31, 33), (255, 1)] {
        all.push(divided(width, height));
    }
    for (width, height) in [(16, 16), (256, 1), (1, 256), (5, 4), (3, 2)] {
        all.push(no_two_alike(random, width, height));
    }
    all
}

fn large_known(random: &mut Random) -> [Known; 5] {
    [
        divided(4096, 1),
        divided(1, 4096),
        divided(4096, 16),
        divided(16, 4096),
        dots(random, 1024, 1024, &[7, 70, 200]),
    ]
}

const LARGE: [(&str, usize, usize); 7] = [
    ("noise", 1024, 1024),
    ("floc", 1024, 1024),
    ("few greys", 4096, 256),
    ("noise", 1, 4096),
    ("noise", 4096, 1),
    ("few greys", 1, 4096),
    ("few greys", 4096, 1),
];

/// Large pictures, by one attribute each in turn.
fn check_large(report: &mut Report, random: &mut Random) {
    for (case, known) in large_known(random).into_iter().enumerate() {
        known.check(report, random, 1 + case as u32 % 3, 2 * case);
    }
    for (case, (kind, width, height)) in LARGE.into_iter().enumerate() {
        let picture = large::picture(random, kind, width, height);
        for (turn, neighbours) in (case..).zip(NEIGHBOURHOODS) {
            let call = good(random, &picture, 1 + turn as u32 % 3, neighbours);
            check(report, random, &call, 3 * turn);
        }
    }
}

/// Workspaces that are not 7n words, each alone, which is beside 5, and beside each other cause.
fn check_wrong(report: &mut Report, random: &mut Random, picture: &Picture) {
    let neighbours = random.pick(&NEIGHBOURHOODS);
    let truth = ByDefinition::of(picture, neighbours);
    for workspace in damage::all_wrong_workspaces(picture.pixels()) {
        for beside in ORDER {
            for check in CHECKS {
                let attribute = random.between(1, 3) as u32;
                let mut call = good(random, picture, attribute, neighbours);
                damage::apply(random, &mut call, beside);
                call.workspace = workspace;
                check(report, random, &call, &truth);
            }
        }
    }
}

/// A part or a word too few or too many, for a picture as large as may be.
fn check_wrong_large(report: &mut Report, random: &mut Random) {
    let nest = Nest::new(&[Rectangle::whole(1024, 1024)]);
    let n = nest.picture.pixels();
    let due = WORDS_A_PIXEL * n;
    for workspace in [due - n, due - 1, due + 1, due + n] {
        for check in CHECKS {
            let good = good(random, &nest.picture, 1, 4);
            check(report, random, &Call { workspace, ..good }, &nest);
        }
    }
}

pub fn run(report: &mut Report, seed: u64, cases: usize) {
    let mut random = Random::for_case(seed, 11, u64::MAX);
    check_tiny(report, &mut random);
    for known in known(&mut random) {
        known.check_all(report, &mut random);
    }
    check_large(report, &mut random);
    check_wrong_large(report, &mut random);
    for case in 0..cases {
        let mut random = Random::for_case(seed, 11, case as u64);
        let picture = pictures::small(&mut random, case);
        check_picture(report, &mut random, &picture, case);
        if case % 40 == 0 {
            check_wrong(report, &mut random, &picture);
        }
    }
    println!("  the root at position 0 (0), at the last (1) or elsewhere (2):");
    report.check_all_met("root", &[0, 1, 2]);
    println!(
        "  one node (0), every pixel (1), others, with 0 a node above the root (2) or not (3):"
    );
    report.check_all_met("nodes", &[0, 1, 2, 3]);
}
