// Dark floc, in the words of the request: the dark maps are the light ones of 255 less each grey; a
// combined map takes, at each pixel, the side of larger residue and its index, on equal residues
// the dark index; the contrast is the residue where light won, its negative where dark won or tied,
// 0 where both are 0. Pictures worked out by hand; one grey throughout; pictures that turned around
// are their own reversal; every picture of a few small shapes, of greys equally far apart, so that
// residues tie; random pictures. On these the calls are held to each other as well. Then calls that
// are refused, by every set of causes, and viewers, who give a row and a side and receive that row
// of the one map or the other.

use crate::calls::{any_gap, any_good, any_named, attribute_values, check_map, check_maps};
use crate::calls::{shown, step_list, ByDefinition, Call, Written};
use crate::causes::{view_refusal, MOST_THRESHOLD, NEIGHBOURHOODS, ORDER, SIDES, WORDS_A_PIXEL};
use crate::damage;
use crate::dark;
use crate::definition::{Picture, CUT};
use crate::fast::Forest;
use crate::interface::{self, MapCall, View};
use crate::lent::Lent;
use crate::pictures::{self, by_place, ring, ringed};
use crate::random::Random;
use crate::report::{answer_fault, refused, Report};
use crate::runs::Maps;
use crate::table::{rows, Table, AREA, HEIGHT, WIDTH};
use crate::triples::{node_sizes, triple_list};
use std::cmp::Ordering;

/// Residues and indices.
type Side<'a> = (&'a [u8], &'a [u16]);

/// What is worked out at the pixels inside a ring; in the ring all is 0.
struct Worked<'a> {
    inside: Picture,
    around: u8,
    light: Side<'a>,
    dark: Side<'a>,
    /// Residues, indices and contrasts.
    combined: (&'a [u8], &'a [u16], &'a [i16]),
}

impl Worked<'_> {
    fn whole<T: Copy + Default>(&self, entries: &[T]) -> Vec<T> {
        ring(self.inside.width, entries, T::default())
    }

    fn maps(&self, (residue, index): Side) -> Maps {
        (self.whole(residue), self.whole(index))
    }

    fn check(&self, table: &mut Table, named: (u32, &[u32])) {
        let picture = ringed(&self.inside, self.around);
        let [light, dark] = [self.light, self.dark].map(|side| self.maps(side));
        table.maps(&picture, named, &light.0, &light.1);
        table.maps(&picture.reversed(), named, &dark.0, &dark.1);
        let (residue, index, contrast) = self.combined;
        let due = (self.maps((residue, index)), self.whole(contrast));
        let same = dark::combined(&light, &dark) == due;
        table.defined(same, "combined maps", &picture);
    }
}

/// The scope's P, light on the ground of its ring, and reversed, dark on one of 245.
fn one_row(table: &mut Table) {
    let (residue, index): (_, [u16; 5]) = match table.gap {
        0 | 1 => ([0, 10, 10, 30, 0], [0, 4, 4, 2, 0]),
        _ => ([0, 20, 10, 40, 0], [0, 4, 4, 4, 0]),
    };
    let [some, none]: [Side; 2] = [(&residue, &index), (&[0; 5], &[0; 5])];
    let steps = (AREA, &[1, 2, 3, 4][..]);
    let light = Worked {
        inside: rows(&[[10, 30, 20, 50, 10]]),
        around: 10,
        light: some,
        dark: none,
        combined: (&residue, &index, &residue.map(i16::from)),
    };
    light.check(table, steps);
    let dark = Worked {
        inside: rows(&[[245, 225, 235, 205, 245]]),
        around: 245,
        light: none,
        dark: some,
        combined: (&residue, &index, &residue.map(|fall| -i16::from(fall))),
    };
    dark.check(table, steps);
}

/// Light and dark floc beside each other.
fn both_floc(table: &mut Table) {
    let both = Worked {
        inside: rows(&[[130, 130, 100, 60, 100, 255, 100, 0]]),
        around: 100,
        light: (&[30, 30, 0, 0, 0, 155, 0, 0], &[2, 2, 0, 0, 0, 1, 0, 0]),
        dark: (&[0, 0, 0, 40, 0, 0, 0, 100], &[0, 0, 0, 1, 0, 0, 0, 1]),
        combined: (
            &[30, 30, 0, 40, 0, 155, 0, 100],
            &[2, 2, 0, 1, 0, 1, 0, 1],
            &[30, 30, 0, -40, 0, 155, 0, -100],
        ),
    };
    both.check(table, (AREA, &[2, 3, 4]));
    both.check(table, (WIDTH, &[2, 3, 4]));
}

/// The largest contrasts that there are.
fn ends(table: &mut Table) {
    for attribute in [AREA, HEIGHT, WIDTH] {
        let light = Worked {
            inside: rows(&[[255]]),
            around: 0,
            light: (&[255], &[1]),
            dark: (&[0], &[0]),
            combined: (&[255], &[1], &[255]),
        };
        light.check(table, (attribute, &[2]));
        let dark = Worked {
            inside: rows(&[[0]]),
            around: 255,
            light: (&[0], &[0]),
            dark: (&[255], &[1]),
            combined: (&[255], &[1], &[-255]),
        };
        dark.check(table, (attribute, &[2]));
    }
}

/// A dark pixel in a light floc: in the middle both sides fall by 10, the dark one at the first step
/// and the light one at the last. Around it light falls twice by 10; nothing is dark.
fn tie(table: &mut Table) {
    /// 0 in the middle, 1 around it.
    const BLOCK: [usize; 9] = [1, 1, 1, 1, 0, 1, 1, 1, 1];
    let rim = if table.gap == 0 { 10 } else { 20 };
    let (light, light_index) = (BLOCK.map(|k| [10, rim][k]), [3; 9]);
    let (dark, dark_index) = (BLOCK.map(|k| [10, 0][k]), BLOCK.map(|k| [1, 0][k]));
    let floc = Worked {
        inside: rows(&[[120, 120, 120], [120, 110, 120], [120, 120, 120]]),
        around: 100,
        light: (&light, &light_index),
        dark: (&dark, &dark_index),
        combined: (
            &light,
            &BLOCK.map(|k| [1, 3][k]),
            &BLOCK.map(|k| [-10, i16::from(rim)][k]),
        ),
    };
    floc.check(table, (AREA, &[2, 9, 10]));
    let reversed = Worked {
        inside: rows(&[[135, 135, 135], [135, 145, 135], [135, 135, 135]]),
        around: 155,
        light: (&dark, &dark_index),
        dark: (&light, &light_index),
        combined: (&light, &light_index, &light.map(|fall| -i16::from(fall))),
    };
    reversed.check(table, (AREA, &[2, 9, 10]));
}

/// The middle falls by 10 on the dark side; on the light side twice by 6, at steps beside each
/// other. Dark wins at gap 0, and light where these are joined.
fn by_gap(table: &mut Table) {
    let inside = rows(&[
        [106, 106, 106, 106, 106],
        [106, 122, 122, 122, 106],
        [106, 122, 112, 122, 106],
        [106, 122, 122, 122, 106],
        [106, 106, 106, 106, 106],
    ]);
    let floc = |p: usize| match inside.greys[p] {
        106 => 0,
        122 => 1,
        _ => 2,
    };
    let (falls, places, taken): ([u8; 3], [u16; 3], (u8, u16, i16)) = match table.gap {
        0 => ([6, 16, 6], [3, 2, 3], (10, 1, -10)),
        _ => ([6, 22, 12], [3, 3, 3], (12, 3, 12)),
    };
    let light: Vec<u8> = (0..25).map(|p| falls[floc(p)]).collect();
    let light_index: Vec<u16> = (0..25).map(|p| places[floc(p)]).collect();
    let (mut dark, mut dark_index) = ([0; 25], [0; 25]);
    (dark[12], dark_index[12]) = (10, 1);
    let (mut residue, mut index) = (light.clone(), light_index.clone());
    let mut contrast: Vec<i16> = light.iter().map(|fall| i16::from(*fall)).collect();
    (residue[12], index[12], contrast[12]) = taken;
    let worked = Worked {
        light: (&light, &light_index),
        dark: (&dark, &dark_index),
        combined: (&residue, &index, &contrast),
        inside,
        around: 100,
    };
    worked.check(table, (AREA, &[2, 10, 26]));
}

/// One grey throughout: nothing falls on either side, and the root is all of the record.
fn one_grey(report: &mut Report, random: &mut Random) {
    for grey in 0..=255 {
        for (width, height) in [(1, 1), (5, 1), (3, 4)] {
            let n = width * height;
            let picture = Picture {
                width,
                height,
                greys: vec![grey; n],
            };
            let (attribute, neighbours) = any_named(random);
            let truth = ByDefinition::of(&picture, neighbours);
            let steps = vec![1, 2, n as u32 + 1, MOST_THRESHOLD];
            let mut call = Call::good(&picture, attribute, neighbours, steps);
            call.steps.dedup();
            call.gap = any_gap(random);
            let mut root = vec![0; WORDS_A_PIXEL * n];
            root[n] = CUT;
            let due = Written {
                workspace: root,
                maps: (vec![0; n], vec![0; n]),
                contrast: vec![0; n],
            };
            let left = check_map(report, random, MapCall::Combined, &call, &truth);
            let fault = (left != Some(due)).then(|| String::from("not all 0 on the root alone"));
            report.check(fault, || shown("one grey", &call));
            check_maps(report, random, &call, &truth);
            check_maps(report, random, &call.by_triples(), &truth);
        }
    }
}

/// What the three map calls write, on a picture and on its reversal.
struct Calls {
    light: Written,
    dark: Written,
    combined: Written,
}

impl Calls {
    fn make(
        report: &mut Report,
        random: &mut Random,
        call: &Call,
        truth: &ByDefinition,
    ) -> Option<Calls> {
        let mut made = |which: MapCall| check_map(report, random, which, call, truth);
        Some(Calls {
            light: made(MapCall::Light)?,
            dark: made(MapCall::Dark)?,
            combined: made(MapCall::Combined)?,
        })
    }

    /// Residue and index at a pixel, of the light, the dark and the combined maps, and the contrast.
    fn at(&self, p: usize) -> ([(u8, u16); 3], i16) {
        let maps = [&self.light, &self.dark, &self.combined].map(|written| &written.maps);
        let at = maps.map(|(residue, index)| (residue[p], index[p]));
        (at, self.combined.contrast[p])
    }
}

/// At one pixel, in the picture and in its reversal: which of the two has the larger residue is
/// taken in both, with opposite contrasts; where they tie, each takes its own dark index and a
/// contrast that is not above 0.
fn pixel_fits(calls: &Calls, reversed: &Calls, p: usize) -> bool {
    let ([light, dark, taken], contrast) = calls.at(p);
    let ([_, _, beside], opposite) = reversed.at(p);
    if light.0 == dark.0 {
        let negative = -i16::from(light.0);
        (taken, beside) == (dark, light) && [contrast, opposite] == [negative; 2]
    } else {
        let (larger, due) = if light.0 > dark.0 {
            (light, i16::from(light.0))
        } else {
            (dark, -i16::from(dark.0))
        };
        [taken, beside] == [larger; 2] && [contrast, opposite] == [due, -due]
    }
}

/// Nothing falls, light or dark wins, or they tie, with one index or with the larger on the light
/// or on the dark side.
fn count(report: &mut Report, calls: &Calls) {
    for p in 0..calls.combined.contrast.len() {
        let ([light, dark, _], _) = calls.at(p);
        let kind = match (light.0.cmp(&dark.0), light.1.cmp(&dark.1)) {
            _ if (light.0, dark.0) == (0, 0) => 0,
            (Ordering::Greater, _) => 1,
            (Ordering::Less, _) => 2,
            (_, Ordering::Equal) => 3,
            (_, Ordering::Greater) => 4,
            (_, Ordering::Less) => 5,
        };
        report.met("pixel", kind);
    }
}

fn laws_fault(calls: &Calls, reversed: &Calls) -> Option<String> {
    let at = (0..calls.combined.contrast.len()).find(|p| !pixel_fits(calls, reversed, *p));
    let faults = [
        (calls.dark != reversed.light || reversed.dark != calls.light)
            .then(|| String::from("dark maps are not the light ones of the reversal")),
        (calls.combined.workspace != calls.dark.workspace)
            .then(|| String::from("combined and dark call leave different records")),
        at.map(|p| format!("at {p}: {:?}, reversed {:?}", calls.at(p), reversed.at(p))),
    ];
    faults.into_iter().flatten().next()
}

/// All six calls, held to the definitions and to each other. Hands back those on the picture.
fn check_laws(
    report: &mut Report,
    random: &mut Random,
    call: &Call,
    truths: [&ByDefinition; 2],
) -> Option<Calls> {
    let calls = Calls::make(report, random, call, truths[0])?;
    let reversed = Calls::make(report, random, &call.reversed(), truths[1])?;
    report.check(laws_fault(&calls, &reversed), || shown("sides", call));
    count(report, &calls);
    Some(calls)
}

/// The picture and below it its reversal, turned around.
fn turned_around(picture: &Picture) -> Picture {
    let reversed = picture.reversed().greys.into_iter().rev();
    Picture {
        height: 2 * picture.height,
        greys: picture.greys.iter().copied().chain(reversed).collect(),
        ..*picture
    }
}

/// Squares of one grey and of 255 less it in turn, an even number of them across and an odd one down,
/// so that opposite ones differ.
fn chess(grey: u8, square: usize, (across, down): (usize, usize)) -> Picture {
    let (width, height) = (2 * across * square, down * square);
    let greys = by_place(width, height, |row, column| {
        [grey, 255 - grey][(row / square + column / square) % 2]
    });
    Picture {
        width,
        height,
        greys,
    }
}

/// On a picture that turned around is its own reversal, the dark maps are the light ones turned
/// around.
fn check_turned(report: &mut Report, random: &mut Random, picture: &Picture) {
    let n = picture.pixels();
    let turned: Vec<u8> = picture.reversed().greys.into_iter().rev().collect();
    assert_eq!(turned, picture.greys);
    let (attribute, neighbours) = any_named(random);
    let truth = ByDefinition::of(picture, neighbours);
    let steps = step_list(random, &attribute_values(&truth.levels, attribute));
    let call = Call {
        gap: any_gap(random),
        ..Call::good(picture, attribute, neighbours, steps)
    };
    let reversed = ByDefinition::of(&picture.reversed(), neighbours);
    let Some(calls) = check_laws(report, random, &call, [&truth, &reversed]) else {
        return;
    };
    let opposite = |p: usize| {
        let ([light, dark, taken], contrast) = calls.at(p);
        let ([_, beside, taken_beside], contrast_beside) = calls.at(n - 1 - p);
        light == beside
            && taken.0 == taken_beside.0
            && (light.0 == dark.0 || contrast == -contrast_beside)
    };
    let at = (0..n).find(|p| !opposite(*p));
    let fault = at.map(|p| format!("not turned around at {p}"));
    report.check(fault, || shown("sides", &call));
}

/// Width and height.
const SHAPES: [(usize, usize); 7] = [(1, 1), (5, 1), (1, 5), (2, 2), (3, 2), (2, 3), (3, 3)];

/// Equally far apart, in the middle of all greys and at both ends.
const GREYS: [[u8; 3]; 3] = [[118, 128, 138], [0, 10, 20], [235, 245, 255]];

/// Every picture of a shape, in a ring of one of its greys.
fn check_shape(report: &mut Report, random: &mut Random, (width, height): (usize, usize)) {
    let n = width * height;
    for number in 0..3_usize.pow(n as u32) {
        let palette = random.pick(&GREYS);
        let digit = |p: usize| number / 3_usize.pow(p as u32) % 3;
        let inside = Picture {
            width,
            height,
            greys: (0..n).map(|p| palette[digit(p)]).collect(),
        };
        let picture = ringed(&inside, random.pick(&palette));
        let attribute = random.between(1, 3) as u32;
        for neighbours in NEIGHBOURHOODS {
            let truths = [&picture, &picture.reversed()].map(|p| ByDefinition::of(p, neighbours));
            let mut steps: Vec<u32> = (2..=n as u32 + 1).chain([MOST_THRESHOLD]).collect();
            steps.retain(|t| *t == 2 || random.chance(2, 3));
            let call = Call {
                gap: random.pick(&[0, 0, 0, 1, 2, 256]),
                ..Call::good(&picture, attribute, neighbours, steps)
            };
            check_laws(report, random, &call, [&truths[0], &truths[1]]);
            if number % 2 == 0 {
                check_triples(report, random, [&truths[0], &truths[1]]);
            }
        }
    }
}

/// By triples near the sizes of both sides.
fn check_triples(report: &mut Report, random: &mut Random, truths: [&ByDefinition; 2]) {
    let mut sizes = node_sizes(&truths[0].levels);
    sizes.extend(node_sizes(&truths[1].levels));
    let ByDefinition {
        picture, levels, ..
    } = truths[0];
    let call = Call {
        gap: any_gap(random),
        ..Call::triples(picture, levels.neighbours, &triple_list(random, &sizes))
    };
    check_laws(report, random, &call, truths);
}

/// Rings within each other, each lighter or darker than the one around it by 10 or 20.
fn eye(random: &mut Random) -> Picture {
    let (width, height) = (random.between(3, 11), random.between(3, 11));
    let mut palette = vec![128];
    for ring in 0..6 {
        let by = random.pick(&[10, 20]);
        let around: u8 = palette[ring];
        palette.push(random.pick(&[around - by, around + by]));
    }
    let greys = by_place(width, height, |row, column| {
        let edges = [row, column, height - 1 - row, width - 1 - column];
        palette[edges.into_iter().min().unwrap_or(0)]
    });
    Picture {
        width,
        height,
        greys,
    }
}

/// A random picture, as it is or in a ring of one of its greys; greys may be made fewer.
fn any_picture(random: &mut Random, case: usize) -> Picture {
    let mut picture = pictures::small(random, case);
    if random.chance(1, 4) {
        let grey = random.pick(&picture.greys);
        picture = ringed(&picture, grey);
    }
    if random.chance(1, 2) {
        let apart = random.pick(&[64, 32, 10]);
        for grey in &mut picture.greys {
            *grey -= *grey % apart;
        }
    }
    picture
}

/// By any attribute and neighbourhood, at steps near the sizes of both sides.
fn check_picture(report: &mut Report, random: &mut Random, picture: &Picture) {
    let (attribute, neighbours) = any_named(random);
    let truths = [picture, &picture.reversed()].map(|p| ByDefinition::of(p, neighbours));
    let mut sizes = attribute_values(&truths[0].levels, attribute);
    sizes.extend(attribute_values(&truths[1].levels, attribute));
    let call = Call {
        gap: any_gap(random),
        ..Call::good(picture, attribute, neighbours, step_list(random, &sizes))
    };
    check_laws(report, random, &call, [&truths[0], &truths[1]]);
    check_triples(report, random, [&truths[0], &truths[1]]);
}

/// Every set of causes; the list is out of range or out of order. Where an output is wrong it is
/// any of the three, or the contrasts alone.
fn every_set(report: &mut Report, random: &mut Random) {
    for set in 0..1 << ORDER.len() {
        for turn in 0..12 {
            let (picture, mut call) = any_good(random, set + turn);
            let forest = Forest::of(&picture, call.numbers.neighbours);
            let n = call.picture.len();
            let chosen = (0..ORDER.len()).filter(|k| set >> k & 1 == 1);
            for cause in chosen.rev().map(|k| ORDER[k]) {
                match cause {
                    4 if turn % 2 == 0 => damage::list_order(random, &mut call),
                    6 if turn % 3 == 0 => call.outputs[2] = [n - 1, n + 1, 0, 2 * n][turn / 3],
                    _ => damage::apply(random, &mut call, cause),
                }
            }
            check_maps(report, random, &call, &forest);
        }
    }
}

/// Each output of another length, alone, which is beside 6, and beside each other cause.
fn wrong_outputs(report: &mut Report, random: &mut Random) {
    for case in 0..10 {
        for beside in ORDER {
            let (picture, good) = any_good(random, case);
            let forest = Forest::of(&picture, good.numbers.neighbours);
            let n = good.picture.len();
            let mut lengths = vec![0, 1, n - 1, n + 1, 2 * n, n / 2, 7 * n, n + 65_536];
            lengths.retain(|length| *length != n);
            for length in lengths {
                for output in 0..3 {
                    let mut call = good.clone();
                    if beside != 6 {
                        damage::apply(random, &mut call, beside);
                    }
                    call.outputs[output] = length;
                    check_maps(report, random, &call, &forest);
                    check_maps(report, random, &call.by_triples(), &forest);
                }
            }
        }
    }
}

/// Two maps lent to viewers.
struct Viewed {
    maps: [Lent<u8>; 2],
}

impl Viewed {
    fn dirty(random: &mut Random, lengths: [usize; 2]) -> Viewed {
        Viewed {
            maps: lengths.map(|entries| Lent::dirty(random, entries)),
        }
    }

    /// The answer is where the row starts, and what starts there is that row of that side's map.
    fn row_fault(&self, view: View, answer: u64) -> Option<String> {
        let start = u64::from(view.row) * u64::from(view.width);
        let map = self.maps[view.side as usize - 1].now();
        let (at, width) = (answer as usize, view.width as usize);
        let is_row = || map.get(at..at + width) == dark::row(map, width, view.row as usize);
        let fault = answer_fault(answer, start);
        fault.or_else(|| (!is_row()).then(|| String::from("not that row")))
    }

    /// Maps are only read. Large ones are compared not here but after all views.
    fn check(&self, report: &mut Report, view: View) {
        let [light, dark] = &self.maps;
        let lengths = [light.now().len(), dark.now().len()];
        let answer = interface::view_row(light.now(), dark.now(), view);
        let outcome = view_refusal(view, lengths);
        report.met("view", outcome.map_or_else(u64::from, |()| 0));
        let mut fault = match outcome {
            Ok(()) => self.row_fault(view, answer),
            Err(cause) => answer_fault(answer, refused(cause)),
        };
        if lengths.iter().all(|entries| *entries < 4096) {
            fault = fault.or(self.left_fault());
        }
        report.check(fault, || format!("{view:?} of maps of {lengths:?} entries"));
    }

    fn left_fault(&self) -> Option<String> {
        let [light, dark] = &self.maps;
        let fault = light.fault("light map", None);
        fault.or(dark.fault("dark map", None))
    }

    /// Every row named and each side, right or wrong.
    fn check_rows(&self, report: &mut Report, width: u32, height: u32, rows: &[u32]) {
        for row in rows.iter().copied() {
            for side in ALL_SIDES {
                let view = View {
                    width,
                    height,
                    row,
                    side,
                };
                self.check(report, view);
            }
        }
        report.check(self.left_fault(), || format!("views, {width} by {height}"));
    }
}

/// 1 and 2, and numbers that are neither.
const ALL_SIDES: [u32; 12] = [
    0,
    1,
    2,
    3,
    4,
    255,
    257,
    258,
    65_537,
    1 << 31,
    (1 << 31) + 2,
    u32::MAX,
];

/// Rows of a picture, and numbers that are none; the last one's product with the width is a position
/// if it is cut to 32 bits.
fn all_rows(width: u32, height: u32) -> Vec<u32> {
    let mut rows: Vec<u32> = (0..height + 3).collect();
    rows.extend([255, 256, 4096, 65_536, 1 << 31, u32::MAX - 1, u32::MAX]);
    rows.push((1_u64 << 32).div_ceil(u64::from(width)) as u32);
    rows
}

/// Small maps of every length about the one due, for every row and side.
fn small_views(report: &mut Report, random: &mut Random) {
    for width in 1..=5 {
        for height in 1..=5 {
            let n = (width * height) as usize;
            let lengths = [n, n - 1, n + 1, 0, 2 * n, n + width as usize, n + 65_536];
            for light in lengths {
                for dark in lengths {
                    let viewed = Viewed::dirty(random, [light, dark]);
                    let rows = all_rows(width, height);
                    viewed.check_rows(report, width, height, &rows);
                }
            }
        }
    }
}

/// Sides at their bounds and beyond, with maps of as many entries as they name and others.
fn wrong_views(report: &mut Report, random: &mut Random) {
    let wrong = [0, 4097, 65_536, 65_537, 1 << 31, u32::MAX];
    let mut all: Vec<(u32, u32)> = Vec::new();
    for side in wrong {
        all.extend([(side, 1), (1, side), (side, side), (side, 4096)]);
    }
    all.extend((0..20).map(|_| damage::wrong_sides(random)));
    all.extend([(1025, 1024), (1024, 1025), (4096, 257), (257, 4096)]);
    for (width, height) in all {
        let named = width.wrapping_mul(height) as usize;
        let lengths = [named.min(1 << 21), 0, 1];
        for (light, dark) in [(0, 0), (0, 1), (1, 0), (1, 1), (2, 2)] {
            let viewed = Viewed::dirty(random, [lengths[light], lengths[dark]]);
            let rows = [0, 1, height.wrapping_sub(1), height, u32::MAX];
            viewed.check_rows(report, width, height, &rows);
        }
    }
}

/// The largest pictures and those of one row or column, every row of each side; then one map an
/// entry short or long.
fn large_views(report: &mut Report, random: &mut Random) {
    for (width, height) in [(1024, 1024), (4096, 256), (256, 4096), (4096, 1), (1, 4096)] {
        let n = (width * height) as usize;
        let viewed = Viewed::dirty(random, [n, n]);
        viewed.check_rows(report, width, height, &all_rows(width, height));
        for lengths in [[n - 1, n], [n, n + 1], [n + 1, n], [n, n - 1]] {
            let rows = [0, height - 1, height];
            Viewed::dirty(random, lengths).check_rows(report, width, height, &rows);
        }
    }
}

/// Each row of both residue maps of a picture, as the library wrote them.
fn views_of_maps(report: &mut Report, random: &mut Random, case: usize) {
    let (picture, call) = any_good(random, case);
    let forest = Forest::of(&picture, call.numbers.neighbours);
    let mut written = |which: MapCall| check_map(report, random, which, &call, &forest);
    let (Some(light), Some(dark)) = (written(MapCall::Light), written(MapCall::Dark)) else {
        return;
    };
    let viewed = Viewed {
        maps: [light, dark].map(|side| Lent::holding(random, &side.maps.0)),
    };
    let (width, height) = (call.numbers.width, call.numbers.height);
    for row in 0..=height {
        for side in SIDES {
            let view = View {
                width,
                height,
                row,
                side,
            };
            viewed.check(report, view);
        }
    }
}

pub fn run(report: &mut Report, seed: u64, cases: usize) {
    let mut random = Random::for_case(seed, 13, u64::MAX);
    for gap in [0, 1, 2, 256] {
        for neighbours in NEIGHBOURHOODS {
            let mut table = Table {
                report,
                random: Random::for_case(seed, 13, u64::MAX - u64::from(gap + 1)),
                neighbours,
                gap,
            };
            one_row(&mut table);
            both_floc(&mut table);
            ends(&mut table);
            tie(&mut table);
            by_gap(&mut table);
        }
    }
    one_grey(report, &mut random);
    for grey in [0, 1, 100, 127, 128, 255] {
        for square in 1..=3 {
            for sides in [(1, 1), (2, 3), (3, 5), (1, 5)] {
                check_turned(report, &mut random, &chess(grey, square, sides));
            }
        }
    }
    for shape in SHAPES {
        check_shape(report, &mut random, shape);
    }
    for _ in 0..2000 {
        let picture = eye(&mut random);
        check_picture(report, &mut random, &picture);
    }
    every_set(report, &mut random);
    wrong_outputs(report, &mut random);
    small_views(report, &mut random);
    wrong_views(report, &mut random);
    large_views(report, &mut random);
    for case in 0..cases {
        let mut random = Random::for_case(seed, 13, case as u64);
        let picture = any_picture(&mut random, case);
        check_picture(report, &mut random, &picture);
        if case % 4 == 0 {
            let picture = turned_around(&pictures::small(&mut random, case / 4));
            check_turned(report, &mut random, &picture);
            views_of_maps(report, &mut random, case);
        }
    }
    println!("  pixels where nothing falls (0), light wins (1), dark wins (2), or they tie with");
    println!("  one index (3), the larger on the light side (4) or on the dark side (5):");
    report.check_all_met("pixel", &[0, 1, 2, 3, 4, 5]);
    report.check_all_met("view", &[0, 1, 6, 16]);
}
