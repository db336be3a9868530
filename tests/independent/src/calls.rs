// Build, open and the three map calls on random pictures, under both neighbourhoods, maps at gap 0
// and at another; open and maps given thresholds and given triples: accepted calls against the
// definitions, refused ones against the causes, each cause alone and in pairs.

use crate::causes::{refusal, Named, NEIGHBOURHOODS, ORDER};
use crate::causes::{MOST_GAP, MOST_STEPS, MOST_THRESHOLD, WORDS_A_PIXEL};
use crate::damage;
use crate::dark;
use crate::definition::{Component, Levels, Picture, Record, CUT};
use crate::fast::Forest;
use crate::interface::{self, Given, MapCall, Mapping, Numbers, MAP_CALLS};
use crate::lent::Lent;
use crate::parts::{self, Triple};
use crate::pictures;
use crate::random::Random;
use crate::report::{answer_fault, refused, Report};
use crate::runs::Maps;
use crate::table::AREA;
use crate::triples::{node_sizes, triple, triple_list};
use std::cell::OnceCell;

/// What is named and lent in a call; each call takes its part of it.
#[derive(Clone, Debug)]
pub struct Call {
    pub picture: Vec<u8>,
    /// A call given triples names no attribute.
    pub numbers: Numbers,
    pub given: Given,
    /// One word to a threshold, three to a triple. An opening takes the first step.
    pub steps: Vec<u32>,
    pub gap: u32,
    pub workspace: usize,
    /// Residues, or an opening, then indices and contrasts.
    pub outputs: [usize; 3],
}

impl Call {
    /// Given thresholds, at gap 0.
    pub fn good(picture: &Picture, attribute: u32, neighbours: u32, steps: Vec<u32>) -> Call {
        let n = picture.pixels();
        let numbers = Numbers {
            width: picture.width as u32,
            height: picture.height as u32,
            attribute,
            neighbours,
        };
        Call {
            picture: picture.greys.clone(),
            numbers,
            given: Given::Thresholds,
            steps,
            gap: 0,
            workspace: WORDS_A_PIXEL * n,
            outputs: [n; 3],
        }
    }

    /// Given triples, at gap 0.
    pub fn triples(picture: &Picture, neighbours: u32, triples: &[Triple]) -> Call {
        Call {
            given: Given::Triples,
            ..Call::good(picture, AREA, neighbours, triples.concat())
        }
    }

    /// The same call given triples with two zeros for its thresholds, those of area if it names no
    /// attribute that there is. The cause due is the same, unless it is 3.
    pub fn by_triples(&self) -> Call {
        let attribute = match self.numbers.attribute {
            known @ 1..=3 => known,
            _ => AREA,
        };
        let triple = |t: &u32| parts::of_threshold(attribute, *t);
        Call {
            given: Given::Triples,
            steps: self.steps.iter().flat_map(triple).collect(),
            ..self.clone()
        }
    }

    fn words_a_step(&self) -> usize {
        match self.given {
            Given::Thresholds => 1,
            Given::Triples => 3,
        }
    }

    /// The call at each of its steps alone.
    pub fn singles(&self) -> Vec<Call> {
        let single = |step: &[u32]| Call {
            steps: step.to_vec(),
            ..self.clone()
        };
        self.steps.chunks(self.words_a_step()).map(single).collect()
    }

    fn triple(&self) -> Triple {
        parts::triples(&self.steps)[0]
    }

    /// No gap; a map call names one besides.
    pub fn named<'a>(&'a self, steps: Option<&'a [u32]>, outputs: usize) -> Named<'a> {
        Named {
            width: self.numbers.width,
            height: self.numbers.height,
            picture: self.picture.len(),
            attribute: match self.given {
                Given::Thresholds => Some(self.numbers.attribute),
                Given::Triples => None,
            },
            neighbours: self.numbers.neighbours,
            given: self.given,
            steps,
            gap: None,
            workspace: self.workspace,
            outputs: &self.outputs[..outputs],
        }
    }

    pub fn named_open(&self) -> Named<'_> {
        self.named(Some(&self.steps[..self.words_a_step()]), 1)
    }

    pub fn named_map<'a>(&'a self, which: MapCall, steps: &'a [u32]) -> Named<'a> {
        Named {
            gap: Some(self.gap),
            ..self.named(Some(steps), which.outputs())
        }
    }

    /// The same call on 255 less each grey.
    pub fn reversed(&self) -> Call {
        Call {
            picture: dark::reversed(&self.picture),
            ..self.clone()
        }
    }

    /// What is due of it in the workspace if it is accepted. A call given triples leaves areas as
    /// its attribute words.
    pub fn record(&self, truth: &dyn Truth) -> Record {
        match self.given {
            Given::Thresholds => truth.record(self.numbers.attribute),
            Given::Triples => truth.record(AREA),
        }
    }

    pub fn opening(&self, truth: &dyn Truth) -> Vec<u8> {
        match self.given {
            Given::Thresholds => truth.opening(self.numbers.attribute, self.steps[0]),
            Given::Triples => truth.triple_opening(self.triple()),
        }
    }

    /// At each gap.
    pub fn maps(&self, truth: &dyn Truth, gaps: &[u32]) -> Vec<Maps> {
        match self.given {
            Given::Thresholds => truth.maps(self.numbers.attribute, &self.steps, gaps),
            Given::Triples => truth.triple_maps(&parts::triples(&self.steps), gaps),
        }
    }

    pub fn open_name(&self) -> &'static str {
        match self.given {
            Given::Thresholds => "open",
            Given::Triples => "open triple",
        }
    }

    pub fn map_name(&self, which: MapCall) -> &'static str {
        which.name(self.given)
    }
}

/// What the definitions say of a picture under one neighbourhood, worked out at need.
pub trait Truth {
    fn record(&self, attribute: u32) -> Record;
    fn opening(&self, attribute: u32, threshold: u32) -> Vec<u8>;
    /// At each gap.
    fn maps(&self, attribute: u32, steps: &[u32], gaps: &[u32]) -> Vec<Maps>;
    fn triple_opening(&self, triple: Triple) -> Vec<u8>;
    /// At each gap.
    fn triple_maps(&self, triples: &[Triple], gaps: &[u32]) -> Vec<Maps>;
    /// What they say of 255 less each grey.
    fn reversed(&self) -> &dyn Truth;
}

pub struct ByDefinition {
    pub picture: Picture,
    pub levels: Levels,
    reversed: OnceCell<Box<ByDefinition>>,
}

impl ByDefinition {
    pub fn of(picture: &Picture, neighbours: u32) -> ByDefinition {
        ByDefinition {
            picture: picture.clone(),
            levels: Levels::of(picture, neighbours),
            reversed: OnceCell::new(),
        }
    }
}

impl Truth for ByDefinition {
    fn record(&self, attribute: u32) -> Record {
        self.levels.record(attribute)
    }
    fn opening(&self, attribute: u32, threshold: u32) -> Vec<u8> {
        self.levels.opening(attribute, threshold)
    }
    fn maps(&self, attribute: u32, steps: &[u32], gaps: &[u32]) -> Vec<Maps> {
        self.levels.maps(&self.picture, attribute, steps, gaps)
    }
    fn triple_opening(&self, triple: Triple) -> Vec<u8> {
        self.levels.triple_opening(triple)
    }
    fn triple_maps(&self, triples: &[Triple], gaps: &[u32]) -> Vec<Maps> {
        self.levels.triple_maps(&self.picture, triples, gaps)
    }
    fn reversed(&self) -> &dyn Truth {
        let reversed = || ByDefinition::of(&self.picture.reversed(), self.levels.neighbours);
        &**self.reversed.get_or_init(|| Box::new(reversed()))
    }
}

impl Truth for Forest {
    fn record(&self, attribute: u32) -> Record {
        Forest::record(self, attribute)
    }
    fn opening(&self, attribute: u32, threshold: u32) -> Vec<u8> {
        Forest::opening(self, attribute, threshold)
    }
    fn maps(&self, attribute: u32, steps: &[u32], gaps: &[u32]) -> Vec<Maps> {
        Forest::maps(self, attribute, steps, gaps)
    }
    fn triple_opening(&self, triple: Triple) -> Vec<u8> {
        Forest::triple_opening(self, triple)
    }
    fn triple_maps(&self, triples: &[Triple], gaps: &[u32]) -> Vec<Maps> {
        Forest::triple_maps(self, triples, gaps)
    }
    fn reversed(&self) -> &dyn Truth {
        Forest::reversed(self)
    }
}

pub fn first_fault(faults: impl IntoIterator<Item = Option<String>>) -> Option<String> {
    faults.into_iter().flatten().next()
}

/// The answer due, and what was due is counted.
fn due(report: &mut Report, name: &'static str, due: Result<u64, u32>) -> u64 {
    report.met(name, due.map_or_else(u64::from, |_| 0));
    due.unwrap_or_else(refused)
}

/// Hands back the workspace as the call left it.
pub fn check_build(
    report: &mut Report,
    random: &mut Random,
    call: &Call,
    truth: &dyn Truth,
) -> Option<Vec<u32>> {
    let picture = Lent::holding(random, &call.picture);
    let mut workspace = Lent::dirty(random, call.workspace);
    let answer = interface::build(picture.now(), call.numbers, workspace.now_mut());
    let outcome = refusal(&call.named(None, 0)).map(|()| truth.record(call.numbers.attribute));
    let words = outcome.as_ref().ok().map(Record::workspace);
    let answer_due = due(report, "build", outcome.map(|record| record.nodes()));
    let fault = first_fault([
        answer_fault(answer, answer_due),
        picture.fault("picture", None),
        workspace.fault("workspace", words.as_deref()),
    ]);
    report.check(fault, || shown("build", call));
    words.is_some().then(|| workspace.now().to_vec())
}

/// Hands back what an opening call wrote: the workspace, and the output for the next call of a chain.
pub fn check_opening(
    report: &mut Report,
    random: &mut Random,
    call: &Call,
    truth: &dyn Truth,
) -> Option<(Vec<u32>, Vec<u8>)> {
    let picture = Lent::holding(random, &call.picture);
    let mut workspace = Lent::dirty(random, call.workspace);
    let mut output = Lent::dirty(random, call.outputs[0]);
    let answer = made_open(call, picture.now(), workspace.now_mut(), output.now_mut());
    let outcome = refusal(&call.named_open());
    let accepted = outcome.is_ok();
    let words = accepted.then(|| call.record(truth).workspace());
    let opened = accepted.then(|| call.opening(truth));
    let answer_due = due(report, call.open_name(), outcome.map(|()| 0));
    let fault = first_fault([
        answer_fault(answer, answer_due),
        picture.fault("picture", None),
        workspace.fault("workspace", words.as_deref()),
        output.fault("output", opened.as_deref()),
    ]);
    report.check(fault, || shown(call.open_name(), call));
    accepted.then(|| (workspace.now().to_vec(), output.now().to_vec()))
}

/// The answer of an opening call that is lent these.
pub fn made_open(call: &Call, picture: &[u8], workspace: &mut [u32], output: &mut [u8]) -> u64 {
    match call.given {
        Given::Thresholds => {
            interface::open(picture, call.numbers, call.steps[0], workspace, output)
        }
        Given::Triples => {
            interface::open_triple(picture, call.numbers, call.triple(), workspace, output)
        }
    }
}

/// Hands back the output.
pub fn check_open(
    report: &mut Report,
    random: &mut Random,
    call: &Call,
    truth: &dyn Truth,
) -> Option<Vec<u8>> {
    check_opening(report, random, call, truth).map(|(_, output)| output)
}

/// What a map call writes, or has written.
#[derive(Clone, PartialEq)]
pub struct Written {
    pub workspace: Vec<u32>,
    pub maps: Maps,
    /// Of the combined call, else empty.
    pub contrast: Vec<i16>,
}

/// What a map call is lent for writing.
struct Runs {
    workspace: Lent<u32>,
    residue: Lent<u8>,
    index: Lent<u16>,
    contrast: Lent<i16>,
}

impl Runs {
    fn dirty(random: &mut Random, which: MapCall, call: &Call) -> Runs {
        let contrasts = call.outputs[..which.outputs()].get(2);
        Runs {
            workspace: Lent::dirty(random, call.workspace),
            residue: Lent::dirty(random, call.outputs[0]),
            index: Lent::dirty(random, call.outputs[1]),
            contrast: Lent::dirty(random, contrasts.copied().unwrap_or(0)),
        }
    }

    fn fault(&self, due: Option<&Written>) -> Option<String> {
        first_fault([
            self.workspace
                .fault("workspace", due.map(|w| &w.workspace[..])),
            self.residue.fault("residue", due.map(|w| &w.maps.0[..])),
            self.index.fault("index", due.map(|w| &w.maps.1[..])),
            self.contrast
                .fault("contrast", due.map(|w| &w.contrast[..])),
        ])
    }

    fn maps(&self) -> Maps {
        (self.residue.now().to_vec(), self.index.now().to_vec())
    }
}

/// One map call: the cause due, or all that it writes. Hands back what it was lent for writing.
fn check_one_map(
    report: &mut Report,
    random: &mut Random,
    which: MapCall,
    call: &Call,
    outcome: Result<&Written, u32>,
) -> Runs {
    let picture = Lent::holding(random, &call.picture);
    let steps = Lent::holding(random, &call.steps);
    let mut runs = Runs::dirty(random, which, call);
    let mapping = Mapping {
        picture: picture.now(),
        numbers: call.numbers,
        given: call.given,
        steps: steps.now(),
        gap: call.gap,
        workspace: runs.workspace.now_mut(),
        residue: runs.residue.now_mut(),
        index: runs.index.now_mut(),
        contrast: runs.contrast.now_mut(),
    };
    let answer = interface::map(which, mapping);
    let answer_due = due(report, call.map_name(which), outcome.map(|_| 0));
    let fault = first_fault([
        answer_fault(answer, answer_due),
        picture.fault("picture", None),
        steps.fault("steps", None),
        runs.fault(outcome.ok()),
    ]);
    report.check(fault, || shown(call.map_name(which), call));
    runs
}

/// What is due of an accepted map call on the picture that the truth is of.
fn written(which: MapCall, call: &Call, truth: &dyn Truth) -> Written {
    let maps = |side: &dyn Truth| call.maps(side, &[call.gap]).remove(0);
    let left = |side: &dyn Truth| call.record(side).workspace();
    match which {
        MapCall::Light => Written {
            workspace: left(truth),
            maps: maps(truth),
            contrast: Vec::new(),
        },
        MapCall::Dark => written(MapCall::Light, call, truth.reversed()),
        MapCall::Combined => {
            let (maps, contrast) = dark::combined(&maps(truth), &maps(truth.reversed()));
            Written {
                workspace: left(truth.reversed()),
                maps,
                contrast,
            }
        }
    }
}

/// Hands back all that the call wrote.
pub fn check_map(
    report: &mut Report,
    random: &mut Random,
    which: MapCall,
    call: &Call,
    truth: &dyn Truth,
) -> Option<Written> {
    let outcome = refusal(&call.named_map(which, &call.steps));
    let due = outcome.map(|()| written(which, call, truth));
    let due = due.as_ref().map_err(|cause| *cause);
    let runs = check_one_map(report, random, which, call, due);
    outcome.is_ok().then(|| Written {
        workspace: runs.workspace.now().to_vec(),
        maps: runs.maps(),
        contrast: runs.contrast.now().to_vec(),
    })
}

pub fn check_maps(report: &mut Report, random: &mut Random, call: &Call, truth: &dyn Truth) {
    for which in MAP_CALLS {
        check_map(report, random, which, call, truth);
    }
}

/// A good map call at each of these gaps; hands back the maps that were written. What is dark in 255
/// less each grey is what is light in the picture: a dark call on it is held to the same, and so is
/// the dark side of a combined call. One of these is made at every second gap, by the turn.
pub fn check_gaps(
    report: &mut Report,
    random: &mut Random,
    call: &Call,
    gaps: &[u32],
    truth: &dyn Truth,
    turn: usize,
) -> Vec<Maps> {
    let (mut call, mut reversed) = (call.clone(), call.reversed());
    let maps = call.maps(truth, gaps);
    let mut due = Written {
        workspace: call.record(truth).workspace(),
        maps: Maps::default(),
        contrast: Vec::new(),
    };
    let mut written = Vec::new();
    for ((turn, gap), light) in (turn..).zip(gaps).zip(maps) {
        (call.gap, reversed.gap) = (*gap, *gap);
        (due.maps, due.contrast) = (light, Vec::new());
        let runs = check_one_map(report, random, MapCall::Light, &call, Ok(&due));
        written.push(runs.maps());
        if turn % 4 == 0 {
            check_one_map(report, random, MapCall::Dark, &reversed, Ok(&due));
        } else if turn % 4 == 2 {
            let beside = call.maps(truth.reversed(), &[*gap]);
            (due.maps, due.contrast) = dark::combined(&beside[0], &due.maps);
            check_one_map(report, random, MapCall::Combined, &reversed, Ok(&due));
        }
    }
    written
}

pub fn shown(name: &str, call: &Call) -> String {
    if call.picture.len() > 400 {
        let (bytes, words) = (call.picture.len(), call.steps.len());
        let (numbers, given, gap) = (call.numbers, call.given, call.gap);
        let lent = (call.workspace, call.outputs);
        return format!(
            "{name}: {bytes} bytes, {numbers:?}, {given:?} in {words} words, gap {gap}, \
             lent {lent:?}"
        );
    }
    format!("{name}: {call:?}")
}

/// A threshold near one of the attributes of the picture, or any in the range.
pub fn threshold(random: &mut Random, attributes: &[u32]) -> u32 {
    let t = match random.below(10) {
        0 => random.between(1, MOST_THRESHOLD as usize) as u32,
        1 => random.pick(&[1, 2, MOST_THRESHOLD - 1, MOST_THRESHOLD]),
        2 => random.between(1, 40) as u32,
        _ => random.pick(attributes) + random.below(2) as u32,
    };
    t.clamp(1, MOST_THRESHOLD)
}

pub fn step_list(random: &mut Random, attributes: &[u32]) -> Vec<u32> {
    let wanted = match random.below(40) {
        0 => MOST_STEPS,
        1 => random.between(100, MOST_STEPS),
        2..=5 => 1,
        _ => random.between(1, 12),
    };
    if wanted > 12 && random.chance(1, 2) {
        let first = random.between(1, 5) as u32;
        return (first..first + wanted as u32).collect();
    }
    let mut steps: Vec<u32> = (0..wanted).map(|_| threshold(random, attributes)).collect();
    steps.sort_unstable();
    steps.dedup();
    while steps.len() < wanted && wanted > 12 {
        let further = random.between(1, MOST_THRESHOLD as usize) as u32;
        if let Err(at) = steps.binary_search(&further) {
            steps.insert(at, further);
        }
    }
    steps
}

/// Any gap in its range; small ones and the ends are frequent.
pub fn any_gap(random: &mut Random) -> u32 {
    match random.below(10) {
        0 => random.between(0, MOST_GAP as usize) as u32,
        1 => random.pick(&[MOST_GAP - 1, MOST_GAP]),
        _ => random.below(6) as u32,
    }
}

/// Any attribute, and either number of neighbours.
pub fn any_named(random: &mut Random) -> (u32, u32) {
    (random.between(1, 3) as u32, random.pick(&NEIGHBOURHOODS))
}

/// A small picture, and a call that is good.
pub fn any_good(random: &mut Random, case: usize) -> (Picture, Call) {
    let picture = pictures::small(random, case);
    let (attribute, neighbours) = any_named(random);
    let steps = step_list(random, &[1, 2, 3, 5, 8, 13, 40]);
    let call = Call {
        gap: any_gap(random),
        ..Call::good(&picture, attribute, neighbours, steps)
    };
    (picture, call)
}

type Check = fn(&mut Report, &mut Random, &Call, &dyn Truth);

/// Of a call given thresholds; opening and maps by the same call given triples too.
pub const CHECKS: [Check; 5] = [
    |report, random, call, truth| drop(check_build(report, random, call, truth)),
    |report, random, call, truth| drop(check_open(report, random, call, truth)),
    check_maps,
    |report, random, call, truth| {
        check_open(report, random, &call.by_triples(), truth);
    },
    |report, random, call, truth| check_maps(report, random, &call.by_triples(), truth),
];

/// Sets of causes to be made to apply: each alone, each pair, all.
fn damages() -> Vec<Vec<u32>> {
    let mut sets = vec![ORDER.into_iter().rev().collect()];
    for (i, later) in ORDER.into_iter().enumerate() {
        sets.push(vec![later]);
        sets.extend(ORDER[..i].iter().map(|earlier| vec![later, *earlier]));
    }
    sets
}

fn check_good(
    report: &mut Report,
    random: &mut Random,
    picture: &Picture,
    truth: &ByDefinition,
    attribute: u32,
) {
    let values = attribute_values(&truth.levels, attribute);
    let steps = step_list(random, &values);
    let call = Call::good(picture, attribute, truth.levels.neighbours, steps);
    check_build(report, random, &call, truth);
    let gaps = [0, any_gap(random)];
    let turn = random.below(4);
    let maps = check_gaps(report, random, &call, &gaps, truth, turn);
    let some = maps[0].0.iter().any(|fall| *fall > 0);
    report.met("residues", u64::from(some));
    report.met("joined", u64::from(maps[0] != maps[1]));
    let single = vec![threshold(random, &values)];
    let call = Call::good(picture, attribute, truth.levels.neighbours, single);
    check_open(report, random, &call, truth);
}

/// Triples near the sizes of the picture's nodes.
fn check_good_triples(
    report: &mut Report,
    random: &mut Random,
    picture: &Picture,
    truth: &ByDefinition,
) {
    let neighbours = truth.levels.neighbours;
    let sizes = node_sizes(&truth.levels);
    let call = Call::triples(picture, neighbours, &triple_list(random, &sizes));
    let gaps = [0, any_gap(random)];
    let turn = random.below(4);
    check_gaps(report, random, &call, &gaps, truth, turn);
    let call = Call::triples(picture, neighbours, &[triple(random, &sizes)]);
    check_open(report, random, &call, truth);
}

/// The attributes of all nodes, 1,048,577 only once, however many of them the frame cuts.
pub fn attribute_values(levels: &Levels, attribute: u32) -> Vec<u32> {
    let of = |c: &Component| c.attributes[attribute as usize - 1];
    let visible = levels.nodes().map(of).filter(|value| *value != CUT);
    visible.chain([CUT]).collect()
}

fn check_damaged(
    report: &mut Report,
    random: &mut Random,
    picture: &Picture,
    truth: &ByDefinition,
    causes: &[u32],
) {
    let attribute = random.between(1, 3) as u32;
    let values = attribute_values(&truth.levels, attribute);
    let steps = step_list(random, &values);
    let good = Call {
        gap: any_gap(random),
        ..Call::good(picture, attribute, truth.levels.neighbours, steps)
    };
    for check in CHECKS {
        let mut damaged = good.clone();
        for cause in causes {
            damage::apply(random, &mut damaged, *cause);
        }
        check(report, random, &damaged, truth);
    }
    if causes.contains(&4) {
        let mut damaged = good.clone();
        for cause in causes.iter().filter(|cause| **cause != 4) {
            damage::apply(random, &mut damaged, *cause);
        }
        damage::list_order(random, &mut damaged);
        check_maps(report, random, &damaged, truth);
        check_maps(report, random, &damaged.by_triples(), truth);
    }
}

/// The two implementations here agree.
fn check_fast(report: &mut Report, random: &mut Random, truth: &ByDefinition) {
    let ByDefinition {
        picture, levels, ..
    } = truth;
    let forest = Forest::of(picture, levels.neighbours);
    let attribute = random.between(1, 3) as u32;
    let values = attribute_values(levels, attribute);
    let steps = step_list(random, &values);
    let triples = triple_list(random, &node_sizes(levels));
    let gaps = [0, any_gap(random)];
    let neighbours = levels.neighbours;
    let calls = [
        Call::good(picture, attribute, neighbours, steps),
        Call::triples(picture, neighbours, &triples),
    ];
    for call in calls {
        let same = call.record(truth) == call.record(&forest)
            && call.opening(truth) == call.opening(&forest)
            && call.maps(truth, &gaps) == call.maps(&forest, &gaps);
        let fault = (!same).then(|| String::from("fast and plain implementation differ"));
        report.check(fault, || shown(&format!("gaps {gaps:?}"), &call));
    }
}

pub fn run(report: &mut Report, seed: u64, cases: usize) {
    let damages = damages();
    for case in 0..cases {
        let mut random = Random::for_case(seed, 1, case as u64);
        let picture = pictures::small(&mut random, case);
        for neighbours in NEIGHBOURHOODS {
            let truth = ByDefinition::of(&picture, neighbours);
            for attribute in 1..=3 {
                check_good(report, &mut random, &picture, &truth, attribute);
            }
            check_good_triples(report, &mut random, &picture, &truth);
            let causes = &damages[case % damages.len()];
            check_damaged(report, &mut random, &picture, &truth, causes);
            check_fast(report, &mut random, &truth);
        }
    }
    report.check_all_met("build", &[0, 1, 2, 3, 17, 5]);
    report.check_all_met("open", &[0, 1, 2, 3, 17, 4, 5, 6]);
    report.check_all_met("open triple", &[0, 1, 2, 17, 4, 5, 6]);
    for which in MAP_CALLS {
        let name = which.name(Given::Thresholds);
        report.check_all_met(name, &[0, 1, 2, 3, 17, 4, 19, 5, 6]);
        let name = which.name(Given::Triples);
        report.check_all_met(name, &[0, 1, 2, 17, 4, 19, 5, 6]);
    }
    println!("  maps of good calls without residues (0) or with some (1):");
    report.check_all_met("residues", &[0, 1]);
    println!("  with another gap the same maps (0) or others (1):");
    report.check_all_met("joined", &[0, 1]);
}
