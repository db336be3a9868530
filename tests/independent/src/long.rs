// Runs that are too long by 2^32 entries and such. A call that looked at the low 32 bits of a
// length, or of its bytes, would find it right.

use crate::calls::{any_good, first_fault, made_open, shown, Call};
use crate::causes::{refusal, view_refusal, Named, ORDER};
use crate::damage;
use crate::files::{damage_read, damage_write, good_file, good_writing, read_fault, sets, Writing};
use crate::interface::{self, Given, MapCall, Mapping, View, MAP_CALLS};
use crate::pgm::{self, Head};
use crate::random::Random;
use crate::report::{self, answer_fault, refused, Report};
use crate::vast::Vast;

/// 2^30 words and 2^31 entries of 16 bits have 2^32 bytes.
const SURPLUSES: [usize; 5] = [1 << 30, 1 << 31, 1 << 32, 1 << 33, 3 << 32];

/// How many entries too many each run of a call has: every choice of one run or more, and for each
/// of its runs every surplus.
fn choices<const RUNS: usize>() -> Vec<[usize; RUNS]> {
    let mut choices = Vec::new();
    for chosen in 1..1 << RUNS {
        for turn in 0..SURPLUSES.len() {
            let surplus = |run: usize| SURPLUSES[(turn + run) % SURPLUSES.len()];
            choices.push(std::array::from_fn(|run| match chosen >> run & 1 {
                0 => 0,
                _ => surplus(run),
            }));
        }
    }
    choices
}

/// Those of one run and those of all.
fn few_choices<const RUNS: usize>() -> Vec<[usize; RUNS]> {
    let long = |surplus: &[usize; RUNS]| surplus.iter().filter(|more| **more > 0).count();
    let mut choices = choices();
    choices.retain(|surplus| [1, RUNS].contains(&long(surplus)));
    choices
}

/// The cause due; a call with a run too long is never accepted.
fn due(report: &mut Report, name: &'static str, named: &Named) -> u64 {
    let cause = refusal(named).expect_err("a run is too long");
    report.met(name, u64::from(cause));
    refused(cause)
}

fn check_build(report: &mut Report, random: &mut Random, call: &Call, surplus: [usize; 2]) {
    let picture = Vast::holding(random, &call.picture, surplus[0]);
    let mut workspace = Vast::dirty(random, call.workspace, surplus[1]);
    let answer = interface::build(picture.now(), call.numbers, workspace.now_mut());
    let named = Named {
        picture: picture.now().len(),
        workspace: workspace.now().len(),
        ..call.named(None, 0)
    };
    let fault = first_fault([
        answer_fault(answer, due(report, "long build", &named)),
        picture.fault("picture", &[]),
        workspace.fault("workspace", &[]),
    ]);
    report.check(fault, || {
        format!("surplus {surplus:?}, {}", shown("build", call))
    });
}

fn check_open(report: &mut Report, random: &mut Random, call: &Call, surplus: [usize; 3]) {
    let picture = Vast::holding(random, &call.picture, surplus[0]);
    let mut workspace = Vast::dirty(random, call.workspace, surplus[1]);
    let mut output = Vast::dirty(random, call.outputs[0], surplus[2]);
    let answer = made_open(call, picture.now(), workspace.now_mut(), output.now_mut());
    let named = Named {
        picture: picture.now().len(),
        workspace: workspace.now().len(),
        outputs: &[output.now().len()],
        ..call.named_open()
    };
    let name = match call.given {
        Given::Thresholds => "long open",
        Given::Triples => "long open triple",
    };
    let fault = first_fault([
        answer_fault(answer, due(report, name, &named)),
        picture.fault("picture", &[]),
        workspace.fault("workspace", &[]),
        output.fault("output", &[]),
    ]);
    report.check(fault, || {
        format!("surplus {surplus:?}, {}", shown(call.open_name(), call))
    });
}

fn name(which: MapCall, given: Given) -> &'static str {
    match (which, given) {
        (MapCall::Light, Given::Thresholds) => "long map",
        (MapCall::Dark, Given::Thresholds) => "long dark map",
        (MapCall::Combined, Given::Thresholds) => "long combined map",
        (MapCall::Light, Given::Triples) => "long map triples",
        (MapCall::Dark, Given::Triples) => "long dark map triples",
        (MapCall::Combined, Given::Triples) => "long combined map triples",
    }
}

/// The runs are the picture, the steps, the workspace, and the outputs of this map call.
fn check_map<const RUNS: usize>(
    report: &mut Report,
    random: &mut Random,
    which: MapCall,
    call: &Call,
    surplus: [usize; RUNS],
) {
    let outputs = &surplus[3..];
    let contrasts = outputs
        .get(2)
        .map_or((0, 0), |more| (call.outputs[2], *more));
    let picture = Vast::holding(random, &call.picture, surplus[0]);
    let steps = Vast::holding(random, &call.steps, surplus[1]);
    let mut workspace = Vast::dirty(random, call.workspace, surplus[2]);
    let mut residue = Vast::dirty(random, call.outputs[0], outputs[0]);
    let mut index = Vast::dirty(random, call.outputs[1], outputs[1]);
    let mut contrast = Vast::dirty(random, contrasts.0, contrasts.1);
    let mapping = Mapping {
        picture: picture.now(),
        numbers: call.numbers,
        given: call.given,
        steps: steps.now(),
        gap: call.gap,
        workspace: workspace.now_mut(),
        residue: residue.now_mut(),
        index: index.now_mut(),
        contrast: contrast.now_mut(),
    };
    let answer = interface::map(which, mapping);
    let lengths = [residue.now().len(), index.now().len(), contrast.now().len()];
    let named = Named {
        picture: picture.now().len(),
        workspace: workspace.now().len(),
        outputs: &lengths[..which.outputs()],
        ..call.named_map(which, steps.now())
    };
    let fault = first_fault([
        answer_fault(answer, due(report, name(which, call.given), &named)),
        picture.fault("picture", &[]),
        steps.fault("steps", &[]),
        workspace.fault("workspace", &[]),
        residue.fault("residue", &[]),
        index.fault("index", &[]),
        contrast.fault("contrast", &[]),
    ]);
    report.check(fault, || {
        format!("surplus {surplus:?}, {}", shown(call.map_name(which), call))
    });
}

type Check<const RUNS: usize> = fn(&mut Report, &mut Random, &Call, [usize; RUNS]);

/// Runs too long in calls that are good otherwise, and in calls that these causes apply to.
fn on_pictures<const RUNS: usize>(
    report: &mut Report,
    random: &mut Random,
    check: Check<RUNS>,
    causes: &[u32],
    choices: Vec<[usize; RUNS]>,
) {
    for surplus in choices {
        for (case, causes) in sets(causes).into_iter().enumerate() {
            let (_, mut call) = any_good(random, case);
            for cause in causes {
                damage::apply(random, &mut call, cause);
            }
            check(report, random, &call, surplus);
        }
    }
}

/// The same with calls given triples. A list that is too long by three times 2^32 words has whole
/// triples.
fn on_triples(report: &mut Report, random: &mut Random) {
    let without_attribute: Vec<u32> = ORDER.into_iter().filter(|cause| *cause != 3).collect();
    let open: Check<3> =
        |report, random, call, more| check_open(report, random, &call.by_triples(), more);
    let light: Check<5> = |report, random, call, more| {
        check_map(report, random, MapCall::Light, &call.by_triples(), more)
    };
    let dark: Check<5> = |report, random, call, more| {
        check_map(report, random, MapCall::Dark, &call.by_triples(), more)
    };
    let combined: Check<6> = |report, random, call, more| {
        check_map(report, random, MapCall::Combined, &call.by_triples(), more)
    };
    on_pictures(report, random, open, &without_attribute, few_choices());
    on_pictures(report, random, light, &without_attribute, few_choices());
    on_pictures(report, random, dark, &without_attribute, few_choices());
    on_pictures(report, random, combined, &without_attribute, few_choices());
    report.check_all_met("long open triple", &[1, 2, 17, 4, 5, 6]);
    for which in MAP_CALLS {
        let name = name(which, Given::Triples);
        report.check_all_met(name, &[1, 2, 17, 4, 19, 5, 6]);
    }
}

/// Maps too long for a viewer, with good numbers, a wrong side or row, and wrong sides.
fn on_viewers(report: &mut Report, random: &mut Random) {
    for surplus in choices::<2>() {
        for turn in 0..24 {
            let (width, height) = (random.between(1, 40) as u32, random.between(1, 40) as u32);
            let lent = (width * height) as usize;
            let maps = surplus.map(|more| Vast::dirty(random, lent, more));
            let view = View {
                width: [width, 0, 4097][turn % 3],
                height,
                row: [height - 1, height][turn / 3 % 2],
                side: [1, 2, 0, 3][turn / 6],
            };
            let answer = interface::view_row(maps[0].now(), maps[1].now(), view);
            let lengths = [0, 1].map(|side| maps[side].now().len());
            let cause = view_refusal(view, lengths).expect_err("a map is too long");
            report.met("long view", u64::from(cause));
            let fault = first_fault([
                answer_fault(answer, refused(cause)),
                maps[0].fault("light map", &[]),
                maps[1].fault("dark map", &[]),
            ]);
            report.check(fault, || format!("surplus {surplus:?}, {view:?}"));
        }
    }
}

/// Asks for the picture of this number.
fn check_read(
    report: &mut Report,
    random: &mut Random,
    file: &Vast<u8>,
    number: u64,
    due: Result<Head, u32>,
) {
    report.met("long read", due.map_or_else(u64::from, |_| 0));
    let fault = first_fault([
        read_fault(random, file.now(), number, due),
        file.fault("file", &[]),
    ]);
    report.check(fault, || {
        format!("read {number} of {}", report::shown(file.now()))
    });
}

fn on_files(report: &mut Report, random: &mut Random) {
    for case in 0..14 {
        for surplus in SURPLUSES {
            for causes in sets(&[12, 11, 1, 10, 9, 8]) {
                let mut file = good_file(random, case);
                for cause in causes {
                    damage_read(random, &mut file, cause);
                }
                let file = Vast::holding(random, &file.bytes(), surplus);
                check_read(report, random, &file, 1, pgm::read(file.now(), 1));
            }
        }
    }
}

/// A file with a comment of so many bytes, all 0, between its start and its end.
fn with_comment(start: &[u8], comment: usize, end: &[u8]) -> Vast<u8> {
    let mut file = Vast::zero(start.len(), comment + end.len());
    file.put(0, start);
    file.put(start.len() + comment, end);
    file
}

/// A picture whose comment has 2^32 bytes, so that its raster starts beyond them, and three pictures
/// of which the second has a comment: these have 2^32 bytes after the first raster, or one less.
fn on_long_comments(report: &mut Report, random: &mut Random) {
    let bytes = 1 << 32;
    let head = |width, height, maximum, raster| Head {
        width,
        height,
        maximum,
        raster,
    };
    let (start, end) = (b"P5\n#", b"\n3 2\n255\n\x00\x0a#\x0d\xff ");
    let file = with_comment(start, bytes, end);
    let due = head(3, 2, 255, file.now().len() - 6);
    check_read(report, random, &file, 1, Ok(due));

    let first = b"P5\n3 2\n255\n\x00\x0a#\x0d\xff P5\n#";
    let further = b"\n2 1\n7\n\x07\x00P5 1 2 9\n\x08\x09";
    let comment = bytes - start.len() - further.len();
    let file = with_comment(first, comment, further);
    let due = head(1, 2, 9, file.now().len() - 2);
    check_read(report, random, &file, 3, Ok(due));
    let file = with_comment(first, comment - 1, further);
    check_read(report, random, &file, 1, Ok(head(3, 2, 255, 11)));

    // What stands beyond 2^32 is judged though the first picture is named, and then the number.
    check_read(report, random, &file, 4, Err(18));
    for (end, cause) in [(&b"\x08"[..], 11), (b"\x08\x0a", 12)] {
        let further = [b"\n2 1\n7\n\x07\x00P5 1 2 9\n", end].concat();
        let file = with_comment(first, bytes, &further);
        check_read(report, random, &file, 1, Err(cause));
    }
}

/// A longer buffer is as good as another; a picture that is too long is refused.
fn check_write(report: &mut Report, random: &mut Random, call: &Writing, surplus: [usize; 2]) {
    let (width, height, maximum) = (call.width, call.height, call.maximum);
    let picture = Vast::holding(random, &call.picture, surplus[0]);
    let mut buffer = Vast::dirty(random, call.room, surplus[1]);
    let answer = interface::write_pgm(picture.now(), width, height, maximum, buffer.now_mut());
    let due = pgm::write(picture.now(), width, height, maximum, buffer.now().len());
    let cause = due.as_ref().err().copied();
    report.met("long write", cause.map_or(0, u64::from));
    let file = due.unwrap_or_default();
    let fault = first_fault([
        answer_fault(answer, cause.map_or(file.len() as u64, refused)),
        picture.fault("picture", &[]),
        buffer.fault("buffer", &file),
    ]);
    report.check(fault, || format!("surplus {surplus:?}, write {call:?}"));
}

fn on_buffers(report: &mut Report, random: &mut Random) {
    for case in 0..7 {
        for surplus in choices() {
            for causes in sets(&[7, 12, 10, 2, 1]) {
                let mut call = good_writing(random, case);
                for cause in causes {
                    damage_write(random, &mut call, cause);
                }
                check_write(report, random, &call, surplus);
            }
        }
    }
}

pub fn run(report: &mut Report, seed: u64) {
    let mut random = Random::for_case(seed, 8, 0);
    let without_gap: Vec<u32> = ORDER.into_iter().filter(|cause| *cause != 19).collect();
    on_pictures(report, &mut random, check_build, &without_gap, choices());
    on_pictures(report, &mut random, check_open, &without_gap, choices());
    let light: Check<5> =
        |report, random, call, more| check_map(report, random, MapCall::Light, call, more);
    let dark: Check<5> =
        |report, random, call, more| check_map(report, random, MapCall::Dark, call, more);
    let combined: Check<6> =
        |report, random, call, more| check_map(report, random, MapCall::Combined, call, more);
    on_pictures(report, &mut random, light, &ORDER, choices());
    on_pictures(report, &mut random, dark, &ORDER, few_choices());
    on_pictures(report, &mut random, combined, &ORDER, few_choices());
    on_triples(report, &mut random);
    on_viewers(report, &mut random);
    on_files(report, &mut random);
    on_long_comments(report, &mut random);
    on_buffers(report, &mut random);
    report.check_all_met("long build", &[1, 2, 3, 17, 5]);
    report.check_all_met("long open", &[1, 2, 3, 17, 4, 5, 6]);
    for which in MAP_CALLS {
        let name = name(which, Given::Thresholds);
        report.check_all_met(name, &[1, 2, 3, 17, 4, 19, 5, 6]);
    }
    report.check_all_met("long view", &[1, 6]);
    report.check_all_met("long read", &[0, 8, 9, 10, 1, 11, 12, 18]);
    report.check_all_met("long write", &[0, 1, 2, 10, 12]);
}
