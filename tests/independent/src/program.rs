// The program `basin`, run in a folder of its own for each case; what it prints is held to the
// scope. It prints to standard output alone: an answer or a refusal, and nothing else. A refusal is
// an answer like another, so that every run ends with status 0. Of several pictures in its file it
// takes the first.

use crate::calls::step_list;
use crate::pgm;
use crate::pictures;
use crate::random::Random;
use crate::report::{shown, Report};
use crate::steps;
use std::fs;
use std::io;
use std::path::{Path, PathBuf};
use std::process::{Command, Output};

/// What stands under a file's name.
#[derive(Clone, Debug)]
enum Entry {
    File(Vec<u8>),
    Folder,
    Nothing,
}

impl Entry {
    fn readable(&self) -> Option<&[u8]> {
        match self {
            Entry::File(bytes) => Some(bytes),
            _ => None,
        }
    }

    fn shown(&self) -> String {
        self.readable().map_or(format!("{self:?}"), shown)
    }

    fn place(&self, path: &Path) -> io::Result<()> {
        match self {
            Entry::File(bytes) => fs::write(path, bytes),
            Entry::Folder => fs::create_dir(path),
            Entry::Nothing => Ok(()),
        }
    }
}

fn basin_file(random: &mut Random, case: usize) -> Vec<u8> {
    let picture = pictures::small(random, case);
    let (width, height) = (picture.width as u32, picture.height as u32);
    pgm::write(&picture.greys, width, height, 255, usize::MAX).expect("a good picture")
}

fn steps_file(random: &mut Random) -> Vec<u8> {
    let word = random.pick(&["area", "height", "width"]);
    let list = step_list(random, &[1, 2, 3, 5, 8, 13, 40]);
    let mut text = format!("attribute\t{word}\n");
    for t in list {
        text += &format!("step\t{t}\n");
    }
    text.into_bytes()
}

/// Steps files that are refused, or are just not.
const ODD_STEPS: [&[u8]; 34] = [
    b"",
    b"\n",
    b"attribute\tarea\n",
    b"attribute\tarea",
    b"attribute\tarea\nstep\t1",
    b"attribute\tarea\r\nstep\t1\r\n",
    b"attribute\tarea\n\nstep\t1\n",
    b"attribute\tarea\nattribute\tarea\nstep\t1\n",
    b"attribute\tarea\nstep\t1\n\n",
    b"attribute\tarea\nstep\t1\nx",
    b"attribute area\nstep\t1\n",
    b"attribute\t\nstep\t1\n",
    b"attribute\tArea\nstep\t1\n",
    b"attribute\tvolume\nstep\t1\n",
    b"attribute\tvolume\nstep\t2\nstep\t1\n",
    b"attribute\tvolume\n",
    b"attribute\tvolume\nstep\t1",
    b"attribute\tvolume\nstep\t01\n",
    b"attribute\tabcdefgh\nstep\t1\n",
    b"attribute\tabcdefghi\nstep\t1\n",
    b"attribute\tarea\nstep\t0\n",
    b"attribute\tarea\nstep\t0\nstep\t01\n",
    b"attribute\tarea\nstep\t01\n",
    b"attribute\tarea\nstep\t00\n",
    b"attribute\tarea\nstep\t\n",
    b"attribute\tarea\nstep\t1048577\n",
    b"attribute\tarea\nstep\t1048578\n",
    b"attribute\tarea\nstep\t9999999\n",
    b"attribute\tarea\nstep\t10000000\n",
    b"attribute\tarea\nstep\t2\nstep\t2\n",
    b"attribute\tarea\nstep\t3\nstep\t2\n",
    b"attribute\tarea\nstep\t2 \n",
    b"attribute\tarea\nstep\t-2\n",
    b"step\t1\nattribute\tarea\n",
];

/// Pictures that are refused, each cause of the reader at least once.
const ODD_PICTURES: [&[u8]; 14] = [
    b"",
    b"P",
    b"P4\n1 1\n255\nx",
    b"P5",
    b"P5\n1 1\n255",
    b"P5\n1 1\n#\n255#\nx",
    b"P5\n1 1\n0\nx",
    b"P5\n0 0\n256\n",
    b"P5\n0 1\n255\n",
    b"P5\n4097 1\n255\nx",
    b"P5\n1 1\n255\n",
    b"P5\n1 1\n255\nxx",
    b"P5\n1 1\n9\n\x0a",
    b"P5\n2049 1\n1\n",
];

/// The scope's example, its two-row case, in which the corners would count with 8 neighbours, and
/// its P, whose residues any gap above 0 would join, each set in a ring; and the example without
/// one, which is all frame.
const EXAMPLES: [(&[u8], &[u8], &str); 4] = [
    (
        b"P5\n5 3\n255\n\x0a\x0a\x0a\x0a\x0a\x0a\x0a\x28\x0a\x0a\x0a\x0a\x0a\x0a\x0a",
        b"attribute\tarea\nstep\t1\nstep\t2\n",
        "row\tcol\tgrey\tresidue\tindex\n\
         0\t0\t10\t0\t0\n0\t1\t10\t0\t0\n0\t2\t10\t0\t0\n0\t3\t10\t0\t0\n0\t4\t10\t0\t0\n\
         1\t0\t10\t0\t0\n1\t1\t10\t0\t0\n1\t2\t40\t30\t2\n1\t3\t10\t0\t0\n1\t4\t10\t0\t0\n\
         2\t0\t10\t0\t0\n2\t1\t10\t0\t0\n2\t2\t10\t0\t0\n2\t3\t10\t0\t0\n2\t4\t10\t0\t0\n",
    ),
    (
        b"P5\n4 4\n255\n\0\0\0\0\0\x09\0\0\0\0\x09\0\0\0\0\0",
        b"attribute\tarea\nstep\t2\n",
        "row\tcol\tgrey\tresidue\tindex\n\
         0\t0\t0\t0\t0\n0\t1\t0\t0\t0\n0\t2\t0\t0\t0\n0\t3\t0\t0\t0\n\
         1\t0\t0\t0\t0\n1\t1\t9\t9\t1\n1\t2\t0\t0\t0\n1\t3\t0\t0\t0\n\
         2\t0\t0\t0\t0\n2\t1\t0\t0\t0\n2\t2\t9\t9\t1\n2\t3\t0\t0\t0\n\
         3\t0\t0\t0\t0\n3\t1\t0\t0\t0\n3\t2\t0\t0\t0\n3\t3\t0\t0\t0\n",
    ),
    (
        b"P5\n7 3\n255\n\x0a\x0a\x0a\x0a\x0a\x0a\x0a\x0a\x0a\x1e\x14\x32\x0a\x0a\
          \x0a\x0a\x0a\x0a\x0a\x0a\x0a",
        b"attribute\tarea\nstep\t2\nstep\t4\n",
        "row\tcol\tgrey\tresidue\tindex\n\
         0\t0\t10\t0\t0\n0\t1\t10\t0\t0\n0\t2\t10\t0\t0\n0\t3\t10\t0\t0\n\
         0\t4\t10\t0\t0\n0\t5\t10\t0\t0\n0\t6\t10\t0\t0\n\
         1\t0\t10\t0\t0\n1\t1\t10\t0\t0\n1\t2\t30\t10\t2\n1\t3\t20\t10\t2\n\
         1\t4\t50\t30\t1\n1\t5\t10\t0\t0\n1\t6\t10\t0\t0\n\
         2\t0\t10\t0\t0\n2\t1\t10\t0\t0\n2\t2\t10\t0\t0\n2\t3\t10\t0\t0\n\
         2\t4\t10\t0\t0\n2\t5\t10\t0\t0\n2\t6\t10\t0\t0\n",
    ),
    (
        b"P5\n3 1\n255\n\x0a\x28\x0a",
        b"attribute\tarea\nstep\t1\nstep\t2\n",
        "row\tcol\tgrey\tresidue\tindex\n0\t0\t10\t0\t0\n0\t1\t40\t0\t0\n0\t2\t10\t0\t0\n",
    ),
];

/// Lists that are one step too long, or just not, some with a fault in their last line.
fn long_steps(random: &mut Random) -> Vec<u8> {
    let count = random.pick(&[255, 256, 257, 300]);
    let mut text = String::from("attribute\tarea\n");
    for t in 1..=count {
        text += &format!("step\t{t}\n");
    }
    text += random.pick(&["", "", "step\t05\n", "step\t400"]);
    text.into_bytes()
}

fn mutate(random: &mut Random, file: &mut Vec<u8>) {
    if file.is_empty() {
        return;
    }
    let at = random.below(file.len());
    let byte = if random.chance(1, 3) {
        random.byte()
    } else {
        random.pick(b"\t\n0159aestz ")
    };
    match random.below(4) {
        0 => file[at] = byte,
        1 => file.insert(at, byte),
        2 => drop(file.remove(at)),
        _ => file.truncate(at),
    }
}

/// A file that is as long as may be, or a byte longer: a comment fills it up.
fn filled(random: &mut Random, raster: usize) -> Vec<u8> {
    let length = random.pick(&[4095, 4096, 4097, 4098, 9000]);
    let (start, end) = ("P5\n#", format!("\n{raster} 1\n255\n"));
    let fill = length - raster - start.len() - end.len();
    [
        start.as_bytes(),
        &vec![b'x'; fill],
        end.as_bytes(),
        &vec![7; raster],
    ]
    .concat()
}

/// A picture of one row and one grey.
fn row(width: usize) -> Vec<u8> {
    pgm::write(&vec![7; width], width as u32, 1, 255, usize::MAX).expect("a good picture")
}

/// A few pictures end to end, of which some have about as many pixels as the program takes; half of
/// the files are damaged.
fn burst(random: &mut Random, case: usize) -> Vec<u8> {
    let mut file = Vec::new();
    for k in 0..random.between(2, 4) {
        file.extend(match random.below(6) {
            0 => row(random.pick(&[2047, 2048, 2049])),
            _ => basin_file(random, case + k),
        });
    }
    if random.chance(1, 2) {
        mutate(random, &mut file);
    }
    file
}

/// A picture about as large as the program takes.
fn bound(random: &mut Random) -> Vec<u8> {
    let (width, height) = random.pick(&[(2048, 1), (1, 2048), (2049, 1), (64, 32), (683, 3)]);
    let greys: Vec<u8> = (0..width * height)
        .map(|_| random.pick(&[3, 9, 200]))
        .collect();
    pgm::write(&greys, width, height, 255, usize::MAX).expect("a good picture")
}

/// A file that is good, damaged or too long, or none: kind 0 to 7.
fn basin_entry(random: &mut Random, case: usize, kind: usize) -> Entry {
    let mut file = basin_file(random, case);
    match kind {
        0 => mutate(random, &mut file),
        1 => {
            let raster = random.pick(&[1, 100, 2048, 2049]);
            file = filled(random, raster);
        }
        2 => file = bound(random),
        3 => return unreadable(random),
        4 => file.resize(5000, 0),
        5 => file = burst(random, case),
        _ => {}
    }
    Entry::File(file)
}

fn steps_entry(random: &mut Random, kind: usize) -> Entry {
    let mut file = steps_file(random);
    match kind {
        0 => mutate(random, &mut file),
        1 => file = random.pick(&ODD_STEPS).to_vec(),
        2 => file = long_steps(random),
        3 => return unreadable(random),
        4 => {
            let length = random.pick(&[4096, 4097, 5000]);
            file.resize(length, b'\n');
        }
        _ => {}
    }
    Entry::File(file)
}

fn unreadable(random: &mut Random) -> Entry {
    if random.chance(1, 2) {
        Entry::Folder
    } else {
        Entry::Nothing
    }
}

/// What is wrong with a run: its standard output, its standard error, and how it ended.
fn output_fault(output: &Output, due: &[u8]) -> Option<String> {
    let faults = [
        (output.stdout != due)
            .then(|| format!("printed {}\n  due {}", shown(&output.stdout), shown(due))),
        (!output.stderr.is_empty())
            .then(|| format!("standard error holds {}", shown(&output.stderr))),
        (!output.status.success()).then(|| format!("ended with {}", output.status)),
    ];
    let faults: Vec<String> = faults.into_iter().flatten().collect();
    (!faults.is_empty()).then(|| faults.join("\n  "))
}

fn file(bytes: &[u8]) -> Entry {
    Entry::File(bytes.to_vec())
}

/// The program and a folder for it to run in.
struct Place {
    program: PathBuf,
    folder: PathBuf,
}

impl Place {
    /// A run in a folder with these two entries.
    fn output(&self, basin: &Entry, steps: &Entry) -> io::Result<Output> {
        fs::create_dir_all(&self.folder)?;
        let output = basin
            .place(&self.folder.join("basin.pgm"))
            .and_then(|()| steps.place(&self.folder.join("steps.tsv")))
            .and_then(|()| {
                Command::new(&self.program)
                    .current_dir(&self.folder)
                    .output()
            });
        fs::remove_dir_all(&self.folder)?;
        output
    }

    fn check(&self, report: &mut Report, basin: &Entry, steps: &Entry) {
        let due = steps::printed(basin.readable(), steps.readable());
        let refusal = due.strip_prefix("refused\t").map(str::trim_end);
        report.met(
            "program",
            refusal.map_or(0, |number| number.parse().unwrap_or(0)),
        );
        let fault = match self.output(basin, steps) {
            Ok(output) => output_fault(&output, due.as_bytes()),
            Err(error) => Some(format!("not run: {error}")),
        };
        report.check(fault, || {
            format!("basin.pgm {}, steps.tsv {}", basin.shown(), steps.shown())
        });
    }

    /// What is due here is known without the definition, which must find the same.
    fn check_known(&self, report: &mut Report, basin: &[u8], steps: &[u8], due: &str) {
        let same = steps::printed(Some(basin), Some(steps)) == due;
        let fault = (!same).then(|| String::from("not as the scope has it"));
        report.check(fault, || format!("definition here: {}", shown(basin)));
        self.check(report, &file(basin), &file(steps));
    }

    /// The first of several good pictures is listed, however many pixels the others have. More than
    /// 2,048 in the first are refused, after the bytes of the whole file and before its steps.
    fn good_bursts(&self, report: &mut Report) {
        let (basin, steps, listing) = EXAMPLES[0];
        for further in [basin, EXAMPLES[1].0, &row(2048), &row(2049), &row(4056)] {
            let burst = [basin, further].concat();
            self.check_known(report, &burst, steps, listing);
            self.check_known(report, &burst, b"", "refused\t13\n");
            self.check_known(report, &burst, b"attribute\tarea\n", "refused\t4\n");
        }
        let full = [basin, &row(4056)].concat();
        assert_eq!(full.len(), 4096);
        for (burst, due) in [
            ([basin, &row(4057)], "refused\t14\n"),
            ([&full, b"\n"], "refused\t14\n"),
            ([&row(2049), basin], "refused\t14\n"),
        ] {
            self.check_known(report, &burst.concat(), steps, due);
            self.check_known(report, &burst.concat(), b"", due);
        }
        self.check(report, &file(&[row(2048), row(1)].concat()), &file(steps));
    }

    /// A faulty picture after others is refused as it is alone, before more than 2,048 pixels in the
    /// first are, and before the steps.
    fn faulty_bursts(&self, report: &mut Report) {
        let (basin, steps, _) = EXAMPLES[0];
        for faulty in &ODD_PICTURES[1..] {
            let due = steps::printed(Some(faulty), Some(steps));
            for good in [basin, &row(2048), &row(2049), &row(4000)] {
                for further in [&b""[..], basin] {
                    let burst = [good, further, faulty].concat();
                    self.check_known(report, &burst, steps, &due);
                    self.check_known(report, &burst, b"", &due);
                }
            }
        }
    }

    /// A burst of two pictures, whose headers have 18 bytes and 9, cut everywhere; it is refused
    /// before its steps are. What is left is good where it ends with a picture.
    fn cut_bursts(&self, report: &mut Report) {
        let (_, steps, listing) = EXAMPLES[3];
        let burst = b"P5 #7\r03 1\n#\n0255\r\x0a\x28\x0aP5 1 1 9 \x09";
        for cut in 0..=burst.len() {
            let (due, without_steps) = match cut {
                0 | 1 | 22 => ("refused\t8\n", "refused\t8\n"),
                2..=17 | 23..=29 => ("refused\t9\n", "refused\t9\n"),
                18..=20 | 30 => ("refused\t11\n", "refused\t11\n"),
                _ => (listing, "refused\t13\n"),
            };
            self.check_known(report, &burst[..cut], steps, due);
            self.check_known(report, &burst[..cut], b"", without_steps);
        }
    }

    /// The examples, and each odd file beside a good one and beside a bad one.
    fn systematic(&self, report: &mut Report) {
        for (basin, steps, due) in EXAMPLES {
            self.check_known(report, basin, steps, due);
        }
        let (basin, steps, _) = EXAMPLES[0];
        for odd in ODD_STEPS {
            self.check(report, &file(basin), &file(odd));
        }
        for odd in ODD_PICTURES {
            self.check(report, &file(odd), &file(steps));
            self.check(report, &file(odd), &file(b"attribute\tarea\n"));
        }
    }
}

pub fn run(report: &mut Report, seed: u64, cases: usize, program: &str) {
    let place = Place {
        program: fs::canonicalize(program).unwrap_or_else(|_| PathBuf::from(program)),
        folder: std::env::temp_dir().join(format!("teldruf-{}", std::process::id())),
    };
    place.systematic(report);
    place.good_bursts(report);
    place.faulty_bursts(report);
    place.cut_bursts(report);
    for case in 0..cases {
        let mut random = Random::for_case(seed, 6, case as u64);
        let basin = basin_entry(&mut random, case, case % 8);
        let steps = steps_entry(&mut random, case / 8 % 7);
        place.check(report, &basin, &steps);
    }
    report.check_all_met("program", &[0, 15, 14, 8, 9, 10, 1, 11, 12, 13, 3, 4]);
}
