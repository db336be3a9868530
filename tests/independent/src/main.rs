// Runs libteldruf.a against the scope's definitions, written here a second time and plainly. Seeds
// are fixed unless another is named, so that a run can be repeated.
//
//   independent [--seed NUMBER] [--cases NUMBER] [--suites NAME,NAME..] [--program PATH]
//
// --cases is the number of small pictures, at least 1,000 so that every answer is met; the other
// suites grow with it. --suites names the suites to run, which are all of them unless it is given.
// --program names the built program `basin`, which the suite program runs in many folders.

mod bursts;
mod calls;
mod causes;
mod chains;
mod cuts;
mod damage;
mod dark;
mod definition;
mod every;
mod fast;
mod fence;
mod files;
mod frame;
mod gaps;
mod headers;
mod interface;
mod large;
mod lent;
mod listing;
mod long;
mod mixed;
mod neighbours;
mod nest;
mod page;
mod parts;
mod pgm;
mod pictures;
mod program;
mod random;
mod report;
mod runs;
mod sides;
mod steps;
mod table;
mod triples;
mod vast;

use report::Report;
use std::process::ExitCode;
use std::time::Instant;

const USAGE: &str = "usage: independent [--seed NUMBER] [--cases NUMBER, at least 1000] \
                     [--suites NAME,NAME..] [--program PATH]";
const FEWEST_CASES: usize = 1000;

type Suite = fn(&mut Report, &Options);

const SUITES: [(&str, Suite); 16] = [
    ("table", |r, o| table::run(r, o.seed)),
    ("neighbours", |r, o| neighbours::run(r, o.seed)),
    ("frame", |r, o| frame::run(r, o.seed, o.cases / 10)),
    ("listing", |r, o| listing::run(r, o.seed, o.cases / 10)),
    ("gaps", |r, o| gaps::run(r, o.seed, o.cases / 10)),
    ("sides", |r, o| sides::run(r, o.seed, o.cases / 10)),
    ("triples", |r, o| triples::run(r, o.seed, o.cases / 10)),
    ("every", |r, o| every::run(r, o.seed)),
    ("calls", |r, o| calls::run(r, o.seed, o.cases)),
    ("chains", |r, o| chains::run(r, o.seed, o.cases / 4)),
    ("files", |r, o| files::run(r, o.seed, o.cases * 2)),
    ("bursts", |r, o| bursts::run(r, o.seed, o.cases / 4)),
    ("cuts", |r, o| cuts::run(r, o.seed, o.cases / 10)),
    ("large", |r, o| large::run(r, o.seed)),
    ("long", |r, o| long::run(r, o.seed)),
    (PROGRAM, |r, o| {
        program::run(r, o.seed, (o.cases / 40).max(500), &o.program)
    }),
];
const PROGRAM: &str = "program";

struct Options {
    seed: u64,
    cases: usize,
    suites: Vec<String>,
    program: String,
}

fn number<N: std::str::FromStr>(text: &str) -> Result<N, String> {
    text.parse()
        .map_err(|_| format!("'{text}' is not a number"))
}

fn suites(list: &str) -> Result<Vec<String>, String> {
    let known = SUITES.map(|(name, _)| name);
    match list.split(',').find(|asked| !known.contains(asked)) {
        Some(asked) => Err(format!(
            "there is no suite '{asked}': the suites are {}",
            known.join(", ")
        )),
        None => Ok(list.split(',').map(String::from).collect()),
    }
}

/// What the words of the command line ask for, or what is wrong with them.
fn options(mut words: impl Iterator<Item = String>) -> Result<Options, String> {
    let mut options = Options {
        seed: 1,
        cases: 40_000,
        suites: SUITES.map(|(name, _)| String::from(name)).to_vec(),
        program: String::new(),
    };
    while let Some(word) = words.next() {
        let mut value = || words.next().ok_or(format!("nothing after {word}"));
        match word.as_str() {
            "--seed" => options.seed = number(&value()?)?,
            "--cases" => options.cases = number(&value()?)?,
            "--suites" => options.suites = suites(&value()?)?,
            "--program" => options.program = value()?,
            _ => return Err(format!("there is no option '{word}'")),
        }
    }
    if options.cases < FEWEST_CASES {
        return Err(format!("fewer cases than {FEWEST_CASES}"));
    }
    if options.program.is_empty() && options.suites.iter().any(|name| name == PROGRAM) {
        return Err(format!("the suite {PROGRAM} needs --program PATH"));
    }
    Ok(options)
}

/// Runs a suite and prints its counts. One that checks nothing fails.
fn run(report: &mut Report, options: &Options, (name, suite): (&str, Suite)) {
    let start = Instant::now();
    let (passed, failed) = (report.passed, report.failed);
    suite(report, options);
    if (report.passed, report.failed) == (passed, failed) {
        report.check(Some(String::from("nothing was checked")), || name.into());
    }
    let (passed, failed) = (report.passed - passed, report.failed - failed);
    let seconds = start.elapsed().as_secs_f64();
    println!("{name}: {passed} passed, {failed} failed, {seconds:.1} s");
}

fn main() -> ExitCode {
    let options = match options(std::env::args().skip(1)) {
        Ok(options) => options,
        Err(fault) => {
            eprintln!("{fault}\n{USAGE}");
            return ExitCode::from(2);
        }
    };
    println!("seed {}, {} small pictures", options.seed, options.cases);
    let mut report = Report::default();
    for suite in SUITES {
        if options.suites.iter().any(|asked| asked == suite.0) {
            run(&mut report, &options, suite);
        }
    }
    println!("{} passed, {} failed", report.passed, report.failed);
    if report.failed == 0 {
        ExitCode::SUCCESS
    } else {
        ExitCode::FAILURE
    }
}
