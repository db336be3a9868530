// Counts of what passed and failed, and how often each answer was met.

use std::collections::BTreeMap;

const MOST_SHOWN: u64 = 10;

#[derive(Default)]
pub struct Report {
    pub passed: u64,
    pub failed: u64,
    answers: BTreeMap<(&'static str, u64), u64>,
}

impl Report {
    /// One check; `fault` says what is wrong, `case` where.
    pub fn check(&mut self, fault: Option<String>, case: impl FnOnce() -> String) {
        let Some(fault) = fault else {
            self.passed += 1;
            return;
        };
        self.failed += 1;
        if self.failed <= MOST_SHOWN {
            println!("FAILED {}\n  {fault}", case());
        }
        if self.failed == MOST_SHOWN {
            println!("further failures are counted and not shown");
        }
    }

    pub fn met(&mut self, call: &'static str, cause: u64) {
        *self.answers.entry((call, cause)).or_default() += 1;
    }

    /// Every one of these answers, causes or acceptance (0), was due at least once.
    pub fn check_all_met(&mut self, call: &'static str, answers: &[u64]) {
        let mut text = format!("  {call}:");
        for answer in answers {
            let times = self.answers.get(&(call, *answer)).copied().unwrap_or(0);
            text += &format!(" {answer}×{times}");
            let fault = (times == 0).then(|| format!("{call}: answer {answer} was never due"));
            self.check(fault, || String::from("coverage"));
        }
        println!("{text}");
    }
}

/// A cause as the C interface answers it.
pub fn refused(cause: u32) -> u64 {
    u64::from(cause) << 32
}

pub fn answer_fault(is: u64, due: u64) -> Option<String> {
    let text = |answer: u64| match answer >> 32 {
        0 => format!("accepted with {answer}"),
        cause => format!("refused {cause} (low word {})", answer & 0xffff_ffff),
    };
    (is != due).then(|| format!("answer: {}, should be: {}", text(is), text(due)))
}

/// The start of a file, on one line.
pub fn shown(file: &[u8]) -> String {
    let text: String = file.escape_ascii().map(char::from).take(300).collect();
    format!("{} bytes: {text}", file.len())
}
