//! A case: one call of the library with what is expected of it. Cases are counted, and one that fails
//! is made as small as it can be before it is shown.

use std::fmt::Debug;

/// How many smaller inputs are tried of a case that fails.
const TRIES: usize = 4000;

/// How many failures of a group are shown.
const SHOWN: u64 = 3;

pub trait Case: Debug + Clone {
    /// Runs it; an error says what each side has.
    fn run(&self) -> Result<(), String>;

    /// Some cases that are a little smaller.
    fn smaller(&self) -> Vec<Self>;
}

/// How many cases of a group passed and failed.
pub struct Tally {
    pub name: &'static str,
    pub passed: u64,
    pub failed: u64,
}

impl Tally {
    pub fn new(name: &'static str) -> Tally {
        Tally { name, passed: 0, failed: 0 }
    }

    /// Runs a case and counts it. The first failures are shown.
    pub fn run<C: Case>(&mut self, case: &C) {
        let Err(why) = case.run() else {
            self.passed += 1;
            return;
        };
        self.failed += 1;
        if self.failed <= SHOWN {
            let (case, why) = smallest(case.clone(), why);
            println!("{}: DISAGREEMENT\n{case:?}\n{why}\n", self.name);
        }
    }
}

/// Walks down from a failing case to one of which no smaller one fails.
fn smallest<C: Case>(mut case: C, mut why: String) -> (C, String) {
    let mut tries = 0;
    'smaller: loop {
        for next in case.smaller() {
            tries += 1;
            if tries > TRIES {
                return (case, why);
            }
            if let Err(reason) = next.run() {
                (case, why) = (next, reason);
                continue 'smaller;
            }
        }
        return (case, why);
    }
}
