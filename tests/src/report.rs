//! Counts checks, and what they covered.

use std::collections::BTreeMap;

/// How many failures are shown; the others are only counted.
const SHOWN: usize = 40;

#[derive(Default)]
pub struct Report {
    passed: usize,
    failed: usize,
    covered: BTreeMap<String, usize>,
}

impl Report {
    /// Counts a check, and says what failed.
    pub fn check(&mut self, good: bool, what: impl FnOnce() -> String) {
        if good {
            self.passed += 1;
            return;
        }
        self.failed += 1;
        if self.failed <= SHOWN {
            println!("FAILED: {}", what());
        }
    }

    /// Counts something that was met.
    pub fn cover(&mut self, what: &str) {
        *self.covered.entry(what.to_string()).or_insert(0) += 1;
    }

    /// Adds what another part counted.
    pub fn add(&mut self, other: Report) {
        self.passed += other.passed;
        self.failed += other.failed;
        for (what, times) in other.covered {
            *self.covered.entry(what).or_insert(0) += times;
        }
    }

    /// Checks that something was met often enough for the other checks to say much.
    pub fn met_often(&mut self, what: &str, least: usize) {
        let times = self.covered.get(what).copied().unwrap_or(0);
        self.check(times >= least, || format!("{what}: {times}, and not {least}"));
    }

    /// Prints what was covered and the count of checks, and says whether all passed.
    pub fn close(&self) -> bool {
        for (what, times) in &self.covered {
            println!("{what}: {times}");
        }
        println!("{} passed, {} failed", self.passed, self.failed);
        self.failed == 0
    }
}
