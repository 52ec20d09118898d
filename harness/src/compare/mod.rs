//! The comparisons, and what they count.

pub mod fields;
pub mod keystream;
pub mod labels;
pub mod program;
pub mod sheets;
pub mod trace;
pub mod words;

use std::collections::BTreeMap;

use crate::calls::Call;

/// Of one kind, so many differences are printed in full; the rest are counted.
const PRINTED_IN_FULL: u64 = 10;

/// What was compared of one kind.
pub struct Tally {
    kind: &'static str,
    seed: u64,
    cases: u64,
    differences: u64,
    answers: BTreeMap<u64, u64>,
    remarks: Vec<String>,
}

/// Counts by number, as they are printed.
pub fn listed(counts: &BTreeMap<u64, u64>) -> String {
    let counts: Vec<String> = counts
        .iter()
        .map(|(number, count)| format!("{number}: {count}"))
        .collect();
    counts.join(", ")
}

impl Tally {
    pub fn new(kind: &'static str, seed: u64) -> Self {
        Tally {
            kind,
            seed,
            cases: 0,
            differences: 0,
            answers: BTreeMap::new(),
            remarks: Vec::new(),
        }
    }

    pub fn cases(&self) -> u64 {
        self.cases
    }

    pub fn differences(&self) -> u64 {
        self.differences
    }

    /// Counts a case that was answered by this refusal, or by 0.
    pub fn count(&mut self, number: u64) {
        self.cases += 1;
        *self.answers.entry(number).or_default() += 1;
    }

    /// Counts a difference, and prints what `show` says of it.
    pub fn differs(&mut self, case: u64, show: impl FnOnce() -> String) {
        self.differences += 1;
        if self.differences <= PRINTED_IN_FULL {
            println!(
                "DIFFERENCE in {}, seed {}, case {case}",
                self.kind, self.seed
            );
            println!("{}", show());
        }
    }

    /// Puts a call to both sides and compares the answers and all buffers.
    /// Hands back what the plain side answered and made of the call.
    pub fn compare<C: Call>(&mut self, case: u64, call: &C) -> (C::Answer, C) {
        let (mut ours, mut theirs) = (call.clone(), call.clone());
        let (plain, proved) = (ours.plain(), theirs.proved());
        self.count(C::number(&plain));
        if plain != proved || ours != theirs {
            self.differs(case, || {
                format!("input:\n{call}\nplain: {plain:?}\n{ours}\nproved: {proved:?}\n{theirs}\n")
            });
        }
        (plain, ours)
    }

    /// Adds a line to what is printed of this kind.
    pub fn remark(&mut self, line: String) {
        self.remarks.push(line);
    }

    pub fn print(&self) {
        println!(
            "{}: {} compared, {} differences",
            self.kind, self.cases, self.differences
        );
        println!(
            "    answered by refusal (0 for none): {}",
            listed(&self.answers)
        );
        for remark in &self.remarks {
            println!("    {remark}");
        }
    }
}
