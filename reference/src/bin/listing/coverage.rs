//! Which cases occurred, and those that must.

use reference::listing::{outcomes, Outcome, LARGEST_INPUT};
use std::collections::BTreeMap;

/// A case: what happened, and with which number.
type Case = (&'static str, i128);

#[derive(Default)]
pub struct Coverage {
    seen: BTreeMap<Case, u64>,
}

impl Coverage {
    /// Notes the cases of an input, by what the reference gives for its records.
    pub fn note(&mut self, input: &[u8]) {
        self.add("an input", 0);
        if input.len() == LARGEST_INPUT {
            self.add("an input of 65,536 bytes", 0);
        }
        if input.len() > LARGEST_INPUT {
            self.add("an input longer than 65,536 bytes", 0);
        }
        let outcomes = outcomes(input);
        for outcome in &outcomes {
            self.note_outcome(outcome);
        }
        for pair in outcomes.windows(2) {
            if let Err(refusal) = pair[0] {
                self.add("a record after one refused by", refusal.number.into());
            }
        }
    }

    fn note_outcome(&mut self, outcome: &Outcome) {
        match outcome {
            Ok(numbers) => {
                self.add("a record with the number", 0);
                self.add("a record on face", numbers[0]);
                for number in numbers {
                    if *number < 0 {
                        self.add("a negative position", 0);
                    }
                }
            }
            Err(refusal) => self.add("a record with the number", refusal.number.into()),
        }
    }

    fn add(&mut self, event: &'static str, detail: i128) {
        *self.seen.entry((event, detail)).or_default() += 1;
    }

    /// The number of times that a case occurred, whatever its detail.
    pub fn count(&self, event: &str) -> u64 {
        self.details(event).iter().map(|(_, count)| count).sum()
    }

    /// For each detail of a case: how often.
    pub fn details(&self, event: &str) -> Vec<(i128, u64)> {
        let cases = self.seen.iter().filter(|((e, _), _)| *e == event);
        cases.map(|((_, detail), count)| (*detail, *count)).collect()
    }

    /// The cases that must occur and did not.
    pub fn missing(&self) -> Vec<Case> {
        wanted().into_iter().filter(|case| !self.seen.contains_key(case)).collect()
    }
}

fn wanted() -> Vec<Case> {
    let mut cases = Vec::new();
    let mut want = |event: &'static str, details: &[i128]| cases.extend(details.iter().map(|&detail| (event, detail)));
    want("an input", &[0]);
    want("an input of 65,536 bytes", &[0]);
    want("an input longer than 65,536 bytes", &[0]);
    want("a record with the number", &[0, 1, 4, 13, 14, 15, 16]);
    want("a record on face", &[0, 1, 2, 3, 4, 5]);
    want("a negative position", &[0]);
    want("a record after one refused by", &[1, 4, 13, 14, 15]);
    cases
}
