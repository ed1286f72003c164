//! Runs, what they give, and what of it wrapping leaves as it is.

use crate::common::Sample;
use crate::report::numbers;
use second::calls::Outcome;
use second::observer::{Event, Observer};
use second::tree::Command;
use std::collections::BTreeSet;

/// Commands that a run entered, counted.
#[derive(Default)]
pub struct Entered {
    /// Sequences, skips and calls.
    pub wrapping: u32,
    pub breaks: u32,
    /// The third commands of guarded ones, which run where the guard failed.
    pub after_failed_guards: u32,
    thirds: BTreeSet<*const Command>,
}

impl Observer for Entered {
    fn sees(&mut self, event: Event) {
        let Event::Entered(command) = event else {
            return;
        };
        let is_third = self.thirds.contains(&std::ptr::from_ref(command));
        self.after_failed_guards += u32::from(is_third);
        match command {
            Command::Sequence(_) | Command::Skip | Command::Procedure(_) => self.wrapping += 1,
            Command::Break => self.breaks += 1,
            Command::Guarded { other, .. } => {
                self.thirds.insert(std::ptr::from_ref(&**other));
            }
            Command::RuleSet(_) | Command::Loop(_) | Command::Fail => {}
        }
    }
}

/// A run of a sample.
pub struct Run {
    pub outcome: Outcome,
    pub entered: Entered,
}

/// What two runs have in common whose programs differ only in wrapping.
#[derive(Debug, PartialEq, Eq)]
pub struct Common<'a> {
    answer: u32,
    nodes: &'a [u8],
    edges: &'a [u8],
    journal: &'a [u8],
    records: u32,
    /// The steps that enter no sequence, no skip and no call.
    acting_steps: u32,
}

impl Run {
    pub fn of(sample: &Sample) -> Run {
        let mut entered = Entered::default();
        let outcome = sample.observed(&mut entered);
        Run { outcome, entered }
    }

    pub fn steps(&self) -> u32 {
        numbers(&self.outcome).1
    }

    pub fn common(&self) -> Common<'_> {
        let (answer, steps, records) = numbers(&self.outcome);
        Common {
            answer,
            nodes: &self.outcome.nodes,
            edges: &self.outcome.edges,
            journal: &self.outcome.journal,
            records,
            acting_steps: steps - self.entered.wrapping,
        }
    }
}
