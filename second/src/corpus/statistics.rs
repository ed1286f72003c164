//! What running the images of a core exercises: how often each answer occurs, and the counters of the second interpreter.

use super::lengths::Lengths;
use crate::decode;
use crate::encode::RunnerInput;
use crate::exercised::{Exercised, TestCounts, FIRST_LONG};
use crate::layout::{Core, Layout};
use crate::listing::{call_of, read_input};
use crate::tree::{Command, Program};
use std::collections::BTreeMap;

/// Of the images of one core.
#[derive(Clone, Debug, Default, PartialEq, Eq)]
pub struct Statistics {
    pub images: u64,
    pub bytes: u64,
    pub refused: u64,
    pub answers: BTreeMap<u32, u64>,
    /// Runs that started, whatever they answered.
    pub started: u64,
    pub counters: Vec<Counter>,
}

/// How often something was exercised, and in how many images.
#[derive(Clone, Debug, PartialEq, Eq)]
pub struct Counter {
    pub name: String,
    pub total: u64,
    pub images: u64,
}

/// The least answer of a run that didn't start.
const FIRST_REFUSAL: u32 = 9;

impl Statistics {
    pub fn of<'a>(core: Core, images: impl IntoIterator<Item = &'a [u8]>) -> Statistics {
        let mut statistics = Statistics::default();
        let (exercised, lengths) = (Exercised::default(), Lengths::default());
        statistics.add_counters(&exercised, Procedures::default(), lengths);
        for image in images {
            statistics.add(core.layout(), image);
        }
        statistics
    }

    fn add(&mut self, layout: &Layout, image: &[u8]) {
        self.images += 1;
        self.bytes += image.len() as u64;
        match read_input(image) {
            Some(input) => self.add_run(layout, &input),
            None => self.refused += 1,
        }
    }

    fn add_run(&mut self, layout: &Layout, input: &RunnerInput) {
        let mut exercised = Exercised::default();
        let outcome = call_of(layout, input).outcome_at(layout, &mut exercised);
        let started = outcome.answer < FIRST_REFUSAL;
        *self.answers.entry(outcome.answer).or_default() += 1;
        self.started += u64::from(started);
        let program = decode::program(&input.program).ok();
        let procedures = program.filter(|_| started).map(|it| Procedures::of(&it));
        let lengths = Lengths::of(layout, input, outcome.answer);
        self.add_counters(&exercised, procedures.unwrap_or_default(), lengths);
    }

    fn add_counters(&mut self, exercised: &Exercised, procedures: Procedures, lengths: Lengths) {
        let counts = named(exercised).into_iter().chain(procedures.named());
        let counts = counts.chain(lengths.named());
        for (index, (name, count)) in counts.enumerate() {
            if index == self.counters.len() {
                self.counters.push(Counter {
                    name,
                    total: 0,
                    images: 0,
                });
            }
            self.counters[index].total += count;
            self.counters[index].images += u64::from(count > 0);
        }
    }

    /// The counter of this name.
    pub fn counter(&self, name: &str) -> &Counter {
        let found = self.counters.iter().find(|counter| counter.name == name);
        found.unwrap_or_else(|| panic!("no counter is named {name}"))
    }
}

/// The procedures of a program whose run started.
#[derive(Default)]
struct Procedures {
    all: usize,
    /// Those that no call names.
    not_called: usize,
}

impl Procedures {
    fn of(program: &Program) -> Procedures {
        let all = program.procedures.len();
        let mut calls = vec![0; all];
        program.commands().for_each(|it| count_calls(it, &mut calls));
        Procedures {
            all,
            not_called: calls.iter().filter(|count| **count == 0).count(),
        }
    }

    fn named(&self) -> [(String, u64); 2] {
        [
            ("procedures".to_string(), self.all as u64),
            ("procedures not called".to_string(), self.not_called as u64),
        ]
    }
}

/// Adds 1 for each call to the count of its procedure.
fn count_calls(command: &Command, counts: &mut [u64]) {
    if let Command::Procedure(number) = command {
        counts[usize::from(*number)] += 1;
    }
    let parts = command.parts().into_iter();
    parts.for_each(|part| count_calls(part, counts));
}

/// Each counter with its name.
fn named(exercised: &Exercised) -> Vec<(String, u64)> {
    let e = exercised;
    let counters = [
        ("steps", e.steps),
        ("applications", e.applications),
        ("ifs", e.ifs),
        ("tries", e.tries),
        ("guards undone", e.guards_undone),
        ("bodies undone", e.bodies_undone),
        ("breaks", e.breaks),
        ("calls", e.calls),
        ("calls in calls", e.calls_in_calls),
        ("calls failed", e.calls_failed),
        ("slots reused", e.slots_reused),
        ("dangling refusals", e.dangling_refusals),
        ("negated tests", e.negated_tests),
        ("marks any matched", e.any_marks_matched),
        ("roots matched", e.roots_matched),
        ("unrooted on roots matched", e.unrooted_on_roots),
        ("roots deleted unrooted", e.unrooted_roots_deleted),
        ("root flags kept", e.root_flags_kept),
        ("constants evaluated", e.elements.constant),
        ("int variables evaluated", e.elements.int_variable),
        ("list variables evaluated", e.elements.list_variable),
        ("sums evaluated", e.elements.sum),
        ("differences evaluated", e.elements.difference),
    ];
    let mut named = counters
        .map(|(name, count)| (name.to_string(), count))
        .to_vec();
    named.extend(named_tests("true", &e.tests_true));
    named.extend(named_tests("false", &e.tests_false));
    named.extend(named_numbers("matches, mode", 0, &e.modes_matched));
    named.extend(named_numbers("loop, in-degree", 0, &e.in_degree_at_loops));
    named.extend(named_numbers("loop, in-degree not", 0, &e.not_in_degree_at_loops));
    named.extend(named_lengths(e));
    named
}

/// Labels and values by their length.
fn named_lengths(e: &Exercised) -> Vec<(String, u64)> {
    [
        named_numbers("left elements", FIRST_LONG, &e.left_elements),
        named_numbers("variable atoms", 0, &e.short_values),
        named_numbers("list variable atoms", FIRST_LONG, &e.list_atoms),
        named_numbers("right elements", FIRST_LONG, &e.right_elements),
        named_numbers("right label atoms", 0, &e.short_label_atoms),
        named_numbers("right label atoms", FIRST_LONG, &e.label_atoms),
    ]
    .concat()
}

/// Counts by a number, from the first one on.
pub fn named_numbers(counted: &str, first: usize, counts: &[u64]) -> Vec<(String, u64)> {
    let named = (first..).zip(counts);
    named
        .map(|(number, count)| (format!("{counted} {number}"), *count))
        .collect()
}

fn named_tests(outcome: &str, counts: &TestCounts) -> [(String, u64); 5] {
    let kinds = [
        ("edge", counts.edge),
        ("in-degree", counts.in_degree),
        ("out-degree", counts.out_degree),
        ("equal", counts.equal),
        ("less", counts.less),
    ];
    kinds.map(|(kind, count)| (format!("{kind} tests {outcome}"), count))
}
