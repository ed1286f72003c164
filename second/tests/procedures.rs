//! Calls of procedures on random programs: beside the same programs with each call written out, and the answer 19 beside its
//! definition.

mod common;
mod report;
#[path = "procedures/writing_out.rs"]
mod writing_out;

use common::{samples, Sample};
use report::numbers;
use second::build::{looped, try_command};
use second::calls::{run, Outcome};
use second::depth;
use second::exercised::Exercised;
use second::random::Random;
use second::tree::Command::{Procedure, Sequence, Skip};
use second::tree::{limit, Command, Program};
use second::{decode, encode};
use writing_out::{put_in, written_out};

/// The samples that have procedures and start, each with its program and outcome, and how many calls its run entered.
fn samples_with_procedures() -> impl Iterator<Item = (Sample, Program, Outcome, u32)> {
    samples().filter_map(|sample| {
        let program = decode::program(&sample.image).ok()?;
        let mut exercised = Exercised::default();
        let outcome = sample.observed(&mut exercised);
        let taken = !program.procedures.is_empty() && outcome.answer <= 6;
        taken.then_some((sample, program, outcome, exercised.calls as u32))
    })
}

/// Pairs of runs with calls in them, by their answer.
#[derive(Debug, Default)]
struct Compared {
    answers: [usize; 7],
}

impl Compared {
    fn add(&mut self, answer: u32, calls: u32) {
        self.answers[answer as usize] += usize::from(calls > 0);
    }

    fn check(&self, answers: &[usize]) {
        let often = |answer: &usize| self.answers[*answer] >= 40;
        assert!(answers.iter().all(often), "{self:?}");
    }
}

#[test]
fn a_call_is_as_a_sequence_of_one_command() {
    let mut compared = Compared::default();
    for (sample, program, outcome, calls) in samples_with_procedures() {
        let Some(other) = written_out(&program, |body| Sequence(vec![body])) else {
            continue;
        };
        let image = encode::program(&other);
        let other = Sample { image, ..sample };
        assert_eq!(other.outcome(), outcome, "{program:#?}");
        compared.add(outcome.answer, calls);
    }
    compared.check(&[0, 1, 2, 3, 4, 5, 6]);
}

#[test]
fn calls_written_out_change_the_steps_alone_by_the_calls_entered() {
    let mut compared = Compared::default();
    for (sample, program, outcome, calls) in samples_with_procedures() {
        let Some(other) = written_out(&program, |body| body) else {
            continue;
        };
        let image = encode::program(&other);
        let other = Sample { image, ..sample }.outcome();
        if outcome.answer == 2 {
            continue;
        }
        let (answer, steps, records) = numbers(&outcome);
        assert_eq!(
            numbers(&other),
            (answer, steps - calls, records),
            "{program:#?}"
        );
        let report = outcome.report.clone();
        assert_eq!(Outcome { report, ..other }, outcome, "{program:#?}");
        compared.add(answer, calls);
    }
    compared.check(&[0, 1, 3, 4, 5, 6]);
}

/// A program of calls and few other commands, which may call each other in rings and lie at any depth.
fn calling_program(random: &mut Random) -> Program {
    let count = random.pick(&[1, 2, 3, 5, 9, limit::PROCEDURES]);
    let levels = random.pick(&[1, 2, 4, limit::DEPTH]);
    let upwards = random.chance(80);
    let mut command = |number: usize| {
        let from = if upwards { number } else { 0 };
        let inner = match random.below(if from < count { 4 } else { 1 }) {
            0 => Skip,
            1 => Sequence(vec![
                Procedure(random.between(from, count - 1) as u8),
                Procedure(random.between(from, count - 1) as u8),
            ]),
            _ => Procedure(random.between(from, count - 1) as u8),
        };
        let around = random.between(0, levels.saturating_sub(inner.depth()));
        (0..around).fold(inner, |inner, _| match random.below(3) {
            0 => Sequence(vec![inner]),
            1 => looped(inner),
            _ => try_command(Skip, inner, Skip),
        })
    };
    let main = command(0);
    let procedures = (1..=count).map(&mut command).collect();
    Program {
        rules: vec![],
        procedures,
        main,
    }
}

#[test]
fn nineteen_is_answered_by_its_definition() {
    let random = &mut Random::new(19);
    let (mut legal, mut rings, mut deep, mut deepest) = (0, 0, 0, 0);
    for _ in 0..20_000 {
        let program = calling_program(random);
        let put: Vec<Option<Command>> = program
            .commands()
            .map(|command| put_in(&program, command, limit::DEPTH))
            .collect();
        let expected = if put.iter().all(Option::is_some) {
            2
        } else {
            19
        };
        let image = encode::program(&program);
        let outcome = run(&[], &[], &[], &image, 0, &[7; 8]);
        assert_eq!(outcome.answer, expected, "{program:?}");
        match depth::check(&program) {
            Ok(depth) => {
                legal += 1;
                let main = put.last().expect("the main command").as_ref();
                assert_eq!(main.map(Command::depth), Some(depth), "{program:?}");
                deepest += usize::from(put.iter().flatten().any(|it| it.depth() == limit::DEPTH));
            }
            Err(fault) => match fault.reason.starts_with("a ring") {
                true => rings += 1,
                false => deep += 1,
            },
        }
    }
    let found = [legal, rings, deep, deepest];
    assert!(found.iter().all(|count| *count >= 200), "{found:?}");
}
