//! Rows of three commands in several groupings, with and without skips, at each place where a command can stand; and sequences
//! nested as widely and as deeply as they may be.

use super::cases::{adding_one, marking};
use super::modes::{over, unmarked};
use crate::build::*;
use crate::encode::{node_slot, RunnerInput};
use crate::tree::Command::{Break, Fail, Sequence, Skip};
use crate::tree::*;

pub fn groupings() -> Vec<RunnerInput> {
    let mut inputs: Vec<RunnerInput> = every_row()
        .into_iter()
        .flat_map(|(around, row)| groupings_of(around, row))
        .collect();
    inputs.push(widest());
    inputs.extend(LEVELS.map(deepest));
    inputs
}

/// What becomes of three commands in a row.
#[derive(Clone, Copy, Debug, PartialEq, Eq)]
enum Row {
    Succeeds,
    FirstBreaks,
    SecondBreaks,
    SecondFails,
    ThirdFails,
    /// The second ends the run with this answer.
    SecondStops(u32),
}

impl Row {
    fn stops(self) -> Option<u32> {
        match self {
            Row::SecondStops(answer) => Some(answer),
            _ => None,
        }
    }
}

/// Puts a command at some place of a program.
pub(super) type Around = fn(Command) -> Command;

/// The places, each with the rows that stand there.
const PLACES: [(Around, &[Row]); 8] = [
    (
        |row| row,
        &[
            Row::Succeeds,
            Row::SecondFails,
            Row::SecondStops(3),
            Row::SecondStops(4),
            Row::SecondStops(5),
            Row::SecondStops(6),
        ],
    ),
    (
        looped,
        &[
            Row::Succeeds,
            Row::FirstBreaks,
            Row::SecondBreaks,
            Row::SecondFails,
        ],
    ),
    (
        |row| try_command(row, call(0), Skip),
        &[Row::Succeeds, Row::SecondFails, Row::ThirdFails],
    ),
    (
        |row| if_command(row, call(0), Skip),
        &[Row::Succeeds, Row::ThirdFails],
    ),
    (in_then, &[Row::Succeeds, Row::SecondFails]),
    (in_else, &[Row::Succeeds, Row::SecondFails]),
    (|row| looped(in_then(row)), &[Row::SecondBreaks]),
    (|row| looped(in_else(row)), &[Row::SecondBreaks]),
];

fn in_then(row: Command) -> Command {
    try_command(Skip, row, Fail)
}

fn in_else(row: Command) -> Command {
    if_command(Fail, Fail, row)
}

fn every_row() -> Vec<(Around, Row)> {
    let places = PLACES.into_iter();
    places
        .flat_map(|(around, rows)| rows.iter().map(move |row| (around, *row)))
        .collect()
}

/// Rules 0, 1 and 2 take a node from unmarked to red, blue and green, so that the commands of a row succeed in their order alone.
fn commands(row: Row) -> [Command; 3] {
    let [first, second, third] = [call(0), call(1), call(2)];
    match row {
        Row::Succeeds | Row::SecondStops(_) => [first, second, third],
        Row::FirstBreaks => [Break, second, third],
        Row::SecondBreaks => [first, Break, third],
        Row::SecondFails => [first, Fail, third],
        Row::ThirdFails => [first, second, Fail],
    }
}

/// Flat, grouped to the left and to the right, and with skips before, between and behind.
fn grouped([p, q, r]: [Command; 3]) -> [Command; 4] {
    let of = |parts: &[&Command]| Sequence(parts.iter().map(|part| (*part).clone()).collect());
    [
        of(&[&p, &q, &r]),
        of(&[&of(&[&p, &q]), &r]),
        of(&[&p, &of(&[&q, &r])]),
        of(&[&Skip, &p, &Skip, &q, &Skip, &r, &Skip]),
    ]
}

/// The row on two unmarked nodes that fill their table, with no slot for an edge.
fn groupings_of(around: Around, row: Row) -> [RunnerInput; 4] {
    let rules = vec![
        marking(),
        red_to_blue(row.stops()),
        node_rule(&[node(mark::BLUE, &[])], &[node(mark::GREEN, &[])], 1),
    ];
    let records = if row.stops() == Some(5) { 1 } else { 10 };
    grouped(commands(row)).map(|command| RunnerInput {
        records,
        fuel: AMPLE_FUEL,
        ..over(unmarked(&[false; 2]), rules.clone(), around(command))
    })
}

const AMPLE_FUEL: u32 = 400;

/// The rule that marks a red node blue. To stop with 3, 4 or 6 it also makes a node or an edge, or a label that can't be held.
pub fn red_to_blue(stops: Option<u32>) -> Rule {
    let red = || (vec![node(mark::RED, &[])], vec![]);
    let blue = || node(mark::BLUE, &[]);
    let over_the_range = Element::Sum(Operand::Constant(i32::MAX), Operand::Constant(1));
    let right = match stops {
        Some(3) => (vec![blue(), blue()], vec![]),
        Some(4) => (vec![blue()], vec![edge(mark::NONE, 0, 0, &[])]),
        Some(6) => (vec![node(mark::BLUE, &[over_the_range])], vec![]),
        _ => (vec![blue()], vec![]),
    };
    rule(red(), right, 1)
}

/// Runs a command over a node labelled 0 and a rule that adds 1 to it.
fn counting(main: Command) -> RunnerInput {
    let nodes = node_slot(mark::NONE, false, &[0]).to_vec();
    RunnerInput {
        records: 256,
        fuel: AMPLE_FUEL,
        ..over(nodes, vec![adding_one()], main)
    }
}

/// A full sequence of full sequences.
fn widest() -> RunnerInput {
    let group = Sequence(vec![call(0); limit::COMMANDS]);
    counting(Sequence(vec![group; limit::COMMANDS]))
}

/// What each level of the deepest nests is: one command alone, or beside a skip.
const LEVELS: [Around; 3] = [
    |inner| Sequence(vec![inner]),
    |inner| Sequence(vec![Skip, inner]),
    |inner| Sequence(vec![inner, Skip]),
];

/// A call at the greatest depth.
fn deepest(level: Around) -> RunnerInput {
    counting((1..limit::DEPTH).fold(call(0), |inner, _| level(inner)))
}

#[cfg(test)]
mod tests {
    use super::*;
    use crate::encode::runner_input;
    use crate::listing::{listing, run_input};

    /// The listing but for its first line, which has the steps.
    fn graph(input: &RunnerInput) -> String {
        let text = listing(&runner_input(input));
        text.lines()
            .skip(1)
            .map(|line| format!("{line}\n"))
            .collect()
    }

    /// Answer, steps and records.
    fn numbers(input: &RunnerInput) -> (u32, u32, u32) {
        let outcome = run_input(input);
        let (steps, records) = outcome.reported();
        (outcome.answer, steps, records)
    }

    #[test]
    fn groupings_of_a_row_differ_in_steps_alone() {
        for (around, row) in every_row() {
            let inputs = groupings_of(around, row);
            let (answer, _, records) = numbers(&inputs[0]);
            for input in &inputs {
                let (other, _, others) = numbers(input);
                assert_eq!((other, others), (answer, records), "{row:?}");
                assert_eq!(graph(input), graph(&inputs[0]), "{row:?}");
            }
            let steps: Vec<u32> = inputs.iter().map(|input| numbers(input).1).collect();
            assert!(
                steps[0] < steps[1] && steps[0] < steps[3],
                "{row:?} {steps:?}"
            );
        }
    }

    /// The first numbers of the groupings of a row at the place of this number.
    fn flat(place: usize, row: Row) -> (u32, u32, u32) {
        numbers(&groupings_of(PLACES[place].0, row)[0])
    }

    #[test]
    fn rows_end_as_they_should() {
        for answer in 3..=6 {
            assert_eq!(flat(0, Row::SecondStops(answer)), (answer, 3, 0));
        }
        assert_eq!(flat(0, Row::Succeeds), (0, 4, 3));
        assert_eq!(flat(0, Row::SecondFails), (1, 3, 0));
        assert_eq!(flat(1, Row::Succeeds), (0, 11, 6));
        assert_eq!(flat(1, Row::FirstBreaks), (0, 3, 0));
        assert_eq!(flat(1, Row::SecondBreaks), (0, 4, 1));
        assert_eq!(flat(1, Row::SecondFails), (0, 4, 0));
        assert_eq!(flat(2, Row::Succeeds), (0, 6, 4));
        assert_eq!(flat(2, Row::ThirdFails), (0, 6, 0));
        assert_eq!(flat(3, Row::Succeeds), (0, 6, 1));
        for branch in [4, 5] {
            assert_eq!(flat(branch, Row::Succeeds), (0, 6, 3));
            assert_eq!(flat(branch, Row::SecondFails), (1, 5, 0));
            assert_eq!(flat(branch + 2, Row::SecondBreaks), (0, 6, 1));
        }
    }

    #[test]
    fn nests_call_their_rule_each_time() {
        assert_eq!(numbers(&widest()), (0, 1 + 16 + 256, 256));
        assert_eq!(graph(&widest()), "node 0 none plain 256\n");
        let [alone, behind, before] = LEVELS.map(deepest);
        assert_eq!(numbers(&alone), (0, 16, 1));
        for with_skips in [behind, before] {
            assert_eq!(numbers(&with_skips), (0, 31, 1));
            assert_eq!(graph(&with_skips), graph(&alone));
        }
    }
}
