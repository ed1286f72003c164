//! Programs with procedures: a call at each place where a command can stand, with each way in which a procedure can end; fuel that
//! ends before, at and behind a call; and as many procedures, calls and levels as there may be.

use super::cases::{adding_one, marking};
use super::groupings::{red_to_blue, Around};
use super::modes::unmarked;
use crate::build::*;
use crate::encode::{self, node_slot, RunnerInput};
use crate::tree::Command::{Break, Fail, Procedure, Sequence, Skip};
use crate::tree::*;

pub fn procedures() -> Vec<RunnerInput> {
    let mut inputs: Vec<RunnerInput> = every_call()
        .into_iter()
        .map(|(place, body)| called(place, body))
        .collect();
    inputs.extend((0..=STEPS_OF_FUELLED).map(fuelled));
    inputs.extend([guard_without_fuel(), all_procedures(), sixteen_calls()]);
    inputs.extend([deepest(), widest(), loop_of_calls(), undone_calls()]);
    inputs
}

/// What the procedure that is called does.
#[derive(Clone, Copy, Debug, PartialEq, Eq)]
enum Body {
    Succeeds,
    /// It fails behind a change.
    Fails,
    /// It breaks a loop of its own behind a change.
    Breaks,
    /// It ends the run with this answer behind a change.
    Stops(u32),
}

impl Body {
    fn stops(self) -> Option<u32> {
        match self {
            Body::Stops(answer) => Some(answer),
            _ => None,
        }
    }
}

/// The places of a call. The last calls a procedure in which the call is.
const PLACES: [Around; 8] = [
    |it| it,
    |it| Sequence(vec![Skip, it, call(0)]),
    looped,
    |it| try_command(it, call(0), Skip),
    |it| if_command(it, call(0), Skip),
    |it| try_command(Skip, it, Fail),
    |it| if_command(Fail, Fail, it),
    |_| Procedure(OUTER),
];

/// The numbers of the procedure that is called, and of one that calls it. Procedure 0 is not called.
const INNER: u8 = 1;
const OUTER: u8 = 2;

fn every_call() -> Vec<(usize, Body)> {
    let mut every = Vec::new();
    for place in 0..PLACES.len() {
        every.extend([Body::Succeeds, Body::Fails, Body::Breaks].map(|body| (place, body)));
    }
    for place in [0, 3, 7] {
        every.extend((3..=6).map(|answer| (place, Body::Stops(answer))));
    }
    every
}

/// The call on two unmarked nodes that fill their table, with no slot for an edge. Rules 0 and 1 take a node from unmarked to red and
/// from red to blue.
fn called(place: usize, body: Body) -> RunnerInput {
    let command = match body {
        Body::Succeeds | Body::Stops(_) => Sequence(vec![call(0), call(1)]),
        Body::Fails => Sequence(vec![call(0), Fail]),
        Body::Breaks => looped(Sequence(vec![call(0), Break])),
    };
    let outer = Sequence(vec![Procedure(INNER), Skip]);
    let program = Program {
        rules: vec![marking(), red_to_blue(body.stops())],
        procedures: vec![Fail, command, outer],
        main: PLACES[place](Procedure(INNER)),
    };
    RunnerInput {
        records: if body.stops() == Some(5) { 1 } else { 10 },
        ..over(unmarked(&[false; 2]), &program)
    }
}

const AMPLE_FUEL: u32 = 400;

fn over(nodes: Vec<u8>, program: &Program) -> RunnerInput {
    RunnerInput {
        nodes,
        edges: vec![],
        records: 256,
        fuel: AMPLE_FUEL,
        program: encode::program(program),
    }
}

/// A call between two commands, with this fuel. It takes seven steps.
fn fuelled(fuel: u32) -> RunnerInput {
    let program = Program {
        rules: vec![marking(), red_to_blue(None)],
        procedures: vec![Sequence(vec![call(1), Skip])],
        main: Sequence(vec![call(0), Procedure(0), Skip]),
    };
    RunnerInput {
        fuel,
        ..over(unmarked(&[false]), &program)
    }
}

const STEPS_OF_FUELLED: u32 = 7;

/// A guard that is a call, whose procedure is not entered any more. The else does not run.
fn guard_without_fuel() -> RunnerInput {
    let program = Program {
        rules: vec![marking()],
        procedures: vec![call(0)],
        main: try_command(Procedure(0), Skip, call(0)),
    };
    RunnerInput {
        fuel: 2,
        ..over(unmarked(&[false]), &program)
    }
}

/// Sixteen procedures, of which each has a rule of its own that takes a node on to the next label, so that they succeed in one order
/// alone. The rules are not in the order of the procedures.
fn all_procedures() -> RunnerInput {
    let count = limit::PROCEDURES as u8;
    let labelled = |label: u8| [node(mark::NONE, &[Element::Constant(label.into())])];
    let on = |label: u8| node_rule(&labelled(label), &labelled(label + 1), 1);
    let rule_of = |number: u8| (5 * number + 3) % count;
    let calls = (0..count).map(|label| {
        let has_its_rule = |number: &u8| rule_of(*number) == label;
        Procedure(
            (0..count)
                .find(has_its_rule)
                .expect("5 and 16 have no common factor"),
        )
    });
    let program = Program {
        rules: (0..count).map(on).collect(),
        procedures: (0..count).map(|number| call(rule_of(number))).collect(),
        main: Sequence(calls.collect()),
    };
    over(node_slot(mark::NONE, false, &[0]).to_vec(), &program)
}

/// Runs these procedures over a node labelled 0 and a rule that adds 1 to it.
fn counting(procedures: Vec<Command>, main: Command) -> RunnerInput {
    let program = Program {
        rules: vec![adding_one()],
        procedures,
        main,
    };
    over(node_slot(mark::NONE, false, &[0]).to_vec(), &program)
}

/// One procedure, called sixteen times.
fn sixteen_calls() -> RunnerInput {
    let main = Sequence(vec![Procedure(0); limit::COMMANDS]);
    counting(vec![call(0)], main)
}

/// A call of a rule at the greatest depth, by calls of procedures alone.
fn deepest() -> RunnerInput {
    let calls = (1..limit::DEPTH - 1).map(|next| Procedure(next as u8));
    counting(calls.chain([call(0)]).collect(), Procedure(0))
}

/// Seven procedures that each call the next one sixteen times: more paths than there is fuel for.
fn widest() -> RunnerInput {
    let calls = |next| Sequence(vec![Procedure(next); limit::COMMANDS]);
    let levels = (limit::DEPTH as u8 - 2) / 2;
    let mut procedures: Vec<Command> = (1..=levels).map(calls).collect();
    procedures.push(call(0));
    counting(procedures, Procedure(0))
}

/// A loop whose body calls one procedure, which breaks its own loop, and another, which fails in the end.
fn loop_of_calls() -> RunnerInput {
    let program = Program {
        rules: vec![marking(), red_to_blue(None)],
        procedures: vec![looped(Sequence(vec![call(0), Break])), call(1)],
        main: looped(Sequence(vec![Procedure(0), Procedure(1)])),
    };
    over(unmarked(&[false; 3]), &program)
}

/// Changes of calls that a guard, a loop's last round and a failing try give back, and one that stays.
fn undone_calls() -> RunnerInput {
    let both = Sequence(vec![Procedure(0), Procedure(0)]);
    let parts = vec![
        if_command(both.clone(), Skip, Fail),
        try_command(Sequence(vec![both, Fail]), Fail, Skip),
        looped(Sequence(vec![Procedure(0), Fail])),
        Procedure(0),
    ];
    let program = Program {
        rules: vec![marking()],
        procedures: vec![call(0)],
        main: Sequence(parts),
    };
    over(unmarked(&[false; 2]), &program)
}

#[cfg(test)]
mod tests {
    use super::*;
    use crate::encode::runner_input;
    use crate::listing::{listing, run_input};

    /// Answer, steps and records.
    fn numbers(input: &RunnerInput) -> (u32, u32, u32) {
        let outcome = run_input(input);
        let (steps, records) = outcome.reported();
        (outcome.answer, steps, records)
    }

    /// Answer, steps and records of each place where the procedure succeeds, fails and breaks its own loop.
    const ENDINGS: [[(u32, u32, u32); 3]; 8] = [
        [(0, 4, 2), (1, 4, 0), (0, 5, 1)],
        [(0, 7, 3), (1, 6, 0), (0, 8, 2)],
        [(0, 12, 4), (0, 5, 0), (2, 400, 0)],
        [(0, 6, 3), (0, 6, 0), (0, 7, 2)],
        [(0, 6, 1), (0, 6, 0), (0, 7, 1)],
        [(0, 6, 2), (1, 6, 0), (0, 7, 1)],
        [(0, 6, 2), (1, 6, 0), (0, 7, 1)],
        [(0, 7, 2), (1, 6, 0), (0, 8, 1)],
    ];

    #[test]
    fn calls_end_as_their_procedures_do() {
        for (place, expected) in ENDINGS.into_iter().enumerate() {
            let bodies = [Body::Succeeds, Body::Fails, Body::Breaks];
            let found = bodies.map(|body| numbers(&called(place, body)));
            assert_eq!(found, expected, "place {place}");
        }
        for answer in 3..=6 {
            let at = |place| numbers(&called(place, Body::Stops(answer)));
            assert_eq!(
                [at(0), at(3), at(7)],
                [4, 5, 6].map(|steps| (answer, steps, 0))
            );
        }
    }

    #[test]
    fn fuel_ends_at_calls_and_behind_them() {
        for fuel in 0..STEPS_OF_FUELLED {
            assert_eq!(numbers(&fuelled(fuel)), (2, fuel, 0));
        }
        assert_eq!(numbers(&fuelled(STEPS_OF_FUELLED)), (0, 7, 2));
        assert_eq!(numbers(&guard_without_fuel()), (2, 2, 0));
    }

    fn listed(input: &RunnerInput) -> String {
        listing(&runner_input(input))
    }

    #[test]
    fn each_call_runs_the_procedure_of_its_number() {
        let all = "answer 0 steps 33 records 16\nnode 0 none plain 16\n";
        assert_eq!(listed(&all_procedures()), all);
        assert_eq!(listed(&sixteen_calls()), all);
        let deepest = listed(&deepest());
        assert_eq!(
            deepest,
            "answer 0 steps 16 records 1\nnode 0 none plain 1\n"
        );
        assert_eq!(numbers(&widest()), (2, 400, 0));
    }

    #[test]
    fn loops_and_guards_give_back_what_calls_changed() {
        let blue = "node 0 blue plain\nnode 1 blue plain\nnode 2 blue plain\n";
        let found = listed(&loop_of_calls());
        assert_eq!(found, format!("answer 0 steps 32 records 6\n{blue}"));
        let found = listed(&undone_calls());
        let left = "node 0 red plain\nnode 1 none plain\n";
        assert_eq!(found, format!("answer 0 steps 24 records 1\n{left}"));
    }
}
