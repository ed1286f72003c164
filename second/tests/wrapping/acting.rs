//! What a program comes to without its wrapping: the acting commands of its main command in order, those inside of them unwrapped
//! too. A call wraps as a sequence of one command does.

use second::tree::{Command, Program};

/// A command that is no sequence, no skip and no call.
#[derive(Clone, Debug, PartialEq, Eq)]
pub enum Acting {
    RuleSet(Vec<u8>),
    Guarded {
        keep: bool,
        guard: Vec<Acting>,
        then: Vec<Acting>,
        other: Vec<Acting>,
    },
    Loop(Vec<Acting>),
    Fail,
    Break,
}

pub fn acting(program: &Program) -> Vec<Acting> {
    acting_in(program, &program.main)
}

fn acting_in(program: &Program, command: &Command) -> Vec<Acting> {
    let acting = |command: &Command| acting_in(program, command);
    let one = match command {
        Command::Sequence(parts) => return parts.iter().flat_map(acting).collect(),
        Command::Skip => return vec![],
        Command::Procedure(number) => return acting(&program.procedures[usize::from(*number)]),
        Command::RuleSet(numbers) => Acting::RuleSet(numbers.clone()),
        Command::Guarded {
            keep,
            guard,
            then,
            other,
        } => Acting::Guarded {
            keep: *keep,
            guard: acting(guard),
            then: acting(then),
            other: acting(other),
        },
        Command::Loop(body) => Acting::Loop(acting(body)),
        Command::Fail => Acting::Fail,
        Command::Break => Acting::Break,
    };
    vec![one]
}
