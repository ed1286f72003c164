//! The *placement* of break: each break lies in a loop body of its own procedure, or of the main command, with no guard between
//! them. A loop around a call does not reach into the procedure.

use crate::tree::{Command, Program};

pub fn check(program: &Program) -> bool {
    program
        .commands()
        .all(|command| breaks_are_placed(command, false))
}

/// Whether each break of the command is placed, where `in_body` says that a break may stand at the
/// command itself.
pub fn breaks_are_placed(command: &Command, in_body: bool) -> bool {
    if *command == Command::Break {
        return in_body;
    }
    parts(command, in_body)
        .into_iter()
        .all(|(part, in_body)| breaks_are_placed(part, in_body))
}

/// The commands directly inside of a command, each with whether a break may stand there.
pub fn parts(command: &Command, in_body: bool) -> Vec<(&Command, bool)> {
    let may_break = |place| match command {
        Command::Loop(_) => true,
        Command::Guarded { .. } if place == 0 => false,
        _ => in_body,
    };
    let parts = command.parts().into_iter().enumerate();
    parts
        .map(|(place, part)| (part, may_break(place)))
        .collect()
}
