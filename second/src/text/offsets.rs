//! Where rules and commands of a program stand in its image.

use crate::encode;
use crate::placement::parts;
use crate::tree::{Command, Program};

/// Asks whether a command is the wanted one; the flag says whether a break may stand there.
pub type Wanted<'a> = &'a dyn Fn(&Command, bool) -> bool;

/// The offset of a rule, or of what stands behind the rules for the number behind the last rule's.
pub fn offset_of_rule(program: &Program, number: usize) -> usize {
    let before = &program.rules[..number];
    before.iter().map(|rule| encode::rule(rule).len()).sum()
}

/// The offset of the first command that is wanted, in the procedures or in the main command, or of the main command.
pub fn offset_of_command(program: &Program, wanted: Wanted) -> usize {
    let mut at = offset_of_rule(program, program.rules.len());
    for body in &program.procedures {
        if let Some(found) = find(body, at + HEAD, false, wanted) {
            return found;
        }
        at += encode::procedure(body).len();
    }
    find(&program.main, at, false, wanted).unwrap_or(at)
}

/// The bytes of a field before its payload.
const HEAD: usize = 3;

fn find(command: &Command, at: usize, in_body: bool, wanted: Wanted) -> Option<usize> {
    if wanted(command, in_body) {
        return Some(at);
    }
    let mut at = at + head(command);
    for (part, in_body) in parts(command, in_body) {
        if let Some(found) = find(part, at, in_body, wanted) {
            return Some(found);
        }
        at += encode::command(part).len();
    }
    None
}

/// The bytes of a command before those inside of it: its tag, its length, and in a guarded one whether it keeps.
fn head(command: &Command) -> usize {
    match command {
        Command::Guarded { .. } => HEAD + 1,
        _ => HEAD,
    }
}
