//! Random changes of a program that are more than wrapping: of the order of its commands, and of what is there at all.

use second::random::Random;
use second::tree::{Command, Program};

/// Two neighbours of a sequence change places.
pub fn exchanged(random: &mut Random, program: &Program) -> Option<Program> {
    changed(random, program, |random, parts| {
        let place = random.below(parts.len() - 1);
        parts.swap(place, place + 1);
    })
}

/// A command that is no skip goes, where others are left.
pub fn dropped(random: &mut Random, program: &Program) -> Option<Program> {
    changed(random, program, |random, parts| {
        let no_skips = |place: &usize| parts[*place] != Command::Skip;
        let places: Vec<usize> = (0..parts.len()).filter(no_skips).collect();
        if !places.is_empty() {
            parts.remove(random.pick(&places));
        }
    })
}

/// The program with one of the sequences of several commands in its main command changed, if there are any.
fn changed(
    random: &mut Random,
    program: &Program,
    change: impl Fn(&mut Random, &mut Vec<Command>),
) -> Option<Program> {
    let mut result = program.clone();
    let mut has_several = |number: &usize| match result.main.at_mut(*number) {
        Command::Sequence(parts) => parts.len() > 1,
        _ => false,
    };
    let numbers: Vec<usize> = (0..program.main.size()).filter(&mut has_several).collect();
    if numbers.is_empty() {
        return None;
    }
    if let Command::Sequence(parts) = result.main.at_mut(random.pick(&numbers)) {
        change(random, parts);
    }
    Some(result)
}
