//! Moves parts of a drawn program into procedures, so that most of what it does stays: equal commands call the same one, some calls
//! are new, some procedures are not called, and they are numbered in any order.

use crate::depth;
use crate::encode;
use crate::placement::breaks_are_placed;
use crate::random::Random;
use crate::tree::{command_at_mut, limit, Command, Program};

/// Gives a program without procedures some, so that its main command comes to at most so many levels. Where there is no room for
/// them it stays as it is.
pub fn outline(random: &mut Random, program: &mut Program, levels: usize) {
    let changes = match random.weighted(&[60, 30, 10]) {
        0 => random.between(1, 4),
        1 => random.between(5, 12),
        _ => random.between(20, 40),
    };
    for _ in 0..changes {
        let mut next = program.clone();
        match random.weighted(&[60, 30, 10]) {
            0 => move_out(random, &mut next),
            1 => call_instead(random, &mut next),
            _ => add_uncalled(random, &mut next),
        }
        if fits(&next, levels) {
            *program = next;
        }
    }
    renumber(random, program);
}

/// Whether number, depth and length are within their limits. A call that closes a ring leads too deep.
fn fits(program: &Program, levels: usize) -> bool {
    program.procedures.len() <= limit::PROCEDURES
        && depth::check(program).is_ok_and(|depth| depth <= levels)
        && encode::program(program).len() <= limit::IMAGE_BYTES
}

/// Any command of the program.
fn any_command<'a>(random: &mut Random, program: &'a mut Program) -> &'a mut Command {
    let size: usize = program.commands().map(Command::size).sum();
    let number = random.below(size);
    command_at_mut(program.commands_mut(), number)
}

/// A command becomes a procedure and a call of it, and so do some others that are equal to it.
fn move_out(random: &mut Random, program: &mut Program) {
    let number = program.procedures.len() as u8;
    let place = any_command(random, program);
    if !breaks_are_placed(place, false) {
        return;
    }
    let body = std::mem::replace(place, Command::Procedure(number));
    for command in program.commands_mut() {
        share(random, command, &body, number);
    }
    program.procedures.push(body);
}

fn share(random: &mut Random, command: &mut Command, body: &Command, number: u8) {
    if command == body && random.chance(60) {
        *command = Command::Procedure(number);
    }
    for part in command.parts_mut() {
        share(random, part, body, number);
    }
}

/// A small command becomes a call of a procedure.
fn call_instead(random: &mut Random, program: &mut Program) {
    if program.procedures.is_empty() {
        return;
    }
    let number = random.below(program.procedures.len()) as u8;
    let place = any_command(random, program);
    if place.depth() == 1 {
        *place = Command::Procedure(number);
    }
}

/// A command of the program is there once more, as a procedure that nobody calls.
fn add_uncalled(random: &mut Random, program: &mut Program) {
    let body = any_command(random, program).clone();
    if breaks_are_placed(&body, false) {
        program.procedures.push(body);
    }
}

/// The procedures change their numbers.
fn renumber(random: &mut Random, program: &mut Program) {
    let mut numbers: Vec<u8> = (0..program.procedures.len() as u8).collect();
    random.shuffle(&mut numbers);
    for command in program.commands_mut() {
        rename(command, &numbers);
    }
    let mut numbered: Vec<_> = numbers.iter().zip(&program.procedures).collect();
    numbered.sort_by_key(|(number, _)| **number);
    program.procedures = numbered.into_iter().map(|(_, body)| body.clone()).collect();
}

fn rename(command: &mut Command, numbers: &[u8]) {
    if let Command::Procedure(number) = command {
        *number = numbers[usize::from(*number)];
    }
    for part in command.parts_mut() {
        rename(part, numbers);
    }
}
