//! Damage to procedures and calls: answers 16 to 19.

use super::commands::deepened;
use crate::build::{if_command, looped};
use crate::encode::{self, field};
use crate::random::Random;
use crate::tree::Command::{Break, Fail, Procedure, Sequence, Skip};
use crate::tree::{limit, Command, Program};

/// Answer 17, 18 or 19.
pub fn break_calls(random: &mut Random, program: &mut Program) {
    match random.below(4) {
        0 => call_nothing(random, program),
        1 => break_outside(random, program),
        2 => close_a_ring(random, program),
        _ => call_too_deep(random, program),
    }
}

/// The number of a procedure, which comes to be if there is none.
fn some_procedure(random: &mut Random, program: &mut Program) -> usize {
    if program.procedures.is_empty() {
        program.procedures.push(Skip);
    }
    random.below(program.procedures.len())
}

/// Puts a command behind another.
fn put_behind(first: &mut Command, second: Command) {
    let whole = std::mem::replace(first, Skip);
    *first = Sequence(vec![whole, second]);
}

/// Answer 17: a call of a procedure that isn't there.
fn call_nothing(random: &mut Random, program: &mut Program) {
    let count = program.procedures.len() as u8;
    let missing = Procedure(random.pick(&[count, count, count + 1, 16, 0xFF]));
    match random.chance(50) {
        true => put_behind(&mut program.main, missing),
        false => {
            let number = some_procedure(random, program);
            let missing = Procedure(program.procedures.len() as u8);
            program.procedures[number] = if_command(Fail, missing, Skip);
        }
    }
}

/// Answer 18: a break in no loop of its own procedure, which is called in a loop or not at all.
fn break_outside(random: &mut Random, program: &mut Program) {
    let number = some_procedure(random, program);
    let body = &mut program.procedures[number];
    match random.below(3) {
        0 => put_behind(body, Break),
        1 => *body = looped(if_command(Break, Skip, Break)),
        _ => *body = if_command(Skip, Break, Skip),
    }
    if random.chance(50) {
        put_behind(&mut program.main, looped(Procedure(number as u8)));
    }
}

/// Answer 19: a procedure calls itself, or another that calls it.
fn close_a_ring(random: &mut Random, program: &mut Program) {
    let first = some_procedure(random, program);
    let last = random.below(program.procedures.len());
    put_behind(&mut program.procedures[first], Procedure(last as u8));
    if first != last {
        put_behind(&mut program.procedures[last], Procedure(first as u8));
    }
}

/// Answer 19: commands that lie 17 deep or deeper with a procedure in the place of its call.
fn call_too_deep(random: &mut Random, program: &mut Program) {
    let number = some_procedure(random, program);
    let levels = random.between(2, limit::DEPTH);
    let body = deepened(random, Fail, levels);
    program.procedures[number] = body;
    let call = Procedure(number as u8);
    let above = limit::DEPTH + 1 - levels + random.pick(&[0, 0, 0, 1]);
    program.main = deepened(random, call, above.min(limit::DEPTH));
}

/// Answer 16: procedures where none may stand, too many or without exactly one command, and calls without exactly one byte.
pub fn break_procedures(random: &mut Random, program: &Program, image: &mut Vec<u8>) {
    let mut rules: Vec<Vec<u8>> = program.rules.iter().map(encode::rule).collect();
    let mut procedures: Vec<Vec<u8>> = program.procedures.iter().map(encode::procedure).collect();
    let mut main = encode::command(&program.main);
    let skip = encode::command(&Skip);
    let one = encode::procedure(&Skip);
    let at = random.between(0, procedures.len());
    match random.below(9) {
        0 if !rules.is_empty() => rules.insert(random.below(rules.len()), one),
        0 | 1 => main.extend(one),
        2 => procedures.insert(at, field(0x17, &[])),
        3 => procedures.insert(at, field(0x17, &skip.repeat(2))),
        4 => procedures.resize(limit::PROCEDURES + 1, one),
        5 => main = field(0x51, &[one, main].concat()),
        6 => procedures.insert(
            at,
            field(0x17, &field(0x58, &vec![0; random.pick(&[0, 2, 3])])),
        ),
        7 => {
            main = field(
                0x51,
                &[main, field(0x58, &vec![0; random.pick(&[0, 2, 256])])].concat(),
            )
        }
        _ => procedures.insert(at, one[..random.between(1, one.len() - 1)].to_vec()),
    }
    *image = [rules.concat(), procedures.concat(), main].concat();
}
