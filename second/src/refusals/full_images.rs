//! Images of the greatest length, and a byte more, that are full of guarded commands, in today's form and in the old one.

use super::{refusal, run_with, Refusal, RunCall};
use crate::build::{node, node_rule};
use crate::encode::{self, field};
use crate::layout::Layout;
use crate::tree::limit::{COMMANDS, IMAGE_BYTES, RULE_NUMBERS};
use crate::tree::{mark, Command};

/// The number 14.
pub(super) fn image_length(layout: &Layout) -> Refusal<RunCall> {
    let name = "image of 8,193 bytes full of guarded commands";
    refusal(name, 14, longest(layout, today), run(layout, image(IMAGE_BYTES + 1, today)))
}

/// The number 16.
pub(super) fn old_form(layout: &Layout) -> Refusal<RunCall> {
    let name = "image of 8,192 bytes in the old form";
    refusal(name, 16, longest(layout, today), longest(layout, old))
}

fn longest(layout: &Layout, write: Write) -> RunCall {
    run(layout, image(IMAGE_BYTES, write))
}

/// A run with enough fuel for all commands of an image of the greatest length: each takes 3 bytes or more, and none is
/// entered twice.
fn run(layout: &Layout, program: Vec<u8>) -> RunCall {
    run_with(layout, |call| {
        call.program = program.clone();
        call.fuel = IMAGE_BYTES as u32 / 3;
    })
}

/// Writes a guarded command: whether it keeps a successful guard's changes, and its three commands.
type Write = fn(bool, &[u8]) -> Vec<u8>;

fn today(keep: bool, commands: &[u8]) -> Vec<u8> {
    field(0x59, &[&[u8::from(keep)], commands].concat())
}

fn old(keep: bool, commands: &[u8]) -> Vec<u8> {
    field(if keep { 0x53 } else { 0x52 }, commands)
}

/// An image of so many bytes: a rule that marks a plain node red, and guarded commands over it.
fn image(bytes: usize, write: Write) -> Vec<u8> {
    let plain = node(mark::NONE, &[]);
    let rule = encode::rule(&node_rule(&[plain], &[node(mark::RED, &[])], 1));
    let command = full_command(bytes - rule.len(), false, write);
    [rule, command].concat()
}

/// A guarded command of so many bytes, or a sequence of such commands, every second of which keeps.
fn full_command(bytes: usize, keep: bool, write: Write) -> Vec<u8> {
    let guarded = |numbers: usize| write(keep, &guard_and_skips(numbers));
    let least = guarded(1).len();
    if bytes < least + RULE_NUMBERS {
        return guarded(bytes - least + 1);
    }
    let payload = bytes - HEAD;
    let parts = (payload / least).min(COMMANDS);
    let share = |part| payload / parts + usize::from(part < payload % parts);
    let commands = (0..parts).flat_map(|part| full_command(share(part), part % 2 == 1, write));
    field(0x51, &commands.collect::<Vec<u8>>())
}

/// The bytes of a field before its payload.
const HEAD: usize = 3;

/// The rule so many times as a guard, then skip, else skip.
fn guard_and_skips(numbers: usize) -> Vec<u8> {
    let skip = encode::command(&Command::Skip);
    let guard = encode::command(&Command::RuleSet(vec![0; numbers]));
    [guard, skip.clone(), skip].concat()
}
