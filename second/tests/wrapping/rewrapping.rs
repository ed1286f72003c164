//! Random changes of a program's wrapping, which keep it legal.

use second::depth;
use second::encode;
use second::random::Random;
use second::tree::{limit, Command, Program};

/// A change of wrapping at one command.
#[derive(Clone, Copy, Debug, PartialEq, Eq)]
pub enum Change {
    /// Any command becomes a sequence of one.
    Wrap,
    /// A sequence of one becomes its command.
    Unwrap,
    /// Some neighbours become a sequence of their own.
    Group,
    /// A sequence inside the sequence is spliced into it.
    Splice,
    /// Skips come before, between and behind.
    AddSkips,
    /// A skip goes that stands beside other commands.
    DropSkip,
    /// A sequence of skips alone becomes a skip.
    OneSkip,
}

pub const CHANGES: [Change; 7] = [
    Change::Wrap,
    Change::Unwrap,
    Change::Group,
    Change::Splice,
    Change::AddSkips,
    Change::DropSkip,
    Change::OneSkip,
];

/// A program that differs only in wrapping, and how often each change was made.
pub fn rewrapped(random: &mut Random, program: &Program) -> (Program, [usize; CHANGES.len()]) {
    let mut result = program.clone();
    let mut made = [0; CHANGES.len()];
    for _ in 0..random.pick(&[2, 8, 20, 80]) {
        let mut next = result.clone();
        let outermost = random.below(next.commands().count());
        let outermost = next.commands_mut().nth(outermost).expect("one of them");
        let number = random.below(outermost.size());
        let change = random.below(CHANGES.len());
        let changed = changed(random, CHANGES[change], outermost.at_mut(number));
        if changed && fits(&next) {
            made[change] += 1;
            result = next;
        }
    }
    (result, made)
}

/// Whether depth, that through calls too, and image are within their limits.
fn fits(program: &Program) -> bool {
    program.commands().all(|it| it.depth() <= limit::DEPTH)
        && depth::check(program).is_ok()
        && encode::program(program).len() <= limit::IMAGE_BYTES
}

/// Makes the change, or says that it can't be made here.
fn changed(random: &mut Random, change: Change, command: &mut Command) -> bool {
    if change == Change::Wrap {
        *command = Command::Sequence(vec![command.clone()]);
        return true;
    }
    let Command::Sequence(parts) = command else {
        return false;
    };
    match change {
        Change::Wrap => unreachable!("any command can be wrapped"),
        Change::Unwrap if parts.len() == 1 => *command = parts[0].clone(),
        Change::OneSkip if parts.iter().all(is_skip) => *command = Command::Skip,
        Change::Group => group(random, parts),
        Change::Splice => return splice(random, parts),
        Change::AddSkips if parts.len() < limit::COMMANDS => add_skips(random, parts),
        Change::DropSkip if parts.len() > 1 => return drop_skip(random, parts),
        _ => return false,
    }
    true
}

fn is_skip(command: &Command) -> bool {
    *command == Command::Skip
}

fn group(random: &mut Random, parts: &mut Vec<Command>) {
    let start = random.below(parts.len());
    let end = random.between(start + 1, parts.len());
    let inner = Command::Sequence(parts[start..end].to_vec());
    parts.splice(start..end, [inner]);
}

/// One skip mostly, or as many as there is room for.
fn add_skips(random: &mut Random, parts: &mut Vec<Command>) {
    let room = limit::COMMANDS - parts.len();
    for _ in 0..random.pick(&[1, 1, 1, 1, 1, room]) {
        parts.insert(random.between(0, parts.len()), Command::Skip);
    }
}

/// The place of a command of this kind, where there is one.
fn pick(random: &mut Random, parts: &[Command], kind: impl Fn(&Command) -> bool) -> Option<usize> {
    let places: Vec<usize> = (0..parts.len()).filter(|it| kind(&parts[*it])).collect();
    (!places.is_empty()).then(|| random.pick(&places))
}

fn splice(random: &mut Random, parts: &mut Vec<Command>) -> bool {
    let room = limit::COMMANDS - (parts.len() - 1);
    let fits = |it: &Command| matches!(it, Command::Sequence(inner) if inner.len() <= room);
    let Some(place) = pick(random, parts, fits) else {
        return false;
    };
    let inner: Vec<Command> = parts[place].parts().into_iter().cloned().collect();
    parts.splice(place..=place, inner);
    true
}

fn drop_skip(random: &mut Random, parts: &mut Vec<Command>) -> bool {
    let place = pick(random, parts, is_skip);
    place.map(|place| parts.remove(place)).is_some()
}
