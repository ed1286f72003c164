//! Random command trees over given rules. Loops mostly have a body that fails or breaks at some time, and
//! breaks stand only where they may.

use super::rules::Drawn;
use crate::build::*;
use crate::random::Random;
use crate::tree::*;

struct Writer<'a> {
    random: &'a mut Random,
    rules: usize,
    /// The rules over which a loop ends.
    ending: Vec<u8>,
    /// The rule that comes next in the order in which they were drawn.
    next: usize,
    /// How many commands may still be written; then only small ones follow.
    budget: usize,
}

/// Where a command stands: how many levels there are for it, and whether a break may stand there.
#[derive(Clone, Copy)]
struct Place {
    levels: usize,
    breaks: bool,
}

impl Place {
    fn below(self) -> Place {
        Place {
            levels: self.levels - 1,
            ..self
        }
    }

    fn guard(self) -> Place {
        Place {
            levels: self.levels - 1,
            breaks: false,
        }
    }

    fn body(self) -> Place {
        Place {
            levels: self.levels - 1,
            breaks: true,
        }
    }
}

/// A command of at most so many levels, with about `budget` others in it.
pub fn main_command(random: &mut Random, rules: &[Drawn], budget: usize, levels: usize) -> Command {
    let ending = (0..rules.len())
        .filter(|index| rules[*index].ends)
        .map(|index| index as u8)
        .collect();
    let mut writer = Writer {
        random,
        rules: rules.len(),
        ending,
        next: 0,
        budget,
    };
    let top = Place {
        levels,
        breaks: false,
    };
    let main = writer.main(top);
    if random.chance(6) {
        deepened(random, main, levels)
    } else {
        main
    }
}

impl Writer<'_> {
    fn main(&mut self, place: Place) -> Command {
        match self.random.weighted(&[8, 12, 6, 74]) {
            0 => self.rule_set(),
            1 => self.repeat(place),
            2 => self.branch(place),
            _ => {
                let long = self.random.chance(4);
                let count = self
                    .random
                    .between(1, if long { limit::COMMANDS } else { 5 });
                self.sequence(place, count)
            }
        }
    }

    fn sequence(&mut self, place: Place, count: usize) -> Command {
        Command::Sequence((0..count).map(|_| self.item(place.below())).collect())
    }

    /// One command of a sequence.
    fn item(&mut self, place: Place) -> Command {
        if self.budget == 0 || place.levels < 5 {
            return self.small(place);
        }
        self.budget -= 1;
        match self.random.weighted(&[18, 30, 36, 8, 6]) {
            0 => self.attempt(place),
            1 => self.branch(place),
            2 => self.repeat(place),
            3 => {
                let count = self.random.between(1, 3);
                self.sequence(place, count)
            }
            _ => self.small(place),
        }
    }

    /// A command of few levels.
    fn small(&mut self, place: Place) -> Command {
        let breaks = if place.breaks { 20 } else { 0 };
        match self.random.weighted(&[48, 22, 1, breaks]) {
            0 => self.attempt(place),
            1 => Command::Skip,
            2 => Command::Fail,
            _ => Command::Break,
        }
    }

    /// A rule set by itself, or one that may fail without harm.
    fn attempt(&mut self, place: Place) -> Command {
        if place.levels < 2 || self.random.chance(25) {
            return self.rule_set();
        }
        if !self.ending.is_empty() && self.random.chance(45) {
            return looped(self.ending_set());
        }
        try_command(self.rule_set(), Command::Skip, Command::Skip)
    }

    fn rule_set(&mut self) -> Command {
        if self.rules == 0 {
            return if self.random.chance(60) {
                Command::Skip
            } else {
                Command::Fail
            };
        }
        let count = match self.random.weighted(&[50, 22, 24, 4]) {
            0 => {
                self.next += 1;
                return call(((self.next - 1) % self.rules) as u8);
            }
            1 => 1,
            2 => self.random.between(2, 4),
            _ => self.random.between(5, limit::RULE_NUMBERS),
        };
        let all: Vec<u8> = (0..self.rules as u8).collect();
        Command::RuleSet(self.some_of(&all, count))
    }

    /// A rule set that fails at some time if it is repeated, as far as there are rules for that.
    fn ending_set(&mut self) -> Command {
        if self.ending.is_empty() || self.random.chance(4) {
            return self.rule_set();
        }
        let count = self.random.pick(&[1, 1, 1, 2, 2, 3]);
        Command::RuleSet(self.some_of(&self.ending.clone(), count))
    }

    /// So many of the rules in any order, each once unless all of them are too few; then some come again now and
    /// then.
    fn some_of(&mut self, rules: &[u8], count: usize) -> Vec<u8> {
        let mut numbers = rules.to_vec();
        self.random.shuffle(&mut numbers);
        if numbers.len() < count && self.random.chance(20) {
            numbers.resize_with(count, || self.random.pick(rules));
        }
        numbers.truncate(count);
        numbers
    }

    fn branch(&mut self, place: Place) -> Command {
        let guard = self.guard(place.guard());
        let yes = self.item(place.below());
        let no = if self.random.chance(50) {
            Command::Skip
        } else {
            self.item(place.below())
        };
        if self.random.chance(50) {
            if_command(guard, yes, no)
        } else {
            try_command(guard, yes, no)
        }
    }

    fn guard(&mut self, place: Place) -> Command {
        if place.levels < 4 {
            return self.rule_set();
        }
        match self.random.weighted(&[50, 18, 6, 12, 8, 3, 3]) {
            0 => self.rule_set(),
            1 => Command::Sequence(vec![self.rule_set(), self.rule_set()]),
            2 => Command::Sequence(vec![self.rule_set(), Command::Fail]),
            3 => self.repeat(place),
            4 => self.branch(place),
            5 => Command::Skip,
            _ => Command::Fail,
        }
    }

    fn repeat(&mut self, place: Place) -> Command {
        if place.levels < 6 {
            return looped(self.ending_set());
        }
        looped(self.body(place.body()))
    }

    /// The body of a loop.
    fn body(&mut self, place: Place) -> Command {
        let inner = place.below();
        let ending = if self.ending.is_empty() { 3 } else { 38 };
        match self
            .random
            .weighted(&[ending, ending / 2, 14, 14, 6, ending / 4, 1])
        {
            0 => self.ending_set(),
            1 => Command::Sequence(vec![self.ending_set(), self.second_part(inner)]),
            2 => Command::Sequence(vec![self.item(inner), Command::Break]),
            3 => self.guarded_break(place),
            4 => Command::Sequence(vec![self.rule_set(), self.item(inner), Command::Fail]),
            5 => Command::Sequence(vec![
                self.ending_set(),
                self.repeat(inner),
                self.guarded_break(inner),
            ]),
            _ => self.item(place),
        }
    }

    /// What follows an application in a body; often it fails, so that the application is undone.
    fn second_part(&mut self, place: Place) -> Command {
        match self.random.weighted(&[40, 20, 40]) {
            0 => self.rule_set(),
            1 => {
                let guard = self.guard(place.guard());
                if self.random.chance(50) {
                    if_command(guard, Command::Skip, Command::Fail)
                } else {
                    try_command(guard, Command::Fail, Command::Skip)
                }
            }
            _ => self.item(place),
        }
    }

    /// Goes on while a guard succeeds, or until it does, and breaks else.
    fn guarded_break(&mut self, place: Place) -> Command {
        let guard = match self.random.chance(75) {
            true => self.ending_set(),
            false => Command::Sequence(vec![self.ending_set(), self.rule_set()]),
        };
        match self.random.below(4) {
            0 => if_command(guard.clone(), guard, Command::Break),
            1 => try_command(guard, Command::Break, self.ending_set()),
            _ => try_command(guard, self.small(place.below()), Command::Break),
        }
    }
}

/// The command inside others that keep its effect mostly, so many levels in all.
pub fn deepened(random: &mut Random, mut command: Command, levels: usize) -> Command {
    use Command::{Break, Fail, Sequence, Skip};
    while command.depth() < levels {
        let one_level = command.depth() + 1 == levels;
        command = match random.below(if one_level { 5 } else { 7 }) {
            0 => Sequence(vec![command]),
            1 => if_command(Skip, command, Fail),
            2 => try_command(Fail, Fail, command),
            3 => try_command(command, Skip, Skip),
            4 => Sequence(vec![Skip, command]),
            5 => looped(Sequence(vec![command, Break])),
            _ => if_command(looped(Break), command, Fail),
        };
    }
    command
}
