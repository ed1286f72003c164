//! From commands as written to the commands of the image: procedures that aren't kept are written out, names become
//! numbers, long sequences are grouped; depth and the places of `break` are checked on the way. How deep calls of
//! kept procedures lead is not looked at here.

use super::complaint::{Place, Problem};
use super::keeping::Numbers;
use super::scopes::{Meaning, Scopes};
use super::syntax::*;
use crate::build::guarded;
use crate::tree::{limit, Command};

/// Where a command comes to stand.
#[derive(Clone, Copy)]
struct Position {
    depth: usize,
    /// Whether a loop is around it with no guard between.
    in_loop: bool,
}

impl Position {
    fn inside(self) -> Position {
        Position {
            depth: self.depth + 1,
            ..self
        }
    }

    fn in_guard(self) -> Position {
        Position {
            depth: self.depth + 1,
            in_loop: false,
        }
    }

    fn in_loop_body(self) -> Position {
        Position {
            depth: self.depth + 1,
            in_loop: true,
        }
    }
}

/// Why commands can't be put in terms of the image.
pub enum Obstacle {
    Depth(Problem),
    Length(Problem),
    Other(Problem),
}

impl From<Problem> for Obstacle {
    fn from(problem: Problem) -> Obstacle {
        Obstacle::Other(problem)
    }
}

/// The commands of an image: those of its procedures, and the main one.
pub struct Commands {
    pub procedures: Vec<Command>,
    pub main: Command,
}

/// The commands of an image whose procedures have these numbers.
pub fn commands(main: &MainText, scopes: &Scopes, numbers: &Numbers) -> Result<Commands, Obstacle> {
    let mut lowering = Lowering {
        scopes,
        numbers,
        commands: 0,
    };
    let main = lowering.outermost(&main.body, Scopes::OUTERMOST)?;
    let kept = scopes.procedures.iter().zip(numbers);
    let procedures = kept
        .filter(|(_, number)| number.is_some())
        .map(|(procedure, _)| lowering.outermost(procedure.body, procedure.scope))
        .collect::<Result<_, Obstacle>>()?;
    Ok(Commands { procedures, main })
}

struct Lowering<'a> {
    scopes: &'a Scopes<'a>,
    numbers: &'a Numbers,
    commands: usize,
}

impl Lowering<'_> {
    /// The main command, or that of a procedure.
    fn outermost(&mut self, text: &CommandText, scope: usize) -> Result<Command, Obstacle> {
        let position = Position {
            depth: 1,
            in_loop: false,
        };
        self.command(text, scope, position)
    }

    fn command(
        &mut self,
        text: &CommandText,
        scope: usize,
        position: Position,
    ) -> Result<Command, Obstacle> {
        if let CommandKind::Call(name) = &text.kind {
            if let Meaning::Procedure(number) = self.scopes.find(name, text.place, scope)? {
                return self.call(number, text.place, position);
            }
        }
        self.enter(text.place, position)?;
        match &text.kind {
            CommandKind::Call(name) => {
                let name = Name { text: name.clone(), place: text.place };
                self.rule_set(&[name], text.place, scope)
            }
            CommandKind::RuleSet(names) => self.rule_set(names, text.place, scope),
            CommandKind::Sequence(parts) => self.sequence(parts, scope, position),
            CommandKind::If(guard, then, otherwise) => self.guarded(false, [guard, then, otherwise], scope, position),
            CommandKind::Try(guard, then, otherwise) => self.guarded(true, [guard, then, otherwise], scope, position),
            CommandKind::Loop(body) => Ok(Command::Loop(Box::new(self.command(body, scope, position.in_loop_body())?))),
            CommandKind::Skip => Ok(Command::Skip),
            CommandKind::Fail => Ok(Command::Fail),
            CommandKind::Break if position.in_loop => Ok(Command::Break),
            CommandKind::Break => Err(Obstacle::Other(Problem::new(
                text.place,
                "`break` outside of a loop's body, expected a loop around it with no guard of `if` or `try` between",
            ))),
        }
    }

    /// The call of a kept procedure, or what a procedure that isn't kept has in it.
    fn call(&mut self, number: usize, at: Place, position: Position) -> Result<Command, Obstacle> {
        match self.numbers[number] {
            Some(kept) => {
                self.enter(at, position)?;
                Ok(Command::Procedure(kept))
            }
            None => {
                let procedure = &self.scopes.procedures[number];
                self.command(procedure.body, procedure.scope, position)
            }
        }
    }

    /// Counts a command of the image and looks at its depth. Stops before an image that is far too long is built.
    fn enter(&mut self, place: Place, position: Position) -> Result<(), Obstacle> {
        const LEAST_COMMAND_BYTES: usize = 3;
        self.commands += 1;
        if self.commands * LEAST_COMMAND_BYTES > limit::IMAGE_BYTES {
            let message = format!(
                "the image gets too long here, expected at most {} bytes",
                limit::IMAGE_BYTES
            );
            return Err(Obstacle::Length(Problem::new(place, message)));
        }
        check_depth(place, position)
    }

    fn guarded(
        &mut self,
        keep: bool,
        [guard, then, otherwise]: [&CommandText; 3],
        scope: usize,
        position: Position,
    ) -> Result<Command, Obstacle> {
        Ok(guarded(
            keep,
            self.command(guard, scope, position.in_guard())?,
            self.command(then, scope, position.inside())?,
            self.command(otherwise, scope, position.inside())?,
        ))
    }

    /// The numbers of the named rules. An empty set always fails, and is written as `fail`.
    fn rule_set(
        &mut self,
        names: &[Name],
        place: Place,
        scope: usize,
    ) -> Result<Command, Obstacle> {
        let mut numbers = Vec::new();
        for name in names {
            numbers.extend(self.scopes.find_rules(name, scope)?);
        }
        if numbers.len() > limit::RULE_NUMBERS {
            let message = format!(
                "a set of {} rules (a bidirectional edge makes two of one), expected at most {}",
                numbers.len(),
                limit::RULE_NUMBERS
            );
            return Err(Obstacle::Other(Problem::new(place, message)));
        }
        Ok(if numbers.is_empty() {
            Command::Fail
        } else {
            Command::RuleSet(numbers)
        })
    }

    fn sequence(
        &mut self,
        parts: &[CommandText],
        scope: usize,
        position: Position,
    ) -> Result<Command, Obstacle> {
        let mut commands = Vec::new();
        for (index, part) in parts.iter().enumerate() {
            let mut inside = position.inside();
            inside.depth += groups_around(index, parts.len());
            commands.push(self.command(part, scope, inside)?);
        }
        Ok(grouped(commands))
    }
}

fn check_depth(place: Place, position: Position) -> Result<(), Obstacle> {
    if position.depth > limit::DEPTH {
        let message = format!(
            "a command of depth {}, expected at most {}",
            position.depth,
            limit::DEPTH
        );
        return Err(Obstacle::Depth(Problem::new(place, message)));
    }
    Ok(())
}

/// A sequence of any length: while there are more than 16 commands, each 16 from the front become a sequence
/// of their own. A single command that is left over stays as it is. However a long sequence is grouped, only
/// the steps differ, as the theorem `alike-agree` of crates/wrapping shows.
fn grouped(mut commands: Vec<Command>) -> Command {
    while commands.len() > limit::COMMANDS {
        commands = commands.chunks(limit::COMMANDS).map(group).collect();
    }
    Command::Sequence(commands)
}

fn group(commands: &[Command]) -> Command {
    match commands {
        [alone] => alone.clone(),
        several => Command::Sequence(several.to_vec()),
    }
}

/// How many groups `grouped` puts around the command at `index` of `length`.
fn groups_around(mut index: usize, mut length: usize) -> usize {
    let mut groups = 0;
    while length > limit::COMMANDS {
        let is_alone = index == length - 1 && index.is_multiple_of(limit::COMMANDS);
        groups += usize::from(!is_alone);
        index /= limit::COMMANDS;
        length = length.div_ceil(limit::COMMANDS);
    }
    groups
}
