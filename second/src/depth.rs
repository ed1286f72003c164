//! The *depth* of commands through calls: with each call replaced by its procedure, the call counting one level, commands lie at
//! most 16 deep, and so no procedure calls itself, directly or through others. This is asked of the main command and of each
//! procedure, called or not, of a program whose form and references are right.
//!
//! Each procedure is gone through once: how many levels it comes to is kept, so that it doesn't matter how often it is called.

use crate::tree::{limit, Command, Program};

/// A call that may not be there.
#[derive(Clone, Debug, PartialEq, Eq)]
pub struct Fault<'a> {
    pub call: &'a Command,
    pub reason: String,
}

/// How many levels the main command comes to, or the first call found that closes a ring or leads too deep.
pub fn check(program: &Program) -> Result<usize, Fault<'_>> {
    let mut walk = Walk {
        procedures: &program.procedures,
        row: Vec::new(),
        levels: vec![None; program.procedures.len()],
    };
    for number in 0..program.procedures.len() {
        walk.procedure(number)?;
    }
    walk.command(&program.main, 1)
}

struct Walk<'a> {
    procedures: &'a [Command],
    /// The procedures that are being gone through, each called by the one before.
    row: Vec<usize>,
    /// For each procedure that was gone through, how many levels it comes to.
    levels: Vec<Option<usize>>,
}

impl<'a> Walk<'a> {
    /// How many levels a procedure comes to that isn't in the row.
    fn procedure(&mut self, number: usize) -> Result<usize, Fault<'a>> {
        if let Some(levels) = self.levels[number] {
            return Ok(levels);
        }
        let procedures = self.procedures;
        self.row.push(number);
        let levels = self.command(&procedures[number], 1)?;
        self.row.pop();
        self.levels[number] = Some(levels);
        Ok(levels)
    }

    /// How many levels a command comes to that lies at this depth.
    fn command(&mut self, command: &'a Command, depth: usize) -> Result<usize, Fault<'a>> {
        if let Command::Procedure(number) = command {
            return self.call(command, usize::from(*number), depth);
        }
        let mut inside = 0;
        for part in command.parts() {
            inside = inside.max(self.command(part, depth + 1)?);
        }
        Ok(inside + 1)
    }

    fn call(&mut self, call: &'a Command, number: usize, depth: usize) -> Result<usize, Fault<'a>> {
        let fault = |reason| Err(Fault { call, reason });
        if let Some(start) = self.row.iter().position(|earlier| *earlier == number) {
            return fault(self.ring(start));
        }
        let levels = self.procedure(number)?;
        let deepest = depth + levels;
        if deepest > limit::DEPTH {
            return fault(format!(
                "with procedure {number} in its place the call comes to depth {deepest}, expected at most {}",
                limit::DEPTH
            ));
        }
        Ok(levels + 1)
    }

    /// The ring of the procedures in the row from this place on.
    fn ring(&self, start: usize) -> String {
        let numbers = self.row[start..].iter().map(|number| number.to_string());
        let ring: Vec<String> = numbers.collect();
        format!(
            "a ring of calls (procedure {} calls {}), expected procedures that don't call themselves",
            ring.join(" calls "),
            ring[0]
        )
    }
}
