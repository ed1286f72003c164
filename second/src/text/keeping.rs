//! Which procedures of a text become procedures of the image. The others are written out where they are called.

use super::scopes::{Meaning, Scopes};
use super::syntax::{CommandKind, CommandText};
use crate::tree::limit;

/// What is to become of the procedures of a text.
#[derive(Clone, Copy, Debug, Default, PartialEq, Eq)]
pub enum Procedures {
    /// Those stay that an image can hold.
    #[default]
    Kept,
    WrittenOut,
}

/// For each procedure of a text its number in the image, or none where it is written out.
pub type Numbers = Vec<Option<u8>>;

/// All are written out.
pub fn no_numbers(scopes: &Scopes) -> Numbers {
    vec![None; scopes.procedures.len()]
}

/// The first 16 that have no free break have numbers, in the order in which their declarations begin. A break is free where it
/// lies in no loop of its own procedure, or in one with a guard between; where the procedure is written out, a loop around
/// the call may be its own.
pub fn numbers(scopes: &Scopes) -> Numbers {
    let mut breaks = Breaks {
        scopes,
        known: vec![[None; 2]; scopes.procedures.len()],
    };
    let mut next = 0..limit::PROCEDURES as u8;
    (0..scopes.procedures.len())
        .map(|number| match breaks.placed_in(number, false) {
            true => next.next(),
            false => None,
        })
        .collect()
}

struct Breaks<'a> {
    scopes: &'a Scopes<'a>,
    /// For each procedure whether its breaks are placed, where it is called outside of every loop and where it is called in one, as
    /// far as that is known.
    known: Vec<[Option<bool>; 2]>,
}

impl Breaks<'_> {
    fn placed_in(&mut self, number: usize, in_loop: bool) -> bool {
        let place = usize::from(in_loop);
        if let Some(known) = self.known[number][place] {
            return known;
        }
        let procedure = &self.scopes.procedures[number];
        let placed = self.placed(procedure.body, procedure.scope, in_loop);
        self.known[number][place] = Some(placed);
        placed
    }

    /// Whether each break of the command lies in a loop with no guard between, those of the procedures that it calls too.
    fn placed(&mut self, text: &CommandText, scope: usize, in_loop: bool) -> bool {
        match &text.kind {
            CommandKind::Break => in_loop,
            CommandKind::Call(name) => match self.scopes.find(name, text.place, scope) {
                Ok(Meaning::Procedure(number)) => self.placed_in(number, in_loop),
                _ => true,
            },
            CommandKind::Sequence(parts) => {
                parts.iter().all(|part| self.placed(part, scope, in_loop))
            }
            CommandKind::If(guard, then, otherwise) | CommandKind::Try(guard, then, otherwise) => {
                self.placed(guard, scope, false)
                    && self.placed(then, scope, in_loop)
                    && self.placed(otherwise, scope, in_loop)
            }
            CommandKind::Loop(body) => self.placed(body, scope, true),
            CommandKind::RuleSet(_) | CommandKind::Skip | CommandKind::Fail => true,
        }
    }
}
