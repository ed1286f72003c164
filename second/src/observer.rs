//! What a run tells an observer from outside. Nothing that a run does depends on who observes it.

use crate::host::Host;
use crate::tree::{Command, Element, Rule, Test};

/// What a run has just done.
#[derive(Clone, Copy, Debug)]
pub enum Event<'a> {
    /// A command was entered, which is one step.
    Entered(&'a Command),
    /// A guard or a loop body begins. Once it has ended its changes are kept or undone, unless the whole run ends.
    Attempted,
    /// The changes of what was attempted last stay.
    Kept,
    /// The procedure of the call that was entered last and hasn't returned yet has ended, with a fail or otherwise.
    Returned { failed: bool },
    /// A guard's changes are given back.
    GuardUndone,
    /// A failing loop body's changes are given back.
    BodyUndone,
    /// A placement keeps the matching rules 1 to 4 and breaks the dangling condition.
    Dangled,
    /// The tests of a rule at a placement that keeps the matching rules 1 to 5, whether each holds, and whether each asks for
    /// a degree of a node that has a loop.
    Tested(&'a [Test], &'a [bool], &'a [bool]),
    /// A match of the rule was found; whether each left node is on a root.
    Matched(&'a Rule, &'a [bool]),
    /// The values of the variables in the match that was found; a variable that isn't on the left has none.
    Bound(&'a [Option<&'a [i32]>]),
    /// An element of one of the rule's right labels is evaluated.
    Evaluated(&'a Rule, &'a Element),
    /// A right label of so many elements came to so many atoms, which may be too many to hold.
    LabelMade { elements: usize, atoms: usize },
    /// A node keeps this root flag, since a preserving rule has it unrooted on both sides.
    RootFlagKept(bool),
    /// A new item takes a slot; the slots of the left items of its kind.
    Placed(usize, &'a [usize]),
    /// A rule was applied, which left this graph.
    Applied(&'a Host),
}

pub trait Observer {
    fn sees(&mut self, event: Event);
}

/// The observer of plain runs, who looks away.
pub struct Unobserved;

impl Observer for Unobserved {
    fn sees(&mut self, _: Event) {}
}
