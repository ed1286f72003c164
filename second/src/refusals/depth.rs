//! The refusals 19: procedures that call each other in a ring, and commands that lie too deep with each call replaced by its
//! procedure.

use super::form_of_commands::{wrapped, WRAPS};
use super::programs::{images, with_procedures, Images};
use crate::tree::limit::{COMMANDS, DEPTH, PROCEDURES};
use crate::tree::Command::{self, Procedure, Sequence, Skip};

/// The number 19.
pub(super) fn images_of_depth() -> Vec<Images> {
    let mut images = rings();
    images.extend(calls_in_rings());
    images.extend(depths());
    images.extend(depths_by_commands());
    images.extend(many_paths());
    images
}

fn refused(name: impl Into<String>, accepted: Vec<u8>, refused: Vec<u8>) -> Images {
    images(name, &accepted, &refused)
}

/// So many procedures, each of which calls the next and the last of which is this one.
fn chain(procedures: usize, last: Command) -> Vec<Command> {
    let calls = (1..procedures).map(|next| Procedure(next as u8));
    calls.chain([last]).collect()
}

/// Procedures that call each other, beside as many of which the last calls none.
fn rings() -> Vec<Images> {
    let mut list = Vec::new();
    for length in [1, 2, 3, PROCEDURES] {
        let not_called = |last| with_procedures(&chain(length, last), Skip);
        let name = format!("ring of {length}, not called");
        list.push(refused(name, not_called(Skip), not_called(Procedure(0))));
    }
    for length in [1, 2, PROCEDURES - 1] {
        let called = |last| with_procedures(&chain(length, last), Procedure(0));
        let name = format!("ring of {length}, called");
        list.push(refused(name, called(Skip), called(Procedure(0))));
    }
    let behind = |last: u8| with_procedures(&chain(4, Procedure(last)), Procedure(0));
    let beside = |last: u8| with_procedures(&[Skip, Skip, Procedure(last)], Procedure(0));
    let downwards = |first: u8| {
        let procedures = [Procedure(first), Skip, Procedure(0), Procedure(2)];
        with_procedures(&procedures, Procedure(3))
    };
    let none_behind = with_procedures(&chain(4, Skip), Procedure(0));
    list.extend([
        refused("ring of two behind two calls", none_behind, behind(2)),
        refused("ring beside what is called", beside(1), beside(2)),
        refused("ring by calls of lower numbers", downwards(1), downwards(3)),
    ]);
    list
}

/// The call that closes a ring of two at each place inside of a command.
fn calls_in_rings() -> Vec<Images> {
    let places = WRAPS.into_iter();
    places
        .map(|(words, wrap)| {
            let image = |number| {
                with_procedures(&[wrap(Procedure(1)), wrap(Procedure(number)), Skip], Skip)
            };
            refused(format!("ring through {words}"), image(2), image(0))
        })
        .collect()
}

/// Depth 17 by calls alone: as many procedures as there are in a row, and one less behind a call of the main command.
fn depths() -> Vec<Images> {
    let deepest = chain(PROCEDURES, Skip);
    let not_called = with_procedures(&deepest, Skip);
    let called = with_procedures(&deepest, Procedure(0));
    let deeper = with_procedures(&chain(PROCEDURES, Sequence(vec![Skip])), Skip);
    let one_less = |last| with_procedures(&chain(PROCEDURES - 1, last), Procedure(0));
    vec![
        refused("16 calls behind each other", not_called.clone(), called),
        refused(
            "15 calls and a sequence of one, not called",
            not_called,
            deeper,
        ),
        refused(
            "15 calls and a sequence of one",
            one_less(Skip),
            one_less(Sequence(vec![Skip])),
        ),
    ]
}

/// Depth 17 by a call at each place inside of commands: in the main command, in a procedure that is not called, and with all of the
/// depth in the procedure that is called.
fn depths_by_commands() -> Vec<Images> {
    let mut list = Vec::new();
    for (words, wrap) in WRAPS {
        let around = |times| wrapped(wrap, Procedure(0), times);
        let name = format!("depth 17 by a call in {words}");
        list.push(refused(
            name,
            with_procedures(&[Skip], around(DEPTH - 2)),
            with_procedures(&[Skip], around(DEPTH - 1)),
        ));
    }
    let (_, wrap) = WRAPS[0];
    let not_called = |times| with_procedures(&[Skip, wrapped(wrap, Procedure(0), times)], Skip);
    let callee = |times| with_procedures(&[wrapped(wrap, Skip, times)], Procedure(0));
    let both = |times| {
        let (inner, outer) = (wrapped(wrap, Skip, times), wrapped(wrap, Procedure(1), 4));
        with_procedures(&[outer, inner], wrapped(wrap, Procedure(0), 3))
    };
    list.extend([
        refused(
            "depth 17 in a procedure that is not called",
            not_called(DEPTH - 2),
            not_called(DEPTH - 1),
        ),
        refused(
            "depth 17 in what is called",
            callee(DEPTH - 2),
            callee(DEPTH - 1),
        ),
        refused("depth 17 by three parts", both(DEPTH - 10), both(DEPTH - 9)),
    ]);
    list
}

/// Procedures that each call the next one sixteen times: the check may not follow each path.
fn many_paths() -> Vec<Images> {
    let row = |count: usize| -> Vec<Command> {
        let calls = |next| Sequence(vec![Procedure(next as u8); COMMANDS]);
        (1..count).map(calls).chain([Skip]).collect()
    };
    let longest = (DEPTH - 1).div_ceil(2);
    let ring = |last| {
        let mut procedures = row(longest);
        procedures[longest - 1] = last;
        with_procedures(&procedures, Skip)
    };
    vec![
        refused(
            "16 procedures that each call the next 16 times",
            with_procedures(&row(longest), Procedure(0)),
            with_procedures(&row(PROCEDURES), Procedure(0)),
        ),
        refused(
            "8 procedures that each call the next 16 times in a ring",
            ring(Skip),
            ring(Procedure(0)),
        ),
    ]
}
