//! The refusals 18.

use super::programs::{images, program, with_procedures, Images};
use crate::build::{if_command, looped, try_command};
use crate::tree::Command::{self, Break, Fail, Procedure, Sequence, Skip};

/// The number 18.
pub(super) fn images_of_placement() -> Vec<Images> {
    let mut images = breaks_outside_a_body();
    images.extend(breaks_in_a_guard());
    images.extend(breaks_of_procedures());
    images.extend(breaks_beside_calls());
    images
}

fn refused(name: &str, accepted: Command, refused: Command) -> Images {
    images(name, &program(accepted), &program(refused))
}

/// Commands that are legal as a loop's body alone.
fn bodies() -> [(&'static str, Command); 7] {
    [
        ("break alone", Break),
        ("break in a sequence", Sequence(vec![Skip, Break])),
        ("break in an if then", if_command(Skip, Break, Skip)),
        ("break in an if else", if_command(Skip, Skip, Break)),
        ("break in a try then", try_command(Skip, Break, Skip)),
        ("break in a try else", try_command(Skip, Skip, Break)),
        ("break behind a loop", Sequence(vec![looped(Break), Break])),
    ]
}

fn breaks_outside_a_body() -> Vec<Images> {
    let commands = bodies().into_iter();
    commands
        .map(|(name, command)| refused(name, looped(command.clone()), command))
        .collect()
}

/// A procedure whose break lies in no loop of its own, where the call lies in one and where there is no call.
fn breaks_of_procedures() -> Vec<Images> {
    let of = |words: &str, main: &Command, (name, body): (&str, Command)| {
        let image = |body| with_procedures(&[Skip, body], main.clone());
        let name = format!("{name} in a procedure that is {words}");
        images(name, &image(looped(body.clone())), &image(body))
    };
    let in_a_loop = looped(Sequence(vec![Procedure(1), Fail]));
    let called = bodies().map(|body| of("called in a loop", &in_a_loop, body));
    let [alone, in_a_sequence, ..] = bodies();
    let mut list = called.to_vec();
    list.extend([alone, in_a_sequence].map(|body| of("not called", &Skip, body)));
    list
}

/// Breaks where no loop reaches: over two calls, in a guard in a procedure, and in the main command beside the loop of a procedure.
fn breaks_beside_calls() -> Vec<Images> {
    let over_two = |body| {
        let loops = looped(Sequence(vec![Procedure(1), Fail]));
        with_procedures(&[loops, Procedure(2), body], Procedure(0))
    };
    let guarded = |guard| {
        let body = looped(try_command(guard, Break, Break));
        with_procedures(&[body], looped(Sequence(vec![Procedure(0), Break])))
    };
    let behind = |last| with_procedures(&[looped(Break)], Sequence(vec![Procedure(0), last]));
    vec![
        images(
            "break under a loop and two calls",
            &over_two(Skip),
            &over_two(Break),
        ),
        images(
            "break in a guard in a procedure",
            &guarded(Skip),
            &guarded(Break),
        ),
        images(
            "break behind the call of a loop",
            &behind(Skip),
            &behind(Break),
        ),
    ]
}

/// Each of these guards is legal without its break.
fn breaks_in_a_guard() -> Vec<Images> {
    let guards = [
        ("break in a guard", Skip, Break),
        (
            "break in a guard's sequence",
            Sequence(vec![Skip, Skip]),
            Sequence(vec![Skip, Break]),
        ),
        (
            "break in the then of an if in a guard",
            if_command(Skip, Skip, Skip),
            if_command(Skip, Break, Skip),
        ),
        (
            "break in the else of a try in a guard",
            try_command(Skip, Skip, Skip),
            try_command(Skip, Skip, Break),
        ),
        (
            "break in a guard behind its loop",
            Sequence(vec![looped(Break), Fail]),
            Sequence(vec![looped(Break), Break]),
        ),
    ];
    let mut list = Vec::new();
    for (name, accepted, broken) in guards {
        for (words, kind) in [("if", if_command as Three), ("try", try_command)] {
            let body = |guard: &Command| looped(kind(guard.clone(), Break, Break));
            list.push(refused(
                &format!("{words}: {name}"),
                body(&accepted),
                body(&broken),
            ));
        }
    }
    list
}

type Three = fn(Command, Command, Command) -> Command;
