//! The refusals 16 of commands.

use super::programs::{images, program, rule, Images};
use crate::build::{call, if_command, looped, try_command};
use crate::encode::{self, field};
use crate::tree::Command::{self, Fail, Sequence, Skip};

const SKIP: [u8; 3] = [0x55, 0, 0];
const FAIL: [u8; 3] = [0x56, 0, 0];

pub(super) fn images_of_commands() -> Vec<Images> {
    let image = |command: &[u8]| [&encode::rule(&rule())[..], command].concat();
    let mut list = form_of_rule_set();
    list.extend(form_of_sequence());
    list.extend(form_of_guarded("if", 0));
    list.extend(form_of_guarded("try", 1));
    list.extend(form_of_guarded_byte());
    list.extend(form_of_other_tags());
    list.extend(form_of_loop());
    list.extend(form_of_empty_commands());
    let commands = list.into_iter();
    commands
        .map(|(name, accepted, refused)| images(name, &image(&accepted), &image(&refused)))
        .collect()
}

fn form_of_rule_set() -> Vec<Images> {
    vec![
        images("rule set of none", &field(0x50, &[0]), &field(0x50, &[])),
        images(
            "rule set of 9",
            &field(0x50, &[0; 8]),
            &field(0x50, &[0; 9]),
        ),
    ]
}

fn form_of_sequence() -> Vec<Images> {
    let of = |commands: &[&[u8]]| field(0x51, &commands.concat());
    let refused = |name: &str, command: &[u8]| images(name, &of(&[&SKIP]), command);
    vec![
        refused("sequence of none", &of(&[])),
        images(
            "sequence of 17",
            &of(&[&SKIP[..]; 16]),
            &of(&[&SKIP[..]; 17]),
        ),
        refused("sequence with a byte behind", &of(&[&SKIP, &[0]])),
        refused(
            "sequence that ends in a rule",
            &of(&[&SKIP, &encode::rule(&rule())]),
        ),
        refused("sequence with tag 0x5a", &of(&[&[0x5a, 0, 0]])),
        refused(
            "sequence with a command longer than itself",
            &of(&[&[0x55, 0, 1]]),
        ),
    ]
}

/// A guarded command with this byte before its commands.
fn guarded(byte: u8, commands: &[u8]) -> Vec<u8> {
    field(0x59, &[&[byte], commands].concat())
}

fn form_of_guarded(words: &str, byte: u8) -> Vec<Images> {
    let legal = guarded(byte, &SKIP.repeat(3));
    let refused = |name: String, commands: &[u8]| images(name, &legal, &guarded(byte, commands));
    let mut list = Vec::new();
    for count in [0, 1, 2, 4] {
        let name = format!("{words} of {count} commands");
        list.push(refused(name, &SKIP.repeat(count)));
    }
    for place in 0..3 {
        let mut commands = [SKIP; 3];
        commands[place] = [0x4f, 0, 0];
        let name = format!("{words} with tag 0x4f at {place}");
        list.push(refused(name, &commands.concat()));
    }
    list
}

/// The byte before the three commands is neither 0 nor 1, or isn't there alone.
fn form_of_guarded_byte() -> Vec<Images> {
    let three = SKIP.repeat(3);
    let refused = |name: String, payload: &[u8]| {
        let name = format!("guarded command {name}");
        images(name, &guarded(1, &three), &field(0x59, payload))
    };
    let mut list: Vec<Images> = [2, 0x80, 0xff]
        .map(|byte| refused(format!("of byte {byte}"), &[&[byte], &three[..]].concat()))
        .to_vec();
    list.extend([
        refused("of no bytes".into(), &[]),
        refused("without its byte".into(), &three),
        refused("with its byte behind".into(), &[&three[..], &[1]].concat()),
        refused(
            "with its byte twice".into(),
            &[&[1, 1], &three[..]].concat(),
        ),
    ]);
    list
}

/// The tags that if and try have in the old form, alone and inside of each kind of command; and three commands behind a
/// byte, as in a guarded command, under the tags of the old form and those beside a guarded command's.
fn form_of_other_tags() -> Vec<Images> {
    let three = SKIP.repeat(3);
    let inside: [(&str, fn(&[u8]) -> Vec<u8>); 6] = [
        ("alone", |it| it.to_vec()),
        ("in a sequence", |it| field(0x51, &[&SKIP, it].concat())),
        ("in a loop", |it| {
            field(0x54, &field(0x51, &[it, &FAIL].concat()))
        }),
        ("in a guard", |it| guarded(0, &[it, &SKIP, &SKIP].concat())),
        ("in a then", |it| guarded(1, &[&SKIP, it, &SKIP].concat())),
        ("in an else", |it| guarded(1, &[&SKIP, &SKIP, it].concat())),
    ];
    let mut list = Vec::new();
    for (tag, byte) in [(0x52, 0), (0x53, 1)] {
        for (words, inside) in inside {
            let (today, old) = (guarded(byte, &three), field(tag, &three));
            list.push(images(
                format!("tag {tag:#x} {words}"),
                &inside(&today),
                &inside(&old),
            ));
        }
    }
    for tag in [0x52, 0x53, 0x58, 0x5a] {
        let today = guarded(1, &three);
        let other = [&[tag], &today[1..]].concat();
        list.push(images(format!("tag {tag:#x} with a byte"), &today, &other));
    }
    list
}

fn form_of_loop() -> Vec<Images> {
    let refused = |name: &str, body: &[u8]| images(name, &field(0x54, &FAIL), &field(0x54, body));
    vec![
        refused("loop of no command", &[]),
        refused("loop of two commands", &[FAIL, FAIL].concat()),
        refused("loop of tag 0x5a", &[0x5a, 0, 0]),
    ]
}

fn form_of_empty_commands() -> Vec<Images> {
    let breaks = |payload: &[u8]| field(0x54, &field(0x57, payload));
    vec![
        images("skip with a byte", &SKIP, &field(0x55, &[0])),
        images("fail with a byte", &FAIL, &field(0x56, &[0])),
        images("break with a byte", &breaks(&[]), &breaks(&[0])),
    ]
}

/// Puts a command inside of another.
pub(super) type Wrap = fn(Command) -> Command;

/// Each place inside of a command, with its name for many of them.
pub(super) const WRAPS: [(&str, Wrap); 8] = [
    ("sequences", |inner| Sequence(vec![inner])),
    ("loops", looped),
    ("if guards", |inner| if_command(inner, Skip, Skip)),
    ("if thens", |inner| if_command(Skip, inner, Skip)),
    ("if elses", |inner| if_command(Skip, Skip, inner)),
    ("try guards", |inner| try_command(inner, Skip, Skip)),
    ("try thens", |inner| try_command(Skip, inner, Skip)),
    ("try elses", |inner| try_command(Skip, Skip, inner)),
];

/// The command so many times wrapped.
pub(super) fn wrapped(wrap: Wrap, inner: Command, times: usize) -> Command {
    (0..times).fold(inner, |command, _| wrap(command))
}

/// A command of depth 17.
pub(super) fn images_of_depth() -> Vec<Images> {
    let mut list = Vec::new();
    for (words, wrap) in WRAPS {
        let nested = |inner: &Command, times: usize| program(wrapped(wrap, inner.clone(), times));
        for inner in [Skip, Fail, call(0)] {
            let name = format!("depth 17 by {words} around {inner:?}");
            list.push(images(name, &nested(&inner, 15), &nested(&inner, 16)));
        }
    }
    list
}
