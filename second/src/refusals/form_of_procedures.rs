//! The refusals 16 of procedures and of calls.

use super::form_of_commands::{wrapped, WRAPS};
use super::programs::{images, with_procedures, Images};
use crate::encode::{self, field};
use crate::tree::Command::{Procedure, Skip};
use crate::tree::Rule;

const SKIP: [u8; 3] = [0x55, 0, 0];
const FAIL: [u8; 3] = [0x56, 0, 0];

/// A call of procedure 0.
const CALL: [u8; 4] = [0x58, 0, 1, 0];

/// A procedure with this payload.
fn procedure(payload: &[u8]) -> Vec<u8> {
    field(0x17, payload)
}

pub(super) fn images_of_procedures() -> Vec<Images> {
    let mut list = form_of_payload();
    list.extend(form_of_place());
    list.extend(form_of_number());
    list.extend(form_of_depth());
    list
}

/// What is in a procedure: exactly one command.
fn form_of_payload() -> Vec<Images> {
    let called = |bytes: &[u8]| [bytes, &CALL].concat();
    let legal = called(&procedure(&SKIP));
    let refused = |name: &str, payload: &[u8]| images(name, &legal, &called(&procedure(payload)));
    vec![
        refused("procedure of no command", &[]),
        refused("procedure of two commands", &[SKIP, SKIP].concat()),
        refused(
            "procedure with a zero byte behind",
            &[&SKIP[..], &[0]].concat(),
        ),
        refused(
            "procedure with a zero byte before",
            &[&[0], &SKIP[..]].concat(),
        ),
        refused("procedure of a rule", &encode::rule(&Rule::default())),
        refused("procedure of a procedure", &procedure(&SKIP)),
        refused("procedure with a command longer than itself", &[0x55, 0, 1]),
        refused("procedure with half a command", &SKIP[..2]),
        refused("procedure of tag 0x5a", &[0x5a, 0, 0]),
        images("procedure without a length", &legal, &[0x17]),
        images("procedure with half a length", &legal, &[0x17, 0]),
        images(
            "procedure longer than the image",
            &legal,
            &called(&[0x17, 0, 8, 0x55, 0, 0]),
        ),
        images(
            "procedure that takes the call in",
            &legal,
            &[&[0x17, 0, 7], &SKIP[..], &CALL].concat(),
        ),
    ]
}

/// Where procedures stand: behind all rules, before the command, and nowhere in a command.
fn form_of_place() -> Vec<Images> {
    let (rule, one) = (encode::rule(&Rule::default()), procedure(&SKIP));
    let legal = [&rule[..], &rule, &one, &SKIP].concat();
    let refused = |name: &str, fields: &[&[u8]]| images(name, &legal, &fields.concat());
    let inside = |name: &str, command: fn(&[u8]) -> Vec<u8>| {
        let accepted = [&one[..], &command(&SKIP)].concat();
        images(name, &accepted, &[&one[..], &command(&one)].concat())
    };
    vec![
        refused("procedure between two rules", &[&rule, &one, &rule, &SKIP]),
        refused("procedure before the rules", &[&one, &rule, &rule, &SKIP]),
        refused("procedure behind the command", &[&rule, &rule, &SKIP, &one]),
        refused(
            "procedure without a command behind it",
            &[&rule, &rule, &one],
        ),
        refused(
            "two commands behind a procedure",
            &[&rule, &rule, &one, &SKIP, &SKIP],
        ),
        inside("procedure in a sequence", |it| {
            field(0x51, &[it, &SKIP].concat())
        }),
        inside("procedure in a loop", |it| {
            field(0x54, &field(0x51, &[it, &FAIL].concat()))
        }),
        inside("procedure in a guard", |it| {
            field(0x59, &[&[0], it, &SKIP, &SKIP].concat())
        }),
        inside("procedure in a branch", |it| {
            field(0x59, &[&[1][..], &SKIP, it, &SKIP].concat())
        }),
    ]
}

fn form_of_number() -> Vec<Images> {
    let image = |rules: usize, procedures: usize| {
        let rules = encode::rule(&Rule::default()).repeat(rules);
        [rules, procedure(&SKIP).repeat(procedures), SKIP.to_vec()].concat()
    };
    vec![
        images("17 procedures", &image(0, 16), &image(0, 17)),
        images("33 rules before procedures", &image(32, 1), &image(33, 1)),
    ]
}

/// A command of depth 17 in a procedure, and a call of that depth. A call lies at depth 15 at most, since what it calls lies below.
fn form_of_depth() -> Vec<Images> {
    let mut list = Vec::new();
    for (words, wrap) in [WRAPS[0], WRAPS[1], WRAPS[2]] {
        let nested = |times| with_procedures(&[wrapped(wrap, Skip, times)], Skip);
        let name = format!("depth 17 by {words} in a procedure");
        list.push(images(name, &nested(15), &nested(16)));
    }
    let (words, wrap) = WRAPS[0];
    let call = |times| with_procedures(&[Skip], wrapped(wrap, Procedure(0), times));
    let name = format!("depth 17 by {words} around a call");
    list.push(images(name, &call(14), &call(16)));
    list
}

/// A call has one byte.
pub(super) fn images_of_calls() -> Vec<Images> {
    let image = |command: &[u8]| [&procedure(&SKIP), command].concat();
    let refused = |name: &str, command: &[u8]| images(name, &image(&CALL), &image(command));
    let mut list = vec![
        refused("call of no byte", &field(0x58, &[])),
        refused("call of two bytes", &field(0x58, &[0, 0])),
        refused("call of 256 bytes", &field(0x58, &[0; 256])),
        refused("call without a length", &CALL[..1]),
        refused("call cut to its head", &CALL[..3]),
        refused("call of a command", &field(0x58, &SKIP)),
    ];
    let in_sequence = |call: &[u8]| image(&field(0x51, &[&SKIP, call].concat()));
    let in_procedure = |call: &[u8]| [&procedure(&SKIP), &procedure(call), &SKIP[..]].concat();
    let (none, two) = (field(0x58, &[]), field(0x58, &[0, 0]));
    list.extend([
        images(
            "call of no byte in a sequence",
            &in_sequence(&CALL),
            &in_sequence(&none),
        ),
        images(
            "call of two bytes in a procedure",
            &in_procedure(&CALL),
            &in_procedure(&two),
        ),
    ]);
    list
}
