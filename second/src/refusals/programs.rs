//! What the refusals 14 to 19 share: a legal rule, and images made from it or from procedures. With the refusal 14.

use super::{refusal, run_with, Refusal, RunCall};
use crate::build::{self, edge, node};
use crate::encode;
use crate::layout::Layout;
use crate::tree::{
    mark, Command, Element, Operand, Program, Relation, Rule, Test, TestKind, VariableType,
};

/// A clause with an accepted and a refused image.
pub(super) type Images = (String, Vec<u8>, Vec<u8>);

pub(super) fn images(name: impl Into<String>, accepted: &[u8], refused: &[u8]) -> Images {
    (name.into(), accepted.to_vec(), refused.to_vec())
}

pub(super) fn refusals(layout: &Layout, answer: u32, images: Vec<Images>) -> Vec<Refusal<RunCall>> {
    let call = |image: &Vec<u8>| run_with(layout, |call| call.program = image.clone());
    let images = images.iter();
    images
        .map(|(name, accepted, refused)| refusal(name, answer, call(accepted), call(refused)))
        .collect()
}

/// The number 14.
pub(super) fn image_length(layout: &Layout) -> Vec<Refusal<RunCall>> {
    let of_bytes = |bytes| {
        run_with(layout, |call| {
            let rule = encode::rule(&rule());
            let command = encode::command(&command_of_bytes(bytes - rule.len()));
            call.program = [rule, command].concat();
        })
    };
    let refused = |words: &str, bytes| refusal(words, 14, of_bytes(8192), of_bytes(bytes));
    vec![
        refused("image of 8,193 bytes", 8193),
        refused("image of 60,000 bytes", 60_000),
    ]
}

/// A command that takes so many bytes, 3 or more.
pub(super) fn command_of_bytes(bytes: usize) -> Command {
    match bytes {
        0..=3 => Command::Skip,
        4..=11 => Command::RuleSet(vec![0; bytes - 3]),
        _ => {
            let payload = bytes - 3;
            let parts = (payload / 3).min(16);
            let share = |part| payload / parts + usize::from(part < payload % parts);
            Command::Sequence(
                (0..parts)
                    .map(|part| command_of_bytes(share(part)))
                    .collect(),
            )
        }
    }
}

/// An image of one legal rule and this command.
pub(super) fn program(main: Command) -> Vec<u8> {
    let rules = vec![rule()];
    encode::program(&Program::without_procedures(rules, main))
}

/// An image of these procedures and this command, without rules.
pub(super) fn with_procedures(procedures: &[Command], main: Command) -> Vec<u8> {
    encode::program(&Program {
        rules: vec![],
        procedures: procedures.to_vec(),
        main,
    })
}

/// A rule that uses each kind of reference. Its variables are an int, a list and an int that it doesn't use.
pub(super) fn rule() -> Rule {
    let x = Element::Variable(0);
    let list = Element::Variable(1);
    let sum = Element::Sum(Operand::Variable(0), one());
    let left = (
        vec![node(mark::ANY, &[x]), node(mark::NONE, &[list])],
        vec![edge(mark::ANY, 0, 1, &[x])],
    );
    let right = (
        vec![
            node(mark::ANY, &[x]),
            node(mark::RED, &[list]),
            node(mark::GREY, &[sum]),
        ],
        vec![edge(mark::DASHED, 1, 2, &[x])],
    );
    Rule {
        variables: vec![VariableType::Int, VariableType::List, VariableType::Int],
        tests: vec![
            test(TestKind::Edge(0, 1)),
            test(TestKind::InDegree(0, 0)),
            test(TestKind::OutDegree(1, 0)),
            test(TestKind::Relation(
                Relation::Less,
                one(),
                Operand::Variable(0),
            )),
        ],
        ..build::rule(left, right, 2)
    }
}

fn test(kind: TestKind) -> Test {
    Test {
        negated: false,
        kind,
    }
}

pub(super) fn one() -> Operand {
    Operand::Constant(1)
}
