//! Rules that several cases use, and the run of one rule.

use super::bytes::{run_on, EDGE, NODE};
pub use second::build::*;
use second::calls::Outcome;
use second::encode;
use second::tree::*;

pub fn variables(types: &[VariableType], rule: Rule) -> Rule {
    Rule {
        variables: types.to_vec(),
        ..rule
    }
}

pub fn tests(tests: &[(bool, TestKind)], rule: Rule) -> Rule {
    let test = |(negated, kind): &(bool, TestKind)| Test {
        negated: *negated,
        kind: *kind,
    };
    Rule {
        tests: tests.iter().map(test).collect(),
        ..rule
    }
}

/// An unmarked, unlabelled, plain node becomes red.
pub fn mark_red() -> Rule {
    node_rule(&[node(mark::NONE, &[])], &[node(mark::RED, &[])], 1)
}

/// A node of any mark and label stays as it is.
pub fn find() -> Rule {
    let any = [node(mark::ANY, &[Element::Variable(0)])];
    variables(&[VariableType::List], node_rule(&any, &any, 1))
}

pub fn image(rules: &[Rule], main: Command) -> Vec<u8> {
    let rules = rules.to_vec();
    encode::program(&Program::without_procedures(rules, main))
}

/// A run of one rule by itself.
pub fn applied(rule: Rule, nodes: &[[u8; NODE]], edges: &[[u8; EDGE]]) -> Outcome {
    run_on(
        &nodes.concat(),
        &edges.concat(),
        &[&image(&[rule], call(0))],
        1,
    )
}
