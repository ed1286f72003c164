//! Cases 1 to 15 and P of document 01 as runner inputs.

use crate::build::*;
use crate::encode::{self, edge_slot, node_slot, RunnerInput};
use crate::tree::*;

const AMPLE_RECORDS: u16 = 64;
const AMPLE_FUEL: u32 = 1000;

/// The cases in order; case 4 has two.
pub fn cases() -> Vec<RunnerInput> {
    use Command::{Break, Fail, Sequence, Skip};
    vec![
        RunnerInput {
            fuel: 1,
            ..case(vec![], Skip)
        },
        RunnerInput {
            fuel: 0,
            ..case(vec![], Skip)
        },
        case(vec![], looped(Skip)),
        case(vec![], looped(Fail)),
        case(vec![], looped(Break)),
        RunnerInput {
            edges: edge_slot(0, 0, 0, &[]).to_vec(),
            ..rule_case(deleting())
        },
        rule_case(deleting()),
        rule_case(two_nodes()),
        case(vec![marking()], if_command(call(0), Skip, Fail)),
        case(vec![marking()], try_command(call(0), Skip, Fail)),
        case(vec![marking()], looped(Sequence(vec![call(0), Fail]))),
        case(vec![marking()], looped(Sequence(vec![call(0), Break]))),
        rule_case(node_rule(&[plain()], &[plain()], 0)),
        rule_case(node_rule(&[], &[plain()], 0)),
        overflowing(),
        RunnerInput {
            nodes: node_slot(0, true, &[]).to_vec(),
            ..rule_case(marking())
        },
        case_p(),
    ]
}

/// One unmarked, unlabelled, plain node in one slot.
fn case(rules: Vec<Rule>, main: Command) -> RunnerInput {
    RunnerInput {
        nodes: node_slot(0, false, &[]).to_vec(),
        edges: Vec::new(),
        records: AMPLE_RECORDS,
        fuel: AMPLE_FUEL,
        program: encode::program(&Program::without_procedures(rules, main)),
    }
}

fn rule_case(rule: Rule) -> RunnerInput {
    case(vec![rule], call(0))
}

/// An unmarked, unlabelled, plain node.
fn plain() -> RuleNode {
    node(mark::NONE, &[])
}

/// The rule D.
fn deleting() -> Rule {
    node_rule(&[plain()], &[], 0)
}

/// The rule M.
pub fn marking() -> Rule {
    node_rule(&[plain()], &[node(mark::RED, &[])], 1)
}

fn two_nodes() -> Rule {
    let both = [plain(), plain()];
    node_rule(&both, &both, 2)
}

/// The rule that adds 1 to the label of an unmarked node.
pub fn adding_one() -> Rule {
    let labelled = |element| [node(mark::NONE, &[element])];
    let sum = Element::Sum(Operand::Variable(0), Operand::Constant(1));
    Rule {
        variables: vec![VariableType::Int],
        ..node_rule(&labelled(Element::Variable(0)), &labelled(sum), 1)
    }
}

/// Case 14: 1 is added to the greatest atom.
fn overflowing() -> RunnerInput {
    RunnerInput {
        nodes: node_slot(0, false, &[i32::MAX]).to_vec(),
        ..rule_case(adding_one())
    }
}

/// Case P: grey x to grey y becomes red x, blue x + y, with the edge turned round.
fn case_p() -> RunnerInput {
    let (x, y) = (Element::Variable(0), Element::Variable(1));
    let sum = Element::Sum(Operand::Variable(0), Operand::Variable(1));
    let left = (
        vec![node(mark::GREY, &[x]), node(mark::GREY, &[y])],
        vec![edge(mark::NONE, 0, 1, &[])],
    );
    let right = (
        vec![node(mark::RED, &[x]), node(mark::BLUE, &[sum])],
        vec![edge(mark::NONE, 1, 0, &[])],
    );
    let rule = Rule {
        variables: vec![VariableType::Int; 2],
        ..rule(left, right, 2)
    };
    let grey = |atom| node_slot(mark::GREY, false, &[atom]);
    RunnerInput {
        nodes: [grey(5), grey(7)].concat(),
        edges: edge_slot(0, 0, 1, &[]).to_vec(),
        records: 8,
        fuel: 10,
        ..case(vec![rule], looped(call(0)))
    }
}
