//! Inputs that random ones meet seldom: several reasons to end a run at once, the last item of lists of the greatest
//! length, labels that differ in one atom, and degrees of nodes with loops.

use super::LAYOUT;
use crate::build::*;
use crate::encode::{self, edge_slot, node_slot, RunnerInput};
use crate::layout::Layout;
use crate::tree::*;

/// Why an application can't be made.
#[derive(Clone, Copy, Debug)]
struct Reasons {
    label: Option<Label>,
    nodes: bool,
    edges: bool,
    journal: bool,
}

/// A label that can't be held: over or under the range of atoms, or of too many atoms.
#[derive(Clone, Copy, Debug)]
enum Label {
    Over,
    Under,
    Long,
}

pub fn corners() -> Vec<RunnerInput> {
    let mut inputs = reasons_at_once(LAYOUT);
    inputs.extend([last_of_eight_rules(), last_of_all_rules()]);
    inputs.extend(LISTS.map(|(a, b)| one_list_twice(a, b)));
    inputs.extend(every_looped().into_iter().map(at_loops));
    inputs
}

/// Several reasons to end a run at once, at a layout.
pub fn reasons_at_once(layout: &Layout) -> Vec<RunnerInput> {
    let every = every_reasons().into_iter();
    every.map(|reasons| input_of(layout, reasons)).collect()
}

/// Every set of reasons, with each kind of label.
fn every_reasons() -> Vec<Reasons> {
    let labels = [
        None,
        Some(Label::Over),
        Some(Label::Under),
        Some(Label::Long),
    ];
    let mut every = Vec::new();
    for label in labels {
        for set in 0..8 {
            let has = |bit: u8| set & bit != 0;
            every.push(Reasons {
                label,
                nodes: has(1),
                edges: has(2),
                journal: has(4),
            });
        }
    }
    every
}

/// A right label that can't be held for this reason. The list variable 0 stands for three atoms, or for as many as a label can have,
/// so that three times are too many.
fn right_label(reason: Option<Label>) -> Vec<Element> {
    let (least, most) = (Operand::Constant(i32::MIN), Operand::Constant(i32::MAX));
    let list = Element::Variable(0);
    match reason {
        None => vec![list],
        Some(Label::Over) => vec![Element::Sum(most, Operand::Constant(1))],
        Some(Label::Under) => vec![Element::Difference(least, Operand::Constant(1))],
        Some(Label::Long) => vec![list, list, list],
    }
}

/// A rule that labels a node, makes a new one and an edge between them, inside a try.
fn input_of(layout: &Layout, reasons: Reasons) -> RunnerInput {
    let left = (vec![node(mark::NONE, &[Element::Variable(0)])], vec![]);
    let label = right_label(reasons.label);
    let right = (
        vec![node(mark::RED, &label), node(mark::BLUE, &[])],
        vec![edge(mark::DASHED, 1, 0, &[])],
    );
    let rule = Rule {
        variables: vec![VariableType::List],
        ..rule(left, right, 1)
    };
    let main = try_command(call(0), Command::Skip, Command::Skip);
    let mut nodes = layout.node_slot(mark::NONE, false, &[1, 2, 3][..layout.atoms.min(3)]);
    let one_slot = |lacking: bool, length: usize| if lacking { 0 } else { length };
    nodes.extend(vec![0; one_slot(reasons.nodes, layout.node_length())]);
    RunnerInput {
        nodes,
        edges: vec![0; one_slot(reasons.edges, layout.edge_length())],
        records: if reasons.journal { 2 } else { 3 },
        fuel: 10,
        program: encode::program(&Program::without_procedures(vec![rule], main)),
    }
}

/// A rule that gives a node of this mark the mark grey.
fn from_mark(mark: u8) -> Rule {
    node_rule(&[node(mark, &[])], &[node(mark::GREY, &[])], 1)
}

fn over_red_node(rules: Vec<Rule>, numbers: Vec<u8>) -> RunnerInput {
    RunnerInput {
        nodes: node_slot(mark::RED, false, &[]).to_vec(),
        edges: vec![],
        records: 1,
        fuel: 1,
        program: encode::program(&Program::without_procedures(
            rules,
            Command::RuleSet(numbers),
        )),
    }
}

/// Of eight rules in a set the last alone has a match.
fn last_of_eight_rules() -> RunnerInput {
    let rules = vec![from_mark(mark::GREEN), from_mark(mark::RED)];
    over_red_node(rules, vec![0, 0, 0, 0, 0, 0, 0, 1])
}

/// Of as many rules as there may be the last alone has a match.
fn last_of_all_rules() -> RunnerInput {
    let mut rules = vec![from_mark(mark::GREEN); limit::RULES - 1];
    rules.push(from_mark(mark::RED));
    over_red_node(rules, vec![0, limit::RULES as u8 - 1])
}

/// Two labels that one list variable is to stand for: all but the first and the last pair differ.
const LISTS: [(&[i32], &[i32]); 10] = [
    (&[], &[]),
    (&[], &[0]),
    (&[1, 2], &[1]),
    (&[1, 2, 3, 4], &[1, 2, 3, 5]),
    (&[1, 2, 3, 4], &[0, 2, 3, 4]),
    (&[1, 2, 3, 4, 5, 6, 7, 8], &[1, 2, 3, 4, 5, 6, 7, 9]),
    (&[1, 2, 3, 4, 5, 6, 7, 8], &[0, 2, 3, 4, 5, 6, 7, 8]),
    (&[1, 2, 3, 4, 5, 6, 7, 8], &[1, 2, 3, 4, 5, 6, 7]),
    (&[1, 2, 3, 4, 5, 6, 7, 0], &[1, 2, 3, 4, 5, 6, 7]),
    (&[1, 2, 3, 4, 5, 6, 7, 8], &[1, 2, 3, 4, 5, 6, 7, 8]),
];

/// Two nodes with these labels, and a rule for two nodes with the same list.
fn one_list_twice(first: &[i32], second: &[i32]) -> RunnerInput {
    let listed = |mark: u8| node(mark, &[Element::Variable(0)]);
    let left = [listed(mark::NONE), listed(mark::NONE)];
    let right = [listed(mark::RED), node(mark::BLUE, &[])];
    let rule = Rule {
        variables: vec![VariableType::List],
        ..node_rule(&left, &right, 2)
    };
    let labelled = |atoms: &[i32]| node_slot(mark::NONE, false, atoms);
    RunnerInput {
        nodes: [labelled(first), labelled(second)].concat(),
        edges: vec![],
        records: 2,
        fuel: 1,
        program: encode::program(&Program::without_procedures(vec![rule], call(0))),
    }
}

/// A degree test of a node with loops and edges from and to another node.
#[derive(Clone, Copy, Debug)]
struct Looped {
    loops: u16,
    arriving: u16,
    leaving: u16,
    test: Test,
}

/// One loop or two, alone or with an edge from or to the other node, under each test for a degree of 0, 1 or 2.
fn every_looped() -> Vec<Looped> {
    let mut every = Vec::new();
    for (arriving, leaving) in [(0, 0), (1, 0), (0, 1)] {
        for loops in [1, 2] {
            every.extend(degree_tests().map(|test| Looped {
                loops,
                arriving,
                leaving,
                test,
            }));
        }
    }
    every
}

/// Of node 0: in-degree and out-degree 0, 1 and 2, plain and negated.
fn degree_tests() -> impl Iterator<Item = Test> {
    let kinds = (0..3).flat_map(|number| {
        [
            TestKind::InDegree(0, number),
            TestKind::OutDegree(0, number),
        ]
    });
    kinds.flat_map(|kind| [false, true].map(|negated| Test { negated, kind }))
}

/// A rule that marks a node red under the test, on a node with loops, in slot 0, beside a green one.
fn at_loops(looped: Looped) -> RunnerInput {
    let marks_red = node_rule(&[node(mark::NONE, &[])], &[node(mark::RED, &[])], 1);
    let rule = Rule {
        tests: vec![looped.test],
        ..marks_red
    };
    let edges = |count: u16, source: u16, target: u16| {
        vec![edge_slot(mark::NONE, source, target, &[]); usize::from(count)]
    };
    let edges = [
        edges(looped.arriving, 1, 0),
        edges(looped.loops, 0, 0),
        edges(looped.leaving, 0, 1),
    ];
    RunnerInput {
        nodes: [mark::NONE, mark::GREEN]
            .map(|mark| node_slot(mark, false, &[]))
            .concat(),
        edges: edges.concat().concat(),
        records: 1,
        fuel: 1,
        program: encode::program(&Program::without_procedures(vec![rule], call(0))),
    }
}

#[cfg(test)]
mod tests {
    use super::*;
    use crate::listing::{run_input, run_input_at};

    #[test]
    fn the_first_reason_of_6_3_4_5_is_answered() {
        for reasons in every_reasons() {
            let in_order = [
                (reasons.label.is_some(), 6),
                (reasons.nodes, 3),
                (reasons.edges, 4),
                (reasons.journal, 5),
                (true, 0),
            ];
            let first = in_order.into_iter().find(|(holds, _)| *holds).unwrap().1;
            for layout in [LAYOUT, &Layout::SMALL] {
                let outcome = run_input_at(layout, &input_of(layout, reasons));
                assert_eq!(outcome.answer, first, "{reasons:?}");
            }
        }
    }

    #[test]
    fn the_last_rule_is_applied() {
        assert_eq!(run_input(&last_of_eight_rules()).answer, 0);
        assert_eq!(run_input(&last_of_all_rules()).answer, 0);
    }

    #[test]
    fn one_variable_stands_for_equal_lists_alone() {
        for (first, second) in LISTS {
            let answer = run_input(&one_list_twice(first, second)).answer;
            assert_eq!(answer == 0, first == second, "{first:?} {second:?}");
        }
    }

    #[test]
    fn a_loop_counts_once_in_each_degree() {
        for looped in every_looped() {
            let (degree, number) = match looped.test.kind {
                TestKind::InDegree(_, number) => (looped.arriving + looped.loops, number),
                TestKind::OutDegree(_, number) => (looped.leaving + looped.loops, number),
                other => panic!("{other:?} asks for no degree"),
            };
            let holds = (degree == number) != looped.test.negated;
            let answer = run_input(&at_loops(looped)).answer;
            assert_eq!(answer == 0, holds, "{looped:?}");
        }
    }
}
