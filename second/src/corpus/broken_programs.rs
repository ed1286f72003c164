//! Damage to programs: answers 16, 17 and 18, by changes to the tree and by changes to its bytes.

use super::commands::deepened;
use crate::build::*;
use crate::encode;
use crate::random::Random;
use crate::tree::*;

/// Answer 16 for the most part: bytes of the image changed without regard to what they mean.
pub fn mangle(random: &mut Random, bytes: &mut Vec<u8>) {
    match random.below(6) {
        0 => bytes.truncate(random.below(bytes.len())),
        1 => bytes.push(random.byte()),
        2 => bytes.extend(encode::command(&Command::Skip)),
        3 => drop(bytes.remove(random.below(bytes.len()))),
        4 => bytes.insert(random.below(bytes.len()), random.byte()),
        _ => flip_bits(random, bytes),
    }
}

/// Answer 16: a guarded command with a byte that is neither 0 nor 1, without one, or with a tag that no command has. Where
/// there is none, a few bits are turned.
pub fn break_guarded(random: &mut Random, bytes: &mut Vec<u8>) {
    let begins = |at: &usize| matches!(bytes[*at..], [0x59, _, _, 0 | 1, 0x50..=0x59, ..]);
    let places: Vec<usize> = (0..bytes.len()).filter(begins).collect();
    if places.is_empty() {
        return flip_bits(random, bytes);
    }
    let at = random.pick(&places);
    match random.below(5) {
        0 | 1 => bytes[at] = random.pick(&[0x52, 0x53, 0x58, 0x5A]),
        2 => drop(bytes.remove(at + 3)),
        _ => bytes[at + 3] = random.pick(&[2, 3, 0x80, 0xFF]),
    }
}

/// Answer 14: bytes behind the image, one more than there may be, or a few.
pub fn make_too_long(random: &mut Random, bytes: &mut Vec<u8>) {
    let length = limit::IMAGE_BYTES + random.pick(&[1, 1, 2, 64]);
    bytes.resize(length, random.pick(&[0, 0x55]));
}

/// One to three bits turned.
pub fn flip_bits(random: &mut Random, bytes: &mut [u8]) {
    for _ in 0..random.between(1, 3) {
        let place = random.below(bytes.len());
        bytes[place] ^= 1 << random.below(8);
    }
}

/// Answer 16: the tree has too much or too little of something, or a number that form forbids.
pub fn bad_form(random: &mut Random, program: &mut Program) {
    if program.rules.is_empty() || random.chance(30) {
        return bad_command_form(random, &mut program.main);
    }
    if random.chance(4) {
        program.rules.resize(limit::RULES + 1, Rule::default());
        return;
    }
    let index = random.below(program.rules.len());
    bad_rule_form(random, &mut program.rules[index]);
}

fn bad_rule_form(random: &mut Random, rule: &mut Rule) {
    let kind = random.below(8);
    let label = [Element::Constant(1); limit::ELEMENTS + 1];
    let graph = either_side(random, rule);
    match kind {
        0 => rule
            .variables
            .resize(limit::VARIABLES + 1, VariableType::Int),
        1 => graph.nodes.resize(limit::NODES + 1, plain_node(mark::NONE)),
        2 => graph.edges.resize(limit::EDGES + 1, plain_edge(mark::NONE)),
        3 => rule.tests.resize(limit::TESTS + 1, nodes_test()),
        4 => graph
            .nodes
            .push(plain_node(random.pick(&[mark::DASHED, 7, 0xFF]))),
        5 => graph
            .edges
            .push(plain_edge(random.pick(&[mark::GREY, 7, 0xFF]))),
        6 => graph.nodes.insert(0, node(mark::NONE, &label)),
        _ => graph.edges.insert(0, edge(mark::NONE, 0, 0, &label)),
    }
}

fn either_side<'a>(random: &mut Random, rule: &'a mut Rule) -> &'a mut RuleGraph {
    if random.chance(50) {
        &mut rule.left
    } else {
        &mut rule.right
    }
}

fn plain_node(mark: u8) -> RuleNode {
    node(mark, &[])
}

fn plain_edge(mark: u8) -> RuleEdge {
    edge(mark, 0, 0, &[])
}

fn nodes_test() -> Test {
    Test {
        negated: false,
        kind: TestKind::Edge(0, 0),
    }
}

fn bad_command_form(random: &mut Random, main: &mut Command) {
    let whole = main.clone();
    *main = match random.below(5) {
        0 => Command::Sequence(vec![whole, Command::RuleSet(Vec::new())]),
        1 => Command::Sequence(vec![
            whole,
            Command::RuleSet(vec![0; limit::RULE_NUMBERS + 1]),
        ]),
        2 => Command::Sequence(vec![Command::Skip; limit::COMMANDS + 1]),
        3 => Command::Sequence(vec![whole, Command::Sequence(Vec::new())]),
        _ => Command::Sequence(vec![deepened(random, whole, limit::DEPTH)]),
    };
}

/// Answer 17: one name of something that isn't there, or of the wrong kind.
pub fn bad_reference(random: &mut Random, program: &mut Program) {
    let count = program.rules.len() as u8;
    if count == 0 || random.chance(15) {
        let missing = call(random.pick(&[count, count + 1, 32, 0xFF]));
        let whole = program.main.clone();
        program.main = Command::Sequence(if random.chance(50) {
            vec![whole, missing]
        } else {
            vec![if_command(missing, whole, Command::Skip)]
        });
        return;
    }
    let index = random.below(count as usize);
    bad_rule_reference(random, &mut program.rules[index]);
}

fn bad_rule_reference(random: &mut Random, rule: &mut Rule) {
    let variables = rule.variables.len() as u8;
    let unknown = random.pick(&[variables, variables + 1, 0xFF]);
    match random.below(13) {
        0 => rule.interface = random.pick(&[7, 0xFF, largest(rule) + 1]),
        1 => put_left(random, rule, vec![Element::Variable(unknown)]),
        2 => put_right(random, rule, vec![Element::Variable(unknown)]),
        3 => put_left(
            random,
            rule,
            vec![Element::Sum(Operand::Constant(1), Operand::Constant(2))],
        ),
        4 => put_left(
            random,
            rule,
            vec![Element::Difference(
                Operand::Constant(1),
                Operand::Constant(2),
            )],
        ),
        5 => two_lists(random, rule),
        6 => list_operand(random, rule),
        7 => variable_of_right_alone(random, rule),
        8 => variable_of_test_alone(rule),
        9 => rule.right.edges = vec![plain_edge(mark::ANY)],
        10 => any_mark_on_right(rule),
        11 => bad_end(random, rule),
        _ => bad_tested_node(random, rule),
    }
}

fn largest(rule: &Rule) -> u8 {
    rule.left.nodes.len().min(rule.right.nodes.len()) as u8
}

fn put_left(random: &mut Random, rule: &mut Rule, label: Vec<Element>) {
    put(random, &mut rule.left, label);
}

fn put_right(random: &mut Random, rule: &mut Rule, label: Vec<Element>) {
    put(random, &mut rule.right, label);
}

/// Gives the label to a node or an edge, which is added if the graph has none.
fn put(random: &mut Random, graph: &mut RuleGraph, label: Vec<Element>) {
    if !graph.edges.is_empty() && random.chance(40) {
        let index = random.below(graph.edges.len());
        graph.edges[index].label = label;
        return;
    }
    if graph.nodes.is_empty() {
        graph.nodes.push(plain_node(mark::NONE));
    }
    let index = random.below(graph.nodes.len());
    graph.nodes[index].label = label;
}

fn new_variable(rule: &mut Rule, kind: VariableType) -> u8 {
    if rule.variables.len() == limit::VARIABLES {
        rule.variables.pop();
    }
    rule.variables.push(kind);
    rule.variables.len() as u8 - 1
}

fn two_lists(random: &mut Random, rule: &mut Rule) {
    let list = new_variable(rule, VariableType::List);
    put_left(
        random,
        rule,
        vec![Element::Variable(list), Element::Variable(list)],
    );
}

fn list_operand(random: &mut Random, rule: &mut Rule) {
    let list = new_variable(rule, VariableType::List);
    put_left(random, rule, vec![Element::Variable(list)]);
    let (operand, one) = (Operand::Variable(list), Operand::Constant(1));
    match random.below(3) {
        0 => put_right(random, rule, vec![Element::Sum(operand, one)]),
        1 => put_right(random, rule, vec![Element::Difference(one, operand)]),
        _ => add_test(
            rule,
            false,
            TestKind::Relation(Relation::Equal, one, operand),
        ),
    }
}

/// Adds a test behind those for which there is room beside it.
fn add_test(rule: &mut Rule, negated: bool, kind: TestKind) {
    rule.tests.truncate(limit::TESTS - 1);
    rule.tests.push(Test { negated, kind });
}

fn variable_of_right_alone(random: &mut Random, rule: &mut Rule) {
    let kind = random.pick(&[VariableType::Int, VariableType::List]);
    let variable = new_variable(rule, kind);
    put_right(random, rule, vec![Element::Variable(variable)]);
}

fn variable_of_test_alone(rule: &mut Rule) {
    let variable = Operand::Variable(new_variable(rule, VariableType::Int));
    let kind = TestKind::Relation(Relation::Less, variable, Operand::Constant(0));
    add_test(rule, true, kind);
}

/// Mark any on a right node that is new, or that has a mark of its own on the left.
fn any_mark_on_right(rule: &mut Rule) {
    match rule.right.nodes.last_mut() {
        Some(node) => node.mark = mark::ANY,
        None => rule.right.nodes.push(plain_node(mark::ANY)),
    }
    if let Some(node) = rule.left.nodes.get_mut(rule.right.nodes.len() - 1) {
        node.mark = mark::NONE;
    }
}

fn bad_end(random: &mut Random, rule: &mut Rule) {
    let graph = either_side(random, rule);
    let missing = random.pick(&[graph.nodes.len() as u8, 6, 0xFF]);
    let (source, target) = if random.chance(50) {
        (0, missing)
    } else {
        (missing, 0)
    };
    graph.edges.truncate(limit::EDGES - 1);
    graph.edges.push(edge(mark::NONE, source, target, &[]));
}

fn bad_tested_node(random: &mut Random, rule: &mut Rule) {
    let missing = random.pick(&[rule.left.nodes.len() as u8, 6, 0xFF]);
    let kind = match random.below(4) {
        0 => TestKind::Edge(missing, 0),
        1 => TestKind::Edge(0, missing),
        2 => TestKind::InDegree(missing, 0),
        _ => TestKind::OutDegree(missing, 0),
    };
    add_test(rule, random.chance(50), kind);
}

/// Answer 18: a break outside every loop, or in a guard inside a loop.
pub fn misplaced_break(random: &mut Random, main: &mut Command) {
    use Command::{Break, Sequence, Skip};
    let whole = main.clone();
    *main = match random.below(6) {
        0 => Sequence(vec![whole, Break]),
        1 => Sequence(vec![if_command(Skip, Break, Skip), whole]),
        2 => looped(if_command(Break, Skip, whole)),
        3 => looped(try_command(Sequence(vec![whole, Break]), Skip, Skip)),
        4 => looped(try_command(if_command(Skip, Break, Skip), whole, Break)),
        _ => Sequence(vec![looped(Break), Break, whole]),
    };
}
