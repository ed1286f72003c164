//! Each form of a rule: variables, graphs, labels, marks, interface, conditions, bidirectional edges.

use super::helpers::*;
use second::build;
use second::encode;
use second::tree::*;

const X: Element = Element::Variable(0);
const Y: Element = Element::Variable(1);
const I: Operand = Operand::Variable(0);
const J: Operand = Operand::Variable(1);

/// Case P of document 01, built by hand.
fn case_p() -> Program {
    let sum = Element::Sum(Operand::Variable(0), Operand::Variable(1));
    let left = (
        vec![node(mark::GREY, &[X]), node(mark::GREY, &[Y])],
        vec![edge(mark::NONE, 0, 1, &[])],
    );
    let right = (
        vec![node(mark::RED, &[X]), node(mark::BLUE, &[sum])],
        vec![edge(mark::NONE, 1, 0, &[])],
    );
    let rule = Rule {
        variables: vec![VariableType::Int, VariableType::Int],
        ..build::rule(left, right, 2)
    };
    Program::without_procedures(vec![rule], looped(call(0)))
}

#[test]
fn case_p_is_the_program_that_document_01_describes() {
    assert_eq!(program(CASE_P), case_p());
}

#[test]
fn case_p_has_the_bytes_that_document_01_describes() {
    let int = [0x31, 0, 1];
    let node = |mark: u8, label: &[u8]| encode::field(0x20, &[&[mark, 0], label].concat());
    let (x, y) = ([&int[..], &[0]].concat(), [&int[..], &[1]].concat());
    let sum = encode::field(0x32, &[x.clone(), y.clone()].concat());
    let left = [node(4, &x), node(4, &y), encode::field(0x21, &[0, 0, 1])].concat();
    let right = [node(1, &x), node(3, &sum), encode::field(0x21, &[0, 1, 0])].concat();
    let rule = [
        encode::field(0x11, &[1, 1]),
        encode::field(0x12, &left),
        encode::field(0x13, &right),
        encode::field(0x14, &[2]),
        encode::field(0x15, &[]),
    ];
    let main = encode::field(0x54, &encode::field(0x50, &[0]));
    let image = [encode::field(0x10, &rule.concat()), main].concat();
    assert_eq!(encode::program(&program(CASE_P)), image);
}

#[test]
fn variables_keep_their_order_whatever_their_types() {
    let rule = rule("r(i: int; x, y: list; j, k: int) [ | ] => [ | ] interface = {}");
    let (int, list) = (VariableType::Int, VariableType::List);
    assert_eq!(rule.variables, [int, list, list, int, int]);
}

#[test]
fn a_rule_may_be_empty() {
    let rule = rule("r() [ | ] => [ | ] interface = {}");
    assert_eq!(rule, Rule::default());
}

#[test]
fn identifiers_are_words_or_numbers_and_roots_carry_a_letter() {
    let rule = rule(
        "r() [ (1(R), empty) (n_2, empty) | (0, 1, n_2, empty) (e, n_2, n_2, empty) ]
        => [ (1, empty) (n_2 (R), empty) | ] interface = {1, n_2}",
    );
    let roots = |graph: &RuleGraph| graph.nodes.iter().map(|node| node.root).collect::<Vec<_>>();
    assert_eq!(roots(&rule.left), [true, false]);
    assert_eq!(roots(&rule.right), [false, true]);
    assert_eq!(rule.left.edges, [edge(0, 0, 1, &[]), edge(0, 1, 1, &[])]);
}

#[test]
fn each_mark_has_its_word() {
    let rule = rule("r()
        [ (1, empty) (2, empty # red) (3, empty # green) (4, empty # blue) (5, empty # grey) (6, empty # any)
        | (1, 1, 1, empty) (2, 1, 1, empty # red) (3, 1, 1, empty # green) (4, 1, 1, empty # blue)
          (5, 1, 1, empty # dashed) (6, 1, 1, empty # any) ]
        => [ (6, empty # any) | ] interface = {6}");
    let nodes: Vec<u8> = rule.left.nodes.iter().map(|node| node.mark).collect();
    let edges: Vec<u8> = rule.left.edges.iter().map(|edge| edge.mark).collect();
    assert_eq!(nodes, [6, 0, 1, 2, 3, 4]);
    assert_eq!(edges, [0, 1, 2, 3, 5, 6]);
    assert_eq!(rule.right.nodes[0].mark, mark::ANY);
}

#[test]
fn labels_are_lists_with_colons() {
    let rule = rule(
        "r(x: list; i: int) [ (1, x:-3:i:2147483647) (2, empty) (3, empty:-2147483648:empty) | ]
        => [ (1, i:x) | (1, 1, 1, 7 # dashed) ] interface = {1}",
    );
    let labels: Vec<&[Element]> = rule.left.nodes.iter().map(|node| &node.label[..]).collect();
    let constant = Element::Constant;
    assert_eq!(labels[0], [X, constant(-3), Y, constant(i32::MAX)]);
    assert_eq!(labels[1], []);
    assert_eq!(labels[2], [constant(i32::MIN)]);
    assert_eq!(rule.right.nodes[0].label, [Y, X]);
    assert_eq!(rule.right.edges, [edge(mark::DASHED, 0, 0, &[constant(7)])]);
}

#[test]
fn sums_and_differences_have_constants_and_int_variables() {
    let rule = rule(
        "r(i, j: int) [ (1, i:j) | ]
        => [ (1, i+1:i-j:(0-i):-1 - -2) (2, (i)+(j):3+4) | ] interface = {1}",
    );
    let (one, zero) = (Operand::Constant(1), Operand::Constant(0));
    let expected = [
        Element::Sum(I, one),
        Element::Difference(I, J),
        Element::Difference(zero, I),
        Element::Difference(Operand::Constant(-1), Operand::Constant(-2)),
    ];
    assert_eq!(rule.right.nodes[0].label, expected);
    let constants = Element::Sum(Operand::Constant(3), Operand::Constant(4));
    assert_eq!(rule.right.nodes[1].label, [Element::Sum(I, J), constants]);
}

#[test]
fn interface_nodes_come_first_in_the_order_of_the_interface() {
    let rule = rule(
        "r()
        [ (a, 1) (b, 2) (c, 3) (d, 4) | (e, a, d, empty) (f, b, c, empty) ]
        => [ (new, 5) (b, 6) (d, 7) | (e, d, b, empty) (f, new, d, empty) ]
        interface = {d, b} where edge(a, b)",
    );
    let constants = |graph: &RuleGraph| -> Vec<Element> {
        graph.nodes.iter().map(|node| node.label[0]).collect()
    };
    assert_eq!(constants(&rule.left), [4, 2, 1, 3].map(Element::Constant));
    assert_eq!(constants(&rule.right), [7, 6, 5].map(Element::Constant));
    assert_eq!(rule.interface, 2);
    assert_eq!(rule.left.edges, [edge(0, 2, 0, &[]), edge(0, 1, 3, &[])]);
    assert_eq!(rule.right.edges, [edge(0, 0, 1, &[]), edge(0, 2, 0, &[])]);
    assert_eq!(
        rule.tests,
        [Test {
            negated: false,
            kind: TestKind::Edge(2, 1)
        }]
    );
}

#[test]
fn a_node_outside_of_the_interface_is_another_one_on_the_other_side() {
    let rule = rule("r() [ (1, 5) | ] => [ (1, 5) | ] interface = {}");
    assert_eq!(rule.interface, 0);
    assert_eq!((rule.left.nodes.len(), rule.right.nodes.len()), (1, 1));
}

/// The tests of a condition over nodes 1 and 2 and int variables i and j.
fn tests(condition: &str) -> Vec<Test> {
    rule(&format!(
        "r(i, j: int) [ (1, i) (2, j) | ] => [ | ] interface = {{}} where {condition}"
    ))
    .tests
}

fn holds(kind: TestKind) -> Test {
    Test {
        negated: false,
        kind,
    }
}

fn fails(kind: TestKind) -> Test {
    Test {
        negated: true,
        kind,
    }
}

#[test]
fn edge_tests_may_be_negated() {
    assert_eq!(tests("edge(1, 2)"), [holds(TestKind::Edge(0, 1))]);
    assert_eq!(tests("not edge(2, 2)"), [fails(TestKind::Edge(1, 1))]);
    assert_eq!(tests("not not edge(1, 2)"), [holds(TestKind::Edge(0, 1))]);
}

#[test]
fn degree_tests_ask_for_equality() {
    let (indeg, outdeg) = (TestKind::InDegree, TestKind::OutDegree);
    assert_eq!(tests("indeg(1) = 0"), [holds(indeg(0, 0))]);
    assert_eq!(tests("outdeg(2) = 65535"), [holds(outdeg(1, 65535))]);
    assert_eq!(tests("indeg(1) != 3"), [fails(indeg(0, 3))]);
    assert_eq!(tests("not outdeg(1) = 3"), [fails(outdeg(0, 3))]);
    assert_eq!(tests("not indeg(1) != 3"), [holds(indeg(0, 3))]);
    assert_eq!(tests("2 = indeg(2)"), [holds(indeg(1, 2))]);
}

#[test]
fn lower_bounds_of_degrees_exclude_the_numbers_below() {
    let not = |number| fails(TestKind::InDegree(0, number));
    assert_eq!(tests("indeg(1) > 0"), [not(0)]);
    assert_eq!(tests("indeg(1) >= 1"), [not(0)]);
    assert_eq!(tests("indeg(1) > 1"), [not(0), not(1)]);
    assert_eq!(tests("indeg(1) >= 4"), [not(0), not(1), not(2), not(3)]);
    assert_eq!(tests("3 < indeg(1)"), [not(0), not(1), not(2), not(3)]);
    assert_eq!(tests("not indeg(1) <= 1"), [not(0), not(1)]);
    assert_eq!(tests("2 <= indeg(1)"), [not(0), not(1)]);
}

#[test]
fn an_upper_bound_of_zero_is_an_equality() {
    let zero = holds(TestKind::OutDegree(0, 0));
    for condition in [
        "outdeg(1) < 1",
        "outdeg(1) <= 0",
        "not outdeg(1) > 0",
        "1 > outdeg(1)",
    ] {
        assert_eq!(tests(condition), [zero], "{condition}");
    }
}

#[test]
fn relations_are_equality_and_less_swapped_or_negated() {
    let equal = |a, b| TestKind::Relation(Relation::Equal, a, b);
    let less = |a, b| TestKind::Relation(Relation::Less, a, b);
    let five = Operand::Constant(5);
    let minus = Operand::Constant(-5);
    assert_eq!(tests("i = j"), [holds(equal(I, J))]);
    assert_eq!(tests("i != 5"), [fails(equal(I, five))]);
    assert_eq!(tests("i < 5"), [holds(less(I, five))]);
    assert_eq!(tests("i > j"), [holds(less(J, I))]);
    assert_eq!(tests("i <= j"), [fails(less(J, I))]);
    assert_eq!(tests("i >= -5"), [fails(less(I, minus))]);
    assert_eq!(tests("not i = j"), [fails(equal(I, J))]);
    assert_eq!(tests("not i <= j"), [holds(less(J, I))]);
    assert_eq!(tests("(i) < (5)"), [holds(less(I, five))]);
}

#[test]
fn conditions_are_conjunctions_in_the_order_written() {
    let edge = TestKind::Edge(0, 1);
    let (indeg, less) = (
        TestKind::InDegree(0, 0),
        TestKind::Relation(Relation::Less, I, J),
    );
    assert_eq!(
        tests("edge(1, 2) and indeg(1) = 0 and i < j"),
        [holds(edge), holds(indeg), holds(less)]
    );
    assert_eq!(
        tests("(edge(1, 2) and (indeg(1) = 0)) and (i < j)"),
        [holds(edge), holds(indeg), holds(less)]
    );
    assert_eq!(
        tests("not (edge(1, 2) or indeg(1) = 0) and i < j"),
        [fails(edge), fails(indeg), holds(less)]
    );
}

#[test]
fn a_bidirectional_edge_makes_two_rules() {
    let rules = rules(
        "r(x, y, z: list)
        [ (1, x) (2, y # red) | (e(B), 1, 2, z) ] => [ (1, x # red) (2, y) | ] interface = {1, 2}",
    );
    let ends: Vec<(u8, u8)> = rules.iter().map(|rule| ends(&rule.left, 0)).collect();
    assert_eq!(ends, [(0, 1), (1, 0)]);
    let same_else = Rule {
        left: rules[0].left.clone(),
        ..rules[1].clone()
    };
    assert_eq!(same_else, rules[0]);
}

fn ends(graph: &RuleGraph, edge: usize) -> (u8, u8) {
    (graph.edges[edge].source, graph.edges[edge].target)
}

#[test]
fn two_bidirectional_edges_make_four_rules_the_last_one_turning_fastest() {
    let rules = rules("r()
        [ (1, empty) (2, empty) (3, empty) | (e(B), 1, 2, empty) (f, 1, 3, empty) (g(B), 2, 3, empty) ]
        => [ | ] interface = {}");
    let ends: Vec<_> = rules
        .iter()
        .map(|rule| [0, 1, 2].map(|edge| ends(&rule.left, edge)))
        .collect();
    assert_eq!(
        ends,
        [
            [(0, 1), (0, 2), (1, 2)],
            [(0, 1), (0, 2), (2, 1)],
            [(1, 0), (0, 2), (1, 2)],
            [(1, 0), (0, 2), (2, 1)],
        ]
    );
}

#[test]
fn a_bidirectional_right_edge_runs_as_the_left_one_between_its_nodes() {
    let rules = rules("r()
        [ (1, empty) (2, empty) | (e(B), 1, 2, empty) ]
        => [ (1, empty) (2, empty) | (f, 2, 1, 5) (e(B), 2, 1, empty # dashed) ] interface = {1, 2}");
    let right: Vec<_> = rules
        .iter()
        .map(|rule| [0, 1].map(|edge| ends(&rule.right, edge)))
        .collect();
    assert_eq!(right, [[(1, 0), (0, 1)], [(1, 0), (1, 0)]]);
    assert_eq!(rules[1].right.edges[1].mark, mark::DASHED);
}

#[test]
fn the_name_of_a_rule_with_a_bidirectional_edge_stands_for_both_numbers() {
    let program = program(
        "Main = r!; {s, r}; s
        r() [ (1, empty) (2, empty) | (e(B), 1, 2, empty) ] => [ | ] interface = {}
        s() [ | ] => [ | ] interface = {}",
    );
    let both = Command::RuleSet(vec![0, 1]);
    assert_eq!(program.rules.len(), 3);
    assert_eq!(
        program.main,
        sequence(&[looped(both), Command::RuleSet(vec![2, 0, 1]), call(2)])
    );
}
