//! The tests of rules.

use super::bytes::*;
use super::rules::*;
use second::encode::{edge_slot, node_slot};
use second::tree::*;

/// Whether the test holds between nodes 0 and 1 of a host.
fn holds(negated: bool, kind: TestKind, edges: &[[u8; EDGE]]) -> bool {
    let pair = [node(mark::NONE, &[]), node(mark::GREY, &[])];
    let rule = node_rule(&pair, &pair, 2);
    let nodes = [PLAIN, node_slot(mark::GREY, false, &[]), RED];
    match applied(tests(&[(negated, kind)], rule), &nodes, edges).answer {
        0 => true,
        1 => false,
        answer => panic!("answer {answer}"),
    }
}

#[test]
fn each_test_holds_as_document_01_says() {
    let run = |source, target| edge_slot(mark::DASHED, source, target, &[5]);
    let edges = [
        run(0, 1),
        run(0, 1),
        run(0, 0),
        run(2, 0),
        run(2, 1),
        run(1, 1),
    ];
    let cases = [
        (TestKind::Edge(0, 1), true),
        (TestKind::Edge(1, 0), false),
        (TestKind::Edge(0, 0), true),
        (TestKind::OutDegree(0, 3), true),
        (TestKind::OutDegree(0, 2), false),
        (TestKind::OutDegree(0, 4), false),
        (TestKind::OutDegree(1, 1), true),
        (TestKind::InDegree(0, 2), true),
        (TestKind::InDegree(0, 1), false),
        (TestKind::InDegree(0, 3), false),
        (TestKind::InDegree(1, 4), true),
        (TestKind::InDegree(1, 260), false),
    ];
    let number = Operand::Constant;
    let related = |relation, a, b| TestKind::Relation(relation, number(a), number(b));
    let relations = [
        (related(Relation::Equal, 3, 3), true),
        (related(Relation::Equal, -3, 3), false),
        (related(Relation::Less, -1, 0), true),
        (related(Relation::Less, 0, 0), false),
        (related(Relation::Less, i32::MIN, i32::MAX), true),
        (related(Relation::Less, 1, -1), false),
    ];
    for (kind, expected) in cases.into_iter().chain(relations) {
        assert_eq!(holds(false, kind, &edges), expected, "{kind:?}");
        assert_eq!(holds(true, kind, &edges), !expected, "not {kind:?}");
    }
}

#[test]
fn tests_look_at_the_values_of_the_match_and_pick_a_later_one() {
    let x = Element::Variable(0);
    let rule = node_rule(&[node(mark::NONE, &[x])], &[node(mark::RED, &[x])], 1);
    let rule = variables(&[VariableType::Int], rule);
    let above = TestKind::Relation(Relation::Less, Operand::Constant(5), Operand::Variable(0));
    let slots = [4, 5, 6, 7].map(|atom| node_slot(mark::NONE, false, &[atom]));
    let outcome = applied(tests(&[(false, above)], rule), &slots, &[]);
    let mut after = slots;
    after[2] = node_slot(mark::RED, false, &[6]);
    expect(
        &outcome,
        (0, 1, 1),
        &after.concat(),
        &[],
        &[node_record(2, &slots[2])],
    );
}
