//! Applications: the checks before a change, the slots of new items, the order of records.

use super::bytes::*;
use super::rules::*;
use second::calls::run;
use second::encode::{edge_slot, node_slot};
use second::tree::*;

/// Left: a kept grey node, a deleted plain one and the edge between them.
/// Right: the kept node in green, two new ones and two edges.
fn exchange() -> Rule {
    rule(
        (
            vec![node(mark::GREY, &[]), node(mark::NONE, &[])],
            vec![edge(mark::NONE, 1, 0, &[])],
        ),
        (
            vec![
                node(mark::GREEN, &[]),
                node(mark::BLUE, &[]),
                node(mark::BLUE, &[Element::Constant(1)]),
            ],
            vec![edge(mark::RED, 0, 1, &[]), edge(mark::DASHED, 2, 1, &[])],
        ),
        1,
    )
}

#[test]
fn new_items_take_the_lowest_free_slots_and_records_have_their_order() {
    let grey = node_slot(mark::GREY, false, &[]);
    let nodes = [FREE, grey, RED, PLAIN, FREE];
    let edges = [
        edge_slot(mark::NONE, 2, 2, &[]),
        FREE_EDGE,
        edge_slot(mark::NONE, 3, 1, &[]),
    ];
    let outcome = applied(exchange(), &nodes, &edges);
    let nodes_after = [
        node_slot(mark::BLUE, false, &[]),
        node_slot(mark::GREEN, false, &[]),
        RED,
        node_slot(mark::BLUE, false, &[1]),
        FREE,
    ];
    let edges_after = [
        edges[0],
        edge_slot(mark::RED, 1, 0, &[]),
        edge_slot(mark::DASHED, 3, 0, &[]),
    ];
    let records = [
        edge_record(2, &edges[2]),
        node_record(1, &grey),
        node_record(3, &PLAIN),
        node_record(0, &FREE),
        node_record(3, &FREE),
        edge_record(1, &FREE_EDGE),
        edge_record(2, &FREE_EDGE),
    ];
    expect(
        &outcome,
        (0, 1, 7),
        &nodes_after.concat(),
        &edges_after.concat(),
        &records,
    );
}

#[test]
fn the_checks_before_a_change_come_in_the_order_6_3_4_5() {
    let sum = |number| Element::Sum(Operand::Constant(number), Operand::Constant(1));
    let add = |number| {
        rule(
            (vec![], vec![]),
            (
                vec![node(mark::NONE, &[sum(number)])],
                vec![edge(0, 0, 0, &[])],
            ),
            0,
        )
    };
    let answer = |number: i32, nodes: usize, edges: usize, records: usize| {
        let program = image(&[add(number)], call(0));
        let journal = vec![0; records * RECORD];
        run(
            &vec![0; nodes * NODE],
            &vec![0; edges * EDGE],
            &journal,
            &program,
            1,
            &[0; 8],
        )
        .answer
    };
    assert_eq!(answer(i32::MAX, 0, 0, 0), 6);
    assert_eq!(answer(0, 0, 0, 0), 3);
    assert_eq!(answer(0, 1, 0, 0), 4);
    assert_eq!(answer(0, 1, 1, 0), 5);
    assert_eq!(answer(0, 1, 1, 1), 5);
    assert_eq!(answer(0, 1, 1, 2), 0);
    assert_eq!(answer(i32::MAX, 1, 1, 2), 6);
}

#[test]
fn an_edges_label_that_cant_be_held_answers_6() {
    let overflow = Element::Sum(Operand::Constant(i32::MAX), Operand::Constant(1));
    let sides = || vec![node(mark::NONE, &[])];
    let add = rule(
        (sides(), vec![]),
        (sides(), vec![edge(0, 0, 0, &[overflow])]),
        1,
    );
    assert_eq!(applied(add, &[PLAIN], &[FREE_EDGE]).answer, 6);
}
