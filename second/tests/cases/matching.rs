//! The six rules of matching, and which match is the first.

use super::bytes::*;
use super::rules::*;
use second::encode::{edge_slot, node_slot};
use second::host::{Edge, Host, Label, Node};
use second::matching::{self, Placement};
use second::tree::*;

/// Which of the six matching rules hold for left nodes 0 and 1 in slots 0 and 1 and left edge 0 in slot 0.
/// The left side has a red root x, an unmarked x that is deleted, and a blue edge; the root must have out-degree 1.
fn rules_that_hold(host: &Host) -> [bool; 6] {
    let x = Element::Variable(0);
    let left = (
        vec![root(mark::RED, &[x]), node(mark::NONE, &[x])],
        vec![edge(mark::BLUE, 0, 1, &[])],
    );
    let rule = rule(left, (vec![root(mark::RED, &[x])], vec![]), 1);
    let rule = variables(&[VariableType::Int], rule);
    let rule = tests(&[(false, TestKind::OutDegree(0, 1))], rule);
    let placement = Placement {
        nodes: vec![0, 1],
        edges: vec![0],
    };
    let values = vec![Some(&[4][..])];
    [
        matching::marks_agree(&rule, host, &placement),
        matching::root_flags_agree(&rule, host, &placement),
        matching::sources_and_targets_correspond(&rule, host, &placement),
        matching::labels_agree(&rule, host, &placement) == Some(values.clone()),
        matching::dangling_condition(&rule, host, &placement),
        matching::every_test_holds(&rule, host, &placement, &values),
    ]
}

#[test]
fn each_matching_rule_is_broken_by_itself() {
    let node = |mark, root, atom| {
        let label = Label::of(&[atom]);
        Some(Node { mark, root, label })
    };
    let edge = |mark, source, target| {
        let label = Label::default();
        Some(Edge {
            mark,
            source,
            target,
            label,
        })
    };
    let host = || Host {
        nodes: vec![
            node(mark::RED, true, 4),
            node(mark::NONE, false, 4),
            node(mark::NONE, false, 4),
        ],
        edges: vec![edge(mark::BLUE, 0, 1), None],
    };
    assert_eq!(rules_that_hold(&host()), [true; 6]);
    let edits: [&dyn Fn(&mut Host); 6] = [
        &|host| host.edges[0] = edge(mark::NONE, 0, 1),
        &|host| host.nodes[1] = node(mark::NONE, true, 4),
        &|host| host.edges[0] = edge(mark::BLUE, 0, 2),
        &|host| host.nodes[1] = node(mark::NONE, false, 5),
        &|host| host.edges[1] = edge(mark::BLUE, 2, 1),
        &|host| host.edges[1] = edge(mark::BLUE, 0, 2),
    ];
    for (number, edit) in edits.into_iter().enumerate() {
        let mut edited = host();
        edit(&mut edited);
        let expected: [bool; 6] = std::array::from_fn(|other| other != number);
        assert_eq!(rules_that_hold(&edited), expected, "rule {}", number + 1);
    }
}

/// The tables after a rule that marks what it matched: nodes red in left order, edges blue.
fn matched(
    left_edges: Vec<RuleEdge>,
    nodes: usize,
    edges: &[[u8; EDGE]],
) -> (Vec<usize>, Vec<usize>) {
    let blue = left_edges
        .iter()
        .map(|left| edge(mark::BLUE, left.source, left.target, &[]));
    let blue: Vec<RuleEdge> = blue.collect();
    let numbered = |number| node(mark::RED, &[Element::Constant(number)]);
    let rule = rule(
        (
            vec![node(mark::NONE, &[]), node(mark::NONE, &[])],
            left_edges,
        ),
        (vec![numbered(0), numbered(1)], blue),
        2,
    );
    let outcome = applied(rule, &vec![PLAIN; nodes], edges);
    let slot_of = |number: i32| {
        let red = node_slot(mark::RED, false, &[number]);
        outcome.nodes.chunks(NODE).position(|slot| slot == red)
    };
    let blue_edges = outcome
        .edges
        .chunks(EDGE)
        .enumerate()
        .filter(|(_, slot)| slot[1] == mark::BLUE);
    let found = [0, 1].into_iter().filter_map(slot_of).collect();
    (found, blue_edges.map(|(slot, _)| slot).collect())
}

#[test]
fn the_first_match_compares_node_slots_before_edge_slots() {
    assert_eq!(matched(vec![], 3, &[]), (vec![0, 1], vec![]));
    // Edge 0 runs between later nodes than edge 1, and edges 2 and 3 run beside edge 1.
    let edges = [(2, 1), (0, 2), (0, 2), (0, 2)].map(|(s, t)| edge_slot(0, s, t, &[]));
    let one = vec![edge(mark::NONE, 0, 1, &[])];
    assert_eq!(matched(one, 3, &edges), (vec![0, 2], vec![1]));
    let two = vec![edge(mark::NONE, 0, 1, &[]), edge(mark::NONE, 0, 1, &[])];
    assert_eq!(matched(two, 3, &edges), (vec![0, 2], vec![1, 2]));
    let back = vec![edge(mark::NONE, 1, 0, &[])];
    assert_eq!(matched(back, 3, &edges), (vec![1, 2], vec![0]));
}

#[test]
fn any_agrees_with_every_mark_and_keeps_it() {
    for number in [mark::NONE, mark::RED, mark::GREEN, mark::BLUE, mark::GREY] {
        let slot = node_slot(number, false, &[4, 5]);
        let outcome = applied(find(), &[slot], &[]);
        expect(&outcome, (0, 1, 1), &slot, &[], &[node_record(0, &slot)]);
    }
    for number in [mark::NONE, mark::RED, mark::GREEN, mark::BLUE, mark::DASHED] {
        let sides = || vec![node(mark::NONE, &[])];
        let left = (sides(), vec![edge(mark::ANY, 0, 0, &[])]);
        let delete_loop = rule(left, (sides(), vec![]), 1);
        let outcome = applied(delete_loop, &[PLAIN], &[edge_slot(number, 0, 0, &[])]);
        assert_eq!((outcome.answer, outcome.edges), (0, FREE_EDGE.to_vec()));
    }
}

#[test]
fn root_flags_are_equal_both_ways() {
    let unroot = node_rule(&[root(mark::NONE, &[])], &[node(mark::NONE, &[])], 1);
    let host_root = node_slot(mark::NONE, true, &[]);
    assert_eq!(applied(unroot.clone(), &[PLAIN], &[]).answer, 1);
    let outcome = applied(unroot, &[PLAIN, host_root], &[]);
    expect(
        &outcome,
        (0, 1, 1),
        &[PLAIN; 2].concat(),
        &[],
        &[node_record(1, &host_root)],
    );
}

#[test]
fn the_dangling_condition_looks_at_edges_outside_the_match() {
    let delete_second = {
        let left = vec![node(mark::GREY, &[]), node(mark::NONE, &[])];
        let kept = vec![node(mark::GREY, &[])];
        rule((left, vec![edge(mark::NONE, 0, 1, &[])]), (kept, vec![]), 1)
    };
    let nodes = [node_slot(mark::GREY, false, &[]), PLAIN, RED];
    let matched = edge_slot(mark::NONE, 0, 1, &[]);
    let answer = |edges: &[[u8; EDGE]]| applied(delete_second.clone(), &nodes, edges).answer;
    assert_eq!(answer(&[matched]), 0);
    assert_eq!(answer(&[matched, edge_slot(mark::NONE, 0, 2, &[])]), 0);
    assert_eq!(answer(&[matched, matched]), 1);
    assert_eq!(answer(&[matched, edge_slot(mark::NONE, 1, 2, &[])]), 1);
    assert_eq!(answer(&[matched, edge_slot(mark::NONE, 2, 1, &[])]), 1);
    assert_eq!(answer(&[matched, edge_slot(mark::NONE, 1, 1, &[])]), 1);
}

#[test]
fn a_loop_edge_counts_once() {
    let with_loop = || {
        (
            vec![node(mark::NONE, &[])],
            vec![edge(mark::NONE, 0, 0, &[])],
        )
    };
    let delete = rule(with_loop(), (vec![], vec![]), 0);
    let outcome = applied(delete.clone(), &[PLAIN], &[edge_slot(0, 0, 0, &[])]);
    assert_eq!(numbers(&outcome), (0, 1, 2));
    assert_eq!((outcome.nodes, outcome.edges), (FREE.to_vec(), FREE_EDGE.to_vec()));
    let two_loops = [edge_slot(0, 0, 0, &[]); 2];
    assert_eq!(applied(delete, &[PLAIN], &two_loops).answer, 1);
}

#[test]
fn an_empty_left_side_has_one_match() {
    let outcome = applied(Rule::default(), &[], &[]);
    expect(&outcome, (0, 1, 0), &[], &[], &[]);
}
