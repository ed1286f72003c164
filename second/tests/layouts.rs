//! The calls at the small core's layout, whose slots have 8, 10 and 12 bytes, beside those at the base layout. Bytes are written
//! out by hand.

#[path = "layouts/slots.rs"]
mod slots;

mod report;

use report::numbers;
use second::build::{call, node, node_rule};
use second::calls::{RunCall, UndoCall};
use second::encode::{self, RunnerInput};
use second::host::{Edge, Host, Label, Node};
use second::layout::Layout;
use second::listing::{listing, listing_at, read_input};
use second::observer::Unobserved;
use second::stored;
use second::tree::*;

const SMALL: Layout = Layout::SMALL;

/// A live root in slot 1 of three, a dashed edge from it to node 2 in slot 0 of two.
fn graph() -> Host {
    let node = |mark, root, atoms: &[i32]| Node {
        mark,
        root,
        label: Label::of(atoms),
    };
    let edge = Edge {
        mark: mark::DASHED,
        source: 1,
        target: 2,
        label: Label::of(&[-1]),
    };
    Host {
        nodes: vec![
            None,
            Some(node(mark::GREY, true, &[258])),
            Some(node(mark::NONE, false, &[])),
        ],
        edges: vec![Some(edge), None],
    }
}

#[test]
fn a_table_written_at_another_layout_is_read_back_as_the_same_graph() {
    let (nodes, edges) = (graph().node_table(&SMALL), graph().edge_table(&SMALL));
    let free = [0; 8];
    assert_eq!(
        nodes,
        [free, [1, 4, 1, 1, 0, 0, 1, 2], [1, 0, 0, 0, 0, 0, 0, 0]].concat()
    );
    assert_eq!(
        edges,
        [[1, 5, 0, 1, 1, 2, 255, 255, 255, 255], [0; 10]].concat()
    );
    assert_eq!(Host::read(&SMALL, &nodes, &edges), Ok(graph()));
    let (nodes, edges) = (
        graph().node_table(&Layout::BASE),
        graph().edge_table(&Layout::BASE),
    );
    assert_eq!((nodes.len(), edges.len()), (3 * 36, 2 * 40));
    assert_eq!(Host::read(&Layout::BASE, &nodes, &edges), Ok(graph()));
}

#[test]
fn a_label_longer_than_the_layouts_breaks_it() {
    let long = [1, 0, 0, 2, 0, 0, 0, 0];
    let reason = Host::read(&SMALL, &long, &[]).unwrap_err();
    assert_eq!(reason, "node 0: its label is longer than one atom");
    let reason = |layout: &Layout, length: u8| {
        let mut long = vec![0; layout.node_length()];
        (long[0], long[3]) = (1, length);
        Host::read(layout, &long, &[]).unwrap_err()
    };
    assert_eq!(
        [reason(&Layout::FOUR, 5), reason(&Layout::BASE, 9)],
        ["four", "eight"].map(|most| format!("node 0: its label is longer than {most} atoms"))
    );
}

/// Case P's program: as long as possible grey x to grey y becomes red x, blue x + y, with the edge turned round.
fn case_p() -> Vec<u8> {
    let input = read_input(&stored::case_p().stdin);
    input.expect("a runner input").program
}

const FIVE: [u8; 8] = [1, 4, 0, 1, 0, 0, 0, 5];
const SEVEN: [u8; 8] = [1, 4, 0, 1, 0, 0, 0, 7];
const THERE: [u8; 10] = [1, 0, 0, 0, 0, 1, 0, 0, 0, 0];
const BACK: [u8; 10] = [1, 0, 0, 0, 1, 0, 0, 0, 0, 0];

#[test]
fn case_p_runs_at_the_small_layout_and_is_undone_there() {
    let call = RunCall {
        nodes: [FIVE, SEVEN].concat(),
        edges: THERE.to_vec(),
        journal: vec![0xEE; 5 * 12],
        program: case_p(),
        fuel: 10,
        report: vec![0xEE; 8],
    };
    let after = call.outcome_at(&SMALL, &mut Unobserved);
    assert_eq!(numbers(&after), (0, 3, 4));
    assert_eq!(
        after.nodes,
        [[1, 1, 0, 1, 0, 0, 0, 5], [1, 3, 0, 1, 0, 0, 0, 12]].concat()
    );
    assert_eq!(after.edges, BACK);
    let records: [&[u8]; 6] = [
        &[2, 0, 1, 0, 0, 0, 0, 1, 0, 0, 0, 0],
        &[1, 0, 1, 4, 0, 1, 0, 0, 0, 5, 0, 0],
        &[1, 1, 1, 4, 0, 1, 0, 0, 0, 7, 0, 0],
        &[2, 0, 0, 0, 0, 0, 0, 0, 0, 0, 0, 0],
        &[0; 12],
        &[],
    ];
    assert_eq!(after.journal, records.concat());
    let undone = UndoCall {
        nodes: after.nodes,
        edges: after.edges,
        journal: after.journal,
        count: 4,
        report: vec![0xEE; 8],
    }
    .outcome_at(&SMALL);
    assert_eq!(numbers(&undone), (0, 0, 4));
    assert_eq!((undone.nodes, undone.edges), (call.nodes, call.edges));
    assert_eq!(undone.journal, [0; 5 * 12]);
}

#[test]
fn the_runner_lists_case_p_at_the_small_layout() {
    let mut input = RunnerInput {
        nodes: [FIVE, SEVEN].concat(),
        edges: THERE.to_vec(),
        records: 255,
        fuel: 10,
        program: case_p(),
    };
    let expected = "answer 0 steps 3 records 4\n\
                    node 0 red plain 5\n\
                    node 1 blue plain 12\n\
                    edge 0 1 0 none\n";
    assert_eq!(listing_at(&SMALL, &encode::runner_input(&input)), expected);
    input.records = 256;
    let bytes = encode::runner_input(&input);
    assert_eq!(listing_at(&SMALL, &bytes), "answer 12 steps 0 records 0\n");
    assert_eq!(listing(&bytes), "answer 10 steps 0 records 0\n");
    input.records = 1024;
    let bytes = encode::runner_input(&input);
    assert_eq!(listing_at(&SMALL, &bytes), "answer 12 steps 0 records 0\n");
    input.records = 1025;
    let bytes = encode::runner_input(&input);
    assert_eq!(listing_at(&SMALL, &bytes), "input refused\n");
    assert_eq!(listing(&bytes), "input refused\n");
}

/// A call on one unlabelled node, which a rule gives a label of so many atoms.
fn labelling(layout: &Layout, atoms: usize) -> RunCall {
    let labelled = node(mark::NONE, &vec![Element::Constant(9); atoms]);
    let rule = node_rule(&[node(mark::NONE, &[])], &[labelled], 1);
    RunCall {
        nodes: layout.node_slot(mark::NONE, false, &[]),
        edges: vec![],
        journal: vec![0; layout.record_length()],
        program: encode::program(&Program::without_procedures(vec![rule], call(0))),
        fuel: 1,
        report: vec![0; 8],
    }
}

#[test]
fn a_label_over_the_layouts_atoms_answers_6() {
    let answer = |layout: &Layout, atoms: usize| {
        let call = labelling(layout, atoms);
        let outcome = call.outcome_at(layout, &mut Unobserved);
        match outcome.answer {
            0 => assert_eq!(
                outcome.nodes,
                layout.node_slot(mark::NONE, false, &vec![9; atoms])
            ),
            _ => assert_eq!(outcome.nodes, call.nodes),
        }
        outcome.answer
    };
    assert_eq!(
        [0, 1, 2, 4].map(|atoms| answer(&SMALL, atoms)),
        [0, 0, 6, 6]
    );
    assert_eq!(
        [0, 4, 5, 8].map(|atoms| answer(&Layout::FOUR, atoms)),
        [0, 0, 6, 6]
    );
    assert_eq!(
        [0, 1, 4, 5, 8].map(|atoms| answer(&Layout::BASE, atoms)),
        [0; 5]
    );
}

#[test]
fn lengths_are_refused_by_the_layouts_numbers() {
    let answer = |nodes: usize, edges: usize, journal: usize| {
        let call = RunCall {
            nodes: vec![0; nodes],
            edges: vec![0; edges],
            journal: vec![0; journal],
            program: encode::command(&Command::Skip),
            fuel: 1,
            report: vec![0; 8],
        };
        call.outcome_at(&SMALL, &mut Unobserved).answer
    };
    assert_eq!(answer(128 * 8, 255 * 10, 255 * 12), 0);
    assert_eq!(answer(129 * 8, 255 * 10, 255 * 12), 10);
    assert_eq!(answer(128 * 8, 256 * 10, 255 * 12), 11);
    assert_eq!(answer(128 * 8, 255 * 10, 256 * 12), 12);
    let other = Layout::FOUR;
    assert_eq!(answer(other.node_length(), 0, 0), 10);
    assert_eq!(answer(0, other.edge_length(), 0), 11);
    assert_eq!(answer(0, 0, other.record_length()), 12);
}

#[test]
fn undo_looks_at_kind_and_slot_of_a_narrow_record() {
    let answer = |kind: u8, slot: u8| {
        let mut journal = vec![7; 12];
        (journal[0], journal[1]) = (kind, slot);
        let call = UndoCall {
            nodes: vec![0; 2 * 8],
            edges: vec![0; 10],
            journal,
            count: 1,
            report: vec![0; 8],
        };
        let left = call.outcome_at(&SMALL);
        let written = left
            .nodes
            .iter()
            .chain(&left.edges)
            .filter(|byte| **byte == 7);
        (left.answer, written.count())
    };
    assert_eq!([answer(1, 1), answer(2, 0)], [(0, 8), (0, 10)]);
    assert_eq!(
        [answer(1, 2), answer(2, 1), answer(3, 0), answer(0, 0)],
        [(20, 0); 4]
    );
}
