//! The calls that carry a host: their refusals, what they write, and that a host carried is the same graph, on which programs do
//! the same.

#[path = "carrying/packing.rs"]
mod packing;
#[path = "carrying/runs.rs"]
mod runs;
#[path = "carrying/small_runs.rs"]
mod small_runs;

mod report;

use second::carrying::{carried, output, tables, CarryCall, Carried, Way};
use second::corpus;
use second::encode::field;
use second::host::Host;
use second::layout::{Core, Layout};
use second::listing::read_input;
use second::refusals::{carrying_refused_for, numbers_of, of_carrying, Carrying};

fn outcome(carrying: &Carrying) -> Carried {
    carrying.call.outcome(carrying.way)
}

#[test]
fn each_clause_refuses_by_its_number_and_leaves_the_tables() {
    let refusals = of_carrying();
    for refusal in &refusals {
        assert_eq!(outcome(&refusal.accepted).answer, 0, "{}", refusal.name);
        let left = outcome(&refusal.refused);
        assert_eq!(left.answer, refusal.answer, "{}", refusal.name);
        let lent = &refusal.refused.call;
        assert!(left.nodes == lent.to_nodes && left.edges == lent.to_edges, "{} writes", refusal.name);
    }
    for way in Way::ALL {
        for answer in numbers_of(way) {
            let found = refusals.iter().filter(|it| it.refused.way == way && it.answer == *answer);
            assert!(found.count() >= 6, "{way:?}, {answer}");
        }
    }
}

#[test]
fn the_lowest_number_that_applies_is_answered() {
    for way in Way::ALL {
        let numbers = numbers_of(way);
        for set in 0u32..1 << numbers.len() {
            let given: Vec<u32> = (0..numbers.len()).filter(|bit| set >> bit & 1 == 1).map(|bit| numbers[bit]).collect();
            let lowest = given.first().copied().unwrap_or(0);
            assert_eq!(outcome(&carrying_refused_for(way, &given)).answer, lowest, "{way:?} {given:?}");
        }
    }
}

/// A green root of two atoms behind a free slot, and a red edge of one atom from it to itself.
#[rustfmt::skip]
const NODES: [u8; 40] = [
    0, 0, 0, 0, 0, 0, 0, 0, 0, 0, 0, 0, 0, 0, 0, 0, 0, 0, 0, 0,
    1, 2, 1, 2, 255, 255, 255, 254, 0, 0, 1, 2, 0, 0, 0, 0, 0, 0, 0, 0,
];
const EDGES: [u8; 24] = [1, 1, 0, 1, 0, 1, 0, 1, 128, 0, 0, 0, 0, 0, 0, 0, 0, 0, 0, 0, 0, 0, 0, 0];

#[test]
fn slots_are_carried_byte_by_byte() {
    let wide_node = [&NODES[20..], &[0; 16]].concat();
    let wide_nodes = [vec![0; 36], wide_node].concat();
    let wide_edges = [&EDGES[..], &[0; 16]].concat();
    let there = CarryCall { nodes: NODES.to_vec(), edges: EDGES.to_vec(), to_nodes: vec![0xEE; 72], to_edges: vec![0xEE; 40] };
    let wide = there.outcome(Way::Widen);
    assert_eq!(wide, Carried { answer: 0, nodes: wide_nodes.clone(), edges: wide_edges.clone() });
    let back = CarryCall { nodes: wide_nodes, edges: wide_edges, to_nodes: vec![0xEE; 40], to_edges: vec![0xEE; 24] };
    assert_eq!(back.outcome(Way::Narrow), Carried { answer: 0, nodes: NODES.to_vec(), edges: EDGES.to_vec() });
}

/// The greatest edge tables both ways: as many slots as there may be, and one more.
#[test]
fn edge_tables_are_carried_up_to_the_most_slots() {
    for (way, most) in [(Way::Widen, 1024), (Way::Narrow, 1024), (Way::Pack, 255), (Way::Unpack, 255)] {
        let of_slots = |slots: usize| Carrying::of(way, &Host { nodes: vec![], edges: vec![None; slots] });
        let full = outcome(&of_slots(most));
        assert_eq!((full.answer, full.edges), (0, vec![0; most * way.to().edge_length()]));
        assert_eq!(outcome(&of_slots(most + 1)).answer, 11);
    }
}

/// Tables of drawn images that keep the base layout.
fn drawn_tables() -> Vec<(Vec<u8>, Vec<u8>)> {
    let inputs = corpus::drawn_images(Core::Wide, 8, 2_000).into_iter().filter_map(|image| read_input(&image));
    let base = Layout::BASE;
    let whole = inputs.filter(|it| base.is_node_table(it.nodes.len()) && base.is_edge_table(it.edges.len()));
    whole.filter(|it| Host::read(&base, &it.nodes, &it.edges).is_ok()).map(|it| (it.nodes, it.edges)).collect()
}

#[test]
fn a_host_carried_there_and_back_is_byte_for_byte_the_same() {
    let (mut carried_hosts, mut too_long) = (0, 0);
    for (nodes, edges) in drawn_tables() {
        match carried(Way::Narrow, &nodes, &edges) {
            Ok((narrow_nodes, narrow_edges)) => {
                let host = Host::read(&Layout::BASE, &nodes, &edges);
                assert_eq!(Host::read(&Layout::FOUR, &narrow_nodes, &narrow_edges), host);
                let wide = carried(Way::Widen, &narrow_nodes, &narrow_edges);
                assert_eq!(wide, Ok((nodes.clone(), edges.clone())));
                assert_eq!(carried(Way::Narrow, &nodes, &edges), Ok((narrow_nodes, narrow_edges)));
                carried_hosts += 1;
            }
            Err(answer) => {
                assert_eq!(answer, 26);
                assert!(has_long_label(&nodes, Layout::BASE.node_length()) || has_long_label(&edges, Layout::BASE.edge_length()));
                too_long += 1;
            }
        }
    }
    assert!(carried_hosts > 500 && too_long > 200, "{carried_hosts} carried, {too_long} too long");
}

/// Whether a label of the table has more than four atoms.
fn has_long_label(table: &[u8], slot: usize) -> bool {
    table.chunks(slot).any(|bytes| bytes[3] > 4)
}

#[test]
fn the_programs_write_both_tables_or_why_not() {
    let legal = tables(&NODES, &EDGES);
    let widened = output(Way::Widen, &legal);
    assert_eq!(widened[..6], [1, 0, 72, 0, 0, 0]);
    assert_eq!((widened.len(), widened[3 + 72..][..3].to_vec()), (3 + 72 + 3 + 40, vec![2, 0, 40]));
    assert_eq!(output(Way::Narrow, &widened), legal);
    let said = |way: Way, bytes: &[u8]| String::from_utf8(output(way, bytes)).expect("a line");
    assert_eq!(said(Way::Narrow, &legal), "refused 10\n");
    assert_eq!(said(Way::Widen, &tables(&NODES, &[0; 25])), "refused 11\n");
    assert_eq!(said(Way::Widen, &tables(&NODES[..20], &EDGES)), "refused 15\n");
    assert_eq!(said(Way::Widen, &tables(&[0; 20 * 513], &[])), "refused 10\n");
    let long = Layout::BASE.node_slot(0, false, &[1, 2, 3, 4, 5]);
    assert_eq!(said(Way::Narrow, &tables(&long, &[])), "refused 26\n");
}

#[test]
fn the_programs_refuse_what_isnt_two_fields() {
    let (nodes, edges) = (field(1, &NODES), field(2, &EDGES));
    let legal = [&nodes[..], &edges].concat();
    let others = [
        vec![],
        nodes.clone(),
        edges.clone(),
        [&edges[..], &nodes].concat(),
        [&legal[..], &[0]].concat(),
        [&legal[..], &field(3, &[])].concat(),
        legal[..legal.len() - 1].to_vec(),
        [&field(6, &NODES)[..], &edges].concat(),
        [field(1, &[0; 60_000]), field(2, &[0; 5_531])].concat(),
    ];
    for way in Way::OLD {
        for other in &others {
            assert_eq!(output(way, other), b"input refused\n", "{} bytes", other.len());
        }
        assert_eq!(output(way, &[field(1, &[0; 60_000]), field(2, &[0; 5_530])].concat()), b"refused 10\n");
    }
}
