//! What refuses a packing alone: tables of too many slots, and live slots that the other side has no number for. Rests on the
//! carryings of `carrying`.

use super::carrying::Carrying;
use super::{refusal, Refusal};
use crate::carrying::Way;
use crate::host::{Edge, Host, Label, Node};
use crate::tree::mark;

/// The slots of a table and of the one that it is carried to.
#[derive(Clone, Copy)]
struct Counts {
    from: usize,
    to: usize,
}

/// Free tables of so many node and edge slots on both sides.
fn all_free(way: Way, nodes: Counts, edges: Counts) -> Carrying {
    let host = Host { nodes: vec![None; nodes.from], edges: vec![None; edges.from] };
    Carrying::to_slots(way, &host, nodes.to, edges.to)
}

/// One slot too many in each table, beside the most. The edge table of unpack that is carried to would take too much room among
/// the stored cases.
pub(super) fn too_many_slots(way: Way) -> Vec<Refusal<Carrying>> {
    const FEW: Counts = Counts { from: 2, to: 1 };
    let (from, to) = (way.from(), way.to());
    let over = |words: &str, answer: u32, most: usize, carrying: &dyn Fn(usize) -> Carrying| {
        let name = format!("{way:?}, {words} of {} slots", most + 1);
        refusal(&name, answer, carrying(most), carrying(most + 1))
    };
    let mut list = vec![
        over("node table", 10, from.most_nodes, &|slots| all_free(way, Counts { from: slots, ..FEW }, FEW)),
        over("node table carried to", 10, to.most_nodes, &|slots| all_free(way, Counts { to: slots, ..FEW }, FEW)),
        over("edge table", 11, from.most_edges, &|slots| all_free(way, FEW, Counts { from: slots, ..FEW })),
    ];
    if way == Way::Pack {
        list.push(over("edge table carried to", 11, to.most_edges, &|slots| all_free(way, FEW, Counts { to: slots, ..FEW })));
    }
    list
}

/// A live slot in tables of so many slots: the last number that the other side has, or one that it has not.
struct Reach {
    from: usize,
    to: usize,
    beyond: usize,
}

const fn reach(from: usize, to: usize, beyond: usize) -> Reach {
    Reach { from, to, beyond }
}

/// Node slots, each of which has a loop. The numbers 128 and 256 of pack are 0 where a number loses its high bit or byte.
const PACKED_NODES: [Reach; 3] = [reach(3, 2, 2), reach(129, 128, 128), reach(257, 128, 256)];
const UNPACKED_NODES: [Reach; 3] = [reach(3, 2, 2), reach(128, 127, 127), reach(128, 1, 64)];

/// Edge slots, of edges between nodes 0 and 1.
const PACKED_EDGES: [Reach; 3] = [reach(3, 2, 2), reach(256, 255, 255), reach(257, 1, 256)];
const UNPACKED_EDGES: [Reach; 3] = [reach(3, 2, 2), reach(255, 254, 254), reach(255, 1, 128)];

/// The number 29 for a live slot whose number isn't there, beside the same slot at the last number that is.
pub(super) fn live_slots(way: Way) -> Vec<Refusal<Carrying>> {
    let (nodes, edges): (&[Reach], &[Reach]) = match way {
        Way::Pack => (&PACKED_NODES, &PACKED_EDGES),
        _ => (&UNPACKED_NODES, &UNPACKED_EDGES),
    };
    let refused = |item: &str, reach: &Reach, carrying: fn(Way, &Reach, usize) -> Carrying| {
        let name = format!("{way:?}, live {item} {} of {}, to {} slots", reach.beyond, reach.from, reach.to);
        refusal(&name, 29, carrying(way, reach, reach.to - 1), carrying(way, reach, reach.beyond))
    };
    let mut list: Vec<Refusal<Carrying>> = nodes.iter().map(|reach| refused("node", reach, node_at)).collect();
    list.extend(edges.iter().map(|reach| refused("edge", reach, edge_at)));
    list
}

fn node_at(way: Way, reach: &Reach, slot: usize) -> Carrying {
    let mut host = Host { nodes: vec![None; reach.from], edges: vec![Some(edge(slot, slot))] };
    host.nodes[slot] = Some(node());
    Carrying::to_slots(way, &host, reach.to, 1)
}

fn edge_at(way: Way, reach: &Reach, slot: usize) -> Carrying {
    let mut host = Host { nodes: vec![Some(node()); 2], edges: vec![None; reach.from] };
    host.edges[slot] = Some(edge(0, 1));
    Carrying::to_slots(way, &host, 2, reach.to)
}

fn node() -> Node {
    Node { mark: mark::BLUE, root: true, label: Label::of(&[i32::MIN + 1]) }
}

fn edge(source: usize, target: usize) -> Edge {
    Edge { mark: mark::DASHED, source: source as u16, target: target as u16, label: Label::of(&[-2]) }
}
