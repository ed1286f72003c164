//! Carrying a host from two tables to two tables of another layout, slot numbers kept: the calls widen, narrow, pack and unpack
//! on byte vectors, and what the programs widen and narrow write.

use crate::answer;
use crate::encode;
use crate::host::{Host, Label};
use crate::layout::Layout;
use crate::listing::{field, INPUT_BYTES};

/// Which way a host is carried.
#[derive(Clone, Copy, Debug, PartialEq, Eq)]
pub enum Way {
    /// From four atoms to eight.
    Widen,
    /// From eight atoms to four.
    Narrow,
    /// From the wide core's tables to the small one's.
    Pack,
    /// From the small core's tables to the wide one's.
    Unpack,
}

/// What is asked of the slot counts, and what refuses a host that the tables carried to can't hold.
#[derive(Clone, Copy, Debug, PartialEq, Eq)]
enum Manner {
    /// As many slots on both sides; a label that is too long is refused by 26.
    Exact,
    /// Any counts; a live slot of a number that isn't there is refused by 29, and so is a label that is too long.
    Packing,
}

impl Way {
    pub const ALL: [Way; 4] = [Way::Widen, Way::Narrow, Way::Pack, Way::Unpack];

    /// The ways of old tables.
    pub const OLD: [Way; 2] = [Way::Widen, Way::Narrow];

    /// The ways between the cores.
    pub const PACKING: [Way; 2] = [Way::Pack, Way::Unpack];

    pub const fn from(self) -> &'static Layout {
        match self {
            Way::Widen => &Layout::FOUR,
            Way::Narrow | Way::Pack => &Layout::BASE,
            Way::Unpack => &Layout::SMALL,
        }
    }

    pub const fn to(self) -> &'static Layout {
        self.back().from()
    }

    pub const fn back(self) -> Way {
        match self {
            Way::Widen => Way::Narrow,
            Way::Narrow => Way::Widen,
            Way::Pack => Way::Unpack,
            Way::Unpack => Way::Pack,
        }
    }

    const fn manner(self) -> Manner {
        match self {
            Way::Widen | Way::Narrow => Manner::Exact,
            Way::Pack | Way::Unpack => Manner::Packing,
        }
    }
}

/// What a carrying is given: the tables that hold the host, and those that it is carried to.
#[derive(Clone, Debug, PartialEq, Eq, PartialOrd, Ord)]
pub struct CarryCall {
    pub nodes: Vec<u8>,
    pub edges: Vec<u8>,
    pub to_nodes: Vec<u8>,
    pub to_edges: Vec<u8>,
}

/// The answer of a carrying and what the tables that the host is carried to hold after it.
#[derive(Clone, Debug, PartialEq, Eq)]
pub struct Carried {
    pub answer: u32,
    pub nodes: Vec<u8>,
    pub edges: Vec<u8>,
}

impl CarryCall {
    /// What the call of this way gives.
    pub fn outcome(&self, way: Way) -> Carried {
        let to = way.to();
        match self.checked(way) {
            Ok(mut host) => {
                host.nodes.resize(self.to_nodes.len() / to.node_length(), None);
                host.edges.resize(self.to_edges.len() / to.edge_length(), None);
                Carried {
                    answer: answer::RESULT,
                    nodes: host.node_table(to),
                    edges: host.edge_table(to),
                }
            }
            Err(answer) => Carried {
                answer,
                nodes: self.to_nodes.clone(),
                edges: self.to_edges.clone(),
            },
        }
    }

    /// The checks 10, 11, 15, and 26 or 29 in their order: the host, or the lowest number that applies.
    fn checked(&self, way: Way) -> Result<Host, u32> {
        let (from, to) = (way.from(), way.to());
        let lengths = from.is_node_table(self.nodes.len()) && to.is_node_table(self.to_nodes.len());
        let node_slots = (self.nodes.len() / from.node_length(), self.to_nodes.len() / to.node_length());
        if !lengths || !way.manner().takes(node_slots) {
            return Err(answer::NODE_TABLE);
        }
        let lengths = from.is_edge_table(self.edges.len()) && to.is_edge_table(self.to_edges.len());
        let edge_slots = (self.edges.len() / from.edge_length(), self.to_edges.len() / to.edge_length());
        if !lengths || !way.manner().takes(edge_slots) {
            return Err(answer::EDGE_TABLE);
        }
        let host = Host::read(from, &self.nodes, &self.edges).map_err(|_| answer::LAYOUT)?;
        match labels_fit(&host, to) && slots_fit(&host, node_slots.1, edge_slots.1) {
            true => Ok(host),
            false => Err(way.manner().unfit()),
        }
    }
}

impl Manner {
    /// Whether a table of the first number of slots is carried to one of the second.
    fn takes(self, (from, to): (usize, usize)) -> bool {
        match self {
            Manner::Exact => from == to,
            Manner::Packing => true,
        }
    }

    /// The number that refuses a host which doesn't fit.
    const fn unfit(self) -> u32 {
        match self {
            Manner::Exact => answer::CARRIED_LABEL,
            Manner::Packing => answer::UNFIT_HOST,
        }
    }
}

/// Whether the layout can hold each label of the host.
fn labels_fit(host: &Host, layout: &Layout) -> bool {
    let fits = |label: &Label| layout.holds(label.atoms().len());
    let nodes = host.live_nodes().all(|(_, node)| fits(&node.label));
    nodes && host.live_edges().all(|(_, edge)| fits(&edge.label))
}

/// Whether each live slot has a number in tables of so many slots.
fn slots_fit(host: &Host, nodes: usize, edges: usize) -> bool {
    let live_nodes = host.live_nodes().all(|(slot, _)| slot < nodes);
    live_nodes && host.live_edges().all(|(slot, _)| slot < edges)
}

/// The tables carried to tables of as many slots, or the number that refuses it.
pub fn carried(way: Way, nodes: &[u8], edges: &[u8]) -> Result<(Vec<u8>, Vec<u8>), u32> {
    let (from, to) = (way.from(), way.to());
    let call = CarryCall {
        nodes: nodes.to_vec(),
        edges: edges.to_vec(),
        to_nodes: vec![0; nodes.len() / from.node_length() * to.node_length()],
        to_edges: vec![0; edges.len() / from.edge_length() * to.edge_length()],
    };
    let left = call.outcome(way);
    match left.answer {
        answer::RESULT => Ok((left.nodes, left.edges)),
        refusal => Err(refusal),
    }
}

/// What the program widen or narrow writes for these bytes on its standard input.
pub fn output(way: Way, bytes: &[u8]) -> Vec<u8> {
    let Some((nodes, edges)) = read_tables(bytes) else {
        return b"input refused\n".to_vec();
    };
    match carried(way, nodes, edges) {
        Ok((nodes, edges)) => tables(&nodes, &edges),
        Err(refusal) => format!("refused {refusal}\n").into_bytes(),
    }
}

/// Both tables of such an input, or nothing where it isn't their two fields.
fn read_tables(bytes: &[u8]) -> Option<(&[u8], &[u8])> {
    let (nodes, rest) = field(0x01, bytes)?;
    let (edges, rest) = field(0x02, rest)?;
    (bytes.len() <= INPUT_BYTES && rest.is_empty()).then_some((nodes, edges))
}

/// Both tables in their fields.
pub fn tables(nodes: &[u8], edges: &[u8]) -> Vec<u8> {
    [encode::field(0x01, nodes), encode::field(0x02, edges)].concat()
}
