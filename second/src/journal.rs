//! The journal: records of what a slot held before a change, their bytes, and storing them back from there.

use crate::host::{edge_slot, node_slot, Edge, Node};
use crate::layout::{number_of, place, Layout};

/// The kinds of records, as bytes write them.
pub mod kind {
    pub const NODE: u8 = 1;
    pub const EDGE: u8 = 2;
}

/// A slot and what it held just before a change.
#[derive(Clone, Debug, PartialEq, Eq)]
pub enum Record {
    Node(usize, Option<Node>),
    Edge(usize, Option<Edge>),
}

impl Record {
    /// A node's bytes are followed by zeros.
    pub fn bytes(&self, layout: &Layout) -> Vec<u8> {
        let (kind, slot, before) = match self {
            Record::Node(slot, before) => (kind::NODE, *slot, node_slot(layout, before)),
            Record::Edge(slot, before) => (kind::EDGE, *slot, edge_slot(layout, before)),
        };
        let mut bytes = vec![0; layout.record_length()];
        bytes[place::KIND] = kind;
        bytes[layout.record_slot()].copy_from_slice(&layout.slot_number(slot as u16));
        bytes[layout.record_before()..][..before.len()].copy_from_slice(&before);
        bytes
    }
}

/// A journal of that many bytes: the records from the front and zeros behind.
pub fn journal(layout: &Layout, records: &[Record], length: usize) -> Vec<u8> {
    let mut bytes: Vec<u8> = records
        .iter()
        .flat_map(|record| record.bytes(layout))
        .collect();
    bytes.resize(length, 0);
    bytes
}

/// Whether the kind of a record is 1 or 2, its zeros are zero and its slot lies inside its table.
pub fn can_be_stored(layout: &Layout, record: &[u8], nodes: &[u8], edges: &[u8]) -> bool {
    let slots = match record[place::KIND] {
        kind::NODE => nodes.len() / layout.node_length(),
        kind::EDGE => edges.len() / layout.edge_length(),
        _ => return false,
    };
    let zeros = &record[layout.record_zeros()];
    zeros.iter().all(|byte| *byte == 0) && slot_of(layout, record) < slots
}

/// Stores a record that can be stored back into its table.
pub fn store_back(layout: &Layout, record: &[u8], nodes: &mut [u8], edges: &mut [u8]) {
    let (table, length) = match record[place::KIND] {
        kind::NODE => (nodes, layout.node_length()),
        _ => (edges, layout.edge_length()),
    };
    let start = slot_of(layout, record) * length;
    let before = &record[layout.record_before()..][..length];
    table[start..start + length].copy_from_slice(before);
}

fn slot_of(layout: &Layout, record: &[u8]) -> usize {
    usize::from(number_of(&record[layout.record_slot()]))
}
