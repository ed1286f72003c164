//! The host graph as numbers instead of bytes: reading the lent tables with the layout test of document
//! 01, clause by clause, and writing them, at any layout.

use std::rc::Rc;

use crate::layout::{atoms_of, number_of, place, Layout, ATOM_BYTES};
use crate::tree::mark;

/// A list of atoms. How many a slot can hold is the layout's.
#[derive(Clone, Debug, Default, PartialEq, Eq)]
pub struct Label(Rc<[i32]>);

impl Label {
    pub fn of(atoms: &[i32]) -> Label {
        Label(atoms.into())
    }

    pub fn atoms(&self) -> &[i32] {
        &self.0
    }
}

#[derive(Clone, Debug, PartialEq, Eq)]
pub struct Node {
    pub mark: u8,
    pub root: bool,
    pub label: Label,
}

#[derive(Clone, Debug, PartialEq, Eq)]
pub struct Edge {
    pub mark: u8,
    pub source: u16,
    pub target: u16,
    pub label: Label,
}

/// A graph in slots; a free slot is None.
#[derive(Clone, Debug, Default, PartialEq, Eq)]
pub struct Host {
    pub nodes: Vec<Option<Node>>,
    pub edges: Vec<Option<Edge>>,
}

impl Host {
    /// The graph of two tables, or which clause of the layout they break and where. The lengths must be
    /// multiples of the slots.
    pub fn read(layout: &Layout, nodes: &[u8], edges: &[u8]) -> Result<Host, String> {
        let mut host = Host::default();
        for (number, slot) in nodes.chunks(layout.node_length()).enumerate() {
            let node =
                read_node(layout, slot).map_err(|reason| format!("node {number}: {reason}"))?;
            host.nodes.push(node);
        }
        for (number, slot) in edges.chunks(layout.edge_length()).enumerate() {
            let edge =
                read_edge(layout, slot).map_err(|reason| format!("edge {number}: {reason}"))?;
            host.edges.push(edge);
        }
        host.both_ends_of_live_edges_are_live()?;
        Ok(host)
    }

    /// Both ends of a live edge are live node slots.
    pub fn both_ends_of_live_edges_are_live(&self) -> Result<(), String> {
        for (number, edge) in self.live_edges() {
            for (end, node) in [("source", edge.source), ("target", edge.target)] {
                if self.node(node.into()).is_none() {
                    return Err(format!(
                        "edge {number}: its {end} {node} is no live node slot"
                    ));
                }
            }
        }
        Ok(())
    }

    pub fn node(&self, slot: usize) -> Option<&Node> {
        self.nodes.get(slot)?.as_ref()
    }

    pub fn edge(&self, slot: usize) -> Option<&Edge> {
        self.edges.get(slot)?.as_ref()
    }

    pub fn live_nodes(&self) -> impl Iterator<Item = (usize, &Node)> {
        let slots = self.nodes.iter().enumerate();
        slots.filter_map(|(slot, node)| Some((slot, node.as_ref()?)))
    }

    pub fn live_edges(&self) -> impl Iterator<Item = (usize, &Edge)> {
        let slots = self.edges.iter().enumerate();
        slots.filter_map(|(slot, edge)| Some((slot, edge.as_ref()?)))
    }

    /// The node table as bytes. Every label and slot number must fit the layout.
    pub fn node_table(&self, layout: &Layout) -> Vec<u8> {
        let slots = self.nodes.iter();
        slots.flat_map(|node| node_slot(layout, node)).collect()
    }

    /// The edge table as bytes. Every label and slot number must fit the layout.
    pub fn edge_table(&self, layout: &Layout) -> Vec<u8> {
        let slots = self.edges.iter();
        slots.flat_map(|edge| edge_slot(layout, edge)).collect()
    }
}

/// The bytes of a node slot, free or live.
pub fn node_slot(layout: &Layout, node: &Option<Node>) -> Vec<u8> {
    match node {
        None => vec![0; layout.node_length()],
        Some(node) => layout.node_slot(node.mark, node.root, node.label.atoms()),
    }
}

/// The bytes of an edge slot, free or live.
pub fn edge_slot(layout: &Layout, edge: &Option<Edge>) -> Vec<u8> {
    match edge {
        None => vec![0; layout.edge_length()],
        Some(edge) => layout.edge_slot(edge.mark, edge.source, edge.target, edge.label.atoms()),
    }
}

fn read_node(layout: &Layout, slot: &[u8]) -> Result<Option<Node>, String> {
    if !is_live(slot)? {
        return Ok(None);
    }
    mark_is_a_node_mark(slot[place::MARK])?;
    root_is_0_or_1(slot[place::ROOT])?;
    Ok(Some(Node {
        mark: slot[place::MARK],
        root: slot[place::ROOT] == 1,
        label: read_label(layout, slot, layout.node_atoms())?,
    }))
}

fn read_edge(layout: &Layout, slot: &[u8]) -> Result<Option<Edge>, String> {
    if !is_live(slot)? {
        return Ok(None);
    }
    mark_is_an_edge_mark(slot[place::MARK])?;
    third_byte_is_zero(slot[place::ZERO])?;
    Ok(Some(Edge {
        mark: slot[place::MARK],
        source: number_of(&slot[layout.edge_source()]),
        target: number_of(&slot[layout.edge_target()]),
        label: read_label(layout, slot, layout.edge_atoms())?,
    }))
}

/// Whether a slot is live; a free one is all zero.
fn is_live(slot: &[u8]) -> Result<bool, String> {
    state_is_free_or_live(slot[place::STATE])?;
    if slot[place::STATE] == 0 {
        free_slot_is_all_zero(slot)?;
        return Ok(false);
    }
    Ok(true)
}

/// The label of a slot whose atoms start at this place.
fn read_label(layout: &Layout, slot: &[u8], atoms: usize) -> Result<Label, String> {
    let length = usize::from(slot[place::LABEL_LENGTH]);
    label_can_be_held(layout, length)?;
    let (used, unused) = slot[atoms..].split_at(ATOM_BYTES * length);
    unused_atoms_are_zero(unused)?;
    Ok(Label::of(&atoms_of(used)))
}

fn clause(holds: bool, broken: &str) -> Result<(), String> {
    match holds {
        true => Ok(()),
        false => Err(broken.to_string()),
    }
}

fn state_is_free_or_live(state: u8) -> Result<(), String> {
    clause(state <= 1, "its state is neither 0 nor 1")
}

fn free_slot_is_all_zero(slot: &[u8]) -> Result<(), String> {
    clause(slot.iter().all(|b| *b == 0), "it is free but not all zero")
}

fn mark_is_a_node_mark(number: u8) -> Result<(), String> {
    clause(number <= mark::GREY, "its mark is none of a node's marks")
}

fn mark_is_an_edge_mark(number: u8) -> Result<(), String> {
    let legal = number <= mark::BLUE || number == mark::DASHED;
    clause(legal, "its mark is none of an edge's marks")
}

fn root_is_0_or_1(flag: u8) -> Result<(), String> {
    clause(flag <= 1, "its root flag is neither 0 nor 1")
}

fn third_byte_is_zero(byte: u8) -> Result<(), String> {
    clause(byte == 0, "its third byte is not zero")
}

fn label_can_be_held(layout: &Layout, length: usize) -> Result<(), String> {
    match layout.holds(length) {
        true => Ok(()),
        false => Err(format!(
            "its label is longer than {}",
            atoms_in_words(layout.atoms)
        )),
    }
}

fn atoms_in_words(count: usize) -> String {
    match count {
        1 => "one atom".to_string(),
        4 => "four atoms".to_string(),
        8 => "eight atoms".to_string(),
        _ => format!("{count} atoms"),
    }
}

fn unused_atoms_are_zero(unused: &[u8]) -> Result<(), String> {
    clause(
        unused.iter().all(|byte| *byte == 0),
        "an unused atom of it is not zero",
    )
}
