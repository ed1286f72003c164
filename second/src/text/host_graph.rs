//! A host graph as read from text, and the tables that hold it.

use super::complaint::Problem;
use super::syntax::*;
use crate::layout::Layout;
use crate::tree::mark;
use std::collections::HashMap;

/// The free slots behind a host graph where no number of slots is asked for.
pub const FREE_SLOTS: usize = 16;

/// Nodes and edges in the order read.
#[derive(Clone, Debug, PartialEq, Eq)]
pub struct HostGraph {
    /// The layout of its tables.
    pub layout: &'static Layout,
    pub nodes: Vec<HostNode>,
    pub edges: Vec<HostEdge>,
    /// How many node slots the text speaks of, those kept free included.
    pub listed_nodes: usize,
    /// How many edge slots the text speaks of, those kept free included.
    pub listed_edges: usize,
}

#[derive(Clone, Debug, PartialEq, Eq)]
pub struct HostNode {
    pub slot: usize,
    pub identifier: String,
    pub mark: u8,
    pub root: bool,
    pub atoms: Vec<i32>,
}

#[derive(Clone, Debug, PartialEq, Eq)]
pub struct HostEdge {
    pub slot: usize,
    pub identifier: String,
    /// A place in the list of nodes.
    pub source: usize,
    /// A place in the list of nodes.
    pub target: usize,
    pub mark: u8,
    pub atoms: Vec<i32>,
}

impl HostGraph {
    /// The node and edge table with that many slots each, at least as many as the text speaks of.
    pub fn tables(
        &self,
        node_slots: usize,
        edge_slots: usize,
    ) -> Result<(Vec<u8>, Vec<u8>), String> {
        let layout = self.layout;
        check_slots("node", node_slots, self.listed_nodes, layout.most_nodes)?;
        check_slots("edge", edge_slots, self.listed_edges, layout.most_edges)?;
        let length = layout.node_length();
        let mut nodes = vec![0; node_slots * length];
        for node in &self.nodes {
            let slot = layout.node_slot(node.mark, node.root, &node.atoms);
            nodes[node.slot * length..][..length].copy_from_slice(&slot);
        }
        let length = layout.edge_length();
        let mut edges = vec![0; edge_slots * length];
        for edge in &self.edges {
            let (source, target) = (
                self.nodes[edge.source].slot as u16,
                self.nodes[edge.target].slot as u16,
            );
            let slot = layout.edge_slot(edge.mark, source, target, &edge.atoms);
            edges[edge.slot * length..][..length].copy_from_slice(&slot);
        }
        Ok((nodes, edges))
    }

    /// As many node slots as the text speaks of and some free ones.
    pub fn usual_node_slots(&self) -> usize {
        (self.listed_nodes + FREE_SLOTS).min(self.layout.most_nodes)
    }

    /// As many edge slots as the text speaks of and some free ones.
    pub fn usual_edge_slots(&self) -> usize {
        (self.listed_edges + FREE_SLOTS).min(self.layout.most_edges)
    }
}

fn check_slots(kind: &str, slots: usize, least: usize, most: usize) -> Result<(), String> {
    if (least..=most).contains(&slots) {
        return Ok(());
    }
    Err(format!(
        "{slots} {kind} slots, expected from {least} (the host graph's) to {most}"
    ))
}

/// The graph of a text, for tables of a layout.
pub fn host_graph(layout: &'static Layout, text: &HostGraphText) -> Result<HostGraph, Problem> {
    let mut graph = HostGraph {
        layout,
        nodes: Vec::new(),
        edges: Vec::new(),
        listed_nodes: text.nodes.len(),
        listed_edges: text.edges.len(),
    };
    let mut nodes = HashMap::new();
    for (slot, node) in numbered(&text.nodes) {
        check_new(
            nodes
                .insert(node.identifier.text.as_str(), graph.nodes.len())
                .is_none(),
            &node.identifier,
            "node",
        )?;
        graph.nodes.push(host_node(layout, slot, node)?);
    }
    let mut edges = HashMap::new();
    for (slot, edge) in numbered(&text.edges) {
        check_new(
            edges.insert(edge.identifier.text.as_str(), ()).is_none(),
            &edge.identifier,
            "edge",
        )?;
        graph.edges.push(host_edge(layout, slot, edge, &nodes)?);
    }
    Ok(graph)
}

/// The slots that are not kept free, with their numbers.
fn numbered<T>(slots: &[Option<T>]) -> impl Iterator<Item = (usize, &T)> {
    slots
        .iter()
        .enumerate()
        .filter_map(|(number, slot)| slot.as_ref().map(|item| (number, item)))
}

fn check_new(is_new: bool, name: &Name, kind: &str) -> Result<(), Problem> {
    if is_new {
        return Ok(());
    }
    Err(Problem::new(
        name.place,
        format!(
            "the {kind} `{}` twice, expected each identifier once",
            name.text
        ),
    ))
}

fn host_node(layout: &Layout, slot: usize, text: &NodeText) -> Result<HostNode, Problem> {
    let (mark, atoms) = host_label(layout, &text.label)?;
    Ok(HostNode {
        slot,
        identifier: text.identifier.text.clone(),
        mark,
        root: text.root,
        atoms,
    })
}

fn host_edge(
    layout: &Layout,
    slot: usize,
    text: &EdgeText,
    nodes: &HashMap<&str, usize>,
) -> Result<HostEdge, Problem> {
    if text.bidirectional {
        let message =
            "a bidirectional edge in a host graph, expected no `(B)`: its edges run one way";
        return Err(Problem::new(text.identifier.place, message));
    }
    let end = |name: &Name| {
        let message = format!(
            "no node `{}`, expected one of the host graph's identifiers",
            name.text
        );
        nodes
            .get(name.text.as_str())
            .copied()
            .ok_or_else(|| Problem::new(name.place, message))
    };
    let (source, target) = (end(&text.source)?, end(&text.target)?);
    let (mark, atoms) = host_label(layout, &text.label)?;
    Ok(HostEdge {
        slot,
        identifier: text.identifier.text.clone(),
        source,
        target,
        mark,
        atoms,
    })
}

fn host_label(layout: &Layout, label: &LabelText) -> Result<(u8, Vec<i32>), Problem> {
    if label.mark == mark::ANY {
        return Err(Problem::new(
            label.mark_place,
            "mark any in a host graph, expected another mark or none",
        ));
    }
    if let Some(extra) = label.elements.get(layout.atoms) {
        return Err(Problem::new(
            extra.place,
            format!("an atom too many, expected at most {}", layout.atoms),
        ));
    }
    let atoms: Result<Vec<i32>, Problem> = label.elements.iter().map(atom).collect();
    Ok((label.mark, atoms?))
}

fn atom(element: &ElementText) -> Result<i32, Problem> {
    match &element.kind {
        ElementKind::Single(OperandText {
            kind: OperandKind::Number(value),
            ..
        }) => Ok(*value),
        _ => Err(Problem::new(
            element.place,
            "a host label has integers alone, expected one",
        )),
    }
}
