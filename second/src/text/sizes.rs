//! The numbers that a runner image needs beside program and graph: fuel, journal records and slots.

use super::host_graph::HostGraph;
use crate::calls::MOST_FUEL;
use crate::layout::Layout;

pub const USUAL_FUEL: u32 = 100_000;

/// The numbers that were asked for; the others take their usual values.
#[derive(Clone, Debug, Default, PartialEq, Eq)]
pub struct Sizes {
    pub fuel: Option<u32>,
    pub records: Option<u16>,
    pub nodes: Option<u16>,
    pub edges: Option<u16>,
}

impl Sizes {
    /// Sets the number of that name (fuel, records, nodes or edges) from its digits, which the layout has to allow.
    pub fn set(&mut self, layout: &Layout, name: &str, digits: &str) -> Result<(), String> {
        match name {
            "fuel" => set_once(&mut self.fuel, number(digits, MOST_FUEL)?),
            "records" => set_once(
                &mut self.records,
                number(digits, layout.most_records as u16)?,
            ),
            "nodes" => set_once(&mut self.nodes, number(digits, layout.most_nodes as u16)?),
            "edges" => set_once(&mut self.edges, number(digits, layout.most_edges as u16)?),
            _ => Err("no such number, expected fuel, records, nodes or edges".to_string()),
        }
    }

    /// These numbers, and where one is missing that of `others`.
    pub fn or(self, others: Sizes) -> Sizes {
        Sizes {
            fuel: self.fuel.or(others.fuel),
            records: self.records.or(others.records),
            nodes: self.nodes.or(others.nodes),
            edges: self.edges.or(others.edges),
        }
    }

    /// Journal records for a host graph: as many as there may be, where no number is asked for.
    pub fn records_for(&self, graph: &HostGraph) -> u16 {
        self.records.unwrap_or(graph.layout.most_records as u16)
    }

    /// Node and edge slots for a host graph.
    pub fn slots(&self, graph: &HostGraph) -> (usize, usize) {
        let nodes = self.nodes.map_or(graph.usual_node_slots(), usize::from);
        let edges = self.edges.map_or(graph.usual_edge_slots(), usize::from);
        (nodes, edges)
    }
}

fn number<N: TryFrom<u64> + PartialOrd + std::fmt::Display>(
    digits: &str,
    most: N,
) -> Result<N, String> {
    let value = digits
        .parse::<u64>()
        .ok()
        .and_then(|value| N::try_from(value).ok());
    match value {
        Some(value) if value <= most => Ok(value),
        _ => Err(format!(
            "{digits} is out of range, expected a number from 0 to {most}"
        )),
    }
}

fn set_once<N>(place: &mut Option<N>, value: N) -> Result<(), String> {
    match place.replace(value) {
        None => Ok(()),
        Some(_) => Err("given twice, expected once".to_string()),
    }
}
