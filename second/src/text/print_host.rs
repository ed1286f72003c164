//! A host graph as text: each live slot under its number, free slots before the last live one as `()`.

use super::print_program::with_mark;
use crate::encode::RunnerInput;
use crate::host::{Edge, Host, Node};

/// The host section of a runner input, which assembles to the same tables and numbers.
pub fn host_section_text(input: &RunnerInput, host: &Host) -> String {
    let (fuel, records) = (input.fuel, input.records);
    let (nodes, edges) = (host.nodes.len(), host.edges.len());
    let numbers = format!("fuel {fuel} records {records} nodes {nodes} edges {edges}");
    format!("host {numbers}\n{}", host_graph_text(host))
}

pub fn host_graph_text(host: &Host) -> String {
    let nodes = lines(&host.nodes, node_text);
    let edges = lines(&host.edges, edge_text);
    format!("[\n{nodes}|\n{edges}]\n")
}

/// One line for each slot up to the last live one.
fn lines<T>(slots: &[Option<T>], item: impl Fn(usize, &T) -> String) -> String {
    let used = slots
        .iter()
        .rposition(Option::is_some)
        .map_or(0, |last| last + 1);
    let slots = slots[..used].iter().enumerate();
    slots
        .map(|(number, slot)| match slot {
            Some(live) => format!("  {}\n", item(number, live)),
            None => "  ()\n".to_string(),
        })
        .collect()
}

fn node_text(number: usize, node: &Node) -> String {
    let root = if node.root { "(R)" } else { "" };
    format!(
        "({number}{root}, {})",
        label_text(node.label.atoms(), node.mark)
    )
}

fn edge_text(number: usize, edge: &Edge) -> String {
    let label = label_text(edge.label.atoms(), edge.mark);
    format!("({number}, {}, {}, {label})", edge.source, edge.target)
}

fn label_text(atoms: &[i32], mark: u8) -> String {
    let atoms: Vec<String> = atoms.iter().map(|atom| atom.to_string()).collect();
    with_mark(&atoms, mark)
}
