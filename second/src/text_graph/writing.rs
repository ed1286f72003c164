//! A graph as text in its one spacing: each item on a line of its own, under the number of its slot.

use crate::host::{Edge, Host, Node};
use crate::tree::mark;

/// The text of the live slots, as an export writes it.
pub fn written(host: &Host) -> String {
    graph_text(host, "")
}

/// The same with `()` for each free slot before the last live one, so that every slot keeps its number.
pub fn written_with_free_slots(host: &Host) -> String {
    graph_text(host, "  ()\n")
}

fn graph_text(host: &Host, free: &str) -> String {
    let nodes = lines(&host.nodes, free, node_text);
    let edges = lines(&host.edges, free, edge_text);
    format!("[\n{nodes}|\n{edges}]\n")
}

/// The lines of the slots up to the last live one.
fn lines<T>(slots: &[Option<T>], free: &str, item: impl Fn(usize, &T) -> String) -> String {
    let used = slots.iter().rposition(Option::is_some).map_or(0, |last| last + 1);
    let line = |(number, slot): (usize, &Option<T>)| match slot {
        Some(live) => format!("  ({})\n", item(number, live)),
        None => free.to_string(),
    };
    slots[..used].iter().enumerate().map(line).collect()
}

fn node_text(number: usize, node: &Node) -> String {
    let root = if node.root { "(R)" } else { "" };
    format!("{number}{root}, {}", atoms_text(node.label.atoms(), node.mark))
}

fn edge_text(number: usize, edge: &Edge) -> String {
    let label = atoms_text(edge.label.atoms(), edge.mark);
    format!("{number}, {}, {}, {label}", edge.source, edge.target)
}

fn atoms_text(atoms: &[i32], mark: u8) -> String {
    let atoms: Vec<String> = atoms.iter().map(|atom| atom.to_string()).collect();
    label_text(&atoms, mark)
}

/// A label of these elements with its mark.
pub fn label_text(elements: &[String], mark: u8) -> String {
    let list = match elements {
        [] => "empty".to_string(),
        elements => elements.join(":"),
    };
    match mark {
        mark::NONE => list,
        marked => format!("{list} # {}", mark::NAMES[usize::from(marked)]),
    }
}
