//! A host graph as Graphviz text: marks as colours, roots as double circles, dashed edges dashed. A node's
//! slot number stands beside it, its atoms stand in it.

use crate::host::{Edge, Host, Node};
use crate::tree::mark;

pub fn drawing(host: &Host) -> String {
    let mut text = String::from("digraph host {\n");
    text.push_str("  node [shape=circle, style=filled, fillcolor=white];\n");
    for (slot, node) in host.live_nodes() {
        text.push_str(&format!("  n{slot} [{}];\n", node_attributes(slot, node)));
    }
    for (_, edge) in host.live_edges() {
        let (source, target) = (edge.source, edge.target);
        text.push_str(&format!(
            "  n{source} -> n{target} [{}];\n",
            edge_attributes(edge)
        ));
    }
    text.push_str("}\n");
    text
}

fn node_attributes(slot: usize, node: &Node) -> String {
    let mut attributes = vec![format!("xlabel=\"{slot}\""), label(node.label.atoms())];
    if node.root {
        attributes.push("shape=doublecircle".to_string());
    }
    if let Some(colour) = pale(node.mark) {
        attributes.push(format!("fillcolor={colour}"));
    }
    attributes.join(", ")
}

/// A node's colour by its mark, light enough for black text.
fn pale(node_mark: u8) -> Option<&'static str> {
    match node_mark {
        mark::RED => Some("tomato"),
        mark::GREEN => Some("palegreen"),
        mark::BLUE => Some("lightskyblue"),
        mark::GREY => Some("lightgrey"),
        _ => None,
    }
}

fn edge_attributes(edge: &Edge) -> String {
    let mut attributes = vec![label(edge.label.atoms())];
    match edge.mark {
        mark::NONE => {}
        mark::DASHED => attributes.push("style=dashed".to_string()),
        colour => attributes.push(format!("color={}", mark::NAMES[usize::from(colour)])),
    }
    attributes.join(", ")
}

fn label(atoms: &[i32]) -> String {
    let atoms: Vec<String> = atoms.iter().map(|atom| atom.to_string()).collect();
    format!("label=\"{}\"", atoms.join(":"))
}
