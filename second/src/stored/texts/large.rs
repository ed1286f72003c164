//! Imports and exports of full tables, and texts of more items than any table has slots.

use crate::host::{Edge, Host, Label, Node};
use crate::refusals::{export_to, import_to, text_of_items};
use crate::tree::mark;

use super::{TextCall, LAYOUT};

const NODES: usize = LAYOUT.most_nodes;
const EDGES: usize = LAYOUT.most_edges;

pub(super) fn calls() -> Vec<TextCall> {
    let mut calls = full_tables();
    calls.extend(many_items().iter().map(|text| import(text, (1, 1))));
    calls.extend(exports());
    calls
}

fn import(text: &str, slots: (usize, usize)) -> TextCall {
    TextCall::Import(import_to(LAYOUT, text.as_bytes(), slots))
}

/// As many items as there are slots, and tables of a slot too many.
fn full_tables() -> Vec<TextCall> {
    let edges: String = (0..16).map(|edge| format!("({edge},{:x},{:x},{edge})", NODES - 1 - edge, 255 + edge)).collect();
    let nodes = text_of_items(NODES, 0).replace("|]", &format!("|{edges}]"));
    vec![
        import(&nodes, (NODES, 16)),
        import(&text_of_items(1, EDGES), (1, EDGES)),
        import("[(0,1)|]", (NODES + 1, 0)),
        import("[|]", (0, EDGES + 1)),
    ]
}

/// Texts of as many items as any table has slots and of one more, whose names are wrong or right.
fn many_items() -> Vec<String> {
    let same_nodes = |count: usize| format!("[{}|]", "(a,1)".repeat(count));
    let same_edges = |count: usize| format!("[(a,1)|{}]", "(e,a,a,1)".repeat(count));
    let no_nodes = |count: usize| format!("[|{}]", "(e,a,b,1)".repeat(count));
    vec![
        text_of_items(NODES, 0),
        text_of_items(NODES + 1, 0),
        text_of_items(1, EDGES + 1),
        same_nodes(NODES),
        same_nodes(NODES + 1),
        same_edges(EDGES),
        same_edges(EDGES + 1),
        no_nodes(EDGES + 1),
        format!("[{}(a,9999999999)|(e,x,y,1)]", "(a,1)".repeat(NODES)),
        same_nodes(NODES + 1).replace("|]", "|"),
    ]
}

/// Live slots of the greatest numbers in full tables, and tables of a slot too many.
fn exports() -> Vec<TextCall> {
    let node = |slot: usize| Node { mark: slot as u8 % 5, root: slot % 3 == 0, label: Label::of(&[slot as i32][..slot % 2]) };
    let full: Vec<Option<Node>> = (0..NODES).map(|slot| Some(node(slot))).collect();
    let mut some = vec![None; EDGES];
    for slot in [0, 9, 10, 99, 100, 255, 256, 999, 1000, EDGES - 1] {
        some[slot] = Some(Edge { mark: mark::DASHED, source: 0, target: 1, label: Label::default() });
    }
    let two = vec![Some(node(1)); 2];
    let over = |nodes: usize, edges: usize| Host { nodes: vec![None; nodes], edges: vec![None; edges] };
    vec![
        export(&Host { nodes: full, edges: vec![] }),
        export(&Host { nodes: two, edges: some }),
        export(&over(NODES + 1, 0)),
        export(&over(0, EDGES + 1)),
    ]
}

/// The export of a host to a buffer of its text's length, of none where it is refused.
fn export(host: &Host) -> TextCall {
    let (nodes, edges) = (host.node_table(LAYOUT), host.edge_table(LAYOUT));
    let length = export_to(&nodes, &edges, 0).outcome(LAYOUT).length;
    TextCall::Export(export_to(&nodes, &edges, length))
}
