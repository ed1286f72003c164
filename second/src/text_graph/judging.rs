//! What a text in the grammar can be refused for: names (23), and what no table of a layout can hold (24).

use std::collections::HashMap;

use crate::answer;
use crate::host::{Edge, Host, Label, Node};
use crate::layout::Layout;
use crate::tree::mark;

use super::grammar::mark_number;
use super::items::{Integer, Item, Items};
use super::words::Word;
use super::Refusal;

/// The graph of these items in slots, or the first reason for the lowest number that refuses them. Names are asked for only where
/// a table may have as many slots as there are items.
pub fn host(layout: &Layout, items: &Items) -> Result<Host, Refusal> {
    let few = items.nodes.len() <= layout.most_nodes && items.edges.len() <= layout.most_edges;
    let ends = if few { named_ends(items)? } else { Vec::new() };
    let nodes = held(&NODES, layout, &items.nodes)?;
    let edges = held(&EDGES, layout, &items.edges)?;
    let node = |(item, held): (&Item, Option<Held>)| held.map(|it| Node { mark: it.mark, root: item.root, label: it.label });
    let edge = |(ends, held): (Ends, Option<Held>)| {
        let (source, target) = ends;
        held.map(|it| Edge { mark: it.mark, source, target, label: it.label })
    };
    Ok(Host {
        nodes: items.nodes.iter().zip(nodes).map(node).collect(),
        edges: ends.into_iter().zip(edges).map(edge).collect(),
    })
}

/// The slots of an edge's source and target.
type Ends = (u16, u16);

/// The ends of each edge, 0 and 0 for a slot that is kept free.
fn named_ends(items: &Items) -> Result<Vec<Ends>, Refusal> {
    let mut nodes = HashMap::new();
    for (slot, node) in items.nodes.iter().enumerate() {
        add_identifier(&mut nodes, slot, node, "node")?;
    }
    let mut edges = HashMap::new();
    let mut ends = Vec::new();
    for (slot, edge) in items.edges.iter().enumerate() {
        add_identifier(&mut edges, slot, edge, "edge")?;
        ends.push(match edge.names[..] {
            [_, source, target] => (slot_of(&nodes, source)?, slot_of(&nodes, target)?),
            _ => (0, 0),
        });
    }
    Ok(ends)
}

fn add_identifier<'a>(slots: &mut HashMap<&'a [u8], usize>, slot: usize, item: &Item<'a>, kind: &str) -> Result<(), Refusal> {
    let Some(name) = item.names.first() else {
        return Ok(());
    };
    match slots.insert(name.bytes, slot) {
        None => Ok(()),
        Some(_) => Err(wrong_name(name, format!("the {kind} {name} twice, expected each identifier once"))),
    }
}

fn slot_of(nodes: &HashMap<&[u8], usize>, name: Word) -> Result<u16, Refusal> {
    match nodes.get(name.bytes) {
        Some(slot) => Ok(*slot as u16),
        None => Err(wrong_name(&name, format!("no node {name}, expected one of the graph's identifiers"))),
    }
}

fn wrong_name(name: &Word, message: String) -> Refusal {
    Refusal { answer: answer::TEXT_NAMES, at: name.at, message }
}

/// What differs between nodes and edges in what tables can hold.
struct Kind {
    words: &'static str,
    most: fn(&Layout) -> usize,
    marks: [u8; 4],
}

const NODES: Kind = Kind {
    words: "a node",
    most: |layout| layout.most_nodes,
    marks: [mark::RED, mark::GREEN, mark::BLUE, mark::GREY],
};

const EDGES: Kind = Kind {
    words: "an edge",
    most: |layout| layout.most_edges,
    marks: [mark::RED, mark::GREEN, mark::BLUE, mark::DASHED],
};

/// What a table holds of a live item beside root and ends.
struct Held {
    mark: u8,
    label: Label,
}

/// What the table of a layout holds of these items, nothing of one that only keeps its slot free.
fn held(kind: &Kind, layout: &Layout, items: &[Item]) -> Result<Vec<Option<Held>>, Refusal> {
    let most = (kind.most)(layout);
    let mut list = Vec::new();
    for item in items {
        if list.len() == most {
            return Err(unfit(item.at, format!("{} slot too many, expected at most {most}", kind.words)));
        }
        list.push(match item.free {
            true => None,
            false => Some(Held { label: label(layout, &item.atoms)?, mark: mark(kind, item.mark)? }),
        });
    }
    Ok(list)
}

fn label(layout: &Layout, integers: &[Integer]) -> Result<Label, Refusal> {
    let mut atoms = Vec::new();
    for integer in integers {
        if !layout.holds(atoms.len() + 1) {
            return Err(unfit(integer.at, format!("an atom too many, expected at most {}", layout.atoms)));
        }
        let outside = format!("{integer} can't be held, expected a number from {} to {}", i32::MIN, i32::MAX);
        atoms.push(integer.value().ok_or(unfit(integer.at, outside))?);
    }
    Ok(Label::of(&atoms))
}

fn mark(kind: &Kind, word: Option<Word>) -> Result<u8, Refusal> {
    let Some(word) = word else {
        return Ok(mark::NONE);
    };
    let number = mark_number(word.bytes).filter(|number| kind.marks.contains(number));
    number.ok_or_else(|| {
        let marks = kind.marks.map(|number| mark::NAMES[usize::from(number)]).join(", ");
        unfit(word.at, format!("the mark {word} on {}, expected one of {marks}", kind.words))
    })
}

fn unfit(at: usize, message: String) -> Refusal {
    Refusal { answer: answer::TEXT_UNFIT, at, message }
}
