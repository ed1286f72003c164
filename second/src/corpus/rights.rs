//! Right sides: the kept part of a left side with some changes.

use super::hosts::Host;
use super::lefts::Left;
use super::palette::Palette;
use super::values::new_label;
use crate::random::Random;
use crate::tree::*;

/// What a right side does to the graph.
#[derive(Clone, Copy, Debug, PartialEq, Eq)]
pub enum Goal {
    /// Fewer nodes and edges or higher marks, so that a loop over such rules ends.
    Shrink,
    /// As many nodes as were kept, anything else changed.
    Change,
    /// New nodes or edges.
    Grow,
}

pub fn right(
    random: &mut Random,
    palette: &Palette,
    host: &Host,
    left: &Left,
    goal: Goal,
) -> RuleGraph {
    let mut right = kept_part(host, left);
    match goal {
        Goal::Shrink => shrink(random, palette, left, &mut right),
        Goal::Change => {
            for _ in 0..random.between(1, 3) {
                change(random, palette, left, &mut right);
            }
        }
        Goal::Grow => {
            grow(random, palette, left, &mut right);
            if random.chance(50) {
                change(random, palette, left, &mut right);
            }
        }
    }
    if random.chance(30) {
        relabel(random, palette, left, &mut right);
    }
    right
}

/// The interface nodes and the edges between them as they stand on the left; an edge of any mark takes the mark
/// that it has in the placement.
fn kept_part(host: &Host, left: &Left) -> RuleGraph {
    let mut right = RuleGraph {
        nodes: left.graph.nodes[..left.interface].to_vec(),
        edges: vec![],
    };
    for (edge, slot) in left.graph.edges.iter().zip(&left.edges) {
        let kept = |end: u8| (end as usize) < left.interface;
        if kept(edge.source) && kept(edge.target) {
            let mark = if edge.mark == mark::ANY {
                host.edge(*slot).mark
            } else {
                edge.mark
            };
            right.edges.push(RuleEdge {
                mark,
                ..edge.clone()
            });
        }
    }
    right
}

/// Drops an edge or raises a mark, unless a node or an edge is gone already.
fn shrink(random: &mut Random, palette: &Palette, left: &Left, right: &mut RuleGraph) {
    let smaller = right.nodes.len() < left.graph.nodes.len();
    if smaller && random.chance(70) {
        return;
    }
    let dropped = !right.edges.is_empty() && random.chance(40);
    if dropped || !raise_mark(random, palette, &mut right.nodes) {
        drop_edge(random, right);
    }
}

fn drop_edge(random: &mut Random, right: &mut RuleGraph) {
    if !right.edges.is_empty() {
        right.edges.remove(random.below(right.edges.len()));
    }
}

/// Gives one node a higher mark of the palette, if there is one.
fn raise_mark(random: &mut Random, palette: &Palette, nodes: &mut [RuleNode]) -> bool {
    let highest = palette.node_marks[palette.node_marks.len() - 1];
    let low: Vec<usize> = (0..nodes.len())
        .filter(|node| nodes[*node].mark < highest)
        .collect();
    if low.is_empty() {
        return false;
    }
    let node = &mut nodes[random.pick(&low)];
    let higher: Vec<u8> = palette
        .node_marks
        .iter()
        .copied()
        .filter(|mark| *mark > node.mark)
        .collect();
    node.mark = random.pick(&higher);
    true
}

fn change(random: &mut Random, palette: &Palette, left: &Left, right: &mut RuleGraph) {
    match random.weighted(&[30, 25, 15, 15, 15]) {
        0 => relabel(random, palette, left, right),
        1 => remark(random, palette, right),
        2 => move_root(random, right),
        3 => turn_edge(random, right),
        _ => redirect_edge(random, right),
    }
}

fn relabel(random: &mut Random, palette: &Palette, left: &Left, right: &mut RuleGraph) {
    let items = right.nodes.len() + right.edges.len();
    if items == 0 {
        return;
    }
    let item = random.below(items);
    let label = new_label(random, palette, left);
    if item < right.nodes.len() {
        right.nodes[item].label = label;
    } else {
        right.edges[item - right.nodes.len()].label = label;
    }
}

fn remark(random: &mut Random, palette: &Palette, right: &mut RuleGraph) {
    if !right.nodes.is_empty() && random.chance(70) {
        let node = random.below(right.nodes.len());
        right.nodes[node].mark = palette.node_mark(random);
    } else if !right.edges.is_empty() {
        let edge = random.below(right.edges.len());
        right.edges[edge].mark = palette.edge_mark(random);
    }
}

/// Moves the root flag from one node to another if both kinds are there, else turns one flag.
fn move_root(random: &mut Random, right: &mut RuleGraph) {
    let nodes = &mut right.nodes;
    if nodes.is_empty() {
        return;
    }
    let rooted = nodes.iter().position(|node| node.root);
    let plain = nodes.iter().position(|node| !node.root);
    match (rooted, plain) {
        (Some(from), Some(to)) if random.chance(80) => {
            nodes[from].root = false;
            nodes[to].root = true;
        }
        _ => {
            let node = random.below(nodes.len());
            nodes[node].root = !nodes[node].root;
        }
    }
}

fn turn_edge(random: &mut Random, right: &mut RuleGraph) {
    if !right.edges.is_empty() {
        let index = random.below(right.edges.len());
        let edge = &mut right.edges[index];
        (edge.source, edge.target) = (edge.target, edge.source);
    }
}

fn redirect_edge(random: &mut Random, right: &mut RuleGraph) {
    if !right.edges.is_empty() {
        let index = random.below(right.edges.len());
        right.edges[index].target = random.below(right.nodes.len()) as u8;
    }
}

fn grow(random: &mut Random, palette: &Palette, left: &Left, right: &mut RuleGraph) {
    let new_nodes = random.weighted(&[25, 55, 20]);
    for _ in 0..new_nodes {
        if right.nodes.len() < limit::NODES {
            let label = new_label(random, palette, left);
            let (mark, root) = (palette.node_mark(random), palette.root(random));
            right.nodes.push(RuleNode { mark, root, label });
        }
    }
    let new_edges = if new_nodes == 0 {
        random.between(1, 2)
    } else {
        random.below(3)
    };
    for _ in 0..new_edges {
        if right.edges.len() < limit::EDGES && !right.nodes.is_empty() {
            let count = right.nodes.len();
            let (source, target) = (random.below(count) as u8, random.below(count) as u8);
            let label = new_label(random, palette, left);
            right.edges.push(RuleEdge {
                mark: palette.edge_mark(random),
                source,
                target,
                label,
            });
        }
    }
}
