//! The purpose of each published program: what a run must leave of a graph.

use std::collections::{BTreeMap, BTreeSet};

use second::families::{Edge, Node};
use second::tree::mark;

use super::graphs::*;

/// What a run has left.
pub struct Left {
    pub answer: u32,
    pub graph: Graph,
}

pub fn demand(holds: bool, what: &str) -> Result<(), String> {
    if holds {
        Ok(())
    } else {
        Err(what.to_string())
    }
}

pub fn purpose(program: &str, before: &Graph, left: &Left) -> Result<(), String> {
    match program {
        "transitive-closure" => closes(before, left),
        "is-discrete" => recognises(is_discrete(before), left, is_empty),
        "is-cycle" | "is-cycle-by-degrees" => recognises(is_cycle(before), left, is_empty),
        "is-tree" => recognises(is_tree(before), left, is_one_blue_root),
        "is-binary-dag" => recognises(is_binary_dag(before), left, is_empty),
        "is-connected" => recognises(is_connected(before), left, |after| is_the_same_but_for_nodes(before, after)),
        "2-colouring" => colours(before, left),
        "topological-sorting" => sorts(before, left),
        "minimum-spanning-tree" => spans(before, left),
        other => Err(format!("no purpose is known of {other}")),
    }
}

/// A result where the property holds, a fail where it doesn't.
fn recognises(holds: bool, left: &Left, as_documented: impl Fn(&Graph) -> bool) -> Result<(), String> {
    demand(left.answer == u32::from(!holds), if holds { "the property holds" } else { "the property doesn't hold" })?;
    demand(!holds || as_documented(&left.graph), "the result isn't what the program's text says")
}

fn is_empty(graph: &Graph) -> bool {
    graph.nodes.is_empty() && graph.edges.is_empty()
}

fn is_one_blue_root(graph: &Graph) -> bool {
    let roots = graph.nodes.values().filter(|node| node.mark == mark::BLUE && node.root);
    roots.count() == 1 && graph.nodes.len() == 1 && graph.edges.is_empty()
}

/// The nodes' labels and all of the edges are as before.
fn is_the_same_but_for_nodes(before: &Graph, after: &Graph) -> bool {
    labels(before) == labels(after) && before.edge_values() == after.edge_values()
}

fn labels(graph: &Graph) -> BTreeMap<usize, Vec<i32>> {
    graph.nodes.iter().map(|(n, node)| (*n, node.label.clone())).collect()
}

/// One unlabelled edge more for each pair of different nodes with a path and without an edge, and nothing else.
fn closes(before: &Graph, left: &Left) -> Result<(), String> {
    demand(left.answer == 0, "the closure always is a result")?;
    let joined: BTreeSet<(usize, usize)> = before.edges.values().map(|edge| (edge.source, edge.target)).collect();
    let mut expected = before.edge_values();
    for source in before.nodes.keys() {
        for target in before.reached_from(*source) {
            if target != *source && !joined.contains(&(*source, target)) {
                expected.push((*source, target, mark::NONE, Vec::new()));
            }
        }
    }
    expected.sort();
    demand(left.graph.nodes == before.nodes, "the nodes have changed")?;
    demand(left.graph.edge_values() == expected, "the edges aren't those of the closure")
}

/// A proper colouring if there is one, else the input.
fn colours(before: &Graph, left: &Left) -> Result<(), String> {
    let after = &left.graph;
    demand(left.answer == 0, "a colouring always gives a result")?;
    if !has_two_colouring(before) {
        return demand(after == before, "without a colouring the input is the result");
    }
    let coloured = |node: &Node| [mark::RED, mark::BLUE].contains(&node.mark) && !node.root;
    let colour = |node: usize| after.nodes[&node].mark;
    let proper = |edge: &Edge| edge.source == edge.target || colour(edge.source) != colour(edge.target);
    demand(is_the_same_but_for_nodes(before, after), "labels or edges have changed")?;
    demand(after.nodes.values().all(coloured), "a node is neither red nor blue, or is a root")?;
    demand(after.edges.values().all(proper), "an edge joins two nodes of one colour")
}

/// From the pointer a path of blue edges through all nodes, in which each edge of the input leads forward.
fn sorts(before: &Graph, left: &Left) -> Result<(), String> {
    if has_directed_cycle(before) {
        return demand(left.answer == 1, "there is a directed cycle");
    }
    demand(left.answer == 0, "there is no directed cycle")?;
    let after = &left.graph;
    if before.nodes.is_empty() {
        return demand(is_empty(after), "the empty graph stays empty");
    }
    let Some((pointer, _)) = after.nodes.iter().find(|(_, node)| node.mark == mark::GREEN) else {
        return Err("there is no pointer".to_string());
    };
    let mut order = Vec::new();
    let mut here = *pointer;
    while let Some(blue) = after.edges.values().find(|edge| edge.mark == mark::BLUE && edge.source == here) {
        here = blue.target;
        order.push(here);
        demand(order.len() <= before.nodes.len(), "the blue path is too long")?;
    }
    let place: BTreeMap<usize, usize> = order.iter().enumerate().map(|(place, node)| (*node, place)).collect();
    let forward = |edge: &Edge| place[&edge.source] < place[&edge.target];
    let input_edges = after.with_edges_where(|edge| edge.mark != mark::BLUE);
    let others = after.nodes.iter().filter(|(n, _)| *n != pointer);
    demand(others.clone().all(|(_, node)| node.mark == mark::BLUE && !node.root), "a node isn't blue, or is a root")?;
    demand(others.map(|(n, _)| *n).eq(before.nodes.keys().copied()), "the nodes have changed")?;
    demand(input_edges.edge_values() == before.edge_values(), "edges besides the blue ones have changed")?;
    demand(place.keys().eq(before.nodes.keys()), "the blue path doesn't meet each node once")?;
    demand(before.edges.values().all(forward), "an edge leads back in the order")
}

/// Blue edges that connect all nodes, without one too many and of the least weight.
fn spans(before: &Graph, left: &Left) -> Result<(), String> {
    if before.nodes.is_empty() || !is_connected(before) {
        return demand(left.answer == 1, "there is no spanning tree");
    }
    demand(left.answer == 0, "there is a spanning tree")?;
    let after = &left.graph;
    let unmarked = |edge: &Edge| Edge { mark: mark::NONE, ..edge.clone() };
    let mut without_marks = after.clone();
    without_marks.edges.values_mut().for_each(|edge| *edge = unmarked(edge));
    let mut tree = after.with_edges_where(|edge| edge.mark == mark::BLUE);
    tree.nodes = before.nodes.clone();
    let weight: i64 = tree.edges.values().map(|edge| i64::from(edge.label[0])).sum();
    let allowed = |edge: &Edge| [mark::BLUE, mark::NONE].contains(&edge.mark);
    demand(after.edges.values().all(allowed), "an edge is neither blue nor unmarked")?;
    demand(without_marks.edge_values() == before.edge_values(), "edges have changed in more than their marks")?;
    demand(before.nodes.keys().all(|node| after.nodes[node].mark == mark::RED), "a node isn't red")?;
    demand(after.nodes.len() == before.nodes.len() + 1, "there is more than the pointer besides the nodes")?;
    demand(is_connected(&tree) && tree.edges.len() + 1 == tree.nodes.len(), "the blue edges aren't a spanning tree")?;
    demand(weight == least_spanning_weight(before), "there is a lighter spanning tree")
}
