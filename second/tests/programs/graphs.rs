//! Graphs as tables hold them, and their properties by ordinary algorithms.

use std::collections::{BTreeMap, BTreeSet, VecDeque};

use second::families::{Edge, Node};
use second::layout::Layout;

#[derive(Clone, Debug, PartialEq, Eq)]
pub struct Graph {
    pub nodes: BTreeMap<usize, Node>,
    pub edges: BTreeMap<usize, Edge>,
}

pub type EdgeValue = (usize, usize, u8, Vec<i32>);

impl Graph {
    pub fn read(nodes: &[u8], edges: &[u8]) -> Graph {
        let node = |slot: &[u8]| Node { mark: slot[1], root: slot[2] == 1, label: atoms(slot[3], &slot[4..]) };
        let edge = |slot: &[u8]| Edge {
            mark: slot[1],
            source: usize::from(u16::from_be_bytes([slot[4], slot[5]])),
            target: usize::from(u16::from_be_bytes([slot[6], slot[7]])),
            label: atoms(slot[3], &slot[8..]),
        };
        let live = |slot: &(usize, &[u8])| slot.1[0] == 1;
        Graph {
            nodes: nodes.chunks(Layout::BASE.node_length()).enumerate().filter(live).map(|(n, slot)| (n, node(slot))).collect(),
            edges: edges.chunks(Layout::BASE.edge_length()).enumerate().filter(live).map(|(n, slot)| (n, edge(slot))).collect(),
        }
    }

    /// The edges without their slots, sorted.
    pub fn edge_values(&self) -> Vec<EdgeValue> {
        let value = |edge: &Edge| (edge.source, edge.target, edge.mark, edge.label.clone());
        let mut values: Vec<EdgeValue> = self.edges.values().map(value).collect();
        values.sort();
        values
    }

    /// The graph of the same nodes with those edges alone that are chosen.
    pub fn with_edges_where(&self, chosen: impl Fn(&Edge) -> bool) -> Graph {
        let edges = self.edges.iter().filter(|(_, edge)| chosen(edge));
        Graph { nodes: self.nodes.clone(), edges: edges.map(|(n, edge)| (*n, edge.clone())).collect() }
    }

    /// The nodes that a path leads to, of length 0 included.
    pub fn reached_from(&self, start: usize) -> BTreeSet<usize> {
        let mut reached = BTreeSet::from([start]);
        let mut waiting = vec![start];
        while let Some(node) = waiting.pop() {
            for edge in self.edges.values().filter(|edge| edge.source == node) {
                if reached.insert(edge.target) {
                    waiting.push(edge.target);
                }
            }
        }
        reached
    }

    pub fn out_degree(&self, node: usize) -> usize {
        self.edges.values().filter(|edge| edge.source == node).count()
    }

    pub fn in_degree(&self, node: usize) -> usize {
        self.edges.values().filter(|edge| edge.target == node).count()
    }
}

fn atoms(length: u8, bytes: &[u8]) -> Vec<i32> {
    let four = bytes.chunks(4).take(usize::from(length));
    four.map(|four| i32::from_be_bytes(four.try_into().expect("an atom has four bytes"))).collect()
}

pub fn is_discrete(graph: &Graph) -> bool {
    graph.edges.is_empty()
}

/// From the first node, the one edge that leaves each node leads through all nodes and back.
pub fn is_cycle(graph: &Graph) -> bool {
    let Some(first) = graph.nodes.keys().next() else { return false };
    let degrees_are_one = graph.nodes.keys().all(|node| graph.out_degree(*node) == 1 && graph.in_degree(*node) == 1);
    degrees_are_one && graph.reached_from(*first).len() == graph.nodes.len()
}

/// A path leads from one node to all others, with no edge more than that takes.
pub fn is_tree(graph: &Graph) -> bool {
    let all_from = |node: &usize| graph.reached_from(*node).len() == graph.nodes.len();
    graph.edges.len() + 1 == graph.nodes.len() && graph.nodes.keys().any(all_from)
}

pub fn has_directed_cycle(graph: &Graph) -> bool {
    graph.edges.values().any(|edge| graph.reached_from(edge.target).contains(&edge.source))
}

pub fn is_binary_dag(graph: &Graph) -> bool {
    !has_directed_cycle(graph) && graph.nodes.keys().all(|node| graph.out_degree(*node) <= 2)
}

/// Each node with the least node of its part, directions disregarded.
pub fn parts(graph: &Graph) -> BTreeMap<usize, usize> {
    let mut part: BTreeMap<usize, usize> = graph.nodes.keys().map(|node| (*node, *node)).collect();
    for edge in graph.edges.values() {
        let (a, b) = (part[&edge.source], part[&edge.target]);
        for least in part.values_mut().filter(|least| **least == a.max(b)) {
            *least = a.min(b);
        }
    }
    part
}

pub fn is_connected(graph: &Graph) -> bool {
    parts(graph).values().collect::<BTreeSet<_>>().len() <= 1
}

/// Breadth first: a side for each node, the other one for each neighbour.
pub fn has_two_colouring(graph: &Graph) -> bool {
    let mut side: BTreeMap<usize, bool> = BTreeMap::new();
    for start in graph.nodes.keys() {
        if side.contains_key(start) {
            continue;
        }
        side.insert(*start, false);
        let mut waiting = VecDeque::from([*start]);
        while let Some(node) = waiting.pop_front() {
            for edge in graph.edges.values().filter(|edge| edge.source != edge.target) {
                let neighbour = match node {
                    node if node == edge.source => edge.target,
                    node if node == edge.target => edge.source,
                    _ => continue,
                };
                if !side.contains_key(&neighbour) {
                    side.insert(neighbour, !side[&node]);
                    waiting.push_back(neighbour);
                }
            }
        }
    }
    let proper = |edge: &Edge| edge.source == edge.target || side[&edge.source] != side[&edge.target];
    graph.edges.values().all(proper)
}

/// The weight of a minimum spanning tree of a connected graph, after Kruskal: the lightest edges first, unless both
/// ends are joined already.
pub fn least_spanning_weight(graph: &Graph) -> i64 {
    let mut edges: Vec<&Edge> = graph.edges.values().collect();
    edges.sort_by_key(|edge| edge.label[0]);
    let mut forest = graph.with_edges_where(|_| false);
    let mut weight = 0;
    for (number, edge) in edges.into_iter().enumerate() {
        let part = parts(&forest);
        if part[&edge.source] != part[&edge.target] {
            forest.edges.insert(number, edge.clone());
            weight += i64::from(edge.label[0]);
        }
    }
    weight
}
