//! Graphs of several families: shapes by rule, random ones from a seed, changes of them, and their tables.

use super::LAYOUT;
use crate::encode;
use crate::random::Random;
use crate::tree::mark;

/// A graph whose nodes are numbered from 0, as edges name them.
#[derive(Clone, Debug, Default, PartialEq, Eq)]
pub struct Graph {
    pub nodes: Vec<Node>,
    pub edges: Vec<Edge>,
}

#[derive(Clone, Debug, Default, PartialEq, Eq)]
pub struct Node {
    pub mark: u8,
    pub root: bool,
    pub label: Vec<i32>,
}

#[derive(Clone, Debug, Default, PartialEq, Eq)]
pub struct Edge {
    pub source: usize,
    pub target: usize,
    pub mark: u8,
    pub label: Vec<i32>,
}

/// Shapes. Nodes and edges are unmarked and unlabelled, and no node is a root.
impl Graph {
    pub fn of(node_count: usize, edges: &[(usize, usize)]) -> Graph {
        let mut graph = Graph { nodes: vec![Node::default(); node_count], edges: Vec::new() };
        for (source, target) in edges {
            graph.join(*source, *target);
        }
        graph
    }

    pub fn empty() -> Graph {
        Graph::default()
    }

    /// Nodes without edges.
    pub fn discrete(node_count: usize) -> Graph {
        Graph::of(node_count, &[])
    }

    /// A path of directed edges through all nodes.
    pub fn list(node_count: usize) -> Graph {
        let mut graph = Graph::discrete(node_count);
        for node in 1..node_count {
            graph.join(node - 1, node);
        }
        graph
    }

    /// A list whose end is joined to its start; one node has a loop.
    pub fn cycle(node_count: usize) -> Graph {
        let mut graph = Graph::list(node_count);
        graph.join(node_count - 1, 0);
        graph
    }

    /// A full binary tree with all edges away from node 0; height 0 is one node.
    pub fn binary_tree(height: u32) -> Graph {
        let mut graph = Graph::discrete((1 << (height + 1)) - 1);
        for node in 1..graph.nodes.len() {
            graph.join((node - 1) / 2, node);
        }
        graph
    }

    /// A centre with edges to some nodes, each of which has an edge to one more.
    pub fn star(ray_count: usize) -> Graph {
        let mut graph = Graph::discrete(1 + 2 * ray_count);
        for ray in 0..ray_count {
            graph.join(0, 1 + 2 * ray);
            graph.join(1 + 2 * ray, 2 + 2 * ray);
        }
        graph
    }

    /// A cycle in which each node has one more neighbour with an edge to it.
    pub fn sun(ray_count: usize) -> Graph {
        let mut graph = Graph::cycle(ray_count);
        for ray in 0..ray_count {
            let end = graph.add_node();
            graph.join(end, ray);
        }
        graph
    }

    /// Rows of nodes with edges to the right and down.
    pub fn grid(width: usize, height: usize) -> Graph {
        let mut graph = Graph::discrete(width * height);
        for row in 0..height {
            for column in 0..width {
                let node = row * width + column;
                if column + 1 < width {
                    graph.join(node, node + 1);
                }
                if row + 1 < height {
                    graph.join(node, node + width);
                }
            }
        }
        graph
    }

    /// Square grids, each joined to the next: the upper right corner of one is the lower left of the other.
    pub fn grid_chain(grid_count: usize, width: usize) -> Graph {
        let grid = Graph::grid(width, width);
        let mut graph = grid.clone();
        let mut upper_right = width - 1;
        for _ in 1..grid_count {
            let first = graph.nodes.len();
            let lower_left = first + width * (width - 1);
            graph = graph.beside(&grid).with_nodes_merged(upper_right, lower_left);
            upper_right = first + width - 1;
        }
        graph
    }

    /// A centre with edges to all nodes of a cycle.
    pub fn wheel(spoke_count: usize) -> Graph {
        let mut graph = Graph::cycle(spoke_count);
        let centre = graph.add_node();
        for spoke in 0..spoke_count {
            graph.join(centre, spoke);
        }
        graph
    }

    /// An edge from each node to every node behind it.
    pub fn complete_order(node_count: usize) -> Graph {
        let mut graph = Graph::discrete(node_count);
        for target in 1..node_count {
            for source in 0..target {
                graph.join(source, target);
            }
        }
        graph
    }

    /// Every graph of so many nodes with at most one edge from each node to each, to itself if loops are wanted.
    pub fn every(node_count: usize, loops: bool) -> impl Iterator<Item = Graph> {
        let all_pairs = (0..node_count * node_count).map(move |n| (n / node_count, n % node_count));
        let pairs: Vec<(usize, usize)> = all_pairs.filter(|(source, target)| loops || source != target).collect();
        (0u64..1 << pairs.len()).map(move |chosen| {
            let chosen_pairs = pairs.iter().enumerate().filter(|(n, _)| chosen >> n & 1 == 1);
            Graph::of(node_count, &chosen_pairs.map(|(_, pair)| *pair).collect::<Vec<_>>())
        })
    }

    /// Each node but the first has an edge from one before it.
    pub fn random_tree(seed: u64, node_count: usize) -> Graph {
        let mut random = Random::new(seed);
        let mut graph = Graph::discrete(node_count);
        for node in 1..node_count {
            graph.join(random.below(node), node);
        }
        graph
    }

    /// Edges between any two nodes, loops and parallel edges among them.
    pub fn random(seed: u64, node_count: usize, edge_count: usize) -> Graph {
        let mut random = Random::new(seed);
        let mut graph = Graph::discrete(node_count);
        for _ in 0..edge_count {
            graph.join(random.below(node_count), random.below(node_count));
        }
        graph
    }

    /// A random tree and more edges between different nodes, all turned at random.
    pub fn random_connected(seed: u64, node_count: usize, extra_edges: usize) -> Graph {
        Graph::random_connected_order(seed, node_count, extra_edges).turned(seed)
    }

    /// A random tree and more edges, all from a lower to a higher node: no directed cycle.
    pub fn random_connected_order(seed: u64, node_count: usize, extra_edges: usize) -> Graph {
        let mut random = Random::new(seed);
        let mut graph = Graph::random_tree(seed, node_count);
        for _ in 0..extra_edges {
            let target = random.between(1, node_count - 1);
            graph.join(random.below(target), target);
        }
        graph
    }

    /// At most two edges from each node, to higher nodes.
    pub fn random_binary_order(seed: u64, node_count: usize) -> Graph {
        let mut random = Random::new(seed);
        let mut graph = Graph::discrete(node_count);
        for source in 0..node_count.saturating_sub(1) {
            for _ in 0..random.below(3) {
                graph.join(source, random.between(source + 1, node_count - 1));
            }
        }
        graph
    }

    /// A random tree and more edges, each between a node of even and one of odd distance from node 0.
    pub fn random_two_sided(seed: u64, node_count: usize, extra_edges: usize) -> Graph {
        let mut random = Random::new(seed);
        let mut graph = Graph::random_tree(seed, node_count);
        let mut odd = vec![false; node_count];
        for node in 1..node_count {
            odd[node] = !odd[graph.edges[node - 1].source];
        }
        let (odds, evens): (Vec<usize>, Vec<usize>) = (0..node_count).partition(|node| odd[*node]);
        for _ in 0..extra_edges {
            graph.join(random.pick(&odds), random.pick(&evens));
        }
        graph.turned(seed)
    }
}

/// Changes of a graph. Each but the first two gives a new graph.
impl Graph {
    pub fn add_node(&mut self) -> usize {
        self.nodes.push(Node::default());
        self.nodes.len() - 1
    }

    pub fn join(&mut self, source: usize, target: usize) {
        self.edges.push(Edge { source, target, ..Edge::default() });
    }

    pub fn with_edge(&self, source: usize, target: usize) -> Graph {
        let mut graph = self.clone();
        graph.join(source, target);
        graph
    }

    /// Both graphs, without a connection between them.
    pub fn beside(&self, other: &Graph) -> Graph {
        let mut graph = self.clone();
        let first = graph.nodes.len();
        graph.nodes.extend(other.nodes.iter().cloned());
        graph.edges.extend(other.edges.iter().cloned().map(|edge| Edge {
            source: first + edge.source,
            target: first + edge.target,
            ..edge
        }));
        graph
    }

    /// The edges of the second node go to the first, and the second goes.
    fn with_nodes_merged(&self, kept: usize, merged: usize) -> Graph {
        let renumbered = |node: usize| match node {
            node if node == merged => kept,
            node if node > merged => node - 1,
            node => node,
        };
        let mut graph = self.clone();
        graph.nodes.remove(merged);
        for edge in &mut graph.edges {
            edge.source = renumbered(edge.source);
            edge.target = renumbered(edge.target);
        }
        graph
    }

    /// A parallel edge beside each edge.
    pub fn doubled(&self) -> Graph {
        let mut graph = self.clone();
        graph.edges.extend(self.edges.iter().cloned());
        graph
    }

    /// Every edge the other way round.
    pub fn reversed(&self) -> Graph {
        let mut graph = self.clone();
        for edge in &mut graph.edges {
            std::mem::swap(&mut edge.source, &mut edge.target);
        }
        graph
    }

    /// Some edges the other way round.
    pub fn turned(&self, seed: u64) -> Graph {
        let mut random = Random::new(seed);
        let mut graph = self.clone();
        for edge in &mut graph.edges {
            if random.chance(50) {
                std::mem::swap(&mut edge.source, &mut edge.target);
            }
        }
        graph
    }

    /// The same graph with its nodes numbered and its edges listed in another order.
    pub fn shuffled(&self, seed: u64) -> Graph {
        let mut random = Random::new(seed);
        let mut place: Vec<usize> = (0..self.nodes.len()).collect();
        random.shuffle(&mut place);
        let mut graph = self.clone();
        for (node, place) in self.nodes.iter().zip(&place) {
            graph.nodes[*place] = node.clone();
        }
        for edge in &mut graph.edges {
            edge.source = place[edge.source];
            edge.target = place[edge.target];
        }
        random.shuffle(&mut graph.edges);
        graph
    }

    /// All nodes grey.
    pub fn grey(&self) -> Graph {
        let mut graph = self.clone();
        for node in &mut graph.nodes {
            node.mark = mark::GREY;
        }
        graph
    }

    /// Labels of every length on nodes and edges.
    pub fn labelled(&self, seed: u64) -> Graph {
        let mut random = Random::new(seed);
        let mut label = || -> Vec<i32> { (0..random.below(LAYOUT.atoms + 1)).map(|_| random.next() as i32 >> 24).collect() };
        let mut graph = self.clone();
        for node in &mut graph.nodes {
            node.label = label();
        }
        for edge in &mut graph.edges {
            edge.label = label();
        }
        graph
    }

    /// One atom from `low` to `high` on each edge.
    pub fn weighted(&self, seed: u64, low: i32, high: i32) -> Graph {
        let mut random = Random::new(seed);
        let span = (i64::from(high) - i64::from(low)) as usize;
        let mut graph = self.clone();
        for edge in &mut graph.edges {
            edge.label = vec![(i64::from(low) + random.between(0, span) as i64) as i32];
        }
        graph
    }
}

/// Tables. Node and edge numbers become slot numbers.
impl Graph {
    pub fn node_table(&self, free_slots: usize) -> Vec<u8> {
        let slots = self.nodes.iter().map(|node| encode::node_slot(node.mark, node.root, &node.label));
        slots.chain(vec![[0; LAYOUT.node_length()]; free_slots]).flatten().collect()
    }

    pub fn edge_table(&self, free_slots: usize) -> Vec<u8> {
        let slots = self.edges.iter().map(|edge| {
            encode::edge_slot(edge.mark, edge.source as u16, edge.target as u16, &edge.label)
        });
        slots.chain(vec![[0; LAYOUT.edge_length()]; free_slots]).flatten().collect()
    }
}
