//! Random host graphs with free slots between the live ones, and what can be asked of them.

use super::palette::Palette;
use crate::layout::Layout;
use crate::random::Random;

#[derive(Clone, Debug)]
pub struct Node {
    pub mark: u8,
    pub root: bool,
    pub label: Vec<i32>,
}

/// The ends are node slots.
#[derive(Clone, Debug)]
pub struct Edge {
    pub mark: u8,
    pub source: usize,
    pub target: usize,
    pub label: Vec<i32>,
}

/// A free slot is `None`.
#[derive(Clone, Debug, Default)]
pub struct Host {
    pub nodes: Vec<Option<Node>>,
    pub edges: Vec<Option<Edge>>,
}

/// How many live nodes and edges and how many free slots a host is to have.
#[derive(Clone, Copy, Debug)]
pub struct Size {
    pub nodes: usize,
    pub free_nodes: usize,
    pub more_edges: usize,
    pub free_edges: usize,
}

impl Size {
    pub fn draw(random: &mut Random) -> Size {
        let nodes = match random.weighted(&[2, 30, 48, 20]) {
            0 => 0,
            1 => random.between(1, 4),
            2 => random.between(5, 8),
            _ => random.between(9, 14),
        };
        Size {
            nodes,
            free_nodes: free_slots(random),
            more_edges: random.pick(&[0, 0, 1, 2, 4]),
            free_edges: free_slots(random),
        }
    }
}

fn free_slots(random: &mut Random) -> usize {
    match random.weighted(&[30, 40, 30]) {
        0 => 0,
        1 => random.between(1, 3),
        _ => random.between(4, 8),
    }
}

impl Host {
    pub fn draw(random: &mut Random, palette: &Palette, size: Size) -> Host {
        let mut ends = shape(random, size.nodes);
        if size.nodes > 0 {
            for _ in 0..size.more_edges {
                ends.push((random.below(size.nodes), random.below(size.nodes)));
            }
        }
        random.shuffle(&mut ends);
        let places = places(random, size.nodes, size.free_nodes);
        let edge_places = self::places(random, ends.len(), size.free_edges);
        let mut host = Host {
            nodes: vec![None; size.nodes + size.free_nodes],
            edges: vec![None; ends.len() + size.free_edges],
        };
        for place in &places {
            host.nodes[*place] = Some(new_node(random, palette));
        }
        for (place, (source, target)) in edge_places.iter().zip(ends) {
            let edge = new_edge(random, palette, places[source], places[target]);
            host.edges[*place] = Some(edge);
        }
        host
    }

    pub fn live_nodes(&self) -> Vec<usize> {
        live(&self.nodes)
    }

    pub fn live_edges(&self) -> Vec<usize> {
        live(&self.edges)
    }

    pub fn node(&self, slot: usize) -> &Node {
        self.nodes[slot].as_ref().expect("a live node slot")
    }

    pub fn edge(&self, slot: usize) -> &Edge {
        self.edges[slot].as_ref().expect("a live edge slot")
    }

    /// The slots of the edges that leave from or arrive at a node.
    pub fn edges_at(&self, node: usize) -> Vec<usize> {
        let touches = |slot: &usize| {
            let edge = self.edge(*slot);
            edge.source == node || edge.target == node
        };
        self.live_edges().into_iter().filter(touches).collect()
    }

    pub fn has_edge(&self, source: usize, target: usize) -> bool {
        self.edges
            .iter()
            .flatten()
            .any(|edge| edge.source == source && edge.target == target)
    }

    pub fn loops_at(&self, node: usize) -> usize {
        self.edges
            .iter()
            .flatten()
            .filter(|e| e.source == node && e.target == node)
            .count()
    }

    pub fn arriving(&self, node: usize) -> usize {
        self.edges
            .iter()
            .flatten()
            .filter(|edge| edge.target == node)
            .count()
    }

    pub fn leaving(&self, node: usize) -> usize {
        self.edges
            .iter()
            .flatten()
            .filter(|edge| edge.source == node)
            .count()
    }

    /// The node table at a layout; what it can't hold of a label is left out.
    pub fn node_table(&self, layout: &Layout) -> Vec<u8> {
        let slot = |node: &Option<Node>| match node {
            Some(node) => layout.node_slot(node.mark, node.root, held(layout, &node.label)),
            None => vec![0; layout.node_length()],
        };
        self.nodes.iter().flat_map(slot).collect()
    }

    /// The edge table at a layout; what it can't hold of a label is left out.
    pub fn edge_table(&self, layout: &Layout) -> Vec<u8> {
        let slot = |edge: &Option<Edge>| match edge {
            Some(edge) => {
                let (source, target) = (edge.source as u16, edge.target as u16);
                layout.edge_slot(edge.mark, source, target, held(layout, &edge.label))
            }
            None => vec![0; layout.edge_length()],
        };
        self.edges.iter().flat_map(slot).collect()
    }
}

/// The atoms of a label that a layout can hold.
fn held<'a>(layout: &Layout, label: &'a [i32]) -> &'a [i32] {
    &label[..label.len().min(layout.atoms)]
}

pub fn new_node(random: &mut Random, palette: &Palette) -> Node {
    Node {
        mark: palette.node_mark(random),
        root: palette.root(random),
        label: palette.node_label(random),
    }
}

pub fn new_edge(random: &mut Random, palette: &Palette, source: usize, target: usize) -> Edge {
    Edge {
        mark: palette.edge_mark(random),
        source,
        target,
        label: palette.edge_label(random),
    }
}

fn live<T>(slots: &[Option<T>]) -> Vec<usize> {
    (0..slots.len())
        .filter(|slot| slots[*slot].is_some())
        .collect()
}

/// The slots of `live` items among `live + free` ones: at the front or with gaps, in order or mixed.
fn places(random: &mut Random, live: usize, free: usize) -> Vec<usize> {
    let mut places: Vec<usize> = (0..live + free).collect();
    if random.chance(60) {
        random.shuffle(&mut places);
    }
    places.truncate(live);
    if random.chance(50) {
        places.sort_unstable();
    }
    places
}

/// The ends of the edges of a graph of `count` nodes, in one of several shapes.
fn shape(random: &mut Random, count: usize) -> Vec<(usize, usize)> {
    if count == 0 {
        return Vec::new();
    }
    let next = |node: usize| (node + 1) % count;
    match random.weighted(&[8, 18, 12, 8, 14, 24, 8, 8]) {
        0 => Vec::new(),
        1 => (1..count).map(|node| (node - 1, node)).collect(),
        2 => (0..count).map(|node| (node, next(node))).collect(),
        3 => (1..count).map(|leaf| (0, leaf)).collect(),
        4 => (1..count)
            .map(|child| (random.below(child), child))
            .collect(),
        5 => (0..count)
            .map(|_| (random.below(count), random.below(count)))
            .collect(),
        6 => (0..count)
            .flat_map(|node| [(node, next(node)), (node, next(node))])
            .collect(),
        _ => (0..count)
            .flat_map(|node| [(node, node), (next(node), node)])
            .collect(),
    }
}
