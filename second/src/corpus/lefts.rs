//! Left sides, taken from a part of a host graph, so that at least one placement exists: some nodes that hang
//! together and some edges between them, with labels generalised to variables.

use super::hosts::Host;
use crate::random::Random;
use crate::tree::*;

/// A left side with the placement that it was taken from.
#[derive(Clone, Debug, Default)]
pub struct Left {
    pub graph: RuleGraph,
    /// How many nodes at the front are kept.
    pub interface: usize,
    /// The node slot of each left node and the edge slot of each left edge.
    pub nodes: Vec<usize>,
    pub edges: Vec<usize>,
    pub values: Vec<Value>,
}

/// What a variable stands for in the placement.
#[derive(Clone, Debug, PartialEq, Eq)]
pub enum Value {
    Int(i32),
    List(Vec<i32>),
}

impl Value {
    pub fn variable_type(&self) -> VariableType {
        match self {
            Value::Int(_) => VariableType::Int,
            Value::List(_) => VariableType::List,
        }
    }
}

/// The part of the host that a left side is taken from.
struct Part {
    kept: Vec<usize>,
    deleted: Vec<usize>,
    edges: Vec<usize>,
}

impl Left {
    /// A left side of at most `most` nodes. Many nodes of a preserving rule that stand for roots are unrooted.
    pub fn draw(random: &mut Random, host: &Host, most: usize, mode: Option<Mode>) -> Left {
        let preserving = mode == Some(Mode::Preserving);
        let part = part(random, host, most);
        let mut left = Left {
            interface: part.kept.len(),
            edges: part.edges,
            ..Left::default()
        };
        left.nodes = [part.kept, part.deleted].concat();
        for slot in left.nodes.clone() {
            let node = host.node(slot);
            let label = left.generalised(random, &node.label);
            left.graph.nodes.push(RuleNode {
                mark: mark_or_any(random, node.mark),
                root: node.root && !(preserving && random.chance(60)),
                label,
            });
        }
        for slot in left.edges.clone() {
            let edge = host.edge(slot);
            let label = left.generalised(random, &edge.label);
            let (source, target) = (left.node_at(edge.source), left.node_at(edge.target));
            left.graph.edges.push(RuleEdge {
                mark: mark_or_any(random, edge.mark),
                source,
                target,
                label,
            });
        }
        left
    }

    fn node_at(&self, slot: usize) -> u8 {
        let found = self.nodes.iter().position(|node| *node == slot);
        found.expect("the ends of a chosen edge are chosen") as u8
    }

    pub fn int_variables(&self) -> Vec<u8> {
        self.variables(|value| matches!(value, Value::Int(_)))
    }

    pub fn list_variables(&self) -> Vec<u8> {
        self.variables(|value| matches!(value, Value::List(_)))
    }

    fn variables(&self, wanted: impl Fn(&Value) -> bool) -> Vec<u8> {
        let all = 0..self.values.len();
        all.filter(|index| wanted(&self.values[*index]))
            .map(|index| index as u8)
            .collect()
    }

    /// A label that these atoms agree with: constants, variables for atoms, one variable for a part.
    fn generalised(&mut self, random: &mut Random, atoms: &[i32]) -> Vec<Element> {
        match random.weighted(&[13, 32, 37, 18]) {
            0 => atoms.iter().map(|atom| Element::Constant(*atom)).collect(),
            1 => self.around_list(random, atoms, 0, atoms.len()),
            2 => self.atom_by_atom(random, atoms),
            _ => {
                let start = random.between(0, atoms.len());
                let end = random.between(start, atoms.len());
                self.around_list(random, atoms, start, end)
            }
        }
    }

    /// A list variable for the atoms from `start` to `end`, the others one by one.
    fn around_list(
        &mut self,
        random: &mut Random,
        atoms: &[i32],
        start: usize,
        end: usize,
    ) -> Vec<Element> {
        if start + 1 + (atoms.len() - end) > limit::ELEMENTS {
            return self.atom_by_atom(random, atoms);
        }
        let Some(list) = self.variable(random, Value::List(atoms[start..end].to_vec())) else {
            return self.atom_by_atom(random, atoms);
        };
        let mut label = self.atom_by_atom(random, &atoms[..start]);
        label.push(list);
        label.extend(self.atom_by_atom(random, &atoms[end..]));
        label
    }

    fn atom_by_atom(&mut self, random: &mut Random, atoms: &[i32]) -> Vec<Element> {
        let mut label = Vec::new();
        for atom in atoms {
            let constant = Element::Constant(*atom);
            let variable = if random.chance(22) {
                None
            } else {
                self.variable(random, Value::Int(*atom))
            };
            label.push(variable.unwrap_or(constant));
        }
        label
    }

    /// A variable of this value: one that has it already, or a new one while there is room for one.
    fn variable(&mut self, random: &mut Random, value: Value) -> Option<Element> {
        let known = self.values.iter().position(|other| *other == value);
        let room = self.values.len() < limit::VARIABLES;
        match known {
            Some(index) if !room || random.chance(55) => Some(Element::Variable(index as u8)),
            _ if room => {
                self.values.push(value);
                Some(Element::Variable(self.values.len() as u8 - 1))
            }
            _ => None,
        }
    }
}

fn part(random: &mut Random, host: &Host, most: usize) -> Part {
    let count = random.weighted(&[4, 28, 34, 18, 8, 5, 3]).min(most);
    let mut kept = connected(random, host, count);
    let mut deleted = Vec::new();
    match random.weighted(&[58, 30, 7, 5]) {
        0 => {}
        1 => delete_whole(random, host, most, &mut kept, &mut deleted),
        2 => {
            delete_whole(random, host, most, &mut kept, &mut deleted);
            delete_whole(random, host, most, &mut kept, &mut deleted);
        }
        _ => deleted.extend(kept.pop()),
    }
    if random.chance(30) {
        kept.sort_unstable();
    }
    let edges = edges_between(random, host, &kept, &deleted);
    Part {
        kept,
        deleted,
        edges,
    }
}

/// Nodes that hang together as far as the host's edges allow.
fn connected(random: &mut Random, host: &Host, count: usize) -> Vec<usize> {
    let live = host.live_nodes();
    let mut chosen: Vec<usize> = Vec::new();
    while chosen.len() < count.min(live.len()) {
        let mut candidates = Vec::new();
        if random.chance(90) {
            for edge in host.edges.iter().flatten() {
                candidates.push(edge.source);
                candidates.push(edge.target);
            }
            let near = |node: &usize| {
                chosen.is_empty()
                    || host
                        .edges_at(*node)
                        .iter()
                        .any(|e| touches(host, *e, &chosen))
            };
            candidates.retain(|node| !chosen.contains(node) && near(node));
        }
        if candidates.is_empty() {
            candidates = live.clone();
            candidates.retain(|node| !chosen.contains(node));
        }
        chosen.push(random.pick(&candidates));
    }
    chosen
}

fn touches(host: &Host, edge: usize, nodes: &[usize]) -> bool {
    let edge = host.edge(edge);
    nodes.contains(&edge.source) || nodes.contains(&edge.target)
}

/// The mark of a left item that stands for one with this mark: seldom any.
fn mark_or_any(random: &mut Random, mark: u8) -> u8 {
    if random.chance(14) {
        mark::ANY
    } else {
        mark
    }
}

/// Moves a node from the kept to the deleted ones, if its neighbours and edges find room in the left side.
fn delete_whole(
    random: &mut Random,
    host: &Host,
    most: usize,
    kept: &mut Vec<usize>,
    deleted: &mut Vec<usize>,
) {
    if kept.is_empty() {
        return;
    }
    let node = random.pick(kept);
    let edges = host.edges_at(node);
    let mut neighbours: Vec<usize> = edges
        .iter()
        .flat_map(|e| [host.edge(*e).source, host.edge(*e).target])
        .collect();
    neighbours.sort_unstable();
    neighbours.dedup();
    neighbours.retain(|slot| !kept.contains(slot) && !deleted.contains(slot));
    let room = kept.len() + deleted.len() + neighbours.len() <= most;
    if room && edges.len() <= limit::EDGES {
        kept.retain(|slot| *slot != node);
        kept.extend(neighbours);
        deleted.push(node);
    }
}

/// All edges at deleted nodes, seldom one fewer, and some of those between kept ones, as many as a rule holds.
fn edges_between(
    random: &mut Random,
    host: &Host,
    kept: &[usize],
    deleted: &[usize],
) -> Vec<usize> {
    let chosen = |slot: &usize| kept.contains(slot) || deleted.contains(slot);
    let mut needed = Vec::new();
    let mut others = Vec::new();
    for slot in host.live_edges() {
        let edge = host.edge(slot);
        if !chosen(&edge.source) || !chosen(&edge.target) {
            continue;
        }
        if touches(host, slot, deleted) {
            needed.push(slot);
        } else if random.chance(65) {
            others.push(slot);
        }
    }
    if !needed.is_empty() && random.chance(8) {
        needed.remove(random.below(needed.len()));
    }
    random.shuffle(&mut others);
    needed.extend(others);
    needed.truncate(limit::EDGES);
    if random.chance(50) {
        random.shuffle(&mut needed);
    }
    needed
}
