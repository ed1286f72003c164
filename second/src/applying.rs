//! Applying a rule at a match: the checks before any change, then the changes with one record each.
//! Rests on rules whose references hold and on a match of the rule in the host.

use crate::answer;
use crate::host::{Edge, Host, Label, Node};
use crate::journal::Record;
use crate::layout::Layout;
use crate::matching::{operand, Assignment, Match};
use crate::observer::{Event, Observer};
use crate::tree::*;

/// The values of the right side's labels.
struct RightLabels {
    nodes: Vec<Label>,
    edges: Vec<Label>,
}

/// The graph after the application and its records in order, or the answer from 3 to 6 that ends the
/// run. `room` is the number of records that the journal can still take.
pub fn apply(
    rule: &Rule,
    found: &Match,
    host: &Host,
    layout: &Layout,
    room: usize,
    observer: &mut dyn Observer,
) -> Result<(Host, Vec<Record>), u32> {
    let mut evaluation = Evaluation {
        rule,
        values: &found.values,
        layout,
        observer,
    };
    let labels = evaluation.right_labels().ok_or(answer::LABEL)?;
    if !nodes_have_room(rule, host) {
        return Err(answer::NO_ROOM_NODES);
    }
    if !edges_have_room(rule, host) {
        return Err(answer::NO_ROOM_EDGES);
    }
    if !journal_has_room(rule, room) {
        return Err(answer::NO_ROOM_JOURNAL);
    }
    let mut change = Change {
        host: host.clone(),
        records: Vec::new(),
    };
    change.all(rule, found, &labels, observer);
    observer.sees(Event::Applied(&change.host));
    Ok((change.host, change.records))
}

/// The right side of a rule under the values of a match.
struct Evaluation<'a> {
    rule: &'a Rule,
    values: &'a Assignment<'a>,
    layout: &'a Layout,
    observer: &'a mut dyn Observer,
}

impl Evaluation<'_> {
    /// The labels of the right side, if each can be held.
    fn right_labels(&mut self) -> Option<RightLabels> {
        let (nodes, edges) = (&self.rule.right.nodes, &self.rule.right.edges);
        Some(RightLabels {
            nodes: nodes
                .iter()
                .map(|node| self.label(&node.label))
                .collect::<Option<_>>()?,
            edges: edges
                .iter()
                .map(|edge| self.label(&edge.label))
                .collect::<Option<_>>()?,
        })
    }

    /// The value of a label, if no sum or difference leaves 32 bits and the layout can hold its atoms.
    fn label(&mut self, elements: &[Element]) -> Option<Label> {
        let mut atoms = Vec::new();
        for element in elements {
            self.observer.sees(Event::Evaluated(self.rule, element));
            match element {
                Element::Constant(value) => atoms.push(*value),
                Element::Variable(number) => {
                    atoms.extend(self.values[usize::from(*number)]?);
                }
                Element::Sum(a, b) => atoms.push(self.number(a).checked_add(self.number(b))?),
                Element::Difference(a, b) => {
                    atoms.push(self.number(a).checked_sub(self.number(b))?)
                }
            }
        }
        self.observer.sees(Event::LabelMade {
            elements: elements.len(),
            atoms: atoms.len(),
        });
        self.layout.holds(atoms.len()).then(|| Label::of(&atoms))
    }

    fn number(&self, of: &Operand) -> i32 {
        operand(of, self.values)
    }
}

fn free<T>(slots: &[Option<T>]) -> usize {
    slots.iter().filter(|slot| slot.is_none()).count()
}

/// Free plus deleted nodes are enough for the new nodes.
fn nodes_have_room(rule: &Rule, host: &Host) -> bool {
    let interface = usize::from(rule.interface);
    let deleted = rule.left.nodes.len() - interface;
    let new = rule.right.nodes.len() - interface;
    free(&host.nodes) + deleted >= new
}

/// Free plus deleted edges are enough for the right edges.
fn edges_have_room(rule: &Rule, host: &Host) -> bool {
    free(&host.edges) + rule.left.edges.len() >= rule.right.edges.len()
}

/// The journal takes a record for each left edge, left node, new node and right edge.
fn journal_has_room(rule: &Rule, room: usize) -> bool {
    let new = rule.right.nodes.len() - usize::from(rule.interface);
    rule.left.edges.len() + rule.left.nodes.len() + new + rule.right.edges.len() <= room
}

/// A graph under change, and the records so far.
struct Change {
    host: Host,
    records: Vec<Record>,
}

impl Change {
    fn all(
        &mut self,
        rule: &Rule,
        found: &Match,
        labels: &RightLabels,
        observer: &mut dyn Observer,
    ) {
        let interface = usize::from(rule.interface);
        for slot in &found.edges {
            self.set_edge(*slot, None);
        }
        for (number, slot) in found.nodes.iter().enumerate() {
            let node = match number < interface {
                true => Some(self.kept_node(rule, number, *slot, labels, observer)),
                false => None,
            };
            self.set_node(*slot, node);
        }
        let mut images = found.nodes[..interface].to_vec();
        for number in interface..rule.right.nodes.len() {
            let slot = lowest_free(&self.host.nodes);
            observer.sees(Event::Placed(slot, &found.nodes));
            self.set_node(slot, Some(new_node(rule, number, labels)));
            images.push(slot);
        }
        for number in 0..rule.right.edges.len() {
            let slot = lowest_free(&self.host.edges);
            observer.sees(Event::Placed(slot, &found.edges));
            self.set_edge(slot, Some(right_edge(rule, number, labels, &images)));
        }
    }

    /// An interface node after the change: the right side's mark, root and label. Any keeps the mark; a preserving rule keeps
    /// the root flag of a node that is unrooted on both sides.
    fn kept_node(
        &self,
        rule: &Rule,
        number: usize,
        slot: usize,
        labels: &RightLabels,
        observer: &mut dyn Observer,
    ) -> Node {
        let before = self.host.node(slot).expect("a matched node is live");
        let mut node = new_node(rule, number, labels);
        if node.mark == mark::ANY {
            node.mark = before.mark;
        }
        let unrooted = !rule.left.nodes[number].root && !node.root;
        if rule.is_preserving() && unrooted {
            node.root = before.root;
            observer.sees(Event::RootFlagKept(before.root));
        }
        node
    }

    fn set_node(&mut self, slot: usize, node: Option<Node>) {
        let before = std::mem::replace(&mut self.host.nodes[slot], node);
        self.records.push(Record::Node(slot, before));
    }

    fn set_edge(&mut self, slot: usize, edge: Option<Edge>) {
        let before = std::mem::replace(&mut self.host.edges[slot], edge);
        self.records.push(Record::Edge(slot, before));
    }
}

fn lowest_free<T>(slots: &[Option<T>]) -> usize {
    let free = slots.iter().position(|slot| slot.is_none());
    free.expect("the room was counted before the change")
}

fn new_node(rule: &Rule, number: usize, labels: &RightLabels) -> Node {
    let right = &rule.right.nodes[number];
    Node {
        mark: right.mark,
        root: right.root,
        label: labels.nodes[number].clone(),
    }
}

fn right_edge(rule: &Rule, number: usize, labels: &RightLabels, images: &[usize]) -> Edge {
    let right = &rule.right.edges[number];
    Edge {
        mark: right.mark,
        source: images[usize::from(right.source)] as u16,
        target: images[usize::from(right.target)] as u16,
        label: labels.edges[number].clone(),
    }
}
