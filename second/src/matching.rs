//! The search for a match: placements of the left side are enumerated in document 01's order and tested
//! by its six rules, one function each. Rests on rules whose references hold.
//!
//! Rules 1 to 4 are also tested on each item by itself, as soon as it is placed. A full placement is
//! tested by all six again.

use crate::host::{Host, Label};
use crate::observer::{Event, Observer, Unobserved};
use crate::tree::*;

/// Slots of the left nodes in left order, then of the left edges. While it is partial, the first ones.
#[derive(Clone, Debug, Default, PartialEq, Eq)]
pub struct Placement {
    pub nodes: Vec<usize>,
    pub edges: Vec<usize>,
}

/// The value of each variable that occurs on the left, which is a part of a label of the host; an int's has one atom.
pub type Assignment<'h> = Vec<Option<&'h [i32]>>;

#[derive(Clone, Debug, PartialEq, Eq)]
pub struct Match<'h> {
    pub nodes: Vec<usize>,
    pub edges: Vec<usize>,
    pub values: Assignment<'h>,
}

/// The first match in document 01's order.
pub fn first_match<'h>(rule: &Rule, host: &'h Host) -> Option<Match<'h>> {
    first_match_observed(rule, host, &mut Unobserved)
}

/// The same, observed.
pub fn first_match_observed<'h>(
    rule: &Rule,
    host: &'h Host,
    observer: &mut dyn Observer,
) -> Option<Match<'h>> {
    let mut search = Search {
        rule,
        host,
        node_candidates: node_candidates(rule, host),
        edge_candidates: edge_candidates(rule, host),
        placement: Placement::default(),
        observer,
    };
    let found = search.place_nodes()?;
    let is_root = |slot: &usize| host.node(*slot).is_some_and(|node| node.root);
    let on_roots: Vec<bool> = found.nodes.iter().map(is_root).collect();
    observer.sees(Event::Matched(rule, &on_roots));
    observer.sees(Event::Bound(&found.values));
    Some(found)
}

struct Search<'a, 'h> {
    rule: &'a Rule,
    host: &'h Host,
    /// For each left node the slots that agree with it by themselves.
    node_candidates: Vec<Vec<usize>>,
    /// For each left edge and each node slot, the edges that leave it and agree by themselves.
    edge_candidates: Vec<Vec<Vec<usize>>>,
    placement: Placement,
    observer: &'a mut dyn Observer,
}

impl<'h> Search<'_, 'h> {
    fn place_nodes(&mut self) -> Option<Match<'h>> {
        let next = self.placement.nodes.len();
        if next == self.rule.left.nodes.len() {
            return self.place_edges();
        }
        for candidate in 0..self.node_candidates[next].len() {
            let slot = self.node_candidates[next][candidate];
            if self.placement.nodes.contains(&slot) {
                continue;
            }
            self.placement.nodes.push(slot);
            let found = self.place_nodes();
            self.placement.nodes.pop();
            if found.is_some() {
                return found;
            }
        }
        None
    }

    fn place_edges(&mut self) -> Option<Match<'h>> {
        let next = self.placement.edges.len();
        if next == self.rule.left.edges.len() {
            return self.test_full_placement();
        }
        let left = &self.rule.left.edges[next];
        let source = self.placement.nodes[usize::from(left.source)];
        let target = self.placement.nodes[usize::from(left.target)];
        for candidate in 0..self.edge_candidates[next][source].len() {
            let slot = self.edge_candidates[next][source][candidate];
            let arrives = self.host.edge(slot).map(|edge| usize::from(edge.target));
            if arrives != Some(target) || self.placement.edges.contains(&slot) {
                continue;
            }
            self.placement.edges.push(slot);
            let found = self.place_edges();
            self.placement.edges.pop();
            if found.is_some() {
                return found;
            }
        }
        None
    }

    fn test_full_placement(&mut self) -> Option<Match<'h>> {
        let (rule, host, placement) = (self.rule, self.host, &self.placement);
        let placed = slots_are_live(host, placement)
            && slots_are_different(placement)
            && marks_agree(rule, host, placement)
            && root_flags_agree(rule, host, placement)
            && sources_and_targets_correspond(rule, host, placement);
        if !placed {
            return None;
        }
        let values = labels_agree(rule, host, placement)?;
        if !dangling_condition(rule, host, placement) {
            self.observer.sees(Event::Dangled);
            return None;
        }
        let held = which_tests_hold(rule, host, placement, &values);
        let at_loop = which_ask_at_a_loop(rule, host, placement);
        self.observer.sees(Event::Tested(&rule.tests, &held, &at_loop));
        if held.contains(&false) {
            return None;
        }
        Some(Match {
            nodes: placement.nodes.clone(),
            edges: placement.edges.clone(),
            values,
        })
    }
}

fn node_candidates(rule: &Rule, host: &Host) -> Vec<Vec<usize>> {
    // One for all slots, emptied for each: to allocate one for each takes long.
    let mut values = no_values(rule);
    let candidates = |left: &RuleNode| {
        let agreeing = host.live_nodes().filter(|(_, node)| {
            values.fill(None);
            mark_agrees(left.mark, node.mark)
                && root_agrees(rule, left.root, node.root)
                && label_agrees(rule, &left.label, &node.label, &mut values)
        });
        agreeing.map(|(slot, _)| slot).collect()
    };
    rule.left.nodes.iter().map(candidates).collect()
}

fn edge_candidates(rule: &Rule, host: &Host) -> Vec<Vec<Vec<usize>>> {
    let mut values = no_values(rule);
    let candidates = |left: &RuleEdge| {
        let mut by_source = vec![Vec::new(); host.nodes.len()];
        for (slot, edge) in host.live_edges() {
            values.fill(None);
            if mark_agrees(left.mark, edge.mark)
                && label_agrees(rule, &left.label, &edge.label, &mut values)
            {
                by_source[usize::from(edge.source)].push(slot);
            }
        }
        by_source
    };
    rule.left.edges.iter().map(candidates).collect()
}

/// Each item has a live slot.
pub fn slots_are_live(host: &Host, placement: &Placement) -> bool {
    placement
        .nodes
        .iter()
        .all(|slot| host.node(*slot).is_some())
        && placement
            .edges
            .iter()
            .all(|slot| host.edge(*slot).is_some())
}

/// Different nodes have different slots, and so have different edges.
pub fn slots_are_different(placement: &Placement) -> bool {
    let different = |slots: &[usize]| {
        let mut numbered = slots.iter().enumerate();
        numbered.all(|(place, slot)| !slots[..place].contains(slot))
    };
    different(&placement.nodes) && different(&placement.edges)
}

/// Rule 1: marks agree; any on the left agrees with every mark, none included.
pub fn marks_agree(rule: &Rule, host: &Host, placement: &Placement) -> bool {
    let nodes = rule.left.nodes.iter().zip(&placement.nodes);
    let edges = rule.left.edges.iter().zip(&placement.edges);
    nodes
        .map(|(left, slot)| (left.mark, host.node(*slot).map(|node| node.mark)))
        .chain(edges.map(|(left, slot)| (left.mark, host.edge(*slot).map(|edge| edge.mark))))
        .all(|(left, mark)| mark.is_some_and(|mark| mark_agrees(left, mark)))
}

fn mark_agrees(left: u8, host: u8) -> bool {
    left == mark::ANY || left == host
}

/// Rule 2: root flags are equal both ways; in a preserving rule an unrooted left node takes a root too.
pub fn root_flags_agree(rule: &Rule, host: &Host, placement: &Placement) -> bool {
    let mut nodes = rule.left.nodes.iter().zip(&placement.nodes);
    nodes.all(|(left, slot)| {
        let node = host.node(*slot);
        node.is_some_and(|node| root_agrees(rule, left.root, node.root))
    })
}

fn root_agrees(rule: &Rule, left: bool, host: bool) -> bool {
    match left {
        true => host,
        false => rule.is_preserving() || !host,
    }
}

/// Rule 3: sources and targets correspond.
pub fn sources_and_targets_correspond(rule: &Rule, host: &Host, placement: &Placement) -> bool {
    let image = |node: u8| placement.nodes.get(usize::from(node)).copied();
    let mut edges = rule.left.edges.iter().zip(&placement.edges);
    edges.all(|(left, slot)| {
        host.edge(*slot).is_some_and(|edge| {
            image(left.source) == Some(edge.source.into())
                && image(left.target) == Some(edge.target.into())
        })
    })
}

/// Rule 4: labels agree under one assignment, which is returned.
pub fn labels_agree<'h>(
    rule: &Rule,
    host: &'h Host,
    placement: &Placement,
) -> Option<Assignment<'h>> {
    let mut values = no_values(rule);
    for (left, slot) in rule.left.nodes.iter().zip(&placement.nodes) {
        let node = host.node(*slot)?;
        if !label_agrees(rule, &left.label, &node.label, &mut values) {
            return None;
        }
    }
    for (left, slot) in rule.left.edges.iter().zip(&placement.edges) {
        let edge = host.edge(*slot)?;
        if !label_agrees(rule, &left.label, &edge.label, &mut values) {
            return None;
        }
    }
    Some(values)
}

fn no_values<'h>(rule: &Rule) -> Assignment<'h> {
    vec![None; rule.variables.len()]
}

/// Whether the left label agrees with the host's under these values, to which it adds those of the
/// variables that it meets first. Its one list variable takes what the other elements leave over.
fn label_agrees<'h>(
    rule: &Rule,
    left: &[Element],
    host: &'h Label,
    values: &mut Assignment<'h>,
) -> bool {
    let mut rest = host.atoms();
    for (place, element) in left.iter().enumerate() {
        let behind = left.len() - place - 1;
        let taken = match is_list(rule, element) {
            true => rest.len().checked_sub(behind),
            false => Some(1),
        };
        let Some((atoms, others)) = taken.and_then(|count| rest.split_at_checked(count)) else {
            return false;
        };
        if !element_agrees(element, atoms, values) {
            return false;
        }
        rest = others;
    }
    rest.is_empty()
}

fn is_list(rule: &Rule, element: &Element) -> bool {
    match element {
        Element::Variable(number) => rule.variables[usize::from(*number)] == VariableType::List,
        _ => false,
    }
}

fn element_agrees<'h>(element: &Element, atoms: &'h [i32], values: &mut Assignment<'h>) -> bool {
    match element {
        Element::Constant(value) => atoms == [*value],
        Element::Variable(number) => {
            let value = &mut values[usize::from(*number)];
            match value {
                Some(earlier) => *earlier == atoms,
                None => {
                    *value = Some(atoms);
                    true
                }
            }
        }
        Element::Sum(..) | Element::Difference(..) => false,
    }
}

/// Rule 5: every host edge touching the image of a left node outside the interface is the image of a
/// left edge.
pub fn dangling_condition(rule: &Rule, host: &Host, placement: &Placement) -> bool {
    let outside = placement.nodes.iter().skip(usize::from(rule.interface));
    let outside: Vec<usize> = outside.copied().collect();
    host.live_edges().all(|(slot, edge)| {
        let touches =
            outside.contains(&edge.source.into()) || outside.contains(&edge.target.into());
        !touches || placement.edges.contains(&slot)
    })
}

/// Rule 6: every test holds in the host before the change.
pub fn every_test_holds(
    rule: &Rule,
    host: &Host,
    placement: &Placement,
    values: &Assignment,
) -> bool {
    !which_tests_hold(rule, host, placement, values).contains(&false)
}

fn which_tests_hold(
    rule: &Rule,
    host: &Host,
    placement: &Placement,
    values: &Assignment,
) -> Vec<bool> {
    let tests = rule.tests.iter();
    tests
        .map(|test| test_holds(test, host, placement, values))
        .collect()
}

/// Whether one test holds, its negation included.
fn test_holds(test: &Test, host: &Host, placement: &Placement, values: &Assignment) -> bool {
    let image = |node: u8| placement.nodes[usize::from(node)];
    let holds = match test.kind {
        TestKind::Edge(a, b) => an_edge_runs(host, image(a), image(b)),
        TestKind::InDegree(node, number) => in_degree(host, image(node)) == usize::from(number),
        TestKind::OutDegree(node, number) => out_degree(host, image(node)) == usize::from(number),
        TestKind::Relation(relation, a, b) => {
            let (a, b) = (operand(&a, values), operand(&b, values));
            match relation {
                Relation::Equal => a == b,
                Relation::Less => a < b,
            }
        }
    };
    holds != test.negated
}

/// Which tests ask for a degree of a node that has a loop.
fn which_ask_at_a_loop(rule: &Rule, host: &Host, placement: &Placement) -> Vec<bool> {
    let at_loop = |test: &Test| match test.kind {
        TestKind::InDegree(node, _) | TestKind::OutDegree(node, _) => {
            let slot = placement.nodes[usize::from(node)];
            an_edge_runs(host, slot, slot)
        }
        TestKind::Edge(..) | TestKind::Relation(..) => false,
    };
    rule.tests.iter().map(at_loop).collect()
}

/// An edge of any label and mark runs from a to b.
fn an_edge_runs(host: &Host, a: usize, b: usize) -> bool {
    let mut edges = host.live_edges();
    edges.any(|(_, edge)| usize::from(edge.source) == a && usize::from(edge.target) == b)
}

/// The edges that leave the node, loops included.
fn out_degree(host: &Host, node: usize) -> usize {
    let edges = host.live_edges();
    edges
        .filter(|(_, edge)| usize::from(edge.source) == node)
        .count()
}

/// The edges that arrive at the node, loops included.
fn in_degree(host: &Host, node: usize) -> usize {
    let edges = host.live_edges();
    edges
        .filter(|(_, edge)| usize::from(edge.target) == node)
        .count()
}

/// The atom of an operand.
pub fn operand(operand: &Operand, values: &Assignment) -> i32 {
    match operand {
        Operand::Constant(value) => *value,
        Operand::Variable(number) => {
            let value = values[usize::from(*number)];
            value.expect("a variable that occurs on the left")[0]
        }
    }
}
