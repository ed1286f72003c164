//! Random rules that fit a host, one after the other: each is taken from the host itself, from what an earlier
//! rule leaves of it, or from another graph of the same palette.

use super::conditions::conditions;
use super::hosts::{Edge, Host, Node, Size};
use super::lefts::{Left, Value};
use super::palette::Palette;
use super::rights::{right, Goal};
use super::values::{atoms, new_label};
use crate::layout::Layout;
use crate::random::Random;
use crate::tree::*;

/// A rule, and whether a loop over rules of this kind ends.
#[derive(Clone, Debug)]
pub struct Drawn {
    pub rule: Rule,
    pub ends: bool,
}

pub fn rules(random: &mut Random, palette: &Palette, host: &Host, count: usize) -> Vec<Drawn> {
    let most = most_left_nodes(host.nodes.len().min(host.live_nodes().len() + 8));
    let mut now = host.clone();
    let mut drawn = Vec::new();
    for _ in 0..count {
        let (rule, after) = match random.weighted(&[47, 46, 7]) {
            0 => draw(random, palette, host, most),
            1 => draw(random, palette, &now, most),
            _ => {
                let size = Size {
                    nodes: random.between(1, 5),
                    ..Size::draw(random)
                };
                let other = Host::draw(random, palette, size);
                (draw(random, palette, &other, most).0, None)
            }
        };
        now = after.unwrap_or(now);
        drawn.push(rule);
    }
    drawn
}

/// More left nodes than these would have too many placements in a graph of this many nodes.
fn most_left_nodes(nodes: usize) -> usize {
    match nodes {
        0..=7 => 6,
        8..=9 => 5,
        10..=12 => 4,
        13..=24 => 3,
        25..=64 => 2,
        _ => 1,
    }
}

/// A rule that fits the host, and the host after it, if it can be applied where it was taken from. Now and then
/// it declares a variable that it doesn't use.
fn draw(random: &mut Random, palette: &Palette, host: &Host, most: usize) -> (Drawn, Option<Host>) {
    let mode = draw_mode(random);
    let mut left = Left::draw(random, host, most, mode);
    let special = random.weighted(&[82, 8, 10]);
    let mut drawn = match special {
        1 if count_down(&mut left).is_some() => counting_rule(&left),
        2 if !left.nodes.is_empty() => lengthening_rule(random, palette, host, &left),
        _ => ordinary_rule(random, palette, host, &left),
    };
    drawn.rule.mode = mode;
    let after = applied(palette.layout, host, &left, &drawn.rule);
    let mut drawn = spoilt(random, palette, drawn);
    if left.values.len() < limit::VARIABLES && random.chance(4) {
        let unused = random.pick(&[VariableType::Int, VariableType::List]);
        drawn.rule.variables.push(unused);
    }
    (drawn, after)
}

/// No mode mostly, else preserving more often than not.
pub fn draw_mode(random: &mut Random) -> Option<Mode> {
    match random.weighted(&[72, 6, 22]) {
        0 => None,
        1 => Some(Mode::Reflecting),
        _ => Some(Mode::Preserving),
    }
}

fn ordinary_rule(random: &mut Random, palette: &Palette, host: &Host, left: &Left) -> Drawn {
    let goal = match random.weighted(&[50, 30, 20]) {
        0 => Goal::Shrink,
        1 => Goal::Change,
        _ => Goal::Grow,
    };
    let right = right(random, palette, host, left, goal);
    let tests = conditions(random, palette, host, left);
    let rule = rule(left, right, tests);
    Drawn {
        ends: shrinks(&rule),
        rule,
    }
}

fn rule(left: &Left, right: RuleGraph, tests: Vec<Test>) -> Rule {
    Rule {
        variables: left.values.iter().map(Value::variable_type).collect(),
        left: left.graph.clone(),
        right,
        interface: left.interface as u8,
        tests,
        mode: None,
    }
}

/// Leaves of the left side a counter alone: its first kept node whose label is one constant, with a variable in
/// its place. Nothing happens if there is none.
fn count_down(left: &mut Left) -> Option<()> {
    let counts = |slot: usize| matches!(left.graph.nodes[slot].label[..], [Element::Constant(_)]);
    let node = (0..left.interface).find(|node| counts(*node))?;
    let Element::Constant(value) = left.graph.nodes[node].label[0] else {
        return None;
    };
    let mut counter = left.graph.nodes[node].clone();
    counter.label = vec![Element::Variable(0)];
    *left = Left {
        graph: RuleGraph {
            nodes: vec![counter],
            edges: Vec::new(),
        },
        interface: 1,
        nodes: vec![left.nodes[node]],
        edges: Vec::new(),
        values: vec![Value::Int(value)],
    };
    Some(())
}

/// Takes 1 from a counter while it is greater than 0.
fn counting_rule(left: &Left) -> Drawn {
    let mut right = left.graph.clone();
    right.nodes[0].label = vec![Element::Difference(
        Operand::Variable(0),
        Operand::Constant(1),
    )];
    let positive = TestKind::Relation(Relation::Less, Operand::Constant(0), Operand::Variable(0));
    let tests = vec![Test {
        negated: false,
        kind: positive,
    }];
    Drawn {
        rule: rule(left, right, tests),
        ends: true,
    }
}

/// Puts a label behind another, or doubles a number, so that some repetition can't be held.
fn lengthening_rule(random: &mut Random, palette: &Palette, host: &Host, left: &Left) -> Drawn {
    let mut right = right(random, palette, host, left, Goal::Change);
    let ints = left.int_variables();
    for node in &mut right.nodes {
        let more = new_label(random, palette, left);
        node.label.extend(more);
        if !ints.is_empty() && random.chance(50) {
            let double = Operand::Variable(random.pick(&ints));
            node.label = vec![Element::Sum(double, double)];
        }
        node.label.truncate(limit::ELEMENTS);
    }
    let rule = rule(left, right, Vec::new());
    Drawn {
        ends: shrinks(&rule),
        rule,
    }
}

/// Now and then a mark, a root flag or a constant that the placement doesn't have.
fn spoilt(random: &mut Random, palette: &Palette, mut drawn: Drawn) -> Drawn {
    let nodes = &mut drawn.rule.left.nodes;
    if nodes.is_empty() || !random.chance(4) {
        return drawn;
    }
    let index = random.below(nodes.len());
    let node = &mut nodes[index];
    match random.below(3) {
        0 if node.mark != mark::ANY => node.mark = palette.node_mark(random),
        1 => node.root = !node.root,
        _ => {
            for element in &mut node.label {
                if let Element::Constant(value) = element {
                    *value = palette.atom(random);
                }
            }
        }
    }
    drawn.ends = shrinks(&drawn.rule);
    drawn
}

/// Whether every application leaves fewer nodes and edges, or as many and higher marks.
pub fn shrinks(rule: &Rule) -> bool {
    let size = |graph: &RuleGraph| graph.nodes.len() + graph.edges.len();
    let (before, after) = (size(&rule.left), size(&rule.right));
    after < before || (after == before && raises_marks(rule))
}

fn raises_marks(rule: &Rule) -> bool {
    let kept = rule.interface as usize;
    let same_nodes = rule.left.nodes.len() == kept && rule.right.nodes.len() == kept;
    let pairs = || rule.left.nodes.iter().zip(&rule.right.nodes);
    let rising =
        pairs().all(|(l, r)| l.mark <= r.mark && (l.mark != mark::ANY || r.mark == mark::ANY));
    same_nodes && rising && pairs().any(|(l, r)| l.mark < r.mark)
}

/// Puts the right nodes where they stood or in free slots; the slot of each.
fn put_nodes(layout: &Layout, after: &mut Host, host: &Host, left: &Left, rule: &Rule) -> Option<Vec<usize>> {
    let mut slots = Vec::new();
    for (index, node) in rule.right.nodes.iter().enumerate() {
        let label = atoms(layout, &node.label, &left.values)?;
        let kept = left.nodes[..left.interface].get(index).copied();
        let slot = match kept {
            Some(slot) => slot,
            None => after.nodes.iter().position(Option::is_none)?,
        };
        let mark = if node.mark == mark::ANY {
            host.node(slot).mark
        } else {
            node.mark
        };
        let unrooted = !node.root && kept.is_some() && !rule.left.nodes[index].root;
        let root = if rule.is_preserving() && unrooted {
            host.node(slot).root
        } else {
            node.root
        };
        after.nodes[slot] = Some(Node { mark, root, label });
        slots.push(slot);
    }
    Some(slots)
}

/// The host after the rule is applied at the placement, if there is room for it and its labels can be held.
fn applied(layout: &Layout, host: &Host, left: &Left, rule: &Rule) -> Option<Host> {
    let mut after = host.clone();
    for slot in &left.edges {
        after.edges[*slot] = None;
    }
    for slot in &left.nodes[left.interface..] {
        after.nodes[*slot] = None;
    }
    let slots = put_nodes(layout, &mut after, host, left, rule)?;
    for edge in &rule.right.edges {
        let label = atoms(layout, &edge.label, &left.values)?;
        let slot = after.edges.iter().position(Option::is_none)?;
        let (source, target) = (slots[edge.source as usize], slots[edge.target as usize]);
        after.edges[slot] = Some(Edge {
            mark: edge.mark,
            source,
            target,
            label,
        });
    }
    let dangling =
        |edge: &Edge| after.nodes[edge.source].is_none() || after.nodes[edge.target].is_none();
    (!after.edges.iter().flatten().any(dangling)).then_some(after)
}
