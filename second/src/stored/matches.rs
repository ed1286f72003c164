//! Pairs of a host and a rule for the matcher: small drawn images, images that a run refuses, and tables of the greatest size
//! with rules of up to six nodes taken from them.

use std::fmt::Write;

use crate::calls;
use crate::corpus::{self, draw_mode};
use crate::decode;
use crate::encode;
use crate::exercised::Exercised;
use crate::host::{Edge, Host, Label, Node};
use crate::listing;
use crate::matching::{self, Match};
use crate::random::Random;
use crate::refusals::RunCall;
use crate::tree::*;

use super::{case, Stored, LAYOUT};

/// Small drawn images that are looked at, and how long the tables and the program of one may be together.
const DRAWN: u64 = 1_000;
const LONGEST: usize = 2_000;

/// Cases among them that a run refuses.
const REFUSED: usize = 40;

/// Tables of the greatest size, rules over each, and the placements of a rule's nodes that are looked at.
const FULL: u64 = 14;
const RULES: usize = 24;
const MOST_PLACEMENTS: usize = 150_000;

/// A host and the image whose rules are matched on it.
pub struct Pairs {
    pub nodes: Vec<u8>,
    pub edges: Vec<u8>,
    pub program: Vec<u8>,
}

impl Pairs {
    /// A run of the image on the host, with no fuel and no journal.
    fn call(&self) -> RunCall {
        RunCall {
            nodes: self.nodes.clone(),
            edges: self.edges.clone(),
            journal: Vec::new(),
            program: self.program.clone(),
            fuel: 0,
            report: vec![0; calls::REPORT_BYTES],
        }
    }
}

/// What the matches exercised, and how many pairs have a match and how many have none.
#[derive(Default)]
pub struct Seen {
    pub exercised: Exercised,
    pub matched: u64,
    pub unmatched: u64,
    pub refused: u64,
}

/// The line of each rule is its first match, or `none`; a case that a run refuses has one line, `refused`.
pub fn match_cases() -> Stored {
    let pairs = pairs();
    let mut stdout = String::new();
    for pair in &pairs {
        stdout.push_str(&lines(pair, &mut Seen::default()));
    }
    let stdin = pairs.iter().flat_map(|pair| case(&[&pair.nodes, &pair.edges, &pair.program])).collect();
    Stored { stdin, stdout: stdout.into_bytes() }
}

/// One case with a count behind its program: a host of the greatest size, whose first rule is matched three times.
pub fn match_bench() -> Stored {
    let matched = |pair: &Pairs| lines(pair, &mut Seen::default()).starts_with("match");
    let pair = (0..FULL).map(full_pairs).find(matched).expect("some first rule has a match");
    let stdin = case(&[&pair.nodes, &pair.edges, &pair.program, &3u32.to_be_bytes()]);
    let first: String = lines(&pair, &mut Seen::default()).lines().take(1).map(|line| format!("{line}\n")).collect();
    Stored { stdin, stdout: first.into_bytes() }
}

/// What the stored pairs exercise.
pub fn seen() -> Seen {
    let mut seen = Seen::default();
    for pair in pairs() {
        lines(&pair, &mut seen);
    }
    seen
}

/// The groupings and the procedures are left out: they differ in commands, which no match looks at.
pub fn pairs() -> Vec<Pairs> {
    let left_out = [corpus::groupings(), corpus::procedures()].concat();
    let left_out: Vec<Vec<u8>> = left_out.iter().map(encode::runner_input).collect();
    let images = corpus::images(2, corpus::fixed_count() + DRAWN).into_iter().filter(|image| !left_out.contains(image));
    let (refused, started): (Vec<Pairs>, Vec<Pairs>) =
        images.filter_map(|image| drawn_pairs(&image)).partition(|pair| super::refused_by(&pair.call()) != 0);
    let few = refused.into_iter().rev().take(REFUSED);
    started.into_iter().chain(few).chain((0..FULL).map(full_pairs)).collect()
}

fn drawn_pairs(image: &[u8]) -> Option<Pairs> {
    let input = listing::read_input(image)?;
    let length = input.nodes.len() + input.edges.len() + input.program.len();
    (length <= LONGEST).then_some(Pairs { nodes: input.nodes, edges: input.edges, program: input.program })
}

fn lines(pair: &Pairs, seen: &mut Seen) -> String {
    if super::refused_by(&pair.call()) != 0 {
        seen.refused += 1;
        return "refused\n".to_string();
    }
    let program = decode::program(&pair.program).expect("a run that starts has a program");
    let host = Host::read(LAYOUT, &pair.nodes, &pair.edges).expect("a run that starts has a host");
    let mut text = String::new();
    for rule in &program.rules {
        let found = matching::first_match_observed(rule, &host, &mut seen.exercised);
        match &found {
            Some(_) => seen.matched += 1,
            None => seen.unmatched += 1,
        }
        text.push_str(&found.map_or("none".to_string(), |found| line(&found)));
        text.push('\n');
    }
    text
}

/// Node slots, then edge slots, then the atoms of each variable as 32-bit words.
fn line(found: &Match) -> String {
    let mut text = "match".to_string();
    for slot in found.nodes.iter().chain(&found.edges) {
        write!(text, " {slot}").expect("a string takes all");
    }
    for value in &found.values {
        text.push_str(" =");
        for atom in value.iter().flat_map(|atoms| atoms.iter()) {
            write!(text, " {}", *atom as u32).expect("a string takes all");
        }
    }
    text
}

/// A host that fills both tables, and rules taken from it.
fn full_pairs(index: u64) -> Pairs {
    let mut random = Random::of_index(3, index);
    let host = full_host(&mut random, index % 4 == 3);
    let mut rules = Vec::new();
    while rules.len() < RULES {
        let rule = rule_of(&mut random, &host);
        let placements = rule.left.nodes.iter().map(|left| candidates(&rule, left, &host)).product::<usize>();
        if placements <= MOST_PLACEMENTS {
            rules.push(rule);
        }
    }
    let program = Program::without_procedures(rules, Command::Skip);
    Pairs { nodes: host.node_table(LAYOUT), edges: host.edge_table(LAYOUT), program: encode::program(&program) }
}

/// How many nodes agree with a left node by mark, root and a constant at the front.
fn candidates(rule: &Rule, left: &RuleNode, host: &Host) -> usize {
    let agrees = |node: &&Node| {
        let first = match left.label.first() {
            Some(Element::Constant(value)) => node.label.atoms().first() == Some(value),
            _ => true,
        };
        let rooted = left.root == node.root || (rule.is_preserving() && node.root);
        first && rooted && (left.mark == mark::ANY || left.mark == node.mark)
    };
    host.live_nodes().map(|(_, node)| node).filter(agrees).count()
}

/// 512 node slots and 1,024 edge slots, with some free ones if so asked. Edges run between near nodes, some from a node to
/// itself and some beside another.
fn full_host(random: &mut Random, gaps: bool) -> Host {
    let free = |random: &mut Random| gaps && random.chance(20);
    let mut host = Host::default();
    for _ in 0..LAYOUT.most_nodes {
        let mut atoms = vec![random.below(40) as i32];
        let more = if random.chance(25) { LAYOUT.atoms } else { 4 };
        atoms.extend((0..random.below(more)).map(|_| random.between(0, 5) as i32 - 2));
        let node = Node {
            mark: random.pick(&[mark::NONE, mark::RED, mark::GREEN, mark::BLUE, mark::GREY]),
            root: random.chance(4),
            label: Label::of(&atoms),
        };
        host.nodes.push((!free(random)).then_some(node));
    }
    for _ in 0..LAYOUT.most_edges {
        let source = random.below(LAYOUT.most_nodes);
        let target = (source + random.below(5)) % LAYOUT.most_nodes;
        let most = if random.chance(15) { LAYOUT.atoms + 1 } else { 3 };
        let atoms: Vec<i32> = (0..random.below(most)).map(|_| random.between(0, 5) as i32 - 2).collect();
        let (source, target) = if random.chance(50) { (source, target) } else { (target, source) };
        let ends_live = host.node(source).is_some() && host.node(target).is_some();
        let edge = Edge {
            mark: random.pick(&[mark::NONE, mark::RED, mark::GREEN, mark::BLUE, mark::DASHED]),
            source: source as u16,
            target: target as u16,
            label: Label::of(&atoms),
        };
        host.edges.push((ends_live && !free(random)).then_some(edge));
    }
    host
}

/// A rule whose left side is a part of the host, mostly; now and then an item is changed so that it fits elsewhere or nowhere.
fn rule_of(random: &mut Random, host: &Host) -> Rule {
    let slots = walk(random, host);
    let mut rule = Rule { mode: draw_mode(random), ..Rule::default() };
    for slot in &slots {
        let node = host.node(*slot).expect("a walk goes over live nodes");
        let mark = if random.chance(15) { mark::ANY } else { node.mark };
        let label = label_of(random, &mut rule.variables, node.label.atoms());
        let root = node.root && !(rule.is_preserving() && random.chance(60));
        rule.left.nodes.push(RuleNode { mark, root, label });
    }
    let place = |end: u16| slots.iter().position(|slot| *slot == usize::from(end));
    for (_, edge) in host.live_edges() {
        let (Some(source), Some(target)) = (place(edge.source), place(edge.target)) else { continue };
        if rule.left.edges.len() == limit::EDGES || random.chance(20) {
            continue;
        }
        let mark = if random.chance(15) { mark::ANY } else { edge.mark };
        let label = label_of(random, &mut rule.variables, edge.label.atoms());
        rule.left.edges.push(RuleEdge { mark, source: source as u8, target: target as u8, label });
    }
    let goes = if random.chance(15) { random.between(1, slots.len()) } else { 0 };
    rule.interface = (slots.len() - goes) as u8;
    spoil(random, &mut rule);
    add_tests(random, &mut rule);
    let kept = rule.left.nodes[..usize::from(rule.interface)].iter();
    rule.right.nodes = kept.map(|node| RuleNode { label: Vec::new(), ..node.clone() }).collect();
    rule
}

/// One to six different nodes, each joined to one before where there is such.
fn walk(random: &mut Random, host: &Host) -> Vec<usize> {
    let live: Vec<usize> = host.live_nodes().map(|(slot, _)| slot).collect();
    let mut slots = vec![random.pick(&live)];
    for _ in 1..random.between(1, limit::NODES) {
        let chosen = |end: u16| slots.contains(&usize::from(end));
        let edges = host.live_edges().filter(|(_, edge)| chosen(edge.source) != chosen(edge.target));
        let near: Vec<usize> =
            edges.map(|(_, edge)| usize::from(if chosen(edge.source) { edge.target } else { edge.source })).collect();
        let far: Vec<usize> = live.iter().copied().filter(|slot| !slots.contains(slot)).collect();
        let apart = near.is_empty() || random.chance(6);
        slots.push(random.pick(if apart { &far } else { &near }));
    }
    slots
}

/// A label that the atoms agree with: a constant at the front mostly, then atoms or a list variable.
fn label_of(random: &mut Random, variables: &mut Vec<VariableType>, atoms: &[i32]) -> Vec<Element> {
    let mut label = Vec::new();
    for (place, atom) in atoms.iter().enumerate() {
        if place > 0 && random.chance(30) {
            if let Some(list) = variable(random, variables, VariableType::List) {
                label.push(list);
                return label;
            }
        }
        let constant = random.chance(if place == 0 { 80 } else { 40 });
        let number = if constant { None } else { variable(random, variables, VariableType::Int) };
        label.push(number.unwrap_or(Element::Constant(*atom)));
    }
    label
}

/// A variable of the type: one that is there, or a new one.
fn variable(random: &mut Random, variables: &mut Vec<VariableType>, kind: VariableType) -> Option<Element> {
    let known: Vec<u8> = (0..variables.len() as u8).filter(|number| variables[usize::from(*number)] == kind).collect();
    if !known.is_empty() && random.chance(25) {
        return Some(Element::Variable(random.pick(&known)));
    }
    (variables.len() < limit::VARIABLES).then(|| {
        variables.push(kind);
        Element::Variable(variables.len() as u8 - 1)
    })
}

/// Now and then another mark, root flag, direction or constant.
fn spoil(random: &mut Random, rule: &mut Rule) {
    if random.chance(70) {
        return;
    }
    let node = random.below(rule.left.nodes.len());
    match random.below(4) {
        0 => rule.left.nodes[node].mark = random.pick(&[mark::NONE, mark::RED, mark::BLUE]),
        1 => rule.left.nodes[node].root = !rule.left.nodes[node].root,
        2 => rule.left.edges.iter_mut().take(1).for_each(|edge| std::mem::swap(&mut edge.source, &mut edge.target)),
        _ => rule.left.nodes[node].label.iter_mut().take(1).for_each(|element| {
            if let Element::Constant(value) = element {
                *value = (*value + 1) % 40;
            }
        }),
    }
}

/// Up to four tests of every kind, negated or not.
fn add_tests(random: &mut Random, rule: &mut Rule) {
    let nodes = rule.left.nodes.len();
    let labels = rule.left.nodes.iter().map(|node| &node.label).chain(rule.left.edges.iter().map(|edge| &edge.label));
    let used: Vec<u8> = labels
        .flatten()
        .filter_map(|element| match element {
            Element::Variable(number) => Some(*number),
            _ => None,
        })
        .collect();
    let ints: Vec<u8> =
        used.into_iter().filter(|number| rule.variables[usize::from(*number)] == VariableType::Int).collect();
    for _ in 0..random.pick(&[0, 0, 0, 1, 1, 3]) {
        let node = random.below(nodes) as u8;
        let kind = match random.below(5) {
            0 => TestKind::Edge(node, random.below(nodes) as u8),
            1 => TestKind::InDegree(node, random.below(4) as u16),
            2 => TestKind::OutDegree(node, random.below(4) as u16),
            kind => {
                let relation = if kind == 3 { Relation::Equal } else { Relation::Less };
                TestKind::Relation(relation, operand(random, &ints), operand(random, &ints))
            }
        };
        rule.tests.push(Test { negated: random.chance(60), kind });
    }
}

fn operand(random: &mut Random, ints: &[u8]) -> Operand {
    if ints.is_empty() || random.chance(40) {
        return Operand::Constant(random.between(0, 6) as i32 - 2);
    }
    Operand::Variable(random.pick(ints))
}
