//! Small random runs: a host, rules sampled from it so that they tend to match, procedures and a command tree. Beside them, runs of a
//! corpus.

use second::build::{guarded, looped};
use second::calls::{Outcome, RunCall};
use second::corpus;
use second::encode::{self, RunnerInput};
use second::host::{Edge, Host, Label, Node};
use second::layout::Layout;
use second::listing::read_input;
use second::observer::{Observer, Unobserved};
use second::random::Random;
use second::tree::*;

pub const DRAFTS: u64 = 10_000;
const CORPUS_SEED: u64 = 20;
const CORPUS_IMAGES: u64 = 2_300;

pub fn drafts() -> impl Iterator<Item = Draft> {
    (0..DRAFTS).map(Draft::new)
}

/// The drafts, and the inputs of a corpus that a run takes less than ten thousand steps for.
pub fn samples() -> impl Iterator<Item = Sample> {
    let corpus = corpus::images(CORPUS_SEED, CORPUS_IMAGES).into_iter();
    let inputs = corpus.filter_map(|image| read_input(&image));
    let inputs = inputs.filter(|input| input.fuel < 10_000);
    let drafts = drafts().map(|draft| draft.sample());
    drafts.chain(inputs.map(Sample::of_input))
}

/// What a run is given, but for the report and the journal's bytes.
#[derive(Clone, Debug)]
pub struct Sample {
    pub nodes: Vec<u8>,
    pub edges: Vec<u8>,
    pub image: Vec<u8>,
    pub fuel: u32,
    pub records: usize,
}

impl Sample {
    pub fn of_input(input: RunnerInput) -> Sample {
        Sample {
            nodes: input.nodes,
            edges: input.edges,
            image: input.program,
            fuel: input.fuel,
            records: input.records.into(),
        }
    }

    /// The outcome of a run whose journal and report hold something beforehand.
    pub fn outcome(&self) -> Outcome {
        self.observed(&mut Unobserved)
    }

    pub fn observed(&self, observer: &mut dyn Observer) -> Outcome {
        let call = RunCall {
            nodes: self.nodes.clone(),
            edges: self.edges.clone(),
            journal: vec![0xEE; self.records * Layout::BASE.record_length()],
            program: self.image.clone(),
            fuel: self.fuel,
            report: vec![0xEE; 8],
        };
        call.outcome_at(&Layout::BASE, observer)
    }
}

/// A sample before it is written as bytes.
#[derive(Clone, Debug)]
pub struct Draft {
    pub host: Host,
    pub program: Program,
    pub fuel: u32,
    pub records: usize,
}

impl Draft {
    pub fn new(seed: u64) -> Draft {
        let random = &mut Random::of_index(0x5EC0, seed);
        let host = host(random);
        let rules: Vec<Rule> = (0..random.between(1, 4))
            .map(|_| rule(random, &host))
            .collect();
        let count = random.pick(&[0, 0, 1, 2, 3]);
        let names = |procedures: usize| Names {
            rules: rules.len(),
            procedures,
        };
        let procedures = (0..count)
            .map(|number| command(random, &names(number), 4, false))
            .collect();
        let main = command(random, &names(count), 4, false);
        let fuel = match random.below(4) {
            0 => random.between(0, 6),
            _ => random.between(7, 80),
        };
        Draft {
            host,
            program: Program {
                rules,
                procedures,
                main,
            },
            fuel: fuel as u32,
            records: random.pick(&[2, 8, 20, 40, 60, 80]),
        }
    }

    pub fn sample(&self) -> Sample {
        Sample {
            nodes: self.host.node_table(&Layout::BASE),
            edges: self.host.edge_table(&Layout::BASE),
            image: encode::program(&self.program),
            fuel: self.fuel,
            records: self.records,
        }
    }
}

fn host(random: &mut Random) -> Host {
    let mut host = Host::default();
    for _ in 0..random.between(0, 6) {
        let node = random.chance(75).then(|| host_node(random));
        host.nodes.push(node);
    }
    let live: Vec<usize> = host.live_nodes().map(|(slot, _)| slot).collect();
    for _ in 0..random.between(0, 8) {
        let edge = (!live.is_empty() && random.chance(65)).then(|| host_edge(random, &live));
        host.edges.push(edge);
    }
    host.nodes.resize(host.nodes.len() + random.below(3), None);
    host
}

fn host_node(random: &mut Random) -> Node {
    Node {
        mark: random.pick(&[0, 0, 0, 0, 1, 2, 3, 4]),
        root: random.chance(40),
        label: host_label(random),
    }
}

fn host_edge(random: &mut Random, live: &[usize]) -> Edge {
    Edge {
        mark: random.pick(&[0, 0, 0, 0, 1, 2, 3, 5]),
        source: random.pick(live) as u16,
        target: random.pick(live) as u16,
        label: host_label(random),
    }
}

fn host_label(random: &mut Random) -> Label {
    let length = random.weighted(&[48, 24, 9, 8, 4, 2, 1, 1, 3]);
    let atoms: Vec<i32> = (0..length).map(|_| atom(random)).collect();
    Label::of(&atoms)
}

fn atom(random: &mut Random) -> i32 {
    random.pick(&[0, 0, 1, 1, 2, 3, -1, i32::MAX, i32::MIN])
}

/// A rule under construction, with the values that its variables have in the sampled graph.
struct Sampling<'a> {
    random: &'a mut Random,
    mode: Option<Mode>,
    types: Vec<VariableType>,
    values: Vec<Vec<i32>>,
}

fn rule(random: &mut Random, host: &Host) -> Rule {
    let (nodes, edges) = sampled_slots(random, host);
    let (reflecting, preserving) = (Some(Mode::Reflecting), Some(Mode::Preserving));
    let mode = random.pick(&[None, None, None, reflecting, preserving, preserving]);
    let mut sampling = Sampling {
        random,
        mode,
        types: vec![],
        values: vec![],
    };
    let left = sampling.left(host, &nodes, &edges);
    let interface = match sampling.random.chance(60) {
        true => nodes.len(),
        false => sampling.random.between(0, nodes.len()),
    };
    let right = sampling.right(&left, interface);
    let tests = sampling.tests(left.nodes.len());
    Rule {
        variables: sampling.types,
        left,
        right,
        interface: interface as u8,
        tests,
        mode,
    }
}

/// Some live nodes in any order, and some of the edges between them.
fn sampled_slots(random: &mut Random, host: &Host) -> (Vec<usize>, Vec<usize>) {
    let mut nodes: Vec<usize> = host.live_nodes().map(|(slot, _)| slot).collect();
    random.shuffle(&mut nodes);
    nodes.truncate(random.weighted(&[5, 40, 40, 15]));
    let between =
        |edge: &Edge| nodes.contains(&edge.source.into()) && nodes.contains(&edge.target.into());
    let edges = host.live_edges().filter(|(_, edge)| between(edge));
    let mut edges: Vec<usize> = edges.map(|(slot, _)| slot).collect();
    edges.retain(|_| random.chance(75));
    random.shuffle(&mut edges);
    edges.truncate(3);
    (nodes, edges)
}

impl Sampling<'_> {
    fn left(&mut self, host: &Host, nodes: &[usize], edges: &[usize]) -> RuleGraph {
        let mut graph = RuleGraph::default();
        for slot in nodes {
            let node = host.node(*slot).expect("a live node");
            graph.nodes.push(RuleNode {
                mark: self.left_mark(node.mark),
                root: self.left_root(node.root),
                label: self.left_label(node.label.atoms()),
            });
        }
        let number_of = |slot: u16| nodes.iter().position(|node| *node == slot.into());
        for slot in edges {
            let edge = host.edge(*slot).expect("a live edge");
            graph.edges.push(RuleEdge {
                mark: self.left_mark(edge.mark),
                source: number_of(edge.source).expect("a sampled node") as u8,
                target: number_of(edge.target).expect("a sampled node") as u8,
                label: self.left_label(edge.label.atoms()),
            });
        }
        graph
    }

    /// The host's flag mostly; that of a root in a preserving rule seldom.
    fn left_root(&mut self, host: bool) -> bool {
        match host && self.mode == Some(Mode::Preserving) {
            true => self.random.chance(20),
            false => host != self.random.chance(3),
        }
    }

    fn left_mark(&mut self, host: u8) -> u8 {
        match self.random.below(100) {
            0..=24 => mark::ANY,
            25..=29 => mark::BLUE,
            _ => host,
        }
    }

    /// A label that agrees with these atoms, mostly.
    fn left_label(&mut self, atoms: &[i32]) -> Vec<Element> {
        let mut label = Vec::new();
        let list = self.random.chance(50).then(|| {
            let start = self.random.between(0, atoms.len());
            start..self.random.between(start, atoms.len())
        });
        let list = list.filter(|taken| !taken.is_empty() || atoms.len() < limit::ELEMENTS);
        let (before, behind) = match &list {
            Some(taken) => (&atoms[..taken.start], &atoms[taken.end..]),
            None => (atoms, &[][..]),
        };
        before
            .iter()
            .for_each(|atom| label.push(self.left_atom(*atom)));
        if let Some(taken) = list {
            label.extend(self.variable(VariableType::List, &atoms[taken]));
        }
        behind
            .iter()
            .for_each(|atom| label.push(self.left_atom(*atom)));
        label
    }

    fn left_atom(&mut self, atom: i32) -> Element {
        let variable = match self.random.chance(70) {
            true => self.variable(VariableType::Int, &[atom]),
            false => None,
        };
        variable.unwrap_or(Element::Constant(atom))
    }

    /// A variable of this type and value: an earlier one, or a new one while there is room.
    fn variable(&mut self, kind: VariableType, atoms: &[i32]) -> Option<Element> {
        let earlier = (0..self.types.len())
            .find(|number| self.types[*number] == kind && self.values[*number] == atoms);
        if let Some(number) = earlier.filter(|_| self.random.chance(50)) {
            return Some(Element::Variable(number as u8));
        }
        if self.types.len() == limit::VARIABLES {
            return None;
        }
        self.types.push(kind);
        self.values.push(atoms.to_vec());
        Some(Element::Variable(self.types.len() as u8 - 1))
    }

    fn right(&mut self, left: &RuleGraph, interface: usize) -> RuleGraph {
        let mut graph = RuleGraph::default();
        for node in &left.nodes[..interface] {
            let mark = match node.mark == mark::ANY && self.random.chance(50) {
                true => mark::ANY,
                false => self.random.pick(&[0, 0, 1, 2, 3, 4]),
            };
            graph.nodes.push(RuleNode {
                mark,
                root: node.root != self.random.chance(15),
                label: self.right_label(&node.label),
            });
        }
        for _ in 0..self.random.weighted(&[60, 30, 10]) {
            graph.nodes.push(RuleNode {
                mark: self.random.pick(&[0, 0, 1, 2, 3, 4]),
                root: self.random.chance(15),
                label: self.right_label(&[]),
            });
        }
        let edges = match graph.nodes.len() {
            0 => 0,
            _ => self.random.weighted(&[40, 35, 20, 5]),
        };
        for _ in 0..edges {
            graph.edges.push(RuleEdge {
                mark: self.random.pick(&[0, 0, 1, 2, 3, 5]),
                source: self.random.below(graph.nodes.len()) as u8,
                target: self.random.below(graph.nodes.len()) as u8,
                label: self.right_label(&[]),
            });
        }
        graph
    }

    fn right_label(&mut self, left: &[Element]) -> Vec<Element> {
        if self.random.chance(40) {
            return left.to_vec();
        }
        let length = self.random.weighted(&[34, 34, 18, 7, 2, 1, 1, 1, 2]);
        (0..length).map(|_| self.right_element()).collect()
    }

    fn right_element(&mut self) -> Element {
        match self.random.below(5) {
            0 => Element::Constant(atom(self.random)),
            1 => Element::Sum(self.operand(), self.operand()),
            2 => Element::Difference(self.operand(), self.operand()),
            _ if self.types.is_empty() => Element::Constant(7),
            _ => Element::Variable(self.random.below(self.types.len()) as u8),
        }
    }

    fn operand(&mut self) -> Operand {
        let ints: Vec<usize> = (0..self.types.len())
            .filter(|number| self.types[*number] == VariableType::Int)
            .collect();
        match ints.is_empty() || self.random.chance(40) {
            true => Operand::Constant(self.random.pick(&[0, 1, 1, 2, -1, i32::MAX])),
            false => Operand::Variable(self.random.pick(&ints) as u8),
        }
    }

    fn tests(&mut self, nodes: usize) -> Vec<Test> {
        let count = self.random.weighted(&[60, 25, 15]);
        (0..count).map(|_| self.test(nodes)).collect()
    }

    fn test(&mut self, nodes: usize) -> Test {
        let negated = self.random.chance(50);
        let number = self.random.weighted(&[30, 40, 20, 10]) as u16;
        let kind = match self.random.below(4) {
            0 if nodes > 0 => {
                let (a, b) = (self.random.below(nodes), self.random.below(nodes));
                TestKind::Edge(a as u8, b as u8)
            }
            1 if nodes > 0 => TestKind::InDegree(self.random.below(nodes) as u8, number),
            2 if nodes > 0 => TestKind::OutDegree(self.random.below(nodes) as u8, number),
            _ => {
                let relation = self.random.pick(&[Relation::Equal, Relation::Less]);
                TestKind::Relation(relation, self.operand(), self.operand())
            }
        };
        Test { negated, kind }
    }
}

/// What a command may name: so many rules and so many procedures. A procedure names lower ones alone, and with four levels each main
/// command and three procedures come to sixteen.
struct Names {
    rules: usize,
    procedures: usize,
}

/// A command of at most this depth, a small one in 3 of 10 draws; `in_body` where a break may stand.
fn command(random: &mut Random, names: &Names, depth: usize, in_body: bool) -> Command {
    if depth == 1 || random.chance(30) {
        return small_command(random, names, in_body);
    }
    let inner = |random: &mut Random, in_body: bool| command(random, names, depth - 1, in_body);
    match random.below(10) {
        0..=4 => {
            let count = random.between(1, 4);
            Command::Sequence((0..count).map(|_| inner(random, in_body)).collect())
        }
        kind @ 5..=6 => guarded(
            kind == 6,
            inner(random, false),
            inner(random, in_body),
            inner(random, in_body),
        ),
        _ => looped(inner(random, true)),
    }
}

fn small_command(random: &mut Random, names: &Names, in_body: bool) -> Command {
    match random.below(10) {
        0 => Command::Skip,
        1 => Command::Fail,
        2 if in_body => Command::Break,
        3..=5 if names.procedures > 0 => Command::Procedure(random.below(names.procedures) as u8),
        _ => {
            let count = random.between(1, 3);
            Command::RuleSet(
                (0..count)
                    .map(|_| random.below(names.rules) as u8)
                    .collect(),
            )
        }
    }
}
