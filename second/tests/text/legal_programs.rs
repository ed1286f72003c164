//! Random legal programs of every shape that an image can have.

use second::build::{guarded, looped};
use second::depth;
use second::encode;
use second::random::Random;
use second::tree::*;

/// A legal program whose image has at most 8,192 bytes.
pub fn program(random: &mut Random) -> Program {
    loop {
        let (rules, items) = random.pick(&[(0, 0), (1, 6), (2, 6), (5, 6), (limit::RULES, 1)]);
        let rules: Vec<Rule> = (0..rules).map(|_| rule(random, items)).collect();
        let count = random.pick(&[0, 0, 0, 1, 3, limit::PROCEDURES]);
        let depth = match count {
            0 => random.pick(&[1, 3, 6, limit::DEPTH]),
            _ => random.pick(&[1, 2, 3, 6]),
        };
        let most = random.pick(&[1, 10, 100, 1000]) / (count + 1);
        let (procedures, main) = commands(random, rules.len(), count, depth, most);
        let program = Program {
            rules,
            procedures,
            main,
        };
        if encode::program(&program).len() <= limit::IMAGE_BYTES && depth::check(&program).is_ok() {
            return program;
        }
    }
}

/// So many procedures and a main command. Each procedure calls those alone that come later in a row of any order.
fn commands(
    random: &mut Random,
    rules: usize,
    count: usize,
    depth: usize,
    most: usize,
) -> (Vec<Command>, Command) {
    let mut row: Vec<u8> = (0..count as u8).collect();
    random.shuffle(&mut row);
    let mut procedures = vec![Command::Skip; count];
    let mut command = |callable: &[u8]| {
        let callable = callable.to_vec();
        let mut commands = Commands {
            random,
            rules,
            callable,
            most,
        };
        commands.command(depth, false)
    };
    for (place, number) in row.iter().enumerate() {
        procedures[usize::from(*number)] = command(&row[place + 1..]);
    }
    (procedures, command(&row))
}

/// Commands over so many rules and these procedures, until `most` were made; then only the smallest follow.
struct Commands<'a> {
    random: &'a mut Random,
    rules: usize,
    callable: Vec<u8>,
    most: usize,
}

impl Commands<'_> {
    fn command(&mut self, depth: usize, in_loop: bool) -> Command {
        let calls = if self.callable.is_empty() { 0 } else { 2 };
        let weights = match depth {
            _ if self.most == 0 => [4, 0, 0, 0, 0, 1, 1, 1, calls],
            1 => [4, 0, 0, 0, 0, 1, 1, 1, calls],
            _ => [2, 3, 1, 1, 3, 1, 1, 1, calls],
        };
        self.most = self.most.saturating_sub(1);
        match self.random.weighted(&weights) {
            0 if self.rules > 0 => self.rule_set(),
            1 => self.sequence(depth, in_loop),
            2 => self.guarded(false, depth, in_loop),
            3 => self.guarded(true, depth, in_loop),
            4 => looped(self.command(depth - 1, true)),
            5 => Command::Fail,
            6 if in_loop => Command::Break,
            8 => Command::Procedure(self.random.pick(&self.callable)),
            _ => Command::Skip,
        }
    }

    fn rule_set(&mut self) -> Command {
        let count = self.random.pick(&[1, 1, 2, 3, limit::RULE_NUMBERS]);
        Command::RuleSet(
            (0..count)
                .map(|_| self.random.below(self.rules) as u8)
                .collect(),
        )
    }

    fn sequence(&mut self, depth: usize, in_loop: bool) -> Command {
        let count = self.random.pick(&[1, 2, 3, limit::COMMANDS]);
        Command::Sequence(
            (0..count)
                .map(|_| self.command(depth - 1, in_loop))
                .collect(),
        )
    }

    fn guarded(&mut self, keep: bool, depth: usize, in_loop: bool) -> Command {
        let guard = self.command(depth - 1, false);
        let then = self.command(depth - 1, in_loop);
        guarded(keep, guard, then, self.command(depth - 1, in_loop))
    }
}

/// What the parts of a rule need to know of its variables.
struct Variables {
    types: Vec<VariableType>,
    on_left: Vec<bool>,
}

impl Variables {
    fn of(&self, wanted: impl Fn(usize) -> bool) -> Vec<u8> {
        let numbers = 0..self.types.len();
        numbers
            .filter(|number| wanted(*number))
            .map(|number| number as u8)
            .collect()
    }

    fn is_int(&self, number: usize) -> bool {
        self.types[number] == VariableType::Int
    }
}

/// A rule whose graphs have at most `items` nodes and as many edges.
fn rule(random: &mut Random, items: usize) -> Rule {
    let types = |random: &mut Random| random.pick(&[VariableType::Int, VariableType::List]);
    let types: Vec<_> = (0..random.below(limit::VARIABLES + 1))
        .map(|_| types(random))
        .collect();
    let mut variables = Variables {
        on_left: vec![false; types.len()],
        types,
    };
    let left = left_graph(random, &mut variables, items);
    let interface = random.below(left.nodes.len() + 1);
    let right = right_graph(random, &variables, &left, interface, items);
    let tests = if left.nodes.is_empty() {
        0
    } else {
        random.below(limit::TESTS + 1)
    };
    let tests = (0..tests)
        .map(|_| test(random, &variables, left.nodes.len()))
        .collect();
    Rule {
        variables: variables.types,
        left,
        right,
        interface: interface as u8,
        tests,
        mode: random.pick(&[None, Some(Mode::Reflecting), Some(Mode::Preserving)]),
    }
}

fn left_graph(random: &mut Random, variables: &mut Variables, items: usize) -> RuleGraph {
    let mut graph = RuleGraph::default();
    for _ in 0..random.below(items + 1) {
        let mark = random.pick(&[0, 1, 2, 3, 4, 6]);
        let label = left_label(random, variables);
        graph.nodes.push(node(random, mark, label));
    }
    for _ in 0..edge_count(random, &graph, items) {
        let mark = random.pick(&[0, 1, 2, 3, 5, 6]);
        let label = left_label(random, variables);
        graph.edges.push(edge(random, &graph, mark, label));
    }
    graph
}

fn right_graph(
    random: &mut Random,
    variables: &Variables,
    left: &RuleGraph,
    interface: usize,
    items: usize,
) -> RuleGraph {
    let mut graph = RuleGraph::default();
    for number in 0..random.between(interface, items) {
        let may_be_any = number < interface && left.nodes[number].mark == mark::ANY;
        let mark = if may_be_any && random.chance(50) {
            mark::ANY
        } else {
            random.below(5) as u8
        };
        let label = right_label(random, variables);
        graph.nodes.push(node(random, mark, label));
    }
    for _ in 0..edge_count(random, &graph, items) {
        let mark = random.pick(&[0, 1, 2, 3, 5]);
        let label = right_label(random, variables);
        graph.edges.push(edge(random, &graph, mark, label));
    }
    graph
}

fn edge_count(random: &mut Random, graph: &RuleGraph, items: usize) -> usize {
    match graph.nodes.len() {
        0 => 0,
        _ => random.below(items + 1),
    }
}

fn node(random: &mut Random, mark: u8, label: Vec<Element>) -> RuleNode {
    let root = random.chance(30);
    RuleNode { mark, root, label }
}

fn edge(random: &mut Random, graph: &RuleGraph, mark: u8, label: Vec<Element>) -> RuleEdge {
    let nodes = graph.nodes.len();
    RuleEdge {
        mark,
        source: random.below(nodes) as u8,
        target: random.below(nodes) as u8,
        label,
    }
}

/// Constants and variables, at most one of them a list.
fn left_label(random: &mut Random, variables: &mut Variables) -> Vec<Element> {
    let mut has_list = false;
    let mut label = Vec::new();
    for _ in 0..random.below(limit::ELEMENTS + 1) {
        let usable = variables.of(|number| variables.is_int(number) || !has_list);
        if usable.is_empty() || random.chance(40) {
            label.push(Element::Constant(constant(random)));
            continue;
        }
        let number = random.pick(&usable);
        has_list |= !variables.is_int(number.into());
        variables.on_left[usize::from(number)] = true;
        label.push(Element::Variable(number));
    }
    label
}

fn right_label(random: &mut Random, variables: &Variables) -> Vec<Element> {
    (0..random.below(limit::ELEMENTS + 1))
        .map(|_| right_element(random, variables))
        .collect()
}

fn right_element(random: &mut Random, variables: &Variables) -> Element {
    let usable = variables.of(|number| variables.on_left[number]);
    match random.below(4) {
        0 => Element::Constant(constant(random)),
        1 => Element::Sum(operand(random, variables), operand(random, variables)),
        2 => Element::Difference(operand(random, variables), operand(random, variables)),
        _ if usable.is_empty() => Element::Constant(constant(random)),
        _ => Element::Variable(random.pick(&usable)),
    }
}

fn operand(random: &mut Random, variables: &Variables) -> Operand {
    let usable = variables.of(|number| variables.on_left[number] && variables.is_int(number));
    if usable.is_empty() || random.chance(40) {
        return Operand::Constant(constant(random));
    }
    Operand::Variable(random.pick(&usable))
}

fn constant(random: &mut Random) -> i32 {
    match random.below(3) {
        0 => random.pick(&[0, 1, -1, i32::MAX, i32::MIN]),
        1 => random.below(200) as i32 - 100,
        _ => random.next() as i32,
    }
}

fn test(random: &mut Random, variables: &Variables, nodes: usize) -> Test {
    let number = |random: &mut Random| match random.below(3) {
        0 => u16::MAX,
        _ => random.below(6) as u16,
    };
    let node = |random: &mut Random| random.below(nodes) as u8;
    let kind = match random.below(4) {
        0 => TestKind::Edge(node(random), node(random)),
        1 => TestKind::InDegree(node(random), number(random)),
        2 => TestKind::OutDegree(node(random), number(random)),
        _ => {
            let relation = random.pick(&[Relation::Equal, Relation::Less]);
            TestKind::Relation(
                relation,
                operand(random, variables),
                operand(random, variables),
            )
        }
    };
    Test {
        negated: random.chance(50),
        kind,
    }
}
