//! Writing a program tree, a runner input and table slots of the base layout as bytes. Nothing of a tree is
//! checked here: an illegal one gives an illegal image, which the refusal tests need.

use crate::layout::Layout;
use crate::tree::*;

/// Tag, two bytes of length, payload. A payload of more than 65,535 bytes can't be written.
pub fn field(tag: u8, payload: &[u8]) -> Vec<u8> {
    let length = u16::try_from(payload.len()).expect("a field holds at most 65,535 bytes");
    let mut bytes = vec![tag];
    bytes.extend(length.to_be_bytes());
    bytes.extend(payload);
    bytes
}

pub fn program(program: &Program) -> Vec<u8> {
    let rules = program.rules.iter().flat_map(rule);
    let procedures = program.procedures.iter().flat_map(procedure);
    let main = command(&program.main);
    rules.chain(procedures).chain(main).collect()
}

/// The field of a procedure with this command.
pub fn procedure(body: &Command) -> Vec<u8> {
    field(0x17, &command(body))
}

pub fn rule(rule: &Rule) -> Vec<u8> {
    field(0x10, &rule_fields(rule).concat())
}

/// The fields of a rule: five, and a sixth where it has a mode.
pub fn rule_fields(rule: &Rule) -> Vec<Vec<u8>> {
    let types: Vec<u8> = rule.variables.iter().map(|t| variable_type(*t)).collect();
    let tests: Vec<u8> = rule.tests.iter().flat_map(test).collect();
    let mut fields = vec![
        field(0x11, &types),
        field(0x12, &graph(&rule.left)),
        field(0x13, &graph(&rule.right)),
        field(0x14, &[rule.interface]),
        field(0x15, &tests),
    ];
    fields.extend(rule.mode.map(|it| field(0x16, &[mode(it)])));
    fields
}

fn mode(mode: Mode) -> u8 {
    match mode {
        Mode::Reflecting => 0,
        Mode::Preserving => 1,
    }
}

fn variable_type(kind: VariableType) -> u8 {
    match kind {
        VariableType::Int => 1,
        VariableType::List => 2,
    }
}

pub fn graph(graph: &RuleGraph) -> Vec<u8> {
    let nodes = graph.nodes.iter().flat_map(node);
    let edges = graph.edges.iter().flat_map(edge);
    nodes.chain(edges).collect()
}

pub fn node(node: &RuleNode) -> Vec<u8> {
    let mut payload = vec![node.mark, node.root as u8];
    payload.extend(node.label.iter().flat_map(element));
    field(0x20, &payload)
}

pub fn edge(edge: &RuleEdge) -> Vec<u8> {
    let mut payload = vec![edge.mark, edge.source, edge.target];
    payload.extend(edge.label.iter().flat_map(element));
    field(0x21, &payload)
}

pub fn element(element: &Element) -> Vec<u8> {
    match element {
        Element::Constant(value) => operand(&Operand::Constant(*value)),
        Element::Variable(index) => operand(&Operand::Variable(*index)),
        Element::Sum(a, b) => field(0x32, &[operand(a), operand(b)].concat()),
        Element::Difference(a, b) => field(0x33, &[operand(a), operand(b)].concat()),
    }
}

pub fn operand(operand: &Operand) -> Vec<u8> {
    match operand {
        Operand::Constant(value) => field(0x30, &value.to_be_bytes()),
        Operand::Variable(index) => field(0x31, &[*index]),
    }
}

pub fn test(test: &Test) -> Vec<u8> {
    let mut payload = vec![test.negated as u8];
    let tag = match test.kind {
        TestKind::Edge(a, b) => {
            payload.extend([a, b]);
            0x40
        }
        TestKind::InDegree(node, number) => {
            payload.push(node);
            payload.extend(number.to_be_bytes());
            0x41
        }
        TestKind::OutDegree(node, number) => {
            payload.push(node);
            payload.extend(number.to_be_bytes());
            0x42
        }
        TestKind::Relation(relation, a, b) => {
            payload.push(match relation {
                Relation::Equal => 1,
                Relation::Less => 2,
            });
            payload.extend(operand(&a));
            payload.extend(operand(&b));
            0x43
        }
    };
    field(tag, &payload)
}

pub fn command(tree: &Command) -> Vec<u8> {
    match tree {
        Command::RuleSet(numbers) => field(0x50, numbers),
        Command::Sequence(parts) => field(0x51, &parts.iter().flat_map(command).collect::<Vec<u8>>()),
        Command::Guarded { keep, guard, then, other } => {
            let keep = vec![u8::from(*keep)];
            field(0x59, &[keep, command(guard), command(then), command(other)].concat())
        }
        Command::Loop(body) => field(0x54, &command(body)),
        Command::Skip => field(0x55, &[]),
        Command::Fail => field(0x56, &[]),
        Command::Break => field(0x57, &[]),
        Command::Procedure(number) => field(0x58, &[*number]),
    }
}

/// A live node slot of the base layout.
pub fn node_slot(mark: u8, root: bool, atoms: &[i32]) -> [u8; Layout::BASE.node_length()] {
    let slot = Layout::BASE.node_slot(mark, root, atoms);
    slot.try_into().expect("a slot has its length")
}

/// A live edge slot of the base layout.
pub fn edge_slot(
    mark: u8,
    source: u16,
    target: u16,
    atoms: &[i32],
) -> [u8; Layout::BASE.edge_length()] {
    let slot = Layout::BASE.edge_slot(mark, source, target, atoms);
    slot.try_into().expect("a slot has its length")
}

/// What the runner reads: both tables, the number of journal records, the fuel, the program.
#[derive(Clone, Debug, PartialEq, Eq)]
pub struct RunnerInput {
    pub nodes: Vec<u8>,
    pub edges: Vec<u8>,
    pub records: u16,
    pub fuel: u32,
    pub program: Vec<u8>,
}

pub fn runner_input(input: &RunnerInput) -> Vec<u8> {
    runner_fields(input).concat()
}

/// The five fields of a runner input.
pub fn runner_fields(input: &RunnerInput) -> Vec<Vec<u8>> {
    vec![
        field(0x01, &input.nodes),
        field(0x02, &input.edges),
        field(0x03, &input.records.to_be_bytes()),
        field(0x04, &input.fuel.to_be_bytes()),
        field(0x05, &input.program),
    ]
}
