//! A program tree as text that assembles to the same tree: procedures P0, P1, .., rules r0, r1, .., variables i0 or x0 by
//! their type, nodes n0, n1, .., edges e0, e1, ..

use super::print_commands::{declaration, procedure_name};
use crate::tree::*;

pub fn program_text(program: &Program) -> String {
    let mut text = declaration("Main", &program.main);
    for (number, body) in program.procedures.iter().enumerate() {
        text.push_str(&declaration(&procedure_name(number), body));
    }
    for (number, rule) in program.rules.iter().enumerate() {
        text.push('\n');
        text.push_str(&rule_text(number, rule));
    }
    text
}

fn rule_text(number: usize, rule: &Rule) -> String {
    let printer = RulePrinter { rule };
    let interface: Vec<String> = (0..rule.interface).map(|node| format!("n{node}")).collect();
    let mut text = format!(
        "r{number}({})\n{}\n=>\n{}\ninterface = {{{}}}\n",
        printer.variables(),
        printer.graph(&rule.left, |node| node),
        printer.graph(&rule.right, |node| printer.right_node(node)),
        interface.join(", "),
    );
    if !rule.tests.is_empty() {
        let tests: Vec<String> = rule.tests.iter().map(|test| printer.test(test)).collect();
        text.push_str(&format!("where {}\n", tests.join(" and ")));
    }
    text.push_str(match rule.mode {
        None => "",
        Some(Mode::Reflecting) => "roots = reflecting\n",
        Some(Mode::Preserving) => "roots = preserving\n",
    });
    text
}

struct RulePrinter<'a> {
    rule: &'a Rule,
}

impl RulePrinter<'_> {
    /// Variables in their order, those of one type that follow each other under one type.
    fn variables(&self) -> String {
        let numbers: Vec<u8> = (0..self.rule.variables.len() as u8).collect();
        let same_type = |a: &u8, b: &u8| self.kind(*a) == self.kind(*b);
        let groups: Vec<String> = numbers
            .chunk_by(same_type)
            .map(|group| {
                let names: Vec<String> =
                    group.iter().map(|number| self.variable(*number)).collect();
                let kind = match self.kind(group[0]) {
                    VariableType::Int => "int",
                    VariableType::List => "list",
                };
                format!("{}: {kind}", names.join(", "))
            })
            .collect();
        groups.join("; ")
    }

    fn kind(&self, variable: u8) -> VariableType {
        self.rule.variables[usize::from(variable)]
    }

    fn variable(&self, number: u8) -> String {
        match self.kind(number) {
            VariableType::Int => format!("i{number}"),
            VariableType::List => format!("x{number}"),
        }
    }

    /// A new node of the right graph has a number behind those of the left graph.
    fn right_node(&self, number: u8) -> u8 {
        if number < self.rule.interface {
            return number;
        }
        number - self.rule.interface + self.rule.left.nodes.len() as u8
    }

    fn graph(&self, graph: &RuleGraph, name: impl Fn(u8) -> u8) -> String {
        let mut words = vec!["[".to_string()];
        for (number, node) in graph.nodes.iter().enumerate() {
            let root = if node.root { "(R)" } else { "" };
            let label = self.label(&node.label, node.mark);
            words.push(format!("(n{}{root}, {label})", name(number as u8)));
        }
        words.push("|".to_string());
        for (number, edge) in graph.edges.iter().enumerate() {
            let (source, target) = (name(edge.source), name(edge.target));
            let label = self.label(&edge.label, edge.mark);
            words.push(format!("(e{number}, n{source}, n{target}, {label})"));
        }
        words.push("]".to_string());
        words.join(" ")
    }

    fn label(&self, elements: &[Element], mark: u8) -> String {
        let elements: Vec<String> = elements
            .iter()
            .map(|element| self.element(element))
            .collect();
        with_mark(&elements, mark)
    }

    fn element(&self, element: &Element) -> String {
        match element {
            Element::Constant(value) => value.to_string(),
            Element::Variable(number) => self.variable(*number),
            Element::Sum(a, b) => format!("{}+{}", self.operand(a), self.operand(b)),
            Element::Difference(a, b) => format!("{}-{}", self.operand(a), self.operand(b)),
        }
    }

    fn operand(&self, operand: &Operand) -> String {
        match operand {
            Operand::Constant(value) => value.to_string(),
            Operand::Variable(number) => self.variable(*number),
        }
    }

    fn test(&self, test: &Test) -> String {
        let (not, equal) = if test.negated {
            ("not ", "!=")
        } else {
            ("", "=")
        };
        match &test.kind {
            TestKind::Edge(a, b) => format!("{not}edge(n{a}, n{b})"),
            TestKind::InDegree(node, number) => format!("indeg(n{node}) {equal} {number}"),
            TestKind::OutDegree(node, number) => format!("outdeg(n{node}) {equal} {number}"),
            TestKind::Relation(relation, a, b) => {
                let (a, b) = (self.operand(a), self.operand(b));
                match relation {
                    Relation::Equal => format!("{a} {equal} {b}"),
                    Relation::Less if test.negated => format!("{a} >= {b}"),
                    Relation::Less => format!("{a} < {b}"),
                }
            }
        }
    }
}

/// A label of these elements with its mark.
pub fn with_mark(elements: &[String], mark: u8) -> String {
    let list = if elements.is_empty() {
        "empty".to_string()
    } else {
        elements.join(":")
    };
    match mark {
        mark::NONE => list,
        marked => format!("{list} # {}", mark::NAMES[usize::from(marked)]),
    }
}
