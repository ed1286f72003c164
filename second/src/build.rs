//! Short ways to build rules and commands.

use crate::tree::*;

/// A node that is no root.
pub fn node(mark: u8, label: &[Element]) -> RuleNode {
    RuleNode {
        mark,
        root: false,
        label: label.to_vec(),
    }
}

pub fn root(mark: u8, label: &[Element]) -> RuleNode {
    RuleNode {
        root: true,
        ..node(mark, label)
    }
}

pub fn edge(mark: u8, source: u8, target: u8, label: &[Element]) -> RuleEdge {
    RuleEdge {
        mark,
        source,
        target,
        label: label.to_vec(),
    }
}

/// The nodes and the edges of one side of a rule.
pub type Side = (Vec<RuleNode>, Vec<RuleEdge>);

/// A rule without variables and tests.
pub fn rule(left: Side, right: Side, interface: u8) -> Rule {
    let graph = |(nodes, edges)| RuleGraph { nodes, edges };
    Rule {
        left: graph(left),
        right: graph(right),
        interface,
        ..Rule::default()
    }
}

/// The same, of nodes alone.
pub fn node_rule(left: &[RuleNode], right: &[RuleNode], interface: u8) -> Rule {
    rule((left.to_vec(), vec![]), (right.to_vec(), vec![]), interface)
}

/// The rule with a mode, or without the field.
pub fn with_mode(mode: Option<Mode>, rule: Rule) -> Rule {
    Rule { mode, ..rule }
}

pub fn preserving(rule: Rule) -> Rule {
    with_mode(Some(Mode::Preserving), rule)
}

/// The rule set of one rule.
pub fn call(number: u8) -> Command {
    Command::RuleSet(vec![number])
}

pub fn looped(body: Command) -> Command {
    Command::Loop(Box::new(body))
}

/// A guarded command that undoes its guard's changes.
pub fn if_command(guard: Command, then: Command, other: Command) -> Command {
    guarded(false, guard, then, other)
}

/// A guarded command that keeps a successful guard's changes.
pub fn try_command(guard: Command, then: Command, other: Command) -> Command {
    guarded(true, guard, then, other)
}

pub fn guarded(keep: bool, guard: Command, then: Command, other: Command) -> Command {
    Command::Guarded {
        keep,
        guard: Box::new(guard),
        then: Box::new(then),
        other: Box::new(other),
    }
}
