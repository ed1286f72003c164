//! From a rule as written to the rules of the image: nodes get their numbers, interface nodes first, and
//! labels, marks and tests are put in terms of numbers.

use super::bidirectional::directed_copies;
use super::complaint::Problem;
use super::lower_tests::tests;
use super::syntax::*;
use super::variables::Variables;
use crate::tree::*;

/// Node identifiers of one side in the order of the image.
pub struct NodeOrder<'a> {
    identifiers: Vec<&'a str>,
}

impl<'a> NodeOrder<'a> {
    /// The interface in its own order, then the other nodes as written.
    fn new(graph: &'a GraphText, interface: &'a [Name]) -> NodeOrder<'a> {
        let kept = interface.iter().map(|name| name.text.as_str());
        let written = graph.nodes.iter().map(|node| node.identifier.text.as_str());
        let others =
            written.filter(|identifier| !interface.iter().any(|name| name.text == *identifier));
        NodeOrder {
            identifiers: kept.chain(others).collect(),
        }
    }

    pub fn number(&self, node: &Name, graph: &str) -> Result<u8, Problem> {
        match self
            .identifiers
            .iter()
            .position(|identifier| *identifier == node.text)
        {
            Some(number) => Ok(number as u8),
            None => {
                let message = format!(
                    "no node `{}` in the {graph} graph, expected one of its identifiers",
                    node.text
                );
                Err(Problem::new(node.place, message))
            }
        }
    }

    /// The nodes as written, put in the order of the image.
    fn arrange<'g>(&self, graph: &'g GraphText) -> Vec<&'g NodeText> {
        let find = |identifier: &&str| {
            graph
                .nodes
                .iter()
                .find(|node| node.identifier.text == **identifier)
        };
        self.identifiers.iter().filter_map(find).collect()
    }
}

/// The rules that a declaration stands for, in their order.
pub fn rules(text: &RuleText) -> Result<Vec<Rule>, Problem> {
    check_graph(&text.left)?;
    check_graph(&text.right)?;
    check_interface(text)?;
    let mut variables = Variables::of_rule(text)?;
    let left_order = NodeOrder::new(&text.left, &text.interface);
    let right_order = NodeOrder::new(&text.right, &text.interface);
    let left = graph(&text.left, "left", &left_order, |label| {
        variables.left_label(label)
    })?;
    let right = graph(&text.right, "right", &right_order, |label| {
        variables.right_label(label)
    })?;
    check_any_on_right(text)?;
    let tests = match &text.condition {
        Some(condition) => tests(condition, &left_order, &variables)?,
        None => Vec::new(),
    };
    let rule = Rule {
        variables: variables.types(),
        left,
        right,
        interface: text.interface.len() as u8,
        tests,
        mode: text.mode,
    };
    directed_copies(text, rule)
}

fn check_graph(graph: &GraphText) -> Result<(), Problem> {
    if let Some(extra) = graph.nodes.get(limit::NODES) {
        let message = format!(
            "a node too many, expected at most {} in a rule's graph",
            limit::NODES
        );
        return Err(Problem::new(extra.identifier.place, message));
    }
    if let Some(extra) = graph.edges.get(limit::EDGES) {
        let message = format!(
            "an edge too many, expected at most {} in a rule's graph",
            limit::EDGES
        );
        return Err(Problem::new(extra.identifier.place, message));
    }
    check_distinct(graph.nodes.iter().map(|node| &node.identifier), "node")?;
    check_distinct(graph.edges.iter().map(|edge| &edge.identifier), "edge")
}

fn check_distinct<'a>(names: impl Iterator<Item = &'a Name>, kind: &str) -> Result<(), Problem> {
    let mut seen: Vec<&str> = Vec::new();
    for name in names {
        if seen.contains(&name.text.as_str()) {
            let message = format!(
                "the {kind} `{}` twice, expected each identifier once",
                name.text
            );
            return Err(Problem::new(name.place, message));
        }
        seen.push(&name.text);
    }
    Ok(())
}

fn check_interface(text: &RuleText) -> Result<(), Problem> {
    for (graph, side) in [(&text.left, "left"), (&text.right, "right")] {
        for name in &text.interface {
            if !graph
                .nodes
                .iter()
                .any(|node| node.identifier.text == name.text)
            {
                let message = format!("the interface's node `{}` isn't in the {side} graph, expected it on both sides", name.text);
                return Err(Problem::new(name.place, message));
            }
        }
    }
    check_distinct(text.interface.iter(), "interface node")
}

/// The graph of a side, whose labels come to these elements.
fn graph(
    graph: &GraphText,
    side: &str,
    order: &NodeOrder,
    mut elements: impl FnMut(&LabelText) -> Result<Vec<Element>, Problem>,
) -> Result<RuleGraph, Problem> {
    let mut lowered = RuleGraph::default();
    for node in order.arrange(graph) {
        lowered.nodes.push(RuleNode {
            mark: node.label.mark,
            root: node.root,
            label: elements(&node.label)?,
        });
    }
    for edge in &graph.edges {
        let label = elements(&edge.label)?;
        lowered.edges.push(RuleEdge {
            mark: edge.label.mark,
            source: order.number(&edge.source, side)?,
            target: order.number(&edge.target, side)?,
            label,
        });
    }
    Ok(lowered)
}

fn check_any_on_right(text: &RuleText) -> Result<(), Problem> {
    let is_any_on_left = |identifier: &str| {
        let kept = text.interface.iter().any(|name| name.text == identifier);
        kept && text
            .left
            .nodes
            .iter()
            .any(|node| node.identifier.text == identifier && node.label.mark == mark::ANY)
    };
    for node in &text.right.nodes {
        if node.label.mark == mark::ANY && !is_any_on_left(&node.identifier.text) {
            let message = "mark any on the right, expected it only on an interface node that is any on the left";
            return Err(Problem::new(node.label.mark_place, message));
        }
    }
    for edge in &text.right.edges {
        if edge.label.mark == mark::ANY {
            let message = "mark any on a right edge can't be held, expected another mark or none";
            return Err(Problem::new(edge.label.mark_place, message));
        }
    }
    Ok(())
}
