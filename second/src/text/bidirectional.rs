//! Bidirectional edges: a rule that has some becomes one rule for each way of directing them.

use super::complaint::Problem;
use super::syntax::{GraphText, RuleText};
use crate::tree::{Rule, RuleEdge, RuleGraph};

/// One copy of the rule for each way of directing its bidirectional left edges: first all as written, then
/// with the last one turned round, and so on like the digits of a counter.
pub fn directed_copies(text: &RuleText, rule: Rule) -> Result<Vec<Rule>, Problem> {
    let turnable = bidirectional_edges(&text.left, &rule.left)?;
    let followers = followers(text, &rule, &turnable)?;
    let copies = 0..1usize << turnable.len();
    Ok(copies
        .map(|copy| directed_copy(&rule, &turnable, &followers, copy))
        .collect())
}

/// A right edge that runs as the left edge at that place of the list of bidirectional ones.
struct Follower {
    right: usize,
    left: usize,
}

fn directed_copy(rule: &Rule, turnable: &[usize], followers: &[Follower], copy: usize) -> Rule {
    let mut directed = rule.clone();
    for (place, edge) in turnable.iter().enumerate() {
        if copy >> (turnable.len() - 1 - place) & 1 == 1 {
            let edge = &mut directed.left.edges[*edge];
            std::mem::swap(&mut edge.source, &mut edge.target);
        }
    }
    for follower in followers {
        let leader = &directed.left.edges[turnable[follower.left]];
        let (source, target) = (leader.source, leader.target);
        let edge = &mut directed.right.edges[follower.right];
        (edge.source, edge.target) = (source, target);
    }
    directed
}

/// The places of the bidirectional edges, each of which joins its own pair of different nodes.
fn bidirectional_edges(text: &GraphText, graph: &RuleGraph) -> Result<Vec<usize>, Problem> {
    let mut found: Vec<usize> = Vec::new();
    for (place, edge) in text
        .edges
        .iter()
        .enumerate()
        .filter(|(_, edge)| edge.bidirectional)
    {
        let ends = &graph.edges[place];
        if ends.source == ends.target {
            let message = "a bidirectional loop, expected two different ends, or no `(B)`";
            return Err(Problem::new(edge.identifier.place, message));
        }
        if found
            .iter()
            .any(|earlier| joins_same_nodes(&graph.edges[*earlier], ends))
        {
            let message =
                "a second bidirectional edge between the same nodes, expected at most one";
            return Err(Problem::new(edge.identifier.place, message));
        }
        found.push(place);
    }
    Ok(found)
}

fn joins_same_nodes(one: &RuleEdge, other: &RuleEdge) -> bool {
    (one.source, one.target) == (other.source, other.target)
        || (one.source, one.target) == (other.target, other.source)
}

/// For each bidirectional right edge, the left one between the same interface nodes.
fn followers(text: &RuleText, rule: &Rule, turnable: &[usize]) -> Result<Vec<Follower>, Problem> {
    let mut followers = Vec::new();
    for right in bidirectional_edges(&text.right, &rule.right)? {
        let edge = &rule.right.edges[right];
        let kept = edge.source < rule.interface && edge.target < rule.interface;
        let leader = turnable
            .iter()
            .position(|left| joins_same_nodes(&rule.left.edges[*left], edge));
        match leader {
            Some(left) if kept => followers.push(Follower { right, left }),
            _ => {
                let message = "a bidirectional right edge without its like, expected a bidirectional left edge between the same interface nodes";
                return Err(Problem::new(
                    text.right.edges[right].identifier.place,
                    message,
                ));
            }
        }
    }
    Ok(followers)
}
