//! Applications of rules of every mode: each set of root flags that a left, a right and a host node can have, and which of
//! several roots a left node takes.

use crate::build::*;
use crate::encode::{self, node_slot, RunnerInput};
use crate::tree::*;

pub fn modes() -> Vec<RunnerInput> {
    let mut inputs: Vec<RunnerInput> = every_one_node().into_iter().map(on_one_node).collect();
    inputs.extend(every_two_nodes().into_iter().map(on_two_nodes));
    inputs
}

/// Without a mode, and with each.
pub const MODES: [Option<Mode>; 3] = [None, Some(Mode::Reflecting), Some(Mode::Preserving)];

const FLAGS: [bool; 2] = [false, true];

/// A run of these rules, with ample fuel and journal.
pub fn over(nodes: Vec<u8>, rules: Vec<Rule>, main: Command) -> RunnerInput {
    RunnerInput {
        nodes,
        edges: vec![],
        records: 10,
        fuel: 10,
        program: encode::program(&Program::without_procedures(rules, main)),
    }
}

/// Unmarked, unlabelled nodes, which are roots where a flag says so.
pub fn unmarked(flags: &[bool]) -> Vec<u8> {
    let slots = flags.iter().map(|root| node_slot(mark::NONE, *root, &[]));
    slots.collect::<Vec<_>>().concat()
}

pub fn rule_node(mark: u8, root: bool) -> RuleNode {
    RuleNode {
        root,
        ..node(mark, &[])
    }
}

/// What becomes of the one left node.
#[derive(Clone, Copy, Debug, PartialEq, Eq)]
enum Fate {
    Kept,
    Deleted,
    /// It is deleted, and a new node with its number takes its slot.
    Replaced,
}

/// A rule of one left node, and the root flags of that node, of the right node and of the host node.
#[derive(Clone, Copy, Debug)]
struct OneNode {
    mode: Option<Mode>,
    fate: Fate,
    left: bool,
    right: bool,
    host: bool,
}

fn every_one_node() -> Vec<OneNode> {
    let mut every = Vec::new();
    for mode in MODES {
        for fate in [Fate::Kept, Fate::Deleted, Fate::Replaced] {
            for set in 0..8 {
                let has = |bit: u8| set & bit != 0;
                every.push(OneNode {
                    mode,
                    fate,
                    left: has(1),
                    right: has(2),
                    host: has(4),
                });
            }
        }
    }
    every.retain(|it| it.fate != Fate::Deleted || !it.right);
    every
}

/// The unmarked node in slot 1, between two grey roots, becomes red, is deleted or is replaced by a red one.
fn on_one_node(it: OneNode) -> RunnerInput {
    let left = [rule_node(mark::NONE, it.left)];
    let right = [rule_node(mark::RED, it.right)];
    let rule = match it.fate {
        Fate::Kept => node_rule(&left, &right, 1),
        Fate::Deleted => node_rule(&left, &[], 0),
        Fate::Replaced => node_rule(&left, &right, 0),
    };
    let grey = node_slot(mark::GREY, true, &[]);
    let nodes = [grey, node_slot(mark::NONE, it.host, &[]), grey].concat();
    over(nodes, vec![with_mode(it.mode, rule)], call(0))
}

/// A rule that marks its two left nodes red and blue, with their root flags, and those of three host nodes.
#[derive(Clone, Copy, Debug)]
struct TwoNodes {
    mode: Option<Mode>,
    left: [bool; 2],
    host: [bool; 3],
}

/// Two roots or three in the host.
fn every_two_nodes() -> Vec<TwoNodes> {
    let mut every = Vec::new();
    for mode in [None, Some(Mode::Preserving)] {
        for left in FLAGS.into_iter().flat_map(|a| FLAGS.map(|b| [a, b])) {
            for plain in [None, Some(0), Some(1), Some(2)] {
                let host = [0, 1, 2].map(|slot| plain != Some(slot));
                every.push(TwoNodes { mode, left, host });
            }
        }
    }
    every
}

fn on_two_nodes(it: TwoNodes) -> RunnerInput {
    let marked = |marks: [u8; 2]| [0, 1].map(|k| rule_node(marks[k], it.left[k]));
    let (left, right) = (marked([mark::NONE; 2]), marked([mark::RED, mark::BLUE]));
    let rule = with_mode(it.mode, node_rule(&left, &right, 2));
    over(unmarked(&it.host), vec![rule], call(0))
}

#[cfg(test)]
mod tests {
    use super::*;
    use crate::host::{Host, Node};
    use crate::layout::Layout;
    use crate::listing::run_input;

    /// The nodes after a run that gives a result.
    fn nodes_after(input: &RunnerInput) -> Option<Vec<Option<Node>>> {
        let outcome = run_input(input);
        assert!(outcome.answer <= 1, "answer {}", outcome.answer);
        let host = Host::read(&Layout::BASE, &outcome.nodes, &outcome.edges).unwrap();
        (outcome.answer == 0).then_some(host.nodes)
    }

    fn agrees(mode: Option<Mode>, left: bool, host: bool) -> bool {
        (mode == Some(Mode::Preserving) && !left) || left == host
    }

    #[test]
    fn one_node_matches_where_flags_agree_and_takes_the_flag_that_it_should() {
        for it in every_one_node() {
            let keeps =
                it.fate == Fate::Kept && it.mode == Some(Mode::Preserving) && !it.left && !it.right;
            let flag = if keeps { it.host } else { it.right };
            let red = (it.fate != Fate::Deleted).then_some((mark::RED, flag));
            let expected = agrees(it.mode, it.left, it.host).then_some(red);
            let found = nodes_after(&on_one_node(it))
                .map(|nodes| nodes[1].as_ref().map(|node| (node.mark, node.root)));
            assert_eq!(found, expected, "{it:?}");
        }
    }

    /// The lowest two different slots that agree.
    fn lowest(it: &TwoNodes) -> Option<[usize; 2]> {
        let pairs = (0..3).flat_map(|a| (0..3).map(move |b| [a, b]));
        pairs.into_iter().find(|[a, b]| {
            let fits = |k: usize, slot: usize| agrees(it.mode, it.left[k], it.host[slot]);
            a != b && fits(0, *a) && fits(1, *b)
        })
    }

    #[test]
    fn two_nodes_take_the_lowest_slots_that_agree_and_every_flag_stays() {
        let mut matched = 0;
        for it in every_two_nodes() {
            let input = on_two_nodes(it);
            let Some([red, blue]) = lowest(&it) else {
                assert_eq!(nodes_after(&input), None, "{it:?}");
                continue;
            };
            let nodes = nodes_after(&input).expect("a match");
            let marks = [0, 1, 2].map(|slot| nodes[slot].as_ref().unwrap().mark);
            let roots = [0, 1, 2].map(|slot| nodes[slot].as_ref().unwrap().root);
            assert_eq!((marks[red], marks[blue]), (mark::RED, mark::BLUE), "{it:?}");
            assert_eq!(roots, it.host, "{it:?}");
            matched += 1;
        }
        assert!(matched > 20, "{matched}");
    }
}
