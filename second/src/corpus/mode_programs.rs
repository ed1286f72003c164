//! Programs over rules of both modes: root flags that a guard or a loop's body gives back, rule sets of both modes, a root that
//! walks into another, and what an author may slip on.

use super::modes::{over, rule_node, unmarked, MODES};
use crate::build::*;
use crate::encode::{edge_slot, node_slot, RunnerInput};
use crate::tree::Command::{Break, Fail, Sequence, Skip};
use crate::tree::*;

pub fn mode_programs() -> Vec<RunnerInput> {
    let mut inputs = Vec::new();
    for rule in preserving_rules() {
        let runs = around(call(0)).into_iter();
        inputs.extend(runs.map(|main| over(three_nodes(), vec![rule.clone()], main)));
    }
    inputs.extend([[0].as_slice(), &[1], &[0, 1], &[1, 0]].map(both_modes));
    for flags in (0..8).map(|set| [1, 2, 4].map(|bit| set & bit != 0)) {
        inputs.extend([None, Some(Mode::Preserving)].map(|mode| walks(mode, flags)));
    }
    inputs.extend(MODES.map(makes_roots));
    inputs.extend(MODES.map(deletes_all));
    inputs.push(deletes_beside_a_loop());
    inputs
}

/// A root, a plain node and a root.
fn three_nodes() -> Vec<u8> {
    unmarked(&[true, false, true])
}

/// Preserving rules for an unmarked node, which becomes red: one for each pair of root flags, one that deletes it, and one that
/// deletes it and makes a new one.
fn preserving_rules() -> Vec<Rule> {
    let (left, right) = (
        |root| [rule_node(mark::NONE, root)],
        |root| [rule_node(mark::RED, root)],
    );
    let flags = [(false, false), (false, true), (true, false), (true, true)];
    let mut rules = flags
        .map(|(l, r)| node_rule(&left(l), &right(r), 1))
        .to_vec();
    rules.push(node_rule(&left(false), &[], 0));
    rules.push(node_rule(&left(false), &right(false), 0));
    rules.into_iter().map(preserving).collect()
}

/// Commands around a call that give its changes back, and some that keep them.
fn around(call: Command) -> [Command; 7] {
    let then = |last| Sequence(vec![call.clone(), last]);
    [
        if_command(call.clone(), Skip, Fail),
        try_command(call.clone(), Skip, Fail),
        try_command(then(Fail), Fail, Skip),
        looped(then(Fail)),
        looped(then(Break)),
        looped(then(call.clone())),
        Sequence(vec![looped(call.clone()), if_command(Skip, Fail, Skip)]),
    ]
}

/// A loop over a set of these rules: 0 is reflecting and marks red, 1 is preserving and marks blue.
fn both_modes(set: &[u8]) -> RunnerInput {
    let to = |mark| node_rule(&[node(mark::NONE, &[])], &[node(mark, &[])], 1);
    let rules = vec![to(mark::RED), preserving(to(mark::BLUE))];
    over(three_nodes(), rules, looped(Command::RuleSet(set.to_vec())))
}

/// A path of three nodes, along whose edges each root moves as far as it can.
fn walks(mode: Option<Mode>, flags: [bool; 3]) -> RunnerInput {
    let (plain, rooted) = (node(mark::NONE, &[]), root(mark::NONE, &[]));
    let along = || vec![edge(mark::NONE, 0, 1, &[])];
    let rule = rule(
        (vec![rooted.clone(), plain.clone()], along()),
        (vec![plain, rooted], along()),
        2,
    );
    let edges = [(0, 1), (1, 2)].map(|(s, t)| edge_slot(mark::NONE, s, t, &[]));
    RunnerInput {
        edges: edges.concat(),
        ..over(
            unmarked(&flags),
            vec![with_mode(mode, rule)],
            looped(call(0)),
        )
    }
}

/// A loop that makes a root of an unrooted node, on one that is none.
fn makes_roots(mode: Option<Mode>) -> RunnerInput {
    let rule = node_rule(&[node(mark::NONE, &[])], &[root(mark::NONE, &[])], 1);
    over(
        unmarked(&[false]),
        vec![with_mode(mode, rule)],
        looped(call(0)),
    )
}

/// A loop that deletes unrooted nodes.
fn deletes_all(mode: Option<Mode>) -> RunnerInput {
    let rule = node_rule(&[node(mark::NONE, &[])], &[], 0);
    over(three_nodes(), vec![with_mode(mode, rule)], looped(call(0)))
}

/// The same once, where the first root has a loop.
fn deletes_beside_a_loop() -> RunnerInput {
    RunnerInput {
        edges: edge_slot(mark::NONE, 0, 0, &[]).to_vec(),
        nodes: [node_slot(mark::NONE, true, &[]); 2].concat(),
        ..deletes_all(Some(Mode::Preserving))
    }
}

#[cfg(test)]
mod tests {
    use super::*;
    use crate::encode::runner_input;
    use crate::listing::listing;

    fn listed(input: &RunnerInput) -> String {
        listing(&runner_input(input))
    }

    /// Mark and root flag of each node that a result has.
    fn nodes(input: &RunnerInput) -> Vec<String> {
        let text = listed(input);
        assert!(text.starts_with("answer 0 "), "{text}");
        let nodes = text.lines().filter_map(|line| line.strip_prefix("node "));
        nodes.map(str::to_string).collect()
    }

    const UNCHANGED: [&str; 3] = ["0 none root", "1 none plain", "2 none root"];

    #[test]
    fn what_is_undone_gives_every_flag_back() {
        for rule in preserving_rules() {
            let after = |number: usize| {
                let main = around(call(0)).into_iter().nth(number).unwrap();
                over(three_nodes(), vec![rule.clone()], main)
            };
            for number in [0, 2, 3] {
                assert_eq!(nodes(&after(number)), UNCHANGED, "{number}: {rule:?}");
            }
            for number in [1, 4, 5] {
                assert_ne!(nodes(&after(number)), UNCHANGED, "{number}: {rule:?}");
            }
            assert!(listed(&after(6)).starts_with("answer 1 "), "{rule:?}");
        }
    }

    #[test]
    fn a_set_of_both_modes_marks_by_the_first_rule_that_matches() {
        let marks = |set: &[u8]| nodes(&both_modes(set));
        assert_eq!(marks(&[0]), ["0 none root", "1 red plain", "2 none root"]);
        assert_eq!(marks(&[1]), ["0 blue root", "1 blue plain", "2 blue root"]);
        assert_eq!(
            marks(&[0, 1]),
            ["0 blue root", "1 red plain", "2 blue root"]
        );
        assert_eq!(
            marks(&[1, 0]),
            ["0 blue root", "1 blue plain", "2 blue root"]
        );
    }

    #[test]
    fn roots_queue_at_the_end_or_walk_into_one() {
        for flags in (0..8).map(|set| [1, 2, 4].map(|bit| set & bit != 0)) {
            let count = flags.iter().filter(|root| **root).count();
            let roots = |mode| {
                let after = nodes(&walks(mode, flags));
                after
                    .iter()
                    .map(|node| node.ends_with("root"))
                    .collect::<Vec<_>>()
            };
            let last = |count: usize| [0, 1, 2].map(|slot| slot + count >= 3);
            assert_eq!(roots(None), last(count), "{flags:?}");
            assert_eq!(
                roots(Some(Mode::Preserving)),
                last(count.min(1)),
                "{flags:?}"
            );
        }
    }

    #[test]
    fn a_preserving_rule_may_do_nothing_for_ever_or_delete_the_root() {
        for mode in [None, Some(Mode::Reflecting)] {
            assert_eq!(nodes(&makes_roots(mode)), ["0 none root"]);
            assert_eq!(nodes(&deletes_all(mode)), ["0 none root", "2 none root"]);
        }
        let preserving = Some(Mode::Preserving);
        assert_eq!(
            listed(&makes_roots(preserving)),
            "answer 2 steps 10 records 0\n"
        );
        assert_eq!(nodes(&deletes_all(preserving)), [""; 0]);
        assert_eq!(nodes(&deletes_beside_a_loop()), ["0 none root"]);
    }
}
