//! What document 01 says of all runs, held against some ten thousand random small ones.

mod common;
mod ends;
mod report;

use common::{drafts, samples, Draft, Sample, DRAFTS};
use ends::Ends;
use report::numbers;
use second::calls::{run, undo, Outcome};
use second::decode;
use second::exercised::Exercised;
use second::host::Host;
use second::layout::Layout;
use second::matching::{self, first_match, Match, Placement};
use second::random::Random;
use second::tree::Rule;
use std::ops::RangeInclusive;

const BASE: Layout = Layout::BASE;
const RECORD: usize = BASE.record_length();

/// The samples whose runs answer so, with what they leave.
fn answered(answers: RangeInclusive<u32>) -> impl Iterator<Item = (Sample, Outcome)> {
    let run = samples().map(|sample| {
        let outcome = sample.outcome();
        (sample, outcome)
    });
    run.filter(move |(_, outcome)| answers.contains(&outcome.answer))
}

#[test]
fn the_samples_exercise_what_they_should() {
    let mut exercised = Exercised::default();
    let mut answers = [0; 7];
    for draft in drafts() {
        answers[draft.sample().observed(&mut exercised).answer as usize] += 1;
    }
    assert!(answers.iter().all(|count| *count >= 100), "{answers:?}");
    let it = exercised;
    let often = [
        it.applications,
        it.guards_undone,
        it.bodies_undone,
        it.breaks,
        it.calls,
        it.calls_in_calls,
        it.calls_failed,
        it.slots_reused,
        it.dangling_refusals,
        it.tests_true.edge.min(it.tests_false.edge),
        it.tests_true.in_degree.min(it.tests_false.in_degree),
        it.tests_true.out_degree.min(it.tests_false.out_degree),
        it.tests_true.equal.min(it.tests_false.equal),
        it.tests_true.less.min(it.tests_false.less),
        it.negated_tests,
        it.elements.constant,
        it.elements.int_variable,
        it.elements.list_variable,
        it.elements.sum,
        it.elements.difference,
        it.any_marks_matched,
        it.roots_matched,
        it.modes_matched[0].min(it.modes_matched[1]),
        it.unrooted_on_roots,
        it.unrooted_roots_deleted,
        it.root_flags_kept,
    ];
    assert!(often.iter().all(|count| *count >= 100), "{often:?}");
}

#[test]
fn undoing_the_journal_of_a_result_restores_the_tables() {
    for (sample, after) in answered(0..=0) {
        let (_, _, records) = numbers(&after);
        let undone = undo(
            &after.nodes,
            &after.edges,
            &after.journal,
            records,
            &[0xEE; 8],
        );
        let expected = Outcome {
            answer: 0,
            nodes: sample.nodes.clone(),
            edges: sample.edges.clone(),
            journal: vec![0; after.journal.len()],
            report: [[0; 4], records.to_be_bytes()].concat(),
        };
        assert_eq!(undone, expected, "{sample:#?}");
    }
}

fn with_zeros(bytes: &[u8], more: usize) -> Vec<u8> {
    [bytes, &vec![0; more]].concat()
}

#[test]
fn more_room_and_fuel_change_nothing_after_0_1_and_6() {
    for (seed, sample) in samples().enumerate() {
        let outcome = sample.outcome();
        if ![0, 1, 6].contains(&outcome.answer) {
            continue;
        }
        let random = &mut Random::of_index(3, seed as u64);
        let mut more = |bytes: usize, slot: usize, most: usize| {
            let free = most - bytes / slot;
            slot * random.between(0, free.min(9))
        };
        let nodes = more(sample.nodes.len(), BASE.node_length(), BASE.most_nodes);
        let edges = more(sample.edges.len(), BASE.edge_length(), BASE.most_edges);
        let journal = more(sample.records * RECORD, RECORD, BASE.most_records);
        let fuel = sample.fuel + more(sample.fuel as usize, 1, 1_000_000) as u32;
        let larger = run(
            &with_zeros(&sample.nodes, nodes),
            &with_zeros(&sample.edges, edges),
            &vec![0xEE; sample.records * RECORD + journal],
            &sample.image,
            fuel,
            &[0xEE; 8],
        );
        let expected = Outcome {
            nodes: with_zeros(&outcome.nodes, nodes),
            edges: with_zeros(&outcome.edges, edges),
            journal: with_zeros(&outcome.journal, journal),
            ..outcome
        };
        assert_eq!(larger, expected, "{sample:#?}");
    }
}

#[test]
fn less_fuel_than_the_steps_answers_2_and_enough_fuel_changes_nothing() {
    for sample in samples() {
        let outcome = sample.outcome();
        let (_, steps, _) = numbers(&outcome);
        if outcome.answer == 2 {
            assert_eq!(steps, sample.fuel);
        }
        if outcome.answer == 2 || outcome.answer > 7 {
            continue;
        }
        assert!(steps <= sample.fuel);
        for fuel in [0, steps / 2, steps - 1] {
            let less = Sample {
                fuel,
                ..sample.clone()
            };
            let outcome = less.outcome();
            assert_eq!(numbers(&outcome), (2, fuel, 0), "{less:#?}");
        }
        let exact = Sample {
            fuel: steps,
            ..sample.clone()
        };
        assert_eq!(exact.outcome(), outcome, "{exact:#?}");
    }
}

#[test]
fn answers_1_to_6_give_back_the_graph_and_a_zero_journal() {
    for (sample, outcome) in answered(1..=6) {
        assert_eq!(outcome.nodes, sample.nodes);
        assert_eq!(outcome.edges, sample.edges);
        assert_eq!(outcome.journal, vec![0; sample.records * RECORD]);
        assert_eq!(numbers(&outcome).2, 0);
    }
}

#[test]
fn no_application_leaves_an_edge_on_a_free_node() {
    let mut ends = Ends::default();
    for sample in samples() {
        sample.observed(&mut ends);
    }
    assert!(ends.applications >= 10_000, "{}", ends.applications);
}

#[test]
fn a_result_keeps_the_layout_and_its_journal_ends_in_zeros() {
    for (sample, outcome) in answered(0..=0) {
        let host = Host::read(&Layout::BASE, &outcome.nodes, &outcome.edges).expect("the layout");
        assert_eq!(host.node_table(&Layout::BASE), outcome.nodes);
        assert_eq!(host.edge_table(&Layout::BASE), outcome.edges);
        let (_, _, records) = numbers(&outcome);
        assert!(records as usize <= sample.records);
        let (counted, behind) = outcome.journal.split_at(records as usize * RECORD);
        assert!(counted
            .chunks(RECORD)
            .all(|record| [1, 2].contains(&record[0]) && record[1] == 0));
        assert!(behind.iter().all(|byte| *byte == 0));
    }
}

/// The first placement of all slots in order that keeps the six rules, without looking ahead.
fn first_of_all_placements<'h>(rule: &Rule, host: &'h Host) -> Option<Match<'h>> {
    let (nodes, edges) = (rule.left.nodes.len(), rule.left.edges.len());
    let mut slots = vec![0; nodes + edges];
    let bound = |place: usize| match place < nodes {
        true => host.nodes.len(),
        false => host.edges.len(),
    };
    if (0..slots.len()).any(|place| bound(place) == 0) {
        return None;
    }
    loop {
        let placement = Placement {
            nodes: slots[..nodes].to_vec(),
            edges: slots[nodes..].to_vec(),
        };
        if let Some(found) = full_match(rule, host, placement) {
            return Some(found);
        }
        let place = (0..slots.len())
            .rev()
            .find(|place| slots[*place] + 1 < bound(*place))?;
        slots[place] += 1;
        slots[place + 1..].fill(0);
    }
}

fn full_match<'h>(rule: &Rule, host: &'h Host, placement: Placement) -> Option<Match<'h>> {
    let placed = matching::slots_are_live(host, &placement)
        && matching::slots_are_different(&placement)
        && matching::marks_agree(rule, host, &placement)
        && matching::root_flags_agree(rule, host, &placement)
        && matching::sources_and_targets_correspond(rule, host, &placement);
    let values = matching::labels_agree(rule, host, &placement).filter(|_| placed)?;
    let holds = matching::dangling_condition(rule, host, &placement)
        && matching::every_test_holds(rule, host, &placement, &values);
    holds.then_some(Match {
        nodes: placement.nodes,
        edges: placement.edges,
        values,
    })
}

#[test]
fn the_search_finds_the_first_of_all_placements() {
    let (mut found, mut none) = (0, 0);
    for draft in drafts().take(4_000) {
        for rule in &draft.program.rules {
            let first = first_match(rule, &draft.host);
            let expected = first_of_all_placements(rule, &draft.host);
            assert_eq!(first, expected, "{draft:#?}");
            match first {
                Some(_) => found += 1,
                None => none += 1,
            }
        }
    }
    assert!(
        found > 1_000 && none > 1_000,
        "{found} matches, {none} without"
    );
}

#[test]
fn an_image_is_read_back_as_the_tree_it_was_written_from() {
    for draft in drafts() {
        assert_eq!(decode::program(&draft.sample().image), Ok(draft.program));
    }
}

/// The buffers of a run with some bytes changed or a length broken, and its fuel.
struct Damaged {
    given: Outcome,
    program: Vec<u8>,
    fuel: u32,
}

fn damaged(seed: u64) -> Damaged {
    let sample = Draft::new(seed).sample();
    let random = &mut Random::of_index(7, seed);
    let mut damaged = Damaged {
        given: Outcome {
            answer: 0,
            nodes: sample.nodes.clone(),
            edges: sample.edges.clone(),
            journal: vec![0xEE; sample.records * RECORD],
            report: vec![0xEE; 8],
        },
        program: sample.image,
        fuel: sample.fuel,
    };
    for _ in 0..random.between(1, 2) {
        match random.below(12) {
            0 => damaged.fuel = random.next() as u32,
            1 => change_length(random, &mut damaged.given.report),
            2 => change_length(random, &mut damaged.given.nodes),
            3 => change_length(random, &mut damaged.given.edges),
            4 => change_length(random, &mut damaged.given.journal),
            5 => change_length(random, &mut damaged.program),
            6 => change_byte(random, &mut damaged.given.nodes),
            7 => change_byte(random, &mut damaged.given.edges),
            _ => change_byte(random, &mut damaged.program),
        }
    }
    damaged
}

fn change_length(random: &mut Random, bytes: &mut Vec<u8>) {
    let length = random.between(bytes.len().saturating_sub(2), bytes.len() + 2);
    bytes.resize(length, 0);
}

fn change_byte(random: &mut Random, bytes: &mut [u8]) {
    if !bytes.is_empty() {
        let place = random.below(bytes.len());
        bytes[place] = match random.chance(50) {
            true => bytes[place].wrapping_add(1),
            false => random.byte(),
        };
    }
}

#[test]
fn answers_9_to_19_leave_everything_but_the_report() {
    let mut refused = [0; 20];
    for seed in 0..DRAFTS {
        let Damaged {
            given,
            program,
            fuel,
        } = damaged(seed);
        let fuel = if fuel <= 1_000_000 {
            fuel.min(1_000)
        } else {
            fuel
        };
        let outcome = run(
            &given.nodes,
            &given.edges,
            &given.journal,
            &program,
            fuel,
            &given.report,
        );
        refused[outcome.answer as usize] += 1;
        let report = match outcome.answer {
            9 => given.report.clone(),
            10..=19 => vec![0; 8],
            _ => continue,
        };
        let expected = Outcome {
            answer: outcome.answer,
            report,
            ..given
        };
        assert_eq!(outcome, expected);
    }
    assert_eq!((refused[7], refused[8]), (0, 0));
    for answer in [9, 10, 11, 12, 13, 15, 16, 17] {
        assert!(refused[answer] >= 20, "{answer}: {refused:?}");
    }
}

#[test]
fn any_bytes_get_an_answer() {
    for seed in 0..DRAFTS {
        let random = &mut Random::of_index(11, seed);
        let mut bytes = |most: usize| -> Vec<u8> {
            let length = random.below(most + 1);
            (0..length).map(|_| random.byte() & 0x5F).collect()
        };
        let (nodes, edges, journal, program) = (bytes(40), bytes(48), bytes(56), bytes(60));
        let outcome = run(&nodes, &edges, &journal, &program, 100, &[0; 8]);
        assert!([0, 1, 2, 10, 11, 12, 15, 16, 17, 18, 19].contains(&outcome.answer));
        let outcome = undo(&nodes, &edges, &journal, seed as u32 % 3, &[0; 8]);
        assert!([0, 10, 11, 12, 20].contains(&outcome.answer));
    }
}
