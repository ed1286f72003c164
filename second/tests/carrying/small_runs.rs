//! A program on the small core, and on the wide core from the same graph packed back with as many or more slots and records: what
//! answers 0 or 1 on the small one gives the same on the wide one.

use super::report::numbers;
use second::calls::{Outcome, UndoCall};
use second::carrying::{CarryCall, Way};
use second::corpus;
use second::encode::RunnerInput;
use second::host::Host;
use second::layout::{Core, Layout};
use second::listing::{read_input, run_input_at};
use second::random::Random;

const SEED: u64 = 13;
const IMAGES: u64 = 5_000;

/// The graph of an input of the small core packed back, with some more slots and records.
fn on_the_wide_core(random: &mut Random, small: &RunnerInput) -> RunnerInput {
    let (from, to) = (Layout::SMALL, Layout::BASE);
    let mut more = |bytes: usize, slot: usize, wide_slot: usize| (bytes / slot + random.below(4)) * wide_slot;
    let call = CarryCall {
        nodes: small.nodes.clone(),
        edges: small.edges.clone(),
        to_nodes: vec![0xEE; more(small.nodes.len(), from.node_length(), to.node_length())],
        to_edges: vec![0xEE; more(small.edges.len(), from.edge_length(), to.edge_length())],
    };
    let wide = call.outcome(Way::Unpack);
    assert_eq!(wide.answer, 0, "a host of the small core can be unpacked");
    RunnerInput {
        nodes: wide.nodes,
        edges: wide.edges,
        records: small.records + more(0, 1, 1) as u16,
        ..small.clone()
    }
}

/// Inputs of the small core: those drawn for it, and those drawn for the wide one that can be packed.
fn inputs() -> Vec<RunnerInput> {
    let drawn = |core: Core| {
        let images = corpus::drawn_images(core, SEED, IMAGES).into_iter();
        images.filter_map(|image| read_input(&image))
    };
    let packed = drawn(Core::Wide).filter_map(|input| corpus::packed(&input));
    drawn(Core::Small).chain(packed).collect()
}

fn same_live_slots(small: &Outcome, wide: &Outcome) -> bool {
    let small = Host::read(&Layout::SMALL, &small.nodes, &small.edges).expect("a graph");
    let wide = Host::read(&Layout::BASE, &wide.nodes, &wide.edges).expect("a graph");
    small.live_nodes().eq(wide.live_nodes()) && small.live_edges().eq(wide.live_edges())
}

#[test]
fn a_result_or_fail_of_the_small_core_is_the_wide_cores() {
    let mut compared = [0; 2];
    let mut changed = 0;
    let mut held_by_the_wide_core = 0;
    for (index, input) in inputs().into_iter().enumerate() {
        let random = &mut Random::of_index(SEED, index as u64);
        let small = run_input_at(&Layout::SMALL, &input);
        if ![0, 1, 6].contains(&small.answer) {
            continue;
        }
        let wide = run_input_at(&Layout::BASE, &on_the_wide_core(random, &input));
        match small.answer {
            6 => held_by_the_wide_core += u32::from(wide.answer == 0),
            answer => {
                assert_eq!(numbers(&wide), numbers(&small), "{input:?}");
                assert!(same_live_slots(&small, &wide), "{input:?}");
                compared[answer as usize] += 1;
                changed += u32::from(small.reported().1 > 0);
            }
        }
    }
    assert!(compared[0] > 2_500 && compared[1] > 500, "{compared:?}");
    assert!(changed > 2_000, "{changed} results with changes");
    assert!(held_by_the_wide_core > 100, "{held_by_the_wide_core} runs give a result at eight atoms alone");
}

#[test]
fn undo_at_the_small_core_gives_the_host_back() {
    let mut undone = 0;
    for input in inputs() {
        let left = run_input_at(&Layout::SMALL, &input);
        let (_, records) = left.reported();
        if left.answer != 0 || records == 0 {
            continue;
        }
        let journal = vec![0; left.journal.len()];
        let undo = UndoCall { nodes: left.nodes, edges: left.edges, journal: left.journal, count: records, report: left.report };
        let back = undo.outcome_at(&Layout::SMALL);
        assert_eq!(numbers(&back), (0, 0, records));
        assert_eq!((back.nodes, back.edges, back.journal), (input.nodes, input.edges, journal));
        undone += 1;
    }
    assert!(undone > 2_000, "{undone}");
}
