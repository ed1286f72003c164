//! Graphs as text: the calls import and export, their refusals, and that what the one writes the other reads.

#[path = "text_graphs/places.rs"]
mod places;
#[path = "text_graphs/round_trips.rs"]
mod round_trips;

use second::encode;
use second::layout::{Core, Layout};
use second::refusals::{export_refused_for, import_of, import_refused_for, of_export, of_import};
use second::text_graph::{ExportCall, Exported, ImportCall, Imported};

const WIDE: &Layout = &Layout::BASE;

/// The numbers that can refuse an import and an export, in their order.
const OF_IMPORT: [u32; 5] = [10, 11, 22, 23, 24];
const OF_EXPORT: [u32; 4] = [10, 11, 15, 25];

fn refused_import(call: &ImportCall, answer: u32) -> Imported {
    Imported { answer, nodes: call.nodes.clone(), edges: call.edges.clone() }
}

#[test]
fn each_clause_refuses_an_import_by_its_number_and_leaves_the_tables() {
    for layout in Core::BOTH.map(Core::layout) {
        let refusals = of_import(layout);
        for refusal in &refusals {
            assert_eq!(refusal.accepted.outcome(layout).answer, 0, "{}", refusal.name);
            assert_eq!(refusal.refused.outcome(layout), refused_import(&refusal.refused, refusal.answer), "{}", refusal.name);
        }
        let counted = OF_IMPORT.map(|answer| refusals.iter().filter(|it| it.answer == answer).count());
        let least = if layout == WIDE { [4, 4, 145, 24, 30] } else { [4, 4, 130, 24, 30] };
        assert!(counted.iter().zip(least).all(|(count, least)| *count >= least), "{counted:?}");
    }
}

#[test]
fn each_clause_refuses_an_export_by_its_number_and_leaves_the_buffer() {
    for layout in Core::BOTH.map(Core::layout) {
        let refusals = of_export(layout);
        for refusal in &refusals {
            assert_eq!(refusal.accepted.outcome(layout).answer, 0, "{}", refusal.name);
            let left = refusal.refused.outcome(layout);
            assert_eq!((left.answer, &left.buffer), (refusal.answer, &refusal.refused.buffer), "{}", refusal.name);
            assert_eq!(left.length > 0, refusal.answer == 25, "{}", refusal.name);
        }
        for answer in OF_EXPORT {
            assert!(refusals.iter().filter(|it| it.answer == answer).count() >= 4, "{answer}");
        }
    }
}

/// All sets of these numbers, each with its lowest, 0 for none.
fn sets(numbers: &[u32]) -> Vec<(Vec<u32>, u32)> {
    let chosen = |set: u32| -> Vec<u32> { (0..numbers.len()).filter(|bit| set >> bit & 1 == 1).map(|bit| numbers[bit]).collect() };
    (0..1 << numbers.len()).map(chosen).map(|set| (set.clone(), set.first().copied().unwrap_or(0))).collect()
}

#[test]
fn the_lowest_number_that_applies_is_answered() {
    for layout in Core::BOTH.map(Core::layout) {
        for (given, lowest) in sets(&OF_IMPORT) {
            assert_eq!(import_refused_for(layout, &given).outcome(layout).answer, lowest, "{given:?}");
        }
        for (given, lowest) in sets(&OF_EXPORT) {
            assert_eq!(export_refused_for(layout, &given).outcome(layout).answer, lowest, "{given:?}");
        }
    }
}

fn answer(text: &str) -> u32 {
    import_of(WIDE, text.as_bytes()).outcome(WIDE).answer
}

/// Names are asked for only where a table may have as many slots as a text lists items.
#[test]
fn wrong_names_among_too_many_items_are_not_asked_for() {
    let nodes = |count: usize| format!("[{}|]", "(a,1)".repeat(count));
    let edges = |count: usize| format!("[(a,1)|{}]", "(e,a,b,1)".repeat(count));
    assert_eq!((answer(&nodes(512)), answer(&nodes(513))), (23, 24));
    assert_eq!((answer(&edges(1024)), answer(&edges(1025))), (23, 24));
    assert_eq!(answer(&nodes(513).replace("|]", "|(e,x,x,1)]")), 24);
    assert_eq!(answer(&edges(1025).replace(")]", ")x]")), 22);
}

#[test]
fn an_import_writes_the_items_and_frees_the_rest() {
    let text = b"[ (b(R), - 007:2147483647 # blue <1, 2>) (1, empty) | (b, 1, b, 258 # dashed) ]".to_vec();
    let call = ImportCall { text, nodes: vec![0xEE; 3 * 36], edges: vec![0xEE; 2 * 40] };
    let nodes = [&encode::node_slot(3, true, &[-7, i32::MAX])[..], &encode::node_slot(0, false, &[]), &[0; 36]].concat();
    let edges = [&encode::edge_slot(5, 1, 0, &[258])[..], &[0; 40]].concat();
    assert_eq!(call.outcome(WIDE), Imported { answer: 0, nodes, edges });
}

#[test]
fn an_export_writes_the_live_slots_in_the_one_spacing() {
    let nodes = [&[0; 36][..], &encode::node_slot(1, true, &[7, -1]), &encode::node_slot(0, false, &[])].concat();
    let edges = [&[0; 40][..], &encode::edge_slot(5, 2, 1, &[12])].concat();
    let text = "[\n  (1(R), 7:-1 # red)\n  (2, empty)\n|\n  (1, 2, 1, 12 # dashed)\n]\n";
    let call = |bytes: usize| ExportCall { nodes: nodes.clone(), edges: edges.clone(), buffer: vec![0xEE; bytes] };
    let length = text.len();
    for room in [length, length + 3] {
        let buffer = [text.as_bytes(), &vec![0xEE; room - length]].concat();
        assert_eq!(call(room).outcome(WIDE), Exported { answer: 0, length, buffer });
    }
    assert_eq!(call(length - 1).outcome(WIDE), Exported { answer: 25, length, buffer: vec![0xEE; length - 1] });
    let empty = ExportCall { nodes: vec![], edges: vec![], buffer: vec![0xEE; 6] };
    assert_eq!(empty.outcome(WIDE), Exported { answer: 0, length: 6, buffer: b"[\n|\n]\n".to_vec() });
}
