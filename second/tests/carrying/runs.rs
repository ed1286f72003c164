//! A program at the old layout and at the base one, on a host and on the same host widened.

use super::report::numbers;
use second::build::{call, node, node_rule};
use second::calls::{Outcome, RunCall, UndoCall};
use second::carrying::{carried, Way};
use second::corpus;
use second::decode;
use second::encode::{self, RunnerInput};
use second::layout::{Core, Layout};
use second::listing::read_input;
use second::observer::Unobserved;
use second::tree::*;

const OLD: Layout = Layout::FOUR;
const SEED: u64 = 12;
const IMAGES: u64 = 4_000;

/// The call at a layout, on tables of that layout.
fn call_at(layout: &Layout, input: &RunnerInput, (nodes, edges): (Vec<u8>, Vec<u8>)) -> RunCall {
    RunCall {
        nodes,
        edges,
        journal: vec![0xEE; usize::from(input.records) * layout.record_length()],
        program: input.program.clone(),
        fuel: input.fuel,
        report: vec![0xEE; 8],
    }
}

/// The call at the old layout and the one at the base layout on the widened tables.
fn both(input: &RunnerInput, old: (Vec<u8>, Vec<u8>)) -> [(Outcome, RunCall); 2] {
    let wide = carried(Way::Widen, &old.0, &old.1).expect("tables of the old layout");
    [(OLD, old), (Layout::BASE, wide)].map(|(layout, tables)| {
        let call = call_at(&layout, input, tables);
        (call.outcome_at(&layout, &mut Unobserved), call)
    })
}

/// Drawn inputs that could be made at the old layout: no label of host or rules has more than four atoms or elements.
fn old_inputs() -> impl Iterator<Item = (RunnerInput, (Vec<u8>, Vec<u8>))> {
    let inputs = corpus::drawn_images(Core::Wide, SEED, IMAGES).into_iter().filter_map(|image| read_input(&image));
    let short = inputs.filter(|input| decode::program(&input.program).is_ok_and(|it| has_short_labels(&it)));
    short.filter_map(|input| {
        let old = carried(Way::Narrow, &input.nodes, &input.edges).ok()?;
        Some((input, old))
    })
}

fn has_short_labels(program: &Program) -> bool {
    let graphs = program.rules.iter().flat_map(|rule| [&rule.left, &rule.right]);
    let short = |label: &Vec<Element>| label.len() <= OLD.atoms;
    graphs.into_iter().all(|graph| graph.nodes.iter().all(|it| short(&it.label)) && graph.edges.iter().all(|it| short(&it.label)))
}

#[test]
fn an_answer_at_the_old_layout_is_the_base_layouts_on_widened_tables() {
    let mut answers = [0; 7];
    let mut held_now = 0;
    for (input, tables) in old_inputs() {
        let [(old, _), (base, _)] = both(&input, tables);
        if old.answer == 6 {
            held_now += u32::from(base.answer == 0);
            continue;
        }
        assert_eq!(numbers(&old), numbers(&base));
        if old.answer < 9 {
            answers[old.answer as usize] += 1;
            let wide = carried(Way::Widen, &old.nodes, &old.edges);
            assert_eq!(wide, Ok((base.nodes, base.edges)));
            assert_records_are_widened(&old.journal, &base.journal);
        }
    }
    assert!(answers[0] > 400 && answers[1] > 100, "{answers:?}");
    assert!(answers[2..6].iter().all(|count| *count > 5), "{answers:?}");
    assert!(held_now >= 5, "{held_now} runs give a result at eight atoms alone");
}

/// A record of the base layout is that of the old one with zeros behind it.
fn assert_records_are_widened(old: &[u8], base: &[u8]) {
    let records = old.chunks(OLD.record_length()).zip(base.chunks(Layout::BASE.record_length()));
    for (old, base) in records {
        assert!(base.starts_with(old), "{old:?} {base:?}");
        assert!(base[old.len()..].iter().all(|byte| *byte == 0), "{base:?}");
    }
}

#[test]
fn undo_at_either_layout_gives_the_same_host_back() {
    let mut undone = 0;
    for (input, tables) in old_inputs() {
        let [(old, old_call), (base, base_call)] = both(&input, tables);
        let (_, records) = old.reported();
        if old.answer != 0 || records == 0 {
            continue;
        }
        for (layout, left, call) in [(OLD, old, old_call), (Layout::BASE, base, base_call)] {
            let undo = UndoCall { nodes: left.nodes, edges: left.edges, journal: left.journal, count: records, report: left.report };
            let back = undo.outcome_at(&layout);
            assert_eq!((back.answer, back.nodes, back.edges), (0, call.nodes, call.edges));
        }
        undone += 1;
    }
    assert!(undone > 300, "{undone}");
}

/// A rule that doubles a list of so many atoms.
fn doubling(atoms: usize) -> (RunnerInput, (Vec<u8>, Vec<u8>)) {
    let list = Element::Variable(0);
    let rule = Rule {
        variables: vec![VariableType::List],
        ..node_rule(&[node(mark::NONE, &[list])], &[node(mark::RED, &[list, list])], 1)
    };
    let input = RunnerInput {
        nodes: vec![],
        edges: vec![],
        records: 1,
        fuel: 1,
        program: encode::program(&Program::without_procedures(vec![rule], call(0))),
    };
    (input, (OLD.node_slot(mark::NONE, false, &vec![-1; atoms]), vec![]))
}

#[test]
fn a_label_that_four_atoms_dont_hold_is_held_by_eight() {
    let answers = |atoms: usize| {
        let (input, tables) = doubling(atoms);
        both(&input, tables).map(|(outcome, _)| outcome.answer)
    };
    assert_eq!([0, 1, 2, 3, 4].map(answers), [[0, 0], [0, 0], [0, 0], [6, 0], [6, 0]]);
    let (input, tables) = doubling(4);
    let [(old, call), (base, _)] = both(&input, tables);
    assert_eq!(old.nodes, call.nodes);
    assert_eq!(base.nodes, Layout::BASE.node_slot(mark::RED, false, &[-1; 8]));
    assert_eq!(carried(Way::Narrow, &base.nodes, &[]), Err(26));
}
