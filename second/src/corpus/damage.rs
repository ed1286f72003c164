//! Damaged images: a legal draft with one thing wrong, sometimes two, so that the order of the answers shows.

use super::broken_calls::{break_calls, break_procedures};
use super::broken_inputs::*;
use super::broken_modes::break_mode;
use super::broken_programs::*;
use super::drafts::Draft;
use crate::encode::runner_input;
use crate::random::Random;

/// What is damaged, in the order in which two of them are done.
#[derive(Clone, Copy, Debug, PartialEq, Eq, PartialOrd, Ord)]
enum Kind {
    Form,
    References,
    Placement,
    Calls,
    Layout,
    ForeignTables,
    Procedures,
    Mode,
    Guarded,
    Bytes,
    Length,
    Nodes,
    Edges,
    Fuel,
    Fields,
    Anywhere,
}

/// Each kind with its weight.
const KINDS: [(Kind, usize); 16] = [
    (Kind::Form, 14),
    (Kind::References, 24),
    (Kind::Placement, 10),
    (Kind::Calls, 32),
    (Kind::Layout, 16),
    (Kind::ForeignTables, 12),
    (Kind::Procedures, 32),
    (Kind::Mode, 18),
    (Kind::Guarded, 13),
    (Kind::Bytes, 11),
    (Kind::Length, 1),
    (Kind::Nodes, 6),
    (Kind::Edges, 6),
    (Kind::Fuel, 6),
    (Kind::Fields, 10),
    (Kind::Anywhere, 5),
];

pub fn damaged(random: &mut Random, mut draft: Draft) -> Vec<u8> {
    let mut kinds = vec![kind(random)];
    if random.chance(15) {
        kinds.push(kind(random));
        kinds.sort_unstable();
        kinds.dedup();
    }
    for kind in &kinds {
        damage_tree(random, *kind, &mut draft);
    }
    let layout = draft.layout;
    let mut input = draft.input();
    for kind in &kinds {
        match kind {
            Kind::Layout => break_layout(random, &draft, &mut input),
            Kind::ForeignTables => foreign_tables(random, &draft, &mut input),
            Kind::Procedures => break_procedures(random, &draft.program, &mut input.program),
            Kind::Mode => break_mode(random, &draft.program.rules, &mut input.program),
            Kind::Guarded => break_guarded(random, &mut input.program),
            Kind::Bytes => mangle(random, &mut input.program),
            Kind::Length => make_too_long(random, &mut input.program),
            Kind::Nodes => odd_length(random, &mut input.nodes, layout.node_length()),
            Kind::Edges => odd_length(random, &mut input.edges, layout.edge_length()),
            Kind::Fuel => input.fuel = too_much_fuel(random),
            _ => {}
        }
    }
    if kinds.contains(&Kind::Fields) {
        return refused(random, &input);
    }
    let mut bytes = runner_input(&input);
    if kinds.contains(&Kind::Anywhere) {
        flip_bits(random, &mut bytes);
    }
    bytes
}

fn kind(random: &mut Random) -> Kind {
    KINDS[random.weighted(&KINDS.map(|(_, weight)| weight))].0
}

fn damage_tree(random: &mut Random, kind: Kind, draft: &mut Draft) {
    match kind {
        Kind::Form => bad_form(random, &mut draft.program),
        Kind::References => bad_reference(random, &mut draft.program),
        Kind::Placement => misplaced_break(random, &mut draft.program.main),
        Kind::Calls => break_calls(random, &mut draft.program),
        _ => {}
    }
}
