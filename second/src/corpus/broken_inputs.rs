//! Damage to the fields of a runner input and to its tables: inputs that the runner refuses, and answers 10, 11,
//! 13 and 15.

use super::drafts::Draft;
use super::foreign;
use super::hosts::Host;
use crate::encode::{field, runner_fields, RunnerInput};
use crate::layout::{place, Layout, ATOM_BYTES};
use crate::listing::INPUT_RECORDS;
use crate::random::Random;
use std::ops::Range;

/// An input that isn't five fields in order, or whose journal or fuel field isn't what it should be.
pub fn refused(random: &mut Random, input: &RunnerInput) -> Vec<u8> {
    let mut parts = runner_fields(input);
    let bytes = parts.concat();
    match random.below(13) {
        0 => return Vec::new(),
        1 => return bytes[..random.below(bytes.len())].to_vec(),
        2 => return [bytes, vec![random.byte()]].concat(),
        3 => return [bytes.clone(), bytes].concat(),
        4 => parts[2] = field(0x03, &too_many_records(random).to_be_bytes()),
        5 => parts[2] = field(0x03, &vec![0; random.pick(&[0, 1, 3, 4])]),
        6 => parts[3] = field(0x04, &vec![0; random.pick(&[0, 2, 3, 5, 8])]),
        7 => drop(parts.remove(random.below(5))),
        8 => parts.insert(random.below(6), parts[random.below(5)].clone()),
        9 => swap_neighbours(random, &mut parts),
        10 => parts[random.below(5)][0] = random.pick(&[0, 6, 7, 0x10, 0xFF]),
        11 => shorten_length(random, &mut parts),
        _ => lengthen_last(&mut parts),
    }
    parts.concat()
}

fn too_many_records(random: &mut Random) -> u16 {
    let least = INPUT_RECORDS + 1;
    let any = random.between(usize::from(least) + 1, 0xFFFE) as u16;
    random.pick(&[least, 0x0500, 0xFFFF, any])
}

fn swap_neighbours(random: &mut Random, parts: &mut [Vec<u8>]) {
    let first = random.below(4);
    parts.swap(first, first + 1);
}

/// A length of one less than the payload has.
fn shorten_length(random: &mut Random, parts: &mut [Vec<u8>]) {
    let long: Vec<usize> = (0..5).filter(|index| parts[*index].len() > 3).collect();
    let index = random.pick(&long);
    set_length(&mut parts[index], -1);
}

/// A length of one more than the rest of the input has.
fn lengthen_last(parts: &mut [Vec<u8>]) {
    set_length(&mut parts[4], 1);
}

fn set_length(part: &mut [u8], more: isize) {
    let length = (part.len() - 3) as isize + more;
    part[1..3].copy_from_slice(&(length as u16).to_be_bytes());
}

/// Answer 10 or 11: a table that is no row of whole slots.
pub fn odd_length(random: &mut Random, table: &mut Vec<u8>, slot: usize) {
    let more = random.between(1, slot - 1);
    if random.chance(50) || table.len() < slot {
        table.extend(vec![0; more]);
    } else {
        table.truncate(table.len() - more);
    }
}

/// Answer 13.
pub fn too_much_fuel(random: &mut Random) -> u32 {
    let any = 1_000_001 + random.below(4_000_000_000) as u32;
    random.pick(&[
        1_000_001,
        1_000_002,
        0x0100_0000,
        0x8000_0000,
        u32::MAX,
        any,
    ])
}

/// Lengths that no label of the layout has.
fn too_long(layout: &Layout) -> [u8; 3] {
    let most = layout.atoms as u8;
    [most + 1, most + 2, 0xFF]
}

/// Answer 15: one slot of a table breaks the layout.
pub fn break_layout(random: &mut Random, draft: &Draft, input: &mut RunnerInput) {
    let (host, layout) = (&draft.host, draft.layout);
    let edges = host.live_edges();
    let nodes = host.live_nodes();
    if !edges.is_empty() && random.chance(55) {
        let (slot, length) = (random.pick(&edges), layout.edge_length());
        break_edge(random, draft, &mut input.edges[slot * length..][..length]);
    } else if !nodes.is_empty() && random.chance(80) {
        let (slot, length) = (random.pick(&nodes), layout.node_length());
        break_node(random, layout, &mut input.nodes[slot * length..][..length]);
    } else {
        break_free_slot(random, draft, input);
    }
}

fn break_node(random: &mut Random, layout: &Layout, slot: &mut [u8]) {
    match random.below(6) {
        0 => slot[place::STATE] = random.pick(&[2, 3, 0xFF]),
        1 => slot[place::MARK] = random.pick(&[5, 6, 7, 0xFF]),
        2 => slot[place::ROOT] = random.pick(&[2, 0xFF]),
        3 => slot[place::LABEL_LENGTH] = random.pick(&too_long(layout)),
        4 => slot[place::STATE] = 0,
        _ => break_unused_atom(random, layout, slot, layout.node_atoms()),
    }
}

fn break_edge(random: &mut Random, draft: &Draft, slot: &mut [u8]) {
    let layout = draft.layout;
    let slots = draft.host.nodes.len() as u16;
    let (last, far) = match layout.width {
        1 => (0xFF, 0x80),
        _ => (0xFFFF, 0x0100),
    };
    match random.below(8) {
        0 => slot[place::STATE] = random.pick(&[2, 3, 0xFF]),
        1 => slot[place::MARK] = random.pick(&[4, 6, 7, 0xFF]),
        2 => slot[place::ZERO] = random.pick(&[1, 2, 0xFF]),
        3 => slot[place::LABEL_LENGTH] = random.pick(&too_long(layout)),
        4 => aim(layout, slot, layout.edge_source(), random.pick(&[slots, slots + 1, last])),
        5 => aim(layout, slot, layout.edge_target(), random.pick(&[slots, slots + 1, far])),
        6 => aim_at_free(random, layout, &draft.host, slot),
        _ => break_unused_atom(random, layout, slot, layout.edge_atoms()),
    }
}

/// Lets one end lie on a free node slot, or outside the table if none is free.
fn aim_at_free(random: &mut Random, layout: &Layout, host: &Host, slot: &mut [u8]) {
    let nodes = &host.nodes;
    let free = (0..nodes.len())
        .find(|node| nodes[*node].is_none())
        .unwrap_or(nodes.len());
    let end = match random.pick(&[true, false]) {
        true => layout.edge_source(),
        false => layout.edge_target(),
    };
    aim(layout, slot, end, free as u16);
}

fn aim(layout: &Layout, slot: &mut [u8], end: Range<usize>, node: u16) {
    slot[end].copy_from_slice(&layout.slot_number(node));
}

/// A nonzero byte behind the label's atoms, which start at this place, or a label that is too long if all are used.
fn break_unused_atom(random: &mut Random, layout: &Layout, slot: &mut [u8], atoms: usize) {
    let used = usize::from(slot[place::LABEL_LENGTH]);
    if used >= layout.atoms {
        slot[place::LABEL_LENGTH] = too_long(layout)[0];
    } else {
        let nonzero = random.pick(&[1, 0x80, 0xFF]);
        slot[random.between(atoms + ATOM_BYTES * used, slot.len() - 1)] = nonzero;
    }
}

/// Answers 10, 11 and 15: tables of a foreign layout, lent as they are. Often free slots are added behind, so that their bytes
/// make whole slots.
pub fn foreign_tables(random: &mut Random, draft: &Draft, input: &mut RunnerInput) {
    let (layout, foreign) = (draft.layout, foreign(draft.layout));
    input.nodes = draft.host.node_table(foreign);
    input.edges = draft.host.edge_table(foreign);
    if random.chance(60) {
        fill_up(&mut input.nodes, foreign.node_length(), layout.node_length());
    }
    if random.chance(60) {
        fill_up(&mut input.edges, foreign.edge_length(), layout.edge_length());
    }
}

/// Adds free slots of one length until the table has whole slots of another.
fn fill_up(table: &mut Vec<u8>, slot: usize, other: usize) {
    while table.len() % other != 0 {
        table.extend(vec![0; slot]);
    }
}

/// A free slot that isn't all zero; one is added if there is none.
fn break_free_slot(random: &mut Random, draft: &Draft, input: &mut RunnerInput) {
    let (nodes, layout) = (&draft.host.nodes, draft.layout);
    match (0..nodes.len()).rev().find(|node| nodes[*node].is_none()) {
        Some(slot) => {
            let length = layout.node_length();
            input.nodes[slot * length + random.between(1, length - 1)] = 1;
        }
        None => {
            let (last, length) = (input.edges.len(), layout.edge_length());
            input.edges.extend(vec![0; length]);
            input.edges[last + random.between(1, length - 1)] = 1;
        }
    }
}
