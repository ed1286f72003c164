//! Room and fuel cut to what a run needs, or to one less: the bounds at which the answer changes.

use crate::encode::RunnerInput;
use crate::layout::{place, Layout};
use crate::listing::run_input_at;
use crate::random::Random;

pub fn narrow(random: &mut Random, layout: &Layout, input: &mut RunnerInput) {
    input.records = layout.most_records as u16;
    let outcome = run_input_at(layout, input);
    let (steps, records) = outcome.reported();
    let less = random.pick(&[0, 0, 0, 1, 2]);
    match random.weighted(&[28, 18, 27, 27]) {
        0 => input.fuel = steps.saturating_sub(less),
        1 => input.records = records.saturating_sub(less) as u16,
        2 => cut(&mut input.nodes, &outcome.nodes, layout.node_length(), less),
        _ => cut(&mut input.edges, &outcome.edges, layout.edge_length(), less),
    }
}

/// Leaves the table as many slots as the run used, less some, but none of its live slots is cut off.
fn cut(table: &mut Vec<u8>, after: &[u8], slot: usize, less: u32) {
    let used = slots_used(after, slot).saturating_sub(less as usize);
    let length = used.max(slots_used(table, slot)) * slot;
    table.truncate(length);
}

/// The number of slots up to the last live one.
fn slots_used(table: &[u8], slot: usize) -> usize {
    let live = table
        .chunks(slot)
        .rposition(|bytes| bytes[place::STATE] == 1);
    live.map_or(0, |last| last + 1)
}
