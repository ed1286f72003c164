//! The refusals 9 to 13 and 15: lengths, fuel, and the layout of the host tables.

use super::slots::{damages, Damage, Zeros};
use super::{accepted_run, refusal, run_with, Refusal, RunCall, UNTOUCHED};
use crate::layout::Layout;

/// The numbers 9 to 12.
pub(super) fn lengths(layout: &Layout) -> Vec<Refusal<RunCall>> {
    let mut refusals = Vec::new();
    for length in [0, 7, 9, 16] {
        refusals.push(refusal(
            &format!("report of {length} bytes"),
            9,
            accepted_run(layout),
            run_with(layout, |call| call.report = vec![UNTOUCHED; length]),
        ));
    }
    refusals.extend(tables(layout).iter().flat_map(|table| lengths_of(layout, table)));
    refusals
}

/// A lent table.
struct Table {
    words: &'static str,
    /// The number that refuses its length.
    answer: u32,
    slot: usize,
    most: usize,
    buffer: Buffer,
}

type Buffer = fn(&mut RunCall) -> &mut Vec<u8>;

fn tables(layout: &Layout) -> [Table; 3] {
    [
        Table {
            words: "node table",
            answer: 10,
            slot: layout.node_length(),
            most: layout.most_nodes,
            buffer: |call| &mut call.nodes,
        },
        Table {
            words: "edge table",
            answer: 11,
            slot: layout.edge_length(),
            most: layout.most_edges,
            buffer: |call| &mut call.edges,
        },
        Table {
            words: "journal",
            answer: 12,
            slot: layout.record_length(),
            most: layout.most_records,
            buffer: |call| &mut call.journal,
        },
    ]
}

/// Lengths beside one slot, and one slot too many.
fn lengths_of(layout: &Layout, table: &Table) -> Vec<Refusal<RunCall>> {
    let (slot, most) = (table.slot, table.most);
    let of_bytes = |length: usize| run_with(layout, |call| free_graph(call, table.buffer, length));
    let refused = |name: String, accepted: usize, length: usize| {
        let name = format!("{} of {name}", table.words);
        refusal(&name, table.answer, of_bytes(accepted), of_bytes(length))
    };
    let mut refusals: Vec<Refusal<RunCall>> = [slot - 1, slot + 1, 1]
        .map(|length| refused(format!("{length} bytes"), slot, length))
        .into();
    let slots = format!("{} slots", most + 1);
    refusals.push(refused(slots, most * slot, (most + 1) * slot));
    refusals
}

/// No live slot anywhere, and so many zeros in this buffer.
fn free_graph(call: &mut RunCall, buffer: Buffer, length: usize) {
    call.nodes.fill(0);
    call.edges.fill(0);
    *buffer(call) = vec![0; length];
}

/// The number 13.
pub(super) fn fuel(layout: &Layout) -> Vec<Refusal<RunCall>> {
    let with_fuel = |fuel| run_with(layout, |call| call.fuel = fuel);
    let refused = |fuel| {
        refusal(
            &format!("fuel {fuel}"),
            13,
            with_fuel(1_000_000),
            with_fuel(fuel),
        )
    };
    vec![refused(1_000_001), refused(u32::MAX)]
}

/// The number 15: the damages at the layout, and no node slots.
pub(super) fn damaged(layout: &Layout) -> Vec<Refusal<RunCall>> {
    let broken = |name: &str, edit: &dyn Fn(&mut RunCall)| refusal(name, 15, accepted_run(layout), run_with(layout, edit));
    let broken_by = |damage: &Damage| broken(&damage.name, &|call| damage.apply(&mut call.nodes, &mut call.edges));
    let mut refusals: Vec<Refusal<RunCall>> = damages(layout, layout.atoms, Zeros::Each).iter().map(broken_by).collect();
    refusals.push(broken("live edges and no node slots", &|call| call.nodes.clear()));
    refusals
}
