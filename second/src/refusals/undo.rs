//! The refusals of the call undo.

use super::{accepted_run, break_lengths, refusal, Refusal, UndoCall, UNTOUCHED};
use crate::journal::kind;
use crate::layout::{place, Layout};

/// A call of undo that is refused for each of the numbers 9 to 12 and 20 given, and for no other.
pub fn undo_refused_for(layout: &Layout, numbers: &[u32]) -> UndoCall {
    let mut call = accepted_undo(layout);
    if numbers.contains(&20) {
        call.journal[place::KIND] = 3;
    }
    let tables = [&mut call.nodes, &mut call.edges, &mut call.journal];
    break_lengths(numbers, &mut call.report, tables);
    call
}

/// Records of all kinds: two of node slots, two of edge slots, and bytes behind a node's that undo doesn't
/// look at.
fn accepted_undo(layout: &Layout) -> UndoCall {
    let run = accepted_run(layout);
    let records = [
        (kind::NODE, 0),
        (kind::EDGE, 2),
        (kind::NODE, 2),
        (kind::EDGE, 0),
    ];
    let record = |(number, (kind, slot)): (usize, &(u8, u16))| {
        let mut record = vec![0; layout.record_before()];
        record[place::KIND] = *kind;
        record[layout.record_slot()].copy_from_slice(&layout.slot_number(*slot));
        record.extend((0..layout.edge_length()).map(|byte| (number * 32 + byte) as u8));
        record
    };
    UndoCall {
        nodes: run.nodes,
        edges: run.edges,
        journal: records.iter().enumerate().flat_map(record).collect(),
        count: 4,
        report: run.report,
    }
}

/// The refusals of the call undo at a layout, by number.
pub fn of_undo(layout: &Layout) -> Vec<Refusal<UndoCall>> {
    let mut refusals = lengths(layout);
    refusals.extend(counts(layout));
    for number in 0..4 {
        refusals.extend(records(layout, number));
    }
    refusals
}

fn refused(layout: &Layout, name: &str, answer: u32, edit: impl Fn(&mut UndoCall)) -> Refusal<UndoCall> {
    let mut call = accepted_undo(layout);
    edit(&mut call);
    refusal(&format!("undo, {name}"), answer, accepted_undo(layout), call)
}

fn lengths(layout: &Layout) -> Vec<Refusal<UndoCall>> {
    let refused = |name: &str, answer: u32, edit: fn(&Layout, &mut UndoCall)| refused(layout, name, answer, |call| edit(layout, call));
    vec![
        refused("report of no byte", 9, |_, call| call.report.clear()),
        refused("report of 7 bytes", 9, |_, call| call.report.truncate(7)),
        refused("report of 9 bytes", 9, |_, call| call.report.push(UNTOUCHED)),
        refused("node table with a byte more", 10, |_, call| call.nodes.push(0)),
        refused("node table of a slot too many", 10, |layout, call| {
            call.nodes
                .resize((layout.most_nodes + 1) * layout.node_length(), 0)
        }),
        refused("edge table with a byte more", 11, |_, call| call.edges.push(0)),
        refused("edge table of a slot too many", 11, |layout, call| {
            call.edges
                .resize((layout.most_edges + 1) * layout.edge_length(), 0)
        }),
        refused("journal with a byte more", 12, |_, call| call.journal.push(0)),
        refused("journal of a slot too many", 12, |layout, call| {
            call.journal
                .resize((layout.most_records + 1) * layout.record_length(), 0)
        }),
    ]
}

fn counts(layout: &Layout) -> Vec<Refusal<UndoCall>> {
    let refused = |name: &str, edit: fn(&Layout, &mut UndoCall)| refused(layout, name, 20, |call| edit(layout, call));
    vec![
        refused("count 5 of 4", |_, call| call.count = 5),
        refused("count of 32 bits", |_, call| call.count = u32::MAX),
        refused("count 4 with an empty journal", |_, call| {
            call.journal.clear()
        }),
        refused("node record behind a shorter node table", |layout, call| {
            call.nodes.truncate(2 * layout.node_length())
        }),
        refused("edge record behind a shorter edge table", |layout, call| {
            call.edges.truncate(2 * layout.edge_length())
        }),
    ]
}

/// The refusals for the record of this number.
fn records(layout: &Layout, number: usize) -> Vec<Refusal<UndoCall>> {
    let record = |name: &str, edit: &dyn Fn(&mut [u8])| {
        let name = format!("record {number} with {name}");
        let length = layout.record_length();
        refused(layout, &name, 20, |call| {
            edit(&mut call.journal[number * length..][..length])
        })
    };
    let aimed = |bytes: &mut [u8], slot: u16| {
        bytes[layout.record_slot()].copy_from_slice(&layout.slot_number(slot));
    };
    let far: u16 = match layout.width {
        1 => 255,
        _ => 256,
    };
    let mut list = vec![
        record("kind 0", &|bytes| bytes[place::KIND] = 0),
        record("kind 3", &|bytes| bytes[place::KIND] = 3),
        record("kind 255", &|bytes| bytes[place::KIND] = 255),
    ];
    if !layout.record_zeros().is_empty() {
        list.push(record("second byte 1", &|bytes| {
            bytes[layout.record_zeros()].fill(1)
        }));
    }
    list.push(record("slot 3 of three", &|bytes| aimed(bytes, 3)));
    list.push(record(&format!("slot {far}"), &|bytes| aimed(bytes, far)));
    list
}
