//! Images, slots and records written out byte by byte, runs on them, and what a run must leave.

pub use crate::report::numbers;
use second::calls::{run, Outcome};
use second::encode;

pub const SKIP: [u8; 3] = [0x55, 0, 0];
pub const FAIL: [u8; 3] = [0x56, 0, 0];
pub const BREAK: [u8; 3] = [0x57, 0, 0];
pub const RULE_0: [u8; 4] = [0x50, 0, 1, 0];

/// D: left one unmarked, unlabelled, plain node; right nothing; interface 0.
#[rustfmt::skip]
pub const D: [u8; 24] = [
    0x10, 0, 21,
    0x11, 0, 0,
    0x12, 0, 5, 0x20, 0, 2, 0, 0,
    0x13, 0, 0,
    0x14, 0, 1, 0,
    0x15, 0, 0,
];

/// M: the same node on the left; red on the right; interface 1.
#[rustfmt::skip]
pub const M: [u8; 29] = [
    0x10, 0, 26,
    0x11, 0, 0,
    0x12, 0, 5, 0x20, 0, 2, 0, 0,
    0x13, 0, 5, 0x20, 0, 2, 1, 0,
    0x14, 0, 1, 1,
    0x15, 0, 0,
];

/// The bytes of a node slot, of an edge slot and of a record.
pub const NODE: usize = 36;
pub const EDGE: usize = 40;
pub const RECORD: usize = 44;

pub const PLAIN: [u8; NODE] = unlabelled(0, 0);
pub const RED: [u8; NODE] = unlabelled(1, 0);
pub const FREE: [u8; NODE] = [0; NODE];
pub const FREE_EDGE: [u8; EDGE] = [0; EDGE];

/// A live node slot of this mark and root flag, without a label.
pub const fn unlabelled(mark: u8, root: u8) -> [u8; NODE] {
    let mut slot = [0; NODE];
    (slot[0], slot[1], slot[2]) = (1, mark, root);
    slot
}

pub const AMPLE_FUEL: u32 = 1_000;
pub const AMPLE_RECORDS: usize = 16;

pub fn field(tag: u8, payload: &[&[u8]]) -> Vec<u8> {
    encode::field(tag, &payload.concat())
}

/// A run with ample journal, all bytes of which hold something beforehand.
pub fn run_on(nodes: &[u8], edges: &[u8], program: &[&[u8]], fuel: u32) -> Outcome {
    let journal = vec![0xEE; AMPLE_RECORDS * RECORD];
    run(nodes, edges, &journal, &program.concat(), fuel, &[0xEE; 8])
}

/// The journal that holds these records and zeros behind them.
pub fn journal(records: &[Vec<u8>]) -> Vec<u8> {
    let mut bytes = records.concat();
    bytes.resize(AMPLE_RECORDS * RECORD, 0);
    bytes
}

pub fn node_record(slot: u8, before: &[u8; NODE]) -> Vec<u8> {
    [&[1, 0, 0, slot], &before[..], &[0; 4]].concat()
}

pub fn edge_record(slot: u8, before: &[u8; EDGE]) -> Vec<u8> {
    [&[2, 0, 0, slot], &before[..]].concat()
}

/// Answer, steps and records, both tables, and the records in the journal.
pub fn expect(
    outcome: &Outcome,
    three: (u32, u32, u32),
    nodes: &[u8],
    edges: &[u8],
    records: &[Vec<u8>],
) {
    assert_eq!(numbers(outcome), three);
    assert_eq!(outcome.nodes, nodes);
    assert_eq!(outcome.edges, edges);
    assert_eq!(outcome.journal, journal(records));
}
