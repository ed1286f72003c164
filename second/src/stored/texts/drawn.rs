//! Drawn graphs both ways: exported from tables with free slots, and imported from texts of other names and spacing.

use crate::host::{Edge, Host, Label, Node};
use crate::layout::Layout;
use crate::random::Random;
use crate::refusals::{export_to, import_to};
use crate::text_graph::ImportCall;

use super::spelling::spelled;
use super::{TextCall, LAYOUT};

/// How many graphs are drawn, and the seed.
const DRAWN: u64 = 100;
const SEED: u64 = 23;

pub(super) fn calls() -> Vec<TextCall> {
    (0..DRAWN).flat_map(|index| both_ways(&mut Random::of_index(SEED, index))).collect()
}

/// An export of a drawn graph, the import of that text, and the import of the same graph spelled otherwise; some with a byte changed.
fn both_ways(random: &mut Random) -> Vec<TextCall> {
    let host = drawn_host(random, LAYOUT);
    let (nodes, edges) = (host.node_table(LAYOUT), host.edge_table(LAYOUT));
    let length = export_to(&nodes, &edges, 0).outcome(LAYOUT).length;
    let room = random.pick(&[length, length, length + 1, length + 20, length - 1]);
    let mut export = export_to(&nodes, &edges, room);
    let text = export_to(&nodes, &edges, length).outcome(LAYOUT).buffer;
    let mut calls = vec![TextCall::Export(export.clone())];
    let slots = (drawn_slots(random, host.live_nodes().count()), drawn_slots(random, host.live_edges().count()));
    let mut import = ImportCall { text, ..import_to(LAYOUT, b"", slots) };
    calls.push(TextCall::Import(import.clone()));
    import.text = spelled(random, &host);
    calls.push(TextCall::Import(import.clone()));
    if random.chance(40) {
        change_a_byte(random, &mut import.text);
        calls.push(TextCall::Import(import));
    }
    if random.chance(40) && !nodes.is_empty() {
        change_a_byte(random, &mut export.nodes);
        calls.push(TextCall::Export(export));
    }
    calls
}

/// As many slots as items mostly, else more or fewer.
fn drawn_slots(random: &mut Random, items: usize) -> usize {
    match random.weighted(&[60, 30, 10]) {
        0 => items,
        1 => items + random.between(1, 2),
        _ => items.saturating_sub(1),
    }
}

fn change_a_byte(random: &mut Random, bytes: &mut [u8]) {
    let at = random.below(bytes.len());
    bytes[at] ^= 1 << random.below(8);
}

/// A graph of few nodes and edges at a layout, with free slots at any place.
pub fn drawn_host(random: &mut Random, layout: &Layout) -> Host {
    let mut host = Host::default();
    for _ in 0..random.below(5) {
        let live = random.chance(75);
        host.nodes.push(live.then(|| Node {
            mark: random.pick(&[0, 0, 1, 2, 3, 4]),
            root: random.chance(30),
            label: drawn_label(random, layout),
        }));
    }
    let live: Vec<u16> = host.live_nodes().map(|(slot, _)| slot as u16).collect();
    for _ in 0..random.below(5) {
        let exists = !live.is_empty() && random.chance(75);
        host.edges.push(exists.then(|| Edge {
            mark: random.pick(&[0, 0, 1, 2, 3, 5]),
            source: random.pick(&live),
            target: random.pick(&live),
            label: drawn_label(random, layout),
        }));
    }
    host
}

fn drawn_label(random: &mut Random, layout: &Layout) -> Label {
    let length = match random.weighted(&[30, 30, 20, 20]) {
        3 => random.between(0, layout.atoms),
        few => few.min(layout.atoms),
    };
    let atoms: Vec<i32> = (0..length).map(|_| drawn_atom(random)).collect();
    Label::of(&atoms)
}

fn drawn_atom(random: &mut Random) -> i32 {
    let any = random.next() as i32;
    match random.below(4) {
        0 => random.pick(&[0, 1, -1, 9, 10, -10, i32::MAX, i32::MIN]),
        1 => any >> 24,
        2 => any >> 12,
        _ => any,
    }
}
