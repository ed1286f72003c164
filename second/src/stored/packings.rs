//! Stored cases of the calls pack and unpack: equal, fewer and more slots in the tables carried to.

use crate::answer;
use crate::carrying::{CarryCall, Way};
use crate::corpus;
use crate::encode::RunnerInput;
use crate::host::Host;
use crate::layout::{Core, Layout};
use crate::listing;
use crate::random::Random;
use crate::refusals::Carrying;
use crate::tree::mark;

use super::carryings::{edge, filled, node, refused_and_accepted, refused_for_several, with_a_byte_changed};

/// Drawn hosts that are looked at, and how many slots one may have.
const DRAWN: u64 = 400;
const MOST_SLOTS: usize = 14;

/// The seed of the drawn hosts.
const SEED: u64 = 7;

/// Every refusal with its accepted twin, refusals for several numbers, telling hosts to several numbers of slots, then drawn ones.
pub(super) fn packing_calls() -> Vec<Carrying> {
    let mut calls = refused_and_accepted(&Way::PACKING);
    calls.extend(refused_for_several(&Way::PACKING));
    for way in Way::PACKING {
        calls.extend(to_several(way));
        calls.push(Carrying::of(way, &full()));
    }
    calls.extend(drawn());
    calls
}

/// Every mark, roots, labels of no atom and of one, loops, parallel edges, and free slots between the others and behind them.
fn every_kind() -> Host {
    Host {
        nodes: vec![
            node(mark::NONE, false, &[]),
            None,
            node(mark::RED, true, &[1]),
            node(mark::GREEN, false, &[i32::MAX]),
            node(mark::BLUE, true, &[i32::MIN]),
            node(mark::GREY, false, &[258]),
            None,
            None,
        ],
        edges: vec![
            edge(mark::DASHED, 0, 2, &[]),
            None,
            edge(mark::NONE, 5, 5, &[9]),
            edge(mark::RED, 3, 4, &[-1]),
            edge(mark::GREEN, 3, 4, &[-1]),
            edge(mark::BLUE, 4, 3, &[0]),
            None,
        ],
    }
}

/// The numbers of node and edge slots that hosts are carried to: equal, fewer by the free ones behind the last live one or by one
/// more, more, and the most of the small core.
const SLOTS: [(usize, usize); 8] = [(8, 7), (6, 6), (7, 7), (5, 6), (6, 5), (9, 8), (20, 30), (128, 255)];

fn to_several(way: Way) -> Vec<Carrying> {
    let mut calls: Vec<Carrying> = SLOTS.iter().map(|(nodes, edges)| Carrying::to_slots(way, &every_kind(), *nodes, *edges)).collect();
    let empty = [(0, 0), (0, 1), (1, 0), (3, 3)];
    calls.extend(empty.iter().map(|(nodes, edges)| Carrying::to_slots(way, &Host::default(), *nodes, *edges)));
    let free = Host { nodes: vec![None; 3], edges: vec![None; 2] };
    calls.extend(empty.iter().map(|(nodes, edges)| Carrying::to_slots(way, &free, *nodes, *edges)));
    calls
}

/// Full tables of the small core, with edges between the nodes of the greatest numbers.
fn full() -> Host {
    let small = &Layout::SMALL;
    let last = small.most_nodes as u16 - 1;
    let one = |slot: u16| node(slot as u8 % 5, slot % 3 == 0, &[i32::from(slot) - 64][..usize::from(slot) % 2]);
    let between = |slot: u16| edge(mark::DASHED, last - slot % 2, slot % (last + 1), &[slot.into()]);
    Host { nodes: (0..=last).map(one).collect(), edges: (0..small.most_edges as u16).map(between).collect() }
}

/// Hosts of drawn images of both cores, carried to the other one and back; some with a byte changed.
fn drawn() -> Vec<Carrying> {
    let [wide, small] = Core::BOTH.map(|core| corpus::drawn_images(core, SEED, DRAWN));
    let mut calls = Vec::new();
    for (index, (wide, small)) in wide.iter().zip(&small).enumerate() {
        let random = &mut Random::of_index(SEED, index as u64);
        for (way, image) in [(Way::Pack, wide), (Way::Unpack, small)] {
            calls.extend(listing::read_input(image).into_iter().flat_map(|input| there_and_back(random, way, input)));
        }
    }
    calls
}

/// This carrying of an input's tables to some slots, and the other way of what it leaves.
fn there_and_back(random: &mut Random, way: Way, input: RunnerInput) -> Vec<Carrying> {
    let Some(there) = carrying(random, way, input.nodes, input.edges) else {
        return Vec::new();
    };
    let mut calls = vec![there.clone()];
    let left = there.call.outcome(way);
    if left.answer == answer::RESULT {
        calls.extend(carrying(random, way.back(), left.nodes, left.edges));
    }
    if random.chance(20) {
        calls.extend(with_a_byte_changed(random, there));
    }
    calls
}

/// The tables carried to as many slots, to fewer or to more, if they have few.
fn carrying(random: &mut Random, way: Way, nodes: Vec<u8>, edges: Vec<u8>) -> Option<Carrying> {
    let (from, to) = (way.from(), way.to());
    let slots = [nodes.len() / from.node_length(), edges.len() / from.edge_length()];
    if slots.iter().sum::<usize>() > MOST_SLOTS {
        return None;
    }
    let [node_slots, edge_slots] = slots.map(|count| match random.weighted(&[50, 20, 30]) {
        0 => count,
        1 => random.between(0, count),
        _ => random.between(count, count + 3),
    });
    let [to_nodes, to_edges] = [node_slots * to.node_length(), edge_slots * to.edge_length()].map(|bytes| filled(random, bytes));
    Some(Carrying { way, call: CarryCall { nodes, edges, to_nodes, to_edges } })
}
