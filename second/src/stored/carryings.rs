//! Stored cases of the calls that carry hosts, and of the programs widen and narrow.

use std::fmt::Write;

use crate::answer;
use crate::carrying::{self, CarryCall, Way};
use crate::corpus;
use crate::host::{Edge, Host, Label, Node};
use crate::layout::Layout;
use crate::listing;
use crate::random::Random;
use crate::refusals::{self, Carrying};
use crate::tree::mark;

use super::packings::packing_calls;
use super::{case, hexadecimal, Stored, MOST_BYTES};

/// Drawn hosts that are looked at, and how many slots one may have.
const DRAWN: u64 = 600;
const MOST_SLOTS: usize = 14;

/// The most bytes of the carryings between the cores, among which are full tables of the wide one.
const PACKING_BYTES: usize = 500_000;

/// The seed of the drawn hosts.
const SEED: u64 = 6;

/// Carryings: a byte that says which way (0 widen, 1 narrow, 2 pack, 3 unpack), both tables, and both tables that the host is carried
/// to. The line of a case has the number and what these two hold then.
pub fn carry_cases() -> Stored {
    let mut stdin = Vec::new();
    let mut stdout = String::new();
    for carrying in carry_calls() {
        stdin.extend(carry_case(&carrying));
        let left = carrying.call.outcome(carrying.way);
        let (nodes, edges) = (hexadecimal(&left.nodes), hexadecimal(&left.edges));
        writeln!(stdout, "{} {nodes} {edges}", left.answer).expect("a string takes all");
    }
    Stored { stdin, stdout: stdout.into_bytes() }
}

fn carry_case(carrying: &Carrying) -> Vec<u8> {
    let way = match carrying.way {
        Way::Widen => 0,
        Way::Narrow => 1,
        Way::Pack => 2,
        Way::Unpack => 3,
    };
    let call = &carrying.call;
    case(&[&[way], &call.nodes, &call.edges, &call.to_nodes, &call.to_edges])
}

/// The stored carryings of old tables, then those between the cores.
pub fn carry_calls() -> Vec<Carrying> {
    let mut calls = as_many_as_fit(MOST_BYTES, old_calls());
    calls.extend(as_many_as_fit(PACKING_BYTES, packing_calls()));
    calls
}

/// The first of these carryings, each once and as many as have so many bytes as cases.
fn as_many_as_fit(most_bytes: usize, calls: Vec<Carrying>) -> Vec<Carrying> {
    let mut once: Vec<Carrying> = Vec::new();
    let mut bytes = 0;
    for call in calls {
        if once.contains(&call) {
            continue;
        }
        bytes += carry_case(&call).len();
        if bytes > most_bytes {
            break;
        }
        once.push(call);
    }
    once
}

/// Every refusal with its accepted twin, refusals for several numbers, telling hosts, then drawn ones.
fn old_calls() -> Vec<Carrying> {
    let mut calls = refused_and_accepted(&Way::OLD);
    calls.extend(refused_for_several(&Way::OLD));
    for way in Way::OLD {
        let hosts = [every_kind(), Host::default(), without_edges(), many_edges()];
        calls.extend(hosts.iter().map(|host| Carrying::of(way, host)));
    }
    calls.push(Carrying::of(Way::Narrow, &long_label_behind()));
    calls.extend(drawn());
    calls
}

/// Every refusal of these ways behind its accepted twin.
pub(super) fn refused_and_accepted(ways: &[Way]) -> Vec<Carrying> {
    let refusals = refusals::of_carrying().into_iter();
    let of_ways = refusals.filter(|it| ways.contains(&it.refused.way));
    of_ways.flat_map(|it| [it.accepted, it.refused]).collect()
}

/// Carryings of these ways to which one number applies, or more.
pub(super) fn refused_for_several(ways: &[Way]) -> Vec<Carrying> {
    let mut calls = Vec::new();
    for way in ways {
        let numbers = refusals::numbers_of(*way);
        for set in 1u32..1 << numbers.len() {
            let given = numbers.iter().enumerate().filter(|(bit, _)| set >> bit & 1 == 1);
            let given: Vec<u32> = given.map(|(_, number)| *number).collect();
            calls.push(refusals::carrying_refused_for(*way, &given));
        }
    }
    calls
}

pub(super) fn node(mark: u8, root: bool, atoms: &[i32]) -> Option<Node> {
    Some(Node { mark, root, label: Label::of(atoms) })
}

pub(super) fn edge(mark: u8, source: u16, target: u16, atoms: &[i32]) -> Option<Edge> {
    Some(Edge { mark, source, target, label: Label::of(atoms) })
}

/// Every mark, roots, labels of each length that both layouts hold, loops, parallel edges, and free slots between the others.
fn every_kind() -> Host {
    Host {
        nodes: vec![
            node(mark::NONE, false, &[]),
            None,
            node(mark::RED, true, &[1]),
            node(mark::GREEN, false, &[-2, 2]),
            node(mark::BLUE, true, &[i32::MAX, i32::MIN, 0]),
            None,
            node(mark::GREY, false, &[1, 2, 3, 4]),
        ],
        edges: vec![
            edge(mark::DASHED, 0, 2, &[]),
            None,
            edge(mark::NONE, 6, 6, &[9]),
            edge(mark::RED, 3, 4, &[258, -1]),
            edge(mark::GREEN, 3, 4, &[258, -1, 0]),
            edge(mark::BLUE, 4, 3, &[-1, -2, -3, -4]),
            None,
        ],
    }
}

fn without_edges() -> Host {
    Host { edges: Vec::new(), ..every_kind() }
}

/// The longest label that the old layout can't hold, in the last slot of a long table.
fn long_label_behind() -> Host {
    let mut nodes = vec![None; 20];
    nodes.push(node(mark::NONE, true, &[0; Layout::BASE.atoms]));
    Host { nodes, edges: Vec::new() }
}

/// More edge slots than one byte counts, every seventh of them free.
fn many_edges() -> Host {
    let atoms = [i32::MIN, -1, 1, 256];
    let one = |slot: u16| (slot % 7 != 3).then(|| edge(mark::DASHED, slot % 2, 1, &atoms[..slot as usize % 5])).flatten();
    Host { nodes: vec![node(mark::NONE, false, &[]); 2], edges: (0..260).map(one).collect() }
}

/// Hosts of drawn images carried each way where their tables are read, and back; some with a byte changed.
fn drawn() -> Vec<Carrying> {
    let mut calls = Vec::new();
    for index in 0..DRAWN {
        let image = corpus::image(SEED, corpus::fixed_count() + index);
        let random = &mut Random::of_index(SEED, index);
        calls.extend(listing::read_input(&image).into_iter().flat_map(|input| of_tables(random, input.nodes, input.edges)));
    }
    calls
}

/// Narrow of these tables, and widen of what it leaves.
fn of_tables(random: &mut Random, nodes: Vec<u8>, edges: Vec<u8>) -> Vec<Carrying> {
    let (from, to) = (Way::Narrow.from(), Way::Narrow.to());
    let slots = [nodes.len() / from.node_length(), edges.len() / from.edge_length()];
    if slots.iter().sum::<usize>() > MOST_SLOTS {
        return Vec::new();
    }
    let [to_nodes, to_edges] = [slots[0] * to.node_length(), slots[1] * to.edge_length()].map(|bytes| filled(random, bytes));
    let narrow = Carrying { way: Way::Narrow, call: CarryCall { nodes, edges, to_nodes, to_edges } };
    let left = narrow.call.outcome(narrow.way);
    let mut calls = vec![narrow.clone()];
    if left.answer == answer::RESULT {
        let [to_nodes, to_edges] = [narrow.call.nodes.len(), narrow.call.edges.len()].map(|bytes| filled(random, bytes));
        let call = CarryCall { nodes: left.nodes, edges: left.edges, to_nodes, to_edges };
        calls.push(Carrying { way: Way::Widen, call });
    }
    let changed = calls.iter().filter(|_| random.chance(20)).cloned().collect::<Vec<Carrying>>();
    calls.extend(changed.into_iter().filter_map(|carrying| with_a_byte_changed(random, carrying)));
    calls
}

/// Bytes that aren't zero.
pub(super) fn filled(random: &mut Random, bytes: usize) -> Vec<u8> {
    (0..bytes).map(|_| random.byte() | 1).collect()
}

pub(super) fn with_a_byte_changed(random: &mut Random, mut carrying: Carrying) -> Option<Carrying> {
    let of_nodes = random.chance(50);
    let table = if of_nodes { &mut carrying.call.nodes } else { &mut carrying.call.edges };
    if table.is_empty() {
        return None;
    }
    let at = random.below(table.len());
    table[at] ^= 1 << random.below(8);
    Some(carrying)
}

/// One host with every kind of label that the old layout has.
pub fn widen() -> Stored {
    let host = every_kind();
    stored(Way::Widen, carrying::tables(&host.node_table(&Layout::FOUR), &host.edge_table(&Layout::FOUR)))
}

/// The same host the other way.
pub fn narrow() -> Stored {
    let host = every_kind();
    stored(Way::Narrow, carrying::tables(&host.node_table(&Layout::BASE), &host.edge_table(&Layout::BASE)))
}

fn stored(way: Way, stdin: Vec<u8>) -> Stored {
    let stdout = carrying::output(way, &stdin);
    Stored { stdin, stdout }
}
