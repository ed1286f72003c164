//! The refusals of the calls widen, narrow, pack and unpack.

use super::packing;
use super::slots::{damages, Damage, Zeros};
use super::{refusal, Refusal, UNTOUCHED};
use crate::carrying::{CarryCall, Way};
use crate::host::{Edge, Host, Label, Node};
use crate::layout::{place, Layout};
use crate::tree::mark;

/// A carrying and its way.
#[derive(Clone, Debug, PartialEq, Eq)]
pub struct Carrying {
    pub way: Way,
    pub call: CarryCall,
}

impl Carrying {
    /// Of a host that both tables of the layout can hold, to as many slots of bytes that a change shows in.
    pub fn of(way: Way, host: &Host) -> Carrying {
        Carrying::to_slots(way, host, host.nodes.len(), host.edges.len())
    }

    /// The same, to so many node and edge slots.
    pub fn to_slots(way: Way, host: &Host, node_slots: usize, edge_slots: usize) -> Carrying {
        let (from, to) = (way.from(), way.to());
        let call = CarryCall {
            nodes: host.node_table(from),
            edges: host.edge_table(from),
            to_nodes: vec![UNTOUCHED; node_slots * to.node_length()],
            to_edges: vec![UNTOUCHED; edge_slots * to.edge_length()],
        };
        Carrying { way, call }
    }

    fn with(mut self, edit: impl Fn(&mut CarryCall)) -> Carrying {
        edit(&mut self.call);
        self
    }
}

/// Nodes 0 and 2 of three slots live, edges 0 and 2 of three likewise. Their labels have two and three atoms where both layouts can
/// hold as many.
pub(super) fn host(way: Way) -> Host {
    let most = most_atoms(way);
    let label = |atoms: &[i32]| Label::of(&atoms[..atoms.len().min(most)]);
    let node = |mark, root, atoms: &[i32]| Node { mark, root, label: label(atoms) };
    let edge = |mark, source, target, atoms: &[i32]| Edge { mark, source, target, label: label(atoms) };
    Host {
        nodes: vec![Some(node(mark::NONE, false, &[])), None, Some(node(mark::GREY, true, &[7, -7]))],
        edges: vec![Some(edge(mark::NONE, 0, 2, &[])), None, Some(edge(mark::DASHED, 2, 2, &[1, 2, 3]))],
    }
}

/// The most atoms of a label that both layouts can hold.
fn most_atoms(way: Way) -> usize {
    way.from().atoms.min(way.to().atoms)
}

fn accepted(way: Way) -> Carrying {
    Carrying::of(way, &host(way))
}

/// The refusals of the calls, each beside an accepted carrying: of widen and narrow, then of pack and unpack.
pub fn of_carrying() -> Vec<Refusal<Carrying>> {
    let mut refusals = Vec::new();
    for way in Way::OLD {
        refusals.extend(tables(way).iter().flat_map(|table| lengths(way, table, &SLOTS)));
        refusals.push(too_many_nodes(way));
        refusals.extend(layout(way));
    }
    refusals.extend(labels(Way::Narrow, 26, &[5, 6, 7, 8]));
    for way in Way::PACKING {
        refusals.extend(tables(way).iter().flat_map(|table| lengths(way, table, &[])));
        refusals.extend(packing::too_many_slots(way));
        refusals.extend(layout(way));
        refusals.extend(packing::live_slots(way));
    }
    refusals.extend(labels(Way::Pack, 29, &[2, 8]));
    refusals
}

/// The numbers that can refuse a carrying of this way, in their order.
pub fn numbers_of(way: Way) -> &'static [u32] {
    match way {
        Way::Widen => &[10, 11, 15],
        Way::Narrow => &[10, 11, 15, 26],
        Way::Pack | Way::Unpack => &[10, 11, 15, 29],
    }
}

/// A carrying that is refused for each of these numbers of its way, and for no other.
pub fn carrying_refused_for(way: Way, numbers: &[u32]) -> Carrying {
    let given = |number: u32| numbers.contains(&number);
    let mut host = host(way);
    let unfit = given(26) || given(29);
    if unfit && way.from().atoms > way.to().atoms {
        host.nodes[0] = Some(Node { mark: mark::NONE, root: false, label: Label::of(&[5; Layout::BASE.atoms]) });
    }
    let mut carrying = Carrying::of(way, &host);
    if unfit && way == Way::Unpack {
        carrying.call.to_nodes.truncate(2 * way.to().node_length());
    }
    if given(15) {
        carrying.call.edges[place::MARK] = mark::GREY;
    }
    if given(10) {
        carrying.call.to_nodes.push(0);
    }
    if given(11) {
        carrying.call.edges.push(0);
    }
    carrying
}

/// One of the four tables of a carrying.
struct Table {
    words: &'static str,
    /// The number that refuses its length.
    answer: u32,
    slot: usize,
    buffer: fn(&mut CarryCall) -> &mut Vec<u8>,
}

fn tables(way: Way) -> [Table; 4] {
    let (from, to) = (way.from(), way.to());
    [
        Table { words: "node table", answer: 10, slot: from.node_length(), buffer: |call| &mut call.nodes },
        Table { words: "node table carried to", answer: 10, slot: to.node_length(), buffer: |call| &mut call.to_nodes },
        Table { words: "edge table", answer: 11, slot: from.edge_length(), buffer: |call| &mut call.edges },
        Table { words: "edge table carried to", answer: 11, slot: to.edge_length(), buffer: |call| &mut call.to_edges },
    ]
}

/// Slots more or less than the other side has, in words and their number. They refuse only where as many are asked for.
const SLOTS: [(&str, isize); 4] = [("with a slot more", 1), ("with a slot less", -1), ("with two slots less", -2), ("of no slots", -3)];

/// Lengths that are no multiple of a slot, or of another number of slots by these.
fn lengths(way: Way, table: &Table, slots: &[(&str, isize)]) -> Vec<Refusal<Carrying>> {
    let slot = table.slot as isize;
    let changed = |name: &str, more: isize| {
        let refused = accepted(way).with(|call| {
            let buffer = (table.buffer)(call);
            let length = buffer.len().checked_add_signed(more);
            buffer.resize(length.expect("three slots can lose as many"), 0);
        });
        refusal(&format!("{way:?}, {} {name}", table.words), table.answer, accepted(way), refused)
    };
    let mut list = vec![
        changed("with a byte more", 1),
        changed("with a byte less", -1),
        changed("with all but a byte of a slot more", slot - 1),
    ];
    list.extend(slots.iter().map(|(words, more)| changed(words, more * slot)));
    list
}

/// Both node tables of a slot too many, beside full ones, with edges between the nodes of the greatest numbers. Full edge tables
/// of both layouts find no room in one stored case.
fn too_many_nodes(way: Way) -> Refusal<Carrying> {
    let last = way.from().most_nodes as u16 - 1;
    let node = |slot: u16| Node {
        mark: slot as u8 % 5,
        root: slot % 3 == 0,
        label: Label::of(&[slot.into(), -1, 0, 7][..slot as usize % 5]),
    };
    let edge = |slot: u16| Edge { mark: mark::NONE, source: last - slot, target: 255 + slot, label: Label::of(&[slot.into()]) };
    let full = Host { nodes: (0..=last).map(|slot| Some(node(slot))).collect(), edges: (0..16).map(|slot| Some(edge(slot))).collect() };
    let mut over = full.clone();
    over.nodes.push(None);
    let name = format!("{way:?}, node tables of a slot too many");
    refusal(&name, 10, Carrying::of(way, &full), Carrying::of(way, &over))
}

fn broken(way: Way, name: &str, edit: impl Fn(&mut CarryCall)) -> Refusal<Carrying> {
    refusal(&format!("{way:?}, {name}"), 15, accepted(way), accepted(way).with(edit))
}

/// The number 15: the damages at the layout that the host is carried from, and no node slots on either side. With every byte of the
/// atoms the stored cases would have no room for drawn hosts.
fn layout(way: Way) -> Vec<Refusal<Carrying>> {
    let broken_by = |damage: &Damage| broken(way, &damage.name, |call| damage.apply(&mut call.nodes, &mut call.edges));
    let mut list: Vec<Refusal<Carrying>> = damages(way.from(), most_atoms(way), Zeros::OneOfAnAtom).iter().map(broken_by).collect();
    list.push(broken(way, "live edges and no node slots", |call| {
        call.nodes.clear();
        call.to_nodes.clear();
    }));
    list
}

/// Labels of so many atoms, in the first and the last slot of either table, which this number refuses, beside labels of the most
/// atoms that are carried.
fn labels(way: Way, answer: u32, lengths: &[usize]) -> Vec<Refusal<Carrying>> {
    let mut list = Vec::new();
    for length in lengths {
        for slot in [0, 2] {
            for item in ["node", "edge"] {
                let of_atoms = |atoms: usize| Carrying::of(way, &labelled(way, item == "node", slot, atoms));
                let name = format!("{way:?}, {item} label of {length} atoms in slot {slot}");
                list.push(refusal(&name, answer, of_atoms(way.to().atoms), of_atoms(*length)));
            }
        }
    }
    list
}

/// The host with another label of so many atoms in a live slot.
fn labelled(way: Way, of_node: bool, slot: usize, atoms: usize) -> Host {
    let mut host = host(way);
    let label = Label::of(&vec![-3; atoms]);
    match of_node {
        true => host.nodes[slot].iter_mut().for_each(|node| node.label = label.clone()),
        false => host.edges[slot].iter_mut().for_each(|edge| edge.label = label.clone()),
    }
    host
}
