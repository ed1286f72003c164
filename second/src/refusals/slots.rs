//! Damages that break the layout of lent tables, which every call that reads a host refuses by the number 15. They are stated
//! for a host of three node slots and three edge slots, those of number 1 free: node 0 and edge 0 have empty labels, node 2 has
//! a label of two atoms and edge 2 one of three, or of the most that the host's labels have, and edge 0 runs from node 0 to node 2.

use std::ops::Range;

use crate::layout::{place, Layout, ATOM_BYTES};
use crate::tree::mark;

/// Bytes of one table set to a value.
pub(super) struct Damage {
    pub name: String,
    kind: Kind,
    bytes: Range<usize>,
    value: u8,
}

#[derive(Clone, Copy)]
enum Kind {
    Node,
    Edge,
}

impl Damage {
    fn of_byte(name: &str, kind: Kind, at: usize, value: u8) -> Damage {
        Damage { name: name.to_string(), kind, bytes: at..at + 1, value }
    }

    pub fn apply(&self, nodes: &mut [u8], edges: &mut [u8]) {
        let table = match self.kind {
            Kind::Node => nodes,
            Kind::Edge => edges,
        };
        table[self.bytes.clone()].fill(self.value);
    }
}

/// Which of the bytes that must be zero are changed.
#[derive(Clone, Copy)]
pub(super) enum Zeros {
    Each,
    /// Of an atom only the last one.
    OneOfAnAtom,
}

/// One byte changed in either table, or a node taken away that an edge needs, where labels have at most so many atoms.
pub(super) fn damages(layout: &Layout, most_atoms: usize, zeros: Zeros) -> Vec<Damage> {
    let tables = [Table::of_nodes(layout, most_atoms), Table::of_edges(layout, most_atoms)];
    let mut list: Vec<Damage> = tables.iter().flat_map(|table| table.damages(zeros)).collect();
    list.extend(damaged_ends(layout));
    list
}

/// What differs between the damages of the two tables.
struct Table {
    kind: Kind,
    item: &'static str,
    /// The bytes of a slot, the place of its first atom, and the atoms that a label may have.
    slot: usize,
    atoms: usize,
    most_atoms: usize,
    /// A mark that only the other kind has.
    foreign_mark: (&'static str, u8),
    /// Illegal values of the third byte.
    third_bytes: &'static [(&'static str, u8)],
    /// The atoms of the label in slot 2, and a byte of the atom behind them.
    label: usize,
    behind: usize,
}

impl Table {
    fn of_nodes(layout: &Layout, most_atoms: usize) -> Table {
        Table {
            kind: Kind::Node,
            item: "node",
            slot: layout.node_length(),
            atoms: layout.node_atoms(),
            most_atoms: layout.atoms,
            foreign_mark: ("dashed node", mark::DASHED),
            third_bytes: &[("node root 2", 2), ("node root 255", 255)],
            label: most_atoms.min(2),
            behind: 3,
        }
    }

    fn of_edges(layout: &Layout, most_atoms: usize) -> Table {
        Table {
            kind: Kind::Edge,
            item: "edge",
            slot: layout.edge_length(),
            atoms: layout.edge_atoms(),
            most_atoms: layout.atoms,
            foreign_mark: ("grey edge", mark::GREY),
            third_bytes: &[("edge with third byte 1", 1)],
            label: most_atoms.min(3),
            behind: 0,
        }
    }

    fn damages(&self, zeros: Zeros) -> Vec<Damage> {
        let lists = [self.states(), self.marks(), self.third_bytes(), self.labels(), self.zeros(zeros)];
        lists.into_iter().flatten().collect()
    }

    fn byte(&self, name: &str, at: usize, value: u8) -> Damage {
        Damage::of_byte(name, self.kind, at, value)
    }

    fn states(&self) -> Vec<Damage> {
        let named = |words: &str, slot: usize, value: u8| {
            let name = format!("{} state {words}", self.item);
            self.byte(&name, slot * self.slot + place::STATE, value)
        };
        vec![named("2", 0, 2), named("255", 0, 255), named("0 on a live slot", 2, 0)]
    }

    fn marks(&self) -> Vec<Damage> {
        let (foreign, value) = self.foreign_mark;
        vec![
            self.byte(foreign, place::MARK, value),
            self.byte(&format!("{} of mark any", self.item), place::MARK, mark::ANY),
            self.byte(&format!("{} mark 255", self.item), place::MARK, 255),
        ]
    }

    /// The root flag of node 0, or the byte of edge 0 that is zero.
    fn third_bytes(&self) -> Vec<Damage> {
        self.third_bytes.iter().map(|(name, value)| self.byte(name, place::ROOT, *value)).collect()
    }

    /// Lengths that no label has, and a label whose length isn't that of its atoms.
    fn labels(&self) -> Vec<Damage> {
        let length = |words: &str, slot: usize, value: u8| {
            let name = format!("{} label {words}", self.item);
            self.byte(&name, slot * self.slot + place::LABEL_LENGTH, value)
        };
        let mut list = vec![
            length("of an atom too many", 0, self.most_atoms as u8 + 1),
            length("of 255 atoms", 0, 255),
        ];
        if self.label < self.most_atoms {
            let next_atom = 2 * self.slot + self.atoms + self.label * ATOM_BYTES;
            let name = format!("{} label with another atom behind it", self.item);
            list.push(self.byte(&name, next_atom + self.behind, 1));
        }
        list.push(length("cut by an atom", 2, self.label as u8 - 1));
        list
    }

    /// Bytes that must be zero in slot 1, which is free, and in the label of slot 0, which is empty.
    fn zeros(&self, zeros: Zeros) -> Vec<Damage> {
        let not_zero = |words: &str, slot: usize, at: usize| {
            let name = format!("{words} with byte {at} not zero");
            self.byte(&name, slot * self.slot + at, 1)
        };
        let (free, empty) = (format!("free {} slot", self.item), format!("empty {} label", self.item));
        let changed = |at: &usize| self.is_changed(zeros, *at);
        let of_free = (1..self.slot).filter(changed).map(|at| not_zero(&free, 1, at));
        let of_empty = (self.atoms..self.slot).filter(changed).map(|at| not_zero(&empty, 0, at));
        of_free.chain(of_empty).collect()
    }

    fn is_changed(&self, zeros: Zeros, at: usize) -> bool {
        match zeros {
            Zeros::Each => true,
            Zeros::OneOfAnAtom => at < self.atoms || (at + 1 - self.atoms) % ATOM_BYTES == 0,
        }
    }
}

/// Edge 0 led elsewhere, and node 2 taken away, at which edges end.
fn damaged_ends(layout: &Layout) -> Vec<Damage> {
    let (source, target) = (layout.edge_source(), layout.edge_target());
    let end = |name: &str, at: usize, value: u8| Damage::of_byte(name, Kind::Edge, at, value);
    let last_node = 2 * layout.node_length()..3 * layout.node_length();
    let [far_source, far_target] = match layout.width {
        1 => [end("source 255", source.start, 255), end("target 128", target.start, 128)],
        _ => [end("source 256", source.start, 1), end("target 258", target.start, 1)],
    };
    vec![
        end("source in a free slot", source.end - 1, 1),
        end("target in a free slot", target.end - 1, 1),
        end("source behind the table", source.end - 1, 3),
        end("target behind the table", target.end - 1, 3),
        far_source,
        far_target,
        Damage { name: "ends in a slot that became free".to_string(), kind: Kind::Node, bytes: last_node, value: 0 },
    ]
}
