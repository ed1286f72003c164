//! The layout of the tables and the journal as a value: the most slots of each, the atoms of a label, the width of a
//! slot number, and from these the length of a slot and the place of each byte in it. It is handed to whoever reads or
//! writes bytes, so runs of different layouts stand side by side. A core makes the calls run and undo at its layout.

use std::ops::Range;

/// The bytes of an atom.
pub const ATOM_BYTES: usize = 4;

/// Places that are the same in every layout.
pub mod place {
    /// In a node or edge slot: 0 free or 1 live.
    pub const STATE: usize = 0;
    pub const MARK: usize = 1;
    /// A node's root flag.
    pub const ROOT: usize = 2;
    /// The byte of an edge that is zero.
    pub const ZERO: usize = 2;
    pub const LABEL_LENGTH: usize = 3;
    /// In a journal record.
    pub const KIND: usize = 0;
}

/// The bytes of a slot before a node's atoms or an edge's ends.
const HEAD: usize = place::LABEL_LENGTH + 1;

#[derive(Clone, Copy, Debug, PartialEq, Eq)]
pub struct Layout {
    /// The most atoms of a label.
    pub atoms: usize,
    /// The bytes of a slot number, one or two.
    pub width: usize,
    pub most_nodes: usize,
    pub most_edges: usize,
    pub most_records: usize,
}

impl Layout {
    /// The layout of the wide core.
    pub const BASE: Layout = Layout {
        atoms: 8,
        width: 2,
        most_nodes: 512,
        most_edges: 1024,
        most_records: 1024,
    };

    /// The layout of old tables, which are carried to the base layout and back.
    pub const FOUR: Layout = Layout {
        atoms: 4,
        ..Layout::BASE
    };

    /// The layout of the small core.
    pub const SMALL: Layout = Layout {
        atoms: 1,
        width: 1,
        most_nodes: 128,
        most_edges: 255,
        most_records: 255,
    };

    /// Whether a label can have so many atoms.
    pub const fn holds(&self, atoms: usize) -> bool {
        atoms <= self.atoms
    }
}

/// A core of the interpreter.
#[derive(Clone, Copy, Debug, Default, PartialEq, Eq)]
pub enum Core {
    #[default]
    Wide,
    Small,
}

impl Core {
    pub const BOTH: [Core; 2] = [Core::Wide, Core::Small];

    pub const fn layout(self) -> &'static Layout {
        match self {
            Core::Wide => &Layout::BASE,
            Core::Small => &Layout::SMALL,
        }
    }

    pub const fn name(self) -> &'static str {
        match self {
            Core::Wide => "wide",
            Core::Small => "small",
        }
    }

    /// The core of that name.
    pub fn named(name: &str) -> Option<Core> {
        Core::BOTH.into_iter().find(|core| core.name() == name)
    }
}

/// Lengths in bytes.
impl Layout {
    pub const fn node_length(&self) -> usize {
        self.node_atoms() + self.label_bytes()
    }

    pub const fn edge_length(&self) -> usize {
        self.edge_atoms() + self.label_bytes()
    }

    /// A record has room for an edge slot, the longer of the two kinds.
    pub const fn record_length(&self) -> usize {
        self.record_before() + self.edge_length()
    }

    /// The atoms of a slot, unused ones included.
    const fn label_bytes(&self) -> usize {
        ATOM_BYTES * self.atoms
    }

    /// Whether a node table can have so many bytes.
    pub const fn is_node_table(&self, bytes: usize) -> bool {
        is_table(bytes, self.node_length(), self.most_nodes)
    }

    /// Whether an edge table can have so many bytes.
    pub const fn is_edge_table(&self, bytes: usize) -> bool {
        is_table(bytes, self.edge_length(), self.most_edges)
    }

    /// Whether a journal can have so many bytes.
    pub const fn is_journal(&self, bytes: usize) -> bool {
        is_table(bytes, self.record_length(), self.most_records)
    }
}

/// Whole slots, and not too many of them.
const fn is_table(bytes: usize, slot: usize, most: usize) -> bool {
    bytes % slot == 0 && bytes / slot <= most
}

/// Places that depend on the width of a slot number: where something starts, or the range that it takes.
impl Layout {
    pub const fn node_atoms(&self) -> usize {
        HEAD
    }

    pub const fn edge_source(&self) -> Range<usize> {
        HEAD..HEAD + self.width
    }

    pub const fn edge_target(&self) -> Range<usize> {
        HEAD + self.width..HEAD + 2 * self.width
    }

    pub const fn edge_atoms(&self) -> usize {
        HEAD + 2 * self.width
    }

    /// The zeros between a record's kind and its slot number, which fill the kind up to the width of a slot number.
    pub const fn record_zeros(&self) -> Range<usize> {
        place::KIND + 1..self.width
    }

    pub const fn record_slot(&self) -> Range<usize> {
        self.width..2 * self.width
    }

    /// What the slot held before.
    pub const fn record_before(&self) -> usize {
        2 * self.width
    }
}

/// Writing.
impl Layout {
    /// A slot number as bytes.
    pub fn slot_number(&self, slot: u16) -> Vec<u8> {
        let bytes = slot.to_be_bytes();
        let (unused, used) = bytes.split_at(bytes.len() - self.width);
        assert!(
            unused.iter().all(|byte| *byte == 0),
            "slot {slot} is too wide for the layout"
        );
        used.to_vec()
    }

    /// A live node slot.
    pub fn node_slot(&self, mark: u8, root: bool, atoms: &[i32]) -> Vec<u8> {
        let mut slot = vec![0; self.node_length()];
        slot[place::ROOT] = u8::from(root);
        self.put_head(&mut slot, mark, atoms);
        put_atoms(&mut slot[self.node_atoms()..], atoms);
        slot
    }

    /// A live edge slot.
    pub fn edge_slot(&self, mark: u8, source: u16, target: u16, atoms: &[i32]) -> Vec<u8> {
        let mut slot = vec![0; self.edge_length()];
        self.put_head(&mut slot, mark, atoms);
        slot[self.edge_source()].copy_from_slice(&self.slot_number(source));
        slot[self.edge_target()].copy_from_slice(&self.slot_number(target));
        put_atoms(&mut slot[self.edge_atoms()..], atoms);
        slot
    }

    fn put_head(&self, slot: &mut [u8], mark: u8, atoms: &[i32]) {
        assert!(
            self.holds(atoms.len()),
            "{} atoms are too many for the layout",
            atoms.len()
        );
        slot[place::STATE] = 1;
        slot[place::MARK] = mark;
        slot[place::LABEL_LENGTH] = atoms.len() as u8;
    }
}

fn put_atoms(bytes: &mut [u8], atoms: &[i32]) {
    for (four, atom) in bytes.chunks_exact_mut(ATOM_BYTES).zip(atoms) {
        four.copy_from_slice(&atom.to_be_bytes());
    }
}

/// The slot number that these bytes write.
pub fn number_of(bytes: &[u8]) -> u16 {
    bytes
        .iter()
        .fold(0, |number, byte| number << 8 | u16::from(*byte))
}

/// The atoms that these bytes write.
pub fn atoms_of(bytes: &[u8]) -> Vec<i32> {
    let fours = bytes.chunks_exact(ATOM_BYTES);
    fours
        .map(|four| i32::from_be_bytes([four[0], four[1], four[2], four[3]]))
        .collect()
}
