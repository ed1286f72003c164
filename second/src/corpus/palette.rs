//! A palette: the few marks, atoms and label lengths that one image is drawn from. Host and rules share it, so
//! that what a rule asks for occurs in the host, and what a rule makes can be asked for again.

use crate::layout::Layout;
use crate::random::Random;
use crate::tree::mark;

const NODE_MARKS: [u8; 5] = [mark::NONE, mark::RED, mark::GREEN, mark::BLUE, mark::GREY];
const EDGE_MARKS: [u8; 5] = [mark::NONE, mark::RED, mark::GREEN, mark::BLUE, mark::DASHED];

/// How often a label of each length that the layout can hold comes, by weight: node labels, then edge labels.
const NODE_LENGTHS: [usize; Layout::BASE.atoms + 1] = [14, 36, 18, 11, 7, 4, 3, 2, 5];
const EDGE_LENGTHS: [usize; Layout::BASE.atoms + 1] = [48, 23, 9, 7, 4, 2, 2, 2, 3];

/// The lengths of a label of which node labels differ in the last atom alone, as often as they come.
const PATTERN_LENGTHS: [usize; 10] = [2, 2, 3, 3, 4, 4, 5, 6, 7, Layout::BASE.atoms];

/// Atoms at which a sum or difference leaves 32 bits easily.
const EXTREMES: [i32; 5] = [i32::MAX, i32::MIN, i32::MAX - 1, i32::MIN + 1, 0x4000_0000];

#[derive(Clone, Debug)]
pub struct Palette {
    /// The layout that the image is for.
    pub layout: &'static Layout,
    pub node_marks: Vec<u8>,
    pub edge_marks: Vec<u8>,
    pub atoms: Vec<i32>,
    node_lengths: Vec<usize>,
    edge_lengths: Vec<usize>,
    root_percent: usize,
    /// A label of which node labels differ in the last atom alone.
    pattern: Option<Vec<i32>>,
    /// Whether an atom is at the end of the range.
    pub extreme: bool,
}

impl Palette {
    pub fn draw(random: &mut Random, layout: &'static Layout) -> Palette {
        let atoms = some_atoms(random);
        let node_kinds = random.between(1, 3);
        let edge_kinds = random.between(1, 2);
        Palette {
            layout,
            node_marks: some_marks(random, NODE_MARKS, node_kinds),
            edge_marks: some_marks(random, EDGE_MARKS, edge_kinds),
            pattern: pattern(random, layout, &atoms),
            extreme: atoms.iter().any(|atom| EXTREMES.contains(atom)),
            atoms,
            node_lengths: lengths(random, &NODE_LENGTHS[..=layout.atoms]),
            edge_lengths: lengths(random, &EDGE_LENGTHS[..=layout.atoms]),
            root_percent: random.pick(&[0, 0, 10, 30, 60]),
        }
    }

    pub fn node_mark(&self, random: &mut Random) -> u8 {
        random.pick(&self.node_marks)
    }

    pub fn edge_mark(&self, random: &mut Random) -> u8 {
        random.pick(&self.edge_marks)
    }

    pub fn root(&self, random: &mut Random) -> bool {
        random.chance(self.root_percent)
    }

    pub fn atom(&self, random: &mut Random) -> i32 {
        random.pick(&self.atoms)
    }

    pub fn node_label(&self, random: &mut Random) -> Vec<i32> {
        if let Some(pattern) = &self.pattern {
            let (_, front) = pattern.split_last().expect("a pattern has atoms");
            return [front, &[self.atom(random)]].concat();
        }
        let length = random.pick(&self.node_lengths);
        self.label(random, length)
    }

    pub fn edge_label(&self, random: &mut Random) -> Vec<i32> {
        let length = random.pick(&self.edge_lengths);
        self.label(random, length)
    }

    fn label(&self, random: &mut Random, length: usize) -> Vec<i32> {
        (0..length).map(|_| self.atom(random)).collect()
    }
}

/// Some of the marks in rising order; none is among them mostly.
fn some_marks(random: &mut Random, all: [u8; 5], count: usize) -> Vec<u8> {
    let mut marks = all.to_vec();
    random.shuffle(&mut marks);
    marks.truncate(count);
    if random.chance(60) && !marks.contains(&mark::NONE) {
        marks[0] = mark::NONE;
    }
    marks.sort_unstable();
    marks
}

/// Two to four atoms: small ones mostly, now and then extremes or two that differ in one bit of a high byte.
fn some_atoms(random: &mut Random) -> Vec<i32> {
    let count = random.between(2, 4);
    let mut atoms: Vec<i32> = (0..count).map(|_| random.below(8) as i32).collect();
    if random.chance(30) {
        atoms[0] = -(random.between(1, 9) as i32);
    }
    if random.chance(25) {
        atoms[1] = random.pick(&EXTREMES);
    }
    if random.chance(10) {
        atoms[0] = random.next() as i32;
    }
    if random.chance(20) {
        atoms[1] = atoms[0] ^ (1 << random.pick(&[8, 16, 24, 31]));
    }
    atoms
}

fn pattern(random: &mut Random, layout: &Layout, atoms: &[i32]) -> Option<Vec<i32>> {
    let length = random.pick(&PATTERN_LENGTHS).min(layout.atoms);
    let drawn = (0..length).map(|_| random.pick(atoms)).collect();
    random.chance(20).then_some(drawn)
}

/// The lengths that a kind of label has: one to four values, shorter ones more often.
fn lengths(random: &mut Random, weights: &[usize]) -> Vec<usize> {
    let kinds = random.pick(&[1, 1, 2, 2, 4]);
    (0..kinds).map(|_| random.weighted(weights)).collect()
}
