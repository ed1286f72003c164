//! A graph spelled as its author might: other names than slot numbers, any white space, comments, positions, zeros before numbers.

use crate::host::{Edge, Host, Label, Node};
use crate::random::Random;
use crate::tree::mark;

use super::telling::{NAMES, NUMBERS, SEPARATORS};

/// A text of a graph's live slots, in their order.
pub fn spelled(random: &mut Random, host: &Host) -> Vec<u8> {
    let [nodes, edges] = [host.nodes.len(), host.edges.len()].map(|count| drawn_names(random, count));
    let gaps = random.pick(&[0, 10, 30, 60]);
    let mut speller = Speller { random, gaps, text: Vec::new() };
    speller.words(&["", "["]);
    for (slot, node) in host.live_nodes() {
        speller.node(&nodes[slot], node);
    }
    speller.words(&["|"]);
    for (slot, edge) in host.live_edges() {
        let [source, target] = [edge.source, edge.target].map(|end| &nodes[usize::from(end)]);
        speller.edge([&edges[slot], source, target], edge);
    }
    speller.words(&["]"]);
    speller.text
}

/// So many different names: short, long, numbers and words of the notation.
fn drawn_names(random: &mut Random, count: usize) -> Vec<String> {
    let first = random.below(NAMES.len());
    let name = |number: usize| match (first + number) / NAMES.len() {
        0 => NAMES[first + number].to_string(),
        round => format!("{}_{round}", NAMES[(first + number) % NAMES.len()]),
    };
    (0..count).map(name).collect()
}

struct Speller<'a> {
    random: &'a mut Random,
    /// Of a hundred words so many have something between them and the next.
    gaps: usize,
    text: Vec<u8>,
}

impl Speller<'_> {
    fn words(&mut self, words: &[&str]) {
        for word in words {
            self.text.extend(word.as_bytes());
            while self.random.chance(self.gaps) {
                self.text.extend(self.random.pick(&SEPARATORS).as_bytes());
            }
        }
    }

    fn node(&mut self, name: &str, node: &Node) {
        self.words(&["(", name]);
        if node.root {
            self.words(&["(", "R", ")"]);
        }
        self.words(&[","]);
        self.label(&node.label, node.mark);
        self.position();
        self.words(&[")"]);
        self.position();
    }

    fn edge(&mut self, [name, source, target]: [&str; 3], edge: &Edge) {
        self.words(&["(", name, ",", source, ",", target, ","]);
        self.label(&edge.label, edge.mark);
        self.words(&[")"]);
    }

    fn label(&mut self, label: &Label, number: u8) {
        if label.atoms().is_empty() {
            self.words(&["empty"]);
        }
        for (place, atom) in label.atoms().iter().enumerate() {
            if place > 0 {
                self.words(&[":"]);
            }
            if *atom < 0 || *atom == 0 && self.random.chance(30) {
                self.words(&["-"]);
            }
            let zeros = "0".repeat(self.random.weighted(&[80, 10, 10]));
            self.words(&[&format!("{zeros}{}", atom.unsigned_abs())]);
        }
        if number != mark::NONE {
            self.words(&["#", mark::NAMES[usize::from(number)]]);
        }
    }

    fn position(&mut self) {
        if self.random.chance(15) {
            let (x, y) = (self.random.pick(&NUMBERS), self.random.pick(&NUMBERS));
            self.words(&["<", x, ",", y, ">"]);
        }
    }
}
