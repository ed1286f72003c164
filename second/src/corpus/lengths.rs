//! What an image has of long labels, of labels that are too long, and of tables of a foreign layout.

use super::foreign;
use super::statistics::named_numbers;
use crate::answer;
use crate::decode;
use crate::encode::RunnerInput;
use crate::exercised::{count_long, FIRST_LONG, LONG};
use crate::host::Host;
use crate::layout::{place, Layout};

/// Of one image: labels of a host whose run starts by their atoms, and what it is refused for.
#[derive(Default)]
pub struct Lengths {
    node_atoms: [u64; LONG],
    edge_atoms: [u64; LONG],
    /// A label of an atom or an element too many.
    too_many_atoms: u64,
    too_many_elements: u64,
    /// Tables of a foreign layout, by the answers 10, 11 and 15.
    foreign_tables: [u64; 3],
}

/// The answers to tables of a foreign layout that are lent as they are.
const OF_FOREIGN_TABLES: [u32; 3] = [answer::NODE_TABLE, answer::EDGE_TABLE, answer::LAYOUT];

impl Lengths {
    pub fn of(layout: &Layout, input: &RunnerInput, answer: u32) -> Lengths {
        let mut lengths = Lengths::default();
        match answer {
            answer::FORM => lengths.too_many_elements = u64::from(has_too_many_elements(&input.program)),
            answer::LAYOUT => lengths.too_many_atoms = u64::from(has_too_many_atoms(layout, input)),
            number if number < answer::REPORT => lengths.count_labels(layout, input),
            _ => {}
        }
        for (count, number) in lengths.foreign_tables.iter_mut().zip(OF_FOREIGN_TABLES) {
            *count = u64::from(number == answer && is_of_foreign_layout(layout, input));
        }
        lengths
    }

    fn count_labels(&mut self, layout: &Layout, input: &RunnerInput) {
        let host = Host::read(layout, &input.nodes, &input.edges).expect("a run that starts has a host");
        for (_, node) in host.live_nodes() {
            count_long(&mut self.node_atoms, node.label.atoms().len());
        }
        for (_, edge) in host.live_edges() {
            count_long(&mut self.edge_atoms, edge.label.atoms().len());
        }
    }

    pub fn named(&self) -> Vec<(String, u64)> {
        let mut named = named_numbers("node label atoms", FIRST_LONG, &self.node_atoms);
        named.extend(named_numbers("edge label atoms", FIRST_LONG, &self.edge_atoms));
        named.push(("refused for an atom".to_string(), self.too_many_atoms));
        named.push(("refused for an element".to_string(), self.too_many_elements));
        let foreign = OF_FOREIGN_TABLES.iter().zip(self.foreign_tables);
        named.extend(foreign.map(|(number, count)| (format!("foreign tables, answer {number}"), count)));
        named
    }
}

/// Whether a label of the image has more elements than there may be.
fn has_too_many_elements(program: &[u8]) -> bool {
    decode::program(program).is_err_and(|damage| damage.expected == decode::MOST_ELEMENTS)
}

/// Whether a live slot says that its label has an atom too many.
fn has_too_many_atoms(layout: &Layout, input: &RunnerInput) -> bool {
    let says = |slot: &[u8]| slot[place::STATE] == 1 && usize::from(slot[place::LABEL_LENGTH]) == layout.atoms + 1;
    let mut nodes = input.nodes.chunks(layout.node_length());
    nodes.any(says) || input.edges.chunks(layout.edge_length()).any(says)
}

/// Whether both tables keep the foreign layout, with a live slot.
fn is_of_foreign_layout(layout: &Layout, input: &RunnerInput) -> bool {
    let foreign = foreign(layout);
    let whole = foreign.is_node_table(input.nodes.len()) && foreign.is_edge_table(input.edges.len());
    let host = whole.then(|| Host::read(foreign, &input.nodes, &input.edges).ok());
    host.flatten().is_some_and(|host| host.live_nodes().next().is_some())
}
