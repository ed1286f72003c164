//! Inputs about long labels: rule labels of up to eight elements on both sides, list variables that stand for up to eight atoms,
//! labels that differ in one atom, labels put together to the most atoms and to more, and tables of the old layout.

use super::LAYOUT;
use crate::build::*;
use crate::encode::{self, edge_slot, node_slot, RunnerInput};
use crate::exercised::FIRST_LONG;
use crate::layout::Layout;
use crate::tree::*;

pub fn long_labels() -> Vec<RunnerInput> {
    let mut inputs: Vec<RunnerInput> = (FIRST_LONG..=LAYOUT.atoms).flat_map(|length| [turned(length), listed(length)]).collect();
    inputs.extend(every_split().into_iter().map(around_list));
    inputs.extend((0..=LAYOUT.atoms).flat_map(|place| [node_differs(place), edge_differs(place)]));
    inputs.extend(JOINED.iter().flat_map(|(first, second)| [joined_on_node(*first, *second), joined_on_edge(*first, *second)]));
    inputs.extend(REPEATED.iter().map(|(elements, atoms)| repeated(*elements, *atoms)));
    inputs.extend(OLD_TABLES.iter().map(|(nodes, edges, live)| old_tables(*nodes, *edges, *live)));
    inputs
}

/// The atoms 1, 2 and so on.
fn atoms(length: usize) -> Vec<i32> {
    (1..).take(length).collect()
}

fn constants(atoms: &[i32]) -> Vec<Element> {
    atoms.iter().map(|atom| Element::Constant(*atom)).collect()
}

/// One rule, applied once, on nodes with these labels and one edge from the first to the last.
fn on_labels(nodes: &[Vec<i32>], edge: &[i32], rule: Rule) -> RunnerInput {
    let last = nodes.len() as u16 - 1;
    RunnerInput {
        nodes: nodes.iter().flat_map(|atoms| node_slot(mark::NONE, false, atoms)).collect(),
        edges: edge_slot(mark::NONE, 0, last, edge).to_vec(),
        records: 8,
        fuel: 1,
        program: encode::program(&Program::without_procedures(vec![rule], call(0))),
    }
}

/// A node and a loop at it, both with a label of so many atoms: the rule names every other atom by a variable, and each label
/// becomes the other one turned round.
fn turned(length: usize) -> RunnerInput {
    let of_node: Vec<Element> = (0..length).map(|place| named(place, place as i32 + 1)).collect();
    let of_edge = constants(&atoms(length));
    let back = |label: &[Element]| label.iter().rev().copied().collect::<Vec<Element>>();
    let left = (vec![node(mark::NONE, &of_node)], vec![edge(mark::NONE, 0, 0, &of_edge)]);
    let right = (vec![node(mark::RED, &back(&of_edge))], vec![edge(mark::RED, 0, 0, &back(&of_node))]);
    let rule = Rule { variables: vec![VariableType::Int; length / 2], ..rule(left, right, 1) };
    on_labels(&[atoms(length)], &atoms(length), rule)
}

/// A variable at every second place, else this atom.
fn named(place: usize, atom: i32) -> Element {
    match place % 2 {
        0 => Element::Constant(atom),
        _ => Element::Variable(place as u8 / 2),
    }
}

/// A list variable stands for a label of so many atoms, which an edge and another node get.
fn listed(length: usize) -> RunnerInput {
    let list = [Element::Variable(0)];
    let left = (vec![node(mark::NONE, &list), node(mark::NONE, &[])], vec![edge(mark::NONE, 0, 1, &[])]);
    let right = (vec![node(mark::NONE, &[]), node(mark::BLUE, &list)], vec![edge(mark::DASHED, 1, 0, &list)]);
    let rule = Rule { variables: vec![VariableType::List], ..rule(left, right, 2) };
    on_labels(&[atoms(length), vec![]], &[], rule)
}

/// A left label of the most elements, with a list variable among them, on a label of so many atoms.
#[derive(Clone, Copy, Debug)]
struct Split {
    before: usize,
    atoms: usize,
}

/// The list at each place, on a label that is too short by one atom, and such that the list is empty or one atom.
fn every_split() -> Vec<Split> {
    let places = 0..limit::ELEMENTS;
    places.flat_map(|before| (limit::ELEMENTS - 2..=LAYOUT.atoms).map(move |atoms| Split { before, atoms })).collect()
}

/// The label becomes the list alone.
fn around_list(split: Split) -> RunnerInput {
    let behind = limit::ELEMENTS - 1 - split.before;
    let mut label = constants(&atoms(split.before));
    label.push(Element::Variable(0));
    let whole = atoms(split.atoms.max(behind));
    label.extend(constants(&whole[whole.len() - behind..]));
    let left = (vec![node(mark::NONE, &label)], vec![edge(mark::NONE, 0, 0, &[])]);
    let right = (vec![node(mark::GREEN, &[Element::Variable(0)])], vec![]);
    let rule = Rule { variables: vec![VariableType::List], ..rule(left, right, 1) };
    on_labels(&[atoms(split.atoms)], &[], rule)
}

/// The longest label with another atom at this place, if there is one.
fn other_at(place: usize) -> Vec<i32> {
    let mut label = atoms(LAYOUT.atoms);
    label.iter_mut().skip(place).take(1).for_each(|atom| *atom = -*atom);
    label
}

/// A rule for a node and a loop with the longest labels, of constants alone.
fn of_constants() -> Rule {
    let label = constants(&atoms(LAYOUT.atoms));
    let left = (vec![node(mark::NONE, &label)], vec![edge(mark::NONE, 0, 0, &label)]);
    rule(left, (vec![node(mark::RED, &[])], vec![]), 1)
}

fn node_differs(place: usize) -> RunnerInput {
    on_labels(&[other_at(place)], &atoms(LAYOUT.atoms), of_constants())
}

fn edge_differs(place: usize) -> RunnerInput {
    on_labels(&[atoms(LAYOUT.atoms)], &other_at(place), of_constants())
}

/// The atoms of two labels that are put together: to the most atoms, to one too many, and to twice the most.
const JOINED: [(usize, usize); 11] = [(8, 0), (0, 8), (4, 4), (1, 7), (7, 1), (5, 3), (8, 1), (1, 8), (4, 5), (5, 4), (8, 8)];

/// The labels of two nodes, one behind the other, as the right label of a node or of an edge.
fn joined(first: usize, second: usize, right: fn(&[Element]) -> Side) -> RunnerInput {
    let [a, b] = [0, 1].map(Element::Variable);
    let left = (vec![node(mark::NONE, &[a]), node(mark::NONE, &[b])], vec![edge(mark::NONE, 0, 1, &[])]);
    let rule = Rule { variables: vec![VariableType::List; 2], ..rule(left, right(&[a, b]), 2) };
    on_labels(&[atoms(first), atoms(second)], &[], rule)
}

fn joined_on_node(first: usize, second: usize) -> RunnerInput {
    joined(first, second, |label| (vec![node(mark::NONE, &[]), node(mark::RED, label)], vec![]))
}

fn joined_on_edge(first: usize, second: usize) -> RunnerInput {
    joined(first, second, |label| (vec![node(mark::NONE, &[]); 2], vec![edge(mark::DASHED, 0, 1, label)]))
}

/// How often a list stands in a right label, which is filled up with sums to the most elements, and its atoms.
const REPEATED: [(usize, usize); 6] = [(8, 1), (8, 2), (1, 1), (1, 2), (0, 0), (4, 1)];

fn repeated(elements: usize, length: usize) -> RunnerInput {
    let left = (vec![node(mark::NONE, &[Element::Variable(0)])], vec![edge(mark::NONE, 0, 0, &[])]);
    let mut label = vec![Element::Sum(Operand::Constant(i32::MAX), Operand::Constant(-1)); limit::ELEMENTS];
    label[..elements].fill(Element::Variable(0));
    let right = (vec![node(mark::RED, &label)], vec![]);
    let rule = Rule { variables: vec![VariableType::List], ..rule(left, right, 1) };
    on_labels(&[atoms(length)], &[], rule)
}

/// Slots of tables of the old layout, and whether they are live. The bytes of 9 node slots and of 5 edge slots make whole slots.
const OLD_TABLES: [(usize, usize, bool); 6] = [(1, 0, true), (9, 1, true), (9, 5, true), (9, 0, true), (9, 5, false), (0, 0, false)];

fn old_tables(nodes: usize, edges: usize, live: bool) -> RunnerInput {
    let old = &Layout::FOUR;
    let mut tables = (vec![0; nodes * old.node_length()], vec![0; edges * old.edge_length()]);
    if live {
        tables = (old.node_slot(mark::GREY, false, &atoms(old.atoms)).repeat(nodes), old.edge_slot(mark::RED, 0, 0, &[1]).repeat(edges));
    }
    RunnerInput { nodes: tables.0, edges: tables.1, records: 0, fuel: 1, program: encode::command(&Command::Skip) }
}

#[cfg(test)]
mod tests {
    use super::*;
    use crate::listing::{listing, run_input};

    fn answer(input: &RunnerInput) -> u32 {
        run_input(input).answer
    }

    #[test]
    fn long_labels_are_matched_and_made() {
        let text = listing(&encode::runner_input(&turned(8)));
        assert_eq!(text, "answer 0 steps 1 records 3\nnode 0 red plain 8 7 6 5 4 3 2 1\nedge 0 0 0 red 8 7 6 5 4 3 2 1\n");
        let text = listing(&encode::runner_input(&listed(5)));
        assert_eq!(text, "answer 0 steps 1 records 4\nnode 0 none plain\nnode 1 blue plain 1 2 3 4 5\nedge 0 1 0 dashed 1 2 3 4 5\n");
        for length in FIRST_LONG..=LAYOUT.atoms {
            assert_eq!((answer(&turned(length)), answer(&listed(length))), (0, 0), "{length} atoms");
        }
    }

    #[test]
    fn a_list_among_seven_elements_takes_what_they_leave() {
        for split in every_split() {
            let expected = if split.atoms == 6 { 1 } else { 0 };
            assert_eq!(answer(&around_list(split)), expected, "{split:?}");
        }
    }

    #[test]
    fn every_atom_of_a_label_is_compared() {
        for place in 0..LAYOUT.atoms {
            assert_eq!((answer(&node_differs(place)), answer(&edge_differs(place))), (1, 1), "place {place}");
        }
        assert_eq!((answer(&node_differs(LAYOUT.atoms)), answer(&edge_differs(LAYOUT.atoms))), (0, 0));
    }

    #[test]
    fn a_label_put_together_is_held_up_to_the_most_atoms() {
        for (first, second) in JOINED {
            let expected = if first + second <= 8 { 0 } else { 6 };
            let answers = (answer(&joined_on_node(first, second)), answer(&joined_on_edge(first, second)));
            assert_eq!(answers, (expected, expected), "{first} and {second} atoms");
        }
        let answers = REPEATED.map(|(elements, atoms)| answer(&repeated(elements, atoms)));
        assert_eq!(answers, [0, 6, 0, 6, 0, 0]);
    }

    #[test]
    fn tables_of_the_old_layout_are_refused() {
        let answers = OLD_TABLES.map(|(nodes, edges, live)| answer(&old_tables(nodes, edges, live)));
        assert_eq!(answers, [10, 11, 15, 15, 0, 0]);
    }
}
