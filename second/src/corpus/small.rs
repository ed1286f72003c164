//! The small core's images at the front of every corpus: the cases of document 01, reasons to end a run at once, tables and journals
//! at their limits, labels of one atom and more, an image for each clause of tables and numbers that can refuse, and the accepted
//! ones that stand beside them. Behind them the published programs on hosts that can be packed.

use super::cases::{cases, marking};
use super::corners::reasons_at_once;
use super::fixed::each_once;
use crate::answer;
use crate::build::*;
use crate::carrying::{CarryCall, Way};
use crate::encode::{self, runner_input, RunnerInput};
use crate::families;
use crate::layout::Layout;
use crate::listing;
use crate::refusals::{of_run, run_refused_for};
use crate::tree::*;

const LAYOUT: &Layout = &Layout::SMALL;
const MOST_RECORDS: u16 = LAYOUT.most_records as u16;
const LAST_NODE: u16 = LAYOUT.most_nodes as u16 - 1;

/// The fixed images in order, each once.
pub fn small_images() -> Vec<Vec<u8>> {
    let mut inputs: Vec<RunnerInput> = cases().iter().filter_map(packed).collect();
    inputs.extend(reasons_at_once(LAYOUT));
    inputs.extend(RECORDS.map(|(records, _)| of_records(records)));
    inputs.extend(TOO_MANY_RECORDS.map(of_records));
    inputs.extend(LIMITS.map(|(limit, _)| limit()));
    inputs.extend(LABELS.map(|(left, right, _)| labelling(left, right)));
    inputs.extend(JOINED.map(|(first, second, _)| joining(first, second)));
    inputs.extend(WIDE_TABLES.map(|(nodes, edges, _)| wide_tables(nodes, edges)));
    inputs.extend(refusals());
    each_once(inputs.iter().map(runner_input).collect())
}

/// The tables and the journal of an input at the small core, with as many slots and records as there may be where it has more; or
/// nothing where the host can't be packed so.
pub fn packed(input: &RunnerInput) -> Option<RunnerInput> {
    let (from, to) = (Way::Pack.from(), Way::Pack.to());
    let node_slots = (input.nodes.len() / from.node_length()).min(to.most_nodes);
    let edge_slots = (input.edges.len() / from.edge_length()).min(to.most_edges);
    let call = CarryCall {
        nodes: input.nodes.clone(),
        edges: input.edges.clone(),
        to_nodes: vec![0; node_slots * to.node_length()],
        to_edges: vec![0; edge_slots * to.edge_length()],
    };
    let left = call.outcome(Way::Pack);
    (left.answer == answer::RESULT).then(|| RunnerInput {
        nodes: left.nodes,
        edges: left.edges,
        records: input.records.min(MOST_RECORDS),
        ..input.clone()
    })
}

/// Case P of document 01.
pub fn case_p() -> Vec<u8> {
    let case = cases().pop().expect("case P is the last case");
    runner_input(&packed(&case).expect("its labels have one atom"))
}

/// How many hosts of a published program are among the stored images.
const HOSTS: usize = 5;

/// Every published program on some of its hosts that can be packed, spread over their list.
pub fn program_images() -> Vec<Vec<u8>> {
    let inputs = families::program_images().into_iter().filter_map(|image| listing::read_input(&image));
    let packed: Vec<RunnerInput> = inputs.filter_map(|input| packed(&input)).collect();
    let of_programs = packed.chunk_by(|one, next| one.program == next.program);
    of_programs.flat_map(spread).map(runner_input).collect()
}

/// Some of these inputs, from the first to the last.
fn spread(inputs: &[RunnerInput]) -> Vec<&RunnerInput> {
    let count = HOSTS.min(inputs.len());
    (0..count).map(|number| &inputs[number * (inputs.len() - 1) / (HOSTS - 1)]).collect()
}

/// A program without procedures on tables, with ample fuel.
fn input(nodes: Vec<u8>, edges: Vec<u8>, rules: Vec<Rule>, main: Command) -> RunnerInput {
    let program = encode::program(&Program::without_procedures(rules, main));
    RunnerInput { nodes, edges, records: MOST_RECORDS, fuel: 1000, program }
}

/// Numbers of records, with the answer.
const RECORDS: [(u16, u32); 6] = [(0, 5), (1, 0), (255, 0), (256, 12), (300, 12), (1024, 12)];

/// Numbers of records for which the input is refused.
const TOO_MANY_RECORDS: [u16; 2] = [1025, u16::MAX];

/// The rule M on a journal of so many records.
fn of_records(records: u16) -> RunnerInput {
    let nodes = LAYOUT.node_slot(mark::NONE, false, &[]);
    RunnerInput { records, ..input(nodes, vec![], vec![marking()], call(0)) }
}

/// Inputs at the limits, with the answer.
const LIMITS: [(fn() -> RunnerInput, u32); 8] = [
    (|| marked_twice(1), 0),
    (|| marked_twice(0), 5),
    (|| one_node_more(LAST_NODE), 0),
    (|| one_node_more(LAST_NODE + 1), 3),
    (|| one_edge_more(254), 0),
    (|| one_edge_more(255), 4),
    (last_edges_turned, 0),
    (last_edges_dangle, 1),
];

fn plain_nodes(count: u16) -> Vec<u8> {
    LAYOUT.node_slot(mark::NONE, false, &[]).repeat(count.into())
}

/// As many nodes as there may be, of which so many are red, become red and then blue, each with a record.
fn marked_twice(red: u16) -> RunnerInput {
    let nodes = [LAYOUT.node_slot(mark::RED, false, &[]).repeat(red.into()), plain_nodes(LAST_NODE + 1 - red)].concat();
    let bluing = node_rule(&[node(mark::RED, &[])], &[node(mark::BLUE, &[])], 1);
    let main = Command::Sequence(vec![looped(call(0)), looped(call(1))]);
    input(nodes, vec![], vec![marking(), bluing], main)
}

/// A node added to so many, in the greatest table.
fn one_node_more(live: u16) -> RunnerInput {
    let mut nodes = plain_nodes(live);
    nodes.resize(LAYOUT.most_nodes * LAYOUT.node_length(), 0);
    let rule = node_rule(&[], &[root(mark::GREY, &[Element::Constant(-1)])], 0);
    input(nodes, vec![], vec![rule], call(0))
}

/// Edges from the last two nodes by turns to all nodes in order, each with its slot number as label.
fn edges(count: u16) -> Vec<u8> {
    let edge = |slot: u16| LAYOUT.edge_slot(mark::NONE, LAST_NODE - slot % 2, slot % (LAST_NODE + 1), &[slot.into()]);
    (0..count).flat_map(edge).collect()
}

/// As many nodes as there may be: the last one is a red root with a label, the others are plain.
fn last_is_root() -> Vec<u8> {
    [plain_nodes(LAST_NODE), LAYOUT.node_slot(mark::RED, true, &[7])].concat()
}

/// A dashed edge added from the last node to itself to so many edges, in the greatest table.
fn one_edge_more(live: u16) -> RunnerInput {
    let mut edges = edges(live);
    edges.resize(LAYOUT.most_edges * LAYOUT.edge_length(), 0);
    let last = || vec![root(mark::RED, &[Element::Constant(7)])];
    let rule = rule((last(), vec![]), (last(), vec![edge(mark::DASHED, 0, 0, &[Element::Constant(8)])]), 1);
    input(last_is_root(), edges, vec![rule], call(0))
}

/// Full tables: the last ten of the edges from the last node are turned round and marked.
fn last_edges_turned() -> RunnerInput {
    let label = [Element::Variable(0)];
    let ends = || vec![root(mark::RED, &[Element::Constant(7)]), node(mark::NONE, &[])];
    let over = TestKind::Relation(Relation::Less, Operand::Constant(234), Operand::Variable(0));
    let turning = Rule {
        variables: vec![VariableType::Int],
        tests: vec![Test { negated: false, kind: over }],
        ..rule(
            (ends(), vec![edge(mark::NONE, 0, 1, &label)]),
            (ends(), vec![edge(mark::DASHED, 1, 0, &label)]),
            2,
        )
    };
    input(last_is_root(), edges(255), vec![turning], looped(call(0)))
}

/// The last of two nodes at the end of the table can't be deleted, since edges run to it from the other.
fn last_edges_dangle() -> RunnerInput {
    let mut nodes = vec![0; (LAYOUT.most_nodes - 2) * LAYOUT.node_length()];
    nodes.extend(LAYOUT.node_slot(mark::BLUE, false, &[1]));
    nodes.extend(LAYOUT.node_slot(mark::RED, false, &[2]));
    let edges = LAYOUT.edge_slot(mark::NONE, LAST_NODE - 1, LAST_NODE, &[]).repeat(2);
    let deleting = node_rule(&[node(mark::RED, &[Element::Constant(2)])], &[], 0);
    input(nodes, edges, vec![deleting], call(0))
}

/// Labels of a node and of a loop at it, as texts: the host's and the left side's in one, then the right side's, and the answer. The
/// first begins with 5 where the host's label is the atom 5, which is empty else; of elements `l` is a list, `i` an int, `c` the
/// constant 5 and `s` the sum of 5 and 1.
const LABELS: [(&str, &str, u32); 18] = [
    ("", "c", 0),
    ("", "cc", 6),
    ("", "cccccccc", 6),
    ("", "s", 0),
    ("", "sc", 6),
    ("5l", "l", 0),
    ("5l", "", 0),
    ("5l", "ll", 6),
    ("5l", "lc", 6),
    ("5i", "i", 0),
    ("5i", "ii", 6),
    ("5c", "c", 0),
    ("5cl", "l", 0),
    ("5lc", "llllc", 0),
    ("5cc", "", 1),
    ("5clc", "", 1),
    ("l", "llc", 0),
    ("i", "i", 1),
];

fn labelling(host_and_left: &str, right: &str) -> RunnerInput {
    let (atoms, left): (&[i32], &str) = match host_and_left.strip_prefix('5') {
        Some(left) => (&[5], left),
        None => (&[], host_and_left),
    };
    let element = |name: char| match name {
        'c' => Element::Constant(5),
        's' => Element::Sum(Operand::Constant(5), Operand::Constant(1)),
        _ => Element::Variable(0),
    };
    let label = |names: &str| names.chars().map(element).collect::<Vec<Element>>();
    let kind = match left.contains('i') {
        true => VariableType::Int,
        false => VariableType::List,
    };
    let labelled = Rule {
        variables: vec![kind],
        ..rule(
            (vec![node(mark::NONE, &label(left))], vec![edge(mark::NONE, 0, 0, &label(left))]),
            (vec![node(mark::RED, &label(right))], vec![edge(mark::RED, 0, 0, &label(right))]),
            1,
        )
    };
    let (nodes, edges) = (LAYOUT.node_slot(mark::NONE, false, atoms), LAYOUT.edge_slot(mark::NONE, 0, 0, atoms));
    input(nodes, edges, vec![labelled], call(0))
}

/// The atoms of two labels that are put together, with the answer.
const JOINED: [(usize, usize, u32); 4] = [(0, 0, 0), (0, 1, 0), (1, 0, 0), (1, 1, 6)];

/// The labels of two nodes, one behind the other, as the label of an edge between them.
fn joining(first: usize, second: usize) -> RunnerInput {
    let [a, b] = [0, 1].map(Element::Variable);
    let ends = || vec![node(mark::NONE, &[a]), node(mark::NONE, &[b])];
    let joined = Rule {
        variables: vec![VariableType::List; 2],
        ..rule((ends(), vec![]), (ends(), vec![edge(mark::DASHED, 0, 1, &[a, b])]), 2)
    };
    let nodes = [first, second].map(|atoms| LAYOUT.node_slot(mark::NONE, false, &[-9][..atoms]));
    input(nodes.concat(), vec![0; LAYOUT.edge_length()], vec![joined], call(0))
}

/// Live slots of the wide core's tables that are lent as they are, with the answer. The bytes of two node slots make nine small ones,
/// those of an edge slot four.
const WIDE_TABLES: [(usize, usize, u32); 3] = [(1, 0, 10), (2, 0, 15), (2, 1, 15)];

fn wide_tables(nodes: usize, edges: usize) -> RunnerInput {
    let wide = &Layout::BASE;
    let nodes = wide.node_slot(mark::NONE, false, &[]).repeat(nodes);
    input(nodes, wide.edge_slot(mark::NONE, 0, 1, &[]).repeat(edges), vec![], Command::Skip)
}

/// The numbers whose refusals differ between the cores.
const OF_TABLES: [u32; 5] = [10, 11, 12, 13, 15];

/// The accepted and the refused inputs of each clause of tables and numbers, one of 14, and inputs for one or two of the numbers.
fn refusals() -> Vec<RunnerInput> {
    const NUMBERS: [u32; 9] = [10, 11, 12, 13, 15, 16, 17, 18, 19];
    let mut calls = Vec::new();
    let list = of_run(LAYOUT);
    for it in list.iter().filter(|it| OF_TABLES.contains(&it.answer)) {
        calls.extend([it.accepted.clone(), it.refused.clone()]);
    }
    let too_long = list.iter().find(|it| it.answer == 14);
    calls.extend(too_long.map(|it| it.refused.clone()));
    for number in NUMBERS {
        calls.push(run_refused_for(LAYOUT, &[number]));
    }
    for pair in NUMBERS.windows(2) {
        calls.push(run_refused_for(LAYOUT, pair));
    }
    calls.iter().filter_map(|call| call.runner_input(LAYOUT)).collect()
}

#[cfg(test)]
mod tests {
    use super::*;
    use crate::listing::{read_input, run_input_at};

    fn answer(input: &RunnerInput) -> u32 {
        run_input_at(LAYOUT, input).answer
    }

    #[test]
    fn all_cases_fit_one_atom() {
        assert_eq!(cases().iter().filter_map(packed).count(), 17);
    }

    #[test]
    fn limits_and_numbers_of_records_are_answered_so() {
        for (records, expected) in RECORDS {
            assert_eq!(answer(&of_records(records)), expected, "{records} records");
        }
        for records in TOO_MANY_RECORDS {
            assert!(read_input(&runner_input(&of_records(records))).is_none(), "{records} records");
        }
        for (number, (limit, expected)) in LIMITS.into_iter().enumerate() {
            assert_eq!(answer(&limit()), expected, "limit {number}");
        }
        let used_up = run_input_at(LAYOUT, &marked_twice(1));
        assert_eq!(used_up.reported().1, 255);
        let turned = run_input_at(LAYOUT, &last_edges_turned());
        assert_eq!(turned.reported().1, 10 * 4);
        let last = run_input_at(LAYOUT, &one_edge_more(254));
        assert_eq!(last.edges[254 * 10..], [1, 5, 0, 1, 127, 127, 0, 0, 0, 8]);
    }

    #[test]
    fn labels_of_more_than_one_atom_cant_be_held() {
        for (left, right, expected) in LABELS {
            assert_eq!(answer(&labelling(left, right)), expected, "{left:?} {right:?}");
        }
        for (first, second, expected) in JOINED {
            assert_eq!(answer(&joining(first, second)), expected, "{first} and {second} atoms");
        }
    }

    #[test]
    fn tables_of_the_wide_core_are_refused() {
        for (nodes, edges, expected) in WIDE_TABLES {
            assert_eq!(answer(&wide_tables(nodes, edges)), expected, "{nodes} nodes, {edges} edges");
        }
    }
}
