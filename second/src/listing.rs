//! The reading of a runner program's input and its listing of the outcome. The reading knows no layout; what follows takes any.

use crate::answer;
use crate::calls::{Outcome, RunCall, REPORT_BYTES};
use crate::encode::RunnerInput;
use crate::host::Host;
use crate::layout::Layout;
use crate::observer::Unobserved;
use crate::tree::mark;

/// The longest input that the runner reads.
pub const INPUT_BYTES: usize = 65_536;

/// The most journal records that an input asks for, at any layout.
pub const INPUT_RECORDS: u16 = 1024;

/// What the runner program of the base layout prints for these bytes on its standard input.
pub fn listing(bytes: &[u8]) -> String {
    listing_at(&Layout::BASE, bytes)
}

/// The same for a runner of another layout.
pub fn listing_at(layout: &Layout, bytes: &[u8]) -> String {
    match read_input(bytes) {
        Some(input) => {
            listing_of(layout, &run_input_at(layout, &input))
        }
        None => "input refused\n".to_string(),
    }
}

/// The input in its five fields, or nothing where it is refused.
pub fn read_input(bytes: &[u8]) -> Option<RunnerInput> {
    if bytes.len() > INPUT_BYTES {
        return None;
    }
    let (nodes, rest) = field(0x01, bytes)?;
    let (edges, rest) = field(0x02, rest)?;
    let (records, rest) = field(0x03, rest)?;
    let (fuel, rest) = field(0x04, rest)?;
    let (program, rest) = field(0x05, rest)?;
    let records = u16::from_be_bytes(records.try_into().ok()?);
    let fuel = u32::from_be_bytes(fuel.try_into().ok()?);
    if records > INPUT_RECORDS || !rest.is_empty() {
        return None;
    }
    Some(RunnerInput {
        nodes: nodes.to_vec(),
        edges: edges.to_vec(),
        records,
        fuel,
        program: program.to_vec(),
    })
}

/// The payload of the field with this tag at the front of the bytes, and the bytes behind it.
pub fn field(tag: u8, bytes: &[u8]) -> Option<(&[u8], &[u8])> {
    let (head, rest) = bytes.split_at_checked(3)?;
    let length = usize::from(u16::from_be_bytes([head[1], head[2]]));
    match head[0] == tag {
        true => rest.split_at_checked(length),
        false => None,
    }
}

/// The call that a runner input leads to, with a journal of zeros.
pub fn call_of(layout: &Layout, input: &RunnerInput) -> RunCall {
    RunCall {
        nodes: input.nodes.clone(),
        edges: input.edges.clone(),
        journal: vec![0; usize::from(input.records) * layout.record_length()],
        program: input.program.clone(),
        fuel: input.fuel,
        report: vec![0; REPORT_BYTES],
    }
}

/// What the call run gives for a runner input at the base layout.
pub fn run_input(input: &RunnerInput) -> Outcome {
    run_input_at(&Layout::BASE, input)
}

/// What the call run gives for a runner input at a layout.
pub fn run_input_at(layout: &Layout, input: &RunnerInput) -> Outcome {
    call_of(layout, input).outcome_at(layout, &mut Unobserved)
}

/// The listing of an outcome whose report has 8 bytes.
pub fn listing_of(layout: &Layout, outcome: &Outcome) -> String {
    let answer = outcome.answer;
    let (steps, records) = outcome.reported();
    let mut text = format!("answer {answer} steps {steps} records {records}\n");
    if answer == answer::RESULT {
        let host = Host::read(layout, &outcome.nodes, &outcome.edges);
        text.push_str(&graph(&host.expect("a result keeps the layout")));
    }
    text
}

/// The lines of live nodes, then those of live edges.
pub fn graph(host: &Host) -> String {
    let mut text = String::new();
    for (slot, node) in host.live_nodes() {
        let mark = mark::NAMES[usize::from(node.mark)];
        let root = if node.root { "root" } else { "plain" };
        let atoms = atoms(node.label.atoms());
        text.push_str(&format!("node {slot} {mark} {root}{atoms}\n"));
    }
    for (slot, edge) in host.live_edges() {
        let (source, target) = (edge.source, edge.target);
        let mark = mark::NAMES[usize::from(edge.mark)];
        let atoms = atoms(edge.label.atoms());
        text.push_str(&format!("edge {slot} {source} {target} {mark}{atoms}\n"));
    }
    text
}

/// Each atom behind one space.
fn atoms(atoms: &[i32]) -> String {
    atoms.iter().map(|atom| format!(" {atom}")).collect()
}
