//! Stored cases of undo at both cores.

use std::fmt::Write;

use crate::answer;
use crate::calls;
use crate::corpus;
use crate::layout::Core;
use crate::listing;
use crate::observer::Unobserved;
use crate::refusals::{self, RunCall, UndoCall};

use super::{case, drawn_calls, hexadecimal, run_call, Stored};

/// The most bytes that the tables of a case have together.
const MOST_TABLE_BYTES: usize = 60_000;

/// Calls of undo: nodes, edges, journal, the count in four bytes, the report, and a byte that says at which core (0 wide, 1 small). The
/// line of a case has the number and what each buffer holds then.
pub fn undo_cases() -> Stored {
    let calls = undo_calls();
    let stdin = calls.iter().flat_map(|(core, call)| undo_case(*core, call)).collect();
    let mut stdout = String::new();
    for (core, call) in &calls {
        let left = call.outcome_at(core.layout());
        write!(stdout, "{}", left.answer).expect("a string takes all");
        for buffer in [&left.report, &left.nodes, &left.edges, &left.journal] {
            write!(stdout, " {}", hexadecimal(buffer)).expect("a string takes all");
        }
        stdout.push('\n');
    }
    Stored { stdin, stdout: stdout.into_bytes() }
}

/// At each core every refusal with its accepted twin, then the journals that programs and drawn runs leave, undone in whole and in part.
pub fn undo_calls() -> Vec<(Core, UndoCall)> {
    let mut calls = Vec::new();
    for core in Core::BOTH {
        for refusal in refusals::of_undo(core.layout()) {
            calls.extend([(core, refusal.accepted), (core, refusal.refused)]);
        }
        let runs = fixed_runs(core).into_iter().chain(drawn_calls(core));
        calls.extend(runs.flat_map(|run| undone_after(core, &run)).map(|call| (core, call)));
    }
    calls.retain(|(_, call)| call.journal.len() + call.nodes.len() + call.edges.len() < MOST_TABLE_BYTES);
    calls
}

/// Runs that are the same for each seed: at the wide core programs of both modes, at the small one the fixed images.
fn fixed_runs(core: Core) -> Vec<RunCall> {
    let inputs = match core {
        Core::Wide => corpus::mode_programs(),
        Core::Small => corpus::small_images().iter().filter_map(|image| listing::read_input(image)).collect(),
    };
    inputs.into_iter().map(|input| run_call(core, input)).collect()
}

/// Undo of a run's journal: all of its records, and all but the last.
fn undone_after(core: Core, run: &RunCall) -> Vec<UndoCall> {
    let left = run.outcome_at(core.layout(), &mut Unobserved);
    if left.answer != answer::RESULT || left.reported().1 == 0 {
        return Vec::new();
    }
    let (_, records) = left.reported();
    let undo = |count: u32| UndoCall {
        nodes: left.nodes.clone(),
        edges: left.edges.clone(),
        journal: left.journal.clone(),
        count,
        report: vec![7; calls::REPORT_BYTES],
    };
    vec![undo(records), undo(records - 1)]
}

fn undo_case(core: Core, call: &UndoCall) -> Vec<u8> {
    let count = call.count.to_be_bytes();
    let core = match core {
        Core::Wide => 0,
        Core::Small => 1,
    };
    case(&[&call.nodes, &call.edges, &call.journal, &count, &call.report, &[core]])
}
