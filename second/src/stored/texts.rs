//! Stored cases of the calls import and export, and of the programs text_graph and text_breaks.

mod breaks;
mod damaged;
mod drawn;
mod large;
mod spelling;
mod telling;

use std::collections::HashSet;
use std::fmt::Write;

use crate::refusals::{self, Refusal};
use crate::text_graph::{printed, ExportCall, ImportCall};

use super::{case, hexadecimal, Stored, LAYOUT};

pub use breaks::broken_texts;
pub use drawn::drawn_host;
pub use spelling::spelled;

/// A call of import or export.
#[derive(Clone, Debug, PartialEq, Eq)]
pub enum TextCall {
    Import(ImportCall),
    Export(ExportCall),
}

/// A byte that says which call (0 import, 1 export), both tables, and the text or the buffer. The line of a case has the number, and
/// of an import what the tables hold then, of an export the length of the text and what the buffer holds then.
pub fn text_cases() -> Stored {
    let mut stdin = Vec::new();
    let mut stdout = String::new();
    for call in text_calls() {
        stdin.extend(text_case(&call));
        writeln!(stdout, "{}", line(&call)).expect("a string takes all");
    }
    Stored { stdin, stdout: stdout.into_bytes() }
}

fn text_case(call: &TextCall) -> Vec<u8> {
    match call {
        TextCall::Import(call) => case(&[&[0], &call.nodes, &call.edges, &call.text]),
        TextCall::Export(call) => case(&[&[1], &call.nodes, &call.edges, &call.buffer]),
    }
}

fn line(call: &TextCall) -> String {
    match call {
        TextCall::Import(call) => {
            let left = call.outcome(LAYOUT);
            format!("{} {} {}", left.answer, hexadecimal(&left.nodes), hexadecimal(&left.edges))
        }
        TextCall::Export(call) => {
            let left = call.outcome(LAYOUT);
            format!("{} {} {}", left.answer, left.length, hexadecimal(&left.buffer))
        }
    }
}

/// The stored calls, each once.
pub fn text_calls() -> Vec<TextCall> {
    let mut calls: Vec<TextCall> = refused_and_accepted();
    calls.extend(refused_for_several());
    calls.extend(telling::texts().iter().map(|text| import(text)));
    calls.extend(damaged::texts().iter().map(|text| import(text)));
    calls.extend(drawn::calls());
    calls.extend(large::calls());
    let mut cases = HashSet::new();
    calls.retain(|call| cases.insert(text_case(call)));
    calls
}

/// The import of a text to as many slots as it takes, and to one of each where it is refused.
fn import(text: &[u8]) -> TextCall {
    TextCall::Import(refusals::import_of(LAYOUT, text))
}

/// The longest case of a refusal or its twin. Those of full tables are chosen by hand.
const LONGEST: usize = 2_500;

/// Every refusal behind its accepted twin.
fn refused_and_accepted() -> Vec<TextCall> {
    let imports = refusals::of_import(LAYOUT).into_iter().flat_map(|it| both(it, TextCall::Import));
    let exports = refusals::of_export(LAYOUT).into_iter().flat_map(|it| both(it, TextCall::Export));
    imports.chain(exports).filter(|call| text_case(call).len() <= LONGEST).collect()
}

fn both<Call>(refusal: Refusal<Call>, way: fn(Call) -> TextCall) -> [TextCall; 2] {
    [way(refusal.accepted), way(refusal.refused)]
}

/// Calls to which one number applies, or more.
fn refused_for_several() -> Vec<TextCall> {
    let imports = sets(&[10, 11, 22, 23, 24]).into_iter().map(|set| TextCall::Import(refusals::import_refused_for(LAYOUT, &set)));
    let exports = sets(&[10, 11, 15, 25]).into_iter().map(|set| TextCall::Export(refusals::export_refused_for(LAYOUT, &set)));
    imports.chain(exports).collect()
}

/// All sets of these numbers but the empty one.
fn sets(numbers: &[u32]) -> Vec<Vec<u32>> {
    let chosen = |set: u32| numbers.iter().enumerate().filter(move |(bit, _)| set >> bit & 1 == 1).map(|(_, number)| *number).collect();
    (1..1 << numbers.len()).map(chosen).collect()
}

/// One graph with comments and positions, whose names, spacing and slots are its author's.
pub fn text_graph() -> Stored {
    let stdin = telling::GRAPH.as_bytes().to_vec();
    let stdout = printed(&stdin).into_bytes();
    Stored { stdin, stdout }
}

/// A text alone in each case, and what the program text_graph prints for it.
pub fn text_breaks() -> Stored {
    let texts = broken_texts();
    let stdin = texts.iter().flat_map(|text| case(&[text])).collect();
    let stdout: String = texts.iter().map(|text| printed(text)).collect();
    Stored { stdin, stdout: stdout.into_bytes() }
}
