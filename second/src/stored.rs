//! Stored inputs of the test programs that run proved code, with what each must write: a folder of a program holds both as
//! `stdin` and `stdout`. What must be written is this interpreter's answer.

mod carryings;
mod matches;
mod packings;
mod texts;
mod undoings;

use std::fmt::Write;

use crate::answer;
use crate::calls;
use crate::corpus;
use crate::encode::{field, RunnerInput};
use crate::layout::{Core, Layout};
use crate::listing;
use crate::refusals::{self, RunCall};

pub use carryings::{carry_cases, carry_calls, narrow, widen};
pub use matches::{match_bench, match_cases, seen as seen_by_matches};
pub use texts::{broken_texts, drawn_host, spelled, text_breaks, text_calls, text_cases, text_graph, TextCall};
pub use undoings::{undo_calls, undo_cases};

/// The layout of the buffers, where no core is named.
const LAYOUT: &Layout = &Layout::BASE;

/// What a test program reads and what it must write.
pub struct Stored {
    pub stdin: Vec<u8>,
    pub stdout: Vec<u8>,
}

/// The stored inputs by the name of their program.
pub fn named(name: &str) -> Option<Stored> {
    match name {
        "corpus" => Some(stored_corpus()),
        "runner" => Some(case_p()),
        "small_runner" => Some(small_case_p()),
        "undo_cases" => Some(undo_cases()),
        "refusal_cases" => Some(refusal_cases()),
        "match_cases" => Some(match_cases()),
        "match_bench" => Some(match_bench()),
        "carry_cases" => Some(carry_cases()),
        "widen" => Some(widen()),
        "narrow" => Some(narrow()),
        "text_breaks" => Some(text_breaks()),
        "text_cases" => Some(text_cases()),
        "text_graph" => Some(text_graph()),
        _ => None,
    }
}

/// The programs that are there; of the work on texts `text_breaks` and `text_graph` are not yet.
pub const NAMES: [&str; 11] = [
    "carry_cases",
    "corpus",
    "match_bench",
    "match_cases",
    "narrow",
    "refusal_cases",
    "runner",
    "small_runner",
    "text_cases",
    "undo_cases",
    "widen",
];

/// All images of the stored corpus, and their listings one behind the other.
pub fn stored_corpus() -> Stored {
    let images = corpus::stored_images();
    Stored { stdin: corpus::joined(&images), stdout: corpus::listings(&images).into_bytes() }
}

/// Case P of document 01, whose number among the images of every seed is 16.
pub fn case_p() -> Stored {
    let image = corpus::image(corpus::STORED_SEED, 16);
    let stdout = listing::listing(&image).into_bytes();
    Stored { stdin: image, stdout }
}

/// The same case at the small core.
pub fn small_case_p() -> Stored {
    let image = corpus::small_case_p();
    let stdout = listing::listing_at(&Layout::SMALL, &image).into_bytes();
    Stored { stdin: image, stdout }
}

/// What a test program reads at most.
const MOST_BYTES: usize = 262_144;

/// Drawn images whose runs are looked at, and how long one may be.
const DRAWN: u64 = 400;
const LONGEST: usize = 1_200;

/// A case: its parts in fields numbered from 0x01, in a field 0x07.
fn case(parts: &[&[u8]]) -> Vec<u8> {
    let fields: Vec<u8> = parts.iter().zip(0x01..).flat_map(|(part, tag)| field(tag, part)).collect();
    field(0x07, &fields)
}

fn hexadecimal(bytes: &[u8]) -> String {
    bytes.iter().fold(String::new(), |mut text, byte| {
        write!(text, "{byte:02x}").expect("a string takes all");
        text
    })
}

/// Calls of run: refused ones, then their accepted twins and drawn ones, the shortest first, each once and as many as are read. The
/// line of a case is the number that refuses it, 0 where the run starts. Where the image is what is refused, empty tables are lent, so
/// that more are read.
pub fn refusal_cases() -> Stored {
    let mut calls: Vec<RunCall> = Vec::new();
    for refusal in refusals::of_run(LAYOUT) {
        let twins = [refusal.accepted, refusal.refused];
        match refusal.answer >= answer::FORM {
            true => calls.extend(twins.map(on_empty_tables)),
            false => calls.extend(twins),
        }
    }
    calls.extend(drawn_calls(Core::Wide));
    calls.sort_by_cached_key(|call| {
        let case = run_case(call);
        (case.len() > 9_000, refused_by(call) == 0, case.len(), case)
    });
    calls.dedup();
    let mut stdin = Vec::new();
    let mut stdout = String::new();
    for call in &calls {
        let case = run_case(call);
        if stdin.len() + case.len() > MOST_BYTES {
            break;
        }
        stdin.extend(case);
        writeln!(stdout, "{}", refused_by(call)).expect("a string takes all");
    }
    Stored { stdin, stdout: stdout.into_bytes() }
}

fn on_empty_tables(call: RunCall) -> RunCall {
    RunCall { nodes: Vec::new(), edges: Vec::new(), journal: Vec::new(), ..call }
}

/// The number that refuses a run, 0 where it starts.
fn refused_by(call: &RunCall) -> u32 {
    match call.outcome().answer {
        number if number < answer::REPORT => 0,
        number => number,
    }
}

fn run_case(call: &RunCall) -> Vec<u8> {
    let fuel = call.fuel.to_be_bytes();
    case(&[&call.nodes, &call.edges, &call.journal, &fuel, &call.program, &call.report])
}

/// Short drawn runner inputs of a core as calls.
fn drawn_calls(core: Core) -> Vec<RunCall> {
    corpus::drawn_images(core, corpus::STORED_SEED, DRAWN)
        .into_iter()
        .filter(|image| image.len() <= LONGEST)
        .filter_map(|image| listing::read_input(&image))
        .filter(|input| input.records <= 40)
        .map(|input| run_call(core, input))
        .collect()
}

fn run_call(core: Core, input: RunnerInput) -> RunCall {
    RunCall {
        nodes: input.nodes,
        edges: input.edges,
        journal: vec![1; usize::from(input.records) * core.layout().record_length()],
        program: input.program,
        fuel: input.fuel,
        report: vec![7; calls::REPORT_BYTES],
    }
}
