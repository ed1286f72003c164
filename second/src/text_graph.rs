//! Graphs as text: reading and writing one, the calls import and export on byte vectors, and what the program text_graph prints.
//!
//! A text is cut into words (`words`). What words make a graph is one expression (`grammar`), which becomes an automaton
//! (`automaton`): it says of each word what it stands for, or where no graph goes on. `items` puts these words together to nodes
//! and edges, and `judging` asks of those what a text in the grammar can still be refused for.

mod automaton;
mod calls;
mod grammar;
mod items;
mod judging;
mod places;
mod words;
mod writing;

use crate::answer;
use crate::host::Host;
use crate::layout::Layout;

pub use calls::{ExportCall, Exported, ImportCall, Imported};
pub use grammar::Slots;
pub use places::Place;
pub use writing::{label_text, written, written_with_free_slots};

/// Why a text is refused.
#[derive(Clone, Debug, PartialEq, Eq)]
pub struct Refusal {
    /// The number that an import answers: 22, 23 or 24.
    pub answer: u32,
    /// The byte of the text that the refusal speaks of, or the text's length for its end.
    pub at: usize,
    /// What is wrong and what is expected.
    pub message: String,
}

/// The graph of a text in slots, for tables of a layout that have as many slots as there may be.
pub fn read(layout: &Layout, text: &[u8]) -> Result<Host, Refusal> {
    read_with(Slots::Live, layout, text)
}

/// The same, where it is said whether slots may be kept free.
pub fn read_with(slots: Slots, layout: &Layout, text: &[u8]) -> Result<Host, Refusal> {
    judging::host(layout, &items::items(&automaton::read(slots, text)?))
}

/// The longest text that the program text_graph reads.
pub const PROGRAM_BYTES: usize = 1_048_576;

/// What the program text_graph prints for a text: the graph in its one spacing, slots closed up, or the refusal.
pub fn printed(text: &[u8]) -> String {
    if text.len() > PROGRAM_BYTES {
        return "input refused\n".to_string();
    }
    match read(&Layout::BASE, text) {
        Ok(host) => written(&host),
        Err(Refusal { answer: answer::TEXT_GRAMMAR, at, .. }) => {
            let Place { line, column } = Place::in_bytes(text, at);
            format!("refused {} line {line} column {column}\n", answer::TEXT_GRAMMAR)
        }
        Err(refusal) => format!("refused {}\n", refusal.answer),
    }
}
