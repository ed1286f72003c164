//! Inputs that are refused, one for each clause of document 01 that can refuse: each stands beside an
//! accepted input from which it differs in that clause alone. The numbers come from the table of answers. Calls of run, undo,
//! import and export are made for a layout.

mod carrying;
mod depth;
mod form;
mod form_of_commands;
mod form_of_graphs;
mod form_of_mode;
mod form_of_procedures;
mod form_of_tests;
mod full_images;
mod packing;
mod placement;
mod programs;
mod references;
mod runner;
mod slots;
mod tables;
mod text_pairs;
mod texts;
mod undo;

use crate::calls;
use crate::encode::{self, RunnerInput};
use crate::layout::{place, Layout};
use crate::listing::{INPUT_BYTES, INPUT_RECORDS};
use crate::tree::{self, mark, Command, Program};

pub use crate::calls::{RunCall, UndoCall};
pub use carrying::{carrying_refused_for, numbers_of, of_carrying, Carrying};
pub use runner::of_runner;
pub use texts::{
    export_refused_for, export_to, import_of, import_refused_for, import_to, of_export, of_import, text_of_items,
};
pub use undo::{of_undo, undo_refused_for};

impl RunCall {
    /// The runner input that leads to this call at a layout, where one does: the runner's report has 8 bytes, its
    /// journal is as many records as it was told, and its fields are short enough for an input.
    pub fn runner_input(&self, layout: &Layout) -> Option<RunnerInput> {
        let records = self.journal.len() / layout.record_length();
        let whole = self.journal.len() % layout.record_length() == 0 && records <= usize::from(INPUT_RECORDS);
        let bytes = self.nodes.len() + self.edges.len() + self.program.len() + RUNNER_FRAME;
        if self.report.len() != calls::REPORT_BYTES || !whole || bytes > INPUT_BYTES {
            return None;
        }
        Some(RunnerInput {
            nodes: self.nodes.clone(),
            edges: self.edges.clone(),
            records: records as u16,
            fuel: self.fuel,
            program: self.program.clone(),
        })
    }
}

/// The bytes of a runner input whose tables and program are empty.
const RUNNER_FRAME: usize = 5 * 3 + 2 + 4;

/// A refused input and an accepted one, which differ in one clause.
#[derive(Clone, Debug)]
pub struct Refusal<Input> {
    /// The clause, and how it is broken.
    pub name: String,
    pub accepted: Input,
    pub refused: Input,
    pub answer: u32,
}

/// The refusals of the call run at a layout, by number.
pub fn of_run(layout: &'static Layout) -> Vec<Refusal<RunCall>> {
    let of_images = |answer, images| programs::refusals(layout, answer, images);
    let mut refusals = tables::lengths(layout);
    refusals.extend(tables::fuel(layout));
    refusals.extend(programs::image_length(layout));
    refusals.push(full_images::image_length(layout));
    refusals.extend(tables::damaged(layout));
    refusals.extend(of_images(16, form::images_of_form()));
    refusals.push(full_images::old_form(layout));
    refusals.extend(of_images(17, references::images_of_references()));
    refusals.extend(of_images(18, placement::images_of_placement()));
    refusals.extend(of_images(19, depth::images_of_depth()));
    refusals
}

/// Those of them that a runner input can lead to, with the answer of each.
pub fn runner_inputs(layout: &'static Layout) -> Vec<(String, RunnerInput, u32)> {
    let refusals = of_run(layout).into_iter();
    refusals
        .filter_map(|it| Some((it.name, it.refused.runner_input(layout)?, it.answer)))
        .collect()
}

/// A call of run that is refused for each of these numbers from 9 to 19 and for no other.
pub fn run_refused_for(layout: &Layout, numbers: &[u32]) -> RunCall {
    let mut call = accepted_run(layout);
    let given = |number: u32| numbers.contains(&number);
    if given(15) {
        call.nodes[place::STATE] = 2;
    }
    let tables = [&mut call.nodes, &mut call.edges, &mut call.journal];
    break_lengths(numbers, &mut call.report, tables);
    if given(13) {
        call.fuel = calls::MOST_FUEL + 1;
    }
    call.program = program_refused_for(&given);
    call
}

/// Makes those lengths wrong that are refused by one of these numbers: 9 the report's, 10 to 12 those of the node
/// table, the edge table and the journal.
fn break_lengths(numbers: &[u32], report: &mut Vec<u8>, tables: [&mut Vec<u8>; 3]) {
    if numbers.contains(&9) {
        report.pop();
    }
    for (number, table) in (10..).zip(tables) {
        if numbers.contains(&number) {
            table.push(0);
        }
    }
}

/// A program with those things wrong that are refused by a given number from 14 to 19.
fn program_refused_for(given: &dyn Fn(u32) -> bool) -> Vec<u8> {
    let mut commands = vec![Command::RuleSet(vec![if given(17) { 1 } else { 0 }])];
    if given(18) {
        commands.push(Command::Break);
    }
    if given(14) {
        commands.push(programs::command_of_bytes(tree::limit::IMAGE_BYTES));
    }
    let mut image = encode::program(&Program {
        rules: vec![programs::rule()],
        procedures: given(19)
            .then_some(Command::Procedure(0))
            .into_iter()
            .collect(),
        main: Command::Sequence(commands),
    });
    if given(16) {
        image.push(0);
    }
    image
}

/// A byte that no field of the buffers' layout holds, so that a change of it shows.
const UNTOUCHED: u8 = 0xA5;

/// An accepted call: nodes 0 and 2 of three slots live, edges 0 and 2 of three likewise. Their labels have two and three atoms where
/// the layout can hold as many.
fn accepted_run(layout: &Layout) -> RunCall {
    let held = |atoms: &'static [i32]| &atoms[..atoms.len().min(layout.atoms)];
    RunCall {
        nodes: [
            layout.node_slot(mark::NONE, false, &[]),
            vec![0; layout.node_length()],
            layout.node_slot(mark::GREY, true, held(&[7, -7])),
        ]
        .concat(),
        edges: [
            layout.edge_slot(mark::NONE, 0, 2, &[]),
            vec![0; layout.edge_length()],
            layout.edge_slot(mark::DASHED, 2, 2, held(&[1, 2, 3])),
        ]
        .concat(),
        journal: vec![UNTOUCHED; 4 * layout.record_length()],
        program: programs::program(Command::Skip),
        fuel: 100,
        report: vec![UNTOUCHED; calls::REPORT_BYTES],
    }
}

fn run_with(layout: &Layout, edit: impl Fn(&mut RunCall)) -> RunCall {
    let mut call = accepted_run(layout);
    edit(&mut call);
    call
}

fn refusal<Input>(name: &str, answer: u32, accepted: Input, refused: Input) -> Refusal<Input> {
    let name = format!("{answer}: {name}");
    Refusal {
        name,
        accepted,
        refused,
        answer,
    }
}
