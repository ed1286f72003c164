//! Images at the limits: full and nearly empty tables of the greatest size, programs of 8,192 bytes, as many rules
//! as there may be, inputs of the greatest length that a corpus holds.

use super::drafts::{Draft, Extent};
use super::fixed::MOST_BYTES;
use super::hosts::{new_edge, Host, Size};
use super::palette::Palette;
use crate::answer;
use crate::build::*;
use crate::encode::{self, runner_input, RunnerInput};
use crate::layout::{Core, Layout};
use crate::listing::run_input_at;
use crate::random::Random;
use crate::tree::*;

/// A kind of large image.
#[derive(Clone, Copy, Debug)]
pub enum Kind {
    FullTables,
    ScatteredInTables,
    ProgramOfMostBytes,
    RootOnAPath,
    FilledUp,
    LongestProgram,
    LongestTable,
    ManyRules,
}

/// The kinds of large images of a core, one after the other. What is about the length of programs and inputs alone comes at the
/// wide core.
pub const fn kinds(core: Core) -> &'static [Kind] {
    use Kind::*;
    match core {
        Core::Wide => &[
            FullTables,
            ScatteredInTables,
            ProgramOfMostBytes,
            RootOnAPath,
            FilledUp,
            LongestProgram,
            LongestTable,
            ManyRules,
        ],
        Core::Small => &[FullTables, ScatteredInTables, RootOnAPath, FilledUp],
    }
}

/// The large image of this number.
pub fn large(random: &mut Random, core: Core, number: u64) -> Vec<u8> {
    let (kinds, layout) = (kinds(core), core.layout());
    let input = match kinds[number as usize % kinds.len()] {
        Kind::FullTables => with_result(random, layout, full_tables),
        Kind::ScatteredInTables => with_result(random, layout, scattered_in_tables),
        Kind::ProgramOfMostBytes => with_result(random, layout, |random, layout| program_of(random, layout, limit::IMAGE_BYTES)),
        Kind::RootOnAPath => root_on_a_path(layout),
        Kind::FilledUp => filled_up(random, layout),
        Kind::LongestProgram => longest_program(random, layout),
        Kind::LongestTable => longest_table(random, layout),
        Kind::ManyRules => with_result(random, layout, many_rules),
    };
    runner_input(&input)
}

/// Draws an input for a layout.
type Draw = fn(&mut Random, &'static Layout) -> RunnerInput;

/// An input whose run gives a result with changes in it, if a few draws give one.
fn with_result(random: &mut Random, layout: &'static Layout, draw: Draw) -> RunnerInput {
    const DRAWS: usize = 20;
    let mut input = draw(random, layout);
    for _ in 1..DRAWS {
        let outcome = run_input_at(layout, &input);
        if outcome.answer == answer::RESULT && outcome.journal.iter().any(|byte| *byte != 0) {
            break;
        }
        input = draw(random, layout);
    }
    input
}

fn draft_of_few_nodes(random: &mut Random, layout: &'static Layout) -> Draft {
    let size = Size {
        nodes: random.between(2, 6),
        ..Size::draw(random)
    };
    let palette = Palette::draw(random, layout);
    let host = Host::draw(random, &palette, size);
    let extent = Extent {
        rules: 8,
        commands: 12,
        levels: limit::DEPTH - 1,
    };
    Draft::over(random, &palette, host, extent)
}

/// Every slot of both tables is live.
fn full_tables(random: &mut Random, layout: &'static Layout) -> RunnerInput {
    let palette = Palette::draw(random, layout);
    let size = Size {
        nodes: layout.most_nodes,
        free_nodes: 0,
        more_edges: 0,
        free_edges: 0,
    };
    let mut host = Host::draw(random, &palette, size);
    host.edges.truncate(layout.most_edges);
    while host.edges.len() < layout.most_edges {
        let (source, target) = (random.below(layout.most_nodes), random.below(layout.most_nodes));
        host.edges
            .push(Some(new_edge(random, &palette, source, target)));
    }
    over(random, &palette, host)
}

/// A few live slots anywhere in the greatest tables.
fn scattered_in_tables(random: &mut Random, layout: &'static Layout) -> RunnerInput {
    let palette = Palette::draw(random, layout);
    let size = Size {
        nodes: 20,
        free_nodes: 0,
        more_edges: 8,
        free_edges: 0,
    };
    let mut host = Host::draw(random, &palette, size);
    let places = spread(random, host.nodes.len(), layout.most_nodes);
    for edge in host.edges.iter_mut().flatten() {
        (edge.source, edge.target) = (places[edge.source], places[edge.target]);
    }
    let edge_places = spread(random, host.edges.len(), layout.most_edges);
    host.nodes = moved(host.nodes, &places, layout.most_nodes);
    host.edges = moved(host.edges, &edge_places, layout.most_edges);
    over(random, &palette, host)
}

/// Different places below `slots`, the last one among them.
fn spread(random: &mut Random, count: usize, slots: usize) -> Vec<usize> {
    let mut places: Vec<usize> = (0..slots - 1).collect();
    random.shuffle(&mut places);
    places.truncate(count);
    if let Some(last) = places.last_mut() {
        *last = slots - 1;
    }
    places
}

fn moved<T: Clone>(items: Vec<Option<T>>, places: &[usize], slots: usize) -> Vec<Option<T>> {
    let mut table = vec![None; slots];
    for (item, place) in items.into_iter().zip(places) {
        table[*place] = item;
    }
    table
}

/// A program over this host, drawn until the input is short enough for a corpus.
fn over(random: &mut Random, palette: &Palette, host: Host) -> RunnerInput {
    let extent = Extent {
        rules: 4,
        commands: 8,
        levels: 8,
    };
    loop {
        let draft = Draft::over(random, palette, host.clone(), extent);
        let input = Draft {
            records: palette.layout.most_records as u16,
            ..draft
        }
        .input();
        if runner_input(&input).len() <= MOST_BYTES {
            return input;
        }
    }
}

/// A program of exactly so many bytes: what is missing stands where no run comes to.
fn program_of(random: &mut Random, layout: &'static Layout, bytes: usize) -> RunnerInput {
    loop {
        let mut draft = draft_of_few_nodes(random, layout);
        let main = draft.program.main.clone();
        draft.program.main = if_command(Command::Skip, main.clone(), Command::Skip);
        let length = encode::program(&draft.program).len();
        if length <= bytes {
            let rest = filler(3 + bytes - length);
            draft.program.main = if_command(Command::Skip, main, rest);
            return draft.input();
        }
    }
}

/// A command of exactly so many bytes, at least 3.
fn filler(bytes: usize) -> Command {
    match bytes {
        3 => Command::Skip,
        4..=11 => Command::RuleSet(vec![0; bytes - 3]),
        _ => {
            let most = (bytes - 3).div_ceil(limit::COMMANDS).max(11);
            let mut left = bytes - 3;
            let mut parts = Vec::new();
            while left > 0 {
                let rest = left.saturating_sub(most);
                let part = if (1..3).contains(&rest) {
                    left - 3
                } else {
                    left - rest
                };
                parts.push(filler(part));
                left -= part;
            }
            Command::Sequence(parts)
        }
    }
}

/// A root walks along a path, whose slots have two-byte numbers if the table can have as many, and takes the path away behind it.
fn root_on_a_path(layout: &Layout) -> RunnerInput {
    let last = layout.most_nodes.min(300) as u16 - 1;
    let node = |slot: u16| layout.node_slot(mark::NONE, slot == 0, &[i32::from(slot)]);
    let edge = |slot: u16| layout.edge_slot(mark::DASHED, slot, slot + 1, &[]);
    RunnerInput {
        nodes: (0..=last).flat_map(node).collect(),
        edges: (0..last).flat_map(edge).collect(),
        records: layout.most_records as u16,
        fuel: 1000,
        program: encode::program(&Program::without_procedures(
            vec![one_step()],
            looped(call(0)),
        )),
    }
}

/// A root over an edge to a plain node: the root moves and the edge goes.
fn one_step() -> Rule {
    let [list, int] = [0, 1].map(|variable| [Element::Variable(variable)]);
    let left = (
        vec![root(mark::NONE, &list), node(mark::NONE, &int)],
        vec![edge(mark::DASHED, 0, 1, &[])],
    );
    let right = (
        vec![node(mark::NONE, &list), root(mark::NONE, &int)],
        vec![],
    );
    Rule {
        variables: vec![VariableType::List, VariableType::Int],
        ..rule(left, right, 2)
    }
}

/// The greatest node table, all free, which one rule fills until it is full or the journal is.
fn filled_up(random: &mut Random, layout: &'static Layout) -> RunnerInput {
    let new_nodes = vec![root(mark::GREY, &[Element::Constant(-1)]); random.between(1, 3)];
    let rule = node_rule(&[], &new_nodes, 0);
    let nodes = layout.most_nodes;
    RunnerInput {
        nodes: vec![0; nodes * layout.node_length()],
        edges: vec![],
        records: random.pick(&[nodes - 1, nodes, layout.most_records]) as u16,
        fuel: 1000,
        program: encode::program(&Program::without_procedures(vec![rule], looped(call(0)))),
    }
}

/// An input of the greatest length that the corpus holds; its program is too long.
fn longest_program(random: &mut Random, layout: &'static Layout) -> RunnerInput {
    let mut input = draft_of_few_nodes(random, layout).input();
    let missing = MOST_BYTES - runner_input(&input).len();
    input.program.extend(vec![0x55; missing]);
    input
}

/// An input of the greatest length that the corpus holds; one of its tables is too long.
fn longest_table(random: &mut Random, layout: &'static Layout) -> RunnerInput {
    let mut input = draft_of_few_nodes(random, layout).input();
    let missing = MOST_BYTES - runner_input(&input).len();
    let table = if random.chance(50) {
        &mut input.nodes
    } else {
        &mut input.edges
    };
    table.extend(vec![0; missing]);
    input
}

/// As many rules as there may be.
fn many_rules(random: &mut Random, layout: &'static Layout) -> RunnerInput {
    loop {
        let palette = Palette::draw(random, layout);
        let nodes = random.between(6, 9);
        let size = Size {
            nodes,
            ..Size::draw(random)
        };
        let host = Host::draw(random, &palette, size);
        let extent = Extent {
            rules: limit::RULES,
            commands: 20,
            levels: limit::DEPTH,
        };
        let input = Draft::over(random, &palette, host, extent).input();
        if input.program.len() <= limit::IMAGE_BYTES {
            return input;
        }
    }
}
