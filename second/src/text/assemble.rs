//! From texts to the program tree, the host graph and the bytes of an image.

use super::complaint::{Complaint, Place, Problem};
use super::host_graph::{host_graph, HostGraph};
use super::image::grouped;
use super::keeping::{no_numbers, numbers, Numbers, Procedures};
use super::lower_commands::{commands, Obstacle};
use super::parse_host;
use super::parse_program;
use super::scopes::Scopes;
use super::sizes::{Sizes, USUAL_FUEL};
use super::syntax::{HostText, ProgramText};
use crate::encode::{self, RunnerInput};
use crate::layout::{Core, Layout};
use crate::listing::INPUT_BYTES;
use crate::tree::{limit, Program};
use crate::{decode, depth, placement, references};

/// What a program text stands for.
#[derive(Clone, Debug, PartialEq, Eq)]
pub struct Assembly {
    pub program: Program,
    pub host: Option<HostSection>,
}

/// What the host section behind a program stands for.
#[derive(Clone, Debug, PartialEq, Eq)]
pub struct HostSection {
    pub sizes: Sizes,
    pub graph: HostGraph,
}

/// A program with its host section, if it has one, for the wide core.
pub fn assemble(file_name: &str, source: &str) -> Result<Assembly, Complaint> {
    assemble_as(file_name, source, Procedures::Kept, Core::Wide)
}

/// The same, where it is said what is to become of procedures, and for which core it is.
pub fn assemble_as(
    file_name: &str,
    source: &str,
    procedures: Procedures,
    core: Core,
) -> Result<Assembly, Complaint> {
    assembly(source, procedures, core.layout()).map_err(|problem| problem.in_file(file_name))
}

/// The program that a text stands for.
pub fn assemble_program(file_name: &str, source: &str) -> Result<Program, Complaint> {
    Ok(assemble(file_name, source)?.program)
}

/// The host graph that a text stands for, at a core.
pub fn read_graph(core: Core, file_name: &str, source: &str) -> Result<HostGraph, Complaint> {
    let layout = core.layout();
    let graph = parse_host::host_graph(layout, source).and_then(|text| host_graph(layout, &text));
    graph.map_err(|problem| problem.in_file(file_name))
}

/// The runner's input for a program and a host graph, at the graph's layout.
pub fn runner_input(
    program: &Program,
    graph: &HostGraph,
    sizes: &Sizes,
) -> Result<RunnerInput, String> {
    let (node_slots, edge_slots) = sizes.slots(graph);
    let (nodes, edges) = graph.tables(node_slots, edge_slots)?;
    let input = RunnerInput {
        nodes,
        edges,
        records: sizes.records_for(graph),
        fuel: sizes.fuel.unwrap_or(USUAL_FUEL),
        program: encode::program(program),
    };
    match encode::runner_input(&input).len() {
        0..=INPUT_BYTES => Ok(input),
        bytes => Err(format!(
            "the runner's input takes {} bytes, expected at most {}: fewer slots, or a shorter program",
            grouped(bytes),
            grouped(INPUT_BYTES)
        )),
    }
}

fn assembly(source: &str, procedures: Procedures, layout: &'static Layout) -> Result<Assembly, Problem> {
    let text = parse_program::program(layout, source)?;
    let program = lower(&text, procedures)?;
    let host = text.host.as_ref().map(|host| host_section(layout, host)).transpose()?;
    Ok(Assembly { program, host })
}

fn host_section(layout: &'static Layout, text: &HostText) -> Result<HostSection, Problem> {
    let mut sizes = Sizes::default();
    for number in &text.numbers {
        let set = sizes.set(layout, &number.name.text, &number.value);
        set.map_err(|reason| {
            Problem::new(
                number.value_place,
                format!("{}: {reason}", number.name.text),
            )
        })?;
    }
    let graph = host_graph(layout, &text.graph)?;
    let (node_slots, edge_slots) = sizes.slots(&graph);
    let fits = graph.tables(node_slots, edge_slots);
    fits.map_err(|reason| Problem::new(text.place, reason))?;
    Ok(HostSection { sizes, graph })
}

fn lower(text: &ProgramText, procedures: Procedures) -> Result<Program, Problem> {
    let scopes = Scopes::of_program(text)?;
    if procedures == Procedures::WrittenOut {
        return lower_as(text, &scopes, &no_numbers(&scopes)).map_err(Problem::from);
    }
    match lower_as(text, &scopes, &numbers(&scopes)) {
        Err(Obstacle::Depth(_)) => lower_deep(text, &scopes),
        lowered => lowered.map_err(Problem::from),
    }
}

/// The program with its procedures written out, since calls of them would lead too deep.
fn lower_deep(text: &ProgramText, scopes: &Scopes) -> Result<Program, Problem> {
    lower_as(text, scopes, &no_numbers(scopes)).map_err(|obstacle| match obstacle {
        Obstacle::Length(Problem { place, message }) => {
            let reason = "procedures are written out, since with calls of them commands would lie over 16 deep";
            Problem::new(place, format!("{message} ({reason})"))
        }
        other => other.into(),
    })
}

impl From<Obstacle> for Problem {
    fn from(obstacle: Obstacle) -> Problem {
        match obstacle {
            Obstacle::Depth(problem) | Obstacle::Length(problem) | Obstacle::Other(problem) => {
                problem
            }
        }
    }
}

/// The program whose procedures have these numbers.
fn lower_as(text: &ProgramText, scopes: &Scopes, numbers: &Numbers) -> Result<Program, Obstacle> {
    let commands = commands(&text.main, scopes, numbers)?;
    let program = Program {
        rules: scopes.rules.clone(),
        procedures: commands.procedures,
        main: commands.main,
    };
    depth::check(&program)
        .map_err(|fault| Obstacle::Depth(Problem::new(text.main.place, fault.reason)))?;
    check_length(text, scopes, numbers, &program).map_err(Obstacle::Length)?;
    check_legal(&program)?;
    Ok(program)
}

/// Complains of the rule or procedure that makes the image too long, or of `Main` if its commands do.
fn check_length(
    text: &ProgramText,
    scopes: &Scopes,
    numbers: &Numbers,
    program: &Program,
) -> Result<(), Problem> {
    let rules = program.rules.iter().map(|rule| encode::rule(rule).len());
    let rules = rules.zip(scopes.rule_places.iter().copied());
    let kept = scopes.procedures.iter().zip(numbers);
    let places = kept.filter_map(|(procedure, number)| number.map(|_| procedure.name.place));
    let procedures = program
        .procedures
        .iter()
        .map(|it| encode::procedure(it).len());
    let rules = add_lengths("rules", 0, rules)?;
    let declared = add_lengths("rules and procedures", rules, procedures.zip(places))?;
    let whole = declared + encode::command(&program.main).len();
    match whole > limit::IMAGE_BYTES {
        true => Err(too_long(text.main.place, "the image takes", whole)),
        false => Ok(()),
    }
}

/// These bytes and those of the parts of an image, each of which has a place in the text.
fn add_lengths(
    words: &str,
    before: usize,
    parts: impl Iterator<Item = (usize, Place)>,
) -> Result<usize, Problem> {
    let mut bytes = before;
    for (length, place) in parts {
        bytes += length;
        if bytes > limit::IMAGE_BYTES {
            return Err(too_long(
                place,
                &format!("the {words} up to this one take"),
                bytes,
            ));
        }
    }
    Ok(bytes)
}

fn too_long(place: Place, what: &str, bytes: usize) -> Problem {
    let most = limit::IMAGE_BYTES;
    Problem::new(
        place,
        format!("{what} {bytes} bytes, expected at most {most}"),
    )
}

/// A last look with the interpreter's own checks, which the lowering has made with places already.
fn check_legal(program: &Program) -> Result<(), Problem> {
    let fault = match decode::program(&encode::program(program)) {
        Err(damage) => Some(format!("{}: {}", damage.field, damage.expected)),
        Ok(read) if read != *program => Some("it reads back otherwise".to_string()),
        Ok(_) => references::check(program).err(),
    };
    let fault = fault.or_else(|| (!placement::check(program)).then(|| "placement".to_string()));
    let fault = fault.or_else(|| depth::check(program).err().map(|fault| fault.reason));
    match fault {
        None => Ok(()),
        Some(fault) => {
            let message = format!("the image would be refused ({fault}), expected a legal one");
            Err(Problem::new(Place::START, message))
        }
    }
}
