//! What the subcommands do.

use super::arguments::{AssembleTask, Source, Task, HELP};
use super::assemble::{assemble_as, read_graph, runner_input, HostSection};
use super::dot::drawing;
use super::files::{read_bytes, read_text, say, write_bytes};
use super::image::{is_runner_image, program, runner_image, RunnerImage, IN_OLD_FORM};
use super::packing::{pack, unpack};
use super::print_host::{host_graph_text, host_section_text};
use super::print_program::program_text;
use super::renew::renew;
use super::sizes::Sizes;
use crate::answer;
use crate::encode;
use crate::host::Host;
use crate::layout::Core;
use crate::listing::run_input_at;
use crate::old_form;

/// Does what a command line asks for, or says why not.
pub fn perform(task: &Task) -> Result<(), String> {
    match task {
        Task::Assemble(task) => write_bytes(&task.image, &assembled(task)?),
        Task::Disassemble { image, host_only: true } => print(image, image_graph),
        Task::Disassemble { image, host_only: false } => print(image, disassemble),
        Task::Draw { image, after: true } => print(image, draw_after),
        Task::Draw { image, after: false } => print(image, draw),
        Task::Renew { old, new } => renew_file(old, new),
        Task::Pack { from, to } => write_bytes(to, &made(from, pack)?),
        Task::Unpack { from, to } => write_bytes(to, &made(from, unpack)?),
        Task::Help => write_bytes("-", HELP.as_bytes()),
    }
}

/// Prints what a tool makes of an image at its core.
fn print(image: &Source, tool: fn(Core, &[u8]) -> Result<String, String>) -> Result<(), String> {
    let made = made(&image.file, |bytes| tool(image.core, bytes))?;
    write_bytes("-", made.as_bytes())
}

fn made<T>(image: &str, tool: impl Fn(&[u8]) -> Result<T, String>) -> Result<T, String> {
    tool(&read_bytes(image)?).map_err(|reason| format!("{image}: {reason}"))
}

/// Renews an image, and says what was done with its host.
fn renew_file(old: &str, new: &str) -> Result<(), String> {
    let renewed = made(old, renew)?;
    write_bytes(new, &renewed.image)?;
    if let Some(host) = renewed.host {
        say(&format!("{old}: {host}"));
    }
    Ok(())
}

/// The bytes of the image that a program, and a host graph if there is one, make.
fn assembled(task: &AssembleTask) -> Result<Vec<u8>, String> {
    let source = read_text(&task.program)?;
    let assembly = assemble_as(&task.program, &source, task.procedures, task.core)
        .map_err(|complaint| complaint.to_string())?;
    let Some((file, host)) = host_of(task, assembly.host)? else {
        return Ok(encode::program(&assembly.program));
    };
    let sizes = task.sizes.clone().or(host.sizes);
    let input = runner_input(&assembly.program, &host.graph, &sizes);
    Ok(encode::runner_input(
        &input.map_err(|reason| format!("{file}: {reason}"))?,
    ))
}

/// The host graph of a task and the file that it stands in.
fn host_of(
    task: &AssembleTask,
    section: Option<HostSection>,
) -> Result<Option<(String, HostSection)>, String> {
    match (&task.host, section) {
        (Some(_), Some(_)) => {
            let program = &task.program;
            Err(format!(
                "{program}: has a host section, expected no --host beside it"
            ))
        }
        (Some(file), None) => {
            let graph =
                read_graph(task.core, file, &read_text(file)?).map_err(|complaint| complaint.to_string())?;
            Ok(Some((
                file.clone(),
                HostSection {
                    sizes: Sizes::default(),
                    graph,
                },
            )))
        }
        (None, Some(section)) => Ok(Some((task.program.clone(), section))),
        (None, None) if task.sizes != Sizes::default() => Err(
            "gp2: --fuel, --records, --nodes and --edges are a host's, expected --host".to_string(),
        ),
        (None, None) => Ok(None),
    }
}

/// The text of a program image, or of a core's runner image with its host section.
pub fn disassemble(core: Core, bytes: &[u8]) -> Result<String, String> {
    if !is_runner_image(bytes) {
        return Ok(program_text(
            &program(bytes, 0).map_err(|fault| fault.to_string())?,
        ));
    }
    let image = runner_image(bytes).map_err(|fault| fault.to_string())?;
    let (host, program) = image.contents(core).map_err(|fault| fault.to_string())?;
    Ok(format!(
        "{}\n{}",
        program_text(&program),
        host_section_text(&image.input, &host)
    ))
}

/// The text of a runner image's host graph alone.
pub fn image_graph(core: Core, bytes: &[u8]) -> Result<String, String> {
    Ok(host_graph_text(&host(core, &with_host(bytes)?)?))
}

/// A runner image's host graph as Graphviz text.
pub fn draw(core: Core, bytes: &[u8]) -> Result<String, String> {
    Ok(drawing(&host(core, &with_host(bytes)?)?))
}

/// The graph that a run of the image results in, as Graphviz text.
pub fn draw_after(core: Core, bytes: &[u8]) -> Result<String, String> {
    let image = with_host(bytes)?;
    let outcome = run_input_at(core.layout(), &image.input);
    match outcome.answer {
        answer::RESULT => {
            let after = Host::read(core.layout(), &outcome.nodes, &outcome.edges)?;
            Ok(drawing(&after))
        }
        answer::FORM if old_form::program(&image.input.program).is_ok() => {
            Err(IN_OLD_FORM.to_string())
        }
        number => {
            let of_tables = [answer::NODE_TABLE, answer::EDGE_TABLE, answer::LAYOUT].contains(&number);
            let remedy = image.other_tables(core).filter(|_| of_tables).map(str::to_string);
            Err(remedy.unwrap_or(format!("the run answers {number}, expected a result (0) to draw")))
        }
    }
}

fn with_host(bytes: &[u8]) -> Result<RunnerImage, String> {
    if !is_runner_image(bytes) {
        return Err("offset 0: no host graph, expected a runner image (tag 0x01)".to_string());
    }
    runner_image(bytes).map_err(|fault| fault.to_string())
}

fn host(core: Core, image: &RunnerImage) -> Result<Host, String> {
    image.host(core).map_err(|fault| fault.to_string())
}
