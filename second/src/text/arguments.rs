//! The command line of `gp2`.

use super::keeping::Procedures;
use super::sizes::Sizes;
use crate::layout::Core;
use std::slice::Iter;

pub const HELP: &str = "\
gp2: text tools for graph program images

gp2 asm PROGRAM [--host GRAPH] [--fuel N] [--records N] [--nodes N] [--edges N]
        [--core wide|small] [--write-out] -o IMAGE
    Assembles a program in GP 2 notation. Without a host graph IMAGE is a program
    image; with one (from GRAPH, or in PROGRAM behind the word `host`) it is a whole
    runner image. Procedures stay procedures where an image can hold them.
      --host GRAPH   the host graph, as [ nodes | edges ]
      --fuel N       0 to 1000000, usually 100000
      --records N    journal records, 0 to 1024, usually 1024
      --nodes N      node slots, up to 512, usually the graph's and 16 free ones
      --edges N      edge slots, up to 1024, usually the graph's and 16 free ones
      --core small   tables of the small core: up to 128 node slots, 255 edge slots,
                     255 records (usually as many), labels of at most one atom
      --write-out    writes every procedure out where it is called
      -o IMAGE       the file to write

gp2 dis IMAGE [--host] [--core wide|small]
    Prints an image as text that assembles to the same bytes. A runner image's text
    has its host graph and numbers behind the program; --host prints the graph alone.

gp2 dot IMAGE [--after] [--core wide|small]
    Draws the host graph of a runner image as Graphviz text: marks as colours, roots
    as double circles. --after draws the result of the run.
    Of dis and dot too, --core says whose tables a runner image has; it is usually wide.

gp2 renew OLD -o NEW
    Rewrites an image of the old form, in which if (0x52) and try (0x53) are commands
    of their own, to today's, in which either is a guarded command (0x59). Each takes
    one byte more; an image without them stays as it is. OLD is a program image or a
    runner image. Tables of a runner image that keep the old layout, with labels of at
    most four atoms, are widened to eight, slot numbers kept; others stay as they are.
    What was done with them is said on the standard error.

gp2 pack IMAGE -o SMALL
gp2 unpack SMALL -o IMAGE
    Carries the tables of a runner image from the wide core to the small one, and back,
    with as many slots; slot numbers, fuel, records and program stay.

gp2 --help
    Prints this page.

A file named - is the standard input, or the standard output for -o. Refusals are
written to the standard error as FILE:LINE:COLUMN: what is wrong and what is expected
(for images FILE: offset, field, what is expected, and what a run answers). The exit
status is 0 on success, 1 where an input is refused, 2 where the command line is.
";

#[derive(Clone, Debug, PartialEq, Eq)]
pub enum Task {
    Assemble(AssembleTask),
    Disassemble { image: Source, host_only: bool },
    Draw { image: Source, after: bool },
    Renew { old: String, new: String },
    Pack { from: String, to: String },
    Unpack { from: String, to: String },
    Help,
}

/// The file of an image, and the core that it is for.
#[derive(Clone, Debug, PartialEq, Eq)]
pub struct Source {
    pub file: String,
    pub core: Core,
}

#[derive(Clone, Debug, PartialEq, Eq)]
pub struct AssembleTask {
    pub program: String,
    pub host: Option<String>,
    pub sizes: Sizes,
    pub procedures: Procedures,
    pub core: Core,
    pub image: String,
}

/// What a command line asks for.
pub fn task(arguments: &[String]) -> Result<Task, String> {
    let Some((word, rest)) = arguments.split_first() else {
        return Err(format!("no subcommand, expected {SUBCOMMANDS}"));
    };
    if rest.iter().any(|argument| is_help(argument)) {
        return Ok(Task::Help);
    }
    match word.as_str() {
        "asm" => Ok(Task::Assemble(assemble_task(rest)?)),
        "dis" => {
            let (image, host_only) = image_and_flag(rest, "--host")?;
            Ok(Task::Disassemble { image, host_only })
        }
        "dot" => {
            let (image, after) = image_and_flag(rest, "--after")?;
            Ok(Task::Draw { image, after })
        }
        "renew" => {
            let (old, new) = file_and_output(rest, "OLD")?;
            Ok(Task::Renew { old, new })
        }
        "pack" => {
            let (from, to) = file_and_output(rest, "IMAGE")?;
            Ok(Task::Pack { from, to })
        }
        "unpack" => {
            let (from, to) = file_and_output(rest, "SMALL")?;
            Ok(Task::Unpack { from, to })
        }
        "help" => Ok(Task::Help),
        word if is_help(word) => Ok(Task::Help),
        word => Err(format!("no subcommand `{word}`, expected {SUBCOMMANDS}")),
    }
}

const SUBCOMMANDS: &str = "asm, dis, dot, renew, pack, unpack or --help";

fn is_help(argument: &str) -> bool {
    argument == "--help" || argument == "-h"
}

/// A file's name or `-`, not an option.
fn is_file(argument: &str) -> bool {
    argument == "-" || !argument.starts_with('-')
}

fn image_and_flag(arguments: &[String], flag: &str) -> Result<(Source, bool), String> {
    let (mut image, mut core) = (None, None);
    let mut flagged = false;
    let mut rest = arguments.iter();
    while let Some(argument) = rest.next() {
        if argument == flag {
            flagged = true;
        } else if argument == "--core" {
            set_core(&mut core, value(argument, &mut rest)?)?;
        } else if is_file(argument) {
            set_file(&mut image, argument, "IMAGE")?;
        } else {
            return Err(format!("no option `{argument}`, expected {flag} or --core"));
        }
    }
    let file = image.ok_or("no IMAGE, expected a file or -")?;
    let core = core.unwrap_or_default();
    Ok((Source { file, core }, flagged))
}

fn set_core(place: &mut Option<Core>, name: &str) -> Result<(), String> {
    let core = Core::named(name).ok_or(format!("--core: no core `{name}`, expected wide or small"))?;
    match place.replace(core) {
        None => Ok(()),
        Some(_) => Err("--core: given twice, expected once".to_string()),
    }
}

fn set_file(place: &mut Option<String>, argument: &str, what: &str) -> Result<(), String> {
    match place.replace(argument.to_string()) {
        None => Ok(()),
        Some(_) => Err(format!("`{argument}` beside another {what}, expected one")),
    }
}

fn assemble_task(arguments: &[String]) -> Result<AssembleTask, String> {
    let (mut program, mut host, mut image, mut core) = (None, None, None, None);
    let mut numbers = Vec::new();
    let mut procedures = Procedures::Kept;
    let mut rest = arguments.iter();
    while let Some(argument) = rest.next() {
        match argument.as_str() {
            "-o" => set_file(&mut image, value(argument, &mut rest)?, "-o")?,
            "--write-out" => procedures = Procedures::WrittenOut,
            "--host" => set_file(&mut host, value(argument, &mut rest)?, "--host")?,
            "--core" => set_core(&mut core, value(argument, &mut rest)?)?,
            "--fuel" | "--records" | "--nodes" | "--edges" => numbers.push((argument, value(argument, &mut rest)?)),
            file if is_file(file) => set_file(&mut program, file, "PROGRAM")?,
            option => {
                let options = "--host, --fuel, --records, --nodes, --edges, --core, --write-out or -o";
                return Err(format!("no option `{option}`, expected {options}"));
            }
        }
    }
    let core = core.unwrap_or_default();
    Ok(AssembleTask {
        sizes: sizes(core, &numbers)?,
        program: program.ok_or("no PROGRAM, expected a file or -")?,
        host,
        procedures,
        core,
        image: image.ok_or(NO_OUTPUT)?,
    })
}

/// The numbers of these options, each with its digits.
fn sizes(core: Core, numbers: &[(&String, &String)]) -> Result<Sizes, String> {
    let mut sizes = Sizes::default();
    for (option, digits) in numbers {
        let set = sizes.set(core.layout(), &option[2..], digits);
        set.map_err(|reason| format!("{option}: {reason}"))?;
    }
    Ok(sizes)
}

const NO_OUTPUT: &str = "no -o, expected the image's file or -";

/// What stands behind an option.
fn value<'a>(option: &str, rest: &mut Iter<'a, String>) -> Result<&'a String, String> {
    rest.next()
        .ok_or(format!("nothing behind `{option}`, expected its value"))
}

/// The file that is read, which a message calls so, and the one that is written.
fn file_and_output(arguments: &[String], what: &str) -> Result<(String, String), String> {
    let (mut from, mut to) = (None, None);
    let mut rest = arguments.iter();
    while let Some(argument) = rest.next() {
        match argument.as_str() {
            "-o" => set_file(&mut to, value(argument, &mut rest)?, "-o")?,
            file if is_file(file) => set_file(&mut from, file, what)?,
            option => return Err(format!("no option `{option}`, expected -o")),
        }
    }
    let from = from.ok_or(format!("no {what}, expected a file or -"))?;
    Ok((from, to.ok_or(NO_OUTPUT)?))
}
