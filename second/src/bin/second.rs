//! The second interpreter's program: it runs an image and prints the listing, makes a corpus, prints the figures of one, writes
//! the stored inputs of the test programs, or times its reader of text graphs.

use std::io::{Read, Write};
use std::process::ExitCode;

use second::layout::{Core, Layout};
use second::{corpus, listing, stored, text_graph};

const USAGE: &str = "usage: second run [--core wide|small] IMAGE|-
       second corpus --seed S --count N [--drawn] [-o FILE] [--listings FILE]
       second figures CORPUS
       second stored PROGRAM FOLDER
       second reading TEXT ROUNDS";

fn main() -> ExitCode {
    let arguments: Vec<String> = std::env::args().skip(1).collect();
    match chosen(&arguments) {
        Ok(()) => ExitCode::SUCCESS,
        Err(message) => {
            eprintln!("second: {message}");
            ExitCode::FAILURE
        }
    }
}

fn chosen(arguments: &[String]) -> Result<(), String> {
    match arguments {
        [word, image] if word == "run" => run(Core::Wide, image),
        [word, option, core, image] if word == "run" && option == "--core" => run(named_core(core)?, image),
        [word, ..] if word == "run" => Err(format!("run takes one image, and --core before it\n{USAGE}")),
        [word, rest @ ..] if word == "corpus" => corpus::main(rest),
        [word, file] if word == "figures" => figures(file),
        [word, ..] if word == "figures" => Err(format!("figures takes one corpus\n{USAGE}")),
        [word, name, folder] if word == "stored" => store(name, folder),
        [word, ..] if word == "stored" => Err(format!("stored takes a program and a folder\n{USAGE}")),
        [word, text, rounds] if word == "reading" => reading(text, rounds),
        [word, ..] if word == "reading" => Err(format!("reading takes a text and a number of rounds\n{USAGE}")),
        [word, ..] => Err(format!("{word} is no subcommand\n{USAGE}")),
        [] => Err(format!("a subcommand is missing\n{USAGE}")),
    }
}

fn named_core(name: &str) -> Result<Core, String> {
    Core::named(name).ok_or(format!("{name} is no core, expected wide or small\n{USAGE}"))
}

/// Prints the listing of an image at a core.
fn run(core: Core, image: &str) -> Result<(), String> {
    let bytes = read(image).map_err(|error| format!("{image} can't be read: {error}"))?;
    print("the listing", &listing::listing_at(core.layout(), &bytes))
}

/// Prints what running the images of a corpus exercises.
fn figures(file: &str) -> Result<(), String> {
    let corpus = read(file).map_err(|error| format!("{file} can't be read: {error}"))?;
    let images = corpus::split(&corpus).map_err(|place| format!("{file}, {place}"))?;
    print("the figures", &corpus::Figures::of(&images).to_string())
}

/// Prints what an import of a text answers, and how many microseconds reading it takes, the least of some rounds.
fn reading(file: &str, rounds: &str) -> Result<(), String> {
    let text = read(file).map_err(|error| format!("{file} can't be read: {error}"))?;
    let rounds: u32 = rounds.parse().map_err(|_| format!("{rounds} is no number of rounds"))?;
    let answer = text_graph::read(&Layout::BASE, &text).map_or_else(|refusal| refusal.answer, |_| 0);
    let least = (0..rounds.max(1)).map(|_| {
        let start = std::time::Instant::now();
        std::hint::black_box(text_graph::read(&Layout::BASE, std::hint::black_box(&text)).is_ok());
        start.elapsed()
    });
    let least = least.min().unwrap_or_default();
    print("the time", &format!("{answer} {:.1}\n", least.as_secs_f64() * 1e6))
}

fn print(what: &str, text: &str) -> Result<(), String> {
    let mut out = std::io::stdout();
    out.write_all(text.as_bytes())
        .and_then(|()| out.flush())
        .map_err(|error| format!("{what} can't be written: {error}"))
}

/// Writes `stdin` and `stdout` of a test program into a folder: both, or neither.
fn store(name: &str, folder: &str) -> Result<(), String> {
    let known = stored::NAMES.join(", ");
    let stored = stored::named(name).ok_or(format!("{name} has no stored inputs; these have: {known}"))?;
    let stdin = format!("{folder}/stdin");
    let stdout = format!("{folder}/stdout");
    corpus::write_files(&[(&stdin, stored.stdin), (&stdout, stored.stdout)])
}

fn read(image: &str) -> std::io::Result<Vec<u8>> {
    if image != "-" {
        return std::fs::read(image);
    }
    let mut bytes = Vec::new();
    std::io::stdin().read_to_end(&mut bytes)?;
    Ok(bytes)
}
