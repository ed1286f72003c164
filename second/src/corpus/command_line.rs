//! `second corpus`: makes a corpus, its listings, and the figures of what running it exercises.

use super::{corpus, drawn_corpus, joined, listings, Figures};
use std::fs;
use std::io::Write;

const USAGE: &str = "usage: second corpus --seed S --count N [--drawn] [-o FILE] [--listings FILE]";

#[derive(Debug, PartialEq, Eq)]
struct Options {
    seed: u64,
    count: u64,
    /// Leave out the images that are the same for each seed.
    drawn: bool,
    corpus: Option<String>,
    listings: Option<String>,
}

/// Does what the arguments behind `corpus` ask. Without `-o` the corpus goes to standard output and the figures to
/// standard error.
pub fn main(arguments: &[String]) -> Result<(), String> {
    let options = options(arguments)?;
    let images = match options.drawn {
        true => drawn_corpus(options.seed, options.count),
        false => corpus(options.seed, options.count),
    };
    let corpus = joined(&images);
    let mut files: Vec<(&str, Vec<u8>)> = Vec::new();
    if let Some(file) = &options.listings {
        files.push((file, listings(&images).into_bytes()));
    }
    if let Some(file) = &options.corpus {
        files.push((file, corpus.clone()));
    }
    write_files(&files)?;
    let figures = Figures::of(&images).to_string();
    match &options.corpus {
        Some(_) => print(std::io::stdout().lock(), figures.as_bytes()),
        None => {
            print(std::io::stdout().lock(), &corpus)?;
            print(std::io::stderr().lock(), figures.as_bytes())
        }
    }
}

fn options(arguments: &[String]) -> Result<Options, String> {
    let (mut seed, mut count, mut corpus, mut listings) = (None, None, None, None);
    let mut drawn = false;
    let mut rest = arguments.iter();
    while let Some(name) = rest.next() {
        let mut value = || {
            rest.next()
                .ok_or(format!("{name} has no value behind it\n{USAGE}"))
        };
        match name.as_str() {
            "--seed" => seed = Some(number(name, value()?)?),
            "--count" => count = Some(number(name, value()?)?),
            "--drawn" => drawn = true,
            "-o" => corpus = Some(value()?.clone()),
            "--listings" => listings = Some(value()?.clone()),
            _ => return Err(format!("{name} is no option of corpus\n{USAGE}")),
        }
    }
    let seed = seed.ok_or(format!("--seed is missing\n{USAGE}"))?;
    let count = count.ok_or(format!("--count is missing\n{USAGE}"))?;
    if corpus.is_some() && corpus == listings {
        return Err(format!("-o and --listings name the same file\n{USAGE}"));
    }
    Ok(Options {
        seed,
        count,
        drawn,
        corpus,
        listings,
    })
}

fn number(name: &str, text: &str) -> Result<u64, String> {
    text.parse()
        .map_err(|_| format!("{name} wants a number from 0 to {}, not {text}", u64::MAX))
}

/// Writes every file beside its place first and moves them there when all are whole.
pub fn write_files(files: &[(&str, Vec<u8>)]) -> Result<(), String> {
    let written = files.iter().try_for_each(|(file, bytes)| {
        fs::write(beside(file), bytes).map_err(|error| format!("{file} can't be written: {error}"))
    });
    let moved = written.and_then(|()| {
        files.iter().try_for_each(|(file, _)| {
            fs::rename(beside(file), file)
                .map_err(|error| format!("{file} can't be replaced: {error}"))
        })
    });
    if moved.is_err() {
        for (file, _) in files {
            let _ = fs::remove_file(beside(file));
        }
    }
    moved
}

fn beside(file: &str) -> String {
    format!("{file}.{}.new", std::process::id())
}

fn print(mut out: impl Write, bytes: &[u8]) -> Result<(), String> {
    let written = out.write_all(bytes).and_then(|()| out.flush());
    written.map_err(|error| format!("the output can't be written: {error}"))
}

#[cfg(test)]
mod tests {
    use super::*;

    fn words(line: &str) -> Vec<String> {
        line.split_whitespace().map(str::to_string).collect()
    }

    #[test]
    fn all_options_are_read_in_any_order() {
        let read = options(&words("--listings l --count 3 -o c --drawn --seed 5")).unwrap();
        let (corpus, listings) = (Some("c".to_string()), Some("l".to_string()));
        assert_eq!(
            read,
            Options {
                seed: 5,
                count: 3,
                drawn: true,
                corpus,
                listings
            }
        );
    }

    #[test]
    fn what_is_wrong_with_the_options_is_said() {
        let message = |line: &str| options(&words(line)).unwrap_err();
        assert!(message("--seed 1").starts_with("--count is missing"));
        assert!(message("--count 1").starts_with("--seed is missing"));
        assert!(message("--seed 1 --count").starts_with("--count has no value"));
        assert!(message("--seed x --count 1").contains("not x"));
        assert!(message("--seed -1 --count 1").contains("not -1"));
        assert!(message("--seed 1 --count 1 -o a --listings a").contains("the same file"));
        assert!(message("--sed 1").starts_with("--sed is no option"));
    }

    #[test]
    fn nothing_stays_behind_where_a_file_cannot_be_written() {
        let folder = std::env::temp_dir().join(format!("corpus-{}", std::process::id()));
        fs::create_dir_all(&folder).unwrap();
        let good = folder.join("good").to_str().unwrap().to_string();
        let bad = folder.join("missing/bad").to_str().unwrap().to_string();
        let files = [(good.as_str(), vec![1]), (bad.as_str(), vec![2])];
        assert!(write_files(&files)
            .unwrap_err()
            .contains("can't be written"));
        let left = fs::read_dir(&folder).unwrap().count();
        fs::remove_dir_all(&folder).unwrap();
        assert_eq!(left, 0);
    }
}
