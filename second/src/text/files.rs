//! Reading whole files and writing them whole or not at all.

use super::complaint::{Complaint, Place};
use std::fs;
use std::io::{self, Read, Write};
use std::path::{Path, PathBuf};

/// The bytes of a file, or of the standard input for `-`.
pub fn read_bytes(file: &str) -> Result<Vec<u8>, String> {
    let read = if file == "-" {
        read_input()
    } else {
        fs::read(file)
    };
    read.map_err(|error| format!("{}: can't be read: {error}", name(file, "standard input")))
}

/// What to call a file in a message.
fn name<'a>(file: &'a str, standard: &'a str) -> &'a str {
    match file {
        "-" => standard,
        named => named,
    }
}

fn read_input() -> io::Result<Vec<u8>> {
    let mut bytes = Vec::new();
    io::stdin().read_to_end(&mut bytes)?;
    Ok(bytes)
}

/// The text of a file, which is UTF-8.
pub fn read_text(file: &str) -> Result<String, String> {
    String::from_utf8(read_bytes(file)?).map_err(|error| {
        let (good, _) = error.as_bytes().split_at(error.utf8_error().valid_up_to());
        let message = "a byte that isn't UTF-8, expected text".to_string();
        Complaint {
            file: file.to_string(),
            place: end_of(good),
            message,
        }
        .to_string()
    })
}

/// The place behind a text.
fn end_of(text: &[u8]) -> Place {
    let text = String::from_utf8_lossy(text);
    let last_line = text.rsplit('\n').next().unwrap_or("");
    Place {
        line: text.matches('\n').count() + 1,
        column: last_line.chars().count() + 1,
    }
}

/// Writes a file, or the standard output for `-`. A regular file comes whole or stays as it was.
pub fn write_bytes(file: &str, bytes: &[u8]) -> Result<(), String> {
    let written = if file == "-" {
        write_output(bytes)
    } else {
        write_file(Path::new(file), bytes)
    };
    written.map_err(|error| {
        format!(
            "{}: can't be written: {error}",
            name(file, "standard output")
        )
    })
}

/// Says one line on the standard error.
pub fn say(message: &str) {
    eprintln!("{message}");
}

fn write_output(bytes: &[u8]) -> io::Result<()> {
    let mut out = io::stdout().lock();
    out.write_all(bytes)?;
    out.flush()
}

fn write_file(file: &Path, bytes: &[u8]) -> io::Result<()> {
    match fs::metadata(file) {
        Ok(found) if found.is_file() => replace(&fs::canonicalize(file)?, bytes),
        Ok(_) => fs::write(file, bytes),
        Err(_) => replace(file, bytes),
    }
}

/// Writes a temporary file beside the wanted one and gives it that name when it is complete.
fn replace(file: &Path, bytes: &[u8]) -> io::Result<()> {
    let temporary = beside(file);
    let done = write_new(&temporary, bytes).and_then(|()| fs::rename(&temporary, file));
    if done.is_err() {
        // The first error is the one to tell; a temporary that was never made can't be removed.
        let _ = fs::remove_file(&temporary);
    }
    done
}

fn beside(file: &Path) -> PathBuf {
    let mut name = file.as_os_str().to_owned();
    name.push(format!(".{}.tmp", std::process::id()));
    PathBuf::from(name)
}

fn write_new(file: &Path, bytes: &[u8]) -> io::Result<()> {
    let mut out = fs::File::create_new(file)?;
    out.write_all(bytes)?;
    out.sync_all()
}
