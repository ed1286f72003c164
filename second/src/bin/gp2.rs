//! The text tools' program: `gp2 asm`, `gp2 dis`, `gp2 dot`, `gp2 renew`, `gp2 pack` and `gp2 unpack`.

use second::text::{perform, task};
use std::process::ExitCode;

const REFUSED: u8 = 1;
const MISUSED: u8 = 2;

fn main() -> ExitCode {
    let arguments: Result<Vec<String>, _> = std::env::args_os()
        .skip(1)
        .map(|argument| argument.into_string())
        .collect();
    let Ok(arguments) = arguments else {
        return complain("an argument isn't UTF-8, expected text", MISUSED);
    };
    match task(&arguments) {
        Err(message) => complain(&format!("gp2: {message} (gp2 --help says more)"), MISUSED),
        Ok(task) => match perform(&task) {
            Err(message) => complain(&message, REFUSED),
            Ok(()) => ExitCode::SUCCESS,
        },
    }
}

fn complain(message: &str, status: u8) -> ExitCode {
    eprintln!("{message}");
    ExitCode::from(status)
}
