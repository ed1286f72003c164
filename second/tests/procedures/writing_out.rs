//! Programs with each call written out, and with calls put in as far as there are levels.

use second::encode;
use second::tree::{limit, Command, Program};

/// The program with each call replaced by what `put` makes of its procedure's command, and without procedures. None where its image
/// is too long or lies too deep.
pub fn written_out(program: &Program, put: fn(Command) -> Command) -> Option<Program> {
    const MOST: usize = limit::IMAGE_BYTES / 3;
    let mut writing = Writing {
        program,
        put,
        left: MOST,
    };
    let main = writing.command(&program.main)?;
    let out = Program::without_procedures(program.rules.clone(), main);
    let fits =
        out.main.depth() <= limit::DEPTH && encode::program(&out).len() <= limit::IMAGE_BYTES;
    fits.then_some(out)
}

struct Writing<'a> {
    program: &'a Program,
    put: fn(Command) -> Command,
    /// How many commands may still be written.
    left: usize,
}

impl Writing<'_> {
    fn command(&mut self, command: &Command) -> Option<Command> {
        self.left = self.left.checked_sub(1)?;
        if let Command::Procedure(number) = command {
            let body = &self.program.procedures[usize::from(*number)];
            return Some((self.put)(self.command(body)?));
        }
        let mut copy = command.clone();
        for part in copy.parts_mut() {
            *part = self.command(part)?;
        }
        Some(copy)
    }
}

/// The command with each call replaced by a sequence of its procedure's command, literally. None where that lies over so many
/// levels deep, which a ring does at any number of them.
pub fn put_in(program: &Program, command: &Command, levels: usize) -> Option<Command> {
    let below = levels.checked_sub(1)?;
    if let Command::Procedure(number) = command {
        let body = put_in(program, &program.procedures[usize::from(*number)], below)?;
        return Some(Command::Sequence(vec![body]));
    }
    let mut copy = command.clone();
    for part in copy.parts_mut() {
        *part = put_in(program, part, below)?;
    }
    Some(copy)
}
