//! The commands inside a command by the kind of their place.

use second::tree::Command;

/// The guards, the branches and the loop bodies of a command, those inside of others too.
pub fn insides(command: &Command) -> [Vec<Command>; 3] {
    let mut found = [vec![], vec![], vec![]];
    match command {
        Command::Guarded {
            guard, then, other, ..
        } => {
            found[0].push((**guard).clone());
            found[1].extend([(**then).clone(), (**other).clone()]);
        }
        Command::Loop(body) => found[2].push((**body).clone()),
        _ => {}
    }
    for part in command.parts() {
        for (kind, inner) in found.iter_mut().zip(insides(part)) {
            kind.extend(inner);
        }
    }
    found
}
