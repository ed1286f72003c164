//! A command as text. A sequence inside another command stands in parentheses, one of a single command as
//! `(P;)`; what is too long for a line is broken and indented.

use crate::tree::Command;

const WIDTH: usize = 90;
const INDENT: usize = 2;

/// Where a command stands, which decides whether it needs parentheses.
#[derive(Clone, Copy, PartialEq)]
enum Role {
    /// A part of a sequence or a whole of parentheses.
    Part,
    /// A guard, a branch or the body of a loop.
    Block,
}

/// The line or lines of `Main` or of a procedure.
pub fn declaration(name: &str, command: &Command) -> String {
    let head = format!("{name} = ");
    let indent = head.len();
    match command {
        Command::Sequence(parts) if parts.len() > 1 => {
            let line = parts
                .iter()
                .map(|part| flat(part, Role::Part))
                .collect::<Vec<_>>()
                .join("; ");
            if indent + line.len() <= WIDTH {
                return format!("{head}{line}\n");
            }
            format!("{head}{}\n", broken_parts(parts, indent))
        }
        _ => format!("{head}{}\n", text(command, indent, Role::Part)),
    }
}

/// The command, on one line if it fits behind `indent` blanks.
fn text(command: &Command, indent: usize, role: Role) -> String {
    let line = flat(command, role);
    if indent + line.len() <= WIDTH {
        return line;
    }
    match command {
        Command::Sequence(parts) => {
            let inner = indent + INDENT;
            let end = if parts.len() == 1 { ";" } else { "" };
            let parts = broken_parts(parts, inner);
            format!("({}{parts}{end}{})", new_line(inner), new_line(indent))
        }
        Command::Guarded {
            keep,
            guard,
            then,
            other,
        } => in_role(
            broken_branches(word(*keep), [guard, then, other], indent),
            role,
        ),
        Command::Loop(body) => format!("{}!", text(body, indent, Role::Block)),
        _ => line,
    }
}

fn broken_parts(parts: &[Command], indent: usize) -> String {
    let parts: Vec<String> = parts
        .iter()
        .map(|part| text(part, indent, Role::Part))
        .collect();
    parts.join(&format!(";{}", new_line(indent)))
}

fn broken_branches(word: &str, [guard, then, otherwise]: [&Command; 3], indent: usize) -> String {
    let branch = |command| text(command, indent + INDENT, Role::Block);
    let (guard, then, otherwise) = (branch(guard), branch(then), branch(otherwise));
    let line = new_line(indent);
    format!("{word} {guard}{line}then {then}{line}else {otherwise}")
}

fn new_line(indent: usize) -> String {
    format!("\n{}", " ".repeat(indent))
}

fn flat(command: &Command, role: Role) -> String {
    match command {
        Command::RuleSet(numbers) => rule_set(numbers),
        Command::Sequence(parts) => {
            let end = if parts.len() == 1 { ";" } else { "" };
            let parts: Vec<String> = parts.iter().map(|part| flat(part, Role::Part)).collect();
            format!("({}{end})", parts.join("; "))
        }
        Command::Guarded {
            keep,
            guard,
            then,
            other,
        } => in_role(flat_branches(word(*keep), [guard, then, other]), role),
        Command::Loop(body) => format!("{}!", flat(body, Role::Block)),
        Command::Skip => "skip".to_string(),
        Command::Fail => "fail".to_string(),
        Command::Break => "break".to_string(),
        Command::Procedure(number) => procedure_name(usize::from(*number)),
    }
}

fn flat_branches(word: &str, [guard, then, otherwise]: [&Command; 3]) -> String {
    let branch = |command| flat(command, Role::Block);
    format!(
        "{word} {} then {} else {}",
        branch(guard),
        branch(then),
        branch(otherwise)
    )
}

/// The word for a guarded command, by whether it keeps a successful guard's changes.
fn word(keep: bool) -> &'static str {
    match keep {
        true => "try",
        false => "if",
    }
}

fn in_role(branching: String, role: Role) -> String {
    match role {
        Role::Part => branching,
        Role::Block => format!("({branching})"),
    }
}

/// The name of the procedure of this number.
pub fn procedure_name(number: usize) -> String {
    format!("P{number}")
}

fn rule_set(numbers: &[u8]) -> String {
    let names: Vec<String> = numbers.iter().map(|number| format!("r{number}")).collect();
    match names.as_slice() {
        [alone] => alone.clone(),
        several => format!("{{{}}}", several.join(", ")),
    }
}
