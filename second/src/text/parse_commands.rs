//! Reading command sequences.

use super::complaint::Problem;
use super::cursor::Cursor;
use super::lexer::Token;
use super::syntax::*;

/// Commands with `;` between them. One command alone is itself, not a sequence of one.
pub fn sequence(cursor: &mut Cursor) -> Result<CommandText, Problem> {
    let place = cursor.place();
    let mut commands = commands(cursor)?;
    if commands.len() == 1 {
        return Ok(commands.remove(0));
    }
    let kind = CommandKind::Sequence(commands);
    Ok(CommandText { place, kind })
}

/// One or more commands, up to a `;` that stands before `)`.
fn commands(cursor: &mut Cursor) -> Result<Vec<CommandText>, Problem> {
    let mut commands = vec![command(cursor)?];
    while cursor.at_symbol(";") && !matches!(cursor.peek_at(1), Token::Symbol(")")) {
        cursor.advance();
        commands.push(command(cursor)?);
    }
    Ok(commands)
}

fn command(cursor: &mut Cursor) -> Result<CommandText, Problem> {
    let command = cursor.nested(|cursor| match cursor.peek() {
        Token::Word(word) if word == "if" => if_command(cursor),
        Token::Word(word) if word == "try" => try_command(cursor),
        _ => block(cursor),
    })?;
    if cursor.at_word("or") {
        return Err(cursor.problem_here(
            "`or` can't be held: an image has no choice between commands, expected `;`",
        ));
    }
    Ok(command)
}

fn if_command(cursor: &mut Cursor) -> Result<CommandText, Problem> {
    let place = cursor.place();
    cursor.advance();
    let guard = block(cursor)?;
    cursor.expect_word("then", "behind the guard of `if`")?;
    let then = command(cursor)?;
    let otherwise = branch(cursor, "else")?;
    Ok(CommandText {
        place,
        kind: CommandKind::If(Box::new(guard), Box::new(then), Box::new(otherwise)),
    })
}

fn try_command(cursor: &mut Cursor) -> Result<CommandText, Problem> {
    let place = cursor.place();
    cursor.advance();
    let guard = block(cursor)?;
    let then = branch(cursor, "then")?;
    let otherwise = branch(cursor, "else")?;
    Ok(CommandText {
        place,
        kind: CommandKind::Try(Box::new(guard), Box::new(then), Box::new(otherwise)),
    })
}

/// The branch behind `then` or `else`, which is `skip` where the word is absent.
fn branch(cursor: &mut Cursor, word: &str) -> Result<CommandText, Problem> {
    if cursor.take_word(word) {
        command(cursor)
    } else {
        Ok(CommandText {
            place: cursor.place(),
            kind: CommandKind::Skip,
        })
    }
}

/// A simple command, with a `!` for each loop around it.
fn block(cursor: &mut Cursor) -> Result<CommandText, Problem> {
    let simple = cursor.nested(simple_command)?;
    loops(cursor, simple)
}

fn loops(cursor: &mut Cursor, body: CommandText) -> Result<CommandText, Problem> {
    if !cursor.take_symbol("!") {
        return Ok(body);
    }
    let looped = CommandText {
        place: body.place,
        kind: CommandKind::Loop(Box::new(body)),
    };
    cursor.nested(|cursor| loops(cursor, looped))
}

fn simple_command(cursor: &mut Cursor) -> Result<CommandText, Problem> {
    let place = cursor.place();
    let kind = match cursor.peek() {
        Token::Symbol("(") => return parenthesised(cursor),
        Token::Symbol("{") => return rule_set(cursor),
        Token::Word(word) => match word.as_str() {
            "skip" => CommandKind::Skip,
            "fail" => CommandKind::Fail,
            "break" => CommandKind::Break,
            "if" | "try" => {
                return Err(
                    cursor.problem_here(format!("`{word}` as a guard, expected it in parentheses"))
                );
            }
            "then" | "else" | "or" | "and" | "not" | "where" | "interface" => {
                return Err(cursor.unexpected("a command"));
            }
            name => CommandKind::Call(name.to_string()),
        },
        _ => return Err(cursor.unexpected("a command")),
    };
    cursor.advance();
    Ok(CommandText { place, kind })
}

/// `(P; Q)`, and `(P;)` for a sequence of one command.
fn parenthesised(cursor: &mut Cursor) -> Result<CommandText, Problem> {
    let place = cursor.place();
    cursor.advance();
    let mut commands = commands(cursor)?;
    let is_sequence = cursor.take_symbol(";") || commands.len() > 1;
    cursor.expect_symbol(
        ")",
        "behind the commands in parentheses, or `;` between two commands",
    )?;
    if !is_sequence {
        return Ok(commands.remove(0));
    }
    let kind = CommandKind::Sequence(commands);
    Ok(CommandText { place, kind })
}

fn rule_set(cursor: &mut Cursor) -> Result<CommandText, Problem> {
    let place = cursor.place();
    cursor.advance();
    let mut names = Vec::new();
    if !cursor.take_symbol("}") {
        names.push(cursor.expect_name("a rule's name")?);
        while cursor.take_symbol(",") {
            names.push(cursor.expect_name("a rule's name")?);
        }
        cursor.expect_symbol("}", "behind the rule set, or `,` between two names")?;
    }
    Ok(CommandText {
        place,
        kind: CommandKind::RuleSet(names),
    })
}
