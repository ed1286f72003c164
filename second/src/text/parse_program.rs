//! Reading a program text: declarations of rules and procedures, `Main`, and the host section behind them.

use super::complaint::Problem;
use super::cursor::Cursor;
use super::lexer::Token;
use super::parse_commands::sequence;
use super::parse_host::{at_host_section, host_section};
use super::parse_rules::rule;
use super::syntax::*;
use crate::layout::Layout;

/// The text of a program, whose host section is for tables of a layout.
pub fn program(layout: &Layout, source: &str) -> Result<ProgramText, Problem> {
    let mut cursor = Cursor::new(source)?;
    let mut declarations = Vec::new();
    let mut main = None;
    while *cursor.peek() != Token::End && !at_host_section(&cursor) {
        if cursor.at_word("Main") {
            read_main(&mut cursor, &mut main)?;
        } else {
            declarations.push(declaration(&mut cursor)?);
        }
    }
    let Some(main) = main else {
        return Err(cursor.unexpected("`Main = ..`: a program has one main command sequence"));
    };
    let host = if at_host_section(&cursor) {
        Some(host_section(layout, &mut cursor)?)
    } else {
        None
    };
    Ok(ProgramText {
        declarations,
        main,
        host,
    })
}

fn read_main(cursor: &mut Cursor, main: &mut Option<MainText>) -> Result<(), Problem> {
    let place = cursor.place();
    if main.is_some() {
        return Err(cursor.problem_here("a second `Main`, expected one in a program"));
    }
    cursor.advance();
    cursor.expect_symbol("=", "behind `Main`")?;
    if cursor.at_symbol("[") {
        return Err(
            cursor.problem_here("local declarations in `Main`, expected them in procedures alone")
        );
    }
    *main = Some(MainText {
        place,
        body: sequence(cursor)?,
    });
    Ok(())
}

/// A rule, whose name starts with a small letter, or a procedure, whose name starts with a capital.
fn declaration(cursor: &mut Cursor) -> Result<Declaration, Problem> {
    let starts_as_procedure = matches!(cursor.peek(), Token::Word(word) if is_procedure_name(word));
    let starts_as_rule = matches!(cursor.peek(), Token::Word(word) if is_rule_name(word));
    if starts_as_procedure {
        Ok(Declaration::Procedure(procedure(cursor)?))
    } else if starts_as_rule {
        Ok(Declaration::Rule(Box::new(rule(cursor)?)))
    } else {
        Err(cursor.unexpected("a declaration (`Main = ..`, `Procedure = ..` or `rule(..) ..`), or `;` between two commands"))
    }
}

pub fn is_procedure_name(word: &str) -> bool {
    word.starts_with(|first: char| first.is_ascii_uppercase())
}

fn is_rule_name(word: &str) -> bool {
    word.starts_with(|first: char| first.is_ascii_lowercase())
}

fn procedure(cursor: &mut Cursor) -> Result<ProcedureText, Problem> {
    let name = cursor.expect_name("a procedure's name")?;
    let purpose = format!(
        "between the procedure `{}` and its commands, or `;` between two commands",
        name.text
    );
    cursor.expect_symbol("=", &purpose)?;
    let locals = if cursor.take_symbol("[") {
        cursor.nested(local_declarations)?
    } else {
        Vec::new()
    };
    Ok(ProcedureText {
        name,
        locals,
        body: sequence(cursor)?,
    })
}

fn local_declarations(cursor: &mut Cursor) -> Result<Vec<Declaration>, Problem> {
    let mut locals = Vec::new();
    while !cursor.take_symbol("]") {
        if cursor.at_word("Main") {
            return Err(cursor.problem_here(
                "`Main` among local declarations, expected it outside of procedures",
            ));
        }
        if *cursor.peek() == Token::End {
            return Err(cursor.unexpected("`]` behind the local declarations"));
        }
        locals.push(declaration(cursor)?);
    }
    Ok(locals)
}
