//! Reading the condition behind `where`. `not` binds tighter than `and`, `and` tighter than `or`.

use super::complaint::Problem;
use super::cursor::Cursor;
use super::lexer::Token;
use super::parse_labels::element;
use super::syntax::*;

pub fn condition(cursor: &mut Cursor) -> Result<ConditionText, Problem> {
    joined(cursor, "or", |cursor| joined(cursor, "and", negation))
}

/// Parts with one word between them; one part alone is itself.
fn joined(
    cursor: &mut Cursor,
    word: &str,
    part: impl Fn(&mut Cursor) -> Result<ConditionText, Problem>,
) -> Result<ConditionText, Problem> {
    let mut parts = vec![part(cursor)?];
    let place = cursor.place();
    while cursor.take_word(word) {
        parts.push(part(cursor)?);
    }
    if parts.len() == 1 {
        return Ok(parts.remove(0));
    }
    let kind = if word == "and" {
        ConditionKind::And(parts)
    } else {
        ConditionKind::Or(parts)
    };
    Ok(ConditionText { place, kind })
}

fn negation(cursor: &mut Cursor) -> Result<ConditionText, Problem> {
    let place = cursor.place();
    if cursor.take_word("not") {
        let inner = cursor.nested(negation)?;
        return Ok(ConditionText {
            place,
            kind: ConditionKind::Not(Box::new(inner)),
        });
    }
    test(cursor)
}

fn test(cursor: &mut Cursor) -> Result<ConditionText, Problem> {
    if cursor.at_symbol("(") && !continues_an_expression(cursor.token_behind_parentheses()) {
        cursor.advance();
        let inner = cursor.nested(condition)?;
        cursor.expect_symbol(")", "behind the condition in parentheses")?;
        return Ok(inner);
    }
    if cursor.at_word_then_symbol("edge", "(") {
        return edge(cursor);
    }
    for word in ["int", "char", "string", "atom", "list"] {
        if cursor.at_word_then_symbol(word, "(") {
            let message = format!("the type test `{word}(..)` can't be held, expected a test of edges, degrees or integers");
            return Err(cursor.problem_here(message));
        }
    }
    relation(cursor)
}

fn continues_an_expression(token: &Token) -> bool {
    matches!(
        token,
        Token::Symbol("=" | "!=" | "<" | "<=" | ">" | ">=" | "+" | "-" | "*" | "/" | "." | ":")
    )
}

fn edge(cursor: &mut Cursor) -> Result<ConditionText, Problem> {
    let place = cursor.place();
    cursor.advance();
    cursor.expect_symbol("(", "behind `edge`")?;
    let source = cursor.expect_identifier("a node")?;
    cursor.expect_symbol(",", "and a second node")?;
    let target = cursor.expect_identifier("a node")?;
    if cursor.at_symbol(",") {
        return Err(cursor.problem_here(
            "a label in `edge` can't be held, expected `)`: the test sees every label and mark",
        ));
    }
    cursor.expect_symbol(")", "behind the nodes of `edge`")?;
    Ok(ConditionText {
        place,
        kind: ConditionKind::Edge(source, target),
    })
}

fn relation(cursor: &mut Cursor) -> Result<ConditionText, Problem> {
    let place = cursor.place();
    let first = side(cursor)?;
    let comparison = comparison(cursor)?;
    let second = side(cursor)?;
    Ok(ConditionText {
        place,
        kind: ConditionKind::Relation(comparison, Box::new([first, second])),
    })
}

fn side(cursor: &mut Cursor) -> Result<ElementText, Problem> {
    const NO_LISTS: &str =
        "a list can't be compared, expected an integer, an int variable or a degree";
    if cursor.at_word("empty") {
        return Err(cursor.problem_here(NO_LISTS));
    }
    let side = element(cursor)?;
    if cursor.at_symbol(":") {
        return Err(Problem::new(side.place, NO_LISTS));
    }
    Ok(side)
}

fn comparison(cursor: &mut Cursor) -> Result<Comparison, Problem> {
    let comparison = match cursor.peek() {
        Token::Symbol("=") => Comparison::Equal,
        Token::Symbol("!=") => Comparison::NotEqual,
        Token::Symbol("<") => Comparison::Less,
        Token::Symbol("<=") => Comparison::AtMost,
        Token::Symbol(">") => Comparison::Greater,
        Token::Symbol(">=") => Comparison::AtLeast,
        _ => return Err(cursor.unexpected("a comparison: =, !=, <, <=, > or >=")),
    };
    cursor.advance();
    Ok(comparison)
}
