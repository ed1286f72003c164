//! Reading labels: list elements with `:` between them, and a mark behind `#`.

use super::complaint::{Place, Problem};
use super::cursor::Cursor;
use super::lexer::Token;
use super::syntax::*;
use crate::tree::mark;

pub fn node_label(cursor: &mut Cursor) -> Result<LabelText, Problem> {
    label(
        cursor,
        "a node",
        &[mark::RED, mark::GREEN, mark::BLUE, mark::GREY, mark::ANY],
    )
}

pub fn edge_label(cursor: &mut Cursor) -> Result<LabelText, Problem> {
    label(
        cursor,
        "an edge",
        &[mark::RED, mark::GREEN, mark::BLUE, mark::DASHED, mark::ANY],
    )
}

fn label(cursor: &mut Cursor, owner: &str, marks: &[u8]) -> Result<LabelText, Problem> {
    let start = cursor.place();
    let mut elements = Vec::new();
    loop {
        if !cursor.take_word("empty") {
            elements.push(element(cursor)?);
        }
        if !cursor.take_symbol(":") {
            break;
        }
    }
    if !cursor.take_symbol("#") {
        return Ok(LabelText {
            elements,
            mark: mark::NONE,
            mark_place: start,
        });
    }
    let mark_place = cursor.place();
    Ok(LabelText {
        elements,
        mark: mark_word(cursor, owner, marks)?,
        mark_place,
    })
}

fn mark_word(cursor: &mut Cursor, owner: &str, marks: &[u8]) -> Result<u8, Problem> {
    let found = marks
        .iter()
        .copied()
        .find(|number| cursor.at_word(mark::NAMES[*number as usize]));
    match found {
        Some(number) => {
            cursor.advance();
            Ok(number)
        }
        None => {
            let words: Vec<&str> = marks
                .iter()
                .map(|number| mark::NAMES[*number as usize])
                .collect();
            Err(cursor.unexpected(&format!("a mark of {owner}: {}", words.join(", "))))
        }
    }
}

/// A number, variable or degree, or a sum or difference of two of them.
pub fn element(cursor: &mut Cursor) -> Result<ElementText, Problem> {
    let place = cursor.place();
    let first = part(cursor)?;
    refuse_operators(cursor)?;
    let plus = cursor.at_symbol("+");
    if !plus && !cursor.at_symbol("-") {
        return Ok(first);
    }
    cursor.advance();
    let (left, right) = (operand(first)?, operand(part(cursor)?)?);
    refuse_operators(cursor)?;
    if cursor.at_symbol("+") || cursor.at_symbol("-") {
        return Err(cursor.problem_here(TWO_OPERANDS));
    }
    let kind = if plus {
        ElementKind::Sum(left, right)
    } else {
        ElementKind::Difference(left, right)
    };
    Ok(ElementText { place, kind })
}

const TWO_OPERANDS: &str =
    "a third operand can't be held, expected one sum or difference of two operands, each a number or an int variable";

fn operand(element: ElementText) -> Result<OperandText, Problem> {
    match element.kind {
        ElementKind::Single(operand) => Ok(operand),
        _ => Err(Problem::new(element.place, TWO_OPERANDS)),
    }
}

fn refuse_operators(cursor: &Cursor) -> Result<(), Problem> {
    match cursor.peek() {
        Token::Symbol(operator @ ("*" | "/")) => {
            Err(cursor.problem_here(format!("`{operator}` can't be held, expected `+` or `-`")))
        }
        Token::Symbol(".") => {
            Err(cursor
                .problem_here("`.` joins strings, which can't be held, expected `:`, `+` or `-`"))
        }
        _ => Ok(()),
    }
}

fn part(cursor: &mut Cursor) -> Result<ElementText, Problem> {
    let place = cursor.place();
    if cursor.take_symbol("(") {
        let inner = cursor.nested(element)?;
        cursor.expect_symbol(")", "behind the expression in parentheses")?;
        return Ok(inner);
    }
    let kind = operand_kind(cursor)?;
    Ok(ElementText {
        place,
        kind: ElementKind::Single(OperandText { place, kind }),
    })
}

fn operand_kind(cursor: &mut Cursor) -> Result<OperandKind, Problem> {
    match cursor.peek().clone() {
        Token::Number(_) | Token::Symbol("-") => Ok(OperandKind::Number(number(cursor)?)),
        Token::Quoted => {
            Err(cursor.problem_here("a string can't be held, expected an integer or a variable"))
        }
        Token::Word(word) if word == "indeg" || word == "outdeg" => degree(cursor, &word),
        Token::Word(word) if word == "length" => {
            Err(cursor.problem_here("`length` can't be held, expected an integer or a variable"))
        }
        Token::Word(word) if word == "empty" => {
            Err(cursor
                .problem_here("`empty` inside an expression, expected an integer or a variable"))
        }
        Token::Word(word) => {
            cursor.advance();
            Ok(OperandKind::Variable(word))
        }
        _ => {
            Err(cursor
                .unexpected("a label: integers and variables with `:` between them, or `empty`"))
        }
    }
}

fn degree(cursor: &mut Cursor, word: &str) -> Result<OperandKind, Problem> {
    cursor.advance();
    cursor.expect_symbol("(", &format!("and a node behind `{word}`"))?;
    let node = cursor.expect_identifier("a node")?;
    cursor.expect_symbol(")", &format!("behind the node of `{word}`"))?;
    let direction = if word == "indeg" {
        Direction::In
    } else {
        Direction::Out
    };
    Ok(OperandKind::Degree(direction, node))
}

/// A signed 32-bit number.
pub fn number(cursor: &mut Cursor) -> Result<i32, Problem> {
    let place = cursor.place();
    let negative = cursor.take_symbol("-");
    let Token::Number(digits) = cursor.peek().clone() else {
        let expected = if negative {
            "digits behind `-` (minus a variable is written `0-i`)"
        } else {
            "a number"
        };
        return Err(cursor.unexpected(expected));
    };
    cursor.advance();
    let sign = if negative { "-" } else { "" };
    in_32_bits(&format!("{sign}{digits}"), place)
}

fn in_32_bits(text: &str, place: Place) -> Result<i32, Problem> {
    let message = format!("{text} can't be held, expected a number from -2147483648 to 2147483647");
    text.parse().map_err(|_| Problem::new(place, message))
}
