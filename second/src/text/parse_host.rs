//! Reading host graphs, alone in a text or in the host section behind a program.

use super::complaint::Problem;
use super::cursor::Cursor;
use super::lexer::Token;
use super::parse_rules::{edge, node};
use super::syntax::*;
use crate::layout::Layout;

/// A text that holds one host graph, for tables of a layout, and nothing else.
pub fn host_graph(layout: &Layout, source: &str) -> Result<HostGraphText, Problem> {
    let mut cursor = Cursor::new(source)?;
    let graph = graph(layout, &mut cursor)?;
    expect_end(&cursor, "the end of the text behind the host graph")?;
    Ok(graph)
}

/// A host section starts with `host` and goes on with a number's name or the graph, a rule of that name with `(`.
pub fn at_host_section(cursor: &Cursor) -> bool {
    cursor.at_word("host") && !matches!(cursor.peek_at(1), Token::Symbol("("))
}

/// `host fuel 10 records 8 nodes 2 edges 1 [ .. | .. ]`, the last part of a program text.
pub fn host_section(layout: &Layout, cursor: &mut Cursor) -> Result<HostText, Problem> {
    let place = cursor.place();
    cursor.advance();
    let mut numbers = Vec::new();
    while matches!(cursor.peek(), Token::Word(_)) {
        numbers.push(host_number(cursor)?);
    }
    let graph = graph(layout, cursor)?;
    expect_end(cursor, "the end of the text behind the host section")?;
    Ok(HostText {
        place,
        numbers,
        graph,
    })
}

fn host_number(cursor: &mut Cursor) -> Result<HostNumber, Problem> {
    const NAMES: [&str; 4] = ["fuel", "records", "nodes", "edges"];
    let name = cursor.expect_name("the name of a number")?;
    if !NAMES.contains(&name.text.as_str()) {
        let message = format!(
            "found `{}`, expected fuel, records, nodes, edges or the host graph's `[`",
            name.text
        );
        return Err(Problem::new(name.place, message));
    }
    let value_place = cursor.place();
    match cursor.peek().clone() {
        Token::Number(value) => {
            cursor.advance();
            Ok(HostNumber {
                name,
                value,
                value_place,
            })
        }
        _ => Err(cursor.unexpected(&format!("a number behind `{}`", name.text))),
    }
}

fn expect_end(cursor: &Cursor, expected: &str) -> Result<(), Problem> {
    match cursor.peek() {
        Token::End => Ok(()),
        _ => Err(cursor.unexpected(expected)),
    }
}

fn graph(layout: &Layout, cursor: &mut Cursor) -> Result<HostGraphText, Problem> {
    cursor.expect_symbol("[", "at the start of the host graph")?;
    let nodes = slots(cursor, node, "a node", layout.most_nodes)?;
    cursor.expect_symbol("|", "behind the nodes, or `(` and a node")?;
    let edges = slots(cursor, edge, "an edge", layout.most_edges)?;
    cursor.expect_symbol("]", "behind the edges, or `(` and an edge")?;
    Ok(HostGraphText { nodes, edges })
}

fn slots<T>(
    cursor: &mut Cursor,
    item: fn(&mut Cursor) -> Result<T, Problem>,
    kind: &str,
    most: usize,
) -> Result<Vec<Option<T>>, Problem> {
    let mut slots = Vec::new();
    while cursor.at_symbol("(") {
        if slots.len() == most {
            let message = format!("{kind} slot too many, expected at most {most}");
            return Err(cursor.problem_here(message));
        }
        slots.push(slot(cursor, item)?);
    }
    Ok(slots)
}

/// A node or edge, or `()` for a slot that is kept free.
fn slot<T>(
    cursor: &mut Cursor,
    item: fn(&mut Cursor) -> Result<T, Problem>,
) -> Result<Option<T>, Problem> {
    if matches!(cursor.peek_at(1), Token::Symbol(")")) {
        cursor.advance();
        cursor.advance();
        return Ok(None);
    }
    item(cursor).map(Some)
}
