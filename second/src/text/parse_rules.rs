//! Reading rule declarations and the graphs in square brackets.

use super::complaint::Problem;
use super::cursor::Cursor;
use super::lexer::Token;
use super::parse_conditions::condition;
use super::parse_labels::{edge_label, node_label};
use super::syntax::*;
use crate::tree::{Mode, VariableType};

/// Words that name no rule and no variable.
const RESERVED: [&str; 25] = [
    "if",
    "then",
    "else",
    "try",
    "skip",
    "fail",
    "break",
    "or",
    "and",
    "not",
    "where",
    "interface",
    "empty",
    "edge",
    "indeg",
    "outdeg",
    "length",
    "int",
    "list",
    "atom",
    "string",
    "char",
    "any",
    "true",
    "false",
];

pub fn rule(cursor: &mut Cursor) -> Result<RuleText, Problem> {
    let name = checked_name(cursor.expect_name("a rule's name")?, "rule")?;
    let purpose = format!(
        "and the variables of the rule `{}`, or `;` between two commands",
        name.text
    );
    cursor.expect_symbol("(", &purpose)?;
    let variables = variables(cursor)?;
    let left = graph(cursor, "the left graph")?;
    cursor.expect_symbol("=>", "between the left and the right graph")?;
    let right = graph(cursor, "the right graph")?;
    let interface = interface(cursor)?;
    let condition = if cursor.take_word("where") {
        Some(condition(cursor)?)
    } else {
        None
    };
    let mode = mode(cursor)?;
    Ok(RuleText {
        name,
        variables,
        left,
        right,
        interface,
        condition,
        mode,
    })
}

/// A name that starts with a letter and is no word of the notation.
fn checked_name(name: Name, kind: &str) -> Result<Name, Problem> {
    if RESERVED.contains(&name.text.as_str()) {
        let message = format!(
            "`{}` is a word of the notation, expected another name for a {kind}",
            name.text
        );
        return Err(Problem::new(name.place, message));
    }
    if !name
        .text
        .starts_with(|first: char| first.is_ascii_alphabetic())
    {
        let message = format!(
            "`{}` as a {kind}, expected a name that starts with a letter",
            name.text
        );
        return Err(Problem::new(name.place, message));
    }
    Ok(name)
}

/// `x, y: list; i: int)`, or `)` alone.
fn variables(cursor: &mut Cursor) -> Result<Vec<VariableText>, Problem> {
    let mut variables = Vec::new();
    if cursor.take_symbol(")") {
        return Ok(variables);
    }
    loop {
        let names = variable_names(cursor)?;
        let kind = variable_type(cursor)?;
        variables.extend(names.into_iter().map(|name| VariableText { name, kind }));
        if !cursor.take_symbol(";") {
            break;
        }
    }
    cursor.expect_symbol(
        ")",
        "behind the variables, or `;` before variables of another type",
    )?;
    Ok(variables)
}

fn variable_names(cursor: &mut Cursor) -> Result<Vec<Name>, Problem> {
    let mut names = vec![checked_name(cursor.expect_name("a variable")?, "variable")?];
    while cursor.take_symbol(",") {
        names.push(checked_name(cursor.expect_name("a variable")?, "variable")?);
    }
    cursor.expect_symbol(
        ":",
        "and a type behind the variables, or `,` and another variable",
    )?;
    Ok(names)
}

fn variable_type(cursor: &mut Cursor) -> Result<VariableType, Problem> {
    let kind = match cursor.peek() {
        Token::Word(word) if word == "int" => VariableType::Int,
        Token::Word(word) if word == "list" => VariableType::List,
        Token::Word(word) if ["atom", "string", "char"].contains(&word.as_str()) => {
            let message = format!("the type `{word}` can't be held, expected `int` or `list`: an image has no strings");
            return Err(cursor.problem_here(message));
        }
        _ => return Err(cursor.unexpected("a type, `int` or `list`")),
    };
    cursor.advance();
    Ok(kind)
}

fn interface(cursor: &mut Cursor) -> Result<Vec<Name>, Problem> {
    cursor.expect_word("interface", "and `= {..}` behind the right graph")?;
    cursor.expect_symbol("=", "behind `interface`")?;
    cursor.expect_symbol("{", "and the interface's nodes")?;
    let mut nodes = Vec::new();
    if cursor.take_symbol("}") {
        return Ok(nodes);
    }
    nodes.push(cursor.expect_identifier("a node of the interface")?);
    while cursor.take_symbol(",") {
        nodes.push(cursor.expect_identifier("a node of the interface")?);
    }
    cursor.expect_symbol(
        "}",
        "behind the interface's nodes, or `,` between two of them",
    )?;
    Ok(nodes)
}

/// `roots = preserving` or `roots = reflecting`, where it stands: the last clause of a rule. The word alone may name a rule.
fn mode(cursor: &mut Cursor) -> Result<Option<Mode>, Problem> {
    if !cursor.at_word_then_symbol("roots", "=") {
        return Ok(None);
    }
    cursor.advance();
    cursor.advance();
    let mode = match cursor.peek() {
        Token::Word(word) if word == "preserving" => Mode::Preserving,
        Token::Word(word) if word == "reflecting" => Mode::Reflecting,
        _ => return Err(cursor.unexpected("`preserving` or `reflecting` behind `roots =`")),
    };
    cursor.advance();
    if cursor.at_word_then_symbol("roots", "=") {
        let message = "a second `roots = ..`, expected one in a rule";
        return Err(cursor.problem_here(message));
    }
    if cursor.at_word("where") {
        let message = "`where` behind `roots = ..`, expected the condition before it";
        return Err(cursor.problem_here(message));
    }
    Ok(Some(mode))
}

/// `[ nodes | edges ]`.
fn graph(cursor: &mut Cursor, what: &str) -> Result<GraphText, Problem> {
    cursor.expect_symbol("[", &format!("at the start of {what}"))?;
    let mut nodes = Vec::new();
    while cursor.at_symbol("(") {
        nodes.push(node(cursor)?);
    }
    cursor.expect_symbol("|", "behind the nodes, or `(` and a node")?;
    let mut edges = Vec::new();
    while cursor.at_symbol("(") {
        edges.push(edge(cursor)?);
    }
    cursor.expect_symbol("]", "behind the edges, or `(` and an edge")?;
    Ok(GraphText { nodes, edges })
}

/// `(n1(R), label # mark)`.
pub fn node(cursor: &mut Cursor) -> Result<NodeText, Problem> {
    cursor.expect_symbol("(", "and a node")?;
    let identifier = cursor.expect_identifier("a node's identifier")?;
    let root = flag(cursor, "R", "`(R)` behind a root's identifier")?;
    cursor.expect_symbol(
        ",",
        "and a label behind the node's identifier (a label without atoms is `empty`)",
    )?;
    let label = node_label(cursor)?;
    cursor.expect_symbol(")", "behind the node's label")?;
    Ok(NodeText {
        identifier,
        root,
        label,
    })
}

/// `(e1(B), n1, n2, label # mark)`.
pub fn edge(cursor: &mut Cursor) -> Result<EdgeText, Problem> {
    cursor.expect_symbol("(", "and an edge")?;
    let identifier = cursor.expect_identifier("an edge's identifier")?;
    let bidirectional = flag(
        cursor,
        "B",
        "`(B)` behind a bidirectional edge's identifier",
    )?;
    cursor.expect_symbol(",", "and a source behind the edge's identifier")?;
    let source = cursor.expect_identifier("the edge's source")?;
    cursor.expect_symbol(",", "and a target behind the edge's source")?;
    let target = cursor.expect_identifier("the edge's target")?;
    cursor.expect_symbol(
        ",",
        "and a label behind the edge's target (a label without atoms is `empty`)",
    )?;
    let label = edge_label(cursor)?;
    cursor.expect_symbol(")", "behind the edge's label")?;
    Ok(EdgeText {
        identifier,
        bidirectional,
        source,
        target,
        label,
    })
}

/// `(R)` or `(B)`, where it stands.
fn flag(cursor: &mut Cursor, letter: &str, expected: &str) -> Result<bool, Problem> {
    if !cursor.take_symbol("(") {
        return Ok(false);
    }
    if !cursor.take_word(letter) {
        return Err(cursor.unexpected(expected));
    }
    cursor.expect_symbol(")", &format!("behind `({letter}`"))?;
    Ok(true)
}
