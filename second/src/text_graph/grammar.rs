//! The grammar of text graphs as one expression over words.

use crate::tree::mark;

use super::words::Word;

/// Whether a text lists live slots alone, or keeps slots free by `()` too, as the host section behind a program does.
#[derive(Clone, Copy, Debug, PartialEq, Eq)]
pub enum Slots {
    Live,
    Free,
}

/// The words that fit somewhere.
#[derive(Clone, Copy, Debug)]
pub enum Pattern {
    Sign(u8),
    Name,
    Digits,
    /// This name alone.
    Only(&'static str),
    /// The name of a mark that a host can have.
    Mark,
}

impl Pattern {
    pub fn fits(self, word: &Word) -> bool {
        match self {
            Pattern::Sign(sign) => word.bytes == [sign],
            Pattern::Name => word.is_name(),
            Pattern::Digits => word.is_digits(),
            Pattern::Only(name) => word.bytes == name.as_bytes(),
            Pattern::Mark => mark_number(word.bytes).is_some(),
        }
    }
}

/// The number of a mark that a node or an edge of a host can have, by its name.
pub fn mark_number(name: &[u8]) -> Option<u8> {
    (mark::RED..=mark::DASHED).find(|number| mark::NAMES[usize::from(*number)].as_bytes() == name)
}

/// What a word says of the graph.
#[derive(Clone, Copy, Debug, PartialEq, Eq)]
pub enum Part {
    /// A node begins.
    Node,
    /// An edge begins.
    Edge,
    /// The slot that began is free.
    Free,
    /// An identifier, or one of an edge's ends behind it.
    Name,
    Root,
    /// The sign of an atom whose digits come behind it.
    Minus,
    DigitsBehindMinus,
    Digits,
    Mark,
    /// Nothing: it parts others, or belongs to a position.
    Nothing,
}

/// A word of the grammar: what fits, what it says, and how a message speaks of it where it is missing.
#[derive(Clone, Copy, Debug)]
pub struct Position {
    pub pattern: Pattern,
    pub part: Part,
    pub words: &'static str,
}

pub enum Expression {
    Word(Position),
    Row(Vec<Expression>),
    Either(Vec<Expression>),
    /// Once or not at all.
    Maybe(Box<Expression>),
    /// Any number of times.
    Repeated(Box<Expression>),
}

use Expression::{Either, Row};

/// `[ nodes | edges ]`.
pub fn graph(slots: Slots) -> Expression {
    Row(vec![
        sign(b'[', "`[` at the start of the graph"),
        repeated(item(slots, Part::Node, "`(` and a node", node())),
        sign(b'|', "`|` behind the nodes"),
        repeated(item(slots, Part::Edge, "`(` and an edge", edge())),
        sign(b']', "`]` behind the edges"),
    ])
}

/// A node or an edge from its `(` on, or a slot that is kept free.
fn item(slots: Slots, part: Part, words: &'static str, rest: Expression) -> Expression {
    let rest = match slots {
        Slots::Live => rest,
        Slots::Free => Either(vec![rest, word(Pattern::Sign(b')'), Part::Free, "`)` of a free slot")]),
    };
    Row(vec![word(Pattern::Sign(b'('), part, words), rest])
}

fn node() -> Expression {
    Row(vec![
        name("a node's identifier"),
        maybe(Row(vec![
            sign(b'(', "`(R)` of a root"),
            word(Pattern::Only("R"), Part::Root, "`R` of a root"),
            sign(b')', "`)` behind `(R`"),
        ])),
        sign(b',', "`,` and a label behind the node's identifier"),
        label(),
        maybe(position()),
        sign(b')', "`)` behind the node's label"),
        maybe(position()),
    ])
}

fn edge() -> Expression {
    Row(vec![
        name("an edge's identifier"),
        sign(b',', "`,` and a source behind the edge's identifier"),
        name("the edge's source"),
        sign(b',', "`,` and a target behind the edge's source"),
        name("the edge's target"),
        sign(b',', "`,` and a label behind the edge's target"),
        label(),
        sign(b')', "`)` behind the edge's label"),
    ])
}

fn label() -> Expression {
    let more = Row(vec![sign(b':', "`:` and another integer"), integer(Atom::Kept)]);
    Row(vec![
        Either(vec![
            word(Pattern::Only("empty"), Part::Nothing, "`empty`"),
            Row(vec![integer(Atom::Kept), repeated(more)]),
        ]),
        maybe(Row(vec![
            sign(b'#', "`#` and a mark"),
            word(Pattern::Mark, Part::Mark, "a mark: red, green, blue, grey or dashed"),
        ])),
    ])
}

/// Whether an integer is an atom, or part of a position, which is dropped.
#[derive(Clone, Copy)]
enum Atom {
    Kept,
    Dropped,
}

impl Atom {
    fn part(self, kept: Part) -> Part {
        match self {
            Atom::Kept => kept,
            Atom::Dropped => Part::Nothing,
        }
    }
}

fn integer(atom: Atom) -> Expression {
    Either(vec![
        Row(vec![
            word(Pattern::Sign(b'-'), atom.part(Part::Minus), "an integer"),
            word(Pattern::Digits, atom.part(Part::DigitsBehindMinus), "digits behind `-`"),
        ]),
        word(Pattern::Digits, atom.part(Part::Digits), "an integer"),
    ])
}

/// `<1.5, -2>`.
fn position() -> Expression {
    Row(vec![
        sign(b'<', "`<` and a position"),
        number(),
        sign(b',', "`,` and the second number of the position"),
        number(),
        sign(b'>', "`>` behind the position"),
    ])
}

fn number() -> Expression {
    let digits = word(Pattern::Digits, Part::Nothing, "digits behind `.`");
    let fraction = Row(vec![sign(b'.', "`.` and digits"), digits]);
    Row(vec![integer(Atom::Dropped), maybe(fraction)])
}

fn word(pattern: Pattern, part: Part, words: &'static str) -> Expression {
    Expression::Word(Position { pattern, part, words })
}

fn sign(sign: u8, words: &'static str) -> Expression {
    word(Pattern::Sign(sign), Part::Nothing, words)
}

fn name(words: &'static str) -> Expression {
    word(Pattern::Name, Part::Name, words)
}

fn maybe(part: Expression) -> Expression {
    Expression::Maybe(Box::new(part))
}

fn repeated(part: Expression) -> Expression {
    Expression::Repeated(Box::new(part))
}
