//! The nodes and edges that a text lists, as written: names are not looked up and limits are not checked yet.

use std::fmt;

use super::grammar::Part;
use super::words::{shown, Word};

#[derive(Default)]
pub struct Items<'a> {
    pub nodes: Vec<Item<'a>>,
    pub edges: Vec<Item<'a>>,
}

/// A node or an edge.
#[derive(Default)]
pub struct Item<'a> {
    /// Where it begins.
    pub at: usize,
    /// Whether it only keeps its slot free.
    pub free: bool,
    /// The identifier, behind it the ends of an edge.
    pub names: Vec<Word<'a>>,
    pub root: bool,
    pub atoms: Vec<Integer<'a>>,
    pub mark: Option<Word<'a>>,
}

pub struct Integer<'a> {
    pub at: usize,
    pub negative: bool,
    pub digits: &'a [u8],
}

impl fmt::Display for Integer<'_> {
    fn fmt(&self, out: &mut fmt::Formatter) -> fmt::Result {
        let sign = if self.negative { "-" } else { "" };
        write!(out, "{sign}{}", shown(self.digits))
    }
}

impl Integer<'_> {
    /// The number, where 32 bits hold it.
    pub fn value(&self) -> Option<i32> {
        let zeros = self.digits.iter().take_while(|digit| **digit == b'0').count();
        let digits = &self.digits[zeros..];
        if digits.len() > MOST_DIGITS {
            return None;
        }
        let size = digits.iter().fold(0i64, |number, digit| 10 * number + i64::from(digit - b'0'));
        i32::try_from(if self.negative { -size } else { size }).ok()
    }
}

/// The digits of the greatest numbers of 32 bits.
const MOST_DIGITS: usize = 10;

/// The items of a text's words, each of which comes with what it says.
pub fn items<'a>(words: &[(Part, Word<'a>)]) -> Items<'a> {
    let mut items = Items::default();
    for (part, word) in words {
        items.add(*part, *word);
    }
    items
}

impl<'a> Items<'a> {
    fn add(&mut self, part: Part, word: Word<'a>) {
        let integer = |negative: bool, digits: &'a [u8]| Integer { at: word.at, negative, digits };
        match part {
            Part::Node => self.nodes.push(Item { at: word.at, ..Item::default() }),
            Part::Edge => self.edges.push(Item { at: word.at, ..Item::default() }),
            Part::Free => self.last().free = true,
            Part::Name => self.last().names.push(word),
            Part::Root => self.last().root = true,
            Part::Mark => self.last().mark = Some(word),
            Part::Minus => self.last().atoms.push(integer(true, &[])),
            Part::Digits => self.last().atoms.push(integer(false, word.bytes)),
            Part::DigitsBehindMinus => self.last().atoms.last_mut().expect("a minus comes before").digits = word.bytes,
            Part::Nothing => {}
        }
    }

    /// The item that began last; all edges come behind all nodes.
    fn last(&mut self) -> &mut Item<'a> {
        let last = self.edges.last_mut().or(self.nodes.last_mut());
        last.expect("an item begins before its parts")
    }
}
