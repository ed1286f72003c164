//! Cutting a text into words: names and signs, with white space and comments between them. One state machine goes over the bytes.

use std::fmt;

/// A name or a sign, and where it starts.
#[derive(Clone, Copy, Debug, PartialEq, Eq)]
pub struct Word<'a> {
    pub at: usize,
    pub bytes: &'a [u8],
}

/// The words of a text in their order.
pub struct Words<'a> {
    pub words: Vec<Word<'a>>,
    /// Where the comment began with `/*` in which the text ends, if it does.
    pub unended: Option<usize>,
}

#[derive(Clone, Copy)]
enum State {
    Between,
    /// In a name that started there.
    Name(usize),
    /// Behind a `/` that may begin a comment.
    Slash,
    /// In a comment that ends with its line.
    Line,
    /// In a comment that began there and ends with `*/`.
    Block(usize),
    /// In such a comment, behind a `*`.
    Star(usize),
}

struct Cutter<'a> {
    text: &'a [u8],
    words: Vec<Word<'a>>,
}

pub fn words(text: &[u8]) -> Words<'_> {
    let mut cutter = Cutter { text, words: Vec::new() };
    let state = (0..text.len()).fold(State::Between, |state, at| cutter.behind(state, at));
    match state {
        State::Name(start) => cutter.put(start, text.len()),
        State::Slash => cutter.put(text.len() - 1, text.len()),
        State::Between | State::Line | State::Block(_) | State::Star(_) => {}
    }
    let unended = match state {
        State::Block(start) | State::Star(start) => Some(start),
        _ => None,
    };
    Words { words: cutter.words, unended }
}

impl Cutter<'_> {
    /// The state behind the byte at this place.
    fn behind(&mut self, state: State, at: usize) -> State {
        match (state, self.text[at]) {
            (State::Between, _) => self.started(at),
            (State::Name(start), byte) if is_of_name(byte) => State::Name(start),
            (State::Name(start), _) => {
                self.put(start, at);
                self.started(at)
            }
            (State::Slash, b'/') => State::Line,
            (State::Slash, b'*') => State::Block(at - 1),
            (State::Slash, _) => {
                self.put(at - 1, at);
                self.started(at)
            }
            (State::Line, b'\n') => State::Between,
            (State::Line, _) => State::Line,
            (State::Star(_), b'/') => State::Between,
            (State::Block(start) | State::Star(start), b'*') => State::Star(start),
            (State::Block(start) | State::Star(start), _) => State::Block(start),
        }
    }

    /// The state behind a byte that is in no word and no comment so far.
    fn started(&mut self, at: usize) -> State {
        match self.text[at] {
            b' ' | b'\t' | b'\n' | b'\r' => State::Between,
            b'/' => State::Slash,
            byte if is_of_name(byte) => State::Name(at),
            _ => {
                self.put(at, at + 1);
                State::Between
            }
        }
    }

    fn put(&mut self, start: usize, end: usize) {
        self.words.push(Word { at: start, bytes: &self.text[start..end] });
    }
}

fn is_of_name(byte: u8) -> bool {
    byte.is_ascii_alphanumeric() || byte == b'_'
}

impl Word<'_> {
    pub fn is_name(&self) -> bool {
        is_of_name(self.bytes[0])
    }

    pub fn is_digits(&self) -> bool {
        self.bytes.iter().all(u8::is_ascii_digit)
    }
}

/// The bytes of a name that a message has at most.
const SHOWN: usize = 40;

/// A name as a message has it.
pub fn shown(name: &[u8]) -> String {
    let start = String::from_utf8_lossy(&name[..name.len().min(SHOWN)]);
    let cut = if name.len() > SHOWN { ".." } else { "" };
    format!("{start}{cut}")
}

impl fmt::Display for Word<'_> {
    fn fmt(&self, out: &mut fmt::Formatter) -> fmt::Result {
        match self.bytes {
            [sign] if !sign.is_ascii_graphic() => write!(out, "the byte {sign:#04x}"),
            bytes => write!(out, "`{}`", shown(bytes)),
        }
    }
}
