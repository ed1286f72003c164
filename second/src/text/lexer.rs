//! Cutting a source text into words, numbers and symbols, each with its place.

use super::complaint::{Place, Problem};
use std::fmt;

#[derive(Clone, Debug, PartialEq, Eq)]
pub enum Token {
    /// Letters, digits and underscores, not digits alone.
    Word(String),
    /// Digits alone, as written.
    Number(String),
    /// A string in double quotes, which only a refusal speaks of.
    Quoted,
    Symbol(&'static str),
    End,
}

impl fmt::Display for Token {
    fn fmt(&self, out: &mut fmt::Formatter) -> fmt::Result {
        match self {
            Token::Word(text) | Token::Number(text) => write!(out, "`{text}`"),
            Token::Quoted => write!(out, "a string"),
            Token::Symbol(text) => write!(out, "`{text}`"),
            Token::End => write!(out, "the end of the text"),
        }
    }
}

#[derive(Clone, Debug, PartialEq, Eq)]
pub struct Lexeme {
    pub token: Token,
    pub place: Place,
}

/// Longer symbols stand before their own beginnings.
const SYMBOLS: [&str; 24] = [
    "=>", "!=", "<=", ">=", "(", ")", "[", "]", "{", "}", ",", ";", ":", "#", "|", "=", "<", ">",
    "!", "+", "-", "*", "/", ".",
];

/// The tokens of a text, the last one `End`.
pub fn tokens(source: &str) -> Result<Vec<Lexeme>, Problem> {
    let mut reader = Reader {
        rest: source,
        place: Place::START,
    };
    let mut lexemes = Vec::new();
    loop {
        reader.skip_blanks_and_comments();
        let place = reader.place;
        let token = reader.token()?;
        let ended = token == Token::End;
        lexemes.push(Lexeme { token, place });
        if ended {
            return Ok(lexemes);
        }
    }
}

struct Reader<'a> {
    rest: &'a str,
    place: Place,
}

impl<'a> Reader<'a> {
    /// Takes the next `bytes` bytes, which end at a character's end.
    fn take(&mut self, bytes: usize) -> &'a str {
        let (taken, rest) = self.rest.split_at(bytes);
        for character in taken.chars() {
            if character == '\n' {
                self.place = Place {
                    line: self.place.line + 1,
                    column: 1,
                };
            } else {
                self.place.column += 1;
            }
        }
        self.rest = rest;
        taken
    }

    fn take_while(&mut self, wanted: impl Fn(char) -> bool) -> &'a str {
        let end = self
            .rest
            .find(|character| !wanted(character))
            .unwrap_or(self.rest.len());
        self.take(end)
    }

    fn skip_blanks_and_comments(&mut self) {
        loop {
            self.take_while(char::is_whitespace);
            if !self.rest.starts_with("//") {
                return;
            }
            self.take_while(|character| character != '\n');
        }
    }

    fn token(&mut self) -> Result<Token, Problem> {
        let Some(first) = self.rest.chars().next() else {
            return Ok(Token::End);
        };
        if is_of_word(first) {
            return Ok(word_or_number(self.take_while(is_of_word)));
        }
        if first == '"' {
            return self.quoted();
        }
        match SYMBOLS
            .into_iter()
            .find(|symbol| self.rest.starts_with(symbol))
        {
            Some(symbol) => {
                self.take(symbol.len());
                Ok(Token::Symbol(symbol))
            }
            None => Err(Problem::new(
                self.place,
                format!("the character {first:?} has no use in the notation, expected another"),
            )),
        }
    }

    fn quoted(&mut self) -> Result<Token, Problem> {
        let start = self.place;
        self.take(1);
        self.take_while(|character| character != '"' && character != '\n');
        if !self.rest.starts_with('"') {
            return Err(Problem::new(
                start,
                "a string that doesn't end on its line, expected a second `\"`",
            ));
        }
        self.take(1);
        Ok(Token::Quoted)
    }
}

fn is_of_word(character: char) -> bool {
    character.is_ascii_alphanumeric() || character == '_'
}

fn word_or_number(text: &str) -> Token {
    if text.bytes().all(|byte| byte.is_ascii_digit()) {
        Token::Number(text.to_string())
    } else {
        Token::Word(text.to_string())
    }
}
