//! A place among the tokens of a text, with the few steps that every part of the parser takes.

use super::complaint::{Place, Problem};
use super::lexer::{tokens, Lexeme, Token};
use super::syntax::Name;

/// How deep brackets, commands and conditions may be written inside each other. An image's commands reach
/// depth 16, so that nothing which can be held comes near it.
const MOST_NESTING: usize = 128;

pub struct Cursor {
    lexemes: Vec<Lexeme>,
    at: usize,
    nesting: usize,
}

impl Cursor {
    pub fn new(source: &str) -> Result<Cursor, Problem> {
        Ok(Cursor {
            lexemes: tokens(source)?,
            at: 0,
            nesting: 0,
        })
    }

    /// The token `ahead` places further on; behind the last one there is only the end.
    pub fn peek_at(&self, ahead: usize) -> &Token {
        &self.lexemes[(self.at + ahead).min(self.lexemes.len() - 1)].token
    }

    pub fn peek(&self) -> &Token {
        self.peek_at(0)
    }

    pub fn place(&self) -> Place {
        self.lexemes[self.at].place
    }

    pub fn advance(&mut self) {
        self.at = (self.at + 1).min(self.lexemes.len() - 1);
    }

    pub fn at_symbol(&self, symbol: &str) -> bool {
        matches!(self.peek(), Token::Symbol(found) if *found == symbol)
    }

    pub fn at_word(&self, word: &str) -> bool {
        matches!(self.peek(), Token::Word(found) if found == word)
    }

    /// Whether the word two tokens long `word symbol` comes next.
    pub fn at_word_then_symbol(&self, word: &str, symbol: &str) -> bool {
        self.at_word(word) && matches!(self.peek_at(1), Token::Symbol(found) if *found == symbol)
    }

    pub fn take_symbol(&mut self, symbol: &str) -> bool {
        let found = self.at_symbol(symbol);
        if found {
            self.advance();
        }
        found
    }

    pub fn take_word(&mut self, word: &str) -> bool {
        let found = self.at_word(word);
        if found {
            self.advance();
        }
        found
    }

    /// Takes a symbol, or says that it was expected and for what.
    pub fn expect_symbol(&mut self, symbol: &str, purpose: &str) -> Result<(), Problem> {
        if self.take_symbol(symbol) {
            Ok(())
        } else {
            Err(self.unexpected(&format!("`{symbol}` {purpose}")))
        }
    }

    pub fn expect_word(&mut self, word: &str, purpose: &str) -> Result<(), Problem> {
        if self.take_word(word) {
            Ok(())
        } else {
            Err(self.unexpected(&format!("`{word}` {purpose}")))
        }
    }

    /// Takes a word or number that names a node or edge.
    pub fn expect_identifier(&mut self, what: &str) -> Result<Name, Problem> {
        let place = self.place();
        match self.peek().clone() {
            Token::Word(text) | Token::Number(text) => {
                self.advance();
                Ok(Name { text, place })
            }
            _ => Err(self.unexpected(what)),
        }
    }

    /// Takes a word that names a rule, procedure or variable.
    pub fn expect_name(&mut self, what: &str) -> Result<Name, Problem> {
        let place = self.place();
        match self.peek().clone() {
            Token::Word(text) => {
                self.advance();
                Ok(Name { text, place })
            }
            _ => Err(self.unexpected(what)),
        }
    }

    /// The refusal of the token that comes next.
    pub fn unexpected(&self, expected: &str) -> Problem {
        Problem::new(
            self.place(),
            format!("found {}, expected {expected}", self.peek()),
        )
    }

    pub fn problem_here(&self, message: impl Into<String>) -> Problem {
        Problem::new(self.place(), message)
    }

    /// Runs a part of the parser one level further in.
    pub fn nested<T>(
        &mut self,
        part: impl FnOnce(&mut Cursor) -> Result<T, Problem>,
    ) -> Result<T, Problem> {
        if self.nesting == MOST_NESTING {
            return Err(self.problem_here(format!(
                "nested more than {MOST_NESTING} deep, expected at most that: an image's commands reach depth 16"
            )));
        }
        self.nesting += 1;
        let result = part(self);
        self.nesting -= 1;
        result
    }

    /// The token behind the bracket that closes the `(` at hand.
    pub fn token_behind_parentheses(&self) -> &Token {
        let mut open = 0usize;
        for ahead in 0.. {
            match self.peek_at(ahead) {
                Token::Symbol("(") => open += 1,
                Token::Symbol(")") => open = open.saturating_sub(1),
                Token::End => break,
                _ => {}
            }
            if open == 0 {
                return self.peek_at(ahead + 1);
            }
        }
        &Token::End
    }
}
