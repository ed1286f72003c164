//! The automaton of the grammar: its states are the words of the expression, and from each one leads on to those that may stand
//! behind it. A text is in the grammar if it leads to a last one.

use crate::answer;

use super::grammar::{graph, Expression, Part, Position, Slots};
use super::words::{words, Word};
use super::Refusal;

struct Automaton {
    positions: Vec<Position>,
    /// The positions that may stand behind each.
    behind: Vec<Vec<usize>>,
    first: Vec<usize>,
    last: Vec<usize>,
}

/// Where an expression begins and ends, and whether it may be left out.
struct Ends {
    first: Vec<usize>,
    last: Vec<usize>,
    empty: bool,
}

impl Automaton {
    fn of(expression: Expression) -> Automaton {
        let mut automaton = Automaton { positions: Vec::new(), behind: Vec::new(), first: Vec::new(), last: Vec::new() };
        let ends = automaton.add(expression);
        Automaton { first: ends.first, last: ends.last, ..automaton }
    }

    fn add(&mut self, expression: Expression) -> Ends {
        match expression {
            Expression::Word(position) => self.add_position(position),
            Expression::Row(parts) => {
                let mut row = Ends { first: Vec::new(), last: Vec::new(), empty: true };
                for part in parts {
                    let next = self.add(part);
                    row = self.joined(row, next);
                }
                row
            }
            Expression::Either(parts) => {
                let parts: Vec<Ends> = parts.into_iter().map(|part| self.add(part)).collect();
                let empty = parts.iter().any(|part| part.empty);
                let (first, last): (Vec<_>, Vec<_>) = parts.into_iter().map(|part| (part.first, part.last)).unzip();
                Ends { first: first.concat(), last: last.concat(), empty }
            }
            Expression::Maybe(part) => Ends { empty: true, ..self.add(*part) },
            Expression::Repeated(part) => {
                let part = self.add(*part);
                self.lead(&part.last, &part.first);
                Ends { empty: true, ..part }
            }
        }
    }

    fn add_position(&mut self, position: Position) -> Ends {
        let number = self.positions.len();
        self.positions.push(position);
        self.behind.push(Vec::new());
        Ends { first: vec![number], last: vec![number], empty: false }
    }

    /// One expression, then the other.
    fn joined(&mut self, before: Ends, behind: Ends) -> Ends {
        self.lead(&before.last, &behind.first);
        let mut first = before.first;
        if before.empty {
            first.extend(&behind.first);
        }
        let mut last = behind.last;
        if behind.empty {
            last.extend(&before.last);
        }
        Ends { first, last, empty: before.empty && behind.empty }
    }

    fn lead(&mut self, from: &[usize], to: &[usize]) {
        for position in from {
            self.behind[*position].extend(to);
        }
    }

    /// The positions that may come next, at the start or behind one.
    fn next(&self, at: Option<usize>) -> &[usize] {
        at.map_or(&self.first, |position| &self.behind[position])
    }

    /// What may come next, in the words of a message.
    fn expected(&self, at: Option<usize>) -> String {
        let mut words: Vec<&str> = Vec::new();
        for position in self.next(at) {
            let more = self.positions[*position].words;
            if !words.contains(&more) {
                words.push(more);
            }
        }
        match words.split_last() {
            None => "the end of the text behind the graph".to_string(),
            Some((only, [])) => only.to_string(),
            Some((last, others)) => format!("{} or {last}", others.join(", ")),
        }
    }

    fn refusal(&self, at: Option<usize>, byte: usize, found: &str) -> Refusal {
        let message = format!("found {found}, expected {}", self.expected(at));
        Refusal { answer: answer::TEXT_GRAMMAR, at: byte, message }
    }
}

/// The words of a graph with what each says, or the first one that no graph goes on with.
pub fn read(slots: Slots, text: &[u8]) -> Result<Vec<(Part, Word<'_>)>, Refusal> {
    let automaton = Automaton::of(graph(slots));
    let cut = words(text);
    let mut parts = Vec::new();
    let mut at = None;
    for word in cut.words {
        let next = automaton.next(at).iter().find(|next| automaton.positions[**next].pattern.fits(&word));
        let Some(next) = next else {
            return Err(automaton.refusal(at, word.at, &word.to_string()));
        };
        at = Some(*next);
        parts.push((automaton.positions[*next].part, word));
    }
    if let Some(start) = cut.unended {
        let message = "a comment without an end, expected `*/`".to_string();
        return Err(Refusal { answer: answer::TEXT_GRAMMAR, at: start, message });
    }
    match at.is_some_and(|position| automaton.last.contains(&position)) {
        true => Ok(parts),
        false => Err(automaton.refusal(at, text.len(), "the end of the text")),
    }
}

#[cfg(test)]
mod tests {
    use super::*;

    /// The automaton takes the first position that fits, so no other may.
    #[test]
    fn no_word_fits_two_positions_at_one_place() {
        let text = b"( ) [ ] | , : # < > . - / R r empty red dashed none 5 05 5x x";
        for slots in [Slots::Live, Slots::Free] {
            let automaton = Automaton::of(graph(slots));
            for place in (0..automaton.positions.len()).map(Some).chain([None]) {
                for word in words(text).words {
                    let fits = |next: &&usize| automaton.positions[**next].pattern.fits(&word);
                    assert!(automaton.next(place).iter().filter(fits).count() <= 1, "{word} behind {place:?}");
                }
            }
        }
    }
}
