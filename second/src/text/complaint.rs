//! What a reader of text says when it refuses: the place and the reason.

use std::fmt;

pub use crate::text_graph::Place;

/// A refusal inside one source text, before the text's name is known.
#[derive(Clone, Debug, PartialEq, Eq)]
pub struct Problem {
    pub place: Place,
    pub message: String,
}

impl Problem {
    pub fn new(place: Place, message: impl Into<String>) -> Problem {
        Problem {
            place,
            message: message.into(),
        }
    }

    pub fn in_file(self, file: &str) -> Complaint {
        Complaint {
            file: file.to_string(),
            place: self.place,
            message: self.message,
        }
    }
}

/// A refusal with the name of the text it speaks of.
#[derive(Clone, Debug, PartialEq, Eq)]
pub struct Complaint {
    pub file: String,
    pub place: Place,
    pub message: String,
}

impl fmt::Display for Complaint {
    fn fmt(&self, out: &mut fmt::Formatter) -> fmt::Result {
        write!(
            out,
            "{}:{}:{}: {}",
            self.file, self.place.line, self.place.column, self.message
        )
    }
}

impl std::error::Error for Complaint {}
