//! Places in a text by line and column.

/// A place in a text. Lines and columns count from 1, columns in bytes of a text graph and in characters of a program.
#[derive(Clone, Copy, Debug, PartialEq, Eq)]
pub struct Place {
    pub line: usize,
    pub column: usize,
}

impl Place {
    pub const START: Place = Place { line: 1, column: 1 };

    /// The place of the byte with this number, columns in bytes.
    pub fn in_bytes(text: &[u8], at: usize) -> Place {
        behind(&text[..at], |line| line.len())
    }

    /// The same, columns in characters.
    pub fn in_characters(text: &[u8], at: usize) -> Place {
        behind(&text[..at], |line| String::from_utf8_lossy(line).chars().count())
    }
}

/// The place behind these bytes, where so many columns are taken by the start of a line.
fn behind(before: &[u8], columns: impl Fn(&[u8]) -> usize) -> Place {
    let lines: Vec<&[u8]> = before.split(|byte| *byte == b'\n').collect();
    Place { line: lines.len(), column: columns(lines[lines.len() - 1]) + 1 }
}
