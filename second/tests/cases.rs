//! The cases of document 01, from bytes to bytes, and the points that it warns of. Images of the cases are
//! written out byte by byte; expected values are document 01's.

#[path = "cases/applying.rs"]
mod applying;
#[path = "cases/bytes.rs"]
mod bytes;
#[path = "cases/commands.rs"]
mod commands;
#[path = "cases/conditions.rs"]
mod conditions;
#[path = "cases/document_01.rs"]
mod document_01;
#[path = "cases/labels.rs"]
mod labels;
#[path = "cases/listings.rs"]
mod listings;
#[path = "cases/matching.rs"]
mod matching;
#[path = "cases/modes.rs"]
mod modes;
#[path = "cases/procedures.rs"]
mod procedures;
#[path = "cases/rules.rs"]
mod rules;
#[path = "cases/undo.rs"]
mod undo;

mod report;
