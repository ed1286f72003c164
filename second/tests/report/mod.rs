//! What an outcome says in numbers.

use second::calls::Outcome;

/// The answer, and the steps and records of the report.
pub fn numbers(outcome: &Outcome) -> (u32, u32, u32) {
    let number = |at: usize| u32::from_be_bytes(outcome.report[at..at + 4].try_into().unwrap());
    assert_eq!(outcome.report.len(), 8);
    (outcome.answer, number(0), number(4))
}
