//! Procedures and calls, from bytes to bytes: what a call costs, how it ends, and what is refused.

use super::bytes::*;
use super::rules::*;
use second::calls::{run, Outcome};
use second::tree::Command::{self, Procedure, Sequence, Skip};
use second::tree::{limit, Program};

fn procedure(command: &[u8]) -> Vec<u8> {
    field(0x17, &[command])
}

/// A call of the procedure of this number.
fn calls(number: u8) -> [u8; 4] {
    [0x58, 0, 1, number]
}

/// A run of M, these procedures and a command on one plain node.
fn run_with(procedures: &[&[u8]], main: &[u8], fuel: u32) -> Outcome {
    let procedures: Vec<u8> = procedures.iter().flat_map(|it| procedure(it)).collect();
    run_on(&PLAIN, &[], &[&M, &procedures, main], fuel)
}

#[test]
fn a_call_is_a_step_and_its_procedures_command_another() {
    for (fuel, expected) in [(0, (2, 0, 0)), (1, (2, 1, 0)), (2, (0, 2, 0))] {
        let outcome = run_with(&[&SKIP], &calls(0), fuel);
        expect(&outcome, expected, &PLAIN, &[], &[]);
    }
}

#[test]
fn a_call_is_of_the_procedure_of_its_number() {
    for (number, answer) in [(0, 1), (1, 0), (2, 1)] {
        let outcome = run_with(&[&FAIL, &SKIP, &FAIL], &calls(number), AMPLE_FUEL);
        expect(&outcome, (answer, 2, 0), &PLAIN, &[], &[]);
    }
}

#[test]
fn what_a_procedure_changes_stays_with_its_records() {
    let records = [node_record(0, &PLAIN)];
    let outcome = run_with(&[&RULE_0], &calls(0), AMPLE_FUEL);
    expect(&outcome, (0, 2, 1), &RED, &[], &records);
    let outcome = run_with(&[&calls(1), &RULE_0], &calls(0), AMPLE_FUEL);
    expect(&outcome, (0, 3, 1), &RED, &[], &records);
}

#[test]
fn a_procedure_that_nobody_calls_does_nothing() {
    let outcome = run_with(&[&FAIL, &RULE_0], &SKIP, AMPLE_FUEL);
    expect(&outcome, (0, 1, 0), &PLAIN, &[], &[]);
}

#[test]
fn a_guard_gives_back_or_keeps_what_its_call_changed() {
    let guarded = |keep: u8| field(0x59, &[&[keep], &calls(0), &SKIP, &FAIL]);
    let outcome = run_with(&[&RULE_0], &guarded(0), AMPLE_FUEL);
    expect(&outcome, (0, 4, 0), &PLAIN, &[], &[]);
    let outcome = run_with(&[&RULE_0], &guarded(1), AMPLE_FUEL);
    expect(&outcome, (0, 4, 1), &RED, &[], &[node_record(0, &PLAIN)]);
    let failing = field(0x51, &[&RULE_0, &FAIL]);
    for keep in [0, 1] {
        let outcome = run_with(&[&failing], &guarded(keep), AMPLE_FUEL);
        expect(&outcome, (1, 6, 0), &PLAIN, &[], &[]);
    }
}

#[test]
fn a_loop_ends_where_its_call_fails_and_gives_its_last_round_back() {
    let body = field(0x54, &[&calls(0)]);
    let outcome = run_with(&[&FAIL], &body, AMPLE_FUEL);
    expect(&outcome, (0, 3, 0), &PLAIN, &[], &[]);
    let outcome = run_with(&[&RULE_0], &body, AMPLE_FUEL);
    expect(&outcome, (0, 5, 1), &RED, &[], &[node_record(0, &PLAIN)]);
    let undone = field(0x54, &[&field(0x51, &[&calls(0), &FAIL])]);
    let outcome = run_with(&[&RULE_0], &undone, AMPLE_FUEL);
    expect(&outcome, (0, 5, 0), &PLAIN, &[], &[]);
    let kept = field(0x54, &[&field(0x51, &[&calls(0), &BREAK])]);
    let outcome = run_with(&[&RULE_0], &kept, AMPLE_FUEL);
    expect(&outcome, (0, 5, 1), &RED, &[], &[node_record(0, &PLAIN)]);
}

#[test]
fn a_break_ends_the_loop_of_its_procedure_alone() {
    let breaks = field(0x54, &[&field(0x51, &[&RULE_0, &BREAK])]);
    let main = field(0x54, &[&field(0x51, &[&calls(0), &FAIL])]);
    let outcome = run_with(&[&breaks], &main, AMPLE_FUEL);
    expect(&outcome, (0, 8, 0), &PLAIN, &[], &[]);
    let endless = field(0x54, &[&calls(0)]);
    let outcome = run_with(&[&field(0x54, &[&BREAK])], &endless, 10);
    expect(&outcome, (2, 10, 0), &PLAIN, &[], &[]);
}

/// A rule that adds a node, for which there is no room, in a procedure.
#[test]
fn no_guard_around_a_call_catches_what_ends_a_run() {
    let add = image(&[node_rule(&[], &[node(0, &[])], 0)], Skip);
    let rule = &add[..add.len() - SKIP.len()];
    let main = field(0x59, &[&[1], &calls(0), &SKIP, &SKIP]);
    let outcome = run_on(&PLAIN, &[], &[rule, &procedure(&RULE_0), &main], AMPLE_FUEL);
    expect(&outcome, (3, 3, 0), &PLAIN, &[], &[]);
}

/// The answer of an image that is refused, which leaves all but the report as it was.
fn refused(parts: &[&[u8]]) -> u32 {
    let outcome = run_on(&PLAIN, &[], parts, AMPLE_FUEL);
    assert_eq!(outcome.nodes, PLAIN);
    assert_eq!(outcome.journal, [0xEE; AMPLE_RECORDS * RECORD]);
    assert_eq!(outcome.report, [0; 8]);
    outcome.answer
}

#[test]
fn rings_are_refused_behind_all_else() {
    let ring = [procedure(&calls(1)), procedure(&calls(0))].concat();
    let breaks = field(0x51, &[&SKIP, &BREAK]);
    assert_eq!(refused(&[&ring, &SKIP]), 19);
    assert_eq!(refused(&[&ring, &breaks]), 18);
    assert_eq!(refused(&[&ring, &procedure(&BREAK), &SKIP]), 18);
    assert_eq!(refused(&[&ring, &field(0x51, &[&BREAK, &calls(2)])]), 17);
    assert_eq!(refused(&[&ring, &breaks, &[0]]), 16);
}

/// The answer of a program of procedures on empty tables, without fuel: 2 where it starts.
fn answer(procedures: Vec<Command>, main: Command) -> u32 {
    let program = Program {
        rules: vec![],
        procedures,
        main,
    };
    let bytes = second::encode::program(&program);
    run(&[], &[], &[], &bytes, 0, &[0; 8]).answer
}

/// So many procedures that each call the next one sixteen times.
fn many_paths(count: u8) -> Vec<Command> {
    let calls = |next| Sequence(vec![Procedure(next); limit::COMMANDS]);
    (1..count).map(calls).chain([Skip]).collect()
}

/// A check that followed each path would not come to an end.
#[test]
fn procedures_with_very_many_paths_are_answered_at_once() {
    assert_eq!(answer(many_paths(16), Procedure(0)), 19);
    assert_eq!(answer(many_paths(16), Skip), 19);
    assert_eq!(answer(many_paths(8), Procedure(0)), 2);
    assert_eq!(answer(many_paths(9), Procedure(0)), 19);
    let mut ring = many_paths(16);
    ring[15] = Procedure(0);
    assert_eq!(answer(ring, Skip), 19);
}

#[test]
fn sixteen_procedures_in_a_row_or_in_a_ring() {
    let row = |last| (1..16).map(Procedure).chain([last]).collect::<Vec<_>>();
    assert_eq!(answer(row(Skip), Skip), 2);
    assert_eq!(answer(row(Skip), Procedure(1)), 2);
    assert_eq!(answer(row(Skip), Procedure(0)), 19);
    for first in 0..16 {
        assert_eq!(answer(row(Procedure(first)), Skip), 19, "{first}");
    }
}
