//! The listings of runs, by the library and by the program.

use super::bytes::*;
use super::document_01::P;
use second::encode::{self, edge_slot, node_slot, RunnerInput};
use second::listing::listing;
use second::tree::mark;
use std::io::Write;
use std::process::Stdio;

fn input_of_case_p() -> Vec<u8> {
    encode::runner_input(&RunnerInput {
        nodes: [node_slot(4, false, &[5]), node_slot(4, false, &[7])].concat(),
        edges: edge_slot(0, 0, 1, &[]).to_vec(),
        records: 8,
        fuel: 10,
        program: [&P[..], &field(0x54, &[&RULE_0])].concat(),
    })
}

const LISTING_OF_CASE_P: &str = "answer 0 steps 3 records 4\n\
                                 node 0 red plain 5\n\
                                 node 1 blue plain 12\n\
                                 edge 0 1 0 none\n";

#[test]
fn listing_of_case_p() {
    assert_eq!(listing(&input_of_case_p()), LISTING_OF_CASE_P);
}

#[test]
fn the_program_prints_the_listing_of_case_p() {
    let mut program = std::process::Command::new(env!("CARGO_BIN_EXE_second"))
        .args(["run", "-"])
        .stdin(Stdio::piped())
        .stdout(Stdio::piped())
        .spawn()
        .expect("the program starts");
    let mut input = program.stdin.take().expect("its standard input");
    input.write_all(&input_of_case_p()).expect("it reads");
    drop(input);
    let output = program.wait_with_output().expect("it ends");
    assert!(output.status.success());
    assert_eq!(output.stdout, LISTING_OF_CASE_P.as_bytes());
}

#[test]
fn listing_of_free_slots_roots_and_labels() {
    let input = RunnerInput {
        nodes: [
            FREE,
            node_slot(mark::GREEN, true, &[-1, 0, i32::MAX, i32::MIN]),
            node_slot(mark::NONE, false, &[]),
        ]
        .concat(),
        edges: [FREE_EDGE, edge_slot(mark::DASHED, 1, 2, &[3, -3])].concat(),
        records: 0,
        fuel: 1,
        program: SKIP.to_vec(),
    };
    let text = "answer 0 steps 1 records 0\n\
                node 1 green root -1 0 2147483647 -2147483648\n\
                node 2 none plain\n\
                edge 1 1 2 dashed 3 -3\n";
    assert_eq!(listing(&encode::runner_input(&input)), text);
    let failing = RunnerInput {
        program: FAIL.to_vec(),
        ..input
    };
    let text = "answer 1 steps 1 records 0\n";
    assert_eq!(listing(&encode::runner_input(&failing)), text);
}
