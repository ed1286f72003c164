//! Cases 1 to 15 and P of document 01, from bytes to bytes.

use super::bytes::*;
use super::rules::*;
use second::calls::run;
use second::encode::{self, edge_slot, node_slot};
use second::tree::mark;

#[test]
fn case_1_skip() {
    let outcome = run_on(&PLAIN, &[], &[&SKIP], 1);
    expect(&outcome, (0, 1, 0), &PLAIN, &[], &[]);
}

#[test]
fn case_2_skip_without_fuel() {
    let outcome = run_on(&PLAIN, &[], &[&SKIP], 0);
    expect(&outcome, (2, 0, 0), &PLAIN, &[], &[]);
}

#[test]
fn case_3_loop_of_skip() {
    let outcome = run_on(&PLAIN, &[], &[&field(0x54, &[&SKIP])], 1_000);
    expect(&outcome, (2, 1000, 0), &PLAIN, &[], &[]);
}

#[test]
fn case_4_loop_of_fail_and_loop_of_break() {
    for body in [FAIL, BREAK] {
        let outcome = run_on(&PLAIN, &[], &[&field(0x54, &[&body])], AMPLE_FUEL);
        expect(&outcome, (0, 2, 0), &PLAIN, &[], &[]);
    }
}

#[test]
fn case_5_delete_a_node_with_a_loop() {
    let edges = edge_slot(0, 0, 0, &[]);
    let outcome = run_on(&PLAIN, &edges, &[&D, &RULE_0], AMPLE_FUEL);
    expect(&outcome, (1, 1, 0), &PLAIN, &edges, &[]);
}

#[test]
fn case_6_delete_an_isolated_node() {
    let outcome = run_on(&PLAIN, &[], &[&D, &RULE_0], AMPLE_FUEL);
    let records = [node_record(0, &PLAIN)];
    expect(&outcome, (0, 1, 1), &FREE, &[], &records);
}

#[test]
fn case_7_two_nodes_on_the_left() {
    #[rustfmt::skip]
    let two = [
        0x10, 0, 26,
        0x11, 0, 0,
        0x12, 0, 10, 0x20, 0, 2, 0, 0, 0x20, 0, 2, 0, 0,
        0x13, 0, 0,
        0x14, 0, 1, 0,
        0x15, 0, 0,
    ];
    let outcome = run_on(&PLAIN, &[], &[&two, &RULE_0], AMPLE_FUEL);
    expect(&outcome, (1, 1, 0), &PLAIN, &[], &[]);
}

#[test]
fn case_8_if() {
    let command = field(0x59, &[&[0], &RULE_0, &SKIP, &FAIL]);
    let outcome = run_on(&PLAIN, &[], &[&M, &command], AMPLE_FUEL);
    expect(&outcome, (0, 3, 0), &PLAIN, &[], &[]);
}

#[test]
fn case_9_try() {
    let command = field(0x59, &[&[1], &RULE_0, &SKIP, &FAIL]);
    let outcome = run_on(&PLAIN, &[], &[&M, &command], AMPLE_FUEL);
    let records = [node_record(0, &PLAIN)];
    expect(&outcome, (0, 3, 1), &RED, &[], &records);
}

#[test]
fn case_10_loop_of_m_and_fail() {
    let command = field(0x54, &[&field(0x51, &[&RULE_0, &FAIL])]);
    let outcome = run_on(&PLAIN, &[], &[&M, &command], AMPLE_FUEL);
    expect(&outcome, (0, 4, 0), &PLAIN, &[], &[]);
}

#[test]
fn case_11_loop_of_m_and_break() {
    let command = field(0x54, &[&field(0x51, &[&RULE_0, &BREAK])]);
    let outcome = run_on(&PLAIN, &[], &[&M, &command], AMPLE_FUEL);
    let records = [node_record(0, &PLAIN)];
    expect(&outcome, (0, 4, 1), &RED, &[], &records);
}

#[test]
fn case_12_delete_one_and_add_one_in_a_full_table() {
    #[rustfmt::skip]
    let exchange = [
        0x10, 0, 26,
        0x11, 0, 0,
        0x12, 0, 5, 0x20, 0, 2, 0, 0,
        0x13, 0, 5, 0x20, 0, 2, 0, 0,
        0x14, 0, 1, 0,
        0x15, 0, 0,
    ];
    let outcome = run_on(&PLAIN, &[], &[&exchange, &RULE_0], AMPLE_FUEL);
    let records = [node_record(0, &PLAIN), node_record(0, &FREE)];
    expect(&outcome, (0, 1, 2), &PLAIN, &[], &records);
}

#[test]
fn case_13_add_a_node_in_a_full_table() {
    #[rustfmt::skip]
    let add = [
        0x10, 0, 21,
        0x11, 0, 0,
        0x12, 0, 0,
        0x13, 0, 5, 0x20, 0, 2, 0, 0,
        0x14, 0, 1, 0,
        0x15, 0, 0,
    ];
    let outcome = run_on(&PLAIN, &[], &[&add, &RULE_0], AMPLE_FUEL);
    expect(&outcome, (3, 1, 0), &PLAIN, &[], &[]);
}

#[test]
fn case_14_a_sum_that_leaves_32_bits() {
    #[rustfmt::skip]
    let sum = [
        0x10, 0, 43,
        0x11, 0, 0,
        0x12, 0, 5, 0x20, 0, 2, 0, 0,
        0x13, 0, 22, 0x20, 0, 19, 0, 0,
            0x32, 0, 14, 0x30, 0, 4, 0x7f, 0xff, 0xff, 0xff, 0x30, 0, 4, 0, 0, 0, 1,
        0x14, 0, 1, 1,
        0x15, 0, 0,
    ];
    let outcome = run_on(&PLAIN, &[], &[&sum, &RULE_0], AMPLE_FUEL);
    expect(&outcome, (6, 1, 0), &PLAIN, &[], &[]);
}

#[test]
fn case_15_a_root_in_the_host() {
    let root = node_slot(mark::NONE, true, &[]);
    let outcome = run_on(&root, &[], &[&M, &RULE_0], AMPLE_FUEL);
    expect(&outcome, (1, 1, 0), &root, &[], &[]);
}

/// Grey x to grey y becomes red x, blue x + y, with the edge turned round.
#[rustfmt::skip]
pub const P: [u8; 76] = [
    0x10, 0, 73,
    0x11, 0, 2, 1, 1,
    0x12, 0, 24,
        0x20, 0, 6, 4, 0, 0x31, 0, 1, 0,
        0x20, 0, 6, 4, 0, 0x31, 0, 1, 1,
        0x21, 0, 3, 0, 0, 1,
    0x13, 0, 31,
        0x20, 0, 6, 1, 0, 0x31, 0, 1, 0,
        0x20, 0, 13, 3, 0, 0x32, 0, 8, 0x31, 0, 1, 0, 0x31, 0, 1, 1,
        0x21, 0, 3, 0, 1, 0,
    0x14, 0, 1, 2,
    0x15, 0, 0,
];

#[test]
fn case_p() {
    let (five, seven) = (node_slot(4, false, &[5]), node_slot(4, false, &[7]));
    let edge = edge_slot(0, 0, 1, &[]);
    let command = field(0x54, &[&RULE_0]);
    let nodes = [five, seven].concat();
    let given = vec![0xEE; 8 * RECORD];
    let program = [&P[..], &command].concat();
    let outcome = run(&nodes, &edge, &given, &program, 10, &[0xEE; 8]);
    let after = [node_slot(1, false, &[5]), node_slot(3, false, &[12])].concat();
    let records = [
        edge_record(0, &edge),
        node_record(0, &five),
        node_record(1, &seven),
        edge_record(0, &FREE_EDGE),
    ];
    let mut journal = records.concat();
    journal.resize(8 * RECORD, 0);
    assert_eq!(numbers(&outcome), (0, 3, 4));
    assert_eq!(outcome.nodes, after);
    assert_eq!(outcome.edges, edge_slot(0, 1, 0, &[]));
    assert_eq!(outcome.journal, journal);
}

#[test]
fn the_written_images_are_the_encoders() {
    let delete = node_rule(&[node(mark::NONE, &[])], &[], 0);
    assert_eq!(encode::rule(&delete), D);
    assert_eq!(encode::rule(&mark_red()), M);
    assert_eq!(encode::command(&call(0)), RULE_0);
}
