//! The call undo.

use super::bytes::*;
use second::calls::undo;

#[test]
fn undo_stores_the_counted_records_from_last_to_first_and_zeros_them() {
    let first: [u8; NODE] = std::array::from_fn(|byte| byte as u8 + 1);
    let second = [9; NODE];
    let edge: [u8; EDGE] = std::array::from_fn(|byte| byte as u8 + 100);
    let mut records = [
        node_record(1, &first),
        node_record(1, &second),
        edge_record(0, &edge),
        vec![7; RECORD],
    ]
    .concat();
    records[4 + NODE..RECORD].fill(5);
    let outcome = undo(&[3; 2 * NODE], &[4; EDGE], &records, 3, &[0xEE; 8]);
    assert_eq!(numbers(&outcome), (0, 0, 3));
    assert_eq!(outcome.nodes, [[3; NODE], first].concat());
    assert_eq!(outcome.edges, edge);
    assert_eq!(outcome.journal, [&[0; 3 * RECORD][..], &[7; RECORD]].concat());
    let outcome = undo(&[3; 2 * NODE], &[4; EDGE], &records, 0, &[0xEE; 8]);
    assert_eq!(numbers(&outcome), (0, 0, 0));
    assert_eq!((outcome.nodes, outcome.edges), (vec![3; 2 * NODE], vec![4; EDGE]));
    assert_eq!(outcome.journal, records);
}
