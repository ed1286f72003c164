//! The lengths of slots and tables at the base layout and others, and the bytes of slots.

use super::SMALL;
use second::layout::Layout;

fn lengths(layout: &Layout) -> [usize; 3] {
    [
        layout.node_length(),
        layout.edge_length(),
        layout.record_length(),
    ]
}

#[test]
fn the_base_layout_is_that_of_the_calls() {
    let base = Layout::BASE;
    assert_eq!(lengths(&base), [36, 40, 44]);
    assert_eq!(
        [base.most_nodes, base.most_edges, base.most_records],
        [512, 1024, 1024]
    );
    assert_eq!((base.edge_source(), base.edge_target()), (4..6, 6..8));
    assert_eq!((base.record_zeros(), base.record_slot()), (1..2, 2..4));
}

#[test]
fn lengths_follow_from_atoms_and_width() {
    assert_eq!(lengths(&SMALL), [8, 10, 12]);
    assert!(SMALL.record_zeros().is_empty());
    assert_eq!(lengths(&Layout::FOUR), [20, 24, 28]);
}

#[test]
fn a_table_has_whole_slots_and_not_too_many() {
    let base = Layout::BASE;
    assert!([0, 36, 512 * 36]
        .map(|bytes| base.is_node_table(bytes))
        .iter()
        .all(|holds| *holds));
    assert!(![35, 37, 513 * 36]
        .map(|bytes| base.is_node_table(bytes))
        .contains(&true));
    assert!(base.is_edge_table(1024 * 40) && !base.is_edge_table(1025 * 40));
    assert!(base.is_journal(1024 * 44) && !base.is_journal(1025 * 44));
    let four = Layout::FOUR;
    assert!(four.is_node_table(512 * 20) && !four.is_node_table(513 * 20));
    assert!(four.is_edge_table(1024 * 24) && !four.is_edge_table(1025 * 24));
    assert!(SMALL.is_node_table(128 * 8) && !SMALL.is_node_table(129 * 8));
    assert!(SMALL.is_edge_table(255 * 10) && !SMALL.is_edge_table(256 * 10));
    assert!(SMALL.is_journal(255 * 12) && !SMALL.is_journal(256 * 12));
}

#[test]
fn slots_are_written_byte_by_byte() {
    let wide = Layout::BASE.edge_slot(5, 3, 258, &[-2]);
    let unused = [0; 28];
    assert_eq!(
        wide,
        [&[1, 5, 0, 1, 0, 3, 1, 2, 255, 255, 255, 254], &unused[..]].concat()
    );
    assert_eq!(
        SMALL.edge_slot(5, 3, 127, &[-2]),
        [1, 5, 0, 1, 3, 127, 255, 255, 255, 254]
    );
    assert_eq!(SMALL.node_slot(4, true, &[258]), [1, 4, 1, 1, 0, 0, 1, 2]);
    assert_eq!(SMALL.node_slot(0, false, &[]), [1, 0, 0, 0, 0, 0, 0, 0]);
}

#[test]
#[should_panic(expected = "too wide")]
fn a_slot_number_that_is_too_wide_is_not_written() {
    SMALL.slot_number(256);
}
