//! `--core small`, `gp2 pack` and `gp2 unpack` as they are called.

use super::command_line::{assert_done, assert_refused, out, Place, CASE_P_LISTING};
use second::layout::Layout;
use second::listing::listing_at;

#[test]
fn asm_writes_small_tables_that_dis_and_dot_read() {
    let place = Place::new("small");
    place.assemble_case_p_at(&["--core", "small"]);
    let image = place.read("p.run");
    assert_eq!(image[..6], [1, 0, 16, 1, 4, 0]);
    assert_eq!(listing_at(&Layout::SMALL, &image), CASE_P_LISTING);
    let text = place.gp2(&["dis", "p.run", "--core", "small"]);
    assert_done(&text);
    place.write("again.gp2", &text.stdout);
    assert_done(&place.gp2(&["asm", "--core", "small", "again.gp2", "-o", "again.run"]));
    assert_eq!(place.read("again.run"), image);
    let graph = place.gp2(&["dis", "--core", "small", "--host", "p.run"]);
    assert_eq!(out(&graph), "[\n  (0, 5 # grey)\n  (1, 7 # grey)\n|\n  (0, 0, 1, empty)\n]\n");
    let after = place.gp2(&["dot", "p.run", "--after", "--core", "small"]);
    assert_done(&after);
    assert!(out(&after).contains("  n1 [xlabel=\"1\", label=\"12\", fillcolor=lightskyblue];\n"));
}

#[test]
fn tables_of_the_other_core_are_named() {
    let place = Place::new("other-core");
    place.assemble_case_p_at(&["--core", "small"]);
    let small = "tables of the small core, expected --core small";
    assert_refused(&place.gp2(&["dis", "p.run"]), 1, &format!("p.run: offset 3, node table: {small}; a run answers 10"));
    assert_refused(&place.gp2(&["dot", "p.run", "--after"]), 1, &format!("p.run: {small}"));
    place.assemble_case_p_at(&["--core", "wide"]);
    assert_done(&place.gp2(&["dis", "p.run", "--core", "wide"]));
    let wide = "tables of the wide core, expected no --core small";
    let refused = place.gp2(&["dot", "p.run", "--core", "small"]);
    assert_refused(&refused, 1, &format!("p.run: offset 35, node slot 4: {wide}; a run answers 15"));
    assert_refused(&place.gp2(&["dot", "p.run", "--core", "small", "--after"]), 1, &format!("p.run: {wide}"));
}

#[test]
fn a_graph_that_doesnt_fit_the_small_core_is_refused_with_its_place() {
    let place = Place::new("unfit");
    place.write("wide.host", b"[ (0, 5)\n(1, 6:7) | ]");
    let asm = ["asm", "p.gp2", "--host", "wide.host", "-o", "p.run"];
    assert_done(&place.gp2(&asm));
    let refused = place.gp2(&[&asm[..], &["--core", "small"]].concat());
    assert_refused(&refused, 1, "wide.host:2:7: an atom too many, expected at most 1");
    let refused = place.gp2(&["pack", "p.run", "-o", "small.run"]);
    assert_refused(&refused, 1, "p.run: node 1 has a label of 2 atoms, expected at most 1");
    assert_eq!(place.files(), ["p.gp2", "p.host", "p.run", "wide.host"]);
}

#[test]
fn pack_and_unpack_carry_a_runner_image_there_and_back() {
    let place = Place::new("pack");
    place.assemble_case_p();
    assert_done(&place.gp2(&["pack", "p.run", "-o", "small.run"]));
    assert_eq!(listing_at(&Layout::SMALL, &place.read("small.run")), CASE_P_LISTING);
    assert_done(&place.gp2(&["unpack", "small.run", "-o", "back.run"]));
    assert_eq!(place.read("back.run"), place.read("p.run"));
    let streams = place.gp2_with_input(&["pack", "-", "-o", "-"], &place.read("p.run"));
    assert_done(&streams);
    assert_eq!(streams.stdout, place.read("small.run"));
    assert_done(&place.gp2(&["asm", "p.gp2", "--host", "p.host", "-o", "p.run"]));
    let records = "offset 1337, journal records: expected at most 255 records, found 1024";
    assert_refused(&place.gp2(&["pack", "p.run", "-o", "small.run"]), 1, &format!("p.run: {records}"));
}
