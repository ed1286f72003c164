//! `gp2 renew` as it is called.

use super::command_line::{assert_done, assert_refused, err, out, Place};
use second::encode::{self, RunnerInput};
use second::layout::Layout;
use std::process::Output;

/// `if skip then skip else skip` in the old form and in today's.
const OLD: [u8; 12] = [0x52, 0, 9, 0x55, 0, 0, 0x55, 0, 0, 0x55, 0, 0];
const TODAY: [u8; 13] = [0x59, 0, 10, 0, 0x55, 0, 0, 0x55, 0, 0, 0x55, 0, 0];

#[test]
fn renew_rewrites_an_image_of_the_old_form() {
    let place = Place::new("renew");
    place.write("old.image", &OLD);
    let refused = place.gp2(&["dis", "old.image"]);
    let what =
        "an image of the old form, in which if (0x52) and try (0x53) are commands of their own";
    let remedy = "`gp2 renew OLD -o NEW` rewrites it; a run answers 16";
    let message = format!("old.image: offset 0, program: {what}; {remedy}");
    assert_refused(&refused, 1, &message);
    assert_done(&place.gp2(&["renew", "old.image", "-o", "new.image"]));
    assert_eq!(place.read("new.image"), TODAY);
    assert_eq!(place.read("old.image"), OLD);
    assert_eq!(
        out(&place.gp2(&["dis", "new.image"])),
        "Main = if skip then skip else skip\n"
    );
    let streams = place.gp2_with_input(&["renew", "-", "-o", "-"], &OLD);
    assert_done(&streams);
    assert_eq!(streams.stdout, TODAY);
    assert_done(&place.gp2(&["renew", "old.image", "-o", "old.image"]));
    assert_eq!(place.read("old.image"), TODAY);
}

#[test]
fn what_cannot_be_renewed_leaves_the_new_image_alone() {
    let place = Place::new("not-renewed");
    place.write("today.image", &TODAY);
    place.write("new.image", b"old");
    let message = "today.image: an image of today's form already, with guarded commands (0x59)";
    for new in ["new.image", "none.image"] {
        let refused = place.gp2(&["renew", "today.image", "-o", new]);
        assert_refused(&refused, 1, message);
    }
    assert_eq!(place.read("new.image"), b"old");
    assert_eq!(
        place.files(),
        ["new.image", "p.gp2", "p.host", "today.image"]
    );
}

/// A node of one atom in a table of the layout, and a program.
fn runner(layout: &Layout, program: &[u8]) -> Vec<u8> {
    encode::runner_input(&RunnerInput {
        nodes: layout.node_slot(4, false, &[5]),
        edges: vec![],
        records: 8,
        fuel: 10,
        program: program.to_vec(),
    })
}

/// Done, with one line about the host.
fn assert_done_saying(output: &Output, line: &str) {
    assert_eq!((output.status.code(), err(output)), (Some(0), format!("{line}\n")));
}

#[test]
fn renew_carries_the_host_over_and_says_so() {
    let place = Place::new("renew-host");
    let widened = "the host's tables are widened, from labels of at most four atoms to eight";
    for program in [&OLD[..], &TODAY] {
        place.write("old.image", &runner(&Layout::FOUR, program));
        let output = place.gp2(&["renew", "old.image", "-o", "new.image"]);
        assert_done_saying(&output, &format!("old.image: {widened}"));
        assert_eq!(place.read("new.image"), runner(&Layout::BASE, &TODAY));
        assert!(output.stdout.is_empty());
    }
    let left = "the host's tables have room for eight atoms in a label already and stay as they are";
    let output = place.gp2_with_input(&["renew", "-", "-o", "-"], &runner(&Layout::BASE, &OLD));
    assert_done_saying(&output, &format!("-: {left}"));
    assert_eq!(output.stdout, runner(&Layout::BASE, &TODAY));
}

#[test]
fn a_host_that_cannot_be_carried_leaves_the_new_image_alone() {
    let place = Place::new("host-not-renewed");
    let mut damaged = runner(&Layout::FOUR, &OLD);
    damaged[3] = 2;
    place.write("old.image", &damaged);
    let output = place.gp2(&["renew", "old.image", "-o", "new.image"]);
    let of_four = "offset 3, node slot 0: its state is neither 0 nor 1";
    let of_eight = "offset 3, node table: expected 0 to 512 slots of 36 bytes, found 20 bytes";
    let neither = format!("the host's tables keep neither the layout of four atoms ({of_four}) nor that of eight ({of_eight})");
    assert_refused(&output, 1, &format!("old.image: {neither}"));
    assert_eq!(place.files(), ["old.image", "p.gp2", "p.host"]);
}
