//! Carrying the tables of a runner image from one core to the other, with as many slots as before. Fuel, records and program stay
//! byte for byte, whatever the program holds.

use super::image::{grouped, is_runner_image, runner_image, RunnerImage};
use crate::carrying::{carried, Way};
use crate::encode::{self, RunnerInput};
use crate::host::{Host, Label};
use crate::layout::Layout;
use crate::listing::INPUT_BYTES;

/// The image with the small core's tables, or why there is none.
pub fn pack(bytes: &[u8]) -> Result<Vec<u8>, String> {
    carry(Way::Pack, bytes)
}

/// The image with the wide core's tables, or why there is none.
pub fn unpack(bytes: &[u8]) -> Result<Vec<u8>, String> {
    carry(Way::Unpack, bytes)
}

fn carry(way: Way, bytes: &[u8]) -> Result<Vec<u8>, String> {
    if !is_runner_image(bytes) {
        return Err("offset 0: no host graph, expected a runner image (tag 0x01)".to_string());
    }
    let image = runner_image(bytes).map_err(|fault| fault.to_string())?;
    check_fits(way.to(), &read_host(way, &image)?)?;
    let of_journal = image.check_records(way.to());
    of_journal.map_err(|fault| fault.place_and_reason())?;
    let old = image.input;
    let carried = carried(way, &old.nodes, &old.edges);
    let (nodes, edges) = carried.map_err(|number| format!("the tables are refused by {number}"))?;
    let input = encode::runner_input(&RunnerInput { nodes, edges, ..old });
    match input.len() {
        0..=INPUT_BYTES => Ok(input),
        bytes => Err(format!(
            "the runner's input would take {} bytes, expected at most {}: fewer slots, or a shorter program",
            grouped(bytes),
            grouped(INPUT_BYTES)
        )),
    }
}

/// The host at the layout that it is carried from.
fn read_host(way: Way, image: &RunnerImage) -> Result<Host, String> {
    let host = image.host_at(way.from());
    host.map_err(|fault| {
        let already = image.host_at(way.to()).is_ok();
        let what = if already { "; these are tables of the other core already" } else { "" };
        format!("{}{what}", fault.place_and_reason())
    })
}

/// As many slots as the host has, and its labels, can be held.
fn check_fits(to: &Layout, host: &Host) -> Result<(), String> {
    for (kind, slots, most) in [("node", host.nodes.len(), to.most_nodes), ("edge", host.edges.len(), to.most_edges)] {
        if slots > most {
            return Err(format!("{slots} {kind} slots, expected at most {most}"));
        }
    }
    for (slot, node) in host.live_nodes() {
        check_label(to, "node", slot, &node.label)?;
    }
    for (slot, edge) in host.live_edges() {
        check_label(to, "edge", slot, &edge.label)?;
    }
    Ok(())
}

fn check_label(to: &Layout, kind: &str, slot: usize, label: &Label) -> Result<(), String> {
    match label.atoms().len() {
        atoms if to.holds(atoms) => Ok(()),
        atoms => Err(format!("{kind} {slot} has a label of {atoms} atoms, expected at most {}", to.atoms)),
    }
}
