//! Rewriting an image of the old form in today's, and carrying the tables of a runner image over from the old layout. Of programs
//! form alone is asked for: references and placement are the same in both forms, and without calls the depth is a matter of form.

use super::image::{grouped, is_runner_image, runner_image, RunnerImage};
use crate::carrying::{carried, Way};
use crate::decode::{self, Damage};
use crate::encode::{self, RunnerInput};
use crate::layout::Layout;
use crate::listing::INPUT_BYTES;
use crate::old_form;
use crate::tree::limit::IMAGE_BYTES;
use std::fmt;

/// An image that was renewed, and what was done with its host, if it has one.
#[derive(Clone, Debug, PartialEq, Eq)]
pub struct Renewed {
    pub image: Vec<u8>,
    pub host: Option<HostRenewal>,
}

/// What was done with the tables of a runner image.
#[derive(Clone, Copy, Debug, PartialEq, Eq)]
pub enum HostRenewal {
    Widened,
    Left,
}

impl fmt::Display for HostRenewal {
    fn fmt(&self, out: &mut fmt::Formatter) -> fmt::Result {
        out.write_str(match self {
            HostRenewal::Widened => "the host's tables are widened, from labels of at most four atoms to eight",
            HostRenewal::Left => "the host's tables have room for eight atoms in a label already and stay as they are",
        })
    }
}

/// The image in today's form, or why there is none. A tree has one image in each form, so that all but ifs and tries stays byte
/// for byte in a program, and each of them takes a byte more. Tables that keep the old layout are widened, slot by slot.
pub fn renew(bytes: &[u8]) -> Result<Renewed, String> {
    if !is_runner_image(bytes) {
        let image = renewed_program(bytes, 0)?;
        return Ok(Renewed { image, host: None });
    }
    let image = runner_image(bytes).map_err(|fault| fault.to_string())?;
    let (nodes, edges, host) = renewed_tables(&image)?;
    let old = image.input;
    let widened = (nodes.len(), edges.len()) != (old.nodes.len(), old.edges.len());
    let program = match renewed_program(&old.program, image.program_at) {
        Err(NotRenewed::OfToday(_)) if widened => old.program,
        program => program?,
    };
    let input = encode::runner_input(&RunnerInput {
        nodes,
        edges,
        program,
        ..old
    });
    check_length("the runner's input", &input, INPUT_BYTES, "made")?;
    Ok(Renewed {
        image: input,
        host: Some(host),
    })
}

/// Both tables with room for eight atoms in a label. Tables that keep both layouts are taken for old ones.
fn renewed_tables(image: &RunnerImage) -> Result<(Vec<u8>, Vec<u8>, HostRenewal), String> {
    let RunnerInput { nodes, edges, .. } = &image.input;
    if let Ok((nodes, edges)) = carried(Way::Widen, nodes, edges) {
        return Ok((nodes, edges, HostRenewal::Widened));
    }
    match (image.host_at(&Layout::FOUR), image.host_at(&Layout::BASE)) {
        (Err(of_four), Err(of_eight)) => Err(format!(
            "the host's tables keep neither the layout of four atoms ({}) nor that of eight ({})",
            of_four.place_and_reason(),
            of_eight.place_and_reason()
        )),
        _ => Ok((nodes.clone(), edges.clone(), HostRenewal::Left)),
    }
}

/// Why a program isn't renewed.
enum NotRenewed {
    /// It is of today's form alone.
    OfToday(String),
    Refused(String),
}

impl From<NotRenewed> for String {
    fn from(reason: NotRenewed) -> String {
        match reason {
            NotRenewed::OfToday(reason) | NotRenewed::Refused(reason) => reason,
        }
    }
}

/// The program image that starts at offset `start`, renewed. No field gets too long for its two bytes of length: an image
/// of at most 8,192 bytes grows by less than a ninth.
fn renewed_program(image: &[u8], start: usize) -> Result<Vec<u8>, NotRenewed> {
    if image.len() > IMAGE_BYTES {
        return Err(NotRenewed::Refused(format!(
            "offset {}, program: expected at most {IMAGE_BYTES} bytes, found {}; this was no image of the old form either",
            start + IMAGE_BYTES,
            image.len()
        )));
    }
    let program = old_form::program(image).map_err(|damage| not_old(image, start, &damage))?;
    let renewed = encode::program(&program);
    check_length("the program", &renewed, IMAGE_BYTES, "split or made").map_err(NotRenewed::Refused)?;
    Ok(renewed)
}

/// Why an image that the old form does not read is refused.
fn not_old(image: &[u8], start: usize, damage: &Damage) -> NotRenewed {
    let Damage {
        at,
        field,
        expected,
    } = damage;
    let only_today = match image.get(*at) {
        Some(0x17) => "procedures (0x17)",
        Some(0x58) => "calls (0x58)",
        _ => "guarded commands (0x59)",
    };
    match decode::program(image) {
        Ok(_) => NotRenewed::OfToday(format!("an image of today's form already, with {only_today}")),
        Err(_) => NotRenewed::Refused(format!(
            "offset {}, {field}: expected {expected}; this is no image of the old form",
            start + at
        )),
    }
}

fn check_length(what: &str, renewed: &[u8], most: usize, remedy: &str) -> Result<(), String> {
    let over = match renewed.len().saturating_sub(most) {
        0 => return Ok(()),
        1 => "1 byte".to_string(),
        over => format!("{over} bytes"),
    };
    Err(format!(
        "renewed, {what} would have {} bytes, over the limit of {}: it has to be {remedy} smaller by {over}",
        grouped(renewed.len()),
        grouped(most)
    ))
}
