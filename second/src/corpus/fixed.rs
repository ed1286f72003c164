//! The wide core's images at the front of every corpus: the cases of document 01, corners that random images meet seldom, long labels, modes
//! of rules, groupings of sequences, procedures, an image for each clause that can refuse, the accepted ones that stand beside them, and some refused
//! twice over.

use super::cases::cases;
use super::corners::corners;
use super::groupings::groupings;
use super::long_labels::long_labels;
use super::mode_programs::mode_programs;
use super::modes::modes;
use super::procedures::procedures;
use super::LAYOUT;
use crate::encode::{runner_input, RunnerInput};
use crate::refusals::{of_run, of_runner, run_refused_for};
use std::sync::OnceLock;

/// The most bytes that a field holds, and so an image of a corpus.
pub const MOST_BYTES: usize = 65_535;

/// The fixed images in order, each once.
pub fn fixed_images() -> &'static [Vec<u8>] {
    static IMAGES: OnceLock<Vec<Vec<u8>>> = OnceLock::new();
    IMAGES.get_or_init(|| each_once(cases_and_refusals()))
}

fn cases_and_refusals() -> Vec<Vec<u8>> {
    let mut inputs = cases();
    inputs.extend(corners());
    inputs.extend(long_labels());
    inputs.extend(modes());
    inputs.extend(mode_programs());
    inputs.extend(groupings());
    inputs.extend(procedures());
    let calls = of_run(LAYOUT);
    inputs.extend(calls.iter().filter_map(|it| it.accepted.runner_input(LAYOUT)));
    inputs.extend(calls.iter().filter_map(|it| it.refused.runner_input(LAYOUT)));
    inputs.extend(refused_twice());
    let mut images: Vec<Vec<u8>> = inputs.iter().map(runner_input).collect();
    for it in of_runner() {
        images.extend([it.accepted, it.refused]);
    }
    images
}

/// Two numbers apply to each of these. Those of 14 are long, so there are few of them.
fn refused_twice() -> Vec<RunnerInput> {
    const NUMBERS: [u32; 8] = [10, 11, 13, 15, 16, 17, 18, 19];
    let mut pairs = vec![[13, 14], [14, 15]];
    for (index, low) in NUMBERS.into_iter().enumerate() {
        pairs.extend(NUMBERS[index + 1..].iter().map(|high| [low, *high]));
    }
    let calls = pairs.iter().map(|pair| run_refused_for(LAYOUT, pair));
    calls.filter_map(|call| call.runner_input(LAYOUT)).collect()
}

pub fn each_once(images: Vec<Vec<u8>>) -> Vec<Vec<u8>> {
    let mut once: Vec<Vec<u8>> = Vec::new();
    for image in images {
        if image.len() <= MOST_BYTES && !once.contains(&image) {
            once.push(image);
        }
    }
    once
}
